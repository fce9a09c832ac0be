/* SPDX-License-Identifier: BSD-3-Clause */
/*
 * The types of evsched.h, which includes it: events, a device's configuration, what it counts and reports, and the numbers of both.
 */
#ifndef EVSCHED_TYPES_H
#define EVSCHED_TYPES_H

#include <stdint.h>

#ifdef __cplusplus
extern "C" {
#endif

/* What an enqueue asks: RTE_EVENT_OP_NEW, _FORWARD and _RELEASE, and one more. */
#define EVSCHED_OP_NEW 0
#define EVSCHED_OP_FORWARD 1
#define EVSCHED_OP_RELEASE 2
#define EVSCHED_OP_FORWARD_MORE 3

/* RTE_SCHED_TYPE_*, of a queue. */
#define EVSCHED_TYPE_ORDERED 0
#define EVSCHED_TYPE_ATOMIC 1
#define EVSCHED_TYPE_PARALLEL 2

/* RTE_EVENT_DEV_PRIORITY_*. A queue's priority has 256 values, an event's four levels: priority / 64. */
#define EVSCHED_PRIORITY_HIGHEST 0
#define EVSCHED_PRIORITY_NORMAL 128
#define EVSCHED_PRIORITY_LOWEST 255

/* RTE_EVENT_QUEUE_CFG_SINGLE_LINK: exactly one port is linked. Its schedule_type doesn't count, as in DPDK: the queue is parallel. */
#define EVSCHED_QUEUE_CFG_SINGLE_LINK (1u << 1)

/* RTE_EVENT_PORT_CFG_DISABLE_IMPL_REL: a dequeue releases nothing. The hints are DPDK's, and mean nothing here. */
#define EVSCHED_PORT_CFG_DISABLE_IMPL_REL (1u << 0)
#define EVSCHED_PORT_CFG_HINT_PRODUCER (1u << 2)
#define EVSCHED_PORT_CFG_HINT_CONSUMER (1u << 3)
#define EVSCHED_PORT_CFG_HINT_WORKER (1u << 4)

/* A lane is a pair of rings between the scheduler and a port, one each way: each port has one. With this flag each slot of an atomic queue
 * (its flows fall into nb_atomic_flows of them) has a lane too, 16 events deep, which linked ports claim, one at a time. */
#define EVSCHED_DEV_CFG_FLOW_LANES (1u << 0)

/* The limits of every device. */
#define EVSCHED_MAX_QUEUES 32
#define EVSCHED_MAX_PORTS 32
#define EVSCHED_MAX_LANES 160           /* a port's lane has the port's number; after these come the flow lanes, by queue and slot */
#define EVSCHED_MAX_EVENTS_LIMIT 16384
#define EVSCHED_MAX_DEPTH 64            /* of a port: events held, and NEWs and answers in its ring */
#define EVSCHED_MAX_ATOMIC_FLOWS 64     /* of one atomic queue */
#define EVSCHED_MAX_ALL_ATOMIC_FLOWS 128
#define EVSCHED_MAX_ORDER_SEQUENCES 256
#define EVSCHED_MAX_SCHED_QUANTA 64
#define EVSCHED_MAX_FORWARD_MORE 4      /* beside one held event */
#define EVSCHED_MAX_BURST 64            /* of one dequeue */

/* Why no device is made, negative from evsched_create; of several faults one. evsched_check says where it is. */
#define EVSCHED_E_QUEUE_COUNT 1000       /* nb_event_queues is not 1 to 32 */
#define EVSCHED_E_PORT_COUNT 1001        /* nb_event_ports is not 1 to 32 */
#define EVSCHED_E_LIMIT_RANGE 1002       /* nb_events_limit is not 1 to 16384 */
#define EVSCHED_E_QUANTUM_RANGE 1003     /* credit_quanta is not 1 to the limit */
#define EVSCHED_E_THRESHOLD_RANGE 1004   /* a new_event_threshold is neither 0 nor credit_quanta to the limit */
#define EVSCHED_E_DEPTH_RANGE 1005       /* a dequeue_depth or enqueue_depth is not 1 to 64 */
#define EVSCHED_E_FLOW_SLOTS 1006        /* nb_atomic_flows of an atomic queue is not 1 to 64, or there are more than 128 in all */
#define EVSCHED_E_ORDER_DEPTH 1007       /* nb_atomic_order_sequences of an ordered queue is not 1 to 256 */
#define EVSCHED_E_SWEEP_RANGE 1008       /* sched_quanta is not 1 to 64 */
#define EVSCHED_E_LINK_UNKNOWN 1009      /* a port is linked to a queue that isn't there */
#define EVSCHED_E_LINK_TWICE 1010        /* a port is linked to a queue twice: not in C, where a link is a bit */
#define EVSCHED_E_QUEUE_UNLINKED 1011    /* a queue is linked to no port */
#define EVSCHED_E_SINGLE_LINK_COUNT 1012 /* a single-link queue is linked to several ports */
#define EVSCHED_E_UNKNOWN_TYPE 1013      /* a schedule_type is none of the three */
#define EVSCHED_E_UNKNOWN_FLAG 1014      /* a flag is set that isn't named above */
#define EVSCHED_E_NOT_SHARED 1015        /* the device couldn't be shared out among its ports: not seen */
#define EVSCHED_E_RESERVED 1016          /* a queue's rsvd is not 0 */
#define EVSCHED_E_UNALIGNED 1017         /* evsched_create_in: the memory is NULL or isn't aligned to 64 */

/* The 16 bytes of struct rte_event. After a dequeue op is EVSCHED_OP_FORWARD, so that an event which comes back as it is is passed on. */
__extension__ struct evsched_event {
	__extension__ union {
		uint64_t event;
		__extension__ struct {
			uint32_t flow_id : 20;
			uint32_t sub_event_type : 8;
			uint32_t event_type : 4;
			__extension__ uint8_t op : 2;
			__extension__ uint8_t rsvd : 4;
			__extension__ uint8_t sched_type : 2;
			uint8_t queue_id;
			uint8_t priority;
			uint8_t impl_opaque;
		};
	};
	__extension__ union {
		uint64_t u64;
		void *event_ptr;
	};
};

/* As rte_event_queue_conf. */
struct evsched_queue_conf {
	uint32_t nb_atomic_flows;           /* atomic: 1 to 64 slots, 128 in all; a flow's, flow_id modulo this, is with one port at a time */
	uint32_t nb_atomic_order_sequences; /* ordered: 1 to 256 events are given out at a time, from the oldest unanswered one on */
	uint32_t event_queue_cfg;
	uint8_t schedule_type;
	uint8_t priority;                   /* 0 is served first; of equal ones the lower queue */
	uint16_t rsvd;                      /* 0 */
};

/*
 * As rte_event_port_conf, and the links. A port draws credits: it takes credit_quanta of them out of the device's pool at a time, and a
 * NEW or FORWARD_MORE costs one of those. Where its threshold is 0 it goes by the limit, as it is when the device is made:
 *
 * - of a port with links it is nb_events_limit;
 * - of a port without links, a producer, it is nb_events_limit less a reserve, so that workers find credits for the events that they add:
 *   a tenth of the limit, or 4 (EVSCHED_MAX_FORWARD_MORE) times the dequeue_depth of all ports that have links, whichever is more, but at
 *   most half of the limit; and the threshold is at least credit_quanta.
 */
struct evsched_port_conf {
	int32_t new_event_threshold; /* 0, or credit_quanta to the limit: it draws where no more than this are out of the pool then, in all */
	uint16_t dequeue_depth;      /* 1 to 64: how many events it may hold, those among them that wait in its ring */
	uint16_t enqueue_depth;      /* 1 to 64: how many NEWs and answers its ring takes until a sweep takes them */
	uint32_t event_port_cfg;
	uint32_t links;              /* bit q: it is linked to queue q. Each queue needs a port; a producer's links are 0 */
};

/* As rte_event_dev_config and the arguments of event_sw. */
struct evsched_dev_config {
	int32_t nb_events_limit;  /* 1 to 16384: how many credits there are; there is no open system (-1) */
	uint32_t nb_event_queues; /* 1 to 32 */
	uint32_t nb_event_ports;  /* 1 to 32 */
	uint32_t credit_quanta;   /* 1 to the limit: how many credits a port draws at a time. What rests in a port is out of others' reach */
	uint32_t sched_quanta;    /* 1 to 64: how many events of a lane, and of a queue, one sweep takes and gives at most */
	uint32_t event_dev_cfg;
	struct evsched_queue_conf queue[EVSCHED_MAX_QUEUES];
	struct evsched_port_conf port[EVSCHED_MAX_PORTS];
};

/* Where the stop found the credits, and for each event inside one more: in all nb_events_limit. */
struct evsched_report {
	uint64_t free;        /* credits in the pool, */
	uint64_t own;         /* with the scheduler, */
	uint64_t pockets;     /* and with the ports */
	uint64_t waiting;     /* events in queues, */
	uint64_t kept;        /* forwards that an ordered queue keeps until their turn, */
	uint64_t undelivered; /* events given to a lane and not dequeued, */
	uint64_t held;        /* dequeued and not answered, */
	uint64_t untaken;     /* and enqueued since the last sweep, but for RELEASEs */
	uint64_t turned;      /* NEWs that sweeps turned away after the shut; their credits went back, so they don't count in the sum */
};

/* The place of an event that was left; the lists of the report but `held`, whose events the program has. */
#define EVSCHED_LEFT_WAITING 0
#define EVSCHED_LEFT_KEPT 1
#define EVSCHED_LEFT_UNDELIVERED 2
#define EVSCHED_LEFT_UNTAKEN 3
#define EVSCHED_LEFT_TURNED 4

struct evsched_left {
	struct evsched_event event;
	uint64_t number; /* waiting, undelivered: which of its queue's accepted events, from 0; kept: the event's that it was forwarded from */
	uint64_t place;
	uint64_t lane;  /* waiting, kept: the queue; undelivered, untaken, turned: the lane */
};

/* What the scheduler counted of a queue, of a lane and of the device, exactly, since the start. */
struct evsched_queue_stats {
	uint64_t rx_new;       /* accepted as NEW; */
	uint64_t rx_forwarded; /* as FORWARD or FORWARD_MORE */
	uint64_t tx;           /* given */
};
struct evsched_port_stats {
	uint64_t rx_new;    /* its NEWs that were accepted */
	uint64_t tx;        /* given to the lane */
	uint64_t released;  /* taken from it: RELEASEs, */
	uint64_t forwarded; /* FORWARDs, */
	uint64_t added;     /* FORWARD_MOREs */
	uint64_t turned;    /* its NEWs that were turned away after the shut */
	uint64_t bounced;   /* how often a sweep found its ring full */
};
struct evsched_dev_stats {
	uint64_t rx_new; /* accepted as NEW by all queues */
	uint64_t inside; /* waiting, unanswered or kept */
};

/* What a port counted of its own calls. */
struct evsched_port_counters {
	uint64_t enqueued;
	uint64_t dequeued;
	uint64_t released;     /* by implicit release */
	uint64_t stopped;      /* refused, by the causes of evsched_errno: ESHUTDOWN, */
	uint64_t bad_queue;    /* EINVAL, */
	uint64_t nothing_held; /* ENOENT, */
	uint64_t backpressure; /* ENOSPC, */
	uint64_t raced;        /* EAGAIN, */
	uint64_t full;         /* ENOBUFS, */
	uint64_t too_many;     /* E2BIG */
	uint64_t behind;       /* dequeues that were refused: ENOBUFS */
};

/*
 * What evsched_stats_read reads from any thread, while the device runs. The device's part (`dev`, `queue`, `share`, and of `port` what the
 * scheduler counted) is of one moment between two sweeps; what a port says of itself is of one between two of its calls. An age is how many
 * nanoseconds ago, at most, that was.
 */
struct evsched_dev_now {
	uint64_t rx_new;   /* accepted as NEW by all queues */
	uint64_t inside;   /* waiting, unanswered or kept */
	uint64_t sweeps;   /* how many there were, since evsched_create, and didn't run out of memory, */
	uint64_t taken;    /* what they took of ports */
	uint64_t given;    /* and gave to them, */
	uint64_t no_take;  /* how many of them took nothing, */
	uint64_t no_give;  /* and how many gave nothing */
	uint64_t free;     /* credits in the pool, */
	uint64_t own;      /* with the scheduler, */
	uint64_t progress; /* 1: it was published behind a sweep that took or gave anything */
	struct evsched_port_stats lanes; /* counted of all lanes in all, those of flows too */
	uint64_t rx;       /* accepted by all queues, */
	uint64_t tx;       /* and given by them */
	uint64_t ports;    /* bit p: the last sweep gave to port p's lane */
	uint64_t limit;    /* nb_events_limit */
	uint64_t pockets;  /* credits with the ports: the sum of what each said */
	uint64_t rx_ring;  /* how many NEWs and answers are in all rings to the scheduler, */
	uint64_t cq_ring;  /* and events in all rings to the ports: as rx_ring and cq_ring of a port, */
	uint64_t age;
};
struct evsched_queue_now {
	uint64_t rx_new;       /* as of evsched_queue_stats */
	uint64_t rx_forwarded;
	uint64_t tx;
	uint64_t level[4];     /* waiting, by level: priority / 64 */
	uint64_t unanswered;
	uint64_t kept;         /* forwards that an ordered queue keeps until their turn */
	uint64_t rx;           /* accepted in all */
	uint64_t waiting;      /* at all levels */
};
struct evsched_port_now {
	struct evsched_port_stats lane; /* as evsched_port_stats has them of the port's lane */
	uint64_t given;      /* by the last sweep to the lane */
	struct evsched_port_counters counters; /* said by the port: as evsched_port_counters has them, */
	uint64_t pocket;     /* the credits in it, */
	uint64_t held;       /* and how many events it holds */
	uint64_t rx;         /* accepted from the lane: NEW, FORWARD and FORWARD_MORE */
	uint64_t unanswered; /* given to the lane, and no answer taken from it */
	uint64_t rx_ring;    /* enqueued, and not taken by a sweep, */
	uint64_t rx_free;    /* and the rest of enqueue_depth; */
	uint64_t cq_ring;    /* given, and not dequeued, */
	uint64_t cq_free;    /* and the rest of dequeue_depth. These four are differences of what the port and the scheduler counted: exact
	                        while nothing moves, and EVSCHED_UNKNOWN where there are flow lanes */
	uint64_t age;        /* of what the port said */
};
struct evsched_share {
	uint64_t tx;     /* how many of the queue's events were given to the port's lane, */
	uint64_t pinned; /* and how many of its slots have an unanswered event there */
};
struct evsched_stats {
	struct evsched_dev_now dev;
	struct evsched_queue_now queue[EVSCHED_MAX_QUEUES]; /* those that aren't there are 0 */
	struct evsched_port_now port[EVSCHED_MAX_PORTS];
	struct evsched_share share[EVSCHED_MAX_QUEUES][EVSCHED_MAX_PORTS];
};
#define EVSCHED_UNKNOWN UINT64_MAX

/* As enum rte_event_dev_xstats_mode and struct rte_event_dev_xstats_name. */
enum evsched_xstats_mode { EVSCHED_XSTATS_DEVICE, EVSCHED_XSTATS_PORT, EVSCHED_XSTATS_QUEUE };
#define EVSCHED_XSTATS_NAME_SIZE 64
struct evsched_xstats_name {
	char name[EVSCHED_XSTATS_NAME_SIZE];
};

/* A device and a port. Their members are no business of a program. */
struct evsched;
struct evsched_port;

/* As rte_eventdev_stop_flush_t. */
typedef void (*evsched_flush_t)(struct evsched *dev, struct evsched_event event, void *arg);

#ifdef __cplusplus
}
#endif
#endif
