/* SPDX-License-Identifier: BSD-3-Clause */
/*
 * What the files of the DPDK event driver share: a device and a port as rte_eventdev knows them, over a device of evsched.h.
 *
 * A device of evsched.h is made at each start, of what was set up before it, and let go of at each stop. One lock stands around all that is
 * the device's thread's there: sweeps, which the service makes, reading counts, and the stop. A port is used by one thread at a time, as
 * DPDK asks, without a lock; what it counts it writes for readers in other threads, by relaxed atomic stores of its own words.
 */
#ifndef EVSCHED_EVENTDEV_H
#define EVSCHED_EVENTDEV_H

#include <stdbool.h>
#include <stdint.h>
#include <stdio.h>

#include <rte_common.h>
#include <rte_errno.h>
#include <rte_eventdev.h>
#include <rte_log.h>

#include <eventdev_pmd.h>
#include <eventdev_pmd_vdev.h>

#include <evsched.h>

#define EVD_DRIVER event_evsched

enum {
	EVD_DEVICE_STATS = 8,       /* xstats of a device, */
	EVD_PORT_STATS = 12,        /* of a port before those of its dequeues by size, of which there is one for each four events, */
	EVD_QUEUE_STATS = 8,        /* of a queue before those by port, */
	EVD_QUEUE_PORT_STATS = 2,   /* and of a queue and a port */
	EVD_SIZES = EVSCHED_MAX_DEPTH / 4 + 1,
	EVD_STATS = EVD_DEVICE_STATS + EVSCHED_MAX_PORTS * (EVD_PORT_STATS + EVD_SIZES)
		+ EVSCHED_MAX_QUEUES * (EVD_QUEUE_STATS + EVSCHED_MAX_PORTS * EVD_QUEUE_PORT_STATS),
};

/* What is said once in a port's run. */
enum { EVD_SAID_QUEUE = 1, EVD_SAID_UNHELD = 2, EVD_SAID_OP = 4, EVD_SAID_DROP = 8 };

/* The arguments of a device. */
struct evd_arguments {
	uint32_t credit_quanta; /* how many credits a port draws at a time, at most */
	uint32_t sched_quanta;
	uint32_t max_events;    /* what rte_event_dev_info_get says of events and depths */
	uint32_t max_depth;
	uint32_t numa_node;
	uint32_t drops_bad_queue;
	uint32_t refuses_unheld;
	uint32_t relinks_next;
};

/* A port. What it counts only its thread writes. */
struct evd_port {
	struct evsched_port *port; /* NULL while the device is stopped */
	struct evd *device;
	uint64_t sent;             /* into its ring: NEWs, FORWARDs, RELEASEs and implicit ones */
	uint64_t pocket;
	bool is_linked;            /* to a queue in this run: else it never holds an event */
	bool releases;             /* a dequeue releases what is held */
	bool is_set_up;
	uint8_t number;
	uint8_t depth;             /* of the ring from which it dequeues */
	uint32_t said;
	uint64_t dropped;
	uint64_t dequeues[EVSCHED_MAX_DEPTH + 1]; /* how many gave so many events */
} __rte_cache_aligned;

/* A device. */
struct evd {
	uint8_t has_lock;          /* who has the lock */
	uint32_t wanted;           /* how many readers wait for it */
	struct evsched *running;   /* NULL while it is stopped */
	void *memory;              /* in which that lies */
	int did;                   /* how many the last sweep took and gave */
	struct rte_eventdev *eventdev;
	struct eventdev_ops ops;   /* its own, since a stop's callback is kept in it */
	uint32_t service;
	uint32_t queues_set_up;    /* a bit each */
	bool has_said_relink;
	struct evd_arguments arguments;
	uint64_t reset[EVD_STATS]; /* what each xstat was at its last reset */
	struct evd_port ports[EVSCHED_MAX_PORTS];
};

extern int evd_logtype;

#define EVD_LOG(level, device, ...) evd_log(RTE_LOG_##level, (device)->eventdev->data->name, __VA_ARGS__)

/* Writes a line of the log, after the device's name. */
void evd_log(uint32_t level, const char *name, const char *format, ...) __rte_format_printf(3, 4);

static inline struct evd *evd_of(const struct rte_eventdev *dev)
{
	return (struct evd *)dev->data->dev_private;
}

/* Who has the device's lock. Nobody sweeps a device that is stopped, so that is a state of it. */
enum { EVD_STOPPED, EVD_NOBODY, EVD_SWEEP, EVD_READER };

/* Takes the lock from where it is thought to be, or says where it is. */
static inline bool evd_try_lock(struct evd *device, uint8_t *is, uint8_t who)
{
	return __atomic_compare_exchange_n(&device->has_lock, is, who, 0, __ATOMIC_ACQUIRE, __ATOMIC_RELAXED);
}

static inline void evd_unlock(struct evd *device)
{
	__atomic_store_n(&device->has_lock, device->running != NULL ? EVD_NOBODY : EVD_STOPPED, __ATOMIC_RELEASE);
}

/* A port's own word, which other threads read. */
static inline void evd_write(uint64_t *at, uint64_t value)
{
	__atomic_store_n(at, value, __ATOMIC_RELAXED);
}

static inline uint64_t evd_read(const uint64_t *at)
{
	return __atomic_load_n(at, __ATOMIC_RELAXED);
}

/* The credits in a port's pocket, in the port's thread. */
static inline uint64_t evd_pocket(const struct evd_port *port)
{
	return (uint64_t)evsched_port_pocket(evsched_priv_at(port->port));
}

/* How many dequeues of a port gave from so many to so many events. */
static inline uint64_t evd_dequeues(const struct evd_port *port, uint32_t from, uint32_t to)
{
	uint64_t sum = 0;
	uint32_t n;
	for (n = from; n <= to && n <= EVSCHED_MAX_DEPTH; n++)
		sum += evd_read(&port->dequeues[n]);
	return sum;
}

/* How many events all of its dequeues gave. */
static inline uint64_t evd_received(const struct evd_port *port)
{
	uint64_t sum = 0;
	uint32_t n;
	for (n = 1; n <= EVSCHED_MAX_DEPTH; n++)
		sum += n * evd_read(&port->dequeues[n]);
	return sum;
}

/* evsched_arguments.c: reads a device's arguments; 0, or -EINVAL after a line of the log that says what is wrong. */
int evd_read_arguments(const char *name, const char *text, struct evd_arguments *to);

/* evsched_setup.c: what is set up before a start. */
void evd_info_get(struct rte_eventdev *dev, struct rte_event_dev_info *info);
int evd_configure(const struct rte_eventdev *dev);
void evd_queue_def_conf(struct rte_eventdev *dev, uint8_t queue, struct rte_event_queue_conf *conf);
int evd_queue_setup(struct rte_eventdev *dev, uint8_t queue, const struct rte_event_queue_conf *conf);
void evd_queue_release(struct rte_eventdev *dev, uint8_t queue);
void evd_port_def_conf(struct rte_eventdev *dev, uint8_t port, struct rte_event_port_conf *conf);
int evd_port_setup(struct rte_eventdev *dev, uint8_t port, const struct rte_event_port_conf *conf);
void evd_port_release(void *port);
int evd_port_link(struct rte_eventdev *dev, void *port, const uint8_t queues[], const uint8_t priorities[], uint16_t n);
int evd_port_unlink(struct rte_eventdev *dev, void *port, uint8_t queues[], uint16_t n);
int32_t evd_events_limit(const struct rte_eventdev *dev);
uint32_t evd_links(const struct rte_eventdev *dev, uint8_t port);

/* evsched_run.c: start, sweeps, stop; and the lock, waited for by any thread. */
void evd_lock(struct evd *device);
int evd_start(struct rte_eventdev *dev);
int32_t evd_sweep(void *device);
void evd_stop(struct rte_eventdev *dev);
int evd_close(struct rte_eventdev *dev);

/* evsched_burst.c: a port's enqueues and dequeues. */
uint16_t evd_enqueue(void *port, const struct rte_event *ev);
uint16_t evd_enqueue_burst(void *port, const struct rte_event ev[], uint16_t n);
uint16_t evd_dequeue(void *port, struct rte_event *ev, uint64_t ticks);
uint16_t evd_dequeue_burst(void *port, struct rte_event ev[], uint16_t n, uint64_t ticks);
void evd_port_quiesce(struct rte_eventdev *dev, void *port, rte_eventdev_port_flush_t flush, void *arg);

/* evsched_counts.c: what the library says of a device that runs, under its lock. */
struct evd_sweeps {
	uint64_t sweeps, no_take, no_give; /* how many there were; that took nothing; that gave nothing */
	uint64_t given_to;                 /* to which ports the last one gave something, a bit each */
};
struct evd_queue_now {
	uint64_t waiting[4]; /* at each level of priority */
	uint64_t unanswered, kept;
};
struct evd_share {
	uint64_t given;  /* how many of a queue's events a port was given, */
	uint64_t pinned; /* and how many of its slots are with the port */
};
void evd_count_sweeps(const struct evd *device, struct evd_sweeps *to);
void evd_count_queue_now(const struct evd *device, uint32_t queue, struct evd_queue_now *to);
void evd_count_share(const struct evd *device, uint32_t queue, uint32_t port, struct evd_share *to);

/* evsched_xstats.c, evsched_dump.c: what is counted, read in any thread. */
void evd_xstats_begin(struct evd *device);
int evd_xstats_names(const struct rte_eventdev *dev, enum rte_event_dev_xstats_mode mode, uint8_t number,
	struct rte_event_dev_xstats_name *names, uint64_t *ids, unsigned int size);
int evd_xstats_get(const struct rte_eventdev *dev, enum rte_event_dev_xstats_mode mode, uint8_t number, const uint64_t ids[],
	uint64_t values[], unsigned int n);
uint64_t evd_xstats_by_name(const struct rte_eventdev *dev, const char *name, uint64_t *id);
int evd_xstats_reset(struct rte_eventdev *dev, enum rte_event_dev_xstats_mode mode, int16_t number, const uint64_t ids[], uint32_t n);
void evd_dump(struct rte_eventdev *dev, FILE *to);

#endif
