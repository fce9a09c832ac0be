/* SPDX-License-Identifier: BSD-3-Clause */
/*
 * What stands behind evsched.h, which includes it: the library's functions, and the block of memory in which a device lies. A program has
 * no need of either: it calls what evsched.h declares.
 */
#ifndef EVSCHED_LIB_H
#define EVSCHED_LIB_H

#ifndef EVSCHED_H
#error "include evsched.h"
#endif

/*
 * The library's functions. `at` is a place: so many bytes, aligned to 16. It is empty; then _init, _port or _control fills it, and
 * _clear or a join empties it. In between it is lent to one call at a time. What joins a hub came from that hub. An array has as
 * many elements as is said, and is no NULL where that is 0. Refusals are negative.
 */
size_t evsched_hub_size(void);
size_t evsched_port_size(void);
size_t evsched_control_size(void);
void evsched_hub_init(unsigned char *at, const struct evsched_dev_config *config);
void evsched_hub_port(unsigned char *at, size_t number, unsigned char *port);
void evsched_hub_control(unsigned char *at, unsigned char *control);
int64_t evsched_hub_join(unsigned char *at, unsigned char *port);
int64_t evsched_hub_join_control(unsigned char *at, unsigned char *control);
int64_t evsched_hub_sweep(unsigned char *at);
int64_t evsched_hub_inside(unsigned char *at);
int64_t evsched_hub_why(unsigned char *at);
int64_t evsched_hub_stop(unsigned char *at);
int64_t evsched_hub_report(unsigned char *at, uint64_t *counts, size_t n);
int64_t evsched_hub_left(unsigned char *at, struct evsched_left *left, size_t n);
int64_t evsched_hub_counts(unsigned char *at, size_t what, uint64_t *counts, size_t n);
int64_t evsched_hub_now(unsigned char *at, size_t what, uint64_t *counts, size_t n);
int64_t evsched_hub_shares(unsigned char *at, size_t queue, size_t port, uint64_t *counts, size_t n);
int64_t evsched_control_shut(unsigned char *at);
int64_t evsched_port_counts(unsigned char *at, uint64_t *counts, size_t n);
int64_t evsched_port_enqueue(unsigned char *at, const struct evsched_event *events, size_t n);
int64_t evsched_port_dequeue(unsigned char *at, struct evsched_event *events, size_t n);
int64_t evsched_port_why(unsigned char *at);
int64_t evsched_port_held(unsigned char *at);
int64_t evsched_port_pocket(unsigned char *at);
void evsched_hub_clear(unsigned char *at);
void evsched_port_clear(unsigned char *at);
void evsched_control_clear(unsigned char *at);

enum { EVSCHED_PRIV_LINE = 64 }; /* bytes: a cache line */

/* By these handles are known, and what was one. */
enum { EVSCHED_PRIV_DEVICE = 0x45764465, EVSCHED_PRIV_PORT = 0x4576506f, EVSCHED_PRIV_FREED = 0x45764672 };

/* How many words are published: before what is said; of the device, each queue, port's lane and share; and by a port (evsched_watch.h). */
enum {
	EVSCHED_PRIV_HEAD = 3, EVSCHED_PRIV_OF_DEVICE = 17, EVSCHED_PRIV_OF_QUEUE = 9, EVSCHED_PRIV_OF_LANE = 8, EVSCHED_PRIV_OF_SHARE = 2,
	EVSCHED_PRIV_OF_PORT = 13
};

/* How many statistics there are (evsched_xstats.h): of the device, of each port, of these of its rings, of each queue, of it by port. */
enum {
	EVSCHED_PRIV_X_DEVICE = 23, EVSCHED_PRIV_X_PORT = 28, EVSCHED_PRIV_X_RINGS = 4, EVSCHED_PRIV_X_QUEUE = 11, EVSCHED_PRIV_X_SHARE = 2
};

/* A port's handle: a cache line of its own, behind which the library's port lies. */
struct evsched_port {
	uint32_t magic;
	uint32_t number;
	struct evsched *dev;
	uintptr_t thread;  /* with EVSCHED_DEBUG: that is in a call of it, or 0 */
	uint64_t asked;    /* how often its thread was asked to publish: by readers; */
	uint64_t answered; /* up to which question it did; */
	uint64_t *said;    /* and what */
	unsigned char rest[EVSCHED_PRIV_LINE - 2 * sizeof(uint32_t) - 3 * sizeof(uint64_t) - 2 * sizeof(void *)];
};

/* A device: this, hub, control, ports and what was published in one block of memory, each in cache lines of its own. */
struct evsched {
	uint32_t magic;
	uint32_t lanes;
	unsigned char *hub;
	uint64_t asked, answered;         /* as a port's, of the thread that sweeps */
	unsigned char *control, *port;
	size_t stride;                    /* from one port to the next */
	void *base;                       /* what evsched_create allocated; NULL where the block is the program's */
	uintptr_t thread, shut_thread;    /* with EVSCHED_DEBUG: that is in a call of the device, or of its shut, or 0; */
	int flushes;                      /* how many flushes run; */
	struct evsched *next;             /* and which device was freed before it */
	uint64_t *said;                   /* as a port's */
	uint64_t *reset;                  /* by statistic: the count from which it counts since it was reset */
	uint32_t is_over;                 /* 1 after the stop: nothing is published any more */
	struct evsched_dev_config config; /* as it was resolved */
};

typedef char evsched_layout_is_right[sizeof(struct evsched_event) == 16 && sizeof(struct evsched_left) == 40
	&& sizeof(struct evsched_dev_config) == 1048 && sizeof(struct evsched_port) == EVSCHED_PRIV_LINE ? 1 : -1];
typedef char evsched_words_are_right[sizeof(struct evsched_dev_now) == (EVSCHED_PRIV_OF_DEVICE + 8) * sizeof(uint64_t)
	&& sizeof(struct evsched_queue_now) == (EVSCHED_PRIV_OF_QUEUE + 2) * sizeof(uint64_t)
	&& sizeof(struct evsched_port_now) == (EVSCHED_PRIV_OF_LANE + EVSCHED_PRIV_OF_PORT + 7) * sizeof(uint64_t)
	&& sizeof(struct evsched_share) == EVSCHED_PRIV_OF_SHARE * sizeof(uint64_t) ? 1 : -1];

static inline size_t evsched_priv_up(size_t bytes)
{
	return (bytes + EVSCHED_PRIV_LINE - 1) / EVSCHED_PRIV_LINE * EVSCHED_PRIV_LINE;
}

static inline struct evsched_port *evsched_priv_port(struct evsched *dev, uint32_t port)
{
	return (struct evsched_port *)(void *)(dev->port + port * dev->stride);
}

/* The library's port behind a handle. */
static inline unsigned char *evsched_priv_at(struct evsched_port *port)
{
	return (unsigned char *)port + EVSCHED_PRIV_LINE;
}

/* The library takes 64 events at a time. */
static inline uint16_t evsched_priv_enqueue(struct evsched_port *port, const struct evsched_event ev[], uint16_t nb_events)
{
	static const struct evsched_event none = {{0}, {0}};
	const struct evsched_event *from = nb_events ? ev : &none;
	uint16_t done = 0;
	if (nb_events <= EVSCHED_MAX_BURST) {
		int64_t taken = evsched_port_enqueue(evsched_priv_at(port), from, nb_events);
		return taken > 0 ? (uint16_t)taken : 0;
	}
	for (;;) {
		uint16_t left = (uint16_t)(nb_events - done);
		uint16_t part = left < EVSCHED_MAX_BURST ? left : EVSCHED_MAX_BURST;
		int64_t taken = evsched_port_enqueue(evsched_priv_at(port), from + done, part);
		if (taken > 0)
			done = (uint16_t)(done + taken);
		if (taken < part || done == nb_events)
			return done;
	}
}

/* What a call that answers an int answers: a count or 0, or the refusal. */
static inline int evsched_priv_done(int64_t r)
{
	return r < 0 ? (int)r : 0;
}

/* Hands control and ports out of the hub. Where they aren't there, since it stopped, each is a handle whose calls answer -ENODEV. */
static inline void evsched_priv_hand_out(struct evsched *dev)
{
	uint32_t p;
	for (p = 0; p < dev->config.nb_event_ports; p++)
		evsched_hub_port(dev->hub, p, evsched_priv_at(evsched_priv_port(dev, p)));
	evsched_hub_control(dev->hub, dev->control);
}

/* Room is for at most so many ports, whatever a configuration says. */
static inline size_t evsched_priv_ports(uint32_t nb_event_ports)
{
	return nb_event_ports < EVSCHED_MAX_PORTS ? nb_event_ports : EVSCHED_MAX_PORTS;
}

/* How many bytes a port has: its handle, the library's port, and what it says. */
static inline size_t evsched_priv_stride(void)
{
	return EVSCHED_PRIV_LINE + evsched_priv_up(evsched_port_size())
		+ evsched_priv_up((EVSCHED_PRIV_HEAD + EVSCHED_PRIV_OF_PORT) * sizeof(uint64_t));
}

/* How many bytes what is published of a device has, with so many ports and as many queues as may be. */
static inline size_t evsched_priv_said_size(size_t ports)
{
	return evsched_priv_up((EVSCHED_PRIV_HEAD + EVSCHED_PRIV_OF_DEVICE + EVSCHED_MAX_QUEUES * EVSCHED_PRIV_OF_QUEUE
		+ ports * (EVSCHED_PRIV_OF_LANE + EVSCHED_MAX_QUEUES * EVSCHED_PRIV_OF_SHARE)) * sizeof(uint64_t));
}

/* And how many the counts from which its statistics count. */
static inline size_t evsched_priv_reset_size(size_t ports)
{
	return evsched_priv_up((EVSCHED_PRIV_X_DEVICE + ports * EVSCHED_PRIV_X_PORT
		+ EVSCHED_MAX_QUEUES * (EVSCHED_PRIV_X_QUEUE + ports * EVSCHED_PRIV_X_SHARE)) * sizeof(uint64_t));
}

/* Where in a device's block each of its parts lies. */
static inline struct evsched *evsched_priv_lay_out(void *memory, size_t ports)
{
	struct evsched *dev = (struct evsched *)memory;
	dev->hub = (unsigned char *)memory + evsched_priv_up(sizeof(*dev));
	dev->control = dev->hub + evsched_priv_up(evsched_hub_size());
	dev->port = dev->control + evsched_priv_up(evsched_control_size());
	dev->stride = evsched_priv_stride();
	dev->said = (uint64_t *)(void *)(dev->port + ports * dev->stride);
	dev->reset = (uint64_t *)(void *)(dev->port + ports * dev->stride + evsched_priv_said_size(ports));
	dev->base = NULL;
	dev->thread = dev->shut_thread = 0;
	dev->flushes = 0;
	dev->asked = dev->answered = 0;
	dev->is_over = 0;
	memset(dev->said, 0, evsched_priv_said_size(ports) + evsched_priv_reset_size(ports));
	return dev;
}

/* Whether a queue's slots have lanes of their own. */
static inline int evsched_priv_has_flow_lanes(const struct evsched_dev_config *config, uint32_t queue)
{
	return config->event_dev_cfg == EVSCHED_DEV_CFG_FLOW_LANES && config->queue[queue].schedule_type == EVSCHED_TYPE_ATOMIC;
}

/* Tells device and ports what they are, and counts the lanes. */
static inline void evsched_priv_number(struct evsched *dev)
{
	uint32_t p, q;
	for (p = 0; p < dev->config.nb_event_ports; p++) {
		struct evsched_port *port = evsched_priv_port(dev, p);
		port->magic = EVSCHED_PRIV_PORT;
		port->number = p;
		port->dev = dev;
		port->thread = 0;
		port->asked = port->answered = 0;
		port->said = (uint64_t *)(void *)(dev->port + (p + 1) * dev->stride) - EVSCHED_PRIV_HEAD - EVSCHED_PRIV_OF_PORT;
		memset(port->said, 0, (EVSCHED_PRIV_HEAD + EVSCHED_PRIV_OF_PORT) * sizeof(uint64_t));
	}
	dev->magic = EVSCHED_PRIV_DEVICE;
	dev->lanes = dev->config.nb_event_ports;
	for (q = 0; q < dev->config.nb_event_queues; q++)
		dev->lanes += evsched_priv_has_flow_lanes(&dev->config, q) ? dev->config.queue[q].nb_atomic_flows : 0;
}

/* Where a configuration has something in a reserved field: the queue, or EVSCHED_MAX_QUEUES where it hasn't. */
static inline uint32_t evsched_priv_reserved(const struct evsched_dev_config *config)
{
	uint32_t q;
	for (q = 0; q < config->nb_event_queues && q < EVSCHED_MAX_QUEUES; q++)
		if (config->queue[q].rsvd != 0)
			return q;
	return EVSCHED_MAX_QUEUES;
}

/* How many credits the threshold of a port without links leaves to those that have links, where it isn't said. */
static inline int32_t evsched_priv_kept_free(const struct evsched_dev_config *config)
{
	int32_t tenth = config->nb_events_limit / 10, added = 0, most = config->nb_events_limit / 2;
	uint32_t p;
	for (p = 0; p < config->nb_event_ports && p < EVSCHED_MAX_PORTS; p++)
		added += config->port[p].links ? EVSCHED_MAX_FORWARD_MORE * config->port[p].dequeue_depth : 0;
	added = added > tenth ? added : tenth;
	return added < most ? added : most;
}

/* The threshold of a port that doesn't say one. */
static inline int32_t evsched_priv_threshold(const struct evsched_dev_config *config, const struct evsched_port_conf *port)
{
	int32_t limit = config->nb_events_limit, threshold = limit - evsched_priv_kept_free(config);
	if (port->links)
		return limit;
	if (config->credit_quanta > (uint32_t)threshold)
		return config->credit_quanta < (uint32_t)limit ? (int32_t)config->credit_quanta : limit;
	return threshold;
}

/* A configuration as the library is to have it: what evsched.h says of thresholds of 0, of single-link queues and of hints. */
static inline void evsched_priv_resolve(struct evsched_dev_config *to, const struct evsched_dev_config *config)
{
	uint32_t i;
	*to = *config;
	for (i = 0; i < EVSCHED_MAX_QUEUES; i++)
		if (config->queue[i].event_queue_cfg == EVSCHED_QUEUE_CFG_SINGLE_LINK)
			to->queue[i].schedule_type = EVSCHED_TYPE_PARALLEL;
	for (i = 0; i < EVSCHED_MAX_PORTS; i++) {
		to->port[i].event_port_cfg &= ~(EVSCHED_PORT_CFG_HINT_PRODUCER | EVSCHED_PORT_CFG_HINT_CONSUMER | EVSCHED_PORT_CFG_HINT_WORKER);
		if (config->port[i].new_event_threshold == 0 && config->nb_events_limit > 0)
			to->port[i].new_event_threshold = evsched_priv_threshold(config, &config->port[i]);
	}
}

#endif
