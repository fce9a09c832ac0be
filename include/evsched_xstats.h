/* SPDX-License-Identifier: BSD-3-Clause */
/*
 * The statistics of evsched_stats_read by name and by id, for evsched.h, which includes it: as rte_event_dev_xstats_*, from any thread, and
 * with a timeout.
 *
 * What event_sw has too is first, in its order and with its names; docs/EVENTDEV.md says of each what it is. Ids are those of the device,
 * then of port after port, then of queue after queue. A reset is a difference: from then on counts are shown less what they were, to all
 * who read them so. What is no count, as a ring's fill, stays. A call that needs numbers reads all of them onto the stack (27 kB).
 */
#ifndef EVSCHED_XSTATS_H
#define EVSCHED_XSTATS_H

#ifndef EVSCHED_H
#error "include evsched.h"
#endif

/* A statistic: its name behind that of its device, port or queue, where it stands in the struct of that, and whether it is a count. */
struct evsched_priv_xstat {
	const char *name;
	size_t at;
	int is_count;
};

/* Which one an id is: that number of the mode's table, or behind it, of a queue, of its shares, of this queue or port. */
struct evsched_priv_xid {
	enum evsched_xstats_mode mode;
	uint32_t of, number;
};

typedef char evsched_xstats_fit[sizeof(struct evsched_xstats_name) == EVSCHED_XSTATS_NAME_SIZE ? 1 : -1];

#define EVSCHED_PRIV_X(name, field, is_count) {name, offsetof(struct EVSCHED_PRIV_X_OF, field), is_count}

#define EVSCHED_PRIV_X_OF evsched_dev_now
static inline const struct evsched_priv_xstat *evsched_priv_xstats_of_device(void)
{
	static const struct evsched_priv_xstat table[EVSCHED_PRIV_X_DEVICE] = {
		EVSCHED_PRIV_X("rx", rx, 1), EVSCHED_PRIV_X("tx", tx, 1), EVSCHED_PRIV_X("sched_calls", sweeps, 1),
		EVSCHED_PRIV_X("sched_no_iq_enq", no_take, 1), EVSCHED_PRIV_X("sched_no_cq_enq", no_give, 1),
		EVSCHED_PRIV_X("sched_last_iter_bitmask", ports, 0), EVSCHED_PRIV_X("sched_progress_last_iter", progress, 0),
		EVSCHED_PRIV_X("rx_new", rx_new, 1), EVSCHED_PRIV_X("inside", inside, 0), EVSCHED_PRIV_X("sched_taken", taken, 1),
		EVSCHED_PRIV_X("sched_given", given, 1), EVSCHED_PRIV_X("released", lanes.released, 1),
		EVSCHED_PRIV_X("forwarded", lanes.forwarded, 1), EVSCHED_PRIV_X("added", lanes.added, 1),
		EVSCHED_PRIV_X("turned", lanes.turned, 1), EVSCHED_PRIV_X("bounced", lanes.bounced, 1),
		EVSCHED_PRIV_X("credits_limit", limit, 0), EVSCHED_PRIV_X("credits_free", free, 0), EVSCHED_PRIV_X("credits_own", own, 0),
		EVSCHED_PRIV_X("credits_pockets", pockets, 0), EVSCHED_PRIV_X("rx_ring_used", rx_ring, 0),
		EVSCHED_PRIV_X("cq_ring_used", cq_ring, 0), EVSCHED_PRIV_X("age_ns", age, 0),
	};
	return table;
}
#undef EVSCHED_PRIV_X_OF

/* Those of rings are last, since with flow lanes they aren't known. */
#define EVSCHED_PRIV_X_OF evsched_port_now
static inline const struct evsched_priv_xstat *evsched_priv_xstats_of_port(void)
{
	static const struct evsched_priv_xstat table[EVSCHED_PRIV_X_PORT] = {
		EVSCHED_PRIV_X("rx", rx, 1), EVSCHED_PRIV_X("tx", lane.tx, 1), EVSCHED_PRIV_X("inflight", unanswered, 0),
		EVSCHED_PRIV_X("credits", pocket, 0), EVSCHED_PRIV_X("rx_new", lane.rx_new, 1), EVSCHED_PRIV_X("released", lane.released, 1),
		EVSCHED_PRIV_X("forwarded", lane.forwarded, 1), EVSCHED_PRIV_X("added", lane.added, 1),
		EVSCHED_PRIV_X("turned", lane.turned, 1), EVSCHED_PRIV_X("bounced", lane.bounced, 1),
		EVSCHED_PRIV_X("tx_last_iter", given, 0), EVSCHED_PRIV_X("held", held, 0),
		EVSCHED_PRIV_X("enqueued", counters.enqueued, 1), EVSCHED_PRIV_X("dequeued", counters.dequeued, 1),
		EVSCHED_PRIV_X("implicitly_released", counters.released, 1), EVSCHED_PRIV_X("stopped", counters.stopped, 1),
		EVSCHED_PRIV_X("bad_queue", counters.bad_queue, 1), EVSCHED_PRIV_X("nothing_held", counters.nothing_held, 1),
		EVSCHED_PRIV_X("backpressure", counters.backpressure, 1), EVSCHED_PRIV_X("raced", counters.raced, 1),
		EVSCHED_PRIV_X("full", counters.full, 1), EVSCHED_PRIV_X("too_many", counters.too_many, 1),
		EVSCHED_PRIV_X("behind", counters.behind, 1), EVSCHED_PRIV_X("age_ns", age, 0),
		EVSCHED_PRIV_X("rx_ring_used", rx_ring, 0), EVSCHED_PRIV_X("rx_ring_free", rx_free, 0),
		EVSCHED_PRIV_X("cq_ring_used", cq_ring, 0), EVSCHED_PRIV_X("cq_ring_free", cq_free, 0),
	};
	return table;
}
#undef EVSCHED_PRIV_X_OF

#define EVSCHED_PRIV_X_OF evsched_queue_now
static inline const struct evsched_priv_xstat *evsched_priv_xstats_of_queue(void)
{
	static const struct evsched_priv_xstat table[EVSCHED_PRIV_X_QUEUE] = {
		EVSCHED_PRIV_X("rx", rx, 1), EVSCHED_PRIV_X("tx", tx, 1), EVSCHED_PRIV_X("inflight", unanswered, 0),
		EVSCHED_PRIV_X("iq_0_used", level[0], 0), EVSCHED_PRIV_X("iq_1_used", level[1], 0), EVSCHED_PRIV_X("iq_2_used", level[2], 0),
		EVSCHED_PRIV_X("iq_3_used", level[3], 0), EVSCHED_PRIV_X("rx_new", rx_new, 1), EVSCHED_PRIV_X("rx_forwarded", rx_forwarded, 1),
		EVSCHED_PRIV_X("waiting", waiting, 0), EVSCHED_PRIV_X("kept", kept, 0),
	};
	return table;
}
#undef EVSCHED_PRIV_X_OF
#undef EVSCHED_PRIV_X

/* What of a queue and a port there is. */
static inline const struct evsched_priv_xstat *evsched_priv_xstats_of_share(void)
{
	static const struct evsched_priv_xstat table[EVSCHED_PRIV_X_SHARE] = {
		{"pinned_flows", offsetof(struct evsched_share, pinned), 0}, {"packets", offsetof(struct evsched_share, tx), 1},
	};
	return table;
}

/* How many devices, ports or queues there are, and how many statistics each has. */
static inline uint32_t evsched_priv_xstats_holders(const struct evsched *dev, enum evsched_xstats_mode mode)
{
	return mode == EVSCHED_XSTATS_DEVICE ? 1 : mode == EVSCHED_XSTATS_PORT ? dev->config.nb_event_ports : dev->config.nb_event_queues;
}

static inline uint32_t evsched_priv_xstats_each(const struct evsched *dev, enum evsched_xstats_mode mode)
{
	uint32_t ports = dev->config.nb_event_ports;
	if (mode == EVSCHED_XSTATS_DEVICE)
		return EVSCHED_PRIV_X_DEVICE;
	if (mode == EVSCHED_XSTATS_PORT)
		return EVSCHED_PRIV_X_PORT - (dev->lanes > ports ? EVSCHED_PRIV_X_RINGS : 0);
	return EVSCHED_PRIV_X_QUEUE + ports * EVSCHED_PRIV_X_SHARE;
}

static inline uint32_t evsched_priv_xstats_all(const struct evsched *dev, enum evsched_xstats_mode mode)
{
	return evsched_priv_xstats_holders(dev, mode) * evsched_priv_xstats_each(dev, mode);
}

/* The first id of a device, port or queue. */
static inline uint64_t evsched_priv_xstats_first(const struct evsched *dev, enum evsched_xstats_mode mode, uint32_t of)
{
	uint64_t first = (uint64_t)of * evsched_priv_xstats_each(dev, mode);
	if (mode != EVSCHED_XSTATS_DEVICE)
		first += evsched_priv_xstats_all(dev, EVSCHED_XSTATS_DEVICE);
	if (mode == EVSCHED_XSTATS_QUEUE)
		first += evsched_priv_xstats_all(dev, EVSCHED_XSTATS_PORT);
	return first;
}

/* Looks an id up: whether there is one. */
static inline int evsched_priv_xstats_find(const struct evsched *dev, uint64_t id, struct evsched_priv_xid *found)
{
	static const enum evsched_xstats_mode modes[] = {EVSCHED_XSTATS_QUEUE, EVSCHED_XSTATS_PORT, EVSCHED_XSTATS_DEVICE};
	uint32_t i, each;
	uint64_t first = 0;
	for (i = 0; i < 3; i++)
		if (id >= (first = evsched_priv_xstats_first(dev, modes[i], 0)))
			break;
	each = evsched_priv_xstats_each(dev, modes[i]);
	if (id - first >= evsched_priv_xstats_all(dev, modes[i]))
		return 0;
	found->mode = modes[i];
	found->of = (uint32_t)(id - first) / each;
	found->number = (uint32_t)(id - first) % each;
	return 1;
}

/* Whether an id is one of a mode's, and of this queue or port, where it isn't negative. */
static inline int evsched_priv_xstats_is_of(const struct evsched *dev, enum evsched_xstats_mode mode, int of, uint64_t id)
{
	struct evsched_priv_xid found;
	return evsched_priv_xstats_find(dev, id, &found) && found.mode == mode
		&& (mode == EVSCHED_XSTATS_DEVICE || of < 0 || found.of == (uint32_t)of);
}

/* Whether there is such a mode, and this queue or port. */
static inline int evsched_priv_xstats_is_there(const struct evsched *dev, enum evsched_xstats_mode mode, int of)
{
	if (mode != EVSCHED_XSTATS_DEVICE && mode != EVSCHED_XSTATS_PORT && mode != EVSCHED_XSTATS_QUEUE)
		return 0;
	return mode == EVSCHED_XSTATS_DEVICE || of < (int)evsched_priv_xstats_holders(dev, mode);
}

static inline const struct evsched_priv_xstat *evsched_priv_xstats_entry(const struct evsched_priv_xid *x)
{
	if (x->mode == EVSCHED_XSTATS_DEVICE)
		return evsched_priv_xstats_of_device() + x->number;
	if (x->mode == EVSCHED_XSTATS_PORT)
		return evsched_priv_xstats_of_port() + x->number;
	if (x->number < EVSCHED_PRIV_X_QUEUE)
		return evsched_priv_xstats_of_queue() + x->number;
	return evsched_priv_xstats_of_share() + (x->number - EVSCHED_PRIV_X_QUEUE) % EVSCHED_PRIV_X_SHARE;
}

static inline void evsched_priv_xstats_name(const struct evsched_priv_xid *x, struct evsched_xstats_name *to)
{
	const char *name = evsched_priv_xstats_entry(x)->name;
	unsigned of = x->of;
	if (x->mode == EVSCHED_XSTATS_DEVICE)
		snprintf(to->name, sizeof(to->name), "dev_%s", name);
	else if (x->mode == EVSCHED_XSTATS_PORT)
		snprintf(to->name, sizeof(to->name), "port_%u_%s", of, name);
	else if (x->number < EVSCHED_PRIV_X_QUEUE)
		snprintf(to->name, sizeof(to->name), "qid_%u_%s", of, name);
	else
		snprintf(to->name, sizeof(to->name), "qid_%u_port_%u_%s", of, (x->number - EVSCHED_PRIV_X_QUEUE) / EVSCHED_PRIV_X_SHARE, name);
}

/* What it is, since the device was made. */
static inline uint64_t evsched_priv_xstats_value(const struct evsched_stats *stats, const struct evsched_priv_xid *x)
{
	const void *of = &stats->dev;
	if (x->mode == EVSCHED_XSTATS_PORT)
		of = &stats->port[x->of];
	if (x->mode == EVSCHED_XSTATS_QUEUE)
		of = &stats->queue[x->of];
	if (x->mode == EVSCHED_XSTATS_QUEUE && x->number >= EVSCHED_PRIV_X_QUEUE)
		of = &stats->share[x->of][(x->number - EVSCHED_PRIV_X_QUEUE) / EVSCHED_PRIV_X_SHARE];
	return *(const uint64_t *)(const void *)((const char *)of + evsched_priv_xstats_entry(x)->at);
}

/* What it is since it was reset. Where another reader resets it by newer numbers at this moment, it is 0. */
static inline uint64_t evsched_priv_xstats_since(const struct evsched *dev, const struct evsched_stats *stats, uint64_t id)
{
	struct evsched_priv_xid x;
	uint64_t reset, value = 0;
	EVSCHED_PRIV_FORGET(dev);
	reset = __atomic_load_n(&dev->reset[id], __ATOMIC_RELAXED);
	if (evsched_priv_xstats_find(dev, id, &x))
		value = evsched_priv_xstats_value(stats, &x);
	return value > reset ? value - reset : 0;
}

/* Reads what the statistics of a mode are made of. */
static inline void evsched_priv_xstats_read(struct evsched *dev, enum evsched_xstats_mode mode, int of, struct evsched_stats *stats,
	uint64_t timeout_ns)
{
	uint32_t ports = mode != EVSCHED_XSTATS_PORT ? 0 : of < 0 ? UINT32_MAX : (uint32_t)1 << of;
	evsched_priv_read(dev, stats, ports, timeout_ns);
}

/*
 * The names and ids of the statistics of the device, of a port or of a queue. As rte_event_dev_xstats_names_get.
 *   Returns  how many there are; they are written where both arrays are there and have so many places (`size`)
 *   Thread   any
 *   Errors   -EINVAL: there is no such mode, port or queue
 */
static inline int evsched_xstats_names_get(struct evsched *dev, enum evsched_xstats_mode mode, uint8_t queue_port_id,
	struct evsched_xstats_name *names, uint64_t *ids, unsigned int size)
{
	struct evsched_priv_xid x;
	uint32_t each;
	evsched_priv_watch_device(dev, __func__);
	if (!evsched_priv_xstats_is_there(dev, mode, queue_port_id))
		return -EINVAL;
	each = evsched_priv_xstats_each(dev, mode);
	x.mode = mode;
	x.of = mode == EVSCHED_XSTATS_DEVICE ? 0 : queue_port_id;
	for (x.number = 0; names && ids && each <= size && x.number < each; x.number++) {
		evsched_priv_xstats_name(&x, &names[x.number]);
		ids[x.number] = evsched_priv_xstats_first(dev, mode, x.of) + x.number;
	}
	return (int)each;
}

/*
 * The values of n statistics of the device, of a port or of a queue, by their ids, all of one reading: as evsched_stats_read, but that it
 * waits for the device's part alone, and for this port's. As rte_event_dev_xstats_get.
 *   Returns  n
 *   Thread   any
 *   Errors   -EINVAL: there is no such mode, port or queue, or an id isn't one of its; nothing is written then
 */
static inline int evsched_xstats_get(struct evsched *dev, enum evsched_xstats_mode mode, uint8_t queue_port_id, const uint64_t ids[],
	uint64_t values[], unsigned int n, uint64_t timeout_ns)
{
	struct evsched_stats stats;
	unsigned int i;
	evsched_priv_watch_device(dev, __func__);
	if (!evsched_priv_xstats_is_there(dev, mode, queue_port_id))
		return -EINVAL;
	for (i = 0; i < n; i++)
		if (!evsched_priv_xstats_is_of(dev, mode, queue_port_id, ids[i]))
			return -EINVAL;
	evsched_priv_xstats_read(dev, mode, queue_port_id, &stats, timeout_ns);
	for (i = 0; i < n; i++)
		values[i] = evsched_priv_xstats_since(dev, &stats, ids[i]);
	return (int)n;
}

/*
 * The value of a statistic by its name, which is looked for among all: by its id it is got sooner. As rte_event_dev_xstats_by_name_get.
 *   Returns  the value, and its id in *id, which may be NULL
 *   Thread   any
 *   Errors   (uint64_t)-EINVAL: there is none of this name; *id is (unsigned)-1 then
 */
static inline uint64_t evsched_xstats_by_name_get(struct evsched *dev, const char *name, uint64_t *id, uint64_t timeout_ns)
{
	struct evsched_xstats_name each;
	struct evsched_priv_xid x;
	struct evsched_stats stats;
	uint64_t i;
	evsched_priv_watch_device(dev, __func__);
	if (id)
		*id = (unsigned)-1;
	for (i = 0; evsched_priv_xstats_find(dev, i, &x); i++) {
		evsched_priv_xstats_name(&x, &each);
		if (strcmp(each.name, name) == 0)
			break;
	}
	if (!evsched_priv_xstats_find(dev, i, &x))
		return (uint64_t)-EINVAL;
	if (id)
		*id = i;
	evsched_priv_xstats_read(dev, x.mode, (int)x.of, &stats, timeout_ns);
	return evsched_priv_xstats_since(dev, &stats, i);
}

/* Notes from where a statistic counts from now on, where it is a count. */
static inline void evsched_priv_xstats_note(struct evsched *dev, const struct evsched_stats *stats, uint64_t id)
{
	struct evsched_priv_xid x;
	EVSCHED_PRIV_FORGET(dev);
	if (evsched_priv_xstats_find(dev, id, &x) && evsched_priv_xstats_entry(&x)->is_count)
		__atomic_store_n(&dev->reset[id], evsched_priv_xstats_value(stats, &x), __ATOMIC_RELAXED);
}

/*
 * Has counts begin at 0 again, for all readers of this header's xstats; what was read by evsched_stats_read goes on. It is of the device,
 * of a port or queue, or, where queue_port_id is -1, of all of them: of all their statistics where ids is NULL, else of these. What is no
 * count stays. As rte_event_dev_xstats_reset.
 *   Returns  0
 *   Thread   any
 *   Errors   -EINVAL: as evsched_xstats_get; nothing is reset then
 */
static inline int evsched_xstats_reset(struct evsched *dev, enum evsched_xstats_mode mode, int16_t queue_port_id, const uint64_t ids[],
	uint32_t nb_ids, uint64_t timeout_ns)
{
	struct evsched_stats stats;
	uint64_t first, i;
	evsched_priv_watch_device(dev, __func__);
	if (queue_port_id < -1 || !evsched_priv_xstats_is_there(dev, mode, queue_port_id))
		return -EINVAL;
	for (i = 0; ids && i < nb_ids; i++)
		if (!evsched_priv_xstats_is_of(dev, mode, queue_port_id, ids[i]))
			return -EINVAL;
	evsched_priv_xstats_read(dev, mode, queue_port_id, &stats, timeout_ns);
	for (i = 0; ids && i < nb_ids; i++)
		evsched_priv_xstats_note(dev, &stats, ids[i]);
	first = evsched_priv_xstats_first(dev, mode, 0);
	for (i = first; !ids && i < first + evsched_priv_xstats_all(dev, mode); i++)
		if (evsched_priv_xstats_is_of(dev, mode, queue_port_id, i))
			evsched_priv_xstats_note(dev, &stats, i);
	return 0;
}

#endif
