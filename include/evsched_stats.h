/* SPDX-License-Identifier: BSD-3-Clause */
/*
 * The statistics of evsched.h, which includes it.
 */
#ifndef EVSCHED_STATS_H
#define EVSCHED_STATS_H

#ifndef EVSCHED_H
#error "include evsched.h"
#endif

/* Writes n counts of a queue, a lane or the device. */
static inline int evsched_priv_counts(struct evsched *dev, uint32_t what, void *counts, size_t n, const char *call)
{
	uintptr_t before = evsched_priv_enter(dev, call);
	int64_t r = evsched_hub_counts(dev->hub, what, (uint64_t *)counts, n);
	evsched_priv_leave(dev, before);
	return evsched_priv_done(r);
}

/*
 * What was counted of a queue, of a lane (a port's has the port's number) and of the device; but for the last one after the stop too. From
 * any other thread: evsched_stats_read.
 *   Returns  0
 *   Thread   the device's
 *   Errors   -EINVAL: there is no such queue or lane; -ENODEV
 */
static inline int evsched_queue_stats(struct evsched *dev, uint32_t queue, struct evsched_queue_stats *stats)
{
	evsched_priv_watch_device(dev, __func__);
	if (queue >= dev->config.nb_event_queues)
		return -EINVAL;
	return evsched_priv_counts(dev, queue, stats, sizeof(*stats) / sizeof(uint64_t), __func__);
}

static inline int evsched_port_stats(struct evsched *dev, uint32_t lane, struct evsched_port_stats *stats)
{
	evsched_priv_watch_device(dev, __func__);
	if (lane >= dev->lanes)
		return -EINVAL;
	return evsched_priv_counts(dev, EVSCHED_MAX_QUEUES + lane, stats, sizeof(*stats) / sizeof(uint64_t), __func__);
}

static inline int evsched_dev_stats(struct evsched *dev, struct evsched_dev_stats *stats)
{
	return evsched_priv_counts(dev, EVSCHED_MAX_QUEUES + EVSCHED_MAX_LANES, stats, sizeof(*stats) / sizeof(uint64_t), __func__);
}

/*
 * The configuration of a device as it was resolved: each threshold is what its 0 came to, a single-link queue is parallel, and hints are
 * gone. As rte_event_dev_attr_get, _queue_attr_get, _port_attr_get and _port_links_get.
 *   Returns  the configuration, which stays until evsched_free
 *   Thread   any
 */
static inline const struct evsched_dev_config *evsched_info(const struct evsched *dev)
{
	evsched_priv_watch_device(dev, __func__);
	return &dev->config;
}

/*
 * What the port counted of its calls.
 *   Returns  0
 *   Thread   the port's
 *   Errors   -ENODEV
 */
static inline int evsched_port_counters(struct evsched_port *port, struct evsched_port_counters *counters)
{
	uintptr_t before = evsched_priv_enter_port(port, __func__);
	int64_t r = evsched_port_counts(evsched_priv_at(port), (uint64_t *)counters, sizeof(*counters) / sizeof(uint64_t));
	evsched_priv_leave_port(port, before);
	return evsched_priv_done(r);
}

/* Prints those of n counts that aren't 0, on a line of their own where there are any. */
static inline void evsched_priv_print(FILE *to, const char *before, const char *const names[], const void *counts, size_t n)
{
	const uint64_t *count = (const uint64_t *)counts;
	size_t i, printed = 0;
	for (i = 0; i < n; i++)
		if (count[i] > 0)
			fprintf(to, "%s%s %llu", printed++ > 0 ? ", " : before, names[i], (unsigned long long)count[i]);
	if (printed > 0)
		fprintf(to, "\n");
}

/* What a queue gave to each port, and what of it is unanswered there. */
static inline void evsched_priv_dump_shares(struct evsched *dev, const struct evsched_share *share, FILE *to)
{
	static const char *const names[] = {"tx", "pinned"};
	char before[32];
	uint32_t p;
	for (p = 0; p < dev->config.nb_event_ports; p++) {
		snprintf(before, sizeof(before), "\tport %u: ", (unsigned)p);
		evsched_priv_print(to, before, names, &share[p], EVSCHED_PRIV_OF_SHARE);
	}
}

static inline void evsched_priv_dump_queue(struct evsched *dev, const struct evsched_stats *stats, uint32_t q, FILE *to)
{
	static const char *const types[] = {"ordered", "atomic", "parallel"};
	static const char *const names[] = {"rx_new", "rx_forwarded", "tx", "level_0", "level_1", "level_2", "level_3", "unanswered", "kept"};
	const struct evsched_queue_conf *conf = &dev->config.queue[q];
	fprintf(to, "queue %u: %s, priority %u", (unsigned)q, types[conf->schedule_type % 3], (unsigned)conf->priority);
	if (conf->schedule_type == EVSCHED_TYPE_ATOMIC)
		fprintf(to, ", nb_atomic_flows %u", (unsigned)conf->nb_atomic_flows);
	if (conf->schedule_type == EVSCHED_TYPE_ORDERED)
		fprintf(to, ", nb_atomic_order_sequences %u", (unsigned)conf->nb_atomic_order_sequences);
	fprintf(to, "%s\n", conf->event_queue_cfg == EVSCHED_QUEUE_CFG_SINGLE_LINK ? ", single link" : "");
	evsched_priv_print(to, "\t", names, &stats->queue[q], EVSCHED_PRIV_OF_QUEUE);
	evsched_priv_dump_shares(dev, stats->share[q], to);
}

/* What was counted of a lane. */
static inline void evsched_priv_dump_lane(const struct evsched_port_stats *lane, FILE *to)
{
	static const char *const names[] = {"rx_new", "tx", "released", "forwarded", "added", "turned", "bounced"};
	evsched_priv_print(to, "\t", names, lane, sizeof(*lane) / sizeof(uint64_t));
}

/* What a port's lane and rings have in them, and what the port said of itself, and when. */
static inline void evsched_priv_dump_said(const struct evsched_port_now *port, FILE *to)
{
	static const char *const here[] = {"unanswered", "rx_ring", "cq_ring"};
	static const char *const names[] = {"enqueued", "dequeued", "released", "stopped", "bad_queue", "nothing_held", "backpressure", "raced",
		"full", "too_many", "behind", "pocket", "held"};
	uint64_t now[3];
	char before[60];
	now[0] = port->unanswered;
	now[1] = port->rx_ring == EVSCHED_UNKNOWN ? 0 : port->rx_ring;
	now[2] = port->cq_ring == EVSCHED_UNKNOWN ? 0 : port->cq_ring;
	evsched_priv_print(to, "\t", here, now, 3);
	snprintf(before, sizeof(before), "\tsaid %llu us ago: ", (unsigned long long)port->age / 1000);
	evsched_priv_print(to, before, names, (const uint64_t *)port + EVSCHED_PRIV_OF_LANE, EVSCHED_PRIV_OF_PORT);
}

static inline void evsched_priv_dump_port(struct evsched *dev, const struct evsched_stats *stats, uint32_t p, FILE *to)
{
	const struct evsched_port_conf *conf = &dev->config.port[p];
	uint32_t q;
	fprintf(to, "port %u: new_event_threshold %d, dequeue_depth %u, enqueue_depth %u, %s, ", (unsigned)p, (int)conf->new_event_threshold,
		(unsigned)conf->dequeue_depth, (unsigned)conf->enqueue_depth,
		conf->event_port_cfg & EVSCHED_PORT_CFG_DISABLE_IMPL_REL ? "no implicit release" : "implicit release");
	fprintf(to, conf->links ? "links" : "no links");
	for (q = 0; q < dev->config.nb_event_queues; q++)
		if (conf->links >> q & 1)
			fprintf(to, " %u", (unsigned)q);
	fprintf(to, "\n");
	evsched_priv_dump_lane(&stats->port[p].lane, to);
	evsched_priv_dump_said(&stats->port[p], to);
}

/* The flow lanes of a queue, from this lane on: those by which events came. The lane after them. */
static inline uint32_t evsched_priv_dump_flow_lanes(struct evsched *dev, uint32_t q, uint32_t lane, FILE *to)
{
	struct evsched_port_stats stats;
	uint32_t slot;
	for (slot = 0; evsched_priv_has_flow_lanes(&dev->config, q) && slot < dev->config.queue[q].nb_atomic_flows; slot++, lane++)
		if (evsched_port_stats(dev, lane, &stats) == 0 && stats.tx > 0) {
			fprintf(to, "flow lane %u: queue %u, slot %u\n", (unsigned)lane, (unsigned)q, (unsigned)slot);
			evsched_priv_dump_lane(&stats, to);
		}
	return lane;
}

/* Of the whole device: how many are inside and where the credits are; after the stop also where they and the events were left. */
static inline void evsched_priv_dump_device(struct evsched *dev, const struct evsched_stats *stats, FILE *to)
{
	static const char *const names[] = {"rx_new", "inside", "sweeps", "taken", "given", "no_take", "no_give"};
	static const char *const credits[] = {"free", "own", "pockets", "rx_ring", "cq_ring"};
	static const char *const places[] = {"free", "own", "pockets", "waiting", "kept", "undelivered", "held", "untaken", "turned"};
	const struct evsched_dev_config *c = &dev->config;
	struct evsched_report report;
	uint64_t now[5];
	fprintf(to, "evsched: %u queues, %u ports, nb_events_limit %d, credit_quanta %u, sched_quanta %u%s\n", (unsigned)c->nb_event_queues,
		(unsigned)c->nb_event_ports, (int)c->nb_events_limit, (unsigned)c->credit_quanta, (unsigned)c->sched_quanta,
		c->event_dev_cfg == EVSCHED_DEV_CFG_FLOW_LANES ? ", flow lanes" : "");
	evsched_priv_print(to, "\t", names, &stats->dev, sizeof(names) / sizeof(names[0]));
	now[0] = stats->dev.free;
	now[1] = stats->dev.own;
	now[2] = stats->dev.pockets;
	now[3] = stats->dev.rx_ring;
	now[4] = stats->dev.cq_ring;
	evsched_priv_print(to, "\tcredits and rings: ", credits, now, 5);
	if (evsched_report(dev, &report) == 0) {
		fprintf(to, "stopped:\n");
		evsched_priv_print(to, "\t", places, &report, sizeof(report) / sizeof(uint64_t));
	}
}

/* Reads all for a dump, in the device's thread: the device's part is of now, and for the ports' it waits a millisecond at most. */
static inline void evsched_priv_read_for_dump(struct evsched *dev, struct evsched_stats *stats)
{
	struct evsched_priv_asked asked;
	EVSCHED_PRIV_FORGET(dev);
	evsched_priv_ask(dev, &asked);
	evsched_priv_publish(dev, 0);
	evsched_priv_await(dev, &asked, UINT32_MAX, 1000000);
	evsched_priv_get_all(dev, stats);
}

/*
 * Writes what is set, and every number that isn't 0: of the device and its credits, of each queue what was counted, waits by level, is
 * unanswered and is kept, and what it gave to each port, of each port and its rings, and of the flow lanes by which events came; after the
 * stop what was so when it began, and where credits and events were left. What a port says of itself is asked for, and waited for a
 * millisecond: where it has made no call in that time, as in a program of one thread, it is what it said before, with its age. As
 * rte_event_dev_dump.
 *   Returns  0
 *   Thread   the device's
 *   Errors   -EIO: a write failed
 */
static inline int evsched_dump(struct evsched *dev, FILE *to)
{
	uintptr_t before = evsched_priv_enter(dev, __func__);
	uint32_t i, lane = dev->config.nb_event_ports;
	struct evsched_stats stats;
	evsched_priv_read_for_dump(dev, &stats);
	evsched_priv_dump_device(dev, &stats, to);
	for (i = 0; i < dev->config.nb_event_queues; i++)
		evsched_priv_dump_queue(dev, &stats, i, to);
	for (i = 0; i < dev->config.nb_event_ports; i++)
		evsched_priv_dump_port(dev, &stats, i, to);
	for (i = 0; i < dev->config.nb_event_queues; i++)
		lane = evsched_priv_dump_flow_lanes(dev, i, lane, to);
	evsched_priv_leave(dev, before);
	return fflush(to) == 0 && !ferror(to) ? 0 : -EIO;
}

#endif
