/* SPDX-License-Identifier: BSD-3-Clause */
/*
 * What stands behind evsched_check and evsched_strerror of evsched.h, which includes it: a configuration judged as the library does it, one
 * fault after the other in its order, each with a sentence that says where it is.
 */
#ifndef EVSCHED_CHECK_H
#define EVSCHED_CHECK_H

#ifndef EVSCHED_H
#error "include evsched.h"
#endif

/* Where a sentence goes. */
struct evsched_priv_text {
	char *at;
	size_t size;
};

__attribute__((format(printf, 3, 4)))
static inline int evsched_priv_say(const struct evsched_priv_text *to, int fault, const char *format, ...)
{
	va_list words;
	va_start(words, format);
	if (to->size > 0)
		vsnprintf(to->at, to->size, format, words);
	va_end(words);
	return -fault;
}

static inline int evsched_priv_is_outside(uint32_t number, uint32_t most)
{
	return number < 1 || number > most;
}

static inline int evsched_priv_judge_types(const struct evsched_dev_config *c, const struct evsched_priv_text *to)
{
	uint32_t q;
	for (q = 0; q < c->nb_event_queues; q++)
		if (c->queue[q].schedule_type > EVSCHED_TYPE_PARALLEL)
			return evsched_priv_say(to, EVSCHED_E_UNKNOWN_TYPE, "queue %u: schedule_type %u is neither ordered (0), atomic (1) nor parallel (2)",
				(unsigned)q, (unsigned)c->queue[q].schedule_type);
	return 0;
}

static inline int evsched_priv_judge_flags(const struct evsched_dev_config *c, const struct evsched_priv_text *to)
{
	uint32_t i;
	if (c->event_dev_cfg & ~EVSCHED_DEV_CFG_FLOW_LANES)
		return evsched_priv_say(to, EVSCHED_E_UNKNOWN_FLAG, "event_dev_cfg 0x%x has a flag that isn't known", (unsigned)c->event_dev_cfg);
	for (i = 0; i < c->nb_event_queues; i++)
		if (c->queue[i].event_queue_cfg & ~EVSCHED_QUEUE_CFG_SINGLE_LINK)
			return evsched_priv_say(to, EVSCHED_E_UNKNOWN_FLAG, "queue %u: event_queue_cfg 0x%x has a flag that isn't known", (unsigned)i,
				(unsigned)c->queue[i].event_queue_cfg);
	for (i = 0; i < c->nb_event_ports; i++)
		if (c->port[i].event_port_cfg & ~EVSCHED_PORT_CFG_DISABLE_IMPL_REL)
			return evsched_priv_say(to, EVSCHED_E_UNKNOWN_FLAG, "port %u: event_port_cfg 0x%x has a flag that isn't known", (unsigned)i,
				(unsigned)c->port[i].event_port_cfg);
	return 0;
}

static inline int evsched_priv_judge_counts(const struct evsched_dev_config *c, uint32_t least, const struct evsched_priv_text *to)
{
	if (c->nb_event_queues < least || c->nb_event_queues > EVSCHED_MAX_QUEUES)
		return evsched_priv_say(to, EVSCHED_E_QUEUE_COUNT, "nb_event_queues %u is not 1 to %d", (unsigned)c->nb_event_queues,
			EVSCHED_MAX_QUEUES);
	if (c->nb_event_ports < least || c->nb_event_ports > EVSCHED_MAX_PORTS)
		return evsched_priv_say(to, EVSCHED_E_PORT_COUNT, "nb_event_ports %u is not 1 to %d", (unsigned)c->nb_event_ports,
			EVSCHED_MAX_PORTS);
	return 0;
}

static inline int evsched_priv_judge_credits(const struct evsched_dev_config *c, const struct evsched_priv_text *to)
{
	if (c->nb_events_limit < 1 || c->nb_events_limit > EVSCHED_MAX_EVENTS_LIMIT)
		return evsched_priv_say(to, EVSCHED_E_LIMIT_RANGE, "nb_events_limit %d is not 1 to %d", (int)c->nb_events_limit,
			EVSCHED_MAX_EVENTS_LIMIT);
	if (evsched_priv_is_outside(c->credit_quanta, (uint32_t)c->nb_events_limit))
		return evsched_priv_say(to, EVSCHED_E_QUANTUM_RANGE, "credit_quanta %u is not 1 to nb_events_limit %d", (unsigned)c->credit_quanta,
			(int)c->nb_events_limit);
	return 0;
}

static inline int evsched_priv_judge_thresholds(const struct evsched_dev_config *c, const struct evsched_priv_text *to)
{
	uint32_t p;
	for (p = 0; p < c->nb_event_ports; p++) {
		int threshold = (int)c->port[p].new_event_threshold;
		if (threshold > c->nb_events_limit)
			return evsched_priv_say(to, EVSCHED_E_THRESHOLD_RANGE, "port %u: new_event_threshold %d is above nb_events_limit %d", (unsigned)p,
				threshold, (int)c->nb_events_limit);
		if (threshold < (int)c->credit_quanta)
			return evsched_priv_say(to, EVSCHED_E_THRESHOLD_RANGE, "port %u: new_event_threshold %d is below credit_quanta %u", (unsigned)p,
				threshold, (unsigned)c->credit_quanta);
	}
	return 0;
}

static inline int evsched_priv_judge_depths(const struct evsched_dev_config *c, const struct evsched_priv_text *to)
{
	uint32_t p;
	for (p = 0; p < c->nb_event_ports; p++) {
		if (evsched_priv_is_outside(c->port[p].dequeue_depth, EVSCHED_MAX_DEPTH))
			return evsched_priv_say(to, EVSCHED_E_DEPTH_RANGE, "port %u: dequeue_depth %u is not 1 to %d", (unsigned)p,
				(unsigned)c->port[p].dequeue_depth, EVSCHED_MAX_DEPTH);
		if (evsched_priv_is_outside(c->port[p].enqueue_depth, EVSCHED_MAX_DEPTH))
			return evsched_priv_say(to, EVSCHED_E_DEPTH_RANGE, "port %u: enqueue_depth %u is not 1 to %d", (unsigned)p,
				(unsigned)c->port[p].enqueue_depth, EVSCHED_MAX_DEPTH);
	}
	return 0;
}

static inline int evsched_priv_judge_slots(const struct evsched_dev_config *c, const struct evsched_priv_text *to)
{
	uint32_t q, all = 0;
	for (q = 0; q < c->nb_event_queues; q++) {
		uint32_t slots = c->queue[q].schedule_type == EVSCHED_TYPE_ATOMIC ? c->queue[q].nb_atomic_flows : 1;
		if (evsched_priv_is_outside(slots, EVSCHED_MAX_ATOMIC_FLOWS))
			return evsched_priv_say(to, EVSCHED_E_FLOW_SLOTS, "queue %u: nb_atomic_flows %u is not 1 to %d", (unsigned)q, (unsigned)slots,
				EVSCHED_MAX_ATOMIC_FLOWS);
		all += c->queue[q].schedule_type == EVSCHED_TYPE_ATOMIC ? slots : 0;
	}
	if (all > EVSCHED_MAX_ALL_ATOMIC_FLOWS)
		return evsched_priv_say(to, EVSCHED_E_FLOW_SLOTS, "nb_atomic_flows of all atomic queues together, %u, is above %d", (unsigned)all,
			EVSCHED_MAX_ALL_ATOMIC_FLOWS);
	return 0;
}

static inline int evsched_priv_judge_orders(const struct evsched_dev_config *c, const struct evsched_priv_text *to)
{
	uint32_t q;
	for (q = 0; q < c->nb_event_queues; q++)
		if (c->queue[q].schedule_type == EVSCHED_TYPE_ORDERED
			&& evsched_priv_is_outside(c->queue[q].nb_atomic_order_sequences, EVSCHED_MAX_ORDER_SEQUENCES))
			return evsched_priv_say(to, EVSCHED_E_ORDER_DEPTH, "queue %u: nb_atomic_order_sequences %u is not 1 to %d", (unsigned)q,
				(unsigned)c->queue[q].nb_atomic_order_sequences, EVSCHED_MAX_ORDER_SEQUENCES);
	if (evsched_priv_is_outside(c->sched_quanta, EVSCHED_MAX_SCHED_QUANTA))
		return evsched_priv_say(to, EVSCHED_E_SWEEP_RANGE, "sched_quanta %u is not 1 to %d", (unsigned)c->sched_quanta,
			EVSCHED_MAX_SCHED_QUANTA);
	return 0;
}

static inline int evsched_priv_judge_links(const struct evsched_dev_config *c, const struct evsched_priv_text *to)
{
	uint32_t p, q;
	for (p = 0; p < c->nb_event_ports; p++)
		for (q = c->nb_event_queues; q < EVSCHED_MAX_QUEUES; q++)
			if (c->port[p].links >> q & 1)
				return evsched_priv_say(to, EVSCHED_E_LINK_UNKNOWN, "port %u: it is linked to queue %u, and nb_event_queues is %u", (unsigned)p,
					(unsigned)q, (unsigned)c->nb_event_queues);
	return 0;
}

/* The first port from `from` on that is linked to the queue; nb_event_ports where there is none. */
static inline uint32_t evsched_priv_linked(const struct evsched_dev_config *c, uint32_t queue, uint32_t from)
{
	while (from < c->nb_event_ports && !(c->port[from].links >> queue & 1))
		from++;
	return from;
}

static inline int evsched_priv_judge_linked(const struct evsched_dev_config *c, const struct evsched_priv_text *to)
{
	uint32_t q;
	for (q = 0; q < c->nb_event_queues; q++)
		if (evsched_priv_linked(c, q, 0) == c->nb_event_ports)
			return evsched_priv_say(to, EVSCHED_E_QUEUE_UNLINKED, "queue %u: no port is linked to it", (unsigned)q);
	for (q = 0; q < c->nb_event_queues; q++) {
		uint32_t first = evsched_priv_linked(c, q, 0), second = evsched_priv_linked(c, q, first + 1);
		if (c->queue[q].event_queue_cfg == EVSCHED_QUEUE_CFG_SINGLE_LINK && second < c->nb_event_ports)
			return evsched_priv_say(to, EVSCHED_E_SINGLE_LINK_COUNT, "queue %u: it is a single-link queue, and ports %u and %u are linked to it",
				(unsigned)q, (unsigned)first, (unsigned)second);
	}
	return 0;
}

/* The first fault of a configuration that was resolved, or 0. */
static inline int evsched_priv_judge(const struct evsched_dev_config *c, const struct evsched_priv_text *to)
{
	uint32_t reserved = evsched_priv_reserved(c);
	int r;
	if (reserved < EVSCHED_MAX_QUEUES)
		return evsched_priv_say(to, EVSCHED_E_RESERVED, "queue %u: rsvd %u is not 0", (unsigned)reserved,
			(unsigned)c->queue[reserved].rsvd);
	if ((r = evsched_priv_judge_counts(c, 0, to)) || (r = evsched_priv_judge_types(c, to)) || (r = evsched_priv_judge_flags(c, to))
		|| (r = evsched_priv_judge_counts(c, 1, to)) || (r = evsched_priv_judge_credits(c, to))
		|| (r = evsched_priv_judge_thresholds(c, to)) || (r = evsched_priv_judge_depths(c, to)) || (r = evsched_priv_judge_slots(c, to))
		|| (r = evsched_priv_judge_orders(c, to)) || (r = evsched_priv_judge_links(c, to)))
		return r;
	return evsched_priv_judge_linked(c, to);
}

/* What a refusal means. */
static inline const char *evsched_priv_words(int code)
{
	switch (code) {
	case 0: return "nothing is wrong";
	case -ENOENT: return "the port holds no event that could be answered";
	case -E2BIG: return "four events were added beside the port's oldest one";
	case -EAGAIN: return "other ports changed the credits meanwhile";
	case -ENOMEM: return "memory ran out";
	case -EBUSY: return "a port or the control is away";
	case -ENODEV: return "the device doesn't run";
	case -EINVAL: return "there is no such queue or lane";
	case -EIO: return "a write failed";
	case -ENOSPC: return "too few credits are free";
	case -ENOBUFS: return "the port's ring is full";
	case -ESHUTDOWN: return "the device is shut";
	case -EVSCHED_E_QUEUE_COUNT: return "the number of queues is not 1 to 32";
	case -EVSCHED_E_PORT_COUNT: return "the number of ports is not 1 to 32";
	case -EVSCHED_E_LIMIT_RANGE: return "nb_events_limit is not 1 to 16384";
	case -EVSCHED_E_QUANTUM_RANGE: return "credit_quanta is not 1 to nb_events_limit";
	case -EVSCHED_E_THRESHOLD_RANGE: return "a port's new_event_threshold is neither 0 nor credit_quanta to nb_events_limit";
	case -EVSCHED_E_DEPTH_RANGE: return "a port's dequeue_depth or enqueue_depth is not 1 to 64";
	case -EVSCHED_E_FLOW_SLOTS: return "an atomic queue's nb_atomic_flows is not 1 to 64, or there are more than 128 in all";
	case -EVSCHED_E_ORDER_DEPTH: return "an ordered queue's nb_atomic_order_sequences is not 1 to 256";
	case -EVSCHED_E_SWEEP_RANGE: return "sched_quanta is not 1 to 64";
	case -EVSCHED_E_LINK_UNKNOWN: return "a port is linked to a queue that isn't there";
	case -EVSCHED_E_LINK_TWICE: return "a port is linked to a queue twice";
	case -EVSCHED_E_QUEUE_UNLINKED: return "a queue is linked to no port";
	case -EVSCHED_E_SINGLE_LINK_COUNT: return "a single-link queue is linked to several ports";
	case -EVSCHED_E_UNKNOWN_TYPE: return "a queue's schedule_type is none of the three";
	case -EVSCHED_E_UNKNOWN_FLAG: return "a flag is set that isn't known";
	case -EVSCHED_E_NOT_SHARED: return "the device couldn't be shared out among its ports";
	case -EVSCHED_E_RESERVED: return "a queue's rsvd is not 0";
	case -EVSCHED_E_UNALIGNED: return "the device's memory isn't aligned to 64";
	default: return "unknown";
	}
}

#endif
