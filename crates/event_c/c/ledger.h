/* SPDX-License-Identifier: BSD-3-Clause */
/*
 * What soak.c and stats.c share: the count of a program's own calls, and the comparison of it with what a device counted and what its stop
 * found.
 */
#ifndef LEDGER_H
#define LEDGER_H

#include "draws.h"

/* How a device ends: it is stopped at once, after sweeps until nothing is to do, or after a drain. */
enum { STOP, SETTLE, DRAIN, ENDS };

/* What the calls of a port answered; uint64_t alone. */
struct ledger {
	struct evsched_port_counters counted;
	uint64_t enqueued[4][QUEUES], dequeued[QUEUES]; /* by op and queue; a RELEASE's is any */
};

static void add_ledger(struct ledger *sum, const struct ledger *other)
{
	for (size_t i = 0; i < sizeof(*sum) / sizeof(uint64_t); i++)
		((uint64_t *)sum)[i] += ((const uint64_t *)other)[i];
}

static uint64_t in_all(const uint64_t counts[QUEUES])
{
	uint64_t sum = 0;
	for (int q = 0; q < QUEUES; q++)
		sum += counts[q];
	return sum;
}

static void count_refusal(struct evsched_port_counters *c, int why)
{
	switch (why) {
	case ESHUTDOWN: c->stopped++; break;
	case EINVAL: c->bad_queue++; break;
	case ENOENT: c->nothing_held++; break;
	case ENOSPC: c->backpressure++; break;
	case EAGAIN: c->raced++; break;
	case ENOBUFS: c->full++; break;
	case E2BIG: c->too_many++; break;
	default: CHECK(!"a cause that is known");
	}
}

/* Enqueues, and counts what was answered. */
static int enqueue_counted(struct ledger *ledger, struct evsched_port *port, const struct evsched_event *ev, int n)
{
	int taken = evsched_enqueue_burst(port, ev, (uint16_t)n), why = evsched_errno(port), i;
	CHECK(taken <= n && (why == 0) == (taken == n));
	if (taken < n)
		count_refusal(&ledger->counted, why);
	ledger->counted.enqueued += (uint64_t)taken;
	for (i = 0; i < taken; i++)
		ledger->enqueued[ev[i].op][ev[i].op == EVSCHED_OP_RELEASE ? 0 : ev[i].queue_id]++;
	return taken;
}

/* The event is as it was enqueued. */
static void check_word(const struct evsched_event *ev, uint64_t word)
{
	struct evsched_event was;
	was.event = word;
	CHECK(ev->flow_id == was.flow_id && ev->sub_event_type == was.sub_event_type && ev->event_type == was.event_type);
	CHECK(ev->queue_id == was.queue_id && ev->priority == was.priority && ev->impl_opaque == was.impl_opaque);
}

static void check_port(struct evsched_port *port, const struct ledger *ledger)
{
	struct evsched_port_counters counters;
	CHECK(evsched_port_counters(port, &counters) == 0 && memcmp(&counters, &ledger->counted, sizeof(counters)) == 0);
}

struct drain {
	struct ledger *ledger;
	void (*comes_out)(const struct evsched_event *);
};

/* The drain itself releases what it dequeues. */
static void flush(struct evsched *dev, struct evsched_event ev, void *arg)
{
	struct drain *drain = (struct drain *)arg;
	(void)dev;
	drain->comes_out(&ev);
	drain->ledger->dequeued[ev.queue_id]++;
	drain->ledger->counted.released++;
}

static void drain_device(struct evsched *dev, struct ledger *ledger, uint64_t held, void (*comes_out)(const struct evsched_event *))
{
	struct drain drain = {ledger, comes_out};
	ledger->counted.released += held;
	CHECK(evsched_drain(dev, flush, &drain) == 0);
}

/* What a stop left: by place and queue, by place and lane; and of what no sweep took yet by op and queue. */
struct leftover {
	struct evsched_dev_stats before;
	struct evsched_report report;
	uint64_t of[5][QUEUES], on[5][EVSCHED_MAX_LANES], untaken[4][QUEUES];
};

/* Stops a device, and hands out what is left, which must be what the report counts. */
static void stop_device(struct evsched *dev, int limit, struct leftover *l, void (*comes_back)(const struct evsched_event *))
{
	const struct evsched_report *r = &l->report;
	struct evsched_left left[50];
	int n, i;
	memset(l, 0, sizeof(*l));
	CHECK(evsched_dev_stats(dev, &l->before) == 0 && evsched_inside(dev) == (int)l->before.inside);
	CHECK(evsched_stop(dev) == 0 && evsched_report(dev, &l->report) == 0);
	while ((n = evsched_left(dev, left, 50)) > 0)
		for (i = 0; i < n; i++) {
			const struct evsched_event *ev = &left[i].event;
			CHECK(left[i].place <= EVSCHED_LEFT_TURNED && left[i].lane < EVSCHED_MAX_LANES);
			comes_back(ev);
			l->of[left[i].place][ev->queue_id]++;
			l->on[left[i].place][left[i].lane]++;
			if (left[i].place == EVSCHED_LEFT_UNTAKEN)
				l->untaken[ev->op][ev->queue_id]++;
		}
	CHECK(in_all(l->of[EVSCHED_LEFT_WAITING]) == r->waiting && in_all(l->of[EVSCHED_LEFT_KEPT]) == r->kept);
	CHECK(in_all(l->of[EVSCHED_LEFT_UNDELIVERED]) == r->undelivered && in_all(l->of[EVSCHED_LEFT_UNTAKEN]) == r->untaken);
	CHECK(in_all(l->of[EVSCHED_LEFT_TURNED]) == r->turned);
	CHECK(r->free + r->own + r->pockets + r->waiting + r->kept + r->undelivered + r->held + r->untaken == (uint64_t)limit);
}

/* Each queue counted what the calls of all ports answered, but for what is left on its way. */
static uint64_t check_queues(struct evsched *dev, const struct ledger *all, const struct leftover *l)
{
	struct evsched_queue_stats queue;
	uint64_t rx_new = 0, tx = 0;
	for (uint32_t q = 0; !evsched_queue_stats(dev, q, &queue); q++) {
		CHECK(queue.rx_new + l->of[EVSCHED_LEFT_TURNED][q] + l->untaken[EVSCHED_OP_NEW][q] == all->enqueued[EVSCHED_OP_NEW][q]);
		CHECK(queue.rx_forwarded + l->of[EVSCHED_LEFT_KEPT][q] + l->untaken[EVSCHED_OP_FORWARD][q] + l->untaken[EVSCHED_OP_FORWARD_MORE][q]
			== all->enqueued[EVSCHED_OP_FORWARD][q] + all->enqueued[EVSCHED_OP_FORWARD_MORE][q]);
		CHECK(queue.tx == all->dequeued[q] + l->of[EVSCHED_LEFT_UNDELIVERED][q]);
		CHECK(queue.rx_new + queue.rx_forwarded == queue.tx + l->of[EVSCHED_LEFT_WAITING][q]);
		rx_new += queue.rx_new;
		tx += queue.tx;
	}
	CHECK(l->before.rx_new == rx_new);
	return tx;
}

/* And so did the lanes and the device; where it is settled, since nothing was to do for its last sweep, also of releases, and of what is
 * inside. */
static void check_counts(struct evsched *dev, const struct ledger *all, const struct leftover *l, int is_settled)
{
	struct evsched_port_stats port, sum = {0, 0, 0, 0, 0, 0, 0};
	const struct evsched_report *r = &l->report;
	uint64_t releases = in_all(all->enqueued[EVSCHED_OP_RELEASE]) + all->counted.released;
	for (uint32_t lane = 0; !evsched_port_stats(dev, lane, &port); lane++) {
		CHECK(port.turned == l->on[EVSCHED_LEFT_TURNED][lane]);
		sum.rx_new += port.rx_new;
		sum.tx += port.tx;
		sum.released += port.released;
		sum.forwarded += port.forwarded;
		sum.added += port.added;
	}
	CHECK(sum.rx_new == l->before.rx_new && sum.tx == check_queues(dev, all, l));
	CHECK(sum.forwarded + in_all(l->untaken[EVSCHED_OP_FORWARD]) == in_all(all->enqueued[EVSCHED_OP_FORWARD]));
	CHECK(sum.added + in_all(l->untaken[EVSCHED_OP_FORWARD_MORE]) == in_all(all->enqueued[EVSCHED_OP_FORWARD_MORE]));
	CHECK(is_settled ? sum.released == releases : sum.released <= releases);
	CHECK(!is_settled || (r->untaken == 0 && l->before.inside == r->waiting + r->kept + r->undelivered + r->held));
}

#endif
