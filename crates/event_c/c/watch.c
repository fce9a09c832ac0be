/* SPDX-License-Identifier: BSD-3-Clause */
/*
 * Statistics from any thread: what evsched_stats_read and the xstats read of a device in one thread, number by number, its timeouts and
 * ages; and, while threads run events through devices of random shapes, what two other threads read: sums that hold within one moment,
 * counts that never fall, answers that aren't older than their question; and in the end what the stop reports.
 *
 *     watch [SEED [SECONDS]]
 */
#define _DEFAULT_SOURCE
#include "draws.h"
#include <pthread.h>
#include <sched.h>
#include <stdatomic.h>
#include <time.h>

enum { PORTS = 4, READERS = 2, BURST = 40, FLOWS = 64, SWEEPS = 20000, DEVICE_WORDS = 17, MS = 1000000 };

struct player {
	struct evsched_port *port;
	uint64_t random;
};

static struct evsched *dev;
static struct evsched_dev_config config;
static struct player player[PORTS];
static struct evsched_stats seen; /* by the main thread */
static atomic_int is_over, is_stopping, is_read;
static atomic_ulong readings, answered;

static uint64_t now_ns(void)
{
	struct timespec time;
	clock_gettime(CLOCK_MONOTONIC, &time);
	return (uint64_t)time.tv_sec * 1000000000u + (uint64_t)time.tv_nsec;
}

static int has_flow_lanes(void)
{
	uint32_t q;
	for (q = 0; q < config.nb_event_queues; q++)
		if (config.event_dev_cfg && type_in(&config, q) == EVSCHED_TYPE_ATOMIC)
			return 1;
	return 0;
}

/* ---- what holds of every reading ---- */

/* Of a queue; to its lanes alone, where ports serve. */
static void check_queue(const struct evsched_stats *s, uint32_t q)
{
	const struct evsched_queue_now *queue = &s->queue[q];
	uint64_t tx = 0, pinned = 0;
	CHECK(queue->rx == queue->rx_new + queue->rx_forwarded && queue->rx == queue->tx + queue->waiting);
	CHECK(queue->waiting == queue->level[0] + queue->level[1] + queue->level[2] + queue->level[3]);
	for (uint32_t p = 0; p < PORTS; p++) {
		CHECK(config.port[p].links >> q & 1 || (s->share[q][p].tx == 0 && s->share[q][p].pinned == 0));
		tx += s->share[q][p].tx;
		pinned += s->share[q][p].pinned;
	}
	CHECK(tx <= queue->tx && (tx == queue->tx || has_flow_lanes()) && pinned <= queue->unanswered);
	CHECK(pinned <= (uint64_t)(type_in(&config, q) == EVSCHED_TYPE_ATOMIC ? config.queue[q].nb_atomic_flows : 0));
	CHECK((pinned > 0) == (type_in(&config, q) == EVSCHED_TYPE_ATOMIC && !has_flow_lanes() && queue->unanswered > 0));
}

static void check_port_now(const struct evsched_stats *s, uint32_t p)
{
	const struct evsched_port_now *port = &s->port[p];
	uint64_t tx = 0;
	for (uint32_t q = 0; q < config.nb_event_queues; q++)
		tx += s->share[q][p].tx;
	CHECK(tx == port->lane.tx && port->given <= port->lane.tx && (s->dev.ports >> p & 1) == (port->given > 0));
	CHECK(port->rx == port->lane.rx_new + port->lane.forwarded + port->lane.added);
	CHECK(port->unanswered == port->lane.tx - port->lane.released - port->lane.forwarded);
	CHECK(port->unanswered <= config.port[p].dequeue_depth && port->held <= config.port[p].dequeue_depth);
	CHECK(port->pocket <= (uint64_t)config.nb_events_limit);
	if (has_flow_lanes()) {
		CHECK(port->rx_ring == EVSCHED_UNKNOWN && port->cq_ring == EVSCHED_UNKNOWN && port->rx_free == EVSCHED_UNKNOWN);
		return;
	}
	CHECK(port->rx_ring + port->rx_free == config.port[p].enqueue_depth && port->rx_ring <= config.port[p].enqueue_depth);
	CHECK(port->cq_ring + port->cq_free == config.port[p].dequeue_depth && port->cq_ring <= config.port[p].dequeue_depth);
}

/* Of the device: the sums over queues and those over lanes are of one moment. */
static void check_sums(const struct evsched_stats *s)
{
	const struct evsched_dev_now *d = &s->dev;
	uint64_t rx_new = 0, onward = 0, tx = 0, inside = 0, unanswered = 0, room = 0, pockets = 0;
	for (uint32_t q = 0; q < config.nb_event_queues; q++) {
		check_queue(s, q);
		rx_new += s->queue[q].rx_new;
		onward += s->queue[q].rx_forwarded + s->queue[q].kept;
		tx += s->queue[q].tx;
		unanswered += s->queue[q].unanswered;
		inside += s->queue[q].waiting + s->queue[q].unanswered + s->queue[q].kept;
	}
	for (uint32_t p = 0; p < PORTS; p++) {
		check_port_now(s, p);
		room += config.port[p].enqueue_depth;
		pockets += s->port[p].pocket;
	}
	CHECK(d->rx_new == rx_new && d->lanes.rx_new == rx_new && d->lanes.forwarded + d->lanes.added == onward);
	CHECK(d->tx == tx && d->lanes.tx == tx && d->given == tx && d->inside == inside);
	CHECK(unanswered == tx - d->lanes.released - d->lanes.forwarded);
	CHECK(d->taken == rx_new + d->lanes.turned + d->lanes.released + d->lanes.forwarded + d->lanes.added);
	CHECK(d->rx_ring < UINT32_MAX && d->cq_ring < UINT32_MAX && d->age < UINT64_MAX / 2);
	CHECK(d->no_take <= d->sweeps && d->no_give <= d->sweeps && d->progress <= 1);
	CHECK(d->limit == (uint64_t)config.nb_events_limit && d->free + d->own <= d->limit && d->pockets == pockets);
	CHECK(has_flow_lanes() || d->free + d->own + d->inside <= d->limit + room);
}

/* Numbers that never fall: those whose bits are set. */
static void check_rise(const void *before, const void *after, size_t n, uint64_t counts)
{
	for (size_t i = 0; i < n; i++)
		CHECK(!(counts >> i & 1) || ((const uint64_t *)before)[i] <= ((const uint64_t *)after)[i]);
}

static void check_rises(const struct evsched_stats *before, const struct evsched_stats *after)
{
	check_rise(&before->dev, &after->dev, DEVICE_WORDS, 0x1fc7d);
	for (uint32_t q = 0; q < QUEUES; q++) {
		check_rise(&before->queue[q], &after->queue[q], 3, 7);
		for (uint32_t p = 0; p < PORTS; p++)
			check_rise(&before->share[q][p], &after->share[q][p], 1, 1);
	}
	for (uint32_t p = 0; p < PORTS; p++) {
		check_rise(&before->port[p].lane, &after->port[p].lane, 7, 0x7f);
		check_rise(&before->port[p].counters, &after->port[p].counters, 11, 0x7ff);
	}
}

/* Reads: what is new isn't older than the call, and it waited as long as something was missing. */
static void read_stats(struct evsched_stats *s, uint64_t timeout)
{
	uint64_t start = now_ns(), took;
	int late = evsched_stats_read(dev, s, timeout), old = 0;
	took = now_ns() - start;
	old += s->dev.age > took;
	for (uint32_t p = 0; p < PORTS; p++)
		old += s->port[p].age > took;
	CHECK(late >= 0 && late <= PORTS + 1 && old <= late && (late == 0 || took >= timeout || atomic_load(&is_stopping)));
	atomic_fetch_add(&answered, late == 0);
	atomic_fetch_add(&readings, 1);
	check_sums(s);
}

/* ---- in one thread ---- */

static void put(uint32_t p, unsigned op, unsigned queue, uint32_t flow, unsigned priority)
{
	struct evsched_event ev = {{0}, {0}};
	ev.op = op & 3;
	ev.queue_id = (uint8_t)queue;
	ev.flow_id = flow & 0xfffff;
	ev.priority = (uint8_t)priority;
	CHECK(evsched_enqueue_burst(evsched_port(dev, p), &ev, 1) == 1);
}

static void take(uint32_t p, uint16_t n)
{
	struct evsched_event ev[BURST];
	CHECK(evsched_dequeue_burst(evsched_port(dev, p), ev, n) == n);
}

/* Asks all, has all answer, and reads. */
static void read_now(int with_sweep)
{
	evsched_stats_read(dev, &seen, 0);
	if (with_sweep)
		CHECK(evsched_sweep(dev) >= 0);
	for (uint32_t p = 0; p < PORTS; p++)
		evsched_enqueue_burst(evsched_port(dev, p), NULL, 0);
	read_stats(&seen, 0);
}

/* Port 0 brings in; port 1 serves the atomic queue 0 and the parallel one, 2, ports 2 and 3 the ordered queue 1. */
static void make(uint32_t flags)
{
	uint32_t p;
	config = evsched_dev_default_config(3, PORTS);
	config.nb_events_limit = 512;
	config.event_dev_cfg = flags;
	config.queue[1].schedule_type = EVSCHED_TYPE_ORDERED;
	config.queue[2].schedule_type = EVSCHED_TYPE_PARALLEL;
	config.port[1].links = 5;
	config.port[2].links = config.port[3].links = 2;
	for (p = 0; p < PORTS; p++) {
		config.port[p].event_port_cfg = EVSCHED_PORT_CFG_DISABLE_IMPL_REL;
		config.port[p].dequeue_depth = 8;
	}
	CHECK(evsched_create(&config, &dev) == 0);
	config = *evsched_info(dev);
}

/* A device just made: all is 0 but its credits, and of the making; nobody answers, until the time is over. */
static void when_new(void)
{
	struct evsched_dev_now none;
	uint64_t start = now_ns();
	memset(&none, 0, sizeof(none));
	none.free = none.limit = 512;
	CHECK(evsched_stats_read(dev, &seen, 0) == PORTS + 1 && now_ns() - start < 5000u * MS);
	none.age = seen.dev.age;
	CHECK(memcmp(&none, &seen.dev, sizeof(none)) == 0 && seen.dev.age > 0 && seen.dev.age < 5000u * MS);
	start = now_ns();
	CHECK(evsched_stats_read(dev, &seen, 20 * MS) == PORTS + 1 && now_ns() - start >= 20 * MS && seen.dev.age >= 20 * MS);
	evsched_sweep(dev);
	CHECK(evsched_stats_read(dev, &seen, 0) == PORTS + 1 && seen.dev.sweeps == 1 && seen.dev.no_take == 1 && seen.dev.no_give == 1);
	CHECK(seen.dev.progress == 0 && seen.dev.age < seen.port[0].age);
	for (uint32_t i = 0; i < 3; i++) /* nobody has asked but once: one sweep more than that publishes */
		evsched_sweep(dev);
	CHECK(evsched_stats_read(dev, &seen, 0) == PORTS + 1 && seen.dev.sweeps == 2);
	CHECK(evsched_sweep(dev) == 0 && evsched_stats_read(dev, &seen, 0) == PORTS + 1 && seen.dev.sweeps == 5);
}

/* 14 events of 14 flows into queue 0 by priorities, of which port 1 gets 8; three of the ordered queue 1, of which the second is forwarded
 * first and is kept. */
static void fill(int given)
{
	uint32_t i;
	for (i = 0; i < 14; i++)
		put(0, EVSCHED_OP_NEW, 0, i, i < 9 ? 0 : i < 11 ? 64 : i < 12 ? 128 : 192);
	for (i = 0; i < 3; i++)
		put(0, EVSCHED_OP_NEW, 1, 50 + i, 255);
	CHECK(evsched_sweep(dev) == 17 + given);
	take(1, 6);
	take(2, 2);
	take(3, 1);
	put(3, EVSCHED_OP_FORWARD, 2, 0, 0);
	put(1, EVSCHED_OP_RELEASE, 0, 0, 0);
}

static void check_filled(void)
{
	static const uint64_t levels[4] = {1, 2, 1, 2};
	const struct evsched_port_now *port = seen.port;
	CHECK(memcmp(seen.queue[0].level, levels, sizeof(levels)) == 0 && seen.queue[0].tx == 8 && seen.queue[0].unanswered == 8);
	CHECK(seen.queue[1].rx_new == 3 && seen.queue[1].tx == 3 && seen.queue[1].unanswered == 3 && seen.queue[1].kept == 0);
	CHECK(seen.share[0][1].tx == 8 && seen.share[0][1].pinned == 8 && seen.share[1][2].tx == 2 && seen.share[1][3].tx == 1);
	CHECK(seen.dev.ports == 14 && seen.dev.progress == 1 && seen.dev.rx == 17 && seen.dev.tx == 11 && seen.dev.inside == 17);
	CHECK(seen.dev.free == 512 - 32 && seen.dev.pockets == 15 + 1 && port[0].pocket == 15 && port[1].pocket == 1);
	CHECK(port[1].held == 5 && port[2].held == 2 && port[3].held == 0 && port[1].given == 8 && port[3].given == 1);
	CHECK(port[0].rx_ring == 0 && port[1].rx_ring == 1 && port[3].rx_ring == 1 && seen.dev.rx_ring == 2);
	CHECK(port[1].cq_ring == 2 && port[1].cq_free == 6 && port[2].cq_ring == 0 && seen.dev.cq_ring == 2 && port[1].unanswered == 8);
	CHECK(port[0].counters.enqueued == 17 && port[1].counters.dequeued == 6 && port[0].rx == 17);
}

/* The same after the next sweep: of the events that were in rings one was released, and one is kept. */
static void check_swept(void)
{
	CHECK(seen.queue[1].kept == 1 && seen.queue[1].unanswered == 2 && seen.queue[0].unanswered == 8 && seen.queue[0].level[0] == 0);
	CHECK(seen.port[1].lane.released == 1 && seen.port[3].lane.forwarded == 1 && seen.port[3].rx == 1 && seen.port[1].given == 1);
	CHECK(seen.dev.rx_ring == 0 && seen.dev.cq_ring == 3 && seen.dev.inside == 16 && seen.dev.taken == 19 && seen.dev.given == 12);
	CHECK(seen.dev.free + seen.dev.own + seen.dev.pockets + seen.dev.inside == 512 && seen.dev.ports == 2);
}

/* What a port enqueues behind its answer, and a sweep takes, was never in the ring as far as the two are known; a dequeue answers too. */
static void check_apart(void)
{
	read_now(1);
	evsched_stats_read(dev, &seen, 0);
	put(0, EVSCHED_OP_NEW, 1, 1, 0);
	put(0, EVSCHED_OP_NEW, 1, 2, 0);
	CHECK(evsched_sweep(dev) > 0);
	take(1, 1);
	CHECK(evsched_stats_read(dev, &seen, 0) == PORTS + 1 && seen.port[0].counters.enqueued == 19 && seen.port[0].lane.rx_new == 20);
	CHECK(seen.port[0].rx_ring == 0 && seen.dev.rx_ring == 0 && seen.port[1].counters.dequeued == 7 && seen.port[1].held == 6);
	for (int i = 0; i < 2; i++) { /* of which the first answers, and the second doesn't */
		take(1, 1);
		put(0, EVSCHED_OP_NEW, 0, 9, 0);
	}
}

/* The stop publishes once more. After it nobody is waited for, and what was so stays. */
static void check_stopped(void)
{
	static struct evsched_stats after;
	struct evsched_report report;
	uint64_t start;
	CHECK(evsched_stop(dev) == 0 && evsched_report(dev, &report) == 0);
	start = now_ns();
	CHECK(evsched_stats_read(dev, &after, 60000u * (uint64_t)MS) == PORTS + 1 && now_ns() - start < 30000u * (uint64_t)MS);
	CHECK(after.port[0].counters.enqueued == 22 && after.port[0].rx_ring == 2 && after.port[1].held == 8 && report.untaken == 2);
	CHECK(after.dev.inside == seen.dev.inside && after.dev.free == report.free && after.dev.own == report.own);
	CHECK(after.dev.pockets == report.pockets && after.dev.cq_ring == report.undelivered);
	CHECK(after.port[1].held + after.port[2].held == report.held && after.queue[1].kept == report.kept);
	CHECK(evsched_sweep(dev) == -ENODEV && evsched_dequeue_burst(evsched_port(dev, 1), NULL, 0) == 0 && evsched_stop(dev) == -ENODEV);
	CHECK(evsched_stats_read(dev, &seen, 60000u * (uint64_t)MS) == PORTS + 1 && now_ns() - start < 30000u * (uint64_t)MS);
	CHECK(seen.dev.age > after.dev.age);
	CHECK(seen.port[1].age > after.port[1].age && seen.port[1].held == after.port[1].held && seen.dev.sweeps == after.dev.sweeps);
}

/* ---- by name and by id ---- */

static struct evsched_xstats_name names[200];
static uint64_t ids[200], values[200];

static uint64_t by_name(const char *name)
{
	uint64_t id = 0, value = evsched_xstats_by_name_get(dev, name, &id, 0);
	CHECK(id != (unsigned)-1);
	return value;
}

/* The statistics of a device, port or queue: as many as are said, with the next ids, and by name what they are by id, and nobody else's. */
static uint64_t check_names(enum evsched_xstats_mode mode, uint8_t of, int expected, uint64_t first)
{
	enum evsched_xstats_mode other = mode == EVSCHED_XSTATS_PORT ? EVSCHED_XSTATS_QUEUE : EVSCHED_XSTATS_PORT;
	int n = evsched_xstats_names_get(dev, mode, of, names, ids, 200), i, j;
	uint64_t id, value;
	CHECK(n == expected && evsched_xstats_names_get(dev, mode, of, NULL, ids, 200) == n);
	CHECK(evsched_xstats_names_get(dev, mode, of, names, NULL, 9) == n);
	CHECK(evsched_xstats_get(dev, mode, of, ids, values, (unsigned)n, 0) == n);
	for (i = 0; i < n; i++) {
		CHECK(ids[i] == first + (uint64_t)i && evsched_xstats_get(dev, other, 0, &ids[i], &value, 1, 0) == -EINVAL);
		CHECK(mode == EVSCHED_XSTATS_DEVICE || evsched_xstats_get(dev, mode, (uint8_t)(of == 0), &ids[i], &value, 1, 0) == -EINVAL);
		value = evsched_xstats_by_name_get(dev, names[i].name, &id, 0);
		CHECK(id == ids[i] && (value == values[i] || strstr(names[i].name, "age_ns")));
		for (j = 0; j < i; j++)
			CHECK(strcmp(names[i].name, names[j].name) != 0);
	}
	return first + (uint64_t)n;
}

static void check_all_names(int of_port)
{
	uint64_t next = check_names(EVSCHED_XSTATS_DEVICE, 77, 23, 0);
	CHECK(strcmp(names[0].name, "dev_rx") == 0 && strcmp(names[2].name, "dev_sched_calls") == 0);
	for (uint8_t p = 0; p < PORTS; p++)
		next = check_names(EVSCHED_XSTATS_PORT, p, of_port, next);
	CHECK(strcmp(names[2].name, "port_3_inflight") == 0);
	for (uint8_t q = 0; q < config.nb_event_queues; q++)
		next = check_names(EVSCHED_XSTATS_QUEUE, q, 11 + 2 * PORTS, next);
	CHECK(strcmp(names[4].name, "qid_2_iq_1_used") == 0 && strcmp(names[14].name, "qid_2_port_1_packets") == 0);
	CHECK(evsched_xstats_get(dev, EVSCHED_XSTATS_QUEUE, 2, &next, values, 1, 0) == -EINVAL);
	next = UINT64_MAX;
	CHECK(evsched_xstats_get(dev, EVSCHED_XSTATS_QUEUE, 2, &next, values, 1, 0) == -EINVAL);
	CHECK(evsched_xstats_by_name_get(dev, "dev_rxx", &next, 0) == (uint64_t)-EINVAL && next == (unsigned)-1);
	CHECK(evsched_xstats_names_get(dev, EVSCHED_XSTATS_PORT, PORTS, names, ids, 200) == -EINVAL);
	CHECK(evsched_xstats_names_get(dev, (enum evsched_xstats_mode)3, 0, names, ids, 200) == -EINVAL);
	memset(names, 1, sizeof(names));
	CHECK(evsched_xstats_names_get(dev, EVSCHED_XSTATS_DEVICE, 0, names, ids, 22) == 23 && names[0].name[0] == 1);
}

/* Each by its name what the device shows after fill() and a sweep. */
static void check_values(void)
{
	static const struct {
		const char *name;
		uint64_t value;
	} known[] = {{"dev_rx", 17}, {"dev_tx", 12}, {"dev_sched_calls", 7}, {"dev_sched_no_iq_enq", 5}, {"dev_sched_no_cq_enq", 5},
		{"dev_sched_last_iter_bitmask", 2}, {"dev_sched_progress_last_iter", 1}, {"dev_inside", 16}, {"dev_sched_taken", 19},
		{"dev_sched_given", 12}, {"dev_released", 1}, {"dev_forwarded", 1}, {"dev_credits_limit", 512}, {"dev_credits_free", 480},
		{"dev_credits_pockets", 16}, {"dev_cq_ring_used", 3}, {"port_0_rx", 17}, {"port_0_credits", 15}, {"port_0_rx_new", 17},
		{"port_1_tx", 9}, {"port_1_inflight", 8}, {"port_1_tx_last_iter", 1}, {"port_1_held", 5}, {"port_1_dequeued", 6},
		{"port_1_rx_ring_free", 64}, {"port_1_cq_ring_used", 3}, {"port_1_cq_ring_free", 5}, {"port_3_rx", 1}, {"qid_0_rx", 14},
		{"qid_0_tx", 9}, {"qid_0_inflight", 8}, {"qid_0_iq_0_used", 0}, {"qid_0_iq_1_used", 2}, {"qid_0_iq_3_used", 2},
		{"qid_0_waiting", 5}, {"qid_1_kept", 1}, {"qid_0_port_1_pinned_flows", 8}, {"qid_0_port_1_packets", 9}, {"qid_1_port_2_packets", 2}};
	for (size_t i = 0; i < sizeof(known) / sizeof(known[0]); i++)
		if (by_name(known[i].name) != known[i].value) {
			printf("%s is %llu\n", known[i].name, (unsigned long long)by_name(known[i].name));
			CHECK(!"what it should be");
		}
}

/* Counts begin at 0 again, and then count; what is no count stays, and so does what evsched_stats_read reads. */
static void check_reset(void)
{
	uint64_t id = 2, bad[2] = {0, 500};
	CHECK(evsched_xstats_reset(dev, EVSCHED_XSTATS_DEVICE, 0, &id, 1, 0) == 0 && by_name("dev_sched_calls") == 0 && by_name("dev_rx") == 17);
	CHECK(evsched_xstats_reset(dev, EVSCHED_XSTATS_DEVICE, 0, bad, 2, 0) == -EINVAL && by_name("dev_rx") == 17);
	CHECK(evsched_xstats_reset(dev, EVSCHED_XSTATS_PORT, PORTS, NULL, 0, 0) == -EINVAL);
	CHECK(evsched_xstats_reset(dev, EVSCHED_XSTATS_PORT, -2, NULL, 0, 0) == -EINVAL);
	CHECK(evsched_xstats_reset(dev, EVSCHED_XSTATS_DEVICE, 0, NULL, 0, 0) == 0 && by_name("dev_rx") == 0 && by_name("dev_inside") == 16);
	CHECK(by_name("dev_credits_free") == 480 && by_name("dev_sched_last_iter_bitmask") == 2 && by_name("port_1_tx") == 9);
	CHECK(evsched_xstats_reset(dev, EVSCHED_XSTATS_PORT, 1, NULL, 0, 0) == 0 && by_name("port_1_tx") == 0 && by_name("port_1_dequeued") == 0);
	CHECK(by_name("port_1_held") == 5 && by_name("port_1_cq_ring_used") == 3 && by_name("port_0_rx") == 17 && by_name("qid_0_rx") == 14);
	CHECK(evsched_xstats_reset(dev, EVSCHED_XSTATS_PORT, -1, NULL, 0, 0) == 0 && by_name("port_0_rx") == 0 && by_name("port_3_rx") == 0);
	CHECK(evsched_xstats_reset(dev, EVSCHED_XSTATS_QUEUE, 0, NULL, 0, 0) == 0 && by_name("qid_0_rx") == 0);
	CHECK(by_name("qid_0_port_1_packets") == 0 && by_name("qid_0_port_1_pinned_flows") == 8 && by_name("qid_1_rx") == 3);
	CHECK(by_name("qid_0_iq_1_used") == 2);
	put(0, EVSCHED_OP_NEW, 1, 1, 0);
	read_now(1);
	CHECK(by_name("dev_rx") == 1 && by_name("dev_sched_calls") == 1 && by_name("port_0_rx") == 1 && by_name("qid_0_rx") == 0);
	CHECK(by_name("qid_1_rx") == 4 && by_name("port_0_enqueued") == 1 && seen.dev.rx == 18 && seen.port[0].counters.enqueued == 18);
}

static void alone(void)
{
	make(0);
	when_new();
	fill(8 + 3);
	read_now(0);
	CHECK(seen.dev.sweeps == 6); /* what the sweep published is of that sweep's end */
	check_filled();
	read_now(1);
	check_swept();
	check_values();
	check_all_names(28);
	check_reset();
	check_apart();
	check_stopped();
	check_all_names(28);
	evsched_free(dev);
	make(EVSCHED_DEV_CFG_FLOW_LANES);
	fill(17);
	read_now(1);
	CHECK(seen.dev.tx == 17 && seen.share[0][1].tx == 0 && seen.dev.cq_ring == 8 && seen.dev.rx_ring == 0 && seen.dev.lanes.released == 1);
	check_all_names(24);
	evsched_free(dev);
}

/* ---- while threads run events through ---- */

static void draw_device(uint64_t *random)
{
	uint32_t q, p;
	config = evsched_dev_default_config(QUEUES, PORTS);
	config.nb_events_limit = 32 + (int32_t)any(random, 300);
	config.credit_quanta = 1 + any(random, 4);
	config.sched_quanta = 1 + any(random, EVSCHED_MAX_SCHED_QUANTA);
	config.event_dev_cfg = number % 3 == 2 ? EVSCHED_DEV_CFG_FLOW_LANES : 0;
	for (p = 0; p < PORTS; p++)
		draw_port(random, &config.port[p]);
	for (q = 0; q < QUEUES; q++) {
		draw_queue(random, &config.queue[q]);
		for (p = 1; p < PORTS; p++)
			if (p == 1 + q % (PORTS - 1) || any(random, 2))
				config.port[p].links |= 1u << q;
	}
	CHECK(evsched_create(&config, &dev) == 0);
}

/* Enqueues until all are in or given up, which NEWs and additions are where credits are short, and all when it is over. */
static void push(struct player *me, const struct evsched_event *ev, int n)
{
	int done = 0, why;
	while (done < n) {
		done += evsched_enqueue_burst(me->port, ev + done, (uint16_t)(n - done));
		why = evsched_errno(me->port);
		if (why != 0 && atomic_load(&is_over))
			return;
		if (why == ENOBUFS)
			sched_yield();
		else if (why != 0)
			done++;
	}
}

static void *produce(void *arg)
{
	struct player *me = (struct player *)arg;
	struct evsched_event ev[BURST];
	while (!atomic_load(&is_over)) {
		int n = 1 + (int)any(&me->random, BURST), i;
		for (i = 0; i < n; i++) {
			ev[i].event = 0;
			ev[i].u64 = 0;
			ev[i].queue_id = (uint8_t)any(&me->random, QUEUES);
			ev[i].priority = (uint8_t)any(&me->random, 256);
			ev[i].flow_id = any(&me->random, FLOWS) & 0xfffff;
		}
		push(me, ev, n);
		if (any(&me->random, 4) == 0)
			sched_yield();
	}
	return NULL;
}

/* Forwards to the next queue or releases, and adds an event now and then. */
static void *work(void *arg)
{
	struct player *me = (struct player *)arg;
	struct evsched_event ev[EVSCHED_MAX_BURST], answer[2 * EVSCHED_MAX_BURST];
	while (!atomic_load(&is_over)) {
		int n = evsched_dequeue_burst(me->port, ev, (uint16_t)(1 + any(&me->random, BURST))), made = 0, i;
		for (i = 0; i < n; i++) {
			answer[made] = ev[i];
			answer[made].queue_id = (uint8_t)((ev[i].queue_id + 1) % QUEUES);
			answer[made].op = EVSCHED_OP_FORWARD_MORE;
			if (any(&me->random, 16) == 0 && ev[i].queue_id + 1 < QUEUES)
				answer[made + 1] = answer[made], made++;
			answer[made].op = ev[i].queue_id + 1 < QUEUES ? EVSCHED_OP_FORWARD : EVSCHED_OP_RELEASE;
			made++;
		}
		push(me, answer, made);
		if (n == 0)
			sched_yield();
	}
	return NULL;
}

/* One name's value, which never falls but where another thread resets it. */
static void read_by_name(uint64_t *random)
{
	static const char *const some[] = {"dev_rx", "port_1_tx", "qid_2_iq_3_used", "dev_credits_free", "qid_1_port_2_packets"};
	uint64_t id, value = evsched_xstats_by_name_get(dev, some[any(random, 5)], &id, any(random, 2) * MS);
	CHECK(id != (unsigned)-1 && value < UINT64_MAX / 2);
	CHECK(any(random, 8) || evsched_xstats_reset(dev, EVSCHED_XSTATS_PORT, -1, NULL, 0, 0) == 0);
}

static void *observe(void *arg)
{
	static struct evsched_stats pairs[READERS][2];
	uint64_t me = *(const uint64_t *)arg, random = seed * 31 + number * 7 + me, turn;
	struct evsched_stats *pair = pairs[me];
	memset(pair, 0, sizeof(pairs[me]));
	for (turn = 0; !atomic_load(&is_read); turn++) {
		read_stats(&pair[turn % 2], any(&random, 2) ? 50 * MS : any(&random, 2) * MS);
		check_rises(&pair[1 - turn % 2], &pair[turn % 2]);
		if (any(&random, 4) == 0)
			read_by_name(&random);
	}
	return NULL;
}

/* With all threads gone: what is read is what the calls answered, all credits are somewhere, and the stop reports the same. */
static void check_end(void)
{
	struct evsched_port_counters counters;
	struct evsched_report report;
	uint64_t waiting = 0, kept = 0, held = 0;
	uint32_t i;
	while (evsched_sweep(dev) > 0)
		;
	read_now(1);
	CHECK(seen.dev.rx_ring == 0 && seen.dev.free + seen.dev.own + seen.dev.pockets + seen.dev.inside == seen.dev.limit);
	for (i = 0; i < PORTS; i++) {
		CHECK(evsched_port_counters(player[i].port, &counters) == 0 && memcmp(&seen.port[i].counters, &counters, sizeof(counters)) == 0);
		CHECK(seen.port[i].held == (uint64_t)evsched_held(player[i].port));
		CHECK(seen.port[i].rx_ring == (has_flow_lanes() ? EVSCHED_UNKNOWN : 0));
		held += seen.port[i].held;
	}
	for (i = 0; i < QUEUES; i++) {
		waiting += seen.queue[i].waiting;
		kept += seen.queue[i].kept;
	}
	atomic_store(&is_stopping, 1);
	CHECK(evsched_stop(dev) == 0 && evsched_report(dev, &report) == 0);
	CHECK(report.free == seen.dev.free && report.own == seen.dev.own && report.pockets == seen.dev.pockets && report.held == held);
	CHECK(report.waiting == waiting && report.kept == kept && report.undelivered == seen.dev.cq_ring && report.untaken == 0);
}

/* Sweeps for a while, and dumps the device now and then. */
static void schedule(time_t until)
{
	FILE *to = fopen("/dev/null", "w");
	for (uint32_t i = 0; i < SWEEPS && time(NULL) < until; i++) {
		if (evsched_sweep(dev) == 0)
			sched_yield();
		if (to && i % (SWEEPS / 4) == 0)
			CHECK(evsched_dump(dev, to) == 0);
	}
	if (to)
		fclose(to);
}

static void play(time_t until)
{
	uint64_t random = (seed << 24) + number, which[READERS] = {0, 1}, p;
	pthread_t thread[PORTS], reader[READERS];
	draw_device(&random);
	config = *evsched_info(dev);
	atomic_store(&is_over, 0);
	atomic_store(&is_stopping, 0);
	atomic_store(&is_read, 0);
	memset(player, 0, sizeof(player));
	for (p = 0; p < PORTS; p++) {
		player[p].port = evsched_port(dev, (uint32_t)p);
		player[p].random = random + p;
		CHECK(pthread_create(&thread[p], NULL, p ? work : produce, &player[p]) == 0);
	}
	for (p = 0; p < READERS; p++)
		CHECK(pthread_create(&reader[p], NULL, observe, &which[p]) == 0);
	schedule(until);
	atomic_store(&is_over, 1);
	for (p = 0; p < PORTS; p++)
		CHECK(pthread_join(thread[p], NULL) == 0);
	check_end(); /* readers go on, also while it stops */
	atomic_store(&is_read, 1);
	for (p = 0; p < READERS; p++)
		CHECK(pthread_join(reader[p], NULL) == 0);
	evsched_free(dev);
}

int main(int argc, char **argv)
{
	time_t seconds = argc > 2 ? strtol(argv[2], NULL, 10) : 2, start = time(NULL);
	seed = argc > 1 ? strtoull(argv[1], NULL, 10) : 1;
	printf("seed %llu\n", (unsigned long long)seed);
	fflush(stdout);
	alone();
	for (number = 0; number < 3 || time(NULL) - start < seconds; number++)
		play(start + seconds);
	printf("watch: %llu rounds, %lu readings by %d threads, %lu of them new in all parts\n", (unsigned long long)number,
		atomic_load(&readings), READERS, atomic_load(&answered));
	return atomic_load(&answered) == 0;
}
