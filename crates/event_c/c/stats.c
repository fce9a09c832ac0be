/* SPDX-License-Identifier: BSD-3-Clause */
/*
 * Random calls on random devices, in one thread, refused ones among them, each counted beside the device: what every counter must show,
 * what each event must look like when it comes out, and that each payload comes out once: dequeued, drained or given back after the stop.
 * With `long` one device is called all the time, and nothing grows with the events.
 *
 *     stats [ROUNDS]
 *     stats long [SEED [SECONDS]]
 */
#define _DEFAULT_SOURCE
#include "ledger.h"
#include <sys/resource.h>
#include <time.h>

enum { STEPS = 400, PORTS = 4, PAYLOADS = 1 << 16, GROWN = 1024 };

static uint64_t random_state;
static struct evsched *dev;
static struct evsched_dev_config config;

/* What is known beside the device. A payload is a number, and has the slot of that number until it comes out. */
static uint64_t payloads, word[PAYLOADS], inside[PAYLOADS]; /* 0, or the payload and 1 */
static struct ledger ledger[PORTS];
static struct evsched_port_stats on[EVSCHED_MAX_LANES];
static unsigned char held[PORTS][EVSCHED_MAX_DEPTH]; /* the lanes of what a port holds, oldest first */
static int n_held[PORTS], is_shut;
static struct evsched_dev_stats at_shut;

static uint32_t draw(uint32_t below)
{
	return any(&random_state, below);
}

static int is_atomic(uint32_t q)
{
	return type_in(&config, q) == EVSCHED_TYPE_ATOMIC;
}

/* The lane by which an event comes to a port. */
static uint32_t lane_to(uint32_t p, const struct evsched_event *ev)
{
	uint32_t lane = PORTS, q;
	if (!config.event_dev_cfg || !is_atomic(ev->queue_id))
		return p;
	for (q = 0; q < ev->queue_id; q++)
		lane += is_atomic(q) ? config.queue[q].nb_atomic_flows : 0;
	return lane + ev->flow_id % config.queue[ev->queue_id].nb_atomic_flows;
}

static void comes_out(const struct evsched_event *ev)
{
	CHECK(inside[ev->u64 % PAYLOADS] == ev->u64 + 1);
	inside[ev->u64 % PAYLOADS] = 0;
	check_word(ev, word[ev->u64 % PAYLOADS]);
}

static void is_dequeued(const struct evsched_event *ev)
{
	comes_out(ev);
	CHECK(ev->sched_type == type_in(&config, ev->queue_id));
}

static void draw_config(void)
{
	uint32_t i;
	config = evsched_dev_default_config(QUEUES, PORTS);
	config.nb_events_limit = 16 + (int32_t)draw(200);
	config.credit_quanta = 1 + draw(8);
	config.sched_quanta = 1 + draw(64);
	for (i = 0; i < QUEUES; i++)
		draw_queue(&random_state, &config.queue[i]);
	for (i = 0; i < PORTS; i++) {
		config.port[i].new_event_threshold = config.nb_events_limit - (int32_t)draw(8);
		draw_port(&random_state, &config.port[i]);
		config.port[i].links = i == 1 ? (1u << QUEUES) - 1 : i == 0 ? 0 : draw(1u << QUEUES);
	}
}

/* The port's oldest events are released. */
static void release(uint32_t p, int n)
{
	for (int i = 0; i < n; i++)
		on[held[p][i]].released++;
	n_held[p] -= n;
	memmove(held[p], held[p] + n, (size_t)n_held[p]);
}

static void is_enqueued(uint32_t p, const struct evsched_event *ev)
{
	if (ev->op == EVSCHED_OP_NEW) {
		CHECK(!is_shut);
		inside[ev->u64 % PAYLOADS] = ev->u64 + 1;
		return;
	}
	CHECK(n_held[p] > 0);
	if (ev->op == EVSCHED_OP_RELEASE) {
		release(p, 1);
		return;
	}
	inside[ev->u64 % PAYLOADS] = ev->u64 + 1;
	if (ev->op == EVSCHED_OP_FORWARD_MORE) {
		on[held[p][0]].added++;
		return;
	}
	on[held[p][0]].forwarded++;
	n_held[p]--;
	memmove(held[p], held[p] + 1, (size_t)n_held[p]);
}

/* A burst of 0 to 99 random events; all bits of their words are random, but that a bad queue is rare. */
static void enqueue(uint32_t p)
{
	struct evsched_event ev[100];
	int n = (int)(draw(8) ? draw(9) : draw(100)), only = draw(2) ? (int)draw(4) : -1, taken, i;
	for (i = 0; i < n; i++) {
		ev[i].event = (uint64_t)draw(1u << 31) << 33 ^ (uint64_t)draw(1u << 31) << 16 ^ draw(1u << 16);
		ev[i].queue_id = (uint8_t)(draw(50) ? draw(QUEUES) : draw(256));
		if (only >= 0)
			ev[i].op = (uint8_t)only & 3;
		while (inside[++payloads % PAYLOADS])
			;
		word[payloads % PAYLOADS] = ev[i].event;
		ev[i].u64 = payloads;
	}
	taken = enqueue_counted(&ledger[p], evsched_port(dev, p), ev, n);
	for (i = 0; i < taken; i++)
		is_enqueued(p, &ev[i]);
	CHECK(evsched_held(evsched_port(dev, p)) == n_held[p]);
}

static void dequeue(uint32_t p)
{
	struct evsched_event ev[80];
	struct evsched_port *port = evsched_port(dev, p);
	const struct evsched_port_conf *conf = &config.port[p];
	int most = (int)draw(80), n = evsched_dequeue_burst(port, ev, (uint16_t)most), after = evsched_held(port), i;
	int released = n_held[p] - after + n, why = evsched_errno(port);
	CHECK(why == 0 || (why == ENOBUFS && n == 0));
	CHECK(conf->event_port_cfg ? why == 0 && released == 0 : why == 0 ? after == n : after > 0 && released >= 0);
	CHECK(n <= most && n <= 64 && after <= conf->dequeue_depth);
	release(p, released);
	ledger[p].counted.released += (uint64_t)released;
	ledger[p].counted.behind += why != 0;
	for (i = 0; i < n; i++) {
		is_dequeued(&ev[i]);
		CHECK(conf->links >> ev[i].queue_id & 1);
		held[p][n_held[p]++] = (unsigned char)lane_to(p, &ev[i]);
		on[lane_to(p, &ev[i])].tx++;
		ledger[p].dequeued[ev[i].queue_id]++;
		ledger[p].counted.dequeued++;
	}
}

static void call(void)
{
	uint32_t p = draw(PORTS), what = draw(100);
	if (what < 40)
		enqueue(p);
	else if (what < 70)
		dequeue(p);
	else
		CHECK(evsched_sweep(dev) >= 0);
}

static void shut(void)
{
	CHECK(evsched_shut(dev) == 0 && evsched_dev_stats(dev, &at_shut) == 0);
	is_shut = 1;
}

static void begin(int has_flow_lanes)
{
	memset(inside, 0, sizeof(inside));
	memset(ledger, 0, sizeof(ledger));
	memset(on, 0, sizeof(on));
	memset(n_held, 0, sizeof(n_held));
	payloads = 0;
	is_shut = 0;
	draw_config();
	config.event_dev_cfg = has_flow_lanes ? EVSCHED_DEV_CFG_FLOW_LANES : 0;
	CHECK(evsched_create(&config, &dev) == 0);
}

/* Each lane counted what came and went by it, where nothing was to do for the last sweep. */
static void check_lanes(const struct leftover *left)
{
	struct evsched_port_stats lane;
	for (uint32_t l = 0; !evsched_port_stats(dev, l, &lane); l++) {
		CHECK(lane.tx == on[l].tx + left->on[EVSCHED_LEFT_UNDELIVERED][l]);
		CHECK(lane.released == on[l].released && lane.forwarded == on[l].forwarded && lane.added == on[l].added);
	}
}

/* Ends a round or the long run in one of three ways: how many events it enqueued. */
static uint64_t end(uint32_t way)
{
	static struct leftover left;
	struct ledger all;
	uint64_t holds = 0, p;
	memset(&all, 0, sizeof(all));
	for (p = 0; p < PORTS; p++) {
		check_port(evsched_port(dev, (uint32_t)p), &ledger[p]);
		add_ledger(&all, &ledger[p]);
		holds += (uint64_t)n_held[p];
	}
	while (way == SETTLE && evsched_sweep(dev) > 0)
		;
	if (way == DRAIN)
		drain_device(dev, &all, holds, is_dequeued);
	stop_device(dev, config.nb_events_limit, &left, comes_out);
	CHECK(left.report.held == (way == DRAIN ? 0 : holds) && (is_shut ? left.before.rx_new == at_shut.rx_new : left.report.turned == 0));
	check_counts(dev, &all, &left, way != STOP);
	if (way == SETTLE)
		check_lanes(&left);
	for (p = 0; p < PAYLOADS; p++)
		CHECK(!inside[p]);
	evsched_free(dev);
	return all.counted.enqueued;
}

static uint64_t play_round(void)
{
	int step;
	random_state = number * 7919 + 1;
	begin(draw(3) == 0);
	for (step = 0; step < STEPS; step++) {
		call();
		if (step > STEPS - 50 && draw(100) == 0)
			shut();
	}
	return end(draw(ENDS));
}

static long peak(void)
{
	struct rusage usage;
	CHECK(getrusage(RUSAGE_SELF, &usage) == 0);
	return usage.ru_maxrss;
}

/* Calls one device until the seconds are over, by ports where the seed is odd, by flow lanes where it is even; then shuts it, and calls it
 * a little more. */
static uint64_t play_long(time_t seconds)
{
	time_t start = time(NULL), now = start;
	long first = 0, last, i;
	random_state = seed * 0x9e3779b97f4a7c15u;
	numbered = "call";
	begin(seed % 2 == 0);
	while (now - start < seconds) {
		for (i = 0; i < STEPS; i++, number++)
			call();
		now = time(NULL);
		if (first == 0 && now - start > 0)
			first = peak();
	}
	last = peak();
	CHECK(first == 0 || last - first < GROWN);
	printf("a peak of memory of %ld kB in the first second, and of %ld kB at the end\n", first, last);
	for (i = 0; i < PORTS * 8; i++)
		enqueue(draw(PORTS)); /* so that NEWs come too late */
	shut();
	for (i = 0; i < STEPS; i++)
		call();
	return end(SETTLE);
}

int main(int argc, char **argv)
{
	uint64_t events = 0, rounds = argc > 1 ? strtoull(argv[1], NULL, 10) : 300;
	if (argc > 1 && !strcmp(argv[1], "long")) {
		seed = argc > 2 ? strtoull(argv[2], NULL, 10) : 1;
		printf("seed %llu\n", (unsigned long long)seed);
		fflush(stdout);
		events = play_long(argc > 3 ? strtol(argv[3], NULL, 10) : 30);
		printf("stats: %llu calls, %llu events enqueued\n", (unsigned long long)number, (unsigned long long)events);
		return 0;
	}
	for (number = 0; number < rounds; number++)
		events += play_round();
	printf("stats: %llu rounds, %llu events enqueued\n", (unsigned long long)rounds, (unsigned long long)events);
	return 0;
}
