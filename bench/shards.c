/* SPDX-License-Identifier: BSD-3-Clause */
/*
 * What several devices side by side (evsched_shards.h) pass, by processors, beside event_sw and event_dsw of DPDK and one device alone, by
 * the same loops. Each thread is pinned to a processor of its own: schedulers, and workers, which bring in a NEW of an atomic queue for
 * each event that they release, so that as many are always inside. Of so many processors event_sw and one device alone have a scheduler,
 * and the others are workers; event_dsw schedules in its workers, so all of them are; of a group half are devices' and half workers, each
 * of which serves all devices, or its own. Beside these a group of one device alone, with as many workers as serve each device of either
 * group. Windows of a few milliseconds, of each kind and all flows by turns; prints how many millions of events a second are released, in
 * the mean of the windows and in the best one, and the ratio to event_sw's mean. `bench/against_event_sw shards` builds it;
 * bench/scale_model.py reads what it prints.
 *
 *     shards [WINDOWS [HANDLE]]     a worker handles each event for HANDLE nanoseconds
 *
 * A thread ends when the time of its window is over, whatever the others do. Where a machine has other work these threads are to come
 * first (chrt -f 10): after each turn they leave the processors for as long as they had them.
 */
#include "two_devices.h"
#include <evsched_shards.h>
#include <rte_cycles.h>
#include <rte_launch.h>
#include <rte_lcore.h>
#include <rte_pause.h>

enum { FLOWS = 1024, BURST = 16, INSIDE = 128, WARM = 5, LENGTH = 20, PATIENCE = 10000 }; /* INSIDE of each worker; times in milliseconds */
enum { SW, DSW, ALONE, ALL, OWN, ONE_OF_ALL, ONE_OF_OWN, KINDS };
enum { UNIFORM, HALF, ONE, FLOW_KINDS }; /* all flows have as many events; flow 0 has half of all; it has all */

static const char *const kinds[KINDS] = {"event_sw", "event_dsw", "one-device", "serves-all", "serves-own", "one-of-all",
	"one-of-own"};
static const char *const flow_kinds[FLOW_KINDS] = {"uniform", "half", "one"};

/* Of each kind how many schedulers and workers there are. */
struct row {
	uint32_t processors, devices[KINDS], workers[KINDS];
	struct shape shape;
};

/* A worker of one kind, from window to window. */
struct worker {
	union event ev[BURST], fresh[BURST];
	int came, answered, made, brought; /* of `ev` and of `fresh` */
	uint32_t owed, next;               /* how many NEWs it is still to bring in */
	double rate;
} __rte_aligned(128);

static const char dsw_name[] = "event_dsw0";
static uint8_t dsw;
static struct evsched_shards *groups[KINDS];
static struct worker workers[KINDS][MOST_WORKERS];
static struct row row;
static uint64_t handle_cycles;
static struct {
	uint64_t start, end;
	int kind, flows;
} window;

static void make_dsw(void)
{
	struct rte_event_dev_config config;
	struct rte_event_queue_conf queue;
	struct rte_event_port_conf port;
	int id;
	uint8_t p;
	if (rte_eal_hotplug_add("vdev", dsw_name, "") || (id = rte_event_dev_get_dev_id(dsw_name)) < 0)
		fail("there is no event_dsw");
	dsw = (uint8_t)id;
	memset(&config, 0, sizeof(config));
	config.nb_events_limit = LIMIT;
	config.nb_event_queues = 1;
	config.nb_event_ports = (uint8_t)row.workers[DSW];
	config.nb_event_queue_flows = FLOWS;
	config.nb_event_port_dequeue_depth = config.nb_event_port_enqueue_depth = THEIR_DEPTH;
	memset(&queue, 0, sizeof(queue));
	queue.nb_atomic_flows = FLOWS;
	queue.nb_atomic_order_sequences = FLOWS;
	queue.schedule_type = RTE_SCHED_TYPE_ATOMIC;
	queue.priority = RTE_EVENT_DEV_PRIORITY_NORMAL;
	if (rte_event_dev_configure(dsw, &config) || rte_event_queue_setup(dsw, 0, &queue))
		fail("event_dsw isn't configured");
	memset(&port, 0, sizeof(port));
	port.new_event_threshold = LIMIT;
	port.dequeue_depth = port.enqueue_depth = THEIR_DEPTH;
	for (p = 0; p < row.workers[DSW]; p++)
		if (rte_event_port_setup(dsw, p, &port) || rte_event_port_link(dsw, p, NULL, NULL, 0) != 1)
			fail("event_dsw has no such port");
	if (rte_event_dev_start(dsw))
		fail("event_dsw isn't started");
}

static struct evsched_shards *make_group(int kind)
{
	struct evsched_shards_config config = evsched_shards_default_config(row.devices[kind], 1, row.workers[kind]);
	struct evsched_shards *group;
	uint32_t p;
	config.dev.nb_events_limit = LIMIT;
	for (p = 0; p < row.workers[kind]; p++) {
		config.dev.port[p].links = 1;
		config.dev.port[p].dequeue_depth = OUR_DEPTH;
		config.dev.port[p].event_port_cfg = EVSCHED_PORT_CFG_DISABLE_IMPL_REL;
		config.serves[p] = kind == OWN ? 1u << p % row.devices[kind] : ~0u;
	}
	if (evsched_shards_create(&config, &group, NULL) < 0)
		fail("a group isn't made");
	return group;
}

static void free_all(void)
{
	int kind;
	rte_event_dev_stop(dsw);
	if (rte_event_dev_close(dsw) || rte_eal_hotplug_remove("vdev", dsw_name))
		fail("event_dsw isn't freed");
	for (kind = ALL; kind < KINDS; kind++)
		evsched_shards_free(groups[kind]);
	free_both();
}

/* How many were enqueued: NEWs, or RELEASEs of what a dequeue gave. */
ALWAYS int put(int kind, uint32_t worker, union event *ev, int n, int is_new)
{
	uint16_t count = (uint16_t)n;
	if (kind == SW || kind == ALONE)
		return enqueue(kind == ALONE, WORKER + worker, ev, count);
	if (kind == DSW)
		return is_new ? rte_event_enqueue_new_burst(dsw, (uint8_t)worker, &ev->theirs, count)
			: rte_event_enqueue_burst(dsw, (uint8_t)worker, &ev->theirs, count);
	return is_new ? evsched_shards_enqueue_new_burst(evsched_shards_port(groups[kind], worker), &ev->ours, count)
		: evsched_shards_enqueue_burst(evsched_shards_port(groups[kind], worker), &ev->ours, count);
}

ALWAYS int get(int kind, uint32_t worker, union event *ev)
{
	if (kind == SW || kind == ALONE)
		return dequeue(kind == ALONE, WORKER + worker, ev, BURST);
	if (kind == DSW)
		return rte_event_dequeue_burst(dsw, (uint8_t)worker, &ev->theirs, BURST, 0);
	return evsched_shards_dequeue_burst(evsched_shards_port(groups[kind], worker), &ev->ours, BURST);
}

ALWAYS void handle(union event *ev, int n)
{
	int i;
	for (i = 0; i < n; i++) {
		uint64_t start = handle_cycles ? rte_rdtsc() : 0;
		while (handle_cycles && rte_rdtsc() - start < handle_cycles)
			;
		ev[i].theirs.op = RTE_EVENT_OP_RELEASE;
	}
}

/* The flow of a worker's event of this number. */
ALWAYS uint32_t flow_of(uint32_t number)
{
	if (window.flows == ONE || (window.flows == HALF && number % 2 == 0))
		return 0;
	return (window.flows == HALF ? number / 2 : number) % FLOWS;
}

/* NEWs for those that were released. */
ALWAYS void bring(int kind, uint32_t number, struct worker *worker, uint64_t word)
{
	if (worker->brought == worker->made) {
		int i, n = worker->owed < BURST ? (int)worker->owed : BURST;
		for (i = 0; i < n; i++, worker->next++)
			worker->fresh[i].theirs.event = word | flow_of(worker->next);
		worker->owed -= (uint32_t)n;
		worker->made = n;
		worker->brought = 0;
	}
	if (worker->brought < worker->made)
		worker->brought += put(kind, number, worker->fresh + worker->brought, worker->made - worker->brought, 1);
}

/* How many were released, counted from the window's start on, and in what time: events a second. */
ALWAYS double work(int kind, uint32_t number, struct worker *worker)
{
	uint64_t released = 0, before = 0, start = 0, time = 0, word = new_word(&row.shape);
	uint32_t call;
	for (call = 0;; call++) {
		if (call % 64 == 0) {
			time = rte_rdtsc();
			if (start == 0 && time >= window.start) {
				start = time;
				before = released;
			}
			if (time >= window.end)
				break;
		}
		if (worker->answered == worker->came) {
			worker->came = get(kind, number, worker->ev);
			worker->answered = 0;
			handle(worker->ev, worker->came);
		}
		if (worker->answered < worker->came) {
			int n = put(kind, number, worker->ev + worker->answered, worker->came - worker->answered, 0);
			worker->answered += n;
			worker->owed += (uint32_t)n;
			released += (uint64_t)n;
		}
		bring(kind, number, worker, word);
	}
	return time > start ? (double)(released - before) * (double)rte_get_tsc_hz() / (double)(time - start) : 0;
}

static void run_worker(int kind, uint32_t number)
{
	struct worker *worker = &workers[kind][number];
	worker->rate = kind == SW ? work(SW, number, worker) : kind == DSW ? work(DSW, number, worker)
		: kind == ALONE ? work(ALONE, number, worker) : work(kind, number, worker);
}

static void run_scheduler(int kind, uint32_t number)
{
	uint32_t call;
	for (call = 1; call % 64 != 0 || rte_rdtsc() < window.end; call++)
		if (kind == SW || kind == ALONE)
			schedule(kind == ALONE);
		else
			evsched_sweep(evsched_shards_dev(groups[kind], number));
}

/* The first threads are schedulers, the next ones workers. */
static int run_thread(void *number_as_pointer)
{
	uint32_t number = (uint32_t)(uintptr_t)number_as_pointer, devices = row.devices[window.kind];
	if (number < devices)
		run_scheduler(window.kind, number);
	else if (number < devices + row.workers[window.kind])
		run_worker(window.kind, number - devices);
	return 0;
}

/* Waits for a thread, which ends by itself. */
static void await(unsigned lcore)
{
	int i;
	for (i = 0; rte_eal_get_lcore_state(lcore) == RUNNING; i++) {
		if (i == PATIENCE)
			fail("a thread doesn't end");
		usleep(1000);
	}
	rte_eal_wait_lcore(lcore);
}

/* One window: events a second. The main thread is the first one. */
static double run_window(int kind, int flows)
{
	uint64_t millisecond = rte_get_tsc_hz() / 1000;
	double rate = 0;
	unsigned lcore;
	uint32_t at = 1;
	window.kind = kind;
	window.flows = flows;
	window.start = rte_rdtsc() + WARM * millisecond;
	window.end = window.start + LENGTH * millisecond;
	RTE_LCORE_FOREACH_WORKER(lcore) {
		if (at < row.processors && rte_eal_remote_launch(run_thread, (void *)(uintptr_t)at, lcore))
			fail("a thread doesn't start");
		at++;
	}
	run_thread(NULL);
	RTE_LCORE_FOREACH_WORKER(lcore)
		await(lcore);
	for (at = 0; at < row.workers[kind]; at++)
		rate += workers[kind][at].rate;
	return rate;
}

/* Prints the rows of so many processors. */
static void measure(int windows)
{
	double sum[FLOW_KINDS][KINDS] = {{0}}, best[FLOW_KINDS][KINDS] = {{0}};
	int i, flows, kind;
	for (i = 0; i < windows; i++) {
		for (flows = 0; flows < FLOW_KINDS; flows++)
			for (kind = 0; kind < KINDS; kind++) {
				double rate = run_window(kind, flows) / 1e6;
				sum[flows][kind] += rate;
				if (rate > best[flows][kind])
					best[flows][kind] = rate;
			}
		usleep((useconds_t)(FLOW_KINDS * KINDS * (WARM + LENGTH) * 1000));
	}
	for (flows = 0; flows < FLOW_KINDS; flows++)
		for (kind = 0; kind < KINDS; kind++)
			printf("%10u %-8s %-10s %7u %7u %9.2f %9.2f %6.2f\n", row.processors, flow_kinds[flows], kinds[kind],
				row.devices[kind], row.workers[kind], sum[flows][kind] / windows, best[flows][kind],
				sum[flows][kind] / sum[flows][SW]);
	fflush(stdout);
}

static void set_row(uint32_t processors)
{
	int kind;
	uint32_t w;
	memset(&row, 0, sizeof(row));
	memset(workers, 0, sizeof(workers));
	row.processors = processors;
	for (kind = 0; kind < KINDS; kind++) {
		row.devices[kind] = kind == DSW ? 0 : kind == ALL || kind == OWN ? processors / 2 : 1;
		row.workers[kind] = kind == ONE_OF_ALL ? processors / 2 : kind == ONE_OF_OWN ? 1 : processors - row.devices[kind];
		for (w = 0; w < row.workers[kind]; w++) {
			workers[kind][w].owed = INSIDE;
			workers[kind][w].next = w * 131;
		}
	}
	row.shape.queues = 1;
	row.shape.workers = processors - 1;
	row.shape.types[0] = RTE_SCHED_TYPE_ATOMIC;
}

int main(int argc, char **argv)
{
	int windows = argc > 1 ? atoi(argv[1]) : 10, kind;
	uint32_t processors;
	start_eal(argv[0]);
	handle_cycles = argc > 2 ? strtoull(argv[2], NULL, 10) * rte_get_tsc_hz() / 1000000000 : 0;
	printf("%10s %-8s %-10s %7s %7s %9s %9s %6s\n", "processors", "flows", "kind", "devices", "workers", "mean", "best", "ratio");
	for (processors = 2; processors <= rte_lcore_count() && processors <= MOST_WORKERS; processors += 2) {
		set_row(processors);
		make_theirs(&row.shape);
		make_ours(&row.shape);
		make_dsw();
		for (kind = ALL; kind < KINDS; kind++)
			groups[kind] = make_group(kind);
		measure(windows);
		free_all();
	}
	return 0;
}
