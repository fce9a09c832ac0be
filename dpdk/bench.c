/* SPDX-License-Identifier: BSD-3-Clause */
/*
 * What DPDK's own calls cost over event_evsched0 and over event_sw0, by turns in one process and one thread, and the same rounds by the calls of
 * evsched.h, without DPDK. A round is a burst of NEWs, a run of the service, a dequeue, a burst of RELEASEs and a run of the service; in the
 * rows with a backlog so many events wait all the time. Prints nanoseconds an event, of each the least of all turns; dpdk/test counts
 * instructions by callgrind, of the same rows.
 *
 *     bench EAL'S WORDS -- TURNS
 */
#include <evsched.h>

#include <stdio.h>
#include <stdlib.h>
#include <string.h>

#include <rte_eal.h>
#include <rte_eventdev.h>
#include <rte_service.h>

enum { SOURCE, WORKER, PORTS, LIMIT = 4096, FLOWS = 64, DEPTH = 64, EVENTS = 4096, MOST = 32 };
enum { THEIRS, DRIVER, LIBRARY, DEVICES };

static const struct {
	const char *name;
	uint8_t type;
} types[] = {{"atomic", RTE_SCHED_TYPE_ATOMIC}, {"ordered", RTE_SCHED_TYPE_ORDERED}, {"parallel", RTE_SCHED_TYPE_PARALLEL}};

static uint8_t ids[LIBRARY];
static uint32_t services[LIBRARY];
static struct evsched *library;

static void fail(const char *what, const char *where)
{
	fprintf(stderr, "bench: %s: %s\n", where, what);
	exit(1);
}

static const char *name_of(int device)
{
	static const char *const names[] = {"event_sw0", "event_evsched0", "evsched.h"};
	return names[device];
}

static void set_up(int device, uint8_t type)
{
	struct rte_event_queue_conf queue = {.nb_atomic_flows = FLOWS, .nb_atomic_order_sequences = 256, .schedule_type = type};
	struct rte_event_port_conf port = {.new_event_threshold = LIMIT, .dequeue_depth = DEPTH, .enqueue_depth = DEPTH,
		.event_port_cfg = RTE_EVENT_PORT_CFG_DISABLE_IMPL_REL};
	const uint8_t queues[] = {0};
	uint8_t p;
	if (rte_event_queue_setup(ids[device], 0, &queue))
		fail("no queue", name_of(device));
	for (p = 0; p < PORTS; p++)
		if (rte_event_port_setup(ids[device], p, &port) || (p == WORKER && rte_event_port_link(ids[device], p, queues, NULL, 1) != 1))
			fail("no port", name_of(device));
}

static void start(int device, uint8_t type)
{
	struct rte_event_dev_config config = {.nb_events_limit = LIMIT, .nb_event_queues = 1, .nb_event_ports = PORTS,
		.nb_event_queue_flows = 1024, .nb_event_port_dequeue_depth = DEPTH, .nb_event_port_enqueue_depth = DEPTH};
	int id = rte_event_dev_get_dev_id(name_of(device));
	if (id < 0)
		fail("there is no such device", name_of(device));
	ids[device] = (uint8_t)id;
	if (rte_event_dev_configure(ids[device], &config))
		fail("not configured", name_of(device));
	set_up(device, type);
	if (rte_event_dev_service_id_get(ids[device], &services[device]) || rte_service_set_runstate_mapped_check(services[device], 0)
		|| rte_service_runstate_set(services[device], 1) || rte_event_dev_start(ids[device]))
		fail("not started", name_of(device));
}

static void make_library(uint8_t type)
{
	struct evsched_dev_config config = evsched_dev_default_config(1, PORTS);
	uint32_t p;
	config.nb_events_limit = LIMIT;
	config.queue[0].schedule_type = type;
	config.queue[0].nb_atomic_flows = FLOWS;
	config.port[WORKER].links = 1;
	for (p = 0; p < PORTS; p++) {
		config.port[p].new_event_threshold = LIMIT;
		config.port[p].dequeue_depth = DEPTH;
		config.port[p].event_port_cfg = EVSCHED_PORT_CFG_DISABLE_IMPL_REL;
	}
	if (evsched_create(&config, &library) < 0)
		fail("not made", name_of(LIBRARY));
}

static void sweep(int device)
{
	if (device == LIBRARY)
		evsched_sweep(library);
	else
		rte_service_run_iter_on_app_lcore(services[device], 0);
}

static uint16_t enqueue(int device, uint8_t port, const struct rte_event ev[], uint16_t n)
{
	if (device == LIBRARY)
		return evsched_enqueue_burst(evsched_port(library, port), (const struct evsched_event *)ev, n);
	return rte_event_enqueue_burst(ids[device], port, ev, n);
}

static uint16_t dequeue(int device, uint8_t port, struct rte_event ev[], uint16_t n)
{
	if (device == LIBRARY)
		return evsched_dequeue_burst(evsched_port(library, port), (struct evsched_event *)ev, n);
	return rte_event_dequeue_burst(ids[device], port, ev, n, 0);
}

static void bring(int device, uint8_t type, uint16_t burst, struct rte_event ev[])
{
	static uint32_t flow;
	uint16_t i;
	for (i = 0; i < burst; i++) {
		ev[i].event = 0;
		ev[i].flow_id = flow++ % FLOWS;
		ev[i].op = RTE_EVENT_OP_NEW;
		ev[i].sched_type = type & 3;
	}
	if (enqueue(device, SOURCE, ev, burst) != burst)
		fail("a NEW is refused", name_of(device));
	sweep(device);
}

static void take(int device, uint16_t burst, struct rte_event ev[])
{
	uint16_t i;
	if (dequeue(device, WORKER, ev, burst) != burst)
		fail("not delivered", name_of(device));
	for (i = 0; i < burst; i++)
		ev[i].op = RTE_EVENT_OP_RELEASE;
	if (enqueue(device, WORKER, ev, burst) != burst)
		fail("a RELEASE is refused", name_of(device));
	sweep(device);
}

/* By this name callgrind counts. */
static __attribute__((noinline)) void turn(int device, uint8_t type, uint16_t burst)
{
	struct rte_event ev[MOST];
	uint32_t i;
	memset(ev, 0, sizeof(ev));
	for (i = 0; i < EVENTS; i += burst) {
		bring(device, type, burst, ev);
		take(device, burst, ev);
	}
}

static double timed(int device, uint8_t type, uint16_t burst)
{
	struct timespec from, to;
	clock_gettime(CLOCK_MONOTONIC, &from);
	turn(device, type, burst);
	clock_gettime(CLOCK_MONOTONIC, &to);
	return ((double)(to.tv_sec - from.tv_sec) * 1e9 + (double)(to.tv_nsec - from.tv_nsec)) / EVENTS;
}

static void row(int turns, uint8_t type, const char *name, uint16_t burst, uint32_t backlog)
{
	double best[DEVICES] = {1e9, 1e9, 1e9};
	struct rte_event ev[MOST];
	uint32_t i;
	int d, t;
	memset(ev, 0, sizeof(ev));
	start(THEIRS, type);
	start(DRIVER, type);
	make_library(type);
	for (d = 0; d < DEVICES; d++)
		for (i = 0; i < backlog; i += MOST)
			bring(d, type, MOST, ev);
	for (t = 0; t < turns; t++)
		for (d = 0; d < DEVICES; d++)
			best[d] = RTE_MIN(best[d], timed(d, type, burst));
	printf("%-9s %5u %8u %10.1f %10.1f %10.1f %6.2f\n", name, burst, backlog, best[THEIRS], best[DRIVER], best[LIBRARY],
		best[DRIVER] / best[THEIRS]);
	fflush(stdout);
	for (d = 0; d < LIBRARY; d++) {
		rte_event_dev_stop(ids[d]);
		rte_event_dev_close(ids[d]); /* event_sw counts credits wrongly where it is configured again without */
	}
	evsched_free(library);
}

int main(int argc, char **argv)
{
	static const uint16_t bursts[] = {1, 8, 32};
	static const uint32_t backlogs[] = {0, 2048};
	int words = rte_eal_init(argc, argv);
	size_t b, t, u;
	if (words < 0 || words + 1 >= argc)
		fail("usage: bench EAL'S WORDS -- TURNS", "words");
	printf("%-9s %5s %8s %10s %10s %10s %6s\n", "kind", "burst", "backlog", "event_sw", "driver", "evsched.h", "ratio");
	for (b = 0; b < RTE_DIM(backlogs); b++)
		for (t = 0; t < RTE_DIM(types); t++)
			for (u = 0; u < RTE_DIM(bursts); u++)
				row(atoi(argv[words + 1]), types[t].type, types[t].name, bursts[u], backlogs[b]);
	rte_eal_cleanup();
	return 0;
}
