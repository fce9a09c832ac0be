/* SPDX-License-Identifier: BSD-3-Clause */
/*
 * event_sw and evsched, made alike, and their calls, for programs that run the same loops over either (bench/both.c, bench/threads.c).
 * `is_ours` is a constant wherever a loop is compiled, so neither device pays for the other. Both read an event's 16 bytes alike, so a
 * loop writes them by event_sw's names.
 */
#ifndef TWO_DEVICES_H
#define TWO_DEVICES_H

#include <evsched.h>
#include <rte_dev.h>
#include <rte_eal.h>
#include <rte_eventdev.h>
#include <rte_service.h>
#include <stdio.h>
#include <stdlib.h>
#include <string.h>
#include <unistd.h>

#define ALWAYS static inline __attribute__((always_inline))

/* The port of the producer is the first, those of the workers follow. A worker's lane has so many places. */
enum { SOURCE, WORKER, MOST_QUEUES = 3, MOST_WORKERS = 8, LIMIT = 4096, THEIR_DEPTH = 128, OUR_DEPTH = EVSCHED_MAX_DEPTH };

union event {
	struct rte_event theirs;
	struct evsched_event ours;
};

/* What both devices are made as: queues of these types, each with the same flags and priority, and workers that are linked to all. */
struct shape {
	uint32_t queues, workers;
	uint8_t types[MOST_QUEUES]; /* RTE_SCHED_TYPE_*, which are EVSCHED_TYPE_* too */
	int is_last_first;          /* the last queue is served before the others */
	int is_implicit;            /* a worker's next dequeue releases what it holds */
	int is_flow_lanes;          /* of evsched: event_sw has none */
};

static const char their_name[] = "event_sw0";
static uint8_t theirs;
static uint32_t service;
static struct evsched *ours;
static struct evsched_port *our_ports[WORKER + MOST_WORKERS];

static void fail(const char *what)
{
	fprintf(stderr, "event_sw and evsched: %s\n", what);
	exit(1);
}

/* EAL leaves it behind, empty. */
static void remove_runtime_folder(void)
{
	rmdir(rte_eal_get_runtime_dir());
}

/* Programs that run at once each need a prefix of their own. */
static void start_eal(const char *program)
{
	static char arguments[][64] = {"", "", "--no-shconf", "--no-huge", "-m", "256", "--no-pci", "--no-telemetry", "--log-level=4"};
	enum { COUNT = sizeof(arguments) / sizeof(arguments[0]) };
	char *eal[COUNT];
	int i;
	snprintf(arguments[0], sizeof(arguments[0]), "%s", program);
	snprintf(arguments[1], sizeof(arguments[1]), "--file-prefix=evsched%d", (int)getpid());
	for (i = 0; i < COUNT; i++)
		eal[i] = arguments[i];
	if (rte_eal_init(COUNT, eal) < 0)
		fail("EAL doesn't start");
	atexit(remove_runtime_folder);
}

static uint8_t priority_of(const struct shape *shape, uint32_t queue)
{
	return shape->is_last_first && queue + 1 == shape->queues ? RTE_EVENT_DEV_PRIORITY_HIGHEST : RTE_EVENT_DEV_PRIORITY_NORMAL;
}

static void make_their_queues(const struct shape *shape)
{
	struct rte_event_queue_conf queue;
	uint8_t q;
	memset(&queue, 0, sizeof(queue));
	queue.nb_atomic_flows = queue.nb_atomic_order_sequences = 1024;
	for (q = 0; q < shape->queues; q++) {
		queue.schedule_type = shape->types[q];
		queue.priority = priority_of(shape, q);
		if (rte_event_queue_setup(theirs, q, &queue))
			fail("event_sw has no such queue");
	}
}

static void make_their_ports(const struct shape *shape)
{
	struct rte_event_port_conf port;
	uint8_t p;
	memset(&port, 0, sizeof(port));
	port.new_event_threshold = LIMIT;
	port.dequeue_depth = port.enqueue_depth = THEIR_DEPTH;
	port.event_port_cfg = shape->is_implicit ? 0 : RTE_EVENT_PORT_CFG_DISABLE_IMPL_REL;
	for (p = 0; p < WORKER + shape->workers; p++) {
		if (rte_event_port_setup(theirs, p, &port))
			fail("event_sw has no such port");
		if (p >= WORKER && rte_event_port_link(theirs, p, NULL, NULL, 0) != (int)shape->queues)
			fail("event_sw has no such links");
	}
}

static void make_theirs(const struct shape *shape)
{
	struct rte_event_dev_config config;
	int id;
	if (rte_eal_hotplug_add("vdev", their_name, "") || (id = rte_event_dev_get_dev_id(their_name)) < 0)
		fail("there is no event_sw");
	theirs = (uint8_t)id;
	memset(&config, 0, sizeof(config));
	config.nb_events_limit = LIMIT;
	config.nb_event_queues = (uint8_t)shape->queues;
	config.nb_event_ports = (uint8_t)(WORKER + shape->workers);
	config.nb_event_queue_flows = 1024;
	config.nb_event_port_dequeue_depth = config.nb_event_port_enqueue_depth = THEIR_DEPTH;
	if (rte_event_dev_configure(theirs, &config))
		fail("event_sw isn't configured");
	make_their_queues(shape);
	make_their_ports(shape);
	if (rte_event_dev_service_id_get(theirs, &service) || rte_service_set_runstate_mapped_check(service, 0)
		|| rte_service_runstate_set(service, 1) || rte_event_dev_start(theirs))
		fail("event_sw isn't started");
}

static void make_ours(const struct shape *shape)
{
	struct evsched_dev_config config = evsched_dev_default_config(shape->queues, WORKER + shape->workers);
	uint32_t q, p;
	config.nb_events_limit = config.port[SOURCE].new_event_threshold = LIMIT;
	config.event_dev_cfg = shape->is_flow_lanes ? EVSCHED_DEV_CFG_FLOW_LANES : 0;
	for (q = 0; q < shape->queues; q++) {
		config.queue[q].schedule_type = shape->types[q];
		config.queue[q].priority = priority_of(shape, q);
	}
	for (p = WORKER; p < WORKER + shape->workers; p++) {
		config.port[p].links = (1u << shape->queues) - 1;
		config.port[p].dequeue_depth = OUR_DEPTH;
		config.port[p].event_port_cfg = shape->is_implicit ? 0 : EVSCHED_PORT_CFG_DISABLE_IMPL_REL;
	}
	if (evsched_create(&config, &ours) < 0)
		fail("evsched isn't made");
	for (p = 0; p < WORKER + shape->workers; p++)
		our_ports[p] = evsched_port(ours, p);
}

/* Both, with whatever is inside. */
static void free_both(void)
{
	rte_event_dev_stop(theirs);
	if (rte_event_dev_close(theirs) || rte_eal_hotplug_remove("vdev", their_name))
		fail("event_sw isn't freed");
	evsched_free(ours);
}

ALWAYS void schedule(int is_ours)
{
	if (is_ours)
		evsched_sweep(ours);
	else
		rte_service_run_iter_on_app_lcore(service, 0);
}

ALWAYS int enqueue(int is_ours, uint32_t port, const union event *ev, uint16_t n)
{
	return is_ours ? evsched_enqueue_burst(our_ports[port], &ev->ours, n) : rte_event_enqueue_burst(theirs, (uint8_t)port, &ev->theirs, n);
}

ALWAYS int dequeue(int is_ours, uint32_t port, union event *ev, uint16_t n)
{
	return is_ours ? evsched_dequeue_burst(our_ports[port], &ev->ours, n)
		: rte_event_dequeue_burst(theirs, (uint8_t)port, &ev->theirs, n, 0);
}

/* The first 8 bytes of a NEW for the first queue, of flow 0. */
static uint64_t new_word(const struct shape *shape)
{
	union event ev;
	memset(&ev, 0, sizeof(ev));
	ev.theirs.op = RTE_EVENT_OP_NEW;
	ev.theirs.sched_type = shape->types[0] & 3;
	return ev.theirs.event;
}

#endif
