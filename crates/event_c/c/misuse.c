/* SPDX-License-Identifier: BSD-3-Clause */
/* What a program may do wrong and can be seen: each refusal, by its number; a device that is stopped while events are in every place;
 * and a drain. Ends with status 1 where something isn't as it should be. */
#include <evsched.h>
#include <limits.h>
#include <stdio.h>
#include <string.h>

static int failures;

#define CHECK(is) check((is), __LINE__, #is)

static void check(int is, int line, const char *text)
{
	if (!is) {
		printf("misuse.c:%d: not so: %s\n", line, text);
		failures++;
	}
}

static struct evsched_event event(unsigned op, unsigned queue, unsigned flow, uint64_t payload)
{
	struct evsched_event ev;
	ev.event = 0;
	ev.op = op & 3;
	ev.queue_id = (uint8_t)queue;
	ev.flow_id = flow & 0xfffff;
	ev.u64 = payload;
	return ev;
}

/* Enqueues one event: 0, or why not. */
static int enqueue(struct evsched *dev, unsigned port, unsigned op, unsigned queue, uint64_t payload)
{
	struct evsched_event ev = event(op, queue, (unsigned)payload, payload);
	int taken = evsched_enqueue_burst(evsched_port(dev, port), &ev, 1);
	int why = evsched_errno(evsched_port(dev, port));
	CHECK(taken == (why == 0));
	return why;
}

/* Port 0 is a producer; ports 1 and 2 dequeue from all queues and answer of themselves. */
static struct evsched_dev_config three_ports(unsigned queues)
{
	struct evsched_dev_config config = evsched_dev_default_config(queues, 3);
	config.port[1].links = config.port[2].links = (1u << queues) - 1;
	config.port[1].event_port_cfg = config.port[2].event_port_cfg = EVSCHED_PORT_CFG_DISABLE_IMPL_REL;
	return config;
}

static void limit(struct evsched_dev_config *config, int32_t credits, uint32_t quantum)
{
	config->nb_events_limit = credits;
	config->credit_quanta = quantum;
	for (int p = 0; p < 3; p++)
		config->port[p].new_event_threshold = credits;
}

/* Spoils a configuration in the k-th way: the number that it is to be refused with; 0 where there is no such way. */
static int spoil(struct evsched_dev_config *config, int k)
{
	switch (k) {
	case 0: config->nb_event_queues = 0; return -EVSCHED_E_QUEUE_COUNT;
	case 1: config->nb_event_queues = 33; return -EVSCHED_E_QUEUE_COUNT;
	case 2: config->nb_event_ports = 0; return -EVSCHED_E_PORT_COUNT;
	case 3: config->nb_event_ports = 33; return -EVSCHED_E_PORT_COUNT;
	case 4: config->nb_event_ports = UINT32_MAX; return -EVSCHED_E_PORT_COUNT;
	case 5: config->nb_events_limit = 0; return -EVSCHED_E_LIMIT_RANGE;
	case 6: config->nb_events_limit = -1; return -EVSCHED_E_LIMIT_RANGE;
	case 7: config->nb_events_limit = 16385; return -EVSCHED_E_LIMIT_RANGE;
	case 8: config->credit_quanta = 0; return -EVSCHED_E_QUANTUM_RANGE;
	case 9: config->credit_quanta = 4097; return -EVSCHED_E_QUANTUM_RANGE;
	case 10: config->port[2].new_event_threshold = 31; return -EVSCHED_E_THRESHOLD_RANGE;
	case 11: config->port[0].new_event_threshold = 4097; return -EVSCHED_E_THRESHOLD_RANGE;
	case 12: config->port[0].new_event_threshold = -1; return -EVSCHED_E_THRESHOLD_RANGE;
	case 13: config->port[1].dequeue_depth = 0; return -EVSCHED_E_DEPTH_RANGE;
	case 14: config->port[1].dequeue_depth = 65; return -EVSCHED_E_DEPTH_RANGE;
	case 15: config->port[0].enqueue_depth = 0; return -EVSCHED_E_DEPTH_RANGE;
	case 16: config->port[0].enqueue_depth = 65; return -EVSCHED_E_DEPTH_RANGE;
	case 17: config->queue[0].nb_atomic_flows = 0; return -EVSCHED_E_FLOW_SLOTS;
	case 18: config->queue[0].nb_atomic_flows = 65; return -EVSCHED_E_FLOW_SLOTS;
	case 19: config->queue[1] = config->queue[2] = config->queue[0]; return -EVSCHED_E_FLOW_SLOTS; /* 192 in all */
	case 20: config->queue[1].nb_atomic_order_sequences = 0; return -EVSCHED_E_ORDER_DEPTH;
	case 21: config->queue[1].nb_atomic_order_sequences = 257; return -EVSCHED_E_ORDER_DEPTH;
	case 22: config->sched_quanta = 0; return -EVSCHED_E_SWEEP_RANGE;
	case 23: config->sched_quanta = 65; return -EVSCHED_E_SWEEP_RANGE;
	case 24: config->port[2].links = 1u << 3; return -EVSCHED_E_LINK_UNKNOWN;
	case 25: config->port[2].links = 1u << 31; return -EVSCHED_E_LINK_UNKNOWN;
	case 26: config->port[1].links = config->port[2].links = 3; return -EVSCHED_E_QUEUE_UNLINKED;
	case 27: config->queue[2].event_queue_cfg = EVSCHED_QUEUE_CFG_SINGLE_LINK; return -EVSCHED_E_SINGLE_LINK_COUNT;
	case 28: config->queue[2].schedule_type = 3; return -EVSCHED_E_UNKNOWN_TYPE;
	case 29: config->queue[2].event_queue_cfg = 1; return -EVSCHED_E_UNKNOWN_FLAG;
	case 30: config->port[2].event_port_cfg = 2; return -EVSCHED_E_UNKNOWN_FLAG;
	case 31: config->event_dev_cfg = 2; return -EVSCHED_E_UNKNOWN_FLAG;
	case 32: config->queue[1].rsvd = 1; return -EVSCHED_E_RESERVED;
	case 33: memset(config, 0, sizeof(*config)); return -EVSCHED_E_QUEUE_COUNT;
	default: return 0;
	}
}

static void configurations(void)
{
	struct evsched_dev_config good = three_ports(3), config;
	struct evsched *dev;
	int k, expected;
	good.queue[1].schedule_type = EVSCHED_TYPE_ORDERED;
	good.queue[2].schedule_type = EVSCHED_TYPE_PARALLEL;
	good.queue[0].nb_atomic_flows = 64;
	for (k = 0; config = good, (expected = spoil(&config, k)) != 0; k++) {
		int r = evsched_create(&config, &dev);
		if (r != expected || dev) {
			printf("misuse.c: configuration %d is answered %d, not %d\n", k, r, expected);
			failures++;
		}
		CHECK(strcmp(evsched_strerror(r), "unknown") != 0);
	}
	CHECK(evsched_create(&good, &dev) == 0);
	evsched_free(dev);
	evsched_free(NULL);
	for (k = 1; k <= EVSCHED_MAX_QUEUES; k++) { /* the defaults */
		config = evsched_dev_default_config((uint32_t)k, EVSCHED_MAX_PORTS);
		config.port[7].links = k < 32 ? (1u << k) - 1 : UINT32_MAX;
		CHECK(evsched_create(&config, &dev) == 0);
		evsched_free(dev);
	}
}

/* What a configuration that is good comes to. */
static void resolved(void)
{
	struct evsched_dev_config config = three_ports(2);
	const struct evsched_dev_config *info;
	struct evsched *dev;
	static const int32_t limits[][3] = {{4096, 32, 3687}, {1024, 32, 768}, {100, 32, 50}, {16384, 32, 14746}, {40, 32, 32}, {1, 1, 1}};
	int i;
	for (i = 0; i < 6; i++) { /* a limit that is set after the defaults, a quantum, and what the producer's threshold comes to */
		config.nb_events_limit = limits[i][0];
		config.credit_quanta = (uint32_t)limits[i][1];
		CHECK(evsched_create(&config, &dev) == 0);
		info = evsched_info(dev);
		CHECK(info->port[0].new_event_threshold == limits[i][2] && info->port[1].new_event_threshold == limits[i][0]);
		evsched_free(dev);
	}
	config = three_ports(2);
	config.port[1].links = 1;
	config.port[0].event_port_cfg = EVSCHED_PORT_CFG_HINT_PRODUCER;
	config.port[1].event_port_cfg |= EVSCHED_PORT_CFG_HINT_WORKER | EVSCHED_PORT_CFG_HINT_CONSUMER;
	config.queue[1].event_queue_cfg = EVSCHED_QUEUE_CFG_SINGLE_LINK;
	config.queue[1].schedule_type = 77;
	config.queue[1].nb_atomic_flows = config.queue[1].nb_atomic_order_sequences = 0;
	CHECK(evsched_create(&config, &dev) == 0);
	info = evsched_info(dev);
	CHECK(info->port[0].event_port_cfg == 0 && info->port[1].event_port_cfg == EVSCHED_PORT_CFG_DISABLE_IMPL_REL);
	CHECK(info->queue[1].schedule_type == EVSCHED_TYPE_PARALLEL && info->queue[0].schedule_type == EVSCHED_TYPE_ATOMIC);
	evsched_free(dev);
}

/* A producer goes beyond 4096 where the limit is set so after the defaults. */
static void great_limit(void)
{
	static struct evsched_event many[64];
	struct evsched_dev_config config = three_ports(1);
	struct evsched *dev;
	int in = 0, taken;
	config.nb_events_limit = EVSCHED_MAX_EVENTS_LIMIT;
	CHECK(evsched_create(&config, &dev) == 0);
	do {
		in += taken = evsched_enqueue_burst(evsched_port(dev, 0), many, 64);
		CHECK(evsched_sweep(dev) >= 0);
	} while (taken > 0);
	CHECK(in > 14000 && in <= evsched_info(dev)->port[0].new_event_threshold && evsched_errno(evsched_port(dev, 0)) == ENOSPC);
	evsched_free(dev);
}

/* Memory of the program's, aligned and not. */
static void own_memory(void)
{
	struct evsched_dev_config config = three_ports(1);
	struct evsched *dev = NULL;
	unsigned char *base = (unsigned char *)malloc(evsched_size(3) + 128), *memory = base;
	if (!base)
		return;
	while ((uintptr_t)memory % 64)
		memory++;
	for (int off = 1; off < 64; off++)
		CHECK(evsched_create_in(memory + off, &config, &dev) == -EVSCHED_E_UNALIGNED && !dev);
	CHECK(evsched_create_in(NULL, &config, &dev) == -EVSCHED_E_UNALIGNED && !dev);
	CHECK(evsched_create_in(memory, &config, &dev) == 0 && dev);
	CHECK(enqueue(dev, 0, EVSCHED_OP_NEW, 0, 1) == 0 && evsched_sweep(dev) == 2);
	evsched_free(dev);
	free(base);
}

static void causes(void)
{
	static const int passing[] = {ENOSPC, EAGAIN, ENOBUFS}, staying[] = {0, ESHUTDOWN, EINVAL, ENOENT, E2BIG, ENODEV, ENOMEM, EBUSY};
	size_t i;
	for (i = 0; i < 3; i++)
		CHECK(evsched_may_retry(passing[i]) && evsched_may_retry(-passing[i]));
	for (i = 0; i < 8; i++) {
		CHECK(!evsched_may_retry(staying[i]) && !evsched_may_retry(-staying[i]));
		CHECK(evsched_strerror(staying[i]) == evsched_strerror(-staying[i]) && strcmp(evsched_strerror(staying[i]), "unknown"));
	}
	CHECK(evsched_strerror(EVSCHED_E_UNALIGNED) == evsched_strerror(-EVSCHED_E_UNALIGNED));
	CHECK(!strcmp(evsched_strerror(INT_MIN), "unknown") && !strcmp(evsched_strerror(INT_MAX), "unknown") && !evsched_may_retry(INT_MIN));
}

static void enqueues(void)
{
	static struct evsched_event many[200];
	struct evsched_dev_config config = three_ports(2);
	struct evsched_port *source, *worker;
	struct evsched_port_counters counters;
	struct evsched *dev;
	int i;
	limit(&config, 128, 8);
	config.port[2].links = 0;
	CHECK(evsched_create(&config, &dev) == 0);
	source = evsched_port(dev, 0);
	worker = evsched_port(dev, 1);
	CHECK(!evsched_port(dev, 3) && !evsched_port(dev, UINT32_MAX));
	CHECK(source != worker && source == evsched_port(dev, 0));
	CHECK(enqueue(dev, 0, EVSCHED_OP_NEW, 2, 0) == EINVAL);
	CHECK(enqueue(dev, 0, EVSCHED_OP_NEW, 255, 0) == EINVAL);
	CHECK(enqueue(dev, 1, EVSCHED_OP_FORWARD, 0, 0) == ENOENT);
	CHECK(enqueue(dev, 1, EVSCHED_OP_FORWARD, 2, 0) == EINVAL);
	CHECK(enqueue(dev, 1, EVSCHED_OP_FORWARD_MORE, 0, 0) == ENOENT);
	CHECK(enqueue(dev, 1, EVSCHED_OP_RELEASE, 9, 0) == ENOENT);
	CHECK(evsched_enqueue_burst(source, NULL, 0) == 0 && evsched_dequeue_burst(source, NULL, 0) == 0);
	CHECK(evsched_sweep(dev) == 0 && evsched_inside(dev) == 0);
	for (i = 0; i < 200; i++)
		many[i] = event(EVSCHED_OP_NEW, 0, (unsigned)i, (uint64_t)i);
	CHECK(evsched_enqueue_new_burst(source, many, 200) == 64 && evsched_errno(source) == ENOBUFS);
	CHECK(evsched_enqueue_burst(source, NULL, 0) == 0 && evsched_errno(source) == 0);
	while (evsched_sweep(dev) > 0)
		;
	CHECK(evsched_inside(dev) == 64);
	CHECK(evsched_enqueue_new_burst(source, many, 200) == 64 && evsched_errno(source) == ENOSPC); /* all 128 credits are taken */
	while (evsched_sweep(dev) > 0)
		;
	CHECK(evsched_enqueue_new_burst(source, many, 200) == 0 && evsched_errno(source) == ENOSPC);
	CHECK(evsched_dequeue_burst(worker, many, 200) == 32 && evsched_held(worker) == 32);          /* its depth */
	CHECK(evsched_dequeue_burst(worker, many, 200) == 0);
	many[0].op = EVSCHED_OP_RELEASE; /* its credit stays with this port */
	CHECK(evsched_enqueue_burst(worker, many, 1) == 1 && evsched_held(worker) == 31);
	for (i = 0; i < 4; i++) /* three more than there is a credit for */
		CHECK(enqueue(dev, 1, EVSCHED_OP_FORWARD_MORE, 1, 1000 + (uint64_t)i) == (i ? ENOSPC : 0));
	for (i = 0; i < 8; i++) {
		many[i].op = i % 2 ? EVSCHED_OP_RELEASE : EVSCHED_OP_FORWARD;
		many[i].queue_id = 1;
	}
	CHECK(evsched_enqueue_forward_burst(worker, many, 8) == 8 && evsched_held(worker) == 23);
	for (i = 0; i < 5; i++) /* its four credits, and then it isn't the credits that are lacking */
		CHECK(enqueue(dev, 1, EVSCHED_OP_FORWARD_MORE, 1, 1000 + (uint64_t)i) == (i < 4 ? 0 : E2BIG));
	many[1].queue_id = 77;
	many[0].op = many[1].op = many[2].op = EVSCHED_OP_FORWARD;
	CHECK(evsched_enqueue_burst(worker, many, 3) == 1 && evsched_errno(worker) == EINVAL && evsched_held(worker) == 22); /* ends there */
	CHECK(evsched_port_counters(source, &counters) == 0);
	CHECK(counters.enqueued == 128 && counters.bad_queue == 2 && counters.full == 1 && counters.backpressure == 2);
	CHECK(evsched_port_counters(worker, &counters) == 0);
	CHECK(counters.enqueued == 15 && counters.dequeued == 32 && counters.nothing_held == 3 && counters.too_many == 1
		&& counters.bad_queue == 2 && counters.backpressure == 3 && counters.released == 0 && counters.behind == 0);
	evsched_free(dev); /* without a stop */
}

/* With implicit release a dequeue answers -ENOBUFS where the ring has no room, and what isn't released stays held. */
static void behind(void)
{
	struct evsched_dev_config config = three_ports(1);
	struct evsched_event ev[8];
	struct evsched_port *worker;
	struct evsched *dev;
	int i;
	config.port[1].event_port_cfg = 0;
	config.port[1].enqueue_depth = 4;
	config.port[2].links = 0;
	CHECK(evsched_create(&config, &dev) == 0);
	worker = evsched_port(dev, 1);
	for (i = 0; i < 8; i++)
		CHECK(enqueue(dev, 0, EVSCHED_OP_NEW, 0, (uint64_t)i) == 0);
	while (evsched_sweep(dev) > 0)
		;
	CHECK(evsched_dequeue_burst(worker, ev, 8) == 8);
	CHECK(evsched_dequeue_burst(worker, ev, 8) == 0 && evsched_errno(worker) == ENOBUFS);
	CHECK(evsched_held(worker) == 4);
	CHECK(enqueue(dev, 1, EVSCHED_OP_RELEASE, 0, 0) == ENOBUFS);
	CHECK(evsched_sweep(dev) == 4);
	CHECK(evsched_dequeue_burst(worker, NULL, 0) == 0 && evsched_errno(worker) == 0 && evsched_held(worker) == 0);
	CHECK(evsched_sweep(dev) == 4 && evsched_inside(dev) == 0);
	evsched_free(dev);
}

static void after_the_stop(void)
{
	struct evsched_dev_config config = three_ports(1);
	struct evsched_queue_stats queue;
	struct evsched_port_stats port;
	struct evsched_dev_stats all;
	struct evsched_event ev[4];
	struct evsched_report report;
	struct evsched_left left[4];
	struct evsched *dev;
	int i;
	CHECK(evsched_create(&config, &dev) == 0);
	CHECK(evsched_report(dev, &report) == -ENODEV && evsched_left(dev, left, 4) == -ENODEV);
	CHECK(evsched_queue_stats(dev, 0, &queue) == 0 && evsched_queue_stats(dev, 1, &queue) == -EINVAL);
	CHECK(evsched_port_stats(dev, 2, &port) == 0 && evsched_port_stats(dev, 3, &port) == -EINVAL);
	CHECK(enqueue(dev, 0, EVSCHED_OP_NEW, 0, 5) == 0);
	CHECK(evsched_shut(dev) == 0 && evsched_shut(dev) == 0);
	CHECK(enqueue(dev, 0, EVSCHED_OP_NEW, 0, 6) == ESHUTDOWN);
	CHECK(evsched_sweep(dev) == 1 && evsched_inside(dev) == 0);
	CHECK(evsched_stop(dev) == 0);
	for (i = 0; i < 2; i++) {
		CHECK(evsched_stop(dev) == -ENODEV && evsched_sweep(dev) == -ENODEV && evsched_inside(dev) == -ENODEV);
		CHECK(evsched_shut(dev) == -ENODEV && evsched_drain(dev, NULL, NULL) == -ENODEV);
		CHECK(evsched_port(dev, 0) && enqueue(dev, 0, EVSCHED_OP_NEW, 0, 6) == ENODEV);
		CHECK(evsched_dequeue_burst(evsched_port(dev, 1), ev, 4) == 0 && evsched_errno(evsched_port(dev, 1)) == ENODEV);
		CHECK(evsched_held(evsched_port(dev, 1)) == -ENODEV);
	}
	CHECK(evsched_queue_stats(dev, 0, &queue) == 0 && queue.rx_new == 0 && evsched_port_stats(dev, 0, &port) == 0 && port.turned == 1);
	CHECK(evsched_dev_stats(dev, &all) == -ENODEV);
	CHECK(evsched_report(dev, &report) == 0 && report.turned == 1);
	CHECK(report.free + report.own + report.pockets == 4096);
	CHECK(report.waiting + report.kept + report.undelivered + report.held + report.untaken == 0);
	CHECK(evsched_left(dev, NULL, 0) == 0);
	CHECK(evsched_left(dev, left, 4) == 1 && left[0].place == EVSCHED_LEFT_TURNED && left[0].event.u64 == 5 && left[0].lane == 0);
	CHECK(evsched_left(dev, left, 4) == 0);
	evsched_free(dev);
}

/* The library's own functions: a port or a control that isn't at home. */
static void places_of_the_library(void)
{
	struct evsched_dev_config config = three_ports(1);
	struct evsched_event ev = event(EVSCHED_OP_NEW, 0, 0, 0);
	uint64_t counts[11];
	struct evsched *dev;
	unsigned char *room, *other;
	CHECK(evsched_create(&config, &dev) == 0);
	room = (unsigned char *)malloc(evsched_port_size()); /* malloc aligns to 16 */
	other = (unsigned char *)malloc(evsched_control_size());
	if (!room || !other)
		return;
	for (size_t number = 1; number < 50; number += 40) { /* port 1 is away already, and there is no port 41 */
		evsched_hub_port(dev->hub, number, room);
		CHECK(evsched_port_enqueue(room, &ev, 1) == -ENODEV && evsched_port_dequeue(room, &ev, 1) == -ENODEV);
		CHECK(evsched_port_held(room) == -ENODEV && evsched_port_counts(room, counts, 11) == -ENODEV);
		CHECK(evsched_hub_join(dev->hub, room) == -ENODEV); /* the room is empty again */
	}
	evsched_hub_control(dev->hub, other);
	CHECK(evsched_control_shut(other) == -ENODEV && evsched_hub_join_control(dev->hub, other) == -ENODEV);
	CHECK(evsched_hub_stop(dev->hub) == -EBUSY && enqueue(dev, 0, EVSCHED_OP_NEW, 0, 1) == 0);
	CHECK(evsched_hub_join(dev->hub, evsched_priv_at(evsched_port(dev, 2))) == 0);
	CHECK(evsched_hub_stop(dev->hub) == -EBUSY); /* ports 0 and 1 are away */
	evsched_hub_port(dev->hub, 2, evsched_priv_at(evsched_port(dev, 2)));
	CHECK(evsched_sweep(dev) == 2); /* the event was taken and given to one of two ports, one of which was back meanwhile */
	CHECK(evsched_dequeue_burst(evsched_port(dev, 1), &ev, 1) + evsched_dequeue_burst(evsched_port(dev, 2), &ev, 1) == 1);
	CHECK(evsched_stop(dev) == 0);
	evsched_hub_control(dev->hub, other);
	CHECK(evsched_control_shut(other) == -ENODEV);
	evsched_control_clear(other);
	evsched_free(dev);
	free(room);
	free(other);
}

/* What the program knows of each payload. */
enum { UNUSED, INSIDE, HELD, ENDED, GIVEN_BACK };
static unsigned char state[2000];

static void mark(uint64_t payload, int from, int to)
{
	CHECK(payload < sizeof(state) && state[payload] == from);
	state[payload % sizeof(state)] = (unsigned char)to;
}

static void flushed(struct evsched *dev, struct evsched_event ev, void *arg)
{
	(void)dev;
	++*(int *)arg;
	mark(ev.u64, INSIDE, GIVEN_BACK);
}

/* A device with events in every place: waiting in queue 0 and queue 1, kept in queue 0, undelivered and held on ports 1 and 2, untaken
 * on all three, and turned away. */
static struct evsched *in_the_middle(uint32_t flags, int is_shut)
{
	struct evsched_dev_config config = three_ports(2);
	struct evsched_event ev[4];
	struct evsched *dev;
	int i, n;
	memset(state, UNUSED, sizeof(state));
	config.queue[0].schedule_type = EVSCHED_TYPE_ORDERED;
	config.queue[0].nb_atomic_order_sequences = 8;
	config.queue[1].nb_atomic_flows = 4;
	limit(&config, 200, 4);
	config.sched_quanta = 8;
	config.event_dev_cfg = flags;
	config.port[1].dequeue_depth = config.port[2].dequeue_depth = 6;
	if (evsched_create(&config, &dev) < 0)
		return NULL;
	for (i = 0; i < 40; i++) {
		CHECK(enqueue(dev, 0, EVSCHED_OP_NEW, i % 4 == 3, (uint64_t)i) == 0);
		mark((uint64_t)i, UNUSED, INSIDE);
	}
	for (i = 0; i < 20; i++)
		CHECK(evsched_sweep(dev) >= 0);
	for (int port = 1; port < 3; port++) { /* each holds four, and the second answers its first two, so that queue 0 keeps what it forwards */
		n = evsched_dequeue_burst(evsched_port(dev, (uint32_t)port), ev, 4);
		CHECK(n == 4 && evsched_held(evsched_port(dev, (uint32_t)port)) == 4);
		for (i = 0; i < n; i++)
			mark(ev[i].u64, INSIDE, HELD);
		for (i = 0; port == 2 && i < 2; i++) {
			CHECK(enqueue(dev, 2, EVSCHED_OP_FORWARD_MORE, 0, 100 + (uint64_t)i) == 0);
			mark(100 + (uint64_t)i, UNUSED, INSIDE);
			CHECK(enqueue(dev, 2, EVSCHED_OP_FORWARD, 0, 200 + (uint64_t)i) == 0);
			mark(200 + (uint64_t)i, UNUSED, INSIDE);
			mark(ev[i].u64, HELD, ENDED);
		}
	}
	for (i = 0; i < 20; i++)
		CHECK(evsched_sweep(dev) >= 0);
	for (i = 0; i < 20; i++) {
		CHECK(enqueue(dev, 0, EVSCHED_OP_NEW, i % 2, 300 + (uint64_t)i) == 0);
		mark(300 + (uint64_t)i, UNUSED, INSIDE);
	}
	if (is_shut)
		CHECK(evsched_shut(dev) == 0);
	CHECK(evsched_sweep(dev) > 0); /* takes eight of the twenty */
	CHECK(evsched_enqueue_burst(evsched_port(dev, 1), ev, 0) == 0);
	return dev;
}

/* Answers of ports 1 and 2 that no sweep takes. Those of port 1 are its first events, in the order of `held`. */
static void answer(struct evsched *dev)
{
	int held = evsched_held(evsched_port(dev, 2)), i;
	CHECK(held == 2);
	for (i = 0; i < 2; i++) {
		uint64_t payload = 400 + (uint64_t)i;
		CHECK(enqueue(dev, 2, i ? EVSCHED_OP_RELEASE : EVSCHED_OP_FORWARD, 1, payload) == 0);
		if (i == 0)
			mark(payload, UNUSED, INSIDE);
	}
}

static void places(uint32_t flags, int is_shut)
{
	struct evsched *dev = in_the_middle(flags, is_shut);
	struct evsched_report report;
	struct evsched_left left[7];
	uint64_t place[5] = {0, 0, 0, 0, 0};
	int i, n, held = 0;
	CHECK(dev != NULL);
	if (!dev)
		return;
	answer(dev);
	CHECK(evsched_stop(dev) == 0 && evsched_report(dev, &report) == 0);
	while ((n = evsched_left(dev, left, 7)) > 0)
		for (i = 0; i < n; i++) {
			mark(left[i].event.u64, INSIDE, GIVEN_BACK);
			CHECK(left[i].place < 5);
			place[left[i].place % 5]++;
		}
	CHECK(n == 0);
	CHECK(place[EVSCHED_LEFT_WAITING] == report.waiting && report.waiting > 0);
	CHECK(place[EVSCHED_LEFT_KEPT] == report.kept && report.kept > 0);
	CHECK(place[EVSCHED_LEFT_UNDELIVERED] == report.undelivered && report.undelivered > 0);
	CHECK(place[EVSCHED_LEFT_UNTAKEN] == report.untaken && report.untaken > 0);
	CHECK(place[EVSCHED_LEFT_TURNED] == report.turned && (report.turned > 0) == is_shut);
	CHECK(report.held == 4); /* port 1's */
	CHECK(report.free + report.own + report.pockets + report.waiting + report.kept + report.undelivered + report.held + report.untaken == 200);
	for (i = 0; i < (int)sizeof(state); i++) {
		CHECK(state[i] != INSIDE); /* each came out */
		held += state[i] == HELD;
	}
	CHECK(held == 6); /* as marked: port 1's four, and the two that port 2 answered last */
	printf("stopped in the middle%s%s: %d free, %d own, %d in pockets, ", flags ? ", flow lanes" : "", is_shut ? ", shut" : "",
		(int)report.free, (int)report.own, (int)report.pockets);
	printf("%d waiting, %d kept, %d undelivered, %d held, %d untaken; %d turned away\n", (int)report.waiting, (int)report.kept,
		(int)report.undelivered, (int)report.held, (int)report.untaken, (int)report.turned);
	evsched_free(dev);
}

static void drain(uint32_t flags, int is_shut)
{
	struct evsched *dev = in_the_middle(flags, is_shut);
	struct evsched_report report;
	struct evsched_left left[64];
	int i, n, got = 0, turned;
	CHECK(dev != NULL);
	if (!dev)
		return;
	answer(dev);
	CHECK(evsched_drain(dev, flushed, &got) == 0 && evsched_inside(dev) == 0);
	CHECK(evsched_drain(dev, flushed, &got) == 0 && evsched_stop(dev) == 0 && evsched_report(dev, &report) == 0);
	CHECK(report.free + report.own + report.pockets == 200);
	turned = evsched_left(dev, left, 64);
	for (i = 0; i < turned; i++) {
		CHECK(left[i].place == EVSCHED_LEFT_TURNED);
		mark(left[i].event.u64, INSIDE, GIVEN_BACK);
	}
	CHECK((turned > 0) == is_shut && (uint64_t)turned == report.turned && got > 0);
	for (n = i = 0; i < (int)sizeof(state); i++)
		n += state[i] == INSIDE;
	CHECK(n == 0);
	printf("drained%s%s: %d events flushed, %d turned away, none lost\n", flags ? ", flow lanes" : "", is_shut ? ", shut" : "", got, turned);
	evsched_free(dev);
}

int main(void)
{
	configurations();
	resolved();
	great_limit();
	own_memory();
	causes();
	enqueues();
	behind();
	after_the_stop();
	places_of_the_library();
	for (uint32_t flags = 0; flags < 2; flags++)
		for (int is_shut = 0; is_shut < 2; is_shut++) {
			places(flags, is_shut);
			drain(flags, is_shut);
		}
	printf("misuse: %d failures\n", failures);
	return failures > 0;
}
