/* SPDX-License-Identifier: BSD-3-Clause */
/* A group of devices (evsched_shards.h) in one thread: each refusal with its device, to which device each event goes, what a burst leaves
 * that is taken in part, and the sums, the drain and the stop. Ends with status 1 where something isn't as it should be. */
#include <evsched_shards.h>

enum { DEVICES = 3, LIMIT = 8, PAYLOADS = 256 };

static int failures;
static struct evsched_shards *group;
static unsigned char flushed[PAYLOADS], placed[DEVICES];

#define CHECK(is) check((is), __LINE__, #is)

static void check(int is, int line, const char *text)
{
	if (!is) {
		printf("group.c:%d: not so: %s\n", line, text);
		failures++;
	}
}

/* The program's own hash: a flow's number says its device. */
static uint32_t by_flow(const struct evsched_event *ev, void *arg)
{
	(void)arg;
	return ev->flow_id;
}

static void place(uint32_t shard, void *arg)
{
	CHECK(arg == placed && shard < DEVICES);
	placed[shard]++;
}

static struct evsched_event event(unsigned op, unsigned queue, unsigned flow, uint64_t payload)
{
	struct evsched_event ev;
	ev.event = 0;
	ev.op = op & 3;
	ev.queue_id = (uint8_t)queue;
	ev.flow_id = flow & 0xfffff;
	ev.u64 = payload;
	return ev;
}

/* Port 0 is a producer, port 1 serves all devices and answers of itself, port 2 serves device 1 alone, port 3 doesn't answer of itself. */
static struct evsched_shards_config four_ports(void)
{
	struct evsched_shards_config config = evsched_shards_default_config(DEVICES, 2, 4);
	config.hash = by_flow;
	config.place = place;
	config.arg = placed;
	config.dev.nb_events_limit = LIMIT;
	config.dev.credit_quanta = 1;
	config.dev.port[0].new_event_threshold = LIMIT;
	config.dev.port[1].links = 3;
	config.dev.port[2].links = 0;
	config.dev.port[3].links = 0;
	return config;
}

static struct evsched_shards_port *port(uint32_t number)
{
	return evsched_shards_port(group, number);
}

static void make(const struct evsched_shards_config *config)
{
	uint32_t at = 99;
	CHECK(evsched_shards_check(config, NULL, 0) == 0);
	CHECK(evsched_shards_create(config, &group, &at) == 0 && at == 99);
}

static void sweep(void)
{
	for (uint32_t d = 0; d < DEVICES; d++)
		CHECK(evsched_sweep(evsched_shards_dev(group, d)) >= 0);
}

static uint16_t bring(unsigned flow, uint64_t payload)
{
	struct evsched_event ev = event(EVSCHED_OP_NEW, 0, flow, payload);
	return evsched_shards_enqueue_burst(port(0), &ev, 1);
}

/* Answers once by a port: 0, or why not. */
static int answer(uint32_t number, unsigned op)
{
	struct evsched_event ev = event(op, 1, 0, 0);
	uint16_t taken = evsched_shards_enqueue_burst(port(number), &ev, 1);
	int why = evsched_shards_errno(port(number), NULL);
	CHECK(taken == (why == 0));
	return why;
}

static void refuses_configurations(void)
{
	struct evsched_shards_config config = four_ports();
	char text[120];
	uint32_t at = 99;
	config.nb_shards = 0;
	CHECK(evsched_shards_check(&config, text, sizeof(text)) == -EINVAL && !strcmp(text, "nb_shards 0 is not 1 to 32"));
	CHECK(evsched_shards_create(&config, &group, &at) == -EINVAL && !group && at == 0);
	config.nb_shards = EVSCHED_SHARDS_MAX + 1;
	CHECK(evsched_shards_create(&config, &group, NULL) == -EINVAL);
	config.nb_shards = DEVICES;
	config.serves[1] = 1u << 0 | 1u << 2; /* so that nobody serves device 1 */
	CHECK(evsched_shards_check(&config, text, sizeof(text)) == -EVSCHED_E_QUEUE_UNLINKED);
	CHECK(!strncmp(text, "device 1: queue 0", 17));
	CHECK(evsched_shards_create(&config, &group, &at) == -EVSCHED_E_QUEUE_UNLINKED && !group && at == 1);
	config = four_ports();
	config.dev.nb_events_limit = 0;
	CHECK(evsched_shards_create(&config, &group, &at) == -EVSCHED_E_LIMIT_RANGE && at == 0);
}

/* A port with links brings NEWs into devices that it doesn't serve, and gets events of those alone that it serves. */
static void serves(void)
{
	struct evsched_shards_config config = four_ports();
	struct evsched_event ev = event(EVSCHED_OP_NEW, 0, 0, 7);
	memset(placed, 0, sizeof(placed));
	config.serves[1] = 1u << 0 | 1u << 2;
	config.serves[2] = 1u << 1;
	config.dev.port[2].links = 3;
	make(&config);
	CHECK(placed[0] == 1 && placed[1] == 1 && placed[2] == 1);
	CHECK(!evsched_shards_dev(group, DEVICES) && !evsched_shards_port(group, 4));
	CHECK(evsched_shards_enqueue_burst(port(2), &ev, 1) == 1);
	CHECK(bring(1, 8) == 1 && bring(2, 9) == 1);
	sweep();
	CHECK(evsched_shards_dequeue_burst(port(2), &ev, 1) == 1 && ev.u64 == 8);
	CHECK(evsched_shards_dequeue_burst(port(2), &ev, 1) == 0 && evsched_shards_errno(port(2), NULL) == 0);
	CHECK(evsched_shards_dequeue_burst(port(1), &ev, 1) == 1 && ev.u64 == 7 && ev.flow_id == 0);
	CHECK(evsched_shards_dequeue_burst(port(1), &ev, 1) == 1 && ev.u64 == 9);
	CHECK(evsched_shards_dequeue_burst(port(0), &ev, 1) == 0 && evsched_shards_errno(port(0), NULL) == 0);
	evsched_shards_free(group);
}

/* Devices are asked in turn, however much one of them has; a dequeue is of one, and releases what is held. */
static void takes_turns(void)
{
	struct evsched_shards_config config = four_ports();
	struct evsched_event ev[8];
	struct evsched_dev_stats all;
	make(&config);
	for (unsigned i = 0; i < 6; i++)
		CHECK(bring(0, i) == 1);
	CHECK(bring(1, 10) == 1 && bring(2, 20) == 1);
	sweep();
	CHECK(evsched_shards_dequeue_burst(port(1), ev, 2) == 2 && ev[0].u64 == 0 && ev[1].u64 == 1 && evsched_shards_held(port(1)) == 2);
	CHECK(evsched_shards_dequeue_burst(port(1), ev, 2) == 1 && ev[0].u64 == 10 && evsched_shards_held(port(1)) == 1);
	CHECK(evsched_shards_dequeue_burst(port(1), ev, 2) == 1 && ev[0].u64 == 20);
	CHECK(evsched_shards_dequeue_burst(port(1), ev, 2) == 2 && ev[0].u64 == 2 && ev[1].u64 == 3);
	CHECK(evsched_shards_dequeue_burst(port(1), ev, 0) == 0 && evsched_shards_held(port(1)) == 0);
	CHECK(evsched_shards_dequeue_wait(port(1), ev, 8, 1000) == 2 && ev[1].u64 == 5);
	CHECK(answer(1, EVSCHED_OP_RELEASE) == 0 && answer(1, EVSCHED_OP_RELEASE) == 0 && answer(1, EVSCHED_OP_RELEASE) == ENOENT);
	CHECK(evsched_shards_dequeue_wait(port(1), ev, 8, 100000) == 0 && evsched_shards_errno(port(1), NULL) == 0);
	sweep();
	CHECK(evsched_shards_dev_stats(group, &all, NULL) == 0 && all.rx_new == 8 && all.inside == 0);
	evsched_shards_free(group);
}

/* Where one device is full, the others' NEWs are taken, and its own stand behind them in their order. */
static void takes_a_part(void)
{
	struct evsched_shards_config config = four_ports();
	struct evsched_event ev[16];
	struct evsched_port_counters counters;
	uint32_t at = 99, enqueued = 0;
	make(&config);
	for (unsigned i = 0; i < LIMIT - 1; i++)
		CHECK(bring(1, i) == 1);
	for (unsigned i = 0; i < 12; i++)
		ev[i] = event(EVSCHED_OP_NEW, 0, i % DEVICES, 100 + i); /* 101, 104, 107 and 110 are device 1's */
	CHECK(evsched_shards_enqueue_new_burst(port(0), ev, 12) == 9);
	CHECK(evsched_shards_errno(port(0), &at) == ENOSPC && at == 1);
	CHECK(ev[9].u64 == 104 && ev[10].u64 == 107 && ev[11].u64 == 110);
	for (unsigned i = 0; i < 9; i++)
		enqueued |= 1u << (ev[i].u64 - 100);
	CHECK(enqueued == 0xb6f); /* 12 bits, but for the fifth, eighth and eleventh */
	CHECK(evsched_shards_enqueue_new_burst(port(0), ev + 9, 3) == 0 && ev[9].u64 == 104);
	CHECK(evsched_shards_enqueue_new_burst(port(0), ev, 0) == 0 && evsched_shards_errno(port(0), NULL) == 0);
	ev[0] = event(EVSCHED_OP_NEW, 0, 0, 1);
	ev[1] = event(EVSCHED_OP_RELEASE, 0, 0, 2);
	ev[2] = event(EVSCHED_OP_NEW, 0, 2, 3);
	CHECK(evsched_shards_enqueue_new_burst(port(0), ev, 3) == 1 && evsched_shards_errno(port(0), NULL) == ENOENT && ev[2].u64 == 3);
	ev[0] = event(EVSCHED_OP_NEW, 9, 2, 4);
	CHECK(evsched_shards_enqueue_burst(port(0), ev, 1) == 0 && evsched_shards_errno(port(0), &at) == EINVAL && at == 2);
	CHECK(evsched_shards_port_counters(port(0), &counters, NULL) == 0);
	CHECK(counters.enqueued == LIMIT - 1 + 9 + 1 && counters.backpressure == 2 && counters.nothing_held == 1 && counters.bad_queue == 1);
	evsched_shards_free(group);
}

/* Where its ring has no room for the releases of a dequeue, nothing is received, and the port knows what it holds still. */
static void waits_for_room(void)
{
	struct evsched_shards_config config = four_ports();
	struct evsched_event ev[8];
	uint32_t at = 99;
	config.dev.port[1].enqueue_depth = 2;
	make(&config);
	for (unsigned i = 0; i < 4; i++)
		CHECK(bring(1, i) == 1);
	CHECK(bring(2, 4) == 1);
	sweep();
	CHECK(evsched_shards_dequeue_burst(port(1), ev, 3) == 3 && ev[0].flow_id == 1);
	CHECK(evsched_shards_dequeue_burst(port(1), ev, 8) == 0 && evsched_shards_errno(port(1), &at) == ENOBUFS && at == 1);
	CHECK(evsched_shards_held(port(1)) == 1);
	CHECK(evsched_shards_dequeue_wait(port(1), ev, 8, 1000000000) == 0 && evsched_shards_errno(port(1), NULL) == ENOBUFS);
	sweep();
	CHECK(answer(1, EVSCHED_OP_FORWARD) == 0 && evsched_shards_held(port(1)) == 0);
	CHECK(evsched_shards_dequeue_burst(port(1), ev, 8) == 1 && ev[0].u64 == 4 && evsched_shards_errno(port(1), NULL) == 0);
	evsched_shards_free(group);
}

/* A port that doesn't answer of itself holds events of several devices: each answer goes to the oldest one's device. */
static void answers_in_order(void)
{
	struct evsched_shards_config config = four_ports();
	struct evsched_event ev[8];
	config.dev.port[1].event_port_cfg = EVSCHED_PORT_CFG_DISABLE_IMPL_REL;
	make(&config);
	for (unsigned i = 0; i < 6; i++)
		CHECK(bring(i % DEVICES, i) == 1);
	sweep();
	for (unsigned i = 0; i < 6; i++)
		CHECK(evsched_shards_dequeue_burst(port(1), &ev[i], 1) == 1 && ev[i].u64 == i);
	CHECK(evsched_shards_held(port(1)) == 6);
	ev[0] = event(EVSCHED_OP_FORWARD_MORE, 1, 0, 50); /* beside event 0, of device 0 */
	ev[1] = event(EVSCHED_OP_FORWARD, 1, 0, 51);
	ev[2] = event(EVSCHED_OP_RELEASE, 0, 0, 0);       /* of device 1 */
	ev[3] = event(EVSCHED_OP_NEW, 0, 1, 60);
	ev[4] = event(EVSCHED_OP_FORWARD, 1, 0, 52);      /* of device 2 */
	ev[5] = event(EVSCHED_OP_FORWARD, 9, 0, 0);       /* a queue that isn't there */
	CHECK(evsched_shards_enqueue_burst(port(1), ev, 6) == 5 && evsched_shards_errno(port(1), NULL) == EINVAL);
	CHECK(evsched_shards_held(port(1)) == 3);
	CHECK(answer(1, EVSCHED_OP_RELEASE) == 0 && answer(1, EVSCHED_OP_RELEASE) == 0 && answer(1, EVSCHED_OP_RELEASE) == 0);
	CHECK(answer(1, EVSCHED_OP_RELEASE) == ENOENT && answer(1, EVSCHED_OP_FORWARD_MORE) == ENOENT);
	sweep();
	CHECK(evsched_shards_dequeue_burst(port(1), ev, 8) == 2 && ev[0].u64 == 50 && ev[1].u64 == 51);
	CHECK(evsched_shards_dequeue_burst(port(1), ev, 8) == 1 && ev[0].u64 == 60);
	CHECK(evsched_shards_dequeue_burst(port(1), ev, 8) == 1 && ev[0].u64 == 52);
	evsched_shards_free(group);
}

/* A burst of all kinds: each goes where it must, whatever stands before it. */
static void mixes(void)
{
	struct evsched_shards_config config = four_ports();
	struct evsched_event ev[8];
	struct evsched_queue_stats queue;
	make(&config);
	for (unsigned i = 0; i < 3; i++)
		CHECK(bring(1, i) == 1);
	sweep();
	CHECK(evsched_shards_dequeue_burst(port(1), ev, 8) == 3);
	ev[0] = event(EVSCHED_OP_NEW, 0, 2, 10);
	ev[1] = event(EVSCHED_OP_RELEASE, 0, 0, 0);
	ev[2] = event(EVSCHED_OP_NEW, 0, 0, 11);
	ev[3] = event(EVSCHED_OP_FORWARD, 1, 0, 12);
	ev[4] = event(EVSCHED_OP_NEW, 0, 1, 13);
	ev[5] = event(EVSCHED_OP_FORWARD, 1, 2, 14);
	ev[6] = event(EVSCHED_OP_NEW, 0, 1, 15);
	CHECK(evsched_shards_enqueue_burst(port(1), ev, 7) == 7 && evsched_shards_held(port(1)) == 0);
	sweep();
	for (uint32_t d = 0; d < DEVICES; d++)
		CHECK(evsched_queue_stats(evsched_shards_dev(group, d), 0, &queue) == 0 && queue.rx_new == (d == 1 ? 5u : 1u));
	CHECK(evsched_queue_stats(evsched_shards_dev(group, 1), 1, &queue) == 0 && queue.rx_forwarded == 2);
	evsched_shards_free(group);
}

static void flush(struct evsched *dev, struct evsched_event ev, void *arg)
{
	CHECK(arg == flushed && dev == evsched_shards_dev(group, ev.flow_id));
	flushed[ev.u64]++;
}

static void drains(void)
{
	struct evsched_shards_config config = four_ports();
	struct evsched_event ev[8];
	make(&config);
	for (unsigned i = 0; i < 9; i++)
		CHECK(bring(i % DEVICES, i) == 1);
	sweep();
	CHECK(evsched_shards_dequeue_burst(port(1), ev, 8) == 3); /* 0, 3 and 6, which are the program's */
	CHECK(evsched_shards_drain(group, flush, flushed, NULL) == 0 && evsched_shards_held(port(1)) == 0);
	for (unsigned i = 0; i < 9; i++)
		CHECK(flushed[i] == (i % DEVICES > 0));
	CHECK(bring(2, 9) == 1);
	sweep();
	CHECK(evsched_shards_dequeue_burst(port(1), ev, 8) == 1 && ev[0].u64 == 9 && answer(1, EVSCHED_OP_RELEASE) == 0);
	CHECK(evsched_shards_shut(group, NULL) == 0);
	CHECK(bring(0, 9) == 0 && evsched_shards_errno(port(0), NULL) == ESHUTDOWN);
	evsched_shards_free(group);
}

/* Any thread reads the sums of all devices: those of a question that sweeps and ports have answered, also ports of devices to which they
 * didn't come. */
static void reads_sums(void)
{
	struct evsched_shards_config config = four_ports();
	static struct evsched_stats sum;
	struct evsched_event ev[8];
	uint64_t asked, now;
	make(&config);
	CHECK(evsched_shards_stats_read(group, &sum, 0) == DEVICES * 5);
	CHECK(sum.dev.inside == 0 && sum.dev.free + sum.dev.own + sum.dev.pockets == DEVICES * LIMIT && sum.dev.limit == DEVICES * LIMIT);
	for (unsigned i = 0; i < 7; i++)
		CHECK(bring(i % 2, i) == 1);
	evsched_shards_stats_read(group, &sum, 0);
	sweep();
	CHECK(evsched_shards_enqueue_new_burst(port(0), ev, 0) == 0 && evsched_shards_dequeue_burst(port(1), ev, 2) == 2);
	CHECK(evsched_shards_dequeue_burst(port(2), ev + 2, 6) == 0 && evsched_shards_dequeue_burst(port(3), ev + 2, 6) == 0);
	evsched_shards_stats_read(group, &sum, 0);
	CHECK(sum.dev.rx_new == 7 && sum.dev.inside == 7 && sum.dev.sweeps == DEVICES && sum.dev.given == 7 && sum.dev.progress == 1);
	CHECK(sum.dev.no_take == 1 && sum.dev.ports == 2 && sum.dev.rx == 7 && sum.dev.tx == 7);
	CHECK(sum.queue[0].rx_new == 7 && sum.queue[0].tx == 7 && sum.queue[0].unanswered == 7 && sum.queue[1].rx == 0);
	CHECK(sum.port[0].rx == 7 && sum.port[0].counters.enqueued == 7 && sum.port[1].unanswered == 7 && sum.share[0][1].tx == 7);
	CHECK(sum.port[1].held == 2 && sum.port[1].cq_ring == 5 && sum.port[1].counters.dequeued == 2);
	CHECK(sum.port[1].rx_free == DEVICES * config.dev.port[1].enqueue_depth && sum.port[0].age > 0 && sum.dev.age > 0);
	CHECK(sum.dev.free + sum.dev.own + sum.dev.pockets + 7 == DEVICES * LIMIT);
	/* All were asked, and answer but for port 3, which makes no call: what its part says is older. */
	asked = evsched_priv_now();
	sweep();
	CHECK(evsched_shards_enqueue_burst(port(0), ev, 0) == 0 && evsched_shards_dequeue_burst(port(1), ev, 0) == 0);
	CHECK(evsched_shards_enqueue_new_burst(port(2), ev, 0) == 0);
	evsched_shards_stats_read(group, &sum, 0);
	now = evsched_priv_now();
	CHECK(sum.dev.age <= now - asked && sum.port[0].age <= now - asked && sum.port[1].age <= now - asked);
	CHECK(sum.port[2].age <= now - asked && sum.port[3].age > sum.port[2].age);
	CHECK(evsched_shards_stop(group, NULL) == 0);
	CHECK(evsched_shards_stats_read(group, &sum, UINT64_MAX) == DEVICES * 5 && sum.dev.rx_new == 7 && sum.dev.sweeps == 2 * DEVICES);
	evsched_shards_free(group);
}

/* Each event that is inside is given back once, with its device, and the credits of all devices are there. */
static void stops(void)
{
	struct evsched_shards_config config = four_ports();
	struct evsched_report report;
	struct evsched_left left;
	struct evsched_event ev[2];
	struct evsched_queue_stats queue;
	struct evsched_port_stats lane;
	unsigned char came[PAYLOADS] = {0};
	uint32_t at = 99;
	FILE *sink = fopen("/dev/null", "w");
	make(&config);
	CHECK(evsched_shards_report(group, &report, &at) == -ENODEV && at == 0);
	CHECK(evsched_shards_left(group, &left, 1, NULL) == -ENODEV);
	for (unsigned i = 0; i < 9; i++)
		CHECK(bring(i % DEVICES, i) == 1);
	sweep();
	CHECK(evsched_shards_dequeue_burst(port(1), ev, 1) == 1 && ev[0].u64 == 0);
	CHECK(evsched_shards_queue_stats(group, 0, &queue, NULL) == 0 && queue.rx_new == 9 && queue.tx == 9);
	CHECK(evsched_shards_port_stats(group, 1, &lane, NULL) == 0 && lane.tx == 9);
	CHECK(evsched_shards_queue_stats(group, 2, &queue, &at) == -EINVAL && evsched_shards_port_stats(group, 4, &lane, &at) == -EINVAL);
	CHECK(sink && evsched_shards_dump(group, sink, NULL) == 0);
	CHECK(evsched_shards_stop(group, NULL) == 0 && evsched_shards_stop(group, NULL) == -ENODEV);
	CHECK(evsched_shards_report(group, &report, NULL) == 0 && report.held == 1 && report.undelivered == 8);
	CHECK(report.free + report.own + report.pockets + report.held + report.undelivered == DEVICES * LIMIT);
	for (unsigned i = 0; i < 8; i++) {
		CHECK(evsched_shards_left(group, &left, 1, &at) == 1 && at == left.event.flow_id);
		came[left.event.u64]++;
	}
	for (unsigned i = 1; i < 9; i++)
		CHECK(came[i] == 1);
	CHECK(evsched_shards_left(group, &left, 1, NULL) == 0);
	CHECK(evsched_shards_dequeue_burst(port(1), ev, 1) == 0 && evsched_shards_errno(port(1), NULL) == ENODEV);
	CHECK(bring(0, 9) == 0 && evsched_shards_errno(port(0), NULL) == ENODEV);
	if (sink)
		fclose(sink);
	evsched_shards_free(group);
	evsched_shards_free(NULL);
}

/* With none of the program's, flows spread: of 20,000 in a row each of 7 devices has its share within a tenth. */
static void hashes(void)
{
	struct evsched_shards_config config = evsched_shards_default_config(7, 1, 2);
	uint32_t share[7] = {0};
	config.dev.port[1].links = 1;
	make(&config);
	for (unsigned i = 0; i < 20000; i++) {
		struct evsched_event ev = event(EVSCHED_OP_NEW, i / 10000, i % 10000, i);
		share[evsched_shards_of(group, &ev)]++;
	}
	for (unsigned d = 0; d < 7; d++)
		CHECK(share[d] > 2571 && share[d] < 3143);
	evsched_shards_free(group);
}

int main(void)
{
	refuses_configurations();
	serves();
	takes_turns();
	takes_a_part();
	waits_for_room();
	answers_in_order();
	mixes();
	drains();
	stops();
	reads_sums();
	hashes();
	printf("group: %d failures\n", failures);
	return failures > 0;
}
