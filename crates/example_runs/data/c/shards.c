/* SPDX-License-Identifier: BSD-3-Clause */
/*
 * Events through a group of devices, each with a thread that sweeps it: two producers (ports 0 and 1) and workers (the other ports), which
 * serve all devices. Each event goes into queue 0 of its flow's device, is forwarded to queue 1 there and released. A worker checks that
 * the events of a flow come in order, and counts each payload. What it reads and writes for that, `next` and `came`, are plain variables:
 * that a flow stays in one device, and is with one port at a time there, is all that guards them. The main thread reads meanwhile what all
 * devices did.
 *
 *     shards [EVENTS [DEVICES [WORKERS]]]
 */
#include <evsched_shards.h>
#include <pthread.h>
#include <sched.h>
#include <stdatomic.h>
#include <stdio.h>
#include <stdlib.h>

enum { FLOWS = 64, BURST = 32, PRODUCERS = 2, MOST_DEVICES = 8, MOST_WORKERS = 8, MOST_THREADS = PRODUCERS + MOST_WORKERS + MOST_DEVICES };

/* Event i is of flow i % FLOWS, and its payload is i. */
static uint64_t events = 1000000, devices = 2, workers = 3;
static uint64_t next[2][FLOWS]; /* how many events of the flow came to each queue */
static unsigned char *came;     /* how often each payload came to the end */
static atomic_ulong through;
static struct evsched_shards *shards;

struct worker {
	struct evsched_shards_port *port;
	uint64_t misordered;
};

static void fail(const char *what, int why, uint32_t device)
{
	fprintf(stderr, "%s: device %u: %s\n", what, (unsigned)device, evsched_strerror(why));
	exit(1);
}

/* After an enqueue that ended early: lets others run, so that it may be tried again. */
static void give_way(struct evsched_shards_port *port)
{
	uint32_t device = 0;
	int why = evsched_shards_errno(port, &device);
	if (why && !evsched_may_retry(why))
		fail("enqueue", why, device);
	sched_yield();
}

/* Brings the events in whose number is its own modulo PRODUCERS, so that a flow comes by one port. */
static void *produce(void *arg)
{
	struct evsched_event ev[BURST] = {{{0}, {0}}};
	uint64_t number = *(const uint64_t *)arg;
	struct evsched_shards_port *port = evsched_shards_port(shards, (uint32_t)number);
	while (number < events) {
		int n = 0, done = 0;
		for (; n < BURST && number < events; n++, number += PRODUCERS) {
			ev[n].event = 0;
			ev[n].op = EVSCHED_OP_NEW;
			ev[n].priority = EVSCHED_PRIORITY_NORMAL;
			ev[n].flow_id = number % FLOWS;
			ev[n].u64 = number;
		}
		while ((done += evsched_shards_enqueue_new_burst(port, ev + done, (uint16_t)(n - done))) < n)
			give_way(port);
	}
	return NULL;
}

static void handle(struct worker *worker, struct evsched_event *ev)
{
	worker->misordered += ev->u64 / FLOWS != next[ev->queue_id][ev->flow_id]++;
	if (ev->queue_id == 1)
		came[ev->u64]++;
	ev->op = ev->queue_id == 0 ? EVSCHED_OP_FORWARD : EVSCHED_OP_RELEASE;
	ev->queue_id = 1;
}

static void *work(void *arg)
{
	struct worker *worker = (struct worker *)arg;
	struct evsched_event ev[BURST];
	while (atomic_load(&through) < events) {
		int n = evsched_shards_dequeue_burst(worker->port, ev, BURST), done = 0;
		unsigned long released = 0;
		for (int i = 0; i < n; i++) {
			handle(worker, &ev[i]);
			released += ev[i].op == EVSCHED_OP_RELEASE;
		}
		while ((done += evsched_shards_enqueue_burst(worker->port, ev + done, (uint16_t)(n - done))) < n)
			give_way(worker->port);
		atomic_fetch_add(&through, released);
		if (n == 0)
			sched_yield();
	}
	return NULL;
}

static void *schedule(void *arg)
{
	struct evsched *dev = evsched_shards_dev(shards, (uint32_t)*(const uint64_t *)arg);
	while (atomic_load(&through) < events) {
		int did = evsched_sweep(dev);
		if (did < 0)
			fail("sweep", did, (uint32_t)*(const uint64_t *)arg);
		if (did == 0)
			sched_yield();
	}
	return NULL;
}

/* Reads the sums of all devices while they run, as a monitor would. Whether one of them fell. */
static uint64_t watch(void)
{
	static struct evsched_stats sum;
	uint64_t seen = 0, fell = 0;
	while (atomic_load(&through) < events) {
		evsched_shards_stats_read(shards, &sum, 1000000);
		fell |= sum.queue[1].tx < seen;
		seen = sum.queue[1].tx;
		sched_yield();
	}
	return fell;
}

static void make_group(void)
{
	struct evsched_shards_config config = evsched_shards_default_config((uint32_t)devices, 2, (uint32_t)(PRODUCERS + workers));
	char text[160];
	uint32_t at = 0;
	int r;
	for (uint64_t w = 0; w < workers; w++)
		config.dev.port[PRODUCERS + w].links = 3;
	if (evsched_shards_check(&config, text, sizeof(text)) < 0) {
		fprintf(stderr, "create: %s\n", text);
		exit(1);
	}
	if ((r = evsched_shards_create(&config, &shards, &at)) < 0)
		fail("create", r, at);
}

/* Runs all threads to their end. How many events, or sums, were out of order. */
static uint64_t run_threads(void)
{
	static struct worker worker[MOST_WORKERS];
	static uint64_t number[MOST_DEVICES];
	pthread_t thread[MOST_THREADS];
	uint64_t misordered;
	int n = 0, failed = 0;
	for (uint64_t i = 0; i < MOST_DEVICES; i++)
		number[i] = i;
	for (uint64_t d = 0; d < devices; d++)
		failed |= pthread_create(&thread[n++], NULL, schedule, &number[d]);
	for (uint64_t w = 0; w < workers; w++) {
		worker[w].port = evsched_shards_port(shards, (uint32_t)(PRODUCERS + w));
		failed |= pthread_create(&thread[n++], NULL, work, &worker[w]);
	}
	for (uint64_t p = 0; p < PRODUCERS; p++)
		failed |= pthread_create(&thread[n++], NULL, produce, &number[p]);
	if (failed)
		exit(1);
	misordered = watch();
	while (n > 0)
		pthread_join(thread[--n], NULL);
	for (uint64_t w = 0; w < workers; w++)
		misordered += worker[w].misordered;
	return misordered;
}

/* The last sweeps, which take the last RELEASEs, and the stop. How many credits are back. */
static uint64_t end_group(struct evsched_dev_stats *all)
{
	struct evsched_report report;
	struct evsched_dev_stats one;
	uint32_t at = 0;
	int r = evsched_shards_drain(shards, NULL, NULL, &at);
	for (uint32_t d = 0; d < devices && evsched_dev_stats(evsched_shards_dev(shards, d), &one) == 0; d++)
		printf("device %u: %llu new\n", (unsigned)d, (unsigned long long)one.rx_new);
	if (r < 0 || (r = evsched_shards_dev_stats(shards, all, &at)) < 0 || (r = evsched_shards_stop(shards, &at)) < 0
		|| (r = evsched_shards_report(shards, &report, &at)) < 0)
		fail("stop", r, at);
	return report.free + report.own + report.pockets;
}

int main(int argc, char **argv)
{
	struct evsched_dev_stats all;
	uint64_t misordered, credits, limit, once = 0;
	if (argc > 1)
		events = strtoull(argv[1], NULL, 10);
	if (argc > 2)
		devices = strtoull(argv[2], NULL, 10);
	if (argc > 3)
		workers = strtoull(argv[3], NULL, 10);
	if (devices < 1 || devices > MOST_DEVICES || workers < 1 || workers > MOST_WORKERS || !(came = (unsigned char *)calloc(events + 1, 1)))
		return 2;
	make_group();
	limit = devices * (uint64_t)evsched_info(evsched_shards_dev(shards, 0))->nb_events_limit;
	misordered = run_threads();
	credits = end_group(&all);
	evsched_shards_free(shards);
	for (uint64_t i = 0; i < events; i++)
		once += came[i] == 1;
	free(came);
	printf("%llu events, %llu came once, %llu out of order; %llu of %llu credits are back\n", (unsigned long long)all.rx_new,
		(unsigned long long)once, (unsigned long long)misordered, (unsigned long long)credits, (unsigned long long)limit);
	return all.rx_new != events || all.inside > 0 || once != events || misordered > 0 || credits != limit;
}
