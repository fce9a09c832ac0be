/* SPDX-License-Identifier: BSD-3-Clause */
/*
 * Events through two atomic queues, by threads: a producer (port 0), two workers (ports 1 and 2), and a scheduler, the main thread.
 * Each event goes into queue 0, is forwarded to queue 1 and released there. A worker checks that the events of a flow come in order.
 * What it reads and writes for that, `next`, are plain variables: that a flow is with one port at a time is all that guards them.
 *
 *     flows [EVENTS [flow-lanes]]
 */
#include <evsched.h>
#include <pthread.h>
#include <sched.h>
#include <stdatomic.h>
#include <stdio.h>
#include <stdlib.h>
#include <string.h>

enum { FLOWS = 64, BURST = 32 };

static uint64_t events = 1000000;
static uint64_t next[2][FLOWS]; /* which of the flow's events comes next to each queue */
static atomic_int is_over;

struct worker {
	struct evsched_port *port;
	uint64_t handled, misordered;
};

/* Enqueues them all: it tries again where the device has no room just now. */
static void enqueue_all(struct evsched_port *port, const struct evsched_event *ev, int n)
{
	for (;;) {
		int taken = evsched_enqueue_burst(port, ev, (uint16_t)n);
		int why = evsched_errno(port);
		if (taken == n)
			return;
		if (!evsched_may_retry(why)) {
			fprintf(stderr, "enqueue: %s\n", evsched_strerror(why));
			exit(1);
		}
		ev += taken;
		n -= taken;
		sched_yield();
	}
}

static void *produce(void *arg)
{
	struct evsched_event ev[BURST];
	uint64_t made = 0;
	memset(ev, 0, sizeof(ev));
	while (made < events) {
		int n = 0;
		for (; n < BURST && made < events; n++, made++) {
			ev[n].op = EVSCHED_OP_NEW;
			ev[n].queue_id = 0;
			ev[n].flow_id = made % FLOWS;
			ev[n].u64 = made / FLOWS;
		}
		enqueue_all((struct evsched_port *)arg, ev, n);
	}
	return NULL;
}

static void *work(void *arg)
{
	struct worker *worker = (struct worker *)arg;
	struct evsched_event ev[BURST];
	while (!atomic_load(&is_over)) {
		int n = evsched_dequeue_burst(worker->port, ev, BURST);
		for (int i = 0; i < n; i++) {
			worker->misordered += ev[i].u64 != next[ev[i].queue_id][ev[i].flow_id]++;
			ev[i].op = ev[i].queue_id == 0 ? EVSCHED_OP_FORWARD : EVSCHED_OP_RELEASE;
			ev[i].queue_id = 1;
		}
		if (n > 0) {
			enqueue_all(worker->port, ev, n);
			worker->handled += (uint64_t)n;
		} else {
			sched_yield();
		}
	}
	return NULL;
}

int main(int argc, char **argv)
{
	struct evsched_dev_config config = evsched_dev_default_config(2, 3);
	struct evsched_dev_stats all;
	struct evsched_queue_stats queue;
	struct evsched_port_counters port;
	struct evsched_report report;
	struct worker worker[2] = {{NULL, 0, 0}, {NULL, 0, 0}};
	pthread_t thread[3];
	struct evsched *dev;
	int r, did;

	if (argc > 1)
		events = strtoull(argv[1], NULL, 10);
	if (argc > 2 && !strcmp(argv[2], "flow-lanes"))
		config.event_dev_cfg = EVSCHED_DEV_CFG_FLOW_LANES;
	config.port[1].links = config.port[2].links = 3;
	if ((r = evsched_create(&config, &dev)) < 0) {
		fprintf(stderr, "create: %s\n", evsched_strerror(r));
		return 1;
	}
	worker[0].port = evsched_port(dev, 1);
	worker[1].port = evsched_port(dev, 2);
	if (pthread_create(&thread[0], NULL, produce, evsched_port(dev, 0)) || pthread_create(&thread[1], NULL, work, &worker[0])
		|| pthread_create(&thread[2], NULL, work, &worker[1]))
		return 1;
	do {
		if ((did = evsched_sweep(dev)) == 0)
			sched_yield();
		evsched_dev_stats(dev, &all);
	} while (did >= 0 && (all.rx_new < events || all.inside > 0));
	atomic_store(&is_over, 1);
	for (int t = 0; t < 3; t++)
		pthread_join(thread[t], NULL);

	evsched_shut(dev);
	for (uint32_t q = 0; q < 2 && !evsched_queue_stats(dev, q, &queue); q++)
		printf("queue %u: %llu new, %llu forwarded, %llu given\n", q, (unsigned long long)queue.rx_new,
			(unsigned long long)queue.rx_forwarded, (unsigned long long)queue.tx);
	for (uint32_t p = 0; p < 3 && !evsched_port_counters(evsched_port(dev, p), &port); p++)
		printf("port %u: %llu enqueued, %llu dequeued; refused %llu for credits, %llu for room\n", p, (unsigned long long)port.enqueued,
			(unsigned long long)port.dequeued, (unsigned long long)(port.backpressure + port.raced), (unsigned long long)port.full);
	if (did < 0 || (r = evsched_stop(dev)) < 0 || (r = evsched_report(dev, &report)) < 0) {
		fprintf(stderr, "%s\n", evsched_strerror(did < 0 ? did : r));
		return 1;
	}
	evsched_free(dev);
	printf("%llu events, %llu out of order; %llu of %d credits are back\n", (unsigned long long)(worker[0].handled + worker[1].handled),
		(unsigned long long)(worker[0].misordered + worker[1].misordered),
		(unsigned long long)(report.free + report.own + report.pockets), (int)config.nb_events_limit);
	return worker[0].misordered + worker[1].misordered > 0 || worker[0].handled + worker[1].handled != 2 * events
		|| report.free + report.own + report.pockets != (uint64_t)config.nb_events_limit;
}
