/* SPDX-License-Identifier: BSD-3-Clause */
/*
 * A scheduler that is late: events of an atomic queue by ports and by flow lanes, while the thread that sweeps does so only every so many
 * microseconds, since it has other work to do. A producer keeps the queue filled with events of so many flows, workers dequeue them in
 * bursts of 16, handle each for a microsecond and release it. Prints how many events a second all workers handle, of each case the most
 * of so many turns. docs/SERVING.md has the figures.
 *
 *     late [TURNS]
 */
#include <evsched.h>
#include <pthread.h>
#include <sched.h>
#include <stdatomic.h>
#include <stdio.h>
#include <stdlib.h>
#include <time.h>

enum { BURST = 16, MOST_WORKERS = 2, LIMIT = 4096 };

struct plan {
	uint32_t workers, flows, depth, is_flow_lanes;
	long pause; /* between two sweeps, in microseconds */
};

struct worker {
	struct evsched_port *port;
	uint64_t handled;
};

static atomic_int is_over;

static double now(void)
{
	struct timespec t;
	clock_gettime(CLOCK_MONOTONIC, &t);
	return (double)t.tv_sec + (double)t.tv_nsec / 1e9;
}

/* Passes so many microseconds with work, as a program that has something else to do. */
static void be_busy(double microseconds)
{
	double end = now() + microseconds / 1e6;
	while (now() < end)
		;
}

static void *produce(void *arg)
{
	struct evsched_event ev[BURST];
	uint64_t made = 0;
	const struct plan *plan = ((void **)arg)[1];
	while (!atomic_load(&is_over)) {
		int taken;
		for (int i = 0; i < BURST; i++) {
			ev[i].event = 0;
			ev[i].op = EVSCHED_OP_NEW;
			ev[i].flow_id = (uint32_t)((made + (uint64_t)i) % plan->flows);
			ev[i].u64 = made + (uint64_t)i;
		}
		taken = evsched_enqueue_burst(((void **)arg)[0], ev, BURST);
		made += (uint64_t)taken;
		if (taken < BURST)
			sched_yield();
	}
	return NULL;
}

static void *work(void *arg)
{
	struct worker *worker = (struct worker *)arg;
	struct evsched_event ev[BURST];
	while (!atomic_load(&is_over)) {
		int n = evsched_dequeue_burst(worker->port, ev, BURST);
		int done = 0;
		for (int i = 0; i < n; i++) {
			be_busy(1);
			ev[i].op = EVSCHED_OP_RELEASE;
		}
		while (done < n && !atomic_load(&is_over)) {
			int more = evsched_enqueue_burst(worker->port, ev + done, (uint16_t)(n - done));
			done += more;
			if (more == 0)
				sched_yield();
		}
		worker->handled += (uint64_t)n;
		if (n == 0)
			sched_yield();
	}
	return NULL;
}

/* Events that the workers handle in a second, in a turn of a third of one. */
static double turn(const struct plan *plan)
{
	struct evsched_dev_config config = evsched_dev_default_config(1, 1 + plan->workers);
	struct worker worker[MOST_WORKERS] = {{NULL, 0}};
	pthread_t producer, thread[MOST_WORKERS];
	struct evsched *dev;
	void *words[2];
	double start, took;
	uint64_t handled = 0;
	uint32_t w;
	config.nb_events_limit = LIMIT;
	config.event_dev_cfg = plan->is_flow_lanes ? EVSCHED_DEV_CFG_FLOW_LANES : 0;
	config.queue[0].nb_atomic_flows = plan->flows;
	config.port[0].new_event_threshold = LIMIT; /* workers add no events */
	for (w = 0; w < plan->workers; w++) {
		config.port[1 + w].links = 1;
		config.port[1 + w].dequeue_depth = (uint16_t)plan->depth;
		config.port[1 + w].event_port_cfg = EVSCHED_PORT_CFG_DISABLE_IMPL_REL;
	}
	if (evsched_create(&config, &dev) < 0)
		exit(1);
	atomic_store(&is_over, 0);
	words[0] = evsched_port(dev, 0);
	words[1] = (void *)plan;
	start = now();
	if (pthread_create(&producer, NULL, produce, words))
		exit(1);
	for (w = 0; w < plan->workers; w++) {
		worker[w].port = evsched_port(dev, 1 + w);
		if (pthread_create(&thread[w], NULL, work, &worker[w]))
			exit(1);
	}
	while (now() < start + 0.33) {
		if (evsched_sweep(dev) < 0)
			exit(1);
		be_busy((double)plan->pause);
	}
	atomic_store(&is_over, 1);
	took = now() - start;
	pthread_join(producer, NULL);
	for (w = 0; w < plan->workers; w++) {
		pthread_join(thread[w], NULL);
		handled += worker[w].handled;
	}
	evsched_free(dev);
	return (double)handled / took;
}

int main(int argc, char **argv)
{
	static const long pauses[] = {0, 100, 1000};
	static const uint32_t depths[] = {16, 64}, flows[] = {8, 64};
	int turns = argc == 2 ? atoi(argv[1]) : 5;
	printf("%8s %6s %6s %10s %12s %12s %6s\n", "workers", "flows", "depth", "pause, us", "by ports", "flow lanes", "ratio");
	for (unsigned f = 0; f < 2; f++)
		for (unsigned d = 0; d < 2; d++)
			for (unsigned p = 0; p < 3; p++) {
				struct plan plan = {MOST_WORKERS, flows[f], depths[d], 0, pauses[p]};
				double most[2] = {0, 0};
				for (int t = 0; t < 2 * turns; t++) {
					double rate;
					plan.is_flow_lanes = (uint32_t)t % 2;
					rate = turn(&plan);
					if (rate > most[t % 2])
						most[t % 2] = rate;
				}
				printf("%8u %6u %6u %10ld %12.0f %12.0f %6.2f\n", plan.workers, plan.flows, plan.depth, plan.pause, most[0], most[1],
					most[1] / most[0]);
				fflush(stdout);
			}
	return 0;
}
