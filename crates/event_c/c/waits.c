/* SPDX-License-Identifier: BSD-3-Clause */
/* A dequeue that waits, and a port that is emptied. Ends with status 1 where something isn't as it should be. */
#define _GNU_SOURCE
#include <evsched.h>
#include <pthread.h>
#include <stdio.h>
#include <string.h>
#include <sys/resource.h>

enum { SOURCE, WORKER, PORTS, EVENTS = 20 };
enum { MILLISECOND = 1000000 };

static int failures;

#define CHECK(is) check((is), __LINE__, #is)

static void check(int is, int line, const char *text)
{
	if (!is) {
		printf("waits.c:%d: not so: %s\n", line, text);
		failures++;
	}
}

static struct evsched *dev;
static struct evsched_port *source, *worker;
static int flushed[EVENTS];

static void make(uint16_t enqueue_depth, uint32_t port_cfg)
{
	struct evsched_dev_config config = evsched_dev_default_config(1, PORTS);
	config.port[WORKER].links = 1;
	config.port[WORKER].enqueue_depth = enqueue_depth;
	config.port[WORKER].event_port_cfg = port_cfg;
	CHECK(evsched_create(&config, &dev) == 0);
	source = evsched_port(dev, SOURCE);
	worker = evsched_port(dev, WORKER);
	memset(flushed, 0, sizeof(flushed));
}

/* So many events, numbered from 0, in the worker's ring. */
static void bring(int n)
{
	struct evsched_event ev[EVENTS];
	memset(ev, 0, sizeof(ev));
	for (int i = 0; i < n; i++)
		ev[i].u64 = (uint64_t)i;
	CHECK(evsched_enqueue_burst(source, ev, (uint16_t)n) == n);
	while (evsched_sweep(dev) > 0)
		;
}

static uint64_t now(void)
{
	struct timespec t;
	clock_gettime(CLOCK_MONOTONIC, &t);
	return (uint64_t)t.tv_sec * 1000u * MILLISECOND + (uint64_t)t.tv_nsec;
}

/* How often this thread went to sleep; a yield isn't counted so. */
static long sleeps(void)
{
	struct rusage usage;
	CHECK(getrusage(RUSAGE_THREAD, &usage) == 0);
	return usage.ru_nvcsw;
}

static void *bring_later(void *arg)
{
	struct timespec pause = {0, 30 * MILLISECOND};
	nanosleep(&pause, NULL);
	bring(3);
	return arg;
}

static void wait_for_none(void)
{
	struct evsched_event ev[4];
	uint64_t start = now();
	long before;
	CHECK(evsched_dequeue_wait(worker, ev, 4, 0) == 0 && evsched_dequeue_wait(worker, NULL, 0, UINT64_MAX) == 0);
	CHECK(now() - start < 1000u * MILLISECOND);
	start = now();
	before = sleeps();
	CHECK(evsched_dequeue_wait(worker, ev, 4, 300 * MILLISECOND) == 0 && evsched_errno(worker) == 0);
	CHECK(now() - start >= 300 * MILLISECOND && sleeps() - before >= 3);
}

static void wait_for_some(void)
{
	struct evsched_event ev[4];
	uint64_t start = now();
	pthread_t thread;
	if (pthread_create(&thread, NULL, bring_later, NULL))
		exit(1);
	CHECK(evsched_dequeue_wait(worker, ev, 4, 60000ull * MILLISECOND) > 0);
	CHECK(now() - start < 30000ull * MILLISECOND);
	pthread_join(thread, NULL);
}

/* What is refused doesn't wait. */
static void wait_refused(void)
{
	struct evsched_event ev[8];
	uint64_t start = now();
	make(4, 0);
	bring(8);
	CHECK(evsched_dequeue_wait(worker, ev, 8, UINT64_MAX) == 8);
	CHECK(evsched_dequeue_wait(worker, ev, 8, UINT64_MAX) == 0 && evsched_errno(worker) == ENOBUFS);
	CHECK(evsched_stop(dev) == 0);
	CHECK(evsched_dequeue_wait(worker, ev, 8, UINT64_MAX) == 0 && evsched_errno(worker) == ENODEV);
	CHECK(evsched_quiesce(worker, NULL, NULL) == -ENODEV);
	CHECK(now() - start < 30000ull * MILLISECOND);
	evsched_free(dev);
}

static void flush(struct evsched *of, struct evsched_event ev, void *arg)
{
	CHECK(of == dev && ev.u64 < EVENTS);
	flushed[ev.u64 % EVENTS]++;
	++*(int *)arg;
}

static void check_flushed(int from, int to)
{
	for (int i = 0; i < EVENTS; i++)
		CHECK(flushed[i] == (i >= from && i < to));
}

static void quiesce(uint32_t port_cfg)
{
	struct evsched_event ev[5];
	int got = 0;
	make(EVSCHED_MAX_DEPTH, port_cfg);
	bring(EVENTS);
	CHECK(evsched_dequeue_burst(worker, ev, 5) == 5);
	CHECK(evsched_quiesce(worker, flush, &got) == 0 && got == EVENTS - 5 && evsched_held(worker) == 0);
	check_flushed(5, EVENTS);
	CHECK(evsched_quiesce(worker, flush, &got) == 0 && got == EVENTS - 5);
	while (evsched_sweep(dev) > 0)
		;
	CHECK(evsched_inside(dev) == 0);
	evsched_free(dev);
}

/* No sweep runs: it ends where the ring is full, and goes on after one. */
static void quiesce_full(uint32_t port_cfg)
{
	int got = 0, r, turns = 0;
	make(4, port_cfg);
	bring(EVENTS);
	while ((r = evsched_quiesce(worker, flush, &got)) == -ENOBUFS && turns++ < 100) {
		CHECK(evsched_held(worker) > 0 && evsched_quiesce(worker, flush, &got) == -ENOBUFS);
		CHECK(evsched_sweep(dev) > 0);
	}
	CHECK(r == 0 && turns == EVENTS / 4 - 1 && got == EVENTS && evsched_held(worker) == 0);
	check_flushed(0, EVENTS);
	CHECK(evsched_quiesce(worker, NULL, NULL) == 0);
	evsched_free(dev);
}

int main(void)
{
	make(EVSCHED_MAX_DEPTH, 0);
	wait_for_none();
	wait_for_some();
	evsched_free(dev);
	wait_refused();
	quiesce(0);
	quiesce(EVSCHED_PORT_CFG_DISABLE_IMPL_REL);
	quiesce_full(0);
	quiesce_full(EVSCHED_PORT_CFG_DISABLE_IMPL_REL);
	printf("waits: %d failures\n", failures);
	return failures > 0;
}
