/* SPDX-License-Identifier: BSD-3-Clause */
/*
 * The shape of dpdk-test-eventdev's perf_queue, over event_sw and over evsched, by the same loops: a thread that brings events in, one
 * that schedules, and one or more workers, each pinned to a processor of its own. A worker forwards each event to the next queue, or
 * releases it after the last. Windows of a few milliseconds, of either device by turns; prints how many millions of events a second leave
 * the last queue, in the mean of the windows and in the best one, and the ratio of evsched's mean to event_sw's. It fails where that of an
 * atomic queue with one worker, which dequeues LIMITED at once, and a producer's bursts longer than 1 is below LEAST. (With bursts of 32
 * the 64 events that a port of evsched may hold are two bursts, so that the threads wait for each other.) `bench/against_event_sw threads`
 * builds it.
 *
 *     threads [WINDOWS [STAGES]]     a letter of STAGES is a queue: a (atomic), p (parallel), o (ordered)
 *
 * A thread ends when the time of its window is over, whatever the others do. Where a machine has other work these threads are to come
 * first (chrt -f 10): after the windows of a row they leave the processors for as long as they had them.
 */
#include "two_devices.h"
#include <rte_cycles.h>
#include <rte_launch.h>
#include <rte_lcore.h>
#include <rte_pause.h>

#define LEAST 0.75
#define LIMITED 16

enum { FLOWS = 1024, MOST = 32, WARM = 5, LENGTH = 20, PATIENCE = 10000, BURSTS = 3 }; /* times in milliseconds */

struct row {
	const char *stages;
	uint16_t workers, brought, worked; /* how many workers, and both bursts */
	struct shape shape;
};

/* A worker of one device: what it dequeued and hasn't answered yet it answers in its next window. */
struct worker {
	union event ev[MOST];
	int came, answered;
	double rate;
} __rte_aligned(128);

static struct worker workers[2][MOST_WORKERS];
static struct row row;
static struct {
	uint64_t start, end;
	int is_ours;
} window;

/* Whether the window is over. The time is read once in so many calls. */
ALWAYS int is_over(uint32_t call)
{
	return call % 64 == 0 && rte_rdtsc() >= window.end;
}

ALWAYS void bring(int is_ours)
{
	union event ev[MOST];
	uint64_t word = new_word(&row.shape);
	uint32_t flow = 0, call;
	uint16_t done = row.brought, i;
	memset(ev, 0, sizeof(ev));
	for (call = 1; !is_over(call); call++) {
		int more;
		if (done == row.brought) {
			for (i = 0; i < row.brought; i++) {
				ev[i].theirs.event = word | flow;
				flow = (flow + 1) % FLOWS;
			}
			done = 0;
		}
		more = enqueue(is_ours, SOURCE, ev + done, (uint16_t)(row.brought - done));
		done = (uint16_t)(done + more);
		if (done < row.brought)
			rte_pause();
	}
}

/* What is to be done with the events that came. How many are released. */
ALWAYS uint32_t decide(union event *ev, int n)
{
	uint32_t released = 0;
	int i;
	for (i = 0; i < n; i++) {
		uint8_t next = (uint8_t)(ev[i].theirs.queue_id + 1);
		if (next == row.shape.queues) {
			ev[i].theirs.op = RTE_EVENT_OP_RELEASE;
			released++;
		} else {
			ev[i].theirs.op = RTE_EVENT_OP_FORWARD;
			ev[i].theirs.queue_id = next;
			ev[i].theirs.sched_type = row.shape.types[next] & 3;
		}
	}
	return released;
}

/* How many were released, counted from the window's start on, and in what time: events a second. */
ALWAYS double work(int is_ours, uint32_t number, struct worker *worker)
{
	uint64_t released = 0, before = 0, start = 0, time = 0;
	uint32_t call;
	for (call = 0;; call++) {
		if (call % 64 == 0) {
			time = rte_rdtsc();
			if (start == 0 && time >= window.start) {
				start = time;
				before = released;
			}
			if (time >= window.end)
				break;
		}
		if (worker->answered == worker->came) {
			int n = dequeue(is_ours, WORKER + number, worker->ev, row.worked);
			worker->came = n;
			worker->answered = 0;
			released += decide(worker->ev, worker->came);
		}
		if (worker->answered < worker->came)
			worker->answered += enqueue(is_ours, WORKER + number, worker->ev + worker->answered,
				(uint16_t)(worker->came - worker->answered));
		else
			rte_pause();
	}
	return time > start ? (double)(released - before) * (double)rte_get_tsc_hz() / (double)(time - start) : 0;
}

static int run_scheduler(void *none)
{
	uint32_t call;
	(void)none;
	if (window.is_ours)
		for (call = 1; !is_over(call); call++)
			schedule(1);
	else
		for (call = 1; !is_over(call); call++)
			schedule(0);
	return 0;
}

static int run_worker(void *number_as_pointer)
{
	uint32_t number = (uint32_t)(uintptr_t)number_as_pointer;
	struct worker *worker = &workers[window.is_ours][number];
	worker->rate = window.is_ours ? work(1, number, worker) : work(0, number, worker);
	return 0;
}

/* Waits for a thread, which ends by itself. */
static void await(unsigned lcore)
{
	int i;
	for (i = 0; rte_eal_get_lcore_state(lcore) == RUNNING; i++) {
		if (i == PATIENCE)
			fail("a thread doesn't end");
		usleep(1000);
	}
	rte_eal_wait_lcore(lcore);
}

/* One window: events a second. The main thread is the one that brings events in. */
static double run_window(int is_ours)
{
	uint64_t millisecond = rte_get_tsc_hz() / 1000;
	double rate = 0;
	unsigned lcore;
	uint32_t at = 0;
	window.is_ours = is_ours;
	window.start = rte_rdtsc() + WARM * millisecond;
	window.end = window.start + LENGTH * millisecond;
	RTE_LCORE_FOREACH_WORKER(lcore) {
		if (at <= row.workers && rte_eal_remote_launch(at ? run_worker : run_scheduler, (void *)(uintptr_t)(at - 1), lcore))
			fail("a thread doesn't start");
		at++;
	}
	if (is_ours)
		bring(1);
	else
		bring(0);
	RTE_LCORE_FOREACH_WORKER(lcore)
		await(lcore);
	for (at = 0; at < row.workers; at++)
		rate += workers[is_ours][at].rate;
	return rate;
}

/* Prints a row. Whether it is within its limit, where it has one. */
static int measure(int windows)
{
	double sum[2] = {0, 0}, best[2] = {0, 0}, ratio;
	int is_limited = !strcmp(row.stages, "a") && row.workers == 1 && row.worked == LIMITED && row.brought > 1, i;
	for (i = 0; i < 2 * windows; i++) {
		double rate = run_window(i % 2) / 1e6;
		sum[i % 2] += rate;
		if (rate > best[i % 2])
			best[i % 2] = rate;
	}
	ratio = sum[1] / sum[0];
	printf("%-6s %7u %8u %6u %9.2f %9.2f %9.2f %9.2f %6.2f", row.stages, row.workers, row.brought, row.worked, sum[0] / windows, best[0],
		sum[1] / windows, best[1], ratio);
	if (is_limited)
		printf(" %8.2f%s", LEAST, ratio < LEAST ? " BROKEN" : "");
	printf("\n");
	fflush(stdout);
	usleep((useconds_t)(2 * windows * (WARM + LENGTH) * 1000));
	return !is_limited || ratio >= LEAST;
}

static uint8_t type_of(char letter)
{
	if (letter != 'a' && letter != 'p' && letter != 'o')
		fail("a stage is a, p or o");
	return letter == 'a' ? RTE_SCHED_TYPE_ATOMIC : letter == 'p' ? RTE_SCHED_TYPE_PARALLEL : RTE_SCHED_TYPE_ORDERED;
}

/* The rows of these stages and so many workers. Whether all are within their limits. */
static int measure_stages(const char *stages, uint16_t count, int windows)
{
	static const uint16_t bursts[BURSTS] = {1, 16, 32};
	int b, are_within = 1;
	memset(&row, 0, sizeof(row));
	memset(workers, 0, sizeof(workers));
	row.stages = stages;
	row.workers = count;
	row.shape.workers = count;
	for (; row.shape.queues < strlen(stages); row.shape.queues++) {
		if (row.shape.queues == MOST_QUEUES)
			fail("there are too many stages");
		row.shape.types[row.shape.queues] = type_of(stages[row.shape.queues]);
	}
	make_theirs(&row.shape);
	make_ours(&row.shape);
	for (b = 0; b < BURSTS * BURSTS; b++) {
		row.brought = bursts[b / BURSTS];
		row.worked = bursts[b % BURSTS];
		are_within &= measure(windows);
	}
	free_both();
	return are_within;
}

int main(int argc, char **argv)
{
	static const char *const stages[] = {"a", "p", "o", "aop"};
	static const uint16_t counts[] = {1, 2, 4};
	int windows = argc > 1 ? atoi(argv[1]) : 10, are_within = 1, c, s;
	start_eal(argv[0]);
	printf("%-6s %7s %8s %6s %9s %9s %9s %9s %6s %8s\n", "stages", "workers", "producer", "worker", "event_sw", "best", "evsched", "best",
		"ratio", "at least");
	for (c = 0; c < 3; c++) {
		if (rte_lcore_count() < 2u + counts[c]) {
			printf("not measured: %u workers, since there are %u processors\n", counts[c], rte_lcore_count());
			continue;
		}
		if (argc > 2)
			are_within &= measure_stages(argv[2], counts[c], windows);
		for (s = 0; argc <= 2 && s < 4; s++)
			are_within &= measure_stages(stages[s], counts[c], windows);
	}
	return are_within ? 0 : 1;
}
