/* SPDX-License-Identifier: BSD-3-Clause */
/*
 * A race, for a sanitizer of threads, which must report it: two workers handle events of different flows and both count them in one plain
 * variable. A flow is with one port at a time, so what is counted by flow is no race, and mustn't be reported (examples/c/flows.c).
 *
 *     race [EVENTS]
 */
#include <evsched.h>
#include <pthread.h>
#include <sched.h>
#include <stdatomic.h>
#include <stdio.h>

enum { FLOWS = 64, BURST = 8, PATIENCE = 1000 };

static uint64_t events = 5000, counted; /* the race */
static atomic_ulong handled, holding;   /* relaxed, so that they order nothing */

/* Until both workers hold events, for a while: so neither has answered before the other dequeues. */
static void meet(void)
{
	atomic_fetch_add_explicit(&holding, 1, memory_order_relaxed);
	for (int i = 0; i < PATIENCE && atomic_load_explicit(&holding, memory_order_relaxed) < 2; i++)
		sched_yield();
}

static void *work(void *arg)
{
	struct evsched_port *port = (struct evsched_port *)arg;
	struct evsched_event ev[BURST];
	while (atomic_load_explicit(&handled, memory_order_relaxed) < events) {
		int n = evsched_dequeue_burst(port, ev, BURST);
		if (n > 0)
			meet();
		for (int i = 0; i < n; i++) {
			counted++;
			ev[i].op = EVSCHED_OP_RELEASE;
		}
		for (int done = 0; done < n; done += evsched_enqueue_burst(port, ev + done, (uint16_t)(n - done)))
			;
		atomic_fetch_add_explicit(&handled, (unsigned long)n, memory_order_relaxed);
		if (n > 0)
			atomic_fetch_sub_explicit(&holding, 1, memory_order_relaxed);
		else
			sched_yield();
	}
	return NULL;
}

int main(int argc, char **argv)
{
	struct evsched_dev_config config = evsched_dev_default_config(1, 3);
	struct evsched_event ev = {{0}, {0}};
	struct evsched *dev;
	pthread_t thread[2];
	uint64_t made = 0;
	if (argc > 1)
		events = strtoull(argv[1], NULL, 10);
	config.port[1].links = config.port[2].links = 1;
	if (evsched_create(&config, &dev) < 0 || pthread_create(&thread[0], NULL, work, evsched_port(dev, 1))
		|| pthread_create(&thread[1], NULL, work, evsched_port(dev, 2)))
		return 1;
	while (atomic_load_explicit(&handled, memory_order_relaxed) < events) {
		ev.flow_id = made % FLOWS;
		if (made < events)
			made += evsched_enqueue_burst(evsched_port(dev, 0), &ev, 1);
		if (made % BURST == 0 && evsched_sweep(dev) == 0)
			sched_yield();
	}
	pthread_join(thread[0], NULL);
	pthread_join(thread[1], NULL);
	evsched_free(dev);
	printf("%llu of %llu counted\n", (unsigned long long)counted, (unsigned long long)events);
	return 0;
}
