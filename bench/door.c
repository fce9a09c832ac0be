/* SPDX-License-Identifier: BSD-3-Clause */
/*
 * The rounds of `device_bench`, case `atomic-64-flows-tally`, through the C functions: a burst of NEWs, a sweep, a dequeue, a burst of
 * RELEASEs, which the next round's sweep takes. Prints nanoseconds of processor time per event (`bench/door.py`); `bench/instructions.py`
 * counts its instructions.
 *
 *     door BURST ROUNDS
 */
#include <evsched.h>
#include <stdio.h>
#include <stdlib.h>
#include <time.h>

enum { SOURCE, WORKER, PORTS, QUEUES = 2, FLOWS = 64, MOST = 32 };

static int fail(const char *what)
{
	fprintf(stderr, "door: %s\n", what);
	return 1;
}

static int rounds(struct evsched *dev, int burst, long count)
{
	struct evsched_event ev[MOST], release[MOST] = {{{0}, {0}}};
	uint64_t number = 0;
	int i;
	for (i = 0; i < MOST; i++)
		release[i].op = EVSCHED_OP_RELEASE;
	while (count-- > 0) {
		for (i = 0; i < burst; i++, number++) {
			ev[i].event = 0;
			ev[i].op = EVSCHED_OP_NEW;
			ev[i].flow_id = number % FLOWS;
			ev[i].priority = EVSCHED_PRIORITY_NORMAL;
			ev[i].u64 = number;
		}
		if (evsched_enqueue_burst(evsched_port(dev, SOURCE), ev, (uint16_t)burst) != burst)
			return fail("a NEW is refused");
		evsched_sweep(dev);
		if (evsched_dequeue_burst(evsched_port(dev, WORKER), ev, (uint16_t)burst) != burst)
			return fail("an event isn't given");
		if (evsched_enqueue_burst(evsched_port(dev, WORKER), release, (uint16_t)burst) != burst)
			return fail("a RELEASE is refused");
	}
	return 0;
}

static double now(void)
{
	struct timespec t;
	clock_gettime(CLOCK_THREAD_CPUTIME_ID, &t);
	return (double)t.tv_sec * 1e9 + (double)t.tv_nsec;
}

int main(int argc, char **argv)
{
	struct evsched_dev_config config = evsched_dev_default_config(QUEUES, PORTS);
	struct evsched *dev;
	int burst = argc == 3 ? atoi(argv[1]) : 0, status;
	double start;
	if (burst < 1 || burst > MOST)
		return fail("takes the length of a burst, 1 to 32, and the number of rounds");
	config.queue[0].nb_atomic_flows = EVSCHED_MAX_ATOMIC_FLOWS;
	config.queue[1].schedule_type = EVSCHED_TYPE_PARALLEL;
	config.port[WORKER].links = 3;
	config.port[WORKER].dequeue_depth = EVSCHED_MAX_DEPTH;
	config.port[WORKER].event_port_cfg = EVSCHED_PORT_CFG_DISABLE_IMPL_REL;
	if (evsched_create(&config, &dev) < 0)
		return fail("the device isn't made");
	start = now();
	status = rounds(dev, burst, atol(argv[2]));
	printf("%.1f\n", (now() - start) / ((double)atol(argv[2]) * burst));
	evsched_free(dev);
	return status;
}
