/* SPDX-License-Identifier: BSD-3-Clause */
/* A first event device: port 0 brings ten events in, port 1 handles them; one thread does all. */
#include <evsched.h>
#include <stdio.h>

static int fail(const char *what, int code)
{
	fprintf(stderr, "%s: %s\n", what, evsched_strerror(code));
	return 1;
}

int main(void)
{
	struct evsched_dev_config config = evsched_dev_default_config(1, 2); /* one queue, an atomic one, and two ports */
	struct evsched_event ev[10] = {{{0}, {0}}};
	struct evsched_report report;
	struct evsched *dev;
	int r, n, i;

	config.port[1].links = 1u << 0; /* port 1 dequeues from queue 0; port 0 is a producer */
	if ((r = evsched_create(&config, &dev)) < 0)
		return fail("create", r);
	for (i = 0; i < 10; i++) {
		ev[i].op = EVSCHED_OP_NEW;
		ev[i].queue_id = 0;
		ev[i].flow_id = i % 3;
		ev[i].u64 = (uint64_t)i;
	}
	if (evsched_enqueue_burst(evsched_port(dev, 0), ev, 10) < 10)
		return fail("enqueue", evsched_errno(evsched_port(dev, 0)));
	do {
		if ((r = evsched_sweep(dev)) < 0)
			return fail("sweep", r);
		n = evsched_dequeue_burst(evsched_port(dev, 1), ev, 4);
		for (i = 0; i < n; i++) {
			printf("flow %u: event %u\n", (unsigned)ev[i].flow_id, (unsigned)ev[i].u64);
			ev[i].op = EVSCHED_OP_RELEASE;
		}
		if (n > 0 && evsched_enqueue_burst(evsched_port(dev, 1), ev, (uint16_t)n) < n)
			return fail("release", evsched_errno(evsched_port(dev, 1)));
	} while (evsched_inside(dev) > 0);
	if ((r = evsched_stop(dev)) < 0 || (r = evsched_report(dev, &report)) < 0)
		return fail("stop", r);
	printf("credits: %u free, %u with the ports\n", (unsigned)report.free, (unsigned)report.pockets);
	evsched_free(dev);
	return 0;
}
