/* SPDX-License-Identifier: BSD-3-Clause */
/*
 * The rounds of bench/door.c through a group of devices (evsched_shards.h): for each device a burst of NEWs, all of them in one call, which
 * the flows' hash shares out, a sweep of each device, dequeues of at most a burst until all came, and their RELEASEs. With 0 devices the
 * same loop over one device by its own calls. `bench/group.py` counts the instructions.
 *
 *     group DEVICES BURST ROUNDS
 */
#include <evsched_shards.h>

enum { SOURCE, WORKER, PORTS, FLOWS = 1024, MOST = 32 };

static struct evsched_shards *group;
static struct evsched *dev;
static uint32_t devices;

static int fail(const char *what)
{
	fprintf(stderr, "group: %s\n", what);
	return 1;
}

static int bring(struct evsched_event *ev, int n)
{
	return devices ? evsched_shards_enqueue_new_burst(evsched_shards_port(group, SOURCE), ev, (uint16_t)n)
		: evsched_enqueue_burst(evsched_port(dev, SOURCE), ev, (uint16_t)n);
}

static int get(struct evsched_event *ev, int n)
{
	return devices ? evsched_shards_dequeue_burst(evsched_shards_port(group, WORKER), ev, (uint16_t)n)
		: evsched_dequeue_burst(evsched_port(dev, WORKER), ev, (uint16_t)n);
}

static int answer(const struct evsched_event *ev, int n)
{
	return devices ? evsched_shards_enqueue_burst(evsched_shards_port(group, WORKER), ev, (uint16_t)n)
		: evsched_enqueue_burst(evsched_port(dev, WORKER), ev, (uint16_t)n);
}

static void sweep(void)
{
	uint32_t d;
	if (!devices)
		evsched_sweep(dev);
	for (d = 0; d < devices; d++)
		evsched_sweep(evsched_shards_dev(group, d));
}

static int rounds(int burst, long count)
{
	static struct evsched_event ev[MOST * EVSCHED_SHARDS_MAX], release[MOST];
	int all = burst * (int)(devices ? devices : 1), i, n, came;
	uint64_t number = 0;
	for (i = 0; i < MOST; i++)
		release[i].op = EVSCHED_OP_RELEASE;
	while (count-- > 0) {
		for (i = 0; i < all; i++, number++) {
			ev[i].event = 0;
			ev[i].op = EVSCHED_OP_NEW;
			ev[i].flow_id = number % FLOWS;
			ev[i].priority = EVSCHED_PRIORITY_NORMAL;
			ev[i].u64 = number;
		}
		if (bring(ev, all) != all)
			return fail("a NEW is refused");
		sweep();
		for (came = 0; came < all; came += n) {
			n = get(ev, burst);
			if (n > 0 && answer(release, n) != n)
				return fail("a RELEASE is refused");
			if (n == 0)
				sweep();
		}
	}
	return 0;
}

int main(int argc, char **argv)
{
	struct evsched_shards_config config = evsched_shards_default_config(1, 1, PORTS);
	int burst = argc == 4 ? atoi(argv[2]) : 0;
	if (burst < 1 || burst > MOST || atoi(argv[1]) < 0 || atoi(argv[1]) > 8)
		return fail("takes the number of devices, 0 to 8, the length of a burst, 1 to 32, and the number of rounds");
	config.nb_shards = devices = (uint32_t)atoi(argv[1]);
	config.dev.port[SOURCE].enqueue_depth = EVSCHED_MAX_DEPTH;
	config.dev.port[WORKER].links = 1;
	config.dev.port[WORKER].dequeue_depth = EVSCHED_MAX_DEPTH;
	config.dev.port[WORKER].event_port_cfg = EVSCHED_PORT_CFG_DISABLE_IMPL_REL;
	if (devices ? evsched_shards_create(&config, &group, NULL) < 0 : evsched_create(&config.dev, &dev) < 0)
		return fail("no device is made");
	return rounds(burst, atol(argv[3]));
}
