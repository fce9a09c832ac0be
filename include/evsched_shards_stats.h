/* SPDX-License-Identifier: BSD-3-Clause */
/*
 * The statistics of evsched_shards.h, which includes it: sums over the devices of a group. What one device counted its own calls say
 * (evsched_dev_stats and its like, of evsched_shards_dev; evsched_stats_read and the xstats from any thread).
 */
#ifndef EVSCHED_SHARDS_STATS_H
#define EVSCHED_SHARDS_STATS_H

#ifndef EVSCHED_SHARDS_H
#error "include evsched_shards.h"
#endif

/* Adds n counts to a sum. */
static inline void evsched_priv_shards_add(void *sum, const void *counts, size_t n)
{
	uint64_t *to = (uint64_t *)sum;
	const uint64_t *from = (const uint64_t *)counts;
	while (n-- > 0)
		*to++ += *from++;
}

/*
 * What was counted of a queue, of a lane and of the device, and where the stop found credits and events, summed over all devices: the
 * limit is nb_shards times nb_events_limit. Each as the call of one device.
 *   Returns  0
 *   Thread   one, while no other sweeps
 *   Errors   -EINVAL, -ENODEV, as that call; the sum is of no use then
 */
static inline int evsched_shards_queue_stats(struct evsched_shards *shards, uint32_t queue, struct evsched_queue_stats *sum, uint32_t *at)
{
	struct evsched_queue_stats one;
	uint32_t d;
	int r;
	memset(sum, 0, sizeof(*sum));
	for (d = 0; d < shards->nb_shards; d++) {
		if ((r = evsched_queue_stats(shards->dev[d], queue, &one)) < 0)
			return evsched_priv_refused(at, d, r);
		evsched_priv_shards_add(sum, &one, sizeof(one) / sizeof(uint64_t));
	}
	return 0;
}

static inline int evsched_shards_port_stats(struct evsched_shards *shards, uint32_t lane, struct evsched_port_stats *sum, uint32_t *at)
{
	struct evsched_port_stats one;
	uint32_t d;
	int r;
	memset(sum, 0, sizeof(*sum));
	for (d = 0; d < shards->nb_shards; d++) {
		if ((r = evsched_port_stats(shards->dev[d], lane, &one)) < 0)
			return evsched_priv_refused(at, d, r);
		evsched_priv_shards_add(sum, &one, sizeof(one) / sizeof(uint64_t));
	}
	return 0;
}

static inline int evsched_shards_dev_stats(struct evsched_shards *shards, struct evsched_dev_stats *sum, uint32_t *at)
{
	struct evsched_dev_stats one;
	uint32_t d;
	int r;
	memset(sum, 0, sizeof(*sum));
	for (d = 0; d < shards->nb_shards; d++) {
		if ((r = evsched_dev_stats(shards->dev[d], &one)) < 0)
			return evsched_priv_refused(at, d, r);
		evsched_priv_shards_add(sum, &one, sizeof(one) / sizeof(uint64_t));
	}
	return 0;
}

static inline int evsched_shards_report(struct evsched_shards *shards, struct evsched_report *sum, uint32_t *at)
{
	struct evsched_report one;
	uint32_t d;
	int r;
	memset(sum, 0, sizeof(*sum));
	for (d = 0; d < shards->nb_shards; d++) {
		if ((r = evsched_report(shards->dev[d], &one)) < 0)
			return evsched_priv_refused(at, d, r);
		evsched_priv_shards_add(sum, &one, sizeof(one) / sizeof(uint64_t));
	}
	return 0;
}

/*
 * What a port counted of its calls, summed over its ports of all devices. A dequeue of the group that finds nothing is one of each device
 * that the port serves.
 *   Returns  0
 *   Thread   the port's
 *   Errors   -ENODEV
 */
static inline int evsched_shards_port_counters(struct evsched_shards_port *port, struct evsched_port_counters *sum, uint32_t *at)
{
	struct evsched_port_counters one;
	uint32_t d;
	int r;
	memset(sum, 0, sizeof(*sum));
	for (d = 0; d < port->shards->nb_shards; d++) {
		if ((r = evsched_port_counters(port->port[d], &one)) < 0)
			return evsched_priv_refused(at, d, r);
		evsched_priv_shards_add(sum, &one, sizeof(one) / sizeof(uint64_t));
	}
	return 0;
}

/* Adds numbers of what is published to a sum, but for an age: of several the highest counts. */
static inline void evsched_priv_shards_add_now(void *sum, const void *counts, size_t words)
{
	uint64_t *to = (uint64_t *)sum;
	const uint64_t *from = (const uint64_t *)counts;
	evsched_priv_shards_add(sum, counts, words - 1);
	if (from[words - 1] > to[words - 1])
		to[words - 1] = from[words - 1];
}

/* Adds a port's. Of flow lanes it isn't known how full the port's rings are: so it is of all devices, or of none. */
static inline void evsched_priv_shards_add_port(struct evsched_port_now *sum, const struct evsched_port_now *one)
{
	int is_known = one->rx_ring != EVSCHED_UNKNOWN;
	evsched_priv_shards_add_now(sum, one, sizeof(*sum) / sizeof(uint64_t));
	if (!is_known)
		sum->rx_ring = sum->rx_free = sum->cq_ring = sum->cq_free = EVSCHED_UNKNOWN;
}

static inline void evsched_priv_shards_add_stats(struct evsched_stats *sum, const struct evsched_stats *one)
{
	uint64_t progress = sum->dev.progress | one->dev.progress, ports = sum->dev.ports | one->dev.ports;
	uint32_t p;
	evsched_priv_shards_add_now(&sum->dev, &one->dev, sizeof(sum->dev) / sizeof(uint64_t));
	sum->dev.progress = progress;
	sum->dev.ports = ports;
	evsched_priv_shards_add(sum->queue, one->queue, sizeof(sum->queue) / (sizeof(uint64_t)));
	evsched_priv_shards_add(sum->share, one->share, sizeof(sum->share) / (sizeof(uint64_t)));
	for (p = 0; p < EVSCHED_MAX_PORTS; p++)
		evsched_priv_shards_add_port(&sum->port[p], &one->port[p]);
}

/*
 * Reads what evsched_stats_read reads, of all devices while they run, and sums it: `progress` is 1 where it is of any device, `ports` has
 * the bit of each port to whose lane in any device the last sweep gave something, and an age is the highest of them. All devices and ports
 * are asked before the first is waited for: a sweep of each device answers, and of a port its next enqueue or dequeue, for all devices.
 * Each device's part is of a moment of its own. `sum` has 27 kB.
 *   Returns  how many parts (each device's, and of each device one for each port) are older than this call: 0 where all of it is new
 *   Thread   any
 */
static inline int evsched_shards_stats_read(struct evsched_shards *shards, struct evsched_stats *sum, uint64_t timeout_ns)
{
	struct evsched_priv_asked asked[EVSCHED_SHARDS_MAX];
	struct evsched_stats one;
	uint64_t start = timeout_ns ? evsched_priv_now() : 0;
	uint32_t d;
	int late = 0;
	memset(sum, 0, sizeof(*sum));
	for (d = 0; d < shards->nb_shards; d++)
		evsched_priv_ask(shards->dev[d], &asked[d]);
	__atomic_add_fetch(&shards->asked, 1, __ATOMIC_RELEASE);
	for (d = 0; d < shards->nb_shards; d++) {
		uint64_t gone = timeout_ns ? evsched_priv_now() - start : 0;
		late += evsched_priv_await(shards->dev[d], &asked[d], UINT32_MAX, gone < timeout_ns ? timeout_ns - gone : 0);
		evsched_priv_get_all(shards->dev[d], &one);
		evsched_priv_shards_add_stats(sum, &one);
	}
	return late;
}

/*
 * Writes what evsched_dump writes of each device, behind a line with its number.
 *   Returns  0
 *   Thread   one, while no other sweeps
 *   Errors   -EIO: a write failed
 */
static inline int evsched_shards_dump(struct evsched_shards *shards, FILE *to, uint32_t *at)
{
	uint32_t d;
	int r;
	for (d = 0; d < shards->nb_shards; d++) {
		fprintf(to, "device %u of %u\n", (unsigned)d, (unsigned)shards->nb_shards);
		if ((r = evsched_dump(shards->dev[d], to)) < 0)
			return evsched_priv_refused(at, d, r);
	}
	return 0;
}

#endif
