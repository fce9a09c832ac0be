/* SPDX-License-Identifier: BSD-3-Clause */
/* The names of statistics: all of them, in their order, each shows the number that it stands for, and is one that a reset has begin at 0 or
 * not. Ends with status 1 where one differs. */
#include <evsched.h>
#include <stdio.h>
#include <string.h>

enum { PORTS = 3, QUEUES = 2 };

struct row {
	const char *name;
	size_t at;
	int is_count;
};

#define ROW(of, name, field, is_count) {name, offsetof(struct evsched_##of, field), is_count}

static const struct row of_device[] = {
	ROW(dev_now, "rx", rx, 1), ROW(dev_now, "tx", tx, 1), ROW(dev_now, "sched_calls", sweeps, 1), ROW(dev_now, "sched_no_iq_enq", no_take, 1),
	ROW(dev_now, "sched_no_cq_enq", no_give, 1), ROW(dev_now, "sched_last_iter_bitmask", ports, 0),
	ROW(dev_now, "sched_progress_last_iter", progress, 0), ROW(dev_now, "rx_new", rx_new, 1), ROW(dev_now, "inside", inside, 0),
	ROW(dev_now, "sched_taken", taken, 1), ROW(dev_now, "sched_given", given, 1), ROW(dev_now, "released", lanes.released, 1),
	ROW(dev_now, "forwarded", lanes.forwarded, 1), ROW(dev_now, "added", lanes.added, 1), ROW(dev_now, "turned", lanes.turned, 1),
	ROW(dev_now, "bounced", lanes.bounced, 1), ROW(dev_now, "credits_limit", limit, 0), ROW(dev_now, "credits_free", free, 0),
	ROW(dev_now, "credits_own", own, 0), ROW(dev_now, "credits_pockets", pockets, 0), ROW(dev_now, "rx_ring_used", rx_ring, 0),
	ROW(dev_now, "cq_ring_used", cq_ring, 0), ROW(dev_now, "age_ns", age, 0)};

static const struct row of_port[] = {
	ROW(port_now, "rx", rx, 1), ROW(port_now, "tx", lane.tx, 1), ROW(port_now, "inflight", unanswered, 0), ROW(port_now, "credits", pocket, 0),
	ROW(port_now, "rx_new", lane.rx_new, 1), ROW(port_now, "released", lane.released, 1), ROW(port_now, "forwarded", lane.forwarded, 1),
	ROW(port_now, "added", lane.added, 1), ROW(port_now, "turned", lane.turned, 1), ROW(port_now, "bounced", lane.bounced, 1),
	ROW(port_now, "tx_last_iter", given, 0), ROW(port_now, "held", held, 0), ROW(port_now, "enqueued", counters.enqueued, 1),
	ROW(port_now, "dequeued", counters.dequeued, 1), ROW(port_now, "implicitly_released", counters.released, 1),
	ROW(port_now, "stopped", counters.stopped, 1), ROW(port_now, "bad_queue", counters.bad_queue, 1),
	ROW(port_now, "nothing_held", counters.nothing_held, 1), ROW(port_now, "backpressure", counters.backpressure, 1),
	ROW(port_now, "raced", counters.raced, 1), ROW(port_now, "full", counters.full, 1), ROW(port_now, "too_many", counters.too_many, 1),
	ROW(port_now, "behind", counters.behind, 1), ROW(port_now, "age_ns", age, 0), ROW(port_now, "rx_ring_used", rx_ring, 0),
	ROW(port_now, "rx_ring_free", rx_free, 0), ROW(port_now, "cq_ring_used", cq_ring, 0), ROW(port_now, "cq_ring_free", cq_free, 0)};

static const struct row of_queue[] = {
	ROW(queue_now, "rx", rx, 1), ROW(queue_now, "tx", tx, 1), ROW(queue_now, "inflight", unanswered, 0),
	ROW(queue_now, "iq_0_used", level[0], 0), ROW(queue_now, "iq_1_used", level[1], 0), ROW(queue_now, "iq_2_used", level[2], 0),
	ROW(queue_now, "iq_3_used", level[3], 0),
	ROW(queue_now, "rx_new", rx_new, 1), ROW(queue_now, "rx_forwarded", rx_forwarded, 1), ROW(queue_now, "waiting", waiting, 0),
	ROW(queue_now, "kept", kept, 0)};

static const struct row of_share[] = {ROW(share, "pinned_flows", pinned, 0), ROW(share, "packets", tx, 1)};

static int failures;
static uint64_t next_id;
static struct evsched_stats stats;

/* The next id has this name, shows this number and is a count or none. */
static void check(const struct evsched *dev, const char *before, const struct row *row, const void *of)
{
	struct evsched_priv_xid x = {EVSCHED_XSTATS_DEVICE, 0, 0};
	struct evsched_xstats_name name;
	char expected[80];
	uint64_t value;
	int is_there = evsched_priv_xstats_find(dev, next_id++, &x);
	snprintf(expected, sizeof(expected), "%s_%s", before, row->name);
	evsched_priv_xstats_name(&x, &name);
	memcpy(&value, (const char *)of + row->at, sizeof(value));
	if (is_there && strcmp(name.name, expected) == 0 && evsched_priv_xstats_value(&stats, &x) == value
		&& evsched_priv_xstats_entry(&x)->is_count == row->is_count)
		return;
	printf("names.c: %s, where %s is expected\n", is_there ? name.name : "nothing", expected);
	failures++;
}

static void check_table(const struct evsched *dev, const char *before, const struct row *table, size_t n, const void *of)
{
	for (size_t i = 0; i < n; i++)
		check(dev, before, &table[i], of);
}

static void check_all(uint32_t flags, size_t rings)
{
	struct evsched_dev_config config = evsched_dev_default_config(QUEUES, PORTS);
	struct evsched_priv_xid x;
	struct evsched *dev;
	char before[40];
	uint32_t i, p;
	config.event_dev_cfg = flags;
	config.port[1].links = 3;
	if (evsched_create(&config, &dev) < 0)
		exit(1);
	next_id = 0;
	check_table(dev, "dev", of_device, sizeof(of_device) / sizeof(of_device[0]), &stats.dev);
	for (i = 0; i < PORTS; i++) {
		snprintf(before, sizeof(before), "port_%u", (unsigned)i);
		check_table(dev, before, of_port, sizeof(of_port) / sizeof(of_port[0]) - rings, &stats.port[i]);
	}
	for (i = 0; i < QUEUES; i++) {
		snprintf(before, sizeof(before), "qid_%u", (unsigned)i);
		check_table(dev, before, of_queue, sizeof(of_queue) / sizeof(of_queue[0]), &stats.queue[i]);
		for (p = 0; p < PORTS; p++) {
			snprintf(before, sizeof(before), "qid_%u_port_%u", (unsigned)i, (unsigned)p);
			check_table(dev, before, of_share, sizeof(of_share) / sizeof(of_share[0]), &stats.share[i][p]);
		}
	}
	failures += evsched_priv_xstats_find(dev, next_id, &x) || evsched_priv_xstats_find(dev, UINT64_MAX, &x);
	evsched_free(dev);
}

int main(void)
{
	for (size_t i = 0; i < sizeof(stats) / sizeof(uint64_t); i++)
		((uint64_t *)&stats)[i] = 1000 + i; /* no two numbers are the same */
	check_all(0, 0);
	check_all(EVSCHED_DEV_CFG_FLOW_LANES, 4);
	printf("names: %llu statistics, %d failures\n", (unsigned long long)next_id, failures);
	return failures > 0;
}
