/* SPDX-License-Identifier: BSD-3-Clause */
/* What the driver counts, by name and by id, and what a stop gives back. */
#include "calls.h"

#include <sys/resource.h>
#include <unistd.h>

struct expected {
	const char *name;
	uint64_t value;
};

static void expect(struct device *d, const char *when, size_t n, const struct expected *of)
{
	size_t i;
	for (i = 0; i < n; i++) {
		uint64_t value = by_name(d, of[i].name);
		checks++;
		if (value != of[i].value) {
			failures++;
			printf("%s: %s is %llu, not %llu\n", when, of[i].name, (unsigned long long)value, (unsigned long long)of[i].value);
		}
	}
}

#define EXPECT(d, when, ...) \
	do { \
		const struct expected expected[] = {__VA_ARGS__}; \
		expect((d), (when), RTE_DIM(expected), expected); \
	} while (0)

/* Ten events of one flow at three levels, of which a port takes four. */
static void bring(struct device *d)
{
	static const uint8_t priorities[] = {0, 0, 128, 128, 128, 255, 255, 255, 255, 64};
	struct rte_event ev[10];
	uint16_t i;
	for (i = 0; i < 10; i++) {
		event(&ev[i], NEW, 0, 1);
		ev[i].priority = priorities[i];
	}
	CHECK(put(d, 0, ev, 10) == 10);
}

void test_counts(void)
{
	struct rte_event ev[64];
	struct device *d = begin("event_evsched0", "credit_quanta=16", 2, 3, &(struct conf){.limit = 1024, .keeps = true});
	EXPECT(d, "at the start", {"dev_sched_calls", 0}, {"dev_sched_no_iq_enq", 0}, {"dev_sched_no_cq_enq", 0}, {"port_0_credits", 0},
		{"port_1_cq_ring_free", 64}, {"port_0_rx_ring_free", 64});
	sweep(d);
	EXPECT(d, "after an empty sweep", {"dev_sched_calls", 1}, {"dev_sched_no_iq_enq", 1}, {"dev_sched_no_cq_enq", 1},
		{"dev_sched_progress_last_iter", 0}, {"dev_sched_last_iter_bitmask", 0});
	bring(d);
	EXPECT(d, "enqueued", {"port_0_rx_ring_used", 10}, {"port_0_rx_ring_free", 54}, {"port_0_credits", 6}, {"dev_rx", 0});
	sweep(d);
	EXPECT(d, "given", {"dev_rx", 10}, {"dev_tx", 10}, {"dev_sched_calls", 2}, {"dev_sched_no_iq_enq", 1}, {"dev_sched_no_cq_enq", 1},
		{"dev_sched_last_iter_bitmask", 2}, {"dev_sched_progress_last_iter", 1}, {"port_0_rx", 10}, {"port_1_tx", 10},
		{"port_0_rx_ring_used", 0}, {"port_1_cq_ring_used", 10}, {"port_1_cq_ring_free", 54}, {"port_1_inflight", 10}, {"qid_0_rx", 10},
		{"qid_0_tx", 10}, {"qid_0_inflight", 10}, {"qid_0_port_1_pinned_flows", 1}, {"qid_0_port_1_packets", 10},
		{"qid_0_port_2_packets", 0}, {"qid_1_rx", 0});
	CHECK(get(d, 1, ev, 4) == 4);
	ev[0].queue_id = 1;
	ev[1].op = RELEASE;
	CHECK(put(d, 1, ev, 2) == 2 && get(d, 2, ev, 4) == 0);
	EXPECT(d, "answered", {"port_1_cq_ring_used", 6}, {"port_1_rx_ring_used", 2}, {"port_1_credits", 1}, {"port_1_dequeue_calls", 1},
		{"port_1_dequeues_returning_1-4", 1}, {"port_1_dequeues_returning_0", 0}, {"port_2_dequeues_returning_0", 1});
	sweep(d);
	EXPECT(d, "taken", {"port_1_rx", 1}, {"dev_rx", 11}, {"port_1_inflight", 8}, {"qid_1_rx", 1}, {"qid_1_inflight", 1},
		{"qid_1_port_2_packets", 1}, {"dev_sched_last_iter_bitmask", 4}, {"qid_0_inflight", 8});
	end(d);
	CHECK(d->flushed == 7);
}

/* What waits, by level: more than the port may hold. */
static void test_levels(void)
{
	struct rte_event ev[64];
	struct device *d = begin("event_evsched0", NULL, 1, 2, &(struct conf){.type = RTE_SCHED_TYPE_PARALLEL + 1});
	uint16_t i;
	for (i = 0; i < 64; i++)
		event(&ev[i], NEW, 0, 1);
	CHECK(put(d, 0, ev, 64) == 64);
	sweep(d);
	bring(d);
	sweep(d);
	EXPECT(d, "waiting", {"qid_0_iq_0_used", 2}, {"qid_0_iq_1_used", 1}, {"qid_0_iq_2_used", 3}, {"qid_0_iq_3_used", 4},
		{"qid_0_inflight", 64}, {"dev_sched_last_iter_bitmask", 0}, {"dev_sched_no_cq_enq", 1},
		{"dev_sched_no_iq_enq", 0}, {"dev_sched_progress_last_iter", 1});
	CHECK(get(d, 1, ev, 64) == 64 && get(d, 1, ev, 64) == 0);
	EXPECT(d, "released", {"port_1_rx_ring_used", 64}, {"port_1_dequeues_returning_61-64", 1});
	end(d);
	CHECK(d->flushed == 10);
}

/* Ids and names agree; a reset sets counts to 0, and nothing else. */
static void test_reset(struct device *d, enum rte_event_dev_xstats_mode mode, uint8_t number, const char *const stay[])
{
	struct rte_event_dev_xstats_name names[100];
	uint64_t ids[100], before[100], after[100];
	int i, j, n = rte_event_dev_xstats_names_get(d->id, mode, number, names, ids, RTE_DIM(names));
	CHECK(n > 0 && rte_event_dev_xstats_get(d->id, mode, number, ids, before, (unsigned int)n) == n);
	CHECK(rte_event_dev_xstats_reset(d->id, mode, number, ids, (uint32_t)n) == 0);
	CHECK(rte_event_dev_xstats_get(d->id, mode, number, ids, after, (unsigned int)n) == n);
	for (i = 0; i < n; i++) {
		uint64_t id = 0, value = rte_event_dev_xstats_by_name_get(d->id, names[i].name, &id);
		bool stays = false;
		for (j = 0; stay[j] != NULL; j++)
			stays |= strstr(names[i].name, stay[j]) != NULL;
		if (id != ids[i] || value != after[i] || after[i] != (stays ? before[i] : 0))
			printf("%s: id %llu, %llu before its reset, %llu after\n", names[i].name, (unsigned long long)id,
				(unsigned long long)before[i], (unsigned long long)after[i]);
		CHECK(id == ids[i] && value == after[i] && after[i] == (stays ? before[i] : 0));
	}
}

void test_ids(void)
{
	static const char *const none[] = {NULL}, *const of_port[] = {"inflight", "credits", "ring", NULL},
		*const of_queue[] = {"inflight", "used", "pinned", NULL};
	struct rte_event ev[8];
	struct rte_event_dev_xstats_name names[100];
	struct device *d = begin("event_evsched0", NULL, 2, 3, NULL);
	uint64_t ids[100], id = 0;
	bring(d);
	sweep(d);
	CHECK(get(d, 1, ev, 4) == 4 && get(d, 1, ev, 1) == 1);
	EXPECT(d, "released in part", {"port_1_rx_ring_used", 4}, {"port_1_cq_ring_used", 5}, {"port_1_dequeues_returning_1-4", 2});
	sweep(d);
	CHECK(rte_event_dev_xstats_by_name_get(d->id, "no_such", &id) == UINT64_MAX && id == UINT32_MAX);
	CHECK(rte_event_dev_xstats_names_get(d->id, RTE_EVENT_DEV_XSTATS_PORT, 3, names, ids, 100) == 0);
	CHECK(rte_event_dev_xstats_get(d->id, RTE_EVENT_DEV_XSTATS_QUEUE, 2, ids, ids, 100) == -EINVAL);
	id = 8 + 29;
	CHECK(rte_event_dev_xstats_reset(d->id, RTE_EVENT_DEV_XSTATS_PORT, 0, &id, 1) == -EINVAL); /* it is of port 1 */
	CHECK(rte_event_dev_xstats_reset(d->id, RTE_EVENT_DEV_XSTATS_PORT, 3, NULL, 0) == -EINVAL);
	test_reset(d, RTE_EVENT_DEV_XSTATS_DEVICE, 0, none);
	test_reset(d, RTE_EVENT_DEV_XSTATS_PORT, 0, of_port);
	test_reset(d, RTE_EVENT_DEV_XSTATS_PORT, 1, of_port);
	test_reset(d, RTE_EVENT_DEV_XSTATS_QUEUE, 0, of_queue);
	rte_event_dev_stop(d->id);
	CHECK(by_name(d, "qid_0_inflight") == 0 && says(d, "stopped"));
	CHECK(rte_event_dev_start(d->id) == 0);
	EXPECT(d, "after a restart", {"dev_rx", 0}, {"dev_sched_calls", 0}, {"port_0_rx", 0}, {"port_1_dequeue_calls", 0});
	end(d);
	test_levels();
}

/* What is inside is given back once, wherever it is, and what a port holds is the program's; what was set up stays for the next start. */
void test_stops(void)
{
	struct rte_event ev[64];
	struct device *d = begin("event_evsched0", NULL, 2, 2, &(struct conf){.type = RTE_SCHED_TYPE_ORDERED + 1, .keeps = true});
	uint16_t i, turn;
	for (turn = 1; turn <= 3; turn++) {
		d->flushed = d->sum = 0;
		for (i = 0; i < 64; i++)
			event(&ev[i], NEW, 0, i);
		CHECK(put(d, 0, ev, 64) == 64);                   /* delivered, and waiting */
		sweep(d);
		CHECK(put(d, 0, ev, 64) == 64);
		sweep(d);
		CHECK(put(d, 0, ev, 64) == 64);                   /* in its ring */
		CHECK(get(d, 1, ev, 8) == 8);
		ev[0].op = RELEASE;
		ev[1].queue_id = 1;
		CHECK(put(d, 1, ev, 2) == 2);                     /* 0 is gone, and 1 is in the other ring; 2 to 7 are held */
		rte_event_dev_stop(d->id);
		CHECK(d->flushed == 3 * 64 - 7 && d->sum == 3 * 2016 - (2 + 3 + 4 + 5 + 6 + 7));
		CHECK(rte_event_dev_start(d->id) == 0);
	}
	end(d);
}

/* The process may have no more memory than it has from here on, or as much as before. */
static void limit_memory(bool is_limited)
{
	struct rlimit limit;
	unsigned long pages = 0;
	FILE *from = fopen("/proc/self/statm", "r");
	CHECK(from != NULL && fscanf(from, "%lu", &pages) == 1 && getrlimit(RLIMIT_AS, &limit) == 0);
	fclose(from);
	limit.rlim_cur = is_limited ? pages * (unsigned long)sysconf(_SC_PAGESIZE) : limit.rlim_max;
	CHECK(setrlimit(RLIMIT_AS, &limit) == 0);
}

/* A stop of a full device gives each event back where there is no memory for its lists. (Sanitizers have memory of their own.) */
void test_memory(void)
{
#if !defined(__SANITIZE_ADDRESS__) && !defined(__SANITIZE_THREAD__)
	struct rte_event ev[64];
	struct device *d = begin("event_evsched0", NULL, 1, 2, &(struct conf){.limit = 16384});
	uint16_t i;
	for (i = 0; i < 64; i++)
		event(&ev[i], NEW, 0, 1);
	for (i = 0; i < 16384 / 64; i++) {
		CHECK(put(d, 0, ev, 64) == 64);
		sweep(d);
	}
	CHECK(get(d, 1, ev, 8) == 8); /* these are the program's */
	limit_memory(true);
	rte_event_dev_stop(d->id);
	limit_memory(false);
	CHECK(d->flushed == 16384 - 8);
	forget(d);
#endif
}

/* Two devices, one of them stopped while the other has events. */
void test_two(void)
{
	struct device *one = begin("event_evsched0", NULL, 1, 2, NULL), *other = begin("event_evsched1", "sched_quanta=1", 1, 2, NULL);
	struct rte_event ev[64];
	bring(one);
	bring(other);
	sweep(other);
	sweep(other);
	CHECK(by_name(other, "dev_rx") == 2 && by_name(one, "dev_rx") == 0);
	rte_event_dev_stop(one->id);
	CHECK(one->flushed == 10 && other->flushed == 0);
	CHECK(get(other, 1, ev, 64) == 2);
	end(other);
	CHECK(other->flushed == 8);
	forget(one); /* the first one last: DPDK looks names up in as many places as there are devices */
}
