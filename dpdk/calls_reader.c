/* SPDX-License-Identifier: BSD-3-Clause */
/* xstats and dumps, read by a thread of its own while events pass. */
#include "calls.h"

#include <pthread.h>

enum { ROUNDS = 20000, BURST = 8 };

struct reader {
	struct device *d;
	int is_over;    /* by atomic steps */
	uint64_t reads; /* how often it read, */
	uint64_t wrong; /* and found what can't be so */
};

/* What a queue accepted it gave, or it waits: all of one moment. And counts don't fall. */
static void read_queue(struct reader *reader, uint64_t before[2])
{
	uint64_t ids[8], values[8];
	struct rte_event_dev_xstats_name names[32];
	uint64_t all[32];
	int i, n = rte_event_dev_xstats_names_get(reader->d->id, RTE_EVENT_DEV_XSTATS_QUEUE, 0, names, all, RTE_DIM(names));
	for (i = 0; i < 8; i++)
		ids[i] = all[i];
	if (n < 8 || rte_event_dev_xstats_get(reader->d->id, RTE_EVENT_DEV_XSTATS_QUEUE, 0, ids, values, 8) != 8)
		reader->wrong++;
	else if (values[0] != values[1] + values[4] + values[5] + values[6] + values[7] || values[0] < before[0] || values[1] < before[1])
		reader->wrong++;
	before[0] = values[0];
	before[1] = values[1];
}

static void *read_all(void *at)
{
	struct reader *reader = at;
	uint64_t before[2] = {0, 0};
	FILE *nowhere = fopen("/dev/null", "w");
	while (!__atomic_load_n(&reader->is_over, __ATOMIC_ACQUIRE)) {
		read_queue(reader, before);
		if (by_name(reader->d, "port_0_rx_ring_used") > 64 || by_name(reader->d, "port_1_cq_ring_used") > 64)
			reader->wrong++;
		if (reader->reads++ % 64 == 0)
			rte_event_dev_dump(reader->d->id, nowhere);
	}
	fclose(nowhere);
	return NULL;
}

/* A burst comes, is given in part, and answered. */
static void round_of(struct device *d)
{
	struct rte_event ev[BURST];
	uint16_t i, n, done = 0;
	for (i = 0; i < BURST; i++) {
		event(&ev[i], NEW, 0, i);
		ev[i].flow_id = i;
		ev[i].priority = (uint8_t)(i * 32);
	}
	put(d, 0, ev, BURST);
	sweep(d);
	n = get(d, 1, ev, BURST - 1);
	for (i = 0; i < n; i++)
		ev[i].op = RELEASE;
	while ((done = (uint16_t)(done + put(d, 1, ev + done, (uint16_t)(n - done)))) < n)
		sweep(d); /* which has nothing to do while the reader reads */
}

void test_reader(void)
{
	struct device *d = begin("event_evsched0", NULL, 1, 2, &(struct conf){.limit = 256, .keeps = true});
	struct reader reader = {.d = d};
	pthread_t thread;
	int i;
	if (pthread_create(&thread, NULL, read_all, &reader) != 0) {
		CHECK(false);
		return;
	}
	for (i = 0; i < ROUNDS; i++)
		round_of(d);
	__atomic_store_n(&reader.is_over, 1, __ATOMIC_RELEASE);
	pthread_join(thread, NULL);
	CHECK(reader.reads > 0 && reader.wrong == 0);
	end(d);
}
