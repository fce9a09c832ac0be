/* SPDX-License-Identifier: BSD-3-Clause */
/*
 * What no suite of DPDK's asks of the driver: what is refused, dropped or changed on its way, what a stop gives back, and what is counted.
 * All of it in one thread, which runs the service itself; one test has a reader beside it.
 *
 *     calls EAL'S WORDS
 *
 * It makes its devices itself. It ends with status 1 where something isn't so, and says what.
 */
#include "calls.h"

static const uint8_t first[] = {0}, second[] = {1};

/* Ops that DPDK doesn't have, queues that aren't there, answers with nothing held. */
static void test_refusals(void)
{
	struct rte_event ev[6];
	struct device *d = begin("event_evsched0", NULL, 1, 2, NULL);
	event(&ev[0], NEW, 0, 1);
	event(&ev[1], 3, 0, 2);
	event(&ev[2], NEW, 0, 3);
	CHECK(put(d, 0, ev, 3) == 1 && rte_errno == EINVAL);
	CHECK(put(d, 0, ev + 1, 1) == 0 && rte_errno == EINVAL);
	event(&ev[1], NEW, 7, 2);
	CHECK(put(d, 0, ev, 3) == 1 && rte_errno == EINVAL);
	CHECK(by_name(d, "port_0_rx_ring_used") == 2 && by_name(d, "port_0_drop") == 0);
	sweep(d);
	CHECK(by_name(d, "dev_rx") == 2 && by_name(d, "port_0_rx") == 2);
	CHECK(get(d, 1, ev, 6) == 2 && ev[0].u64 == 1 && ev[1].u64 == 1);
	CHECK(ev[0].op == FORWARD && ev[0].sched_type == RTE_SCHED_TYPE_ATOMIC);
	event(&ev[0], RELEASE, 200, 0);
	event(&ev[1], FORWARD, 0, 5);
	event(&ev[2], RELEASE, 0, 0);
	event(&ev[3], RELEASE, 0, 0);
	CHECK(put(d, 1, ev, 4) == 4);                  /* the last one answers nothing, which means nothing */
	sweep(d);
	CHECK(by_name(d, "dev_rx") == 3 && by_name(d, "port_1_rx") == 1 && by_name(d, "qid_0_inflight") == 1);
	end(d);
	CHECK(d->flushed == 1 && d->sum == 5);
}

/* An op that DPDK doesn't have, by a port that holds an event, anywhere in a burst of any length. */
static void test_ops(void)
{
	struct rte_event ev[80];
	struct device *d = begin("event_evsched0", NULL, 1, 2, &(struct conf){.keeps = true});
	uint16_t i, n, at;
	event(&ev[0], NEW, 0, 1);
	CHECK(put(d, 0, ev, 1) == 1);
	sweep(d);
	CHECK(get(d, 1, ev, 1) == 1);
	for (i = 0; i < 80; i++)
		event(&ev[i], NEW, 0, i);
	for (n = 1; n <= 17; n += 4)
		for (at = 0; at < n; at += 3) {
			ev[at].op = 3;
			CHECK(put(d, 1, ev, n) == at && rte_errno == EINVAL);
			CHECK(by_name(d, "port_1_rx_ring_used") == at);
			ev[at].op = NEW;
			sweep(d);
			while (get(d, 1, ev + 64, 16) > 0)
				continue;
		}
	ev[40].op = 3;
	CHECK(put(d, 1, ev, 80) == 40 && rte_errno == EINVAL && put(d, 1, ev, 0) == 0);
	CHECK(by_name(d, "port_1_rx_ring_used") == 40);
	end(d);
}

/* A port that isn't linked draws a quantum where it has no credit; one that is counts those of RELEASEs too. */
static void test_credits(void)
{
	static const uint16_t bursts[] = {10, 6, 16, 1, 15, 5, 30, 64, 70};
	struct rte_event ev[70];
	struct device *d = begin("event_evsched0", "credit_quanta=16", 1, 2, &(struct conf){.limit = 1024});
	uint64_t sent = 0;
	size_t i;
	for (i = 0; i < RTE_DIM(ev); i++)
		event(&ev[i], NEW, 0, i);
	for (i = 0; i < RTE_DIM(bursts); i++) {
		sent += put(d, 0, ev, bursts[i]);
		CHECK(by_name(d, "port_0_credits") == (16 - sent % 16) % 16);
		while (by_name(d, "port_0_rx_ring_used") > 0)
			sweep(d);
		while (get(d, 1, ev, 64) > 0)
			sweep(d);
	}
	CHECK(by_name(d, "port_0_rx") == sent && by_name(d, "port_1_cq_ring_used") == 0 && by_name(d, "port_1_tx") == sent);
	CHECK(by_name(d, "port_1_credits") >= 16 && by_name(d, "port_1_credits") < 32);
	end(d);
}

static void test_unheld(void)
{
	struct rte_event ev[8];
	struct device *d = begin("event_evsched0", "credit_quanta=1", 1, 2, &(struct conf){.limit = 4});
	int i;
	for (i = 0; i < 8; i++)
		event(&ev[i], FORWARD, 0, (uint64_t)i + 1);
	CHECK(put(d, 0, ev, 8) == 4 && rte_errno == ENOSPC); /* each is a NEW, and there are four credits */
	sweep(d);
	CHECK(by_name(d, "port_0_rx") == 4 && by_name(d, "port_0_credits") == 0 && get(d, 1, ev, 8) == 4);
	end(d);
	CHECK(d->flushed == 0);
	d = begin("event_evsched1", "unheld=refuse", 1, 2, NULL);
	event(&ev[0], FORWARD, 0, 1);
	CHECK(put(d, 0, ev, 1) == 0 && rte_errno == EINVAL);
	event(&ev[0], FORWARD, 9, 1);
	CHECK(put(d, 0, ev, 1) == 0 && rte_errno == EINVAL);
	end(d);
}

/* With bad_queue=drop a NEW to no queue is swallowed, and a FORWARD's event has ended. */
static void test_drop(void)
{
	struct rte_event ev[4];
	struct device *d = begin("event_evsched0", "bad_queue=drop,credit_quanta=1", 1, 2, &(struct conf){.limit = 2, .keeps = true});
	event(&ev[0], NEW, 0, 1);
	event(&ev[1], NEW, 99, 2);
	event(&ev[2], NEW, 0, 3);
	CHECK(put(d, 0, ev, 3) == 3 && by_name(d, "port_0_drop") == 1);
	CHECK(put(d, 0, ev, 1) == 0 && rte_errno == ENOSPC);
	sweep(d);
	CHECK(get(d, 1, ev, 4) == 2);
	event(&ev[0], FORWARD, 99, 1);
	CHECK(put(d, 1, ev, 2) == 2 && by_name(d, "port_1_drop") == 1);
	sweep(d);
	CHECK(by_name(d, "port_1_inflight") == 1 && by_name(d, "dev_rx") == 3); /* the other one was forwarded, and given again */
	event(&ev[0], NEW, 0, 4);
	CHECK(put(d, 1, ev, 1) == 1);                  /* at the credit of the event that has ended */
	event(&ev[0], FORWARD, 99, 1);
	CHECK(put(d, 1, ev, 1) == 1 && by_name(d, "port_1_drop") == 2);
	end(d);
	CHECK(d->flushed == 2 && d->sum == 3 + 4);
}

/* Links: a second one of a single-link queue, those of a device that runs, and what is missing at a start. */
static void test_links(void)
{
	struct conf conf = {.single = 1u << 1, .unlinked = true};
	struct device *d = begin("event_evsched0", NULL, 2, 3, &conf);
	CHECK(rte_event_dev_start(d->id) == -ENOLINK);
	CHECK(rte_event_port_link(d->id, 1, first, NULL, 1) == 1 && rte_event_dev_start(d->id) == -ENOLINK);
	CHECK(rte_event_port_link(d->id, 1, second, NULL, 1) == 1);
	CHECK(rte_event_port_link(d->id, 1, second, NULL, 1) == 1);
	CHECK(rte_event_port_link(d->id, 2, NULL, NULL, 0) == 1 && rte_errno == EDQUOT);
	CHECK(rte_event_port_unlink(d->id, 2, NULL, 0) == 1);
	CHECK(rte_event_dev_start(d->id) == 0);
	CHECK(rte_event_port_link(d->id, 1, first, NULL, 1) == 1);
	CHECK(rte_event_port_link(d->id, 2, first, NULL, 1) == 0 && rte_errno == EBUSY);
	CHECK(rte_event_port_unlink(d->id, 1, NULL, 0) == 0 && rte_errno == EBUSY);
	CHECK(links(d, 1) == 3 && links(d, 2) == 0);
	end(d);
}

static void test_relink(void)
{
	struct rte_event ev[2];
	uint8_t queues[] = {0};
	struct device *d = begin("event_evsched0", "relink=next", 1, 3, NULL);
	CHECK(rte_event_port_unlink(d->id, 1, queues, 1) == 1 && rte_event_port_unlink(d->id, 2, queues, 1) == 1);
	CHECK(rte_event_port_link(d->id, 0, queues, NULL, 1) == 1);
	event(&ev[0], NEW, 0, 1);
	CHECK(put(d, 0, ev, 1) == 1);
	sweep(d);
	CHECK(get(d, 0, ev, 1) == 0 && get(d, 1, ev, 1) == 1);
	rte_event_dev_stop(d->id);
	CHECK(rte_event_dev_start(d->id) == 0);
	event(&ev[0], NEW, 0, 2);
	CHECK(put(d, 1, ev, 1) == 1);
	sweep(d);
	CHECK(get(d, 1, ev, 1) == 0 && get(d, 0, ev, 1) == 1 && ev[0].u64 == 2);
	end(d);
}

/* What isn't there is refused when it is asked for. */
static void test_setup(void)
{
	struct device *d = begin("event_evsched0", "max_events=100", 1, 2, &(struct conf){.limit = -1, .unlinked = true});
	struct rte_event_dev_config config = {.nb_events_limit = 50, .nb_event_queues = 1, .nb_event_ports = 3, .nb_event_queue_flows = 8,
		.nb_event_port_dequeue_depth = 8, .nb_event_port_enqueue_depth = 8, .event_dev_cfg = RTE_EVENT_DEV_CFG_PER_DEQUEUE_TIMEOUT};
	struct rte_event_queue_conf queue = {.event_queue_cfg = RTE_EVENT_QUEUE_CFG_ALL_TYPES, .nb_atomic_flows = 1,
		.nb_atomic_order_sequences = 1};
	struct rte_event_port_conf port;
	struct rte_event_dev_info info;
	CHECK(rte_event_dev_info_get(d->id, &info) == 0 && info.max_num_events == 100 && info.max_event_queue_flows == 1 << 20);
	CHECK(rte_event_port_link(d->id, 1, first, NULL, 1) == 1 && rte_event_dev_start(d->id) == 0);
	CHECK(says(d, "nb_events_limit 100, credit_quanta 25"));
	rte_event_dev_stop(d->id);
	CHECK(rte_event_queue_setup(d->id, 0, &queue) == -ENOTSUP);
	CHECK(rte_event_dev_configure(d->id, &config) == -ENOTSUP);
	config.event_dev_cfg = 0;
	config.nb_events_limit = 0;
	CHECK(rte_event_dev_configure(d->id, &config) == -EINVAL);
	config.nb_events_limit = 50;
	CHECK(rte_event_dev_configure(d->id, &config) == 0);
	CHECK(rte_event_port_default_conf_get(d->id, 0, &port) == 0 && port.new_event_threshold == 50 && port.dequeue_depth == 8);
	CHECK(rte_event_queue_setup(d->id, 0, NULL) == 0 && rte_event_dev_start(d->id) == -ESTALE);
	CHECK(rte_event_dev_stop_flush_callback_register(d->id, NULL, NULL) == 0);
	forget(d);
}

/* Slots are shared out among the queues that ask for them. */
static void test_slots(void)
{
	struct device *d = begin("event_evsched0", NULL, 32, 2, &(struct conf){.flows = 1024});
	CHECK(says(d, "queue 31: atomic, priority 128, nb_atomic_flows 4\n"));
	end(d);
	d = begin("event_evsched0", NULL, 3, 2, &(struct conf){.flows = 1024, .first_flows = 2});
	CHECK(says(d, "queue 0: atomic, priority 128, nb_atomic_flows 2\n"));
	CHECK(says(d, "queue 1: atomic, priority 128, nb_atomic_flows 63\n"));
	end(d);
	d = begin("event_evsched0", NULL, 2, 2, &(struct conf){.flows = 1024});
	CHECK(says(d, "queue 1: atomic, priority 128, nb_atomic_flows 64\n"));
	end(d);
}

/* A port whose ring is full is emptied of what it holds, though nothing sweeps but the call itself. */
static void test_quiesce(void)
{
	struct rte_event ev[64];
	struct device *d = begin("event_evsched0", NULL, 1, 2, &(struct conf){.keeps = true});
	int i;
	for (i = 0; i < 64; i++)
		event(&ev[i], NEW, 0, 1);
	CHECK(put(d, 0, ev, 64) == 64);
	sweep(d);
	CHECK(put(d, 1, ev, 64) == 64 && put(d, 1, ev, 1) == 0 && rte_errno == ENOSPC);
	CHECK(get(d, 1, ev, 20) == 20);
	rte_event_port_quiesce(d->id, 1, count_flush, d);
	CHECK(d->flushed == 44 && d->sum == 44);
	CHECK(by_name(d, "port_1_rx") == 64 && by_name(d, "port_1_rx_ring_used") == 64 && by_name(d, "port_1_cq_ring_used") == 0);
	rte_event_port_quiesce(d->id, 0, count_flush, d);
	rte_event_dev_stop(d->id);
	CHECK(d->flushed == 44 + 64);
	rte_event_port_quiesce(d->id, 1, count_flush, d); /* nothing is there any more */
	forget(d);
	CHECK(d->flushed == 44 + 64);
}

int main(int argc, char **argv)
{
	if (rte_eal_init(argc, argv) < 0)
		return 2;
	test_refusals();
	test_ops();
	test_credits();
	test_unheld();
	test_drop();
	test_links();
	test_relink();
	test_setup();
	test_slots();
	test_quiesce();
	test_counts();
	test_ids();
	test_stops();
	test_memory();
	test_two();
	test_reader();
	rte_eal_cleanup();
	printf("calls: %d checks, %d failed\n", checks, failures);
	return failures > 0;
}
