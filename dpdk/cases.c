/* SPDX-License-Identifier: BSD-3-Clause */
/*
 * Runs the cases of event_sw's own test over any event device. That file of DPDK's source is compiled into this one as it is; what is here is
 * what it does before and between its cases, for a device whose name is given.
 *
 *     cases EAL'S WORDS -- DEVICE [CASE..]     all cases that need no thread (1 to 26) where none is named; 27 and 28 want three lcores
 *
 * For each a line: "case 12 passed: invalid_qid". It ends with status 1 where one failed.
 */
#include <sw_evdev_selftest.c>

static int loopback(struct test *t)
{
	return worker_loopback(t, 0);
}

static int loopback_without_release(struct test *t)
{
	return worker_loopback(t, 1);
}

#define CASE(function) {#function, function}

static const struct {
	const char *name;
	int (*run)(struct test *t);
} cases[] = {
	CASE(test_single_directed_packet), CASE(test_directed_forward_credits), CASE(single_packet), CASE(unordered_basic), CASE(ordered_basic),
	CASE(burst_packets), CASE(load_balancing), CASE(test_priority_directed), CASE(test_priority_atomic), CASE(test_priority_ordered),
	CASE(test_priority_unordered), CASE(invalid_qid), CASE(load_balancing_history), CASE(inflight_counts), CASE(abuse_inflights),
	CASE(xstats_tests), CASE(xstats_id_reset_tests), CASE(xstats_brute_force), CASE(xstats_id_abuse_tests), CASE(qid_priorities),
	CASE(unlink_in_progress), CASE(ordered_reconfigure), CASE(port_single_lb_reconfig), CASE(port_reconfig_credits), CASE(holb),
	CASE(dev_stop_flush), CASE(loopback), CASE(loopback_without_release),
};
enum { WITHOUT_THREADS = 26 };

static const struct rte_mbuf_dynfield number_of_mbuf = {
	.name = "rte_event_pmd_selftest_seqn_dynfield",
	.size = sizeof(rte_event_pmd_selftest_seqn_t),
	.align = __alignof__(rte_event_pmd_selftest_seqn_t),
};

static void give_up(const char *why)
{
	fprintf(stderr, "cases: %s\n", why);
	exit(2);
}

static void begin(struct test *t, const char *device)
{
	memset(t, 0, sizeof(*t));
	release_ev.op = RTE_EVENT_OP_RELEASE;
	evdev = rte_event_dev_get_dev_id(device);
	if (evdev < 0 || rte_event_dev_service_id_get((uint8_t)evdev, &t->service_id) < 0)
		give_up("there is no such device, or it has no service");
	rte_service_runstate_set(t->service_id, 1);
	rte_service_set_runstate_mapped_check(t->service_id, 0);
	rte_event_pmd_selftest_seqn_dynfield_offset = rte_mbuf_dynfield_register(&number_of_mbuf);
	eventdev_func_mempool = rte_pktmbuf_pool_create("cases", 1 << 12, 32, 0, 512, (int)rte_socket_id());
	if (rte_event_pmd_selftest_seqn_dynfield_offset < 0 || eventdev_func_mempool == NULL)
		give_up("there are no buffers");
	t->mbuf_pool = eventdev_func_mempool;
}

/* A case that fails may leave the device running. */
static int run(struct test *t, unsigned int number)
{
	uint32_t is_started = 0;
	int failed = cases[number - 1].run(t) != 0;
	rte_event_dev_attr_get((uint8_t)evdev, RTE_EVENT_DEV_ATTR_STARTED, &is_started);
	if (is_started)
		cleanup(t);
	printf("case %u %s: %s\n", number, failed ? "FAILED" : "passed", cases[number - 1].name);
	fflush(stdout);
	return failed;
}

int main(int argc, char **argv)
{
	struct test *t = malloc(sizeof(*t));
	int words = rte_eal_init(argc, argv), i, failed = 0;
	if (words < 0 || t == NULL || words + 1 >= argc)
		give_up("usage: cases EAL'S WORDS -- DEVICE [CASE..]");
	begin(t, argv[words + 1]);
	for (i = words + 2; i < argc; i++) {
		int number = atoi(argv[i]);
		if (number < 1 || number > (int)RTE_DIM(cases))
			give_up("there is no such case");
		failed += run(t, (unsigned int)number);
	}
	for (i = 1; words + 2 == argc && i <= WITHOUT_THREADS; i++)
		failed += run(t, (unsigned int)i);
	free(t);
	rte_eal_cleanup();
	return failed > 0;
}
