/* SPDX-License-Identifier: BSD-3-Clause */
/*
 * Records what ports see of a device, for `evsched judge`: by threads a producer, workers that forward each event from queue to queue, and
 * a port that takes the last queue's, whose dequeues release what it holds. The main thread schedules, where the device wants that.
 *
 *     history EAL'S WORDS -- DEVICE STAGES WORKERS EVENTS DOCUMENT HISTORY
 *
 * STAGES has a letter for each queue, a (atomic), o (ordered) or p (parallel), two at least. With EVENTS 0 there are no threads, and a port
 * enqueues a RELEASE with nothing held. DOCUMENT is written with the device's configuration, HISTORY with what was seen. The status is 3
 * where nothing came to its end for a while. Compiled with LIBRARY it is without DPDK, over evsched.h, and has neither EAL's words nor DEVICE.
 */
#ifdef LIBRARY
#include <evsched.h>
#else
#include <rte_eal.h>
#include <rte_errno.h>
#include <rte_eventdev.h>
#include <rte_service.h>
#endif
#include "../examples/c/history.h"
#include <pthread.h>
#include <sched.h>
#include <stdatomic.h>
#include <unistd.h>

enum { PRODUCER, WORKER, MOST_WORKERS = 8, MOST_STAGES = 8, FLOWS = 32, ORDER = 256, LIMIT = 4096, DEPTH = 64, BURST = 32 };
enum { ORDERED, ATOMIC, PARALLEL }; /* as of a queue in both headers */
enum { PATIENCE = 20 };             /* seconds */

static struct {
	uint8_t queues, workers, last, ports; /* the last port takes the last queue's events */
	uint8_t types[MOST_STAGES];
	uint64_t events;
} run;
static struct history seen[WORKER + MOST_WORKERS + 1];
static history_at at[WORKER + MOST_WORKERS + 1];
static atomic_uint_fast64_t ended; /* how many events came to their end */
static atomic_int is_over;

static void fail(const char *what)
{
	fprintf(stderr, "history: %s\n", what);
	exit(1);
}

static int is_linked(uint8_t port, uint8_t queue)
{
	return port == run.last ? queue + 1 == run.queues : port >= WORKER && queue + 1 < run.queues;
}

#ifdef LIBRARY
static struct evsched *device;

static void make(void)
{
	struct evsched_dev_config config = evsched_dev_default_config(run.queues, run.ports);
	uint8_t q, p;
	config.nb_events_limit = LIMIT;
	for (q = 0; q < run.queues; q++)
		config.queue[q].schedule_type = run.types[q];
	for (p = 0; p < run.ports; p++) {
		for (q = 0; q < run.queues; q++)
			config.port[p].links |= (uint32_t)is_linked(p, q) << q;
		config.port[p].dequeue_depth = DEPTH;
		config.port[p].event_port_cfg = p == run.last ? 0 : EVSCHED_PORT_CFG_DISABLE_IMPL_REL;
	}
	if (evsched_create(&config, &device) < 0)
		fail("the device isn't made");
	for (p = 0; p < run.ports; p++)
		at[p] = evsched_port(device, p);
}

static void schedule(void)
{
	evsched_sweep(device);
}

static void maintain(uint8_t port)
{
	(void)port;
}

static void forget(void)
{
	evsched_free(device);
}
#else
static uint8_t device;
static uint32_t service;
static int has_service;

static void make_queues(void)
{
	struct rte_event_queue_conf queue = {.nb_atomic_flows = FLOWS, .nb_atomic_order_sequences = ORDER};
	uint8_t q;
	for (q = 0; q < run.queues; q++) {
		queue.schedule_type = run.types[q];
		if (rte_event_queue_setup(device, q, &queue))
			fail("it has no such queue");
	}
}

static void make_ports(uint32_t can)
{
	struct rte_event_port_conf port = {.new_event_threshold = LIMIT, .dequeue_depth = DEPTH, .enqueue_depth = DEPTH};
	uint8_t p, q;
	for (p = 0; p < run.ports; p++) {
		at[p] = device;
		port.event_port_cfg = p != run.last && can & RTE_EVENT_DEV_CAP_IMPLICIT_RELEASE_DISABLE ? RTE_EVENT_PORT_CFG_DISABLE_IMPL_REL : 0;
		if (rte_event_port_setup(device, p, &port))
			fail("it has no such port");
		for (q = 0; q < run.queues; q++)
			if (is_linked(p, q) && rte_event_port_link(device, p, &q, NULL, 1) != 1)
				fail("it has no such link");
	}
}

static void make(void)
{
	struct rte_event_dev_config config = {.nb_events_limit = LIMIT, .nb_event_queues = run.queues, .nb_event_ports = run.ports,
		.nb_event_queue_flows = ORDER, .nb_event_port_dequeue_depth = DEPTH, .nb_event_port_enqueue_depth = DEPTH};
	struct rte_event_dev_info info;
	if (rte_event_dev_info_get(device, &info) || rte_event_dev_configure(device, &config))
		fail("it can't be configured so");
	make_queues();
	make_ports(info.event_dev_cap);
	has_service = rte_event_dev_service_id_get(device, &service) == 0;
	if (has_service && (rte_service_set_runstate_mapped_check(service, 0) || rte_service_runstate_set(service, 1)))
		fail("its service doesn't run");
	if (rte_event_dev_start(device))
		fail("it doesn't start");
}

/* A device without a service schedules in the calls of its ports. */
static void schedule(void)
{
	if (has_service)
		rte_service_run_iter_on_app_lcore(service, 0);
}

/* What a device without a service wants of a port that neither enqueues nor dequeues. */
static void maintain(uint8_t port)
{
	rte_event_maintain(device, port, 0);
}

static void forget(void)
{
	rte_event_dev_stop(device);
	rte_event_dev_close(device);
	rte_eal_cleanup();
}
#endif

/* For a thread that has nothing to do, which comes the sooner when it has, and for one that holds events, so that this shows. */
static void nap(void)
{
	static const struct timespec time = {0, 10000};
	nanosleep(&time, NULL);
}

/* Between two calls of a port of which the first did nothing. */
static void rest(uint8_t port)
{
	maintain(port);
	nap();
}

static history_event make_event(uint64_t number)
{
	history_event ev;
	memset(&ev, 0, sizeof(ev));
	ev.flow_id = number % FLOWS;
	ev.priority = (uint8_t)(number % 4 * 64);
	ev.event_type = 3;
	ev.sched_type = run.types[0] & 3;
	ev.u64 = number;
	return ev;
}

/* Enqueues all of them, unless the run is over before. */
static void enqueue_all(struct history *h, const history_event ev[], uint16_t n)
{
	uint16_t done = 0;
	while (done < n && !is_over) {
		uint16_t more = history_enqueue_burst(h, at[h->port], ev + done, (uint16_t)(n - done));
		done = (uint16_t)(done + more);
		if (more == 0)
			rest(h->port);
	}
}

static void *produce(void *history)
{
	struct history *h = history;
	history_event ev[BURST];
	uint64_t made = 0;
	while (made < run.events && !is_over) {
		uint16_t n = 0;
		for (; n < BURST && made < run.events; n++)
			ev[n] = make_event(made++);
		enqueue_all(h, ev, n);
	}
	while (!is_over)
		rest(h->port);
	return NULL;
}

/* One in so many events is released on its way, the others go to the next queue. How many are released. */
static unsigned int answer(history_event ev[], uint16_t n)
{
	unsigned int released = 0;
	uint16_t i;
	for (i = 0; i < n; i++) {
		int is_last = ev[i].u64 % 61 == ev[i].queue_id;
		ev[i].op = is_last ? 2 : 1;
		ev[i].queue_id++;
		ev[i].sub_event_type = ev[i].queue_id;
		ev[i].sched_type = run.types[ev[i].queue_id] & 3;
		released += is_last;
	}
	return released;
}

static void *work(void *history)
{
	struct history *h = history;
	history_event ev[BURST];
	while (!is_over) {
		uint16_t n = history_dequeue_burst(h, at[h->port], ev, BURST);
		unsigned int released = answer(ev, n);
		nap();
		enqueue_all(h, ev, n);
		ended += released;
	}
	return NULL;
}

static void *take(void *history)
{
	struct history *h = history;
	history_event ev[BURST];
	while (!is_over) {
		uint16_t n = history_dequeue_burst(h, at[h->port], ev, BURST);
		if (n == 0)
			rest(h->port);
		ended += n;
	}
	return NULL;
}

static void schedule_often(int times)
{
	for (; times > 0; times--)
		schedule();
}

/* Schedules until all events came to their end, or none did for a while: whether all did. */
static int watch(void)
{
	uint64_t before = 0, since = history_now();
	for (;;) {
		uint64_t now = history_now(), done = ended;
		if (done == run.events)
			return 1;
		if (done != before)
			since = now;
		before = done;
		if (now - since > PATIENCE * (uint64_t)1000000000)
			return 0;
		schedule_often(8);
		nap();
	}
}

static int run_threads(void)
{
	pthread_t threads[WORKER + MOST_WORKERS + 1];
	uint64_t start = history_now();
	int is_done;
	uint8_t p;
	for (p = 0; p < run.ports; p++)
		if (pthread_create(&threads[p], NULL, p == PRODUCER ? produce : p == run.last ? take : work, &seen[p]))
			fail("a thread doesn't start");
	is_done = watch();
	is_over = 1;
	for (p = 0; p < run.ports; p++)
		pthread_join(threads[p], NULL);
	printf("%llu of %llu events in %.2f s\n", (unsigned long long)ended, (unsigned long long)run.events,
		(double)(history_now() - start) / 1e9);
	return is_done ? 0 : 3;
}

/* While an event of a flow is on its way to a worker all of them enqueue a RELEASE; then comes another one of the flow. */
static int release_early(void)
{
	history_event ev = make_event(0), release = ev;
	uint8_t p;
	release.op = 2;
	history_enqueue_burst(&seen[PRODUCER], at[PRODUCER], &ev, 1);
	schedule_often(1000);
	for (p = WORKER; p < run.last; p++)
		history_enqueue_burst(&seen[p], at[p], &release, 1);
	schedule_often(1000);
	ev.u64 = FLOWS;
	history_enqueue_burst(&seen[PRODUCER], at[PRODUCER], &ev, 1);
	schedule_often(1000);
	for (p = WORKER; p < run.last; p++)
		printf("port %u got %u\n", p, history_dequeue_burst(&seen[p], at[p], &ev, 1));
	return 0;
}

static void write_document(FILE *out)
{
	static const char *const kinds[] = {"ordered", "atomic", "parallel"};
	uint8_t p, q;
	fprintf(out, "limit = %d\nquantum = 32\nsweep = 64\nscript = \"\"\n", LIMIT);
	for (q = 0; q < run.queues; q++) {
		fprintf(out, "\n[[queue]]\nkind = \"%s\"\n", kinds[run.types[q]]);
		if (run.types[q] == ATOMIC)
			fprintf(out, "slots = %d\n", FLOWS);
		if (run.types[q] == ORDERED)
			fprintf(out, "order = %d\n", ORDER);
	}
	for (p = 0; p < run.ports; p++) {
		const char *before = "";
		fprintf(out, "\n[[port]]\nthreshold = %d\ndepth = %d\nreplies = 64\nimplicit = %s\nlinks = [", LIMIT, DEPTH,
			p == run.last ? "true" : "false");
		for (q = 0; q < run.queues; q++)
			if (is_linked(p, q)) {
				fprintf(out, "%s%u", before, q);
				before = ", ";
			}
		fprintf(out, "]\n");
	}
}

/* Of a file that was just written: whether all of it is there. */
static void close_file(FILE *out, int why)
{
	if (ferror(out) | fclose(out) | why)
		fail("a file isn't written, or there wasn't memory for what was seen");
}

static FILE *open_file(const char *name)
{
	FILE *out = fopen(name, "w");
	if (!out)
		fail("a file can't be opened");
	return out;
}

static void set_stages(const char *stages, int workers)
{
	for (; *stages; stages++) {
		if (run.queues == MOST_STAGES || !strchr("aop", *stages))
			fail("a stage is a, o or p, and there are at most 8");
		run.types[run.queues++] = *stages == 'a' ? ATOMIC : *stages == 'o' ? ORDERED : PARALLEL;
	}
	if (run.queues < 2 || workers < 1 || workers > MOST_WORKERS)
		fail("there are two stages at least, and 1 to 8 workers");
	run.workers = (uint8_t)workers;
	run.last = (uint8_t)(WORKER + workers);
	run.ports = (uint8_t)(run.last + 1);
}

static char **begin(int argc, char **argv)
{
#ifdef LIBRARY
	char **words = argv + 1;
#else
	int of_eal = rte_eal_init(argc, argv), id;
	char **words = argv + of_eal + 2;
	if (of_eal < 0)
		fail("EAL doesn't start, or a device doesn't load");
	if (argc != of_eal + 7)
		fail("usage: history EAL'S WORDS -- DEVICE STAGES WORKERS EVENTS DOCUMENT HISTORY");
	if ((id = rte_event_dev_get_dev_id(words[-1])) < 0)
		fail("there is no such device");
	device = (uint8_t)id;
#endif
	if (argv + argc - words != 5)
		fail("usage: history STAGES WORKERS EVENTS DOCUMENT HISTORY");
	return words;
}

int main(int argc, char **argv)
{
	char **words = begin(argc, argv);
	FILE *out;
	uint8_t p;
	int status;
	set_stages(words[0], atoi(words[1]));
	run.events = strtoull(words[2], NULL, 10);
	for (p = 0; p < run.ports; p++)
		seen[p].port = p;
	make();
	seen[run.last].implicit = 1;
	out = open_file(words[3]);
	write_document(out);
	close_file(out, 0);
	status = run.events ? run_threads() : release_early();
	out = open_file(words[4]);
	close_file(out, history_write(out, seen, run.ports));
	forget();
	return status;
}
