/* SPDX-License-Identifier: BSD-3-Clause */
/* What evsched_info and evsched_dump say of a device, while it runs and after its stop. Ends with status 1 where something differs. */
#include <evsched.h>
#include <stdio.h>
#include <string.h>

static int failures;

#define CHECK(is) check((is), __LINE__, #is)

static void check(int is, int line, const char *text)
{
	if (!is) {
		printf("dump.c:%d: not so: %s\n", line, text);
		failures++;
	}
}

/* What a port said is of no known age. */
static void forget_ages(char *text)
{
	char *at = text, *end;
	while ((at = strstr(at, "\tsaid ")) != NULL && (end = strstr(at, " us ago")) != NULL) {
		at += strlen("\tsaid ");
		memmove(at, end + strlen(" us ago"), strlen(end + strlen(" us ago")) + 1);
	}
}

static void expect(struct evsched *dev, const char *expected)
{
	static char text[4000];
	FILE *to = tmpfile();
	size_t length;
	if (!to)
		exit(1);
	CHECK(evsched_dump(dev, to) == 0);
	rewind(to);
	length = fread(text, 1, sizeof(text) - 1, to);
	text[length] = '\0';
	fclose(to);
	forget_ages(text);
	if (strcmp(text, expected) != 0)
		printf("it says:\n%s", text);
	CHECK(strcmp(text, expected) == 0);
}

/* Two queues and three ports: port 0 brings in, port 1 serves queue 0, port 2 the single-link queue 1. */
static struct evsched *make(uint32_t flags)
{
	struct evsched_dev_config config = evsched_dev_default_config(3, 3);
	const struct evsched_dev_config *info;
	struct evsched *dev;
	config.nb_events_limit = 1024;
	config.event_dev_cfg = flags;
	config.queue[0].priority = 7;
	config.queue[1].event_queue_cfg = EVSCHED_QUEUE_CFG_SINGLE_LINK;
	config.queue[2].schedule_type = EVSCHED_TYPE_ORDERED;
	config.port[1].links = 5;
	config.port[2].links = 2;
	config.port[2].event_port_cfg = EVSCHED_PORT_CFG_DISABLE_IMPL_REL | EVSCHED_PORT_CFG_HINT_CONSUMER;
	config.port[2].dequeue_depth = 8;
	CHECK(evsched_create(&config, &dev) == 0);
	info = evsched_info(dev);
	CHECK(info->nb_events_limit == 1024 && info->nb_event_queues == 3 && info->nb_event_ports == 3 && info->event_dev_cfg == flags);
	CHECK(info->port[0].new_event_threshold == 864 && info->port[1].new_event_threshold == 1024);
	CHECK(info->port[1].links == 5 && info->port[2].dequeue_depth == 8 && info->queue[0].nb_atomic_flows == 42);
	CHECK(info->queue[1].schedule_type == EVSCHED_TYPE_PARALLEL && info->port[2].event_port_cfg == EVSCHED_PORT_CFG_DISABLE_IMPL_REL);
	return dev;
}

/* Five events of one flow into queue 0; two are forwarded to queue 1, with an addition beside, and one is released. */
static void use(struct evsched *dev)
{
	struct evsched_event ev[5], answer[4];
	int i;
	memset(ev, 0, sizeof(ev));
	for (i = 0; i < 5; i++)
		ev[i].flow_id = 45; /* slot 3 of 42 */
	CHECK(evsched_enqueue_burst(evsched_port(dev, 0), ev, 5) == 5 && evsched_sweep(dev) == 10);
	CHECK(evsched_dequeue_burst(evsched_port(dev, 1), ev, 4) == 4);
	answer[0] = answer[1] = answer[2] = answer[3] = ev[0];
	answer[0].op = EVSCHED_OP_FORWARD_MORE;
	answer[3].op = EVSCHED_OP_RELEASE;
	for (i = 0; i < 3; i++)
		answer[i].queue_id = 1;
	CHECK(evsched_enqueue_burst(evsched_port(dev, 1), answer, 4) == 4 && evsched_sweep(dev) > 0);
}

/* All ports publish what they counted: each is asked, and makes a call. */
static void have_said(struct evsched *dev)
{
	static struct evsched_stats stats;
	evsched_stats_read(dev, &stats, 0);
	for (uint32_t p = 0; p < 3; p++)
		evsched_enqueue_burst(evsched_port(dev, p), NULL, 0);
}

static const char first[] = "evsched: 3 queues, 3 ports, nb_events_limit 1024, credit_quanta 32, sched_quanta 64";
static const char ports[] =
	"port 0: new_event_threshold 864, dequeue_depth 32, enqueue_depth 64, implicit release, no links\n"
	"\trx_new 5\n"
	"\tsaid : enqueued 5, pocket 27\n"
	"port 1: new_event_threshold 1024, dequeue_depth 32, enqueue_depth 64, implicit release, links 0 2\n";
static const char last[] = "port 2: new_event_threshold 1024, dequeue_depth 8, enqueue_depth 64, no implicit release, links 1\n\ttx 3\n";

static const char by_ports_counts[] =
	"\trx_new 5, inside 5, sweeps 2, taken 9, given 8\n"
	"\tcredits and rings: free 960, pockets 59, cq_ring 4\n";
static const char by_ports_rest[] =
	"queue 0: atomic, priority 7, nb_atomic_flows 42\n"
	"\trx_new 5, tx 5, unanswered 2\n"
	"\tport 1: tx 5, pinned 1\n"
	"queue 1: parallel, priority 128, single link\n"
	"\trx_forwarded 3, tx 3, unanswered 3\n"
	"\tport 2: tx 3\n"
	"queue 2: ordered, priority 128, nb_atomic_order_sequences 256\n";
static const char by_ports_last[] =
	"\ttx 5, released 1, forwarded 2, added 1\n"
	"\tunanswered 2, cq_ring 1\n"
	"\tsaid : enqueued 4, dequeued 4, pocket 32, held 1\n";

static void by_ports(void)
{
	struct evsched *dev = make(0);
	char text[2000];
	use(dev);
	have_said(dev);
	snprintf(text, sizeof(text), "%s\n%s%s%s%s%s\tunanswered 3, cq_ring 3\n", first, by_ports_counts, by_ports_rest, ports, by_ports_last,
		last);
	expect(dev, text);
	CHECK(evsched_stop(dev) == 0);
	snprintf(text, sizeof(text), "%s\n%sstopped:\n\tfree 960, pockets 59, undelivered 4, held 1\n%s%s%s%s\tunanswered 3, cq_ring 3\n", first,
		by_ports_counts, by_ports_rest, ports, by_ports_last, last);
	expect(dev, text);
	evsched_free(dev);
}

static void by_flow_lanes(void)
{
	struct evsched *dev = make(EVSCHED_DEV_CFG_FLOW_LANES);
	char text[2000];
	use(dev);
	have_said(dev);
	snprintf(text, sizeof(text), "%s, flow lanes\n%s%s%s%s%s%s%s", first, by_ports_counts,
		"queue 0: atomic, priority 7, nb_atomic_flows 42\n\trx_new 5, tx 5, unanswered 2\n"
		"queue 1: parallel, priority 128, single link\n\trx_forwarded 3, tx 3, unanswered 3\n\tport 2: tx 3\n"
		"queue 2: ordered, priority 128, nb_atomic_order_sequences 256\n", ports, "\tsaid : enqueued 4, dequeued 4, pocket 32, held 1\n", last,
		"\tunanswered 3\n", "flow lane 6: queue 0, slot 3\n\ttx 5, released 1, forwarded 2, added 1\n");
	expect(dev, text);
	evsched_free(dev);
}

/* What waits, by level, is printed of a queue whose ports are full. */
static void waiting(void)
{
	struct evsched *dev = make(0);
	struct evsched_event ev[20];
	char text[4000], *line;
	FILE *to = tmpfile();
	memset(ev, 0, sizeof(ev));
	for (int i = 0; i < 20; i++) {
		ev[i].queue_id = 1;
		ev[i].priority = (uint8_t)(i % 4 * 64);
	}
	CHECK(to && evsched_enqueue_burst(evsched_port(dev, 0), ev, 20) == 20 && evsched_sweep(dev) == 28 && evsched_dump(dev, to) == 0);
	rewind(to);
	text[fread(text, 1, sizeof(text) - 1, to)] = '\0';
	line = strstr(text, "\trx_new 20, tx 8, level_1 2, level_2 5, level_3 5, unanswered 8\n");
	CHECK(line && strstr(line, "\tport 2: tx 8\n"));
	fclose(to);
	evsched_free(dev);
}

static void full(void)
{
	struct evsched *dev = make(0);
	FILE *to = fopen("/dev/full", "w");
	CHECK(!to || evsched_dump(dev, to) == -EIO);
	if (to)
		fclose(to);
	evsched_free(dev);
}

int main(void)
{
	by_ports();
	by_flow_lanes();
	waiting();
	full();
	printf("dump: %d failures\n", failures);
	return failures > 0;
}
