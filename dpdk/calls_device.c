/* SPDX-License-Identifier: BSD-3-Clause */
/* The devices of the driver's own test. */
#include "calls.h"

int checks, failures;
static struct device devices[2];

void check(bool is, const char *file, int line, const char *text)
{
	checks++;
	if (is)
		return;
	failures++;
	printf("%s:%d: not so: %s\n", file, line, text);
}

static void must(bool is, const char *what)
{
	if (!is) {
		printf("calls: %s\n", what);
		exit(1);
	}
}

void count_flush(uint8_t id, struct rte_event ev, void *arg)
{
	struct device *d = arg;
	must(d->id == id, "a flush of another device");
	d->flushed++;
	d->sum += ev.u64;
}

void set_up(struct device *d, const struct conf *conf)
{
	struct rte_event_queue_conf queue = {.schedule_type = conf->type ? conf->type - 1 : RTE_SCHED_TYPE_ATOMIC,
		.priority = RTE_EVENT_DEV_PRIORITY_NORMAL, .nb_atomic_order_sequences = 256};
	struct rte_event_port_conf port;
	uint8_t i;
	for (i = 0; i < d->queues; i++) {
		queue.nb_atomic_flows = conf->first_flows && i == 0 ? conf->first_flows : conf->flows ? conf->flows : 64;
		queue.event_queue_cfg = conf->single >> i & 1 ? RTE_EVENT_QUEUE_CFG_SINGLE_LINK : 0;
		must(rte_event_queue_setup(d->id, i, &queue) == 0, "a queue isn't set up");
	}
	for (i = 0; i < d->ports; i++) {
		must(rte_event_port_default_conf_get(d->id, i, &port) == 0, "a port has no default");
		port.event_port_cfg = conf->keeps ? RTE_EVENT_PORT_CFG_DISABLE_IMPL_REL : 0;
		/* (no threshold is within a limit of -1) */
		must(rte_event_port_setup(d->id, i, conf->limit == -1 ? NULL : &port) == 0, "a port isn't set up");
		must(i == 0 || conf->unlinked || rte_event_port_link(d->id, i, NULL, NULL, 0) == d->queues, "a port isn't linked");
	}
}

struct device *begin(const char *name, const char *arguments, uint8_t queues, uint8_t ports, const struct conf *conf)
{
	static const struct conf usual;
	struct device *d = &devices[name[strlen(name) - 1] - '0'];
	struct rte_event_dev_config config = {.nb_event_queues = queues, .nb_event_ports = ports, .nb_event_queue_flows = 1024,
		.nb_event_port_dequeue_depth = 64, .nb_event_port_enqueue_depth = 64};
	int id;
	conf = conf ? conf : &usual;
	memset(d, 0, sizeof(*d));
	must(rte_vdev_init(name, arguments) == 0 && (id = rte_event_dev_get_dev_id(name)) >= 0, "there is no device");
	d->name = name;
	d->id = (uint8_t)id;
	d->queues = queues;
	d->ports = ports;
	config.nb_events_limit = conf->limit ? conf->limit : 4096;
	must(rte_event_dev_configure(d->id, &config) == 0, "it isn't configured");
	set_up(d, conf);
	must(rte_event_dev_service_id_get(d->id, &d->service) == 0 && rte_service_runstate_set(d->service, 1) == 0
		&& rte_service_set_runstate_mapped_check(d->service, 0) == 0, "it has no service");
	must(rte_event_dev_stop_flush_callback_register(d->id, count_flush, d) == 0, "no callback");
	must(conf->unlinked || rte_event_dev_start(d->id) == 0, "it isn't started");
	return d;
}

void forget(struct device *d)
{
	CHECK(rte_vdev_uninit(d->name) == 0);
	CHECK(rte_event_dev_get_dev_id(d->name) < 0);
}

void end(struct device *d)
{
	CHECK(rte_vdev_uninit(d->name) < 0); /* it runs */
	rte_event_dev_stop(d->id);
	forget(d);
}

void sweep(struct device *d)
{
	rte_service_run_iter_on_app_lcore(d->service, 0);
}

void event(struct rte_event *ev, uint8_t op, uint8_t queue, uint64_t payload)
{
	memset(ev, 0xff, sizeof(*ev)); /* what isn't set means nothing */
	ev->flow_id = 7;
	ev->op = op & 3;
	ev->queue_id = queue;
	ev->priority = RTE_EVENT_DEV_PRIORITY_NORMAL;
	ev->u64 = payload;
}

uint16_t put(struct device *d, uint8_t port, const struct rte_event ev[], uint16_t n)
{
	rte_errno = 0;
	return rte_event_enqueue_burst(d->id, port, ev, n);
}

uint16_t get(struct device *d, uint8_t port, struct rte_event ev[], uint16_t n)
{
	return rte_event_dequeue_burst(d->id, port, ev, n, 0);
}

uint64_t by_name(struct device *d, const char *name)
{
	return rte_event_dev_xstats_by_name_get(d->id, name, NULL);
}

uint32_t links(struct device *d, uint8_t port)
{
	uint8_t queues[64], priorities[64];
	int i, n = rte_event_port_links_get(d->id, port, queues, priorities);
	uint32_t links = 0;
	for (i = 0; i < n; i++)
		links |= 1u << queues[i];
	return links;
}

bool says(struct device *d, const char *text)
{
	char *said = NULL;
	size_t length = 0;
	FILE *to = open_memstream(&said, &length);
	bool is_said = rte_event_dev_dump(d->id, to) == 0;
	fclose(to);
	is_said = is_said && strstr(said, text) != NULL;
	if (!is_said)
		printf("it says:\n%s", said);
	free(said);
	return is_said;
}
