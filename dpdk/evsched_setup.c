/* SPDX-License-Identifier: BSD-3-Clause */
/*
 * What is set up before a start. rte_eventdev keeps configurations and links, and evd_start reads them there: here they are judged, and noted
 * as there.
 */
#include "evsched_eventdev.h"

#include <string.h>

enum { FLOWS = 1 << 20, CREDITS = 4096 }; /* flows of a queue; how many credits a device has where nothing else is said */

static uint32_t least(uint32_t a, uint32_t b)
{
	return a < b ? a : b;
}

void evd_info_get(struct rte_eventdev *dev, struct rte_event_dev_info *info)
{
	const struct evd_arguments *arguments = &evd_of(dev)->arguments;
	memset(info, 0, sizeof(*info));
	info->driver_name = RTE_STR(EVD_DRIVER);
	info->max_event_queues = EVSCHED_MAX_QUEUES;
	info->max_event_queue_flows = FLOWS;
	info->max_event_queue_priority_levels = 255;
	info->max_event_priority_levels = 4;
	info->max_event_ports = EVSCHED_MAX_PORTS;
	info->max_event_port_dequeue_depth = (uint8_t)least(arguments->max_depth, UINT8_MAX);
	info->max_event_port_enqueue_depth = arguments->max_depth;
	info->max_num_events = (int32_t)arguments->max_events;
	info->event_dev_cap = RTE_EVENT_DEV_CAP_QUEUE_QOS | RTE_EVENT_DEV_CAP_EVENT_QOS | RTE_EVENT_DEV_CAP_BURST_MODE
		| RTE_EVENT_DEV_CAP_IMPLICIT_RELEASE_DISABLE | RTE_EVENT_DEV_CAP_MULTIPLE_QUEUE_PORT | RTE_EVENT_DEV_CAP_NONSEQ_MODE
		| RTE_EVENT_DEV_CAP_CARRY_FLOW_ID | RTE_EVENT_DEV_CAP_MAINTENANCE_FREE;
}

/* How many credits a device has: there is no open system, so -1 is as many as there may be. */
int32_t evd_events_limit(const struct rte_eventdev *dev)
{
	int32_t asked = dev->data->dev_conf.nb_events_limit;
	return asked == -1 ? (int32_t)evd_of(dev)->arguments.max_events : asked;
}

int evd_configure(const struct rte_eventdev *dev)
{
	const struct rte_event_dev_config *conf = &dev->data->dev_conf;
	const struct evd *device = evd_of(dev);
	if (conf->event_dev_cfg & RTE_EVENT_DEV_CFG_PER_DEQUEUE_TIMEOUT || conf->dequeue_timeout_ns != 0) {
		EVD_LOG(ERR, device, "a dequeue has no timeout");
		return -ENOTSUP;
	}
	if (evd_events_limit(dev) < 1) {
		EVD_LOG(ERR, device, "nb_events_limit %d is neither -1 nor 1 to %u", conf->nb_events_limit, device->arguments.max_events);
		return -EINVAL;
	}
	return 0;
}

void evd_queue_def_conf(struct rte_eventdev *dev, uint8_t queue, struct rte_event_queue_conf *conf)
{
	uint32_t flows = dev->data->dev_conf.nb_event_queue_flows;
	RTE_SET_USED(queue);
	memset(conf, 0, sizeof(*conf)); /* which rte_event_queue_setup doesn't */
	conf->nb_atomic_flows = least(flows, EVSCHED_MAX_ATOMIC_FLOWS);
	conf->nb_atomic_order_sequences = least(flows, EVSCHED_MAX_ORDER_SEQUENCES);
	conf->schedule_type = RTE_SCHED_TYPE_ATOMIC;
	conf->priority = RTE_EVENT_DEV_PRIORITY_NORMAL;
}

int evd_queue_setup(struct rte_eventdev *dev, uint8_t queue, const struct rte_event_queue_conf *conf)
{
	struct evd *device = evd_of(dev);
	if (conf->event_queue_cfg & RTE_EVENT_QUEUE_CFG_ALL_TYPES) {
		EVD_LOG(ERR, device, "queue %u: a queue has one scheduling type", queue);
		return -ENOTSUP;
	}
	if (!(conf->event_queue_cfg & RTE_EVENT_QUEUE_CFG_SINGLE_LINK) && conf->schedule_type > RTE_SCHED_TYPE_PARALLEL) {
		EVD_LOG(ERR, device, "queue %u: schedule_type %u is neither ordered, atomic nor parallel", queue, conf->schedule_type);
		return -EINVAL;
	}
	device->queues_set_up |= 1u << queue;
	return 0;
}

void evd_queue_release(struct rte_eventdev *dev, uint8_t queue)
{
	evd_of(dev)->queues_set_up &= ~(1u << queue);
}

void evd_port_def_conf(struct rte_eventdev *dev, uint8_t port, struct rte_event_port_conf *conf)
{
	const struct rte_event_dev_config *device = &dev->data->dev_conf;
	RTE_SET_USED(port);
	memset(conf, 0, sizeof(*conf));
	conf->new_event_threshold = evd_events_limit(dev);
	conf->dequeue_depth = (uint16_t)least(device->nb_event_port_dequeue_depth, EVSCHED_MAX_DEPTH);
	conf->enqueue_depth = (uint16_t)least(device->nb_event_port_enqueue_depth, EVSCHED_MAX_DEPTH);
}

int evd_port_setup(struct rte_eventdev *dev, uint8_t port, const struct rte_event_port_conf *conf)
{
	struct evd_port *at = &evd_of(dev)->ports[port];
	at->releases = !(conf->event_port_cfg & RTE_EVENT_PORT_CFG_DISABLE_IMPL_REL);
	at->depth = (uint8_t)least(conf->dequeue_depth, EVSCHED_MAX_DEPTH);
	at->is_set_up = true;
	dev->data->ports[port] = at;
	return 0;
}

void evd_port_release(void *port)
{
	struct evd_port *at = port;
	if (at != NULL)
		at->is_set_up = false;
}

/* The queues to which a port is linked, a bit each. */
uint32_t evd_links(const struct rte_eventdev *dev, uint8_t port)
{
	uint8_t queues[RTE_EVENT_MAX_QUEUES_PER_DEV], priorities[RTE_EVENT_MAX_QUEUES_PER_DEV];
	int i, n = rte_event_port_links_get(dev->data->dev_id, port, queues, priorities);
	uint32_t links = 0;
	for (i = 0; i < n; i++)
		links |= 1u << queues[i];
	return links;
}

/* Whether a queue has, or would have by this link, a second port where only one may be. */
static bool has_other_port(struct rte_eventdev *dev, uint8_t queue, uint8_t port)
{
	uint8_t p;
	if (!(dev->data->queues_cfg[queue].event_queue_cfg & RTE_EVENT_QUEUE_CFG_SINGLE_LINK))
		return false;
	for (p = 0; p < dev->data->nb_ports; p++)
		if (p != port && evd_links(dev, p) >> queue & 1)
			return true;
	return false;
}

/* Whether links can't change now, which is said once. */
static bool is_fixed(struct evd *device)
{
	if (!device->eventdev->data->dev_started || device->arguments.relinks_next)
		return false;
	if (!device->has_said_relink)
		EVD_LOG(ERR, device, "links stay as they are while it runs (with relink=next a change counts from the next start)");
	device->has_said_relink = true;
	return true;
}

int evd_port_link(struct rte_eventdev *dev, void *port, const uint8_t queues[], const uint8_t priorities[], uint16_t n)
{
	struct evd_port *at = port;
	struct evd *device = evd_of(dev);
	uint16_t i;
	RTE_SET_USED(priorities);
	if (at == NULL || !at->is_set_up) {
		EVD_LOG(ERR, device, "a port is linked before it is set up");
		rte_errno = EINVAL;
		return 0;
	}
	for (i = 0; i < n; i++) {
		if (evd_links(dev, at->number) >> queues[i] & 1)
			continue;
		if (has_other_port(dev, queues[i], at->number)) {
			rte_errno = EDQUOT;
			return i;
		}
		if (is_fixed(device)) {
			rte_errno = EBUSY;
			return i;
		}
	}
	return n;
}

int evd_port_unlink(struct rte_eventdev *dev, void *port, uint8_t queues[], uint16_t n)
{
	RTE_SET_USED(port);
	RTE_SET_USED(queues);
	if (n > 0 && is_fixed(evd_of(dev))) {
		rte_errno = EBUSY;
		return 0;
	}
	return n;
}
