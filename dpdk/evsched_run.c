/* SPDX-License-Identifier: BSD-3-Clause */
/* Start, sweeps and stop: a device of evsched.h is made of what was set up, swept by the service, and taken apart. */
#include "evsched_eventdev.h"

#include <sched.h>
#include <stdlib.h>
#include <string.h>

#include <rte_malloc.h>
#include <rte_pause.h>
#include <rte_service_component.h>

enum { SPINS = 1024, GAP = 16 };

static uint32_t least(uint32_t a, uint32_t b)
{
	return a < b ? a : b;
}

/* Shares the slots of a device out among its atomic queues: each gets what it asks for, or the largest number that leaves enough for all. */
static void share_slots(struct evsched_dev_config *config)
{
	uint32_t most, all, q;
	for (most = EVSCHED_MAX_ATOMIC_FLOWS; most > 1; most--) {
		all = 0;
		for (q = 0; q < config->nb_event_queues; q++)
			if (config->queue[q].schedule_type == EVSCHED_TYPE_ATOMIC)
				all += least(config->queue[q].nb_atomic_flows, most);
		if (all <= EVSCHED_MAX_ALL_ATOMIC_FLOWS)
			break;
	}
	for (q = 0; q < config->nb_event_queues; q++)
		config->queue[q].nb_atomic_flows = least(config->queue[q].nb_atomic_flows, most);
}

static void take_queue(const struct rte_event_queue_conf *from, struct evsched_queue_conf *to)
{
	bool is_single = from->event_queue_cfg & RTE_EVENT_QUEUE_CFG_SINGLE_LINK;
	to->event_queue_cfg = is_single ? EVSCHED_QUEUE_CFG_SINGLE_LINK : 0;
	to->schedule_type = is_single ? EVSCHED_TYPE_PARALLEL : from->schedule_type;
	to->priority = from->priority;
	to->nb_atomic_flows = from->nb_atomic_flows;
	to->nb_atomic_order_sequences = least(from->nb_atomic_order_sequences, EVSCHED_MAX_ORDER_SEQUENCES);
}

static void take_port(const struct rte_eventdev *dev, uint8_t port, struct evsched_port_conf *to)
{
	const struct rte_event_port_conf *from = &dev->data->ports_cfg[port];
	const struct evd_port *at = &evd_of(dev)->ports[port];
	to->new_event_threshold = (int32_t)least((uint32_t)from->new_event_threshold, (uint32_t)evd_events_limit(dev));
	to->dequeue_depth = at->depth;
	to->enqueue_depth = EVSCHED_MAX_DEPTH;
	to->event_port_cfg = at->releases ? 0 : EVSCHED_PORT_CFG_DISABLE_IMPL_REL;
	to->links = evd_links(dev, port);
}

/* How many credits a port draws at a time: few enough that all ports may have some, and each may draw. */
static uint32_t quantum(const struct evsched_dev_config *config, uint32_t asked)
{
	uint32_t p, n = least(asked, (uint32_t)config->nb_events_limit / (2 * config->nb_event_ports));
	for (p = 0; p < config->nb_event_ports; p++)
		n = least(n, (uint32_t)config->port[p].new_event_threshold);
	return n > 0 ? n : 1;
}

/* What was set up, as a configuration of evsched.h. */
static void take(const struct rte_eventdev *dev, struct evsched_dev_config *config)
{
	const struct evd *device = evd_of(dev);
	uint8_t i;
	*config = evsched_dev_default_config(dev->data->nb_queues, dev->data->nb_ports);
	config->nb_events_limit = evd_events_limit(dev);
	config->sched_quanta = device->arguments.sched_quanta;
	for (i = 0; i < dev->data->nb_queues; i++)
		take_queue(&dev->data->queues_cfg[i], &config->queue[i]);
	for (i = 0; i < dev->data->nb_ports; i++)
		take_port(dev, i, &config->port[i]);
	share_slots(config);
	config->credit_quanta = quantum(config, device->arguments.credit_quanta);
}

/* Whether all was set up: 0, or what a start answers. */
static int is_set_up(const struct rte_eventdev *dev)
{
	const struct evd *device = evd_of(dev);
	uint8_t i;
	for (i = 0; i < dev->data->nb_ports; i++)
		if (!device->ports[i].is_set_up) {
			EVD_LOG(ERR, device, "port %u is not set up", i);
			return -ESTALE;
		}
	for (i = 0; i < dev->data->nb_queues; i++)
		if (!(device->queues_set_up >> i & 1)) {
			EVD_LOG(ERR, device, "queue %u is not set up", i);
			return -ENOLINK;
		}
	return 0;
}

/* What a start answers for a refusal of evsched_create_in. */
static int refusal(struct evd *device, const struct evsched_dev_config *config, int why)
{
	char text[160];
	if (evsched_check(config, text, sizeof(text)) == 0)
		snprintf(text, sizeof(text), "%s", evsched_strerror(why));
	EVD_LOG(ERR, device, "it isn't started: %s", text);
	switch (why) {
	case -EVSCHED_E_QUEUE_UNLINKED: return -ENOLINK;
	case -EVSCHED_E_SINGLE_LINK_COUNT: return -EDQUOT;
	case -ENOMEM: return -ENOMEM;
	default: return -EINVAL;
	}
}

static void let_go(struct evd *device)
{
	rte_free(device->memory);
	device->memory = NULL;
}

/* Tells the ports what they are now. */
static void hand_out(struct evd *device, struct evsched *made, uint8_t n)
{
	uint8_t p;
	for (p = 0; p < n; p++) {
		struct evd_port *at = &device->ports[p];
		at->port = evsched_port(made, p);
		at->said = 0;
		at->is_linked = evsched_info(made)->port[p].links != 0;
		at->sent = at->pocket = at->dropped = 0;
		memset(at->dequeues, 0, sizeof(at->dequeues));
	}
}

int evd_start(struct rte_eventdev *dev)
{
	struct evd *device = evd_of(dev);
	struct evsched_dev_config config;
	struct evsched *made;
	int r = is_set_up(dev);
	if (r < 0)
		return r;
	take(dev, &config);
	device->memory = rte_zmalloc_socket("evsched", evsched_size(config.nb_event_ports), RTE_CACHE_LINE_SIZE, dev->data->socket_id);
	r = device->memory ? evsched_create_in(device->memory, &config, &made) : -ENOMEM;
	if (r < 0) {
		let_go(device);
		return refusal(device, &config, r);
	}
	hand_out(device, made, dev->data->nb_ports);
	evd_lock(device);
	device->running = made;
	device->did = 0;
	device->has_said_relink = false;
	evd_xstats_begin(device);
	evd_unlock(device);
	rte_service_component_runstate_set(device->service, 1);
	return 0;
}

/* Passes the time. It yields the processor now and then, since the thread that has the lock may wait for this one's. */
static void pass(uint32_t turn)
{
	rte_pause();
	if (turn % SPINS == SPINS - 1)
		sched_yield();
}

/* Waits for the lock, to read, to start or to stop. */
void evd_lock(struct evd *device)
{
	uint8_t is = EVD_NOBODY;
	uint32_t turn = 0;
	__atomic_fetch_add(&device->wanted, 1, __ATOMIC_RELAXED);
	while (!evd_try_lock(device, &is, EVD_READER))
		if (is != EVD_NOBODY && is != EVD_STOPPED) {
			pass(turn++);
			is = EVD_NOBODY;
		}
	__atomic_fetch_sub(&device->wanted, 1, __ATOMIC_RELAXED);
}

/* Waits while another thread sweeps, which the service forbids, but a program may run it so: whether it has the lock then. */
static __rte_noinline bool lock_behind(struct evd *device)
{
	uint8_t is = EVD_NOBODY;
	uint32_t turn = 0;
	while (!evd_try_lock(device, &is, EVD_SWEEP)) {
		if (is != EVD_SWEEP)
			return false;
		pass(turn++);
		is = EVD_NOBODY;
	}
	return true;
}

/* Leaves the lock free for a moment, so that who waits for it finds it so. */
static __rte_noinline int32_t give_way(int32_t answer)
{
	uint32_t turn;
	for (turn = 0; turn < GAP; turn++)
		rte_pause();
	return answer;
}

/* The service's callback. It doesn't wait for readers: one that lost its processor while it waits holds no sweep up. */
int32_t evd_sweep(void *at)
{
	struct evd *device = at;
	uint8_t is = EVD_NOBODY;
	int32_t answer;
	if (unlikely(!evd_try_lock(device, &is, EVD_SWEEP)) && !lock_behind(device))
		return -EAGAIN;
	device->did = evsched_sweep(device->running);
	answer = (device->did - 1) >> 31 & -EAGAIN; /* 0 where it did something */
	__atomic_store_n(&device->has_lock, EVD_NOBODY, __ATOMIC_RELEASE);
	return likely(__atomic_load_n(&device->wanted, __ATOMIC_RELAXED) == 0) ? answer : give_way(answer);
}

/* Gives an event to the callback that the program has registered. */
static void hand_back(struct evsched *stopped, struct evsched_event event, void *arg)
{
	struct rte_eventdev *dev = arg;
	eventdev_stop_flush_t to = dev->dev_ops->dev_stop_flush;
	struct rte_event ev;
	RTE_SET_USED(stopped);
	ev.event = event.event;
	ev.u64 = event.u64;
	if (to != NULL)
		to(dev->data->dev_id, ev, dev->data->dev_stop_flush_arg);
}

/* Gives all that was left. */
static void flush(struct rte_eventdev *dev, struct evsched *stopped)
{
	struct evsched_left left[32];
	int i, n;
	while ((n = evsched_left(stopped, left, RTE_DIM(left))) > 0)
		for (i = 0; i < n; i++)
			hand_back(stopped, left[i].event, dev);
}

void evd_stop(struct rte_eventdev *dev)
{
	struct evd *device = evd_of(dev);
	struct evsched *running;
	uint32_t p;
	rte_service_component_runstate_set(device->service, 0);
	evd_lock(device);
	running = device->running;
	device->running = NULL;
	evd_unlock(device);
	if (evsched_stop(running) == 0)
		flush(dev, running);
	else if (evsched_drain(running, hand_back, dev) < 0) /* the lists of a stop need memory, and a drain needs none */
		EVD_LOG(ERR, device, "events that are inside are lost at the stop");
	for (p = 0; p < dev->data->nb_ports; p++)
		device->ports[p].port = NULL;
	evsched_free(running);
	let_go(device);
}

int evd_close(struct rte_eventdev *dev)
{
	struct evd *device = evd_of(dev);
	uint32_t p;
	device->queues_set_up = 0;
	for (p = 0; p < EVSCHED_MAX_PORTS; p++)
		device->ports[p].is_set_up = false;
	return 0;
}
