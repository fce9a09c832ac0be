/* SPDX-License-Identifier: BSD-3-Clause */
/*
 * The xstats: event_sw's names, in its order and with its ids, so first the device's, then each port's, then each queue's. Values are read
 * under the device's lock, so what the scheduler counts is of one moment between two sweeps. Those that event_sw resets are differences to
 * what they were at the last reset.
 */
#include "evsched_eventdev.h"

#include <inttypes.h>
#include <string.h>

enum { OWN_DROP = 2, OWN_CYCLES = 4, OWN_POCKET, OWN_TO_USED, OWN_TO_FREE, OWN_FROM_USED, OWN_FROM_FREE, OWN_CALLS, OWN_ZERO };

static const char *const device_names[EVD_DEVICE_STATS] = {"rx", "tx", "drop", "sched_calls", "sched_no_iq_enq", "sched_no_cq_enq",
	"sched_last_iter_bitmask", "sched_progress_last_iter"};
static const char *const port_names[EVD_PORT_STATS] = {"rx", "tx", "drop", "inflight", "avg_pkt_cycles", "credits", "rx_ring_used",
	"rx_ring_free", "cq_ring_used", "cq_ring_free", "dequeue_calls", "dequeues_returning_0"};
static const char *const queue_names[EVD_QUEUE_STATS] = {"rx", "tx", "drop", "inflight", "iq_0_used", "iq_1_used", "iq_2_used", "iq_3_used"};
static const char *const share_names[EVD_QUEUE_PORT_STATS] = {"pinned_flows", "packets"};

/* Which of them a reset sets to 0. */
static const bool port_resets[EVD_PORT_STATS] = {true, true, true, false, true, false, false, false, false, false, true, true};
static const bool queue_resets[EVD_QUEUE_STATS] = {true, true, true, false, false, false, false, false};

/* An xstat: whose, and its place in the list there. */
struct stat {
	enum rte_event_dev_xstats_mode mode;
	uint32_t number, place;
};

/* How many a port or a queue has, or the device. */
static uint32_t count_of(const struct rte_eventdev *dev, enum rte_event_dev_xstats_mode mode, uint32_t number)
{
	switch (mode) {
	case RTE_EVENT_DEV_XSTATS_DEVICE:
		return EVD_DEVICE_STATS;
	case RTE_EVENT_DEV_XSTATS_PORT:
		return number < dev->data->nb_ports ? EVD_PORT_STATS + evd_of(dev)->ports[number].depth / 4u + 1 : 0;
	case RTE_EVENT_DEV_XSTATS_QUEUE:
		return number < dev->data->nb_queues ? EVD_QUEUE_STATS + dev->data->nb_ports * EVD_QUEUE_PORT_STATS : 0;
	default:
		return 0;
	}
}

/* The id of the first one of a port or a queue, or of the device. */
static uint32_t first_of(const struct rte_eventdev *dev, enum rte_event_dev_xstats_mode mode, uint32_t number)
{
	uint32_t id = 0, ports = mode == RTE_EVENT_DEV_XSTATS_QUEUE ? dev->data->nb_ports : number, p;
	if (mode == RTE_EVENT_DEV_XSTATS_DEVICE)
		return 0;
	for (p = 0; p < ports; p++)
		id += count_of(dev, RTE_EVENT_DEV_XSTATS_PORT, p);
	if (mode == RTE_EVENT_DEV_XSTATS_QUEUE)
		id += number * count_of(dev, mode, 0);
	return EVD_DEVICE_STATS + id;
}

/* What an id is the id of; whether it is one. */
static bool find(const struct rte_eventdev *dev, uint64_t id, struct stat *to)
{
	static const enum rte_event_dev_xstats_mode modes[] = {RTE_EVENT_DEV_XSTATS_DEVICE, RTE_EVENT_DEV_XSTATS_PORT,
		RTE_EVENT_DEV_XSTATS_QUEUE};
	uint32_t n[] = {1, dev->data->nb_ports, dev->data->nb_queues}, m;
	for (m = 0; m < RTE_DIM(modes); m++)
		for (to->mode = modes[m], to->number = 0; to->number < n[m]; to->number++) {
			uint32_t count = count_of(dev, to->mode, to->number);
			to->place = (uint32_t)id;
			if (id < count)
				return true;
			id -= count;
		}
	return false;
}

static void name_of(const struct stat *stat, char *to)
{
	enum { SIZE = RTE_EVENT_DEV_XSTATS_NAME_SIZE };
	uint32_t behind;
	if (stat->mode == RTE_EVENT_DEV_XSTATS_DEVICE) {
		snprintf(to, SIZE, "dev_%s", device_names[stat->place]);
	} else if (stat->mode == RTE_EVENT_DEV_XSTATS_PORT && stat->place < EVD_PORT_STATS) {
		snprintf(to, SIZE, "port_%u_%s", stat->number, port_names[stat->place]);
	} else if (stat->mode == RTE_EVENT_DEV_XSTATS_PORT) {
		behind = stat->place - EVD_PORT_STATS;
		snprintf(to, SIZE, "port_%u_dequeues_returning_%u-%u", stat->number, 4 * behind + 1, 4 * behind + 4);
	} else if (stat->place < EVD_QUEUE_STATS) {
		snprintf(to, SIZE, "qid_%u_%s", stat->number, queue_names[stat->place]);
	} else {
		behind = stat->place - EVD_QUEUE_STATS;
		snprintf(to, SIZE, "qid_%u_port_%u_%s", stat->number, behind / EVD_QUEUE_PORT_STATS, share_names[behind % EVD_QUEUE_PORT_STATS]);
	}
}

static bool is_reset(const struct stat *stat)
{
	switch (stat->mode) {
	case RTE_EVENT_DEV_XSTATS_DEVICE:
		return true;
	case RTE_EVENT_DEV_XSTATS_PORT:
		return stat->place >= EVD_PORT_STATS || port_resets[stat->place];
	default:
		return stat->place < EVD_QUEUE_STATS ? queue_resets[stat->place] : (stat->place - EVD_QUEUE_STATS) % EVD_QUEUE_PORT_STATS == 1;
	}
}

/* What all queues accepted, or gave. */
static uint64_t sum_of_queues(const struct evd *device, bool is_given)
{
	uint32_t q, queues = evsched_info(device->running)->nb_event_queues;
	struct evsched_queue_stats stats;
	uint64_t sum = 0;
	for (q = 0; q < queues; q++)
		if (evsched_queue_stats(device->running, q, &stats) == 0)
			sum += is_given ? stats.tx : stats.rx_new + stats.rx_forwarded;
	return sum;
}

static uint64_t of_device(const struct evd *device, uint32_t place)
{
	struct evd_sweeps sweeps;
	evd_count_sweeps(device, &sweeps);
	switch (place) {
	case 0: return sum_of_queues(device, false);
	case 1: return sum_of_queues(device, true);
	case 3: return sweeps.sweeps;
	case 4: return sweeps.no_take;
	case 5: return sweeps.no_give;
	case 6: return sweeps.given_to;
	case 7: return device->did > 0;
	default: return 0; /* nothing is dropped: what isn't taken is refused */
	}
}

/* How many are in a ring of so many, of what was put in and what was taken out: these may be of two moments. */
static uint64_t fill(uint64_t in, uint64_t out, uint64_t room)
{
	return in <= out ? 0 : RTE_MIN(in - out, room);
}

/* What a port counts itself. */
static uint64_t of_port_itself(const struct evd_port *port, uint32_t place)
{
	switch (place) {
	case OWN_DROP: return evd_read(&port->dropped);
	case OWN_CYCLES: return 0; /* not measured */
	case OWN_POCKET: return evd_read(&port->pocket);
	case OWN_CALLS: return evd_dequeues(port, 0, EVSCHED_MAX_DEPTH);
	case OWN_ZERO: return evd_dequeues(port, 0, 0);
	default: return evd_dequeues(port, 4 * (place - EVD_PORT_STATS) + 1, 4 * (place - EVD_PORT_STATS) + 4);
	}
}

static uint64_t of_port(const struct evd *device, uint32_t number, uint32_t place)
{
	const struct evd_port *port = &device->ports[number];
	uint64_t sent = evd_read(&port->sent), received = evd_received(port);
	struct evsched_port_stats stats;
	uint64_t taken;
	if (evsched_port_stats(device->running, number, &stats) < 0)
		return 0;
	taken = stats.rx_new + stats.forwarded + stats.added + stats.released + stats.turned;
	switch (place) {
	case 0: return stats.rx_new + stats.forwarded + stats.added;
	case 1: return stats.tx;
	case 3: return stats.tx - stats.released - stats.forwarded;
	case OWN_TO_USED: return fill(sent, taken, EVSCHED_MAX_DEPTH);
	case OWN_TO_FREE: return EVSCHED_MAX_DEPTH - fill(sent, taken, EVSCHED_MAX_DEPTH);
	case OWN_FROM_USED: return fill(stats.tx, received, port->depth);
	case OWN_FROM_FREE: return port->depth - fill(stats.tx, received, port->depth);
	default: return of_port_itself(port, place);
	}
}

static uint64_t of_queue(const struct evd *device, uint32_t number, uint32_t place)
{
	struct evsched_queue_stats stats;
	struct evd_queue_now now;
	if (place >= EVD_QUEUE_STATS) {
		uint32_t behind = place - EVD_QUEUE_STATS;
		struct evd_share share;
		evd_count_share(device, number, behind / EVD_QUEUE_PORT_STATS, &share);
		return behind % EVD_QUEUE_PORT_STATS == 0 ? share.pinned : share.given;
	}
	evd_count_queue_now(device, number, &now);
	if (evsched_queue_stats(device->running, number, &stats) < 0)
		return 0;
	switch (place) {
	case 0: return stats.rx_new + stats.rx_forwarded;
	case 1: return stats.tx;
	case 2: return 0; /* nothing is dropped */
	case 3: return now.unanswered;
	default: return now.waiting[place - 4];
	}
}

/* A value as it stands, without resets; 0 while the device is stopped. Under the lock. */
static uint64_t value_of(const struct evd *device, const struct stat *stat)
{
	if (device->running == NULL)
		return 0;
	switch (stat->mode) {
	case RTE_EVENT_DEV_XSTATS_DEVICE: return of_device(device, stat->place);
	case RTE_EVENT_DEV_XSTATS_PORT: return of_port(device, stat->number, stat->place);
	default: return of_queue(device, stat->number, stat->place);
	}
}

/* Counts begin with a start; a device of evsched.h has made its first sweep then. */
void evd_xstats_begin(struct evd *device)
{
	struct evd_sweeps sweeps;
	memset(device->reset, 0, sizeof(device->reset));
	evd_count_sweeps(device, &sweeps);
	device->reset[3] = sweeps.sweeps;
	device->reset[4] = sweeps.no_take;
	device->reset[5] = sweeps.no_give;
}

int evd_xstats_names(const struct rte_eventdev *dev, enum rte_event_dev_xstats_mode mode, uint8_t number,
	struct rte_event_dev_xstats_name *names, uint64_t *ids, unsigned int size)
{
	struct stat stat = {mode, mode == RTE_EVENT_DEV_XSTATS_DEVICE ? 0 : number, 0};
	uint32_t count = count_of(dev, mode, stat.number), first = first_of(dev, mode, stat.number);
	if (mode > RTE_EVENT_DEV_XSTATS_QUEUE)
		return -EINVAL;
	if (count > size || names == NULL || ids == NULL)
		return (int)count;
	for (; stat.place < count; stat.place++) {
		name_of(&stat, names[stat.place].name);
		ids[stat.place] = first + stat.place;
	}
	return (int)count;
}

int evd_xstats_get(const struct rte_eventdev *dev, enum rte_event_dev_xstats_mode mode, uint8_t number, const uint64_t ids[],
	uint64_t values[], unsigned int n)
{
	uint32_t most = count_of(dev, mode, number); /* as with event_sw: no more are written, however large n is */
	struct evd *device = evd_of(dev);
	struct stat stat;
	unsigned int i;
	uint32_t got = 0;
	if (most == 0)
		return -EINVAL;
	evd_lock(device);
	for (i = 0; i < n && got < most; i++)
		if (find(dev, ids[i], &stat) && stat.mode == mode && (mode == RTE_EVENT_DEV_XSTATS_DEVICE || stat.number == number))
			values[got++] = value_of(device, &stat) - device->reset[ids[i]];
	evd_unlock(device);
	return (int)got;
}

uint64_t evd_xstats_by_name(const struct rte_eventdev *dev, const char *name, uint64_t *id)
{
	char of_this[RTE_EVENT_DEV_XSTATS_NAME_SIZE];
	struct evd *device = evd_of(dev);
	uint64_t value = UINT64_MAX;
	struct stat stat;
	uint64_t i;
	for (i = 0; find(dev, i, &stat); i++) {
		name_of(&stat, of_this);
		if (strncmp(of_this, name, sizeof(of_this)) == 0)
			break;
	}
	if (find(dev, i, &stat)) {
		*id = i;
		evd_lock(device);
		value = value_of(device, &stat) - device->reset[i];
		evd_unlock(device);
	}
	return value;
}

/* Resets one, where it is of the mode, and of the port or queue that is meant (-1: of any). Whether it is. */
static bool reset(struct rte_eventdev *dev, enum rte_event_dev_xstats_mode mode, int16_t number, uint64_t id)
{
	struct evd *device = evd_of(dev);
	struct stat stat;
	if (!find(dev, id, &stat) || stat.mode != mode)
		return false;
	if (mode != RTE_EVENT_DEV_XSTATS_DEVICE && number != -1 && stat.number != (uint32_t)number)
		return false;
	if (is_reset(&stat))
		device->reset[id] = value_of(device, &stat);
	return true;
}

/* Resets all of a mode that are meant. */
static void reset_all(struct rte_eventdev *dev, enum rte_event_dev_xstats_mode mode, int16_t number)
{
	struct stat stat;
	uint64_t id;
	for (id = 0; find(dev, id, &stat); id++)
		reset(dev, mode, number, id);
}

int evd_xstats_reset(struct rte_eventdev *dev, enum rte_event_dev_xstats_mode mode, int16_t number, const uint64_t ids[], uint32_t n)
{
	struct evd *device = evd_of(dev);
	int r = 0;
	uint32_t i;
	if (mode > RTE_EVENT_DEV_XSTATS_QUEUE || (number != -1 && count_of(dev, mode, (uint32_t)number) == 0))
		return -EINVAL;
	evd_lock(device);
	if (ids == NULL)
		reset_all(dev, mode, number);
	for (i = 0; ids != NULL && i < n; i++)
		if (!reset(dev, mode, number, ids[i]))
			r = -EINVAL;
	evd_unlock(device);
	return r;
}
