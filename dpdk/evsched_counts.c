/* SPDX-License-Identifier: BSD-3-Clause */
/* What the library says of a device that runs, to the xstats and the dump. All of it under the device's lock. */
#include "evsched_eventdev.h"

#include <string.h>

enum { OF_SWEEPS = 193 };

void evd_count_sweeps(const struct evd *device, struct evd_sweeps *to)
{
	uint64_t counts[5] = {0}, given;
	uint32_t p;
	evsched_hub_counts(device->running->hub, OF_SWEEPS, counts, RTE_DIM(counts));
	to->sweeps = counts[0];
	to->no_take = counts[3];
	to->no_give = counts[4];
	to->given_to = 0;
	for (p = 0; p < evsched_info(device->running)->nb_event_ports; p++)
		if (evsched_hub_now(device->running->hub, EVSCHED_MAX_QUEUES + p, &given, 1) == 0 && given > 0)
			to->given_to |= UINT64_C(1) << p;
}

void evd_count_queue_now(const struct evd *device, uint32_t queue, struct evd_queue_now *to)
{
	memset(to, 0, sizeof(*to));
	evsched_hub_now(device->running->hub, queue, (uint64_t *)to, sizeof(*to) / sizeof(uint64_t));
}

void evd_count_share(const struct evd *device, uint32_t queue, uint32_t port, struct evd_share *to)
{
	memset(to, 0, sizeof(*to));
	evsched_hub_shares(device->running->hub, queue, port, (uint64_t *)to, sizeof(*to) / sizeof(uint64_t));
}
