/* SPDX-License-Identifier: BSD-3-Clause */
/* rte_event_dev_dump. It is written into memory under the lock, so that no sweep waits for a file. */
#include "evsched_eventdev.h"

#include <inttypes.h>
#include <stdlib.h>

static void dump_port(const struct evd_port *port, FILE *to)
{
	fprintf(to, "port %u, of its own: enqueued %" PRIu64 ", dequeued %" PRIu64 ", credits %" PRIu64 ", dropped %" PRIu64 ", dequeues %" PRIu64
		", of these with nothing %" PRIu64 "\n", port->number, evd_read(&port->sent), evd_received(port), evd_read(&port->pocket),
		evd_read(&port->dropped), evd_dequeues(port, 0, EVSCHED_MAX_DEPTH), evd_dequeues(port, 0, 0));
}

static void dump_device(const struct evd *device, uint32_t ports, FILE *to)
{
	uint32_t p;
	fprintf(to, "%s: ", device->eventdev->data->name);
	if (device->running == NULL) {
		fprintf(to, "stopped\n");
		return;
	}
	evsched_dump(device->running, to);
	for (p = 0; p < ports; p++)
		dump_port(&device->ports[p], to);
}

void evd_dump(struct rte_eventdev *dev, FILE *to)
{
	struct evd *device = evd_of(dev);
	char *text = NULL;
	size_t length = 0;
	FILE *in_memory = open_memstream(&text, &length);
	if (in_memory == NULL) {
		fprintf(to, "%s: no memory for a dump\n", dev->data->name);
		return;
	}
	evd_lock(device);
	dump_device(device, dev->data->nb_ports, in_memory);
	evd_unlock(device);
	fclose(in_memory);
	fwrite(text, 1, length, to);
	free(text);
}
