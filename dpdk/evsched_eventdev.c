/* SPDX-License-Identifier: BSD-3-Clause */
/*
 * A DPDK event driver over evsched.h: `--vdev=event_evsched0`. This file has its probing and removing; README.md says what of DPDK's calls
 * becomes what.
 */
#include "evsched_eventdev.h"

#include <stdarg.h>
#include <string.h>

#include <bus_vdev_driver.h>
#include <rte_service_component.h>

RTE_LOG_REGISTER(evd_logtype, pmd.event.evsched, NOTICE);

void evd_log(uint32_t level, const char *name, const char *format, ...)
{
	char line[256];
	va_list words;
	va_start(words, format);
	vsnprintf(line, sizeof(line), format, words);
	va_end(words);
	rte_log(level, (uint32_t)evd_logtype, "%s: %s\n", name, line);
}

static const struct eventdev_ops calls = {
	.dev_infos_get = evd_info_get,
	.dev_configure = evd_configure,
	.dev_start = evd_start,
	.dev_stop = evd_stop,
	.dev_close = evd_close,
	.queue_def_conf = evd_queue_def_conf,
	.queue_setup = evd_queue_setup,
	.queue_release = evd_queue_release,
	.port_def_conf = evd_port_def_conf,
	.port_setup = evd_port_setup,
	.port_release = evd_port_release,
	.port_quiesce = evd_port_quiesce,
	.port_link = evd_port_link,
	.port_unlink = evd_port_unlink,
	.dump = evd_dump,
	.xstats_get_names = evd_xstats_names,
	.xstats_get = evd_xstats_get,
	.xstats_get_by_name = evd_xstats_by_name,
	.xstats_reset = evd_xstats_reset,
};

/* Registers the service that sweeps: 0, or why not. */
static int register_service(struct rte_eventdev *dev)
{
	struct evd *device = evd_of(dev);
	struct rte_service_spec spec;
	int r;
	memset(&spec, 0, sizeof(spec));
	snprintf(spec.name, sizeof(spec.name), "%.23s_service", dev->data->name); /* 32 bytes */
	spec.socket_id = dev->data->socket_id;
	spec.callback = evd_sweep;
	spec.callback_userdata = device;
	r = rte_service_component_register(&spec, &device->service);
	if (r == 0) {
		dev->data->service_inited = 1;
		dev->data->service_id = device->service;
	}
	return r;
}

static void prepare(struct rte_eventdev *dev, const struct evd_arguments *arguments)
{
	struct evd *device = evd_of(dev);
	uint32_t p;
	device->eventdev = dev;
	device->ops = calls;
	device->arguments = *arguments;
	for (p = 0; p < EVSCHED_MAX_PORTS; p++) {
		device->ports[p].device = device;
		device->ports[p].number = (uint8_t)p;
	}
	dev->dev_ops = &device->ops;
	dev->enqueue = evd_enqueue;
	dev->enqueue_burst = evd_enqueue_burst;
	dev->enqueue_new_burst = evd_enqueue_burst;
	dev->enqueue_forward_burst = evd_enqueue_burst;
	dev->dequeue = evd_dequeue;
	dev->dequeue_burst = evd_dequeue_burst;
}

static int probe(struct rte_vdev_device *vdev)
{
	const char *name = rte_vdev_device_name(vdev);
	struct evd_arguments arguments;
	struct rte_eventdev *dev;
	int r;
	if (rte_eal_process_type() != RTE_PROC_PRIMARY) {
		evd_log(RTE_LOG_ERR, name, "only a primary process has this device: its memory isn't shared");
		return -ENOTSUP;
	}
	r = evd_read_arguments(name, rte_vdev_device_args(vdev), &arguments);
	if (r < 0)
		return r;
	dev = rte_event_pmd_vdev_init(name, sizeof(struct evd), (int)arguments.numa_node, vdev);
	if (dev == NULL) {
		evd_log(RTE_LOG_ERR, name, "no event device could be allocated");
		return -ENOMEM;
	}
	prepare(dev, &arguments);
	r = register_service(dev);
	if (r < 0) {
		evd_log(RTE_LOG_ERR, name, "its service could not be registered: %s", rte_strerror(-r));
		rte_event_pmd_release(dev);
		return r;
	}
	event_dev_probing_finish(dev);
	return 0;
}

static int remove_device(struct rte_vdev_device *vdev)
{
	const char *name = rte_vdev_device_name(vdev);
	struct rte_eventdev *dev = rte_event_pmd_get_named_dev(name);
	uint32_t service;
	int r;
	if (dev == NULL)
		return -ENODEV;
	service = evd_of(dev)->service;
	r = rte_event_pmd_vdev_uninit(name);
	if (r == 0)
		rte_service_component_unregister(service);
	return r;
}

static struct rte_vdev_driver evsched_driver = {
	.probe = probe,
	.remove = remove_device,
};

RTE_PMD_REGISTER_VDEV(EVD_DRIVER, evsched_driver);
RTE_PMD_REGISTER_PARAM_STRING(EVD_DRIVER, "credit_quanta=<1..16384> sched_quanta=<1..64> max_events=<1..16384> max_depth=<1..4096> "
	"numa_node=<n> bad_queue=refuse|drop unheld=new|refuse relink=refuse|next");
