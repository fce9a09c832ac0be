/* SPDX-License-Identifier: BSD-3-Clause */
/*
 * An event device for C and C++ programs, in the manner of DPDK's rte_eventdev.h.
 *
 * Ports enqueue events to queues and dequeue from the queues that they are linked to; evsched_sweep, called by the program in the
 * place of a service core, schedules; credits bound how many events are inside. Flows, priorities, NEW, FORWARD, RELEASE, implicit
 * release and single-link queues mean what they mean there. What differs:
 *
 * - A FORWARD or RELEASE answers the oldest event that its port holds, so answer in the order of the dequeues. Neither is a hint:
 *   with nothing held both are refused. A RELEASE gives its credit to the port at once.
 * - EVSCHED_OP_FORWARD_MORE adds an event beside the oldest one that the port holds, which stays held: up to four, each at a credit.
 *   They are accepted where that event's FORWARD is, or would be, and before it, so an ordered queue keeps them in its place.
 * - A queue has one scheduling type. An event's sched_type and rsvd don't count at an enqueue; a dequeue writes the queue's type.
 * - Configuration, links and start are one call. Links stay as they are.
 * - A stopped device reports where each event and each credit is that was left, and gives the events back: evsched_left.
 *
 * What is promised, however the threads run: an accepted event is delivered at most once, to a port that is linked to its queue, and
 * by the stop it was delivered or is reported. The events of one flow and priority level (priority / 64) of an atomic queue are
 * delivered in the order in which they were accepted, and one port at a time holds them. What an ordered queue's events are
 * forwarded as is accepted in the order in which they were given out. Free and used credits sum to nb_events_limit. After the shut
 * nothing new is accepted. The library's functions are proved to keep this; the inline functions of these headers, which call them,
 * are tested. Nothing is promised of time, fairness or progress.
 *
 * No compiler checks a C program, so four rules are its own duty:
 *
 * 1. One thread at a time uses a port, one the device (evsched_sweep, _inside, _dump, _queue_stats and their like) and one its shut
 *    (evsched_shut); these may be different threads at the same time. Any number of any threads may read statistics meanwhile, by
 *    evsched_stats_read and evsched_xstats_..., and call evsched_info and evsched_port. Where one thread goes on with a port or the
 *    device after another, a release of the one and an acquire of the other stand between, as in DPDK: an atomic store and load, a
 *    lock, a pthread_create or a pthread_join. They do, since what calls of a port read and write plainly is the port's own, and happens
 *    before then; words that other ports use too are read and written by atomic steps of the library's.
 * 2. While evsched_drain, _stop or _free runs, no other thread uses the device, its shut or a port; statistics may be read still, but
 *    not while evsched_free runs. After it nothing of the device is used.
 * 3. Nothing is called from a signal handler, or in the child of a fork.
 * 4. Devices and ports are those that evsched_create and evsched_port gave, an array has as many events as is said, and only these
 *    calls read or write a device's memory.
 *
 * What can be seen is refused: a bad configuration, a queue that isn't there, an answer with nothing held, a NEW after the shut, any
 * call after the stop. As in DPDK a burst returns how many, and the cause, a positive errno value, is what evsched_errno says; a call
 * that returns an int returns a refusal as a negative number: an errno value, or one of EVSCHED_E_ where a device is made.
 *
 * Each call below says what it does, what it returns, which thread may call it, and its errors. With EVSCHED_DEBUG defined the rules are
 * watched: evsched_debug.h says how.
 */
#ifndef EVSCHED_H
#define EVSCHED_H

#include <errno.h>
#include <sched.h>
#include <stdarg.h>
#include <stddef.h>
#include <stdint.h>
#include <stdio.h>
#include <stdlib.h>
#include <string.h>
#include <time.h>
#ifdef EVSCHED_DEBUG
#include <pthread.h>
#endif

#include "evsched_version.h"

#ifdef __cplusplus
extern "C" {
#endif

/* ---- types: events, a device's configuration, what it counts and reports ---- */

#include "evsched_types.h"

#include "evsched_lib.h"
#include "evsched_check.h"
#include "evsched_debug.h"
#include "evsched_wait.h"
#include "evsched_watch.h"

#if defined(__cplusplus) && defined(__GNUC__)
#pragma GCC diagnostic push
#pragma GCC diagnostic ignored "-Wshadow" /* g++ warns of a function that has a struct's name, as stat has */
#endif

/* ---- create ---- */

/*
 * The defaults of a queue: atomic, of normal priority, with 64 slots, or with its share of the 128. As rte_event_queue_default_conf_get.
 *   Returns  the queue's configuration, by config's nb_event_queues as it is now
 *   Thread   any
 */
static inline struct evsched_queue_conf evsched_queue_default_conf(const struct evsched_dev_config *config)
{
	struct evsched_queue_conf conf = {EVSCHED_MAX_ATOMIC_FLOWS, EVSCHED_MAX_ORDER_SEQUENCES, 0, EVSCHED_TYPE_ATOMIC,
		EVSCHED_PRIORITY_NORMAL, 0};
	if (config->nb_event_queues > EVSCHED_MAX_ALL_ATOMIC_FLOWS / EVSCHED_MAX_ATOMIC_FLOWS)
		conf.nb_atomic_flows = EVSCHED_MAX_ALL_ATOMIC_FLOWS / config->nb_event_queues;
	return conf;
}

/*
 * The defaults of a port: a threshold by the limit, 32 events held, a ring that takes 64 NEWs and answers, implicit release, and no links,
 * so set these. As rte_event_port_default_conf_get.
 *   Returns  the port's configuration
 *   Thread   any
 */
static inline struct evsched_port_conf evsched_port_default_conf(void)
{
	struct evsched_port_conf conf = {0, 32, EVSCHED_MAX_DEPTH, 0, 0};
	return conf;
}

/*
 * The defaults of a device: 4096 credits, drawn 32 at a time, sweeps of 64, and the defaults of queues and ports. Numbers that are changed
 * afterwards count: a threshold of 0 goes by the limit that evsched_create finds.
 *   Returns  the configuration
 *   Thread   any
 */
static inline struct evsched_dev_config evsched_dev_default_config(uint32_t nb_event_queues, uint32_t nb_event_ports)
{
	struct evsched_dev_config config;
	uint32_t i;
	config.nb_events_limit = 4096;
	config.nb_event_queues = nb_event_queues;
	config.nb_event_ports = nb_event_ports;
	config.credit_quanta = 32;
	config.sched_quanta = EVSCHED_MAX_SCHED_QUANTA;
	config.event_dev_cfg = 0;
	for (i = 0; i < EVSCHED_MAX_QUEUES; i++)
		config.queue[i] = evsched_queue_default_conf(&config);
	for (i = 0; i < EVSCHED_MAX_PORTS; i++)
		config.port[i] = evsched_port_default_conf();
	return config;
}

/*
 * Says what is wrong with a configuration, and where: "port 2: new_event_threshold 4096 is above nb_events_limit 1024". It allocates
 * nothing and makes nothing.
 *   Returns  what evsched_create returns of this configuration, memory being ample. The sentence is in `text`, of `size` bytes, cut where
 *            that is too short; "" where nothing is wrong. A `size` of 0 writes nothing
 *   Thread   any
 *   Errors   -EVSCHED_E_...
 */
static inline int evsched_check(const struct evsched_dev_config *config, char *text, size_t size)
{
	struct evsched_dev_config resolved;
	struct evsched_priv_text to = {text, size};
	if (size > 0)
		text[0] = '\0';
	evsched_priv_resolve(&resolved, config);
	return evsched_priv_judge(&resolved, &to);
}

/*
 * How many bytes a device's block has. What it allocates beside that comes from malloc, all of it when it is made, but for the lists of
 * what is left: a stop's, and after the shut a sweep's, of the NEWs that it turns away.
 *   Returns  the bytes
 *   Thread   any
 */
static inline size_t evsched_size(uint32_t nb_event_ports)
{
	size_t ports = evsched_priv_ports(nb_event_ports);
	return evsched_priv_up(sizeof(struct evsched)) + evsched_priv_up(evsched_hub_size()) + evsched_priv_up(evsched_control_size())
		+ ports * evsched_priv_stride() + evsched_priv_said_size(ports) + evsched_priv_reset_size(ports);
}

/*
 * Makes a device in `memory`, evsched_size bytes of the program's, aligned to 64, which are the program's again when it is refused, or
 * after evsched_free.
 *   Returns  0; refused, *dev is NULL and nothing is left
 *   Thread   any
 *   Errors   -EVSCHED_E_UNALIGNED; those of evsched_create
 */
static inline int evsched_create_in(void *memory, const struct evsched_dev_config *config, struct evsched **dev)
{
	struct evsched *made;
	int64_t why;
	*dev = NULL;
	if (!memory || (uintptr_t)memory % EVSCHED_PRIV_LINE)
		return -EVSCHED_E_UNALIGNED;
	if (evsched_priv_reserved(config) < EVSCHED_MAX_QUEUES)
		return -EVSCHED_E_RESERVED;
	made = evsched_priv_lay_out(memory, evsched_priv_ports(config->nb_event_ports));
	evsched_priv_resolve(&made->config, config);
	evsched_hub_init(made->hub, &made->config);
	why = evsched_hub_why(made->hub);
	if (why == 0)
		why = evsched_hub_sweep(made->hub); /* of nothing yet: it takes the memory that all sweeps up to the shut need */
	if (why < 0) {
		evsched_hub_clear(made->hub);
		return (int)why;
	}
	evsched_priv_number(made);
	evsched_priv_hand_out(made);
	evsched_priv_publish_all(made);
	*dev = made;
	return 0;
}

/*
 * Makes a device: rte_event_dev_configure, rte_event_queue_setup, rte_event_port_setup, rte_event_port_link and rte_event_dev_start in
 * one.
 *   Returns  0; refused, *dev is NULL and nothing is left
 *   Thread   any
 *   Errors   -ENOMEM; -EVSCHED_E_...: what is wrong with the configuration
 */
static inline int evsched_create(const struct evsched_dev_config *config, struct evsched **dev)
{
	void *base = malloc(evsched_size(config->nb_event_ports) + EVSCHED_PRIV_LINE);
	int r;
	*dev = NULL;
	if (!base)
		return -ENOMEM;
	r = evsched_create_in((unsigned char *)base + (EVSCHED_PRIV_LINE - (uintptr_t)base % EVSCHED_PRIV_LINE), config, dev);
	if (r < 0)
		free(base);
	else
		(*dev)->base = base;
	return r;
}

/*
 * Lets go of a device, stopped or not, and of its ports. NULL is let be. It isn't called from a flush.
 *   Thread   one, while no other uses the device, its shut or a port
 */
static inline void evsched_free(struct evsched *dev)
{
	uint32_t p;
	if (!dev)
		return;
	evsched_priv_watch_free(dev, __func__);
	evsched_priv_enter_all(dev, __func__);
	for (p = 0; p < dev->config.nb_event_ports; p++)
		evsched_port_clear(evsched_priv_at(evsched_priv_port(dev, p)));
	evsched_control_clear(dev->control);
	evsched_hub_clear(dev->hub);
	evsched_priv_let_go(dev);
}

/*
 * A port by its number.
 *   Returns  the port, the same at each call; NULL where there is none
 *   Thread   any
 */
static inline struct evsched_port *evsched_port(struct evsched *dev, uint32_t port)
{
	evsched_priv_watch_device(dev, __func__);
	return port < dev->config.nb_event_ports ? evsched_priv_port(dev, port) : NULL;
}

/* ---- enqueue ---- */

/*
 * Enqueues the events in their order, up to the first that is refused; it and those after it are the program's still. A refused event
 * changes nothing of what is held or was enqueued. Only op and queue_id are judged, of a RELEASE op alone. As rte_event_enqueue_burst.
 *   Returns  how many; where fewer than nb_events, evsched_errno says why the next one wasn't
 *   Thread   the port's
 *   Errors   in evsched_errno, judged in this order; ENOSPC, EAGAIN and ENOBUFS pass, as events are answered and sweeps run:
 *     NEW            ESHUTDOWN; EINVAL: the queue; ENOSPC: the threshold; EAGAIN: other ports were quicker; ENOBUFS: the ring is full
 *     FORWARD        EINVAL; ENOENT: nothing is held; ENOBUFS
 *     FORWARD_MORE   EINVAL; ENOENT; E2BIG: it is the fifth; with no credit in the port ESHUTDOWN, ENOSPC, EAGAIN; ENOBUFS
 *     RELEASE        ENOENT; ENOBUFS
 *     any            ENODEV: after the stop
 */
static inline uint16_t evsched_enqueue_burst(struct evsched_port *port, const struct evsched_event ev[], uint16_t nb_events)
{
	uintptr_t before = evsched_priv_enter_port(port, __func__);
	uint16_t done;
	evsched_priv_comes_before(port->dev);
	done = evsched_priv_enqueue(port, ev, nb_events);
	evsched_priv_comes_behind(port->dev->control);
	evsched_priv_answer_port(port);
	evsched_priv_leave_port(port, before);
	return done;
}

/*
 * The same, for bursts of NEWs and of FORWARDs alone. They don't set op. As rte_event_enqueue_new_burst and _forward_burst.
 *   Returns, Thread, Errors   as evsched_enqueue_burst
 */
static inline uint16_t evsched_enqueue_new_burst(struct evsched_port *port, const struct evsched_event ev[], uint16_t nb_events)
{
	return evsched_enqueue_burst(port, ev, nb_events);
}

static inline uint16_t evsched_enqueue_forward_burst(struct evsched_port *port, const struct evsched_event ev[], uint16_t nb_events)
{
	return evsched_enqueue_burst(port, ev, nb_events);
}

/*
 * As rte_errno, of a port: why its last enqueue ended before its burst did, or why its last dequeue was refused.
 *   Returns  the cause, a positive errno value; 0 where nothing was refused
 *   Thread   the port's
 */
static inline int evsched_errno(struct evsched_port *port)
{
	uintptr_t before = evsched_priv_enter_port(port, __func__);
	int why = (int)-evsched_port_why(evsched_priv_at(port));
	evsched_priv_leave_port(port, before);
	return why;
}

/*
 * Whether a cause passes of itself: credits (ENOSPC, EAGAIN) or places in a ring (ENOBUFS) are lacking just now.
 *   Returns  1 where the same call may be served later, else 0
 *   Thread   any; the cause is one of evsched_errno's, or a refusal that a call returned: either sign will do
 */
static inline int evsched_may_retry(int cause)
{
	return cause == ENOSPC || cause == EAGAIN || cause == ENOBUFS || cause == -ENOSPC || cause == -EAGAIN || cause == -ENOBUFS;
}

/*
 * What a refusal means, in words.
 *   Returns  a text that stays; "unknown" for a number that is no refusal
 *   Thread   any; either sign will do
 */
static inline const char *evsched_strerror(int code)
{
	return evsched_priv_words(code > 0 ? -code : code);
}

/* ---- dequeue ---- */

/*
 * Dequeues at most nb_events, at most 64, and no more than the port may hold. Fewer come only where it has seen no more in its ring. With
 * implicit release all that is held is released first, also where nb_events is 0; where the ring is too full for that, some may be
 * released, the rest stays held, and nothing is received. It doesn't wait. As rte_event_dequeue_burst.
 *   Returns  how many; 0 where nothing was there or it was refused: then evsched_errno isn't 0
 *   Thread   the port's
 *   Errors   in evsched_errno: ENOBUFS: the releases found the ring full; ENODEV: after the stop
 */
static inline uint16_t evsched_dequeue_burst(struct evsched_port *port, struct evsched_event ev[], uint16_t nb_events)
{
	uintptr_t before = evsched_priv_enter_port(port, __func__);
	struct evsched_event none;
	int64_t n;
	evsched_priv_comes_before_release(port);
	n = evsched_port_dequeue(evsched_priv_at(port), nb_events ? ev : &none, nb_events);
	evsched_priv_comes_behind(port->dev);
	evsched_priv_answer_port(port);
	evsched_priv_leave_port(port, before);
	return n < 0 ? 0 : (uint16_t)n;
}

/*
 * The same, but where nothing is there it tries again until the time is over: at first at once, then it yields the processor, then it
 * sleeps some 10 microseconds between two tries, so it may return that much late. A port that holds as many as it may receives nothing.
 * As rte_event_dequeue_burst with timeout_ticks, in nanoseconds.
 *   Returns  how many; 0 where nothing came in that time, nb_events is 0, or it was refused: then evsched_errno isn't 0
 *   Thread   the port's
 *   Errors   in evsched_errno: ENOBUFS, ENODEV, as above; it doesn't wait then
 */
static inline uint16_t evsched_dequeue_wait(struct evsched_port *port, struct evsched_event ev[], uint16_t nb_events, uint64_t timeout_ns)
{
	uintptr_t before = evsched_priv_enter_port(port, __func__);
	uint64_t start = 0;
	uint32_t turn = 0;
	uint16_t n;
	while ((n = evsched_dequeue_burst(port, ev, nb_events)) == 0 && nb_events > 0 && evsched_errno(port) == 0
		&& !evsched_priv_is_over(&start, timeout_ns))
		evsched_priv_pause(turn++);
	evsched_priv_leave_port(port, before);
	return n;
}

/*
 * How many events the port holds: dequeued and not answered.
 *   Returns  how many
 *   Thread   the port's
 *   Errors   -ENODEV
 */
static inline int evsched_held(struct evsched_port *port)
{
	uintptr_t before = evsched_priv_enter_port(port, __func__);
	int held = (int)evsched_port_held(evsched_priv_at(port));
	evsched_priv_leave_port(port, before);
	return held;
}

/* Releases all that a port holds, which the program has: 0, or why not. */
static inline int evsched_priv_release(struct evsched_port *port)
{
	struct evsched_event release[32];
	int i, n;
	for (i = 0; i < 32; i++) {
		release[i].event = 0;
		release[i].u64 = 0;
		release[i].op = EVSCHED_OP_RELEASE;
	}
	while ((n = evsched_held(port)) > 0)
		if (evsched_enqueue_burst(port, release, (uint16_t)(n < 32 ? n : 32)) == 0)
			return -evsched_errno(port);
	return n;
}

/* Dequeues once, and hands to `flush` what came: how many. */
static inline int evsched_priv_flush(struct evsched_port *port, evsched_flush_t flush, void *arg)
{
	struct evsched_event ev[32];
	int n = evsched_dequeue_burst(port, ev, 32), i;
	evsched_priv_flushes(port->dev, 1);
	for (i = 0; i < n && flush; i++)
		flush(port->dev, ev[i], arg);
	evsched_priv_flushes(port->dev, -1);
	return n;
}

/*
 * Empties a port: releases what it holds, which the program has, and dequeues until nothing comes; `flush` gets each event that it
 * dequeues, once, and all of them are released. As rte_event_port_quiesce. It waits for no sweep: where none runs it ends at the latest
 * when the port's ring is full of releases. As long as sweeps give the port more it goes on.
 *   Returns  0: the port holds nothing, and nothing was in its ring
 *   Thread   the port's
 *   Errors   -ENOBUFS: the ring is full, and the port still holds events, which the program has or `flush` was given: it may be called
 *            again after a sweep, and releases them first; -ENODEV
 */
static inline int evsched_quiesce(struct evsched_port *port, evsched_flush_t flush, void *arg)
{
	uintptr_t before = evsched_priv_enter_port(port, __func__);
	int r;
	do
		r = evsched_priv_release(port);
	while (r == 0 && evsched_priv_flush(port, flush, arg) > 0);
	evsched_priv_leave_port(port, before);
	return r;
}

/* ---- sweep ---- */

/*
 * One sweep: it takes what ports enqueued, and gives events to ports.
 *   Returns  how many it took and gave, so 0 where nothing was to do
 *   Thread   the device's
 *   Errors   -ENOMEM, and nothing has changed; -ENODEV
 */
static inline int evsched_sweep(struct evsched *dev)
{
	uintptr_t before = evsched_priv_enter(dev, __func__);
	int did;
	evsched_priv_comes_before(dev);
	did = (int)evsched_hub_sweep(dev->hub);
	evsched_priv_comes_behind(dev);
	evsched_priv_comes_behind(dev->control);
	evsched_priv_answer(dev, did);
	evsched_priv_leave(dev, before);
	return did;
}

/*
 * How many events wait, are unanswered or are kept, as far as sweeps know: what ports enqueued since the last one doesn't count.
 *   Returns  how many
 *   Thread   the device's
 *   Errors   -ENODEV
 */
static inline int evsched_inside(struct evsched *dev)
{
	uintptr_t before = evsched_priv_enter(dev, __func__);
	int inside = (int)evsched_hub_inside(dev->hub);
	evsched_priv_leave(dev, before);
	return inside;
}

/* ---- stop ---- */

/*
 * From now on a port refuses a NEW as soon as it sees the shut, and sweeps turn away those that are in rings, which evsched_left gives
 * back. What is inside may be processed to its end.
 *   Returns  0
 *   Thread   one at a time, whichever
 *   Errors   -ENODEV
 */
static inline int evsched_shut(struct evsched *dev)
{
	uintptr_t before = evsched_priv_enter_shut(dev, __func__);
	int r;
	evsched_priv_comes_before(dev->control);
	r = (int)evsched_control_shut(dev->control);
	evsched_priv_leave_shut(dev, before);
	return r;
}

/* A sweep, and all that comes of it, is released and flushed: whether there was something to do. */
static inline int evsched_priv_drain_once(struct evsched *dev, evsched_flush_t flush, void *arg)
{
	int did = evsched_sweep(dev);
	uint32_t p;
	for (p = 0; did >= 0 && p < dev->config.nb_event_ports; p++) {
		struct evsched_port *port = evsched_priv_port(dev, p);
		did |= evsched_held(port);
		evsched_priv_release(port);
		did |= evsched_priv_flush(port, flush, arg);
	}
	return did;
}

/*
 * Empties a device: releases what ports hold, which the program has, and sweeps and dequeues until nothing is inside; `flush` gets each
 * event that it dequeues, once. Before the shut this is every event that was enqueued; after it NEWs that sweeps turn away come from
 * evsched_left.
 *   Returns  0
 *   Thread   one, while no other uses the device, its shut or a port
 *   Errors   -ENOMEM: nothing is lost, and it may be called again; -ENODEV
 */
static inline int evsched_drain(struct evsched *dev, evsched_flush_t flush, void *arg)
{
	int did;
	evsched_priv_enter_all(dev, __func__);
	do
		did = evsched_priv_drain_once(dev, flush, arg);
	while (did > 0 || (did == 0 && evsched_inside(dev) > 0));
	evsched_priv_leave_all(dev);
	return did;
}

/*
 * Takes the device apart. It doesn't drain and doesn't sweep. From then on calls of the device, its shut and its ports are refused, and
 * evsched_report and evsched_left tell what was left.
 *   Returns  0
 *   Thread   one, while no other uses the device, its shut or a port
 *   Errors   -ENOMEM: nothing has changed, and it may be called again; -ENODEV
 */
static inline int evsched_stop(struct evsched *dev)
{
	uint32_t p;
	int r;
	evsched_priv_enter_all(dev, __func__);
	evsched_priv_publish_all(dev);
	for (p = 0; p < dev->config.nb_event_ports; p++)
		evsched_hub_join(dev->hub, evsched_priv_at(evsched_priv_port(dev, p)));
	evsched_hub_join_control(dev->hub, dev->control);
	r = (int)evsched_hub_stop(dev->hub);
	if (r == 0)
		evsched_priv_fall_silent(dev);
	evsched_priv_hand_out(dev);
	evsched_priv_leave_all(dev);
	return r;
}

/*
 * Where the stop found credits and events.
 *   Returns  0
 *   Thread   the device's
 *   Errors   -ENODEV: before the stop
 */
static inline int evsched_report(struct evsched *dev, struct evsched_report *report)
{
	uintptr_t before = evsched_priv_enter(dev, __func__);
	int64_t r = evsched_hub_report(dev->hub, (uint64_t *)report, sizeof(*report) / sizeof(uint64_t));
	evsched_priv_leave(dev, before);
	return evsched_priv_done(r);
}

/*
 * Gives back the next events, at most n, that the stop found, so that the program frees what they stand for. Each is given once.
 *   Returns  how many; 0 where no more are left
 *   Thread   the device's
 *   Errors   -ENODEV: before the stop
 */
static inline int evsched_left(struct evsched *dev, struct evsched_left *left, uint32_t n)
{
	uintptr_t before = evsched_priv_enter(dev, __func__);
	struct evsched_left none;
	int got = (int)evsched_hub_left(dev->hub, n ? left : &none, n);
	evsched_priv_leave(dev, before);
	return got;
}

/* ---- statistics: what was counted, and the configuration; for any thread there is evsched_stats_read (evsched_watch.h) ---- */

#include "evsched_stats.h"
#include "evsched_xstats.h"

#if defined(__cplusplus) && defined(__GNUC__)
#pragma GCC diagnostic pop
#endif

#ifdef __cplusplus
}
#endif
#endif
