/* SPDX-License-Identifier: BSD-3-Clause */
/*
 * What soak.c, stats.c and watch.c share: checks, of which one that fails says so and ends the program, and random queues and ports.
 */
#ifndef DRAWS_H
#define DRAWS_H

#include <evsched.h>
#include <stdio.h>
#include <string.h>

enum { QUEUES = 4 };

/* What the device and the calls on it are drawn from, and which of its rounds or calls this is. */
static uint64_t seed, number;
static const char *numbered = "round";

#define CHECK(is) ((is) ? (void)0 : fail(__FILE__, __LINE__, #is))

static _Noreturn void fail(const char *file, int line, const char *text)
{
	printf("%s:%d: seed %llu, %s %llu: not so: %s\n", file, line, (unsigned long long)seed, numbered, (unsigned long long)number, text);
	fflush(stdout);
	_Exit(1);
}

static uint32_t any(uint64_t *random, uint32_t below)
{
	*random = *random * 6364136223846793005u + 1442695040888963407u;
	return (uint32_t)((*random >> 33) % below);
}

/* A queue of any type, priority, and number of slots, few or many: of four queues all slots that there may be. */
static void draw_queue(uint64_t *random, struct evsched_queue_conf *queue)
{
	queue->schedule_type = any(random, 3) & 3;
	queue->nb_atomic_flows = 1 + any(random, any(random, 2) ? 4 : EVSCHED_MAX_ALL_ATOMIC_FLOWS / QUEUES);
	queue->nb_atomic_order_sequences = 1 + any(random, any(random, 2) ? 4 : 64);
	queue->priority = (uint8_t)any(random, 256);
}

/* A single-link queue is a parallel one, whatever its type is. */
static int type_in(const struct evsched_dev_config *config, uint32_t q)
{
	return config->queue[q].event_queue_cfg ? EVSCHED_TYPE_PARALLEL : config->queue[q].schedule_type;
}

static void draw_port(uint64_t *random, struct evsched_port_conf *port)
{
	port->dequeue_depth = (uint16_t)(1 + any(random, EVSCHED_MAX_DEPTH));
	port->enqueue_depth = (uint16_t)(1 + any(random, EVSCHED_MAX_DEPTH));
	port->event_port_cfg = any(random, 2) ? EVSCHED_PORT_CFG_DISABLE_IMPL_REL : 0;
}

#endif
