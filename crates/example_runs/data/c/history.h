/* SPDX-License-Identifier: BSD-3-Clause */
/*
 * Writes down what a program sees of an event device, for a judge of histories (docs/FORMATS.md, "A history"): each event that a port
 * enqueued or dequeued, with the times before and after the call. For rte_event_enqueue_burst and rte_event_dequeue_burst; a program that
 * includes <evsched.h> first has it for that library's calls. Each port has a `struct history`, which its thread alone uses; at the end
 * one thread writes them all. `implicit` says that a dequeue of the port releases what it holds; evsched.h's ports are asked.
 *
 *     struct history seen[] = {{.port = 0}, {.port = 1, .implicit = 1}};
 *     n = history_dequeue_burst(&seen[1], dev, ev, 32);
 *     if (history_write(stdout, seen, 2) != 0) ..
 */
#ifndef HISTORY_H
#define HISTORY_H

#include <stdint.h>
#include <stdio.h>
#include <stdlib.h>
#include <string.h>
#include <time.h>
#ifdef EVSCHED_VERSION
typedef struct evsched_event history_event;
typedef struct evsched_port *history_at;
#define HISTORY_ENQUEUE(h, at, ev, n) evsched_enqueue_burst(at, ev, n)
#define HISTORY_DEQUEUE(h, at, ev, n) evsched_dequeue_burst(at, ev, n)
#define HISTORY_HELD(h, at, n) evsched_held(at)
#else
#include <rte_eventdev.h>
typedef struct rte_event history_event;
typedef uint8_t history_at;
#define HISTORY_ENQUEUE(h, at, ev, n) rte_event_enqueue_burst(at, (h)->port, ev, n)
#define HISTORY_DEQUEUE(h, at, ev, n) rte_event_dequeue_burst(at, (h)->port, ev, n, 0)
#define HISTORY_HELD(h, at, n) ((h)->implicit ? (n) : (h)->held + (n))
#endif

struct history_entry {
	uint64_t began, ended;
	history_event ev;
	int is_got;
};

struct history {
	uint8_t port;
	int implicit, held;          /* held: how many events it dequeued and hasn't answered */
	size_t count, written, lost; /* entries; lost: those for which there was no memory */
	struct history_entry *entries;
};

static inline uint64_t history_now(void)
{
	struct timespec t;
	clock_gettime(1, &t); /* CLOCK_MONOTONIC, whose name a -std may hide */
	return (uint64_t)t.tv_sec * 1000000000 + (uint64_t)t.tv_nsec;
}

static inline void history_note(struct history *h, uint64_t began, uint64_t ended, history_event ev, int is_got)
{
	struct history_entry *at = h->entries, e = {began, ended, ev, is_got};
	if ((h->count & (h->count - 1)) == 0) /* 0 or a power of 2: it is full */
		at = (struct history_entry *)realloc(at, (h->count ? 2 * h->count : 1) * sizeof(e));
	if (!at) {
		h->lost++;
		return;
	}
	h->entries = at;
	at[h->count++] = e;
}

/* With nothing held a FORWARD brings an event in as a NEW does, and a RELEASE ends none. */
static inline uint16_t history_enqueue_burst(struct history *h, history_at at, const history_event ev[], uint16_t n)
{
	uint64_t began = history_now(), ended;
	uint16_t i;
	n = HISTORY_ENQUEUE(h, at, ev, n);
	ended = history_now();
	for (i = 0; i < n; i++) {
		history_event e = ev[i];
		if (h->held > 0)
			h->held -= e.op == 1 || e.op == 2;
		else if (e.op == 2)
			continue;
		else
			e.op = 0;
		history_note(h, began, ended, e, 0);
	}
	return n;
}

static inline uint16_t history_dequeue_burst(struct history *h, history_at at, history_event ev[], uint16_t n)
{
	uint64_t began = history_now(), ended;
	history_event release;
	int i, held;
	n = HISTORY_DEQUEUE(h, at, ev, n);
	ended = history_now();
	held = HISTORY_HELD(h, at, n);
	memset(&release, 0, sizeof(release));
	release.op = 2;
	for (i = held; i < h->held + n; i++)
		history_note(h, began, ended, release, 0);
	for (i = 0; i < n; i++)
		history_note(h, began, ended, ev[i], 1);
	h->held = held;
	return n;
}

/* Writes all entries in the order of their ends: 0, or -1 where there wasn't memory for all, or a write fails. */
static inline int history_write(FILE *out, struct history all[], unsigned int n)
{
	static const char *const ops[] = {"new", "forward", "release", "forward-more"};
	for (;;) {
		struct history *h = NULL;
		const struct history_entry *e;
		unsigned int i;
		for (i = 0; i < n; i++) {
			if (all[i].lost)
				return -1;
			if (all[i].written < all[i].count && (!h || all[i].entries[all[i].written].ended < h->entries[h->written].ended))
				h = &all[i];
		}
		if (!h)
			return fflush(out) ? -1 : 0;
		e = &h->entries[h->written++];
		if (fprintf(out, "{\"port\":%u,\"began\":%llu,\"ended\":%llu,\"%s\":\"%s\",\"queue\":%u,\"flow\":%u,\"sub_type\":%u,\"event_type\":%u,"
			"\"priority\":%u,\"payload\":%llu}\n", h->port, (unsigned long long)e->began, (unsigned long long)e->ended,
			e->is_got ? "got" : "sent", ops[e->ev.op], e->ev.queue_id, e->ev.flow_id, e->ev.sub_event_type, e->ev.event_type,
			e->ev.priority, (unsigned long long)e->ev.u64) < 0)
			return -1;
	}
}

#endif
