/* SPDX-License-Identifier: BSD-3-Clause */
/* What the files of the driver's own test share. */
#ifndef CALLS_H
#define CALLS_H

#include <stdbool.h>
#include <stdio.h>
#include <stdlib.h>
#include <string.h>

#include <rte_bus_vdev.h>
#include <rte_eal.h>
#include <rte_errno.h>
#include <rte_eventdev.h>
#include <rte_service.h>

#define NEW RTE_EVENT_OP_NEW
#define FORWARD RTE_EVENT_OP_FORWARD
#define RELEASE RTE_EVENT_OP_RELEASE

#define CHECK(is) check((is), __FILE__, __LINE__, #is)

/* How a device differs from the usual one: of 4,096 events, its queues atomic with 64 flows, all of its ports but the first linked to all. */
struct conf {
	int32_t limit;
	uint32_t single;      /* these queues have a single link */
	uint32_t flows, first_flows;
	uint8_t type;         /* of all queues, and one more, so that 0 is the usual one */
	bool keeps;           /* no implicit release */
	bool unlinked;        /* it isn't linked, nor started */
};

struct device {
	const char *name;
	uint8_t id, queues, ports;
	uint32_t service;
	uint64_t flushed, sum; /* what its stop gave back, and a port that was emptied: how many, and of their u64 */
};

extern int checks, failures;

void check(bool is, const char *file, int line, const char *text);
struct device *begin(const char *name, const char *arguments, uint8_t queues, uint8_t ports, const struct conf *conf);
void set_up(struct device *d, const struct conf *conf);
void end(struct device *d);
void forget(struct device *d);
void sweep(struct device *d);
void event(struct rte_event *ev, uint8_t op, uint8_t queue, uint64_t payload);
uint16_t put(struct device *d, uint8_t port, const struct rte_event ev[], uint16_t n);
uint16_t get(struct device *d, uint8_t port, struct rte_event ev[], uint16_t n);
uint64_t by_name(struct device *d, const char *name);
uint32_t links(struct device *d, uint8_t port);
bool says(struct device *d, const char *text);
void count_flush(uint8_t id, struct rte_event ev, void *arg);

/* calls_counts.c, calls_reader.c */
void test_counts(void);
void test_ids(void);
void test_stops(void);
void test_memory(void);
void test_two(void);
void test_reader(void);

#endif
