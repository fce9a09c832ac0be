/* SPDX-License-Identifier: BSD-3-Clause */
/* The event's layout beside DPDK's, where its headers are installed: random events, bit by bit, and the numbers that a word holds. */
#include <evsched.h>
#include <rte_eventdev.h>
#include <stdio.h>
#include <string.h>

#define SAME(field) (ours.field == theirs.field)

static uint64_t seed = 1;

static uint64_t any(void)
{
	seed ^= seed << 13;
	seed ^= seed >> 7;
	return seed ^= seed << 17;
}

static int is_same(struct evsched_event ours, struct rte_event theirs)
{
	return SAME(event) && SAME(flow_id) && SAME(sub_event_type) && SAME(event_type) && SAME(op) && SAME(rsvd) && SAME(sched_type)
		&& SAME(queue_id) && SAME(priority) && SAME(impl_opaque) && SAME(u64) && SAME(event_ptr);
}

/* The event that has these fields, written one by one. */
static struct evsched_event written(struct rte_event from)
{
	struct evsched_event ev;
	ev.event = 0;
	ev.flow_id = from.flow_id;
	ev.sub_event_type = from.sub_event_type & 0xff;
	ev.event_type = from.event_type & 0xf;
	ev.op = from.op & 3;
	ev.rsvd = from.rsvd & 15;
	ev.sched_type = from.sched_type & 3;
	ev.queue_id = from.queue_id;
	ev.priority = from.priority;
	ev.impl_opaque = from.impl_opaque;
	ev.u64 = from.u64;
	return ev;
}

int main(void)
{
	struct rte_event theirs;
	struct evsched_event ours;
	long i, failures = 0;
	failures += sizeof(ours) != sizeof(theirs) || EVSCHED_OP_NEW != RTE_EVENT_OP_NEW || EVSCHED_OP_FORWARD != RTE_EVENT_OP_FORWARD
		|| EVSCHED_OP_RELEASE != RTE_EVENT_OP_RELEASE || EVSCHED_TYPE_ORDERED != RTE_SCHED_TYPE_ORDERED
		|| EVSCHED_TYPE_ATOMIC != RTE_SCHED_TYPE_ATOMIC || EVSCHED_TYPE_PARALLEL != RTE_SCHED_TYPE_PARALLEL
		|| EVSCHED_PRIORITY_HIGHEST != RTE_EVENT_DEV_PRIORITY_HIGHEST || EVSCHED_PRIORITY_NORMAL != RTE_EVENT_DEV_PRIORITY_NORMAL
		|| EVSCHED_PRIORITY_LOWEST != RTE_EVENT_DEV_PRIORITY_LOWEST || EVSCHED_QUEUE_CFG_SINGLE_LINK != RTE_EVENT_QUEUE_CFG_SINGLE_LINK
		|| EVSCHED_PORT_CFG_DISABLE_IMPL_REL != RTE_EVENT_PORT_CFG_DISABLE_IMPL_REL
		|| EVSCHED_PORT_CFG_HINT_PRODUCER != RTE_EVENT_PORT_CFG_HINT_PRODUCER
		|| EVSCHED_PORT_CFG_HINT_CONSUMER != RTE_EVENT_PORT_CFG_HINT_CONSUMER
		|| EVSCHED_PORT_CFG_HINT_WORKER != RTE_EVENT_PORT_CFG_HINT_WORKER;
	for (i = 0; i < 1000000; i++) {
		theirs.event = any();
		theirs.u64 = any();
		memcpy(&ours, &theirs, sizeof(ours));
		failures += !is_same(ours, theirs) || !is_same(written(theirs), theirs);
	}
	printf("layout: %ld events, %ld failures\n", i, failures);
	return failures > 0;
}
