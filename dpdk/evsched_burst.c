/* SPDX-License-Identifier: BSD-3-Clause */
/*
 * A port's enqueues and dequeues. An event of DPDK is one of evsched.h bit for bit, so bursts are read and written in place. What DPDK allows
 * and evsched.h refuses is dealt with after the refusal, so that it costs nothing where it doesn't happen.
 */
#include "evsched_eventdev.h"

static_assert(sizeof(struct rte_event) == sizeof(struct evsched_event), "an event has 16 bytes");

enum { OP_SHIFT = 32, OP_MASK = 3 };

/* An event's op, and what lies above it. */
static __rte_always_inline uint32_t op_of(const struct rte_event *ev)
{
	return (uint32_t)(ev->event >> OP_SHIFT);
}

/* Whether one of some events may have an op that DPDK doesn't have: both FORWARD and RELEASE. A burst of both kinds may, too. */
static __rte_always_inline bool may_have_unknown(const struct rte_event ev[], uint64_t n)
{
	const struct rte_event *end = ev + n;
	uint32_t any = 0;
#pragma GCC unroll 1
	for (; n & 7; n--)
		any |= op_of(--end);
#pragma GCC unroll 1
	for (; end != ev; end -= 8)
		any |= op_of(end - 1) | op_of(end - 2) | op_of(end - 3) | op_of(end - 4)
			| op_of(end - 5) | op_of(end - 6) | op_of(end - 7) | op_of(end - 8);
	return (any & OP_MASK) == OP_MASK;
}

/* How many events come before the first one whose op DPDK doesn't have. */
static uint16_t before_unknown(const struct rte_event ev[], uint16_t n)
{
	uint16_t i = 0;
	while (i < n && (op_of(&ev[i]) & OP_MASK) != EVSCHED_OP_FORWARD_MORE)
		i++;
	return i;
}

/* So many more were enqueued. */
static __rte_always_inline void note(struct evd_port *port, uint64_t done)
{
	evd_write(&port->pocket, evd_pocket(port));
	evd_write(&port->sent, port->sent + done);
}

/* Enqueues what the library takes. */
static inline uint16_t put(struct evd_port *port, const struct rte_event ev[], uint16_t n)
{
	uint16_t done = evsched_enqueue_burst(port->port, (const struct evsched_event *)ev, n);
	note(port, done);
	return done;
}

/* Refuses an event, and says why once in the port's run. */
static bool refuse(struct evd_port *port, uint32_t what, const char *why)
{
	if (!(port->said & what))
		EVD_LOG(ERR, port->device, "port %u: %s", port->number, why);
	port->said |= what;
	rte_errno = EINVAL;
	return false;
}

/* Refuses an event whose op DPDK doesn't have. */
static bool refuse_op(struct evd_port *port)
{
	return refuse(port, EVD_SAID_OP, "an event is refused whose op is neither NEW, FORWARD nor RELEASE");
}

/* Enqueues one event in the place of one that was refused, whose credit or place in the ring may be lacking. */
static bool put_instead(struct evd_port *port, const struct rte_event *of, uint8_t op)
{
	struct rte_event ev = *of;
	ev.op = op & OP_MASK;
	if (put(port, &ev, 1) == 1 || evsched_errno(port->port) == ENOENT)
		return true;
	rte_errno = ENOSPC;
	return false;
}

/* A NEW or FORWARD to a queue that isn't there: it is refused, or dropped, and a FORWARD's event has ended then. */
static bool drop(struct evd_port *port, const struct rte_event *ev)
{
	if (!port->device->arguments.drops_bad_queue)
		return refuse(port, EVD_SAID_QUEUE, "an event of a queue that isn't there is refused (with bad_queue=drop it is dropped)");
	if (ev->op == RTE_EVENT_OP_FORWARD && !put_instead(port, ev, RTE_EVENT_OP_RELEASE))
		return false;
	if (!(port->said & EVD_SAID_DROP))
		EVD_LOG(WARNING, port->device, "port %u: an event of a queue that isn't there is dropped", port->number);
	port->said |= EVD_SAID_DROP;
	evd_write(&port->dropped, port->dropped + 1);
	return true;
}

/* An answer with nothing held: a RELEASE means nothing then, and a FORWARD is a NEW, at a credit. */
static bool answer_nothing(struct evd_port *port, const struct rte_event *ev)
{
	if (ev->op == RTE_EVENT_OP_RELEASE)
		return true;
	if (port->device->arguments.refuses_unheld)
		return refuse(port, EVD_SAID_UNHELD, "a FORWARD with no event held is refused (with unheld=new it is a NEW)");
	return put_instead(port, ev, RTE_EVENT_OP_NEW);
}

/* Deals with the event that the library has just refused: whether the burst goes on behind it. */
static bool deal(struct evd_port *port, const struct rte_event *ev)
{
	int why = evsched_errno(port->port);
	if (ev->op == EVSCHED_OP_FORWARD_MORE)
		return refuse_op(port);
	if (why == EINVAL)
		return drop(port, ev);
	if (why == ENOENT)
		return answer_nothing(port, ev);
	rte_errno = evsched_may_retry(why) ? ENOSPC : EINVAL;
	return false;
}

/* The rest of a burst, from the first event that the library refused: how many were enqueued in all. */
static __rte_noinline uint16_t put_rest(struct evd_port *port, const struct rte_event ev[], uint16_t done, uint16_t n)
{
	while (done < n && deal(port, &ev[done])) {
		done++;
		done = (uint16_t)(done + put(port, ev + done, (uint16_t)(n - done)));
	}
	return done;
}

/* A burst that may have an op that DPDK doesn't have: it ends before that. */
static __rte_noinline uint16_t put_known(struct evd_port *port, const struct rte_event ev[], uint16_t n)
{
	uint16_t end = before_unknown(ev, n), done = put_rest(port, ev, put(port, ev, end), end);
	if (done == end && end < n)
		refuse_op(port);
	return done;
}

/* A burst of none, or of more than the library takes at once. */
static __rte_noinline uint16_t put_long(struct evd_port *port, const struct rte_event ev[], uint16_t n)
{
	if (port->is_linked && may_have_unknown(ev, n))
		return put_known(port, ev, n);
	return put_rest(port, ev, put(port, ev, n), n);
}

/* What is left of a burst of which the library has taken so many. */
static __rte_noinline uint16_t put_behind(struct evd_port *port, const struct rte_event ev[], uint16_t done, uint16_t n)
{
	note(port, done);
	return put_rest(port, ev, done, n);
}

/* Hands the library a burst of no more than it takes at once: whether it took all. */
static __rte_always_inline bool put_all(struct evd_port *port, const struct rte_event ev[], uint64_t *n, uint16_t *done)
{
	*done = evsched_enqueue_burst(port->port, (const struct evsched_event *)ev, (uint16_t)*n);
	if (!__builtin_constant_p(*n))
		EVSCHED_PRIV_FORGET(*n); /* or several registers keep it for what follows */
	return likely(*done == (uint16_t)*n);
}

/* These two are small where the library takes all: what else may be stands apart. */
static __rte_always_inline uint16_t enqueue(struct evd_port *port, const struct rte_event ev[], uint64_t n)
{
	uint16_t done;
	if (unlikely(n - 1 >= EVSCHED_MAX_BURST))
		return put_long(port, ev, (uint16_t)n);
	if (unlikely(may_have_unknown(ev, n)))
		return put_known(port, ev, (uint16_t)n);
	if (!put_all(port, ev, &n, &done))
		return put_behind(port, ev, done, (uint16_t)n);
	note(port, n);
	return (uint16_t)n;
}

/* The same of a port that isn't linked. It holds nothing, so all that is taken are NEWs, at a credit each; it draws more where it has none. */
static __rte_always_inline uint16_t enqueue_new(struct evd_port *port, const struct rte_event ev[], uint64_t n)
{
	uint64_t pocket;
	uint16_t done;
	if (unlikely(n - 1 >= EVSCHED_MAX_BURST))
		return put_long(port, ev, (uint16_t)n);
	if (!put_all(port, ev, &n, &done))
		return put_behind(port, ev, done, (uint16_t)n);
	if (unlikely(__builtin_sub_overflow(port->pocket, n, &pocket)))
		pocket = evd_pocket(port);
	evd_write(&port->pocket, pocket);
	evd_write(&port->sent, port->sent + n);
	return (uint16_t)n;
}

static __rte_always_inline uint16_t enqueue_either(struct evd_port *port, const struct rte_event ev[], uint64_t n)
{
	return port->is_linked ? enqueue(port, ev, n) : enqueue_new(port, ev, n);
}

uint16_t evd_enqueue_burst(void *port, const struct rte_event ev[], uint16_t n)
{
	uint64_t all = n;
	EVSCHED_PRIV_FORGET(all);
	return enqueue_either(port, ev, all);
}

uint16_t evd_enqueue(void *port, const struct rte_event *ev)
{
	return enqueue_either(port, ev, 1);
}

/* A dequeue of no events, or of a port that releases: what it held goes into its ring, and the credits of that into its pocket. */
static __rte_noinline uint16_t receive_and_release(struct evd_port *port, struct evsched_event ev[], uint16_t n)
{
	int held = evsched_held(port->port);
	uint16_t got = evsched_dequeue_burst(port->port, ev, n);
	if (held > 0) {
		int left = got > 0 ? got : evsched_held(port->port);
		evd_write(&port->sent, port->sent + (uint64_t)(held + got - left));
		evd_write(&port->pocket, evd_pocket(port));
	}
	return got;
}

static __rte_always_inline uint16_t dequeue(struct evd_port *port, struct rte_event ev[], uint16_t n)
{
	struct evsched_event *to = (struct evsched_event *)ev;
	bool is_plain = !port->releases && n > 0;
	uint64_t got = likely(is_plain) ? evsched_dequeue_burst(port->port, to, n) : receive_and_release(port, to, n);
	evd_write(&port->dequeues[got], port->dequeues[got] + 1);
	return (uint16_t)got;
}

uint16_t evd_dequeue_burst(void *port, struct rte_event ev[], uint16_t n, uint64_t ticks)
{
	RTE_SET_USED(ticks);
	return dequeue(port, ev, n);
}

uint16_t evd_dequeue(void *port, struct rte_event *ev, uint64_t ticks)
{
	RTE_SET_USED(ticks);
	return dequeue(port, ev, 1);
}

/* Releases what a port holds. Where its ring is full a sweep makes room: this one's, or the service's. */
static bool release_all(struct evd_port *port)
{
	static const struct rte_event release = {.op = RTE_EVENT_OP_RELEASE};
	while (evsched_held(port->port) > 0)
		if (put(port, &release, 1) == 0) {
			if (!evsched_may_retry(evsched_errno(port->port)))
				return false;
			evd_sweep(port->device);
		}
	return true;
}

/* It ends where sweeps go on giving events to the port, too: after as many as may have been inside. */
void evd_port_quiesce(struct rte_eventdev *dev, void *at, rte_eventdev_port_flush_t flush, void *arg)
{
	struct evd_port *port = at;
	struct rte_event ev[32];
	int32_t most = evd_events_limit(dev);
	uint16_t i, n = 1;
	if (port == NULL || port->port == NULL)
		return;
	for (; release_all(port) && n > 0 && most > 0; most -= n) {
		n = evd_dequeue_burst(port, ev, RTE_DIM(ev), 0);
		for (i = 0; i < n && flush != NULL; i++)
			flush(dev->data->dev_id, ev[i], arg);
	}
}
