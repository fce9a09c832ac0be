/* SPDX-License-Identifier: BSD-3-Clause */
/*
 * Statistics from any thread, for evsched.h, which includes it.
 *
 * Numbers belong to the thread that sweeps, or to a port's. A reader asks: it raises a count, at which that thread looks once in each
 * sweep, enqueue and dequeue. Where it has risen, the thread publishes its numbers behind the call, with the question that this answers and
 * the time; so nothing is written while nobody asks. Readers copy what was published, and copy it again where it was written meanwhile:
 * a sequence number, odd while it is written, says so.
 *
 * All of these words are atomic. They are stored by release and loaded by acquire: a reader that loads a word of a later writing then sees
 * that writing's odd sequence number too, without a fence, of which a sanitizer of threads wouldn't know.
 */
#ifndef EVSCHED_WATCH_H
#define EVSCHED_WATCH_H

#ifndef EVSCHED_H
#error "include evsched.h"
#endif

/* The first words of what is published. */
enum { EVSCHED_PRIV_SEQUENCE, EVSCHED_PRIV_ANSWERED, EVSCHED_PRIV_STAMP };

/* The numbers by which the library knows the device's counts and credits, and those of its sweeps. */
enum { EVSCHED_PRIV_DEVICE_COUNTS = EVSCHED_MAX_QUEUES + EVSCHED_MAX_LANES, EVSCHED_PRIV_SWEEP_COUNTS };

/* Of a function that is seldom called, so that its callers stay small. */
#define EVSCHED_PRIV_SELDOM __attribute__((unused, noinline, cold)) static

/* Has a compiler forget what it knows of a handle: gcc warns of an atomic step on one that it takes for NULL on some way. */
#define EVSCHED_PRIV_FORGET(handle) __asm__("" : "+r"(handle))

/* ---- publishing: in the thread that sweeps, or in a port's ---- */

/* Writes n words: where the next ones go. */
static inline uint64_t *evsched_priv_put(uint64_t *to, const uint64_t *words, size_t n)
{
	while (n-- > 0)
		__atomic_store_n(to++, *words++, __ATOMIC_RELEASE);
	return to;
}

static inline uint64_t *evsched_priv_open(uint64_t *said, uint64_t asked)
{
	uint64_t head[2];
	head[0] = asked;
	head[1] = evsched_priv_now();
	__atomic_store_n(&said[EVSCHED_PRIV_SEQUENCE], said[EVSCHED_PRIV_SEQUENCE] + 1, __ATOMIC_RELAXED);
	return evsched_priv_put(said + EVSCHED_PRIV_ANSWERED, head, 2);
}

static inline void evsched_priv_close(uint64_t *said)
{
	__atomic_store_n(&said[EVSCHED_PRIV_SEQUENCE], said[EVSCHED_PRIV_SEQUENCE] + 1, __ATOMIC_RELEASE);
}

/* What is so of the device; the sweep that evsched_create makes doesn't count. `did` is what the sweep did that has just ended, or 0. */
static inline uint64_t *evsched_priv_put_device(struct evsched *dev, int did, uint64_t *to)
{
	struct evsched_dev_now now;
	uint64_t *words = (uint64_t *)&now, *sums = (uint64_t *)&now.lanes, lane[EVSCHED_PRIV_OF_LANE - 1];
	uint32_t l, i;
	memset(&now, 0, sizeof(now));
	evsched_hub_counts(dev->hub, EVSCHED_PRIV_DEVICE_COUNTS, words, 2);
	evsched_hub_counts(dev->hub, EVSCHED_PRIV_SWEEP_COUNTS, words + 2, 5);
	evsched_hub_now(dev->hub, EVSCHED_PRIV_DEVICE_COUNTS, words + 7, 2);
	now.sweeps--;
	now.no_take--;
	now.no_give--;
	now.progress = did > 0;
	for (l = 0; l < dev->lanes; l++) {
		evsched_hub_counts(dev->hub, EVSCHED_MAX_QUEUES + l, lane, EVSCHED_PRIV_OF_LANE - 1);
		for (i = 0; i < EVSCHED_PRIV_OF_LANE - 1; i++)
			sums[i] += lane[i];
	}
	return evsched_priv_put(to, words, EVSCHED_PRIV_OF_DEVICE);
}

static inline uint64_t *evsched_priv_put_queue(struct evsched *dev, uint32_t q, uint64_t *to)
{
	uint64_t words[EVSCHED_PRIV_OF_QUEUE];
	evsched_hub_counts(dev->hub, q, words, 3);
	evsched_hub_now(dev->hub, q, words + 3, 6);
	return evsched_priv_put(to, words, EVSCHED_PRIV_OF_QUEUE);
}

static inline uint64_t *evsched_priv_put_lane(struct evsched *dev, uint32_t p, uint64_t *to)
{
	uint64_t words[EVSCHED_PRIV_OF_LANE];
	evsched_hub_counts(dev->hub, EVSCHED_MAX_QUEUES + p, words, 7);
	evsched_hub_now(dev->hub, EVSCHED_MAX_QUEUES + p, words + 7, 1);
	return evsched_priv_put(to, words, EVSCHED_PRIV_OF_LANE);
}

static inline uint64_t *evsched_priv_put_share(struct evsched *dev, uint32_t q, uint32_t p, uint64_t *to)
{
	uint64_t words[EVSCHED_PRIV_OF_SHARE];
	evsched_hub_shares(dev->hub, q, p, words, EVSCHED_PRIV_OF_SHARE);
	return evsched_priv_put(to, words, EVSCHED_PRIV_OF_SHARE);
}

/* Publishes the device's numbers, behind a sweep that did so much; after the stop what was published stays. */
EVSCHED_PRIV_SELDOM void evsched_priv_publish(struct evsched *dev, int did)
{
	uint64_t *to;
	uint32_t q, p;
	dev->answered = __atomic_load_n(&dev->asked, __ATOMIC_ACQUIRE);
	if (evsched_hub_inside(dev->hub) < 0)
		return;
	to = evsched_priv_put_device(dev, did, evsched_priv_open(dev->said, dev->answered));
	for (q = 0; q < dev->config.nb_event_queues; q++)
		to = evsched_priv_put_queue(dev, q, to);
	for (p = 0; p < dev->config.nb_event_ports; p++)
		to = evsched_priv_put_lane(dev, p, to);
	for (q = 0; q < dev->config.nb_event_queues; q++)
		for (p = 0; p < dev->config.nb_event_ports; p++)
			to = evsched_priv_put_share(dev, q, p, to);
	evsched_priv_close(dev->said);
}

/* Publishes a port's numbers. */
EVSCHED_PRIV_SELDOM void evsched_priv_publish_port(struct evsched_port *port)
{
	uint64_t words[EVSCHED_PRIV_OF_PORT];
	port->answered = __atomic_load_n(&port->asked, __ATOMIC_ACQUIRE);
	if (evsched_port_counts(evsched_priv_at(port), words, EVSCHED_PRIV_OF_PORT - 2) < 0)
		return;
	words[EVSCHED_PRIV_OF_PORT - 2] = (uint64_t)evsched_port_pocket(evsched_priv_at(port));
	words[EVSCHED_PRIV_OF_PORT - 1] = (uint64_t)evsched_port_held(evsched_priv_at(port));
	evsched_priv_put(evsched_priv_open(port->said, port->answered), words, EVSCHED_PRIV_OF_PORT);
	evsched_priv_close(port->said);
}

/* Publishes all, in a thread that has all. */
EVSCHED_PRIV_SELDOM void evsched_priv_publish_all(struct evsched *dev)
{
	uint32_t p;
	evsched_priv_publish(dev, 0);
	for (p = 0; p < dev->config.nb_event_ports; p++)
		evsched_priv_publish_port(evsched_priv_port(dev, p));
}

/* What is paid while nobody asks: behind a sweep, and behind an enqueue or dequeue. */
static inline void evsched_priv_answer(struct evsched *dev, int did)
{
	EVSCHED_PRIV_FORGET(dev);
	if (__builtin_expect(__atomic_load_n(&dev->asked, __ATOMIC_RELAXED) != dev->answered, 0))
		evsched_priv_publish(dev, did);
}

static inline void evsched_priv_answer_port(struct evsched_port *port)
{
	EVSCHED_PRIV_FORGET(port);
	if (__builtin_expect(__atomic_load_n(&port->asked, __ATOMIC_RELAXED) != port->answered, 0))
		evsched_priv_publish_port(port);
}

/* From now on nothing is published. */
static inline void evsched_priv_fall_silent(struct evsched *dev)
{
	EVSCHED_PRIV_FORGET(dev);
	__atomic_store_n(&dev->is_over, 1, __ATOMIC_RELEASE);
}

/* ---- reading: in any thread ---- */

/* Reads n words: where the next ones are. */
static inline const uint64_t *evsched_priv_get(uint64_t *words, const uint64_t *from, size_t n)
{
	while (n-- > 0)
		*words++ = __atomic_load_n(from++, __ATOMIC_ACQUIRE);
	return from;
}

/* Waits until it isn't written: its sequence number. */
static inline uint64_t evsched_priv_sequence(const uint64_t *said)
{
	uint64_t sequence;
	uint32_t turn = 0;
	while ((sequence = __atomic_load_n(&said[EVSCHED_PRIV_SEQUENCE], __ATOMIC_ACQUIRE)) % 2 != 0)
		evsched_priv_pause(turn++);
	return sequence;
}

/* Whether it was written since. */
static inline int evsched_priv_is_torn(const uint64_t *said, uint64_t sequence)
{
	return __atomic_load_n(&said[EVSCHED_PRIV_SEQUENCE], __ATOMIC_RELAXED) != sequence;
}

/* Copies the device's part; its age is the time still at which it was published. */
static inline void evsched_priv_get_device(struct evsched *dev, struct evsched_stats *stats)
{
	const uint64_t *from;
	uint64_t sequence;
	uint32_t q, p;
	do {
		sequence = evsched_priv_sequence(dev->said);
		from = evsched_priv_get(&stats->dev.age, dev->said + EVSCHED_PRIV_STAMP, 1);
		from = evsched_priv_get((uint64_t *)&stats->dev, from, EVSCHED_PRIV_OF_DEVICE);
		for (q = 0; q < dev->config.nb_event_queues; q++)
			from = evsched_priv_get((uint64_t *)&stats->queue[q], from, EVSCHED_PRIV_OF_QUEUE);
		for (p = 0; p < dev->config.nb_event_ports; p++)
			from = evsched_priv_get((uint64_t *)&stats->port[p], from, EVSCHED_PRIV_OF_LANE);
		for (q = 0; q < dev->config.nb_event_queues; q++)
			for (p = 0; p < dev->config.nb_event_ports; p++)
				from = evsched_priv_get((uint64_t *)&stats->share[q][p], from, EVSCHED_PRIV_OF_SHARE);
	} while (evsched_priv_is_torn(dev->said, sequence));
}

/* Copies what a port says. */
static inline void evsched_priv_get_port(const struct evsched_port *port, struct evsched_port_now *now)
{
	uint64_t sequence;
	do {
		sequence = evsched_priv_sequence(port->said);
		evsched_priv_get((uint64_t *)now + EVSCHED_PRIV_OF_LANE,
			evsched_priv_get(&now->age, port->said + EVSCHED_PRIV_STAMP, 1), EVSCHED_PRIV_OF_PORT);
	} while (evsched_priv_is_torn(port->said, sequence));
}

/* How many are in a ring of that room, where so many went in and came out: as near as both are of one moment. */
static inline uint64_t evsched_priv_fill(uint64_t in, uint64_t out, uint64_t room)
{
	uint64_t fill = in > out ? in - out : 0;
	return fill < room ? fill : room;
}

/* How many NEWs and answers were taken from a lane, or from all. */
static inline uint64_t evsched_priv_taken(const struct evsched_port_stats *lane)
{
	return lane->rx_new + lane->turned + lane->released + lane->forwarded + lane->added;
}

/* The sums and differences of a port; it went in and came out of all rings by `in` and `out`. */
static inline void evsched_priv_add_port(struct evsched *dev, struct evsched_stats *stats, uint32_t p, uint64_t *in, uint64_t *out)
{
	const struct evsched_port_conf *conf = &dev->config.port[p];
	struct evsched_port_now *port = &stats->port[p];
	int is_known = dev->lanes == dev->config.nb_event_ports;
	uint64_t enqueued = port->counters.enqueued + port->counters.released;
	port->rx = port->lane.rx_new + port->lane.forwarded + port->lane.added;
	port->unanswered = port->lane.tx - port->lane.released - port->lane.forwarded;
	port->rx_ring = is_known ? evsched_priv_fill(enqueued, evsched_priv_taken(&port->lane), conf->enqueue_depth) : EVSCHED_UNKNOWN;
	port->rx_free = is_known ? conf->enqueue_depth - port->rx_ring : EVSCHED_UNKNOWN;
	port->cq_ring = is_known ? evsched_priv_fill(port->lane.tx, port->counters.dequeued, conf->dequeue_depth) : EVSCHED_UNKNOWN;
	port->cq_free = is_known ? conf->dequeue_depth - port->cq_ring : EVSCHED_UNKNOWN;
	stats->dev.ports |= (uint64_t)(port->given > 0) << p;
	stats->dev.pockets += port->pocket;
	*in += enqueued;
	*out += port->counters.dequeued;
}

/* All sums and differences, and the ages at this time. */
static inline void evsched_priv_add_up(struct evsched *dev, struct evsched_stats *stats)
{
	uint64_t now = evsched_priv_now(), in = 0, out = 0;
	uint32_t q, p, l;
	for (q = 0; q < dev->config.nb_event_queues; q++) {
		struct evsched_queue_now *queue = &stats->queue[q];
		queue->rx = queue->rx_new + queue->rx_forwarded;
		for (l = 0; l < 4; l++)
			queue->waiting += queue->level[l];
		stats->dev.rx += queue->rx;
		stats->dev.tx += queue->tx;
	}
	for (p = 0; p < dev->config.nb_event_ports; p++) {
		evsched_priv_add_port(dev, stats, p, &in, &out);
		stats->port[p].age = now - stats->port[p].age;
	}
	stats->dev.limit = (uint64_t)dev->config.nb_events_limit;
	stats->dev.rx_ring = evsched_priv_fill(in, evsched_priv_taken(&stats->dev.lanes), EVSCHED_UNKNOWN);
	stats->dev.cq_ring = evsched_priv_fill(stats->dev.lanes.tx, out, EVSCHED_UNKNOWN);
	stats->dev.age = now - stats->dev.age;
}

/* The questions that a reader asked: of the ports, and of the device behind them. */
struct evsched_priv_asked {
	uint64_t of[EVSCHED_MAX_PORTS + 1];
};

static inline void evsched_priv_ask(struct evsched *dev, struct evsched_priv_asked *asked)
{
	uint32_t p;
	for (p = 0; p < dev->config.nb_event_ports; p++)
		asked->of[p] = __atomic_add_fetch(&evsched_priv_port(dev, p)->asked, 1, __ATOMIC_RELEASE);
	asked->of[p] = __atomic_add_fetch(&dev->asked, 1, __ATOMIC_RELEASE);
}

/* Waits for the answers of these ports (a bit each) and of the device, until the time is over: how many didn't come. */
static inline int evsched_priv_await(struct evsched *dev, const struct evsched_priv_asked *asked, uint32_t ports, uint64_t timeout_ns)
{
	uint64_t start = 0;
	uint32_t turn = 0, p;
	int late = 0;
	for (p = 0; p <= dev->config.nb_event_ports; p++) {
		int is_port = p < dev->config.nb_event_ports, is_late;
		const uint64_t *said = is_port ? evsched_priv_port(dev, p)->said : dev->said;
		if (is_port && !(ports >> p & 1))
			continue;
		while ((is_late = __atomic_load_n(&said[EVSCHED_PRIV_ANSWERED], __ATOMIC_ACQUIRE) < asked->of[p])
			&& !__atomic_load_n(&dev->is_over, __ATOMIC_ACQUIRE) && !evsched_priv_is_over(&start, timeout_ns))
			evsched_priv_pause(turn++);
		late += is_late;
	}
	return late;
}

/* Copies all that was published. */
static inline void evsched_priv_get_all(struct evsched *dev, struct evsched_stats *stats)
{
	uint32_t p;
	memset(stats, 0, sizeof(*stats));
	evsched_priv_get_device(dev, stats);
	for (p = 0; p < dev->config.nb_event_ports; p++)
		evsched_priv_get_port(evsched_priv_port(dev, p), &stats->port[p]);
	evsched_priv_add_up(dev, stats);
}

/* Asks all, waits for the device and these ports, and copies. */
static inline int evsched_priv_read(struct evsched *dev, struct evsched_stats *stats, uint32_t ports, uint64_t timeout_ns)
{
	struct evsched_priv_asked asked;
	int late;
	EVSCHED_PRIV_FORGET(dev);
	evsched_priv_ask(dev, &asked);
	late = evsched_priv_await(dev, &asked, ports, timeout_ns);
	evsched_priv_get_all(dev, stats);
	return late;
}

/*
 * Reads what was counted and what is so now, of device, queues and ports, while they run. It asks, and waits until the next sweep has
 * published the device's part and each port's next enqueue or dequeue (of no events will do) that of the port, or until the time is over;
 * then it takes what was published last: the ages say when. With a timeout of 0 it doesn't wait, so that what it asked for is there the
 * next time. evsched_create and evsched_stop publish too; after the stop it doesn't wait. It copies anew while what it copies is written,
 * so it may return that much late. Several readers are served at once. `stats` has 27 kB.
 *   Returns  how many parts (the device's, and one for each port) are older than this call: 0 where all of it is new
 *   Thread   any
 */
static inline int evsched_stats_read(struct evsched *dev, struct evsched_stats *stats, uint64_t timeout_ns)
{
	evsched_priv_watch_device(dev, __func__);
	return evsched_priv_read(dev, stats, UINT32_MAX, timeout_ns);
}

#endif
