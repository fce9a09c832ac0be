/* SPDX-License-Identifier: BSD-3-Clause */
/*
 * Devices of random shapes, one after the other, by ports and by flow lanes in turn. Each port is on a thread of its own, the main thread
 * sweeps, and the device is shut at a random moment and stopped. Each payload must come out once, a slot of an atomic queue be with one
 * port at a time, events come in the order that their queues keep, and the device count what the calls answered.
 *
 *     soak [SEED [SECONDS]]
 *
 * A round is drawn from the seed and its number; how its threads run isn't. What is known beside the device is atomic or guarded by what
 * is, so that no check rests on the library's own ordering.
 */
#include "ledger.h"
#include <pthread.h>
#include <sched.h>
#include <stdatomic.h>
#include <time.h>

enum { PORTS = 8, FLOWS = 32, LEVELS = 4, EVENTS = 4000, PAYLOADS = 1 << 15, BURST = 100, PATIENCE = 30 };

/* Where a payload is; in queue q or on its way there it is INSIDE + q. */
enum { UNUSED, HELD, RELEASED, DRAINED, GIVEN_BACK, REFUSED, INSIDE };

/* Who shuts the device: the producer's thread, the sweeping one, this one after all threads have ended, or nobody. */
enum { PRODUCER, SWEEPER, AFTER_ALL, NOBODY, CLOSERS };

struct player {
	struct evsched_port *port;
	uint64_t random;
	uint32_t number;
	int n_held;
	struct evsched_event held[EVSCHED_MAX_DEPTH]; /* oldest first */
	int holds[QUEUES][EVSCHED_MAX_ATOMIC_FLOWS];  /* how many of them are of a slot */
	struct ledger ledger;
};

/* Whether what came in by one queue shows order at another, of each flow and level or of each level, and the last that came so. */
struct order {
	int is_of_flows, is_of_all;
	uint32_t last_of_flow[FLOWS][LEVELS], last_of_all[LEVELS];
};

static struct evsched *dev;
static struct evsched_dev_config config;

/* A round. */
static struct {
	uint64_t random;
	uint32_t events, target, closer;              /* how many NEWs; once how many are in it is shut, and by whom */
	atomic_int is_shut, is_over, has_produced;    /* is_shut is 1 before the shut, 2 after it */
	struct evsched_dev_stats seen;                /* at the last sweep */
	time_t moved;                                 /* when a sweep had something to do */
	struct player player[PORTS];
	atomic_uchar state[PAYLOADS];
	atomic_uint added;                            /* payloads of added events, which stand behind those of NEWs */
	uint64_t word[PAYLOADS];
	uint32_t birth[PAYLOADS];                     /* the payload of the NEW from which an event comes, and its queue */
	struct order order[QUEUES][QUEUES];
	atomic_uint holder[QUEUES][EVSCHED_MAX_ATOMIC_FLOWS]; /* the port that holds a slot */
} now;

static uint32_t draw(uint32_t below)
{
	return any(&now.random, below);
}

static void move(uint64_t payload, int from, int to)
{
	unsigned char was = (unsigned char)from;
	CHECK(payload < PAYLOADS && atomic_compare_exchange_strong(&now.state[payload], &was, (unsigned char)to));
}

static void goes_in(const struct evsched_event *ev, int from)
{
	now.word[ev->u64] = ev->event;
	move(ev->u64, from, INSIDE + ev->queue_id);
}

static void comes_out(const struct evsched_event *ev, int to)
{
	move(ev->u64, INSIDE + ev->queue_id, to);
	check_word(ev, now.word[ev->u64]);
}

static void check_order(const struct evsched_event *ev)
{
	uint32_t birth = now.birth[ev->u64];
	struct order *order = &now.order[birth % QUEUES][ev->queue_id];
	uint32_t *last_of_flow = &order->last_of_flow[ev->flow_id][ev->priority / 64], *last_of_all = &order->last_of_all[ev->priority / 64];
	CHECK(ev->sched_type == type_in(&config, ev->queue_id));
	if (order->is_of_flows) {
		CHECK(birth >= *last_of_flow);
		*last_of_flow = birth;
	}
	if (order->is_of_all) {
		CHECK(birth >= *last_of_all);
		*last_of_all = birth;
	}
}

static int is_atomic(uint32_t q)
{
	return type_in(&config, q) == EVSCHED_TYPE_ATOMIC;
}

/* The port holds one event more or fewer of an atomic queue's slot, of which no other port holds one. */
static void hold(struct player *me, const struct evsched_event *ev, int by)
{
	uint32_t q = ev->queue_id, slot = ev->flow_id % config.queue[q].nb_atomic_flows;
	int is_first = me->holds[q][slot] == 0, is_last = (me->holds[q][slot] += by) == 0;
	if (is_atomic(q) && (is_first || is_last))
		CHECK(atomic_exchange(&now.holder[q][slot], is_first ? me->number : 0) == (is_first ? 0 : me->number));
}

static void shut(void)
{
	atomic_store(&now.is_shut, 1);
	CHECK(evsched_shut(dev) == 0);
	atomic_store(&now.is_shut, 2);
}

/* As many as go in at once; after the shut no NEW does, and before it none is refused for it. */
static int enqueue(struct player *me, const struct evsched_event *ev, int n)
{
	int was_shut = atomic_load(&now.is_shut) == 2, taken = enqueue_counted(&me->ledger, me->port, ev, n), why = evsched_errno(me->port);
	CHECK(why != ESHUTDOWN || atomic_load(&now.is_shut));
	CHECK(!was_shut || ev->op != EVSCHED_OP_NEW || (taken == 0 && why == ESHUTDOWN));
	return taken;
}

/* Enqueues NEWs until all are in, the device is shut or all is over: how many; the others stay the program's. */
static int bring_in(struct player *me, const struct evsched_event *ev, int n)
{
	int done = enqueue(me, ev, n), i;
	while (done < n && evsched_errno(me->port) != ESHUTDOWN && !atomic_load(&now.is_over)) {
		sched_yield();
		done += enqueue(me, ev + done, n - done);
	}
	for (i = done; i < n; i++)
		move(ev[i].u64, INSIDE + ev[i].queue_id, REFUSED);
	return done;
}

static struct evsched_event draw_new(struct player *me, uint32_t payload)
{
	struct evsched_event ev;
	ev.event = (uint64_t)any(&me->random, 1u << 31) << 33 ^ any(&me->random, 1u << 31);
	ev.op = EVSCHED_OP_NEW;
	ev.queue_id = (uint8_t)(any(&me->random, 4) ? 0 : any(&me->random, config.nb_event_queues));
	ev.flow_id = any(&me->random, any(&me->random, 2) ? 4 : FLOWS) & (FLOWS - 1);
	ev.u64 = payload;
	now.birth[payload] = payload * QUEUES + ev.queue_id;
	goes_in(&ev, UNUSED);
	return ev;
}

static void *produce(void *arg)
{
	struct player *me = (struct player *)arg;
	struct evsched_event ev[BURST];
	uint32_t drawn = 0, made = 0;
	while (drawn == made && made < now.events && !atomic_load(&now.is_over)) {
		int n = 1 + (int)any(&me->random, any(&me->random, 4) ? 8 : BURST), i;
		if (now.closer == PRODUCER && made >= now.target && !atomic_load(&now.is_shut))
			shut();
		for (i = 0; i < n && drawn < now.events; i++)
			ev[i] = draw_new(me, drawn++);
		made += (uint32_t)bring_in(me, ev, i);
	}
	if (now.closer == PRODUCER && !atomic_load(&now.is_shut))
		shut();
	atomic_store(&now.has_produced, 1);
	return NULL;
}

/* What goes to the next queue for an event that is held. */
static struct evsched_event onward(struct player *me, struct evsched_event ev, unsigned op, uint64_t payload, int from)
{
	ev.op = op & 3;
	ev.queue_id++;
	ev.sub_event_type = any(&me->random, 256) & 0xff;
	ev.impl_opaque = (uint8_t)any(&me->random, 256);
	ev.u64 = payload;
	goes_in(&ev, from);
	return ev;
}

/* Seldom some events beside one that is held, up to one more than may be: how many. */
static int add(struct player *me, const struct evsched_event *held, struct evsched_event *ev)
{
	int n = any(&me->random, 8) ? 0 : (int)any(&me->random, EVSCHED_MAX_FORWARD_MORE + 2), i;
	for (i = 0; i < n; i++) {
		uint32_t payload = EVENTS + atomic_fetch_add(&now.added, 1);
		if (payload >= PAYLOADS)
			return i;
		now.birth[payload] = now.birth[held->u64];
		ev[i] = onward(me, *held, EVSCHED_OP_FORWARD_MORE, payload, UNUSED);
	}
	return n;
}

/* Enqueues answers until all is over: how many went in or were given up. What is added is given up where there is no credit for it, since
 * a worker that waits for one may hold what others wait for. */
static int push(struct player *me, const struct evsched_event *ev, int n)
{
	int done = 0, why;
	for (;;) {
		done += enqueue(me, ev + done, n - done);
		why = evsched_errno(me->port);
		if (why == 0 || (why == ENOBUFS && atomic_load(&now.is_over)))
			return done;
		CHECK(why == ENOBUFS || ev[done].op == EVSCHED_OP_FORWARD_MORE);
		if (why == ENOBUFS)
			sched_yield();
		else
			comes_out(&ev[done++], REFUSED);
	}
}

static void forget(struct player *me, int n)
{
	me->n_held -= n;
	memmove(me->held, me->held + n, (size_t)me->n_held * sizeof(me->held[0]));
}

/* Answers the n oldest events that are held, as far as it comes before all is over. */
static void answer(struct player *me, int n)
{
	struct evsched_event ev[EVSCHED_MAX_DEPTH * (EVSCHED_MAX_FORWARD_MORE + 2)];
	int made = 0, answered = 0, done, i;
	for (i = 0; i < n; i++, made++) {
		const struct evsched_event *held = &me->held[i];
		hold(me, held, -1);
		ev[made] = *held;
		ev[made].op = EVSCHED_OP_RELEASE;
		if (held->queue_id + 1u < config.nb_event_queues && any(&me->random, 16)) {
			made += add(me, held, ev + made);
			ev[made] = onward(me, *held, EVSCHED_OP_FORWARD, held->u64, HELD);
		}
	}
	done = push(me, ev, made);
	for (i = 0; i < made; i++) {
		if (i < done && ev[i].op == EVSCHED_OP_RELEASE)
			move(ev[i].u64, HELD, RELEASED);
		else if (i >= done && ev[i].op != EVSCHED_OP_RELEASE)
			comes_out(&ev[i], ev[i].op == EVSCHED_OP_FORWARD ? HELD : REFUSED);
		answered += i < done && ev[i].op != EVSCHED_OP_FORWARD_MORE;
	}
	forget(me, answered);
	CHECK(evsched_held(me->port) == me->n_held);
}

static void dequeue(struct player *me)
{
	struct evsched_event ev[EVSCHED_MAX_BURST];
	const struct evsched_port_conf *conf = &config.port[me->number];
	int is_implicit = conf->event_port_cfg == 0, most = (int)any(&me->random, EVSCHED_MAX_BURST + 1), before = me->n_held, released, why, n, i;
	for (i = 0; i < before && is_implicit; i++)
		hold(me, &me->held[i], -1);
	n = evsched_dequeue_burst(me->port, ev, (uint16_t)most);
	why = evsched_errno(me->port);
	released = before + n - evsched_held(me->port);
	CHECK(n <= most && before - released + n <= conf->dequeue_depth);
	CHECK(why == 0 || (why == ENOBUFS && n == 0));
	CHECK(!is_implicit ? why == 0 && released == 0 : why == 0 ? released == before : released < before);
	for (i = 0; i < released; i++)
		move(me->held[i].u64, HELD, RELEASED);
	forget(me, released);
	for (i = 0; i < me->n_held && is_implicit; i++)
		hold(me, &me->held[i], 1);
	me->ledger.counted.released += (uint64_t)released;
	me->ledger.counted.behind += why != 0;
	for (i = 0; i < n; i++) {
		comes_out(&ev[i], HELD);
		CHECK(conf->links >> ev[i].queue_id & 1);
		hold(me, &ev[i], 1);
		check_order(&ev[i]);
		me->held[me->n_held++] = ev[i];
		me->ledger.dequeued[ev[i].queue_id]++;
		me->ledger.counted.dequeued++;
	}
}

/* Answers some of what it holds; the rest later, by the next dequeue, or never. */
static void *work(void *arg)
{
	struct player *me = (struct player *)arg;
	while (!atomic_load(&now.is_over)) {
		dequeue(me);
		if (me->n_held == 0)
			sched_yield();
		else if (!atomic_load(&now.is_over))
			answer(me, any(&me->random, 2) ? me->n_held : 1 + (int)any(&me->random, (uint32_t)me->n_held));
	}
	return NULL;
}

/* Queues of any type. A single-link queue is one port's alone, the others are linked to that one and to most. */
static void draw_queues(uint32_t ports)
{
	for (uint32_t q = 0, p; q < config.nb_event_queues; q++) {
		struct evsched_queue_conf *queue = &config.queue[q];
		uint32_t owner = 1 + draw(ports - 1);
		draw_queue(&now.random, queue);
		queue->event_queue_cfg = draw(4) ? 0 : EVSCHED_QUEUE_CFG_SINGLE_LINK;
		for (p = 1; p < ports; p++)
			if (p == owner || (queue->event_queue_cfg == 0 && draw(4)))
				config.port[p].links |= 1u << q;
	}
}

/* Credits are short, but a quantum is left for the producer, since a worker keeps fewer than two. */
static void draw_config(void)
{
	uint32_t ports = 2 + draw(PORTS - 1), least = 2 * ports - 1, limit = (least > 8 ? least : 8) + draw(50), p;
	config = evsched_dev_default_config(1 + draw(QUEUES), ports);
	config.nb_events_limit = (int32_t)limit;
	config.credit_quanta = 1 + draw(limit / least < 4 ? limit / least : 4);
	config.sched_quanta = 1 + draw(EVSCHED_MAX_SCHED_QUANTA);
	config.event_dev_cfg = number % 2 ? EVSCHED_DEV_CFG_FLOW_LANES : 0;
	for (p = 0; p < ports; p++) {
		config.port[p].new_event_threshold = (int32_t)(p ? limit - draw(limit - config.credit_quanta + 1) : limit);
		draw_port(&now.random, &config.port[p]);
	}
	draw_queues(ports);
}

/* Whether one lane serves the queue, which then gives each level's events in order. */
static int has_one_lane(uint32_t q)
{
	int links = 0;
	for (uint32_t p = 0; p < config.nb_event_ports; p++)
		links += config.port[p].links >> q & 1;
	return links == 1 && !(is_atomic(q) && config.event_dev_cfg);
}

/* What a queue's events are forwarded as keeps the order of each flow, but for a parallel queue of several lanes, and that of each level
 * for an ordered queue or one lane. */
static void find_order(void)
{
	for (uint32_t o = 0, q; o < config.nb_event_queues; o++) {
		int flows = 1, all = 1;
		for (q = o; q < config.nb_event_queues; q++) {
			int type = type_in(&config, q), one = has_one_lane(q);
			now.order[o][q].is_of_flows = flows && (type == EVSCHED_TYPE_ATOMIC || one);
			now.order[o][q].is_of_all = all && one;
			flows = flows && (type != EVSCHED_TYPE_PARALLEL || one);
			all = all && (type == EVSCHED_TYPE_ORDERED || one);
		}
	}
}

static void begin(void)
{
	memset(&now, 0, sizeof(now));
	now.random = ((seed << 24) + number) * 0x9e3779b97f4a7c15u;
	now.moved = time(NULL);
	draw_config();
	find_order();
	now.events = 1 + draw(EVENTS);
	now.target = draw(now.events + 1);
	now.closer = draw(CLOSERS);
	CHECK(evsched_create(&config, &dev) == 0);
	for (uint32_t p = 0; p < config.nb_event_ports; p++) {
		now.player[p].port = evsched_port(dev, p);
		now.player[p].number = p;
		now.player[p].random = now.random + p * 0x9e3779b97f4a7c15u;
	}
}

/* One sweep, which lets nothing new in where the device was shut before. */
static int sweep(void)
{
	int was_shut = atomic_load(&now.is_shut) == 2, did = evsched_sweep(dev);
	uint64_t before = now.seen.rx_new;
	CHECK(did >= 0 && evsched_dev_stats(dev, &now.seen) == 0);
	CHECK(!was_shut || now.seen.rx_new == before);
	if (did > 0)
		now.moved = time(NULL);
	CHECK(time(NULL) - now.moved < PATIENCE);
	if (did == 0)
		sched_yield();
	return did;
}

/* Sweeps beside the threads: until it is time for the shut, and then not at all, a little, or until nothing is inside. */
static void schedule(void)
{
	uint32_t more = draw(3) ? draw(50) * draw(2) : UINT32_MAX;
	int had_produced = 0, is_empty = 0;
	while (now.closer == PRODUCER ? !atomic_load(&now.is_shut) : now.seen.rx_new < now.target)
		sweep();
	if (now.closer == SWEEPER)
		shut();
	for (; more > 0 && !(had_produced && is_empty); more--) {
		had_produced = atomic_load(&now.has_produced);
		is_empty = sweep() == 0 && now.seen.inside == 0;
	}
}

static void run(void)
{
	pthread_t thread[PORTS];
	uint32_t p;
	for (p = 0; p < config.nb_event_ports; p++)
		CHECK(pthread_create(&thread[p], NULL, p ? work : produce, &now.player[p]) == 0);
	schedule();
	atomic_store(&now.is_over, 1);
	for (p = 0; p < config.nb_event_ports; p++)
		CHECK(pthread_join(thread[p], NULL) == 0);
	if (now.closer == AFTER_ALL)
		shut();
}

static void drained(const struct evsched_event *ev)
{
	comes_out(ev, DRAINED);
	check_order(ev);
}

static void given_back(const struct evsched_event *ev)
{
	comes_out(ev, GIVEN_BACK);
}

/* Stops the device: each payload must be in one place, and each count be what the calls answered. How many events were enqueued. */
static uint64_t end(void)
{
	static struct leftover left;
	struct ledger all;
	uint32_t way = draw(ENDS), p;
	uint64_t held = 0;
	memset(&all, 0, sizeof(all));
	for (p = 0; p < config.nb_event_ports; p++) {
		check_port(now.player[p].port, &now.player[p].ledger);
		add_ledger(&all, &now.player[p].ledger);
		held += (uint64_t)now.player[p].n_held;
	}
	while (way == SETTLE && sweep() > 0)
		;
	if (way == DRAIN)
		drain_device(dev, &all, held, drained);
	stop_device(dev, config.nb_events_limit, &left, given_back);
	CHECK(left.report.held == (way == DRAIN ? 0 : held) && (now.is_shut || left.report.turned == 0));
	check_counts(dev, &all, &left, way != STOP);
	for (p = 0; p < PAYLOADS; p++) {
		CHECK(now.state[p] < INSIDE);
		held -= now.state[p] == HELD;
	}
	CHECK(held == 0);
	evsched_free(dev);
	return all.counted.enqueued;
}

int main(int argc, char **argv)
{
	unsigned long long events = 0;
	time_t seconds = argc > 2 ? strtol(argv[2], NULL, 10) : 30, start = time(NULL);
	seed = argc > 1 ? strtoull(argv[1], NULL, 10) : 1;
	printf("seed %llu\n", (unsigned long long)seed);
	fflush(stdout);
	for (number = 0; time(NULL) - start < seconds; number++) {
		begin();
		run();
		events += end();
	}
	printf("soak: %llu rounds, %llu events enqueued\n", (unsigned long long)number, events);
	return 0;
}
