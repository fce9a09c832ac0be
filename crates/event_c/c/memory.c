/* SPDX-License-Identifier: BSD-3-Clause */
/*
 * A device's life with one allocation refused, the first, the second and so on, and with all from there on refused: each call answers
 * -ENOMEM or does what it should, a call that answered -ENOMEM does it when it is called again, no event is lost, and all memory goes back.
 * To be linked with -Wl,--wrap=malloc,--wrap=calloc,--wrap=realloc,--wrap=aligned_alloc,--wrap=posix_memalign,--wrap=free
 */
#include <evsched.h>
#include <stdio.h>

void *__real_malloc(size_t size);
void *__real_calloc(size_t count, size_t size);
void *__real_realloc(void *at, size_t size);
void *__real_aligned_alloc(size_t alignment, size_t size);
int __real_posix_memalign(void **at, size_t alignment, size_t size);
void __real_free(void *at);
void *__wrap_malloc(size_t size);
void *__wrap_calloc(size_t count, size_t size);
void *__wrap_realloc(void *at, size_t size);
void *__wrap_aligned_alloc(size_t alignment, size_t size);
int __wrap_posix_memalign(void **at, size_t alignment, size_t size);
void __wrap_free(void *at);

/* How many allocations were asked for, from which on they are refused, whether only that one is, how many were, and how many are held. */
static long asked, refused_from, is_one, refused, live;

static int is_refused(void)
{
	asked++;
	if (refused_from == 0 || asked < refused_from || (is_one && asked > refused_from))
		return 0;
	refused++;
	return 1;
}

static void *counted(void *at)
{
	live += at != NULL;
	return at;
}

void *__wrap_malloc(size_t size) { return is_refused() ? NULL : counted(__real_malloc(size)); }
void *__wrap_calloc(size_t count, size_t size) { return is_refused() ? NULL : counted(__real_calloc(count, size)); }
void *__wrap_aligned_alloc(size_t alignment, size_t size) { return is_refused() ? NULL : counted(__real_aligned_alloc(alignment, size)); }

void *__wrap_realloc(void *at, size_t size)
{
	if (is_refused())
		return NULL;
	return at ? __real_realloc(at, size) : counted(__real_realloc(at, size));
}

int __wrap_posix_memalign(void **at, size_t alignment, size_t size)
{
	int r = is_refused() ? ENOMEM : __real_posix_memalign(at, alignment, size);
	live += r == 0;
	return r;
}

void __wrap_free(void *at)
{
	live -= at != NULL;
	__real_free(at);
}

static int failures;

#define CHECK(is) check((is), __LINE__, #is)

static void check(int is, int line, const char *text)
{
	if (!is && failures++ < 20)
		printf("memory.c:%d: allocation %ld%s refused: not so: %s\n", line, refused_from, is_one ? "" : " and all after it", text);
}

enum { ROUNDS = 50, LIMIT = 300 };

static int inside;

static void flushed(struct evsched *dev, struct evsched_event ev, void *arg)
{
	(void)dev;
	(void)ev;
	(void)arg;
	inside--;
}

/* Whether to go on: a call that was refused memory is made again, and where memory stays refused, the device is let go of. */
static int again(int r)
{
	CHECK(r >= 0 || (r == -ENOMEM && refused > 0));
	return r == -ENOMEM && is_one;
}

static int sweep(struct evsched *dev)
{
	int r = evsched_sweep(dev);
	return again(r) ? evsched_sweep(dev) : r;
}

/* 32 NEWs of port 0; port 1 forwards the first half of what it dequeues, with a FORWARD_MORE beside, and releases the rest. */
static int run(struct evsched *dev)
{
	struct evsched_event ev[64], more;
	for (int round = 0; round < ROUNDS; round++) {
		int n, i, r;
		for (i = 0; i < 32; i++) {
			ev[i].event = 0;
			ev[i].queue_id = (uint8_t)(i % 3);
			ev[i].flow_id = (uint32_t)(round * 7 + i) & 0xfffff;
			ev[i].u64 = (uint64_t)i;
		}
		inside += evsched_enqueue_burst(evsched_port(dev, 0), ev, 32);
		if ((r = sweep(dev)) < 0)
			return r;
		n = evsched_dequeue_burst(evsched_port(dev, 1), ev, 24);
		for (i = 0; i < n; i++) {
			if (i < n / 2) {
				more = ev[i];
				more.op = EVSCHED_OP_FORWARD_MORE;
				inside += evsched_enqueue_burst(evsched_port(dev, 1), &more, 1);
			}
			ev[i].op = i < n / 2 ? EVSCHED_OP_FORWARD : EVSCHED_OP_RELEASE;
			CHECK(evsched_enqueue_burst(evsched_port(dev, 1), &ev[i], 1) == 1);
			inside -= i >= n / 2;
		}
		if ((r = sweep(dev)) < 0)
			return r;
	}
	return 0;
}

static int is_stopped(struct evsched *dev)
{
	int r = evsched_stop(dev);
	if (again(r)) {
		CHECK(evsched_inside(dev) >= 0); /* it runs on */
		r = evsched_stop(dev);
	}
	return r == 0;
}

/* Makes a device, uses it, shuts it with events inside, and stops it, after a drain or before. */
static void live_once(int is_drained)
{
	struct evsched_dev_config config = evsched_dev_default_config(3, 2);
	struct evsched_report report;
	struct evsched_left left[20];
	struct evsched *dev;
	long made;
	int r, n;
	for (int q = 0; q < 3; q++)
		config.queue[q].schedule_type = (uint8_t)q;
	config.event_dev_cfg = is_drained ? EVSCHED_DEV_CFG_FLOW_LANES : 0;
	config.nb_events_limit = config.port[0].new_event_threshold = config.port[1].new_event_threshold = LIMIT;
	config.port[1].links = 7;
	config.port[1].event_port_cfg = EVSCHED_PORT_CFG_DISABLE_IMPL_REL;
	inside = 0;
	r = evsched_create(&config, &dev);
	CHECK((r == 0) == (dev != NULL));
	if (again(r))
		r = evsched_create(&config, &dev);
	if (r < 0)
		return;
	made = asked;
	r = run(dev);
	if (r == 0 && is_drained) {
		r = evsched_drain(dev, flushed, NULL);
		if (again(r))
			r = evsched_drain(dev, flushed, NULL);
	}
	CHECK(r == 0 && asked == made); /* all of its memory is there from the start */
	if (r == 0) {
		struct evsched_event ev[5] = {{{0}, {0}}};
		int some = evsched_enqueue_burst(evsched_port(dev, 0), ev, 5);
		inside += some;
		CHECK(evsched_shut(dev) == 0);
		if (sweep(dev) >= 0 && is_stopped(dev)) {
			CHECK(evsched_report(dev, &report) == 0 && report.turned == (uint64_t)some);
			inside -= (int)report.held;
			while ((n = evsched_left(dev, left, 20)) > 0)
				inside -= n;
			CHECK(inside == 0);
			CHECK(report.free + report.own + report.pockets + report.waiting + report.kept + report.undelivered + report.held
				+ report.untaken == LIMIT);
		}
	}
	evsched_free(dev);
}

int main(void)
{
	long most[2], tried = 0, none = 0;
	setvbuf(stdout, NULL, _IONBF, 0);
	for (int is_drained = 0; is_drained < 2; is_drained++) {
		asked = refused_from = refused = live = 0;
		live_once(is_drained);
		CHECK(live == 0);
		most[is_drained] = asked;
		for (is_one = 0; is_one < 2; is_one++)
			for (refused_from = 1; refused_from <= most[is_drained]; refused_from++) {
				asked = refused = live = 0;
				live_once(is_drained);
				CHECK(live == 0);
				tried++;
				none += refused == 0;
			}
	}
	CHECK(none == 0);
	printf("memory: %ld and %ld allocations, each refused alone and with all after it, in %ld runs: %d failures\n", most[0], most[1],
		tried, failures);
	return failures > 0;
}
