/* SPDX-License-Identifier: BSD-3-Clause */
/*
 * What EVSCHED_DEBUG and a sanitizer of threads add to the calls of evsched.h, which includes it: nothing where neither is asked for.
 *
 * With EVSCHED_DEBUG defined before evsched.h is included, a device and each port remember the thread that is in one of their calls. A
 * second thread at the same time, NULL, what is no handle, a use after evsched_free, and evsched_free from a flush end the program by
 * abort, with a line on standard error that names the call, the port and both threads. So that a use after it is seen, evsched_free then
 * keeps a block that evsched_create allocated. All files of a program are compiled with it or none: what a file without it does isn't
 * watched.
 *
 * Under -fsanitize=thread the calls tell the sanitizer what they order, since the library's code isn't instrumented: what was done before
 * an enqueue, or before a dequeue that releases, comes before what is done after a later dequeue of the same device; a sweep comes behind
 * the enqueues before it and before the dequeues after it, and a shut before the enqueues that see it.
 */
#ifndef EVSCHED_DEBUG_H
#define EVSCHED_DEBUG_H

#ifndef EVSCHED_H
#error "include evsched.h"
#endif

#if defined(__SANITIZE_THREAD__)
#define EVSCHED_PRIV_TSAN 1
#elif defined(__has_feature)
#if __has_feature(thread_sanitizer)
#define EVSCHED_PRIV_TSAN 1
#endif
#endif

#ifdef EVSCHED_PRIV_TSAN
void __tsan_acquire(void *at);
void __tsan_release(void *at);

static inline void evsched_priv_comes_before(void *at)
{
	__tsan_release(at);
}

static inline void evsched_priv_comes_behind(void *at)
{
	__tsan_acquire(at);
}

/* A dequeue with nothing held releases nothing. */
static inline void evsched_priv_comes_before_release(struct evsched_port *port)
{
	if (evsched_port_held(evsched_priv_at(port)) > 0)
		__tsan_release(port->dev);
}
#else
static inline void evsched_priv_comes_before(void *at)
{
	(void)at;
}

static inline void evsched_priv_comes_behind(void *at)
{
	(void)at;
}

static inline void evsched_priv_comes_before_release(struct evsched_port *port)
{
	(void)port;
}
#endif

#ifdef EVSCHED_DEBUG
/* Ends the program with a line that names the call. */
__attribute__((noreturn, format(printf, 2, 3)))
static inline void evsched_priv_abort(const char *call, const char *format, ...)
{
	char line[200];
	va_list words;
	va_start(words, format);
	vsnprintf(line, sizeof(line), format, words);
	va_end(words);
	fprintf(stderr, "evsched: %s: %s\n", call, line);
	abort();
}

static inline uintptr_t evsched_priv_self(void)
{
	return (uintptr_t)pthread_self();
}

/* Ends the program where this is no handle of the kind. */
static inline void evsched_priv_watch(const void *handle, uint32_t magic, const char *kind, const char *call)
{
	unsigned long long self = evsched_priv_self();
	if (!handle)
		evsched_priv_abort(call, "thread 0x%llx uses a %s that is NULL", self, kind);
	if (*(const uint32_t *)handle == EVSCHED_PRIV_FREED)
		evsched_priv_abort(call, "thread 0x%llx uses the %s %p after evsched_free", self, kind, handle);
	if (*(const uint32_t *)handle != magic)
		evsched_priv_abort(call, "thread 0x%llx uses %p, which is no %s", self, handle, kind);
}

static inline void evsched_priv_watch_device(const struct evsched *dev, const char *call)
{
	evsched_priv_watch(dev, EVSCHED_PRIV_DEVICE, "device", call);
}

/* This thread enters: the thread that was there, this one or none. Where another one is, that goes on as if nobody had come, so that one
 * line is written. These steps order nothing, so that no race is hidden. */
static inline uintptr_t evsched_priv_take(uintptr_t *thread, const char *what, int number, const char *call)
{
	uintptr_t self = evsched_priv_self(), before = 0;
	char port[16] = "";
	if (__atomic_compare_exchange_n(thread, &before, self, 0, __ATOMIC_RELAXED, __ATOMIC_RELAXED) || before == self)
		return before;
	if (number >= 0)
		snprintf(port, sizeof(port), " %d", number);
	evsched_priv_abort(call, "thread 0x%llx enters %s%s, and thread 0x%llx is in it", (unsigned long long)self, what, port,
		(unsigned long long)before);
}

static inline void evsched_priv_give_back(uintptr_t *thread, uintptr_t before)
{
	__atomic_store_n(thread, before, __ATOMIC_RELAXED);
}

static inline uintptr_t evsched_priv_enter_port(struct evsched_port *port, const char *call)
{
	evsched_priv_watch(port, EVSCHED_PRIV_PORT, "port", call);
	return evsched_priv_take(&port->thread, "port", (int)port->number, call);
}

static inline void evsched_priv_leave_port(struct evsched_port *port, uintptr_t before)
{
	evsched_priv_give_back(&port->thread, before);
}

static inline uintptr_t evsched_priv_enter(struct evsched *dev, const char *call)
{
	evsched_priv_watch_device(dev, call);
	return evsched_priv_take(&dev->thread, "the device", -1, call);
}

static inline void evsched_priv_leave(struct evsched *dev, uintptr_t before)
{
	evsched_priv_give_back(&dev->thread, before);
}

static inline uintptr_t evsched_priv_enter_shut(struct evsched *dev, const char *call)
{
	evsched_priv_watch_device(dev, call);
	return evsched_priv_take(&dev->shut_thread, "the shut", -1, call);
}

static inline void evsched_priv_leave_shut(struct evsched *dev, uintptr_t before)
{
	evsched_priv_give_back(&dev->shut_thread, before);
}

/* Enters the device, its shut and all ports. */
static inline void evsched_priv_enter_all(struct evsched *dev, const char *call)
{
	uint32_t p;
	evsched_priv_enter(dev, call);
	evsched_priv_enter_shut(dev, call);
	for (p = 0; p < dev->config.nb_event_ports; p++)
		evsched_priv_enter_port(evsched_priv_port(dev, p), call);
}

static inline void evsched_priv_leave_all(struct evsched *dev)
{
	uint32_t p;
	for (p = 0; p < dev->config.nb_event_ports; p++)
		evsched_priv_leave_port(evsched_priv_port(dev, p), 0);
	evsched_priv_leave_shut(dev, 0);
	evsched_priv_leave(dev, 0);
}

/* A flush begins (1) or has ended (-1). */
static inline void evsched_priv_flushes(struct evsched *dev, int by)
{
	__atomic_fetch_add(&dev->flushes, by, __ATOMIC_RELAXED);
}

/* Before a device is let go of: no flush may run. */
static inline void evsched_priv_watch_free(struct evsched *dev, const char *call)
{
	evsched_priv_watch_device(dev, call);
	if (__atomic_load_n(&dev->flushes, __ATOMIC_RELAXED) > 0)
		evsched_priv_abort(call, "thread 0x%llx frees the device while a flush runs", (unsigned long long)evsched_priv_self());
}

/* Poisons a block; one that was allocated is kept, in a list, so that it isn't taken for lost. */
static inline void evsched_priv_let_go(struct evsched *dev)
{
	static struct evsched *kept;
	uint32_t p;
	for (p = 0; p < dev->config.nb_event_ports; p++)
		evsched_priv_port(dev, p)->magic = EVSCHED_PRIV_FREED;
	dev->magic = EVSCHED_PRIV_FREED;
	if (dev->base)
		dev->next = __atomic_exchange_n(&kept, dev, __ATOMIC_ACQ_REL);
}
#else
static inline void evsched_priv_watch_device(const struct evsched *dev, const char *call)
{
	(void)dev;
	(void)call;
}

static inline uintptr_t evsched_priv_enter_port(struct evsched_port *port, const char *call)
{
	(void)port;
	(void)call;
	return 0;
}

static inline void evsched_priv_leave_port(struct evsched_port *port, uintptr_t before)
{
	(void)port;
	(void)before;
}

static inline uintptr_t evsched_priv_enter(struct evsched *dev, const char *call)
{
	(void)dev;
	(void)call;
	return 0;
}

static inline void evsched_priv_leave(struct evsched *dev, uintptr_t before)
{
	(void)dev;
	(void)before;
}

static inline uintptr_t evsched_priv_enter_shut(struct evsched *dev, const char *call)
{
	(void)dev;
	(void)call;
	return 0;
}

static inline void evsched_priv_leave_shut(struct evsched *dev, uintptr_t before)
{
	(void)dev;
	(void)before;
}

static inline void evsched_priv_enter_all(struct evsched *dev, const char *call)
{
	(void)dev;
	(void)call;
}

static inline void evsched_priv_leave_all(struct evsched *dev)
{
	(void)dev;
}

static inline void evsched_priv_flushes(struct evsched *dev, int by)
{
	(void)dev;
	(void)by;
}

static inline void evsched_priv_watch_free(struct evsched *dev, const char *call)
{
	(void)dev;
	(void)call;
}

static inline void evsched_priv_let_go(struct evsched *dev)
{
	free(dev->base);
}
#endif

#endif
