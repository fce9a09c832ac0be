/* SPDX-License-Identifier: BSD-3-Clause */
/*
 * How evsched_dequeue_wait of evsched.h, which includes it, passes the time.
 */
#ifndef EVSCHED_WAIT_H
#define EVSCHED_WAIT_H

#ifndef EVSCHED_H
#error "include evsched.h"
#endif

/* A -std without GNU's extensions hides what POSIX declares: it is declared again, alike. C++ always has it. */
#ifndef __cplusplus
extern int clock_gettime(int clock, struct timespec *time);
extern int nanosleep(const struct timespec *time, struct timespec *left);
#endif

enum { EVSCHED_PRIV_MONOTONIC = 1, EVSCHED_PRIV_SPINS = 64, EVSCHED_PRIV_YIELDS = 128, EVSCHED_PRIV_NAP = 10000 };

/* Nanoseconds of a clock that nobody sets. */
static inline uint64_t evsched_priv_now(void)
{
	struct timespec time;
	clock_gettime(EVSCHED_PRIV_MONOTONIC, &time);
	return (uint64_t)time.tv_sec * 1000000000u + (uint64_t)time.tv_nsec;
}

/* Whether so many nanoseconds have passed since `start`, which the first call sets. */
static inline int evsched_priv_is_over(uint64_t *start, uint64_t timeout_ns)
{
	uint64_t now;
	if (timeout_ns == 0)
		return 1;
	now = evsched_priv_now();
	if (*start == 0)
		*start = now;
	return now - *start >= timeout_ns;
}

/* Lets the processor do something else: the other half of its core first, then other threads, then what needs it longer. */
static inline void evsched_priv_pause(uint32_t turn)
{
	struct timespec nap = {0, EVSCHED_PRIV_NAP};
	if (turn >= EVSCHED_PRIV_YIELDS)
		nanosleep(&nap, NULL);
	else if (turn >= EVSCHED_PRIV_SPINS)
		sched_yield();
	else
#if defined(__x86_64__) || defined(__i386__)
		__builtin_ia32_pause();
#elif defined(__aarch64__)
		__asm__ volatile("yield" ::: "memory");
#else
		__asm__ volatile("" ::: "memory");
#endif
}

#endif
