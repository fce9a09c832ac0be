/* SPDX-License-Identifier: BSD-3-Clause */
/*
 * What EVSCHED_DEBUG finds: each misuse is made in a child, which must end by abort with one line on standard error that names the call,
 * what it was about, and the threads.
 */
#define EVSCHED_DEBUG
#include <evsched.h>
#include <pthread.h>
#include <signal.h>
#include <stdatomic.h>
#include <stdio.h>
#include <string.h>
#include <sys/wait.h>
#include <unistd.h>

static struct evsched *dev;
static struct evsched_event ev[4];
static atomic_int is_inside;

static void make(void)
{
	struct evsched_dev_config config = evsched_dev_default_config(1, 2);
	config.port[1].links = 1;
	if (evsched_create(&config, &dev) < 0 || evsched_enqueue_burst(evsched_port(dev, 0), ev, 1) != 1 || evsched_sweep(dev) < 0)
		_exit(2);
}

/* ---- a second thread, while a first one is in a call for ever ---- */

static void stay(struct evsched *of, struct evsched_event event, void *arg)
{
	(void)of;
	(void)event;
	(void)arg;
	atomic_store(&is_inside, 1);
	for (;;)
		pause();
}

static void *wait_in_port(void *arg)
{
	evsched_dequeue_wait(evsched_port(dev, 0), ev, 4, UINT64_MAX);
	return arg;
}

static void *drain(void *arg)
{
	evsched_drain(dev, stay, NULL);
	return arg;
}

static void *quiesce(void *arg)
{
	evsched_quiesce(evsched_port(dev, 1), stay, NULL);
	return arg;
}

static void begin(void *(*body)(void *))
{
	pthread_t thread;
	if (pthread_create(&thread, NULL, body, NULL))
		_exit(2);
	while (body == wait_in_port ? __atomic_load_n(&evsched_port(dev, 0)->thread, __ATOMIC_RELAXED) == 0 : !atomic_load(&is_inside))
		usleep(1000); /* until it waits, or is in a flush */
}

static void two_in_port(void) { begin(wait_in_port); evsched_enqueue_burst(evsched_port(dev, 0), ev, 1); }
static void two_in_quiesced(void) { begin(quiesce); evsched_held(evsched_port(dev, 1)); }
static void two_in_device(void) { begin(drain); evsched_sweep(dev); }
static void shut_in_drain(void) { begin(drain); evsched_shut(dev); }
static void port_in_drain(void) { begin(drain); evsched_dequeue_burst(evsched_port(dev, 1), ev, 4); }
static void stop_beside_port(void) { begin(wait_in_port); evsched_stop(dev); }
static void free_beside_port(void) { begin(wait_in_port); evsched_free(dev); }

/* ---- handles ---- */

static void null_port(void) { evsched_dequeue_burst(NULL, ev, 4); }
static void null_device(void) { evsched_sweep(NULL); }
static void null_shut(void) { evsched_shut(NULL); }
static void no_port(void) { evsched_held((struct evsched_port *)(void *)dev); }
static void no_device(void) { struct evsched_dev_stats stats; evsched_dev_stats((struct evsched *)(void *)evsched_port(dev, 0), &stats); }
static void xstats_of_null(void) { evsched_xstats_reset(NULL, EVSCHED_XSTATS_DEVICE, 0, NULL, 0, 0); }
static void number_of_null(void) { evsched_port(NULL, 0); }

/* ---- free ---- */

static void free_it(struct evsched *of, struct evsched_event event, void *arg)
{
	(void)event;
	(void)arg;
	evsched_free(of);
}

static void free_in_drain(void) { evsched_drain(dev, free_it, NULL); }
static void free_in_quiesce(void) { evsched_quiesce(evsched_port(dev, 1), free_it, NULL); }

static void device_after_free(void) { evsched_free(dev); evsched_sweep(dev); }
static void free_twice(void) { evsched_free(dev); evsched_free(dev); }
static void read_after_free(void) { static struct evsched_stats stats; evsched_free(dev); evsched_stats_read(dev, &stats, 0); }
static void port_after_free(void) { struct evsched_port *port = evsched_port(dev, 1); evsched_free(dev); evsched_errno(port); }

/* What the line must have, in this order; T is a thread's number. */
static const struct {
	const char *name;
	void (*misuse)(void);
	const char *words[4];
} cases[] = {
	{"two threads in a port", two_in_port, {"evsched_enqueue_burst", "enters port 0", "thread 0x", "is in it"}},
	{"two threads in a port that is emptied", two_in_quiesced, {"evsched_held", "enters port 1", "thread 0x", "is in it"}},
	{"two threads in the device", two_in_device, {"evsched_sweep", "enters the device", "thread 0x", "is in it"}},
	{"a shut in a drain", shut_in_drain, {"evsched_shut", "enters the shut", "thread 0x", "is in it"}},
	{"a dequeue in a drain", port_in_drain, {"evsched_dequeue_burst", "enters port 1", "thread 0x", "is in it"}},
	{"a stop beside a port's call", stop_beside_port, {"evsched_stop", "enters port 0", "thread 0x", "is in it"}},
	{"a free beside a port's call", free_beside_port, {"evsched_free", "enters port 0", "thread 0x", "is in it"}},
	{"a port that is NULL", null_port, {"evsched_dequeue_burst", "thread 0x", "port", "NULL"}},
	{"a device that is NULL", null_device, {"evsched_sweep", "thread 0x", "device", "NULL"}},
	{"a shut of NULL", null_shut, {"evsched_shut", "thread 0x", "device", "NULL"}},
	{"statistics of NULL", xstats_of_null, {"evsched_xstats_reset", "thread 0x", "device", "NULL"}},
	{"a port of NULL", number_of_null, {"evsched_port", "thread 0x", "device", "NULL"}},
	{"a device for a port", no_port, {"evsched_held", "thread 0x", "is no port", ""}},
	{"a port for a device", no_device, {"evsched_dev_stats", "thread 0x", "is no device", ""}},
	{"a free in a drain's flush", free_in_drain, {"evsched_free", "thread 0x", "while a flush runs", ""}},
	{"a free in a quiesce's flush", free_in_quiesce, {"evsched_free", "thread 0x", "while a flush runs", ""}},
	{"a sweep after the free", device_after_free, {"evsched_sweep", "thread 0x", "device", "after evsched_free"}},
	{"statistics after the free", read_after_free, {"evsched_stats_read", "thread 0x", "device", "after evsched_free"}},
	{"a second free", free_twice, {"evsched_free", "thread 0x", "device", "after evsched_free"}},
	{"a port after the free", port_after_free, {"evsched_errno", "thread 0x", "port", "after evsched_free"}},
};

enum { CASES = sizeof(cases) / sizeof(cases[0]) };

/* Makes a misuse in a child: its status, and what it wrote to standard error. */
static int run(int number, char *text, size_t size)
{
	int ends[2], status = 0;
	ssize_t n, length = 0;
	pid_t child;
	if (pipe(ends) || (child = fork()) < 0)
		exit(1);
	if (child == 0) {
		dup2(ends[1], STDERR_FILENO);
		alarm(20);
		make();
		cases[number].misuse();
		_exit(0);
	}
	close(ends[1]);
	while ((n = read(ends[0], text + length, size - 1 - (size_t)length)) > 0)
		length += n;
	text[length] = '\0';
	close(ends[0]);
	waitpid(child, &status, 0);
	return status;
}

static int has_words(const char *text, const char *const words[4])
{
	for (int w = 0; w < 4; w++) {
		text = strstr(text, words[w]);
		if (!text)
			return 0;
		text += strlen(words[w]);
	}
	return 1;
}

int main(void)
{
	int failures = 0;
	for (int number = 0; number < CASES; number++) {
		char text[1000];
		int status = run(number, text, sizeof(text));
		char *end = strchr(text, '\n');
		int is_right = WIFSIGNALED(status) && WTERMSIG(status) == SIGABRT && end && end[1] == '\0' && has_words(text, cases[number].words);
		printf("%s: %s%s", cases[number].name, is_right ? "" : "NOT SO: ", *text ? text : "nothing\n");
		failures += !is_right;
	}
	make();
	evsched_free(dev); /* a sound use isn't refused */
	printf("debug: %d misuses, %d failures\n", (int)CASES, failures);
	return failures > 0;
}
