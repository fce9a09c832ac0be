/* SPDX-License-Identifier: BSD-3-Clause */
/*
 * What is read of a device is whole: one thread calls a device and publishes behind every call, far more often than readers would have it
 * do, and two threads read all the time. A copy of two publications shows sums that don't agree.
 *
 *     torn [SECONDS]
 */
#include <evsched.h>
#include <pthread.h>
#include <stdatomic.h>
#include <stdio.h>
#include <time.h>

enum { READERS = 2, BURST = 32, FLOWS = 16 };

static struct evsched *dev;
static atomic_int is_over;
static atomic_ulong readings;

#define CHECK(is) ((is) ? (void)0 : fail(__LINE__, #is))

static _Noreturn void fail(int line, const char *text)
{
	printf("torn.c:%d: not so, in reading %lu: %s\n", line, atomic_load(&readings), text);
	fflush(stdout);
	_Exit(1);
}

/* Of queue 0 and of the port that serves it, which answers by implicit release alone. */
static void check(const struct evsched_stats *s)
{
	const struct evsched_queue_now *queue = &s->queue[0];
	const struct evsched_port_now *port = &s->port[1];
	CHECK(queue->rx == queue->tx + queue->waiting && queue->rx == s->dev.lanes.rx_new && queue->rx == s->dev.rx_new);
	CHECK(queue->tx == port->lane.tx && queue->tx == s->share[0][1].tx && queue->tx == s->dev.given && queue->unanswered == port->unanswered);
	CHECK(s->dev.inside == queue->waiting + queue->unanswered && s->dev.taken == queue->rx + port->lane.released);
	CHECK(port->held == port->counters.dequeued - port->counters.released);
}

static void *observe(void *arg)
{
	static struct evsched_stats stats[READERS];
	struct evsched_stats *mine = &stats[*(const int *)arg];
	while (!atomic_load(&is_over)) {
		evsched_stats_read(dev, mine, 0);
		check(mine);
		atomic_fetch_add(&readings, 1);
	}
	return NULL;
}

/* One round of calls by one thread, each published: NEWs, a sweep, and dequeues of one event and of two in turn. */
static void call(uint64_t round)
{
	struct evsched_event ev[BURST];
	uint16_t n = (uint16_t)(1 + round % BURST), i;
	for (i = 0; i < n; i++) {
		ev[i].event = 0;
		ev[i].u64 = 0;
		ev[i].flow_id = (round + i) % FLOWS;
	}
	evsched_enqueue_burst(evsched_port(dev, 0), ev, n);
	evsched_priv_publish_port(evsched_port(dev, 0));
	CHECK(evsched_sweep(dev) >= 0);
	evsched_priv_publish(dev, 0);
	for (i = 0; i < n; i++) {
		evsched_dequeue_burst(evsched_port(dev, 1), ev, 1 + i % 2);
		evsched_priv_publish_port(evsched_port(dev, 1));
	}
}

int main(int argc, char **argv)
{
	time_t seconds = argc > 1 ? strtol(argv[1], NULL, 10) : 2, start = time(NULL);
	struct evsched_dev_config config = evsched_dev_default_config(1, 2);
	int which[READERS] = {0, 1}, i;
	pthread_t reader[READERS];
	uint64_t round = 0;
	config.port[1].links = 1;
	CHECK(evsched_create(&config, &dev) == 0);
	for (i = 0; i < READERS; i++)
		CHECK(pthread_create(&reader[i], NULL, observe, &which[i]) == 0);
	while (time(NULL) - start < seconds)
		call(round++);
	atomic_store(&is_over, 1);
	for (i = 0; i < READERS; i++)
		CHECK(pthread_join(reader[i], NULL) == 0);
	evsched_free(dev);
	printf("torn: %llu rounds, %lu readings\n", (unsigned long long)round, atomic_load(&readings));
	return atomic_load(&readings) == 0;
}
