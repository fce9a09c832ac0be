/* SPDX-License-Identifier: BSD-3-Clause */
/*
 * Random configurations, most of them near the limits and many good: evsched_check must answer of each what evsched_create does, with a
 * sentence exactly where that isn't 0, which names the place and ends within the text's size.
 *
 *     check [CONFIGURATIONS [SEED]]
 */
#include <evsched.h>
#include <stdio.h>
#include <string.h>

enum { TEXT = 120, CODES = 18 };

static uint64_t random_state, number;
static unsigned long seen[CODES + 1]; /* by code, from EVSCHED_E_QUEUE_COUNT on; the last is 0 */

#define CHECK(is) ((is) ? (void)0 : fail(__LINE__, #is))

static void fail(int line, const char *text)
{
	printf("check.c:%d: configuration %llu: not so: %s\n", line, (unsigned long long)number, text);
	fflush(stdout);
	exit(1);
}

static uint32_t draw(uint32_t below)
{
	random_state = random_state * 6364136223846793005u + 1442695040888963407u;
	return (uint32_t)((random_state >> 33) % below);
}

/* Now and then, more often in a configuration that is to have faults. */
static uint32_t odds;

/* So many slots an atomic queue has, or one more, so that all together have about as many as they may; 0: few. */
static uint32_t slots;

static int is_spoilt(void)
{
	return odds > 0 && draw(odds) == 0;
}

/* A number of 1 to most; spoilt, at a limit or beyond it. */
static uint32_t near(uint32_t most)
{
	const uint32_t edges[] = {0, 1, 2, most - 1, most, most + 1, most + 2, UINT32_MAX, 1u << 31, 1u << 16};
	return is_spoilt() ? edges[draw(10)] : 1 + draw(most > 0 ? most : 1);
}

static void draw_one_queue(struct evsched_queue_conf *queue)
{
	queue->nb_atomic_flows = is_spoilt() ? near(EVSCHED_MAX_ATOMIC_FLOWS) : slots > 0 ? slots + draw(2) : 1 + draw(6);
	queue->nb_atomic_order_sequences = near(is_spoilt() ? EVSCHED_MAX_ORDER_SEQUENCES : 4);
	queue->event_queue_cfg = is_spoilt() ? draw(8) : draw(3) ? 0 : EVSCHED_QUEUE_CFG_SINGLE_LINK;
	queue->schedule_type = (uint8_t)(is_spoilt() ? draw(256) : draw(3));
	queue->priority = (uint8_t)draw(256);
	queue->rsvd = (uint16_t)(is_spoilt() ? draw(3) : 0);
}

static void draw_one_port(struct evsched_port_conf *port, const struct evsched_dev_config *config)
{
	int32_t limit = config->nb_events_limit;
	port->new_event_threshold = draw(3) == 0 ? 0 : is_spoilt() ? (int32_t)near((uint32_t)limit) : limit;
	if (is_spoilt())
		port->new_event_threshold = (int32_t)config->credit_quanta - 1 + (int32_t)draw(3);
	port->dequeue_depth = (uint16_t)near(EVSCHED_MAX_DEPTH);
	port->enqueue_depth = (uint16_t)near(EVSCHED_MAX_DEPTH);
	port->event_port_cfg = is_spoilt() ? draw(64) : draw(2) | draw(8) << 2;
	port->links = is_spoilt() ? 1u << draw(32) : 0;
}

/* Each queue gets a port, a shared one more. */
static void draw_links(struct evsched_dev_config *config)
{
	uint32_t q, queues = config->nb_event_queues, ports = config->nb_event_ports;
	for (q = 0; q < queues && q < EVSCHED_MAX_QUEUES && ports > 0; q++) {
		uint32_t most = ports < EVSCHED_MAX_PORTS ? ports : EVSCHED_MAX_PORTS;
		if (!is_spoilt())
			config->port[draw(most)].links |= 1u << q;
		if (is_spoilt() || (config->queue[q].event_queue_cfg == 0 && draw(2)))
			config->port[draw(most)].links |= 1u << q;
	}
}

static void draw_config(struct evsched_dev_config *config)
{
	uint32_t i;
	odds = draw(3) == 0 ? 0 : 1u << (2 + draw(6));
	config->nb_events_limit = (int32_t)near(is_spoilt() ? EVSCHED_MAX_EVENTS_LIMIT : 50);
	config->nb_event_queues = is_spoilt() ? near(EVSCHED_MAX_QUEUES) : 1 + draw(4);
	slots = draw(8) || config->nb_event_queues == 0 ? 0 : EVSCHED_MAX_ALL_ATOMIC_FLOWS / config->nb_event_queues;
	config->nb_event_ports = is_spoilt() ? near(EVSCHED_MAX_PORTS) : 1 + draw(4);
	config->credit_quanta = near(config->nb_events_limit > 0 ? (uint32_t)config->nb_events_limit : 1);
	config->sched_quanta = near(EVSCHED_MAX_SCHED_QUANTA);
	config->event_dev_cfg = is_spoilt() ? draw(4) : draw(2);
	for (i = 0; i < EVSCHED_MAX_QUEUES; i++)
		draw_one_queue(&config->queue[i]);
	for (i = 0; i < EVSCHED_MAX_PORTS; i++)
		draw_one_port(&config->port[i], config);
	draw_links(config);
}

static void count(int code)
{
	CHECK(code == 0 || (code <= -EVSCHED_E_QUEUE_COUNT && code > -EVSCHED_E_QUEUE_COUNT - CODES));
	seen[code == 0 ? CODES : -code - EVSCHED_E_QUEUE_COUNT]++;
}

/* The sentence is whole where it has the size, and cut and terminated where not. */
static void check_text(const struct evsched_dev_config *config, int code)
{
	char text[TEXT], shorter[TEXT];
	size_t size = draw(TEXT), length;
	memset(text, 'x', sizeof(text));
	CHECK(evsched_check(config, text, sizeof(text)) == code);
	length = strlen(text);
	CHECK(length < sizeof(text) - 1 && (length > 0) == (code != 0));
	memset(shorter, 'x', sizeof(shorter));
	CHECK(evsched_check(config, shorter, size) == code);
	if (size > 0)
		CHECK(strlen(shorter) == (length < size ? length : size - 1) && !strncmp(text, shorter, strlen(shorter)));
	for (; size < TEXT; size++)
		CHECK(shorter[size] == 'x');
}

static void compare(void)
{
	struct evsched_dev_config config;
	struct evsched *dev;
	int created;
	draw_config(&config);
	created = evsched_create(&config, &dev);
	CHECK((created == 0) == (dev != NULL));
	check_text(&config, created);
	count(created);
	evsched_free(dev);
}

/* The sentence, word by word. */
static void check_sentence(const struct evsched_dev_config *config, const char *expected)
{
	char text[TEXT];
	evsched_check(config, text, sizeof(text));
	if (strcmp(text, expected))
		printf("it says: %s\n", text);
	CHECK(strcmp(text, expected) == 0);
}

static void sentences(void)
{
	struct evsched_dev_config good = evsched_dev_default_config(2, 3), config;
	good.port[1].links = 3;
	CHECK(evsched_check(&good, NULL, 0) == 0);
	config = good;
	config.nb_events_limit = 1024;
	config.port[2].new_event_threshold = 4096;
	check_sentence(&config, "port 2: new_event_threshold 4096 is above nb_events_limit 1024");
	config = good;
	config.port[1].links = 5;
	check_sentence(&config, "port 1: it is linked to queue 2, and nb_event_queues is 2");
	config = good;
	config.port[1].links = 1;
	check_sentence(&config, "queue 1: no port is linked to it");
	config = good;
	config.queue[1].event_queue_cfg = EVSCHED_QUEUE_CFG_SINGLE_LINK;
	config.port[2].links = 2;
	check_sentence(&config, "queue 1: it is a single-link queue, and ports 1 and 2 are linked to it");
	config = good;
	config.queue[1].rsvd = 9;
	check_sentence(&config, "queue 1: rsvd 9 is not 0");
}

int main(int argc, char **argv)
{
	uint64_t most = argc > 1 ? strtoull(argv[1], NULL, 10) : 1000000;
	unsigned long kinds = 0;
	random_state = argc > 2 ? strtoull(argv[2], NULL, 10) : 1;
	sentences();
	for (number = 0; number < most; number++)
		compare();
	for (int code = 0; code < CODES; code++)
		kinds += seen[code] > 0;
	printf("check: %llu configurations, %lu good, of the others %lu kinds of faults:", (unsigned long long)most, seen[CODES], kinds);
	for (int code = 0; code < CODES; code++)
		if (seen[code] > 0)
			printf(" %lu of %d", seen[code], EVSCHED_E_QUEUE_COUNT + code);
	printf("\n");
	return most >= 100000 && (kinds < CODES - 3 || seen[CODES] < most / 10); /* all but LINK_TWICE, NOT_SHARED and UNALIGNED */
}
