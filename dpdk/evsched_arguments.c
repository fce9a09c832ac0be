/* SPDX-License-Identifier: BSD-3-Clause */
/* The arguments of a device: each is checked, and a wrong one refuses the device with a line of the log that says what it may be. */
#include "evsched_eventdev.h"

#include <stdlib.h>
#include <string.h>

#include <rte_kvargs.h>
#include <rte_lcore.h>
#include <rte_memory.h>

/* An argument: a number from least to most, or one of two words, which are 0 and 1. */
struct argument {
	const char *key;
	size_t at;
	uint32_t least, most;
	const char *words[2];
};

#define AT(field) offsetof(struct evd_arguments, field)

static const struct argument known[] = {
	{"credit_quanta", AT(credit_quanta), 1, EVSCHED_MAX_EVENTS_LIMIT, {NULL, NULL}},
	{"sched_quanta", AT(sched_quanta), 1, EVSCHED_MAX_SCHED_QUANTA, {NULL, NULL}},
	{"max_events", AT(max_events), 1, EVSCHED_MAX_EVENTS_LIMIT, {NULL, NULL}},
	{"max_depth", AT(max_depth), 1, 4096, {NULL, NULL}},
	{"numa_node", AT(numa_node), 0, RTE_MAX_NUMA_NODES - 1, {NULL, NULL}},
	{"bad_queue", AT(drops_bad_queue), 0, 0, {"refuse", "drop"}},
	{"unheld", AT(refuses_unheld), 0, 0, {"new", "refuse"}},
	{"relink", AT(relinks_next), 0, 0, {"refuse", "next"}},
};

/* An argument that is being read: the device's name, which argument, and where it goes. */
struct reading {
	const char *name;
	const struct argument *argument;
	struct evd_arguments *to;
};

static int read_word(const struct reading *reading, const char *value)
{
	const struct argument *argument = reading->argument;
	uint32_t *to = (uint32_t *)(void *)((char *)reading->to + argument->at);
	for (*to = 0; *to < RTE_DIM(argument->words); ++*to)
		if (strcmp(value, argument->words[*to]) == 0)
			return 0;
	evd_log(RTE_LOG_ERR, reading->name, "%s=%s is neither %s nor %s", argument->key, value, argument->words[0], argument->words[1]);
	return -EINVAL;
}

static int read_number(const struct reading *reading, const char *value)
{
	const struct argument *argument = reading->argument;
	uint32_t *to = (uint32_t *)(void *)((char *)reading->to + argument->at);
	char *end = NULL;
	unsigned long number = 0;
	bool is_number = value[0] >= '0' && value[0] <= '9';
	errno = 0;
	if (is_number)
		number = strtoul(value, &end, 10);
	if (!is_number || *end != '\0' || errno != 0 || number < argument->least || number > argument->most) {
		evd_log(RTE_LOG_ERR, reading->name, "%s=%s is not a number from %u to %u", argument->key, value, argument->least, argument->most);
		return -EINVAL;
	}
	*to = (uint32_t)number;
	return 0;
}

static int read_one(const char *key, const char *value, void *at)
{
	const struct reading *reading = at;
	if (value == NULL || value[0] == '\0') {
		evd_log(RTE_LOG_ERR, reading->name, "%s has no value", key);
		return -EINVAL;
	}
	return reading->argument->words[0] ? read_word(reading, value) : read_number(reading, value);
}

/* Whether there is such a node, so that DPDK finds memory there. */
static bool is_node(const char *name, uint32_t node)
{
	unsigned int i;
	for (i = 0; i < rte_socket_count(); i++)
		if (rte_socket_id_by_idx(i) == (int)node)
			return true;
	evd_log(RTE_LOG_ERR, name, "numa_node=%u: there is no such node", node);
	return false;
}

static int read_all(const char *name, const struct rte_kvargs *list, struct evd_arguments *to)
{
	size_t i;
	for (i = 0; i < RTE_DIM(known); i++) {
		struct reading reading = {name, &known[i], to};
		if (rte_kvargs_count(list, known[i].key) > 1) {
			evd_log(RTE_LOG_ERR, name, "%s is given more than once", known[i].key);
			return -EINVAL;
		}
		if (rte_kvargs_process(list, known[i].key, read_one, &reading) < 0)
			return -EINVAL;
	}
	return rte_kvargs_count(list, "numa_node") == 0 || is_node(name, to->numa_node) ? 0 : -EINVAL;
}

static void refuse_unknown(const char *name, const char *text)
{
	char keys[160] = "";
	size_t i, at = 0;
	for (i = 0; i < RTE_DIM(known); i++)
		at += (size_t)snprintf(keys + at, sizeof(keys) - at, "%s%s", i > 0 ? ", " : "", known[i].key);
	evd_log(RTE_LOG_ERR, name, "\"%s\": the arguments that are known are %s", text, keys);
}

int evd_read_arguments(const char *name, const char *text, struct evd_arguments *to)
{
	const struct evd_arguments defaults = {32, EVSCHED_MAX_SCHED_QUANTA, EVSCHED_MAX_EVENTS_LIMIT, EVSCHED_MAX_DEPTH, 0, 0, 0, 0};
	const char *keys[RTE_DIM(known) + 1] = {NULL};
	struct rte_kvargs *list;
	size_t i;
	int r;
	*to = defaults;
	to->numa_node = rte_socket_id() == (unsigned int)SOCKET_ID_ANY ? 0 : rte_socket_id();
	if (text == NULL || text[0] == '\0')
		return 0;
	for (i = 0; i < RTE_DIM(known); i++)
		keys[i] = known[i].key;
	list = rte_kvargs_parse(text, keys);
	if (list == NULL) {
		refuse_unknown(name, text);
		return -EINVAL;
	}
	r = read_all(name, list, to);
	rte_kvargs_free(list);
	return r;
}
