/* SPDX-License-Identifier: BSD-3-Clause */
/*
 * DPDK's loop over event_sw and over evsched, by turns in one process and one thread: a burst of NEWs, a schedule call, dequeues and
 * bursts of RELEASEs; in the last case the workers forward the events to a second queue first. A schedule call after that takes the
 * RELEASEs, or the next round's does. Prints nanoseconds per event, of each the least of all turns. `bench/against_event_sw` builds it.
 *
 *     both [TURNS [GROUP]]
 *
 *     one         one worker, and nothing waits between two rounds
 *     backlog     the same, and beside it with so many events waiting that all lanes are full whenever a schedule call ends
 *     workers     several workers, which share a round's burst, without and with a backlog
 *     implicit    a worker's next dequeue releases what it holds, so it enqueues no RELEASEs
 *     lanes       flow lanes serve evsched's atomic queue, without and with a backlog; event_sw has none, and serves as ever
 *     all         all of these
 *
 * A turn is so many events that were released, however many a round brings. With a backlog a round brings in what was released before.
 */
#include "two_devices.h"
#include <time.h>

enum { FLOWS = 64, FLOW_LANE = 16, EVENTS = 4096, MOST_ROUNDS = 16 * EVENTS, MOST = 32, BACKLOG = 2000, CASES = 4, KINDS = 9 };

/* A case: the types of both queues, and whether each event is forwarded from the first, which NEWs enter, to the second. */
static const struct {
	const char *name;
	uint8_t types[2];
	int forwards;
} cases[CASES] = {
	{"atomic", {RTE_SCHED_TYPE_ATOMIC, RTE_SCHED_TYPE_PARALLEL}, 0},
	{"parallel", {RTE_SCHED_TYPE_PARALLEL, RTE_SCHED_TYPE_PARALLEL}, 0},
	{"ordered", {RTE_SCHED_TYPE_ORDERED, RTE_SCHED_TYPE_PARALLEL}, 0},
	{"ordered, then parallel", {RTE_SCHED_TYPE_ORDERED, RTE_SCHED_TYPE_PARALLEL}, 1},
};

/* A kind of rows: the groups that have it, and how many of the cases. */
static const struct {
	const char *groups[2], *name;
	uint32_t workers, waiting;
	int is_implicit, is_flow_lanes, cases;
} kinds[KINDS] = {
	{{"one", "backlog"}, "plain", 1, 0, 0, 0, CASES},
	{{"backlog", ""}, "plain", 1, BACKLOG, 0, 0, CASES},
	{{"workers", ""}, "plain", 2, 0, 0, 0, CASES},
	{{"workers", ""}, "plain", 2, BACKLOG, 0, 0, CASES},
	{{"workers", ""}, "plain", 4, 0, 0, 0, CASES},
	{{"workers", ""}, "plain", 4, BACKLOG, 0, 0, CASES},
	{{"implicit", ""}, "implicit", 1, 0, 1, 0, CASES},
	{{"lanes", ""}, "lanes", 1, 0, 0, 1, 1},
	{{"lanes", ""}, "lanes", 1, BACKLOG, 0, 1, 1},
};

/* What the program knows of a device and of its turn. */
struct account {
	uint64_t new_word;
	uint32_t standing; /* so many events stay inside beside a round's burst */
	uint32_t inside;   /* NEWs that weren't released yet */
	uint32_t flow;     /* of the next NEW */
	uint32_t chance;
	uint32_t left;     /* so many events are to be released in this turn */
};

/* What a loop goes by. */
struct plan {
	uint32_t workers;
	uint32_t burst, share; /* and what of it each worker dequeues */
	int forwards, is_implicit, is_taken;
};

static inline uint32_t least(uint32_t a, uint32_t b)
{
	return a < b ? a : b;
}

/* As many NEWs as are missing to this number, at most a burst. */
ALWAYS void bring(int is_ours, struct account *account, uint32_t number, uint32_t burst, union event *ev)
{
	uint32_t n, i;
	if (account->inside >= number)
		return;
	n = least(number - account->inside, burst);
	for (i = 0; i < n; i++) {
		ev[i].theirs.event = account->new_word | account->flow;
		account->flow = (account->flow + 1) % FLOWS;
	}
	if (enqueue(is_ours, SOURCE, ev, (uint16_t)n) != (int)n)
		fail("NEWs are refused");
	account->inside += n;
}

/* A worker dequeues at most so many events and answers them; with implicit release it leaves those after the last FORWARD to its next
 * dequeue. How many came. */
ALWAYS uint32_t work(int is_ours, const struct plan *plan, struct account *account, uint32_t worker, uint32_t most, union event *ev)
{
	int n = dequeue(is_ours, worker, ev, (uint16_t)most), answered = 0, forwarded = 0, i;
	for (i = 0; i < n; i++) {
		ev[i].theirs.op = RTE_EVENT_OP_RELEASE;
		if (plan->forwards && ev[i].theirs.queue_id == 0) {
			ev[i].theirs.op = RTE_EVENT_OP_FORWARD;
			ev[i].theirs.queue_id = 1;
			ev[i].theirs.sched_type = RTE_SCHED_TYPE_PARALLEL;
			answered = i + 1;
			forwarded++;
		}
	}
	if (!plan->is_implicit)
		answered = n;
	if (answered > 0 && enqueue(is_ours, worker, ev, (uint16_t)answered) != answered)
		fail("answers are refused");
	account->inside -= (uint32_t)(n - forwarded);
	account->left -= (uint32_t)(n - forwarded);
	return (uint32_t)n;
}

/* A schedule call, and the workers share a burst. Which of them is asked first goes by chance, in step with neither device. */
ALWAYS void answer(int is_ours, uint32_t workers, const struct plan *plan, struct account *account, union event *ev)
{
	uint32_t most = least(plan->burst, account->left), came = 0, asked, worker;
	account->chance = account->chance * 69069 + 1;
	worker = (account->chance >> 16) % workers;
	schedule(is_ours);
	for (asked = 0; asked < workers && came < most; asked++) {
		came += work(is_ours, plan, account, WORKER + worker, least(plan->share, most - came), ev);
		worker = worker + 1 < workers ? worker + 1 : 0;
	}
}

/* Rounds until so many events came as a turn has. */
ALWAYS void rounds(int is_ours, uint32_t workers, const struct plan *plan, struct account *account)
{
	union event ev[MOST];
	int round;
	memset(ev, 0, sizeof(ev));
	for (round = 0; account->left > 0; round++) {
		if (round == MOST_ROUNDS)
			fail("too few events come");
		bring(is_ours, account, account->standing + plan->burst, plan->burst, ev);
		if (plan->forwards)
			answer(is_ours, workers, plan, account, ev);
		answer(is_ours, workers, plan, account, ev);
		if (plan->is_taken)
			schedule(is_ours);
	}
}

/* So many events wait, and as many more fill the lanes. */
ALWAYS void fill(int is_ours, struct account *account, uint32_t waiting, uint32_t lanes)
{
	union event ev[MOST];
	memset(ev, 0, sizeof(ev));
	account->standing = waiting ? waiting + lanes : 0;
	while (account->inside < account->standing) {
		bring(is_ours, account, account->standing, MOST, ev);
		schedule(is_ours);
	}
}

static double now(void)
{
	struct timespec t;
	clock_gettime(CLOCK_MONOTONIC, &t);
	return (double)t.tv_sec * 1e9 + (double)t.tv_nsec;
}

/* One turn of either: nanoseconds per event. A function of its own, so that callgrind can count what it takes. */
__attribute__((noinline, noclone)) static double turn(int is_ours, const struct plan *plan, struct account *account)
{
	double start;
	account->left = EVENTS;
	start = now();
	if (plan->workers > 1)
		is_ours ? rounds(1, plan->workers, plan, account) : rounds(0, plan->workers, plan, account);
	else
		is_ours ? rounds(1, 1, plan, account) : rounds(0, 1, plan, account);
	return (now() - start) / EVENTS;
}

/* The rows of a kind and a case. */
static void measure(int kind, int number, struct account accounts[2], int turns)
{
	static const uint32_t bursts[] = {1, 8, 32};
	struct plan plan = {.workers = kinds[kind].workers, .forwards = cases[number].forwards, .is_implicit = kinds[kind].is_implicit};
	for (plan.is_taken = 1; plan.is_taken >= 0; plan.is_taken--)
		for (int b = 0; b < 3; b++) {
			double least_time[2] = {1e30, 1e30};
			plan.burst = bursts[b];
			plan.share = plan.burst < plan.workers ? 1 : plan.burst / plan.workers;
			for (int i = 0; i < 2 * turns; i++) {
				double ns = turn(i % 2, &plan, &accounts[i % 2]);
				if (ns < least_time[i % 2])
					least_time[i % 2] = ns;
			}
			printf("%-24s %-8s %7u %7u %-8s %5u %10.1f %10.1f %6.2f\n", cases[number].name, kinds[kind].name, plan.workers,
				kinds[kind].waiting, plan.is_taken ? "with" : "without", plan.burst, least_time[0], least_time[1],
				least_time[1] / least_time[0]);
		}
}

/* The second queue is served first, so that events which were forwarded don't wait behind a backlog of the first. */
static void measure_case(int kind, int number, int turns)
{
	struct shape shape = {.queues = 2, .workers = kinds[kind].workers, .types = {cases[number].types[0], cases[number].types[1]},
		.is_last_first = 1, .is_implicit = kinds[kind].is_implicit, .is_flow_lanes = kinds[kind].is_flow_lanes};
	struct account accounts[2];
	memset(accounts, 0, sizeof(accounts));
	accounts[0].new_word = accounts[1].new_word = new_word(&shape);
	make_theirs(&shape);
	make_ours(&shape);
	fill(0, &accounts[0], kinds[kind].waiting, shape.workers * THEIR_DEPTH);
	fill(1, &accounts[1], kinds[kind].waiting, shape.is_flow_lanes ? FLOWS * FLOW_LANE : shape.workers * OUR_DEPTH);
	measure(kind, number, accounts, turns);
	free_both();
}

int main(int argc, char **argv)
{
	int turns = argc > 1 ? atoi(argv[1]) : 201, kind, number, found = 0;
	const char *group = argc > 2 ? argv[2] : "all";
	start_eal(argv[0]);
	printf("%-24s %-8s %7s %7s %-8s %5s %10s %10s %6s\n", "queue", "kind", "workers", "waiting", "last", "burst", "event_sw", "evsched",
		"ratio");
	for (kind = 0; kind < KINDS; kind++) {
		if (strcmp(group, "all") && strcmp(group, kinds[kind].groups[0]) && strcmp(group, kinds[kind].groups[1]))
			continue;
		for (number = 0; number < kinds[kind].cases; number++)
			measure_case(kind, number, turns);
		found = 1;
	}
	if (!found)
		fail("there is no such group");
	return 0;
}
