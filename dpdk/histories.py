#!/usr/bin/python3
# SPDX-License-Identifier: BSD-3-Clause
"""Judges copies of a history, each of which is changed in one way, and prints what is said of each.

    dpdk/histories.py EVSCHED DOCUMENT HISTORY [KIND..]

HISTORY is one of history.c's, of 20,000 events or more, in which there is no breach; without KIND it is changed in all ways below that its
queues' kinds allow, mostly about its middle. The status is 1 where a change isn't found that the judge can see, or something else is found.
"""
import re
import subprocess
import sys
from collections import defaultdict
from typing import NamedTuple

LINE = re.compile(rb'\{"port":(\d+),"began":(\d+),"ended":(\d+),"(\w+)":"([\w-]+)","queue":(\d+),"flow":(\d+),(.*),"payload":(\d+)\}\n')


class Entry(NamedTuple):
    port: int
    began: int
    ended: int
    deed: bytes
    op: bytes
    queue: int
    flow: int
    rest: bytes
    payload: int

    def line(self):
        return b'{"port":%d,"began":%d,"ended":%d,"%s":"%s","queue":%d,"flow":%d,%s,"payload":%d}\n' % self

    def changed(self, **fields):
        return [self._replace(**fields).line()]

    def is_got(self):
        return self.deed == b"got"

    def is_answer(self):
        return self.deed == b"sent" and self.op in (b"forward", b"release")

    def is_event(self):
        return self.is_got() or self.op != b"release"

    def value(self):
        return self.queue, self.flow, self.payload


def read_entry(line):
    port, began, ended, deed, op, queue, flow, rest, payload = LINE.fullmatch(line).groups()
    return Entry(int(port), int(began), int(ended), deed, op, int(queue), int(flow), rest, int(payload))


def second_half(entries):
    return ((i, entries[i]) for i in range(len(entries) // 2, len(entries)))


def middle(entries, fits=Entry.is_got):
    """The first entry of the second half that fits, and its place."""
    return next((i, e) for i, e in second_half(entries) if fits(e))


def last_port(entries):
    return max(e.port for e in entries)


def sent_times(entries):
    """For each event when the call began that enqueued it."""
    return {e.value(): e.began for e in entries if e.is_event() and not e.is_got()}


def answers(entries):
    """For each place of a dequeued event the place of its answer, or None."""
    places, found, count = defaultdict(list), {}, defaultdict(int)
    for place, entry in enumerate(entries):
        if entry.is_answer():
            places[entry.port].append(place)
    for place, entry in enumerate(entries):
        if entry.is_got():
            number = count[entry.port]
            count[entry.port] += 1
            found[place] = places[entry.port][number] if number < len(places[entry.port]) else None
    return found


# Each of these gives, for the places of the lines that it changes, what stands there then.


def exchanged(entries):
    """Two dequeues exchange their events of one flow; when the first one ended that of the second wasn't enqueued yet."""
    sent = sent_times(entries)
    place, one = middle(entries)
    other_place, other = middle(entries, lambda e: e.is_got() and (e.queue, e.flow) == (one.queue, one.flow) and sent[e.value()] > one.ended)
    return {place: one.changed(payload=other.payload), other_place: other.changed(payload=one.payload)}


def doubled(entries):
    """A dequeue brings an event twice."""
    place, entry = middle(entries)
    return {place: 2 * [entry.line()]}


def replaced(entries):
    """A dequeue brings an event that nobody enqueued, in the place of one that was."""
    place, entry = middle(entries)
    return {place: entry.changed(payload=1 << 63)}


def misled(entries):
    """The last port gets an event of the first queue, to which it isn't linked."""
    last = last_port(entries)
    place, entry = middle(entries, lambda e: e.is_got() and e.port == last)
    return {place: entry.changed(queue=0)}


def enqueued(entries):
    """For each event of the first queue, to which the producer brings them all, the place of its enqueue; and for each flow these places."""
    places, flows = {}, defaultdict(list)
    for place, entry in enumerate(entries):
        if entry.is_event() and not entry.is_got() and entry.queue == 0:
            places[entry.value()] = place
            flows[entry.flow].append(place)
    return places, flows


def shared(entries):
    """Of two events of the atomic first queue that two ports held at the same time the second has the first one's flow, also when it was
    sent; of that flow it is the one that comes next."""
    answered, held = answers(entries), {}
    places, flows = enqueued(entries)
    for place, entry in enumerate(entries):
        if not entry.is_got() or entry.queue != 0:
            continue
        for other in held.values():
            one = entries[other]
            first, second = places[one.value()], places[entry.value()]
            is_next = first < second and not any(first < i < second for i in flows[one.flow])
            if is_next and one.port != entry.port and one.flow != entry.flow and all(answered[i] is None or entries[answered[i]].began > entry.ended for i in (other, place)):
                return {i: e.changed(flow=one.flow) for i, e in enumerate(entries) if e.is_event() and e.value() == entry.value()}
        held[entry.port] = place
    raise StopIteration


def unanswered(entries):
    """Nothing releases what the last port dequeues."""
    last = last_port(entries)
    return {i: [] for i, e in enumerate(entries) if e.port == last and e.is_answer()}


def lost(entries):
    """An event never comes to the last port, so that it isn't released."""
    last = last_port(entries)
    place = middle(entries, lambda e: e.is_got() and e.port == last)[0]
    return {i: [] for i in (place, answers(entries)[place]) if i is not None}


def in_other_order(entries, queue):
    """Two events of a flow that one port dequeued from the queue, both enqueued before, came in the other order."""
    sent, last = sent_times(entries), {}
    for place, entry in second_half(entries):
        if entry.is_got() and entry.queue == queue:
            key = entry.port, entry.flow
            before = last.get(key)
            if before is not None and sent[entry.value()] < entries[before].began:
                return {before: entries[before].changed(payload=entry.payload), place: entry.changed(payload=entries[before].payload)}
            last[key] = place
    raise StopIteration


def overtaken(entries):
    """So did two events that were brought in."""
    return in_other_order(entries, 0)


def reordered(entries):
    """So did what two events of the first queue were forwarded as."""
    return in_other_order(entries, 1)


# What is said first of each; nothing says that an event must come.
KINDS = {
    exchanged: "broken at line [0-9]+: Early: .*", doubled: "broken at line [0-9]+: Unsent: .*", replaced: "broken at line [0-9]+: Unsent: .*",
    misled: "broken at line [0-9]+: Unlinked: .*", shared: "broken at line [0-9]+: Together: .*",
    unanswered: "broken at line [0-9]+: Overfull: .*", lost: "no breach",
    overtaken: "broken at line [0-9]+: Overtaken: .*", reordered: "broken at line [0-9]+: Reordered: .*",
}


# Of these the queues must be of certain kinds.
NEEDS = {
    shared: lambda kinds: kinds[0] == "atomic", overtaken: lambda kinds: kinds[0] == "atomic",
    reordered: lambda kinds: kinds[0] != "parallel" and kinds[1] == "atomic",
}


def judged(evsched, document, text):
    answer = subprocess.run([evsched, "judge", document], input=text, stdout=subprocess.PIPE, stderr=subprocess.STDOUT, check=False)
    return answer.stdout.decode().split("\n", 1)[0]


def main():
    evsched, document, history, *names = sys.argv[1:]
    with open(history, "rb") as file:
        lines = file.readlines()
    entries = [read_entry(line) for line in lines]
    with open(document, encoding="utf-8") as file:
        kinds = re.findall(r'^kind = "(\w+)"', file.read(), re.MULTILINE)
    wrong = 0
    for change, expected in KINDS.items():
        if names and change.__name__ not in names or not NEEDS.get(change, lambda _: True)(kinds):
            continue
        try:
            changes = change(entries)
            said = judged(evsched, document, b"".join(each for i, line in enumerate(lines) for each in changes.get(i, [line])))
        except StopIteration:
            said = "there is no place for it"
        is_so = re.fullmatch(expected, said)
        wrong += not is_so
        print(f"    {change.__name__}: {said}" + ("" if is_so else f" -- NOT {expected}"))
    return wrong > 0


if __name__ == "__main__":
    sys.exit(main())
