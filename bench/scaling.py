#!/usr/bin/env python3
"""Measures what the scheduling core's take, give and release of an event cost, in bursts of 1 and of 32, which are given by the calls
that a sweep makes, in runs or dealt: beside no blocked events and 4,000, beside no waiting events and 2,000 while every lane is full when a round has given its burst, with 1 queue and with 16, of which 15
are empty, with events waiting in 1 of 3 queues and in all 3, and with 2 worker ports and 15. It fails where the larger number costs more
than 1.3 times as much as the smaller one, of the busy queues more than 1.2 times, of the worker ports more than 1.5 times, and of blocked
events in bursts of 32 more than 1.7 times as much: while events are set aside each one is looked for by itself.

    scaling.py [PROGRAM]

The program is `core_bench`; where none is named it is built. Where valgrind is installed the instructions of an event are counted, which
are the same on each machine of one kind; else it is timed.
"""
import dataclasses
import sys

from core_rounds import DEPTH, Case, can_count, counted, named, times

BURSTS, HELD = (1, 32), 32
# What is scaled, both its numbers, the most that the larger one may cost at each burst, and what else the runs are asked for.
SCALES = (
    ("blocked", (0, 4_000), (1.3, 1.7), {}),
    # The only worker holds as many as it may, so that the proposal which ends a round finds no open lane.
    ("waiting", (0, 2_000), (1.3, 1.3), {"held": DEPTH}),
    ("queues", (1, 16), (1.3, 1.3), {}),
    ("busy", (1, 3), (1.2, 1.2), {"queues": 3, "waiting": 60}),
    ("ports", (2, 15), (1.5, 1.5), {}),
)


def counts(program, cases):
    """The instructions per event in each case, and their ratio to those of the first."""
    each = {name: counted(program, case) for name, case in cases.items()}
    first = next(iter(each.values()))
    return {name: (cost, cost / first) for name, cost in each.items()}


def is_flat(program, measure, burst, scale):
    """Prints what an event costs at both numbers of the scale, and whether the larger one costs no more than it may."""
    word, numbers, limits, beside = scale
    most = limits[BURSTS.index(burst)]
    plain = Case(**{"held": HELD, "burst": burst, **beside})
    (few, _), (many, ratio) = measure(program, {number: dataclasses.replace(plain, **{word: number}) for number in numbers}).values()
    print(f"{'{:,} / {:,} {}'.format(*numbers, word):24} {burst:5} {few:8.1f} {many:8.1f} {ratio:6.2f} {most:8.2f}", flush=True)
    return ratio <= most


def main():
    if len(sys.argv) > 2:
        sys.exit(__doc__)
    program = named()
    unit, measure = ("instructions", counts) if can_count() else ("nanoseconds", times)
    print(f"{unit + ' per event':24} {'burst':>5} {'fewer':>8} {'more':>8} {'ratio':>6} {'at most':>8}")
    flat = [is_flat(program, measure, burst, scale) for burst in BURSTS for scale in SCALES]
    sys.exit(0 if all(flat) else 1)


main()
