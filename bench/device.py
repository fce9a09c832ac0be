#!/usr/bin/env python3
"""Times events that go through a device in one thread: new, swept, dequeued and released, in bursts of 1, of 8 and of 32. The cases of an
atomic queue stand there twice: with all events handed to the ports, and (`-lanes`) with a lane for each slot of the queue, which the
worker claims; such a lane holds 16 events, so that a burst of 32 of one flow is swept and dequeued in two portions. The device's log
counts its steps and keeps none; `atomic-64-flows` stands there once more, over a tally of queues and lanes (`-tally`). It fails where
the last 100,000 of 1,000,000 events take more than 1.3 times as long as the first 100,000.

    device.py PROGRAM

The program is `device_bench`. Each case runs in several turns. Its time is the least one, its ratio the median of the turns'.
"""
import statistics
import subprocess
import sys

TURNS, MOST = 7, 1.3


def turn(program):
    """The nanoseconds per event of each case, by name and burst: of all events, of the first and of the last."""
    run = subprocess.run([program, "measure"], capture_output=True, text=True, check=False)
    if run.returncode != 0:
        sys.exit(f"{program} ended with {run.returncode}: {run.stderr}")
    rows = [line.split() for line in run.stdout.splitlines()]
    return {(name, int(burst)): (float(every), float(first), float(last)) for name, burst, every, first, last in rows}


def main():
    if len(sys.argv) != 2:
        sys.exit(__doc__)
    turns = [turn(sys.argv[1]) for _ in range(TURNS)]
    most = 0.0
    print(f"{'case':24} {'burst':>5} {'ns per event':>12} {'last / first':>12}")
    for name, burst in turns[0]:
        times = [each[name, burst] for each in turns]
        ratio = statistics.median(last / first for _, first, last in times)
        print(f"{name:24} {burst:5} {min(every for every, _, _ in times):12.1f} {ratio:12.2f}")
        most = max(most, ratio)
    sys.exit(0 if most <= MOST else 1)


main()
