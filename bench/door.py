#!/usr/bin/env python3
"""Times what the C functions cost beside the device's own calls: nanoseconds of processor time per event of an atomic queue with 64
flows and a log that counts by queue and by lane, in bursts of 1, of 8 and of 32; by turns, of each the least.

    door.py DEVICE_BENCH DOOR [TURNS]

The programs are `device_bench`, as it is proved and built, and `bench/door.c` (`cc -O2 -Iinclude bench/door.c c/out/libevsched.a`).
"""
import pathlib
import subprocess
import sys

BURSTS, EVENTS, CASE = (1, 8, 32), 1_000_000, "atomic-64-flows-tally"


def output(*words):
    return subprocess.run(words, capture_output=True, text=True, check=True).stdout


def turn(bench, door):
    """The nanoseconds of both, by burst."""
    rows = [line.split() for line in output(bench, "measure").splitlines()]
    alone = {int(burst): float(every) for name, burst, every, *_ in rows if name == CASE}
    return {burst: (alone[burst], float(output(door, str(burst), str(EVENTS // burst)))) for burst in BURSTS}


def main():
    if len(sys.argv) not in (3, 4):
        sys.exit(__doc__)
    bench, door = (str(pathlib.Path(it).resolve()) for it in sys.argv[1:3])
    turns = [turn(bench, door) for _ in range(int(sys.argv[3]) if len(sys.argv) == 4 else 7)]
    print(f"{'burst':>5} {'device alone':>12} {'through C':>10} {'ratio':>6}")
    for burst in BURSTS:
        alone, through = (min(it[burst][place] for it in turns) for place in (0, 1))
        print(f"{burst:5} {alone:12.1f} {through:10.1f} {through / alone:6.2f}")


main()
