#!/usr/bin/env python3
# SPDX-License-Identifier: BSD-3-Clause
"""Counts by callgrind how many instructions an event takes in one thread through a group of 1, 2 and 4 devices (evsched_shards.h), beside
one device by its own calls, in bursts of 1, of 8 and of 32 for each device. It says nothing of threads.

    group.py PROGRAM

The program is `bench/group.c` (`cc -O2 -Iinclude bench/group.c c/out/libevsched.a -lpthread -o group`).
"""
import pathlib
import re
import subprocess
import sys

ROUNDS, BURSTS, DEVICES = 512, (1, 8, 32), (0, 1, 2, 4)


def instructions(program, devices, burst, rounds):
    """How many instructions a run takes."""
    words = ["valgrind", "--tool=callgrind", "--callgrind-out-file=/dev/null", program, str(devices), str(burst), str(rounds)]
    run = subprocess.run(words, capture_output=True, text=True, check=False)
    refs = re.search(r"refs:\s+([\d,]+)", run.stderr)
    if run.returncode != 0 or not refs:
        sys.exit(f"{program} ended with {run.returncode}: {run.stderr[-2000:]}")
    return int(refs[1].replace(",", ""))


def counted(program, devices, burst):
    """The instructions per event. A run's start falls out of the difference of two."""
    more = instructions(program, devices, burst, 2 * ROUNDS) - instructions(program, devices, burst, ROUNDS)
    return more / (ROUNDS * burst * max(devices, 1))


def main():
    if len(sys.argv) != 2:
        sys.exit(__doc__)
    program = str(pathlib.Path(sys.argv[1]).resolve())
    print(f"{'instructions per event, bursts of':34}" + "".join(f"{burst:8}" for burst in BURSTS))
    for devices in DEVICES:
        name = f"a group of {devices}" if devices else "one device by its own calls"
        print(f"{name:34}" + "".join(f"{counted(program, devices, burst):8.0f}" for burst in BURSTS), flush=True)


main()
