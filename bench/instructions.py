#!/usr/bin/env python3
"""Counts by callgrind how many instructions an event takes that passes a device in one thread, for each case and burst of
`device_bench`; and, where `bench/door.c` is given too, how many through the C functions, beside the case with the same log.

    instructions.py DEVICE_BENCH [DOOR]

The programs are `device_bench`, as it is proved and built, and

    cc -O2 -Iinclude bench/door.c c/out/libevsched.a -o door
"""
import pathlib
import re
import subprocess
import sys
import tempfile

# `device_bench` lets so many bursts of each case through; the case that `bench/door.c` is like.
ROUNDS, CASE = 20, "atomic-64-flows-tally"
DOOR_ROUNDS = 2_000


def callgrind(at, words, program):
    """Runs a program under callgrind, in a folder of its own: what it prints."""
    at.mkdir()
    run = subprocess.run(["valgrind", "--tool=callgrind", "--callgrind-out-file=out", *words, *program], cwd=at,
                         capture_output=True, text=True, check=False)
    if run.returncode != 0:
        sys.exit(f"{program[0]} ended with {run.returncode}: {run.stderr[-2000:]}")
    return run.stdout


def total(file):
    """The instructions that a profile counts."""
    found = re.search(r"^(?:summary|totals): (\d+)", file.read_text(), re.MULTILINE)
    return int(found[1]) if found else 0


def through_device(at, program):
    """The instructions per event, by case and burst. A profile is written before each device is made, of what came since the last."""
    rows = callgrind(at, ["--collect-atstart=no", "--toggle-collect=*Bench::rounds*", "--dump-before=*Bench::new*"], [program]).splitlines()
    # The last lines are those of pipelines.
    cases = [(name, int(burst)) for name, burst, *passed in map(str.split, rows) if len(passed) == 4]
    # What is counted before the first device is made is nothing; the last profile has no number.
    profiles = [at / f"out.{number}" for number in range(2, len(cases) + 1)] + [at / "out"]
    if not all(it.is_file() for it in profiles) or (at / f"out.{len(cases) + 1}").exists():
        sys.exit(f"there isn't one profile for each of the {len(cases)} cases")
    return {case: total(it) / (ROUNDS * case[1]) for case, it in zip(cases, profiles)}


def through_door(at, program, burst):
    """The instructions per event through the C functions: of twice as many rounds, less those of so many."""
    counts = []
    for rounds in (DOOR_ROUNDS, 2 * DOOR_ROUNDS):
        callgrind(at / f"{burst}-{rounds}", [], [program, str(burst), str(rounds)])
        counts.append(total(at / f"{burst}-{rounds}" / "out"))
    return (counts[1] - counts[0]) / (DOOR_ROUNDS * burst)


def main():
    if len(sys.argv) not in (2, 3):
        sys.exit(__doc__)
    programs = [str(pathlib.Path(it).resolve()) for it in sys.argv[1:]]
    with tempfile.TemporaryDirectory() as at:
        counts = through_device(pathlib.Path(at) / "device", programs[0])
        bursts = sorted({burst for _, burst in counts})
        print(f"{'instructions per event, bursts of':34}" + "".join(f"{burst:8}" for burst in bursts))
        for name in dict.fromkeys(name for name, _ in counts):
            print(f"{name:34}" + "".join(f"{counts[name, burst]:8.0f}" for burst in bursts))
        for program in programs[1:]:
            door = {burst: through_door(pathlib.Path(at), program, burst) for burst in bursts}
            print(f"{CASE + ', by C':34}" + "".join(f"{door[burst]:8.0f}" for burst in bursts))
            print(f"{'ratio':34}" + "".join(f"{door[burst] / counts[CASE, burst]:8.2f}" for burst in bursts))


main()
