"""Runs of `core_bench`: in each round a burst of the oldest events is released, as many new ones are taken, and the core gives as many,
each an event that is taken, given and answered."""
import dataclasses
import pathlib
import re
import resource
import shutil
import statistics
import subprocess
import sys

TURNS, SECONDS, COUNTED = 40, 0.1, 1_000
VALGRIND = ("valgrind", "--tool=callgrind", "--callgrind-out-file=/dev/null")
# So many events a port may hold, and the busy port of each run holds them.
DEPTH = 64
CRATE = pathlib.Path(__file__).resolve().parent.parent / "crates" / "core_bench"


@dataclasses.dataclass(frozen=True)
class Case:
    """What `core_bench` is asked for beside the rounds, in the order of its words."""

    held: int
    flows: int = 63
    waiting: int = 0
    blocked: int = 0
    queues: int = 1
    busy: int = 1
    ports: int = 1
    burst: int = 1


def built():
    """The program, which `rt run` proves and builds where it is older than its sources."""
    words = (CRATE / "args").read_text().split()
    run = subprocess.run(["rt", "run", "--", *words], cwd=CRATE, stdout=subprocess.PIPE, stderr=subprocess.STDOUT, check=False)
    if run.returncode != 0:
        sys.exit(f"core_bench isn't built: {run.stdout.decode()[-2000:]}")
    return CRATE / "out" / "core_bench"


def named():
    """The program that the command line names, or else the built one."""
    return pathlib.Path(sys.argv[1]).resolve() if len(sys.argv) == 2 else built()


def ran(words, case, rounds):
    """What a run writes to standard error, once its line is checked. The words are the program, and before it what runs it."""
    numbers = {**dataclasses.asdict(case), "rounds": rounds}
    run = subprocess.run([*words, *map(str, numbers.values())], capture_output=True, check=False)
    numbers["inside"] = case.held + case.waiting + DEPTH + case.blocked
    line = " ".join(f"{name}={number}" for name, number in numbers.items()) + "\n"
    if run.returncode != 0 or run.stdout.decode() != line:
        sys.exit(f"{words[-1]} ended with {run.returncode}: {run.stdout.decode()}{run.stderr.decode()}")
    return run.stderr.decode()


def can_count():
    """Whether instructions can be counted: valgrind is installed."""
    return shutil.which(VALGRIND[0]) is not None


def instructions(program, case, rounds):
    """How many instructions a run takes."""
    said = ran([*VALGRIND, program], case, rounds)
    refs = re.search(r"refs:\s+([\d,]+)", said)
    if refs is None:
        sys.exit(f"valgrind names no count: {said}")
    return int(refs[1].replace(",", ""))


def counted(program, case):
    """The instructions per event. A run's start falls out of the difference of two."""
    more = instructions(program, case, 2 * COUNTED) - instructions(program, case, COUNTED)
    return more / (COUNTED * case.burst)


def processor_time():
    """What the programs that have ended took."""
    used = resource.getrusage(resource.RUSAGE_CHILDREN)
    return used.ru_utime + used.ru_stime


def seconds(program, case, rounds):
    """The processor time of one run."""
    start = processor_time()
    ran([program], case, rounds)
    return processor_time() - start


def enough_rounds(program, case, idle):
    """So many rounds that they take long enough to be measured."""
    rounds = 10_000
    while seconds(program, case, rounds) - idle < SECONDS:
        rounds *= 2
    return rounds


def times(program, cases):
    """The nanoseconds per event in each case, and their ratio to those of the first.

    Runs go through the cases in turn, many times. The time of a case is its least one, less that of a run without rounds. Its ratio
    is the median of those to the run of the first case in the same turn, so that a machine which is slower for a while changes both.
    `cases` has each case under the words that name it. All have bursts of one length.
    """
    idle = {name: min(seconds(program, case, 0) for _ in range(5)) for name, case in cases.items()}
    first = next(iter(cases))
    rounds = enough_rounds(program, cases[first], idle[first])
    turns = [{name: seconds(program, case, rounds) - idle[name] for name, case in cases.items()} for _ in range(TURNS)]
    least = {name: min(turn[name] for turn in turns) / (rounds * case.burst) * 1e9 for name, case in cases.items()}
    return {name: (least[name], statistics.median(turn[name] / turn[first] for turn in turns)) for name in cases}


def compare(program, cases, most):
    """Prints the time per event in each case, and whether none takes more than `most` times that of the first."""
    costs = times(program, cases)
    for name, (least, ratio) in costs.items():
        print(f"{name}: {least:.1f} ns per event, ratio {ratio:.2f}")
    return max(ratio for _, ratio in costs.values()) <= most
