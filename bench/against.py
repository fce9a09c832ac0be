#!/usr/bin/env python3
"""Compares what take, give and release of an event cost the scheduling core with what they cost it in another version, in bursts of 1
and of 32, and fails where an event costs more than `MOST` times as much as there.

    against.py OTHER MOST [PROGRAM]

OTHER is `core_bench` built over the other version's crates: in a copy of that version, crates/core_bench of this one takes the place of
its own. PROGRAM is this version's `core_bench`; where none is named it is built. Runs of the two programs take turns, so that a machine
which is slower for a while changes both; the times have the benchmark's own share in them. Where valgrind is installed the instructions
of an event are counted as well, less that share. The share is measured: in a copy of this version the core's calls are kept out of the
benchmark's code, and what is left is the benchmark's.
"""
import pathlib
import re
import shutil
import statistics
import subprocess
import sys
import tempfile

from core_rounds import COUNTED, CRATE, TURNS, Case, built, can_count, counted, enough_rounds, ran, seconds

HELD, BURSTS = 32, (1, 32)
CALLS = ("propose_next", "give_run", "take_new", "take_answer", "takes")
TOP = CRATE.parent.parent


def timed(other, program, case):
    """The nanoseconds per event of both programs, and the ratio of the second to the first."""
    both = (other, program)
    idle = {each: min(seconds(each, case, 0) for _ in range(5)) for each in both}
    rounds = enough_rounds(program, case, idle[program])
    turns = [[seconds(each, case, rounds) - idle[each] for each in both] for _ in range(TURNS)]
    least = [min(turn[place] for turn in turns) / (rounds * case.burst) * 1e9 for place in (0, 1)]
    return *least, statistics.median(ours / theirs for theirs, ours in turns)


def copy_apart(room):
    """Copies this version, with the core's calls kept out of the code that calls them."""
    shutil.copytree(TOP / "crates", room / "crates", ignore=shutil.ignore_patterns("out"))
    for name in ("crates.txt", "HANDLES"):
        shutil.copy(TOP / name, room / name)
    for name in ("propose", "run", "take"):
        file = room / f"crates/sched_core/src/{name}.rt"
        calls = rf"(?: *#\[inline\(always\)\]\n)?( *)pub fn ({'|'.join(CALLS)})(?=[<(])"
        file.write_text(re.sub(calls, r"\1#[inline(never)]\n\1pub fn \2", file.read_text()))


def build_apart(room):
    """The benchmark with the core's calls apart."""
    copy_apart(room)
    crate = room / "crates/core_bench"
    words = (crate / "args").read_text().split()
    run = subprocess.run(["rt", "run", "--", *words], cwd=crate, stdout=subprocess.PIPE, stderr=subprocess.STDOUT, check=False)
    if run.returncode != 0:
        sys.exit(f"core_bench isn't built with the core's calls apart: {run.stdout.decode()[-2000:]}")
    return crate / "out/core_bench"


def spent(program, case, rounds, room):
    """The instructions of a run, and of these the core's calls', with all that they call."""
    profile = room / "profile"
    ran(["valgrind", "--tool=callgrind", f"--callgrind-out-file={profile}", program], case, rounds)
    words = ["callgrind_annotate", "--inclusive=yes", "--threshold=100", profile]
    lines = subprocess.run(words, capture_output=True, text=True, check=True).stdout
    whole = re.search(r"^ *([\d,]+).*PROGRAM TOTALS", lines, re.M)
    called = re.findall(rf"^ *([\d,]+).*sched_core::state::Core::(?:{'|'.join(CALLS)})(?:::<#\w+>)?(?= |$)", lines, re.M)
    if whole is None or len(called) != len(CALLS):
        sys.exit(f"callgrind_annotate doesn't name each call of the core: {lines[:2000]}")
    number = lambda text: int(text.replace(",", ""))
    return number(whole[1]), sum(map(number, called))


def own_shares():
    """The benchmark's own instructions per event, by burst."""
    shares = {}
    with tempfile.TemporaryDirectory() as name:
        room = pathlib.Path(name)
        program = build_apart(room)
        for burst in BURSTS:
            case = Case(HELD, burst=burst)
            (less, in_less), (more, in_more) = (spent(program, case, rounds, room) for rounds in (COUNTED, 2 * COUNTED))
            shares[burst] = ((more - less) - (in_more - in_less)) / (COUNTED * burst)
    return shares


def is_within(unit, costs, burst, most):
    """Prints what an event costs in both versions, and whether it costs no more than it may."""
    theirs, ours, ratio = costs
    print(f"{unit:12} {burst:5} {theirs:8.1f} {ours:8.1f} {ratio:6.2f} {most:8.2f}", flush=True)
    return ratio <= most


def main():
    if len(sys.argv) not in (3, 4):
        sys.exit(__doc__)
    other, most = pathlib.Path(sys.argv[1]).resolve(), float(sys.argv[2])
    program = pathlib.Path(sys.argv[3]).resolve() if len(sys.argv) == 4 else built()
    shares = own_shares() if can_count() else {}
    for burst, share in shares.items():
        print(f"the benchmark's own instructions per event at bursts of {burst}: {share:.1f}")
    print(f"{'per event':12} {'burst':>5} {'other':>8} {'this':>8} {'ratio':>6} {'at most':>8}")
    within = [is_within("nanoseconds", timed(other, program, Case(HELD, burst=burst)), burst, most) for burst in BURSTS]
    for burst, share in shares.items():
        theirs, ours = (counted(each, Case(HELD, burst=burst)) - share for each in (other, program))
        within.append(is_within("instructions", (theirs, ours, ours / theirs), burst, most))
    sys.exit(0 if all(within) else 1)


main()
