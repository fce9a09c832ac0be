#!/usr/bin/env python3
"""Times pipelines that threads run, where the scheduler serves the ports and where it serves flow lanes, with 1, 2, 4 and 8 workers:
the threads, until the whole trace has gone through, and apart from them the check and the text of the log. It fails where the memory
of a run of 200,000 events is more than 2.3 times that of a run of 100,000.

    pipelines.py [PROGRAM]

Where DPDK's `dpdk-test-eventdev` is installed, its `perf_queue` over `event_sw` runs with the same stages (atomic, ordered, parallel) and
as many workers, by turns with these, each of its threads on all processors: the events per second that it says itself, on the average
of some seconds. A worker of it dequeues up to 16 events at once; one of these one event, as a worker of `evsched run` does, and then up
to 32.

The program is `device_bench` with its word `run`; where none is named it is built. Each time is the best of three runs, and that of the
check and the text less what a run with no event takes besides its threads. How much faster more workers are is no fault: how many
processors there are decides that.
"""
import itertools
import os
import pathlib
import re
import shutil
import subprocess
import sys
import time

SERVINGS, WORKERS, BURSTS, EVENTS, RUNS = ("ports", "flows"), (1, 2, 4, 8), (1, 32), 200_000, 3
COUNTS, MOST = (100_000, 200_000), 2.3
THEIR_SECONDS = 5
CRATE = pathlib.Path(__file__).resolve().parent.parent / "crates" / "device_bench"


def built():
    """The program, which `rt run` proves and builds where it is older than its sources."""
    run = subprocess.run(["rt", "run", "--", "run", "ports", "2", "1000", "1"], cwd=CRATE, stdout=subprocess.PIPE, stderr=subprocess.STDOUT, check=False)
    if run.returncode != 0:
        sys.exit(f"device_bench isn't built: {run.stdout.decode()[-2000:]}")
    return CRATE / "out" / "device_bench"


def named():
    """The program that the command line names, or else the built one."""
    return pathlib.Path(sys.argv[1]).resolve() if len(sys.argv) == 2 else built()


def run(program, serving, workers, events, burst):
    """The seconds that the threads of a run take and that the rest takes, and the kilobytes that it holds at most, once its line is
    checked.
    """
    start = time.perf_counter()
    child = subprocess.Popen([program, "run", serving, str(workers), str(events), str(burst)], stdout=subprocess.PIPE, stderr=subprocess.PIPE)
    line, said = child.stdout.read().decode(), child.stderr.read().decode()
    _, status, used = os.wait4(child.pid, 0)
    elapsed = time.perf_counter() - start
    child.stdout.close()
    child.stderr.close()
    child.returncode = os.waitstatus_to_exitcode(status)
    if child.returncode != 0 or not line.startswith(f"{serving} workers={workers} events={events} bytes="):
        sys.exit(f"{program} ended with {child.returncode}: {line}{said}")
    nanoseconds = re.fullmatch(r"threads=(\d+)\n", said)
    if nanoseconds is None:
        sys.exit(f"{program} doesn't say how long its threads took: {said}")
    threads = int(nanoseconds[1]) / 1e9
    return threads, elapsed - threads, used.ru_maxrss


def seconds(program, serving, workers, burst):
    """What the threads take and what comes after them: the least of some runs each, that of the rest less the least without events."""
    runs = {events: [run(program, serving, workers, events, burst) for _ in range(RUNS)] for events in (0, EVENTS)}
    rest = {events: min(each[1] for each in runs[events]) for events in runs}
    return min(each[0] for each in runs[EVENTS]), rest[EVENTS] - rest[0]


def theirs(workers):
    """The events per second of `event_sw` in DPDK's own test, or why there are none."""
    program = shutil.which("dpdk-test-eventdev")
    if program is None:
        return "not measured"
    cores = f"({','.join(map(str, sorted(os.sched_getaffinity(0))))})"
    # The main thread, the scheduler's, the producer's, and the workers'.
    threads = ",".join(f"{number}@{cores}" for number in range(3 + workers))
    words = ["--no-huge", "-m", "512", "--no-pci", "--no-telemetry", "--vdev=event_sw0", "--lcores", threads, "-s", "0x2", "--",
             "--dev=0", "--test=perf_queue", "--plcores=2", f"--wlcores={','.join(str(3 + each) for each in range(workers))}",
             "--stlist=a,o,p", "--nb_pkts=0", "--pool_sz=8192"]
    child = subprocess.Popen([program, *words], stdout=subprocess.PIPE, stderr=subprocess.DEVNULL)
    time.sleep(THEIR_SECONDS)
    child.kill()
    said = re.findall(r"avg ([0-9.]+) mpps", child.communicate()[0].decode())
    return f"{float(said[-1]) * 1e6:,.0f}" if said else "none"


def compare_speeds(program):
    """Prints the events per second of both servings, in all, by the threads and by the rest, and the ratio of the threads' speed to that
    of one worker.
    """
    print(f"{os.cpu_count()} processors, {EVENTS:,} events")
    print(f"{'serving':7} {'burst':5} {'workers':7} {'per second':>12} {'by threads':>12} {'ratio':>5} {'by the rest':>12} {'event_sw':>12}")
    for serving, burst in itertools.product(SERVINGS, BURSTS):
        first = None
        for workers in WORKERS:
            threads, rest = seconds(program, serving, workers, burst)
            first = first or threads
            speeds = [f"{EVENTS / each:12,.0f}" for each in (threads + rest, threads, rest)]
            other = theirs(workers) if (serving, burst) == (SERVINGS[0], BURSTS[0]) else ""
            print(f"{serving:7} {burst:5} {workers:7} {speeds[0]} {speeds[1]} {first / threads:5.2f} {speeds[2]} {other:>12}")


def compare_memory(program):
    """Prints the memory of a run and of one with twice the events, and whether neither serving takes more than `MOST` times as much."""
    ratios = []
    for serving in SERVINGS:
        short, long = (run(program, serving, 2, events, BURSTS[0])[2] for events in COUNTS)
        print(f"{serving}: {short / 1024:.1f} MiB at {COUNTS[0]:,} events, {long / 1024:.1f} at {COUNTS[1]:,}, ratio {long / short:.2f}")
        ratios.append(long / short)
    return max(ratios) <= MOST


def main():
    if len(sys.argv) > 2:
        sys.exit(__doc__)
    program = named()
    compare_speeds(program)
    sys.exit(0 if compare_memory(program) else 1)


main()
