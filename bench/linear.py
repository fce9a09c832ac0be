#!/usr/bin/env python3
"""Times `evsched play` on scripts of 10,000 and of 20,000 commands, and fails where the longer one takes more than 2.3 times
as long.

    linear.py PROGRAM

The device has 4 atomic queues and 8 ports with a limit of 64 events. Each time is the best of five runs.
"""
import subprocess
import sys
import time

QUEUES, PORTS, LIMIT, MOST = 4, 8, 64, 2.3
HEAD = f"limit = {LIMIT}\nquantum = 2\nsweep = 16\n"
QUEUE = '[[queue]]\nkind = "atomic"\nslots = 16\n'
PORT = f"[[port]]\nthreshold = {LIMIT}\ndepth = 16\nreplies = 16\nimplicit = true\nlinks = [{', '.join(map(str, range(QUEUES)))}]\n"


def script(count):
    """So many commands: each port in turn brings an event in and dequeues, and after every port's turn there is a sweep."""
    lines = []
    for i in range(count):
        turn, place = divmod(i, 2 * PORTS + 1)
        if place == 2 * PORTS:
            lines.append("sweep")
        elif place % 2 == 0:
            lines.append(f"new {place // 2} {(turn + place) % QUEUES} {turn * 7 % 97} {turn % 256} {i}")
        else:
            lines.append(f"deq {place // 2} 4")
    return "\n".join(lines)


def document(count):
    return (HEAD + f'script = """\n{script(count)}\n"""\n' + QUEUE * QUEUES + PORT * PORTS).encode()


def best(program, count):
    data = document(count)
    times = []
    for _ in range(5):
        start = time.perf_counter()
        run = subprocess.run([program, "play"], input=data, stdout=subprocess.DEVNULL, stderr=subprocess.PIPE, check=False)
        times.append(time.perf_counter() - start)
        if run.returncode != 0:
            sys.exit(f"{program} ended with {run.returncode}: {run.stderr.decode()}")
    return min(times)


def main():
    if len(sys.argv) != 2:
        sys.exit(__doc__)
    short, long = best(sys.argv[1], 10_000), best(sys.argv[1], 20_000)
    print(f"10,000 commands: {short * 1000:.1f} ms\n20,000 commands: {long * 1000:.1f} ms\nratio: {long / short:.2f}")
    sys.exit(1 if long / short > MOST else 0)


main()
