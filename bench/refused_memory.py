#!/usr/bin/env python3
"""Refuses each allocation of `evsched play`, `timeline`, `judge`, `run` and `--help` in turn, the first, then the second, until a run meets
no refusal. Each run must end by itself, with status 5, the line for want of memory and nothing on standard output, or, where it can do
without what was refused, as it ends with ample memory. Then it does the same with tests that make again whatever was refused: each must
pass all the same. Their names are read from the sources, and nothing is run where one that is wanted isn't there or isn't built.

    refused_memory.py [PROGRAM]

The program is `evsched`; where none is named it is that of the build. The tests are those that the gate builds, and `rt test` in their
crates. A C compiler makes the library that refuses, which stands before the C library's allocator (LD_PRELOAD).
"""
import os
import pathlib
import re
import subprocess
import sys
import tempfile

TOP = pathlib.Path(__file__).resolve().parent.parent
BUILT = TOP / "crates/evsched/out/evsched"
NO_MEMORY, LINE = 5, b"evsched: out of memory or seats\n"
PASSED = b"\ntest result: ok\n"
SECONDS = 20
REFUSING = r"""
#include <errno.h>
#include <stdatomic.h>
#include <stdlib.h>
#include <unistd.h>

void *__libc_malloc(size_t), *__libc_calloc(size_t, size_t), *__libc_realloc(void *, size_t), *__libc_memalign(size_t, size_t);
static atomic_long left;
static int said;

__attribute__((constructor)) static void begin(void) {
    left = atol(getenv("REFUSED_ALLOCATION"));
    said = atoi(getenv("REFUSAL_SAID_ON"));
}

static int refused(void) {
    if (atomic_fetch_sub(&left, 1) != 1) return 0;
    errno = ENOMEM;
    return write(said, "r", 1) == 1;
}

void *malloc(size_t size) { return refused() ? NULL : __libc_malloc(size); }
void *calloc(size_t count, size_t size) { return refused() ? NULL : __libc_calloc(count, size); }
void *realloc(void *old, size_t size) { return refused() ? NULL : __libc_realloc(old, size); }
void *aligned_alloc(size_t align, size_t size) { return refused() ? NULL : __libc_memalign(align, size); }
int posix_memalign(void **into, size_t align, size_t size) {
    if (refused()) return ENOMEM;
    *into = __libc_memalign(align, size);
    return *into ? 0 : ENOMEM;
}
"""
# Of two events of an ordered queue the second is forwarded first.
SECOND_FORWARDED_FIRST = """
limit = 4
quantum = 2
sweep = 8
script = '''
new 0 0 7 128 1
new 0 0 8 128 2
sweep
deq 1 1
deq 2 1
fwd 2 1 8 128 20
sweep
fwd 1 1 7 128 10
sweep
'''
queue = [{ kind = "ordered", order = 8 }, { kind = "parallel" }]
port = [
    { threshold = 4, depth = 4, replies = 4, implicit = false, links = [] },
    { threshold = 4, depth = 4, replies = 4, implicit = false, links = [0] },
    { threshold = 4, depth = 4, replies = 4, implicit = false, links = [0, 1] },
]
"""
ITS_END = """give l2 q1 #1
report
undelivered l2 q1 #0
undelivered l2 q1 #1
free 2
pockets 0 0 0
own 0
limit 4
"""


def example(name, before=""):
    """A document under examples/, with this before it, and what is written of it."""
    document = before + (TOP / f"examples/{name}.toml").read_text()
    return document, (TOP / f"examples/{name}.out").read_text()


RUN = ["run", "--workers", "2"]
# What a run is of, its arguments, its document, and how what it writes must end.
RUNS = (
    ("play of first-event", ["play"], *example("first-event")),
    ("play of a second event forwarded first", ["play"], SECOND_FORWARDED_FIRST, ITS_END),
    ("play of ordered-release", ["play"], *example("ordered-release")),
    ("play of several-forwards", ["play"], *example("several-forwards")),
    ("play --json of several-forwards", ["play", "--json"], example("several-forwards")[0], (TOP / "examples/json/several-forwards.out").read_text()),
    ("timeline of ordered-release", ["timeline"], example("ordered-release")[0], (TOP / "docs/pictures/ordered-release.svg").read_text()),
    ("timeline of a log", ["timeline", str(TOP / "examples/ordered-release.toml"), "-"], example("ordered-release")[1], (TOP / "docs/pictures/ordered-release.svg").read_text()),
    ("judge of ordered-release", ["judge", str(TOP / "examples/ordered-release.toml")], example("ordered-release")[1], "lawful\n"),
    ("judge of a history", ["judge", str(TOP / "examples/one-flow-two-ports.toml")], (TOP / "examples/judged/seen.jsonl").read_text(), "no breach\n"),
    ("run of three-stages by ports", RUN, *example("three-stages")),
    ("run of three-stages by flow lanes", RUN, *example("three-stages", 'serving = "flows"\n')),
    ("run of dropping-stages by flow lanes", RUN, *example("dropping-stages")),
    ("--help", ["--help"], "", ""),
)
# The calls whose refusals tests meet, the crate of the tests, and the tests: all of a module, or one by its path.
TESTS = (
    ("Shape::build", "core_part_tests", "tests::shapes"),
    ("Pins::new, Reorder::new, History::new", "core_part_tests", "tests::orders"),
    ("WaitingLists::new, ParkedQueues::new", "core_part_tests", "tests::queues"),
    ("Levels::new", "core_part_tests", "tests::levels"),
    ("Core::new", "core_part_tests", "tests::core_again"),
    ("Tail::new, Tally::new", "core_part_tests", "tests::logs"),
    ("Credits::new", "lane_tests", "tests::credits::credit_calls"),
    ("lane", "lane_tests", "tests::lanes"),
    ("Claims::new", "lane_tests", "tests::calls"),
    ("Claims::new", "lane_tests", "tests::memory"),
    ("Claims::new", "lane_tests", "tests::port"),
    ("Device::with_log, sweep, stop", "device_tests", "tests::again"),
)
A_TEST = re.compile(r"^#\[test\]\n(?:#.*\n)*fn (\w+)", re.MULTILINE)


def tests_of(crate):
    """The paths of the tests in the crate's sources."""
    sources = TOP / f"crates/{crate}/src"
    paths = []
    for source in sorted(sources.rglob("*.rt")):
        module = source.relative_to(sources).with_suffix("").parts
        paths += ["::".join([*module, name]) for name in A_TEST.findall(source.read_text())]
    return paths


def built(crate):
    return TOP / f"crates/{crate}/out/{crate}_tests"


def names(path, test):
    """Whether the path is the test's, or that of its module."""
    return test == path or test.startswith(f"{path}::")


def wanted_tests():
    """The calls, the crate and the path of each test that is wanted. Ends the script where one isn't there or isn't built."""
    wanted = []
    for calls, crate, path in TESTS:
        found = [test for test in tests_of(crate) if names(path, test)]
        if not found:
            sys.exit(f"{crate} has no test {path}")
        if not built(crate).exists():
            sys.exit(f"{built(crate)} isn't there: run `rt test` in crates/{crate}")
        wanted += [(calls, crate, test) for test in found]
    return wanted


def ran(program, words, document, library, number):
    """Runs the program with that allocation refused: its end, and whether one was refused."""
    said, say = os.pipe()
    env = {"LD_PRELOAD": library, "REFUSED_ALLOCATION": str(number), "REFUSAL_SAID_ON": str(say)}
    end = subprocess.run([program, *words], input=document, capture_output=True, env=env, pass_fds=[say], timeout=SECONDS)
    os.close(say)
    with os.fdopen(said, "rb") as it:
        return (end.returncode, end.stdout, end.stderr), it.read() != b""


def refusals(program, words, document, library, ends):
    """Refuses each allocation of a run, which must come to one of these ends: how many were, and how many came to the first end."""
    first = 0
    for number in range(1, 100_000):
        end, is_refused = ran(program, words, document, library, number)
        if not is_refused:
            return number - 1, first
        if end not in ends:
            sys.exit(f"{program} {words}: with allocation {number} refused it ended with {end}")
        first += end == ends[0]
    sys.exit(f"{program} {words}: there is no last allocation")


def try_program(program, what, words, document, wanted, library):
    document = document.encode()
    ample, _ = ran(program, words, document, library, 0)
    if ample[0] != 0 or not ample[1].decode().endswith(wanted):
        sys.exit(f"{what}: with ample memory it ended with {ample}")
    count, without = refusals(program, words, document, library, (ample, (NO_MEMORY, b"", LINE)))
    print(f"{what}: {count} refused, {count - without} ended with status {NO_MEMORY}, {without} as with ample memory")
    return count


def try_test(calls, crate, test, library):
    ample, _ = ran(built(crate), [test], b"", library, 0)
    if ample != (0, PASSED, b""):
        sys.exit(f"{test}: with ample memory it ended with {ample}")
    count, _ = refusals(built(crate), [test], b"", library, (ample,))
    if count:
        print(f"{calls}: {crate} {test}: {count} refused, and it passed each time")
    return count


def try_tests(wanted, library):
    """Refuses each allocation of each test: of how many tests it did, and how many allocations. Some test of each entry must allocate."""
    counts = {test: try_test(*test, library) for test in wanted}
    for calls, crate, path in TESTS:
        if not any(count for (_, of, test), count in counts.items() if of == crate and names(path, test)):
            sys.exit(f"{crate} {path}: nothing was refused")
    allocating = [count for count in counts.values() if count]
    return len(allocating), sum(allocating)


def main():
    program = pathlib.Path(sys.argv[1]).resolve() if len(sys.argv) > 1 else BUILT
    if not program.exists():
        sys.exit(f"{program} isn't there: run ./evsched --help")
    wanted = wanted_tests()
    with tempfile.TemporaryDirectory() as room:
        library = f"{room}/refusing.so"
        subprocess.run(["cc", "-shared", "-fPIC", "-O2", "-x", "c", "-", "-o", library], input=REFUSING.encode(), check=True)
        of_runs = sum(try_program(program, *run, library) for run in RUNS)
        tests, of_tests = try_tests(wanted, library)
    print(f"{of_runs} allocations of {len(RUNS)} runs and {of_tests} of {tests} tests were refused, each in turn, and nothing was found")


main()
