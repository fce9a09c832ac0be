#!/usr/bin/env python3
"""Times the scheduling core's take and give while 4,000 and while 8,000 events of one flow wait, and fails where the time per event
grows to more than 1.3 times that of the shorter backlog.

    backlog.py [PROGRAM]

The program is `core_bench`; where none is named it is built. The backlog's ring is gone round several times.
"""
import sys

from core_rounds import Case, compare, named

BACKLOGS, MOST = (4_000, 8_000), 1.3


def main():
    if len(sys.argv) > 2:
        sys.exit(__doc__)
    cases = {f"{waiting:,} waiting": Case(held=1, flows=1, waiting=waiting) for waiting in BACKLOGS}
    sys.exit(0 if compare(named(), cases, MOST) else 1)


main()
