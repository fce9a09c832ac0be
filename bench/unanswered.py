#!/usr/bin/env python3
"""Times the scheduling core's take and give while a worker holds 1, 2, 4 .. 64 unanswered events, and fails where the time per
event grows to more than 1.3 times that of 1.

    unanswered.py [PROGRAM]

The program is `core_bench`; where none is named it is built.
"""
import sys

from core_rounds import Case, compare, named

COUNTS, MOST = (1, 2, 4, 8, 16, 32, 64), 1.3


def main():
    if len(sys.argv) > 2:
        sys.exit(__doc__)
    cases = {f"{held:2} unanswered": Case(held) for held in COUNTS}
    sys.exit(0 if compare(named(), cases, MOST) else 1)


main()
