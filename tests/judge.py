"""Judges a recorded run by hand: what test_history.py leaves of a round that failed.

    python3 -m tests.judge FILE

A line for each fault; the status is 1 if there is one.
"""

import sys

from tests.lib.judging import Judge, Run, Undecided, shown


def main() -> None:
    if len(sys.argv) != 2:
        sys.exit(__doc__)
    try:
        faults = Judge(Run.load(sys.argv[1])).faults()
    except Undecided:
        sys.exit("undecided: no recorder has the order of all commits")
    except OSError as error:
        sys.exit(str(error))
    for fault in faults:
        print(shown(fault))
    print(f"{len(faults)} faults")
    sys.exit(1 if faults else 0)


if __name__ == "__main__":
    main()
