"""What the tests that go over many cases have in common."""

import sys

from waiting import watched


def report(title, what, cases):
    """Goes over pairs of a case's name and what was wrong with it (None: nothing), prints what was, and ends with status 1 where anything was."""
    count = failed = 0
    for name, wrong in watched(cases):
        count += 1
        if wrong is not None:
            failed += 1
            print(f"{title}: {name}: {wrong}", flush=True)
    print(f"{title}: {count} {what}, {failed} failed")
    sys.exit(1 if failed else 0)
