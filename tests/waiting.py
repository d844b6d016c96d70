"""How the tests wait. No test passes or fails by how fast the machine is: a limit here is one that only a standstill reaches, also on a machine of two
processors that is starved for minutes. What a test shows of a time it shows by the least that something takes; where it is the most, all of it is tried
again with more time: what is wrong with the program is wrong each time.
"""

import faulthandler
import time

PATIENCE, STANDSTILL = 600, 3600  # seconds: of one wait, and between two cases of a test
# Milliseconds of a program's time limit, for tests in which nothing is lost, so that nothing is to be sent again. It is below PATIENCE: what is lost all the same shows.
LONG_LIMIT = "300000"
# Such limits for tests in which something is lost, or has to come within so many of them: for a quick machine, and for ones that are held up.
LIMITS = ("100", "2000", "20000")
LOOK = 0.01


def until(is_so, seconds=PATIENCE, look=LOOK):
    """Waits until something is so; whether it was within so many seconds."""
    end = time.monotonic() + seconds
    while not (found := is_so()) and time.monotonic() < end:
        time.sleep(look)
    return bool(found)


def watched(cases):
    """The same cases. A test that stands still between two of them ends, and says where each of its threads stands."""
    faulthandler.dump_traceback_later(STANDSTILL, exit=True)
    for case in cases:
        yield case
        faulthandler.dump_traceback_later(STANDSTILL, exit=True)
    faulthandler.cancel_dump_traceback_later()


def by_first_that_fits(kind, given, tries):
    """The cases of a kind by the first of some times by which nothing is wrong with them, or by the last one."""
    for time_given in tries:
        cases = list(kind(given, time_given))
        wrong = [(name, what) for name, what in cases if what is not None]
        if not wrong:
            break
        if time_given != tries[-1]:
            print(f"with {time_given}: {wrong[0][0]}: {wrong[0][1]}; it is tried again with more time", flush=True)
    yield from cases
