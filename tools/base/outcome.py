"""How tests end: a last line with their count, by which `bin/test` adds them up, and the exit status."""

import re

# The exit status of tests that this machine can't run, since it lacks a program. They say which.
NOT_RUN = 77
# The exit status of tests none of which failed, and some of which were ended or judged by a limit of processor time.
SLOW = 75
TOO_SLOW = "too slow here"
LINE = re.compile(rf"(?P<what>.+): (?P<tests>\d+) tests, (?P<failed>\d+) failed(?:, (?P<slow>\d+) {TOO_SLOW})?")


def told(what, tests, failed, slow=()):
    """Tells what was too slow, and how many tests ran, failed and were too slow; gives the exit status: 0 only where
    some ran and each passed."""
    for it in slow:
        print(f"{it}: {TOO_SLOW}")
    print(f"{what}: {tests} tests, {failed} failed" + (f", {len(slow)} {TOO_SLOW}" if slow else ""))
    if failed or not tests:
        return 1
    return SLOW if slow else 0


def read(line):
    """The numbers of tests, of failures and of what was too slow in such a line, or None for any other."""
    found = LINE.fullmatch(line)
    return tuple(int(found[it] or 0) for it in ("tests", "failed", "slow")) if found else None
