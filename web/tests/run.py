"""Runs the tests of the page."""

import inspect
import time

import chromium
import outcome
import pace
from bench import Bench, Wrong

import checks_class
import checks_explained
import checks_files
import checks_kept
import checks_layout
import checks_lens
import checks_lines
import checks_looks
import checks_maker
import checks_modules
import checks_picture
import checks_replies
import checks_told
import checks_use

CHECKS = (checks_replies, checks_use, checks_lines, checks_files, checks_kept, checks_told, checks_picture,
          checks_modules, checks_maker, checks_looks, checks_layout, checks_lens, checks_class, checks_explained)
# So many tests go wrong before the others are given up: each may wait long for a page that doesn't begin.
MOST_WRONG = 5
# Tests of how much processor time something takes, which no share has: other work beside them makes it more.
TIMED = ("long_scripts", "quick_steps")
# How many seconds of a processor a test takes that takes many, where 20 million additions in python3 take 0.98; and what
# one of the others takes. By these the shares take about as long.
DEAR = {"windows": 15, "lens_in_windows": 5, "replies": 5, "contrast": 3, "changed_in_sight": 3, "words_of_figures": 2,
        "contrast_of_lens": 2, "sheets_alone": 2, "changed_in_lens": 2, "flight": 2, "history_kept": 1.2,
        "loaded_too_long": 1.2, "examples": 1.2, "names_of_chart": 1.2, "dark_picture": 1.2, "changed_blocks": 1,
        "drawn_files": 1, "lessons": 1, "pictures": 1, "left_page": 1, "as_program": 1, "loaded_with_link": 1}
USUAL = 0.4


def checks():
    """Each test by its name."""
    for module in CHECKS:
        for name, check in inspect.getmembers(module, inspect.isfunction):
            if name.startswith("check_"):
                yield name[len("check_"):], check


def tried(bench, name, check):
    """Why a test doesn't pass, or None where it does: what is wrong, or what is too slow here."""
    start = time.monotonic()
    try:
        check(bench)
    except (Wrong, chromium.BrowserFault, StopIteration, pace.Ended) as fault:
        return bench.server.fault() or fault
    print(f"{name}: passed, {time.monotonic() - start:.1f} s")
    return None


def seconds_of(them):
    """How long tests take, about."""
    return sum(DEAR.get(name, USUAL) for name, _ in them)


def dealt(them, shares):
    """Tests in so many shares. The dearest first, each goes to the one that takes the shortest time so far."""
    found = [[] for _ in range(shares)]
    for it in sorted(them, key=lambda it: seconds_of([it]), reverse=True):
        min(found, key=seconds_of).append(it)
    return found


def chosen(wanted, share):
    """The tests that are wanted, or all; of these each that falls to a share, as `2/3`, where one is given."""
    number, shares = map(int, share.split("/"))
    them = [it for it in checks() if (it[0] in wanted if wanted else shares == 1 or it[0] not in TIMED)]
    return them if shares == 1 else dealt(them, shares)[number - 1]


def faults_of(bench, them):
    """How many tests fail, and what is told of those that are too slow. Where many fail, those after them aren't tried,
    and count as failed."""
    failed, slow = 0, []
    for number, (name, check) in enumerate(them):
        if failed == MOST_WRONG:
            print(f"{name} and what comes after it: not tried, since {MOST_WRONG} tests went wrong")
            return failed + len(them) - number, slow
        fault = tried(bench, name, check)
        if isinstance(fault, pace.TooSlow):
            slow.append(f"{name}: {fault}")
        elif fault:
            failed += 1
            print(f"{name}: {fault}")
    return failed, slow


def main(bench_words, wanted, share):
    """Runs tests over a bench of these words, and gives the exit status."""
    if not chromium.installed():
        print("Chromium: isn't installed, all tests of the page left out")
        return outcome.NOT_RUN
    bench = Bench(*bench_words)
    them = chosen(wanted, share)
    try:
        failed, slow = faults_of(bench, them)
    finally:
        bench.close()
    return outcome.told("the page", len(them), failed, slow)
