"""Tests of what is built, part by part and side by side, without the kit: which parts there are, and what each gives."""

import concurrent.futures
import dataclasses
import signal
import subprocess
import sys
import time

import outcome
import pace
import processors

NAME = "vervainfile"
# How many browsers share the tests of the page, and how many the sheets of the examples.
SHARES, SHEET_SHARES = 4, 2
# So many parts more than there are processors run side by side: all browsers begin at once on four, and now and then one
# waits for a frame.
MORE = 2
# The seconds of a processor that a part may take, with all that it runs. The dearest takes a tenth. A part is looked at
# more rarely than what it runs, so that this has ended by itself before.
MOST, LOOK = 900, 15
LEFT_OUT = "left out"


@dataclasses.dataclass(frozen=True)
class Build:
    """What is tested: what it is called, its program, the folder of its library, and its page."""

    what: str
    program: str
    library: str
    page: str


def laid_out(what, folder):
    """A build that lies in a folder as in dist/."""
    return Build(what, f"{folder}/{NAME}", f"{folder}/lib", f"{folder}/{NAME}.html")


def built_here(top):
    """What was built here last of the sources."""
    return Build("what was built", f"{top}/crates/{NAME}/out/{NAME}", f"{top}/lib", f"{top}/web/out/{NAME}.html")


@dataclasses.dataclass(frozen=True)
class Part:
    """Tests that run by one command. Those that need a browser, an emulator or valgrind may be left out anywhere; some are timed,
    and run alone."""

    name: str
    words: list
    may_lack: bool = False
    is_timed: bool = False


def parts_of(top, build, is_dist):
    """All parts: first those that do one thing after the other, the longest of them before the others, and then those that
    keep all processors at work by themselves, so that none is idle at the end."""
    tests = f"{top}/tools/tests/test-"
    pages = [Part(f"page-{it}", [f"{top}/bin/web", "test", build.page, "--program", build.program, "--share",
                                 f"{it}/{SHARES}"], True) for it in range(1, SHARES + 1)]
    sheets = [Part(f"sheets-{it}", [f"{top}/bin/look", "--share", f"{it}/{SHEET_SHARES}", f"{top}/examples"])
              for it in range(1, SHEET_SHARES + 1)]
    return [
        *sheets,
        *pages,
        Part("speed", [f"{tests}speed", build.program, build.library], True),
        Part("rows", [f"{tests}rows", build.program]),
        Part("pictures", [f"{tests}program", build.program, "maps", "drawings", "figures", "lenses", "lens_words",
                          "limits", "layout"]),
        Part("lessons", [f"{top}/bin/look", f"{top}/examples/lessons"]),
        Part("header", [sys.executable, f"{top}/tools/base/header.py", top]),
        Part("examples", [f"{top}/examples/check", build.program]),
        Part("words", [f"{tests}program", build.program, "words", "completions", "calls", "files", "images",
                       "scripts", "outputs"]),
        Part("documents", [f"{tests}docs", build.program]),
        Part("command", [f"{tests}command"]),
        *([Part("sums", [f"{tests}sums"])] if is_dist else []),
        Part("machines", [f"{tests}machines", build.library], True),
        Part("library", [f"{tests}library", build.library]),
        Part("ports", [f"{tests}ports", build.library, build.program]),
        Part("memory", [f"{tests}program", build.program, "memory"]),
        Part("pace", [f"{top}/bin/web", "test", build.page, "--program", build.program, "long_scripts",
                      "quick_steps"], True, True),
    ]


@dataclasses.dataclass
class Result:
    """What a part gave: how many tests ran, failed and were too slow, what it said, and what was left out; and its
    seconds. It is well where nothing failed."""

    part: Part
    tests: int = 0
    failed: int = 0
    slow: int = 0
    is_well: bool = False
    left_out: tuple = ()
    said: str = ""
    seconds: float = 0.0

    def line(self):
        """What is told of it."""
        if self.tests or not self.left_out:
            told = f"{self.tests} tests" if self.is_well else f"FAILED, {self.failed} of {self.tests} tests"
        else:
            told = LEFT_OUT if self.is_well else f"FAILED, {LEFT_OUT}"
        if self.is_well and self.slow:
            told += f", {self.slow} {outcome.TOO_SLOW}"
        shown = [it for it in self.said.splitlines() if not self.is_well or it.endswith(f": {outcome.TOO_SLOW}")]
        said = "".join(f"  {it}\n" for it in shown)
        return f"{self.part.name}: {told}, {self.seconds:.0f} s\n{said}"


def ran(words):
    """The status and the text of a command. Where it hangs, or takes too much, it is ended, and the text says so."""
    how = {"stdin": subprocess.DEVNULL, "stdout": subprocess.PIPE, "stderr": subprocess.STDOUT}
    try:
        done = pace.run(words, MOST, LOOK, start_new_session=True, **how)
        return done.returncode, done.stdout.decode(errors="replace")
    except pace.Ended as why:
        said = (why.output or b"").decode(errors="replace")
        if isinstance(why, pace.Hung):
            return -signal.SIGKILL, f"{said}\n{why}\n"
        return outcome.SLOW, f"{said}\n{why}: {outcome.TOO_SLOW}\nthe part: 0 tests, 0 failed, 1 {outcome.TOO_SLOW}\n"


def is_well(status, tests, failed, slow):
    """Whether a part that wasn't left out failed nowhere: its status and its last line have to say the same."""
    if status == outcome.SLOW:
        return slow > 0 and not failed
    return status == 0 and tests > 0 and not failed and not slow


def result_of(part, is_whole):
    """Runs a part. It is well where its tests ran and none failed, or where it says what the machine lacks.

    Of the whole no part may be left out but for want of a browser, an emulator or valgrind.
    """
    start = time.monotonic()
    try:
        status, said = ran(part.words)
    except OSError as why:
        status, said = 1, f"{part.words[0]}: {why}\n"
    lines = said.splitlines()
    left_out = tuple(it for it in lines if it.endswith(LEFT_OUT))
    counts = outcome.read(lines[-1]) or (0, 0, 0) if lines else (0, 0, 0)
    may_lack = bool(left_out) and (part.may_lack or not is_whole)
    well = may_lack if status == outcome.NOT_RUN else is_well(status, *counts)
    return Result(part, *counts, well, left_out, said, time.monotonic() - start)


def missing_of(results):
    """What was left out: the parts that didn't run, and what other parts say."""
    found = []
    for it in results:
        found += [it.part.name] if it.left_out and not it.tests else []
        found += [line.split(":")[0] for line in it.left_out]
    return list(dict.fromkeys(found))


def last_line(build, results, seconds):
    """What is told of all parts at the end."""
    missing, wrong = missing_of(results), sum(not it.is_well for it in results)
    slow = [it for it in results if it.is_well and it.slow]
    of_them = f"{wrong} of them FAILED" if wrong else ""
    if slow:
        of_them += f", {len(slow)} {outcome.TOO_SLOW}" if wrong else f"{len(slow)} of them {outcome.TOO_SLOW}"
    parts = f"{len(results)} parts, {of_them}" if of_them else f"{len(results)} parts passed"
    tests, failed = sum(it.tests for it in results), sum(it.failed for it in results)
    count = f"{tests} tests, {failed} failed"
    if slow:
        count += f", {sum(it.slow for it in slow)} {outcome.TOO_SLOW} ({', '.join(it.part.name for it in slow)})"
    return f"{build.what}: {parts}; {count}; left out: {', '.join(missing) or 'nothing'}; {seconds:.0f} s"


def status_of(results, is_strict):
    """The exit status: 0 only where tests ran, and none failed; of strict tests, none was too slow either."""
    is_wrong = not all(it.is_well for it in results) or not sum(it.tests for it in results)
    return 1 if is_wrong or is_strict and any(it.slow for it in results) else 0


def run(build, parts, is_whole, is_strict=False):
    """Runs the parts, tells each as it ends, and gives the exit status.

    Some more run side by side than there are processors, and after them those that are timed, one by one.
    """
    start, results = time.monotonic(), []
    for timed in (False, True):
        wanted = [it for it in parts if it.is_timed == timed]
        with concurrent.futures.ThreadPoolExecutor(1 if timed else processors.usable() + MORE) as pool:
            for it in concurrent.futures.as_completed([pool.submit(result_of, part, is_whole) for part in wanted]):
                results.append(it.result())
                print(results[-1].line(), end="", flush=True)
    print(last_line(build, results, time.monotonic() - start))
    return status_of(results, is_strict)
