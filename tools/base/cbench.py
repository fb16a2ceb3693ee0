"""The bench in C: what the library's calls take beside those of the same rules in plain C, and calls on a desk."""

import os
import re
import shutil
import subprocess
import sys
import tempfile

import clib
import ctests

BENCHES = ["heap_bench", "flex_bench"]
# The bench of the desk, with the calls whose bytes it counts, and the program that runs the same lines.
DESK, WRAPPED, PROGRAM = "desk_bench", ["memcpy", "memset"], "dist/vervainfile"
# Instructions are counted over as many rounds of a call, beyond those of half as many.
CALLGRIND = ["valgrind", "--tool=callgrind", "--callgrind-out-file=/dev/null"]
ROUNDS = 2000
# Keeps the C library from string instructions, which count once for each byte.
TUNED = {"GLIBC_TUNABLES": "glibc.cpu.hwcaps=-ERMS,-FSRM"}
COLLECTED = re.compile(r"Collected : (\d+)")


def built(suite, name, sources, flags=()):
    """Compiles a bench, and gives where it lies, or nothing."""
    made = f"{suite.work}/{name}"
    words = [*ctests.C11, "-O2", "-Ic/bench", *flags]
    return made if suite.compiled(name, [f"c/bench/{name}.c", *sources], words, made) else None


def instructions(words):
    """How many instructions a command takes, as callgrind counts them."""
    ran = subprocess.run([*CALLGRIND, *words], stdout=subprocess.DEVNULL, stderr=subprocess.PIPE, text=True, check=True,
                         env={**os.environ, **TUNED})
    return int(COLLECTED.search(ran.stderr)[1])


def of_a_round(command):
    """How many instructions a round takes, of a command for a number of rounds."""
    return 2 * (instructions(command(ROUNDS)) - instructions(command(ROUNDS // 2))) // ROUNDS


def script(made, name, rounds):
    """Writes the script of as many rounds of a call, and gives its path."""
    path = f"{made}-{name}-{rounds}.desk"
    with open(path, "wb") as it:
        subprocess.run([made, "script", name, str(rounds)], stdout=it, check=True)
    return path


def print_instructions(top, made):
    """Prints how many instructions each call of the desk's bench takes, typed, as lines, and in the program."""
    names = subprocess.run([made, "names"], capture_output=True, text=True, check=True).stdout.splitlines()
    print("\nInstructions, as callgrind counts them.\n\n| Call | typed | lines | the program |\n|---|---|---|---|")
    for name, told in (it.split(" ", 1) for it in names):
        ways = [lambda rounds, way=way: [made, way, name, str(rounds)] for way in ("typed", "lines")]
        if os.path.isfile(f"{top}/{PROGRAM}"):
            ways.append(lambda rounds: [f"{top}/{PROGRAM}", "run", script(made, name, rounds)])
        cells = [f"{of_a_round(way):,}" for way in ways]
        print("|", " | ".join([told, *cells, *["-"] * (3 - len(cells))]), "|", flush=True)


def desk(top, suite):
    """Times calls on a desk, and counts their instructions where callgrind is there; gives the exit status."""
    made = built(suite, DESK, [], [f"-Wl,--wrap={it}" for it in WRAPPED])
    if not made:
        return 1
    print(flush=True)
    status = subprocess.run([made], check=False).returncode
    if not status and shutil.which(CALLGRIND[0]):
        print_instructions(top, made)
    return status


def run(top):
    """Builds the library, prints what its calls take beside those in plain C, and gives the exit status."""
    status = clib.make(top)
    if status:
        return status
    with tempfile.TemporaryDirectory(prefix="cbench-") as work:
        suite, statuses = ctests.Suite(top, f"{top}/{clib.FOLDER}", work), []
        for made in [built(suite, name, ctests.plain(suite)) for name in BENCHES]:
            if made:
                statuses.append(subprocess.run([made], check=False).returncode)
        statuses.append(desk(top, suite))
    for it in suite.wrong:
        print(it, file=sys.stderr)
    return 1 if suite.wrong or any(statuses) else 0
