"""Instructions of our own code: what callgrind counts in the functions of proved crates and in the calls for C.

The C library's functions and the loader's are left out: a processor decides which of several copies run, so their
counts differ from machine to machine.
"""

import os
import re
import shutil
import subprocess
import tempfile

TOOL = "valgrind"
# Each name is written whole at each of its places, and each place as a number of its own.
WORDS = [TOOL, "--tool=callgrind", "--compress-strings=no", "--compress-pos=no"]
# Functions of the crates have a path, calls for C begin so.
PATH, EXPORTED = "::", "vf_"
COST = re.compile(r"\d+ (\d+)")


def missing():
    """What the machine lacks of what counts."""
    return [] if shutil.which(TOOL) else [TOOL]


def is_own(function):
    """Whether a function is of our own code."""
    return PATH in function or function.startswith(EXPORTED)


def own_of(lines):
    """The instructions of our own functions that a profile has, without those of what they call."""
    total, counts, is_call = 0, False, False
    for line in lines:
        if line.startswith("fn="):
            counts = is_own(line[3:].strip())
        elif line.startswith("calls="):
            is_call = True
        elif found := COST.match(line):
            total += int(found[1]) * (counts and not is_call)
            is_call = False
    return total


def own(words):
    """How many instructions of our own code a command takes, which has to end well."""
    with tempfile.TemporaryDirectory(prefix="counted-") as folder:
        profile = f"{folder}/profile"
        subprocess.run([*WORDS, f"--callgrind-out-file={profile}", *words], check=True,
                       stdout=subprocess.DEVNULL, stderr=subprocess.DEVNULL, stdin=subprocess.DEVNULL)
        with open(profile, encoding="utf-8", errors="replace") as it:
            return own_of(it)
