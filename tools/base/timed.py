"""A check of a crate with edited texts, and how many seconds of a processor each function took of it."""

import os
import re
import shutil
import subprocess
import tempfile

import kit

# What a check says as it ends with a function.
ENDED = re.compile(r"checked ([^ ,]+), \d+ of \d+$")
# Where the times of a process stand behind the bracket that ends its name, with those of its children, and in parts of
# what a second.
TIMES, ALL_TIMES, TICKS = slice(11, 13), slice(11, 15), os.sysconf("SC_CLK_TCK")


class Ran:
    """How a check ended and what it said, without its lines on functions that it has ended with; and their seconds.

    What was done before the first of these lines is no function's: `spent` has the seconds of all.
    """

    def __init__(self, returncode, lines, seconds, spent=0.0):
        self.returncode, self.stdout, self.seconds, self.spent = returncode, "".join(lines), seconds, spent


def checked(crate, texts, flags, kept):
    """Checks a copy of the crate with these texts in place of its own, over what the folder `kept` holds."""
    with tempfile.TemporaryDirectory(prefix="wrong-body-") as room:
        for part in kit.PARTS:
            if os.path.isdir(f"{crate.folder}/{part}"):
                shutil.copytree(f"{crate.folder}/{part}", f"{room}/{part}")
        for path, text in texts.items():
            _put(f"{room}/{path}", text)
        words = crate.words([*flags, "--progress"], keeps=False)
        words = [*kit.guarded(), kit.RATTLE, "check", *words, "--incremental", kept]
        with subprocess.Popen(words, cwd=room, stdin=subprocess.DEVNULL, stdout=subprocess.PIPE,
                              stderr=subprocess.STDOUT, text=True, errors="replace") as running:
            lines, seconds = _read(running)
            # Until it is waited for, the times of a process that has ended can be read.
            spent = _spent(running.pid, ALL_TIMES)
    return Ran(running.returncode, lines, seconds, spent)


def _put(path, text):
    """Writes a file, or takes it away where there is no text."""
    if text is None:
        if os.path.isfile(path):
            os.remove(path)
        return
    os.makedirs(os.path.dirname(path), exist_ok=True)
    with open(path, "w", encoding="utf-8") as it:
        it.write(text)


def _read(running):
    """The lines that a check prints, and the seconds from each function's end to the next one's."""
    lines, seconds, before = [], {}, None
    for line in running.stdout:
        ended = ENDED.match(line)
        if not ended:
            lines.append(line)
            continue
        now = _spent(running.pid)
        seconds[ended[1]] = now - (now if before is None else before)
        before = now
    return lines, seconds


def _spent(pid, times=TIMES):
    """The seconds of a processor that a process has taken."""
    with open(f"/proc/{pid}/stat", encoding="ascii", errors="replace") as it:
        return sum(map(int, it.read().rpartition(")")[2].split()[times])) / TICKS
