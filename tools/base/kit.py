"""What is taken of the kit's own scripts, which it keeps to itself: they are loaded from where `rt` stands.

Each name is listed here once, and told where a later kit has it no longer. Nothing else of the tools names the kit's
scripts. What the names do was read in rattle-kit-13b.
"""

import functools
import importlib.machinery
import importlib.util
import os
import shutil
import subprocess
import sys

sys.dont_write_bytecode = True


def _load(name, file):
    loader = importlib.machinery.SourceFileLoader(name, file)
    made = importlib.util.module_from_spec(importlib.util.spec_from_loader(name, loader))
    sys.modules[name] = made
    try:
        loader.exec_module(made)
    except OSError:
        sys.exit(f"tools/base/kit.py: this kit has no {file}")
    return made


def _taken(owner, name, file):
    """What the kit has under this name."""
    if not hasattr(owner, name):
        sys.exit(f"tools/base/kit.py: {file} of this kit has no {name}, on which the tools stand")
    return getattr(owner, name)


RT = shutil.which("rt")
if not RT:
    sys.exit("there is no rt on the path: this needs the Rattle kit")
_RT = _load("rt", os.path.realpath(RT))
_RTLIB = _taken(_RT, "rtlib", "bin/rt")
# The kit's folder.
KIT = _taken(_RTLIB, "KIT", "bin/rtlib.py")
_BODIES = _load("rt_plant_bodies", f"{KIT}/bin/rt-plant-bodies")

# bin/rt: runs tasks side by side, each once those that it waits for have ended; the gigabytes that a check takes.
in_lanes = _taken(_RT, "in_lanes", "bin/rt")
need = _taken(_RT, "need", "bin/rt")
processors = _taken(_RT, "processors", "bin/rt")
# The texts that an edit makes, or why it can't be applied; whether a line tells of an edited text that can't be read.
read_edit = _taken(_RT, "read_edit", "bin/rt")
unread = _taken(_RT, "unread", "bin/rt")
_Crate = _taken(_RT, "Crate", "bin/rt")
_handles_of = _taken(_RT, "handles_of", "bin/rt")
# bin/rtlib.py: the prover; the folders that it reads of a crate; the words before a command that ends when we end.
RATTLE = _taken(_RTLIB, "RATTLE", "bin/rtlib.py")
PARTS = _taken(_RTLIB, "PARTS", "bin/rtlib.py")
guarded = _taken(_RTLIB, "guarded", "bin/rtlib.py")
# The files of a crate's src/, specs/ and proofs/; the text of a file, if it is there.
files_of = _taken(_RTLIB, "files_of", "bin/rtlib.py")
text_of = _taken(_RTLIB, "text_of", "bin/rtlib.py")
# The folder of crates.txt above a crate; keeps other calls of rt out of the crates' folders.
root_above = _taken(_RTLIB, "root_above", "bin/rtlib.py")
lock = _taken(_RTLIB, "lock", "bin/rtlib.py")
# What a check says where it can't use the kept work of a library.
STALE = _taken(_RTLIB, "STALE", "bin/rtlib.py")
_crates_below = _taken(_RTLIB, "crates_below", "bin/rtlib.py")
# How the last line of a check reads on which a verdict may rest, and what it has at its end of a folder of kept work.
_VERDICT = _taken(_RTLIB, "VERDICT", "bin/rtlib.py")
_OVER_KEPT = " incremental=trusted\n"
# bin/rt-plant-bodies: reads the functions of a crate.
Source = _taken(_BODIES, "Source", "bin/rt-plant-bodies")
# What the tools ask of a crate.
for _name in ("below", "count", "link", "prove", "stamp", "words"):
    _taken(_Crate, _name, "the crate of bin/rt")


def crates_of(top):
    """The crates of the repository at `top`, lowest first, each over the statements of those below it."""
    _Crate.cuts_libraries = True
    _Crate.allowed = _handles_of(top)
    _RTLIB.Crate = _Crate
    # The first call sets a signal's handler, which only the main thread may.
    guarded()
    return _crates_below(top)


@functools.cache
def version():
    """The kit's line, by which two of them are told apart."""
    return subprocess.run([RT, "version"], capture_output=True, text=True, check=True).stdout.strip()


class _OverOwnWork:
    """Finds the last line of a check whose verdict may rest on a folder that this process alone has filled."""

    @staticmethod
    def search(text):
        return _VERDICT.search(text.removesuffix(_OVER_KEPT).removesuffix("\n") + "\n")


def proved(crate, words, folder=None):
    """Whether the crate is proved by the prover's command of these words, and then all is made that it makes.

    With a folder, which the caller has made empty for such calls, what one call has checked the next one takes from it.
    No other call may stand beside this one.
    """
    if not folder:
        return not crate.prove(words)
    _RTLIB.VERDICT = _OverOwnWork
    try:
        return not crate.prove([*words, "--incremental", folder])
    finally:
        _RTLIB.VERDICT = _VERDICT
