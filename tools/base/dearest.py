"""The functions whose proofs take the most seconds of a processor, of crates that are checked over built libraries."""

import os
import sys
import tempfile

import edit as edits_of
import kit
import libraries
import spared
import timed

# How many are told.
MOST_TOLD = 20


def checked(crate):
    """What a check of the crate said, that takes nothing from an earlier one: one function after the other."""
    with tempfile.TemporaryDirectory(prefix="dearest-") as kept:
        return timed.checked(crate, {}, ["--jobs", "1"], f"{kept}/kept")


def rows_of(crate, seconds):
    """A row for each function of which seconds are known, with what stands in the tree of it."""
    functions = edits_of.functions_of(crate.folder)
    known = {name: [it for it in functions if name.endswith(f"::{it.ending()}")] for name in seconds}
    return [(spent, name, _size(crate, known[name])) for name, spent in seconds.items()]


def _size(crate, functions):
    """How many lines the one function has from its head to its end, and how many bytes its answers."""
    if len(functions) != 1:
        return "derived, or of a name that others have"
    it = functions[0]
    lines = edits_of.bytes_of(f"{crate.folder}/{it.file}")[it.first : it.end].count(b"\n") + 1
    answers = (f"{crate.folder}/{place}/{spared.ANSWERS}" for place in it.proofs())
    written = sum(os.path.getsize(place) for place in answers if os.path.isfile(place))
    return f"{lines} lines, {written} bytes of answers"


def main(top, names):
    """Checks the crates of these names, or all, and tells the dearest functions; gives the exit status."""
    crates = [it for it in kit.crates_of(top) if not names or it.name in names]
    if set(names) - {it.name for it in crates}:
        print(f"dearest: no such crate: {' '.join(names)}", file=sys.stderr)
        return 2
    if left := libraries.unbuilt(libraries.below(crates)):
        print(f"dearest: not built: {' '.join(it.name for it in left)}", file=sys.stderr)
        return 1
    rows, failed = [], False
    for it in crates:
        ran = checked(it)
        failed = failed or ran.returncode != 0
        of_functions = sum(ran.seconds.values())
        print(f"{it.name}: {ran.spent:.0f} s, {of_functions:.0f} in {len(ran.seconds)} functions", flush=True)
        rows += rows_of(it, ran.seconds)
    for spent, name, size in sorted(rows, reverse=True)[:MOST_TOLD]:
        print(f"{spent:6.1f} s {name}: {size}")
    return 1 if failed else 0
