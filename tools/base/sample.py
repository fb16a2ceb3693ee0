"""Which lines of the tables a run tries, though nothing has changed that they depend on.

A sum of all sources chooses them: nobody can, and a second run over the same sources takes the same ones. What a check
costs is for the most part the loading of its crate. So crates are taken, in an order that the sum gives, until these
have a quarter of all lines; and of the lines of each a fifth. Each line is tried with a chance of one in twenty or
more, as single lines of all crates would be, for a quarter of the loading. Where many lines of one crate are false, a
run finds one of them with a chance of one in four.
"""

import hashlib
import os

import edit as edits_of
import kit
from kept import Sum

# Of all lines the crates that are taken have one of so many; and of theirs one of so many is tried.
CRATES, LINES = 4, 5


def seed_of(top, crates):
    """A sum of all sources of these crates, with their edits and tables."""
    total = Sum().add_files(top, [f"{top}/crates.txt"])
    for crate in crates:
        folder = f"{crate.folder}/{edits_of.WRONG}"
        beside = [f"{folder}/{it}" for it in sorted(os.listdir(folder))] if os.path.isdir(folder) else []
        total.add_files(crate.folder, [*kit.files_of(crate.folder), *beside])
    return total.text()


def chosen(seed, lines):
    """Those that the seed chooses of these lines, each a name in the list of its crate, as pairs of both."""
    left = _one_of(CRATES, sum(map(len, lines.values())))
    found = set()
    for crate in _ranked(seed, lines):
        if left <= 0:
            break
        left -= len(lines[crate])
        names = _ranked(f"{seed} {crate}", lines[crate])
        found.update((crate, name) for name in names[: _one_of(LINES, len(names))])
    return found


def _one_of(parts, count):
    """One of so many parts of a count, rounded up."""
    return -(-count // parts)


def _ranked(seed, names):
    return sorted(names, key=lambda it: hashlib.sha256(f"{seed} {it}".encode()).digest())
