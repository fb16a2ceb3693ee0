"""The verdicts on a crate's edits: the table of the repository, and what this machine has tried.

A line of either says of one edit at which goals it was refused, under the sum of all that this depends on. The table
stands in crates/NAME/wrong/verdicts, in the order of the names, and no line has anything that another machine would
have otherwise. What this machine keeps has the seconds too.
"""

import dataclasses
import os
import re
import tempfile

import edit as edits_of
import kept

LINE = re.compile(r"([\w-]+) ([0-9a-f]{32})((?: \S+)+)")
KEPT = re.compile(rf"([\d.]+) {LINE.pattern}")
# How many goals a line of the table has at most: the first ones.
MOST_GOALS = 3
# How many lines are kept of a crate on this machine for each of its edits; and under which word.
MOST_KEPT = 4
TRIED = "tried"


@dataclasses.dataclass(frozen=True)
class Told:
    """An edit's verdict as a line tells it: where it was refused under a sum, and in how many seconds if it says so."""

    name: str
    sum: str
    goals: tuple
    seconds: float = 0.0

    def agrees(self, other):
        """Whether both were refused at some goal."""
        return not set(self.goals).isdisjoint(other.goals)

    def short(self):
        """The same as a line of the table has it, without what names a file of proofs and no goal in it."""
        named = [it for it in self.goals if not it.endswith(".")]
        return Told(self.name, self.sum, tuple((named or self.goals)[:MOST_GOALS]))


def table_of(crate):
    """The file of the crate's table."""
    return f"{crate.folder}/{edits_of.WRONG}/{edits_of.TABLE}"


def read_table(crate, names):
    """The lines of the crate's table by the edits' names, and what is wrong with it beside these edits' names."""
    found, faults = {}, []
    if not os.path.isfile(table_of(crate)):
        return found, faults
    lines = edits_of.bytes_of(table_of(crate)).decode(errors="replace").splitlines()
    for number, line in enumerate(lines, 1):
        read = LINE.fullmatch(line)
        told = Told(read[1], read[2], tuple(read[3].split())) if read else None
        if fault := _fault(told, found, names):
            faults.append(f"line {number} {fault}")
        else:
            found[told.name] = told
    return found, faults


def _fault(told, found, names):
    """What is wrong with a line of a table, or an empty text."""
    if not told:
        return "is no line of an edit, its sum and its goals"
    if told.name in found:
        return f"is one more of {told.name}"
    if found and told.name < max(found):
        return f"of {told.name} isn't in the order of the names"
    return "" if told.name in names else f"is of {told.name}, which is no edit"


def write_table(crate, lines):
    """Writes the crate's table anew, whole or not at all."""
    text = "".join(f"{it.name} {it.sum} {' '.join(it.goals)}\n" for it in sorted(lines, key=_name))
    handle, made = tempfile.mkstemp(dir=crate.folder)
    with open(handle, "w", encoding="utf-8") as it:
        it.write(text)
    os.chmod(made, 0o644)
    os.replace(made, table_of(crate))


def _name(told):
    return told.name


def kept_of(crate, sums):
    """What this machine has tried of the crate under these sums of its edits, by the edits' names."""
    every = _every_kept(crate)
    return {name: every[name, total] for name, total in sums.items() if (name, total) in every}


def _every_kept(crate):
    """What is kept of the crate: the line of each edit and sum, the last one last."""
    lines = kept.lines_of(crate.name, TRIED) or [""]
    read = [KEPT.fullmatch(it) for it in lines[:-1]]
    if lines[-1] != _last_line(len(lines) - 1) or None in read:
        return {}
    told = [Told(it[2], it[3], tuple(it[4].split()), float(it[1])) for it in read]
    return {(it.name, it.sum): it for it in told}


def keep(crate, lines, edits):
    """Keeps these lines of the crate beside those that are kept, of which the oldest go, for so many edits."""
    every = _every_kept(crate)
    for it in lines:
        every.pop((it.name, it.sum), None)
        every[it.name, it.sum] = it
    last = list(every.values())[-MOST_KEPT * edits :]
    texts = [f"{it.seconds:.1f} {it.name} {it.sum} {' '.join(it.goals)}" for it in last]
    kept.keep_lines(crate.name, TRIED, [*texts, _last_line(len(texts))])


def _last_line(count):
    """The last line of what is kept, by which a whole list is known."""
    return f"{count} verdicts"
