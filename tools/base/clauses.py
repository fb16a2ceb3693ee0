"""Functions in a text of src/ that others may call: where each begins, and where each of its clauses stands."""

import dataclasses
import re

BLOCK = re.compile(r"(?:pub(?:\(crate\))? )?(?:unsafe )?(impl|trait)\b(?:<[^{]*?>)?\s*([^{]*)")
FUNCTION = re.compile(r"( *)(pub )?(?:const )?(?:unsafe )?(?:extern \"C\" )?fn (\w+)")
CLAUSE = re.compile(r" *(requires|ensures)(?: (\w+))? \{")
NAME = re.compile(r"[A-Za-z_]\w*")


@dataclasses.dataclass
class Function:
    """A function, with the type or trait whose it is, or '', and its lines, which count from 1.

    `end` is the last line before its body, and `clauses` has the name, or '', and the lines of each `ensures`.
    """

    owner: str
    name: str
    start: int
    end: int
    clauses: list


def owner_of(line):
    """The type or the trait whose block begins in this line, and whether others may call each function in it."""
    found = BLOCK.match(line)
    if not found:
        return None
    trait, is_for, of = found[2].partition(" for ")
    return NAME.search(of if is_for else trait)[0], found[1] == "trait" or bool(is_for)


def head_of(lines, first, indent):
    """The index behind the lines of a function that stand before its body, which begins with a line of its own."""
    for at in range(first, len(lines)):
        if lines[at] in (f"{indent}{{", f"{indent}{{}}"):
            return at
        if lines[at].endswith(";") or lines[at].endswith(" {") and not CLAUSE.match(lines[at]):
            return at + 1
    return len(lines)


def clauses_in(lines, first, end):
    """The name and the lines of each `ensures` of a function."""
    marks = [at for at in range(first, end) if CLAUSE.match(lines[at])] + [end]
    for at, behind in zip(marks, marks[1:]):
        found = CLAUSE.match(lines[at])
        if found[1] == "ensures":
            yield found[2] or "", at + 1, behind


def functions_in(text):
    """The functions of a file that others may call."""
    lines = text.splitlines()
    owner, is_open = "", False
    for at, line in enumerate(lines):
        if line.startswith("}"):
            owner, is_open = "", False
        block = owner_of(line)
        if block:
            owner, is_open = block
        found = FUNCTION.match(line)
        if found and (found[2] or (is_open and found[1])):
            end = head_of(lines, at, found[1])
            yield Function(owner, found[3], at + 1, end, list(clauses_in(lines, at, end)))
