"""Definitions in a text of specs/: where each begins, and what it is called."""

import re

HEAD = re.compile(r"(?:(?:abbrev|unfoldable|computing|pub|record|data)\s+)+(◌\S+◌|[^\W\d][\w'-]*)")
# Lines that belong to no definition.
APART = re.compile(r"--|(?:unfoldable )?(?:pub )?(?:use|mod)\b|infix")


def name_in(line):
    """The name of the definition that begins in this line, or None."""
    head = None if APART.match(line) else HEAD.match(line)
    return head[1] if head else None


def owned(text):
    """The lines that belong to definitions, each behind the name of its own."""
    lines = text.splitlines()
    return ((owner, lines[number - 1]) for number, owner in numbered(text))


def numbered(text):
    """The numbers of the lines that belong to definitions, from 1 on, each with the name of its own."""
    owner = None
    for number, line in enumerate(text.splitlines(), 1):
        if not line.strip() or APART.match(line):
            owner = None
        else:
            owner = name_in(line) or owner
        if owner:
            yield number, owner
