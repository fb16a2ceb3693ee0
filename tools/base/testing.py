"""Tests what is built: the program, the library for programs in C, the page and the sheets. It needs no kit.

usage: bin/test [OPTION ..] [PART ..]                what dist/ has: all parts, or those that are named
       bin/test [OPTION ..] --built [PART ..]        what was built here last of the sources
       bin/test [OPTION ..] --in FOLDER [PART ..]    what a folder has, laid out as dist/
       bin/test --parts                              names the parts
       bin/test --packages                           prints the line that installs what tests use and this machine lacks

Parts run side by side. Each tells how many tests it has run and how long it took; one that failed, all that it said.
What the machine lacks, as a compiler (`cc`, or $CC) or a browser, is left out by name. With --whole, as the gate has
it, only these parts may be left out: those of the page, for want of a browser, those for another machine, for want of
its compiler and emulator, and `speed`, for want of valgrind. A limit is one of processor time, as on a reference
machine: what exceeds it here is told as `too slow here`. The last line counts. The status is 0 only where tests ran and
none failed; with --strict, as the gate has it, only where none was too slow either.
"""

import itertools
import os
import sys

TOP = os.path.realpath(f"{os.path.dirname(os.path.realpath(__file__))}/../..")
sys.dont_write_bytecode = True
# What a part imports leaves no files either.
os.environ["PYTHONDONTWRITEBYTECODE"] = "1"

import tested  # noqa: E402

OPTIONS = ("--whole", "--strict")


def chosen(words):
    """The build that the words ask for, whether it is dist/, and the words behind."""
    if words[:1] == ["--built"]:
        return tested.built_here(TOP), False, words[1:]
    if words[:1] == ["--in"] and len(words) > 1:
        return tested.laid_out(words[1], os.path.abspath(words[1])), False, words[2:]
    return tested.laid_out("dist/", f"{TOP}/dist"), True, words


def told_unknown(unknown, parts):
    """Says which words aren't parts, and which parts there are; gives the exit status."""
    if unknown[0].startswith("-"):
        print(f"bin/test: {unknown[0]} has no meaning there\n\n{__doc__}", end="", file=sys.stderr)
    else:
        print(f"bin/test: there is no part {', '.join(unknown)}. The parts are {' '.join(it.name for it in parts)}",
              file=sys.stderr)
    return 2


def main(words):
    """Runs the parts that the words name, and gives the exit status."""
    options = list(itertools.takewhile(lambda it: it in OPTIONS, words))
    build, is_dist, names = chosen(words[len(options):])
    parts = tested.parts_of(TOP, build, is_dist)
    if names == ["--parts"]:
        print(" ".join(it.name for it in parts))
        return 0
    unknown = [it for it in names if it not in {part.name for part in parts}]
    if unknown:
        return told_unknown(unknown, parts)
    return tested.run(build, [it for it in parts if not names or it.name in names], *(it in options for it in OPTIONS))


if __name__ == "__main__":
    sys.exit(main(sys.argv[1:]))
