"""The tables of docs/SPEED.md as tests: what each row counts, and whether it is still so.

A table is held where its head has OURS: the cells below it have the instructions of our own code, one for each number
of the row, with commas between them.
"""

import dataclasses
import re
import subprocess

import counted
import ctests

OURS = "Our code"
# A count that is so many parts of a hundred above its figure, or below, isn't the figure.
TOLERANCE = 2
SEPARATOR = re.compile(r"\|(---\|)+")
CODE = re.compile(r"`([^`]+)`")
PAGES = re.compile(r", (\d+) pages$")
NUMBER = re.compile(r"\d{1,3}(?:,\d{3})+|\d+")
# Growth is counted over a desk of so many pages, by so many turns of two lines: by fewer where a turn takes long.
GROWTH_PAGES, TURNS, FEWER_TURNS = "1024", 100, {"list": 5, "pages": 10}
# What marks a step of a script, and what begins each figure of its sheet.
MARK, FIGURE = "#picture", b'<div class="memory"'
# The benches in C, each with the sources of its plain twin, and with the calls that the linker counts.
DESK, HEAP, FLEX = "desk_bench", "heap_bench", "flex_bench"
BENCHES = {
    DESK: ((), ("memcpy", "memset")),
    HEAP: (("os_heap",), ()),
    FLEX: (("os_heap", "flex_slot", "slot_check"), ()),
}
# How a turn of a bench is counted: by what so many turns take more than half of them.
TURNS_IN_C = 200


@dataclasses.dataclass
class Row:
    """A row of a held table: its section, its cells by the head of each, and the line where it stands."""

    section: str
    cells: dict
    line: int

    def name(self):
        """What stands in its first cell."""
        return next(iter(self.cells.values()))

    def code(self):
        """The first word or command in its first cell that stands as code."""
        return CODE.search(self.name())[1]

    def figures(self):
        """The instructions that it tells."""
        return numbers(self.cells[OURS])


@dataclasses.dataclass
class Build:
    """What is counted: the program, and the folder where scripts are written and the benches in C lie."""

    top: str
    program: str
    work: str

    def bench(self, name, *words):
        """The instructions of a bench with these words."""
        return counted.own([f"{self.work}/{name}", *words])

    def told(self, name, *words):
        """What a bench prints with these words."""
        return subprocess.run([f"{self.work}/{name}", *words], stdout=subprocess.PIPE, check=True).stdout

    def lines(self, script, words=()):
        """The instructions of a run of the script, and how many lines it has."""
        path = f"{self.work}/counted.desk"
        with open(path, "wb") as it:
            it.write(script)
        return counted.own([self.program, "run", *words, path]), script.count(b"\n")


def numbers(cell):
    """The numbers in a cell, each of which may have commas between its thousands."""
    return [int(it.replace(",", "")) for it in NUMBER.findall(cell)]


def cells_of(line):
    """The cells of a table's line, or none."""
    return [it.strip() for it in line[1:-1].split("|")] if line.startswith("|") and line.endswith("|") else []


def rows_of(lines):
    """The rows of all held tables in the lines of the document."""
    found, section, head = [], "", []
    for at, line in enumerate(lines):
        cells = cells_of(line)
        if line.startswith("## "):
            section = line[3:]
        if not cells:
            head = []
        elif SEPARATOR.fullmatch(line):
            head = cells_of(lines[at - 1])
        elif OURS in head:
            found.append(Row(section, dict(zip(head, cells)), at))
    return found


def made(build, *words):
    """The script that a maker of bench/ prints."""
    return subprocess.run([f"{build.top}/bench/{words[0]}", *words[1:]], stdout=subprocess.PIPE, check=True).stdout


def of_script(build, row):
    """What a line of a maker's script takes, the start of the program among them."""
    pages = PAGES.search(row.name())
    count, lines = build.lines(made(build, *row.code().split()), ["--pages", pages[1]] if pages else [])
    return [count // lines]


def of_growth(build, row):
    """What a line takes at each number of things, beyond the lines that make them."""
    turns = FEWER_TURNS.get(row.code(), TURNS)
    return [grown(build, row.code(), n, turns) for n in numbers(row.cells["N"])]


def grown(build, what, n, turns):
    """What one of the lines takes that come behind those which make so many things."""
    scripts = [made(build, "make-growth-script", what, str(n), str(it)) for it in (0, turns)]
    (before, made_by), (after, lines) = [build.lines(it, ["--pages", GROWTH_PAGES]) for it in scripts]
    return (after - before) // (lines - made_by)


def of_pictures(build, row, command):
    """What a figure of an example takes, beyond a run of the command that shows none."""
    with open(f"{build.top}/examples/{row.code()}.desk", "rb") as it:
        script = it.read()
    unmarked = b"".join(it for it in script.splitlines(True) if not it.startswith(MARK.encode()))
    paths = []
    for name, text in (("all", script), ("none", unmarked)):
        paths.append(f"{build.work}/{name}.desk")
        with open(paths[-1], "wb") as it:
            it.write(text)
    every = counted.own([build.program, command, paths[0]])
    none = counted.own([build.program, command, "--marked", paths[1]])
    return [(every - none) // figures_of(build, paths[0])]


def figures_of(build, path):
    """How many of a script's steps have a figure in its sheet."""
    ran = subprocess.run([build.program, "draw", path], stdout=subprocess.PIPE, check=True)
    return ran.stdout.count(FIGURE)


def of_calls(build, row):
    """What a call takes, by the table in which it stands: of a desk, of a heap or of flex blocks."""
    return next(call(build, row) for head, call in IN_C.items() if head in row.cells)


def of_desk(build, row):
    """What a call of the desk's bench takes: typed, as lines with their replies, and as lines of a run."""
    rows = dict(it.split(" ", 1)[::-1] for it in build.told(DESK, "names").decode().splitlines())
    name = rows[row.name()]
    return [
        a_turn(lambda n: build.bench(DESK, "typed", name, n)),
        a_turn(lambda n: build.bench(DESK, "lines", name, n)),
        a_turn(lambda n: build.lines(build.told(DESK, "script", name, n))[0]),
    ]


def of_heap(build, row):
    """What one of a claim and its release takes, without a map and with one."""
    live, shape = row.name().split(", ", 1)
    return [a_turn(lambda n, way=way: build.bench(HEAP, way, live, shape, n)) // 2 for way in ("proved", "mapped")]


def of_flex(build, row):
    """What one of two calls on flex blocks takes."""
    calls, size = row.name().rsplit(", ", 1)
    return [a_turn(lambda n: build.bench(FLEX, calls, size.split()[0], n)) // 2]


def a_turn(count):
    """What a turn takes, by those that half of them don't take."""
    return (count(str(TURNS_IN_C)) - count(str(TURNS_IN_C // 2))) // (TURNS_IN_C // 2)


# How a row in C is counted, by the head of its first cell.
IN_C = {"Call": of_desk, "Live blocks": of_heap, "Calls, and the bytes of each block": of_flex}
# How the rows of each section are counted.
SECTIONS = {
    "Figures": of_script,
    "Growth": of_growth,
    "Maps": lambda build, row: of_pictures(build, row, "map"),
    "Sheets": lambda build, row: of_pictures(build, row, "draw"),
    "The calls for C": of_calls,
}


def compiled(top, library, work):
    """Compiles the benches over the library into a folder, and gives what was wrong."""
    suite = ctests.Suite(top, library, work)
    for name, (plain, wrapped) in BENCHES.items():
        sources = [f"c/bench/{name}.c", *(f"c/plain/{it}.c" for it in plain)]
        flags = [*ctests.C11, "-O2", "-Ic/bench", *(f"-Wl,--wrap={it}" for it in wrapped)]
        suite.compiled(name, sources, flags, f"{work}/{name}")
    return suite.wrong


def fault(count, figure):
    """What is said of a count that isn't the figure, or nothing."""
    if count * 100 > figure * (100 + TOLERANCE):
        return f"{count:,} instructions, and {figure:,} are told: dearer"
    if count * 100 < figure * (100 - TOLERANCE):
        return f"{count:,} instructions, and {figure:,} are told: cheaper, so the figure has to be written anew"
    return ""


def with_figures(line, row, counts):
    """The line of a table's row with these counts in place of those that it tells."""
    cells = dict(row.cells, **{OURS: ", ".join(f"{it:,}" for it in counts)})
    return "| " + " | ".join(cells.values()) + " |" if cells != row.cells else line
