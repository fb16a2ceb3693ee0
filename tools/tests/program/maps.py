"""Maps: their columns and bytes, the names in them, and that they say what sheets say."""

import html
import re
import string

from examples import EXAMPLES, steps_of, words_of

MAP_COLUMNS = 79
# The bytes that a leafname may have, and the most of them; and the longest name of a task.
LEAF_BYTES = range(33, 127)
LONGEST_LEAF = 10
LONGEST_NAME = 12


def test_maps(suite):
    """A map is lines of at most 79 printable bytes, whatever a remark has; with no mark `--marked` writes nothing."""
    remarks = [b"#" + bytes(it for it in range(256) if it != 10), b"# <script>&\"'</script>", b"#" + b"\xff" * 1023]
    script = b"\n".join([*remarks, b"task a\xff<&> 0", b"task Writer2 100", b"areas", b""])
    output, told, status = suite.run(["map", "-"], stdin=script)
    lines = output.split(b"\n")
    suite.is_true("columns of a map", all(len(it) <= MAP_COLUMNS for it in lines) and lines[-1] == b"")
    suite.is_true("bytes of a map", all(32 <= byte <= 126 for it in lines for byte in it))
    shown = [b"# <script>&\"'</script>", b"4  task a?<&> 0", b"bad Word 2", b"Slot Writer2 (a): task 1, buffer of 100, 1 page"]
    suite.is_true("words in a map", all(it in lines for it in shown))
    suite.is_true("the end of a map", told == b"" and status == 1)
    suite.ends("no mark", ["map", "--marked", "-"], b"", b"", 0, stdin=b"# picture\ntask a 100\n")


def test_map_names(suite):
    """Each byte that a task's name or a leafname may have stands in a map as it is."""
    letters = string.ascii_letters + string.digits
    names = ["N" + letters[it : it + LONGEST_NAME - 1] for it in range(0, len(letters), LONGEST_NAME - 1)]
    leaves = [bytes(LEAF_BYTES[it : it + LONGEST_LEAF]).decode() for it in range(0, len(LEAF_BYTES), LONGEST_LEAF)]
    lines = [f"task {it} 100" for it in names] + [f"save {names[0]} 0 {names[1]} {it}" for it in leaves]
    output, told, status = suite.run(["map", "-"], stdin="".join(f"{it}\n" for it in lines).encode())
    shown = output.decode().split("\n")
    suite.is_true("a map of names ends", (told, status) == (b"", 0))
    suite.is_true("commands of a map", all(f"{number}  {it}" in shown for number, it in enumerate(lines, 1)))
    headings = [f"Slot {it} ({mark}): task {number}, buffer of 100, 1 page"
                for number, (it, mark) in enumerate(zip(names, string.ascii_lowercase), 1)]
    suite.is_true("names in a map", all(it in shown for it in headings))


def said_of(step):
    """The lines that a map has of a step of a sheet, in their order: the command, its reply, and what has changed."""
    said = r"<h2><b>(\d+)</b> <code>(.*?)</code></h2>\n<pre>(.*?)</pre>"
    number, command, reply = re.search(said, step, re.DOTALL).groups()
    changes = re.findall(r'<p class="change">(.*?)</p>', step)
    lines = [html.unescape(it) for it in [f"{number}  {command}", *reply.split("\n"), *(f"  {it}" for it in changes)]]
    return [it if len(it) <= MAP_COLUMNS else it[: MAP_COLUMNS - 2] + ".." for it in lines]


def cards_of(step):
    """How the cards of a step of a sheet begin in a map, in their order, those that have changed with a star."""
    card = r'<rect class="card \w+( fresh)?" [^>]*/>\n<text class="first" [^>]*>(.*?)</text>'
    return [f"  {'*' if fresh else ' '} {html.unescape(first)}" for fresh, first in re.findall(card, step)]


def is_said(said, lines):
    """Whether just these lines stand in a map before a figure, or before the line that tells that there is none."""
    at = lines.index(said[0]) if said[0] in lines else len(lines)
    behind = at + len(said)
    return lines[at:behind] == said and lines[behind] in ("", "  (memory stays)")


def test_maps_and_sheets(suite):
    """A map says of each step what the sheet says: the reply, what has changed, and the cards with their stars."""
    for script in sorted(EXAMPLES.glob("*.desk")):
        before, files, _ = words_of(script)
        output, sheet = (suite.run([it, *before, str(script), *files])[0] for it in ("map", "draw"))
        lines, steps = output.decode().split("\n"), steps_of(sheet)
        cards = [it for step in steps for it in cards_of(step)]
        mapped = [it.split(",")[0] for it in lines if re.match(r"  [ *] [a-z0-9]", it)]
        is_same = all(is_said(said_of(it), lines) for it in steps) and cards == mapped[: len(cards)]
        suite.is_true(f"map and sheet of {script.name}", is_same)


# The map of the marked steps of a script over 8 pages.
MARKED_MAP = """\
#picture One area
# of two pages
4  make 2
ok 256
  Area 256 is made: no page yet, 2 pages at most

Pool: 6 of 8 pages free
            0 |......a1
Area 256: 0 of at most 2 pages
Slot a (a): task 1, buffer of 100, 1 page
   &8000    6 |::::=...........................................................
Module area (1): 1 page
&1800000    7 |=...............................................................

#picture
7  tsk
bad Unknown

Pool: 6 of 8 pages free
            0 |......a1
Area 256: 0 of at most 2 pages
Slot a (a): task 1, buffer of 100, 1 page
   &8000    6 |::::=...........................................................
Module area (1): 1 page
&1800000    7 |=...............................................................

"""
# The map of a script with a remark, a bad line and a line that is cut.
CUT_MAP = """\
# ? remark
4  task a 0
bad Word 3
  (memory stays)

5  areas
bad Unended
  (memory stays)

"""


def test_the_map_of_hello_is_the_worked_one(suite):
    """The map of the first example is the worked one, which stands beside it."""
    script, wanted = (EXAMPLES.joinpath(f"hello.{it}").read_bytes() for it in ("desk", "map"))
    suite.ends("the map of hello", ["map", "-"], wanted, b"", 0, stdin=script)


def test_marked_steps_alone_are_shown(suite):
    """A mark asks for the next step, which is shown with the remarks before it."""
    script = b"task a 100\n#picture One area\n# of two pages\nmake 2\nareas\n#picture\ntsk\n"
    words = ["map", "--marked", "--pages", "8", "-"]
    suite.ends("a map of marked steps", words, MARKED_MAP.encode(), b"", 1, stdin=script)


def test_a_cut_line_is_a_step(suite):
    """Lines without words are no steps, and a line that is cut is one."""
    script = b"\n  \n# \x01 remark\ntask a 0\nareas"
    suite.ends("a map of a cut script", ["map", "-"], CUT_MAP.encode(), b"", 1, stdin=script)
