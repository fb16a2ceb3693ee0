"""Where things stand on sheets: each place worked out by hand from docs/FORMATS.md, and nothing outside its figure."""

import re

import sheets
from examples import EXAMPLES, words_of
from limits import LENS, LENSES, SHEET, SHEETS, alloc, claims, put, step_shown

# Tasks with code of their own, of which the first or the second sends messages.
PAIR = ["task a 4000 raw", "task b 4000 raw"]
THREE = [*PAIR, "task c 4000 raw"]
# Messages from task 1 to task 2, the other way, and from task 2 to itself.
EAST, WEST, SELF = "send a 17 2 0 5", "send b 17 1 0 5", "send b 17 2 0 5"
# Four flex blocks, and two of which the first has a row of the lens for itself.
FOUR = [*put(1), *(f"alloc a {it} 1" for it in (1, 2, 3)), "areas"]
LONG_ROW = [*alloc(0, 472), "alloc a 1 1", "areas"]


def slid(size, longer):
    """A flex block that gets another size, by which the one above it slides."""
    return ["task a 4000", f"alloc a 0 {size}", "alloc a 1 10", f"extend a 0 {longer}"]


# What the last line of a script shows: by which words, of which lines, and the elements that have to stand there.
POOL = [
    # A square is 32 units; 32 stand side by side from 150 on; each fourth has its number.
    ("the grid of 33 pages", [*SHEET, "--pages", "33"], ["areas"], [
        '<svg viewBox="0 0 1176 66" ', '"cells" x="150" y="0" width="1024" height="32"/>',
        '"cells" x="150" y="32" width="32" height="32"/>', '"num" x="153" y="14">0<', '"num" x="281" y="14">4<',
        '"num" x="1049" y="14">28<', '"num" x="153" y="46">32<']),
    ("a page of the second row", [*SHEET, "--pages", "33"], ["areas"], [
        'd="M151 33h30v30h-30z"', '"tag" x="166" y="60">mod<', '"side" x="0" y="14">Pool<',
        '"small" x="0" y="31">32 of 33 free<']),
]
AREAS = [
    # A row is 24 units high and begins 3 below its 30; a unit is 4 bytes; cards are 164 by 62, one each 170 and 66.
    ("rows of two pages below a card", SHEET, alloc(0, 5), [
        '<svg viewBox="0 0 1176 144" ', '"addr" x="0" y="102">&amp;9000<', '"addr" x="0" y="132">&amp;8000<',
        '"chip t0" x="96" y="115" width="46" height="24"/>', '"chipn" x="119" y="132">62<',
        '"row" x="150" y="85" width="1024" height="24"/>', '"row" x="150" y="115" width="1024" height="24"/>']),
    ("what lies in them", SHEET, alloc(0, 5), [
        '"anchors" x="150" y="115" width="64" height="24">', '"head" x="214" y="115" width="4" height="24">',
        '"top" x="218" y="115" width="956" height="24">', '"lab top" x="696" y="132">3824 free<',
        '"flex t0 fresh" x="150" y="85" width="4" height="24">', '"tick" d="M150 115v24"',
        '"lab spare" x="664" y="102">4080 unused<']),
    ("a card above", SHEET, alloc(0, 5), [
        '"card flex fresh" x="151" y="1" width="164" height="62"/>', '"first" x="159" y="20">anchor 0 &amp;9008<',
        '"line" x="159" y="38">5 bytes<', '"line" x="159" y="56">0000000000<',
        '"lens" d="M150 85L151 63H315L154 85z"']),
    ("seven cards below", SHEET, claims(*[8] * 7), [
        '<svg viewBox="0 0 1176 180" ', '"card used" x="151" y="47" width="164" height="62"/>',
        '"card used" x="1001" y="47" ', '"card used fresh" x="151" y="113" ',
        '"lens" d="M218 27L151 47H1165L232 27z"']),
    ("a slide within a row", SHEET, slid(5, 105), [
        '"ghost" d="M151 82h9v30h-9z"', '"slide" d="M156 83C156 65 181 65 181 83"']),
    ("a slide to another row", SHEET, slid(100, 5000), [
        '"ghost" d="M174 112h9v30h-9z"', '"slide" d="M183 127C474 127 474 97 384 97"']),
]
CHARTS = [
    # Lines stand at 70 and 250, steps 32 apart from 40 on; an arrow begins 9 below its step, and ends 3 before a line.
    ("a message to the right", SHEET, [*PAIR, EAST, "poll b"], [
        '<svg viewBox="0 0 320 108" ', '"who" x="70" y="16">a<', '"who" x="250" y="16">b<', '"life" d="M70 24V104"',
        '"life" d="M250 24V104"', '"beat" x="0" y="49">3<', '"beat" x="0" y="81">5<', '"msg now" d="M70 49L247 72"',
        '"mname now" x="84" y="61">1 5<']),
    ("to the left", SHEET, [*PAIR, WEST, "poll a"], [
        '"msg now" d="M250 49L73 72"', '"mname west now" x="236" y="61">1 5<']),
    ("one that waits, to the right", SHEET, [*PAIR, EAST], ['d="M70 49h30"', '"mname now" x="110" y="53">1 5<']),
    ("to the left", SHEET, [*PAIR, WEST], ['d="M250 49h-30"', '"mname west now" x="210" y="53">1 5<']),
    ("one that vanished at 84 of 100", SHEET, [*PAIR, EAST, "kill b"], ['"msg vanished now" d="M70 49L221 68"']),
    ("one to the same task", SHEET, ["task a 4000 raw", "send a 17 1 0 5", "poll a"], [
        '"msg now" d="M70 49C120 49 120 72 73 72"']),
    ("at the last line, within the chart", SHEET, [*PAIR, EAST, SELF, "poll b", "poll b"], [
        '"msg now" d="M250 81C300 81 300 136 253 136"']),
    ("three lines", SHEET, [*THREE, EAST, "send b 17 3 0 5"], [
        '"life" d="M70 24V104"', '"life" d="M160 24V104"', '"life" d="M250 24V104"']),
]
LENSED = [
    # A letter has 7 units and a part 6 more; parts are 51 high, 2 apart, and 5 below the next row.
    ("a strip of two pages", LENS, [*put(5), "areas"], [
        '<svg viewBox="0 0 960 174" ', '"page t0" x="0" y="0" width="480" height="19"/>',
        '"pagen" x="483" y="12">&amp;9000 is page 61<', '"mark flex" x="480" y="14" width="1" height="5"/>',
        '"band" x="0" y="34">flex blocks<', '"band" x="80" y="115">C heap<']),
    ("cells", LENS, [*put(5), "areas"], [
        '"part flex t0" x="0" y="39" width="128" height="51">', '"word" x="0" y="39" width="14" height="51"/>',
        '"byte" x="14" y="57" width="22" height="33"/>', '"digits" x="25" y="69">61<', '"letter" x="25" y="84">a<',
        '"name" x="17" y="53">0 &amp;9008 5 bytes<']),
    ("a broken part", LENS, [*put(5), "areas"], [
        '"part spare" x="130" y="39" width="150" height="51">', '"told" x="133" y="68">4080 bytes<',
        '"break" d="M265 90L271 39M270 90L276 39"']),
    ("an anchor, its arrow, and the C heap", LENS, [*put(5), "areas"], [
        '"part anchor" x="0" y="120" width="70" height="51"/>', '"leads" d="M35 120C35 102 14 111 14 93"',
        '"part head" x="80" y="120" width="42" height="51">', '"part top" x="124" y="120" width="150" height="51">']),
    ("four anchors in two rows", LENS, FOUR, [
        '"part anchor" x="144" y="120" width="70" height="23"/>',
        '"part anchor" x="0" y="148" width="70" height="23"/>', '"part head" x="224" y="120" ']),
    ("two rows of parts", LENS, LONG_ROW, [
        '"part flex t0" x="0" y="95" width="960" height="51">', '"part flex t0" x="0" y="39" width="88" height="51">',
        'd="M35 176C35 158 14 167 14 149"', 'd="M107 176C107 158 14 111 14 93"']),
    ("a module area of one page", LENS, ["areas"], [
        '<svg viewBox="0 0 960 57" ', '"part head" x="0" y="3" width="42" height="51">']),
]
ALL = [*POOL, *AREAS, *CHARTS, *LENSED]


def test_each_thing_has_its_place(suite):
    """Squares, rows, cards, arrows, lines and parts stand where they should, to the unit."""
    for what, words, lines, elements in ALL:
        shown = step_shown(suite, words, lines)
        suite.is_true(f"{what}: {[it for it in elements if it not in shown]}", all(it in shown for it in elements))


def test_tints_differ(suite):
    """Six tints have a colour each in the light and in the dark, for blocks of heaps and for flex blocks."""
    sheet = step_shown(suite, SHEET, ["areas"])
    for kind in (r"^ *\.t(\d)", r"^ *\.flex\.t(\d)"):
        tints = re.findall(kind + r" { fill: (#\w{6}); }$", sheet, re.MULTILINE)
        suite.is_true(f"tints by {kind}: {tints}", [it for it, _ in tints] == [*"012345"] * 2)
        colours = [{colour for _, colour in it} for it in (tints[:6], tints[6:])]
        suite.is_true(f"colours by {kind}: {colours}", [len(it) for it in colours] == [6, 6])


def test_nothing_leaves_its_figure(suite):
    """Rectangles, ways and texts begin and end within their figure, at true scale and through a lens."""
    for what, words, lines, _ in [*ALL, *SHEETS, *LENSES]:
        faults = sheets.faults_of(step_shown(suite, words, lines).encode())
        suite.is_true(f"{what}, {' '.join(words)}: {faults[:3]}", not faults)
    for script in sorted(EXAMPLES.glob("*.desk")):
        before, files, _ = words_of(script)
        faults = sheets.faults_of(suite.run(["draw", "--lens", *before, str(script), *files])[0])
        suite.is_true(f"{script.name} through a lens: {faults[:3]}", not faults)
