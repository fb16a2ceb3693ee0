"""How much of a desk pictures show: of each number a step in which it just holds, and one in which it doesn't."""

import re

MAP, SHEET, LENS = ["map", "--marked"], ["draw", "--marked"], ["draw", "--marked", "--lens"]
# A task with code of its own, the same beside another, and the longest names of tasks.
RAW, BOTH = ["task a 4000 raw"], ["task a 4000 raw", "task b 4000"]
LONG, LAST = "abcdefghijkl", "mnopqrstuvwx"


def put(size, byte="61", anchor=0):
    """A flex block of so many bytes, all written at once."""
    return ["task a 4000", f"alloc a {anchor} {size}", f"put a {anchor} 0 {byte * size}"]


def written(size):
    """A block of the C heap, of which so many bytes are written."""
    return [*RAW, "claim a 40", f"write a &8114 {'61' * size}"]


def alloc(anchor, size):
    """A flex block of so many bytes, which has 8 more of its slot."""
    return ["task a 4000", f"alloc a {anchor} {size}"]


def claims(*sizes):
    """Blocks of a task's C heap of so many bytes with their words, behind 256 bytes of anchors and 16 of the heap."""
    return ["task a 4000", *(f"claim a {it - 4}" for it in sizes)]


def modules(*sizes):
    """The same in the module area, behind 16 bytes of its heap."""
    return [f"rma claim {it - 4}" for it in sizes]


def holes(size):
    """A hole of so many bytes in the module area."""
    return [*modules(size, 8), "rma free &1800014"]


def sends(count, code, to):
    """So many messages to a task, with actions from 100 on."""
    return [f"send a {code} {to} 0 {100 + it}" for it in range(count)]


def told(first, last):
    """A message from one task to another one."""
    return [f"task {first} 4000 raw", f"task {last} 4000 raw", f"send {first} 17 2 0 5"]


def asked_of(count):
    """So many tasks, of which one claims a block."""
    return [*(f"task t{it} 100" for it in range(count)), "claim t1 4"]


def filled(size):
    """A transfer's buffer of so many bytes, which is filled from a longer block."""
    return [*put(40), f"task b {size}", "save a 0 b doc", "poll b", "poll a"]


def numbered(number):
    """A made area with this number, which gets a page."""
    others = [line for it in range(256, number) for line in ("make 1", f"remove {it}")]
    return [*others, "make 1", f"area {number} 4096"]


def wide(kind, units, tip=""):
    """A part of a lens of some classes, as wide as this, of which so is told."""
    return f'class="part {kind}[^"]*" [^>]*width="{units}" [^>]*><title>{tip}'


# What is shown at the last line of a script: by which words, of which lines, and how often each of some texts stands
# there. First a number that just holds, and behind it one more.
LINES = [
    ("a map's line of 79 bytes", MAP, [f"#{'a' * 78}\nareas"], {r"^#a{78}$": 1}),
    ("one of 80", MAP, [f"#{'a' * 79}\nareas"], {r"^#a{76}\.\.$": 1}),
    ("a sheet's command of 92 bytes", SHEET, put(41), {r"<code>put a 0 0 (61){41}</code>": 1}),
    ("one of 93", SHEET, [*alloc(0, 41), f"put  a 0 0 {'61' * 41}"], {r"<code>put  a 0 0 (61){39}6\.\.</code>": 1}),
    ("14 lines of a reply", MAP, [*claims(*[8] * 13), "heap a"], {r"^  used &": 13, "lines more": 0}),
    ("15 on a map", MAP, [*claims(*[8] * 14), "heap a"], {r"^  used &": 13, r"^  and 1 lines more$": 1}),
    ("15 on a sheet", SHEET, [*claims(*[8] * 14), "heap a"], {r"^  used &": 13, r"^  and 1 lines more</pre>$": 1}),
    ("a map's reply of 76 bytes", MAP, [*put(35), "show a 0"], {r"^ok 35 (61){35}$": 1}),
    ("one of 78", MAP, [*put(36), "show a 0"], {r"^ok 36 (61){34}\.\.$": 1}),
    ("a sheet's reply of 76 bytes", SHEET, [*put(35), "show a 0"], {r"<pre>ok 35 (61){35}</pre>": 1}),
    ("one of 78", SHEET, [*put(36), "show a 0"], {r"<pre>ok 36 (61){34}\.\.</pre>": 1}),
]
WORDS = [
    ("24 bytes of a text that is put", MAP, put(24), {r'from offset 0: "a{24}"$': 1}),
    ("25", MAP, put(25), {r"25 bytes into flex block 0 from offset 0$": 1}),
    ("24 bytes that are written", MAP, written(24), {r'to &8114 of a: "a{24}"$': 1}),
    ("25", MAP, written(25), {r"25 bytes to &8114 of a$": 1}),
    ("bytes 32 and 126 of a text", MAP, [*alloc(0, 2), "put a 0 0 207e"], {r': " ~"$': 1}),
    ("byte 31", MAP, put(1, "1f"), {r"offset 0$": 1}),
    ("byte 127", MAP, put(1, "7f"), {r"offset 0$": 1}),
    ("12 pages", MAP, ["area 3 49152"], {r"^  Sprites takes page( \d+){12}$": 1}),
    ("13", MAP, ["area 3 53248"], {r"^  Sprites takes page( \d+){12} and 1 more$": 1}),
    ("12 messages that wait", SHEET, [*RAW, *sends(12, 17, 1)], {r"<td>1 100(, \d+ \d+){11}</td>": 1}),
    ("13", SHEET, [*RAW, *sends(13, 17, 1)], {r"<td>1 100(, \d+ \d+){11} and 1 more</td>": 1}),
    ("3 messages that bounce", MAP, [*BOTH, *sends(3, 18, 2), "kill b"], {r" bounces: it goes back to a with": 3}),
    ("4", MAP, [*BOTH, *sends(4, 18, 2), "kill b"], {r"^  4 messages bounce: they go back": 1, " bounces": 0}),
    ("3 that vanish", MAP, [*BOTH, *sends(3, 17, 2), "kill b"], {r" vanishes with b: it wants no answer$": 3}),
    ("4", MAP, [*BOTH, *sends(4, 17, 2), "kill b"], {r"^  4 messages vanish: nobody is there": 1, " vanishes": 0}),
    ("7 bytes on a card", MAP, put(7), {r"7 bytes, (61){7}$": 1}),
    ("8", MAP, put(8), {r"8 bytes, (61){7}\.\.$": 1}),
    ("17 letters on a sheet's card", SHEET, told(LONG, "b"), {r'class="line"[^>]*>abcdefghijkl to b<': 1}),
    ("18", SHEET, told(LONG, "bc"), {r'class="line"[^>]*>abcdefghijkl to\.\.<': 1}),
]
PARTS = [
    ("64 pages in a map's row", [*MAP, "--pages", "64"], ["areas"], {r"^ {12}0 \|": 1, r"^ {11}64 \|": 0}),
    ("65", [*MAP, "--pages", "65"], ["areas"], {r"^ {12}0 \|": 1, r"^ {11}64 \|1$": 1}),
    ("blocks 48 bytes apart, in 64 bytes and behind", MAP, claims(48, 8), {r"\|::::##\.": 1}),
    ("40 bytes apart, both in 64", MAP, claims(40, 8), {r"\|::::\+\.": 1}),
    ("17 pages of an area", MAP, modules(17 * 4096 - 16), {r"^ *&18": 17, "between": 0}),
    ("18", MAP, modules(18 * 4096 - 16), {r"^ *&18": 16, r"^ *&180[89]": 0, r"^ {14}\|2 pages between$": 1}),
    ("17 on a sheet", SHEET, modules(17 * 4096 - 16), {'class="row" x="150"': 17, "s between<": 0}),
    ("18", SHEET, modules(18 * 4096 - 16), {'class="row" x="150"': 16, ">2 pages between<": 1, ">&amp;180[89]0": 0}),
    ("512 segments", MAP, modules(*[8] * 511, 208), {r"\|\+###\.": 1, "%": 0}),
    ("513", MAP, modules(*[8] * 512, 208), {r"\|\+%%%\.": 1}),
    ("512 on a sheet", SHEET, modules(*[8] * 511, 208), {'class="many" x="150"': 0, "<title>1 more<": 0}),
    ("513", SHEET, modules(*[8] * 512, 208), {"<title>1 more<": 1}),
    ("8 slots", MAP, asked_of(8), {r"^   &8000 ": 8}),
    ("9", MAP, asked_of(9), {r"^   &8000 ": 1}),
    ("8 on a sheet", SHEET, asked_of(8), {"<title>The slot of ": 8}),
    ("9", SHEET, asked_of(9), {"<title>The slot of t1<": 1, "<title>The slot of ": 1}),
    ("24 cards", MAP, [*modules(*[8] * 24), "areas"], {r"^    used ": 24, "more": 0}),
    ("25", MAP, [*modules(*[8] * 25), "areas"], {r"^    used ": 22, r"^    3 more$": 1}),
    ("25, the last one new", MAP, modules(*[8] * 25), {r"^    used ": 22, r"^  \* used ": 1, r"^    2 more$": 1}),
    ("24 on a sheet", SHEET, [*modules(*[8] * 24), "areas"], {'class="card used"': 24, 'class="card more"': 0}),
    ("25", SHEET, [*modules(*[8] * 25), "areas"], {'class="card used"': 22, ">3 more</text>": 1}),
]
SHEETS = [
    ("200 steps", ["draw"], ["areas"] * 200, {"<section ": 200, "not drawn": 0}),
    ("201", ["draw"], ["areas"] * 201, {"<section ": 200, "Commands not drawn: 1\\.": 1}),
    ("10 messages in a chart", SHEET, [*RAW, *sends(10, 17, 1)], {'class="mname': 10, 'class="mname[^>]*>1 100<': 1}),
    ("11", SHEET, [*RAW, *sends(11, 17, 1)], {'class="mname': 10, 'class="mname[^>]*>1 100<': 0}),
    ("6 tints", SHEET, asked_of(6), {f'class="cell t{it}"': 1 for it in range(6)}),
    ("the seventh is the first again", SHEET, asked_of(7), {'class="cell t0"': 2, 'class="cell t[1-5]"': 5}),
    ("a tag of 3 letters", SHEET, ["task abc 100"], {'class="tag"[^>]*>abc<': 1}),
    ("of 4", SHEET, ["task abcd 100"], {'class="tag"[^>]*>abc<': 1}),
    ("of 3 digits", SHEET, numbered(999), {'class="tag"[^>]*>999<': 1}),
    ("of 4", SHEET, numbered(1001), {'class="tag"[^>]*>001<': 1}),
    ("88 units for 8 letters", SHEET, alloc(0, 344), {'class="lab flex"[^>]*>anchor 0<': 1}),
    ("87", SHEET, alloc(0, 340), {'class="lab flex"[^>]*>0<': 1}),
    ("98 units for 9 letters", SHEET, alloc(10, 384), {'class="lab flex"[^>]*>anchor 10<': 1}),
    ("97", SHEET, alloc(10, 380), {'class="lab flex"[^>]*>10<': 1}),
    ("14 units for a digit", SHEET, alloc(0, 48), {'class="lab flex"[^>]*>0<': 1}),
    ("13", SHEET, alloc(0, 44), {'class="lab flex"': 0}),
    ("90 units for a name of 10 letters or 11", SHEET,
     ["task abcdefghij 100 raw", "task abcdefghijk 100 raw", "task c 100", "send abcdefghij 17 3 0 5",
      "send abcdefghijk 17 3 0 5"], {'class="who"[^>]*>abcdefghij<': 2}),
]
LENSES = [
    ("cells of 16 bytes", LENS, put(16), {'class="byte"': 16}),
    ("17", LENS, put(17), {'class="byte"': 0, ">&quot;a+(\\.\\.)?&quot;<": 1}),
    ("cells of a buffer of 12 bytes", LENS, filled(12), {'class="byte"': 12}),
    ("of 20", LENS, filled(20), {'class="byte"': 0, wide("used t1", 96): 1}),
    ("480 bytes, 960 units", LENS, alloc(0, 472), {wide("flex", 960): 1}),
    ("484 bytes, 968 units", LENS, alloc(0, 473), {wide("flex", 170): 1}),
    ("a block of 508 bytes in its row", LENS, modules(512), {wide("used m", 512): 1}),
    ("of 516 in half of it", LENS, modules(520), {wide("used m", 170): 1}),
    ("a hole of 512 bytes in its row", LENS, holes(512), {wide("hole", 512): 1}),
    ("of 520 in half of it", LENS, holes(520), {wide("hole", 170): 1}),
    ("256 bytes are read", LENS, put(256, "00"), {">all bytes 0<": 1}),
    ("not 257", LENS, put(257, "00"), {">all bytes 0<": 0, r">00( 00){22} \.\.<": 1}),
    ("3 anchors", LENS, [*put(1), "alloc a 1 1", "alloc a 2 1"], {'class="part anchor[^>]*height="51"': 3}),
    ("4", LENS, [*put(1), "alloc a 1 1", "alloc a 2 1", "alloc a 3 1"], {'class="part anchor[^>]*height="23"': 4}),
    ("a line for bytes in 96 units", LENS, claims(48), {wide("used t0", 96): 1, ">all bytes 0<": 1}),
    ("none in 80", LENS, claims(40), {wide("used t0", 80): 1, ">all bytes 0<": 0}),
    ("a message as wide as its longest line", LENS, told(LONG, LAST), {
        f">{LONG} to {LAST}<": 1, wide("used m", 207): 1}),
    ("a message of short lines", LENS, told("a", "b"), {wide("used m", 112): 1}),
    ("a flex block of short lines", LENS, alloc(0, 0), {wide("flex", 88): 1}),
    ("a heap's block of short lines", LENS, claims(16), {wide("used t0", 48): 1}),
    ("a buffer of short lines", LENS, filled(12)[:-1], {wide("used t1", 96): 1}),
    ("48 bytes on top", LENS, claims(3776), {wide("top", 106, "free, &amp;8F"): 1}),
    ("56", LENS, claims(3768), {wide("top", 112, "free, &amp;8F"): 1}),
    ("72", LENS, claims(3752), {wide("top", 144, "free, &amp;8F"): 1, 'class="break"': 2}),
    ("80, which are cut", LENS, claims(3744), {wide("top", 150, "free, &amp;8F"): 1, 'class="break"': 3}),
]


def step_shown(suite, words, lines):
    """What is written of the last line of a script."""
    script = "\n".join([*lines[:-1], "#picture", lines[-1], ""])
    return suite.run([*words, "-"], stdin=script.encode())[0].decode()


def faults_of(shown, counts):
    """The texts that stand in a step more or less often than they should."""
    found = {it: len(re.findall(it, shown, re.MULTILINE)) for it in counts}
    return [f"{text}: {found[text]} times" for text, count in counts.items() if found[text] != count]


def test_each_number_just_holds(suite):
    """What is shown up to a number of things is shown of just so many, and no longer of one more."""
    for what, words, lines, counts in [*LINES, *WORDS, *PARTS, *SHEETS, *LENSES]:
        faults = faults_of(step_shown(suite, words, lines), counts)
        suite.is_true(f"{what}: {faults}", not faults)
