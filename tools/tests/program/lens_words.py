"""What stands in the parts of lenses: what questions behind the same commands say, and the sheet at true scale."""

import html
import pathlib
import re

from examples import EXAMPLES, commands_of, replies_of, steps_of, words_of
from lenses import BOX, EDGE, LETTER, WIDTH, lenses_of

# Examples with transfers, moved anchors, long blocks and more tasks than one.
SCRIPTS = ("blocks", "eight-transfers", "sliding", "started-again", "transfer", "whole-buffers")
# Anchors of no block, the last anchor, and more than three, by commands of two tasks.
MOVED = """task a 1000
task b 1000
alloc a 63 5
put a 63 0 68656c6c6f
alloc b 2 17
free a 63
alloc a 0 700
alloc a 1 16
alloc a 2 0
alloc a 63 3
put a 63 0 01ff20
free a 0
free b 2
"""
# A part by its name: its rectangle's classes, and what stands in it.
PART = re.compile(r'<g data-key="([a-z]+)(\d*)">\n<rect class="part ([^"]*)" [^>]*>(.*?)</g>\n', re.DOTALL)
LINE = re.compile(r'<text class="(?:name|told)" x="\d+" y="(\d+)">(.*?)</text>')
HEAD = re.compile(r'<rect class="word" x="\d+" y="\d+" width="(\d+)"')
ARROW = re.compile(r'<path class="(leads[^"]*)" d="M(\d+) (\d+)C.* (\d+) (\d+)"/>')
PAGE = re.compile(r'<text class="pagen" [^>]*>&amp;([0-9A-F]+)(?: is page | page )(\d+)</text>')
# Where slots begin, the bytes of a page, those of the anchors, and those of a block that are read.
SLOT, SIZE, ANCHORS, READ = 0x8000, 4096, 256, 256
# The height of a part, the middle of an anchor, the header of a flex block, and what an arrow leaves free.
HEIGHT, MIDDLE, HEADER, BELOW = 51, 35, 14, 3
# What the mark of a broken part takes of it, and the least width of one with a line of bytes.
MARK, LEAST = 15, 84


class Part:
    """A part of a lens: its kind and number, its classes, where it stands, and its lines."""

    def __init__(self, found):
        self.kind, number, classes, self.text = found.groups()
        self.number, self.classes = int(number or 0), classes.split()
        self.x, self.y, self.width, _ = map(int, BOX.search(found[0]).groups())
        self.lines = {(int(y) - self.y) // 15: html.unescape(it) for y, it in LINE.findall(self.text)}

    def line(self, place):
        return self.lines.get(place, "")

    def room(self):
        """The units that its words may take."""
        head = HEAD.search(self.text)
        return self.width - (MARK if 'class="break"' in self.text else 0) - (int(head[1]) if head else 0)


def parts_of(lens):
    return [Part(it) for it in PART.finditer(lens)]


def described(step):
    """The figures of slots and of the module area at true scale, by their titles: each with what is read out of it."""
    figure = r"<title>(The slot of \w+|The module area)</title>\n<desc>(.*?)</desc>(.*?)</svg>"
    figures = re.findall(figure, step, re.DOTALL)
    return {title: (html.unescape(told), figure) for title, told, figure in figures}


def fitting(room, *texts):
    """The first of some texts that has room."""
    return next((it for it in texts if LETTER * len(it) + EDGE <= room), "")


def sizes_of(size):
    return f"{size} byte{'s' * (size != 1)}", f"{size} B", f"{size}"


def is_cut(text, whole):
    """Whether a text is a front of another one, with two dots behind it."""
    return text.endswith("..") and whole.startswith(text[:-2])


def tells(line, content, size, room):
    """Whether a line of bytes is what it should be of a block of this size that begins with these bytes."""
    front = content[:READ]
    text = front.split(b"\0")[0]
    if not any(front) and size <= READ:
        return line == fitting(room, "all bytes 0", "all 0", "0")
    if text and all(32 <= it < 127 for it in text) and not any(front[len(text):]):
        return line == fitting(room, f'"{text.decode()}"') or is_cut(line[:-1], f'"{text.decode()}"')
    return line == fitting(room, front.hex(" ")) or is_cut(line.replace(" ..", ".."), front.hex(" "))


def is_told(part, content, size):
    """Whether the first bytes of a block of this size stand in its part: in cells, in its third line, or nowhere if that
    is narrow."""
    if 'class="byte"' in part.text:
        digits = "".join(re.findall(r'<text class="digits" [^>]*>(..)</text>', part.text))
        letters = re.findall(r'<text class="letter" [^>]*>(.*?)</text>', part.text)
        signs = [chr(it) if 32 < it < 127 else "." for it in content]
        return digits == content.hex() and [html.unescape(it) for it in letters] == signs
    if part.width < LEAST or not content:
        return not part.line(2)
    return tells(part.line(2), content, size, part.room())


# ---- what the questions say


class Task:
    """What questions say of a task: its blocks, the segments and the end of its heap, and the bytes of each."""

    def __init__(self, blocks, heap):
        is_there = blocks[0].startswith("ok") and heap[0].startswith("ok")
        blocks, segments = (map(str.split, it[1:] if is_there else []) for it in (blocks, heap))
        self.blocks = [(int(anchor), int(at[1:], 16), int(size)) for anchor, at, size in blocks]
        self.segments = [(kind, int(at[1:], 16), int(size)) for kind, at, size in segments]
        self.end = int(heap[0].split()[1]) if is_there else 0
        self.bytes = {}

    def anchors(self):
        return {anchor: at for anchor, at, _ in self.blocks}

    def reads(self, name):
        """Questions for the bytes of all blocks."""
        shows = [(at, f"show {name} {anchor}") for anchor, at, size in self.blocks]
        used = [(at, size) for kind, at, size in self.segments if kind == "used" and size]
        return shows + [(at, f"read {name} &{at:X} {min(size, READ)}") for at, size in used]


def answered(suite, script, questions):
    """The replies to some questions behind each command of an example."""
    before, files, _ = words_of(script)
    asked = [[command, *behind] for command, behind in zip(commands_of(script), questions)]
    text = "".join(f"{it}\n" for them in asked for it in them).encode()
    replies = iter(replies_of(suite.run(["run", *before, "-", *files], stdin=text)[0]))
    return [[next(replies) for _ in them][1:] for them in asked]


def tasks_behind(suite, script, names):
    """What is known of the tasks of these names behind each command of an example."""
    steps = len(commands_of(script))
    first = answered(suite, script, [[f"{it} {name}" for name in names for it in ("blocks", "heap")]] * steps)
    tasks = [{name: Task(*replies[2 * i :][:2]) for i, name in enumerate(names)} for replies in first]
    reads = [[it for name in names for it in them[name].reads(name)] for them in tasks]
    behind = answered(suite, script, [[question for _, question in them] for them in reads])
    for them, asked, replies in zip(tasks, reads, behind):
        for (at, question), reply in zip(asked, replies):
            them[question.split()[1]].bytes[at] = bytes.fromhex((reply[0].split() + ["", ""])[2])
    return tasks


# ---- what a lens shows otherwise


def anchor_faults(parts, now, before):
    """Anchors that aren't shown as they are now, and were before the command."""
    moved = {it for it in {*now, *before} if now.get(it) != before.get(it)}
    shown = {it.number: it for it in parts if it.kind == "anchor"}
    if sorted(shown) != sorted({*now, *moved}):
        yield "anchors"
        return
    for number, part in shown.items():
        held = f"&{now[number]:X}" if number in now else "0"
        lines = [f"{number} {held}", ""] if len(shown) > 3 else [f"anchor {number}", held]
        if [part.line(0), part.line(1)] != lines:
            yield f"anchor {number}"
        if part.classes != ["anchor"] + ["none"] * (number not in now) + ["fresh"] * (number in moved):
            yield f"the look of anchor {number}"


def arrow_faults(lens, parts, now):
    """Arrows that don't lead from the middle of their anchor to the first byte of its block."""
    anchors = [it for it in parts if it.kind == "anchor"]
    blocks = {it.number: it for it in parts if it.kind == "flex"}
    wanted = []
    for part in anchors:
        block = blocks.get(part.number)
        if block and (len(anchors) <= 3 or "fresh" in part.classes):
            fresh = " fresh" * ("fresh" in part.classes)
            wanted.append((f"leads{fresh}", part.x + MIDDLE, part.y, block.x + HEADER, block.y + HEIGHT + BELOW))
    if [(it[0], *map(int, it[1:])) for it in ARROW.findall(lens)] != wanted or set(blocks) != set(now):
        yield "arrows"


def width_of(part, size, row, use):
    """How wide a part of a block or a hole of so many bytes is in a row, and whether it is drawn broken."""
    least = {"flex": 88, "used": 96 if use else 48, "hole": 48}[part.kind]
    whole = {"flex": 8 + -(-size // 4) * 4, "used": 4 + size, "hole": size}[part.kind]
    most = row if size <= 512 else row // 2
    if 'class="byte"' in part.text:
        return max(least, (14 if part.kind == "flex" else 5) + 22 * size + 4), False
    return (min(170, most), True) if 2 * whole > most else (max(least, 2 * whole), False)


def width_faults(parts, task, uses):
    """Parts that aren't as wide as they should be: 16 units for 8 bytes, where these have room."""
    found = {(it.kind, it.number): it for it in parts}
    anchors = max(1, sum(it.kind == "anchor" for it in parts))
    beside = WIDTH - 72 * min(3, anchors) - 8
    blocks = [(("flex", anchor), at, size, WIDTH) for anchor, at, size in task.blocks]
    segments = [((kind, at - 4 * (kind == "used")), at, size, beside) for kind, at, size in task.segments]
    for key, at, size, row in blocks + segments:
        part = found[key]
        if (part.width, 'class="break"' in part.text) != width_of(part, size, row, at in uses):
            yield f"the width of {key[0]} &{at:X}"


def look_faults(parts, figure):
    """Parts that are marked as changed otherwise than in the figure at true scale."""
    tips = re.findall(r'class="([^"]*)"[^>]*><title>(.*?)</title>', figure)
    fresh = {tip for classes, tip in tips if "fresh" in classes.split()}
    for part in parts:
        tip = re.search(r"<title>(.*?)</title>", part.text)
        if tip and ("fresh" in part.classes) != (tip[1] in fresh):
            yield f"the look of {part.kind} {part.number}"


def mark_faults(lens, task, pages):
    """Marks in the strip of pages that don't stand where their blocks and holes lie."""
    begins = [(kind, at - 4 * (kind == "used")) for kind, at, _ in task.segments]
    begins += [("flex", at - 8) for _, at, _ in task.blocks]
    wanted = [(kind, WIDTH * (at - SLOT) // (SIZE * pages)) for kind, at in begins]
    marks = re.findall(r'<rect class="mark (used|hole|flex)" x="(\d+)" y="14"', lens)
    if [(kind, int(x)) for kind, x in marks] != wanted:
        yield "the strip"


def block_faults(parts, task, uses):
    """Parts of blocks whose lines aren't what they should be."""
    found = {(it.kind, it.number): it for it in parts}
    for anchor, at, size in task.blocks:
        part = found["flex", anchor]
        place = f"{anchor} &{at:X}"
        long, middle, _ = sizes_of(size)
        names = [f"{place} {long}{uses.get(at, '')}", f"{place} {long}", f"{place} {middle}", place, f"{anchor}"]
        name = fitting(part.room(), *names)
        size_line = "" if 'class="byte"' in part.text else fitting(part.room(), *sizes_of(size))
        if [part.line(0), part.line(1)] != [name, size_line] or not is_told(part, task.bytes[at], size):
            yield f"block {anchor}"
    for kind, at, size in task.segments:
        part = found[kind, at - 4 * (kind == "used")]
        name = f"&{at:X}" if kind == "used" else "hole"
        used = [f"buffer {name}"] if at in uses and kind == "used" else []
        size_line = "" if 'class="byte"' in part.text else fitting(part.room(), *sizes_of(size))
        if [part.line(0), part.line(1)] != [fitting(part.room(), *used, name), size_line]:
            yield f"{kind} &{at:X}"
        if kind == "used" and not is_told(part, task.bytes.get(at, b""), size):
            yield f"the bytes of &{at:X}"


def page_faults(lens, told, figure, start):
    """Pages and a tint that aren't those of the figure at true scale."""
    pages = re.search(r"Page ([\d ]+)\.", told)[1].split()
    shown = PAGE.findall(lens)
    if shown and shown != [(f"{start + SIZE * i:X}", it) for i, it in enumerate(pages)]:
        yield "pages"
    tint = re.search(r'<rect class="chip (\w+)"', figure)[1]
    tinted = set(re.findall(r'<rect class="(?:page|part (?:used|flex)) (\w+)', lens))
    if not tinted <= {tint}:
        yield "tint"


def rest_faults(parts, task, pages):
    """What is free on top of the C heap, or unused behind the blocks, that isn't told so."""
    sizes = {it.kind: it.line(1).split(" ")[0] for it in parts if it.kind in ("top", "unused")}
    top = max([ANCHORS + 16] + [at - SLOT + size for _, at, size in task.segments])
    behind = ANCHORS + task.end + sum(8 + -(-size // 4) * 4 for _, _, size in task.blocks)
    wanted = {"top": ANCHORS + task.end - top, "unused": SIZE * pages - behind}
    if sizes != {kind: str(size) for kind, size in wanted.items() if size}:
        yield "what is free"


def slot_faults(lens, task, before, told, figure):
    """What the lens of a slot shows otherwise than it should."""
    parts = parts_of(lens)
    uses = {int(at, 16): use for at, use in re.findall(r"&([0-9A-F]+), \d+ bytes?(, (?:in|out) \d+)", told)}
    pages = len(re.search(r"Page ([\d ]+)\.", told)[1].split())
    names = {(it.kind, it.number) for it in parts}
    if not names >= {("flex", it) for it, _, _ in task.blocks} | {
            (kind, at - 4 * (kind == "used")) for kind, at, _ in task.segments}:
        yield "which blocks"
        return
    yield from anchor_faults(parts, task.anchors(), before.anchors() if before else {})
    yield from arrow_faults(lens, parts, task.anchors())
    yield from block_faults(parts, task, uses)
    yield from width_faults(parts, task, uses)
    yield from look_faults(parts, figure)
    yield from mark_faults(lens, task, pages)
    yield from page_faults(lens, told, figure, SLOT)
    yield from rest_faults(parts, task, pages)
    if reads_out(lens) != tips_of(lens):
        yield "what is read out"


def tips_of(lens):
    """What is told of the parts of a lens, from below."""
    tips = re.findall(r"<title>([^<]*)</title></rect>", lens)
    places = {it: int(re.search(r"&amp;([0-9A-F]+)", it)[1], 16) for it in tips}
    return sorted(tips, key=places.get)


def reads_out(lens):
    """The sentences of a lens."""
    return re.search(r"<desc>(.*?)</desc>", lens)[1].split(". ")[:-1]


def message_faults(lens, told):
    """Messages of the module area that aren't told as the figure at true scale tells them."""
    listed = re.findall(r"(\d+) (\w+), ((?:\w+|task \d+|back) to [\w ]+), (\d+), ", told)
    wanted = {int(ref): [f"{ref} {action}", way, f"code {code}"] for ref, action, way, code in listed}
    parts = {it.number: it for it in parts_of(lens) if it.kind == "message"}
    if any([parts[ref].line(i) for i in range(3)] != lines for ref, lines in wanted.items() if ref in parts):
        yield "messages"
    if not set(wanted) <= set(parts):
        yield "which messages"


def step_faults(step, plain, tasks, before):
    """What the lenses of a step show otherwise than the questions say, and the sheet at true scale."""
    lenses, figures = lenses_of(step), described(plain)
    if list(lenses) != list(figures):
        yield "which lenses"
        return
    if set(re.findall(r'<svg viewBox="0 0 (\d+) \d+" role="img">\n<title>The (?:slot|module)', step)) - {str(WIDTH)}:
        yield "their width"
    for title, lens in lenses.items():
        told, figure = figures[title]
        name = title.split()[-1]
        if title == "The module area":
            yield from message_faults(lens, told)
            yield from page_faults(lens, told, figure, 0x1800000)
        else:
            faults = slot_faults(lens, tasks[name], before.get(name), told, figure)
            yield from (f"{it} of {name}" for it in faults)


def test_words_of_lenses(suite):
    """Anchors, arrows, blocks, pages and messages of lenses are as questions and the sheet at true scale say."""
    moved = pathlib.Path("moved.desk")
    moved.write_text(MOVED)
    for script in [*(EXAMPLES / f"{it}.desk" for it in SCRIPTS), moved]:
        before, files, _ = words_of(script)
        names = sorted({it.split()[1] for it in commands_of(script) if it.split()[0] == "task"})
        tasks = tasks_behind(suite, script, names)
        words = [*before, str(script), *files]
        lenses, plain = (steps_of(suite.run(["draw", *lens, *words])[0]) for lens in (["--lens"], []))
        steps = enumerate(zip(lenses, plain, tasks, [{}, *tasks]), 1)
        faults = [f"step {number}: {it}" for number, them in steps for it in step_faults(*them)]
        suite.is_true(f"the words of lenses of {script.stem}: {faults[:5]}", not faults)
