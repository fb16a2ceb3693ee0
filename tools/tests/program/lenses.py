"""Lenses: what questions behind the same commands list, in parts that lie apart and have room for their words."""

import html
import re

from examples import EXAMPLES, commands_of, replies_of, steps_of, words_of
from figures import drawn_blocks
from pages import is_xml, page_of

# The units of a letter, what a text has besides, and those of a lens.
LETTER, EDGE, WIDTH = 7, 6, 960
# What is drawn of an area.
AREAS = r"<svg [^>]*>\n<title>(?:The slot of \w+|The module area)</title>.*?</svg>\n"
# So many anchors of a task are asked for.
ANCHORS = 10
# A part by its name, and what stands in it.
PART = re.compile(r'<g data-key="(\w+)">\n(.*?)</g>\n', re.DOTALL)
BOX = re.compile(r'<rect class="part [^"]*" x="(\d+)" y="(\d+)" width="(\d+)" height="(\d+)"')
WORDS = re.compile(r'<text class="(?:name|told)" x="(\d+)" y="\d+">(.*?)</text>')
DIGITS = re.compile(r'<text class="digits" [^>]*>(..)</text>')


def lenses_of(step):
    """The lenses of a step of a sheet, by their titles."""
    figures = re.findall(r"<svg [^>]*>\n<title>(The slot of \w+|The module area)</title>(.*?)</svg>", step, re.DOTALL)
    return {title: figure for title, figure in figures if "data-key" in figure}


def parts_of(lens):
    """The parts of a lens: the name of each, its left and upper edge, its width, and its text."""
    for key, text in PART.findall(lens):
        x, y, width, _ = map(int, BOX.search(text).groups())
        yield key, x, y, width, text


def lie_apart(parts):
    """Whether no two parts of a row lie over each other, and each ends within the lens."""
    rows = {}
    for _, x, y, width, _ in parts:
        rows.setdefault(y, []).append((x, x + width))
    ends = [(WIDTH, WIDTH)]
    return all(last <= first for row in rows.values()
               for (_, last), (first, _) in zip(sorted(row), [*sorted(row)[1:], *ends]))


def have_room(parts):
    """Whether each text of a part ends within it."""
    return all(int(at) - 3 + LETTER * len(html.unescape(words)) + EDGE <= x + width
               for _, x, _, width, text in parts for at, words in WORDS.findall(text))


def cells_of(parts):
    """The bytes of the flex blocks that have a cell for each, by their anchors."""
    return {int(key[4:]): "".join(DIGITS.findall(text)) for key, *_, text in parts
            if key.startswith("flex") and 'class="byte"' in text}


def shown_bytes(reply):
    """The bytes that `show` answers with."""
    return (reply[0].split() + ["", ""])[2]


def lens_faults(lens, blocks, heap, shown):
    """What a slot's lens shows otherwise than the questions behind its command say: what a task has, and the bytes at
    its first anchors."""
    parts = list(parts_of(lens))
    if sorted(drawn_blocks(lens)) != sorted(blocks[1:] + heap[1:]):
        yield "blocks"
    if len({key for key, *_ in parts}) != len(parts):
        yield "names of parts"
    if any(digits != shown_bytes(shown[anchor]) for anchor, digits in cells_of(parts).items() if anchor < len(shown)):
        yield "cells"


def is_laid_out(step):
    """Whether the parts of all lenses of a step lie apart, and have room for their words."""
    lenses = [list(parts_of(lens)) for lens in lenses_of(step).values()]
    return all(lie_apart(parts) and have_room(parts) for parts in lenses)


def without_areas(sheet):
    """A sheet without what is drawn of slots and of the module area."""
    return re.sub(AREAS, "", sheet.decode(), flags=re.DOTALL)


def test_lenses(suite):
    """With `--lens` a sheet is what it is without, but for slots and the module area; their parts lie apart."""
    for script in sorted(EXAMPLES.glob("*.desk")):
        before, files, status = words_of(script)
        words = [*before, str(script), *files]
        output, _ = page_of(suite, f"{script.name} through a lens", ["draw", "--lens", *words], status)
        plain = suite.run(["draw", *words])[0]
        suite.is_true(f"{script.name} through a lens: XML", is_xml(output))
        suite.is_true(f"{script.name}: all but areas", without_areas(output) == without_areas(plain))
        suite.is_true(f"{script.name}: parts apart", all(map(is_laid_out, steps_of(output))))


def test_blocks_of_lenses(suite):
    """Lenses show the blocks, holes and bytes that questions behind the same commands list."""
    for script in sorted(EXAMPLES.glob("*.desk")):
        before, files, _ = words_of(script)
        commands = commands_of(script)
        names = sorted({it.split()[1] for it in commands if it.split()[0] == "task"})
        asked = "".join(f"{it}\n" for command in commands for it in [command, *questions_of(names)]).encode()
        replies = replies_of(suite.run(["run", *before, "-", *files], stdin=asked)[0])
        steps = steps_of(suite.run(["draw", "--lens", *before, str(script), *files])[0])
        every = len(questions_of(names)) + 1
        faults = [f"step {number + 1}: {fault}" for number, step in enumerate(steps)
                  for fault in step_faults(step, names, replies[number * every + 1 : (number + 1) * every])]
        suite.is_true(f"lenses of {script.name}: {faults}", not faults and len(replies) == every * len(commands))


def questions_of(names):
    """What is asked behind each command: of each task its blocks, its heap, and the bytes at its first anchors."""
    return [f"{verb} {name}" for name in names for verb in ("blocks", "heap")] + [
        f"show {name} {anchor}" for name in names for anchor in range(ANCHORS)]


def step_faults(step, names, replies):
    """What the lenses of a step show otherwise than these replies say."""
    lenses = lenses_of(step)
    for place, name in enumerate(names):
        lens = lenses.get(f"The slot of {name}")
        shown = replies[2 * len(names) + ANCHORS * place :][:ANCHORS]
        if lens:
            yield from (f"{fault} of {name}" for fault in lens_faults(lens, *replies[2 * place :][:2], shown))
