"""Figures of sheets: what questions behind the same commands list, each to scale."""

import re

from examples import EXAMPLES, commands_of, replies_of, steps_of, words_of

# Where the rows of a sheet begin, the bytes of a unit of their width, and those of a page.
LEFT, UNIT, PAGE = 150, 4, 4096


def drawn_blocks(figure):
    """The blocks and holes that a figure of a slot shows, each with its address and size as a question lists it."""
    tips = re.findall(r"<title>(?:flex block (\d+),|(used|hole)) &amp;([0-9A-F]+), (\d+) bytes?</title>", figure)
    listed = [f"{anchor or kind} &{address} {size}" for anchor, kind, address, size in tips]
    return list(dict.fromkeys(listed))


def is_to_scale(figure):
    """Whether each block of a slot's figure begins where its address says, and is as wide as its size says."""
    widths, begins = {}, {}
    part = r'<rect [^>]* x="(\d+)" [^>]* width="(\d+)" [^>]*><title>(flex|used|hole)([^<]*)</title>'
    for x, width, kind, rest in re.findall(part, figure):
        begins.setdefault((kind, rest), int(x))
        widths[kind, rest] = widths.get((kind, rest), 0) + int(width)
    return all(begins[it] == place_of(*it) and widths[it] == units_of(*it) for it in begins)


def before_block(kind):
    """The bytes that a block's own header has before its address."""
    return {"flex": 8, "used": 4, "hole": 0}[kind]


def place_of(kind, tip):
    """How far from the left a thing of a slot begins, by its address."""
    address = int(re.search(r"&amp;([0-9A-F]+)", tip).group(1), 16)
    return LEFT + (address - before_block(kind)) % PAGE // UNIT


def units_of(kind, tip):
    """How wide a thing of a slot is, by its size."""
    size = int(re.search(r"(\d+) bytes?$", tip).group(1))
    return before_block(kind) // UNIT + -(-size // UNIT)


def pages_drawn(step):
    """How many pages of the pool each owner has in a figure."""
    pages = {}
    for squares, owner in re.findall(r'<path class="cell [^"]*" d="([^"]*)"><title>(.*?)(?: takes|:) page ', step):
        pages[owner] = pages.get(owner, 0) + squares.count("z")
    return pages


def pages_listed(reply):
    """The same as `areas` lists it."""
    fixed = ["System heap", "Module area", "Screen", "Sprites", "Fonts", "RAM disc"]
    pages = {}
    for kind, name, count in (it.split() for it in reply[1:]):
        owner = f"Slot {name}" if kind == "slot" else fixed[int(name)] if int(name) < len(fixed) else f"Area {name}"
        pages[owner] = int(count)
    return {owner: count for owner, count in pages.items() if count}


def step_faults(step, names, asked):
    """What a figure shows otherwise than the questions behind its command say: `areas`, then of each task two."""
    if pages_drawn(step) != pages_listed(asked[0]):
        yield "the pool"
    slots = dict(re.findall(r"<title>The slot of (\w+)</title>(.*?)</svg>", step, re.DOTALL))
    for name, blocks, heap in zip(names, asked[1::2], asked[2::2]):
        if name in slots and sorted(drawn_blocks(slots[name])) != sorted(blocks[1:] + heap[1:]):
            yield f"the slot of {name}"
        if name in slots and not is_to_scale(slots[name]):
            yield f"the scale of {name}"


def test_figures(suite):
    """Figures show the pages, blocks and holes that questions behind the same commands list, each to scale."""
    for script in sorted(EXAMPLES.glob("*.desk")):
        before, files, _ = words_of(script)
        commands = commands_of(script)
        names = sorted({it.split()[1] for it in commands if it.split()[0] == "task"})
        asking = ["areas", *(f"{verb} {name}" for name in names for verb in ("blocks", "heap"))]
        asked = "".join(f"{it}\n" for command in commands for it in [command, *asking]).encode()
        replies = replies_of(suite.run(["run", *before, "-", *files], stdin=asked)[0])
        steps = steps_of(suite.run(["draw", *before, str(script), *files])[0])
        every = len(asking) + 1
        faults = [f"step {number + 1}: {fault}" for number, step in enumerate(steps) if 'class="memory"' in step
                  for fault in step_faults(step, names, replies[number * every + 1 : (number + 1) * every])]
        suite.is_true(f"figures of {script.name}: {faults}", not faults and len(replies) == every * len(commands))
