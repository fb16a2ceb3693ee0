"""The lens on the page: memory at a width at which each part can be read."""

import base64
import re

import native
from bench import holds, same

SCRIPT = b"task a 100\nalloc a 0 5\nput a 0 0 68656c6c6f\nalloc a 1 8\nfree a 0\n"
KEYS = """[...document.querySelector('#picture').shadowRoot.querySelectorAll('.memory svg [data-key]')]
  .map((it) => it.dataset.key)"""
# The names of what moves, and of what comes in.
MOVING = """document.querySelector('#picture').shadowRoot.getAnimations().map(({ effect }) => effect.target.dataset.key)
  .filter(Boolean)"""
# How much wider than its frame a lens is.
OVER = """[...document.querySelector('#picture').shadowRoot.querySelectorAll('.wide')]
  .map((it) => it.scrollWidth - it.clientWidth)"""
LENS = "document.querySelector('[value=lens]').click()"
# The scales of a lens, and the one that it has at first.
SCALES, FIRST = [1, 2, 4, 8, 12, 16, 24, 32, 48, 64], 5
# What a lens was asked for last, and what its frame has room for.
ASKED = "[lastLens.width, lastLens.scale]"
ROOM = "Math.max(300, Math.min(1700, document.getElementById('frame').clientWidth - 6))"
# What is read out of each lens, the tip of each part, and the digits of cells.
TOLD = """[...document.querySelector('#picture').shadowRoot.querySelectorAll('.memory svg:has([data-key])')]
  .map((it) => [it.querySelector('title').textContent, it.querySelector('desc').textContent, it.getAttribute('role'),
    [...it.querySelectorAll('[data-key] > rect > title')].map((tip) => tip.textContent),
    [...it.querySelectorAll('.digits')].map((digits) => digits.textContent).join('')])"""
# Where the parts come from that move, by their names.
FROM = """Object.fromEntries(document.querySelector('#picture').shadowRoot.getAnimations()
  .filter(({ effect }) => effect.target.dataset.key && effect.getKeyframes()[0].transform)
  .map(({ effect }) => [effect.target.dataset.key, effect.getKeyframes()[0].transform]))"""
# The names of what fades, as it is gone.
GONE = """[...document.querySelector('#picture').shadowRoot.querySelectorAll('.flying [data-key]')]
  .map((it) => it.dataset.key)"""
# What is found at once behind a step, while parts move.
BEHIND_STEP = "(() => { document.getElementById('step').click(); return %s; })()"
# How far from the left each part stands.
PLACES = """Object.fromEntries([...document.querySelector('#picture').shadowRoot.querySelectorAll('svg > [data-key]')]
  .map((it) => [it.dataset.key, Number(it.querySelector('rect').getAttribute('x'))]))"""


def check_lens(bench):
    """Through a lens each part has its name, as wide as the pane; two buttons for its scale are there with it alone."""
    with bench.page() as page:
        page.drop_bytes("a.desk", SCRIPT)
        same([page.value(KEYS), page.seen("smaller", "larger")], [[], []], "what is there without a lens")
        page.value(LENS)
        for _ in range(3):
            page.click("step")
        same(page.value(KEYS), ["flex0", "unused", "anchor0", "descriptor", "top", "descriptor", "top"], "the parts")
        same(page.seen("picture", "smaller", "larger"), ["picture", "smaller", "larger"], "what is there with a lens")
        page.click("larger")
        page.click("smaller")
        same(page.value(KEYS)[0], "flex0", "the first part behind other scales")
        bench.picture(page, "lens")


def check_moving_lens(bench):
    """What is new in a lens comes in, and what has another place moves there."""
    with bench.page() as page:
        page.drop_bytes("a.desk", SCRIPT)
        page.value(LENS)
        for _ in range(3):
            page.click("step")
        moving = page.value(BEHIND_STEP % MOVING)
        holds({"flex1", "anchor1"} <= set(moving), f"block 1 doesn't come in: {moving}")
        holds("flex1" in page.value(BEHIND_STEP % MOVING), "block 1 doesn't move where block 0 is gone")


def check_narrow_lens(bench):
    """A lens isn't wider than its pane, in any window."""
    with bench.page() as page:
        page.drop_bytes("a.desk", SCRIPT)
        page.value(LENS)
        page.click("run")
        for width in (360, 390, 820, 1280, 1920):
            page.tab.resize(width, 800)
            page.value("new Promise(requestAnimationFrame).then(() => 0)")
            same(page.value(OVER)[1:], [0], f"what goes over a pane's edge at {width}")


def told_by_program(lines):
    """What the program tells of the lenses of the last of some lines, as the page does."""
    text = native.done("draw", native.Job(b"\n".join(lines) + b"\n", is_lens=True))[1].decode()
    step = re.findall(r"<section .*?</section>", text, re.DOTALL)[-1]
    for lens in re.findall(r"<svg [^>]*>(?:(?!</svg>).)*data-key.*?</svg>", step, re.DOTALL):
        plain = lens.replace("&amp;", "&")
        tips = re.findall(r'<rect class="part[^>]*><title>([^<]*)</title>', plain)
        digits = "".join(re.findall(r'class="digits"[^>]*>(..)<', plain))
        title, told = (re.search(f"<{it}>(.*?)</{it}>", plain)[1] for it in ("title", "desc"))
        yield [title, told, "img", tips, digits]


def check_steps_of_lens(bench):
    """The lens of each step is that of its lines, read out as the program has it, forwards and backwards."""
    lines = SCRIPT.split(b"\n")[:-1]
    with bench.page() as page:
        page.drop_bytes("a.desk", SCRIPT)
        page.value(LENS)
        for number in range(1, len(lines) + 1):
            page.click("step")
            same(page.value(TOLD), list(told_by_program(lines[:number])), f"what the lens of step {number} tells")
        page.click("back")
        same(page.value(TOLD), list(told_by_program(lines[:-1])), "what the lens of the step before tells")


def check_sizes_of_lens(bench):
    """A lens is as wide as its frame, in each window, and goes through its scales and no further."""
    with bench.page() as page:
        page.drop_bytes("a.desk", SCRIPT)
        page.value(LENS)
        page.click("run")
        same(page.value(ASKED), [page.value(ROOM), SCALES[FIRST]], "the size of a lens at first")
        for button, scales in [("larger", SCALES[FIRST + 1:] + SCALES[-1:]), ("smaller", SCALES[-2::-1] + SCALES[:1])]:
            for scale in scales:
                page.click(button)
                same(page.value(ASKED), [page.value(ROOM), scale], f"the size of a lens behind a click on {button}")
        page.click("back")
        same(page.value(ASKED)[1], SCALES[0], "the scale at another step")
        for width in (360, 820, 1920):
            page.tab.resize(width, 800)
            page.value("new Promise(requestAnimationFrame).then(() => 0)")
            same(page.value(ASKED)[0], page.value(ROOM), f"the width of a lens in a window of {width}")


def check_chosen_view(bench):
    """The lens is chosen at first; what is chosen stays chosen from step to step, and a lens has its scale again."""
    with bench.page() as page:
        page.drop_bytes("a.desk", SCRIPT)
        same(page.value("document.querySelector('[name=view][checked]').value"), "lens", "what is chosen at first")
        for _ in range(3):
            page.click("step")
        same(page.value(KEYS), [], "parts of a lens to scale")
        page.value(LENS)
        page.click("larger")
        for view, seen in [("picture", ["picture"]), ("map", ["map"]), ("lens", ["picture", "smaller", "larger"])]:
            page.value(f"document.querySelector('[value={view}]').click()")
            page.click("back")
            page.click("step")
            same(page.seen("picture", "map", "smaller", "larger"), seen, f"what is there with {view}")
            if view != "map":
                same(bool(page.value(KEYS)), view == "lens", f"whether a lens is there with {view}")
        same(page.value(ASKED)[1], SCALES[FIRST + 1], "the scale of the lens when it comes back")


def check_ways_of_lens(bench):
    """A part of a lens comes from where it stood, and what is gone fades where it stood."""
    with bench.page() as page:
        page.drop_bytes("a.desk", SCRIPT)
        page.value(LENS)
        for _ in range(4):
            page.click("step")
        before = page.value(PLACES)
        moving, gone = page.value(BEHIND_STEP % f"[{FROM}, {GONE}]")
        way = re.match(r"translate\((-?\d+)px", moving.get("flex1", ""))
        holds(way, f"block 1 comes from nowhere: {moving}")
        same(int(way[1]), before["flex1"] - page.value(PLACES)["flex1"], "how far block 1 comes")
        holds("flex0" in gone, "block 0 doesn't fade")


# A script with a block that is wider at each greater scale.
SIZED = SCRIPT + b"claim a 60\n"
# Sizes of a lens that can be had, and such that can't: those beside the least and the greatest, and far ones.
HAD = [(300, 16), (1700, 16), (960, 1), (960, 64), (300, 64), (1700, 1), (960, 16)]
NOT_HAD = [(299, 16), (1701, 16), (960, 0), (960, 65), (299, 65), (0, 16), (-1, 16), (960, -1)]
# The status where a lens can't be had, and the length that stays then.
BAD_LENS, LENGTH = 6, 7
LENSES = re.compile(r'<svg viewBox="0 0 (\d+) \d+" role="img">(?=(?:(?!</svg>).)*data-key)', re.DOTALL)


def check_status_of_lens(bench):
    """The module draws lenses of the sizes that there are, as wide as asked for, and tells of others with a status."""
    if not bench.content:
        return
    with bench.page() as page:
        module = base64.b64encode(bench.content).decode()
        given = module, SIZED.decode(), "a.desk"
        refused = page.script("lens_status.js", *given, NOT_HAD)
        same(refused, [[BAD_LENS, LENGTH, ""]] * len(NOT_HAD), f"what is given for {NOT_HAD}")
        drawn = page.script("lens_status.js", *given, HAD)
        for size, (status, length, text) in zip(HAD, drawn):
            same([status, length], [0, len(text.encode())], f"the status and the length of a lens of {size}")
            same(set(LENSES.findall(text)), {str(size[0])}, f"how wide the lenses of {size} are")
        same(len({text for _, _, text in drawn}), len(HAD), "how many of the texts differ")
        same(drawn[-1][2], native.done("draw", native.Job(SIZED, "a.desk", is_lens=True))[1].decode(),
             "the text of a lens of the program's size")
