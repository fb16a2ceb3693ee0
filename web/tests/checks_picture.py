"""The picture on the page besides its figures: what they are drawn with, how they are read, and how it is scrolled."""

import json

import native
from bench import holds, same
from checks_replies import STYLE

import make

TREE = "document.querySelector('#picture').shadowRoot"
# How figures are read, as the sheet has it, and as the page has it.
LEGEND_OF_SHEET = """((page) => ['header > p', '.key'].map((it) => page.querySelector(it).outerHTML))(
  new DOMParser().parseFromString(%s, 'text/html'))"""
LEGEND_SHOWN = f"[...{TREE}.querySelector('details').children].slice(1).map((it) => it.outerHTML)"
# Which things the picture refers to that aren't in it.
MISSING = f"""((tree) => {{
  const text = tree.innerHTML + [...tree.adoptedStyleSheets[0].cssRules].map((it) => it.cssText).join('');
  const named = [...text.matchAll(/url\\(["']?#([^"')]+)/g)].map((it) => it[1]);
  return [named.length > 0, [...new Set(named)].filter((id) => !tree.getElementById(id))];
}})({TREE})"""
# The rectangles of some pictures: how many there are, and those that aren't drawn where the sheet has them.
MOVED = """((pictures) => {
  const boxes = pictures.flatMap((name) => [...document.querySelector(name).shadowRoot.querySelectorAll('svg rect')])
    .filter((box) => box.checkVisibility());
  const isMoved = (box) => ['x', 'y', 'width', 'height'].some((side) =>
    Math.abs(box.getBBox()[side] - Number(box.getAttribute(side))) > 0.1);
  return [boxes.length, boxes.filter(isMoved).map((box) => box.outerHTML)];
})(['#picture', '#chart'])"""
FRAMES = f"[...{TREE}.querySelectorAll('.wide')]"
# How far what is at the right of the first frame's picture is from the frame's own right edge.
RIGHT = f"""(([frame]) => Math.abs(frame.querySelector('svg').getBoundingClientRect().right
  - frame.getBoundingClientRect().right))({FRAMES})"""

# How far the last page of the pool, which is the module area's, is out of its frame's sight at either side; and the
# words above the pool, where they are seen.
POOLS_END = f"""(([frame], words) => [
  ((cell, seen) => Math.round(Math.max(0, seen.left - cell.left, cell.right - seen.right)))(
    frame.querySelector('.cell.m').getBoundingClientRect(), frame.getBoundingClientRect()),
  words.checkVisibility() ? words.textContent : ''])({FRAMES}, {TREE}.querySelector('.free'))"""
CHART = "document.querySelector('#chart').shadowRoot"
# What of the names above the chart is told to those who see it: each one, whether the pane has it in sight, and how far
# it is from the middle of its task's line.
NAMES_SEEN = f"""((pane, lives) => [...{CHART}.querySelectorAll('.heads text')].map((name, at) =>
  ((place) => [name.textContent, place.top > pane.top - 1 && place.bottom < pane.top + 60 && place.width > 0,
    Math.round(Math.abs((place.left + place.right) / 2 - lives[at].getBoundingClientRect().left))])(
  name.getBoundingClientRect())))(document.querySelector('#messages').getBoundingClientRect(),
  [...{CHART}.querySelectorAll('aside .life')])"""

# The chart's own names of which some is seen: not above the pane, and not behind the plate on which the others stand.
NAMES_TWICE = f"""((pane, plate) => [...{CHART}.querySelectorAll('aside .who')].filter((name) =>
  ((place) => place.bottom > pane.top + 1 && (place.top < plate.top || place.bottom > plate.bottom))(
  name.getBoundingClientRect())).map((name) => name.textContent))(
  document.querySelector('#messages').getBoundingClientRect(), {CHART}.querySelector('.plate').getBoundingClientRect())"""
# How far each of these names is from the chart's own, where nothing is scrolled.
NAMES_APART = f"""((own) => [...{CHART}.querySelectorAll('.heads text')].map((name, at) => Math.round(Math.abs(
  name.getBoundingClientRect().top - own[at].getBoundingClientRect().top))))(
  [...{CHART}.querySelectorAll('aside .who')])"""


def show_step(page):
    """Shows a step at which some blocks are there, and holes."""
    page.load("transfer")
    for _ in range(5):
        page.click("step")


def check_true_places(bench):
    """Each rectangle of the pictures is drawn where the sheet has it, and as large: the page's own style moves none."""
    with bench.kept_page() as page:
        for view in ("picture", "lens"):
            page.look(view)
            for name in ("transfer", "lessons/holes"):
                page.load(name)
                for _ in range(9):
                    page.click("step")
                count, moved = page.value(MOVED)
                holds(count > 12, f"{name} has {count} rectangles by {view}")
                same(moved, [], f"what stands elsewhere in {name} by {view}")


def check_legend(bench):
    """Beside the picture stands how figures are read, as the sheet has it; what the picture refers to is in it."""
    example = make.examples_by_name()["transfer"]["text"].encode()
    sheet = STYLE.sub("", native.done("draw", native.Job(example))[1].decode())
    with bench.kept_page() as page:
        show_step(page)
        same(page.value(LEGEND_SHOWN), page.value(LEGEND_OF_SHEET % json.dumps(sheet)), "how figures are read")
        same(page.value(f"{TREE}.querySelector('summary').textContent"), "How figures are read", "what it is named")
        page.value(f"{TREE}.querySelector('summary').focus(); {TREE}.querySelector('summary').click()")
        page.tab.key("F8")
        same(page.value(f"[{TREE}.activeElement?.localName, {TREE}.querySelector('details').open]"), ["summary", True],
             "what has the focus, and whether it is open, after a step")
        same(page.value(MISSING), [True, []], "what the picture refers to and lacks")


def check_scrolled(bench):
    """In a narrow window the pool's end is seen first, and the picture stays where it was scrolled to; in a wide one
    figures are wide."""
    with bench.kept_page() as page:
        show_step(page)
        widths = page.value(f"{FRAMES}.map((it) => it.querySelector('svg').getBoundingClientRect().width "
                            "/ it.getBoundingClientRect().width)")
        holds(min(widths) > 0.95, f"in a wide window figures take {widths} of their frames")
        # A bar for scrolling, which tests don't see, takes some of a window of 1,280.
        page.tab.resize(1264, 720)
        holds(page.value(f"{FRAMES}.every((it) => it.scrollWidth <= it.clientWidth)"), "a wide picture is scrolled")
        page.tab.resize(420, 900)
        show_step(page)
        holds(page.value(f"{FRAMES}.every((it) => it.scrollWidth > it.clientWidth + 100)"), "nothing can be scrolled")
        holds(page.value(RIGHT) < 2, "the pool's end isn't seen first")
        same(page.value(f"{FRAMES}.map((it) => getComputedStyle(it.querySelector('svg text')).direction)"), ["ltr"] * 2,
             "where the texts of figures begin")
        page.value(f"{FRAMES}[0].scrollLeft = -50; {FRAMES}[1].scrollLeft = 40")
        for _ in range(2):
            page.click("step")
            same(page.value(f"{FRAMES}.map((it) => it.scrollLeft)"), [-50, 40], "how far the picture is scrolled")


def check_pools_end(bench):
    """On a phone the last page of a pool of any size is in sight at once; where its name isn't, it stands above it."""
    with bench.kept_page() as page:
        for width, pages, words in ((390, 8, ""), (390, 16, "Pool 13 of 16 free"), (390, 64, "Pool 61 of 64 free"),
                                    (390, 100, ""), (390, 300, "Pool 297 of 300 free"), (360, 20, "Pool 17 of 20 free"),
                                    (1280, 16, ""), (1280, 300, "")):
            page.tab.resize(width, 844)
            page.load("hello")
            page.set_pages(pages)
            page.click("run")
            page.tab.wait(lambda: page.value(POOLS_END) == [0, words], f"what isn't seen of a pool of {pages} pages "
                          f"in {width}, and the words above it, are {page.value(POOLS_END)}")
        page.tab.resize(390, 844)
        page.show_pane("script")
        page.set_pages(8)
        page.click("back")
        page.show_pane("memory")
        page.tab.wait(lambda: page.value(POOLS_END) == [0, ""], "the pool isn't seen that was drawn out of sight")


def check_names_of_chart(bench):
    """The names above the messages stay in sight, each over its task's line, however far these are scrolled."""
    with bench.kept_page() as page:
        for width, height in ((1280, 720), (1024, 700), (1900, 700), (390, 844)):
            page.tab.resize(width, height)
            for name, names in (("lessons/small-buffer", ["writer", "reader"]), ("lessons/death", ["task 1", "b"])):
                page.load(name)
                page.click("run")
                page.show_pane("messages")
                for place in ("0", "14", "22", "30", "10000"):
                    page.value(f"document.querySelector('#messages').scrollTop = {place}")
                    same(page.value(NAMES_TWICE), [], f"which names of {name} are seen twice at {width}, at {place}")
                    same(page.value(NAMES_SEEN), [[it, True, 0] for it in names],
                         f"the names in {name} at {width} by {height}, scrolled to {place}")
        same(page.value(f"[...{CHART}.querySelectorAll('.heads')].map((it) => it.ariaHidden)"), ["true"],
             "whether the names are told twice")
        page.value(f"document.querySelector('#messages').scrollTop = 0")
        page.begin_again()
        page.tab.resize(1280, 720)
        page.load("eight-transfers")
        for _ in range(20):
            page.click("step")
        same(page.value(NAMES_APART), [0, 0], "how far names are from the chart's own, beside longer lists")
        page.load("hello")
        page.click("run")
        same(page.value(f"{CHART}.querySelectorAll('.heads').length"), 0, "the names where there are no messages")


def check_frame_keeps_focus(bench):
    """A frame of the picture that is being scrolled by keys has the focus still behind a step by a key."""
    with bench.kept_page() as page:
        show_step(page)
        for name in ("Pool of pages", "Slots and module area"):
            page.value(f"{FRAMES}.find((it) => it.ariaLabel === '{name}').focus()")
            for key in (("F8",), ("F8", "Shift")):
                page.tab.key(*key)
                same(page.value(f"{TREE}.activeElement?.ariaLabel"), name, f"what has the focus behind {key}")


def check_map_or_picture(bench):
    """A map has no words of what has changed; the picture that is chosen again has."""
    with bench.kept_page() as page:
        show_step(page)
        told = page.text("changes")
        holds(told and page.seen("changes", "picture", "map") == ["changes", "picture"], "nothing has changed")
        page.value("document.querySelector('[value=map]').click()")
        page.focus("#map")
        same([page.focused(), page.value("[document.activeElement.role, document.activeElement.ariaLabel]")],
             ["map", ["group", "Map of memory"]], "what the map is to those who listen")
        same([page.seen("changes", "picture", "map"), page.text("changes")], [["map"], ""], "what is seen with a map")
        page.value("document.querySelector('[value=picture]').click()")
        same([page.seen("changes", "picture", "map"), page.text("changes")], [["changes", "picture"], told],
             "what is seen with a picture")
        page.click("undo")
        same(page.seen("changes", "picture", "map", "nothing", "empty"), ["empty"], "what is seen without a script")
        page.click("redo")
        page.value("document.querySelector('#slider').value = 0;"
                   "document.querySelector('#slider').dispatchEvent(new Event('input'))")
        same(page.seen("changes", "picture", "map", "nothing", "empty"), ["nothing"], "what is seen without a step")
