"""Where things stand, in wide and narrow windows and on paper, and how they look in the dark."""

import json
import re

import desk_page
import native
from bench import holds, same
from checks_looks import COLOURED, LEAST_CONTRAST, TINTS

import make

# The edges of an element in the window.
EDGES = "(({ left, top, right, bottom }) => ({ left, top, right, bottom }))(%s.getBoundingClientRect())"
FOCUSED = "document.activeElement"
# Where what has the focus begins in the window, also within a picture.
TOP_OF_FOCUSED = f"(({FOCUSED}.shadowRoot?.activeElement ?? {FOCUSED}).getBoundingClientRect().top)"
# How much of what stands in an element is cut off below.
CUT_OFF = "((it) => it.scrollHeight - it.clientHeight)(document.querySelector('%s'))"
# How much wider than its frame the pool is, and how much what is below it.
WIDER = """[...document.querySelector('#picture').shadowRoot.querySelectorAll('.wide')]
  .map((it) => it.scrollWidth - it.clientWidth)"""
# How many lines of a box are seen, and what part of the next one.
LINES_SEEN = """((box) => ((seen) => [Math.floor(seen + 0.1), Number((seen - Math.floor(seen)).toFixed(2))])(
  box.clientHeight / box.lastElementChild.getBoundingClientRect().height))"""
# The least contrast of a control's edge, and of the line around what has the focus, to what is behind it.
LEAST_CONTRAST_OF_EDGES = 3
# Of what has the focus the colours of its edge and of the line around it, and the colour of the page around both.
EDGE_COLOURS = """((it) => {
  const around = [];
  for (let at = it.parentElement; at; at = at.parentElement) around.push(getComputedStyle(at).backgroundColor);
  const { borderTopColor, outlineColor } = getComputedStyle(it);
  return [borderTopColor, outlineColor, around.find((colour) => colour.startsWith('rgb('))];
})(document.activeElement)"""
# Elements of the picture that have no colour of their own.
COLOURLESS = ["title", "desc", "g", "defs", "pattern", "linearGradient", "marker", "use"]
# The colours of the picture's shapes: what each is, and its two colours. A line that isn't closed has nothing to fill.
SHAPES = f"""[...document.querySelector('#picture').shadowRoot.querySelectorAll('svg *')]
  .filter((it) => !{COLOURLESS}.includes(it.localName)).map((it) => {{
    const {{ fill, stroke, stopColor }} = getComputedStyle(it);
    const isLine = it.localName === 'path' && stroke !== 'none' && fill === 'rgb(0, 0, 0)';
    const inside = it.localName === 'stop' ? stopColor : fill;
    return [`${{it.localName}}.${{it.getAttribute('class')}}`, isLine ? 'none' : inside, stroke];
  }})"""

# The colours of the lines around what the last command has changed.
FRESH_COLOURS = """[...new Set([...document.querySelector('#picture').shadowRoot.querySelectorAll('svg .fresh')]
  .map((it) => getComputedStyle(it)).map(({ stroke, filter }) => /rgb[^)]*[)]/.exec(filter)?.[0] ?? stroke))]"""
# Of flex blocks that have changed the colours from within: the block, the line of paper, and the edge.
FLEX_EDGES = """[...document.querySelector('#picture').shadowRoot.querySelectorAll('svg .flex.fresh:not(.card)')]
  .map((it) => getComputedStyle(it)).map(({ fill, stroke, filter }) => [fill, stroke, /rgb[^)]*[)]/.exec(filter)[0]])"""
# The lines around what is seen of a sheet's figures, each once, and the colour of the page behind them.
LINES_OF_SHEET = """[[...new Set([...document.querySelectorAll(
  ':is(rect, path):is(.row, .used, .hole, .many, .anchors, .card, .life, .msg)')]
  .filter((it) => it.checkVisibility()).map((it) => getComputedStyle(it).stroke).filter((it) => it !== 'none'))],
  getComputedStyle(document.body).backgroundColor]"""
# Examples of which a step on the way is looked at, by its number.
STEPS = {"hello": 2, "made-areas": 5, "sliding": 5, "lessons/death": 9}


def edges(page, selector):
    return page.value(EDGES % f"document.querySelector({json.dumps(selector)})")


def luminance(colour):
    """How light a colour is, as the Web Content Accessibility Guidelines define it."""
    parts = [int(part) / 255 for part in re.findall(r"\d+", colour)[:3]]
    linear = [part / 12.92 if part <= 0.04045 else ((part + 0.055) / 1.055) ** 2.4 for part in parts]
    return 0.2126 * linear[0] + 0.7152 * linear[1] + 0.0722 * linear[2]


def contrast(one, other):
    low, high = sorted([luminance(one), luminance(other)])
    return (high + 0.05) / (low + 0.05)


def check_side_by_side(bench):
    """In a wide window memory stands beside story and script, and nothing but panes is scrolled."""
    with bench.kept_page() as page:
        page.tab.resize(1440, 640)
        page.load("transfer")
        page.click("run")
        script, beside, story = (edges(page, it) for it in ("section.script", ".beside", "#story"))
        holds(beside["left"] >= script["right"] and beside["left"] >= story["right"], "memory isn't beside the script")
        holds(abs(beside["top"] - story["top"]) < 2 and abs(beside["bottom"] - script["bottom"]) < 2,
              "memory isn't as high as story and script")
        holds(script["top"] >= story["bottom"], "the script isn't below its story")
        page.value("scrollTo(0, 500)")
        same(page.value("scrollY"), 0, "how far the page is scrolled")
        for name in ("#command", "#step", "#lines .current", "#shown", "#slider"):
            found = edges(page, name)
            holds(found["top"] >= 0 and found["bottom"] <= 640, f"{name} isn't in sight")


def check_more_is_told(bench):
    """Where more is told of a step than there is room for, a line is seen in part: so it shows that there is more."""
    with bench.kept_page() as page:
        for width, height, room in ((1280, 720, 3), (390, 844, 2), (360, 640, 2)):
            page.tab.resize(width, height)
            page.load("eight-transfers")
            page.click("run")
            for name in ("changes", "shown"):
                page.value(f"""(() => {{ const box = document.querySelector('#{name}');
                  box.replaceChildren(...Array.from({{ length: 9 }}, (_, at) => Object.assign(
                    document.createElement(box.localName === 'ul' ? 'li' : 'div'), {{ textContent: 'line ' + at }})));
                  box.hidden = false; box.classList.remove('still') }})()""")
                whole, part = page.value(f"{LINES_SEEN}(document.querySelector('#{name}'))")
                holds(whole >= room and 0.3 < part < 0.7, f"of {name} at {width} {whole} lines and {part} are seen")
            page.click("back")
            page.click("step")


def check_low_window(bench):
    """In a window that is low the prompt and the steps are reached beside a long script with many files."""
    files = "&".join(f"file=f{number}:" for number in range(32))
    with bench.page(f"#script={'areas%0A' * 100}&{files}") as page:
        for height in (900, 560):
            page.tab.resize(1440, height)
            page.click("run")
            script = edges(page, "section.script")
            holds(script["bottom"] <= edges(page, "footer")["top"], f"the script is over the steps at {height}")
            for name in ("command", "step"):
                page.focus(f"#{name}")
                found = edges(page, f"#{name}")
                holds(found["top"] >= 0 and found["bottom"] <= height, f"{name} isn't in sight at {height}")
            holds(edges(page, "#command")["bottom"] <= script["bottom"], f"the prompt is over an edge at {height}")
        page.tab.resize(1440, 500)
        scroller = edges(page, "#scroller")
        holds(scroller["bottom"] - scroller["top"] < 0.6 * 500, "a long script is shown whole in a window of 500")
        page.tab.resize(640, 320)
        found = edges(page, "#step")
        holds(found["top"] >= 0 and found["bottom"] <= 320, "step isn't in sight in a window of 320")
        page.tab.resize(640, 220)
        same(page.value("getComputedStyle(document.querySelector('footer')).position"), "static",
             "how the steps stand where they would hide much of what is seen")


def check_wheel(bench):
    """The wheel of a mouse scrolls the lines of a long script."""
    with bench.kept_page() as page:
        page.drop_bytes("long.desk", b"areas\n" * 100)
        found = edges(page, "#scroller")
        page.tab.call("Input.dispatchMouseEvent", type="mouseWheel", x=found["left"] + 50, y=found["top"] + 50,
                      deltaX=0, deltaY=300)
        page.tab.wait(lambda: page.value("document.querySelector('#scroller').scrollTop") > 100,
                      "the wheel doesn't scroll the lines")


def check_hint_below(bench):
    """Where forms come below the prompt, nothing moves for them."""
    with bench.kept_page() as page:
        page.enter("areas")
        was = edges(page, "#step")
        page.tab.type("budge ")
        holds(page.text("hint"), "there are no forms")
        same(edges(page, "#step"), was, "where the steps stand")


def check_one_below_another(bench):
    """In a narrow window one pane is seen at a time; there a reply stands below its line."""
    panes = ("memory", "script", "messages")
    with bench.kept_page() as page:
        page.tab.resize(420, 700)
        page.load("transfer")
        page.click("run")
        found = []
        for pane in panes:
            page.show_pane(pane)
            pressed = page.value("[...document.querySelectorAll('#panes [aria-pressed=true]')].map((it) => it.value)")
            found.append([page.seen(*panes), pressed])
        same(found, [[[it], [it]] for it in panes], "the panes that are seen, and the buttons that are pressed")
        page.load("hello")
        same(page.value("[...document.querySelectorAll('#panes button')].filter((it) => it.checkVisibility())"
                        ".map((it) => it.textContent)"), ["Memory", "Script"], "the panes without messages")
        holds(page.seen("memory") == ["memory"], "no pane is seen when there are no messages any more")
        page.show_pane("script")
        page.click("run")
        line, reply = (edges(page, f"#lines > li:nth-child(2) {it}") for it in ("textarea", ".reply"))
        holds(reply["top"] >= line["bottom"] - 1 and abs(reply["left"] - line["left"]) < 8, "a reply isn't below")
        page.drop_bytes("long.desk", b"areas\n" * 100)
        scroller = edges(page, "#scroller")
        holds(scroller["bottom"] - scroller["top"] < 0.7 * 700, "a long script is shown whole")
        holds(edges(page, "section.script")["bottom"] <= edges(page, "footer")["top"], "the steps hide the script")


def check_focus_in_sight(bench):
    """In a narrow window the steps at its end hide nothing that gets the focus."""
    with bench.page() as page:
        for pane in ("memory", "script", "messages"):
            page.tab.resize(420, 700)
            page.load("transfer")
            page.click("run")
            page.show_pane(pane)
            page.focus("#examples")
            while page.value(f"{FOCUSED}.id") != "back":
                page.tab.key("Tab")
                is_step = page.value(f"{FOCUSED}.closest('footer') !== null")
                top = page.value(TOP_OF_FOCUSED)
                holds(is_step or 0 <= top + 1 and top < edges(page, "footer")["top"],
                      f"the steps hide {page.script('focused.js')}, which has the focus, in {pane}")
        page.show_pane("script")
        page.focus("#lines > li:nth-child(2) textarea")
        page.value("document.querySelector('#scroller').scrollTop = 10000")
        page.tab.key("ArrowDown")
        found = page.value(EDGES % FOCUSED)
        same([page.focused(), found["top"] >= 0, found["bottom"] <= edges(page, ".steps")["top"] + 1],
             ["Line 3", True, True], "the line that an arrow key goes to, and whether it is in sight")


# Of each label of the file's panel whose it is, and whether its field stands in the same line, at its right.
LABELS_OF_FILE = """[...document.querySelectorAll('#file label')].map((label) => {
  const [words, field] = [label, document.getElementById(label.htmlFor)].map((it) => it.getBoundingClientRect());
  const apart = Math.abs((words.top + words.bottom) / 2 - (field.top + field.bottom) / 2);
  return [label.htmlFor, apart < 3 && words.right < field.left && field.left - words.right < 20];
})"""


def check_labels_of_file(bench):
    """The labels of the script's name and its pages stand beside their fields, however narrow the window is."""
    with bench.kept_page() as page:
        page.load("hello")
        page.click("file-button")
        for width in (1280, 390, 360, 320):
            page.tab.resize(width, 700)
            same(page.value(LABELS_OF_FILE), [["name", True], ["pages", True]], f"which labels are beside, {width}")


def check_on_paper(bench):
    """On paper all lines are seen with what is told of them, memory is, and no controls are."""
    with bench.kept_page() as page:
        page.drop_bytes("long.desk", b"areas\n" * 100)
        page.click("run")
        for width, height in ((1440, 900), (760, 1080)):
            page.tab.resize(width, height)
            page.tab.call("Emulation.setEmulatedMedia", media="print")
            same([page.value(CUT_OFF % it) > 1 for it in ("#scroller", "section.script", ".frame", ".beside", "main")],
                 [False] * 5, f"whether something is cut off on paper, at {width}")
            same(page.seen("script", "memory", "picture", "step", "prompt", "tools", "views", "panes", "hint"),
                 ["script", "memory", "picture"], f"what is on paper, at {width}")
            holds(page.value("document.body.offsetHeight") != height, "the page is as high as a window")
            same(page.value(WIDER), [0, 0], f"how much wider than a sheet of paper pictures are, at {width}")
            same(page.value("getComputedStyle(document.querySelector('#messages')).breakInside"), "avoid",
                 "whether the heading of messages may stand on another sheet of paper than these")
            page.tab.call("Emulation.setEmulatedMedia", media="")


def check_edges(bench):
    """Controls, and the line around what has the focus, stand out from what is behind them, light and dark."""
    with bench.kept_page() as page:
        page.load("hello")
        page.click("step")
        for is_dark in (False, True):
            page.tab.resize(1440, 900, is_dark)
            page.click("file-button")
            for name in ("open", "name", "pages", "add", "command", "back", "step", "examples"):
                page.focus(f"#{name}")
                page.tab.key("Tab")
                page.tab.key("Tab", "Shift")
                same(page.focused(), name, "what has the focus")
                *lines, around = page.value(EDGE_COLOURS)
                for line in lines:
                    holds(contrast(line, around) >= LEAST_CONTRAST_OF_EDGES,
                          f"{name} has {line} on {around}, {'dark' if is_dark else 'light'}")
            page.load("hello")
            page.click("step")
            page.click("step")
            marker = page.value("getComputedStyle(document.querySelector('#changes li'), '::marker').color")
            around = page.value("getComputedStyle(document.querySelector('section.memory')).backgroundColor")
            holds(contrast(marker, around) >= LEAST_CONTRAST_OF_EDGES, f"changes have {marker} on {around}")


def check_told_apart(bench):
    """What does nothing now, what is a fault and which line ran last are told apart from others, light and dark."""
    style = "getComputedStyle(document.querySelector('%s')).%s"
    with bench.kept_page() as page:
        page.load("hello")
        page.enter("shw")
        page.click("run")
        for is_dark in (False, True):
            page.tab.resize(1440, 900, is_dark)
            usual, back, step, run = (page.value(style % (it, "color")) for it in ("#open", "#back", "#step", "#run"))
            holds(usual == back and usual not in (step, run), "a step that does nothing looks as if it did something")
            found = [page.value(style % (it, "backgroundColor")) for it in ("#lines .current", "section.script")]
            holds(found[0] != found[1] and found[0].startswith("rgb("), "the line that ran last isn't told apart")
            page.set_pages(7)
            fault = [page.value(style % ("#notice", it)) for it in ("color", "borderTopWidth")]
            holds(fault[0] != usual and fault[1] != "0px", "a fault looks like any text")
            same(fault[0], page.value(style % ("#lines .bad .reply", "color")), "a fault's colour beside a bad reply's")
            page.value("document.querySelector('#notice').classList.remove('fault')")
            page.set_pages(64)
        page.click("back")
        holds(page.value(style % ("#step", "color")) != step, "a step looks as if it did nothing")


def alike_in_the_dark(page):
    """The shapes of the picture that have the same colours in the light and in the dark."""
    found = []
    for is_dark in (False, True):
        page.tab.resize(1440, 900, is_dark)
        found.append(page.value(SHAPES))
    return sorted({(light[0], colour) for light, dark in zip(*found) for colour, other in zip(light[1:], dark[1:])
                   if colour == other and colour.startswith("rgb")})


def check_dark_picture(bench):
    """In the dark each shape of a picture has colours that it hasn't in the light."""
    with bench.kept_page() as page:
        for name in (*COLOURED, "tints"):
            if name == "tints":
                page.drop_bytes("tints.desk", TINTS.encode())
            else:
                page.load(name)
            page.click("run")
            same(alike_in_the_dark(page), [], f"what has the same colours in the light and in the dark in {name}")


def check_dark_steps(bench):
    """As areas come, blocks slide and tasks die, shapes have other colours in the dark, and changes are marked."""
    with bench.kept_page() as page:
        for name, count in STEPS.items():
            page.load(name)
            for _ in range(count):
                page.click("step")
            same(alike_in_the_dark(page), [], f"what has the same colours at step {count} of {name}")
            mark = page.value("getComputedStyle(document.querySelector('#changes li'), '::marker').color")
            found = page.value(FRESH_COLOURS)
            holds(found == [mark] or not found and name != "hello", f"{found} marks changes at step {count} of {name}")


def check_changed_blocks(bench):
    """The edge of a flex block that has changed stands out from the line of paper inside, and that from the block."""
    with bench.kept_page() as page:
        for is_dark in (False, True):
            page.tab.resize(1440, 900, is_dark)
            for name in ("hello", "sliding", "transfer", "eight-transfers"):
                page.load(name)
                for _ in range(4):
                    page.click("step")
                for colours in page.value(FLEX_EDGES):
                    found = [contrast(*pair) for pair in zip(colours, colours[1:])]
                    holds(min(found) >= LEAST_CONTRAST_OF_EDGES, f"{colours} in {name} have contrasts {found}")


def check_sheets_alone(bench):
    """A sheet that is opened by itself is light or dark, with enough contrast of its words and of lines in figures."""
    examples = make.examples_by_name()
    # A sheet of many steps is long in coming where the machine has other work.
    few = [it for it in COLOURED if it != "eight-transfers"]
    scripts = {name: examples[name]["text"].encode() for name in few} | {"tints": TINTS.encode()}
    for name, script in scripts.items():
        sheet = native.done("draw", native.Job(script, pages=examples.get(name, {}).get("pages", 64)))[1]
        last = [it.split('"', 1)[0] for it in sheet.decode().split('<section id="')[1:] if '<div class="memory">' in it][-1]
        tab = bench.browser.open(f"{bench.server.address('/sheet.html', sheet)}#{last}")
        for is_dark in (False, True):
            tab.resize(1440, 900, is_dark)
            lines, paper = tab.value(LINES_OF_SHEET)
            holds((luminance(paper) < 0.2) == is_dark, f"the sheet of {name} is {paper}, dark is {is_dark}")
            faint = [it for it in lines if contrast(it, paper) < LEAST_CONTRAST_OF_EDGES]
            same([lines != [], faint], [True, []], f"lines of {name} on {paper}")
            faint = tab.value(desk_page.call_of("contrasts.js", LEAST_CONTRAST))
            same(faint, [], f"texts of little contrast in the sheet of {name}, dark is {is_dark}")
        tab.close()
