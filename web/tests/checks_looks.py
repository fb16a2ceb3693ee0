"""How the page looks and reads: contrast, widths, names, the order of the focus, and whether its HTML is well made."""

import html.parser
import re

from bench import holds, same

import make

# The least contrast of text to what is behind it.
LEAST_CONTRAST = 4.5
# The examples whose pictures are looked at for contrast.
COLOURED = ("transfer", "handed-over", "eight-transfers", "killed", "made-areas", "sliding", "lessons/holes",
            "lessons/first-fit")
# Wide blocks and cards in the tints of six tasks.
TINTS = "".join(f"task {it} 9\nalloc {it} 0 2000\nalloc {it} 1 900\nclaim {it} 900\n" for it in "abcdef")
# The width of windows, and how much larger all is shown in them.
WINDOWS = ((1440, 1), (420, 1), (320, 1), (1440, 2), (1280, 4))
# Fields for texts, and how browsers would help with what is typed into them.
FIELDS = ("#name", "#command", "#lines textarea", "#files input")
HELPED = f"""Object.fromEntries({list(FIELDS)!r}.map((it) => [it, document.querySelector(it)]).map(([name, it]) =>
  [name, ['spellcheck', 'autocapitalize', 'autocomplete'].map((word) => it.getAttribute(word))]))"""
# What can be used, as it is told to those who listen, and what has to be named there.
USED = ("button", "textbox", "searchbox", "combobox", "spinbutton", "slider", "checkbox", "radio", "region", "image",
        "DisclosureTriangle")

# The names of what has several parts, as they are told.
GROUPS = {"region": ["Story", "Script", "Memory", "Messages"], "list": ["Files that the script may load",
                                                   "Lines of the script, with their replies"],
          "group": ["Scripts", "Steps", "Shown as", "Pool of pages", "Slots and module area"]}

# The headings of the page with their levels, and its parts as those who listen go from one to the next.
HEADINGS = {"Vervainfile": 1, "Commands": 2, "Keys": 2, "What is proved": 2, "Script": 2, "Memory": 2,
            "The memory of a small desktop": 2, "Tasks": 3, "Flex blocks": 3, "C heap": 3, "Files handed over": 3,
            "Tasks with code of their own": 3, "Areas of pages": 3,
            "Refusals: a command that is refused changes nothing": 3}
LANDMARKS = [("banner", ""), ("contentinfo", ""), ("main", ""), ("region", "Commands"), ("region", "Memory"),
             ("region", "Script")]
# What the fields of the page are to those who listen.
CONTROLS = [("checkbox", "Predict"), ("combobox", "Load a lesson or an example"),
            ("searchbox", "Find a command or a refusal"), ("slider", "Commands that have run"), ("textbox", "Command")]
# The fields that are there when a script is, and the panel of the file is open.
MORE_CONTROLS = [("radio", "Lens"), ("radio", "Map"), ("radio", "To scale"), ("spinbutton", "Pages"), ("textbox", "Name")]

# The colours and lines by which rows are told apart: those of the row, of its line, and of its reply.
LOOKS = """[...document.querySelectorAll('#lines > li')].map((row) => {
  const [line, reply] = ['textarea', '.reply'].map((it) => getComputedStyle(row.querySelector(it)));
  return [getComputedStyle(row).backgroundColor, line.color, line.fontStyle, reply.color, reply.textDecorationLine];
})"""
# Where commands, replies or maps have characters some of which are wider than others.
UNEVEN = """['.row:not(.remark) .line', '.reply', '#map', '#command'].filter((selector) => {
  const context = document.createElement('canvas').getContext('2d');
  context.font = getComputedStyle(document.querySelector(selector)).font;
  return context.measureText('i').width !== context.measureText('W').width;
})"""
# How the focus is shown: how wide the line around it is.
OUTLINE = "((style) => style.outlineStyle === 'none' ? 0 : parseFloat(style.outlineWidth))"
# What is seen while a script runs, with a file and a notice, as something is typed.
SEEN = {"": ("#examples", "#open", "#fresh", "#undo", "#redo", "#file-button", "#help-button", "#progress", "#slider",
             "#back", "#step", "#run", "#predict", "#notice"),
        "file-button": ("#name", "#pages", "#add", "#save", "#save-sheet", "#print", "#copy", "#copy-text", "#intro"),
        "script": ("#files li", "#files input", "#files button", ".number", ".line", ".ok .reply", ".current .why",
                   "#command", "#prompt button", "#hint code"),
        "memory": ("#views label", "#shown", "#changes li", "#picture"), "messages": ("#chart",)}
# What of some selectors isn't there, or isn't seen.
UNSEEN = """%r.filter((selector) => [...document.querySelectorAll(selector)].some(
  (it) => !it.checkVisibility({ opacityProperty: true, visibilityProperty: true })
    || it.offsetWidth < 4 || it.offsetHeight < 4) || !document.querySelector(selector))"""
# Which buttons of steps are seen whole in the window.
AT_HAND = """['back', 'step', 'run'].filter((id) => ((it) => it.top >= 0 && it.bottom <= innerHeight && it.height > 0)(
  document.getElementById(id).getBoundingClientRect()))"""

# The elements that the tab key reaches, in order.
TAB_STOPS = ["examples", "open", "fresh", "undo", "redo", "file-button", "help-button", "Line 4", "command", "Enter",
             "To scale", "Pool of pages", "Slots and module area", "summary", "back", "step", "run", "slider", "predict"]
# Elements without an end, and attributes that name ids.
VOID = {"meta", "link", "input", "br"}
# What a browser has to know before anything is shown: language, characters, widths, colours.
FACTS = ('<!DOCTYPE html>\n<html lang="en">', '<meta charset="utf-8">', "<title>Vervainfile</title>",
         '<meta name="color-scheme" content="light dark">',
         '<meta name="viewport" content="width=device-width, initial-scale=1">')
NAMING = ("for", "aria-labelledby", "aria-describedby")


def show_story(page):
    """A story with a remark, a refusal, a bad line, a file, and lines that haven't run."""
    page.load("lessons/small-buffer")
    page.drop_bytes("logo.spr", b"hello")
    for _ in range(12):
        page.click("step")
    page.enter("show z 0")
    page.enter("shw a 0")
    page.enter("save a 0 nobody x")
    page.enter("poll b")


def check_pictures_of_page(bench):
    """Pictures of the page, wide and narrow, light and dark, where a folder for these is given."""
    if not bench.pictures:
        return
    with bench.page() as page:
        for width in (1440, 420):
            for is_dark in (False, True):
                page.tab.resize(width, 900, is_dark)
                page.click("fresh")
                bench.picture(page, f"empty-{width}-{'dark' if is_dark else 'light'}")
                show_story(page)
                bench.picture(page, f"story-{width}-{'dark' if is_dark else 'light'}")
        page.click("help-button")
        bench.picture(page, "help-420-dark")


def check_contrast(bench):
    """Each text has enough contrast, light and dark, on the page and in its picture."""
    with bench.kept_page() as page:
        for is_dark in (False, True):
            light = "dark" if is_dark else "light"
            page.tab.resize(1440, 900, is_dark)
            for name in COLOURED:
                page.load(name)
                page.click("run")
                same(page.script("contrasts.js", LEAST_CONTRAST), [], f"texts of little contrast in {name}, {light}")
            page.click("fresh")
            page.drop_bytes("tints.desk", TINTS.encode())
            page.click("run")
            same(page.script("contrasts.js", LEAST_CONTRAST), [], f"texts of little contrast in six tints, {light}")
            bench.picture(page, f"tints-{light}")
            show_story(page)
            page.click("help-button")
            page.value("document.querySelector('#picture').shadowRoot.querySelector('details').open = true")
            same(page.script("contrasts.js", LEAST_CONTRAST), [], f"texts of little contrast, {light}")


# The examples whose lenses are looked at for contrast, and at which step.
COLOURED_LENSES = {"lessons/small-buffer": 9, "lessons/sliding": 13, "lessons/death": 9, "made-areas": 9}


def check_contrast_of_lens(bench):
    """Each text has enough contrast, light and dark, in lenses, and beside them on the page."""
    with bench.kept_page() as page:
        page.look("lens")
        for light in ("light", "dark"):
            page.tab.resize(1440, 900)
            # What comes in or fades would have colours that no text has.
            features = {"prefers-color-scheme": light, "prefers-reduced-motion": "reduce"}
            page.tab.call("Emulation.setEmulatedMedia",
                          features=[{"name": name, "value": value} for name, value in features.items()])
            for name, count in COLOURED_LENSES.items():
                page.load(name)
                for _ in range(count):
                    page.click("step")
                holds(page.pictured("[data-key] text") > 4, f"there are no words in the lenses of {name}")
                same(page.script("contrasts.js", LEAST_CONTRAST), [], f"texts of little contrast in {name}, {light}")
        page.tab.call("Emulation.setEmulatedMedia", features=[])


# The size of the smallest word of the picture, in units of the window; and words that are wider than their places: tags
# than a square of the pool, labels than their piece, and what stands before the pool than the room there.
WORDS_OF_FIGURES = """(() => {
  const words = (kind) => [...document.querySelector('#picture').shadowRoot.querySelectorAll(`.memory svg ${kind}`)];
  const size = (it) => parseFloat(getComputedStyle(it).fontSize) * it.getScreenCTM().a;
  const place = (it) => it.localName === 'rect' ? Number(it.getAttribute('width')) : place(it.previousElementSibling);
  const isWider = (width) => (it) => it.getBBox().width > width(it);
  const wide = [...words('.tag').filter(isWider(() => 32)), ...words('.lab').filter(isWider(place)),
    ...words('.small').filter(isWider(() => 150.5))];
  return [Math.min(...words('text').map(size)), wide.map((it) => it.textContent)];
})()"""
# The least size of a word in a picture.
LEAST_WORD = 11


def check_words_of_figures(bench):
    """In the windows of screens, tablets and phones no word of a picture is too small, or wider than its place."""
    with bench.kept_page() as page:
        for width, height in ((1280, 720), (390, 844), (1024, 768), (768, 1024), (320, 640)):
            page.tab.resize(width, height)
            for name in ("transfer", "pages", "made-areas", "lessons/holes"):
                page.load(name)
                page.click("run")
                for pages in (64, 1024):
                    page.set_pages(pages)
                    least, wide = page.value(WORDS_OF_FIGURES)
                    holds(least >= LEAST_WORD, f"a word of {name} is {least:.2f} high, {width} by {height}")
                    same(wide, [], f"what is wider than its place in {name} over {pages} pages")


def check_widths(bench):
    """Nothing goes over the page's edge, in narrow windows and at 200 percent."""
    with bench.kept_page() as page:
        show_story(page)
        for width, scale in WINDOWS:
            page.tab.resize(width, 900, False, scale)
            over = page.value("document.documentElement.scrollWidth - document.documentElement.clientWidth")
            same(over, 0, f"what goes over the edge at {width}, {scale * 100} percent")
            bench.picture(page, f"at-{width}-{scale * 100}-percent")


def check_long_words(bench):
    """Words of any length stay within the page's edges, in lines, replies, names and notices; so do maps and help."""
    script = b"task a 9\nalloc a 0 400\nshow a 0\nput a 0 0 %s\n# %s\n" % (b"6a" * 200, b"w" * 300)
    with bench.kept_page() as page:
        page.drop_bytes(f"{'n' * 99}.desk", script)
        for letter in "abcdef":
            page.drop_bytes(f"{letter * 12}.bin", b"1")
        page.click("run")
        page.click("help-button")
        page.drop_bytes(f"{'l' * 200}.bin", bytes(1048577))
        holds(page.text("notice"), "nothing is told of a long file")
        for view in ("picture", "map"):
            page.value(f"document.querySelector('[value={view}]').click()")
            for width, scale in WINDOWS:
                page.tab.resize(width, 900, False, scale)
                over = page.value("[document.documentElement, document.querySelector('#scroller')]"
                                  ".map((it) => it.scrollWidth - it.clientWidth)")
                same(over, [0, 0], f"what goes over edges at {width}, {scale * 100} percent, with a {view}")


def check_focus(bench):
    """The tab key reaches all that can be used, in the order in which it is read."""
    with bench.page() as page:
        page.load("transfer")
        for _ in range(3):
            page.click("step")
        page.focus("#examples")
        found = [page.script("focused.js")]
        while len(found) < len(TAB_STOPS):
            page.tab.key("Tab")
            found.append(page.script("focused.js"))
        same(found, TAB_STOPS, "the order of the focus")


def check_names(bench):
    """Everything that can be used has a name for those who listen, and each line is told with its reply."""
    with bench.kept_page() as page:
        show_story(page)
        nodes = page.tab.call("Accessibility.getFullAXTree")["nodes"]
        used = [Told(node) for node in nodes if not node["ignored"] and node["role"]["value"] in USED]
        same([it.role for it in used if not it.name], [], "what has no name")
        figures = [it for it in used if it.role == "image"]
        holds(figures and all(it.description for it in figures), "a figure has no description")
        line = next(it for it in used if it.name == "Line 2")
        holds(line.description.startswith("ok"), "a line is told without its reply")
        other = page.value("""[...document.querySelectorAll('#lines textarea')].filter((it) =>
          it.getAttribute('aria-describedby').split(' ').map((id) => document.getElementById(id)).some((told, at) =>
            told !== [it.nextElementSibling, it.nextElementSibling.nextElementSibling][at]))
            .map((it) => it.ariaLabel)""")
        same(other, [], "which lines are told with other replies than their own, or with other reasons")
        refused = next(it for it in used if it.role == "textbox" and "refused NoName" in it.description)
        holds("No live task has this name: z" in refused.description, "a refusal is told without its reason")
        told = [Told(node) for node in nodes if not node["ignored"]]
        named = {(it.role, it.name) for it in told}
        same([(role, name) for role, names in GROUPS.items() for name in names if (role, name) not in named], [],
             "which groups have lost their names")
        command = next(it for it in used if it.role == "textbox" and it.name == "Command")
        same(command.description, page.text("hint"), "what is told of the prompt")


def check_headings(bench):
    """Those who listen find the parts of the page by headings and by what they are, and its fields by their kinds."""
    with bench.kept_page() as page:
        page.click("help-button")
        nodes = [node for node in page.tab.call("Accessibility.getFullAXTree")["nodes"] if not node["ignored"]]
        levels = {Told(node).name: it["value"]["value"] for node in nodes if Told(node).role == "heading"
                  for it in node["properties"] if it["name"] == "level"}
        same(levels, HEADINGS, "the headings with their levels")
        told = {(it.role, it.name) for it in map(Told, nodes)}
        landmarks, controls = ({role for role, _ in them} for them in (LANDMARKS, CONTROLS))
        same(sorted(it for it in told if it[0] in landmarks), LANDMARKS, "the parts of the page")
        same(sorted(it for it in told if it[0] in controls), CONTROLS, "the fields of the page")
        page.enter("areas")
        page.click("file-button")
        nodes = [node for node in page.tab.call("Accessibility.getFullAXTree")["nodes"] if not node["ignored"]]
        told = {(it.role, it.name) for it in map(Told, nodes)}
        same([it for it in MORE_CONTROLS if it not in told], [], "the fields that are there with a script")
        live = "[...document.querySelectorAll('[role=status], [role=alert], [role=log], [aria-live]')]"
        same(page.value(f"{live}.map((it) => it.id)"), ["notice", "said"], "what is told as soon as it changes")


def check_left_as_typed(bench):
    """Browsers leave as it is typed what goes into a field: no letter becomes a capital, and nothing is underlined."""
    with bench.kept_page() as page:
        page.load("hello")
        page.drop_bytes("a.bin", b"1")
        found = page.value(HELPED)
        same([found[name] for name in FIELDS], [["false", "off", "off"]] * len(FIELDS), "how fields help")


def check_rows_look(bench):
    """Lines are told apart by colour and more: how they went, which ran last, what has changed, what hasn't run."""
    with bench.kept_page() as page:
        page.drop_bytes("rows.desk", b"# a\nareas\nareas\nshow a 0\nshw\nareas\nareas\n")
        page.click("run")
        page.set_pages(8)
        page.value("document.querySelector('#lines > li:nth-child(5) .number').click()")
        page.edit(2, "areas ")
        remark, _, ok, refused, bad, ahead, _ = page.value(LOOKS)
        same([len({ok[1], ok[3], refused[3], bad[3]}), remark[2]], [4, "italic"],
             "colours of lines and replies, and a remark's style")
        holds(bad[0] != refused[0] and ok[0] == refused[0] == ahead[0], "the line that ran last isn't told apart")
        holds(ahead[1] != ok[1] and ok[1] == bad[1], "a line that hasn't run isn't told apart")
        page.set_pages(9)
        same([look[4] for look in page.value(LOOKS)], ["none", "underline", "underline"] + ["none"] * 4,
             "what is underlined")
        wide, narrow = page.value("[...document.querySelectorAll('textarea')].slice(0, 2).map((it) => it.clientWidth)")
        holds(wide > 2 * narrow, "a remark isn't as wide as a line and its reply")
        below = page.value("(([row]) => row.getBoundingClientRect().bottom - row.querySelector('textarea')"
                           ".getBoundingClientRect().bottom)(document.querySelectorAll('.remark'))")
        holds(below < 2, "there is room below a remark, which has no reply")
        replies = page.value("getComputedStyle(document.querySelector('.reply')).whiteSpaceCollapse")
        same(replies, "preserve", "whether the spaces of a reply are kept")
        same(page.value(UNEVEN), [], "where characters aren't equally wide")


def check_seen_by_few(bench):
    """What is for those who listen isn't seen; what shows the focus, and takes a line away, is seen by the others."""
    with bench.kept_page() as page:
        show_story(page)
        sizes = page.value("[...document.querySelectorAll('.unseen')].map((it) => it.getBoundingClientRect().width)")
        holds(len(sizes) == 5 and max(sizes) < 5, f"what isn't to be seen is {sizes} wide")
        holds(page.value("document.querySelector('#said').classList.contains('unseen')"), "what is said is seen")
        for stop in ("open", "command", "step"):
            page.focus(f"#{stop}")
            page.tab.key("Tab")
            page.tab.key("Tab", "Shift")
            width = page.value(f"{OUTLINE}(getComputedStyle(document.activeElement))")
            holds(width >= 2, f"the focus on {stop} isn't seen")
        page.focus("[value=picture]")
        for frame in ("Pool of pages", "Slots and module area"):
            page.tab.key("Tab")
            same(page.script("focused.js"), frame, "what has the focus")
            width = page.value(f"{OUTLINE}(getComputedStyle(document.activeElement.shadowRoot.activeElement))")
            holds(width >= 2, f"the focus on {frame} isn't seen")
        page.focus("#lines > li:nth-child(2) textarea")
        holds(page.value(f"{OUTLINE}(getComputedStyle(document.activeElement))") >= 2, "the focus on a line isn't seen")
        removes = "[...document.querySelectorAll('.remove')].map((it) => it.checkVisibility())"
        same(page.value(removes)[:3], [False, True, False], "which lines can be taken away")
        apart = page.value("""(([row, it]) => [it.top - row.top, row.right - it.right])(['', ' .remove'].map(
          (it) => document.querySelector(`#lines > li:nth-child(2)${it}`).getBoundingClientRect()))""")
        holds(max(map(abs, apart)) < 3, f"the button that takes a line away is {apart} from its place in the line")
        behind = page.value("getComputedStyle(document.querySelector('.remove')).backgroundColor")
        holds(behind.startswith("rgb("), "a reply is seen through the button that takes its line away")


def check_all_seen(bench):
    """What the page tells and what can be used is seen, wide and narrow, there with its pane."""
    with bench.kept_page() as page:
        page.load("transfer")
        for _ in range(5):
            page.click("step")
        page.drop_bytes("a.bin", b"1")
        page.set_pages(7)
        page.tab.type("s")
        for width in (1440, 420):
            page.tab.resize(width, 900)
            for place, found in SEEN.items():
                page.value(f"document.querySelector('#{place}, #panes [value={place}]')?.click()" if place else "0")
                unseen = page.value(UNSEEN % list(found))
                same(unseen, [], f"what isn't seen at {width}, in {place or 'any pane'}")


def check_at_hand(bench):
    """In a narrow window the steps are at hand wherever the page is scrolled to; on paper there is no prompt."""
    with bench.kept_page() as page:
        page.tab.resize(420, 700)
        show_story(page)
        for place in ("0", "document.body.scrollHeight"):
            page.value(f"scrollTo(0, {place})")
            same(page.value(AT_HAND), ["back", "step", "run"], f"which steps are at hand at {place}")
        behind = page.value("getComputedStyle(document.querySelector('.steps')).backgroundColor")
        holds(behind.startswith("rgb("), "the page is seen through the steps")
        page.click("help-button")
        page.tab.call("Emulation.setEmulatedMedia", media="print")
        same(page.seen("prompt", "step", "open", "hint", "help", "lines"), ["lines"], "what is on paper")
        page.tab.call("Emulation.setEmulatedMedia", media="")


class Told:
    """What is told of an element to those who listen."""

    def __init__(self, node):
        self.role, self.name, self.description = (
            node.get(part, {}).get("value", "") for part in ("role", "name", "description"))


class Reading(html.parser.HTMLParser):
    """The page as a browser reads it: its ids, and elements that don't end where they should."""

    def __init__(self):
        super().__init__()
        self.open, self.ids, self.faults, self.targets = [], [], [], []

    def handle_starttag(self, tag, attrs):
        words = dict(attrs)
        self.ids += [words["id"]] if "id" in words else []
        self.targets += [target for name in NAMING for target in words.get(name, "").split()]
        if tag not in VOID:
            self.open.append(tag)

    def handle_endtag(self, tag):
        if not self.open or self.open.pop() != tag:
            self.faults.append(f"</{tag}> at {self.getpos()}")


def check_html(bench):
    """The page's HTML is well made, has each id once, and nothing in it leads outside."""
    reading = Reading()
    reading.feed(bench.text)
    same((reading.faults, reading.open), ([], []), "what isn't ended")
    same([it for it in set(reading.ids) if reading.ids.count(it) > 1], [], "ids that stand twice")
    same([it for it in reading.targets if it not in reading.ids], [], "ids that are named and aren't there")
    same(re.findall(r"https?://[^\s'\"]*", bench.text), [], "addresses in the page")
    missing = [it for it in FACTS if it not in bench.text]
    same(missing, [], "what browsers and those who listen have to know")
    holds(len(bench.text.encode()) < make.MOST_BYTES, "the page is too long")
