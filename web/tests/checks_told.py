"""What the page tells: titles, counts, hints, notices, examples, help, and what those who listen hear."""

import re

import native
from bench import TOP, holds, run_text, same

BUTTONS = ("undo", "redo", "save", "save-sheet", "print", "copy", "copy-text", "back", "step", "run")
# What help says of keys, and what stands on buttons.
KEYS = {"F8": "runs the next command", "Shift F8": "goes back by one command", "F9": "runs all lines",
        "Enter": "enters the command; in a line, runs all of it anew and goes to the next",
        "Tab": "at the prompt, completes the word; again, takes the next one that fits",
        "↑ ↓": "at the prompt, what was entered before; in a line, the lines around it",
        "Ctrl Enter": "in a line, runs up to it", "Shift Enter": "in a line, begins one more",
        "Backspace": "in an empty line, takes it away",
        "Ctrl Z": "takes the last change back, where nothing is being typed", "Ctrl Y": "makes it again",
        "F1": "opens this help", "Esc": "gives back what was there before; closes what lies over the page"}
NAMES = {"open": "Open…", "fresh": "New", "undo": "Undo", "redo": "Redo", "file-button": "File…", "help-button": "Help",
         "file-close": "Close", "add": "Add files…", "save": "Save script", "save-sheet": "Save all pictures",
         "print": "Print", "copy": "Copy link", "copy-text": "Copy script as text", "help-close": "Close",
         "smaller": "−", "larger": "+", "compare": "Compare", "back": "Back", "step": "Step", "run": "Run all"}
# The examples that are offered: of each group its label, and names and titles.
OFFERED = """[...document.querySelectorAll('#examples optgroup')].map((group) =>
  [group.label, [...group.children].map((it) => [it.value, it.textContent])])"""
# What a browser tells a page of its faults.
FAULT = "dispatchEvent(new ErrorEvent('error', { message: 'no more' }))"
REJECTION = """dispatchEvent(new PromiseRejectionEvent('unhandledrejection',
  { promise: Promise.resolve(), reason: new Error('no less') }))"""
# A device whose pointer is fine, as that of a mouse, or coarse, as a finger is.
WITH_POINTER = """{ const match = globalThis.matchMedia;
  globalThis.matchMedia = (query) => query.includes('pointer')
    ? { matches: query === '(pointer: %s)' } : match.call(globalThis, query); }"""
WITHOUT_CLIPBOARD = "navigator.clipboard.writeText = () => Promise.reject(new Error('not allowed'))"


def check_at_first(bench):
    """A page without a script says how to begin, and its buttons do nothing yet."""
    with bench.page() as page:
        same(page.value("document.title"), "Vervainfile", "the title")
        same(page.seen("tools", "desk", "empty", "prompt"), ["tools", "desk", "empty", "prompt"], "what is seen")
        same(page.seen("unsupported", "help", "notice", "earlier", "later", "picture", "map", "changes"), [],
             "what is seen and shouldn't be")
        same([page.text(it) for it in ("progress", "hint", "said", "shown")], [""] * 4, "what is told")
        same(page.disabled(), list(BUTTONS), "the buttons that do nothing")
        fields = "[...document.querySelectorAll('#pages, [type=file]')]"
        same(page.value(f"{fields}.map((it) => [it.min, it.max, it.accept])"),
             [["", "", ".desk,.txt,text/plain"], ["8", "1024", ""], ["", "", ""]], "what fields take")
        same(page.value("[...document.querySelectorAll('#lessons button')].map((it) => it.innerText.split('\\n')[0])"),
             list("1234567"), "the lessons that are offered")
        same(page.value("[...document.querySelector('#examples').selectedOptions].map((it) => [it.value, it.text])"),
             [["", "Lessons and examples…"]], "what stands where examples are chosen")
        for name in BUTTONS:
            page.click(name)
        same([page.text("notice"), page.value("location.hash"), page.rows()], ["", "", []], "what the buttons did")


def check_pointers(bench):
    """The prompt has the focus at first, but not where it would bring a keyboard up for fingers."""
    for pointer, wanted in (("fine", "command"), ("coarse", "")):
        with bench.page(before=WITH_POINTER % pointer) as page:
            same(page.focused() or "", wanted, f"what has the focus at first with a {pointer} pointer")


def check_buttons(bench):
    """Buttons do nothing where they have nothing to do: at the first line, at the last, and without a change."""
    with bench.page() as page:
        page.load("hello")
        same(page.disabled(), ["redo", "back"], "the buttons that do nothing at the first line")
        same([page.text("said"), page.text("shown")], ["No line has run.", ""], "what is told then")
        same(page.text("nothing"), "Nothing has run yet. Step runs the next command, Run all runs every line.",
             "what stands in place of a picture")
        same(page.seen("empty", "nothing"), ["nothing"], "what is seen")
        page.click("step")
        same([page.disabled(), page.seen("nothing", "picture")], [["redo"], ["picture"]], "what is left then")
        page.click("run")
        same(page.disabled(), ["redo", "step", "run"], "the buttons that do nothing at the last line")
        page.click("back")
        same([page.text("progress"), page.disabled()], ["6 of 7 lines have run", ["redo"]],
             "the buttons that do nothing before the last line")
        page.click("step")
        same(page.text("progress"), "7 of 7 lines have run", "where the script stands after the last step")
        page.click("undo")
        same(page.disabled(), [it for it in BUTTONS if it != "redo"],
             "the buttons that do nothing when all is taken back")
        page.click("redo")
        same([len(page.rows()), page.disabled()], [7, ["redo", "step", "run"]], "what Redo brings back")


def check_remarks_alone(bench):
    """Where remarks and empty lines alone have run, the page says that no command has."""
    no_command = "No command has run yet: the lines that have run are remarks, or empty."
    with bench.kept_page() as page:
        page.enter("# a")
        same([page.text("progress"), page.text("nothing"), page.text("said")],
             ["1 of 1 line has run", no_command, "No command has run."], "what is told of a remark")
        page.drop_bytes("empty.desk", b"\n")
        same([page.text("progress"), page.text("said")], ["0 of 1 line has run", "No line has run."],
             "what is told of an empty line before it runs")
        page.click("step")
        same([page.text("progress"), page.text("nothing"), page.text("said"), page.saved("empty.desk")],
             ["1 of 1 line has run", no_command, "No command has run.", b"\n"], "what is told of an empty line")


def check_counts(bench):
    """One line, one reply and one character are told as one; replies that aren't shown aren't counted."""
    with bench.kept_page() as page:
        page.enter("areas")
        same([page.text("progress"), page.disabled()], ["1 of 1 line has run", ["redo", "step", "run"]],
             "what is told of one line")
        page.set_pages(8)
        same(page.text("progress"), "1 of 1 line has run; 1 reply has changed", "what is told of one reply")
        page.drop_bytes("three.desk", b"areas\n" * 3)
        page.click("step")
        page.set_pages(9)
        same(page.text("progress"), "1 of 3 lines have run; 1 reply has changed", "what is told of three lines")
        same([row["kind"] for row in page.rows()], ["row ok current changed", "row ahead", "row ahead"], "the lines")
        page.click("run")
        same(page.text("progress"), "3 of 3 lines have run", "what is told after a step")


def check_place(bench):
    """The prompt says where a command goes in, unless that is the end."""
    with bench.kept_page() as page:
        page.load("hello")
        found = [page.text("hint")]
        for name in ("step", "run"):
            page.click(name)
            found.append(page.text("hint"))
        wanted = ["A command goes in before line 1.", "A command goes in behind line 2.", ""]
        same(found, wanted, "where a command goes in")
        page.value("document.querySelector('#lines .number').click()")
        same(page.text("hint"), "A command goes in behind line 1.", "where a command goes in behind a remark")
        page.click("run")
        page.click("back")
        page.focus("#command")
        page.tab.type("s")
        offered = sorted(it for it in forms_of_docs() if it.startswith("s"))
        told = "[...document.querySelectorAll('#hint code')].map((it) => it.textContent)"
        same([sorted(page.value(told)), len(offered)], [offered, 7], "the forms that are told")
        for modifiers in ((), ("Shift",)):
            page.tab.key("F8", *modifiers)
            same(sorted(page.value(told)), offered, "the forms that are told after a step")
        page.tab.key("Escape")
        same(page.text("hint"), "A command goes in behind line 6.", "the hint after Escape")


def check_long_reply(bench):
    """Of a long reply the front is shown, and how long it is; less of it is read out, and so it is of a long line."""
    script = b"task a 9\nalloc a 0 2500\nshow a 0\nareas\n"
    reply = run_text(script).split("\n")[2]
    line = f"put a 0 0 {'6a' * 400}"
    with bench.kept_page() as page:
        page.drop_bytes("long.desk", script)
        page.click("run")
        areas = run_text(script).partition(f"{reply}\n")[2].split("\n")[:-1]
        same(page.text("said"), f"Line 4, areas: {', '.join(it.strip() for it in areas)}",
             "what is said of a reply of many lines")
        page.click("back")
        same(page.rows()[2]["reply"], f"{reply[:4000]}.. ({len(reply)} characters)", "what is shown of a long reply")
        same(page.text("said"), f"Line 3, show a 0: {reply[:300]}", "what is said of it")
        same(page.text("shown"), f"3show a 0 → {reply}", "the step shown")
        page.enter(line)
        same(page.text("said").split(". ")[0], f"Line 4, {line[:300]}: ok", "what is said of a long line")
        script = script.replace(b"2500", b"1996")
        page.drop_bytes("edge.desk", script)
        page.click("run")
        same(page.rows()[2]["reply"], run_text(script).split("\n")[2], "what is shown of a reply of 4,000 characters")


def check_notices(bench):
    """Notices are told to those who listen; faults are marked as such, and go with the next change."""
    is_fault = "document.querySelector('#notice').classList.contains('fault')"
    with bench.page() as page:
        same(page.value("document.querySelector('#notice').role"), "status", "how notices are told")
        page.enter("areas")
        entries = page.value("history.length")
        page.click("copy")
        page.tab.wait(lambda: page.text("notice"), "nothing is told of a copied link")
        same([page.text("notice"), page.value(is_fault), page.value("history.length")],
             ["The link is copied. It holds the script, its files and its pages.", False, entries], "what is told")
        page.set_pages(1025)
        same([page.text("notice"), page.value(is_fault), page.field("pages")],
             ["A pool has 8 to 1024 pages.", True, "64"], "what is told of a fault")
        page.set_pages(1024)
        same([page.text("notice"), page.rows()[0]["reply"].split("\n")[0]], ["", "ok 1023"], "what is left of it")
        for event, told in ((FAULT, "no more"), (REJECTION, "no less")):
            page.value(event)
            same(page.text("notice"), f"This page has gone wrong: {told}", "what is told of the page's own faults")


def check_typed_settings(bench):
    """A step takes what is being typed as the script's name or its pages, and leaves the focus there."""
    with bench.kept_page() as page:
        page.drop_bytes("a.desk", b"areas\n")
        for name, text, key in (("pages", "8", "F9"), ("name", "typed", "F8")):
            page.value("document.querySelector('#file').hidden = false")
            page.focus(f"#{name}")
            page.value("document.activeElement.select()")
            page.tab.type(text)
            page.tab.key(key)
            same(page.focused(), name, "what has the focus")
        same([page.field("pages"), page.rows()[0]["reply"].split("\n")[0], page.field("name"), page.text("progress")],
             ["8", "ok 7", "typed.desk", "1 of 1 line has run"], "what is taken")


def check_link_by_hand(bench):
    """A link that the browser doesn't let the page copy is shown, and can be copied by hand."""
    with bench.page(before=WITHOUT_CLIPBOARD) as page:
        page.enter("areas")
        page.click("copy")
        page.tab.wait(lambda: page.text("notice"), "nothing is told of a link that isn't copied")
        same(page.text("notice"), "This is the link; it is in the address bar too:", "what is told of the link")
        holds(not page.value("document.querySelector('#notice').className"), "the link is told as a fault")
        field = "document.querySelector('#notice textarea')"
        same(page.value(f"{field}.value"), page.value("location.href"), "the link that is shown")
        same(page.value("getSelection().toString() || document.activeElement.value.slice("
                        "document.activeElement.selectionStart, document.activeElement.selectionEnd)"),
             page.value("location.href"), "what is selected")
        holds(page.value(f"{field}.readOnly && {field}.ariaLabel"), "the link can be changed, or has no name")
        page.tab.resize(420, 900)
        right = f"{field}.getBoundingClientRect().right - {field}.parentElement.getBoundingClientRect().right"
        holds(page.value(right) < 1, "the link's field goes over the edge of what is told")


def check_offered(bench):
    """Each example is offered once: lessons with their numbers, others by their topics in examples/README.md."""
    names = {str(it.relative_to(TOP / "examples").with_suffix(""))
             for part in ("*.desk", "lessons/*.desk") for it in (TOP / "examples").glob(part)}
    table = (TOP / "examples/README.md").read_text().partition("| About | Scripts |")[2].partition("\n\n")[0]
    topics = {row.split("|")[1].strip().capitalize(): re.findall("`(.*?)`", row) for row in table.splitlines()[2:]}
    lessons = re.findall(r"^## (\d)\. ", (TOP / "docs/LESSONS.md").read_text(), re.MULTILINE)
    with bench.kept_page() as page:
        offered = dict(page.value(OFFERED))
        found = [name for group in offered.values() for name, _ in group]
        same((sorted(found), list(offered)[:2]), (sorted(names), ["First", "Lessons"]), "the examples")
        for topic, about in topics.items():
            same([name for name, _ in offered[topic]], about, f"the examples about {topic}")
            holds(all(title.startswith(f"{name}: ") and len(title) > len(name) + 5 for name, title in offered[topic]),
                  f"an example about {topic} has no title")
        same([title[:3] for _, title in offered["Lessons"]], [f"{it}. " for it in lessons], "the lessons' numbers")
        same(offered["Lessons"][0], ["lessons/holes", "1. A heap, and the holes in it"], "the first lesson")


def check_beginnings(bench):
    """A page without a script offers three to begin with, and then the first step; an example has a name."""
    with bench.kept_page() as page:
        for name in ("hello", "transfer", "lessons/holes"):
            page.click("fresh")
            page.value(f"document.querySelector('#empty button[value=\"{name}\"]').click()")
            same([page.saved(f"{name.split('/')[-1]}.desk"), page.focused(), page.field("examples")],
                 [(TOP / f"examples/{name}.desk").read_bytes(), "step", name], f"what {name} brings")
        same(page.value("document.title"), "holes.desk – Vervainfile", "the title")
        page.drop_bytes("other.desk", b"areas\n")
        same(page.field("examples"), "", "the example when another script is there")


def check_examples_again(bench):
    """An example that is taken back can be chosen again, as a browser tells the page only of another choice."""
    with bench.page() as page:
        page.focus("#examples")
        page.load("hello")
        same(page.focused(), "examples", "what has the focus")
        page.click("undo")
        same([page.rows(), page.field("examples")], [[], ""], "the example that was taken back")
        page.load("hello")
        page.enter("areas")
        same(page.field("examples"), "hello", "the example when it is changed")
        page.load("lessons/holes")
        page.click("undo")
        same([page.field("name"), page.field("examples")], ["hello.desk", "hello"], "the example that was there before")
        page.load("")
        same(page.field("name"), "hello.desk", "the script when none of the examples is chosen")


def check_first_commands(bench):
    """The commands that the page without a script names can be typed, one after the other."""
    with bench.kept_page() as page:
        named = page.value("[...document.querySelectorAll('#empty code')].map((it) => it.textContent)")
        for line in named:
            page.enter(line)
        same([row["reply"].split(" ")[0] for row in page.rows()], ["ok", "ok"], "the replies")


def check_program(bench):
    """The commands that help names are the native program's, and write what the page shows."""
    with bench.kept_page() as page:
        named = page.value("[...document.querySelectorAll('#proved code')].map((it) => it.textContent)")
        same(named[0].split()[0], native.PROGRAM.name, "the program that is named")
        found = [native.done(name.split()[-1], native.Job(b"areas\n")) for name in named]
        same([status for status, _ in found], [0, 0, 0], f"what the program gives for {named}")
        page.enter("areas")
        same(page.value("lastText"), found[0][1].decode(), "the replies of the first")


def forms_of_docs():
    """The forms of commands, as docs/FORMATS.md has them."""
    block = (TOP / "docs/FORMATS.md").read_text().partition("```\ntask NAME")[2].partition("```")[0]
    return re.split(" {2,}|\n", f"task NAME{block}".strip())


def refusals_of_docs():
    """The names of refusals, as docs/DESK.md has them."""
    table = (TOP / "docs/DESK.md").read_text().partition("| Refusal | When |\n|---|---|\n")[2].partition("\n\n")[0]
    return re.findall(r"^\| (\w+) \|", table, re.MULTILINE)


def check_help(bench):
    """Help comes and goes; it has the form of each command, each refusal, and the keys; what is sought stands alone."""
    terms = "[...document.querySelectorAll('#forms dt')].filter((it) => it.checkVisibility()).map((it) => it.innerText)"
    button = "document.querySelector('#help-button')"
    with bench.kept_page() as page:
        found = [[page.value(f"{button}.ariaExpanded"), page.seen("help")]]
        for _ in range(2):
            page.click("help-button")
            found.append([page.value(f"{button}.ariaExpanded"), page.seen("help")])
        same(found, [["false", []], ["true", ["help"]], ["false", []]], "how help comes and goes")
        page.tab.key("F1")
        same([page.seen("help"), page.focused()], [["help"], "find"], "what F1 opens, and what has the focus")
        same(sorted(page.value(terms)), sorted([*forms_of_docs(), *refusals_of_docs()]), "the forms and the refusals")
        page.tab.type("budge")
        page.value("document.activeElement.dispatchEvent(new Event('input'))")
        same(page.value(terms),
             ["claim NAME N", "resize NAME ADDR DELTA", "budge NAME on", "budge NAME off", "NoBudge"],
             "what is found of budge: commands that NoBudge may refuse, too")
        page.value("document.activeElement.value = 'xyzzy'; document.activeElement.dispatchEvent(new Event('input'))")
        same([page.value(terms), page.seen("none-found")], [[], ["none-found"]], "what is found of nothing")
        page.tab.key("Escape")
        same([page.seen("help"), page.focused()], [[], "help-button"], "what Escape closes, and what has the focus")
        same(page.value(f"{button}.getAttribute('aria-controls')"), "help", "what the button is for")
        keys = page.value("[...document.querySelectorAll('.keys dt')].map((it) => [it.textContent, "
                          "it.nextElementSibling.textContent])")
        same(dict(keys), KEYS, "what keys do")
        buttons = page.value("[...document.querySelectorAll('button[id]')].map((it) => [it.id, it.textContent])")
        same({name: text for name, text in buttons if name not in ("earlier", "later")}, NAMES, "the names of buttons")
        keys = page.value("['back', 'step', 'run'].map((it) => document.getElementById(it).ariaKeyShortcuts)")
        same(keys, ["Shift+F8", "F8", "F9"], "the keys of buttons")
