"""What a class does with the page: the story and its questions, predictions, explanations, completion, undo, links."""

import itertools
import json
import re

import native
import pace
from bench import TOP, holds, same
from checks_told import forms_of_docs, refusals_of_docs

import make

# The windows in which a class may see the page: of classrooms' screens, of tablets, and of phones.
WINDOWS = ((1280, 720), (1366, 768), (1440, 900), (1920, 1080), (1024, 768), (820, 1180), (390, 844), (360, 640))
# What has to be in sight at each step, and how much of it at least.
IN_SIGHT = {"#step": 20, "#back": 20, "#slider": 10, "#shown": 14, "#frame": 110}
# An example is walked through by at most so many steps.
MOST_STEPS = 30
# How many pixels a unit of a lens has, in the smallest one.
LEAST_OF_LENSES = """Math.min(...[...document.querySelector('#picture').shadowRoot.querySelectorAll('.memory svg')]
  .filter((it) => it.querySelector('[data-key]'))
  .map((it) => it.getBoundingClientRect().width / it.viewBox.baseVal.width))"""
# Words that stand in place of those of a form.
SAMPLES = {"NAME": "a", "TO": "b", "FILE": "f", "A": "0", "BUF": "9", "N": "5", "OFF": "0", "AT": "0", "DELTA": "-4",
           "BY": "4", "K": "256", "MAX": "4", "ID": "1", "ADDR": "&8114", "HEX": "6869", "LEAF": "x!", "CODE": "18",
           "HANDLE": "1", "REF": "0", "ACTION": "524614", "DATA": "1481000004000000"}
# Words that a form of each kind doesn't take.
OTHERS = {"NAME": "1a", "TO": "a-b", "FILE": "x" * 13, "A": "64", "BUF": "0", "N": "-1", "OFF": "2147483648", "AT": "x",
          "DELTA": "+4", "BY": "&4", "K": "65536", "MAX": "1025", "ID": "0", "ADDR": "8114", "HEX": "6",
          "LEAF": "x" * 11, "CODE": "19", "HANDLE": "0", "REF": "-1", "ACTION": "4294967296", "DATA": "010203"}
# What a system has that asks for less motion.
LESS_MOTION = [{"name": "prefers-reduced-motion", "value": "reduce"}]
WHY = "[...document.querySelectorAll('#lines > li')].map((it) => it.querySelector('.why').textContent)"
FIXES = "[...document.querySelectorAll('#lines .fix')].map((it) => it.textContent)"
WORDS = "[...document.querySelectorAll('#hint .word')].map((it) => it.textContent)"
TOLD = "document.querySelector('.question[open] .told').textContent"
TALE = "['.title', '.tale'].map((it) => document.querySelector(it).textContent)"
# A site that forbids the module, as a header of its answer does.
STRICT = "<meta http-equiv=\"Content-Security-Policy\" content=\"script-src 'unsafe-inline'\">"


def lines(page):
    return [row["line"] for row in page.rows()]


def press(page, key, *modifiers):
    page.tab.key(key, *modifiers)


def names_of_examples(width):
    """The examples that are walked through in a window: in most of them the lessons and some others."""
    names = list(make.examples_by_name())
    return names if width in (1280, 390) else [it for it in names if it.startswith("lessons/")] + ["transfer"]


def walk_in_sight(page, name, size):
    """Goes through an example, at each step of which the steps and the picture are in sight."""
    page.load(name)
    steps = min(MOST_STEPS, len(make.examples_by_name()[name]["text"].splitlines()))
    for found, scrolled, over, shown in page.script("walk.js", steps, list(IN_SIGHT)):
        short = {it: seen for (it, least), seen in zip(IN_SIGHT.items(), found) if seen < least}
        same([short, scrolled, max(0, over)], [{}, 0, 0],
             f"what isn't in sight, and what is scrolled, in {name} at {shown}, {size}")


def check_windows(bench):
    """In each window the steps and the picture are in sight at each step, and the page itself isn't scrolled."""
    with bench.kept_page() as page:
        for width, height in WINDOWS:
            page.tab.resize(width, height)
            for name in names_of_examples(width):
                walk_in_sight(page, name, f"{width} by {height}")
            bench.picture(page, f"window-{width}-{height}")


def check_lens_in_windows(bench):
    """The same holds in each window where memory is seen through a lens, which no window makes smaller."""
    with bench.kept_page() as page:
        page.look("lens")
        for width, height in WINDOWS:
            page.tab.resize(width, height)
            for name in ("lessons/small-buffer", "lessons/death"):
                walk_in_sight(page, name, f"{width} by {height} through a lens")
                least = page.value(LEAST_OF_LENSES)
                holds(least > 0.97, f"a lens of {name} is drawn at {least:.2f} of its size in {width} by {height}")
            bench.picture(page, f"lens-{width}-{height}")


def check_story(bench):
    """The remark before a command stands beside it until the next one; a title at its command alone."""
    with bench.kept_page() as page:
        page.load("lessons/holes")
        remark = "A heap hands out blocks from below. Each has a word in front of it for its size, and takes a multiple"
        holds(page.value(TALE)[1].startswith(remark), "the first remark isn't told before the first step")
        found = []
        for _ in range(7):
            page.click("step")
            found.append(page.value(TALE))
        same([title for title, _ in found],
             [""] * 5 + ["Three blocks, one after the other", "A hole between two blocks"], "the titles")
        same([tale[:19] for _, tale in found], [remark[:19]] * 5 + ["", "A block in the midd"],
             "the remarks, of which a title behind commands ends one")
        page.drop_bytes("plain.desk", b"areas\n")
        same(page.seen("story"), [], "what is told of a script without remarks")
        page.drop_bytes("told.desk", b"# one\n# two\nareas\n")
        same([page.seen("story"), page.value(TALE)], [["story"], ["", "one two"]], "what is told of two lines")


def check_questions(bench):
    """A lesson asks each question behind its line; right answers are told from wrong ones, and can be shown."""
    form = "document.querySelector('.question[open] form')"
    with bench.page() as page:
        page.load("lessons/holes")
        same(page.value("document.querySelectorAll('.question').length"), 0, "the questions before the first step")
        for _ in range(8):
            page.click("step")
        same(page.value("document.querySelector('.question summary').textContent"), "Question 3", "what is asked")
        same(page.value(f"[...{form}.querySelectorAll('label')].map((it) => it.textContent)"),
             ["308 bytes", "309 bytes"], "the fields")
        page.value(f"{form}.querySelector('input').focus()")
        page.tab.type("824c")
        press(page, "Enter")
        same([page.value(TOLD), page.value(f"[...{form}.querySelectorAll('input')].map((it) => it.ariaInvalid)")],
             ["Not so: 309 bytes is another one. Look at the picture, and try again.", ["false", "true"]],
             "what is told of half an answer")
        page.value(f"{form}.querySelectorAll('input')[1].focus()")
        page.tab.type("&84BC")
        press(page, "Enter")
        holds(page.value(TOLD).startswith("Right. With 308 bytes it needs 312"), "a right answer isn't told as such")
        same(page.value("document.querySelector('.score').textContent"), "1 of 4 answered", "how many are answered")
        page.click("back")
        page.value(f"{form}.querySelector('.plain').click()")
        holds(page.value(TOLD).startswith("2884. The hole has 312"), "an answer isn't shown")
        same(page.value("document.querySelector('.score').textContent"), "1 of 4 answered", "how many then")
        page.edit(2, "task a 90")
        holds("questions are about it as it was" in page.text("story"), "nothing is told of a lesson that was changed")
        page.load("hello")
        same(page.value("document.querySelectorAll('.question, .lesson:not([hidden])').length"), 0,
             "the questions of another example")


def check_lessons(bench):
    """Each right answer is a word of the native program's reply, the document tells it, and the page takes it."""
    count = 0
    with bench.kept_page() as page:
        for name, questions in make.questions().items():
            script = make.text_of(name).splitlines()
            page.load(name)
            for number, question in enumerate(questions, 1):
                page.value(f"document.querySelectorAll('#lines .number')[{question['after'] - 1}].click()")
                rights = [right_answer(script, field) for field in question["fields"]]
                for right in rights:
                    holds(re.search(rf"(?<![\w&]){re.escape(right)}\b", question["answer"]),
                          f"the answer to question {number} of {name} doesn't tell {right}")
                    count += 1
                found = page.value(ANSWER_ALL % (number, json.dumps(rights)))
                wanted = "Right. " if rights else ""
                holds(found.startswith(wanted) and len(found) > 20, f"question {number} of {name} tells {found}")
    holds(count > 16, f"only {count} answers were looked at")


# Opens a question by its number, gives it answers, and gives what is told: of a question without fields its answer.
ANSWER_ALL = """((number, rights) => {
  const question = [...document.querySelectorAll('.question')].find((it) =>
    it.querySelector('summary').textContent.startsWith(`Question ${number}`));
  question.open = true;
  [...question.querySelectorAll('input')].forEach((field, at) => field.value = rights[at]);
  question.querySelector(rights.length ? '.check' : '.plain').click();
  return question.querySelector('.told').textContent;
})(%d, %s)"""


def right_answer(script, field):
    """The word of the native program's reply that is the right answer to a field."""
    text = "".join(f"{it}\n" for it in [*script[: field["upTo"]], *field["then"]])
    replies = re.split(r"\n(?! {2})", native.done("run", native.Job(text.encode()))[1].decode().rstrip("\n"))
    return replies[-1].split("\n")[field["row"] - 1].split()[field["word"] - 1]


def check_predictions(bench):
    """With Predict a step compares what was guessed with the reply; nothing guessed isn't counted."""
    with bench.kept_page() as page:
        page.load("lessons/holes")
        same(page.seen("guess"), [], "what is seen without Predict")
        page.click("predict")
        same([page.seen("guess"), page.focused(), page.value("document.querySelector('#guess-asks').innerText")],
             [["guess"], "guessed", "Line 2 is task a 100. What will the desk reply?"], "what is asked")
        told = []
        for guess, key in (("ok 1", "F8"), ("", "Enter"), ("8114", "Enter"), ("ok &9", "F8"), ("no", "F8")):
            page.tab.type(guess) if guess else None
            press(page, key)
            told.append(page.text("guess-told"))
        same(told, ["Right: ok 1 (1 of 1)", "It is: ok 3840 3820 3824", "Right: ok &8114 (2 of 2)",
                    "Nearly: ok &824C (2 of 3)", "No: ok &8384 (2 of 4)"], "what is told of guesses")
        same([page.focused(), page.field("guessed"), page.text("progress")], ["guessed", "", "6 of 23 lines have run"],
             "what has the focus, and where the script stands")
        page.click("run")
        same([page.seen("guess", "guessed", "compare"), page.disabled()], [["guess"], ["redo", "step", "run"]],
             "what is left of it at the end")
        page.click("back")
        page.focus("#guessed")
        page.tab.type("ok")
        press(page, "Enter")
        same([page.focused(), page.seen("guess", "guessed"), page.text("progress")],
             ["step", ["guess"], "23 of 23 lines have run"], "what has the focus behind the last guess")
        page.load("hello")
        same(page.text("guess-told"), "", "what is told of another script")


def check_slider(bench):
    """The slider goes through the commands, by keys too, and tells the line; ticks show titles and questions."""
    with bench.kept_page() as page:
        page.load("lessons/holes")
        slider = "document.querySelector('#slider')"
        same(page.value(f"[{slider}.max, {slider}.value, {slider}.ariaValueText]"),
             ["15", "0", "before the first command"], "the slider at first")
        page.focus("#slider")
        for key, wanted in (("ArrowRight", 2), ("End", 23), ("ArrowLeft", 22), ("Home", 0)):
            press(page, key)
            same(page.text("progress"), f"{wanted} of 23 lines have run", f"where the script stands after {key}")
        page.tab.key("F8")
        same([page.focused(), page.value(f"{slider}.ariaValueText")], ["slider", "line 2, task a 100: ok 1"],
             "what is told of the slider after a step")
        ticks = "[...document.querySelectorAll('#ticks i')].map((it) => it.className)"
        same(page.value(ticks), ["", "", "", "", "asks", "titled", "titled asks", "asks", "titled", "", "", "titled",
                                 "asks", "", ""], "the ticks")
        page.drop_bytes("long.desk", b"areas\n" * 121)
        same(page.value(f"[{slider}.max, document.querySelectorAll('#ticks i').length]"), ["121", 0],
             "the ticks of many commands")


def check_explained(bench):
    """Below the line that ran last, and each that is refused or bad, stands why; a near miss has a button."""
    script = (b"task a 100\nalloc a 0 5\nput a 0 0 hello\nalloc a 0 5\ntsk b 5\nrelease a 8114\nclaim a 20\n"
              b"task\tc\t5\npoll a\n")
    with bench.kept_page() as page:
        page.drop_bytes("a.desk", script)
        same(page.text("notice"), "1 line has tabs, which part no words in a script. Mend them", "what is told of tabs")
        page.click("run")
        same(page.value(WHY),
             ["", "", 'Word 5 "hello": bytes are hexadecimal digits, two for each. Make it: put a 0 0 68656c6c6f',
              "This anchor has a block already: 0 – take another anchor, or free that block first. "
              "Nothing was changed.", 'Word 1 "tsk": no command has this name. Is task meant? Make it: task b 5',
              'Word 3 "8114": an address is & and 1 to 8 hexadecimal digits. Make it: release a &8114', "",
              "A tab; part words by spaces. Make it: task c 5", "No message waits for it."],
             "what is told of lines")
        for left, line in ((3, 3), (2, 5), (1, 6), (0, 8)):
            page.value("document.querySelector('#lines .fix').focus(); document.activeElement.click()")
            same([page.value(f"{FIXES}.length"), page.focused()], [left, f"Line {line}"],
                 "how many near misses are left, and what has the focus")
        same([row["reply"] for row in page.rows()], ["ok 1", "ok &9008", "ok", "refused AnchorInUse", "ok 2",
                                                     "refused NotABlock", "ok &8114", "ok 3", "ok 0"], "the replies")
        page.click("undo")
        same(lines(page)[7], "task\tc\t5", "the line when its mending is taken back")
        page.drop_bytes("cut.desk", b"areas")
        page.click("run")
        page.value("document.querySelector('#lines .fix').click()")
        same(page.saved("cut.desk"), b"areas\n", "the script whose last line was ended")


def check_numbers_of_chart(bench):
    """The chart names steps by their lines in the script; a click on such a number goes to the line."""
    chart = "document.querySelector('#chart').shadowRoot"
    with bench.kept_page() as page:
        page.load("not-delivered")
        page.value("document.querySelectorAll('#lines .number')[10].click()")
        same(page.value(f"[...{chart}.querySelectorAll('.beat')].map((it) => it.textContent)"), ["6", "7", "8", "11"],
             "the lines of the chart")
        said = page.value(f"{chart}.querySelector('desc').textContent")
        holds("3 RAMTransmit from a to task 2, sent at line 8, vanished at line 11: " in said, f"it reads out {said}")
        click = "new Event('click', {bubbles: true, composed: true})"
        page.value(f"{chart}.querySelector('.beat').dispatchEvent({click})")
        same([page.text("progress"), page.text("shown")], ["6 of 18 lines have run", "6save a 0 b hello → ok 1"],
             "the line of a number that is clicked on")


def check_stillness(bench):
    """Of a question, and of a command that is refused or bad, it is told that memory stays; of no other one."""
    script = (b"task a 9\nareas\nclaim a 20\nheap a\nblocks a\nstatus a\nalloc a 0 5\nshow a 0\nread a &9008 5\n"
              b"extend a 0 5\npoll a\nrelease a &9\nread a &9008 6\nheaps a\n")
    asked, stays = "A question: memory stays as it is.", "Memory stays as it is."
    # Of those with None something is told that has changed; of those with an empty text nothing at all.
    wanted = [None, asked, None, asked, asked, asked, None, asked, asked, "", "", stays, stays, stays]
    with bench.kept_page() as page:
        page.drop_bytes("a.desk", script)
        for number, told in enumerate(wanted, 1):
            page.click("step")
            found = page.text("changes")
            if told is None:
                holds(found and asked not in found and stays not in found, f"{number} tells {found!r} of a change")
            else:
                same(found, told, f"what {number} tells")
        page.value("document.querySelector('[value=map]').click()")
        same(page.seen("changes"), [], "what is told beside a map")


def check_windows_line_ends(bench):
    """A script of Windows is opened as it is; one button ends all lines by a line feed, and Undo takes that back."""
    script = b"\xef\xbb\xbftask a 9\r\n# b\r\nareas\r\n"
    with bench.kept_page() as page:
        page.drop_bytes("a.desk", script)
        same(page.text("notice"), "3 lines have line ends of Windows and a mark of its encoding, which part no words "
             "in a script. Mend them", "what is told")
        page.value("document.querySelector('#notice button').click()")
        same([page.saved("a.desk"), page.text("notice"), page.focused()], [b"task a 9\n# b\nareas\n", "", "step"],
             "the script that was mended, what is told, and what has the focus")
        page.click("undo")
        same(page.saved("a.desk"), script, "the script when that is taken back")
        page.click("step")
        told = page.value("[...document.querySelectorAll('#lines .why')].map((it) => it.textContent)")
        same(told, ["A carriage return at its end; end lines with a line feed alone. Make it: task a 9 "
                    "Mend all 3 such lines", "", ""], "what is told of the line that ran last")
        page.click("run")
        told = page.value("[...document.querySelectorAll('#lines .why')].map((it) => it.textContent)")
        same([it.endswith("Mend all 3 such lines") for it in told], [False, False, True], "which line has a button")
        page.value("document.querySelector('#lines > li:last-child .fix:last-child').click()")
        same([page.saved("a.desk"), page.focused(), page.replies()[:5]],
             [b"task a 9\n# b\nareas\n", "Line 3", "ok 1\n"],
             "the script that was mended there, what has the focus, and the first reply")
        page.drop_bytes("b.desk", b"areas\nareas\t\nareas\n")
        page.click("run")
        page.click("back")
        same(page.value(FIXES), ["Make it: areas"], "the buttons of one odd line")


# Clicks on something, and gives what moves then: of each its title, its words or its class, and from where to where.
MOVING = """((act) => {
  act();
  const ofFrame = ({ x, y, width, transform, opacity }) => [x, y, width, transform, opacity].filter(Boolean).join(' ');
  return %s.getAnimations().map(({ effect }) => [
    effect.target.querySelector('title')?.textContent ?? (effect.target.textContent || effect.target.className.baseVal),
    ...effect.getKeyframes().map(ofFrame)]);
})(() => document.querySelector('%s').click())"""
LINE = "#lines > li:nth-child(%s) .number"


def check_movement(bench):
    """Between neighbouring steps blocks go from place to place; not over several steps, nor where that isn't wanted."""
    tree = "document.querySelector('#picture').shadowRoot"
    picture = f"{tree}.querySelector('.memory').innerHTML"

    def moving(selector):
        return page.value(MOVING % (tree, selector))

    with bench.kept_page() as page:
        page.load("lessons/sliding")
        same(moving(LINE % 3), [], "what moves where nothing was seen before")
        # A row of 4,096 bytes is 1,024 units wide, from 150 on. A block of 100 bytes with its header of 8 has 27.
        same(moving("#step"), [["flex block 1, &9074, 100 bytes", "0", "1"], ["1", "0", "1"]], "what comes in")
        still = page.value(f"document.querySelector('#step').click(); {picture}")
        page.tab.wait(lambda: page.value(f"{tree}.getAnimations().length") == 0, "what comes in goes on and on")
        same(page.value(picture), still, "the picture, once nothing moves any more")
        slides = [["flex block 0, &9008, 200 bytes", "150px 85px 27px", "150px 85px 52px"],
                  ["0", "translate(-12.5px, 0px)", "none"],
                  ["flex block 1, &90D8, 100 bytes", "177px 85px 27px", "202px 85px 27px"],
                  ["1", "translate(-25px, 0px)", "none"]]
        arrows = [[it, "0", "1"] for it in ("casing", "ghost", "casing", "slide")]
        same(moving("#step"), slides + arrows, "what moves as block 0 gets longer")
        page.tab.wait(lambda: page.value(f"{tree}.getAnimations().length") == 0, "it moves on and on")
        same([it[:2] for it in moving("#back")][0::2], [[slides[0][0].replace("200", "100"), slides[0][2]],
             ["flex block 1, &9074, 100 bytes", slides[2][2]]], "what moves on the way back")
        same(page.value(picture), still, "the picture")
        same(moving(LINE % 12), [], "what moves over several steps")
        # The heap has a page more, and the row in which both blocks were is the middle one of three now.
        budged = [it for it in moving("#step") if it[0].startswith("flex")]
        same(budged, [["flex block 0, &A008, 100 bytes", "150px 115px 27px", "150px 85px 27px"],
                      ["flex block 1, &A074, 100 bytes", "177px 115px 27px", "177px 85px 27px"]], "what budges")
        page.enter("alloc a 2 5")
        page.tab.call("Emulation.setEmulatedMedia", features=LESS_MOTION)
        same([moving("#back"), moving("#step")], [[], []], "what moves where less motion is asked for")
        page.tab.call("Emulation.setEmulatedMedia", features=[])


# Steps on or back, and gives what fades over the picture then: its class, its units, and how far it is from a shape in
# the picture, as frames show it that come behind. It is stopped meanwhile, and fades then.
FADING = """(async (button, shape) => {
  const tree = document.querySelector('#picture').shadowRoot;
  document.querySelector(button).click();
  const moves = tree.getAnimations();
  moves.forEach((it) => it.pause());
  for (const _ of [1, 2]) await new Promise(requestAnimationFrame);
  const fades = moves.map(({ effect }) => effect.target).filter((it) => it.closest('.flying'));
  const found = fades.map(({ firstChild: it }) => {
    const [one, other] = [it, tree.querySelector(`.memory ${shape}`)].map((at) => at.getBoundingClientRect());
    return [it.getAttribute('class'), ...['x', 'y', 'width'].map((name) => Number(it.getAttribute(name))),
      Math.round(Math.max(...['x', 'y', 'right', 'bottom'].map((name) => Math.abs(one[name] - other[name]))))];
  });
  moves.forEach((it) => it.play());
  return found;
})('%s', '%s')"""


def check_fading(bench):
    """What is gone fades where it was, over the picture, and nothing stays of it; none where less motion is wanted."""
    with bench.kept_page() as page:
        page.load("lessons/holes")
        page.value(f"document.querySelector('{LINE % 10}').click()")
        # The second of three blocks of 312 bytes with their headers begins 584 bytes above &8000.
        same(page.value(FADING % ("#step", ".hole")), [["used t0", 150 + 146, 3, 78, 0]], "what fades at a release")
        page.tab.wait(lambda: page.value("!document.querySelector('#picture').shadowRoot.querySelector('.flying')"),
                      "what is gone stays over the picture")
        [hole] = page.value(FADING % ("#back", ".used"))
        same(hole[:4], ["hole", 150 + 146, 3, 78], "what fades on the way back")
        page.tab.call("Emulation.setEmulatedMedia", features=LESS_MOTION)
        same(page.value(FADING % ("#step", ".hole")), [], "what fades where less motion is asked for")
        page.tab.call("Emulation.setEmulatedMedia", features=[])


# Steps on or back, and gives the bytes that fly then: each one's character, the names of the cards over which it is at
# first and at last, and how many milliseconds behind the first one it begins. Those before are looked for at first, and
# those behind as frames show them that come behind: bytes are stopped meanwhile, and fly then.
FLYING = """(async (button) => {
  const tree = document.querySelector('#picture').shadowRoot;
  const cards = () => [...tree.querySelectorAll('.card')].map((card) => {
    const [place, corner] = [card, tree.querySelector('.figure')].map((it) => it.getBoundingClientRect());
    const name = `${card.parentNode.querySelector('title').textContent}, ${card.nextElementSibling.textContent}`;
    const { width, height } = place;
    return { name, left: place.left - corner.left, top: place.top - corner.top, width, height };
  });
  const before = cards();
  document.querySelector(button).click();
  const moves = tree.getAnimations();
  moves.forEach((it) => it.pause());
  for (const _ of [1, 2]) await new Promise(requestAnimationFrame);
  const under = (places, { transform }) => {
    const [x, y] = transform.match(/-?[0-9.]+/g).map(Number);
    return places.find((it) => x >= it.left && x < it.left + it.width && y >= it.top && y < it.top + it.height)?.name;
  };
  const found = moves.filter(({ effect }) => effect.target.matches('.flyer')).map(({ effect }) => {
    const [from, to] = effect.getKeyframes();
    return [effect.target.textContent, under(before, from), under(cards(), to),
      effect.getTiming().delay];
  });
  moves.forEach((it) => it.play());
  return found;
})('%s')"""


WRITER, BUFFER, READER = (f"The slot of {it}" for it in ("writer, anchor 0 &9008", "reader, buffer &8114",
                                                         "reader, anchor 0 &9008"))
A, B_BUFFER, B = (f"The slot of {it}" for it in ("a, anchor 0 &9008", "b, buffer &8114", "b, anchor 0 &9008"))
# At which lines of a lesson which bytes go from which card to which one.
WAYS = {12: ("let", WRITER, BUFFER), 15: ("let", BUFFER, READER), 17: ("ter", WRITER, BUFFER),
        18: ("ter", BUFFER, READER), 21: ("s", WRITER, BUFFER), 25: ("s", BUFFER, READER)}
WAYS_BESIDE_FORGERY = {17: ("RISC", A, B_BUFFER), 18: ("RISC", B_BUFFER, B), 19: ("OS", A, B_BUFFER),
                       21: ("OS", B_BUFFER, B)}


def check_flight(bench):
    """Bytes that a step copies fly from document to buffer, and from buffer to document; none at a forged message, on
    the way back, or where less motion is asked for; nothing stays of them."""
    with bench.kept_page() as page:
        for name, ways in (("forged", WAYS_BESIDE_FORGERY), ("small-buffer", WAYS)):
            flown = {at: [[it, source, target, 40 * count] for count, it in enumerate(word)]
                     for at, (word, source, target) in ways.items()}
            page.load(f"lessons/{name}")
            seen = {}
            while "step" not in page.disabled():
                found = page.value(FLYING % "#step")
                line = int(page.value("document.querySelector('#shown b').textContent"))
                seen |= {line: found} if found else {}
            same(seen, flown, f"which bytes fly at which lines of {name}")
        page.tab.wait(lambda: page.value("!document.querySelector('#picture').shadowRoot.querySelector('.flying')"),
                      "bytes stay over the picture")
        same(page.value(FLYING % "#back"), [], "what flies on the way back")
        page.tab.call("Emulation.setEmulatedMedia", features=LESS_MOTION)
        same(page.value(FLYING % "#step"), [], "what flies where less motion is asked for")
        page.tab.call("Emulation.setEmulatedMedia", features=[])


# Of what the last command has changed of slots and the module area, how many shapes are seen whole; how many there are;
# and of the cards from which and to which its bytes went those that are seen too little: of the first one the lowest line
# is enough. And which step is shown.
CHANGED_IN_SIGHT = """((source, target) => {
  const figure = document.querySelector('#picture').shadowRoot.querySelector('.memory');
  const { top, bottom } = document.querySelector('#frame').getBoundingClientRect();
  const isSeen = (it, height) => ((place) => place.bottom <= bottom + 1
    && Math.max(place.top, place.bottom - height) >= top - 1)(it.getBoundingClientRect());
  const fresh = [...figure.querySelectorAll('svg .fresh:not(.cell)')];
  const nameOf = ({ parentNode, nextElementSibling }) =>
    `${parentNode.querySelector('title').textContent}, ${nextElementSibling.textContent}`;
  const faint = [...figure.querySelectorAll('.card')].map((it) => [nameOf(it), it]).filter(([name, it]) =>
    name === source && !isSeen(it, 17) || name === target && !isSeen(it, 1000));
  return [fresh.filter((it) => isSeen(it, 1000)).length, fresh.length, faint.map(([name]) => name),
    document.querySelector('#shown').textContent.trim().slice(0, 20)];
})(...%s)"""


def check_changed_in_sight(bench):
    """What a step has changed is in sight, and so are both cards between which bytes go, wide and on a phone."""
    with bench.kept_page() as page:
        for width, height, *names in ((1280, 720, "small-buffer", "death", "sliding"), (390, 844, "small-buffer")):
            page.tab.resize(width, height)
            page.tab.call("Emulation.setEmulatedMedia", features=LESS_MOTION)
            for name in names:
                page.load(f"lessons/{name}")
                while "step" not in page.disabled():
                    page.click("step")
                    line = int(page.value("document.querySelector('#shown b').textContent"))
                    way = WAYS.get(line, ())[1:] if name == "small-buffer" else ()
                    seen, count, unseen, _ = page.value(CHANGED_IN_SIGHT % json.dumps(way))
                    holds(seen or not count, f"nothing of {count} changes at line {line} of {name} is seen at {width}")
                    same(unseen, [], f"which cards at line {line} of {name} aren't seen at {width}")
        page.tab.call("Emulation.setEmulatedMedia", features=[])


def check_changed_in_lens(bench):
    """What a step has changed is in sight through a lens too, wide and on a phone."""
    with bench.kept_page() as page:
        page.look("lens")
        for width, height, *names in ((1280, 720, "death", "sliding"), (390, 844, "small-buffer")):
            page.tab.resize(width, height)
            page.tab.call("Emulation.setEmulatedMedia", features=LESS_MOTION)
            for name in names:
                page.load(f"lessons/{name}")
                changes = 0
                while "step" not in page.disabled():
                    page.click("step")
                    seen, count, _, shown = page.value(CHANGED_IN_SIGHT % "[]")
                    changes += count > 0
                    holds(seen or not count, f"nothing of {count} changes at {shown} of {name} is seen at {width} "
                          "through a lens")
                holds(changes > 4, f"only {changes} steps of {name} change something in a lens")
        page.tab.call("Emulation.setEmulatedMedia", features=[])


def sampled(form):
    """A line of a form, with samples for its words."""
    return " ".join(SAMPLES.get(word, word) for word in form.split())


def check_forms(bench):
    """Each form and each refusal of the documents is explained, as the module takes it, and none besides."""
    forms = forms_of_docs()
    good = "".join(f"{sampled(it)}\n" for it in forms)
    with bench.kept_page() as page:
        page.drop_bytes("forms.desk", good.encode())
        page.click("run")
        bad = [row for row in page.rows() if row["reply"].startswith("bad")]
        same(bad, [], "which forms the module doesn't take")
        for number, form in enumerate(forms, 1):
            page.value(f"document.querySelectorAll('#lines .number')[{number - 1}].click()")
            holds(len(page.value(WHY)[number - 1]) > 15, f"nothing is told of {form}")
        same(sorted(page.value("[...document.querySelectorAll('#forms dt')].map((it) => it.textContent)")),
             sorted([*forms, *refusals_of_docs()]), "what is explained")


def check_refusals_seen(bench):
    """Each refusal that an example or a worked row brings is explained."""
    known = set(refusals_of_docs())
    found = {word for path in (TOP / "examples").glob("**/*.out")
             for word in re.findall(r"^(?:refused|ok .* failed) (\w+)$", path.read_text(), re.MULTILINE)}
    holds(len(found) > 12 and found <= known, f"{len(found)} refusals, not in docs/DESK.md: {found - known}")


def check_completion(bench):
    """Tab completes the word from what is live, goes through several, and leaves the field where nothing fits."""
    with bench.page() as page:
        for line in ("task alpha 100", "task beta 100", "alloc alpha 0 5", "claim alpha 20", "claim alpha 30"):
            page.enter(line)
        typed = []
        for text, keys in (("cl", ("Tab",)), ("", ("Tab",)), ("", ("Tab",)), ("", (("Tab", "Shift"),))):
            page.tab.type(text) if text else None
            for key in keys:
                press(page, *((key,) if isinstance(key, str) else key))
            typed.append(page.field("command"))
        same(typed, ["claim ", "claim alpha", "claim beta", "claim alpha"], "what Tab brings")
        pressed = page.value("[...document.querySelectorAll('#hint .word')].map((it) => it.ariaPressed)")
        same([page.value(WORDS), pressed], [["alpha", "beta"], ["true", "false"]], "the words that are offered")
        press(page, "Escape")
        page.tab.type("release alpha ")
        same(page.value(WORDS), ["&8114", "&812C"], "the addresses that are offered")
        page.value("document.querySelectorAll('#hint .word')[1].click()")
        same([page.field("command"), page.focused()], ["release alpha &812C", "command"], "what a click takes")
        press(page, "Enter")
        same(page.rows()[-1]["reply"], "ok", "the reply")
        page.tab.type("free alpha ")
        press(page, "Tab")
        same([page.field("command"), page.focused()], ["free alpha 0", "command"], "the only word that fits")
        press(page, "Tab")
        same(page.script("focused.js"), "Enter", "what has the focus where nothing more fits")
        press(page, "Tab", "Shift")
        press(page, "Escape")
        press(page, "Tab")
        same(page.script("focused.js"), "Enter", "what has the focus behind an empty prompt")
        press(page, "Tab", "Shift")
        page.tab.type("kill")
        press(page, "Tab", "Shift")
        same(page.focused(), "Line 6", "what Shift and Tab go back to")


def check_undo_keys(bench):
    """Ctrl and Z or Y take back and make again, but not in a field that is being typed in."""
    with bench.page() as page:
        page.enter("areas")
        page.enter("task a 9")
        found = []
        for key in (("z", "Control"), ("z", "Control"), ("y", "Control"), ("Z", "Control", "Shift"), ("z", "Meta")):
            press(page, *key)
            found.append(len(lines(page)))
        same(found, [1, 0, 1, 2, 1], "how many lines there are")
        page.tab.type("typed")
        press(page, "z", "Control")
        same(len(lines(page)), 1, "how many lines there are while something is typed")
        page.focus("#lines textarea")
        press(page, "z", "Control")
        same(len(lines(page)), 0, "how many lines there are when a line is only looked at")


def check_entered_link(bench):
    """The end of a link that is entered as a command brings its script; a page from disk copies such an end."""
    with bench.page() as page:
        page.enter("#name=b.desk&pages=9&at=1&script=areas%0Atask+a+9%0A")
        same([lines(page), page.field("pages"), page.field("name"), page.text("progress"), page.text("notice")],
             [["areas", "task a 9"], "9", "b.desk", "1 of 2 lines have run", "The script of the link is here."],
             "what a link brings")
        page.enter("#script")
        same(lines(page)[1], "#script", "a remark that is no link")


# Puts a page into a frame of another one; and whether it has begun there.
FRAMED = """(() => {
  const frame = document.createElement('iframe');
  frame.srcdoc = %s;
  document.body.append(frame);
})()"""
HAS_BEGUN = "document.querySelector('iframe').contentDocument?.querySelector('#desk')?.hidden === false"


def check_in_frame(bench):
    """In a frame without an address of its own the page runs, and copies the end of a link without a fault."""
    inside = "document.querySelector('iframe').contentDocument.querySelector"
    tab = bench.browser.open("about:blank")
    tab.value(FRAMED % json.dumps(make.page_of(bench.content)))
    tab.wait(lambda: tab.value(HAS_BEGUN), "the page doesn't begin in a frame")
    tab.value(f"{inside}('#command').value = 'areas'; {inside}('#prompt').requestSubmit(); {inside}('#copy').click()")
    tab.wait(lambda: tab.value(f"{inside}('#notice').textContent"), "nothing is told of a link")
    told = tab.value(f"{inside}('#notice').textContent")
    holds(told.startswith(("Copied: the end of a link.", "This is the end of a link:")), f"what is told is {told}")
    same(tab.faults, [], "what the browser tells of the page")
    tab.close()


def check_strict_site(bench):
    """Where a site forbids the module, the page says that, and doesn't blame the browser."""
    text = make.page_of(bench.content).replace("<meta charset", f"{STRICT}<meta charset", 1)
    tab = bench.browser.open(bench.server.address("/strict.html", text.encode()))
    why = "document.querySelector('#unsupported-why').textContent"
    tab.wait(lambda: tab.value(why), "nothing is told of a strict site")
    holds(tab.value(why).startswith("The site that shows this page forbids it to run its module"), tab.value(why))
    holds("Your browser can" in tab.value(why) and "browser can’t" not in tab.value("document.body.innerText"),
          "the browser is blamed")
    tab.close()


def check_panels(bench):
    """What lies over the page is closed by Escape, by its button, and by a click elsewhere."""
    with bench.kept_page() as page:
        page.enter("areas")
        found = []
        for name in ("file-button", "help-button", "help-close", "file-button", "shown", "file-button", "copy-text"):
            page.click(name)
            found.append(page.seen("file", "help"))
        same(found, [["file"], ["help"], [], ["file"], [], ["file"], ["file"]], "what is open")
        page.tab.wait(lambda: page.text("notice"), "nothing is told of a copied script")
        same([page.text("notice"), page.value("navigator.clipboard.readText()")],
             ["The script is copied as text.", "areas\n"], "what is copied")
        press(page, "Escape")
        same([page.seen("file"), page.focused()], [[], "file-button"], "what is open then, and what has the focus")


def check_forced_colours(bench):
    """Where the system has colours of its own, the line that ran last and what is pressed are told apart by edges."""
    features = [{"name": "forced-colors", "value": "active"}]
    style = "getComputedStyle(document.querySelector('%s'))"
    with bench.kept_page() as page:
        page.load("transfer")
        page.click("run")
        page.tab.call("Emulation.setEmulatedMedia", features=features)
        rows = (".row.current", ".row:not(.current)")
        current, other = (page.value(f"{style % it}.borderLeftColor") for it in rows)
        holds(current != other, "the line that ran last isn't told apart")
        same(page.value(f"{style % '#picture'}.forcedColorAdjust"), "none", "who has the colours of the picture")
        page.tab.resize(390, 844)
        page.tab.call("Emulation.setEmulatedMedia", features=features)
        widths = [page.value(f"{style % f'#panes [aria-pressed={it}]'}.borderTopWidth") for it in ("true", "false")]
        holds(widths[0] != widths[1], "the pane that is shown isn't told apart")
        page.tab.call("Emulation.setEmulatedMedia", features=[])


def check_print_of_many(bench):
    """On paper a script of more lines than have rows is whole, and afterwards it has its rows again."""
    with bench.kept_page() as page:
        page.drop_bytes("long.desk", b"# a\n" * 1000)
        count = "document.querySelectorAll('#lines > li').length"
        found = [page.value(count)]
        for event in ("beforeprint", "afterprint"):
            page.value(f"dispatchEvent(new Event('{event}'))")
            found.append(page.value(count))
        same(found, [400, 1000, 400], "how many lines have rows before, on and after paper")


# Goes through all steps, up to where the picture of each has its place, and gives how many there are.
WALK = """(() => {
  const step = document.querySelector('#step');
  let count = 0;
  for (; step.ariaDisabled === null; count++) {
    step.click();
    document.querySelector('#picture').getBoundingClientRect();
  }
  return count;
})()"""
# So many seconds of a processor a step may take, on average.
MOST_OF_STEP = 0.06


def work_of_step(page, view, name):
    """The seconds of a processor that a step of an example takes, on average over all of its steps."""
    page.look(view)
    page.load(name)
    counts = []
    took = page.work_of(lambda: counts.append(page.value(WALK))) / counts[0]
    print(f"  {name}, {view}: {counts[0]} steps, each {1000 * took:.0f} ms of a processor")
    return took


def check_quick_steps(bench):
    """A step of a lesson, and of a longer example, is drawn within 60 milliseconds of a processor, in each view."""
    names = ("lessons/small-buffer", "lessons/death", "lessons/sliding", "eight-transfers")
    with bench.page() as page:
        page.count_work()
        for view, name in itertools.product(("picture", "lens"), names):
            took = pace.held(f"a step of {name}, {view}", lambda: work_of_step(page, view, name), MOST_OF_STEP)
            holds(took > 0.001, f"a step of {name} takes no time as a {view}")
