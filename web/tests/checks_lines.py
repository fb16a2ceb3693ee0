"""The prompt and the lines: what was entered before, keys within a line, buttons beside it, and lines that are seen."""

from bench import holds, same

# The line that an arrow key leaves or stays in is longer than a row.
LONG_LINE = "# " + "word " * 200
# Whether the row of a line is seen whole within the list.
IN_VIEW = """(([row], frame) => row && row.top >= frame.top - 1 && row.bottom <= frame.bottom + 1)(
  [...document.querySelectorAll('#lines > li')].filter((row) => row.querySelector('[aria-label="Line %d"]'))
    .map((row) => row.getBoundingClientRect()), document.querySelector('#scroller').getBoundingClientRect())"""

# The lines whose fields are higher or lower than their texts.
OTHER_HEIGHTS = """[...document.querySelectorAll('#lines textarea')].filter((field) => {
  const was = field.style.height;
  field.style.height = '0';
  const needed = Math.max(field.scrollHeight, parseFloat(getComputedStyle(field).minHeight));
  field.style.height = was;
  return Math.abs(field.offsetHeight - needed) > 1;
}).map((it) => `${it.ariaLabel}: ${it.offsetHeight}`)"""

# The lines that the tab key reaches.
TAB_STOPS = """[...document.querySelectorAll('#lines textarea')].filter((it) => it.tabIndex === 0)
  .map((it) => it.ariaLabel)"""


def line_of(number):
    return f"#lines > li:nth-child({number}) textarea"


def lines(page):
    return [row["line"] for row in page.rows()]


def click_in_row(page, number, name):
    """Clicks a button beside a line."""
    page.value(f"document.querySelector('#lines > li:nth-child({number}) .{name}').click()")


def check_as_high_as_text(bench):
    """Each line is as high as its text, also when it changes, and in a browser that doesn't fit fields to texts."""
    with bench.kept_page() as page:
        page.drop_bytes("long.desk", f"areas\n{LONG_LINE}\n".encode())
        same(page.value(OTHER_HEIGHTS), [], "lines that aren't as high as their texts where the browser fits them")
    with bench.page(before="CSS.supports = () => false") as page:
        page.value("document.styleSheets[0].insertRule('textarea { field-sizing: fixed !important; }')")
        page.drop_bytes("long.desk", f"areas\n{LONG_LINE}\ntask a 9\n".encode())
        same(page.value(OTHER_HEIGHTS), [], "lines that aren't as high as their texts")
        page.focus(line_of(3))
        page.tab.type("9" * 300)
        same(page.value(OTHER_HEIGHTS), [], "lines that aren't as high as what is typed")
        page.value("document.activeElement.select()")
        page.tab.type("9")
        same(page.value(OTHER_HEIGHTS), [], "lines that aren't as high as what is left")
        page.tab.resize(420, 900)
        page.show_pane("script")
        page.tab.wait(lambda: not page.value(OTHER_HEIGHTS), "lines aren't as high as their texts in a narrow window")


def check_history(bench):
    """The arrow keys go through what was entered up to its ends, and nothing is kept twice."""
    with bench.page() as page:
        for line in ("areas", "task a 9", "task a 9", ""):
            page.enter(line)
        same(lines(page), ["areas", "task a 9", "task a 9"], "the lines")
        found = []
        for key in ("ArrowUp", "ArrowUp", "ArrowUp", "ArrowDown", "ArrowDown", "ArrowDown"):
            page.tab.key(key)
            found.append(page.field("command"))
        same(found, ["task a 9", "areas", "areas", "task a 9", "", ""], "what the arrow keys bring")
        page.tab.key("ArrowUp")
        page.tab.type("9")
        same(page.field("command"), "task a 99", "what is typed behind a line from before")
        page.value("document.activeElement.dispatchEvent("
                   "new KeyboardEvent('keydown', { key: 'ArrowUp', isComposing: true }))")
        same(page.field("command"), "task a 99", "what a key brings while characters are being made of others")


def check_pasted_parts(bench):
    """A part of a line is pasted as ever; lines are entered whatever ends them."""
    with bench.kept_page() as page:
        same([page.script("paste.js", "#command", "task a"), lines(page)], [True, []], "what a part of a line does")
        same(page.script("paste.js", "#command", "task a 9\rareas"), False, "whether lines are left to the browser")
        same(lines(page), ["task a 9", "areas"], "the lines")
        page.script("paste.js", "#command", "a\n\nb\n\n")
        same(lines(page)[2:], ["a", "", "b", ""], "the lines with empty ones")
        page.script("paste.js", "#command", "c\n ")
        same(lines(page)[6:], ["c", " "], "the lines of which the last is a space")


def check_history_of_pasted(bench):
    """The arrow keys bring pasted lines too, each as often as it was entered, but none twice in a row."""
    with bench.page() as page:
        page.enter("areas")
        page.script("paste.js", "#command", "task a 9\n\nareas\nareas\nx\n")
        found = []
        for _ in range(5):
            page.tab.key("ArrowUp")
            found.append(page.field("command"))
        same(found, ["x", "areas", "task a 9", "areas", "areas"], "what the arrow keys bring")


def check_pasted_into_typed(bench):
    """Lines that are pasted into what is being typed go in where the caret is, and nothing typed is lost."""
    with bench.kept_page() as page:
        for typed, start, end, wanted in (("task ", 5, 5, ["task a 9", "areas"]), (" x", 0, 0, ["a 9", "areas x"]),
                                          ("task b 8", 5, 7, ["task a 9", "areas8"])):
            page.click("fresh")
            page.focus("#command")
            page.tab.type(typed)
            page.value(f"document.activeElement.setSelectionRange({start}, {end})")
            page.script("paste.js", "#command", "a 9\nareas")
            same([lines(page), page.field("command")], [wanted, ""], f"the lines when {typed!r} was typed before")


def check_escape_at_prompt(bench):
    """Escape gives back what was typed before the arrow keys; then it takes that away, and they begin anew."""
    with bench.page() as page:
        for line in ("areas", "task a 9", "poll a"):
            page.enter(line)
        page.tab.type("half")
        found = []
        for key in ("ArrowUp", "ArrowUp", "Escape", "ArrowUp", "Escape", "Escape", "ArrowUp", "ArrowDown"):
            page.tab.key(key)
            found.append(page.field("command"))
        same(found, ["poll a", "task a 9", "half", "poll a", "half", "", "poll a", ""], "what stands at the prompt")


def check_as_typed(bench):
    """A line is entered as it is typed, with the spaces around it, also by the button beside it; an empty one isn't."""
    with bench.kept_page() as page:
        page.enter("  areas  ")
        page.enter("   ")
        page.enter("")
        page.tab.type("areas")
        page.value("document.querySelector('#prompt button').click()")
        same(lines(page), ["  areas  ", "   ", "areas"], "the lines")
        same(page.saved("script.desk"), b"  areas  \n   \nareas\n", "the saved script")


def check_row_buttons(bench):
    """Beside each line one button runs up to it, and one takes it away."""
    with bench.kept_page() as page:
        page.load("hello")
        page.click("run")
        click_in_row(page, 5, "number")
        same(page.text("progress"), "5 of 7 lines have run", "where the script stands")
        was = lines(page)
        click_in_row(page, 3, "remove")
        same([lines(page), page.focused()], [was[:2] + was[3:], "Line 3"], "the lines when the third is taken away")
        same(page.text("progress").split(";")[0], "4 of 6 lines have run", "where the script stands then")
        click_in_row(page, 6, "remove")
        same(page.focused(), "command", "what has the focus when the last one is taken away")
        same(page.value("[...document.querySelectorAll('.number')].map((it) => it.textContent)"), list("12345"),
             "the numbers of lines")
        same(page.value("[...document.querySelectorAll('.remove')].map((it) => it.textContent)"), ["×"] * 5,
             "what stands on the buttons that take lines away")
        for name, told in (("number", "Run up to line 2"), ("remove", "Take line 2 away")):
            button = f"document.querySelector('#lines > li:nth-child(2) .{name}')"
            same(page.value(f"[{button}.ariaLabel, {button}.title]"), [told, told], "what a button is for")


def check_left_line(bench):
    """What was typed into a line is taken when the line is left."""
    with bench.kept_page() as page:
        page.load("hello")
        page.click("step")
        page.focus(line_of(2))
        page.tab.type("0")
        page.focus("#command")
        same(lines(page)[1], "task a 1000", "the line that was left")
        page.click("undo")
        same([lines(page)[1], page.text("progress")], ["task a 100", "2 of 7 lines have run"],
             "the line when that is taken back, and where the script stands")


def check_carriage_returns(bench):
    """A line that ends with a carriage return stays as it is, unless it is changed."""
    script = b"task a 9\r\n# b\r\nareas\r\n"
    with bench.kept_page() as page:
        page.drop_bytes("returns.desk", script)
        page.focus(line_of(1))
        for _ in range(3):
            page.tab.key("ArrowDown")
        same([page.focused(), page.saved("returns.desk")], ["command", script], "what is saved")
        page.edit(3, "areas")
        same(page.saved("returns.desk"), script[:-2] + b"\n", "what is saved after a change")


def check_keys_in_long_lines(bench):
    """In a line of many rows the arrow keys go from row to row; they leave it at its ends."""
    with bench.kept_page() as page:
        page.load("hello")
        page.edit(2, LONG_LINE)
        end = len(LONG_LINE)
        for key, at, to, wanted in (("ArrowUp", 400, 400, "Line 2"), ("ArrowDown", 400, 400, "Line 2"),
                                    ("ArrowUp", 0, 0, "Line 1"), ("ArrowDown", end, end, "Line 3"),
                                    ("ArrowUp", 0, 400, "Line 2"), ("ArrowDown", 400, end, "Line 2")):
            page.focus(line_of(2))
            page.value(f"document.activeElement.setSelectionRange({at}, {to})")
            page.tab.key(key)
            same(page.focused(), wanted, f"what {key} goes to from characters {at} to {to}")


def check_keys_in_two_rows(bench):
    """In a line of two rows, too, the arrow keys go from row to row."""
    with bench.kept_page() as page:
        page.load("hello")
        was = len(page.rows())
        page.focus(line_of(3))
        page.value("document.activeElement.select()")
        page.tab.type("areas\npages")
        found = []
        for key in ("ArrowUp", "ArrowDown"):
            page.tab.key(key)
            found.append([page.focused(), len(page.rows())])
        same(found, [["Line 3", was]] * 2, "what has the focus, and how many lines there are")
        page.tab.key("ArrowUp")
        page.value("document.activeElement.setSelectionRange(0, 0)")
        page.tab.key("ArrowUp")
        same([page.focused(), lines(page)[2:4]], ["Line 2", ["areas", "pages"]], "the line above, and the lines")


def check_empty_first_line(bench):
    """A script that begins with an empty line has that as its first, with a number and a button."""
    with bench.page() as page:
        page.drop_bytes("empty.desk", b"\nareas\n")
        found = page.value("""[...document.querySelectorAll('#lines > li')].map((row) =>
          [row.querySelector('.number').textContent, row.querySelector('textarea').ariaLabel,
           row.querySelector('.remove').ariaLabel])""")
        same(found, [[f"{it}", f"Line {it}", f"Take line {it} away"] for it in (1, 2)], "what the lines are named")


def check_typed_while_files_come(bench):
    """What is being typed into a line stays there while files come, and is taken when it is entered."""
    with bench.kept_page() as page:
        page.load("hello")
        page.focus(line_of(2))
        page.value("document.activeElement.setSelectionRange(6, 10)")
        page.tab.type("9")
        page.drop_bytes("a.bin", b"1")
        same([page.value("document.activeElement.value"), page.focused(), page.text("progress")],
             ["task a9", "Line 2", "0 of 7 lines have run"], "the line while it is typed")
        page.tab.type("0")
        page.tab.key("Enter")
        same([lines(page)[1], page.text("files")], ["task a90", "1 byteCheck×"], "the line then")


def check_steps_from_rest(bench):
    """A step brings the line that ran into view also where the focus is on what stands beside the lines."""
    with bench.kept_page() as page:
        page.drop_bytes("long.desk", b"# a\n" * 300 + b"areas\n" + b"# a\n" * 300)
        page.focus("#later")
        page.tab.key("F8")
        holds(page.value(IN_VIEW % 301), "the line that ran isn't seen")
        same(page.focused(), "later", "what has the focus")
        page.tab.key("F9")
        same([page.focused(), page.seen("later")], ["Line 601", []], "what has the focus when all lines have run")


def check_more_keys_in_lines(bench):
    """Shift and Enter begin one more line; Meta and Enter run up to a line; keys that make characters do nothing."""
    with bench.kept_page() as page:
        page.load("hello")
        page.focus(line_of(2))
        page.value("document.activeElement.setSelectionRange(99, 99)")
        page.tab.key("Enter", "Shift")
        page.tab.type("areas")
        same([len(page.rows()), page.focused()], [7, "Line 2"], "how many lines there are as long as it is typed")
        page.tab.key("Enter")
        same([len(page.rows()), lines(page)[1:3], page.focused()], [8, ["task a 100", "areas"], "Line 3"],
             "the lines then")
        page.tab.type(" ")
        page.tab.key("Enter", "Meta")
        same([page.text("progress"), page.focused(), page.text("shown")],
             ["3 of 8 lines have run", "Line 3", "3areas  → ok 62"], "where the script stands")
        page.value("document.activeElement.dispatchEvent("
                   "new KeyboardEvent('keydown', { key: 'ArrowUp', isComposing: true }))")
        same(page.focused(), "Line 3", "what has the focus while characters are being made of others")


def check_deleting_in_lines(bench):
    """Backspace takes a line away only where that is empty; a line that is made empty stays, as those between lines."""
    with bench.kept_page() as page:
        page.load("hello")
        was = lines(page)
        page.focus(line_of(2))
        page.value("document.activeElement.setSelectionRange(0, 0)")
        page.tab.key("Backspace")
        same([lines(page), page.focused()], [was, "Line 2"], "the lines after Backspace before the first character")
        page.value("document.activeElement.setSelectionRange(0, 1)")
        page.tab.key("Backspace")
        same(lines(page)[1], "ask a 100", "the line after Backspace at a character")
        page.edit(2, "a\n\nb")
        same(lines(page), [was[0], "a", "", "b", *was[2:]], "the lines when one became three")
        page.focus(line_of(2))
        page.value("document.activeElement.select()")
        page.tab.key("Backspace")
        page.tab.key("Enter")
        same([lines(page), page.focused()], [[was[0], "", "", "b", *was[2:]], "Line 3"], "the lines with an empty one")
        page.tab.key("Delete")
        same(len(lines(page)), 9, "how many lines there are after Delete")


def check_in_view(bench):
    """The line that ran last is seen, unless the list is being worked in; the tab key reaches it."""
    with bench.kept_page() as page:
        page.drop_bytes("long.desk", b"# a\n" * 298 + b"areas\n# b\n")
        page.click("step")
        holds(page.value(IN_VIEW % 299), "the line that ran isn't seen")
        same(page.value(TAB_STOPS), ["Line 299"], "the line that the tab key reaches")
        click_in_row(page, 1, "number")
        holds(page.value(IN_VIEW % 1), "the first line isn't seen when it ran")
        click_in_row(page, 150, "number")
        holds(page.value(IN_VIEW % 150), "a line in the middle isn't seen when it ran")
        click_in_row(page, 100, "number")
        holds(page.value(IN_VIEW % 100), "a line above it isn't seen when it ran")
        page.focus(line_of(2))
        page.tab.key("F9")
        holds(page.value(IN_VIEW % 2), "the line that is being worked in isn't seen")
        same([page.value(TAB_STOPS), page.focused()], [["Line 2"], "Line 2"], "the line that the tab key reaches then")
        same([page.rows()[298]["kind"], page.rows()[299]["kind"]], ["row ok current", "row remark"], "the last lines")
        same(page.text("shown"), "299areas → ok 63", "the step shown when a remark has run behind it")
        same(page.text("said").partition(",")[0], "Line 299", "the line that is told then")


def check_reply_in_view(bench):
    """A line that the arrow keys go to is seen with all of its reply, as far as the list is high enough."""
    with bench.kept_page() as page:
        page.drop_bytes("long.desk", b"task a 9\n" + b"claim a 8\n" * 12 + b"heap a\n" + b"# a\n" * 30)
        page.click("run")
        page.focus(line_of(13))
        page.value("document.querySelector('#scroller').scrollTop = 0")
        page.tab.key("ArrowDown")
        same([page.focused(), page.value(IN_VIEW % 14)], ["Line 14", True], "the line, and whether it is seen whole")


def check_tab_stop(bench):
    """The tab key reaches a line always: also when the last one is taken away, and when other lines have rows."""
    with bench.kept_page() as page:
        page.drop_bytes("short.desk", b"# a\n# b\n\n")
        page.focus(line_of(3))
        page.tab.key("Backspace")
        same([page.focused(), page.value(TAB_STOPS)], ["command", ["Line 2"]], "the line that is reached at the end")
        page.tab.key("Tab", "Shift")
        same(page.focused(), "Line 2", "what is before the prompt")
        page.tab.key("ArrowUp")
        page.focus("#command")
        page.tab.key("Tab", "Shift")
        same(page.focused(), "Line 1", "what is before the prompt when the arrow keys have left a line")
        page.focus("#command")
        page.drop_bytes("long.desk", b"# a\n" * 1000)
        found = []
        for name in ("later", "run", "earlier"):
            page.click(name)
            found.append(page.value(TAB_STOPS))
        same(found, [["Line 201"], ["Line 1000"], ["Line 800"]], "the line that is reached of many")


def check_rows_at_ends(bench):
    """Buttons bring rows up to the first and the last line, which have the focus then; one line is told as one."""
    with bench.kept_page() as page:
        page.drop_bytes("long.desk", b"# a\n" * 400 + b"areas\n" + b"# b\n" * 1599)
        same(page.text("later"), "1,600 later lines: show some", "what is told of the rest")
        page.click("step")
        holds(page.value(IN_VIEW % 401), "the line that ran isn't seen")
        for name, wanted in (("later", "Line 2000"), ("earlier", "Line 1")):
            clicks = 0
            while page.seen(name) and clicks < 20:
                page.click(name)
                clicks += 1
            same([page.focused(), page.seen(name)], [wanted, []], f"what has the focus when {name} isn't needed")
        page.drop_bytes("short.desk", b"# a\n" * 401)
        same(page.text("later"), "1 later line: show some", "what is told of one line")
        page.focus(line_of(400))
        page.tab.key("ArrowDown")
        same([page.focused(), page.text("earlier")], ["Line 401", "1 earlier line: show some"], "the next line")


def check_typed_into_row(bench):
    """What is being typed into a row doesn't go over to another line that is alike."""
    with bench.kept_page() as page:
        page.drop_bytes("long.desk", b"# a\n" * 1000)
        page.focus(line_of(1))
        page.tab.type("b")
        page.click("later")
        same([page.value(f"document.querySelector('{line_of(1)}').ariaLabel"), lines(page)[0]], ["Line 201", "# a"],
             "the line in the first row")


def check_kinds_of_lines(bench):
    """Each line is marked by how it went: ok, refused or bad; a remark as such; and what hasn't run."""
    with bench.kept_page() as page:
        page.drop_bytes("kinds.desk", b"  # a\ntask a 9\nshow a 0\nshw\n\nareas\n")
        for _ in range(3):
            page.click("step")
        same([row["kind"] for row in page.rows()],
             ["row remark", "row ok", "row refused", "row bad current", "row ahead", "row ahead"], "the lines")
        page.click("run")
        page.click("back")
        shown = "document.querySelector('#shown .reply').className"
        same([page.value(shown), page.text("shown")], ["reply bad", "4shw → bad Unknown"], "the step shown")
