"""What users do with the page: type, step, edit, bring files, save, and hand on links."""

import pathlib
import tempfile

import native
import pace
from bench import holds, run_text, same

STORY = ("task a 100", "alloc a 0 5", "put a 0 0 68656c6c6f", "show a 0")
LONG = 100_000
# So many seconds of a processor a script of so many lines may take until it is shown, and as many until it has run.
LONG_SECONDS = 2
STRANGE = (b"# caf\xe9 \xff\x80 </script><!-- <b>&amp;\ntask a 100\n\xff\xfe x\nalloc a 0 5\n"
           b"save a 0 a \xe2\x82\xac\n\nareas")


# Whether a line has a row.
HAS_ROW = "document.querySelector('[aria-label=\"Line %d\"]') !== null"


def lines(page):
    return [row["line"] for row in page.rows()]


def check_typing(bench):
    """Typed lines run at once, are told to those who listen, and come back by the arrow keys."""
    with bench.page() as page:
        same(page.value("document.activeElement.id"), "command", "what has the focus at first")
        for line in STORY:
            page.tab.type(line)
            page.tab.key("Enter")
        same(page.replies(), run_text("".join(f"{it}\n" for it in STORY).encode()), "the replies")
        same(page.text("said"), "Line 4, show a 0: ok 5 68656c6c6f", "what is said")
        same(page.value("document.querySelector('#said').role"), "status", "how it is said")
        page.tab.type("half")
        found = []
        for key in ("ArrowUp", "ArrowUp", "ArrowDown", "ArrowDown"):
            page.tab.key(key)
            found.append(page.value("document.querySelector('#command').value"))
        same(found, [STORY[3], STORY[2], STORY[3], "half"], "what the arrow keys bring")
        page.tab.key("Escape")
        same(page.value("document.querySelector('#command').value"), "", "the prompt after Escape")


def check_hint(bench):
    """The forms of the command that is being typed stand below the prompt."""
    with bench.kept_page() as page:
        page.tab.type("budge ")
        same(page.value("[...document.querySelectorAll('#hint code')].map((it) => it.textContent)"),
             ["budge NAME on", "budge NAME off"], "the forms")
        page.tab.type("a o")
        same(page.value("[...document.querySelectorAll('#hint b')].map((it) => it.textContent)"), ["on", "off"],
             "the word that is being typed")


def check_steps(bench):
    """Steps go on and back by buttons and by keys, over remarks too; a typed line goes in where the script stands."""
    with bench.kept_page() as page:
        page.load("hello")
        page.focus("#examples")
        shown = []
        for key, modifiers in (("F8", ()), ("F8", ()), ("F8", ("Shift",)), ("F9", ()), ("F8", ("Shift",))):
            page.tab.key(key, *modifiers)
            shown.append(page.text("shown"))
        same(shown, ["2task a 100 → ok 1", "3alloc a 0 5 → ok &9008", "2task a 100 → ok 1", "7areas → ok 61",
                     "6show a 0 → ok 5 68656c6c6f"], "the steps shown")
        page.tab.key("F8", "Shift")
        page.tab.key("F8", "Shift")
        page.tab.key("F8", "Shift")
        changes = ["Slot a takes page 61", "Flex block 0 is new: 5 bytes at &9008"]
        same(page.text("said"), ". ".join(["Line 3, alloc a 0 5: ok &9008", *changes]), "what is said")
        same(page.value("document.querySelector('#changes').innerText"), "\n".join(changes), "what has changed")
        for _ in range(9):
            page.click("back")
        same(page.text("progress"), "0 of 7 lines have run", "where the script stands")
        page.enter("task z 9")
        same([row["kind"] for row in page.rows()][:2], ["row ok current", "row ahead remark"], "the first lines")
        same(page.text("shown"), "1task z 9 → ok 1", "the step shown")


def check_keys_of_steps(bench):
    """The keys of steps are the page's alone, and it leaves others to the browser."""
    pressed = "dispatchEvent(new KeyboardEvent('keydown', { key: '%s', cancelable: true }))"
    with bench.kept_page() as page:
        page.load("hello")
        found = [page.value(pressed % key) for key in ("F7", "F8", "F9", "F10", "Tab")]
        same(found, [True, False, False, True, True], "which keys are left to the browser")
        same(page.text("progress"), "7 of 7 lines have run", "where the script stands")


def check_editing(bench):
    """A line changed in the middle runs all of it anew; lines come and go; Undo takes changes back."""
    with bench.page() as page:
        page.load("hello")
        page.click("run")
        page.edit(3, "alloc a 0 9")
        script = "".join(f"{it}\n" for it in lines(page))
        holds("alloc a 0 9\n" in script, "the line isn't changed")
        same(page.replies(), run_text(script.encode()), "the replies after a change")
        kinds = [row["kind"].split() for row in page.rows()]
        same([number for number, kind in enumerate(kinds, 1) if "changed" in kind], [5, 6], "the marked replies")
        same(page.text("progress"), "7 of 7 lines have run; 2 replies have changed", "what is told of a change")
        same(page.value("document.activeElement.ariaLabel"), "Line 4", "what has the focus then")
        page.edit(3, "alloc a 0 9\nfree a 0")
        same(len(lines(page)), 8, "how many lines there are when one became two")
        page.focus("#lines > li:nth-child(4) textarea")
        page.value("document.activeElement.select()")
        page.tab.key("Backspace")
        page.tab.key("Backspace")
        same(len(lines(page)), 7, "how many lines there are when one was taken away")
        page.tab.key("Enter", "Control")
        same(page.text("progress"), "4 of 7 lines have run", "where the script stands")
        for _ in range(4):
            page.click("undo")
        same((page.rows(), page.value("document.querySelector('#undo').ariaDisabled")), ([], "true"), "what is left")


def check_keys_in_lines(bench):
    """The arrow keys go from line to line, and Escape gives back what a line had."""
    with bench.kept_page() as page:
        page.load("hello")
        page.focus("#lines > li:nth-child(2) textarea")
        page.tab.key("ArrowDown")
        page.tab.type("no")
        page.tab.key("Escape")
        same(lines(page)[2], "alloc a 0 5", "the line after Escape")
        page.tab.type("5")
        page.tab.key("F8")
        same([lines(page)[2], page.text("shown")], ["alloc a 0 55", "2task a 100 → ok 1"], "a line typed at a step")
        page.tab.key("F8")
        same(page.text("shown"), "3alloc a 0 55 → ok &9008", "the step of that line")
        page.tab.key("ArrowUp")
        same(page.value("document.activeElement.ariaLabel"), "Line 2", "what has the focus")
        for _ in range(2):
            page.tab.key("ArrowUp")
            page.value("document.activeElement.setSelectionRange(0, 0)")
            same(page.value("document.activeElement.ariaLabel"), "Line 1", "what has the focus at the first line")
        page.focus("#lines > li:last-child textarea")
        page.tab.key("ArrowDown")
        same(page.value("document.activeElement.id"), "command", "what has the focus behind the last line")


def check_files(bench):
    """Files come by dropping and by choosing, with names that scripts can spell, and go again."""
    with tempfile.TemporaryDirectory() as folder, bench.kept_page() as page:
        paths = [pathlib.Path(folder, name) for name in ("My text.txt", "big.bin", "story.desk")]
        for path, content in zip(paths, (b"hello", bytes(1048577), b"task a 9\nload a 0 Mytext\nshow a 0\n")):
            path.write_bytes(content)
        page.tab.drop([paths[0]])
        page.tab.wait(lambda: page.text("files"), "a dropped file isn't taken")
        page.tab.drop([paths[2]])
        page.tab.wait(lambda: len(page.rows()) == 3, "a dropped script isn't opened")
        page.click("run")
        same(page.replies(), "ok 1\nok &9008\nok 5 68656c6c6f\n", "the replies with a file")
        page.tab.choose_files("#add-files", [paths[1]])
        page.tab.wait(lambda: page.text("notice"), "nothing is told of a long file")
        same(page.text("notice"), "The file big.bin is too long: a file has at most 1048576 bytes.", "what is told")
        page.set_value("#files input", "1x")
        same(page.text("notice"), "A name is a letter, and up to 11 letters or digits.", "what is told of a bad name")
        page.set_value("#files input", "other")
        same(page.rows()[1]["reply"], "refused NoFile", "the reply when the file has another name")
        page.value("document.querySelector('#files button[aria-label^=Take]').click()")
        same(page.text("files"), "", "the files that are left")


def check_opening(bench):
    """A script is opened by choosing it, and is saved as it was, with the page of its pictures."""
    with tempfile.TemporaryDirectory() as folder, bench.kept_page() as page:
        path = pathlib.Path(folder, "strange.desk")
        path.write_bytes(STRANGE)
        page.tab.choose_files("#open-file", [path])
        page.tab.wait(lambda: page.rows(), "a chosen script isn't opened")
        page.click("run")
        page.click("save")
        same(page.tab.downloaded("strange.desk"), STRANGE, "the saved script")
        page.click("save-sheet")
        wanted = native.done("draw", native.Job(STRANGE, name="strange.desk"))[1]
        same(page.tab.downloaded("strange.html"), wanted, "the saved pictures")


def check_strange_bytes(bench):
    """Bytes that are no UTF-8, tags in remarks and a last line without its end are kept, and run as they are."""
    with bench.kept_page() as page:
        page.drop_bytes("strange.desk", STRANGE)
        page.click("run")
        same(page.replies(), run_text(STRANGE), "the replies")
        same(page.rows()[-1]["reply"], "bad Unended", "the reply to a line without its end")
        page.edit(2, "task a 99")
        page.click("save")
        same(page.tab.downloaded("strange.desk"), STRANGE.replace(b"a 100", b"a 99"), "what is saved after a change")
        page.enter("areas")
        page.click("save")
        same(page.tab.downloaded("strange.desk"), STRANGE.replace(b"a 100", b"a 99") + b"\nareas\n",
             "what is saved after one more line")


def check_strange_bytes_in_line(bench):
    """Bytes that are no UTF-8 stay in a line into which something is typed, and so does a zero."""
    script = b"# caf\xe9 \xff\x80\n# a\0b \xe2\x82\xac\xe2\x82\n"
    with bench.kept_page() as page:
        page.drop_bytes("strange.desk", script)
        for number in (1, 2):
            page.focus(f"#lines > li:nth-child({number}) textarea")
            page.value("document.activeElement.setSelectionRange(2, 2)")
            page.tab.type("x")
            page.tab.key("Enter")
        same(page.saved("strange.desk"), script.replace(b"# ", b"# x"), "what is saved")


def check_tags(bench):
    """Tags in remarks and commands stay text, on the page and in the picture."""
    with bench.kept_page() as page:
        page.enter("# </script><script>document.title = 'run'</script><img src=x onerror=alert(1)>")
        page.enter("task a 100 </textarea><b>&amp;")
        shown = run_text(b"task a 100 </textarea><b>&amp;\n").strip()
        same(page.text("shown"), f"2task a 100 </textarea><b>&amp; → {shown}", "the step shown")
        page.enter("task a 100")
        same(page.value("document.title"), "script.desk – Vervainfile", "the title")
        found = page.value("document.querySelectorAll('#lines b, #lines img, main script').length")
        same(found, 0, "elements of remarks")
        same(page.pictured("script, img"), 0, "elements of remarks in the picture")
        holds(page.pictured("svg"), "there is no picture")


def check_links(bench):
    """A link brings script, pages, files and place; one that can't be read is told."""
    with bench.page() as page:
        page.drop_bytes("strange.desk", STRANGE)
        page.drop_bytes("f.bin", b"\0\xff:&")
        page.set_pages(8)
        page.click("step")
        page.click("copy")
        page.tab.wait(lambda: page.text("notice"), "nothing is told of a copied link")
        link = page.value("location.hash")
        same(page.value("navigator.clipboard.readText()"), page.value("location.href"), "the clipboard")
    with bench.page(link) as page:
        same(page.text("notice"), "", "what is told of a link")
        page.click("save")
        same(page.tab.downloaded("strange.desk"), STRANGE, "the script of a link")
        same([page.value("document.querySelector('#pages').value"), page.text("progress"), page.text("files")],
             ["8", "2 of 7 lines have run", "4 bytesCheck×"], "what a link brings")
        page.value("location.hash = '#script=areas%0A&at=1'")
        page.tab.wait(lambda: page.replies().startswith("ok 63"), "another link isn't followed")
        page.value("location.hash = '#nothing'")
        page.tab.wait(lambda: page.text("notice"), "nothing is told of a bad link")
        same(page.text("notice"), "The link of this page holds no script that can be read.", "what is told")
        same(len(page.rows()), 1, "how many lines are left by a bad link")


def check_loaded_again(bench):
    """A page that is loaded again has the script that it had; another tab has none."""
    with bench.page() as page:
        page.load("hello")
        page.click("step")
        page.tab.load_again()
        page.ready()
        same([len(page.rows()), page.text("progress"), page.field("name")], [7, "2 of 7 lines have run", "hello.desk"],
             "what is left")
    with bench.page() as page:
        same(page.rows(), [], "the lines of another tab")


def check_long_link(bench):
    """A script that is too long for a link is told so."""
    with bench.page() as page:
        page.drop_bytes("long.desk", b"# remark\n" * 5000)
        page.click("copy")
        same(page.text("notice"), "The script and its files are too long for a link. Save the script instead.",
             "what is told")


def check_pages(bench):
    """The pages of the pool are chosen; numbers that no pool has are told."""
    with bench.kept_page() as page:
        page.enter("areas")
        page.set_pages(8)
        same(page.rows()[0]["reply"].split("\n")[0], "ok 7", "the reply over 8 pages")
        page.set_pages(7)
        same(page.text("notice"), "A pool has 8 to 1024 pages.", "what is told of 7 pages")
        same(page.value("document.querySelector('#pages').value"), "8", "the pages then")
        for pages in ("8.5", "", "-8", "1e9"):
            page.set_pages(9)
            same([page.text("notice"), page.field("pages")], ["", "9"], "the pages that a pool can have")
            page.set_pages(pages)
            same([page.text("notice"), page.field("pages")], ["A pool has 8 to 1024 pages.", "9"],
                 f"what is told of {pages!r} pages")


def check_paste(bench):
    """Lines that are pasted at the prompt are entered at once."""
    with bench.kept_page() as page:
        page.script("paste.js", "#command", "task a 9\r\n# b\nareas\n")
        same(lines(page), ["task a 9", "# b", "areas"], "the lines")


def work_of_long(bench, name, script):
    """The seconds of a processor in which a long script is shown, or in which its lines are run, whichever are more."""
    with bench.page() as page:
        page.count_work()
        took = page.work_of(lambda: page.drop_bytes("long.desk", script, "document.title.startsWith('long')"))
        ran = page.work_of(lambda: page.click("run"))
        told = page.text("notice")
        print(f"  {LONG} lines of {name}: {took:.2f} s, then {ran:.2f} s to run them; {told or 'all have replies'}")
        holds(told or page.text("progress") == f"{LONG} of {LONG} lines have run", "not all lines have run")
        holds("too long" in told or len(page.rows()) == 400, "there are no lines")
    return max(took, ran)


def check_long_scripts(bench):
    """A script of 100,000 lines is shown within two seconds of a processor, with replies or with what is too long."""
    scripts = {"remarks": b"# nothing to say\n" * LONG, "short replies": b"task a 9\n" + b"budge a on\n" * (LONG - 1),
               "long replies": b"heap nobody\n" * LONG}
    for name, script in scripts.items():
        took = pace.held(f"{LONG} lines of {name}", lambda: work_of_long(bench, name, script), LONG_SECONDS)
        holds(took > 0.01, f"{LONG} lines of {name} take no time")


def check_list_of_many(bench):
    """Of a long script some lines have rows, and the others are reached by buttons and by keys."""
    with bench.kept_page() as page:
        page.drop_bytes("long.desk", b"# a\n" * 1000)
        same(page.text("later"), "600 later lines: show some", "what is told of the rest")
        page.click("later")
        same(page.value("document.querySelector('#lines textarea').ariaLabel"), "Line 201", "the first line with a row")
        page.click("run")
        same(page.text("earlier"), "600 earlier lines: show some", "what is told at the end")
        page.focus("#lines > li:first-child textarea")
        page.tab.type(" typed")
        page.value("document.activeElement.setSelectionRange(0, 0)")
        page.tab.key("ArrowUp")
        same(page.value("document.activeElement.ariaLabel"), "Line 600", "the line above the first row")
        holds(page.value(HAS_ROW % 590), "lines above that line have no rows")
        page.tab.key("ArrowDown")
        same(page.value("document.activeElement.value"), "# a typed", "what was typed into the first row")
        page.focus("#command")
        page.drop_bytes("longer.desk", b"# a\n" * 1000 + b"areas\n" + b"# a\n" * 1000)
        page.click("step")
        same([page.value(HAS_ROW % it) for it in (900, 1001, 1100)], [True] * 3, "which lines have rows")
        page.focus("#lines > li:nth-child(10) textarea")
        was = page.focused()
        page.tab.key("F9")
        same(page.focused(), was, "what has the focus when all has run")


def check_name(bench):
    """A script's name is the page's title, and the name of the files that are saved."""
    with bench.kept_page() as page:
        page.enter("areas")
        page.set_value("#name", "mine")
        page.click("save")
        same(page.tab.downloaded("mine.desk"), b"areas\n", "the saved script")
        page.set_value("#name", "my desktop")
        page.click("save-sheet")
        wanted = native.done("draw", native.Job(b"areas\n", name="my desktop.desk"))[1]
        same(page.tab.downloaded("my desktop.html"), wanted, "the saved pictures")
