"""Files and scripts of the disc: how they come, what they are named, how they go, and what is kept of them."""

import contextlib
import pathlib
import tempfile

from bench import holds, same

# The names and the sizes of files on the page.
FILES = """[...document.querySelectorAll('#files li')].map((it) =>
  [it.querySelector('input').value, it.childNodes[1].textContent])"""
TOO_LONG_SCRIPT = "big.desk is too long for this page. bin/vervainfile runs scripts of any length."
TOO_LONG = "The file {} is too long: a file has at most 1048576 bytes."
UNREADABLE = "The link of this page holds no script that can be read."
# Drops a script of remarks of so many bytes, and files of one byte with it.
DROP_LONG = """(() => {
  const bytes = new Uint8Array(%d).fill(35);
  for (let at = 999; at < bytes.length; at += 1000) bytes[at] = 10;
  const data = new DataTransfer();
  data.items.add(new File([bytes], 'big.desk'));
  for (const name of %r) data.items.add(new File(['1'], name));
  dispatchEvent(new DragEvent('drop', { dataTransfer: data, cancelable: true }));
})()"""
# A script has at most 8,388,608 characters, each of which has at most three bytes.
MOST_BYTES = 25165824
# Drops files and a script one right after the other, while none of them has been read.
DROP_QUICKLY = """for (const [name, text] of [['a.bin', '1'], ['b.bin', '22'], ['s.desk', 'areas\\n'], ['c.bin', '']]) {
  const data = new DataTransfer(); data.items.add(new File([text], name));
  dispatchEvent(new DragEvent('drop', { dataTransfer: data, cancelable: true })); }"""
# What something that is dragged over the page does, and whether the page says so.
DRAG = """((kind, isFile, isInside) => {
  const data = new DataTransfer();
  if (isFile) data.items.add(new File([], 'a.desk'));
  else data.setData('text/plain', 'a');
  const related = isInside ? document.body : null;
  const isLeft = dispatchEvent(new DragEvent(kind, { dataTransfer: data, cancelable: true, relatedTarget: related }));
  return [!isLeft, getComputedStyle(document.body, '::after').content !== 'none'];
})"""
# Notes the names of files that are read.
NOTES_READING = """globalThis.read = []; const bytes = Blob.prototype.arrayBuffer;
Blob.prototype.arrayBuffer = function () { globalThis.read.push(this.name); return bytes.call(this); };"""
# Notes what would be opened for files to be chosen in.
NOTES_CHOOSING = """globalThis.chosen = [];
for (const field of document.querySelectorAll('[type=file]')) field.click = () => globalThis.chosen.push(field.id);"""
NOTES_TYPES = """globalThis.types = []; const make = URL.createObjectURL;
URL.createObjectURL = (blob) => { globalThis.types.push(blob.type); return make.call(URL, blob); };"""


@contextlib.contextmanager
def on_disc(**contents):
    """Paths of files by their names, with two underscores in place of the last dot."""
    with tempfile.TemporaryDirectory() as folder:
        paths = [pathlib.Path(folder, ".".join(name.rsplit("__", 1))) for name in contents]
        for path, content in zip(paths, contents.values()):
            path.write_bytes(content)
        yield paths


def wait_for_files(page, count):
    page.tab.wait(lambda: len(page.value(FILES)) == count, f"there aren't {count} files")


def press(page, number, label):
    """Presses the button of a file, which has the focus then."""
    button = f"document.querySelector('#files li:nth-child({number}) button[aria-label^={label}]')"
    page.value(f"{button}.focus(); {button}.click()")


def name_of(number):
    return f"#files li:nth-child({number}) input"


def check_choosing(bench):
    """Each button opens what its files are chosen in; where none is chosen, nothing happens."""
    with bench.page() as page:
        page.value(NOTES_CHOOSING)
        found = []
        for name in ("open", "add"):
            page.click(name)
            found.append(page.value("chosen.splice(0)"))
        same(found, [["open-file"], ["add-files"]], "what is opened")
        same(page.value("[...document.querySelectorAll('[type=file]')].map((it) => it.multiple)"), [False, True],
             "where several files can be chosen")
        for name in ("open-file", "add-files"):
            page.set_value(f"#{name}", "")
        same([page.text("notice"), page.rows(), page.value(FILES), page.disabled()[0]], ["", [], [], "undo"],
             "what is left")


def check_same_files(bench):
    """Files that are named alike have names of their own; those that came at once are taken back at once."""
    with on_disc(a__bin=b"12345", b__bin=bytes(1000)) as paths, bench.kept_page() as page:
        page.tab.choose_files("#add-files", paths)
        wait_for_files(page, 2)
        page.tab.choose_files("#add-files", paths[:1])
        wait_for_files(page, 3)
        page.tab.drop(paths)
        wait_for_files(page, 5)
        wanted = [["a", "5 bytes"], ["b", "1,000 bytes"], ["a2", "5 bytes"], ["a3", "5 bytes"], ["b2", "1,000 bytes"]]
        same(page.value(FILES), wanted, "the files")
        same(page.value("document.querySelector('#add-files').files.length"), 0, "files that couldn't be chosen again")
        page.click("undo")
        same(page.value(FILES), wanted[:3], "the files when the last are taken back")


def check_quick_files(bench):
    """Files that come while others are being read are all taken, and so is a script."""
    with bench.kept_page() as page:
        page.value(DROP_QUICKLY)
        wait_for_files(page, 3)
        page.tab.wait(page.rows, "the script isn't opened")
        same(sorted(page.value(FILES)), [["a", "1 byte"], ["b", "2 bytes"], ["c", "0 bytes"]], "the files")


def check_faults_of_files(bench):
    """Of several files those that fit are taken, and each of the others is told; there are 32 at most."""
    big = bytes(1048577)
    with on_disc(one__bin=big, fits__bin=big[:-1], two__bin=big, last__bin=b"") as paths, bench.kept_page() as page:
        page.tab.choose_files("#add-files", paths[1:2])
        wait_for_files(page, 1)
        page.tab.choose_files("#add-files", paths[:1])
        page.tab.wait(lambda: page.text("notice"), "nothing is told of a long file")
        page.click("undo")
        same(page.value(FILES), [], "the files when the last change is taken back, which was none of the long file")
        page.tab.choose_files("#add-files", paths[:3])
        wait_for_files(page, 1)
        same([page.value(FILES), page.text("notice")],
             [[["fits", "1,048,576 bytes"]], f"{TOO_LONG.format('one.bin')} {TOO_LONG.format('two.bin')}"],
             "what is told")
        page.tab.choose_files("#add-files", paths[3:] * 32)
        wait_for_files(page, 32)
        same(page.text("notice"), "There are 32 files already.", "what is told of one more")
        names = [name for name, _ in page.value(FILES)]
        same(names, ["fits", "last", *(f"last{number}" for number in range(2, 32))], "the names of 32 files")
        page.enter("task a 9")
        page.enter("load a 0 last31")
        same(page.rows()[1]["reply"], "ok &9008", "the reply to a command that loads the last file, which is empty")


def check_names_of_files(bench):
    """A file's name is another one when it is typed so; a name that can't be is told, and the old one is back."""
    with bench.kept_page() as page:
        for name in ("a.bin", "b.bin"):
            page.drop_bytes(name, b"1")
        page.set_value(name_of(2), "b")
        same(page.text("notice"), "", "what is told of a name that is typed again")
        page.set_value(name_of(2), "a")
        same([page.text("notice"), page.value(FILES)[1][0], page.focused()],
             ["Another file is named a.", "b", "command"], "what is told of a name that another file has")
        page.focus(name_of(2))
        page.value("document.activeElement.select()")
        page.tab.type("c")
        page.tab.key("Enter")
        same([[name for name, _ in page.value(FILES)], page.value("document.activeElement.value")],
             [["a", "c"], "c"], "the names, and what has the focus")
        page.set_value(name_of(1), "A")
        same([page.value(FILES)[0][0], page.value("document.activeElement.value")], ["A", "c"],
             "what has the focus then")
        labels = page.value("[...document.querySelectorAll('#files li:nth-child(2) button')].map((it) => it.ariaLabel)")
        same(labels, ["Check whether the file c is a heap or a slot", "Take the file c away"], "the names of buttons")
        for line in ("task a 9", "load a 0 A", "show a 0"):
            page.enter(line)
        same([page.value(FILES), page.rows()[2]["reply"]], [[["A", "1 byte"], ["c", "1 byte"]], "ok 1 31"],
             "the files with other names, and the bytes of the first")


def check_files_that_go(bench):
    """A file that is taken away leaves the focus to the one in its place, and comes back by Undo."""
    with bench.kept_page() as page:
        for name in ("a.bin", "b.bin", "c.bin", "d.bin"):
            page.drop_bytes(name, b"1")
        press(page, 2, "Check")
        told = "[...document.querySelectorAll('#files output')].map((it) => it.textContent)"
        holds(page.value(told)[1].startswith("as a heap: bad"), "nothing is told of a file that is checked")
        page.enter("areas")
        holds(page.value(told)[1].startswith("as a heap: bad"), "what is told of a file goes with the next command")
        found = []
        for number in (2, 3, 1, 1):
            press(page, number, "Take")
            holds(not any(page.value(told)), "what was told of a file stands beside another")
            found.append([[name for name, _ in page.value(FILES)], page.value("document.activeElement.value")])
        same(found[:3], [[["a", "c", "d"], "c"], [["a", "c"], "c"], [["c"], "c"]], "the files, and what has the focus")
        same([found[3][0], page.focused()], [[], "file-button"], "the files at the end, and what has the focus")
        page.click("undo")
        same([name for name, _ in page.value(FILES)], ["c"], "the files when the last is back")


def check_script_with_files(bench):
    """A script and files that are dropped at once come together; a script that is opened leaves pages and files."""
    script = b"task a 9\nload a 0 f\n"
    with on_disc(f__bin=b"hello", s__desk=script, not_desk__bin=b"1") as paths, bench.kept_page() as page:
        page.tab.drop(paths)
        wait_for_files(page, 2)
        page.click("run")
        same([page.replies(), page.field("name")], ["ok 1\nok &9008\n", "s.desk"], "the replies with a file")
        page.set_pages(8)
        page.tab.choose_files("#open-file", [paths[1]])
        page.tab.wait(lambda: page.text("progress").startswith("0"), "the script isn't opened again")
        same([page.field("pages"), [name for name, _ in page.value(FILES)]], ["8", ["f", "notdesk"]], "what is left")
        page.drop_bytes("second.desk.bin", b"1")
        same([len(page.value(FILES)), page.field("name")], [3, "s.desk"], "a file that is no script by its name")
        page.click("fresh")
        same([page.field("pages"), page.value(FILES), page.field("name"), page.rows()], ["64", [], "script.desk", []],
             "what a new script has")


def check_two_scripts(bench):
    """Of two scripts that are dropped at once the first is opened; the other one isn't lost, but a file."""
    with on_disc(a__desk=b"areas\n", b__desk=b"task a 9\n") as paths, bench.kept_page() as page:
        page.tab.drop(paths)
        wait_for_files(page, 1)
        same([page.field("name"), [row["line"] for row in page.rows()], page.value(FILES)],
             ["a.desk", ["areas"], [["b", "9 bytes"]]], "what two scripts are")


def check_long_files(bench):
    """A script that is too long is told, whether it can be opened or not; then what was there stays."""
    with bench.kept_page() as page:
        page.value(DROP_LONG % (MOST_BYTES, []))
        page.tab.wait(lambda: page.text("notice"), "nothing is told of a script that can be opened")
        same([page.text("notice"), page.field("name")], ["The script is too long for this page.", "big.desk"],
             "what is told of a script that can be opened")
        same(page.text("nothing"), "The script is too long for this page.", "what stands in place of a picture")
        page.click("fresh")
        page.enter("areas")
        same([page.text("notice"), page.seen("nothing")], ["", []], "what is left of that when another script runs")
        page.value(DROP_LONG % (MOST_BYTES + 1, []))
        page.tab.wait(lambda: page.text("notice"), "nothing is told of a long script")
        same([page.text("notice"), len(page.rows())], [TOO_LONG_SCRIPT, 1], "what is told")


def check_long_script_with_files(bench):
    """A script that is too long is told also where files come with it, which are taken, or are told too."""
    with bench.kept_page() as page:
        page.value(DROP_LONG % (MOST_BYTES + 1, ["a.bin"]))
        wait_for_files(page, 1)
        page.tab.wait(lambda: page.text("notice"), "nothing is told of a long script")
        same([page.text("notice"), page.value(FILES), page.rows()], [TOO_LONG_SCRIPT, [["a", "1 byte"]], []],
             "what is told of a long script with a file")
        page.value(DROP_LONG % (MOST_BYTES + 1, [f"f{number}.bin" for number in range(32)]))
        wait_for_files(page, 32)
        page.tab.wait(lambda: page.text("notice"), "nothing is told of a long script and a file too many")
        same(page.text("notice"), f"{TOO_LONG_SCRIPT} There are 32 files already.", "what is told of both")


def check_unread(bench):
    """What is too long isn't read: it may have more bytes than a browser can hold."""
    with on_disc(big__bin=bytes(1048577), a__bin=b"1") as paths, bench.page(before=NOTES_READING) as page:
        page.tab.choose_files("#add-files", paths)
        wait_for_files(page, 1)
        page.value(DROP_LONG % (MOST_BYTES + 1, ["b.bin"]))
        wait_for_files(page, 2)
        same(page.value("read"), ["a.bin", "b.bin"], "what is read")


def check_dragging(bench):
    """The page says that a file can be dropped as long as one is over it, and leaves texts to the browser."""
    with bench.kept_page() as page:
        def drag(*words):
            return page.value(f"{DRAG}(...{list(words)!r})".replace("True", "true").replace("False", "false"))
        same([drag("dragover", False, False), drag("drop", False, False)], [[False, False]] * 2, "what a text does")
        same([drag("dragover", True, False), drag("dragleave", True, True), drag("dragleave", True, False)],
             [[True, True], [False, True], [False, False]], "what a file does that goes again")
        drag("dragover", True, False)
        same(page.value("getComputedStyle(document.body, '::after').content"),
             '"Drop a .desk file to open it, any other to add it"', "what the page says of a file over it")
        same([drag("dragover", True, False), drag("drop", True, False)], [[True, True], [True, False]],
             "what a file does that is dropped")


def check_saved_kinds(bench):
    """A script is saved as bytes, and the page of its pictures as a page."""
    with bench.page(before=NOTES_TYPES) as page:
        page.enter("areas")
        page.click("save")
        page.click("save-sheet")
        same(page.value("types"), ["application/octet-stream", "text/html"], "the kinds of what is saved")


def check_left_page(bench):
    """A tab that has been elsewhere begins with what its link has, and not with what it had."""
    with bench.page() as page:
        page.load("hello")
        for hash_text, wanted in (("", []), ("#script=areas%0A", ["areas"])):
            page.tab.go("about:blank")
            page.tab.go(bench.address + hash_text)
            page.ready()
            same([row["line"] for row in page.rows()], wanted, "the lines")
        same([page.field("name"), page.field("pages"), page.text("progress")],
             ["linked.desk", "64", "0 of 1 line has run"], "what a link of a script alone brings")
        for pages in ("7", "1025", "a"):
            page.value(f"location.hash = '#pages={pages}&script=task+a+9%0A'")
            page.tab.wait(lambda: page.text("notice"), "nothing is told of a link with other pages")
            same([page.text("notice"), page.field("pages")],
                 [UNREADABLE, "64"], "what is told of such a link")
            page.click("step")
            page.click("back")
            page.set_value("#name", f"n{pages}")
        holds(len(page.rows()) == 1, "the lines aren't those of the link before")


def check_files_of_links(bench):
    """A link brings files whose names scripts can spell, each another one, and 32 at most; others can't be read."""
    many = [f"file=f{number}:" for number in range(33)]
    with bench.page() as page:
        for files, wanted in (["file=f:1", "file=g:"], [["f", "1 byte"], ["g", "0 bytes"]]), (many[:32], 32):
            page.value(f"location.hash = '#script=areas%0A&{'&'.join(files)}'")
            page.tab.wait(lambda: page.field("name") == "linked.desk", "a link isn't followed")
            found = page.value(FILES)
            same([page.text("notice"), found if wanted != 32 else len(found)], ["", wanted], "what a link brings")
            page.click("fresh")
        for content in ("1", "22"):
            page.value(f"location.hash = '#script=areas%0A&file=f:{content}'")
            page.tab.wait(lambda: page.value(FILES), "a link isn't followed")
        page.tab.wait(lambda: page.value(FILES) == [["f", "2 bytes"]], "another file of the same name isn't shown")
        page.click("fresh")
        for files in many, ["file=f:1", "file=f:2"], ["file=1x:1"], ["file=:1"], ["file=abc"], ["file"]:
            page.value(f"location.hash = '#script=areas%0A&{'&'.join(files)}'")
            page.tab.wait(lambda: page.text("notice"), f"nothing is told of a link with {files[-1]}")
            same([page.text("notice"), page.rows(), page.value(FILES)], [UNREADABLE, [], []],
                 f"what is told of a link with {files[-1]}")
            page.click("fresh")
