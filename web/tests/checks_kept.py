"""What a tab keeps when it is loaded again, and where nothing may be kept."""

from bench import holds, same
from checks_modules import on_disk

import make

# A browser that lets no page keep anything.
KEEPS_NOTHING = """Object.defineProperty(globalThis, 'sessionStorage', {
  get() { throw new DOMException('not allowed', 'SecurityError'); } });"""
# A script that doesn't fit into a link, and one that a tab doesn't keep.
LONG = b"# remark\n" * 5000
TOO_LONG = b"# remark\n" * 200_000


def load_again(page):
    """Loads the tab again, and waits for the page that comes."""
    page.tab.load_again()
    page.ready()


def lines(page):
    return [row["line"] for row in page.rows()]


def check_loaded_with_link(bench):
    """A tab that is loaded again has the script as it was changed, and not that of its link; so has it twice."""
    with bench.page("#script=areas%0A&file=f:1") as page:
        page.enter("task a 9")
        for _ in range(2):
            load_again(page)
            same([lines(page), page.text("progress"), page.text("files")],
                 [["task a 9", "areas"], "1 of 2 lines have run", "1 byteCheck×"], "what is left")


def check_kept_from_disk(bench):
    """A page from disk has its script still when it is loaded again, and a link that brings it."""
    with on_disk(make.page_of(bench.content)) as address, bench.page(address=address) as page:
        page.enter("areas")
        page.click("copy")
        page.tab.wait(lambda: page.text("notice"), "nothing is told of a copied link")
        link = page.value("location.hash")
        page.enter("task a 9")
        load_again(page)
        same(lines(page), ["areas", "task a 9"], "what is left")
        page.tab.go("about:blank")
        page.tab.go(address + link)
        page.ready()
        same([lines(page), page.text("notice")], [["areas"], ""], "what the link brings")


def check_loaded_too_long(bench):
    """A tab keeps a script that is too long for a link; one that is much longer it doesn't, and has none then."""
    with bench.page() as page:
        page.enter("areas")
        load_again(page)
        same(lines(page), ["areas"], "what is left of one line")
        page.drop_bytes("long.desk", LONG)
        load_again(page)
        same([len(lines(page)), page.text("later")], [400, "4,600 later lines: show some"], "what is left of many")
        page.drop_bytes("longer.desk", TOO_LONG)
        load_again(page)
        same([lines(page), page.text("notice")], [[], ""], "what is left of too many")


def check_history_kept(bench):
    """What Undo and Redo know is there when a tab is loaded again, once and twice, with files and with the lesson."""
    with bench.page() as page:
        page.load("lessons/holes")
        page.click("step")
        page.drop_bytes("a.bin", b"\0\xff")
        page.enter("areas")
        page.click("undo")
        for _ in range(2):
            load_again(page)
            same([page.disabled(), page.field("examples"), page.text("files"), page.text("progress")],
                 [[], "lessons/holes", "2 bytesCheck×", "2 of 23 lines have run"], "what is left")
            holds(page.text("story").startswith("Lesson 1"), "the lesson is lost")
        page.click("redo")
        same([len(lines(page)), page.disabled()], [24, ["redo"]], "what Redo brings")
        for _ in range(3):
            page.click("undo")
        same([lines(page), page.text("files"), page.disabled()[0]], [[], "", "undo"], "what Undo brings")
        page.click("redo")
        load_again(page)
        same([page.field("examples"), len(lines(page))], ["lessons/holes", 23], "what is left of Redo")


def check_keeps_nothing(bench):
    """Where a tab may keep nothing, the page does all else."""
    with bench.page("#script=areas%0A", KEEPS_NOTHING) as page:
        page.enter("task a 9")
        load_again(page)
        same([lines(page), page.text("notice")], [["areas"], ""], "what a tab has that kept nothing")
        page.click("run")
        same(page.text("progress"), "1 of 1 line has run", "how far it has run")
