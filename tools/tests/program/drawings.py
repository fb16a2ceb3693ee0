"""Sheets: well formed whatever is drawn, with the steps, names and titles that they must have."""

import os
import pathlib

from examples import EXAMPLES, commands_of, words_of
from maps import LEAF_BYTES, LONGEST_LEAF
from pages import is_xml, page_of


def test_sheets(suite):
    """A sheet is well formed whatever a remark has, and XML where remarks are UTF-8."""
    remark = b"#" + "A\u00e4\u20ac".encode() + bytes(it for it in range(1, 128) if it != 10)
    longest = b"#" + b"&" * 1023
    lines = [remark, b"# <script>alert(\"1\")</script>", longest, b"#picture", b"#picture  ", b"task a\xff<&> 0"]
    script = b"\n".join([*lines, b"task Writer2 100", b"areas", b""])
    output, page = page_of(suite, "a sheet", ["draw", "-"], 1, stdin=script)
    suite.is_true("a sheet is XML", is_xml(output))
    shown = ["A\u00e4\u20ac", "<script>alert(\"1\")</script>", "&" * 1023, "task a?<&> 0", "bad Word 2", "ok 1"]
    suite.is_true("words of a sheet", all(it in page.text for it in shown))
    suite.is_true("a title without words has no element", b'class="title"' not in output)
    wild = b"#" + bytes(it for it in range(256) if it != 10) + b"\n#" + b"\xff" * 1023 + b"\nareas\n"
    page_of(suite, "bytes that are no text", ["draw", "-"], 0, stdin=wild)
    output, page = page_of(suite, "no mark", ["draw", "--marked", "-"], 0, stdin=b"# picture\ntask a 100\n")
    suite.is_true("no mark, no step", "section" not in page.names and "Commands not drawn: 1." in page.text)
    output, page = page_of(suite, "no line", ["draw", "-"], 0)
    suite.is_true("no line, no step", "section" not in page.names and "Commands not drawn" not in page.text)
    output, page = page_of(suite, "a remark alone", ["draw", "-"], 0, stdin=b"# The end\n")
    suite.is_true("a remark alone has a step", page.ids[-2:] == ["d1", "d2"])


def test_sheet_steps(suite):
    """The first 200 steps are drawn, the rest is run and counted."""
    script = b"".join(b"make 1\nremove %d\n" % it for it in range(256, 456))
    output, page = page_of(suite, "400 steps", ["draw", "-"], 1, stdin=script + b"remove 455\nareas of\n")
    suite.is_true("200 steps", output.count(b"<section ") == 200 and "Commands not drawn: 202." in page.text)
    script = b"areas\n" * 300 + b"#picture The last\nareas\n"
    output, page = page_of(suite, "one step of 301", ["draw", "--marked", "-"], 0, stdin=script)
    suite.is_true("the marked step", output.count(b"<section ") == 1 and "Commands not drawn: 300." in page.text)
    suite.is_true("its number", b"<h2><b>302</b>" in output and b'class="memory"' in output)


def test_sheet_names(suite):
    """The head of a sheet has the last part of its script's path, and a command its leafname, whatever they have."""
    os.makedirs("a&b/c", exist_ok=True)
    name, shown = "<i>\"x\"&'\u00e4 .desk", "&lt;i&gt;&quot;x&quot;&amp;'\u00e4 .desk".encode()
    leaves = [bytes(LEAF_BYTES[it : it + LONGEST_LEAF]) for it in range(0, len(LEAF_BYTES), LONGEST_LEAF)]
    saves = b"".join(b"save a 0 b %b\n" % it for it in leaves)
    pathlib.Path("a&b/c", name).write_bytes(b"task a 100\ntask b 100\nalloc a 0 1\n" + saves)
    raw, spaced = "a\x01\tb\x7f.desk", b"a  b .desk"
    pathlib.Path(raw).write_bytes(b"task a 100\n")
    output, page = page_of(suite, "control bytes of a name", ["draw", raw], 0)
    for element in (b"title", b"h1"):
        shown_name = b"<%b>%b</%b>" % (element, spaced, element)
        suite.is_true(f"spaces in {element.decode()}", shown_name in output)
    suite.is_true("they leave XML", is_xml(output))
    for path in [f"a&b/c/{name}", f"{os.getcwd()}/a&b//c/./{name}"]:
        output, page = page_of(suite, path, ["draw", path], 0)
        suite.is_true(f"the title of {path}", b"<title>" + shown + b"</title>" in output)
        suite.is_true(f"the head of {path}", b"<h1>" + shown + b"</h1>" in output)
        suite.is_true(f"leafnames of {path}", all(f"save a 0 b {it.decode()}" in page.text for it in leaves))
        suite.is_true(f"{path}: XML", is_xml(output))


def test_sheets_of_examples(suite):
    """The sheet of each example is XML, and has a step for each of its first 200 commands."""
    for script in sorted(EXAMPLES.glob("*.desk")):
        before, files, status = words_of(script)
        output, page = page_of(suite, script.name, ["draw", *before, str(script), *files], status)
        suite.is_true(f"{script.name}: XML", is_xml(output))
        suite.is_true(f"{script.name}: steps", output.count(b"<h2>") == min(200, len(commands_of(script))))


# Scripts by the words of their sheets, with what stands in a sheet one behind the other, and the status.
SHEETS = [
    (["draw", "-"], b"", [
        "<!DOCTYPE html>\n",
        "<title>standard input</title>\n",
        "<h1>standard input</h1>\n",
        "<main>\n</main>\n<nav id=\"d1\">\n</nav>\n</body>\n</html>\n",
    ], 0),
    (["draw", "-"], b"# A <task>\ntask a 100\nareas\ntsk\n", [
        "<section id=\"d1\">\n<div class=\"says\">\n<nav><span>&#9664;</span> <a href=\"#d2\">&#9654;</a>",
        "<p class=\"remark\">A &lt;task&gt;</p>\n<h2><b>2</b> <code>task a 100</code></h2>\n<pre>ok 1</pre>\n",
        "<div class=\"memory\">\n<svg ",
        "<section id=\"d2\">\n",
        "<h2><b>3</b> <code>areas</code></h2>\n<pre>ok 62\n",
        "Memory stays as it is: see <a href=\"#d1\">the last figure</a>.</p>\n</div>\n</section>\n",
        "<h2><b>4</b> <code>tsk</code></h2>\n<pre>bad Unknown</pre>\n",
        "</main>\n<nav id=\"d4\">\n<a href=\"#d1\">1</a>\n<a href=\"#d2\">2</a>\n<a href=\"#d3\">3</a>\n</nav>\n",
    ], 1),
    (["draw", "--marked", "--pages", "8", "-"],
     b"# No remark\ntask a 100\n#picture One area\nmake 2\nareas\n#picture\nareas\n", [
        "<main>\n<section id=\"d1\">\n",
        "<p class=\"title\">One area</p>\n<h2><b>4</b> <code>make 2</code></h2>\n<pre>ok 256</pre>\n",
        "<h3><b>Area 256</b> 0 of at most 2 pages</h3>\n",
        "<section id=\"d2\">\n",
        "<h2><b>7</b> <code>areas</code></h2>\n",
        "<div class=\"memory\">\n",
        "<p>Commands not drawn: 2.</p>\n</main>\n<nav id=\"d3\">\n",
    ], 0),
    (["draw", "-"], b"areas", ["<pre>bad Unended</pre>\n", "Memory stays as it is.</p>\n"], 1),
    (["draw", "-"], b"\n  \n# The end\n", [
        "<section id=\"d1\">\n",
        "<p class=\"remark\">The end</p>\n</div>\n</section>\n</main>\n<nav id=\"d2\">\n<a href=\"#d1\">1</a>\n",
    ], 0),
]


def has_in_turn(sheet, texts):
    """Whether each text stands in a sheet, one behind the other."""
    at = 0
    for text in texts:
        at = sheet.find(text, at)
        if at < 0:
            return False
    return True


def test_sheets_have_their_parts_in_turn(suite):
    """The head and the end of a sheet, its steps, marked steps alone, a cut line, and a last remark."""
    for words, script, texts, status in SHEETS:
        sheet, told, ended = suite.run(words, stdin=script)
        is_whole = has_in_turn(sheet.decode(), texts) and b"No remark" not in sheet
        suite.is_true(f"the sheet of {script}", is_whole and (told, ended) == (b"", status))
