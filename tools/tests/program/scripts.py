"""Scripts with strange ends: a line that was cut, one that is too long, and numbers that are used up."""

from maps import MAP_COLUMNS
from pages import page_of

# The longest line of a script.
LONGEST_LINE = 1024


def test_cut_scripts(suite):
    """A line that was cut, or is too long, is a bad step of a map and of a sheet, where it is a remark too."""
    too_long = b"#" + b"x" * LONGEST_LINE
    for script, fault in [
        (b"areas", "Unended"),
        (b"# The end", "Unended"),
        (b"#picture", "Unended"),
        (too_long[:-1], "Unended"),
        (too_long, "TooLong"),
        (too_long + b"\n", "TooLong"),
    ]:
        line = script.rstrip(b"\n").decode()
        shown = f"1  {line}" if len(line) < MAP_COLUMNS - 3 else f"1  {line[: MAP_COLUMNS - 5]}.."
        what, wanted = f"{line[:9]!r} of {len(script)} bytes", f"{shown}\nbad {fault}\n  (memory stays)\n\n"
        suite.ends(f"map of {what}", ["map", "-"], wanted.encode(), b"", 1, stdin=script)
        suite.ends(f"marked map of {what}", ["map", "--marked", "-"], b"", b"", 1, stdin=script)
        output, page = page_of(suite, f"sheet of {what}", ["draw", "-"], 1, stdin=script)
        suite.is_true(f"step of {what}", output.count(b"<section ") == 1 and f"bad {fault}" in page.text)
    for verb in ("map", "draw"):
        output, _, status = suite.run([verb, "--marked", "-"], stdin=b"#picture A title\n#picture Another")
        suite.is_true(f"{verb} of a mark that was cut", (b"bad Unended" in output, status) == (True, 1))
    suite.ends("map of no line", ["map", "-"], b"", b"", 0)
    suite.ends("map of lines without words", ["map", "-"], b"", b"", 0, stdin=b"\n  \n\n")


def test_area_numbers(suite):
    """Numbers of made areas go up to the last, 65,535, and then no more are given."""
    first, last = 256, 65_535
    script = "".join(f"make 1\nremove {number}\n" for number in range(first, last)) + "make 1\nmake 1\n"
    wanted = "".join(f"ok {number}\nok\n" for number in range(first, last)) + f"ok {last}\nrefused NoNumbers\n"
    suite.ends("made areas' numbers", ["run", "-"], wanted.encode(), b"", 0, stdin=script.encode())
