"""Calls of the program: which words run what, over how many pages, what is told of others, and what help says."""

import os
import pathlib

from suite import SCRIPT_VERBS, WRITE_FAILED

# Words of which each is told as wrong.
WRONG_WORDS = [
    ["walk", "x"], ["run"], ["run", "--pages", "7", "x"], ["run", "--pages", "1025", "x"],
    ["run", "--pages", "many", "x"], ["check"], ["check", "x", "y"], ["check", "--slot"], ["check", "--slot", "x", "y"],
    ["check", "--slot", "--slot", "x"], ["check", "--slot=x"], ["check", "--slots", "x"], ["run", "--slot", "x"], ["--"],
    ["ru", "-"], ["run", "-p", "9", "-"], ["run", "--page", "9", "-"], ["run", "--pages", "8", "--pages", "9", "-"],
    ["run", "-x"], ["run", "-", "-x"], ["check", "--pages", "8", "x"], ["run", "--marked", "x"],
    *([verb, *words] for verb in ("map", "draw")
      for words in ([], ["--pages", "7", "x"], ["--marked", "--marked", "x"], ["--mark", "x"])),
]
# What the program's own help has, and that of each of its words.
USAGE = [
    b"The memory of a desktop, shared by its tasks",
    b"vervainfile run [--pages N] SCRIPT [NAME=PATH ...]\n",
    b"vervainfile explain [--pages N] SCRIPT [NAME=PATH ...]\n",
    b"vervainfile map [--pages N] [--marked] SCRIPT [NAME=PATH ...]\n",
    b"vervainfile draw [--pages N] [--marked] [--lens] SCRIPT [NAME=PATH ...]\n",
    b"vervainfile check [--slot] FILE\n",
    b"vervainfile help COMMAND ",
    b"  0  each line was good, or the bytes are a heap, or with --slot a slot\n",
    b"  1  a line was bad, or explain met a refused command, or the bytes are none\n",
    b"  2  the words are wrong\n",
    b"  3  a file, read, write, length or memory fault\n",
]
PAGES = b"Pages of the desk, 8 to 1024 [default: 64]"
SCRIPT = b"The script, a command a line; - for standard input"
FILES = b"Files that the script may load, each by a name"
MARKED = b"Show marked steps alone: a line #picture marks the next"
LENS = b"Draw areas through a lens, each part as wide as its words"
HELP = [
    (["--help"], USAGE),
    (["run", "--help"], [b"Run a script and print its replies", PAGES, SCRIPT, FILES]),
    (["explain", "--help"], [b"Run a script and say what was wrong with bad and refused lines", PAGES, SCRIPT, FILES]),
    (["check", "--help"], [b"The bytes, 1048576 at most; - for standard input", b"Take the bytes for a slot, not for a heap"]),
    (["map", "--help"], [b"Run a script and print a map of memory after each step", PAGES, MARKED, SCRIPT, FILES]),
    (["draw", "--help"], [b"Run a script and print memory after each step as a page of HTML", PAGES, MARKED, LENS,
                          SCRIPT, FILES]),
]
# Numbers of pages, and how many are free where nothing has begun.
NUMBERS = [("8", 7), ("64", 63), ("100", 99), ("129", 128), ("256", 255), ("1024", 1023)]
# Of numbers of pages each so manieth is tried; and so many pages are taken where one task lives.
STEP_OF_PAGES = 31
TAKEN = 2


def begins(suite, words, wanted, **how):
    """What the program writes begins so, and it ends clean."""
    output, _, status = suite.run(words, **how)
    suite.is_true(f"{words} begins so", (output.startswith(wanted), status) == (True, 0))


def test_no_words_run_the_input(suite):
    """With no words the script on standard input is run, and a bad line ends with 1."""
    suite.ends("no words", [], b"ok 1\nrefused NameInUse\n", b"", 0, stdin=b"task a 100\ntask a 100\n")
    suite.ends("no words, a bad line", [], b"bad Unknown\n", b"", 1, stdin=b"tsk\n")


def test_wrong_words_are_told(suite):
    """Wrong words are told, print nothing, and end with 2."""
    for words in WRONG_WORDS:
        output, told, status = suite.run(words)
        suite.is_true(f"{words} are wrong", (output, told != b"", status) == (b"", True, 2))


def test_help_is_no_mistake(suite):
    """Each way to ask for help ends with 0, and tells nothing."""
    for words in [["--help"], ["run", "--help"], ["explain", "--help"], ["check", "--help"], ["map", "--help"],
                  ["draw", "--help"], ["help"], ["help", "run"], ["-h"], ["help", "-h"], ["help", "--help"]]:
        output, told, status = suite.run(words)
        suite.is_true(f"{words} are no mistake", (told, status) == (b"", 0))
        for text in [b"With no words at all the script on standard input is run",
                     b"vervainfile run --pages 8 hello.desk", b"Exit status:"]:
            suite.is_true(f"{words}: {text}", text in output)
        suite.is_true(f"{words}: width", max(map(len, output.splitlines())) <= 79)


def test_help_says_what_each_word_is(suite):
    """The help of each word says what the word is."""
    for words, texts in HELP:
        output, _, status = suite.run(words)
        suite.is_true(f"{words} ends", status == 0)
        for text in texts:
            suite.is_true(f"{words}: {text}", text in output)


def test_usage_shows_that_no_words_run_the_input(suite):
    """What is told of wrong words shows that no words run the input."""
    for words in [["walk", "x"], ["--pages", "8"]]:
        _, told, status = suite.run(words)
        texts = [b"vervainfile run [--pages N] SCRIPT", b"with no words"]
        suite.is_true(f"usage of {words}", all(it in told for it in texts) and status == 2)


def test_a_script_that_cannot_be_opened_is_told(suite):
    """A script that isn't there is told by its path."""
    lost = b"rh_desk: file no-such-script.desk\n  no such file\n"
    for verb in SCRIPT_VERBS:
        suite.ends(f"a lost script to {verb}", [verb, "no-such-script.desk"], b"", lost, 3)


def test_a_script_is_run_over_the_pages_asked_for(suite):
    """A script that is a file is run over as many pages as are asked for."""
    pathlib.Path("eight-pages.desk").write_bytes(b"task a 100\nalloc a 0 24569\n")
    suite.ends("8 pages", ["run", "--pages", "8", "eight-pages.desk"], b"ok 1\nrefused NoRoom\n", b"", 0)
    suite.ends("9 pages", ["run", "--pages", "9", "eight-pages.desk"], b"ok 1\nok &9008\n", b"", 0)


def test_a_bad_line_of_a_script_is_told(suite):
    """A bad line of a script that is a file is told, the lines behind it are run, and the status is 1."""
    pathlib.Path("bad.desk").write_bytes(b"task a 100\ntsk\nfree a 0\n")
    suite.ends("a bad line", ["run", "bad.desk"], b"ok 1\nbad Unknown\nrefused NoBlock\n", b"", 1)


def test_a_script_that_cannot_be_read_is_told(suite):
    """A script that can be opened and not read is told."""
    suite.ends("a folder as a script", ["run", "."], b"", b"rh_desk: read failed\n  a folder\n", 3)


def test_a_long_path_is_told_whole(suite):
    """A path of 4,500 bytes is told whole, as a script, as bytes, as a file and as a word that names none."""
    path = "lost/" * 900
    lost = f"rh_desk: file {path}\n  can't be read\n".encode()
    for words in [["run", path], ["check", path], ["run", "-", f"a={path}"]]:
        suite.ends(f"a long path to {words[0]}", words, b"", lost, 3, stdin=b"areas\n")
    no_pair = "no = stands in it: one script is run, and files are given as NAME=PATH"
    told = f"rh_desk: bad file word {path}\n  {no_pair}\n".encode()
    suite.ends("a long word", ["run", "-", path], b"", told, 2, stdin=b"areas\n")


def test_an_empty_path_is_shown(suite):
    """An empty path is told as such."""
    for verb in ("run", "check"):
        told = b"rh_desk: file '' (an empty path)\n  no such file\n"
        suite.ends(f"an empty path to {verb}", [verb, ""], b"", told, 3)


def test_the_input_is_run_for_a_hyphen(suite):
    """A hyphen stands for standard input."""
    output, _, status = suite.run(["run", "-"], stdin=b"areas\ntsk\n")
    suite.is_true("a hyphen", output.startswith(b"ok 63\n") and output.endswith(b"bad Unknown\n") and status == 1)
    begins(suite, ["run", "--pages", "9", "-"], b"ok 8\n", stdin=b"areas\n")


def test_a_script_may_begin_with_a_hyphen(suite):
    """Behind `--` a script's name may begin with a hyphen."""
    suite.ends("behind --", ["run", "--", "-x"], b"", b"rh_desk: file -x\n  no such file\n", 3, stdin=b"areas\n")


def test_pages_are_asked_for_anywhere(suite):
    """`--pages` may have its number behind an equals sign, and stand behind the script."""
    for words in [["run", "--pages=9", "-"], ["run", "-", "--pages", "9"]]:
        begins(suite, words, b"ok 8\n", stdin=b"areas\n")


def test_each_number_of_pages_is_had(suite):
    """The desk has as many pages as are asked for, and 64 where none are."""
    pathlib.Path("areas.desk").write_bytes(b"areas\n")
    for script in ["-", "areas.desk"]:
        for pages, free in NUMBERS:
            begins(suite, ["run", "--pages", pages, script], b"ok %d\n" % free, stdin=b"areas\n")
        begins(suite, ["run", script], b"ok 63\n", stdin=b"areas\n")
    begins(suite, [], b"ok 63\n", stdin=b"areas\n")


def test_each_way_to_show_a_script_has_its_pages(suite):
    """A run, its explanations, its map and its sheet have as many pages as are asked for, from the fewest to the most."""
    script = b"task a 1\nareas\nalloc a 0 2147483647\n"
    for pages in [*range(8, 1024, STEP_OF_PAGES), 1023, 1024]:
        for verb in SCRIPT_VERBS:
            shown = b"too few free pages: %d\n" if verb == "explain" else b"ok %d\n"
            output, told, status = suite.run([verb, "--pages", str(pages), "-"], stdin=script)
            suite.is_true(f"{verb} has {pages} pages", shown % (pages - TAKEN) in output
                          and (told, status) == (b"", int(verb == "explain")))


def test_a_long_script_is_run(suite):
    """A script of 1,100,000 bytes is run, as standard input and as a file."""
    script = b"#########\n" * 110_000 + b"task a 100\n"
    pathlib.Path("long.desk").write_bytes(script)
    for words in [["run", "-"], ["run", "long.desk"], []]:
        begins(suite, words, b"ok 1\n", stdin=script)


def test_many_bytes_are_shown_in_a_line(suite):
    """A block's bytes are shown in one line, however many there are."""
    for size in [255, 512, 513, 5000]:
        script = b"task a 100\nalloc a 0 %d\nshow a 0\n" % size
        shown = b"ok 1\nok &9008\nok %d " % size + b"00" * size + b"\n"
        suite.ends(f"{size} bytes in a line", ["run", "-"], shown, b"", 0, stdin=script)


def test_a_full_output_is_a_fault(suite):
    """An output that takes nothing is told, whatever was to be written."""
    pathlib.Path("full.desk").write_bytes(b"areas\n")
    with open("/dev/full", "wb") as full:
        for words in [["run", "-"], ["run", "full.desk"], ["check", "full.desk"], ["check", "--slot", "full.desk"],
                      ["--help"], ["run", "--help"], ["--version"], []]:
            suite.ends(f"{words} to a full output", words, b"", WRITE_FAILED, 3, stdin=b"areas\n", stdout=full)


def test_the_status_is_had_where_nothing_can_be_told(suite):
    """The status is the same where standard error takes nothing."""
    with open("/dev/full", "wb") as full:
        for words, status in [([], 1), (["walk"], 2), (["run", "-", "logo"], 2), (["run", "lost.desk"], 3),
                              (["run", "-", "a=lost.bin"], 3), (["check", "lost.bin"], 3)]:
            ended = suite.run(words, stdin=b"tsk\n", stderr=full)[2]
            suite.is_true(f"{words}: status where nothing can be told", ended == status)


def test_an_input_that_fails_is_told(suite):
    """An input that can't be read is told."""
    folder = os.open(".", os.O_RDONLY)
    for words in [[], ["run", "-"]]:
        suite.ends(f"{words}: an input that fails", words, b"", b"rh_desk: read failed\n", 3, stdin=folder)
    os.close(folder)
