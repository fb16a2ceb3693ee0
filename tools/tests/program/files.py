"""Files that scripts are run with, those that may not be opened, and scripts that can't be read."""

import os
import pathlib

from suite import LONGEST_FILE, SCRIPT_VERBS

NOBODY = 65534
# What a sheet ends with where no line of the script is a step.
FOOT = b'</main>\n<nav id="d1">\n</nav>\n</body>\n</html>\n'


def test_files(suite):
    """Files come whole, byte by byte, as many as the words name."""
    for size in [0, 1, 65_535, 65_536, 65_537, 200_001, 333_333, LONGEST_FILE - 4096, LONGEST_FILE]:
        content = bytes((it * it // 7 + it // 251) % 256 for it in range(size))
        pathlib.Path("whole.bin").write_bytes(content)
        shown = f"ok {size} {content.hex()}".rstrip() if size else "ok 0"
        wanted = f"ok 1\nok &9008\n{shown}\n".encode()
        printed = suite.run(["run", "--pages", "400", "-", "a=whole.bin"], b"task a 100\nload a 0 a\nshow a 0\n")
        suite.is_true(f"a file of {size} bytes", printed == (wanted, b"", 0))
    for count in [8, 9, 10, 17, 40]:
        words = []
        for number in range(count):
            pathlib.Path(f"{number}.bin").write_bytes(b"%d" % number)
            words.append(f"f{number}={number}.bin")
        script = b"task a 100\n" + b"".join(b"load a 0 f%d\nshow a 0\nfree a 0\n" % it for it in range(count))
        shown = "".join(f"ok &9008\nok {len(str(it))} {str(it).encode().hex()}\nok\n" for it in range(count))
        suite.ends(f"{count} files", ["run", "-", *words], b"ok 1\n" + shown.encode(), b"", 0, stdin=script)


def test_script_with_files(suite):
    """A script that is a file is run with the files of the words."""
    pathlib.Path("load.desk").write_bytes(b"task a 100\nload a 0 one\nload a 1 two\nshow a 0\nshow a 1\n")
    pathlib.Path("one.bin").write_bytes(b"\x01")
    pathlib.Path("two.bin").write_bytes(b"\x02\x03")
    words = ["run", "load.desk", "one=one.bin", "two=two.bin"]
    shown = b"ok 1\nok &9008\nok &9014\nok 1 01\nok 2 0203\n"
    suite.ends("a script with files", words, shown, b"", 0)
    suite.ends("a script and pages with files", [*words, "--pages", "8"], shown, b"", 0)
    lost = b"ok 1\nrefused NoFile\nrefused NoFile\nrefused NoBlock\nrefused NoBlock\n"
    suite.ends("a script without its files", ["run", "load.desk"], lost, b"", 0)


def test_lost_files(suite):
    """A file that can't be opened is told by its path, and below it why."""
    pathlib.Path("kept.bin").write_bytes(b"kept")
    os.chmod("kept.bin", 0)
    user = NOBODY if os.geteuid() == 0 else None
    reasons = {
        "kept.bin": "not allowed to be read",
        "kept.bin/below": "no such file",
        "x" * 300: "can't be read",
        "lost.bin": "no such file",
    }
    for path, why in reasons.items():
        told = f"rh_desk: file {path}\n  {why}\n".encode()
        checks = [["check", path], ["check", "--slot", path]]
        scripts = [words for verb in SCRIPT_VERBS for words in ([verb, path], [verb, "-", f"a={path}"])]
        for words in checks + scripts:
            suite.ends(" ".join(words), words, b"", told, 3, user=user)
    os.chmod("kept.bin", 0o644)


def test_unreadable_scripts(suite):
    """Where the script can't be read, that is told; of a sheet its beginning was written before, and it has no end."""
    os.makedirs("nothing/folder", exist_ok=True)
    pathlib.Path("folder").write_bytes(b"")
    sheet, _, _ = suite.run(["draw", "folder"])
    suite.is_true("the end of a sheet without steps", sheet.endswith(FOOT))
    for verb in SCRIPT_VERBS:
        written = sheet[: -len(FOOT)] if verb == "draw" else b""
        told = b"rh_desk: read failed\n  a folder\n"
        suite.ends(f"{verb} of a folder", [verb, "nothing/folder"], written, told, 3)


def test_bad_file_words_are_told_before_any_file(suite):
    """A word that names no file is told before any file is opened."""
    no_pair = "no = stands in it: one script is run, and files are given as NAME=PATH"
    no_name = "a name has 1 to 12 letters and digits, a letter first"
    no_path = "no path stands behind the ="
    for first, second, bad, why in [
        ("logo", "b=lost.bin", "logo", no_pair),
        ("a=lost.bin", "other.desk", "other.desk", no_pair),
        ("a=lost.bin", "", "", no_pair),
        ("a=lost.bin", "=lost.bin", "=lost.bin", no_name),
        ("a=lost.bin", "=", "=", no_name),
        ("a=lost.bin", "b=", "b=", no_path),
        ("a=lost.bin", "a=", "a=", no_path),
        ("a=lost.bin", "a=other.bin", "a=other.bin", "its name is given twice"),
        ("a=lost.bin", "a=b=c", "a=b=c", "its name is given twice"),
        ("1a=lost.bin", "b=", "1a=lost.bin", no_name),
        ("thirteenbytes=x", "b=lost.bin", "thirteenbytes=x", no_name),
        ("twelvebytes1=x", "b_=lost.bin", "b_=lost.bin", no_name),
    ]:
        told = f"rh_desk: bad file word {bad}\n  {why}\n".encode()
        suite.ends(f"bad file word {bad}", ["run", "lost.desk", first, second], b"", told, 2)
    for verb in ("map", "draw"):
        words = [verb, "--marked", "-", "a="]
        told = f"rh_desk: bad file word a=\n  {no_path}\n".encode()
        suite.ends(f"bad file word of {verb}", words, b"", told, 2, stdin=b"areas\n")


def test_control_bytes_of_words_are_shown_as_digits(suite):
    """No control byte of a word or a path reaches a terminal; other bytes are told as they are."""
    for byte, shown in [("\n", "0a"), ("\x01", "01"), ("\x1b", "1b"), ("\x1f", "1f"), ("\x7f", "7f"), ("\t", "09")]:
        told = f"rh_desk: bad file word a\\x{shown}[2J\n  no = stands in it: one script is run, and files are given as NAME=PATH\n"
        suite.ends(f"byte {shown} of a word", ["run", "-", f"a{byte}[2J"], b"", told.encode(), 2, stdin=b"areas\n")
        for words in [["run", f"lost{byte}{byte}.desk"], ["check", f"lost{byte}{byte}.desk"], ["run", "-", f"a=lost{byte}{byte}.desk"]]:
            told = f"rh_desk: file lost\\x{shown}\\x{shown}.desk\n  no such file\n"
            suite.ends(f"byte {shown} of a path: {words[0]}", words, b"", told.encode(), 3, stdin=b"areas\n")
    plain = " !~\\x\u00e9\u2192"
    told = f"rh_desk: file lost{plain}\n  no such file\n"
    suite.ends("bytes that are no control bytes", ["run", f"lost{plain}"], b"", told.encode(), 3)


def test_files_are_read_before_the_script(suite):
    """A file that is lost is told before a script that is."""
    pathlib.Path("here.bin").write_bytes(b"abc")
    words = ["run", "lost.desk", "a=here.bin"]
    told = b"rh_desk: file lost.bin\n  no such file\n"
    suite.ends("a lost file and a lost script", [*words, "b=lost.bin"], b"", told, 3)
    suite.ends("a lost script", words, b"", b"rh_desk: file lost.desk\n  no such file\n", 3)


def test_files_are_loaded_by_their_names(suite):
    """The first equals sign ends a file's name, in which capitals count."""
    pathlib.Path("logo=1.bin").write_bytes(b"hello")
    script = b"task a 100\nload a 0 logo\nshow a 0\nload a 1 Logo\n"
    shown = b"ok 1\nok &9008\nok 5 68656c6c6f\nrefused NoFile\n"
    suite.ends("a file by its name", ["run", "-", "logo=logo=1.bin"], shown, b"", 0, stdin=script)


def test_each_file_has_its_own_bytes(suite):
    """Each of three files is loaded as it is, on both sides of `--pages`."""
    for name, content in [("1.bin", b"one"), ("2.bin", b"two"), ("3.bin", b"six")]:
        pathlib.Path(name).write_bytes(content)
    script = b"task a 100\nload a 0 a\nload a 1 b\nload a 2 c\nshow a 0\nshow a 1\nshow a 2\n"
    for between in [[], ["--pages", "9"]]:
        words = ["run", "-", "a=1.bin", *between, "b=2.bin", "c=3.bin"]
        output, _, status = suite.run(words, stdin=script)
        shown = b"ok 3 6f6e65\nok 3 74776f\nok 3 736978\n"
        suite.is_true(f"three files: {words}", output.endswith(shown) and status == 0)


def test_a_file_that_cannot_be_read_is_told(suite):
    """A folder is told as a file that can't be had."""
    for words in [["check", "."], ["run", "-", "a=."]]:
        suite.ends(f"a folder: {words}", words, b"", b"rh_desk: file .\n  a folder\n", 3, stdin=b"areas\n")


def test_files_are_loaded_whole(suite):
    """A file of 100,010 bytes is loaded whole, with zeros, line feeds and bytes that are no text."""
    row = b"\x00\x1f\n\xff ruler\r\n"
    content = row * 8334 + b"xy"
    pathlib.Path("rows.bin").write_bytes(content)
    shown = f"ok 1\nok &9008\nok 100010 {row.hex() * 8334}7879\n".encode()
    script = b"task a 100\nload a 0 a\nshow a 0\n"
    suite.ends("a file of 100,010 bytes", ["run", "-", "a=rows.bin"], shown, b"", 0, stdin=script)


def test_a_file_has_a_limit(suite):
    """A file of the most bytes is loaded and checked, and one of a byte more is not."""
    pathlib.Path("most.bin").write_bytes(b"\x07" * LONGEST_FILE)
    pathlib.Path("more.bin").write_bytes(b"\x07" * (LONGEST_FILE + 1))
    words = ["run", "--pages", "300", "-", "a=most.bin"]
    listed = b"ok 1\nok &9008\nok 1\n  0 &9008 1048576\n"
    suite.ends("the most bytes", words, listed, b"", 0, stdin=b"task a 100\nload a 0 a\nblocks a\n")
    suite.ends("check of the most bytes", ["check", "most.bin"], b"bad BadDescriptor\n", b"", 1)
    for words in [["run", "-", "a=more.bin"], ["check", "more.bin"]]:
        told = b"rh_desk: file more.bin\n  more than 1048576 bytes\n"
        suite.ends(f"a byte more: {words}", words, b"", told, 3)
