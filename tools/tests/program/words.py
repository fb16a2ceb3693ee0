"""Words of the program: wrong ones, those that ask for help, and those that are no text."""

from suite import SCRIPT_VERBS


def test_wrong_words(suite):
    """Wrong words are told with their reason, once, and end with 2."""
    for words, reason in [
        (["run", "--pages"], "a value is required for '--pages <N>' but none was supplied"),
        (["run", "-", "--pages"], "a value is required for '--pages <N>' but none was supplied"),
        (["walk"], "unrecognized subcommand 'walk'"),
        (["check", "x", "y"], "unexpected argument 'y' found"),
        (["check", "--slot", "x", "y"], "unexpected argument 'y' found"),
        (["check", "--slot", "--slot", "x"], "the argument '--slot' cannot be used multiple times"),
        (["check", "--slot"], "the following required arguments were not provided"),
        (["run", "--slot", "x"], "unexpected argument '--slot' found"),
        (["run", "--pages", "7", "x"], "invalid value '7' for '--pages <N>'"),
        (["run", "--pages", "many", "x"], "invalid value 'many' for '--pages <N>'"),
        (["run"], "the following required arguments were not provided"),
        (["check"], "the following required arguments were not provided"),
        (["run", "-", "-x"], "unexpected argument '-x' found"),
        (["run", "--pages", "8", "--pages", "9", "-"], "the argument '--pages <N>' cannot be used multiple times"),
        (["run", "--marked", "x"], "unexpected argument '--marked' found"),
        (["map"], "the following required arguments were not provided"),
        (["map", "--pages", "7", "x"], "invalid value '7' for '--pages <N>'"),
        (["map", "--marked", "--marked", "x"], "the argument '--marked' cannot be used multiple times"),
        (["map", "--slot", "x"], "unexpected argument '--slot' found"),
        (["draw"], "the following required arguments were not provided"),
        (["draw", "--pages", "1025", "x"], "invalid value '1025' for '--pages <N>'"),
        (["draw", "--marked", "--marked", "x"], "the argument '--marked' cannot be used multiple times"),
        (["draw", "--slot", "x"], "unexpected argument '--slot' found"),
        (["draw", "--lens", "--lens", "x"], "the argument '--lens' cannot be used multiple times"),
        (["map", "--lens", "x"], "unexpected argument '--lens' found"),
        (["draws", "x"], "unrecognized subcommand 'draws'"),
        (["explain", "--marked", "x"], "unexpected argument '--marked' found"),
        (["explain"], "the following required arguments were not provided"),
        (["help", "walk"], "unrecognized subcommand 'walk'"),
    ]:
        output, told, status = suite.run(words)
        first = told.decode().split("\n")[0]
        is_told_once = first.startswith(f"error: {reason}") and told.count(b"error: ") == 1
        suite.is_true(" ".join(words), output == b"" and is_told_once and status == 2)


def test_help(suite):
    """Help is printed once, and nothing is told."""
    for words, head in [
        (["--help"], b"The memory of a desktop"),
        (["help"], b"The memory of a desktop"),
        (["-h"], b"The memory of a desktop"),
        (["run", "--help"], b"Run a script"),
        (["help", "run"], b"Run a script"),
        (["map", "--help"], b"Run a script and print a map"),
        (["help", "map"], b"Run a script and print a map"),
        (["draw", "--help"], b"Run a script and print memory after each step as a page of HTML"),
        (["help", "draw"], b"Run a script and print memory after each step as a page of HTML"),
        (["explain", "--help"], b"Run a script and say what was wrong with bad and refused lines"),
        (["help", "explain"], b"Run a script and say what was wrong with bad and refused lines"),
        (["help", "-h"], b"The memory of a desktop"),
        (["help", "--help"], b"The memory of a desktop"),
        (["check", "--help"], b"Say whether"),
    ]:
        output, told, status = suite.run(words)
        is_once = output.startswith(head) and output.count(b"Usage: ") == 1 and output.count(b"Exit status:") == 1
        suite.is_true(" ".join(words), is_once and told == b"" and status == 0)
    for words in [["--version"], ["-V"], *([verb, it] for verb in (*SCRIPT_VERBS, "check", "help") for it in ("--version", "-V"))]:
        suite.ends(" ".join(words), words, b"vervainfile 1.0.0\n", b"", 0)


# Below the first line of what is told of wrong words stands what helps.
HINTS = [
    (["hello.desk"], "to run a script: vervainfile run hello.desk"),
    (["./check", "a=b"], "to run a script: vervainfile run ./check"),
    (["chess.desk"], "to run a script: vervainfile run chess.desk"),
    (["a\tb.desk"], "to run a script: vervainfile run a\\x09b.desk"),
    (["help", "walk"], "help has run, explain, map, draw, check and commands of scripts, as alloc"),
    (["help", "alloc", "a"], "help has one command behind it, as alloc or rma claim"),
    (["help", "run", "x"], "help has one command behind it, as alloc or rma claim"),
    (["help", "rma", "claim", "5"], "help has one command behind it, as alloc or rma claim"),
    (["--pages", "8", "run", "x"], "options stand behind the command, as in run --pages 8 hello.desk"),
    (["run", "--marked", "x"], "--marked belongs to map and draw"),
    (["explain", "x", "--marked"], "--marked belongs to map and draw"),
    (["run", "--slot", "x"], "--slot belongs to check"),
    (["draw", "--slot", "x"], "--slot belongs to check"),
    (["check", "--pages", "8", "x"], "--pages belongs to run, explain, map and draw"),
    (["draw", "-o", "x.html", "x"], "what is written goes to standard output: add >FILE"),
    (["map", "--output", "x.map", "x"], "what is written goes to standard output: add >FILE"),
    (["check", "x", "y"], "one file is checked"),
]


def test_hints(suite):
    """What helps with wrong words stands below the first line, and no tip leads to a script of an option's name."""
    for words, hint in HINTS:
        output, told, status = suite.run(words)
        lines = told.decode().split("\n")
        is_below = lines[0].startswith("error: ") and lines[1] == f"  {hint}" and lines[2] == ""
        no_tip = not any(it.startswith("  tip: to pass") for it in lines) and "\n\n\n" not in told.decode()
        suite.is_true(" ".join(words), is_below and no_tip and (output, status) == (b"", 2))


def test_tips(suite):
    """A tip on a command stands where a command was perhaps meant, and not where a path was."""
    for words, is_there in [(["draws", "x"], True), (["chek", "x"], True), (["check.desk"], False), (["./draw"], False)]:
        told = suite.run(words)[1].decode()
        suite.is_true(" ".join(words), ("\n  tip: a similar subcommand exists: '" in told) == is_there)


def test_words_without_hints(suite):
    """Below other wrong words stands no hint."""
    for words in [["run"], ["run", "--pages", "7", "x"], ["run", "-x"], ["map", "--marked", "--marked", "x"]]:
        lines = suite.run(words)[1].decode().split("\n")
        suite.is_true(" ".join(words), lines[0].startswith("error: ") and not lines[1].startswith("  to ") and
                      not lines[1].startswith("  -"))


def test_control_bytes(suite):
    """No control byte of a wrong word but a line feed is told as it is."""
    told = suite.run(["\x1b[31mred.desk\x07"])[1]
    suite.is_true("control bytes", b"\x1b" not in told and b"\x07" not in told and told.count(b"\\x1b[31mred.desk\\x07") == 2)


def test_words_that_are_no_text(suite):
    """A word that isn't UTF-8 is told, wherever it stands."""
    scripts = ([verb, b"\xff.desk"] for verb in (*SCRIPT_VERBS, "check"))
    for words in [*scripts, ["draw", "-", b"a=\xff"], [b"\xff"]]:
        suite.ends(f"{words}", words, b"", b"rh_desk: a word is not text\n", 2)
