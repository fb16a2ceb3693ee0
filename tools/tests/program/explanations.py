"""Explanations of bad lines and refused commands, and the help of each command of a script."""

import os
import pathlib
import re
import sys

TOP = pathlib.Path(__file__).resolve().parents[3]
sys.path.insert(0, str(TOP / "web"))

import sentences  # noqa: E402

FORMATS = (TOP / "docs/FORMATS.md").read_text()
SENTENCES = (TOP / "crates/rh_explained/specs/Sentences.antt").read_text()
# What the maker of the page reads of the definitions.
TABLE = sentences.table(TOP)
EXAMPLES = TOP / "examples"

# A script's last line, and what is said of it. Before it stand the lines of BEFORE.
BEFORE = ["task a 100", "task b 100", "alloc a 0 5", "alloc a 1 5", "save a 0 b doc", "poll b"]
NUMBER = len(BEFORE) + 1
# Why a command is refused that isn't for tasks of the manner that its task has.
MANNER = "this isn't for tasks of its manner"
LINES = [
    # Bad lines.
    ("tsk a", ', word 1 "tsk": no command has this name', None),
    ("task", ": expected task NAME BUF, task NAME BUF deaf, task NAME BUF file or task NAME BUF raw", None),
    ("task a 0", ', word 3 "0": a receive buffer has 1 to 65536 bytes', None),
    ("task a 1 dead", ', word 4 "dead": this word is deaf, file or raw, or left out', None),
    ("rma", ": expected rma claim N, rma free ADDR or rma resize ADDR DELTA", None),
    ("rma x 1", ', word 2 "x": this word is claim, free or resize', None),
    ("rma claim", ": expected rma claim N", None),
    ("rma claim x", ', word 3 "x": a size is 0 to 2147483647', None),
    ("rma free 0", ', word 3 "0": an address is & and 1 to 8 hexadecimal digits', None),
    ("rma resize &1 -", ', word 4 "-": an amount is 0 to 2147483647, with - before it or not', None),
    ("alloc a 64 1", ', word 3 "64": an anchor is 0 to 63', None),
    ("alloc a 0", ": expected alloc NAME A N", None),
    ("alloc 1a 0 1", ', word 2 "1a": a name is a letter, then up to 11 letters or digits', None),
    ("load a 2 1f", ', word 4 "1f": a name is a letter, then up to 11 letters or digits', None),
    ("put a 0 0 abc", ', word 5 "abc": bytes are hexadecimal digits, two for each', None),
    ("put a 0 x 00", ', word 4 "x": an offset is 0 to 2147483647', None),
    ("mid a 0 0 x", ', word 5 "x": an amount is 0 to 2147483647, with - before it or not', None),
    ("area 65536 1", ', word 2 "65536": an area is 0 to 65535', None),
    ("make 0", ', word 2 "0": the most pages of an area are 1 to 1024', None),
    ("remove 255", ', word 2 "255": a made area is 256 to 65535', None),
    ("cancel a on", ', word 3 "on": this word is in or out', None),
    ("cancel a in 0", ', word 4 "0": an id is 1 to 4294967295', None),
    ("budge a in", ', word 3 "in": this word is on or off', None),
    ("kill abcdefghijklmnopq", ', word 2 "abcdefghijklmnop..": a name is a letter, then up to 11 letters or digits', None),
    ("save a 1 b 12345678901", ', word 5 "12345678901": a leafname has 1 to 10 characters', None),
    ("send a 18 1 0", ": expected send NAME CODE HANDLE REF ACTION [DATA]", None),
    ("send a 19 1 0 9", ', word 3 "19": this word is 17 or 18', None),
    ("send a 18 0 0 9", ', word 4 "0": a handle is 1 to 4294967295', None),
    ("send a 18 1 -1 9", ', word 5 "-1": a ref is 0 to 4294967295, and 0 answers nothing', None),
    ("send a 18 1 0 x", ', word 6 "x": an action is 0 to 4294967295', None),
    ("send a 18 1 0 9 010203", ', word 7 "010203": data are hexadecimal digits, eight for each word, or left out', None),
    ("transfer a &8114 2 &8114", ": expected transfer NAME ADDR HANDLE ADDR N", None),
    ("  areas   1 ", ": expected areas", None),
    ("areas\r", ": a carriage return at its end; end lines with a line feed alone", None),
    ("\r", ": a carriage return at its end; end lines with a line feed alone", None),
    ("\tareas", ": a tab; part words by spaces", None),
    ("areas\t", ": a tab; part words by spaces", None),
    ("areas\r 1", ": the byte &D; words have characters from ! to ~ alone", None),
    ("blocks\xa0a", ": the byte &C2; words have characters from ! to ~ alone", None),
    ("heap a\x1b", ": the byte &1B; words have characters from ! to ~ alone", None),
    ("#" * 1025, ": more than 1024 bytes", "several lines may write what one may not: put NAME A OFF HEX"),
    # Refused commands.
    ("task a 5", ": a live task has this name already: a", "take another name, or kill that task first"),
    ("blocks z", ": no live task has this name: z", "start it by task NAME BUF; upper and lower case differ"),
    ("load a 2 g", ": no file has this name: g", "name it behind the script, as NAME=PATH"),
    ("show a 9", ": this anchor has no block: 9", "alloc or load puts a block there"),
    ("alloc a 0 1", ": this anchor has a block already: 0", "take another anchor, or free that block first"),
    ("release a &8118", ": no used block begins at this address: &8118",
     "claim answered the address, and heap lists those of the C heap"),
    ("rma free &1800054", ": a message lies in this block of the module area: &1800054",
     "a block of messages goes when they are taken"),
    ("put a 0 0 00", ": a transfer uses the block: transfer 1 sends it",
     "poll until the transfer has ended, or cancel it"),
    ("free b 0", ": a transfer uses the block: transfer 1 receives into it",
     "poll until the transfer has ended, or cancel it"),
    ("release b &8114", ": a transfer uses the block: transfer 1 has it as its buffer",
     "poll until the transfer has ended, or cancel it"),
    ("cancel b out", ": no such transfer can be given up", "status lists the transfers"),
    ("put a 1 0 000000000000", ": offset or bytes lie outside the block: its size is 5",
     "blocks lists the sizes, and extend makes a block longer"),
    ("claim a 0", ": a block of a heap has at least 1 byte", None),
    ("area 3 -1", ": the area would lose more than it can", "areas lists the pages of each area"),
    ("save a 1 q doc", ": the task that this is for isn't live: q", "start the recipient first"),
    ("alloc a 2 2147483647", ": the pool has too few free pages: 59",
     "areas lists the pages; free some, or begin with more by --pages"),
    ("area 300 1", ": no area has this number: 300", "areas lists the numbers, and make makes an area"),
    ("send a 17 2 0 9", f": {MANNER}", "send is for raw tasks; others offer files by save"),
    ("ack b", f": {MANNER}", "ack is for raw tasks; a poll answers for others"),
    ("write a &9008 00", f": {MANNER}", "write is for raw tasks; others write by put"),
    ("spool a 1 2 0", f": {MANNER}", "spool is for raw tasks; others offer files by save"),
    ("read a &9008 6", ": no live block has these bytes", "heap and blocks list the task's blocks"),
    ("read a &8114 1", ": no live block has these bytes", "heap and blocks list the task's blocks"),
    ("write b &9007 00", ": no live block has these bytes", "heap and blocks list the task's blocks"),
]

# Scripts whose last command is refused for what many commands bring, what is said of it, and what helps.
TOO_MANY = [
    ([f"task a{it} 1" for it in range(33)], ": 32 tasks are live, and there may be no more", "kill a task first"),
    (["task a 9", "repeat a"], ": the task has sent no message yet", None),
    (["task a 100", "task b 100 deaf", "alloc a 0 5", "save a 0 b doc", *["repeat a"] * 256],
     ": 256 messages are live, and there may be no more", "let tasks poll"),
    (["task a 100", "budge a off", "claim a 5000"], ": the C heap must grow for this, and budging is off",
     "allow it by budge NAME on"),
    (["make 1"] * 33, ": 32 areas are made, and there may be no more", "remove an area first"),
    (["make 1", "area 256 8192"], ": the area would have more pages than it may",
     "make an area that may have more by make MAX"),
    ([it for k in range(256, 65536) for it in ("make 1", f"remove {k}")] + ["make 1"],
     ": the last number of an area has been given", None),
    (["task a 100", "task b 100 deaf", *(f"alloc a {k} 1" for k in range(9)), *(f"save a {k} b doc" for k in range(9))],
     ": eight transfers that go out are open", "poll until the transfer has ended, or cancel it"),
]
# Scripts of tasks with code of their own whose last command is refused, what is said of it, and what helps.
PROGRAMS = [
    (["task a 100", "task r 1 raw", "alloc r 0 5", "save r 0 a doc"], f": {MANNER}",
     "save isn't for raw tasks; they send by send or spool"),
    (["task a 100", "task r 1 raw", "send r 17 1 1 9"], ": no message has this ref yet", "0 answers nothing"),
    (["task r 1 raw", "send r 17 2 0 9"], ": the task that this is for isn't live", "start the recipient first"),
]
# The same where what is said isn't what other commands are told.
OWN_REASONS = [
    (["task a 100", "task r 1 raw", "alloc r 0 5", "transfer r &9008 1 &8114 5"],
     ": no block has these bytes, or their place isn't open",
     "heap and blocks list blocks; RAMFetch opens a buffer to its recipient"),
    (["task r 1 raw", "alloc r 0 5", "write r &9008 000000000000"], ": no live block has these bytes",
     "heap and blocks list the task's blocks"),
    (["task a 100", "task r 1 raw", "claim r 8", "send r 18 1 0 6 1481000004000000", "poll a", "alloc a 0 4",
      "transfer a &9008 2 &8114 4"], f": {MANNER}", "transfer is for raw tasks; a poll moves the bytes of others"),
    (["task a 100", "task r 1 raw", "alloc r 0 5", "spool r 0 1 0", "poll a", "scrap a 1"], f": {MANNER}",
     "scrap is for raw tasks; a poll loads the scrap file for others"),
    (["task a 100", "task r 1 raw", "alloc r 0 5", "spool r 0 1 0", "spool r 0 1 0"], ": there is a scrap file already",
     "it goes when its DataLoad is loaded or answered"),
    (["task r 1 raw", "scrap r 0"], ": the task doesn't hold the message about a scrap file", "poll takes it, where one waits"),
]
# The commands of tasks with code of their own alone, and those on bytes at an address, which come first.
OF_PROGRAMS = ["send", "write", "transfer", "ack", "spool", "scrap"]
OF_BYTES = ["read", "write"]
# Refusals that no script brings whose length a test could have: 4,294,967,295 tasks or messages stand before them.
FAR = {"NoHandles", "NoRefs"}


def explained(number, line, said, helps):
    """What is written of a line."""
    shown = line if len(line) <= 72 else line[:72] + ".."
    shown = re.sub(r"[\x00-\x1f\x7f]", lambda it: f"\\x{ord(it[0]):02x}", shown)
    return f"line {number}{said}\n  {shown}\n" + (f"  {helps}\n" if helps else "")


def script_of(*lines):
    """The bytes of a script."""
    return "".join(f"{it}\n" for it in lines).encode()


def test_lines(suite):
    """Each bad line and each refused command is explained, with its number, and ends with 1."""
    for line, said, helps in LINES:
        wanted = explained(NUMBER, line, said, helps).encode()
        suite.ends(f"explain {line!r}", ["explain", "-"], wanted, b"", 1, stdin=script_of(*BEFORE, line))


def test_lines_one_after_the_other(suite):
    """Lines that are skipped count, and each fault is explained in its turn."""
    lines = ["# a remark", "", "tsk", "task a 100", "alloc a 64 1", "   ", "kill b", "areas"]
    wanted = (explained(3, "tsk", ', word 1 "tsk": no command has this name', None)
              + explained(5, "alloc a 64 1", ', word 3 "64": an anchor is 0 to 63', None)
              + explained(7, "kill b", ": no live task has this name: b", "start it by task NAME BUF; upper and lower case differ"))
    suite.ends("explain lines", ["explain", "-"], wanted.encode(), b"", 1, stdin=script_of(*lines))
    pathlib.Path("lines.desk").write_bytes(script_of(*lines))
    suite.ends("explain a file", ["explain", "--pages", "8", "lines.desk"], wanted.encode(), b"", 1)


def test_cut_lines(suite):
    """A line that was cut is explained, long or short."""
    for line, said, helps in [
        ("areas", ": cut, as the script ends without a line feed", "end the last line with a line feed"),
        ("areas\r", ": cut, as the script ends without a line feed", "end the last line with a line feed"),
        ("a" * 1025, ": more than 1024 bytes", "several lines may write what one may not: put NAME A OFF HEX"),
    ]:
        wanted = explained(2, line, said, helps).encode()
        suite.ends(f"explain a cut {line[:8]}", ["explain", "-"], wanted, b"", 1, stdin=f"areas\n{line}".encode())


def test_clean_scripts(suite):
    """Nothing is written of a script with no bad line and no refusal, and it ends with 0."""
    for script in (b"", b"areas\n", script_of(*BEFORE), b"# only a remark"[:0]):
        suite.ends(f"explain {script[:16]}", ["explain", "-"], b"", b"", 0, stdin=script)


def test_last_lines(suite):
    """A command is refused for what many commands before it have brought, or for whose task gives it."""
    for lines, said, helps in (*TOO_MANY, *PROGRAMS, *OWN_REASONS):
        wanted = explained(len(lines), lines[-1], said, helps).encode()
        suite.ends(f"explain{said}", ["explain", "-"], wanted, b"", 1, stdin=script_of(*lines))


def words_of(script):
    """The words that an example is run with."""
    args = script.with_suffix(".args")
    files = script.with_suffix(".files")
    return [*(args.read_text().split() if args.exists() else []), script.name,
            *(files.read_text().split() if files.exists() else [])]


def faults_of(replies):
    """How many replies say that a line was bad or a command refused."""
    return sum(it.split()[0] in ("bad", "refused") for it in replies.decode().splitlines() if it.strip())


def test_examples(suite):
    """Of each example each bad line and each refused command is explained, and no other."""
    here = pathlib.Path.cwd()
    os.chdir(EXAMPLES)
    for script in sorted(EXAMPLES.glob("*.desk")):
        words = words_of(script)
        replies, _, _ = suite.run(["run", *words])
        told, errors, status = suite.run(["explain", *words])
        heads = [it for it in told.decode("latin-1").splitlines() if it.startswith("line ")]
        suite.is_true(f"explain {script.name}", len(heads) == faults_of(replies) and status == bool(heads) and errors == b"")
    os.chdir(here)


def forms_of_docs():
    """The forms of commands, as docs/FORMATS.md has them."""
    block = FORMATS.partition("```\ntask NAME")[2].partition("```")[0]
    return [it.strip() for it in re.split(r" {2,}|\n", "task NAME" + block) if it.strip()]


def refusals_of_definitions(function="why"):
    """The refusals with what is said of each, as a definition has them."""
    return dict(re.findall(rf'^{function} (\w+) = codes "(.*)"$', SENTENCES, re.MULTILINE))


def commands_of_docs():
    """The words behind `help` for each command of a script."""
    return sorted({tuple(it.split()[:2 if it.startswith("rma") else 1]) for it in forms_of_docs()} | {("rma",)})


def help_of(suite, command):
    """The help of a command: its forms, what it does, and the lines behind that."""
    head, *lines = suite.run(["help", *command])[0].decode().splitlines()
    count = next((i for i, it in enumerate(lines) if it.startswith("  ")), len(lines))
    suite.is_true(f"help {command}: width", max(map(len, [head, *lines])) <= 79)
    return head, " ".join(lines[:count]), lines[count:]


def forms_in(head):
    """The forms that the first line of a command's help has: what stands in brackets may be left out."""
    forms = re.split(r", | or ", head)
    return {re.sub(r" \[.*\]", "", it) for it in forms} | {it.replace("[", "").replace("]", "") for it in forms}


def test_help_of_commands(suite):
    """The help of a command has its forms, what it does and why it may be refused, as documents and definitions have it."""
    refusals, own, of_bytes = (refusals_of_definitions(it) for it in ("why", "program_why", "bytes_why"))
    suite.is_true("all refusals are said", (len(refusals), len(own), len(of_bytes)) == (26, 3, 1))
    for command in commands_of_docs():
        told, status = suite.run(["help", *command])[1:]
        head, deed, others = help_of(suite, command)
        forms = {it for it in forms_of_docs() if tuple(it.split())[:len(command)] == command}
        suite.is_true(f"help {command}: ends", (told, status) == (b"", 0))
        suite.is_true(f"help {command}: forms", forms_in(head) == forms)
        suite.is_true(f"help {command}: deed", re.fullmatch(r"[A-Z].*\.", deed) is not None)
        said = [re.fullmatch(r"  refused (\w+): (.*)", it) for it in others if it.startswith("  refused ")]
        wanted = refusals | (of_bytes if command[0] in OF_BYTES else own if command[0] in OF_PROGRAMS else {})
        suite.is_true(f"help {command}: refusals", all(it and wanted.get(it[1]) == it[2] for it in said))
        names = [it[1] for it in said if it]
        suite.is_true(f"help {command}: order", names == [it for it in refusals if it in names])


def test_refusals_of_examples_are_in_the_help(suite):
    """Each refusal that an example's command has is one that its help names."""
    here = pathlib.Path.cwd()
    os.chdir(EXAMPLES)
    named = {it: suite.run(["help", *it])[0].decode() for it in commands_of_docs()}
    for script in sorted(EXAMPLES.glob("*.desk")):
        replies = [it for it in suite.run(["run", *words_of(script)])[0].decode().splitlines() if not it.startswith("  ")]
        lines = [it for it in script.read_bytes().decode("latin-1").split("\n") if it.split() and not it.split()[0].startswith("#")]
        for line, reply in zip(lines, replies):
            if reply.startswith("refused "):
                words = tuple(line.split()[:2 if line.split()[0] == "rma" else 1])
                suite.is_true(f"{line}: {reply}", f"  {reply}: " in named[words])
    os.chdir(here)


def reason_of(command, refusal):
    """Why a command is refused and what helps, as the page has it: its own reason, or that of all commands."""
    return command["reasons"].get(refusal) or TABLE["refusals"][refusal]


def kind_of(line):
    """What the page has of the command of a line."""
    words = line.split()
    own = words[:2] if words[0] == "rma" else words[:1]
    return next(it for it in TABLE["commands"].values() if it["own"] == own)


def test_help_is_made_of_the_pages_table(suite):
    """What the page has of each kind of command is what the program's help says of it."""
    helps = {" ".join(it["own"]): it for it in TABLE["commands"].values()}
    suite.is_true("the page has all commands", sorted(helps) == sorted(map(" ".join, commands_of_docs())))
    for name, command in helps.items():
        refused = [f"  refused {it}: {reason_of(command, it)['why']}" for it in command["refusals"]]
        words = [f"  {TABLE['words'][it]}" for it in command["words"]]
        wanted = command["expected"], command["does"], [*words, *refused]
        suite.is_true(f"the page on {name}", help_of(suite, name.split()) == wanted)
    forms = [it for name, command in helps.items() if name != "rma" for it in command["forms"]]
    suite.is_true("the page has all forms", sorted(forms) == sorted(forms_of_docs()))


def texts_in(value):
    """Each text in a table."""
    if isinstance(value, str):
        return [value]
    parts = value.values() if isinstance(value, dict) else value if isinstance(value, list) else []
    return [it for part in parts for it in texts_in(part)]


def test_explanations_have_the_pages_sentences(suite):
    """What the page has of refusals and of bad lines is what the program writes of them, and each refusal is met."""
    written, met = suite.run(["explain", "-"], stdin=b"areas")[0].decode(), set()
    for lines in [*([*BEFORE, line] for line, *_ in LINES), *(lines for lines, *_ in (*TOO_MANY, *PROGRAMS, *OWN_REASONS))]:
        reply, told = (suite.run([it, "-"], stdin=script_of(*lines))[0].decode() for it in ("run", "explain"))
        written += told
        outcome, name = reply.splitlines()[-1].split()[:2]
        if outcome == "refused":
            met.add(name)
            refusal = reason_of(kind_of(lines[-1]), name)
            head, _, *helps = told.splitlines()
            reason = next((it for it in (TABLE["allBusy"],) if it in head), refusal["why"])
            suite.is_true(f"the page on {head}", head.startswith(f"line {len(lines)}: {reason}")
                          and helps == [f"  {it}" for it in (refusal["helps"],) if it])
    suite.is_true("each refusal is met", met | FAR == TABLE["refusals"].keys() and not met & FAR)
    for text in texts_in(TABLE["faults"]):
        suite.is_true(f"the program writes {text!r}", text in written)


def test_no_such_help(suite):
    """Behind `help` no other words than a command's are taken."""
    for words in [["help", "alloc", "a"], ["help", "malloc"], ["help", "rma", "claim", "x"], ["help", "run", "x"]]:
        output, told, status = suite.run(words)
        suite.is_true(f"{words}", output == b"" and told != b"" and status == 2)
