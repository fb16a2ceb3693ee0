"""What the page tells of bad lines and refused commands, beside what `explain` writes of the same scripts."""

import base64
import re
import subprocess

import native
from bench import holds, same
from checks_class import OTHERS, SAMPLES, WHY
from checks_told import forms_of_docs

import make

# An explanation: the line's number, what is said of it, its text, and what helps.
EXPLANATION = re.compile(r"^line (\d+)(.*)\n  .*\n(?:  (.*)\n)?", re.MULTILINE)
# What a desk has of a refused command stands behind its reason, and the page has no such facts.
FACTS = {"NoRoom": r": \d+$", "BadRange": r": its size is \d+$", "Busy": r": transfer \d+ .*$"}
# What helps in the page, where files and pages are given in another way, and where the program has nothing.
HELPS_HERE = {"NoFile": "files are added behind “File…”",
              "NoRoom": "areas lists the pages; free some, or begin with more behind “File…”",
              "NoHandles": "no task can be started any more", "NoRefs": "no message can be sent any more"}
BUSY_SAVE = "a transfer uses the block, or eight transfers that go out are open"
BUSY_HELP = f"{BUSY_SAVE}, or there is a scrap file already – poll until the transfer has ended, or cancel it"
# What the page adds: which command may be meant, and a button that mends the line.
ADDED = r"(?: Help has all of them\.| Is \w+ meant\?)?(?: Make it: .*| End the line)?"
# Bad lines: how they end, bytes that no word may have, too few words and too many, and long words.
BAD = ["areas\r", "\r", "\tareas", "blocks\u00a0a", "heap a\x1b", "\x7f", "kill a\u20ac", "#" * 1025, "tsk a 5",
       "xyzzy", "task", "rma", "rma free", "rma x 1", "budge a", "cancel a in 1 2", "put a 0 0 68 69", "areas 1",
       "abcdefghijklmnopq a", "kill abcdefghijklmnopq", "put a 0 0 abcdefghijklmnopq", "areas\v"]
# Commands of which each is refused, behind some that aren't.
BEFORE = ["task a 100", "task b 100", *(f"alloc a {k} 5" for k in range(9)), *(f"save a {k} b doc" for k in range(8)),
          "poll b", "budge b off", "make 1", "task r 100 raw", "alloc r 0 5"]
REFUSED = ["task a 5", "blocks z", "load a 9 g", "show a 009", "alloc a 0 1", "release a &0008118",
           "rma free &1800054", "put a 0 0 00", "free b 0", "release b &8114", "save a 0 b doc", "save a 8 b doc",
           "cancel b out", "repeat z", "put a 8 0 000000000000", "claim a 0", "claim b 5000", "area 3 -1",
           "save a 8 q doc", "alloc a 9 2147483647", "area 0300 1", "area 256 8192", "remove 257", "read a &9008 6",
           "write r &9008 000000000000", "write a &9008 00", "send a 17 1 0 9", "spool a 8 1 0", "ack a",
           "save r 0 a doc", "transfer r &9008 1 &8114 5"]
# What help shows: each term with its meaning, and the lines below that.
ENTRIES = """[...document.querySelectorAll('#forms dl > div')].map((it) => [it.querySelector('dt').textContent,
  it.querySelector('dd').firstChild.data, [...it.querySelectorAll('.kind')].map((line) => line.textContent)])"""


def sentence(said, helps=""):
    """What the page makes of what the program writes."""
    said = said.lstrip(",: ")
    return (said[0].upper() + said[1:] + (f" – {helps}" if helps else "") + ".").replace("'", "’")


def of_refusal(line, name, said, helps):
    """What the page tells of a refused command."""
    said = re.sub(FACTS.get(name, r"$^"), "", said)
    if name == "Busy" and line.split()[0] == "save":
        said = BUSY_SAVE
    return f"{sentence(said, HELPS_HERE.get(name, helps))} Nothing was changed."


def explained_by_program(job, rows):
    """What the page has to tell of each line that the program explains, by the line's number."""
    found = {}
    for number, said, helps in EXPLANATION.findall(native.done("explain", job)[1].decode()):
        row = rows[int(number) - 1]
        outcome, name = row["reply"].split()[:2]
        found[int(number)] = (of_refusal(row["line"], name, said, helps) if outcome == "refused"
                              else sentence(said, helps))
    return found


def compare(page, job, what):
    """Each line that the program explains is explained so in the page, and no other is told to be wrong."""
    rows = page.rows()
    wanted = explained_by_program(job, rows)
    wrong = [at for at, row in enumerate(rows, 1) if row["reply"].split(" ")[0] in ("bad", "refused")]
    same(sorted(wanted), wrong, f"the lines of {what} that the program explains")
    told = page.value(WHY)
    for number, text in wanted.items():
        holds(re.fullmatch(re.escape(text) + ADDED, told[number - 1], re.DOTALL),
              f"line {number} of {what} is told as {told[number - 1]}, not as {text}")
    return len(wanted)


def check_as_program(bench):
    """Of each example the page explains the lines that the program explains, in its words."""
    count = 0
    with bench.kept_page() as page:
        for name, example in make.examples_by_name().items():
            page.load(name)
            page.click("run")
            files = {it["name"]: base64.b64decode(it["base64"]) for it in example["files"]}
            count += compare(page, native.Job(example["text"].encode(), pages=example["pages"], files=files), name)
    holds(count > 30, f"only {count} lines were compared")


def check_bad_lines(bench):
    """Bad lines of each sort are explained as the program does, and a line that is cut."""
    for name, text in (("bad.desk", "".join(f"{it}\n" for it in BAD)), ("cut.desk", "areas\ntask a 5"),
                       ("long.desk", "areas\n" + "a" * 1025)):
        with bench.kept_page() as page:
            page.drop_bytes(name, text.encode())
            page.click("run")
            holds(compare(page, native.Job(text.encode()), name) > 0, f"nothing of {name} is explained")


def check_refused_commands(bench):
    """Refused commands are explained as the program does, but for what the desk alone has of them."""
    text = "".join(f"{it}\n" for it in [*BEFORE, *REFUSED]).encode()
    with bench.kept_page() as page:
        page.drop_bytes("refused.desk", text)
        page.click("run")
        same(compare(page, native.Job(text), "refused.desk"), len(REFUSED), "how many are explained")


def help_by_program(command):
    """The forms of a command in a line, what it does, and why it may be refused, as the program's help has them."""
    words = [native.PROGRAM, "help", *command.split()]
    head, *lines = subprocess.run(words, capture_output=True, text=True, check=True).stdout.splitlines()
    refused = dict(re.findall(r"^  refused (\w+): (.*)$", "\n".join(lines), re.MULTILINE))
    return head, " ".join(it for it in lines if not it.startswith("  ")), refused


def check_help_as_program(bench):
    """Help has of each form and each refusal what the program's help first says, and what is the page's own."""
    reasons = {}
    with bench.kept_page() as page:
        entries = {term: (says, lines) for term, says, lines in page.value(ENTRIES)}
    for form in forms_of_docs():
        head, does, refused = help_by_program(" ".join(form.split()[: 2 if form.startswith("rma") else 1]))
        says, lines = entries.pop(form)
        same([it for it in lines if it.startswith("Refused")], [f"Refused: {', '.join(refused)}"] if refused else [],
             f"why {form} may be refused")
        holds(says == does or head != form, f"help says that {form} {says}")
        reasons = refused | reasons
    same(sorted(entries), sorted(reasons), "the refusals in help")
    for name, why in reasons.items():
        wanted = sentence(BUSY_HELP if name == "Busy" else why, HELPS_HERE.get(name, ""))
        says = entries[name][0]
        holds(says == wanted or name not in ("Busy", *HELPS_HERE) and says.startswith(wanted[:-1]),
              f"help says of {name}: {says}")


def check_words_of_forms(bench):
    """A word that isn't of its kind is told by its place, as the program tells it, for each word of each form."""
    bad = []
    for form in forms_of_docs():
        words = form.split()
        for at, kind in enumerate(words):
            if kind in OTHERS:
                line = [SAMPLES.get(it, it) for it in words]
                line[at] = OTHERS[kind]
                bad.append((" ".join(line), at + 1))
    text = "".join(f"{line}\n" for line, _ in bad).encode()
    with bench.kept_page() as page:
        page.drop_bytes("words.desk", text)
        page.click("run")
        same([row["reply"] for row in page.rows()], [f"bad Word {at}" for _, at in bad], "the replies")
        same(compare(page, native.Job(text), "words.desk"), len(bad), "how many are explained")
