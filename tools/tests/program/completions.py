"""The man page and the completions of share/, held against the help that the program prints."""

import pathlib
import re
import shutil
import subprocess

SHARE = pathlib.Path(__file__).resolve().parents[3] / "share"
BASH = SHARE / "bash-completion/completions/vervainfile"
ZSH = SHARE / "zsh/site-functions/_vervainfile"
FISH = SHARE / "fish/vendor_completions.d/vervainfile.fish"
PAGE = SHARE / "man/man1/vervainfile.1"
OPTION = re.compile(r"^ {2,6}(?:(-\w), )?(--[\w-]+)", re.MULTILINE)
SCRIPT = "hello.desk"
FORMATS = SHARE.parent / "docs/FORMATS.md"
FORMS = FORMATS.read_text().partition("```\ntask NAME")[2].partition("```")[0]
# The commands of a script, as docs/FORMATS.md has them.
COMMANDS = {it.split()[0] for it in re.split(r" {2,}|\n", "task NAME" + FORMS) if it.strip()}


def help_of(suite, *words):
    """What the program prints where it is asked for help."""
    return suite.run([*words, "--help"])[0].decode()


def verbs_of(suite):
    """The program's commands."""
    listed = help_of(suite).split("Commands:\n")[1].split("\n\n")[0]
    return {line.split()[0] for line in listed.splitlines()}


def options_of(suite, *words):
    """The options behind these words, long and short."""
    return {it for pair in OPTION.findall(help_of(suite, *words)) for it in pair if it}


def verbs_with_options(suite):
    """Each command but `help`, with its options."""
    return {verb: options_of(suite, verb) for verb in verbs_of(suite) - {"help"}}


def said(words):
    """The lines that a command prints."""
    return subprocess.run(words, capture_output=True, text=True, check=False).stdout.splitlines()


def by_bash(*words):
    """What bash offers for the last word."""
    script = f"source {BASH}; COMP_WORDS=(\"$@\"); COMP_CWORD=$(($# - 1)); _vervainfile; printf '%s\\n' \"${{COMPREPLY[@]}}\""
    return set(said(["bash", "--norc", "-c", script, "bash", "vervainfile", *words])) - {""}


def test_bash(suite):
    """In bash each command, its options and its files are offered, and nothing else."""
    verbs = verbs_with_options(suite)
    suite.is_true("bash: the first word", by_bash("") == verbs_of(suite) | options_of(suite))
    suite.is_true("bash: a begun word", by_bash("dr") == {"draw"})
    suite.is_true("bash: help", by_bash("help", "") == verbs_of(suite) | COMMANDS)
    suite.is_true("bash: help of rma", by_bash("help", "rma", "") == {"claim", "free", "resize"})
    suite.is_true("bash: no command", by_bash("walk", "-") == set())
    pathlib.Path(SCRIPT).write_bytes(b"areas\n")
    for verb, options in verbs.items():
        suite.is_true(f"bash: options of {verb}", by_bash(verb, "-") == options)
        suite.is_true(f"bash: files of {verb}", by_bash(verb, SCRIPT[:3]) == {SCRIPT})
    offered = by_bash("run", "--pages", "")
    runs = [suite.run(["run", "--pages", it, SCRIPT])[2] for it in offered]
    suite.is_true("bash: pages", len(runs) > 1 and not any(runs))


def is_there(program, what):
    """Whether the machine has a program; else what is left out is told."""
    if shutil.which(program):
        return True
    print(f"{program}: isn't installed, {what} left out")
    return False


def by_fish(*words):
    """What fish offers for the last word."""
    line = " ".join(("vervainfile", *words))
    script = f"source {FISH}; complete -C '{line}'"
    return {it.split("\t")[0] for it in said(["fish", "--no-config", "-c", script])}


def test_fish(suite):
    """In fish each command and its options are offered, and nothing else."""
    if not is_there("fish", "its completions"):
        return
    suite.is_true("fish: the first word", by_fish("") == verbs_of(suite))
    suite.is_true("fish: options", by_fish("-") == options_of(suite))
    suite.is_true("fish: help", by_fish("help", "") >= verbs_of(suite) | COMMANDS)
    for verb, options in verbs_with_options(suite).items():
        suite.is_true(f"fish: options of {verb}", by_fish(verb, "-") == options)


# In place of zsh's own functions, these print what they are handed, and say which command stands in the line.
STUBS = """
_arguments() { print -rl -- "$@"; state=$STATE; line=($VERB) }
_describe() { print -rl -- ${(P)2} }
_files() { }
"""


def by_zsh(state, verb=""):
    """What zsh's functions are handed where a line is in a state, with a command."""
    script = f"STATE={state}; VERB={verb}; {STUBS}\nvervainfile() {{ source {ZSH} }}; vervainfile"
    return said(["zsh", "-f", "-c", script])


def test_zsh(suite):
    """In zsh each command and its options are offered, and nothing else."""
    if not is_there("zsh", "its completions"):
        return
    top = by_zsh("verb")
    suite.is_true("zsh: commands", {it.split(":")[0] for it in top if re.match(r"\w+:", it)} >= verbs_of(suite))
    suite.is_true("zsh: help", set(by_zsh("words", "help")) >= COMMANDS)
    option = re.compile(r"(?:\([^)]*\))?(--?[\w-]+)\[")
    first = {found[1] for it in top if (found := option.match(it))}
    suite.is_true("zsh: options", first == options_of(suite))
    for verb, options in verbs_with_options(suite).items():
        behind = by_zsh("words", verb)[len(by_zsh("none")):]
        suite.is_true(f"zsh: options of {verb}", {found[1] for it in behind if (found := option.match(it))} == options)


def section(text, head):
    """The lines of a section of the page."""
    return text.split(f".SH {head}\n")[1].split(".SH ")[0].replace("\\-", "-")


def test_man_page(suite):
    """The man page has each command, each option, each status and the version, and no others."""
    text = PAGE.read_text()
    verbs = set(re.findall(r"^\.B (\w+)$", section(text, "COMMANDS").replace("\n.B ok", ""), re.MULTILINE))
    suite.is_true("man page: commands", verbs == verbs_of(suite))
    told = set(re.findall(r"(?<![\w-])--?\w[\w-]*", section(text, "OPTIONS")))
    every = options_of(suite).union(*verbs_with_options(suite).values())
    suite.is_true("man page: options", told == every)
    statuses = re.findall(r"^\.B (\d)$", section(text, "EXIT STATUS"), re.MULTILINE)
    wanted = re.findall(r"^ {2}(\d) ", help_of(suite).split("Exit status:\n")[1], re.MULTILINE)
    suite.is_true("man page: statuses", statuses == wanted)
    version = suite.run(["--version"])[0].decode().strip()
    suite.is_true("man page: version", f'"{version}"' in text.splitlines()[0])


def test_man_page_is_laid_out(suite):
    """The man page is laid out with no warning."""
    if not is_there("groff", "the layout of the man page"):
        return
    found = subprocess.run(["groff", "-man", "-ww", "-Tascii", PAGE], capture_output=True, check=False)
    suite.is_true("man page: layout", found.returncode == 0 and found.stderr == b"" and found.stdout.count(b"\n") > 60)
