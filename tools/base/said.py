"""What a check said of a crate: the goals that it refused, function by function."""

import re

import kit

ITEM = re.compile(r"(fn|struct|enum|trait|impl) (\S+): (.*)")
NOTE = re.compile(r"note: src/\S+:\d+:\d+: .*?\(`(\S+)`\)")
SEARCHED = re.compile(r"`search` did not prove ((?:`[^`]+`(?:, )?)+)")
STANDS_ON = re.compile(r"it stands on (.*?),? which antt refuses")
ERROR = re.compile(r"(?m)^(?:\./)?proofs/(\S+)\.antt:\d+:\d+: error: (?:`([^`]*)`: )?(.*)$")
# What antt says of a proof that names what is no longer there: that refuses no statement.
NAMES = re.compile(r"has no field|is not in scope|has no `|was not admitted")
# What a line has that says that something isn't well; how many of a check's lines are told, and how much of each.
ILL = re.compile(r"error|^note: src/|not proved|could not tell|depends on|not admitted|no verdict")
MOST_LINES, MOST_OF_A_LINE = 8, 200
PROOF_FILES = ("Answers", "Invariants", "Proof")
ENDED = re.compile(r"(?m)^(?:(?:only=\d+ )?holes|only=\d+ proved)=\d+$")


class Said:
    """The text that a check of a crate with edited files printed, and whether it came to its end."""

    def __init__(self, crate, ran, texts):
        self.crate, self.text, self.texts = crate, ran.stdout, texts
        self.status, self.seconds = ran.returncode, ran.seconds
        self.lines, self.notes = _functions(self.text)
        self.errors = [it for it in ERROR.findall(self.text) if not NAMES.search(it[2])]

    def fault(self):
        """Why nothing can be told from this check, or an empty text."""
        lines = self.text.rstrip("\n").split("\n")
        unread = next((it for it in lines if kit.unread(it, self.texts)), "")
        if unread:
            return f"the prover can't read the edited text: {unread[:200]}"
        if kit.STALE.search(self.text):
            return "the kept work of a library can't be used"
        if self.status in (0, 1) and ENDED.search(self.text) and self.lines:
            return ""
        told = next((it for it in lines if ": error" in it or it.startswith("error")), lines[-1])
        return f"the check ended with status {self.status} before the prover's end: {told[:200]}"

    def is_all_proved(self):
        """Whether nothing at all was refused."""
        return self.status == 0

    def first_lines(self):
        """The first lines by which the check says that something isn't well, or its last ones where none says so."""
        lines = self.text.rstrip("\n").split("\n")
        ill = [it for it in lines if ILL.search(it)]
        return [it[:MOST_OF_A_LINE] for it in ill[:MOST_LINES] or lines[-MOST_LINES:]]

    def symbols(self, function):
        """The check's names for a function, and for the closures in it."""
        return [it for module in function.modules for it in self.lines if self._is_in(module, function, it)]

    def _is_in(self, module, function, symbol):
        start = [self.crate.name, *module]
        words = symbol.split("::")
        words, inner = words[: len(start)], words[len(start) :]
        if words != start:
            return False
        # A closure's name has the function's behind a word `fn`, and then its own.
        return function.is_called(inner) or inner[:1] == ["fn"] and function.is_called(inner[1:-1])

    def seconds_of(self, functions):
        """The seconds of a processor that these functions and the closures in them took."""
        return sum(self.seconds.get(symbol, 0) for it in functions for symbol in self.symbols(it))

    def goals(self, symbol):
        """The goals of this function's own that were refused: those of its proof's files, and those without a proof."""
        path = "/".join(symbol.split("::")[1:])
        files = {f"{path}/{it}" for it in PROOF_FILES}
        found = [f"{file}.{goal}" for file, goal, _ in self.errors if file in files]
        found += [f"{path}.{it}" for it in self.notes[symbol]]
        for names in SEARCHED.findall(self.lines[symbol]):
            found += [f"{path}.{it}" for it in re.findall(r"`([^`]+)`", names)]
        return list(dict.fromkeys(it.replace("/", ".") for it in found))

    def all_goals(self):
        """The refused goals of all functions, and the refused lemmas that some function stands on."""
        lemmas = {f"{file}.{name}".replace("/", ".") for file, name, _ in self.errors}
        cited = [it for line in self.lines.values() for names in STANDS_ON.findall(line)
                 for it in re.findall(r"`Rattle\.\w+\.proofs\.([^`]+)`", names)]
        own = [it for symbol in self.lines for it in self.goals(symbol)]
        return list(dict.fromkeys(own + [it for it in cited if it in lemmas]))


def _functions(text):
    """What is said of each function, and the goals that the notes above its line name, by the function's name."""
    lines, notes, waiting = {}, {}, []
    for line in text.split("\n"):
        note, item = NOTE.match(line), ITEM.match(line)
        if note:
            waiting.append(note[1])
        elif item:
            if item[1] == "fn":
                lines[item[2]], notes[item[2]] = item[3], waiting
            waiting = []
    return lines, notes
