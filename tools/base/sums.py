"""The sum of all that the verdict on an edit depends on: while it stays, the edit is refused where it was.

A function is proved against the contracts of what it calls, and not against bodies. So the sum of an edit that changes
nothing but functions is of these: their text with the edit in it, and their proofs. Of everything else in the crate it
is of what other proofs read: the sources without bodies, the definitions, and the files of proofs that belong to no
function. An edit of something else has a sum of the whole crate, and of the files that it changes as they are then.

Each sum is also of what is read of the libraries below, of the crate's row in crates.txt, of the kit's line, and of the
tools that judge. Comments outside of the changed text are in none of them.
"""

import ast
import collections
import functools
import io
import os
import re
import tempfile
import tokenize

import edit as edits_of
import kept
import kit
import spared
import tokens
from kept import Sum

# The tools that judge: what reads edits and functions, lays them out, has them checked, and reads what a check said.
JUDGES = ("edit", "heads", "kit", "libraries", "said", "spared", "timed", "trial", "twins")
TOOLS = os.path.dirname(os.path.realpath(__file__))
# How many digits of a sum are written.
DIGITS = 32
# Where a text names a folder or a file of proofs: the word for its crate, the crate's name, and the names below.
STEP = rb"\s*(?:\.|::)\s*"
NAMES_PROOFS = re.compile(rb"\b(crate|Rattle\s*\.\s*(\w+))" + STEP + rb"proofs((?:" + STEP + rb"[\xc2\xab\xbb\w-]+)*)")
PART_OF_A_NAME = re.compile(rb"[\w-]+")


class Parts:
    """The sums of a crate's parts: of what other proofs read, of all, and of the files in each folder of proofs.

    In `named` are the folders and files of proofs that the crate's files name: the crate, the names below its folder of
    proofs, and the folder of the file that names them.
    """

    def __init__(self, name, folder):
        self.name, self.folder = name, folder
        files = [os.path.relpath(it, folder) for it in kit.files_of(folder)]
        self.functions = edits_of.functions_of(folder)
        self.named = [it for file in files for it in _named(name, folder, file)]
        self.sealed = [it for it in self.functions if self._is_sealed(it)]
        read = tokens.read(folder, files)
        self.statements = self._statements(read)
        self.whole = _sum_of(read)
        folders = collections.defaultdict(dict)
        for file in files:
            folders[os.path.dirname(file)][file] = read[file]
        self.of_folder = {folder: _sum_of(folders[folder]) for folder in folders}

    def _is_sealed(self, function):
        """Whether other proofs know nothing of the function but its contract.

        They may know more of one whose body others see, of a trait's own body, of one in a cycle of calls, and of one
        whose proof, or goals, another file names.
        """
        head = edits_of.bytes_of(f"{self.folder}/{function.file}")[function.first : function.opens]
        is_of_a_trait = bool(function.block and function.block.is_trait)
        is_seen = function.in_cycle or is_of_a_trait or spared.SEEN.search(head)
        homes = function.proofs()
        others = [words for name, words, place in self.named if name == self.name and place not in homes]
        return not is_seen and not _name_a_home(others, [function])

    def _statements(self, read):
        """The sum of what other proofs read: all but the bodies of sealed functions, and their proofs."""
        bodies = collections.defaultdict(list)
        for it in self.sealed:
            bodies[it.file].append((it.opens, it.end))
        claimed = collections.Counter(home for it in self.functions for home in it.proofs())
        own = {home for it in self.sealed for home in it.proofs() if claimed[home] == 1}
        rest = {file: rows for file, rows in read.items() if os.path.dirname(file) not in own}
        return _sum_of({file: _without(rows, bodies[file]) for file, rows in rest.items()})

    def read_by(self, others):
        """The sum of what crates with these parts read of this one: all, where they name the proof of a function."""
        named = [words for it in others for name, words, _ in it.named if name == self.name]
        return self.whole if _name_a_home(named, self.sealed) else self.statements


def _named(crate, folder, file):
    """The folders and files of proofs that a file of the crate names."""
    for word, name, path in NAMES_PROOFS.findall(edits_of.bytes_of(f"{folder}/{file}")):
        words = tuple(it.decode() for it in PART_OF_A_NAME.findall(path))
        yield crate if word == b"crate" else name.decode(), words, os.path.dirname(file)


def _name_a_home(named, functions):
    """Whether one of these paths is the folder of a function's proof, or lies below it or above it."""
    homes = [tuple(home.split("/")[1:]) for it in functions for home in it.proofs()]
    return any(words[: len(home)] == home[: len(words)] for words in named for home in homes)


def _without(rows, ranges):
    """The tokens, in their order, that begin in none of these ranges of bytes."""
    kept_rows, left = [], sorted(ranges, reverse=True)
    for it in rows:
        while left and left[-1][1] <= it[0]:
            left.pop()
        if not left or it[0] < left[-1][0]:
            kept_rows.append(it)
    return kept_rows


def _sum_of(read):
    total = Sum()
    for file in sorted(read):
        total.add(file, b"\n".join(text for _, text in read[file]))
    return total.text()


@functools.cache
def parts_of(name, folder):
    """The sums of a crate's parts, taken once."""
    return Parts(name, folder)


def functions_of(crate):
    """The functions of the crate that have a body."""
    return parts_of(crate.name, crate.folder).functions


def state_of(crate):
    """A sum of all bytes of the crate, its edits, the libraries below it and the tools, by which a change is seen."""
    total = Sum().add("code", kept.of_code(crate, JUDGES).encode())
    edits = [f"{crate.folder}/{edits_of.WRONG}/{it}" for it in edits_of.names_of(crate)]
    return total.add_files(crate.folder, edits).text()


def of_edits(crate, edits):
    """The sum of each of the crate's edits, by the edit's name."""
    parts = [parts_of(it.name, it.folder) for it in [crate, *crate.below()]]
    begun = Sum().add("kit", kit.version().encode()).add("tools", judges().encode())
    begun.add("row", repr((crate.name, crate.is_static, [it.name for it in crate.deps], crate.of_kit)).encode())
    for it in parts[1:]:
        begun.add(it.name, it.read_by(parts).encode())
    return {it.name: _of_edit(Sum(begun), parts[0], it).text()[:DIGITS] for it in edits}


def _of_edit(total, parts, edit):
    if not edit.functions:
        total.add("whole", parts.whole.encode())
        return total.add("changed", _changed_files(parts, edit).encode())
    total.add("statements", parts.statements.encode())
    for it in edit.functions:
        total.add(f"{it.file} {it.ending()}", _changed_text(parts.folder, it, edit))
        for home in it.proofs():
            total.add(home, parts.of_folder.get(home, "").encode())
    return total


def _changed_text(folder, function, edit):
    """The function's text with the edit in it: its body, or all of it where the edit changes more than bodies."""
    text = edits_of.bytes_of(f"{folder}/{function.file}")
    start, end = function.opens if edit.is_inside else function.first, function.end
    own = [it for it in edit.changes if it.file == function.file and start <= it.start and it.end <= function.end]
    for it in sorted(own, key=lambda it: it.start, reverse=True):
        text = text[: it.start] + it.new + text[it.end :]
        end += len(it.new) - (it.end - it.start)
    return text[start:end]


def _changed_files(parts, edit):
    """The sum of the files that the edit changes, with it in them."""
    with tempfile.TemporaryDirectory(prefix="wrong-sums-") as folder:
        texts = edits_of.applied(parts.folder, [edit])
        for file, text in texts.items():
            os.makedirs(os.path.dirname(f"{folder}/{file}"), exist_ok=True)
            with open(f"{folder}/{file}", "w", encoding="utf-8", newline="") as it:
                it.write(text)
        return _sum_of(tokens.read(folder, list(texts)))


@functools.cache
def judges():
    """The sum of the tools that judge."""
    total = Sum()
    for name in JUDGES:
        with open(f"{TOOLS}/{name}.py", encoding="utf-8") as it:
            total.add(name, deciding(it.read()).encode())
    return total.text()


def deciding(text):
    """A Python text without its comments, the texts that only describe, and the empty lines between."""
    lines, gone = text.split("\n"), set()
    for it in (it for node in ast.walk(ast.parse(text)) for it in _descriptions(node)):
        gone.update(range(it.lineno - 1, it.end_lineno))
    for it in tokenize.generate_tokens(io.StringIO(text).readline):
        row, column = it.start[0] - 1, it.start[1]
        if it.type == tokenize.COMMENT:
            lines[row] = lines[row][:column].rstrip()
        elif it.type == tokenize.NL and not lines[row].strip():
            gone.add(row)
    return "\n".join(line for row, line in enumerate(lines) if row not in gone)


def _descriptions(node):
    """The text that describes a module, a class or a function, if it has one that begins a line."""
    is_described = isinstance(node, (ast.Module, ast.ClassDef, ast.FunctionDef, ast.AsyncFunctionDef))
    if not is_described or ast.get_docstring(node, clean=False) is None:
        return []
    text = node.body[0]
    return [text] if isinstance(node, ast.Module) or text.lineno > node.lineno else []
