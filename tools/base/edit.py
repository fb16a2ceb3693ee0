"""Edits: wrong bodies as files of lines 'file:', 'old:' and 'new:', and which places and functions each changes."""

import collections
import dataclasses
import difflib
import glob
import os
import re

import heads
import kit

WRONG = "wrong"
ENDING = ".edit"
# The file beside the edits that says where each was refused.
TABLE = "verdicts"
TELLS = "# "
# How a constant, a type or a definition begins: its word and its name.
DECLARED = re.compile(
    r"^(?:pub(?:\(crate\))? )?(const|static|struct|enum|abbrev|unfoldable|record) (?:pub )?([\w-]+)", re.MULTILINE
)
WORD = re.compile(r"[\w-]+")
KINDS = {"const": "constant", "static": "constant", "struct": "type", "enum": "type"}


class BadEdit(Exception):
    """Why an edit can't be applied, as where its old text doesn't stand in its file just once."""


@dataclasses.dataclass(frozen=True)
class Change:
    """The bytes from `start` up to `end` of a file of the crate, and what stands in their place."""

    file: str
    start: int
    end: int
    new: bytes


@dataclasses.dataclass(frozen=True)
class Place:
    """What an edit changes: a function, a constant, a type or a definition, by its name."""

    kind: str
    name: str


@dataclasses.dataclass
class Edit:
    """A wrong body: its name, what its first line says, what it changes, and the functions in which all of that lies.

    There are none where it changes something outside of functions, as a constant, a type or a definition; `places`
    names that too, and `namers` are the functions that name it, then those that name what is defined by it, ring by
    ring, the shortest first. Only where it changes nothing but bodies (`is_inside`) can no other function see it.
    """

    name: str
    told: str
    changes: list
    functions: list
    places: list
    namers: list
    is_inside: bool


class Function:
    """A function with a body, as the kit has read it, and the modules under which a check may name it.

    A method goes by the module of its type, wherever its `impl` stands.
    """

    def __init__(self, read, types, is_the_only):
        self.name, self.file, self.block, self.in_trait = read.name, read.file, read.block, read.in_trait
        self.is_the_only = is_the_only
        self.first, self.named, self.opens, self.end = read.first, read.named, read.opens, read.end
        self.in_cycle, self.tactics = read.in_cycle, read.attributes
        self.owner = read.owner if read.block else ""
        self.typed, self.trait = (_type_of(read.block), _trait_of(read.block)) if read.in_trait else ("", "")
        of_type = {module for module, *_ in types.get(self.owner, [])}
        self.modules = {read.module} | of_type
        # Where its proof stands: that of a type's own method below the module of the type.
        self.homes = {read.module} if self.trait or not of_type else of_type

    def ending(self):
        """What a check's name for it ends in, and no other's where the kit names its block by type and trait."""
        if self.in_trait and self.is_the_only:
            return self.name
        if self.block:
            return f"{self.block_name()}::{self.name}"
        return "::".join([*next(iter(self.modules)), self.name])

    def block_name(self):
        """What a check calls the block that has the method: its type, and the trait that it is of."""
        return f"{self.typed}{self.trait}" if self.trait else self.owner

    def proofs(self):
        """Where a check looks for the function's proof, from the crate's folder."""
        owner = [self.block_name()] if self.block else []
        return ["/".join(["proofs", *module, *owner, self.name]) for module in sorted(self.homes)]

    def is_called(self, words):
        """Whether these words, what a check's name has below its module, are this function's."""
        if not self.block:
            return words == [self.name]
        return words[1:] == [self.name] and self._is_owned_by(words[0])

    def _is_owned_by(self, word):
        if self.trait:
            return word != self.owner and self.block.fits(word)
        return word == self.owner


def _type_of(block):
    """A type as a check's name for a trait's block has it, without its parameters: of `&Vec<u64>` RefVecU64."""
    return _spelled(it for it in block.ty if it == "&" or it.replace("_", "").lower() in block.words)


def _trait_of(block):
    """The trait in the same way, and nothing of `Drop`, whose method goes by its type alone."""
    return _spelled(it for it in block.trait if it not in (*block.generics, "Drop"))


def _spelled(words):
    return "".join("Ref" if it == "&" else it[:1].upper() + it[1:] for it in words if it == "&" or it.isidentifier())


def functions_of(folder):
    """The functions of a crate's src/ that have a body."""
    source = kit.Source(folder)
    source.read("src/main.rt" if os.path.isfile(f"{folder}/src/main.rt") else "src/lib.rt")
    of_a_name = collections.Counter(it.name for it in source.functions)
    return [Function(it, source.declared, of_a_name[it.name] == 1) for it in source.functions if it.has_body]


def names_of(crate):
    """The files in the crate's folder of edits, without the table of their verdicts."""
    folder = f"{crate.folder}/{WRONG}"
    return sorted(it for it in os.listdir(folder) if it != TABLE) if os.path.isdir(folder) else []


def read_edits(crate, functions=None):
    """Reads the crate's edits, over its functions if these are known.

    Gives (the edits, why each other one can't be applied).
    """
    names = names_of(crate)
    if functions is None:
        functions = functions_of(crate.folder) if names else []
    edits, bad = [], []
    for name in names:
        try:
            edits.append(_read(crate.folder, functions, f"{WRONG}/{name}"))
        except BadEdit as why:
            bad.append(f"{name.removesuffix(ENDING)}: BAD EDIT: {why}")
    return edits, bad


def _read(folder, functions, file):
    if not file.endswith(ENDING):
        raise BadEdit(f"the name of an edit ends in {ENDING}")
    texts, why = kit.read_edit(f"{folder}/{file}", folder)
    if why:
        raise BadEdit(why)
    changes = [it for file, text in texts.items() for it in _changes(folder, file, text)]
    if not changes:
        raise BadEdit("it changes nothing")
    held = [_holding(functions, it) for it in changes]
    places = list(dict.fromkeys(_place(folder, f, it) for f, it in zip(held, changes)))
    return Edit(
        name=os.path.basename(file).removesuffix(ENDING),
        told=_told(f"{folder}/{file}"),
        changes=changes,
        functions=[] if None in held else list(dict.fromkeys(held)),
        places=places,
        namers=_namers(folder, functions, {it.name for it in places}) if None in held else [],
        is_inside=all(f and f.opens < it.start for f, it in zip(held, changes)),
    )


def _told(path):
    """What the first line of an edit says, without the mark of a comment; nothing where it has none."""
    first = bytes_of(path).decode(errors="replace").partition("\n")[0]
    return first.removeprefix(TELLS) if first.startswith(TELLS) else ""


def _place(folder, function, change):
    """What is changed: the function that holds the change, or else the last thing declared above it."""
    if function:
        return Place("function", f"{function.owner}::{function.name}" if function.owner else function.name)
    text = bytes_of(f"{folder}/{change.file}")
    behind = text.find(b"\n", change.start)
    found = DECLARED.findall(text[: len(text) if behind < 0 else behind].decode())
    if not found:
        return Place("file", change.file)
    word, name = found[-1]
    return Place(KINDS.get(word, "definition"), name)


def _namers(folder, functions, names):
    """The functions whose text has one of the names, then those that name what is defined by them, and so on.

    The shortest of a ring is a ring by itself, before the others: what calls little is soon checked.
    """
    rings, passed, told = [], set(), set()
    while names:
        ring = [it for it in functions if it not in told and names & _words(_text_of(folder, it))]
        ring.sort(key=lambda it: it.end - it.first)
        rings += [it for it in (ring[:1], ring[1:]) if it]
        told.update(ring)
        passed |= names
        names = {name for name, words in _definitions(folder) if names & words} - passed
    return rings


def _definitions(folder):
    """The definitions in the crate's specs/, each with the words of its text."""
    found = collections.defaultdict(set)
    for path in sorted(glob.glob(f"{folder}/specs/**/*.antt", recursive=True)):
        for name, line in heads.owned(bytes_of(path).decode()):
            found[path, name] |= _words(line)
    return [(name, words) for (_, name), words in found.items()]


def _text_of(folder, function):
    """A function's text, its clauses and its body."""
    return bytes_of(f"{folder}/{function.file}")[function.first : function.end].decode()


def _words(text):
    return set(WORD.findall(text))


def _holding(functions, change):
    """The function, signature and clauses included, in which the change lies, if it lies in one."""
    inside = (it for it in functions if it.file == change.file and it.first <= change.start and change.end < it.end)
    return next(inside, None)


def _changes(folder, file, text):
    with open(f"{folder}/{file}", "rb") as it:
        old = it.read().splitlines(keepends=True)
    new = text.encode().splitlines(keepends=True)
    starts = [0]
    for line in old:
        starts.append(starts[-1] + len(line))
    parts = difflib.SequenceMatcher(None, old, new, autojunk=False).get_opcodes()
    pairs = [(starts[a], b"".join(old[a:b]), b"".join(new[c:d])) for tag, a, b, c, d in parts if tag != "equal"]
    return [_trimmed(file, *it) for it in pairs]


def _trimmed(file, start, old, new):
    """The change without the bytes that both texts begin with, and those that both end with."""
    before = len(os.path.commonprefix([old, new]))
    old, new = old[before:], new[before:]
    behind = len(os.path.commonprefix([old[::-1], new[::-1]]))
    return Change(file, start + before, start + before + len(old) - behind, new[: len(new) - behind])


def grouped(edits):
    """Shares the edits out: no two of a group change one function, and one that other functions see is by itself."""
    groups = []
    for edit in (it for it in edits if it.is_inside):
        group = next((it for it in groups if not _share_a_function(it, edit)), None)
        if group is None:
            groups.append(group := [])
        group.append(edit)
    return groups + [[it] for it in edits if not it.is_inside]


def functions_in(edits):
    """The functions that edits change, each once."""
    return list(dict.fromkeys(it for edit in edits for it in edit.functions))


def apart_from(group, edits):
    """The last of these edits that change nothing but bodies, none in a function of the group's or of another's."""
    apart = []
    for edit in reversed(edits):
        if edit.is_inside and not _share_a_function([*group, *apart], edit):
            apart.append(edit)
    return apart


def _share_a_function(group, edit):
    return any(it in other.functions for other in group for it in edit.functions)


def applied(folder, edits):
    """The texts of the files that these edits change, by their paths, once all of them are applied."""
    changes = sorted((it for edit in edits for it in edit.changes), key=lambda it: (it.start, it.end), reverse=True)
    texts = {}
    for it in changes:
        text = texts[it.file] if it.file in texts else bytes_of(f"{folder}/{it.file}")
        texts[it.file] = text[: it.start] + it.new + text[it.end :]
    return {file: text.decode() for file, text in texts.items()}


def bytes_of(path):
    with open(path, "rb") as it:
        return it.read()
