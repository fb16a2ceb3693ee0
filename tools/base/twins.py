"""Twins: a copy of a crate in which a function stands once for each edit of its body. All are tried in one check then.

A twin has the function's clauses, its body and its proof under another name, behind the function. A check refuses its
wrong body at the goals at which it would refuse the function's own.
"""

import copy
import dataclasses
import glob
import os
import re
import shutil

import edit as edits_of
import kit

# The files of a function's proof that a twin takes along. One with another file, as a whole proof by hand, has no twin.
TAKEN = {"Answers.antt", "Invariants.antt"}
# What a twin's name has behind the function's, with the twin's number.
MARK = "_of_edit_"
TWIN = re.compile(rf"{MARK}\d+")


def told(goal):
    """The name of a goal as the function has it, of which a twin's name was said."""
    return TWIN.sub("", goal)


def lay_out(crate, edits, folder):
    """Makes a copy of the crate with twins in the folder; gives the crate there, and the edits as they lie in it.

    Of edits of one body the first changes the function, and each other one a twin. An edit whose function can't have one
    stays as it is.
    """
    for part in kit.PARTS:
        if os.path.isdir(f"{crate.folder}/{part}"):
            shutil.copytree(f"{crate.folder}/{part}", f"{folder}/{part}")
    made, taken = [], set()
    for edit in (it for it in edits if it.is_inside):
        if taken.intersection(edit.functions) and _may_have_a_twin(crate, edit):
            made.append(_Twin(crate, edit, len(made) + 2))
        taken.update(edit.functions)
    for file in sorted({it.function.file for it in made}):
        _insert([it for it in made if it.function.file == file], f"{folder}/{file}")
    for it in made:
        it.take_proof(folder)
    of_edit = {it.edit.name: it for it in made}
    laid = copy.copy(crate)
    laid.folder = folder
    return laid, [_moved(it, of_edit.get(it.name), made) for it in edits]


def _may_have_a_twin(crate, edit):
    """Whether a twin of the one function that the edit changes can stand beside it.

    None can of a trait's method, of a call for C, and of a call in a cycle, which are known by their names, and of a
    function with closures that have proofs of their own.
    """
    function = edit.functions[0]
    head = edits_of.bytes_of(f"{crate.folder}/{function.file}")[function.first : function.opens]
    files = {name for folder in _proofs(crate, function) for name in os.listdir(f"{crate.folder}/{folder}")}
    has_closures = glob.glob(f"{crate.folder}/proofs/**/fn/{function.name}", recursive=True)
    is_known_by_name = function.in_trait or function.in_cycle or b"extern" in head
    return len(edit.functions) == 1 and not is_known_by_name and not has_closures and files <= TAKEN


def _proofs(crate, function):
    """The folders of the function's proof, from the crate's."""
    return [it for it in function.proofs() if os.path.isdir(f"{crate.folder}/{it}")]


class _Twin:
    """A function's copy for one edit: its text, and the bytes that it begins and is named at in the copied file."""

    def __init__(self, crate, edit, number):
        self.crate, self.edit, self.function = crate, edit, edit.functions[0]
        self.name = f"{self.function.name}{MARK}{number}"
        first, named, end = self.function.first, self.function.named, self.function.end
        text = edits_of.bytes_of(f"{crate.folder}/{self.function.file}")
        self.text = b"\n\n" + text[first : named[0]] + self.name.encode() + text[named[1] : end]
        # How much farther from the function's end than from its first byte what lies behind the name is.
        self.wider = len(self.text) - (end - first)

    def take_proof(self, folder):
        """Copies the function's proof, which names the function's goals by its own path."""
        for path in _proofs(self.crate, self.function):
            target = f"{os.path.dirname(path)}/{self.name}"
            os.makedirs(f"{folder}/{target}")
            old, new = (f"Rattle.{self.crate.name}.{it.replace('/', '.')}." for it in (path, target))
            for name in os.listdir(f"{folder}/{path}"):
                text = edits_of.bytes_of(f"{folder}/{path}/{name}").replace(old.encode(), new.encode())
                with open(f"{folder}/{target}/{name}", "wb") as it:
                    it.write(text)


def _insert(twins, path):
    """Puts the twins of a file's functions behind these."""
    text = edits_of.bytes_of(path)
    for end in sorted({it.function.end for it in twins}, reverse=True):
        text = text[:end] + b"".join(it.text for it in twins if it.function.end == end) + text[end:]
    with open(path, "wb") as it:
        it.write(text)


def _moved(edit, twin, made):
    """The edit with its changes where they lie in the copy, of the twin's body if it has one."""
    def moved(change):
        before = [it for it in made if it.function.file == change.file and it.function.end <= change.start]
        more = sum(len(it.text) for it in before)
        if twin:
            beside = made[: made.index(twin)]
            more += sum(len(it.text) for it in beside if it.function is twin.function)
            more += twin.function.end - twin.function.first + twin.wider
        return dataclasses.replace(change, start=change.start + more, end=change.end + more)

    functions = edit.functions
    if twin:
        functions = [copy.copy(twin.function)]
        functions[0].name = twin.name
    return dataclasses.replace(edit, changes=[moved(it) for it in edit.changes], functions=functions)
