"""What a check is spared that has only to say at which goals it refuses some functions.

Where a search leaves a goal open, a check goes over the function once more to print what could be written for it. A
function whose answers have a hole is offered nothing, where the check allows no holes. And a check proves each function
that is called. A function is proved against the contracts of what it calls: no goal of a caller is another where these
have empty bodies, and with nothing that looks for a proof an empty body takes next to no time.
"""

import glob
import os
import re

import edit as edits_of

ANSWERS, INVARIANTS, WHOLE = "Answers.antt", "Invariants.antt", "Proof.antt"
HOLE = "\n\nnothing_to_offer : Type 0\nnothing_to_offer = ?\n"
EMPTY, NO_SEARCH = b"{ unreachable!() }", b"#[tactic(none)]\n"
# Where a head has this, others see more of the function than its contract: its body, or the type that the body makes.
SEEN = re.compile(rb"\bconst\s+(?:unsafe\s+)?fn\b|->[^{]*\bimpl\b")


class Spared:
    """What is changed in a crate so that little but the functions asked for is proved: of its sources, and its proofs.

    In `proofs` a file has its new text by its path, or None where it goes.
    """

    def __init__(self, folder, asked):
        names = {_known(it) for it in asked}
        every = edits_of.functions_of(folder)
        asked = [it for it in every if _known(it) in names]
        self.emptied = [it for it in every if _known(it) not in names and _may_be_empty(folder, it, asked)]
        self.changes = [change for it in self.emptied for change in _emptied(it)]
        self.proofs = {path: text for it in self.emptied for path, text in _no_proof(it).items()}
        self.proofs.update((path, text) for it in asked for path, text in _with_holes(folder, it).items())


def _known(function):
    return function.file, function.block_name(), function.name


def _may_be_empty(folder, function, asked):
    """Whether others know nothing of the function but its contract, and it lies apart from all that are asked for."""
    head = edits_of.bytes_of(f"{folder}/{function.file}")[function.first : function.opens]
    lies_apart = all(it.file != function.file or it.end <= function.first or function.end <= it.first for it in asked)
    is_by_hand = any(os.path.isfile(f"{folder}/{it}/{WHOLE}") for it in function.proofs())
    has_closures = glob.glob(f"{folder}/proofs/**/fn/{function.name}", recursive=True)
    return lies_apart and not (function.in_cycle or is_by_hand or has_closures or SEEN.search(head))


def _emptied(function):
    """The changes that empty a function's body, and that keep each tactic from looking for a proof of it."""
    said = [edits_of.Change(function.file, start, end, b"") for start, end in function.tactics]
    first = edits_of.Change(function.file, function.first, function.first, NO_SEARCH)
    return [*said, first, edits_of.Change(function.file, function.opens, function.end, EMPTY)]


def _no_proof(function):
    """The proof of an emptied function: nothing of loops, which are gone, and no answer."""
    return {f"{it}/{name}": text for it in function.proofs() for name, text in ((ANSWERS, HOLE), (INVARIANTS, None))}


def _with_holes(folder, function):
    """The answers of a function with a hole behind them; one with a whole proof by hand is offered nothing anyway."""
    places = [it for it in function.proofs() if not os.path.isfile(f"{folder}/{it}/{WHOLE}")]
    return {f"{it}/{ANSWERS}": _text_of(f"{folder}/{it}/{ANSWERS}") + HOLE for it in places}


def _text_of(path):
    return edits_of.bytes_of(path).decode() if os.path.isfile(path) else ""
