"""Reads what `explain` and `help COMMAND` say from their definitions, as a part of the page's script.

The program is proved to write these definitions (crates/rh_explained). No sentence of theirs stands in the page's own
sources: a definition that is reworded, or that isn't as this file reads it, changes the page or makes none.
"""

import json
import re

import page

# The part of the page's script that is made here.
PART = "sentences.js"
# Kinds of commands that have reasons of their own for some refusals: the function that says of a kind whether it is one
# of these, the front of the names of the functions that have the reasons, and the refusals. The first that holds counts.
OWN_REASONS = (("is_of_bytes", "bytes", ("BadRange",)), ("is_of_programs", "program", ("Busy", "NoFile", "BadRange")))
# The refusal with which help is a kind's own.
MANNER = "WrongManner"
HEAD = "// What explain and help COMMAND say, as their definitions have it. sentences.py makes this part.\n"
# A rule of a definition: its left side, and its right side with the lines behind it.
RULE = re.compile(r"^(\w+(?: [^\s=]+)*) =((?: .*)?(?:\n +.*)*)$", re.MULTILINE)
TEXT = re.compile(r'codes ("(?:[^"\\]|\\.)*")')
SHOWN = re.compile(r"^pub const MOST_OF_WORD: usize = (\d+);$", re.MULTILINE)


class NoSentence(Exception):
    """What no definition says."""


class Rules:
    """The rules of definitions by their left sides."""

    def __init__(self, top):
        self.text = "\n".join((top / it).read_text() for it in page.SENTENCES)
        self.rules = {left.replace("kind.", ""): right.strip() for left, right in RULE.findall(self.text)}

    def right(self, left):
        """The right side of a rule."""
        if left not in self.rules:
            raise NoSentence(f"rh_explained has no rule {left}")
        return self.rules[left]

    def texts(self, left):
        """The texts in the right side of a rule, in their order."""
        return [json.loads(it) for it in TEXT.findall(self.right(left))]

    def text_of(self, left):
        """The one text in a right side; an empty one where that is an empty list."""
        if self.right(left) == "[]":
            return ""
        texts = self.texts(left)
        if len(texts) != 1:
            raise NoSentence(f"rh_explained has {len(texts)} texts at {left}, not one")
        return texts[0]

    def names(self, left):
        """The names in a list."""
        return self.right(left).removesuffix("[]").replace("∷", " ").split()

    def cases(self, function):
        """The cases of a function with one argument, in their order."""
        return [left.split()[1] for left in self.rules if left.startswith(f"{function} ")]

    def in_order(self, function, names):
        """Names in the order of the cases of a function, which has a case for each."""
        for it in sorted(names):
            self.right(f"{function} {it}")
        return [it for it in self.cases(function) if it in names]

    def number(self, pattern):
        """The number that a pattern finds."""
        found = pattern.search(self.text)
        if not found:
            raise NoSentence(f"rh_explained has no {pattern.pattern}")
        return int(found[1])


def forms_in(text):
    """Each form that a text of several names: what stands in brackets may be left out."""
    forms = re.split(r", | or ", text)
    return [it for form in forms
            for it in dict.fromkeys((re.sub(r" \[.*\]", "", form), form.replace("[", "").replace("]", "")))]


def own_reasons(rules, kind, refusals):
    """Why a kind of command is refused and what helps, of those refusals where that isn't the same for all kinds."""
    fronts = [it for it in OWN_REASONS if rules.rules.get(f"{it[0]} {kind}") == "true"]
    _, front, names = fronts[0] if fronts else ("", "", ())
    found = {it: reason(rules, f"{front}_why {it}", f"{front}_help {it}") for it in refusals if it in names}
    if MANNER in refusals:
        found[MANNER] = reason(rules, f"why {MANNER}", f"manner_help {kind}")
    return found


def commands(rules):
    """Of each kind of command its forms, the words that name it, what it does, the kinds of its further words, its
    refusals, and its own reasons for some of these."""
    own = {it: int(rules.right(f"own_words {it}")) for it in rules.cases("own_words")}
    usual = own.pop("kind")
    found = {}
    for kind in rules.cases("deed"):
        expected = rules.text_of(f"forms {kind}")
        forms = forms_in(expected)
        found[kind] = {"expected": expected, "forms": forms, "own": forms[0].split()[: own.get(kind, usual)],
                       "does": " ".join(rules.text_of(f"deed {kind}").split("\n")),
                       "words": rules.names(f"word_kinds {kind}"), "refusals": rules.names(f"refusals {kind}")}
        found[kind]["reasons"] = own_reasons(rules, kind, found[kind]["refusals"])
    return found


def reason(rules, why, helps):
    """Why a refusal comes and what helps, by the left sides of their rules."""
    return {"why": rules.text_of(why), "helps": rules.text_of(helps).strip()}


def refusal(rules, name):
    """Why a refusal comes, what helps, and by which function the command has what it is about."""
    about = rules.rules.get(f"detail facts c {name}", "")
    return {**reason(rules, f"why {name}", f"help_for {name}"),
            "about": about.split("(")[-1].removesuffix(" c)") if about.endswith(" c)") else ""}


def faults(rules):
    """What is said of bad lines: of their ends, of bytes that no word may have, and of their words."""
    ends = {it: {"says": rules.text_of(f"fault_says line {it}"), "helps": rules.text_of(f"fault_help {it}").strip()}
            for it in ("TooLong", "Unended")}
    odd = {**{it: rules.texts(f"odd_says {it}") for it in ("Return", "Tab")}, "Foreign": rules.texts("foreign_says b")}
    return {"ends": ends, "odd": odd, "word": rules.texts("word_says line n"), "shown": rules.number(SHOWN),
            "expected": rules.text_of("word_expected (Some kind)"), "unknown": rules.text_of("fault_says line Unknown"),
            "count": rules.text_of("forms_expected (Some kind)")}


def table(top):
    """All that the definitions of the repository at `top` say."""
    rules = Rules(top)
    found = commands(rules)
    words = {it for command in found.values() for it in command["words"]}
    reasons = {it for command in found.values() for it in command["refusals"]}
    return {"commands": found, "words": {it: rules.text_of(f"expected {it}") for it in sorted(words)},
            "refusals": {it: refusal(rules, it) for it in rules.in_order("why", reasons)},
            "allBusy": rules.text_of("busy_says None"), "detail": rules.text_of("detail_name (Some name)"),
            "faults": faults(rules)}


def part(top):
    """The part of the page's script that has them."""
    return f"{HEAD}export const SENTENCES = {json.dumps(table(top), ensure_ascii=False)};\n"
