"""The trial of a crate's wrong bodies: group by group, with a verdict on each edit."""

import tempfile

import edit as edits_of
import spared
import timed
import twins
from said import Said

# How a verdict begins where an edit was refused.
REFUSED = "refused at "


class Verdict:
    """What came of one edit, the goals of its own at which it was refused, and the seconds that its functions took.

    Where it wasn't refused at one, `lines` are the first that the prover said of it.
    """

    def __init__(self, edit, text, goals=(), seconds=0.0, lines=()):
        self.edit, self.text, self.goals, self.seconds, self.lines = edit, text, goals, seconds, lines

    @property
    def is_well(self):
        """Whether the edit was refused at a goal of its own."""
        return bool(self.goals)


def refused(edit, goals, seconds):
    """The verdict on an edit that was refused at these goals of its own, by a check of so many seconds."""
    goals = [twins.told(it) for it in goals]
    return Verdict(edit, f"{REFUSED}{goals[0]}", goals, seconds)


class Trial:
    """The edits of one crate, tried over one folder that keeps what each check has proved."""

    def __init__(self, crate, kept, jobs):
        self.crate, self.kept, self.jobs = crate, kept, jobs
        # The goals that were refused so far; how many checks there were, and the seconds of a processor that they took.
        self.seen, self.checks, self.spent = set(), 0, 0.0

    def check(self, edits, functions=()):
        """Checks the crate with these edits, or only these functions of it."""
        return self._ran(edits_of.applied(self.crate.folder, edits), ["--allow-holes", *_only(functions)])

    def check_spared(self, edits):
        """Checks the functions that these edits change, and does nothing else for a crate with these edits."""
        functions = edits_of.functions_in(edits)
        beside = spared.Spared(self.crate.folder, functions)
        return self._ran(edits_of.applied(self.crate.folder, [*edits, beside]), _only(functions), beside.proofs)

    def _ran(self, texts, flags, proofs=()):
        """What a check with these texts in place of the crate's said; no edit changes the proofs."""
        for jobs in (str(self.jobs), "1"):
            ran = timed.checked(self.crate, {**dict(proofs), **texts}, [*flags, "--jobs", jobs], self.kept)
            self.checks, self.spent = self.checks + 1, self.spent + ran.spent
            # Where it was killed, that was most likely for memory.
            if ran.returncode >= 0:
                break
        return Said(self.crate, ran, texts)

    def check_group(self, group, beside):
        """Checks the functions that a group's edits change, and does nothing else if that will do.

        Where nothing can be told of that, what they call is proved too, with the edits beside the group in it. Where the
        edits lie outside of functions the whole crate is checked.
        """
        if all(it.is_inside for it in group):
            said = self.check_spared(group)
            if not said.fault():
                return said
        return self.check([*group, *beside], edits_of.functions_in(group))

    def judge_all(self, groups):
        """A verdict for each edit of all groups. What was refused stays beside the groups that follow."""
        verdicts = []
        for group in groups:
            refused = [it.edit for it in verdicts if it.is_well]
            verdicts += self.by_namers(group) or self.judge(group, edits_of.apart_from(group, refused))
        return verdicts

    def by_namers(self, group):
        """The verdict for an edit outside of functions that a function which names what it changes refuses, if one does.

        It is applied alone, and only the functions of one ring are checked, the nearest first: each goal that is
        refused then is refused for it.
        """
        for ring in group[0].namers:
            said = self.check(group, ring)
            goals = [] if said.fault() else said.all_goals()
            if goals:
                return [refused(group[0], goals, said.seconds_of(ring))]
        return []

    def judge(self, group, beside=()):
        """A verdict for each edit of the group, which is tried in halves where nothing can be told of the whole.

        The bodies of `beside` are wrong as well, as they were in the check before: to prove them as they stand would
        take as long as a group does, and tells nothing.
        """
        said = self.check_group(group, beside)
        if said.fault() and len(group) > 1:
            half = len(group) // 2
            return self.judge(group[:half], beside) + self.judge(group[half:], beside)
        if said.fault():
            return [self.judge_alone(group[0])]
        others = self.seen.union(goals_of(said, beside)) if beside else set()
        self.seen = self.seen.union(said.all_goals())
        return [verdict(said, it, others) or self.judge_alone(it) for it in group]

    def judge_alone(self, edit):
        """The verdict on an edit that a check with others didn't refuse: it is tried alone.

        First its functions are checked, and what they call; then the whole crate, where these didn't refuse it.
        """
        if edit.functions:
            said = self.check([edit], edit.functions)
            if told := None if said.fault() else verdict(said, edit):
                return told
        said = self.check([edit])
        fault, elsewhere = said.fault(), said.all_goals()
        if fault:
            return Verdict(edit, f"BAD EDIT: {fault}", lines=said.first_lines())
        if said.is_all_proved():
            return Verdict(edit, "PROVED")
        where = elsewhere[0] if elsewhere else "no goal"
        return verdict(said, edit) or Verdict(edit, f"refused elsewhere only, at {where}", lines=said.first_lines())


def verdict(said, edit, others=frozenset()):
    """The verdict on an edit that a check refuses, or None: others' goals refuse none outside of functions."""
    own = refused_at(said, edit, others)
    return refused(edit, own, said.seconds_of(edit.functions)) if own else None


def _only(functions):
    """The words by which only these functions are checked, with what they stand on."""
    return [word for it in functions for word in ("--only", it.ending())]


def refused_at(said, edit, others=frozenset()):
    """The refused goals of the functions that the edit changes: of any one, where it lies outside of functions.

    Those count then that were not refused before, and are not of a function that an edit beside it changes: bodies
    that stay wrong can't be refused at other goals.
    """
    if not edit.functions:
        return [it for it in said.all_goals() if it not in others]
    return goals_of(said, [edit])


def goals_of(said, edits):
    """The refused goals of the functions that these edits change."""
    functions = edits_of.functions_in(edits)
    return [goal for it in functions for symbol in said.symbols(it) for goal in said.goals(symbol)]


def tried(crate, edits, jobs):
    """The verdicts on these edits of the crate in the order of their names; how many checks there were, and seconds."""
    with tempfile.TemporaryDirectory(prefix="wrong-bodies-") as folder:
        laid, edits = twins.lay_out(crate, edits, f"{folder}/crate")
        trial = Trial(laid, f"{folder}/kept", jobs)
        verdicts = sorted(trial.judge_all(edits_of.grouped(edits)), key=lambda it: it.edit.name)
    return verdicts, trial.checks, trial.spent
