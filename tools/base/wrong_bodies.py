"""The program of bin/wrong-bodies: which edits a run tries, what it tells of each, and what it keeps and writes.

An edit isn't tried where this machine has tried it under the same sum, nor where the table has a line of it under that
sum and the sample leaves it out.
"""

import sys
import tempfile
import threading

import edit as edits_of
import kit
import libraries
import sample
import sums
import trial
import verdicts

PRINTING = threading.Lock()
ANEW, WRITE, DEAREST = "--anew", "--write", "--dearest"
# How many of the dearest edits are told.
MOST_TOLD = 20


class Case:
    """A crate's edits: what is known of each, which are left to be tried, and what came of these.

    In `lines` are the lines of the table that have their edit's sum, in `kept` what this machine has tried under it.
    """

    def __init__(self, crate):
        self.crate, self.state = crate, sums.state_of(crate)
        self.edits, self.bad = edits_of.read_edits(crate, sums.functions_of(crate))
        self.sums = sums.of_edits(crate, self.edits)
        names = [it.removesuffix(edits_of.ENDING) for it in edits_of.names_of(crate)]
        self.table, self.faults = verdicts.read_table(crate, names)
        self.lines = {name: it for name, it in self.table.items() if it.sum == self.sums.get(name)}
        self.kept = verdicts.kept_of(crate, self.sums)
        self.left, self.tried, self.failed, self.is_lost = [], {}, [], False

    def path(self, name):
        """An edit as lines tell of it."""
        return f"{self.crate.name}/{name}"

    def leave(self, is_anew, sampled):
        """Leaves to be tried what isn't kept, and has no line in the table or is in the sample; or all."""
        if is_anew:
            self.kept = {}
        known = {*self.kept, *(name for name in self.lines if (self.crate.name, name) not in sampled)}
        self.left = [it for it in self.edits if is_anew or it.name not in known]

    def seen(self):
        """What this machine has tried, in this run or before: the edits that were refused."""
        return {**self.kept, **self.tried}

    def refused(self):
        """All edits that were refused, as this machine has seen it, or else as the table says."""
        return {name: it for name, it in {**self.lines, **self.seen()}.items() if name not in self.failed}

    def by_table(self):
        """The edits of which nothing but the table says that they are refused."""
        return self.lines.keys() - self.kept.keys() - {it.name for it in self.left}

    def due(self):
        """The edits that were refused, and have no line in the table."""
        return self.seen().keys() - self.lines.keys()

    def differing(self):
        """Tells of each edit that this machine has seen refused at none of the goals that the table has."""
        for name, it in self.seen().items():
            line = self.lines.get(name)
            if line and not line.agrees(it):
                yield f"{name} was refused at {it.goals[0]}, and not at {line.goals[0]}"

    def faults_told(self):
        """What fails the run: what can't be applied or wasn't refused, and what is wrong with the table."""
        failed = [*(it.partition(":")[0] for it in self.bad), *self.failed]
        yield from (f"not refused: {self.path(it)}" for it in failed)
        table = f"crates/{self.crate.name}/{edits_of.WRONG}/{edits_of.TABLE}"
        yield from (f"{table}: {it}" for it in [*self.faults, *self.differing()])

    def begin(self):
        """Prints what can't be applied, and how many edits are left to be tried."""
        lines = [self.path(it) for it in self.bad]
        told = f"{len(self.left)} to try, {len(self.kept)} kept, {len(self.by_table())} by the table"
        print("\n".join([*lines, f"{self.crate.name}: {len(self.edits)} edits, {told}"]), flush=True)

    def try_left(self, jobs):
        """Tries what is left, prints a line of each edit, and keeps those that were refused."""
        found, checks, spent = trial.tried(self.crate, self.left, jobs)
        lines = []
        for it in found:
            lines += [f"{self.path(it.edit.name)}: {it.text}", *(f"    {line}" for line in it.lines)]
        lines.append(f"{self.crate.name}: {checks} check{'s' * (checks != 1)}, {spent:.0f} s of a processor")
        self.failed = [it.edit.name for it in found if not it.is_well]
        self.tried = {it.edit.name: self._told(it) for it in found if it.is_well}
        # What was tried of a crate that was changed meanwhile is known of neither state.
        self.is_lost = self.state != sums.state_of(self.crate)
        if self.is_lost:
            lines.append(f"{self.crate.name}: it was changed while its edits were tried, and nothing of that is kept")
        else:
            verdicts.keep(self.crate, self.tried.values(), len(self.edits))
        with PRINTING:
            print("\n".join(lines), flush=True)

    def _told(self, verdict):
        name = verdict.edit.name
        return verdicts.Told(name, self.sums[name], tuple(verdict.goals), verdict.seconds)

    def write(self):
        """Writes the crate's table with a line of each edit that was refused, and takes these for its lines."""
        if self.is_lost:
            return
        lines = {name: it.short() for name, it in self.refused().items()}
        if lines != self.table or self.faults:
            verdicts.write_table(self.crate, lines.values())
            with PRINTING:
                print(f"{self.crate.name}: its table is written, of {len(lines)} edits", flush=True)
        self.table, self.lines, self.faults = lines, lines, []


def built(library, jobs):
    """Builds a library, and tells what the prover said where it isn't proved; gives whether it is."""
    with tempfile.TemporaryFile("w+", errors="replace") as log:
        if libraries.build(library, jobs, log):
            return True
        log.seek(0)
        print(log.read(), end="", file=sys.stderr)
    return False


def tasks_of(cases, writes):
    """What is to be run: the libraries that are not there, and each case's trial over those below its crate."""
    left = libraries.unbuilt(libraries.below([it.crate for it in cases]))
    tasks = libraries.tasks(left, built)
    for case in cases:
        waits = [(dep.name, "library") for dep in case.crate.below() if dep in left]

        def call(given, jobs, case=case, waits=waits):
            if not all(given[key] for key in waits):
                return False
            case.try_left(jobs)
            if writes:
                case.write()
            return True

        tasks[case.crate.name, "wrong"] = (waits, case.crate.count(rb"\n"), kit.need(case.crate), call)
    return tasks


def try_all(cases, writes):
    """Tries what is left of all cases, and gives those whose libraries aren't proved."""
    crates = [it.crate for it in cases]
    with libraries.locked([*libraries.below(crates), *crates]):
        given = kit.in_lanes(tasks_of(cases, writes))
    return [it for it in cases if not given[it.crate.name, "wrong"]]


def tell_dearest(cases):
    """Tells the edits whose functions took the most seconds, of all that this machine has tried."""
    told = [(it.seconds, case.path(it.name), it.goals) for case in cases for it in {**case.kept, **case.tried}.values()]
    for seconds, path, goals in sorted(told, reverse=True)[:MOST_TOLD]:
        print(f"{seconds:6.1f} s {path}: {' '.join(goals)}")
    print(f"{sum(seconds for seconds, *_ in told):.0f} seconds in the functions of {len(told)} kept verdicts")
    return 0


def main(top, words):
    """Tries edits of the crates with these names, or of all, and gives the exit status."""
    names = [it for it in words if it not in (ANEW, WRITE, DEAREST)]
    crates = kit.crates_of(top)
    if unknown := set(names) - {it.name for it in crates}:
        print(f"wrong-bodies: no such crate: {', '.join(sorted(unknown))}", file=sys.stderr)
        return 2
    cases = [Case(it) for it in crates if edits_of.names_of(it) and (not names or it.name in names)]
    if DEAREST in words:
        return tell_dearest(cases)
    lines = {it.crate.name: list(it.lines) for it in cases if it.lines}
    sampled = set() if WRITE in words else sample.chosen(sample.seed_of(top, crates), lines)
    for it in cases:
        it.leave(ANEW in words, sampled)
        it.begin()
    unproved = try_all([it for it in cases if it.left], WRITE in words)
    for it in (it for it in cases if WRITE in words and not it.left):
        it.write()
    for it in unproved:
        print(f"{it.crate.name}: a library below it is not proved, and no edit was tried")
    if any(it.tried for it in cases):
        tell_dearest([it for it in cases if it.tried])
    status = summed(cases)
    return 1 if unproved else status


def summed(cases):
    """Prints what came of all, and gives the exit status: 0 only where there are edits and each was refused.

    What failed is named once more at the end, where a reader of the last lines sees it.
    """
    faults = [it for case in cases for it in case.faults_told()]
    if due := {case.crate.name: len(case.due()) for case in cases if case.due()}:
        names = " ".join(due)
        print(f"{sum(due.values())} refused edits have no line in their table: bin/wrong-bodies {WRITE} {names}")
    for it in faults:
        print(it)
    counts = [
        f"{sum(len(it.edits) + len(it.bad) for it in cases)} wrong bodies",
        f"{sum(len(it.refused()) for it in cases)} refused at goals of their own; "
        f"{sum(len(it.tried) + len(it.failed) for it in cases)} tried",
        f"{sum(len(it.kept) for it in cases)} kept",
        f"{sum(len(it.by_table()) for it in cases)} by the table",
    ]
    print(", ".join(counts))
    return 0 if cases and not faults else 1
