"""The program from source: proves each crate that it stands on, as many side by side as there is room, and links it."""

import copy
import os
import sys
import threading

import kit
import libraries

NAME = "vervainfile"
LOG = "out/build.log"
DURATION = "On four slow cores that took 20 minutes."


class Progress:
    """Says on standard error how many crates are done, and which are at work."""

    def __init__(self, crates):
        self.crates, self.done, self.working = crates, 0, []
        self.lock = threading.Lock()

    def at(self, name, call):
        """Counts the crate as being at work for as long as the call takes, and gives what the call gave."""
        with self.lock:
            self.working.append(name)
            self.say()
        try:
            return call()
        finally:
            with self.lock:
                self.working.remove(name)
                self.done += 1
                self.say()

    def say(self):
        now = f"; at work: {', '.join(self.working)}" if self.working else ""
        start, end = ("\r\033[K", "") if sys.stderr.isatty() else ("", "\n")
        print(f"{start}{NAME}: {self.done} of {self.crates} crates done{now}", end=end, file=sys.stderr, flush=True)

    def end(self):
        """Ends the line that a terminal shows."""
        if sys.stderr.isatty():
            print(file=sys.stderr)


def named(crates):
    """The program's own crate."""
    return next(it for it in crates if it.name == NAME)


def linked(program, jobs, log):
    """Proves the program over the libraries below it, and links it; gives whether that was done."""
    program = copy.copy(program)
    program.out = log
    words = program.words(["--jobs", str(jobs)], keeps=False)
    words += ["--toolchain", f"{kit.KIT}/toolchain", "--backend", "llvm"]
    made = f"out/{NAME}"
    if program.prove(["build", *words, "-o", f"{made}.o"]) or program.link(f"{made}.o", f"{made}.new"):
        return False
    os.replace(f"{program.folder}/{made}.new", f"{program.folder}/{made}")
    return True


def failed(top, log):
    """Builds all that isn't built of these sources yet, and the program; gives the crate that is not proved, if any."""
    program = named(kit.crates_of(top))
    needed = program.below()
    with libraries.locked([*needed, program]):
        left = libraries.unbuilt(needed)
        progress = Progress(len(left) + 1)
        call = lambda it, jobs: progress.at(it.name, lambda: libraries.build(it, jobs, log))
        given = kit.in_lanes(libraries.tasks(left, call))
        lost = next((it.name for it in left if not given[it.name, "library"]), None)
        if not lost and not progress.at(NAME, lambda: linked(program, kit.processors(), log)):
            lost = NAME
        progress.end()
        return lost


def main(top):
    """Builds the program, and gives the exit status: 0, or 3 where it couldn't be built."""
    path = f"{top}/crates/{NAME}/{LOG}"
    os.makedirs(os.path.dirname(path), exist_ok=True)
    print(f"{NAME}: building from source: everything is proved first. {DURATION}", file=sys.stderr)
    print(f"{NAME}: what the prover says goes to {path}", file=sys.stderr, flush=True)
    with open(path, "w", encoding="utf-8", errors="replace") as log:
        lost = failed(top, log)
    if not lost:
        return 0
    print(f"{NAME}: it could not be built, since {lost} is not proved; {path} says why", file=sys.stderr)
    return 3


if __name__ == "__main__":
    sys.exit(main(os.path.realpath(f"{os.path.dirname(os.path.realpath(__file__))}/../..")))
