"""A built program that is run, and the count of what it did otherwise than it should."""

import os
import pathlib
import resource
import signal
import subprocess
import tempfile

import pace

# The words of the program that take a script.
SCRIPT_VERBS = ("run", "explain", "map", "draw")
WRITE_FAILED = b"rh_desk: write failed\n"
LONGEST_FILE = 1_048_576
# Bytes of address space within which the program is run: from too few to be loaded to more than enough.
MEMORY = range(5 << 19, 5 << 20, 1 << 16)
# The same in small steps, up to more than enough for 1,024 pages.
SMALL_STEPS = range(5 << 19, 12 << 20, 1 << 14)
KIB = 1024
# Runs a program within so many KiB of memory each time, and prints how each run ended. What it prints and tells goes into
# files of a folder: a shell and two pipes for each run would cost more than the program.
WITHIN_EACH = """for most in $MOST; do
    (ulimit -v "$most" && exec "$0" "$@") >"$ROOM/$most.printed" 2>"$ROOM/$most.told"
    echo $?
done"""
# The seconds of a processor that a run may take.
MOST = 120


class Suite:
    """A program, what it did otherwise than it should, and for what it was too slow."""

    def __init__(self, program):
        self.program, self.wrong, self.tests, self.slow = program, 0, 0, []

    def run(self, words, stdin=b"", limit=None, stack=None, longest=None, user=None, stdout=subprocess.PIPE,
            stderr=subprocess.PIPE):
        """What the program printed, told, and ended with, within so many bytes of memory and of stack, where a file
        has at most so many, and as this user. Its input is bytes, or a file that is open."""

        def before():
            if longest is not None:
                signal.signal(signal.SIGXFSZ, signal.SIG_IGN)
                resource.setrlimit(resource.RLIMIT_FSIZE, (longest, longest))
            if user:
                os.setuid(user)

        words = [self.program, *words]
        for flag, most in [("-v", limit), ("-s", stack)]:
            if most:
                # A shell's limit costs half the time of one that is set between a fork and a call of the program.
                words = ["sh", "-c", f'ulimit {flag} {most // KIB} && exec "$0" "$@"', *words]
        source = {"input": stdin} if isinstance(stdin, bytes) else {"stdin": stdin}
        streams = {**source, "stdout": stdout, "stderr": stderr}
        changed = before if user or longest is not None else None
        given = pace.run(words, MOST, **streams, preexec_fn=changed)
        return given.stdout or b"", given.stderr or b"", given.returncode

    def run_within(self, words, limits):
        """What the program printed, told, and ended with, within each of so many bytes of memory. An end by a signal has
        128 and its number."""
        sizes = [it // KIB for it in limits]
        with tempfile.TemporaryDirectory() as room:
            around = dict(os.environ, ROOM=room, MOST=" ".join(map(str, sizes)))
            ran = pace.run(["sh", "-c", WITHIN_EACH, self.program, *words], MOST, stdin=subprocess.DEVNULL, env=around,
                           stdout=subprocess.PIPE, stderr=subprocess.DEVNULL)
            ran.check_returncode()
            statuses = list(map(int, ran.stdout.split()))
            texts = [[pathlib.Path(room, f"{it}.{of}").read_bytes() for of in ("printed", "told")] for it in sizes]
        return [(*text, status) for text, status in zip(texts, statuses)]

    def does(self, test):
        """Runs a test. It fails where the program hangs in it, and is noted where the program is too slow for it."""
        try:
            test(self)
        except pace.TooSlow as why:
            self.slow.append(f"{test.__name__}: {why}")
        except pace.Hung as why:
            self.is_true(f"{test.__name__}: {why}", False)

    def is_true(self, what, holds):
        """Counts a test, and tells it where it fails."""
        self.tests += 1
        if not holds:
            self.wrong += 1
            print(f"{what}: not as it should be")

    def ends(self, what, words, output, told, status, **how):
        """The program prints and tells just this, and ends so."""
        self.is_true(what, self.run(words, **how) == (output, told, status))
