"""Outputs that take nothing, take a front only, or that nobody reads any more."""

import itertools
import pathlib
import subprocess

from examples import EXAMPLES
from images import heap_of
from suite import SCRIPT_VERBS, WRITE_FAILED

# A line that is refused, of which each way to show a script writes something.
FAULT = b"kill nobody\n"


def test_full_outputs(suite):
    """Where the output takes nothing, that is told and nothing else, whatever is to be written."""
    with open("/dev/full", "wb") as full:
        for verb, script in [("run", b"areas\n"), ("explain", FAULT), ("map", b"areas\n"), ("draw", b"")]:
            suite.ends(f"{verb} to a full output", [verb, "-"], b"", WRITE_FAILED, 3, stdin=script, stdout=full)


def test_cut_outputs(suite):
    """Where the output takes only a front, just that front is written and the rest is told."""
    hello = str(EXAMPLES / "hello.desk")
    pathlib.Path("small.heap").write_bytes(heap_of([16, 24], {0})[0])
    pathlib.Path("faults.desk").write_bytes(FAULT * 3)
    scripts = [[verb, "faults.desk" if verb == "explain" else hello] for verb in SCRIPT_VERBS]
    for words in [*scripts, ["check", "small.heap"], ["--help"]]:
        whole, _, _ = suite.run(words)
        for longest in [0, 1, len(whole) // 2, len(whole) - 1]:
            with open("cut", "wb") as cut:
                ended = suite.run(words, longest=longest, stdout=cut)
            written = pathlib.Path("cut").read_bytes()
            is_well = (ended, written) == ((b"", WRITE_FAILED, 3), whole[:longest])
            suite.is_true(f"{' '.join(words)} to a file of {longest} bytes", is_well)


def test_closed_pipes(suite):
    """Where nobody reads the output any more, that is told, and no signal ends the program."""
    pathlib.Path("long.desk").write_bytes((b"areas\n" + FAULT) * 1500)
    for verb, taken in itertools.product(SCRIPT_VERBS, [0, 10]):
        streams = {"stdout": subprocess.PIPE, "stderr": subprocess.PIPE}
        with subprocess.Popen([suite.program, verb, "long.desk"], **streams) as running:
            running.stdout.read(taken)
            running.stdout.close()
            told = running.stderr.read()
        what = f"{verb} to a pipe that is closed behind {taken} bytes"
        suite.is_true(what, (told, running.returncode) == (WRITE_FAILED, 3))
