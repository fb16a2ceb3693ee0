"""Less memory than the machine has: each example within it, and long scripts within that of short ones."""

import concurrent.futures
import pathlib

import processors
from examples import EXAMPLES, words_of
from images import heap_of
from suite import KIB, MEMORY, SCRIPT_VERBS, SMALL_STEPS

NO_MEMORY = b"rh_desk: no memory\n"
# The bytes of a small stack, and a script of few commands.
SMALL_STACK = 128 * KIB
SHORT = b"task a 100\ntask b 10\nalloc a 0 4\nclaim a 20\nsave a 0 b leaf\npoll b\nareas\n"


def is_refused(suite, words, output, status, memory, ended):
    """Whether the program was refused some of so much memory, as it ended; or None where it couldn't be loaded."""
    if ended[2] not in (0, 1, 3):
        return None
    refused = ended == (b"", NO_MEMORY, 3)
    suite.is_true(f"{' '.join(words)} within {memory} bytes", refused or ended == (output, b"", status))
    return refused


def example_runs():
    """The words of each way to show an example, what they print, and the status."""
    runs = []
    for script in sorted(EXAMPLES.glob("*.desk")):
        before, files, status = words_of(script)
        marked = ["--marked"] if b"\n#picture" in script.read_bytes() else []
        for verb, flags, ending in [("run", [], ".out"), ("map", marked, ".map"), ("draw", marked, ".html")]:
            words = [verb, *before, *flags, str(script), *files]
            runs.append((words, script.with_suffix(ending).read_bytes(), status))
    return runs


def within_each(suite, runs, limits):
    """How the program ends by the words of each run within each of so many bytes of memory."""
    with concurrent.futures.ThreadPoolExecutor(processors.usable()) as pool:
        yield from pool.map(lambda words: suite.run_within(words, limits), runs)


def test_refused_memory(suite):
    """Where the machine lends less memory, each example and a check end well, or with want of memory and nothing else."""
    image, sums, _ = heap_of([16] * 20_000, set())
    pathlib.Path("many.heap").write_bytes(image)
    runs = [*example_runs(), (["check", "many.heap"], sums, 0)]
    for wanted, ended in zip(runs, within_each(suite, [words for words, _, _ in runs], MEMORY)):
        found = [is_refused(suite, *wanted, *it) for it in zip(MEMORY, ended)]
        refused = [it for it in found if it is not None]
        suite.is_true(f"{' '.join(wanted[0])}: refused memory, then granted", refused[:1] == [True] and not refused[-1])


def sized_runs():
    """The words of a check, and of each way to show a script over few pages and many."""
    pathlib.Path("short.desk").write_bytes(SHORT)
    pathlib.Path("some.heap").write_bytes(heap_of([16] * 2_000, set())[0])
    pathlib.Path("fault.desk").write_bytes(SHORT + b"kill nobody\n")
    sizes = [(verb, pages) for verb in SCRIPT_VERBS for pages in ("8", "64", "1024")]
    scripts = {"explain": "fault.desk"}
    return [["check", "some.heap"], *([verb, "--pages", pages, scripts.get(verb, "short.desk")] for verb, pages in sizes)]


def test_each_memory(suite):
    """In small steps from the least memory in which the program is loaded: the whole text, or want of memory."""
    runs = sized_runs()
    for words, ended in zip(runs, within_each(suite, runs, SMALL_STEPS)):
        whole = suite.run(words)
        loaded = [it for i, it in enumerate(ended) if any(before[2] in (0, 3) for before in ended[: i + 1])]
        suite.is_true(f"{' '.join(words)}: all or no memory", set(loaded) == {(b"", NO_MEMORY, 3), whole})
        suite.is_true(f"{' '.join(words)}: all of its text", whole[0] and whole[1:] == (b"", int(words[0] == "explain")))


def test_small_stacks(suite):
    """A small stack is enough, for examples and for more pages."""
    for words in [*sized_runs(), ["help"], ["--version"], ["run", "--help"]]:
        suite.is_true(f"{' '.join(words)} on a small stack", suite.run(words, stack=SMALL_STACK) == suite.run(words))
    for words, output, status in example_runs():
        suite.ends(f"{' '.join(words)} on a small stack", words, output, b"", status, stack=SMALL_STACK)


def test_long_scripts(suite):
    """Scripts of 100,000 lines are run, mapped and drawn within the memory of short ones."""
    changes = 49_998
    script = b"task a 100\nalloc a 0 4\n" + b"extend a 0 9\nextend a 0 4\n" * changes + b"#picture\nareas\n"
    last = 2 * changes + 3
    for words, shown in [
        (["run", "-"], b"\n  slot a 2\n"),
        (["map", "-"], b"\n%d  areas\nok 61\n" % (last + 1)),
        (["map", "--marked", "-"], b"\n%d  areas\nok 61\n" % (last + 1)),
        (["draw", "-"], b"<p>Commands not drawn: %d.</p>\n" % (last - 200)),
        (["draw", "--marked", "-"], b"<p>Commands not drawn: %d.</p>\n" % (last - 1)),
    ]:
        output, told, status = suite.run(words, stdin=script, limit=MEMORY.stop)
        suite.is_true(f"100,000 lines: {' '.join(words)}", shown in output and (told, status) == (b"", 0))
