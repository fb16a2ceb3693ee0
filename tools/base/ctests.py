"""The tests in C of a library that is built: compiled in several ways and run, the header by itself, the examples."""

import concurrent.futures
import filecmp
import glob
import os
import re
import shutil
import subprocess
import tempfile
import threading

import archive
import header
import outcome
import pace
import processors
from targets import HERE, OTHERS

STRICT = ["-Wall", "-Wextra", "-Werror"]
C11 = ["-std=c11", *STRICT]
# Each way in which all tests are compiled and run. Fewer random calls are made where each costs more.
AS_IT_IS = "as it is"
WAYS = {
    AS_IT_IS: ["-O2"],
    "checked names": ["-O0", "-DVF_CHECKED", "-DCALLS=5000"],
    "sanitizers": ["-O1", "-g1", "-fsanitize=address,undefined", "-fno-sanitize-recover=all", "-DCALLS=4000"],
}
# The same where another machine is played by an emulator.
EMULATED = {AS_IT_IS: ["-O2", "-DCALLS=2000"], "checked names": ["-O0", "-DVF_CHECKED", "-DCALLS=1000"]}
# The seconds of a processor that a run may take.
MOST = 120
# The test that no call takes memory, the functions that it counts, and where the calls that it makes by a list stand;
# and the same test of an open desk.
NO_MEMORY, LISTS, DESK_MEMORY = "c/tests/takes_no_memory.c", "c/tests/expect.h", "c/tests/desk_memory.c"
# The test that is run with the sanitizer for threads as well, where the compiler has it.
THREADS, OF_THREADS = "c/tests/desk_threads.c", ["-O1", "-g", "-fsanitize=thread", "-pthread"]
GIVERS = ["malloc", "calloc", "realloc", "aligned_alloc"]
SHIMMED = ["sort", "-r", "README.md"]


class Suite:
    """A folder with the library for a machine, what was tried over it, what of that was not as it should be, and what
    the machine lacks for more."""

    def __init__(self, top, folder, work, target=HERE):
        self.top, self.folder, self.work, self.tried, self.wrong, self.slow = top, folder, work, 0, [], []
        self.compiler, self.runner = target.compiler or tuple(archive.compiler()), target.runner
        self.target, self.ways, self.lock = target, EMULATED if target.name else WAYS, threading.Lock()
        self.lacking = []

    def has(self, program, what):
        """Whether the machine has a program; else what is left out is noted."""
        if not shutil.which(program):
            self.lacking.append(f"{program}: isn't installed, {what} left out")
        return bool(shutil.which(program))

    def count(self):
        """Counts one more, where several calls may do so at once."""
        with self.lock:
            self.tried += 1

    def ran(self, what, words, **how):
        """Runs a command, counts it, and gives what it printed; nothing where it failed. What is too slow raises."""
        self.count()
        try:
            ran = pace.run(words, MOST, capture_output=True, cwd=self.top, **how)
        except (OSError, pace.Hung) as why:
            self.wrong.append(f"{what}: {why}")
            return None
        except pace.TooSlow as why:
            raise pace.TooSlow(f"{what}: {why}") from why
        if ran.returncode:
            self.wrong.append(f"{what}: status {ran.returncode}\n{(ran.stdout + ran.stderr).decode(errors='replace')}")
            return None
        return ran.stdout

    def compiled(self, what, sources, flags, made):
        """Compiles sources over the library, and gives whether that went well."""
        library = [archive.path(self.folder)] * (not {"-fsyntax-only", "-c"} & set(flags))
        folders = [f"-I{it}" for it in (self.folder, "c", "c/plain", "c/acorn")]
        words = [*self.compiler, *flags, *folders, *sources, *library, "-o", made]
        return self.ran(f"compiling {what}", words) is not None

    def runs(self, what, made, *words, **how):
        """Runs what was compiled, on its machine or what stands for one."""
        return self.ran(what, [*self.runner, made, *words], **how)

    def started_by(self, made):
        """A program that runs what was compiled, for those who name one program alone."""
        if not self.runner:
            return made
        with open(f"{made}.sh", "w", encoding="utf-8") as it:
            it.write(f'#!/bin/sh\nexec {" ".join(self.runner)} {made} "$@"\n')
        os.chmod(it.name, 0o755)
        return it.name

    def after(self, call, *words):
        """Calls a test, which what is too slow ends; that is noted."""
        try:
            call(*words)
        except pace.TooSlow as why:
            self.slow.append(str(why))

    def is_true(self, what, holds):
        """Counts something that was looked at."""
        self.count()
        if not holds:
            self.wrong.append(what)


def shims(suite):
    """The sources with Acorn's names."""
    return sorted(glob.glob("c/acorn/*.c", root_dir=suite.top))


def plain(suite):
    """The sources in plain C that the tests and the benches compare with, and the shims."""
    return [*sorted(glob.glob("c/plain/*.c", root_dir=suite.top)), *shims(suite)]


def stem(path):
    """The name of a file without its folder and ending."""
    return os.path.splitext(os.path.basename(path))[0]


def plain_object(suite, path, way):
    """Where a source in plain C is compiled in one way."""
    return f"{suite.work}/{stem(path)}-{way.replace(' ', '-')}.o"


def compile_plain(suite, path, way):
    """Compiles a source in plain C in one way, once for all tests."""
    suite.compiled(f"{path}, {way}", [path], [*C11, *suite.ways[way], "-c"], plain_object(suite, path, way))


def try_test(suite, path, way):
    """Compiles one test in one way, and runs it."""
    what, made = f"{stem(path)}, {way}", f"{suite.work}/{stem(path)}-{way.replace(' ', '-')}"
    counted = [f"-Wl,--wrap={it}" for it in GIVERS] * (path == NO_MEMORY) + ["-pthread"] * (path == THREADS)
    objects = [plain_object(suite, it, way) for it in plain(suite)]
    if suite.compiled(what, [path, *objects], [*C11, *suite.ways[way], *counted], made):
        suite.runs(what, made)


def try_archive(suite):
    """The archive gives and asks for what it should, and the header beside it is that of the sources."""
    try:
        archive.look_at_symbols(suite.top, suite.folder, suite.target)
        told = ""
    except (archive.Fault, subprocess.CalledProcessError) as why:
        told = str(why)
    suite.is_true(told, not told)


def try_beside(suite):
    """The header beside the archive is that of the sources."""
    files = [f"{suite.folder}/{archive.NAME}.h", f"{suite.top}/{header.HEADER}"]
    suite.is_true("the header isn't that of the sources", filecmp.cmp(*files, shallow=False))


def try_calls(suite):
    """Each call that the archive gives is one of those of which it is tested that they take no memory."""
    made = set()
    for path in (NO_MEMORY, LISTS, DESK_MEMORY):
        with open(f"{suite.top}/{path}", encoding="utf-8") as it:
            made |= set(re.findall(r"\bvf_\w+", it.read()))
    left = sorted(set(header.exports(suite.top)) - made)
    suite.is_true(f"{NO_MEMORY} and {DESK_MEMORY} don't call {', '.join(left)}", not left)


def try_header(suite):
    """The header is C99 and, where there is a compiler for it, C++, with nothing before it."""
    alone = f"{suite.work}/alone.c"
    with open(alone, "w", encoding="utf-8") as it:
        it.write(f'#include "{archive.NAME}.h"\n')
    suite.compiled("the header as C99", [alone], ["-std=c99", "-Wpedantic", *STRICT, "-fsyntax-only"], "/dev/null")
    if suite.has("c++", "the header as C++"):
        words = ["c++", *STRICT, "-fsyntax-only", "-x", "c++", f"-I{suite.folder}", alone]
        suite.ran("compiling the header as C++", words)


def try_examples(suite):
    """Each example prints what stands beside it, compiled as pkg-config says where that is there.

    The library for another machine is told to pkg-config where it is installed alone.
    """
    flags, objects = [], [plain_object(suite, it, AS_IT_IS) for it in shims(suite)]
    if suite.target is HERE and suite.has("pkg-config", "its flags"):
        where = dict(os.environ, PKG_CONFIG_PATH=suite.folder)
        told = suite.ran("pkg-config", ["pkg-config", "--cflags", "--libs", archive.NAME], env=where)
        flags = (told or b"").decode().split()
        suite.is_true("pkg-config names the library", f"-l{archive.NAME}" in flags)
    for said in sorted(glob.glob(f"{suite.top}/c/examples/*.out")):
        name = os.path.basename(said).removesuffix(".out")
        made = f"{suite.work}/{name}"
        if suite.compiled(f"the example {name}", [f"c/examples/{name}.c", *objects], [*C11, "-O2", *flags[:1]], made):
            with open(said, "rb") as it:
                suite.is_true(f"{name} prints what stands beside it", suite.runs(name, made) == it.read())


def try_rows(suite):
    """The worked rows are answered as they must be, by the example that runs a script."""
    made = f"{suite.work}/run_desk"
    if suite.compiled("the example run_desk", ["c/examples/run_desk.c"], [*C11, "-O2"], made):
        suite.ran("the worked rows by run_desk", ["tools/tests/test-rows", suite.started_by(made), "--scripts"])


def try_shared(suite):
    """An example prints what stands beside it over the shared library."""
    made, path = f"{suite.work}/names-shared", f"{suite.top}/c/examples/names.out"
    words = [*suite.compiler, *C11, "-Ic", "c/examples/names.c", archive.shared(suite.folder), "-o", made]
    if suite.ran("compiling names, shared", words) is not None:
        said = suite.runs("names, shared", made, env=dict(os.environ, LD_LIBRARY_PATH=suite.folder))
        with open(path, "rb") as it:
            suite.is_true("names prints what stands beside it over the shared library", said == it.read())


def try_threads(suite):
    """The test with threads finds nothing amiss with the sanitizer for threads, where the compiler has it."""
    words = [*archive.compiler(), *OF_THREADS, "-x", "c", "-", "-o", f"{suite.work}/empty"]
    has = subprocess.run(words, input=b"int main(void) { return 0; }", capture_output=True, check=False)
    made = f"{suite.work}/threads-apart"
    if has.returncode == 0 and suite.compiled("threads, apart", [THREADS], [*C11, *OF_THREADS], made):
        suite.ran("threads, apart", [made])


def shim(suite, made, flags=()):
    """Compiles the example that is a malloc; gives whether that went well."""
    sources = ["c/examples/malloc_shim.c", "c/plain/os_heap.c"]
    flags = ["-std=gnu11", *STRICT, "-O2", "-fPIC", "-shared", "-pthread", *flags]
    return suite.compiled("the shim", sources, flags, made)


def try_shim(suite):
    """A program prints the same with the library as its malloc."""
    made = f"{suite.work}/shim.so"
    if shim(suite, made):
        wanted = suite.ran("sort", SHIMMED)
        given = suite.ran("sort over the shim", SHIMMED, env=dict(os.environ, LD_PRELOAD=made))
        suite.is_true("sort prints the same over the shim", wanted and given == wanted)


def run_all(suite, others):
    """All tests in C after others, which have several commands each, one for each processor at a time; gives how many
    tests in C there are."""
    tests = sorted(glob.glob("c/tests/*.c", root_dir=suite.top))
    # The way that costs most goes first.
    ways = list(reversed(suite.ways))
    with concurrent.futures.ThreadPoolExecutor(processors.usable()) as pool:
        begun = lambda call, *words: pool.submit(suite.after, call, suite, *words)
        for made in [begun(compile_plain, path, way) for way in ways for path in plain(suite)]:
            made.result()
        calls = [begun(it) for it in others]
        calls += [begun(try_test, path, way) for way in ways for path in tests]
    for it in calls:
        it.result()
    return len(tests)


OF_ALL = (try_archive, try_examples, try_rows)
OF_HERE = (*OF_ALL, try_beside, try_calls, try_header, try_shim, try_threads)
OF_OTHERS = (*OF_ALL, try_shared)


def told(suite, others, what):
    """Runs all tests of a suite, tells what was wrong, and gives the exit status."""
    tests = run_all(suite, others)
    for it in [*suite.wrong, *sorted(suite.lacking)]:
        print(it)
    what = f"{tests} programs in C in {len(suite.ways)} ways, {what}"
    return outcome.told(what, suite.tried * bool(tests), len(suite.wrong), suite.slow)


def test(top, folder):
    """Tests the library in a folder, and gives the exit status."""
    missing = archive.missing()
    if missing:
        print(f"{missing[0]}: isn't installed, the library for C left out")
        return outcome.NOT_RUN
    with tempfile.TemporaryDirectory(prefix="ctests-") as work:
        return told(Suite(top, os.path.abspath(folder), work), OF_HERE, "header, examples and shim")


def test_others(top, above):
    """Tests what a folder with the library has for other machines, by emulators, and gives the exit status."""
    statuses = []
    for target in OTHERS.values():
        missing, folder = target.missing(), target.folder(os.path.abspath(above))
        if missing:
            print(f"{missing[0]}: isn't installed, the library for {target.name} left out")
            statuses.append(outcome.NOT_RUN)
            continue
        with tempfile.TemporaryDirectory(prefix="ctests-") as work:
            statuses.append(told(Suite(top, folder, work, target), OF_OTHERS, f"and examples, for {target.name}"))
    return 1 if 1 in statuses else max(statuses)
