"""Programs over the library as it is installed, in a folder of its own: in C and C++, by each compiler that is there,
with the archive and with the shared library, by pkg-config and by CMake; and the calls from Python."""

import concurrent.futures
import ctypes
import filecmp
import glob
import importlib
import os
import re
import subprocess
import sys
import tempfile
import textwrap

import archive
import cinstall
import ctests
import header
import outcome
import pace
import processors
from targets import OTHERS

PREFIX = "/opt/of-a-port"
# The compilers, and of each language the standards in which the header is tried.
COMPILERS = {"gcc": "c", "clang": "c", "g++": "c++", "clang++": "c++"}
STANDARDS = {"c": ["c89", "c99", "c11", "c17"], "c++": ["c++98", "c++11", "c++17", "c++20"]}
# C89 has no bool: clang says that in pedantic words.
STRICT = {"c": [*ctests.STRICT, "-pedantic", "-Wno-c99-extensions"],
          "c++": [*ctests.STRICT, "-pedantic", "-Wold-style-cast"]}
WARNED = ["-Wall", "-Wextra", "-Werror", "-O2"]
SAID = "c/tests/said.c"
# What a port adds to its own sources: the shims.
SHIMS = f"share/{archive.NAME}/acorn"
PYTHON = f"share/{archive.NAME}/python"
MODULE = f"{PYTHON}/{archive.NAME}.py"
PASSED = re.compile(r"^(\d+) passed and 0 failed\.$", re.MULTILINE)
# The first program of the page for C, and what it prints.
PAGE = "docs/C.md"
PROGRAM = re.compile(r"^## A first program\n\n((?:(?: {4}.*)?\n)+)It prints:\n\n((?: {4}.*\n)+)", re.MULTILINE)
CMAKE = """\
cmake_minimum_required(VERSION 3.13)
project(port C)
find_package(vervainfile {version} REQUIRED)
add_executable(letter {top}/c/examples/letter.c)
target_link_libraries(letter vervainfile::vervainfile)
add_executable(names {top}/c/examples/names.c)
target_link_libraries(names vervainfile::static)
add_executable(pages {top}/c/examples/pages.c)
target_link_libraries(pages vervainfile::acorn)
"""
IN_CMAKE = ("letter", "names", "pages")
# Versions that find_package() must be given, and those that it must not.
FITS, DIFFERS = ("1", "1.0.0"), ("0.9", "1.0.1", "1.2", "2")
# The types of Python's calls by those of C.
KINDS = {"size_t": ctypes.c_size_t, "ptrdiff_t": ctypes.c_ssize_t, "uint32_t": ctypes.c_uint32,
         "int32_t": ctypes.c_int32, "bool": ctypes.c_bool}
NUMBERS = {"DID": "VF_DID_", "STATES": "VF_RECORD_"}


class Port(ctests.Suite):
    """A suite over an installed library: `root` is the prefix as it lies below another folder."""

    def __init__(self, top, folder, program, work):
        super().__init__(top, folder, work)
        self.program, self.dest, self.root = program, f"{work}/dest", f"{work}/dest{PREFIX}"

    def broken(self):
        """A folder with a shared library that nothing can be linked with, which stands before any of the machine's."""
        folder = f"{self.work}/broken"
        os.makedirs(folder, exist_ok=True)
        with open(f"{folder}/{archive.SHARED}", "wb"):
            pass
        return folder

    def fails(self, what, words, **how):
        """Counts a command that must not go well."""
        ran = pace.run(words, ctests.MOST, capture_output=True, cwd=self.top, **how)
        self.is_true(f"{what} goes well", ran.returncode != 0)


def examples(top):
    """The examples that print what stands beside them."""
    return sorted(ctests.stem(it) for it in glob.glob(f"{top}/c/examples/*.out"))


def shims(port):
    """The sources of the shims, as they are installed."""
    return sorted(glob.glob(f"{port.root}/{SHIMS}/*.c"))


def prints(port, what, name, words, **how):
    """Whether an example prints what stands beside it."""
    with open(f"{port.top}/c/examples/{name}.out", "rb") as it:
        port.is_true(f"{what} prints what stands beside it", port.ran(what, words, **how) == it.read())


def try_install(port):
    """All files are where they belong, twice over, and nothing else is; what can't be done is said."""
    paths = cinstall.install(port.top, port.folder, PREFIX, port.dest)
    port.is_true("a second install gives the same", cinstall.install(port.top, port.folder, PREFIX, port.dest) == paths)
    found = [os.path.relpath(os.path.join(at, it), port.root) for at, _, files in os.walk(port.dest) for it in files]
    port.is_true("other files are installed than are told", sorted(found) == paths)
    port.is_true("a file is lacking", {"include/vervainfile.h", "lib/libvervainfile.a", "lib/libvervainfile.so.1",
                                       "lib/libvervainfile.so", "lib/pkgconfig/vervainfile.pc", f"{SHIMS}/flex.c",
                                       f"{SHIMS}/osheap.h", MODULE, "share/doc/vervainfile/LICENSE"} <= set(paths))
    for name in ("lib/libvervainfile.a", "lib/libvervainfile.so.1", "include/vervainfile.h"):
        one, other = f"{port.root}/{name}", f"{port.folder}/{os.path.basename(name)}"
        port.is_true(f"{name} is another", filecmp.cmp(one, other, shallow=False))
    for prefix, folder in (("opt", port.folder), (PREFIX, port.work)):
        try:
            cinstall.install(port.top, folder, prefix, f"{port.work}/not")
            port.is_true(f"{prefix} of {folder} is installed", False)
        except cinstall.Refused:
            port.is_true("a refused install leaves files", not os.path.exists(f"{port.work}/not"))


def try_command(port):
    """The command installs dist/lib without the kit, and says what it doesn't understand."""
    command, plain = [sys.executable, f"{port.top}/bin/clib", "install"], dict(os.environ, PATH="/usr/bin:/bin")
    port.ran("bin/clib install", [*command, "PREFIX=/usr", f"DESTDIR={port.work}/by-words"], env=plain)
    port.is_true("bin/clib install by words", os.path.isfile(f"{port.work}/by-words/usr/include/vervainfile.h"))
    # Where a word of the environment weren't heard, the files would still lie below the test's own folder.
    words = [f"PREFIX={port.work}/prefix"], [f"DESTDIR={port.work}/dest-by-word"], [f"DESTDIR={port.work}/nothing-else"]
    given = {"DESTDIR": f"{port.work}/by-environment"}, {"PREFIX": "/opt/it"}, {}
    wanted = (f"{port.work}/by-environment{port.work}/prefix", f"{port.work}/dest-by-word/opt/it",
              f"{port.work}/nothing-else{cinstall.PREFIX}")
    for own, more, to in zip(words, given, wanted):
        port.ran("bin/clib install", [*command, *own], env=dict(plain, **more))
        there = f"{to}/lib/libvervainfile.so"
        port.is_true(f"bin/clib install {own} {more}", os.path.isfile(there) and os.path.islink(there))
    for words in (["PREFX=/usr"], ["PREFIX=usr"], ["--build"], ["MACHINE=pdp11"]):
        port.fails(f"bin/clib install {words[0]}", [*command, *words], env=dict(plain, DESTDIR=f"{port.work}/no"))
    port.is_true("a refused install leaves files", not os.path.exists(f"{port.work}/no"))


def try_machines(port):
    """What is installed for another machine is what dist/lib has for it, and the header is the same."""
    for target in OTHERS.values():
        to, of = f"{port.work}/{target.name}", f"{port.top}/dist/lib"
        words = ["install", f"MACHINE={target.name}", "PREFIX=/usr", f"DESTDIR={to}"]
        if port.ran(" ".join(words), [sys.executable, f"{port.top}/bin/clib", *words]) is not None:
            pairs = {f"lib/lib{archive.NAME}.a": archive.path(target.folder(of)),
                     f"lib/{archive.SHARED}": archive.shared(target.folder(of)),
                     f"include/{archive.NAME}.h": f"{of}/{archive.NAME}.h"}
            for name, source in pairs.items():
                port.is_true(f"{name} for {target.name} is another", filecmp.cmp(f"{to}/usr/{name}", source, False))


def try_names(port):
    """The archive and the shared library give the names of the header alone, also linked whole without a list."""
    made, wanted = f"{port.work}/whole.so", set(header.exports(port.top))
    whole = ["-Wl,--whole-archive", archive.path(port.folder), "-Wl,--no-whole-archive"]
    port.ran("linking the archive whole", [*archive.compiler(), "-shared", *whole, "-o", made])
    for it in (made, f"{port.root}/lib/{archive.SHARED}"):
        given = {name for name in archive.symbols(it, "-D", "--defined-only") if not name.startswith("VERVAINFILE_")}
        port.is_true(f"{os.path.basename(it)} gives {sorted(given ^ wanted)[:1]}", given == wanted)


def flags_of(port):
    """What pkg-config says of compiling and linking, seen below the other folder; by hand where it isn't there."""
    by_hand = [f"-I{port.root}/include"], [f"-L{port.root}/lib", f"-l{archive.NAME}"]
    if not port.has("pkg-config", "flags of pkg-config"):
        return by_hand
    how = {"env": dict(os.environ, PKG_CONFIG_PATH=f"{port.root}/lib/pkgconfig", PKG_CONFIG_SYSROOT_DIR=port.dest)}
    told = [(port.ran("pkg-config", ["pkg-config", it, archive.NAME], **how) or b"").decode().split()
            for it in ("--cflags", "--libs")]
    port.is_true(f"pkg-config says {told}", told == list(by_hand))
    asked = {"--modversion": header.version_of(port.top), "--variable=prefix": PREFIX,
             "--variable=libdir": f"{PREFIX}/lib", "--variable=includedir": f"{PREFIX}/include"}
    del how["env"]["PKG_CONFIG_SYSROOT_DIR"]
    for word, wanted in asked.items():
        said = port.ran("pkg-config", ["pkg-config", word, archive.NAME], **how) or b""
        port.is_true(f"pkg-config {word} says {said}", said.decode().strip() == wanted)
    return told


def flags_of_example(port, compiler, compiling):
    """How one compiler is told to make an object of an example, or of a shim."""
    standard = {"c": "c99", "c++": "c++11"}[COMPILERS[compiler]]
    return [compiler, f"-std={standard}", *WARNED, *compiling, f"-I{port.root}/{SHIMS}", "-x", COMPILERS[compiler], "-c"]


def shim_object(port, compiler, path):
    """Where a shim is that one compiler has made an object of."""
    return f"{port.work}/shim-{ctests.stem(path)}-{compiler}.o"


def compile_shim(port, compiler, path, compiling):
    """Makes an object of a shim by one compiler, once for all examples."""
    words = [*flags_of_example(port, compiler, compiling), path, "-o", shim_object(port, compiler, path)]
    port.ran(f"the shim {ctests.stem(path)} by {compiler}", words)


def try_example(port, compiler, name, compiling, linking):
    """An example by one compiler, over the archive and over the shared library."""
    what, compiled = f"{name} by {compiler}", f"{port.work}/{name}-{compiler}.o"
    words = [*flags_of_example(port, compiler, compiling), f"c/examples/{name}.c", "-o", compiled]
    if port.ran(what, words) is None:
        return
    objects = [compiled, *(shim_object(port, compiler, it) for it in shims(port))]
    for kind, words in (("static", [f"{port.root}/lib/lib{archive.NAME}.a"]), ("shared", linking)):
        made = f"{port.work}/{name}-{compiler}-{kind}"
        if port.ran(f"{what}, {kind}", [compiler, *objects, *words, "-o", made]) is not None:
            there = dict(os.environ, LD_LIBRARY_PATH=f"{port.root}/lib" if kind == "shared" else port.work)
            prints(port, f"{what}, {kind}", name, [made], env=there)
            if kind == "shared":
                port.fails(f"{what} over a broken library", [made], env=dict(there, LD_LIBRARY_PATH=port.broken()))


def try_standard(port, compiler, standard, compiling):
    """What the header itself says, in one standard of a language."""
    language = COMPILERS[compiler]
    what, made = f"the header as {standard} by {compiler}", f"{port.work}/said-{compiler}-{standard}"
    words = [compiler, f"-std={standard}", *STRICT[language], *compiling, "-x", language, SAID, "-x", "none",
             f"{port.root}/lib/lib{archive.NAME}.a", "-o", made]
    if port.ran(what, words) is not None:
        port.ran(what, [made])


def try_page(port, compiling):
    """The program at the head of the page for C prints what stands behind it."""
    with open(f"{port.top}/{PAGE}", encoding="utf-8") as it:
        program, said = PROGRAM.search(it.read()).groups()
    source, made = f"{port.work}/first.c", f"{port.work}/first"
    with open(source, "w", encoding="utf-8") as it:
        it.write(textwrap.dedent(program))
    words = [*archive.compiler(), "-std=c99", *WARNED, *compiling, source, f"{port.root}/lib/lib{archive.NAME}.a"]
    if port.ran("the program of the page", [*words, "-o", made]) is not None:
        port.is_true("the page says what it prints", port.ran(made, [made]) == textwrap.dedent(said).encode())


def try_cmake(port):
    """A project that finds the package builds over all three of its targets; no other version is found."""
    if not all(port.has(it, "a project of CMake") for it in ("cmake", "make")):
        return
    for version in (*FITS, *DIFFERS):
        folder = f"{port.work}/cmake-{version}"
        os.mkdir(folder)
        with open(f"{folder}/CMakeLists.txt", "w", encoding="utf-8") as it:
            it.write(CMAKE.format(version=version, top=port.top))
        words = ["cmake", "-S", folder, "-B", f"{folder}/made", f"-DCMAKE_PREFIX_PATH={port.root}"]
        if version in DIFFERS:
            port.fails(f"finding version {version}", words)
        else:
            port.ran(f"finding version {version}", words)
    folder = f"{port.work}/cmake-{FITS[0]}/made"
    if port.ran("building by CMake", ["cmake", "--build", folder]) is not None:
        for name in IN_CMAKE:
            prints(port, f"{name} by CMake", name, [f"{folder}/{name}"])


def types_of(prototype):
    """What Python has to hand a call."""
    words = [it for it in header.PROTOTYPE.match(prototype)[3].split(",") if it != "void"]
    return [ctypes.c_void_p if "*" in it else KINDS[it.split()[0]] for it in words]


def module_of(port):
    """The module for Python, as it stands over the installed library."""
    os.environ["VERVAINFILE_LIBRARY"] = f"{port.root}/lib/{archive.SHARED}"
    sys.path.insert(0, f"{port.root}/{PYTHON}")
    module = importlib.import_module(archive.NAME)
    sys.path.remove(f"{port.root}/{PYTHON}")
    del os.environ["VERVAINFILE_LIBRARY"]
    return module


def try_examples_in_python(port):
    """The examples in the module and in the lessons hold, and each argument is looked at."""
    how = {"env": dict(os.environ, PYTHONPATH=f"{port.root}/{PYTHON}", PYTHONDONTWRITEBYTECODE="1",
                       VERVAINFILE_PROGRAM=port.program)}
    doctest = [sys.executable, "-m", "doctest", "-v"]
    for path, words in ((f"{port.root}/{MODULE}", doctest), ("python/calls.txt", doctest), ("docs/LESSONS.md", doctest),
                        ("python/arguments.py", [sys.executable])):
        said = port.ran(path, [*words, path], **how) or b""
        passed = PASSED.search(said.decode())
        port.is_true(f"{path} has examples that hold", passed and int(passed[1]) > 1)


def try_python(port):
    """The examples for Python hold, and the module's tables are those of the header."""
    try_examples_in_python(port)
    module, text = module_of(port), header.text_of(port.top)
    numbers = dict(header.NUMBER.findall(text))
    statuses = header.SAID.findall(text.partition("};")[0])
    said = {int(numbers[name]): (name.removeprefix("VF_"), text) for name, text in statuses}
    port.is_true("the statuses for Python are others", said == module.STATUSES)
    exported = header.prototypes(header.sources(port.top))
    given = {name: list(getattr(module.LIBRARY, name).argtypes) for name in module.CALLS}
    wrong = sorted(it for it in given if it not in exported or given[it] != types_of(exported[it][0]))
    port.is_true(f"the calls for Python differ: {wrong}", not wrong)
    left = {it for it in exported if it.startswith("vf_desk_")} - module.CALLS.keys()
    port.is_true(f"calls on a desk are lacking for Python: {sorted(left)}", not left)
    for table, prefix in NUMBERS.items():
        wanted = sorted((int(number), name.removeprefix(prefix).lower()) for name, number in numbers.items()
                        if name.startswith(prefix))
        port.is_true(f"{table} for Python is another", list(enumerate(getattr(module, table))) == wanted)


def run_all(port):
    """All of it, as many side by side as there are processors."""
    try_install(port)
    compiling, linking = flags_of(port)
    there = [it for it in COMPILERS if port.has(it, f"programs by {it}")]
    with concurrent.futures.ThreadPoolExecutor(processors.usable()) as pool:
        begun = lambda call, *words: pool.submit(port.after, call, port, *words)
        for made in [begun(compile_shim, it, path, compiling) for it in there for path in shims(port)]:
            made.result()
        calls = [begun(try_example, it, name, compiling, linking) for it in there for name in examples(port.top)]
        calls += [begun(try_standard, it, standard, compiling)
                  for it in there for standard in STANDARDS[COMPILERS[it]]]
        calls.append(begun(try_page, compiling))
        calls += [begun(it) for it in (try_command, try_machines, try_names, try_cmake, try_python)]
    for it in calls:
        try:
            it.result()
        except (OSError, subprocess.SubprocessError, pace.Hung) as why:
            port.is_true(str(why), False)


def test(top, folder, program=None):
    """Installs the library of a folder and tries programs over it, with that of dist/ for pictures where none is named;
    gives the exit status."""
    missing = archive.missing()
    if missing:
        print(f"{missing[0]}: isn't installed, programs over the installed library left out")
        return outcome.NOT_RUN
    with tempfile.TemporaryDirectory(prefix="cports-") as work:
        port = Port(top, os.path.abspath(folder), os.path.abspath(program or f"{top}/dist/{archive.NAME}"), work)
        port.after(run_all, port)
    for it in [*port.wrong, *port.lacking]:
        print(it)
    return outcome.told("programs over the installed library", port.tried, len(port.wrong), port.slow)
