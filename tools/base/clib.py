"""The library for programs in C: the archive of all exports, its header, and what pkg-config reads; and the archive for
another machine for which the kit makes code."""

import contextlib
import copy
import functools
import os
import shutil
import subprocess
import sys
import tempfile

import header
import kept
import kit
import libraries
import page
from archive import MEMORY_CALLS, NAME, PREFIX, SHARED, Fault, look_at_symbols, symbols, write_package
from targets import HERE

FOLDER = "lib"
LOG = "clib.log"
# The tools by which an archive is built: what was built is kept under a sum of them too.
BUILDERS = ("archive", "clib", "libraries", "targets")
# What lib/ has, and what it is made of beside crates; and the same of another machine's folder in it.
FILES = (f"lib{NAME}.a", f"{NAME}.h", f"{NAME}.pc", SHARED)
OTHER_FILES = (f"lib{NAME}.a", SHARED)
PACKAGE, EXPORTS, MEMORY = f"c/{NAME}.pc.in", f"c/{NAME}.map", "c/memory.c"
SOURCES = (header.HEADER, PACKAGE, EXPORTS)
OTHER_SOURCES = (header.HEADER, EXPORTS, MEMORY)
# Where a program finds all of it, seen from the file that says so: beside it.
BESIDE = {"PREFIX": "${pcfiledir}", "LIBDIR": "${prefix}", "INCLUDEDIR": "${prefix}"}
TOOLCHAIN = f"{kit.KIT}/toolchain/bin"
# The kit's object with the functions by which the desk takes memory and gives it back. It lies in the archive as a
# member of its own, so that a program which defines them itself is linked without it. The kit has none for other
# machines: there it is compiled of MEMORY.
ALLOCATION = "heap.pic.o"


def exporters(crates):
    """Those of the crates whose exports make the library: all but the page's."""
    return [it for it in crates if it.is_static and it.name.startswith(PREFIX) and it.name != page.CRATE]


def archive_of(crate, target):
    """Where a crate's own archive is built."""
    return f"{crate.folder}/out/{target.name and target.name + '-'}lib{crate.name}.a"


def kept_as(crate, target):
    """The name under which a crate's own archive is kept."""
    return f"{crate.name}{target.name and '-' + target.name}"


def is_new(crate, target):
    """Whether the archive that was built last is newer than each source that it is built from."""
    made = archive_of(crate, target)
    sources = [it for low in [*crate.below(), crate] for it in kit.files_of(low.folder)]
    return os.path.isfile(made) and os.path.getmtime(made) > max(map(os.path.getmtime, sources))


def prove(stale, log):
    """Proves each library below the crates that isn't yet, and then the crates, and builds their archives.

    `stale` has each crate with the machines that lack its archive.
    """
    with libraries.locked([*libraries.below(stale), *stale]):
        left = libraries.unbuilt(libraries.below(stale))
        given = kit.in_lanes(libraries.tasks(left, lambda it, jobs: libraries.build(it, jobs, log)))
        lost = [it.name for it in left if not given[it.name, "library"]]
        lost = lost or [it.name for it in stale if not compiled(it, stale[it], log)]
    if lost:
        raise Fault(f"{lost[0]} is not proved, and no archive was built: {FOLDER}/{LOG} says why")


def compiled(crate, machines, log):
    """Proves a crate over the libraries below it, and compiles its exports for each machine; gives whether it could.

    Where there are several machines, the first one's proof is put into a folder that is empty before it, and the others
    go by that: what is proved of a function doesn't depend on the machine.
    """
    with tempfile.TemporaryDirectory(prefix="clib-proof-") as folder:
        proof = folder if len(machines) > 1 else None
        return all(compiled_for(crate, it, proof, log) for it in machines)


def compiled_for(crate, target, proof, log):
    """Compiles a crate's exports for one machine, over what the folder `proof` has of this run's proof, if it is given.

    No archive stays of a crate that isn't proved, or whose proof stands on work that no verdict may rest on: `is_new`
    would take it for a proved one.
    """
    crate = copy.copy(crate)
    crate.out = log
    os.makedirs(f"{crate.folder}/out", exist_ok=True)
    words = crate.words(["--jobs", "1"], keeps=False)
    words += ["--target", target.name] if target.name else []
    words += ["--toolchain", f"{kit.KIT}/toolchain", "--backend", "llvm"]
    words += ["-o", os.path.relpath(archive_of(crate, target), crate.folder)]
    if not kit.proved(crate, ["build", *words], proof):
        with contextlib.suppress(FileNotFoundError):
            os.remove(archive_of(crate, target))
        return False
    return True


def archive(top, crates, target, made):
    """Puts the objects of all crates into one archive."""
    ar = f"{TOOLCHAIN}/llvm-ar" if target.name else "ar"
    with tempfile.TemporaryDirectory(prefix="clib-") as work:
        objects = []
        for crate in crates:
            folder = f"{work}/{crate.name}"
            os.mkdir(folder)
            subprocess.run([ar, "x", os.path.abspath(archive_of(crate, target))], cwd=folder, check=True)
            for it in sorted(os.listdir(folder)):
                objects.append(f"{work}/{crate.name}-{it}")
                os.rename(f"{folder}/{it}", objects[-1])
        objects.append(memory_calls(top, target, work))
        if os.path.exists(made):
            os.remove(made)
        subprocess.run([ar, "rcsD", made, *objects], check=True)


def memory_calls(top, target, work):
    """Makes the member by which the desk takes memory, and gives its path."""
    member = f"{work}/{ALLOCATION}"
    if target.name:
        words = [f"--target={target.name}", "-std=c11", "-O2", "-fPIC", "-ffreestanding", "-Wall", "-Wextra", "-Werror"]
        subprocess.run([f"{TOOLCHAIN}/clang", *words, "-c", f"{top}/{MEMORY}", "-o", member], check=True)
    else:
        subprocess.run(["ar", "x", f"{kit.KIT}/c/liblibc_c.a", ALLOCATION], cwd=work, check=True)
        hide(member)
    return member


def hide(member):
    """Hides the functions of the kit's object: what is linked with the archive gives the names of the header alone."""
    lines = [*(f".hidden {it}" for it in sorted(MEMORY_CALLS)), '.section .note.GNU-stack,"",@progbits', ""]
    subprocess.run([f"{TOOLCHAIN}/clang", "-c", "-x", "assembler", "-", "-o", f"{member}.hidden"],
                   input="\n".join(lines).encode(), check=True)
    subprocess.run([f"{TOOLCHAIN}/ld.lld", "-r", member, f"{member}.hidden", "-o", f"{member}.new"], check=True)
    os.replace(f"{member}.new", member)


def link_shared(top, made, to):
    """Links all of the archive to a shared library, whose calls of its own names nobody can take over."""
    words = ["-shared", "-soname", SHARED, "--version-script", f"{top}/{EXPORTS}", "-Bsymbolic"]
    words += ["-z", "text", "-z", "now"]
    subprocess.run([f"{TOOLCHAIN}/ld.lld", *words, "--whole-archive", made, "-o", to], check=True)


def write_files(top):
    """The header, and what pkg-config reads, beside the archive."""
    shutil.copyfile(f"{top}/{header.HEADER}", f"{top}/{FOLDER}/{NAME}.h")
    write_package(f"{top}/{PACKAGE}", f"{top}/{FOLDER}/{NAME}.pc", dict(BESIDE, VERSION=header.version_of(top)))


def make_archives(top, crates, machines):
    """Proves and compiles those of the crates whose archives aren't new, but for what was kept of them."""
    sums = {it: kept.of_code(it, BUILDERS) for it in crates if not all(is_new(it, one) for one in machines)}
    lacking = {it: [one for one in machines if not is_there(it, one, sums[it])] for it in sums}
    stale = {it: lacking[it] for it in lacking if lacking[it]}
    if stale:
        names, log = ", ".join(it.name for it in stale), f"{FOLDER}/{LOG}"
        print(f"clib: proving {names}, and what below isn't proved; {log} has what is said", flush=True)
        os.makedirs(f"{top}/{FOLDER}", exist_ok=True)
        with open(f"{top}/{log}", "w", encoding="utf-8", errors="replace") as it:
            prove(stale, it)
    for it in stale:
        for one in stale[it]:
            kept.keep_file(kept_as(it, one), sums[it], archive_of(it, one))


def is_there(crate, target, total):
    """Whether a machine's archive of the crate is new, or was kept under this sum and stands there again."""
    made = archive_of(crate, target)
    return is_new(crate, target) or kept.give_file(kept_as(crate, target), total, made)


def make_library(top, crates, target):
    """Makes a machine's folder of archives that are there."""
    folder = target.folder(f"{top}/{FOLDER}")
    os.makedirs(folder, exist_ok=True)
    archive(top, crates, target, f"{folder}/lib{NAME}.a")
    link_shared(top, f"{folder}/lib{NAME}.a", f"{folder}/{SHARED}")
    if not target.name:
        write_files(top)


def reader_of(target):
    """What reads the names in a machine's archive: the kit's own reader, for all machines but this one."""
    return functools.partial(symbols, reader=("llvm-nm",), program=f"{TOOLCHAIN}/clang") if target.name else symbols


def make(top, *machines):
    """Makes lib/ and the folders of other machines in it, for this machine if none is named; gives the exit status.

    Nothing is made where the header isn't that of the sources.
    """
    machines = machines or (HERE,)
    try:
        faults = header.faults(top)
        if faults:
            raise Fault(f"the header and the sources differ: {faults[0]}")
        crates = exporters(kit.crates_of(top))
        make_archives(top, crates, machines)
        for it in machines:
            make_library(top, crates, it)
            folder = it.folder(FOLDER)
            said = look_at_symbols(top, f"{top}/{folder}", it, reader_of(it))
            print(f"clib: {folder}/lib{NAME}.a: {said}")
    except Fault as why:
        print(f"clib: {why}", file=sys.stderr)
        return 1
    return 0
