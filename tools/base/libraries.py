"""The libraries of the repository as those above them read them: their statements, without their proofs."""

import contextlib
import copy
import os
import shutil

import kit

FOLDER = "out/statements"
STAMP = "stamp"


def below(crates):
    """Each library that one of the crates stands on, lowest first."""
    return list(dict.fromkeys(dep for crate in crates for dep in crate.below()))


@contextlib.contextmanager
def locked(crates):
    """Keeps other calls of rt out of the crates' folders, and lets go of them at its end."""
    held = kit.lock(crates)
    try:
        yield
    finally:
        for it in held:
            os.close(it)


def are_left_by_gate(libraries):
    """Whether `rt ci` has left each of them proved, over sources that haven't changed since."""
    return all(_is_left(it) for it in libraries)


def _is_left(library):
    made = f"{library.rlib}/format"
    if not os.path.isfile(made):
        return False
    sources = [it for crate in [library, *library.below()] for it in kit.files_of(crate.folder)]
    sources.append(f"{kit.root_above(library.folder)}/crates.txt")
    return os.path.getmtime(made) > max(map(os.path.getmtime, sources))


def unbuilt(libraries):
    """Those that are still to be built: none where `rt ci` has left them all, else those that a folder apart lacks."""
    if are_left_by_gate(libraries):
        return []
    for it in libraries:
        it.rlib = f"{it.folder}/{FOLDER}/{it.name}.rlib"
    return [it for it in libraries if not is_built(it)]


def is_built(library):
    """Whether the library that `build` made is of the sources as they are."""
    stamp = f"{library.folder}/{FOLDER}/{STAMP}"
    return os.path.isdir(library.rlib) and kit.text_of(stamp) == library.stamp()


def build(library, jobs, log):
    """Proves the library from nothing and keeps its statements; gives whether it is proved."""
    library, stamp = copy.copy(library), library.stamp()
    folder = f"{library.folder}/{FOLDER}"
    shutil.rmtree(folder, ignore_errors=True)
    os.makedirs(folder)
    library.out = log
    words = library.words(["--jobs", str(jobs)], keeps=False)
    if library.prove(["build", *words, "--statements", "-o", library.rlib]):
        return False
    with open(f"{folder}/{STAMP}", "w", encoding="utf-8") as it:
        it.write(stamp)
    return True


def tasks(libraries, call):
    """The tasks of `kit.in_lanes` that build these: `call(library, jobs)` for each, once those below it are built."""
    keys = {it: (it.name, "library") for it in libraries}

    def work(library, given, jobs):
        return all(given[keys[it]] for it in library.below() if it in keys) and call(library, jobs)

    return {keys[it]: _task(it, keys, work) for it in libraries}


def _task(library, keys, work):
    waits = [keys[it] for it in library.below() if it in keys]
    return waits, library.count(rb"\n"), kit.need(library), lambda given, jobs: work(library, given, jobs)
