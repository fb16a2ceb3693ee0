"""dist/: what is built of the sources, with the kit's line: the program, the library for programs in C, and the page."""

import filecmp
import hashlib
import os
import shutil
import sys

import clib
import kit
import page
import program
import targets

FOLDER = "dist"
# The sums of the sources, in the folder of what is built of them; those of the page beside those of the program.
SOURCES = "sources"
PAGE_SOURCES = "page-sources"
KIT = "kit"


class Stale(Exception):
    """Why dist/ isn't what the sources make."""


class Part:
    """What is built together of one list of sources: files beside which dist/ has the sum of each source."""

    def __init__(self, top, folder, crates, others, files, build, listed=SOURCES):
        self.top, self.folder, self.crates, self.others = top, f"{top}/{folder}", crates, others
        # Where dist/ has a file, and where it is built.
        self.files = {f"{folder}/{name}": made for name, made in files.items()}
        self.build, self.listed = build, f"{top}/{folder}/{listed}"

    def sources(self):
        """The paths of all sources, from the top."""
        files = [file for it in self.crates for file in kit.files_of(it.folder)]
        return sorted({os.path.relpath(it, self.top) for it in files} | set(self.others))

    def sums(self):
        """A line for each source, as sha256sum writes them: its sum and its path."""
        return [f"{_sum(f'{self.top}/{it}')}  {it}" for it in self.sources()]

    def is_new(self):
        """Whether each file that was built last is newer than each source."""
        made = [f"{self.top}/{it}" for it in self.files.values()]
        if not all(map(os.path.isfile, made)):
            return False
        sources = [f"{self.top}/{it}" for it in self.sources()]
        return min(map(os.path.getmtime, made)) > max(map(os.path.getmtime, sources))

    def make(self):
        """Puts the files into dist/, built first where that is due, and gives the exit status."""
        if not self.is_new():
            status = self.build(self.top)
            if status:
                return status
        os.makedirs(self.folder, exist_ok=True)
        for name, made in self.files.items():
            shutil.copy(f"{self.top}/{made}", f"{self.top}/{name}")
        _write(self.listed, self.sums())
        return 0

    def compare(self):
        """Raises Stale where a source or a file isn't as it is in dist/."""
        then, now = set(_lines(self.listed)), set(self.sums())
        changed = sorted(it.split("  ", 1)[1] for it in then ^ now)
        if changed:
            raise Stale(f"{changed[0]} is not as it was: run bin/dist")
        if not self.is_new():
            raise Stale(f"{next(iter(self.files))} has not been built of these sources: run bin/dist, or the gate")
        for name, made in self.files.items():
            if not os.path.isfile(f"{self.top}/{name}") or not _is_same(f"{self.top}/{name}", f"{self.top}/{made}"):
                raise Stale(f"{name} is not what was built: run bin/dist")


def library(top, crates, target, names, others):
    """The library for programs in C, for one machine: files of these names."""
    below = {low.name: low for it in clib.exporters(crates) for low in [*it.below(), it]}
    folder = target.folder(clib.FOLDER)
    files = {it: f"{folder}/{it}" for it in names}
    return Part(top, f"{FOLDER}/{folder}", list(below.values()), ["crates.txt", *others], files, make_libraries)


def make_libraries(top):
    """Builds the library for each machine, by one proof; the part of one machine builds all."""
    return clib.make(top, *targets.ALL)


def parts_of(top):
    """The program, the library for programs in C for each machine, and the page."""
    crates = kit.crates_of(top)
    web = page.exporter(crates)
    main = program.named(crates)
    made = {program.NAME: f"crates/{program.NAME}/out/{program.NAME}"}
    return [
        Part(top, FOLDER, [*main.below(), main], ["crates.txt"], made, program.main),
        library(top, crates, targets.HERE, clib.FILES, clib.SOURCES),
        *(library(top, crates, it, clib.OTHER_FILES, clib.OTHER_SOURCES) for it in targets.OTHERS.values()),
        Part(top, FOLDER, [*web.below(), web], ["crates.txt", *page.sources(top)], {page.NAME: page.MADE}, page.make,
             PAGE_SOURCES),
    ]


def _sum(path):
    with open(path, "rb") as it:
        return hashlib.sha256(it.read()).hexdigest()


def _is_same(one, other):
    return filecmp.cmp(one, other, shallow=False)


def _write(path, lines):
    with open(path, "w", encoding="utf-8") as it:
        it.writelines(f"{line}\n" for line in lines)


def _lines(path):
    try:
        with open(path, encoding="utf-8") as it:
            return it.read().splitlines()
    except OSError as why:
        raise Stale(f"{path} can't be read: run bin/dist") from why


def make(top):
    """Makes dist/ anew of what is built of the sources as they are, and gives the exit status."""
    for part in parts_of(top):
        status = part.make()
        if status:
            return status
    _write(f"{top}/{FOLDER}/{KIT}", [kit.version()])
    return 0


def check(top):
    """Compares dist/ with the sources and what was just built of them, and gives the exit status."""
    try:
        print(compared(top))
    except Stale as why:
        print(f"dist: {why}", file=sys.stderr)
        return 1
    return 0


def compared(top):
    """What the comparison found, where nothing differs; raises Stale where something does."""
    said = _lines(f"{top}/{FOLDER}/{KIT}")
    if said != [kit.version()]:
        return f"dist: made with another kit ({' '.join(said)}): nothing is compared"
    for part in parts_of(top):
        part.compare()
    return "dist: the program, the library, the page and their sources are those of dist/"
