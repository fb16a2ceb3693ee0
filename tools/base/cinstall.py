"""The library where programs look for it: header, archive, shared library, files for pkg-config and CMake, shims."""

import glob
import os
import platform
import re
import shutil
import sys

import archive
from targets import HERE, OTHERS

# Where everything goes where no word says so.
PREFIX = "/usr/local"
WORDS = ("PREFIX", "DESTDIR", "MACHINE")
# The machine that the library of no other is for, as it names itself.
OWN = "x86_64"
NAME = archive.NAME
SHARE = f"share/{NAME}"
CMAKE = f"lib/cmake/{NAME}"
# What pkg-config and CMake read is made of these.
PACKAGE, CONFIG, CONFIG_VERSION = f"c/{NAME}.pc.in", f"c/{NAME}-config.cmake", f"c/{NAME}-config-version.cmake.in"
PLACES = {"LIBDIR": "${prefix}/lib", "INCLUDEDIR": "${prefix}/include"}
VERSION = re.compile(r'^#define VF_VERSION "(.*)"$', re.MULTILINE)


class Refused(Exception):
    """Why nothing is installed."""


def copies(top, folder, target):
    """What is copied as it is: where it goes below the prefix, and where it stands."""
    built = target.folder(folder)
    made = {
        f"include/{NAME}.h": f"{folder}/{NAME}.h",
        f"lib/lib{NAME}.a": archive.path(built),
        f"lib/{archive.SHARED}": archive.shared(built),
        f"{CMAKE}/{NAME}-config.cmake": f"{top}/{CONFIG}",
    }
    for it in glob.glob(f"{top}/python/{NAME}*.py"):
        made[f"{SHARE}/python/{os.path.basename(it)}"] = it
    for it in glob.glob(f"{top}/c/acorn/*.[ch]"):
        made[f"{SHARE}/acorn/{os.path.basename(it)}"] = it
    for it in glob.glob(f"{top}/LICENSE*"):
        made[f"share/doc/{NAME}/{os.path.basename(it)}"] = it
    return made


def version_in(folder):
    """The version of the header in a folder."""
    with open(f"{folder}/{NAME}.h", encoding="utf-8") as it:
        return VERSION.search(it.read())[1]


def target_of(machine):
    """The machine of a name in the kit, or for none the one that this runs on."""
    if machine in OTHERS:
        return OTHERS[machine]
    here = platform.machine()
    if machine or here != OWN and not any(it.startswith(f"{here}-") for it in OTHERS):
        raise Refused(f"there is no library for {machine or here}")
    return next((OTHERS[it] for it in OTHERS if it.startswith(f"{here}-")), HERE)


def install(top, folder, prefix, destdir="", target=HERE):
    """Puts all of it below the prefix, and that below another folder where one is named; gives the paths from there."""
    if not os.path.isabs(prefix):
        raise Refused(f"PREFIX is {prefix}, and has to begin with /")
    made, to = copies(top, folder, target), f"{destdir}{prefix}"
    lost = sorted(it for it in made.values() if not os.path.isfile(it))
    if lost:
        raise Refused(f"{lost[0]} isn't there")
    for name, source in made.items():
        os.makedirs(os.path.dirname(f"{to}/{name}"), exist_ok=True)
        shutil.copyfile(source, f"{to}/{name}")
        os.chmod(f"{to}/{name}", 0o755 if name.endswith(archive.SHARED) else 0o644)
    words = dict(PLACES, PREFIX=prefix, VERSION=version_in(folder))
    package, version = f"lib/pkgconfig/{NAME}.pc", f"{CMAKE}/{NAME}-config-version.cmake"
    os.makedirs(f"{to}/lib/pkgconfig", exist_ok=True)
    archive.write_package(f"{top}/{PACKAGE}", f"{to}/{package}", words)
    archive.write_package(f"{top}/{CONFIG_VERSION}", f"{to}/{version}", words)
    link = f"lib/lib{NAME}.so"
    if os.path.lexists(f"{to}/{link}"):
        os.remove(f"{to}/{link}")
    os.symlink(archive.SHARED, f"{to}/{link}")
    return sorted([*made, package, version, link])


def main(top, words):
    """Installs what dist/lib or, with `--built`, lib/ has, by words and the environment; gives the exit status."""
    is_built = words[:1] == ["--built"]
    folder = f"{top}/{'lib' if is_built else 'dist/lib'}"
    given = dict(it.split("=", 1) for it in words if it.partition("=")[0] in WORDS)
    if len(given) != len(words) - is_built:
        print(f"clib: install takes --built, PREFIX=.., DESTDIR=.. and MACHINE=.., and not {' '.join(words)}",
              file=sys.stderr)
        return 2
    prefix, destdir, machine = (given.get(it, os.environ.get(it, "")) for it in WORDS)
    try:
        paths = install(top, folder, (prefix or PREFIX).rstrip("/"), destdir, target_of(machine))
    except (OSError, Refused) as why:
        print(f"clib: {why}", file=sys.stderr)
        return 1
    print(f"clib: {len(paths)} files below {destdir}{prefix or PREFIX}")
    return 0
