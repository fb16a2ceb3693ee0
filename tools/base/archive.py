"""The archive of the library for programs in C as it was built: its names, and the compiler that reads it."""

import functools
import os
import shutil
import subprocess

import header
from targets import HERE

NAME = "vervainfile"
PREFIX = "vf_"
# What the archive may ask of the program that it is linked into.
IMPORTS = {"free", "malloc", "memcmp", "memcpy", "memmove", "memset", "realloc"}
# The functions by which the desk takes memory and gives it back. A program may have its own.
MEMORY_CALLS = {"rattle_alloc", "rattle_realloc", "rattle_dealloc"}
# The name by which programs ask for the shared library: its number goes up where one that was linked before can't run.
SHARED = f"lib{NAME}.so.1"
COMPILER = "cc"


class Fault(Exception):
    """Why the library can't be made, or isn't as it should be."""


def compiler():
    """The words of the C compiler."""
    return os.environ.get("CC", COMPILER).split()


def missing():
    """What this machine lacks of the programs that tests of the library stand on."""
    missing = [it for it in (compiler()[0], *HERE.reader) if not shutil.which(it)]
    return missing or HERE.missing_of_library(compiler())


def path(folder):
    """Where a folder has the archive."""
    return f"{folder}/lib{NAME}.a"


def shared(folder):
    """Where a folder has the shared library."""
    return f"{folder}/{SHARED}"


def write_package(template, made, words):
    """Writes a file of its template, with the words that it names between two @."""
    with open(template, encoding="utf-8") as it:
        text = it.read()
    for name, word in words.items():
        text = text.replace(f"@{name}@", word)
    with open(made, "w", encoding="utf-8") as it:
        it.write(text)


def symbols(made, *flags, reader=HERE.reader, program=None):
    """The names that nm gives, without the version that a shared library has behind each. Where a program is named, it
    is run under the reader's name."""
    ran = subprocess.run([*reader, "-P", *flags, made], executable=program, capture_output=True, text=True, check=True)
    lines = [line for line in ran.stdout.splitlines() if line.strip() and not line.endswith(":")]
    return {line.split()[0].partition("@")[0] for line in lines}


def look_at_symbols(top, folder, target=HERE, read=None):
    """Raises a fault where the archive gives or asks for anything but what it should; gives what can be said of it."""
    made, read = path(folder), read or functools.partial(symbols, reader=target.reader)
    given, asked, wanted = read(made, "-g", "--defined-only"), read(made, "-u") - MEMORY_CALLS, set(header.exports(top))
    if not MEMORY_CALLS <= given:
        raise Fault(f"the archive lacks {sorted(MEMORY_CALLS - given)[0]}")
    given -= MEMORY_CALLS
    if given != wanted:
        raise Fault(f"the archive gives {sorted(given ^ wanted)[0]}, or the sources do, but not both")
    if asked - IMPORTS:
        raise Fault(f"the archive asks for {sorted(asked - IMPORTS)[0]}")
    alien = sorted(it for it in given if not it.startswith(PREFIX))
    if alien:
        raise Fault(f"the archive gives {alien[0]}, which doesn't begin with {PREFIX}")
    look_at_shared(shared(folder), wanted, read)
    return f"{len(given)} names are given, and {', '.join(sorted(asked))} asked for"


def look_at_shared(made, wanted, read):
    """Raises a fault where the shared library gives anything but the names of the header, or asks for more."""
    given = read(made, "-D", "--defined-only")
    if given != wanted:
        raise Fault(f"{SHARED} gives {sorted(given ^ wanted)[0]}, or the sources do, but not both")
    asked = read(made, "-D", "-u") - IMPORTS
    if asked:
        raise Fault(f"{SHARED} asks for {sorted(asked)[0]}")
