"""What an earlier run on this machine has reached, kept under a sum of all that it depends on.

A file of the folder that was kept is as whole as it was when it was written: it is put in its place once all of it is
there.
"""

import contextlib
import hashlib
import os
import shutil
import tempfile

import kit

# Where things are kept: beside what the kit keeps, or where this word of the environment says.
WORD = "VERVAINFILE_KEPT"
FOLDER = f"{kit.KIT}-verdicts"
TOOLS = os.path.dirname(os.path.realpath(__file__))
# How many things of one name are kept: those of the last sums.
MOST = 8


class Sum:
    """A sum of parts, each with its name and its length."""

    def __init__(self, begun=None):
        self.sum = begun.sum.copy() if begun else hashlib.sha256()

    def add(self, name, content):
        self.sum.update(f"{name} {len(content)}\n".encode())
        self.sum.update(content)
        return self

    def add_files(self, folder, paths):
        for path in paths:
            self.add(os.path.relpath(path, folder), _bytes_of(path))
        return self

    def text(self):
        return self.sum.hexdigest()


def _bytes_of(path):
    with open(path, "rb") as it:
        return it.read()


def begun(crate, judges):
    """A sum that has the kit's line, the crate's row of crates.txt, and the tools of these names."""
    total = Sum().add("kit", kit.version().encode())
    total.add("row", repr((crate.name, crate.is_static, [it.name for it in crate.deps], crate.of_kit)).encode())
    return total.add_files(TOOLS, [f"{TOOLS}/{it}.py" for it in sorted({"kept", "kit", *judges})])


def of_code(crate, judges):
    """The sum under which what is compiled of a crate and all libraries below it is kept."""
    total = begun(crate, judges)
    for it in [*crate.below(), crate]:
        total.add_files(it.folder, kit.files_of(it.folder))
    return total.text()


def folder():
    """Where things are kept on this machine."""
    return os.environ.get(WORD) or FOLDER


def lines_of(name, total):
    """The lines that are kept of a name under this sum, or None."""
    with contextlib.suppress(OSError, UnicodeDecodeError):
        return _bytes_of(f"{folder()}/{name}/{total}").decode().splitlines()
    return None


def keep_lines(name, total, lines):
    """Keeps lines of a name under this sum."""
    _keep(name, total, "".join(f"{it}\n" for it in lines).encode())


def keep_file(name, total, path):
    """Keeps a file in the same way."""
    _keep(name, total, _bytes_of(path))


def give_file(name, total, path):
    """Puts the file that is kept of a name under this sum at the path, and tells whether there is one."""
    kept = f"{folder()}/{name}/{total}"
    if not os.path.isfile(kept):
        return False
    os.makedirs(os.path.dirname(path), exist_ok=True)
    shutil.copyfile(kept, path)
    return True


def _keep(name, total, content):
    """Nothing is kept where the folder can't be written: the next run does all again."""
    place = f"{folder()}/{name}"
    with contextlib.suppress(OSError):
        os.makedirs(place, exist_ok=True)
        handle, made = tempfile.mkstemp(dir=place)
        with open(handle, "wb") as it:
            it.write(content)
        os.replace(made, f"{place}/{total}")
        files = sorted((f"{place}/{it}" for it in os.listdir(place)), key=os.path.getmtime)
        for it in files[:-MOST]:
            os.remove(it)
