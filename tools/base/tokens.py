"""What the prover reads of a crate's files: their tokens, without comments and without what layout means nothing.

The kit's own reader tells tokens from comments, as its check does: a doc comment that a macro may read is a token. A
line's indentation means something in antt's text and nothing in Rust's.
"""

import re
import subprocess

import kit
from edit import bytes_of

READ = (".rt", ".antt")
# The word before the number of a file, whose tokens follow; what a token's line has; the kinds of antt's text.
FILE = b"file "
TOKEN = re.compile(rb"(\d+) (\d+) (\d+) (\w+) (.*)")
OF_ANTT = (b"Antt", b"Text")


def read(folder, names):
    """The tokens of each file of these names below the folder: its first byte and what it says, in order.

    A file that has none, as the kit reads no such file or a text in it is no token, is one token of all its bytes.
    """
    texts = {name: bytes_of(f"{folder}/{name}") for name in names}
    found = _read(folder, [it for it in names if it.endswith(READ)], texts)
    return {name: found.get(name, [(0, b"Bytes " + text)]) for name, text in texts.items()}


def _read(folder, names, texts):
    """The tokens of files that the kit reads; one by one where it can't read them all."""
    if not names:
        return {}
    words = [kit.RATTLE, "fmt", "--tokens", "--", *names]
    ran = subprocess.run(words, cwd=folder, capture_output=True, check=False)
    if ran.returncode and len(names) == 1:
        return {}
    if ran.returncode:
        return {name: rows for it in names for name, rows in _read(folder, [it], texts).items()}
    parts = re.split(rb"(?m)^" + FILE + rb"\d+\n", ran.stdout)[1:]
    if len(parts) != len(names):
        raise ValueError(f"{folder}: {len(parts)} of {len(names)} files were read")
    return {name: list(_tokens(texts[name], it)) for name, it in zip(names, parts)}


def _tokens(text, rows):
    """Each token of a file by the lines that tell of them.

    It says whether it stands right behind the one before it, and in antt's text its column where it begins a line.
    """
    line_before, end_before = b"", 0
    for line, start, end, kind, word in TOKEN.findall(rows):
        start = int(start)
        place = b"" if start == end_before else b" "
        if kind in OF_ANTT and line != line_before:
            place = b"|%d " % (start - text.rfind(b"\n", 0, start) - 1)
        yield start, kind + place + word
        line_before, end_before = line, int(end)

