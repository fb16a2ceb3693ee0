"""The page of the desk as it is built: its crate, its sources beside crates, and its file."""

import os
import subprocess
import sys

CRATE = "vf_web"
NAME = "vervainfile.html"
MADE = f"web/out/{NAME}"
# Where what the page is made of stands, beside crates.
FOLDER = "web"
ENDINGS = (".js", ".css", ".html", ".svg", ".py")
MAKER = "bin/web"
# What the sentences that the page shares with `explain` and `help` are read from.
SENTENCES = tuple(f"crates/rh_explained/{it}" for it in (
    "specs/CommandKinds.antt", "specs/Explanations.antt", "specs/Sentences.antt", "specs/WordKinds.antt",
    "src/shown.rt"))


def exporter(crates):
    """The crate whose exports are the page's module."""
    return next(it for it in crates if it.name == CRATE)


def sources(top):
    """The paths of what the page is made of, from the top. Examples and tables of docs/ aren't among them."""
    return sorted([*(f"{FOLDER}/{it}" for it in os.listdir(f"{top}/{FOLDER}") if it.endswith(ENDINGS)), *SENTENCES])


def make(top):
    """Makes the page, and gives the exit status."""
    return subprocess.run([sys.executable, f"{top}/{MAKER}"], cwd=top, check=False).returncode
