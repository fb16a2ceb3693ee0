"""The examples: their scripts with the words around them, their commands, and the replies and steps of a run."""

import pathlib
import re

EXAMPLES = pathlib.Path(__file__).resolve().parents[3] / "examples"


def words_in(path):
    """The words of a file, none where there is no such file."""
    return path.read_text().split() if path.is_file() else []


def words_of(script):
    """The words before an example's script, those behind it, and the exit status."""
    before, files = [words_in(script.with_suffix(it)) for it in (".args", ".files")]
    files = ["=".join([it.split("=")[0], str(EXAMPLES / it.split("=")[1])]) for it in files]
    return before, files, int(*words_in(script.with_suffix(".status")) or ["0"])


def commands_of(script):
    """The lines of a script that are no remarks and have words."""
    return [it for it in script.read_text().split("\n") if it.split() and not it.strip().startswith("#")]


def replies_of(output):
    """The replies that a run printed, each as its lines."""
    return [it.replace("\n  ", "\n").split("\n") for it in re.split(r"\n(?!  )", output.decode())[:-1]]


def steps_of(sheet):
    """The text of each step of a sheet that has a command."""
    sections = re.findall(r"<section .*?</section>", sheet.decode(errors="replace"), re.DOTALL)
    return [it for it in sections if "<h2>" in it]
