"""Makes the page, one file that loads nothing, from what is in web/, a module and the examples."""

import base64
import gzip
import hashlib
import json
import pathlib
import re

import sentences

WEB = pathlib.Path(__file__).resolve().parent
TOP = WEB.parent
# Where a page is made, and where the one that was released stands.
TARGET = WEB / "out/vervainfile.html"
RELEASED = TOP / "dist/vervainfile.html"
# The parts of the page's script, each behind those that it uses. One of them is made, the others are files.
SCRIPTS = ("bytes.js", "script.js", "desk.js", "instance.js", "files.js", "link.js", "kept.js", "session.js",
           "prose.js", sentences.PART, "words.js", "mend.js", "explain.js", "list.js", "movement.js", "flight.js",
           "picture.js", "memory.js", "lessons.js", "story.js", "steps.js", "guess.js", "shelf.js", "live.js",
           "complete.js", "prompt.js", "help.js", "panels.js", "notice.js", "share.js", "page.js")
# How many bytes a page may have.
MOST_BYTES = 400_000
USUAL_PAGES = 64
IMPORT = re.compile(r"^import \{[^}]*\} from \"\./([a-z_]+\.js)\";\n", re.MULTILINE)
# A line of a part that is a remark alone. No text of a part has such a line.
REMARK = re.compile(r"^ *//.*\n", re.MULTILINE)
# A name at the head of a part, as no other part may have it.
NAME = re.compile(r"^(?:export )?(?:async )?(?:const|let|function\*?|class) (\w+)", re.MULTILINE)
# A question of a lesson: behind which line it is asked, and for each answer a label, the line of the script or the
# commands behind that line whose reply has it, and which word of which row it is.
CHECK = re.compile(r"After line (\d+)\. (.*)\.")
ANSWER = re.compile(r"([^:]+): (?:line (\d+)|(`[^`]+`(?:, `[^`]+`)*)), word (\d+)(?: of row (\d+))?")
# What the paragraphs of a lesson that belong to a question begin with.
PARTS_OF_QUESTION = {"asks": re.compile(r"\*\*Question \d+\.\*\* "), "answer": re.compile(r"\*Answer\.\* "),
                     "check": re.compile(r"\*Check\.\* ")}


class PageFault(Exception):
    """Why no page can be made."""


def base64_of(content):
    return base64.b64encode(content).decode()


def parts(names=SCRIPTS, replaced=None):
    """The text of each part of a page's script by its name; tests put files in place of some."""
    files = {name: WEB / name for name in names if name != sentences.PART} | (replaced or {})
    return {name: files[name].read_text() if name in files else sentences.part(TOP) for name in names}


def bundle(sources):
    """One script of the parts of a page's script, by their names: imports, exports and lines of remarks fall away."""
    seen, text, named = set(), [], {}
    for name, source in sources.items():
        for it in NAME.findall(source):
            if named.setdefault(it, name) != name:
                raise PageFault(f"{name} and {named[it]} both have the name {it}")
        unseen = set(IMPORT.findall(source)) - seen
        if unseen:
            raise PageFault(f"{name} stands before {', '.join(sorted(unseen))}")
        text.append(re.sub(r"^export ", "", REMARK.sub("", IMPORT.sub("", source)), flags=re.MULTILINE).strip())
        seen.add(name)
    return "\n\n".join(text) + "\n"


def words_of(script, ending):
    """The words in the file beside an example, none where there is no such file."""
    path = script.with_suffix(ending)
    return path.read_text().split() if path.is_file() else []


def example_of(script):
    """What the page keeps of an example: its text, the pages of its pool, and its files."""
    words = words_of(script, ".args")
    pages = int(words[words.index("--pages") + 1]) if "--pages" in words else USUAL_PAGES
    named = [word.split("=", 1) for word in words_of(script, ".files")]
    files = [{"name": name, "base64": base64_of((script.parent / path).read_bytes())} for name, path in named]
    return {"text": script.read_text(), "pages": pages, "files": files}


def lessons():
    """The name of each lesson with its title, in order, as docs/LESSONS.md has them."""
    text = (TOP / "docs/LESSONS.md").read_text()
    rows = re.findall(r"^\| (\d+) \| `([^`]+)\.desk` \| (.*?) \|$", text, re.MULTILINE)
    return {f"lessons/{name}": f"{number}. {title[0].upper()}{title[1:]}" for number, name, title in rows}


def answer_of(text, after):
    """Where the right answer stands that a part of a check names: in the last reply to which lines, and its word."""
    found = ANSWER.fullmatch(text)
    if not found:
        raise PageFault(f"docs/LESSONS.md has a check that can't be read: {text}")
    label, line, commands, word, row = found.groups()
    return {"label": label, "upTo": int(line or after), "then": re.findall(r"`([^`]+)`", commands or ""),
            "word": int(word), "row": int(row or 1)}


def question_of(parts, length):
    """A question of a lesson whose script has so many lines. One without a check is asked at its end."""
    check = parts.get("check")
    found = CHECK.fullmatch(check) if check else None
    if check and not found:
        raise PageFault(f"docs/LESSONS.md has a check that can't be read: {check}")
    after = int(found[1]) if found else length
    fields = [answer_of(it, after) for it in found[2].split("; ")] if found else []
    return {"asks": parts["asks"], "answer": parts["answer"], "after": after, "fields": fields}


def questions_in(text, length):
    """The questions in the text of a lesson."""
    found = []
    for paragraph in re.split(r"\n{2,}", text.strip()):
        words = " ".join(paragraph.split())
        kind = next((it for it, begins in PARTS_OF_QUESTION.items() if begins.match(words)), None)
        if kind == "asks":
            found.append({})
        if kind:
            found[-1][kind] = PARTS_OF_QUESTION[kind].sub("", words, count=1)
    return [question_of(it, length) for it in found]


def questions():
    """The questions of each lesson by its name, as docs/LESSONS.md has them."""
    texts = re.split(r"^## ", (TOP / "docs/LESSONS.md").read_text(), flags=re.MULTILINE)
    by_number = {it.split(".")[0]: it for it in texts}
    return {name: questions_in(by_number[title.split(".")[0]], len(text_of(name).splitlines()))
            for name, title in lessons().items()}


def text_of(name):
    """The script of an example."""
    return (TOP / f"examples/{name}.desk").read_text()


def topics():
    """The examples about each topic by their names, with their titles, as examples/README.md has them."""
    table = (TOP / "examples/README.md").read_text().partition("| About | Scripts |\n")[2].partition("\n\n")[0]
    rows = re.findall(r"^\| ([a-z].*?) \| (.*?) \|$", table, re.MULTILINE)
    return {topic.capitalize(): {name: f"{name}: {title}" for name, title in re.findall(r"`([^`]+)` \((.*?)\)", names)}
            for topic, names in rows}


def examples():
    """The lessons and the other examples in groups with labels: of each its name, its title and what it is."""
    folder = TOP / "examples"
    scripts = (*folder.glob("*.desk"), *folder.glob("lessons/*.desk"))
    names = {str(it.relative_to(folder).with_suffix("")) for it in scripts}
    titled = topics()
    groups = {"First": titled.pop("First", {}), "Lessons": lessons(), **titled}
    for name in sorted(names.difference(*groups.values())):
        raise PageFault(f"examples/README.md has no title for examples/{name}.desk")
    return [{"label": label, "examples": [{"name": name, "title": title, **example_of(folder / f"{name}.desk")}
                                          for name, title in group.items()]} for label, group in groups.items()]


def examples_by_name():
    """Each example of all groups by its name."""
    return {it["name"]: it for group in examples() for it in group["examples"]}


def policy(script, style, connects):
    """What a browser lets the page do: run this script and the module, and nothing else."""
    def sha(text):
        return f"'sha256-{base64_of(hashlib.sha256(text.encode()).digest())}'"
    return (f"default-src 'none'; script-src {sha(script)} 'wasm-unsafe-eval'; style-src {sha(style)}; img-src data:; "
            f"connect-src {connects}; base-uri 'none'; form-action 'none'")


def filled(template, marks):
    """The template with each mark, as @NAME@, replaced by its text."""
    return re.sub(r"@([A-Z]+)@", lambda mark: marks[mark[1]], template)


def page_of(module, replaced=None, connects="'none'"):
    """The text of a page with a module. Tests put scripts in place of others, and let the page connect."""
    script = bundle(parts(replaced=replaced))
    style = (WEB / "style.css").read_text()
    data = {"module": base64_of(gzip.compress(module, 9, mtime=0)), "examples": examples(), "questions": questions(),
            "pictureStyle": (WEB / "picture.css").read_text()}
    for name, text in (("script", script), ("style", style)):
        if f"</{name}" in text.lower() or "<!--" in text:
            raise PageFault(f"the page's {name} would end early")
    return filled((WEB / "page.html").read_text(), {
        "ICON": base64_of((WEB / "icon.svg").read_bytes()), "POLICY": policy(script, style, connects),
        "STYLE": style, "SCRIPT": script,
        "DATA": json.dumps(data).replace("<", "\\u003c")})


def make(module):
    """Writes the page of a module, and gives how many bytes it has."""
    text = page_of(module)
    length = len(text.encode())
    if length > MOST_BYTES:
        raise PageFault(f"the page has {length} bytes, more than {MOST_BYTES}")
    TARGET.parent.mkdir(parents=True, exist_ok=True)
    TARGET.write_text(text)
    return length


def module_of(page):
    """The module inside a page."""
    data = re.search(r'<script type="application/json" id="data">(.*?)</script>', page.read_text(), re.DOTALL)
    if not data:
        raise PageFault(f"{page.name} holds no module")
    return gzip.decompress(base64.b64decode(json.loads(data[1])["module"]))
