"""Replies and pictures of the page beside those of the native program."""

import base64
import json
import re

import images
import native
from bench import TOP, WEB, holds, run_text, same

import make

# What is compared of figures: the memory and what stands beside it, as a browser reads the sheet of a whole script.
FIGURES_OF_SHEET = """[...new DOMParser().parseFromString(%s, 'text/html').querySelectorAll('main section')].map(
  (step) => [...step.querySelectorAll('.memory > *, aside > *')].map((it) => it.outerHTML).join(''))"""
FIGURE_SHOWN = """[['#picture', '.wide > *'], ['#chart', 'aside > *']].flatMap(([host, found]) =>
  [...document.querySelector(host).shadowRoot.querySelectorAll(found)]).map((it) => it.outerHTML).join('')"""
STYLE = re.compile(r"<style>.*?</style>", re.DOTALL)
# Examples whose every step is looked at.
DRAWN = ("transfer", "sliding", "mistakes", "killed", "lessons/death")


def scripts():
    """Each example and each worked row that is a script: its name, path, pages and files."""
    folder = TOP / "examples"
    for path in sorted(folder.glob("**/*.desk")):
        words = make.words_of(path, ".args")
        pages = int(words[words.index("--pages") + 1]) if "--pages" in words else 64
        named = [word.split("=", 1) for word in make.words_of(path, ".files")]
        yield path, pages, {name: (path.parent / file).read_bytes() for name, file in named}


def open_script(page, path, pages, files):
    """Drops a script and its files, and runs all of it."""
    page.click("fresh")
    page.drop_bytes(path.name, path.read_bytes())
    page.set_pages(pages)
    for name, content in files.items():
        page.drop_bytes(f"{name}.bin", content)
    page.click("run")


def check_replies(bench):
    """Every example and worked row has the native program's replies, each beside its line."""
    count = 0
    with bench.kept_page() as page:
        for path, pages, files in scripts():
            wanted = run_text(path.read_bytes(), pages, files)
            open_script(page, path, pages, files)
            same(page.value("lastText"), wanted, f"the text of {path.name}")
            rows = page.rows()
            if len(rows) < 400 and max(map(len, wanted.split("\n"))) < 4000:
                same(page.replies(rows), wanted, f"what is shown of {path.name}")
            count += 1
    holds(count > 80, f"only {count} scripts ran")


def replay(page, words, folder):
    """Runs what the words of the native program ask for, and gives its text and status."""
    pages = int(words[words.index("--pages") + 1]) if "--pages" in words else 64
    script, *named = [word for at, word in enumerate(words) if word != "--pages" and words[at - 1] != "--pages"]
    files = dict(word.split("=", 1) for word in named)
    page.click("fresh")
    page.drop_bytes("replayed.desk", (folder / script).read_bytes())
    page.set_pages(pages)
    for name, file in files.items():
        page.drop_bytes(f"{name}.bin", (folder / file).read_bytes())
    return page.value("[lastText, lastStatus]")


def check_replays(bench):
    """Each script of a folder that was given has the text and the status that stand beside it."""
    if not bench.replays:
        return
    count = 0
    with bench.kept_page() as page:
        for path in sorted(bench.replays.glob("**/*.words")):
            wanted = path.with_suffix(".out").read_text(encoding="latin-1")
            status = int(path.with_suffix(".status").read_text())
            same(replay(page, path.read_text().split(), path.parent), [wanted, status], f"what {path.name} gives")
            count += 1
    holds(count, f"there are no scripts in {bench.replays}")
    print(f"  {count} scripts of {bench.replays}: the same text and status")


def check_images(bench):
    """Of each image of memory the page tells what the native program does, as a heap and as a slot."""
    with bench.kept_page() as page:
        for name, content in images.images().items():
            page.click("fresh")
            page.drop_bytes("image.bin", content)
            page.value("document.querySelector('#files button[aria-label^=Check]').click()")
            wanted = "; ".join(f"as a {kind}: {native.checked(content, kind)[1].decode().strip()}"
                               for kind in ("heap", "slot"))
            same(page.value("document.querySelector('#files output').textContent"), wanted, f"what is told of {name}")


def check_examples(bench):
    """An example that is chosen brings its pages and files, and runs as what is printed beside it."""
    with bench.kept_page() as page:
        for name in make.examples_by_name():
            page.load(name)
            same(page.text("shown"), "", f"the step shown of {name} before it runs")
            page.click("run")
            same(page.replies(), (TOP / f"examples/{name}.out").read_text(), f"what is shown of {name}")


def check_pictures(bench):
    """The picture of each step is the figure of the sheet of the whole script, with its titles and descriptions."""
    with bench.kept_page() as page:
        for name in DRAWN:
            example = make.examples_by_name()[name]
            script = re.sub(r"^#picture", "#", example["text"], flags=re.MULTILINE)
            sheet = native.done("draw", native.Job(script.encode(), pages=example["pages"]))[1].decode()
            figures = page.value(FIGURES_OF_SHEET % json.dumps(STYLE.sub("", sheet)))
            page.load(name)
            for number, figure in enumerate(figures, 1):
                page.tab.key("F8")
                found = page.value(FIGURE_SHOWN)
                holds("<title>" in found and "<desc>" in found, f"step {number} of {name} has no title")
                same(found if figure else "", figure, f"the picture of step {number} of {name}")


def check_map(bench):
    """The map is the native program's map of the last step alone, with the number that its line has in the script."""
    example = make.examples_by_name()["transfer"]["text"].splitlines()
    marked = "\n".join([*example[:8], "#picture", example[8]]) + "\n"
    drawn = native.done("map", native.Job(marked.encode(), is_marked=True))[1].decode()
    wanted = drawn.replace("\n10  poll b\n", "\n9  poll b\n")
    holds(drawn != wanted, "a mark that is put in before line 9 doesn't move it")
    with bench.kept_page() as page:
        page.load("transfer")
        page.value("document.querySelector('[value=map]').click()")
        for _ in range(8):
            page.click("step")
        same(page.value("document.querySelector('#map').textContent"), wanted, "the map")
        same(page.value("document.querySelector('#map').innerText"), wanted, "the map as it is seen")
        holds(page.value("document.querySelector('#picture').hidden"), "the picture is shown beside the map")


def check_drawn_files(bench):
    """The map, the picture and the saved pictures are those of the script with its files."""
    example = make.examples_by_name()["files"]
    files = {it["name"]: base64.b64decode(it["base64"]) for it in example["files"]}
    front, line, _ = example["text"].partition("load a 0 greeting\n")
    job = native.Job(example["text"].encode(), name="files.desk", pages=example["pages"], files=files)
    last = native.Job(f"{front}#picture\n{line}".encode(), pages=example["pages"], files=files, is_marked=True)
    with bench.kept_page() as page:
        page.load("files")
        page.click("step")
        page.click("step")
        same(page.text("shown").split(" → ")[0], f"3{line.strip()}", "the step that is looked at")
        sheet = STYLE.sub("", native.done("draw", last)[1].decode())
        same(page.value(FIGURE_SHOWN), page.value(FIGURES_OF_SHEET % json.dumps(sheet))[-1], "the picture")
        page.value("document.querySelector('[value=map]').click()")
        wanted = native.done("map", last)[1].decode().replace("\n4  load", "\n3  load")
        same(page.value("document.querySelector('#map').textContent"), wanted, "the map")
        page.click("save-sheet")
        same(page.tab.downloaded("files.html"), native.done("draw", job)[1], "the saved pictures")


def check_parts(bench):
    """The parts of the page's script that need no page pass their own tests."""
    names = [it for it in make.SCRIPTS if it not in ("instance.js", "page.js")]
    tests = ("parts.js", "parts_desk.js", "parts_session.js", "parts_words.js")
    script = make.bundle(make.parts((*names, *tests), {name: WEB / "tests" / name for name in tests}))
    tab = bench.browser.open("about:blank")
    tab.value(f"(() => {{ {script} }})()")
    same(tab.value("partFaults"), [], "what is wrong with parts")
    holds(tab.value("partCount") > 60, "tests of parts are missing")
    tab.close()
