"""The makers of the page and of its module, as far as nothing is built."""

import base64
import contextlib
import gzip
import hashlib
import json
import os
import pathlib
import re
import shutil
import sys
import tempfile
import types
import unittest.mock

from bench import TOP, WEB, holds, same

import make
import module
import page
import sentences

DATA = re.compile(r'<script type="application/json" id="data">(.*?)</script>', re.DOTALL)
POLICY = re.compile(r'<meta http-equiv="Content-Security-Policy" content="(.*?)">')
CRATES = ("# crates: what each stands on\nbase:\nmiddle: base arrayvec  # not other\nother: base\n"
          "vf_web staticlib: middle thiserror\n")


def fault_of(kind, action):
    """What an action says when it goes wrong in this way."""
    try:
        action()
    except kind as fault:
        return str(fault)
    return "nothing went wrong"


def sha(text):
    return f"'sha256-{base64.b64encode(hashlib.sha256(text.encode()).digest()).decode()}'"


@contextlib.contextmanager
def written(**texts):
    """A folder with files; two underscores stand for a slash, and one for a dot."""
    with tempfile.TemporaryDirectory() as folder:
        for name, text in texts.items():
            path = pathlib.Path(folder, name.replace("__", "/").replace("_", "."))
            path.parent.mkdir(parents=True, exist_ok=True)
            path.write_text(text)
        yield pathlib.Path(folder)


def check_policy(bench):
    """The page lets a browser run its own script and the module, with its own style, and load nothing."""
    text = make.page_of(bench.content)
    script, style = (re.search(f"<{tag}>(.*?)</{tag.split()[0]}>", text, re.DOTALL)[1]
                     for tag in ('script type="module"', "style"))
    same(dict(part.strip().split(" ", 1) for part in POLICY.search(text)[1].split(";")),
         {"default-src": "'none'", "script-src": f"{sha(script)} 'wasm-unsafe-eval'", "style-src": sha(style),
          "img-src": "data:", "connect-src": "'none'", "base-uri": "'none'", "form-action": "'none'"}, "the policy")
    holds(text.index("Content-Security-Policy") < text.index("<style"), "the policy stands behind what it is for")


def check_data(bench):
    """The page has its module, the examples and the style of pictures as they are, in data that ends nothing early."""
    found = DATA.search(make.page_of(bench.content))[1]
    holds("<" not in found, "the data could end early")
    data = json.loads(found)
    packed = base64.b64decode(data["module"])
    same(gzip.decompress(packed), bench.content, "the module")
    same(packed[4:8], bytes(4), "the time in the packed module")
    same(data["pictureStyle"], (WEB / "picture.css").read_text(), "the style of pictures")
    examples = {it["name"]: it for group in data["examples"] for it in group["examples"]}
    for name, example in examples.items():
        same(example["text"], (TOP / f"examples/{name}.desk").read_text(), f"the text of {name}")
    same({it["pages"] for it in examples.values()}, {64, 8}, "the pages of examples")
    with unittest.mock.patch.object(make, "examples", lambda: ["</script><!--"]), written(page_html="") as folder:
        (folder / "page.html").write_text(make.page_of(b"a module"))
        found = DATA.search((folder / "page.html").read_text())[1]
        same(["<" in found, json.loads(found)["examples"]], [False, ["</script><!--"]], "data with tags")
        same(make.module_of(folder / "page.html"), b"a module", "the module of a page")


def check_making(bench):
    """A page is written as it is, unless it is too long; what would end its script early is told."""
    with tempfile.TemporaryDirectory() as folder:
        path = pathlib.Path(folder, "out/page.html")
        with unittest.mock.patch.object(make, "TARGET", path):
            same([make.make(b""), path.read_text()], [path.stat().st_size, make.page_of(b"")], "the page")
            path.unlink()
            told = fault_of(make.PageFault, lambda: make.make(os.urandom(make.MOST_BYTES * 3 // 4)))
            holds(re.fullmatch(r"the page has \d+ bytes, more than \d+", told), f"of a page that is too long: {told}")
            holds(not path.exists(), "a page that is too long is written")
    for text in ("</script>", "</SCRIPT ", "<!-- "):
        with written(part_js=f'"{text}";\n') as folder:
            told = fault_of(make.PageFault, lambda: make.page_of(b"", {"instance.js": folder / "part.js"}))
            same(told, "the page's script would end early", f"what is told of {text}")
    with tempfile.TemporaryDirectory() as folder:
        web = pathlib.Path(shutil.copytree(WEB, f"{folder}/web", ignore=shutil.ignore_patterns("tests", "out")))
        (web / "style.css").write_text("/* </style> */\n")
        with unittest.mock.patch.object(make, "WEB", web):
            same(fault_of(make.PageFault, lambda: make.page_of(b"")), "the page's style would end early",
                 "what is told of a style with tags")


def check_bundle(_bench):
    """The parts are one script without imports, exports and lines of remarks, each behind those that it uses."""
    one = {"one.js": '// A part.\n\nexport const A = 1;\n// What\n  // else.\nconst text = "export // no remark";\n'}
    two = {"two.js": 'import { A } from "./one.js";\n\nexport function b() {\n  return A;\n}\n'}
    same(make.bundle(one | two), 'const A = 1;\nconst text = "export // no remark";\n\nfunction b() {\n  return A;\n}\n',
         "the script")
    told = fault_of(make.PageFault, lambda: make.bundle(two | one))
    same(told, "two.js stands before one.js", "what is told of parts in another order")
    told = fault_of(make.PageFault, lambda: make.bundle(one | two | {"four.js": "async function b() {}\n"}))
    same(told, "four.js and two.js both have the name b", "what is told of a name that two parts have")
    told = fault_of(make.PageFault, lambda: make.bundle({"three.js": "// nothing\n"} | two | one))
    same(told, "two.js stands before one.js", "what is told of parts behind another in another order")


def check_sentences(_bench):
    """The page's sentences are those of the definitions; what doesn't stand there as it is read is told."""
    rule = 'why NoName = codes "no live task has this name"'
    with tempfile.TemporaryDirectory() as folder:
        top = pathlib.Path(folder)
        for it in page.SENTENCES:
            (top / it).parent.mkdir(parents=True, exist_ok=True)
            shutil.copy(TOP / it, top / it)
        same(sentences.part(top), sentences.part(TOP), "the part of another folder")
        path = top / "crates/rh_explained/specs/Sentences.antt"
        text = path.read_text()
        holds(rule in text, "a rule isn't as it was")
        path.write_text(text.replace(rule, 'why NoName =\n    codes "no \\"one\\"\\n  has it"'))
        same(sentences.table(top)["refusals"]["NoName"]["why"], 'no "one"\n  has it', "a sentence that is reworded")
        for other, told in (("why NoName = other NoFile", "has 0 texts at why NoName, not one"),
                            (f"-- {rule}", "has no rule why NoName"),
                            (f'{rule} ++ codes "."', "has 2 texts at why NoName, not one")):
            path.write_text(text.replace(rule, other))
            same(fault_of(sentences.NoSentence, lambda: sentences.table(top)), f"rh_explained {told}",
                 f"what is told of {other}")


def check_made(bench):
    """A page that is tested is what its sources make of the module inside it."""
    if bench.made:
        holds(bench.made == make.page_of(bench.content), "the page isn't what its sources make of its module")


def check_tables(_bench):
    """The maker tells where the documents don't have what it takes from them."""
    lesson = "| 1 | `a.desk` | a lesson |\n\n## 1. A\n\n**Question 1.** Why?\n\n*Answer.* So.\n\n*Check.* %s\n"
    for check, told in (("After 6. Size: line 2, word 1.", "After 6. Size: line 2, word 1."),
                        ("After line 6. Size: word 1.", "Size: word 1"),
                        ("After line 6. Size: line 2, word 1; line 3.", "line 3"),
                        ("After line 6. Size: areas, word 1.", "Size: areas, word 1")):
        with written(docs__LESSONS_md=lesson % check, examples__lessons__a_desk="areas\n") as folder, \
                unittest.mock.patch.object(make, "TOP", folder):
            same(fault_of(make.PageFault, make.questions), f"docs/LESSONS.md has a check that can't be read: {told}",
                 f"what is told of {check}")
    with written(examples__README_md="| About | Scripts |\n|---|---|\n| b | `b` (a b) |\n", examples__a_desk="areas\n",
                 docs__LESSONS_md="") as folder, unittest.mock.patch.object(make, "TOP", folder):
        same(fault_of(make.PageFault, make.examples), "examples/README.md has no title for examples/a.desk", "what is told")
    with written(page_html="<p>nothing</p>") as folder:
        told = fault_of(make.PageFault, lambda: make.module_of(folder / "page.html"))
        same(told, "page.html holds no module", "what is told of no module")


def section(number, content):
    """A section of a module, whose length has groups of seven bits."""
    low, high = len(content) & 127, len(content) >> 7
    return bytes([number, low | 128, high]) + content if high else bytes([number, low]) + content


def check_imports(bench):
    """A module that imports anything is found by its section of imports, wherever that stands."""
    types, none, one = section(1, bytes(300)), section(2, b"\0"), section(2, b"\x01\x01a\x01b\0\0")
    ends = section(7, b"\x02")
    found = [module.has_imports(module.MAGIC + content)
             for content in (b"", types, none + ends, types + none, types + ends, one, types + one, types + ends + one)]
    same(found, [False] * 5 + [True] * 3, "which modules import anything")
    same(fault_of(module.ModuleFault, lambda: module.has_imports(b"\0asm\2\0\0\0")), "what was built is no module",
         "what is told of other bytes")
    same([module.number_at(bytes.fromhex(it), 0) for it in ("00", "7f", "8001", "e58e26")],
         [(0, 1), (127, 1), (128, 2), (624485, 3)], "numbers in groups of seven bits")
    holds(not bench.content or not module.has_imports(bench.content), "the page's module imports something")


def check_layout(_bench):
    """The module's crate is laid out for WebAssembly, with what it stands on as that was built and nothing else."""
    files = {f"crates__{crate}__{part}": crate for crate in ("base", "middle", "other", "vf@web")
             for part in ("src__lib_rt", "specs__a_rt", "proofs__b_antt", "tests__c_rt", "out__rlib__d", "out__e")}
    with written(crates_txt=CRATES, HANDLES="handles", **files) as top, tempfile.TemporaryDirectory() as folder:
        (top / "crates/vf@web").rename(top / "crates/vf_web")
        module.lay_out(top, pathlib.Path(folder))
        same((pathlib.Path(folder, "crates.txt").read_text(), pathlib.Path(folder, "HANDLES").read_text()),
             ("base:\nmiddle: base arrayvec  # not other\nvf_web wasm64 stack=1048576: middle thiserror\n", "handles"),
             "the crates")
        found = sorted(str(it.relative_to(f"{folder}/crates")) for it in pathlib.Path(folder).rglob("*.*")
                       if it.is_file() and it.parent != pathlib.Path(folder))
        own = ("proofs/b.antt", "specs/a.rt", "src/lib.rt")
        same(found, sorted(f"{crate}/{it}" for crate in ("base", "middle", "vf_web") for it in own), "the sources")
        built = [pathlib.Path(folder, f"crates/{it}/out/rlib/d").is_file() for it in ("base", "middle", "vf_web")]
        same(built, [True, True, False], "which crates have what was built of them")
        (top / "crates.txt").write_text("vf_web wasm64: base\n")
        told = fault_of(module.ModuleFault, lambda: module.lay_out(top, pathlib.Path(folder)))
        same(told, "crates.txt has no row that begins with 'vf_web staticlib:'", "what is told of other crates")


def check_newness(_bench):
    """A module is made anew where a source of it, or of what it stands on, is as new as it."""
    files = {f"crates__{crate}__{part}": crate for crate in ("base", "middle", "other", "vf@web")
             for part in ("src__lib_rt", "specs__a_rt", "proofs__b_antt", "tests__c_rt")}
    with written(crates_txt=CRATES, made_wasm="", **files) as top:
        (top / "crates/vf@web").rename(top / "crates/vf_web")
        made, paths = top / "made.wasm", [it for it in top.rglob("*") if it.is_file()]
        holds(not module.is_new(top / "none.wasm", top), "a module that isn't there is new")
        found = set()
        for path in paths:
            for it in paths:
                os.utime(it, (1000, 1000 + (it == made)))
            os.utime(path, (1001, 1001))
            if not module.is_new(made, top):
                found.add(str(path.relative_to(top)).removeprefix("crates/"))
        wanted = {f"{crate}/{part}" for crate in ("base", "middle", "vf_web")
                  for part in ("src/lib.rt", "specs/a.rt", "proofs/b.antt")}
        same(found, wanted | {"crates.txt"}, "the sources of the module")


def kept_in(files):
    """The tool that keeps files from run to run, and the kit beside it, with a dictionary in their place."""
    def give_file(_name, total, path):
        if total not in files:
            return False
        path.parent.mkdir(parents=True, exist_ok=True)
        path.write_bytes(files[total])
        return True

    def keep_file(_name, total, path):
        files[total] = path.read_bytes()

    kept = types.SimpleNamespace(of_code=lambda *_: "sum", give_file=give_file, keep_file=keep_file)
    kit = types.SimpleNamespace(crates_of=lambda top: [types.SimpleNamespace(name="vf_web")])
    return unittest.mock.patch.dict(sys.modules, kept=kept, kit=kit)


def check_building(_bench):
    """What is built is the module, if that went well and it imports nothing; it is kept, and not built twice."""
    ran, files = [], {}

    def built(content, status, said=""):
        def run(words, cwd, **_others):
            ran.append(words)
            path = cwd / "out/vf_web.wasm"
            path.parent.mkdir(parents=True, exist_ok=True)
            path.write_bytes(content)
            return unittest.mock.Mock(returncode=status, stdout=said, stderr="last\n")
        return unittest.mock.patch.object(module.subprocess, "run", run)

    with written(crates_txt=CRATES, HANDLES="handles", **{"crates__base__src__lib_rt": ""}) as top, \
            unittest.mock.patch.object(module, "mark_as_proved") as marked, kept_in(files):
        (top / "crates/vf_web/src").mkdir(parents=True)
        with built(module.MAGIC, 1, "".join(f"{it}\n" for it in range(30))):
            told = fault_of(module.ModuleFault, lambda: module.built(top))
            same(told, "\n".join([*map(str, range(11, 30)), "last"]), "what is told of a crate that isn't proved")
        with built(module.MAGIC + section(2, b"\x01\x01a\x01b\0\0"), 0):
            same(fault_of(module.ModuleFault, lambda: module.built(top)), "the module of vf_web has imports",
                 "what is told of a module with imports")
        same(files, {}, "what is kept of modules that weren't built")
        with built(module.MAGIC, 0):
            same([module.built(top).read_bytes() for _ in range(2)], [module.MAGIC] * 2, "the module")
            (top / module.MADE).unlink()
            same(module.built(top).read_bytes(), module.MAGIC, "the module of an earlier run")
        same(ran, [["rt", "lib"]] * 3, "what was run")
        same([it.args[0] for it in marked.call_args_list], [top] * 3, "of which repository libraries are marked")


def check_marking(_bench):
    """Libraries are marked as built in the copy just where the gate has left them proved in the repository."""
    names = ("base", "middle")

    def crates_of(folder):
        libraries = [types.SimpleNamespace(name=it, rlib=f"{folder}/{it}/{it}.rlib", stamp=f"stamp of {it}".strip)
                     for it in names]
        return [*libraries, types.SimpleNamespace(name="vf_web", below=lambda: libraries)]

    for left in (False, True):
        asked = []
        fakes = {"kit": types.SimpleNamespace(crates_of=crates_of),
                 "libraries": types.SimpleNamespace(
                     STAMP="mark", are_left_by_gate=lambda them: asked.extend(it.rlib for it in them) or left)}
        with written(base__d="", middle__d="") as folder, unittest.mock.patch.dict(sys.modules, fakes):
            module.mark_as_proved(pathlib.Path("/top"), folder)
            marks = {it.name: (folder / it.name / "mark").read_text() for it in folder.iterdir()
                     if (folder / it.name / "mark").is_file()}
        same(asked, [f"/top/{it}/{it}.rlib" for it in names], "of which libraries the gate is asked")
        same(marks, {it: f"stamp of {it}" for it in names} if left else {}, f"the marks, where they are left: {left}")
