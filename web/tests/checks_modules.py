"""Modules and browsers: the page as it is made, from disk, and what it tells where something isn't as it should be."""

import contextlib
import pathlib
import tempfile

from bench import holds, same

import make

# Numbers of 32 and of 64 bits, and the kinds of what a module exports.
I32, I64 = 0x7F, 0x7E
FUNCTION, MEMORY, GLOBAL = 0, 2, 3
# What a call with these bytes does: nothing, and it stops; or it stops when it is called first, and notes that at 0.
GIVES_0, STOPS = bytes.fromhex("41000b"), bytes.fromhex("000b")
STOPS_ONCE = bytes.fromhex("4200 280200 0440 41000f0b 4200 4101 360200 000b")
# What calls take: pages, buffers with their lengths, a mark, a buffer, and the address of a length.
RUN = [I32] + [I64] * 11
MAP = [I32] + [I64] * 8 + [I32] + [I64] * 3
DRAW = [I32] + [I64] * 10 + [I32] + [I64] * 3
CHECK = [I32] + [I64] * 5
# A call with these bytes writes `ok` and a line feed to the address that is a parameter, and the length to another.
WRITES_OK = "20{:02x} 41efd629 360200 20{:02x} 4203 370300 41000b"

# A browser whose memories have addresses of 32 bits: their limits begin with a byte below 4.
WITHOUT_64 = """{ const validate = WebAssembly.validate;
  WebAssembly.validate = (bytes) => bytes.at(-2) < 4 && validate(bytes); }"""


def vector(parts):
    return bytes([len(parts)]) + b"".join(parts)


def section(number, content):
    return bytes([number, len(content)]) + content


def exported(name, kind, number=0):
    return bytes([len(name)]) + name.encode() + bytes([kind, number])


def module(**calls):
    """A module with a memory of 64-bit addresses, and with calls: of each what it takes and what its body does."""
    functions = [exported(name, FUNCTION, number) for number, name in enumerate(calls)]
    return b"".join([
        bytes.fromhex("0061736d01000000"),
        section(1, vector([b"\x60" + bytes([len(takes), *takes]) + bytes([1, I32]) for takes, _ in calls.values()])),
        section(3, vector([bytes([number]) for number in range(len(calls))])),
        section(5, vector([bytes([4, 1])])),
        section(6, vector([bytes([I64, 0]) + bytes.fromhex("4280080b")])),
        section(7, vector([exported("memory", MEMORY), exported("__heap_base", GLOBAL), *functions])),
        section(10, vector([bytes([len(body) + 1, 0]) + body for _, body in calls.values()])),
    ])


def writes_ok(text, needed):
    return bytes.fromhex(WRITES_OK.format(text, needed))


@contextlib.contextmanager
def on_disk(text):
    """The address of a page on disk."""
    with tempfile.TemporaryDirectory() as folder:
        path = pathlib.Path(folder, "page.html")
        path.write_text(text)
        yield f"file://{path}"


@contextlib.contextmanager
def page_of(bench, content):
    """The page of a module, as it is made, from disk."""
    with on_disk(make.page_of(content)) as address, bench.page(address=address) as page:
        yield page


def check_as_made(bench):
    """The page as it is made runs its module from disk, and tells where that doesn't do what it should."""
    with page_of(bench, module(vf_run=(RUN, GIVES_0))) as page:
        page.enter("# a remark")
        same([len(page.rows()), page.text("notice")], [1, ""], "what a module that writes nothing gives a remark")
        page.enter("areas")
        same(page.text("notice"), "The replies don't fit the lines of the script.", "what is told of lost replies")
        same([row["reply"] for row in page.rows()], ["", ""], "the replies then")
        same(page.value("document.querySelector('#notice').className"), "fault", "what that is marked as")
    with page_of(bench, module(vf_run=(RUN, STOPS))) as page:
        page.enter("areas")
        same(page.text("notice"), "The module stopped (unreachable).", "what is told of a module that stops")


def check_anew(bench):
    """After a call that stops there is a new instance, which knows nothing of the old one."""
    with page_of(bench, module(vf_run=(RUN, STOPS_ONCE))) as page:
        for line in ("# a", "# b"):
            page.enter(line)
            same(page.text("notice"), "The module stopped (unreachable).", f"what is told at {line}")


def check_some_calls(bench):
    """A module may have no call for pictures, or for maps: the page shows what there is, and offers no choice."""
    run, drawn = (RUN, writes_ok(9, 11)), (MAP, writes_ok(10, 12))
    offered = ("views", "save-sheet", "picture", "map")
    with page_of(bench, module(vf_run=run)) as page:
        page.enter("areas")
        same([page.replies(), page.text("nothing"), page.seen(*offered)],
             ["ok\n", "The module of this page draws no pictures.", []], "what is shown without calls for pictures")
        page.drop_bytes("a.bin", b"1")
        same(page.text("files"), "1 byte×", "what is offered without a call that checks")
    with page_of(bench, module(vf_run=run, vf_map=drawn)) as page:
        page.enter("areas")
        same([page.text("map"), page.seen(*offered)], ["ok", ["map"]], "what is shown with a call for maps alone")
    with page_of(bench, module(vf_run=run, vf_map=(MAP, STOPS))) as page:
        page.enter("areas")
        same([page.replies(), page.text("nothing"), page.seen(*offered)],
             ["ok\n", "The module stopped (unreachable).", []], "what is shown where the map isn't drawn")


def check_stopped_calls(bench):
    """Where pictures can't be saved, or a file can't be checked, the page tells why."""
    run = (RUN, writes_ok(9, 11))
    with page_of(bench, module(vf_run=run, vf_draw=(DRAW, STOPS), vf_check=(CHECK, STOPS))) as page:
        page.enter("areas")
        page.click("save-sheet")
        same([page.text("notice"), page.text("nothing")], ["The module stopped (unreachable)."] * 2, "what is told")
        page.drop_bytes("a.bin", b"1")
        page.value("document.querySelector('#files button[aria-label^=Check]').click()")
        same(page.text("files"), "1 byteCheck×The module stopped (unreachable).", "what is told of a file")


def check_other_module(bench):
    """A module that takes other words than the page gives is told, and so are bytes that are none."""
    others = "The module's vf_run doesn't take what this page gives to it."
    for content, told in ((module(vf_run=([I32], GIVES_0)), others),
                          (module(vf_map=(MAP, GIVES_0)), "The module has no vf_run."),
                          (b"none", "WebAssembly.compile(): expected magic word")):
        with on_disk(make.page_of(content)) as address:
            tab = bench.browser.open(address)
            tab.wait(lambda: tab.value("document.querySelector('#unsupported-why').textContent"), "nothing is told")
            found = tab.value("document.querySelector('#unsupported-why').textContent")
            holds(found.startswith(told), f"what is told of another module is {found}")
            holds(tab.value("document.querySelector('#desk').hidden && document.querySelector('#tools').hidden"),
                  "the page is shown with another module")
            tab.close()


def check_unsupported(bench):
    """A browser without 64-bit memory, and one that runs no scripts, tell plainly what can be used instead."""
    told = "document.querySelector('#unsupported').innerText + document.querySelector('#desk').hidden"
    seen = "getComputedStyle(document.querySelector('#unsupported')).visibility === 'visible'"
    tab = bench.browser.open(bench.address, WITHOUT_64)
    tab.wait(lambda: tab.value(seen), "nothing is seen without 64-bit memory")
    delays = tab.value("document.querySelector('#unsupported').getAnimations().map((it) => it.effect.getTiming())")
    holds([it["delay"] > 300 for it in delays] == [True], "it is seen also where the page begins at once")
    for words in ("from version 133 on", "Firefox from version 134\non", "bin/vervainfile run SCRIPT"):
        holds(words.replace("\n", " ") in tab.value(told), f"nothing is told of {words}")
    holds(tab.value(told).endswith("true"), "the desk is shown without 64-bit memory")
    if bench.pictures:
        tab.picture(bench.pictures / "unsupported.png")
    tab.close()
    tab = bench.browser.open("about:blank")
    tab.call("Emulation.setScriptExecutionDisabled", value=True)
    tab.go(bench.address)
    tab.call("Emulation.setScriptExecutionDisabled", value=False)
    holds(tab.value(told).endswith("true"), "nothing is told without scripts")
    tab.close()


def check_from_disk(bench):
    """The module runs from disk, and nothing is loaded."""
    if not bench.content:
        return
    with on_disk(bench.text) as address, bench.page(address=address) as page:
        page.load("transfer")
        page.click("run")
        same(page.replies(), (make.TOP / "examples/transfer.out").read_text(), "the replies from disk")
        same(page.value("performance.getEntriesByType('resource').map((it) => it.name)"), [], "what the page loads")
