"""Tests of what vervainfile.py does with each argument of each call: numbers out of range, wrong types, and what stands
for another type. It is run by python3 python/arguments.py, where the module is found.

A table has a row for each call. It has the names by which a number is refused that is too small or too large: those
that c/vervainfile.h gives to a number just out of the call's range, and BAD_ARGUMENT on a desk, as no line has it. A
call or an argument without a row fails the test, and so does a call of the library that no row makes.
"""

import array
import copy
import ctypes
import enum
import inspect
import itertools
import os
import pickle
import re
import sys
import threading

import vervainfile
import vervainfile_calls
from vervainfile import RAW, Desk, Heap, Refused, Slot, WideSlot

# What a number is refused by that is too small, and too large.
LENGTH, ARGUMENT = ("BAD_LENGTH", "BAD_LENGTH"), ("BAD_ARGUMENT", "BAD_ARGUMENT")
ANCHOR, BLOCK = ("BAD_ANCHOR", "BAD_ANCHOR"), ("NOT_A_BLOCK", "NOT_A_BLOCK")
ROOM, RANGE = ("NO_ROOM", "NO_ROOM"), ("BAD_RANGE", "BAD_RANGE")
CLAIMED, RESIZED, MOVED = ("BAD_SIZE", "NO_ROOM"), ("BAD_SIZE", "NO_ROOM"), ("EXCESSIVE_SHRINK", "SHORT")
MIDDLE = ("BAD_RANGE", "NO_ROOM")
TEXT, BYTES, FLAG, FILES, OUTSIDE = "text", "bytes", "flag", "files", "outside"
# The numbers that may be below 0.
SIGNED = ("delta", "by")

FLEX = {
    "alloc": [("anchor", 1, ANCHOR), ("n", 5, ROOM)], "free": [("anchor", 0, ANCHOR)], "size": [("anchor", 0, ANCHOR)],
    "extend": [("anchor", 0, ANCHOR), ("n", 9, ROOM)],
    "midextend": [("anchor", 0, ANCHOR), ("offset", 2, RANGE), ("by", 3, MIDDLE)],
    "place": [("anchor", 0, ANCHOR)], "places": [],
    "put": [("anchor", 0, ANCHOR), ("offset", 1, RANGE), ("data", b"hi", BYTES)],
    "read": [("anchor", 0, ANCHOR), ("offset", 1, RANGE), ("n", 4, RANGE)],
    "bytes_at": [("address", 4104, OUTSIDE), ("size", 5, OUTSIDE)],
}
CLAIMS = {
    "check": [], "describe": [], "claim": [("n", 8, CLAIMED)], "release": [("place", 276, BLOCK)],
    "resize": [("place", 276, BLOCK), ("delta", 8, RESIZED)], "block_size": [("place", 276, BLOCK)],
}
NAME, ANCHOR_0, OFFSET, ADDRESS = ("name", "a", TEXT), ("anchor", 0, ARGUMENT), ("offset", 1, ARGUMENT), 0x8114
OF_RAW, TO, REF = ("name", "r", TEXT), ("to", 1, ARGUMENT), ("your_ref", 0, ARGUMENT)
# For each call its arguments in order: a name, one that is taken, and what it is or what a number is refused by.
ROWS = {
    "Heap": [("length", 64, LENGTH), ("room", 128, LENGTH)], "Heap.of": [("memory", None, "memory")],
    "Heap.check": [], "Heap.describe": [], "Heap.claim": [("n", 8, CLAIMED)],
    "Heap.release": [("address", 20, BLOCK)], "Heap.resize": [("address", 20, BLOCK), ("delta", 8, RESIZED)],
    "Heap.extend": [("delta", 8, MOVED)], "Heap.block_size": [("address", 20, BLOCK)],
    "Heap.bytes_at": [("address", 20, OUTSIDE), ("size", 5, OUTSIDE)],
    "Slot": [("room", 65536, LENGTH)], "Slot.budge": [("on", True, FLAG)],
    "WideSlot": [("room", 65536, LENGTH), ("anchors", 64, ANCHOR)], "WideSlot.budge": [("n", 8, ROOM)],
    **{f"{it}.{name}": row for it in ("Slot", "WideSlot") for name, row in FLEX.items()},
    **{f"Slot.{name}": row for name, row in CLAIMS.items()},
    "Desk": [("pages", 64, ARGUMENT), ("files", {"f": b"123"}, FILES), ("first_handle", 1, ARGUMENT),
             ("first_ref", 1, ARGUMENT)],
    "Desk.close": [], "Desk.line": [("text", "areas", TEXT)], "Desk.run": [("script", "areas\n", TEXT)],
    "Desk.task": [("name", "t", TEXT), ("buffer", 4, ARGUMENT), ("manner", RAW, ARGUMENT)], "Desk.kill": [NAME],
    "Desk.save": [NAME, ANCHOR_0, ("to", "r", TEXT), ("leaf", "doc", TEXT)], "Desk.poll": [NAME], "Desk.next": [NAME],
    "Desk.take": [NAME], "Desk.ack": [OF_RAW], "Desk.repeat": [NAME],
    "Desk.send": [OF_RAW, ("code", 17, ARGUMENT), TO, REF, ("action", 9, ARGUMENT), ("data", b"1234", BYTES)],
    "Desk.write_at": [OF_RAW, ("address", 0x9009, ARGUMENT), ("data", b"hi", BYTES)],
    "Desk.transfer_to": [OF_RAW, ("address", 0x9008, ARGUMENT), TO, ("place", 0x8124, ARGUMENT), ("n", 3, ARGUMENT)],
    "Desk.spool": [OF_RAW, ANCHOR_0, TO, REF], "Desk.scrap": [OF_RAW, ("anchor", 1, ARGUMENT)],
    "Desk.cancel_in": [NAME, ("id", 3, ARGUMENT)], "Desk.cancel_out": [NAME, ("id", 6, ARGUMENT)],
    "Desk.alloc": [NAME, ("anchor", 63, ARGUMENT), ("size", 5, ARGUMENT)],
    "Desk.load": [NAME, ("anchor", 63, ARGUMENT), ("file", "f", TEXT)],
    "Desk.put": [NAME, ANCHOR_0, OFFSET, ("data", b"hi", BYTES)], "Desk.free": [NAME, ANCHOR_0],
    "Desk.extend": [NAME, ANCHOR_0, ("size", 9, ARGUMENT)], "Desk.mid": [NAME, ANCHOR_0, OFFSET, ("by", 3, ARGUMENT)],
    "Desk.claim": [NAME, ("size", 8, ARGUMENT)], "Desk.release": [NAME, ("address", ADDRESS, ARGUMENT)],
    "Desk.resize": [NAME, ("address", ADDRESS, ARGUMENT), ("delta", 8, ARGUMENT)],
    "Desk.budge": [NAME, ("on", False, FLAG)], "Desk.area": [("number", 4, ARGUMENT), ("delta", 4096, ARGUMENT)],
    "Desk.make": [("most", 3, ARGUMENT)], "Desk.remove": [("number", 256, ARGUMENT)],
    "Desk.rma_claim": [("size", 8, ARGUMENT)], "Desk.rma_free": [("address", 0x1800014, ARGUMENT)],
    "Desk.rma_resize": [("address", 0x1800014, ARGUMENT), ("delta", 8, ARGUMENT)],
    "Desk.show": [NAME, ANCHOR_0], "Desk.show_at": [NAME, ANCHOR_0, OFFSET, ("n", 3, RANGE)],
    "Desk.read": [NAME, ("address", ADDRESS, ARGUMENT), OFFSET, ("n", 3, RANGE)],
    "Desk.write": [NAME, ("address", ADDRESS, ARGUMENT), OFFSET, ("data", b"hi", BYTES)],
    "Desk.rma_read": [("address", 0x1800014, ARGUMENT), OFFSET, ("n", 3, RANGE)],
    "Desk.rma_write": [("address", 0x1800014, ARGUMENT), OFFSET, ("data", b"hi", BYTES)],
    "Desk.transfer": [("sender", 1, ARGUMENT), ("address", ADDRESS, ARGUMENT), ("to", 2, ARGUMENT),
                      ("address2", 0x9008, ARGUMENT), ("n", 3, ARGUMENT)],
    "Desk.blocks": [NAME], "Desk.heap": [NAME], "Desk.status": [NAME], "Desk.areas": [],
}
# The calls that the state of a desk refuses, as another call's row needs it: there is a scrap file.
ALWAYS = {"Desk.spool": "BUSY"}
CLASSES = {it.__name__: it for it in (Heap, Slot, WideSlot, Desk)}
# The calls on a desk that are no command.
NO_COMMANDS = {"next", "show", "show_at", "read", "write", "rma_read", "rma_write", "transfer", "blocks", "heap",
               "status", "areas", "close"}
# What stands in C, and has no call of its own here: files are lent.
UNUSED = {"vf_desk_file"}

tried, wrong, made = 0, [], set()


def expect(holds, what):
    """Counts what was looked at, and keeps what isn't so."""
    global tried
    tried += 1
    if not holds:
        wrong.append(what)


class Noting:
    """The library, of which the calls that are made are noted."""

    def __init__(self, library):
        self.library = library

    def __getattr__(self, name):
        made.add(name)
        return getattr(self.library, name)


LIBRARY = Noting(vervainfile_calls.LIBRARY)
vervainfile_calls.LIBRARY = LIBRARY


# ---- what the calls are made on

# The desk plays `a` and `s`, and `r` has code of its own. `a` fetches from both others, and offers a file itself; `r`
# holds the DataLoad of the scrap file, which it has sent itself.
BEGUN = f"""task a 100
task r 4 raw
task s 4
alloc a 0 6
put a 0 0 0a0b0c0d0e0f
claim a 10
make 3
rma claim 9
alloc r 0 6
send r 18 1 0 1 {bytes(16).hex()}05000000fd0f0000646f6300
poll a
poll r
alloc s 0 3
save s 0 a doc
poll a
spool r 0 2 0
poll r
alloc a 7 6
save a 7 r doc
"""


def begun(name):
    """An object of a class on which each row's arguments name something."""
    if name == "Heap":
        heap = Heap(64, room=128)
        heap.bytes_at(heap.claim(20), 20)[:] = b"a heap's first block"
        return heap
    if name == "Desk":
        desk = Desk(files={"f": b"123"})
        desk.run(BEGUN)
        return desk
    slot = Slot(16 * 4096) if name == "Slot" else WideSlot(65536, 64)
    slot.alloc(0, 6)
    slot.put(0, 0, b"flexes")
    if name == "Slot":
        slot.claim(10)
    return slot


def state(it):
    """All that an object tells of itself and what is in it."""
    if not isinstance(it, Desk):
        slot = getattr(it, "_slot", None)
        return bytes(it.memory), [getattr(slot, name) for name, _ in slot._fields_] if slot else None
    try:
        areas = it.areas()
    except Refused as why:
        return why.name
    names = [area.name for area in areas[1] if area.name]
    each = [(it.blocks(name), it.heap(name), it.status(name), it.next(name),
             [it.show(name, block.anchor) for block in it.blocks(name)],
             [it.read(name, block.address, 0, block.size) for block in it.heap(name)[1] if block.used])
            for name in names]
    module_area = outcome_of(it.rma_read, 0x1800014, 0, 12)
    return areas, each, comparable(module_area), len(it._done)


def split(call):
    """A call's class, and the name of its method, or none for the class itself."""
    return (*call.split("."), "")[:2]


def outcome_of(call, *arguments):
    """What a call gives or raises."""
    try:
        return call(*arguments)
    except (Refused, TypeError, ValueError, IndexError, OverflowError, MemoryError) as why:
        return why


def outcome(call, arguments, it=None):
    """What a call gives or raises on an object, or a new one, and the state of that object afterwards."""
    name, method = split(call)
    if not method:
        return outcome_of(CLASSES[name], *arguments), None
    it = it or begun(name)
    return outcome_of(getattr(it, method), *arguments), state(it)


def comparable(told):
    """What a call told, so that it can be compared with another."""
    if isinstance(told, Exception):
        return type(told), str(told)
    return bytes(told) if isinstance(told, memoryview) else state(told) if type(told) in CLASSES.values() else told


def with_one(row, number, value):
    """The arguments of a row, of which one is another."""
    return [value if i == number else taken for i, (_, taken, _) in enumerate(row)]


def arguments_of_rows():
    """Each argument of each row: the call, the row, which one it is, its name, one that is taken, and what it is."""
    for call, row in ROWS.items():
        for number, (name, taken, kind) in enumerate(row):
            yield call, row, number, name, taken, kind


# ---- the tests

def test_each_call_has_a_row():
    for name, cls in CLASSES.items():
        methods = {it for it, _ in inspect.getmembers(cls, callable) if not it.startswith("_")}
        for call in [name, *(f"{name}.{it}" for it in methods)]:
            known = [it for it, _, _ in ROWS.get(call, ())]
            method = getattr(cls, split(call)[1] or "__init__")
            wanted = [it for it in inspect.signature(method).parameters if it != "self"]
            expect(call in ROWS and known == wanted, f"{call} takes {wanted}, and its row has {known}")


def test_each_row_is_taken():
    for call, row in ROWS.items():
        told, _ = outcome(call, [taken for _, taken, _ in row])
        refused = getattr(told, "name", None) if isinstance(told, Exception) else None
        expect(not isinstance(told, Exception) or refused == ALWAYS.get(call), f"{call} as its row has it: {told!r}")


def numbers_outside(name, taken):
    """Numbers below those that a call takes, and above."""
    below = [taken - (1 << 32), taken - (1 << 64), -(1 << 64), -10 ** 30]
    above = [taken + (1 << 32), taken + (1 << 64), 1 << 32, 1 << 64, 10 ** 30]
    if name in SIGNED:
        return [*below, -(1 << 31), -(1 << 63) - 8], [*above, 1 << 31, 1 << 63]
    return [*below, -1, -taken - 1], above


def test_numbers_out_of_range_are_refused():
    for call, row, number, name, taken, kind in arguments_of_rows():
        if not isinstance(kind, tuple) and kind != OUTSIDE:
            continue
        cls, method = split(call)
        it = begun(cls) if method else None
        before = state(it) if it else None
        for refusal, values in zip(kind if kind != OUTSIDE else (None, None), numbers_outside(name, taken)):
            for value in values:
                told, after = outcome(call, with_one(row, number, value), it)
                is_so = type(told) is IndexError if kind == OUTSIDE else getattr(told, "name", None) == refusal
                expect(is_so and after == before, f"{call}, {name} {value}: {told!r} in place of {refusal}")


# What is of no type that an argument of a kind has.
WRONG = {TEXT: [5, 1.5, True, ["a"], {"a": 1}, None], FLAG: [0, 1, "off", None, 1.0], FILES: [5, "f", [("f", b"1")]],
         "memory": [5, "heap", b"heap", bytes(64), memoryview(bytearray(64))[::2], None]}
WRONG[BYTES] = WRONG[TEXT]
NO_NUMBERS = [1.0, "5", b"5", True, False, [1], object(), complex(1, 0)]


def test_wrong_types_are_told():
    for call, row, number, name, _, kind in arguments_of_rows():
        values = WRONG.get(kind, NO_NUMBERS) if isinstance(kind, str) else [*NO_NUMBERS, *[None] * (name != "room")]
        it = begun(split(call)[0])
        # A manner may have a word.
        for value in values[:1] + values[2:] if name == "manner" else values:
            told, _ = outcome(call, with_one(row, number, value), it)
            said = re.escape(f"{call}: argument `{name}`: ") + ".*" + re.escape(f", not {type(value).__name__!r}")
            expect(type(told) is TypeError and re.fullmatch(said, str(told)), f"{call}, {name} {value!r}: {told!r}")


class Index:
    """What stands for a number, as those of numpy do."""

    def __init__(self, number):
        self.number = number

    def __index__(self):
        return self.number


class Odd(int):
    """A number of a type of its own, whose text is another."""

    def __str__(self):
        return "odd"

    __repr__ = __format__ = __str__


def test_what_stands_for_an_argument():
    for call, row, number, name, taken, kind in arguments_of_rows():
        likes = [Index, Odd, lambda it: enum.IntEnum("Its", {"IT": it}).IT]
        if kind in (TEXT, BYTES):
            data = taken.encode() if isinstance(taken, str) else taken
            likes = [lambda it: data, bytearray, memoryview,
                     lambda it: memoryview(bytes(itertools.chain(*zip(it, it))))[::2]]
            likes = [lambda it, like=like: like(data) for like in likes]
        elif kind == FILES:
            likes = [lambda it: {b"f": bytearray(b"123")}]
        elif kind in (FLAG, "memory"):
            continue
        wanted, after = outcome(call, with_one(row, number, taken))
        for like in likes:
            told, now = outcome(call, with_one(row, number, like(taken)))
            is_same = comparable(told) == comparable(wanted) and now == after
            expect(is_same, f"{call}, {name} as {like(taken)!r}: {told!r}")


def test_bytes_are_all_that_there_are():
    words = array.array("I", [0x01020304, 0x05060708])
    for name in ("Slot", "WideSlot"):
        slot = begun(name)
        slot.extend(0, 8)
        slot.put(0, 0, words)
        expect(slot.read(0, 0, 8) == words.tobytes(), f"{name}.put of words")
    heap = Heap(64)
    heap.claim(9)
    again = Heap.of(array.array("Q", bytes(heap.memory)))
    again.bytes_at(20, 3)[:] = b"abc"
    expect(again.block_size(20) == 12 and bytes(again.memory)[20:23] == b"abc", "a heap in words")
    with begun("Desk") as desk:
        desk.extend("a", 0, 8)
        desk.put("a", 0, 0, words)
        expect(desk.show("a", 0) == words.tobytes(), "Desk.put of words")
        desk.put("a", 0, 0, "zwölf")
        expect(desk.show("a", 0)[:6] == "zwölf".encode(), "Desk.put of a text")


def test_long_reads_need_no_memory():
    for call in ("Desk.show_at", "Desk.read", "Desk.rma_read", "Slot.read", "WideSlot.read"):
        row = ROWS[call]
        for n in (1 << 23, 1 << 40, (1 << 64) - 1):
            told, _ = outcome(call, with_one(row, len(row) - 1, n))
            expect(getattr(told, "name", None) == "BAD_RANGE", f"{call} of {n} bytes: {told!r}")
    for call in ("Heap", "Slot"):
        told, _ = outcome(call, [1 << 45])
        expect(getattr(told, "name", None) == "BAD_LENGTH", f"{call} of 2^45 bytes: {told!r}")
    with Desk(pages=1024) as desk:
        data = bytes(range(1, 251)) * 12_000
        desk.task("a", 4)
        at = desk.alloc("a", 0, len(data))
        desk.put("a", 0, 0, data)
        expect(desk.show("a", 0) == desk.show_at("a", 0, 0, len(data)) == desk.read("a", at, 0, len(data)) == data,
               "a read of 3 MB")


def test_texts_that_no_line_has():
    for call, row, number, name, taken, kind in arguments_of_rows():
        if kind == TEXT and name not in ("text", "script"):
            it = begun("Desk")
            before = state(it)
            for text in ("", "a\0", "a b", "a\n", "é", "a" * 13, b"\xff", "a" * 70_000):
                told, after = outcome(call, with_one(row, number, text), it)
                expect(getattr(told, "name", None) == "BAD_ARGUMENT" and after == before,
                       f"{call}, {name} {text!r:.20}: {told!r}")
        if kind in (TEXT, BYTES):
            told, _ = outcome(call, with_one(row, number, "\ud800"))
            is_told = type(told) is ValueError and str(told).startswith(f"{call}: argument `{name}`: ")
            expect(is_told, f"{call} of half a pair: {told!r}")
    with begun("Desk") as desk:
        script = "# one\u2028task x 4\x0ctask y 4\x0b\rtask z 4\n\nbudge a off"
        expect(desk.run(script) == "ok on", "lines end elsewhere")
        expect(desk.line("# a remark\ntask x 4") == "", "a line with a line feed")
        expect(desk.line(b"\xff\0") == "bad Unknown" and desk.line("task b 4\n") != "ok 3", "a bad line")
        expect([it.name for it in desk.areas()[1] if it.name] == ["a", "r", "s"], "tasks of no line")


def test_a_closed_desk_says_so():
    desk = begun("Desk")
    desk.close()
    desk.close()
    for call, row, number, name, taken, kind in arguments_of_rows():
        if split(call)[0] != "Desk" or call in ("Desk", "Desk.close", "Desk.run"):
            continue
        for value in [taken, *sum(numbers_outside(name, taken), [])] if isinstance(kind, tuple) else [taken]:
            told = outcome_of(getattr(desk, split(call)[1]), *with_one(row, number, value))
            expect(getattr(told, "name", None) == "CLOSED", f"{call} of a closed desk, {name} {value}: {told!r}")


def test_manners_have_words():
    for word, number in (("deaf", 1), ("file", 2), ("raw", 3)):
        by_word, by_number = Desk(), Desk()
        expect(by_word.task("t", 4, word) == by_number.task("t", 4, number) == 1, f"a task that is {word}")
        expect(by_word._done == by_number._done, f"the command of a task that is {word}")
        desk = Desk()
        desk.run(f"task t 4 {word}\ntask s 4\nalloc s 0 1")
        for it in (by_word, by_number):
            it.run("task s 4\nalloc s 0 1")
        for it in (desk, by_word, by_number):
            it.save("s", 0, "t", "x")
        told = [it.run("poll t\npoll s\npoll t") for it in (desk, by_word, by_number)]
        expect(told[0] == told[1] == told[2], f"the polls of a task that is {word}: {told}")
    for word in ("", "plain", "RAW", "raw ", b"raw".decode() + "\0", "é"):
        told, _ = outcome("Desk.task", ["t", 4, word])
        expect(getattr(told, "name", None) == "BAD_ARGUMENT", f"a task that is {word!r}: {told!r}")


def test_nothing_is_copied():
    for name in CLASSES:
        for way in (copy.copy, copy.deepcopy, pickle.dumps, lambda it: copy.deepcopy([it])):
            it = begun(name)
            before = state(it)
            try:
                way(it)
                expect(False, f"a {name} is copied")
            except TypeError as why:
                expect(str(why).startswith(name) and state(it) == before, f"a {name} is copied: {why}")
    for status in (1, 43, 999):
        why = Refused(status)
        for again in (copy.copy(why), pickle.loads(pickle.dumps(why))):
            expect((again.status, again.name, str(again)) == (status, why.name, str(why)), f"a copy of {why!r}")


def test_threads_take_turns():
    """While one thread is between two calls that belong together, another one's calls wait."""
    arguments = vervainfile_calls.arguments

    def meets(calls, first, second, wanted):
        desk, left = begun("Desk"), iter(calls)
        after, other = next(left), threading.Thread(target=second, args=(desk,))

        def begins(call, *given):
            nonlocal after
            if call == after and threading.current_thread() is not other:
                after = next(left, None)
                if not after:
                    other.start()
                    other.join(0.2)
            return arguments(call, *given)

        vervainfile_calls.arguments = begins
        told = first(desk)
        vervainfile_calls.arguments = arguments
        expect(other.ident, f"{calls} begin no other thread")
        other.join()
        expect(told == wanted, f"{calls} next to another thread: {told!r}")

    meets(["vf_desk_reply"], lambda it: it.line("show a 0"), lambda it: it.line("areas"), "ok 6 0a0b0c0d0e0f")
    meets(["vf_desk_reply"], lambda it: it.line("tsk"), lambda it: it.run("areas\nkill a"), "bad Unknown")
    meets(["vf_desk_show"] * 2, lambda it: it.show("a", 0), lambda it: it.extend("a", 0, 9000), bytes(range(10, 16)))
    meets(["vf_desk_show"] * 2, lambda it: it.show("a", 0), lambda it: it.extend("a", 0, 1), bytes(range(10, 16)))
    # Nor does another thread write to what a call looks at.
    expect(type(LIBRARY.library) is ctypes.PyDLL, "the library lets other threads run while it is called")


def test_pictures_are_of_the_same_commands():
    desk, lines = Desk(files={b"f": b"123"}), Desk(files={"f": b"123"})
    desk.task(b"a", Odd(100), manner=Index(0))
    desk.line("# a remark\ntask no 4")
    desk.line(b"\xff is no command")
    desk.load(bytearray(b"a"), Odd(3), memoryview(b"f"))
    desk.release("a", desk.claim("a", Odd(10)))
    desk.line(b"alloc a 4 9")
    lines.run("task a 100\n# a remark\n\xff\nload a 3 f\nclaim a 10\nrelease a &8114\nalloc a 4 9")
    picture = desk._repr_svg_()
    expect(picture and picture == lines._repr_svg_(), "a picture of commands by other types")
    expect("task no" not in str(desk._done), "a line with a line feed is drawn")
    # The last command is marked as such, whatever no command comes after it.
    lines.run("\n  \n # a remark\n\n")
    expect(picture == lines._repr_svg_() and len(re.findall("drop-shadow", picture)) > 0, "a picture after a remark")


def test_each_command_has_its_line():
    """A call leaves the desk as the line does by which it is drawn."""
    calls = [(split(call)[1], [taken for _, taken, _ in row]) for call, row in ROWS.items() if call.startswith("Desk.")]
    calls += [("cancel_in", ["a", 0]), ("cancel_out", ["a", 0])] + [("task", ["t", 4, manner]) for manner in range(4)]
    calls += [("put", ["r", 0, 1, bytes(range(250)) * 6]), ("write_at", ["r", 0x9009, bytes(range(250)) * 6])]
    for call, given in calls:
        desk, by_line = begun("Desk"), begun("Desk")
        if bytes in map(type, given):
            for it in (desk, by_line):
                it.extend("r", 0, 2000)
        if call == "spool":
            # Its scrap file is loaded, and gone.
            for it in (desk, by_line):
                it.send("r", 17, 2, 5, 4, bytes(28))
        before = len(desk._done)
        getattr(desk, call)(*given)
        if call in NO_COMMANDS:
            expect(len(desk._done) == before, f"{call} is kept as a command")
            continue
        replies = by_line.run(b"\n".join(vervainfile._lines_of(*desk._done[-1])))
        expect(len(desk._done) == before + 1 and replies.startswith("ok"), f"{call} as a line: {replies}")
        was = [comparable(outcome_of(it.budge, "a", True)) for it in (desk, by_line)]
        is_same = state(desk)[:3] == state(by_line)[:3] and was[0] == was[1]
        expect(is_same, f"{call} and its line leave the desk otherwise")


def test_each_call_of_the_library_is_made():
    left = set(vervainfile.CALLS) - made - UNUSED
    vervainfile.version()
    expect(left == {"vf_version"} and not made & UNUSED, f"no row makes {sorted(left)}")


def main():
    """Runs all tests in their order, and gives the exit status."""
    for name, test in list(globals().items()):
        if name.startswith("test_"):
            test()
    for it in wrong[:20]:
        print(it)
    print(f"{tried - len(wrong)} passed and {len(wrong)} failed.")
    return min(len(wrong), 1)


if __name__ == "__main__":
    sys.exit(main())
