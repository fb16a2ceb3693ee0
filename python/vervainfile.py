"""Heaps, flex slots and desks by the rules of RISC OS, over the shared library of vervainfile.

    >>> with Desk(pages=64) as desk:
    ...     desk.task("a", 100), desk.task("b", 4)
    ...     hex(desk.alloc("a", 0, 5))
    ...     desk.put("a", 0, 0, b"hello")
    ...     desk.save("a", 0, "b", "letter")
    ...     [desk.poll(name).did for name in "babab"]
    ...     desk.show("b", 0)
    (1, 2)
    '0x9008'
    1
    ['fetch', 'send', 'take', 'send', 'take_last']
    b'hello'

A call that is refused raises `Refused`, with the status's number, name and text, and has changed nothing. No number is
cut: one for which C has no room is refused as another one out of the call's range. A number is an int, or what stands
for one as numpy's do, and no bool. Bytes are a str in UTF-8, or anything that has bytes. TypeError says which argument
has a wrong type. Any thread may call: the calls on an object run one after the other. An object is neither copied nor
pickled.

vervainfile_calls.py, which lies next to this file, finds the library. A notebook shows a desk as its picture, which the
program `vervainfile` draws: that of $VERVAINFILE_PROGRAM, or of the clone or the prefix, or the first on the path.
docs/C.md and docs/DESK.md of vervainfile say what each call does.
"""

import collections
import ctypes
import os
import re
import shutil
import subprocess
import tempfile
import threading

import vervainfile_calls as _calls
from vervainfile_calls import BAD_ARGUMENT, CALLS, CLOSED, GIVEN, LIBRARY, MANNERS, SHORT, STATUSES, Refused

# Where the program lies that draws, seen from this file: in a clone, and below a prefix.
PROGRAM, PROGRAMS = "vervainfile", ("../dist/vervainfile", "../../../bin/vervainfile")
# A desk that has taken more commands has no picture. So many bytes are spelled in one line of a script.
MOST_DRAWN, SPELLED = 10_000, 480

ANCHORS, PAGE = 64, 4096
PLAIN, DEAF, FILE, RAW = range(4)
DID = ("nothing", "fetch", "send", "refuse", "fail", "drain", "take_last", "take", "take_and_fail", "ask", "save",
       "load", "load_and_fail", "finish", "hand_out")
STATES = ("open", "fetching", "draining", "asking", "done", "failed")

Free = collections.namedtuple("Free", "most free")
Event = collections.namedtuple("Event", "code action my_ref your_ref did count sent refusal")
Message = collections.namedtuple("Message", "code bytes")
Block = collections.namedtuple("Block", "anchor address size")
Segment = collections.namedtuple("Segment", "address size used")
Sums = collections.namedtuple("Sums", "length largest free")
Record = collections.namedtuple("Record", "state id count")
Area = collections.namedtuple("Area", "number pages name")
Status = collections.namedtuple("Status", "handle outgoing incoming")


def _struct(*fields):
    return type("_Struct", (ctypes.Structure,), {"_fields_": list(fields)})


def _words(names):
    return [(name, ctypes.c_uint32) for name in names.split()]


_Slot = _struct(("pages", ctypes.c_size_t), ("budge", ctypes.c_bool), ("slides", ctypes.c_uint32))
_WideSlot = _struct(("base", ctypes.c_size_t), ("top", ctypes.c_size_t), ("anchors", ctypes.c_uint32),
                    ("slides", ctypes.c_uint32))
_Desk = _struct(("at", ctypes.c_void_p), ("live", ctypes.c_bool))
_Event = _struct(*_words("code action my_ref your_ref did count sent refusal"))
_Block = _struct(*_words("anchor address size"))
_Segment = _struct(*_words("address size"), ("used", ctypes.c_bool))
_Sums = _struct(*_words("length largest free"))
_Record = _struct(*_words("state id count"))
_Area = _struct(*_words("number pages"), ("name", ctypes.c_uint8 * 13))


def version():
    """The version of the library, as its three numbers."""
    number = LIBRARY.vf_version()
    return number // 10_000, number // 100 % 100, number % 100


class _Own:
    """What has memory of its own: one thread at a time uses it, and a copy would be the same memory."""

    def __init__(self):
        self._lock = threading.RLock()

    def __reduce_ex__(self, protocol):
        raise TypeError(f"{type(self).__name__}: is neither copied nor pickled")


class _Memory(_Own):
    """Bytes in which a heap or a slot lies."""

    def __init__(self, memory):
        super().__init__()
        try:
            self._at = (ctypes.c_uint8 * memoryview(memory).nbytes).from_buffer(memory)
        except TypeError:
            wanted = f"bytes in one piece that may be written, not {type(memory).__name__!r}"
            raise TypeError(f"Heap.of: argument `memory`: {wanted}") from None
        self._memory = memory
        # What each call is lent: the bytes, and of a slot its struct.
        self._lent = (self._at, len(self._at))

    @property
    def memory(self):
        """The bytes themselves."""
        return self._memory

    def _call(self, name, *given, told=()):
        """Makes a call of the family, and gives its arguments as it has them."""
        call = self._FAMILY + name
        values, handed = _calls.arguments(call, given, len(self._at))
        with self._lock:
            _calls.do(call, *self._lent, *handed, *told)
        return values

    def _tell(self, name, *given):
        """The same of a call that tells a number."""
        number = ctypes.c_size_t()
        self._call(name, *given, told=(ctypes.byref(number),))
        return number.value

    def _describe(self):
        most, free = ctypes.c_size_t(), ctypes.c_size_t()
        self._call("describe", told=(ctypes.byref(most), ctypes.byref(free)))
        return Free(most.value, free.value)

    def _check(self, call):
        with self._lock:
            _calls.do(call, *self._lent)

    def bytes_at(self, address, size):
        """A view of bytes, to be read and written: `heap.bytes_at(20, 5)[:] = b"hello"`."""
        call = self._FAMILY + "bytes_at"
        address, size = _calls.argument(call, "address", "z", address), _calls.argument(call, "size", "z", size)
        if address + size > len(self._at):
            raise IndexError("outside of the memory")
        return memoryview(self._memory).cast("B")[address:address + size]


class Heap(_Memory):
    """A heap by the rules of OS_Heap, in `length` bytes of its own, or more where it is to grow; every call checks it.

    >>> heap = Heap(3840)
    >>> heap.claim(10), heap.claim(10), heap.claim(10)
    (20, 36, 52)
    >>> heap.release(36)
    >>> heap.claim(12), heap.claim(13), heap.block_size(68)
    (36, 68, 20)
    >>> heap.describe()
    Free(most=3748, free=3752)
    >>> heap.release(24)
    Traceback (most recent call last):
    vervainfile.Refused: NOT_A_BLOCK: no block begins at the address
    >>> heap.bytes_at(20, 5)[:] = b"hello"
    >>> heap.resize(20, 8)
    92
    >>> bytes(heap.bytes_at(92, 5)), Heap.of(bytearray(heap.memory)).block_size(92)
    (b'hello', 20)
    """

    _FAMILY = "vf_heap_checked_"

    def __init__(self, length, room=None):
        (length,), handed = _calls.arguments("vf_heap_init", [length])
        room = length if room is None else _calls.argument("vf_heap_init", "room", "l", room)
        super().__init__(bytearray(max(length, room)))
        _calls.do("vf_heap_init", self._at, *handed)

    @classmethod
    def of(cls, memory):
        """The heap that lies in these bytes, a bytearray or a map of a file; Refused where they are none."""
        heap = cls.__new__(cls)
        _Memory.__init__(heap, memory)
        heap.check()
        return heap

    def check(self):
        """Refused where the bytes are no heap."""
        self._check("vf_heap_check")

    def describe(self):
        """OS_Heap 1: the largest block that could be claimed, and all free bytes."""
        return self._describe()

    def claim(self, n):
        """OS_Heap 2: the address of a new block, all 0."""
        return self._tell("claim", n)

    def release(self, address):
        """OS_Heap 3."""
        self._call("release", address)

    def resize(self, address, delta):
        """OS_Heap 4: gives a block more bytes, or fewer, and tells where it is then."""
        return self._tell("resize", address, delta)

    def extend(self, delta):
        """OS_Heap 5: moves the heap's end, within its room."""
        self._call("extend", delta)

    def block_size(self, address):
        """OS_Heap 6: how many bytes a block has."""
        return self._tell("block_size", address)


class _Flex(_Memory):
    """What a slot and a wide slot have alike: flex blocks that slide."""

    def _begin(self, call, slot, room, *anchors):
        """Makes the memory, and begins with no block."""
        (room, *_), (_, *handed) = _calls.arguments(call, [room, *anchors])
        super().__init__(bytearray(room))
        self._slot = slot
        self._lent += (ctypes.byref(slot),)
        _calls.do(call, *self._lent, *handed)

    @property
    def slides(self):
        """How many calls have moved a block: a place holds as long as this number does."""
        return self._slot.slides

    def alloc(self, anchor, n):
        """flex_alloc: the place of a new block, all 0."""
        return self._tell("alloc", anchor, n)

    def free(self, anchor):
        """flex_free."""
        self._call("free", anchor)

    def size(self, anchor):
        """flex_size."""
        return self._tell("size", anchor)

    def extend(self, anchor, n):
        """flex_extend."""
        self._call("extend", anchor, n)

    def midextend(self, anchor, offset, by):
        """flex_midextend."""
        self._call("midextend", anchor, offset, by)

    def place(self, anchor):
        """Where the anchor's block stands now."""
        return self._tell("place", anchor)

    def _places(self, count):
        places = (ctypes.c_size_t * count)()
        with self._lock:
            _calls.do(self._FAMILY + "places", *self._lent, places, count)
        return {anchor: place for anchor, place in enumerate(places) if place}

    def put(self, anchor, offset, data):
        """Writes bytes into the anchor's block."""
        self._call("put", anchor, offset, data)

    def read(self, anchor, offset, n):
        """`n` bytes of the anchor's block."""
        return bytes(self._call("read", anchor, offset, n)[-1])


class Slot(_Flex):
    """A slot of 64 anchors, a C heap and flex blocks that slide, in `room` bytes of its own; every call checks it.

    >>> slot = Slot(16 * 4096)
    >>> slot.alloc(0, 5), slot.alloc(1, 5)
    (4104, 4120)
    >>> slot.put(1, 0, b"world")
    >>> slot.free(0)
    >>> slot.place(1), slot.read(1, 0, 5), slot.slides
    (4104, b'world', 1)
    >>> slot.midextend(1, 2, -2)
    >>> slot.size(1), slot.read(1, 0, 3), slot.claim(4000), slot.place(1), slot.pages, slot.slides
    (3, b'rld', 276, 8200, 3, 2)
    >>> slot.budge(False)
    True
    >>> slot.claim(4096)
    Traceback (most recent call last):
    vervainfile.Refused: NO_BUDGE: the C heap of a slot must grow, and budging is off
    """

    _FAMILY = "vf_flex_checked_"

    def __init__(self, room):
        self._begin("vf_flex_start", _Slot(), room)

    @property
    def pages(self):
        """How many pages the slot has."""
        return self._slot.pages

    def check(self):
        """Refused where the bytes are no slot."""
        self._check("vf_flex_check")

    def budge(self, on):
        """flex_set_budge: whether blocks slide where the C heap must grow; tells whether they did."""
        was, (_, handed) = ctypes.c_bool(), _calls.arguments("vf_flex_set_budge", [on])
        with self._lock:
            _calls.do("vf_flex_set_budge", ctypes.byref(self._slot), *handed, ctypes.byref(was))
        return was.value

    def places(self):
        """Where the block of each anchor that has one stands now."""
        return self._places(ANCHORS)

    def describe(self):
        """OS_Heap 1 of the C heap."""
        return self._describe()

    def claim(self, n):
        """OS_Heap 2: the place of a new block of the C heap."""
        return self._tell("claim", n)

    def release(self, place):
        """OS_Heap 3."""
        self._call("release", place)

    def resize(self, place, delta):
        """OS_Heap 4."""
        return self._tell("resize", place, delta)

    def block_size(self, place):
        """OS_Heap 6."""
        return self._tell("block_size", place)


class WideSlot(_Flex):
    """Flex blocks of 64 to 4,096 anchors that slide, in `room` bytes of its own.

    No call checks the bytes: write to nothing of `memory` but blocks, and what `budge` gave.

    >>> slot = WideSlot(40000, 4096)
    >>> slot.alloc(4095, 5), slot.alloc(7, 0)
    (32768, 32776)
    >>> slot.put(4095, 0, b"hello")
    >>> slot.extend(4095, 9)
    >>> slot.place(7), slot.read(4095, 0, 6), slot.slides
    (32784, b'hello\\x00', 1)
    """

    _FAMILY = "vf_flex_wide_"

    def __init__(self, room, anchors):
        self._begin("vf_flex_start_with", _WideSlot(), room, anchors)

    @property
    def room(self):
        """How many bytes are free."""
        return len(self._at) - self._slot.top

    def places(self):
        """Where the block of each anchor that has one stands now."""
        return self._places(self._slot.anchors)

    def budge(self, n):
        """flex_budge: the place of `n` bytes below the blocks, which slide up."""
        return self._tell("budge", n)


def _drawing_program():
    """The path of the program that draws, or None."""
    here = os.path.dirname(os.path.realpath(__file__))
    places = [os.path.join(here, it) for it in PROGRAMS]
    beside = next(filter(os.path.isfile, places), None)
    return shutil.which(os.environ.get("VERVAINFILE_PROGRAM") or beside or PROGRAM)


# How an argument is spelled in a line, and the commands whose calls have other names.
_SPELLED = {"t": bytes, "h": lambda it: it.hex().encode(), "x": lambda it: b"&%X" % it,
            "m": lambda it: MANNERS[it].encode(), "b": lambda it: b"on" if it else b"off"}
_COMMANDS = {"take": "poll", "transfer_to": "transfer", "write_at": "write"}


def _lines_of(name, values):
    """The lines of a script for a command with such arguments: one that writes many bytes takes several."""
    if name == "line":
        return values
    if name in ("put", "write_at") and len(values[-1]) > SPELLED:
        *first, offset, data = values
        pieces = [(offset + at, data[at:at + SPELLED]) for at in range(0, len(data), SPELLED)]
        return [line for piece in pieces for line in _lines_of(name, [*first, *piece])]
    kinds = [kind for _, kind in GIVEN[f"vf_desk_{name}"]]
    words = [_SPELLED.get(kind, lambda it: b"%d" % it)(it) for kind, it in zip(kinds, values)]
    first, *second = _COMMANDS.get(name, name).encode().split(b"_")
    if first == b"cancel":
        words = [words[0], *second, words[1] if values[1] else b""]
        second = []
    return [b" ".join(it for it in [first, *second, *words] if it)]


# What of a sheet is its figure: values by name, rules for figures, what they refer to, and the last figure's pieces.
_VALUE = re.compile(r"(--\w+): ([^;]+);")
_VALUED = re.compile(r"var\((--\w+)\)")
_RULES = re.compile(r"/\* figures \*/(.*)", re.DOTALL)
_RULE = re.compile(r"^([^@{}/\n]+) (\{.*\})$", re.MULTILINE)
_DEFS = re.compile(r"<defs>.*?</defs>", re.DOTALL)
_GRID, _GRID_USED = re.compile(r'<g id="grid">.*?</g>\n', re.DOTALL), '<use href="#grid"/>\n'
_FIGURE = re.compile(r'<div class="memory">\n(.*?)</div>', re.DOTALL)
_PIECE = re.compile(r'<h3>(.*?)</h3>|(<svg viewBox="0 0 (\d+) (\d+)" .*?</svg>)', re.DOTALL)
_TAG = re.compile(r"<.*?>")
_FONT = "font-family: 'DejaVu Sans Mono', 'Liberation Mono', Menlo, Consolas, monospace"


def _rules_of(sheet):
    """The sheet's rules for figures on a light page, for a picture of the class `desk` alone."""
    light = sheet.partition("@media")[0]
    values = {name: " ".join(value.split()) for name, value in _VALUE.findall(light)}
    valued = _RULES.search(light)[1]
    while _VALUED.search(valued):
        valued = _VALUED.sub(lambda it: values[it[1]], valued)
    rules = [(names.split(", "), rule) for names, rule in _RULE.findall(valued)]
    kept = [(names, rule) for names, rule in rules if names[0] not in ("svg", ".defs")]
    return "\n".join(", ".join(f".desk {it}" for it in names) + f" {rule}" for names, rule in kept)


def _svg_of(sheet):
    """The last figure of a sheet, as one picture: its pieces one below the other."""
    top, wide, pieces = 0, 0, []
    for heading, drawn, width, height in _PIECE.findall(_FIGURE.findall(sheet)[-1]):
        if heading:
            top += 40
            pieces.append(f'<text class="side" x="0" y="{top - 10}">{_TAG.sub("", heading)}</text>')
        else:
            pieces.append(drawn.replace("<svg ", f'<svg y="{top}" width="{width}" height="{height}" ', 1))
            top, wide = top + int(height) + 4, max(wide, int(width))
    style = f"<style>.desk text {{ {_FONT} }}\n{_rules_of(sheet)}</style>"
    head = f'<svg xmlns="http://www.w3.org/2000/svg" class="desk" viewBox="0 0 {wide} {top}">'
    # The pool's squares stand where they are used: a rule for what lies in a `desk` doesn't hold of what is used there.
    defs, grid = _DEFS.search(sheet)[0], _GRID.search(sheet)[0]
    picture = "\n".join([head, style, defs.replace(grid, ""), *pieces, "</svg>"])
    return picture.replace(_GRID_USED, grid)


class Desk(_Own):
    """A desk of some pages, with named files that tasks can load. `with` closes it at its end.

    >>> desk = Desk(pages=8, files={"f": bytes([1, 2, 3])})
    >>> desk.line("task a 100"), desk.line("load a 0 f"), desk.line("tsk a")
    ('ok 1', 'ok &9008', 'bad Unknown')
    >>> desk.blocks("a"), desk.show("a", 0), desk.claim("a", 10) == 0x8114
    ([Block(anchor=0, address=36872, size=3)], b'\\x01\\x02\\x03', True)
    >>> desk.heap("a")
    (Sums(length=3840, largest=3804, free=3808), [Segment(address=33044, size=12, used=True)])
    >>> desk.areas()[1][1], desk.status("a")
    (Area(number=1, pages=1, name=''), Status(handle=1, outgoing=[], incoming=[]))
    >>> desk.poll("a")
    Event(code=0, action=0, my_ref=0, your_ref=0, did='nothing', count=0, sent=0, refusal='')
    >>> desk.alloc("a", 0, 1)
    Traceback (most recent call last):
    vervainfile.Refused: ANCHOR_IN_USE: the anchor has a block
    >>> re.findall("<title>((?:used|flex).*?)</title>", desk._repr_svg_())
    ['used &amp;8114, 12 bytes', 'flex block 0, &amp;9008, 3 bytes']
    >>> desk.close()
    >>> desk.areas()
    Traceback (most recent call last):
    vervainfile.Refused: CLOSED: the desk is not open
    """

    def __init__(self, pages=64, files=None, first_handle=1, first_ref=1):
        super().__init__()
        # The desk reads the bytes of its files where they lie: this object keeps them.
        self._desk, self._pages, self._files, self._done = _Desk(), 0, [], None
        files = {} if files is None else files
        if not hasattr(files, "items"):
            raise TypeError(f"Desk: argument `files`: a dict, not {type(files).__name__!r}")
        for file in files.items():
            self._files.append(self._call("file_lent", *file))
        self._pages, *firsts = self._call("open", pages, first_handle, first_ref)
        # All commands so far, of which the picture is drawn: the program begins with handle and ref 1.
        self._done = [] if firsts == [1, 1] else None

    def __enter__(self):
        return self

    def __exit__(self, *_):
        self.close()

    def __del__(self):
        self.close()

    def close(self):
        """Gives all memory back. A desk that is closed stays so."""
        self._call("close")

    def _call(self, name, *given, told=(), is_command=False):
        """Makes a call, and gives its arguments as it has them. Those of a command are kept."""
        call = f"vf_desk_{name}"
        try:
            values, handed = _calls.arguments(call, given, self._pages * PAGE)
        except Refused:
            # A desk that isn't open refuses each call by that, but the one that opens it.
            raise Refused(BAD_ARGUMENT if name == "open" or self._desk.live else CLOSED) from None
        with self._lock:
            _calls.do(call, ctypes.byref(self._desk), *handed, *told)
            if is_command:
                self._keep(name, values)
        return values

    def _do(self, name, *given, told=()):
        """Makes the call of a command."""
        self._call(name, *given, told=told, is_command=True)

    def _tell(self, name, *given):
        """The same of a command that tells a number."""
        number = ctypes.c_uint32()
        self._do(name, *given, told=[ctypes.byref(number)])
        return number.value

    def _keep(self, name, values):
        # A line without words and a remark are no commands, and what has a line feed in it is no line of a script.
        words = values[0].lstrip(b" ") if name == "line" else b"command"
        if self._done is None or words[:1] in (b"", b"#") or b"\n" in words:
            return
        self._done.append((name, values))
        if len(self._done) > MOST_DRAWN:
            self._done = None

    def _repr_svg_(self):
        """The picture of all memory as it is, for a notebook, with what the last command has changed.

        None where no program that draws is found, after more than 10,000 commands, and where the first handle or ref
        isn't 1.
        """
        program = _drawing_program()
        with self._lock:
            if self._done is None or not program:
                return None
            lines = [line for command in self._done for line in _lines_of(*command)] or [b"areas"]
        script = b"\n".join([*lines[:-1], b"#picture", lines[-1], b""])
        with tempfile.TemporaryDirectory(prefix="vervainfile-") as folder:
            words = []
            for number, (name, data) in enumerate(self._files):
                with open(os.path.join(folder, str(number)), "wb") as it:
                    it.write(data)
                words.append(f"{name.decode()}={it.name}")
            made = [program, "draw", "--marked", "--pages", str(self._pages), "-", *words]
            sheet = subprocess.run(made, input=script, capture_output=True, check=False).stdout.decode()
        return _svg_of(sheet) if _FIGURE.search(sheet) else None

    def line(self, text):
        """Takes a line of a script, and gives its reply, without the line feed at its end."""
        with self._lock:
            self._do("line", text)
            return self._reply()

    def _reply(self):
        room, length = 4096, ctypes.c_size_t()
        while True:
            to = (ctypes.c_uint8 * room)()
            try:
                self._call("reply", told=[to, room, ctypes.byref(length)])
                return ctypes.string_at(to, length.value).decode("ascii").removesuffix("\n")
            except Refused as why:
                if why.status != SHORT:
                    raise
            room *= 2

    def run(self, script):
        """Takes all lines of a script, and gives the replies, a line for each. Line feeds alone part lines."""
        lines = _calls.argument("vf_desk_run", "script", "t", script).split(b"\n")
        return "\n".join(filter(None, map(self.line, lines)))

    def task(self, name, buffer, manner=PLAIN):
        """Wimp_Initialise: starts a task, PLAIN, DEAF, FILE or RAW, or "deaf", "file", "raw"; tells its handle."""
        return self._tell("task", name, buffer, manner)

    def kill(self, name):
        """Wimp_CloseDown."""
        self._do("kill", name)

    def save(self, name, anchor, to, leaf):
        """Message_DataSave: offers a block to another task, and tells the id of the transfer."""
        return self._tell("save", name, anchor, to, leaf)

    def poll(self, name):
        """Wimp_Poll: takes the task's next message, does what it asks for, and tells both."""
        event = _Event()
        self._do("poll", name, told=[ctypes.byref(event)])
        told = Event(*(getattr(event, it) for it in Event._fields))
        return told._replace(did=DID[event.did], refusal=Refused(event.refusal).name if event.refusal else "")

    def next(self, name):
        """The message that the task's next poll would take, as its code and its block."""
        return self._block("next", name)

    def take(self, name):
        """Wimp_Poll of a RAW task: takes its next message, and tells its code and its block."""
        return self._block("take", name)

    def _block(self, call, name):
        message, code = (ctypes.c_uint8 * 256)(), ctypes.c_uint32()
        self._call(call, name, told=[message, ctypes.byref(code)], is_command=call == "take")
        return Message(code.value, bytes(message[:message[0] | message[1] << 8] if code.value else b""))

    def send(self, name, code, to, your_ref, action, data=b""):
        """Wimp_SendMessage of a RAW task: 17 or 18, to a task by its handle; tells the message's ref."""
        return self._tell("send", name, code, to, your_ref, action, data)

    def ack(self, name):
        """Wimp_SendMessage with 19 of a RAW task: the ref of the message that it held, 0 for none."""
        return self._tell("ack", name)

    def write_at(self, name, address, data):
        """Writes bytes at an address of a RAW task, as its code would store them."""
        self._do("write_at", name, address, data)

    def transfer_to(self, name, address, to, place, n):
        """Wimp_TransferBlock of a RAW task: moves bytes to a place that another task opened."""
        self._do("transfer_to", name, address, to, place, n)

    def spool(self, name, anchor, to, your_ref):
        """Message_DataLoad of a RAW task: makes a block the scrap file, and tells the message's ref."""
        return self._tell("spool", name, anchor, to, your_ref)

    def scrap(self, name, anchor):
        """The address of a new block with the scrap file's bytes, whose message a RAW task holds."""
        return self._tell("scrap", name, anchor)

    def cancel_in(self, name, id=0):
        """Gives up a transfer that comes in, the first one for 0."""
        self._do("cancel_in", name, id)

    def cancel_out(self, name, id=0):
        """Gives up a transfer that goes out, the first one for 0."""
        self._do("cancel_out", name, id)

    def repeat(self, name):
        """Sends the task's last message once more, and tells its new ref."""
        return self._tell("repeat", name)

    def alloc(self, name, anchor, size):
        """flex_alloc: the address of a new block, all 0."""
        return self._tell("alloc", name, anchor, size)

    def load(self, name, anchor, file):
        """flex_alloc with a file's bytes."""
        return self._tell("load", name, anchor, file)

    def put(self, name, anchor, offset, data):
        """Writes bytes into a block."""
        self._do("put", name, anchor, offset, data)

    def free(self, name, anchor):
        """flex_free."""
        self._do("free", name, anchor)

    def extend(self, name, anchor, size):
        """flex_extend."""
        self._do("extend", name, anchor, size)

    def mid(self, name, anchor, offset, by):
        """flex_midextend."""
        self._do("mid", name, anchor, offset, by)

    def claim(self, name, size):
        """OS_Heap 2: the address of a new block of the task's C heap."""
        return self._tell("claim", name, size)

    def release(self, name, address):
        """OS_Heap 3."""
        self._do("release", name, address)

    def resize(self, name, address, delta):
        """OS_Heap 4: where the block is then."""
        return self._tell("resize", name, address, delta)

    def budge(self, name, on):
        """flex_set_budge: whether budging was on."""
        was = ctypes.c_bool()
        self._do("budge", name, on, told=[ctypes.byref(was)])
        return was.value

    def area(self, number, delta):
        """OS_ChangeDynamicArea: the bytes that were moved."""
        return self._tell("area", number, delta)

    def make(self, most):
        """OS_DynamicArea 0: the number of a new area."""
        return self._tell("make", most)

    def remove(self, number):
        """OS_DynamicArea 1."""
        self._do("remove", number)

    def rma_claim(self, size):
        """OS_Module 6: the address of a new block of the module area."""
        return self._tell("rma_claim", size)

    def rma_free(self, address):
        """OS_Module 7."""
        self._do("rma_free", address)

    def rma_resize(self, address, delta):
        """OS_Module 13: where the block is then."""
        return self._tell("rma_resize", address, delta)

    def show(self, name, anchor):
        """The bytes of a block."""
        size = ctypes.c_uint32()
        with self._lock:
            self._call("show", name, anchor, 0, told=[ctypes.byref(size)])
            return self._read("show", name, anchor, size.value)

    def show_at(self, name, anchor, offset, n):
        """`n` bytes of the anchor's block from an offset on."""
        return self._read("show_at", name, anchor, offset, n)

    def read(self, name, address, offset, n):
        """`n` bytes from an offset on of the block at an address of the task's slot."""
        return self._read("read", name, address, offset, n)

    def write(self, name, address, offset, data):
        """Writes bytes into the block at an address of the task's slot."""
        self._call("write", name, address, offset, data)

    def rma_read(self, address, offset, n):
        """`n` bytes from an offset on of the block at an address of the module area."""
        return self._read("rma_read", address, offset, n)

    def rma_write(self, address, offset, data):
        """Writes bytes into the block at an address of the module area."""
        self._call("rma_write", address, offset, data)

    def transfer(self, sender, address, to, address2, n):
        """Wimp_TransferBlock: moves bytes between the slots of tasks, told by their handles."""
        self._call("transfer", sender, address, to, address2, n)

    def _read(self, call, *given):
        """What a call fills its room with, which is given last."""
        return bytes(self._call(call, *given, told=[ctypes.byref(ctypes.c_uint32())])[-1])

    def _list(self, kind, call, *given, told=()):
        """All items of a list: the call is made with a longer array as often as need be."""
        length, count = 0, ctypes.c_size_t(64)
        with self._lock:
            while count.value > length:
                length = count.value
                array = (kind * length)()
                self._call(call, *given, told=[*told, array, length, ctypes.byref(count)])
        return [[getattr(it, name) for name, _ in kind._fields_] for it in array[:count.value]]

    def blocks(self, name):
        """The task's flex blocks from below."""
        return [Block(*it) for it in self._list(_Block, "blocks", name)]

    def heap(self, name):
        """The sums over the task's C heap, and its segments from below."""
        sums = _Sums()
        found = self._list(_Segment, "heap", name, told=[ctypes.byref(sums)])
        return Sums(sums.length, sums.largest, sums.free), [Segment(*it) for it in found]

    def status(self, name):
        """The task's handle, and the records of its transfers each way."""
        handle, outs, ins = ctypes.c_uint32(), ctypes.c_size_t(), ctypes.c_size_t()
        outgoing, incoming = (_Record * 8)(), (_Record * 8)()
        self._call("status", name, told=[ctypes.byref(handle), outgoing, 8, ctypes.byref(outs), incoming, 8,
                                         ctypes.byref(ins)])
        lists = (outgoing[:outs.value], incoming[:ins.value])
        return Status(handle.value, *([Record(STATES[it.state], it.id, it.count) for it in them] for them in lists))

    def areas(self):
        """How many pages are free, and all areas and slots."""
        free = ctypes.c_uint32()
        found = self._list(_Area, "areas", told=[ctypes.byref(free)])
        return free.value, [Area(number, pages, bytes(name).rstrip(b"\0").decode()) for number, pages, name in found]
