"""The calls of vervainfile's shared library, for vervainfile.py: what each takes, and how it is tested before C has it.

The library is that of $VERVAINFILE_LIBRARY, or of the clone or the prefix that this file lies in, or the one that the
system finds.
"""

import collections
import ctypes
import operator
import os

NAME = "libvervainfile.so.1"
# Where the library lies, seen from this file: in a clone, and below a prefix.
BESIDE = ("../dist/lib", "../../../lib")
BAD_LENGTH, SHORT, CLOSED, BAD_ARGUMENT = 33, 34, 43, 45
# No heap and no slot has more bytes of memory.
LONGEST = 1 << 30
MANNERS = ("", "deaf", "file", "raw")

# The name and the text of each status, as vervainfile.h has them.
STATUSES = {
    0: ("OK", "all was done"),
    1: ("NAME_IN_USE", "a live task has the name"),
    2: ("NO_NAME", "no live task has the name"),
    3: ("TOO_MANY_TASKS", "32 tasks are live"),
    4: ("NO_HANDLES", "the last handle, 4294967295, was given"),
    5: ("NO_FILE", "no file has the name"),
    6: ("NO_BLOCK", "the anchor has no block"),
    7: ("ANCHOR_IN_USE", "the anchor has a block"),
    8: ("NOT_A_BLOCK", "no block begins at the address"),
    9: ("NOT_YOURS", "the block of the module area holds a message"),
    10: ("BUSY", "a transfer uses the block, eight are going that way, or there is a scrap file"),
    11: ("NOT_OPEN", "no transfer that is meant can be given up"),
    12: ("NOTHING_SENT", "the task has sent no message"),
    13: ("BAD_RANGE", "bytes lie outside the block"),
    14: ("BAD_SIZE", "a block of a heap has at least 1 byte"),
    15: ("EXCESSIVE_SHRINK", "the heap would end below its last block, or an area lose more than it can"),
    16: ("NO_TASK", "the task at the other end is not live"),
    17: ("NO_REFS", "the last ref, 4294967295, was given"),
    18: ("QUEUE_FULL", "256 messages are live"),
    19: ("NO_BUDGE", "the C heap of a slot must grow, and budging is off"),
    20: ("NO_ROOM", "no hole is large enough, nor the top; or too few pages are free"),
    21: ("NO_AREA", "no area has the number"),
    22: ("TOO_MANY_AREAS", "32 made areas are live"),
    23: ("NO_NUMBERS", "the last number of a made area, 65535, was given"),
    24: ("TOO_BIG", "a made area would have more pages than it may"),
    25: ("WRONG_MANNER", "the task has code of its own where it may not, or has none where it must"),
    26: ("BAD_REF", "no message has the ref yet"),
    32: ("NULL", "a pointer is null"),
    33: ("BAD_LENGTH", "no heap has so many bytes: a multiple of 8, 16 to 1 GiB; or no slot; or no file"),
    34: ("SHORT", "the memory is shorter than what is in it, or than heap, map or text would be"),
    35: ("BAD_DESCRIPTOR", "the first 16 bytes are not those of a heap"),
    36: ("BAD_LINK", "a link does not lead to a hole ahead"),
    37: ("BAD_SEGMENT", "a size is not that of a segment"),
    38: ("BAD_ANCHOR", "the slot has no anchor with the number"),
    39: ("NO_SLOT", "the slot has no page: it was never started"),
    40: ("BAD_FLEX_BLOCK", "a flex block goes past the end of the slot's pages"),
    41: ("BAD_ANCHOR_WORD", "an anchor word is not 0, and leads to no flex block that names it"),
    42: ("SPARE_PAGE", "the last page of the slot holds nothing of it"),
    43: ("CLOSED", "the desk is not open"),
    44: ("OPEN", "the desk is open already"),
    45: ("BAD_ARGUMENT", "a name, an anchor, a number or a leafname is none that a line has, or a put no byte"),
    46: ("NO_MEMORY", "memory was refused"),
    47: ("FILE_EXISTS", "a file with the name was added before"),
    48: ("BAD_RECORDS", "the struct is no sender or receiver: a count above 8, a state or an anchor of none"),
    49: ("BAD_ACTION", "the struct has no action that the call is told of"),
    50: ("BAD_MESSAGE", "the action of the message is none of a file or a RAM transfer"),
}

# What each call takes, in the order of C. What a program gives has a name before its kind; any other is the module's.
# p: a pointer; b: a bool.
# z: a size_t, s one of a heap's block, l one of a memory; d: a ptrdiff_t.
# a: 32 bits without a sign for a slot; u for a desk, of which x is an address and m a manner; i: 32 bits with a sign.
# t: a text, h: bytes, r: room for so many bytes, each of which is a pointer and a size_t.
CALLS = {
    "vf_version": "",
    "vf_heap_init": "p length:l", "vf_heap_check": "p z", "vf_heap_checked_describe": "p z p p",
    "vf_heap_checked_claim": "p z n:s p", "vf_heap_checked_release": "p z address:z",
    "vf_heap_checked_resize": "p z address:z delta:d p", "vf_heap_checked_extend": "p z delta:d",
    "vf_heap_checked_block_size": "p z address:z p",
    "vf_flex_start": "p room:l p", "vf_flex_check": "p z p", "vf_flex_set_budge": "p on:b p",
    "vf_flex_checked_alloc": "p z p anchor:a n:z p", "vf_flex_checked_free": "p z p anchor:a",
    "vf_flex_checked_size": "p z p anchor:a p", "vf_flex_checked_extend": "p z p anchor:a n:z",
    "vf_flex_checked_midextend": "p z p anchor:a offset:z by:d", "vf_flex_checked_place": "p z p anchor:a p",
    "vf_flex_checked_places": "p z p p z", "vf_flex_checked_put": "p z p anchor:a offset:z data:h",
    "vf_flex_checked_read": "p z p anchor:a offset:z n:r", "vf_flex_checked_describe": "p z p p p",
    "vf_flex_checked_claim": "p z p n:s p", "vf_flex_checked_release": "p z p place:z",
    "vf_flex_checked_resize": "p z p place:z delta:d p", "vf_flex_checked_block_size": "p z p place:z p",
    "vf_flex_start_with": "p room:l p anchors:a", "vf_flex_wide_alloc": "p z p anchor:a n:z p",
    "vf_flex_wide_free": "p z p anchor:a", "vf_flex_wide_size": "p z p anchor:a p",
    "vf_flex_wide_extend": "p z p anchor:a n:z", "vf_flex_wide_midextend": "p z p anchor:a offset:z by:d",
    "vf_flex_wide_place": "p z p anchor:a p", "vf_flex_wide_places": "p z p p z",
    "vf_flex_wide_put": "p z p anchor:a offset:z data:h", "vf_flex_wide_read": "p z p anchor:a offset:z n:r",
    "vf_flex_wide_budge": "p z p n:z p",
    "vf_desk_file": "p files:t files:h", "vf_desk_file_lent": "p files:t files:h",
    "vf_desk_open": "p pages:u first_handle:u first_ref:u", "vf_desk_close": "p",
    "vf_desk_task": "p name:t buffer:u manner:m p", "vf_desk_kill": "p name:t",
    "vf_desk_save": "p name:t anchor:u to:t leaf:t p", "vf_desk_poll": "p name:t p", "vf_desk_next": "p name:t p p",
    "vf_desk_cancel_in": "p name:t id:u", "vf_desk_cancel_out": "p name:t id:u", "vf_desk_repeat": "p name:t p",
    "vf_desk_alloc": "p name:t anchor:u size:u p", "vf_desk_load": "p name:t anchor:u file:t p",
    "vf_desk_put": "p name:t anchor:u offset:u data:h", "vf_desk_free": "p name:t anchor:u",
    "vf_desk_extend": "p name:t anchor:u size:u", "vf_desk_mid": "p name:t anchor:u offset:u by:i",
    "vf_desk_claim": "p name:t size:u p", "vf_desk_release": "p name:t address:x",
    "vf_desk_resize": "p name:t address:x delta:i p", "vf_desk_budge": "p name:t on:b p",
    "vf_desk_area": "p number:u delta:i p", "vf_desk_make": "p most:u p", "vf_desk_remove": "p number:u",
    "vf_desk_rma_claim": "p size:u p", "vf_desk_rma_free": "p address:x", "vf_desk_rma_resize": "p address:x delta:i p",
    "vf_desk_show": "p name:t anchor:u n:r p", "vf_desk_blocks": "p name:t p z p", "vf_desk_heap": "p name:t p p z p",
    "vf_desk_status": "p name:t p p z p p z p", "vf_desk_areas": "p p p z p",
    "vf_desk_show_at": "p name:t anchor:u offset:u n:r p", "vf_desk_read": "p name:t address:x offset:u n:r p",
    "vf_desk_write": "p name:t address:x offset:u data:h", "vf_desk_rma_read": "p address:x offset:u n:r p",
    "vf_desk_rma_write": "p address:x offset:u data:h", "vf_desk_transfer": "p sender:u address:x to:u address2:x n:u",
    "vf_desk_take": "p name:t p p", "vf_desk_send": "p name:t code:u to:u your_ref:u action:u data:h p",
    "vf_desk_ack": "p name:t p", "vf_desk_write_at": "p name:t address:x data:h",
    "vf_desk_transfer_to": "p name:t address:x to:u place:x n:u",
    "vf_desk_spool": "p name:t anchor:u to:u your_ref:u p", "vf_desk_scrap": "p name:t anchor:u p",
    "vf_desk_line": "p text:t", "vf_desk_reply": "p p z p",
}
# Of each call what a program gives, as pairs of a name and a kind.
GIVEN = {call: [it.split(":") for it in row.split() if ":" in it] for call, row in CALLS.items()}
# The kinds that are a pointer and a size_t.
PAIRS = "thr"
# The calls by the names of Python: those of a family, and those that are named otherwise.
FAMILIES = {"vf_heap_checked_": "Heap.", "vf_flex_checked_": "Slot.", "vf_flex_wide_": "WideSlot.", "vf_desk_": "Desk."}
OTHER_NAMES = {"vf_heap_init": "Heap", "vf_flex_start": "Slot", "vf_flex_set_budge": "Slot.budge",
               "vf_flex_start_with": "WideSlot", "vf_desk_file_lent": "Desk", "vf_desk_open": "Desk"}


class Refused(Exception):
    """Why a call was not done: the number of the status, its name and its text."""

    __module__ = "vervainfile"

    def __init__(self, status):
        super().__init__(status)
        self.status = status
        # A later library may have more statuses.
        self.name, self.text = STATUSES.get(status, ("UNKNOWN", f"status {status}"))

    def __str__(self):
        return f"{self.name}: {self.text}"


# Of each kind of number: the type of C, the least and the greatest, and what a call is given for one below and for one
# above: a number that it refuses whatever else holds, or else the refusal itself.
Number = collections.namedtuple("Number", "type least most below above")
_U32, _SIZE = (1 << 32) - 1, (1 << 8 * ctypes.sizeof(ctypes.c_size_t)) - 1
_LENGTH, _ARGUMENT = Refused(BAD_LENGTH), Refused(BAD_ARGUMENT)
NUMBERS = {
    "z": Number(ctypes.c_size_t, 0, _SIZE, _SIZE, _SIZE),
    "s": Number(ctypes.c_size_t, 0, _SIZE, 0, _SIZE),
    "l": Number(ctypes.c_size_t, 0, LONGEST, _LENGTH, _LENGTH),
    "d": Number(ctypes.c_ssize_t, ~(_SIZE >> 1), _SIZE >> 1, ~(_SIZE >> 1), _SIZE >> 1),
    "a": Number(ctypes.c_uint32, 0, _U32, _U32, _U32),
    "u": Number(ctypes.c_uint32, 0, _U32, _ARGUMENT, _ARGUMENT),
    "i": Number(ctypes.c_int32, ~(_U32 >> 1), _U32 >> 1, _ARGUMENT, _ARGUMENT),
}
NUMBERS.update(r=NUMBERS["z"], x=NUMBERS["u"], m=NUMBERS["u"])
TYPES = {kind: [it.type] for kind, it in NUMBERS.items()}
TYPES.update(p=[ctypes.c_void_p], b=[ctypes.c_bool])
TYPES.update(dict.fromkeys(PAIRS, [ctypes.c_void_p, ctypes.c_size_t]))
# What each call is given, with the range of each number; that of all others is empty.
_RANGES = {kind: (NUMBERS[kind].least, NUMBERS[kind].most) if kind in set(NUMBERS) - set(PAIRS) else (1, 0)
           for kind in {*NUMBERS, *PAIRS, "b"}}
_RANGED = {call: [(*it, *_RANGES[it[1]]) for it in given] for call, given in GIVEN.items()}


def _number(kind, given):
    """A number as a call is given it."""
    number, n = NUMBERS[kind], operator.index(given)
    if isinstance(given, bool):
        raise TypeError
    if number.least <= n <= number.most:
        return n
    instead = number.below if n < number.least else number.above
    if isinstance(instead, Refused):
        raise Refused(instead.status)
    return instead


def _manner(given):
    """A manner by its word or its number."""
    if not isinstance(given, str):
        return _number("m", given)
    if given not in MANNERS[1:]:
        raise Refused(BAD_ARGUMENT)
    return MANNERS.index(given)


def _bytes(given):
    """The bytes of a text, or of what has some."""
    if isinstance(given, str):
        return given.encode()
    return given if isinstance(given, bytes) else memoryview(given).tobytes()


def _flag(given):
    """What is True or False, and nothing that stands for it."""
    if not isinstance(given, bool):
        raise TypeError
    return given


VALUES = {"t": _bytes, "h": _bytes, "m": _manner, "b": _flag}
WANTED = {"t": "a str or bytes", "h": "a str or bytes", "m": "an int or a word", "b": "True or False"}


def _named(call):
    """The name that a call has in Python."""
    family = next(it for it in FAMILIES if call.startswith(it)) if call not in OTHER_NAMES else ""
    return OTHER_NAMES.get(call) or FAMILIES[family] + call.removeprefix(family)


def argument(call, name, kind, given):
    """One argument as a call is given it: what a program gives goes by here, and nowhere else, to C."""
    try:
        return VALUES[kind](given) if kind in VALUES else _number(kind, given)
    except TypeError:
        wanted = f"{WANTED.get(kind, 'an int')}, not {type(given).__name__!r}"
        raise TypeError(f"{_named(call)}: argument `{name}`: {wanted}") from None
    except UnicodeEncodeError:
        raise ValueError(f"{_named(call)}: argument `{name}`: half of a surrogate pair is no text") from None


def arguments(call, given, longest=0):
    """All arguments of a call, and what C is handed for them; no room is longer than one byte more than `longest`."""
    values, handed = [], []
    for (name, kind, least, most), it in zip(_RANGED[call], given):
        # Most arguments are plain numbers, of which there is no more to test.
        if type(it) is not int or not least <= it <= most:
            it = argument(call, name, kind, it)
        if kind == "r":
            it = (ctypes.c_uint8 * min(it, longest + 1))()
        values.append(it)
        handed.append(it)
        if kind in PAIRS:
            handed.append(len(it))
    return values, handed


def _loaded():
    """The library. A call of it keeps the interpreter's lock, so that no other thread writes to what C looks at."""
    here = os.path.dirname(os.path.realpath(__file__))
    places = [os.path.join(here, it, NAME) for it in BESIDE]
    path = os.environ.get("VERVAINFILE_LIBRARY") or next(filter(os.path.isfile, places), NAME)
    library = ctypes.PyDLL(path)
    for name, row in CALLS.items():
        call, kinds = getattr(library, name), [it.rpartition(":")[2] for it in row.split()]
        call.argtypes, call.restype = [it for kind in kinds for it in TYPES[kind]], ctypes.c_uint32
    return library


LIBRARY = _loaded()


def do(call, *handed):
    """Makes a call, and raises Refused where it isn't done."""
    status = getattr(LIBRARY, call)(*handed)
    if status:
        raise Refused(status)
