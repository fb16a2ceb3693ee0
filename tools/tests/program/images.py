"""Bytes that are checked: heaps and slots as long as may be, and such with one fault near the end."""

import os
import pathlib
import struct

from suite import LONGEST_FILE


def heap_of(sizes, freed):
    """A heap's bytes by the rules of OS_Heap: used blocks of these sizes in bytes, and holes in place of those freed."""
    base, segments = 16, []
    for number, size in enumerate(sizes):
        segments.append((base, size, number in freed))
        base += size
    image = bytearray(base)
    holes = [it for it in segments if it[2]]
    link_at = 4
    for at, size, is_hole in segments:
        if is_hole:
            struct.pack_into("<II", image, at, 0, size)
            struct.pack_into("<I", image, link_at, at - link_at)
            link_at = at
        else:
            struct.pack_into("<I", image, at, size)
            image[at + 4 : at + size] = bytes((at + it) % 251 for it in range(size - 4))
    end = base + 24
    image += bytes(end - base)
    struct.pack_into("<4s", image, 0, b"Heap")
    struct.pack_into("<II", image, 8, base, end)
    used = [size for _, size, is_hole in segments if not is_hole]
    sums = f"ok {len(used)} {sum(used)} {len(holes)} {sum(it[1] for it in holes)} {end - base}\n"
    return bytes(image), sums.encode(), segments


def test_long_heaps(suite):
    """A heap of more than one piece of 64 KiB is looked at to its end."""
    sizes = [16 + 8 * (number % 50) for number in range(3000)]
    image, sums, segments = heap_of(sizes, set(range(1, 2999, 2)))
    for name, bytes_of, said, status in [
        ("long.heap", image, sums, 0),
        ("cut.heap", image[:-1], b"bad BadDescriptor\n", 1),
        ("more.heap", image + b"\0", b"bad BadDescriptor\n", 1),
    ]:
        pathlib.Path(name).write_bytes(bytes_of)
        suite.ends(f"check {name}", ["check", name], said, b"", status)
    at, _, _ = segments[2998]
    pathlib.Path("size.heap").write_bytes(image[:at] + struct.pack("<I", 6) + image[at + 4 :])
    suite.ends("check of a bad size near the end", ["check", "size.heap"], b"bad BadSize\n", b"", 1)
    at, _, _ = segments[2997]
    pathlib.Path("link.heap").write_bytes(image[:at] + struct.pack("<I", 2) + image[at + 4 :])
    suite.ends("check of a bad link near the end", ["check", "link.heap"], b"bad BadLink\n", b"", 1)


def slot_of(pages, sizes):
    """A slot's bytes by the rules of flex: an empty C heap of 3,840 bytes, and blocks of these sizes above it."""
    image = bytearray(4096 * pages)
    struct.pack_into("<4s3I", image, 256, b"Heap", 0, 16, 3840)
    at = 4096
    for anchor, size in enumerate(sizes):
        struct.pack_into("<I", image, 4 * anchor, 0x8000 + at + 8)
        struct.pack_into("<II", image, at, 0x8000 + 4 * anchor, size)
        image[at + 8 : at + 8 + size] = bytes((at + it) % 251 for it in range(size))
        at += 8 + (size + 3) // 4 * 4
    return bytes(image), f"ok {len(sizes)} {sum(sizes)} 3840 {len(image) - at}\n".encode(), at


def test_slots(suite):
    """A slot of up to as many pages as a file has room for is looked at to its end."""
    sizes = [*range(63), LONGEST_FILE - 4096 - 63 * 8 - sum((it + 3) // 4 * 4 for it in range(63)) - 8]
    image, sums, end = slot_of(LONGEST_FILE // 4096, sizes)
    assert end == len(image)
    last = struct.unpack_from("<I", image, 4 * 63)[0] - 0x8000 - 8
    for name, bytes_of, said, status in [
        ("whole.slot", image, sums, 0),
        ("cut.slot", image[:-1], b"bad BadLength\n", 1),
        ("short.slot", image[:-4096], b"bad BadSize\n", 1),
        ("size.slot", image[: last + 4] + struct.pack("<I", sizes[-1] + 1) + image[last + 8 :], b"bad BadSize\n", 1),
        ("word.slot", image[:last] + struct.pack("<I", 0x8000) + image[last + 4 :], b"bad BadAnchor\n", 1),
        ("heap.slot", image[:256] + b"heap" + image[260:], b"bad BadHeap BadDescriptor\n", 1),
        ("empty.slot", slot_of(1, [])[0], b"ok 0 0 3840 0\n", 0),
        ("spare.slot", slot_of(2, [])[0], b"bad SparePage\n", 1),
    ]:
        pathlib.Path(name).write_bytes(bytes_of)
        suite.ends(f"check --slot {name}", ["check", "--slot", name], said, b"", status)
    suite.ends("check of a slot as a heap", ["check", "whole.slot"], b"bad BadDescriptor\n", b"", 1)
    suite.ends("check with --slot behind the file", ["check", "whole.slot", "--slot"], sums, b"", 0)


# Files by the words that they begin with, in front of zeros, and by their lengths; what is said, and the status.
HEAPS = [
    ("", 0, b"bad BadDescriptor\n", 1),
    ("486561700000000010000000", 12, b"bad BadDescriptor\n", 1),
    ("68656170000000001000000010000000", 16, b"bad BadDescriptor\n", 1),
    ("48656170000000001000000010000000", 16, b"ok 0 0 0 0 0\n", 0),
    # two blocks and a hole between them
    ("486561701c000000300000003800000010000000000000000000000000000000000000000800000008000000", 56,
     b"ok 2 24 1 8 8\n", 0),
    # a first link past the base
    ("486561703c000000300000003800000010000000000000000000000000000000000000000800000008000000", 56,
     b"bad BadLink\n", 1),
    # a link backwards
    ("486561701c000000300000003800000010000000000000000000000000000000f0ffffff0800000008000000", 56,
     b"bad BadLink\n", 1),
    # a first link into a block
    ("4865617014000000300000003800000010000000000000000000000000000000000000000800000008000000", 56,
     b"bad BadSize\n", 1),
    # a hole that touches the next
    ("4865617014000000300000003800000008000000000000000800000008000000000000000800000008000000", 56,
     b"bad BadLink\n", 1),
    # a hole that isn't linked
    ("486561700c000000300000003800000000000000080000000800000000000000000000000800000008000000", 56,
     b"bad BadSize\n", 1),
]
# The words of a slot that aren't 0, by their places: those of the anchors 0, 3 and 63; a C heap of 48 bytes with a hole
# between two blocks; flex blocks of 5, 0 and 8 bytes at 304, 320 and 328 for the anchors 3, 0 and 63.
SLOT_WORDS = {
    0: 0x8148, 12: 0x8138, 252: 0x8150, 256: 0x70616548, 260: 20, 264: 40, 268: 48, 272: 8, 284: 8, 288: 8, 304: 0x800C,
    308: 5, 312: 0x64636261, 316: 0x65, 320: 0x8000, 328: 0x80FC, 332: 8,
}
# A word of the slot that is another, and how many bytes there are; what is said of these, and the status.
SLOTS = [
    ((0, 0x8148), 4096, b"ok 3 13 48 3752\n", 0),
    # a block up to the end of the first page, and one up to that of the second
    ((332, 3760), 4096, b"ok 3 3765 48 0\n", 0),
    ((332, 7856), 8192, b"ok 3 7861 48 0\n", 0),
    ((0, 0x8148), 0, b"bad BadLength\n", 1),
    ((0, 0x8148), 4095, b"bad BadLength\n", 1),
    ((0, 0x8148), 4097, b"bad BadLength\n", 1),
    ((268, 3848), 4096, b"bad BadHeap BadDescriptor\n", 1),
    # a first link past the base
    ((260, 36), 4096, b"bad BadHeap BadLink\n", 1),
    ((272, 12), 4096, b"bad BadHeap BadSize\n", 1),
    # a block that goes a byte past the end
    ((332, 3761), 4096, b"bad BadSize\n", 1),
    # an anchor that leads to another one's block
    ((20, 0x8138), 4096, b"bad BadAnchor\n", 1),
    # a header that names an anchor without a word
    ((328, 0x80F8), 4096, b"bad BadAnchor\n", 1),
    ((0, 0x8148), 8192, b"bad SparePage\n", 1),
]


def test_heaps_are_checked(suite):
    """Heaps of some words, and bytes with one fault each."""
    for front, length, said, status in HEAPS:
        pathlib.Path("heap.bin").write_bytes(bytes.fromhex(front).ljust(56, b"\0")[:length])
        suite.ends(f"check of {front} and zeros", ["check", "heap.bin"], said, b"", status)


def test_slots_are_checked(suite):
    """A slot of some words, and the same with one word changed."""
    for change, length, said, status in SLOTS:
        image = bytearray(8192)
        for place, word in [*SLOT_WORDS.items(), change]:
            struct.pack_into("<I", image, place, word)
        pathlib.Path("slot.bin").write_bytes(image[:length])
        suite.ends(f"check of a slot with {change}", ["check", "--slot", "slot.bin"], said, b"", status)


def test_a_slot_is_no_heap(suite):
    """A heap is no slot, wherever `--slot` stands."""
    pathlib.Path("heap.bin").write_bytes(b"Heap" + struct.pack("<3I", 0, 16, 16))
    suite.ends("a heap", ["check", "heap.bin"], b"ok 0 0 0 0 0\n", b"", 0)
    for words in [["check", "--slot", "heap.bin"], ["check", "heap.bin", "--slot"]]:
        suite.ends(f"a heap as a slot: {words}", words, b"bad BadLength\n", b"", 1)


def test_a_lost_file_is_told(suite):
    """Bytes that aren't there are told by their path."""
    for words in [["check", "lost.bin"], ["check", "--slot", "lost.bin"]]:
        suite.ends(f"a lost file: {words}", words, b"", b"rh_desk: file lost.bin\n  no such file\n", 3)


def test_the_bytes_of_the_input_are_checked(suite):
    """A hyphen stands for standard input: all of its bytes are looked at, from a pipe and from a file."""
    heap = b"Heap" + struct.pack("<3I", 0, 16, 16)
    pathlib.Path("heap.bin").write_bytes(heap)
    suite.ends("a heap from a pipe", ["check", "-"], b"ok 0 0 0 0 0\n", b"", 0, stdin=heap)
    with open("heap.bin", "rb") as file:
        suite.ends("a heap from a file", ["check", "-"], b"ok 0 0 0 0 0\n", b"", 0, stdin=file)
    suite.ends("no bytes", ["check", "-"], b"bad BadDescriptor\n", b"", 1, stdin=b"")
    suite.ends("a heap as a slot", ["check", "--slot", "-"], b"bad BadLength\n", b"", 1, stdin=heap)
    for change, length, said, status in SLOTS:
        image = bytearray(8192)
        for place, word in [*SLOT_WORDS.items(), change]:
            struct.pack_into("<I", image, place, word)
        words = ["check", "--slot", "-"]
        suite.ends(f"the input as a slot with {change}", words, said, b"", status, stdin=bytes(image[:length]))


def test_a_file_may_have_the_name_of_the_input(suite):
    """A file named `-` is checked by another path to it."""
    pathlib.Path("-").write_bytes(b"Heap" + struct.pack("<3I", 0, 16, 16))
    suite.ends("the file -", ["check", "./-"], b"ok 0 0 0 0 0\n", b"", 0, stdin=b"no heap")


def test_an_input_that_cannot_be_checked_is_told(suite):
    """An input that fails, and one of a byte too many, are told; one of the most bytes is looked at."""
    folder = os.open(".", os.O_RDONLY)
    suite.ends("an input that fails", ["check", "-"], b"", b"rh_desk: read failed\n", 3, stdin=folder)
    os.close(folder)
    most = bytes(LONGEST_FILE)
    suite.ends("the most bytes", ["check", "-"], b"bad BadDescriptor\n", b"", 1, stdin=most)
    told = b"rh_desk: file -\n  more than 1048576 bytes\n"
    suite.ends("a byte more", ["check", "-"], b"", told, 3, stdin=most + b"\0")
