"""Images of memory: heaps and slots, and bytes that are nearly such."""

import pathlib

TOP = pathlib.Path(__file__).resolve().parents[2]
PAGE_BYTES = 4096
WORD_BYTES = 4

# A heap of 56 bytes with a hole between two blocks, and words by which it is none: magic, lengths, links, sizes.
HEAP = {0: 0x70616548, 4: 28, 8: 48, 12: 56, 16: 16, 36: 8, 40: 8}
HEAP_FAULTS = ((0, 0x70616568), (4, 8), (4, 30), (4, 64), (8, 28), (8, 52), (8, 64), (12, 8), (12, 52), (12, 64),
               (16, 12), (16, 4), (28, 8), (36, 12), (40, 4), (40, 64))
# A slot of one page: anchors 0, 3 and 63, a C heap of 48 bytes, and blocks of 5, 0 and 8 bytes at 304, 320 and 328.
SLOT = {0: 0x8148, 12: 0x8138, 252: 0x8150, 256: 0x70616548, 260: 20, 264: 40, 268: 48, 272: 8, 284: 8, 288: 8,
        304: 0x800C, 308: 5, 312: 0x64636261, 316: 0x65, 320: 0x8000, 328: 0x80FC, 332: 8}
SLOT_FAULTS = ((268, 3848), (268, 8), (256, 0x70616568), (260, 36), (272, 12), (332, 3761), (332, 0xFFFFFFFF),
               (20, 0x8138), (20, 0x8160), (20, 1), (328, 0x80F8), (328, 0x8100), (12, 0))


def image(length, words):
    """Bytes of a length with some words, lowest byte first, and zeros elsewhere."""
    content = bytearray(length)
    for at, word in words.items():
        content[at : at + WORD_BYTES] = word.to_bytes(WORD_BYTES, "little")
    return bytes(content)


def images():
    """Each image by a name: good ones, those of the worked rows, and those with one word that is wrong."""
    found = {path.stem: path.read_bytes() for path in sorted((TOP / "examples/rows").glob("*.image"))}
    for kind, length, words, faults in (("heap", 56, HEAP, HEAP_FAULTS), ("slot", PAGE_BYTES, SLOT, SLOT_FAULTS)):
        good = image(length, words)
        found |= {kind: good, f"{kind}-cut": good[:-1], f"{kind}-longer": good + bytes(8), f"{kind}-twice": good * 2}
        found |= {f"{kind}-{at}-{word}": image(length, words | {at: word}) for at, word in faults}
    return found | {"empty": b"", "text": b"Heap of words, and no heap at all\n"}
