"""The header for programs in C beside its sources: where the two differ, and a test that this is seen."""

import functools
import glob
import itertools
import re
import sys

import outcome

HEADER = "c/vervainfile.h"
SOURCES = ["crates/vf_heap/src/*.rt", "crates/vf_flex/src/*.rt", "crates/vf_desk/src/*.rt", "crates/vf_ram/src/*.rt",
           "crates/rh_lent_slot/src/slot.rt", "crates/rh_wide_slot/src/slot.rt"]
SUFFIX = "_unless_null"
NULL = "VF_NULL"
# what a comment says whose refusals are tested as they are listed
OWN_ORDER = "n this order: VF_"
TYPES = {"u8": "uint8_t", "u16": "uint16_t", "u32": "uint32_t", "u64": "uint64_t", "i32": "int32_t", "i64": "int64_t",
         "usize": "size_t", "isize": "ptrdiff_t", "bool": "bool", "LentSlot": "struct vf_slot",
         "WideSlot": "struct vf_wide_slot", "VfDesk": "struct vf_desk", "VfEvent": "struct vf_event", "VfBlock": "struct vf_block",
         "VfSegment": "struct vf_segment", "VfHeapSums": "struct vf_heap_sums", "VfRecord": "struct vf_record",
         "VfArea": "struct vf_area", "VfMessage": "struct vf_message", "VfSender": "struct vf_sender",
         "VfOutgoing": "struct vf_outgoing", "VfSendAction": "struct vf_send_action", "VfPart": "struct vf_part",
         "VfReceiver": "struct vf_receiver", "VfIncoming": "struct vf_incoming", "VfFetch": "struct vf_fetch",
         "VfTakeAction": "struct vf_take_action", "VfMessageWords": "struct vf_message_words"}
# What takes no bytes, so that C neither hands it over nor has room for it.
UNSEEN = "Global"
# The slice that `len` counts; the length of any other has its name.
MEMORY = "memory"
EXPORT = re.compile(
    r'((?:^///[^\n]*\n)+)#\[unsafe\(no_mangle\)\]\npub extern "C" fn (\w+)\(([^)]*)\) -> (\w+)', re.MULTILINE
)
STATUS = re.compile(r"^pub const (\w+): u32 = (\d+);", re.MULTILINE)
CALL_OF_SYSTEM = re.compile(r"OS_[A-Z]\w+(?: \d+)?|\bflex_[a-z_]+|\b(?:Wimp|Message)_\w+")
STRUCT = re.compile(r"^#\[repr\(C\)\]\n(?:#[^\n]*\n)*pub struct (\w+) \{([^}]*)\}", re.MULTILINE)
FIELD = re.compile(r"^ +(?:pub )?(\w+): ([^{\n]+),$", re.MULTILINE)
STRUCT_IN_C = re.compile(r"^(struct \w+) \{([^}]*)\};", re.MULTILINE)
COMMENT = re.compile(r"/\*.*?\*/", re.DOTALL)
# How a prototype begins.
CALL = re.compile(r"^\w+ (\w+)\(", re.MULTILINE)
PROTOTYPE = re.compile(r"^(\w+) (vf_\w+)\(([^)]*)\);", re.MULTILINE)
NUMBER = re.compile(r"^    (VF_\w+) = (\d+)", re.MULTILINE)
# A status with what stands beside it, and with its text.
SAID = re.compile(r"^    (VF_\w+) = \d+,? +/\* (.*?) \*/$", re.MULTILINE)
TEXT = re.compile(r'^    text\((VF_\w+), "(.*?)"\)', re.MULTILINE)
# The version that the list of changes names last, and what the header says of it.
CHANGES = "CHANGELOG.md"
VERSION = re.compile(r"^## (\d+)\.(\d+)\.(\d+)", re.MULTILINE)
VERSION_IN_C = re.compile(r'^#define VF_VERSION "(.*)"\n#define VF_VERSION_NUMBER (\d+)$', re.MULTILINE)
NAME_OF_STATUS = re.compile(r"\bVF_[A-Z_]+\b")
TESTED = re.compile(r"^VF_UNLESS_NULL\((\w+),\s+\(([^)]*)\),\s+([^,]+),\s+\(([^)]*)\)\)", re.MULTILINE)
TESTED_TWICE = re.compile(
    r"^VF_BOTH_UNLESS_NULL\((\w+), (\w+),\s+\(([^)]*)\),\s+([^,]+),\s+\(([^)]*)\)\)", re.MULTILINE
)
DEFINED = re.compile(r"^#define (vf_\w+) (vf_\w+)$", re.MULTILINE)
FAMILY = re.compile(r"^(vf_[a-z]+_)")


class Unknown(Exception):
    """A type that no header for C has."""


def in_c(name, declared):
    """The parameters of C for one of the source's: a slice is a pointer and a length."""
    if declared == UNSEEN:
        return []
    found = re.fullmatch(r"&(?:'static )?(mut )?(\[?)(\w+)\]?", declared)
    word = found[3] if found else declared
    if word not in TYPES:
        raise Unknown(declared)
    if not found:
        return [f"{TYPES[word]} {name}"]
    pointer = f"{'' if found[1] else 'const '}{TYPES[word]} *{name}"
    return [pointer, f"size_t {'len' if name == MEMORY else name + '_len'}"] if found[2] else [pointer]


def sources(top):
    """The texts of the sources, by path."""
    texts = {}
    for path in sorted(path for them in SOURCES for path in glob.glob(f"{top}/{them}")):
        with open(path, encoding="utf-8") as it:
            texts[path] = it.read()
    return texts


@functools.lru_cache(maxsize=None)
def found_in(pattern, text):
    """What a pattern finds in the text of a source, which is asked for again with each slip of the header."""
    return tuple(pattern.findall(text))


def prototypes(texts):
    """What the sources export: for each name the prototype in C, and the call of OS_Heap that it is, if it is one."""
    found = {}
    for told, name, parameters, result in (it for text in texts.values() for it in found_in(EXPORT, text)):
        pairs = [it.split(":", 1) for it in parameters.split(",") if it.strip()]
        words = [word for name_, declared in pairs for word in in_c(name_.strip(), declared.strip())]
        found[name] = (f"{TYPES[result]} {name}({', '.join(words) or 'void'});", CALL_OF_SYSTEM.findall(told))
    return found


def exports(top):
    """The names that the sources export."""
    return list(prototypes(sources(top)))


@functools.lru_cache(maxsize=1)
def comments(header):
    """The comment that stands last before the prototype of each call."""
    found = {}
    for it in CALL.finditer(header):
        found.setdefault(it[1], header[header.rfind("/*", 0, it.start()) + 2 : it.start()])
    return found


def comment_above(header, name):
    """The comment that stands last before a call's prototype, or in a header without it."""
    return comments(header).get(name, header.rpartition("/*")[2])


def faults_of_prototypes(header, exported):
    """Which prototypes the header lacks, or has otherwise than the sources."""
    found = PROTOTYPE.findall(COMMENT.sub("", header))
    declared = {name: f"{result} {name}({' '.join(parameters.split())});" for result, name, parameters in found}
    for name in sorted(exported.keys() | declared.keys()):
        there, here = exported.get(name, ("nothing",))[0], declared.get(name, "nothing")
        if there != here:
            yield f"{name}: the sources have {there} and the header has {here}"
    for name, (_, calls) in exported.items():
        if calls and "_checked_" not in name and CALL_OF_SYSTEM.findall(comment_above(header, name)) != calls:
            yield f"{name}: the sources say that it is {calls[0]}, and the header doesn't"


def fields_in_c(fields, structs):
    """The fields of C for a struct's: those of a struct of the source's own stand in its place."""
    for name, declared in FIELD.findall(fields):
        array = re.fullmatch(r"\[(\w+); (\d+)\]", declared)
        if declared in structs and declared not in TYPES:
            yield from fields_in_c(structs[declared], structs)
        elif declared.startswith("*mut "):
            yield f"void *{name}"
        elif array:
            yield f"{TYPES[array[1]]} {name}[{array[2]}]"
        else:
            yield from in_c(name, declared)


def faults_of_structs(header, texts):
    """Which structs that a call takes have other fields in the header."""
    structs = {name: fields for text in texts.values() for name, fields in found_in(STRUCT, text)}
    there = {TYPES[name]: list(fields_in_c(fields, structs)) for name, fields in structs.items() if name in TYPES}
    here = {name: [" ".join(it.split()) for it in fields.split(";") if it.strip()]
            for name, fields in STRUCT_IN_C.findall(COMMENT.sub("", header))}
    for name in sorted(there.keys() | here.keys()):
        if there.get(name) != here.get(name):
            yield f"{name}: the sources have {there.get(name)} and the header has {here.get(name)}"


def faults_of_statuses(header, texts):
    """Which numbers differ, also among the sources. A null pointer is never seen by the sources."""
    given = {(f"VF_{name}", int(number)) for text in texts.values() for name, number in found_in(STATUS, text)}
    there = dict(given)
    for name, number in sorted(given - there.items()):
        yield f"{name}: the sources have both {number} and {there[name]}"
    here = {name: int(number) for name, number in NUMBER.findall(header)}
    if here.pop(NULL, None) in (None, *here.values()):
        yield f"{NULL} has no number of its own"
    for name in sorted(there.keys() | here.keys()):
        if there.get(name) != here.get(name):
            yield f"{name}: the sources have {there.get(name)} and the header has {here.get(name)}"


def faults_of_texts(header):
    """Which statuses have another text than what stands beside them, in another order, or none."""
    said, texts = SAID.findall(header.partition("};")[0]), TEXT.findall(header)
    for there, here in itertools.zip_longest(said, texts):
        if there != here:
            yield f"{there} stands beside a number, and the text is {here}"
            return


def faults_of_version(header, version):
    """Whether the header has another version than the list of changes."""
    first, second, third = map(int, version.split("."))
    wanted = [(version, str(10000 * first + 100 * second + third))]
    if VERSION_IN_C.findall(header) != wanted:
        yield f"the header has the version {VERSION_IN_C.findall(header)} in place of {wanted}"


def faults_of_orders(header, exported):
    """Which comments list refusals in another order than that of their numbers, or before what isn't one.

    The refusals have the numbers below that of a null pointer. The order of what isn't a refusal is the call's own, and
    so is that of a comment that says so.
    """
    numbers = {name: int(number) for name, number in NUMBER.findall(header.partition("};")[0])}
    first_other = numbers.get(NULL, 0)
    for name in exported:
        comment = comment_above(header, name)
        listed = [it for it in NAME_OF_STATUS.findall(comment) if it in numbers]
        if OWN_ORDER in comment:
            continue
        if listed != sorted(listed, key=lambda it: numbers[it] if numbers[it] < first_other else 0):
            yield f"{name}: its comment lists {', '.join(listed)}, which isn't the order in which they are tested"


def tests_of_null(header):
    """For each call that is tested for null: its parameters, the pointers tested, and the arguments handed on."""
    once = {it[0]: it[1:] for it in TESTED.findall(header)}
    for family, name, *rest in TESTED_TWICE.findall(header):
        once[f"{family}_{name}"] = once[f"{family}_checked_{name}"] = tuple(rest)
    return {name: [" ".join(it.split()) for it in parts] for name, parts in once.items()}


def wanted_test(prototype):
    """What the test of a call with this prototype must be."""
    parameters = PROTOTYPE.match(prototype)[3]
    names = [re.search(r"\w+$", it)[0] for it in parameters.split(",")]
    pointers = [name for name, it in zip(names, parameters.split(",")) if "*" in it]
    return [parameters, " && ".join(pointers), ", ".join(names)]


def faults_of_null(header, exported):
    """Which calls aren't tested for each pointer, and which names don't lead to what is tested.

    One that takes no pointer has nothing to be tested.
    """
    tests, (checked, _, plain) = tests_of_null(header), header.partition("#ifdef VF_CHECKED")[2].partition("#else")
    always = dict(DEFINED.findall(header.partition("#ifdef VF_CHECKED")[0]))
    checked, plain = dict(DEFINED.findall(checked)), dict(DEFINED.findall(plain))
    for name, (prototype, _) in exported.items():
        if "*" not in prototype:
            continue
        if tests.get(name) != wanted_test(prototype):
            yield f"{name}: its test for null has {tests.get(name)} in place of {wanted_test(prototype)}"
        if (always | plain).get(name) != name + SUFFIX:
            yield f"{name}: the name doesn't lead to its test for null"
        twin = FAMILY.sub(r"\1checked_", name)
        if twin in exported and checked.get(name) != twin:
            yield f"{name}: with VF_CHECKED the name doesn't lead to {twin}"


def compared(header, texts, version):
    """All that differs between the text of the header and those of the sources, and what it says of the version."""
    try:
        exported = prototypes(texts)
    except Unknown as why:
        return [f"no header has the type {why}"]
    parts = (faults_of_prototypes(header, exported), faults_of_structs(header, texts),
             faults_of_statuses(header, texts), faults_of_orders(header, exported), faults_of_null(header, exported),
             faults_of_texts(header), faults_of_version(header, version))
    return [it for part in parts for it in part]


def text_of(top):
    """The text of the header."""
    with open(f"{top}/{HEADER}", encoding="utf-8") as it:
        return it.read()


def version_of(top):
    """The version that the list of changes names last."""
    with open(f"{top}/{CHANGES}", encoding="utf-8") as it:
        return ".".join(VERSION.search(it.read()).groups())


def faults(top):
    """All that differs between the header and the sources."""
    return compared(text_of(top), sources(top), version_of(top))


# Slips of the header, each of which must be seen: what stands there, and what would stand there.
SLIPS = [
    ("uint32_t vf_heap_extend(uint8_t *memory, size_t len, ptrdiff_t delta);", ""),
    ("uint32_t vf_heap_release(uint8_t *memory,", "uint32_t vf_heap_release(const uint8_t *memory,"),
    ("uint32_t vf_heap_describe(const uint8_t *memory,", "uint32_t vf_heap_describe(uint8_t *memory,"),
    ("size_t *most, size_t *free);", "size_t *free, size_t *most);"),
    ("size_t n, size_t *address);", "uint32_t n, size_t *address);"),
    ("uint32_t vf_heap_check(const uint8_t *memory,", "int vf_heap_check(const uint8_t *memory,"),
    ("uint32_t vf_heap_init(uint8_t *memory, size_t len);",
     "uint32_t vf_heap_init(uint8_t *memory, size_t len);\nuint32_t vf_heap_end(uint8_t *memory, size_t len);"),
    ("VF_BAD_LINK = 36", "VF_BAD_LINK = 37"),
    ("    VF_SHORT = 34,", "    VF_BRIEF = 34,"),
    ("VF_NULL = 32", "VF_NULL = 33"),
    ("OS_Heap 4:", "OS_Heap 5:"),
    ("memory && most && free,", "memory && most,"),
    ("VF_UNLESS_NULL(vf_heap_check,", "VF_UNLESS_NULL(vf_heap_chek,"),
    ("(memory, len, address, delta, moved_to)", "(memory, len, address, -delta, moved_to)"),
    ("#define vf_heap_resize vf_heap_resize_unless_null\n", ""),
    ("#define vf_heap_claim vf_heap_checked_claim\n", ""),
    ("#define vf_heap_checked_extend vf_heap_checked_extend_unless_null", "#define vf_heap_checked_extend vf_heap_end"),
    ("    size_t pages;", "    uint32_t pages;"),
    ("    bool budge;", "    bool budges;"),
    ("flex_extend: cuts", "flex_cut: cuts"),
    ("const uint8_t *from, size_t from_len);", "uint8_t *from, size_t from_len);"),
    ("VF_NO_BUDGE = 19", "VF_NO_BUDGE = 18"),
    ("memory && slot && from,", "memory && slot,"),
    ("memory && map && need,", "memory && need,"),
    ("size_t vf_heap_map_words(size_t length);", "uint32_t vf_heap_map_words(uint32_t length);"),
    ("size_t len, uint64_t *map, size_t map_len, size_t n,", "size_t len, uint32_t *map, size_t map_len, size_t n,"),
    ("#define vf_heap_index vf_heap_index_unless_null\n", ""),
    ("#define vf_flex_put vf_flex_put_unless_null\n", ""),
    ("#define vf_flex_wide_put vf_flex_wide_put_unless_null\n", ""),
    ("    size_t base;", "    size_t low;"),
    ("#define vf_flex_put vf_flex_checked_put\n", ""),
    ("VF_SPARE_PAGE = 42", "VF_SPARE_PAGE = 41"),
    ("uint32_t vf_flex_check(const uint8_t *memory,", "uint32_t vf_flex_check(uint8_t *memory,"),
    ("uint32_t vf_flex_checked_release(uint8_t *memory, size_t len, struct vf_slot *slot, size_t place);", ""),
    ("    void *at;", "    void *place;"),
    ("    bool live;", "    uint32_t live;"),
    ("    uint8_t name[13];", "    uint8_t name[12];"),
    ("uint32_t vf_desk_close(struct vf_desk *desk);", "void vf_desk_close(struct vf_desk *desk);"),
    ("OS_Module 13: gives", "OS_Module 12: gives"),
    ("Wimp_Poll: takes", "Wimp_PollIdle: takes"),
    ("VF_DID_SAVE = 10", "VF_DID_SAVE = 11"),
    ("desk && name && event,", "desk && event,"),
    ("VF_NO_ROOM, VF_NO_AREA, VF_TOO_BIG. */", "VF_NO_AREA, VF_TOO_BIG, VF_NO_ROOM. */"),
    ("then VF_EXCESSIVE_SHRINK. */", "after VF_EXCESSIVE_SHRINK, VF_BAD_LENGTH. */"),
    ("#define vf_desk_poll vf_desk_poll_unless_null\n", ""),
    ('text(VF_BAD_LINK, "a link', 'text(VF_BAD_LINK, "no link'),
    ('    text(VF_NO_AREA, "no area has the number")', ""),
    ('text(VF_OPEN, "the desk is open already")', 'text(VF_CLOSED, "the desk is open already")'),
    ('#define VF_VERSION "', '#define VF_VERSION "1'),
    ("#define VF_VERSION_NUMBER 1", "#define VF_VERSION_NUMBER 2"),
    ("uint32_t vf_version(void);", "uint32_t vf_version(uint32_t known);"),
]


def unseen_slips(top):
    """The slips that the comparison doesn't see, and those that can't be made."""
    header, texts, version = text_of(top), sources(top), version_of(top)
    for old, new in SLIPS:
        if old not in header:
            yield f"no slip can be made of: {old}"
        elif not compared(header.replace(old, new, 1), texts, version):
            yield f"unseen in place of '{old}': {new}"


def main(top):
    """Compares, tries the slips, and gives the exit status."""
    found, unseen = faults(top), list(unseen_slips(top))
    for it in [*found, *unseen]:
        print(it)
    print(f"{len(exports(top))} calls are compared with the sources, {len(SLIPS)} slips are tried")
    return outcome.told("the header", len(exports(top)) + len(SLIPS), len(found) + len(unseen))


if __name__ == "__main__":
    sys.exit(main(sys.argv[1] if len(sys.argv) > 1 else "."))
