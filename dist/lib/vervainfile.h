/*
 * vervainfile.h: heaps by the rules of OS_Heap and flex blocks that slide, in memory of your own; and a desk, whose
 * tasks hand each other files. Link with libvervainfile.a.
 *
 *     static uint8_t memory[65536];
 *     size_t address;
 *     if (vf_heap_init(memory, sizeof memory) == VF_OK && vf_heap_claim(memory, sizeof memory, 100, &address) == VF_OK)
 *         memory[address] = 1;
 *
 * It compiles as C99 or any later C, as C++, and as C89 where <stdint.h> and <stdbool.h> are there.
 *
 * Version, statuses, your duties, the calls of OS_Heap, the same with a map beside the heap, the same on any bytes,
 * flex, the C heap below flex, a slot in any bytes, wide slots, the desk, transfers of your own tasks, messages, and
 * null pointers: in this order.
 * docs/C.md says more: what each Acorn call becomes, what a call costs, and what of it is proved.
 */
#ifndef VERVAINFILE_H
#define VERVAINFILE_H

#include <stdbool.h>
#include <stddef.h>
#include <stdint.h>

/* The version as text and as a number, 10,000 for the first part and 100 for the second: what is written for one may
 * be compiled with any later one that has the same first part. */
#define VF_VERSION "1.0.0"
#define VF_VERSION_NUMBER 10000

/* What `inline` is called: C89 has no name for it. A function that isn't used is no fault then. */
#ifndef VF_INLINE
#if defined(__cplusplus) || (defined(__STDC_VERSION__) && __STDC_VERSION__ >= 199901L)
#define VF_INLINE inline
#elif defined(__GNUC__)
#define VF_INLINE __inline__
#else
#define VF_INLINE
#endif
#endif

#ifdef __cplusplus
extern "C" {
#endif

/* ---- Statuses ----------------------------------------------------------------------------------------------------
 *
 * Each call answers one. With any but VF_OK it has changed nothing: no byte of the memory, and none of the numbers that
 * it would have told. Refusals have the numbers that they have everywhere in vervainfile, 1 to 26. What is wrong with
 * what a call was lent begins at 32.
 *
 * Where several hold, the first is answered: VF_NULL before all others, then those that the head of the call's part
 * says all its calls test, then those of the call's own comment. Each list names them in the order in which they are
 * tested. Refusals are tested in the order of their numbers, but where a comment says "in this order", and after what
 * has a number from 32 on.
 */
enum {
    VF_OK = 0,                 /* all was done */

    VF_NAME_IN_USE = 1,        /* a live task has the name */
    VF_NO_NAME = 2,            /* no live task has the name */
    VF_TOO_MANY_TASKS = 3,     /* 32 tasks are live */
    VF_NO_HANDLES = 4,         /* the last handle, 4294967295, was given */
    VF_NO_FILE = 5,            /* no file has the name */
    VF_NO_BLOCK = 6,           /* the anchor has no block */
    VF_ANCHOR_IN_USE = 7,      /* the anchor has a block */
    VF_NOT_A_BLOCK = 8,        /* no block begins at the address */
    VF_NOT_YOURS = 9,          /* the block of the module area holds a message */
    VF_BUSY = 10,              /* a transfer uses the block, eight are going that way, or there is a scrap file */
    VF_NOT_OPEN = 11,          /* no transfer that is meant can be given up */
    VF_NOTHING_SENT = 12,      /* the task has sent no message */
    VF_BAD_RANGE = 13,         /* bytes lie outside the block */
    VF_BAD_SIZE = 14,          /* a block of a heap has at least 1 byte */
    VF_EXCESSIVE_SHRINK = 15,  /* the heap would end below its last block, or an area lose more than it can */
    VF_NO_TASK = 16,           /* the task at the other end is not live */
    VF_NO_REFS = 17,           /* the last ref, 4294967295, was given */
    VF_QUEUE_FULL = 18,        /* 256 messages are live */
    VF_NO_BUDGE = 19,          /* the C heap of a slot must grow, and budging is off */
    VF_NO_ROOM = 20,           /* no hole is large enough, nor the top; or too few pages are free */
    VF_NO_AREA = 21,           /* no area has the number */
    VF_TOO_MANY_AREAS = 22,    /* 32 made areas are live */
    VF_NO_NUMBERS = 23,        /* the last number of a made area, 65535, was given */
    VF_TOO_BIG = 24,           /* a made area would have more pages than it may */
    VF_WRONG_MANNER = 25,      /* the task has code of its own where it may not, or has none where it must */
    VF_BAD_REF = 26,           /* no message has the ref yet */

    VF_NULL = 32,              /* a pointer is null */
    VF_BAD_LENGTH = 33,        /* no heap has so many bytes: a multiple of 8, 16 to 1 GiB; or no slot; or no file */
    VF_SHORT = 34,             /* the memory is shorter than what is in it, or than heap, map or text would be */
    VF_BAD_DESCRIPTOR = 35,    /* the first 16 bytes are not those of a heap */
    VF_BAD_LINK = 36,          /* a link does not lead to a hole ahead */
    VF_BAD_SEGMENT = 37,       /* a size is not that of a segment */
    VF_BAD_ANCHOR = 38,        /* the slot has no anchor with the number */
    VF_NO_SLOT = 39,           /* the slot has no page: it was never started */
    VF_BAD_FLEX_BLOCK = 40,    /* a flex block goes past the end of the slot's pages */
    VF_BAD_ANCHOR_WORD = 41,   /* an anchor word is not 0, and leads to no flex block that names it */
    VF_SPARE_PAGE = 42,        /* the last page of the slot holds nothing of it */
    VF_CLOSED = 43,            /* the desk is not open */
    VF_OPEN = 44,              /* the desk is open already */
    VF_BAD_ARGUMENT = 45,      /* a name, an anchor, a number or a leafname is none that a line has, or a put no byte */
    VF_NO_MEMORY = 46,         /* memory was refused */
    VF_FILE_EXISTS = 47,       /* a file with the name was added before */
    VF_BAD_RECORDS = 48,       /* the struct is no sender or receiver: a count above 8, a state or an anchor of none */
    VF_BAD_ACTION = 49,        /* the struct has no action that the call is told of */
    VF_BAD_MESSAGE = 50        /* the action of the message is none of a file or a RAM transfer */
};

/* The text of each status, which is what stands beside it above: text(VF_OK, "all was done"), and so on. */
#define VF_STATUS_TEXTS(text)                                                                                        \
    text(VF_OK, "all was done")                                                                                      \
    text(VF_NAME_IN_USE, "a live task has the name")                                                                 \
    text(VF_NO_NAME, "no live task has the name")                                                                    \
    text(VF_TOO_MANY_TASKS, "32 tasks are live")                                                                     \
    text(VF_NO_HANDLES, "the last handle, 4294967295, was given")                                                    \
    text(VF_NO_FILE, "no file has the name")                                                                         \
    text(VF_NO_BLOCK, "the anchor has no block")                                                                     \
    text(VF_ANCHOR_IN_USE, "the anchor has a block")                                                                 \
    text(VF_NOT_A_BLOCK, "no block begins at the address")                                                           \
    text(VF_NOT_YOURS, "the block of the module area holds a message")                                               \
    text(VF_BUSY, "a transfer uses the block, eight are going that way, or there is a scrap file")                   \
    text(VF_NOT_OPEN, "no transfer that is meant can be given up")                                                   \
    text(VF_NOTHING_SENT, "the task has sent no message")                                                            \
    text(VF_BAD_RANGE, "bytes lie outside the block")                                                                \
    text(VF_BAD_SIZE, "a block of a heap has at least 1 byte")                                                       \
    text(VF_EXCESSIVE_SHRINK, "the heap would end below its last block, or an area lose more than it can")           \
    text(VF_NO_TASK, "the task at the other end is not live")                                                        \
    text(VF_NO_REFS, "the last ref, 4294967295, was given")                                                          \
    text(VF_QUEUE_FULL, "256 messages are live")                                                                     \
    text(VF_NO_BUDGE, "the C heap of a slot must grow, and budging is off")                                          \
    text(VF_NO_ROOM, "no hole is large enough, nor the top; or too few pages are free")                              \
    text(VF_NO_AREA, "no area has the number")                                                                       \
    text(VF_TOO_MANY_AREAS, "32 made areas are live")                                                                \
    text(VF_NO_NUMBERS, "the last number of a made area, 65535, was given")                                          \
    text(VF_TOO_BIG, "a made area would have more pages than it may")                                                \
    text(VF_WRONG_MANNER, "the task has code of its own where it may not, or has none where it must")                \
    text(VF_BAD_REF, "no message has the ref yet")                                                                   \
    text(VF_NULL, "a pointer is null")                                                                               \
    text(VF_BAD_LENGTH, "no heap has so many bytes: a multiple of 8, 16 to 1 GiB; or no slot; or no file")           \
    text(VF_SHORT, "the memory is shorter than what is in it, or than heap, map or text would be")                   \
    text(VF_BAD_DESCRIPTOR, "the first 16 bytes are not those of a heap")                                            \
    text(VF_BAD_LINK, "a link does not lead to a hole ahead")                                                        \
    text(VF_BAD_SEGMENT, "a size is not that of a segment")                                                          \
    text(VF_BAD_ANCHOR, "the slot has no anchor with the number")                                                    \
    text(VF_NO_SLOT, "the slot has no page: it was never started")                                                   \
    text(VF_BAD_FLEX_BLOCK, "a flex block goes past the end of the slot's pages")                                    \
    text(VF_BAD_ANCHOR_WORD, "an anchor word is not 0, and leads to no flex block that names it")                    \
    text(VF_SPARE_PAGE, "the last page of the slot holds nothing of it")                                             \
    text(VF_CLOSED, "the desk is not open")                                                                          \
    text(VF_OPEN, "the desk is open already")                                                                        \
    text(VF_BAD_ARGUMENT, "a name, an anchor, a number or a leafname is none that a line has, or a put no byte")     \
    text(VF_NO_MEMORY, "memory was refused")                                                                         \
    text(VF_FILE_EXISTS, "a file with the name was added before")                                                    \
    text(VF_BAD_RECORDS, "the struct is no sender or receiver: a count above 8, a state or an anchor of none")       \
    text(VF_BAD_ACTION, "the struct has no action that the call is told of")                                         \
    text(VF_BAD_MESSAGE, "the action of the message is none of a file or a RAM transfer")

/* What a status says, for messages; of any other number that no status has it. */
static VF_INLINE const char *vf_status_text(uint32_t status)
{
    switch (status) {
#define VF_CASE(named, said) case named: return said;
    VF_STATUS_TEXTS(VF_CASE)
#undef VF_CASE
    default: return "no status has this number";
    }
}

/* The version of the library that the program is linked with, a number as VF_VERSION_NUMBER is. It answers no status. */
uint32_t vf_version(void);

/* ---- Duties of the caller -----------------------------------------------------------------------------------------
 *
 * What no call can see, and each relies on:
 *
 * 1. A pointer that is not null leads to what it says: `memory` to `len` bytes, `from` to `from_len`, `to` to `to_len`,
 *    `map` to `map_len` words, any other to one value of its type, at an address that fits the type. What the pointers
 *    of one call lead to does not overlap.
 * 2. While a call runs nobody else writes what it was lent, and nobody else reads what it was lent without `const`. On
 *    one heap or slot, the calls that take `memory` without `const` run one at a time, and alone; those that take it
 *    with `const` only read, and any number of them may run at once. Different heaps and slots may be used at the same
 *    time.
 * 3. Of the calls on heaps without `checked` in their names, vf_heap_init aside: `memory` is a heap, so that
 *    vf_heap_check would answer VF_OK. It is one after vf_heap_init, and after each call, as long as you write to
 *    nothing but the bytes of your blocks, and `len` is at most 1 GiB. Where it is none they may read and write
 *    anywhere, as free() may. vf_heap_extend alone looks whether `len` is above 1 GiB.
 * 4. Of the calls on slots without `checked` in their names, vf_flex_start aside: `slot` and the bytes of its pages are
 *    a slot, so that vf_flex_check would answer VF_OK. They are one after vf_flex_start, and after each call, as long
 *    as you write to nothing but the bytes of your blocks. Where they are none the calls may read and write anywhere.
 *    What `len` and `slot` alone can tell each call tests. So it is with wide slots after vf_flex_start_with; there the
 *    bytes that vf_flex_wide_budge gave are yours too.
 * 5. Of the calls on heaps with `indexed` in their names: `map` is a map of the heap, with the bits that vf_heap_index
 *    would set. It is one after vf_heap_index, and after each of these calls, as long as nothing else writes to it or
 *    changes the heap. Where it is none they may read and write anywhere.
 * 6. Of the calls on desks: the struct is zeros, or as the last call left it. It may be moved, but a copy of an open
 *    one is not used beside it, nor after it was closed. An open desk is closed at last, or its memory is never given
 *    back. Any thread may use a desk, but one call on it runs at a time: where threads share one, each call stands
 *    under a lock of yours. The bytes of a file that is lent stay where and as they are until the desk is closed.
 * 7. What the library asks for memory, malloc(), realloc() and free() or your own, are one allocator, which aligns to
 *    16. Of all calls vf_desk_file, vf_desk_file_lent and vf_desk_open alone ask for some, and vf_desk_close gives it
 *    back; these four are not called from a signal handler, nor from the forked child of a process with threads.
 */

/* ---- OS_Heap -------------------------------------------------------------------------------------------------------
 *
 * A heap is its bytes and nothing else: it may be copied, saved, sent and mapped, and found again at another place.
 * `memory` is its first byte, at any alignment, and `len` the number of bytes that lie there: the heap's own length or
 * more. An address is an offset from `memory`, always 4 more than a multiple of 8; a block's first byte is
 * memory[address]. Where blocks are to be aligned to 8, let `memory` be 4 more than a multiple of 8.
 */

/* OS_Heap 0: makes all `len` bytes an empty heap, whatever lay there. VF_BAD_LENGTH. */
uint32_t vf_heap_init(uint8_t *memory, size_t len);

/* OS_Heap 1: tells the bytes of the largest block that could be claimed, and how many bytes are free in all. */
uint32_t vf_heap_describe(const uint8_t *memory, size_t len, size_t *most, size_t *free);

/* OS_Heap 2: claims a block of `n` bytes or up to 7 more, all of them 0, and tells its address. The first hole that is
 * large enough is taken, else bytes above all blocks. VF_BAD_SIZE where n is 0, VF_NO_ROOM. */
uint32_t vf_heap_claim(uint8_t *memory, size_t len, size_t n, size_t *address);

/* OS_Heap 3: releases the block at an address. VF_NOT_A_BLOCK. */
uint32_t vf_heap_release(uint8_t *memory, size_t len, size_t address);

/* OS_Heap 4: gives the block at an address `delta` bytes more, or fewer, and tells where it is then: it may move. It
 * keeps its bytes, as far as it still has them; new ones are 0. VF_NOT_A_BLOCK, VF_BAD_SIZE where it would have fewer
 * than 1, VF_NO_ROOM. */
uint32_t vf_heap_resize(uint8_t *memory, size_t len, size_t address, ptrdiff_t delta, size_t *moved_to);

/* OS_Heap 5: moves the heap's end by `delta` bytes, up or down. No block moves. VF_BAD_LENGTH where `len` is above
 * 1 GiB, then VF_SHORT where the heap's length would exceed `len`, then VF_BAD_LENGTH where it would be no multiple of 8,
 * then VF_EXCESSIVE_SHRINK. */
uint32_t vf_heap_extend(uint8_t *memory, size_t len, ptrdiff_t delta);

/* OS_Heap 6: tells how many bytes the block at an address has: what was asked for, or up to 7 more. VF_NOT_A_BLOCK. */
uint32_t vf_heap_block_size(const uint8_t *memory, size_t len, size_t address, size_t *size);

/* ---- A map beside a heap -------------------------------------------------------------------------------------------
 *
 * The calls above find a block by a walk, which is long where thousands of blocks live. Who keeps a map of the heap
 * beside it spares the walk: `map` is vf_heap_map_words(n) words or more, where n is the heap's length, and holds
 * whatever it may before vf_heap_index. Each call here does with the heap's bytes just what the call above does, and
 * keeps the map. After a call without a map that has changed the heap, make the map anew.
 *
 * A claim still walks from hole to hole: the first one that is large enough is taken.
 */

/* How many words a map has for a heap of `length` bytes: two for each 512 bytes, and for those that are left. */
size_t vf_heap_map_words(size_t length);

/* Makes a map of the heap, in one walk over it. VF_SHORT where it has fewer words than vf_heap_map_words says. */
uint32_t vf_heap_index(const uint8_t *memory, size_t len, uint64_t *map, size_t map_len);

/* OS_Heap 2: as vf_heap_claim. */
uint32_t vf_heap_indexed_claim(uint8_t *memory, size_t len, uint64_t *map, size_t map_len, size_t n, size_t *address);

/* OS_Heap 3: as vf_heap_release. */
uint32_t vf_heap_indexed_release(uint8_t *memory, size_t len, uint64_t *map, size_t map_len, size_t address);

/* OS_Heap 4: as vf_heap_resize. */
uint32_t vf_heap_indexed_resize(uint8_t *memory, size_t len, uint64_t *map, size_t map_len, size_t address,
                                ptrdiff_t delta, size_t *moved_to);

/* OS_Heap 6: as vf_heap_block_size. */
uint32_t vf_heap_indexed_block_size(const uint8_t *memory, size_t len, const uint64_t *map, size_t map_len,
                                    size_t address, size_t *size);

/* Tells by how many bytes the heap is too short for a resize by `delta`, 0 where it has room: as many more make it be
 * done. VF_NOT_A_BLOCK, VF_BAD_SIZE; VF_NO_ROOM where `delta` is above 2,147,483,647. */
uint32_t vf_heap_indexed_resize_need(const uint8_t *memory, size_t len, const uint64_t *map, size_t map_len,
                                     size_t address, ptrdiff_t delta, size_t *need);

/* ---- The same on any bytes -----------------------------------------------------------------------------------------
 *
 * These look at all of the heap first, so they have no third duty, and may be given bytes that come from a file or from
 * somebody else. Where the bytes are no heap they answer what vf_heap_check answers, before all else but VF_NULL, and
 * else what the call of the same name does. With VF_CHECKED defined before this header, the names above stand for
 * these.
 */

/* VF_OK where the first bytes are a heap, as many as its own length. Else what is wrong first: VF_BAD_LENGTH where
 * `len` is below 16 or above 1 GiB, VF_BAD_DESCRIPTOR where the bytes don't begin with the word of a heap, VF_SHORT,
 * and then the heap's first fault, VF_BAD_DESCRIPTOR, VF_BAD_LINK or VF_BAD_SEGMENT. */
uint32_t vf_heap_check(const uint8_t *memory, size_t len);

uint32_t vf_heap_checked_describe(const uint8_t *memory, size_t len, size_t *most, size_t *free);
uint32_t vf_heap_checked_claim(uint8_t *memory, size_t len, size_t n, size_t *address);
uint32_t vf_heap_checked_release(uint8_t *memory, size_t len, size_t address);
uint32_t vf_heap_checked_resize(uint8_t *memory, size_t len, size_t address, ptrdiff_t delta, size_t *moved_to);
uint32_t vf_heap_checked_extend(uint8_t *memory, size_t len, ptrdiff_t delta);
uint32_t vf_heap_checked_block_size(const uint8_t *memory, size_t len, size_t address, size_t *size);

/* ---- flex ----------------------------------------------------------------------------------------------------------
 *
 * A slot is the memory of one program: 64 anchors, a C heap, and flex blocks above it, which slide so that there is
 * never a gap. It takes the first pages of `memory`, 4,096 bytes each. The whole pages behind are free: calls take the
 * next of them, and give the last ones back. What a free page holds may change whenever a call is done, and is yours
 * between calls. `len` is the number of bytes that lie at `memory`; it may differ from call to call.
 *
 * A block is told by its anchor, a number that you choose. Where it stands is a place: an index, so that memory[place]
 * is its first byte, and `memory + place` a pointer to it. A place is a multiple of 4. It holds as long as the count
 * `slides` of the struct does: vf_flex_free, extend, midextend, claim and resize add 1 to it where they have moved a
 * block, and no other call changes it. Ask vf_flex_place or vf_flex_places then, or go by vf_flex_put and vf_flex_read,
 * which take the anchor. The words of the slot hold addresses from &8000 on: 0x8000 more than the place.
 *
 * Each call tests first, and has changed nothing then: VF_NULL; VF_BAD_LENGTH where `len` is below 4,096 or above
 * 28 MiB; VF_NO_SLOT; VF_SHORT where the pages of the slot exceed `len`; VF_BAD_ANCHOR where there is an anchor. A
 * number of bytes above 4,294,967,295 is refused as that one is. An amount up or down is refused as the nearest one
 * from -2,147,483,648 to 2,147,483,647 is.
 *
 * A refused call leaves all `len` bytes. Where a refusal of the rules is answered, 1 to 26, it is proved that the
 * slot's pages and the struct stay; that the bytes behind these pages stay is tested. Where any other status is
 * answered, all of it is proved.
 */

/* What of a slot does not stand in its bytes. You keep it beside them, and read it at will; the calls write it. A copy
 * of both at another place is the same slot. */
struct vf_slot {
    size_t pages;    /* how many pages are the slot's */
    bool budge;      /* whether the flex blocks slide up where the C heap must grow */
    uint32_t slides; /* how many calls have moved a flex block; behind 4,294,967,295 comes 0 */
};

/* flex_init: makes the first page a slot with no block, budging on and no slide, whatever lay there. VF_BAD_LENGTH. */
uint32_t vf_flex_start(uint8_t *memory, size_t len, struct vf_slot *slot);

/* flex_alloc: puts a block of `n` bytes on top, all of them 0, and tells its place. `n` may be 0. VF_ANCHOR_IN_USE,
 * VF_NO_ROOM. */
uint32_t vf_flex_alloc(uint8_t *memory, size_t len, struct vf_slot *slot, uint32_t anchor, size_t n, size_t *place);

/* flex_free: takes the anchor's block away. Those above it come down. VF_NO_BLOCK. */
uint32_t vf_flex_free(uint8_t *memory, size_t len, struct vf_slot *slot, uint32_t anchor);

/* flex_size: tells how many bytes the anchor's block has, just what was asked for. VF_NO_BLOCK. */
uint32_t vf_flex_size(const uint8_t *memory, size_t len, const struct vf_slot *slot, uint32_t anchor, size_t *size);

/* flex_extend: cuts the anchor's block to `n` bytes, or gives it bytes up to `n`, which are 0. Those above it slide.
 * VF_NO_BLOCK, VF_NO_ROOM. */
uint32_t vf_flex_extend(uint8_t *memory, size_t len, struct vf_slot *slot, uint32_t anchor, size_t n);

/* flex_midextend: puts `by` bytes, which are 0, into the anchor's block at an offset from its first byte; or where `by`
 * is below 0 takes as many bytes before the offset out. VF_NO_BLOCK, VF_BAD_RANGE where the offset is above the block's
 * size or fewer bytes are before it, VF_NO_ROOM. */
uint32_t vf_flex_midextend(uint8_t *memory, size_t len, struct vf_slot *slot, uint32_t anchor, size_t offset,
                           ptrdiff_t by);

/* flex_set_budge: turns budging on or off, and tells whether it was on. With budging on, a claim or resize in the C
 * heap may slide all flex blocks. Only VF_NULL. */
uint32_t vf_flex_set_budge(struct vf_slot *slot, bool on, bool *was);

/* Tells where the anchor's block stands, as what a flex_ptr pointed to did. VF_NO_BLOCK. */
uint32_t vf_flex_place(const uint8_t *memory, size_t len, const struct vf_slot *slot, uint32_t anchor, size_t *place);

/* Tells where the blocks of the first `places_len` anchors stand, 0 for one that has none: what to ask behind a call
 * that may have slid blocks. A slot has 64 anchors; what is told beyond them is 0. No refusal but those of all calls. */
uint32_t vf_flex_places(const uint8_t *memory, size_t len, const struct vf_slot *slot, size_t *places,
                        size_t places_len);

/* Writes `from_len` bytes into the anchor's block, from an offset on. VF_NO_BLOCK, VF_BAD_RANGE where they would go
 * beyond its end. */
uint32_t vf_flex_put(uint8_t *memory, size_t len, struct vf_slot *slot, uint32_t anchor, size_t offset,
                     const uint8_t *from, size_t from_len);

/* Fills `to` with `to_len` bytes of the anchor's block, from an offset on. VF_NO_BLOCK, VF_BAD_RANGE where there are
 * fewer; then `to` stays. */
uint32_t vf_flex_read(const uint8_t *memory, size_t len, const struct vf_slot *slot, uint32_t anchor, size_t offset,
                      uint8_t *to, size_t to_len);

/* ---- The C heap below flex -----------------------------------------------------------------------------------------
 *
 * What malloc() has of a program with flex. It lies below the flex blocks. Where it is too short for a claim or a
 * resize and budging is on, it grows by whole pages, and the flex blocks slide up. A block of it is told by its place,
 * which is its own until it is released or resized; nothing else moves it. A place beyond `len` is no block's.
 */

/* OS_Heap 1: tells the bytes of the largest block that could be claimed with no page more, and how many bytes are free
 * in all, between the C heap's first byte and its end. */
uint32_t vf_flex_describe(const uint8_t *memory, size_t len, const struct vf_slot *slot, size_t *most, size_t *free);

/* OS_Heap 2: claims a block of `n` bytes or up to 7 more, all of them 0, and tells its place. VF_BAD_SIZE where n is 0,
 * VF_NO_BUDGE, VF_NO_ROOM. */
uint32_t vf_flex_claim(uint8_t *memory, size_t len, struct vf_slot *slot, size_t n, size_t *place);

/* OS_Heap 3: releases the block at a place. The C heap stays as long as it is. VF_NOT_A_BLOCK. */
uint32_t vf_flex_release(uint8_t *memory, size_t len, struct vf_slot *slot, size_t place);

/* OS_Heap 4: gives the block at a place `delta` bytes more, or fewer, and tells where it is then: it may move. It keeps
 * its bytes, as far as it still has them; new ones are 0. VF_NOT_A_BLOCK, VF_BAD_SIZE where it would have fewer than 1,
 * VF_NO_BUDGE, VF_NO_ROOM. */
uint32_t vf_flex_resize(uint8_t *memory, size_t len, struct vf_slot *slot, size_t place, ptrdiff_t delta,
                        size_t *moved_to);

/* OS_Heap 6: tells how many bytes the block at a place has: what was asked for, or up to 7 more. VF_NOT_A_BLOCK. */
uint32_t vf_flex_block_size(const uint8_t *memory, size_t len, const struct vf_slot *slot, size_t place, size_t *size);

/* ---- A slot in any bytes --------------------------------------------------------------------------------------------
 *
 * These look at all of the slot first, so they have no fourth duty: `memory` may hold bytes that come from a file or
 * from somebody else, and `slot` any number of pages; its flag must be a bool, true or false. Where they are no slot
 * the calls answer what vf_flex_check answers, before all else but VF_NULL, and else what the call of the same name
 * does. With VF_CHECKED defined before this header, the names above stand for these.
 */

/* VF_OK where the pages lie in the bytes and are a slot. Else what is wrong first: VF_BAD_LENGTH, VF_NO_SLOT and
 * VF_SHORT as above; what is wrong with the C heap, VF_BAD_DESCRIPTOR, VF_BAD_LINK or VF_BAD_SEGMENT; and then
 * VF_BAD_FLEX_BLOCK, VF_BAD_ANCHOR_WORD, VF_SPARE_PAGE. */
uint32_t vf_flex_check(const uint8_t *memory, size_t len, const struct vf_slot *slot);

uint32_t vf_flex_checked_alloc(uint8_t *memory, size_t len, struct vf_slot *slot, uint32_t anchor, size_t n,
                               size_t *place);
uint32_t vf_flex_checked_free(uint8_t *memory, size_t len, struct vf_slot *slot, uint32_t anchor);
uint32_t vf_flex_checked_size(const uint8_t *memory, size_t len, const struct vf_slot *slot, uint32_t anchor,
                              size_t *size);
uint32_t vf_flex_checked_extend(uint8_t *memory, size_t len, struct vf_slot *slot, uint32_t anchor, size_t n);
uint32_t vf_flex_checked_midextend(uint8_t *memory, size_t len, struct vf_slot *slot, uint32_t anchor, size_t offset,
                                   ptrdiff_t by);
uint32_t vf_flex_checked_place(const uint8_t *memory, size_t len, const struct vf_slot *slot, uint32_t anchor,
                               size_t *place);
uint32_t vf_flex_checked_places(const uint8_t *memory, size_t len, const struct vf_slot *slot, size_t *places,
                                size_t places_len);
uint32_t vf_flex_checked_put(uint8_t *memory, size_t len, struct vf_slot *slot, uint32_t anchor, size_t offset,
                             const uint8_t *from, size_t from_len);
uint32_t vf_flex_checked_read(const uint8_t *memory, size_t len, const struct vf_slot *slot, uint32_t anchor,
                              size_t offset, uint8_t *to, size_t to_len);
uint32_t vf_flex_checked_describe(const uint8_t *memory, size_t len, const struct vf_slot *slot, size_t *most,
                                  size_t *free);
uint32_t vf_flex_checked_claim(uint8_t *memory, size_t len, struct vf_slot *slot, size_t n, size_t *place);
uint32_t vf_flex_checked_release(uint8_t *memory, size_t len, struct vf_slot *slot, size_t place);
uint32_t vf_flex_checked_resize(uint8_t *memory, size_t len, struct vf_slot *slot, size_t place, ptrdiff_t delta,
                                size_t *moved_to);
uint32_t vf_flex_checked_block_size(const uint8_t *memory, size_t len, const struct vf_slot *slot, size_t place,
                                    size_t *size);

/* ---- Wide slots ----------------------------------------------------------------------------------------------------
 *
 * A wide slot has flex blocks of 64 to 4,096 anchors, and no C heap. Its memory begins with two words of four bytes for
 * each anchor: the place of its block, 0 where it has none, and the block's size. Then come the bytes that
 * vf_flex_wide_budge gave, which are yours. The blocks lie from `base` up to `top` of the struct, without a gap: one of
 * n bytes takes n and one to eight more, up to a multiple of 8. What is behind `top` is free, and yours between calls.
 *
 * A block is told by its anchor, and stands at a place as in any slot, here a multiple of 8. It holds as long as the
 * count `slides` does: free, extend, midextend and budge add 1 to it where they have moved a block. Slides take longer
 * where a slot has more anchors and blocks. `anchors` of the struct is yours to change, between 64 and what
 * vf_flex_start_with was told, as long as each block's anchor is below it: the words of those above stay 0.
 *
 * Each call tests first, and has changed nothing then: VF_NULL; VF_BAD_LENGTH where `len` is below 512 or above 1 GiB;
 * VF_NO_SLOT; VF_SHORT where `top` exceeds `len`; VF_BAD_ANCHOR where there is an anchor. A refused call leaves all
 * `len` bytes and the struct. All of it is proved. The calls rely on the struct and on the words and blocks as the last
 * call left them, save for the bytes of blocks: they have no twins for any bytes.
 */

/* What of a wide slot does not stand in its bytes, as struct vf_slot of a slot. */
struct vf_wide_slot {
    size_t base;      /* the place where the blocks begin */
    size_t top;       /* the place where they end */
    uint32_t anchors; /* how many anchors it has, from 0 on; you may change it: see above */
    uint32_t slides;  /* how many calls have moved a block; behind 4,294,967,295 comes 0 */
};

/* flex_init: makes the bytes a slot with so many anchors and no block, whatever lay there. VF_BAD_LENGTH; VF_BAD_ANCHOR
 * where `anchors` is below 64 or above 4,096; then VF_NO_ROOM where `len` is below 8 for each. */
uint32_t vf_flex_start_with(uint8_t *memory, size_t len, struct vf_wide_slot *slot, uint32_t anchors);

/* flex_alloc: puts a block of `n` bytes on top, all of them 0, and tells its place. `n` may be 0. VF_ANCHOR_IN_USE,
 * VF_NO_ROOM. */
uint32_t vf_flex_wide_alloc(uint8_t *memory, size_t len, struct vf_wide_slot *slot, uint32_t anchor, size_t n,
                            size_t *place);

/* flex_free: takes the anchor's block away. Those above it come down. VF_NO_BLOCK. */
uint32_t vf_flex_wide_free(uint8_t *memory, size_t len, struct vf_wide_slot *slot, uint32_t anchor);

/* flex_size: tells how many bytes the anchor's block has. VF_NO_BLOCK. */
uint32_t vf_flex_wide_size(const uint8_t *memory, size_t len, const struct vf_wide_slot *slot, uint32_t anchor,
                           size_t *size);

/* flex_extend: cuts the anchor's block to `n` bytes, or gives it bytes up to `n`, which are 0. Those above it slide.
 * VF_NO_BLOCK, VF_NO_ROOM. */
uint32_t vf_flex_wide_extend(uint8_t *memory, size_t len, struct vf_wide_slot *slot, uint32_t anchor, size_t n);

/* flex_midextend: puts `by` bytes, which are 0, into the anchor's block at an offset, or where `by` is below 0 takes as
 * many before the offset out. VF_NO_BLOCK, VF_BAD_RANGE, VF_NO_ROOM, as vf_flex_midextend. */
uint32_t vf_flex_wide_midextend(uint8_t *memory, size_t len, struct vf_wide_slot *slot, uint32_t anchor, size_t offset,
                                ptrdiff_t by);

/* Tells where the anchor's block stands. VF_NO_BLOCK. */
uint32_t vf_flex_wide_place(const uint8_t *memory, size_t len, const struct vf_wide_slot *slot, uint32_t anchor,
                            size_t *place);

/* Tells where the blocks of the first `places_len` anchors stand, 0 for one that has none and beyond the last anchor.
 * No refusal but those of all calls. */
uint32_t vf_flex_wide_places(const uint8_t *memory, size_t len, const struct vf_wide_slot *slot, size_t *places,
                             size_t places_len);

/* Writes `from_len` bytes into the anchor's block, from an offset on. VF_NO_BLOCK, VF_BAD_RANGE where they would go
 * beyond its end. */
uint32_t vf_flex_wide_put(uint8_t *memory, size_t len, struct vf_wide_slot *slot, uint32_t anchor, size_t offset,
                          const uint8_t *from, size_t from_len);

/* Fills `to` with `to_len` bytes of the anchor's block, from an offset on. VF_NO_BLOCK, VF_BAD_RANGE where there are
 * fewer; then `to` stays. */
uint32_t vf_flex_wide_read(const uint8_t *memory, size_t len, const struct vf_wide_slot *slot, uint32_t anchor,
                           size_t offset, uint8_t *to, size_t to_len);

/* flex_budge: gives you `n` bytes below the blocks, or up to seven more for a multiple of 8, and tells where they
 * begin; all blocks slide up for that. They are behind those that were given before, and stay yours. VF_NO_ROOM. */
uint32_t vf_flex_wide_budge(uint8_t *memory, size_t len, struct vf_wide_slot *slot, size_t n, size_t *place);

/* ---- The desk ------------------------------------------------------------------------------------------------------
 *
 * A small desktop: up to 32 tasks, each with a slot of its own (64 anchors, a C heap, flex blocks), a module area,
 * messages that wait in blocks of it, areas, and files that tasks hand each other in memory. All of it lies in pages of
 * one pool. docs/DESK.md says what each command does; each has a call here, and vf_desk_line takes the commands as
 * lines of text.
 *
 *     struct vf_desk desk = VF_DESK_CLOSED;
 *     uint32_t handle, address;
 *     if (vf_desk_open(&desk, 64, 1, 1) == VF_OK) {
 *         vf_desk_task(&desk, VF_TEXT("Edit"), 4096, VF_TASK_PLAIN, &handle);
 *         vf_desk_alloc(&desk, VF_TEXT("Edit"), 0, 100, &address);
 *         vf_desk_close(&desk);
 *     }
 *
 * A task and a file are told by name: a letter, and up to 11 letters or digits. An address is one that a task on RISC
 * OS would see: a slot begins at &8000, the module area at &1800000. Numbers and sizes are at most 2,147,483,647, and
 * so is the magnitude of an amount.
 *
 * Each call tests first, and has changed nothing then: VF_NULL; VF_CLOSED, but for vf_desk_file, vf_desk_file_lent,
 * vf_desk_open and vf_desk_close; VF_BAD_ARGUMENT. Then come the refusals of the rules, of which each call's comment
 * names those that it can have.
 *
 * A list is put into an array of yours: as many items as it has room for. How many there are in all is told by the
 * count, so that an array of length 0 asks for the count alone; its pointer is not null even then.
 */

/* A desk. Keep it as VF_DESK_CLOSED makes it, or as the last call left it. */
struct vf_desk {
    void *at;
    bool live;
};
#define VF_DESK_CLOSED { 0, false }

/* A string as the two arguments that a name, a leafname or a line takes. It needs <string.h>. */
#ifdef __cplusplus
#define VF_TEXT(string) reinterpret_cast<const uint8_t *>(string), strlen(string)
#else
#define VF_TEXT(string) (const uint8_t *)(string), strlen(string)
#endif

/* How a task takes part in transfers. */
enum {
    VF_TASK_PLAIN = 0, /* it sends and receives */
    VF_TASK_DEAF = 1,  /* it takes no DataSave */
    VF_TASK_FILE = 2,  /* it answers no RAMFetch, so that its receivers ask for a file */
    VF_TASK_RAW = 3    /* it has code of its own: your program takes and sends its messages */
};

/* What a poll did with its message. */
enum {
    VF_DID_NOTHING = 0,        /* the message is for no record, or a DataSave that was not taken */
    VF_DID_FETCH = 1,          /* a transfer was begun: `sent` is the fetch */
    VF_DID_SEND = 2,           /* `count` bytes went into the receiver's buffer: `sent` is the transmit */
    VF_DID_REFUSE = 3,         /* the transfer failed by `refusal` */
    VF_DID_FAIL = 4,           /* the transfer failed as its message came back */
    VF_DID_DRAIN = 5,          /* the buffer of a transfer that was given up was released */
    VF_DID_TAKE_LAST = 6,      /* the last `count` bytes were taken: the document is whole */
    VF_DID_TAKE = 7,           /* `count` bytes were taken: `sent` is the next fetch */
    VF_DID_TAKE_AND_FAIL = 8,  /* `count` bytes were taken, and the next fetch failed by `refusal` */
    VF_DID_ASK = 9,            /* the sender was asked for a file: `sent` is the DataSaveAck */
    VF_DID_SAVE = 10,          /* the `count` bytes of the source became the scrap file: `sent` is the DataLoad */
    VF_DID_LOAD = 11,          /* the scrap file of `count` bytes became the document: `sent` is the DataLoadAck */
    VF_DID_LOAD_AND_FAIL = 12, /* the same, but the answer failed by `refusal` */
    VF_DID_FINISH = 13,        /* the recipient has loaded the file */
    VF_DID_HAND_OUT = 14       /* the message was handed to a task with code of its own */
};

/* What a poll took and did. What does not apply is 0. */
struct vf_event {
    uint32_t code;     /* Null_Reason_Code 0, User_Message 17, User_Message_Recorded 18, User_Message_Acknowledge 19 */
    uint32_t action;   /* DataSave 1, DataSaveAck 2, DataLoad 3, DataLoadAck 4, RAMFetch 6, RAMTransmit 7 */
    uint32_t my_ref;
    uint32_t your_ref; /* the ref of the message that it answers */
    uint32_t did;      /* VF_DID_.. */
    uint32_t count;    /* bytes */
    uint32_t sent;     /* the ref of a message */
    uint32_t refusal;  /* a status, 1 to 26 */
};

/* A message block: words in little-endian order, as the Wimp has them. The first says how many bytes there are, 20 to
 * 256; then come the sender's handle, my_ref, your_ref, the action, and what belongs to it. */
struct vf_message {
    uint8_t bytes[256];
};

/* A flex block. */
struct vf_block {
    uint32_t anchor;
    uint32_t address;
    uint32_t size;
};

/* A segment of a C heap: a block, by its first byte's address and its size, or a hole, by that of its first byte. */
struct vf_segment {
    uint32_t address;
    uint32_t size;
    bool used;
};

/* The sums over a C heap: its length, the largest block that could be claimed, and all free bytes. */
struct vf_heap_sums {
    uint32_t length;
    uint32_t largest;
    uint32_t free;
};

/* The state of a transfer's record. */
enum {
    VF_RECORD_OPEN = 0,     /* it goes out, and has not ended */
    VF_RECORD_FETCHING = 1, /* it comes in through its buffer */
    VF_RECORD_DRAINING = 2, /* it was given up, and its buffer is not back yet */
    VF_RECORD_ASKING = 3,   /* it waits for a file */
    VF_RECORD_DONE = 4,     /* it ended, and all bytes were handed over */
    VF_RECORD_FAILED = 5    /* it ended early */
};

/* A record of a transfer: its state, the ref of its DataSave, and the bytes that were handed over so far. */
struct vf_record {
    uint32_t state;
    uint32_t id;
    uint32_t count;
};

/* An area by its number, with no name; or a slot by its task's name, with the number 0. A zero ends the name. */
struct vf_area {
    uint32_t number;
    uint32_t pages;
    uint8_t name[13];
};

/* Adds a file, which vf_desk_load finds by its name once the desk is open. The bytes are copied. VF_OPEN,
 * VF_BAD_ARGUMENT, VF_BAD_LENGTH where there are more than 1,048,576, VF_FILE_EXISTS, VF_NO_MEMORY. */
uint32_t vf_desk_file(struct vf_desk *desk, const uint8_t *name, size_t name_len, const uint8_t *bytes,
                      size_t bytes_len);

/* Adds a file as vf_desk_file does, but copies none of its bytes. They are yours, as those of a static array are, and
 * stay where and as they are until the desk is closed. No call writes to them. The same statuses. */
uint32_t vf_desk_file_lent(struct vf_desk *desk, const uint8_t *name, size_t name_len, const uint8_t *bytes,
                           size_t bytes_len);

/* Opens a desk of 8 to 1,024 pages with the files that were added. Its first task gets `first_handle`, its first
 * message `first_ref`; both count up from there, and may not be 0. VF_OPEN, VF_BAD_ARGUMENT, VF_NO_MEMORY: then the
 * files stay added. */
uint32_t vf_desk_open(struct vf_desk *desk, uint32_t pages, uint32_t first_handle, uint32_t first_ref);

/* How many bytes a desk of so many pages takes at most, each request rounded up to 16 bytes, if no file was added: a
 * bound for an arena of your own (c/examples/arena.h). */
#define VF_DESK_ROOM(pages) ((size_t)(pages) * 4980 + 43008)

/* Closes the desk, and gives back all memory that it took. The struct is all zeros then, and may be opened again. A
 * desk that is closed already stays so. */
uint32_t vf_desk_close(struct vf_desk *desk);

/* -- tasks, and what they hand each other -- */

/* Wimp_Initialise: starts a task with a receive buffer of 1 to 65,536 bytes, and tells its handle. `manner` is
 * VF_TASK_PLAIN, VF_TASK_DEAF, VF_TASK_FILE or VF_TASK_RAW. VF_NAME_IN_USE, VF_TOO_MANY_TASKS, VF_NO_HANDLES,
 * VF_NO_ROOM. */
uint32_t vf_desk_task(struct vf_desk *desk, const uint8_t *name, size_t name_len, uint32_t buffer, uint32_t manner,
                      uint32_t *handle);

/* Wimp_CloseDown: ends a task. The messages that wait for it come back to their senders or vanish, and its pages are
 * free. VF_NO_NAME. */
uint32_t vf_desk_kill(struct vf_desk *desk, const uint8_t *name, size_t name_len);

/* Wimp_SendMessage with Message_DataSave: offers the anchor's block to the task `to` under a leafname of 1 to 10
 * bytes, and tells the message's ref, which is the id of the transfer. VF_NO_NAME, VF_NO_BLOCK, VF_BUSY, VF_NO_TASK,
 * VF_NO_REFS, VF_QUEUE_FULL, VF_NO_ROOM, VF_WRONG_MANNER where the task has code of its own. */
uint32_t vf_desk_save(struct vf_desk *desk, const uint8_t *name, size_t name_len, uint32_t anchor, const uint8_t *to,
                      size_t to_len, const uint8_t *leaf, size_t leaf_len, uint32_t *my_ref);

/* Wimp_Poll: takes the task's next message, does what it asks for, and tells both. With no message the code is 0.
 * VF_NO_NAME. */
uint32_t vf_desk_poll(struct vf_desk *desk, const uint8_t *name, size_t name_len, struct vf_event *event);

/* Wimp_Poll: tells the message that the task's next poll would take, as its block, and its reason code, 0 where there
 * is none. Nothing is taken, and the bytes behind the message stay. VF_NO_NAME. */
uint32_t vf_desk_next(struct vf_desk *desk, const uint8_t *name, size_t name_len, struct vf_message *message,
                      uint32_t *code);

/* Gives up the transfer with this id that comes in; with the id 0 the first one that can be given up. VF_NO_NAME,
 * VF_NOT_OPEN. */
uint32_t vf_desk_cancel_in(struct vf_desk *desk, const uint8_t *name, size_t name_len, uint32_t id);

/* Gives up the transfer with this id that goes out and is open; with the id 0 the first one. VF_NO_NAME,
 * VF_NOT_OPEN. */
uint32_t vf_desk_cancel_out(struct vf_desk *desk, const uint8_t *name, size_t name_len, uint32_t id);

/* Wimp_SendMessage: sends the message that the task sent last once more, and tells its new ref. VF_NO_NAME,
 * VF_NOTHING_SENT, VF_NO_TASK, VF_NO_REFS, VF_QUEUE_FULL, VF_NO_ROOM. */
uint32_t vf_desk_repeat(struct vf_desk *desk, const uint8_t *name, size_t name_len, uint32_t *my_ref);

/* -- flex blocks -- */

/* flex_alloc: puts a block of `size` bytes on top of the slot, all of them 0, and tells its address. VF_NO_NAME,
 * VF_ANCHOR_IN_USE, VF_NO_ROOM. */
uint32_t vf_desk_alloc(struct vf_desk *desk, const uint8_t *name, size_t name_len, uint32_t anchor, uint32_t size,
                       uint32_t *address);

/* flex_alloc and OS_File 16: puts a block with a file's bytes on top of the slot, and tells its address. VF_NO_NAME,
 * VF_NO_FILE, VF_ANCHOR_IN_USE, VF_NO_ROOM. */
uint32_t vf_desk_load(struct vf_desk *desk, const uint8_t *name, size_t name_len, uint32_t anchor, const uint8_t *file,
                      size_t file_len, uint32_t *address);

/* Writes bytes into the anchor's block, from an offset on: one at least, and any number that the block has, also more
 * than the 507 for which a line has room. VF_NO_NAME, VF_NO_BLOCK, VF_BUSY, VF_BAD_RANGE. */
uint32_t vf_desk_put(struct vf_desk *desk, const uint8_t *name, size_t name_len, uint32_t anchor, uint32_t offset,
                     const uint8_t *from, size_t from_len);

/* flex_free: takes the anchor's block away. Those above it come down. VF_NO_NAME, VF_NO_BLOCK, VF_BUSY. */
uint32_t vf_desk_free(struct vf_desk *desk, const uint8_t *name, size_t name_len, uint32_t anchor);

/* flex_extend: cuts the anchor's block to `size` bytes, or gives it bytes up to `size`, which are 0. VF_NO_NAME,
 * VF_NO_BLOCK, VF_BUSY, VF_NO_ROOM. */
uint32_t vf_desk_extend(struct vf_desk *desk, const uint8_t *name, size_t name_len, uint32_t anchor, uint32_t size);

/* flex_midextend: puts `by` bytes, which are 0, into the anchor's block at an offset, or where `by` is below 0 takes
 * as many before the offset out. VF_NO_NAME, VF_NO_BLOCK, VF_BUSY, VF_BAD_RANGE, VF_NO_ROOM. */
uint32_t vf_desk_mid(struct vf_desk *desk, const uint8_t *name, size_t name_len, uint32_t anchor, uint32_t offset,
                     int32_t by);

/* -- the C heap of a task -- */

/* OS_Heap 2: claims a block of `size` bytes or up to 7 more of the task's C heap, all of them 0, and tells its
 * address. VF_NO_NAME, VF_BAD_SIZE, VF_NO_BUDGE, VF_NO_ROOM. */
uint32_t vf_desk_claim(struct vf_desk *desk, const uint8_t *name, size_t name_len, uint32_t size, uint32_t *address);

/* OS_Heap 3: releases the block at an address. VF_NO_NAME, VF_NOT_A_BLOCK, VF_BUSY. */
uint32_t vf_desk_release(struct vf_desk *desk, const uint8_t *name, size_t name_len, uint32_t address);

/* OS_Heap 4: gives the block at an address `delta` bytes more, or fewer, and tells where it is then. VF_NO_NAME,
 * VF_NOT_A_BLOCK, VF_BUSY, VF_BAD_SIZE, VF_NO_BUDGE, VF_NO_ROOM. */
uint32_t vf_desk_resize(struct vf_desk *desk, const uint8_t *name, size_t name_len, uint32_t address, int32_t delta,
                        uint32_t *moved_to);

/* flex_set_budge: says whether the flex blocks slide up where the C heap must grow, and tells whether they did.
 * VF_NO_NAME. */
uint32_t vf_desk_budge(struct vf_desk *desk, const uint8_t *name, size_t name_len, bool on, bool *was);

/* -- areas, and the module area -- */

/* OS_ChangeDynamicArea: moves the length of an area by `delta` bytes in whole pages, and tells how many bytes were
 * moved. VF_EXCESSIVE_SHRINK, VF_NO_ROOM, VF_NO_AREA, VF_TOO_BIG. */
uint32_t vf_desk_area(struct vf_desk *desk, uint32_t number, int32_t delta, uint32_t *bytes);

/* OS_DynamicArea 0: makes an area of no page, and of at most `most` pages, 1 to 1,024, and tells its number.
 * VF_TOO_MANY_AREAS, VF_NO_NUMBERS. */
uint32_t vf_desk_make(struct vf_desk *desk, uint32_t most, uint32_t *number);

/* OS_DynamicArea 1: takes a made area away, whose number is from 256 on. VF_NO_AREA. */
uint32_t vf_desk_remove(struct vf_desk *desk, uint32_t number);

/* OS_Module 6: claims a block of `size` bytes or up to 7 more of the module area, all of them 0, and tells its
 * address. VF_BAD_SIZE, VF_NO_ROOM. */
uint32_t vf_desk_rma_claim(struct vf_desk *desk, uint32_t size, uint32_t *address);

/* OS_Module 7: frees the block at an address of the module area. VF_NOT_A_BLOCK, VF_NOT_YOURS where it has a
 * message. */
uint32_t vf_desk_rma_free(struct vf_desk *desk, uint32_t address);

/* OS_Module 13: gives the block at an address of the module area `delta` bytes more, or fewer, and tells where it is
 * then. VF_NOT_A_BLOCK, VF_NOT_YOURS, VF_BAD_SIZE, VF_NO_ROOM. */
uint32_t vf_desk_rma_resize(struct vf_desk *desk, uint32_t address, int32_t delta, uint32_t *moved_to);

/* -- questions -- */

/* flex_size: tells how many bytes the anchor's block has, and fills `to` with its first ones. VF_NO_NAME,
 * VF_NO_BLOCK. */
uint32_t vf_desk_show(struct vf_desk *desk, const uint8_t *name, size_t name_len, uint32_t anchor, uint8_t *to,
                      size_t to_len, uint32_t *size);

/* Lists the task's flex blocks from below. VF_NO_NAME. */
uint32_t vf_desk_blocks(struct vf_desk *desk, const uint8_t *name, size_t name_len, struct vf_block *blocks,
                        size_t blocks_len, size_t *count);

/* OS_Heap 1: tells the sums over the task's C heap, and lists its segments from below. VF_NO_NAME. */
uint32_t vf_desk_heap(struct vf_desk *desk, const uint8_t *name, size_t name_len, struct vf_heap_sums *sums,
                      struct vf_segment *segments, size_t segments_len, size_t *count);

/* Tells the task's handle, and lists the records of its transfers, those that go out and those that come in, at most
 * 8 each. VF_NO_NAME. */
uint32_t vf_desk_status(struct vf_desk *desk, const uint8_t *name, size_t name_len, uint32_t *handle,
                        struct vf_record *outgoing, size_t outgoing_len, size_t *outs, struct vf_record *incoming,
                        size_t incoming_len, size_t *ins);

/* OS_ReadDynamicArea and Wimp_SlotSize: tells how many pages are free, and lists areas 0 to 5, the made areas in
 * order of number, and the slots in order of handle, at most 70. */
uint32_t vf_desk_areas(struct vf_desk *desk, uint32_t *free, struct vf_area *areas, size_t areas_len, size_t *count);

/* -- bytes of blocks, where they lie --
 *
 * A block is told by the address of its first byte, as a claim or a list tells it, and bytes of it by an offset from
 * there on. All that are read or written lie in the block, or it is VF_BAD_RANGE. A read takes any offset, and one of
 * no byte tells the size alone. A write has a byte at least, and an offset of at most 2,147,483,647, or it is
 * VF_BAD_ARGUMENT.
 */

/* Tells how many bytes the anchor's block has, and fills `to` with those from an offset on. VF_NO_NAME, VF_NO_BLOCK,
 * VF_BAD_RANGE. */
uint32_t vf_desk_show_at(struct vf_desk *desk, const uint8_t *name, size_t name_len, uint32_t anchor, uint32_t offset,
                         uint8_t *to, size_t to_len, uint32_t *size);

/* Tells how many bytes the block at an address of the task's slot has, a flex block or one of the C heap, and fills
 * `to` with those from an offset on. VF_NO_NAME, VF_NOT_A_BLOCK where no block of either kind begins there,
 * VF_BAD_RANGE. */
uint32_t vf_desk_read(struct vf_desk *desk, const uint8_t *name, size_t name_len, uint32_t address, uint32_t offset,
                      uint8_t *to, size_t to_len, uint32_t *size);

/* Writes bytes into the block at an address of the task's slot, a flex block or one of the C heap, from an offset on: a
 * flex block as vf_desk_put does. Of the desk these bytes change alone. VF_NO_NAME, VF_NOT_A_BLOCK where no block of
 * either kind begins there, VF_BUSY, VF_BAD_RANGE. */
uint32_t vf_desk_write(struct vf_desk *desk, const uint8_t *name, size_t name_len, uint32_t address, uint32_t offset,
                       const uint8_t *from, size_t from_len);

/* Tells how many bytes the block at an address of the module area has, and fills `to` with those from an offset on.
 * VF_NOT_A_BLOCK, VF_NOT_YOURS where it has a message, VF_BAD_RANGE. */
uint32_t vf_desk_rma_read(struct vf_desk *desk, uint32_t address, uint32_t offset, uint8_t *to, size_t to_len,
                          uint32_t *size);

/* Writes bytes into the block at an address of the module area, from an offset on. VF_NOT_A_BLOCK, VF_NOT_YOURS where
 * it has a message, VF_BAD_RANGE. */
uint32_t vf_desk_rma_write(struct vf_desk *desk, uint32_t address, uint32_t offset, const uint8_t *from,
                           size_t from_len);

/* Wimp_TransferBlock: moves `n` bytes from an address in the slot of one task to an address in the slot of another, or
 * in its own. Tasks are told by their handles, and an address may lie anywhere in a block. Whether a transfer uses the
 * blocks is not looked at: the bytes of a buffer that fetches may be overwritten. vf_desk_transfer_to asks for a place
 * that was opened. In this order: VF_NO_TASK where a task is not live, VF_BAD_RANGE where either range does not lie
 * whole in one live block, or where the two share a byte. */
uint32_t vf_desk_transfer(struct vf_desk *desk, uint32_t from, uint32_t address, uint32_t to, uint32_t address2,
                          uint32_t n);

/* -- tasks with code of their own --
 *
 * A task of VF_TASK_RAW plays no part by itself: your program takes its messages and answers them. The desk writes who
 * has sent a message, and changes no byte of another task but in a buffer that this task opened. Messages and pages are
 * shared by all: one task can use them up. Tasks are told by their handles, as in a message block. All but vf_desk_take
 * test last that the task has code of its own, VF_WRONG_MANNER, and then that a ref was given, VF_BAD_REF.
 */

/* Wimp_Poll: takes the task's next message, and tells it as its block, and its reason code, 0 where there is none. The
 * bytes behind the message stay. A task that the desk plays does what the message asks for. VF_NO_NAME. */
uint32_t vf_desk_take(struct vf_desk *desk, const uint8_t *name, size_t name_len, struct vf_message *message,
                      uint32_t *code);

/* Wimp_SendMessage: sends a message with code 17 or 18 to the task `to`, with the ref of the message that it answers,
 * 0 for an original, its action, and up to 236 bytes of whole words behind that. Tells its ref. VF_NO_NAME, VF_NO_TASK,
 * VF_NO_REFS, VF_QUEUE_FULL, VF_NO_ROOM, VF_WRONG_MANNER, VF_BAD_REF. */
uint32_t vf_desk_send(struct vf_desk *desk, const uint8_t *name, size_t name_len, uint32_t code, uint32_t to,
                      uint32_t your_ref, uint32_t action, const uint8_t *bytes, size_t bytes_len, uint32_t *my_ref);

/* Wimp_SendMessage with code 19: says that the message which the task holds is answered, so that it does not come back
 * to its sender. Tells its ref, 0 where none is held. VF_NO_NAME, VF_WRONG_MANNER. */
uint32_t vf_desk_ack(struct vf_desk *desk, const uint8_t *name, size_t name_len, uint32_t *answered);

/* Writes bytes, one at least, at an address of the task, as its code would store them. All of them lie in one of its
 * blocks, a flex block or one of the C heap, and of the desk these bytes change alone. VF_NO_NAME, VF_BAD_RANGE,
 * VF_WRONG_MANNER. */
uint32_t vf_desk_write_at(struct vf_desk *desk, const uint8_t *name, size_t name_len, uint32_t address,
                          const uint8_t *from, size_t from_len);

/* Wimp_TransferBlock: moves `n` bytes at an address of the task to a place that the task `to` opened: of one that the
 * desk plays in the buffer of a transfer that fetches from this task; of another in what a RAMFetch names that this
 * task holds. VF_NO_NAME, VF_BAD_RANGE, VF_NO_TASK, VF_WRONG_MANNER. */
uint32_t vf_desk_transfer_to(struct vf_desk *desk, const uint8_t *name, size_t name_len, uint32_t address, uint32_t to,
                             uint32_t place, uint32_t n);

/* Wimp_SendMessage with Message_DataLoad: makes the anchor's block the scrap file, and tells the task `to` of it, in
 * answer to a DataSaveAck's ref. Tells the DataLoad's ref. VF_NO_NAME, VF_NO_BLOCK, VF_BUSY where there is a scrap
 * file, VF_NO_TASK, VF_NO_REFS, VF_QUEUE_FULL, VF_NO_ROOM, VF_WRONG_MANNER, VF_BAD_REF. */
uint32_t vf_desk_spool(struct vf_desk *desk, const uint8_t *name, size_t name_len, uint32_t anchor, uint32_t to,
                       uint32_t your_ref, uint32_t *my_ref);

/* Puts the bytes of the scrap file into a new flex block, and tells its address: the task holds the file's DataLoad.
 * The file stays. VF_NO_NAME, VF_NO_FILE, VF_ANCHOR_IN_USE, VF_NO_ROOM, VF_WRONG_MANNER. */
uint32_t vf_desk_scrap(struct vf_desk *desk, const uint8_t *name, size_t name_len, uint32_t anchor, uint32_t *address);

/* -- lines -- */

/* Takes a line of a script without its line feed, and keeps its reply. A line that the desk does not understand is
 * answered in the reply too. */
uint32_t vf_desk_line(struct vf_desk *desk, const uint8_t *line, size_t line_len);

/* Puts the text of the last line's reply into `text`, and tells how many bytes it has, as often as it is asked; what a
 * question lists is looked up anew. The bytes behind the text stay: no zero ends it. VF_SHORT where it has more bytes
 * than there is room for: `text` and `length` stay then. */
uint32_t vf_desk_reply(struct vf_desk *desk, uint8_t *text, size_t text_len, size_t *length);

/* ---- Transfers of your own tasks -----------------------------------------------------------------------------------
 *
 * The two sides of a task's transfers, for a program that has memory and messages of its own. A sender and a receiver
 * are structs of words: which transfers are going, and with that what a message asks for. Your program moves the bytes
 * and sends the messages. The structs may be copied, saved and moved, as they have no pointers.
 *
 * An event is a call that changes nothing and tells at most one action, which the program does. A second call tells how
 * the action ended, with the same struct. That call answers VF_NOT_OPEN, and changes nothing, where the transfer is no
 * longer as the action says: it went on, was given up, or is another task's.
 *
 * | What comes         | The call                  | The action, and what it asks for        | Told by              |
 * |--------------------|---------------------------|-----------------------------------------|----------------------|
 * | DataSave was sent  | vf_sender_offer           |                                         |                      |
 * | RAMFetch           | vf_sender_on_fetch        | VF_DO_TRANSMIT: a part, RAMTransmit     | vf_sender_sent       |
 * | DataSaveAck        | vf_sender_on_ack          | VF_DO_SAVE_FILE: a file, DataLoad       | vf_sender_saved      |
 * | DataLoadAck        | vf_sender_on_load_ack     | VF_DO_FINISH: the size of the source    | vf_sender_loaded     |
 * | 19 of what it sent | vf_sender_on_bounce       |                                         |                      |
 * | DataSave           | vf_receiver_on_save       | VF_DO_CLAIM: buffer, document, RAMFetch | vf_receiver_fetching |
 * | RAMTransmit        | vf_receiver_on_transmit   | VF_DO_APPEND: bytes, then VF_NEXT_FETCH | vf_receiver_fetched  |
 * |                    |                           | or then VF_NEXT_FINISH: the buffer goes | vf_receiver_finished |
 * |                    |                           | VF_DO_RELEASE: the buffer goes          | vf_receiver_failed   |
 * | 19 of RAMFetch     | vf_receiver_on_bounce     | VF_DO_ASK_FOR_FILE: DataSaveAck         | vf_receiver_asking   |
 * |                    |                           | VF_DO_RELEASE: the buffer goes          | vf_receiver_failed   |
 * | 19 of DataSaveAck  | vf_receiver_on_ack_bounce |                                         |                      |
 * | DataLoad           | vf_receiver_on_load       | VF_DO_LOAD_FILE: the file, DataLoadAck  | vf_receiver_loaded   |
 *
 * An action that was refused is told by vf_sender_failed or vf_receiver_failed. Each message of a transfer needs a ref
 * that no other has, as records are found by their refs. A handle, a ref and an address are numbers of yours, of 32
 * bits; an anchor is a number from 0 to 63 by which you find a block.
 *
 * Each call tests first, and has changed nothing then: VF_NULL; VF_BAD_RECORDS where there is a sender or receiver;
 * VF_BAD_ACTION where there is an action; VF_BAD_ANCHOR where there is an anchor. After vf_sender_start or
 * vf_receiver_start, and after each call, the struct is one, as long as nothing else writes to it.
 */

/* What there is to do. */
enum {
    VF_DO_NOTHING = 0,      /* nothing: the message is for no transfer */
    VF_DO_TRANSMIT = 1,     /* put a part into the fetch's buffer, and send a RAMTransmit: the last as 17, else 18 */
    VF_DO_SAVE_FILE = 2,    /* make the source a file, and send a DataLoad as 18 */
    VF_DO_FINISH = 3,       /* look how many bytes the source has: all of them were loaded */
    VF_DO_CLAIM = 4,        /* have a buffer and an empty document, and send the first RAMFetch as 18 */
    VF_DO_APPEND = 5,       /* put the first `n` bytes of the buffer at the document's end; then `next` */
    VF_DO_ASK_FOR_FILE = 6, /* send a DataSaveAck as 18, and let the buffer go */
    VF_DO_LOAD_FILE = 7,    /* put the file of the DataLoad at the document's end, and send a DataLoadAck as 17 */
    VF_DO_RELEASE = 8       /* let the buffer go: the transfer ends */
};

/* What follows on bytes that were appended. */
enum {
    VF_NEXT_FETCH = 1, /* send the RAMFetch of `next_fetch` as 18: the buffer was full */
    VF_NEXT_FINISH = 2 /* let the buffer go: the bytes were the last */
};

/* Why a transfer that comes in ends early. */
enum {
    VF_END_DRAINED = 1,    /* it had been given up, and its last fetch was answered or came back */
    VF_END_UNANSWERED = 2, /* a fetch came back that was not its first one */
    VF_END_UNCOUNTABLE = 3 /* more bytes came than 32 bits count */
};

/* A record of a transfer that goes out: VF_RECORD_OPEN, DONE or FAILED. Of one that has ended the id and the count are
 * kept, and the other words are 0. */
struct vf_outgoing {
    uint32_t state;
    uint32_t id;        /* the ref of its DataSave */
    uint32_t recipient; /* the task that the data is for */
    uint32_t anchor;    /* of the source */
    uint32_t count;     /* the bytes sent so far */
    uint32_t last;      /* the ref of the last message that it sent */
};

/* A record of a transfer that comes in: VF_RECORD_FETCHING, DRAINING, ASKING, DONE or FAILED. One that waits for a file
 * has the ref of its DataSaveAck in `fetch`. Of one that has ended the id, the anchor and the count are kept. */
struct vf_incoming {
    uint32_t state;
    uint32_t id;     /* the ref of its DataSave */
    uint32_t sender; /* the task that sends */
    uint32_t anchor; /* of the document */
    uint32_t buffer; /* the buffer's address */
    uint32_t count;  /* the bytes taken so far */
    uint32_t fetch;  /* the ref of its last RAMFetch */
};

/* The transfers of a task that go out, and those that come in: as many records as `count` says, in the order made. */
struct vf_sender {
    uint32_t count;
    struct vf_outgoing records[8];
};
struct vf_receiver {
    uint32_t count;
    struct vf_incoming records[8];
};

/* What a sender has to do: VF_DO_.. with the transfer as it stands. What does not apply is 0. */
struct vf_send_action {
    uint32_t what;
    uint32_t id;
    uint32_t recipient;
    uint32_t anchor;
    uint32_t count;
    uint32_t last;
    uint32_t to;      /* the task that the message goes to */
    uint32_t answers; /* its your_ref */
    uint32_t buffer;  /* the address of the fetch's buffer */
    uint32_t room;    /* the bytes that were asked for */
};

/* The bytes of a source that a transmit sends: so many from an offset on. Behind the last ones no RAMFetch comes. */
struct vf_part {
    uint32_t offset;
    uint32_t n;
    uint32_t is_last; /* 1 or 0 */
};

/* A RAMFetch that is to be sent. */
struct vf_fetch {
    uint32_t to;
    uint32_t answers;
    uint32_t buffer;
    uint32_t room;
};

/* What a receiver has to do. */
struct vf_take_action {
    uint32_t what;
    uint32_t id;
    uint32_t sender;
    uint32_t anchor;
    uint32_t buffer;
    uint32_t count;
    uint32_t fetch;
    uint32_t n;                 /* VF_DO_APPEND: how many bytes */
    uint32_t next;              /* VF_NEXT_.. */
    struct vf_fetch next_fetch; /* VF_NEXT_FETCH */
    uint32_t to;                /* VF_DO_LOAD_FILE: whom the DataLoadAck goes to, and its your_ref */
    uint32_t answers;
    uint32_t ending;            /* VF_DO_RELEASE: VF_END_.. */
};

/* Makes the struct a sender with no transfer, whatever was in it. Only VF_NULL. */
uint32_t vf_sender_start(struct vf_sender *sender);

/* Message_DataSave: opens a record for one that is sent with the ref `id`, about the block at an anchor. Of eight
 * records the first that has ended goes. VF_BUSY where eight are open. */
uint32_t vf_sender_offer(struct vf_sender *sender, uint32_t id, uint32_t recipient, uint32_t anchor);

/* Message_RAMFetch: tells what one asks for, of its buffer's address and length. */
uint32_t vf_sender_on_fetch(const struct vf_sender *sender, uint32_t from, uint32_t my_ref, uint32_t your_ref,
                            uint32_t buffer, uint32_t length, struct vf_send_action *action);

/* Message_DataSaveAck: tells what one asks for. */
uint32_t vf_sender_on_ack(const struct vf_sender *sender, uint32_t from, uint32_t my_ref, uint32_t your_ref,
                          struct vf_send_action *action);

/* Message_DataLoadAck: tells what one asks for. */
uint32_t vf_sender_on_load_ack(const struct vf_sender *sender, uint32_t from, uint32_t your_ref,
                               struct vf_send_action *action);

/* Tells which bytes of a source of `size` bytes an action to transmit sends. */
uint32_t vf_sender_part(const struct vf_send_action *action, uint32_t size, struct vf_part *part);

/* Message_RAMTransmit: the part went into the buffer, and the message with the ref `last` says so. The last part ends
 * the transfer. VF_NOT_OPEN. */
uint32_t vf_sender_sent(struct vf_sender *sender, const struct vf_send_action *action, uint32_t size, uint32_t last);

/* Message_DataLoad: the source became a file, and the message with the ref `last` says so. VF_NOT_OPEN. */
uint32_t vf_sender_saved(struct vf_sender *sender, const struct vf_send_action *action, uint32_t last);

/* The source, which has `size` bytes, was loaded as a file: the transfer is done. VF_NOT_OPEN. */
uint32_t vf_sender_loaded(struct vf_sender *sender, const struct vf_send_action *action, uint32_t size);

/* The action was refused: its transfer failed. VF_NOT_OPEN. */
uint32_t vf_sender_failed(struct vf_sender *sender, const struct vf_send_action *action);

/* The message with the ref `last` came back: the transfer whose last one it was failed. Tells whether there is one. */
uint32_t vf_sender_on_bounce(struct vf_sender *sender, uint32_t last, bool *known);

/* Gives an open transfer up: the one with the id, and where `id` is 0 the first. VF_NOT_OPEN where there is none. */
uint32_t vf_sender_cancel(struct vf_sender *sender, uint32_t id);

/* Tells whether the anchor's block is the source of an open transfer: then it has to stay as it is. */
uint32_t vf_sender_is_source(const struct vf_sender *sender, uint32_t anchor, bool *is_source);

/* Makes the struct a receiver with no transfer, whatever was in it. Only VF_NULL. */
uint32_t vf_receiver_start(struct vf_receiver *receiver);

/* Message_DataSave: tells what one asks for: nothing of a deaf task, nor where eight transfers are coming in. */
uint32_t vf_receiver_on_save(const struct vf_receiver *receiver, bool is_deaf, uint32_t from, uint32_t my_ref,
                             struct vf_take_action *action);

/* Message_RAMFetch: tells the first one of a claim, for a buffer of `room` bytes at an address. */
uint32_t vf_receiver_first_fetch(const struct vf_take_action *action, uint32_t buffer, uint32_t room,
                                 struct vf_fetch *fetch);

/* The buffer and the document of a claim are there, and its RAMFetch went out with the ref `fetch`. Of eight records
 * the first that has ended goes. VF_BUSY where eight transfers are coming in. */
uint32_t vf_receiver_fetching(struct vf_receiver *receiver, const struct vf_take_action *action, uint32_t anchor,
                              uint32_t buffer, uint32_t fetch);

/* Message_RAMTransmit: tells what one of `n` bytes asks for, where the task's buffers have `room` bytes. */
uint32_t vf_receiver_on_transmit(const struct vf_receiver *receiver, uint32_t room, uint32_t from, uint32_t my_ref,
                                 uint32_t your_ref, uint32_t buffer, uint32_t n, struct vf_take_action *action);

/* Message_RAMFetch: the bytes were appended, and the next one went out with the ref `fetch`. VF_NOT_OPEN, also where
 * the bytes are the last. */
uint32_t vf_receiver_fetched(struct vf_receiver *receiver, const struct vf_take_action *action, uint32_t fetch);

/* The last bytes were appended, and the buffer is gone: the document is whole. VF_NOT_OPEN, also where the bytes are
 * not the last. */
uint32_t vf_receiver_finished(struct vf_receiver *receiver, const struct vf_take_action *action);

/* The action failed, or ended its transfer, with `kept` of its bytes in the document, and the buffer is gone. A claim
 * that failed leaves no record. VF_NOT_OPEN, VF_BAD_RANGE where the action has fewer bytes. */
uint32_t vf_receiver_failed(struct vf_receiver *receiver, const struct vf_take_action *action, uint32_t kept);

/* Tells what the RAMFetch with the ref `fetch` asks for that came back: a file where it was the first one. */
uint32_t vf_receiver_on_bounce(const struct vf_receiver *receiver, uint32_t fetch, struct vf_take_action *action);

/* Message_DataSaveAck: the sender was asked for a file by the one with the ref `ack`, and the buffer is gone.
 * VF_NOT_OPEN. */
uint32_t vf_receiver_asking(struct vf_receiver *receiver, const struct vf_take_action *action, uint32_t ack);

/* The DataSaveAck with the ref `ack` came back: its transfer failed. Tells whether there is one. */
uint32_t vf_receiver_on_ack_bounce(struct vf_receiver *receiver, uint32_t ack, bool *known);

/* Message_DataLoad: tells what one asks for. */
uint32_t vf_receiver_on_load(const struct vf_receiver *receiver, uint32_t from, uint32_t my_ref, uint32_t your_ref,
                             struct vf_take_action *action);

/* Message_DataLoadAck: the document has all `size` bytes of the file, and the message went out. VF_NOT_OPEN. */
uint32_t vf_receiver_loaded(struct vf_receiver *receiver, const struct vf_take_action *action, uint32_t size);

/* Gives a transfer up that fetches or waits for a file: the one with the id, and where `id` is 0 the first. One that
 * fetches keeps its buffer until its fetch is answered or comes back. VF_NOT_OPEN where there is none. */
uint32_t vf_receiver_cancel(struct vf_receiver *receiver, uint32_t id);

/* Tells whether the anchor's block is a document that grows: then nothing else may change it. */
uint32_t vf_receiver_is_document(const struct vf_receiver *receiver, uint32_t anchor, bool *is_document);

/* Tells whether the block at the address is a transfer's buffer: then it has to stay. */
uint32_t vf_receiver_is_buffer(const struct vf_receiver *receiver, uint32_t address, bool *is_buffer);

/* ---- Messages ------------------------------------------------------------------------------------------------------
 *
 * The messages of these transfers as words, into the blocks that the Wimp has, and out of them.
 */

/* A message: DataSave 1, DataSaveAck 2, DataLoad 3, DataLoadAck 4, RAMFetch 6, RAMTransmit 7. What its action says
 * nothing of is 0 in one that was read, and is not looked at in one that is written. */
struct vf_message_words {
    uint32_t from;
    uint32_t my_ref;
    uint32_t your_ref;
    uint32_t action;
    uint32_t buffer;      /* RAMFetch and RAMTransmit: the buffer's address */
    uint32_t count;       /* its length, or the bytes that were written into it */
    uint32_t window;      /* the others: where the file is dropped */
    uint32_t icon;
    uint32_t x;
    uint32_t y;
    uint32_t size;        /* in bytes; all ones in a DataSaveAck where the file is not safe */
    uint32_t file_type;
    uint32_t name_length; /* at most 211 */
    uint8_t name[212];    /* the leafname, or the pathname of the file */
};

/* Wimp_SendMessage: writes a message into a block, and tells its length. The bytes behind it stay. VF_BAD_MESSAGE;
 * VF_BAD_ARGUMENT where the name is longer, or one of its bytes is 0. */
uint32_t vf_message_encode(const struct vf_message_words *words, struct vf_message *message, uint32_t *length);

/* Wimp_Poll: reads the message that the bytes spell; there may be more bytes than its length says. VF_BAD_LENGTH where
 * the first word is no length of a message, or the bytes are fewer; VF_BAD_MESSAGE; and VF_BAD_LENGTH too where the
 * length is too short for the action, or no 0 ends the name. */
uint32_t vf_message_decode(const uint8_t *bytes, size_t bytes_len, struct vf_message_words *words);

/* ---- Null pointers -------------------------------------------------------------------------------------------------
 *
 * The functions of the library are never given one: each call goes by a function of the same name and `_unless_null`,
 * which answers VF_NULL where a pointer is null. Who calls the library from another language does the same there.
 */
#define VF_UNLESS_NULL(call, parameters, pointers, arguments) \
    static VF_INLINE uint32_t call##_unless_null parameters \
    {                                                       \
        if (!(pointers))                                    \
            return VF_NULL;                                 \
        return call arguments;                              \
    }
#define VF_BOTH_UNLESS_NULL(family, call, parameters, pointers, arguments) \
    VF_UNLESS_NULL(family##_##call, parameters, pointers, arguments) \
    VF_UNLESS_NULL(family##_checked_##call, parameters, pointers, arguments)

VF_UNLESS_NULL(vf_heap_init, (uint8_t *memory, size_t len), memory, (memory, len))
VF_UNLESS_NULL(vf_heap_check, (const uint8_t *memory, size_t len), memory, (memory, len))
VF_BOTH_UNLESS_NULL(vf_heap, describe, (const uint8_t *memory, size_t len, size_t *most, size_t *free),
                    memory && most && free, (memory, len, most, free))
VF_BOTH_UNLESS_NULL(vf_heap, claim, (uint8_t *memory, size_t len, size_t n, size_t *address), memory && address,
                    (memory, len, n, address))
VF_BOTH_UNLESS_NULL(vf_heap, release, (uint8_t *memory, size_t len, size_t address), memory, (memory, len, address))
VF_BOTH_UNLESS_NULL(vf_heap, resize,
                    (uint8_t *memory, size_t len, size_t address, ptrdiff_t delta, size_t *moved_to),
                    memory && moved_to, (memory, len, address, delta, moved_to))
VF_BOTH_UNLESS_NULL(vf_heap, extend, (uint8_t *memory, size_t len, ptrdiff_t delta), memory, (memory, len, delta))
VF_BOTH_UNLESS_NULL(vf_heap, block_size, (const uint8_t *memory, size_t len, size_t address, size_t *size),
                    memory && size, (memory, len, address, size))
VF_UNLESS_NULL(vf_heap_index, (const uint8_t *memory, size_t len, uint64_t *map, size_t map_len),
               memory && map, (memory, len, map, map_len))
VF_UNLESS_NULL(vf_heap_indexed_claim,
               (uint8_t *memory, size_t len, uint64_t *map, size_t map_len, size_t n, size_t *address),
               memory && map && address, (memory, len, map, map_len, n, address))
VF_UNLESS_NULL(vf_heap_indexed_release,
               (uint8_t *memory, size_t len, uint64_t *map, size_t map_len, size_t address),
               memory && map, (memory, len, map, map_len, address))
VF_UNLESS_NULL(vf_heap_indexed_resize,
               (uint8_t *memory, size_t len, uint64_t *map, size_t map_len, size_t address, ptrdiff_t delta,
                size_t *moved_to),
               memory && map && moved_to, (memory, len, map, map_len, address, delta, moved_to))
VF_UNLESS_NULL(vf_heap_indexed_block_size,
               (const uint8_t *memory, size_t len, const uint64_t *map, size_t map_len, size_t address, size_t *size),
               memory && map && size, (memory, len, map, map_len, address, size))
VF_UNLESS_NULL(vf_heap_indexed_resize_need,
               (const uint8_t *memory, size_t len, const uint64_t *map, size_t map_len, size_t address,
                ptrdiff_t delta, size_t *need),
               memory && map && need, (memory, len, map, map_len, address, delta, need))

VF_UNLESS_NULL(vf_flex_start, (uint8_t *memory, size_t len, struct vf_slot *slot),
               memory && slot, (memory, len, slot))
VF_UNLESS_NULL(vf_flex_check, (const uint8_t *memory, size_t len, const struct vf_slot *slot),
               memory && slot, (memory, len, slot))
VF_UNLESS_NULL(vf_flex_set_budge, (struct vf_slot *slot, bool on, bool *was),
               slot && was, (slot, on, was))
VF_BOTH_UNLESS_NULL(vf_flex, alloc,
                    (uint8_t *memory, size_t len, struct vf_slot *slot, uint32_t anchor, size_t n, size_t *place),
                    memory && slot && place, (memory, len, slot, anchor, n, place))
VF_BOTH_UNLESS_NULL(vf_flex, free, (uint8_t *memory, size_t len, struct vf_slot *slot, uint32_t anchor),
                    memory && slot, (memory, len, slot, anchor))
VF_BOTH_UNLESS_NULL(vf_flex, size,
                    (const uint8_t *memory, size_t len, const struct vf_slot *slot, uint32_t anchor, size_t *size),
                    memory && slot && size, (memory, len, slot, anchor, size))
VF_BOTH_UNLESS_NULL(vf_flex, extend, (uint8_t *memory, size_t len, struct vf_slot *slot, uint32_t anchor, size_t n),
                    memory && slot, (memory, len, slot, anchor, n))
VF_BOTH_UNLESS_NULL(vf_flex, midextend,
                    (uint8_t *memory, size_t len, struct vf_slot *slot, uint32_t anchor, size_t offset, ptrdiff_t by),
                    memory && slot, (memory, len, slot, anchor, offset, by))
VF_BOTH_UNLESS_NULL(vf_flex, place,
                    (const uint8_t *memory, size_t len, const struct vf_slot *slot, uint32_t anchor, size_t *place),
                    memory && slot && place, (memory, len, slot, anchor, place))
VF_BOTH_UNLESS_NULL(vf_flex, places,
                    (const uint8_t *memory, size_t len, const struct vf_slot *slot, size_t *places, size_t places_len),
                    memory && slot && places, (memory, len, slot, places, places_len))
VF_BOTH_UNLESS_NULL(vf_flex, put,
                    (uint8_t *memory, size_t len, struct vf_slot *slot, uint32_t anchor, size_t offset,
                     const uint8_t *from, size_t from_len),
                    memory && slot && from, (memory, len, slot, anchor, offset, from, from_len))
VF_BOTH_UNLESS_NULL(vf_flex, read,
                    (const uint8_t *memory, size_t len, const struct vf_slot *slot, uint32_t anchor, size_t offset,
                     uint8_t *to, size_t to_len),
                    memory && slot && to, (memory, len, slot, anchor, offset, to, to_len))
VF_BOTH_UNLESS_NULL(vf_flex, describe,
                    (const uint8_t *memory, size_t len, const struct vf_slot *slot, size_t *most, size_t *free),
                    memory && slot && most && free, (memory, len, slot, most, free))
VF_BOTH_UNLESS_NULL(vf_flex, claim, (uint8_t *memory, size_t len, struct vf_slot *slot, size_t n, size_t *place),
                    memory && slot && place, (memory, len, slot, n, place))
VF_BOTH_UNLESS_NULL(vf_flex, release, (uint8_t *memory, size_t len, struct vf_slot *slot, size_t place),
                    memory && slot, (memory, len, slot, place))
VF_BOTH_UNLESS_NULL(vf_flex, resize,
                    (uint8_t *memory, size_t len, struct vf_slot *slot, size_t place, ptrdiff_t delta,
                     size_t *moved_to),
                    memory && slot && moved_to, (memory, len, slot, place, delta, moved_to))
VF_BOTH_UNLESS_NULL(vf_flex, block_size,
                    (const uint8_t *memory, size_t len, const struct vf_slot *slot, size_t place, size_t *size),
                    memory && slot && size, (memory, len, slot, place, size))

VF_UNLESS_NULL(vf_flex_start_with,
               (uint8_t *memory, size_t len, struct vf_wide_slot *slot, uint32_t anchors),
               memory && slot, (memory, len, slot, anchors))
VF_UNLESS_NULL(vf_flex_wide_alloc,
               (uint8_t *memory, size_t len, struct vf_wide_slot *slot, uint32_t anchor, size_t n, size_t *place),
               memory && slot && place, (memory, len, slot, anchor, n, place))
VF_UNLESS_NULL(vf_flex_wide_free,
               (uint8_t *memory, size_t len, struct vf_wide_slot *slot, uint32_t anchor),
               memory && slot, (memory, len, slot, anchor))
VF_UNLESS_NULL(vf_flex_wide_size,
               (const uint8_t *memory, size_t len, const struct vf_wide_slot *slot, uint32_t anchor, size_t *size),
               memory && slot && size, (memory, len, slot, anchor, size))
VF_UNLESS_NULL(vf_flex_wide_extend,
               (uint8_t *memory, size_t len, struct vf_wide_slot *slot, uint32_t anchor, size_t n),
               memory && slot, (memory, len, slot, anchor, n))
VF_UNLESS_NULL(vf_flex_wide_midextend,
               (uint8_t *memory, size_t len, struct vf_wide_slot *slot, uint32_t anchor, size_t offset, ptrdiff_t by),
               memory && slot, (memory, len, slot, anchor, offset, by))
VF_UNLESS_NULL(vf_flex_wide_place,
               (const uint8_t *memory, size_t len, const struct vf_wide_slot *slot, uint32_t anchor, size_t *place),
               memory && slot && place, (memory, len, slot, anchor, place))
VF_UNLESS_NULL(vf_flex_wide_places,
               (const uint8_t *memory, size_t len, const struct vf_wide_slot *slot, size_t *places, size_t places_len),
               memory && slot && places, (memory, len, slot, places, places_len))
VF_UNLESS_NULL(vf_flex_wide_put,
               (uint8_t *memory, size_t len, struct vf_wide_slot *slot, uint32_t anchor, size_t offset, const uint8_t
                *from, size_t from_len),
               memory && slot && from, (memory, len, slot, anchor, offset, from, from_len))
VF_UNLESS_NULL(vf_flex_wide_read,
               (const uint8_t *memory, size_t len, const struct vf_wide_slot *slot, uint32_t anchor, size_t offset,
                uint8_t *to, size_t to_len),
               memory && slot && to, (memory, len, slot, anchor, offset, to, to_len))
VF_UNLESS_NULL(vf_flex_wide_budge,
               (uint8_t *memory, size_t len, struct vf_wide_slot *slot, size_t n, size_t *place),
               memory && slot && place, (memory, len, slot, n, place))

VF_UNLESS_NULL(vf_desk_file,
               (struct vf_desk *desk, const uint8_t *name, size_t name_len, const uint8_t *bytes, size_t bytes_len),
               desk && name && bytes, (desk, name, name_len, bytes, bytes_len))
VF_UNLESS_NULL(vf_desk_file_lent,
               (struct vf_desk *desk, const uint8_t *name, size_t name_len, const uint8_t *bytes, size_t bytes_len),
               desk && name && bytes, (desk, name, name_len, bytes, bytes_len))
VF_UNLESS_NULL(vf_desk_open,
               (struct vf_desk *desk, uint32_t pages, uint32_t first_handle, uint32_t first_ref),
               desk, (desk, pages, first_handle, first_ref))
VF_UNLESS_NULL(vf_desk_close, (struct vf_desk *desk), desk, (desk))
VF_UNLESS_NULL(vf_desk_task,
               (struct vf_desk *desk, const uint8_t *name, size_t name_len, uint32_t buffer, uint32_t manner,
               uint32_t *handle),
               desk && name && handle, (desk, name, name_len, buffer, manner, handle))
VF_UNLESS_NULL(vf_desk_kill,
               (struct vf_desk *desk, const uint8_t *name, size_t name_len),
               desk && name, (desk, name, name_len))
VF_UNLESS_NULL(vf_desk_save,
               (struct vf_desk *desk, const uint8_t *name, size_t name_len, uint32_t anchor, const uint8_t *to,
               size_t to_len, const uint8_t *leaf, size_t leaf_len, uint32_t *my_ref),
               desk && name && to && leaf && my_ref, (desk, name, name_len, anchor, to, to_len, leaf, leaf_len, my_ref))
VF_UNLESS_NULL(vf_desk_poll,
               (struct vf_desk *desk, const uint8_t *name, size_t name_len, struct vf_event *event),
               desk && name && event, (desk, name, name_len, event))
VF_UNLESS_NULL(vf_desk_next,
               (struct vf_desk *desk, const uint8_t *name, size_t name_len, struct vf_message *message,
               uint32_t *code),
               desk && name && message && code, (desk, name, name_len, message, code))
VF_UNLESS_NULL(vf_desk_cancel_in,
               (struct vf_desk *desk, const uint8_t *name, size_t name_len, uint32_t id),
               desk && name, (desk, name, name_len, id))
VF_UNLESS_NULL(vf_desk_cancel_out,
               (struct vf_desk *desk, const uint8_t *name, size_t name_len, uint32_t id),
               desk && name, (desk, name, name_len, id))
VF_UNLESS_NULL(vf_desk_repeat,
               (struct vf_desk *desk, const uint8_t *name, size_t name_len, uint32_t *my_ref),
               desk && name && my_ref, (desk, name, name_len, my_ref))
VF_UNLESS_NULL(vf_desk_alloc,
               (struct vf_desk *desk, const uint8_t *name, size_t name_len, uint32_t anchor, uint32_t size,
               uint32_t *address),
               desk && name && address, (desk, name, name_len, anchor, size, address))
VF_UNLESS_NULL(vf_desk_load,
               (struct vf_desk *desk, const uint8_t *name, size_t name_len, uint32_t anchor, const uint8_t *file,
               size_t file_len, uint32_t *address),
               desk && name && file && address, (desk, name, name_len, anchor, file, file_len, address))
VF_UNLESS_NULL(vf_desk_put,
               (struct vf_desk *desk, const uint8_t *name, size_t name_len, uint32_t anchor, uint32_t offset,
               const uint8_t *from, size_t from_len),
               desk && name && from, (desk, name, name_len, anchor, offset, from, from_len))
VF_UNLESS_NULL(vf_desk_free,
               (struct vf_desk *desk, const uint8_t *name, size_t name_len, uint32_t anchor),
               desk && name, (desk, name, name_len, anchor))
VF_UNLESS_NULL(vf_desk_extend,
               (struct vf_desk *desk, const uint8_t *name, size_t name_len, uint32_t anchor, uint32_t size),
               desk && name, (desk, name, name_len, anchor, size))
VF_UNLESS_NULL(vf_desk_mid,
               (struct vf_desk *desk, const uint8_t *name, size_t name_len, uint32_t anchor, uint32_t offset,
               int32_t by),
               desk && name, (desk, name, name_len, anchor, offset, by))
VF_UNLESS_NULL(vf_desk_claim,
               (struct vf_desk *desk, const uint8_t *name, size_t name_len, uint32_t size, uint32_t *address),
               desk && name && address, (desk, name, name_len, size, address))
VF_UNLESS_NULL(vf_desk_release,
               (struct vf_desk *desk, const uint8_t *name, size_t name_len, uint32_t address),
               desk && name, (desk, name, name_len, address))
VF_UNLESS_NULL(vf_desk_resize,
               (struct vf_desk *desk, const uint8_t *name, size_t name_len, uint32_t address, int32_t delta,
               uint32_t *moved_to),
               desk && name && moved_to, (desk, name, name_len, address, delta, moved_to))
VF_UNLESS_NULL(vf_desk_budge,
               (struct vf_desk *desk, const uint8_t *name, size_t name_len, bool on, bool *was),
               desk && name && was, (desk, name, name_len, on, was))
VF_UNLESS_NULL(vf_desk_area,
               (struct vf_desk *desk, uint32_t number, int32_t delta, uint32_t *bytes),
               desk && bytes, (desk, number, delta, bytes))
VF_UNLESS_NULL(vf_desk_make,
               (struct vf_desk *desk, uint32_t most, uint32_t *number),
               desk && number, (desk, most, number))
VF_UNLESS_NULL(vf_desk_remove, (struct vf_desk *desk, uint32_t number), desk, (desk, number))
VF_UNLESS_NULL(vf_desk_rma_claim,
               (struct vf_desk *desk, uint32_t size, uint32_t *address),
               desk && address, (desk, size, address))
VF_UNLESS_NULL(vf_desk_rma_free, (struct vf_desk *desk, uint32_t address), desk, (desk, address))
VF_UNLESS_NULL(vf_desk_rma_resize,
               (struct vf_desk *desk, uint32_t address, int32_t delta, uint32_t *moved_to),
               desk && moved_to, (desk, address, delta, moved_to))
VF_UNLESS_NULL(vf_desk_show,
               (struct vf_desk *desk, const uint8_t *name, size_t name_len, uint32_t anchor, uint8_t *to,
               size_t to_len, uint32_t *size),
               desk && name && to && size, (desk, name, name_len, anchor, to, to_len, size))
VF_UNLESS_NULL(vf_desk_blocks,
               (struct vf_desk *desk, const uint8_t *name, size_t name_len, struct vf_block *blocks, size_t blocks_len,
               size_t *count),
               desk && name && blocks && count, (desk, name, name_len, blocks, blocks_len, count))
VF_UNLESS_NULL(vf_desk_heap,
               (struct vf_desk *desk, const uint8_t *name, size_t name_len, struct vf_heap_sums *sums,
               struct vf_segment *segments, size_t segments_len, size_t *count),
               desk && name && sums && segments && count, (desk, name, name_len, sums, segments, segments_len, count))
VF_UNLESS_NULL(vf_desk_status,
               (struct vf_desk *desk, const uint8_t *name, size_t name_len, uint32_t *handle,
               struct vf_record *outgoing, size_t outgoing_len, size_t *outs, struct vf_record *incoming,
               size_t incoming_len, size_t *ins),
               desk && name && handle && outgoing && outs && incoming && ins,
               (desk, name, name_len, handle, outgoing, outgoing_len, outs, incoming, incoming_len, ins))
VF_UNLESS_NULL(vf_desk_areas,
               (struct vf_desk *desk, uint32_t *free, struct vf_area *areas, size_t areas_len, size_t *count),
               desk && free && areas && count, (desk, free, areas, areas_len, count))
VF_UNLESS_NULL(vf_desk_show_at,
               (struct vf_desk *desk, const uint8_t *name, size_t name_len, uint32_t anchor, uint32_t offset,
               uint8_t *to, size_t to_len, uint32_t *size),
               desk && name && to && size, (desk, name, name_len, anchor, offset, to, to_len, size))
VF_UNLESS_NULL(vf_desk_read,
               (struct vf_desk *desk, const uint8_t *name, size_t name_len, uint32_t address, uint32_t offset,
               uint8_t *to, size_t to_len, uint32_t *size),
               desk && name && to && size, (desk, name, name_len, address, offset, to, to_len, size))
VF_UNLESS_NULL(vf_desk_write,
               (struct vf_desk *desk, const uint8_t *name, size_t name_len, uint32_t address, uint32_t offset,
               const uint8_t *from, size_t from_len),
               desk && name && from, (desk, name, name_len, address, offset, from, from_len))
VF_UNLESS_NULL(vf_desk_rma_read,
               (struct vf_desk *desk, uint32_t address, uint32_t offset, uint8_t *to, size_t to_len, uint32_t *size),
               desk && to && size, (desk, address, offset, to, to_len, size))
VF_UNLESS_NULL(vf_desk_rma_write,
               (struct vf_desk *desk, uint32_t address, uint32_t offset, const uint8_t *from, size_t from_len),
               desk && from, (desk, address, offset, from, from_len))
VF_UNLESS_NULL(vf_desk_transfer,
               (struct vf_desk *desk, uint32_t from, uint32_t address, uint32_t to, uint32_t address2, uint32_t n),
               desk, (desk, from, address, to, address2, n))
VF_UNLESS_NULL(vf_desk_take,
               (struct vf_desk *desk, const uint8_t *name, size_t name_len, struct vf_message *message,
                uint32_t *code),
               desk && name && message && code, (desk, name, name_len, message, code))
VF_UNLESS_NULL(vf_desk_send,
               (struct vf_desk *desk, const uint8_t *name, size_t name_len, uint32_t code, uint32_t to,
                uint32_t your_ref, uint32_t action, const uint8_t *bytes, size_t bytes_len, uint32_t *my_ref),
               desk && name && bytes && my_ref,
               (desk, name, name_len, code, to, your_ref, action, bytes, bytes_len, my_ref))
VF_UNLESS_NULL(vf_desk_ack,
               (struct vf_desk *desk, const uint8_t *name, size_t name_len, uint32_t *answered),
               desk && name && answered, (desk, name, name_len, answered))
VF_UNLESS_NULL(vf_desk_write_at,
               (struct vf_desk *desk, const uint8_t *name, size_t name_len, uint32_t address, const uint8_t *from,
                size_t from_len),
               desk && name && from, (desk, name, name_len, address, from, from_len))
VF_UNLESS_NULL(vf_desk_transfer_to,
               (struct vf_desk *desk, const uint8_t *name, size_t name_len, uint32_t address, uint32_t to,
                uint32_t place, uint32_t n),
               desk && name, (desk, name, name_len, address, to, place, n))
VF_UNLESS_NULL(vf_desk_spool,
               (struct vf_desk *desk, const uint8_t *name, size_t name_len, uint32_t anchor, uint32_t to,
                uint32_t your_ref, uint32_t *my_ref),
               desk && name && my_ref, (desk, name, name_len, anchor, to, your_ref, my_ref))
VF_UNLESS_NULL(vf_desk_scrap,
               (struct vf_desk *desk, const uint8_t *name, size_t name_len, uint32_t anchor, uint32_t *address),
               desk && name && address, (desk, name, name_len, anchor, address))
VF_UNLESS_NULL(vf_desk_line,
               (struct vf_desk *desk, const uint8_t *line, size_t line_len),
               desk && line, (desk, line, line_len))
VF_UNLESS_NULL(vf_desk_reply,
               (struct vf_desk *desk, uint8_t *text, size_t text_len, size_t *length),
               desk && text && length, (desk, text, text_len, length))

VF_UNLESS_NULL(vf_sender_start, (struct vf_sender *sender), sender, (sender))
VF_UNLESS_NULL(vf_sender_offer,
               (struct vf_sender *sender, uint32_t id, uint32_t recipient, uint32_t anchor),
               sender, (sender, id, recipient, anchor))
VF_UNLESS_NULL(vf_sender_on_fetch,
               (const struct vf_sender *sender, uint32_t from, uint32_t my_ref, uint32_t your_ref, uint32_t buffer,
                uint32_t length, struct vf_send_action *action),
               sender && action, (sender, from, my_ref, your_ref, buffer, length, action))
VF_UNLESS_NULL(vf_sender_on_ack,
               (const struct vf_sender *sender, uint32_t from, uint32_t my_ref, uint32_t your_ref, struct
                vf_send_action *action),
               sender && action, (sender, from, my_ref, your_ref, action))
VF_UNLESS_NULL(vf_sender_on_load_ack,
               (const struct vf_sender *sender, uint32_t from, uint32_t your_ref, struct vf_send_action *action),
               sender && action, (sender, from, your_ref, action))
VF_UNLESS_NULL(vf_sender_part,
               (const struct vf_send_action *action, uint32_t size, struct vf_part *part),
               action && part, (action, size, part))
VF_UNLESS_NULL(vf_sender_sent,
               (struct vf_sender *sender, const struct vf_send_action *action, uint32_t size, uint32_t last),
               sender && action, (sender, action, size, last))
VF_UNLESS_NULL(vf_sender_saved,
               (struct vf_sender *sender, const struct vf_send_action *action, uint32_t last),
               sender && action, (sender, action, last))
VF_UNLESS_NULL(vf_sender_loaded,
               (struct vf_sender *sender, const struct vf_send_action *action, uint32_t size),
               sender && action, (sender, action, size))
VF_UNLESS_NULL(vf_sender_failed,
               (struct vf_sender *sender, const struct vf_send_action *action),
               sender && action, (sender, action))
VF_UNLESS_NULL(vf_sender_on_bounce,
               (struct vf_sender *sender, uint32_t last, bool *known),
               sender && known, (sender, last, known))
VF_UNLESS_NULL(vf_sender_cancel, (struct vf_sender *sender, uint32_t id), sender, (sender, id))
VF_UNLESS_NULL(vf_sender_is_source,
               (const struct vf_sender *sender, uint32_t anchor, bool *is_source),
               sender && is_source, (sender, anchor, is_source))
VF_UNLESS_NULL(vf_receiver_start, (struct vf_receiver *receiver), receiver, (receiver))
VF_UNLESS_NULL(vf_receiver_on_save,
               (const struct vf_receiver *receiver, bool is_deaf, uint32_t from, uint32_t my_ref, struct
                vf_take_action *action),
               receiver && action, (receiver, is_deaf, from, my_ref, action))
VF_UNLESS_NULL(vf_receiver_first_fetch,
               (const struct vf_take_action *action, uint32_t buffer, uint32_t room, struct vf_fetch *fetch),
               action && fetch, (action, buffer, room, fetch))
VF_UNLESS_NULL(vf_receiver_fetching,
               (struct vf_receiver *receiver, const struct vf_take_action *action, uint32_t anchor, uint32_t
                buffer, uint32_t fetch),
               receiver && action, (receiver, action, anchor, buffer, fetch))
VF_UNLESS_NULL(vf_receiver_on_transmit,
               (const struct vf_receiver *receiver, uint32_t room, uint32_t from, uint32_t my_ref, uint32_t
                your_ref, uint32_t buffer, uint32_t n, struct vf_take_action *action),
               receiver && action, (receiver, room, from, my_ref, your_ref, buffer, n, action))
VF_UNLESS_NULL(vf_receiver_fetched,
               (struct vf_receiver *receiver, const struct vf_take_action *action, uint32_t fetch),
               receiver && action, (receiver, action, fetch))
VF_UNLESS_NULL(vf_receiver_finished,
               (struct vf_receiver *receiver, const struct vf_take_action *action),
               receiver && action, (receiver, action))
VF_UNLESS_NULL(vf_receiver_failed,
               (struct vf_receiver *receiver, const struct vf_take_action *action, uint32_t kept),
               receiver && action, (receiver, action, kept))
VF_UNLESS_NULL(vf_receiver_on_bounce,
               (const struct vf_receiver *receiver, uint32_t fetch, struct vf_take_action *action),
               receiver && action, (receiver, fetch, action))
VF_UNLESS_NULL(vf_receiver_asking,
               (struct vf_receiver *receiver, const struct vf_take_action *action, uint32_t ack),
               receiver && action, (receiver, action, ack))
VF_UNLESS_NULL(vf_receiver_on_ack_bounce,
               (struct vf_receiver *receiver, uint32_t ack, bool *known),
               receiver && known, (receiver, ack, known))
VF_UNLESS_NULL(vf_receiver_on_load,
               (const struct vf_receiver *receiver, uint32_t from, uint32_t my_ref, uint32_t your_ref, struct
                vf_take_action *action),
               receiver && action, (receiver, from, my_ref, your_ref, action))
VF_UNLESS_NULL(vf_receiver_loaded,
               (struct vf_receiver *receiver, const struct vf_take_action *action, uint32_t size),
               receiver && action, (receiver, action, size))
VF_UNLESS_NULL(vf_receiver_cancel, (struct vf_receiver *receiver, uint32_t id), receiver, (receiver, id))
VF_UNLESS_NULL(vf_receiver_is_document,
               (const struct vf_receiver *receiver, uint32_t anchor, bool *is_document),
               receiver && is_document, (receiver, anchor, is_document))
VF_UNLESS_NULL(vf_receiver_is_buffer,
               (const struct vf_receiver *receiver, uint32_t address, bool *is_buffer),
               receiver && is_buffer, (receiver, address, is_buffer))
VF_UNLESS_NULL(vf_message_encode,
               (const struct vf_message_words *words, struct vf_message *message, uint32_t *length),
               words && message && length, (words, message, length))
VF_UNLESS_NULL(vf_message_decode,
               (const uint8_t *bytes, size_t bytes_len, struct vf_message_words *words),
               bytes && words, (bytes, bytes_len, words))

#undef VF_BOTH_UNLESS_NULL
#undef VF_UNLESS_NULL

#define vf_heap_init vf_heap_init_unless_null
#define vf_heap_check vf_heap_check_unless_null
#define vf_heap_index vf_heap_index_unless_null
#define vf_heap_indexed_claim vf_heap_indexed_claim_unless_null
#define vf_heap_indexed_release vf_heap_indexed_release_unless_null
#define vf_heap_indexed_resize vf_heap_indexed_resize_unless_null
#define vf_heap_indexed_block_size vf_heap_indexed_block_size_unless_null
#define vf_heap_indexed_resize_need vf_heap_indexed_resize_need_unless_null
#define vf_heap_checked_describe vf_heap_checked_describe_unless_null
#define vf_heap_checked_claim vf_heap_checked_claim_unless_null
#define vf_heap_checked_release vf_heap_checked_release_unless_null
#define vf_heap_checked_resize vf_heap_checked_resize_unless_null
#define vf_heap_checked_extend vf_heap_checked_extend_unless_null
#define vf_heap_checked_block_size vf_heap_checked_block_size_unless_null
#define vf_flex_start vf_flex_start_unless_null
#define vf_flex_check vf_flex_check_unless_null
#define vf_flex_set_budge vf_flex_set_budge_unless_null
#define vf_flex_start_with vf_flex_start_with_unless_null
#define vf_flex_wide_alloc vf_flex_wide_alloc_unless_null
#define vf_flex_wide_free vf_flex_wide_free_unless_null
#define vf_flex_wide_size vf_flex_wide_size_unless_null
#define vf_flex_wide_extend vf_flex_wide_extend_unless_null
#define vf_flex_wide_midextend vf_flex_wide_midextend_unless_null
#define vf_flex_wide_place vf_flex_wide_place_unless_null
#define vf_flex_wide_places vf_flex_wide_places_unless_null
#define vf_flex_wide_put vf_flex_wide_put_unless_null
#define vf_flex_wide_read vf_flex_wide_read_unless_null
#define vf_flex_wide_budge vf_flex_wide_budge_unless_null
#define vf_flex_checked_alloc vf_flex_checked_alloc_unless_null
#define vf_flex_checked_free vf_flex_checked_free_unless_null
#define vf_flex_checked_size vf_flex_checked_size_unless_null
#define vf_flex_checked_extend vf_flex_checked_extend_unless_null
#define vf_flex_checked_midextend vf_flex_checked_midextend_unless_null
#define vf_flex_checked_place vf_flex_checked_place_unless_null
#define vf_flex_checked_places vf_flex_checked_places_unless_null
#define vf_flex_checked_put vf_flex_checked_put_unless_null
#define vf_flex_checked_read vf_flex_checked_read_unless_null
#define vf_flex_checked_describe vf_flex_checked_describe_unless_null
#define vf_flex_checked_claim vf_flex_checked_claim_unless_null
#define vf_flex_checked_release vf_flex_checked_release_unless_null
#define vf_flex_checked_resize vf_flex_checked_resize_unless_null
#define vf_flex_checked_block_size vf_flex_checked_block_size_unless_null
#define vf_desk_file vf_desk_file_unless_null
#define vf_desk_file_lent vf_desk_file_lent_unless_null
#define vf_desk_open vf_desk_open_unless_null
#define vf_desk_close vf_desk_close_unless_null
#define vf_desk_task vf_desk_task_unless_null
#define vf_desk_kill vf_desk_kill_unless_null
#define vf_desk_save vf_desk_save_unless_null
#define vf_desk_poll vf_desk_poll_unless_null
#define vf_desk_next vf_desk_next_unless_null
#define vf_desk_cancel_in vf_desk_cancel_in_unless_null
#define vf_desk_cancel_out vf_desk_cancel_out_unless_null
#define vf_desk_repeat vf_desk_repeat_unless_null
#define vf_desk_alloc vf_desk_alloc_unless_null
#define vf_desk_load vf_desk_load_unless_null
#define vf_desk_put vf_desk_put_unless_null
#define vf_desk_free vf_desk_free_unless_null
#define vf_desk_extend vf_desk_extend_unless_null
#define vf_desk_mid vf_desk_mid_unless_null
#define vf_desk_claim vf_desk_claim_unless_null
#define vf_desk_release vf_desk_release_unless_null
#define vf_desk_resize vf_desk_resize_unless_null
#define vf_desk_budge vf_desk_budge_unless_null
#define vf_desk_area vf_desk_area_unless_null
#define vf_desk_make vf_desk_make_unless_null
#define vf_desk_remove vf_desk_remove_unless_null
#define vf_desk_rma_claim vf_desk_rma_claim_unless_null
#define vf_desk_rma_free vf_desk_rma_free_unless_null
#define vf_desk_rma_resize vf_desk_rma_resize_unless_null
#define vf_desk_show vf_desk_show_unless_null
#define vf_desk_blocks vf_desk_blocks_unless_null
#define vf_desk_heap vf_desk_heap_unless_null
#define vf_desk_status vf_desk_status_unless_null
#define vf_desk_areas vf_desk_areas_unless_null
#define vf_desk_show_at vf_desk_show_at_unless_null
#define vf_desk_read vf_desk_read_unless_null
#define vf_desk_write vf_desk_write_unless_null
#define vf_desk_rma_read vf_desk_rma_read_unless_null
#define vf_desk_rma_write vf_desk_rma_write_unless_null
#define vf_desk_transfer vf_desk_transfer_unless_null
#define vf_desk_take vf_desk_take_unless_null
#define vf_desk_send vf_desk_send_unless_null
#define vf_desk_ack vf_desk_ack_unless_null
#define vf_desk_write_at vf_desk_write_at_unless_null
#define vf_desk_transfer_to vf_desk_transfer_to_unless_null
#define vf_desk_spool vf_desk_spool_unless_null
#define vf_desk_scrap vf_desk_scrap_unless_null
#define vf_desk_line vf_desk_line_unless_null
#define vf_desk_reply vf_desk_reply_unless_null
#define vf_sender_start vf_sender_start_unless_null
#define vf_sender_offer vf_sender_offer_unless_null
#define vf_sender_on_fetch vf_sender_on_fetch_unless_null
#define vf_sender_on_ack vf_sender_on_ack_unless_null
#define vf_sender_on_load_ack vf_sender_on_load_ack_unless_null
#define vf_sender_part vf_sender_part_unless_null
#define vf_sender_sent vf_sender_sent_unless_null
#define vf_sender_saved vf_sender_saved_unless_null
#define vf_sender_loaded vf_sender_loaded_unless_null
#define vf_sender_failed vf_sender_failed_unless_null
#define vf_sender_on_bounce vf_sender_on_bounce_unless_null
#define vf_sender_cancel vf_sender_cancel_unless_null
#define vf_sender_is_source vf_sender_is_source_unless_null
#define vf_receiver_start vf_receiver_start_unless_null
#define vf_receiver_on_save vf_receiver_on_save_unless_null
#define vf_receiver_first_fetch vf_receiver_first_fetch_unless_null
#define vf_receiver_fetching vf_receiver_fetching_unless_null
#define vf_receiver_on_transmit vf_receiver_on_transmit_unless_null
#define vf_receiver_fetched vf_receiver_fetched_unless_null
#define vf_receiver_finished vf_receiver_finished_unless_null
#define vf_receiver_failed vf_receiver_failed_unless_null
#define vf_receiver_on_bounce vf_receiver_on_bounce_unless_null
#define vf_receiver_asking vf_receiver_asking_unless_null
#define vf_receiver_on_ack_bounce vf_receiver_on_ack_bounce_unless_null
#define vf_receiver_on_load vf_receiver_on_load_unless_null
#define vf_receiver_loaded vf_receiver_loaded_unless_null
#define vf_receiver_cancel vf_receiver_cancel_unless_null
#define vf_receiver_is_document vf_receiver_is_document_unless_null
#define vf_receiver_is_buffer vf_receiver_is_buffer_unless_null
#define vf_message_encode vf_message_encode_unless_null
#define vf_message_decode vf_message_decode_unless_null

#ifdef VF_CHECKED
#define vf_heap_describe vf_heap_checked_describe
#define vf_heap_claim vf_heap_checked_claim
#define vf_heap_release vf_heap_checked_release
#define vf_heap_resize vf_heap_checked_resize
#define vf_heap_extend vf_heap_checked_extend
#define vf_heap_block_size vf_heap_checked_block_size
#define vf_flex_alloc vf_flex_checked_alloc
#define vf_flex_free vf_flex_checked_free
#define vf_flex_size vf_flex_checked_size
#define vf_flex_extend vf_flex_checked_extend
#define vf_flex_midextend vf_flex_checked_midextend
#define vf_flex_place vf_flex_checked_place
#define vf_flex_places vf_flex_checked_places
#define vf_flex_put vf_flex_checked_put
#define vf_flex_read vf_flex_checked_read
#define vf_flex_describe vf_flex_checked_describe
#define vf_flex_claim vf_flex_checked_claim
#define vf_flex_release vf_flex_checked_release
#define vf_flex_resize vf_flex_checked_resize
#define vf_flex_block_size vf_flex_checked_block_size
#else
#define vf_heap_describe vf_heap_describe_unless_null
#define vf_heap_claim vf_heap_claim_unless_null
#define vf_heap_release vf_heap_release_unless_null
#define vf_heap_resize vf_heap_resize_unless_null
#define vf_heap_extend vf_heap_extend_unless_null
#define vf_heap_block_size vf_heap_block_size_unless_null
#define vf_flex_alloc vf_flex_alloc_unless_null
#define vf_flex_free vf_flex_free_unless_null
#define vf_flex_size vf_flex_size_unless_null
#define vf_flex_extend vf_flex_extend_unless_null
#define vf_flex_midextend vf_flex_midextend_unless_null
#define vf_flex_place vf_flex_place_unless_null
#define vf_flex_places vf_flex_places_unless_null
#define vf_flex_put vf_flex_put_unless_null
#define vf_flex_read vf_flex_read_unless_null
#define vf_flex_describe vf_flex_describe_unless_null
#define vf_flex_claim vf_flex_claim_unless_null
#define vf_flex_release vf_flex_release_unless_null
#define vf_flex_resize vf_flex_resize_unless_null
#define vf_flex_block_size vf_flex_block_size_unless_null
#endif

#ifdef __cplusplus
}
#endif

#endif
