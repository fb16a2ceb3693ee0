/*
 * flex_slot.c: flex in plain C.
 *
 * Words are little-endian. 64 anchor words hold the addresses of their blocks, 0 for none. The C heap begins at 256, its
 * end stands at 268, and the blocks follow that end with no gap: the address of the anchor word, the size, and the bytes
 * up to a whole word. An address is 0x8000 more than the place. The blocks end at the first place at which no header
 * names an anchor word that leads back to it, and that place lies in the slot's last page, or at its end.
 */
#include "flex_slot.h"
#include "os_heap.h"

#include <string.h>

enum { PAGE = 4096, ANCHORS = 64, WORD = 4, HEADER = 8, HEAP = 256, HEAP_END = HEAP + 12, START = 0x8000 };
enum { LONGEST = 28 << 20 };

static inline uint32_t word(const uint8_t *memory, size_t at)
{
    uint32_t w;
    memcpy(&w, memory + at, sizeof w);
    return w;
}

static inline void set_word(uint8_t *memory, size_t at, size_t w)
{
    uint32_t low = (uint32_t)w;
    memcpy(memory + at, &low, sizeof low);
}

static inline size_t pages_for(size_t n)
{
    return (n + PAGE - 1) / PAGE;
}

static inline size_t weight(size_t n)
{
    return HEADER + (n + WORD - 1) / WORD * WORD;
}

/* Why the call can't be made, whatever the slot's bytes are. */
static uint32_t input_status(size_t len, const struct vf_slot *slot, uint32_t anchor)
{
    if (len < PAGE || len > LONGEST)
        return VF_BAD_LENGTH;
    if (slot->pages == 0)
        return VF_NO_SLOT;
    if (slot->pages > len / PAGE)
        return VF_SHORT;
    return anchor < ANCHORS ? VF_OK : VF_BAD_ANCHOR;
}

/* Where the anchor's block has its header, 0 where it has none. */
static inline size_t header_of(const uint8_t *memory, uint32_t anchor)
{
    uint32_t address = word(memory, WORD * anchor);
    return address ? address - START - HEADER : 0;
}

static inline bool begins(const uint8_t *memory, size_t at)
{
    uint32_t anchor = word(memory, at);
    return anchor >= START && anchor < START + HEAP && anchor % WORD == 0 &&
           word(memory, anchor - START) == START + at + HEADER;
}

/* Where the blocks end, from a place on at which one begins or they end. */
static size_t top_from(const uint8_t *memory, size_t end, size_t at)
{
    while (at + HEADER <= end && begins(memory, at))
        at += weight(word(memory, at + WORD));
    return at;
}

/* Moves the blocks that lie in `n` bytes, writes their anchor words, and counts that. */
static void shift(uint8_t *memory, struct vf_slot *slot, size_t from, size_t to, size_t n)
{
    if (from == to)
        return;
    slot->slides += n != 0;
    memmove(memory + to, memory + from, n);
    for (size_t at = to; at < to + n; at += weight(word(memory, at + WORD)))
        set_word(memory, word(memory, at) - START, START + at + HEADER);
}

uint32_t flex_slot_start(uint8_t *memory, size_t len, struct vf_slot *slot)
{
    if (len < PAGE || len > LONGEST)
        return VF_BAD_LENGTH;
    memset(memory, 0, HEAP);
    os_heap_init(memory + HEAP, PAGE - HEAP);
    *slot = (struct vf_slot){1, true, 0};
    return VF_OK;
}

uint32_t flex_slot_alloc(uint8_t *memory, size_t len, struct vf_slot *slot, uint32_t anchor, size_t n, size_t *place)
{
    uint32_t status = input_status(len, slot, anchor);
    if (status != VF_OK)
        return status;
    if (header_of(memory, anchor))
        return VF_ANCHOR_IN_USE;
    size_t top = top_from(memory, PAGE * slot->pages, HEAP + word(memory, HEAP_END));
    if (n > LONGEST || pages_for(top + weight(n)) > len / PAGE)
        return VF_NO_ROOM;
    slot->pages = pages_for(top + weight(n));
    set_word(memory, top, START + WORD * anchor);
    set_word(memory, top + WORD, n);
    memset(memory + top + HEADER, 0, n);
    set_word(memory, WORD * anchor, START + top + HEADER);
    *place = top + HEADER;
    return VF_OK;
}

uint32_t flex_slot_free(uint8_t *memory, size_t len, struct vf_slot *slot, uint32_t anchor)
{
    uint32_t status = input_status(len, slot, anchor);
    if (status != VF_OK)
        return status;
    size_t header = header_of(memory, anchor);
    if (!header)
        return VF_NO_BLOCK;
    size_t from = header + weight(word(memory, header + WORD));
    size_t above = top_from(memory, PAGE * slot->pages, from) - from;
    shift(memory, slot, from, header, above);
    set_word(memory, WORD * anchor, 0);
    slot->pages = pages_for(header + above);
    return VF_OK;
}

uint32_t flex_slot_extend(uint8_t *memory, size_t len, struct vf_slot *slot, uint32_t anchor, size_t n)
{
    uint32_t status = input_status(len, slot, anchor);
    if (status != VF_OK)
        return status;
    size_t header = header_of(memory, anchor);
    if (!header)
        return VF_NO_BLOCK;
    size_t old = word(memory, header + WORD), from = header + weight(old);
    size_t above = top_from(memory, PAGE * slot->pages, from) - from, to = header + weight(n);
    if (n > LONGEST || pages_for(to + above) > len / PAGE)
        return VF_NO_ROOM;
    shift(memory, slot, from, to, above);
    set_word(memory, header + WORD, n);
    if (n > old)
        memset(memory + header + HEADER + old, 0, n - old);
    slot->pages = pages_for(to + above);
    return VF_OK;
}
