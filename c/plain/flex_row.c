/*
 * flex_row.c: a slot as a row of blocks.
 *
 * In the bytes words are little-endian. 64 anchor words have the addresses of their blocks, 0 for none. The C heap
 * begins at 256, and the blocks follow its end with no gap: the address of the anchor word, the size, and the bytes up
 * to a whole word. An address is &8000 more than the place. A slot has just the pages that hold all this.
 */
#include "flex_row.h"
#include "os_heap.h"

#include <string.h>

enum { START = 0x8000, HEAP = 256, HEADER = 8, WORD = 4, BASE = 8, END = 12, FIRST_PAGE_HEAP = 3840 };

static uint32_t word(const uint8_t *at)
{
    uint32_t w;
    memcpy(&w, at, sizeof w);
    return w;
}

static size_t pages_for(size_t n)
{
    return n / ROW_PAGE + (n % ROW_PAGE != 0);
}

static size_t weight(size_t n)
{
    return HEADER + (n + WORD - 1) / WORD * WORD;
}

static size_t length(const struct flex_row *row)
{
    size_t n = HEAP + row->heap_len;
    for (size_t i = 0; i < row->count; i++)
        n += weight(row->blocks[i].size);
    return n;
}

size_t flex_row_pages(const struct flex_row *row)
{
    return pages_for(length(row));
}

static size_t place_of(const struct flex_row *row, size_t index)
{
    size_t place = HEAP + row->heap_len + HEADER;
    for (size_t i = 0; i < index; i++)
        place += weight(row->blocks[i].size);
    return place;
}

/* Whether the slot has room where a block of `from` bytes becomes one of `to` bytes. */
static bool fits(const struct flex_row *row, size_t from, size_t to)
{
    size_t room = row->most_pages * ROW_PAGE;
    return to <= room && length(row) - from + weight(to) <= room;
}

void flex_row_end(struct flex_row *row)
{
    row_block_end(row->blocks, &row->count);
}

void flex_row_start(struct flex_row *row, size_t len)
{
    row->most_pages = len / ROW_PAGE;
    row->budge = true;
    row->count = 0;
    row->heap_len = FIRST_PAGE_HEAP;
    os_heap_init(row->heap, FIRST_PAGE_HEAP);
}

uint32_t flex_row_alloc(struct flex_row *row, uint32_t anchor, size_t n, size_t *place)
{
    if (anchor >= ROW_ANCHORS)
        return VF_BAD_ANCHOR;
    if (row_block_find(row->blocks, row->count, anchor) < row->count)
        return VF_ANCHOR_IN_USE;
    if (!fits(row, 0, n))
        return VF_NO_ROOM;
    *place = place_of(row, row->count);
    row_block_add(row->blocks, &row->count, anchor, n);
    return VF_OK;
}

/* Why there is no such block, or VF_OK and its index. */
static uint32_t found(const struct flex_row *row, uint32_t anchor, size_t *index)
{
    if (anchor >= ROW_ANCHORS)
        return VF_BAD_ANCHOR;
    *index = row_block_find(row->blocks, row->count, anchor);
    return *index < row->count ? VF_OK : VF_NO_BLOCK;
}

uint32_t flex_row_free(struct flex_row *row, uint32_t anchor)
{
    size_t i;
    uint32_t status = found(row, anchor, &i);
    if (status != VF_OK)
        return status;
    row_block_remove(row->blocks, &row->count, i);
    return VF_OK;
}

uint32_t flex_row_size(const struct flex_row *row, uint32_t anchor, size_t *size)
{
    size_t i;
    uint32_t status = found(row, anchor, &i);
    if (status == VF_OK)
        *size = row->blocks[i].size;
    return status;
}

uint32_t flex_row_place(const struct flex_row *row, uint32_t anchor, size_t *place)
{
    size_t i;
    uint32_t status = found(row, anchor, &i);
    if (status == VF_OK)
        *place = place_of(row, i);
    return status;
}

uint32_t flex_row_extend(struct flex_row *row, uint32_t anchor, size_t n)
{
    size_t i;
    uint32_t status = found(row, anchor, &i);
    if (status != VF_OK)
        return status;
    struct row_block *block = &row->blocks[i];
    if (!fits(row, weight(block->size), n))
        return VF_NO_ROOM;
    row_block_resize(block, n);
    return VF_OK;
}

uint32_t flex_row_midextend(struct flex_row *row, uint32_t anchor, size_t offset, ptrdiff_t by)
{
    size_t i;
    uint32_t status = found(row, anchor, &i);
    if (status != VF_OK)
        return status;
    struct row_block *block = &row->blocks[i];
    if (!row_block_has(block, offset, by))
        return VF_BAD_RANGE;
    size_t more = by > 0 ? (size_t)by : 0;
    if (more > row->most_pages * ROW_PAGE || (more && !fits(row, weight(block->size), block->size + more)))
        return VF_NO_ROOM;
    row_block_midextend(block, offset, by);
    return VF_OK;
}

uint32_t flex_row_put(struct flex_row *row, uint32_t anchor, size_t offset, const uint8_t *from, size_t n)
{
    size_t i;
    uint32_t status = found(row, anchor, &i);
    if (status != VF_OK)
        return status;
    if (offset > row->blocks[i].size || n > row->blocks[i].size - offset)
        return VF_BAD_RANGE;
    memcpy(row->blocks[i].bytes + offset, from, n);
    return VF_OK;
}

/* Makes the heap long enough to end at `end`, by whole pages, where that may be. */
static uint32_t lengthen(struct flex_row *row, size_t end)
{
    if (!row->budge)
        return VF_NO_BUDGE;
    size_t pages = pages_for(end - row->heap_len);
    if (end > ROW_HEAP_ROOM || pages > row->most_pages - flex_row_pages(row))
        return VF_NO_ROOM;
    os_heap_extend(row->heap, ROW_HEAP_ROOM, (ptrdiff_t)(pages * ROW_PAGE));
    row->heap_len += pages * ROW_PAGE;
    return VF_OK;
}

/* The size of a heap's segment for a block of `n` bytes. */
static size_t segment(size_t n)
{
    return n > ROW_HEAP_ROOM ? 2 * (size_t)ROW_HEAP_ROOM : (n + WORD + 7) / 8 * 8;
}

uint32_t flex_row_claim(struct flex_row *row, size_t n, size_t *place)
{
    size_t address;
    uint32_t status = os_heap_claim(row->heap, row->heap_len, n, &address);
    if (status == VF_NO_ROOM) {
        status = lengthen(row, word(row->heap + BASE) + segment(n));
        if (status == VF_OK)
            status = os_heap_claim(row->heap, row->heap_len, n, &address);
    }
    if (status == VF_OK)
        *place = HEAP + address;
    return status;
}

uint32_t flex_row_release(struct flex_row *row, size_t place)
{
    return place < HEAP ? (uint32_t)VF_NOT_A_BLOCK : os_heap_release(row->heap, row->heap_len, place - HEAP);
}

uint32_t flex_row_block_size(const struct flex_row *row, size_t place, size_t *size)
{
    return place < HEAP ? (uint32_t)VF_NOT_A_BLOCK : os_heap_block_size(row->heap, row->heap_len, place - HEAP, size);
}

uint32_t flex_row_resize(struct flex_row *row, size_t place, ptrdiff_t delta, size_t *moved_to)
{
    if (place < HEAP)
        return VF_NOT_A_BLOCK;
    size_t address = place - HEAP, moved, old;
    uint32_t status = os_heap_resize(row->heap, row->heap_len, address, delta, &moved);
    if (status == VF_NO_ROOM && os_heap_block_size(row->heap, row->heap_len, address, &old) == VF_OK) {
        /* The last block grows where it stands. Any other goes above all blocks. */
        size_t base = word(row->heap + BASE), begin = address - WORD;
        bool is_last = begin + segment(old) == base;
        size_t n = delta > ROW_HEAP_ROOM ? (size_t)ROW_HEAP_ROOM + 1 : old + (size_t)delta;
        status = lengthen(row, (is_last ? begin : base) + segment(n));
        if (status == VF_OK)
            status = os_heap_resize(row->heap, row->heap_len, address, delta, &moved);
    }
    if (status == VF_OK)
        *moved_to = HEAP + moved;
    return status;
}

bool flex_row_is(const struct flex_row *row, const uint8_t *memory, const struct vf_slot *slot)
{
    uint32_t anchors[ROW_ANCHORS] = {0};
    if (slot->pages != flex_row_pages(row) || slot->budge != row->budge || !os_heap_is_same(row->heap, memory + HEAP))
        return false;
    for (size_t i = 0; i < row->count; i++) {
        const struct row_block *block = &row->blocks[i];
        size_t place = place_of(row, i);
        const uint8_t *header = memory + place - HEADER;
        if (word(header) != START + WORD * block->anchor || word(header + WORD) != block->size)
            return false;
        if (memcmp(memory + place, block->bytes, block->size))
            return false;
        anchors[block->anchor] = (uint32_t)(START + place);
    }
    return memcmp(memory, anchors, sizeof anchors) == 0;
}
