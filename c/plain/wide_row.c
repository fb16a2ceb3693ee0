/*
 * wide_row.c: a wide slot as a row of blocks.
 *
 * Below the blocks lie two words of four bytes for each anchor, and then what was given to the caller. A block of n
 * bytes takes n and one to eight more, up to a multiple of 8.
 */
#include "wide_row.h"

#include <string.h>

enum { WORDS = 8, EIGHT = 8 };

static size_t weight(size_t n)
{
    return n / EIGHT * EIGHT + EIGHT;
}

void wide_row_end(struct wide_row *row)
{
    row_block_end(row->blocks, &row->count);
}

void wide_row_start(struct wide_row *row, size_t len, uint32_t anchors)
{
    row->len = len;
    row->base = WORDS * (size_t)anchors;
    row->anchors = anchors;
    row->count = 0;
}

size_t wide_row_find(const struct wide_row *row, uint32_t anchor)
{
    return row_block_find(row->blocks, row->count, anchor);
}

size_t wide_row_place_of(const struct wide_row *row, size_t index)
{
    size_t place = row->base;
    for (size_t i = 0; i < index; i++)
        place += weight(row->blocks[i].size);
    return place;
}

size_t wide_row_room(const struct wide_row *row)
{
    return row->len - wide_row_place_of(row, row->count);
}

/* Whether there is room where a block that takes `from` bytes becomes one of `n` bytes. */
static bool fits(const struct wide_row *row, size_t from, size_t n)
{
    return n < row->len && weight(n) <= from + wide_row_room(row);
}

/* Why there is no such block, or VF_OK and its index. */
static uint32_t found(const struct wide_row *row, uint32_t anchor, size_t *index)
{
    if (anchor >= row->anchors)
        return VF_BAD_ANCHOR;
    *index = wide_row_find(row, anchor);
    return *index < row->count ? VF_OK : VF_NO_BLOCK;
}

uint32_t wide_row_alloc(struct wide_row *row, uint32_t anchor, size_t n, size_t *place)
{
    size_t index;
    uint32_t status = found(row, anchor, &index);
    if (status != VF_NO_BLOCK)
        return status == VF_OK ? (uint32_t)VF_ANCHOR_IN_USE : status;
    if (!fits(row, 0, n))
        return VF_NO_ROOM;
    *place = wide_row_place_of(row, row->count);
    row_block_add(row->blocks, &row->count, anchor, n);
    return VF_OK;
}

uint32_t wide_row_free(struct wide_row *row, uint32_t anchor)
{
    size_t i;
    uint32_t status = found(row, anchor, &i);
    if (status != VF_OK)
        return status;
    row_block_remove(row->blocks, &row->count, i);
    return VF_OK;
}

uint32_t wide_row_size(const struct wide_row *row, uint32_t anchor, size_t *size)
{
    size_t i;
    uint32_t status = found(row, anchor, &i);
    if (status == VF_OK)
        *size = row->blocks[i].size;
    return status;
}

uint32_t wide_row_place(const struct wide_row *row, uint32_t anchor, size_t *place)
{
    size_t i;
    uint32_t status = found(row, anchor, &i);
    if (status == VF_OK)
        *place = wide_row_place_of(row, i);
    return status;
}

uint32_t wide_row_extend(struct wide_row *row, uint32_t anchor, size_t n)
{
    size_t i;
    uint32_t status = found(row, anchor, &i);
    if (status != VF_OK)
        return status;
    struct row_block *block = &row->blocks[i];
    if (!fits(row, weight(block->size), n))
        return VF_NO_ROOM;
    row_block_resize(block, n);
    return VF_OK;
}

uint32_t wide_row_midextend(struct wide_row *row, uint32_t anchor, size_t offset, ptrdiff_t by)
{
    size_t i;
    uint32_t status = found(row, anchor, &i);
    if (status != VF_OK)
        return status;
    struct row_block *block = &row->blocks[i];
    if (!row_block_has(block, offset, by))
        return VF_BAD_RANGE;
    size_t more = by > 0 ? (size_t)by : 0;
    if (more > row->len || (more && !fits(row, weight(block->size), block->size + more)))
        return VF_NO_ROOM;
    row_block_midextend(block, offset, by);
    return VF_OK;
}

/* Why so many bytes from an offset on aren't the block's, or VF_OK and the first one. */
static uint32_t within(const struct wide_row *row, uint32_t anchor, size_t offset, size_t n, uint8_t **bytes)
{
    size_t i;
    uint32_t status = found(row, anchor, &i);
    if (status != VF_OK)
        return status;
    if (offset > row->blocks[i].size || n > row->blocks[i].size - offset)
        return VF_BAD_RANGE;
    *bytes = row->blocks[i].bytes + offset;
    return VF_OK;
}

uint32_t wide_row_put(struct wide_row *row, uint32_t anchor, size_t offset, const uint8_t *from, size_t n)
{
    uint8_t *bytes;
    uint32_t status = within(row, anchor, offset, n, &bytes);
    if (status == VF_OK)
        memcpy(bytes, from, n);
    return status;
}

uint32_t wide_row_read(const struct wide_row *row, uint32_t anchor, size_t offset, uint8_t *to, size_t n)
{
    uint8_t *bytes;
    uint32_t status = within(row, anchor, offset, n, &bytes);
    if (status == VF_OK)
        memcpy(to, bytes, n);
    return status;
}

uint32_t wide_row_budge(struct wide_row *row, size_t n, size_t *place)
{
    size_t by = n / EIGHT * EIGHT + (n % EIGHT ? EIGHT : 0);
    if (n > row->len || by > wide_row_room(row))
        return VF_NO_ROOM;
    *place = row->base;
    row->base += by;
    return VF_OK;
}
