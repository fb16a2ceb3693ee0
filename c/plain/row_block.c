/*
 * row_block.c: a block of a plain row. Its bytes are taken anew at each change that lengthens it or moves some.
 */
#include "row_block.h"

#include <stdlib.h>
#include <string.h>

size_t row_block_find(const struct row_block *blocks, size_t count, uint32_t anchor)
{
    size_t index = 0;
    while (index < count && blocks[index].anchor != anchor)
        index++;
    return index;
}

/* Gives a block other bytes: `keep` of the old ones, `by` zeros, and the old ones from `from` on. */
static void remake(struct row_block *block, size_t keep, size_t by, size_t from)
{
    size_t rest = block->size - from;
    uint8_t *bytes = (uint8_t *)calloc(keep + by + rest + 1, 1);
    if (!bytes)
        abort();
    if (block->bytes) {
        memcpy(bytes, block->bytes, keep);
        memcpy(bytes + keep + by, block->bytes + from, rest);
    }
    free(block->bytes);
    block->bytes = bytes;
    block->size = keep + by + rest;
}

void row_block_add(struct row_block *blocks, size_t *count, uint32_t anchor, size_t n)
{
    struct row_block *block = &blocks[(*count)++];
    block->anchor = anchor;
    block->size = 0;
    block->bytes = NULL;
    remake(block, 0, n, 0);
}

void row_block_remove(struct row_block *blocks, size_t *count, size_t index)
{
    free(blocks[index].bytes);
    (*count)--;
    memmove(blocks + index, blocks + index + 1, (*count - index) * sizeof *blocks);
}

void row_block_end(struct row_block *blocks, size_t *count)
{
    while (*count)
        free(blocks[--*count].bytes);
}

void row_block_resize(struct row_block *block, size_t n)
{
    if (n < block->size)
        block->size = n;
    else
        remake(block, block->size, n - block->size, block->size);
}

bool row_block_has(const struct row_block *block, size_t offset, ptrdiff_t by)
{
    return offset <= block->size && by >= -(ptrdiff_t)offset;
}

void row_block_midextend(struct row_block *block, size_t offset, ptrdiff_t by)
{
    if (by < 0)
        remake(block, offset - (size_t)-by, 0, offset);
    else
        remake(block, offset, (size_t)by, offset);
}
