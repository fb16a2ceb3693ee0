/*
 * row_block.h: a block of a plain row, with bytes of its own. The row of a slot and that of a wide slot are made of
 * these, from below; how many bytes a block takes there, each of them says itself.
 */
#ifndef ROW_BLOCK_H
#define ROW_BLOCK_H

#include "vervainfile.h"

struct row_block {
    uint32_t anchor;
    size_t size;
    uint8_t *bytes;
};

/* The index of the anchor's block among `count`, and `count` where it has none. */
size_t row_block_find(const struct row_block *blocks, size_t count, uint32_t anchor);

/* Puts a block of `n` zeros behind the others, takes one away, and takes all away. */
void row_block_add(struct row_block *blocks, size_t *count, uint32_t anchor, size_t n);
void row_block_remove(struct row_block *blocks, size_t *count, size_t index);
void row_block_end(struct row_block *blocks, size_t *count);

/* Cuts a block to `n` bytes, or lengthens it by zeros. */
void row_block_resize(struct row_block *block, size_t n);

/* Whether the block has the offset, and before it the `-by` bytes that are to be taken out where `by` is negative. */
bool row_block_has(const struct row_block *block, size_t offset, ptrdiff_t by);

/* Puts `by` zeros in at the offset, or takes out the `-by` bytes before it. */
void row_block_midextend(struct row_block *block, size_t offset, ptrdiff_t by);

#endif
