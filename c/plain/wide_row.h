/*
 * wide_row.h: a wide slot of the same rules as those of vervainfile.h, as a plain row of blocks, with no proof. Nothing
 * of it lies in the slot's bytes. Statuses are those of vervainfile.h, and a place is what its calls tell.
 */
#ifndef WIDE_ROW_H
#define WIDE_ROW_H

#include "row_block.h"

enum { WIDE_ROW_MOST = 4096 };

struct wide_row {
    size_t len, base; /* how many bytes lie at the slot, and where its blocks begin */
    uint32_t anchors;
    size_t count;
    struct row_block blocks[WIDE_ROW_MOST]; /* from below */
};

/* A row without blocks. The first forgets a row that was there. */
void wide_row_end(struct wide_row *row);
void wide_row_start(struct wide_row *row, size_t len, uint32_t anchors);

/* The index of the anchor's block, `count` where it has none; where a block of an index begins, and behind the last one
 * where they end; and how many bytes are free. */
size_t wide_row_find(const struct wide_row *row, uint32_t anchor);
size_t wide_row_place_of(const struct wide_row *row, size_t index);
size_t wide_row_room(const struct wide_row *row);

uint32_t wide_row_alloc(struct wide_row *row, uint32_t anchor, size_t n, size_t *place);
uint32_t wide_row_free(struct wide_row *row, uint32_t anchor);
uint32_t wide_row_size(const struct wide_row *row, uint32_t anchor, size_t *size);
uint32_t wide_row_place(const struct wide_row *row, uint32_t anchor, size_t *place);
uint32_t wide_row_extend(struct wide_row *row, uint32_t anchor, size_t n);
uint32_t wide_row_midextend(struct wide_row *row, uint32_t anchor, size_t offset, ptrdiff_t by);
uint32_t wide_row_put(struct wide_row *row, uint32_t anchor, size_t offset, const uint8_t *from, size_t n);
uint32_t wide_row_read(const struct wide_row *row, uint32_t anchor, size_t offset, uint8_t *to, size_t n);
uint32_t wide_row_budge(struct wide_row *row, size_t n, size_t *place);

#endif
