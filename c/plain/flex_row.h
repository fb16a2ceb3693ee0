/*
 * flex_row.h: a slot of the same rules as those of vervainfile.h, as a plain row of blocks and a plain heap, with no
 * proof. Nothing of it lies in the slot's bytes: `flex_row_is` says whether bytes are what it stands for. Statuses are
 * those of vervainfile.h, and a place is what its calls tell.
 */
#ifndef FLEX_ROW_H
#define FLEX_ROW_H

#include "row_block.h"

enum { ROW_ANCHORS = 64, ROW_PAGE = 4096, ROW_HEAP_ROOM = 1 << 18 };

struct flex_row {
    size_t most_pages; /* how many pages lie at the slot */
    bool budge;
    size_t count;
    struct row_block blocks[ROW_ANCHORS]; /* from below */
    size_t heap_len;
    uint8_t heap[ROW_HEAP_ROOM];
};

/* A row without blocks. The first forgets a row that was there. */
void flex_row_end(struct flex_row *row);
void flex_row_start(struct flex_row *row, size_t len);

size_t flex_row_pages(const struct flex_row *row);
uint32_t flex_row_alloc(struct flex_row *row, uint32_t anchor, size_t n, size_t *place);
uint32_t flex_row_free(struct flex_row *row, uint32_t anchor);
uint32_t flex_row_size(const struct flex_row *row, uint32_t anchor, size_t *size);
uint32_t flex_row_place(const struct flex_row *row, uint32_t anchor, size_t *place);
uint32_t flex_row_extend(struct flex_row *row, uint32_t anchor, size_t n);
uint32_t flex_row_midextend(struct flex_row *row, uint32_t anchor, size_t offset, ptrdiff_t by);
uint32_t flex_row_put(struct flex_row *row, uint32_t anchor, size_t offset, const uint8_t *from, size_t n);
uint32_t flex_row_claim(struct flex_row *row, size_t n, size_t *place);
uint32_t flex_row_release(struct flex_row *row, size_t place);
uint32_t flex_row_resize(struct flex_row *row, size_t place, ptrdiff_t delta, size_t *moved_to);
uint32_t flex_row_block_size(const struct flex_row *row, size_t place, size_t *size);

/* Whether a slot has just these pages, anchor words, C heap and blocks, and budging as the row has it. */
bool flex_row_is(const struct flex_row *row, const uint8_t *memory, const struct vf_slot *slot);

#endif
