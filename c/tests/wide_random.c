/*
 * wide_random.c: random calls on a wide slot and on a plain row of blocks beside it. After each the answers are the
 * same, the words, the blocks and the bytes below them are what the row stands for, a refused call has left all of the
 * memory, and the count of slides is one more just where a block of the row stands elsewhere.
 */
#include "expect.h"
#include "wide_row.h"

#ifndef CALLS
#define CALLS 20000
#endif

enum { ROOM = 160000, MOST = WIDE_ROW_MOST, ROUNDS = 4, LONGEST_PUT = 64 };

static uint8_t memory[ROOM], before[ROOM], given[ROOM];
static struct vf_wide_slot slot;
static struct wide_row row;
static size_t stood[MOST]; /* where the block of each anchor stood before the call, 0 where it had none */
static size_t words;       /* how many bytes the words of all anchors have */
static uint32_t slides, last;

static bool answers(uint32_t status, uint32_t wanted)
{
    last = status;
    return status == wanted;
}

static uint32_t some_anchor(void)
{
    return row.count && below(4) ? row.blocks[below((uint32_t)row.count)].anchor : below(row.anchors + 9);
}

static size_t some_size(void)
{
    return below(30) ? below(60) : below(20) ? below(9000) : (size_t)-1 - below(3);
}

/* The size of the anchor's block, or some number where it has none. */
static size_t size_of(uint32_t anchor)
{
    size_t size = 9;
    wide_row_size(&row, anchor, &size);
    return size;
}

static bool allocs(void)
{
    uint32_t anchor = some_anchor();
    size_t n = some_size(), place = UNSET, wanted = UNSET;
    uint32_t status = wide_row_alloc(&row, anchor, n, &wanted);
    return answers(vf_flex_wide_alloc(memory, row.len, &slot, anchor, n, &place), status) && place == wanted;
}

static bool frees(void)
{
    uint32_t anchor = some_anchor(), status = wide_row_free(&row, anchor);
    return answers(vf_flex_wide_free(memory, row.len, &slot, anchor), status);
}

static bool extends(void)
{
    uint32_t anchor = some_anchor();
    size_t n = some_size();
    uint32_t status = wide_row_extend(&row, anchor, n);
    return answers(vf_flex_wide_extend(memory, row.len, &slot, anchor, n), status);
}

static bool midextends(void)
{
    uint32_t anchor = some_anchor();
    size_t offset = below((uint32_t)size_of(anchor) + 2);
    ptrdiff_t by = below(20) ? (ptrdiff_t)below(60) - 25 : (ptrdiff_t)(some_size() / 2);
    uint32_t status = wide_row_midextend(&row, anchor, offset, by);
    return answers(vf_flex_wide_midextend(memory, row.len, &slot, anchor, offset, by), status);
}

static bool puts_bytes(void)
{
    uint8_t from[LONGEST_PUT];
    uint32_t anchor = some_anchor();
    size_t n = below(LONGEST_PUT + 1), offset = below((uint32_t)size_of(anchor) + 2);
    for (size_t i = 0; i < n; i++)
        from[i] = (uint8_t)below(256);
    uint32_t status = wide_row_put(&row, anchor, offset, from, n);
    return answers(vf_flex_wide_put(memory, row.len, &slot, anchor, offset, from, n), status);
}

/* What is read is what the row has; a refused read leaves the buffer, and a refused question its number. */
static bool reads(void)
{
    uint8_t to[LONGEST_PUT], wanted[LONGEST_PUT];
    uint32_t anchor = some_anchor();
    size_t n = below(LONGEST_PUT + 1), offset = below(30);
    size_t size = UNSET, place = UNSET, wanted_size = UNSET, wanted_place = UNSET;
    memset(to, 0xa5, sizeof to);
    memset(wanted, 0xa5, sizeof wanted);
    uint32_t status = wide_row_read(&row, anchor, offset, wanted, n);
    return answers(vf_flex_wide_read(memory, row.len, &slot, anchor, offset, to, n), status) &&
           !memcmp(to, wanted, sizeof to) &&
           vf_flex_wide_size(memory, row.len, &slot, anchor, &size) == wide_row_size(&row, anchor, &wanted_size) &&
           vf_flex_wide_place(memory, row.len, &slot, anchor, &place) == wide_row_place(&row, anchor, &wanted_place) &&
           size == wanted_size && place == wanted_place;
}

static bool budges(void)
{
    size_t n = below(3) ? below(30) : some_size(), place = UNSET, wanted = UNSET;
    if (below(9))
        return true;
    uint32_t status = wide_row_budge(&row, n, &wanted);
    if (!answers(vf_flex_wide_budge(memory, row.len, &slot, n, &place), status) || place != wanted)
        return false;
    for (size_t i = place; status == VF_OK && i < row.base; i++)
        memory[i] = given[i] = (uint8_t)below(256);
    return true;
}

/* The slot has fewer anchors, 64 at least and so many that each block has one, or more, up to those it began with. */
static bool counts_anchors(void)
{
    uint32_t least = 64;
    for (size_t i = 0; i < row.count; i++)
        least = row.blocks[i].anchor < least ? least : row.blocks[i].anchor + 1;
    row.anchors = slot.anchors = least + below((uint32_t)(words / 8) - least + 1);
    return true;
}

static uint32_t word_at(size_t at)
{
    return memory[at] | (uint32_t)memory[at + 1] << 8 | (uint32_t)memory[at + 2] << 16 | (uint32_t)memory[at + 3] << 24;
}

/* Whether the bytes are the row's. */
static bool is_row(void)
{
    static size_t places[MOST + 9];
    size_t used = 0, place = row.base;
    if (slot.base != row.base || slot.top != row.len - wide_row_room(&row) || slot.anchors != row.anchors ||
        vf_flex_wide_places(memory, row.len, &slot, places, row.anchors + 9) != VF_OK)
        return false;
    for (size_t i = 0; i < row.count; place += row.blocks[i++].size / 8 * 8 + 8) {
        const struct row_block *it = &row.blocks[i];
        if (word_at(8 * it->anchor) != place || word_at(8 * it->anchor + 4) != it->size ||
            memcmp(memory + place, it->bytes, it->size) || places[it->anchor] != place)
            return false;
    }
    for (uint32_t anchor = 0; anchor < row.anchors + 9; anchor++)
        used += places[anchor] != 0;
    for (size_t at = 8 * row.anchors; at < words; at++)
        if (memory[at])
            return false;
    return used == row.count && !memcmp(memory + words, given + words, row.base - words);
}

static bool is_alike(void)
{
    static bool (*const calls[])(void) = {allocs,     allocs,     allocs, allocs, frees,         extends,
                                          midextends, puts_bytes, reads,  budges, counts_anchors};
    bool slid = false;
    memcpy(before, memory, ROOM);
    memset(stood, 0, sizeof stood);
    for (size_t i = 0, place = row.base; i < row.count; place += row.blocks[i++].size / 8 * 8 + 8)
        stood[row.blocks[i].anchor] = place;
    last = VF_OK;
    if (!calls[below(sizeof calls / sizeof *calls)]() || (last != VF_OK && memcmp(before, memory, ROOM)))
        return false;
    for (size_t i = 0, place = row.base; i < row.count; place += row.blocks[i++].size / 8 * 8 + 8)
        slid |= stood[row.blocks[i].anchor] && stood[row.blocks[i].anchor] != place;
    slides += slid;
    return is_row() && slot.slides == slides;
}

int main(void)
{
    for (int round = 0; round < ROUNDS; round++) {
        uint32_t anchors = round ? 64 + below(round == 1 ? 4033 : 200) : 64;
        words = 8 * anchors;
        wide_row_start(&row, words + 2000 + below(ROOM - 8 * MOST - 2000), anchors);
        memset(memory, 0xa5, ROOM);
        EXPECT(vf_flex_start_with(memory, row.len, &slot, anchors) == VF_OK);
        /* The count goes on from the last number. */
        slides = slot.slides = UINT32_MAX - below(9);
        for (int call = 0; call < CALLS / ROUNDS; call++)
            if (!is_alike()) {
                fprintf(stderr, "%u anchors in %zu bytes: call %d differs\n", anchors, row.len, call);
                EXPECT(!"the slot is the row");
                break;
            }
        wide_row_end(&row);
    }
    return ended("wide_random");
}
