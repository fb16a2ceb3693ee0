/*
 * flex_random.c: random calls on a slot and on a plain row of blocks beside it. After each the answers are the same,
 * the slot's bytes are what the row stands for, a refused call has left all of the memory, and the count of slides is
 * one more just where a block of the row stands elsewhere.
 */
#include "expect.h"
#include "flex_row.h"

#ifndef CALLS
#define CALLS 20000
#endif

enum { ROOM = 24 * ROW_PAGE, MOST_PLACES = 400, ROUNDS = 6, LONGEST_PUT = 64 };

static uint8_t memory[ROOM], before[ROOM];
static struct vf_slot slot;
static struct flex_row row;
static size_t places[MOST_PLACES], count, len;
static uint32_t last;

/* Whether a call answered what it should. */
static bool answers(uint32_t status, uint32_t wanted)
{
    last = status;
    return status == wanted;
}

static uint32_t some_anchor(void)
{
    return below(50) ? below(24) : below(80);
}

static size_t some_place(void)
{
    return count && below(20) ? places[below((uint32_t)count)] : below(2 * ROOM);
}

static void keep(size_t place)
{
    if (count < MOST_PLACES)
        places[count++] = place;
}

static size_t some_size(void)
{
    return below(6) ? below(300) : below(20) ? below(9000) : below(2 * ROOM);
}

static bool allocs(void)
{
    uint32_t anchor = some_anchor();
    size_t n = some_size(), place = UNSET, wanted = UNSET;
    return answers(vf_flex_alloc(memory, len, &slot, anchor, n, &place), flex_row_alloc(&row, anchor, n, &wanted)) &&
           place == wanted;
}

static bool frees(void)
{
    uint32_t anchor = some_anchor();
    return answers(vf_flex_free(memory, len, &slot, anchor), flex_row_free(&row, anchor));
}

static bool extends(void)
{
    uint32_t anchor = some_anchor();
    size_t n = some_size();
    return answers(vf_flex_extend(memory, len, &slot, anchor, n), flex_row_extend(&row, anchor, n));
}

static bool midextends(void)
{
    uint32_t anchor = some_anchor();
    size_t size = 0, offset = flex_row_size(&row, anchor, &size) == VF_OK ? below((uint32_t)size + 3) : below(9);
    ptrdiff_t by = below(9) ? (ptrdiff_t)below(400) - 200 : (ptrdiff_t)some_size();
    return answers(vf_flex_midextend(memory, len, &slot, anchor, offset, by),
                   flex_row_midextend(&row, anchor, offset, by));
}

static bool puts_bytes(void)
{
    uint8_t from[LONGEST_PUT];
    uint32_t anchor = some_anchor();
    size_t size = 0, n = below(LONGEST_PUT + 1);
    size_t offset = flex_row_size(&row, anchor, &size) == VF_OK ? below((uint32_t)size + 3) : below(9);
    for (size_t i = 0; i < n; i++)
        from[i] = (uint8_t)below(256);
    return answers(vf_flex_put(memory, len, &slot, anchor, offset, from, n),
                   flex_row_put(&row, anchor, offset, from, n));
}

/* What is read is what the row has; a refused read leaves the buffer. */
static bool reads(void)
{
    uint8_t to[LONGEST_PUT], wanted[LONGEST_PUT];
    uint32_t anchor = some_anchor();
    size_t size = 0, place = 0, n = below(LONGEST_PUT + 1), offset = below(300);
    uint32_t status = flex_row_size(&row, anchor, &size);
    if (status == VF_OK && offset + n > size)
        status = VF_BAD_RANGE;
    memset(to, 0xa5, sizeof to);
    memset(wanted, 0xa5, sizeof wanted);
    for (size_t i = 0; i < row.count && status == VF_OK; i++)
        if (row.blocks[i].anchor == anchor)
            memcpy(wanted, row.blocks[i].bytes + offset, n);
    return answers(vf_flex_read(memory, len, &slot, anchor, offset, to, n), status) && !memcmp(to, wanted, sizeof to) &&
           vf_flex_place(memory, len, &slot, anchor, &place) == flex_row_place(&row, anchor, &size) &&
           (status != VF_OK || place == size);
}

/* All places are those of the row, and 0 where an anchor has no block. */
static bool tells_places(void)
{
    size_t told[80], wanted = below(80);
    if (!answers(vf_flex_places(memory, len, &slot, told, wanted), VF_OK))
        return false;
    for (uint32_t anchor = 0; anchor < wanted; anchor++) {
        size_t place = 0;
        if (anchor < ROW_ANCHORS && flex_row_place(&row, anchor, &place) != VF_OK)
            place = 0;
        if (told[anchor] != place)
            return false;
    }
    return true;
}

static bool budges(void)
{
    bool on = below(4) != 0, was = !row.budge, wanted = row.budge;
    row.budge = on;
    return answers(vf_flex_set_budge(&slot, on, &was), VF_OK) && was == wanted;
}

static bool claims(void)
{
    size_t n = below(40) ? below(120) : below(6000), place = UNSET, wanted = UNSET;
    uint32_t status = vf_flex_claim(memory, len, &slot, n, &place);
    if (!answers(status, flex_row_claim(&row, n, &wanted)) || place != wanted)
        return false;
    if (status == VF_OK) {
        keep(place);
        memset(memory + place, (int)below(256), n);
        memcpy(row.heap + place - 256, memory + place, n);
    }
    return true;
}

static bool releases(void)
{
    size_t place = some_place();
    uint32_t status = vf_flex_release(memory, len, &slot, place);
    if (status == VF_OK)
        forget(places, &count, place);
    return answers(status, flex_row_release(&row, place));
}

static bool resizes(void)
{
    size_t place = some_place(), moved = UNSET, wanted = UNSET;
    ptrdiff_t delta = below(20) ? (ptrdiff_t)below(200) - 100 : (ptrdiff_t)below(6000);
    uint32_t status = vf_flex_resize(memory, len, &slot, place, delta, &moved);
    if (status == VF_OK) {
        forget(places, &count, place);
        keep(moved);
    }
    return answers(status, flex_row_resize(&row, place, delta, &wanted)) && moved == wanted;
}

static bool sizes(void)
{
    size_t place = some_place(), size = UNSET, wanted = UNSET, flex = UNSET, wanted_flex = UNSET;
    uint32_t anchor = some_anchor();
    return answers(vf_flex_block_size(memory, len, &slot, place, &size), flex_row_block_size(&row, place, &wanted)) &&
           answers(vf_flex_size(memory, len, &slot, anchor, &flex), flex_row_size(&row, anchor, &wanted_flex)) &&
           size == wanted && flex == wanted_flex;
}

/* Where the row's blocks stand, UNSET where an anchor has none. */
static void note_places(size_t *noted)
{
    for (uint32_t anchor = 0; anchor < ROW_ANCHORS; anchor++)
        if (flex_row_place(&row, anchor, &noted[anchor]) != VF_OK)
            noted[anchor] = UNSET;
}

/* Whether the row has a block that stood elsewhere before. */
static bool has_slid(const size_t *before_it)
{
    size_t now[ROW_ANCHORS];
    note_places(now);
    for (uint32_t anchor = 0; anchor < ROW_ANCHORS; anchor++)
        if (before_it[anchor] != UNSET && now[anchor] != UNSET && before_it[anchor] != now[anchor])
            return true;
    return false;
}

static bool is_alike(void)
{
    static bool (*const calls[])(void) = {allocs, allocs, frees,  extends, midextends, puts_bytes, reads,
                                          budges, claims, claims, claims,  releases,   resizes,    sizes,
                                          tells_places};
    size_t stood[ROW_ANCHORS];
    uint32_t slides = slot.slides;
    memcpy(before, memory, ROOM);
    note_places(stood);
    return calls[below(sizeof calls / sizeof *calls)]() && flex_row_is(&row, memory, &slot) &&
           (last == VF_OK || memcmp(before, memory, ROOM) == 0) && slot.slides == slides + has_slid(stood);
}

/* Calls up to the first one that differs. */
static void compare(int calls)
{
    count = 0;
    memset(memory, 0xa5, ROOM);
    EXPECT(vf_flex_start(memory, len, &slot) == VF_OK && slot.slides == 0);
    /* The count goes on from the last number. */
    slot.slides = UINT32_MAX - below(9);
    flex_row_start(&row, len);
    for (int call = 0; call < calls; call++)
        if (!is_alike()) {
            fprintf(stderr, "slot in %zu bytes: call %d differs\n", len, call);
            EXPECT(!"the slot is the row");
            break;
        }
    flex_row_end(&row);
}

int main(void)
{
    for (int round = 0; round < ROUNDS; round++) {
        len = ROW_PAGE * (2 + below(22)) + below(ROW_PAGE);
        compare(CALLS);
    }
    return ended("flex_random");
}
