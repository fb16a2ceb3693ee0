/*
 * flex_plain.c: random calls on a slot and on the plain slot beside it, which the bench takes for comparison. After each
 * the answers, the structs, the anchor words, and each block's header and bytes are the same.
 */
#include "expect.h"
#include "flex_slot.h"

#ifndef CALLS
#define CALLS 20000
#endif

enum { PAGE = 4096, ROOM = 24 * PAGE, ANCHORS = 64, WORD = 4, HEADER = 8, START = 0x8000, ROUNDS = 6 };

static uint8_t memory[ROOM], plain[ROOM];
static struct vf_slot slot, plain_slot;
static size_t len;

static uint32_t some_anchor(void)
{
    return below(80) ? below(ANCHORS) : below(2 * ANCHORS);
}

static size_t some_size(void)
{
    return below(6) ? below(500) : below(20) ? below(9000) : below(2 * ROOM);
}

/* Where a block that came in both slots gets bytes that are all its own. */
static void fill(size_t place, size_t n)
{
    for (size_t i = 0; i < n; i++)
        memory[place + i] = plain[place + i] = (uint8_t)below(256);
}

static bool allocs(void)
{
    uint32_t anchor = some_anchor();
    size_t n = some_size(), place = UNSET, other = UNSET;
    uint32_t status = vf_flex_alloc(memory, len, &slot, anchor, n, &place);
    if (flex_slot_alloc(plain, len, &plain_slot, anchor, n, &other) != status || other != place)
        return false;
    if (status == VF_OK)
        fill(place, n);
    return true;
}

static bool frees(void)
{
    uint32_t anchor = some_anchor();
    return vf_flex_free(memory, len, &slot, anchor) == flex_slot_free(plain, len, &plain_slot, anchor);
}

static bool extends(void)
{
    uint32_t anchor = some_anchor();
    size_t n = some_size();
    return vf_flex_extend(memory, len, &slot, anchor, n) == flex_slot_extend(plain, len, &plain_slot, anchor, n);
}

/* Whether both slots have the same blocks at the same places. */
static bool is_same(void)
{
    if (slot.pages != plain_slot.pages || slot.budge != plain_slot.budge || slot.slides != plain_slot.slides ||
        memcmp(memory, plain, WORD * ANCHORS))
        return false;
    for (uint32_t anchor = 0; anchor < ANCHORS; anchor++) {
        size_t place, size;
        if (vf_flex_place(memory, len, &slot, anchor, &place) != VF_OK)
            continue;
        EXPECT(vf_flex_size(memory, len, &slot, anchor, &size) == VF_OK);
        if (memcmp(memory + place - HEADER, plain + place - HEADER, HEADER + size))
            return false;
    }
    return true;
}

/* Calls up to the first one that differs. */
static void compare(int calls)
{
    static bool (*const called[])(void) = {allocs, allocs, frees, extends, extends};
    memset(memory, 0xa5, ROOM);
    memset(plain, 0x5a, ROOM);
    EXPECT(vf_flex_start(memory, len, &slot) == VF_OK);
    EXPECT(flex_slot_start(plain, len, &plain_slot) == VF_OK);
    for (int call = 0; call < calls; call++)
        if (!called[below(sizeof called / sizeof *called)]() || !is_same()) {
            fprintf(stderr, "slots in %zu bytes: call %d differs\n", len, call);
            EXPECT(!"the slots are the same");
            return;
        }
}

int main(void)
{
    for (int round = 0; round < ROUNDS; round++) {
        len = PAGE * (2 + below(22)) + below(PAGE);
        compare(CALLS);
    }
    return ended("flex_plain");
}
