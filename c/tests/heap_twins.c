/*
 * heap_twins.c: random calls on a heap with a map beside it, and the same calls on one without. After each the answers
 * and all bytes are the same, and the map is as a new one.
 */
#include "expect.h"

#ifndef CALLS
#define CALLS 20000
#endif

enum { ROOM = 1 << 14, WORDS = 2 * ROOM / 512 + 4, MOST_BLOCKS = 1000, ROUNDS = 20 };

static uint8_t walked[ROOM], mapped[ROOM], longer[ROOM];
static uint64_t map[WORDS], fresh[WORDS];
static size_t blocks[MOST_BLOCKS], count;

static size_t some_address(void)
{
    return count && below(40) ? blocks[below((uint32_t)count)] : below(2 * ROOM);
}

static bool claims(size_t len)
{
    size_t n = below(10) ? below(150) : below(4000), address = UNSET, wanted = UNSET;
    uint32_t status = vf_heap_indexed_claim(mapped, len, map, WORDS, n, &address);
    if (status != vf_heap_claim(walked, len, n, &wanted) || address != wanted)
        return false;
    if (status == VF_OK) {
        memset(mapped + address, (int)below(256), n);
        memcpy(walked + address, mapped + address, n);
        if (count < MOST_BLOCKS)
            blocks[count++] = address;
    }
    return true;
}

static bool releases(size_t len)
{
    size_t address = some_address();
    uint32_t status = vf_heap_indexed_release(mapped, len, map, WORDS, address);
    if (status == VF_OK)
        forget(blocks, &count, address);
    return status == vf_heap_release(walked, len, address);
}

/* With as many bytes more as are told a resize is done, and with 8 fewer it isn't. */
static bool is_need(size_t len, size_t address, ptrdiff_t delta, size_t need)
{
    size_t moved;
    if (len + need > ROOM)
        return true;
    memcpy(longer, walked, ROOM);
    if (need && (vf_heap_extend(longer, ROOM, (ptrdiff_t)need - 8) != VF_OK ||
                 vf_heap_resize(longer, ROOM, address, delta, &moved) != VF_NO_ROOM ||
                 vf_heap_extend(longer, ROOM, 8) != VF_OK))
        return false;
    return vf_heap_resize(longer, ROOM, address, delta, &moved) == VF_OK;
}

static bool resizes(size_t len)
{
    size_t address = some_address(), moved = UNSET, wanted = UNSET, need = UNSET;
    ptrdiff_t delta = (ptrdiff_t)below(400) - 200;
    uint32_t asked = vf_heap_indexed_resize_need(mapped, len, map, WORDS, address, delta, &need);
    if (asked == VF_OK && !is_need(len, address, delta, need))
        return false;
    uint32_t status = vf_heap_indexed_resize(mapped, len, map, WORDS, address, delta, &moved);
    if (status != (asked == VF_OK && need ? VF_NO_ROOM : asked))
        return false;
    if (status == VF_OK) {
        forget(blocks, &count, address);
        if (count < MOST_BLOCKS)
            blocks[count++] = moved;
    }
    return status == vf_heap_resize(walked, len, address, delta, &wanted) && moved == wanted;
}

static bool answers(size_t len)
{
    size_t address = some_address(), size = UNSET, wanted = UNSET;
    uint32_t status = vf_heap_indexed_block_size(mapped, len, map, WORDS, address, &size);
    return status == vf_heap_block_size(walked, len, address, &wanted) && size == wanted;
}

/* The heap's end is moved without the map, which is made anew then. */
static bool extends(size_t len)
{
    ptrdiff_t delta = 8 * ((ptrdiff_t)below(100) - 50);
    return vf_heap_extend(mapped, len, delta) == vf_heap_extend(walked, len, delta) &&
           vf_heap_index(mapped, len, map, WORDS) == VF_OK;
}

static bool is_alike(size_t len)
{
    switch (below(16)) {
    case 0: return extends(len);
    case 1: return answers(len);
    case 2: case 3: case 4: case 5: return resizes(len);
    case 6: case 7: case 8: case 9: return releases(len);
    default: return claims(len);
    }
}

static bool is_same(size_t len)
{
    memset(fresh, 0x5a, sizeof fresh);
    return memcmp(mapped, walked, ROOM) == 0 && vf_heap_index(mapped, len, fresh, WORDS) == VF_OK &&
           memcmp(map, fresh, sizeof map) == 0;
}

/* Calls up to the first one that differs. */
static void compare(size_t len, int calls)
{
    count = 0;
    memset(walked, 0xa5, ROOM);
    memset(mapped, 0xa5, ROOM);
    EXPECT(vf_heap_init(walked, len) == VF_OK && vf_heap_init(mapped, len) == VF_OK);
    EXPECT(vf_heap_index(mapped, len, map, WORDS) == VF_OK);
    for (int call = 0; call < calls; call++)
        if (!is_alike(len) || !is_same(len)) {
            fprintf(stderr, "heap of %zu bytes: call %d differs\n", len, call);
            EXPECT(!"the heaps are alike");
            return;
        }
    EXPECT(vf_heap_check(mapped, len) == VF_OK);
}

int main(void)
{
    for (int round = 0; round < ROUNDS; round++)
        compare(512 + 8 * below((ROOM - 512) / 8), CALLS);
    return ended("heap_twins");
}
