/*
 * heap_random.c: random calls on a heap and on the plain one beside it. After each the answers are the same, and so are
 * all bytes that mean something, in the blocks too.
 */
#include "expect.h"
#include "os_heap.h"

#ifndef CALLS
#define CALLS 20000
#endif

enum { ROOM = 1 << 15, MOST_BLOCKS = 2000, ROUNDS = 30 };

static uint8_t memory[ROOM], plain[ROOM];
static size_t blocks[MOST_BLOCKS], count;

static size_t some_address(void)
{
    return count && below(40) ? blocks[below((uint32_t)count)] : below(2 * ROOM);
}

static bool claims(const struct heap_calls *heap, size_t len)
{
    size_t n = below(10) ? below(150) : below(4000), address = UNSET, wanted = UNSET;
    uint32_t status = heap->claim(memory, len, n, &address);
    if (status != os_heap_claim(plain, len, n, &wanted) || address != wanted)
        return false;
    if (status == VF_OK) {
        memset(memory + address, (int)below(256), n);
        memcpy(plain + address, memory + address, n);
        if (count < MOST_BLOCKS)
            blocks[count++] = address;
    }
    return true;
}

static bool releases(const struct heap_calls *heap, size_t len)
{
    size_t address = some_address();
    uint32_t status = heap->release(memory, len, address);
    if (status == VF_OK)
        forget(blocks, &count, address);
    return status == os_heap_release(plain, len, address);
}

static bool resizes(const struct heap_calls *heap, size_t len)
{
    size_t address = some_address(), moved = UNSET, wanted = UNSET;
    ptrdiff_t delta = (ptrdiff_t)below(400) - 200;
    uint32_t status = heap->resize(memory, len, address, delta, &moved);
    if (status == VF_OK) {
        forget(blocks, &count, address);
        if (count < MOST_BLOCKS)
            blocks[count++] = moved;
    }
    return status == os_heap_resize(plain, len, address, delta, &wanted) && moved == wanted;
}

static bool extends(const struct heap_calls *heap, size_t len)
{
    ptrdiff_t delta = 8 * ((ptrdiff_t)below(100) - 50) + (below(8) == 0);
    return heap->extend(memory, len, delta) == os_heap_extend(plain, len, delta);
}

static bool answers(const struct heap_calls *heap, size_t len)
{
    size_t most = 0, free = 0, size = UNSET, wanted_most = 0, wanted_free = 0, wanted_size = UNSET;
    size_t address = some_address();
    uint32_t status = heap->block_size(memory, len, address, &size);
    return status == os_heap_block_size(plain, len, address, &wanted_size) && size == wanted_size &&
           heap->describe(memory, len, &most, &free) == os_heap_describe(plain, len, &wanted_most, &wanted_free) &&
           most == wanted_most && free == wanted_free && vf_heap_check(memory, len) == VF_OK &&
           os_heap_check(plain, len) == VF_OK;
}

static bool is_alike(const struct heap_calls *heap, size_t len)
{
    switch (below(16)) {
    case 0: return extends(heap, len);
    case 1: return answers(heap, len);
    case 2: case 3: case 4: case 5: return resizes(heap, len);
    case 6: case 7: case 8: case 9: return releases(heap, len);
    default: return claims(heap, len);
    }
}

/* Calls up to the first one that differs. */
static void compare(const struct heap_calls *heap, size_t len, int calls)
{
    count = 0;
    memset(memory, 0xa5, ROOM);
    memset(plain, 0xa5, ROOM);
    EXPECT(vf_heap_init(memory, len) == VF_OK && os_heap_init(plain, len) == VF_OK);
    for (int call = 0; call < calls; call++)
        if (!is_alike(heap, len) || !os_heap_is_same(memory, plain)) {
            fprintf(stderr, "heap of %zu bytes: call %d differs\n", len, call);
            EXPECT(!"the heaps are alike");
            return;
        }
}

int main(void)
{
    for (int round = 0; round < ROUNDS; round++) {
        size_t len = 512 + 8 * below((ROOM - 512) / 8);
        compare(round % 3 ? &TRUSTING : &CHECKED, len, round % 3 ? CALLS : CALLS / 4);
    }
    return ended("heap_random");
}
