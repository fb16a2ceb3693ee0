/*
 * acorn_module.c: OS_Module 6, 7 and 13 with pointers (c/acorn/osmodule.h). Blocks stand where those of a desk's module
 * area do, also as random calls on both are made in turn; the area has as many pages; and each block keeps the bytes
 * that were written to it, beside a plain copy.
 */
#include "expect.h"
#include "osmodule.h"

#include <stdlib.h>

#ifndef CALLS
#define CALLS 20000
#endif

enum { PAGES = 1024, PAGE = 4096, AREA = 0x1800000, FIRST = 20, MOST = 400, MODULE_AREA = 1 };

static struct vf_desk desk = VF_DESK_CLOSED;
static uint8_t *area;
static void *block;
static int nothing;

static struct kept {
    void *at;
    size_t size;
    uint8_t *bytes;
} kept[MOST];
static size_t count;

static bool is_error(const os_error *error, uint32_t status)
{
    return error && error->errnum == status && !strcmp(error->errmess, vf_status_text(status));
}

/* A call that answers this status as its error, and tells nothing. */
#define REFUSES(status, call)                        \
    do {                                             \
        block = &nothing;                            \
        EXPECT(is_error((call), (status)));          \
        EXPECT(block == &nothing);                   \
    } while (0)

/* The length of the area, as its heap's words have it; and as the desk has it. */
static size_t length(void)
{
    return area[12] | (size_t)area[13] << 8 | (size_t)area[14] << 16 | (size_t)area[15] << 24;
}

static bool has_pages_of_desk(void)
{
    struct vf_area areas[6];
    uint32_t free;
    size_t all;
    return vf_desk_areas(&desk, &free, areas, 6, &all) == VF_OK && areas[MODULE_AREA].number == MODULE_AREA &&
           length() == areas[MODULE_AREA].pages * (size_t)PAGE && vf_heap_check(area, length()) == VF_OK;
}

static bool is_zero(const uint8_t *bytes, size_t n)
{
    for (size_t i = 0; i < n; i++)
        if (bytes[i])
            return false;
    return true;
}

/* What a desk answers at first, and what isn't one of its blocks. */
static void blocks_stand_as_on_a_desk(void)
{
    static uint8_t outside[64];
    REFUSES(VF_NULL, xosmodule_alloc(5, NULL));
    REFUSES(VF_NULL, xosmodule_free(NULL));
    REFUSES(VF_NOT_A_BLOCK, xosmodule_free(outside));
    REFUSES(VF_BAD_SIZE, xosmodule_alloc(0, &block));
    EXPECT(!xosmodule_alloc(4076, &block) && is_zero(block, 4076));
    area = (uint8_t *)block - FIRST;
    EXPECT(((uintptr_t)area & 7) == 0 && length() == PAGE);
    memset(block, 0xa5, 4076);
    EXPECT(!xosmodule_alloc(20, &block) && block == area + PAGE + 4 && length() == 2 * PAGE && is_zero(block, 20));
    REFUSES(VF_NULL, xosmodule_realloc(NULL, 1, &block));
    REFUSES(VF_NULL, xosmodule_realloc(area + FIRST, 1, NULL));
    REFUSES(VF_BAD_SIZE, xosmodule_alloc(-1, &block));
    REFUSES(VF_BAD_SIZE, xosmodule_alloc(INT32_MIN, &block));
    REFUSES(VF_NO_ROOM, xosmodule_alloc(INT32_MAX, &block));
    REFUSES(VF_NO_ROOM, xosmodule_realloc(area + FIRST, INT32_MAX, &block));
    REFUSES(VF_BAD_SIZE, xosmodule_realloc(area + FIRST, -4076, &block));
    REFUSES(VF_BAD_SIZE, xosmodule_realloc(area + FIRST, INT32_MIN, &block));
    REFUSES(VF_NOT_A_BLOCK, xosmodule_realloc(area + FIRST + 4, 1, &block));
    REFUSES(VF_NOT_A_BLOCK, xosmodule_realloc(outside, 1, &block));
    REFUSES(VF_NOT_A_BLOCK, xosmodule_free(area));
    REFUSES(VF_NOT_A_BLOCK, xosmodule_free(area + 4 * PAGE + 4));
    /* The last block grows where it stands, by a page. The first one has no room there, and moves above it. */
    EXPECT(!xosmodule_realloc(area + PAGE + 4, 4073, &block) && block == area + PAGE + 4 && length() == 3 * PAGE);
    EXPECT(!xosmodule_realloc(area + FIRST, 13, &block) && block == area + 2 * PAGE + 12 && length() == 4 * PAGE);
    EXPECT(((uint8_t *)block)[4075] == 0xa5 && is_zero((uint8_t *)block + 4076, 16));
    /* A page more or less takes a byte of the last block more or less. */
    EXPECT(!xosmodule_free(block) && !xosmodule_free(area + PAGE + 4) && length() == 4 * PAGE);
    REFUSES(VF_NO_ROOM, xosmodule_alloc(PAGES * PAGE - FIRST + 1, &block));
    EXPECT(length() == 4 * PAGE && !xosmodule_alloc(4 * PAGE - FIRST, &block) && length() == 4 * PAGE);
    EXPECT(!xosmodule_realloc(block, 1, &block) && block == area + FIRST && length() == 5 * PAGE);
    EXPECT(!xosmodule_free(block));
    /* A block of 4 bytes, and one that ends where the sixth page does. */
    EXPECT(!xosmodule_alloc(4, &block) && !xosmodule_alloc(6 * PAGE - FIRST - 12, &block));
    EXPECT(block == area + FIRST + 8 && length() == 6 * PAGE);
    EXPECT(!xosmodule_free(block) && !xosmodule_free(area + FIRST));
}

static void write_random(struct kept *it)
{
    for (size_t i = 0; i < 8 && it->size; i++) {
        size_t at = below((uint32_t)it->size);
        it->bytes[at] = ((uint8_t *)it->at)[at] = (uint8_t)below(256);
    }
}

/* Gives a block that stands here as many bytes as the desk says of its twin, from 0 on or with the old ones. */
static bool keep(struct kept *it, void *at, size_t size)
{
    size_t old = it->size;
    it->bytes = realloc(it->bytes, size);
    it->at = at;
    it->size = size;
    if (size > old)
        memset(it->bytes + old, 0, size - old);
    bool is_same = !memcmp(at, it->bytes, size);
    write_random(it);
    return is_same;
}

static size_t whole(size_t n)
{
    return (n + 4 + 7) / 8 * 8 - 4;
}

static bool claims(void)
{
    int n = below(30) ? (int)below(300) : below(20) ? (int)below(20000) : (int)below(5 << 20);
    uint32_t address = 0, status = vf_desk_rma_claim(&desk, (uint32_t)n, &address);
    void *at = NULL;
    const os_error *error = xosmodule_alloc(n, &at);
    if (status != VF_OK)
        return is_error(error, status) && !at;
    if (error || at != area + (address - AREA))
        return false;
    if (count == MOST)
        return !xosmodule_free(at) && vf_desk_rma_free(&desk, address) == VF_OK;
    kept[count] = (struct kept){NULL, 0, NULL};
    return keep(&kept[count++], at, whole((size_t)n));
}

static bool frees(size_t i)
{
    uint32_t address = (uint32_t)((uint8_t *)kept[i].at - area) + AREA;
    if (memcmp(kept[i].at, kept[i].bytes, kept[i].size))
        return false;
    bool is_free = !xosmodule_free(kept[i].at) && vf_desk_rma_free(&desk, address) == VF_OK;
    free(kept[i].bytes);
    kept[i] = kept[--count];
    return is_free;
}

static bool resizes(struct kept *it)
{
    int delta = below(30) ? (int)below(300) - 150 : below(4) ? (int)below(20000) : (int)below(5 << 20);
    uint32_t address = (uint32_t)((uint8_t *)it->at - area) + AREA, moved = 0;
    uint32_t status = vf_desk_rma_resize(&desk, address, delta, &moved);
    void *at = NULL;
    const os_error *error = xosmodule_realloc(it->at, delta, &at);
    if (status != VF_OK)
        return is_error(error, status) && !at;
    return !error && at == area + (moved - AREA) && keep(it, at, whole((size_t)((ptrdiff_t)it->size + delta)));
}

static bool misses(void)
{
    uint32_t address = below(2) ? below(PAGES * PAGE) : below(256) * 8 + 4, moved;
    for (size_t i = 0; i < count; i++)
        if (kept[i].at == area + address)
            return true;
    return is_error(xosmodule_free(area + address), vf_desk_rma_free(&desk, AREA + address)) &&
           is_error(xosmodule_realloc(area + address, 8, &block), vf_desk_rma_resize(&desk, AREA + address, 8, &moved));
}

static bool is_alike(void)
{
    switch (below(7)) {
    case 0:
    case 1:
    case 2: return claims();
    case 3: return misses();
    case 4: return !count || frees(below((uint32_t)count));
    default: return !count || resizes(&kept[below((uint32_t)count)]);
    }
}

int main(void)
{
    uint32_t moved;
    blocks_stand_as_on_a_desk();
    EXPECT(vf_desk_open(&desk, PAGES, 1, 1) == VF_OK && vf_desk_area(&desk, MODULE_AREA, 5 * PAGE, &moved) == VF_OK);
    EXPECT(has_pages_of_desk());
    for (int call = 0; call < CALLS; call++)
        if (!is_alike() || !has_pages_of_desk()) {
            fprintf(stderr, "call %d differs\n", call);
            EXPECT(!"the area is the desk's");
            break;
        }
    while (count)
        EXPECT(frees(count - 1));
    /* All of the area is one block. */
    EXPECT(!xosmodule_alloc(PAGES * PAGE - FIRST, &block) && block == area + FIRST);
    EXPECT(vf_desk_rma_claim(&desk, PAGES * PAGE - FIRST, &moved) == VF_OK && has_pages_of_desk());
    REFUSES(VF_NO_ROOM, xosmodule_alloc(1, &block));
    EXPECT(vf_desk_close(&desk) == VF_OK);
    return ended("acorn_module");
}
