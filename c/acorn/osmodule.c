/*
 * osmodule.c: the module area. Its heap begins at its first byte, and has just the pages that its longest end needed.
 */
#define _DEFAULT_SOURCE 1
#include "osmodule.h"
#include "vervainfile.h"

#include <sys/mman.h>

enum { ROOM = 4 << 20, PAGE = 4096, WORD = 4, UNIT = 8 };
enum { BASE = 8, END = 12 }; /* where a heap has the end of its last block, and its own */

static uint8_t *area;

/* Maps the area and makes its heap, at the first call of all. */
static uint32_t start(void)
{
    void *mapped;
    if (area)
        return VF_OK;
    mapped = mmap(NULL, ROOM, PROT_READ | PROT_WRITE, MAP_PRIVATE | MAP_ANONYMOUS | MAP_NORESERVE, -1, 0);
    if (mapped == MAP_FAILED)
        return VF_NO_MEMORY;
    area = (uint8_t *)mapped;
    return vf_heap_init(area, PAGE);
}

static size_t word(size_t at)
{
    return area[at] | (size_t)area[at + 1] << 8 | (size_t)area[at + 2] << 16 | (size_t)area[at + 3] << 24;
}

/* The bytes that a block of `n` takes, with the word before it. */
static size_t segment(size_t n)
{
    return (n + WORD + UNIT - 1) / UNIT * UNIT;
}

/* Makes the heap long enough for a segment at a place, by whole pages. */
static uint32_t grow(size_t place, size_t size)
{
    size_t shortage = place + size - word(END);
    size_t pages = (shortage + PAGE - 1) / PAGE;
    uint32_t status = vf_heap_extend(area, ROOM, (ptrdiff_t)(pages * PAGE));
    return status == VF_SHORT ? (uint32_t)VF_NO_ROOM : status;
}

/* How far a pointer is from the area's first byte. */
static size_t address_of(const void *blk)
{
    return (uintptr_t)blk - (uintptr_t)area;
}

os_error *xosmodule_alloc(int size, void **blk)
{
    size_t n = size < 0 ? 0 : (size_t)size, address = 0;
    uint32_t status = blk ? start() : (uint32_t)VF_NULL;
    if (status == VF_OK)
        status = vf_heap_claim(area, ROOM, n, &address);
    if (status == VF_NO_ROOM) {
        status = grow(word(BASE), segment(n));
        if (status == VF_OK)
            status = vf_heap_claim(area, ROOM, n, &address);
    }
    if (status == VF_OK)
        *blk = area + address;
    return os_error_of(status);
}

os_error *xosmodule_free(void *blk)
{
    uint32_t status = blk ? start() : (uint32_t)VF_NULL;
    return os_error_of(status == VF_OK ? vf_heap_release(area, ROOM, address_of(blk)) : status);
}

os_error *xosmodule_realloc(void *blk, int size_increment, void **blk_out)
{
    size_t address = 0, old = 0;
    uint32_t status = blk && blk_out ? start() : (uint32_t)VF_NULL;
    if (status == VF_OK)
        status = vf_heap_resize(area, ROOM, address_of(blk), size_increment, &address);
    if (status == VF_NO_ROOM && vf_heap_block_size(area, ROOM, address_of(blk), &old) == VF_OK) {
        /* The last block grows where it stands. Any other moves above all blocks. */
        size_t place = address_of(blk) - WORD, base = word(BASE);
        status = grow(place + segment(old) == base ? place : base, segment(old + (size_t)size_increment));
        if (status == VF_OK)
            status = vf_heap_resize(area, ROOM, address_of(blk), size_increment, &address);
    }
    if (status == VF_OK)
        *blk_out = area + address;
    return os_error_of(status);
}
