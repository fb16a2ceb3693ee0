/*
 * osheap.c: OS_Heap with pointers. A block's address is its distance from the heap's first byte.
 */
#include "osheap.h"
#include "vervainfile.h"

#include <string.h>

enum { END = 12 }; /* where a heap has its length, in little-endian order */

/* What is wrong with the pointers that each call has. */
static uint32_t fault(const uint8_t *heap, const void *other)
{
    if (!heap || !other)
        return VF_NULL;
    return memcmp(heap, "Heap", 4) ? VF_BAD_DESCRIPTOR : VF_OK;
}

static size_t length(const uint8_t *heap)
{
    return heap[END] | (size_t)heap[END + 1] << 8 | (size_t)heap[END + 2] << 16 | (size_t)heap[END + 3] << 24;
}

static size_t address_of(const uint8_t *heap, const void *blk)
{
    return (uintptr_t)blk - (uintptr_t)heap;
}

/* A size as the library takes it: one that is below 1 is as wrong as 0. */
static size_t bytes(int size)
{
    return size < 0 ? 0 : (size_t)size;
}

os_error *xosheap_initialise(uint8_t *heap, int size)
{
    return os_error_of(vf_heap_init(heap, bytes(size)));
}

os_error *xosheap_describe(const uint8_t *heap, int *most, int *free)
{
    size_t largest = 0, all = 0;
    uint32_t status = fault(heap, most);
    if (status == VF_OK)
        status = free ? vf_heap_describe(heap, length(heap), &largest, &all) : (uint32_t)VF_NULL;
    if (status == VF_OK) {
        *most = (int)largest;
        *free = (int)all;
    }
    return os_error_of(status);
}

os_error *xosheap_alloc(uint8_t *heap, int size, void **blk)
{
    size_t address = 0;
    uint32_t status = fault(heap, blk);
    if (status == VF_OK)
        status = vf_heap_claim(heap, length(heap), bytes(size), &address);
    if (status == VF_OK)
        *blk = heap + address;
    return os_error_of(status);
}

os_error *xosheap_free(uint8_t *heap, void *blk)
{
    uint32_t status = fault(heap, blk);
    return os_error_of(status == VF_OK ? vf_heap_release(heap, length(heap), address_of(heap, blk)) : status);
}

os_error *xosheap_realloc(uint8_t *heap, void *blk, int size_increment, void **blk_out)
{
    size_t address = 0;
    uint32_t status = blk_out ? fault(heap, blk) : (uint32_t)VF_NULL;
    if (status == VF_OK)
        status = vf_heap_resize(heap, length(heap), address_of(heap, blk), size_increment, &address);
    if (status == VF_OK)
        *blk_out = heap + address;
    return os_error_of(status);
}

os_error *xosheap_resize(uint8_t *heap, int size_increment)
{
    uint32_t status = fault(heap, heap);
    if (status == VF_OK)
        status = vf_heap_extend(heap, length(heap) + bytes(size_increment), size_increment);
    return os_error_of(status);
}

os_error *xosheap_read_block_size(const uint8_t *heap, const void *blk, int *size)
{
    size_t n = 0;
    uint32_t status = size ? fault(heap, blk) : (uint32_t)VF_NULL;
    if (status == VF_OK)
        status = vf_heap_block_size(heap, length(heap), address_of(heap, blk), &n);
    if (status == VF_OK)
        *size = (int)n;
    return os_error_of(status);
}
