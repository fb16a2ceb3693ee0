/*
 * os_heap.h: heaps of the same rules and the same bytes as those of vervainfile.h, written in plain C, with no proof.
 * The tests compare every answer and byte with it, and the bench its times. Statuses are those of vervainfile.h.
 */
#ifndef OS_HEAP_H
#define OS_HEAP_H

#include <stdbool.h>
#include <stddef.h>
#include <stdint.h>

uint32_t os_heap_init(uint8_t *heap, size_t len);
uint32_t os_heap_describe(const uint8_t *heap, size_t len, size_t *most, size_t *free);
uint32_t os_heap_claim(uint8_t *heap, size_t len, size_t n, size_t *address);
uint32_t os_heap_release(uint8_t *heap, size_t len, size_t address);
uint32_t os_heap_resize(uint8_t *heap, size_t len, size_t address, ptrdiff_t delta, size_t *moved_to);
uint32_t os_heap_extend(uint8_t *heap, size_t len, ptrdiff_t delta);
uint32_t os_heap_block_size(const uint8_t *heap, size_t len, size_t address, size_t *size);
uint32_t os_heap_check(const uint8_t *heap, size_t len);

/* Whether two heaps are the same: their descriptors, each segment's words, and the bytes of each block. The bytes of
 * holes behind their two words, and those of the top, mean nothing. */
bool os_heap_is_same(const uint8_t *heap, const uint8_t *other);

#endif
