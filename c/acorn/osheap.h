/*
 * osheap.h: the seven reasons of OS_Heap with pointers, over vervainfile. Compile osheap.c and oserror.c with the
 * program.
 *
 * A heap is told by its first byte, and a block by its own. How long the heap is stands in its words. A call answers
 * null where it was done, else an error, and has changed nothing then: VF_NULL for a null pointer, VF_BAD_DESCRIPTOR
 * where no heap begins, and what is named below. The pointers that a call tells something by may not be null either.
 * The arguments come in the order of the registers.
 */
#ifndef ACORN_OSHEAP_H
#define ACORN_OSHEAP_H

#include "oserror.h"

#ifdef __cplusplus
extern "C" {
#endif

/* OS_Heap 0: makes `size` bytes an empty heap. VF_BAD_LENGTH where no heap has so many. */
os_error *xosheap_initialise(uint8_t *heap, int size);

/* OS_Heap 1: tells the largest block that could be claimed, and all free bytes. */
os_error *xosheap_describe(const uint8_t *heap, int *most, int *free);

/* OS_Heap 2: claims a block of `size` bytes or up to 7 more, all of them 0. VF_BAD_SIZE below 1, VF_NO_ROOM. */
os_error *xosheap_alloc(uint8_t *heap, int size, void **blk);

/* OS_Heap 3: releases a block. VF_NOT_A_BLOCK. */
os_error *xosheap_free(uint8_t *heap, void *blk);

/* OS_Heap 4: gives a block more bytes, or fewer, and tells where it is then: it may move. New bytes are 0.
 * VF_NOT_A_BLOCK, VF_BAD_SIZE where it would have fewer than 1, VF_NO_ROOM. */
os_error *xosheap_realloc(uint8_t *heap, void *blk, int size_increment, void **blk_out);

/* OS_Heap 5: moves the heap's end. The caller knows that so many bytes lie behind it. VF_BAD_LENGTH where no heap has
 * as many, VF_EXCESSIVE_SHRINK where it would end below its last block. */
os_error *xosheap_resize(uint8_t *heap, int size_increment);

/* OS_Heap 6: tells how many bytes a block has, the word before it not counted. VF_NOT_A_BLOCK. */
os_error *xosheap_read_block_size(const uint8_t *heap, const void *blk, int *size);

#ifdef __cplusplus
}
#endif

#endif
