/*
 * osmodule.h: OS_Module 6, 7 and 13 with pointers, over vervainfile: blocks of the module area, whose bytes are the
 * caller's. Compile osmodule.c and oserror.c with the program.
 *
 * The area is one heap in memory that is mapped once, of one page at first. It grows by whole pages where a block finds
 * no room, up to 4 MiB, and no block moves by that. A call answers null where it was done, else an error, and has
 * changed nothing then: VF_NULL for a null pointer, VF_NO_MEMORY where none is mapped, and what is named below. The
 * arguments come in the order of the registers.
 */
#ifndef ACORN_OSMODULE_H
#define ACORN_OSMODULE_H

#include "oserror.h"

#ifdef __cplusplus
extern "C" {
#endif

/* OS_Module 6: claims a block of `size` bytes or up to 7 more, all of them 0. VF_BAD_SIZE below 1, VF_NO_ROOM. */
os_error *xosmodule_alloc(int size, void **blk);

/* OS_Module 7: frees a block. VF_NOT_A_BLOCK. */
os_error *xosmodule_free(void *blk);

/* OS_Module 13: gives a block more bytes, or fewer, and tells where it is then: it may move. New bytes are 0.
 * VF_NOT_A_BLOCK, VF_BAD_SIZE where it would have fewer than 1, VF_NO_ROOM. */
os_error *xosmodule_realloc(void *blk, int size_increment, void **blk_out);

#ifdef __cplusplus
}
#endif

#endif
