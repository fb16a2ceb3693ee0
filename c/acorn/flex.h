/*
 * flex.h: the flex of RISC_OSLib, over a wide slot of vervainfile. Compile flex.c with the program.
 *
 * An anchor is a `void *` of the program's. flex writes the block's address into it, and writes it again whenever the
 * block has moved: go to a block by its anchor alone. A block moves at a call of flex_free, extend, midextend or budge.
 * Other than with Acorn's, new bytes are 0; a refused call changes nothing; there are at most 4,096 blocks. A block
 * stands at a multiple of 8, and takes one to eight bytes more than it has.
 *
 * An anchor may not lie in flex's own memory, that of the blocks above all: it would move with its block. flex_alloc
 * refuses such an anchor. It may lie in what flex_budge gave, which never moves.
 *
 * All of it lies in 1 GiB of addresses, or in half of that, and so on, where the system doesn't lend as many. They take
 * memory as they are used. Once more than 1 MiB above the blocks has been in use, its whole pages go back to the
 * system, if that has madvise() with MADV_DONTNEED.
 */
#ifndef ACORN_FLEX_H
#define ACORN_FLEX_H

#ifdef __cplusplus
extern "C" {
#endif
typedef void **flex_ptr;

/* Makes ready for blocks, budging on: all calls before are refused. Called again, it forgets all blocks. */
void flex_init(void);

/* Makes a block of `n` bytes, 0 or more, and writes its address into the anchor. 1 where that was done; 0 where there
 * is no room, the anchor has a block, or lies in flex's own memory. */
int flex_alloc(flex_ptr anchor, int n);

/* Takes the anchor's block away; the anchor is null then. Does nothing where it has none. */
void flex_free(flex_ptr anchor);

/* How many bytes the anchor's block has, just what was asked for; 0 where it has no block. */
int flex_size(flex_ptr anchor);

/* Cuts the anchor's block to `n` bytes, or gives it bytes up to `n`. 0 where there is no room, or no block; else 1. */
int flex_extend(flex_ptr anchor, int n);

/* Puts `by` bytes into the anchor's block before the byte `at`; or, where `by` is below 0, takes as many out before it.
 * 0 where there is no room or no block, or the bytes lie outside of it; else 1. */
int flex_midextend(flex_ptr anchor, int at, int by);

/* What malloc() asks where it needs more: takes `n` bytes, or up to seven more, below the blocks and behind those that
 * it took before, and writes their address to `a`. They never move. Where a page is used up the blocks slide up, by
 * whole pages. Tells how many bytes they are; 0 where there is no room, or blocks had to move while budging is off. */
int flex_budge(int n, void **a);

int flex_dont_budge(int n, void **a); /* what malloc() asks in its place where no block may ever move: always 0 */

int flex_set_budge(int newstate); /* turns budging on (1) or off (0), and tells what it was */

#ifdef __cplusplus
}
#endif
#endif
