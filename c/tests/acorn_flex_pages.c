/*
 * acorn_flex_pages.c: flex for pointers (c/acorn/flex.h) gives pages above its blocks back to the system. 200 MB that
 * were in use are seen to be gone, after each call that leaves them; a few that come and go stay. No byte of a block is
 * among them, as random blocks next to copies of their bytes show, and all goes on where the system takes no page.
 */
#define _DEFAULT_SOURCE 1
#include "expect.h"
#include "flex.h"

#include <errno.h>
#include <stdlib.h>
#include <sys/mman.h>
#include <sys/syscall.h>
#include <unistd.h>

#ifndef CALLS
#define CALLS 6000
#endif

enum { MEGABYTE = 1000000, LARGE = 200 * MEGABYTE, KEPT = 1 << 20 };
enum { PIECE = 1 << 16, BLOCKS = 12, MOST_AT_ONCE = 3 << 20 };
/* Of all that the process has in use, so much may differ otherwise. */
enum { OTHER = 16 * MEGABYTE };

static void *blocks[BLOCKS], *first;
static uint8_t *copies[BLOCKS];
static size_t page, given_back;
static int asked;
static bool takes_pages = true;

/* Where the topmost block ends, as far as the variables know. */
static uintptr_t end_of_blocks(void)
{
    uintptr_t end = (uintptr_t)first;
    for (int i = 0; i < BLOCKS; i++)
        if (blocks[i] && end < (uintptr_t)blocks[i] + (uintptr_t)flex_size(&blocks[i]))
            end = (uintptr_t)blocks[i] + (uintptr_t)flex_size(&blocks[i]);
    return end;
}

/* What stands for the system's. */
int madvise(void *at, size_t n, int advice)
{
    asked++;
    given_back += n;
    EXPECT(advice == MADV_DONTNEED && (uintptr_t)at % page == 0 && (uintptr_t)at >= (uintptr_t)first);
    if (takes_pages)
        return (int)syscall(SYS_madvise, at, n, advice);
    errno = EINVAL;
    return -1;
}

/* How many bytes the process has in use, in memory or swapped out. */
static long in_use(void)
{
    char line[128];
    long all = 0, kilobytes;
    FILE *it = fopen("/proc/self/status", "r");
    while (it && fgets(line, sizeof line, it))
        if (sscanf(line, "VmRSS: %ld", &kilobytes) == 1 || sscanf(line, "VmSwap: %ld", &kilobytes) == 1)
            all += kilobytes * 1024;
    if (it)
        fclose(it);
    return all;
}

/* How many of the whole pages between two places are in memory. */
static size_t pages_in(const uint8_t *from, const uint8_t *to)
{
    static unsigned char each[LARGE / 4096 + 2];
    uintptr_t low = ((uintptr_t)from + page - 1) / page * page, high = (uintptr_t)to / page * page;
    size_t count = 0;
    EXPECT((high - low) / page <= sizeof each && mincore((void *)low, high - low, each) == 0);
    for (size_t i = 0; i < (high - low) / page; i++)
        count += each[i] & 1;
    return count;
}

static bool is_filled(const uint8_t *bytes, size_t n, uint8_t with)
{
    for (size_t at = 0; at < n; at++)
        if (bytes[at] != with)
            return false;
    return true;
}

/* The ways in which a block of 200 MB goes, or all but its last byte. */
static void is_freed(void **block) { flex_free(block); }
static void is_cut(void **block) { EXPECT(flex_extend(block, 1) == 1); }
static void is_taken_out(void **block) { EXPECT(flex_midextend(block, LARGE - 1, 1 - LARGE) == 1); }
static void is_forgotten(void **block)
{
    (void)block;
    memset(blocks, 0, sizeof blocks);
    flex_init();
}

static void large_blocks_go(void (*goes)(void **))
{
    flex_init();
    EXPECT(flex_alloc(&blocks[0], PIECE) == 1);
    first = blocks[0];
    memset(blocks[0], 1, PIECE);
    long before = in_use();
    EXPECT(flex_alloc(&blocks[1], LARGE) == 1 && flex_alloc(&blocks[2], PIECE) == 1);
    uint8_t *const large = blocks[1], *const last = blocks[2];
    memset(large, 2, LARGE);
    memset(last, 3, PIECE);
    EXPECT(in_use() - before > LARGE - OTHER);
    goes(&blocks[1]);
    EXPECT(pages_in(large + 2 * PIECE, last + PIECE) == 0 && in_use() - before < OTHER);
    if (!blocks[0])
        return;
    EXPECT(is_filled(blocks[0], PIECE, 1) && is_filled(blocks[2], PIECE, 3) && blocks[2] != last);
    EXPECT(!blocks[1] || is_filled(blocks[1], 1, 2));
    flex_free(&blocks[1]);
    /* What comes again is all 0. */
    EXPECT(flex_alloc(&blocks[1], LARGE / 10) == 1 && is_filled(blocks[1], LARGE / 10, 0));
    flex_free(&blocks[0]);
    EXPECT(is_filled(blocks[2], PIECE, 3) && is_filled(blocks[1], LARGE / 10, 0));
    flex_free(&blocks[1]);
    flex_free(&blocks[2]);
}

/* Less than the bytes that are kept may come and go, and the system isn't asked for each. */
static void a_few_pages_stay(void)
{
    flex_init();
    asked = 0;
    for (int i = 0; i < 100; i++) {
        EXPECT(flex_alloc(&blocks[0], KEPT / 2) == 1 && flex_alloc(&blocks[1], KEPT / 2 - 16) == 1);
        flex_free(&blocks[0]);
        flex_free(&blocks[1]);
    }
    EXPECT(asked == 0);
    EXPECT(flex_alloc(&blocks[0], KEPT) == 1);
    flex_free(&blocks[0]);
    EXPECT(asked == 1);
}

/* Fills a block at random, and the copy of its bytes. */
static void fill(int i, int from, int size)
{
    for (int at = from; at < size; at += 1 + (int)below(5000))
        copies[i][at] = ((uint8_t *)blocks[i])[at] = (uint8_t)below(256);
}

static void change(int i)
{
    int old = flex_size(&blocks[i]), n = (int)below(below(3) ? MOST_AT_ONCE : PIECE);
    if (!blocks[i]) {
        EXPECT(flex_alloc(&blocks[i], n) == 1);
        memset(copies[i], 0, (size_t)n);
    } else if (below(2)) {
        flex_free(&blocks[i]);
        n = 0;
    } else {
        EXPECT(flex_extend(&blocks[i], n) == 1);
        if (old < n)
            memset(copies[i] + old, 0, (size_t)(n - old));
    }
    fill(i, 0, n);
}

static void blocks_keep_their_bytes(int calls)
{
    memset(blocks, 0, sizeof blocks);
    flex_init();
    asked = 0;
    given_back = 0;
    for (int i = 0; i < BLOCKS; i++) {
        copies[i] = malloc(MOST_AT_ONCE);
        EXPECT(copies[i] != NULL);
    }
    for (int call = 0; call < calls && !failures; call++) {
        int asked_before = asked;
        change((int)below(BLOCKS));
        if (asked == asked_before && call + 1 < calls)
            continue;
        for (int i = 0; i < BLOCKS; i++)
            EXPECT(!blocks[i] || !memcmp(blocks[i], copies[i], (size_t)flex_size(&blocks[i])));
        const uint8_t *end = (uint8_t *)end_of_blocks() + 8;
        EXPECT(!takes_pages || pages_in(end, end + LARGE / 4) <= KEPT / page);
    }
    EXPECT(asked > calls / 100 && given_back > (size_t)asked * KEPT / 2);
    for (int i = 0; i < BLOCKS; i++) {
        flex_free(&blocks[i]);
        free(copies[i]);
    }
}

int main(void)
{
    void (*const ways[])(void **) = {is_freed, is_cut, is_taken_out, is_forgotten};
    page = (size_t)sysconf(_SC_PAGESIZE);
    for (size_t i = 0; i < sizeof ways / sizeof *ways; i++)
        large_blocks_go(ways[i]);
    a_few_pages_stay();
    blocks_keep_their_bytes(CALLS / 20);
    takes_pages = false;
    blocks_keep_their_bytes(CALLS / 40);
    return ended("acorn_flex_pages");
}
