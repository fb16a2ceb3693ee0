/*
 * acorn_flex.c: flex for pointers (c/acorn/flex.h). What each call means and refuses; and random calls beside a plain
 * row of blocks: the same answers, each anchor where its block is in the row, and the same sum over all bytes. The
 * system lends less memory than flex asks for first.
 */
#define _DEFAULT_SOURCE 1
#include "expect.h"
#include "flex.h"
#include "wide_row.h"

#include <errno.h>
#include <sys/mman.h>
#include <sys/syscall.h>
#include <unistd.h>

#ifndef CALLS
#define CALLS 6000
#endif

/* The memory that is lent; in it the words of 4,096 anchors, then a page, and FREE bytes for blocks. */
enum { MOST = 4096, PAGE = 4096, ROOM = 2 << 20, FREE = ROOM - 8 * MOST - PAGE };
enum { ROUNDS = 4, VARIABLES = 100, MANY = 150, LONGEST = 400 };

static void *variables[MOST + 1];
static struct wide_row row;
static bool is_budging;
static size_t lent = SIZE_MAX, most;
static int asked, mapped;

/* What stands for the system's: it lends so many bytes at most. */
void *mmap(void *at, size_t n, int may, int kind, int file, off_t from)
{
    asked++;
    most = n > most ? n : most;
    if (n > lent) {
        errno = ENOMEM;
        return MAP_FAILED;
    }
    mapped++;
    return (void *)syscall(SYS_mmap, at, n, may, kind, file, from);
}

static bool is_zero(const void *from, size_t n)
{
    const uint8_t *bytes = from;
    for (size_t i = 0; i < n; i++)
        if (bytes[i])
            return false;
    return true;
}

static void nothing_is_done_before_it_is_begun(void)
{
    void *p = &row, *a = &row;
    EXPECT(!flex_alloc(&p, 5) && p == &row && !flex_size(&p) && !flex_extend(&p, 6) && !flex_midextend(&p, 0, 1));
    EXPECT(!flex_budge(5, &a) && a == &row);
    flex_free(&p);
    EXPECT(p == &row);
}

/* What flex_init asks of a system that lends so many bytes. */
static void begins(size_t bytes)
{
    lent = bytes;
    most = 0;
    asked = mapped = 0;
    flex_init();
    lent = SIZE_MAX;
}

static void memory_is_mapped_once(void)
{
    begins(PAGE);
    EXPECT(asked == 11 && !mapped && most == (size_t)1 << 30);
    nothing_is_done_before_it_is_begun();
    begins(ROOM);
    EXPECT(asked == 10 && mapped == 1 && most == (size_t)1 << 30);
    begins(ROOM);
    EXPECT(!asked);
}

static void blocks_come_and_go(void)
{
    void *p = NULL, *q = NULL, *r = NULL;
    flex_init();
    EXPECT(flex_alloc(&p, 5) == 1 && flex_size(&p) == 5 && is_zero(p, 5));
    uint8_t *first = p;
    memcpy(p, "hello", 5);
    EXPECT(flex_alloc(&q, 0) == 1 && flex_size(&q) == 0 && (uint8_t *)q == first + 8);
    EXPECT(flex_alloc(&r, 3) == 1 && (uint8_t *)r == first + 16);
    memcpy(r, "abc", 3);
    EXPECT(!flex_alloc(&p, 9) && p == first && flex_size(&p) == 5);
    EXPECT(!flex_alloc(NULL, 9) && !flex_size(NULL) && !flex_extend(NULL, 1) && !flex_midextend(NULL, 0, 1));
    flex_free(NULL);
    flex_free(&p);
    EXPECT(!p && !flex_size(&p) && !flex_extend(&p, 1) && !flex_midextend(&p, 0, 1));
    EXPECT((uint8_t *)q == first && (uint8_t *)r == first + 8 && !memcmp(r, "abc", 3));
    flex_free(&p);
    /* The variable of a block that is gone may have another, on top. */
    EXPECT(flex_alloc(&p, 1) == 1 && (uint8_t *)p == first + 16 && is_zero(p, 1));
}

static void blocks_change_in_length(void)
{
    void *p = NULL, *q = NULL;
    flex_init();
    EXPECT(flex_alloc(&p, 6) == 1 && flex_alloc(&q, 3) == 1);
    uint8_t *first = p;
    memcpy(p, "abcdef", 6);
    memcpy(q, "xyz", 3);
    EXPECT(flex_extend(&p, 9) == 1 && flex_size(&p) == 9 && !memcmp(p, "abcdef\0\0", 9));
    EXPECT(p == first && (uint8_t *)q == first + 16 && !memcmp(q, "xyz", 3));
    EXPECT(flex_extend(&p, 6) == 1 && (uint8_t *)q == first + 8 && flex_midextend(&p, 2, 3) == 1);
    EXPECT(!memcmp(p, "ab\0\0\0cdef", 9) && (uint8_t *)q == first + 16 && !memcmp(q, "xyz", 3));
    EXPECT(flex_midextend(&p, 5, -4) == 1 && flex_size(&p) == 5 && !memcmp(p, "acdef", 5));
    EXPECT((uint8_t *)q == first + 8 && flex_midextend(&p, 5, 0) == 1);
    EXPECT(!flex_midextend(&p, 6, 1) && !flex_midextend(&p, 4, -5) && !flex_midextend(&p, -1, 1));
    EXPECT(!flex_midextend(&p, 4, INT32_MIN) && !flex_midextend(&p, 4, INT32_MAX) && !flex_extend(&p, -1));
    EXPECT(flex_size(&p) == 5 && !memcmp(p, "acdef", 5) && !memcmp(q, "xyz", 3));
    EXPECT(flex_extend(&p, 0) == 1 && !flex_size(&p) && (uint8_t *)q == first + 8);
}

static void room_has_an_end(void)
{
    void *p = NULL, *q = NULL;
    flex_init();
    EXPECT(!flex_alloc(&p, -1) && !flex_alloc(&p, INT32_MIN) && !flex_alloc(&p, INT32_MAX) && !p);
    /* A block takes one byte more than it has, or up to eight. */
    EXPECT(!flex_alloc(&p, FREE) && !p && flex_alloc(&p, FREE - 1) == 1);
    EXPECT(flex_size(&p) == FREE - 1 && is_zero(p, 9) && !flex_alloc(&q, 0) && !q);
    ((uint8_t *)p)[FREE - 2] = 1;
    EXPECT(flex_extend(&p, 8) == 1 && flex_alloc(&q, FREE - 17) == 1 && is_zero(q, FREE - 17));
    EXPECT(!flex_extend(&p, 16) && flex_extend(&p, 15) == 1);
    flex_init();
    for (int i = 0; i < MOST; i++)
        EXPECT((i != 64 || !flex_alloc(NULL, 1)) && flex_alloc(&variables[i], i % LONGEST) == 1);
    EXPECT(!flex_alloc(&variables[MOST], 1) && !variables[MOST]);
    for (int i = 0; i < MOST; i++)
        EXPECT(flex_size(&variables[i]) == i % LONGEST);
    EXPECT(!flex_alloc(NULL, 1) && !flex_size(NULL) && !flex_extend(NULL, 1) && !flex_midextend(NULL, 0, 1));
    flex_free(NULL);
    flex_free(&variables[900]);
    EXPECT(flex_alloc(&variables[MOST], 1) == 1 && !flex_alloc(&variables[900], 1));
}

/* Whether each variable has its block's bytes, which lie in no other block. */
static bool are_all(uint8_t copies[][LONGEST], const int *sizes)
{
    for (int i = 0; i < MANY; i++)
        if (sizes[i] < 0 ? variables[i] != NULL
                         : flex_size(&variables[i]) != sizes[i] || memcmp(variables[i], copies[i], (size_t)sizes[i]))
            return false;
    return true;
}

/* More blocks than there are anchors at first, beside plain copies of their bytes: each variable leads to its own at
 * any time. */
static void many_blocks_come_and_go(int calls)
{
    static uint8_t copies[MANY][LONGEST];
    static int sizes[MANY];
    memset(variables, 0, sizeof variables);
    memset(copies, 0, sizeof copies);
    for (int i = 0; i < MANY; i++)
        sizes[i] = -1;
    flex_init();
    for (int call = 0; call < calls; call++) {
        uint32_t i = below(MANY);
        int n = (int)below(LONGEST);
        if (sizes[i] < 0 || !below(4)) {
            EXPECT(flex_alloc(&variables[i], n) == (sizes[i] < 0));
            sizes[i] = sizes[i] < 0 ? n : sizes[i];
        } else if (below(5)) {
            EXPECT(flex_extend(&variables[i], n) == 1);
            if (n < sizes[i])
                memset(copies[i] + n, 0, (size_t)(sizes[i] - n));
            sizes[i] = n;
            for (int at = 0; at < n; at++)
                ((uint8_t *)variables[i])[at] = copies[i][at] = (uint8_t)below(256);
        } else {
            flex_free(&variables[i]);
            memset(copies[i], 0, LONGEST);
            sizes[i] = -1;
        }
        if ((call % 16 == 0 || call + 1 == calls) && !are_all(copies, sizes)) {
            EXPECT(!"each variable leads to its block");
            return;
        }
    }
}

static void what_is_below_pushes_blocks_up(void)
{
    void *p = NULL, *a = &row, *b = &row;
    flex_init();
    EXPECT(flex_alloc(&p, 8) == 1);
    uint8_t *first = p;
    memcpy(p, "vervains", 8);
    EXPECT(flex_set_budge(0) == 1 && flex_set_budge(0) == 0);
    EXPECT(flex_budge(10, &a) == 16 && p == first && is_zero(a, 16) && a != (void *)&row);
    EXPECT(!flex_budge(PAGE - 15, &b) && b == &row && p == first);
    EXPECT(flex_set_budge(7) == 0 && flex_set_budge(1) == 1);
    EXPECT(!flex_budge(0, &b) && !flex_budge(-1, &b) && !flex_budge(INT32_MAX, &b) && b == &row);
    EXPECT(!flex_budge(9, NULL));
    EXPECT(!flex_dont_budge(9, &b) && b == &row && p == first);
    EXPECT(flex_budge(PAGE - 15, &b) == PAGE - 8 && (uint8_t *)p == first + PAGE && !memcmp(p, "vervains", 8));
    EXPECT((uint8_t *)b == (uint8_t *)a + 16 && is_zero(b, PAGE - 8) && ((uintptr_t)b & 7) == 0);
    EXPECT((uint8_t *)b + PAGE - 8 <= (uint8_t *)p && flex_set_budge(0) == 1);
    /* Begun anew it is in the same memory. */
    flex_init();
    EXPECT(flex_set_budge(0) == 1);
    /* With no block there is none that would move. */
    EXPECT(flex_budge(PAGE + 1, &b) == PAGE + 8 && b == a && flex_alloc(&p, 1) == 1 && (uint8_t *)p == first + PAGE);
}

/* Each call refuses an anchor anywhere in flex's own memory, and all stays: the anchor would move, or be written over.
 * The bytes that flex_budge gave are the program's, and never move. */
static void anchors_lie_in_no_block(void)
{
    static uint8_t bytes[3 * PAGE];
    void *p = NULL, *q = NULL, *a = NULL;
    flex_init();
    EXPECT(flex_alloc(&p, PAGE) == 1 && flex_alloc(&q, sizeof bytes) == 1);
    EXPECT(flex_budge(2 * sizeof a, &a) == 2 * sizeof a);
    uint8_t *const first = p, *const memory = (uint8_t *)a - 8 * MOST;
    memset(bytes, 0x5a, sizeof bytes);
    memcpy(q, bytes, sizeof bytes);
    for (int at = 1 - (int)sizeof a; at < ROOM; at += at < PAGE || at + PAGE > ROOM ? 1 : 61) {
        flex_ptr anchor = (flex_ptr)((uintptr_t)memory + (uintptr_t)at);
        if (at >= 8 * MOST && at <= 8 * MOST + (int)sizeof a)
            continue;
        EXPECT(!flex_alloc(anchor, 5) && !flex_extend(anchor, 5) && !flex_midextend(anchor, 0, 1));
        EXPECT(!flex_size(anchor));
        flex_free(anchor);
        EXPECT(p == first && flex_size(&p) == PAGE && flex_size(&q) == sizeof bytes && !memcmp(q, bytes, sizeof bytes));
    }
    /* The same just below and just above what flex_budge gave. */
    EXPECT(!flex_alloc((flex_ptr)((uint8_t *)a - 1), 5) && !flex_alloc((flex_ptr)((uint8_t *)a + 9), 5));
    flex_ptr low = a, high = low + 1;
    EXPECT(flex_alloc(high, 5) == 1 && flex_alloc(low, 3) == 1 && flex_size(high) == 5 && flex_size(low) == 3);
    uint8_t *const five = *high;
    memcpy(five, "hello", 5);
    flex_free(&p);
    EXPECT(!p && (uint8_t *)*high == five - PAGE - 8 && !memcmp(*high, "hello", 5) && *low == (uint8_t *)*high + 8);
    flex_free(low);
    EXPECT(!*low && flex_extend(high, 2 * PAGE) == 1 && flex_size(high) == 2 * PAGE && !flex_alloc(high, 1));
}

/* A sum over sizes and bytes, in the order of the variables. */
static uint64_t added(uint64_t sum, const uint8_t *bytes, size_t n)
{
    sum = (sum ^ n) * 1099511628211u;
    for (size_t i = 0; i < n; i++)
        sum = (sum ^ bytes[i]) * 1099511628211u;
    return sum;
}

/* Whether each variable is where its block in the row is, seen from the slot's first byte; and both sums are one. */
static bool is_row(const uint8_t *slot)
{
    uint64_t ours = 0, wanted = 0;
    for (uint32_t i = 0; i < VARIABLES; i++) {
        size_t place = 0;
        bool lives = wide_row_place(&row, i, &place) == VF_OK;
        if (lives ? variables[i] != slot + place : variables[i] != NULL)
            return false;
        ours = added(ours, variables[i], (size_t)flex_size(&variables[i]));
    }
    for (uint32_t i = 0; i < VARIABLES; i++) {
        size_t at = wide_row_find(&row, i);
        wanted = at < row.count ? added(wanted, row.blocks[at].bytes, row.blocks[at].size) : added(wanted, NULL, 0);
    }
    return ours == wanted;
}

static bool fills(uint32_t i)
{
    int size = flex_size(&variables[i]);
    if (size) {
        uint8_t bytes[64];
        size_t n = below(64) + 1 < (uint32_t)size ? 1 : (size_t)size < sizeof bytes ? (size_t)size : sizeof bytes;
        size_t offset = below((uint32_t)(size - (int)n + 1));
        for (size_t at = 0; at < n; at++)
            bytes[at] = (uint8_t)below(256);
        memcpy((uint8_t *)variables[i] + offset, bytes, n);
        return wide_row_put(&row, i, offset, bytes, n) == VF_OK;
    }
    return true;
}

static int some_size(void)
{
    return below(9) ? (int)below(300) : below(40) ? (int)below(9000) : (int)below(2 * ROOM) - ROOM / 2;
}

/* Bytes up to `given` were told before, and those from there up to the blocks are told without a slide. */
static bool claims(const uint8_t *slot, size_t *given)
{
    int n = below(40) ? (int)below(200) : below(9) ? (int)below(6000) : (int)below(2 * ROOM);
    size_t wanted = ((size_t)n + 7) / 8 * 8, spare = row.base - *given, at = *given, place;
    void *a = &row;
    int got = flex_budge(n, &a);
    if (!n || (spare < wanted && ((!is_budging && row.count) ||
                                  wide_row_budge(&row, (wanted - spare + PAGE - 1) / PAGE * PAGE, &place) != VF_OK)))
        return !got && a == &row;
    *given += wanted;
    return got == (int)wanted && a == slot + at && is_zero(a, wanted);
}

static bool is_alike(const uint8_t *slot, size_t *given)
{
    uint32_t i = below(VARIABLES);
    int n = some_size(), at = (int)below(below(4) ? 40 : 400) - 2;
    size_t place;
    switch (below(8)) {
    case 0:
    case 1:
        return flex_alloc(&variables[i], n) == (wide_row_alloc(&row, i, (size_t)n, &place) == VF_OK);
    case 2:
        flex_free(&variables[i]);
        wide_row_free(&row, i);
        return true;
    case 3: return flex_extend(&variables[i], n) == (wide_row_extend(&row, i, (size_t)n) == VF_OK);
    case 4:
        n = below(2) ? n : -(int)below(60);
        return flex_midextend(&variables[i], at, n) == (wide_row_midextend(&row, i, (size_t)at, n) == VF_OK);
    case 5: return claims(slot, given);
    case 6: {
        bool was = is_budging;
        is_budging = below(2);
        return flex_set_budge(is_budging) == was;
    }
    default: return fills(i);
    }
}

/* Random calls up to the first one that differs. */
static void compare(int calls)
{
    void *p = NULL;
    size_t given = 0, place = 0;
    memset(variables, 0, sizeof variables);
    flex_init();
    is_budging = true;
    wide_row_start(&row, ROOM, MOST);
    wide_row_budge(&row, PAGE, &given);
    EXPECT(flex_alloc(&p, 0) == 1 && wide_row_alloc(&row, 0, 0, &place) == VF_OK);
    const uint8_t *slot = (uint8_t *)p - place;
    flex_free(&p);
    wide_row_free(&row, 0);
    for (int call = 0; call < calls; call++)
        if (!is_alike(slot, &given) || !is_row(slot)) {
            fprintf(stderr, "call %d differs\n", call);
            EXPECT(!"the blocks are those of the row");
            break;
        }
    wide_row_end(&row);
}

int main(void)
{
    nothing_is_done_before_it_is_begun();
    memory_is_mapped_once();
    blocks_come_and_go();
    blocks_change_in_length();
    room_has_an_end();
    what_is_below_pushes_blocks_up();
    anchors_lie_in_no_block();
    for (int round = 0; round < ROUNDS; round++)
        compare(CALLS / ROUNDS);
    many_blocks_come_and_go(CALLS / 4);
    return ended("acorn_flex");
}
