/*
 * flex_bench.c: what calls on 64 flex blocks take, beside a plain slot of the same rules: a block comes and goes on top,
 * the lowest one goes and comes back on top, and the lowest and the top one get bytes and lose them. With words it makes
 * pairs of calls for somebody who counts instructions:
 *
 *     flex_bench CALLS BYTES PAIRS
 */
#define _POSIX_C_SOURCE 200809L
#include "bench.h"
#include "flex_slot.h"
#include "slot_check.h"

#include <string.h>

enum { LEN = 2 << 20, BLOCKS = 64, MORE = 40, MOVED = 20000 };

typedef uint32_t start_call(uint8_t *memory, size_t len, struct vf_slot *slot);
typedef uint32_t alloc_call(uint8_t *memory, size_t len, struct vf_slot *slot, uint32_t anchor, size_t n, size_t *place);
typedef uint32_t free_call(uint8_t *memory, size_t len, struct vf_slot *slot, uint32_t anchor);
typedef uint32_t extend_call(uint8_t *memory, size_t len, struct vf_slot *slot, uint32_t anchor, size_t n);
typedef uint32_t check_call(const uint8_t *memory, size_t len, const struct vf_slot *slot);

struct flex {
    start_call *start;
    check_call *check;
    alloc_call *alloc;
    free_call *free;
    extend_call *extend;
};

static const struct flex FLEX[WAYS] = {
    [PROVED] = {vf_flex_start, NULL, vf_flex_alloc, vf_flex_free, vf_flex_extend},
    [PLAIN] = {flex_slot_start, NULL, flex_slot_alloc, flex_slot_free, flex_slot_extend},
    [PROVED_CHECKED] = {vf_flex_start, NULL, vf_flex_checked_alloc, vf_flex_checked_free, vf_flex_checked_extend},
    [PLAIN_CHECKED] = {flex_slot_start, slot_check, flex_slot_alloc, flex_slot_free, flex_slot_extend},
};

static uint8_t memory[LEN];
static struct vf_slot slot;

/* Looks at the slot first, where that way of calling has no calls that do so themselves. */
static void look(const struct flex *flex)
{
    if (flex->check)
        must(flex->check(memory, LEN, &slot));
}

static void alloc(const struct flex *flex, uint32_t anchor, size_t n)
{
    size_t place;
    look(flex);
    must(flex->alloc(memory, LEN, &slot, anchor, n, &place));
}

static void free_block(const struct flex *flex, uint32_t anchor)
{
    look(flex);
    must(flex->free(memory, LEN, &slot, anchor));
}

static void extend(const struct flex *flex, uint32_t anchor, size_t n)
{
    look(flex);
    must(flex->extend(memory, LEN, &slot, anchor, n));
}

/* The pairs of calls that are timed. Before and after each of them the blocks are the same, or in the second their
 * lowest one has become the top one. */
static void top_comes_and_goes(const struct flex *flex, uint32_t turn, size_t n)
{
    (void)turn;
    free_block(flex, BLOCKS - 1);
    alloc(flex, BLOCKS - 1, n);
}

static void lowest_becomes_top(const struct flex *flex, uint32_t turn, size_t n)
{
    free_block(flex, turn % BLOCKS);
    alloc(flex, turn % BLOCKS, n);
}

static void lowest_grows_and_shrinks(const struct flex *flex, uint32_t turn, size_t n)
{
    (void)turn;
    extend(flex, 0, n + MORE);
    extend(flex, 0, n);
}

static void top_grows_and_shrinks(const struct flex *flex, uint32_t turn, size_t n)
{
    (void)turn;
    extend(flex, BLOCKS - 1, n + MORE);
    extend(flex, BLOCKS - 1, n);
}

struct pair {
    const char *name;
    void (*run)(const struct flex *flex, uint32_t turn, size_t n);
};

static const struct pair PAIRS[] = {
    {"free and alloc at the top", top_comes_and_goes},
    {"free at the bottom, alloc at the top", lowest_becomes_top},
    {"extend at the bottom", lowest_grows_and_shrinks},
    {"extend at the top", top_grows_and_shrinks},
};

/* Microseconds of one call of so many pairs, with 64 blocks of `n` bytes. */
static double timed(const struct flex *flex, const struct pair *pair, size_t n, uint32_t pairs)
{
    must(flex->start(memory, LEN, &slot));
    for (uint32_t anchor = 0; anchor < BLOCKS; anchor++)
        alloc(flex, anchor, n);
    double start = seconds();
    for (uint32_t turn = 0; turn < pairs; turn++)
        pair->run(flex, turn, n);
    return (seconds() - start) / pairs / 2 * 1e6;
}

static void compare(const struct pair *pair, size_t n)
{
    double least[WAYS];
    for (int round = 0; round < ROUNDS; round++)
        for (int way = 0; way < WAYS; way++) {
            double time = timed(&FLEX[way], pair, n, (uint32_t)(MOVED / n * BLOCKS));
            least[way] = round == 0 || time < least[way] ? time : least[way];
        }
    printf("| %s, %zu bytes |", pair->name, n);
    print_times(least);
}

/* Makes the pairs of calls that the words name, and times none. */
static int make(char **words)
{
    for (size_t i = 0; i < sizeof PAIRS / sizeof *PAIRS; i++)
        if (strcmp(PAIRS[i].name, words[0]) == 0) {
            timed(&FLEX[PROVED], &PAIRS[i], (size_t)atol(words[1]), (uint32_t)atol(words[2]));
            return 0;
        }
    return 2;
}

int main(int count, char **words)
{
    if (count == 4)
        return make(words + 1);
    static const size_t SIZES[] = {100, 1000};
    print_head("a call on 64 flex blocks", "Calls, and the bytes of each block");
    for (size_t size = 0; size < sizeof SIZES / sizeof *SIZES; size++)
        for (size_t i = 0; i < sizeof PAIRS / sizeof *PAIRS; i++)
            compare(&PAIRS[i], SIZES[size]);
    return 0;
}
