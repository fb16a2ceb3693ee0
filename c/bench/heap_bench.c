/*
 * heap_bench.c: what a claim and a release take, beside the plain heap of the same rules: with 100, 1,000 and 10,000
 * live blocks of 100 bytes, none or every second one of them freed, and claims that fit the first hole or none. Then
 * the same with a map beside the heap. With words it makes pairs of calls for somebody who counts instructions:
 *
 *     heap_bench proved|mapped LIVE SHAPE PAIRS
 */
#define _POSIX_C_SOURCE 200809L
#include "bench.h"
#include "os_heap.h"

#include <string.h>

enum { LEN = 4 << 20, WORDS = 2 * LEN / 512, MOST = 10000, BLOCK = 100, FITS = 50, FITS_NONE = 300, CALLS = 400000 };

struct heap {
    uint32_t (*init)(uint8_t *memory, size_t len);
    uint32_t (*check)(const uint8_t *memory, size_t len);
    uint32_t (*claim)(uint8_t *memory, size_t len, size_t n, size_t *address);
    uint32_t (*release)(uint8_t *memory, size_t len, size_t address);
};

static uint8_t memory[LEN];
static uint64_t map[WORDS];
static size_t blocks[MOST];

static uint32_t mapped_init(uint8_t *bytes, size_t len)
{
    must(vf_heap_init(bytes, len));
    return vf_heap_index(bytes, len, map, WORDS);
}

static uint32_t mapped_claim(uint8_t *bytes, size_t len, size_t n, size_t *address)
{
    return vf_heap_indexed_claim(bytes, len, map, WORDS, n, address);
}

static uint32_t mapped_release(uint8_t *bytes, size_t len, size_t address)
{
    return vf_heap_indexed_release(bytes, len, map, WORDS, address);
}

static const struct heap MAPPED = {mapped_init, NULL, mapped_claim, mapped_release};

static const struct heap HEAPS[WAYS] = {
    [PROVED] = {vf_heap_init, NULL, vf_heap_claim, vf_heap_release},
    [PLAIN] = {os_heap_init, NULL, os_heap_claim, os_heap_release},
    [PROVED_CHECKED] = {vf_heap_init, NULL, vf_heap_checked_claim, vf_heap_checked_release},
    [PLAIN_CHECKED] = {os_heap_init, os_heap_check, os_heap_claim, os_heap_release},
};

struct shape {
    const char *name;
    bool has_holes;
    size_t claimed;
};

static const struct shape SHAPES[] = {
    {"no hole", false, FITS_NONE},
    {"every second freed, claims that fit", true, FITS},
    {"every second freed, claims at the top", true, FITS_NONE},
};

static void set_up(const struct heap *heap, const struct shape *shape, int live)
{
    must(heap->init(memory, LEN));
    for (int i = 0; i < live; i++)
        must(heap->claim(memory, LEN, BLOCK, &blocks[i]));
    for (int i = 0; shape->has_holes && i < live; i += 2)
        must(heap->release(memory, LEN, blocks[i]));
}

/* Microseconds of one call, over as many pairs of a claim and its release. */
static double timed(const struct heap *heap, size_t claimed, int pairs)
{
    size_t address;
    double start = seconds();
    for (int i = 0; i < pairs; i++) {
        if (heap->check)
            must(heap->check(memory, LEN));
        must(heap->claim(memory, LEN, claimed, &address));
        if (heap->check)
            must(heap->check(memory, LEN));
        must(heap->release(memory, LEN, address));
    }
    return (seconds() - start) / pairs / 2 * 1e6;
}

static double once(const struct heap *heap, const struct shape *shape, int live)
{
    set_up(heap, shape, live);
    return timed(heap, shape->claimed, CALLS / 2 / live);
}

static void compare(const struct shape *shape, int live)
{
    double least[WAYS];
    for (int round = 0; round < ROUNDS; round++)
        for (int way = 0; way < WAYS; way++) {
            double time = once(&HEAPS[way], shape, live);
            least[way] = round == 0 || time < least[way] ? time : least[way];
        }
    printf("| %d, %s |", live, shape->name);
    print_times(least);
}

static void compare_mapped(const struct shape *shape, int live)
{
    double least[] = {1e9, 1e9};
    const struct heap *const both[] = {&MAPPED, &HEAPS[PROVED]};
    for (int round = 0; round < ROUNDS; round++)
        for (int i = 0; i < 2; i++) {
            double time = once(both[i], shape, live);
            least[i] = time < least[i] ? time : least[i];
        }
    printf("| %d, %s | %.3f | %.3f | %.2f |\n", live, shape->name, least[0], least[1], least[0] / least[1]);
    fflush(stdout);
}

static void for_each_shape(void (*row)(const struct shape *shape, int live))
{
    for (int live = 100; live <= MOST; live *= 10)
        for (size_t i = 0; i < sizeof SHAPES / sizeof *SHAPES; i++)
            row(&SHAPES[i], live);
}

/* Makes the pairs of calls that the words name, and times none. */
static int make(char **words)
{
    const struct heap *heap = strcmp(words[0], "mapped") == 0 ? &MAPPED : &HEAPS[PROVED];
    for (size_t i = 0; i < sizeof SHAPES / sizeof *SHAPES; i++)
        if (strcmp(SHAPES[i].name, words[2]) == 0) {
            set_up(heap, &SHAPES[i], atoi(words[1]));
            timed(heap, SHAPES[i].claimed, atoi(words[3]));
            return 0;
        }
    return 2;
}

int main(int count, char **words)
{
    if (count == 5)
        return make(words + 1);
    print_head("a claim or a release", "Live blocks");
    for_each_shape(compare);
    printf("\n| Live blocks | with a map | without | with / without |\n|---|---|---|---|\n");
    for_each_shape(compare_mapped);
    return 0;
}
