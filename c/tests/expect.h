/*
 * expect.h: what the tests share: what they expect, random numbers, lists of addresses, and the calls that have two
 * forms.
 */
#ifndef EXPECT_H
#define EXPECT_H

#include "vervainfile.h"

#include <stdbool.h>
#include <stdio.h>
#include <string.h>

/* How many failures are told, and what stands in a number that a call is to put before it has. */
enum { MOST_TOLD = 20, UNSET = 77 };

static int failures;

static inline void expect(bool holds, const char *what, const char *file, int line)
{
    if (!holds && failures++ < MOST_TOLD)
        fprintf(stderr, "%s:%d: not so: %s\n", file, line, what);
}

#define EXPECT(holds) expect((holds), #holds, __FILE__, __LINE__)

/* The call is done, and puts a number into the test's variable `number`. */
#define TELLS(told, call)                                           \
    do {                                                            \
        number = UNSET;                                             \
        EXPECT((call) == VF_OK);                                    \
        EXPECT(number == (told));                                   \
    } while (0)

/* What a test's main ends with. */
static inline int ended(const char *test)
{
    printf("%s: %s\n", test, failures ? "FAILED" : "passed");
    return failures != 0;
}

/* A random number below a bound, from a sequence that is the same in each run. */
static inline uint32_t below(uint32_t bound)
{
    static uint64_t state = 0x9e3779b97f4a7c15u;
    state ^= state << 13;
    state ^= state >> 7;
    state ^= state << 17;
    return (uint32_t)((state >> 32) * bound >> 32);
}

/* Takes an address out of a list, in which the last one then has its place. */
static inline void forget(size_t *list, size_t *count, size_t address)
{
    for (size_t i = 0; i < *count; i++)
        if (list[i] == address) {
            list[i] = list[--*count];
            return;
        }
}

/* The calls on a heap that stand twice in the header. */
struct heap_calls {
    const char *name;
    uint32_t (*describe)(const uint8_t *memory, size_t len, size_t *most, size_t *free);
    uint32_t (*claim)(uint8_t *memory, size_t len, size_t n, size_t *address);
    uint32_t (*release)(uint8_t *memory, size_t len, size_t address);
    uint32_t (*resize)(uint8_t *memory, size_t len, size_t address, ptrdiff_t delta, size_t *moved_to);
    uint32_t (*extend)(uint8_t *memory, size_t len, ptrdiff_t delta);
    uint32_t (*block_size)(const uint8_t *memory, size_t len, size_t address, size_t *size);
};

static const struct heap_calls TRUSTING = {
    "trusting", vf_heap_describe, vf_heap_claim, vf_heap_release, vf_heap_resize, vf_heap_extend, vf_heap_block_size,
};

static const struct heap_calls CHECKED = {
    "checked",
    vf_heap_checked_describe,
    vf_heap_checked_claim,
    vf_heap_checked_release,
    vf_heap_checked_resize,
    vf_heap_checked_extend,
    vf_heap_checked_block_size,
};

/* The calls on a slot that stand twice. */
struct flex_calls {
    uint32_t (*alloc)(uint8_t *memory, size_t len, struct vf_slot *slot, uint32_t anchor, size_t n, size_t *place);
    uint32_t (*free)(uint8_t *memory, size_t len, struct vf_slot *slot, uint32_t anchor);
    uint32_t (*size)(const uint8_t *memory, size_t len, const struct vf_slot *slot, uint32_t anchor, size_t *size);
    uint32_t (*extend)(uint8_t *memory, size_t len, struct vf_slot *slot, uint32_t anchor, size_t n);
    uint32_t (*midextend)(uint8_t *memory, size_t len, struct vf_slot *slot, uint32_t anchor, size_t offset,
                          ptrdiff_t by);
    uint32_t (*place)(const uint8_t *memory, size_t len, const struct vf_slot *slot, uint32_t anchor, size_t *place);
    uint32_t (*places)(const uint8_t *memory, size_t len, const struct vf_slot *slot, size_t *places,
                       size_t places_len);
    uint32_t (*put)(uint8_t *memory, size_t len, struct vf_slot *slot, uint32_t anchor, size_t offset,
                    const uint8_t *from, size_t from_len);
    uint32_t (*read)(const uint8_t *memory, size_t len, const struct vf_slot *slot, uint32_t anchor, size_t offset,
                     uint8_t *to, size_t to_len);
    uint32_t (*describe)(const uint8_t *memory, size_t len, const struct vf_slot *slot, size_t *most, size_t *free);
    uint32_t (*claim)(uint8_t *memory, size_t len, struct vf_slot *slot, size_t n, size_t *place);
    uint32_t (*release)(uint8_t *memory, size_t len, struct vf_slot *slot, size_t place);
    uint32_t (*resize)(uint8_t *memory, size_t len, struct vf_slot *slot, size_t place, ptrdiff_t delta,
                       size_t *moved_to);
    uint32_t (*block_size)(const uint8_t *memory, size_t len, const struct vf_slot *slot, size_t place, size_t *size);
};

static const struct flex_calls TRUSTING_FLEX = {
    vf_flex_alloc,
    vf_flex_free,
    vf_flex_size,
    vf_flex_extend,
    vf_flex_midextend,
    vf_flex_place,
    vf_flex_places,
    vf_flex_put,
    vf_flex_read,
    vf_flex_describe,
    vf_flex_claim,
    vf_flex_release,
    vf_flex_resize,
    vf_flex_block_size,
};

static const struct flex_calls CHECKED_FLEX = {
    vf_flex_checked_alloc,
    vf_flex_checked_free,
    vf_flex_checked_size,
    vf_flex_checked_extend,
    vf_flex_checked_midextend,
    vf_flex_checked_place,
    vf_flex_checked_places,
    vf_flex_checked_put,
    vf_flex_checked_read,
    vf_flex_checked_describe,
    vf_flex_checked_claim,
    vf_flex_checked_release,
    vf_flex_checked_resize,
    vf_flex_checked_block_size,
};

#endif
