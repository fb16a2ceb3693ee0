/* null.c: each call with each of its pointers null answers VF_NULL, whatever the length, and changes nothing. */
#include "expect.h"

enum { LEN = 56 };

static uint8_t memory[LEN], before[LEN];
static size_t number = UNSET, other = UNSET;

#define IS_NULL(call) EXPECT((call) == VF_NULL)

static void calls_see_null(const struct heap_calls *heap, size_t len)
{
    IS_NULL(heap->describe(NULL, len, &number, &other));
    IS_NULL(heap->describe(memory, len, NULL, &other));
    IS_NULL(heap->describe(memory, len, &number, NULL));
    IS_NULL(heap->claim(NULL, len, 1, &number));
    IS_NULL(heap->claim(memory, len, 1, NULL));
    IS_NULL(heap->release(NULL, len, 20));
    IS_NULL(heap->resize(NULL, len, 20, 1, &number));
    IS_NULL(heap->resize(memory, len, 20, 1, NULL));
    IS_NULL(heap->extend(NULL, len, 8));
    IS_NULL(heap->block_size(NULL, len, 20, &number));
    IS_NULL(heap->block_size(memory, len, 20, NULL));
}

/* The calls on a heap with a map. */
static void mapped_calls_see_null(size_t len)
{
    static uint64_t map[2];
    for (int i = 0; i < 2; i++) {
        uint8_t *at = i ? memory : NULL;
        uint64_t *map_or_null = i ? NULL : map;
        IS_NULL(vf_heap_index(at, len, map_or_null, 2));
        IS_NULL(vf_heap_indexed_claim(at, len, map_or_null, 2, 1, &number));
        IS_NULL(vf_heap_indexed_release(at, len, map_or_null, 2, 20));
        IS_NULL(vf_heap_indexed_resize(at, len, map_or_null, 2, 20, 1, &number));
        IS_NULL(vf_heap_indexed_block_size(at, len, map_or_null, 2, 20, &number));
        IS_NULL(vf_heap_indexed_resize_need(at, len, map_or_null, 2, 20, 1, &number));
    }
    IS_NULL(vf_heap_indexed_claim(memory, len, map, 2, 1, NULL));
    IS_NULL(vf_heap_indexed_resize(memory, len, map, 2, 20, 1, NULL));
    IS_NULL(vf_heap_indexed_block_size(memory, len, map, 2, 20, NULL));
    IS_NULL(vf_heap_indexed_resize_need(memory, len, map, 2, 20, 1, NULL));
    EXPECT(!map[0] && !map[1]);
}

/* The calls on a slot that stand once. */
static void slots_see_null(size_t len)
{
    static bool was;
    struct vf_slot slot = {1, true, 0};
    IS_NULL(vf_flex_start(NULL, len, &slot));
    IS_NULL(vf_flex_start(memory, len, NULL));
    IS_NULL(vf_flex_check(NULL, len, &slot));
    IS_NULL(vf_flex_check(memory, len, NULL));
    IS_NULL(vf_flex_set_budge(NULL, true, &was));
    IS_NULL(vf_flex_set_budge(&slot, false, NULL));
    EXPECT(slot.pages == 1 && slot.budge && !was);
}

static void calls_on_slots_see_null(const struct flex_calls *flex, size_t len)
{
    static uint8_t byte;
    struct vf_slot slot = {1, true, 0}, *const it = &slot;
    for (int i = 0; i < 2; i++) {
        uint8_t *at = i ? memory : NULL;
        struct vf_slot *slot_or_null = i ? NULL : it;
        IS_NULL(flex->alloc(at, len, slot_or_null, 0, 1, &number));
        IS_NULL(flex->free(at, len, slot_or_null, 0));
        IS_NULL(flex->size(at, len, slot_or_null, 0, &number));
        IS_NULL(flex->place(at, len, slot_or_null, 0, &number));
        IS_NULL(flex->places(at, len, slot_or_null, &number, 1));
        IS_NULL(flex->extend(at, len, slot_or_null, 0, 1));
        IS_NULL(flex->midextend(at, len, slot_or_null, 0, 0, 1));
        IS_NULL(flex->put(at, len, slot_or_null, 0, 0, &byte, 1));
        IS_NULL(flex->read(at, len, slot_or_null, 0, 0, &byte, 1));
        IS_NULL(flex->describe(at, len, slot_or_null, &number, &other));
        IS_NULL(flex->claim(at, len, slot_or_null, 1, &number));
        IS_NULL(flex->release(at, len, slot_or_null, 276));
        IS_NULL(flex->resize(at, len, slot_or_null, 276, 1, &number));
        IS_NULL(flex->block_size(at, len, slot_or_null, 276, &number));
    }
    IS_NULL(flex->alloc(memory, len, it, 0, 1, NULL));
    IS_NULL(flex->size(memory, len, it, 0, NULL));
    IS_NULL(flex->place(memory, len, it, 0, NULL));
    for (size_t n = 0; n < 2; n++) {
        IS_NULL(flex->places(memory, len, it, NULL, n));
        IS_NULL(flex->put(memory, len, it, 0, 0, NULL, n));
        IS_NULL(flex->read(memory, len, it, 0, 0, NULL, n));
    }
    IS_NULL(flex->describe(memory, len, it, NULL, &other));
    IS_NULL(flex->describe(memory, len, it, &number, NULL));
    IS_NULL(flex->claim(memory, len, it, 1, NULL));
    IS_NULL(flex->resize(memory, len, it, 276, 1, NULL));
    IS_NULL(flex->block_size(memory, len, it, 276, NULL));
    EXPECT(slot.pages == 1 && slot.budge && !byte);
}

/* The calls on a wide slot. */
static void calls_on_wide_slots_see_null(size_t len)
{
    static uint8_t byte;
    struct vf_wide_slot slot = {512, 512, 64, 0}, *const it = &slot;
    for (int i = 0; i < 2; i++) {
        uint8_t *at = i ? memory : NULL;
        struct vf_wide_slot *slot_or_null = i ? NULL : it;
        IS_NULL(vf_flex_start_with(at, len, slot_or_null, 64));
        IS_NULL(vf_flex_wide_alloc(at, len, slot_or_null, 0, 1, &number));
        IS_NULL(vf_flex_wide_free(at, len, slot_or_null, 0));
        IS_NULL(vf_flex_wide_size(at, len, slot_or_null, 0, &number));
        IS_NULL(vf_flex_wide_place(at, len, slot_or_null, 0, &number));
        IS_NULL(vf_flex_wide_places(at, len, slot_or_null, &number, 1));
        IS_NULL(vf_flex_wide_extend(at, len, slot_or_null, 0, 1));
        IS_NULL(vf_flex_wide_midextend(at, len, slot_or_null, 0, 0, 1));
        IS_NULL(vf_flex_wide_put(at, len, slot_or_null, 0, 0, &byte, 1));
        IS_NULL(vf_flex_wide_read(at, len, slot_or_null, 0, 0, &byte, 1));
        IS_NULL(vf_flex_wide_budge(at, len, slot_or_null, 8, &number));
    }
    IS_NULL(vf_flex_wide_alloc(memory, len, it, 0, 1, NULL));
    IS_NULL(vf_flex_wide_size(memory, len, it, 0, NULL));
    IS_NULL(vf_flex_wide_place(memory, len, it, 0, NULL));
    IS_NULL(vf_flex_wide_budge(memory, len, it, 8, NULL));
    for (size_t n = 0; n < 2; n++) {
        IS_NULL(vf_flex_wide_places(memory, len, it, NULL, n));
        IS_NULL(vf_flex_wide_put(memory, len, it, 0, 0, NULL, n));
        IS_NULL(vf_flex_wide_read(memory, len, it, 0, 0, NULL, n));
    }
    EXPECT(slot.base == 512 && slot.top == 512 && slot.anchors == 64 && !slot.slides && !byte);
}

int main(void)
{
    static const size_t lengths[] = {0, LEN, SIZE_MAX};
    EXPECT(vf_heap_init(memory, LEN) == VF_OK);
    memcpy(before, memory, LEN);
    for (size_t i = 0; i < sizeof lengths / sizeof *lengths; i++) {
        IS_NULL(vf_heap_init(NULL, lengths[i]));
        IS_NULL(vf_heap_check(NULL, lengths[i]));
        calls_see_null(&TRUSTING, lengths[i]);
        calls_see_null(&CHECKED, lengths[i]);
        mapped_calls_see_null(lengths[i]);
        slots_see_null(lengths[i]);
        calls_on_slots_see_null(&TRUSTING_FLEX, lengths[i]);
        calls_on_slots_see_null(&CHECKED_FLEX, lengths[i]);
        calls_on_wide_slots_see_null(lengths[i]);
    }
    EXPECT(number == UNSET && other == UNSET && memcmp(before, memory, LEN) == 0);
    return ended("null");
}
