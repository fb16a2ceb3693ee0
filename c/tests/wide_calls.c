/*
 * wide_calls.c: each call on a wide slot, and each status that it can answer. A refused call leaves each byte, the
 * struct and each number as it was. The numbers follow from the rules: 8 bytes of words for each anchor, then what was
 * given below the blocks, then the blocks, each with one to eight bytes more than it has, up to a multiple of 8.
 */
#include "expect.h"

enum { ROOM = 40000, GIB = 1 << 30, FIRST = 8 * 64 };

static uint8_t memory[ROOM], before[ROOM], buffer[8], buffer_before[8];
static struct vf_wide_slot slot;
static size_t number;

#define REFUSES(status, call)                                              \
    do {                                                                   \
        struct vf_wide_slot was = slot;                                    \
        memcpy(before, memory, ROOM);                                      \
        memcpy(buffer_before, buffer, sizeof buffer);                      \
        number = UNSET;                                                    \
        EXPECT((call) == (status));                                        \
        EXPECT(memcmp(before, memory, ROOM) == 0);                         \
        EXPECT(memcmp(buffer_before, buffer, sizeof buffer) == 0);         \
        EXPECT(memcmp(&was, &slot, sizeof slot) == 0 && number == UNSET);  \
    } while (0)

#define BLOCK_CALLS_REFUSE(status, at, len, it, anchor)                    \
    do {                                                                   \
        REFUSES(status, vf_flex_wide_free(at, len, it, anchor));           \
        REFUSES(status, vf_flex_wide_size(at, len, it, anchor, &number));  \
        REFUSES(status, vf_flex_wide_place(at, len, it, anchor, &number)); \
        REFUSES(status, vf_flex_wide_extend(at, len, it, anchor, 1));      \
        REFUSES(status, vf_flex_wide_midextend(at, len, it, anchor, 0, 1)); \
        REFUSES(status, vf_flex_wide_put(at, len, it, anchor, 0, buffer, 1)); \
        REFUSES(status, vf_flex_wide_read(at, len, it, anchor, 0, buffer, 1)); \
    } while (0)

/* Each call with these arguments answers the same status. */
#define ALL_REFUSE(status, at, len, it)                                    \
    do {                                                                   \
        BLOCK_CALLS_REFUSE(status, at, len, it, 0);                        \
        REFUSES(status, vf_flex_wide_alloc(at, len, it, 0, 1, &number));   \
        REFUSES(status, vf_flex_wide_places(at, len, it, &number, 1));     \
        REFUSES(status, vf_flex_wide_budge(at, len, it, 8, &number));      \
    } while (0)

static void starts(void)
{
    static const uint32_t counts[] = {64, 65, 1000, 4096};
    REFUSES(VF_BAD_LENGTH, vf_flex_start_with(memory, FIRST - 1, &slot, 64));
    REFUSES(VF_BAD_LENGTH, vf_flex_start_with(memory, GIB + 1, &slot, 64));
    REFUSES(VF_BAD_ANCHOR, vf_flex_start_with(memory, ROOM, &slot, 63));
    REFUSES(VF_BAD_ANCHOR, vf_flex_start_with(memory, ROOM, &slot, 4097));
    REFUSES(VF_NO_ROOM, vf_flex_start_with(memory, FIRST + 7, &slot, 65));
    ALL_REFUSE(VF_NO_SLOT, memory, ROOM, &slot);
    for (size_t i = 0; i < sizeof counts / sizeof *counts; i++) {
        memset(memory, 0xa5, ROOM);
        EXPECT(vf_flex_start_with(memory, ROOM, &slot, counts[i]) == VF_OK);
        EXPECT(slot.base == 8 * counts[i] && slot.top == slot.base && slot.anchors == counts[i] && slot.slides == 0);
        for (size_t byte = 0; byte < ROOM; byte++)
            EXPECT(memory[byte] == (byte < slot.base ? 0 : 0xa5));
        BLOCK_CALLS_REFUSE(VF_NO_BLOCK, memory, ROOM, &slot, counts[i] - 1);
        BLOCK_CALLS_REFUSE(VF_BAD_ANCHOR, memory, ROOM, &slot, counts[i]);
        REFUSES(VF_BAD_ANCHOR, vf_flex_wide_alloc(memory, ROOM, &slot, counts[i], 1, &number));
    }
}

static bool stands(uint32_t anchor, size_t place, size_t size)
{
    size_t at = UNSET, n = UNSET, places[66] = {0};
    return vf_flex_wide_place(memory, ROOM, &slot, anchor, &at) == VF_OK && at == place &&
           vf_flex_wide_size(memory, ROOM, &slot, anchor, &n) == VF_OK && n == size &&
           vf_flex_wide_places(memory, ROOM, &slot, places, 66) == VF_OK && places[anchor] == place && !places[65];
}

static void blocks(void)
{
    EXPECT(vf_flex_start_with(memory, ROOM, &slot, 64) == VF_OK);
    EXPECT(vf_flex_wide_alloc(memory, ROOM, &slot, 5, 7, &number) == VF_OK && number == FIRST);
    EXPECT(vf_flex_wide_alloc(memory, ROOM, &slot, 63, 8, &number) == VF_OK && number == FIRST + 8);
    EXPECT(vf_flex_wide_alloc(memory, ROOM, &slot, 0, 0, &number) == VF_OK && number == FIRST + 24);
    EXPECT(slot.top == FIRST + 32 && slot.slides == 0);
    REFUSES(VF_ANCHOR_IN_USE, vf_flex_wide_alloc(memory, ROOM, &slot, 63, 1, &number));
    REFUSES(VF_SHORT, vf_flex_wide_size(memory, slot.top - 1, &slot, 5, &number));
    ALL_REFUSE(VF_SHORT, memory, slot.top - 1, &slot);
    ALL_REFUSE(VF_BAD_LENGTH, memory, FIRST - 1, &slot);
    ALL_REFUSE(VF_BAD_LENGTH, memory, (size_t)GIB + 1, &slot);
    EXPECT(vf_flex_wide_put(memory, ROOM, &slot, 63, 3, (const uint8_t *)"slide", 5) == VF_OK);
    REFUSES(VF_BAD_RANGE, vf_flex_wide_put(memory, ROOM, &slot, 63, 4, (const uint8_t *)"slide", 5));
    REFUSES(VF_BAD_RANGE, vf_flex_wide_read(memory, ROOM, &slot, 63, 9, buffer, 0));
    EXPECT(vf_flex_wide_extend(memory, ROOM, &slot, 5, 9) == VF_OK && slot.slides == 1);
    EXPECT(stands(5, FIRST, 9) && stands(63, FIRST + 16, 8) && stands(0, FIRST + 32, 0));
    REFUSES(VF_BAD_RANGE, vf_flex_wide_midextend(memory, ROOM, &slot, 63, 9, 1));
    REFUSES(VF_BAD_RANGE, vf_flex_wide_midextend(memory, ROOM, &slot, 63, 2, -3));
    EXPECT(vf_flex_wide_midextend(memory, ROOM, &slot, 63, 4, 2) == VF_OK && slot.slides == 1);
    EXPECT(vf_flex_wide_read(memory, ROOM, &slot, 63, 3, buffer, 7) == VF_OK && !memcmp(buffer, "s\0\0lide", 7));
    EXPECT(vf_flex_wide_midextend(memory, ROOM, &slot, 63, 6, -3) == VF_OK && slot.slides == 2);
    EXPECT(stands(63, FIRST + 16, 7) && stands(0, FIRST + 24, 0) && slot.top == FIRST + 32);
    EXPECT(vf_flex_wide_free(memory, ROOM, &slot, 5) == VF_OK && slot.slides == 3);
    EXPECT(stands(63, FIRST, 7) && stands(0, FIRST + 8, 0) && slot.top == FIRST + 16);
    EXPECT(vf_flex_wide_read(memory, ROOM, &slot, 63, 0, buffer, 7) == VF_OK && !memcmp(buffer, "\0\0\0lide", 7));
}

/* The bytes below the blocks, and no room for more. */
static void room(void)
{
    const size_t len = slot.top + 16;
    EXPECT(vf_flex_wide_budge(memory, len, &slot, 3, &number) == VF_OK && number == FIRST && slot.base == FIRST + 8);
    EXPECT(stands(63, FIRST + 8, 7) && slot.slides == 4 && slot.top == len - 8);
    memset(memory + number, 0x5a, 8);
    REFUSES(VF_NO_ROOM, vf_flex_wide_budge(memory, len, &slot, 9, &number));
    REFUSES(VF_NO_ROOM, vf_flex_wide_budge(memory, len, &slot, SIZE_MAX, &number));
    REFUSES(VF_NO_ROOM, vf_flex_wide_alloc(memory, len, &slot, 1, 8, &number));
    REFUSES(VF_NO_ROOM, vf_flex_wide_alloc(memory, len, &slot, 1, SIZE_MAX, &number));
    REFUSES(VF_NO_ROOM, vf_flex_wide_extend(memory, len, &slot, 63, 16));
    REFUSES(VF_NO_ROOM, vf_flex_wide_extend(memory, len, &slot, 63, SIZE_MAX));
    REFUSES(VF_NO_ROOM, vf_flex_wide_midextend(memory, len, &slot, 63, 0, 9));
    REFUSES(VF_NO_ROOM, vf_flex_wide_midextend(memory, len, &slot, 63, 0, PTRDIFF_MAX));
    EXPECT(vf_flex_wide_alloc(memory, len, &slot, 1, 7, &number) == VF_OK && number == len - 8 && slot.top == len);
    EXPECT(vf_flex_wide_budge(memory, len, &slot, 0, &number) == VF_OK && number == FIRST + 8 && slot.slides == 4);
    EXPECT(memory[FIRST] == 0x5a && memory[FIRST + 7] == 0x5a);
    EXPECT(vf_flex_wide_extend(memory, len, &slot, 63, 0) == VF_OK && slot.slides == 4);
    EXPECT(sizeof slot == 2 * sizeof(size_t) + 8 && offsetof(struct vf_wide_slot, anchors) == 2 * sizeof(size_t));
}

int main(void)
{
    starts();
    blocks();
    room();
    return ended("wide_calls");
}
