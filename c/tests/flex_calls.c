/*
 * flex_calls.c: each call on a slot, and each status that it can answer. A refused call leaves each byte, the slot and
 * each number as it was. The numbers follow from the rules: 256 bytes of anchor words, a C heap of 3,840 bytes at
 * first, then the blocks, each behind a header of 8 bytes and in whole words; in the C heap segments from 16 on.
 */
#include "expect.h"

enum { PAGE = 4096, ROOM = 16 * PAGE, LONGEST = 28 << 20, FIRST = PAGE + 8, HEAP_FIRST = 256 + 16 + 4 };

static uint8_t memory[ROOM], before[ROOM], buffer[8], buffer_before[8];
static struct vf_slot slot;
static size_t number, other;

#define REFUSES(status, call)                                                          \
    do {                                                                               \
        struct vf_slot was = slot;                                                     \
        memcpy(before, memory, ROOM);                                                  \
        memcpy(buffer_before, buffer, sizeof buffer);                                  \
        number = other = UNSET;                                                        \
        EXPECT((call) == (status));                                                    \
        EXPECT(memcmp(before, memory, ROOM) == 0);                                     \
        EXPECT(memcmp(buffer_before, buffer, sizeof buffer) == 0);                     \
        EXPECT(slot.pages == was.pages && slot.budge == was.budge);                    \
        EXPECT(slot.slides == was.slides);                                             \
        EXPECT(number == UNSET && other == UNSET);                                     \
    } while (0)

/* Each call with these arguments answers the same status. */
#define ALL_REFUSE(status, at, len, it)                                                \
    do {                                                                               \
        ANCHOR_CALLS_REFUSE(status, at, len, it, 0);                                   \
        REFUSES(status, vf_flex_places(at, len, it, &number, 1));                      \
        REFUSES(status, vf_flex_describe(at, len, it, &number, &other));               \
        REFUSES(status, vf_flex_claim(at, len, it, 1, &number));                       \
        REFUSES(status, vf_flex_release(at, len, it, HEAP_FIRST));                     \
        REFUSES(status, vf_flex_resize(at, len, it, HEAP_FIRST, 1, &number));          \
        REFUSES(status, vf_flex_block_size(at, len, it, HEAP_FIRST, &number));         \
    } while (0)

#define ANCHOR_CALLS_REFUSE(status, at, len, it, anchor)                               \
    do {                                                                               \
        REFUSES(status, vf_flex_alloc(at, len, it, anchor, 1, &number));               \
        BLOCK_CALLS_REFUSE(status, at, len, it, anchor);                               \
    } while (0)

#define BLOCK_CALLS_REFUSE(status, at, len, it, anchor)                                \
    do {                                                                               \
        REFUSES(status, vf_flex_free(at, len, it, anchor));                            \
        REFUSES(status, vf_flex_size(at, len, it, anchor, &number));                   \
        REFUSES(status, vf_flex_place(at, len, it, anchor, &number));                  \
        REFUSES(status, vf_flex_extend(at, len, it, anchor, 1));                       \
        REFUSES(status, vf_flex_midextend(at, len, it, anchor, 0, 1));                 \
        REFUSES(status, vf_flex_put(at, len, it, anchor, 0, buffer, 1));               \
        REFUSES(status, vf_flex_read(at, len, it, anchor, 0, buffer, 1));              \
    } while (0)

static bool is_filled(const uint8_t *bytes, size_t n, int value)
{
    for (size_t i = 0; i < n; i++)
        if (bytes[i] != value)
            return false;
    return true;
}

static bool is_word(size_t place, uint32_t wanted)
{
    uint8_t bytes[] = {(uint8_t)wanted, (uint8_t)(wanted >> 8), (uint8_t)(wanted >> 16), (uint8_t)(wanted >> 24)};
    return memcmp(memory + place, bytes, sizeof bytes) == 0;
}

static void start(size_t len)
{
    memset(memory, 0xa5, ROOM);
    EXPECT(vf_flex_start(memory, len, &slot) == VF_OK);
    EXPECT(slot.pages == 1 && slot.budge);
}

static void lengths_have_slots_or_not(void)
{
    static const size_t bad[] = {0, 1, PAGE - 1, LONGEST + 1, (size_t)1 << 32, SIZE_MAX};
    static const uint8_t empty[16] = {'H', 'e', 'a', 'p', 0, 0, 0, 0, 16, 0, 0, 0, 0, 15, 0, 0};
    static uint8_t longest[LONGEST];
    struct vf_slot wide;
    slot = (struct vf_slot){UNSET, false, 0};
    for (size_t i = 0; i < sizeof bad / sizeof *bad; i++)
        REFUSES(VF_BAD_LENGTH, vf_flex_start(memory, bad[i], &slot));
    start(PAGE);
    EXPECT(is_filled(memory, 256, 0) && memcmp(memory + 256, empty, sizeof empty) == 0);
    EXPECT(is_filled(memory + PAGE, ROOM - PAGE, 0xa5));
    for (size_t i = 0; i < sizeof bad / sizeof *bad; i++)
        ALL_REFUSE(VF_BAD_LENGTH, memory, bad[i], &slot);
    EXPECT(vf_flex_start(longest, LONGEST, &wide) == VF_OK && wide.pages == 1);
    TELLS(FIRST, vf_flex_alloc(longest, LONGEST, &wide, 0, LONGEST - PAGE - 8, &number));
    EXPECT(wide.pages == LONGEST / PAGE);
    EXPECT(vf_flex_free(longest, LONGEST, &wide, 0) == VF_OK && wide.pages == 1);
}

static void slots_and_anchors_are_looked_at(void)
{
    static const uint32_t bad[] = {64, 65, 256, 256 + 1, UINT32_MAX};
    start(ROOM);
    struct vf_slot none = {0, true, 0}, far = {SIZE_MAX, true, 0};
    ALL_REFUSE(VF_NO_SLOT, memory, ROOM, &none);
    ALL_REFUSE(VF_SHORT, memory, ROOM, &far);
    for (size_t i = 0; i < sizeof bad / sizeof *bad; i++)
        ANCHOR_CALLS_REFUSE(VF_BAD_ANCHOR, memory, ROOM, &slot, bad[i]);
    for (uint32_t anchor = 0; anchor < 64; anchor += 21)
        BLOCK_CALLS_REFUSE(VF_NO_BLOCK, memory, ROOM, &slot, anchor);
    TELLS(FIRST, vf_flex_alloc(memory, ROOM, &slot, 63, PAGE, &number));
    EXPECT(slot.pages == 3);
    ALL_REFUSE(VF_SHORT, memory, 3 * PAGE - 1, &slot);
    TELLS(PAGE, vf_flex_size(memory, 3 * PAGE, &slot, 63, &number));
}

static void blocks_come_and_go(void)
{
    start(ROOM);
    TELLS(FIRST, vf_flex_alloc(memory, ROOM, &slot, 0, 5, &number));
    EXPECT(slot.pages == 2 && is_filled(memory + FIRST, 5, 0));
    EXPECT(is_word(0, 0x9008) && is_word(FIRST - 8, 0x8000) && is_word(FIRST - 4, 5));
    memcpy(memory + FIRST, "hello", 5);
    TELLS(FIRST + 16, vf_flex_alloc(memory, ROOM, &slot, 9, 0, &number));
    TELLS(FIRST + 24, vf_flex_alloc(memory, ROOM, &slot, 4, 3, &number));
    memcpy(memory + FIRST + 24, "abc", 3);
    REFUSES(VF_ANCHOR_IN_USE, vf_flex_alloc(memory, ROOM, &slot, 9, 1, &number));
    REFUSES(VF_ANCHOR_IN_USE, vf_flex_alloc(memory, ROOM, &slot, 9, SIZE_MAX, &number));
    static const size_t far[] = {ROOM, UINT32_MAX, (size_t)1 << 32, ((size_t)1 << 32) + 1, SIZE_MAX};
    for (size_t i = 0; i < sizeof far / sizeof *far; i++)
        REFUSES(VF_NO_ROOM, vf_flex_alloc(memory, ROOM, &slot, 1, far[i], &number));
    TELLS(5, vf_flex_size(memory, ROOM, &slot, 0, &number));
    TELLS(0, vf_flex_size(memory, ROOM, &slot, 9, &number));
    TELLS(FIRST + 24, vf_flex_place(memory, ROOM, &slot, 4, &number));
    EXPECT(vf_flex_free(memory, ROOM, &slot, 0) == VF_OK);
    TELLS(FIRST + 8, vf_flex_place(memory, ROOM, &slot, 4, &number));
    EXPECT(memcmp(memory + FIRST + 8, "abc", 3) == 0 && is_word(0, 0) && is_word(16, 0x9010));
    BLOCK_CALLS_REFUSE(VF_NO_BLOCK, memory, ROOM, &slot, 0);
    EXPECT(vf_flex_free(memory, ROOM, &slot, 4) == VF_OK && slot.pages == 2);
    EXPECT(vf_flex_free(memory, ROOM, &slot, 9) == VF_OK && slot.pages == 1);
    /* 60 KiB are free: a header and 61,432 bytes. */
    REFUSES(VF_NO_ROOM, vf_flex_alloc(memory, ROOM, &slot, 1, ROOM - PAGE - 7, &number));
    TELLS(FIRST, vf_flex_alloc(memory, ROOM, &slot, 1, ROOM - PAGE - 8, &number));
    EXPECT(slot.pages == 16);
}

/* Whether the anchors have their blocks at these places, and those beyond the last one none. */
static bool stand_at(size_t first, size_t third, size_t last)
{
    size_t places[66], ones[2] = {UNSET, UNSET};
    for (size_t i = 0; i < 66; i++)
        places[i] = UNSET;
    if (vf_flex_places(memory, ROOM, &slot, places, 66) != VF_OK ||
        vf_flex_places(memory, ROOM, &slot, ones, 1) != VF_OK)
        return false;
    for (size_t i = 0; i < 66; i++)
        if (places[i] != (i == 0 ? first : i == 2 ? third : i == 63 ? last : 0))
            return false;
    return ones[0] == first && ones[1] == UNSET;
}

static void all_places_are_told(void)
{
    start(ROOM);
    EXPECT(stand_at(0, 0, 0));
    TELLS(FIRST, vf_flex_alloc(memory, ROOM, &slot, 63, 5, &number));
    TELLS(FIRST + 16, vf_flex_alloc(memory, ROOM, &slot, 0, 3, &number));
    TELLS(FIRST + 28, vf_flex_alloc(memory, ROOM, &slot, 2, 0, &number));
    EXPECT(stand_at(FIRST + 16, FIRST + 28, FIRST));
    EXPECT(vf_flex_free(memory, ROOM, &slot, 63) == VF_OK && stand_at(FIRST, FIRST + 12, 0));
    number = UNSET;
    EXPECT(vf_flex_places(memory, ROOM, &slot, &number, 0) == VF_OK && number == UNSET);
}

static void blocks_change_in_length(void)
{
    start(ROOM);
    TELLS(FIRST, vf_flex_alloc(memory, ROOM, &slot, 0, 5, &number));
    TELLS(FIRST + 16, vf_flex_alloc(memory, ROOM, &slot, 1, 3, &number));
    memcpy(memory + FIRST, "hello", 5);
    memcpy(memory + FIRST + 16, "abc", 3);
    EXPECT(vf_flex_extend(memory, ROOM, &slot, 0, 9) == VF_OK);
    EXPECT(memcmp(memory + FIRST, "hello\0\0\0", 9) == 0);
    TELLS(FIRST + 20, vf_flex_place(memory, ROOM, &slot, 1, &number));
    EXPECT(memcmp(memory + FIRST + 20, "abc", 3) == 0);
    EXPECT(vf_flex_extend(memory, ROOM, &slot, 0, 2) == VF_OK);
    TELLS(FIRST + 12, vf_flex_place(memory, ROOM, &slot, 1, &number));
    EXPECT(vf_flex_extend(memory, ROOM, &slot, 0, 4) == VF_OK && memcmp(memory + FIRST, "he\0", 4) == 0);
    REFUSES(VF_NO_ROOM, vf_flex_extend(memory, ROOM, &slot, 0, ROOM));
    REFUSES(VF_NO_ROOM, vf_flex_extend(memory, ROOM, &slot, 0, ((size_t)1 << 32) + 1));
    REFUSES(VF_NO_ROOM, vf_flex_extend(memory, ROOM, &slot, 0, SIZE_MAX));
    EXPECT(vf_flex_extend(memory, ROOM, &slot, 0, 2 * PAGE) == VF_OK && slot.pages == 4);
    EXPECT(vf_flex_extend(memory, ROOM, &slot, 0, 0) == VF_OK && slot.pages == 2);
    TELLS(FIRST + 8, vf_flex_place(memory, ROOM, &slot, 1, &number));
    EXPECT(memcmp(memory + FIRST + 8, "abc", 3) == 0);
}

static void blocks_open_and_close(void)
{
    start(ROOM);
    TELLS(FIRST, vf_flex_alloc(memory, ROOM, &slot, 0, 6, &number));
    TELLS(FIRST + 16, vf_flex_alloc(memory, ROOM, &slot, 1, 1, &number));
    memcpy(memory + FIRST, "abcdef", 6);
    EXPECT(vf_flex_midextend(memory, ROOM, &slot, 0, 2, 3) == VF_OK);
    EXPECT(memcmp(memory + FIRST, "ab\0\0\0cdef", 9) == 0);
    TELLS(FIRST + 20, vf_flex_place(memory, ROOM, &slot, 1, &number));
    EXPECT(vf_flex_midextend(memory, ROOM, &slot, 0, 5, -4) == VF_OK);
    EXPECT(memcmp(memory + FIRST, "acdef", 5) == 0);
    TELLS(5, vf_flex_size(memory, ROOM, &slot, 0, &number));
    EXPECT(vf_flex_midextend(memory, ROOM, &slot, 0, 5, 0) == VF_OK);
    REFUSES(VF_BAD_RANGE, vf_flex_midextend(memory, ROOM, &slot, 0, 6, 1));
    REFUSES(VF_BAD_RANGE, vf_flex_midextend(memory, ROOM, &slot, 0, SIZE_MAX, 1));
    REFUSES(VF_BAD_RANGE, vf_flex_midextend(memory, ROOM, &slot, 0, 4, -5));
    REFUSES(VF_BAD_RANGE, vf_flex_midextend(memory, ROOM, &slot, 0, 4, INT32_MIN));
    REFUSES(VF_BAD_RANGE, vf_flex_midextend(memory, ROOM, &slot, 0, 4, -((ptrdiff_t)1 << 32)));
    REFUSES(VF_BAD_RANGE, vf_flex_midextend(memory, ROOM, &slot, 0, 4, PTRDIFF_MIN));
    REFUSES(VF_NO_ROOM, vf_flex_midextend(memory, ROOM, &slot, 0, 4, ROOM));
    REFUSES(VF_NO_ROOM, vf_flex_midextend(memory, ROOM, &slot, 0, 4, ((ptrdiff_t)1 << 32) + 1));
    REFUSES(VF_NO_ROOM, vf_flex_midextend(memory, ROOM, &slot, 0, 4, PTRDIFF_MAX));
    EXPECT(vf_flex_midextend(memory, ROOM, &slot, 0, 5, -5) == VF_OK);
    TELLS(0, vf_flex_size(memory, ROOM, &slot, 0, &number));
    TELLS(FIRST + 8, vf_flex_place(memory, ROOM, &slot, 1, &number));
}

static void bytes_are_put_and_read(void)
{
    static const uint8_t text[] = "wxyz";
    start(ROOM);
    TELLS(FIRST, vf_flex_alloc(memory, ROOM, &slot, 7, 6, &number));
    EXPECT(vf_flex_put(memory, ROOM, &slot, 7, 2, text, 4) == VF_OK);
    EXPECT(memcmp(memory + FIRST, "\0\0wxyz", 6) == 0);
    EXPECT(vf_flex_put(memory, ROOM, &slot, 7, 6, text, 0) == VF_OK);
    REFUSES(VF_BAD_RANGE, vf_flex_put(memory, ROOM, &slot, 7, 3, text, 4));
    REFUSES(VF_BAD_RANGE, vf_flex_put(memory, ROOM, &slot, 7, 7, text, 0));
    REFUSES(VF_BAD_RANGE, vf_flex_put(memory, ROOM, &slot, 7, SIZE_MAX, text, 4));
    memset(buffer, 0xa5, sizeof buffer);
    EXPECT(vf_flex_read(memory, ROOM, &slot, 7, 3, buffer, 3) == VF_OK);
    EXPECT(memcmp(buffer, "xyz\xa5", 4) == 0);
    EXPECT(vf_flex_read(memory, ROOM, &slot, 7, 6, buffer, 0) == VF_OK);
    REFUSES(VF_BAD_RANGE, vf_flex_read(memory, ROOM, &slot, 7, 3, buffer, 4));
    REFUSES(VF_BAD_RANGE, vf_flex_read(memory, ROOM, &slot, 7, 7, buffer, 0));
    REFUSES(VF_BAD_RANGE, vf_flex_read(memory, ROOM, &slot, 7, SIZE_MAX, buffer, 4));
}

static void the_c_heap_grows_below_blocks(void)
{
    bool was = false;
    start(ROOM);
    TELLS(FIRST, vf_flex_alloc(memory, ROOM, &slot, 0, 5, &number));
    memcpy(memory + FIRST, "hello", 5);
    EXPECT(vf_flex_set_budge(&slot, false, &was) == VF_OK && was && !slot.budge && slot.pages == 2);
    REFUSES(VF_NO_BUDGE, vf_flex_claim(memory, ROOM, &slot, 5000, &number));
    REFUSES(VF_NO_BUDGE, vf_flex_claim(memory, ROOM, &slot, SIZE_MAX, &number));
    TELLS(HEAP_FIRST, vf_flex_claim(memory, ROOM, &slot, 12, &number));
    REFUSES(VF_NO_BUDGE, vf_flex_resize(memory, ROOM, &slot, HEAP_FIRST, 5000, &number));
    EXPECT(vf_flex_set_budge(&slot, true, &was) == VF_OK && !was && slot.budge);
    /* 5,008 bytes above 32: the end goes from 3,840 to 7,936, and the block up by a page. */
    TELLS(HEAP_FIRST + 16, vf_flex_claim(memory, ROOM, &slot, 5000, &number));
    EXPECT(is_filled(memory + HEAP_FIRST + 16, 5004, 0) && slot.pages == 3);
    TELLS(FIRST + PAGE, vf_flex_place(memory, ROOM, &slot, 0, &number));
    EXPECT(memcmp(memory + FIRST + PAGE, "hello", 5) == 0 && is_word(0, 0xa008));
    TELLS(HEAP_FIRST + 16, vf_flex_resize(memory, ROOM, &slot, HEAP_FIRST + 16, PAGE, &number));
    TELLS(FIRST + 2 * PAGE, vf_flex_place(memory, ROOM, &slot, 0, &number));
    REFUSES(VF_NO_ROOM, vf_flex_claim(memory, ROOM, &slot, ROOM, &number));
    REFUSES(VF_NO_ROOM, vf_flex_claim(memory, ROOM, &slot, ((size_t)1 << 32) + 1, &number));
    REFUSES(VF_NO_ROOM, vf_flex_resize(memory, ROOM, &slot, HEAP_FIRST, ROOM, &number));
    REFUSES(VF_NO_ROOM, vf_flex_resize(memory, ROOM, &slot, HEAP_FIRST, ((ptrdiff_t)1 << 32) + 1, &number));
    REFUSES(VF_NO_ROOM, vf_flex_resize(memory, ROOM, &slot, HEAP_FIRST, PTRDIFF_MAX, &number));
}

static void the_c_heap_is_one_of_os_heap(void)
{
    static const size_t none[] = {0, 4, 256, HEAP_FIRST - 4, HEAP_FIRST + 1, FIRST, ROOM - 1, ROOM, (size_t)1 << 32,
                                  SIZE_MAX - 0x7fff, SIZE_MAX};
    start(ROOM);
    TELLS(3820, vf_flex_describe(memory, ROOM, &slot, &number, &other));
    EXPECT(other == 3824);
    TELLS(HEAP_FIRST, vf_flex_claim(memory, ROOM, &slot, 10, &number));
    TELLS(HEAP_FIRST + 16, vf_flex_claim(memory, ROOM, &slot, 1, &number));
    REFUSES(VF_BAD_SIZE, vf_flex_claim(memory, ROOM, &slot, 0, &number));
    TELLS(12, vf_flex_block_size(memory, ROOM, &slot, HEAP_FIRST, &number));
    memcpy(memory + HEAP_FIRST, "first block", 12);
    TELLS(HEAP_FIRST + 24, vf_flex_resize(memory, ROOM, &slot, HEAP_FIRST, 1, &number));
    EXPECT(memcmp(memory + HEAP_FIRST + 24, "first block", 12) == 0);
    REFUSES(VF_BAD_SIZE, vf_flex_resize(memory, ROOM, &slot, HEAP_FIRST + 16, -4, &number));
    REFUSES(VF_BAD_SIZE, vf_flex_resize(memory, ROOM, &slot, HEAP_FIRST + 16, PTRDIFF_MIN, &number));
    /* A hole of 16 bytes at 16, blocks up to 64, and 3,776 bytes above them. */
    TELLS(3772, vf_flex_describe(memory, ROOM, &slot, &number, &other));
    EXPECT(other == 3792);
    for (size_t i = 0; i < sizeof none / sizeof *none; i++) {
        REFUSES(VF_NOT_A_BLOCK, vf_flex_release(memory, ROOM, &slot, none[i]));
        REFUSES(VF_NOT_A_BLOCK, vf_flex_resize(memory, ROOM, &slot, none[i], 1, &number));
        REFUSES(VF_NOT_A_BLOCK, vf_flex_block_size(memory, ROOM, &slot, none[i], &number));
    }
    EXPECT(vf_flex_release(memory, ROOM, &slot, HEAP_FIRST + 16) == VF_OK);
    EXPECT(vf_flex_release(memory, ROOM, &slot, HEAP_FIRST + 24) == VF_OK);
    TELLS(3820, vf_flex_describe(memory, ROOM, &slot, &number, &other));
}

/* A slot is its bytes and the struct: a copy goes on elsewhere, also in more memory. */
static void a_copy_is_the_same_slot(void)
{
    static uint8_t copy[ROOM + 1];
    start(2 * PAGE);
    TELLS(FIRST, vf_flex_alloc(memory, 2 * PAGE, &slot, 3, 5, &number));
    memcpy(memory + FIRST, "hello", 5);
    REFUSES(VF_NO_ROOM, vf_flex_extend(memory, 2 * PAGE, &slot, 3, PAGE));
    memcpy(copy + 1, memory, 2 * PAGE);
    struct vf_slot there = slot;
    EXPECT(vf_flex_extend(copy + 1, ROOM, &there, 3, PAGE) == VF_OK && there.pages == 3);
    TELLS(FIRST, vf_flex_place(copy + 1, ROOM, &there, 3, &number));
    EXPECT(memcmp(copy + 1 + FIRST, "hello", 5) == 0 && is_filled(copy + 1 + FIRST + 5, PAGE - 5, 0));
}

/* A slot that no call may write: anchor 0 has a block of five bytes in the second page. */
static void questions_take_constant_bytes(const struct flex_calls *flex)
{
    static const uint8_t constant[2 * PAGE] = {
        [0] = 0x08, 0x90,
        [256] = 'H', 'e', 'a', 'p', 0, 0, 0, 0, 16, 0, 0, 0, 0, 15, 0, 0,
        [PAGE] = 0x00, 0x80, 0, 0, 5, 0, 0, 0, 'h', 'e', 'l', 'l', 'o',
    };
    static const struct vf_slot constant_slot = {2, true, 0};
    uint8_t read[5] = {0};
    EXPECT(vf_flex_check(constant, sizeof constant, &constant_slot) == VF_OK);
    TELLS(5, flex->size(constant, sizeof constant, &constant_slot, 0, &number));
    TELLS(FIRST, flex->place(constant, sizeof constant, &constant_slot, 0, &number));
    TELLS(FIRST, flex->places(constant, sizeof constant, &constant_slot, &number, 1));
    EXPECT(flex->read(constant, sizeof constant, &constant_slot, 0, 0, read, 5) == VF_OK);
    EXPECT(memcmp(read, "hello", 5) == 0);
    TELLS(3820, flex->describe(constant, sizeof constant, &constant_slot, &number, &other));
    EXPECT(other == 3824);
    number = UNSET;
    EXPECT(flex->block_size(constant, sizeof constant, &constant_slot, HEAP_FIRST, &number) == VF_NOT_A_BLOCK);
    EXPECT(flex->size(constant, sizeof constant, &constant_slot, 1, &number) == VF_NO_BLOCK && number == UNSET);
}

/* The count goes up where a block that stays was moved, and a place that was told is another then. */
static void slides_are_counted(void)
{
    start(ROOM);
    slot.slides = 7;
    EXPECT(vf_flex_start(memory, ROOM, &slot) == VF_OK && slot.slides == 0);
    EXPECT(vf_flex_claim(memory, ROOM, &slot, 5000, &number) == VF_OK && slot.slides == 0);
    vf_flex_alloc(memory, ROOM, &slot, 1, 10, &number);
    EXPECT(vf_flex_alloc(memory, ROOM, &slot, 2, 10, &number) == VF_OK && slot.slides == 0);
    EXPECT(vf_flex_extend(memory, ROOM, &slot, 2, 400) == VF_OK && slot.slides == 0);   /* nothing stands above */
    EXPECT(vf_flex_extend(memory, ROOM, &slot, 1, 12) == VF_OK && slot.slides == 0);    /* as many whole words */
    EXPECT(vf_flex_extend(memory, ROOM, &slot, 1, 13) == VF_OK && slot.slides == 1);
    EXPECT(vf_flex_extend(memory, ROOM, &slot, 1, 1) == VF_OK && slot.slides == 2);
    EXPECT(vf_flex_midextend(memory, ROOM, &slot, 1, 1, 3) == VF_OK && slot.slides == 2);
    EXPECT(vf_flex_midextend(memory, ROOM, &slot, 1, 0, 1) == VF_OK && slot.slides == 3);
    EXPECT(vf_flex_midextend(memory, ROOM, &slot, 2, 400, -400) == VF_OK && slot.slides == 3);
    REFUSES(VF_NO_ROOM, vf_flex_extend(memory, ROOM, &slot, 1, ROOM));
    EXPECT(vf_flex_claim(memory, ROOM, &slot, 10, &number) == VF_OK && slot.slides == 3);
    EXPECT(vf_flex_resize(memory, ROOM, &slot, number, PAGE, &number) == VF_OK && slot.slides == 4);
    EXPECT(vf_flex_release(memory, ROOM, &slot, number) == VF_OK && slot.slides == 4);
    EXPECT(vf_flex_claim(memory, ROOM, &slot, 3 * PAGE, &number) == VF_OK && slot.slides == 5);
    EXPECT(vf_flex_put(memory, ROOM, &slot, 1, 0, buffer, 5) == VF_OK && slot.slides == 5);
    slot.slides = UINT32_MAX;
    EXPECT(vf_flex_free(memory, ROOM, &slot, 1) == VF_OK && slot.slides == 0);
    EXPECT(vf_flex_free(memory, ROOM, &slot, 2) == VF_OK && slot.slides == 0);
    EXPECT(sizeof slot == 16 && offsetof(struct vf_slot, budge) == 8 && offsetof(struct vf_slot, slides) == 12);
}

int main(void)
{
    slides_are_counted();
    lengths_have_slots_or_not();
    slots_and_anchors_are_looked_at();
    blocks_come_and_go();
    all_places_are_told();
    blocks_change_in_length();
    blocks_open_and_close();
    bytes_are_put_and_read();
    the_c_heap_grows_below_blocks();
    the_c_heap_is_one_of_os_heap();
    a_copy_is_the_same_slot();
    questions_take_constant_bytes(&TRUSTING_FLEX);
    questions_take_constant_bytes(&CHECKED_FLEX);
    return ended("flex_calls");
}
