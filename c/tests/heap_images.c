/*
 * heap_images.c: bytes from anywhere. Worked images and what is wrong with each, every byte of one heap at every value,
 * and random words; each answer is compared with that of the plain heap. A checked call stays inside its bytes.
 */
#include "expect.h"
#include "os_heap.h"

enum { LEN = 56, MARGIN = 64 };

static const uint8_t HEAP[LEN] = {
    'H', 'e', 'a', 'p', 28, 0, 0, 0, 48, 0, 0, 0, 56, 0, 0, 0, 16, 0, 0, 0, 0, 0, 0, 0, 0, 0, 0, 0,
    0, 0, 0, 0, 0, 0, 0, 0, 8, 0, 0, 0, 8, 0, 0, 0, 0, 0, 0, 0, 0, 0, 0, 0, 0, 0, 0, 0,
};

/* A heap with bytes round it that no call may touch. */
static uint8_t room[MARGIN + LEN + MARGIN], *const image = room + MARGIN;

static void set_image(void)
{
    memset(room, 0xa5, sizeof room);
    memcpy(image, HEAP, LEN);
}

static void set_word(size_t at, uint32_t w)
{
    memcpy(image + at, &w, sizeof w);
}

static bool margins_stay(void)
{
    for (size_t i = 0; i < MARGIN; i++)
        if (room[i] != 0xa5 || room[MARGIN + LEN + i] != 0xa5)
            return false;
    return true;
}

/* What each checked call answers on bytes that are no heap: why they are none, with nothing changed. */
static void all_calls_refuse(uint32_t status)
{
    static uint8_t before[sizeof room];
    size_t number = UNSET, other = UNSET;
    memcpy(before, room, sizeof room);
    EXPECT(vf_heap_check(image, LEN) == status);
    EXPECT(CHECKED.describe(image, LEN, &number, &other) == status);
    EXPECT(CHECKED.claim(image, LEN, 1, &number) == status);
    EXPECT(CHECKED.release(image, LEN, 20) == status);
    EXPECT(CHECKED.resize(image, LEN, 20, 1, &number) == status);
    EXPECT(CHECKED.extend(image, LEN, -8) == status);
    EXPECT(CHECKED.block_size(image, LEN, 20, &number) == status);
    EXPECT(number == UNSET && other == UNSET);
    EXPECT(memcmp(before, room, sizeof room) == 0);
}

static void worked_images_have_their_faults(void)
{
    static const struct { size_t at; uint32_t word, status; } wrong[] = {
        {0, 0x70616568, VF_BAD_DESCRIPTOR}, /* "heap" */
        {12, 64, VF_SHORT},                 /* a heap of 64 bytes */
        {12, 52, VF_BAD_DESCRIPTOR},        /* no multiple of 8 */
        {12, 8, VF_BAD_DESCRIPTOR},         /* shorter than a descriptor */
        {12, 40, VF_BAD_DESCRIPTOR},        /* shorter than its base */
        {8, 44, VF_BAD_DESCRIPTOR},         /* a base that is no multiple of 8 */
        {8, 8, VF_BAD_DESCRIPTOR},          /* a base inside the descriptor */
        {4, 60, VF_BAD_LINK},               /* a link past the base */
        {32, 0xfffffff0, VF_BAD_LINK},      /* a link backwards */
        {4, 20, VF_BAD_SEGMENT},            /* a link into a used block */
        {16, 12, VF_BAD_SEGMENT},           /* a size that is no multiple of 8 */
        {16, 0, VF_BAD_SEGMENT},            /* a size of nothing */
        {16, 24, VF_BAD_SEGMENT},           /* a block over the hole behind it */
        {36, 16, VF_BAD_SEGMENT},           /* a hole up to the base */
        {40, 16, VF_BAD_SEGMENT},           /* a block over the base */
    };
    set_image();
    EXPECT(vf_heap_check(image, LEN) == VF_OK);
    for (size_t i = 0; i < sizeof wrong / sizeof *wrong; i++) {
        set_image();
        set_word(wrong[i].at, wrong[i].word);
        all_calls_refuse(wrong[i].status);
    }
}

static void lengths_are_looked_at(void)
{
    static const struct { size_t len; uint32_t status; } lengths[] = {
        {0, VF_BAD_LENGTH}, {15, VF_BAD_LENGTH}, {16, VF_SHORT}, {55, VF_SHORT}, {56, VF_OK}, {57, VF_OK},
        {((size_t)1 << 30) + 1, VF_BAD_LENGTH}, {SIZE_MAX, VF_BAD_LENGTH},
    };
    set_image();
    for (size_t i = 0; i < sizeof lengths / sizeof *lengths; i++) {
        size_t len = lengths[i].len, number = UNSET;
        EXPECT(vf_heap_check(image, len) == lengths[i].status);
        if (lengths[i].status != VF_OK)
            EXPECT(CHECKED.claim(image, len, 1, &number) == lengths[i].status && number == UNSET);
    }
}

/* All calls on an image, one after the other, each with the plain heap's answer where it is a heap. */
static void try_all(uint32_t status)
{
    static uint8_t plain[LEN];
    size_t number = UNSET, wanted = UNSET, other, total;
    if (status != VF_OK) {
        all_calls_refuse(status);
        return;
    }
    memcpy(plain, image, LEN);
    EXPECT(CHECKED.describe(image, LEN, &number, &other) == os_heap_describe(plain, LEN, &wanted, &total));
    EXPECT(number == wanted && other == total);
    EXPECT(CHECKED.claim(image, LEN, 4, &number) == os_heap_claim(plain, LEN, 4, &wanted) && number == wanted);
    EXPECT(CHECKED.block_size(image, LEN, 20, &number) == os_heap_block_size(plain, LEN, 20, &wanted));
    EXPECT(number == wanted);
    EXPECT(CHECKED.resize(image, LEN, 44, 4, &number) == os_heap_resize(plain, LEN, 44, 4, &wanted));
    EXPECT(number == wanted);
    EXPECT(CHECKED.release(image, LEN, 20) == os_heap_release(plain, LEN, 20));
    EXPECT(CHECKED.extend(image, LEN, -8) == os_heap_extend(plain, LEN, -8));
    EXPECT(vf_heap_check(image, LEN) == VF_OK && os_heap_is_same(image, plain));
}

static unsigned each_byte_has_each_value(void)
{
    unsigned heaps = 0;
    for (size_t at = 0; at < LEN; at++)
        for (int value = 0; value < 256; value++) {
            set_image();
            image[at] = (uint8_t)value;
            uint32_t status = os_heap_check(image, LEN);
            heaps += status == VF_OK;
            try_all(status);
            EXPECT(margins_stay());
        }
    return heaps;
}

static void random_words_are_put_in(void)
{
    for (int round = 0; round < 20000; round++) {
        set_image();
        for (uint32_t puts = 1 + below(3); puts; puts--)
            set_word(4 * below(LEN / 4), below(4) ? 4 * below(20) : below(UINT32_MAX));
        try_all(os_heap_check(image, LEN));
        EXPECT(margins_stay());
    }
}

#ifdef VF_CHECKED
static void plain_names_check(void)
{
    size_t number = UNSET, other = UNSET;
    set_image();
    set_word(0, 0);
    EXPECT(vf_heap_describe(image, LEN, &number, &other) == VF_BAD_DESCRIPTOR);
    EXPECT(vf_heap_claim(image, LEN, 1, &number) == VF_BAD_DESCRIPTOR);
    EXPECT(vf_heap_release(image, LEN, 20) == VF_BAD_DESCRIPTOR);
    EXPECT(vf_heap_resize(image, LEN, 20, 1, &number) == VF_BAD_DESCRIPTOR);
    EXPECT(vf_heap_extend(image, LEN, 8) == VF_BAD_DESCRIPTOR);
    EXPECT(vf_heap_block_size(image, LEN, 20, &number) == VF_BAD_DESCRIPTOR);
}
#endif

int main(void)
{
    worked_images_have_their_faults();
    lengths_are_looked_at();
    /* A byte of a block or of the top may have any value: 12, 4 and 8 of them. Of the other 32 each has but the value
     * that it has, and one may have another: the heap may end at its base, 8 bytes sooner. */
    EXPECT(each_byte_has_each_value() == 24 * 256 + 32 + 1);
    random_words_are_put_in();
#ifdef VF_CHECKED
    plain_names_check();
#endif
    return ended("heap_images");
}
