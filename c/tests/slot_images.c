/*
 * slot_images.c: bytes from anywhere as slots. Worked images and what is wrong with each, every byte of one slot at
 * every value, and random words; each answer is compared with that of the plain check, and on a slot with those of the
 * calls that check nothing. A checked call stays inside its bytes.
 */
#include "expect.h"
#include "slot_check.h"

enum { PAGE = 4096, LEN = 2 * PAGE, MARGIN = 64, TOP = 344, LONGEST = 28 << 20 };

/* The words of a slot of one page that aren't 0: those of the anchors 0, 3 and 63; a C heap of 48 bytes with a hole
 * between two blocks; flex blocks of 5, 0 and 8 bytes at 304, 320 and 328 for the anchors 3, 0 and 63. */
static const struct { size_t at; uint32_t word; } WORDS[] = {
    {0, 0x8148}, {12, 0x8138}, {252, 0x8150}, {256, 0x70616548}, {260, 20}, {264, 40},
    {268, 48},   {272, 8},     {284, 8},      {288, 8},          {304, 0x800c}, {308, 5},
    {312, 0x64636261}, {316, 0x65}, {320, 0x8000}, {328, 0x80fc}, {332, 8},
};

/* Two pages with bytes round them that no call may touch. */
static uint8_t room[MARGIN + LEN + MARGIN], *const image = room + MARGIN;
static struct vf_slot slot;

static void set_word(size_t at, uint32_t w)
{
    memcpy(image + at, &w, sizeof w);
}

static void set_image(void)
{
    memset(room, 0xa5, sizeof room);
    memset(image, 0, PAGE);
    for (size_t i = 0; i < sizeof WORDS / sizeof *WORDS; i++)
        set_word(WORDS[i].at, WORDS[i].word);
    slot = (struct vf_slot){1, true, 0};
}

/* What each checked call answers on bytes that are no slot: why they are none, with nothing changed. */
static void all_calls_refuse(size_t len, uint32_t status)
{
    static uint8_t before[sizeof room], buffer[4] = {1, 2, 3, 4};
    const struct vf_slot was = slot;
    size_t number = UNSET, other = UNSET;
    memcpy(before, room, sizeof room);
    EXPECT(vf_flex_check(image, len, &slot) == status);
    EXPECT(CHECKED_FLEX.alloc(image, len, &slot, 5, 1, &number) == status);
    EXPECT(CHECKED_FLEX.free(image, len, &slot, 3) == status);
    EXPECT(CHECKED_FLEX.size(image, len, &slot, 3, &number) == status);
    EXPECT(CHECKED_FLEX.extend(image, len, &slot, 3, 9) == status);
    EXPECT(CHECKED_FLEX.midextend(image, len, &slot, 3, 2, -1) == status);
    EXPECT(CHECKED_FLEX.place(image, len, &slot, 3, &number) == status);
    EXPECT(CHECKED_FLEX.put(image, len, &slot, 3, 0, buffer, 4) == status);
    EXPECT(CHECKED_FLEX.read(image, len, &slot, 3, 0, buffer, 4) == status);
    EXPECT(CHECKED_FLEX.describe(image, len, &slot, &number, &other) == status);
    EXPECT(CHECKED_FLEX.claim(image, len, &slot, 4, &number) == status);
    EXPECT(CHECKED_FLEX.release(image, len, &slot, 276) == status);
    EXPECT(CHECKED_FLEX.resize(image, len, &slot, 276, 4, &number) == status);
    EXPECT(CHECKED_FLEX.block_size(image, len, &slot, 276, &number) == status);
    EXPECT(number == UNSET && other == UNSET && slot.pages == was.pages && slot.budge == was.budge);
    EXPECT(memcmp(before, room, sizeof room) == 0 && buffer[0] == 1 && buffer[3] == 4);
}

static void worked_images_have_their_faults(void)
{
    static const struct { size_t at; uint32_t word, status; } wrong[] = {
        {268, 3848, VF_BAD_DESCRIPTOR},       /* a C heap past the end of the page */
        {268, 8, VF_BAD_DESCRIPTOR},          /* one shorter than a descriptor */
        {256, 0x70616568, VF_BAD_DESCRIPTOR}, /* "heap" */
        {260, 36, VF_BAD_LINK},               /* a link past the base */
        {272, 12, VF_BAD_SEGMENT},            /* a size that is no multiple of 8 */
        {332, 3761, VF_BAD_FLEX_BLOCK},       /* a byte more than the page has */
        {332, UINT32_MAX, VF_BAD_FLEX_BLOCK}, /* as many as a word holds */
        {20, 0x8138, VF_BAD_ANCHOR_WORD},     /* a second anchor that leads to a block */
        {20, 0x8160, VF_BAD_ANCHOR_WORD},     /* one that leads past the blocks */
        {20, 1, VF_BAD_ANCHOR_WORD},          /* one that leads nowhere */
        {328, 0x80f8, VF_BAD_ANCHOR_WORD},    /* a header that names an anchor without a word */
        {328, 0x8100, VF_BAD_ANCHOR_WORD},    /* one that names an anchor past the last */
        {12, 0, VF_BAD_ANCHOR_WORD},          /* an anchor word forgotten */
    };
    set_image();
    EXPECT(vf_flex_check(image, LEN, &slot) == VF_OK);
    for (size_t i = 0; i < sizeof wrong / sizeof *wrong; i++) {
        set_image();
        set_word(wrong[i].at, wrong[i].word);
        all_calls_refuse(LEN, wrong[i].status);
    }
}

static void lengths_and_pages_are_looked_at(void)
{
    static const struct { size_t len, pages; uint32_t status; } wrong[] = {
        {0, 1, VF_BAD_LENGTH},   {PAGE - 1, 1, VF_BAD_LENGTH}, {LONGEST + 1, 1, VF_BAD_LENGTH},
        {SIZE_MAX, 1, VF_BAD_LENGTH}, {LEN, 0, VF_NO_SLOT}, {LEN - 1, 2, VF_SHORT},
        {LEN, 3, VF_SHORT},      {LEN, SIZE_MAX, VF_SHORT},    {LEN, SIZE_MAX / PAGE + 2, VF_SHORT},
        {LEN, 2, VF_SPARE_PAGE},
    };
    set_image();
    EXPECT(vf_flex_check(image, PAGE, &slot) == VF_OK && vf_flex_check(image, LEN - 1, &slot) == VF_OK);
    for (size_t i = 0; i < sizeof wrong / sizeof *wrong; i++) {
        set_image();
        slot.pages = wrong[i].pages;
        all_calls_refuse(wrong[i].len, wrong[i].status);
    }
}

/* A call that checks, and the one of the same name that doesn't on a copy, answer and tell the same. */
#define ALIKE(call, ...)                                                                                \
    do {                                                                                                \
        size_t number = UNSET, wanted = UNSET, *told = &number;                                         \
        uint8_t *at = image;                                                                            \
        struct vf_slot *it = &slot;                                                                     \
        uint32_t status = CHECKED_FLEX.call(at, LEN, it, __VA_ARGS__);                                  \
        at = copy + MARGIN, it = &twin, told = &wanted;                                                 \
        EXPECT(TRUSTING_FLEX.call(at, LEN, it, __VA_ARGS__) == status && number == wanted);             \
        (void)told;                                                                                     \
    } while (0)

/* All calls on an image, one after the other, where it is a slot. */
static void try_all(uint32_t status)
{
    static uint8_t copy[sizeof room], buffer[4], text[] = "wxyz";
    size_t free;
    if (status != VF_OK) {
        all_calls_refuse(LEN, status);
        return;
    }
    struct vf_slot twin = slot;
    memcpy(copy, room, sizeof room);
    EXPECT(vf_flex_check(image, LEN, &slot) == VF_OK);
    ALIKE(describe, told, &free);
    ALIKE(size, 63, told);
    ALIKE(place, 3, told);
    ALIKE(put, 3, 1, text, 4);
    ALIKE(read, 3, 1, buffer, 4);
    ALIKE(block_size, 276, told);
    ALIKE(claim, 4, told);
    ALIKE(resize, 276, 8, told);
    ALIKE(release, 276);
    ALIKE(alloc, 5, 100, told);
    ALIKE(extend, 3, 9);
    ALIKE(midextend, 3, 2, -1);
    ALIKE(free, 0);
    EXPECT(vf_flex_check(image, LEN, &slot) == VF_OK && slot.pages == twin.pages && slot.budge == twin.budge);
    EXPECT(memcmp(copy, room, sizeof room) == 0);
}

static bool margins_stay(void)
{
    for (size_t i = 0; i < MARGIN; i++)
        if (room[i] != 0xa5 || room[MARGIN + LEN + i] != 0xa5)
            return false;
    return true;
}

static unsigned each_byte_has_each_value(void)
{
    unsigned slots = 0;
    for (size_t at = 0; at < TOP; at++)
        for (int value = 0; value < 256; value++) {
            set_image();
            image[at] = (uint8_t)value;
            uint32_t status = slot_check(image, LEN, &slot);
            slots += status == VF_OK;
            try_all(status);
            EXPECT(margins_stay());
        }
    return slots;
}

static void random_words_are_put_in(void)
{
    for (int round = 0; round < 20000; round++) {
        set_image();
        slot.pages = below(8) ? 1 : below(4);
        for (uint32_t puts = 1 + below(3); puts; puts--) {
            uint32_t words[] = {0, 0x8000 + 4 * below(96), below(16), below(UINT32_MAX)};
            set_word(4 * below(96), words[below(4)]);
        }
        try_all(slot_check(image, LEN, &slot));
        EXPECT(margins_stay());
    }
}

#ifdef VF_CHECKED
static void plain_names_check(void)
{
    size_t number = UNSET, other = UNSET;
    uint8_t byte = 0;
    set_image();
    set_word(12, 0);
    EXPECT(vf_flex_alloc(image, LEN, &slot, 5, 1, &number) == VF_BAD_ANCHOR_WORD);
    EXPECT(vf_flex_free(image, LEN, &slot, 3) == VF_BAD_ANCHOR_WORD);
    EXPECT(vf_flex_size(image, LEN, &slot, 3, &number) == VF_BAD_ANCHOR_WORD);
    EXPECT(vf_flex_extend(image, LEN, &slot, 3, 9) == VF_BAD_ANCHOR_WORD);
    EXPECT(vf_flex_midextend(image, LEN, &slot, 3, 2, -1) == VF_BAD_ANCHOR_WORD);
    EXPECT(vf_flex_place(image, LEN, &slot, 3, &number) == VF_BAD_ANCHOR_WORD);
    EXPECT(vf_flex_put(image, LEN, &slot, 3, 0, &byte, 1) == VF_BAD_ANCHOR_WORD);
    EXPECT(vf_flex_read(image, LEN, &slot, 3, 0, &byte, 1) == VF_BAD_ANCHOR_WORD);
    EXPECT(vf_flex_describe(image, LEN, &slot, &number, &other) == VF_BAD_ANCHOR_WORD);
    EXPECT(vf_flex_claim(image, LEN, &slot, 4, &number) == VF_BAD_ANCHOR_WORD);
    EXPECT(vf_flex_release(image, LEN, &slot, 276) == VF_BAD_ANCHOR_WORD);
    EXPECT(vf_flex_resize(image, LEN, &slot, 276, 4, &number) == VF_BAD_ANCHOR_WORD);
    EXPECT(vf_flex_block_size(image, LEN, &slot, 276, &number) == VF_BAD_ANCHOR_WORD);
}
#endif

int main(void)
{
    worked_images_have_their_faults();
    lengths_and_pages_are_looked_at();
    /* 33 bytes may have any value: those of the blocks, with what rounds the first flex block up, of the C heap's top,
     * and the lowest of the last flex block's size. The size of the first one may be 5 to 8, and the second byte of the
     * last one's 0 to 14. All 309 others have one value. */
    EXPECT(each_byte_has_each_value() == 33 * 256 + 4 + 15 + 309);
    random_words_are_put_in();
#ifdef VF_CHECKED
    plain_names_check();
#endif
    return ended("slot_images");
}
