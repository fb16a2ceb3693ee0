/*
 * heap_indexed.c: each call on a heap with a map beside it, and each status that it can answer. A refused call leaves
 * each byte of the heap, each word of the map and each number as they were. A map has a bit for each 8 bytes, in its
 * even words where a block's segment begins and in its odd ones where a hole does.
 */
#include "expect.h"

enum { ROOM = 4096, WORDS = 2 * ROOM / 512, SPARE = 3, MAP = WORDS + SPARE };

static uint8_t memory[ROOM], before[ROOM];
static uint64_t map[MAP], map_before[MAP];
static size_t number, other;

#define REFUSES(status, call)                                       \
    do {                                                            \
        memcpy(before, memory, ROOM);                               \
        memcpy(map_before, map, sizeof map);                        \
        number = other = UNSET;                                     \
        EXPECT((call) == (status));                                 \
        EXPECT(memcmp(before, memory, ROOM) == 0);                  \
        EXPECT(memcmp(map_before, map, sizeof map) == 0);           \
        EXPECT(number == UNSET);                                    \
    } while (0)

/* The map has no marks but these in its first line, and none in those behind. */
static bool has_marks(uint64_t used, uint64_t holes)
{
    for (size_t i = 2; i < MAP; i++)
        if (map[i])
            return false;
    return map[0] == used && map[1] == holes;
}

/* The bit of the segment of the block at an address, or of a hole 4 bytes before it. */
static uint64_t mark(size_t address)
{
    return (uint64_t)1 << (address - 4) / 8;
}

static void start(size_t length)
{
    memset(memory, 0xa5, ROOM);
    memset(map, 0xa5, sizeof map);
    EXPECT(vf_heap_init(memory, length) == VF_OK);
    EXPECT(vf_heap_index(memory, ROOM, map, MAP) == VF_OK);
    EXPECT(has_marks(0, 0));
}

static void maps_have_two_words_for_each_512_bytes(void)
{
    static const size_t lengths[] = {0, 1, 16, 512, 513, 1024, 4095, 4096, (size_t)1 << 30, SIZE_MAX};
    static const size_t words[] = {0, 2, 2, 2, 4, 4, 16, 16, (size_t)1 << 22, (size_t)1 << 56};
    for (size_t i = 0; i < sizeof words / sizeof *words; i++)
        EXPECT(vf_heap_map_words(lengths[i]) == words[i]);
}

static void a_map_is_made_where_it_has_room(void)
{
    static const size_t lengths[] = {16, 504, 512, 520, 1024, 1032, 4096};
    for (size_t i = 0; i < sizeof lengths / sizeof *lengths; i++) {
        size_t words = vf_heap_map_words(lengths[i]);
        start(lengths[i]);
        REFUSES(VF_SHORT, vf_heap_index(memory, ROOM, map, 0));
        REFUSES(VF_SHORT, vf_heap_index(memory, ROOM, map, words - 1));
        map[words] = 5;
        EXPECT(vf_heap_index(memory, ROOM, map, words) == VF_OK);
        EXPECT(map[words] == 5);
    }
    start(ROOM);
    TELLS(20, vf_heap_claim(memory, ROOM, 12, &number));
    TELLS(36, vf_heap_claim(memory, ROOM, 20, &number));
    TELLS(60, vf_heap_claim(memory, ROOM, 4, &number));
    EXPECT(vf_heap_release(memory, ROOM, 36) == VF_OK);
    EXPECT(has_marks(0, 0));
    EXPECT(vf_heap_index(memory, ROOM, map, MAP) == VF_OK);
    EXPECT(has_marks(mark(20) | mark(60), mark(36)));
}

static void blocks_are_claimed_and_released(void)
{
    start(56);
    TELLS(20, vf_heap_indexed_claim(memory, ROOM, map, MAP, 12, &number));
    TELLS(36, vf_heap_indexed_claim(memory, ROOM, map, MAP, 1, &number));
    TELLS(44, vf_heap_indexed_claim(memory, ROOM, map, MAP, 4, &number));
    EXPECT(has_marks(mark(20) | mark(36) | mark(44), 0));
    REFUSES(VF_NO_ROOM, vf_heap_indexed_claim(memory, ROOM, map, MAP, 5, &number));
    REFUSES(VF_NO_ROOM, vf_heap_indexed_claim(memory, ROOM, map, MAP, (size_t)UINT32_MAX + 5, &number));
    REFUSES(VF_NO_ROOM, vf_heap_indexed_claim(memory, ROOM, map, MAP, SIZE_MAX, &number));
    REFUSES(VF_BAD_SIZE, vf_heap_indexed_claim(memory, ROOM, map, MAP, 0, &number));
    EXPECT(vf_heap_indexed_release(memory, ROOM, map, MAP, 36) == VF_OK);
    EXPECT(has_marks(mark(20) | mark(44), mark(36)));
    static const size_t none[] = {0, 4, 16, 19, 21, 36, 40, 48, 52, 56, ROOM, (size_t)1 << 32, SIZE_MAX};
    for (size_t i = 0; i < sizeof none / sizeof *none; i++) {
        REFUSES(VF_NOT_A_BLOCK, vf_heap_indexed_release(memory, ROOM, map, MAP, none[i]));
        REFUSES(VF_NOT_A_BLOCK, vf_heap_indexed_resize(memory, ROOM, map, MAP, none[i], 1, &number));
        REFUSES(VF_NOT_A_BLOCK, vf_heap_indexed_resize_need(memory, ROOM, map, MAP, none[i], 1, &number));
        REFUSES(VF_NOT_A_BLOCK, vf_heap_indexed_block_size(memory, ROOM, map, MAP, none[i], &number));
    }
    TELLS(12, vf_heap_indexed_block_size(memory, ROOM, map, MAP, 20, &number));
    TELLS(4, vf_heap_indexed_block_size(memory, ROOM, map, MAP, 44, &number));
    TELLS(36, vf_heap_indexed_claim(memory, ROOM, map, MAP, 2, &number));
    EXPECT(has_marks(mark(20) | mark(36) | mark(44), 0));
    EXPECT(vf_heap_indexed_release(memory, ROOM, map, MAP, 44) == VF_OK);
    EXPECT(has_marks(mark(20) | mark(36), 0));
    EXPECT(vf_heap_indexed_release(memory, ROOM, map, MAP, 20) == VF_OK);
    EXPECT(has_marks(mark(36), mark(20)));
    EXPECT(vf_heap_indexed_release(memory, ROOM, map, MAP, 36) == VF_OK);
    EXPECT(has_marks(0, 0));
    TELLS(20, vf_heap_indexed_claim(memory, ROOM, map, MAP, 36, &number));
}

/* A block grows at the top, shrinks, grows into the hole behind it, moves to the top, and moves to a hole. */
static void blocks_are_resized(void)
{
    start(240);
    TELLS(20, vf_heap_indexed_claim(memory, ROOM, map, MAP, 4, &number));
    TELLS(28, vf_heap_indexed_claim(memory, ROOM, map, MAP, 4, &number));
    TELLS(28, vf_heap_indexed_resize(memory, ROOM, map, MAP, 28, 16, &number));
    TELLS(52, vf_heap_indexed_claim(memory, ROOM, map, MAP, 4, &number));
    EXPECT(has_marks(mark(20) | mark(28) | mark(52), 0));
    TELLS(28, vf_heap_indexed_resize(memory, ROOM, map, MAP, 28, -16, &number));
    EXPECT(has_marks(mark(20) | mark(28) | mark(52), mark(36)));
    TELLS(28, vf_heap_indexed_resize(memory, ROOM, map, MAP, 28, 8, &number));
    EXPECT(has_marks(mark(20) | mark(28) | mark(52), mark(44)));
    memcpy(memory + 20, "abcd", 4);
    TELLS(60, vf_heap_indexed_resize(memory, ROOM, map, MAP, 20, 8, &number));
    EXPECT(memcmp(memory + 60, "abcd\0\0\0", 8) == 0);
    EXPECT(has_marks(mark(28) | mark(52) | mark(60), mark(20) | mark(44)));
    EXPECT(vf_heap_indexed_release(memory, ROOM, map, MAP, 28) == VF_OK);
    EXPECT(has_marks(mark(52) | mark(60), mark(20)));
    TELLS(20, vf_heap_indexed_resize(memory, ROOM, map, MAP, 52, 16, &number));
    EXPECT(has_marks(mark(20) | mark(60), mark(44)));
    TELLS(60, vf_heap_indexed_resize(memory, ROOM, map, MAP, 60, 0, &number));
    EXPECT(vf_heap_check(memory, ROOM) == VF_OK);
}

/* A heap of 56 bytes with a block of 12 bytes below one of 4, and 16 bytes above all segments. */
static void resizes_are_refused_and_reckoned(void)
{
    start(56);
    TELLS(20, vf_heap_indexed_claim(memory, ROOM, map, MAP, 12, &number));
    TELLS(36, vf_heap_indexed_claim(memory, ROOM, map, MAP, 4, &number));
    REFUSES(VF_BAD_SIZE, vf_heap_indexed_resize(memory, ROOM, map, MAP, 20, -12, &number));
    REFUSES(VF_BAD_SIZE, vf_heap_indexed_resize(memory, ROOM, map, MAP, 20, INT32_MIN, &number));
    REFUSES(VF_BAD_SIZE, vf_heap_indexed_resize(memory, ROOM, map, MAP, 20, PTRDIFF_MIN, &number));
    REFUSES(VF_NO_ROOM, vf_heap_indexed_resize(memory, ROOM, map, MAP, 20, 1, &number));
    REFUSES(VF_NO_ROOM, vf_heap_indexed_resize(memory, ROOM, map, MAP, 36, 17, &number));
    REFUSES(VF_NO_ROOM, vf_heap_indexed_resize(memory, ROOM, map, MAP, 36, INT32_MAX, &number));
    REFUSES(VF_NO_ROOM, vf_heap_indexed_resize(memory, ROOM, map, MAP, 36, PTRDIFF_MAX, &number));
    REFUSES(VF_NOT_A_BLOCK, vf_heap_indexed_resize(memory, ROOM, map, MAP, 21, PTRDIFF_MAX, &number));
    REFUSES(VF_BAD_SIZE, vf_heap_indexed_resize_need(memory, ROOM, map, MAP, 20, -12, &number));
    REFUSES(VF_BAD_SIZE, vf_heap_indexed_resize_need(memory, ROOM, map, MAP, 20, PTRDIFF_MIN, &number));
    REFUSES(VF_NO_ROOM, vf_heap_indexed_resize_need(memory, ROOM, map, MAP, 20, (ptrdiff_t)1 << 31, &number));
    REFUSES(VF_NO_ROOM, vf_heap_indexed_resize_need(memory, ROOM, map, MAP, 20, PTRDIFF_MAX, &number));
    REFUSES(VF_NOT_A_BLOCK, vf_heap_indexed_resize_need(memory, ROOM, map, MAP, 21, PTRDIFF_MIN, &number));
    TELLS(0, vf_heap_indexed_resize_need(memory, ROOM, map, MAP, 36, 16, &number));
    TELLS(8, vf_heap_indexed_resize_need(memory, ROOM, map, MAP, 36, 17, &number));
    TELLS(8, vf_heap_indexed_resize_need(memory, ROOM, map, MAP, 20, 1, &number));
    TELLS(0, vf_heap_indexed_resize_need(memory, ROOM, map, MAP, 20, -11, &number));
}

/* A heap and a map that no call may write: one block of 12 bytes, and no byte above it. */
static void questions_take_constants(void)
{
    static const uint8_t constant[32] = {'H', 'e', 'a', 'p', 0, 0, 0, 0, 32, 0, 0, 0, 32, 0, 0, 0, 16};
    static const uint64_t marks[2] = {4, 0};
    TELLS(12, vf_heap_indexed_block_size(constant, 32, marks, 2, 20, &number));
    TELLS(16, vf_heap_indexed_resize_need(constant, 32, marks, 2, 20, 16, &number));
    EXPECT(vf_heap_index(constant, 32, map, 2) == VF_OK && memcmp(map, marks, sizeof marks) == 0);
}

int main(void)
{
    maps_have_two_words_for_each_512_bytes();
    a_map_is_made_where_it_has_room();
    blocks_are_claimed_and_released();
    blocks_are_resized();
    resizes_are_refused_and_reckoned();
    questions_take_constants();
    return ended("heap_indexed");
}
