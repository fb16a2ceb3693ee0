/*
 * heap_calls.c: each call on a heap, and each status that it can answer on bytes that are one. A refused call leaves
 * each byte and each number as it was. The numbers follow from the rules: segments of 8, 16, 24 .. bytes from 16 on, a
 * block 4 bytes behind its segment's first byte.
 */
#include "expect.h"

enum { ROOM = 4096 };

static uint8_t memory[ROOM], before[ROOM];
static size_t number, other;

#define REFUSES(status, call)                                       \
    do {                                                            \
        memcpy(before, memory, ROOM);                               \
        number = other = UNSET;                                     \
        EXPECT((call) == (status));                                 \
        EXPECT(memcmp(before, memory, ROOM) == 0);                  \
        EXPECT(number == UNSET && other == UNSET);                  \
    } while (0)

static bool is_filled(const uint8_t *bytes, size_t n, int value)
{
    for (size_t i = 0; i < n; i++)
        if (bytes[i] != value)
            return false;
    return true;
}

static void lengths_become_heaps_or_not(void)
{
    static const size_t bad[] = {0, 1, 8, 15, 17, 20, 30, 4095, ((size_t)1 << 30) + 8, SIZE_MAX - 7, SIZE_MAX};
    static const uint8_t empty[16] = {'H', 'e', 'a', 'p', 0, 0, 0, 0, 16, 0, 0, 0, 0, 1, 0, 0};
    memset(memory, 0xa5, ROOM);
    for (size_t i = 0; i < sizeof bad / sizeof *bad; i++)
        REFUSES(VF_BAD_LENGTH, vf_heap_init(memory, bad[i]));
    EXPECT(vf_heap_init(memory, 16) == VF_OK);
    EXPECT(vf_heap_check(memory, 16) == VF_OK);
    EXPECT(vf_heap_init(memory, 256) == VF_OK);
    EXPECT(memcmp(memory, empty, sizeof empty) == 0);
    EXPECT(is_filled(memory + 16, ROOM - 16, 0xa5));
}

static void blocks_are_claimed_and_released(const struct heap_calls *heap)
{
    memset(memory, 0xa5, ROOM);
    EXPECT(vf_heap_init(memory, 56) == VF_OK);
    TELLS(20, heap->claim(memory, ROOM, 12, &number));
    EXPECT(is_filled(memory + 20, 12, 0));
    TELLS(36, heap->claim(memory, ROOM, 1, &number));
    TELLS(44, heap->claim(memory, ROOM, 4, &number));
    REFUSES(VF_NO_ROOM, heap->claim(memory, ROOM, 5, &number));
    REFUSES(VF_NO_ROOM, heap->claim(memory, ROOM, (size_t)UINT32_MAX + 5, &number));
    REFUSES(VF_NO_ROOM, heap->claim(memory, ROOM, SIZE_MAX, &number));
    REFUSES(VF_BAD_SIZE, heap->claim(memory, ROOM, 0, &number));
    EXPECT(heap->release(memory, ROOM, 36) == VF_OK);
    static const size_t none[] = {0, 4, 16, 19, 21, 36, 40, 48, 52, 56, ROOM, (size_t)1 << 32, SIZE_MAX};
    for (size_t i = 0; i < sizeof none / sizeof *none; i++) {
        REFUSES(VF_NOT_A_BLOCK, heap->release(memory, ROOM, none[i]));
        REFUSES(VF_NOT_A_BLOCK, heap->resize(memory, ROOM, none[i], 1, &number));
        REFUSES(VF_NOT_A_BLOCK, heap->block_size(memory, ROOM, none[i], &number));
    }
    TELLS(36, heap->claim(memory, ROOM, 2, &number));
    EXPECT(heap->release(memory, ROOM, 44) == VF_OK);
    EXPECT(heap->release(memory, ROOM, 20) == VF_OK);
    EXPECT(heap->release(memory, ROOM, 36) == VF_OK);
    TELLS(20, heap->claim(memory, ROOM, 36, &number));
    EXPECT(is_filled(memory + 56, ROOM - 56, 0xa5));
}

static void questions_leave_all_bytes(const struct heap_calls *heap)
{
    EXPECT(vf_heap_init(memory, 56) == VF_OK);
    TELLS(20, heap->claim(memory, ROOM, 12, &number));
    TELLS(36, heap->claim(memory, ROOM, 1, &number));
    TELLS(44, heap->claim(memory, ROOM, 1, &number));
    EXPECT(heap->release(memory, ROOM, 36) == VF_OK);
    memcpy(before, memory, ROOM);
    TELLS(12, heap->block_size(memory, ROOM, 20, &number));
    TELLS(4, heap->block_size(memory, ROOM, 44, &number));
    TELLS(4, heap->describe(memory, ROOM, &number, &other));
    EXPECT(other == 16);
    EXPECT(memcmp(before, memory, ROOM) == 0);
    EXPECT(vf_heap_init(memory, 16) == VF_OK);
    TELLS(0, heap->describe(memory, ROOM, &number, &other));
    EXPECT(other == 0);
}

/* A block shrinks, grows into the hole behind it, grows at the top, moves to a hole, moves to the top, or stays. */
static void blocks_are_resized(const struct heap_calls *heap)
{
    EXPECT(vf_heap_init(memory, 3840) == VF_OK);
    TELLS(20, heap->claim(memory, ROOM, 10, &number));
    TELLS(36, heap->claim(memory, ROOM, 10, &number));
    memcpy(memory + 20, "first block", 12);
    TELLS(52, heap->resize(memory, ROOM, 20, 1, &number));
    EXPECT(memcmp(memory + 52, "first block", 12) == 0 && is_filled(memory + 64, 8, 0));
    TELLS(52, heap->resize(memory, ROOM, 52, 8, &number));
    EXPECT(is_filled(memory + 64, 16, 0));
    REFUSES(VF_BAD_SIZE, heap->resize(memory, ROOM, 36, -12, &number));
    REFUSES(VF_BAD_SIZE, heap->resize(memory, ROOM, 36, INT32_MIN, &number));
    REFUSES(VF_BAD_SIZE, heap->resize(memory, ROOM, 36, -((ptrdiff_t)1 << 32), &number));
    REFUSES(VF_BAD_SIZE, heap->resize(memory, ROOM, 36, PTRDIFF_MIN, &number));
    TELLS(36, heap->resize(memory, ROOM, 36, -1, &number));
    TELLS(36, heap->resize(memory, ROOM, 36, -8, &number));
    TELLS(3756, heap->describe(memory, ROOM, &number, &other));
    EXPECT(other == 3784);
    TELLS(36, heap->resize(memory, ROOM, 36, 8, &number));
    EXPECT(heap->release(memory, ROOM, 36) == VF_OK);
    TELLS(20, heap->claim(memory, ROOM, 28, &number));
    REFUSES(VF_NO_ROOM, heap->resize(memory, ROOM, 52, 4000, &number));
    REFUSES(VF_NO_ROOM, heap->resize(memory, ROOM, 52, INT32_MAX, &number));
    REFUSES(VF_NO_ROOM, heap->resize(memory, ROOM, 52, ((ptrdiff_t)1 << 32) + 1, &number));
    REFUSES(VF_NO_ROOM, heap->resize(memory, ROOM, 52, PTRDIFF_MAX, &number));
    REFUSES(VF_NOT_A_BLOCK, heap->resize(memory, ROOM, 53, PTRDIFF_MAX, &number));
    REFUSES(VF_NOT_A_BLOCK, heap->resize(memory, ROOM, 53, PTRDIFF_MIN, &number));
}

static void a_block_moves_to_a_hole(const struct heap_calls *heap)
{
    EXPECT(vf_heap_init(memory, 120) == VF_OK);
    TELLS(20, heap->claim(memory, ROOM, 36, &number));
    TELLS(60, heap->claim(memory, ROOM, 4, &number));
    TELLS(68, heap->claim(memory, ROOM, 4, &number));
    TELLS(76, heap->claim(memory, ROOM, 44, &number));
    memcpy(memory + 60, "abcd", 4);
    EXPECT(heap->release(memory, ROOM, 20) == VF_OK);
    TELLS(20, heap->resize(memory, ROOM, 60, 20, &number));
    EXPECT(memcmp(memory + 20, "abcd", 4) == 0 && is_filled(memory + 24, 20, 0));
    TELLS(28, heap->block_size(memory, ROOM, 20, &number));
    /* What was left of the hole and the old place behind it are one hole of 16 bytes. */
    TELLS(12, heap->describe(memory, ROOM, &number, &other));
    EXPECT(other == 16);
}

static void the_end_is_moved(const struct heap_calls *heap)
{
    memset(memory, 0xa5, ROOM);
    EXPECT(vf_heap_init(memory, 64) == VF_OK);
    TELLS(20, heap->claim(memory, ROOM, 12, &number));
    REFUSES(VF_NO_ROOM, heap->claim(memory, ROOM, 60, &number));
    REFUSES(VF_BAD_LENGTH, heap->extend(memory, ROOM, 7));
    REFUSES(VF_BAD_LENGTH, heap->extend(memory, ROOM, -4));
    REFUSES(VF_BAD_LENGTH, heap->extend(memory, ROOM, -36));
    REFUSES(VF_SHORT, heap->extend(memory, ROOM, ROOM - 64 + 8));
    REFUSES(VF_SHORT, heap->extend(memory, ROOM, ROOM - 64 + 1));
    REFUSES(VF_SHORT, heap->extend(memory, ROOM, INT32_MAX));
    REFUSES(VF_SHORT, heap->extend(memory, ROOM, (ptrdiff_t)1 << 32));
    REFUSES(VF_SHORT, heap->extend(memory, ROOM, PTRDIFF_MAX));
    EXPECT(heap->extend(memory, ROOM, ROOM - 64) == VF_OK);
    EXPECT(vf_heap_check(memory, ROOM) == VF_OK);
    EXPECT(vf_heap_check(memory, ROOM - 1) == VF_SHORT);
    TELLS(36, heap->claim(memory, ROOM, 60, &number));
    REFUSES(VF_EXCESSIVE_SHRINK, heap->extend(memory, ROOM, 88 - ROOM));
    REFUSES(VF_EXCESSIVE_SHRINK, heap->extend(memory, ROOM, INT32_MIN));
    REFUSES(VF_EXCESSIVE_SHRINK, heap->extend(memory, ROOM, -((ptrdiff_t)1 << 32)));
    REFUSES(VF_EXCESSIVE_SHRINK, heap->extend(memory, ROOM, PTRDIFF_MIN));
    EXPECT(heap->extend(memory, ROOM, 96 - ROOM) == VF_OK);
    EXPECT(heap->extend(memory, ROOM, 0) == VF_OK);
    EXPECT(vf_heap_check(memory, 96) == VF_OK);
    REFUSES(VF_EXCESSIVE_SHRINK, heap->extend(memory, 96, -8));
    EXPECT(heap->release(memory, 96, 36) == VF_OK);
    EXPECT(heap->release(memory, 96, 20) == VF_OK);
    EXPECT(heap->extend(memory, 96, -80) == VF_OK);
    EXPECT(vf_heap_check(memory, 16) == VF_OK);
    EXPECT(is_filled(memory + 96, ROOM - 96, 0xa5));
}

/* A heap that no call may write: one block of 12 bytes, and no byte above it. */
static void questions_take_constant_bytes(const struct heap_calls *heap)
{
    static const uint8_t constant[32] = {'H', 'e', 'a', 'p', 0, 0, 0, 0, 32, 0, 0, 0, 32, 0, 0, 0, 16};
    EXPECT(vf_heap_check(constant, 32) == VF_OK);
    TELLS(0, heap->describe(constant, 32, &number, &other));
    EXPECT(other == 0);
    TELLS(12, heap->block_size(constant, 32, 20, &number));
    number = UNSET;
    EXPECT(heap->block_size(constant, 32, 21, &number) == VF_NOT_A_BLOCK && number == UNSET);
}

int main(void)
{
    static const struct heap_calls *const both[] = {&TRUSTING, &CHECKED};
    lengths_become_heaps_or_not();
    for (size_t i = 0; i < 2; i++) {
        blocks_are_claimed_and_released(both[i]);
        questions_leave_all_bytes(both[i]);
        questions_take_constant_bytes(both[i]);
        blocks_are_resized(both[i]);
        a_block_moves_to_a_hole(both[i]);
        the_end_is_moved(both[i]);
    }
    return ended("heap_calls");
}
