/*
 * acorn_heap.c: OS_Heap with pointers (c/acorn/osheap.h), and statuses as errors. The worked heap of 3,840 bytes is the
 * C heap of a fresh slot, with the addresses and sums that a desk answers there. Then random calls beside the plain
 * heap: the same answers, and the same bytes after each.
 */
#define _DEFAULT_SOURCE
#include "expect.h"
#include "os_heap.h"
#include "osheap.h"

#include <sys/mman.h>

#ifndef CALLS
#define CALLS 20000
#endif

enum { WORKED = 3840, ROOM = 20000, LENGTH = 16384, MOST = 300, FIRST = 20 };

static _Alignas(8) uint8_t heap[ROOM], before[ROOM], plain[ROOM];
static void *block;
static int number, other;

/* A call that answers this status as its error, and changes nothing. */
#define REFUSES(status, call)                                                \
    do {                                                                     \
        memcpy(before, heap, ROOM);                                          \
        block = &number;                                                     \
        number = other = UNSET;                                              \
        EXPECT(is_error((call), (status)));                                  \
        EXPECT(!memcmp(before, heap, ROOM) && block == &number);             \
        EXPECT(number == UNSET && other == UNSET);                           \
    } while (0)

#define IS_DONE(call) EXPECT((call) == NULL)

static bool is_error(const os_error *error, uint32_t status)
{
    return error && error->errnum == status && !strcmp(error->errmess, vf_status_text(status));
}

static bool is_zero(const uint8_t *bytes, size_t n)
{
    for (size_t i = 0; i < n; i++)
        if (bytes[i])
            return false;
    return true;
}

static void statuses_are_errors(void)
{
    static const uint32_t known[] = {VF_NAME_IN_USE, VF_NOT_A_BLOCK, VF_TOO_BIG, VF_NULL, VF_BAD_DESCRIPTOR,
                                     VF_FILE_EXISTS};
    EXPECT(!os_error_of(VF_OK));
    for (size_t i = 0; i < sizeof known / sizeof *known; i++)
        EXPECT(is_error(os_error_of(known[i]), known[i]) && os_error_of(known[i]) == os_error_of(known[i]));
    EXPECT(!strcmp(os_error_of(VF_NOT_A_BLOCK)->errmess, "no block begins at the address"));
    EXPECT(!strcmp(os_error_of(VF_FILE_EXISTS)->errmess, "a file with the name was added before"));
    EXPECT(os_error_of(51) && !strcmp(os_error_of(51)->errmess, "no status has this number"));
}

/* The block is at this offset. */
static bool is_at(size_t offset)
{
    return block == heap + offset;
}

static void blocks_come_and_go(void)
{
    memset(heap, 0xa5, ROOM);
    IS_DONE(xosheap_initialise(heap, WORKED));
    IS_DONE(xosheap_alloc(heap, 10, &block)), EXPECT(is_at(FIRST));
    IS_DONE(xosheap_alloc(heap, 10, &block)), EXPECT(is_at(FIRST + 16));
    IS_DONE(xosheap_alloc(heap, 10, &block)), EXPECT(is_at(FIRST + 32) && is_zero(block, 12));
    IS_DONE(xosheap_free(heap, heap + FIRST + 16));
    IS_DONE(xosheap_alloc(heap, 12, &block)), EXPECT(is_at(FIRST + 16));
    IS_DONE(xosheap_alloc(heap, 13, &block)), EXPECT(is_at(FIRST + 48));
    REFUSES(VF_NOT_A_BLOCK, xosheap_free(heap, heap + FIRST + 4));
    IS_DONE(xosheap_describe(heap, &number, &other)), EXPECT(number == 3748 && other == 3752);
    IS_DONE(xosheap_free(heap, heap + FIRST));
    IS_DONE(xosheap_free(heap, heap + FIRST + 16));
    IS_DONE(xosheap_describe(heap, &number, &other)), EXPECT(number == 3748 && other == 3784);
    IS_DONE(xosheap_read_block_size(heap, heap + FIRST + 48, &number)), EXPECT(number == 20);
    REFUSES(VF_NO_ROOM, xosheap_alloc(heap, 3749, &block));
    IS_DONE(xosheap_alloc(heap, 3748, &block)), EXPECT(is_at(FIRST + 72) && is_zero(block, 3748));
    EXPECT(heap[WORKED] == 0xa5);
}

static void blocks_change_in_size(void)
{
    IS_DONE(xosheap_initialise(heap, WORKED));
    IS_DONE(xosheap_alloc(heap, 10, &block));
    memcpy(block, "first block", 12);
    IS_DONE(xosheap_realloc(heap, block, 0, &block)), EXPECT(is_at(FIRST));
    IS_DONE(xosheap_realloc(heap, block, 4, &block)), EXPECT(is_at(FIRST) && is_zero(heap + FIRST + 11, 9));
    EXPECT(!memcmp(block, "first block", 11));
    IS_DONE(xosheap_realloc(heap, block, -9, &block)), EXPECT(is_at(FIRST));
    IS_DONE(xosheap_read_block_size(heap, block, &number)), EXPECT(number == 12);
    IS_DONE(xosheap_alloc(heap, 1, &block)), EXPECT(is_at(FIRST + 16));
    IS_DONE(xosheap_realloc(heap, heap + FIRST, 1, &block)), EXPECT(is_at(FIRST + 24));
    EXPECT(!memcmp(block, "first block", 12));
    REFUSES(VF_BAD_SIZE, xosheap_realloc(heap, heap + FIRST + 24, -20, &block));
    REFUSES(VF_BAD_SIZE, xosheap_realloc(heap, heap + FIRST + 24, INT32_MIN, &block));
    REFUSES(VF_NO_ROOM, xosheap_realloc(heap, heap + FIRST + 24, INT32_MAX, &block));
    REFUSES(VF_NOT_A_BLOCK, xosheap_realloc(heap, heap + FIRST, 1, &block));
}

static void the_end_moves(void)
{
    IS_DONE(xosheap_initialise(heap, 64));
    IS_DONE(xosheap_alloc(heap, 44, &block)), EXPECT(is_at(FIRST));
    REFUSES(VF_EXCESSIVE_SHRINK, xosheap_resize(heap, -8));
    REFUSES(VF_BAD_LENGTH, xosheap_resize(heap, 4));
    IS_DONE(xosheap_resize(heap, 16));
    IS_DONE(xosheap_describe(heap, &number, &other)), EXPECT(number == 12 && other == 16);
    IS_DONE(xosheap_resize(heap, -8));
    IS_DONE(xosheap_resize(heap, 0));
    IS_DONE(xosheap_describe(heap, &number, &other)), EXPECT(number == 4 && other == 8);
    IS_DONE(xosheap_resize(heap, LENGTH - 72));
    IS_DONE(xosheap_describe(heap, &number, &other)), EXPECT(other == LENGTH - 64);
    REFUSES(VF_BAD_LENGTH, xosheap_resize(heap, INT32_MAX));
    REFUSES(VF_EXCESSIVE_SHRINK, xosheap_resize(heap, INT32_MIN));
}

static void what_is_amiss_is_told(void)
{
    static const int bad[] = {0, 8, 12, 20, -16, INT32_MIN, INT32_MAX};
    for (size_t i = 0; i < sizeof bad / sizeof *bad; i++)
        REFUSES(VF_BAD_LENGTH, xosheap_initialise(heap, bad[i]));
    REFUSES(VF_NULL, xosheap_initialise(NULL, 64));
    IS_DONE(xosheap_initialise(heap, LENGTH));
    REFUSES(VF_BAD_SIZE, xosheap_alloc(heap, 0, &block));
    REFUSES(VF_BAD_SIZE, xosheap_alloc(heap, -1, &block));
    REFUSES(VF_BAD_SIZE, xosheap_alloc(heap, INT32_MIN, &block));
    REFUSES(VF_NO_ROOM, xosheap_alloc(heap, INT32_MAX, &block));
    REFUSES(VF_NULL, xosheap_alloc(NULL, 1, &block));
    REFUSES(VF_NULL, xosheap_alloc(heap, 1, NULL));
    REFUSES(VF_NULL, xosheap_free(NULL, heap));
    REFUSES(VF_NULL, xosheap_free(heap, NULL));
    REFUSES(VF_NULL, xosheap_realloc(NULL, heap, 1, &block));
    REFUSES(VF_NULL, xosheap_realloc(heap, NULL, 1, &block));
    REFUSES(VF_NULL, xosheap_realloc(heap, heap, 1, NULL));
    REFUSES(VF_NULL, xosheap_resize(NULL, 8));
    REFUSES(VF_NULL, xosheap_describe(NULL, &number, &other));
    REFUSES(VF_NULL, xosheap_describe(heap, NULL, &other));
    REFUSES(VF_NULL, xosheap_describe(heap, &number, NULL));
    REFUSES(VF_NULL, xosheap_read_block_size(NULL, heap, &number));
    REFUSES(VF_NULL, xosheap_read_block_size(heap, NULL, &number));
    REFUSES(VF_NULL, xosheap_read_block_size(heap, heap, NULL));
    void *const none[] = {heap, heap + FIRST, heap + LENGTH, before, &number};
    for (size_t i = 0; i < sizeof none / sizeof *none; i++) {
        REFUSES(VF_NOT_A_BLOCK, xosheap_free(heap, none[i]));
        REFUSES(VF_NOT_A_BLOCK, xosheap_realloc(heap, none[i], 1, &block));
        REFUSES(VF_NOT_A_BLOCK, xosheap_read_block_size(heap, none[i], &number));
    }
    heap[0] = 'h';
    REFUSES(VF_BAD_DESCRIPTOR, xosheap_alloc(heap, 1, &block));
    REFUSES(VF_BAD_DESCRIPTOR, xosheap_free(heap, heap + FIRST));
    REFUSES(VF_BAD_DESCRIPTOR, xosheap_realloc(heap, heap + FIRST, 1, &block));
    REFUSES(VF_BAD_DESCRIPTOR, xosheap_resize(heap, 8));
    REFUSES(VF_BAD_DESCRIPTOR, xosheap_describe(heap, &number, &other));
    REFUSES(VF_BAD_DESCRIPTOR, xosheap_read_block_size(heap, heap + FIRST, &number));
}

/* A heap whose length has four bytes, none of them 0, grows to 1 GiB and no further. */
static void a_heap_may_have_a_gibibyte(void)
{
    const int longest = 1 << 30, kind = MAP_PRIVATE | MAP_ANONYMOUS | MAP_NORESERVE;
    uint8_t *large = mmap(NULL, (size_t)longest, PROT_READ | PROT_WRITE, kind, -1, 0);
    EXPECT(large != MAP_FAILED);
    if (large == MAP_FAILED)
        return;
    IS_DONE(xosheap_initialise(large, longest - 8));
    IS_DONE(xosheap_resize(large, 8));
    IS_DONE(xosheap_describe(large, &number, &other)), EXPECT(number == longest - 20 && other == longest - 16);
    EXPECT(is_error(xosheap_resize(large, 8), VF_BAD_LENGTH));
    IS_DONE(xosheap_resize(large, 16 - longest));
    IS_DONE(xosheap_describe(large, &number, &other)), EXPECT(number == 0 && other == 0);
    EXPECT(munmap(large, (size_t)longest) == 0);
}

static size_t addresses[MOST], count;

static bool answers(const os_error *error, uint32_t status)
{
    return status == VF_OK ? !error : is_error(error, status);
}

static size_t some_address(void)
{
    return count && below(12) ? addresses[below((uint32_t)count)] : below(ROOM);
}

static void keep(size_t address)
{
    if (count < MOST)
        addresses[count++] = address;
}

static bool is_alike(void)
{
    size_t address = some_address(), there = 0, all = 0;
    int n = below(30) ? (int)below(120) : (int)below(6000), delta = (int)below(240) - 120;
    uint32_t status;
    switch (below(8)) {
    case 0:
    case 1:
    case 2:
        block = NULL;
        status = os_heap_claim(plain, LENGTH, (size_t)n, &there);
        if (status == VF_OK)
            keep(there);
        return answers(xosheap_alloc(heap, n, &block), status) && block == (status == VF_OK ? heap + there : NULL);
    case 3:
        status = os_heap_release(plain, LENGTH, address);
        if (status == VF_OK)
            forget(addresses, &count, address);
        return answers(xosheap_free(heap, heap + address), status);
    case 4:
        block = NULL;
        status = os_heap_resize(plain, LENGTH, address, delta, &there);
        if (status == VF_OK) {
            forget(addresses, &count, address);
            keep(there);
        }
        return answers(xosheap_realloc(heap, heap + address, delta, &block), status) &&
               block == (status == VF_OK ? heap + there : NULL);
    case 5:
        status = os_heap_block_size(plain, LENGTH, address, &there);
        return answers(xosheap_read_block_size(heap, heap + address, &number), status) &&
               (status != VF_OK || number == (int)there);
    case 6:
        os_heap_describe(plain, LENGTH, &there, &all);
        return !xosheap_describe(heap, &number, &other) && number == (int)there && other == (int)all;
    default:
        /* Both heaps have room behind their ends, up to LENGTH. */
        delta = (int)below(64) * 8 - 256 + (below(9) ? 0 : 4);
        status = os_heap_extend(plain, LENGTH, delta);
        return status == VF_SHORT || answers(xosheap_resize(heap, delta), status);
    }
}

int main(void)
{
    statuses_are_errors();
    blocks_come_and_go();
    blocks_change_in_size();
    the_end_moves();
    what_is_amiss_is_told();
    a_heap_may_have_a_gibibyte();
    IS_DONE(xosheap_initialise(heap, LENGTH / 2));
    EXPECT(os_heap_init(plain, LENGTH / 2) == VF_OK);
    for (int call = 0; call < CALLS; call++)
        if (!is_alike() || !os_heap_is_same(heap, plain)) {
            fprintf(stderr, "call %d differs\n", call);
            EXPECT(!"the heap is the plain one");
            break;
        }
    return ended("acorn_heap");
}
