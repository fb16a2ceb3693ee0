/*
 * heap_mapped.c: a heap in a file that is mapped, closed, and mapped again. Its blocks are where they were. A file that
 * was cut is seen to be too short, and one that somebody wrote over to be no heap. And heaps in 1 GiB, and in more.
 */
#define _DEFAULT_SOURCE
#include "expect.h"

#include <stdlib.h>
#include <sys/mman.h>
#include <unistd.h>

enum { LEN = 16 * 4096, BLOCKS = 40 };

static char path[] = "/tmp/vervainfile-heap-XXXXXX";
static size_t addresses[BLOCKS];

static uint8_t *mapped(int file)
{
    void *at = mmap(NULL, LEN, PROT_READ | PROT_WRITE, MAP_SHARED, file, 0);
    EXPECT(at != MAP_FAILED);
    return at == MAP_FAILED ? NULL : at;
}

/* Makes the heap, and writes a string into each block. */
static void write_file(int file)
{
    EXPECT(ftruncate(file, LEN) == 0);
    uint8_t *memory = mapped(file);
    EXPECT(vf_heap_check(memory, LEN) == VF_BAD_DESCRIPTOR);
    EXPECT(vf_heap_init(memory, LEN) == VF_OK);
    for (int i = 0; i < BLOCKS; i++) {
        EXPECT(vf_heap_claim(memory, LEN, 20 + 30 * (size_t)i, &addresses[i]) == VF_OK);
        sprintf((char *)memory + addresses[i], "block number %d", i);
    }
    EXPECT(munmap(memory, LEN) == 0);
    EXPECT(close(file) == 0);
}

static void read_file(const char *name)
{
    FILE *file = fopen(name, "r+b");
    EXPECT(file != NULL);
    if (!file)
        return;
    uint8_t *memory = mapped(fileno(file));
    EXPECT(vf_heap_check(memory, LEN) == VF_OK);
    for (int i = 0; i < BLOCKS; i++) {
        char wanted[32];
        size_t size = 0;
        sprintf(wanted, "block number %d", i);
        EXPECT(vf_heap_block_size(memory, LEN, addresses[i], &size) == VF_OK && size >= 20 + 30 * (size_t)i);
        EXPECT(strcmp((char *)memory + addresses[i], wanted) == 0);
        EXPECT(vf_heap_release(memory, LEN, addresses[i]) == VF_OK);
    }
    size_t most = 0, free = 0;
    EXPECT(vf_heap_describe(memory, LEN, &most, &free) == VF_OK && most == LEN - 20 && free == LEN - 16);
    EXPECT(vf_heap_check(memory, LEN / 2) == VF_SHORT);
    memory[8] = 3;
    EXPECT(vf_heap_check(memory, LEN) == VF_BAD_DESCRIPTOR);
    EXPECT(munmap(memory, LEN) == 0);
    EXPECT(fclose(file) == 0);
}

/* A heap of 1 GiB, of which only some pages are ever touched. */
static void the_longest_heap(void)
{
    size_t len = (size_t)1 << 30, address = 0;
    uint8_t *memory = mmap(NULL, len + 8, PROT_READ | PROT_WRITE, MAP_PRIVATE | MAP_ANONYMOUS | MAP_NORESERVE, -1, 0);
    EXPECT(memory != MAP_FAILED);
    EXPECT(vf_heap_init(memory, len + 8) == VF_BAD_LENGTH);
    EXPECT(vf_heap_init(memory, len) == VF_OK);
    EXPECT(vf_heap_check(memory, len + 8) == VF_BAD_LENGTH);
    EXPECT(vf_heap_claim(memory, len, len, &address) == VF_NO_ROOM && address == 0);
    EXPECT(vf_heap_claim(memory, len, 1000, &address) == VF_OK && address == 20);
    EXPECT(vf_heap_check(memory, len) == VF_OK);
    EXPECT(munmap(memory, len + 8) == 0);
}

/* A heap in more than 1 GiB of memory: its end isn't moved, and can't be moved past what its length word holds. */
static void too_much_memory(void)
{
    size_t longest = (size_t)1 << 30, len = 6 * longest;
    ptrdiff_t far = ((ptrdiff_t)1 << 31) - 8;
    uint8_t before[16];
    uint8_t *memory = mmap(NULL, len, PROT_READ | PROT_WRITE, MAP_PRIVATE | MAP_ANONYMOUS | MAP_NORESERVE, -1, 0);
    EXPECT(memory != MAP_FAILED);
    EXPECT(vf_heap_init(memory, 16) == VF_OK);
    memcpy(before, memory, sizeof before);
    const ptrdiff_t deltas[] = {0, 8, 7, -8, far, -far, (ptrdiff_t)1 << 32, PTRDIFF_MAX, PTRDIFF_MIN};
    for (size_t i = 0; i < sizeof deltas / sizeof *deltas; i++) {
        EXPECT(vf_heap_extend(memory, len, deltas[i]) == VF_BAD_LENGTH);
        EXPECT(vf_heap_extend(memory, longest + 1, deltas[i]) == VF_BAD_LENGTH);
        EXPECT(vf_heap_checked_extend(memory, len, deltas[i]) == VF_BAD_LENGTH);
        EXPECT(memcmp(before, memory, sizeof before) == 0);
    }
    EXPECT(vf_heap_extend(memory, longest, far) == VF_SHORT);
    EXPECT(vf_heap_extend(memory, longest, (ptrdiff_t)longest - 8) == VF_SHORT);
    EXPECT(vf_heap_extend(memory, longest, (ptrdiff_t)longest - 16) == VF_OK);
    EXPECT(vf_heap_check(memory, longest) == VF_OK);
    EXPECT(vf_heap_extend(memory, longest, 8) == VF_SHORT);
    EXPECT(vf_heap_extend(memory, longest, 16 - (ptrdiff_t)longest) == VF_OK);
    EXPECT(memcmp(before, memory, sizeof before) == 0);
    EXPECT(munmap(memory, len) == 0);
}

int main(void)
{
    int file = mkstemp(path);
    EXPECT(file >= 0);
    write_file(file);
    read_file(path);
    EXPECT(unlink(path) == 0);
    the_longest_heap();
    too_much_memory();
    return ended("heap_mapped");
}
