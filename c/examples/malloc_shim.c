/*
 * malloc_shim.c: malloc, free and their company over heaps of the library, for a program that was never told:
 *
 *     cc -O2 -fPIC -shared -pthread malloc_shim.c libvervainfile.a -o malloc_shim.so
 *     LD_PRELOAD=./malloc_shim.so PROGRAM
 *
 * Blocks of up to 508 bytes have a heap for each size, so that a claim's first hole is large enough; all others, and
 * those for which their heap has no room, lie in one more heap. A map beside each heap finds the blocks.
 *
 * -DSHIM_WALKS takes one heap and no map, as checked calls (-DVF_CHECKED) do too; -DSHIM_PLAIN takes the heap of
 * os_heap.h, to compare with; -DSHIM_BYTES=N gives the largest heap N bytes. With SHIM_TELLS in the environment it says
 * at the end on standard error how often it was called.
 */
#define _GNU_SOURCE
#include "vervainfile.h"

#ifdef SHIM_PLAIN
#include "os_heap.h"
#define HEAP(call) os_heap_##call
#else
#define HEAP(call) vf_heap_##call
#endif

/* What finds blocks, what it is given first, and the number of the heap for all that has none for its size. */
#if defined SHIM_PLAIN || defined SHIM_WALKS || defined VF_CHECKED
#define FINDING(call) HEAP(call)
#define GIVEN(it) it.heap, it.length
#define LARGE 0
#else
#define KEEPS_MAP
#define FINDING(call) vf_heap_indexed_##call
#define GIVEN(it) it.heap, it.length, it.map, it.words
#define LARGE 32
#endif

#include <errno.h>
#include <pthread.h>
#include <stdbool.h>
#include <stdio.h>
#include <stdlib.h>
#include <string.h>
#include <unistd.h>

#ifndef SHIM_BYTES
#define SHIM_BYTES (256u << 20)
#endif

enum {
    WORD = 4,       /* the bytes of a block's size word */
    ALIGNMENT = 16, /* of every block: a heap begins 12 behind a multiple of 16, and segments are multiples of 16 */
    LINE = 512,     /* the bytes of a heap for which a map has two words */
    SMALL = 8 << 20 /* the bytes of a heap for blocks of one size */
};

/* A heap: where it is, and its map where one is kept. */
struct pool {
    uint8_t *heap;
    size_t length;
    uint64_t *map;
    size_t words;
};

static _Alignas(ALIGNMENT) uint8_t room[(size_t)LARGE * SMALL + ALIGNMENT + SHIM_BYTES];
#ifdef KEEPS_MAP
static uint64_t map[2 * ((LARGE * (size_t)SMALL + SHIM_BYTES + LINE - 1) / LINE)];
#endif
static bool is_open[LARGE + 1];
static unsigned long claims, releases, resizes;
static pthread_mutex_t lock = PTHREAD_MUTEX_INITIALIZER;

static void enter(void)
{
    pthread_mutex_lock(&lock);
}

static void leave(void)
{
    pthread_mutex_unlock(&lock);
}

/* A child that was forked has the lock as the thread left it that forked: open. */
__attribute__((constructor)) static void keep_lock_over_fork(void)
{
    pthread_atfork(enter, leave, leave);
}

static _Noreturn void give_up(const char *why)
{
    size_t n = strlen(why);
    if (write(STDERR_FILENO, why, n) != (ssize_t)n)
        _exit(3);
    abort();
}

/* What to claim for n bytes, so that the segment is a multiple of 16. */
static size_t rounded(size_t n)
{
    return (n + WORD + ALIGNMENT - 1) / ALIGNMENT * ALIGNMENT - WORD;
}

/* The heap of a number: below LARGE one for blocks of one size. */
static struct pool pool(size_t number)
{
    size_t at = number * SMALL, length = number == LARGE ? SHIM_BYTES : (size_t)SMALL - ALIGNMENT;
    struct pool it = {room + at + ALIGNMENT - WORD, length, NULL, 0};
#ifdef KEEPS_MAP
    it.map = map + 2 * (at / LINE);
    it.words = vf_heap_map_words(length);
#endif
    return it;
}

static size_t number_for(size_t rounded_size)
{
    size_t number = rounded_size / ALIGNMENT;
    return number > LARGE ? LARGE : number;
}

static size_t number_of(const void *block)
{
    size_t number = (size_t)((const uint8_t *)block - room) / SMALL;
    return number > LARGE ? LARGE : number;
}

static size_t address_of(const struct pool *it, const void *block)
{
    return (size_t)((const uint8_t *)block - it->heap);
}

static void open_pool(size_t number)
{
    struct pool it = pool(number);
    if (HEAP(init)(it.heap, it.length) != VF_OK)
        give_up("malloc_shim: the region can't be a heap\n");
#ifdef KEEPS_MAP
    if (vf_heap_index(it.heap, it.length, it.map, it.words) != VF_OK)
        give_up("malloc_shim: the map is too short\n");
#endif
    is_open[number] = true;
}

static void *claim_in(size_t number, size_t rounded_size)
{
    size_t address;
    struct pool it = pool(number);
    if (!is_open[number])
        open_pool(number);
    return FINDING(claim)(GIVEN(it), rounded_size, &address) == VF_OK ? it.heap + address : NULL;
}

static void *claim(size_t n)
{
    if (n > SHIM_BYTES)
        return NULL;
    size_t size = rounded(n ? n : 1), number = number_for(size);
    claims++;
    void *block = claim_in(number, size);
    return block || number == LARGE ? block : claim_in(LARGE, size);
}

static size_t size_of(const void *block)
{
    size_t size;
    struct pool it = pool(number_of(block));
    if (FINDING(block_size)(GIVEN(it), address_of(&it, block), &size) != VF_OK)
        give_up("malloc_shim: no block is there\n");
    return size;
}

static void release(void *block)
{
    struct pool it = pool(number_of(block));
    releases++;
    if (FINDING(release)(GIVEN(it), address_of(&it, block)) != VF_OK)
        give_up("malloc_shim: what is freed is no block\n");
}

/* Gives a block that stays in its heap another size. */
static void *resize(void *block, size_t old, size_t rounded_size)
{
    size_t moved_to;
    struct pool it = pool(number_of(block));
    ptrdiff_t delta = (ptrdiff_t)rounded_size - (ptrdiff_t)old;
    resizes++;
    return FINDING(resize)(GIVEN(it), address_of(&it, block), delta, &moved_to) == VF_OK ? it.heap + moved_to : NULL;
}

/* A block with a coarser alignment begins somewhere in a longer one: which one is kept in a list, in blocks too. */
struct aligned {
    void *given, *block;
    struct aligned *next;
};

static struct aligned *aligned_blocks;

static struct aligned **find_aligned(const void *given)
{
    struct aligned **it = &aligned_blocks;
    while (*it && (*it)->given != given)
        it = &(*it)->next;
    return it;
}

static void *claim_aligned(size_t alignment, size_t n)
{
    if (alignment <= ALIGNMENT)
        return claim(n);
    if (alignment > SHIM_BYTES || n > SHIM_BYTES)
        return NULL;
    struct aligned *it = claim(sizeof *it);
    uint8_t *block = it ? claim(n + alignment) : NULL;
    if (!block) {
        if (it)
            release(it);
        return NULL;
    }
    it->block = block;
    it->given = (void *)(((uintptr_t)block + alignment - 1) / alignment * alignment);
    it->next = aligned_blocks;
    aligned_blocks = it;
    return it->given;
}

static void release_given(void *given)
{
    struct aligned **link = find_aligned(given), *it = *link;
    if (!it) {
        release(given);
        return;
    }
    *link = it->next;
    release(it->block);
    release(it);
}

static size_t size_of_given(const void *given)
{
    struct aligned *it = *find_aligned(given);
    return it ? size_of(it->block) - (size_t)((uint8_t *)it->given - (uint8_t *)it->block) : size_of(given);
}

static void *resize_given(void *given, size_t n)
{
    size_t old = size_of_given(given);
    if (n > SHIM_BYTES)
        return NULL;
    if (!*find_aligned(given) && number_for(rounded(n)) == number_of(given))
        return resize(given, old, rounded(n));
    void *new = claim(n);
    if (new) {
        memcpy(new, given, old < n ? old : n);
        release_given(given);
    }
    return new;
}

static void *or_no_memory(void *block)
{
    if (!block)
        errno = ENOMEM;
    return block;
}

void *malloc(size_t n)
{
    enter();
    void *block = claim(n);
    leave();
    return or_no_memory(block);
}

void free(void *given)
{
    if (!given)
        return;
    enter();
    release_given(given);
    leave();
}

/* A claimed block is all zeros. */
void *calloc(size_t count, size_t each)
{
    size_t n;
    return __builtin_mul_overflow(count, each, &n) ? or_no_memory(NULL) : malloc(n);
}

void *realloc(void *given, size_t n)
{
    if (!given)
        return malloc(n);
    if (!n) {
        free(given);
        return NULL;
    }
    enter();
    void *block = resize_given(given, n);
    leave();
    return or_no_memory(block);
}

void *reallocarray(void *given, size_t count, size_t each)
{
    size_t n;
    return __builtin_mul_overflow(count, each, &n) ? or_no_memory(NULL) : realloc(given, n);
}

void *aligned_alloc(size_t alignment, size_t n)
{
    enter();
    void *block = claim_aligned(alignment, n);
    leave();
    return or_no_memory(block);
}

void *memalign(size_t alignment, size_t n)
{
    return aligned_alloc(alignment, n);
}

int posix_memalign(void **given, size_t alignment, size_t n)
{
    void *block = aligned_alloc(alignment, n);
    if (!block)
        return ENOMEM;
    *given = block;
    return 0;
}

void *valloc(size_t n)
{
    return aligned_alloc((size_t)sysconf(_SC_PAGESIZE), n);
}

size_t malloc_usable_size(void *given)
{
    if (!given)
        return 0;
    enter();
    size_t n = size_of_given(given);
    leave();
    return n;
}

/* The bytes of all heaps that aren't free. */
static size_t used_bytes(void)
{
    size_t used = 0, most, free_bytes;
    for (size_t number = 0; number <= LARGE; number++) {
        struct pool it = pool(number);
        if (is_open[number] && HEAP(describe)(it.heap, it.length, &most, &free_bytes) == VF_OK)
            used += it.length - free_bytes;
    }
    return used;
}

__attribute__((destructor)) static void tell(void)
{
    static char line[200];
    if (!getenv("SHIM_TELLS"))
        return;
    int n = snprintf(line, sizeof line, "malloc_shim: %lu claims, %lu releases, %lu resizes, %zu bytes still used\n",
                     claims, releases, resizes, used_bytes());
    if (write(STDERR_FILENO, line, (size_t)n) < 0)
        return;
}
