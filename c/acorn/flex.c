/*
 * flex.c: flex for pointers. All blocks lie in one wide slot, in memory that is mapped once and never moves. Beside
 * each of its anchors stands which variable of the program's is to hold the block's address. The slot has 64 anchors at
 * first, and one more for each block for which none is free: a slide goes over all of them.
 */
#define _DEFAULT_SOURCE 1
#include "flex.h"
#include "vervainfile.h"

#include <string.h>
#include <sys/mman.h>
#include <unistd.h>

enum { MOST_ROOM = 1 << 30, LEAST_ROOM = 1 << 20, ANCHORS = 4096, FEWEST = 64, PAGE = 4096 };
enum { KEPT = 1 << 20 }; /* so many bytes above the blocks may stay in use */

static uint8_t *memory; /* null before it is mapped */
static size_t room;
static struct vf_wide_slot slot;
static uint32_t slides;           /* how often blocks had moved when the variables were written last */
static size_t begun;              /* where the bytes begin that malloc asks for; flex's own words end there */
static size_t given;              /* from here up to the blocks are bytes that malloc hasn't asked for yet */
static size_t reached;            /* how far the blocks came since pages were given back last */
static bool budging;
static flex_ptr anchors[ANCHORS]; /* null where the slot's anchor is free */

/* The number of an anchor that has a block, for null of a free one; else the count of anchors, which no call takes. */
static uint32_t find(flex_ptr anchor)
{
    uint32_t number = 0;
    while (number < slot.anchors && anchors[number] != anchor)
        number++;
    return number;
}

/* Whether an anchor lies in memory that is flex's own: all but what malloc asked for, which never moves. */
static bool is_inside(flex_ptr anchor)
{
    const uintptr_t from = (uintptr_t)anchor, to = from + sizeof *anchor, first = (uintptr_t)memory;
    return from < first + room && first < to && (from < first + begun || first + given < to);
}

/* Gives the whole pages above the blocks back to the system, once more than KEPT bytes there have been in use. */
static void give_back(void)
{
    if (reached < slot.top)
        reached = slot.top;
#ifdef MADV_DONTNEED
    if (reached - slot.top > KEPT) {
        const size_t page = (size_t)sysconf(_SC_PAGESIZE), from = (slot.top + page - 1) / page * page;
        if (from < reached)
            (void)madvise(memory + from, reached - from, MADV_DONTNEED); /* what the system doesn't take stays */
        reached = slot.top;
    }
#endif
}

/* Whether a call was done. Then each variable is rewritten, if a block has moved since they were written last. */
static int is_done(uint32_t status)
{
    static size_t places[ANCHORS];
    if (status != VF_OK)
        return 0;
    give_back();
    if (slot.slides == slides)
        return 1;
    slides = slot.slides;
    vf_flex_wide_places(memory, room, &slot, places, slot.anchors);
    for (uint32_t number = 0; number < slot.anchors; number++)
        if (places[number])
            *anchors[number] = memory + places[number];
    return 1;
}

void flex_init(void)
{
    const int kind = MAP_PRIVATE | MAP_ANONYMOUS | MAP_NORESERVE;
    for (size_t n = MOST_ROOM; !memory && n >= LEAST_ROOM; n /= 2) {
        void *mapped = mmap(NULL, n, PROT_READ | PROT_WRITE, kind, -1, 0);
        memory = mapped == MAP_FAILED ? NULL : (uint8_t *)mapped;
        room = n;
    }
    if (vf_flex_start_with(memory, room, &slot, ANCHORS) != VF_OK)
        return;
    slot.anchors = FEWEST;
    memset(anchors, 0, sizeof anchors);
    slides = slot.slides;
    budging = vf_flex_wide_budge(memory, room, &slot, PAGE, &begun) == VF_OK;
    given = begun;
    give_back();
}

int flex_alloc(flex_ptr anchor, int n)
{
    size_t place;
    uint32_t number = find(NULL);
    if (!anchor || is_inside(anchor) || find(anchor) < slot.anchors)
        return 0;
    if (number == slot.anchors && number < ANCHORS)
        slot.anchors++;
    if (vf_flex_wide_alloc(memory, room, &slot, number, (size_t)n, &place) != VF_OK)
        return 0;
    anchors[number] = anchor;
    *anchor = memory + place;
    give_back();
    return 1;
}

void flex_free(flex_ptr anchor)
{
    uint32_t number = find(anchor);
    if (!is_done(vf_flex_wide_free(memory, room, &slot, number)))
        return;
    *anchor = NULL;
    anchors[number] = NULL;
    while (slot.anchors > FEWEST && !anchors[slot.anchors - 1])
        slot.anchors--;
}

int flex_size(flex_ptr anchor)
{
    size_t size;
    return vf_flex_wide_size(memory, room, &slot, find(anchor), &size) == VF_OK ? (int)size : 0;
}

int flex_extend(flex_ptr anchor, int n)
{
    return is_done(vf_flex_wide_extend(memory, room, &slot, find(anchor), (size_t)n));
}

int flex_midextend(flex_ptr anchor, int at, int by)
{
    return is_done(vf_flex_wide_midextend(memory, room, &slot, find(anchor), (size_t)at, by));
}

int flex_budge(int n, void **a)
{
    size_t wanted = ((size_t)n + 7) / 8 * 8, spare = slot.base - given, place;
    if (!a || n <= 0)
        return 0;
    if (spare < wanted) {
        size_t more = (wanted - spare + PAGE - 1) / PAGE * PAGE;
        if ((!budging && slot.base < slot.top) || !is_done(vf_flex_wide_budge(memory, room, &slot, more, &place)))
            return 0;
    }
    *a = memset(memory + given, 0, wanted);
    given += wanted;
    return (int)wanted;
}

int flex_dont_budge(int n, void **a)
{
    return (void)n, (void)a, 0;
}

int flex_set_budge(int newstate)
{
    bool was = budging;
    budging = newstate != 0;
    return was;
}
