/*
 * os_heap.c: OS_Heap in plain C.
 *
 * Words are little-endian: at 0 "Heap", at 4 a link to the first hole, at 8 the base, at 12 the end. From 16 up to the
 * base segments lie one after the other. A used one has its size in its first word, and its block behind that. A hole
 * has a link and its size. A link is the distance to the next hole, 0 for none. Sizes are multiples of 8, no two holes
 * are neighbours, and the last segment is used.
 */
#include "os_heap.h"
#include "vervainfile.h"

#include <string.h>

enum { SPECIAL = 0, FREE = 4, BASE = 8, END = 12, FIRST = 16, UNIT = 8, WORD = 4, HOLE_WORDS = 8 };

#define SPECIAL_WORD 0x70616548u
#define LONGEST ((size_t)1 << 30)

static inline uint32_t word(const uint8_t *heap, size_t at)
{
    uint32_t w;
    memcpy(&w, heap + at, sizeof w);
    return w;
}

static inline void set_word(uint8_t *heap, size_t at, size_t w)
{
    uint32_t low = (uint32_t)w;
    memcpy(heap + at, &low, sizeof low);
}

/* Where the link at a place leads, 0 for nowhere. */
static inline size_t hole_after(const uint8_t *heap, size_t link)
{
    uint32_t distance = word(heap, link);
    return distance ? link + distance : 0;
}

static inline void lead_to(uint8_t *heap, size_t link, size_t hole)
{
    set_word(heap, link, hole ? hole - link : 0);
}

static inline size_t hole_size(const uint8_t *heap, size_t hole)
{
    return word(heap, hole + WORD);
}

static inline size_t segment_size(size_t n)
{
    return (n + WORD + UNIT - 1) / UNIT * UNIT;
}

/* Makes the bytes from `low` up to `high` free, between the hole whose link is at `link`, which they don't touch, and
 * the hole `next`. */
static void set_free(uint8_t *heap, size_t link, size_t low, size_t high, size_t next)
{
    if (high == word(heap, BASE)) {
        set_word(heap, BASE, low);
        lead_to(heap, link, 0);
        return;
    }
    if (next == high) {
        high += hole_size(heap, next);
        next = hole_after(heap, next);
    }
    lead_to(heap, link, low);
    lead_to(heap, low, next);
    set_word(heap, low + WORD, high - low);
}

/* Takes a segment of a size, and answers its place, 0 where there is no room. */
static size_t take(uint8_t *heap, size_t size)
{
    size_t link = FREE, place = hole_after(heap, FREE);
    while (place && hole_size(heap, place) < size) {
        link = place;
        place = hole_after(heap, place);
    }
    if (place) {
        size_t left = hole_size(heap, place) - size, next = hole_after(heap, place);
        if (left) {
            lead_to(heap, link, place + size);
            lead_to(heap, place + size, next);
            set_word(heap, place + size + WORD, left);
        } else {
            lead_to(heap, link, next);
        }
    } else {
        place = word(heap, BASE);
        if (place + size > word(heap, END))
            return 0;
        set_word(heap, BASE, place + size);
    }
    set_word(heap, place, size);
    memset(heap + place + WORD, 0, size - WORD);
    return place;
}

/* A used segment, and what lies round it. */
struct found {
    size_t place, size;
    size_t before; /* the link that leads to the last hole below it, and that hole's place: FREE where there is none */
    size_t below;
    size_t above; /* the first hole above it, 0 for none */
};

static bool find(const uint8_t *heap, size_t address, struct found *it)
{
    size_t base = word(heap, BASE), hole;
    if (address < FIRST + WORD || address - WORD >= base)
        return false;
    it->place = address - WORD;
    it->before = it->below = FREE;
    while ((hole = hole_after(heap, it->below)) && hole <= it->place) {
        it->before = it->below;
        it->below = hole;
    }
    it->above = hole;
    size_t at = it->below == FREE ? FIRST : it->below + hole_size(heap, it->below);
    while (at < it->place)
        at += word(heap, at);
    it->size = word(heap, it->place);
    return at == it->place;
}

static void release_found(uint8_t *heap, const struct found *it)
{
    bool touches = it->below != FREE && it->below + hole_size(heap, it->below) == it->place;
    set_free(heap, touches ? it->before : it->below, touches ? it->below : it->place, it->place + it->size, it->above);
}

/* Gives a segment the bytes behind it, up to a size. */
static void grow(uint8_t *heap, const struct found *it, size_t size)
{
    memset(heap + it->place + it->size, 0, size - it->size);
    set_word(heap, it->place, size);
}

/* Grows a segment into the hole that follows it. */
static void grow_into_hole(uint8_t *heap, const struct found *it, size_t size)
{
    size_t end = it->above + hole_size(heap, it->above), next = hole_after(heap, it->above), rest = it->place + size;
    if (rest < end) {
        lead_to(heap, it->below, rest);
        lead_to(heap, rest, next);
        set_word(heap, rest + WORD, end - rest);
    } else {
        lead_to(heap, it->below, next);
    }
    grow(heap, it, size);
}

/* Gives a segment more bytes, and answers its place then, 0 where there is no room. */
static size_t lengthen(uint8_t *heap, const struct found *it, size_t size)
{
    size_t behind = it->place + it->size;
    if (it->above == behind && size <= it->size + hole_size(heap, behind)) {
        grow_into_hole(heap, it, size);
        return it->place;
    }
    if (behind == word(heap, BASE) && it->place + size <= word(heap, END)) {
        set_word(heap, BASE, it->place + size);
        grow(heap, it, size);
        return it->place;
    }
    size_t place = take(heap, size);
    if (place) {
        memcpy(heap + place + WORD, heap + it->place + WORD, it->size - WORD);
        struct found old;
        find(heap, it->place + WORD, &old);
        release_found(heap, &old);
    }
    return place;
}

uint32_t os_heap_init(uint8_t *heap, size_t len)
{
    if (len < FIRST || len > LONGEST || len % UNIT)
        return VF_BAD_LENGTH;
    set_word(heap, SPECIAL, SPECIAL_WORD);
    set_word(heap, FREE, 0);
    set_word(heap, BASE, FIRST);
    set_word(heap, END, len);
    return VF_OK;
}

uint32_t os_heap_describe(const uint8_t *heap, size_t len, size_t *most, size_t *free)
{
    (void)len;
    size_t top = word(heap, END) - word(heap, BASE), largest = top, total = top;
    for (size_t hole = hole_after(heap, FREE); hole; hole = hole_after(heap, hole)) {
        size_t size = hole_size(heap, hole);
        largest = size > largest ? size : largest;
        total += size;
    }
    *most = largest < WORD ? 0 : largest - WORD;
    *free = total;
    return VF_OK;
}

uint32_t os_heap_claim(uint8_t *heap, size_t len, size_t n, size_t *address)
{
    (void)len;
    if (!n)
        return VF_BAD_SIZE;
    size_t place = n > LONGEST ? 0 : take(heap, segment_size(n));
    if (!place)
        return VF_NO_ROOM;
    *address = place + WORD;
    return VF_OK;
}

uint32_t os_heap_release(uint8_t *heap, size_t len, size_t address)
{
    (void)len;
    struct found it;
    if (!find(heap, address, &it))
        return VF_NOT_A_BLOCK;
    release_found(heap, &it);
    return VF_OK;
}

uint32_t os_heap_resize(uint8_t *heap, size_t len, size_t address, ptrdiff_t delta, size_t *moved_to)
{
    (void)len;
    struct found it;
    if (!find(heap, address, &it))
        return VF_NOT_A_BLOCK;
    size_t old = it.size - WORD;
    if (delta <= -(ptrdiff_t)old)
        return VF_BAD_SIZE;
    if (delta > (ptrdiff_t)LONGEST)
        return VF_NO_ROOM;
    size_t size = segment_size(old + (size_t)delta), place = it.place;
    if (size < it.size) {
        set_word(heap, place, size);
        set_free(heap, it.below, place + size, place + it.size, it.above);
    } else if (size > it.size) {
        place = lengthen(heap, &it, size);
        if (!place)
            return VF_NO_ROOM;
    }
    *moved_to = place + WORD;
    return VF_OK;
}

uint32_t os_heap_extend(uint8_t *heap, size_t len, ptrdiff_t delta)
{
    size_t old = word(heap, END);
    if (delta < -(ptrdiff_t)old)
        return VF_EXCESSIVE_SHRINK;
    if (delta > (ptrdiff_t)(len - old))
        return VF_SHORT;
    size_t end = old + (size_t)delta;
    if (end % UNIT)
        return VF_BAD_LENGTH;
    if (end < word(heap, BASE))
        return VF_EXCESSIVE_SHRINK;
    set_word(heap, END, end);
    return VF_OK;
}

uint32_t os_heap_block_size(const uint8_t *heap, size_t len, size_t address, size_t *size)
{
    (void)len;
    struct found it;
    if (!find(heap, address, &it))
        return VF_NOT_A_BLOCK;
    *size = it.size - WORD;
    return VF_OK;
}

static bool is_size(size_t size)
{
    return size && size % UNIT == 0;
}

/* Whether the link at a place is 0, or leads to a multiple of 8 from `least` up to 8 below the base. */
static bool is_link(const uint8_t *heap, size_t link, size_t least)
{
    size_t hole = hole_after(heap, link);
    return !word(heap, link) || (hole % UNIT == 0 && hole >= least && hole + HOLE_WORDS <= word(heap, BASE));
}

static uint32_t check_segments(const uint8_t *heap)
{
    size_t link = FREE, at = FIRST, base = word(heap, BASE);
    if (!is_link(heap, FREE, FIRST))
        return VF_BAD_LINK;
    while (at < base) {
        size_t hole = hole_after(heap, link), next = hole ? hole : base;
        size_t size = word(heap, at < next ? at : at + WORD);
        if (!is_size(size) || (at < next ? at + size > next : at + size >= base))
            return VF_BAD_SEGMENT;
        if (at >= next) {
            if (!is_link(heap, at, at + size + 1))
                return VF_BAD_LINK;
            link = at;
        }
        at += size;
    }
    return VF_OK;
}

uint32_t os_heap_check(const uint8_t *heap, size_t len)
{
    if (len < FIRST || len > LONGEST)
        return VF_BAD_LENGTH;
    if (word(heap, SPECIAL) != SPECIAL_WORD)
        return VF_BAD_DESCRIPTOR;
    size_t end = word(heap, END), base = word(heap, BASE);
    if (end > len)
        return VF_SHORT;
    if (end < FIRST || end % UNIT || base < FIRST || base % UNIT || base > end)
        return VF_BAD_DESCRIPTOR;
    return check_segments(heap);
}

bool os_heap_is_same(const uint8_t *heap, const uint8_t *other)
{
    if (memcmp(heap, other, FIRST))
        return false;
    size_t at = FIRST, hole = hole_after(heap, FREE), base = word(heap, BASE);
    while (at < base) {
        bool is_hole = at == hole;
        size_t size = word(heap, is_hole ? at + WORD : at);
        if (memcmp(heap + at, other + at, is_hole ? (size_t)HOLE_WORDS : size))
            return false;
        hole = is_hole ? hole_after(heap, at) : hole;
        at += size;
    }
    return true;
}
