/*
 * arena.h: memory of your own for desks. All that the library asks for comes from bytes that you hand over, one request
 * behind the other. Include this in one source file of a program that is linked with the archive.
 *
 *     static uint8_t room[VF_DESK_ROOM(64)];
 *     arena_begin(room, sizeof room);
 *     vf_desk_open(&desk, 64, 1, 1);
 *
 * What is given back is free again once the arena begins anew; the block that was taken last is at once. So let all
 * desks be closed before. One thread at a time may open, close and add files. The shared library asks `malloc`.
 */
#ifndef ARENA_H
#define ARENA_H

#include "vervainfile.h"

#include <string.h>

enum { ARENA_ALIGNMENT = 16 };

/* The bytes that are left, and the block that was taken last. */
static struct {
    uint8_t *next;
    uint8_t *end;
    uint8_t *last;
} arena;

/* From now on memory comes from these bytes. */
static inline void arena_begin(void *bytes, size_t length)
{
    size_t skipped = (size_t)(-(uintptr_t)bytes % ARENA_ALIGNMENT);
    arena.end = (uint8_t *)bytes + length;
    arena.next = skipped < length ? (uint8_t *)bytes + skipped : arena.end;
    arena.last = NULL;
}

/* How many bytes are left. */
static inline size_t arena_left(void) { return (size_t)(arena.end - arena.next); }

/* The three functions that the archive leaves to the program (docs/C.md, "Memory of your own"). */
#ifdef __cplusplus
extern "C" {
#endif

struct granted {
    bool ok;
    void *at;
};
struct granted rattle_alloc(size_t size, size_t align);
struct granted rattle_realloc(void *at, size_t old_size, size_t size, size_t align);
void rattle_dealloc(void *at);

struct granted rattle_alloc(size_t size, size_t align)
{
    static char nothing;
    struct granted refused = {false, &nothing}, given = {true, NULL};
    size_t rest = arena_left() / ARENA_ALIGNMENT * ARENA_ALIGNMENT;
    if (size > rest || align > ARENA_ALIGNMENT)
        return refused;
    given.at = arena.last = arena.next;
    arena.next += (size + ARENA_ALIGNMENT - 1) / ARENA_ALIGNMENT * ARENA_ALIGNMENT;
    return given;
}

struct granted rattle_realloc(void *at, size_t old_size, size_t size, size_t align)
{
    struct granted given;
    uint8_t *next = arena.next, *last = arena.last;
    rattle_dealloc(at);
    given = rattle_alloc(size, align);
    if (given.ok && given.at != at)
        memcpy(given.at, at, old_size < size ? old_size : size);
    if (!given.ok)
        arena.next = next, arena.last = last;
    return given;
}

void rattle_dealloc(void *at)
{
    if (at == arena.last && arena.last) {
        arena.next = arena.last;
        arena.last = NULL;
    }
}

#ifdef __cplusplus
}
#endif
#endif
