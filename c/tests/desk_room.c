/*
 * desk_room.c: desks of several sizes in just as many bytes as VF_DESK_ROOM says, by the arena of c/examples, with a page
 * on each side that nobody may touch. Each is filled, answers as it should, and is closed. The room is tight: little of
 * it is left, and in a sixteenth less no desk can be opened.
 */
#define _DEFAULT_SOURCE
#include "expect.h"
#include "../examples/arena.h"

#include <sys/mman.h>
#include <unistd.h>

enum { LONGEST_TEXT = 1 << 16, TASKS = 8, BLOCKS = 40, SPARED = 16 };
enum side { AT_BEGIN, AT_END };

static struct vf_desk desk = VF_DESK_CLOSED;
static uint32_t number;
static size_t count;
static uint8_t text[LONGEST_TEXT];
static char line[100];

/* Takes a line, and tells whether its reply begins so. */
static bool says(const char *wanted)
{
    return vf_desk_line(&desk, VF_TEXT(line)) == VF_OK &&
           vf_desk_reply(&desk, text, sizeof text, &count) == VF_OK && memcmp(text, wanted, strlen(wanted)) == 0;
}

/* Tasks, until there is no room for one more or there are eight; gives how many. */
static int start_tasks(void)
{
    int tasks = 0;
    for (; tasks < TASKS; tasks++) {
        sprintf(line, "task t%d 100", tasks);
        if (!says("ok"))
            break;
    }
    return tasks;
}

/* The tasks' C heaps grow in turn until the pages are used up, so that each has been the longest one for a while. */
static void fill(int tasks)
{
    bool more = true;
    for (int round = 0; round < BLOCKS * TASKS && more; round++) {
        more = false;
        for (int i = 0; i < tasks; i++) {
            sprintf(line, "claim t%d %d", (i + round / 3) % tasks, 3000 + 100 * (round % 7));
            more = says("ok") || more;
        }
    }
    EXPECT(!more);
}

/* All tasks end, and one takes what they had. */
static void empty(int tasks)
{
    for (int i = 0; i < tasks; i++) {
        sprintf(line, "kill t%d", i);
        EXPECT(says("ok"));
    }
    sprintf(line, "task last 100");
    EXPECT(says("ok"));
    EXPECT(vf_desk_alloc(&desk, VF_TEXT("last"), 0, 10000, &number) == VF_OK);
    EXPECT(vf_desk_claim(&desk, VF_TEXT("last"), 2000, &number) == VF_OK);
}

/* Bytes of whole pages between two pages that may not be touched. */
static uint8_t *guarded(size_t length, size_t page)
{
    uint8_t *all = mmap(NULL, length + 2 * page, PROT_NONE, MAP_PRIVATE | MAP_ANONYMOUS, -1, 0);
    EXPECT(all != MAP_FAILED && mprotect(all + page, length, PROT_READ | PROT_WRITE) == 0);
    return all + page;
}

static void try_room(uint32_t pages, enum side side)
{
    size_t page = (size_t)sysconf(_SC_PAGESIZE), room = VF_DESK_ROOM(pages);
    size_t length = (room + page - 1) / page * page;
    uint8_t *bytes = guarded(length, page);
    uint8_t *from = side == AT_BEGIN ? bytes : bytes + length - room;
    arena_begin(from, room - room / SPARED);
    EXPECT(vf_desk_open(&desk, pages, 1, 1) == VF_NO_MEMORY && !desk.live);
    arena_begin(from, room);
    EXPECT(vf_desk_open(&desk, pages, 1, 1) == VF_OK);
    EXPECT(arena_left() < room / SPARED);
    size_t left = arena_left();
    int tasks = start_tasks();
    fill(tasks);
    empty(tasks);
    EXPECT(arena_left() == left);
    EXPECT(vf_desk_close(&desk) == VF_OK);
    EXPECT(munmap(bytes - page, length + 2 * page) == 0);
}

int main(void)
{
    static const uint32_t sizes[] = {8, 9, 31, 64, 100, 256, 1000, 1024};
    for (size_t i = 0; i < sizeof sizes / sizeof *sizes; i++) {
        try_room(sizes[i], AT_BEGIN);
        try_room(sizes[i], AT_END);
    }
    return ended("desk_room");
}
