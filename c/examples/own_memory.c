/*
 * own_memory.c: a desk in an array of the program's own (arena.h): nothing is asked of malloc. Linked with the archive,
 * the desk lies in that array. A second desk takes the bytes of the first one, once that is closed.
 */
#include "arena.h"

#include <stdio.h>

enum { PAGES = 16 };

static uint8_t room[VF_DESK_ROOM(PAGES)];

/* Opens a desk in the array, for a task with one block, and tells what is free then. */
static uint32_t use(const char *task, uint32_t size)
{
    struct vf_desk desk = VF_DESK_CLOSED;
    struct vf_area areas[1];
    uint32_t told, status, free = 0;
    size_t count;
    arena_begin(room, sizeof room);
    status = vf_desk_open(&desk, PAGES, 1, 1);
    if (status == VF_OK)
        status = vf_desk_task(&desk, VF_TEXT(task), 4096, VF_TASK_PLAIN, &told);
    if (status == VF_OK)
        status = vf_desk_alloc(&desk, VF_TEXT(task), 0, size, &told);
    if (status == VF_OK)
        status = vf_desk_areas(&desk, &free, areas, 1, &count);
    printf("%s: %s, %u pages free\n", task, vf_status_text(status), (unsigned)free);
    vf_desk_close(&desk);
    return status;
}

int main(void)
{
    return use("first", 20000) || use("second", 40000);
}
