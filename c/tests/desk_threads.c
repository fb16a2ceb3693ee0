/*
 * desk_threads.c: one desk that two threads use in turn, under a lock of the program's, and one desk for each thread
 * with no lock. The desk that is shared was opened by a third thread, and is closed by that.
 */
#define _DEFAULT_SOURCE
#include "expect.h"

#include <pthread.h>

enum { TURNS = 400, PAGES = 16 };

static struct vf_desk shared = VF_DESK_CLOSED;
static pthread_mutex_t lock = PTHREAD_MUTEX_INITIALIZER;

/* One turn of a task: a block that is written, read and taken away. Tells whether all was as it should be. */
static bool turn(struct vf_desk *desk, const char *name, uint8_t value)
{
    uint8_t bytes[100], back[100];
    uint32_t address, size;
    struct vf_block block;
    size_t count;
    memset(bytes, value, sizeof bytes);
    return vf_desk_alloc(desk, VF_TEXT(name), 3, sizeof bytes, &address) == VF_OK
           && vf_desk_put(desk, VF_TEXT(name), 3, 0, bytes, sizeof bytes) == VF_OK
           && vf_desk_show(desk, VF_TEXT(name), 3, back, sizeof back, &size) == VF_OK
           && memcmp(bytes, back, sizeof back) == 0
           && vf_desk_blocks(desk, VF_TEXT(name), &block, 1, &count) == VF_OK && count == 1
           && block.address == address && vf_desk_free(desk, VF_TEXT(name), 3) == VF_OK;
}

/* Each call under the lock. */
static void *share(void *name)
{
    bool fine = true;
    for (int i = 0; i < TURNS; i++) {
        pthread_mutex_lock(&lock);
        fine = turn(&shared, name, (uint8_t)i) && fine;
        pthread_mutex_unlock(&lock);
    }
    return fine ? name : NULL;
}

/* A desk of the thread's own. */
static void *own(void *name)
{
    struct vf_desk desk = VF_DESK_CLOSED;
    uint32_t handle;
    bool fine = vf_desk_open(&desk, PAGES, 1, 1) == VF_OK
                && vf_desk_task(&desk, VF_TEXT(name), 100, VF_TASK_PLAIN, &handle) == VF_OK;
    for (int i = 0; i < TURNS && fine; i++)
        fine = turn(&desk, name, (uint8_t)i);
    return vf_desk_close(&desk) == VF_OK && fine ? name : NULL;
}

/* Two threads do the same, and neither finds anything amiss. */
static void in_two(void *(*work)(void *))
{
    static char names[2][2] = {"a", "b"};
    pthread_t threads[2];
    void *told;
    for (int i = 0; i < 2; i++)
        EXPECT(pthread_create(&threads[i], NULL, work, names[i]) == 0);
    for (int i = 0; i < 2; i++) {
        EXPECT(pthread_join(threads[i], &told) == 0);
        EXPECT(told == names[i]);
    }
}

int main(void)
{
    uint32_t handle;
    EXPECT(vf_desk_open(&shared, PAGES, 1, 1) == VF_OK);
    EXPECT(vf_desk_task(&shared, VF_TEXT("a"), 100, VF_TASK_PLAIN, &handle) == VF_OK);
    EXPECT(vf_desk_task(&shared, VF_TEXT("b"), 100, VF_TASK_PLAIN, &handle) == VF_OK);
    in_two(share);
    EXPECT(vf_desk_close(&shared) == VF_OK);
    in_two(own);
    return ended("desk_threads");
}
