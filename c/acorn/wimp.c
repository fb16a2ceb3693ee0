/*
 * wimp.c: tasks with code of their own on a desk. Their names are kept here by their handles, since the desk's calls
 * take names; and the ref of the message that each took last, which an acknowledgement has to name. A task may end
 * without these calls, and another one may take its name: each look-up asks the desk whose name it is.
 */
#include "wimp.h"

#include <string.h>

enum { MOST_TASKS = 32, ROOM_OF_NAME = 13, BUFFER = 1 };
enum { SENDER = 4, MY_REF = 8, YOUR_REF = 12, ACTION = 16, DATA = 20, LONGEST = 256 };

struct known {
    wimp_t task;
    char name[ROOM_OF_NAME];
    uint32_t last;
};

static struct vf_desk *desk;
static struct known tasks[MOST_TASKS];

void wimp_use_desk(struct vf_desk *used)
{
    desk = used;
    memset(tasks, 0, sizeof tasks);
}

/* Whether the task that was kept here lives: the desk has its name, with its handle. */
static bool is_live(const struct known *it)
{
    struct vf_record none;
    uint32_t handle;
    size_t outs, ins;
    return it->task &&
           vf_desk_status(desk, VF_TEXT(it->name), &handle, &none, 0, &outs, &none, 0, &ins) == VF_OK &&
           handle == it->task;
}

/* The live task with a handle; null where there is none, and for the handle 0. */
static struct known *find(wimp_t task)
{
    int i;
    for (i = 0; i < MOST_TASKS; i++)
        if (tasks[i].task == task && is_live(&tasks[i]))
            return &tasks[i];
    return NULL;
}

/* A place for one more task: that of a task which has ended counts; null where as many live as a desk may have. */
static struct known *place(void)
{
    int i;
    for (i = 0; i < MOST_TASKS; i++)
        if (!is_live(&tasks[i]))
            return &tasks[i];
    return NULL;
}

static uint32_t word(const struct vf_message *block, int at)
{
    const uint8_t *bytes = block->bytes + at;
    return bytes[0] | (uint32_t)bytes[1] << 8 | (uint32_t)bytes[2] << 16 | (uint32_t)bytes[3] << 24;
}

static void set_word(struct vf_message *block, int at, uint32_t n)
{
    int i;
    for (i = 0; i < 4; i++)
        block->bytes[at + i] = (uint8_t)(n >> 8 * i);
}

os_error *wimp_initialise(const char *name, wimp_t *task)
{
    struct known *it;
    uint32_t status;
    if (!name || !task || !desk)
        return os_error_of(VF_NULL);
    /* With no place, 32 of these tasks live, and the desk refuses one more. */
    it = place();
    status = vf_desk_task(desk, VF_TEXT(name), BUFFER, VF_TASK_RAW, task);
    if (status == VF_OK && it) {
        it->task = *task;
        it->last = 0;
        strcpy(it->name, name);
    }
    return os_error_of(status);
}

os_error *wimp_close_down(wimp_t task)
{
    struct known *it = find(task);
    uint32_t status = it ? vf_desk_kill(desk, VF_TEXT(it->name)) : (uint32_t)VF_NO_TASK;
    if (status == VF_OK)
        memset(it, 0, sizeof *it);
    return os_error_of(status);
}

const char *wimp_name(wimp_t task)
{
    struct known *it = find(task);
    return it ? it->name : NULL;
}

os_error *wimp_poll(wimp_t task, struct vf_message *block, int *event)
{
    struct known *it = find(task);
    uint32_t status, code;
    if (!block || !event)
        return os_error_of(VF_NULL);
    if (!it)
        return os_error_of(VF_NO_TASK);
    status = vf_desk_take(desk, VF_TEXT(it->name), block, &code);
    if (status == VF_OK) {
        *event = (int)code;
        it->last = code == WIMP_USER_MESSAGE_RECORDED ? word(block, MY_REF) : 0;
    }
    return os_error_of(status);
}

/* The message that a task took last is answered, if it has the ref. */
static os_error *acknowledge(struct known *it, uint32_t ref)
{
    uint32_t answered;
    if (!ref || ref != it->last)
        return NULL;
    it->last = 0;
    return os_error_of(vf_desk_ack(desk, VF_TEXT(it->name), &answered));
}

os_error *wimp_send_message(wimp_t task, int event, struct vf_message *block, wimp_t to)
{
    struct known *it = find(task);
    uint32_t length, status, my_ref;
    if (!block)
        return os_error_of(VF_NULL);
    if (!it)
        return os_error_of(VF_NO_TASK);
    length = word(block, 0);
    if (length < DATA || length > LONGEST || length % 4)
        return os_error_of(VF_BAD_LENGTH);
    if (event == WIMP_USER_MESSAGE_ACKNOWLEDGE)
        return acknowledge(it, word(block, YOUR_REF));
    status = vf_desk_send(desk, VF_TEXT(it->name), (uint32_t)event, to, word(block, YOUR_REF), word(block, ACTION),
                          block->bytes + DATA, length - DATA, &my_ref);
    if (status == VF_OK) {
        set_word(block, SENDER, task);
        set_word(block, MY_REF, my_ref);
    }
    return os_error_of(status);
}

os_error *wimp_transfer_block(wimp_t from, uint32_t address, wimp_t to, uint32_t address2, int size)
{
    struct known *it = find(from);
    if (!it)
        return os_error_of(VF_NO_TASK);
    return os_error_of(size < 0 ? (uint32_t)VF_BAD_RANGE
                                : vf_desk_transfer_to(desk, VF_TEXT(it->name), address, to, address2, (uint32_t)size));
}
