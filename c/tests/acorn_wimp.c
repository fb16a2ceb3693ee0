/*
 * acorn_wimp.c: tasks by Acorn's names (c/acorn/wimp.h). What each call does and refuses; the handle of a task that has
 * ended, after another one took its name; and random calls next to a second desk, which is told the same by name: the
 * same answers and the same message blocks.
 */
#include "expect.h"
#include "wimp.h"

#ifndef CALLS
#define CALLS 20000
#endif

enum { PAGES = 64, MOST_TASKS = 32, DEATHS = 100, NAMES = 6, KNOWN = 64, FIRST_BLOCK = 0x9008 };
enum { HEAD = 20, LONGEST = 256, MY_REF = 8, YOUR_REF = 12, ACTION = 16 };

static struct vf_desk desk = VF_DESK_CLOSED, twin = VF_DESK_CLOSED;
static struct vf_message block, before;
static wimp_t task;
static int event;
static uint32_t number;

static bool is_error(const os_error *error, uint32_t status)
{
    return error && error->errnum == status && !strcmp(error->errmess, vf_status_text(status));
}

#define IS_DONE(call) EXPECT((call) == NULL)

/* A call that answers this status as its error, and tells nothing. */
#define REFUSES(status, call)                                       \
    do {                                                            \
        before = block;                                             \
        task = UNSET;                                               \
        event = UNSET;                                              \
        EXPECT(is_error((call), (status)));                         \
        EXPECT(task == UNSET && event == UNSET);                    \
        EXPECT(!memcmp(&before, &block, sizeof block));             \
    } while (0)

static void set_word(struct vf_message *it, int at, uint32_t n)
{
    for (int i = 0; i < 4; i++)
        it->bytes[at + i] = (uint8_t)(n >> 8 * i);
}

static uint32_t word(const struct vf_message *it, int at)
{
    const uint8_t *bytes = it->bytes + at;
    return bytes[0] | (uint32_t)bytes[1] << 8 | (uint32_t)bytes[2] << 16 | (uint32_t)bytes[3] << 24;
}

/* Makes the block a message of so many bytes. */
static struct vf_message *message(uint32_t length, uint32_t your_ref, uint32_t action)
{
    memset(&block, 0xa5, sizeof block);
    set_word(&block, 0, length);
    set_word(&block, YOUR_REF, your_ref);
    set_word(&block, ACTION, action);
    return &block;
}

/* A message that is sent, or an acknowledgement, with the status that it is refused by. */
#define REFUSES_TO_SEND(status, handle, event, length, ref, to)                \
    do {                                                                       \
        message((length), (ref), 9);                                           \
        REFUSES((status), wimp_send_message((handle), (event), &block, (to))); \
    } while (0)

/* Begins with an open desk that has no task. */
static void begin(uint32_t pages, uint32_t first_handle)
{
    EXPECT(vf_desk_close(&desk) == VF_OK);
    EXPECT(vf_desk_open(&desk, pages, first_handle, 1) == VF_OK);
    wimp_use_desk(&desk);
}

static wimp_t started(const char *name)
{
    wimp_t told = UNSET;
    IS_DONE(wimp_initialise(name, &told));
    return told;
}

/* Each call refuses a handle that no task has which was started here and lives. */
static void is_no_task(wimp_t handle)
{
    EXPECT(!wimp_name(handle));
    REFUSES(VF_NO_TASK, wimp_close_down(handle));
    REFUSES(VF_NO_TASK, wimp_poll(handle, &block, &event));
    REFUSES_TO_SEND(VF_NO_TASK, handle, WIMP_USER_MESSAGE, HEAD, 0, 1);
    REFUSES_TO_SEND(VF_NO_TASK, handle, WIMP_USER_MESSAGE_ACKNOWLEDGE, HEAD, 1, 1);
    REFUSES(VF_NO_TASK, wimp_transfer_block(handle, FIRST_BLOCK, 1, FIRST_BLOCK, 1));
}

static void nothing_is_done_without_a_desk(void)
{
    wimp_use_desk(NULL);
    REFUSES(VF_NULL, wimp_initialise("a", &task));
    is_no_task(0);
    is_no_task(1);
    wimp_use_desk(&desk);
    REFUSES(VF_CLOSED, wimp_initialise("a", &task));
    is_no_task(1);
}

static void tasks_come_and_go(void)
{
    begin(PAGES, 7);
    REFUSES(VF_NULL, wimp_initialise(NULL, &task));
    REFUSES(VF_NULL, wimp_initialise("a", NULL));
    REFUSES(VF_BAD_ARGUMENT, wimp_initialise("1", &task));
    REFUSES(VF_BAD_ARGUMENT, wimp_initialise("longer-than-12", &task));
    EXPECT(started("a") == 7 && started("Exactly12let") == 8);
    EXPECT(!strcmp(wimp_name(7), "a") && !strcmp(wimp_name(8), "Exactly12let"));
    REFUSES(VF_NAME_IN_USE, wimp_initialise("a", &task));
    is_no_task(0);
    is_no_task(9);
    is_no_task(UINT32_MAX);
    IS_DONE(wimp_close_down(7));
    is_no_task(7);
    EXPECT(started("a") == 9 && !strcmp(wimp_name(9), "a"));
    is_no_task(7);
    /* Tasks that the desk plays are none of these, whatever their handles. */
    EXPECT(vf_desk_task(&desk, VF_TEXT("played"), 4, VF_TASK_PLAIN, &number) == VF_OK && number == 10);
    is_no_task(10);
    wimp_use_desk(&desk);
    is_no_task(8);
    begin(8, 1);
    EXPECT(vf_desk_area(&desk, 4, 8 * 4096, &number) == VF_NO_ROOM);
    EXPECT(vf_desk_area(&desk, 4, 6 * 4096, &number) == VF_OK && started("a") == 1);
    REFUSES(VF_NO_ROOM, wimp_initialise("b", &task));
    begin(PAGES, UINT32_MAX);
    EXPECT(started("last") == UINT32_MAX && !strcmp(wimp_name(UINT32_MAX), "last"));
    REFUSES(VF_NO_HANDLES, wimp_initialise("b", &task));
}

static void messages_go_between_tasks(void)
{
    begin(PAGES, 1);
    wimp_t a = started("a"), b = started("b");
    REFUSES(VF_NULL, wimp_poll(a, NULL, &event));
    REFUSES(VF_NULL, wimp_poll(a, &block, NULL));
    REFUSES(VF_NULL, wimp_send_message(a, WIMP_USER_MESSAGE, NULL, b));
    static const uint32_t lengths[] = {0, 16, 19, 22, 257, 260, UINT32_MAX};
    for (size_t i = 0; i < sizeof lengths / sizeof *lengths; i++)
        REFUSES_TO_SEND(VF_BAD_LENGTH, a, WIMP_USER_MESSAGE, lengths[i], 0, b);
    static const int events[] = {0, 16, 20, -1, INT32_MIN};
    for (size_t i = 0; i < sizeof events / sizeof *events; i++)
        REFUSES_TO_SEND(VF_BAD_ARGUMENT, a, events[i], HEAD, 0, b);
    REFUSES_TO_SEND(VF_NO_TASK, a, WIMP_USER_MESSAGE, HEAD, 0, 3);
    REFUSES_TO_SEND(VF_BAD_REF, a, WIMP_USER_MESSAGE, HEAD, 1, b);
    IS_DONE(wimp_send_message(a, WIMP_USER_MESSAGE_RECORDED, message(LONGEST, 0, 9), b));
    EXPECT(word(&block, 4) == a && word(&block, MY_REF) == 1 && word(&block, YOUR_REF) == 0);
    before = block;
    IS_DONE(wimp_poll(b, &block, &event));
    EXPECT(event == WIMP_USER_MESSAGE_RECORDED && !memcmp(&before, &block, sizeof block));
    /* Another ref answers nothing; that of the message answers it, once. */
    IS_DONE(wimp_send_message(b, WIMP_USER_MESSAGE_ACKNOWLEDGE, message(HEAD, 2, 9), a));
    IS_DONE(wimp_send_message(b, WIMP_USER_MESSAGE_ACKNOWLEDGE, message(HEAD, 1, 9), a));
    IS_DONE(wimp_send_message(b, WIMP_USER_MESSAGE_ACKNOWLEDGE, message(HEAD, 1, 9), a));
    IS_DONE(wimp_poll(b, &block, &event)), EXPECT(event == WIMP_NULL_REASON_CODE);
    IS_DONE(wimp_poll(a, &block, &event)), EXPECT(event == WIMP_NULL_REASON_CODE);
    /* What nobody answers comes back. */
    IS_DONE(wimp_send_message(a, WIMP_USER_MESSAGE_RECORDED, message(HEAD, 0, 9), b));
    IS_DONE(wimp_poll(b, &block, &event)), EXPECT(event == WIMP_USER_MESSAGE_RECORDED);
    IS_DONE(wimp_send_message(b, WIMP_USER_MESSAGE_ACKNOWLEDGE, message(HEAD, 0, 9), a));
    IS_DONE(wimp_poll(b, &block, &event)), EXPECT(event == WIMP_NULL_REASON_CODE);
    IS_DONE(wimp_poll(a, &block, &event)), EXPECT(event == WIMP_USER_MESSAGE_ACKNOWLEDGE && word(&block, MY_REF) == 2);
}

static void bytes_go_where_they_are_asked_for(void)
{
    uint8_t bytes[5];
    begin(PAGES, 1);
    wimp_t a = started("a"), b = started("b");
    EXPECT(vf_desk_alloc(&desk, VF_TEXT("a"), 0, 5, &number) == VF_OK && number == FIRST_BLOCK);
    EXPECT(vf_desk_alloc(&desk, VF_TEXT("b"), 0, 5, &number) == VF_OK && number == FIRST_BLOCK);
    EXPECT(vf_desk_put(&desk, VF_TEXT("a"), 0, 0, (const uint8_t *)"hello", 5) == VF_OK);
    REFUSES(VF_BAD_RANGE, wimp_transfer_block(a, FIRST_BLOCK, b, FIRST_BLOCK, 5));
    REFUSES(VF_BAD_RANGE, wimp_transfer_block(a, FIRST_BLOCK, b, FIRST_BLOCK, -1));
    REFUSES(VF_BAD_RANGE, wimp_transfer_block(a, FIRST_BLOCK, b, FIRST_BLOCK, INT32_MIN));
    REFUSES(VF_NO_TASK, wimp_transfer_block(a, FIRST_BLOCK, 3, FIRST_BLOCK, 5));
    set_word(message(HEAD + 8, 0, 6), HEAD, FIRST_BLOCK);
    set_word(&block, HEAD + 4, 5);
    IS_DONE(wimp_send_message(b, WIMP_USER_MESSAGE_RECORDED, &block, a));
    IS_DONE(wimp_poll(a, &block, &event)), EXPECT(event == WIMP_USER_MESSAGE_RECORDED);
    IS_DONE(wimp_transfer_block(a, FIRST_BLOCK, b, FIRST_BLOCK, 5));
    EXPECT(vf_desk_show(&desk, VF_TEXT("b"), 0, bytes, 5, &number) == VF_OK && !memcmp(bytes, "hello", 5));
}

/* A task ends without wimp_close_down, and another one takes its name: the handle of before is nobody's, for all calls,
 * and what waits for the new task stays. */
static void an_old_handle_is_not_its_successors(void)
{
    begin(PAGES, 1);
    wimp_t old = started("a"), b = started("b");
    IS_DONE(wimp_send_message(b, WIMP_USER_MESSAGE_RECORDED, message(HEAD, 0, 9), old));
    IS_DONE(wimp_poll(old, &block, &event)), EXPECT(event == WIMP_USER_MESSAGE_RECORDED);
    EXPECT(vf_desk_kill(&desk, VF_TEXT("a")) == VF_OK);
    is_no_task(old);
    wimp_t new = started("a");
    EXPECT(new == 3 && !strcmp(wimp_name(new), "a"));
    is_no_task(old);
    IS_DONE(wimp_send_message(b, WIMP_USER_MESSAGE_RECORDED, message(HEAD, 0, 8), new));
    is_no_task(old);
    IS_DONE(wimp_poll(new, &block, &event));
    EXPECT(event == WIMP_USER_MESSAGE_RECORDED && word(&block, ACTION) == 8 && word(&block, MY_REF) == 2);
    is_no_task(old);
    /* Nor is it one's that the program didn't start here. */
    EXPECT(vf_desk_kill(&desk, VF_TEXT("a")) == VF_OK);
    EXPECT(vf_desk_task(&desk, VF_TEXT("a"), 4, VF_TASK_RAW, &number) == VF_OK && number == 4);
    is_no_task(old);
    is_no_task(new);
    is_no_task(4);
    EXPECT(vf_desk_kill(&desk, VF_TEXT("a")) == VF_OK && !strcmp(wimp_name(b), "b"));
    EXPECT(vf_desk_close(&desk) == VF_OK);
    is_no_task(b);
}

/* However many tasks have ended, as many may live as on a desk of their own. */
static void the_dead_take_no_room(void)
{
    char name[] = "a0";
    wimp_t all[MOST_TASKS];
    begin(1024, 1);
    for (int i = 0; i < DEATHS; i++) {
        EXPECT(started("a") == (wimp_t)i + 1 && vf_desk_kill(&desk, VF_TEXT("a")) == VF_OK);
    }
    for (int i = 0; i < MOST_TASKS; i++) {
        name[0] = (char)('a' + i / 10);
        name[1] = (char)('0' + i % 10);
        all[i] = started(name);
        EXPECT(wimp_name(all[i]) && !strcmp(wimp_name(all[i]), name));
    }
    REFUSES(VF_TOO_MANY_TASKS, wimp_initialise("z", &task));
    REFUSES(VF_BAD_ARGUMENT, wimp_initialise("0", &task));
    REFUSES(VF_NAME_IN_USE, wimp_initialise("a0", &task));
    EXPECT(vf_desk_kill(&desk, VF_TEXT("b5")) == VF_OK && started("z") == all[MOST_TASKS - 1] + 1);
    for (int i = 0; i < MOST_TASKS; i++)
        EXPECT(i == 15 ? !wimp_name(all[i]) : wimp_name(all[i]) != NULL);
}

/* Tasks of random calls: by each handle that was given its name, and the recorded message that it holds. */
static struct { char name[2]; bool lives; uint32_t held; } given[KNOWN];
static uint32_t count;

static bool answers(const os_error *error, uint32_t status)
{
    return status == VF_OK ? !error : is_error(error, status);
}

static bool starts(void)
{
    char name[2] = {(char)('a' + below(NAMES)), 0};
    wimp_t told = 0;
    uint32_t wanted = 0, status = vf_desk_task(&twin, VF_TEXT(name), 1, VF_TASK_RAW, &wanted);
    if (!answers(wimp_initialise(name, &told), status) || told != wanted)
        return false;
    if (status == VF_OK) {
        memcpy(given[count].name, name, sizeof name);
        given[count].held = 0;
        given[count++].lives = true;
    }
    return true;
}

/* A task ends by its handle, or by its name behind the back of these calls. */
static bool ends(uint32_t i)
{
    const char *name = given[i].name;
    bool is_told = below(2), lives = given[i].lives;
    if (!lives && !is_told)
        return true;
    given[i].lives = false;
    if (lives && vf_desk_kill(&twin, VF_TEXT(name)) != VF_OK)
        return false;
    return is_told ? answers(wimp_close_down(i + 1), lives ? VF_OK : VF_NO_TASK)
                   : vf_desk_kill(&desk, VF_TEXT(name)) == VF_OK;
}

static bool polls(uint32_t i)
{
    struct vf_message wanted = block;
    uint32_t code = 0, status = VF_NO_TASK;
    int told = 0;
    if (given[i].lives)
        status = vf_desk_take(&twin, VF_TEXT(given[i].name), &wanted, &code);
    if (status == VF_OK)
        given[i].held = code == WIMP_USER_MESSAGE_RECORDED ? word(&wanted, MY_REF) : 0;
    return answers(wimp_poll(i + 1, &block, &told), status) && (uint32_t)told == code &&
           !memcmp(&wanted, &block, sizeof block);
}

static bool sends(uint32_t i)
{
    int code = WIMP_USER_MESSAGE + (int)below(2);
    uint32_t to = below(count + 2), n = HEAD + 4 * below(60);
    uint32_t answered = below(3) ? 0 : below(2) ? given[i].held : below(9);
    uint32_t my_ref = 0, status = VF_NO_TASK;
    struct vf_message *it = message(n, answered, below(5) + 20);
    if (given[i].lives)
        status = vf_desk_send(&twin, VF_TEXT(given[i].name), (uint32_t)code, to, answered, word(it, ACTION),
                              it->bytes + HEAD, n - HEAD, &my_ref);
    return answers(wimp_send_message(i + 1, code, it, to), status) &&
           (status != VF_OK || (word(it, 4) == i + 1 && word(it, MY_REF) == my_ref));
}

/* A message is acknowledged, mostly the one that is held. */
static bool acknowledges(uint32_t i)
{
    uint32_t ref = below(4) ? given[i].held : below(9), answered;
    bool lives = given[i].lives, is_held = ref && ref == given[i].held;
    if (lives && is_held) {
        given[i].held = 0;
        if (vf_desk_ack(&twin, VF_TEXT(given[i].name), &answered) != VF_OK)
            return false;
    }
    return answers(wimp_send_message(i + 1, WIMP_USER_MESSAGE_ACKNOWLEDGE, message(HEAD, ref, 9), 1),
                   lives ? VF_OK : VF_NO_TASK);
}

static bool is_alike(void)
{
    uint32_t i = count ? below(4) && count > NAMES ? count - 1 - below(NAMES) : below(count) : 0;
    const char *name = count ? wimp_name(i + 1) : NULL;
    if (!count || !below(8))
        return starts();
    if (given[i].lives ? !name || strcmp(name, given[i].name) : name != NULL)
        return false;
    switch (below(9)) {
    case 0: return ends(i);
    case 1: return acknowledges(i);
    case 2:
    case 3:
    case 4: return sends(i);
    default: return polls(i);
    }
}

/* Random calls on a desk and its twin, up to the first one that differs. */
static bool compare(int calls)
{
    begin(PAGES, 1);
    EXPECT(vf_desk_open(&twin, PAGES, 1, 1) == VF_OK);
    for (count = 0; calls && count < KNOWN; calls--)
        if (!is_alike()) {
            fprintf(stderr, "%d calls before the last one, it differs\n", calls);
            EXPECT(!"the task is the desk's");
            break;
        }
    EXPECT(vf_desk_close(&twin) == VF_OK);
    return calls == 0;
}

int main(void)
{
    nothing_is_done_without_a_desk();
    tasks_come_and_go();
    messages_go_between_tasks();
    bytes_go_where_they_are_asked_for();
    an_old_handle_is_not_its_successors();
    the_dead_take_no_room();
    for (int round = 0; round < CALLS / 500 && !failures; round++)
        compare(500);
    EXPECT(vf_desk_close(&desk) == VF_OK);
    return ended("acorn_wimp");
}
