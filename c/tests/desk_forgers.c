/*
 * desk_forgers.c: random scripts in which tasks with code of their own save, load and forge what they can, beside tasks
 * that the desk plays. The desk answers each line as the plain desk of c/plain does (raw_desk.h), and in the end it
 * tells the same of all blocks and records. A line that would need more pages than that looks at is left out.
 */
#include "expect.h"
#include "raw_desk.h"

#ifndef CALLS
#define CALLS 40000
#endif

enum { RUN = 200, PAGES = 64, ROOM = 600, TASKS = 5, FIRST_FLEX = 0x9008, FIRST_HEAP = 0x8114 };
enum { DATA_SAVE = 1, DATA_SAVE_ACK = 2, DATA_LOAD = 3, DATA_LOAD_ACK = 4, RAM_FETCH = 6, RAM_TRANSMIT = 7 };

static const char *const names[TASKS] = {"a", "b", "c", "r", "q"};
static struct vf_desk desk = VF_DESK_CLOSED;
static struct raw_desk plain;
static char line[ROOM];

/* ---- both desks */

static void both(void)
{
    static char text[RAW_REPLY];
    size_t n = 0;
    if (!raw_desk_fits(&plain, line))
        return;
    raw_desk_line(&plain, line);
    EXPECT(vf_desk_line(&desk, VF_TEXT(line)) == VF_OK);
    EXPECT(vf_desk_reply(&desk, (uint8_t *)text, sizeof text, &n) == VF_OK);
    bool alike = n == strlen(plain.reply) && memcmp(text, plain.reply, n) == 0;
    if (!alike && failures < MOST_TOLD)
        fprintf(stderr, "%s\n  the desk: %.*s  the plain one: %s", line, (int)n, text, plain.reply);
    EXPECT(alike);
}

#define SAYS(...) (snprintf(line, ROOM, __VA_ARGS__), both())

/* ---- what they know: handles, refs and addresses of all that is there */

static struct raw_task *some_task(void) { return &plain.tasks[below(RAW_TASKS)]; }
static const char *name(void) { return names[below(TASKS)]; }
static const char *program(void) { return names[below(5) ? 3 + below(2) : below(3)]; }

static uint32_t handle(void)
{
    struct raw_task *t = some_task();
    return t->live ? t->handle : below(30) ? 1 + below(plain.next_handle) : 99;
}

static uint32_t ref(void)
{
    struct raw_task *t = some_task();
    switch (below(6)) {
    case 0: return 0;
    case 1: return plain.queued ? plain.post[below(plain.queued)].me : 0;
    case 2: return t->has_held ? t->held.me : 0;
    case 3: return t->ins ? t->in[below(t->ins)].last : 0;
    case 4: return t->outs ? (below(2) ? t->out[below(t->outs)].last : t->out[0].id) : 0;
    default: return (uint32_t)plain.next_ref - below(3);
    }
}

static uint32_t place(void)
{
    struct raw_task *t = some_task();
    uint32_t i;
    switch (below(4)) {
    case 0: return FIRST_HEAP + below(3);
    case 1: return t->ins ? t->in[below(t->ins)].buffer + below(2) : FIRST_HEAP;
    case 2:
        i = t->flexes ? below(t->flexes) : 0;
        return t->flexes ? raw_desk_flex_address(t, i) + below(2) * t->flex[i].size : FIRST_FLEX;
    default: return t->segments ? 0x8104 + t->heap[below(t->segments)].key : 0x8000;
    }
}

/* ---- what they send */

static void spell(uint32_t n)
{
    size_t at = strlen(line);
    for (int i = 0; i < 4; i++)
        at += (size_t)snprintf(line + at, ROOM - at, "%02x", (unsigned)(n >> 8 * i & 0xff));
}

/* The data of a message of this action, as it should be or nearly so. */
static void spell_data(uint32_t action, uint32_t first, uint32_t second)
{
    strcat(line, " ");
    if (action == RAM_FETCH || action == RAM_TRANSMIT) {
        spell(first);
        if (below(20))
            spell(second);
        return;
    }
    for (int i = 0; i < 4; i++)
        spell(below(2));
    spell(second);
    spell(0xffd);
    spell(below(6) ? 0x00636f64 : 0x61636f64);
    if (!below(4))
        spell(below(2));
}

static void send(const char *by, uint32_t code, uint32_t to, uint32_t yours, uint32_t action, uint32_t first,
                 uint32_t second)
{
    snprintf(line, ROOM, "send %s %u %u %u %u", by, (unsigned)code, (unsigned)to, (unsigned)yours, (unsigned)action);
    if ((action >= DATA_SAVE && action <= DATA_LOAD_ACK) || action == RAM_FETCH || action == RAM_TRANSMIT)
        spell_data(action, first, second);
    else if (below(2))
        strcat(line, " 0123456789abcdef");
    both();
}

static void forge(void)
{
    static const uint32_t some[] = {DATA_SAVE, DATA_SAVE, DATA_SAVE_ACK, DATA_LOAD, DATA_LOAD_ACK, RAM_FETCH, RAM_FETCH,
                                    RAM_TRANSMIT, RAM_TRANSMIT, 0, 5, 9, UINT32_MAX};
    uint32_t second = below(8) ? below(9) : UINT32_MAX;
    send(program(), 17 + below(2), handle(), ref(), some[below(sizeof some / sizeof *some)], place(), second);
}

static uint32_t word_at(const struct raw_message *m, uint32_t at)
{
    return m->data[at] | (uint32_t)m->data[at + 1] << 8 | (uint32_t)m->data[at + 2] << 16 | (uint32_t)m->data[at + 3] << 24;
}

/* Answers the message that a task holds, as a program does that means it. */
static void answer(struct raw_task *t)
{
    const struct raw_message m = t->held;
    uint32_t room, n;
    switch (m.action) {
    case DATA_SAVE: send(t->name, 18, m.from, m.me, RAM_FETCH, FIRST_HEAP, 1 + below(8)); break;
    case RAM_TRANSMIT: send(t->name, 18, m.from, m.me, RAM_FETCH, word_at(&m, 0), 1 + below(4)); break;
    case DATA_SAVE_ACK: SAYS("spool %s 0 %u %u", t->name, (unsigned)m.from, (unsigned)m.me); break;
    case DATA_LOAD:
        SAYS("scrap %s %u", t->name, (unsigned)below(5));
        send(t->name, 17, m.from, m.me, DATA_LOAD_ACK, 0, 3);
        break;
    case RAM_FETCH:
        room = m.n < 8 ? 0 : word_at(&m, 4) < 5 ? word_at(&m, 4) : 5;
        n = below(room + 1);
        SAYS("transfer %s &%X %u &%X %u", t->name, FIRST_HEAP, (unsigned)m.from, (unsigned)word_at(&m, 0), (unsigned)n);
        send(t->name, n < room ? 17 : 18, m.from, m.me, RAM_TRANSMIT, word_at(&m, 0), n);
        break;
    default: SAYS("ack %s", t->name);
    }
}

/* ---- a line */

static void start(const char *it)
{
    static const char *const manners[] = {"", "", " deaf", " file"};
    SAYS("task %s %u%s", it, (unsigned)(1 + below(5)), it[0] >= 'q' ? " raw" : manners[below(4)]);
}

static void of_programs(void)
{
    struct raw_task *t = some_task();
    if (t->live && t->manner == 'r' && t->has_held && below(5)) {
        answer(t);
        return;
    }
    switch (below(9)) {
    case 0: SAYS("ack %s", program()); break;
    case 1: SAYS("spool %s %u %u %u", program(), (unsigned)below(2), (unsigned)handle(), (unsigned)ref()); break;
    case 2: SAYS("scrap %s %u", program(), (unsigned)below(4)); break;
    case 3: SAYS("write %s &%X %02x%02x", program(), (unsigned)place(), (unsigned)below(256), (unsigned)below(256)); break;
    case 4: SAYS("read %s &%X %u", name(), (unsigned)place(), (unsigned)below(4)); break;
    case 5:
    case 6:
        SAYS("transfer %s &%X %u &%X %u", program(), (unsigned)(below(2) ? FIRST_HEAP : place()), (unsigned)handle(),
             (unsigned)place(), (unsigned)below(5));
        break;
    default: forge();
    }
}

static void of_blocks(void)
{
    switch (below(7)) {
    case 0:
    case 1: SAYS("alloc %s %u %u", name(), (unsigned)below(2), (unsigned)below(7)); break;
    case 2: SAYS("put %s %u 0 %02x", name(), (unsigned)below(2), (unsigned)below(256)); break;
    case 3: SAYS("free %s %u", name(), (unsigned)below(3)); break;
    case 4:
    case 5: SAYS("claim %s %u", name(), (unsigned)below(13)); break;
    default: SAYS("release %s &%X", name(), (unsigned)place());
    }
}

static void of_transfers(void)
{
    switch (below(12)) {
    case 0:
    case 1: SAYS("save %s %u %s doc", name(), (unsigned)below(2), name()); break;
    case 2: SAYS("repeat %s", name()); break;
    case 3: SAYS("cancel %s %s", name(), below(3) ? "in" : "out"); break;
    case 4: SAYS("cancel %s %s %u", name(), below(3) ? "in" : "out", (unsigned)(ref() | 1)); break;
    default: SAYS("poll %s", name());
    }
}

static void some_line(void)
{
    switch (below(16)) {
    case 0: below(3) ? start(name()) : (void)SAYS("kill %s", name()); break;
    case 1:
    case 2: of_blocks(); break;
    case 3: SAYS("%s %s", below(2) ? "status" : "blocks", name()); break;
    case 4:
    case 5:
    case 6:
    case 7: of_programs(); break;
    default: of_transfers();
    }
}

static void run(void)
{
    EXPECT(vf_desk_open(&desk, PAGES, 1, 1) == VF_OK);
    raw_desk_start(&plain, 1, 1);
    for (int i = 0; i < TASKS; i++)
        start(names[i]);
    SAYS("alloc a 0 6");
    SAYS("claim r 12");
    for (int i = 0; i < RUN; i++)
        some_line();
    for (int i = 0; i < TASKS; i++) {
        SAYS("status %s", names[i]);
        SAYS("blocks %s", names[i]);
        for (unsigned k = 0; k < 4; k++)
            SAYS("show %s %u", names[i], k);
    }
    EXPECT(vf_desk_close(&desk) == VF_OK);
}

int main(void)
{
    for (int i = 0; i < CALLS / RUN && failures == 0; i++)
        run();
    return ended("desk_forgers");
}
