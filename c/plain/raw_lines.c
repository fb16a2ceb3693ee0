/*
 * raw_lines.c: the lines that a plain desk takes.
 */
#include "raw_parts.h"

#include <stdio.h>
#include <stdlib.h>
#include <string.h>

enum { MOST_WORDS = 7, ROOM_OF_LINE = 1025 };

static const char *const ACTIONS[] = {
    "", "DataSave", "DataSaveAck", "DataLoad", "DataLoadAck", "", "RAMFetch", "RAMTransmit"};
static const char *const STATES[] = {"open", "fetching", "draining", "asking", "done", "failed"};

/* The words of the line. */
static char words[MOST_WORDS][ROOM_OF_LINE];
static int count;

static void split(const char *line)
{
    char copy[ROOM_OF_LINE];
    snprintf(copy, sizeof copy, "%s", line);
    count = 0;
    for (char *it = strtok(copy, " "); it && count < MOST_WORDS; it = strtok(NULL, " "))
        strcpy(words[count++], it);
}

static uint32_t number(int k) { return (uint32_t)strtoul(words[k], NULL, 10); }
static uint32_t address(int k) { return (uint32_t)strtoul(words[k] + 1, NULL, 16); }

static uint32_t bytes_at(int k, uint8_t *bytes)
{
    uint32_t n = k < count ? (uint32_t)strlen(words[k]) / 2 : 0;
    for (uint32_t i = 0; i < n; i++) {
        char pair[3] = {words[k][2 * i], words[k][2 * i + 1], 0};
        bytes[i] = (uint8_t)strtoul(pair, NULL, 16);
    }
    return n;
}

/* ---- the lines; each is given a live task, but for `task` */

static void do_task(struct raw_desk *d)
{
    int i = 0;
    if (raw_refused(d, raw_if_so(raw_named(d, words[1]), NAME_IN_USE)))
        return;
    while (d->tasks[i].live)
        i++;
    struct raw_task *t = &d->tasks[i];
    memset(t, 0, sizeof *t);
    t->live = true;
    strcpy(t->name, words[1]);
    t->room = number(2);
    t->manner = count > 3 ? words[3][0] : 'p';
    t->handle = d->next_handle++;
    raw_say(d, "ok %u\n", (unsigned)t->handle);
}

static void do_kill(struct raw_desk *d, struct raw_task *t)
{
    struct raw_message mine[RAW_MESSAGES];
    uint32_t n = 0, kept = 0;
    for (uint32_t i = 0; i < d->queued; i++)
        if (d->post[i].to == t->handle)
            mine[n++] = d->post[i];
        else
            d->post[kept++] = d->post[i];
    d->queued = kept;
    t->live = false;
    if (t->has_held)
        raw_bounce(d, t->held);
    for (uint32_t i = 0; i < n; i++)
        if (mine[i].code == RECORDED)
            raw_bounce(d, mine[i]);
    raw_keep_file(d);
    raw_say(d, "ok\n");
}

static void do_poll(struct raw_desk *d, struct raw_task *t)
{
    uint32_t i = 0;
    if (t->has_held) {
        t->has_held = false;
        raw_bounce(d, t->held);
    }
    while (i < d->queued && d->post[i].to != t->handle)
        i++;
    if (i == d->queued) {
        raw_keep_file(d);
        raw_say(d, "ok 0\n");
        return;
    }
    struct raw_message m = d->post[i];
    memmove(&d->post[i], &d->post[i + 1], (--d->queued - i) * sizeof *d->post);
    t->has_held = m.code == RECORDED;
    t->held = m;
    raw_keep_file(d);
    if (raw_kind_of(&m))
        raw_say(d, "ok %u %s %u %u ", (unsigned)m.code, ACTIONS[m.action], (unsigned)m.me, (unsigned)m.yours);
    else
        raw_say(d, "ok %u %u %u %u ", (unsigned)m.code, (unsigned)m.action, (unsigned)m.me, (unsigned)m.yours);
    if (t->manner == 'r') {
        raw_say(d, "taken\n  from %u", (unsigned)m.from);
        raw_say_bytes(d, m.data, m.n);
    } else if (!(m.code == BACK ? raw_is_back(d, t, &m) : raw_is_known(d, t, &m)))
        raw_say(d, "ignored\n");
}

static void do_save(struct raw_desk *d, struct raw_task *t)
{
    struct raw_task *to = raw_named(d, words[3]);
    struct raw_block *b = raw_anchored(t, number(2));
    uint32_t open = 0;
    for (uint32_t i = 0; i < t->outs; i++)
        open += t->out[i].state == RAW_OPEN;
    uint32_t holds = raw_if_so(!b, NO_BLOCK) | raw_if_so(raw_is_busy(t, number(2)) || open == RAW_RECORDS, BUSY) |
                     raw_if_so(!to, NO_TASK) | (to ? raw_unsent(d, to->handle) : 0) | raw_if_so(t->manner == 'r', WRONG_MANNER);
    if (raw_refused(d, holds))
        return;
    uint32_t ref = raw_send(d, t, RECORDED, to->handle, 0, raw_of_file(DATA_SAVE, b->size, words[4]));
    *raw_new_record(t->out, &t->outs) = (struct raw_record){RAW_OPEN, ref, to->handle, number(2), 0, ref, 0, false};
    raw_say(d, "ok %u\n", (unsigned)ref);
}

static void do_repeat(struct raw_desk *d, struct raw_task *t)
{
    struct raw_message m = t->last;
    if (raw_refused(d, t->has_last ? raw_unsent(d, m.to) : 1u << NOTHING_SENT))
        return;
    raw_say(d, "ok %u\n", (unsigned)raw_send(d, t, m.code, m.to, m.yours, m));
    if (t->manner == 'r')
        raw_keep_file(d);
}

static void do_cancel(struct raw_desk *d, struct raw_task *t)
{
    bool in = strcmp(words[2], "in") == 0;
    struct raw_record *list = in ? t->in : t->out;
    for (uint32_t i = 0; i < (in ? t->ins : t->outs); i++) {
        struct raw_record *r = &list[i];
        bool can = in ? r->state == RAW_FETCHING || r->state == RAW_ASKING : r->state == RAW_OPEN;
        if (!can || (count > 3 && r->id != number(3)))
            continue;
        if (r->state == RAW_FETCHING && !r->raw)
            r->state = RAW_DRAINING;
        else if (r->state == RAW_FETCHING)
            raw_lose(t, r);
        else
            r->state = RAW_FAILED;
        raw_say(d, "ok\n");
        return;
    }
    raw_refused(d, 1u << NOT_OPEN);
}

static void say_records(struct raw_desk *d, const char *way, const struct raw_record *list, uint32_t n)
{
    if (!n)
        raw_say(d, "  %s idle\n", way);
    for (uint32_t i = 0; i < n; i++)
        raw_say(d, "  %s %s %u %u\n", way, STATES[list[i].state], (unsigned)list[i].id,
            (unsigned)(list[i].state == RAW_ASKING ? 0 : list[i].count));
}

static void do_status(struct raw_desk *d, struct raw_task *t)
{
    raw_say(d, "ok %u\n", (unsigned)t->handle);
    say_records(d, "out", t->out, t->outs);
    say_records(d, "in", t->in, t->ins);
}

static void do_show(struct raw_desk *d, struct raw_task *t)
{
    struct raw_block *b = raw_anchored(t, number(2));
    if (raw_refused(d, raw_if_so(!b, NO_BLOCK)))
        return;
    raw_say(d, "ok %u", (unsigned)b->size);
    raw_say_bytes(d, b->bytes, b->size);
}

static void do_blocks(struct raw_desk *d, struct raw_task *t)
{
    raw_say(d, "ok %u\n", (unsigned)t->flexes);
    for (uint32_t i = 0; i < t->flexes; i++)
        raw_say(d, "  %u &%X %u\n", (unsigned)t->flex[i].key, (unsigned)raw_desk_flex_address(t, i),
            (unsigned)t->flex[i].size);
}

static void do_alloc(struct raw_desk *d, struct raw_task *t)
{
    if (raw_refused(d, raw_if_so(raw_anchored(t, number(2)), ANCHOR_IN_USE)))
        return;
    raw_new_flex(t, number(2), number(3));
    raw_say(d, "ok &%X\n", (unsigned)raw_desk_flex_address(t, t->flexes - 1));
}

static void do_put(struct raw_desk *d, struct raw_task *t)
{
    uint8_t bytes[RAW_BYTES];
    struct raw_block *b = raw_anchored(t, number(2));
    uint32_t n = bytes_at(4, bytes), offset = number(3);
    uint32_t holds = raw_if_so(!b, NO_BLOCK) | raw_if_so(raw_is_busy(t, number(2)), BUSY) |
                     raw_if_so(b && offset + n > b->size, BAD_RANGE);
    if (raw_refused(d, holds))
        return;
    memcpy(b->bytes + offset, bytes, n);
    raw_say(d, "ok\n");
}

static void do_free(struct raw_desk *d, struct raw_task *t)
{
    struct raw_block *b = raw_anchored(t, number(2));
    if (raw_refused(d, raw_if_so(!b, NO_BLOCK) | raw_if_so(raw_is_busy(t, number(2)), BUSY)))
        return;
    memmove(b, b + 1, (size_t)(&t->flex[t->flexes] - (b + 1)) * sizeof *b);
    t->flexes--;
    raw_say(d, "ok\n");
}

static void do_claim(struct raw_desk *d, struct raw_task *t)
{
    if (!raw_refused(d, raw_if_so(number(2) == 0, BAD_SIZE)))
        raw_say(d, "ok &%X\n", (unsigned)raw_claim(t, number(2)));
}

static void do_release(struct raw_desk *d, struct raw_task *t)
{
    bool busy = false;
    for (uint32_t i = 0; i < t->ins; i++)
        busy = busy || ((t->in[i].state == RAW_FETCHING || t->in[i].state == RAW_DRAINING) && t->in[i].buffer == address(2));
    if (raw_refused(d, raw_if_so(!raw_claimed(t, address(2)), NOT_A_BLOCK) | raw_if_so(busy, BUSY)))
        return;
    raw_release(t, address(2));
    raw_say(d, "ok\n");
}

/* ---- the lines of tasks with code of their own */

static void do_read(struct raw_desk *d, struct raw_task *t)
{
    uint8_t *bytes = raw_held_at(t, address(2), number(3));
    if (raw_refused(d, raw_if_so(!bytes, BAD_RANGE)))
        return;
    raw_say(d, "ok %u", (unsigned)number(3));
    raw_say_bytes(d, bytes, number(3));
}

static void do_write(struct raw_desk *d, struct raw_task *t)
{
    uint8_t bytes[RAW_BYTES];
    uint32_t n = bytes_at(3, bytes);
    uint8_t *to = raw_held_at(t, address(2), n);
    if (raw_refused(d, raw_if_so(!to, BAD_RANGE) | raw_if_so(t->manner != 'r', WRONG_MANNER)))
        return;
    memcpy(to, bytes, n);
    raw_say(d, "ok\n");
}

static void do_send(struct raw_desk *d, struct raw_task *t)
{
    struct raw_message m = {.action = number(5)};
    m.n = bytes_at(6, m.data);
    uint32_t holds = raw_unsent(d, number(3)) | raw_if_so(t->manner != 'r', WRONG_MANNER) |
                     raw_if_so(number(4) >= d->next_ref, BAD_REF);
    if (raw_refused(d, holds))
        return;
    raw_say(d, "ok %u\n", (unsigned)raw_send(d, t, number(2), number(3), number(4), m));
    raw_keep_file(d);
}

static void do_ack(struct raw_desk *d, struct raw_task *t)
{
    if (raw_refused(d, raw_if_so(t->manner != 'r', WRONG_MANNER)))
        return;
    raw_say(d, "ok %u\n", (unsigned)(t->has_held ? t->held.me : 0));
    t->has_held = false;
    raw_keep_file(d);
}

/* Whether a task opened n bytes at a place to another one. */
static bool is_opened(const struct raw_task *by, struct raw_task *to, uint32_t place, uint32_t n)
{
    if (by->manner != 'r') {
        for (uint32_t i = 0; i < by->ins; i++) {
            const struct raw_record *r = &by->in[i];
            if (r->state == RAW_FETCHING && r->other == to->handle && place >= r->buffer &&
                place - r->buffer <= by->room && n <= by->room - (place - r->buffer))
                return true;
        }
        return false;
    }
    const struct raw_message *m = &to->held;
    uint32_t from = raw_word(m->data), length = raw_word(m->data + 4);
    return to->has_held && m->from == by->handle && raw_kind_of(m) == RAM_FETCH && place >= from &&
           place - from <= length && n <= length - (place - from);
}

static void do_transfer(struct raw_desk *d, struct raw_task *t)
{
    struct raw_task *r = raw_desk_task(d, number(3));
    uint32_t x = address(2), y = address(4), n = number(5);
    uint8_t *from = raw_held_at(t, x, n), *to = r ? raw_held_at(r, y, n) : NULL;
    bool bad = !from || (number(3) == t->handle && raw_share(x, n, y, n)) || (r && (!to || !is_opened(r, t, y, n)));
    if (raw_refused(d, raw_if_so(bad, BAD_RANGE) | raw_if_so(!r, NO_TASK) | raw_if_so(t->manner != 'r', WRONG_MANNER)))
        return;
    memmove(to, from, n);
    raw_say(d, "ok\n");
}

static void do_spool(struct raw_desk *d, struct raw_task *t)
{
    struct raw_block *b = raw_anchored(t, number(2));
    uint32_t holds = raw_if_so(!b, NO_BLOCK) | raw_if_so(d->has_file, BUSY) | raw_unsent(d, number(3)) |
                     raw_if_so(t->manner != 'r', WRONG_MANNER) | raw_if_so(number(4) >= d->next_ref, BAD_REF);
    if (raw_refused(d, holds))
        return;
    uint32_t ref = raw_send(d, t, RECORDED, number(3), number(4), raw_of_file(DATA_LOAD, b->size, SCRAP));
    raw_make_file(d, ref, b);
    raw_say(d, "ok %u\n", (unsigned)ref);
}

static void do_scrap(struct raw_desk *d, struct raw_task *t)
{
    bool held = d->has_file && t->has_held && t->held.me == d->file_of;
    uint32_t holds = raw_if_so(!held, NO_FILE) | raw_if_so(raw_anchored(t, number(2)), ANCHOR_IN_USE) |
                     raw_if_so(t->manner != 'r', WRONG_MANNER);
    if (raw_refused(d, holds))
        return;
    memcpy(raw_new_flex(t, number(2), d->file_size)->bytes, d->file, d->file_size);
    raw_say(d, "ok &%X\n", (unsigned)raw_desk_flex_address(t, t->flexes - 1));
}

static const struct { const char *name; void (*call)(struct raw_desk *, struct raw_task *); } LINES[] = {
    {"kill", do_kill},   {"poll", do_poll},     {"save", do_save},       {"repeat", do_repeat}, {"cancel", do_cancel},
    {"status", do_status}, {"show", do_show},   {"blocks", do_blocks},   {"alloc", do_alloc},   {"put", do_put},
    {"free", do_free},   {"claim", do_claim},   {"release", do_release}, {"read", do_read},     {"write", do_write},
    {"send", do_send},   {"ack", do_ack},       {"transfer", do_transfer}, {"spool", do_spool}, {"scrap", do_scrap},
};

void raw_desk_start(struct raw_desk *d, uint32_t first_handle, uint32_t first_ref)
{
    memset(d, 0, sizeof *d);
    d->next_handle = first_handle;
    d->next_ref = first_ref;
}

bool raw_desk_fits(const struct raw_desk *d, const char *line)
{
    uint32_t live = 0;
    for (int i = 0; i < RAW_TASKS; i++) {
        const struct raw_task *t = &d->tasks[i];
        uint32_t base = t->segments ? t->heap[t->segments - 1].key + t->heap[t->segments - 1].size : 16;
        if (!t->live)
            continue;
        live++;
        if (t->flexes + 1 >= RAW_BLOCKS || t->segments + 2 >= RAW_BLOCKS || base + 32 > HEAP_END)
            return false;
        for (uint32_t k = 0; k < t->flexes; k++)
            if (t->flex[k].size + 16 > RAW_BYTES)
                return false;
    }
    return live < RAW_TASKS || strncmp(line, "task ", 5) != 0;
}

void raw_desk_line(struct raw_desk *d, const char *line)
{
    struct raw_task *t;
    d->reply[0] = 0;
    split(line);
    if (strcmp(words[0], "task") == 0) {
        do_task(d);
        return;
    }
    t = raw_named(d, words[1]);
    if (raw_refused(d, raw_if_so(!t, NO_NAME)))
        return;
    for (size_t i = 0; i < sizeof LINES / sizeof *LINES; i++)
        if (strcmp(words[0], LINES[i].name) == 0)
            LINES[i].call(d, t);
}
