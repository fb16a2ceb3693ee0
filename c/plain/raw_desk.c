/*
 * raw_desk.c: replies, tasks with their blocks, and messages of a plain desk.
 */
#include "raw_parts.h"

#include <stdarg.h>
#include <stdio.h>
#include <string.h>

static const char *const REFUSED[REFUSALS] = {
    NULL, "NameInUse", "NoName", "NoFile", "NoBlock", "AnchorInUse", "NotABlock", "Busy", "NotOpen", "NothingSent",
    "BadRange", "BadSize", "NoTask", "NoRefs", "QueueFull", "WrongManner", "BadRef"};

/* ---- replies */

void raw_say(struct raw_desk *d, const char *format, ...)
{
    size_t at = strlen(d->reply);
    va_list rest;
    va_start(rest, format);
    vsnprintf(d->reply + at, sizeof d->reply - at, format, rest);
    va_end(rest);
}

void raw_say_bytes(struct raw_desk *d, const uint8_t *bytes, uint32_t n)
{
    for (uint32_t i = 0; i < n; i++)
        raw_say(d, "%s%02x", i ? "" : " ", bytes[i]);
    raw_say(d, "\n");
}

/* The first of the refusals that hold. */
static const char *first_of(uint32_t holds)
{
    int i = 1;
    while (!(holds & 1u << i))
        i++;
    return REFUSED[i];
}

/* Answers the first refusal that holds, if any does. */
bool raw_refused(struct raw_desk *d, uint32_t holds)
{
    if (holds)
        raw_say(d, "refused %s\n", first_of(holds));
    return holds != 0;
}

/* The same where a poll's message asked for it. */
void raw_fails(struct raw_desk *d, uint32_t holds)
{
    raw_say(d, "failed %s\n", first_of(holds));
}

uint32_t raw_if_so(bool holds, enum refusal refusal) { return holds ? 1u << refusal : 0; }

/* ---- tasks and blocks */

struct raw_task *raw_named(struct raw_desk *d, const char *name)
{
    for (int i = 0; i < RAW_TASKS; i++)
        if (d->tasks[i].live && strcmp(d->tasks[i].name, name) == 0)
            return &d->tasks[i];
    return NULL;
}

struct raw_task *raw_desk_task(struct raw_desk *d, uint32_t handle)
{
    for (int i = 0; i < RAW_TASKS; i++)
        if (d->tasks[i].live && d->tasks[i].handle == handle)
            return &d->tasks[i];
    return NULL;
}

struct raw_block *raw_anchored(struct raw_task *t, uint32_t anchor)
{
    for (uint32_t i = 0; i < t->flexes; i++)
        if (t->flex[i].key == anchor)
            return &t->flex[i];
    return NULL;
}

uint32_t raw_desk_flex_address(const struct raw_task *t, uint32_t index)
{
    uint32_t at = HEAP_AT + HEAP_END;
    for (uint32_t i = 0; i < index; i++)
        at += 8 + (t->flex[i].size + 3) / 4 * 4;
    return at + 8;
}

struct raw_block *raw_new_flex(struct raw_task *t, uint32_t anchor, uint32_t size)
{
    struct raw_block *it = &t->flex[t->flexes++];
    memset(it, 0, sizeof *it);
    it->key = anchor;
    it->size = size;
    return it;
}

static void insert_segment(struct raw_task *t, uint32_t at, uint32_t place, uint32_t size)
{
    memmove(&t->heap[at + 1], &t->heap[at], (t->segments - at) * sizeof *t->heap);
    t->segments++;
    memset(&t->heap[at], 0, sizeof t->heap[at]);
    t->heap[at].key = place;
    t->heap[at].size = size;
}

/* Takes the first hole that is large enough, else the top; the address is that behind the size word. */
uint32_t raw_claim(struct raw_task *t, uint32_t n)
{
    uint32_t size = (n + 4 + 7) / 8 * 8, i = 0, rest;
    while (i < t->segments && (t->heap[i].used || t->heap[i].size < size))
        i++;
    if (i == t->segments) {
        uint32_t base = i ? t->heap[i - 1].key + t->heap[i - 1].size : 16;
        insert_segment(t, i, base, size);
    } else if ((rest = t->heap[i].size - size) > 0) {
        t->heap[i].size = size;
        insert_segment(t, i + 1, t->heap[i].key + size, rest);
    }
    t->heap[i].used = true;
    memset(t->heap[i].bytes, 0, RAW_BYTES);
    return HEAP_AT + t->heap[i].key + 4;
}

struct raw_block *raw_claimed(struct raw_task *t, uint32_t at)
{
    for (uint32_t i = 0; i < t->segments; i++)
        if (t->heap[i].used && HEAP_AT + t->heap[i].key + 4 == at)
            return &t->heap[i];
    return NULL;
}

/* Holes that touch become one, and one below the top goes. */
void raw_release(struct raw_task *t, uint32_t at)
{
    uint32_t n = 0;
    raw_claimed(t, at)->used = false;
    for (uint32_t i = 0; i < t->segments; i++)
        if (n && !t->heap[n - 1].used && !t->heap[i].used)
            t->heap[n - 1].size += t->heap[i].size;
        else
            t->heap[n++] = t->heap[i];
    t->segments = n && !t->heap[n - 1].used ? n - 1 : n;
}

/* The bytes of a range that lies whole in one live block. */
uint8_t *raw_held_at(struct raw_task *t, uint32_t at, uint32_t n)
{
    for (uint32_t i = 0; i < t->segments; i++) {
        uint32_t from = HEAP_AT + t->heap[i].key + 4, size = t->heap[i].size - 4;
        if (t->heap[i].used && at >= from && at - from <= size && n <= size - (at - from))
            return t->heap[i].bytes + (at - from);
    }
    for (uint32_t i = 0; i < t->flexes; i++) {
        uint32_t from = raw_desk_flex_address(t, i), size = t->flex[i].size;
        if (at >= from && at - from <= size && n <= size - (at - from))
            return t->flex[i].bytes + (at - from);
    }
    return NULL;
}

/* The transfer fails, and its buffer goes. */
void raw_lose(struct raw_task *t, struct raw_record *r)
{
    raw_release(t, r->buffer);
    r->state = RAW_FAILED;
}

/* Whether two ranges have a byte together. */
bool raw_share(uint32_t x, uint32_t n, uint32_t y, uint32_t m)
{
    return n && m && x < (uint64_t)y + m && y < (uint64_t)x + n;
}

bool raw_is_going(const struct raw_record *r)
{
    return r->state == RAW_FETCHING || r->state == RAW_DRAINING || r->state == RAW_ASKING;
}

bool raw_is_busy(const struct raw_task *t, uint32_t anchor)
{
    for (uint32_t i = 0; i < t->outs; i++)
        if (t->out[i].state == RAW_OPEN && t->out[i].anchor == anchor)
            return true;
    for (uint32_t i = 0; i < t->ins; i++)
        if ((t->in[i].state == RAW_FETCHING || t->in[i].state == RAW_ASKING) && t->in[i].anchor == anchor)
            return true;
    return false;
}

/* A place behind the others; on a full list the first record that has ended goes. */
struct raw_record *raw_new_record(struct raw_record *list, uint32_t *n)
{
    uint32_t i = 0;
    if (*n == RAW_RECORDS) {
        while (list[i].state == RAW_OPEN || raw_is_going(&list[i]))
            i++;
        memmove(&list[i], &list[i + 1], (--*n - i) * sizeof *list);
    }
    memset(&list[*n], 0, sizeof *list);
    return &list[(*n)++];
}

/* ---- messages */

uint32_t raw_word(const uint8_t *bytes)
{
    return bytes[0] | (uint32_t)bytes[1] << 8 | (uint32_t)bytes[2] << 16 | (uint32_t)bytes[3] << 24;
}

static void put_word(uint8_t *bytes, uint32_t n)
{
    for (int i = 0; i < 4; i++)
        bytes[i] = (uint8_t)(n >> 8 * i);
}

/* The kind as which a message is read, 0 for none. */
uint32_t raw_kind_of(const struct raw_message *m)
{
    bool is_file = m->action >= DATA_SAVE && m->action <= DATA_LOAD_ACK;
    if (is_file && m->n >= FILE_HEAD + 4 && memchr(m->data + FILE_HEAD, 0, m->n - FILE_HEAD))
        return m->action;
    return (m->action == RAM_FETCH || m->action == RAM_TRANSMIT) && m->n >= 8 ? m->action : 0;
}

struct raw_message raw_two_words(uint32_t action, uint32_t first, uint32_t second)
{
    struct raw_message m = {.action = action, .n = 8};
    put_word(m.data, first);
    put_word(m.data + 4, second);
    return m;
}

struct raw_message raw_of_file(uint32_t action, uint32_t size, const char *name)
{
    struct raw_message m = {.action = action, .n = FILE_HEAD + ((uint32_t)strlen(name) + 4) / 4 * 4};
    put_word(m.data + 16, size);
    put_word(m.data + 20, FILE_TYPE);
    strcpy((char *)m.data + FILE_HEAD, name);
    return m;
}

static uint32_t live_messages(const struct raw_desk *d)
{
    uint32_t n = d->queued;
    for (int i = 0; i < RAW_TASKS; i++)
        n += d->tasks[i].live && d->tasks[i].has_held;
    return n;
}

uint32_t raw_unsent(struct raw_desk *d, uint32_t to)
{
    return raw_if_so(!raw_desk_task(d, to), NO_TASK) | raw_if_so(d->next_ref > UINT32_MAX, NO_REFS) |
           raw_if_so(live_messages(d) >= RAW_MESSAGES, QUEUE_FULL);
}

/* Sends a message that nothing refuses; the one that it answers is put down. */
uint32_t raw_send(struct raw_desk *d, struct raw_task *t, uint32_t code, uint32_t to, uint32_t yours,
                     struct raw_message m)
{
    m.code = code;
    m.to = to;
    m.from = t->handle;
    m.yours = yours;
    m.me = (uint32_t)d->next_ref++;
    d->post[d->queued++] = m;
    t->last = m;
    t->has_last = true;
    if (t->has_held && t->held.me == yours)
        t->has_held = false;
    return m.me;
}

void raw_bounce(struct raw_desk *d, struct raw_message m)
{
    if (!raw_desk_task(d, m.from))
        return;
    m.code = BACK;
    m.to = m.from;
    d->post[d->queued++] = m;
}

/* The scrap file goes with its DataLoad. */
void raw_keep_file(struct raw_desk *d)
{
    bool live = false;
    for (uint32_t i = 0; i < d->queued; i++)
        live = live || d->post[i].me == d->file_of;
    for (int i = 0; i < RAW_TASKS; i++)
        live = live || (d->tasks[i].live && d->tasks[i].has_held && d->tasks[i].held.me == d->file_of);
    d->has_file = d->has_file && live;
}

void raw_make_file(struct raw_desk *d, uint32_t ref, const struct raw_block *block)
{
    d->has_file = true;
    d->file_of = ref;
    d->file_size = block->size;
    memcpy(d->file, block->bytes, block->size);
}
