/* desk_words.h: a line of a script done by the typed calls, and the text of its reply as FORMATS.md has it. */
#ifndef DESK_WORDS_H
#define DESK_WORDS_H

#include "vervainfile.h"

#include <stdarg.h>
#include <stdio.h>
#include <stdlib.h>
#include <string.h>

enum { MOST_WORDS = 7, ROOM_OF_LINE = 1025, MOST_SHOWN = 1 << 22, MOST_SEGMENTS = 1 << 19, MOST_BLOCKS = 64 };
enum { MOST_RECORDS = 8, MOST_AREAS = 70, ROOM_OF_TEXT = 1 << 24 };

static const char *const REFUSALS[] = {
    NULL, "NameInUse", "NoName", "TooManyTasks", "NoHandles", "NoFile", "NoBlock", "AnchorInUse", "NotABlock",
    "NotYours", "Busy", "NotOpen", "NothingSent", "BadRange", "BadSize", "ExcessiveShrink", "NoTask", "NoRefs",
    "QueueFull", "NoBudge", "NoRoom", "NoArea", "TooManyAreas", "NoNumbers", "TooBig", "WrongManner", "BadRef",
};
static const char *const ACTIONS[] = {
    NULL, "DataSave", "DataSaveAck", "DataLoad", "DataLoadAck", NULL, "RAMFetch", "RAMTransmit",
};
static const char *const STATES[] = {"open", "fetching", "draining", "asking", "done", "failed"};

/* The names of live tasks with code of their own, whose messages are taken by a call of their own. */
enum { MOST_PROGRAMS = 32, ROOM_OF_NAME = 16 };
static char programs[MOST_PROGRAMS][ROOM_OF_NAME];

/* The text of a reply. */
static char told[ROOM_OF_TEXT];
static size_t told_len;

static void tell(const char *format, ...)
{
    va_list rest;
    va_start(rest, format);
    told_len += (size_t)vsnprintf(told + told_len, sizeof told - told_len, format, rest);
    va_end(rest);
}

/* The words of a line. */
static char line_copy[ROOM_OF_LINE];
static char *word[MOST_WORDS];
static int words;

static void find_words(const char *line)
{
    size_t n = strlen(line);
    n = n < sizeof line_copy ? n : sizeof line_copy - 1;
    memcpy(line_copy, line, n);
    line_copy[n] = 0;
    words = 0;
    for (char *it = strtok(line_copy, " "); it && words < MOST_WORDS; it = strtok(NULL, " "))
        word[words++] = it;
}

#define NAME(k) VF_TEXT(word[k])
#define IS(k, text) (words > (k) && strcmp(word[k], (text)) == 0)

static uint32_t number(int k) { return (uint32_t)strtoul(word[k], NULL, 10); }
static int32_t amount(int k) { return (int32_t)strtol(word[k], NULL, 10); }
static uint32_t address(int k) { return (uint32_t)strtoul(word[k] + 1, NULL, 16); }

static size_t bytes_of(int k, uint8_t *bytes)
{
    size_t n = strlen(word[k]) / 2;
    for (size_t i = 0; i < n; i++) {
        char pair[3] = {word[k][2 * i], word[k][2 * i + 1], 0};
        bytes[i] = (uint8_t)strtoul(pair, NULL, 16);
    }
    return n;
}

/* The first line of a reply but for what the command tells; false where it is refused. */
static bool done(uint32_t status)
{
    if (status == VF_OK)
        return true;
    if (status < VF_NULL)
        tell("refused %s\n", REFUSALS[status]);
    else
        tell("status %u\n", (unsigned)status);
    return false;
}

static void plain(uint32_t status)
{
    if (done(status))
        tell("ok\n");
}

static void with_number(uint32_t status, const uint32_t *n)
{
    if (done(status))
        tell("ok %u\n", (unsigned)*n);
}

static void with_address(uint32_t status, const uint32_t *n)
{
    if (done(status))
        tell("ok &%X\n", (unsigned)*n);
}

static uint32_t word_at(const uint8_t *bytes, size_t at)
{
    return bytes[at] | (uint32_t)bytes[at + 1] << 8 | (uint32_t)bytes[at + 2] << 16 | (uint32_t)bytes[at + 3] << 24;
}

/* Whether a message of this action with so much data is read as one of a transfer: a file's has a name that a 0 ends,
 * one of a buffer two words. */
static bool is_read(uint32_t action, const uint8_t *data, size_t n)
{
    if (action == 6 || action == 7)
        return n >= 8;
    return action >= 1 && action <= 4 && n >= 28 && memchr(data + 24, 0, n - 24);
}

/* The action of a message block: a name where it is read as one of a transfer, else its number. */
static void tell_action(const struct vf_message *message)
{
    uint32_t length = word_at(message->bytes, 0), action = word_at(message->bytes, 16);
    if (is_read(action, message->bytes + 20, length - 20))
        tell("%s", ACTIONS[action]);
    else
        tell("%u", (unsigned)action);
}

/* What a poll did with the message that it took. */
static void tell_event(const struct vf_event *e, const struct vf_message *message)
{
    unsigned count = e->count, sent = e->sent;
    const char *refusal = e->refusal ? REFUSALS[e->refusal] : "";
    if (!e->code) {
        tell("ok 0\n");
        return;
    }
    tell("ok %u ", (unsigned)e->code);
    tell_action(message);
    tell(" %u %u ", (unsigned)e->my_ref, (unsigned)e->your_ref);
    switch (e->did) {
    case VF_DID_NOTHING: tell("ignored\n"); break;
    case VF_DID_FETCH: tell("fetch %u\n", sent); break;
    case VF_DID_SEND: tell("sent %u %u\n", count, sent); break;
    case VF_DID_REFUSE: tell("failed %s\n", refusal); break;
    case VF_DID_FAIL: tell("failed\n"); break;
    case VF_DID_DRAIN: tell("drained\n"); break;
    case VF_DID_TAKE_LAST: tell("took %u done\n", count); break;
    case VF_DID_TAKE: tell("took %u fetch %u\n", count, sent); break;
    case VF_DID_TAKE_AND_FAIL: tell("took %u failed %s\n", count, refusal); break;
    case VF_DID_ASK: tell("asked %u\n", sent); break;
    case VF_DID_SAVE: tell("saved %u %u\n", count, sent); break;
    case VF_DID_LOAD: tell("loaded %u done\n", count); break;
    case VF_DID_LOAD_AND_FAIL: tell("loaded %u failed %s\n", count, refusal); break;
    case VF_DID_FINISH: tell("done\n"); break;
    default: tell("?\n");
    }
}

/* A message that was handed to a task with code of its own. */
static void tell_message(uint32_t code, const struct vf_message *message)
{
    const uint8_t *bytes = message->bytes;
    uint32_t length = word_at(bytes, 0);
    tell("ok %u ", (unsigned)code);
    tell_action(message);
    tell(" %u %u taken\n  from %u%s", (unsigned)word_at(bytes, 8), (unsigned)word_at(bytes, 12),
         (unsigned)word_at(bytes, 4), length > 20 ? " " : "");
    for (uint32_t i = 20; i < length; i++)
        tell("%02x", bytes[i]);
    tell("\n");
}

static void show(struct vf_desk *desk)
{
    static uint8_t bytes[MOST_SHOWN];
    uint32_t size;
    if (!done(vf_desk_show(desk, NAME(1), number(2), bytes, sizeof bytes, &size)))
        return;
    tell("ok %u%s", (unsigned)size, size ? " " : "");
    for (uint32_t i = 0; i < size; i++)
        tell("%02x", bytes[i]);
    tell("\n");
}

static void list_blocks(struct vf_desk *desk)
{
    struct vf_block blocks[MOST_BLOCKS];
    size_t count;
    if (!done(vf_desk_blocks(desk, NAME(1), blocks, MOST_BLOCKS, &count)))
        return;
    tell("ok %zu\n", count);
    for (size_t i = 0; i < count; i++)
        tell("  %u &%X %u\n", (unsigned)blocks[i].anchor, (unsigned)blocks[i].address, (unsigned)blocks[i].size);
}

static void list_heap(struct vf_desk *desk)
{
    static struct vf_segment segments[MOST_SEGMENTS];
    struct vf_heap_sums sums;
    size_t count;
    if (!done(vf_desk_heap(desk, NAME(1), &sums, segments, MOST_SEGMENTS, &count)))
        return;
    tell("ok %u %u %u\n", (unsigned)sums.length, (unsigned)sums.largest, (unsigned)sums.free);
    for (size_t i = 0; i < count; i++)
        tell("  %s &%X %u\n", segments[i].used ? "used" : "hole", (unsigned)segments[i].address,
             (unsigned)segments[i].size);
}

static void list_records(const char *way, const struct vf_record *records, size_t count)
{
    if (!count)
        tell("  %s idle\n", way);
    for (size_t i = 0; i < count; i++)
        tell("  %s %s %u %u\n", way, STATES[records[i].state], (unsigned)records[i].id, (unsigned)records[i].count);
}

static void list_status(struct vf_desk *desk)
{
    struct vf_record out[MOST_RECORDS], in[MOST_RECORDS];
    size_t outs, ins;
    uint32_t handle;
    if (!done(vf_desk_status(desk, NAME(1), &handle, out, MOST_RECORDS, &outs, in, MOST_RECORDS, &ins)))
        return;
    tell("ok %u\n", (unsigned)handle);
    list_records("out", out, outs);
    list_records("in", in, ins);
}

static void list_areas(struct vf_desk *desk)
{
    struct vf_area areas[MOST_AREAS];
    size_t count;
    uint32_t free_pages;
    if (!done(vf_desk_areas(desk, &free_pages, areas, MOST_AREAS, &count)))
        return;
    tell("ok %u\n", (unsigned)free_pages);
    for (size_t i = 0; i < count; i++)
        if (areas[i].name[0])
            tell("  slot %s %u\n", (const char *)areas[i].name, (unsigned)areas[i].pages);
        else
            tell("  area %u %u\n", (unsigned)areas[i].number, (unsigned)areas[i].pages);
}

/* Where the name of a task with code of its own stands, or with no name a place for one more. */
static char *program(const char *name)
{
    for (int i = 0; i < MOST_PROGRAMS; i++)
        if (strcmp(programs[i], name) == 0)
            return programs[i];
    return NULL;
}

/* A new desk has no task. */
static void forget_programs(void) { memset(programs, 0, sizeof programs); }

static void do_task(struct vf_desk *desk)
{
    bool is_program = IS(3, "raw");
    uint32_t manner = IS(3, "deaf") ? VF_TASK_DEAF : IS(3, "file") ? VF_TASK_FILE : VF_TASK_PLAIN, handle;
    uint32_t status = vf_desk_task(desk, NAME(1), number(2), is_program ? (uint32_t)VF_TASK_RAW : manner, &handle);
    char *place = status == VF_OK && is_program ? program("") : NULL;
    if (place)
        strcpy(place, word[1]);
    with_number(status, &handle);
}

static void do_kill(struct vf_desk *desk)
{
    uint32_t status = vf_desk_kill(desk, NAME(1));
    char *place = status == VF_OK ? program(word[1]) : NULL;
    if (place)
        *place = 0;
    plain(status);
}

static void do_poll(struct vf_desk *desk)
{
    struct vf_event event;
    struct vf_message message;
    uint32_t code;
    if (!program(word[1])) {
        vf_desk_next(desk, NAME(1), &message, &code);
        if (done(vf_desk_poll(desk, NAME(1), &event)))
            tell_event(&event, &message);
    } else if (done(vf_desk_take(desk, NAME(1), &message, &code))) {
        if (code)
            tell_message(code, &message);
        else
            tell("ok 0\n");
    }
}

/* The commands on a slot; false where the line is none. */
static bool on_slot(struct vf_desk *desk)
{
    uint8_t bytes[ROOM_OF_LINE / 2];
    uint32_t n = 0;
    bool was;
    if (IS(0, "alloc"))
        with_address(vf_desk_alloc(desk, NAME(1), number(2), number(3), &n), &n);
    else if (IS(0, "load"))
        with_address(vf_desk_load(desk, NAME(1), number(2), NAME(3), &n), &n);
    else if (IS(0, "put"))
        plain(vf_desk_put(desk, NAME(1), number(2), number(3), bytes, bytes_of(4, bytes)));
    else if (IS(0, "free"))
        plain(vf_desk_free(desk, NAME(1), number(2)));
    else if (IS(0, "extend"))
        plain(vf_desk_extend(desk, NAME(1), number(2), number(3)));
    else if (IS(0, "mid"))
        plain(vf_desk_mid(desk, NAME(1), number(2), number(3), amount(4)));
    else if (IS(0, "claim"))
        with_address(vf_desk_claim(desk, NAME(1), number(2), &n), &n);
    else if (IS(0, "release"))
        plain(vf_desk_release(desk, NAME(1), address(2)));
    else if (IS(0, "resize"))
        with_address(vf_desk_resize(desk, NAME(1), address(2), amount(3), &n), &n);
    else if (IS(0, "budge")) {
        if (done(vf_desk_budge(desk, NAME(1), IS(2, "on"), &was)))
            tell("ok %s\n", was ? "on" : "off");
    } else
        return false;
    return true;
}

/* The commands on tasks, and what tasks send and take. */
static bool on_tasks(struct vf_desk *desk)
{
    uint32_t n = 0;
    if (IS(0, "task"))
        do_task(desk);
    else if (IS(0, "kill"))
        do_kill(desk);
    else if (IS(0, "save"))
        with_number(vf_desk_save(desk, NAME(1), number(2), NAME(3), NAME(4), &n), &n);
    else if (IS(0, "poll"))
        do_poll(desk);
    else if (IS(0, "cancel") && IS(2, "in"))
        plain(vf_desk_cancel_in(desk, NAME(1), words > 3 ? number(3) : 0));
    else if (IS(0, "cancel"))
        plain(vf_desk_cancel_out(desk, NAME(1), words > 3 ? number(3) : 0));
    else if (IS(0, "repeat"))
        with_number(vf_desk_repeat(desk, NAME(1), &n), &n);
    else
        return false;
    return true;
}

/* The commands of tasks with code of their own. */
static bool on_programs(struct vf_desk *desk)
{
    uint8_t bytes[ROOM_OF_LINE / 2];
    uint32_t n = 0;
    size_t length;
    if (IS(0, "send")) {
        length = words > 6 ? bytes_of(6, bytes) : 0;
        with_number(vf_desk_send(desk, NAME(1), number(2), number(3), number(4), number(5), bytes, length, &n), &n);
    } else if (IS(0, "ack"))
        with_number(vf_desk_ack(desk, NAME(1), &n), &n);
    else if (IS(0, "write"))
        plain(vf_desk_write_at(desk, NAME(1), address(2), bytes, bytes_of(3, bytes)));
    else if (IS(0, "transfer"))
        plain(vf_desk_transfer_to(desk, NAME(1), address(2), number(3), address(4), number(5)));
    else if (IS(0, "spool"))
        with_number(vf_desk_spool(desk, NAME(1), number(2), number(3), number(4), &n), &n);
    else if (IS(0, "scrap"))
        with_address(vf_desk_scrap(desk, NAME(1), number(2), &n), &n);
    else
        return false;
    return true;
}

/* Bytes from the middle of a block on have no call that shows them: a line does it. */
static bool by_line(struct vf_desk *desk, const char *line)
{
    if (!IS(0, "read"))
        return false;
    if (done(vf_desk_line(desk, VF_TEXT(line))))
        done(vf_desk_reply(desk, (uint8_t *)told, sizeof told, &told_len));
    return true;
}

/* The commands on areas and on the module area. */
static bool on_areas(struct vf_desk *desk)
{
    uint32_t n = 0;
    if (IS(0, "area"))
        with_number(vf_desk_area(desk, number(1), amount(2), &n), &n);
    else if (IS(0, "make"))
        with_number(vf_desk_make(desk, number(1), &n), &n);
    else if (IS(0, "remove"))
        plain(vf_desk_remove(desk, number(1)));
    else if (IS(0, "rma") && IS(1, "claim"))
        with_address(vf_desk_rma_claim(desk, number(2), &n), &n);
    else if (IS(0, "rma") && IS(1, "free"))
        plain(vf_desk_rma_free(desk, address(2)));
    else if (IS(0, "rma"))
        with_address(vf_desk_rma_resize(desk, address(2), amount(3), &n), &n);
    else
        return false;
    return true;
}

static void ask(struct vf_desk *desk)
{
    if (IS(0, "show"))
        show(desk);
    else if (IS(0, "blocks"))
        list_blocks(desk);
    else if (IS(0, "heap"))
        list_heap(desk);
    else if (IS(0, "status"))
        list_status(desk);
    else
        list_areas(desk);
}

/* Does a line that is a command by the typed call, and puts the text of its reply into `told`. */
static void do_by_call(struct vf_desk *desk, const char *line)
{
    told_len = 0;
    find_words(line);
    if (!on_slot(desk) && !on_tasks(desk) && !on_programs(desk) && !by_line(desk, line) && !on_areas(desk))
        ask(desk);
}

#endif
