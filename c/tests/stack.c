/*
 * stack.c: how much stack a call needs, on one that was filled with a byte before: less than 1 KiB on a heap or a slot,
 * less than 2 KiB on a sender, a receiver or a message, and on a desk what docs/C.md says of it. Then all calls on an
 * open desk in a row, on a stack of 24 KiB below which no byte may be touched, and a desk from its first file to its end
 * on one of 64. With sanitizers nothing is measured, since these use the stack too.
 */
#define _DEFAULT_SOURCE
#include "expect.h"

#include <stdlib.h>
#include <sys/mman.h>
#include <ucontext.h>

enum { ROOM = 1 << 20, STACK = 1 << 20, FILL = 0xa5, KIB = 1024, GUARD = 64 * KIB };
enum { FEW = KIB, TRANSFER = 2 * KIB, QUESTION = 4 * KIB, COMMAND = 8 * KIB };
enum { OPENING = 16 * KIB };
enum { SMALL_STACK = 24 * KIB, WHOLE_STACK = 64 * KIB };

static uint8_t memory[ROOM], bytes[8192];
static uint64_t map[2 * ROOM / 512];
static size_t number, other;
static struct vf_slot slot;
static struct vf_wide_slot wide;
static struct vf_desk desk = VF_DESK_CLOSED;
static struct vf_event event;
static struct vf_message message;
static struct vf_heap_sums sums;
static struct vf_block blocks[64];
static struct vf_segment segments[64];
static struct vf_record records[8], other_records[8];
static struct vf_area areas[70];
static uint32_t told;
static bool was;

#define A VF_TEXT("a")
#define B VF_TEXT("b")

static void nothing(void) { number = 0; }

static void senders(void)
{
    static struct vf_sender sender;
    static struct vf_send_action action;
    static struct vf_part part;
    vf_sender_start(&sender);
    for (uint32_t id = 1; id <= 9; id++)
        vf_sender_offer(&sender, id, 2, 5);
    vf_sender_on_fetch(&sender, 2, 10, 1, 0x8114, 8, &action);
    vf_sender_part(&action, 20, &part);
    vf_sender_sent(&sender, &action, 20, 11);
    vf_sender_on_bounce(&sender, 11, &was);
    vf_sender_cancel(&sender, 0);
    vf_sender_is_source(&sender, 5, &was);
}
static void receivers(void)
{
    static struct vf_receiver receiver;
    static struct vf_take_action action;
    vf_receiver_start(&receiver);
    for (uint32_t id = 1; id <= 8; id++) {
        vf_receiver_on_save(&receiver, false, 1, id, &action);
        vf_receiver_fetching(&receiver, &action, 7, 0x8114, 20 + id);
    }
    vf_receiver_on_transmit(&receiver, 8, 1, 30, 21, 0x8114, 8, &action);
    vf_receiver_fetched(&receiver, &action, 31);
    vf_receiver_on_bounce(&receiver, 22, &action);
    vf_receiver_asking(&receiver, &action, 32);
    vf_receiver_on_load(&receiver, 1, 33, 32, &action);
    vf_receiver_loaded(&receiver, &action, 20);
    vf_receiver_cancel(&receiver, 0);
}
static void messages(void)
{
    static struct vf_message_words words = {.action = 1, .name_length = 3, .name = "doc"};
    vf_message_encode(&words, &message, &told);
    vf_message_decode(message.bytes, sizeof message.bytes, &words);
}

static void heap_init(void) { vf_heap_init(memory, ROOM); }
static void heap_claim(void) { vf_heap_claim(memory, ROOM, 100, &number); }
static void heap_resize(void) { vf_heap_resize(memory, ROOM, number, 1000, &number); }
static void heap_describe(void) { vf_heap_describe(memory, ROOM, &other, &other); }
static void heap_check(void) { vf_heap_check(memory, ROOM); }
static void heap_index(void) { vf_heap_index(memory, ROOM, map, sizeof map / sizeof *map); }
static void heap_indexed(void)
{
    vf_heap_indexed_claim(memory, ROOM, map, sizeof map / sizeof *map, 40, &other);
    vf_heap_indexed_resize(memory, ROOM, map, sizeof map / sizeof *map, number, 500, &number);
    vf_heap_indexed_release(memory, ROOM, map, sizeof map / sizeof *map, other);
}
static void heap_checked(void)
{
    vf_heap_checked_claim(memory, ROOM, 40, &other);
    vf_heap_checked_resize(memory, ROOM, number, 500, &number);
    vf_heap_checked_release(memory, ROOM, other);
}
static void heap_release(void) { vf_heap_release(memory, ROOM, number); }
static void heap_extend(void) { vf_heap_extend(memory, ROOM, -4096); }

static void flex_start(void) { vf_flex_start(memory, ROOM, &slot); }
static void flex_alloc(void)
{
    for (uint32_t anchor = 0; anchor < 64; anchor++)
        vf_flex_alloc(memory, ROOM, &slot, anchor, 4000, &number);
}
static void flex_free(void) { vf_flex_free(memory, ROOM, &slot, 0); }
static void flex_extend(void) { vf_flex_extend(memory, ROOM, &slot, 1, 9000); }
static void flex_midextend(void) { vf_flex_midextend(memory, ROOM, &slot, 2, 100, 5000); }
static void flex_claim(void) { vf_flex_claim(memory, ROOM, &slot, 20000, &number); }
static void flex_resize(void) { vf_flex_resize(memory, ROOM, &slot, number, 20000, &number); }
static void flex_release(void) { vf_flex_release(memory, ROOM, &slot, number); }
static void flex_check(void) { vf_flex_check(memory, ROOM, &slot); }
static void flex_checked(void)
{
    vf_flex_checked_extend(memory, ROOM, &slot, 1, 100);
    vf_flex_checked_midextend(memory, ROOM, &slot, 2, 100, -50);
    vf_flex_checked_claim(memory, ROOM, &slot, 20000, &number);
}
static void flex_bytes(void)
{
    vf_flex_put(memory, ROOM, &slot, 3, 0, bytes, 3000);
    vf_flex_read(memory, ROOM, &slot, 3, 0, bytes, 3000);
}

static void wide_start(void) { vf_flex_start_with(memory, ROOM, &wide, 4096); }
static void wide_alloc(void)
{
    for (uint32_t anchor = 0; anchor < 4096; anchor++)
        vf_flex_wide_alloc(memory, ROOM, &wide, anchor, 9, &number);
}
static void wide_free(void) { vf_flex_wide_free(memory, ROOM, &wide, 0); }
static void wide_extend(void) { vf_flex_wide_extend(memory, ROOM, &wide, 1, 9000); }
static void wide_midextend(void) { vf_flex_wide_midextend(memory, ROOM, &wide, 1, 100, -5000); }
static void wide_budge(void) { vf_flex_wide_budge(memory, ROOM, &wide, 800, &number); }
static void wide_bytes(void)
{
    vf_flex_wide_put(memory, ROOM, &wide, 1, 0, bytes, 3000);
    vf_flex_wide_read(memory, ROOM, &wide, 1, 0, bytes, 3000);
}

static void desk_file(void)
{
    vf_desk_file(&desk, VF_TEXT("notes"), bytes, 100);
    vf_desk_file_lent(&desk, VF_TEXT("more"), bytes, 100);
}
static void desk_open(void) { vf_desk_open(&desk, 64, 1, 1); }
static void desk_tasks(void)
{
    vf_desk_task(&desk, A, 4096, VF_TASK_PLAIN, &told);
    vf_desk_task(&desk, B, 100, VF_TASK_PLAIN, &told);
}
static void desk_flex(void)
{
    vf_desk_alloc(&desk, A, 0, 10000, &told);
    vf_desk_load(&desk, A, 1, VF_TEXT("notes"), &told);
    vf_desk_put(&desk, A, 0, 0, bytes, sizeof bytes);
    vf_desk_extend(&desk, A, 1, 5000);
    vf_desk_mid(&desk, A, 1, 10, 200);
    vf_desk_free(&desk, A, 1);
}
static void desk_heaps(void)
{
    vf_desk_claim(&desk, A, 9000, &told);
    vf_desk_resize(&desk, A, told, 9000, &told);
    vf_desk_release(&desk, A, told);
    vf_desk_budge(&desk, A, true, &was);
}
static void desk_areas(void)
{
    vf_desk_area(&desk, 0, 4096, &told);
    vf_desk_make(&desk, 4, &told);
    vf_desk_remove(&desk, told);
    vf_desk_rma_claim(&desk, 5000, &told);
    vf_desk_rma_resize(&desk, told, 5000, &told);
    vf_desk_rma_free(&desk, told);
}
static void desk_transfer(void)
{
    vf_desk_save(&desk, A, 0, B, VF_TEXT("leaf"), &told);
    for (int i = 0; i < 300; i++) {
        vf_desk_poll(&desk, B, &event);
        vf_desk_poll(&desk, A, &event);
    }
    vf_desk_repeat(&desk, A, &told);
    vf_desk_save(&desk, A, 0, B, VF_TEXT("leaf"), &told);
    vf_desk_cancel_out(&desk, A, 0);
    vf_desk_cancel_in(&desk, B, 0);
}
static void desk_questions(void)
{
    vf_desk_show(&desk, A, 0, bytes, sizeof bytes, &told);
    vf_desk_blocks(&desk, A, blocks, 64, &number);
    vf_desk_heap(&desk, A, &sums, segments, 64, &number);
    vf_desk_status(&desk, A, &told, records, 8, &number, other_records, 8, &other);
    vf_desk_areas(&desk, &told, areas, 70, &number);
}
static void desk_bytes(void)
{
    vf_desk_claim(&desk, A, 100, &told);
    vf_desk_write(&desk, A, told, 1, bytes, 99);
    vf_desk_read(&desk, A, told, 1, bytes, 99, &told);
    vf_desk_blocks(&desk, A, blocks, 64, &number);
    vf_desk_write(&desk, A, blocks[0].address, 1, bytes, 99);
    vf_desk_show_at(&desk, A, 0, 1, bytes, 99, &told);
    vf_desk_transfer(&desk, 1, 0x8114, 1, 0x8115, 1);
    vf_desk_rma_claim(&desk, 100, &told);
    vf_desk_rma_write(&desk, told, 1, bytes, 99);
    vf_desk_rma_read(&desk, told, 1, bytes, 99, &told);
}
static void desk_programs(void)
{
    vf_desk_task(&desk, VF_TEXT("raw"), 1, VF_TASK_RAW, &told);
    vf_desk_alloc(&desk, VF_TEXT("raw"), 0, 5000, &told);
    vf_desk_send(&desk, VF_TEXT("raw"), 18, 3, 0, 6, bytes, 236, &told);
    vf_desk_take(&desk, VF_TEXT("raw"), &message, &told);
    vf_desk_write_at(&desk, VF_TEXT("raw"), 0x9009, bytes, 99);
    vf_desk_transfer_to(&desk, VF_TEXT("raw"), 0x9008, 1, 0x8114, 1);
    vf_desk_ack(&desk, VF_TEXT("raw"), &told);
    vf_desk_spool(&desk, VF_TEXT("raw"), 0, 3, 0, &told);
    vf_desk_take(&desk, VF_TEXT("raw"), &message, &told);
    vf_desk_scrap(&desk, VF_TEXT("raw"), 1, &told);
    vf_desk_kill(&desk, VF_TEXT("raw"));
}
static void desk_line(void) { vf_desk_line(&desk, VF_TEXT("areas")); }
static void desk_poll_lines(void)
{
    static char to_itself[] = "send raw 18 0 0 100 000000000000000000000000000000000000000001020304";
    vf_desk_task(&desk, VF_TEXT("raw"), 1, VF_TASK_RAW, &told);
    EXPECT(told < 10);
    to_itself[12] = (char)('0' + told);
    vf_desk_line(&desk, VF_TEXT("send raw 18 2 0 1 0000000000000000000000000000000006000000ff0f0000646f6300"));
    vf_desk_line(&desk, VF_TEXT("poll b"));
    vf_desk_line(&desk, VF_TEXT(to_itself));
    EXPECT(vf_desk_line(&desk, VF_TEXT("poll raw")) == VF_OK);
    vf_desk_reply(&desk, bytes, sizeof bytes, &number);
    EXPECT(!memcmp(bytes, "ok 18 100 ", 10));
    vf_desk_line(&desk, VF_TEXT("kill raw"));
}
static void desk_next(void) { vf_desk_next(&desk, B, &message, &told); }
static void desk_heap_reply(void)
{
    vf_desk_line(&desk, VF_TEXT("heap a"));
    vf_desk_reply(&desk, bytes, sizeof bytes, &number);
}
static void desk_reply(void) { vf_desk_reply(&desk, bytes, sizeof bytes, &number); }
static void desk_kill(void) { vf_desk_kill(&desk, B); }
static void desk_close(void) { vf_desk_close(&desk); }

/* Each call in turn, and the stack that it may need. */
static const struct { const char *name; void (*call)(void); size_t most; } CALLS_IN_TURN[] = {
    {"heap init", heap_init, FEW},           {"heap claim", heap_claim, FEW},
    {"heap resize", heap_resize, FEW},       {"heap describe", heap_describe, FEW},
    {"heap check", heap_check, FEW},         {"heap index", heap_index, FEW},
    {"heap with a map", heap_indexed, FEW},  {"heap, checked", heap_checked, FEW},
    {"heap release", heap_release, FEW},     {"heap extend", heap_extend, FEW},
    {"flex start", flex_start, FEW},         {"flex alloc", flex_alloc, FEW},
    {"flex free", flex_free, FEW},           {"flex extend", flex_extend, FEW},
    {"flex midextend", flex_midextend, FEW}, {"flex claim", flex_claim, FEW},
    {"flex resize", flex_resize, FEW},       {"flex release", flex_release, FEW},
    {"flex check", flex_check, FEW},         {"flex, checked", flex_checked, FEW},
    {"flex put and read", flex_bytes, FEW},  {"wide start", wide_start, FEW},
    {"wide alloc", wide_alloc, FEW},         {"wide free", wide_free, FEW},
    {"wide extend", wide_extend, FEW},       {"wide midextend", wide_midextend, FEW},
    {"wide budge", wide_budge, FEW},         {"wide put and read", wide_bytes, FEW},
    {"senders", senders, TRANSFER},
    {"receivers", receivers, TRANSFER},      {"messages", messages, TRANSFER},
    {"desk file", desk_file, COMMAND},
    {"desk open", desk_open, OPENING},       {"desk tasks", desk_tasks, COMMAND},
    {"desk flex", desk_flex, COMMAND},       {"desk heaps", desk_heaps, COMMAND},
    {"desk areas", desk_areas, COMMAND},     {"desk transfer", desk_transfer, COMMAND},
    {"desk questions", desk_questions, COMMAND}, {"desk bytes", desk_bytes, COMMAND},
    {"desk programs", desk_programs, COMMAND}, {"desk lines of polls", desk_poll_lines, COMMAND},
    {"desk line", desk_line, COMMAND},       {"desk next", desk_next, QUESTION},
    {"desk reply", desk_reply, QUESTION},    {"desk reply to heap", desk_heap_reply, COMMAND},
    {"desk kill", desk_kill, COMMAND},       {"desk close", desk_close, QUESTION},
};

/* Makes the call on a stack of these bytes. */
static void call_on(void (*call)(void), uint8_t *stack, size_t length)
{
    static ucontext_t here, there;
    EXPECT(getcontext(&there) == 0);
    there.uc_stack.ss_sp = stack;
    there.uc_stack.ss_size = length;
    there.uc_link = &here;
    makecontext(&there, call, 0);
    EXPECT(swapcontext(&here, &there) == 0);
}

/* How many bytes of a stack the call wrote to, with what the change of stacks itself needs. */
static size_t used_by(void (*call)(void))
{
    static uint8_t stack[STACK];
    memset(stack, FILL, STACK);
    call_on(call, stack, STACK);
    size_t i = 0;
    while (i < STACK && stack[i] == FILL)
        i++;
    return STACK - i;
}

/* Each call on an open desk. */
static void desk_calls(void)
{
    desk_tasks();
    desk_flex();
    desk_heaps();
    desk_areas();
    desk_transfer();
    desk_questions();
    desk_bytes();
    desk_programs();
    desk_line();
    desk_next();
    desk_reply();
    desk_heap_reply();
    desk_kill();
}

/* A desk from its first file to its end: all commands, and the calls beside them. */
static void desk_whole(void)
{
    desk_file();
    desk_open();
    desk_calls();
    desk_close();
}

/* The calls need no more than this stack, whatever came before. The pages below it end the program where one does. */
static void try_on(void (*calls)(void), size_t length)
{
    uint8_t *pages = mmap(NULL, GUARD + length, PROT_NONE, MAP_PRIVATE | MAP_ANONYMOUS, -1, 0);
    EXPECT(pages != MAP_FAILED && mprotect(pages + GUARD, length, PROT_READ | PROT_WRITE) == 0);
    call_on(calls, pages + GUARD, length);
    EXPECT(munmap(pages, GUARD + length) == 0);
}

/* What the program links to at the first call is linked before, since the linker needs stack for that. */
static void link_all(void)
{
    void *taken = realloc(malloc(16), 1 << 20);
    memset(bytes, 1, sizeof bytes);
    memmove(bytes + 1, bytes, number + 100);
    memcpy(memory, bytes, number + 100);
    free(taken);
}

int main(void)
{
#ifndef __SANITIZE_ADDRESS__
    link_all();
    size_t alone = used_by(nothing);
    for (size_t i = 0; i < sizeof CALLS_IN_TURN / sizeof *CALLS_IN_TURN; i++) {
        size_t used = used_by(CALLS_IN_TURN[i].call) - alone;
        if (used >= CALLS_IN_TURN[i].most)
            fprintf(stderr, "%s: %zu bytes of stack\n", CALLS_IN_TURN[i].name, used);
        EXPECT(used < CALLS_IN_TURN[i].most);
    }
    desk_file();
    desk_open();
    try_on(desk_calls, SMALL_STACK);
    desk_close();
    try_on(desk_whole, WHOLE_STACK);
    EXPECT(!desk.live);
#else
    (void)CALLS_IN_TURN, (void)used_by, (void)link_all, (void)nothing, (void)try_on, (void)desk_whole;
#endif
    return ended("stack");
}
