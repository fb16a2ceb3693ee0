/*
 * desk_random.c: random scripts, line by line over two desks, one by lines and one by typed calls. Both answer the same
 * text, and in the end they list the same.
 */
#include "desk_scripts.h"

#ifndef CALLS
#define CALLS 10000
#endif

enum { RUN = 400, PAGES = 40, ROOM = 200 };

static struct vf_desk by_lines = VF_DESK_CLOSED, by_calls = VF_DESK_CLOSED;
static char line[ROOM_OF_LINE];

static const char *name(void)
{
    static const char *const names[] = {"a", "b", "c", "Edit", "Paint2"};
    return names[below(5)];
}

/* An address that may be a block's: a multiple of 4 near the start of a C heap. */
static unsigned heap_address(void) { return 0x8100 + 20 + 8 * below(200); }

static unsigned module_address(void) { return 0x1800000 + 20 + 8 * below(200); }

static int delta(void) { return (int)below(3000) - 1500; }

static void some_put(void)
{
    int at = snprintf(line, sizeof line, "put %s %u %u ", name(), below(6), below(60));
    for (uint32_t i = 0, n = 1 + below(20); i < n; i++)
        at += snprintf(line + at, sizeof line - (size_t)at, "%02x", below(256));
}

static void some_line_on_a_slot(void)
{
    switch (below(11)) {
    case 0: snprintf(line, ROOM, "alloc %s %u %u", name(), below(6), below(4000)); break;
    case 1: snprintf(line, ROOM, "load %s %u %s", name(), below(6), below(3) ? "notes" : "none"); break;
    case 2: some_put(); break;
    case 3: snprintf(line, ROOM, "free %s %u", name(), below(6)); break;
    case 4: snprintf(line, ROOM, "extend %s %u %u", name(), below(6), below(6000)); break;
    case 5: snprintf(line, ROOM, "mid %s %u %u %d", name(), below(6), below(500), delta()); break;
    case 6: snprintf(line, ROOM, "claim %s %u", name(), below(1500)); break;
    case 7: snprintf(line, ROOM, "release %s &%X", name(), heap_address()); break;
    case 8: snprintf(line, ROOM, "resize %s &%X %d", name(), heap_address(), delta()); break;
    case 9: snprintf(line, ROOM, "budge %s %s", name(), below(2) ? "on" : "off"); break;
    default: snprintf(line, ROOM, "show %s %u", name(), below(6));
    }
}

static void some_line_on_tasks(void)
{
    static const char *const manners[] = {"", "", " deaf", " file", " raw", " raw"};
    switch (below(10)) {
    case 0: snprintf(line, ROOM, "task %s %u%s", name(), 1 + below(300), manners[below(6)]); break;
    case 1: snprintf(line, ROOM, "kill %s", below(4) ? "none" : name()); break;
    case 2: snprintf(line, ROOM, "save %s %u %s Leaf%u", name(), below(6), name(), below(9)); break;
    case 3: snprintf(line, ROOM, "cancel %s %s", name(), below(2) ? "in" : "out"); break;
    case 4: snprintf(line, ROOM, "cancel %s %s %u", name(), below(2) ? "in" : "out", 1 + below(40)); break;
    case 5: snprintf(line, ROOM, "repeat %s", name()); break;
    default: snprintf(line, ROOM, "poll %s", name());
    }
}

/* An address in the slot of a task: of its first flex block, or near the start of its C heap. */
static unsigned slot_address(void) { return below(2) ? 0x9008 + below(20) : heap_address() + below(3); }

/* A message of any action: of a transfer, with the numbers of a buffer or of a file, or any other. */
static void some_send(void)
{
    int at = snprintf(line, sizeof line, "send %s %u %u %u ", name(), 17 + below(2), 1 + below(9), below(3) * below(30));
    size_t room = sizeof line - (size_t)at;
    switch (below(4)) {
    case 0: snprintf(line + at, room, "6 %02x8100000%x000000", 0x14 + 8 * below(4), below(16)); break;
    case 1: snprintf(line + at, room, "7 %02x8100000%x000000", 0x14 + 8 * below(4), below(16)); break;
    case 2: snprintf(line + at, room, "%u %040x%08x6c656166%s", 1 + below(4), 0, 0xfd0f0000, below(3) ? "00000000" : "");
        break;
    default: snprintf(line + at, room, "%u%s", below(9), below(2) ? " 0123456789abcdef" : "");
    }
}

static void some_line_of_programs(void)
{
    switch (below(8)) {
    case 0: snprintf(line, ROOM, "ack %s", name()); break;
    case 1: snprintf(line, ROOM, "read %s &%X %u", name(), slot_address(), below(9)); break;
    case 2: snprintf(line, ROOM, "write %s &%X %02x%02x", name(), slot_address(), below(256), below(256)); break;
    case 3: snprintf(line, ROOM, "spool %s %u %u %u", name(), below(6), 1 + below(9), below(30)); break;
    case 4: snprintf(line, ROOM, "scrap %s %u", name(), below(6)); break;
    case 5:
        snprintf(line, ROOM, "transfer %s &%X %u &%X %u", name(), slot_address(), 1 + below(9), slot_address(), below(6));
        break;
    default: some_send();
    }
}

static void some_other_line(void)
{
    switch (below(11)) {
    case 0: snprintf(line, ROOM, "area %u %d", below(7), 10 * delta()); break;
    case 1: snprintf(line, ROOM, "make %u", 1 + below(9)); break;
    case 2: snprintf(line, ROOM, "area %u %d", 256 + below(9), 10 * delta()); break;
    case 3: snprintf(line, ROOM, "remove %u", 256 + below(9)); break;
    case 4: snprintf(line, ROOM, "rma claim %u", below(600)); break;
    case 5: snprintf(line, ROOM, "rma free &%X", module_address()); break;
    case 6: snprintf(line, ROOM, "rma resize &%X %d", module_address(), delta()); break;
    case 7: snprintf(line, ROOM, "blocks %s", name()); break;
    case 8: snprintf(line, ROOM, "heap %s", name()); break;
    case 9: snprintf(line, ROOM, "status %s", name()); break;
    default: snprintf(line, ROOM, "areas");
    }
}

static void some_line(void)
{
    switch (below(6)) {
    case 0:
    case 1: some_line_on_a_slot(); break;
    case 2: some_other_line(); break;
    case 3: some_line_of_programs(); break;
    default: some_line_on_tasks();
    }
}

static void open_with_a_file(struct vf_desk *desk)
{
    static const uint8_t notes[] = "notes of a file that is loaded";
    EXPECT(vf_desk_file(desk, VF_TEXT("notes"), notes, sizeof notes - 1) == VF_OK);
    EXPECT(vf_desk_open(desk, PAGES, 1, 1) == VF_OK);
}

static void run(void)
{
    open_with_a_file(&by_lines);
    open_with_a_file(&by_calls);
    forget_programs();
    for (int i = 0; i < RUN; i++) {
        some_line();
        both_answer_alike(&by_lines, &by_calls, line);
    }
    EXPECT(vf_desk_close(&by_lines) == VF_OK);
    EXPECT(vf_desk_close(&by_calls) == VF_OK);
}

int main(void)
{
    for (int i = 0; i < CALLS / RUN && failures == 0; i++)
        run();
    return ended("desk_random");
}
