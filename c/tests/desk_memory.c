/*
 * desk_memory.c: a desk that takes its memory from functions of this program. Each request is refused in turn: the call
 * answers so, and the files that were added stay. A desk does without its last four requests alone, in which it asks for
 * longer maps than it needs. No call asks for memory once the desk is open, done or refused, and all is given back.
 */
#include "expect.h"

#include <stdlib.h>

enum { MOST_REQUESTS = 300, LINES = 20000, PAGES = 32, SPARED = 4 };

static long requests, live, refused_request = -1;
static bool later_too;
static size_t asked;
static const uint8_t lent[4 * 4096];

/* What vervainfile asks for memory. A host that brings its own defines these three. */
struct granted {
    bool ok;
    void *at;
};
struct granted rattle_alloc(size_t size, size_t align);
struct granted rattle_realloc(void *at, size_t old_size, size_t size, size_t align);
void rattle_dealloc(void *at);

static bool is_refused(void)
{
    long request = requests++;
    return request == refused_request || (later_too && refused_request >= 0 && request > refused_request);
}

static struct granted granted(void *at)
{
    static char nothing;
    return (struct granted){at != NULL, at ? at : &nothing};
}

struct granted rattle_alloc(size_t size, size_t align)
{
    if (is_refused())
        return granted(NULL);
    asked += size;
    live++;
    return granted(malloc(size ? size : align));
}

struct granted rattle_realloc(void *at, size_t old_size, size_t size, size_t align)
{
    (void)old_size;
    asked += size;
    return is_refused() ? granted(NULL) : granted(realloc(at, size ? size : align));
}

void rattle_dealloc(void *at)
{
    live--;
    free(at);
}

static struct vf_desk desk = VF_DESK_CLOSED;
static uint32_t number;
static uint8_t text[1 << 16];
static size_t length;

/* A call that is refused for lack of memory has changed nothing, and does what it should when it is made again. */
#define DOES_AT_LAST(call)                                                             \
    do {                                                                               \
        uint32_t status = VF_NO_MEMORY;                                                \
        for (long i = 0; i < MOST_REQUESTS && status == VF_NO_MEMORY; i++) {           \
            long held = live;                                                          \
            struct vf_desk old = desk;                                                 \
            refused_request = i;                                                       \
            requests = 0;                                                              \
            status = (call);                                                           \
            EXPECT(status == VF_OK || (live == held && old.live == desk.live));        \
            EXPECT(status == VF_OK || requests == i + 1);                              \
        }                                                                              \
        refused_request = -1;                                                          \
        EXPECT(status == VF_OK);                                                       \
    } while (0)

static void add_files(void)
{
    DOES_AT_LAST(vf_desk_file(&desk, VF_TEXT("notes"), (const uint8_t *)"notes that are handed over", 26));
    DOES_AT_LAST(vf_desk_file(&desk, VF_TEXT("more"), (const uint8_t *)"more", 4));
    asked = 0;
    DOES_AT_LAST(vf_desk_file_lent(&desk, VF_TEXT("lent"), lent, sizeof lent));
    EXPECT(asked < sizeof lent / 4);
}

/* Opens the desk with one request refused, and all later ones too if so wanted. Whether the request was made. */
static bool opened_without(long request, uint32_t pages, long *spared)
{
    long held = live;
    struct vf_desk old = desk;
    refused_request = request;
    requests = 0;
    uint32_t status = vf_desk_open(&desk, pages, 1, 1);
    refused_request = -1;
    bool refused = requests > request;
    EXPECT(status == VF_OK || (refused && status == VF_NO_MEMORY));
    EXPECT(status == VF_OK || (live == held && old.live == desk.live && (later_too || requests == request + 1)));
    *spared += refused && status == VF_OK;
    return refused;
}

/* Opens the desk at last, after each of its requests was refused. It is opened without the last four as well. */
static void open_at_last(uint32_t pages, bool with_files)
{
    long request = 0, spared = 0;
    while (opened_without(request, pages, &spared) && request < MOST_REQUESTS) {
        EXPECT(!desk.live || (vf_desk_close(&desk) == VF_OK && live == 0));
        if (with_files && live == 0)
            add_files();
        request++;
    }
    EXPECT(desk.live && spared == (later_too ? 0 : SPARED));
}

static void say(const char *line)
{
    EXPECT(vf_desk_line(&desk, VF_TEXT(line)) == VF_OK);
    EXPECT(vf_desk_reply(&desk, text, sizeof text, &length) == VF_OK);
}

/* Transfers one after the other, with all lists looked up between, by calls and by lines. */
static void work(void)
{
    EXPECT(vf_desk_task(&desk, VF_TEXT("a"), 10, VF_TASK_PLAIN, &number) == VF_OK);
    EXPECT(vf_desk_task(&desk, VF_TEXT("b"), 10, VF_TASK_PLAIN, &number) == VF_OK);
    EXPECT(vf_desk_load(&desk, VF_TEXT("a"), 0, VF_TEXT("notes"), &number) == VF_OK);
    for (int i = 0; i < LINES; i++) {
        static const char *const lines[] = {
            "save a 0 b Leaf", "poll b", "poll a", "poll b", "poll a", "poll b", "free b 0", "claim a 30", "heap a",
            "areas", "blocks a", "show a 0", "status a", "rma claim 50", "make 3", "nonsense", "mid a 1 0 9",
            "repeat a",
        };
        say(lines[(size_t)i % (sizeof lines / sizeof *lines)]);
        vf_desk_show(&desk, VF_TEXT("b"), 0, text, sizeof text, &number);
    }
}

/* A call that is done, and one of the same name that is refused. */
#define BOTH(done, refused)          \
    do {                             \
        EXPECT((done) == VF_OK);     \
        EXPECT((refused) != VF_OK);  \
    } while (0)

static const uint8_t abc[] = "abc";
static uint32_t address, handle, made;
static size_t count, other;

/* Tasks c and d, and c's flex blocks and C heap. */
static void calls_on_memory(void)
{
    bool was;
    BOTH(vf_desk_task(&desk, VF_TEXT("c"), 10, VF_TASK_PLAIN, &number),
         vf_desk_task(&desk, VF_TEXT("c"), 10, VF_TASK_PLAIN, &number));
    handle = number;
    EXPECT(vf_desk_task(&desk, VF_TEXT("d"), 10, VF_TASK_PLAIN, &number) == VF_OK);
    BOTH(vf_desk_load(&desk, VF_TEXT("c"), 0, VF_TEXT("notes"), &number),
         vf_desk_load(&desk, VF_TEXT("c"), 2, VF_TEXT("none"), &number));
    EXPECT(vf_desk_load(&desk, VF_TEXT("c"), 2, VF_TEXT("lent"), &number) == VF_OK);
    EXPECT(vf_desk_free(&desk, VF_TEXT("c"), 2) == VF_OK);
    BOTH(vf_desk_alloc(&desk, VF_TEXT("c"), 1, 20, &number), vf_desk_alloc(&desk, VF_TEXT("c"), 1, 20, &number));
    BOTH(vf_desk_put(&desk, VF_TEXT("c"), 1, 0, abc, 3), vf_desk_put(&desk, VF_TEXT("c"), 1, 18, abc, 3));
    BOTH(vf_desk_extend(&desk, VF_TEXT("c"), 1, 40), vf_desk_extend(&desk, VF_TEXT("c"), 5, 40));
    BOTH(vf_desk_mid(&desk, VF_TEXT("c"), 1, 2, 5), vf_desk_mid(&desk, VF_TEXT("c"), 1, 99, 5));
    BOTH(vf_desk_show_at(&desk, VF_TEXT("c"), 1, 2, text, 5, &number),
         vf_desk_show_at(&desk, VF_TEXT("c"), 1, 99, text, 5, &number));
    BOTH(vf_desk_free(&desk, VF_TEXT("c"), 1), vf_desk_free(&desk, VF_TEXT("c"), 1));
    BOTH(vf_desk_claim(&desk, VF_TEXT("c"), 30, &address), vf_desk_claim(&desk, VF_TEXT("c"), 0, &number));
    BOTH(vf_desk_write(&desk, VF_TEXT("c"), address, 2, abc, 3), vf_desk_write(&desk, VF_TEXT("c"), 0, 2, abc, 3));
    BOTH(vf_desk_read(&desk, VF_TEXT("c"), address, 2, text, 3, &number),
         vf_desk_read(&desk, VF_TEXT("c"), 0, 2, text, 3, &number));
    BOTH(vf_desk_transfer(&desk, handle, address, handle, address + 8, 4),
         vf_desk_transfer(&desk, 0, address, handle, address + 8, 4));
    BOTH(vf_desk_resize(&desk, VF_TEXT("c"), address, 8, &address),
         vf_desk_resize(&desk, VF_TEXT("c"), address + 1, 8, &number));
    BOTH(vf_desk_release(&desk, VF_TEXT("c"), address), vf_desk_release(&desk, VF_TEXT("c"), address));
    BOTH(vf_desk_budge(&desk, VF_TEXT("c"), true, &was), vf_desk_budge(&desk, VF_TEXT("nobody"), true, &was));
}

/* A transfer from c to d, which both give up. */
static void calls_on_transfers(void)
{
    struct vf_event event;
    struct vf_message message;
    BOTH(vf_desk_save(&desk, VF_TEXT("c"), 0, VF_TEXT("d"), VF_TEXT("Leaf"), &number),
         vf_desk_save(&desk, VF_TEXT("c"), 5, VF_TEXT("d"), VF_TEXT("Leaf"), &number));
    BOTH(vf_desk_repeat(&desk, VF_TEXT("c"), &number), vf_desk_repeat(&desk, VF_TEXT("d"), &number));
    BOTH(vf_desk_next(&desk, VF_TEXT("d"), &message, &number),
         vf_desk_next(&desk, VF_TEXT("nobody"), &message, &number));
    BOTH(vf_desk_poll(&desk, VF_TEXT("d"), &event), vf_desk_poll(&desk, VF_TEXT("nobody"), &event));
    BOTH(vf_desk_cancel_in(&desk, VF_TEXT("d"), 0), vf_desk_cancel_in(&desk, VF_TEXT("d"), 99));
    BOTH(vf_desk_cancel_out(&desk, VF_TEXT("c"), 0), vf_desk_cancel_out(&desk, VF_TEXT("c"), 99));
}

/* A task with code of its own, e, which sends itself a message and a file. */
static void calls_of_programs(void)
{
    struct vf_message message;
    EXPECT(vf_desk_task(&desk, VF_TEXT("e"), 1, VF_TASK_RAW, &handle) == VF_OK);
    EXPECT(vf_desk_alloc(&desk, VF_TEXT("e"), 0, 5000, &address) == VF_OK);
    BOTH(vf_desk_send(&desk, VF_TEXT("e"), 18, handle, 0, 9, text, 236, &number),
         vf_desk_send(&desk, VF_TEXT("e"), 18, handle, UINT32_MAX, 9, text, 236, &number));
    BOTH(vf_desk_take(&desk, VF_TEXT("e"), &message, &number),
         vf_desk_take(&desk, VF_TEXT("nobody"), &message, &number));
    BOTH(vf_desk_ack(&desk, VF_TEXT("e"), &number), vf_desk_ack(&desk, VF_TEXT("d"), &number));
    BOTH(vf_desk_spool(&desk, VF_TEXT("e"), 0, handle, 0, &number),
         vf_desk_spool(&desk, VF_TEXT("e"), 0, handle, 0, &number));
    EXPECT(vf_desk_take(&desk, VF_TEXT("e"), &message, &number) == VF_OK && number == 18);
    BOTH(vf_desk_scrap(&desk, VF_TEXT("e"), 1, &number), vf_desk_scrap(&desk, VF_TEXT("e"), 1, &number));
    BOTH(vf_desk_write_at(&desk, VF_TEXT("e"), address + 4900, abc, 3),
         vf_desk_write_at(&desk, VF_TEXT("e"), address + 4998, abc, 3));
    EXPECT(vf_desk_transfer_to(&desk, VF_TEXT("e"), address, handle, address, 0) != VF_OK);
    EXPECT(vf_desk_kill(&desk, VF_TEXT("e")) == VF_OK);
}

static void calls_on_areas(void)
{
    BOTH(vf_desk_make(&desk, 3, &made), vf_desk_make(&desk, 0, &number));
    BOTH(vf_desk_area(&desk, made, 4096, &number), vf_desk_area(&desk, made + 1, 4096, &number));
    BOTH(vf_desk_remove(&desk, made), vf_desk_remove(&desk, made));
    BOTH(vf_desk_rma_claim(&desk, 50, &address), vf_desk_rma_claim(&desk, 0, &number));
    BOTH(vf_desk_rma_resize(&desk, address, 8, &address), vf_desk_rma_resize(&desk, address + 1, 8, &number));
    BOTH(vf_desk_rma_write(&desk, address, 8, abc, 3), vf_desk_rma_write(&desk, address, 58, abc, 3));
    BOTH(vf_desk_rma_read(&desk, address, 8, text, 3, &number), vf_desk_rma_read(&desk, address, 58, text, 3, &number));
    BOTH(vf_desk_rma_free(&desk, address), vf_desk_rma_free(&desk, address));
}

/* The questions, of which none on areas is refused; and the end of both tasks. */
static void questions(void)
{
    struct vf_block blocks[4];
    struct vf_segment segments[4];
    struct vf_heap_sums sums;
    struct vf_record outgoing[8], incoming[8];
    struct vf_area areas[8];
    BOTH(vf_desk_show(&desk, VF_TEXT("c"), 0, text, sizeof text, &number),
         vf_desk_show(&desk, VF_TEXT("c"), 7, text, sizeof text, &number));
    BOTH(vf_desk_blocks(&desk, VF_TEXT("c"), blocks, 4, &count),
         vf_desk_blocks(&desk, VF_TEXT("nobody"), blocks, 4, &count));
    BOTH(vf_desk_heap(&desk, VF_TEXT("c"), &sums, segments, 4, &count),
         vf_desk_heap(&desk, VF_TEXT("nobody"), &sums, segments, 4, &count));
    BOTH(vf_desk_status(&desk, VF_TEXT("c"), &number, outgoing, 8, &count, incoming, 8, &other),
         vf_desk_status(&desk, VF_TEXT("nobody"), &number, outgoing, 8, &count, incoming, 8, &other));
    EXPECT(vf_desk_areas(&desk, &number, areas, 8, &count) == VF_OK);
    say("areas");
    EXPECT(vf_desk_reply(&desk, text, 1, &length) == VF_SHORT);
    BOTH(vf_desk_kill(&desk, VF_TEXT("c")), vf_desk_kill(&desk, VF_TEXT("c")));
    EXPECT(vf_desk_kill(&desk, VF_TEXT("d")) == VF_OK);
}

int main(void)
{
    add_files();
    open_at_last(PAGES, true);
    long held = live;
    requests = 0;
    calls_on_memory();
    calls_on_transfers();
    calls_of_programs();
    calls_on_areas();
    questions();
    work();
    EXPECT(requests == 0 && live == held);
    EXPECT(vf_desk_load(&desk, VF_TEXT("a"), 9, VF_TEXT("more"), &number) == VF_OK);
    EXPECT(vf_desk_close(&desk) == VF_OK);
    EXPECT(requests == 0 && live == 0);
    later_too = true;
    open_at_last(8, false);
    EXPECT(vf_desk_close(&desk) == VF_OK && live == 0);
    return ended("desk_memory");
}
