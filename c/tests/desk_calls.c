/*
 * desk_calls.c: each call on a desk, and each status that it can answer. A refused call leaves the desk, each number
 * and each array as it was. Addresses follow from the rules: a slot begins at &8000 with 256 bytes of anchor words and
 * a C heap of 3,840 bytes, a flex block stands behind a header of 8 bytes and in whole words, and a heap's first block
 * at 20.
 */
#include "expect.h"

enum { PAGES = 16, FIRST_FLEX = 0x9008, FIRST_HEAP = 0x8114, FIRST_RMA = 0x1800014 };
enum { LONGEST_FILE = 1 << 20, ROOM_OF_TEXT = 1 << 20 };

#define LAST UINT32_MAX

static struct vf_desk desk = VF_DESK_CLOSED;
static uint32_t number_told;
static size_t count, other_count;
static bool was;
static struct vf_event event;
static struct vf_message message;
static struct vf_heap_sums sums;
static struct vf_block blocks[4];
static struct vf_segment segments[4];
static struct vf_record records[2], other_records[2];
static struct vf_area areas[12];
static uint8_t bytes[16];

/* All that can be told of the desk, as text. */
static char picture[ROOM_OF_TEXT], picture_before[ROOM_OF_TEXT];

static void add_line(char *to, const char *asked)
{
    size_t n = 0, at = strlen(to);
    vf_desk_line(&desk, VF_TEXT(asked));
    EXPECT(vf_desk_reply(&desk, (uint8_t *)to + at, ROOM_OF_TEXT - 1 - at, &n) != VF_SHORT);
    to[at + n] = 0;
}

static void draw(char *to)
{
    static const char *const names[] = {"a", "b", "deaf"};
    char asked[40];
    *to = 0;
    add_line(to, "areas");
    for (int i = 0; i < 3; i++) {
        snprintf(asked, sizeof asked, "blocks %s", names[i]);
        add_line(to, asked);
        snprintf(asked, sizeof asked, "heap %s", names[i]);
        add_line(to, asked);
        snprintf(asked, sizeof asked, "status %s", names[i]);
        add_line(to, asked);
        for (unsigned k = 0; k < 3; k++) {
            snprintf(asked, sizeof asked, "show %s %u", names[i], k);
            add_line(to, asked);
        }
    }
}

/* Everything that a call may tell has a value that no call tells. */
static void unset(void)
{
    number_told = UNSET;
    count = other_count = UNSET;
    was = true;
    memset(&event, UNSET, sizeof event);
    memset(&message, UNSET, sizeof message);
    memset(&sums, UNSET, sizeof sums);
    memset(blocks, UNSET, sizeof blocks);
    memset(segments, UNSET, sizeof segments);
    memset(records, UNSET, sizeof records);
    memset(other_records, UNSET, sizeof other_records);
    memset(areas, UNSET, sizeof areas);
    memset(bytes, UNSET, sizeof bytes);
}

static bool is_set(const void *at, size_t n)
{
    for (size_t i = 0; i < n; i++)
        if (((const uint8_t *)at)[i] != UNSET)
            return true;
    return false;
}

static bool is_all(const uint8_t *at, size_t n, uint8_t value)
{
    for (size_t i = 0; i < n; i++)
        if (at[i] != value)
            return false;
    return true;
}

static bool is_unset(void)
{
    return number_told == UNSET && count == UNSET && other_count == UNSET && was && !is_set(&event, sizeof event) &&
           !is_set(&message, sizeof message) &&
           !is_set(&sums, sizeof sums) && !is_set(blocks, sizeof blocks) && !is_set(segments, sizeof segments) &&
           !is_set(records, sizeof records) && !is_set(other_records, sizeof other_records) &&
           !is_set(areas, sizeof areas) && !is_set(bytes, sizeof bytes);
}

#define REFUSES(status, call)                                                          \
    do {                                                                               \
        draw(picture_before);                                                          \
        unset();                                                                       \
        EXPECT((call) == (status));                                                    \
        EXPECT(is_unset());                                                            \
        draw(picture);                                                                 \
        EXPECT(strcmp(picture_before, picture) == 0);                                  \
    } while (0)

#define GIVES(told_number, call)                                                       \
    do {                                                                               \
        unset();                                                                       \
        EXPECT((call) == VF_OK);                                                       \
        EXPECT(number_told == (told_number));                                          \
    } while (0)

#define DOES(call) EXPECT((call) == VF_OK)
#define A VF_TEXT("a")
#define B VF_TEXT("b")
#define NONE VF_TEXT("none")
#define NO_FORM VF_TEXT("1a")

static void open_desk(uint32_t pages, uint32_t handle, uint32_t ref)
{
    DOES(vf_desk_file(&desk, VF_TEXT("notes"), (const uint8_t *)"abc", 3));
    DOES(vf_desk_open(&desk, pages, handle, ref));
}

static void closed_desks_answer_so(void)
{
    REFUSES(VF_CLOSED, vf_desk_task(&desk, A, 1, VF_TASK_PLAIN, &number_told));
    REFUSES(VF_CLOSED, vf_desk_kill(&desk, A));
    REFUSES(VF_CLOSED, vf_desk_save(&desk, A, 0, B, VF_TEXT("l"), &number_told));
    REFUSES(VF_CLOSED, vf_desk_poll(&desk, A, &event));
    REFUSES(VF_CLOSED, vf_desk_next(&desk, A, &message, &number_told));
    REFUSES(VF_CLOSED, vf_desk_cancel_in(&desk, A, 0));
    REFUSES(VF_CLOSED, vf_desk_cancel_out(&desk, A, 0));
    REFUSES(VF_CLOSED, vf_desk_repeat(&desk, A, &number_told));
    REFUSES(VF_CLOSED, vf_desk_alloc(&desk, A, 0, 1, &number_told));
    REFUSES(VF_CLOSED, vf_desk_load(&desk, A, 0, VF_TEXT("notes"), &number_told));
    REFUSES(VF_CLOSED, vf_desk_put(&desk, A, 0, 0, bytes, 1));
    REFUSES(VF_CLOSED, vf_desk_free(&desk, A, 0));
    REFUSES(VF_CLOSED, vf_desk_extend(&desk, A, 0, 1));
    REFUSES(VF_CLOSED, vf_desk_mid(&desk, A, 0, 0, 1));
    REFUSES(VF_CLOSED, vf_desk_claim(&desk, A, 1, &number_told));
    REFUSES(VF_CLOSED, vf_desk_release(&desk, A, FIRST_HEAP));
    REFUSES(VF_CLOSED, vf_desk_resize(&desk, A, FIRST_HEAP, 1, &number_told));
    REFUSES(VF_CLOSED, vf_desk_budge(&desk, A, true, &was));
    REFUSES(VF_CLOSED, vf_desk_area(&desk, 0, 1, &number_told));
    REFUSES(VF_CLOSED, vf_desk_make(&desk, 1, &number_told));
    REFUSES(VF_CLOSED, vf_desk_remove(&desk, 256));
    REFUSES(VF_CLOSED, vf_desk_rma_claim(&desk, 1, &number_told));
    REFUSES(VF_CLOSED, vf_desk_rma_free(&desk, FIRST_RMA));
    REFUSES(VF_CLOSED, vf_desk_rma_resize(&desk, FIRST_RMA, 1, &number_told));
    REFUSES(VF_CLOSED, vf_desk_show(&desk, A, 0, bytes, sizeof bytes, &number_told));
    REFUSES(VF_CLOSED, vf_desk_blocks(&desk, A, blocks, 4, &count));
    REFUSES(VF_CLOSED, vf_desk_heap(&desk, A, &sums, segments, 4, &count));
    REFUSES(VF_CLOSED, vf_desk_status(&desk, A, &number_told, records, 2, &count, other_records, 2, &other_count));
    REFUSES(VF_CLOSED, vf_desk_areas(&desk, &number_told, areas, 12, &count));
    REFUSES(VF_CLOSED, vf_desk_line(&desk, VF_TEXT("areas")));
    REFUSES(VF_CLOSED, vf_desk_reply(&desk, bytes, sizeof bytes, &count));
}

/* A name, an anchor, a number, an amount or a leafname that no line could have. */
static void arguments_have_forms(void)
{
    static const uint32_t big = 0x80000000u;
    static uint8_t many[1];
    REFUSES(VF_BAD_ARGUMENT, vf_desk_task(&desk, NO_FORM, 1, VF_TASK_PLAIN, &number_told));
    REFUSES(VF_BAD_ARGUMENT, vf_desk_task(&desk, VF_TEXT(""), 1, VF_TASK_PLAIN, &number_told));
    REFUSES(VF_BAD_ARGUMENT, vf_desk_task(&desk, VF_TEXT("abcdefghijklm"), 1, VF_TASK_PLAIN, &number_told));
    REFUSES(VF_BAD_ARGUMENT, vf_desk_task(&desk, VF_TEXT("a b"), 1, VF_TASK_PLAIN, &number_told));
    REFUSES(VF_BAD_ARGUMENT, vf_desk_task(&desk, A, 0, VF_TASK_PLAIN, &number_told));
    REFUSES(VF_BAD_ARGUMENT, vf_desk_task(&desk, A, 65537, VF_TASK_PLAIN, &number_told));
    REFUSES(VF_BAD_ARGUMENT, vf_desk_task(&desk, A, 1, 4, &number_told));
    REFUSES(VF_BAD_ARGUMENT, vf_desk_kill(&desk, NO_FORM));
    REFUSES(VF_BAD_ARGUMENT, vf_desk_save(&desk, A, 64, B, VF_TEXT("l"), &number_told));
    REFUSES(VF_BAD_ARGUMENT, vf_desk_save(&desk, A, 0, NO_FORM, VF_TEXT("l"), &number_told));
    REFUSES(VF_BAD_ARGUMENT, vf_desk_save(&desk, A, 0, B, VF_TEXT(""), &number_told));
    REFUSES(VF_BAD_ARGUMENT, vf_desk_save(&desk, A, 0, B, VF_TEXT("elevenbytes"), &number_told));
    REFUSES(VF_BAD_ARGUMENT, vf_desk_save(&desk, A, 0, B, VF_TEXT("a b"), &number_told));
    REFUSES(VF_BAD_ARGUMENT, vf_desk_poll(&desk, NO_FORM, &event));
    REFUSES(VF_BAD_ARGUMENT, vf_desk_next(&desk, NO_FORM, &message, &number_told));
    REFUSES(VF_BAD_ARGUMENT, vf_desk_cancel_in(&desk, NO_FORM, 0));
    REFUSES(VF_BAD_ARGUMENT, vf_desk_cancel_out(&desk, NO_FORM, 0));
    REFUSES(VF_BAD_ARGUMENT, vf_desk_repeat(&desk, NO_FORM, &number_told));
    REFUSES(VF_BAD_ARGUMENT, vf_desk_alloc(&desk, A, 64, 1, &number_told));
    REFUSES(VF_BAD_ARGUMENT, vf_desk_alloc(&desk, A, 256, 1, &number_told));
    REFUSES(VF_BAD_ARGUMENT, vf_desk_alloc(&desk, A, 0, big, &number_told));
    REFUSES(VF_BAD_ARGUMENT, vf_desk_load(&desk, A, 0, NO_FORM, &number_told));
    REFUSES(VF_BAD_ARGUMENT, vf_desk_put(&desk, A, 0, 0, many, 0));
    REFUSES(VF_BAD_ARGUMENT, vf_desk_put(&desk, A, 0, big, many, 1));
    REFUSES(VF_BAD_ARGUMENT, vf_desk_free(&desk, A, 64));
    REFUSES(VF_BAD_ARGUMENT, vf_desk_extend(&desk, A, 0, big));
    REFUSES(VF_BAD_ARGUMENT, vf_desk_mid(&desk, A, 0, 0, INT32_MIN));
    REFUSES(VF_BAD_ARGUMENT, vf_desk_claim(&desk, A, big, &number_told));
    REFUSES(VF_BAD_ARGUMENT, vf_desk_release(&desk, NO_FORM, FIRST_HEAP));
    REFUSES(VF_BAD_ARGUMENT, vf_desk_resize(&desk, A, FIRST_HEAP, INT32_MIN, &number_told));
    REFUSES(VF_BAD_ARGUMENT, vf_desk_budge(&desk, NO_FORM, true, &was));
    REFUSES(VF_BAD_ARGUMENT, vf_desk_area(&desk, 65536, 1, &number_told));
    REFUSES(VF_BAD_ARGUMENT, vf_desk_area(&desk, 0, INT32_MIN, &number_told));
    REFUSES(VF_BAD_ARGUMENT, vf_desk_make(&desk, 0, &number_told));
    REFUSES(VF_BAD_ARGUMENT, vf_desk_make(&desk, 1025, &number_told));
    REFUSES(VF_BAD_ARGUMENT, vf_desk_remove(&desk, 255));
    REFUSES(VF_BAD_ARGUMENT, vf_desk_rma_claim(&desk, big, &number_told));
    REFUSES(VF_BAD_ARGUMENT, vf_desk_rma_resize(&desk, FIRST_RMA, INT32_MIN, &number_told));
    REFUSES(VF_BAD_ARGUMENT, vf_desk_show(&desk, A, 64, bytes, sizeof bytes, &number_told));
    REFUSES(VF_BAD_ARGUMENT, vf_desk_blocks(&desk, NO_FORM, blocks, 4, &count));
    REFUSES(VF_BAD_ARGUMENT, vf_desk_heap(&desk, NO_FORM, &sums, segments, 4, &count));
    REFUSES(VF_BAD_ARGUMENT,
            vf_desk_status(&desk, NO_FORM, &number_told, records, 2, &count, other_records, 2, &other_count));
}

static void opening(void)
{
    static uint8_t longest[LONGEST_FILE + 1];
    REFUSES(VF_BAD_ARGUMENT, vf_desk_open(&desk, 7, 1, 1));
    REFUSES(VF_BAD_ARGUMENT, vf_desk_open(&desk, 1025, 1, 1));
    REFUSES(VF_BAD_ARGUMENT, vf_desk_open(&desk, 8, 0, 1));
    REFUSES(VF_BAD_ARGUMENT, vf_desk_open(&desk, 8, 1, 0));
    EXPECT(!desk.live && !desk.at);
    REFUSES(VF_BAD_ARGUMENT, vf_desk_file(&desk, NO_FORM, bytes, 1));
    REFUSES(VF_BAD_LENGTH, vf_desk_file(&desk, VF_TEXT("long"), longest, sizeof longest));
    REFUSES(VF_BAD_ARGUMENT, vf_desk_file_lent(&desk, NO_FORM, bytes, 1));
    REFUSES(VF_BAD_LENGTH, vf_desk_file_lent(&desk, VF_TEXT("long"), longest, sizeof longest));
    EXPECT(!desk.live && !desk.at);
    DOES(vf_desk_file(&desk, VF_TEXT("long"), longest, LONGEST_FILE));
    REFUSES(VF_FILE_EXISTS, vf_desk_file(&desk, VF_TEXT("long"), bytes, 1));
    DOES(vf_desk_file(&desk, VF_TEXT("empty"), bytes, 0));
    REFUSES(VF_BAD_ARGUMENT, vf_desk_open(&desk, 7, 1, 1));
    DOES(vf_desk_open(&desk, 300, 5, 9));
    REFUSES(VF_OPEN, vf_desk_open(&desk, 8, 1, 1));
    REFUSES(VF_OPEN, vf_desk_file(&desk, VF_TEXT("late"), bytes, 1));
    REFUSES(VF_OPEN, vf_desk_file_lent(&desk, VF_TEXT("late"), bytes, 1));
    GIVES(5, vf_desk_task(&desk, A, 1, VF_TASK_PLAIN, &number_told));
    GIVES(FIRST_FLEX, vf_desk_load(&desk, A, 0, VF_TEXT("long"), &number_told));
    DOES(vf_desk_load(&desk, A, 1, VF_TEXT("empty"), &number_told));
    DOES(vf_desk_close(&desk));
    EXPECT(!desk.live && !desk.at);
    DOES(vf_desk_close(&desk));
}

/* Files that are lent stand beside those that were copied, by their names. A task loads the bytes of either, and no
 * call writes to what is lent. */
static void files_are_lent(void)
{
    static uint8_t lent[] = "these lie in the program", as_they_were[sizeof lent], shown[sizeof lent];
    static uint8_t given[] = "copied";
    memcpy(as_they_were, lent, sizeof lent);
    DOES(vf_desk_file_lent(&desk, VF_TEXT("lent"), lent, sizeof lent));
    DOES(vf_desk_file(&desk, VF_TEXT("copied"), given, sizeof given));
    DOES(vf_desk_file_lent(&desk, VF_TEXT("empty"), lent, 0));
    REFUSES(VF_FILE_EXISTS, vf_desk_file(&desk, VF_TEXT("lent"), bytes, 1));
    REFUSES(VF_FILE_EXISTS, vf_desk_file_lent(&desk, VF_TEXT("lent"), bytes, 1));
    REFUSES(VF_FILE_EXISTS, vf_desk_file_lent(&desk, VF_TEXT("copied"), bytes, 1));
    memset(given, 0, sizeof given);
    DOES(vf_desk_open(&desk, 8, 1, 1));
    DOES(vf_desk_task(&desk, A, 1, VF_TASK_PLAIN, &number_told));
    DOES(vf_desk_load(&desk, A, 0, VF_TEXT("lent"), &number_told));
    GIVES(sizeof lent, vf_desk_show(&desk, A, 0, shown, sizeof shown, &number_told));
    EXPECT(memcmp(shown, lent, sizeof lent) == 0);
    DOES(vf_desk_load(&desk, A, 1, VF_TEXT("copied"), &number_told));
    GIVES(sizeof given, vf_desk_show(&desk, A, 1, shown, sizeof shown, &number_told));
    EXPECT(memcmp(shown, "copied", sizeof given) == 0);
    DOES(vf_desk_load(&desk, A, 2, VF_TEXT("empty"), &number_told));
    DOES(vf_desk_put(&desk, A, 0, 0, (const uint8_t *)"those", 5));
    DOES(vf_desk_mid(&desk, A, 0, 5, -5));
    DOES(vf_desk_close(&desk));
    EXPECT(memcmp(lent, as_they_were, sizeof lent) == 0);
}

/* A block takes as many bytes as it has in one call, and 507 of them in one line. */
static void bytes_are_put(const uint8_t *from)
{
    static const size_t lengths[] = {1, 2, 506, 507, 508, 511, 512, 513, 1024};
    for (size_t i = 0; i < sizeof lengths / sizeof *lengths; i++) {
        char line[2 * 1024 + 16] = "put a 1 0 ", said[16];
        for (size_t k = 0; k < lengths[i]; k++)
            strcat(line, "09");
        DOES(vf_desk_put(&desk, A, 1, 0, from, lengths[i]));
        DOES(vf_desk_line(&desk, VF_TEXT(line)));
        DOES(vf_desk_reply(&desk, (uint8_t *)said, sizeof said, &count));
        said[count] = 0;
        EXPECT(strcmp(said, lengths[i] <= 507 ? "ok\n" : "bad TooLong\n") == 0);
    }
    REFUSES(VF_BAD_ARGUMENT, vf_desk_put(&desk, A, 1, 0, from, 0));
}

static void flex_calls(void)
{
    static uint8_t long_bytes[3000];
    GIVES(FIRST_FLEX, vf_desk_alloc(&desk, A, 0, 10, &number_told));
    REFUSES(VF_NO_NAME, vf_desk_alloc(&desk, NONE, 1, 10, &number_told));
    REFUSES(VF_ANCHOR_IN_USE, vf_desk_alloc(&desk, A, 0, 10, &number_told));
    REFUSES(VF_NO_ROOM, vf_desk_alloc(&desk, A, 1, PAGES * 4096, &number_told));
    GIVES(FIRST_FLEX + 20, vf_desk_load(&desk, A, 1, VF_TEXT("notes"), &number_told));
    REFUSES(VF_NO_FILE, vf_desk_load(&desk, A, 2, NONE, &number_told));
    REFUSES(VF_ANCHOR_IN_USE, vf_desk_load(&desk, A, 1, VF_TEXT("notes"), &number_told));
    DOES(vf_desk_put(&desk, A, 0, 7, (const uint8_t *)"xyz", 3));
    REFUSES(VF_NO_NAME, vf_desk_put(&desk, NONE, 0, 0, (const uint8_t *)"x", 1));
    REFUSES(VF_NO_BLOCK, vf_desk_put(&desk, A, 2, 0, (const uint8_t *)"x", 1));
    REFUSES(VF_BAD_RANGE, vf_desk_put(&desk, A, 0, 8, (const uint8_t *)"xyz", 3));
    DOES(vf_desk_mid(&desk, A, 0, 2, 4));
    REFUSES(VF_BAD_RANGE, vf_desk_mid(&desk, A, 0, 15, 1));
    REFUSES(VF_BAD_RANGE, vf_desk_mid(&desk, A, 0, 2, -3));
    REFUSES(VF_NO_BLOCK, vf_desk_mid(&desk, A, 2, 0, 1));
    REFUSES(VF_NO_ROOM, vf_desk_mid(&desk, A, 0, 0, PAGES * 4096));
    DOES(vf_desk_extend(&desk, A, 0, 12));
    REFUSES(VF_NO_BLOCK, vf_desk_extend(&desk, A, 2, 1));
    REFUSES(VF_NO_ROOM, vf_desk_extend(&desk, A, 0, PAGES * 4096));
    GIVES(12, vf_desk_show(&desk, A, 0, bytes, 4, &number_told));
    EXPECT(memcmp(bytes, "\0\0\0\0MMMM", 8) == 0);
    GIVES(3, vf_desk_show(&desk, A, 1, bytes, sizeof bytes, &number_told));
    EXPECT(memcmp(bytes, "abcM", 4) == 0);
    GIVES(3, vf_desk_show(&desk, A, 1, bytes, 0, &number_told));
    REFUSES(VF_NO_BLOCK, vf_desk_show(&desk, A, 2, bytes, sizeof bytes, &number_told));
    unset();
    DOES(vf_desk_blocks(&desk, A, blocks, 1, &count));
    EXPECT(count == 2 && blocks[0].anchor == 0 && blocks[0].address == FIRST_FLEX && blocks[0].size == 12);
    EXPECT(!is_set(blocks + 1, sizeof *blocks));
    DOES(vf_desk_blocks(&desk, A, blocks, 4, &count));
    EXPECT(blocks[1].anchor == 1 && blocks[1].address == FIRST_FLEX + 20 && blocks[1].size == 3);
    REFUSES(VF_NO_NAME, vf_desk_blocks(&desk, NONE, blocks, 4, &count));
    DOES(vf_desk_free(&desk, A, 0));
    REFUSES(VF_NO_BLOCK, vf_desk_free(&desk, A, 0));
    memset(long_bytes, 9, sizeof long_bytes);
    DOES(vf_desk_extend(&desk, A, 1, sizeof long_bytes + 1));
    DOES(vf_desk_put(&desk, A, 1, 1, long_bytes, sizeof long_bytes));
    REFUSES(VF_BAD_RANGE, vf_desk_put(&desk, A, 1, 2, long_bytes, sizeof long_bytes));
    bytes_are_put(long_bytes);
    DOES(vf_desk_put(&desk, A, 1, 0, (const uint8_t *)"a", 1));
    GIVES(sizeof long_bytes + 1, vf_desk_show(&desk, A, 1, bytes, 3, &number_told));
    EXPECT(memcmp(bytes, "a\x09\x09M", 4) == 0);
    DOES(vf_desk_free(&desk, A, 1));
}

static void heap_calls(void)
{
    GIVES(FIRST_HEAP, vf_desk_claim(&desk, A, 20, &number_told));
    REFUSES(VF_NO_NAME, vf_desk_claim(&desk, NONE, 1, &number_told));
    REFUSES(VF_BAD_SIZE, vf_desk_claim(&desk, A, 0, &number_told));
    REFUSES(VF_NO_ROOM, vf_desk_claim(&desk, A, PAGES * 4096, &number_told));
    GIVES(FIRST_HEAP, vf_desk_resize(&desk, A, FIRST_HEAP, 8, &number_told));
    REFUSES(VF_NOT_A_BLOCK, vf_desk_resize(&desk, A, FIRST_HEAP + 8, 8, &number_told));
    REFUSES(VF_BAD_SIZE, vf_desk_resize(&desk, A, FIRST_HEAP, -28, &number_told));
    REFUSES(VF_NO_ROOM, vf_desk_resize(&desk, A, FIRST_HEAP, PAGES * 4096, &number_told));
    DOES(vf_desk_budge(&desk, A, false, &was));
    EXPECT(was);
    REFUSES(VF_NO_BUDGE, vf_desk_claim(&desk, A, 5000, &number_told));
    REFUSES(VF_NO_BUDGE, vf_desk_resize(&desk, A, FIRST_HEAP, 5000, &number_told));
    DOES(vf_desk_budge(&desk, A, true, &was));
    EXPECT(!was);
    REFUSES(VF_NO_NAME, vf_desk_budge(&desk, NONE, true, &was));
    unset();
    DOES(vf_desk_heap(&desk, A, &sums, segments, 4, &count));
    EXPECT(count == 1 && segments[0].used && segments[0].address == FIRST_HEAP && segments[0].size == 28);
    EXPECT(sums.length == 3840 && sums.largest == 3840 - 16 - 32 - 4 && sums.free == 3840 - 16 - 32);
    REFUSES(VF_NO_NAME, vf_desk_heap(&desk, NONE, &sums, segments, 4, &count));
    DOES(vf_desk_release(&desk, A, FIRST_HEAP));
    REFUSES(VF_NOT_A_BLOCK, vf_desk_release(&desk, A, FIRST_HEAP));
}

static void area_calls(void)
{
    GIVES(4096, vf_desk_area(&desk, 0, 1, &number_told));
    REFUSES(VF_NO_AREA, vf_desk_area(&desk, 6, 1, &number_told));
    REFUSES(VF_EXCESSIVE_SHRINK, vf_desk_area(&desk, 0, -4097, &number_told));
    REFUSES(VF_NO_ROOM, vf_desk_area(&desk, 2, PAGES * 4096, &number_told));
    GIVES(256, vf_desk_make(&desk, 1, &number_told));
    REFUSES(VF_TOO_BIG, vf_desk_area(&desk, 256, 4097, &number_told));
    REFUSES(VF_NO_ROOM, vf_desk_area(&desk, 256, PAGES * 4096, &number_told));
    unset();
    DOES(vf_desk_areas(&desk, &number_told, areas, 2, &count));
    EXPECT(number_told == PAGES - 3 && count == 8);
    EXPECT(areas[0].number == 0 && areas[0].pages == 1 && areas[1].number == 1 && areas[1].pages == 1);
    EXPECT(!is_set(areas + 2, sizeof *areas));
    DOES(vf_desk_areas(&desk, &number_told, areas, 12, &count));
    EXPECT(areas[6].number == 256 && areas[6].pages == 0 && areas[6].name[0] == 0);
    EXPECT(areas[7].number == 0 && areas[7].pages == 1 && strcmp((const char *)areas[7].name, "a") == 0);
    DOES(vf_desk_remove(&desk, 256));
    REFUSES(VF_NO_AREA, vf_desk_remove(&desk, 256));
    GIVES(FIRST_RMA, vf_desk_rma_claim(&desk, 20, &number_told));
    REFUSES(VF_BAD_SIZE, vf_desk_rma_claim(&desk, 0, &number_told));
    REFUSES(VF_NO_ROOM, vf_desk_rma_claim(&desk, PAGES * 4096, &number_told));
    GIVES(FIRST_RMA, vf_desk_rma_resize(&desk, FIRST_RMA, -8, &number_told));
    REFUSES(VF_BAD_SIZE, vf_desk_rma_resize(&desk, FIRST_RMA, -20, &number_told));
    REFUSES(VF_NOT_A_BLOCK, vf_desk_rma_resize(&desk, FIRST_RMA + 8, 1, &number_told));
    REFUSES(VF_NO_ROOM, vf_desk_rma_resize(&desk, FIRST_RMA, PAGES * 4096, &number_told));
    DOES(vf_desk_rma_free(&desk, FIRST_RMA));
    REFUSES(VF_NOT_A_BLOCK, vf_desk_rma_free(&desk, FIRST_RMA));
    GIVES(4096, vf_desk_area(&desk, 0, -4096, &number_told));
}

/* The block of a Message_DataSave of 5 bytes, the Wimp's words and the leafname; the bytes behind it stay. */
static void next_is_a_data_save(void)
{
    static const uint8_t wanted[] = {
        52, 0, 0, 0, 1, 0, 0, 0, 1, 0, 0, 0, 0, 0, 0, 0, 1, 0, 0, 0, /* length, sender, my_ref, your_ref, action */
        0, 0, 0, 0, 0, 0, 0, 0, 0, 0, 0, 0, 0, 0, 0, 0,             /* window, icon, x, y */
        5, 0, 0, 0, 0xfd, 0x0f, 0, 0, 'L', 'e', 'a', 'f', 0, 0, 0, 0, /* size, type &FFD, name */
    };
    GIVES(18, vf_desk_next(&desk, B, &message, &number_told));
    EXPECT(memcmp(message.bytes, wanted, sizeof wanted) == 0);
    EXPECT(!is_set(message.bytes + sizeof wanted, sizeof message.bytes - sizeof wanted));
    GIVES(0, vf_desk_next(&desk, A, &message, &number_told));
    EXPECT(!is_set(&message, sizeof message));
    REFUSES(VF_NO_NAME, vf_desk_next(&desk, NONE, &message, &number_told));
}

/* A file of 5 bytes goes from a to b, whose buffer has 4: what each poll tells. */
static void transfer(void)
{
    GIVES(2, vf_desk_task(&desk, B, 4, VF_TASK_PLAIN, &number_told));
    REFUSES(VF_NAME_IN_USE, vf_desk_task(&desk, B, 4, VF_TASK_PLAIN, &number_told));
    REFUSES(VF_NOTHING_SENT, vf_desk_repeat(&desk, A, &number_told));
    DOES(vf_desk_alloc(&desk, A, 0, 5, &number_told));
    DOES(vf_desk_put(&desk, A, 0, 0, (const uint8_t *)"hello", 5));
    REFUSES(VF_NO_BLOCK, vf_desk_save(&desk, A, 1, B, VF_TEXT("Leaf"), &number_told));
    REFUSES(VF_NO_TASK, vf_desk_save(&desk, A, 0, NONE, VF_TEXT("Leaf"), &number_told));
    REFUSES(VF_NOT_OPEN, vf_desk_cancel_out(&desk, A, 0));
    GIVES(1, vf_desk_save(&desk, A, 0, B, VF_TEXT("Leaf"), &number_told));
    REFUSES(VF_BUSY, vf_desk_put(&desk, A, 0, 0, (const uint8_t *)"j", 1));
    REFUSES(VF_BUSY, vf_desk_free(&desk, A, 0));
    REFUSES(VF_BUSY, vf_desk_extend(&desk, A, 0, 1));
    REFUSES(VF_BUSY, vf_desk_mid(&desk, A, 0, 0, 1));
    REFUSES(VF_BUSY, vf_desk_save(&desk, A, 0, B, VF_TEXT("Leaf"), &number_told));
    REFUSES(VF_NOT_YOURS, vf_desk_rma_free(&desk, FIRST_RMA));
    REFUSES(VF_NOT_YOURS, vf_desk_rma_resize(&desk, FIRST_RMA, 1, &number_told));
    next_is_a_data_save();
    DOES(vf_desk_poll(&desk, B, &event));
    EXPECT(event.code == 18 && event.action == 1 && event.my_ref == 1 && event.your_ref == 0);
    EXPECT(event.did == VF_DID_FETCH && event.sent == 2 && event.count == 0 && event.refusal == 0);
    REFUSES(VF_BUSY, vf_desk_release(&desk, B, FIRST_HEAP));
    REFUSES(VF_BUSY, vf_desk_resize(&desk, B, FIRST_HEAP, 1, &number_told));
    DOES(vf_desk_poll(&desk, A, &event));
    EXPECT(event.action == 6 && event.your_ref == 1 && event.did == VF_DID_SEND && event.count == 4 && event.sent == 3);
    DOES(vf_desk_status(&desk, A, &number_told, records, 2, &count, other_records, 2, &other_count));
    EXPECT(number_told == 1 && count == 1 && other_count == 0);
    EXPECT(records[0].state == VF_RECORD_OPEN && records[0].id == 1 && records[0].count == 4);
    DOES(vf_desk_poll(&desk, B, &event));
    EXPECT(event.action == 7 && event.did == VF_DID_TAKE && event.count == 4 && event.sent == 4);
    DOES(vf_desk_poll(&desk, A, &event));
    EXPECT(event.did == VF_DID_SEND && event.count == 1 && event.sent == 5);
    DOES(vf_desk_poll(&desk, B, &event));
    EXPECT(event.code == 17 && event.did == VF_DID_TAKE_LAST && event.count == 1 && event.sent == 0);
    DOES(vf_desk_poll(&desk, B, &event));
    EXPECT(event.code == 0 && event.action == 0 && event.my_ref == 0 && event.did == 0);
    GIVES(5, vf_desk_show(&desk, B, 0, bytes, sizeof bytes, &number_told));
    EXPECT(memcmp(bytes, "hello", 5) == 0);
    DOES(vf_desk_status(&desk, B, &number_told, records, 2, &count, other_records, 2, &other_count));
    EXPECT(number_told == 2 && count == 0 && other_count == 1 && other_records[0].state == VF_RECORD_DONE);
    GIVES(6, vf_desk_repeat(&desk, A, &number_told));
    REFUSES(VF_NOT_OPEN, vf_desk_cancel_in(&desk, B, 1));
    REFUSES(VF_NO_NAME, vf_desk_status(&desk, NONE, &number_told, records, 2, &count, other_records, 2, &other_count));
    REFUSES(VF_NO_NAME, vf_desk_poll(&desk, NONE, &event));
    DOES(vf_desk_kill(&desk, B));
    REFUSES(VF_NO_NAME, vf_desk_kill(&desk, B));
}

/* A file of 5 bytes goes from a to b as the scrap file, since a answers no fetch; each message's ref is told. */
static void transfer_by_file(void)
{
    open_desk(PAGES, 1, 7);
    DOES(vf_desk_task(&desk, A, 4, VF_TASK_FILE, &number_told));
    DOES(vf_desk_task(&desk, B, 4, VF_TASK_PLAIN, &number_told));
    DOES(vf_desk_alloc(&desk, A, 0, 5, &number_told));
    GIVES(7, vf_desk_save(&desk, A, 0, B, VF_TEXT("Leaf"), &number_told));
    DOES(vf_desk_poll(&desk, B, &event));
    EXPECT(event.did == VF_DID_FETCH && event.sent == 8);
    DOES(vf_desk_poll(&desk, A, &event));
    EXPECT(event.action == 6 && event.my_ref == 8 && event.did == VF_DID_NOTHING && event.sent == 0);
    DOES(vf_desk_poll(&desk, A, &event));
    EXPECT(event.code == 0);
    DOES(vf_desk_poll(&desk, B, &event));
    EXPECT(event.code == 19 && event.did == VF_DID_ASK && event.sent == 9);
    DOES(vf_desk_poll(&desk, A, &event));
    EXPECT(event.action == 2 && event.my_ref == 9 && event.did == VF_DID_SAVE && event.count == 5 && event.sent == 10);
    DOES(vf_desk_poll(&desk, B, &event));
    EXPECT(event.action == 3 && event.my_ref == 10 && event.did == VF_DID_LOAD && event.count == 5 && event.sent == 11);
    EXPECT(event.refusal == 0);
    GIVES(17, vf_desk_next(&desk, A, &message, &number_told));
    EXPECT(message.bytes[8] == 11 && message.bytes[12] == 10 && message.bytes[16] == 4);
    DOES(vf_desk_poll(&desk, A, &event));
    EXPECT(event.action == 4 && event.my_ref == 11 && event.your_ref == 10);
    EXPECT(event.did == VF_DID_FINISH && event.count == 0 && event.sent == 0);
    DOES(vf_desk_close(&desk));
}

/* A DataLoadAck for which no ref is left: the file was loaded, and the ref that is told is 0. */
static void the_last_ref_loads(void)
{
    open_desk(PAGES, 1, LAST - 3);
    DOES(vf_desk_task(&desk, A, 4, VF_TASK_FILE, &number_told));
    DOES(vf_desk_task(&desk, B, 4, VF_TASK_PLAIN, &number_told));
    DOES(vf_desk_alloc(&desk, A, 0, 5, &number_told));
    GIVES(LAST - 3, vf_desk_save(&desk, A, 0, B, VF_TEXT("Leaf"), &number_told));
    DOES(vf_desk_poll(&desk, B, &event));
    DOES(vf_desk_poll(&desk, A, &event));
    DOES(vf_desk_poll(&desk, A, &event));
    DOES(vf_desk_poll(&desk, B, &event));
    DOES(vf_desk_poll(&desk, A, &event));
    EXPECT(event.did == VF_DID_SAVE && event.sent == LAST);
    DOES(vf_desk_poll(&desk, B, &event));
    EXPECT(event.did == VF_DID_LOAD_AND_FAIL && event.count == 5 && event.sent == 0 && event.refusal == VF_NO_REFS);
    DOES(vf_desk_close(&desk));
}

/* What only a desk with many tasks, messages or numbers refuses. */
static void limits(void)
{
    char name_of_task[4];
    open_desk(64, LAST - 31, 1);
    for (unsigned i = 0; i < 32; i++) {
        snprintf(name_of_task, sizeof name_of_task, "t%u", i);
        GIVES(LAST - 31 + i, vf_desk_task(&desk, VF_TEXT(name_of_task), 1, VF_TASK_DEAF, &number_told));
    }
    REFUSES(VF_TOO_MANY_TASKS, vf_desk_task(&desk, A, 1, VF_TASK_PLAIN, &number_told));
    DOES(vf_desk_kill(&desk, VF_TEXT("t0")));
    REFUSES(VF_NO_HANDLES, vf_desk_task(&desk, A, 1, VF_TASK_PLAIN, &number_told));
    DOES(vf_desk_alloc(&desk, VF_TEXT("t1"), 0, 1, &number_told));
    for (uint32_t i = 1; i <= 256; i++) {
        GIVES(i, vf_desk_save(&desk, VF_TEXT("t1"), 0, VF_TEXT("t2"), VF_TEXT("l"), &number_told));
        DOES(vf_desk_cancel_out(&desk, VF_TEXT("t1"), i));
    }
    REFUSES(VF_QUEUE_FULL, vf_desk_save(&desk, VF_TEXT("t1"), 0, VF_TEXT("t2"), VF_TEXT("l"), &number_told));
    REFUSES(VF_QUEUE_FULL, vf_desk_repeat(&desk, VF_TEXT("t1"), &number_told));
    for (unsigned i = 0; i < 32; i++)
        GIVES(256 + i, vf_desk_make(&desk, 1, &number_told));
    REFUSES(VF_TOO_MANY_AREAS, vf_desk_make(&desk, 1, &number_told));
    DOES(vf_desk_remove(&desk, 256));
    for (unsigned i = 256 + 32; i <= 65535; i++) {
        GIVES(i, vf_desk_make(&desk, 1, &number_told));
        DOES(vf_desk_remove(&desk, i));
    }
    REFUSES(VF_NO_NUMBERS, vf_desk_make(&desk, 1, &number_told));
    DOES(vf_desk_close(&desk));
    open_desk(8, 1, LAST);
    DOES(vf_desk_task(&desk, A, 1, VF_TASK_PLAIN, &number_told));
    DOES(vf_desk_alloc(&desk, A, 0, 1, &number_told));
    GIVES(LAST, vf_desk_save(&desk, A, 0, A, VF_TEXT("l"), &number_told));
    DOES(vf_desk_cancel_out(&desk, A, 0));
    REFUSES(VF_NO_REFS, vf_desk_save(&desk, A, 0, A, VF_TEXT("l"), &number_told));
    DOES(vf_desk_close(&desk));
}

/* A text that finds no room in so many bytes: all that was lent stays. */
static bool has_no_room(size_t room)
{
    uint8_t text[64], before[sizeof text];
    memset(text, UNSET, sizeof text);
    memcpy(before, text, sizeof text);
    count = UNSET;
    return vf_desk_reply(&desk, text, room, &count) == VF_SHORT && count == UNSET &&
           memcmp(text, before, sizeof text) == 0;
}

/* A text that finds no room, and the whole of it once more; the bytes behind it stay. */
static void short_texts(void)
{
    uint8_t text[64];
    memset(text, UNSET, sizeof text);
    DOES(vf_desk_line(&desk, VF_TEXT("areas")));
    for (size_t room = 0; room <= sizeof text; room++)
        EXPECT(has_no_room(room));
    DOES(vf_desk_line(&desk, VF_TEXT("make 3")));
    EXPECT(has_no_room(0) && has_no_room(1) && has_no_room(6));
    DOES(vf_desk_reply(&desk, text, 7, &count));
    EXPECT(count == 7 && memcmp(text, "ok 257\n", 7) == 0 && text[7] == UNSET);
    DOES(vf_desk_reply(&desk, text, 10, &count));
    EXPECT(count == 7 && memcmp(text, "ok 257\nMMM", 10) == 0);
    DOES(vf_desk_line(&desk, VF_TEXT("make 3")));
    DOES(vf_desk_reply(&desk, text, sizeof text, &count));
    EXPECT(count == 7 && memcmp(text, "ok 258\n", 7) == 0);
    EXPECT(is_all(text + 7, sizeof text - 7, UNSET));
    DOES(vf_desk_remove(&desk, 257));
    DOES(vf_desk_remove(&desk, 258));
    DOES(vf_desk_reply(&desk, text, sizeof text, &count));
    EXPECT(count == 7 && memcmp(text, "ok 258\n", 7) == 0);
    DOES(vf_desk_line(&desk, VF_TEXT("# a remark")));
    DOES(vf_desk_reply(&desk, text, 0, &count));
    EXPECT(count == 0);
    DOES(vf_desk_line(&desk, VF_TEXT("arears")));
    DOES(vf_desk_reply(&desk, text, sizeof text, &count));
    EXPECT(count == 12 && memcmp(text, "bad Unknown\n", 12) == 0);
}

int main(void)
{
    closed_desks_answer_so();
    opening();
    files_are_lent();
    closed_desks_answer_so();
    open_desk(PAGES, 1, 1);
    DOES(vf_desk_reply(&desk, bytes, 0, &count));
    EXPECT(count == 0);
    GIVES(1, vf_desk_task(&desk, A, 100, VF_TASK_PLAIN, &number_told));
    arguments_have_forms();
    flex_calls();
    heap_calls();
    area_calls();
    short_texts();
    transfer();
    DOES(vf_desk_close(&desk));
    closed_desks_answer_so();
    transfer_by_file();
    the_last_ref_loads();
    limits();
    return ended("desk_calls");
}
