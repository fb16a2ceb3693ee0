/*
 * desk_bench.c: what calls on a desk take, as typed calls and as lines with their replies: microseconds, bytes that are
 * copied and bytes that are cleared. With words it makes calls for somebody who counts instructions, or prints the same
 * lines as a script for the program:
 *
 *     desk_bench typed|lines CALL ROUNDS
 *     desk_bench script CALL ROUNDS
 *     desk_bench names
 */
#define _POSIX_C_SOURCE 200809L
#include "bench.h"

#include <string.h>

enum { PAGES = 64, SIZE = 100, CALLS = 20000, MOST_LINES = 8, LONGEST_TEXT = 256 };

#define A VF_TEXT("a")
#define B VF_TEXT("b")

static struct vf_desk desk = VF_DESK_CLOSED;
static struct vf_event event;
static uint32_t number;
static size_t copied, cleared;

/* All bytes that the library copies and clears by these two go through here (-Wl,--wrap). */
void *__real_memcpy(void *to, const void *from, size_t n);
void *__real_memset(void *to, int byte, size_t n);
void *__wrap_memcpy(void *to, const void *from, size_t n);
void *__wrap_memset(void *to, int byte, size_t n);

void *__wrap_memcpy(void *to, const void *from, size_t n)
{
    copied += n;
    return __real_memcpy(to, from, n);
}

void *__wrap_memset(void *to, int byte, size_t n)
{
    cleared += n;
    return __real_memset(to, byte, n);
}

static void poll(void) { must(vf_desk_poll(&desk, A, &event)); }

static void claim(void)
{
    must(vf_desk_claim(&desk, A, SIZE, &number));
    must(vf_desk_release(&desk, A, number));
}

static void put(void) { must(vf_desk_put(&desk, A, 0, 0, (const uint8_t *)"ABCDEFGH", 8)); }

static void blocks(void)
{
    struct vf_block list[4];
    size_t count;
    must(vf_desk_blocks(&desk, A, list, 4, &count));
}

static void transfer(void)
{
    must(vf_desk_save(&desk, A, 0, B, VF_TEXT("leaf"), &number));
    for (int i = 0; i < 5; i++)
        must(i % 2 ? vf_desk_poll(&desk, A, &event) : vf_desk_poll(&desk, B, &event));
    must(vf_desk_free(&desk, B, 0));
}

static const char *const SET_UP[] = {"task a 4096", "task b 4096", "alloc a 0 100", NULL};

/* Calls, and the lines that ask for the same. A block of the C heap is at &8114 each time. */
static const struct row {
    const char *name, *told;
    void (*typed)(void);
    const char *lines[MOST_LINES];
} ROWS[] = {
    {"poll", "a poll with no message", poll, {"poll a"}},
    {"claim", "a claim and its release", claim, {"claim a 100", "release a &8114"}},
    {"put", "a put of 8 bytes", put, {"put a 0 0 4142434445464748"}},
    {"blocks", "a list of one block", blocks, {"blocks a"}},
    {"transfer", "a transfer of 100 bytes, 7 calls", transfer,
     {"save a 0 b leaf", "poll b", "poll a", "poll b", "poll a", "poll b", "free b 0"}},
};
enum { ROW_COUNT = sizeof ROWS / sizeof *ROWS };

/* Takes a line, and its reply, which has to say that it was done. */
static void line(const char *text)
{
    static uint8_t reply[LONGEST_TEXT];
    size_t length;
    must(vf_desk_line(&desk, VF_TEXT(text)));
    must(vf_desk_reply(&desk, reply, sizeof reply, &length));
    if (memcmp(reply, "ok", 2) != 0)
        abort();
}

static void lines(const char *const *texts)
{
    for (int i = 0; i < MOST_LINES && texts[i]; i++)
        line(texts[i]);
}

static void make(const struct row *row, bool typed, long rounds)
{
    for (long i = 0; i < rounds; i++)
        if (typed)
            row->typed();
        else
            lines(row->lines);
}

static void print_script(const struct row *row, long rounds)
{
    for (int i = 0; SET_UP[i]; i++)
        puts(SET_UP[i]);
    for (long round = 0; round < rounds; round++)
        for (int i = 0; i < MOST_LINES && row->lines[i]; i++)
            puts(row->lines[i]);
}

/* Prints the microseconds, and the bytes copied and cleared, of one round. */
static void print_way(const struct row *row, bool typed)
{
    double least = 1e9;
    copied = cleared = 0;
    make(row, typed, 1);
    size_t bytes = copied, zeros = cleared;
    for (int round = 0; round < ROUNDS; round++) {
        double start = seconds();
        make(row, typed, CALLS);
        double taken = (seconds() - start) / CALLS * 1e6;
        least = taken < least ? taken : least;
    }
    printf(" %.3f | %zu | %zu |", least, bytes, zeros);
}

static void print_table(void)
{
    printf("Microseconds, bytes copied and bytes cleared, by typed calls and by lines with their replies, the least of %d"
           " runs.\n\n| Call | typed | copied | cleared | lines | copied | cleared |\n|---|---|---|---|---|---|---|\n",
           (int)ROUNDS);
    for (int i = 0; i < ROW_COUNT; i++) {
        printf("| %s |", ROWS[i].told);
        print_way(&ROWS[i], true);
        print_way(&ROWS[i], false);
        printf("\n");
    }
}

static const struct row *row_of(const char *name)
{
    for (int i = 0; i < ROW_COUNT; i++)
        if (strcmp(ROWS[i].name, name) == 0)
            return &ROWS[i];
    exit(2);
}

int main(int count, char **words)
{
    if (count == 2)
        for (int i = 0; i < ROW_COUNT; i++)
            printf("%s %s\n", ROWS[i].name, ROWS[i].told);
    if (count == 2)
        return 0;
    must(vf_desk_open(&desk, PAGES, 1, 1));
    lines(SET_UP);
    if (count < 4)
        print_table();
    else if (strcmp(words[1], "script") == 0)
        print_script(row_of(words[2]), atol(words[3]));
    else
        make(row_of(words[2]), strcmp(words[1], "typed") == 0, atol(words[3]));
    must(vf_desk_close(&desk));
    return 0;
}
