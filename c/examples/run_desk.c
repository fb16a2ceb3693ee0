/*
 * run_desk.c: runs a script over a desk line by line, as `vervainfile run` does.
 *
 *     run_desk run [--pages N] SCRIPT [NAME=PATH..]
 *
 * The text of a reply grows with what a question lists, so its buffer doubles where one is too short: the line was
 * done, and the reply is asked for once more. The status is 1 where a line was bad.
 */
#include "vervainfile.h"

#include <stdio.h>
#include <stdlib.h>
#include <string.h>

enum { FIRST_ROOM = 256, LONGEST_LINE = 1024, PAGES = 64 };

struct bytes {
    uint8_t *at;
    size_t len;
};

static struct bytes whole_file(const char *path)
{
    struct bytes read = {NULL, 0};
    size_t room = 0, n = 1;
    FILE *file = fopen(path, "rb");
    while (file && n) {
        if (read.len == room)
            read.at = realloc(read.at, room = room ? 2 * room : FIRST_ROOM);
        if (!read.at)
            break;
        n = fread(read.at + read.len, 1, room - read.len, file);
        read.len += n;
    }
    if (file)
        fclose(file);
    return read;
}

/* Takes a line, and prints its reply; tells whether the line was bad. */
static bool answer(struct vf_desk *desk, const uint8_t *line, size_t len)
{
    static struct bytes text;
    size_t n = 0;
    if (!text.at)
        text.at = malloc(text.len = FIRST_ROOM);
    vf_desk_line(desk, line, len);
    while (text.at && vf_desk_reply(desk, text.at, text.len, &n) == VF_SHORT)
        text.at = realloc(text.at, text.len *= 2);
    if (!text.at)
        exit(2);
    fwrite(text.at, 1, n, stdout);
    return n > 3 && memcmp(text.at, "bad", 3) == 0;
}

/* Runs all lines; tells whether one was bad. A line that the script's end cuts off is. */
static bool run(struct vf_desk *desk, struct bytes script)
{
    bool bad = false;
    size_t from = 0;
    for (size_t i = 0; i < script.len; i++)
        if (script.at[i] == '\n') {
            bad |= answer(desk, script.at + from, i - from);
            from = i + 1;
        }
    if (from == script.len)
        return bad;
    puts(script.len - from > LONGEST_LINE ? "bad TooLong" : "bad Unended");
    return true;
}

static uint32_t add_file(struct vf_desk *desk, char *word)
{
    char *path = strchr(word, '=');
    if (!path)
        return VF_BAD_ARGUMENT;
    struct bytes file = whole_file(path + 1);
    static const uint8_t none[1];
    const uint8_t *bytes = file.at ? file.at : none;
    uint32_t status = vf_desk_file(desk, (const uint8_t *)word, (size_t)(path - word), bytes, file.len);
    free(file.at);
    return status;
}

int main(int argc, char **argv)
{
    struct vf_desk desk = VF_DESK_CLOSED;
    uint32_t pages = PAGES, status = VF_OK;
    int at = 2;
    if (argc > 3 && strcmp(argv[2], "--pages") == 0) {
        pages = (uint32_t)atoi(argv[3]);
        at = 4;
    }
    if (at >= argc) {
        fputs("usage: run_desk run [--pages N] SCRIPT [NAME=PATH..]\n", stderr);
        return 2;
    }
    for (int i = at + 1; i < argc && status == VF_OK; i++)
        status = add_file(&desk, argv[i]);
    if (status == VF_OK)
        status = vf_desk_open(&desk, pages, 1, 1);
    if (status != VF_OK) {
        fprintf(stderr, "status %u\n", (unsigned)status);
        vf_desk_close(&desk);
        return 2;
    }
    struct bytes script = whole_file(argv[at]);
    bool bad = run(&desk, script);
    free(script.at);
    vf_desk_close(&desk);
    return bad;
}
