/*
 * desk_rows.c: each example and each worked row of the repository, line by line over two desks, one by lines and one by
 * typed calls. Both answer the same text, and of an example the text that stands beside it. What the rows must answer
 * `tools/tests/test-rows` looks at, with the example run_desk.
 */
#define _POSIX_C_SOURCE 200809L
#include "desk_scripts.h"

#include <dirent.h>

enum { MOST_SCRIPT = 1 << 20, MOST_PATH = 400 };

static char script[MOST_SCRIPT], wanted[ROOM_OF_TEXT];
static size_t script_len;

static size_t read_into(const char *path, char *to, size_t room)
{
    FILE *file = fopen(path, "rb");
    size_t n = file ? fread(to, 1, room - 1, file) : 0;
    if (file)
        fclose(file);
    to[n] = 0;
    return n;
}

/* The path of a file beside a script: the same name with another ending. */
static const char *beside(const char *path, const char *ending)
{
    static char other[MOST_PATH];
    snprintf(other, sizeof other, "%.*s%s", (int)(strlen(path) - strlen(".desk")), path, ending);
    return other;
}

static void add_files(const char *folder, const char *path, struct vf_desk *desk)
{
    static char words_of_files[ROOM_OF_LINE], bytes[MOST_SCRIPT], where[MOST_PATH];
    read_into(beside(path, ".files"), words_of_files, sizeof words_of_files);
    for (char *it = strtok(words_of_files, " \n"); it; it = strtok(NULL, " \n")) {
        char *equals = strchr(it, '=');
        snprintf(where, sizeof where, "%s/%s", folder, equals + 1);
        size_t n = read_into(where, bytes, sizeof bytes);
        EXPECT(n > 0);
        EXPECT(vf_desk_file(desk, (const uint8_t *)it, (size_t)(equals - it), (const uint8_t *)bytes, n) == VF_OK);
    }
}

static void open_as_said(const char *folder, const char *path, struct vf_desk *desk)
{
    char args[ROOM_OF_LINE];
    unsigned pages = 64;
    read_into(beside(path, ".args"), args, sizeof args);
    sscanf(args, "--pages %u", &pages);
    add_files(folder, path, desk);
    EXPECT(vf_desk_open(desk, pages, 1, 1) == VF_OK);
}

/* Runs the lines that end with a line feed; `text` has what they must answer, if that is known. */
static void run_lines(struct vf_desk *by_lines, struct vf_desk *by_calls, const char *text)
{
    char *from = script;
    for (char *end; (end = strchr(from, '\n')); from = end + 1) {
        *end = 0;
        both_answer_alike(by_lines, by_calls, from);
        if (text) {
            EXPECT(strncmp(text, (const char *)answered, answered_len) == 0);
            text += answered_len;
        }
    }
    EXPECT(!text || *text == 0);
}

static void run_script(const char *folder, const char *path)
{
    struct vf_desk by_lines = VF_DESK_CLOSED, by_calls = VF_DESK_CLOSED;
    int before = failures;
    open_as_said(folder, path, &by_lines);
    open_as_said(folder, path, &by_calls);
    forget_programs();
    size_t n = read_into(beside(path, ".out"), wanted, sizeof wanted);
    script_len = read_into(path, script, sizeof script);
    /* A script with a zero byte, or whose end is cut off, is run by lines alone, by run_desk. */
    if (script_len > 0 && strlen(script) == script_len && script[script_len - 1] == '\n')
        run_lines(&by_lines, &by_calls, n ? wanted : NULL);
    vf_desk_close(&by_lines);
    vf_desk_close(&by_calls);
    if (failures > before)
        fprintf(stderr, "in %s\n", path);
}

static int run_folder(const char *folder)
{
    int count = 0;
    char path[MOST_PATH];
    DIR *open = opendir(folder);
    EXPECT(open);
    for (struct dirent *it; open && (it = readdir(open));) {
        size_t n = strlen(it->d_name);
        if (n <= 5 || strcmp(it->d_name + n - 5, ".desk") != 0)
            continue;
        snprintf(path, sizeof path, "%s/%s", folder, it->d_name);
        run_script(folder, path);
        count++;
    }
    if (open)
        closedir(open);
    return count;
}

int main(void)
{
    EXPECT(run_folder("examples") > 10);
    EXPECT(run_folder("examples/rows") > 50);
    return ended("desk_rows");
}
