/* desk_scripts.h: scripts of the repository, line by line over two desks: one by lines, one by typed calls. */
#ifndef DESK_SCRIPTS_H
#define DESK_SCRIPTS_H

#include "desk_words.h"
#include "expect.h"

enum { FIRST_ROOM_OF_TEXT = 1 << 12 };

/* The text of a line's reply. */
static uint8_t answered[ROOM_OF_TEXT];
static size_t answered_len;

/* Asks for the text of the last line's reply, with twice the room as long as it finds none: all of the room behind a
 * text is cleared, which for each line takes longer than the line does. */
static void ask_for_reply(struct vf_desk *desk)
{
    size_t room = FIRST_ROOM_OF_TEXT;
    while (room < sizeof answered && vf_desk_reply(desk, answered, room, &answered_len) == VF_SHORT)
        room *= 2;
    EXPECT(vf_desk_reply(desk, answered, room, &answered_len) == VF_OK);
}

/* The same line by both, and the same text of both. A remark has no reply, and a bad line no call. */
static void both_answer_alike(struct vf_desk *by_lines, struct vf_desk *by_calls, const char *line)
{
    size_t len = strlen(line);
    EXPECT(vf_desk_line(by_lines, (const uint8_t *)line, len) == VF_OK);
    ask_for_reply(by_lines);
    if (answered_len == 0 || memcmp(answered, "bad", 3) == 0)
        return;
    do_by_call(by_calls, line);
    bool alike = told_len == answered_len && memcmp(told, answered, told_len) == 0;
    if (!alike && failures < MOST_TOLD)
        fprintf(stderr, "%s\n  by lines: %.*s  by calls: %.*s", line, (int)answered_len, (const char *)answered,
                (int)told_len, told);
    EXPECT(alike);
}

#endif
