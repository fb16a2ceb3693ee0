/*
 * raw_desk.h: a desk with tasks that have code of their own, after the tables of docs/DESK.md, with no proof: tasks,
 * flex blocks and C heaps as lists, messages as a row. Pages aren't looked at: a C heap keeps its 3,840 bytes, and
 * `raw_desk_fits` says whether a line stays within that. Each line that a desk takes is answered by the same text.
 */
#ifndef RAW_DESK_H
#define RAW_DESK_H

#include <stdbool.h>
#include <stddef.h>
#include <stdint.h>

enum { RAW_TASKS = 8, RAW_RECORDS = 8, RAW_MESSAGES = 256, RAW_DATA = 236, RAW_BLOCKS = 96, RAW_BYTES = 256 };
enum { RAW_NAME = 4, RAW_REPLY = 4096 };

struct raw_message {
    uint32_t code, to, from, me, yours, action, n;
    uint8_t data[RAW_DATA];
};

/* A flex block with its anchor; or a segment of a C heap with its place, a hole where it isn't used. */
struct raw_block {
    uint32_t key, size;
    bool used;
    uint8_t bytes[RAW_BYTES];
};

enum raw_state { RAW_OPEN, RAW_FETCHING, RAW_DRAINING, RAW_ASKING, RAW_DONE, RAW_FAILED };

/* A record: which message it waits to be answered, `last`, is its last transmit, fetch or DataSaveAck. */
struct raw_record {
    enum raw_state state;
    uint32_t id, other, anchor, count, last, buffer;
    bool raw;
};

struct raw_task {
    bool live, has_last, has_held;
    char name[RAW_NAME];
    char manner; /* p, d, f or r */
    uint32_t handle, room;
    struct raw_message last, held;
    uint32_t outs, ins, flexes, segments;
    struct raw_record out[RAW_RECORDS], in[RAW_RECORDS];
    struct raw_block flex[RAW_BLOCKS], heap[RAW_BLOCKS];
};

struct raw_desk {
    struct raw_task tasks[RAW_TASKS];
    struct raw_message post[RAW_MESSAGES];
    uint32_t queued, next_handle;
    uint64_t next_ref;
    bool has_file;
    uint32_t file_of, file_size;
    uint8_t file[RAW_BYTES];
    char reply[RAW_REPLY];
};

void raw_desk_start(struct raw_desk *desk, uint32_t first_handle, uint32_t first_ref);

/* Whether a line leaves each list and each block within what is kept here. */
bool raw_desk_fits(const struct raw_desk *desk, const char *line);

/* Does a line, and puts its reply, with a line feed behind each of its lines, into `reply`. */
void raw_desk_line(struct raw_desk *desk, const char *line);

/* Where a live task's block lies. */
uint32_t raw_desk_flex_address(const struct raw_task *task, uint32_t index);
struct raw_task *raw_desk_task(struct raw_desk *desk, uint32_t handle);

#endif
