/* raw_parts.h: what the files of a plain desk share. */
#ifndef RAW_PARTS_H
#define RAW_PARTS_H

#include "raw_desk.h"

enum { DATA_SAVE = 1, DATA_SAVE_ACK = 2, DATA_LOAD = 3, DATA_LOAD_ACK = 4, RAM_FETCH = 6, RAM_TRANSMIT = 7 };
enum { USER = 17, RECORDED = 18, BACK = 19, ANCHORS = 64, HEAP_END = 3840, HEAP_AT = 0x8100 };
enum { FILE_HEAD = 24, FILE_TYPE = 0xffd };
#define SCRAP "<Wimp$Scrap>"

/* Refusals in the order in which the first is answered. */
enum refusal {
    NAME_IN_USE = 1, NO_NAME, NO_FILE, NO_BLOCK, ANCHOR_IN_USE, NOT_A_BLOCK, BUSY, NOT_OPEN, NOTHING_SENT, BAD_RANGE,
    BAD_SIZE, NO_TASK, NO_REFS, QUEUE_FULL, WRONG_MANNER, BAD_REF, REFUSALS
};

void raw_say(struct raw_desk *d, const char *format, ...);
void raw_say_bytes(struct raw_desk *d, const uint8_t *bytes, uint32_t n);
bool raw_refused(struct raw_desk *d, uint32_t holds);
void raw_fails(struct raw_desk *d, uint32_t holds);
uint32_t raw_if_so(bool holds, enum refusal refusal);
struct raw_block *raw_anchored(struct raw_task *t, uint32_t anchor);
struct raw_block *raw_new_flex(struct raw_task *t, uint32_t anchor, uint32_t size);
uint32_t raw_claim(struct raw_task *t, uint32_t n);
struct raw_block *raw_claimed(struct raw_task *t, uint32_t at);
void raw_release(struct raw_task *t, uint32_t at);
uint8_t *raw_held_at(struct raw_task *t, uint32_t at, uint32_t n);
bool raw_is_going(const struct raw_record *r);
bool raw_is_busy(const struct raw_task *t, uint32_t anchor);
struct raw_record *raw_new_record(struct raw_record *list, uint32_t *n);
uint32_t raw_word(const uint8_t *bytes);
uint32_t raw_kind_of(const struct raw_message *m);
struct raw_message raw_of_file(uint32_t action, uint32_t size, const char *name);
struct raw_message raw_two_words(uint32_t action, uint32_t first, uint32_t second);
uint32_t raw_unsent(struct raw_desk *d, uint32_t to);
uint32_t raw_send(struct raw_desk *d, struct raw_task *t, uint32_t code, uint32_t to, uint32_t yours, struct raw_message m);
void raw_bounce(struct raw_desk *d, struct raw_message m);
void raw_keep_file(struct raw_desk *d);
void raw_make_file(struct raw_desk *d, uint32_t ref, const struct raw_block *block);
bool raw_share(uint32_t x, uint32_t n, uint32_t y, uint32_t m);
void raw_lose(struct raw_task *t, struct raw_record *r);
struct raw_task *raw_named(struct raw_desk *d, const char *name);

/* What a poll does with a message, and says behind the message's words; false where it is ignored. */
bool raw_is_known(struct raw_desk *d, struct raw_task *t, const struct raw_message *m);
bool raw_is_back(struct raw_desk *d, struct raw_task *t, const struct raw_message *m);

#endif
