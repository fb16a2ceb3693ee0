/*
 * ram_calls.c: each call on a sender or receiver, and each status that it can answer. A refused call leaves the struct
 * and what it would have told as they were. The layouts are those that a program may keep in a file.
 */
#include "expect.h"

#include <stddef.h>

enum { ANCHORS = 64, MOST_RECORDS = 8, SEEN = 0x5a };

static struct vf_sender sender;
static struct vf_receiver receiver;
static struct vf_send_action out;
static struct vf_take_action in;
static struct vf_part part;
static struct vf_fetch fetch;
static bool flag;

/* All that a call may write, in one place. */
struct all {
    struct vf_sender sender;
    struct vf_receiver receiver;
    struct vf_send_action out;
    struct vf_take_action in;
    struct vf_part part;
    struct vf_fetch fetch;
    bool flag;
};

static struct all all(void)
{
    struct all now;
    memset(&now, 0, sizeof now);
    now.sender = sender, now.receiver = receiver, now.out = out, now.in = in;
    now.part = part, now.fetch = fetch, now.flag = flag;
    return now;
}

#define REFUSES(status, call)                              \
    do {                                                   \
        struct all before = all(), after;                  \
        EXPECT((call) == (uint32_t)(status));              \
        after = all();                                     \
        EXPECT(memcmp(&before, &after, sizeof after) == 0); \
    } while (0)

static void start(void)
{
    memset(&sender, SEEN, sizeof sender);
    memset(&receiver, SEEN, sizeof receiver);
    EXPECT(vf_sender_start(&sender) == VF_OK && vf_receiver_start(&receiver) == VF_OK);
    static const struct vf_sender no_sender;
    static const struct vf_receiver no_receiver;
    EXPECT(memcmp(&sender, &no_sender, sizeof sender) == 0);
    EXPECT(memcmp(&receiver, &no_receiver, sizeof receiver) == 0);
    memset(&out, SEEN, sizeof out);
    memset(&in, SEEN, sizeof in);
    memset(&part, SEEN, sizeof part);
    memset(&fetch, SEEN, sizeof fetch);
    flag = false;
}

/* One transfer goes out, and one comes in; `out` is to transmit, `in` to append. */
static void begin(void)
{
    start();
    EXPECT(vf_sender_offer(&sender, 1, 2, 5) == VF_OK);
    EXPECT(vf_sender_on_fetch(&sender, 2, 20, 1, 0x8114, 8, &out) == VF_OK);
    EXPECT(vf_receiver_on_save(&receiver, false, 1, 1, &in) == VF_OK);
    EXPECT(vf_receiver_fetching(&receiver, &in, 7, 0x8114, 20) == VF_OK);
    EXPECT(vf_receiver_on_transmit(&receiver, 8, 1, 21, 20, 0x8114, 8, &in) == VF_OK);
}

static void layouts(void)
{
    EXPECT(sizeof(struct vf_outgoing) == 24 && sizeof(struct vf_sender) == 196);
    EXPECT(sizeof(struct vf_incoming) == 28 && sizeof(struct vf_receiver) == 228);
    EXPECT(sizeof(struct vf_send_action) == 40 && sizeof(struct vf_take_action) == 64);
    EXPECT(sizeof(struct vf_part) == 12 && sizeof(struct vf_fetch) == 16);
    EXPECT(sizeof(struct vf_message_words) == 264 && sizeof(struct vf_message) == 256);
    EXPECT(offsetof(struct vf_sender, records) == 4 && offsetof(struct vf_receiver, records) == 4);
    EXPECT(offsetof(struct vf_take_action, next_fetch) == 36 && offsetof(struct vf_message_words, name) == 52);
}

static void actions_are_told_in_full(void)
{
    begin();
    static const struct vf_send_action transmit = {VF_DO_TRANSMIT, 1, 2, 5, 0, 1, 2, 20, 0x8114, 8};
    EXPECT(memcmp(&out, &transmit, sizeof out) == 0);
    static const struct vf_take_action append = {
        VF_DO_APPEND, 1, 1, 7, 0x8114, 0, 20, 8, VF_NEXT_FETCH, {1, 21, 0x8114, 8}, 0, 0, 0};
    EXPECT(memcmp(&in, &append, sizeof in) == 0);
    EXPECT(vf_receiver_on_transmit(&receiver, 8, 1, 21, 20, 0x8114, 7, &in) == VF_OK);
    static const struct vf_take_action last = {
        VF_DO_APPEND, 1, 1, 7, 0x8114, 0, 20, 7, VF_NEXT_FINISH, {0, 0, 0, 0}, 0, 0, 0};
    EXPECT(memcmp(&in, &last, sizeof in) == 0);
    EXPECT(vf_sender_on_ack(&sender, 2, 30, 1, &out) == VF_OK);
    static const struct vf_send_action save = {VF_DO_SAVE_FILE, 1, 2, 5, 0, 1, 2, 30, 0, 0};
    EXPECT(memcmp(&out, &save, sizeof out) == 0);
    EXPECT(vf_sender_on_load_ack(&sender, 2, 1, &out) == VF_OK);
    static const struct vf_send_action finish = {VF_DO_FINISH, 1, 2, 5, 0, 1, 0, 0, 0, 0};
    EXPECT(memcmp(&out, &finish, sizeof out) == 0);
    EXPECT(vf_receiver_on_bounce(&receiver, 20, &in) == VF_OK);
    static const struct vf_take_action ask = {VF_DO_ASK_FOR_FILE, 1, 1, 7, 0x8114, 0, 20, 0, 0, {0, 0, 0, 0}, 0, 0, 0};
    EXPECT(memcmp(&in, &ask, sizeof in) == 0);
    EXPECT(vf_receiver_asking(&receiver, &in, 22) == VF_OK);
    static const struct vf_incoming asked = {VF_RECORD_ASKING, 1, 1, 7, 0, 0, 22};
    EXPECT(memcmp(&receiver.records[0], &asked, sizeof asked) == 0);
    EXPECT(vf_receiver_on_load(&receiver, 1, 23, 22, &in) == VF_OK);
    static const struct vf_take_action load = {VF_DO_LOAD_FILE, 1, 1, 7, 0, 0, 22, 0, 0, {0, 0, 0, 0}, 1, 23, 0};
    EXPECT(memcmp(&in, &load, sizeof in) == 0);
    EXPECT(vf_receiver_on_save(&receiver, false, 3, 9, &in) == VF_OK);
    static const struct vf_take_action claim = {VF_DO_CLAIM, 9, 3, 0, 0, 0, 0, 0, 0, {0, 0, 0, 0}, 0, 0, 0};
    EXPECT(memcmp(&in, &claim, sizeof in) == 0);
    EXPECT(vf_receiver_first_fetch(&in, 0x9000, 100, &fetch) == VF_OK);
    EXPECT(fetch.to == 3 && fetch.answers == 9 && fetch.buffer == 0x9000 && fetch.room == 100);
}

static void parts(void)
{
    begin();
    static const struct { uint32_t count, room, size, n, is_last; } rows[] = {
        {0, 8, 0, 0, 1}, {0, 8, 7, 7, 1}, {0, 8, 8, 8, 0}, {8, 8, 8, 0, 1}, {8, 8, 20, 8, 0}, {16, 8, 20, 4, 1},
        {30, 8, 20, 0, 1}, {0, 1, UINT32_MAX, 1, 0}, {UINT32_MAX - 1, 2, UINT32_MAX, 1, 1},
    };
    for (size_t i = 0; i < sizeof rows / sizeof *rows; i++) {
        out.count = rows[i].count, out.room = rows[i].room;
        EXPECT(vf_sender_part(&out, rows[i].size, &part) == VF_OK);
        EXPECT(part.offset == rows[i].count && part.n == rows[i].n && part.is_last == rows[i].is_last);
    }
}

static void blocks_in_use(void)
{
    begin();
    EXPECT(vf_sender_is_source(&sender, 5, &flag) == VF_OK && flag);
    EXPECT(vf_sender_is_source(&sender, 6, &flag) == VF_OK && !flag);
    EXPECT(vf_receiver_is_document(&receiver, 7, &flag) == VF_OK && flag);
    EXPECT(vf_receiver_is_document(&receiver, 5, &flag) == VF_OK && !flag);
    EXPECT(vf_receiver_is_buffer(&receiver, 0x8114, &flag) == VF_OK && flag);
    EXPECT(vf_receiver_is_buffer(&receiver, 0x8118, &flag) == VF_OK && !flag);
    EXPECT(vf_receiver_cancel(&receiver, 0) == VF_OK);
    EXPECT(vf_receiver_is_document(&receiver, 7, &flag) == VF_OK && !flag);
    EXPECT(vf_receiver_is_buffer(&receiver, 0x8114, &flag) == VF_OK && flag);
    EXPECT(vf_sender_cancel(&sender, 0) == VF_OK);
    EXPECT(vf_sender_is_source(&sender, 5, &flag) == VF_OK && !flag);
}

static void all_refuse_senders(uint32_t status)
{
    REFUSES(status, vf_sender_offer(&sender, 9, 2, 5));
    REFUSES(status, vf_sender_offer(&sender, 9, 2, ANCHORS));
    REFUSES(status, vf_sender_on_fetch(&sender, 2, 20, 1, 0x8114, 8, &out));
    REFUSES(status, vf_sender_on_ack(&sender, 2, 20, 1, &out));
    REFUSES(status, vf_sender_on_load_ack(&sender, 2, 1, &out));
    REFUSES(status, vf_sender_sent(&sender, &out, 20, 21));
    REFUSES(status, vf_sender_saved(&sender, &out, 21));
    REFUSES(status, vf_sender_loaded(&sender, &out, 21));
    REFUSES(status, vf_sender_failed(&sender, &out));
    REFUSES(status, vf_sender_on_bounce(&sender, 1, &flag));
    REFUSES(status, vf_sender_cancel(&sender, 0));
    REFUSES(status, vf_sender_is_source(&sender, 5, &flag));
}

static void all_refuse_receivers(uint32_t status)
{
    REFUSES(status, vf_receiver_on_save(&receiver, false, 1, 9, &in));
    REFUSES(status, vf_receiver_fetching(&receiver, &in, 7, 0x8114, 22));
    REFUSES(status, vf_receiver_on_transmit(&receiver, 8, 1, 21, 20, 0x8114, 8, &in));
    REFUSES(status, vf_receiver_fetched(&receiver, &in, 22));
    REFUSES(status, vf_receiver_finished(&receiver, &in));
    REFUSES(status, vf_receiver_failed(&receiver, &in, 0));
    REFUSES(status, vf_receiver_on_bounce(&receiver, 20, &in));
    REFUSES(status, vf_receiver_asking(&receiver, &in, 22));
    REFUSES(status, vf_receiver_on_ack_bounce(&receiver, 20, &flag));
    REFUSES(status, vf_receiver_on_load(&receiver, 1, 21, 20, &in));
    REFUSES(status, vf_receiver_loaded(&receiver, &in, 8));
    REFUSES(status, vf_receiver_cancel(&receiver, 0));
    REFUSES(status, vf_receiver_is_document(&receiver, 7, &flag));
    REFUSES(status, vf_receiver_is_buffer(&receiver, 0x8114, &flag));
}

static void structs_that_are_none(void)
{
    static const uint32_t bad_out[] = {VF_RECORD_FETCHING, VF_RECORD_DRAINING, VF_RECORD_ASKING, 6, UINT32_MAX};
    static const uint32_t bad_in[] = {VF_RECORD_OPEN, 6, UINT32_MAX};
    begin();
    for (size_t i = 0; i < sizeof bad_out / sizeof *bad_out; i++) {
        sender.records[0].state = bad_out[i];
        all_refuse_senders(VF_BAD_RECORDS);
    }
    begin();
    sender.records[0].anchor = ANCHORS;
    all_refuse_senders(VF_BAD_RECORDS);
    begin();
    sender.count = MOST_RECORDS + 1;
    all_refuse_senders(VF_BAD_RECORDS);
    sender.count = UINT32_MAX;
    all_refuse_senders(VF_BAD_RECORDS);
    begin();
    for (size_t i = 0; i < sizeof bad_in / sizeof *bad_in; i++) {
        receiver.records[0].state = bad_in[i];
        all_refuse_receivers(VF_BAD_RECORDS);
    }
    for (uint32_t state = VF_RECORD_FETCHING; state <= VF_RECORD_FAILED; state++) {
        begin();
        receiver.records[0].state = state;
        receiver.records[0].anchor = ANCHORS;
        all_refuse_receivers(VF_BAD_RECORDS);
    }
    begin();
    receiver.count = MOST_RECORDS + 1;
    all_refuse_receivers(VF_BAD_RECORDS);
    begin();
    sender.records[0].state = VF_RECORD_DONE; /* of a record that has ended nothing else is looked at */
    sender.records[0].anchor = ANCHORS;
    sender.records[1].state = 9; /* and no place behind the last record */
    EXPECT(vf_sender_is_source(&sender, 5, &flag) == VF_OK && !flag);
}

/* Each call that is told how an action ended refuses those of another kind, and what is none. */
static void actions_of_another_kind(void)
{
    begin();
    struct vf_send_action given = out;
    for (uint32_t what = 0; what <= 9; what++) {
        begin();
        out = given;
        out.what = what;
        if (what != VF_DO_TRANSMIT) {
            REFUSES(VF_BAD_ACTION, vf_sender_sent(&sender, &out, 20, 21));
            REFUSES(VF_BAD_ACTION, vf_sender_part(&out, 20, &part));
        }
        if (what != VF_DO_SAVE_FILE)
            REFUSES(VF_BAD_ACTION, vf_sender_saved(&sender, &out, 21));
        if (what != VF_DO_FINISH)
            REFUSES(VF_BAD_ACTION, vf_sender_loaded(&sender, &out, 20));
        if (what == VF_DO_NOTHING || what > VF_DO_FINISH)
            REFUSES(VF_BAD_ACTION, vf_sender_failed(&sender, &out));
        out.anchor = ANCHORS;
        REFUSES(VF_BAD_ACTION, vf_sender_failed(&sender, &out));
    }
    begin();
    struct vf_take_action taken = in;
    for (uint32_t what = 0; what <= 9; what++) {
        begin();
        in = taken;
        in.what = what;
        if (what != VF_DO_CLAIM) {
            REFUSES(VF_BAD_ACTION, vf_receiver_fetching(&receiver, &in, 7, 0x8114, 22));
            REFUSES(VF_BAD_ACTION, vf_receiver_fetching(&receiver, &in, ANCHORS, 0x8114, 22));
            REFUSES(VF_BAD_ACTION, vf_receiver_first_fetch(&in, 0x8114, 8, &fetch));
        }
        if (what != VF_DO_APPEND) {
            REFUSES(VF_BAD_ACTION, vf_receiver_fetched(&receiver, &in, 22));
            REFUSES(VF_BAD_ACTION, vf_receiver_finished(&receiver, &in));
        }
        if (what != VF_DO_ASK_FOR_FILE)
            REFUSES(VF_BAD_ACTION, vf_receiver_asking(&receiver, &in, 22));
        if (what != VF_DO_LOAD_FILE)
            REFUSES(VF_BAD_ACTION, vf_receiver_loaded(&receiver, &in, 8));
        if (what < VF_DO_CLAIM || what >= VF_DO_RELEASE)
            REFUSES(VF_BAD_ACTION, vf_receiver_failed(&receiver, &in, 0));
        in.anchor = ANCHORS;
        if (what != VF_DO_CLAIM)
            REFUSES(VF_BAD_ACTION, vf_receiver_failed(&receiver, &in, 0));
    }
    begin();
    in.next = 0;
    REFUSES(VF_BAD_ACTION, vf_receiver_fetched(&receiver, &in, 22));
    in.next = VF_NEXT_FINISH + 1;
    REFUSES(VF_BAD_ACTION, vf_receiver_failed(&receiver, &in, 0));
    begin();
    EXPECT(vf_receiver_cancel(&receiver, 0) == VF_OK);
    EXPECT(vf_receiver_on_bounce(&receiver, 20, &in) == VF_OK && in.what == VF_DO_RELEASE);
    in.ending = 0;
    REFUSES(VF_BAD_ACTION, vf_receiver_failed(&receiver, &in, 0));
    in.ending = VF_END_UNCOUNTABLE + 1;
    REFUSES(VF_BAD_ACTION, vf_receiver_failed(&receiver, &in, 0));
}

/* An action whose transfer went on, was given up, or is another's isn't taken. */
static void actions_that_are_not_due(void)
{
    begin();
    struct vf_send_action was = out;
    EXPECT(vf_sender_sent(&sender, &out, 20, 21) == VF_OK);
    REFUSES(VF_NOT_OPEN, vf_sender_sent(&sender, &was, 20, 22));
    REFUSES(VF_NOT_OPEN, vf_sender_failed(&sender, &was));
    begin();
    EXPECT(vf_sender_cancel(&sender, 0) == VF_OK);
    REFUSES(VF_NOT_OPEN, vf_sender_sent(&sender, &out, 20, 21));
    begin();
    EXPECT(vf_sender_on_ack(&sender, 2, 30, 1, &out) == VF_OK);
    out.recipient = 3;
    REFUSES(VF_NOT_OPEN, vf_sender_saved(&sender, &out, 31));
    EXPECT(vf_sender_on_load_ack(&sender, 2, 1, &out) == VF_OK);
    out.anchor = 6;
    REFUSES(VF_NOT_OPEN, vf_sender_loaded(&sender, &out, 20));
    begin();
    REFUSES(VF_NOT_OPEN, vf_receiver_finished(&receiver, &in)); /* the buffer was full */
    struct vf_take_action taken = in;
    EXPECT(vf_receiver_fetched(&receiver, &in, 22) == VF_OK);
    REFUSES(VF_NOT_OPEN, vf_receiver_fetched(&receiver, &taken, 23));
    REFUSES(VF_NOT_OPEN, vf_receiver_failed(&receiver, &taken, 0));
    begin();
    EXPECT(vf_receiver_on_transmit(&receiver, 8, 1, 21, 20, 0x8114, 7, &in) == VF_OK);
    REFUSES(VF_NOT_OPEN, vf_receiver_fetched(&receiver, &in, 22)); /* it wasn't */
    in.sender = 4;
    REFUSES(VF_NOT_OPEN, vf_receiver_finished(&receiver, &in));
    begin();
    EXPECT(vf_receiver_on_bounce(&receiver, 20, &in) == VF_OK);
    taken = in;
    EXPECT(vf_receiver_asking(&receiver, &in, 22) == VF_OK);
    REFUSES(VF_NOT_OPEN, vf_receiver_asking(&receiver, &taken, 23));
    EXPECT(vf_receiver_on_load(&receiver, 1, 23, 22, &in) == VF_OK);
    taken = in;
    EXPECT(vf_receiver_loaded(&receiver, &in, 20) == VF_OK);
    REFUSES(VF_NOT_OPEN, vf_receiver_loaded(&receiver, &taken, 20));
}

/* An action that was refused ends its transfer, and no other. */
static void failed_actions(void)
{
    begin();
    EXPECT(vf_sender_offer(&sender, 9, 3, 6) == VF_OK);
    EXPECT(vf_sender_failed(&sender, &out) == VF_OK);
    EXPECT(sender.records[0].state == VF_RECORD_FAILED && sender.records[0].id == 1);
    EXPECT(sender.records[1].state == VF_RECORD_OPEN && sender.records[1].id == 9);
}

/* How many bytes of an action can have been kept. */
static void kept_bytes(void)
{
    begin();
    REFUSES(VF_BAD_RANGE, vf_receiver_failed(&receiver, &in, 9));
    EXPECT(vf_receiver_failed(&receiver, &in, 8) == VF_OK);
    EXPECT(receiver.records[0].state == VF_RECORD_FAILED && receiver.records[0].count == 8);
    begin();
    EXPECT(vf_receiver_on_bounce(&receiver, 20, &in) == VF_OK);
    REFUSES(VF_BAD_RANGE, vf_receiver_failed(&receiver, &in, 1));
    EXPECT(vf_receiver_asking(&receiver, &in, 22) == VF_OK);
    EXPECT(vf_receiver_on_load(&receiver, 1, 23, 22, &in) == VF_OK);
    EXPECT(vf_receiver_failed(&receiver, &in, 1000) == VF_OK);
    EXPECT(receiver.records[0].state == VF_RECORD_FAILED && receiver.records[0].count == 1000);
    begin();
    EXPECT(vf_receiver_on_save(&receiver, false, 1, 9, &in) == VF_OK);
    REFUSES(VF_BAD_RANGE, vf_receiver_failed(&receiver, &in, 1));
    struct vf_receiver was = receiver;
    EXPECT(vf_receiver_failed(&receiver, &in, 0) == VF_OK && memcmp(&was, &receiver, sizeof was) == 0);
}

static void anchors(void)
{
    static const uint32_t bad[] = {ANCHORS, 256, 256 + 5, UINT32_MAX};
    begin();
    EXPECT(vf_receiver_on_save(&receiver, false, 1, 9, &in) == VF_OK);
    for (size_t i = 0; i < sizeof bad / sizeof *bad; i++) {
        REFUSES(VF_BAD_ANCHOR, vf_sender_offer(&sender, 9, 2, bad[i]));
        REFUSES(VF_BAD_ANCHOR, vf_sender_is_source(&sender, bad[i], &flag));
        REFUSES(VF_BAD_ANCHOR, vf_receiver_fetching(&receiver, &in, bad[i], 0x8114, 22));
        REFUSES(VF_BAD_ANCHOR, vf_receiver_is_document(&receiver, bad[i], &flag));
    }
    EXPECT(vf_sender_offer(&sender, 9, 2, ANCHORS - 1) == VF_OK);
    EXPECT(vf_receiver_fetching(&receiver, &in, ANCHORS - 1, 0x8114, 22) == VF_OK);
}

static void null_senders(void)
{
    begin();
    REFUSES(VF_NULL, vf_sender_start(NULL));
    REFUSES(VF_NULL, vf_sender_offer(NULL, 9, 2, 5));
    REFUSES(VF_NULL, vf_sender_on_fetch(NULL, 2, 20, 1, 0x8114, 8, &out));
    REFUSES(VF_NULL, vf_sender_on_fetch(&sender, 2, 20, 1, 0x8114, 8, NULL));
    REFUSES(VF_NULL, vf_sender_on_ack(NULL, 2, 20, 1, &out));
    REFUSES(VF_NULL, vf_sender_on_ack(&sender, 2, 20, 1, NULL));
    REFUSES(VF_NULL, vf_sender_on_load_ack(NULL, 2, 1, &out));
    REFUSES(VF_NULL, vf_sender_on_load_ack(&sender, 2, 1, NULL));
    REFUSES(VF_NULL, vf_sender_part(NULL, 20, &part));
    REFUSES(VF_NULL, vf_sender_part(&out, 20, NULL));
    REFUSES(VF_NULL, vf_sender_sent(NULL, &out, 20, 21));
    REFUSES(VF_NULL, vf_sender_sent(&sender, NULL, 20, 21));
    REFUSES(VF_NULL, vf_sender_saved(NULL, &out, 21));
    REFUSES(VF_NULL, vf_sender_saved(&sender, NULL, 21));
    REFUSES(VF_NULL, vf_sender_loaded(NULL, &out, 20));
    REFUSES(VF_NULL, vf_sender_loaded(&sender, NULL, 20));
    REFUSES(VF_NULL, vf_sender_failed(NULL, &out));
    REFUSES(VF_NULL, vf_sender_failed(&sender, NULL));
    REFUSES(VF_NULL, vf_sender_on_bounce(NULL, 1, &flag));
    REFUSES(VF_NULL, vf_sender_on_bounce(&sender, 1, NULL));
    REFUSES(VF_NULL, vf_sender_cancel(NULL, 0));
    REFUSES(VF_NULL, vf_sender_is_source(NULL, 5, &flag));
    REFUSES(VF_NULL, vf_sender_is_source(&sender, 5, NULL));
}

static void null_receivers(void)
{
    begin();
    REFUSES(VF_NULL, vf_receiver_start(NULL));
    REFUSES(VF_NULL, vf_receiver_on_save(NULL, false, 1, 9, &in));
    REFUSES(VF_NULL, vf_receiver_on_save(&receiver, false, 1, 9, NULL));
    REFUSES(VF_NULL, vf_receiver_first_fetch(NULL, 0x8114, 8, &fetch));
    REFUSES(VF_NULL, vf_receiver_first_fetch(&in, 0x8114, 8, NULL));
    REFUSES(VF_NULL, vf_receiver_fetching(NULL, &in, 7, 0x8114, 22));
    REFUSES(VF_NULL, vf_receiver_fetching(&receiver, NULL, 7, 0x8114, 22));
    REFUSES(VF_NULL, vf_receiver_on_transmit(NULL, 8, 1, 21, 20, 0x8114, 8, &in));
    REFUSES(VF_NULL, vf_receiver_on_transmit(&receiver, 8, 1, 21, 20, 0x8114, 8, NULL));
    REFUSES(VF_NULL, vf_receiver_fetched(NULL, &in, 22));
    REFUSES(VF_NULL, vf_receiver_fetched(&receiver, NULL, 22));
    REFUSES(VF_NULL, vf_receiver_finished(NULL, &in));
    REFUSES(VF_NULL, vf_receiver_finished(&receiver, NULL));
    REFUSES(VF_NULL, vf_receiver_failed(NULL, &in, 0));
    REFUSES(VF_NULL, vf_receiver_failed(&receiver, NULL, 0));
    REFUSES(VF_NULL, vf_receiver_on_bounce(NULL, 20, &in));
    REFUSES(VF_NULL, vf_receiver_on_bounce(&receiver, 20, NULL));
    REFUSES(VF_NULL, vf_receiver_asking(NULL, &in, 22));
    REFUSES(VF_NULL, vf_receiver_asking(&receiver, NULL, 22));
    REFUSES(VF_NULL, vf_receiver_on_ack_bounce(NULL, 20, &flag));
    REFUSES(VF_NULL, vf_receiver_on_ack_bounce(&receiver, 20, NULL));
    REFUSES(VF_NULL, vf_receiver_on_load(NULL, 1, 21, 20, &in));
    REFUSES(VF_NULL, vf_receiver_on_load(&receiver, 1, 21, 20, NULL));
    REFUSES(VF_NULL, vf_receiver_loaded(NULL, &in, 8));
    REFUSES(VF_NULL, vf_receiver_loaded(&receiver, NULL, 8));
    REFUSES(VF_NULL, vf_receiver_cancel(NULL, 0));
    REFUSES(VF_NULL, vf_receiver_is_document(NULL, 7, &flag));
    REFUSES(VF_NULL, vf_receiver_is_document(&receiver, 7, NULL));
    REFUSES(VF_NULL, vf_receiver_is_buffer(NULL, 0x8114, &flag));
    REFUSES(VF_NULL, vf_receiver_is_buffer(&receiver, 0x8114, NULL));
}

int main(void)
{
    layouts();
    start();
    actions_are_told_in_full();
    parts();
    blocks_in_use();
    structs_that_are_none();
    actions_of_another_kind();
    actions_that_are_not_due();
    failed_actions();
    kept_bytes();
    anchors();
    null_senders();
    null_receivers();
    return ended("ram_calls");
}
