/*
 * ram_transfers.c: files that one program hands to another, between arrays of theirs, by the calls on senders and
 * receivers alone: through several buffers, by way of a file, and where a message comes back, is given up or is stray.
 * What is expected follows from the rules: a transmit sends as many bytes as were asked for, and fewer are the last;
 * the first fetch that comes back asks for a file, a later one ends the transfer.
 */
#include "expect.h"

enum { SENDER = 1, RECEIVER = 2, OTHER = 3, ROOM = 8, BUFFER = 0x8114, MOST = 64, USER = 17, RECORDED = 18 };
enum { DATA_SAVE = 1, DATA_SAVE_ACK = 2, DATA_LOAD = 3, DATA_LOAD_ACK = 4, RAM_FETCH = 6, RAM_TRANSMIT = 7 };

/* A message on its way: its block, as the Wimp would carry it. */
struct letter {
    uint32_t code, to;
    struct vf_message block;
};

static struct letter post[2 * MOST];
static uint32_t posted, taken;

static uint8_t source[MOST], document[MOST], buffer[ROOM], file[MOST];
static uint32_t size, length, file_size;
static struct vf_sender sender;
static struct vf_receiver receiver;

/* Sends a message, and gives its ref: refs count up from 1. */
static uint32_t send(uint32_t code, uint32_t to, struct vf_message_words words)
{
    uint32_t n;
    words.my_ref = posted + 1;
    post[posted].code = code;
    post[posted].to = to;
    EXPECT(vf_message_encode(&words, &post[posted].block, &n) == VF_OK);
    return ++posted;
}

static uint32_t send_bytes(uint32_t code, uint32_t from, uint32_t to, uint32_t answers, uint32_t action, uint32_t at,
                           uint32_t count)
{
    struct vf_message_words words = {.from = from, .your_ref = answers, .action = action, .buffer = at, .count = count};
    return send(code, to, words);
}

static uint32_t send_file(uint32_t code, uint32_t from, uint32_t to, uint32_t answers, uint32_t action, uint32_t bytes)
{
    struct vf_message_words words = {
        .from = from, .your_ref = answers, .action = action, .size = bytes, .file_type = 0xffd, .name_length = 3};
    memcpy(words.name, "doc", 3);
    return send(code, to, words);
}

static struct vf_message_words words_of(const struct letter *it)
{
    struct vf_message_words words = {0};
    EXPECT(vf_message_decode(it->block.bytes, sizeof it->block.bytes, &words) == VF_OK);
    return words;
}

static void offer(uint32_t n)
{
    posted = taken = length = file_size = 0;
    size = n;
    for (uint32_t i = 0; i < MOST; i++) {
        source[i] = (uint8_t)(i + 1);
        document[i] = 0;
    }
    EXPECT(vf_sender_start(&sender) == VF_OK && vf_receiver_start(&receiver) == VF_OK);
    uint32_t id = send_file(RECORDED, SENDER, RECEIVER, 0, DATA_SAVE, size);
    EXPECT(vf_sender_offer(&sender, id, RECEIVER, 5) == VF_OK);
}

static void transmit(const struct vf_send_action *action)
{
    struct vf_part part;
    EXPECT(vf_sender_part(action, size, &part) == VF_OK);
    memcpy(buffer, source + part.offset, part.n);
    uint32_t ref = send_bytes(part.is_last ? USER : RECORDED, SENDER, action->to, action->answers, RAM_TRANSMIT,
                              action->buffer, part.n);
    EXPECT(vf_sender_sent(&sender, action, size, ref) == VF_OK);
}

static void send_action(const struct vf_send_action *action)
{
    uint32_t ref;
    switch (action->what) {
    case VF_DO_TRANSMIT:
        transmit(action);
        break;
    case VF_DO_SAVE_FILE:
        memcpy(file, source, size);
        file_size = size;
        ref = send_file(RECORDED, SENDER, action->to, action->answers, DATA_LOAD, size);
        EXPECT(vf_sender_saved(&sender, action, ref) == VF_OK);
        break;
    case VF_DO_FINISH:
        EXPECT(vf_sender_loaded(&sender, action, size) == VF_OK);
        break;
    default:
        EXPECT(action->what == VF_DO_NOTHING);
    }
}

static uint32_t send_fetch(const struct vf_fetch *fetch)
{
    return send_bytes(RECORDED, RECEIVER, fetch->to, fetch->answers, RAM_FETCH, fetch->buffer, fetch->room);
}

static void take_action(const struct vf_take_action *action)
{
    struct vf_fetch fetch;
    uint32_t ref;
    switch (action->what) {
    case VF_DO_CLAIM:
        EXPECT(vf_receiver_first_fetch(action, BUFFER, ROOM, &fetch) == VF_OK);
        EXPECT(vf_receiver_fetching(&receiver, action, 7, BUFFER, send_fetch(&fetch)) == VF_OK);
        break;
    case VF_DO_APPEND:
        memcpy(document + length, buffer, action->n);
        length += action->n;
        if (action->next == VF_NEXT_FETCH)
            EXPECT(vf_receiver_fetched(&receiver, action, send_fetch(&action->next_fetch)) == VF_OK);
        else
            EXPECT(vf_receiver_finished(&receiver, action) == VF_OK);
        break;
    case VF_DO_ASK_FOR_FILE:
        ref = send_file(RECORDED, RECEIVER, action->sender, action->id, DATA_SAVE_ACK, UINT32_MAX);
        EXPECT(vf_receiver_asking(&receiver, action, ref) == VF_OK);
        break;
    case VF_DO_LOAD_FILE:
        memcpy(document, file, file_size);
        length = file_size;
        send_file(USER, RECEIVER, action->to, action->answers, DATA_LOAD_ACK, file_size);
        EXPECT(vf_receiver_loaded(&receiver, action, file_size) == VF_OK);
        break;
    case VF_DO_RELEASE:
        EXPECT(vf_receiver_failed(&receiver, action, 0) == VF_OK);
        break;
    default:
        EXPECT(action->what == VF_DO_NOTHING);
    }
}

static uint32_t sender_hears(struct vf_message_words words)
{
    struct vf_send_action action = {0};
    if (words.action == RAM_FETCH)
        EXPECT(vf_sender_on_fetch(&sender, words.from, words.my_ref, words.your_ref, words.buffer, words.count,
                                  &action) == VF_OK);
    else if (words.action == DATA_SAVE_ACK)
        EXPECT(vf_sender_on_ack(&sender, words.from, words.my_ref, words.your_ref, &action) == VF_OK);
    else
        EXPECT(vf_sender_on_load_ack(&sender, words.from, words.your_ref, &action) == VF_OK);
    send_action(&action);
    return action.what;
}

static uint32_t receiver_hears(struct vf_message_words words)
{
    struct vf_take_action action = {0};
    if (words.action == DATA_SAVE)
        EXPECT(vf_receiver_on_save(&receiver, false, words.from, words.my_ref, &action) == VF_OK);
    else if (words.action == RAM_TRANSMIT)
        EXPECT(vf_receiver_on_transmit(&receiver, ROOM, words.from, words.my_ref, words.your_ref, words.buffer,
                                       words.count, &action) == VF_OK);
    else
        EXPECT(vf_receiver_on_load(&receiver, words.from, words.my_ref, words.your_ref, &action) == VF_OK);
    take_action(&action);
    return action.what;
}

/* The next message is taken by the program that it is for; gives what that program did. */
static uint32_t turn(void)
{
    const struct letter *it = &post[taken++];
    return it->to == SENDER ? sender_hears(words_of(it)) : receiver_hears(words_of(it));
}

static void run(void)
{
    while (taken < posted && posted < MOST)
        EXPECT(turn() != VF_DO_NOTHING);
}

static void is_out(uint32_t state, uint32_t id, uint32_t count)
{
    EXPECT(sender.count == 1);
    EXPECT(sender.records[0].state == state && sender.records[0].id == id && sender.records[0].count == count);
}

static void is_in(uint32_t state, uint32_t count)
{
    EXPECT(receiver.count == 1);
    EXPECT(receiver.records[0].state == state && receiver.records[0].id == 1 && receiver.records[0].anchor == 7);
    EXPECT(receiver.records[0].count == count);
}

static void is_whole(void)
{
    is_out(VF_RECORD_DONE, 1, size);
    is_in(VF_RECORD_DONE, size);
    EXPECT(length == size && memcmp(document, source, size) == 0);
}

/* Files of each size about the bounds of three buffers. A full buffer is followed by one more fetch, so that a file of
 * an exact multiple ends with a transmit of no byte. */
static void whole_files(void)
{
    for (uint32_t n = 0; n <= 3 * ROOM + 1; n++) {
        offer(n);
        run();
        is_whole();
        EXPECT(posted == 1 + 2 * (n / ROOM + 1));
        for (uint32_t i = 2; i < posted; i += 2) {
            struct vf_message_words words = words_of(&post[i]);
            bool is_last = i + 1 == posted;
            EXPECT(words.action == RAM_TRANSMIT && words.count == (is_last ? n % ROOM : ROOM));
            EXPECT(post[i].code == (is_last ? USER : RECORDED));
            EXPECT(words.your_ref == i && words.buffer == BUFFER);
        }
        for (uint32_t i = 1; i < posted; i += 2) {
            struct vf_message_words words = words_of(&post[i]);
            EXPECT(words.action == RAM_FETCH && words.your_ref == i && words.buffer == BUFFER && words.count == ROOM);
            EXPECT(post[i].code == RECORDED && post[i].to == SENDER);
        }
    }
}

static void bounces(uint32_t ref)
{
    struct vf_take_action action;
    EXPECT(vf_receiver_on_bounce(&receiver, ref, &action) == VF_OK);
    take_action(&action);
}

static void by_way_of_a_file(void)
{
    offer(20);
    turn();
    taken = posted;
    bounces(2);
    is_in(VF_RECORD_ASKING, 0);
    EXPECT(receiver.records[0].fetch == 3);
    EXPECT(words_of(&post[2]).your_ref == 1 && post[2].code == RECORDED && words_of(&post[2]).size == UINT32_MAX);
    EXPECT(turn() == VF_DO_SAVE_FILE);
    is_out(VF_RECORD_OPEN, 1, 0);
    EXPECT(sender.records[0].last == 4 && words_of(&post[3]).your_ref == 3);
    EXPECT(turn() == VF_DO_LOAD_FILE);
    EXPECT(words_of(&post[4]).your_ref == 4 && post[4].code == USER);
    EXPECT(turn() == VF_DO_FINISH);
    is_whole();
}

static void bounces_end_transfers(void)
{
    bool known;
    struct vf_take_action action;
    offer(20); /* the offer itself came back */
    EXPECT(vf_sender_on_bounce(&sender, 2, &known) == VF_OK && !known);
    is_out(VF_RECORD_OPEN, 1, 0);
    EXPECT(vf_sender_on_bounce(&sender, 1, &known) == VF_OK && known);
    is_out(VF_RECORD_FAILED, 1, 0);
    offer(20); /* a fetch behind the first one */
    turn();
    turn();
    turn();
    EXPECT(vf_receiver_on_bounce(&receiver, 4, &action) == VF_OK);
    EXPECT(action.what == VF_DO_RELEASE && action.ending == VF_END_UNANSWERED && action.buffer == BUFFER);
    take_action(&action);
    is_in(VF_RECORD_FAILED, ROOM);
    offer(20); /* a transmit */
    turn();
    turn();
    EXPECT(vf_sender_on_bounce(&sender, 3, &known) == VF_OK && known);
    is_out(VF_RECORD_FAILED, 1, ROOM);
    offer(20); /* the DataSaveAck */
    turn();
    bounces(2);
    EXPECT(vf_receiver_on_ack_bounce(&receiver, 2, &known) == VF_OK && !known);
    is_in(VF_RECORD_ASKING, 0);
    EXPECT(vf_receiver_on_ack_bounce(&receiver, 3, &known) == VF_OK && known);
    is_in(VF_RECORD_FAILED, 0);
    offer(20); /* the DataLoad */
    turn();
    taken = posted;
    bounces(2);
    turn();
    EXPECT(vf_sender_on_bounce(&sender, 4, &known) == VF_OK && known);
    is_out(VF_RECORD_FAILED, 1, 0);
}

static void cancelled_transfers(void)
{
    struct vf_take_action action;
    offer(20); /* by the receiver, whose buffer drains by an answer */
    turn();
    EXPECT(vf_receiver_cancel(&receiver, 2) == VF_NOT_OPEN);
    EXPECT(vf_receiver_cancel(&receiver, 1) == VF_OK);
    is_in(VF_RECORD_DRAINING, 0);
    EXPECT(vf_receiver_cancel(&receiver, 1) == VF_NOT_OPEN && vf_receiver_cancel(&receiver, 0) == VF_NOT_OPEN);
    turn();
    EXPECT(turn() == VF_DO_RELEASE);
    is_in(VF_RECORD_FAILED, 0);
    EXPECT(length == 0);
    offer(20); /* or by a fetch that came back */
    turn();
    EXPECT(vf_receiver_cancel(&receiver, 0) == VF_OK);
    EXPECT(vf_receiver_on_bounce(&receiver, 2, &action) == VF_OK);
    EXPECT(action.what == VF_DO_RELEASE && action.ending == VF_END_DRAINED && action.buffer == BUFFER);
    take_action(&action);
    is_in(VF_RECORD_FAILED, 0);
    offer(20); /* one that waits for a file ends at once */
    turn();
    bounces(2);
    EXPECT(vf_receiver_cancel(&receiver, 0) == VF_OK);
    is_in(VF_RECORD_FAILED, 0);
    offer(20); /* by the sender */
    turn();
    EXPECT(vf_sender_cancel(&sender, 7) == VF_NOT_OPEN);
    EXPECT(vf_sender_cancel(&sender, 1) == VF_OK);
    is_out(VF_RECORD_FAILED, 1, 0);
    EXPECT(vf_sender_cancel(&sender, 1) == VF_NOT_OPEN && vf_sender_cancel(&sender, 0) == VF_NOT_OPEN);
    EXPECT(turn() == VF_DO_NOTHING);
}

/* A message that is for no transfer, or for one that went on, asks for nothing. */
static void stray_messages(void)
{
    struct vf_send_action out;
    struct vf_take_action in;
    offer(20);
    turn();
#define NO_SEND(call) do { EXPECT((call) == VF_OK); EXPECT(out.what == VF_DO_NOTHING && out.id == 0); } while (0)
#define NO_TAKE(call) do { EXPECT((call) == VF_OK); EXPECT(in.what == VF_DO_NOTHING && in.id == 0); } while (0)
    NO_SEND(vf_sender_on_fetch(&sender, OTHER, 2, 1, BUFFER, ROOM, &out));
    NO_SEND(vf_sender_on_fetch(&sender, RECEIVER, 2, 2, BUFFER, ROOM, &out));
    NO_SEND(vf_sender_on_fetch(&sender, RECEIVER, 2, 1, BUFFER, 0, &out));
    NO_SEND(vf_sender_on_ack(&sender, OTHER, 2, 1, &out));
    NO_SEND(vf_sender_on_ack(&sender, RECEIVER, 2, 2, &out));
    NO_SEND(vf_sender_on_load_ack(&sender, OTHER, 1, &out));
    NO_SEND(vf_sender_on_load_ack(&sender, RECEIVER, 2, &out));
    turn();
    NO_SEND(vf_sender_on_fetch(&sender, RECEIVER, 2, 1, BUFFER, ROOM, &out)); /* sent again: it was answered */
    NO_SEND(vf_sender_on_ack(&sender, RECEIVER, 2, 1, &out));                 /* bytes went out already */
    NO_TAKE(vf_receiver_on_transmit(&receiver, ROOM, OTHER, 3, 2, BUFFER, 8, &in));
    NO_TAKE(vf_receiver_on_transmit(&receiver, ROOM, SENDER, 3, 1, BUFFER, 8, &in));
    NO_TAKE(vf_receiver_on_transmit(&receiver, ROOM, SENDER, 3, 2, BUFFER + 4, 8, &in));
    NO_TAKE(vf_receiver_on_transmit(&receiver, ROOM, SENDER, 3, 2, BUFFER, 9, &in));
    NO_TAKE(vf_receiver_on_load(&receiver, SENDER, 3, 2, &in));
    NO_TAKE(vf_receiver_on_bounce(&receiver, 1, &in));
    NO_TAKE(vf_receiver_on_save(&receiver, true, SENDER, 9, &in)); /* of a deaf task */
    EXPECT(turn() == VF_DO_APPEND);
    NO_TAKE(vf_receiver_on_transmit(&receiver, ROOM, SENDER, 3, 2, BUFFER, 8, &in));
    NO_TAKE(vf_receiver_on_bounce(&receiver, 2, &in));
    run();
    is_whole();
    NO_TAKE(vf_receiver_on_bounce(&receiver, 6, &in));
}

/* Eight transfers go each way; of eight records the first that has ended makes room. */
static void nine_transfers(void)
{
    struct vf_take_action action;
    EXPECT(vf_sender_start(&sender) == VF_OK && vf_receiver_start(&receiver) == VF_OK);
    for (uint32_t id = 1; id <= 8; id++) {
        EXPECT(vf_sender_offer(&sender, id, RECEIVER, id) == VF_OK);
        EXPECT(vf_receiver_on_save(&receiver, false, SENDER, id, &action) == VF_OK);
        EXPECT(action.what == VF_DO_CLAIM && action.id == id && action.sender == SENDER);
        EXPECT(vf_receiver_fetching(&receiver, &action, id, BUFFER + 64 * id, 100 + id) == VF_OK);
    }
    EXPECT(vf_sender_offer(&sender, 9, RECEIVER, 9) == VF_BUSY);
    struct vf_take_action ninth = action;
    ninth.id = 9;
    EXPECT(vf_receiver_fetching(&receiver, &ninth, 9, BUFFER, 109) == VF_BUSY);
    EXPECT(vf_receiver_on_save(&receiver, false, SENDER, 9, &action) == VF_OK && action.what == VF_DO_NOTHING);
    EXPECT(vf_sender_cancel(&sender, 3) == VF_OK);
    EXPECT(vf_sender_offer(&sender, 9, RECEIVER, 9) == VF_OK);
    EXPECT(sender.count == 8 && sender.records[0].id == 1 && sender.records[2].id == 4 && sender.records[7].id == 9);
    EXPECT(vf_receiver_on_bounce(&receiver, 105, &action) == VF_OK && action.what == VF_DO_ASK_FOR_FILE);
    EXPECT(vf_receiver_failed(&receiver, &action, 0) == VF_OK);
    EXPECT(vf_receiver_on_save(&receiver, false, SENDER, 9, &action) == VF_OK && action.what == VF_DO_CLAIM);
    EXPECT(vf_receiver_fetching(&receiver, &action, 9, BUFFER, 109) == VF_OK);
    EXPECT(receiver.count == 8 && receiver.records[4].id == 6 && receiver.records[7].id == 9);
}

/* A record counts in 32 bits: bytes that go beyond end the transfer, those up to the last number don't. */
static void more_than_words_count(void)
{
    struct vf_take_action action;
    offer(20);
    turn();
    receiver.records[0].count = UINT32_MAX - ROOM;
    EXPECT(vf_receiver_on_transmit(&receiver, ROOM, SENDER, 3, 2, BUFFER, ROOM, &action) == VF_OK);
    EXPECT(action.what == VF_DO_APPEND && action.n == ROOM && action.next == VF_NEXT_FETCH);
    receiver.records[0].count++;
    EXPECT(vf_receiver_fetched(&receiver, &action, 4) == VF_NOT_OPEN);
    EXPECT(vf_receiver_on_transmit(&receiver, ROOM, SENDER, 3, 2, BUFFER, ROOM, &action) == VF_OK);
    EXPECT(action.what == VF_DO_RELEASE && action.ending == VF_END_UNCOUNTABLE);
    EXPECT(vf_receiver_failed(&receiver, &action, 0) == VF_OK);
    is_in(VF_RECORD_FAILED, UINT32_MAX - ROOM + 1);
}

int main(void)
{
    whole_files();
    by_way_of_a_file();
    bounces_end_transfers();
    cancelled_transfers();
    stray_messages();
    nine_transfers();
    more_than_words_count();
    return ended("ram_transfers");
}
