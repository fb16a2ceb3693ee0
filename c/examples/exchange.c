/*
 * exchange.c: a program that saves and loads files by messages, as programs for RISC OS do: first through memory, and
 * by way of the scrap file where the other one answers no RAMFetch. Two copies of it run on a desk, beside an editor
 * that the desk plays and one that knows files alone. What a message asks for is said by a sender and a receiver.
 */
#include "wimp.h"

#include <stdio.h>
#include <string.h>

enum { SOURCE = 0, ROOM = 8, LONGEST = 64, BEHIND_HEAD = 20, MOST_BLOCKS = 64, IDLE_ROUNDS = 2 };
enum { DATA_SAVE = 1, DATA_SAVE_ACK = 2, DATA_LOAD = 3, DATA_LOAD_ACK = 4, RAM_FETCH = 6, RAM_TRANSMIT = 7 };

static const char *const actions[] = {
    "", "DataSave", "DataSaveAck", "DataLoad", "DataLoadAck", "", "RAMFetch", "RAMTransmit"};

struct client {
    wimp_t task;
    const char *name;
    struct vf_sender out;
    struct vf_receiver in;
    uint32_t next; /* the anchor of the next file that comes in */
    bool by_file;  /* it answers no RAMFetch */
};

static struct vf_desk desk = VF_DESK_CLOSED;
static struct client draw, copy;

/* ---- what a client has in its slot */

static struct vf_block block_at(const char *name, uint32_t anchor)
{
    struct vf_block blocks[MOST_BLOCKS], none = {0, 0, 0};
    size_t count = 0;
    vf_desk_blocks(&desk, VF_TEXT(name), blocks, MOST_BLOCKS, &count);
    for (size_t i = 0; i < count; i++)
        if (blocks[i].anchor == anchor)
            return blocks[i];
    return none;
}

/* Puts bytes of a client's buffer behind those of a block. */
static uint32_t append(const char *name, uint32_t anchor, uint32_t buffer, uint32_t n)
{
    uint8_t bytes[ROOM];
    uint32_t size, at = block_at(name, anchor).size;
    uint32_t status = vf_desk_read(&desk, VF_TEXT(name), buffer, 0, bytes, n, &size);
    if (status == VF_OK)
        status = vf_desk_extend(&desk, VF_TEXT(name), anchor, at + n);
    return status || !n ? status : vf_desk_put(&desk, VF_TEXT(name), anchor, at, bytes, n);
}

/* ---- what it sends */

static struct vf_message_words message(uint32_t action, uint32_t answers)
{
    struct vf_message_words words;
    memset(&words, 0, sizeof words);
    words.action = action;
    words.your_ref = answers;
    return words;
}

static struct vf_message_words with_name(struct vf_message_words words, const char *name, uint32_t size)
{
    words.size = size;
    words.file_type = 0xffd;
    words.name_length = (uint32_t)strlen(name);
    memcpy(words.name, name, words.name_length);
    return words;
}

/* Sends a message, and gives its ref; 0 where it wasn't sent. */
static uint32_t send(const struct client *it, int event, uint32_t to, struct vf_message_words words)
{
    struct vf_message block;
    struct vf_message_words sent;
    uint32_t length;
    if (vf_message_encode(&words, &block, &length) || wimp_send_message(it->task, event, &block, to) ||
        vf_message_decode(block.bytes, length, &sent))
        return 0;
    return sent.my_ref;
}

static uint32_t send_fetch(const struct client *it, const struct vf_fetch *fetch)
{
    struct vf_message_words words = message(RAM_FETCH, fetch->answers);
    words.buffer = fetch->buffer;
    words.count = fetch->room;
    return send(it, WIMP_USER_MESSAGE_RECORDED, fetch->to, words);
}

/* Offers the source to a task. */
static void save(struct client *it, uint32_t to, const char *leaf)
{
    uint32_t size = block_at(it->name, SOURCE).size;
    uint32_t id = send(it, WIMP_USER_MESSAGE_RECORDED, to, with_name(message(DATA_SAVE, 0), leaf, size));
    if (id)
        vf_sender_offer(&it->out, id, to, SOURCE);
}

/* ---- what it does as a sender */

static void transmit(struct client *it, const struct vf_send_action *action)
{
    struct vf_block source = block_at(it->name, action->anchor);
    struct vf_message_words words = message(RAM_TRANSMIT, action->answers);
    struct vf_part part;
    uint32_t ref = 0;
    vf_sender_part(action, source.size, &part);
    words.buffer = action->buffer;
    words.count = part.n;
    if (!wimp_transfer_block(it->task, source.address + part.offset, action->to, action->buffer, (int)part.n))
        ref = send(it, part.is_last ? WIMP_USER_MESSAGE : WIMP_USER_MESSAGE_RECORDED, action->to, words);
    if (ref)
        vf_sender_sent(&it->out, action, source.size, ref);
    else
        vf_sender_failed(&it->out, action);
}

static void as_sender(struct client *it, const struct vf_send_action *action)
{
    uint32_t ref;
    if (action->what == VF_DO_TRANSMIT)
        transmit(it, action);
    else if (action->what == VF_DO_FINISH)
        vf_sender_loaded(&it->out, action, block_at(it->name, action->anchor).size);
    else if (action->what == VF_DO_SAVE_FILE) {
        if (vf_desk_spool(&desk, VF_TEXT(it->name), action->anchor, action->to, action->answers, &ref) == VF_OK)
            vf_sender_saved(&it->out, action, ref);
        else
            vf_sender_failed(&it->out, action);
    }
}

/* ---- what it does as a receiver */

static void claim(struct client *it, const struct vf_take_action *action)
{
    struct vf_fetch fetch;
    uint32_t buffer, place, ref = 0;
    if (vf_desk_claim(&desk, VF_TEXT(it->name), ROOM, &buffer) == VF_OK) {
        if (vf_desk_alloc(&desk, VF_TEXT(it->name), it->next, 0, &place) == VF_OK &&
            vf_receiver_first_fetch(action, buffer, ROOM, &fetch) == VF_OK)
            ref = send_fetch(it, &fetch);
        if (ref && vf_receiver_fetching(&it->in, action, it->next, buffer, ref) == VF_OK)
            it->next++;
        else
            vf_desk_release(&desk, VF_TEXT(it->name), buffer);
    }
}

static void take(struct client *it, const struct vf_take_action *action)
{
    uint32_t ref;
    if (append(it->name, action->anchor, action->buffer, action->n)) {
        vf_desk_release(&desk, VF_TEXT(it->name), action->buffer);
        vf_receiver_failed(&it->in, action, 0);
    } else if (action->next == VF_NEXT_FETCH && (ref = send_fetch(it, &action->next_fetch)) != 0) {
        vf_receiver_fetched(&it->in, action, ref);
    } else {
        vf_desk_release(&desk, VF_TEXT(it->name), action->buffer);
        if (action->next == VF_NEXT_FINISH)
            vf_receiver_finished(&it->in, action);
        else
            vf_receiver_failed(&it->in, action, action->n);
    }
}

/* The scrap file takes the place of the empty document. */
static void load(struct client *it, const struct vf_take_action *action)
{
    struct vf_message_words words = message(DATA_LOAD_ACK, action->answers);
    uint32_t place, size;
    vf_desk_free(&desk, VF_TEXT(it->name), action->anchor);
    if (vf_desk_scrap(&desk, VF_TEXT(it->name), action->anchor, &place) != VF_OK) {
        vf_receiver_failed(&it->in, action, 0);
        return;
    }
    size = block_at(it->name, action->anchor).size;
    if (send(it, WIMP_USER_MESSAGE, action->to, with_name(words, "<Wimp$Scrap>", size)))
        vf_receiver_loaded(&it->in, action, size);
    else
        vf_receiver_failed(&it->in, action, size);
}

static void as_receiver(struct client *it, const struct vf_take_action *action)
{
    struct vf_message_words ack = with_name(message(DATA_SAVE_ACK, action->id), "<Wimp$Scrap>", UINT32_MAX);
    uint32_t ref;
    if (action->what == VF_DO_CLAIM)
        claim(it, action);
    else if (action->what == VF_DO_APPEND)
        take(it, action);
    else if (action->what == VF_DO_LOAD_FILE)
        load(it, action);
    else if (action->what == VF_DO_RELEASE || action->what == VF_DO_ASK_FOR_FILE) {
        vf_desk_release(&desk, VF_TEXT(it->name), action->buffer);
        ref = action->what == VF_DO_ASK_FOR_FILE ? send(it, WIMP_USER_MESSAGE_RECORDED, action->sender, ack) : 0;
        if (ref)
            vf_receiver_asking(&it->in, action, ref);
        else
            vf_receiver_failed(&it->in, action, 0);
    }
}

/* ---- what it hears */

/* A message of its own came back. */
static void hears_back(struct client *it, const struct vf_message_words *heard)
{
    struct vf_take_action action;
    bool known;
    if (heard->action == RAM_FETCH && vf_receiver_on_bounce(&it->in, heard->my_ref, &action) == VF_OK)
        as_receiver(it, &action);
    else if (heard->action == DATA_SAVE_ACK)
        vf_receiver_on_ack_bounce(&it->in, heard->my_ref, &known);
    else
        vf_sender_on_bounce(&it->out, heard->my_ref, &known);
}

static void hears(struct client *it, const struct vf_message_words *heard)
{
    uint32_t from = heard->from, ref = heard->my_ref, answers = heard->your_ref;
    struct vf_send_action sends;
    struct vf_take_action takes;
    memset(&sends, 0, sizeof sends);
    memset(&takes, 0, sizeof takes);
    switch (heard->action) {
    case DATA_SAVE: vf_receiver_on_save(&it->in, false, from, ref, &takes); break;
    case RAM_TRANSMIT:
        vf_receiver_on_transmit(&it->in, ROOM, from, ref, answers, heard->buffer, heard->count, &takes);
        break;
    case DATA_LOAD: vf_receiver_on_load(&it->in, from, ref, answers, &takes); break;
    case RAM_FETCH:
        if (!it->by_file)
            vf_sender_on_fetch(&it->out, from, ref, answers, heard->buffer, heard->count, &sends);
        break;
    case DATA_SAVE_ACK: vf_sender_on_ack(&it->out, from, ref, answers, &sends); break;
    case DATA_LOAD_ACK: vf_sender_on_load_ack(&it->out, from, answers, &sends); break;
    }
    as_sender(it, &sends);
    as_receiver(it, &takes);
}

/* Takes a client's next message; false where there is none. */
static bool polls(struct client *it)
{
    struct vf_message block;
    struct vf_message_words heard;
    int event = 0;
    if (wimp_poll(it->task, &block, &event) || event == WIMP_NULL_REASON_CODE)
        return false;
    if (vf_message_decode(block.bytes, sizeof block.bytes, &heard) == VF_OK) {
        printf("  %s takes %d %s %u, which answers %u\n", it->name, event, actions[heard.action],
               (unsigned)heard.my_ref, (unsigned)heard.your_ref);
        if (event == WIMP_USER_MESSAGE_ACKNOWLEDGE)
            hears_back(it, &heard);
        else
            hears(it, &heard);
    }
    return true;
}

static bool played(const char *name)
{
    struct vf_event event;
    return vf_desk_poll(&desk, VF_TEXT(name), &event) == VF_OK && event.code != 0;
}

/* All tasks poll in turn, until nothing is on its way: what comes back needs a round in which nobody takes a message. */
static void run(const char *what)
{
    printf("%s\n", what);
    for (int idle = 0; idle < IDLE_ROUNDS;) {
        bool took = played("Edit");
        took = polls(&draw) || took;
        took = polls(&copy) || took;
        took = played("Old") || took;
        idle = took ? 0 : idle + 1;
    }
}

static void show(const char *name, uint32_t anchor)
{
    uint8_t bytes[LONGEST];
    uint32_t size = 0;
    vf_desk_show(&desk, VF_TEXT(name), anchor, bytes, sizeof bytes, &size);
    printf("%s has at %u: %.*s\n", name, (unsigned)anchor, (int)size, (const char *)bytes);
}

static void begin(struct client *it, const char *name)
{
    wimp_initialise(name, &it->task);
    it->name = wimp_name(it->task);
    it->next = SOURCE + 1;
    vf_sender_start(&it->out);
    vf_receiver_start(&it->in);
}

static void write_block(const char *name, uint32_t anchor, const char *text)
{
    uint32_t place;
    vf_desk_alloc(&desk, VF_TEXT(name), anchor, (uint32_t)strlen(text), &place);
    vf_desk_put(&desk, VF_TEXT(name), anchor, 0, VF_TEXT(text));
}

int main(void)
{
    uint32_t edit, old, id;
    if (vf_desk_open(&desk, 64, 1, 1))
        return 1;
    wimp_use_desk(&desk);
    vf_desk_task(&desk, VF_TEXT("Edit"), ROOM, VF_TASK_PLAIN, &edit);
    begin(&draw, "Draw");
    begin(&copy, "Copy");
    vf_desk_task(&desk, VF_TEXT("Old"), ROOM, VF_TASK_FILE, &old);
    write_block("Draw", SOURCE, "The ship sails at 9.");
    write_block("Old", SOURCE, "By way of a file.");

    save(&draw, edit, "ship");
    run("Draw saves to Edit");
    vf_desk_save(&desk, VF_TEXT("Edit"), 0, VF_TEXT("Draw"), VF_TEXT("ship"), &id);
    run("Edit saves to Draw");
    draw.by_file = true;
    save(&draw, edit, "ship");
    run("Draw saves to Edit by the scrap file");
    vf_desk_save(&desk, VF_TEXT("Old"), SOURCE, VF_TEXT("Draw"), VF_TEXT("old"), &id);
    run("Old saves to Draw");
    draw.by_file = false;
    save(&draw, copy.task, "ship");
    run("Draw saves to Copy");

    show("Edit", 0);
    show("Edit", 1);
    show("Draw", 1);
    show("Draw", 2);
    show("Copy", 1);
    for (uint32_t i = 0; i < draw.out.count; i++)
        printf("Draw's %u: %s, %u bytes\n", (unsigned)draw.out.records[i].id,
               draw.out.records[i].state == VF_RECORD_DONE ? "done" : "not done", (unsigned)draw.out.records[i].count);
    return vf_desk_close(&desk) == VF_OK ? 0 : 1;
}
