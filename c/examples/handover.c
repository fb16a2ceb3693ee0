/*
 * handover.c: an editor hands its document to a printer, piece by piece, through a buffer of 8 bytes. Both are tasks of
 * their own, here with a list of messages between them in place of a desktop. Each task does what its sender or
 * receiver asks for, and tells it how that ended.
 */
#include "vervainfile.h"

#include <stdio.h>
#include <string.h>

enum { EDITOR = 1, PRINTER = 2, DOCUMENT = 0, PAPER = 3, BUFFER = 0x8114, ROOM = 8, MOST_LETTERS = 32, LONGEST = 64 };
enum { USER_MESSAGE = 17, USER_MESSAGE_RECORDED = 18, DATA_SAVE = 1, RAM_FETCH = 6, RAM_TRANSMIT = 7 };

struct letter {
    uint32_t code, to;
    struct vf_message message;
};

static struct letter letters[MOST_LETTERS];
static uint32_t sent;

static const char *document = "Dear Anna, the ship sails on Sunday.";
static struct vf_sender editor;

static char paper[LONGEST];
static uint32_t printed;
static struct vf_receiver printer;

/* The printer's buffer, into which the editor writes. */
static char buffer[ROOM];

/* A message that says nothing yet. */
static struct vf_message_words message(uint32_t from, uint32_t action, uint32_t answers)
{
    struct vf_message_words words;
    memset(&words, 0, sizeof words);
    words.from = from;
    words.action = action;
    words.your_ref = answers;
    return words;
}

/* What Wimp_SendMessage does: gives the message a ref, and lays it down for its task. */
static uint32_t send(uint32_t code, uint32_t to, struct vf_message_words words)
{
    uint32_t length;
    words.my_ref = sent + 1;
    letters[sent].code = code;
    letters[sent].to = to;
    if (vf_message_encode(&words, &letters[sent].message, &length))
        return 0;
    printf("%u to task %u: %2u, action %u, %u bytes\n", words.my_ref, to, code, words.action, words.count + words.size);
    return ++sent;
}

static void offer(void)
{
    struct vf_message_words save = message(EDITOR, DATA_SAVE, 0);
    save.size = (uint32_t)strlen(document);
    save.file_type = 0xfff;
    save.name_length = 6;
    memcpy(save.name, "letter", save.name_length);
    vf_sender_offer(&editor, send(USER_MESSAGE_RECORDED, PRINTER, save), PRINTER, DOCUMENT);
}

/* The editor answers a RAMFetch. */
static void editor_hears(const struct vf_message_words *heard)
{
    struct vf_send_action action;
    struct vf_part part;
    uint32_t size = (uint32_t)strlen(document);
    if (heard->action != RAM_FETCH ||
        vf_sender_on_fetch(&editor, heard->from, heard->my_ref, heard->your_ref, heard->buffer, heard->count, &action))
        return;
    if (action.what != VF_DO_TRANSMIT || vf_sender_part(&action, size, &part))
        return;
    memcpy(buffer, document + part.offset, part.n);
    struct vf_message_words transmit = message(EDITOR, RAM_TRANSMIT, action.answers);
    transmit.buffer = action.buffer;
    transmit.count = part.n;
    uint32_t ref = send(part.is_last ? USER_MESSAGE : USER_MESSAGE_RECORDED, action.to, transmit);
    vf_sender_sent(&editor, &action, size, ref);
}

static uint32_t ask(const struct vf_fetch *fetch)
{
    struct vf_message_words words = message(PRINTER, RAM_FETCH, fetch->answers);
    words.buffer = fetch->buffer;
    words.count = fetch->room;
    return send(USER_MESSAGE_RECORDED, fetch->to, words);
}

/* The printer has bytes in its buffer: where there is no room for them on the paper the transfer fails. */
static void print(const struct vf_take_action *action)
{
    if (action->n > LONGEST - printed) {
        vf_receiver_failed(&printer, action, 0);
        return;
    }
    memcpy(paper + printed, buffer, action->n);
    printed += action->n;
    if (action->next == VF_NEXT_FETCH)
        vf_receiver_fetched(&printer, action, ask(&action->next_fetch));
    else
        vf_receiver_finished(&printer, action);
}

/* The printer takes an offer, and what is in its buffer. */
static void printer_hears(const struct vf_message_words *heard)
{
    struct vf_take_action action;
    struct vf_fetch fetch;
    if (heard->action == DATA_SAVE) {
        vf_receiver_on_save(&printer, false, heard->from, heard->my_ref, &action);
        if (action.what == VF_DO_CLAIM && vf_receiver_first_fetch(&action, BUFFER, ROOM, &fetch) == VF_OK)
            vf_receiver_fetching(&printer, &action, PAPER, BUFFER, ask(&fetch));
    } else if (heard->action == RAM_TRANSMIT) {
        vf_receiver_on_transmit(&printer, ROOM, heard->from, heard->my_ref, heard->your_ref, heard->buffer,
                                heard->count, &action);
        if (action.what == VF_DO_APPEND)
            print(&action);
        else if (action.what == VF_DO_RELEASE)
            vf_receiver_failed(&printer, &action, 0);
    }
}

int main(void)
{
    vf_sender_start(&editor);
    vf_receiver_start(&printer);
    offer();
    for (uint32_t next = 0; next < sent && sent < MOST_LETTERS; next++) {
        struct vf_message_words heard;
        if (vf_message_decode(letters[next].message.bytes, sizeof letters[next].message.bytes, &heard))
            continue;
        if (letters[next].to == EDITOR)
            editor_hears(&heard);
        else
            printer_hears(&heard);
    }
    printf("%.*s\n", (int)printed, paper);
    return editor.records[0].state == VF_RECORD_DONE && printer.records[0].state == VF_RECORD_DONE ? 0 : 1;
}
