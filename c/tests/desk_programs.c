/*
 * desk_programs.c: tasks with code of their own. Each call, and each status that it can answer, in its order; files that
 * are saved and loaded by it, through memory and by the scrap file; forgers who change nothing of what others hand each
 * other; refs and room for messages that run out. Addresses follow from the rules: a slot begins at &8000 with 256
 * bytes of anchor words and a C heap of 3,840 bytes, a flex block stands behind a header of 8 bytes, and a heap's first
 * block at 20. A refused call leaves the desk and each number as they were.
 */
#include "expect.h"

enum { PAGES = 16, FIRST_FLEX = 0x9008, FIRST_HEAP = 0x8114, ROOM_OF_TEXT = 1 << 16, MOST_DATA = 236 };
enum { DATA_SAVE = 1, DATA_SAVE_ACK = 2, DATA_LOAD = 3, DATA_LOAD_ACK = 4, RAM_FETCH = 6, RAM_TRANSMIT = 7 };
enum { USER = 17, RECORDED = 18, ACKNOWLEDGE = 19, ROOM_OF_BUFFER = 4, LONG = 600 };

#define LAST UINT32_MAX
#define A VF_TEXT("a")
#define B VF_TEXT("b")
#define R VF_TEXT("r")
#define Q VF_TEXT("q")
#define NONE VF_TEXT("none")

static struct vf_desk desk = VF_DESK_CLOSED;
static uint32_t number, code;
static struct vf_message message;
static struct vf_event event;
static uint8_t data[MOST_DATA + 4];
static char picture[ROOM_OF_TEXT], picture_before[ROOM_OF_TEXT];

/* ---- what is expected */

static void draw(char *to)
{
    static const char *const asked[] = {"areas", "blocks %s", "heap %s", "status %s", "show %s 0", "show %s 1"};
    static const char *const names[] = {"a", "b", "r", "q"};
    char line[40];
    size_t n, at = 0;
    for (size_t i = 0; i < sizeof asked / sizeof *asked; i++)
        for (size_t k = 0; k < (i ? sizeof names / sizeof *names : 1); k++) {
            snprintf(line, sizeof line, asked[i], names[k]);
            vf_desk_line(&desk, VF_TEXT(line));
            if (vf_desk_reply(&desk, (uint8_t *)to + at, ROOM_OF_TEXT - 1 - at, &n) == VF_OK)
                at += n;
        }
    to[at] = 0;
}

#define DOES(call) EXPECT((call) == VF_OK)
#define REFUSES(status, call)                                   \
    do {                                                        \
        draw(picture_before);                                   \
        number = code = UNSET;                                  \
        EXPECT((call) == (status));                             \
        EXPECT(number == UNSET && code == UNSET);               \
        draw(picture);                                          \
        EXPECT(strcmp(picture_before, picture) == 0);           \
    } while (0)

static uint32_t word(size_t at)
{
    const uint8_t *it = message.bytes + at;
    return it[0] | (uint32_t)it[1] << 8 | (uint32_t)it[2] << 16 | (uint32_t)it[3] << 24;
}

/* The message that a task takes: its code, sender, ref, the ref that it answers, its action and the bytes behind. */
#define TAKES(name, told_code, from, my_ref, your_ref, action, n)                                       \
    do {                                                                                                \
        memset(&message, UNSET, sizeof message);                                                        \
        DOES(vf_desk_take(&desk, name, &message, &code));                                               \
        EXPECT(code == (told_code) && word(0) == 20 + (n) && word(4) == (from) && word(8) == (my_ref)); \
        EXPECT(word(12) == (your_ref) && word(16) == (action));                                         \
        EXPECT(word(0) == sizeof message || message.bytes[word(0)] == UNSET);                           \
    } while (0)

#define TAKES_NONE(name)                                                               \
    do {                                                                               \
        memset(&message, UNSET, sizeof message);                                       \
        DOES(vf_desk_take(&desk, name, &message, &code));                              \
        EXPECT(code == 0 && message.bytes[0] == UNSET && message.bytes[255] == UNSET); \
    } while (0)

#define POLLS(name, told_did, told_count, told_sent)                                                 \
    do {                                                                                             \
        DOES(vf_desk_poll(&desk, name, &event));                                                     \
        EXPECT(event.did == (told_did) && event.count == (told_count) && event.sent == (told_sent)); \
    } while (0)

/* ---- what is sent */

static void put_word(size_t at, uint32_t n)
{
    for (size_t i = 0; i < 4; i++)
        data[at + i] = (uint8_t)(n >> 8 * i);
}

/* The data of a RAMFetch or a RAMTransmit, and how many bytes they are. */
static size_t buffer_words(uint32_t address, uint32_t n)
{
    put_word(0, address);
    put_word(4, n);
    return 8;
}

/* The data of a message about a file. */
static size_t file_words(uint32_t size, const char *name)
{
    size_t n = (strlen(name) + 4) / 4 * 4;
    memset(data, 0, 24 + n);
    put_word(16, size);
    put_word(20, 0xffd);
    memcpy(data + 24, name, strlen(name));
    return 24 + n;
}

#define SENDS(ref, name, of_code, to, your_ref, action, n) \
    TELLS(ref, vf_desk_send(&desk, name, of_code, to, your_ref, action, data, n, &number))

/* Task 1 is a, 2 is b, both with buffers of 4 bytes; 3 is r and 4 is q, with code of their own. */
static void open_desk(uint32_t first_ref)
{
    DOES(vf_desk_open(&desk, PAGES, 1, first_ref));
    TELLS(1, vf_desk_task(&desk, A, ROOM_OF_BUFFER, VF_TASK_PLAIN, &number));
    TELLS(2, vf_desk_task(&desk, B, ROOM_OF_BUFFER, VF_TASK_PLAIN, &number));
    TELLS(3, vf_desk_task(&desk, R, 1, VF_TASK_RAW, &number));
    TELLS(4, vf_desk_task(&desk, Q, 1, VF_TASK_RAW, &number));
}

static void put_text(const uint8_t *name, size_t name_len, uint32_t anchor, const char *text)
{
    DOES(vf_desk_alloc(&desk, name, name_len, anchor, (uint32_t)strlen(text), &number));
    if (*text)
        DOES(vf_desk_put(&desk, name, name_len, anchor, 0, VF_TEXT(text)));
}

static bool has_text(const uint8_t *name, size_t name_len, uint32_t anchor, const char *text)
{
    uint8_t bytes[64];
    uint32_t size;
    return vf_desk_show(&desk, name, name_len, anchor, bytes, sizeof bytes, &size) == VF_OK && size == strlen(text) &&
           memcmp(bytes, text, size) == 0;
}

/* ---- each call */

static void closed_desks_answer_so(void)
{
    EXPECT(vf_desk_take(&desk, R, &message, &code) == VF_CLOSED);
    EXPECT(vf_desk_send(&desk, R, USER, 1, 0, 9, data, 0, &number) == VF_CLOSED);
    EXPECT(vf_desk_ack(&desk, R, &number) == VF_CLOSED);
    EXPECT(vf_desk_write_at(&desk, R, 0, data, 0) == VF_CLOSED);
    EXPECT(vf_desk_transfer_to(&desk, R, 0, 1, 0, 0) == VF_CLOSED);
    EXPECT(vf_desk_spool(&desk, R, 0, 1, 0, &number) == VF_CLOSED);
    EXPECT(vf_desk_scrap(&desk, R, 0, &number) == VF_CLOSED);
}

/* A name, a code, a handle, an anchor, an amount or data that no line has. */
static void arguments_have_forms(void)
{
    REFUSES(VF_BAD_ARGUMENT, vf_desk_take(&desk, VF_TEXT("1a"), &message, &code));
    REFUSES(VF_BAD_ARGUMENT, vf_desk_send(&desk, VF_TEXT("1a"), USER, 1, 0, 9, data, 0, &number));
    REFUSES(VF_BAD_ARGUMENT, vf_desk_send(&desk, R, 0, 1, 0, 9, data, 0, &number));
    REFUSES(VF_BAD_ARGUMENT, vf_desk_send(&desk, R, ACKNOWLEDGE, 1, 0, 9, data, 0, &number));
    REFUSES(VF_BAD_ARGUMENT, vf_desk_send(&desk, R, USER, 0, 0, 9, data, 0, &number));
    REFUSES(VF_BAD_ARGUMENT, vf_desk_send(&desk, R, USER, 1, 0, 9, data, 3, &number));
    REFUSES(VF_BAD_ARGUMENT, vf_desk_send(&desk, R, USER, 1, 0, 9, data, MOST_DATA + 4, &number));
    REFUSES(VF_BAD_ARGUMENT, vf_desk_ack(&desk, VF_TEXT(""), &number));
    REFUSES(VF_BAD_ARGUMENT, vf_desk_write_at(&desk, VF_TEXT("1a"), 0, data, 1));
    REFUSES(VF_BAD_ARGUMENT, vf_desk_write_at(&desk, NONE, 0, data, 0));
    REFUSES(VF_BAD_ARGUMENT, vf_desk_transfer_to(&desk, R, 0, 0, 0, 0));
    REFUSES(VF_BAD_ARGUMENT, vf_desk_transfer_to(&desk, R, 0, 1, 0, 0x80000000u));
    REFUSES(VF_BAD_ARGUMENT, vf_desk_spool(&desk, R, 64, 1, 0, &number));
    REFUSES(VF_BAD_ARGUMENT, vf_desk_spool(&desk, R, 0, 0, 0, &number));
    REFUSES(VF_BAD_ARGUMENT, vf_desk_scrap(&desk, R, 64, &number));
}

/* The first refusal that holds is answered. */
static void calls_are_refused(void)
{
    REFUSES(VF_NO_NAME, vf_desk_take(&desk, NONE, &message, &code));
    REFUSES(VF_NO_NAME, vf_desk_send(&desk, NONE, USER, 9, LAST, 9, data, 0, &number));
    REFUSES(VF_NO_TASK, vf_desk_send(&desk, A, USER, 9, LAST, 9, data, 0, &number));
    REFUSES(VF_WRONG_MANNER, vf_desk_send(&desk, A, USER, 2, LAST, 9, data, 0, &number));
    REFUSES(VF_BAD_REF, vf_desk_send(&desk, R, USER, 1, 1, 9, data, 0, &number));
    REFUSES(VF_NO_NAME, vf_desk_ack(&desk, NONE, &number));
    REFUSES(VF_WRONG_MANNER, vf_desk_ack(&desk, A, &number));
    REFUSES(VF_NO_NAME, vf_desk_write_at(&desk, NONE, 0, data, 1));
    REFUSES(VF_BAD_RANGE, vf_desk_write_at(&desk, A, FIRST_FLEX, data, 1));
    REFUSES(VF_NO_NAME, vf_desk_transfer_to(&desk, NONE, 0, 9, 0, 1));
    REFUSES(VF_BAD_RANGE, vf_desk_transfer_to(&desk, A, 0, 9, 0, 1));
    REFUSES(VF_NO_NAME, vf_desk_spool(&desk, NONE, 0, 9, LAST, &number));
    REFUSES(VF_NO_BLOCK, vf_desk_spool(&desk, A, 0, 9, LAST, &number));
    REFUSES(VF_NO_NAME, vf_desk_scrap(&desk, NONE, 0, &number));
    REFUSES(VF_NO_FILE, vf_desk_scrap(&desk, A, 0, &number));
    put_text(A, 0, "abc");
    put_text(R, 0, "xyz");
    REFUSES(VF_WRONG_MANNER, vf_desk_write_at(&desk, A, FIRST_FLEX, data, 3));
    REFUSES(VF_BAD_RANGE, vf_desk_write_at(&desk, A, FIRST_FLEX, data, 4));
    REFUSES(VF_NO_TASK, vf_desk_transfer_to(&desk, A, FIRST_FLEX, 9, 0, 3));
    REFUSES(VF_BAD_RANGE, vf_desk_transfer_to(&desk, A, FIRST_FLEX, 2, FIRST_HEAP, 3));
    REFUSES(VF_BAD_RANGE, vf_desk_transfer_to(&desk, R, FIRST_FLEX, 3, FIRST_FLEX, 3));
    REFUSES(VF_NO_TASK, vf_desk_spool(&desk, A, 0, 9, LAST, &number));
    REFUSES(VF_WRONG_MANNER, vf_desk_spool(&desk, A, 0, 2, LAST, &number));
    REFUSES(VF_BAD_REF, vf_desk_spool(&desk, R, 0, 2, 1, &number));
    REFUSES(VF_WRONG_MANNER, vf_desk_save(&desk, R, 0, A, VF_TEXT("l"), &number));
    DOES(vf_desk_free(&desk, A, 0));
    DOES(vf_desk_free(&desk, R, 0));
}

/* Whether these bytes, and no others of the desk, stand at an address of r in its block that begins at another. */
static bool has_written(uint32_t begin, uint32_t at, const uint8_t *bytes, uint32_t n)
{
    uint8_t shown[LONG];
    uint32_t size;
    DOES(vf_desk_read(&desk, R, begin, 0, shown, 0, &size));
    DOES(vf_desk_read(&desk, R, begin, 0, shown, size, &size));
    for (uint32_t i = 0; i < size; i++)
        if (shown[i] != (begin + i >= at && begin + i < at + n ? bytes[begin + i - at] : 0))
            return false;
    return true;
}

/* Bytes anywhere in a block of r, but not in its headers, in a hole or past its end; b's stay. */
static void a_program_writes(void)
{
    uint8_t bytes[LONG + 1];
    for (uint32_t i = 0; i <= LONG; i++)
        bytes[i] = (uint8_t)(i % 250 + 1);
    put_text(B, 0, "b's");
    TELLS(FIRST_FLEX, vf_desk_alloc(&desk, R, 0, LONG, &number));
    TELLS(FIRST_HEAP, vf_desk_claim(&desk, R, 20, &number));
    REFUSES(VF_BAD_RANGE, vf_desk_write_at(&desk, R, FIRST_FLEX - 1, bytes, 1));
    REFUSES(VF_BAD_RANGE, vf_desk_write_at(&desk, R, FIRST_FLEX, bytes, LONG + 1));
    REFUSES(VF_BAD_RANGE, vf_desk_write_at(&desk, R, FIRST_FLEX + LONG, bytes, 1));
    REFUSES(VF_BAD_RANGE, vf_desk_write_at(&desk, R, FIRST_HEAP - 1, bytes, 1));
    REFUSES(VF_BAD_RANGE, vf_desk_write_at(&desk, R, FIRST_HEAP + 19, bytes, 2));
    REFUSES(VF_BAD_RANGE, vf_desk_write_at(&desk, R, LAST, bytes, 1));
    DOES(vf_desk_write_at(&desk, R, FIRST_FLEX + 3, bytes, 2));
    EXPECT(has_written(FIRST_FLEX, FIRST_FLEX + 3, bytes, 2) && has_written(FIRST_HEAP, 0, bytes, 0));
    DOES(vf_desk_write_at(&desk, R, FIRST_FLEX, bytes, LONG));
    EXPECT(has_written(FIRST_FLEX, FIRST_FLEX, bytes, LONG) && has_written(FIRST_HEAP, 0, bytes, 0));
    DOES(vf_desk_write_at(&desk, R, FIRST_HEAP + 19, bytes, 1));
    EXPECT(has_written(FIRST_HEAP, FIRST_HEAP + 19, bytes, 1) && has_written(FIRST_FLEX, FIRST_FLEX, bytes, LONG));
    EXPECT(has_text(B, 0, "b's"));
    DOES(vf_desk_free(&desk, B, 0));
    DOES(vf_desk_free(&desk, R, 0));
    DOES(vf_desk_release(&desk, R, FIRST_HEAP));
}

/* Messages of any action between two tasks with code of their own; one that isn't answered comes back. */
static void messages_of_any_action(void)
{
    for (size_t i = 0; i < MOST_DATA; i++)
        data[i] = (uint8_t)i;
    TAKES_NONE(Q);
    SENDS(1, R, USER, 4, 0, LAST, MOST_DATA);
    SENDS(2, R, RECORDED, 4, 1, 0, 0);
    SENDS(3, R, RECORDED, 4, 0, 9, 4);
    TAKES(Q, USER, 3, 1, 0, LAST, MOST_DATA);
    EXPECT(memcmp(message.bytes + 20, data, MOST_DATA) == 0);
    TELLS(0, vf_desk_ack(&desk, Q, &number));
    TAKES(Q, RECORDED, 3, 2, 1, 0, 0);
    TELLS(2, vf_desk_ack(&desk, Q, &number));
    TELLS(0, vf_desk_ack(&desk, Q, &number));
    TAKES(Q, RECORDED, 3, 3, 0, 9, 4);
    TAKES_NONE(Q);
    TAKES(R, ACKNOWLEDGE, 3, 3, 0, 9, 4);
    TAKES_NONE(R);
    SENDS(4, R, RECORDED, 4, 0, 9, 0);
    TAKES(Q, RECORDED, 3, 4, 0, 9, 0);
    SENDS(5, Q, USER, 3, 4, 10, 0);
    TAKES_NONE(Q);
    TAKES(R, USER, 4, 5, 4, 10, 0);
    TELLS(6, vf_desk_repeat(&desk, Q, &number));
    TAKES(R, USER, 4, 6, 4, 10, 0);
}

/* ---- files */

/* r saves 6 bytes to b, whose buffer has 4: a part and a shorter one. */
static void a_program_saves(void)
{
    put_text(R, 0, "ABCDEF");
    SENDS(7, R, RECORDED, 2, 0, DATA_SAVE, file_words(6, "doc"));
    POLLS(B, VF_DID_FETCH, 0, 8);
    REFUSES(VF_BAD_RANGE, vf_desk_transfer_to(&desk, R, FIRST_FLEX, 2, FIRST_HEAP, 5));
    REFUSES(VF_BAD_RANGE, vf_desk_transfer_to(&desk, R, FIRST_FLEX + 4, 2, FIRST_HEAP, 3));
    REFUSES(VF_BAD_RANGE, vf_desk_transfer_to(&desk, R, FIRST_FLEX, 2, FIRST_HEAP - 1, 1));
    REFUSES(VF_BAD_RANGE, vf_desk_transfer_to(&desk, R, FIRST_FLEX, 2, FIRST_FLEX, 1));
    TAKES(R, RECORDED, 2, 8, 7, RAM_FETCH, 8);
    EXPECT(word(20) == FIRST_HEAP && word(24) == ROOM_OF_BUFFER);
    DOES(vf_desk_transfer_to(&desk, R, FIRST_FLEX, 2, FIRST_HEAP, 4));
    SENDS(9, R, RECORDED, 2, 8, RAM_TRANSMIT, buffer_words(FIRST_HEAP, 4));
    POLLS(B, VF_DID_TAKE, 4, 10);
    TAKES(R, RECORDED, 2, 10, 9, RAM_FETCH, 8);
    DOES(vf_desk_transfer_to(&desk, R, FIRST_FLEX + 4, 2, FIRST_HEAP, 2));
    SENDS(11, R, USER, 2, 10, RAM_TRANSMIT, buffer_words(FIRST_HEAP, 2));
    POLLS(B, VF_DID_TAKE_LAST, 2, 0);
    EXPECT(has_text(B, 0, "ABCDEF"));
    REFUSES(VF_BAD_RANGE, vf_desk_transfer_to(&desk, R, FIRST_FLEX, 2, FIRST_HEAP, 1));
}

/* b saves what it has to r, which fetches into a block of its own; the file has as many bytes as were asked for. */
static void a_program_loads(void)
{
    TELLS(FIRST_HEAP, vf_desk_claim(&desk, R, 8, &number));
    TELLS(12, vf_desk_save(&desk, B, 0, R, VF_TEXT("doc"), &number));
    TAKES(R, RECORDED, 2, 12, 0, DATA_SAVE, 28);
    EXPECT(word(36) == 6 && strcmp((const char *)message.bytes + 44, "doc") == 0);
    SENDS(13, R, RECORDED, 2, 12, RAM_FETCH, buffer_words(FIRST_HEAP, 6));
    POLLS(B, VF_DID_SEND, 6, 14);
    TAKES(R, RECORDED, 2, 14, 13, RAM_TRANSMIT, 8);
    EXPECT(word(20) == FIRST_HEAP && word(24) == 6);
    SENDS(15, R, RECORDED, 2, 14, RAM_FETCH, buffer_words(FIRST_HEAP, 6));
    POLLS(B, VF_DID_SEND, 0, 16);
    TAKES(R, USER, 2, 16, 15, RAM_TRANSMIT, 8);
    DOES(vf_desk_read(&desk, R, FIRST_HEAP, 0, data, 6, &number));
    EXPECT(memcmp(data, "ABCDEF", 6) == 0);
}

/* r answers no fetch of a's, and makes a file; then a task that answers none makes one for r. */
static void by_the_scrap_file(void)
{
    SENDS(17, R, RECORDED, 1, 0, DATA_SAVE, file_words(6, "doc"));
    POLLS(A, VF_DID_FETCH, 0, 18);
    TAKES(R, RECORDED, 1, 18, 17, RAM_FETCH, 8);
    TAKES_NONE(R);
    POLLS(A, VF_DID_ASK, 0, 19);
    TAKES(R, RECORDED, 1, 19, 17, DATA_SAVE_ACK, 40);
    EXPECT(word(36) == LAST && strcmp((const char *)message.bytes + 44, "<Wimp$Scrap>") == 0);
    REFUSES(VF_NO_FILE, vf_desk_scrap(&desk, R, 1, &number));
    TELLS(20, vf_desk_spool(&desk, R, 0, 1, 19, &number));
    REFUSES(VF_BUSY, vf_desk_spool(&desk, R, 0, 1, 19, &number));
    POLLS(A, VF_DID_LOAD, 6, 21);
    EXPECT(has_text(A, 0, "ABCDEF"));
    TAKES(R, USER, 1, 21, 20, DATA_LOAD_ACK, 40);

    DOES(vf_desk_kill(&desk, B));
    TELLS(5, vf_desk_task(&desk, B, ROOM_OF_BUFFER, VF_TASK_FILE, &number));
    put_text(B, 0, "ghi");
    TELLS(22, vf_desk_save(&desk, B, 0, R, VF_TEXT("doc"), &number));
    TAKES(R, RECORDED, 5, 22, 0, DATA_SAVE, 28);
    SENDS(23, R, RECORDED, 5, 22, DATA_SAVE_ACK, file_words(LAST, "<Wimp$Scrap>"));
    POLLS(B, VF_DID_SAVE, 3, 24);
    TAKES(R, RECORDED, 5, 24, 23, DATA_LOAD, 40);
    REFUSES(VF_ANCHOR_IN_USE, vf_desk_scrap(&desk, R, 0, &number));
    TELLS(FIRST_FLEX + 8 + 8, vf_desk_scrap(&desk, R, 1, &number));
    EXPECT(has_text(R, 1, "ghi"));
    REFUSES(VF_NO_FILE, vf_desk_scrap(&desk, Q, 1, &number));
    SENDS(25, R, USER, 5, 24, DATA_LOAD_ACK, file_words(3, "<Wimp$Scrap>"));
    POLLS(B, VF_DID_FINISH, 0, 0);
    REFUSES(VF_NO_FILE, vf_desk_scrap(&desk, R, 2, &number));
}

/* ---- forgers */

/* q knows each ref and each address of a transfer between a and b, and of one that r makes to b; what it sends is
 * ignored, and what it moves is refused. */
static void a_third_task_forges(void)
{
    open_desk(1);
    put_text(A, 0, "abc");
    TELLS(FIRST_HEAP, vf_desk_claim(&desk, Q, 12, &number));
    TELLS(1, vf_desk_save(&desk, A, 0, B, VF_TEXT("doc"), &number));
    POLLS(B, VF_DID_FETCH, 0, 2);
    SENDS(3, Q, USER, 2, 2, RAM_TRANSMIT, buffer_words(FIRST_HEAP, 0));
    SENDS(4, Q, RECORDED, 1, 1, RAM_FETCH, buffer_words(FIRST_HEAP, 4));
    SENDS(5, Q, USER, 1, 1, DATA_LOAD_ACK, file_words(3, "<Wimp$Scrap>"));
    SENDS(6, Q, RECORDED, 1, 1, DATA_SAVE_ACK, file_words(3, "<Wimp$Scrap>"));
    REFUSES(VF_BAD_RANGE, vf_desk_transfer_to(&desk, Q, FIRST_HEAP, 2, FIRST_HEAP, 1));
    REFUSES(VF_BAD_RANGE, vf_desk_transfer_to(&desk, Q, FIRST_HEAP, 1, FIRST_FLEX, 1));
    REFUSES(VF_BAD_RANGE, vf_desk_transfer_to(&desk, Q, FIRST_HEAP, 3, FIRST_HEAP, 0));
    POLLS(B, VF_DID_NOTHING, 0, 0);
    POLLS(A, VF_DID_SEND, 3, 7);
    POLLS(A, VF_DID_NOTHING, 0, 0);
    POLLS(A, VF_DID_NOTHING, 0, 0);
    POLLS(A, VF_DID_NOTHING, 0, 0);
    POLLS(B, VF_DID_TAKE_LAST, 3, 0);
    EXPECT(has_text(B, 0, "abc") && has_text(A, 0, "abc"));
    DOES(vf_desk_close(&desk));
}

/* A fetch that was taken before is no leave to write into the buffer that a later transfer has at the same address. */
static void a_fetch_of_before(void)
{
    open_desk(1);
    put_text(A, 0, "abc");
    TELLS(FIRST_HEAP, vf_desk_claim(&desk, R, 12, &number));
    SENDS(1, R, RECORDED, 2, 0, DATA_SAVE, file_words(4, "x"));
    POLLS(B, VF_DID_FETCH, 0, 2);
    SENDS(3, R, USER, 2, 2, RAM_TRANSMIT, buffer_words(FIRST_HEAP, 0));
    POLLS(B, VF_DID_TAKE_LAST, 0, 0);
    TELLS(4, vf_desk_save(&desk, A, 0, B, VF_TEXT("doc"), &number));
    POLLS(B, VF_DID_FETCH, 0, 5);
    TAKES(R, RECORDED, 2, 2, 1, RAM_FETCH, 8);
    EXPECT(word(20) == FIRST_HEAP);
    REFUSES(VF_BAD_RANGE, vf_desk_transfer_to(&desk, R, FIRST_HEAP, 2, FIRST_HEAP, 2));
    POLLS(A, VF_DID_SEND, 3, 6);
    REFUSES(VF_BAD_RANGE, vf_desk_transfer_to(&desk, R, FIRST_HEAP, 2, FIRST_HEAP, 2));
    POLLS(B, VF_DID_TAKE_LAST, 3, 0);
    EXPECT(has_text(B, 1, "abc"));
    DOES(vf_desk_close(&desk));
}

/* A fetch names addresses: bytes that are moved to them go into the block that stands there by then. */
static void a_block_claimed_anew(void)
{
    open_desk(1);
    put_text(R, 0, "abcd");
    TELLS(FIRST_HEAP, vf_desk_claim(&desk, Q, 4, &number));
    SENDS(1, Q, RECORDED, 3, 0, RAM_FETCH, buffer_words(FIRST_HEAP, 4));
    TAKES(R, RECORDED, 4, 1, 0, RAM_FETCH, 8);
    DOES(vf_desk_release(&desk, Q, FIRST_HEAP));
    REFUSES(VF_BAD_RANGE, vf_desk_transfer_to(&desk, R, FIRST_FLEX, 4, FIRST_HEAP, 4));
    TELLS(FIRST_HEAP, vf_desk_claim(&desk, Q, 4, &number));
    DOES(vf_desk_write_at(&desk, Q, FIRST_HEAP, (const uint8_t *)"mine", 4));
    DOES(vf_desk_transfer_to(&desk, R, FIRST_FLEX, 4, FIRST_HEAP, 4));
    DOES(vf_desk_read(&desk, Q, FIRST_HEAP, 0, data, 4, &number));
    EXPECT(memcmp(data, "abcd", 4) == 0);
    DOES(vf_desk_close(&desk));
}

/* ---- what runs out */

/* 256 messages of a task to itself leave no room for others; its end gives it back. */
static void a_flood(void)
{
    open_desk(1);
    put_text(A, 0, "abc");
    for (uint32_t i = 1; i <= 256; i++)
        SENDS(i, R, RECORDED, 3, 0, 9, 0);
    REFUSES(VF_QUEUE_FULL, vf_desk_send(&desk, R, USER, 1, 0, 9, data, 0, &number));
    REFUSES(VF_QUEUE_FULL, vf_desk_send(&desk, A, USER, 1, LAST, 9, data, 0, &number));
    REFUSES(VF_QUEUE_FULL, vf_desk_save(&desk, A, 0, B, VF_TEXT("doc"), &number));
    put_text(R, 0, "xyz");
    REFUSES(VF_QUEUE_FULL, vf_desk_spool(&desk, R, 0, 1, 0, &number));
    TAKES(R, RECORDED, 3, 1, 0, 9, 0);
    REFUSES(VF_QUEUE_FULL, vf_desk_send(&desk, R, USER, 3, 0, 9, data, 0, &number));
    REFUSES(VF_QUEUE_FULL, vf_desk_send(&desk, R, USER, 3, 1, 9, data, 0, &number));
    DOES(vf_desk_kill(&desk, R));
    TELLS(257, vf_desk_save(&desk, A, 0, B, VF_TEXT("doc"), &number));
    POLLS(B, VF_DID_FETCH, 0, 258);
    DOES(vf_desk_close(&desk));
}

/* What a task has sent to another one stays when it ends, until that one polls. */
static void a_flood_that_stays(void)
{
    open_desk(1);
    put_text(A, 0, "abc");
    for (uint32_t i = 1; i <= 256; i++)
        SENDS(i, R, USER, 2, 0, 9, 0);
    DOES(vf_desk_kill(&desk, R));
    REFUSES(VF_QUEUE_FULL, vf_desk_save(&desk, A, 0, B, VF_TEXT("doc"), &number));
    POLLS(B, VF_DID_NOTHING, 0, 0);
    TELLS(257, vf_desk_save(&desk, A, 0, B, VF_TEXT("doc"), &number));
    DOES(vf_desk_close(&desk));
}

/* The last ref. */
static void the_last_ref(void)
{
    open_desk(LAST);
    put_text(R, 0, "xyz");
    SENDS(LAST, R, USER, 4, LAST - 1, 9, 0);
    REFUSES(VF_NO_REFS, vf_desk_send(&desk, R, USER, 4, LAST, 9, data, 0, &number));
    REFUSES(VF_NO_REFS, vf_desk_spool(&desk, R, 0, 4, 0, &number));
    REFUSES(VF_NO_REFS, vf_desk_repeat(&desk, R, &number));
    TAKES(Q, USER, 3, LAST, LAST - 1, 9, 0);
    DOES(vf_desk_close(&desk));
}

int main(void)
{
    closed_desks_answer_so();
    open_desk(1);
    arguments_have_forms();
    calls_are_refused();
    a_program_writes();
    messages_of_any_action();
    a_program_saves();
    a_program_loads();
    by_the_scrap_file();
    DOES(vf_desk_close(&desk));
    a_third_task_forges();
    a_fetch_of_before();
    a_block_claimed_anew();
    a_flood();
    a_flood_that_stays();
    the_last_ref();
    return ended("desk_programs");
}
