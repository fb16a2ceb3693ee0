/*
 * message_calls.c: messages into blocks and out of them, beside worked bytes, and each status. A refused call leaves
 * the block, the length and the words as they were.
 */
#include "expect.h"

enum { NAME = 44, LONGEST_NAME = 211, SEEN = 0x5a, OFFSET_OF_ACTION = 16 };

static struct vf_message block;
static struct vf_message_words words;
static uint32_t length;

#define REFUSES(status, call)                                       \
    do {                                                            \
        struct vf_message block_was = block;                        \
        struct vf_message_words words_were = words;                 \
        length = UNSET;                                             \
        EXPECT((call) == (uint32_t)(status));                       \
        EXPECT(memcmp(&block_was, &block, sizeof block) == 0);      \
        EXPECT(memcmp(&words_were, &words, sizeof words) == 0);     \
        EXPECT(length == UNSET);                                    \
    } while (0)

/* Messages from task 1 to itself, which offer 5 bytes, ask for 100 and send the 5; and those by way of a file. */
static const struct {
    struct vf_message_words words;
    const char *digits;
} rows[] = {
    {{1, 1, 0, 1, 0, 0, 0, 0, 0, 0, 5, 0xffd, 3, "doc"},
     "30000000 01000000 01000000 00000000 01000000 00000000 00000000 00000000 00000000 05000000 fd0f0000 646f6300"},
    {{1, 2, 1, 6, 0x8114, 100, 0, 0, 0, 0, 0, 0, 0, ""},
     "1c000000 01000000 02000000 01000000 06000000 14810000 64000000"},
    {{1, 3, 2, 7, 0x8114, 5, 0, 0, 0, 0, 0, 0, 0, ""},
     "1c000000 01000000 03000000 02000000 07000000 14810000 05000000"},
    {{2, 4, 1, 2, 0, 0, 0, 0, 0, 0, 0xffffffff, 0xffd, 12, "<Wimp$Scrap>"},
     "3c000000 02000000 04000000 01000000 02000000 00000000 00000000 00000000 00000000 ffffffff fd0f0000 "
     "3c57696d 70245363 7261703e 00000000"},
    {{1, 5, 4, 3, 0, 0, 1, 2, 3, 4, 5, 6, 0, ""},
     "30000000 01000000 05000000 04000000 03000000 01000000 02000000 03000000 04000000 05000000 06000000 00000000"},
    {{2, 6, 5, 4, 0, 0, 0, 0, 0, 0, 5, 0xffd, 4, "file"},
     "34000000 02000000 06000000 05000000 04000000 00000000 00000000 00000000 00000000 05000000 fd0f0000 66696c65 "
     "00000000"},
};

/* The bytes of digits in twos, with spaces between them; gives how many there are. */
static uint32_t bytes_of(const char *digits, uint8_t *to)
{
    uint32_t n = 0;
    unsigned byte;
    for (int used; sscanf(digits, " %2x%n", &byte, &used) == 1; digits += used)
        to[n++] = (uint8_t)byte;
    return n;
}

static void worked_bytes(void)
{
    for (size_t i = 0; i < sizeof rows / sizeof *rows; i++) {
        uint8_t bytes[256];
        uint32_t n = bytes_of(rows[i].digits, bytes);
        memset(&block, SEEN, sizeof block);
        EXPECT(vf_message_encode(&rows[i].words, &block, &length) == VF_OK);
        EXPECT(length == n && memcmp(block.bytes, bytes, n) == 0);
        for (uint32_t k = n; k < sizeof block.bytes; k++)
            EXPECT(block.bytes[k] == SEEN);
        memset(&words, SEEN, sizeof words);
        EXPECT(vf_message_decode(bytes, n, &words) == VF_OK);
        EXPECT(memcmp(&words, &rows[i].words, sizeof words) == 0);
        memset(&words, SEEN, sizeof words);
        EXPECT(vf_message_decode(block.bytes, sizeof block.bytes, &words) == VF_OK);
        EXPECT(memcmp(&words, &rows[i].words, sizeof words) == 0);
        for (uint32_t k = 0; k < n; k++)
            REFUSES(VF_BAD_LENGTH, vf_message_decode(bytes, k, &words));
    }
}

static void put_word(uint32_t at, uint32_t word)
{
    for (uint32_t i = 0; i < 4; i++)
        block.bytes[at + i] = (uint8_t)(word >> 8 * i);
}

static void bytes_that_are_none(void)
{
    static const uint32_t lengths[] = {0, 16, 19, 21, 46, 47, 49, 260, 0xfffffffc};
    static const uint32_t actions[] = {0, 5, 8, 255, 0x101, 0x80000001};
    memset(&block, 0, sizeof block);
    EXPECT(vf_message_encode(&rows[0].words, &block, &length) == VF_OK);
    for (size_t i = 0; i < sizeof lengths / sizeof *lengths; i++) {
        put_word(0, lengths[i]);
        REFUSES(VF_BAD_LENGTH, vf_message_decode(block.bytes, sizeof block.bytes, &words));
    }
    put_word(0, 44); /* no room for a name */
    REFUSES(VF_BAD_LENGTH, vf_message_decode(block.bytes, sizeof block.bytes, &words));
    put_word(0, 48);
    block.bytes[NAME + 3] = 'x'; /* no 0 ends the name inside the length */
    REFUSES(VF_BAD_LENGTH, vf_message_decode(block.bytes, sizeof block.bytes, &words));
    put_word(0, 52); /* but one behind it */
    EXPECT(vf_message_decode(block.bytes, sizeof block.bytes, &words) == VF_OK);
    EXPECT(words.name_length == 4 && memcmp(words.name, "docx", 5) == 0);
    for (size_t i = 0; i < sizeof actions / sizeof *actions; i++) {
        put_word(OFFSET_OF_ACTION, actions[i]);
        REFUSES(VF_BAD_MESSAGE, vf_message_decode(block.bytes, sizeof block.bytes, &words));
    }
    put_word(0, 21); /* the length is looked at first */
    REFUSES(VF_BAD_LENGTH, vf_message_decode(block.bytes, sizeof block.bytes, &words));
    put_word(0, 24);
    put_word(OFFSET_OF_ACTION, 6); /* a RAMFetch has 28 */
    REFUSES(VF_BAD_LENGTH, vf_message_decode(block.bytes, sizeof block.bytes, &words));
    put_word(0, 28);
    EXPECT(vf_message_decode(block.bytes, 28, &words) == VF_OK);
    REFUSES(VF_BAD_LENGTH, vf_message_decode(block.bytes, 27, &words));
}

static void words_that_are_none(void)
{
    words = rows[0].words;
    for (uint32_t action = 0; action < 300; action++) {
        bool is_one = (action >= 1 && action <= 4) || action == 6 || action == 7;
        words.action = action;
        if (!is_one)
            REFUSES(VF_BAD_MESSAGE, vf_message_encode(&words, &block, &length));
    }
    words = rows[0].words;
    memset(words.name, 'n', sizeof words.name);
    words.name_length = LONGEST_NAME;
    EXPECT(vf_message_encode(&words, &block, &length) == VF_OK && length == 256);
    EXPECT(block.bytes[NAME + LONGEST_NAME - 1] == 'n' && block.bytes[NAME + LONGEST_NAME] == 0);
    words.name_length = LONGEST_NAME + 1;
    REFUSES(VF_BAD_ARGUMENT, vf_message_encode(&words, &block, &length));
    words.name_length = LONGEST_NAME + 2;
    REFUSES(VF_BAD_ARGUMENT, vf_message_encode(&words, &block, &length));
    words.name_length = UINT32_MAX;
    REFUSES(VF_BAD_ARGUMENT, vf_message_encode(&words, &block, &length));
    words.action = 6; /* which has no name */
    EXPECT(vf_message_encode(&words, &block, &length) == VF_OK && length == 28);
    words = rows[0].words;
    words.name_length = 4;
    REFUSES(VF_BAD_ARGUMENT, vf_message_encode(&words, &block, &length));
}

static void null_pointers(void)
{
    words = rows[0].words;
    REFUSES(VF_NULL, vf_message_encode(NULL, &block, &length));
    REFUSES(VF_NULL, vf_message_encode(&words, NULL, &length));
    REFUSES(VF_NULL, vf_message_encode(&words, &block, NULL));
    REFUSES(VF_NULL, vf_message_decode(NULL, 0, &words));
    REFUSES(VF_NULL, vf_message_decode(block.bytes, 28, NULL));
}

int main(void)
{
    worked_bytes();
    bytes_that_are_none();
    words_that_are_none();
    null_pointers();
    return ended("message_calls");
}
