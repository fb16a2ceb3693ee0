/*
 * desk_bytes.c: bytes of blocks where they lie: read and written by address in a slot's blocks of either kind and in
 * the module area, and moved between two slots. Each status in its order, ranges up to 32 bits and past them, and each
 * refusal leaves the desk, the number and the lent bytes. A block that a transfer uses is busy, and a file that is
 * handed over is the one that was offered.
 */
#include "expect.h"

enum { PAGES = 32, FIRST_FLEX = 0x9008, FIRST_HEAP = 0x8114, FIRST_RMA = 0x1800014, LONG = 9000 };

#define LAST UINT32_MAX
#define A VF_TEXT("a")
#define B VF_TEXT("b")
#define NONE VF_TEXT("none")
#define NO_FORM VF_TEXT("1a")
#define BYTES(text) (const uint8_t *)(text), sizeof(text) - 1

static struct vf_desk desk = VF_DESK_CLOSED;
static uint32_t number;
static size_t count;
static uint8_t bytes[LONG], written[LONG];
static char picture[1 << 16], picture_before[1 << 16];

/* All that the desk tells of its blocks and areas, with the bytes of its module block. */
static void draw(char *to)
{
    static const char *const asked[] = {"areas",    "blocks a", "blocks b", "heap a",   "heap b",
                                        "status a", "status b", "show a 0", "show b 0", "show b 1"};
    uint8_t of_module[24];
    size_t at = 0, n = 0;
    for (size_t i = 0; i < sizeof asked / sizeof *asked; i++) {
        EXPECT(vf_desk_line(&desk, VF_TEXT(asked[i])) == VF_OK);
        EXPECT(vf_desk_reply(&desk, (uint8_t *)to + at, (1 << 16) - 1 - at, &n) == VF_OK);
        at += n;
    }
    memset(of_module, UNSET, sizeof of_module);
    vf_desk_rma_read(&desk, FIRST_RMA, 0, of_module, 20, &number);
    for (size_t i = 0; i < sizeof of_module; i++)
        at += (size_t)sprintf(to + at, "%02x", of_module[i]);
}

#define DOES(call) EXPECT((call) == VF_OK)

/* The call is refused so, and neither the desk nor what was lent changes. */
#define REFUSES(status, call)                                             \
    do {                                                                  \
        draw(picture_before);                                             \
        number = UNSET;                                                   \
        memset(bytes, UNSET, sizeof bytes);                               \
        EXPECT((call) == (status));                                       \
        EXPECT(number == UNSET);                                          \
        for (size_t byte_at = 0; byte_at < sizeof bytes; byte_at++)       \
            if (bytes[byte_at] != UNSET)                                  \
                EXPECT(!"a lent byte was changed");                       \
        draw(picture);                                                    \
        EXPECT(strcmp(picture, picture_before) == 0);                     \
    } while (0)

/* Bytes of one block, by each call that reads it. */
static void reads(uint32_t address, uint32_t offset, const char *is, size_t n, uint32_t size)
{
    memset(bytes, UNSET, sizeof bytes);
    TELLS(size, vf_desk_read(&desk, A, address, offset, bytes, n, &number));
    EXPECT(memcmp(bytes, is, n) == 0 && bytes[n] == UNSET);
}

static void slots(void)
{
    static const uint32_t addresses[] = {FIRST_FLEX, FIRST_HEAP};
    for (size_t i = 0; i < 2; i++) {
        uint32_t address = addresses[i];
        DOES(vf_desk_write(&desk, A, address, 0, BYTES("hello, world")));
        reads(address, 0, "hello, world", 12, 12);
        reads(address, 7, "world", 5, 12);
        reads(address, 12, "", 0, 12);
        DOES(vf_desk_write(&desk, A, address, 11, BYTES("!")));
        reads(address, 10, "l!", 2, 12);
        REFUSES(VF_BAD_RANGE, vf_desk_read(&desk, A, address, 0, bytes, 13, &number));
        REFUSES(VF_BAD_RANGE, vf_desk_read(&desk, A, address, 13, bytes, 0, &number));
        REFUSES(VF_BAD_RANGE, vf_desk_read(&desk, A, address, LAST, bytes, 1, &number));
        REFUSES(VF_BAD_RANGE, vf_desk_read(&desk, A, address, LAST, bytes, 13, &number));
        REFUSES(VF_BAD_RANGE, vf_desk_write(&desk, A, address, 12, BYTES("x")));
        REFUSES(VF_BAD_RANGE, vf_desk_write(&desk, A, address, 0, BYTES("hello, worlds")));
        REFUSES(VF_BAD_RANGE, vf_desk_write(&desk, A, address, INT32_MAX, BYTES("x")));
        REFUSES(VF_BAD_ARGUMENT, vf_desk_write(&desk, A, address, (uint32_t)INT32_MAX + 1, BYTES("x")));
        REFUSES(VF_BAD_ARGUMENT, vf_desk_write(&desk, A, address, 0, BYTES("")));
        REFUSES(VF_BAD_ARGUMENT, vf_desk_write(&desk, NO_FORM, address, 0, BYTES("x")));
        REFUSES(VF_BAD_ARGUMENT, vf_desk_read(&desk, NO_FORM, address, 0, bytes, 1, &number));
        REFUSES(VF_NO_NAME, vf_desk_read(&desk, NONE, address, LAST, bytes, 1, &number));
        REFUSES(VF_NO_NAME, vf_desk_write(&desk, NONE, address, 12, BYTES("x")));
        REFUSES(VF_NOT_A_BLOCK, vf_desk_read(&desk, A, address + 4, LAST, bytes, 1, &number));
        REFUSES(VF_NOT_A_BLOCK, vf_desk_write(&desk, A, address + 4, 12, BYTES("x")));
    }
    REFUSES(VF_NOT_A_BLOCK, vf_desk_read(&desk, A, 0, 0, bytes, 0, &number));
    REFUSES(VF_NOT_A_BLOCK, vf_desk_write(&desk, A, LAST, 0, BYTES("x")));
}

static void anchors(void)
{
    memset(bytes, UNSET, sizeof bytes);
    TELLS(12, vf_desk_show_at(&desk, A, 0, 7, bytes, 4, &number));
    EXPECT(memcmp(bytes, "worlMM", 6) == 0);
    TELLS(12, vf_desk_show_at(&desk, A, 0, 12, bytes, 0, &number));
    REFUSES(VF_BAD_RANGE, vf_desk_show_at(&desk, A, 0, 9, bytes, 4, &number));
    REFUSES(VF_BAD_RANGE, vf_desk_show_at(&desk, A, 0, LAST, bytes, 1, &number));
    REFUSES(VF_NO_BLOCK, vf_desk_show_at(&desk, A, 63, 0, bytes, 1, &number));
    REFUSES(VF_NO_NAME, vf_desk_show_at(&desk, NONE, 63, 0, bytes, 1, &number));
    REFUSES(VF_BAD_ARGUMENT, vf_desk_show_at(&desk, A, 64, 0, bytes, 1, &number));
    REFUSES(VF_BAD_ARGUMENT, vf_desk_show_at(&desk, NO_FORM, 0, 0, bytes, 1, &number));
}

static void module_area(void)
{
    uint32_t message = FIRST_RMA + 24;
    DOES(vf_desk_rma_write(&desk, FIRST_RMA, 8, BYTES("twelve bytes")));
    memset(bytes, UNSET, sizeof bytes);
    TELLS(20, vf_desk_rma_read(&desk, FIRST_RMA, 6, bytes, 14, &number));
    EXPECT(memcmp(bytes, "\0\0twelve bytesM", 15) == 0);
    REFUSES(VF_BAD_RANGE, vf_desk_rma_read(&desk, FIRST_RMA, 7, bytes, 14, &number));
    REFUSES(VF_BAD_RANGE, vf_desk_rma_read(&desk, FIRST_RMA, LAST, bytes, 1, &number));
    REFUSES(VF_BAD_RANGE, vf_desk_rma_write(&desk, FIRST_RMA, 20, BYTES("x")));
    REFUSES(VF_BAD_ARGUMENT, vf_desk_rma_write(&desk, FIRST_RMA, 0, BYTES("")));
    REFUSES(VF_BAD_ARGUMENT, vf_desk_rma_write(&desk, FIRST_RMA, LAST, BYTES("x")));
    REFUSES(VF_NOT_A_BLOCK, vf_desk_rma_read(&desk, FIRST_RMA + 8, LAST, bytes, 1, &number));
    REFUSES(VF_NOT_A_BLOCK, vf_desk_rma_write(&desk, 0, 20, BYTES("x")));
    DOES(vf_desk_save(&desk, A, 0, B, VF_TEXT("doc"), &number));
    REFUSES(VF_NOT_YOURS, vf_desk_rma_read(&desk, message, LAST, bytes, 1, &number));
    REFUSES(VF_NOT_YOURS, vf_desk_rma_write(&desk, message, LAST / 2, BYTES("x")));
}

/* The block that was offered is busy, and so is the buffer that it comes in by. */
static void transfers(void)
{
    struct vf_event event;
    REFUSES(VF_BUSY, vf_desk_write(&desk, A, FIRST_FLEX, 0, BYTES("x")));
    REFUSES(VF_BUSY, vf_desk_write(&desk, A, FIRST_FLEX, 99, BYTES("x")));
    reads(FIRST_FLEX, 0, "hello, worl!", 12, 12);
    DOES(vf_desk_poll(&desk, B, &event));
    EXPECT(event.did == VF_DID_FETCH);
    REFUSES(VF_BUSY, vf_desk_write(&desk, B, FIRST_HEAP, 0, BYTES("x")));
    REFUSES(VF_BUSY, vf_desk_write(&desk, B, FIRST_HEAP, 9999, BYTES("x")));
    while (event.did != VF_DID_TAKE_LAST) {
        DOES(vf_desk_poll(&desk, A, &event));
        DOES(vf_desk_poll(&desk, B, &event));
    }
    memset(bytes, UNSET, sizeof bytes);
    TELLS(12, vf_desk_show_at(&desk, B, 0, 0, bytes, 12, &number));
    EXPECT(memcmp(bytes, "hello, worl!", 12) == 0);
    DOES(vf_desk_write(&desk, A, FIRST_FLEX, 0, BYTES("j")));
    reads(FIRST_FLEX, 0, "jello", 5, 12);
}

static void moves(void)
{
    uint32_t a = 1, b = 2, there;
    DOES(vf_desk_alloc(&desk, B, 1, 12, &there));
    DOES(vf_desk_transfer(&desk, a, FIRST_FLEX + 7, b, there + 2, 5));
    TELLS(12, vf_desk_show_at(&desk, B, 1, 0, bytes, 12, &number));
    EXPECT(memcmp(bytes, "\0\0worl!\0\0\0\0\0", 12) == 0);
    DOES(vf_desk_transfer(&desk, a, FIRST_HEAP, a, FIRST_FLEX, 5));
    reads(FIRST_FLEX, 0, "hello, worl!", 12, 12);
    REFUSES(VF_NO_TASK, vf_desk_transfer(&desk, 9, 0, b, there, 1));
    REFUSES(VF_NO_TASK, vf_desk_transfer(&desk, a, 0, 9, 0, LAST));
    REFUSES(VF_BAD_RANGE, vf_desk_transfer(&desk, a, FIRST_FLEX, b, there, 13));
    REFUSES(VF_BAD_RANGE, vf_desk_transfer(&desk, a, FIRST_FLEX, b, there + 10, 3));
    REFUSES(VF_BAD_RANGE, vf_desk_transfer(&desk, a, LAST, b, there, LAST));
    REFUSES(VF_BAD_RANGE, vf_desk_transfer(&desk, a, FIRST_FLEX, a, FIRST_FLEX + 4, 5));
    DOES(vf_desk_transfer(&desk, a, FIRST_FLEX, a, FIRST_FLEX + 4, 4));
    reads(FIRST_FLEX, 0, "hellhellorl!", 12, 12);
}

/* A transfer by any two tasks asks for nobody's leave: it overwrites the buffer by which a file comes in. */
static void moves_over_a_buffer(void)
{
    struct vf_event event;
    DOES(vf_desk_save(&desk, A, 0, B, VF_TEXT("doc"), &number));
    DOES(vf_desk_poll(&desk, B, &event));
    DOES(vf_desk_poll(&desk, A, &event));
    EXPECT(event.did == VF_DID_SEND && event.count == 12);
    DOES(vf_desk_transfer(&desk, 1, FIRST_FLEX + 8, 2, FIRST_HEAP, 4));
    DOES(vf_desk_poll(&desk, B, &event));
    EXPECT(event.did == VF_DID_TAKE && event.count == 12);
    TELLS(12, vf_desk_show_at(&desk, B, 2, 0, bytes, 12, &number));
    EXPECT(memcmp(bytes, "orl!hellorl!", 12) == 0);
}

/* A block over more than two pages, in any two parts. */
static void long_blocks(void)
{
    uint32_t flex, heap;
    DOES(vf_desk_alloc(&desk, A, 5, LONG, &flex));
    DOES(vf_desk_claim(&desk, A, LONG, &heap));
    DOES(vf_desk_blocks(&desk, A, &(struct vf_block){0}, 1, &count));
    for (uint32_t part = 0; part <= LONG; part += 1125) {
        struct vf_block blocks[2];
        for (size_t i = 0; i < LONG; i++)
            written[i] = (uint8_t)below(256);
        DOES(vf_desk_blocks(&desk, A, blocks, 2, &count));
        flex = blocks[1].address;
        EXPECT(blocks[1].anchor == 5);
        if (part > 0) {
            DOES(vf_desk_write(&desk, A, flex, 0, written, part));
            DOES(vf_desk_write(&desk, A, heap, 0, written, part));
        }
        if (part < LONG) {
            DOES(vf_desk_write(&desk, A, flex, part, written + part, LONG - part));
            DOES(vf_desk_write(&desk, A, heap, part, written + part, LONG - part));
        }
        TELLS(LONG, vf_desk_read(&desk, A, flex, 0, bytes, LONG, &number));
        EXPECT(memcmp(bytes, written, LONG) == 0);
        EXPECT(vf_desk_read(&desk, A, heap, part, bytes, LONG - part, &number) == VF_OK);
        EXPECT(memcmp(bytes, written + part, LONG - part) == 0);
    }
}

static void closed(void)
{
    EXPECT(vf_desk_show_at(&desk, A, 0, 0, bytes, 1, &number) == VF_CLOSED);
    EXPECT(vf_desk_read(&desk, NO_FORM, 0, 0, bytes, 1, &number) == VF_CLOSED);
    EXPECT(vf_desk_write(&desk, A, 0, 0, BYTES("")) == VF_CLOSED);
    EXPECT(vf_desk_rma_read(&desk, 0, 0, bytes, 1, &number) == VF_CLOSED);
    EXPECT(vf_desk_rma_write(&desk, 0, 0, BYTES("")) == VF_CLOSED);
    EXPECT(vf_desk_transfer(&desk, 1, 0, 1, 0, 0) == VF_CLOSED);
}

int main(void)
{
    closed();
    DOES(vf_desk_open(&desk, PAGES, 1, 1));
    TELLS(1, vf_desk_task(&desk, A, 100, VF_TASK_PLAIN, &number));
    TELLS(2, vf_desk_task(&desk, B, 12, VF_TASK_PLAIN, &number));
    TELLS(FIRST_FLEX, vf_desk_alloc(&desk, A, 0, 12, &number));
    TELLS(FIRST_HEAP, vf_desk_claim(&desk, A, 12, &number));
    TELLS(FIRST_RMA, vf_desk_rma_claim(&desk, 20, &number));
    slots();
    anchors();
    module_area();
    transfers();
    moves();
    moves_over_a_buffer();
    long_blocks();
    DOES(vf_desk_close(&desk));
    return ended("desk_bytes");
}
