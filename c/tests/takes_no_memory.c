/*
 * takes_no_memory.c: no call takes memory of its own. The linker puts counters in the place of the functions that give
 * memory (tools/base/ctests.py names them), each call of the library is made again and again, done and refused, and
 * nothing is counted.
 */
#include "expect.h"

#include <stdlib.h>

enum { PAGE = 4096, LEN = 8 * PAGE, FIRST_LEN = LEN / 2, TURNS = 4000, ANCHORS = 8, NO_ANCHOR = 64 };
enum { HEAP_CALLS = 6, MAPPED_CALLS = 6, FLEX_CALLS = 14, WIDE_CALLS = 10, WORDS = 2 * LEN / 512 };

_Static_assert(sizeof(struct heap_calls) == (1 + HEAP_CALLS) * sizeof(void *), "each call on a heap is made");
_Static_assert(sizeof(struct flex_calls) == FLEX_CALLS * sizeof(void *), "each call on a slot is made");

static volatile unsigned taken;

#define COUNTED(name, parameters, arguments) \
    void *__real_##name parameters;          \
    void *__wrap_##name parameters;          \
    void *__wrap_##name parameters           \
    {                                        \
        taken++;                             \
        return __real_##name arguments;      \
    }

COUNTED(malloc, (size_t n), (n))
COUNTED(calloc, (size_t count, size_t n), (count, n))
COUNTED(realloc, (void *old, size_t n), (old, n))
COUNTED(aligned_alloc, (size_t alignment, size_t n), (alignment, n))

static uint8_t memory[LEN], buffer[64];
static uint64_t map[WORDS];
static struct vf_slot slot;
static struct vf_wide_slot wide;
/* What a call tells, and the block that was claimed last. */
static size_t number, other, block;
/* How often a call was done, and how often it was refused. */
static unsigned done[FLEX_CALLS], refused[FLEX_CALLS];

static void count(uint32_t call, uint32_t status)
{
    if (status == VF_OK)
        done[call]++;
    else
        refused[call]++;
}

/* The block that was claimed last, or a place where none begins. */
static size_t some_block(void)
{
    return below(4) ? block : block + 1;
}

static ptrdiff_t some_amount(ptrdiff_t most)
{
    return (ptrdiff_t)below((uint32_t)(2 * most)) - most;
}

static uint32_t claimed(uint32_t status)
{
    if (status == VF_OK)
        block = number;
    return status;
}

static uint32_t call_heap(const struct heap_calls *heap, uint8_t *bytes, uint32_t call)
{
    switch (call) {
    case 0:
        return heap->describe(bytes, LEN, &number, &other);
    case 1:
        return claimed(heap->claim(bytes, LEN, below(300), &number));
    case 2:
        return heap->release(bytes, LEN, some_block());
    case 3:
        return claimed(heap->resize(bytes, LEN, some_block(), some_amount(100), &number));
    case 4:
        return heap->extend(bytes, LEN, some_amount(20));
    default:
        return heap->block_size(bytes, LEN, some_block(), &number);
    }
}

/* The calls on a heap with a map. One that is one word short is refused, and the map stays. */
static uint32_t call_mapped(uint32_t call)
{
    switch (call) {
    case 0:
        return vf_heap_index(memory, LEN, map, vf_heap_map_words(FIRST_LEN) - below(2));
    case 1:
        return claimed(vf_heap_indexed_claim(memory, LEN, map, WORDS, below(300), &number));
    case 2:
        return vf_heap_indexed_release(memory, LEN, map, WORDS, some_block());
    case 3:
        return claimed(vf_heap_indexed_resize(memory, LEN, map, WORDS, some_block(), some_amount(100), &number));
    case 4:
        return vf_heap_indexed_block_size(memory, LEN, map, WORDS, some_block(), &number);
    default:
        return vf_heap_indexed_resize_need(memory, LEN, map, WORDS, some_block(), some_amount(100), &number);
    }
}

static uint32_t call_flex(const struct flex_calls *flex, size_t len, uint32_t anchor, uint32_t call)
{
    switch (call) {
    case 0:
        return flex->alloc(memory, len, &slot, anchor, below(2000), &number);
    case 1:
        return flex->free(memory, len, &slot, anchor);
    case 2:
        return flex->size(memory, len, &slot, anchor, &number);
    case 3:
        return flex->extend(memory, len, &slot, anchor, below(2000));
    case 4:
        return flex->midextend(memory, len, &slot, anchor, below(100), some_amount(100));
    case 5:
        return flex->place(memory, len, &slot, anchor, &number);
    case 6:
        return flex->put(memory, len, &slot, anchor, below(100), buffer, sizeof buffer);
    case 7:
        return flex->read(memory, len, &slot, anchor, below(100), buffer, sizeof buffer);
    case 8:
        return flex->describe(memory, len, &slot, &number, &other);
    case 9:
        return claimed(flex->claim(memory, len, &slot, below(900), &number));
    case 10:
        return flex->release(memory, len, &slot, some_block());
    case 11:
        return claimed(flex->resize(memory, len, &slot, some_block(), some_amount(900), &number));
    case 12:
        return flex->places(memory, below(2) ? len : 1, &slot, &number, 1);
    default:
        return flex->block_size(memory, len, &slot, some_block(), &number);
    }
}

static void start_counting(void)
{
    memset(done, 0, sizeof done);
    memset(refused, 0, sizeof refused);
    block = 0;
}

/* Each call was done, and but for those before `first` it was refused too. */
static void expect_both(uint32_t first, uint32_t calls)
{
    for (uint32_t call = 0; call < calls; call++) {
        EXPECT(done[call]);
        EXPECT(call < first || refused[call]);
    }
}

/* The checked calls are also given bytes that are no heap. Nothing refuses to describe a heap. */
static void heaps_take_none(const struct heap_calls *heap)
{
    bool takes_any = heap == &CHECKED;
    start_counting();
    EXPECT(vf_heap_init(memory, LEN + 1) == VF_BAD_LENGTH);
    for (int turn = 0; turn < TURNS; turn++) {
        uint32_t call = below(HEAP_CALLS);
        if (turn % 200 == 0)
            EXPECT(vf_heap_init(memory, FIRST_LEN) == VF_OK);
        count(call, call_heap(heap, takes_any && !below(8) ? buffer : memory, call));
        EXPECT(vf_heap_check(memory, LEN) == VF_OK);
    }
    EXPECT(vf_heap_check(buffer, sizeof buffer) == VF_BAD_DESCRIPTOR);
    expect_both(takes_any ? 0 : 1, HEAP_CALLS);
}

static void mapped_heaps_take_none(void)
{
    start_counting();
    for (int turn = 0; turn < TURNS; turn++) {
        uint32_t call = below(MAPPED_CALLS);
        if (turn % 200 == 0) {
            EXPECT(vf_heap_init(memory, FIRST_LEN) == VF_OK);
            EXPECT(vf_heap_index(memory, LEN, map, WORDS) == VF_OK);
        }
        count(call, call_mapped(call));
        EXPECT(vf_heap_check(memory, LEN) == VF_OK);
    }
    expect_both(0, MAPPED_CALLS);
}

static void slots_take_none(const struct flex_calls *flex)
{
    bool was;
    start_counting();
    EXPECT(vf_flex_start(memory, PAGE - 1, &slot) == VF_BAD_LENGTH);
    for (int turn = 0; turn < TURNS; turn++) {
        uint32_t call = below(FLEX_CALLS);
        if (turn % 200 == 0)
            EXPECT(vf_flex_start(memory, LEN, &slot) == VF_OK);
        EXPECT(vf_flex_set_budge(&slot, below(4) != 0, &was) == VF_OK);
        count(call, call_flex(flex, below(20) ? LEN : PAGE - 1, below(20) ? below(ANCHORS) : NO_ANCHOR, call));
        EXPECT(vf_flex_check(memory, LEN, &slot) == VF_OK);
    }
    EXPECT(vf_flex_check(memory, PAGE - 1, &slot) == VF_BAD_LENGTH);
    expect_both(0, FLEX_CALLS);
}

static uint32_t call_wide(size_t len, uint32_t anchor, uint32_t call)
{
    switch (call) {
    case 0:
        return vf_flex_wide_alloc(memory, len, &wide, anchor, below(2000), &number);
    case 1:
        return vf_flex_wide_free(memory, len, &wide, anchor);
    case 2:
        return vf_flex_wide_size(memory, len, &wide, anchor, &number);
    case 3:
        return vf_flex_wide_extend(memory, len, &wide, anchor, below(2000));
    case 4:
        return vf_flex_wide_midextend(memory, len, &wide, anchor, below(100), some_amount(100));
    case 5:
        return vf_flex_wide_place(memory, len, &wide, anchor, &number);
    case 6:
        return vf_flex_wide_put(memory, len, &wide, anchor, below(100), buffer, sizeof buffer);
    case 7:
        return vf_flex_wide_read(memory, len, &wide, anchor, below(100), buffer, sizeof buffer);
    case 8:
        return vf_flex_wide_places(memory, len, &wide, &number, 1);
    default:
        return vf_flex_wide_budge(memory, len, &wide, below(90), &number);
    }
}

static void wide_slots_take_none(void)
{
    start_counting();
    EXPECT(vf_flex_start_with(memory, LEN, &wide, NO_ANCHOR - 1) == VF_BAD_ANCHOR);
    for (int turn = 0; turn < TURNS; turn++) {
        uint32_t call = below(WIDE_CALLS);
        if (turn % 200 == 0)
            EXPECT(vf_flex_start_with(memory, LEN, &wide, NO_ANCHOR) == VF_OK);
        count(call, call_wide(below(20) ? LEN : 1, below(20) ? below(ANCHORS) : NO_ANCHOR, call));
    }
    expect_both(0, WIDE_CALLS);
}

/* Events on a sender, each told how its action ended: done, and refused. */
static void senders_take_none(void)
{
    struct vf_sender sender;
    struct vf_send_action action;
    struct vf_part part;
    bool is_so;
    EXPECT(vf_sender_start(&sender) == VF_OK);
    for (uint32_t id = 1; id < 100; id += 10) {
        EXPECT(vf_sender_offer(&sender, id, 2, 5) == VF_OK);
        EXPECT(vf_sender_is_source(&sender, 5, &is_so) == VF_OK && is_so);
        EXPECT(vf_sender_on_fetch(&sender, 2, id + 1, id, 0x8114, 8, &action) == VF_OK);
        EXPECT(vf_sender_part(&action, 8, &part) == VF_OK);
        EXPECT(vf_sender_sent(&sender, &action, 8, id + 2) == VF_OK);
        EXPECT(vf_sender_sent(&sender, &action, 8, id + 2) == VF_NOT_OPEN);
        EXPECT(vf_sender_on_bounce(&sender, id + 2, &is_so) == VF_OK && is_so);
        EXPECT(vf_sender_offer(&sender, id + 3, 2, 5) == VF_OK);
        EXPECT(vf_sender_on_ack(&sender, 2, id + 4, id + 3, &action) == VF_OK);
        EXPECT(vf_sender_saved(&sender, &action, id + 5) == VF_OK);
        EXPECT(vf_sender_on_load_ack(&sender, 2, id + 5, &action) == VF_OK);
        EXPECT(vf_sender_loaded(&sender, &action, 8) == VF_OK);
        EXPECT(vf_sender_failed(&sender, &action) == VF_NOT_OPEN);
        EXPECT(vf_sender_cancel(&sender, 0) == VF_NOT_OPEN);
    }
}

/* The same on a receiver. */
static void receivers_take_none(void)
{
    struct vf_receiver receiver;
    struct vf_take_action action;
    struct vf_fetch fetch;
    bool is_so;
    EXPECT(vf_receiver_start(&receiver) == VF_OK);
    for (uint32_t id = 1; id < 100; id += 10) {
        EXPECT(vf_receiver_on_save(&receiver, false, 1, id, &action) == VF_OK);
        EXPECT(vf_receiver_first_fetch(&action, 0x8114, 8, &fetch) == VF_OK);
        EXPECT(vf_receiver_fetching(&receiver, &action, 7, 0x8114, id + 1) == VF_OK);
        EXPECT(vf_receiver_is_document(&receiver, 7, &is_so) == VF_OK && is_so);
        EXPECT(vf_receiver_is_buffer(&receiver, 0x8114, &is_so) == VF_OK && is_so);
        EXPECT(vf_receiver_on_transmit(&receiver, 8, 1, id + 2, id + 1, 0x8114, 8, &action) == VF_OK);
        EXPECT(vf_receiver_finished(&receiver, &action) == VF_NOT_OPEN);
        EXPECT(vf_receiver_fetched(&receiver, &action, id + 3) == VF_OK);
        EXPECT(vf_receiver_on_transmit(&receiver, 8, 1, id + 4, id + 3, 0x8114, 0, &action) == VF_OK);
        EXPECT(vf_receiver_finished(&receiver, &action) == VF_OK);
        EXPECT(vf_receiver_on_save(&receiver, false, 1, id + 5, &action) == VF_OK);
        EXPECT(vf_receiver_fetching(&receiver, &action, 7, 0x8114, id + 6) == VF_OK);
        EXPECT(vf_receiver_on_bounce(&receiver, id + 6, &action) == VF_OK);
        EXPECT(vf_receiver_asking(&receiver, &action, id + 7) == VF_OK);
        EXPECT(vf_receiver_on_load(&receiver, 1, id + 8, id + 7, &action) == VF_OK);
        EXPECT(vf_receiver_loaded(&receiver, &action, 8) == VF_OK);
        EXPECT(vf_receiver_failed(&receiver, &action, 0) == VF_NOT_OPEN);
        EXPECT(vf_receiver_on_ack_bounce(&receiver, id + 7, &is_so) == VF_OK && !is_so);
        EXPECT(vf_receiver_cancel(&receiver, 0) == VF_NOT_OPEN);
    }
}

static void messages_take_none(void)
{
    struct vf_message_words words = {.action = 1, .name_length = 3, .name = "doc"};
    struct vf_message message;
    uint32_t length;
    EXPECT(vf_message_encode(&words, &message, &length) == VF_OK);
    EXPECT(vf_message_decode(message.bytes, length, &words) == VF_OK);
    EXPECT(vf_message_decode(message.bytes, length - 1, &words) == VF_BAD_LENGTH);
    words.action = 5;
    EXPECT(vf_message_encode(&words, &message, &length) == VF_BAD_MESSAGE);
}

/* The counters count. */
static void what_is_taken_is_counted(void)
{
    void *volatile some = malloc(1);
    EXPECT(taken == 1);
    some = realloc(some, 2);
    EXPECT(taken == 2);
    free(some);
    some = calloc(1, 1);
    EXPECT(taken == 3);
    free(some);
    some = aligned_alloc(8, 8);
    EXPECT(taken == 4);
    free(some);
}

int main(void)
{
    heaps_take_none(&TRUSTING);
    heaps_take_none(&CHECKED);
    mapped_heaps_take_none();
    slots_take_none(&TRUSTING_FLEX);
    slots_take_none(&CHECKED_FLEX);
    wide_slots_take_none();
    senders_take_none();
    receivers_take_none();
    messages_take_none();
    EXPECT(vf_version() == VF_VERSION_NUMBER);
    EXPECT(taken == 0);
    taken = 0;
    what_is_taken_is_counted();
    return ended("takes_no_memory");
}
