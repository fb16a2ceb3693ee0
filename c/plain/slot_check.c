/* slot_check.c: see slot_check.h. */
#include "slot_check.h"
#include "os_heap.h"

enum { PAGE = 4096, ANCHORS = 64, WORD = 4, HEADER = 8, HEAP = 256, HEAP_END = HEAP + 12, START = 0x8000 };
enum { LONGEST = 28 << 20 };

static uint32_t word(const uint8_t *memory, size_t at)
{
    return memory[at] | (uint32_t)memory[at + 1] << 8 | (uint32_t)memory[at + 2] << 16 |
           (uint32_t)memory[at + 3] << 24;
}

/* Whether a flex block begins at a place: its header names an anchor word that holds its address. */
static bool begins(const uint8_t *memory, size_t end, size_t at)
{
    uint32_t anchor = at < end ? word(memory, at) : 0;
    return anchor >= START && anchor < START + HEAP && anchor % WORD == 0 &&
           word(memory, anchor - START) == START + at + HEADER;
}

/* What is wrong with the flex blocks, the anchor words or the last page, where the C heap is one. */
static uint32_t check_blocks(const uint8_t *memory, size_t end)
{
    bool has_block[ANCHORS] = {false};
    size_t at = HEAP + word(memory, HEAP_END);
    while (begins(memory, end, at)) {
        if (end - at < HEADER)
            return VF_BAD_FLEX_BLOCK;
        size_t step = HEADER + ((size_t)word(memory, at + WORD) + WORD - 1) / WORD * WORD;
        if (end - at < step)
            return VF_BAD_FLEX_BLOCK;
        has_block[(word(memory, at) - START) / WORD] = true;
        at += step;
    }
    for (size_t anchor = 0; anchor < ANCHORS; anchor++)
        if (word(memory, WORD * anchor) && !has_block[anchor])
            return VF_BAD_ANCHOR_WORD;
    return end - at < PAGE ? VF_OK : VF_SPARE_PAGE;
}

uint32_t slot_check(const uint8_t *memory, size_t len, const struct vf_slot *slot)
{
    if (len < PAGE || len > LONGEST)
        return VF_BAD_LENGTH;
    if (slot->pages == 0)
        return VF_NO_SLOT;
    if (slot->pages > len / PAGE)
        return VF_SHORT;
    size_t end = PAGE * slot->pages;
    uint32_t status = os_heap_check(memory + HEAP, end - HEAP);
    if (status == VF_SHORT)
        return VF_BAD_DESCRIPTOR;
    return status == VF_OK ? check_blocks(memory, end) : status;
}
