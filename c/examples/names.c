/*
 * names.c: a list of names in a heap of 4,096 bytes. The links between them are addresses of the heap, and not
 * pointers: the bytes may be copied to another place, or written to a file, and are the same list there.
 */
#include "vervainfile.h"

#include <stdio.h>
#include <string.h>

enum { LEN = 4096 };

struct name {
    size_t next; /* the address of the next name, 0 for none */
    char text[24];
};

/* The block at an address. Blocks are aligned where the heap is put so. */
static struct name *name_at(uint8_t *heap, size_t address)
{
    return (struct name *)(void *)(heap + address);
}

/* Puts a name before the others; answers the address of the first name then, 0 where there is no room. */
static size_t put(uint8_t *heap, size_t first, const char *text)
{
    size_t address;
    if (vf_heap_claim(heap, LEN, sizeof(struct name), &address) != VF_OK)
        return 0;
    name_at(heap, address)->next = first;
    strncpy(name_at(heap, address)->text, text, sizeof name_at(heap, address)->text - 1);
    return address;
}

static void print(uint8_t *heap, size_t first)
{
    for (size_t at = first; at; at = name_at(heap, at)->next)
        printf("%4zu %s\n", at, name_at(heap, at)->text);
}

int main(void)
{
    /* An address is 4 more than a multiple of 8. So with the heap 4 bytes behind such a multiple blocks are aligned. */
    static uint64_t room[1 + LEN / 8], copy[1 + LEN / 8];
    uint8_t *heap = (uint8_t *)room + 4, *other = (uint8_t *)copy + 4;
    size_t most, free, first = 0;

    if (vf_heap_init(heap, LEN) != VF_OK)
        return 1;
    first = put(heap, first, "Anchor");
    first = put(heap, first, "Block");
    first = put(heap, first, "Claim");
    print(heap, first);
    if (vf_heap_describe(heap, LEN, &most, &free) == VF_OK)
        printf("%zu bytes free, %zu for one block\n", free, most);

    memcpy(other, heap, LEN);
    if (vf_heap_check(other, LEN) == VF_OK)
        print(other, first);
    return 0;
}
