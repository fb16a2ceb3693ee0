/*
 * letter.c: the document of a small editor. Its text is a flex block, which opens where something is typed and closes
 * where something is cut. A second block above it is the clipboard. A list of marks lies in the C heap below both.
 */
#include "vervainfile.h"

#include <stdio.h>
#include <string.h>

enum { LEN = 16 * 4096 };
enum { TEXT, CLIPBOARD }; /* the anchors: what flex_ptr variables were */

static uint8_t memory[LEN];
static struct vf_slot slot;

static size_t size_of(uint32_t anchor)
{
    size_t size;
    return vf_flex_size(memory, LEN, &slot, anchor, &size) == VF_OK ? size : 0;
}

/* Opens the text at an offset and writes there. */
static uint32_t insert(size_t offset, const char *typed)
{
    size_t n = strlen(typed);
    uint32_t status = vf_flex_midextend(memory, LEN, &slot, TEXT, offset, (ptrdiff_t)n);
    return status ? status : vf_flex_put(memory, LEN, &slot, TEXT, offset, (const uint8_t *)typed, n);
}

/* Moves `n` bytes of the text from an offset on to the clipboard, in place of what it held. */
static uint32_t cut(size_t offset, size_t n)
{
    size_t from, to;
    if (offset > size_of(TEXT) || n > size_of(TEXT) - offset)
        return VF_BAD_RANGE;
    uint32_t status = vf_flex_extend(memory, LEN, &slot, CLIPBOARD, n);
    if (status)
        return status;
    /* The clipboard may have moved, so both places are asked for now. No call comes before the copy. */
    if (vf_flex_place(memory, LEN, &slot, TEXT, &from) || vf_flex_place(memory, LEN, &slot, CLIPBOARD, &to))
        return VF_NO_BLOCK;
    memcpy(memory + to, memory + from + offset, n);
    return vf_flex_midextend(memory, LEN, &slot, TEXT, offset + n, -(ptrdiff_t)n);
}

/* Puts the clipboard's bytes into the text. */
static uint32_t paste(size_t offset)
{
    uint8_t bytes[64];
    size_t n = size_of(CLIPBOARD);
    if (n > sizeof bytes)
        return VF_BAD_RANGE;
    uint32_t status = vf_flex_read(memory, LEN, &slot, CLIPBOARD, 0, bytes, n);
    if (!status)
        status = vf_flex_midextend(memory, LEN, &slot, TEXT, offset, (ptrdiff_t)n);
    return status ? status : vf_flex_put(memory, LEN, &slot, TEXT, offset, bytes, n);
}

static void show(const char *what, uint32_t status)
{
    size_t text = 0, clipboard = 0;
    vf_flex_place(memory, LEN, &slot, TEXT, &text);
    vf_flex_place(memory, LEN, &slot, CLIPBOARD, &clipboard);
    printf("%-8s %2u  at %5zu '%.*s', at %5zu '%.*s'\n", what, (unsigned)status, text, (int)size_of(TEXT),
           (const char *)memory + text, clipboard, (int)size_of(CLIPBOARD), (const char *)memory + clipboard);
}

int main(void)
{
    size_t place, marks;
    if (vf_flex_start(memory, LEN, &slot) || vf_flex_alloc(memory, LEN, &slot, TEXT, 0, &place) ||
        vf_flex_alloc(memory, LEN, &slot, CLIPBOARD, 0, &place))
        return 1;
    show("open", VF_OK);
    show("insert", insert(0, "Dear Anna,"));
    show("insert", insert(5, "old friend "));
    show("cut", cut(5, 11));
    show("paste", paste(10));
    show("cut", cut(20, 9));

    /* 5,000 bytes are more than the C heap has: it grows by a page, and both blocks slide up. */
    if (vf_flex_claim(memory, LEN, &slot, 5000, &marks))
        return 1;
    printf("marks at %zu\n", marks);
    show("slide", VF_OK);
    show("insert", insert(21, "!"));
    printf("%zu pages\n", slot.pages);
    return 0;
}
