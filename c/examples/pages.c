/*
 * pages.c: a small editor on RISC_OSLib's flex (c/acorn/flex.h), as a program for RISC OS has it. The document has a
 * flex block for each of its pages, and there is one for the clipboard. Each text is found by its anchor alone: nothing
 * has to be fetched anew where blocks slide, since flex has rewritten the anchors by then.
 */
#include "flex.h"

#include <stdio.h>
#include <string.h>

enum { PAGES = 3 };

static void *pages[PAGES], *clipboard;

/* Types into a page at an offset. */
static int insert(int page, int at, const char *typed)
{
    int n = (int)strlen(typed);
    if (!flex_midextend(&pages[page], at, n))
        return 0;
    memcpy((char *)pages[page] + at, typed, (size_t)n);
    return 1;
}

/* Moves `n` bytes of a page from an offset on to the clipboard, in place of what it held. */
static int cut(int page, int at, int n)
{
    if (at < 0 || n < 0 || at > flex_size(&pages[page]) || n > flex_size(&pages[page]) - at)
        return 0;
    if (!flex_extend(&clipboard, n))
        return 0;
    memcpy(clipboard, (char *)pages[page] + at, (size_t)n);
    return flex_midextend(&pages[page], at + n, -n);
}

static int paste(int page, int at)
{
    int n = flex_size(&clipboard);
    if (!flex_midextend(&pages[page], at, n))
        return 0;
    memcpy((char *)pages[page] + at, clipboard, (size_t)n);
    return 1;
}

/* Shows the texts, and how far each block is above the first page's. */
static void show(const char *what, int done)
{
    printf("%-9s %s", what, done ? "done   " : "refused");
    for (int page = 0; page < PAGES; page++)
        if (pages[page])
            printf(" %ld '%.*s'", (long)((char *)pages[page] - (char *)pages[0]), flex_size(&pages[page]),
                   (char *)pages[page]);
    printf(" | '%.*s'\n", flex_size(&clipboard), (char *)clipboard);
}

int main(void)
{
    void *kept;
    char *first;
    flex_init();
    for (int page = 0; page < PAGES; page++)
        if (!flex_alloc(&pages[page], 0))
            return 1;
    if (!flex_alloc(&clipboard, 0))
        return 1;
    show("new", 1);
    show("insert", insert(0, 0, "Dear Anna,"));
    show("insert", insert(1, 0, "the anchor holds."));
    show("insert", insert(0, 5, "old friend "));
    show("cut", cut(0, 5, 11));
    show("paste", paste(1, 17));
    show("cut", cut(1, 20, 9));

    /* The bytes below the blocks must become more: with budging off none may move, and then all slide up by a page. */
    first = (char *)pages[0];
    flex_set_budge(0);
    show("no budge", flex_budge(5000, &kept));
    flex_set_budge(1);
    show("budge", flex_budge(5000, &kept));
    printf("%ld bytes further up\n", (long)((char *)pages[0] - first));
    flex_free(&pages[1]);
    show("free", !pages[1]);
    return 0;
}
