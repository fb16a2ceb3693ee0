/*
 * store.c: the documents of a small editor. Each is a flex block of the editor's slot, found by its name in a list of
 * this program's. What is saved goes to a printer, another task of the desk, piece by piece through its buffer, and
 * lies there as a document with the same bytes.
 */
#include "vervainfile.h"

#include <stdio.h>
#include <string.h>

enum { PAGES = 32, DOCUMENTS = 8, LINE = 60, MOST_POLLS = 40 };

#define EDITOR VF_TEXT("Editor")
#define PRINTER VF_TEXT("Printer")

/* The documents: each stands at the anchor that is its place in the list. */
static const char *names[DOCUMENTS];
static struct vf_desk desk = VF_DESK_CLOSED;

static const char *const DEEDS[] = {
    "does nothing", "asks for bytes", "sends bytes", "is refused", "fails", "drains", "takes the last bytes",
    "takes bytes", "takes bytes, and fails", "asks for a file", "writes a file", "loads the file",
    "loads the file, and fails", "is done",
};

static uint32_t anchor_of(const char *name)
{
    uint32_t anchor = 0;
    while (anchor < DOCUMENTS && (!names[anchor] || strcmp(names[anchor], name) != 0))
        anchor++;
    return anchor;
}

static uint32_t size_of(const char *name)
{
    uint8_t none;
    uint32_t size = 0;
    vf_desk_show(&desk, EDITOR, anchor_of(name), &none, 0, &size);
    return size;
}

/* A new document, with nothing in it. */
static uint32_t create(const char *name)
{
    uint32_t anchor = 0, address;
    while (anchor < DOCUMENTS && names[anchor])
        anchor++;
    uint32_t status = vf_desk_alloc(&desk, EDITOR, anchor, 0, &address);
    if (status == VF_OK)
        names[anchor] = name;
    return status;
}

/* Types a text into a document: opens it at an offset, and writes there. */
static uint32_t type(const char *name, uint32_t offset, const char *text)
{
    uint32_t anchor = anchor_of(name), n = (uint32_t)strlen(text);
    uint32_t status = vf_desk_mid(&desk, EDITOR, anchor, offset, (int32_t)n);
    return status ? status : vf_desk_put(&desk, EDITOR, anchor, offset, (const uint8_t *)text, n);
}

/* Cuts `n` bytes out of a document, from an offset on. */
static uint32_t cut(const char *name, uint32_t offset, uint32_t n)
{
    return vf_desk_mid(&desk, EDITOR, anchor_of(name), offset + n, -(int32_t)n);
}

static uint32_t discard(const char *name)
{
    uint32_t anchor = anchor_of(name), status = vf_desk_free(&desk, EDITOR, anchor);
    if (status == VF_OK)
        names[anchor] = NULL;
    return status;
}

/* Offers a document to the printer, and lets both poll until no message is left. */
static uint32_t save(const char *name)
{
    uint32_t id, quiet = 0;
    struct vf_event event;
    uint32_t status = vf_desk_save(&desk, EDITOR, anchor_of(name), PRINTER, VF_TEXT(name), &id);
    for (int i = 0; status == VF_OK && quiet < 2 && i < MOST_POLLS; i++) {
        bool is_printer = i % 2 == 0;
        status = is_printer ? vf_desk_poll(&desk, PRINTER, &event) : vf_desk_poll(&desk, EDITOR, &event);
        quiet = status == VF_OK && event.code == 0 ? quiet + 1 : 0;
        if (status == VF_OK && event.code)
            printf("  %s %s: %u\n", is_printer ? "printer" : "editor", DEEDS[event.did], (unsigned)event.count);
    }
    return status;
}

static void list(void)
{
    for (int i = 0; i < DOCUMENTS; i++)
        if (names[i])
            printf("  %s, %u bytes\n", names[i], (unsigned)size_of(names[i]));
}

/* What the printer has at its first anchor. */
static void print(void)
{
    uint8_t line[LINE];
    uint32_t size;
    if (vf_desk_show(&desk, PRINTER, 0, line, sizeof line, &size) == VF_OK)
        printf("printed: %.*s\n", (int)(size < LINE ? size : (uint32_t)LINE), (const char *)line);
}

static uint32_t told(const char *what, uint32_t status)
{
    printf("%s: %u\n", what, (unsigned)status);
    return status;
}

static uint32_t open_desk(void)
{
    uint32_t handle, status = vf_desk_open(&desk, PAGES, 1, 1);
    if (status == VF_OK)
        status = vf_desk_task(&desk, EDITOR, 256, VF_TASK_PLAIN, &handle);
    return status ? status : vf_desk_task(&desk, PRINTER, 8, VF_TASK_PLAIN, &handle);
}

int main(void)
{
    if (told("open", open_desk()) || told("create", create("letter")) || told("create", create("list")))
        return 1;
    told("type", type("letter", 0, "Dear Anna,"));
    told("type", type("list", 0, "tea, milk"));
    told("type", type("letter", 5, "old friend "));
    told("cut", cut("list", 3, 6));
    list();
    told("save", save("letter"));
    print();
    told("type while nothing is busy", type("letter", 21, " how are you?"));
    told("discard", discard("list"));
    told("cut too much", cut("letter", 30, 9));
    list();
    told("close", vf_desk_close(&desk));
    return 0;
}
