/*
 * said.c: what the header itself says: its version, a text for each status, and names as text. It is C89 and C++ too,
 * so that all of them are tried with it (tools/cports.py).
 */
#include "vervainfile.h"

#include <stdio.h>
#include <string.h>

static int failures;

static void expect(int holds, const char *what)
{
    if (!holds) {
        failures++;
        fprintf(stderr, "not so: %s\n", what);
    }
}

#define EXPECT(holds) expect((holds), #holds)
#define IS_SAID(status, text) EXPECT(strcmp(vf_status_text(status), text) == 0)

/* Each number has a text of its own, or none where it is no status. */
static void statuses_have_texts(void)
{
    uint32_t status, other, texts = 0;
    for (status = 0; status < 64; status++) {
        int is_status = status <= VF_BAD_REF || (status >= VF_NULL && status <= VF_BAD_MESSAGE);
        EXPECT(is_status == (strcmp(vf_status_text(status), "no status has this number") != 0));
        texts += is_status ? 1 : 0;
        for (other = 0; is_status && other < status; other++)
            EXPECT(strcmp(vf_status_text(status), vf_status_text(other)) != 0);
    }
    EXPECT(texts == 46);
    IS_SAID(VF_OK, "all was done");
    IS_SAID(VF_NAME_IN_USE, "a live task has the name");
    IS_SAID(VF_BAD_RANGE, "bytes lie outside the block");
    IS_SAID(VF_NULL, "a pointer is null");
    IS_SAID(VF_FILE_EXISTS, "a file with the name was added before");
    IS_SAID(VF_BAD_MESSAGE, "the action of the message is none of a file or a RAM transfer");
    IS_SAID(VF_BAD_REF, "no message has the ref yet");
    IS_SAID(27, "no status has this number");
    IS_SAID(UINT32_MAX, "no status has this number");
}

static void versions_agree(void)
{
    unsigned first = 0, second = 0, third = 0;
    EXPECT(sscanf(VF_VERSION, "%u.%u.%u", &first, &second, &third) == 3);
    EXPECT(VF_VERSION_NUMBER == 10000 * first + 100 * second + third);
    EXPECT(vf_version() == VF_VERSION_NUMBER);
#if VF_VERSION_NUMBER < 10000
    EXPECT(0);
#endif
}

static void a_call_of_each_kind_is_made(void)
{
    static uint8_t memory[8192];
    struct vf_slot slot;
    struct vf_desk desk = VF_DESK_CLOSED;
    size_t place = 0;
    uint32_t handle = 0;
    EXPECT(vf_heap_init(memory, sizeof memory) == VF_OK && vf_heap_claim(memory, sizeof memory, 9, &place) == VF_OK);
    EXPECT(place == 20 && vf_heap_init(0, sizeof memory) == VF_NULL);
    EXPECT(vf_flex_start(memory, sizeof memory, &slot) == VF_OK);
    EXPECT(vf_flex_alloc(memory, sizeof memory, &slot, 0, 9, &place) == VF_OK && place == 4104);
    EXPECT(vf_desk_open(&desk, 8, 1, 1) == VF_OK);
    EXPECT(vf_desk_task(&desk, VF_TEXT("Edit"), 16, VF_TASK_PLAIN, &handle) == VF_OK && handle == 1);
    EXPECT(vf_desk_task(&desk, VF_TEXT("Edit"), 16, VF_TASK_PLAIN, &handle) == VF_NAME_IN_USE);
    EXPECT(vf_desk_close(&desk) == VF_OK);
}

int main(void)
{
    statuses_have_texts();
    versions_agree();
    a_call_of_each_kind_is_made();
    printf("said: %s\n", failures ? "FAILED" : "passed");
    return failures != 0;
}
