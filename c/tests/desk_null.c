/*
 * desk_null.c: each call on a desk with each of its pointers null answers VF_NULL, whatever the length, and changes
 * nothing.
 */
#include "expect.h"


static struct vf_desk desk = VF_DESK_CLOSED;
static uint8_t bytes[4] = {UNSET, UNSET, UNSET, UNSET};
static const uint8_t name[] = "a";
static uint32_t number = UNSET;
static size_t count = UNSET;
static bool was = true;
static struct vf_event event;
static struct vf_message message;
static struct vf_block block;
static struct vf_segment segment;
static struct vf_heap_sums sums;
static struct vf_record record;
static struct vf_area area;

#define IS_NULL(call) EXPECT((call) == VF_NULL)

static void calls_see_null(struct vf_desk *it, size_t n)
{
    IS_NULL(vf_desk_file(NULL, name, n, name, n));
    IS_NULL(vf_desk_file(it, NULL, n, name, n));
    IS_NULL(vf_desk_file(it, name, n, NULL, n));
    IS_NULL(vf_desk_file_lent(NULL, name, n, name, n));
    IS_NULL(vf_desk_file_lent(it, NULL, n, name, n));
    IS_NULL(vf_desk_file_lent(it, name, n, NULL, n));
    IS_NULL(vf_desk_open(NULL, 1, 1, 1));
    IS_NULL(vf_desk_close(NULL));
    IS_NULL(vf_desk_task(NULL, name, n, 1, 1, &number));
    IS_NULL(vf_desk_task(it, NULL, n, 1, 1, &number));
    IS_NULL(vf_desk_task(it, name, n, 1, 1, NULL));
    IS_NULL(vf_desk_kill(NULL, name, n));
    IS_NULL(vf_desk_kill(it, NULL, n));
    IS_NULL(vf_desk_save(NULL, name, n, 1, name, n, name, n, &number));
    IS_NULL(vf_desk_save(it, NULL, n, 1, name, n, name, n, &number));
    IS_NULL(vf_desk_save(it, name, n, 1, NULL, n, name, n, &number));
    IS_NULL(vf_desk_save(it, name, n, 1, name, n, NULL, n, &number));
    IS_NULL(vf_desk_save(it, name, n, 1, name, n, name, n, NULL));
    IS_NULL(vf_desk_poll(NULL, name, n, &event));
    IS_NULL(vf_desk_poll(it, NULL, n, &event));
    IS_NULL(vf_desk_poll(it, name, n, NULL));
    IS_NULL(vf_desk_next(NULL, name, n, &message, &number));
    IS_NULL(vf_desk_next(it, NULL, n, &message, &number));
    IS_NULL(vf_desk_next(it, name, n, NULL, &number));
    IS_NULL(vf_desk_next(it, name, n, &message, NULL));
    IS_NULL(vf_desk_cancel_in(NULL, name, n, 1));
    IS_NULL(vf_desk_cancel_in(it, NULL, n, 1));
    IS_NULL(vf_desk_cancel_out(NULL, name, n, 1));
    IS_NULL(vf_desk_cancel_out(it, NULL, n, 1));
    IS_NULL(vf_desk_repeat(NULL, name, n, &number));
    IS_NULL(vf_desk_repeat(it, NULL, n, &number));
    IS_NULL(vf_desk_repeat(it, name, n, NULL));
    IS_NULL(vf_desk_alloc(NULL, name, n, 1, 1, &number));
    IS_NULL(vf_desk_alloc(it, NULL, n, 1, 1, &number));
    IS_NULL(vf_desk_alloc(it, name, n, 1, 1, NULL));
    IS_NULL(vf_desk_load(NULL, name, n, 1, name, n, &number));
    IS_NULL(vf_desk_load(it, NULL, n, 1, name, n, &number));
    IS_NULL(vf_desk_load(it, name, n, 1, NULL, n, &number));
    IS_NULL(vf_desk_load(it, name, n, 1, name, n, NULL));
    IS_NULL(vf_desk_put(NULL, name, n, 1, 1, name, n));
    IS_NULL(vf_desk_put(it, NULL, n, 1, 1, name, n));
    IS_NULL(vf_desk_put(it, name, n, 1, 1, NULL, n));
    IS_NULL(vf_desk_free(NULL, name, n, 1));
    IS_NULL(vf_desk_free(it, NULL, n, 1));
    IS_NULL(vf_desk_extend(NULL, name, n, 1, 1));
    IS_NULL(vf_desk_extend(it, NULL, n, 1, 1));
    IS_NULL(vf_desk_mid(NULL, name, n, 1, 1, 1));
    IS_NULL(vf_desk_mid(it, NULL, n, 1, 1, 1));
    IS_NULL(vf_desk_claim(NULL, name, n, 1, &number));
    IS_NULL(vf_desk_claim(it, NULL, n, 1, &number));
    IS_NULL(vf_desk_claim(it, name, n, 1, NULL));
    IS_NULL(vf_desk_release(NULL, name, n, 1));
    IS_NULL(vf_desk_release(it, NULL, n, 1));
    IS_NULL(vf_desk_resize(NULL, name, n, 1, 1, &number));
    IS_NULL(vf_desk_resize(it, NULL, n, 1, 1, &number));
    IS_NULL(vf_desk_resize(it, name, n, 1, 1, NULL));
    IS_NULL(vf_desk_budge(NULL, name, n, true, &was));
    IS_NULL(vf_desk_budge(it, NULL, n, true, &was));
    IS_NULL(vf_desk_budge(it, name, n, true, NULL));
    IS_NULL(vf_desk_area(NULL, 1, 1, &number));
    IS_NULL(vf_desk_area(it, 1, 1, NULL));
    IS_NULL(vf_desk_make(NULL, 1, &number));
    IS_NULL(vf_desk_make(it, 1, NULL));
    IS_NULL(vf_desk_remove(NULL, 1));
    IS_NULL(vf_desk_rma_claim(NULL, 1, &number));
    IS_NULL(vf_desk_rma_claim(it, 1, NULL));
    IS_NULL(vf_desk_rma_free(NULL, 1));
    IS_NULL(vf_desk_rma_resize(NULL, 1, 1, &number));
    IS_NULL(vf_desk_rma_resize(it, 1, 1, NULL));
    IS_NULL(vf_desk_show(NULL, name, n, 1, bytes, n, &number));
    IS_NULL(vf_desk_show(it, NULL, n, 1, bytes, n, &number));
    IS_NULL(vf_desk_show(it, name, n, 1, NULL, n, &number));
    IS_NULL(vf_desk_show(it, name, n, 1, bytes, n, NULL));
    IS_NULL(vf_desk_blocks(NULL, name, n, &block, n, &count));
    IS_NULL(vf_desk_blocks(it, NULL, n, &block, n, &count));
    IS_NULL(vf_desk_blocks(it, name, n, NULL, n, &count));
    IS_NULL(vf_desk_blocks(it, name, n, &block, n, NULL));
    IS_NULL(vf_desk_heap(NULL, name, n, &sums, &segment, n, &count));
    IS_NULL(vf_desk_heap(it, NULL, n, &sums, &segment, n, &count));
    IS_NULL(vf_desk_heap(it, name, n, NULL, &segment, n, &count));
    IS_NULL(vf_desk_heap(it, name, n, &sums, NULL, n, &count));
    IS_NULL(vf_desk_heap(it, name, n, &sums, &segment, n, NULL));
    IS_NULL(vf_desk_status(NULL, name, n, &number, &record, n, &count, &record, n, &count));
    IS_NULL(vf_desk_status(it, NULL, n, &number, &record, n, &count, &record, n, &count));
    IS_NULL(vf_desk_status(it, name, n, NULL, &record, n, &count, &record, n, &count));
    IS_NULL(vf_desk_status(it, name, n, &number, NULL, n, &count, &record, n, &count));
    IS_NULL(vf_desk_status(it, name, n, &number, &record, n, NULL, &record, n, &count));
    IS_NULL(vf_desk_status(it, name, n, &number, &record, n, &count, NULL, n, &count));
    IS_NULL(vf_desk_status(it, name, n, &number, &record, n, &count, &record, n, NULL));
    IS_NULL(vf_desk_areas(NULL, &number, &area, n, &count));
    IS_NULL(vf_desk_areas(it, NULL, &area, n, &count));
    IS_NULL(vf_desk_areas(it, &number, NULL, n, &count));
    IS_NULL(vf_desk_areas(it, &number, &area, n, NULL));
    IS_NULL(vf_desk_show_at(NULL, name, n, 1, 1, bytes, n, &number));
    IS_NULL(vf_desk_show_at(it, NULL, n, 1, 1, bytes, n, &number));
    IS_NULL(vf_desk_show_at(it, name, n, 1, 1, NULL, n, &number));
    IS_NULL(vf_desk_show_at(it, name, n, 1, 1, bytes, n, NULL));
    IS_NULL(vf_desk_read(NULL, name, n, 1, 1, bytes, n, &number));
    IS_NULL(vf_desk_read(it, NULL, n, 1, 1, bytes, n, &number));
    IS_NULL(vf_desk_read(it, name, n, 1, 1, NULL, n, &number));
    IS_NULL(vf_desk_read(it, name, n, 1, 1, bytes, n, NULL));
    IS_NULL(vf_desk_write(NULL, name, n, 1, 1, name, n));
    IS_NULL(vf_desk_write(it, NULL, n, 1, 1, name, n));
    IS_NULL(vf_desk_write(it, name, n, 1, 1, NULL, n));
    IS_NULL(vf_desk_rma_read(NULL, 1, 1, bytes, n, &number));
    IS_NULL(vf_desk_rma_read(it, 1, 1, NULL, n, &number));
    IS_NULL(vf_desk_rma_read(it, 1, 1, bytes, n, NULL));
    IS_NULL(vf_desk_rma_write(NULL, 1, 1, name, n));
    IS_NULL(vf_desk_rma_write(it, 1, 1, NULL, n));
    IS_NULL(vf_desk_transfer(NULL, 1, 1, 1, 1, 1));
    IS_NULL(vf_desk_take(NULL, name, n, &message, &number));
    IS_NULL(vf_desk_take(it, NULL, n, &message, &number));
    IS_NULL(vf_desk_take(it, name, n, NULL, &number));
    IS_NULL(vf_desk_take(it, name, n, &message, NULL));
    IS_NULL(vf_desk_send(NULL, name, n, 17, 1, 0, 9, bytes, n, &number));
    IS_NULL(vf_desk_send(it, NULL, n, 17, 1, 0, 9, bytes, n, &number));
    IS_NULL(vf_desk_send(it, name, n, 17, 1, 0, 9, NULL, n, &number));
    IS_NULL(vf_desk_send(it, name, n, 17, 1, 0, 9, bytes, n, NULL));
    IS_NULL(vf_desk_ack(NULL, name, n, &number));
    IS_NULL(vf_desk_ack(it, NULL, n, &number));
    IS_NULL(vf_desk_ack(it, name, n, NULL));
    IS_NULL(vf_desk_write_at(NULL, name, n, 1, name, n));
    IS_NULL(vf_desk_write_at(it, NULL, n, 1, name, n));
    IS_NULL(vf_desk_write_at(it, name, n, 1, NULL, n));
    IS_NULL(vf_desk_transfer_to(NULL, name, n, 1, 1, 1, 1));
    IS_NULL(vf_desk_transfer_to(it, NULL, n, 1, 1, 1, 1));
    IS_NULL(vf_desk_spool(NULL, name, n, 1, 1, 0, &number));
    IS_NULL(vf_desk_spool(it, NULL, n, 1, 1, 0, &number));
    IS_NULL(vf_desk_spool(it, name, n, 1, 1, 0, NULL));
    IS_NULL(vf_desk_scrap(NULL, name, n, 1, &number));
    IS_NULL(vf_desk_scrap(it, NULL, n, 1, &number));
    IS_NULL(vf_desk_scrap(it, name, n, 1, NULL));
    IS_NULL(vf_desk_line(NULL, name, n));
    IS_NULL(vf_desk_line(it, NULL, n));
    IS_NULL(vf_desk_reply(NULL, bytes, n, &count));
    IS_NULL(vf_desk_reply(it, NULL, n, &count));
    IS_NULL(vf_desk_reply(it, bytes, n, NULL));
}

int main(void)
{
    static const size_t lengths[] = {0, 1, SIZE_MAX};
    for (size_t i = 0; i < sizeof lengths / sizeof *lengths; i++)
        calls_see_null(&desk, lengths[i]);
    EXPECT(!desk.live && !desk.at);
    EXPECT(vf_desk_open(&desk, 8, 1, 1) == VF_OK);
    EXPECT(vf_desk_task(&desk, VF_TEXT("a"), 1, VF_TASK_PLAIN, &number) == VF_OK);
    number = UNSET;
    for (size_t i = 0; i < sizeof lengths / sizeof *lengths; i++)
        calls_see_null(&desk, lengths[i]);
    EXPECT(number == UNSET && count == UNSET && was && bytes[0] == UNSET);
    EXPECT(!event.code && !block.size && !segment.size && !sums.length && !record.id && !area.pages);
    EXPECT(vf_desk_close(&desk) == VF_OK);
    return ended("desk_null");
}
