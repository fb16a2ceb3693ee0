/*
 * raw_polls.c: what a poll of a plain desk does with each message, as the tables of docs/DESK.md have it.
 */
#include "raw_parts.h"

#include <string.h>

static bool is_offered(struct raw_desk *d, struct raw_task *t, const struct raw_message *m)
{
    uint32_t going = 0, anchor = 0;
    for (uint32_t i = 0; i < t->ins; i++)
        going += raw_is_going(&t->in[i]);
    while (anchor < ANCHORS && raw_anchored(t, anchor))
        anchor++;
    if (t->manner == 'd' || going == RAW_RECORDS || anchor == ANCHORS || raw_unsent(d, m->from))
        return false;
    uint32_t buffer = raw_claim(t, t->room);
    raw_new_flex(t, anchor, 0);
    uint32_t ref = raw_send(d, t, RECORDED, m->from, m->me, raw_two_words(RAM_FETCH, buffer, t->room));
    *raw_new_record(t->in, &t->ins) = (struct raw_record){RAW_FETCHING, m->me, m->from, anchor, 0, ref, buffer,
                                                      raw_desk_task(d, m->from)->manner == 'r'};
    raw_say(d, "fetch %u\n", (unsigned)ref);
    return true;
}

static bool is_asked(struct raw_desk *d, struct raw_task *t, const struct raw_message *m)
{
    for (uint32_t i = 0; i < t->outs; i++) {
        struct raw_record *r = &t->out[i];
        if (r->state != RAW_OPEN || r->other != m->from || m->yours != r->id || r->id != r->last)
            continue;
        struct raw_block *b = raw_anchored(t, r->anchor);
        uint32_t holds = raw_if_so(d->has_file, BUSY) | raw_unsent(d, m->from);
        if (holds) {
            r->state = RAW_FAILED;
            raw_fails(d, holds);
        } else {
            r->last = raw_send(d, t, RECORDED, m->from, m->me, raw_of_file(DATA_LOAD, b->size, SCRAP));
            raw_make_file(d, r->last, b);
            raw_say(d, "saved %u %u\n", (unsigned)b->size, (unsigned)r->last);
        }
        return true;
    }
    return false;
}

static bool is_loaded(struct raw_desk *d, struct raw_task *t, const struct raw_message *m)
{
    for (uint32_t i = 0; i < t->ins; i++) {
        struct raw_record *r = &t->in[i];
        if (r->state != RAW_ASKING || r->other != m->from || m->yours != r->last)
            continue;
        if (!d->has_file || d->file_of != m->me)
            return false;
        struct raw_block *b = raw_anchored(t, r->anchor);
        memcpy(b->bytes + b->size, d->file, d->file_size);
        b->size += d->file_size;
        r->count = d->file_size;
        d->has_file = false;
        uint32_t holds = raw_unsent(d, m->from);
        raw_say(d, "loaded %u ", (unsigned)r->count);
        r->state = holds ? RAW_FAILED : RAW_DONE;
        if (holds) {
            raw_fails(d, holds);
        } else {
            raw_send(d, t, USER, m->from, m->me, raw_of_file(DATA_LOAD_ACK, r->count, SCRAP));
            raw_say(d, "done\n");
        }
        return true;
    }
    return false;
}

static bool is_finished(struct raw_desk *d, struct raw_task *t, const struct raw_message *m)
{
    for (uint32_t i = 0; i < t->outs; i++) {
        struct raw_record *r = &t->out[i];
        if (r->state == RAW_OPEN && r->other == m->from && m->yours == r->last) {
            r->state = RAW_DONE;
            r->count = raw_anchored(t, r->anchor)->size;
            raw_say(d, "done\n");
            return true;
        }
    }
    return false;
}

static bool is_fetched(struct raw_desk *d, struct raw_task *t, const struct raw_message *m)
{
    uint32_t at = raw_word(m->data), n = raw_word(m->data + 4), index = 0;
    for (uint32_t i = 0; i < t->outs; i++) {
        struct raw_record *r = &t->out[i];
        if (t->manner == 'f' || r->state != RAW_OPEN || r->other != m->from || m->yours != r->last || !n)
            continue;
        struct raw_task *x = raw_desk_task(d, m->from);
        struct raw_block *b = raw_anchored(t, r->anchor);
        uint32_t k = n < b->size - r->count ? n : b->size - r->count;
        while (t->flex[index].key != r->anchor)
            index++;
        uint32_t own = raw_desk_flex_address(t, index) + r->count;
        bool lies = x && raw_held_at(x, at, n) && !(x == t && raw_share(at, n, own, k));
        uint32_t holds = raw_if_so(x && !lies, BAD_RANGE) | raw_unsent(d, m->from);
        if (holds) {
            r->state = RAW_FAILED;
            raw_fails(d, holds & 1u << NO_TASK ? 1u << NO_TASK : holds);
            return true;
        }
        uint8_t part[RAW_BYTES];
        memcpy(part, b->bytes + r->count, k);
        uint32_t ref = raw_send(d, t, k < n ? USER : RECORDED, m->from, m->me, raw_two_words(RAM_TRANSMIT, at, k));
        memcpy(raw_held_at(x, at, n), part, k);
        r->count += k;
        r->last = ref;
        r->state = k < n ? RAW_DONE : RAW_OPEN;
        raw_say(d, "sent %u %u\n", (unsigned)k, (unsigned)ref);
        return true;
    }
    return false;
}

static bool is_taken(struct raw_desk *d, struct raw_task *t, const struct raw_message *m)
{
    uint32_t at = raw_word(m->data), n = raw_word(m->data + 4);
    for (uint32_t i = 0; i < t->ins; i++) {
        struct raw_record *r = &t->in[i];
        bool is_open = r->state == RAW_FETCHING || r->state == RAW_DRAINING;
        if (!is_open || r->other != m->from || r->last != m->yours || r->buffer != at || n > t->room)
            continue;
        if (r->state == RAW_DRAINING) {
            raw_lose(t, r);
            raw_say(d, "drained\n");
            return true;
        }
        struct raw_block *b = raw_anchored(t, r->anchor);
        memcpy(b->bytes + b->size, raw_held_at(t, at, n), n);
        b->size += n;
        r->count += n;
        uint32_t holds = raw_unsent(d, m->from);
        raw_say(d, "took %u ", (unsigned)n);
        if (n < t->room) {
            raw_release(t, at);
            r->state = RAW_DONE;
            raw_say(d, "done\n");
        } else if (holds) {
            raw_lose(t, r);
            raw_fails(d, holds);
        } else {
            r->last = raw_send(d, t, RECORDED, m->from, m->me, raw_two_words(RAM_FETCH, at, t->room));
            raw_say(d, "fetch %u\n", (unsigned)r->last);
        }
        return true;
    }
    return false;
}

bool raw_is_known(struct raw_desk *d, struct raw_task *t, const struct raw_message *m)
{
    switch (raw_kind_of(m)) {
    case DATA_SAVE: return is_offered(d, t, m);
    case DATA_SAVE_ACK: return is_asked(d, t, m);
    case DATA_LOAD: return is_loaded(d, t, m);
    case DATA_LOAD_ACK: return is_finished(d, t, m);
    case RAM_FETCH: return is_fetched(d, t, m);
    case RAM_TRANSMIT: return is_taken(d, t, m);
    default: return false;
    }
}

/* A fetch that came back: the first of a transfer asks for a file. */
static void fetch_back(struct raw_desk *d, struct raw_task *t, struct raw_record *r)
{
    uint32_t holds = raw_unsent(d, r->other);
    bool drains = r->state == RAW_DRAINING;
    if (drains || r->count || holds) {
        raw_lose(t, r);
        if (drains || r->count)
            raw_say(d, drains ? "drained\n" : "failed\n");
        else
            raw_fails(d, holds);
        return;
    }
    raw_release(t, r->buffer);
    r->last = raw_send(d, t, RECORDED, r->other, r->id, raw_of_file(DATA_SAVE_ACK, UINT32_MAX, SCRAP));
    r->state = RAW_ASKING;
    raw_say(d, "asked %u\n", (unsigned)r->last);
}

bool raw_is_back(struct raw_desk *d, struct raw_task *t, const struct raw_message *m)
{
    uint32_t kind = raw_kind_of(m);
    for (uint32_t i = 0; i < t->outs; i++) {
        struct raw_record *r = &t->out[i];
        if ((kind == DATA_SAVE || kind == DATA_LOAD || kind == RAM_TRANSMIT) && r->state == RAW_OPEN && r->last == m->me) {
            r->state = RAW_FAILED;
            raw_say(d, "failed\n");
            return true;
        }
    }
    for (uint32_t i = 0; i < t->ins; i++) {
        struct raw_record *r = &t->in[i];
        if (kind == DATA_SAVE_ACK && r->state == RAW_ASKING && r->last == m->me) {
            r->state = RAW_FAILED;
            raw_say(d, "failed\n");
            return true;
        }
        if (kind == RAM_FETCH && (r->state == RAW_FETCHING || r->state == RAW_DRAINING) && r->last == m->me) {
            fetch_back(d, t, r);
            return true;
        }
    }
    return false;
}
