/*
 * Packing and reading with every run between closed pages, for the host tests that call them: what is expected is given by
 * hand. Each case runs three times: every run at the low end of its open pages, at the high end, and with null pointers
 * for empty runs. After each call every byte of every run, and of what surrounds it, is compared with what it should be.
 */
#ifndef RECORD_CALLS_H
#define RECORD_CALLS_H

#include "walk.h"

static struct guard layout_run, slots_run, area_run, data_run, reply_run;
static struct values given, wanted;

/* ---- one call ---- */

struct call {
    const char *name;
    const uint8_t *layout;
    size_t layout_len;
    const uint8_t *slots;
    size_t slots_len;
    const uint8_t *area;
    size_t area_len;
    const uint8_t *record;
    size_t data_len;
    size_t mark;
    size_t reply_len;
};

struct result {
    uint32_t number, first, second;
    const uint8_t *bytes;
};

static MAYBE void lend_all(const struct call *c, enum place place)
{
    guard_lend(&layout_run, c->layout, c->layout_len, place);
    guard_lend(&slots_run, c->slots, c->slots_len, place);
    guard_lend(&area_run, c->area, c->area_len, place);
    guard_lend(&data_run, c->record, c->data_len, place);
    guard_lend(&reply_run, NULL, c->reply_len, place);
    guard_protect(&layout_run, PROT_READ);
}

static MAYBE void expect_reply(const struct result *r)
{
    uint8_t *reply = guard_expected(&reply_run);

    curlew_put_number(reply, r->number);
    curlew_put_number(reply + 4, r->first);
    curlew_put_number(reply + 8, r->second);
}

static MAYBE void check_all(const struct call *c, uint32_t expected, uint32_t returned)
{
    check(returned == expected, c->name, "number returned");
    check(guard_holds(&layout_run), c->name, "layout");
    check(guard_holds(&slots_run), c->name, "slots");
    check(guard_holds(&area_run), c->name, "area");
    check(guard_holds(&data_run), c->name, "record");
    check(guard_holds(&reply_run), c->name, "reply");
}

static MAYBE void run_pack(const struct call *c, const struct result *r)
{
    int place;

    for (place = LOW; place < PLACES; place++) {
        uint32_t number;

        lend_all(c, (enum place)place);
        guard_protect(&slots_run, PROT_READ);
        guard_protect(&area_run, PROT_READ);
        number = curlew_pack(layout_run.at, c->layout_len, slots_run.at, c->slots_len, area_run.at, c->area_len,
                             data_run.at, c->data_len, reply_run.at, c->reply_len);
        if (c->reply_len == CURLEW_PACK_REPLY)
            expect_reply(r);
        if (c->reply_len == CURLEW_PACK_REPLY && r->number == CURLEW_OK && r->first > 0)
            memcpy(guard_expected(&data_run), r->bytes, r->first);
        check_all(c, r->number, number);
    }
}

/* The values that a reading should set are in `wanted`. */
static MAYBE void run_read(const struct call *c, const struct result *r)
{
    int place;

    for (place = LOW; place < PLACES; place++) {
        uint32_t number;

        lend_all(c, (enum place)place);
        guard_protect(&data_run, PROT_READ);
        number = curlew_read(layout_run.at, c->layout_len, data_run.at, c->data_len, slots_run.at, c->slots_len,
                             area_run.at, c->area_len, c->mark, reply_run.at, c->reply_len);
        if (c->reply_len == CURLEW_READ_REPLY) {
            size_t steps = r->number == CURLEW_OK ? walk(c->layout, c->layout_len, c->data_len).steps : 0;

            expect_reply(r);
            curlew_put_number(guard_expected(&reply_run) + 12, (uint32_t)steps);
        }
        if (c->reply_len == CURLEW_READ_REPLY && r->number == CURLEW_OK && r->first > 0) {
            put_positions(&wanted, c->layout, c->layout_len, c->data_len, c->name);
            memcpy(guard_expected(&slots_run), wanted.slots, r->first * CURLEW_SLOT_SIZE);
            memcpy(guard_expected(&area_run) + c->mark, wanted.area + c->mark, r->second - c->mark);
        }
        check_all(c, r->number, number);
    }
}

/* ---- short forms of a call ---- */

static MAYBE struct call pack_call(const char *layout)
{
    struct call c;

    memset(&c, 0, sizeof c);
    c.name = layout;
    c.layout = (const uint8_t *)layout;
    c.layout_len = strlen(layout);
    c.slots = given.slots;
    c.slots_len = given.count * CURLEW_SLOT_SIZE;
    c.area = given.area;
    c.area_len = given.used;
    c.data_len = 100;
    c.reply_len = CURLEW_PACK_REPLY;
    return c;
}

static MAYBE struct call read_call(const char *layout, const void *record, size_t len)
{
    struct call c;

    memset(&c, 0, sizeof c);
    c.name = layout;
    c.layout = (const uint8_t *)layout;
    c.layout_len = strlen(layout);
    c.record = (const uint8_t *)record;
    c.data_len = len;
    c.slots_len = 5 * CURLEW_SLOT_SIZE;
    c.area_len = 500;
    c.reply_len = CURLEW_READ_REPLY;
    return c;
}

static MAYBE void finish_pack(const struct call *c, const void *bytes, size_t len)
{
    struct result r = {CURLEW_OK, 0, 0, NULL};

    r.first = (uint32_t)len;
    r.bytes = (const uint8_t *)bytes;
    run_pack(c, &r);
}

static MAYBE void refuse_pack(const struct call *c, uint32_t number, uint32_t place)
{
    struct result r = {CURLEW_OK, 0, 0, NULL};

    r.number = number;
    r.first = place;
    run_pack(c, &r);
}

static MAYBE void finish_read(const struct call *c)
{
    struct result r = {CURLEW_OK, 0, 0, NULL};

    r.first = (uint32_t)wanted.count;
    r.second = (uint32_t)wanted.used;
    run_read(c, &r);
}

static MAYBE void refuse_read(const struct call *c, uint32_t number, uint32_t place)
{
    struct result r = {CURLEW_OK, 0, 0, NULL};

    r.number = number;
    r.first = place;
    run_read(c, &r);
}

static MAYBE void packs(const char *layout, const void *bytes, size_t len)
{
    struct call c = pack_call(layout);

    finish_pack(&c, bytes, len);
}

static MAYBE void pack_refused(const char *layout, uint32_t number, uint32_t place)
{
    struct call c = pack_call(layout);

    refuse_pack(&c, number, place);
}

static MAYBE void reads(const char *layout, const void *record, size_t len)
{
    struct call c = read_call(layout, record, len);

    finish_read(&c);
}

static MAYBE void read_refused(const char *layout, uint32_t number, uint32_t place)
{
    struct call c = read_call(layout, "abc", 3);

    refuse_read(&c, number, place);
}

static MAYBE void open_records(void)
{
    guard_open(&layout_run);
    guard_open(&slots_run);
    guard_open(&area_run);
    guard_open(&data_run);
    guard_open(&reply_run);
}

#endif
