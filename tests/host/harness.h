/*
 * What the host tests share: checks that are counted, tables of values, and the runs of a call, each lent between
 * closed pages (guard.h) and compared with what it should hold after the call.
 */
#ifndef HARNESS_H
#define HARNESS_H

#ifndef _DEFAULT_SOURCE
#define _DEFAULT_SOURCE
#endif
#include "curlew.h"
#include "guard.h"

#include <stdarg.h>

/* A test program uses what it needs of this. */
#ifdef __GNUC__
#define MAYBE __attribute__((unused))
#else
#define MAYBE
#endif

static unsigned long checks, failures;

static MAYBE void check(int good, const char *name, const char *what)
{
    checks++;
    if (good)
        return;
    failures++;
    printf("failed: %s: %s\n", name, what);
}

/* ---- tables of values ---- */

struct values {
    uint8_t slots[(CURLEW_MAX_SLOTS + 1) * CURLEW_SLOT_SIZE];
    size_t count;
    uint8_t area[CURLEW_MAX_AREA + 1];
    size_t used;
};

static MAYBE void begin(struct values *v, size_t used)
{
    memset(v, 0, sizeof *v);
    v->used = used;
}

/* Adds a slot that is not set from a record. */
static MAYBE void add_slot(struct values *v, uint32_t kind, size_t start, size_t length)
{
    uint8_t *slot = v->slots + v->count++ * CURLEW_SLOT_SIZE;

    curlew_put_number(slot, kind);
    curlew_put_number(slot + 4, (uint32_t)start);
    curlew_put_number(slot + 8, (uint32_t)length);
    curlew_put_number(slot + 12, CURLEW_NO_POSITION);
}

/* The values so far as a table to add to, with the room that is really there: some are to be past the limits. */
static MAYBE struct curlew_table table_of(struct values *v)
{
    struct curlew_table table;

    table.slots = v->slots;
    table.slots_room = sizeof v->slots;
    table.slots_used = v->count * CURLEW_SLOT_SIZE;
    table.area = v->area;
    table.area_room = sizeof v->area;
    table.area_used = v->used;
    table.full = 0;
    return table;
}

static MAYBE void take_table(struct values *v, const struct curlew_table *table)
{
    check(!table->full, "values of a test", "room");
    v->count = curlew_table_count(table);
    v->used = table->area_used;
}

static MAYBE void add_bytes(struct values *v, const void *bytes, size_t len)
{
    struct curlew_table table = table_of(v);

    curlew_table_add_text(&table, bytes, len);
    take_table(v, &table);
}

static MAYBE void add_text(struct values *v, const char *text)
{
    add_bytes(v, text, strlen(text));
}

/* Adds room for `count` items. Returns where they go, or NULL where the test has no room for them. */
static MAYBE uint8_t *add_items(struct values *v, uint32_t kind, size_t count)
{
    struct curlew_table table = table_of(v);
    uint8_t *at = v->area + v->used;
    int added = curlew_table_add(&table, kind, count, CURLEW_ITEM_SIZE);

    take_table(v, &table);
    return added ? at : NULL;
}

/* Adds a list of `count` integers, given as long long. */
static MAYBE void add_list(struct values *v, uint32_t kind, int count, ...)
{
    uint8_t *at = add_items(v, kind, (size_t)count);
    va_list list;
    int i;

    va_start(list, count);
    for (i = 0; at != NULL && i < count; i++)
        curlew_put_int(at + i * CURLEW_ITEM_SIZE, va_arg(list, long long));
    va_end(list);
}

static MAYBE void add_same(struct values *v, uint32_t kind, size_t count, int64_t value)
{
    uint8_t *at = add_items(v, kind, count);
    size_t i;

    for (i = 0; at != NULL && i < count; i++)
        curlew_put_int(at + i * CURLEW_ITEM_SIZE, value);
}

/* Adds a list of `count` doubles. */
static MAYBE void add_reals(struct values *v, int count, ...)
{
    uint8_t *at = add_items(v, CURLEW_REAL, (size_t)count);
    va_list list;
    int i;

    va_start(list, count);
    for (i = 0; at != NULL && i < count; i++)
        curlew_put_double(at + i * CURLEW_ITEM_SIZE, va_arg(list, double));
    va_end(list);
}

/* Adds a slot that is not set, with a start and a length that mean nothing. */
static MAYBE void add_unset(struct values *v, uint32_t start, uint32_t length)
{
    add_slot(v, CURLEW_UNSET, start, length);
}

/* Prints how many checks there were, and tells whether all held. */
static int summary(void)
{
    printf("%lu checks, %lu failed\n", checks, failures);
    return failures == 0 ? 0 : 1;
}

/* ---- the runs of a call ---- */

/* A run that is lent with these bytes (without bytes, the pattern of guard.h). Where the call should write it, `after` lies
 * from byte `at` on when it returns. */
struct run {
    const char *name;
    struct guard guard;
    const void *bytes;
    size_t len;
    int writable;
    const void *after;
    size_t at, after_len;
};

static MAYBE void lend_runs(struct run *const *runs, size_t count, enum place place)
{
    size_t i;

    for (i = 0; i < count; i++) {
        guard_lend(&runs[i]->guard, (const uint8_t *)runs[i]->bytes, runs[i]->len, place);
        if (!runs[i]->writable)
            guard_protect(&runs[i]->guard, PROT_READ);
    }
}

static MAYBE void check_runs(struct run *const *runs, size_t count, const char *name)
{
    size_t i;

    for (i = 0; i < count; i++) {
        if (runs[i]->after_len > 0)
            memcpy(guard_expected(&runs[i]->guard) + runs[i]->at, runs[i]->after, runs[i]->after_len);
        check(guard_holds(&runs[i]->guard), name, runs[i]->name);
    }
}

static MAYBE void open_run(struct run *run, const char *name, int writable)
{
    run->name = name;
    run->writable = writable;
    guard_open(&run->guard);
}

/* What a run holds before the call, with nothing expected to change. */
static MAYBE void set_run(struct run *run, const void *bytes, size_t len)
{
    run->bytes = bytes;
    run->len = len;
    run->after_len = 0;
}

/* What the call should leave in a run, from byte `at` on. */
static MAYBE void expect_run(struct run *run, size_t at, const void *bytes, size_t len)
{
    run->after = bytes;
    run->at = at;
    run->after_len = len;
}

#endif
