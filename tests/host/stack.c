/*
 * The stack that each call takes: the stack below the caller is painted, the call is made, and the lowest byte that
 * changed tells how deep it went. None may reach CURLEW_STACK.
 */
#ifndef _DEFAULT_SOURCE
#define _DEFAULT_SOURCE
#endif
#include "curlew.h"

#include <pthread.h>
#include <stdio.h>
#include <stdlib.h>

#define STACK (256 * 1024)
#define NEAR 512 /* bytes below the caller's frame that are left unpainted: what is there counts as used */
#define PAINT 0xa5

#define EVERY_TYPE "a4 A4 b9 B9 h3 H3 c3 s2 S2 i2 I2 w2 W2 x2 X @30 a* q2 r2 Q2 R* c*"
#define SLOTS 19

static uint8_t slots[SLOTS * CURLEW_SLOT_SIZE], other_slots[SLOTS * CURLEW_SLOT_SIZE];
static uint8_t area[1024], other_area[1024], record[256], sheet[2048], report[SLOTS * CURLEW_FINDING_SIZE];
static size_t record_len, sheet_len;
static uint8_t *low;

/* A value for each field of EVERY_TYPE: nine characters, or three items. */
static void fill_table(void)
{
    static const char fields[] = "aAbBhHcsSiIwWaqrQRc";
    size_t i, used = 0;

    for (i = 0; i < SLOTS; i++) {
        int text = strchr("aAbBhH", fields[i]) != NULL, real = strchr("qrQR", fields[i]) != NULL;
        size_t size = text ? 9 : 3 * CURLEW_ITEM_SIZE;

        memset(area + used, text ? '1' : 3, size);
        curlew_put_slot(slots, i, text ? CURLEW_STRING : real ? CURLEW_REAL : CURLEW_SIGNED, (uint32_t)used, text ? 9 : 3);
        used += size;
    }
}

static uint32_t pack(void)
{
    uint8_t reply[CURLEW_PACK_REPLY];
    uint32_t number;

    fill_table();
    number = curlew_pack(EVERY_TYPE, sizeof EVERY_TYPE - 1, slots, sizeof slots, area, sizeof area,
                         record, sizeof record, reply, sizeof reply);
    record_len = curlew_get_answer(reply).first;
    return number;
}

static uint32_t read_record(void)
{
    uint8_t reply[CURLEW_READ_REPLY];

    return curlew_read(EVERY_TYPE, sizeof EVERY_TYPE - 1, record, record_len, slots, sizeof slots,
                       area, sizeof area, 0, reply, sizeof reply);
}

/* The plan of EVERY_TYPE, which the two calls after it go by. */
static uint32_t plan[CURLEW_MAX_PLAN];
static size_t plan_len;

static uint32_t prepare(void)
{
    uint8_t reply[CURLEW_PREPARE_REPLY];
    uint32_t number = curlew_prepare(EVERY_TYPE, sizeof EVERY_TYPE - 1, plan, CURLEW_MAX_PLAN, reply, sizeof reply);

    plan_len = curlew_get_answer(reply).first;
    return number;
}

static uint32_t pack_plan(void)
{
    uint8_t reply[CURLEW_PACK_REPLY];

    fill_table();
    return curlew_pack_plan(plan, plan_len, slots, sizeof slots, area, sizeof area, record, sizeof record,
                            reply, sizeof reply);
}

static uint32_t read_plan(void)
{
    uint8_t reply[CURLEW_READ_REPLY];

    return curlew_read_plan(plan, plan_len, record, record_len, slots, sizeof slots, area, sizeof area, 0,
                            reply, sizeof reply);
}

static uint32_t sheet_write(void)
{
    uint8_t reply[CURLEW_SHEET_REPLY];
    uint32_t number = curlew_sheet_write(slots, sizeof slots, area, sizeof area, sheet, sizeof sheet,
                                         reply, sizeof reply);

    sheet_len = curlew_get_answer(reply).first;
    return number;
}

static uint32_t sheet_read(void)
{
    uint8_t reply[CURLEW_SHEET_REPLY];

    return curlew_sheet_read(sheet, sheet_len, slots, sizeof slots, area, sizeof area, 0, reply, sizeof reply);
}

static uint32_t sheet_rescue(void)
{
    uint8_t reply[CURLEW_RESCUE_REPLY];

    return curlew_sheet_rescue(sheet, sheet_len - 1, SLOTS, slots, sizeof slots, area, sizeof area, 0,
                               reply, sizeof reply);
}

static uint32_t compare(void)
{
    uint8_t reply[CURLEW_COMPARE_REPLY], second[sizeof record];

    memcpy(second, record, record_len);
    second[1] ^= 1;
    return curlew_compare(EVERY_TYPE, sizeof EVERY_TYPE - 1, record, record_len, second, record_len,
                          slots, sizeof slots, area, sizeof area, other_slots, sizeof other_slots,
                          other_area, sizeof other_area, report, sizeof report, reply, sizeof reply);
}

static uint32_t mean(void)
{
    uint8_t reply[CURLEW_MEAN_REPLY], legs[3 * CURLEW_SLOT_SIZE], marks[2 * CURLEW_ITEM_SIZE];

    curlew_put_int(marks, 61);
    curlew_put_int(marks + CURLEW_ITEM_SIZE, 0);
    memset(legs, 0, sizeof legs);
    curlew_put_slot(legs, 0, CURLEW_SIGNED, 0, 1);
    curlew_put_slot(legs, 2, CURLEW_UNSIGNED, CURLEW_ITEM_SIZE, 1);
    return curlew_mean(legs, sizeof legs, marks, sizeof marks, reply, sizeof reply);
}

static uint32_t from_perl(void)
{
    static const char deep[] = "((((((((n2 C a3 x)2 b4)) H2)1) V))2)2";
    uint8_t reply[CURLEW_PERL_REPLY];
    char layout[CURLEW_MAX_LAYOUT];

    return curlew_from_perl(deep, sizeof deep - 1, layout, sizeof layout, reply, sizeof reply);
}

static uint32_t layout(void)
{
    uint8_t reply[CURLEW_LAYOUT_REPLY];

    return curlew_layout(EVERY_TYPE, sizeof EVERY_TYPE - 1, reply, sizeof reply);
}

static uint32_t fields(void)
{
    uint8_t rows[(sizeof EVERY_TYPE - 1) * CURLEW_FIELD_SIZE], reply[CURLEW_FIELDS_REPLY];

    return curlew_fields(EVERY_TYPE, sizeof EVERY_TYPE - 1, rows, sizeof rows, reply, sizeof reply);
}

static uint32_t promises(void)
{
    uint8_t reply[CURLEW_PROMISES_REPLY];

    return curlew_promises(EVERY_TYPE, sizeof EVERY_TYPE - 1, reply, sizeof reply);
}

static uint32_t extends(void)
{
    static const char old[] = "a8 A20 Su Iu", new[] = "a8 A20 Su Iu c6";
    uint8_t reply[CURLEW_EXTENDS_REPLY];

    return curlew_extends(old, sizeof old - 1, new, sizeof new - 1, reply, sizeof reply);
}

struct call {
    const char *name;
    uint32_t (*make)(void);
};

static const struct call calls[] = {
    {"curlew_pack", pack}, {"curlew_read", read_record}, {"curlew_prepare", prepare},
    {"curlew_pack_plan", pack_plan}, {"curlew_read_plan", read_plan}, {"curlew_sheet_write", sheet_write},
    {"curlew_sheet_read", sheet_read}, {"curlew_sheet_rescue", sheet_rescue}, {"curlew_compare", compare},
    {"curlew_mean", mean}, {"curlew_from_perl", from_perl}, {"curlew_layout", layout},
    {"curlew_fields", fields}, {"curlew_promises", promises}, {"curlew_extends", extends},
};

/* How many bytes of stack below this function's frame the call used. */
static size_t depth(const struct call *call)
{
    volatile uint8_t here = 0;
    size_t top = (size_t)((uintptr_t)&here - (uintptr_t)low), at;
    uint32_t number;

    memset(low, PAINT, top - NEAR);
    number = call->make();
    for (at = 0; at < top - NEAR && low[at] == PAINT; at++)
        ;
    if (number != CURLEW_OK) {
        printf("%s refused: number %u\n", call->name, (unsigned)number);
        exit(1);
    }
    return top - at;
}

static void *measure(void *failures)
{
    size_t i, used;

    for (i = 0; i < sizeof calls / sizeof calls[0]; i++) {
        depth(&calls[i]); /* once before, so that the names that it needs are bound */
        used = depth(&calls[i]);
        printf("%-20s %5u bytes of stack\n", calls[i].name, (unsigned)used);
        if (used >= CURLEW_STACK)
            ++*(int *)failures;
    }
    return NULL;
}

int main(void)
{
    pthread_attr_t attributes;
    pthread_t thread;
    int failures = 0;
    void *stack;

    if (posix_memalign(&stack, 4096, STACK) != 0 || pthread_attr_init(&attributes) != 0)
        return 2;
    low = (uint8_t *)stack;
    if (pthread_attr_setstack(&attributes, stack, STACK) != 0 ||
        pthread_create(&thread, &attributes, measure, &failures) != 0 || pthread_join(thread, NULL) != 0)
        return 2;
    if (failures > 0)
        printf("CURLEW_STACK says %d\n", CURLEW_STACK);
    return failures == 0 ? 0 : 1;
}
