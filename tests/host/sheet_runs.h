/*
 * The runs of the calls on sheets, each between closed pages, for the host tests that make them, and a sheet of three values.
 */
#ifndef SHEET_RUNS_H
#define SHEET_RUNS_H

#include "harness.h"

static struct run slots, area, sheet, reply;
static struct run *const runs[] = {&slots, &area, &sheet, &reply};
#define RUNS (sizeof runs / sizeof runs[0])

static struct values wanted;
static uint8_t answer[CURLEW_RESCUE_REPLY];

/* The numbers of an answer; a reply of three has no place for the last. */
static MAYBE void expect_numbers(uint32_t number, uint32_t first, uint32_t second, uint32_t third)
{
    curlew_put_number(answer, number);
    curlew_put_number(answer + 4, first);
    curlew_put_number(answer + 8, second);
    curlew_put_number(answer + 12, third);
    expect_run(&reply, 0, answer, reply.len);
}

static MAYBE void expect_answer(uint32_t number, uint32_t first, uint32_t second)
{
    expect_numbers(number, first, second, 0);
}

/* A sheet, and slots and an area that it goes into. */
static MAYBE void lend_sheet(const void *bytes, size_t len, size_t slot_bytes, size_t area_bytes)
{
    set_run(&sheet, bytes, len);
    set_run(&slots, NULL, slot_bytes);
    set_run(&area, NULL, area_bytes);
    set_run(&reply, NULL, CURLEW_SHEET_REPLY);
}

/* Not set, the string OK and the integer -2. */
static const uint8_t three[] = {1, 0, 0x13, 0, 1, 0, 0, 3, 1, 'O', 'K', 0, 9, 2,
                                0xff, 0xff, 0xff, 0xff, 0xff, 0xff, 0xff, 0xfe};

static MAYBE void open_sheets(void)
{
    open_run(&slots, "slots", 0);
    open_run(&area, "area", 0);
    open_run(&sheet, "sheet", 0);
    open_run(&reply, "reply", 1);
}

#endif
