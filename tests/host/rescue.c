/*
 * Host tests of rescuing a damaged sheet. What is expected is written out by hand. Each case runs with every run at the low
 * end of its open pages, at the high end, and with null pointers for empty runs; after each call every byte of every run,
 * and of what surrounds it, is compared with what it should be.
 */
#include "sheet_runs.h"

static void run_rescue(const char *name, size_t legs, size_t mark, uint32_t number)
{
    int place;

    slots.writable = area.writable = 1;
    for (place = LOW; place < PLACES; place++) {
        uint32_t returned;

        lend_runs(runs, RUNS, (enum place)place);
        returned = curlew_sheet_rescue(sheet.guard.at, sheet.len, legs, slots.guard.at, slots.len, area.guard.at,
                                       area.len, mark, reply.guard.at, reply.len);
        check(returned == number, name, "number returned");
        check_runs(runs, RUNS, name);
    }
}

/* A sheet with slot_count slots to go into, and an area of area_bytes bytes. */
static void lend_damaged(const void *bytes, size_t len, size_t slot_count, size_t area_bytes)
{
    lend_sheet(bytes, len, slot_count * CURLEW_SLOT_SIZE, area_bytes);
    set_run(&reply, NULL, CURLEW_RESCUE_REPLY);
}

/* The values that are kept are in `wanted`, which began at the mark. */
static void rescues(const char *name, const void *bytes, size_t len, size_t legs, size_t mark, uint32_t dropped)
{
    size_t kept = wanted.count, surplus;

    for (surplus = 0; surplus < 2; surplus++) {
        lend_damaged(bytes, len, legs + surplus, wanted.used + surplus);
        while (wanted.count < legs)
            add_unset(&wanted, 0, 0);
        expect_run(&slots, 0, wanted.slots, legs * CURLEW_SLOT_SIZE);
        expect_run(&area, mark, wanted.area + mark, wanted.used - mark);
        expect_numbers(CURLEW_OK, (uint32_t)kept, (uint32_t)(legs - kept), dropped);
        run_rescue(name, legs, mark, CURLEW_OK);
    }
    check(curlew_get_dropped(answer) == dropped && curlew_get_answer(answer).first == kept, name, "helpers");
}

static void refused(const char *name, size_t legs, size_t mark, uint32_t number)
{
    expect_numbers(number, 0, 0, 0);
    run_rescue(name, legs, mark, number);
}

/* ---- the tests ---- */

/* The first `count` of the three values, from a mark on. */
static void want(size_t count, size_t mark)
{
    begin(&wanted, mark);
    if (count > 0)
        add_unset(&wanted, 0, 0);
    if (count > 1)
        add_text(&wanted, "OK");
    if (count > 2)
        add_list(&wanted, CURLEW_SIGNED, 1, -2LL);
}

/* Every cut, with one leg less than the sheet had, as many, and one more. */
static void test_cuts(void)
{
    static const size_t ends[] = {3, 6, 11, 22};
    size_t cut, legs, kept;

    for (cut = 0; cut <= sizeof three; cut++) {
        for (legs = 2; legs < 5; legs++) {
            for (kept = 0; kept < 3 && kept < legs && ends[kept + 1] <= cut; kept++)
                continue;
            want(kept, 4);
            rescues("a sheet cut short", three, cut, legs, 4, (uint32_t)(cut < 3 ? cut : cut - ends[kept]));
        }
    }
}

static void test_damages(void)
{
    uint8_t bytes[sizeof three + 4];

    memcpy(bytes, three, sizeof three);
    memset(bytes + sizeof three, 0, 4);
    bytes[1] = bytes[2] = 255;
    want(3, 0);
    rescues("a header that tells another length", bytes, sizeof three, 3, 0, 0);
    want(3, 0);
    rescues("bytes after the last entry", bytes, sizeof bytes, 5, 0, 4);
    bytes[8] = 5;
    want(1, 2);
    rescues("a kind above the last", bytes, sizeof three, 3, 2, 16);
    bytes[4] = 0;
    want(0, 2);
    rescues("an entry of length 0", bytes, sizeof three, 3, 2, 19);
    want(0, 0);
    rescues("no legs", three, sizeof three, 0, 0, 19);
    want(0, 0);
    rescues("no sheet, no legs", "", 0, 0, 0, 0);
}

/* The same values in version 2, which has longer lengths, at every cut. */
static void test_second_version(void)
{
    static const uint8_t sheet_bytes[] = {2, 0, 0, 0, 0, 0, 0, 0, 1, 0, 0, 0, 0, 3, 1, 'O', 'K', 0, 0, 0, 9, 2,
                                          255, 255, 255, 255, 255, 255, 255, 254};
    static const size_t ends[] = {5, 10, 17, 30};
    size_t cut, kept;

    for (cut = 0; cut <= sizeof sheet_bytes; cut++) {
        for (kept = 0; kept < 3 && ends[kept + 1] <= cut; kept++)
            continue;
        want(kept, 1);
        rescues("version 2 cut short", sheet_bytes, cut, 4, 1, (uint32_t)(cut < 5 ? cut : cut - ends[kept]));
    }
}

static void test_refusals(void)
{
    static const size_t sizes[] = {0, 12, 15, 17};
    static uint8_t large[CURLEW_MAX_SHEET + 1];
    size_t i;

    lend_damaged("\7", 1, CURLEW_MAX_SLOTS, 60);
    refused("another version", 3, 0, CURLEW_BAD_VERSION);
    refused("too many legs come first", CURLEW_MAX_SLOTS + 1, 0, CURLEW_BAD_SIZE);
    refused("as many legs as can be said", SIZE_MAX, 0, CURLEW_BAD_SIZE);
#if SIZE_MAX > 4294967295u
    refused("2 to the 32, plus 3 legs", ((size_t)1 << 32) + 3, 0, CURLEW_BAD_SIZE);
#endif
    refused("a mark above the area", 3, 61, CURLEW_BAD_SIZE);
    lend_damaged(three, sizeof three, 2, 9);
    refused("fewer slots than legs come before room", 3, 0, CURLEW_BAD_SLOTS);
    lend_damaged(three, sizeof three, 3, 9);
    refused("room for one byte less", 3, 0, CURLEW_NO_ROOM);
    lend_damaged(three, sizeof three, 3, CURLEW_MAX_AREA + 1);
    refused("an area over its limit", 3, 0, CURLEW_BAD_SIZE);
    lend_damaged(large, sizeof large, 3, 9);
    refused("a sheet over its limit", 3, 0, CURLEW_BAD_SIZE);
    lend_sheet(three, sizeof three, 3 * CURLEW_SLOT_SIZE + 1, 60);
    set_run(&reply, NULL, CURLEW_RESCUE_REPLY);
    refused("slots that are no whole number", 3, 0, CURLEW_BAD_SIZE);
    for (i = 0; i < sizeof sizes / sizeof sizes[0]; i++) {
        lend_damaged(three, sizeof three, 3, 60);
        set_run(&reply, NULL, sizes[i]);
        run_rescue("a reply of another size", 3, 0, CURLEW_BAD_SIZE);
    }
}

int main(void)
{
    open_sheets();
    test_cuts();
    test_damages();
    test_second_version();
    test_refusals();
    return summary();
}
