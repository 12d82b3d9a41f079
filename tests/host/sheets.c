/*
 * Host tests of sheets: writing a table, reading it back, and every refusal. What is expected is written out by hand.
 * Each case runs with every run at the low end of its open pages, at the high end, and with null pointers for empty
 * runs; after each call every byte of every run, and of what surrounds it, is compared with what it should be.
 */
#include "sheet_runs.h"

static struct values given;

/* ---- writing ---- */

static void run_write(const char *name, uint32_t number)
{
    int place;

    slots.writable = area.writable = 0;
    sheet.writable = 1;
    for (place = LOW; place < PLACES; place++) {
        uint32_t returned;

        lend_runs(runs, RUNS, (enum place)place);
        returned = curlew_sheet_write(slots.guard.at, slots.len, area.guard.at, area.len, sheet.guard.at, sheet.len,
                                      reply.guard.at, reply.len);
        check(returned == number, name, "number returned");
        check_runs(runs, RUNS, name);
    }
}

/* The table in `given`, with room for a sheet of `room` bytes. */
static void lend_table(size_t room)
{
    set_run(&slots, given.slots, given.count * CURLEW_SLOT_SIZE);
    set_run(&area, given.area, given.used);
    set_run(&sheet, NULL, room);
    set_run(&reply, NULL, CURLEW_SHEET_REPLY);
}

static void writes(const char *name, size_t room, const void *bytes, size_t len)
{
    lend_table(room);
    expect_answer(CURLEW_OK, (uint32_t)len, 0);
    expect_run(&sheet, 0, bytes, len);
    run_write(name, CURLEW_OK);
}

static void write_refused(const char *name, size_t room, uint32_t number, uint32_t place)
{
    lend_table(room);
    expect_answer(number, place, 0);
    run_write(name, number);
}

/* ---- reading ---- */

static void run_read(const char *name, size_t mark, uint32_t number)
{
    int place;

    slots.writable = area.writable = 1;
    sheet.writable = 0;
    for (place = LOW; place < PLACES; place++) {
        uint32_t returned;

        lend_runs(runs, RUNS, (enum place)place);
        returned = curlew_sheet_read(sheet.guard.at, sheet.len, slots.guard.at, slots.len, area.guard.at, area.len, mark,
                                     reply.guard.at, reply.len);
        check(returned == number, name, "number returned");
        check_runs(runs, RUNS, name);
    }
}

/* What the reading should set is in `wanted`, which began at the mark. */
static void reads(const char *name, const void *bytes, size_t len, size_t slot_count, size_t area_bytes, size_t mark)
{
    lend_sheet(bytes, len, slot_count * CURLEW_SLOT_SIZE, area_bytes);
    expect_answer(CURLEW_OK, (uint32_t)wanted.count, (uint32_t)wanted.used);
    expect_run(&slots, 0, wanted.slots, wanted.count * CURLEW_SLOT_SIZE);
    expect_run(&area, mark, wanted.area + mark, wanted.used - mark);
    run_read(name, mark, CURLEW_OK);
}

static void read_refused(const char *name, const void *bytes, size_t len, uint32_t number, uint32_t place)
{
    lend_sheet(bytes, len, 4 * CURLEW_SLOT_SIZE, 100);
    expect_answer(number, place, 0);
    run_read(name, 3, number);
}

/* ---- the tests ---- */

static void test_three_values(void)
{
    begin(&given, 0);
    add_unset(&given, 4000000000u, 77);
    add_text(&given, "OK");
    add_list(&given, CURLEW_SIGNED, 1, -2LL);
    writes("three values", 100, three, sizeof three);
    writes("three values, just room", sizeof three, three, sizeof three);
    write_refused("three values, a byte too few", sizeof three - 1, CURLEW_NO_ROOM, 0);
    write_refused("three values, no buffer", 0, CURLEW_NO_ROOM, 0);

    begin(&wanted, 5);
    add_unset(&wanted, 0, 0);
    add_text(&wanted, "OK");
    add_list(&wanted, CURLEW_SIGNED, 1, -2LL);
    reads("three values", three, sizeof three, 5, 60, 5);
    reads("three values, just room", three, sizeof three, 3, 15, 5);
    lend_sheet(three, sizeof three, 3 * CURLEW_SLOT_SIZE, 14);
    expect_answer(CURLEW_NO_ROOM, 0, 0);
    run_read("three values, a byte too few", 5, CURLEW_NO_ROOM);
    lend_sheet(three, sizeof three, 2 * CURLEW_SLOT_SIZE, 14);
    expect_answer(CURLEW_BAD_SLOTS, 0, 0);
    run_read("a slot too few comes before room", 5, CURLEW_BAD_SLOTS);
}

static void test_reals(void)
{
    static const uint8_t sheet_bytes[] = {1, 0, 0x13, 0, 17, 4, 0xc0, 0x45, 0, 0, 0, 0, 0, 0, 0, 0, 0, 0, 0, 0, 0, 1};

    begin(&given, 0);
    add_reals(&given, 2, -42.0, 4.9406564584124654e-324);
    writes("two reals", 30, sheet_bytes, sizeof sheet_bytes);
    begin(&wanted, 6);
    add_reals(&wanted, 2, -42.0, 4.9406564584124654e-324);
    reads("two reals", sheet_bytes, sizeof sheet_bytes, 1, 22, 6);
}

static void test_no_values(void)
{
    static const uint8_t header[] = {1, 0, 0};
    static const uint8_t empties[] = {1, 0, 9, 0, 1, 1, 0, 1, 2, 0, 1, 3};

    begin(&given, 0);
    writes("no slots", 10, header, sizeof header);
    begin(&wanted, 7);
    reads("no slots", header, sizeof header, 2, 20, 7);
    reads("no slots, none lent", header, sizeof header, 0, 7, 7);

    begin(&given, 4);
    add_bytes(&given, "", 0);
    add_list(&given, CURLEW_SIGNED, 0);
    add_list(&given, CURLEW_UNSIGNED, 0);
    writes("empty values", 30, empties, sizeof empties);
    begin(&wanted, 4);
    add_bytes(&wanted, "", 0);
    add_list(&wanted, CURLEW_SIGNED, 0);
    add_list(&wanted, CURLEW_UNSIGNED, 0);
    reads("empty values at the area's end", empties, sizeof empties, 3, 4, 4);
}

static void test_write_refusals(void)
{
    begin(&given, 20);
    add_unset(&given, 0, 0);
    curlew_put_slot(given.slots, given.count++, CURLEW_STRING, 19, 2);
    write_refused("a value that ends outside", 100, CURLEW_BAD_SLOT, 1);
    curlew_put_slot(given.slots, 1, CURLEW_SIGNED, 0, 3);
    write_refused("integers that end outside", 100, CURLEW_BAD_SLOT, 1);
    curlew_put_slot(given.slots, 1, CURLEW_STRING, 4294967295u, 4294967295u);
    write_refused("a start that would wrap", 2, CURLEW_BAD_SLOT, 1);
    curlew_put_slot(given.slots, 1, 5, 0, 0);
    write_refused("a kind above the last", 100, CURLEW_BAD_SLOT, 1);
    curlew_put_slot(given.slots, 1, CURLEW_STRING, 20, 0);
    write_refused("room for the first entry alone", 6, CURLEW_NO_ROOM, 0);
}

struct wrong {
    const char *name;
    const char *bytes;
    size_t len;
    uint32_t number, place;
};

static void test_damaged_sheets(void)
{
    static const struct wrong cases[] = {
        {"an empty sheet", "", 0, CURLEW_BAD_SHEET, 0},
        {"a version alone", "\1", 1, CURLEW_BAD_SHEET, 0},
        {"a header cut", "\1\0", 2, CURLEW_BAD_SHEET, 0},
        {"another version", "\3\0\0", 3, CURLEW_BAD_VERSION, 0},
        {"another version, cut", "\0", 1, CURLEW_BAD_VERSION, 0},
        {"a byte after the end", "\1\0\0\0", 4, CURLEW_BAD_SHEET, 0},
        {"a length beyond the end", "\1\0\4\0\1\0", 6, CURLEW_BAD_SHEET, 0},
        {"half an entry's length", "\1\0\4\0\1\0\0", 7, CURLEW_BAD_SHEET, 6},
        {"an entry of length 0", "\1\0\5\0\1\0\0\0", 8, CURLEW_BAD_SHEET, 6},
        {"an entry beyond the end", "\1\0\6\0\1\0\0\2\1", 9, CURLEW_BAD_SHEET, 6},
        {"a kind above the last", "\1\0\6\0\1\0\0\1\5", 9, CURLEW_BAD_SHEET, 6},
        {"a value that is not set", "\1\0\4\0\2\0x", 7, CURLEW_BAD_SHEET, 3},
        {"seven bytes of an integer", "\1\0\12\0\10\2abcdefg", 13, CURLEW_BAD_SHEET, 3},
        {"a bad entry after too many", "\1\0\20\0\1\0\0\1\0\0\1\0\0\1\0\0\1\0\0", 19, CURLEW_BAD_SHEET, 18},
        {"version 2 alone", "\2", 1, CURLEW_BAD_SHEET, 0},
        {"a header of version 2, cut", "\2\0\0\0", 4, CURLEW_BAD_SHEET, 0},
        {"no entries in version 2", "\2\0\0\0\0", 5, CURLEW_BAD_SHEET, 0},
        {"version 2 where version 1 would do", "\2\0\0\0\5\0\0\0\1\0", 10, CURLEW_BAD_SHEET, 0},
        {"a bad entry comes before that", "\2\0\0\0\5\0\0\0\1\7", 10, CURLEW_BAD_SHEET, 5},
        {"too many entries", "\1\0\17\0\1\0\0\1\0\0\1\0\0\1\0\0\1\0", 18, CURLEW_BAD_SLOTS, 0},
    };
    size_t i;

    for (i = 0; i < sizeof cases / sizeof cases[0]; i++)
        read_refused(cases[i].name, cases[i].bytes, cases[i].len, cases[i].number, cases[i].place);
}

/* Every cut of a sheet is refused, and changes nothing but the reply. */
static void test_cuts(void)
{
    size_t cut;

    for (cut = 0; cut < sizeof three; cut++)
        read_refused("a sheet cut short", three, cut, CURLEW_BAD_SHEET, 0);
}

/* A sheet of one string of zero bytes: written, read, and each with a byte too few. */
static void both_ways(const char *name, const uint8_t *bytes, size_t len, size_t string)
{
    begin(&given, 0);
    add_slot(&given, CURLEW_STRING, 0, string);
    given.used = string;
    writes(name, len, bytes, len);
    write_refused(name, len - 1, CURLEW_NO_ROOM, 0);
    begin(&wanted, 0);
    add_slot(&wanted, CURLEW_STRING, 0, string);
    wanted.used = string;
    reads(name, bytes, len, 1, string, 0);
    lend_sheet(bytes, len, CURLEW_SLOT_SIZE, string - 1);
    expect_answer(CURLEW_NO_ROOM, 0, 0);
    run_read(name, 0, CURLEW_NO_ROOM);
}

static void test_lengths(void)
{
    static uint8_t large[CURLEW_MAX_SHEET + 1];
    static const uint8_t last_of_first[] = {1, 255, 255, 255, 253, 1};
    static const uint8_t first_of_second[] = {2, 0, 1, 0, 2, 0, 0, 255, 254, 1};

    memcpy(large, last_of_first, sizeof last_of_first);
    both_ways("the longest sheet of version 1", large, 65538, 65532);
    memcpy(large, first_of_second, sizeof first_of_second);
    both_ways("the shortest sheet of version 2", large, 65543, 65533);
    curlew_put_number(large + 1, CURLEW_MAX_AREA + 5);
    curlew_put_number(large + 5, CURLEW_MAX_AREA + 1);
    both_ways("all that an area can hold", large, CURLEW_MAX_AREA + 10, CURLEW_MAX_AREA);

    begin(&given, 0);
    given.used = CURLEW_MAX_AREA;
    add_slot(&given, CURLEW_STRING, 0, CURLEW_MAX_AREA);
    add_slot(&given, CURLEW_STRING, 0, CURLEW_MAX_SHEET - CURLEW_MAX_AREA - 15);
    curlew_put_number(large + 1, CURLEW_MAX_SHEET - 5);
    curlew_put_number(large + 10 + CURLEW_MAX_AREA, CURLEW_MAX_SHEET - CURLEW_MAX_AREA - 14);
    large[14 + CURLEW_MAX_AREA] = 1;
    writes("the longest sheet of all", CURLEW_MAX_SHEET, large, CURLEW_MAX_SHEET);
    write_refused("a buffer over its limit", CURLEW_MAX_SHEET + 1, CURLEW_BAD_SIZE, 0);
    curlew_put_slot(given.slots, 1, CURLEW_STRING, 0, CURLEW_MAX_SHEET - CURLEW_MAX_AREA - 14);
    write_refused("a sheet that no buffer holds", CURLEW_MAX_SHEET, CURLEW_NO_ROOM, 0);
    lend_sheet(large, CURLEW_MAX_SHEET, 2 * CURLEW_SLOT_SIZE, CURLEW_MAX_AREA);
    expect_answer(CURLEW_NO_ROOM, 0, 0);
    run_read("values that no area holds", 0, CURLEW_NO_ROOM);
    lend_sheet(large, CURLEW_MAX_SHEET + 1, CURLEW_SLOT_SIZE, 100);
    expect_answer(CURLEW_BAD_SIZE, 0, 0);
    run_read("a sheet over its limit", 0, CURLEW_BAD_SIZE);
    large[0] = 1;
    read_refused("version 1 and too long for it", large, 65539, CURLEW_BAD_SHEET, 0);
}

static void test_sizes(void)
{
    lend_sheet("\3", 1, CURLEW_SLOT_SIZE - 1, 100);
    expect_answer(CURLEW_BAD_SIZE, 0, 0);
    run_read("slots that are no whole number", 0, CURLEW_BAD_SIZE);
    lend_sheet("\3", 1, (CURLEW_MAX_SLOTS + 1) * CURLEW_SLOT_SIZE, 100);
    expect_answer(CURLEW_BAD_SIZE, 0, 0);
    run_read("slots over their limit", 0, CURLEW_BAD_SIZE);
    lend_sheet("\3", 1, CURLEW_SLOT_SIZE, CURLEW_MAX_AREA + 1);
    expect_answer(CURLEW_BAD_SIZE, 0, 0);
    run_read("an area over its limit", 0, CURLEW_BAD_SIZE);
    lend_sheet("\3", 1, CURLEW_SLOT_SIZE, 100);
    expect_answer(CURLEW_BAD_SIZE, 0, 0);
    run_read("a mark above the area", 101, CURLEW_BAD_SIZE);
}

static void test_reply_sizes(void)
{
    static const size_t sizes[] = {0, 11, 13, 24};
    size_t i;

    begin(&given, 0);
    add_text(&given, "ab");
    for (i = 0; i < sizeof sizes / sizeof sizes[0]; i++) {
        lend_table(20);
        set_run(&reply, NULL, sizes[i]);
        run_write("a reply of another size", CURLEW_BAD_SIZE);
        lend_sheet(three, sizeof three, 3 * CURLEW_SLOT_SIZE, 60);
        set_run(&reply, NULL, sizes[i]);
        run_read("a reply of another size", 0, CURLEW_BAD_SIZE);
    }
}

int main(void)
{
    open_sheets();
    test_three_values();
    test_reals();
    test_no_values();
    test_write_refusals();
    test_damaged_sheets();
    test_cuts();
    test_lengths();
    test_sizes();
    test_reply_sizes();
    return summary();
}
