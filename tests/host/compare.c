/*
 * Host tests of comparing two copies of a record. What is expected is written out by hand. Each case runs with every
 * run at the low end of its open pages, at the high end, and with null pointers for empty runs; after each call every
 * byte of every run, and of what surrounds it, is compared with what it should be.
 */
#include "walk.h"

static struct run layout, first, second, first_slots, first_area, second_slots, second_area, report, reply;
static struct run *const runs[] = {&layout, &first, &second, &first_slots, &first_area,
                                   &second_slots, &second_area, &report, &reply};
#define RUNS (sizeof runs / sizeof runs[0])

static struct values in_first, in_second;
static uint8_t answer[CURLEW_COMPARE_REPLY], findings[8 * CURLEW_FINDING_SIZE];
static size_t found;

static void run_compare(const char *name, uint32_t number)
{
    int place;

    for (place = LOW; place < PLACES; place++) {
        uint32_t returned;

        lend_runs(runs, RUNS, (enum place)place);
        returned = curlew_compare(layout.guard.at, layout.len, first.guard.at, first.len, second.guard.at, second.len,
                                  first_slots.guard.at, first_slots.len, first_area.guard.at, first_area.len,
                                  second_slots.guard.at, second_slots.len, second_area.guard.at, second_area.len,
                                  report.guard.at, report.len, reply.guard.at, reply.len);
        check(returned == number, name, "number returned");
        check_runs(runs, RUNS, name);
    }
}

static void lend_copies(const char *text, const char *one, size_t one_len, const char *other, size_t other_len)
{
    set_run(&layout, text, strlen(text));
    set_run(&first, one, one_len);
    set_run(&second, other, other_len);
    set_run(&first_slots, NULL, 5 * CURLEW_SLOT_SIZE);
    set_run(&first_area, NULL, 100);
    set_run(&second_slots, NULL, 6 * CURLEW_SLOT_SIZE);
    set_run(&second_area, NULL, 120);
    set_run(&report, NULL, 70);
    set_run(&reply, NULL, CURLEW_COMPARE_REPLY);
    begin(&in_first, 0);
    begin(&in_second, 0);
    found = 0;
}

static void expect_answer(uint32_t number, uint32_t value)
{
    curlew_put_number(answer, number);
    curlew_put_number(answer + 4, value);
    curlew_put_number(answer + 8, 0);
    expect_run(&reply, 0, answer, sizeof answer);
}

static void expect_finding(uint32_t verdict, uint32_t place, uint32_t bits)
{
    uint8_t *at = findings + found++ * CURLEW_FINDING_SIZE;

    curlew_put_number(at, verdict);
    curlew_put_number(at + 4, place);
    curlew_put_number(at + 8, bits);
}

/* What the readings should set is in `in_first` and `in_second`, what the report should say in `findings`. */
static void compares(const char *name)
{
    expect_answer(CURLEW_OK, (uint32_t)found);
    put_positions(&in_first, layout.bytes, layout.len, first.len, name);
    put_positions(&in_second, layout.bytes, layout.len, second.len, name);
    expect_run(&first_slots, 0, in_first.slots, in_first.count * CURLEW_SLOT_SIZE);
    expect_run(&first_area, 0, in_first.area, in_first.used);
    expect_run(&second_slots, 0, in_second.slots, in_second.count * CURLEW_SLOT_SIZE);
    expect_run(&second_area, 0, in_second.area, in_second.used);
    expect_run(&report, 0, findings, found * CURLEW_FINDING_SIZE);
    run_compare(name, CURLEW_OK);
}

static void refused(const char *name, uint32_t number, uint32_t place)
{
    expect_answer(number, place);
    run_compare(name, number);
}

/* ---- the tests ---- */

static void test_verdicts(void)
{
    lend_copies("a3 x S c b4", "abc?\1\2\7\x0f", 8, "abd!\1\3", 6);
    add_text(&in_first, "abc");
    add_list(&in_first, CURLEW_SIGNED, 1, 258LL);
    add_list(&in_first, CURLEW_SIGNED, 1, 7LL);
    add_text(&in_first, "1111");
    add_text(&in_second, "abd");
    add_list(&in_second, CURLEW_SIGNED, 1, 259LL);
    expect_finding(CURLEW_DIFFERENT, 2, 3);
    expect_finding(CURLEW_DIFFERENT, 7, 1);
    expect_finding(CURLEW_ONLY_FIRST, 0, 0);
    expect_finding(CURLEW_ONLY_FIRST, 0, 0);
    compares("different, and only in the first");

    lend_copies("A4 c a9", "ab", 2, "ab  \5", 5);
    add_text(&in_second, "ab");
    add_list(&in_second, CURLEW_SIGNED, 1, 5LL);
    expect_finding(CURLEW_ONLY_SECOND, 0, 0);
    expect_finding(CURLEW_ONLY_SECOND, 0, 0);
    expect_finding(CURLEW_NEITHER, 0, 0);
    compares("only in the second, and in neither");

    lend_copies("A4", "ab\0 ", 4, "abc ", 4);
    add_text(&in_first, "ab");
    add_text(&in_second, "abc");
    expect_finding(CURLEW_DIFFERENT, 2, 0);
    compares("one value begins the other");

    lend_copies("cu c", "\xff\x80", 2, "\0\x7f", 2);
    add_list(&in_first, CURLEW_UNSIGNED, 1, 255LL);
    add_list(&in_first, CURLEW_SIGNED, 1, -128LL);
    add_list(&in_second, CURLEW_UNSIGNED, 1, 0LL);
    add_list(&in_second, CURLEW_SIGNED, 1, 127LL);
    expect_finding(CURLEW_DIFFERENT, 7, 8);
    expect_finding(CURLEW_DIFFERENT, 0, 64);
    compares("bits of integers as they lie in the area");

    lend_copies("x2", "ab", 2, "cd", 2);
    set_run(&report, NULL, 0);
    compares("no value fields, no report");

    lend_copies("a0 c*", "", 0, "\4", 1);
    add_bytes(&in_first, "", 0);
    add_list(&in_first, CURLEW_SIGNED, 0);
    add_bytes(&in_second, "", 0);
    add_list(&in_second, CURLEW_SIGNED, 1, 4LL);
    expect_finding(CURLEW_SAME, 0, 0);
    expect_finding(CURLEW_DIFFERENT, 0, 0);
    compares("empty values");
}

static void test_refusals(void)
{
    static uint8_t large[CURLEW_MAX_RECORD + 1];

    lend_copies("a t", "a", 1, "b", 1);
    refused("an unknown type", CURLEW_BAD_TYPE, 2);
    lend_copies("a", "a", 1, "b", 1);
    set_run(&second_slots, NULL, 5);
    refused("second slots that are no whole number", CURLEW_BAD_SIZE, 0);
    lend_copies("a2", "ab", 2, "cd", 2);
    set_run(&first_area, NULL, 1);
    set_run(&second_slots, NULL, 5);
    refused("the first reading's refusal comes first", CURLEW_NO_ROOM, 0);
    lend_copies("a", "a", 1, (const char *)large, sizeof large);
    refused("a second record over its limit", CURLEW_BAD_SIZE, 0);
    lend_copies("a", "a", 1, "b", 1);
    set_run(&second_slots, NULL, 0);
    refused("too few slots for the second", CURLEW_BAD_SLOTS, 0);
    lend_copies("a2", "ab", 2, "cd", 2);
    set_run(&second_area, NULL, 1);
    refused("no room for the second", CURLEW_NO_ROOM, 0);
    lend_copies("a a", "ab", 2, "cd", 2);
    set_run(&report, NULL, 2 * CURLEW_FINDING_SIZE - 1);
    refused("a report that is a byte too short", CURLEW_NO_ROOM, 0);
}

static void test_reply_sizes(void)
{
    static const size_t sizes[] = {0, 11, 13, 24};
    size_t i;

    for (i = 0; i < sizeof sizes / sizeof sizes[0]; i++) {
        lend_copies("a", "a", 1, "b", 1);
        set_run(&reply, NULL, sizes[i]);
        run_compare("a reply of another size", CURLEW_BAD_SIZE);
    }
}

int main(void)
{
    open_run(&layout, "layout", 0);
    open_run(&first, "first record", 0);
    open_run(&second, "second record", 0);
    open_run(&first_slots, "first slots", 1);
    open_run(&first_area, "first area", 1);
    open_run(&second_slots, "second slots", 1);
    open_run(&second_area, "second area", 1);
    open_run(&report, "report", 1);
    open_run(&reply, "reply", 1);
    test_verdicts();
    test_refusals();
    test_reply_sizes();
    return summary();
}
