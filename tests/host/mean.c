/*
 * Host tests of the mean of the marked legs. What is expected is written out by hand. Each case runs with every run at
 * the low end of its open pages, at the high end, and with null pointers for empty runs; after each call every byte of
 * every run, and of what surrounds it, is compared with what it should be.
 */
#include "harness.h"

static struct run slots, area, reply;
static struct run *const runs[] = {&slots, &area, &reply};
#define RUNS (sizeof runs / sizeof runs[0])

static struct values given;
static uint8_t answer[CURLEW_MEAN_REPLY];

static void run_mean(const char *name, uint32_t number)
{
    int place;

    for (place = LOW; place < PLACES; place++) {
        uint32_t returned;

        lend_runs(runs, RUNS, (enum place)place);
        returned = curlew_mean(slots.guard.at, slots.len, area.guard.at, area.len, reply.guard.at, reply.len);
        check(returned == number, name, "number returned");
        check_runs(runs, RUNS, name);
    }
}

static void lend_legs(void)
{
    set_run(&slots, given.slots, given.count * CURLEW_SLOT_SIZE);
    set_run(&area, given.area, given.used);
    set_run(&reply, NULL, CURLEW_MEAN_REPLY);
}

static void expect_answer(uint32_t number, uint32_t first)
{
    memset(answer, 0, sizeof answer);
    curlew_put_number(answer, number);
    curlew_put_number(answer + 4, first);
    expect_run(&reply, 0, answer, sizeof answer);
}

static void mean_is(const char *name, uint32_t unset, double mean)
{
    uint64_t pattern;

    lend_legs();
    expect_answer(CURLEW_OK, unset);
    memcpy(&pattern, &mean, sizeof mean);
    curlew_put_number(answer + 12, 1);
    curlew_put_uint(answer + 16, pattern);
    run_mean(name, CURLEW_OK);
}

static void no_mean(const char *name, uint32_t unset)
{
    lend_legs();
    expect_answer(CURLEW_OK, unset);
    run_mean(name, CURLEW_OK);
}

static void refused(const char *name, uint32_t number, uint32_t place)
{
    lend_legs();
    expect_answer(number, place);
    run_mean(name, number);
}

/* ---- the tests ---- */

static void test_means(void)
{
    begin(&given, 0);
    no_mean("no slots", 0);
    add_unset(&given, 4000000000u, 9);
    no_mean("one slot, not set", 1);
    add_list(&given, CURLEW_SIGNED, 1, 0LL);
    mean_is("a leg of 0 counts", 1, 0.0);
    add_list(&given, CURLEW_UNSIGNED, 1, 70LL);
    mean_is("a leg that is not set does not count", 1, 35.0);
    add_unset(&given, 0, 0);
    add_list(&given, CURLEW_SIGNED, 1, 30LL);
    mean_is("a quotient that is rounded", 2, 100.0 / 3.0);
    begin(&given, 0);
    add_list(&given, CURLEW_SIGNED, 1, 1000000LL);
    mean_is("the highest mark", 0, 1000000.0);
}

static void test_refusals(void)
{
    begin(&given, 0);
    add_list(&given, CURLEW_SIGNED, 1, 5LL);
    add_list(&given, CURLEW_SIGNED, 1, -1LL);
    refused("a mark below 0", CURLEW_BAD_MARK, 1);
    begin(&given, 0);
    add_list(&given, CURLEW_UNSIGNED, 1, -1LL);
    refused("a mark of 2 to the 64, less 1", CURLEW_BAD_MARK, 0);
    begin(&given, 0);
    add_unset(&given, 0, 0);
    add_list(&given, CURLEW_SIGNED, 1, 1000001LL);
    refused("a mark above the highest", CURLEW_BAD_MARK, 1);
    begin(&given, 0);
    add_text(&given, "5");
    refused("a string", CURLEW_WRONG_KIND, 0);
    begin(&given, 0);
    add_reals(&given, 1, 5.0);
    refused("a real", CURLEW_WRONG_KIND, 0);
    begin(&given, 0);
    add_text(&given, "5");
    add_list(&given, CURLEW_SIGNED, 2, 1LL, 2LL);
    curlew_put_slot(given.slots, 0, CURLEW_UNSET, 0, 0);
    refused("two integers", CURLEW_BAD_LIST, 1);
    curlew_put_slot(given.slots, 1, CURLEW_SIGNED, 1, 0);
    refused("no integer", CURLEW_BAD_LIST, 1);
    curlew_put_slot(given.slots, 1, CURLEW_STRING, 0, 100);
    refused("outside the area comes before the kind", CURLEW_BAD_SLOT, 1);
    curlew_put_slot(given.slots, 1, 5, 0, 1);
    refused("a kind above the last", CURLEW_BAD_SLOT, 1);
}

static void test_sizes(void)
{
    static const size_t sizes[] = {0, 12, 23, 25};
    size_t i;

    begin(&given, 0);
    for (i = 0; i < CURLEW_MAX_SLOTS; i++)
        add_list(&given, CURLEW_SIGNED, 1, 1000000LL);
    mean_is("as many slots as may be lent", 0, 1000000.0);
    add_unset(&given, 0, 0);
    refused("slots over their limit", CURLEW_BAD_SIZE, 0);
    begin(&given, 0);
    add_list(&given, CURLEW_SIGNED, 1, 4LL);
    lend_legs();
    set_run(&slots, given.slots, CURLEW_SLOT_SIZE - 1);
    expect_answer(CURLEW_BAD_SIZE, 0);
    run_mean("slots that are no whole number", CURLEW_BAD_SIZE);
    lend_legs();
    set_run(&area, NULL, CURLEW_MAX_AREA + 1);
    expect_answer(CURLEW_BAD_SIZE, 0);
    run_mean("an area over its limit", CURLEW_BAD_SIZE);
    for (i = 0; i < sizeof sizes / sizeof sizes[0]; i++) {
        lend_legs();
        set_run(&reply, NULL, sizes[i]);
        run_mean("a reply of another size", CURLEW_BAD_SIZE);
    }
}

static void test_helper(void)
{
    uint8_t bytes[CURLEW_MEAN_REPLY] = {0};
    double mean = -1.0;

    check(curlew_get_mean(bytes, &mean) == 0 && mean == -1.0, "no leg marked", "curlew_get_mean");
    bytes[15] = 1;
    bytes[16] = 0x40;
    check(curlew_get_mean(bytes, &mean) == 1 && mean == 2.0, "a mean of 2", "curlew_get_mean");
}

int main(void)
{
    open_run(&slots, "slots", 0);
    open_run(&area, "area", 0);
    open_run(&reply, "reply", 1);
    test_means();
    test_refusals();
    test_sizes();
    test_helper();
    return summary();
}
