/*
 * Host tests of looking at a layout. What is expected is written out by hand. Each case runs with both runs at the low end of
 * their open pages, at the high end, and with null pointers for empty runs; after each call every byte of both runs, and of
 * what surrounds them, is compared with what it should be.
 */
#include "harness.h"

static struct run layout, reply;
static struct run *const runs[] = {&layout, &reply};
#define RUNS (sizeof runs / sizeof runs[0])

static uint8_t answer[CURLEW_LAYOUT_REPLY];

static void run_layout(const char *name, uint32_t number)
{
    int place;

    for (place = LOW; place < PLACES; place++) {
        uint32_t returned;

        lend_runs(runs, RUNS, (enum place)place);
        returned = curlew_layout(layout.guard.at, layout.len, reply.guard.at, reply.len);
        check(returned == number, name, "number returned");
        check_runs(runs, RUNS, name);
    }
}

static void answers(const char *text, size_t len, uint32_t number, uint32_t first, uint32_t second)
{
    set_run(&layout, text, len);
    set_run(&reply, NULL, CURLEW_LAYOUT_REPLY);
    curlew_put_number(answer, number);
    curlew_put_number(answer + 4, first);
    curlew_put_number(answer + 8, second);
    expect_run(&reply, 0, answer, sizeof answer);
    run_layout(text, number);
}

static void is(const char *text, uint32_t slots, uint32_t length)
{
    answers(text, strlen(text), CURLEW_OK, slots, length);
}

static void refused(const char *text, uint32_t number, uint32_t place)
{
    answers(text, strlen(text), number, place, 0);
}

/* ---- the tests ---- */

static void test_layouts(void)
{
    is("", 0, 0);
    is("   ", 0, 0);
    is("a8 A20 Su Iu c6 b12 H8", 7, 46);
    is("a* b* h* c* Wu* r* Q*", 7, 0);
    is("b9 B h3 H", 4, 6);
    is("r q2 R Q", 4, 32);
    is("a5X2a1", 2, 5);
    is("x3 @10 X* a", 1, 10);
    is("a3@*a*@*a", 3, 4);
    is("x32768x32768", 0, 65536);
    is("w32768w32768w32768w32768", 4, 1048576);
}

static void test_refusals(void)
{
    refused("a t", CURLEW_BAD_TYPE, 2);
    refused("a3 c32769 t", CURLEW_BAD_COUNT, 4);
    refused("a @", CURLEW_BAD_MOVE, 2);
    refused("x*", CURLEW_BAD_MOVE, 0);
}

static void test_sizes(void)
{
    static const size_t sizes[] = {0, 11, 13, 16};
    char text[CURLEW_MAX_LAYOUT + 2];
    size_t i;

    memset(text, 'c', sizeof text);
    text[CURLEW_MAX_LAYOUT + 1] = '\0';
    answers(text, CURLEW_MAX_LAYOUT, CURLEW_OK, CURLEW_MAX_LAYOUT, CURLEW_MAX_LAYOUT);
    answers(text, CURLEW_MAX_LAYOUT + 1, CURLEW_BAD_SIZE, 0, 0);
    for (i = 0; i < sizeof sizes / sizeof sizes[0]; i++) {
        set_run(&layout, "a", 1);
        set_run(&reply, NULL, sizes[i]);
        run_layout("a reply of another size", CURLEW_BAD_SIZE);
    }
}

int main(void)
{
    open_run(&layout, "layout", 0);
    open_run(&reply, "reply", 1);
    test_layouts();
    test_refusals();
    test_sizes();
    return summary();
}
