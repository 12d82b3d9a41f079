/*
 * Host tests of layouts from Perl's templates. What is expected is written out by hand. Each case runs with every run
 * at the low end of its open pages, at the high end, and with null pointers for empty runs; after each call every byte
 * of every run, and of what surrounds it, is compared with what it should be.
 */
#include "harness.h"

static struct run given, layout, reply;
static struct run *const runs[] = {&given, &layout, &reply};
#define RUNS (sizeof runs / sizeof runs[0])

static uint8_t answer[CURLEW_PERL_REPLY];

static void run_perl(const char *name, uint32_t number)
{
    int place;

    for (place = LOW; place < PLACES; place++) {
        uint32_t returned;

        lend_runs(runs, RUNS, (enum place)place);
        returned = curlew_from_perl(given.guard.at, given.len, layout.guard.at, layout.len, reply.guard.at, reply.len);
        check(returned == number, name, "number returned");
        check_runs(runs, RUNS, name);
    }
}

static void lend(const char *text, size_t len, size_t room)
{
    set_run(&given, text, len);
    set_run(&layout, NULL, room);
    set_run(&reply, NULL, CURLEW_PERL_REPLY);
}

static void expect_answer(uint32_t number, uint32_t first)
{
    memset(answer, 0, sizeof answer);
    curlew_put_number(answer, number);
    curlew_put_number(answer + 4, first);
    expect_run(&reply, 0, answer, sizeof answer);
}

static void becomes(const char *text, const char *result, size_t room)
{
    lend(text, strlen(text), room);
    expect_answer(CURLEW_OK, (uint32_t)strlen(result));
    expect_run(&layout, 0, result, strlen(result));
    run_perl(text, CURLEW_OK);
}

static void refused(const char *text, uint32_t place)
{
    lend(text, strlen(text), 300);
    expect_answer(CURLEW_BAD_TEMPLATE, place);
    run_perl(text, CURLEW_BAD_TEMPLATE);
}

/* ---- the tests ---- */

static void test_layouts(void)
{
    becomes("(n2a3)2 C", "Su2a3Su2a3cu", 300);
    becomes("(n2a3)2 C", "Su2a3Su2a3cu", 12);
    becomes("", "", 0);
    becomes("   ", "", 4);
    becomes("a b2B3 h4H5x6", "ab2B3h4H5x6", 60);
    becomes("CnNvV C9", "cuSuIusuiucu9", 60);
    becomes("a4096(x)1", "a4096x", 60);
    becomes("( ( C )2 n )3", "cucuSucucuSucucuSu", 60);
    becomes("((((((((a))))))))", "a", 1);
    becomes("((a)64)2((a)64)2", "aaaaaaaaaaaaaaaaaaaaaaaaaaaaaaaaaaaaaaaaaaaaaaaaaaaaaaaaaaaaaaaa"
                                "aaaaaaaaaaaaaaaaaaaaaaaaaaaaaaaaaaaaaaaaaaaaaaaaaaaaaaaaaaaaaaaa"
                                "aaaaaaaaaaaaaaaaaaaaaaaaaaaaaaaaaaaaaaaaaaaaaaaaaaaaaaaaaaaaaaaa"
                                "aaaaaaaaaaaaaaaaaaaaaaaaaaaaaaaaaaaaaaaaaaaaaaaaaaaaaaaaaaaaaaaa",
            256);
}

static void test_places(void)
{
    refused("A", 0);
    refused("a A3", 2);
    refused("a*", 1);
    refused("a0", 1);
    refused("a4097", 4);
    refused("a5000", 4);
    refused("a 3", 2);
    refused("(a)65", 4);
    refused("(a)0", 3);
    refused("(a) 2", 4);
    refused("()", 1);
    refused("( )", 2);
    refused("a)", 1);
    refused("(a", 2);
    refused("((a)2 ", 6);
    refused("(((((((((a", 8);
    refused("a\tb", 1);
    refused("X", 0);
    refused("a\xff", 1);
}

static void test_room(void)
{
    static const char *const large = "((((((((a)64)64)64)64)64)64)64)64";

    lend("a3", 2, 1);
    expect_answer(CURLEW_NO_ROOM, 0);
    run_perl("a byte too few", CURLEW_NO_ROOM);
    lend("((a)64)4a", 9, 300);
    expect_answer(CURLEW_NO_ROOM, 0);
    run_perl("longer than a layout may be", CURLEW_NO_ROOM);
    lend(large, strlen(large), 300);
    expect_answer(CURLEW_NO_ROOM, 0);
    run_perl("64 to the 8th", CURLEW_NO_ROOM);
}

static void test_sizes(void)
{
    static const size_t sizes[] = {0, 11, 13};
    static char blank[CURLEW_MAX_TEMPLATE + 1];
    size_t i;

    memset(blank, ' ', sizeof blank);
    lend(blank, CURLEW_MAX_TEMPLATE, 5);
    expect_answer(CURLEW_OK, 0);
    run_perl("as long as a template may be", CURLEW_OK);
    lend(blank, CURLEW_MAX_TEMPLATE + 1, 5);
    expect_answer(CURLEW_BAD_SIZE, 0);
    run_perl("a template over its limit", CURLEW_BAD_SIZE);
    for (i = 0; i < sizeof sizes / sizeof sizes[0]; i++) {
        lend("a", 1, 5);
        set_run(&reply, NULL, sizes[i]);
        run_perl("a reply of another size", CURLEW_BAD_SIZE);
    }
}

int main(void)
{
    open_run(&given, "template", 0);
    open_run(&layout, "layout", 1);
    open_run(&reply, "reply", 1);
    test_layouts();
    test_places();
    test_room();
    test_sizes();
    return summary();
}
