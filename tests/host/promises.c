/*
 * Host tests of what a layout promises, and of layouts with fields added. What is expected is written out by hand. Each case runs
 * with all runs at the low end of their open pages, at the high end, and with null pointers for empty runs; after each call every
 * byte of the runs, and of what surrounds them, is compared with what it should be.
 */
#include "harness.h"

#define NOWHERE CURLEW_NOWHERE

static struct run old_layout, new_layout, reply;
static struct run *const one[] = {&old_layout, &reply};
static struct run *const two[] = {&old_layout, &new_layout, &reply};
#define ONE (sizeof one / sizeof one[0])
#define TWO (sizeof two / sizeof two[0])

static uint8_t answer[CURLEW_PROMISES_REPLY];

static void expect(uint32_t number, uint32_t first, uint32_t second, uint32_t third)
{
    curlew_put_number(answer, number);
    curlew_put_number(answer + 4, first);
    curlew_put_number(answer + 8, second);
    curlew_put_number(answer + 12, third);
    set_run(&reply, NULL, sizeof answer);
    expect_run(&reply, 0, answer, sizeof answer);
}

static void run_promises(const char *name, uint32_t number)
{
    int place;

    for (place = LOW; place < PLACES; place++) {
        uint32_t returned;

        lend_runs(one, ONE, (enum place)place);
        returned = curlew_promises(old_layout.guard.at, old_layout.len, reply.guard.at, reply.len);
        check(returned == number, name, "number returned");
        check_runs(one, ONE, name);
    }
}

static void run_extends(const char *name, uint32_t number)
{
    int place;

    for (place = LOW; place < PLACES; place++) {
        uint32_t returned;

        lend_runs(two, TWO, (enum place)place);
        returned = curlew_extends(old_layout.guard.at, old_layout.len, new_layout.guard.at, new_layout.len,
                                  reply.guard.at, reply.len);
        check(returned == number, name, "number returned");
        check_runs(two, TWO, name);
    }
}

static void promises(const char *text, uint32_t number, uint32_t grows, uint32_t keeps, uint32_t joins)
{
    set_run(&old_layout, text, strlen(text));
    expect(number, grows, keeps, joins);
    run_promises(text, number);
}

static void extends(const char *from, const char *to, uint32_t number, uint32_t first, uint32_t second, uint32_t third)
{
    set_run(&old_layout, from, strlen(from));
    set_run(&new_layout, to, strlen(to));
    expect(number, first, second, third);
    run_extends(to, number);
}

/* ---- the tests ---- */

static void test_promises(void)
{
    promises("", CURLEW_OK, NOWHERE, NOWHERE, NOWHERE);
    promises("a6 b8 B16h2 H4 c s2 S3 iu I4 w Wu q Q2", CURLEW_OK, NOWHERE, NOWHERE, NOWHERE);
    promises("a6 A12 Su", CURLEW_OK, NOWHERE, 3, NOWHERE);
    promises("a b", CURLEW_OK, NOWHERE, 2, NOWHERE);
    promises("b8 b9", CURLEW_OK, NOWHERE, 3, NOWHERE);
    promises("h2 H3", CURLEW_OK, NOWHERE, 3, NOWHERE);
    promises("c r", CURLEW_OK, NOWHERE, 2, NOWHERE);
    promises("c x2 c", CURLEW_OK, NOWHERE, 2, NOWHERE);
    promises("c  su*", CURLEW_OK, 3, 3, NOWHERE);
    promises("c0 X c", CURLEW_OK, 0, 0, 3);
    promises("a2@4c", CURLEW_OK, 2, 2, 2);
    promises("cX", CURLEW_OK, 1, 1, 1);
    promises("a t", CURLEW_BAD_TYPE, 2, 0, 0);
    promises("a3 c32769 t", CURLEW_BAD_COUNT, 4, 0, 0);
    promises("a @", CURLEW_BAD_MOVE, 2, 0, 0);
    promises("x*", CURLEW_BAD_MOVE, 0, 0, 0);
}

static void test_extends(void)
{
    extends("", "", CURLEW_OK, 0, 0, 0);
    extends("", "c", CURLEW_OK, 0, 1, 0);
    extends("A8 S2", "A8 S2 S", CURLEW_OK, 2, 1, 0);
    extends("c3 su x2", " c03suxu2", CURLEW_OTHER_FIELDS, 6, 0, 1);
    extends("c3 su x2", " c03sux2  a", CURLEW_OK, 3, 1, 0);
    extends("A8 S2", "A8 S3", CURLEW_OTHER_FIELDS, 3, 0, 1);
    extends("S c", "S c1", CURLEW_OTHER_FIELDS, 2, 0, 1);
    extends("S", "Su c", CURLEW_OTHER_FIELDS, 0, 0, 1);
    extends("S c", "S  ", CURLEW_OTHER_FIELDS, 3, 0, 1);
    extends("s S i I w W c a A b B h H r R q Q x", "s S i I w W c a A b B h H r R q Q x", CURLEW_OK, 18, 0, 0);
    extends("c*", "c1", CURLEW_OTHER_FIELDS, 0, 0, 1);
    extends("X", "@1", CURLEW_OTHER_FIELDS, 0, 0, 1);
    extends("A8 S2", "A8 S2 c*", CURLEW_NOT_PLAIN, 6, 0, 1);
    extends("c*", "c*", CURLEW_NOT_PLAIN, 0, 0, 1);
    extends("c", "c a0", CURLEW_NOT_PLAIN, 2, 0, 1);
    extends("X", "X", CURLEW_NOT_PLAIN, 0, 0, 1);
    extends("t", "t", CURLEW_BAD_TYPE, 0, 0, 0);
    extends("c", " t", CURLEW_BAD_TYPE, 1, 0, 1);
    extends("c32769", "t", CURLEW_BAD_COUNT, 1, 0, 0);
    extends("c", "c x*", CURLEW_BAD_MOVE, 2, 0, 1);
}

/* n one-letter fields, and a text after them */
static const char *fields(size_t n, char type, const char *behind)
{
    static char texts[2][2 * CURLEW_MAX_LAYOUT];
    static int which;
    char *text = texts[which ^= 1];

    memset(text, type, n);
    strcpy(text + n, behind);
    return text;
}

static void test_slots(void)
{
    promises(fields(63, 'c', ""), CURLEW_OK, NOWHERE, NOWHERE, NOWHERE);
    promises(fields(64, 'c', ""), CURLEW_OK, NOWHERE, NOWHERE, NOWHERE);
    promises(fields(65, 'c', ""), CURLEW_OK, 64, 64, NOWHERE);
    promises(fields(66, 'c', ""), CURLEW_OK, 64, 64, NOWHERE);
    promises(fields(64, 'c', " A"), CURLEW_OK, 65, 65, NOWHERE);
    promises(fields(63, 'c', "A q"), CURLEW_OK, 65, 63, NOWHERE);
    promises(fields(64, 'c', "xxx"), CURLEW_OK, NOWHERE, 64, NOWHERE);
    promises(fields(64, 'c', "x c"), CURLEW_OK, 66, 64, NOWHERE);
    promises(fields(63, 'c', "c*c"), CURLEW_OK, 63, 63, NOWHERE);
    promises(fields(64, 'c', "cX"), CURLEW_OK, 64, 64, 65);
    extends("c", fields(63, 'c', ""), CURLEW_OK, 1, 62, 0);
    extends("c", fields(64, 'c', ""), CURLEW_OK, 1, 63, 0);
    extends("c", fields(65, 'c', ""), CURLEW_BAD_SLOTS, 64, 0, 1);
    extends(fields(64, 'c', ""), fields(64, 'c', " a"), CURLEW_BAD_SLOTS, 65, 0, 1);
    extends(fields(64, 'c', ""), fields(64, 'c', "x"), CURLEW_OK, 64, 1, 0);
    extends(fields(64, 'c', ""), fields(64, 'c', "x  b8"), CURLEW_BAD_SLOTS, 67, 0, 1);
    extends(fields(65, 'c', ""), fields(65, 'c', ""), CURLEW_BAD_SLOTS, 64, 0, 1);
    extends(fields(65, 'c', ""), "c", CURLEW_OTHER_FIELDS, 1, 0, 1);
    extends(fields(65, 'c', ""), fields(64, 'c', ""), CURLEW_OTHER_FIELDS, 64, 0, 1);
    extends("c", fields(65, 'c', " c*"), CURLEW_NOT_PLAIN, 66, 0, 1);
    extends("c", fields(64, 'c', "c0"), CURLEW_NOT_PLAIN, 64, 0, 1);
    extends("c", fields(200, 'x', ""), CURLEW_OTHER_FIELDS, 0, 0, 1);
    extends("x", fields(200, 'x', ""), CURLEW_OK, 1, 199, 0);
}

static void test_room(void)
{
    promises("a32767", CURLEW_OK, NOWHERE, NOWHERE, NOWHERE);
    promises("a32768", CURLEW_OK, NOWHERE, NOWHERE, NOWHERE);
    promises("a32767c", CURLEW_OK, NOWHERE, NOWHERE, NOWHERE);
    promises("a32768 c", CURLEW_OK, 7, 7, NOWHERE);
    promises("c a32768", CURLEW_OK, 2, 2, NOWHERE);
    promises("s16384", CURLEW_OK, NOWHERE, NOWHERE, NOWHERE);
    promises("s16385", CURLEW_OK, 0, 0, NOWHERE);
    promises("w32768", CURLEW_OK, 0, 0, NOWHERE);
    promises("q4096", CURLEW_OK, NOWHERE, NOWHERE, NOWHERE);
    promises("q4096 x", CURLEW_OK, 6, 6, NOWHERE);
    promises("b32768 h32768 a12288", CURLEW_OK, NOWHERE, NOWHERE, NOWHERE);
    promises("b32768 h32768 a12288 b", CURLEW_OK, 21, 21, NOWHERE);
    promises("A32768 c c*", CURLEW_OK, 7, 0, NOWHERE);
    promises("c* a32768 c", CURLEW_OK, 0, 0, NOWHERE);
    promises("a32768 X2 c", CURLEW_OK, 7, 7, 7);
    extends("a32768", "a32768", CURLEW_OK, 1, 0, 0);
    extends("a32768", "a32768 a", CURLEW_NO_ROOM, 7, 0, 1);
    extends("a32768", "a32768x", CURLEW_NO_ROOM, 6, 0, 1);
    extends("x32768", "x32768 c c", CURLEW_NO_ROOM, 7, 0, 1);
    extends("c", "c a32767", CURLEW_OK, 1, 1, 0);
    extends("c", "c a32768", CURLEW_NO_ROOM, 2, 0, 1);
    extends("w4095", "w4095 b64", CURLEW_OK, 1, 1, 0);
    extends("w4095", "w4095 b65", CURLEW_NO_ROOM, 6, 0, 1);
    extends("w4095", "w4095 b64 b", CURLEW_NO_ROOM, 10, 0, 1);
    extends("i32768", "i32768", CURLEW_NO_ROOM, 0, 0, 1);
    extends("w32768", "w32768 c*", CURLEW_NOT_PLAIN, 7, 0, 1);
    extends("w32768", "c", CURLEW_OTHER_FIELDS, 0, 0, 1);
    extends("", fields(64, 'c', " a32768"), CURLEW_BAD_SLOTS, 65, 0, 1);
    extends("", fields(64, 'w', " a32768 a"), CURLEW_BAD_SLOTS, 65, 0, 1);
    extends("", fields(63, 'w', " a32768"), CURLEW_NO_ROOM, 64, 0, 1);
    extends("", "w32768 w32768 w32768", CURLEW_NO_ROOM, 0, 0, 1);
}

static void test_sizes(void)
{
    static const size_t sizes[] = {0, 12, 15, 17};
    char text[CURLEW_MAX_LAYOUT + 2];
    size_t i;

    memset(text, 'x', sizeof text);
    text[CURLEW_MAX_LAYOUT + 1] = '\0';
    promises(text, CURLEW_BAD_SIZE, 0, 0, 0);
    extends(text, "x", CURLEW_BAD_SIZE, 0, 0, 0);
    extends("x", text, CURLEW_BAD_SIZE, 0, 0, 1);
    text[CURLEW_MAX_LAYOUT] = '\0';
    promises(text, CURLEW_OK, NOWHERE, 0, NOWHERE);
    extends("x", text, CURLEW_OK, 1, CURLEW_MAX_LAYOUT - 1, 0);
    extends(text, text, CURLEW_OK, CURLEW_MAX_LAYOUT, 0, 0);
    extends(text, "x", CURLEW_OTHER_FIELDS, 1, 0, 1);
    memset(text, 'c', CURLEW_MAX_LAYOUT);
    promises(text, CURLEW_OK, CURLEW_MAX_SLOTS, CURLEW_MAX_SLOTS, NOWHERE);
    extends(text, text, CURLEW_BAD_SLOTS, CURLEW_MAX_SLOTS, 0, 1);
    for (i = 0; i < sizeof sizes / sizeof sizes[0]; i++) {
        set_run(&old_layout, "a", 1);
        set_run(&new_layout, "a", 1);
        set_run(&reply, NULL, sizes[i]);
        run_promises("a reply of another size", CURLEW_BAD_SIZE);
        run_extends("a reply of another size", CURLEW_BAD_SIZE);
    }
}

int main(void)
{
    open_run(&old_layout, "old layout", 0);
    open_run(&new_layout, "new layout", 0);
    open_run(&reply, "reply", 1);
    test_promises();
    test_extends();
    test_slots();
    test_room();
    test_sizes();
    return summary();
}
