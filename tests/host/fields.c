/*
 * Host tests of a layout's fields. What is expected is written out by hand. Each case runs with all runs at the low end of their
 * open pages, at the high end, and with null pointers for empty runs; after each call every byte of the runs, and of what
 * surrounds them, is compared with what it should be.
 */
#include "harness.h"

#define NONE CURLEW_NO_COUNT
#define STAR CURLEW_STAR
#define NO CURLEW_NO_SLOT
#define OPEN CURLEW_OPEN

static struct run layout, fields, reply;
static struct run *const runs[] = {&layout, &fields, &reply};
#define RUNS (sizeof runs / sizeof runs[0])
#define COUNT(rows) (sizeof rows / sizeof rows[0])

/* The bytes that the call should write, and the fields that they say. */
static uint8_t answer[CURLEW_FIELDS_REPLY], bytes[CURLEW_MAX_LAYOUT * CURLEW_FIELD_SIZE];

static int same(struct curlew_field a, struct curlew_field b)
{
    return a.place == b.place && a.length == b.length && a.type == b.type && a.flag == b.flag && a.count == b.count &&
           a.slot == b.slot && a.position == b.position && a.bytes == b.bytes;
}

/* Makes the call in each place; where it is accepted, curlew_get_field gives these rows. */
static void run_fields(const char *name, uint32_t number, const struct curlew_field *rows, size_t count)
{
    int place;
    size_t i;

    for (place = LOW; place < PLACES; place++) {
        uint32_t returned;

        lend_runs(runs, RUNS, (enum place)place);
        returned = curlew_fields(layout.guard.at, layout.len, fields.guard.at, fields.len, reply.guard.at, reply.len);
        check(returned == number, name, "number returned");
        check_runs(runs, RUNS, name);
        for (i = 0; i < count; i++)
            check(same(curlew_get_field(fields.guard.at, i), rows[i]), name, "curlew_get_field");
    }
}

static void answers(uint32_t number, uint32_t first)
{
    set_run(&reply, NULL, sizeof answer);
    curlew_put_number(answer, number);
    curlew_put_number(answer + 4, first);
    curlew_put_number(answer + 8, 0);
    expect_run(&reply, 0, answer, sizeof answer);
}

/* The layout of len bytes has these rows, in a run that is longer by `more` bytes. */
static void lists_in(const char *text, size_t len, const struct curlew_field *rows, size_t count, size_t more)
{
    size_t i;

    for (i = 0; i < count; i++) {
        uint8_t *to = bytes + i * CURLEW_FIELD_SIZE;

        curlew_put_number(to, rows[i].place);
        curlew_put_number(to + 4, rows[i].length);
        curlew_put_number(to + 8, rows[i].type);
        curlew_put_number(to + 12, rows[i].flag);
        curlew_put_number(to + 16, rows[i].count);
        curlew_put_number(to + 20, rows[i].slot);
        curlew_put_number(to + 24, rows[i].position);
        curlew_put_number(to + 28, rows[i].bytes);
    }
    set_run(&layout, text, len);
    set_run(&fields, NULL, count * CURLEW_FIELD_SIZE + more);
    expect_run(&fields, 0, bytes, count * CURLEW_FIELD_SIZE);
    answers(CURLEW_OK, (uint32_t)count);
    run_fields(text, CURLEW_OK, rows, count);
}

static void refused_in(const char *text, size_t len, size_t room, uint32_t number, uint32_t place)
{
    set_run(&layout, text, len);
    set_run(&fields, NULL, room);
    answers(number, place);
    run_fields(text, number, NULL, 0);
}

/* In a run that has just the bytes, in longer ones, and, one byte shorter, not at all. */
static void lists(const char *text, const struct curlew_field *rows, size_t count)
{
    lists_in(text, strlen(text), rows, count, 0);
    lists_in(text, strlen(text), rows, count, 1);
    lists_in(text, strlen(text), rows, count, 1000);
    if (count > 0)
        refused_in(text, strlen(text), count * CURLEW_FIELD_SIZE - 1, CURLEW_NO_ROOM, 0);
}

static void refused(const char *text, uint32_t number, uint32_t place)
{
    refused_in(text, strlen(text), 0, number, place);
    refused_in(text, strlen(text), CURLEW_MAX_LAYOUT * CURLEW_FIELD_SIZE, number, place);
}

/* ---- the tests ---- */

static void test_types(void)
{
    static const struct curlew_field rows[] = {
        {0, 1, 'a', 0, NONE, 0, 0, 1},     {1, 2, 'A', 0, 3, 1, 1, 3},       {3, 2, 'b', 0, 9, 2, 4, 2},
        {5, 2, 'B', 1, NONE, 3, 6, 1},     {7, 2, 'h', 0, 3, 4, 7, 2},       {9, 3, 'H', 0, 4, 5, 9, 2},
        {13, 1, 'c', 0, NONE, 6, 11, 1},   {14, 2, 's', 0, 0, 7, 12, 0},     {16, 4, 'S', 1, 2, 8, 12, 4},
        {21, 1, 'i', 0, NONE, 9, 16, 4},   {22, 2, 'I', 0, 2, 10, 20, 8},    {24, 1, 'w', 0, NONE, 11, 28, 8},
        {25, 6, 'W', 0, 32768, 12, 36, 262144}, {31, 1, 'r', 0, NONE, 13, 262180, 4}, {32, 2, 'R', 0, 2, 14, 262184, 8},
        {34, 1, 'q', 0, NONE, 15, 262192, 8}, {35, 2, 'Q', 0, 2, 16, 262200, 16}, {37, 3, 'x', 1, 7, NO, 262216, 7},
        {40, 1, 'x', 0, NONE, NO, 262223, 1},
    };

    lists("aA3b9Buh3H04 cs0Su02 iI2wW32768rR2qQ2xu7x", rows, COUNT(rows));
}

static void test_moves(void)
{
    static const struct curlew_field back[] = {
        {1, 2, 'a', 0, 5, 0, 0, 5},       {3, 2, 'X', 0, 2, NO, 5, 0},      {5, 2, 'a', 0, 1, 1, 3, 1},
        {7, 2, '@', 0, STAR, NO, 4, 0},   {10, 2, 'a', 0, 2, 2, 5, 2},      {13, 3, 'X', 1, 9, NO, 7, 0},
        {16, 1, 'X', 0, NONE, NO, 0, 0},  {17, 3, '@', 0, 10, NO, 0, 0},    {20, 1, 'X', 0, NONE, NO, 10, 0},
        {22, 2, 'X', 0, STAR, NO, 9, 0},  {25, 1, 'c', 0, NONE, 3, 0, 1},   {26, 3, '@', 1, STAR, NO, 1, 0},
        {29, 1, 'c', 0, NONE, 4, 10, 1},
    };

    lists(" a5X2a1@* a2 Xu9X@10X X* c@u*c ", back, COUNT(back));
}

static void test_stars(void)
{
    static const struct curlew_field open[] = {
        {0, 2, 'a', 0, 6, 0, 0, 6},          {3, 3, 'A', 0, 12, 1, 6, 12},        {7, 2, 'S', 1, NONE, 2, 18, 2},
        {11, 3, 'S', 1, STAR, 3, 20, OPEN},  {14, 2, 'X', 0, 2, NO, OPEN, 0},     {17, 2, 'x', 0, STAR, NO, OPEN, OPEN},
        {20, 1, 'c', 0, NONE, 4, OPEN, 1},   {22, 3, '@', 0, 10, NO, OPEN, 0},    {26, 3, 'b', 0, 12, 5, 10, 2},
        {30, 2, '@', 0, STAR, NO, 12, 0},    {33, 2, 'X', 0, STAR, NO, OPEN, 0},  {36, 1, 'c', 0, NONE, 6, 0, 1},
    };
    static const struct curlew_field skip[] = {
        {0, 2, '@', 0, STAR, NO, 0, 0},      {2, 2, 'x', 0, STAR, NO, 0, OPEN},   {4, 2, '@', 0, STAR, NO, OPEN, 0},
        {6, 6, 'X', 0, 32768, NO, OPEN, 0},  {12, 1, 'c', 0, NONE, 0, OPEN, 1},   {13, 6, '@', 0, 32768, NO, OPEN, 0},
        {19, 2, '@', 0, STAR, NO, 32768, 0}, {21, 2, 'b', 0, STAR, 1, OPEN, OPEN},
    };

    lists("a6 A12 Su  Su*X2 x* c @10 b12 @* X* c", open, COUNT(open));
    lists("@*x*@*X32768c@32768@*b*", skip, COUNT(skip));
}

static void test_refusals(void)
{
    refused("a t", CURLEW_BAD_TYPE, 2);
    refused("cu5u", CURLEW_BAD_TYPE, 3);
    refused("a3 c32769 t", CURLEW_BAD_COUNT, 4);
    refused("cu0032769", CURLEW_BAD_COUNT, 2);
    refused("a @", CURLEW_BAD_MOVE, 2);
    refused("x* @u", CURLEW_BAD_MOVE, 3);
}

static void test_sizes(void)
{
    static const size_t sizes[] = {0, 11, 13, 16, 32};
    static struct curlew_field rows[CURLEW_MAX_LAYOUT];
    char text[CURLEW_MAX_LAYOUT + 1];
    size_t i;

    lists("", NULL, 0);
    lists("   ", NULL, 0);
    for (i = 0; i < CURLEW_MAX_LAYOUT; i++) {
        struct curlew_field row = {(uint32_t)i, 1, 'w', 0, NONE, (uint32_t)i, (uint32_t)i * 8, 8};

        rows[i] = row;
    }
    memset(text, 'w', sizeof text);
    lists_in(text, CURLEW_MAX_LAYOUT, rows, CURLEW_MAX_LAYOUT, 0);
    lists_in(text, CURLEW_MAX_LAYOUT, rows, CURLEW_MAX_LAYOUT, CURLEW_MAX_SHEET - sizeof bytes);
    refused_in(text, CURLEW_MAX_LAYOUT, sizeof bytes - 1, CURLEW_NO_ROOM, 0);
    refused_in(text, CURLEW_MAX_LAYOUT + 1, 0, CURLEW_BAD_SIZE, 0);
    refused_in(text, CURLEW_MAX_LAYOUT + 1, 2 * sizeof bytes, CURLEW_BAD_SIZE, 0);
    for (i = 0; i < sizeof sizes / sizeof sizes[0]; i++) {
        set_run(&layout, "a", 1);
        set_run(&fields, NULL, CURLEW_FIELD_SIZE);
        set_run(&reply, NULL, sizes[i]);
        run_fields("a reply of another size", CURLEW_BAD_SIZE, NULL, 0);
    }
}

int main(void)
{
    open_run(&layout, "layout", 0);
    open_run(&fields, "fields", 1);
    open_run(&reply, "reply", 1);
    test_types();
    test_moves();
    test_stars();
    test_refusals();
    test_sizes();
    return summary();
}
