/*
 * Host tests of prepared layouts. A call by a plan is held to the call by its layout: what that returned and left is what is
 * expected, byte for byte. What the calls by a plan answer to numbers that no layout has is written out by hand. Each case
 * runs with all runs at the low end of their open pages, at the high end, and with null pointers for empty runs.
 */
#include "harness.h"

enum { PLAN, SLOTS, AREA, DATA, REPLY, LAYOUT, RUNS };

static struct run lent[RUNS];
static struct run *const runs[] = {&lent[PLAN], &lent[SLOTS], &lent[AREA], &lent[DATA], &lent[REPLY], &lent[LAYOUT]};

static struct values given;
static uint8_t slots[(CURLEW_MAX_SLOTS + 1) * CURLEW_SLOT_SIZE], area[CURLEW_MAX_AREA], data[CURLEW_MAX_RECORD];
static uint8_t answer[CURLEW_READ_REPLY];

static void put_answer(uint32_t number, uint32_t first, uint32_t second)
{
    curlew_put_number(answer, number);
    curlew_put_number(answer + 4, first);
    curlew_put_number(answer + 8, second);
    curlew_put_number(answer + 12, 0);
}

static const uint32_t *plan_run(void)
{
    return (const uint32_t *)(const void *)lent[PLAN].guard.at;
}

/* ---- preparing ---- */

/* Makes the call in each place, with what is expected already set. */
static void prepare_runs(const char *name, uint32_t number)
{
    int place;

    lent[PLAN].writable = 1;
    for (place = LOW; place < PLACES; place++) {
        uint32_t returned;

        lend_runs(runs, RUNS, (enum place)place);
        returned = curlew_prepare(lent[LAYOUT].guard.at, lent[LAYOUT].len, (uint32_t *)(void *)lent[PLAN].guard.at,
                                  lent[PLAN].len / sizeof(uint32_t), lent[REPLY].guard.at, lent[REPLY].len);
        check(returned == number, name, "number returned");
        check_runs(runs, RUNS, name);
    }
    lent[PLAN].writable = 0;
}

static void clear_runs(void)
{
    size_t i;

    for (i = 0; i < RUNS; i++)
        set_run(&lent[i], NULL, 0);
}

/* The layout is refused, in runs of no and of many numbers. */
static void not_prepared(const char *text, size_t len, size_t room, uint32_t number, uint32_t place)
{
    clear_runs();
    set_run(&lent[LAYOUT], text, len);
    set_run(&lent[PLAN], NULL, room * sizeof(uint32_t));
    set_run(&lent[REPLY], NULL, CURLEW_PREPARE_REPLY);
    put_answer(number, place, 0);
    expect_run(&lent[REPLY], 0, answer, CURLEW_PREPARE_REPLY);
    prepare_runs(text, number);
}

/* Prepares a layout into a run with `more` numbers beyond its fields; the plan is the same wherever it is made. */
static void prepare_in(const char *text, const uint32_t *plan, size_t fields, size_t count, size_t more)
{
    clear_runs();
    set_run(&lent[LAYOUT], text, strlen(text));
    set_run(&lent[PLAN], NULL, (fields + more) * sizeof *plan);
    set_run(&lent[REPLY], NULL, CURLEW_PREPARE_REPLY);
    put_answer(CURLEW_OK, (uint32_t)fields, (uint32_t)count);
    expect_run(&lent[REPLY], 0, answer, CURLEW_PREPARE_REPLY);
    expect_run(&lent[PLAN], 0, plan, fields * sizeof *plan);
    prepare_runs(text, CURLEW_OK);
}

static size_t prepare(const char *text, uint32_t *plan, size_t fields, size_t count)
{
    uint8_t reply[CURLEW_PREPARE_REPLY];

    check(curlew_prepare(text, strlen(text), plan, CURLEW_MAX_PLAN, reply, sizeof reply) == CURLEW_OK, text, "prepared");
    check(curlew_get_answer(reply).first == fields, text, "numbers of the plan");
    check(curlew_get_answer(reply).second == count, text, "slots");
    prepare_in(text, plan, fields, count, 0);
    prepare_in(text, plan, fields, count, 1);
    prepare_in(text, plan, fields, count, 1000);
    if (fields > 0)
        not_prepared(text, strlen(text), fields - 1, CURLEW_NO_ROOM, 0);
    return fields;
}

/* ---- packing and reading, as by the layout ---- */

static void set_plan(const uint32_t *plan, size_t fields)
{
    clear_runs();
    set_run(&lent[PLAN], plan, fields * sizeof *plan);
}

static void pack_runs(const char *name, uint32_t number)
{
    int place;

    lent[SLOTS].writable = lent[AREA].writable = 0;
    lent[DATA].writable = 1;
    for (place = LOW; place < PLACES; place++) {
        uint32_t returned;

        lend_runs(runs, RUNS, (enum place)place);
        returned = curlew_pack_plan(plan_run(), lent[PLAN].len / sizeof(uint32_t), lent[SLOTS].guard.at, lent[SLOTS].len,
                                    lent[AREA].guard.at, lent[AREA].len, lent[DATA].guard.at, lent[DATA].len,
                                    lent[REPLY].guard.at, lent[REPLY].len);
        check(returned == number, name, "number returned");
        check_runs(runs, RUNS, name);
    }
}

static void read_runs(const char *name, size_t mark, uint32_t number)
{
    int place;

    lent[SLOTS].writable = lent[AREA].writable = 1;
    lent[DATA].writable = 0;
    for (place = LOW; place < PLACES; place++) {
        uint32_t returned;

        lend_runs(runs, RUNS, (enum place)place);
        returned = curlew_read_plan(plan_run(), lent[PLAN].len / sizeof(uint32_t), lent[DATA].guard.at, lent[DATA].len,
                                    lent[SLOTS].guard.at, lent[SLOTS].len, lent[AREA].guard.at, lent[AREA].len, mark,
                                    lent[REPLY].guard.at, lent[REPLY].len);
        check(returned == number, name, "number returned");
        check_runs(runs, RUNS, name);
    }
}

/* Packs the given values by the layout into room bytes, then by the plan; a place is `at`, where the two differ in it. */
static size_t pack_same(const char *text, const uint32_t *plan, size_t fields, size_t room, const uint32_t *at)
{
    uint32_t number;

    memset(data, 0, sizeof data);
    number = curlew_pack(text, strlen(text), given.slots, given.count * CURLEW_SLOT_SIZE, given.area, given.used,
                         data, room, answer, CURLEW_PACK_REPLY);
    if (at != NULL)
        curlew_put_number(answer + 4, *at);
    set_plan(plan, fields);
    set_run(&lent[SLOTS], given.slots, given.count * CURLEW_SLOT_SIZE);
    set_run(&lent[AREA], given.area, given.used);
    set_run(&lent[DATA], NULL, room);
    set_run(&lent[REPLY], NULL, CURLEW_PACK_REPLY);
    expect_run(&lent[REPLY], 0, answer, CURLEW_PACK_REPLY);
    if (number == CURLEW_OK)
        expect_run(&lent[DATA], 0, data, curlew_get_answer(answer).first);
    pack_runs(text, number);
    return number == CURLEW_OK ? curlew_get_answer(answer).first : 0;
}

/* Reads len bytes of the record by the layout into count slots and size bytes of area, then by the plan. */
static void read_same(const char *text, const uint32_t *plan, size_t fields, size_t len, size_t count, size_t size)
{
    static uint8_t record[CURLEW_MAX_RECORD];
    size_t mark = size < 5 ? size : 5;
    uint32_t number;

    memcpy(record, data, len);
    memset(slots, 0xa5, sizeof slots);
    memset(area, 0x5a, size);
    set_plan(plan, fields);
    set_run(&lent[DATA], record, len);
    number = curlew_read(text, strlen(text), record, len, slots, count * CURLEW_SLOT_SIZE, area, size, mark,
                         answer, CURLEW_READ_REPLY);
    set_run(&lent[SLOTS], NULL, count * CURLEW_SLOT_SIZE);
    set_run(&lent[AREA], NULL, size);
    set_run(&lent[REPLY], NULL, CURLEW_READ_REPLY);
    expect_run(&lent[REPLY], 0, answer, CURLEW_READ_REPLY);
    if (number == CURLEW_OK) {
        expect_run(&lent[SLOTS], 0, slots, curlew_get_answer(answer).first * CURLEW_SLOT_SIZE);
        expect_run(&lent[AREA], mark, area + mark, curlew_get_answer(answer).second - mark);
    }
    read_runs(text, mark, number);
}

/* All that the two ways can be lent: enough, too little and too much of each. */
static void same(const char *text, size_t fields)
{
    uint32_t plan[CURLEW_MAX_PLAN];
    size_t len, cut;

    prepare(text, plan, fields, given.count);
    len = pack_same(text, plan, fields, CURLEW_MAX_RECORD, NULL);
    pack_same(text, plan, fields, len, NULL);
    if (len > 0)
        pack_same(text, plan, fields, len - 1, NULL);
    given.count++;
    pack_same(text, plan, fields, CURLEW_MAX_RECORD, NULL);
    given.count--;
    len = pack_same(text, plan, fields, CURLEW_MAX_RECORD, NULL);
    for (cut = 0; cut <= len; cut += cut < 40 ? 1 : 97) {
        read_same(text, plan, fields, cut, given.count, 4096);
        read_same(text, plan, fields, cut, CURLEW_MAX_SLOTS, CURLEW_MAX_AREA);
    }
    read_same(text, plan, fields, len, given.count, 20);
    if (given.count > 0)
        read_same(text, plan, fields, len, given.count - 1, 4096);
}

static void test_same(void)
{
    char text[CURLEW_MAX_LAYOUT + 1];
    size_t i;

    begin(&given, 0);
    same("", 0);
    add_text(&given, "00417042");
    add_text(&given, "Ada Lind");
    add_list(&given, CURLEW_UNSIGNED, 1, 417LL);
    add_list(&given, CURLEW_SIGNED, 1, -1234567LL);
    add_list(&given, CURLEW_SIGNED, 6, 61LL, 0LL, 88LL, -7LL, 100LL, 3LL);
    add_text(&given, "110110101100");
    add_text(&given, "0badcafe");
    same("a8 A20 Su Iu c6 b12 H8", 7);
    same("a*x3@40A4XSI@*c2X2B13h*", 12);
    begin(&given, 3);
    add_reals(&given, 2, 0.5, -3.25);
    add_list(&given, CURLEW_SIGNED, 3, 1LL, -2LL, 3LL);
    same("R2x2w*", 3);
    begin(&given, 0);
    for (i = 0; i < CURLEW_MAX_SLOTS; i++) {
        text[i] = 'c';
        add_list(&given, CURLEW_SIGNED, 1, (long long)i);
    }
    text[i] = '\0';
    same(text, CURLEW_MAX_SLOTS);
}

/* ---- `x*`, and numbers that no layout has ---- */

static void refused_by_both(const char *name, const uint32_t *plan, size_t fields, uint32_t number, uint32_t place)
{
    put_answer(number, place, 0);
    set_plan(plan, fields);
    set_run(&lent[DATA], NULL, 100);
    set_run(&lent[REPLY], NULL, CURLEW_PACK_REPLY);
    expect_run(&lent[REPLY], 0, answer, CURLEW_PACK_REPLY);
    pack_runs(name, number);
    set_run(&lent[REPLY], NULL, CURLEW_READ_REPLY);
    expect_run(&lent[REPLY], 0, answer, CURLEW_READ_REPLY);
    read_runs(name, 0, number);
}

static void test_skip_star(void)
{
    uint32_t plan[CURLEW_MAX_PLAN], at = 1;

    begin(&given, 0);
    add_text(&given, "x");
    add_text(&given, "y");
    prepare("a x* a", plan, 3, 2);
    pack_same("a x* a", plan, 3, 100, &at);
    memcpy(data, "abcdef", 6);
    read_same("a x* a", plan, 3, 6, 2, 100);
    memcpy(data, "abcdef", 6);
    read_same("a x* a", plan, 3, 0, 2, 100);
}

/* The number of a field whose layout is one field; with `*` it has one unit more, with a count of n two and n. */
static uint32_t number_of(const char *text)
{
    uint32_t plan[CURLEW_MAX_PLAN];

    prepare(text, plan, 1, strchr("xX@", text[0]) == NULL);
    return plan[0];
}

static void test_forged(void)
{
    static const char letters[] = "aAbBhHcsSiIwWrRqQxX";
    uint32_t plan[CURLEW_MAX_PLAN], c = number_of("c"), unit = number_of("c*") - c, at = number_of("@0");
    unsigned known = 0, type;
    size_t i;

    check(number_of("c32768") == c + 32770 * unit, "c32768", "two units and one for each of the count");
    for (i = 0; i < 4; i++)
        plan[i] = number_of("x");
    plan[2] = c + 32771 * unit;
    refused_by_both("a count of 32769", plan, 4, CURLEW_BAD_COUNT, 2);
    plan[2] = UINT32_MAX;
    refused_by_both("no type, and a count over the limit", plan, 4, CURLEW_BAD_TYPE, 2);
    plan[3] = at - 2 * unit;
    plan[2] = number_of("X5");
    refused_by_both("@ without a count", plan, 4, CURLEW_BAD_MOVE, 3);
    plan[1] = at - 2 * unit + 40000 * unit;
    refused_by_both("@40000-2", plan, 4, CURLEW_BAD_COUNT, 1);
    for (type = 0; type < 256; type++) {
        int is_known = type == at % 256;

        for (i = 0; letters[i] != '\0'; i++) {
            char text[] = {letters[i], '\0'};

            is_known |= type == number_of(text) % 256;
        }
        known += (unsigned)is_known;
        plan[0] = type;
        if (!is_known)
            refused_by_both("a number that no type has", plan, 1, CURLEW_BAD_TYPE, 0);
    }
    check(known == 20, "types", "twenty are known");
}

static void test_sizes(void)
{
    static uint32_t plan[CURLEW_MAX_PLAN + 1];
    static const size_t sizes[] = {0, 11, 13, 32};
    char text[CURLEW_MAX_LAYOUT + 1];
    size_t i;

    memset(text, 'x', sizeof text);
    not_prepared(text, sizeof text, 0, CURLEW_BAD_SIZE, 0);
    not_prepared(text, sizeof text, 1000, CURLEW_BAD_SIZE, 0);
    not_prepared("a t", 3, 0, CURLEW_BAD_TYPE, 2);
    not_prepared("cu032769 t", 10, 1000, CURLEW_BAD_COUNT, 2);
    not_prepared("x* @", 4, 1000, CURLEW_BAD_MOVE, 3);
    for (i = 0; i <= CURLEW_MAX_PLAN; i++)
        plan[i] = number_of("X");
    refused_by_both("257 numbers", plan, CURLEW_MAX_PLAN + 1, CURLEW_BAD_SIZE, 0);
    begin(&given, 0);
    memset(text, 'X', CURLEW_MAX_PLAN);
    text[CURLEW_MAX_PLAN] = '\0';
    pack_same(text, plan, CURLEW_MAX_PLAN, 0, NULL);
    for (i = 0; i < sizeof sizes / sizeof sizes[0]; i++) {
        set_plan(plan, 1);
        set_run(&lent[REPLY], NULL, sizes[i]);
        pack_runs("a reply of another size", CURLEW_BAD_SIZE);
        read_runs("a reply of another size", 0, CURLEW_BAD_SIZE);
        prepare_runs("a reply of another size", CURLEW_BAD_SIZE);
    }
    set_plan(plan, 1);
    set_run(&lent[REPLY], NULL, CURLEW_READ_REPLY);
    put_answer(CURLEW_BAD_SIZE, 0, 0);
    expect_run(&lent[REPLY], 0, answer, CURLEW_READ_REPLY);
    read_runs("a mark after the area", 1, CURLEW_BAD_SIZE);
    set_run(&lent[SLOTS], NULL, CURLEW_SLOT_SIZE + 1);
    read_runs("slots that are not whole", 0, CURLEW_BAD_SIZE);
}

int main(void)
{
    static const char *const names[] = {"plan", "slots", "area", "record", "reply", "layout"};
    size_t i;

    for (i = 0; i < RUNS; i++)
        open_run(&lent[i], names[i], i == REPLY);
    test_same();
    test_skip_star();
    test_forged();
    test_sizes();
    return summary();
}
