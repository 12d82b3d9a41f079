/*
 * Host tests of the helpers that build a table and take it apart. Slots and area lie between closed pages, at their low
 * end and at their high end; every byte of both, and of what surrounds them, is compared with what it should be. That
 * is written out by hand.
 */
#include "harness.h"

static struct guard slots, area;
static struct curlew_table table;

/* A table over runs of slot_bytes and area_bytes bytes, with nothing in them that was there before. */
static void over(size_t slot_bytes, size_t area_bytes, enum place place)
{
    guard_lend(&slots, NULL, slot_bytes, place);
    guard_lend(&area, NULL, area_bytes, place);
    table = curlew_table_over(slots.at, slot_bytes, area.at, area_bytes);
    memset(guard_expected(&slots), 0, table.slots_room);
}

static void expect_slot(size_t index, uint32_t kind, uint32_t start, uint32_t length)
{
    curlew_put_slot(guard_expected(&slots), index, kind, start, length);
}

static void expect_bytes(size_t at, const void *bytes, size_t len)
{
    memcpy(guard_expected(&area) + at, bytes, len);
}

/* The bytes are those that are expected, and so much is in use. */
static void holds(const char *name, size_t slots_used, size_t area_used, int full)
{
    check(guard_holds(&slots), name, "slots");
    check(guard_holds(&area), name, "area");
    check(table.slots_used == slots_used, name, "slots in use");
    check(table.area_used == area_used, name, "bytes of the area in use");
    check(table.full == full, name, "full");
}

static int is_text(size_t index, const char *wanted)
{
    const char *text = NULL;
    size_t len = 77;

    return curlew_table_text(&table, index, &text, &len) && len == strlen(wanted) && memcmp(text, wanted, len) == 0;
}

/* Nothing is taken out, and nothing that was given for the value changes. */
static int is_no_text(size_t index)
{
    const char *text = "as it was";
    const char *before = text;
    size_t len = 77;

    return !curlew_table_text(&table, index, &text, &len) && text == before && len == 77;
}

static int is_int(size_t index, size_t item, int64_t wanted)
{
    int64_t value = 77;

    return curlew_table_int(&table, index, item, &value) && value == wanted;
}

static int is_no_int(size_t index, size_t item)
{
    int64_t value = 77;

    return !curlew_table_int(&table, index, item, &value) && value == 77;
}

static int is_uint(size_t index, size_t item, uint64_t wanted)
{
    uint64_t value = 77;

    return curlew_table_uint(&table, index, item, &value) && value == wanted;
}

static int is_no_uint(size_t index, size_t item)
{
    uint64_t value = 77;

    return !curlew_table_uint(&table, index, item, &value) && value == 77;
}

static int is_real(size_t index, size_t item, double wanted)
{
    double value = 77;

    return curlew_table_real(&table, index, item, &value) && memcmp(&value, &wanted, sizeof value) == 0;
}

static int is_no_real(size_t index, size_t item)
{
    double value = 77;

    return !curlew_table_real(&table, index, item, &value) && memcmp(&value, "\0\0\0\0\0\x40\x53\x40", 8) == 0;
}

/* No value of any kind is in the slot, and it shows as one that is not set. */
static int is_nothing(size_t index)
{
    struct curlew_slot slot = curlew_table_slot(&table, index);

    return is_no_text(index) && is_no_int(index, 0) && is_no_uint(index, 0) && is_no_real(index, 0)
        && slot.kind == CURLEW_UNSET && slot.start == 0 && slot.length == 0 && slot.position == CURLEW_NO_POSITION;
}

/* ---- the tests ---- */

static const int64_t ints[] = {-2, 0, INT64_MAX};
static const uint64_t uints[] = {UINT64_MAX, 5};
static const double reals[] = {-0.5};
static const uint8_t as_bytes[] = {
    'A', 'd', 'a',
    0xff, 0xff, 0xff, 0xff, 0xff, 0xff, 0xff, 0xfe, 0, 0, 0, 0, 0, 0, 0, 0,
    0x7f, 0xff, 0xff, 0xff, 0xff, 0xff, 0xff, 0xff,
    0xff, 0xff, 0xff, 0xff, 0xff, 0xff, 0xff, 0xff, 0, 0, 0, 0, 0, 0, 0, 5,
    0xbf, 0xe0, 0, 0, 0, 0, 0, 0,
};

/* Every kind of value, in runs that have just the room. */
static void test_build(enum place place)
{
    over(7 * CURLEW_SLOT_SIZE, sizeof as_bytes, place);
    holds("nothing yet", 0, 0, 0);
    check(curlew_table_add_text(&table, "Ada", 3), "build", "text");
    check(curlew_table_add_ints(&table, ints, 3), "build", "ints");
    check(curlew_table_add_unset(&table), "build", "unset");
    check(curlew_table_add_uints(&table, uints, 2), "build", "uints");
    check(curlew_table_add_text(&table, NULL, 0), "build", "empty text");
    check(curlew_table_add_reals(&table, reals, 1), "build", "reals");
    check(curlew_table_add_ints(&table, NULL, 0), "build", "empty list");
    expect_slot(0, CURLEW_STRING, 0, 3);
    expect_slot(1, CURLEW_SIGNED, 3, 3);
    expect_slot(2, CURLEW_UNSET, 0, 0);
    expect_slot(3, CURLEW_UNSIGNED, 27, 2);
    expect_slot(4, CURLEW_STRING, 43, 0);
    expect_slot(5, CURLEW_REAL, 43, 1);
    expect_slot(6, CURLEW_SIGNED, 51, 0);
    expect_bytes(0, as_bytes, sizeof as_bytes);
    holds("build", 7 * CURLEW_SLOT_SIZE, sizeof as_bytes, 0);
    check(curlew_table_count(&table) == 7, "build", "count");
}

/* The table of test_build, taken apart. */
static void test_take_apart(void)
{
    check(is_text(0, "Ada") && is_text(4, ""), "take apart", "text");
    check(is_int(1, 0, -2) && is_int(1, 1, 0) && is_int(1, 2, INT64_MAX), "take apart", "int");
    check(is_no_int(1, 3) && is_no_int(1, SIZE_MAX) && is_no_int(6, 0), "take apart", "no such item");
    check(is_uint(1, 1, 0) && is_uint(1, 2, INT64_MAX) && is_no_uint(1, 0), "take apart", "signed as uint");
    check(is_uint(3, 0, UINT64_MAX) && is_uint(3, 1, 5) && is_no_uint(3, 2), "take apart", "uint");
    check(is_int(3, 1, 5) && is_no_int(3, 0), "take apart", "unsigned as int");
    check(is_real(5, 0, -0.5) && is_no_real(5, 1), "take apart", "real");
    check(is_no_real(1, 0) && is_no_real(3, 0) && is_no_real(0, 0), "take apart", "no real");
    check(is_no_int(5, 0) && is_no_uint(5, 0) && is_no_int(0, 0) && is_no_uint(4, 0), "take apart", "no integer");
    check(is_no_text(1) && is_no_text(3) && is_no_text(5), "take apart", "no text");
    check(is_nothing(2), "take apart", "not set");
    check(is_nothing(7) && is_nothing(64) && is_nothing(SIZE_MAX), "take apart", "no such slot");
    check(curlew_table_slot(&table, 3).kind == CURLEW_UNSIGNED && curlew_table_slot(&table, 3).start == 27
          && curlew_table_slot(&table, 3).length == 2, "take apart", "slot");
}

/* What does not fit changes no byte, nothing is added after it, and no call takes the table. */
static void test_full(const char *name, size_t slot_bytes, size_t area_bytes, size_t cut, enum place place)
{
    uint8_t reply[CURLEW_SHEET_REPLY], sheet[100];

    over(slot_bytes, area_bytes, place);
    check(curlew_table_add_int(&table, 61), name, "int");
    check(!curlew_table_add_int(&table, 62), name, "did not fit");
    check(!curlew_table_add_unset(&table) && !curlew_table_add_text(&table, "", 0), name, "nothing after it");
    check(!curlew_table_add_uint(&table, 1) && !curlew_table_add_real(&table, 1), name, "no number after it");
    expect_slot(0, CURLEW_SIGNED, 0, 1);
    expect_bytes(0, "\0\0\0\0\0\0\0\x3d", 8);
    holds(name, cut, 8, 1);
    check(curlew_sheet_write(table.slots, table.slots_used, table.area, table.area_used, sheet, sizeof sheet,
                             reply, sizeof reply) == CURLEW_BAD_SIZE, name, "no call takes it");
    curlew_table_clear(&table);
    memset(guard_expected(&slots), 0, table.slots_room);
    holds(name, 0, 0, 0);
    check(curlew_table_add_int(&table, 61), name, "after a clear");
}

/* Lengths whose bytes a size_t does not count. The compiler may not know them: it would warn. */
static void test_huge(enum place place)
{
    volatile size_t most = SIZE_MAX;

    over(4 * CURLEW_SLOT_SIZE, 40, place);
    check(!curlew_table_add_text(&table, "x", most), "huge", "text");
    holds("huge text", 1, 0, 1);
    over(4 * CURLEW_SLOT_SIZE, 40, place);
    check(!curlew_table_add_ints(&table, ints, most / 8 + 2), "huge", "ints");
    check(!curlew_table_use(&table, most / 16 + 2, most / 16 + 2), "huge", "slots");
    holds("huge ints", 1, 0, 1);
}

/* Runs that hold nothing, runs that hold no whole slot, and runs past their limits. */
static void test_rooms(enum place place)
{
    over(0, 0, place);
    check(!curlew_table_add_unset(&table), "no room", "unset");
    holds("no room", 0, 0, 1);
    over(CURLEW_SLOT_SIZE, 0, place);
    check(curlew_table_add_text(&table, "", 0) && is_text(0, ""), "no area", "empty text");
    over(2 * CURLEW_SLOT_SIZE - 1, 8, place);
    check(table.slots_room == CURLEW_SLOT_SIZE, "cut slot", "room");
    check(curlew_table_add_unset(&table) && !curlew_table_add_unset(&table), "cut slot", "unset");
    over((CURLEW_MAX_SLOTS + 1) * CURLEW_SLOT_SIZE, CURLEW_MAX_AREA + 1, place);
    check(table.slots_room == CURLEW_MAX_SLOTS * CURLEW_SLOT_SIZE, "past the limits", "slots");
    check(table.area_room == CURLEW_MAX_AREA, "past the limits", "area");
    holds("past the limits", 0, 0, 0);
}

/* Two of three fields are in the record, into a table that was used before. */
static void test_read(enum place place)
{
    static const uint8_t record[] = {'A', 'd', 'a', ' ', 0xff, 0xfd, 0, 9, 0};
    uint8_t reply[CURLEW_READ_REPLY];
    size_t i;

    over(4 * CURLEW_SLOT_SIZE, 64, place);
    for (i = 0; i < 4; i++)
        curlew_table_add_uint(&table, 99);
    curlew_table_clear(&table);
    check(curlew_read("A4 S2 S", 7, record, sizeof record, table.slots, table.slots_room, table.area, table.area_room,
                      table.area_used, reply, sizeof reply) == CURLEW_OK, "read", "number");
    check(is_nothing(0), "read", "nothing is in use before it is said so");
    check(curlew_table_use(&table, curlew_get_answer(reply).first, 3), "read", "use");
    check(table.slots_used == 3 * CURLEW_SLOT_SIZE, "read", "slots in use");
    check(table.area_used == curlew_get_answer(reply).second, "read", "bytes of the area in use");
    check(is_text(0, "Ada") && is_int(1, 0, -3) && is_int(1, 1, 9) && is_nothing(2) && is_nothing(3), "read", "values");
    check(curlew_table_slot(&table, 1).position == 4, "read", "position");
    check(curlew_read("A4", 2, record, sizeof record, table.slots, table.slots_room, table.area, table.area_room,
                      table.area_used, reply, sizeof reply) == CURLEW_OK, "read on", "number");
    check(curlew_table_use(&table, 1, 2) && is_text(0, "Ada") && is_nothing(1), "read on", "old slots are not set");
    check(table.slots_used == 2 * CURLEW_SLOT_SIZE && table.area_used == 22, "read on", "sizes");
    check(curlew_table_slot(&table, 0).start == 19, "read on", "after the values of the first");
    check(!curlew_table_use(&table, 2, 1) && table.full, "read", "more set than there are");
    curlew_table_clear(&table);
    check(!curlew_table_use(&table, 0, 5) && table.full, "read", "more than there is room for");
}

/* Slots that are wrong are none: unknown kinds, and values that do not lie inside the area. */
static void test_wrong_slots(enum place place)
{
    static const struct curlew_slot wrong[] = {
        {5, 0, 1, 0}, {UINT32_MAX, 0, 0, 0}, {CURLEW_STRING, 0, 41, 0}, {CURLEW_STRING, 40, 1, 0},
        {CURLEW_STRING, 41, 0, 0}, {CURLEW_STRING, UINT32_MAX, UINT32_MAX, 0}, {CURLEW_SIGNED, 0, 6, 0},
        {CURLEW_SIGNED, 33, 1, 0}, {CURLEW_UNSIGNED, 8, 0x20000001, 0}, {CURLEW_REAL, 40, 1, 0},
        {CURLEW_UNSET, 3, 2, 1},
    };
    size_t i;

    over(CURLEW_SLOT_SIZE, 40, place);
    for (i = 0; i < sizeof wrong / sizeof wrong[0]; i++) {
        curlew_put_slot(table.slots, 0, wrong[i].kind, wrong[i].start, wrong[i].length);
        expect_slot(0, wrong[i].kind, wrong[i].start, wrong[i].length);
        check(curlew_table_use(&table, 1, 1) && is_nothing(0), "wrong slot", "nothing in it");
        holds("wrong slot", CURLEW_SLOT_SIZE, 0, 0);
    }
    curlew_put_slot(table.slots, 0, CURLEW_SIGNED, 0, 5);
    curlew_put_int(table.area + 32, -7);
    check(curlew_table_use(&table, 1, 1) && is_int(0, 4, -7) && table.area_used == 40, "last item", "there");
}

int main(void)
{
    int place;

    guard_open(&slots);
    guard_open(&area);
    for (place = LOW; place < PLACES; place++) {
        test_build((enum place)place);
        test_take_apart();
        test_full("slots are full", CURLEW_SLOT_SIZE, 40, 15, (enum place)place);
        test_full("area is full", 4 * CURLEW_SLOT_SIZE, 15, 17, (enum place)place);
        test_huge((enum place)place);
        test_rooms((enum place)place);
        test_read((enum place)place);
        test_wrong_slots((enum place)place);
    }
    return summary();
}
