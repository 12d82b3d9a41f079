/*
 * Host tests of packing and reading, on guarded runs (record_calls.h). What is expected is written out by hand.
 */
#include "record_calls.h"

static struct guard text_run;

/* ---- the tests ---- */

static void test_helpers(void)
{
    static const uint8_t minus_two[8] = {255, 255, 255, 255, 255, 255, 255, 254};
    static const uint8_t slot_bytes[16] = {0, 0, 0, 3, 1, 2, 3, 4, 255, 254, 253, 252, 0, 0, 16, 1};
    uint8_t bytes[8], slots[2 * CURLEW_SLOT_SIZE];
    struct curlew_slot slot;
    uint32_t a, b;
    const char *unknown;

    curlew_put_int(bytes, -2);
    check(memcmp(bytes, minus_two, 8) == 0, "curlew_put_int", "-2");
    check(curlew_get_int(bytes) == -2, "curlew_get_int", "-2");
    check(curlew_get_uint(bytes) == UINT64_MAX - 1, "curlew_get_uint", "2^64 - 2");
    curlew_put_int(bytes, INT64_MIN);
    check(curlew_get_int(bytes) == INT64_MIN, "curlew_get_int", "smallest");
    curlew_put_int(bytes, INT64_MAX);
    check(curlew_get_int(bytes) == INT64_MAX, "curlew_get_int", "largest");
    curlew_put_uint(bytes, UINT64_MAX);
    check(curlew_get_int(bytes) == -1, "curlew_get_int", "-1");

    memset(slots, 0, sizeof slots);
    curlew_put_slot(slots, 1, 3, 0x01020304u, 0xfffefdfcu);
    check(memcmp(slots + 16, slot_bytes, 12) == 0 && slots[15] == 0, "curlew_put_slot", "bytes");
    check(curlew_get_number(slots + 28) == CURLEW_NO_POSITION, "curlew_put_slot", "no position");
    memcpy(slots + 16, slot_bytes, 16);
    slot = curlew_get_slot(slots, 1);
    check(slot.kind == 3 && slot.start == 0x01020304u && slot.length == 0xfffefdfcu, "curlew_get_slot", "numbers");
    check(slot.position == 4097 && CURLEW_NO_POSITION == UINT32_MAX, "curlew_get_slot", "position");
    check(curlew_get_answer(slots + 16).second == 0xfffefdfcu, "curlew_get_answer", "numbers");

    unknown = curlew_refusal(UINT32_MAX);
    for (b = CURLEW_OK; strcmp(curlew_refusal(b), unknown) != 0; b++)
        for (a = CURLEW_OK; a < b; a++)
            check(strcmp(curlew_refusal(a), curlew_refusal(b)) != 0, "curlew_refusal", "texts differ");
    check(b > CURLEW_NO_ROOM, "curlew_refusal", "a text for each number");
}

static void test_pack_examples(void)
{
    begin(&given, 0);
    add_text(&given, "11100");
    add_text(&given, "111000011010");
    packs("b5b*", "\x07\x87\x05", 3);
    packs("B5B*", "\xe0\xe1\xa0", 3);
    packs("  B5   B*  ", "\xe0\xe1\xa0", 3);

    begin(&given, 0);
    add_text(&given, "ab");
    add_text(&given, "DEF");
    add_text(&given, "987");
    packs("H3H*H2", "\xab\x00\xde\xf0\x98", 5);
    packs("h3h*h2", "\xba\x00\xed\x0f\x89", 5);

    begin(&given, 0);
    add_list(&given, CURLEW_SIGNED, 4, 3LL, -3LL, 128LL, 1LL);
    add_list(&given, CURLEW_UNSIGNED, 1, 260LL);
    add_list(&given, CURLEW_SIGNED, 2, 2LL, 5LL);
    packs("c3cc*", "\x03\xfd\x80\x04\x02\x05", 6);
    packs("cu003cuc*", "\x03\xfd\x80\x04\x02\x05", 6);

    begin(&given, 0);
    add_text(&given, "abc");
    add_text(&given, "def");
    add_text(&given, "ghi");
    packs("a3X*a3X2a3", "dghi", 4);
    packs("a2A5a0", "abdef  ", 7);

    begin(&given, 0);
    add_text(&given, "abcde");
    add_text(&given, "f");
    add_text(&given, "ghi");
    add_text(&given, "j");
    packs("a5@2a1@*a3@10a1", "abfdeghi\0\0j", 11);
    packs("a5X3xa2aXa*", "ab\0f\0j", 6);
}

static void test_pack_integers(void)
{
    begin(&given, 0);
    add_list(&given, CURLEW_SIGNED, 2, 0x0102030405060708LL, -2LL);
    packs("c2", "\x08\xfe", 2);
    packs("s2", "\x08\x07\xfe\xff", 4);
    packs("S2", "\x07\x08\xff\xfe", 4);
    packs("i2", "\x08\x07\x06\x05\xfe\xff\xff\xff", 8);
    packs("I2", "\x05\x06\x07\x08\xff\xff\xff\xfe", 8);
    packs("w2", "\x08\x07\x06\x05\x04\x03\x02\x01\xfe\xff\xff\xff\xff\xff\xff\xff", 16);
    packs("W2", "\x01\x02\x03\x04\x05\x06\x07\x08\xff\xff\xff\xff\xff\xff\xff\xfe", 16);
    packs("Wu*", "\x01\x02\x03\x04\x05\x06\x07\x08\xff\xff\xff\xff\xff\xff\xff\xfe", 16);
    packs("I0", "", 0);
}

static void test_read_examples(void)
{
    begin(&wanted, 0);
    add_text(&wanted, "11100");
    add_text(&wanted, "1110000110100000");
    reads("b5b*", "\x07\x87\x05", 3);

    begin(&wanted, 0);
    add_list(&wanted, CURLEW_SIGNED, 2, 5LL, 7LL);
    add_list(&wanted, CURLEW_SIGNED, 1, -16LL);
    reads("s2s*", "\x05\x00\x07\x00\xf0\xff", 6);

    begin(&wanted, 0);
    add_list(&wanted, CURLEW_SIGNED, 3, 25185LL, 25699LL, 26213LL);
    reads("s3s", "abcdefg", 7);

    begin(&wanted, 0);
    add_list(&wanted, CURLEW_UNSIGNED, 1, 32768LL);
    reads("su", "\x00\x80", 2);
    begin(&wanted, 0);
    add_list(&wanted, CURLEW_SIGNED, 1, -32768LL);
    reads("s", "\x00\x80", 2);

    begin(&wanted, 0);
    add_list(&wanted, CURLEW_SIGNED, 0);
    reads("s*", "A", 1);

    begin(&wanted, 0);
    reads("c", "", 0);
    add_text(&wanted, "");
    reads("a0", "", 0);
    reads("a0c", "", 0);

    begin(&wanted, 0);
    add_text(&wanted, "ab");
    add_text(&wanted, "5f6");
    add_text(&wanted, "f");
    reads("A6H3h", "ab \0  \x5f\x6e\x4f", 9);
}

/* Each width and order, signed and unsigned. */
static void test_read_widths(void)
{
    static const uint8_t record[8] = {0x81, 0x02, 0x03, 0x04, 0x05, 0x06, 0x07, 0x88};
    static const struct {
        const char *layout;
        uint32_t kind;
        int64_t value;
    } table[] = {
        {"c", 2, -127}, {"cu", 3, 129},
        {"s", 2, 0x0281}, {"S", 2, 0x8102 - 0x10000}, {"Su", 3, 0x8102},
        {"i", 2, 0x04030281}, {"I", 2, 0x81020304LL - 0x100000000LL}, {"Iu", 3, 0x81020304LL},
        {"@1i", 2, 0x05040302}, {"@4i", 2, 0x88070605LL - 0x100000000LL}, {"@4iu", 3, 0x88070605LL},
        {"@6s", 2, 0x8807 - 0x10000}, {"@6su", 3, 0x8807},
        {"W", 2, INT64_MIN + 0x0102030405060788LL}, {"Wu", 3, INT64_MIN + 0x0102030405060788LL},
        {"w", 2, INT64_MIN + 0x0807060504030281LL}, {"wu", 3, INT64_MIN + 0x0807060504030281LL},
    };
    size_t i;

    for (i = 0; i < sizeof table / sizeof table[0]; i++) {
        begin(&wanted, 0);
        add_list(&wanted, table[i].kind, 1, (long long)table[i].value);
        reads(table[i].layout, record, 8);
    }
}

static void test_moves(void)
{
    begin(&wanted, 0);
    add_text(&wanted, "c");
    add_text(&wanted, "b");
    add_text(&wanted, "a");
    add_text(&wanted, "");
    reads("x2aX2aX*ax*a*", "abc", 3);
    reads("@2aX2aX9a@*a*", "abc", 3);
    reads("x2aX2aX9ax9a*", "abc", 3);
    reads("x2aX2aX9a@9a*a", "abc", 3);
    begin(&given, 0);
    packs("x3", "\0\0\0", 3);
    packs("@3", "\0\0\0", 3);
    packs("@3X9@2", "\0\0\0", 3);
    packs("x", "\0", 1);
    packs("X", "", 0);
    packs("   ", "", 0);
}

/* The positions of the fields that set a slot and the number of fields come to, by hand; the record has eight bytes. */
static void test_positions_and_steps(void)
{
    static const struct {
        const char *layout;
        size_t steps, count, positions[4];
    } table[] = {
        {"a2a3a", 3, 3, {0, 2, 5}},         {"a0a8a0a*", 4, 4, {0, 0, 8, 8}}, {"x3aX2a", 4, 2, {3, 2}},
        {"x*a0@2aX*a", 6, 3, {8, 2, 0}},    {"b5b9 H3 A", 4, 4, {0, 1, 3, 5}}, {"@7c@1i@6su", 6, 3, {7, 1, 6}},
        {"a6ia", 2, 1, {0}},                {"RQ", 2, 1, {0}},                {"q*a*", 2, 2, {0, 8}},
        {"a9a0xX", 1, 0, {0}},              {"  ", 0, 0, {0}},                {"x9 X@3 xx", 5, 0, {0}},
    };
    uint8_t slots[5 * CURLEW_SLOT_SIZE], area[200], reply[CURLEW_READ_REPLY];
    size_t i, field;

    for (i = 0; i < sizeof table / sizeof table[0]; i++) {
        const char *name = table[i].layout;
        struct walk w = walk((const uint8_t *)name, strlen(name), 8);

        check(w.set == table[i].count && w.steps == table[i].steps, name, "slots set and steps by the layout");
        memset(slots, 0, sizeof slots);
        check(curlew_read(name, strlen(name), (const uint8_t *)"abcdefgh", 8, slots, sizeof slots, area, sizeof area, 9,
                          reply, sizeof reply) == CURLEW_OK,
              name, "number returned");
        check(curlew_get_steps(reply) == table[i].steps, name, "steps");
        for (field = 0; field < table[i].count; field++) {
            check(w.positions[field] == table[i].positions[field], name, "position by the layout");
            check(curlew_get_slot(slots, field).position == table[i].positions[field], name, "position in the slot");
        }
    }
}

/* Packing looks at no position. */
static void test_positions_ignored(void)
{
    begin(&given, 0);
    add_text(&given, "ab");
    curlew_put_number(given.slots + 12, 0);
    packs("a2", "ab", 2);
    curlew_put_number(given.slots + 12, 4096);
    packs("a2", "ab", 2);
}

static void test_mark(void)
{
    struct call c = read_call("a2 S", "ab\0\7", 4);

    c.mark = 7;
    begin(&wanted, 7);
    add_text(&wanted, "ab");
    add_list(&wanted, CURLEW_SIGNED, 1, 7LL);
    finish_read(&c);
    c.area_len = 17;
    finish_read(&c);
    c.area_len = 16;
    refuse_read(&c, CURLEW_NO_ROOM, 0);
    c.mark = 17;
    refuse_read(&c, CURLEW_BAD_SIZE, 0);
    c.mark = SIZE_MAX;
    refuse_read(&c, CURLEW_BAD_SIZE, 0);
    c.mark = 16;
    refuse_read(&c, CURLEW_NO_ROOM, 0);
    c = read_call("a0a", "", 0);
    c.mark = c.area_len = 16;
    begin(&wanted, 16);
    add_text(&wanted, "");
    finish_read(&c);
}

static void points(const char *layout, size_t len, size_t place, const char *text)
{
    struct guard *to = &text_run;
    size_t room;

    for (room = 0; room <= strlen(text) + 2; room++) {
        size_t kept = room > strlen(text) ? strlen(text) : room - (room > 0);

        guard_lend(to, NULL, room, HIGH);
        check(curlew_point(layout, len, place, (char *)to->at, room) == strlen(text), text, "length of a pointer's text");
        if (room > 0) {
            memcpy(guard_expected(to), text, kept);
            guard_expected(to)[kept] = 0;
        }
        check(guard_holds(to), text, "a pointer's text");
    }
}

static void test_point(void)
{
    points("a6 c5000", 8, 4, "a6 c5000\n    ^");
    points("t", 1, 0, "t\n^");
    points("a\t\xff" "b", 4, 2, "a..b\n  ^");
    points("", 0, 0, "\n^");
    points("a8 @", 4, 99, "a8 @\n    ^");
}

/* The flag after types that have no use for it. */
static void test_flags(void)
{
    begin(&given, 0);
    add_text(&given, "abc");
    add_text(&given, "1011");
    add_text(&given, "f");
    packs("au2 xu2 Xu bu4 Hu @u9", "ab\0\015\xf0\0\0\0\0", 9);
    begin(&wanted, 0);
    add_text(&wanted, "ab");
    add_text(&wanted, "1011");
    add_text(&wanted, "f");
    reads("au2 xu2 Xu bu4 Hu @u9", "ab\0\015\xf0\0\0\0\0", 9);
    begin(&wanted, 0);
    add_text(&wanted, "ab");
    reads("Au2 xu* au", "ab\0\015", 4);
}

static void test_layout_refusals(void)
{
    static const struct {
        const char *layout;
        uint32_t pack_number, pack_place, read_number, read_place;
    } table[] = {
        {"t", 2, 0, 2, 0}, {"c 3", 2, 2, 2, 2}, {"c*5", 2, 2, 2, 2}, {"c5*", 2, 2, 2, 2}, {"auu", 2, 2, 2, 2},
        {"xuu2", 2, 2, 2, 2}, {"cuu", 2, 2, 2, 2}, {"c\t", 2, 1, 2, 1}, {"a f", 2, 2, 2, 2}, {"5", 2, 0, 2, 0},
        {"*", 2, 0, 2, 0}, {"u", 2, 0, 2, 0}, {"a\xe4", 2, 1, 2, 1},
        {"c32769", 3, 1, 3, 1}, {" a99999999999999999999", 3, 2, 3, 2}, {"x 32769x32769", 2, 2, 2, 2},
        {"xu032769", 3, 2, 3, 2}, {"c4294967297", 3, 1, 3, 1}, {"c18446744073709551617", 3, 1, 3, 1},
        {"@", 4, 0, 4, 0}, {"a @u", 4, 2, 4, 2}, {"@uu", 4, 0, 4, 0}, {"@ 5", 4, 0, 4, 0}, {"x2x*u", 4, 2, 2, 4},
        {"c00032769t", 3, 1, 3, 1}, {"@t", 4, 0, 4, 0}, {"tc32769", 2, 0, 2, 0},
    };
    size_t i;

    begin(&given, 0);
    for (i = 0; i < sizeof table / sizeof table[0]; i++) {
        pack_refused(table[i].layout, table[i].pack_number, table[i].pack_place);
        read_refused(table[i].layout, table[i].read_number, table[i].read_place);
    }
    pack_refused("x*", CURLEW_BAD_MOVE, 0);
    pack_refused(" xu*", CURLEW_BAD_MOVE, 1);
}

static void test_slot_counts(void)
{
    begin(&given, 0);
    pack_refused("c", CURLEW_BAD_SLOTS, 0);
    add_text(&given, "ab");
    packs("a2", "ab", 2);
    pack_refused("", CURLEW_BAD_SLOTS, 0);
    pack_refused("x2X@1", CURLEW_BAD_SLOTS, 0);
    pack_refused("a a", CURLEW_BAD_SLOTS, 0);
    pack_refused("b a", CURLEW_BAD_SLOTS, 0);
    read_refused("cccccc", CURLEW_BAD_SLOTS, 0);
    read_refused("x*sssssW", CURLEW_BAD_SLOTS, 0);
    read_refused("cccccct", CURLEW_BAD_TYPE, 6);
}

static void test_arguments(void)
{
    begin(&given, 0);
    add_text(&given, "ab");
    pack_refused("c", CURLEW_WRONG_KIND, 0);
    pack_refused("c0", CURLEW_WRONG_KIND, 0);
    pack_refused("b2", CURLEW_BAD_DIGIT, 0);
    packs("b0", "", 0);
    packs("h3", "\xba\0", 2);

    begin(&given, 0);
    add_list(&given, CURLEW_SIGNED, 2, 1LL, 2LL);
    pack_refused("c", CURLEW_BAD_LIST, 0);
    pack_refused("c3", CURLEW_BAD_LIST, 0);
    pack_refused("a", CURLEW_WRONG_KIND, 0);
    pack_refused("H", CURLEW_WRONG_KIND, 0);
    packs("c2", "\1\2", 2);
    packs("c0", "", 0);

    begin(&given, 0);
    add_text(&given, "10x");
    curlew_put_slot(given.slots, given.count++, CURLEW_UNSET, UINT32_MAX, UINT32_MAX);
    pack_refused("b2a", CURLEW_NOT_SET, 1);
    pack_refused("b2a0", CURLEW_NOT_SET, 1);
    pack_refused("b3a", CURLEW_BAD_DIGIT, 0);

    begin(&given, 0);
    add_text(&given, "");
    packs("b", "\0", 1);
    packs("H", "\0", 1);
    packs("A3", "   ", 3);
    packs("b*", "", 0);
}

static void test_digits(void)
{
    static const char good_hex[] = "0123456789abcdefABCDEF";
    int digit;

    for (digit = 0; digit < 256; digit++) {
        char byte = (char)digit;

        begin(&given, 0);
        add_bytes(&given, &byte, 1);
        if (digit != '0' && digit != '1')
            pack_refused("b", CURLEW_BAD_DIGIT, 0);
        if (digit == 0 || strchr(good_hex, digit) == NULL)
            pack_refused("H", CURLEW_BAD_DIGIT, 0);
    }
}

/* A slot after a good one: inside the area or not. */
static void one_slot(uint32_t kind, uint32_t start, uint32_t length)
{
    begin(&given, 0);
    add_bytes(&given, "0123456789abcdef", 16);
    curlew_put_slot(given.slots, given.count++, kind, start, length);
}

static void test_bad_slots(void)
{
    one_slot(CURLEW_STRING, 16, 0);
    packs("a0a0", "", 0);
    one_slot(CURLEW_SIGNED, 8, 1);
    packs("a0W", "89abcdef", 8);
    one_slot(CURLEW_STRING, 17, 0);
    pack_refused("a0a0", CURLEW_BAD_SLOT, 1);
    one_slot(CURLEW_STRING, 16, 1);
    pack_refused("a0a0", CURLEW_BAD_SLOT, 1);
    one_slot(CURLEW_STRING, UINT32_MAX, 2);
    pack_refused("a0a0", CURLEW_BAD_SLOT, 1);
    one_slot(CURLEW_SIGNED, 9, 1);
    pack_refused("a0c0", CURLEW_BAD_SLOT, 1);
    one_slot(CURLEW_UNSIGNED, 0, 0x20000001u);
    pack_refused("a0c0", CURLEW_BAD_SLOT, 1);
    one_slot(5, 0, 0);
    pack_refused("a0c0", CURLEW_BAD_SLOT, 1);
    one_slot(0x100, 0, 0);
    pack_refused("a0a0", CURLEW_BAD_SLOT, 1);
    one_slot(CURLEW_STRING, 17, 0);
    pack_refused("a0c0", CURLEW_BAD_SLOT, 1);
}

static void test_room(void)
{
    struct call c;

    begin(&given, 0);
    add_text(&given, "10");
    c = pack_call("b25");
    c.data_len = 4;
    finish_pack(&c, "\1\0\0\0", 4);
    c.data_len = 3;
    refuse_pack(&c, CURLEW_NO_ROOM, 0);
    c.data_len = 0;
    refuse_pack(&c, CURLEW_NO_ROOM, 0);
    c = pack_call("@5X5c");
    c.data_len = 4;
    refuse_pack(&c, CURLEW_WRONG_KIND, 0);
}

static void test_empty(void)
{
    struct call c;

    begin(&given, 0);
    c = pack_call("");
    c.data_len = 0;
    finish_pack(&c, "", 0);
    begin(&wanted, 0);
    c = read_call("", "", 0);
    c.slots_len = c.area_len = 0;
    finish_read(&c);
    c.mark = 1;
    refuse_read(&c, CURLEW_BAD_SIZE, 0);
}

/* ---- sizes at and past each limit ---- */

static void test_layout_limit(void)
{
    char text[CURLEW_MAX_LAYOUT + 2];
    struct call c;

    memset(text, ' ', sizeof text);
    text[CURLEW_MAX_LAYOUT + 1] = '\0';
    text[CURLEW_MAX_LAYOUT - 1] = 'x';
    begin(&given, 0);
    begin(&wanted, 0);
    c = pack_call(text);
    c.name = "long layout";
    refuse_pack(&c, CURLEW_BAD_SIZE, 0);
    c.layout_len = CURLEW_MAX_LAYOUT;
    finish_pack(&c, "", 1);
    c = read_call(text, "ab", 2);
    c.name = "long layout";
    refuse_read(&c, CURLEW_BAD_SIZE, 0);
    c.layout_len = CURLEW_MAX_LAYOUT;
    finish_read(&c);
}

static void test_leading_zeros(void)
{
    char text[CURLEW_MAX_LAYOUT + 1];

    memset(text, '0', sizeof text);
    text[CURLEW_MAX_LAYOUT] = '\0';
    text[0] = 'x';
    text[CURLEW_MAX_LAYOUT - 1] = '7';
    begin(&given, 0);
    packs(text, "\0\0\0\0\0\0\0", 7);
}

static void test_slot_limit(void)
{
    static const size_t odd[] = {1, 12, 15, 17, 24, CURLEW_MAX_SLOTS * CURLEW_SLOT_SIZE + 1};
    char text[CURLEW_MAX_SLOTS + 1];
    uint8_t bytes[CURLEW_MAX_SLOTS];
    struct call c;
    size_t i;

    memset(text, 'c', sizeof text);
    text[CURLEW_MAX_SLOTS] = '\0';
    begin(&given, 0);
    begin(&wanted, 0);
    for (i = 0; i < CURLEW_MAX_SLOTS; i++) {
        bytes[i] = (uint8_t)i;
        add_same(&given, CURLEW_SIGNED, 1, (int64_t)i);
        add_same(&wanted, CURLEW_SIGNED, 1, (int64_t)i);
    }
    packs(text, bytes, sizeof bytes);
    c = read_call(text, bytes, sizeof bytes);
    c.area_len = 600;
    c.slots_len = CURLEW_MAX_SLOTS * CURLEW_SLOT_SIZE;
    finish_read(&c);
    c.slots_len += CURLEW_SLOT_SIZE;
    refuse_read(&c, CURLEW_BAD_SIZE, 0);
    for (i = 0; i < sizeof odd / sizeof odd[0]; i++) {
        c.slots_len = odd[i];
        refuse_read(&c, CURLEW_BAD_SIZE, 0);
    }
    add_same(&given, CURLEW_SIGNED, 1, 0);
    c = pack_call(text);
    refuse_pack(&c, CURLEW_BAD_SIZE, 0);
    for (i = 0; i < sizeof odd / sizeof odd[0]; i++) {
        c.slots_len = odd[i];
        refuse_pack(&c, CURLEW_BAD_SIZE, 0);
    }
}

static void test_record_limit(void)
{
    static uint8_t bytes[CURLEW_MAX_RECORD + 1];
    struct call c;

    memset(bytes, 'e', sizeof bytes);
    begin(&given, 0);
    add_bytes(&given, bytes, CURLEW_MAX_RECORD);
    add_text(&given, "e");
    c = pack_call("a32768a0");
    c.data_len = CURLEW_MAX_RECORD;
    finish_pack(&c, bytes, CURLEW_MAX_RECORD);
    c.data_len = CURLEW_MAX_RECORD + 1;
    refuse_pack(&c, CURLEW_BAD_SIZE, 0);
    c = pack_call("a32768a1");
    c.data_len = CURLEW_MAX_RECORD;
    refuse_pack(&c, CURLEW_NO_ROOM, 0);
    c = pack_call("a32769a1");
    refuse_pack(&c, CURLEW_BAD_COUNT, 1);

    begin(&wanted, 0);
    add_bytes(&wanted, bytes, CURLEW_MAX_RECORD);
    c = read_call("a32768", bytes, CURLEW_MAX_RECORD);
    c.area_len = CURLEW_MAX_RECORD;
    finish_read(&c);
    c.area_len--;
    refuse_read(&c, CURLEW_NO_ROOM, 0);
    c.data_len++;
    refuse_read(&c, CURLEW_BAD_SIZE, 0);
}

static void test_area_limit(void)
{
    static char digits[CURLEW_MAX_RECORD * 8];
    static uint8_t record[CURLEW_MAX_RECORD];
    struct call c;

    memset(record, 0xff, sizeof record);
    memset(digits, '1', sizeof digits);
    begin(&wanted, 0);
    add_bytes(&wanted, digits, sizeof digits);
    add_bytes(&wanted, digits, sizeof digits);
    c = read_call("b*X*b*", record, sizeof record);
    c.area_len = CURLEW_MAX_AREA;
    finish_read(&c);
    c.mark = 1;
    refuse_read(&c, CURLEW_NO_ROOM, 0);
    c.area_len++;
    refuse_read(&c, CURLEW_BAD_SIZE, 0);

    begin(&given, 0);
    add_bytes(&given, digits, sizeof digits);
    add_bytes(&given, digits, sizeof digits);
    c = pack_call("b*X*b*");
    c.data_len = CURLEW_MAX_RECORD;
    finish_pack(&c, record, sizeof record);
    c.area_len++;
    refuse_pack(&c, CURLEW_BAD_SIZE, 0);
}

static void test_count_limit(void)
{
    static uint8_t record[CURLEW_MAX_COUNT];
    struct call c;

    memset(record, 0x85, sizeof record);
    begin(&given, 0);
    add_same(&given, CURLEW_SIGNED, CURLEW_MAX_COUNT, 0x1285);
    c = pack_call("c32768");
    c.data_len = CURLEW_MAX_RECORD;
    finish_pack(&c, record, sizeof record);
    pack_refused("c32769", CURLEW_BAD_COUNT, 1);
    begin(&wanted, 0);
    add_same(&wanted, CURLEW_SIGNED, CURLEW_MAX_COUNT, 0x85 - 0x100);
    c = read_call("c32768", record, sizeof record);
    c.area_len = CURLEW_MAX_AREA;
    finish_read(&c);
}

static void test_reply_sizes(void)
{
    static const size_t sizes[] = {0, 1, 11, 13, 24};
    static const size_t read_sizes[] = {0, 12, 15, 17, 24};
    struct call c;
    size_t i;

    begin(&given, 0);
    add_text(&given, "ab");
    for (i = 0; i < sizeof sizes / sizeof sizes[0]; i++) {
        c = pack_call("a2");
        c.reply_len = sizes[i];
        refuse_pack(&c, CURLEW_BAD_SIZE, 0);
        c = pack_call("t");
        c.reply_len = sizes[i];
        refuse_pack(&c, CURLEW_BAD_SIZE, 0);
        c = read_call("a2", "ab", 2);
        c.reply_len = read_sizes[i];
        refuse_read(&c, CURLEW_BAD_SIZE, 0);
        c = read_call("t", "ab", 2);
        c.reply_len = read_sizes[i];
        refuse_read(&c, CURLEW_BAD_SIZE, 0);
    }
}

/* Runs that are only read may be one and the same. */
static void test_shared_runs(void)
{
    static const uint8_t text[] = "a2 a2";
    uint8_t table[2 * CURLEW_SLOT_SIZE], record[4], reply[CURLEW_PACK_REPLY];

    curlew_put_slot(table, 0, CURLEW_STRING, 3, 2);
    curlew_put_slot(table, 1, CURLEW_STRING, 0, 2);
    check(curlew_pack(text, 5, table, sizeof table, text, 5, record, 4, reply, sizeof reply) == CURLEW_OK
              && memcmp(record, "a2a2", 4) == 0,
          "layout as area", "record");
    curlew_put_slot(table, 0, CURLEW_STRING, 3, 1);
    check(curlew_pack(text, 5, table, sizeof table, table, sizeof table, record, 4, reply, sizeof reply) == CURLEW_OK
              && memcmp(record, "\1\0\0\0", 4) == 0,
          "slots as area", "record");
}

/* ---- an old and a new layout, and every cut ---- */

static const char *const both[2] = {"a4 A6 S2 b10", "a4 A6 S2 b10 Iu x2 H5 c2"};
static const size_t fields_of[2] = {4, 7};
static const size_t end_of[7] = {4, 10, 14, 16, 20, 25, 27};

static void add_field(struct values *v, size_t field, int reading)
{
    switch (field) {
    case 0: add_text(v, "0417"); break;
    case 1: add_text(v, reading ? "Ada" : "Ada "); break;
    case 2: add_list(v, CURLEW_SIGNED, 2, -7LL, 1000LL); break;
    case 3: add_text(v, reading ? "1101100000" : "11011"); break;
    case 4: add_list(v, reading ? CURLEW_UNSIGNED : CURLEW_SIGNED, 1, reading ? 4294967295LL : -1LL); break;
    case 5: add_text(v, reading ? "beef0" : "BEEF"); break;
    default: add_list(v, CURLEW_SIGNED, 2, reading ? -128LL : 128LL, 0LL); break;
    }
}

static void read_cut(const uint8_t *record, size_t cut, int by)
{
    struct call c = read_call(both[by], record, cut);
    size_t field;

    c.slots_len = 9 * CURLEW_SLOT_SIZE;
    c.mark = 3;
    begin(&wanted, 3);
    for (field = 0; field < fields_of[by] && end_of[field] <= cut; field++)
        add_field(&wanted, field, 1);
    finish_read(&c);
}

static void test_layouts_and_cuts(void)
{
    static const uint8_t record[28] = "0417Ada   \xff\xf9\x03\xe8\x1b\0\xff\xff\xff\xff\0\0\xbe\xef\0\x80\0";
    int packed, by;
    size_t field, cut;

    for (packed = 0; packed < 2; packed++) {
        size_t length = end_of[fields_of[packed] - 1];

        begin(&given, 0);
        for (field = 0; field < fields_of[packed]; field++)
            add_field(&given, field, 0);
        packs(both[packed], record, length);
        for (by = 0; by < 2; by++)
            for (cut = 0; cut <= length; cut++)
                read_cut(record, cut, by);
    }
}

int main(void)
{
    open_records();
    guard_open(&text_run);

    test_helpers();
    test_pack_examples();
    test_pack_integers();
    test_read_examples();
    test_read_widths();
    test_moves();
    test_positions_and_steps();
    test_positions_ignored();
    test_mark();
    test_point();
    test_flags();
    test_layout_refusals();
    test_slot_counts();
    test_arguments();
    test_digits();
    test_bad_slots();
    test_room();
    test_empty();
    test_layout_limit();
    test_leading_zeros();
    test_slot_limit();
    test_record_limit();
    test_area_limit();
    test_count_limit();
    test_reply_sizes();
    test_shared_runs();
    test_layouts_and_cuts();

    return summary();
}
