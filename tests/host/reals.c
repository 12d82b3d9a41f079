/*
 * Host tests of reals: the helpers, the four types and their refusals, on guarded runs (record_calls.h). What is expected is
 * written out by hand.
 */
#include "record_calls.h"

/* The double of these bits. */
static double of_bits(uint64_t bits)
{
    double value;

    memcpy(&value, &bits, sizeof value);
    return value;
}

static uint64_t bits_of(double value)
{
    uint64_t bits;

    memcpy(&bits, &value, sizeof bits);
    return bits;
}

/* Adds a list of one double, by its bits: a NaN that signals may not pass through a parameter. */
static void add_bits(struct values *v, uint64_t bits)
{
    uint8_t *at = add_items(v, CURLEW_REAL, 1);

    if (at != NULL)
        curlew_put_uint(at, bits);
}

static const uint64_t infinite = 0x7ff0000000000000u;
static const uint64_t minus = 0x8000000000000000u;

static void test_helpers(void)
{
    static const uint8_t minus_42[8] = {0xc0, 0x45, 0, 0, 0, 0, 0, 0};
    uint8_t bytes[10];
    uint64_t bits;
    unsigned i;

    memset(bytes, 0x5a, sizeof bytes);
    curlew_put_double(bytes + 1, -42.0);
    check(memcmp(bytes + 1, minus_42, 8) == 0 && bytes[0] == 0x5a && bytes[9] == 0x5a, "curlew_put_double", "-42");
    check(curlew_get_double(bytes + 1) == -42.0, "curlew_get_double", "-42");
    curlew_put_double(bytes + 1, -0.0);
    check(bytes[1] == 0x80 && bits_of(curlew_get_double(bytes + 1)) == minus, "reals", "the sign of 0");
    for (i = 0; i < 64; i++) {
        bits = (uint64_t)1 << i | (infinite - 1);
        curlew_put_double(bytes + 1, of_bits(bits));
        check(curlew_get_uint(bytes + 1) == bits && bits_of(curlew_get_double(bytes + 1)) == bits, "reals", "every bit");
    }
    check(CURLEW_REAL == 4 && CURLEW_BAD_REAL == 16, "constants", "kind and number");
}

static void test_packing(void)
{
    begin(&given, 0);
    add_reals(&given, 2, 1.6, 3.4);
    packs("r2", "\xcd\xcc\xcc\x3f\x9a\x99\x59\x40", 8);
    packs("ru*", "\xcd\xcc\xcc\x3f\x9a\x99\x59\x40", 8);
    packs("R1", "\x3f\xcc\xcc\xcd", 4);
    packs("q1", "\x9a\x99\x99\x99\x99\x99\xf9\x3f", 8);
    packs("Qu1", "\x3f\xf9\x99\x99\x99\x99\x99\x9a", 8);
    packs("Q0", "", 0);
    pack_refused("R", CURLEW_BAD_LIST, 0);
    pack_refused("q3", CURLEW_BAD_LIST, 0);
    pack_refused("c2", CURLEW_WRONG_KIND, 0);
    pack_refused("W2", CURLEW_WRONG_KIND, 0);
    pack_refused("a", CURLEW_WRONG_KIND, 0);
    pack_refused("H0", CURLEW_WRONG_KIND, 0);
    begin(&given, 0);
    add_list(&given, CURLEW_SIGNED, 1, 1LL);
    add_text(&given, "12345678");
    pack_refused("Qa", CURLEW_WRONG_KIND, 0);
    pack_refused("cr", CURLEW_WRONG_KIND, 1);
    curlew_put_slot(given.slots, 1, CURLEW_REAL, 9, 1);
    pack_refused("cr", CURLEW_BAD_SLOT, 1);
    curlew_put_slot(given.slots, 1, CURLEW_REAL + 1, 0, 0);
    pack_refused("cr0", CURLEW_BAD_SLOT, 1);
}

/* Each double with the single that is stored for it; the negated double has the same with its sign. */
static void test_rounding(void)
{
    static const struct {
        uint64_t bits;
        uint32_t single;
    } table[] = {
        {0, 0}, {1, 0}, {0x3ff0000000000000u, 0x3f800000u},
        {0x3ff0000010000000u, 0x3f800000u}, {0x3ff0000010000001u, 0x3f800001u}, {0x3ff0000030000000u, 0x3f800002u},
        {0x36a0000000000000u, 1}, {0x3690000000000000u, 0}, {0x3690000000000001u, 1}, {0x36a8000000000000u, 2},
        {0x380fffffe0000000u, 0x00800000u}, {0x380fffffdfffffffu, 0x007fffffu},
        {0x47efffffe0000000u, 0x7f7fffffu}, {0x47efffffe0000001u, 0x7f7fffffu}, {0x47effffff0000000u, 0x7f7fffffu},
        {0x47f0000000000000u, 0x7f7fffffu}, {0x7fefffffffffffffu, 0x7f7fffffu}, {0x7ff0000000000000u, 0x7f7fffffu},
    };
    uint8_t bytes[4];
    size_t i;
    int sign;

    for (i = 0; i < sizeof table / sizeof table[0]; i++) {
        for (sign = 0; sign < 2; sign++) {
            curlew_put_number(bytes, table[i].single | (sign ? 0x80000000u : 0));
            begin(&given, 0);
            add_bits(&given, table[i].bits | (sign ? minus : 0));
            packs("R", bytes, 4);
        }
    }
}

static void test_no_numbers(void)
{
    begin(&given, 0);
    add_bits(&given, infinite + 1);
    packs("Q", "\x7f\xf0\0\0\0\0\0\1", 8);
    packs("q*", "\1\0\0\0\0\0\xf0\x7f", 8);
    pack_refused("R", CURLEW_BAD_REAL, 0);
    pack_refused("x9 ru*", CURLEW_BAD_REAL, 0);
    packs("r0", "", 0);
    begin(&given, 0);
    add_text(&given, "2");
    add_bits(&given, ~(uint64_t)0);
    pack_refused("a R", CURLEW_BAD_REAL, 1);
    pack_refused("b R", CURLEW_BAD_DIGIT, 0);
    curlew_put_slot(given.slots, given.count++, CURLEW_UNSET, 0, 0);
    pack_refused("a R a", CURLEW_BAD_REAL, 1);
    pack_refused("a Q a", CURLEW_NOT_SET, 2);
}

static void test_reading(void)
{
    begin(&wanted, 0);
    add_bits(&wanted, 0x3ff99999a0000000u);
    add_bits(&wanted, 0xfff0000020000000u);
    reads("Rru", "\x3f\xcc\xcc\xcd\1\0\x80\xff\x3f", 9);
    begin(&wanted, 0);
    add_bits(&wanted, infinite + 1);
    add_reals(&wanted, 0);
    reads("QR*", "\x7f\xf0\0\0\0\0\0\1\0\0\0", 11);
    begin(&wanted, 0);
    add_reals(&wanted, 2, 1.401298464324817e-45, -0.0);
    reads("r*", "\1\0\0\0\0\0\0\x80\1", 9);
    begin(&wanted, 0);
    reads("Qa", "\0\0\0\0\0\0\0", 7);
}

int main(void)
{
    open_records();
    test_helpers();
    test_packing();
    test_rounding();
    test_no_numbers();
    test_reading();
    return summary();
}
