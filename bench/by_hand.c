/*
 * The one layout of w1, `a8 A20 Su Iu c6 b12 H8`, written out by hand: no layout is read, no argument is checked, and
 * every place is known when it is compiled. No library that reads layouts can be quicker; it is there as the limit.
 */
#include "peers.h"

#define NUMBER 0
#define NAME 8
#define MARK 28
#define RUNNING 30
#define LEGS 34
#define STRIP 40
#define DIGITS 42
#define LENGTH 46
#define FIELDS 7

static void put_answer(uint8_t *reply, uint32_t first, uint32_t second)
{
    curlew_put_number(reply, CURLEW_OK);
    curlew_put_number(reply + 4, first);
    curlew_put_number(reply + 8, second);
}

static const uint8_t *value(const uint8_t *slots, size_t i, const uint8_t *area)
{
    return area + curlew_get_slot(slots, i).start;
}

static uint8_t hex_value(uint8_t digit)
{
    return (uint8_t)(digit <= '9' ? digit - '0' : (digit | 32) - 'a' + 10);
}

uint32_t hand_pack(const void *layout, size_t layout_len, const uint8_t *slots, size_t slots_len,
                   const uint8_t *area, size_t area_len, uint8_t *out, size_t out_len, uint8_t *reply, size_t reply_len)
{
    size_t name = curlew_get_slot(slots, 1).length;
    const uint8_t *legs = value(slots, 4, area), *strip = value(slots, 5, area), *digits = value(slots, 6, area);
    unsigned bits = 0;
    size_t i;

    (void)layout, (void)layout_len, (void)slots_len, (void)area_len, (void)out_len, (void)reply_len;
    memcpy(out + NUMBER, value(slots, 0, area), 8);
    memcpy(out + NAME, value(slots, 1, area), name);
    memset(out + NAME + name, ' ', 20 - name);
    memcpy(out + MARK, value(slots, 2, area) + 6, 2);
    memcpy(out + RUNNING, value(slots, 3, area) + 4, 4);
    for (i = 0; i < 6; i++)
        out[LEGS + i] = legs[8 * i + 7];
    for (i = 0; i < 12; i++)
        bits |= (unsigned)(strip[i] & 1) << i;
    out[STRIP] = (uint8_t)bits;
    out[STRIP + 1] = (uint8_t)(bits >> 8);
    for (i = 0; i < 4; i++)
        out[DIGITS + i] = (uint8_t)(hex_value(digits[2 * i]) << 4 | hex_value(digits[2 * i + 1]));
    put_answer(reply, LENGTH, 0);
    return CURLEW_OK;
}

static size_t set(uint8_t *slots, size_t i, uint32_t kind, size_t start, size_t length, size_t position)
{
    curlew_put_slot(slots, i, kind, (uint32_t)start, (uint32_t)length);
    curlew_put_number(slots + i * CURLEW_SLOT_SIZE + 12, (uint32_t)position);
    return start + (kind == CURLEW_STRING ? length : length * CURLEW_ITEM_SIZE);
}

uint32_t hand_read(const void *layout, size_t layout_len, const uint8_t *record, size_t record_len,
                   uint8_t *slots, size_t slots_len, uint8_t *area, size_t area_len, size_t mark,
                   uint8_t *reply, size_t reply_len)
{
    static const char hex[] = "0123456789abcdef";
    size_t at = mark, name = 20, i;

    (void)layout, (void)layout_len, (void)record_len, (void)slots_len, (void)area_len, (void)reply_len;
    while (name > 0 && (record[NAME + name - 1] == ' ' || record[NAME + name - 1] == 0))
        name--;
    memcpy(area + at, record + NUMBER, 8);
    at = set(slots, 0, CURLEW_STRING, at, 8, NUMBER);
    memcpy(area + at, record + NAME, name);
    at = set(slots, 1, CURLEW_STRING, at, name, NAME);
    curlew_put_uint(area + at, (uint64_t)record[MARK] << 8 | record[MARK + 1]);
    at = set(slots, 2, CURLEW_UNSIGNED, at, 1, MARK);
    memset(area + at, 0, 4);
    memcpy(area + at + 4, record + RUNNING, 4);
    at = set(slots, 3, CURLEW_UNSIGNED, at, 1, RUNNING);
    for (i = 0; i < 6; i++)
        curlew_put_int(area + at + 8 * i, (int8_t)record[LEGS + i]);
    at = set(slots, 4, CURLEW_SIGNED, at, 6, LEGS);
    for (i = 0; i < 12; i++)
        area[at + i] = (uint8_t)('0' + (record[STRIP + i / 8] >> i % 8 & 1));
    at = set(slots, 5, CURLEW_STRING, at, 12, STRIP);
    for (i = 0; i < 8; i++)
        area[at + i] = (uint8_t)hex[record[DIGITS + i / 2] >> (i % 2 ? 0 : 4) & 15];
    at = set(slots, 6, CURLEW_STRING, at, 8, DIGITS);
    put_answer(reply, FIELDS, (uint32_t)at);
    curlew_put_number(reply + 12, FIELDS);
    return CURLEW_OK;
}
