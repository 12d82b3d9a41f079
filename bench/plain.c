/*
 * Packing and reading once more, in plain C with the interface of the library: written for speed and proved in no way.
 * It is the peer that shows what the proofs cost. Words of eight bytes are taken as x86-64 has them, lowest byte first.
 */
#include "peers.h"

#include <float.h>

enum type {
    TEXT_ZERO, TEXT_SPACE, BITS_LOW, BITS_HIGH, HEX_LOW, HEX_HIGH, INT8, INT16_LOW, INT16_HIGH, INT32_LOW, INT32_HIGH,
    INT64_LOW, INT64_HIGH, REAL64_LOW, REAL64_HIGH, REAL32_LOW, REAL32_HIGH, SKIP, BACK, ABSOLUTE, TYPES
};

#define UNKNOWN 255
#define NO_COUNT UINT32_MAX
#define STAR (UINT32_MAX - 1)

/* A field: its type, its count, and what a pass found out about it. */
struct field {
    uint8_t type;
    uint8_t is_unsigned;
    uint32_t count;
    uint32_t items;
    uint32_t bytes;
    uint32_t at;
};

struct fields {
    struct field list[CURLEW_MAX_LAYOUT];
    size_t count;
    size_t values;
};

struct refusal {
    uint32_t number;
    uint32_t place;
};

static const struct refusal accepted = {CURLEW_OK, 0};

/* The type of a letter, one more than its number so that 0 is no type. */
static const uint8_t types[256] = {
    ['a'] = TEXT_ZERO + 1, ['A'] = TEXT_SPACE + 1, ['b'] = BITS_LOW + 1, ['B'] = BITS_HIGH + 1, ['h'] = HEX_LOW + 1,
    ['H'] = HEX_HIGH + 1, ['c'] = INT8 + 1, ['s'] = INT16_LOW + 1, ['S'] = INT16_HIGH + 1, ['i'] = INT32_LOW + 1,
    ['I'] = INT32_HIGH + 1, ['w'] = INT64_LOW + 1, ['W'] = INT64_HIGH + 1, ['q'] = REAL64_LOW + 1,
    ['Q'] = REAL64_HIGH + 1, ['r'] = REAL32_LOW + 1, ['R'] = REAL32_HIGH + 1, ['x'] = SKIP + 1, ['X'] = BACK + 1,
    ['@'] = ABSOLUTE + 1,
};

/* Bytes of an item in a record; 1 for text. Digits are counted by their bits. */
static const uint8_t widths[TYPES] = {1, 1, 0, 0, 0, 0, 1, 2, 2, 4, 4, 8, 8, 8, 8, 4, 4, 0, 0, 0};

/* 16 and the value of a hex digit; 0 for anything else. */
static const uint8_t hex_values[256] = {
    ['0'] = 16, ['1'] = 17, ['2'] = 18, ['3'] = 19, ['4'] = 20, ['5'] = 21, ['6'] = 22, ['7'] = 23, ['8'] = 24, ['9'] = 25,
    ['a'] = 26, ['b'] = 27, ['c'] = 28, ['d'] = 29, ['e'] = 30, ['f'] = 31,
    ['A'] = 26, ['B'] = 27, ['C'] = 28, ['D'] = 29, ['E'] = 30, ['F'] = 31,
};

static uint32_t get32(const uint8_t *at)
{
    uint32_t value;

    memcpy(&value, at, sizeof value);
    return __builtin_bswap32(value);
}

static void put32(uint8_t *at, uint32_t value)
{
    value = __builtin_bswap32(value);
    memcpy(at, &value, sizeof value);
}

static uint64_t get64(const uint8_t *at)
{
    uint64_t value;

    memcpy(&value, at, sizeof value);
    return __builtin_bswap64(value);
}

static void put64(uint8_t *at, uint64_t value)
{
    value = __builtin_bswap64(value);
    memcpy(at, &value, sizeof value);
}

static uint32_t answer(uint8_t *reply, uint32_t number, uint32_t first, uint32_t second)
{
    put32(reply, number);
    put32(reply + 4, first);
    put32(reply + 8, second);
    return number;
}

static struct refusal refuse(uint32_t number, size_t place)
{
    struct refusal refusal = {number, (uint32_t)place};

    return refusal;
}

/* ---- the layout ---- */

static size_t read_count(const uint8_t *text, size_t length, size_t at, uint32_t *count)
{
    uint32_t value = 0;

    for (; at < length && (uint8_t)(text[at] - '0') < 10; at++)
        if (value <= CURLEW_MAX_COUNT)
            value = value * 10 + (uint8_t)(text[at] - '0');
    *count = value;
    return at;
}

static struct refusal parse(const uint8_t *text, size_t length, int packing, struct fields *fields)
{
    struct field *field = fields->list;
    size_t at = 0, values = 0;

    for (;;) {
        size_t start, digits;

        while (at < length && text[at] == ' ')
            at++;
        if (at == length)
            break;
        start = at;
        field->type = (uint8_t)(types[text[at++]] - 1);
        if (field->type == UNKNOWN)
            return refuse(CURLEW_BAD_TYPE, start);
        field->is_unsigned = at < length && text[at] == 'u';
        digits = at += field->is_unsigned;
        field->count = NO_COUNT;
        if (at < length && text[at] == '*') {
            field->count = STAR;
            at++;
        } else if (at < length && (uint8_t)(text[at] - '0') < 10) {
            at = read_count(text, length, at, &field->count);
            if (field->count > CURLEW_MAX_COUNT)
                return refuse(CURLEW_BAD_COUNT, digits);
        }
        if ((field->type == ABSOLUTE && field->count == NO_COUNT) || (packing && field->type == SKIP && field->count == STAR))
            return refuse(CURLEW_BAD_MOVE, start);
        values += field->type < SKIP;
        field++;
    }
    fields->count = (size_t)(field - fields->list);
    fields->values = values;
    return accepted;
}

static uint32_t bytes_of(unsigned type, uint32_t items)
{
    if (type >= BITS_LOW && type <= BITS_HIGH)
        return (items + 7) / 8;
    if (type >= HEX_LOW && type <= HEX_HIGH)
        return (items + 1) / 2;
    return items * widths[type];
}

/* ---- packing: arguments ---- */

struct argument {
    uint32_t kind, start, length;
};

static struct argument argument_at(const uint8_t *slots, size_t i)
{
    const uint8_t *at = slots + i * CURLEW_SLOT_SIZE;
    struct argument a = {get32(at), get32(at + 4), get32(at + 8)};

    return a;
}

static int are_binary(const uint8_t *digits, size_t n)
{
    uint8_t seen = 0;
    size_t i;

    for (i = 0; i < n; i++)
        seen |= digits[i] ^ '0';
    return seen < 2;
}

static int are_hex(const uint8_t *digits, size_t n)
{
    uint8_t all = 16;
    size_t i;

    for (i = 0; i < n; i++)
        all &= hex_values[digits[i]];
    return all != 0;
}

static int has_nan(const uint8_t *items, size_t n)
{
    size_t i;

    for (i = 0; i < n; i++)
        if ((get64(items + 8 * i) & UINT64_MAX >> 1) > UINT64_C(0x7ff0000000000000))
            return 1;
    return 0;
}

/* The number of the refusal of an argument, 0 if it serves its field; sets the field's items. */
static uint32_t check(struct field *field, struct argument a, const uint8_t *area, size_t area_len)
{
    int is_text = field->type < INT8;
    uint64_t size = a.kind == CURLEW_STRING ? a.length : (uint64_t)a.length * CURLEW_ITEM_SIZE;
    uint32_t looked;

    if (a.kind == CURLEW_UNSET)
        return CURLEW_NOT_SET;
    if (a.kind > CURLEW_REAL || a.start + size > area_len)
        return CURLEW_BAD_SLOT;
    if (is_text != (a.kind == CURLEW_STRING) || (field->type >= REAL64_LOW) != (a.kind == CURLEW_REAL))
        return CURLEW_WRONG_KIND;
    field->items = field->count == STAR ? a.length : field->count == NO_COUNT ? 1 : field->count;
    if (!is_text && (field->count == NO_COUNT ? a.length != 1 : a.length < field->items))
        return CURLEW_BAD_LIST;
    looked = field->items < a.length ? field->items : a.length;
    if (field->type >= BITS_LOW && field->type <= BITS_HIGH && !are_binary(area + a.start, looked))
        return CURLEW_BAD_DIGIT;
    if (field->type >= HEX_LOW && field->type <= HEX_HIGH && !are_hex(area + a.start, looked))
        return CURLEW_BAD_DIGIT;
    if (field->type >= REAL32_LOW && has_nan(area + a.start, looked))
        return CURLEW_BAD_REAL;
    return CURLEW_OK;
}

/* Where a move leads from `at`; `end` is the highest position so far, or the end of the record. */
static size_t moved(const struct field *field, size_t at, size_t end)
{
    size_t count = field->count == NO_COUNT ? 1 : field->count;

    if (field->type == BACK)
        return field->count == STAR || count > at ? 0 : at - count;
    if (field->count == STAR)
        return end;
    return field->type == SKIP ? at + count : count;
}

static struct refusal measure(struct fields *fields, const uint8_t *slots, const uint8_t *area, size_t area_len,
                              size_t *length)
{
    size_t at = 0, end = 0, slot = 0, i;

    for (i = 0; i < fields->count; i++) {
        struct field *field = &fields->list[i];

        field->at = (uint32_t)at;
        if (field->type >= SKIP) {
            at = moved(field, at, end);
        } else {
            uint32_t refused = check(field, argument_at(slots, slot), area, area_len);

            if (refused != CURLEW_OK)
                return refuse(refused, slot);
            slot++;
            field->bytes = bytes_of(field->type, field->items);
            at += field->bytes;
        }
        if (at > end)
            end = at;
    }
    *length = end;
    return accepted;
}

/* ---- packing: bytes ---- */

static void store_text(uint8_t *to, uint32_t n, const uint8_t *from, uint32_t length, int pad)
{
    uint32_t kept = n < length ? n : length;

    memcpy(to, from, kept);
    memset(to + kept, pad, n - kept);
}

static uint8_t byte_of_bits(const uint8_t *digits, uint64_t order)
{
    uint64_t word;

    memcpy(&word, digits, sizeof word);
    return (uint8_t)((word & UINT64_C(0x0101010101010101)) * order >> 56);
}

#define LOW_FIRST UINT64_C(0x0102040810204080)
#define HIGH_FIRST UINT64_C(0x8040201008040201)

static void store_bits(uint8_t *to, uint32_t bytes, uint32_t n, const uint8_t *from, uint32_t length, uint64_t order)
{
    uint32_t kept = n < length ? n : length;
    uint8_t rest[8] = {0};
    uint32_t i;

    for (i = 0; i < kept / 8; i++)
        to[i] = byte_of_bits(from + 8 * i, order);
    if (i < bytes) {
        memcpy(rest, from + 8 * i, kept % 8);
        to[i++] = byte_of_bits(rest, order);
        memset(to + i, 0, bytes - i);
    }
}

static void store_hex(uint8_t *to, uint32_t bytes, uint32_t n, const uint8_t *from, uint32_t length, unsigned first)
{
    uint32_t kept = n < length ? n : length;
    uint32_t i;

    for (i = 0; i < kept / 2; i++)
        to[i] = (uint8_t)((hex_values[from[2 * i]] & 15) << first | (hex_values[from[2 * i + 1]] & 15) << (4 - first));
    if (i < bytes) {
        to[i] = (uint8_t)(kept % 2 ? (hex_values[from[2 * i]] & 15) << first : 0);
        i++;
        memset(to + i, 0, bytes - i);
    }
}

/* One loop for every width and order: the compiler makes one of each call, since both are constants there. */
static inline __attribute__((always_inline)) void store_integers(uint8_t *to, uint32_t n, const uint8_t *from,
                                                                 unsigned width, int big)
{
    uint32_t i;

    for (i = 0; i < n; i++) {
        uint64_t item = get64(from + 8 * i);

        if (big)
            item = __builtin_bswap64(item << (64 - 8 * width));
        memcpy(to + i * width, &item, width);
    }
}

/* The single nearest to a double that is no number's absence; beyond the largest, the largest. */
static uint32_t narrowed(uint64_t item)
{
    double value;
    float single;
    uint32_t pattern;

    memcpy(&value, &item, sizeof value);
    value = value > FLT_MAX ? FLT_MAX : value < -FLT_MAX ? -FLT_MAX : value;
    single = (float)value;
    memcpy(&pattern, &single, sizeof pattern);
    return pattern;
}

static inline __attribute__((always_inline)) void store_singles(uint8_t *to, uint32_t n, const uint8_t *from, int big)
{
    uint32_t i;

    for (i = 0; i < n; i++) {
        uint32_t single = narrowed(get64(from + 8 * i));

        if (big)
            single = __builtin_bswap32(single);
        memcpy(to + 4 * i, &single, sizeof single);
    }
}

static void store(uint8_t *out, const struct field *field, struct argument a, const uint8_t *area)
{
    uint8_t *to = out + field->at;
    const uint8_t *from = area + a.start;

    switch (field->type) {
    case TEXT_ZERO: store_text(to, field->items, from, a.length, 0); break;
    case TEXT_SPACE: store_text(to, field->items, from, a.length, ' '); break;
    case BITS_LOW: store_bits(to, field->bytes, field->items, from, a.length, LOW_FIRST); break;
    case BITS_HIGH: store_bits(to, field->bytes, field->items, from, a.length, HIGH_FIRST); break;
    case HEX_LOW: store_hex(to, field->bytes, field->items, from, a.length, 0); break;
    case HEX_HIGH: store_hex(to, field->bytes, field->items, from, a.length, 4); break;
    case INT8: store_integers(to, field->items, from, 1, 0); break;
    case INT16_LOW: store_integers(to, field->items, from, 2, 0); break;
    case INT16_HIGH: store_integers(to, field->items, from, 2, 1); break;
    case INT32_LOW: store_integers(to, field->items, from, 4, 0); break;
    case INT32_HIGH: store_integers(to, field->items, from, 4, 1); break;
    case INT64_LOW: case REAL64_LOW: store_integers(to, field->items, from, 8, 0); break;
    case INT64_HIGH: case REAL64_HIGH: store_integers(to, field->items, from, 8, 1); break;
    case REAL32_LOW: store_singles(to, field->items, from, 0); break;
    case REAL32_HIGH: store_singles(to, field->items, from, 1); break;
    }
}

/* Bytes between the highest position so far and a field that begins after it were never stored: they are zero. */
static void write(uint8_t *out, const struct fields *fields, const uint8_t *slots, const uint8_t *area)
{
    size_t end = 0, slot = 0, i;

    for (i = 0; i < fields->count; i++) {
        const struct field *field = &fields->list[i];
        size_t after = field->at + (size_t)field->bytes;

        if (field->type == SKIP) {
            size_t count = field->count == NO_COUNT ? 1 : field->count;

            memset(out + field->at, 0, count);
            after = field->at + count;
        } else if (field->type < SKIP) {
            store(out, field, argument_at(slots, slot++), area);
        } else {
            after = moved(field, field->at, end);
            if (after > end)
                memset(out + end, 0, after - end);
        }
        if (after > end)
            end = after;
    }
}

/* What is left of a packing once the fields are known. */
static inline __attribute__((always_inline)) uint32_t pack_fields(struct fields *fields, const uint8_t *slots,
    size_t slots_len, const uint8_t *area, size_t area_len, uint8_t *out, size_t out_len, uint8_t *reply)
{
    struct refusal refused = accepted;
    size_t length;

    if (fields->values != slots_len / CURLEW_SLOT_SIZE)
        refused = refuse(CURLEW_BAD_SLOTS, 0);
    if (refused.number == CURLEW_OK)
        refused = measure(fields, slots, area, area_len, &length);
    if (refused.number == CURLEW_OK && length > out_len)
        refused = refuse(CURLEW_NO_ROOM, 0);
    if (refused.number != CURLEW_OK)
        return answer(reply, refused.number, refused.place, 0);
    write(out, fields, slots, area);
    return answer(reply, CURLEW_OK, (uint32_t)length, 0);
}

uint32_t plain_pack(const void *layout, size_t layout_len, const uint8_t *slots, size_t slots_len,
                    const uint8_t *area, size_t area_len, uint8_t *out, size_t out_len, uint8_t *reply, size_t reply_len)
{
    struct fields fields;
    struct refusal refused;

    if (reply_len != CURLEW_PACK_REPLY)
        return CURLEW_BAD_SIZE;
    if (layout_len > CURLEW_MAX_LAYOUT || slots_len > CURLEW_MAX_SLOTS * CURLEW_SLOT_SIZE
        || slots_len % CURLEW_SLOT_SIZE != 0 || area_len > CURLEW_MAX_AREA || out_len > CURLEW_MAX_RECORD)
        return answer(reply, CURLEW_BAD_SIZE, 0, 0);
    refused = parse((const uint8_t *)layout, layout_len, 1, &fields);
    if (refused.number != CURLEW_OK)
        return answer(reply, refused.number, refused.place, 0);
    return pack_fields(&fields, slots, slots_len, area, area_len, out, out_len, reply);
}

/* The fields of a layout, kept for many calls; they are given in the place of the layout and looked at no more. */
void *plain_keep(const void *layout, size_t layout_len, int packing)
{
    struct fields *fields = (struct fields *)malloc(sizeof *fields);

    if (fields == NULL || layout_len > CURLEW_MAX_LAYOUT
        || parse((const uint8_t *)layout, layout_len, packing, fields).number != CURLEW_OK)
        stop("no fields to keep");
    return fields;
}

uint32_t kept_pack(const void *kept, size_t unused, const uint8_t *slots, size_t slots_len,
                   const uint8_t *area, size_t area_len, uint8_t *out, size_t out_len, uint8_t *reply, size_t reply_len)
{
    (void)unused;
    if (reply_len != CURLEW_PACK_REPLY)
        return CURLEW_BAD_SIZE;
    if (slots_len > CURLEW_MAX_SLOTS * CURLEW_SLOT_SIZE || slots_len % CURLEW_SLOT_SIZE != 0
        || area_len > CURLEW_MAX_AREA || out_len > CURLEW_MAX_RECORD)
        return answer(reply, CURLEW_BAD_SIZE, 0, 0);
    return pack_fields((struct fields *)kept, slots, slots_len, area, area_len, out, out_len, reply);
}

/* ---- reading ---- */

static uint32_t items_left(unsigned type, size_t left)
{
    if (type >= BITS_LOW && type <= BITS_HIGH)
        return (uint32_t)(left * 8);
    if (type >= HEX_LOW && type <= HEX_HIGH)
        return (uint32_t)(left * 2);
    return (uint32_t)(left / widths[type]);
}

static uint32_t trimmed(const uint8_t *text, uint32_t length)
{
    while (length > 0 && (text[length - 1] == ' ' || text[length - 1] == 0))
        length--;
    return length;
}

struct run {
    size_t fields;
    size_t values;
    size_t steps;
    size_t size;
};

/* Which fields the record holds: what each of them shows, and how large the values are together. */
static struct run follow(struct fields *fields, const uint8_t *record, size_t record_len)
{
    struct run run = {0, 0, 0, 0};
    size_t at = 0;

    for (; run.fields < fields->count; run.fields++) {
        struct field *field = &fields->list[run.fields];

        field->at = (uint32_t)at;
        run.steps++;
        if (field->type >= SKIP) {
            at = moved(field, at, record_len);
            if (at > record_len)
                at = record_len;
            continue;
        }
        field->items = field->count == STAR ? items_left(field->type, record_len - at)
            : field->count == NO_COUNT ? 1 : field->count;
        field->bytes = bytes_of(field->type, field->items);
        if (field->bytes > record_len - at)
            break;
        if (field->type == TEXT_SPACE)
            field->items = trimmed(record + at, field->items);
        at += field->bytes;
        run.values++;
        run.size += field->type < INT8 ? field->items : (size_t)field->items * CURLEW_ITEM_SIZE;
    }
    return run;
}

static void load_bits(uint8_t *to, uint32_t n, const uint8_t *from, uint64_t order)
{
    uint32_t i;

    for (i = 0; i < (n + 7) / 8; i++) {
        uint64_t word = (from[i] * UINT64_C(0x0101010101010101)) & order;

        word = ((word + UINT64_C(0x7f7f7f7f7f7f7f7f)) >> 7 & UINT64_C(0x0101010101010101))
            | UINT64_C(0x3030303030303030);
        memcpy(to + 8 * i, &word, i < n / 8 ? 8 : n % 8);
    }
}

static void load_hex(uint8_t *to, uint32_t n, const uint8_t *from, unsigned first)
{
    static const char digits[] = "0123456789abcdef";
    uint32_t i;

    for (i = 0; i < n / 2; i++) {
        to[2 * i] = (uint8_t)digits[from[i] >> first & 15];
        to[2 * i + 1] = (uint8_t)digits[from[i] >> (4 - first) & 15];
    }
    if (n % 2)
        to[n - 1] = (uint8_t)digits[from[i] >> first & 15];
}

static inline __attribute__((always_inline)) void load_integers(uint8_t *to, uint32_t n, const uint8_t *from,
                                                                unsigned width, int big, int is_unsigned)
{
    uint32_t i;

    for (i = 0; i < n; i++) {
        uint64_t item = 0;

        memcpy(&item, from + i * width, width);
        item = big ? __builtin_bswap64(item) : item << (64 - 8 * width);
        put64(to + 8 * i, is_unsigned ? item >> (64 - 8 * width) : (uint64_t)((int64_t)item >> (64 - 8 * width)));
    }
}

static uint64_t widened(uint32_t pattern)
{
    float single;
    double value;
    uint64_t item;

    if ((pattern & 0x7fffffff) > 0x7f800000)
        return (uint64_t)(pattern >> 31) << 63 | UINT64_C(0x7ff) << 52 | (uint64_t)(pattern & 0x7fffff) << 29;
    memcpy(&single, &pattern, sizeof single);
    value = single;
    memcpy(&item, &value, sizeof item);
    return item;
}

static inline __attribute__((always_inline)) void load_singles(uint8_t *to, uint32_t n, const uint8_t *from, int big)
{
    uint32_t i;

    for (i = 0; i < n; i++) {
        uint32_t single;

        memcpy(&single, from + 4 * i, sizeof single);
        put64(to + 8 * i, widened(big ? __builtin_bswap32(single) : single));
    }
}

static inline __attribute__((always_inline)) void load_either(uint8_t *to, const struct field *field,
                                                              const uint8_t *from, unsigned width, int big)
{
    if (field->is_unsigned)
        load_integers(to, field->items, from, width, big, 1);
    else
        load_integers(to, field->items, from, width, big, 0);
}

static void load(uint8_t *to, const struct field *field, const uint8_t *record)
{
    const uint8_t *from = record + field->at;

    switch (field->type) {
    case TEXT_ZERO: case TEXT_SPACE: memcpy(to, from, field->items); break;
    case BITS_LOW: load_bits(to, field->items, from, HIGH_FIRST); break;
    case BITS_HIGH: load_bits(to, field->items, from, LOW_FIRST); break;
    case HEX_LOW: load_hex(to, field->items, from, 0); break;
    case HEX_HIGH: load_hex(to, field->items, from, 4); break;
    case INT8: load_either(to, field, from, 1, 0); break;
    case INT16_LOW: load_either(to, field, from, 2, 0); break;
    case INT16_HIGH: load_either(to, field, from, 2, 1); break;
    case INT32_LOW: load_either(to, field, from, 4, 0); break;
    case INT32_HIGH: load_either(to, field, from, 4, 1); break;
    case INT64_LOW: case REAL64_LOW: load_integers(to, field->items, from, 8, 0, 1); break;
    case INT64_HIGH: case REAL64_HIGH: load_integers(to, field->items, from, 8, 1, 1); break;
    case REAL32_LOW: load_singles(to, field->items, from, 0); break;
    case REAL32_HIGH: load_singles(to, field->items, from, 1); break;
    }
}

static uint32_t kind_of(const struct field *field)
{
    return field->type < INT8 ? CURLEW_STRING : field->type >= REAL64_LOW ? CURLEW_REAL
        : field->is_unsigned ? CURLEW_UNSIGNED : CURLEW_SIGNED;
}

static void fill(const struct fields *fields, struct run run, const uint8_t *record, uint8_t *slots, uint8_t *area,
                 size_t mark)
{
    size_t i;

    for (i = 0; i < run.fields; i++) {
        const struct field *field = &fields->list[i];
        uint32_t kind = kind_of(field);

        if (field->type >= SKIP)
            continue;
        load(area + mark, field, record);
        put32(slots, kind);
        put32(slots + 4, (uint32_t)mark);
        put32(slots + 8, field->items);
        put32(slots + 12, field->at);
        slots += CURLEW_SLOT_SIZE;
        mark += kind == CURLEW_STRING ? field->items : (size_t)field->items * CURLEW_ITEM_SIZE;
    }
}

static uint32_t read_answer(uint8_t *reply, uint32_t number, size_t first, size_t second, size_t third)
{
    put32(reply + 12, (uint32_t)third);
    return answer(reply, number, (uint32_t)first, (uint32_t)second);
}

/* What is left of a reading once the fields are known. */
static inline __attribute__((always_inline)) uint32_t read_fields(struct fields *fields, const uint8_t *record,
    size_t record_len, uint8_t *slots, size_t slots_len, uint8_t *area, size_t area_len, size_t mark, uint8_t *reply)
{
    struct run run;

    if (fields->values > slots_len / CURLEW_SLOT_SIZE)
        return read_answer(reply, CURLEW_BAD_SLOTS, 0, 0, 0);
    run = follow(fields, record, record_len);
    if (run.size > area_len - mark)
        return read_answer(reply, CURLEW_NO_ROOM, 0, 0, 0);
    fill(fields, run, record, slots, area, mark);
    return read_answer(reply, CURLEW_OK, run.values, mark + run.size, run.steps);
}

uint32_t plain_read(const void *layout, size_t layout_len, const uint8_t *record, size_t record_len,
                    uint8_t *slots, size_t slots_len, uint8_t *area, size_t area_len, size_t mark,
                    uint8_t *reply, size_t reply_len)
{
    struct fields fields;
    struct refusal refused;

    if (reply_len != CURLEW_READ_REPLY)
        return CURLEW_BAD_SIZE;
    if (layout_len > CURLEW_MAX_LAYOUT || record_len > CURLEW_MAX_RECORD || slots_len % CURLEW_SLOT_SIZE != 0
        || slots_len > CURLEW_MAX_SLOTS * CURLEW_SLOT_SIZE || area_len > CURLEW_MAX_AREA || mark > area_len)
        return read_answer(reply, CURLEW_BAD_SIZE, 0, 0, 0);
    refused = parse((const uint8_t *)layout, layout_len, 0, &fields);
    if (refused.number != CURLEW_OK)
        return read_answer(reply, refused.number, refused.place, 0, 0);
    return read_fields(&fields, record, record_len, slots, slots_len, area, area_len, mark, reply);
}

uint32_t kept_read(const void *kept, size_t unused, const uint8_t *record, size_t record_len,
                   uint8_t *slots, size_t slots_len, uint8_t *area, size_t area_len, size_t mark,
                   uint8_t *reply, size_t reply_len)
{
    (void)unused;
    if (reply_len != CURLEW_READ_REPLY)
        return CURLEW_BAD_SIZE;
    if (record_len > CURLEW_MAX_RECORD || slots_len % CURLEW_SLOT_SIZE != 0
        || slots_len > CURLEW_MAX_SLOTS * CURLEW_SLOT_SIZE || area_len > CURLEW_MAX_AREA || mark > area_len)
        return read_answer(reply, CURLEW_BAD_SIZE, 0, 0, 0);
    return read_fields((struct fields *)kept, record, record_len, slots, slots_len, area, area_len, mark, reply);
}
