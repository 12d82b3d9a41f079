/* How wide a text shows on a terminal: most characters take a column, wide ones two, accents that stand over another
 * none. */
#include "tool.h"
#include "utf8.h"

struct interval {
    uint32_t from, to;
};

static const struct interval none[] = {
    {0x300, 0x36f},   {0x483, 0x489},   {0x591, 0x5bd},   {0x610, 0x61a},   {0x64b, 0x65f},   {0x6d6, 0x6dc},
    {0x93c, 0x93c},   {0x941, 0x948},   {0x94d, 0x94d},   {0xe31, 0xe31},   {0xe34, 0xe3a},   {0xe47, 0xe4e},
    {0x1ab0, 0x1aff}, {0x1dc0, 0x1dff}, {0x200b, 0x200f}, {0x202a, 0x202e}, {0x2060, 0x2064}, {0x20d0, 0x20ff},
    {0x302a, 0x302d}, {0x3099, 0x309a}, {0xfe00, 0xfe0f}, {0xfe20, 0xfe2f}, {0xfeff, 0xfeff}, {0xe0100, 0xe01ef},
};

static const struct interval two[] = {
    {0x1100, 0x115f},   {0x231a, 0x231b},   {0x2329, 0x232a},   {0x23e9, 0x23ec},   {0x25fd, 0x25fe},
    {0x2614, 0x2615},   {0x2648, 0x2653},   {0x26a1, 0x26a1},   {0x26bd, 0x26be},   {0x2705, 0x2705},
    {0x270a, 0x270b},   {0x2728, 0x2728},   {0x274c, 0x274c},   {0x2753, 0x2755},   {0x2795, 0x2797},
    {0x2b1b, 0x2b1c},   {0x2b50, 0x2b50},   {0x2e80, 0x303e},   {0x3041, 0x33ff},   {0x3400, 0x4dbf},
    {0x4e00, 0x9fff},   {0xa000, 0xa4cf},   {0xa960, 0xa97c},   {0xac00, 0xd7a3},   {0xf900, 0xfaff},
    {0xfe30, 0xfe6f},   {0xff00, 0xff60},   {0xffe0, 0xffe6},   {0x1f300, 0x1f64f}, {0x1f680, 0x1f6ff},
    {0x1f900, 0x1f9ff}, {0x1fa70, 0x1faff}, {0x20000, 0x3fffd},
};

static int lies_in(const struct interval *ranges, size_t count, uint32_t number)
{
    size_t i = 0;

    while (i < count && ranges[i].to < number)
        i++;
    return i < count && ranges[i].from <= number;
}

static uint32_t number_of(const uint8_t *bytes, size_t size)
{
    static const uint8_t masks[] = {0, 0x7f, 0x1f, 0x0f, 0x07};
    uint32_t number = bytes[0] & masks[size];
    size_t i;

    for (i = 1; i < size; i++)
        number = number << 6 | (bytes[i] & 0x3f);
    return number;
}

/* The columns of the character that stands first, and its bytes; a byte that is no part of one takes a column. */
static size_t one_wide(const uint8_t *bytes, size_t length, size_t *size)
{
    uint32_t number;

    *size = utf8_character(bytes, length);
    if (*size <= 1) {
        *size = 1;
        return 1;
    }
    number = number_of(bytes, *size);
    if (lies_in(none, sizeof none / sizeof none[0], number))
        return 0;
    return lies_in(two, sizeof two / sizeof two[0], number) ? 2 : 1;
}

size_t text_columns(const char *bytes, size_t length)
{
    size_t columns = 0, i = 0, size;

    while (i < length) {
        columns += one_wide((const uint8_t *)bytes + i, length - i, &size);
        i += size;
    }
    return columns;
}

size_t text_fitting(const char *bytes, size_t length, size_t columns)
{
    size_t i = 0, size;

    while (i < length) {
        size_t wide = one_wide((const uint8_t *)bytes + i, length - i, &size);

        if (wide > columns)
            break;
        columns -= wide;
        i += size;
    }
    return i;
}
