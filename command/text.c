/* Text that grows, and the forms in which numbers and strings are shown. */
#include <math.h>
#include <stdarg.h>
#include <stdio.h>
#include <stdlib.h>
#include <string.h>

#include "tool.h"
#include "utf8.h"

void *get_memory(size_t size)
{
    void *memory = malloc(size > 0 ? size : 1);

    if (memory == NULL) {
        complain("out of memory (%lu bytes)", (unsigned long)size);
        exit(TROUBLE);
    }
    return memory;
}

void text_grow(struct text *text, size_t more)
{
    size_t room = text->room + text->room / 2 + more + 64;
    char *bytes = get_memory(room);

    if (text->length > 0)
        memcpy(bytes, text->bytes, text->length);
    free(text->bytes);
    text->bytes = bytes;
    text->room = room;
}

void text_string(struct text *text, const char *string)
{
    text_add(text, string, strlen(string));
}

void text_spaces(struct text *text, size_t count)
{
    if (count > 0) {
        memset(text_room(text, count), ' ', count);
        text->length += count;
    }
}

void text_unsigned(struct text *text, uint64_t number)
{
    char digits[20];
    size_t at = sizeof digits;

    do {
        digits[--at] = (char)('0' + number % 10);
        number /= 10;
    } while (number > 0);
    text_add(text, digits + at, sizeof digits - at);
}

void text_signed(struct text *text, int64_t number)
{
    if (number < 0) {
        text_char(text, '-');
        text_unsigned(text, (uint64_t) - (number + 1) + 1);
    } else {
        text_unsigned(text, (uint64_t)number);
    }
}

void text_grouped(struct text *text, uint64_t number)
{
    if (number >= 1000) {
        text_grouped(text, number / 1000);
        text_format(text, ",%03u", (unsigned)(number % 1000));
    } else {
        text_unsigned(text, number);
    }
}

void text_count(struct text *text, uint64_t number, const char *one, const char *more)
{
    text_grouped(text, number);
    text_char(text, ' ');
    text_string(text, number == 1 ? one : more);
}

/* A NaN shows its payload, since `q Q` keep it: nan is the usual quiet one. */
static void text_nan(struct text *text, double value)
{
    uint8_t pattern[CURLEW_ITEM_SIZE];
    uint64_t payload;

    curlew_put_double(pattern, value);
    payload = curlew_get_uint(pattern) & 0xfffffffffffffu;
    text_string(text, pattern[0] & 128 ? "-nan" : "nan");
    if (payload != (uint64_t)1 << 51)
        text_format(text, "(0x%llx)", (unsigned long long)payload);
}

void text_real(struct text *text, double value)
{
    char digits[40];
    int precision = 15;

    if (isnan(value)) {
        text_nan(text, value);
        return;
    }
    if (value > 0 && value < 1e15 && value == (double)(uint64_t)value) {
        text_unsigned(text, (uint64_t)value);
        return;
    }
    do
        snprintf(digits, sizeof digits, "%.*g", precision, value);
    while (precision++ < 17 && strtod(digits, NULL) != value);
    text_string(text, digits);
}

void text_single(struct text *text, double value)
{
    char digits[40];
    int precision = 6;

    if (!isfinite(value)) {
        text_real(text, value);
        return;
    }
    do
        snprintf(digits, sizeof digits, "%.*g", precision, value);
    while (precision++ < 9 && (float)strtod(digits, NULL) != (float)value);
    text_string(text, digits);
}

void text_json_real(struct text *text, double value)
{
    size_t start = text->length;

    text_real(text, value);
    if (memchr(text->bytes + start, '.', text->length - start) == NULL &&
        memchr(text->bytes + start, 'e', text->length - start) == NULL)
        text_string(text, ".0");
}

void text_hex(struct text *text, const uint8_t *bytes, size_t length)
{
    static const char digits[] = "0123456789abcdef";
    char *to = text_room(text, 2 * length);
    size_t i;

    for (i = 0; i < length; i++) {
        to[2 * i] = digits[bytes[i] >> 4];
        to[2 * i + 1] = digits[bytes[i] & 15];
    }
    text->length += 2 * length;
}

/* One character, or one byte that is no part of one; bytes that steer a terminal never come through. */
static size_t show_one(struct text *text, const uint8_t *bytes, size_t length)
{
    size_t size = utf8_character(bytes, length);

    if (size == 0 || bytes[0] < 32 || bytes[0] == 127 || (size == 2 && bytes[0] == 0xc2 && bytes[1] < 0xa0)) {
        text_format(text, "\\x%02x", bytes[0]);
        return 1;
    }
    text_add(text, bytes, size);
    return size;
}

static int shows_itself(uint8_t c, char quote)
{
    return c >= 32 && c < 127 && c != '\\' && c != (uint8_t)quote;
}

/* The characters of a string, with a backslash before a backslash and before the quote. */
static void show_all(struct text *text, const uint8_t *bytes, size_t length, char quote)
{
    size_t i = 0;

    while (i < length) {
        size_t run = i;

        while (i < length && shows_itself(bytes[i], quote))
            i++;
        text_add(text, bytes + run, i - run);
        if (i < length && (bytes[i] == '\\' || bytes[i] == (uint8_t)quote))
            text_char(text, '\\');
        if (i < length)
            i += show_one(text, bytes + i, length - i);
    }
}

void text_quoted(struct text *text, const uint8_t *bytes, size_t length)
{
    text_char(text, '"');
    show_all(text, bytes, length, '"');
    text_char(text, '"');
}

void text_escaped(struct text *text, const uint8_t *bytes, size_t length)
{
    show_all(text, bytes, length, '\\');
}

void text_message(struct text *text, const char *bytes, size_t length)
{
    size_t i = 0;

    while (i < length)
        i += show_one(text, (const uint8_t *)bytes + i, length - i);
}

void text_format(struct text *text, const char *format, ...)
{
    va_list arguments;
    int length;

    va_start(arguments, format);
    length = vsnprintf(NULL, 0, format, arguments);
    va_end(arguments);
    va_start(arguments, format);
    vsnprintf(text_room(text, (size_t)length + 1), (size_t)length + 1, format, arguments);
    va_end(arguments);
    text->length += (size_t)length;
}

void text_free(struct text *text)
{
    free(text->bytes);
    memset(text, 0, sizeof *text);
}
