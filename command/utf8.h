/* UTF-8, as RFC 3629 has it: no overlong forms, no surrogates, nothing above U+10FFFF. */
#ifndef UTF8_H
#define UTF8_H

#include <stddef.h>
#include <stdint.h>

static inline int utf8_tail(const uint8_t *bytes, size_t count)
{
    size_t i;

    for (i = 1; i <= count; i++)
        if ((bytes[i] & 0xc0) != 0x80)
            return 0;
    return 1;
}

/* The bytes of the character that stands first, or 0 where none does. */
static inline size_t utf8_character(const uint8_t *bytes, size_t length)
{
    uint8_t first = length > 0 ? bytes[0] : 0xff;

    if (first < 0x80)
        return 1;
    if (first >= 0xc2 && first < 0xe0)
        return length >= 2 && utf8_tail(bytes, 1) ? 2 : 0;
    if (first >= 0xe0 && first < 0xf0) {
        if (length < 3 || !utf8_tail(bytes, 2) || (first == 0xe0 && bytes[1] < 0xa0) ||
            (first == 0xed && bytes[1] >= 0xa0))
            return 0;
        return 3;
    }
    if (first >= 0xf0 && first < 0xf5) {
        if (length < 4 || !utf8_tail(bytes, 3) || (first == 0xf0 && bytes[1] < 0x90) ||
            (first == 0xf4 && bytes[1] >= 0x90))
            return 0;
        return 4;
    }
    return 0;
}

static inline int utf8_all(const uint8_t *bytes, size_t length)
{
    size_t i = 0;

    while (i < length) {
        size_t size = utf8_character(bytes + i, length - i);

        if (size == 0)
            return 0;
        i += size;
    }
    return 1;
}

#endif
