/* JSON: strings, keys and numbers. */
#include <string.h>

#include "tool.h"
#include "utf8.h"

static int is_plain(uint8_t c)
{
    return c >= 32 && c != '"' && c != '\\';
}

void json_string(struct text *text, const void *bytes, size_t length)
{
    const uint8_t *from = bytes;
    size_t i = 0;

    text_char(text, '"');
    while (i < length) {
        size_t run = i;

        while (i < length && is_plain(from[i]))
            i++;
        text_add(text, from + run, i - run);
        if (i < length)
            text_format(text, from[i] < 32 ? "\\u%04x" : "\\%c", from[i]);
        i += i < length;
    }
    text_char(text, '"');
}

/* Our own keys need no escapes. A comma goes before one that is not the first of its object. */
void json_key(struct text *text, const char *key)
{
    if (text->length > 0 && text->bytes[text->length - 1] != '{')
        text_char(text, ',');
    text_char(text, '"');
    text_string(text, key);
    text_add(text, "\":", 2);
}

void json_named(struct text *text, const char *key, const void *bytes, size_t length)
{
    if (utf8_all(bytes, length)) {
        json_key(text, key);
        json_string(text, bytes, length);
    } else {
        char other[32];

        strcpy(other, key);
        json_key(text, strcat(other, "_hex"));
        text_char(text, '"');
        text_hex(text, bytes, length);
        text_char(text, '"');
    }
}

void json_number(struct text *text, const char *key, uint64_t number)
{
    json_key(text, key);
    text_unsigned(text, number);
}
