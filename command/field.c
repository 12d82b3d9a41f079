/* A field of a layout: what sort of value it takes, and what it is in words. Where it stands and what it fills is the
 * library's to say. */
#include "tool.h"

enum value_form field_value(const struct field *field)
{
    switch (field->type) {
    case 'x':
    case 'X':
    case '@': return MOVE;
    case 'a':
    case 'A': return CHARACTERS;
    case 'b':
    case 'B':
    case 'h':
    case 'H': return DIGITS;
    case 'r':
    case 'R':
    case 'q':
    case 'Q': return REALS;
    default: return INTEGERS;
    }
}

size_t item_bytes(char type)
{
    switch (type) {
    case 's':
    case 'S': return 2;
    case 'i':
    case 'I':
    case 'r':
    case 'R': return 4;
    case 'w':
    case 'W':
    case 'q':
    case 'Q': return 8;
    default: return 1;
    }
}

/* The bytes that `count` characters, digits or items of the field fill in a record. */
size_t field_bytes(const struct field *field, size_t count)
{
    switch (field->type) {
    case 'b':
    case 'B': return (count + 7) / 8;
    case 'h':
    case 'H': return (count + 1) / 2;
    default: return count * item_bytes(field->type);
    }
}

static void number_words(const struct field *field, struct text *to)
{
    size_t bytes = item_bytes(field->type);

    text_format(to, "%s of %lu byte%s", field_value(field) == REALS ? "real" : "integer", (unsigned long)bytes,
                bytes == 1 ? "" : "s");
    if (bytes > 1)
        text_string(to, field->type >= 'a' ? ", little-endian" : ", big-endian");
    if (field_value(field) == INTEGERS)
        text_string(to, field->flag ? ", unsigned" : ", signed");
}

void field_words(const struct field *field, struct text *to)
{
    switch (field->type) {
    case 'a': text_string(to, "text, filled up with zero bytes"); break;
    case 'A': text_string(to, "text, filled up with spaces"); break;
    case 'b': text_string(to, "binary digits, low bit first"); break;
    case 'B': text_string(to, "binary digits, high bit first"); break;
    case 'h': text_string(to, "hex digits, low half first"); break;
    case 'H': text_string(to, "hex digits, high half first"); break;
    case 'x': text_string(to, "forward, over zero bytes"); break;
    case 'X': text_string(to, "back"); break;
    case '@': text_string(to, "to a byte of the record"); break;
    default: number_words(field, to);
    }
}
