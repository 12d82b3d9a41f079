/*
 * A row of a table as JSON taken apart (RFC 8259): an object for each row, all of them in one array or one after the
 * other. A text is a string, a number a number, a list an array of numbers, and null a value that is not marked. Under
 * NAME_hex stands a text in hex.
 */
#include <string.h>

#include "tool.h"
#include "utf8.h"

#define LONGEST_ROW (4 * (size_t)CURLEW_MAX_AREA)

static int next_byte(struct cells *cells)
{
    int c = source_peek(&cells->source);

    cells->source.at += c != -1;
    return c;
}

static int skip_space(struct cells *cells)
{
    int c = source_peek(&cells->source);

    while (c == ' ' || c == '\t' || c == '\n' || c == '\r') {
        cells->next_line += c == '\n';
        cells->source.at++;
        c = source_peek(&cells->source);
    }
    return c;
}

/* Four hex digits; 0x10000 where they are none. */
static uint32_t take_four(struct cells *cells)
{
    uint32_t number = 0;
    int i;

    for (i = 0; i < 4; i++) {
        int c = next_byte(cells);

        if (c >= '0' && c <= '9')
            number = number << 4 | (uint32_t)(c - '0');
        else if ((c | 32) >= 'a' && (c | 32) <= 'f')
            number = number << 4 | (uint32_t)((c | 32) - 'a' + 10);
        else
            return 0x10000;
    }
    return number;
}

static void put_character(struct text *to, uint32_t number)
{
    if (number < 0x80) {
        text_char(to, (char)number);
    } else if (number < 0x800) {
        text_char(to, (char)(0xc0 | number >> 6));
        text_char(to, (char)(0x80 | (number & 63)));
    } else if (number < 0x10000) {
        text_char(to, (char)(0xe0 | number >> 12));
        text_char(to, (char)(0x80 | (number >> 6 & 63)));
        text_char(to, (char)(0x80 | (number & 63)));
    } else {
        text_char(to, (char)(0xf0 | number >> 18));
        text_char(to, (char)(0x80 | (number >> 12 & 63)));
        text_char(to, (char)(0x80 | (number >> 6 & 63)));
        text_char(to, (char)(0x80 | (number & 63)));
    }
}

/* A character by its number, two of them where it lies above 0xffff. Returns 0 where it is none. */
static int take_number_of_character(struct cells *cells)
{
    uint32_t high = take_four(cells), low;

    if (high > 0xffff || (high >= 0xdc00 && high < 0xe000))
        return 0;
    if (high >= 0xd800 && high < 0xdc00) {
        if (next_byte(cells) != '\\' || next_byte(cells) != 'u')
            return 0;
        low = take_four(cells);
        if (low < 0xdc00 || low >= 0xe000)
            return 0;
        high = 0x10000 + ((high - 0xd800) << 10) + (low - 0xdc00);
    }
    put_character(&cells->bytes, high);
    return 1;
}

static int take_escape(struct cells *cells)
{
    int c = next_byte(cells);

    switch (c) {
    case '"':
    case '\\':
    case '/': text_char(&cells->bytes, (char)c); return 1;
    case 'b': text_char(&cells->bytes, '\b'); return 1;
    case 'f': text_char(&cells->bytes, '\f'); return 1;
    case 'n': text_char(&cells->bytes, '\n'); return 1;
    case 'r': text_char(&cells->bytes, '\r'); return 1;
    case 't': text_char(&cells->bytes, '\t'); return 1;
    case 'u': return take_number_of_character(cells);
    default: return 0;
    }
}

/* A string, after its first quote, put after the bytes of the row. Returns 0 where it is none. */
static int take_string(struct cells *cells)
{
    size_t start = cells->bytes.length;

    for (;;) {
        int c = next_byte(cells);

        if (c == '"')
            return utf8_all((const uint8_t *)cells->bytes.bytes + start, cells->bytes.length - start);
        if (c < 32 || cells->bytes.length > LONGEST_ROW || (c == '\\' && !take_escape(cells)))
            return 0;
        if (c != '\\')
            text_char(&cells->bytes, (char)c);
    }
}

static size_t take_digits(struct cells *cells)
{
    size_t count = 0;
    int c = source_peek(&cells->source);

    while (c >= '0' && c <= '9' && cells->bytes.length <= LONGEST_ROW) {
        text_char(&cells->bytes, (char)next_byte(cells));
        c = source_peek(&cells->source);
        count++;
    }
    return count;
}

/* A number, put after the bytes of the row as it stands. Returns 0 where it is none. */
static int take_number(struct cells *cells)
{
    size_t start;
    int c = source_peek(&cells->source);

    if (c == '-')
        text_char(&cells->bytes, (char)next_byte(cells));
    start = cells->bytes.length;
    if (take_digits(cells) == 0 || (cells->bytes.length - start > 1 && cells->bytes.bytes[start] == '0'))
        return 0;
    if (source_peek(&cells->source) == '.') {
        text_char(&cells->bytes, (char)next_byte(cells));
        if (take_digits(cells) == 0)
            return 0;
    }
    if ((source_peek(&cells->source) | 32) == 'e') {
        text_char(&cells->bytes, (char)next_byte(cells));
        c = source_peek(&cells->source);
        if (c == '+' || c == '-')
            text_char(&cells->bytes, (char)next_byte(cells));
        return take_digits(cells) > 0;
    }
    return 1;
}

static int take_null(struct cells *cells)
{
    return next_byte(cells) == 'n' && next_byte(cells) == 'u' && next_byte(cells) == 'l' && next_byte(cells) == 'l';
}

/* Numbers, and strings for NaN and infinities, with spaces between them. Returns 0 where it is no such list. */
static int take_list(struct cells *cells)
{
    int c;

    next_byte(cells);
    c = skip_space(cells);
    while (c != ']') {
        if (c == '"' ? (next_byte(cells), !take_string(cells)) : !take_number(cells))
            return 0;
        c = skip_space(cells);
        if (c != ',' && c != ']')
            return 0;
        if (c == ',') {
            text_char(&cells->bytes, ' ');
            next_byte(cells);
            c = skip_space(cells);
            if (c == ']')
                return 0;
        }
    }
    next_byte(cells);
    return 1;
}

/* Returns NULL, or what is wrong with the value. */
static const char *take_value(struct cells *cells, struct cell_in *cell)
{
    static const char no_json[] = "this is no JSON, or no value that a cell can have";
    int done;

    cell->start = cells->bytes.length;
    switch (skip_space(cells)) {
    case '"':
        cell->form = CELL_QUOTED;
        next_byte(cells);
        done = take_string(cells);
        break;
    case 'n':
        cell->form = CELL_NONE;
        done = take_null(cells);
        break;
    case '[':
        cell->form = CELL_NUMBERS;
        done = take_list(cells);
        break;
    default: cell->form = CELL_NUMBERS; done = take_number(cells);
    }
    cell->length = cells->bytes.length - cell->start;
    return done ? NULL : no_json;
}

static int hex_value(char c)
{
    if (c >= '0' && c <= '9')
        return c - '0';
    return (c | 32) >= 'a' && (c | 32) <= 'f' ? (c | 32) - 'a' + 10 : -1;
}

/* The bytes that hex digits tell of take their place. Returns 0 where they are none. */
static int from_hex(struct cells *cells, struct cell_in *cell)
{
    char *bytes = cells->bytes.bytes + cell->start;
    size_t i;

    if (cell->form == CELL_NONE)
        return 1;
    if (cell->form != CELL_QUOTED || cell->length % 2 != 0)
        return 0;
    for (i = 0; i < cell->length; i += 2) {
        int high = hex_value(bytes[i]), low = hex_value(bytes[i + 1]);

        if (high == -1 || low == -1)
            return 0;
        bytes[i / 2] = (char)(16 * high + low);
    }
    cell->length /= 2;
    cells->bytes.length = cell->start + cell->length;
    return 1;
}

/* The column of a name; the first row makes the columns. */
static size_t column_named(struct cells *cells, const char *name, size_t length, size_t guess)
{
    size_t column;

    if (guess < cells->head.count && strlen(cells->head.text[guess]) == length &&
        memcmp(cells->head.text[guess], name, length) == 0)
        return guess;
    column = name_index(&cells->head, name, length);
    if (column == cells->head.count && !cells->headed && column < CURLEW_MAX_SLOTS) {
        names_add(&cells->head, name, length);
        cells->columns = cells->head.count;
        cells_new(cells)->form = CELL_MISSING;
    }
    return column;
}

static enum row_found unknown_member(struct cells *cells, const char *name, size_t length)
{
    complain("%s: no field is called \"%.*s\"", cells_where(cells, cells->columns), (int)length, name);
    advise("The fields are those of --names or --layout, or of the first row.");
    return ROW_LOST;
}

/* One member of an object. */
static enum row_found take_member(struct cells *cells, size_t guess)
{
    size_t start = cells->bytes.length, length, column;
    struct cell_in cell;
    const char *wrong;
    int hex;

    if (skip_space(cells) != '"' || (next_byte(cells), !take_string(cells)) || skip_space(cells) != ':')
        return cells_lost(cells, "this is no JSON: a name in quotes and a colon are wanted",
                          "A row is an object, as {\"number\":\"C00417\"}.");
    next_byte(cells);
    length = cells->bytes.length - start;
    hex = length > 4 && memcmp(cells->bytes.bytes + start + length - 4, "_hex", 4) == 0;
    length -= hex ? 4 : 0;
    column = column_named(cells, cells->bytes.bytes + start, length, guess);
    if (column >= cells->head.count)
        return unknown_member(cells, cells->bytes.bytes + start, length);
    if (cells->cells[column].form != CELL_MISSING)
        return cells_lost(cells, "a name stands there twice in one object", "Each field has one value in a row.");
    wrong = take_value(cells, &cell);
    if (wrong == NULL && hex && !from_hex(cells, &cell))
        wrong = "a name that ends in _hex wants a text of hex digits, two for each byte";
    cells->cells[column] = cell;
    if (wrong == NULL || cells->source.failed)
        return wrong == NULL ? ROW_TAKEN : ROW_LOST;
    cells_complain(cells, column, wrong);
    advise("A text is a string, a mark a number, a list an array of numbers; null is not marked.");
    return ROW_LOST;
}

static enum row_found take_object(struct cells *cells)
{
    enum row_found found = ROW_TAKEN;
    size_t guess = 0;
    int c;

    next_byte(cells);
    c = skip_space(cells);
    while (c != '}' && found == ROW_TAKEN) {
        found = take_member(cells, guess++);
        if (found != ROW_TAKEN)
            return found;
        c = skip_space(cells);
        if (c == ',') {
            next_byte(cells);
            c = skip_space(cells) == '}' ? -1 : ',';
        }
        if (c != '}' && c != ',')
            return cells_lost(cells, "this is no JSON: a comma or } is wanted",
                              "A row is an object, as {\"number\":\"C00417\"}.");
    }
    next_byte(cells);
    return found;
}

/* What stands between two rows. Returns '{' where another row follows, -1 at the end, 0 where it is no JSON. */
static int take_between(struct cells *cells)
{
    int first = cells->rows == 0 && !cells->array;
    int c = skip_space(cells);

    if (first && c == '[') {
        cells->array = 1;
        next_byte(cells);
        c = skip_space(cells);
        if (c == '{')
            return c;
    } else if (cells->array == 1 && c == ',') {
        next_byte(cells);
        return skip_space(cells) == '{' ? '{' : 0;
    } else if (cells->array == 1 && c != ']') {
        return 0;
    }
    if (cells->array == 1 && c == ']') {
        cells->array = 2;
        next_byte(cells);
        return skip_space(cells) == -1 ? -1 : 0;
    }
    return cells->array != 2 && (c == '{' || c == -1) ? c : 0;
}

enum row_found json_next(struct cells *cells)
{
    size_t i;
    int c = take_between(cells);

    cells->line = cells->next_line;
    cells->bytes.length = 0;
    if (cells->source.failed)
        return ROW_LOST;
    if (c == -1)
        return ROW_END;
    cells->count = 0;
    for (i = 0; i < cells->columns; i++)
        cells_new(cells)->form = CELL_MISSING;
    if (c != '{')
        return cells_lost(cells, "this is no JSON: an object for each row is wanted",
                          "Rows stand in one array, or one after the other.");
    return take_object(cells);
}
