/*
 * A table written, a row a record: with commas (RFC 4180), with tabs, or an object a line. An empty cell is a value
 * that is not marked, and "" an empty one; JSON has null. Texts of `a` with a count are shown without the zero bytes at
 * their end, which packing puts back.
 */
#include <math.h>
#include <stdlib.h>
#include <string.h>

#include "tool.h"
#include "utf8.h"

/* ---- cells ---- */

/* What a spreadsheet would compute: =, +, - or @ in front, after any number of '. */
static int looks_like_formula(const uint8_t *bytes, size_t length)
{
    size_t i = 0;

    while (i < length && bytes[i] == '\'')
        i++;
    return i < length && (bytes[i] == '=' || bytes[i] == '+' || bytes[i] == '-' || bytes[i] == '@');
}

static int needs_quotes(const uint8_t *bytes, size_t length)
{
    size_t i;

    for (i = 0; i < length; i++)
        if (bytes[i] == ',' || bytes[i] == '"' || bytes[i] == '\n' || bytes[i] == '\r')
            return 1;
    return length == 0 || bytes[0] == ' ' || bytes[length - 1] == ' ' || bytes[0] == 0xef;
}

void csv_cell(struct text *out, const void *text, size_t length, int for_spreadsheet)
{
    const uint8_t *bytes = text;
    int guarded = for_spreadsheet && looks_like_formula(bytes, length);
    size_t i;

    if (!needs_quotes(bytes, length)) {
        if (guarded)
            text_char(out, '\'');
        text_add(out, bytes, length);
        return;
    }
    text_string(out, guarded ? "\"'" : "\"");
    for (i = 0; i < length; i++) {
        if (bytes[i] == '"')
            text_char(out, '"');
        text_char(out, (char)bytes[i]);
    }
    text_char(out, '"');
}

/* With tabs nothing stands in quotes but the empty text: a quote in front is told by its number. */
static void tsv_cell(struct text *out, const uint8_t *bytes, size_t length, int for_spreadsheet)
{
    if (length == 0) {
        text_string(out, "\"\"");
        return;
    }
    if (for_spreadsheet && looks_like_formula(bytes, length))
        text_char(out, '\'');
    if (bytes[0] == '"') {
        text_string(out, "\\x22");
        bytes++;
        length--;
    }
    text_escaped(out, bytes, length);
}

static void number(struct text *out, const struct rows *rows, const struct field *field, uint32_t kind,
                   const uint8_t *item)
{
    double real;

    if (kind == CURLEW_SIGNED) {
        text_signed(out, curlew_get_int(item));
    } else if (kind == CURLEW_UNSIGNED) {
        text_unsigned(out, curlew_get_uint(item));
    } else {
        real = curlew_get_double(item);
        if (rows->form == JSON && !isfinite(real))
            text_char(out, '"');
        if (field != NULL && item_bytes(field->type) == 4)
            text_single(out, real);
        else
            text_real(out, real);
        if (rows->form == JSON && !isfinite(real))
            text_char(out, '"');
    }
}

/* JSON: a real has a point or an exponent. */
static void json_point(struct text *out, size_t start)
{
    size_t i = start;

    while (i < out->length && strchr(".e\"", out->bytes[i]) == NULL)
        i++;
    if (i == out->length)
        text_string(out, ".0");
}

static void numbers(struct text *out, const struct rows *rows, const struct field *field, const struct values *values,
                    struct curlew_slot slot)
{
    int list = rows->form == JSON && (field != NULL ? field->form != NO_COUNT : slot.length != 1);
    size_t i;

    if (list)
        text_char(out, '[');
    else if (slot.length == 0)
        text_string(out, "\"\"");
    for (i = 0; i < slot.length; i++) {
        size_t start;

        if (i > 0)
            text_char(out, list ? ',' : ' ');
        start = out->length;
        number(out, rows, field, slot.kind, values->area + slot.start + CURLEW_ITEM_SIZE * i);
        if (rows->form == JSON && slot.kind == CURLEW_REAL)
            json_point(out, start);
    }
    if (list)
        text_char(out, ']');
}

/* How much of a text is shown: the zero bytes that filled it up are not. */
static size_t shown_length(const struct field *field, const uint8_t *bytes, size_t length)
{
    if (field != NULL && field->type == 'a' && field->form != STARRED)
        while (length > 0 && bytes[length - 1] == '\0')
            length--;
    return length;
}

static void cell(struct text *out, const struct rows *rows, const struct values *values, size_t index)
{
    const struct field *field = rows->layout != NULL ? &rows->layout->value_fields[index] : NULL;
    struct curlew_slot slot = {CURLEW_UNSET, 0, 0, 0};
    const uint8_t *bytes;

    if (index < values->count)
        slot = curlew_get_slot(values->slots, index);
    bytes = values->area + slot.start;
    if (slot.kind == CURLEW_STRING && rows->form == CSV)
        csv_cell(out, bytes, shown_length(field, bytes, slot.length), rows->for_spreadsheet);
    else if (slot.kind == CURLEW_STRING)
        tsv_cell(out, bytes, shown_length(field, bytes, slot.length), rows->for_spreadsheet);
    else if (slot.kind != CURLEW_UNSET)
        numbers(out, rows, field, values, slot);
}

/* "name":value, or "name_hex":"bytes" where a text is no UTF-8. */
static void member(struct text *out, const struct rows *rows, const struct values *values, size_t column)
{
    size_t index = rows->columns.index[column];
    const struct field *field = rows->layout != NULL ? &rows->layout->value_fields[index] : NULL;
    const struct text *key = &rows->keys[column];
    struct curlew_slot slot = {CURLEW_UNSET, 0, 0, 0};
    const uint8_t *bytes;
    size_t length;

    if (index < values->count)
        slot = curlew_get_slot(values->slots, index);
    bytes = values->area + slot.start;
    text_add(out, key->bytes, key->length);
    if (slot.kind != CURLEW_STRING) {
        text_string(out, "\":");
        if (slot.kind == CURLEW_UNSET)
            text_string(out, "null");
        else
            numbers(out, rows, field, values, slot);
        return;
    }
    length = shown_length(field, bytes, slot.length);
    if (utf8_all(bytes, length)) {
        text_string(out, "\":");
        json_string(out, bytes, length);
    } else {
        text_string(out, "_hex\":\"");
        text_hex(out, bytes, length);
        text_char(out, '"');
    }
}

/* ---- rows ---- */

/* In JSON the name with its quote in front, as json_string has it, and without the one after. */
static void make_key(const struct rows *rows, const struct names *names, size_t index, struct text *key)
{
    struct text name = {0};

    text_name(&name, names, index);
    if (rows->form == CSV) {
        csv_cell(key, name.bytes, name.length, rows->for_spreadsheet);
    } else if (rows->form == TSV) {
        tsv_cell(key, (const uint8_t *)name.bytes, name.length, rows->for_spreadsheet);
    } else {
        json_string(key, name.bytes, name.length);
        key->length--;
    }
    text_free(&name);
}

/* In JSON a name that ends in _hex could not be told from a text in hex. */
void no_name_in_hex(const struct names *names)
{
    size_t i;

    for (i = 0; i < names->count; i++) {
        size_t length = strlen(names->text[i]);

        if (length >= 4 && strcmp(names->text[i] + length - 4, "_hex") == 0) {
            complain("%s: in JSON a name that ends in _hex stands for a text in hex", names->text[i]);
            exit(TROUBLE);
        }
    }
}

void rows_start(struct rows *rows, const struct options *options, const struct layout *layout,
                const struct names *names, const struct choice *columns)
{
    size_t i;

    memset(rows, 0, sizeof *rows);
    rows->form = options->form;
    rows->for_spreadsheet = has(options, OPTION_FOR_SPREADSHEET);
    rows->layout = layout;
    rows->columns = *columns;
    rows->keys = get_memory(columns->count * sizeof *rows->keys);
    memset(rows->keys, 0, columns->count * sizeof *rows->keys);
    for (i = 0; i < columns->count; i++)
        make_key(rows, names, columns->index[i], &rows->keys[i]);
    if (rows->form == JSON && !has(options, OPTION_LONG))
        no_name_in_hex(names);
}

static void line_end(const struct rows *rows, struct text *out)
{
    if (rows->form == CSV && rows->for_spreadsheet)
        text_char(out, '\r');
    text_char(out, '\n');
}

void rows_head(const struct rows *rows, const struct options *options, struct text *out)
{
    size_t i;

    if (rows->form == JSON || has(options, OPTION_NO_HEAD))
        return;
    for (i = 0; i < rows->columns.count; i++) {
        if (i > 0)
            text_char(out, rows->form == CSV ? ',' : '\t');
        text_add(out, rows->keys[i].bytes, rows->keys[i].length);
    }
    line_end(rows, out);
}

void rows_add(const struct rows *rows, const struct values *values, struct text *out)
{
    size_t i;

    if (rows->form == JSON)
        text_char(out, '{');
    for (i = 0; i < rows->columns.count; i++) {
        if (i > 0)
            text_char(out, rows->form == TSV ? '\t' : ',');
        if (rows->form == JSON)
            member(out, rows, values, i);
        else
            cell(out, rows, values, rows->columns.index[i]);
    }
    if (rows->form == JSON)
        text_char(out, '}');
    line_end(rows, out);
}

void rows_end(struct rows *rows)
{
    size_t i;

    for (i = 0; i < rows->columns.count; i++)
        text_free(&rows->keys[i]);
    free(rows->keys);
}
