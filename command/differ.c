/* What differs between two copies of a record or of a sheet, shown. */
#include <string.h>

#include "tool.h"

/* A cell for people is no wider than this. */
#define WIDEST 40

static const char *verdict_word(uint32_t verdict)
{
    static const char *const words[] = {"same", "first copy only", "second copy only", "in neither", "different"};

    return words[verdict];
}

static int differs(uint32_t verdict)
{
    return verdict != CURLEW_SAME && verdict != CURLEW_NEITHER;
}

static const struct field *field_of(const struct pair *pair, size_t index)
{
    return pair->layout != NULL ? &pair->layout->value_fields[index] : NULL;
}

static int is_shown(const struct pair *pair, size_t index)
{
    return !pair->only_different || differs(curlew_get_finding(pair->report, index).verdict);
}

size_t pair_differences(const struct pair *pair)
{
    size_t count = 0, k;

    for (k = 0; k < pair->columns.count; k++)
        count += pair->columns.index[k] < pair->fields &&
                 differs(curlew_get_finding(pair->report, pair->columns.index[k]).verdict);
    return count;
}

/* ---- where two values part ---- */

/* The bytes that a value has in its record: up to the end of it where nothing else is known. */
static size_t bytes_there(const struct pair *pair, int side, size_t index)
{
    struct curlew_slot slot = curlew_get_slot(pair->values[side].slots, index);
    const struct field *field = field_of(pair, index);

    if (field_value(field) != CHARACTERS)
        return field_bytes(field, slot.length);
    return field->form == STARRED ? pair->lengths[side] - slot.position : field->count;
}

/* The byte of the record, of its first copy, at which two values part. */
static size_t parting_byte(const struct pair *pair, size_t index)
{
    size_t from[2], length[2], i = 0;
    int side;

    for (side = 0; side < 2; side++) {
        from[side] = curlew_get_slot(pair->values[side].slots, index).position;
        length[side] = bytes_there(pair, side, index);
    }
    while (i < length[0] && i < length[1] && pair->records[0][from[0] + i] == pair->records[1][from[1] + i])
        i++;
    return from[0] + i;
}

/* ---- values beside each other ---- */

/* Where two long texts part, some characters before that, at the beginning of a character. */
static size_t parting_place(const struct text *one, const struct text *other)
{
    size_t at = 0, back = 10;

    while (at < one->length && at < other->length && one->bytes[at] == other->bytes[at])
        at++;
    if (text_columns(one->bytes, at) <= WIDEST / 2)
        return 0;
    while (at > 0 && (back > 0 || ((uint8_t)one->bytes[at] & 0xc0) == 0x80)) {
        at--;
        back -= ((uint8_t)one->bytes[at] & 0xc0) != 0x80 && back > 0;
    }
    return at;
}

/* A text from a place on, as wide as a cell may be. */
static void short_text(struct text *to, const struct text *from, size_t place)
{
    size_t room = WIDEST - (place > 0 ? 3 : 0);
    size_t fits = text_fitting(from->bytes + place, from->length - place, room);

    if (place > 0)
        text_string(to, "...");
    if (fits < from->length - place)
        fits = text_fitting(from->bytes + place, from->length - place, room - 3);
    text_add(to, from->bytes + place, fits);
    if (fits < from->length - place)
        text_string(to, "...");
}

static void value_cells(struct table *table, enum form form, const struct pair *pair, size_t index)
{
    struct text shown[2] = {{0}, {0}};
    int marked[2], side;
    size_t place = 0;

    for (side = 0; side < 2; side++)
        marked[side] = value_cell(&shown[side], form, &pair->values[side], index, field_of(pair, index));
    if (form == PEOPLE &&
        (text_columns(shown[0].bytes, shown[0].length) > WIDEST ||
         text_columns(shown[1].bytes, shown[1].length) > WIDEST) &&
        curlew_get_finding(pair->report, index).verdict == CURLEW_DIFFERENT)
        place = parting_place(&shown[0], &shown[1]);
    for (side = 0; side < 2; side++) {
        if (form == PEOPLE)
            short_text(&table->text, &shown[side], place);
        else
            text_add(&table->text, shown[side].bytes, shown[side].length);
        table_close(table, marked[side] ? PLAIN : MISSING);
        text_free(&shown[side]);
    }
}

/* ---- rows ---- */

static size_t choose_columns(const struct pair *pair, struct column *columns)
{
    static const struct column rest[] = {{"verdict", 0}, {"byte", 1}, {"bits", 1}, {"first", 0}, {"second", 0}};
    size_t count = 0;

    if (pair->many) {
        columns[count].head = pair->layout != NULL ? "record" : "sheet";
        columns[count++].right = 1;
    }
    columns[count].head = pair->layout != NULL ? "field" : "entry";
    columns[count++].right = 1;
    if (pair->names->count > 0) {
        columns[count].head = "name";
        columns[count++].right = 0;
    }
    if (pair->layout != NULL) {
        columns[count].head = "type";
        columns[count++].right = 0;
    }
    memcpy(columns + count, rest, sizeof rest);
    return count + sizeof rest / sizeof rest[0];
}

static void pair_row(const struct pair *pair, size_t i, enum form form, struct table *table)
{
    struct curlew_finding finding = curlew_get_finding(pair->report, i);
    const struct field *field = field_of(pair, i);
    int different = finding.verdict == CURLEW_DIFFERENT;

    if (pair->many)
        table_number(table, pair->number);
    table_number(table, i);
    if (pair->names->count > 0) {
        text_name(&table->text, pair->names, i);
        table_close(table, PLAIN);
    }
    if (field != NULL) {
        text_add(&table->text, pair->layout->text + field->start, field->length);
        table_close(table, PLAIN);
    }
    table_word(table, verdict_word(finding.verdict), differs(finding.verdict) ? DIFFERS : PLAIN);
    if (different && field != NULL)
        table_number(table, parting_byte(pair, i));
    else
        table_word(table, "-", PLAIN);
    if (different)
        table_number(table, finding.bits);
    else
        table_word(table, "-", PLAIN);
    value_cells(table, form, pair, i);
}

void pair_rows(const struct pair *pair, enum form form, int head, struct text *out)
{
    struct column columns[9];
    struct table table;
    size_t k;

    table_start(&table, columns, choose_columns(pair, columns));
    for (k = 0; k < pair->columns.count; k++)
        if (pair->columns.index[k] < pair->fields && is_shown(pair, pair->columns.index[k]))
            pair_row(pair, pair->columns.index[k], form, &table);
    if (table.count > 0 || !pair->only_different || form != PEOPLE)
        table_print(&table, form, head, out);
    table_free(&table);
}

static void finding_json(const struct pair *pair, size_t i, struct text *out)
{
    const struct field *field = field_of(pair, i);
    struct curlew_finding finding = curlew_get_finding(pair->report, i);
    int side;

    text_string(out, out->bytes[out->length - 1] == '[' ? "{" : ",{");
    json_number(out, field != NULL ? "field" : "entry", i);
    if (i < pair->names->count)
        json_named(out, "name", pair->names->text[i], strlen(pair->names->text[i]));
    if (field != NULL)
        json_named(out, "type", pair->layout->text + field->start, field->length);
    json_named(out, "verdict", verdict_word(finding.verdict), strlen(verdict_word(finding.verdict)));
    if (finding.verdict == CURLEW_DIFFERENT) {
        if (field != NULL)
            json_number(out, "byte", parting_byte(pair, i));
        json_number(out, "bits", finding.bits);
    }
    for (side = 0; side < 2; side++) {
        json_key(out, side == 0 ? "first" : "second");
        text_char(out, '{');
        value_json(out, &pair->values[side], i, field);
        text_char(out, '}');
    }
    text_char(out, '}');
}

void pair_json(const struct pair *pair, struct text *out)
{
    size_t k;

    text_char(out, '{');
    json_named(out, "first_file", pair->files[0], strlen(pair->files[0]));
    json_named(out, "second_file", pair->files[1], strlen(pair->files[1]));
    if (pair->many)
        json_number(out, pair->layout != NULL ? "record" : "sheet", pair->number);
    if (pair->layout != NULL) {
        json_number(out, "first_bytes", pair->lengths[0]);
        json_number(out, "second_bytes", pair->lengths[1]);
        json_number(out, "first_of_no_field", pair->over[0]);
        json_number(out, "second_of_no_field", pair->over[1]);
    }
    json_number(out, "differences", pair_differences(pair));
    json_key(out, pair->layout != NULL ? "fields" : "entries");
    text_char(out, '[');
    for (k = 0; k < pair->columns.count; k++)
        if (pair->columns.index[k] < pair->fields && is_shown(pair, pair->columns.index[k]))
            finding_json(pair, pair->columns.index[k], out);
    text_string(out, "]}\n");
}

/* What no field shows: lengths that differ, and bytes that belong to none. */
void pair_remarks(const struct pair *pair, struct text *out)
{
    static const char *const copies[] = {"first", "second"};
    int side;

    if (pair->layout == NULL)
        return;
    if (pair->lengths[0] != pair->lengths[1]) {
        text_string(out, "the lengths differ: the first copy has ");
        text_count(out, pair->lengths[0], "byte", "bytes");
        text_string(out, ", the second ");
        text_grouped(out, pair->lengths[1]);
        text_char(out, '\n');
    }
    for (side = 0; side < 2; side++)
        if (pair->over[side] > 0) {
            text_count(out, pair->over[side], "byte of the ", "bytes of the ");
            text_format(out, "%s copy belong%s to no field and %s not compared\n", copies[side],
                        pair->over[side] == 1 ? "s" : "", pair->over[side] == 1 ? "is" : "are");
        }
}
