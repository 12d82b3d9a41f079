/* One record shown: for people, as rows of fields, or as a row of a table. */
#include <stdlib.h>
#include <string.h>

#include "tool.h"

static int is_row(const struct desk *desk)
{
    return desk->options->form != PEOPLE && !has(desk->options, OPTION_LONG);
}

static const char *type_of(const struct desk *desk, size_t index)
{
    return desk->layout->text + desk->layout->value_fields[index].start;
}

/* What stands in a line of --long between the record and the byte. */
static void make_label(struct desk *desk, size_t index)
{
    char between = desk->options->form == CSV ? ',' : '\t';
    struct text *label = &desk->labels[index];

    text_format(label, "%c%lu%c", between, (unsigned long)index, between);
    if (desk->layout->names.count > 0) {
        const char *name = desk->layout->names.text[index];

        if (desk->options->form == CSV)
            csv_cell(label, name, strlen(name), 0);
        else
            text_escaped(label, (const uint8_t *)name, strlen(name));
        text_char(label, between);
    }
    text_format(label, "%.*s%c", (int)desk->layout->value_fields[index].length, type_of(desk, index), between);
}

void desk_start(struct desk *desk, const struct layout *layout, const struct options *options)
{
    static const struct column columns[] = {{"field", 1}, {"type", 0}, {"byte", 1}, {"value", 0}};
    static const struct column named[] = {{"field", 1}, {"name", 0}, {"type", 0}, {"byte", 1}, {"value", 0}};
    size_t i;

    memset(desk, 0, sizeof *desk);
    desk->layout = layout;
    desk->options = options;
    choose_fields(&desk->columns, options, &layout->names, layout->values);
    values_start(&desk->values);
    table_start(&desk->table, layout->names.count > 0 ? named : columns, layout->names.count > 0 ? 5 : 4);
    rows_start(&desk->rows, options, layout, &layout->names, &desk->columns);
    for (i = 0; i < layout->values; i++)
        make_label(desk, i);
}

void desk_end(struct desk *desk)
{
    size_t i;

    values_free(&desk->values);
    table_free(&desk->table);
    rows_end(&desk->rows);
    for (i = 0; i < desk->layout->values; i++)
        text_free(&desk->labels[i]);
    text_free(&desk->number);
    text_free(&desk->out);
}

/* The line above all rows. */
void desk_head(struct desk *desk)
{
    int named = desk->layout->names.count > 0;

    if (is_row(desk))
        rows_head(&desk->rows, desk->options, &desk->out);
    else if (desk->options->form == TSV && !has(desk->options, OPTION_NO_HEAD))
        text_string(&desk->out,
                    named ? "record\tfield\tname\ttype\tbyte\tvalue\n" : "record\tfield\ttype\tbyte\tvalue\n");
    else if (desk->options->form == CSV && !has(desk->options, OPTION_NO_HEAD))
        text_string(&desk->out, named ? "record,field,name,type,byte,value\n" : "record,field,type,byte,value\n");
    if (desk->out.length > 0)
        output_text(&desk->out);
}

/* ---- the bytes that belong to fields ---- */

/* The bytes of its record that a field covers which was set; a starred text runs to the end of the record. */
struct range range_of(const struct field *field, struct curlew_slot slot, size_t record)
{
    struct range range = {slot.position, record};

    if (field_value(field) != CHARACTERS)
        range.to = range.from + field_bytes(field, slot.length);
    else if (field->form != STARRED)
        range.to = range.from + field->count;
    return range;
}

/* The bytes that an x passes over; where a star decides that, they begin where the value before it ends. */
static struct range range_of_x(const struct field *field, size_t before, size_t record)
{
    struct range range = {field->position == CURLEW_OPEN ? before : field->position, record};

    if (field->form != STARRED && range.from + field->count < record)
        range.to = range.from + field->count;
    return range;
}

static size_t put_range(struct range *ranges, size_t count, struct range range)
{
    size_t k;

    for (k = count; k > 0 && ranges[k - 1].from > range.from; k--)
        ranges[k] = ranges[k - 1];
    ranges[k] = range;
    return count + 1;
}

/* The ranges of all fields up to the last that was set, in the order of their first bytes. Returns how many there are.
 */
static size_t ranges_of(const struct layout *layout, const struct values *values, size_t set, size_t length, int moves,
                        struct range *ranges)
{
    size_t count = 0, value = 0, before = 0, i;

    for (i = 0; i < layout->count && (value < set || field_value(&layout->fields[i]) == MOVE); i++) {
        const struct field *field = &layout->fields[i];

        if (field_value(field) != MOVE) {
            struct range range = range_of(field, curlew_get_slot(values->slots, value++), length);

            before = range.to;
            count = put_range(ranges, count, range);
        } else if (moves && field->type == 'x') {
            count = put_range(ranges, count, range_of_x(field, before, length));
        }
    }
    return count;
}

/* Fields may lie over one another (X, @): a byte counts once. With `moves` the bytes that x passes over count too. */
size_t bytes_of_fields(const struct layout *layout, const struct values *values, size_t set, size_t length, int moves)
{
    struct range ranges[CURLEW_MAX_LAYOUT];
    size_t count = ranges_of(layout, values, set, length, moves, ranges);
    size_t end = 0, sum = 0, i;

    for (i = 0; i < count; i++) {
        size_t from = ranges[i].from > end ? ranges[i].from : end;

        if (ranges[i].to > from) {
            sum += ranges[i].to - from;
            end = ranges[i].to;
        }
    }
    return sum;
}

static size_t bytes_looked_at(const struct desk *desk, const struct record *record)
{
    return bytes_of_fields(desk->layout, &desk->values, record->answer.answer.first, record->length, 0);
}

/* ---- one record ---- */

static void record_rows(struct desk *desk)
{
    struct table *table = &desk->table;
    size_t k;

    for (k = 0; k < desk->columns.count; k++) {
        size_t i = desk->columns.index[k];
        const struct field *field = &desk->layout->value_fields[i];
        struct curlew_slot slot = curlew_get_slot(desk->values.slots, i);

        table_number(table, i);
        if (desk->layout->names.count > 0) {
            text_message(&table->text, desk->layout->names.text[i], strlen(desk->layout->names.text[i]));
            table_close(table, PLAIN);
        }
        text_add(&table->text, type_of(desk, i), field->length);
        table_close(table, PLAIN);
        if (slot.kind == CURLEW_UNSET)
            table_word(table, "-", PLAIN);
        else
            table_number(table, slot.position);
        table_close(table, value_cell(&table->text, PEOPLE, &desk->values, i, field) ? PLAIN : MISSING);
    }
}

/* A value in a line: with commas it may need quotes. */
static void line_value(struct desk *desk, size_t index)
{
    const struct field *field = &desk->layout->value_fields[index];
    struct text value = {0};

    if (desk->options->form == TSV) {
        value_cell(&desk->out, TSV, &desk->values, index, field);
    } else if (value_cell(&value, CSV, &desk->values, index, field)) {
        csv_cell(&desk->out, value.bytes, value.length, has(desk->options, OPTION_FOR_SPREADSHEET));
    }
    text_free(&value);
}

/* The same rows as lines, each with its record. They are what a long file is read for, so that all that can be made
 * once is. */
static void record_lines(struct desk *desk, const struct record *record)
{
    struct text *out = &desk->out;
    size_t k;

    desk->number.length = 0;
    text_unsigned(&desk->number, record->number);
    for (k = 0; k < desk->columns.count; k++) {
        size_t i = desk->columns.index[k];
        struct curlew_slot slot = curlew_get_slot(desk->values.slots, i);

        text_add(out, desk->number.bytes, desk->number.length);
        text_add(out, desk->labels[i].bytes, desk->labels[i].length);
        if (slot.kind == CURLEW_UNSET)
            text_char(out, '-');
        else
            text_unsigned(out, slot.position);
        text_char(out, desk->options->form == CSV ? ',' : '\t');
        line_value(desk, i);
        text_char(out, '\n');
    }
}

static void record_for_people(struct desk *desk, const struct record *record)
{
    struct text *out = &desk->out;

    if (desk->many)
        text_format(out, "%srecord %llu, from byte %llu on\n", record->number > desk->options->from ? "\n" : "",
                    (unsigned long long)record->number, (unsigned long long)record->first_byte);
    record_rows(desk);
    table_print(&desk->table, PEOPLE, !has(desk->options, OPTION_NO_HEAD), out);
    text_format(out, "%lu of ", (unsigned long)record->answer.answer.first);
    text_count(out, desk->layout->values, "field set, ", "fields set, ");
    text_format(out, "%lu of ", (unsigned long)bytes_looked_at(desk, record));
    text_count(out, record->length, "byte looked at\n", "bytes looked at\n");
}

static void record_json(struct desk *desk, const struct record *record)
{
    struct text *out = &desk->out;
    size_t k;

    text_char(out, '{');
    json_number(out, "record", record->number);
    json_number(out, "from", record->first_byte);
    json_number(out, "bytes", record->length);
    json_number(out, "looked_at", bytes_looked_at(desk, record));
    json_number(out, "carried_out", record->answer.carried_out);
    json_number(out, "set", record->answer.answer.first);
    json_key(out, "fields");
    text_char(out, '[');
    for (k = 0; k < desk->columns.count; k++) {
        size_t i = desk->columns.index[k];
        const struct field *field = &desk->layout->value_fields[i];
        struct curlew_slot slot = curlew_get_slot(desk->values.slots, i);

        text_string(out, k > 0 ? ",{" : "{");
        json_number(out, "field", i);
        if (desk->layout->names.count > 0)
            json_named(out, "name", desk->layout->names.text[i], strlen(desk->layout->names.text[i]));
        json_named(out, "type", type_of(desk, i), field->length);
        json_key(out, "byte");
        if (slot.kind == CURLEW_UNSET)
            text_string(out, "null");
        else
            text_unsigned(out, slot.position);
        value_json(out, &desk->values, i, field);
        text_char(out, '}');
    }
    text_string(out, "]}\n");
}

/* How many of its bytes belong to no field that is set. */
static size_t bytes_of_no_field(const struct desk *desk, const struct record *record)
{
    return record->length -
           bytes_of_fields(desk->layout, &desk->values, record->answer.answer.first, record->length, 1);
}

void note_over(const struct options *options, uint64_t records, uint64_t bytes)
{
    struct text line = {0};

    if (records == 0 || options->form == PEOPLE)
        return;
    text_count(&line, bytes, "byte belongs", "bytes belong");
    text_string(&line, " to no field, in ");
    text_count(&line, records, "record", "records");
    complain("note: %.*s", (int)line.length, line.bytes);
    text_free(&line);
}

/* Returns 0 where the library refuses the record, or where it has bytes of no field and that is refused. */
int record_show(struct desk *desk, struct record *record)
{
    record->answer = call_read(desk->layout, record->bytes, record->length, &desk->values);
    if (record->answer.answer.number != CURLEW_OK)
        return 0;
    if (desk->layout->starred || has(desk->options, OPTION_STRICT))
        record->over = bytes_of_no_field(desk, record);
    if (record->over > 0 && has(desk->options, OPTION_STRICT))
        return 0;
    if (is_row(desk))
        rows_add(&desk->rows, &desk->values, &desk->out);
    else if (desk->options->form == JSON)
        record_json(desk, record);
    else if (desk->options->form != PEOPLE)
        record_lines(desk, record);
    else
        record_for_people(desk, record);
    return 1;
}

void record_refused(const struct record *record)
{
    struct text where = {0};

    text_format(&where, "record %llu, from byte %llu on%c", (unsigned long long)record->number,
                (unsigned long long)record->first_byte, '\0');
    if (record->answer.answer.number == CURLEW_OK)
        complain("%s: %lu of its %lu bytes belong to no field (--strict)", where.bytes, (unsigned long)record->over,
                 (unsigned long)record->length);
    else
        refuse(where.bytes, record->answer.answer.number);
    text_free(&where);
}
