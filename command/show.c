/*
 * curlew show: the bytes of a record in hex and text, each with its field. On a terminal a field has a colour of its
 * own, elsewhere its bytes stand in brackets. Two copies stand beside each other, with the bits that differ.
 */
#include <stdlib.h>
#include <string.h>

#include "tool.h"

#define ALONE 16
#define BESIDE 8

/* ---- which field a byte belongs to ---- */

static int load(struct showing *showing, size_t which, const char *name)
{
    struct shown_record *record = &showing->records[which];
    struct curlew_answer answer;
    size_t i, k;
    int status;

    record->name = strcmp(name, "-") == 0 ? "standard input" : name;
    record->bytes = get_memory(CURLEW_MAX_RECORD + 1);
    record->owner = get_memory(CURLEW_MAX_RECORD);
    values_start(&record->values);
    status = input_all(name, record->bytes, CURLEW_MAX_RECORD, "a record", &record->length);
    if (status != DONE)
        return status;
    answer = call_read(showing->layout, record->bytes, record->length, &record->values).answer;
    if (answer.number != CURLEW_OK) {
        refuse("record", answer.number);
        return REFUSED;
    }
    record->set = answer.first;
    memset(record->owner, NO_FIELD, CURLEW_MAX_RECORD);
    for (i = 0; i < record->set; i++) {
        struct range range =
            range_of(&showing->layout->value_fields[i], curlew_get_slot(record->values.slots, i), record->length);

        for (k = range.from; k < range.to && k < record->length; k++)
            record->owner[k] = (uint8_t)i;
    }
    return DONE;
}

/* A byte that one copy does not have differs, too. */
int byte_differs(const struct showing *showing, size_t place)
{
    const struct shown_record *one = &showing->records[0], *other = &showing->records[1];

    if (showing->count < 2)
        return 0;
    if (place >= one->length || place >= other->length)
        return place < one->length || place < other->length;
    return one->bytes[place] != other->bytes[place];
}

/* Whether it ends too soon for its fields. */
static int is_short(const struct showing *showing, const struct shown_record *record)
{
    return record->set < showing->layout->values;
}

/* ---- one line of bytes ---- */

static void field_colour(struct text *out, size_t owner, int differs)
{
    static const int colours[] = {36, 33, 32, 35, 34, 96, 93, 92, 95, 94};

    if (!output_has_colours())
        return;
    if (owner == NO_FIELD)
        text_string(out, "\033[90");
    else
        text_format(out, "\033[%d", colours[owner % (sizeof colours / sizeof colours[0])]);
    text_string(out, differs ? ";7m" : "m");
}

static void colour_end(struct text *out)
{
    if (output_has_colours())
        text_string(out, "\033[m");
}

/* The sign before or after a byte: a bracket where a field begins or ends, a star or bar where copies differ or the
 * record ends. */
static char sign_before(const struct shown_record *record, size_t place)
{
    size_t owner = record->owner[place];

    if (output_has_colours() || owner == NO_FIELD)
        return ' ';
    return place == 0 || record->owner[place - 1] != owner ? '[' : ' ';
}

static char sign_behind(const struct showing *showing, const struct shown_record *record, size_t place)
{
    size_t owner = record->owner[place];

    if (!output_has_colours() && byte_differs(showing, place))
        return '*';
    if (output_has_colours() || owner == NO_FIELD)
        return ' ';
    return place + 1 == record->length || record->owner[place + 1] != owner ? ']' : ' ';
}

static void hex_part(const struct showing *showing, const struct shown_record *record, size_t from, size_t width,
                     struct text *out)
{
    size_t i;

    for (i = from; i < from + width; i++) {
        if (i >= record->length) {
            text_string(out, i == record->length && is_short(showing, record) ? " |  " : "    ");
            continue;
        }
        text_char(out, sign_before(record, i));
        field_colour(out, record->owner[i], byte_differs(showing, i));
        text_hex(out, record->bytes + i, 1);
        colour_end(out);
        text_char(out, sign_behind(showing, record, i));
    }
}

static void text_part(const struct showing *showing, const struct shown_record *record, size_t from, size_t width,
                      struct text *out)
{
    size_t i;

    for (i = from; i < from + width; i++) {
        if (i >= record->length) {
            text_char(out, ' ');
            continue;
        }
        field_colour(out, record->owner[i], byte_differs(showing, i));
        text_char(out, record->bytes[i] >= 32 && record->bytes[i] < 127 ? (char)record->bytes[i] : '.');
        colour_end(out);
    }
}

/* ---- the fields beside the bytes ---- */

void text_field(struct text *to, const struct layout *layout, size_t index)
{
    const struct field *field = &layout->value_fields[index];

    if (index < layout->names.count) {
        text_message(to, layout->names.text[index], strlen(layout->names.text[index]));
        text_char(to, ' ');
    }
    text_add(to, layout->text + field->start, field->length);
}

static void text_value(struct text *out, const struct showing *showing, size_t which, size_t index)
{
    struct text value = {0};
    int marked =
        value_cell(&value, PEOPLE, &showing->records[which].values, index, &showing->layout->value_fields[index]);
    size_t fits = text_fitting(value.bytes, value.length, 40);

    ink_on(out, marked ? PLAIN : MISSING);
    text_add(out, value.bytes, fits);
    text_string(out, fits < value.length ? "..." : "");
    ink_off(out, marked ? PLAIN : MISSING);
    text_free(&value);
}

static void field_line(struct text *out, const struct showing *showing, size_t index)
{
    struct curlew_slot slot = curlew_get_slot(showing->records[0].values.slots, index);

    if (slot.kind == CURLEW_UNSET && showing->count == 2)
        slot = curlew_get_slot(showing->records[1].values.slots, index);
    if (slot.kind == CURLEW_UNSET)
        text_string(out, "   -  ");
    else
        text_format(out, "%4lu  ", (unsigned long)slot.position);
    field_colour(out, index, 0);
    text_field(out, showing->layout, index);
    colour_end(out);
    text_string(out, "  ");
    text_value(out, showing, 0, index);
    if (showing->count == 2) {
        text_string(out, "  |  ");
        text_value(out, showing, 1, index);
    }
}

/* The byte at which a field begins in a copy that has it; past every byte where none does. */
static size_t begins(const struct showing *showing, size_t index)
{
    size_t which;

    for (which = 0; which < showing->count; which++)
        if (index < showing->records[which].set)
            return curlew_get_slot(showing->records[which].values.slots, index).position;
    return CURLEW_MAX_RECORD + 1;
}

/* ---- the bits that differ ---- */

static void bits_of(struct text *out, const struct shown_record *record, size_t place)
{
    int bit;

    for (bit = 7; bit >= 0; bit--)
        text_char(out, place >= record->length ? '-' : record->bytes[place] >> bit & 1 ? '1' : '0');
}

static void bit_line(struct text *out, const struct showing *showing, size_t place)
{
    const struct shown_record *one = &showing->records[0], *other = &showing->records[1];
    int bit;

    text_format(out, "      byte %lu: ", (unsigned long)place);
    bits_of(out, one, place);
    text_char(out, ' ');
    bits_of(out, other, place);
    if (place < one->length && place < other->length) {
        text_char(out, ' ');
        for (bit = 7; bit >= 0; bit--)
            text_char(out, (one->bytes[place] ^ other->bytes[place]) >> bit & 1 ? '^' : '.');
    } else {
        text_format(out, " only in the %s copy", place < one->length ? "first" : "second");
    }
    text_char(out, '\n');
}

/* ---- the whole ---- */

static void byte_line(const struct showing *showing, size_t from, size_t width, struct text *out)
{
    size_t which;

    text_format(out, "%5lu ", (unsigned long)from);
    for (which = 0; which < showing->count; which++) {
        text_string(out, which > 0 ? "  | " : "");
        hex_part(showing, &showing->records[which], from, width, out);
        text_char(out, ' ');
        text_part(showing, &showing->records[which], from, width, out);
    }
}

/* The columns that bytes take, so that fields stand in one column beside them. */
static size_t line_width(const struct showing *showing, size_t width)
{
    return 6 + showing->count * (5 * width + 1) + 4 * (showing->count - 1);
}

/* A line ends where its last sign stands. */
static void line_end(struct text *out)
{
    while (out->length > 0 && out->bytes[out->length - 1] == ' ')
        out->length--;
    text_char(out, '\n');
}

/* Whether there is something to draw from this byte on: bytes, or the place where a record ends too soon. */
static int is_drawn(const struct showing *showing, size_t from)
{
    size_t which;

    for (which = 0; which < showing->count; which++) {
        const struct shown_record *record = &showing->records[which];

        if (from < record->length || (from == record->length && is_short(showing, record)))
            return 1;
    }
    return 0;
}

/* Each line of bytes with the fields that begin in it beside it; then those that begin in none. */
static void show_lines(const struct showing *showing, size_t width, struct text *out)
{
    int listed[CURLEW_MAX_SLOTS] = {0};
    size_t from, i;

    for (from = 0; is_drawn(showing, from); from += width) {
        size_t fields = 0;

        byte_line(showing, from, width, out);
        for (i = 0; i < showing->layout->values; i++)
            if (begins(showing, i) >= from && begins(showing, i) < from + width) {
                text_spaces(out, fields++ == 0 ? 2 : line_width(showing, width) + 2);
                field_line(out, showing, i);
                line_end(out);
                listed[i] = 1;
            }
        if (fields == 0)
            line_end(out);
        for (i = from; i < from + width && showing->count == 2; i++)
            if (byte_differs(showing, i))
                bit_line(out, showing, i);
    }
    for (i = 0; i < showing->count; i++)
        if (is_short(showing, &showing->records[i]))
            text_format(out, "%s ends at byte %lu, too soon for some fields\n", showing->records[i].name,
                        (unsigned long)showing->records[i].length);
    for (i = 0; i < showing->layout->values; i++)
        if (!listed[i]) {
            field_line(out, showing, i);
            line_end(out);
        }
}

static void show_summary(const struct showing *showing, struct text *out)
{
    size_t which, i;

    for (which = 0; which < showing->count; which++) {
        const struct shown_record *record = &showing->records[which];
        size_t grey = 0;

        for (i = 0; i < record->length; i++)
            grey += record->owner[i] == NO_FIELD;
        text_message(out, record->name, strlen(record->name));
        text_format(out, ": %lu of ", (unsigned long)record->set);
        text_count(out, showing->layout->values, "field set, ", "fields set, ");
        text_count(out, record->length, "byte, ", "bytes, ");
        text_format(out, "%lu of no field\n", (unsigned long)grey);
    }
}

static void show(const struct options *options, const struct showing *showing)
{
    struct text out = {0};
    struct sink sink;

    if (has(options, OPTION_HTML)) {
        show_html(showing, &out);
    } else {
        show_lines(showing, showing->count == 2 ? BESIDE : ALONE, &out);
        show_summary(showing, &out);
    }
    if (options->output != NULL && strcmp(options->output, "-") != 0) {
        sink_open(&sink, options->output);
        sink_add(&sink, out.bytes, out.length);
        sink_keep(&sink);
    } else {
        output_text(&out);
    }
    text_free(&out);
}

int command_show(struct options *options)
{
    static struct layout layout;
    static struct showing showing;
    int status = needs(options, OPTION_OUTPUT, OPTION_HTML, "--html");
    size_t i;

    if (status == DONE)
        status = layout_take(&layout, options, TO_READ);
    if (status == DONE)
        status = operands_suit(options, 1, 2);
    showing.layout = &layout;
    showing.count = status == DONE ? options->count : 0;
    for (i = 0; i < showing.count && status == DONE; i++)
        status = load(&showing, i, options->operands[i]);
    if (status == DONE)
        show(options, &showing);
    for (i = 0; i < showing.count; i++) {
        free(showing.records[i].bytes);
        free(showing.records[i].owner);
        values_free(&showing.records[i].values);
    }
    layout_free(&layout);
    return status;
}
