/* curlew layout: the fields of a layout. curlew perl: the layout of a Perl template. */
#include <string.h>

#include "tool.h"

static void count_cell(struct table *table, const struct field *field)
{
    if (field->form == COUNTED)
        table_number(table, field->count);
    else
        table_word(table, field->form == STARRED ? "all" : "none", PLAIN);
}

static void place_cell(struct table *table, uint32_t place)
{
    if (place == CURLEW_OPEN)
        table_word(table, "unknown", PLAIN);
    else
        table_number(table, place);
}

/* In tab-separated text the first field that stands against a promise says so in a column of its own. */
static void promise_cells(struct table *table, const struct field *field, struct promises promises)
{
    const uint32_t against[] = {promises.grows, promises.keeps, promises.joins};
    size_t i;

    for (i = 0; i < sizeof against / sizeof against[0]; i++)
        table_word(table, against[i] == field->start ? "no" : "-", PLAIN);
}

static void layout_rows(const struct layout *layout, enum form form, struct promises promises, struct table *table)
{
    size_t value = 0, i;

    for (i = 0; i < layout->count; i++) {
        const struct field *field = &layout->fields[i];

        if (field_value(field) == MOVE)
            table_word(table, "-", PLAIN);
        else
            table_number(table, value++);
        if (layout->names.count > 0) {
            if (field_value(field) == MOVE)
                text_char(&table->text, '-');
            else
                text_message(&table->text, layout->names.text[value - 1], strlen(layout->names.text[value - 1]));
            table_close(table, PLAIN);
        }
        text_add(&table->text, layout->text + field->start, field->length);
        table_close(table, PLAIN);
        field_words(field, &table->text);
        table_close(table, PLAIN);
        count_cell(table, field);
        place_cell(table, field->position);
        if (field->type == 'X' || field->type == '@')
            table_word(table, "-", PLAIN);
        else
            place_cell(table, field->bytes);
        if (form == TSV || form == CSV)
            promise_cells(table, field, promises);
    }
}

static void place_json(struct text *out, uint32_t place)
{
    if (place == CURLEW_OPEN)
        text_string(out, "null");
    else
        text_unsigned(out, place);
}

static void field_json(const struct layout *layout, const struct field *field, size_t value, struct text *out)
{
    text_char(out, '{');
    json_key(out, "field");
    if (field_value(field) == MOVE)
        text_string(out, "null");
    else
        text_unsigned(out, value);
    if (layout->names.count > 0 && field_value(field) != MOVE)
        json_named(out, "name", layout->names.text[value], strlen(layout->names.text[value]));
    json_named(out, "type", layout->text + field->start, field->length);
    json_key(out, "words");
    text_char(out, '"');
    field_words(field, out);
    text_char(out, '"');
    json_key(out, "count");
    if (field->form == COUNTED)
        text_unsigned(out, field->count);
    else
        text_string(out, field->form == STARRED ? "\"*\"" : "null");
    json_key(out, "byte");
    place_json(out, field->position);
    json_key(out, "bytes");
    place_json(out, field->type == 'X' || field->type == '@' ? CURLEW_OPEN : field->bytes);
    text_char(out, '}');
}

/* "grows":true, or "grows":false and the byte of the layout at which the field stands that is against it. */
static void promise_json(const char *key, const char *place_key, uint32_t place, struct text *out)
{
    json_key(out, key);
    text_string(out, place == CURLEW_NOWHERE ? "true" : "false");
    if (place != CURLEW_NOWHERE)
        json_number(out, place_key, place);
}

static void layout_json(const struct layout *layout, struct curlew_answer answer, struct promises promises,
                        struct text *out)
{
    size_t value = 0, i;

    text_char(out, '{');
    json_named(out, "layout", layout->text, layout->length);
    json_number(out, "values", answer.first);
    json_number(out, "bytes", answer.second);
    json_key(out, "starred");
    text_string(out, layout->starred ? "true" : "false");
    promise_json("grows", "grows_byte", promises.grows, out);
    promise_json("keeps", "keeps_byte", promises.keeps, out);
    promise_json("joins", "joins_byte", promises.joins, out);
    json_key(out, "fields");
    text_char(out, '[');
    for (i = 0; i < layout->count; i++) {
        if (i > 0)
            text_char(out, ',');
        field_json(layout, &layout->fields[i], value, out);
        value += field_value(&layout->fields[i]) != MOVE;
    }
    text_string(out, "]}\n");
}

/* A layout may be well written and still be of no use. */
static void layout_notes(struct curlew_answer answer)
{
    if (answer.first > CURLEW_MAX_SLOTS)
        complain("note: it has %lu values, and packing and reading take at most %d", (unsigned long)answer.first,
                 CURLEW_MAX_SLOTS);
    if (answer.second > CURLEW_MAX_RECORD)
        complain("note: it fills %lu bytes, and a record has at most %d", (unsigned long)answer.second,
                 CURLEW_MAX_RECORD);
}

static void layout_summary(const struct layout *layout, struct curlew_answer answer, struct text *out)
{
    text_count(out, answer.first, "value", "values");
    text_string(out, layout->starred ? ", a record of at least " : ", a record of ");
    text_count(out, answer.second, "byte\n", "bytes\n");
}

static void promise_line(const struct layout *layout, const char *promise, uint32_t place, struct text *out)
{
    size_t i = 0;

    text_format(out, "%-23s", promise);
    if (place == CURLEW_NOWHERE) {
        text_string(out, "yes\n");
        return;
    }
    while (i + 1 < layout->count && layout->fields[i].start < place)
        i++;
    text_format(out, "no, because of %.*s\n", (int)layout->fields[i].length, layout->text + layout->fields[i].start);
    text_caret(out, "        ", layout->text, layout->length, place);
}

/* Rows of fields; for people also what they come to. */
static void layout_table(const struct layout *layout, const struct options *options, struct curlew_answer answer,
                         struct promises promises, struct text *out)
{
    static const struct column plain[] = {{"field", 1},    {"type", 0},          {"in words", 0},
                                          {"count", 1},    {"first byte", 1},    {"bytes", 1},
                                          {"may grow", 0}, {"loses nothing", 0}, {"may be joined", 0}};
    struct column columns[10] = {{"field", 1}, {"name", 0}};
    size_t named = layout->names.count > 0 ? 1 : 0;
    size_t width = sizeof plain / sizeof plain[0] + named;
    enum form form = options->form;
    struct table table;

    memcpy(columns + 1 + named, plain + 1, sizeof plain - sizeof plain[0]);
    table_start(&table, columns, form == PEOPLE ? width - 3 : width);
    layout_rows(layout, form, promises, &table);
    table_print(&table, form, !has(options, OPTION_NO_HEAD), out);
    table_free(&table);
    if (form == PEOPLE) {
        layout_summary(layout, answer, out);
        promise_line(layout, "may grow at its end:", promises.grows, out);
        promise_line(layout, "reading loses nothing:", promises.keeps, out);
        promise_line(layout, "may be joined:", promises.joins, out);
    }
}

int command_layout(struct options *options)
{
    static struct layout layout;
    struct curlew_answer answer;
    struct promises promises;
    struct text out = {0};
    int status;

    if (has(options, OPTION_EXTENDS))
        return layout_extends(options);
    status = layout_take(&layout, options, TO_SHOW);
    if (status == DONE)
        status = operands_suit(options, 0, 0);
    if (status == DONE) {
        answer = call_layout(layout.text, layout.length);
        promises = call_promises(&layout);
        if (options->form == JSON)
            layout_json(&layout, answer, promises, &out);
        else
            layout_table(&layout, options, answer, promises, &out);
        output_text(&out);
        layout_notes(answer);
        text_free(&out);
    }
    layout_free(&layout);
    return status;
}

int command_perl(struct options *options)
{
    char layout[CURLEW_MAX_LAYOUT];
    struct curlew_answer answer;
    struct text out = {0};
    const char *text;

    if (operands_suit(options, 1, 1) != DONE)
        return TROUBLE;
    text = options->operands[0];
    answer = call_from_perl(text, strlen(text), layout);
    if (answer.number != CURLEW_OK) {
        refuse_template(text, strlen(text), answer);
        return REFUSED;
    }
    if (options->form == JSON) {
        text_char(&out, '{');
        json_named(&out, "template", text, strlen(text));
        json_named(&out, "layout", layout, answer.first);
        text_char(&out, '}');
    } else {
        if (options->form != PEOPLE)
            text_string(&out, "layout\n");
        text_add(&out, layout, answer.first);
    }
    text_char(&out, '\n');
    output_text(&out);
    text_free(&out);
    return DONE;
}
