/* The rows of curlew mean. For people the name stands last, so that the columns line up however long the names are. */
#include <stdlib.h>
#include <string.h>

#include "tool.h"

#define FLUSH_AT 16384
#define MEAN_WIDTH 19

void mean_where(struct text *to, const struct means *means, const struct result *result)
{
    text_string(to, result->name);
    if (result->numbered)
        text_format(to, ", %s %llu",
                    means->layout == NULL               ? "sheet"
                    : has(means->options, OPTION_INPUT) ? "row"
                                                        : "record",
                    (unsigned long long)result->number);
}

/* What became of it. */
static const char *outcome(const struct result *result)
{
    if (result->status != DONE)
        return result->status == REFUSED ? "refused" : "not read";
    return result->marked ? "mean" : "no leg marked";
}

static void mean_words(const struct result *result, struct text *to)
{
    if (result->status == DONE && result->marked)
        text_real(to, result->mean);
    else
        text_string(to, outcome(result));
}

static const struct field *field_of(const struct means *means, size_t index)
{
    return means->layout != NULL ? &means->layout->value_fields[index] : NULL;
}

/* A value that stands beside the mean; where the candidate was not read there is none. */
static int beside(const struct means *means, const struct result *result, size_t index, enum form form, struct text *to)
{
    if (result->status == DONE && index < means->values.count)
        return value_cell(to, form, &means->values, index, field_of(means, index));
    text_string(to, result->status == DONE ? "not marked" : "-");
    return 0;
}

/* How wide the column of such a value is: as its field lets one think, and never narrower than its name. */
static size_t beside_width(const struct means *means, size_t index)
{
    const struct field *field = field_of(means, index);
    struct text name = {0};
    size_t width = 14, named;

    if (field != NULL && (field_value(field) == CHARACTERS || field_value(field) == DIGITS) && field->form != STARRED)
        width = field->count + 2 < 40 ? field->count + 2 : 40;
    text_name(&name, means->names, index);
    named = text_columns(name.bytes, name.length);
    text_free(&name);
    return named > width ? named : width;
}

/* A cell of that width, and what parts it from the next. */
static void padded(struct text *out, const struct text *cell, size_t width)
{
    size_t columns = text_columns(cell->bytes, cell->length);

    text_add(out, cell->bytes, cell->length);
    text_spaces(out, (columns < width ? width - columns : 0) + 2);
}

static void row_for_people(const struct means *means, const struct result *result, struct text *out)
{
    enum ink ink = result->status != DONE ? DIFFERS : result->marked ? PLAIN : MISSING;
    size_t start, k;

    ink_on(out, ink);
    start = out->length;
    mean_words(result, out);
    start = out->length - start;
    ink_off(out, ink);
    text_spaces(out, start < MEAN_WIDTH ? MEAN_WIDTH - start : 0);
    if (result->status != DONE)
        text_format(out, "  %15s  ", "-");
    else
        text_format(out, "  %15lu  ", (unsigned long)result->not_marked);
    for (k = 0; k < means->columns.count; k++) {
        struct text cell = {0};

        beside(means, result, means->columns.index[k], PEOPLE, &cell);
        padded(out, &cell, beside_width(means, means->columns.index[k]));
        text_free(&cell);
    }
    mean_where(out, means, result);
    text_char(out, '\n');
}

static void row_in_cells(const struct means *means, const struct result *result, struct text *out)
{
    enum form form = means->options->form;
    char between = form == CSV ? ',' : '\t';
    size_t k;

    mean_words(result, out);
    text_char(out, between);
    if (result->status != DONE)
        text_format(out, "-%c-%c", between, between);
    else
        text_format(out, "%lu%c%lu%c", (unsigned long)result->not_marked, between, (unsigned long)result->legs,
                    between);
    if (form == CSV)
        csv_cell(out, result->name, strlen(result->name), 0);
    else
        text_escaped(out, (const uint8_t *)result->name, strlen(result->name));
    text_format(out, "%c%llu", between, (unsigned long long)result->number);
    for (k = 0; k < means->columns.count; k++) {
        struct text value = {0};
        int marked = beside(means, result, means->columns.index[k], form, &value);

        text_char(out, between);
        if (form == TSV)
            text_add(out, value.bytes, value.length);
        else if (marked)
            csv_cell(out, value.bytes, value.length, 0);
        text_free(&value);
    }
    text_char(out, '\n');
}

static void row_json(const struct means *means, const struct result *result, struct text *out)
{
    size_t k;

    text_char(out, '{');
    json_named(out, "sheet", result->name, strlen(result->name));
    json_number(out, "number", result->number);
    json_named(out, "outcome", outcome(result), strlen(outcome(result)));
    if (result->status == DONE) {
        json_key(out, "mean");
        if (result->marked)
            text_json_real(out, result->mean);
        else
            text_string(out, "null");
        json_number(out, "legs", result->legs);
        json_number(out, "not_marked", result->not_marked);
    }
    for (k = 0; result->status == DONE && k < means->columns.count; k++) {
        struct text name = {0};

        text_name(&name, means->names, means->columns.index[k]);
        text_char(out, ',');
        json_string(out, name.bytes, name.length);
        text_string(out, ":{");
        if (means->columns.index[k] < means->values.count)
            value_json(out, &means->values, means->columns.index[k], field_of(means, means->columns.index[k]));
        text_char(out, '}');
        text_free(&name);
    }
    text_string(out, "}\n");
}

static void heads_for_people(const struct means *means, struct text *out)
{
    size_t k;

    ink_on(out, HEAD);
    text_format(out, "%-*s  legs not marked  ", MEAN_WIDTH, "mean");
    for (k = 0; k < means->columns.count; k++) {
        struct text name = {0};

        text_name(&name, means->names, means->columns.index[k]);
        padded(out, &name, beside_width(means, means->columns.index[k]));
        text_free(&name);
    }
    text_string(out, means->layout == NULL ? "sheet" : "file");
    ink_off(out, HEAD);
    text_char(out, '\n');
}

static void heads(const struct means *means, struct text *out)
{
    enum form form = means->options->form;
    size_t k;

    if (has(means->options, OPTION_NO_HEAD) || form == JSON)
        return;
    if (form == PEOPLE) {
        heads_for_people(means, out);
        return;
    }
    text_string(out,
                form == CSV ? "mean,legs not marked,legs,sheet,number" : "mean\tlegs not marked\tlegs\tsheet\tnumber");
    for (k = 0; k < means->columns.count; k++) {
        struct text name = {0};

        text_name(&name, means->names, means->columns.index[k]);
        text_char(out, form == CSV ? ',' : '\t');
        if (form == CSV)
            csv_cell(out, name.bytes, name.length, 0);
        else
            text_escaped(out, (const uint8_t *)name.bytes, name.length);
        text_free(&name);
    }
    text_char(out, '\n');
}

/* Legs are chosen by the names of the layout, or of the head of the first table; then the head is written. */
void mean_ready(struct means *means)
{
    size_t limit = means->layout != NULL ? means->layout->values : CURLEW_MAX_SLOTS, i;

    if (means->ready)
        return;
    means->ready = 1;
    means->all_legs = !has(means->options, OPTION_LEGS);
    if (!means->all_legs)
        choose(&means->legs, "--legs", means->options->legs, means->names, limit);
    for (i = 0; i < means->legs.count; i++)
        if (means->legs.index[i] >= limit) {
            complain("--legs %s: the layout has no field %lu", means->options->legs,
                     (unsigned long)means->legs.index[i]);
            exit(TROUBLE);
        }
    if (has(means->options, OPTION_FIELDS))
        choose_fields(&means->columns, means->options, means->names, limit);
    heads(means, &means->out);
}

void mean_show(struct means *means, const struct result *result)
{
    struct text *out = &means->out;

    means->rows++;
    means->refused += result->status != DONE;
    means->without += result->status == DONE && !result->marked;
    if (result->status > means->status)
        means->status = result->status;
    if (means->options->form == JSON)
        row_json(means, result, out);
    else if (means->options->form == PEOPLE)
        row_for_people(means, result, out);
    else
        row_in_cells(means, result, out);
    if (out->length > FLUSH_AT || output_on_terminal())
        output_text(out);
    progress_step(&means->progress, means->rows, means->files);
}
