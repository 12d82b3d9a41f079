/* curlew mean: the mean of the marked legs, a row a candidate. */
#include <stdlib.h>
#include <string.h>

#include "tool.h"

/* With more files than this a terminal is told in the end what became of them. */
#define MANY 20

/* ---- one candidate ---- */

/* The legs that --legs names. An entry that a sheet does not have is not marked, unless it comes from A-, which ends
 * with the sheet. */
static void choose_legs(struct means *means)
{
    struct values *chosen = &means->chosen;
    const struct values *values = &means->values;
    size_t k;

    chosen->count = 0;
    for (k = 0; k < means->legs.count; k++) {
        size_t index = means->legs.index[k];

        if (index < values->count)
            memcpy(chosen->slots + chosen->count++ * CURLEW_SLOT_SIZE, values->slots + index * CURLEW_SLOT_SIZE,
                   CURLEW_SLOT_SIZE);
        else if (k < means->legs.open)
            value_unset(chosen);
    }
    chosen->area = values->area;
    chosen->used = values->used;
}

static void refuse_leg(const struct means *means, const struct result *result, struct curlew_answer answer)
{
    size_t entry = means->all_legs ? answer.first : means->legs.index[answer.first];
    struct text where = {0};

    mean_where(&where, means, result);
    text_format(&where, ", %s %lu", means->layout == NULL ? "entry" : "field", (unsigned long)entry);
    if (entry < means->names->count)
        text_format(&where, ", %s", means->names->text[entry]);
    text_char(&where, '\0');
    if (answer.number == CURLEW_WRONG_KIND || answer.number == CURLEW_BAD_LIST) {
        complain("%s: a leg is one integer, and this is none (number %lu)", where.bytes, (unsigned long)answer.number);
        advise("Choose the legs with --legs, as in --legs 2-4.");
    } else {
        refuse(where.bytes, answer.number);
    }
    text_free(&where);
}

static void find_mean(struct means *means, struct result *result)
{
    const struct values *legs = &means->values;
    struct curlew_answer answer;

    if (!means->all_legs) {
        choose_legs(means);
        legs = &means->chosen;
    }
    answer = call_mean(legs, &result->marked, &result->mean);
    if (answer.number != CURLEW_OK) {
        refuse_leg(means, result, answer);
        result->status = REFUSED;
    }
    result->legs = legs->count;
    result->not_marked = answer.first;
}

/* ---- files of sheets, of records, and tables ---- */

static void not_read(struct means *means, const char *name, int status)
{
    struct result result = {name, 0, 0, status, 0, 0, 0, 0};

    means->values.count = 0;
    mean_show(means, &result);
}

static void sheets_of_file(struct means *means, const char *name)
{
    struct sheets sheets;
    int found;

    if (sheets_open(&sheets, name) != DONE) {
        not_read(means, name, TROUBLE);
        return;
    }
    while ((found = sheets_next(&sheets, &means->values)) != 0) {
        struct result result = {sheets.name, sheets.number - 1, sheets.several, DONE, 0, 0, 0, 0};

        if (found == -1)
            result.status = sheets_failed(&sheets) ? TROUBLE : REFUSED;
        else
            find_mean(means, &result);
        mean_show(means, &result);
        if (source_waits(&sheets.source) && input_size(&sheets.source.input) == 0)
            output_text(&means->out);
    }
    sheets_close(&sheets);
}

static int one_record(struct means *means, const uint8_t *record, size_t length, struct result *result)
{
    struct curlew_answer answer = call_read(means->layout, record, length, &means->values).answer;

    if (answer.number != CURLEW_OK) {
        struct text where = {0};

        mean_where(&where, means, result);
        text_char(&where, '\0');
        refuse(where.bytes, answer.number);
        text_free(&where);
        return REFUSED;
    }
    find_mean(means, result);
    return result->status;
}

static void records_of_file(struct means *means, const char *name)
{
    const struct options *options = means->options;
    uint8_t *record = get_memory(means->length);
    struct source source;
    size_t have = means->length;
    uint64_t number = options->from;

    if (!source_open(&source, name) || !input_skip(&source.input, options->from * means->length)) {
        not_read(means, source.input.name, TROUBLE);
        have = 0;
    }
    while (have == means->length && (!has(options, OPTION_COUNT) || number - options->from < options->count_of)) {
        struct result result = {source.input.name, number, 1, TROUBLE, 0, 0, 0, 0};

        have = source_take(&source, record, means->length);
        if (have == 0 && !source.failed)
            break;
        if (!source.failed) {
            result.status = DONE;
            result.status = one_record(means, record, have, &result);
        }
        if (!source.failed && have < means->length)
            complain("note: %s ends inside record %llu, which has %lu of %lu bytes", source.input.name,
                     (unsigned long long)number, (unsigned long)have, (unsigned long)means->length);
        mean_show(means, &result);
        number++;
    }
    source_close(&source);
    free(record);
}

static int one_row(struct means *means, struct cells *cells, enum row_found found, struct result *result)
{
    if (found == ROW_TAKEN && cells_values(cells, means->layout, &means->values)) {
        result->status = DONE;
        find_mean(means, result);
    }
    if (found == ROW_LOST && cells_failed(cells))
        result->status = TROUBLE;
    mean_show(means, result);
    return found != ROW_LOST;
}

/* A layout without names takes those of the first table. */
static void rows_of_table(struct means *means, const char *name)
{
    struct cells cells;
    enum row_found found;
    int status = cells_open(&cells, means->options, means->options->input, name, means->layout);
    int more = status == DONE;

    mean_ready(means);
    if (!more)
        not_read(means, name != NULL ? name : "standard input", status);
    while (more && (found = cells_next(&cells)) != ROW_END) {
        struct result result = {cells_source(&cells), cells.row, 1, REFUSED, 0, 0, 0, 0};

        more = one_row(means, &cells, found, &result);
    }
    cells_close(&cells);
}

static void one_file(struct means *means, const char *name)
{
    if (means->layout == NULL)
        sheets_of_file(means, name);
    else if (has(means->options, OPTION_INPUT))
        rows_of_table(means, name);
    else
        records_of_file(means, name);
    means->files++;
}

/* The names of files, a line each. */
static void files_named(struct means *means, const char *list)
{
    struct source source;
    struct text name = {0};
    int c;

    if (!source_open(&source, list)) {
        means->status = TROUBLE;
        return;
    }
    do {
        c = source_peek(&source);
        source.at += c != -1;
        if (c != -1 && c != '\n') {
            text_char(&name, (char)c);
        } else if (name.length > 0) {
            text_char(&name, '\0');
            one_file(means, name.bytes);
            name.length = 0;
        }
    } while (c != -1);
    if (source.failed)
        means->status = TROUBLE;
    source_close(&source);
    text_free(&name);
}

/* ---- the command ---- */

static void end_of_all(const struct means *means)
{
    progress_clear();
    if (means->rows > MANY && errors_on_terminal())
        complain("%llu %s: %llu with a mean, %llu with no leg marked, %llu refused", (unsigned long long)means->rows,
                 means->layout == NULL ? "sheets" : "candidates",
                 (unsigned long long)(means->rows - means->without - means->refused),
                 (unsigned long long)means->without, (unsigned long long)means->refused);
}

static int take_means(struct means *means)
{
    struct options *options = means->options;
    size_t i;

    values_start(&means->values);
    progress_start(&means->progress, "candidates", options->count);
    if (!has(options, OPTION_INPUT) || means->names->count > 0)
        mean_ready(means);
    for (i = 0; i < options->count; i++)
        one_file(means, options->operands[i]);
    if (has(options, OPTION_FILES_FROM))
        files_named(means, options->files_from);
    else if (options->count == 0)
        one_file(means, NULL);
    output_text(&means->out);
    end_of_all(means);
    text_free(&means->out);
    values_free(&means->values);
    return means->status;
}

static int means_by_layout(struct means *means)
{
    static struct layout layout;
    struct options *options = means->options;
    int status = layout_take(&layout, options, has(options, OPTION_INPUT) ? TO_PACK : TO_READ);

    means->layout = &layout;
    means->names = &layout.names;
    if (status == DONE && has(options, OPTION_RECORDS))
        status = record_length(&layout, options, &means->length);
    if (status == DONE)
        status = take_means(means);
    layout_free(&layout);
    return status;
}

int command_mean(struct options *options)
{
    static struct means means;
    struct names names = {{NULL}, 0};
    int status = needs(options, OPTION_FROM | OPTION_COUNT, OPTION_RECORDS, "--records");

    if (status == DONE && has(options, OPTION_INPUT) && has(options, OPTION_RECORDS))
        status = bad_use(options, "--input and --records are two things", "");
    if (status != DONE)
        return status;
    means.options = options;
    if (has(options, OPTION_INPUT | OPTION_RECORDS))
        return means_by_layout(&means);
    status = names_from_options(&names, options);
    means.names = &names;
    if (status == DONE)
        status = take_means(&means);
    names_free(&names);
    return status;
}
