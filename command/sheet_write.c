/* curlew sheet write: values, those of a record, or the rows of a table become sheets. */
#include <stdlib.h>
#include <string.h>

#include "tool.h"

/* ---- one sheet ---- */

/* Bytes after the last field are in no sheet. */
static int over_noted(const struct options *options, const struct layout *layout, const struct values *values,
                      size_t set, size_t length)
{
    size_t over = length - bytes_of_fields(layout, values, set, length, 1);
    int strict = has(options, OPTION_STRICT);

    if (over > 0)
        complain("%srecord: %lu of its %lu bytes belong to no field, and are not in the sheet",
                 strict ? "" : "note: ", (unsigned long)over, (unsigned long)length);
    return over > 0 && strict ? REFUSED : DONE;
}

/* The values that a record shows; those after its end stay not marked. */
static int values_from_record(struct values *values, const struct options *options, const struct layout *layout,
                              const char *name)
{
    uint8_t *record = get_memory(CURLEW_MAX_RECORD + 1);
    size_t length;
    int status = input_all(name, record, CURLEW_MAX_RECORD, "a record", &length);

    if (status == DONE) {
        struct curlew_answer answer = call_read(layout, record, length, values).answer;

        if (answer.number != CURLEW_OK) {
            refuse("record", answer.number);
            status = REFUSED;
        } else {
            status = over_noted(options, layout, values, answer.first, length);
        }
    }
    free(record);
    return status;
}

/* Each value is checked as packing would: alone, since a value that is not marked is no fault here. Returns the answer,
 * with the value. */
struct curlew_answer values_checked(const struct layout *layout, const struct values *values, uint8_t *record)
{
    struct curlew_answer answer = {CURLEW_OK, 0, 0};
    size_t i;

    for (i = 0; i < values->count && answer.number == CURLEW_OK; i++)
        if (curlew_get_slot(values->slots, i).kind != CURLEW_UNSET) {
            answer = call_pack_one(layout, values, i, record);
            answer.first = (uint32_t)i;
        }
    return answer;
}

static int checked(const struct options *options, const struct layout *layout, const struct values *values)
{
    uint8_t *record = get_memory(CURLEW_MAX_RECORD);
    struct curlew_answer answer = values_checked(layout, values, record);

    free(record);
    if (answer.number == CURLEW_OK)
        return values_noted(layout, values, options, 1);
    refuse_value(layout, answer);
    return REFUSED;
}

static int write_sheet(const struct options *options, const struct values *values)
{
    uint8_t *sheet = get_memory(CURLEW_MAX_SHEET);
    struct curlew_answer answer = call_sheet_write(values, sheet);

    if (answer.number == CURLEW_OK)
        show_bytes(options, sheet, answer.first);
    else
        refuse("sheet", answer.number);
    free(sheet);
    return answer.number == CURLEW_OK ? DONE : REFUSED;
}

static int write_one(const struct options *options, const struct layout *layout)
{
    struct values values;
    int status;

    values_start(&values);
    if (has(options, OPTION_RECORD)) {
        status = values_from_record(&values, options, layout, options->count > 0 ? options->operands[0] : NULL);
    } else {
        status = values_from_arguments(&values, layout, options, 1);
        if (status == DONE)
            status = checked(options, layout, &values);
    }
    if (status == DONE)
        status = write_sheet(options, &values);
    values_free(&values);
    return status;
}

/* ---- a table ---- */

struct writing {
    struct cells cells;
    const struct layout *layout;
    const struct options *options;
    struct values values;
    uint8_t *record, *sheet;
    uint64_t bad;
    struct losses losses;
    struct progress progress;
};

/* Makes a sheet of the row. Returns 0 after a complaint. */
static int write_row(struct writing *writing, size_t *length)
{
    struct curlew_answer answer;

    if (!cells_values(&writing->cells, writing->layout, &writing->values))
        return 0;
    answer = values_checked(writing->layout, &writing->values, writing->record);
    if (answer.number != CURLEW_OK) {
        cells_refused(&writing->cells, writing->cells.column_of[answer.first], answer.number);
        return 0;
    }
    if (!losses_counted(&writing->losses, writing->layout, &writing->values, &writing->cells, writing->options))
        return 0;
    answer = call_sheet_write(&writing->values, writing->sheet);
    *length = answer.first;
    if (answer.number != CURLEW_OK)
        refuse(cells_where(&writing->cells, writing->cells.columns), answer.number);
    return answer.number == CURLEW_OK;
}

static int write_rows(struct writing *writing, struct sink *sink)
{
    enum row_found found;
    size_t length;

    while ((found = cells_next(&writing->cells)) != ROW_END) {
        if (found == ROW_TAKEN && write_row(writing, &length)) {
            sink_add(sink, writing->sheet, length);
        } else {
            writing->bad++;
            if (found == ROW_LOST)
                return cells_failed(&writing->cells) ? TROUBLE : REFUSED;
            if (!has(writing->options, OPTION_KEEP_GOING))
                return REFUSED;
            cells_show_row(&writing->cells);
        }
        if (writing->cells.rows % 1024 == 0)
            progress_step(&writing->progress, writing->cells.rows, writing->cells.source.taken);
    }
    return DONE;
}

static int finish(struct writing *writing, struct sink *sink, int status)
{
    progress_clear();
    if (status != DONE) {
        complain("nothing was written");
        sink_drop(sink);
        return status;
    }
    sink_keep(sink);
    losses_told(&writing->losses, writing->layout, 1);
    if (writing->bad > 0)
        complain("%llu of %llu rows were left out", (unsigned long long)writing->bad,
                 (unsigned long long)writing->cells.rows);
    return writing->bad > 0 ? REFUSED : DONE;
}

static int write_table(const struct options *options, struct layout *layout)
{
    static struct writing writing;
    struct sink sink;
    int status;

    writing.layout = layout;
    writing.options = options;
    status =
        cells_open(&writing.cells, options, options->form, options->count > 0 ? options->operands[0] : NULL, layout);
    if (status == DONE) {
        values_start(&writing.values);
        writing.record = get_memory(CURLEW_MAX_RECORD);
        writing.sheet = get_memory(CURLEW_MAX_SHEET);
        progress_start(&writing.progress, "rows", input_size(&writing.cells.source.input));
        sink_open(&sink, options->output);
        status = finish(&writing, &sink, write_rows(&writing, &sink));
        values_free(&writing.values);
        free(writing.record);
        free(writing.sheet);
    }
    cells_close(&writing.cells);
    return status;
}

/* ---- the command ---- */

int command_sheet_write(struct options *options)
{
    static struct layout layout;
    int from_record = has(options, OPTION_RECORD), table = has(options, TABLE_FORMS);
    int status = table_options(options);

    if (status == DONE && from_record && (table || has(options, OPTION_TEXT)))
        status =
            bad_use(options, "--record is not taken with ", option_name(options->given & (TABLE_FORMS | OPTION_TEXT)));
    if (status == DONE)
        status = layout_take(&layout, options, from_record ? TO_READ : TO_PACK);
    if (status == DONE && (from_record || table))
        status = operands_suit(options, 0, 1);
    if (status == DONE)
        status = table ? write_table(options, &layout) : write_one(options, &layout);
    layout_free(&layout);
    return status;
}
