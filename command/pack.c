/* curlew pack: values become a record, and the rows of a table a file of records. */
#include <stdlib.h>
#include <string.h>

#include "tool.h"

/* ---- a table ---- */

struct packing {
    struct cells cells;
    struct layout *layout;
    struct layout
        begin; /* the fields that every row has: all of them, or those before the columns that are empty in every row */
    struct options *options;
    struct values values;
    uint8_t *record;
    size_t length; /* of every record */
    uint64_t packed, bad;
    uint64_t first_row, first_line; /* the row that decided which fields a record has */
    struct losses losses;
    struct progress progress;
};

/* How many values stand before those at the end that are not marked. */
static size_t marked_in_front(const struct values *values)
{
    size_t count = values->count;

    while (count > 0 && curlew_get_slot(values->slots, count - 1).kind == CURLEW_UNSET)
        count--;
    return count;
}

/* The first row decides which columns at the end are empty. */
static void decide_columns(struct packing *packing)
{
    size_t marked = marked_in_front(&packing->values);

    packing->begin = *packing->layout;
    if (marked < packing->layout->values)
        layout_begin(&packing->begin, packing->layout, marked);
    packing->first_row = packing->cells.row;
    packing->first_line = packing->cells.line;
}

static int not_marked(struct packing *packing, size_t value, const char *why)
{
    complain("%s: it is not marked, and %s", cells_where(&packing->cells, packing->cells.column_of[value]), why);
    advise("Keep sheets, which have a place for it: curlew sheet write --%s.", packing->options->form == CSV ? "csv"
                                                                               : packing->options->form == TSV
                                                                                   ? "tsv"
                                                                                   : "json");
    return 0;
}

/* A row has a value that the first one, and all between, have not. */
static int first_not_marked(struct packing *packing, size_t value)
{
    uint64_t row = packing->cells.row, line = packing->cells.line;
    struct text why = {0};

    text_format(&why, "in row %llu (line %llu) it is: records are all of one length%c", (unsigned long long)row,
                (unsigned long long)line, '\0');
    packing->cells.row = packing->first_row;
    packing->cells.line = packing->first_line;
    not_marked(packing, value, why.bytes);
    packing->cells.row = row;
    packing->cells.line = line;
    text_free(&why);
    return 0;
}

/* Every row has the same fields: those of the first. */
static int suits_first(struct packing *packing)
{
    size_t i;

    for (i = 0; i < packing->layout->values; i++) {
        int marked = curlew_get_slot(packing->values.slots, i).kind != CURLEW_UNSET;

        if (!marked && i < packing->begin.values)
            return not_marked(packing, i, "records have no place for a value that is missing");
        if (marked && i >= packing->begin.values)
            return first_not_marked(packing, i);
    }
    return 1;
}

/* A record that lacks fields at its end must not show them: with X or @ it could. */
static int stays_unmarked(struct packing *packing, size_t length)
{
    struct values values;
    size_t set;

    if (packing->begin.values == packing->layout->values)
        return 1;
    values_start(&values);
    set = call_read(packing->layout, packing->record, length, &values).answer.first;
    values_free(&values);
    if (set == packing->begin.values)
        return 1;
    return not_marked(packing, packing->begin.values, "this layout would read something else in its place");
}

static int length_suits(struct packing *packing, size_t length)
{
    if (length == 0 && packing->begin.values < packing->layout->values)
        return not_marked(packing, packing->begin.values, "a record without a value has no bytes");
    if (length == 0) {
        complain("%s: its record has no bytes, and a file of such records cannot tell how many there are",
                 cells_where(&packing->cells, packing->cells.columns));
        advise("Keep sheets: curlew sheet write.");
        return 0;
    }
    if (packing->packed == 0)
        packing->length = length;
    if (length == packing->length)
        return 1;
    complain("%s: its record has %lu bytes, and those before it have %lu: records of a file are all of one length",
             cells_where(&packing->cells, packing->cells.columns), (unsigned long)length,
             (unsigned long)packing->length);
    advise("Give the field with * a count, or keep sheets: curlew sheet write.");
    return 0;
}

static int pack_refused(struct packing *packing, struct curlew_answer answer)
{
    int cell = answer.number != CURLEW_NO_ROOM && answer.first < packing->layout->values;

    cells_refused(&packing->cells, cell ? packing->cells.column_of[answer.first] : packing->cells.columns,
                  answer.number);
    return 0;
}

/* Makes a record of the row. Returns its length, or 0 after a complaint. */
static int pack_row(struct packing *packing, size_t *length)
{
    struct curlew_answer answer;

    if (!cells_values(&packing->cells, packing->layout, &packing->values))
        return 0;
    if (packing->packed == 0)
        decide_columns(packing);
    if (!suits_first(packing))
        return 0;
    packing->values.count = packing->begin.values;
    answer = call_pack(&packing->begin, &packing->values, packing->record);
    if (answer.number != CURLEW_OK)
        return pack_refused(packing, answer);
    *length = answer.first;
    return length_suits(packing, *length) && stays_unmarked(packing, *length) &&
           losses_counted(&packing->losses, &packing->begin, &packing->values, &packing->cells, packing->options);
}

/* All rows become records. Returns the status. */
static int pack_rows(struct packing *packing, struct sink *sink)
{
    enum row_found found;
    size_t length;

    while ((found = cells_next(&packing->cells)) != ROW_END) {
        if (found == ROW_TAKEN && pack_row(packing, &length)) {
            sink_add(sink, packing->record, length);
            packing->packed++;
        } else {
            packing->bad++;
            if (found == ROW_LOST)
                return cells_failed(&packing->cells) ? TROUBLE : REFUSED;
            if (!has(packing->options, OPTION_KEEP_GOING))
                return REFUSED;
            cells_show_row(&packing->cells);
        }
        if (packing->cells.rows % 1024 == 0)
            progress_step(&packing->progress, packing->cells.rows, packing->cells.source.taken);
    }
    return DONE;
}

/* What became of columns that are empty in every row. */
static void note_columns(const struct packing *packing)
{
    struct text names = {0};
    size_t i;

    if (packing->packed == 0 || packing->begin.values == packing->layout->values)
        return;
    for (i = packing->begin.values; i < packing->layout->values; i++) {
        text_string(&names, i > packing->begin.values ? ", " : "");
        text_name(&names, &packing->layout->names, i);
    }
    complain("note: not marked in every row: %.*s; all records are shorter by that, %lu bytes long", (int)names.length,
             names.bytes, (unsigned long)packing->length);
    advise("Read them with --records %lu.", (unsigned long)packing->length);
    text_free(&names);
}

static int finish(struct packing *packing, struct sink *sink, int status)
{
    progress_clear();
    if (status != DONE && has(packing->options, OPTION_KEEP_GOING) && !cells_failed(&packing->cells) &&
        packing->bad > 0)
        complain("the rows after this one cannot be read");
    if (status != DONE) {
        complain("nothing was written");
        sink_drop(sink);
        return status;
    }
    sink_keep(sink);
    losses_told(&packing->losses, packing->layout, 0);
    note_columns(packing);
    if (packing->bad > 0)
        complain("%llu of %llu rows were left out", (unsigned long long)packing->bad,
                 (unsigned long long)packing->cells.rows);
    return packing->bad > 0 ? REFUSED : DONE;
}

static int pack_table(struct options *options, struct layout *layout)
{
    static struct packing packing;
    struct sink sink;
    int status;

    packing.layout = layout;
    packing.begin = *layout;
    packing.options = options;
    status =
        cells_open(&packing.cells, options, options->form, options->count > 0 ? options->operands[0] : NULL, layout);
    if (status == DONE) {
        values_start(&packing.values);
        packing.record = get_memory(CURLEW_MAX_RECORD);
        progress_start(&packing.progress, "rows", input_size(&packing.cells.source.input));
        sink_open(&sink, options->output);
        status = finish(&packing, &sink, pack_rows(&packing, &sink));
        values_free(&packing.values);
        free(packing.record);
    }
    cells_close(&packing.cells);
    return status;
}

/* ---- the command ---- */

static int pack_values(const struct options *options, const struct layout *layout)
{
    struct values values;
    int status;

    values_start(&values);
    status = values_from_arguments(&values, layout, options, 0);
    if (status == DONE)
        status = pack_and_show(options, layout, &values);
    values_free(&values);
    return status;
}

int command_pack(struct options *options)
{
    static struct layout layout;
    int table = has(options, TABLE_FORMS);
    int status = table_options(options);

    if (status == DONE)
        status = layout_take(&layout, options, TO_PACK);
    if (status == DONE && table)
        status = operands_suit(options, 0, 1);
    if (status == DONE)
        status = table ? pack_table(options, &layout) : pack_values(options, &layout);
    layout_free(&layout);
    return status;
}
