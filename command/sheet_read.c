/* curlew sheet read: what sheets say, as a table or one by one, or a record of one. */
#include <stdlib.h>
#include <string.h>

#include "tool.h"

/* Reads the sheet of that name into the values: the file must hold one. */
int values_from_sheet(struct values *values, const char *name)
{
    struct sheets sheets;
    int status = sheets_open(&sheets, name);

    if (status == DONE && sheets_next(&sheets, values) != 1)
        status = sheets_failed(&sheets) ? TROUBLE : REFUSED;
    if (status == DONE && sheets.several) {
        complain("%s: it holds several sheets, and one is wanted", sheets.name);
        status = REFUSED;
    }
    sheets_close(&sheets);
    return status;
}

/* ---- a row an entry ---- */

static void sheet_json(const struct sheets *sheets, const struct entries *entries, const struct values *values,
                       struct text *out)
{
    text_char(out, '{');
    if (sheets->several) {
        json_number(out, "sheet", sheets->number - 1);
        json_number(out, "from", sheets->from);
    }
    json_number(out, "count", values->count);
    json_number(out, "not_marked", values->count - count_marked(values));
    entries_json(entries, values, out);
    text_string(out, "}\n");
}

/* Of several sheets each has a line above it. */
static void sheet_rows(const struct sheets *sheets, const struct entries *entries, const struct values *values,
                       struct text *out)
{
    if (sheets->several && entries->form == PEOPLE)
        text_format(out, "%ssheet %llu, from byte %llu on\n", sheets->number > 1 ? "\n" : "",
                    (unsigned long long)(sheets->number - 1), (unsigned long long)sheets->from);
    entry_rows(entries, values, out);
    if (entries->form == PEOPLE) {
        text_count(out, values->count, "entry", "entries");
        text_format(out, ", %lu not marked\n", (unsigned long)(values->count - count_marked(values)));
    }
}

static void show_entries(const struct options *options, const struct sheets *sheets, const struct names *names,
                         const struct values *values, struct text *out)
{
    struct entries entries = {options->form,
                              names,
                              !has(options, OPTION_NO_HEAD),
                              options->form == TSV || options->form == CSV,
                              sheets->number - 1,
                              0,
                              0};

    if (entries.numbered && sheets->number > 1)
        entries.head = 0;
    if (options->form == JSON)
        sheet_json(sheets, &entries, values, out);
    else
        sheet_rows(sheets, &entries, values, out);
}

/* ---- a row a sheet ---- */

struct table_of_sheets {
    const struct options *options;
    struct names names;
    struct rows rows;
    size_t columns; /* how many entries have a column */
    int started;
    uint64_t shorter;
};

/* The columns are those of the names, or of the entries of the first sheet. */
static void table_begin(struct table_of_sheets *table, size_t entries, struct text *out)
{
    struct choice choice;

    table->columns = table->names.count > 0 ? table->names.count : entries;
    choose_fields(&choice, table->options, &table->names, table->columns);
    rows_start(&table->rows, table->options, NULL, &table->names, &choice);
    rows_head(&table->rows, table->options, out);
    table->started = 1;
}

static int table_row(struct table_of_sheets *table, struct sheets *sheets, const struct values *values,
                     struct text *out)
{
    if (!table->started)
        table_begin(table, values->count, out);
    if (values->count > table->columns) {
        complain("%s: it has %lu entries, and the table %lu column%s", sheets_where(sheets),
                 (unsigned long)values->count, (unsigned long)table->columns, table->columns == 1 ? "" : "s");
        advise("Give a name for each entry: --names.");
        return REFUSED;
    }
    table->shorter += values->count < table->columns;
    rows_add(&table->rows, values, out);
    return DONE;
}

static void table_end(struct table_of_sheets *table, struct text *out)
{
    if (!table->started)
        table_begin(table, 0, out);
    output_text(out);
    if (table->shorter > 0)
        complain("note: %llu sheet%s fewer entries than the table has columns: what they do not have is not marked",
                 (unsigned long long)table->shorter, table->shorter == 1 ? " has" : "s have");
    rows_end(&table->rows);
}

/* ---- one sheet after the other ---- */

#define FLUSH_AT 65536

static int show_sheets(struct table_of_sheets *table, struct sheets *sheets)
{
    int rows = table->options->form != PEOPLE && !has(table->options, OPTION_LONG);
    struct progress progress;
    struct values values;
    struct text out = {0};
    int status = DONE, found;

    values_start(&values);
    progress_start(&progress, "sheets", input_size(&sheets->source.input));
    while ((found = sheets_next(sheets, &values)) != 0) {
        if (found == -1)
            status = sheets_failed(sheets) ? TROUBLE : REFUSED;
        else if (!rows)
            show_entries(table->options, sheets, &table->names, &values, &out);
        else if (table_row(table, sheets, &values, &out) != DONE)
            status = REFUSED;
        if (out.length > FLUSH_AT || source_waits(&sheets->source))
            output_text(&out);
        progress_step(&progress, sheets->number, sheets->from);
    }
    progress_clear();
    if (rows)
        table_end(table, &out);
    output_text(&out);
    text_free(&out);
    values_free(&values);
    return status;
}

static int read_sheets(struct options *options)
{
    struct table_of_sheets table;
    struct sheets sheets;
    int status;

    memset(&table, 0, sizeof table);
    table.options = options;
    status = names_from_options(&table.names, options);
    if (status == DONE)
        status = operands_suit(options, 0, 1);
    if (status == DONE) {
        status = sheets_open(&sheets, options->count > 0 ? options->operands[0] : NULL);
        sheets.none_is_fine = options->form != PEOPLE && !has(options, OPTION_LONG);
        if (status == DONE)
            status = show_sheets(&table, &sheets);
        sheets_close(&sheets);
    }
    names_free(&table.names);
    return status;
}

/* ---- a record of a sheet, and the command ---- */

static int read_into_record(struct options *options)
{
    static struct layout layout;
    struct values values;
    int status = layout_take(&layout, options, TO_PACK);

    if (status == DONE)
        status = operands_suit(options, 0, 1);
    values_start(&values);
    if (status == DONE)
        status = values_from_sheet(&values, options->count > 0 ? options->operands[0] : NULL);
    if (status == DONE)
        status = values_suit(&layout, values.count);
    if (status == DONE)
        status = pack_and_show(options, &layout, &values);
    values_free(&values);
    layout_free(&layout);
    return status;
}

int command_sheet_read(struct options *options)
{
    int status = needs(options, OPTION_OUTPUT | OPTION_HEX | OPTION_STRICT, OPTION_RECORD, "--record");

    if (status == DONE)
        status = needs(options, OPTION_LONG, TABLE_FORMS, "--csv, --tsv or --json");
    if (status == DONE)
        status = needs(options, OPTION_FIELDS | OPTION_FOR_SPREADSHEET, TABLE_FORMS, "--csv, --tsv or --json");
    if (status != DONE)
        return status;
    if (!has(options, OPTION_RECORD))
        return read_sheets(options);
    if (has(options, TABLE_FORMS | OPTION_LONG | OPTION_FIELDS | OPTION_NO_HEAD))
        return bad_use(options, "--record writes bytes, and is not taken with ",
                       option_name(options->given & (TABLE_FORMS | OPTION_LONG | OPTION_FIELDS | OPTION_NO_HEAD)));
    return read_into_record(options);
}
