/* A table read, row by row: its head, its rows, and what is wrong with them in words. */
#include <stdlib.h>
#include <string.h>

#include "tool.h"

struct cell_in *cells_new(struct cells *cells)
{
    struct cell_in *cell;

    if (cells->count == cells->room) {
        size_t room = 2 * cells->room + CURLEW_MAX_SLOTS;
        struct cell_in *more = get_memory(room * sizeof *more);

        if (cells->count > 0)
            memcpy(more, cells->cells, cells->count * sizeof *more);
        free(cells->cells);
        cells->cells = more;
        cells->room = room;
    }
    cell = &cells->cells[cells->count++];
    memset(cell, 0, sizeof *cell);
    return cell;
}

const char *cells_source(const struct cells *cells)
{
    return cells->source.input.name;
}

const char *cells_where(struct cells *cells, size_t column)
{
    struct text *where = &cells->where;

    where->length = 0;
    text_string(where, cells_source(cells));
    if (cells->headed || cells->form == JSON)
        text_format(where, ", row %llu (line %llu)", (unsigned long long)cells->row, (unsigned long long)cells->line);
    else
        text_format(where, ", head (line %llu)", (unsigned long long)cells->line);
    if (column < cells->columns) {
        text_format(where, ", column %lu", (unsigned long)column);
        if (column < cells->head.count)
            text_format(where, ", %s", cells->head.text[column]);
    }
    text_char(where, '\0');
    return where->bytes;
}

enum row_found cells_lost(struct cells *cells, const char *what, const char *advice)
{
    if (!cells->source.failed) {
        complain("%s: %s", cells_where(cells, cells->columns), what);
        advise("%s", advice);
    }
    return ROW_LOST;
}

static const char *cell_bytes(const struct cells *cells, const struct cell_in *cell)
{
    return cell->length > 0 ? cells->bytes.bytes + cell->start : "";
}

void cells_complain(struct cells *cells, size_t column, const char *what)
{
    struct text shown = {0};

    if (column < cells->count && cells->cells[column].form != CELL_NONE && cells->cells[column].form != CELL_MISSING) {
        const struct cell_in *cell = &cells->cells[column];

        text_quoted(&shown, (const uint8_t *)cell_bytes(cells, cell), cell->length < 40 ? cell->length : 40);
        text_string(&shown, cell->length > 40 ? "...: " : ": ");
    }
    complain("%s: %.*s%s", cells_where(cells, column), (int)shown.length, shown.length > 0 ? shown.bytes : "", what);
    text_free(&shown);
}

/* What the library said of it. */
void cells_refused(struct cells *cells, size_t column, uint32_t number)
{
    struct text what = {0};
    const char *advice;

    text_format(&what, "%s (number %lu)%c", refusal_words(number, &advice), (unsigned long)number, '\0');
    cells_complain(cells, column, what.bytes);
    if (advice != NULL)
        advise("%s", advice);
    text_free(&what);
}

/* The row as it could stand in a table. */
void cells_show_row(const struct cells *cells)
{
    struct text row = {0};
    size_t i;

    for (i = 0; i < cells->count; i++) {
        const struct cell_in *cell = &cells->cells[i];

        if (i > 0)
            text_char(&row, ',');
        if (cell->form != CELL_NONE && cell->form != CELL_MISSING)
            csv_cell(&row, cell_bytes(cells, cell), cell->length, 0);
    }
    advise("%.*s", (int)row.length, row.length > 0 ? row.bytes : "");
    text_free(&row);
}

/* A text that a spreadsheet was kept from computing has one ' more than the text itself. */
static size_t guard_of(const struct cells *cells, const char *bytes, size_t length)
{
    size_t i = 0;

    while (i < length && bytes[i] == '\'')
        i++;
    return cells->for_spreadsheet && i > 0 && i < length && strchr("=+-@", bytes[i]) != NULL ? 1 : 0;
}

/* ---- the head ---- */

/* A table of one column may be one whose cells something else parts. */
static void advise_separator(const struct cells *cells)
{
    const char *head = cells->columns == 1 && cells->head.count == 1 ? cells->head.text[0] : "";

    if (cells->form == CSV && strchr(head, ';') != NULL)
        advise("It looks as if semicolons stood between the cells: save the table with commas.");
    else if (cells->form == CSV && strchr(head, '\t') != NULL)
        advise("It looks as if tabs stood between the cells: --tsv takes such a table.");
    else if (cells->form == TSV && strchr(head, ',') != NULL)
        advise("It looks as if commas stood between the cells: --csv takes such a table.");
}

static int no_column(struct cells *cells, size_t column, const char *what)
{
    complain("%s: column %lu, \"%s\": %s", cells_source(cells), (unsigned long)column, cells->head.text[column], what);
    advise_separator(cells);
    return REFUSED;
}

/* One column for each value: by our names in any order, or without names in the order of the fields. */
static int match_columns(struct cells *cells, const struct layout *layout, int by_name)
{
    size_t i;

    for (i = 0; i < layout->values; i++)
        cells->column_of[i] = cells->columns;
    for (i = 0; i < cells->columns; i++) {
        const char *name = i < cells->head.count ? cells->head.text[i] : "";
        size_t value = by_name ? name_index(&layout->names, name, strlen(name)) : i;

        if (value >= layout->values)
            return no_column(cells, i, by_name ? "no field has this name" : "the layout has no field for it");
        if (cells->column_of[value] != cells->columns)
            return no_column(cells, i, "another column has the same name");
        cells->column_of[value] = i;
        cells->field_of[i] = value;
    }
    return DONE;
}

static int missing_columns(struct cells *cells, const struct layout *layout, int by_name)
{
    struct text without = {0};
    size_t i, count = 0;

    for (i = 0; i < layout->values; i++)
        if (cells->column_of[i] == cells->columns) {
            text_string(&without, count++ > 0 ? ", " : "");
            text_name(&without, &layout->names, i);
        }
    if (count > 0 && by_name)
        complain("note: %s: there is no column for %.*s: not marked in every row", cells_source(cells),
                 (int)without.length, without.bytes);
    else if (count > 0)
        complain("%s: it has %lu column%s, and the layout %lu values", cells_source(cells),
                 (unsigned long)cells->columns, cells->columns == 1 ? "" : "s", (unsigned long)layout->values);
    if (count > 0 && !by_name) {
        advise_separator(cells);
        advise("Give the names of the fields (--names, --layout): then a column may be missing.");
    }
    text_free(&without);
    return count > 0 && !by_name ? REFUSED : DONE;
}

/* The first row is the head. */
static int take_head(struct cells *cells)
{
    enum row_found found = csv_next(cells);
    size_t i;

    if (found == ROW_END)
        complain("%s: it is empty, and a table has a head of names", cells_source(cells));
    if (found != ROW_TAKEN)
        return cells->source.failed ? TROUBLE : REFUSED;
    if (cells->count > CURLEW_MAX_SLOTS) {
        complain("%s: it has %lu columns, and a table has at most %d", cells_source(cells), (unsigned long)cells->count,
                 CURLEW_MAX_SLOTS);
        return REFUSED;
    }
    for (i = 0; i < cells->count; i++) {
        const struct cell_in *cell = &cells->cells[i];
        const char *bytes = cell_bytes(cells, cell);
        size_t quote = guard_of(cells, bytes, cell->length);

        if (cell->length == 0 || memchr(bytes, '\0', cell->length) != NULL) {
            complain("%s: column %lu has no name in the head", cells_source(cells), (unsigned long)i);
            advise("The first row of a table names its columns; --no-head takes a table without one.");
            return REFUSED;
        }
        names_add(&cells->head, bytes + quote, cell->length - quote);
    }
    cells->columns = cells->count;
    return DONE;
}

static void use_names(struct names *to, const struct names *from)
{
    size_t i;

    for (i = 0; i < from->count; i++)
        names_add(to, from->text[i], strlen(from->text[i]));
}

/* JSON names its values in every row; the first one tells them where nobody else did. */
static int take_first(struct cells *cells, const struct layout *layout)
{
    enum row_found found;

    if (layout->names.count > 0) {
        use_names(&cells->head, &layout->names);
        cells->columns = cells->head.count;
        return DONE;
    }
    found = json_next(cells);
    cells->pending = found == ROW_TAKEN;
    if (found == ROW_END) {
        complain("%s: there is no row, and so no names", cells_source(cells));
        return REFUSED;
    }
    return found == ROW_TAKEN ? DONE : cells->source.failed ? TROUBLE : REFUSED;
}

static int find_columns(struct cells *cells, struct layout *layout, int head)
{
    int by_name = layout->names.count > 0 && head;
    int status = DONE;

    if (cells->form == JSON) {
        no_name_in_hex(&layout->names);
        status = take_first(cells, layout);
    } else if (head) {
        status = take_head(cells);
    } else {
        cells->columns = layout->values;
    }
    cells->headed = 1;
    if (!head && cells->form != JSON)
        use_names(&cells->head, &layout->names);
    if (status == DONE)
        status = match_columns(cells, layout, by_name);
    if (status == DONE)
        status = missing_columns(cells, layout, by_name);
    if (status == DONE && layout->names.count == 0)
        use_names(&layout->names, &cells->head);
    return status;
}

/* Texts in UTF-8 may begin with its mark; text in UTF-16 is no table of bytes. */
static int take_mark(struct cells *cells)
{
    struct source *source = &cells->source;

    source->failed = !input_read(&source->input, source->buffer, 3, &source->end);
    if (source->failed)
        return TROUBLE;
    if (source->end == 3 && memcmp(source->buffer, "\xef\xbb\xbf", 3) == 0)
        source->at = 3;
    if (source->end >= 2 &&
        (memcmp(source->buffer, "\xff\xfe", 2) == 0 || memcmp(source->buffer, "\xfe\xff", 2) == 0)) {
        complain("%s: this is text in UTF-16", cells_source(cells));
        advise("Save it in UTF-8.");
        return REFUSED;
    }
    return DONE;
}

int cells_open(struct cells *cells, const struct options *options, enum form form, const char *name,
               struct layout *layout)
{
    int status;

    memset(cells, 0, sizeof *cells);
    cells->form = form;
    cells->for_spreadsheet = has(options, OPTION_FOR_SPREADSHEET);
    cells->next_line = 1;
    if (!source_open(&cells->source, name))
        return TROUBLE;
    status = take_mark(cells);
    if (status == DONE)
        status = find_columns(cells, layout, !has(options, OPTION_NO_HEAD));
    return status;
}

/* ---- rows ---- */

static enum row_found suits_head(struct cells *cells)
{
    size_t i;

    if (cells->form != JSON && cells->count != cells->columns) {
        complain("%s: it has %lu cell%s, and the table %lu column%s", cells_where(cells, cells->columns),
                 (unsigned long)cells->count, cells->count == 1 ? "" : "s", (unsigned long)cells->columns,
                 cells->columns == 1 ? "" : "s");
        return ROW_BAD;
    }
    for (i = 0; cells->form == JSON && i < cells->columns; i++)
        if (cells->cells[i].form == CELL_MISSING) {
            complain("%s: it is not there", cells_where(cells, i));
            advise("Write null for a value that is not marked.");
            return ROW_BAD;
        }
    return ROW_TAKEN;
}

/* Blank lines at the end of a table mean nothing; between its rows they could be a row that was lost. */
static enum row_found next_that_is_none_blank(struct cells *cells)
{
    uint64_t blank = 0;
    enum row_found found = csv_next(cells);

    while (found == ROW_TAKEN && cells->columns > 1 && cells->count == 1 && cells->cells[0].form == CELL_NONE) {
        blank = blank > 0 ? blank : cells->line;
        found = csv_next(cells);
    }
    if (found == ROW_TAKEN && blank > 0) {
        complain("%s, line %llu: this line is blank, and rows follow it", cells_source(cells),
                 (unsigned long long)blank);
        advise("Take it out, or fill it in.");
        return ROW_LOST;
    }
    return found;
}

enum row_found cells_next(struct cells *cells)
{
    enum row_found found = ROW_TAKEN;

    cells->row = cells->rows;
    if (!cells->pending)
        found = cells->form == JSON ? json_next(cells) : next_that_is_none_blank(cells);
    cells->pending = 0;
    cells->rows += found == ROW_TAKEN || found == ROW_BAD;
    return found == ROW_TAKEN ? suits_head(cells) : found;
}

static int put_cell(struct cells *cells, const struct field *field, const struct cell_in *cell, struct values *values,
                    struct fault *fault)
{
    const char *bytes = cell_bytes(cells, cell);
    int text = field_value(field) == CHARACTERS || field_value(field) == DIGITS;
    size_t guard = text ? guard_of(cells, bytes, cell->length) : 0;

    if (cell->form == CELL_NONE) {
        value_unset(values);
        return 1;
    }
    if (text && cell->form == CELL_NUMBERS) {
        *fault = (struct fault){(const uint8_t *)bytes, cell->length, "is a number, and a text is wanted",
                                "Put it in quotes."};
        return 0;
    }
    if (!text && cell->length > 0 && memchr(bytes, ',', cell->length) != NULL) {
        *fault = (struct fault){(const uint8_t *)bytes, cell->length, "has a comma, and numbers in a cell have none",
                                "Write a list with spaces, as in 61 0 88, and a real with a point."};
        return 0;
    }
    return value_put(values, field, (const uint8_t *)bytes + guard, cell->length - guard, fault);
}

int cells_values(struct cells *cells, const struct layout *layout, struct values *values)
{
    size_t i;

    values_clear(values, 0);
    for (i = 0; i < layout->values; i++) {
        size_t column = cells->column_of[i];
        struct fault fault;

        if (column == cells->columns) {
            value_unset(values);
        } else if (!put_cell(cells, &layout->value_fields[i], &cells->cells[column], values, &fault)) {
            struct text shown = {0};

            text_fault(&shown, &fault);
            complain("%s: %.*s", cells_where(cells, column), (int)shown.length, shown.bytes);
            advise("%s", fault.advice);
            text_free(&shown);
            return 0;
        }
    }
    return 1;
}

int cells_failed(const struct cells *cells)
{
    return cells->source.failed;
}

void cells_close(struct cells *cells)
{
    source_close(&cells->source);
    names_free(&cells->head);
    text_free(&cells->bytes);
    text_free(&cells->where);
    free(cells->cells);
}
