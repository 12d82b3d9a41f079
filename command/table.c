/* Rows in columns: lined up for people, or a line a row with tabs between the cells. */
#include <stdlib.h>
#include <string.h>

#include "tool.h"

void table_start(struct table *table, const struct column *columns, size_t width)
{
    memset(table, 0, sizeof *table);
    table->columns = columns;
    table->width = width;
}

void table_close(struct table *table, enum ink ink)
{
    if (table->count == table->room) {
        size_t room = 2 * table->room + 64;
        struct cell *cells = get_memory(room * sizeof *cells);

        if (table->count > 0)
            memcpy(cells, table->cells, table->count * sizeof *cells);
        free(table->cells);
        table->cells = cells;
        table->room = room;
    }
    table->cells[table->count].end = table->text.length;
    table->cells[table->count].ink = ink;
    table->count++;
}

void table_word(struct table *table, const char *word, enum ink ink)
{
    text_string(&table->text, word);
    table_close(table, ink);
}

void table_number(struct table *table, uint64_t number)
{
    text_unsigned(&table->text, number);
    table_close(table, PLAIN);
}

static const char *cell_text(const struct table *table, size_t index, size_t *length)
{
    size_t start = index == 0 ? 0 : table->cells[index - 1].end;

    *length = table->cells[index].end - start;
    return table->text.bytes + start;
}

static size_t column_width(const struct table *table, size_t column)
{
    size_t widest = strlen(table->columns[column].head);
    size_t i;

    for (i = column; i < table->count; i += table->width) {
        size_t length;
        const char *text = cell_text(table, i, &length);
        size_t columns = text_columns(text, length);

        if (columns > widest)
            widest = columns;
    }
    return widest;
}

/* The last column ends its line where its text ends. */
static void add_cell(const struct table *table, size_t column, const char *bytes, size_t length, enum ink ink,
                     size_t width, struct text *out)
{
    size_t gap = width - text_columns(bytes, length);
    int last = column + 1 == table->width;

    if (table->columns[column].right)
        text_spaces(out, gap);
    ink_on(out, ink);
    text_add(out, bytes, length);
    ink_off(out, ink);
    if (!table->columns[column].right && !last)
        text_spaces(out, gap);
    text_string(out, last ? "\n" : "  ");
}

static void lined_up(struct table *table, int head, struct text *out)
{
    size_t widths[16];
    size_t i;

    for (i = 0; i < table->width; i++)
        widths[i] = column_width(table, i);
    for (i = 0; head && i < table->width; i++)
        add_cell(table, i, table->columns[i].head, strlen(table->columns[i].head), HEAD, widths[i], out);
    for (i = 0; i < table->count; i++) {
        size_t length;
        const char *text = cell_text(table, i, &length);

        add_cell(table, i % table->width, text, length, table->cells[i].ink, widths[i % table->width], out);
    }
}

/* With commas a value that is not marked is an empty cell; an empty text has quotes. */
static void in_lines(struct table *table, enum form form, int head, struct text *out)
{
    char between = form == CSV ? ',' : '\t';
    size_t i;

    for (i = 0; head && i < table->width; i++) {
        text_string(out, table->columns[i].head);
        text_char(out, i + 1 == table->width ? '\n' : between);
    }
    for (i = 0; i < table->count; i++) {
        size_t length;
        const char *text = cell_text(table, i, &length);

        if (form == TSV)
            text_add(out, text, length);
        else if (table->cells[i].ink != MISSING)
            csv_cell(out, text, length, 0);
        text_char(out, (i + 1) % table->width == 0 ? '\n' : between);
    }
}

void table_print(struct table *table, enum form form, int head, struct text *out)
{
    if (form == TSV || form == CSV)
        in_lines(table, form, head, out);
    else
        lined_up(table, head, out);
    table->count = 0;
    table->text.length = 0;
}

void table_free(struct table *table)
{
    text_free(&table->text);
    free(table->cells);
}
