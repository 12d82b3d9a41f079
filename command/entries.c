/* The entries of a sheet shown, a row each. */
#include <string.h>

#include "tool.h"

static const char *kind_word(uint32_t kind)
{
    static const char *const words[] = {"-", "text", "signed", "unsigned", "real"};

    return words[kind];
}

/* The columns that are wanted. Returns how many. */
static size_t choose_columns(const struct entries *entries, struct column *columns)
{
    static const struct column sheet = {"sheet", 1}, entry = {"entry", 1}, name = {"name", 0},
                               from = {"from the sheet", 0}, kind = {"kind", 0}, value = {"value", 0};
    size_t count = 0;

    if (entries->numbered)
        columns[count++] = sheet;
    columns[count++] = entry;
    if (entries->names != NULL && entries->names->count > 0)
        columns[count++] = name;
    if (entries->rescued)
        columns[count++] = from;
    columns[count++] = kind;
    columns[count++] = value;
    return count;
}

static void entry_row(const struct entries *entries, const struct values *values, size_t i, struct table *table)
{
    if (entries->numbered)
        table_number(table, entries->sheet);
    table_number(table, i);
    if (entries->names != NULL && entries->names->count > 0) {
        if (i < entries->names->count)
            text_message(&table->text, entries->names->text[i], strlen(entries->names->text[i]));
        else
            text_char(&table->text, '-');
        table_close(table, PLAIN);
    }
    if (entries->rescued)
        table_word(table, i < entries->kept ? "kept" : "lost", i < entries->kept ? PLAIN : DIFFERS);
    table_word(table, kind_word(curlew_get_slot(values->slots, i).kind), PLAIN);
    table_close(table, value_cell(&table->text, entries->form, values, i, NULL) ? PLAIN : MISSING);
}

void entry_rows(const struct entries *entries, const struct values *values, struct text *out)
{
    struct column columns[6];
    struct table table;
    size_t i;

    table_start(&table, columns, choose_columns(entries, columns));
    for (i = 0; i < values->count; i++)
        entry_row(entries, values, i, &table);
    table_print(&table, entries->form, entries->head, out);
    table_free(&table);
}

void entries_json(const struct entries *entries, const struct values *values, struct text *out)
{
    size_t i;

    json_key(out, "entries");
    text_char(out, '[');
    for (i = 0; i < values->count; i++) {
        uint32_t kind = curlew_get_slot(values->slots, i).kind;

        text_string(out, i > 0 ? ",{" : "{");
        json_number(out, "entry", i);
        if (entries->names != NULL && i < entries->names->count)
            json_named(out, "name", entries->names->text[i], strlen(entries->names->text[i]));
        if (entries->rescued) {
            json_key(out, "kept");
            text_string(out, i < entries->kept ? "true" : "false");
        }
        json_key(out, "kind");
        if (kind == CURLEW_UNSET)
            text_string(out, "null");
        else
            json_string(out, kind_word(kind), strlen(kind_word(kind)));
        value_json(out, values, i, NULL);
        text_char(out, '}');
    }
    text_char(out, ']');
}

size_t count_marked(const struct values *values)
{
    size_t marked = 0, i;

    for (i = 0; i < values->count; i++)
        marked += curlew_get_slot(values->slots, i).kind != CURLEW_UNSET;
    return marked;
}
