/* curlew show --html: one page by itself. What belongs together lights up by its style sheet alone; nothing is loaded,
 * and no script runs. */
#include <string.h>

#include "tool.h"

static void html(struct text *out, const char *bytes, size_t length)
{
    size_t i;

    for (i = 0; i < length; i++)
        switch (bytes[i]) {
        case '<': text_string(out, "&lt;"); break;
        case '>': text_string(out, "&gt;"); break;
        case '&': text_string(out, "&amp;"); break;
        case '"': text_string(out, "&quot;"); break;
        default: text_char(out, bytes[i]);
        }
}

/* A text that may hold any bytes. */
static void html_message(struct text *out, const char *bytes, size_t length)
{
    struct text shown = {0};

    text_message(&shown, bytes, length);
    html(out, shown.bytes, shown.length);
    text_free(&shown);
}

static void style(const struct showing *showing, struct text *out)
{
    size_t i;

    text_string(out, "<style>\n"
                     "body{font:15px/1.5 system-ui,sans-serif;margin:2em;color:#222;background:#fff}\n"
                     "main{display:flex;flex-wrap:wrap;gap:2em;align-items:flex-start}\n"
                     "table{border-collapse:collapse}td,th{padding:.1em .6em;text-align:left;vertical-align:top}\n"
                     ".bytes td{font-family:ui-monospace,monospace;padding:.1em .25em}.place{color:#888}\n"
                     ".none{color:#999}.differs{outline:2px solid #c00}b{color:#c00}.end{color:#c00;font-weight:bold}\n"
                     ".missing{color:#a60;font-style:italic}.fields td,.fields th{border-bottom:1px solid #ddd}\n");
    for (i = 0; i < showing->layout->values; i++)
        text_format(out,
                    ".f%lu{background:hsl(%lu 70%% 90%%)}main:has(.f%lu:hover) .f%lu{background:hsl(%lu 80%% 65%%)}\n",
                    (unsigned long)i, (unsigned long)(i * 137 % 360), (unsigned long)i, (unsigned long)i,
                    (unsigned long)(i * 137 % 360));
    text_string(out, "</style>\n");
}

static void cell_class(struct text *out, const struct showing *showing, const struct shown_record *record, size_t place)
{
    if (record->owner[place] == NO_FIELD)
        text_string(out, "<td class=\"none");
    else
        text_format(out, "<td class=\"f%lu", (unsigned long)record->owner[place]);
    text_string(out, byte_differs(showing, place) ? " differs\"" : "\"");
}

/* What a browser tells of a byte: its place, its field, and in copies that differ the bits. */
static void cell_title(struct text *out, const struct showing *showing, const struct shown_record *record, size_t place)
{
    struct text title = {0};
    int bit;

    text_format(&title, "byte %lu", (unsigned long)place);
    if (record->owner[place] != NO_FIELD) {
        text_string(&title, ", ");
        text_field(&title, showing->layout, record->owner[place]);
    }
    if (byte_differs(showing, place) && place < showing->records[0].length && place < showing->records[1].length) {
        text_string(&title, ", bits that differ: ");
        for (bit = 7; bit >= 0; bit--)
            text_char(&title,
                      (showing->records[0].bytes[place] ^ showing->records[1].bytes[place]) >> bit & 1 ? '1' : '0');
    }
    text_string(out, " title=\"");
    html_message(out, title.bytes, title.length);
    text_string(out, "\">");
    text_free(&title);
}

static void byte_cells(struct text *out, const struct showing *showing, const struct shown_record *record, size_t from,
                       int as_text)
{
    size_t i;

    for (i = from; i < from + 16; i++) {
        char c;

        if (i >= record->length) {
            text_string(out, i == record->length && !as_text && record->set < showing->layout->values
                                 ? "<td class=\"end\">|</td>"
                                 : "<td></td>");
            continue;
        }
        cell_class(out, showing, record, i);
        cell_title(out, showing, record, i);
        c = record->bytes[i] >= 32 && record->bytes[i] < 127 ? (char)record->bytes[i] : '.';
        if (as_text)
            html(out, &c, 1);
        else
            text_hex(out, record->bytes + i, 1);
        text_string(out, "</td>");
    }
}

static void byte_table(struct text *out, const struct showing *showing, size_t which)
{
    const struct shown_record *record = &showing->records[which];
    size_t from;

    text_string(out, "<section>\n<h2>");
    html_message(out, record->name, strlen(record->name));
    text_format(out, "</h2>\n<table class=\"bytes\">\n");
    for (from = 0; from == 0 || from < record->length + (record->set < showing->layout->values); from += 16) {
        text_format(out, "<tr><td class=\"place\">%lu</td>", (unsigned long)from);
        byte_cells(out, showing, record, from, 0);
        text_string(out, "<td></td>");
        byte_cells(out, showing, record, from, 1);
        text_string(out, "</tr>\n");
    }
    text_string(out, "</table>\n</section>\n");
}

static void value_cells(struct text *out, const struct showing *showing, size_t index)
{
    size_t which;

    for (which = 0; which < showing->count; which++) {
        struct text value = {0};
        int marked =
            value_cell(&value, PEOPLE, &showing->records[which].values, index, &showing->layout->value_fields[index]);

        text_string(out, marked ? "<td>" : "<td class=\"missing\">");
        html(out, value.bytes, value.length);
        text_string(out, "</td>");
        text_free(&value);
    }
}

static void field_table(struct text *out, const struct showing *showing)
{
    size_t i, which;

    text_string(out, "<section>\n<h2>Fields</h2>\n<table class=\"fields\">\n<tr><th>field</th><th>byte</th>");
    for (which = 0; which < showing->count; which++)
        text_string(out, showing->count == 1 ? "<th>value</th>"
                         : which == 0        ? "<th>first copy</th>"
                                             : "<th>second copy</th>");
    text_string(out, "</tr>\n");
    for (i = 0; i < showing->layout->values; i++) {
        struct curlew_slot slot =
            curlew_get_slot(showing->records[i < showing->records[0].set ? 0 : showing->count - 1].values.slots, i);
        struct text name = {0};

        text_field(&name, showing->layout, i);
        text_format(out, "<tr class=\"f%lu\"><td>", (unsigned long)i);
        html_message(out, name.bytes, name.length);
        text_free(&name);
        if (slot.kind == CURLEW_UNSET)
            text_string(out, "</td><td>-</td>");
        else
            text_format(out, "</td><td>%lu</td>", (unsigned long)slot.position);
        value_cells(out, showing, i);
        text_string(out, "</tr>\n");
    }
    text_string(out, "</table>\n</section>\n");
}

/* The bits of a byte, those that differ marked. */
static void bit_cells(struct text *out, const struct showing *showing, size_t which, size_t place)
{
    const struct shown_record *record = &showing->records[which], *other = &showing->records[1 - which];
    int bit;

    text_string(out, "<td>");
    for (bit = 7; bit >= 0 && place < record->length; bit--) {
        int one = record->bytes[place] >> bit & 1;
        int differs = place >= other->length || one != (other->bytes[place] >> bit & 1);

        text_format(out, differs ? "<b>%d</b>" : "%d", one);
    }
    text_string(out, place < record->length ? "</td>" : "not there</td>");
}

static void bit_table(struct text *out, const struct showing *showing)
{
    size_t i;

    text_string(out, "<section>\n<h2>Bits that differ</h2>\n<table class=\"bytes\">\n"
                     "<tr><th>byte</th><th>first copy</th><th>second copy</th></tr>\n");
    for (i = 0; i < showing->records[0].length || i < showing->records[1].length; i++)
        if (byte_differs(showing, i)) {
            size_t owner = i < showing->records[0].length ? showing->records[0].owner[i] : showing->records[1].owner[i];

            if (owner == NO_FIELD)
                text_string(out, "<tr class=\"none\">");
            else
                text_format(out, "<tr class=\"f%lu\">", (unsigned long)owner);
            text_format(out, "<td>%lu</td>", (unsigned long)i);
            bit_cells(out, showing, 0, i);
            bit_cells(out, showing, 1, i);
            text_string(out, "</tr>\n");
        }
    text_string(out, "</table>\n</section>\n");
}

void show_html(const struct showing *showing, struct text *out)
{
    size_t which;

    text_string(out, "<!DOCTYPE html>\n<html lang=\"en\">\n<head>\n<meta charset=\"utf-8\">\n<title>");
    html_message(out, showing->records[0].name, strlen(showing->records[0].name));
    text_string(out, "</title>\n");
    style(showing, out);
    text_string(out, "</head>\n<body>\n<p>");
    html(out, showing->layout->text, showing->layout->length);
    text_string(out, "</p>\n<main>\n");
    for (which = 0; which < showing->count; which++)
        byte_table(out, showing, which);
    field_table(out, showing);
    if (showing->count == 2)
        bit_table(out, showing);
    text_string(out, "</main>\n</body>\n</html>\n");
}
