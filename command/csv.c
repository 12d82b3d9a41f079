/*
 * A row of a table with commas (RFC 4180) or tabs taken apart. With commas a cell may stand in quotes, with commas,
 * line ends and doubled quotes in it; with tabs a backslash tells of what cannot stand there (\\\\ \\t \\n \\r \\xNN).
 * A line ends in LF or CRLF. What could be read in two ways is refused.
 */
#include <string.h>

#include "tool.h"

#define LONGEST_ROW (4 * (size_t)CURLEW_MAX_AREA)
#define MOST_COLUMNS 4096

static int stops(const struct cells *cells, uint8_t c)
{
    if (c > '\\')
        return 0;
    return c == '\n' || c == '\r' || (cells->form == CSV ? c == ',' || c == '"' : c == '\t' || c == '\\');
}

/* Takes the bytes up to one that means something. */
static void take_run(struct cells *cells)
{
    struct source *source = &cells->source;

    while (source_peek(source) != -1) {
        size_t from = source->at, at = from;

        while (at < source->end && !stops(cells, source->buffer[at]))
            at++;
        text_add(&cells->bytes, source->buffer + from, at - from);
        source->at = at;
        if (at < source->end || cells->bytes.length > LONGEST_ROW)
            return;
    }
}

/* Inside quotes: takes the bytes up to the next quote. Returns 0 where there is none. */
static int take_quoted_run(struct cells *cells)
{
    struct source *source = &cells->source;

    while (source_peek(source) != -1 && cells->bytes.length <= LONGEST_ROW) {
        const uint8_t *from = source->buffer + source->at;
        size_t length = source->end - source->at, i;
        const uint8_t *quote = memchr(from, '"', length);

        length = quote != NULL ? (size_t)(quote - from) : length;
        for (i = 0; i < length; i++)
            cells->next_line += from[i] == '\n';
        text_add(&cells->bytes, from, length);
        source->at += length;
        if (quote != NULL) {
            source->at++;
            return 1;
        }
    }
    return 0;
}

static enum row_found take_quoted(struct cells *cells, struct cell_in *cell)
{
    cell->form = CELL_QUOTED;
    cells->source.at++;
    for (;;) {
        if (!take_quoted_run(cells))
            return cells_lost(cells, "a quote has no second one that ends it, or the row is longer than any",
                              "A cell in quotes ends with a quote; a quote inside it is doubled.");
        if (source_peek(&cells->source) != '"')
            return ROW_TAKEN;
        text_char(&cells->bytes, '"');
        cells->source.at++;
    }
}

static int hex_digit(int c)
{
    static const char digits[] = "0123456789abcdefABCDEF";
    const char *at = c > 0 ? strchr(digits, c) : NULL;
    size_t place = at != NULL ? (size_t)(at - digits) : 99;

    return at == NULL ? -1 : (int)(place < 16 ? place : place - 6);
}

/* What a backslash tells of; -1 where it is nothing that is known. */
static int escaped_byte(struct cells *cells)
{
    struct source *source = &cells->source;
    int c = source_peek(source), high, low;

    source->at += c != -1;
    switch (c) {
    case '\\': return c;
    case 't': return '\t';
    case 'n': return '\n';
    case 'r': return '\r';
    case 'x': break;
    default: return -1;
    }
    high = hex_digit(source_peek(source));
    source->at += high != -1;
    low = hex_digit(source_peek(source));
    source->at += low != -1;
    return high == -1 || low == -1 ? -1 : 16 * high + low;
}

/* With tabs: "" is the empty text, and another quote in front may be a spreadsheet's or the text's own. */
static enum row_found quote_in_front(struct cells *cells, struct cell_in *cell)
{
    if (cells->bytes.length - cell->start == 2 && memcmp(cells->bytes.bytes + cell->start, "\"\"", 2) == 0) {
        cell->form = CELL_QUOTED;
        cells->bytes.length = cell->start;
        return ROW_TAKEN;
    }
    return cells_lost(
        cells, "a cell begins with a quote, and with tabs quotes mean nothing",
        "Where a spreadsheet put it there, save the table with commas; a quote of the text itself is \\x22.");
}

static enum row_found take_plain(struct cells *cells, struct cell_in *cell)
{
    int quote = cells->form == TSV && source_peek(&cells->source) == '"';
    int escaped = 0;

    cell->form = CELL_TEXT;
    take_run(cells);
    while (source_peek(&cells->source) == '\\' && cells->form == TSV) {
        cells->source.at++;
        escaped = escaped_byte(cells);
        if (escaped == -1)
            return cells_lost(cells, "a backslash stands before something that it does not tell of",
                              "A backslash is written \\\\.");
        text_char(&cells->bytes, (char)escaped);
        take_run(cells);
    }
    if (source_peek(&cells->source) == '"')
        return cells_lost(cells, "a quote stands inside a cell that does not begin with one",
                          "Put the whole cell in quotes, and double the quote inside it.");
    if (cells->bytes.length > LONGEST_ROW)
        return cells_lost(cells, "the row is longer than any", "A row has at most 2,097,152 bytes.");
    if (quote)
        return quote_in_front(cells, cell);
    if (cells->bytes.length == cell->start)
        cell->form = CELL_NONE;
    return ROW_TAKEN;
}

/* What stands after a cell: 1 where another follows, 0 at the end of the row, -1 where neither can be. */
static int take_end(struct cells *cells)
{
    struct source *source = &cells->source;
    int c = source_peek(source);

    source->at += c != -1;
    if (c == (cells->form == CSV ? ',' : '\t'))
        return 1;
    if (c == '\r') {
        c = source_peek(source);
        source->at += c == '\n';
        if (c != '\n')
            return -1;
    }
    cells->next_line += c == '\n';
    return c == '\n' || c == -1 ? 0 : -1;
}

enum row_found csv_next(struct cells *cells)
{
    enum row_found found = ROW_TAKEN;
    int more = 1;

    cells->line = cells->next_line;
    cells->count = 0;
    cells->bytes.length = 0;
    if (source_peek(&cells->source) == -1)
        return cells->source.failed ? ROW_LOST : ROW_END;
    while (more == 1 && found == ROW_TAKEN) {
        struct cell_in *cell = cells_new(cells);

        cell->start = cells->bytes.length;
        if (cells->form == CSV && source_peek(&cells->source) == '"')
            found = take_quoted(cells, cell);
        else
            found = take_plain(cells, cell);
        cell->length = cells->bytes.length - cell->start;
        more = found == ROW_TAKEN ? take_end(cells) : 0;
        if (cells->count > MOST_COLUMNS)
            return cells_lost(cells, "the row has more cells than any", "A table has at most 64 columns.");
    }
    if (cells->source.failed)
        return ROW_LOST;
    if (more == -1)
        return cells_lost(cells, "something stands after a closing quote, or a carriage return ends no line",
                          "Double a quote that stands inside a cell; a line ends in LF or CRLF.");
    return found;
}
