/* The layout that a command was given, on the command line or in a file, and the names of its values. */
#include <stdlib.h>
#include <string.h>

#include "tool.h"

/* ---- names ---- */

void names_add(struct names *names, const char *bytes, size_t length)
{
    char *name = get_memory(length + 1);

    memcpy(name, bytes, length);
    name[length] = '\0';
    names->text[names->count++] = name;
}

void names_free(struct names *names)
{
    while (names->count > 0)
        free(names->text[--names->count]);
}

size_t name_index(const struct names *names, const char *bytes, size_t length)
{
    size_t i = 0;

    while (i < names->count && (strlen(names->text[i]) != length || memcmp(names->text[i], bytes, length) != 0))
        i++;
    return i;
}

void text_name(struct text *to, const struct names *names, size_t index)
{
    if (index < names->count)
        text_string(to, names->text[index]);
    else
        text_format(to, "field%lu", (unsigned long)index);
}

/* The names of a list, number,name,written. Returns 0 after a complaint. */
static int names_split(struct names *names, const char *list)
{
    const char *at = list;

    for (;;) {
        size_t length = strcspn(at, ",");

        if (length == 0 || names->count == CURLEW_MAX_SLOTS) {
            complain("--names %s: %s", list,
                     length == 0 ? "a name has one letter at least" : "no table has more than 64 columns");
            return 0;
        }
        if (name_index(names, at, length) < names->count) {
            complain("--names %s: %.*s stands there twice", list, (int)length, at);
            return 0;
        }
        names_add(names, at, length);
        if (at[length] == '\0')
            return 1;
        at += length + 1;
    }
}

int names_given(struct names *names, const char *list, size_t wanted, const char *what)
{
    if (!names_split(names, list))
        return TROUBLE;
    if (names->count != wanted) {
        complain("--names %s: these are %lu names, and %s has %lu values", list, (unsigned long)names->count, what,
                 (unsigned long)wanted);
        advise("A name for each field that takes a value, in their order: curlew layout shows them.");
        return TROUBLE;
    }
    return DONE;
}

/* ---- layouts ---- */

static struct field field_of(struct curlew_field row)
{
    struct field field;

    field.start = row.place;
    field.length = row.length;
    field.type = (char)row.type;
    field.flag = row.flag == 1;
    field.form = row.count == CURLEW_NO_COUNT ? NO_COUNT : row.count == CURLEW_STAR ? STARRED : COUNTED;
    field.count = field.form == NO_COUNT ? 1 : field.form == STARRED ? 0 : row.count;
    field.position = row.position;
    field.bytes = row.bytes;
    return field;
}

static void take_fields(struct layout *layout, const uint8_t *rows, size_t count)
{
    layout->values = 0;
    layout->starred = 0;
    for (layout->count = 0; layout->count < count; layout->count++) {
        struct field *field = &layout->fields[layout->count];

        *field = field_of(curlew_get_field(rows, layout->count));
        if (field_value(field) != MOVE)
            layout->value_fields[layout->values++] = *field;
        layout->starred |= field->form == STARRED && (field_value(field) != MOVE || field->type == 'x');
    }
}

static int fields_taken(struct layout *layout, const char *name, enum purpose purpose)
{
    static uint8_t rows[CURLEW_MAX_LAYOUT * CURLEW_FIELD_SIZE];
    struct curlew_answer described = call_layout(layout->text, layout->length);
    struct curlew_answer answer = call_fields(layout->text, layout->length, rows);

    layout->least = described.number == CURLEW_OK ? described.second : 0;
    if (purpose != TO_READ && described.number != CURLEW_OK)
        answer = described;
    if (answer.number != CURLEW_OK) {
        refuse_layout(layout, name, answer);
        return REFUSED;
    }
    take_fields(layout, rows, answer.first);
    if (layout->values > CURLEW_MAX_SLOTS && purpose != TO_SHOW) {
        complain("%s: it has %lu values, and a table takes at most %d (number %d)", name, (unsigned long)layout->values,
                 CURLEW_MAX_SLOTS, CURLEW_BAD_SLOTS);
        advise("Put marks of one kind together, as in Su5.");
        return REFUSED;
    }
    return DONE;
}

int layout_given(struct layout *layout, const char *name, const char *text, enum purpose purpose)
{
    memset(layout, 0, sizeof *layout);
    layout->text = text;
    layout->length = strlen(text);
    return fields_taken(layout, name, purpose);
}

void layout_begin(struct layout *begin, const struct layout *layout, size_t values)
{
    *begin = *layout;
    begin->values = values;
    begin->length = layout->value_fields[values].start;
    while (begin->count > 0 && begin->fields[begin->count - 1].start >= begin->length)
        begin->count--;
    begin->least = call_layout(begin->text, begin->length).second;
}

/* ---- a layout in a file: a line a field, with its name before it ---- */

#define LONGEST_FILE 65536

static int is_blank(char c)
{
    return c == ' ' || c == '\t' || c == '\r';
}

static int bad_line(const char *file, size_t line, const char *what, const char *advice)
{
    complain("%s, line %lu: %s", file, (unsigned long)line, what);
    advise("%s", advice);
    return REFUSED;
}

/* Whether the word is a field without a value: x, X and @ need no name. */
static int moves(const char *word, size_t length)
{
    return length > 0 && strchr("xX@", word[0]) != NULL;
}

/* The last word of a line is the field, and what stands before it its name. */
static int take_line(struct layout *layout, const char *line, size_t length, size_t number, size_t *fields)
{
    static const char form[] = "A line is a name and a field, as in: written Su";
    const char *word;
    size_t name;

    if (length == 0)
        return DONE;
    for (word = line + length; word > line && !is_blank(word[-1]);)
        word--;
    for (name = (size_t)(word - line); name > 0 && is_blank(line[name - 1]);)
        name--;
    if (*fields == CURLEW_MAX_LAYOUT)
        return bad_line(layout->file_name, number, "a layout has at most 256 bytes, and this is more", form);
    if (name == 0 && !moves(word, length))
        return bad_line(layout->file_name, number, "there is no name before the field, or no field after the name",
                        form);
    if (name > 0 && moves(word, length - (size_t)(word - line)))
        return bad_line(layout->file_name, number, "x, X and @ hold no value, and have no name", "Leave the name out.");
    if (name > 0 && name_index(&layout->names, line, name) < layout->names.count)
        return bad_line(layout->file_name, number, "an earlier field has this name",
                        "Each field has a name of its own.");
    if (name > 0)
        names_add(&layout->names, line, name);
    if (layout->file.length > 0)
        text_char(&layout->file, ' ');
    layout->lines[(*fields)++] = number;
    text_add(&layout->file, word, length - (size_t)(word - line));
    return DONE;
}

static int take_lines(struct layout *layout, const char *bytes, size_t length)
{
    size_t at = 0, number = 1, fields = 0;
    int status = DONE;

    while (at < length && status == DONE) {
        const char *end = memchr(bytes + at, '\n', length - at);
        size_t size = end != NULL ? (size_t)(end - bytes) - at : length - at;
        const char *line = bytes + at;
        const char *comment = memchr(line, '#', size);
        size_t used = comment != NULL ? (size_t)(comment - line) : size;

        at += size + 1;
        while (used > 0 && is_blank(line[used - 1]))
            used--;
        while (used > 0 && is_blank(line[0])) {
            line++;
            used--;
        }
        status = take_line(layout, line, used, number++, &fields);
    }
    return status;
}

/* A line is one field: else the names would go to other fields than those they stand before. */
static int one_field_a_line(const struct layout *layout)
{
    size_t i, words = 0;

    for (i = 0; i < layout->length; i++)
        words += i == 0 || layout->text[i - 1] == ' ';
    for (i = 0; i < layout->count; i++)
        if (words != layout->count && layout->fields[i].start > 0 && layout->text[layout->fields[i].start - 1] != ' ') {
            size_t line, k;

            for (line = 0, k = 0; k < layout->fields[i].start; k++)
                line += layout->text[k] == ' ';
            return bad_line(layout->file_name, layout->lines[line], "there is more than one field",
                            "Give each field a line and a name.");
        }
    return DONE;
}

static int layout_from_file(struct layout *layout, const char *name, enum purpose purpose)
{
    char *bytes = get_memory(LONGEST_FILE + 1);
    size_t length;
    int status = input_all(name, (uint8_t *)bytes, LONGEST_FILE, "a layout's file", &length);

    memset(layout, 0, sizeof *layout);
    layout->file_name = name;
    if (status == DONE)
        status = take_lines(layout, bytes, length);
    free(bytes);
    if (status != DONE)
        return status;
    text_char(&layout->file, '\0');
    layout->text = layout->file.bytes;
    layout->length = layout->file.length - 1;
    status = fields_taken(layout, name, purpose);
    return status == DONE ? one_field_a_line(layout) : status;
}

int layout_take(struct layout *layout, struct options *options, enum purpose purpose)
{
    int status;

    if (has(options, OPTION_LAYOUT)) {
        if (has(options, OPTION_NAMES))
            return bad_use(options, "--names and --layout both give names", "");
        return layout_from_file(layout, options->layout_file, purpose);
    }
    if (options->count == 0)
        return bad_use(options, "too little was given", "");
    status = layout_given(layout, "layout", options->operands[0], purpose);
    options->operands++;
    options->count--;
    options->closed -= options->closed > 0;
    if (status == DONE && has(options, OPTION_NAMES))
        status = names_given(&layout->names, options->names, layout->values, "the layout");
    return status;
}

/* Sheets have no layout: only the names of one are of use. */
int names_from_options(struct names *names, struct options *options)
{
    static struct layout layout;
    int status = DONE;

    memset(names, 0, sizeof *names);
    if (has(options, OPTION_LAYOUT)) {
        status = layout_take(&layout, options, TO_READ);
        *names = layout.names;
        text_free(&layout.file);
    } else if (has(options, OPTION_NAMES)) {
        status = names_split(names, options->names) ? DONE : TROUBLE;
    }
    return status;
}

void layout_free(struct layout *layout)
{
    names_free(&layout->names);
    text_free(&layout->file);
}
