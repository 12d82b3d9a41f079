/*
 * What the files of the command `curlew` share. Each section is one file; command/library.c alone calls the library.
 *
 * Exit status: 0 done, 1 differences or a refusal, 2 bad use or a file that cannot be read or written.
 */
#ifndef TOOL_H
#define TOOL_H

#include <stddef.h>
#include <stdint.h>
#include <string.h>

#include "curlew.h"

#define DONE 0
#define REFUSED 1
#define TROUBLE 2

/* ---- text.c: text that grows ---- */

struct text {
    char *bytes;
    size_t length;
    size_t room;
};

void text_grow(struct text *text, size_t more);

/* Where the next `more` bytes may be put; the length stays. */
static inline char *text_room(struct text *text, size_t more)
{
    if (text->room - text->length < more)
        text_grow(text, more);
    return text->bytes + text->length;
}

static inline void text_add(struct text *text, const void *bytes, size_t length)
{
    if (length > 0) {
        memcpy(text_room(text, length), bytes, length);
        text->length += length;
    }
}

static inline void text_char(struct text *text, char c)
{
    *text_room(text, 1) = c;
    text->length++;
}

void text_string(struct text *text, const char *string);
void text_spaces(struct text *text, size_t count);
void text_unsigned(struct text *text, uint64_t number);
void text_signed(struct text *text, int64_t number);
void text_grouped(struct text *text, uint64_t number); /* 32,768 */
void text_count(struct text *text, uint64_t number, const char *one, const char *more); /* 1 byte, 2 bytes */
void text_real(struct text *text, double value); /* the shortest text that reads back as the same double */
void text_hex(struct text *text, const uint8_t *bytes, size_t length);
void text_quoted(struct text *text, const uint8_t *bytes, size_t length); /* for people, in double quotes */
void text_escaped(struct text *text, const uint8_t *bytes, size_t length); /* for a cell of tab-separated text */
void text_message(struct text *text, const char *bytes,
                  size_t length); /* for a message: what steers a terminal as \\xNN */
void text_format(struct text *text, const char *format, ...);
void text_single(struct text *text, double value); /* the same for a single */
void text_json_real(struct text *text, double value); /* with a point or an exponent, so that it stays a real */
void text_free(struct text *text);
void *get_memory(size_t size);

/* ---- width.c: what a terminal shows ---- */

size_t text_columns(const char *bytes,
                    size_t length); /* how wide it shows: a wide character takes two, an accent none */
size_t text_fitting(const char *bytes, size_t length, size_t columns); /* the bytes of what fits that many columns */

/* ---- json.c ---- */

void json_string(struct text *text, const void *bytes, size_t length);
void json_key(struct text *text, const char *key);
/* "key":"the string", or "key_hex":"its bytes" where it is no UTF-8 */
void json_named(struct text *text, const char *key, const void *bytes, size_t length);
void json_number(struct text *text, const char *key, uint64_t number);

/* ---- say.c: messages and colours ---- */

enum ink { PLAIN, HEAD, MISSING, DIFFERS, GREY, INKS };

void streams_start(void);
void complain(const char *format, ...);
void advise(const char *format, ...); /* the line after a complaint: what to do */
void caret(const void *text, size_t length, size_t place);
/* the same two lines in a text, the first after `lead` and the second after as many spaces */
void text_caret(struct text *to, const char *lead, const void *text, size_t length, size_t place);
void progress_line(const char *text);
void progress_clear(void);
void ink_on(struct text *text, enum ink ink);
void ink_off(struct text *text, enum ink ink);
int errors_on_terminal(void);
int output_on_terminal(void);
int output_has_colours(void);

/* How far a long piece of work is: told on a terminal, once it has taken two seconds. */
struct progress {
    const char *what; /* records, rows, sheets */
    uint64_t done, bytes, all_bytes; /* all_bytes: 0 where nobody knows */
    int64_t began, drawn; /* milliseconds; began is 0 where no terminal looks on */
};

void progress_start(struct progress *progress, const char *what, uint64_t all_bytes);
void progress_step(struct progress *progress, uint64_t done, uint64_t bytes); /* done and bytes so far */

/* ---- input.c: files that are read ---- */

void file_complaint(const char *name, const char *advice); /* of errno */

struct input {
    const char *name;
    int file;
};

int input_open(struct input *input, const char *name); /* NULL and "-" are standard input; 0 after a complaint */
int input_read(struct input *input, uint8_t *to, size_t length, size_t *have); /* 0 after a complaint */
/* the same, but it returns once it has a multiple of `unit` and nothing more is there yet */
int input_some(struct input *input, uint8_t *to, size_t length, size_t unit, size_t *have);
int input_skip(struct input *input, uint64_t bytes); /* 0 after a complaint; the end of the file is none */
uint64_t input_size(const struct input *input); /* 0 where it cannot be told */
void input_close(struct input *input);
/*
 * Reads all of a file that may hold `limit` bytes into `to`, which has room for limit + 1. Returns DONE, or after a
 * complaint REFUSED where it holds more, TROUBLE where it cannot be read.
 */
int input_all(const char *name, uint8_t *to, size_t limit, const char *what, size_t *length);

/* A file read byte by byte. */
struct source {
    struct input input;
    uint8_t *buffer;
    size_t at, end;
    uint64_t taken; /* bytes before the buffer */
    int failed;
};

int source_open(struct source *source, const char *name); /* 0 after a complaint */
int source_fill(struct source *source); /* 0 at the end, or where it failed */
size_t source_take(struct source *source, uint8_t *to, size_t length); /* fewer only at the end, or where it failed */
void source_close(struct source *source);

/* Whether the next byte must be waited for: what was made so far is better shown before. */
static inline int source_waits(const struct source *source)
{
    return source->at == source->end;
}

/* The next byte, which stays; -1 at the end. */
static inline int source_peek(struct source *source)
{
    return source->at < source->end || source_fill(source) ? source->buffer[source->at] : -1;
}

/* ---- output.c: text and bytes that are written ---- */

void output_text(struct text *text); /* to standard output; the text is empty afterwards */
void output_aside(void); /* from now on text goes to standard error: bytes go to standard output */
void output_end(void);
void write_trouble(const char *name); /* complains of errno and exits */
void write_all(int file, const char *name, const void *bytes, size_t length);

/* ---- sink.c: files that are there whole or not at all ---- */

struct sink {
    const char *name; /* NULL is standard output */
    char *target; /* the file behind the links, */
    char *beside; /* and the one that takes its place */
    int file, in_place;
    struct text held;
};

void sink_open(struct sink *sink, const char *name); /* each exits after a complaint */
void sink_add(struct sink *sink, const void *bytes, size_t length);
void sink_keep(struct sink *sink); /* all of it is there now */
void sink_drop(struct sink *sink); /* nothing was written */

/* ---- options.c ---- */

enum form { PEOPLE, JSON, TSV, CSV };

enum option_bit {
    OPTION_JSON = 1 << 0,
    OPTION_TSV = 1 << 1,
    OPTION_CSV = 1 << 2,
    OPTION_LONG = 1 << 3,
    OPTION_OUTPUT = 1 << 4,
    OPTION_RECORDS = 1 << 5,
    OPTION_JOBS = 1 << 6,
    OPTION_RECORD = 1 << 7,
    OPTION_LEGS = 1 << 8,
    OPTION_HELP = 1 << 9,
    OPTION_VERSION = 1 << 10,
    OPTION_EXTENDS = 1 << 11,
    OPTION_NAMES = 1 << 12,
    OPTION_LAYOUT = 1 << 13,
    OPTION_FIELDS = 1 << 14,
    OPTION_STRICT = 1 << 15,
    OPTION_TEXT = 1 << 16,
    OPTION_KEEP_GOING = 1 << 17,
    OPTION_FOR_SPREADSHEET = 1 << 18,
    OPTION_FROM = 1 << 19,
    OPTION_COUNT = 1 << 20,
    OPTION_DIFFERENT = 1 << 21,
    OPTION_SHEETS = 1 << 22,
    OPTION_FILES_FROM = 1 << 23,
    OPTION_NO_HEAD = 1 << 24,
    OPTION_HTML = 1 << 25,
    OPTION_HEX = 1 << 26,
    OPTION_INPUT = 1 << 27
};

#define TABLE_FORMS ((unsigned)(OPTION_JSON | OPTION_TSV | OPTION_CSV))

struct options {
    unsigned given; /* option bits */
    enum form form;
    enum form input; /* --input */
    const char *output, *names, *layout_file, *fields, *legs, *files_from;
    size_t records; /* 0: the layout's own length */
    size_t jobs;
    uint64_t from, count_of; /* --from, --count */
    char **operands;
    size_t count;
    size_t closed; /* how many of the operands stand before -- */
    const struct command *command;
};

static inline int has(const struct options *options, unsigned bits)
{
    return (options->given & bits) != 0;
}

size_t number_between(const char *name, const char *text, size_t least, size_t most); /* or bad use */
const char *option_name(unsigned bits);
unsigned option_near(const char *word, const char **name); /* 0 where no option is near */
void options_read(struct options *options, int argc, char **argv);
size_t distance(const char *one, const char *other); /* how many letters must change */

/* ---- curlew.c: bad use; each of these complains and returns TROUBLE, the last two only where it is bad ---- */

int bad_use(const struct options *options, const char *what, const char *which);
int operands_suit(const struct options *options, size_t least, size_t most);
/* An option that means nothing without one of the others. */
int needs(const struct options *options, unsigned option, unsigned others, const char *words);

/* ---- field.c: the fields of a layout, as the library tells them ---- */

enum count_form { NO_COUNT, COUNTED, STARRED };
enum value_form { MOVE, CHARACTERS, DIGITS, INTEGERS, REALS };

struct field {
    size_t start, length; /* its text in the layout */
    char type;
    int flag;
    enum count_form form;
    size_t count; /* 1 where there is none, 0 for a star */
    uint32_t position, bytes; /* where it begins and what it fills, or CURLEW_OPEN */
};

/* What the values are called; none of them where count is 0. */
struct names {
    char *text[CURLEW_MAX_LAYOUT];
    size_t count;
};

struct layout {
    const char *text;
    size_t length;
    size_t count;
    size_t values;
    size_t least; /* the length of its shortest record; 0 where packing refuses it */
    int starred;
    struct field fields[CURLEW_MAX_LAYOUT];
    struct field value_fields[CURLEW_MAX_LAYOUT];
    struct names names;
    struct text file; /* the text of a layout that came from a file, and the line of each of its fields */
    const char *file_name;
    size_t lines[CURLEW_MAX_LAYOUT];
};

enum value_form field_value(const struct field *field);
size_t field_bytes(const struct field *field, size_t count);
size_t item_bytes(char type);
void field_words(const struct field *field, struct text *to);

/* ---- layouts.c: the layout that a command was given, and the names of its values ---- */

enum purpose { TO_SHOW, TO_PACK, TO_READ };

/* Takes LAYOUT off the operands, or the file of --layout. Returns DONE, or another status after a complaint. */
int layout_take(struct layout *layout, struct options *options, enum purpose purpose);
/* The same for a text; name is what it is called in a refusal. */
int layout_given(struct layout *layout, const char *name, const char *text, enum purpose purpose);
/* The first `values` values of a layout alone: what stands before the field of the next one. */
void layout_begin(struct layout *begin, const struct layout *layout, size_t values);
int names_given(struct names *names, const char *list, size_t wanted, const char *what); /* status */
int names_from_options(struct names *names, struct options *options); /* of --names or --layout; status */
void names_add(struct names *names, const char *bytes, size_t length);
void names_free(struct names *names);
size_t name_index(const struct names *names, const char *bytes, size_t length); /* names->count where there is none */
void text_name(struct text *to, const struct names *names, size_t index); /* its name, or field0 */
void layout_free(struct layout *layout);

/* ---- choose.c: fields and legs chosen by numbers and names ---- */

struct choice {
    size_t index[CURLEW_MAX_SLOTS];
    size_t count;
    size_t open; /* from this place on the entries come from A-, which ends where a sheet ends; count where none does */
};

void choose_all(struct choice *choice, size_t limit);
void choose(struct choice *choice, const char *option, const char *list, const struct names *names,
            size_t limit); /* or bad use */
void choose_fields(struct choice *choice, const struct options *options, const struct names *names, size_t limit);

/* ---- library.c: the calls ---- */

struct values {
    uint8_t slots[CURLEW_MAX_SLOTS * CURLEW_SLOT_SIZE];
    size_t count; /* slots in use */
    uint8_t *area;
    size_t used;
};

struct read_answer {
    struct curlew_answer answer;
    uint32_t carried_out;
};

struct rescue_answer {
    struct curlew_answer answer;
    uint32_t dropped;
};

/* For each promise the byte of the first field that stands against it, or CURLEW_NOWHERE. */
struct promises {
    uint32_t grows, keeps, joins;
};

struct extends_answer {
    struct curlew_answer answer;
    uint32_t which; /* the layout in which the place of a refusal lies: 0 the old one, 1 the new one */
};

void values_start(struct values *values);
void values_clear(struct values *values, size_t count);
void values_free(struct values *values);
struct curlew_answer call_layout(const char *text, size_t length);
struct curlew_answer call_fields(const char *text, size_t length, uint8_t *rows); /* CURLEW_MAX_LAYOUT rows */
struct promises call_promises(const struct layout *layout); /* of a layout for packing: it is not refused */
struct extends_answer call_extends(const char *older, const char *newer);
struct curlew_answer call_pack(const struct layout *layout, const struct values *values, uint8_t *record);
/* Packs one value by its field alone: what packing has to say of it. */
struct curlew_answer call_pack_one(const struct layout *layout, const struct values *values, size_t index,
                                   uint8_t *record);
struct read_answer call_read(const struct layout *layout, const uint8_t *record, size_t length, struct values *values);
struct curlew_answer call_sheet_write(const struct values *values, uint8_t *sheet);
struct curlew_answer call_sheet_read(const uint8_t *sheet, size_t length, struct values *values);
struct rescue_answer call_sheet_rescue(const uint8_t *sheet, size_t length, size_t legs, struct values *values);
struct curlew_answer call_compare(const struct layout *layout, const uint8_t *const records[2], const size_t lengths[2],
                                  struct values values[2], uint8_t *report);
struct curlew_answer call_mean(const struct values *values, int *marked, double *mean);
struct curlew_answer call_from_perl(const char *text, size_t length, char *layout);

/* ---- given.c: values from text ---- */

/* What is wrong with a text that should be a value. */
struct fault {
    const uint8_t *text; /* the part of it that is wrong, or NULL */
    size_t length;
    const char *what, *advice;
};

/* Puts a value after the values, as the field wants it. Returns 1, or 0 with the fault. */
int value_put(struct values *values, const struct field *field, const uint8_t *bytes, size_t length,
              struct fault *fault);
void value_unset(struct values *values);
void text_fault(struct text *to, const struct fault *fault); /* "6x" is not an integer of 64 bits */
/* Puts arguments after the values, one for each field. Returns DONE, or another status after a complaint. */
int values_from_arguments(struct values *values, const struct layout *layout, const struct options *options,
                          int for_sheet);

/* ---- notes.c: what a record will not hold of a value ---- */

enum loss { LOSS_END, LOSS_BITS, LOSS_LARGE, LOSS_SMALL, LOSS_DIGITS, LOSS_BLANKS, LOSS_SPELLING, LOSSES };

unsigned value_losses(const struct field *field, const struct values *values, size_t index); /* bits 1 << loss */
const char *loss_words(enum loss loss);
/* A note for each loss; where --strict asks for it a refusal. Returns the status. */
int values_noted(const struct layout *layout, const struct values *values, const struct options *options,
                 int for_sheet);

/* ---- shown.c: values shown ---- */

size_t value_bytes(struct curlew_slot slot);
int value_cell(struct text *to, enum form form, const struct values *values, size_t slot, const struct field *field);
void value_json(struct text *to, const struct values *values, size_t slot, const struct field *field);

/* ---- rows.c: a table written, a row a record ---- */

struct rows {
    enum form form;
    int for_spreadsheet;
    const struct layout *layout; /* NULL for sheets */
    struct choice columns;
    struct text *keys; /* the names as they stand in the head or before a value of JSON */
};

void rows_start(struct rows *rows, const struct options *options, const struct layout *layout,
                const struct names *names, const struct choice *columns);
void rows_head(const struct rows *rows, const struct options *options, struct text *out);
void rows_add(const struct rows *rows, const struct values *values, struct text *out);
void rows_end(struct rows *rows);
void no_name_in_hex(const struct names *names); /* or bad use */
void csv_cell(struct text *out, const void *bytes, size_t length,
              int for_spreadsheet); /* a text, quoted where it must be */

/* ---- cells.c: a table read, row by row; csv.c and json_read.c take a row apart ---- */

enum cell_form { CELL_NONE, CELL_TEXT, CELL_QUOTED, CELL_NUMBERS, CELL_MISSING };

struct cell_in {
    size_t start, length; /* in the bytes of the row */
    enum cell_form form;
};

enum row_found {
    ROW_END,
    ROW_TAKEN,
    ROW_BAD,
    ROW_LOST
}; /* the last two after a complaint; after a lost one nothing can be read */

struct cells {
    struct source source;
    enum form form;
    int for_spreadsheet, headed; /* headed: the columns have names */
    int array, pending; /* JSON: inside [ ]; the first row is taken for its names already */
    uint64_t row, rows; /* the number of the row that was taken last, and how many there were */
    uint64_t line, next_line; /* the line at which it begins, from 1 on */
    struct text bytes;
    struct cell_in *cells;
    size_t count, room;
    struct names head;
    size_t columns;
    size_t column_of[CURLEW_MAX_SLOTS]; /* of each value; columns where it has none */
    size_t field_of[CURLEW_MAX_SLOTS]; /* of each column */
    struct text where; /* for messages */
};

/* Opens the table and finds the value of each column. Names that the layout has not are those of the head. Returns the
 * status. */
int cells_open(struct cells *cells, const struct options *options, enum form form, const char *name,
               struct layout *layout);
enum row_found cells_next(struct cells *cells);
const char *cells_where(struct cells *cells,
                        size_t column); /* row and column in words; without the column where it is none */
const char *cells_source(const struct cells *cells);
void cells_complain(struct cells *cells, size_t column,
                    const char *what); /* with row, column, name and text of the cell */
/* Puts the row into the values. Returns 1, or 0 after a complaint. */
int cells_values(struct cells *cells, const struct layout *layout, struct values *values);
void cells_refused(struct cells *cells, size_t column, uint32_t number); /* by the library */
int cells_failed(const struct cells *cells); /* the file could not be read */
void cells_close(struct cells *cells);
void cells_show_row(const struct cells *cells); /* the row in full, as advice */
struct cell_in *cells_new(struct cells *cells);
enum row_found cells_lost(struct cells *cells, const char *what,
                          const char *advice); /* after a complaint about the row */
enum row_found csv_next(struct cells *cells);
enum row_found json_next(struct cells *cells);

/* ---- notes.c, for tables: what is lost, counted by column ---- */

struct losses {
    uint64_t count[CURLEW_MAX_SLOTS][LOSSES], first[CURLEW_MAX_SLOTS][LOSSES]; /* first: the row */
};

/* Counts what the row loses. Returns 0 after a complaint where --strict asks for it. */
int losses_counted(struct losses *losses, const struct layout *layout, const struct values *values, struct cells *cells,
                   const struct options *options);
void losses_told(const struct losses *losses, const struct layout *layout, int for_sheet);

/* ---- refuse.c: refusals in words ---- */

void refuse_layout(const struct layout *layout, const char *name, struct curlew_answer answer);
void refuse_template(const char *text, size_t length, struct curlew_answer answer);
void refuse_value(const struct layout *layout, struct curlew_answer answer);
void refuse_sheet(const char *name, struct curlew_answer answer);
void refuse(const char *where, uint32_t number);
const char *refusal_words(uint32_t number, const char **advice);

/* ---- table.c: rows in columns ---- */

struct column {
    const char *head;
    int right; /* numbers stand on the right */
};

struct cell {
    size_t end;
    enum ink ink;
};

struct table {
    const struct column *columns;
    size_t width;
    struct text text; /* the cells, one after the other */
    struct cell *cells;
    size_t count, room;
};

void table_start(struct table *table, const struct column *columns, size_t width);
void table_close(struct table *table, enum ink ink); /* ends the cell that was put into table->text */
void table_word(struct table *table, const char *word, enum ink ink);
void table_number(struct table *table, uint64_t number);
void table_print(struct table *table, enum form form, int head, struct text *out); /* and the table is empty again */
void table_free(struct table *table);

/* ---- record.c: one record shown ---- */

struct record {
    const uint8_t *bytes;
    size_t length;
    uint64_t number, first_byte;
    size_t over; /* bytes that belong to no field, where they are looked for */
    struct read_answer answer;
};

/* What a thread works with. */
struct desk {
    const struct layout *layout;
    const struct options *options;
    int many; /* records, and not one */
    struct choice columns;
    struct values values;
    struct table table; /* for people */
    struct rows rows; /* a row a record */
    struct text number; /* for tab-separated lines: the record, */
    struct text labels[CURLEW_MAX_SLOTS]; /* and what stands between it and the byte */
    struct text out;
};

void desk_start(struct desk *desk, const struct layout *layout, const struct options *options);
void desk_end(struct desk *desk);
void desk_head(struct desk *desk);
int record_show(struct desk *desk, struct record *record); /* 0 where the library refuses it */
void record_refused(const struct record *record);
void note_over(const struct options *options, uint64_t records,
               uint64_t bytes); /* how many records have bytes that belong to no field, and how many bytes */

struct range {
    size_t from, to;
};

struct range range_of(const struct field *field, struct curlew_slot slot, size_t record); /* of a field that was set */
size_t bytes_of_fields(const struct layout *layout, const struct values *values, size_t set, size_t length, int moves);

/* ---- stream.c: many records, in threads ---- */

int read_many(struct desk *desk, size_t length, const char *name);

/* ---- sheets.c: a file of sheets, one after the other ---- */

struct sheets {
    struct source source;
    const char *name;
    uint8_t *bytes;
    size_t length; /* of the sheet that was taken last */
    uint64_t number; /* how many were taken */
    uint64_t from; /* the byte of the file at which the last one began */
    int none_is_fine; /* a file of no bytes is no sheet that was cut, but no sheet at all */
    int several; /* something stands after the first */
    int lost; /* nobody knows where the next one begins */
    struct text where;
};

int sheets_open(struct sheets *sheets, const char *name); /* status */
int sheets_next(struct sheets *sheets,
                struct values *values); /* 1, 0 at the end, -1 after a complaint; it may go on then */
const char *sheets_where(struct sheets *sheets); /* the file, and which sheet of it where it has several */
int sheets_failed(const struct sheets *sheets); /* the file could not be read */
void sheets_close(struct sheets *sheets);

/* ---- entries.c: the entries of a sheet, a row each ---- */

struct entries {
    enum form form;
    const struct names *names; /* NULL, or none, where they have none */
    int head, numbered; /* numbered: each row tells its sheet */
    uint64_t sheet;
    int rescued;
    size_t kept; /* how many from the front came whole from a sheet that was rescued */
};

void entry_rows(const struct entries *entries, const struct values *values, struct text *out);
void entries_json(const struct entries *entries, const struct values *values, struct text *out);
size_t count_marked(const struct values *values);

/* ---- differ.c: what differs between two copies, shown ---- */

struct pair {
    const struct layout *layout; /* NULL for sheets */
    const struct names *names;
    const char *files[2];
    uint8_t *records[2];
    size_t lengths[2], over[2]; /* over: bytes that belong to no field */
    struct values values[2];
    uint8_t report[CURLEW_MAX_SLOTS * CURLEW_FINDING_SIZE];
    size_t fields;
    struct choice columns;
    int many, only_different;
    uint64_t number;
};

size_t pair_differences(const struct pair *pair);
void pair_rows(const struct pair *pair, enum form form, int head, struct text *out);
void pair_json(const struct pair *pair, struct text *out);
void pair_remarks(const struct pair *pair, struct text *out);

/* ---- show.c, show_html.c: the bytes of a record, or of two copies, with their fields ---- */

#define NO_FIELD CURLEW_MAX_SLOTS

struct shown_record {
    const char *name;
    uint8_t *bytes;
    size_t length, set;
    uint8_t *owner; /* of each byte: the last value that covers it, or NO_FIELD */
    struct values values;
};

struct showing {
    const struct layout *layout;
    size_t count; /* one record, or two copies */
    struct shown_record records[2];
};

int byte_differs(const struct showing *showing, size_t place);
void text_field(struct text *to, const struct layout *layout, size_t index); /* its name, and its text in the layout */
void show_html(const struct showing *showing, struct text *out);

/* ---- mean_rows.c: a row a candidate ---- */

struct result {
    const char *name;
    uint64_t number; /* which one of the file */
    int numbered; /* there may be several in it */
    int status, marked; /* another status than DONE: there is no answer */
    double mean;
    size_t legs, not_marked;
};

struct means {
    struct options *options;
    struct layout *layout; /* NULL for sheets */
    const struct names *names;
    size_t length; /* of a record */
    struct choice legs, columns; /* columns: the values that --fields shows beside the mean */
    int all_legs, ready; /* ready: the legs are chosen, and the head is written */
    struct values values, chosen;
    uint64_t rows, without, refused;
    size_t files, all_files;
    int status;
    struct progress progress;
    struct text out;
};

void mean_where(struct text *to, const struct means *means,
                const struct result *result); /* the file, and which one of it */
void mean_ready(struct means *means); /* chooses the legs, once their names are known, and writes the head */
void mean_show(struct means *means, const struct result *result);

/* ---- lengths.c ---- */

/* The length of a record in a file of them, 0 where all of the file is one record. Returns the status. */
int record_length(const struct layout *layout, const struct options *options, size_t *length);

/* ---- what several subcommands use ---- */

int values_suit(const struct layout *layout, size_t count); /* status */
struct curlew_answer values_checked(const struct layout *layout, const struct values *values, uint8_t *record);
int values_from_sheet(struct values *values, const char *name); /* of a file that holds one sheet; status */
void show_bytes(const struct options *options, const uint8_t *bytes, size_t length);
int pack_and_show(const struct options *options, const struct layout *layout, const struct values *values); /* status */
int table_options(const struct options *options); /* whether the options of tables and values suit each other: status */

/* ---- the subcommands; each returns a status ---- */

int command_layout(struct options *options);
int layout_extends(struct options *options); /* curlew layout --extends */
int command_pack(struct options *options);
int command_read(struct options *options);
int command_sheet_write(struct options *options);
int command_sheet_read(struct options *options);
int command_sheet_rescue(struct options *options);
int command_compare(struct options *options);
int command_mean(struct options *options);
int command_perl(struct options *options);
int command_show(struct options *options);

#endif
