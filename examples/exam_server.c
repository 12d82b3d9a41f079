/*
 * A small exam office.
 *
 * Last year a record held a number, a name and two legs. This year there is a third leg and an answer strip.
 * The office packs records by both layouts, gets one back from a laptop that lost its end, and reads all of
 * them by both layouts. Tables with a leg in the middle that nobody marked it keeps as sheets, and from a sheet that
 * was cut it takes what is whole.
 */
#include <inttypes.h>
#include <math.h>
#include <stdio.h>
#include <stdlib.h>
#include <string.h>

#include "curlew.h"

#define FIELDS 6
#define AREA 128
#define SHEET 96
#define CANDIDATES 4

static const char old_layout[] = "a6 A12 Su Su";
static const char new_layout[] = "a6 A12 Su Su Su b10";
static const char speed_layout[] = "a6 R Q";
static const char points_layout[] = "a6 c*";
static const char *const heads[FIELDS] = {"number", "name", "written", "oral", "steno", "strip"};

/* The values of one record, in the form in which the library takes and gives them, with their room. */
struct table {
    uint8_t slots[FIELDS * CURLEW_SLOT_SIZE];
    uint8_t area[AREA];
    struct curlew_table values;
    size_t set;   /* slots that the reading set */
    size_t steps; /* fields that the reading carried out */
};

/* A record has the room that its layout asks for; see make_room. */
struct record {
    uint8_t *bytes;
    size_t length;
};

struct sheet {
    uint8_t bytes[SHEET];
    size_t length;
};

struct candidate {
    const char *number;
    const char *name;
    unsigned written, oral;
    int this_year; /* the two below are there only then */
    unsigned steno;
    const char *strip;
};

/* ---- putting values in ---- */

static void clear(struct table *table)
{
    table->values = curlew_table_over(table->slots, sizeof table->slots, table->area, sizeof table->area);
    table->set = 0;
    table->steps = 0;
}

/* What does not fit makes the table full, and every call refuses it then. */
static void add_text(struct table *table, const char *text)
{
    curlew_table_add_text(&table->values, text, strlen(text));
}

static void add_mark(struct table *table, unsigned mark)
{
    curlew_table_add_uint(&table->values, mark);
}

static void add_real(struct table *table, double value)
{
    curlew_table_add_real(&table->values, value);
}

static void add_nothing(struct table *table)
{
    curlew_table_add_unset(&table->values);
}

static void fill_old(struct table *table, const struct candidate *who)
{
    clear(table);
    add_text(table, who->number);
    add_text(table, who->name);
    add_mark(table, who->written);
    add_mark(table, who->oral);
}

static void fill_new(struct table *table, const struct candidate *who)
{
    fill_old(table, who);
    add_mark(table, who->steno);
    add_text(table, who->strip);
}

/* ---- the two calls ---- */

static void print_refusal(struct curlew_answer answer)
{
    printf("  refused, number %" PRIu32 " at place %" PRIu32 ": %s\n",
           answer.number, answer.first, curlew_refusal(answer.number));
}

/* The numbers 2 to 4 point at a place of the layout. */
static void print_place(const char *layout, struct curlew_answer answer)
{
    char text[2 * CURLEW_MAX_LAYOUT + 4];

    if (answer.number >= CURLEW_BAD_TYPE && answer.number <= CURLEW_BAD_MOVE) {
        curlew_point(layout, strlen(layout), answer.first, text, sizeof text);
        printf("%s\n", text);
    }
}

/* What a layout asks for: how many slots, and how many bytes for its record. None of ours has a star, so no record is
 * longer. Returns 1, or 0 after saying what is wrong with it. */
static int look_at(const char *layout, size_t *slots, size_t *bytes)
{
    uint8_t reply[CURLEW_LAYOUT_REPLY];
    uint32_t number = curlew_layout(layout, strlen(layout), reply, sizeof reply);
    struct curlew_answer answer = curlew_get_answer(reply);

    if (number != CURLEW_OK) {
        print_place(layout, answer);
        print_refusal(answer);
        return 0;
    }
    *slots = answer.first;
    *bytes = answer.second;
    return 1;
}

static int make_room(const char *layout, struct record *record)
{
    size_t slots;

    record->bytes = NULL;
    if (!look_at(layout, &slots, &record->length))
        return 0;
    record->bytes = (uint8_t *)malloc(record->length);
    return record->bytes != NULL;
}

static void drop(struct record *record)
{
    free(record->bytes);
    record->bytes = NULL;
}

/* Packs the values into a record of its own. Returns 1, or 0 after saying why not. */
static int pack(const char *layout, const struct curlew_table *values, struct record *record)
{
    uint8_t reply[CURLEW_PACK_REPLY];

    if (!make_room(layout, record))
        return 0;
    if (curlew_pack(layout, strlen(layout), values->slots, values->slots_used, values->area, values->area_used,
                    record->bytes, record->length, reply, sizeof reply) != CURLEW_OK) {
        print_refusal(curlew_get_answer(reply));
        drop(record);
        return 0;
    }
    record->length = curlew_get_answer(reply).first;
    return 1;
}

/* Reads the record into a table of all fields: what the record does not hold is not set. */
static int read_record(const char *layout, const struct record *record, struct table *table)
{
    uint8_t reply[CURLEW_READ_REPLY];
    uint32_t number;

    clear(table);
    number = curlew_read(layout, strlen(layout), record->bytes, record->length,
                         table->values.slots, table->values.slots_room, table->values.area, table->values.area_room, 0,
                         reply, sizeof reply);
    if (number != CURLEW_OK) {
        print_refusal(curlew_get_answer(reply));
        return 0;
    }
    table->set = curlew_get_answer(reply).first;
    table->steps = curlew_get_steps(reply);
    return curlew_table_use(&table->values, table->set, FIELDS);
}

/* ---- tables kept as sheets ---- */

/* Writes the table as a sheet. Returns 1, or 0 after saying why not. */
static int keep(const struct table *table, struct sheet *sheet)
{
    uint8_t reply[CURLEW_SHEET_REPLY];
    uint32_t number = curlew_sheet_write(table->values.slots, table->values.slots_used,
                                         table->values.area, table->values.area_used,
                                         sheet->bytes, sizeof sheet->bytes, reply, sizeof reply);
    struct curlew_answer answer = curlew_get_answer(reply);

    if (number != CURLEW_OK) {
        print_refusal(answer);
        return 0;
    }
    sheet->length = answer.first;
    return 1;
}

static int fetch(const struct sheet *sheet, struct table *table)
{
    uint8_t reply[CURLEW_SHEET_REPLY];
    uint32_t number;

    clear(table);
    number = curlew_sheet_read(sheet->bytes, sheet->length, table->values.slots, table->values.slots_room,
                               table->values.area, table->values.area_room, 0, reply, sizeof reply);
    if (number != CURLEW_OK) {
        print_refusal(curlew_get_answer(reply));
        return 0;
    }
    table->set = curlew_get_answer(reply).first;
    return curlew_table_use(&table->values, table->set, table->set);
}

/* ---- getting values out ---- */

#define WIDTH 14

/* Prints one item of a list. Returns how many characters it took. */
static int print_item(const struct curlew_table *values, size_t field, size_t item)
{
    int64_t integer;
    uint64_t large;
    double real;

    if (curlew_table_int(values, field, item, &integer))
        return printf("%" PRId64, integer);
    if (curlew_table_uint(values, field, item, &large))
        return printf("%" PRIu64, large);
    if (curlew_table_real(values, field, item, &real))
        return printf("%.9g", real);
    return 0;
}

/* Prints the value of a slot. One that is not set has no number to show, and an empty list is none. */
static int print_value(const struct curlew_table *values, size_t field)
{
    struct curlew_slot slot = curlew_table_slot(values, field);
    const char *text;
    size_t length, item;
    int width = 0;

    if (slot.kind == CURLEW_UNSET)
        return printf("not marked");
    if (curlew_table_text(values, field, &text, &length))
        return printf("%.*s", (int)length, text);
    if (slot.length == 0)
        return printf("none");
    for (item = 0; item < slot.length; item++)
        width += printf("%s", item > 0 ? " " : "") + print_item(values, field, item);
    return width;
}

/* Goes on to the next column, or to the next line. */
static void end_cell(int width, int last)
{
    if (last)
        printf("\n");
    else
        printf("%*s", width < WIDTH ? WIDTH - width : 1, "");
}

static void print_row(const struct table *table, size_t fields)
{
    size_t field;

    for (field = 0; field < fields; field++)
        end_cell(print_value(&table->values, field), field + 1 == fields);
}

static void print_heads(size_t fields)
{
    size_t field;

    for (field = 0; field < fields; field++)
        end_cell(printf("%s", heads[field]), field + 1 == fields);
}

static void print_table(const char *layout, size_t fields, const struct record *records, size_t count)
{
    struct table table;
    size_t i;

    printf("\nread by %s\n", layout);
    print_heads(fields);
    for (i = 0; i < count; i++) {
        if (read_record(layout, &records[i], &table))
            print_row(&table, fields);
    }
}

/* How much work a reading was: the fields that were set, and the first for which the record was too short. */
static void print_steps(const char *layout, const struct record *records, size_t count)
{
    struct table table;
    size_t i;

    printf("\nfields carried out in reading by %s\n", layout);
    for (i = 0; i < count; i++) {
        if (!read_record(layout, &records[i], &table))
            continue;
        end_cell(print_value(&table.values, 0), 0);
        printf("%u, %u of them set\n", (unsigned)table.steps, (unsigned)table.set);
    }
}

/* ---- the office ---- */

static const struct candidate candidates[CANDIDATES] = {
    {"C00417", "Ada Lind", 61, 0, 1, 88, "1101101011"},
    {"C00418", "Boas Ferrer", 47, 52, 0, 0, ""},
    {"C00419", "Chidi Okoro", 70, 66, 1, 0, "0111010110"},
    {"C00420", "Dora Weiss", 55, 73, 1, 91, "1111000010"},
};

/* A layout looked at before it is used. */
static void show_layout(const char *layout)
{
    size_t slots, bytes;

    if (look_at(layout, &slots, &bytes))
        printf("%-19s  takes %u slots and fills %u bytes\n", layout, (unsigned)slots, (unsigned)bytes);
}

static int pack_all(struct record *records)
{
    struct table table;
    size_t i;

    for (i = 0; i < CANDIDATES; i++) {
        const char *layout = candidates[i].this_year ? new_layout : old_layout;

        if (candidates[i].this_year)
            fill_new(&table, &candidates[i]);
        else
            fill_old(&table, &candidates[i]);
        if (!pack(layout, &table.values, &records[i]))
            return 0;
        printf("%s packed by %-19s  %2u bytes\n", candidates[i].number, layout, (unsigned)records[i].length);
    }
    return 1;
}

static void cut(struct record *record, size_t length, const char *number)
{
    printf("%s came back from a laptop with %u of %u bytes\n",
           number, (unsigned)length, (unsigned)record->length);
    record->length = length;
}

/* A table in which the oral leg of every other candidate is still to be marked. */
static void fill_open(struct table *table, size_t i)
{
    clear(table);
    add_text(table, candidates[i].number);
    add_text(table, candidates[i].name);
    add_mark(table, candidates[i].written);
    if (i % 2 == 0)
        add_nothing(table);
    else
        add_mark(table, candidates[i].oral);
    if (candidates[i].this_year) {
        add_mark(table, candidates[i].steno);
        add_text(table, candidates[i].strip);
    } else {
        add_nothing(table);
        add_nothing(table);
    }
}

/* A leg in the middle that nobody marked: a record has no place for it, a sheet keeps it. */
static void show_sheets(void)
{
    struct table table;
    struct sheet sheet;
    size_t i;

    printf("\nkept as sheets, with legs that are still to be marked\n");
    print_heads(FIELDS);
    for (i = 0; i < CANDIDATES; i++) {
        fill_open(&table, i);
        if (keep(&table, &sheet) && fetch(&sheet, &table))
            print_row(&table, FIELDS);
    }
}

/* A laptop died while it saved a sheet. What is whole at its front is kept; the legs that are lost are not marked. */
static void show_rescue(void)
{
    uint8_t reply[CURLEW_RESCUE_REPLY];
    struct table table;
    struct sheet sheet;

    fill_open(&table, 3);
    if (!keep(&table, &sheet))
        return;
    printf("\na laptop died while it saved the sheet of %s: 50 of %u bytes are there\n",
           candidates[3].number, (unsigned)sheet.length);
    sheet.length = 50;
    printf("read as it is:\n");
    fetch(&sheet, &table);
    clear(&table);
    if (curlew_sheet_rescue(sheet.bytes, sheet.length, FIELDS, table.values.slots, table.values.slots_room,
                            table.values.area, table.values.area_room, 0, reply, sizeof reply) != CURLEW_OK
        || !curlew_table_use(&table.values, FIELDS, FIELDS)) {
        print_refusal(curlew_get_answer(reply));
        return;
    }
    printf("rescued: %" PRIu32 " entries kept, %" PRIu32 " slots cleared, %" PRIu32 " bytes dropped\n",
           curlew_get_answer(reply).first, curlew_get_answer(reply).second, curlew_get_dropped(reply));
    print_heads(FIELDS);
    print_row(&table, FIELDS);
}

/* The legs are the three slots after number and name. A leg that nobody marked leaves the mean as it is. */
static void print_mean(const struct table *table)
{
    uint8_t reply[CURLEW_MEAN_REPLY];
    double mean;

    if (curlew_mean(table->values.slots + 2 * CURLEW_SLOT_SIZE, 3 * CURLEW_SLOT_SIZE,
                    table->values.area, table->values.area_used, reply, sizeof reply) != CURLEW_OK)
        print_refusal(curlew_get_answer(reply));
    else if (curlew_get_mean(reply, &mean))
        printf("mean %.2f, legs not marked: %" PRIu32 "\n", mean, curlew_get_answer(reply).first);
    else
        printf("no leg marked\n");
}

static void show_means(void)
{
    struct table table;
    size_t i;

    printf("\nmeans of the legs that are marked\n");
    for (i = 0; i < CANDIDATES; i++) {
        fill_open(&table, i);
        printf("%-14s", candidates[i].name);
        print_mean(&table);
    }
    clear(&table);
    add_text(&table, "C00421");
    add_text(&table, "Efe Aydin");
    for (i = 0; i < 3; i++)
        add_nothing(&table);
    printf("%-14s", "Efe Aydin");
    print_mean(&table);
}

/* What differs between two copies of a record. Where they differ, the slot has the byte of the record at which the
 * mark stands. */
static void print_differences(const struct record *first, const struct record *second)
{
    static const char *const verdicts[] = {"same", "first copy only", "second copy only", "in neither", "different"};
    struct table one, two;
    uint8_t report[FIELDS * CURLEW_FINDING_SIZE], reply[CURLEW_COMPARE_REPLY];
    size_t field;

    if (curlew_compare(new_layout, strlen(new_layout), first->bytes, first->length,
                       second->bytes, second->length, one.slots, sizeof one.slots, one.area, sizeof one.area,
                       two.slots, sizeof two.slots, two.area, sizeof two.area,
                       report, sizeof report, reply, sizeof reply) != CURLEW_OK) {
        print_refusal(curlew_get_answer(reply));
        return;
    }
    for (field = 0; field < curlew_get_answer(reply).first; field++) {
        struct curlew_finding finding = curlew_get_finding(report, field);

        if (finding.verdict == CURLEW_DIFFERENT)
            printf("%-14sdifferent, in %" PRIu32 " bits: see byte %" PRIu32 " of the record\n",
                   heads[field], finding.bits, curlew_get_slot(one.slots, field).position);
        else
            printf("%-14s%s\n", heads[field], verdicts[finding.verdict]);
    }
}

/* Two markers' copies of one candidate's record: the second gave another oral mark, and lost the strip. */
static void show_differences(void)
{
    struct candidate other = candidates[0];
    struct table table;
    struct record first = {NULL, 0}, second = {NULL, 0};

    printf("\nwhat differs between two markers' copies of %s\n", other.number);
    other.oral = 52;
    fill_new(&table, &candidates[0]);
    if (pack(new_layout, &table.values, &first)) {
        fill_new(&table, &other);
        if (pack(new_layout, &table.values, &second)) {
            second.length = 24;
            print_differences(&first, &second);
        }
    }
    drop(&first);
    drop(&second);
}

/* The partner college describes its records by a pack template of Perl. */
static void show_partner(void)
{
    static const char partner[] = "a6 a12 (n)3 b10";
    char layout[CURLEW_MAX_LAYOUT];
    uint8_t reply[CURLEW_PERL_REPLY];

    printf("\nthe partner college's template %s\n", partner);
    if (curlew_from_perl(partner, strlen(partner), layout, sizeof layout,
                         reply, sizeof reply) != CURLEW_OK) {
        print_refusal(curlew_get_answer(reply));
        return;
    }
    printf("is our layout %.*s\n", (int)curlew_get_answer(reply).first, layout);
}

/* Whether a record is two others joined. */
static int joined(const struct record *whole, const struct record *first, const struct record *second)
{
    return whole->length == first->length + second->length && memcmp(whole->bytes, first->bytes, first->length) == 0
        && memcmp(whole->bytes + first->length, second->bytes, second->length) == 0;
}

/* The forms office writes a cover and the legs as two layouts. Joined they make the record of both. */
static void show_joined(void)
{
    static const char cover[] = "a6 A12", legs[] = "Su Su Su b10", both[] = "a6 A12" "Su Su Su b10";
    struct table table;
    struct curlew_table front, back;
    struct record first = {NULL, 0}, second = {NULL, 0}, whole = {NULL, 0};

    fill_new(&table, &candidates[0]);
    front = back = table.values;
    front.slots_used = 2 * CURLEW_SLOT_SIZE;
    back.slots += front.slots_used;
    back.slots_used -= front.slots_used;
    if (pack(both, &table.values, &whole) && pack(cover, &front, &first) && pack(legs, &back, &second)) {
        printf("\na cover %s, %u bytes, and legs %s, %u bytes\n",
               cover, (unsigned)first.length, legs, (unsigned)second.length);
        printf("joined, %s: %u bytes, %s\n", both, (unsigned)whole.length,
               joined(&whole, &first, &second) ? "those of the cover and those of the legs" : "and they differ");
    }
    drop(&first);
    drop(&second);
    drop(&whole);
}

/* Transcripts are long: records of up to CURLEW_MAX_RECORD bytes, and sheets of version 2 where version 1 cannot hold
 * them. */
#define TRANSCRIPT 30000

static void show_transcripts(void)
{
    static uint8_t transcript[TRANSCRIPT], area[3 * TRANSCRIPT], record[CURLEW_MAX_RECORD], sheet[4 * TRANSCRIPT];
    uint8_t slots[3 * CURLEW_SLOT_SIZE], packed[CURLEW_PACK_REPLY], kept[CURLEW_SHEET_REPLY];
    struct curlew_table table = curlew_table_over(slots, sizeof slots, area, sizeof area);
    unsigned i;

    memset(transcript, 'v', sizeof transcript);
    curlew_table_add_text(&table, transcript, sizeof transcript);
    printf("\ntranscripts of %d characters\n", TRANSCRIPT);
    if (curlew_pack("a*", 2, table.slots, table.slots_used, table.area, table.area_used, record, sizeof record,
                    packed, sizeof packed) != CURLEW_OK)
        print_refusal(curlew_get_answer(packed));
    else
        printf("packed by a*: a record of %" PRIu32 " bytes\n", curlew_get_answer(packed).first);
    for (i = 1; i <= 3; i++) {
        if (i > 1)
            curlew_table_add_text(&table, transcript, sizeof transcript);
        if (curlew_sheet_write(table.slots, table.slots_used, table.area, table.area_used, sheet, sizeof sheet,
                               kept, sizeof kept) != CURLEW_OK)
            print_refusal(curlew_get_answer(kept));
        else
            printf("%u in a sheet: version %u, %" PRIu32 " bytes\n",
                   i, (unsigned)sheet[0], curlew_get_answer(kept).first);
    }
}

static int pack_speed(const char *number, double speed, struct record *record)
{
    struct table table;

    clear(&table);
    add_text(&table, number);
    add_real(&table, speed);
    add_real(&table, speed);
    return pack(speed_layout, &table.values, record);
}

/* Steno speeds are reals. R keeps the nearest single in four bytes, Q the double as it is in eight. */
static void show_speeds(void)
{
    static const double speeds[CANDIDATES] = {182.4, 0.0, 96.25, 120.1};
    struct record record;
    struct table table;
    size_t i;

    printf("\nsteno speeds, packed by %s\n%-14s%-14s%s\n", speed_layout, "number", "single", "double");
    for (i = 0; i < CANDIDATES; i++) {
        if (!pack_speed(candidates[i].number, speeds[i], &record))
            continue;
        if (i == CANDIDATES - 1)
            record.length -= 1;
        if (read_record(speed_layout, &record, &table))
            print_row(&table, 3);
        drop(&record);
    }
    printf("a speed that is no number\n");
    pack_speed("C00421", NAN, &record);
}

/* Points that were taken off are below zero. A candidate may have none, which is not the same as not marked. */
static void show_points(void)
{
    static const int64_t points[] = {-2, -1};
    uint8_t bytes[6 + 2], reply[CURLEW_PACK_REPLY];
    struct record record = {bytes, 0};
    struct table table;
    size_t count;

    printf("\npoints taken off, packed by %s\n", points_layout);
    for (count = 0; count <= 2; count++) {
        clear(&table);
        add_text(&table, candidates[count].number);
        curlew_table_add_ints(&table.values, points, count);
        if (curlew_pack(points_layout, strlen(points_layout), table.values.slots, table.values.slots_used,
                        table.values.area, table.values.area_used, bytes, sizeof bytes, reply, sizeof reply)
            != CURLEW_OK) {
            print_refusal(curlew_get_answer(reply));
            continue;
        }
        record.length = curlew_get_answer(reply).first;
        if (read_record(points_layout, &record, &table))
            print_row(&table, 2);
    }
}

static void show_refusals(void)
{
    static const char *const wrong_layouts[] = {"a6 A12 Su Su Yu b10", "a6 A12 Su3 b100000"};
    struct table table;
    struct record record;
    size_t i;

    printf("\na leg that nobody marked cannot be packed\n");
    fill_old(&table, &candidates[1]);
    add_nothing(&table);
    add_text(&table, "0000000000");
    pack(new_layout, &table.values, &record);

    printf("\nlayouts with a slip in them\n");
    fill_new(&table, &candidates[0]);
    for (i = 0; i < sizeof wrong_layouts / sizeof wrong_layouts[0]; i++)
        pack(wrong_layouts[i], &table.values, &record);
}

int main(void)
{
    struct record records[CANDIDATES] = {{NULL, 0}};
    size_t i;

    show_layout(old_layout);
    show_layout(new_layout);
    if (!pack_all(records))
        return 1;
    cut(&records[3], 23, candidates[3].number);
    print_table(old_layout, 4, records, CANDIDATES);
    print_table(new_layout, FIELDS, records, CANDIDATES);
    print_steps(new_layout, records, CANDIDATES);
    show_sheets();
    show_rescue();
    show_means();
    show_differences();
    show_partner();
    show_joined();
    show_transcripts();
    show_speeds();
    show_points();
    show_refusals();
    for (i = 0; i < CANDIDATES; i++)
        drop(&records[i]);
    return 0;
}
