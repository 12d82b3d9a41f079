/* curlew compare: what differs between two copies of a record, of a file of records, or of sheets. */
#include <stdlib.h>
#include <string.h>

#include "tool.h"

struct comparing {
    const struct options *options;
    struct pair pair;
    struct source sources[2];
    struct sheets sheets[2];
    uint64_t pairs, pairs_different, fields, fields_different, remarks;
    int shown, headed;
    struct text out;
};

static void pair_start(struct pair *pair, const struct options *options, const struct layout *layout,
                       const struct names *names, const struct choice *columns)
{
    int side;

    pair->layout = layout;
    pair->names = names;
    pair->columns = *columns;
    pair->only_different = has(options, OPTION_DIFFERENT);
    for (side = 0; side < 2; side++) {
        pair->files[side] = options->operands[side];
        pair->records[side] = get_memory(CURLEW_MAX_RECORD + 1);
        values_start(&pair->values[side]);
    }
}

static void pair_end(struct pair *pair)
{
    int side;

    for (side = 0; side < 2; side++) {
        values_free(&pair->values[side]);
        free(pair->records[side]);
    }
}

/* ---- two tables of values ---- */

/* Signed and unsigned integers that show the same are the same mark. */
static int same_kind(uint32_t one, uint32_t other)
{
    return one == other ||
           (one != CURLEW_STRING && one != CURLEW_REAL && other != CURLEW_STRING && other != CURLEW_REAL);
}

/* Of two kinds of integers: whether none has the bit that is a sign for one of them. */
static int no_sign(const uint8_t *bytes, size_t length)
{
    size_t i = 0;

    while (i < length && bytes[i] < 128)
        i += CURLEW_ITEM_SIZE;
    return i >= length;
}

static uint32_t differing_bits(const uint8_t *one, const uint8_t *other, size_t length)
{
    uint32_t bits = 0;
    size_t i;

    for (i = 0; i < length; i++) {
        unsigned both = one[i] ^ other[i];

        for (; both != 0; both &= both - 1)
            bits++;
    }
    return bits;
}

static void compare_entry(struct pair *pair, size_t index)
{
    struct curlew_slot slots[2];
    const uint8_t *bytes[2];
    uint32_t verdict = CURLEW_DIFFERENT;
    size_t lengths[2], common;
    int side;

    for (side = 0; side < 2; side++) {
        slots[side] = curlew_get_slot(pair->values[side].slots, index);
        bytes[side] = pair->values[side].area + slots[side].start;
        lengths[side] = value_bytes(slots[side]);
    }
    common = lengths[0] < lengths[1] ? lengths[0] : lengths[1];
    if (slots[0].kind == CURLEW_UNSET || slots[1].kind == CURLEW_UNSET)
        verdict = slots[0].kind != CURLEW_UNSET   ? CURLEW_ONLY_FIRST
                  : slots[1].kind != CURLEW_UNSET ? CURLEW_ONLY_SECOND
                                                  : CURLEW_NEITHER;
    else if (same_kind(slots[0].kind, slots[1].kind) && lengths[0] == lengths[1] &&
             memcmp(bytes[0], bytes[1], common) == 0 && (slots[0].kind == slots[1].kind || no_sign(bytes[0], common)))
        verdict = CURLEW_SAME;
    curlew_put_number(pair->report + index * CURLEW_FINDING_SIZE, verdict);
    curlew_put_number(pair->report + index * CURLEW_FINDING_SIZE + 8,
                      verdict == CURLEW_DIFFERENT ? differing_bits(bytes[0], bytes[1], common) : 0);
}

static void compare_entries(struct pair *pair)
{
    size_t i;

    pair->fields = pair->values[0].count > pair->values[1].count ? pair->values[0].count : pair->values[1].count;
    for (i = 0; i < pair->fields; i++)
        compare_entry(pair, i);
}

/* ---- one pair ---- */

static int compare_records(struct pair *pair)
{
    const uint8_t *const records[2] = {pair->records[0], pair->records[1]};
    struct curlew_answer answer = call_compare(pair->layout, records, pair->lengths, pair->values, pair->report);
    int side;

    if (answer.number != CURLEW_OK) {
        refuse("records", answer.number);
        return TROUBLE;
    }
    pair->fields = pair->layout->values;
    for (side = 0; side < 2; side++) {
        size_t set = 0;

        while (set < pair->fields && curlew_get_slot(pair->values[side].slots, set).kind != CURLEW_UNSET)
            set++;
        pair->over[side] =
            pair->lengths[side] - bytes_of_fields(pair->layout, &pair->values[side], set, pair->lengths[side], 1);
    }
    return DONE;
}

/* Counts what differs in the pair, and shows it. */
static void show_pair(struct comparing *comparing)
{
    struct pair *pair = &comparing->pair;
    const struct options *options = comparing->options;
    size_t different = pair_differences(pair), k;
    struct text remarks = {0};

    pair_remarks(pair, &remarks);
    comparing->remarks += remarks.length > 0;
    for (k = 0; k < pair->columns.count; k++)
        comparing->fields += pair->columns.index[k] < pair->fields;
    comparing->fields_different += different;
    comparing->pairs_different += different > 0;
    if (pair->only_different && different == 0 && pair->many && (options->form != PEOPLE || remarks.length == 0)) {
        text_free(&remarks);
        comparing->pairs++;
        return;
    }
    if (pair->many && options->form == PEOPLE && comparing->shown)
        text_char(&comparing->out, '\n');
    comparing->shown = 1;
    if (options->form == JSON)
        pair_json(pair, &comparing->out);
    else
        pair_rows(pair, options->form, !has(options, OPTION_NO_HEAD) && (options->form == PEOPLE || !comparing->headed),
                  &comparing->out);
    comparing->headed = 1;
    if (options->form == PEOPLE)
        text_add(&comparing->out, remarks.bytes, remarks.length);
    text_free(&remarks);
    comparing->pairs++;
    if (comparing->out.length > 65536)
        output_text(&comparing->out);
}

/* The last line counts. */
static void show_counts(struct comparing *comparing)
{
    struct text *out = &comparing->out;
    const char *pairs = comparing->pair.layout != NULL ? "records differ, " : "sheets differ, ";

    if (comparing->options->form == PEOPLE) {
        if (comparing->pair.many) {
            text_string(out, comparing->shown ? "\n" : "");
            text_grouped(out, comparing->pairs_different);
            text_string(out, " of ");
            text_grouped(out, comparing->pairs);
            text_format(out, " %s", pairs);
        }
        text_grouped(out, comparing->fields_different);
        text_string(out, " of ");
        if (comparing->pair.layout != NULL)
            text_count(out, comparing->fields, "field differs\n", "fields differ\n");
        else
            text_count(out, comparing->fields, "entry differs\n", "entries differ\n");
    }
    if ((comparing->options->form == TSV || comparing->options->form == CSV) && !comparing->headed) {
        comparing->pair.fields = 0;
        pair_rows(&comparing->pair, comparing->options->form, !has(comparing->options, OPTION_NO_HEAD), out);
    }
    output_text(out);
    if (comparing->options->form != PEOPLE && comparing->remarks > 0)
        complain("note: lengths differ, or bytes belong to no field, in %llu of %llu records",
                 (unsigned long long)comparing->remarks, (unsigned long long)comparing->pairs);
}

/* ---- records ---- */

static int compare_one(struct comparing *comparing)
{
    struct pair *pair = &comparing->pair;
    int side;

    for (side = 0; side < 2; side++)
        if (input_all(pair->files[side], pair->records[side], CURLEW_MAX_RECORD, "a record", &pair->lengths[side]) !=
            DONE)
            return TROUBLE;
    if (compare_records(pair) != DONE)
        return TROUBLE;
    show_pair(comparing);
    return DONE;
}

static int sources_open(struct comparing *comparing, uint64_t passed)
{
    int side;

    for (side = 0; side < 2; side++)
        if (!source_open(&comparing->sources[side], comparing->pair.files[side]) ||
            !input_skip(&comparing->sources[side].input, passed))
            return TROUBLE;
    return DONE;
}

static void sources_close(struct comparing *comparing)
{
    source_close(&comparing->sources[0]);
    source_close(&comparing->sources[1]);
}

/* Record by record, until both files end; one that is in one file alone is compared with no bytes. */
static int compare_many(struct comparing *comparing, size_t length)
{
    const struct options *options = comparing->options;
    struct pair *pair = &comparing->pair;
    struct progress progress;
    int status = sources_open(comparing, options->from * length);

    pair->many = 1;
    pair->number = options->from;
    if (status == DONE)
        progress_start(&progress, "records", input_size(&comparing->sources[0].input));
    while (status == DONE && (!has(options, OPTION_COUNT) || comparing->pairs < options->count_of)) {
        int side;

        for (side = 0; side < 2; side++)
            pair->lengths[side] = source_take(&comparing->sources[side], pair->records[side], length);
        if (comparing->sources[0].failed || comparing->sources[1].failed)
            status = TROUBLE;
        else if (pair->lengths[0] == 0 && pair->lengths[1] == 0)
            break;
        else
            status = compare_records(pair);
        if (status == DONE)
            show_pair(comparing);
        pair->number++;
        progress_step(&progress, comparing->pairs, comparing->pairs * length);
    }
    progress_clear();
    sources_close(comparing);
    return status;
}

/* ---- sheets ---- */

/* The next sheet of a file; one that is not there has no entries. Returns -1 after a complaint, 0 where there is none.
 */
static int next_sheet(struct comparing *comparing, int side)
{
    int found = sheets_next(&comparing->sheets[side], &comparing->pair.values[side]);

    if (found == 0) {
        values_clear(&comparing->pair.values[side], CURLEW_MAX_SLOTS);
        comparing->pair.values[side].count = 0;
    }
    return found;
}

static int compare_sheets(struct comparing *comparing)
{
    struct pair *pair = &comparing->pair;
    int status = DONE, side, found[2] = {1, 1};

    pair->many = comparing->options->form != PEOPLE;
    for (side = 0; side < 2; side++)
        if (sheets_open(&comparing->sheets[side], pair->files[side]) != DONE)
            status = TROUBLE;
    while (status == DONE) {
        for (side = 0; side < 2; side++)
            found[side] = next_sheet(comparing, side);
        if (found[0] == -1 || found[1] == -1)
            status = TROUBLE;
        else if (found[0] == 0 && found[1] == 0)
            break;
        else
            compare_entries(pair);
        pair->many |= comparing->sheets[0].several || comparing->sheets[1].several;
        if (status == DONE)
            show_pair(comparing);
        pair->number++;
    }
    sheets_close(&comparing->sheets[0]);
    sheets_close(&comparing->sheets[1]);
    return status;
}

/* ---- the command ---- */

static int compare(struct comparing *comparing, size_t length)
{
    int status;

    if (has(comparing->options, OPTION_SHEETS))
        status = compare_sheets(comparing);
    else
        status = length > 0 ? compare_many(comparing, length) : compare_one(comparing);
    if (status == DONE)
        show_counts(comparing);
    else
        output_text(&comparing->out);
    text_free(&comparing->out);
    if (status != DONE)
        return status;
    return comparing->fields_different > 0 || (has(comparing->options, OPTION_STRICT) && comparing->remarks > 0)
               ? REFUSED
               : DONE;
}

static int run(struct options *options, const struct layout *layout, const struct names *names)
{
    static struct comparing comparing;
    struct choice columns;
    size_t length = 0;
    int status = operands_suit(options, 2, 2);

    if (status == DONE && strcmp(options->operands[0], "-") == 0 && strcmp(options->operands[1], "-") == 0) {
        complain("compare: one of the two may be standard input, and not both");
        status = TROUBLE;
    }
    if (status == DONE && has(options, OPTION_RECORDS))
        status = record_length(layout, options, &length) == DONE ? DONE : TROUBLE;
    if (status != DONE)
        return status;
    comparing.options = options;
    choose_fields(&columns, options, names, layout != NULL ? layout->values : CURLEW_MAX_SLOTS);
    pair_start(&comparing.pair, options, layout, names, &columns);
    status = compare(&comparing, length);
    pair_end(&comparing.pair);
    return status;
}

/* A layout that is refused is no difference: the status is 2 then, as diff and cmp have it. */
int command_compare(struct options *options)
{
    static struct layout layout;
    struct names names = {{NULL}, 0};
    int status = needs(options, OPTION_FROM | OPTION_COUNT, OPTION_RECORDS, "--records");

    if (status == DONE && has(options, OPTION_SHEETS) && has(options, OPTION_RECORDS))
        status = bad_use(options, "--sheets and --records are two things", "");
    if (status != DONE)
        return status;
    if (has(options, OPTION_SHEETS)) {
        status = names_from_options(&names, options);
        if (status == DONE)
            status = run(options, NULL, &names);
        names_free(&names);
    } else {
        if (layout_take(&layout, options, TO_READ) != DONE)
            return TROUBLE;
        status = run(options, &layout, &layout.names);
        layout_free(&layout);
    }
    return status;
}
