/* curlew layout --extends: whether one layout is another with fields added at its end. */
#include <string.h>

#include "tool.h"

/* The two texts, and the place in each at which they part; CURLEW_NOWHERE in the old one where only the new one is to
 * blame. */
struct texts {
    struct layout older, newer;
    uint32_t older_place, newer_place;
};

/* Which field of the old text stands where the new one has another, or none. */
static uint32_t place_in_older(const struct texts *texts)
{
    size_t i = 0;

    while (i < texts->newer.count && texts->newer.fields[i].start < texts->newer_place)
        i++;
    return i < texts->older.count ? (uint32_t)texts->older.fields[i].start : (uint32_t)texts->older.length;
}

static const char *reason(uint32_t number)
{
    switch (number) {
    case CURLEW_OTHER_FIELDS: return "NEW does not begin with the fields of OLD: they part here";
    case CURLEW_NOT_PLAIN: return "NEW has a field that keeps it from growing";
    case CURLEW_BAD_SLOTS: return "NEW has more values than a table takes: this is the first one too many";
    default: return "NEW is longer than a record may be: this field ends past the limit";
    }
}

static const char *advice(uint32_t number)
{
    switch (number) {
    case CURLEW_OTHER_FIELDS:
        return "Leave the old fields as they are, count and flag too, and put new ones after them.";
    case CURLEW_NOT_PLAIN: return "A layout that grows has no X, no @, no * and no count of 0.";
    case CURLEW_BAD_SLOTS: return "Put marks of one kind together, as in Su5.";
    default: return "Shorten a field, or keep some of them in a second record.";
    }
}

static void added_words(uint32_t added, struct text *out)
{
    text_string(out, "NEW adds ");
    if (added == 0)
        text_string(out, "no field\n");
    else
        text_count(out, added, "field\n", "fields\n");
}

static void show_for_people(const struct texts *texts, struct curlew_answer answer, struct text *out)
{
    if (answer.number == CURLEW_OK) {
        added_words(answer.second, out);
        return;
    }
    text_format(out, "%s (number %lu)\n", reason(answer.number), (unsigned long)answer.number);
    if (texts->older_place != CURLEW_NOWHERE)
        text_caret(out, "    OLD  ", texts->older.text, texts->older.length, texts->older_place);
    text_caret(out, "    NEW  ", texts->newer.text, texts->newer.length, texts->newer_place);
    text_format(out, "%s\n", advice(answer.number));
}

static void place_json(const char *key, uint32_t place, struct text *out)
{
    json_key(out, key);
    if (place == CURLEW_NOWHERE)
        text_string(out, "null");
    else
        text_unsigned(out, place);
}

static void show_json(const struct texts *texts, struct curlew_answer answer, struct text *out)
{
    text_char(out, '{');
    json_named(out, "old", texts->older.text, texts->older.length);
    json_named(out, "new", texts->newer.text, texts->newer.length);
    json_key(out, "extends");
    text_string(out, answer.number == CURLEW_OK ? "true" : "false");
    json_number(out, "number", answer.number);
    if (answer.number == CURLEW_OK) {
        json_number(out, "fields", answer.first);
        json_number(out, "added", answer.second);
    } else {
        place_json("old_byte", texts->older_place, out);
        place_json("new_byte", texts->newer_place, out);
    }
    text_string(out, "}\n");
}

static void place_text(struct table *table, uint32_t place)
{
    if (place == CURLEW_NOWHERE)
        table_word(table, "-", PLAIN);
    else
        table_number(table, place);
}

static void show_in_cells(const struct texts *texts, struct curlew_answer answer, enum form form, struct text *out)
{
    static const struct column columns[] = {{"extends", 0}, {"number", 1},   {"fields", 1},
                                            {"added", 1},   {"old byte", 1}, {"new byte", 1}};
    int extends = answer.number == CURLEW_OK;
    struct table table;

    table_start(&table, columns, sizeof columns / sizeof columns[0]);
    table_word(&table, extends ? "yes" : "no", PLAIN);
    table_number(&table, answer.number);
    place_text(&table, extends ? answer.first : CURLEW_NOWHERE);
    place_text(&table, extends ? answer.second : CURLEW_NOWHERE);
    place_text(&table, texts->older_place);
    place_text(&table, texts->newer_place);
    table_print(&table, form, 1, out);
    table_free(&table);
}

static int extends_answered(struct texts *texts, enum form form, struct curlew_answer answer)
{
    struct text out = {0};

    texts->newer_place = answer.number == CURLEW_OK ? CURLEW_NOWHERE : answer.first;
    texts->older_place = answer.number == CURLEW_OTHER_FIELDS ? place_in_older(texts) : CURLEW_NOWHERE;
    if (form == JSON)
        show_json(texts, answer, &out);
    else if (form != PEOPLE)
        show_in_cells(texts, answer, form, &out);
    else
        show_for_people(texts, answer, &out);
    output_text(&out);
    text_free(&out);
    return answer.number == CURLEW_OK ? DONE : REFUSED;
}

int layout_extends(struct options *options)
{
    static struct texts texts;
    struct extends_answer answer;

    if (has(options, OPTION_LAYOUT | OPTION_NAMES))
        return bad_use(options, "--extends is not taken with ",
                       option_name(options->given & (OPTION_LAYOUT | OPTION_NAMES)));
    if (operands_suit(options, 2, 2) != DONE)
        return TROUBLE;
    if (layout_given(&texts.older, "OLD", options->operands[0], TO_SHOW) != DONE ||
        layout_given(&texts.newer, "NEW", options->operands[1], TO_SHOW) != DONE)
        return REFUSED;
    answer = call_extends(options->operands[0], options->operands[1]);
    return extends_answered(&texts, options->form, answer.answer);
}
