/* Refusals in words: what, where, and what to do. The number is the library's, so that a C programmer finds it in
 * curlew.h. */
#include <stdio.h>

#include "tool.h"

#define DIGITS_OF(limit) #limit
#define LIMIT(limit) DIGITS_OF(limit)
#define TYPES "a A b B h H c s S i I w W r R q Q x X @"

struct words {
    const char *what;
    const char *advice;
};

static struct words words_of(uint32_t number)
{
    static const struct words all[] = {
        {"accepted", NULL},
        {"something is larger than its limit", "curlew(1) lists the limits."},
        {"unknown type", "Types are " TYPES "; a flag u and a count stand directly after their type."},
        {"the count is too large", "A count is at most " LIMIT(CURLEW_MAX_COUNT) "."},
        {"an @ without a count, or an x* in packing",
         "Write the byte after the @, a number after the x; reading takes x*."},
        {"more values than there are slots",
         "A layout has at most " LIMIT(CURLEW_MAX_SLOTS) " values: put marks of one kind together, as in Su5."},
        {"it is not marked, and a record has no place for a value that is missing",
         "Keep it in a sheet: curlew sheet write."},
        {"the slot is damaged", NULL},
        {"it is of another kind than the field wants",
         "Text for a A, digits for b B h H, integers for c s S i I w W, reals for r R q Q."},
        {"too few numbers for the count, or not exactly one where there is no count",
         "Give as many as the count says, as in 61,0,88."},
        {"it has a character that is no digit", "Give 0 and 1 for b B, 0 to 9 and a to f for h H."},
        {"the result is too long",
         "A record has at most " LIMIT(CURLEW_MAX_RECORD) " bytes, and the values read from one at most " LIMIT(
             CURLEW_MAX_AREA) "."},
        {"the sheet was cut or damaged", "curlew sheet rescue LEGS keeps what is whole of it."},
        {"this is no sheet", "A sheet begins with the byte 1 or 2: is this a record? curlew read LAYOUT shows one."},
        {"the mark lies outside 0 to " LIMIT(CURLEW_MAX_MARK), "Choose the legs with --legs, as in --legs 2-4."},
        {"a template cannot go on like this, or it ends too soon",
         "Letters are a b B h H x C n N v V with a count from 1 to 4096; groups in ( ) may be repeated 1 to 64 times."},
        {"it holds a NaN, and r R have none to store", "Leave it out, or use q or Q."},
    };

    if (number < sizeof all / sizeof all[0])
        return all[number];
    return (struct words){"refused", NULL};
}

const char *refusal_words(uint32_t number, const char **advice)
{
    *advice = words_of(number).advice;
    return words_of(number).what;
}

void refuse(const char *where, uint32_t number)
{
    struct words words = words_of(number);

    complain("%s: %s (number %lu)", where, words.what, (unsigned long)number);
    if (words.advice != NULL)
        advise("%s", words.advice);
}

/* The numbers 2 to 4 and 15 point at a byte of the text. */
static void refuse_at(const char *name, const char *text, size_t length, struct curlew_answer answer)
{
    struct words words = words_of(answer.number);

    complain("%s, byte %lu: %s (number %lu)", name, (unsigned long)answer.first, words.what,
             (unsigned long)answer.number);
    caret(text, length, answer.first);
    advise("%s", words.advice);
}

/* A tab or a line end looks like a space, and is none. */
static int is_white(char c)
{
    return c >= '\t' && c <= '\r';
}

/* Layouts from a file: the line of the field that the place is in. */
static void advise_line(const struct layout *layout, size_t place)
{
    size_t field = 0, i;

    if (layout->file_name == NULL)
        return;
    for (i = 0; i < place && i < layout->length; i++)
        field += layout->text[i] == ' ';
    advise("It stands in line %lu of %s.", (unsigned long)layout->lines[field], layout->file_name);
}

void refuse_layout(const struct layout *layout, const char *name, struct curlew_answer answer)
{
    const char *text = layout->text;
    size_t length = layout->length;

    if (answer.number == CURLEW_BAD_TYPE && answer.first < length && is_white(text[answer.first])) {
        complain("%s, byte %lu: a %s stands there, and only spaces stand between fields (number 2)", name,
                 (unsigned long)answer.first, text[answer.first] == '\t' ? "tab" : "line end or other white space");
        caret(text, length, answer.first);
        advise("Put a space there; --layout FILE takes a layout of several lines.");
    } else if (answer.number == CURLEW_BAD_SIZE) {
        complain("%s: it has %lu bytes, and a layout has at most %d (number 1)", name, (unsigned long)length,
                 CURLEW_MAX_LAYOUT);
        advise("Leave out the spaces, or put fields of one type together, as in Su5.");
    } else if (answer.number >= CURLEW_BAD_TYPE && answer.number <= CURLEW_BAD_MOVE) {
        refuse_at(name, text, length, answer);
        advise_line(layout, answer.first);
    } else {
        refuse(name, answer.number);
    }
}

void refuse_template(const char *text, size_t length, struct curlew_answer answer)
{
    if (answer.number == CURLEW_BAD_TEMPLATE) {
        refuse_at("template", text, length, answer);
    } else if (answer.number == CURLEW_BAD_SIZE) {
        complain("template: it has %lu bytes, and a template has at most %d (number 1)", (unsigned long)length,
                 CURLEW_MAX_TEMPLATE);
        advise("Write what repeats as a group, as in (n2a3)12.");
    } else {
        complain("template: the layout would have more than %d bytes (number %lu)", CURLEW_MAX_LAYOUT,
                 (unsigned long)answer.number);
        advise("Repeat a group less often, or describe the record by two layouts.");
    }
}

/* The numbers of packing that a value is to blame for point at a slot: the caret shows its field. */
void refuse_value(const struct layout *layout, struct curlew_answer answer)
{
    const struct field *field = &layout->value_fields[answer.first];
    struct words words = words_of(answer.number);

    if (answer.number == CURLEW_NO_ROOM || answer.number <= CURLEW_BAD_SLOTS || answer.first >= layout->values) {
        refuse("record", answer.number);
        return;
    }
    complain("value %lu, for field %.*s: %s (number %lu)", (unsigned long)answer.first, (int)field->length,
             layout->text + field->start, words.what, (unsigned long)answer.number);
    caret(layout->text, layout->length, field->start);
    if (words.advice != NULL)
        advise("%s", words.advice);
}

void refuse_sheet(const char *name, struct curlew_answer answer)
{
    struct words words = words_of(answer.number);

    if (answer.number == CURLEW_BAD_SHEET) {
        complain("%s, byte %lu: %s (number %lu)", name, (unsigned long)answer.first, words.what,
                 (unsigned long)answer.number);
        advise("%s", words.advice);
    } else if (answer.number == CURLEW_BAD_SLOTS) {
        complain("%s: it has more than %d entries (number 5)", name, CURLEW_MAX_SLOTS);
        advise("No call takes a table of that size; curlew sheet rescue %d keeps the first ones.", CURLEW_MAX_SLOTS);
    } else {
        refuse(name, answer.number);
    }
}
