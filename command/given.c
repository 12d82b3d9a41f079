/* Values taken from text: arguments of the command line, and cells of tables. */
#include <errno.h>
#include <math.h>
#include <stdlib.h>
#include <string.h>

#include "tool.h"

/* A value given as text: a list of numbers may be longer than the values it stands for. */
#define LONGEST_TEXT (4 * (size_t)CURLEW_MAX_AREA)

struct given {
    const uint8_t *bytes;
    size_t length;
};

/* ---- lists of numbers ---- */

static int is_space(uint8_t c)
{
    return c == ' ' || (c >= '\t' && c <= '\r');
}

static int is_end(uint8_t c)
{
    return c == ',' || is_space(c);
}

/* Decimal digits, perhaps with a sign. Returns 0 where it is none, or does not fit 64 bits. */
static int take_integer(const uint8_t *token, size_t length, int *negative, uint64_t *size)
{
    size_t i = length > 0 && (token[0] == '-' || token[0] == '+') ? 1 : 0;

    *negative = i == 1 && token[0] == '-';
    *size = 0;
    if (i == length)
        return 0;
    for (; i < length; i++) {
        unsigned digit = (unsigned)token[i] - '0';

        if (digit > 9 || *size > (UINT64_MAX - digit) / 10)
            return 0;
        *size = 10 * *size + digit;
    }
    return !*negative || *size <= (uint64_t)1 << 63;
}

/* nan, -nan, nan(0x7ff): as reals are shown, so that every pattern can be given. */
static int take_nan(const char *token, uint64_t *pattern)
{
    uint64_t sign = token[0] == '-' ? (uint64_t)1 << 63 : 0;
    uint64_t payload = (uint64_t)1 << 51;
    char *end;

    token += token[0] == '-' ? 1 : 0;
    if (strncmp(token, "nan", 3) != 0)
        return 0;
    if (token[3] != '\0') {
        if (strncmp(token, "nan(0x", 6) != 0 || strspn(token + 6, "0123456789abcdef") > 13)
            return 0;
        payload = strtoull(token + 6, &end, 16);
        if (strcmp(end, ")") != 0 || payload == 0 || payload >> 52)
            return 0;
    }
    *pattern = sign | (uint64_t)0x7ff << 52 | payload;
    return 1;
}

/* Returns 0 where it is no number, or too large or too small for a double. */
static int take_real(const uint8_t *token, size_t length, uint64_t *pattern)
{
    char copy[512];
    uint8_t item[CURLEW_ITEM_SIZE];
    double value;
    char *end;

    if (length == 0 || length >= sizeof copy)
        return 0;
    memcpy(copy, token, length);
    copy[length] = '\0';
    if (strlen(copy) != length || take_nan(copy, pattern))
        return strlen(copy) == length;
    errno = 0;
    value = strtod(copy, &end);
    if (end != copy + length || is_space(token[0]) || isnan(value) || (errno == ERANGE && (value == 0 || isinf(value))))
        return 0;
    curlew_put_double(item, value);
    *pattern = curlew_get_uint(item);
    return 1;
}

/* The next token of a list; commas or white space stand between two. Returns 0 at the end. */
static int next_token(const struct given *given, size_t *at, const uint8_t **token, size_t *length)
{
    const uint8_t *bytes = given->bytes;
    int comma = *at > 0;

    while (*at < given->length && is_space(bytes[*at]))
        ++*at;
    if (*at == given->length)
        return 0;
    if (comma && bytes[*at] == ',')
        for (++*at; *at < given->length && is_space(bytes[*at]);)
            ++*at;
    *token = bytes + *at;
    while (*at < given->length && !is_end(bytes[*at]))
        ++*at;
    *length = (size_t)(bytes + *at - *token);
    return 1;
}

/* ---- values put into the area ---- */

static int set_fault(struct fault *fault, const uint8_t *text, size_t length, const char *what, const char *advice)
{
    fault->text = text;
    fault->length = length;
    fault->what = what;
    fault->advice = advice;
    return 0;
}

static int bad_number(struct fault *fault, const uint8_t *token, size_t length, const char *what)
{
    return set_fault(fault, token, length, what, "Give numbers with commas or spaces between them, as in 1,2,-3.");
}

void text_fault(struct text *to, const struct fault *fault)
{
    if (fault->text != NULL && fault->length == 0)
        text_string(to, "nothing beside a comma ");
    else if (fault->text != NULL) {
        text_quoted(to, fault->text, fault->length < 40 ? fault->length : 40);
        text_char(to, ' ');
    }
    text_string(to, fault->what);
}

/* Where `bytes` more may be put, or NULL with the fault. */
static uint8_t *area_room(struct values *values, size_t bytes, struct fault *fault)
{
    if (bytes <= CURLEW_MAX_AREA - values->used)
        return values->area + values->used;
    set_fault(fault, NULL, 0, "all values together take more than 524288 bytes",
              "Leave something out; a number takes eight bytes.");
    return NULL;
}

/* A slot after the others, over what was put after the values in use. The header's helper keeps to the limits. */
static int close_slot(struct values *values, uint32_t kind, size_t length)
{
    struct curlew_table table = {values->slots,
                                 sizeof values->slots,
                                 values->count * CURLEW_SLOT_SIZE,
                                 values->area,
                                 CURLEW_MAX_AREA,
                                 values->used,
                                 0};

    if (!curlew_table_add(&table, kind, length, kind == CURLEW_STRING || kind == CURLEW_UNSET ? 1 : CURLEW_ITEM_SIZE))
        return 0;
    values->count = curlew_table_count(&table);
    values->used = table.area_used;
    return 1;
}

void value_unset(struct values *values)
{
    close_slot(values, CURLEW_UNSET, 0);
}

static int add_string(struct values *values, const struct given *given, struct fault *fault)
{
    uint8_t *to = area_room(values, given->length, fault);

    if (to == NULL)
        return 0;
    if (given->length > 0)
        memcpy(to, given->bytes, given->length);
    return close_slot(values, CURLEW_STRING, given->length);
}

/* Signed or, where the field says so or a number asks for it, unsigned. */
static int add_integers(struct values *values, const struct given *given, int flag, struct fault *fault)
{
    int negatives = 0, large = 0, negative;
    size_t at = 0, count = 0, length;
    const uint8_t *token;
    uint64_t size;

    while (next_token(given, &at, &token, &length)) {
        uint8_t *to = area_room(values, CURLEW_ITEM_SIZE * (count + 1), fault);

        if (to == NULL)
            return 0;
        if (!take_integer(token, length, &negative, &size))
            return bad_number(fault, token, length, "is not an integer of 64 bits");
        curlew_put_uint(to + CURLEW_ITEM_SIZE * count++, negative ? ~size + 1 : size);
        negatives |= negative && size > 0;
        large |= !negative && size >> 63;
    }
    if (negatives && large)
        return set_fault(fault, NULL, 0,
                         "it has numbers below 0 and numbers above 9223372036854775807, and no list holds both",
                         "A list of 64-bit integers is signed or unsigned: give them to two fields.");
    return close_slot(values, large || (flag && !negatives) ? CURLEW_UNSIGNED : CURLEW_SIGNED, count);
}

static int add_reals(struct values *values, const struct given *given, struct fault *fault)
{
    size_t at = 0, count = 0, length;
    const uint8_t *token;
    uint64_t pattern;

    while (next_token(given, &at, &token, &length)) {
        uint8_t *to = area_room(values, CURLEW_ITEM_SIZE * (count + 1), fault);

        if (to == NULL)
            return 0;
        if (!take_real(token, length, &pattern))
            return bad_number(fault, token, length, "is not a real of 64 bits");
        curlew_put_uint(to + CURLEW_ITEM_SIZE * count++, pattern);
    }
    return close_slot(values, CURLEW_REAL, count);
}

int value_put(struct values *values, const struct field *field, const uint8_t *bytes, size_t length,
              struct fault *fault)
{
    struct given given = {bytes, length};

    switch (field_value(field)) {
    case INTEGERS: return add_integers(values, &given, field->flag, fault);
    case REALS: return add_reals(values, &given, fault);
    default: return add_string(values, &given, fault);
    }
}

/* ---- arguments ---- */

static int bad_argument(const char *argument, size_t number, const struct fault *fault)
{
    struct text shown = {0};

    text_fault(&shown, fault);
    complain("value %lu%s%s: %.*s", (unsigned long)number, argument != NULL ? ", " : "",
             argument != NULL ? argument : "", (int)shown.length, shown.bytes);
    advise("%s", fault->advice);
    text_free(&shown);
    return REFUSED;
}

/* A text of digits from a file has no line end; another text keeps it, and a note says so. */
static void line_end(const char *argument, const struct field *field, size_t number, const uint8_t *bytes,
                     size_t *length)
{
    if (*length == 0 || bytes[*length - 1] != '\n')
        return;
    if (field_value(field) == DIGITS)
        *length -= *length > 1 && bytes[*length - 2] == '\r' ? 2 : 1;
    else if (field_value(field) == CHARACTERS)
        complain("note: value %lu, %s: the text ends with a line end, which is part of it", (unsigned long)number,
                 argument);
}

static int value_from_file(struct values *values, const struct field *field, const char *argument)
{
    uint8_t *bytes = get_memory(LONGEST_TEXT + 1);
    size_t length;
    int status = input_all(argument + 1, bytes, LONGEST_TEXT, "a value", &length);
    struct fault fault;

    if (status == DONE) {
        line_end(argument, field, values->count, bytes, &length);
        if (!value_put(values, field, bytes, length, &fault))
            status = bad_argument(argument, values->count, &fault);
    }
    free(bytes);
    return status;
}

/* `@` alone is a value that is not marked, @FILE one from a file, @@text the text @text, all else itself; and all is
 * itself as text. */
static int value_from_argument(struct values *values, const struct field *field, const char *argument, int as_text,
                               int for_sheet)
{
    enum value_form form = field_value(field);
    const char *from = argument;
    struct fault fault;

    if (!as_text && strcmp(argument, "@") == 0) {
        value_unset(values);
        return DONE;
    }
    if (!as_text && argument[0] == '@' && argument[1] != '@')
        return value_from_file(values, field, argument);
    if (!as_text && argument[0] == '@')
        from++;
    if (for_sheet && argument[0] == '\0' && (form == INTEGERS || form == REALS)) {
        complain("value %lu: there is no number in it", (unsigned long)values->count);
        advise("@ is not marked; '' is an empty text and no number.");
        return REFUSED;
    }
    if (!value_put(values, field, (const uint8_t *)from, strlen(from), &fault))
        return bad_argument(NULL, values->count, &fault);
    return DONE;
}

/* Standard input can be read once. */
static int twice_standard_input(const struct options *options)
{
    size_t i, count = 0;

    for (i = 0; i < options->count && i < options->closed && !has(options, OPTION_TEXT); i++)
        count += strcmp(options->operands[i], "@-") == 0;
    return count > 1 ? bad_use(options, "only one value can come from standard input (@-)", "") : DONE;
}

int values_from_arguments(struct values *values, const struct layout *layout, const struct options *options,
                          int for_sheet)
{
    int status = twice_standard_input(options);
    size_t i;

    if (status == DONE)
        status = values_suit(layout, options->count);
    values_clear(values, 0);
    for (i = 0; i < options->count && status == DONE; i++)
        status = value_from_argument(values, &layout->value_fields[i], options->operands[i],
                                     has(options, OPTION_TEXT) || i >= options->closed, for_sheet);
    return status;
}
