/* What a record will not hold of a value. Packing cuts what is too long and keeps the low-order bits, as Tcl does;
 * people want to hear of it. */
#include <math.h>
#include <string.h>

#include "tool.h"

/* Halfway from the largest single to what would be the next: from here on it is stored for something that is no
 * neighbour of it. */
#define TOO_LARGE 0x1.ffffffp127
/* Half of the smallest single: up to here 0 is the nearest. */
#define TOO_SMALL 0x1p-150

/* Whether an integer reads back as itself. */
static int item_fits(const struct field *field, uint32_t kind, const uint8_t *item)
{
    size_t bits = 8 * item_bytes(field->type);
    uint64_t pattern = curlew_get_uint(item);
    int negative = kind == CURLEW_SIGNED && pattern >> 63;

    if (field->flag)
        return !negative && (bits == 64 || pattern >> bits == 0);
    return (negative ? ~pattern : pattern) >> (bits - 1) == 0;
}

static unsigned item_losses(const struct field *field, uint32_t kind, const uint8_t *item)
{
    double value;

    if (kind != CURLEW_REAL)
        return item_fits(field, kind, item) ? 0 : 1u << LOSS_BITS;
    if (item_bytes(field->type) != 4)
        return 0;
    value = fabs(curlew_get_double(item));
    if (value >= TOO_LARGE)
        return 1u << LOSS_LARGE;
    return value > 0 && value <= TOO_SMALL ? 1u << LOSS_SMALL : 0;
}

static unsigned text_losses(const struct field *field, const uint8_t *bytes, size_t length)
{
    if (field_value(field) == DIGITS)
        return field->form != STARRED && length < field->count ? 1u << LOSS_DIGITS : 0;
    if (field->type != 'A' || length == 0 || (field->form != STARRED && length > field->count))
        return 0;
    return bytes[length - 1] == ' ' || bytes[length - 1] == '\0' ? 1u << LOSS_BLANKS : 0;
}

unsigned value_losses(const struct field *field, const struct values *values, size_t index)
{
    struct curlew_slot slot = curlew_get_slot(values->slots, index);
    const uint8_t *bytes = values->area + slot.start;
    unsigned losses = 0;
    size_t count, i;

    if (slot.kind == CURLEW_UNSET)
        return 0;
    if (field->form != STARRED && slot.length > field->count)
        losses |= 1u << LOSS_END;
    if (slot.kind == CURLEW_STRING)
        return losses | text_losses(field, bytes, slot.length);
    count = losses != 0 ? field->count : slot.length;
    for (i = 0; i < count; i++)
        losses |= item_losses(field, slot.kind, bytes + CURLEW_ITEM_SIZE * i);
    return losses;
}

const char *loss_words(enum loss loss)
{
    switch (loss) {
    case LOSS_END: return "it is longer than the field, and its end is not stored";
    case LOSS_BITS: return "an integer does not fit, and only its low-order bits are stored";
    case LOSS_LARGE: return "a real is beyond the largest single, which is stored in its place";
    case LOSS_SMALL: return "a real is too small for a single, and 0 is stored in its place";
    case LOSS_DIGITS: return "it has fewer digits than the field, and 0 is stored for those that are missing";
    case LOSS_SPELLING: return "a number has a zero or a + in front, and only the number is kept";
    default: return "it ends with a blank or a zero byte, which reading A takes off";
    }
}

int values_noted(const struct layout *layout, const struct values *values, const struct options *options, int for_sheet)
{
    int strict = has(options, OPTION_STRICT), status = DONE;
    size_t i;
    int loss;

    for (i = 0; i < layout->values && i < values->count; i++) {
        const struct field *field = &layout->value_fields[i];
        unsigned losses = value_losses(field, values, i);

        for (loss = 0; loss < LOSSES; loss++)
            if (losses & 1u << loss) {
                complain("%svalue %lu, for field %.*s%s: %s", strict ? "" : "note: ", (unsigned long)i,
                         (int)field->length, layout->text + field->start, for_sheet ? ", as a record" : "",
                         loss_words((enum loss)loss));
                status = strict ? REFUSED : DONE;
            }
    }
    return status;
}

/* ---- the same over a table: a million rows have no note each ---- */

/* Whether a number of the cell is written otherwise than it will be shown: 00417 should stand in a text. */
static int spelled_otherwise(const struct cells *cells, const struct field *field, size_t column)
{
    const struct cell_in *cell = column < cells->columns ? &cells->cells[column] : NULL;
    const char *bytes;
    size_t i;

    if (cell == NULL || cell->length < 2 || field_value(field) != INTEGERS)
        return 0;
    bytes = cells->bytes.bytes + cell->start;
    for (i = 0; i + 1 < cell->length; i++)
        if ((i == 0 || bytes[i - 1] == ' ' || bytes[i - 1] == '-') &&
            (bytes[i] == '+' || (bytes[i] == '0' && bytes[i + 1] >= '0' && bytes[i + 1] <= '9')))
            return 1;
    return 0;
}

int losses_counted(struct losses *losses, const struct layout *layout, const struct values *values, struct cells *cells,
                   const struct options *options)
{
    size_t i;
    int loss;

    for (i = 0; i < layout->values; i++) {
        unsigned found = value_losses(&layout->value_fields[i], values, i);

        if (spelled_otherwise(cells, &layout->value_fields[i], cells->column_of[i]))
            found |= 1u << LOSS_SPELLING;
        for (loss = 0; found != 0 && loss < LOSSES; loss++)
            if (found & 1u << loss) {
                if (has(options, OPTION_STRICT)) {
                    cells_complain(cells, cells->column_of[i], loss_words((enum loss)loss));
                    return 0;
                }
                if (losses->count[i][loss]++ == 0)
                    losses->first[i][loss] = cells->row;
            }
    }
    return 1;
}

void losses_told(const struct losses *losses, const struct layout *layout, int for_sheet)
{
    size_t i;
    int loss;

    for (i = 0; i < layout->values; i++)
        for (loss = 0; loss < LOSSES; loss++)
            if (losses->count[i][loss] > 0) {
                struct text line = {0};

                text_name(&line, &layout->names, i);
                text_string(&line, ", ");
                text_count(&line, losses->count[i][loss], "row", "rows");
                text_format(&line, "%s row %llu%s: %s", losses->count[i][loss] == 1 ? "," : ", the first is",
                            (unsigned long long)losses->first[i][loss], for_sheet ? ", as a record" : "",
                            loss_words((enum loss)loss));
                complain("note: %.*s", (int)line.length, line.bytes);
                text_free(&line);
            }
}
