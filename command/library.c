/* The calls of the library, with the runs that they are lent. Every limit is the header's. */
#include <stdlib.h>
#include <string.h>

#include "tool.h"

void values_start(struct values *values)
{
    memset(values, 0, sizeof *values);
    values->area = get_memory(CURLEW_MAX_AREA);
}

/* `count` slots, none of them set. */
void values_clear(struct values *values, size_t count)
{
    memset(values->slots, 0, count * CURLEW_SLOT_SIZE);
    values->count = count;
    values->used = 0;
}

void values_free(struct values *values)
{
    free(values->area);
}

struct curlew_answer call_layout(const char *text, size_t length)
{
    uint8_t reply[CURLEW_LAYOUT_REPLY];

    curlew_layout(text, length, reply, sizeof reply);
    return curlew_get_answer(reply);
}

struct curlew_answer call_fields(const char *text, size_t length, uint8_t *rows)
{
    uint8_t reply[CURLEW_FIELDS_REPLY];

    curlew_fields(text, length, rows, CURLEW_MAX_LAYOUT * CURLEW_FIELD_SIZE, reply, sizeof reply);
    return curlew_get_answer(reply);
}

struct promises call_promises(const struct layout *layout)
{
    uint8_t reply[CURLEW_PROMISES_REPLY];
    struct promises promises;

    curlew_promises(layout->text, layout->length, reply, sizeof reply);
    promises.grows = curlew_get_answer(reply).first;
    promises.keeps = curlew_get_answer(reply).second;
    promises.joins = curlew_get_joins(reply);
    return promises;
}

struct extends_answer call_extends(const char *older, const char *newer)
{
    uint8_t reply[CURLEW_EXTENDS_REPLY];
    struct extends_answer answer;

    curlew_extends(older, strlen(older), newer, strlen(newer), reply, sizeof reply);
    answer.answer = curlew_get_answer(reply);
    answer.which = curlew_get_which(reply);
    return answer;
}

struct curlew_answer call_pack(const struct layout *layout, const struct values *values, uint8_t *record)
{
    uint8_t reply[CURLEW_PACK_REPLY];

    curlew_pack(layout->text, layout->length, values->slots, values->count * CURLEW_SLOT_SIZE, values->area,
                values->used, record, CURLEW_MAX_RECORD, reply, sizeof reply);
    return curlew_get_answer(reply);
}

struct curlew_answer call_pack_one(const struct layout *layout, const struct values *values, size_t index,
                                   uint8_t *record)
{
    const struct field *field = &layout->value_fields[index];
    uint8_t reply[CURLEW_PACK_REPLY];

    curlew_pack(layout->text + field->start, field->length, values->slots + index * CURLEW_SLOT_SIZE, CURLEW_SLOT_SIZE,
                values->area, values->used, record, CURLEW_MAX_RECORD, reply, sizeof reply);
    return curlew_get_answer(reply);
}

/* Reads into slots that are cleared first: what the record does not hold stays not set. */
struct read_answer call_read(const struct layout *layout, const uint8_t *record, size_t length, struct values *values)
{
    uint8_t reply[CURLEW_READ_REPLY];
    struct read_answer answer;

    values_clear(values, layout->values);
    curlew_read(layout->text, layout->length, record, length, values->slots, values->count * CURLEW_SLOT_SIZE,
                values->area, CURLEW_MAX_AREA, 0, reply, sizeof reply);
    answer.answer = curlew_get_answer(reply);
    answer.carried_out = curlew_get_steps(reply);
    values->used = answer.answer.second;
    return answer;
}

struct curlew_answer call_sheet_write(const struct values *values, uint8_t *sheet)
{
    uint8_t reply[CURLEW_SHEET_REPLY];

    curlew_sheet_write(values->slots, values->count * CURLEW_SLOT_SIZE, values->area, values->used, sheet,
                       CURLEW_MAX_SHEET, reply, sizeof reply);
    return curlew_get_answer(reply);
}

struct curlew_answer call_sheet_read(const uint8_t *sheet, size_t length, struct values *values)
{
    uint8_t reply[CURLEW_SHEET_REPLY];
    struct curlew_answer answer;

    values_clear(values, CURLEW_MAX_SLOTS);
    curlew_sheet_read(sheet, length, values->slots, sizeof values->slots, values->area, CURLEW_MAX_AREA, 0, reply,
                      sizeof reply);
    answer = curlew_get_answer(reply);
    if (answer.number == CURLEW_OK) {
        values->count = answer.first;
        values->used = answer.second;
    }
    return answer;
}

static size_t end_of_values(const struct values *values)
{
    size_t end = 0;
    size_t i;

    for (i = 0; i < values->count; i++) {
        struct curlew_slot slot = curlew_get_slot(values->slots, i);

        if (slot.kind != CURLEW_UNSET)
            end = slot.start + value_bytes(slot);
    }
    return end;
}

struct rescue_answer call_sheet_rescue(const uint8_t *sheet, size_t length, size_t legs, struct values *values)
{
    uint8_t reply[CURLEW_RESCUE_REPLY];
    struct rescue_answer answer;

    values_clear(values, CURLEW_MAX_SLOTS);
    curlew_sheet_rescue(sheet, length, legs, values->slots, sizeof values->slots, values->area, CURLEW_MAX_AREA, 0,
                        reply, sizeof reply);
    answer.answer = curlew_get_answer(reply);
    answer.dropped = curlew_get_dropped(reply);
    if (answer.answer.number == CURLEW_OK) {
        values->count = legs;
        values->used = end_of_values(values);
    }
    return answer;
}

struct curlew_answer call_compare(const struct layout *layout, const uint8_t *const records[2], const size_t lengths[2],
                                  struct values values[2], uint8_t *report)
{
    uint8_t reply[CURLEW_COMPARE_REPLY];
    size_t slots = layout->values * CURLEW_SLOT_SIZE;

    values_clear(&values[0], layout->values);
    values_clear(&values[1], layout->values);
    curlew_compare(layout->text, layout->length, records[0], lengths[0], records[1], lengths[1], values[0].slots, slots,
                   values[0].area, CURLEW_MAX_AREA, values[1].slots, slots, values[1].area, CURLEW_MAX_AREA, report,
                   layout->values * CURLEW_FINDING_SIZE, reply, sizeof reply);
    return curlew_get_answer(reply);
}

struct curlew_answer call_mean(const struct values *values, int *marked, double *mean)
{
    uint8_t reply[CURLEW_MEAN_REPLY];

    curlew_mean(values->slots, values->count * CURLEW_SLOT_SIZE, values->area, values->used, reply, sizeof reply);
    *marked = curlew_get_mean(reply, mean);
    return curlew_get_answer(reply);
}

struct curlew_answer call_from_perl(const char *text, size_t length, char *layout)
{
    uint8_t reply[CURLEW_PERL_REPLY];

    curlew_from_perl(text, length, layout, CURLEW_MAX_LAYOUT, reply, sizeof reply);
    return curlew_get_answer(reply);
}
