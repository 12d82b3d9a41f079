/* Values shown. */
#include <math.h>
#include <string.h>

#include "tool.h"

size_t value_bytes(struct curlew_slot slot)
{
    if (slot.kind == CURLEW_UNSET)
        return 0;
    return slot.kind == CURLEW_STRING ? slot.length : CURLEW_ITEM_SIZE * (size_t)slot.length;
}

static void add_item(struct text *to, uint32_t kind, const uint8_t *item)
{
    if (kind == CURLEW_SIGNED)
        text_signed(to, curlew_get_int(item));
    else if (kind == CURLEW_UNSIGNED)
        text_unsigned(to, curlew_get_uint(item));
    else
        text_real(to, curlew_get_double(item));
}

static void add_items(struct text *to, const struct values *values, struct curlew_slot slot)
{
    size_t i;

    for (i = 0; i < slot.length; i++) {
        if (i > 0)
            text_char(to, ',');
        add_item(to, slot.kind, values->area + slot.start + CURLEW_ITEM_SIZE * i);
    }
}

/* The value of a slot. Returns 0, and shows `not marked`, where there is none: nothing else looks like that. */
int value_cell(struct text *to, enum form form, const struct values *values, size_t index, const struct field *field)
{
    struct curlew_slot slot = curlew_get_slot(values->slots, index);
    const uint8_t *bytes = values->area + slot.start;

    if (slot.kind == CURLEW_UNSET)
        text_string(to, "not marked");
    else if (slot.kind == CURLEW_STRING && form == TSV && slot.length == 10 && memcmp(bytes, "not marked", 10) == 0)
        text_string(to, "not\\x20marked");
    else if (slot.kind != CURLEW_STRING && slot.length == 0 && form == PEOPLE)
        text_string(to, "no items");
    else if (slot.kind != CURLEW_STRING)
        add_items(to, values, slot);
    else if (form == CSV)
        text_add(to, bytes, slot.length);
    else if (form == TSV)
        text_escaped(to, bytes, slot.length);
    else if (field != NULL && field_value(field) == DIGITS && slot.length > 0)
        text_add(to, bytes, slot.length);
    else
        text_quoted(to, bytes, slot.length);
    return slot.kind != CURLEW_UNSET;
}

/* JSON has no NaN and no infinity: they are strings there. */
static void json_item(struct text *to, uint32_t kind, const uint8_t *item)
{
    int finite = kind != CURLEW_REAL || isfinite(curlew_get_double(item));

    if (!finite)
        text_char(to, '"');
    if (kind == CURLEW_REAL && finite)
        text_json_real(to, curlew_get_double(item));
    else
        add_item(to, kind, item);
    if (!finite)
        text_char(to, '"');
}

/* "marked":true,"value":..: one number where the field has no count, else a list; null where there is none. */
void value_json(struct text *to, const struct values *values, size_t index, const struct field *field)
{
    struct curlew_slot slot = curlew_get_slot(values->slots, index);
    const uint8_t *bytes = values->area + slot.start;
    int single = field != NULL && field->form == NO_COUNT;
    size_t i;

    json_key(to, "marked");
    text_string(to, slot.kind == CURLEW_UNSET ? "false" : "true");
    if (slot.kind == CURLEW_STRING) {
        json_named(to, "value", bytes, slot.length);
        return;
    }
    json_key(to, "value");
    if (slot.kind == CURLEW_UNSET)
        text_string(to, "null");
    else if (!single)
        text_char(to, '[');
    for (i = 0; slot.kind != CURLEW_UNSET && i < slot.length; i++) {
        if (i > 0)
            text_char(to, ',');
        json_item(to, slot.kind, bytes + CURLEW_ITEM_SIZE * i);
    }
    if (slot.kind != CURLEW_UNSET && !single)
        text_char(to, ']');
}
