/* A file of sheets, one after the other: a sheet tells its own length. */
#include <stdlib.h>
#include <string.h>

#include "tool.h"

int sheets_open(struct sheets *sheets, const char *name)
{
    memset(sheets, 0, sizeof *sheets);
    if (!source_open(&sheets->source, name))
        return TROUBLE;
    sheets->name = sheets->source.input.name;
    sheets->bytes = get_memory(CURLEW_MAX_SHEET + 1);
    return DONE;
}

const char *sheets_where(struct sheets *sheets)
{
    struct text *where = &sheets->where;

    where->length = 0;
    text_string(where, sheets->name);
    if (sheets->several)
        text_format(where, ", sheet %llu, from byte %llu on", (unsigned long long)(sheets->number - 1),
                    (unsigned long long)sheets->from);
    text_char(where, '\0');
    return where->bytes;
}

/* Takes bytes until the sheet has that many, or the file ends. */
static void take_up_to(struct sheets *sheets, size_t length)
{
    if (sheets->length < length)
        sheets->length += source_take(&sheets->source, sheets->bytes + sheets->length, length - sheets->length);
}

/* The length that the header tells: of version 1 in two bytes, of version 2 in four. What is no sheet is taken as far
 * as a sheet goes. */
static size_t length_told(struct sheets *sheets)
{
    const uint8_t *bytes = sheets->bytes;
    uint64_t length = CURLEW_MAX_SHEET;

    take_up_to(sheets, 1);
    if (sheets->length == 1 && bytes[0] == 1) {
        take_up_to(sheets, 3);
        length = sheets->length < 3 ? 3 : 3 + ((uint64_t)bytes[1] << 8 | bytes[2]);
    } else if (sheets->length == 1 && bytes[0] == 2) {
        take_up_to(sheets, 5);
        length = sheets->length < 5 ? 5 : 5 + (uint64_t)curlew_get_number(bytes + 1);
    }
    return length <= CURLEW_MAX_SHEET ? (size_t)length : CURLEW_MAX_SHEET + 1;
}

static int refuse_it(struct sheets *sheets, size_t told, struct curlew_answer answer)
{
    sheets->lost = sheets->length != told || answer.number == CURLEW_BAD_VERSION;
    if (sheets->length > CURLEW_MAX_SHEET)
        complain("%s: it has more than 1,048,576 bytes, and a sheet has no more than that", sheets_where(sheets));
    else
        refuse_sheet(sheets_where(sheets), answer);
    if (sheets->lost && source_peek(&sheets->source) != -1)
        complain("%s: what stands after it cannot be told apart, and is not read", sheets_where(sheets));
    return -1;
}

int sheets_next(struct sheets *sheets, struct values *values)
{
    struct source *source = &sheets->source;
    struct curlew_answer answer = {CURLEW_OK, 0, 0};
    size_t told;

    if (sheets->lost)
        return 0;
    sheets->from = source->taken + source->at;
    sheets->length = 0;
    told = length_told(sheets);
    if (sheets->length == 0 && !source->failed && (sheets->number > 0 || sheets->none_is_fine))
        return 0;
    take_up_to(sheets, told);
    sheets->number++;
    sheets->several |= sheets->number > 1 || source_peek(source) != -1;
    sheets->lost = source->failed;
    if (source->failed)
        return -1;
    if (sheets->length <= CURLEW_MAX_SHEET)
        answer = call_sheet_read(sheets->bytes, sheets->length, values);
    if (answer.number != CURLEW_OK || sheets->length > CURLEW_MAX_SHEET)
        return refuse_it(sheets, told, answer);
    return 1;
}

int sheets_failed(const struct sheets *sheets)
{
    return sheets->source.failed;
}

void sheets_close(struct sheets *sheets)
{
    source_close(&sheets->source);
    free(sheets->bytes);
    text_free(&sheets->where);
}
