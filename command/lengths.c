/* The length of the records in a file, and what of them a layout does not show. */
#include <stdlib.h>
#include <string.h>

#include "tool.h"

/* Without stars every record of one length is read alike, so that one of zero bytes shows how many bytes belong to no
 * field and how many fields are set. */
static size_t bytes_not_shown(const struct layout *layout, size_t length, size_t *set)
{
    uint8_t *zeros = get_memory(length);
    struct values values;
    size_t over;

    memset(zeros, 0, length);
    values_start(&values);
    *set = call_read(layout, zeros, length, &values).answer.first;
    over = length - bytes_of_fields(layout, &values, *set, length, 1);
    values_free(&values);
    free(zeros);
    return over;
}

/* Says where the length is not the layout's own, and what is not shown then; bytes of no field are refused where
 * --strict asks for it. */
static int length_noted(const struct layout *layout, const struct options *options, size_t length)
{
    size_t set, over = bytes_not_shown(layout, length, &set);
    int strict = has(options, OPTION_STRICT) && over > 0;
    struct text line = {0};

    if (length != layout->least)
        text_format(&line, "--records %lu, and the layout's own length is %lu", (unsigned long)length,
                    (unsigned long)layout->least);
    else if (over > 0 && (options->form != PEOPLE || strict))
        text_string(&line, "not all of a record is shown");
    if (line.length > 0 && over > 0) {
        text_string(&line, ": ");
        text_count(&line, over, "byte of each record belongs to no field", "bytes of each record belong to no field");
    }
    if (line.length > 0 && set < layout->values) {
        text_string(&line, over > 0 ? ", and " : ": ");
        text_count(&line, layout->values - set, "field at its end is not marked", "fields at its end are not marked");
    }
    if (line.length > 0)
        complain("%s%.*s", strict ? "" : "note: ", (int)line.length, line.bytes);
    text_free(&line);
    return strict ? REFUSED : DONE;
}

int record_length(const struct layout *layout, const struct options *options, size_t *length)
{
    int table = options->form != PEOPLE && !has(options, OPTION_LONG);
    int many = has(options, OPTION_RECORDS | OPTION_FROM | OPTION_COUNT | OPTION_JOBS);

    *length = options->records;
    if (*length == 0 && (many || table) && !layout->starred && layout->least <= CURLEW_MAX_RECORD)
        *length = layout->least;
    if (*length == 0 && many) {
        complain("--records: the layout does not tell the length of its records: say it, as in --records 26");
        return TROUBLE;
    }
    return *length > 0 && !layout->starred ? length_noted(layout, options, *length) : DONE;
}
