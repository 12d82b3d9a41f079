/* What pack and sheet share: values that suit a layout, packed, and bytes written or shown in hex. */
#include <stdlib.h>
#include <string.h>

#include "tool.h"

/* There must be a value for each field that takes one, and none over. */
int values_suit(const struct layout *layout, size_t count)
{
    if (count == layout->values)
        return DONE;
    complain("values: the layout wants %lu, and it got %lu (number %d)", (unsigned long)layout->values,
             (unsigned long)count, CURLEW_BAD_SLOTS);
    advise("curlew layout shows the fields. A field with a count takes one list, as 61,0,88 for Su3; "
           "no layout takes more than %d.",
           CURLEW_MAX_SLOTS);
    return REFUSED;
}

/* Bytes as they are, to a file or on; or as hex digits. */
void show_bytes(const struct options *options, const uint8_t *bytes, size_t length)
{
    struct text out = {0};
    struct sink sink;

    if (!has(options, OPTION_HEX) || options->output != NULL) {
        sink_open(&sink, options->output);
        sink_add(&sink, bytes, length);
        sink_keep(&sink);
    }
    if (!has(options, OPTION_HEX))
        return;
    if (options->output != NULL && strcmp(options->output, "-") == 0)
        output_aside();
    text_hex(&out, bytes, length);
    text_char(&out, '\n');
    output_text(&out);
    text_free(&out);
}

/* Packs the values and shows the record. */
int pack_and_show(const struct options *options, const struct layout *layout, const struct values *values)
{
    uint8_t *record = get_memory(CURLEW_MAX_RECORD);
    struct curlew_answer answer = call_pack(layout, values, record);
    int status = REFUSED;

    if (answer.number == CURLEW_OK)
        status = values_noted(layout, values, options, 0);
    else
        refuse_value(layout, answer);
    if (status == DONE)
        show_bytes(options, record, answer.first);
    free(record);
    return status;
}

int table_options(const struct options *options)
{
    int status = needs(options, OPTION_KEEP_GOING | OPTION_NO_HEAD, TABLE_FORMS, "a table (--csv, --tsv or --json)");

    if (status == DONE)
        status = needs(options, OPTION_FOR_SPREADSHEET, OPTION_CSV | OPTION_TSV, "--csv or --tsv");
    if (status == DONE && has(options, OPTION_NO_HEAD) && has(options, OPTION_JSON))
        status = bad_use(options, "--no-head has no meaning with --json", "");
    if (status == DONE && has(options, OPTION_HEX | OPTION_TEXT) && has(options, TABLE_FORMS))
        status =
            bad_use(options, "a table is not taken with ", option_name(options->given & (OPTION_HEX | OPTION_TEXT)));
    return status;
}
