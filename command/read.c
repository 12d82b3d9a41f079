/* curlew read: what a record says, or a file of them. */
#include <stdlib.h>
#include <string.h>

#include "tool.h"

/* All of a file is one record. */
static int read_one(struct desk *desk, const char *name)
{
    uint8_t *bytes = get_memory(CURLEW_MAX_RECORD + 1);
    struct record record = {bytes, 0, 0, 0, 0, {{0, 0, 0}, 0}};
    int status = input_all(name, bytes, CURLEW_MAX_RECORD, "a record", &record.length);

    if (status == REFUSED)
        advise("--records N reads a file of records of N bytes each.");
    if (status == DONE) {
        desk_head(desk);
        if (record_show(desk, &record)) {
            output_text(&desk->out);
            note_over(desk->options, record.over > 0, record.over);
        } else {
            record_refused(&record);
            status = REFUSED;
        }
    }
    free(bytes);
    return status;
}

static int read_by(const struct layout *layout, const struct options *options)
{
    const char *name = options->count > 0 ? options->operands[0] : NULL;
    struct desk desk;
    size_t length;
    int status = record_length(layout, options, &length);

    if (status != DONE)
        return status;
    desk_start(&desk, layout, options);
    status = length > 0 ? read_many(&desk, length, name) : read_one(&desk, name);
    desk_end(&desk);
    return status;
}

int command_read(struct options *options)
{
    static struct layout layout;
    int status = needs(options, OPTION_JOBS | OPTION_FROM | OPTION_COUNT, OPTION_RECORDS | TABLE_FORMS,
                       "--records, --csv, --tsv or --json");

    if (status == DONE)
        status = needs(options, OPTION_FOR_SPREADSHEET, OPTION_CSV | OPTION_TSV, "--csv or --tsv");
    if (status == DONE)
        status = needs(options, OPTION_LONG, TABLE_FORMS, "--csv, --tsv or --json");
    if (status == DONE)
        status = layout_take(&layout, options, TO_READ);
    if (status == DONE)
        status = operands_suit(options, 0, 1);
    if (status == DONE)
        status = read_by(&layout, options);
    layout_free(&layout);
    return status;
}
