/* curlew sheet rescue: what is whole of a sheet that was cut. */
#include <stdlib.h>
#include <string.h>

#include "tool.h"

static void show_rescue(const struct options *options, const struct values *values, struct rescue_answer answer)
{
    struct entries entries = {options->form, NULL, !has(options, OPTION_NO_HEAD), 0, 0, 1, answer.answer.first};
    struct text out = {0};

    if (options->form == JSON) {
        text_char(&out, '{');
        json_number(&out, "kept", answer.answer.first);
        json_number(&out, "lost", answer.answer.second);
        json_number(&out, "bytes_dropped", answer.dropped);
        entries_json(&entries, values, &out);
        text_string(&out, "}\n");
    } else {
        entry_rows(&entries, values, &out);
        if (options->form == PEOPLE) {
            text_format(&out, "%lu kept, %lu lost, ", (unsigned long)answer.answer.first,
                        (unsigned long)answer.answer.second);
            text_count(&out, answer.dropped, "byte dropped\n", "bytes dropped\n");
        }
    }
    output_text(&out);
    text_free(&out);
}

/* Writes what was kept to the file that -o names; where that is standard output, the text goes to standard error. */
static int write_kept(const struct options *options, const struct values *values)
{
    uint8_t *sheet = get_memory(CURLEW_MAX_SHEET);
    struct curlew_answer answer = call_sheet_write(values, sheet);
    struct sink sink;

    if (answer.number == CURLEW_OK) {
        sink_open(&sink, options->output);
        sink_add(&sink, sheet, answer.first);
        sink_keep(&sink);
        if (strcmp(options->output, "-") == 0)
            output_aside();
    } else {
        refuse("sheet", answer.number);
    }
    free(sheet);
    return answer.number == CURLEW_OK ? DONE : REFUSED;
}

static int rescue(const struct options *options, const uint8_t *sheet, size_t length, size_t legs, const char *name)
{
    struct values values;
    struct rescue_answer answer;
    int status = REFUSED;

    values_start(&values);
    answer = call_sheet_rescue(sheet, length, legs, &values);
    if (answer.answer.number != CURLEW_OK) {
        refuse_sheet(name != NULL ? name : "standard input", answer.answer);
    } else {
        status = options->output != NULL ? write_kept(options, &values) : DONE;
        if (status == DONE)
            show_rescue(options, &values, answer);
    }
    values_free(&values);
    return status;
}

int command_sheet_rescue(struct options *options)
{
    int status = operands_suit(options, 1, 2);
    const char *name;
    uint8_t *sheet;
    size_t legs, length;

    if (status != DONE)
        return status;
    legs = number_between("LEGS", options->operands[0], 0, CURLEW_MAX_SLOTS);
    name = options->count > 1 ? options->operands[1] : NULL;
    sheet = get_memory(CURLEW_MAX_SHEET + 1);
    status = input_all(name, sheet, CURLEW_MAX_SHEET, "a sheet", &length);
    if (status == DONE)
        status = rescue(options, sheet, length, legs, name);
    free(sheet);
    return status;
}
