/* Options and operands: an option may stand anywhere before `--`. */
#include <errno.h>
#include <stdlib.h>
#include <string.h>
#include <unistd.h>

#include "tool.h"

static void bad_option(const char *what, const char *which)
{
    complain("%s: %s", which, what);
    advise("curlew --help lists the commands and their options.");
    exit(TROUBLE);
}

static int all_digits(const char *text)
{
    return text[0] != '\0' && strspn(text, "0123456789") == strlen(text);
}

/* A number from `least` to `most`, or bad use. */
size_t number_between(const char *option, const char *text, size_t least, size_t most)
{
    unsigned long number;

    errno = 0;
    number = all_digits(text) ? strtoul(text, NULL, 10) : 0;
    if (!all_digits(text) || errno != 0 || number < least || number > most) {
        complain("%s %s: a number from %lu to %lu is wanted", option, text, (unsigned long)least, (unsigned long)most);
        exit(TROUBLE);
    }
    return number;
}

struct option {
    const char *name;
    unsigned bit;
    enum { ALONE, WITH_TEXT, WITH_NUMBER } takes; /* a number may be left out */
};

static const struct option long_options[] = {
    {"--json", OPTION_JSON, ALONE},
    {"--tsv", OPTION_TSV, ALONE},
    {"--csv", OPTION_CSV, ALONE},
    {"--long", OPTION_LONG, ALONE},
    {"--output", OPTION_OUTPUT, WITH_TEXT},
    {"--records", OPTION_RECORDS, WITH_NUMBER},
    {"--jobs", OPTION_JOBS, WITH_NUMBER},
    {"--record", OPTION_RECORD, ALONE},
    {"--legs", OPTION_LEGS, WITH_TEXT},
    {"--help", OPTION_HELP, ALONE},
    {"--version", OPTION_VERSION, ALONE},
    {"--extends", OPTION_EXTENDS, ALONE},
    {"--names", OPTION_NAMES, WITH_TEXT},
    {"--layout", OPTION_LAYOUT, WITH_TEXT},
    {"--fields", OPTION_FIELDS, WITH_TEXT},
    {"--strict", OPTION_STRICT, ALONE},
    {"--text", OPTION_TEXT, ALONE},
    {"--keep-going", OPTION_KEEP_GOING, ALONE},
    {"--for-spreadsheet", OPTION_FOR_SPREADSHEET, ALONE},
    {"--from", OPTION_FROM, WITH_TEXT},
    {"--count", OPTION_COUNT, WITH_TEXT},
    {"--different", OPTION_DIFFERENT, ALONE},
    {"--sheets", OPTION_SHEETS, ALONE},
    {"--files-from", OPTION_FILES_FROM, WITH_TEXT},
    {"--no-head", OPTION_NO_HEAD, ALONE},
    {"--html", OPTION_HTML, ALONE},
    {"--hex", OPTION_HEX, ALONE},
    {"--input", OPTION_INPUT, WITH_TEXT},
    {"-h", OPTION_HELP, ALONE},
    {"-o", OPTION_OUTPUT, WITH_TEXT},
    {"-j", OPTION_JOBS, WITH_NUMBER},
};

#define OPTIONS (sizeof long_options / sizeof long_options[0])

/* The name of the first option among the bits. */
const char *option_name(unsigned bits)
{
    size_t i = 0;

    while (!(long_options[i].bit & bits))
        i++;
    return long_options[i].name;
}

/* Letters put in, left out, changed or swapped with the next. */
size_t distance(const char *one, const char *other)
{
    size_t rows[3][64];
    size_t m = strlen(one), n = strlen(other), i, k;

    if (m >= 63 || n >= 63)
        return 64;
    for (k = 0; k <= n; k++)
        rows[0][k] = k;
    for (i = 1; i <= m; i++) {
        size_t *now = rows[i % 3];
        const size_t *before = rows[(i + 2) % 3], *earlier = rows[(i + 1) % 3];

        now[0] = i;
        for (k = 1; k <= n; k++) {
            now[k] = before[k - 1] + (one[i - 1] != other[k - 1]);
            now[k] = before[k] + 1 < now[k] ? before[k] + 1 : now[k];
            now[k] = now[k - 1] + 1 < now[k] ? now[k - 1] + 1 : now[k];
            if (i > 1 && k > 1 && one[i - 1] == other[k - 2] && one[i - 2] == other[k - 1] &&
                earlier[k - 2] + 1 < now[k])
                now[k] = earlier[k - 2] + 1;
        }
    }
    return rows[m % 3][n];
}

unsigned option_near(const char *word, const char **name)
{
    size_t best = 3, i;
    unsigned bit = 0;

    for (i = 0; i < OPTIONS; i++) {
        size_t away = distance(word, long_options[i].name);

        if (long_options[i].name[1] == '-' && away < best) {
            best = away;
            bit = long_options[i].bit;
            *name = long_options[i].name;
        }
    }
    return bit;
}

static void unknown_option(const char *argument)
{
    char word[64] = {0};
    const char *near;

    strncpy(word, argument, strcspn(argument, "=") < sizeof word - 1 ? strcspn(argument, "=") : sizeof word - 1);
    complain("%s: unknown option (put -- before values that begin with -)", argument);
    if (word[1] == '-' && option_near(word, &near) != 0)
        advise("Did you mean %s?", near);
    advise("curlew --help lists the commands and their options.");
    exit(TROUBLE);
}

/* The option that the argument names, and what stands joined to it: -oFILE, --output=FILE. */
static const struct option *find_option(const char *argument, const char **joined)
{
    size_t length = strcspn(argument, "=");
    size_t i;

    *joined = NULL;
    for (i = 0; i < OPTIONS; i++) {
        const char *name = long_options[i].name;

        if (name[1] == '-' && strlen(name) == length && memcmp(argument, name, length) == 0) {
            *joined = argument[length] == '=' ? argument + length + 1 : NULL;
            return &long_options[i];
        }
        if (name[1] != '-' && argument[1] == name[1] && (argument[2] == '\0' || long_options[i].takes != ALONE)) {
            *joined = argument[2] != '\0' ? argument + 2 : NULL;
            return &long_options[i];
        }
    }
    return NULL;
}

/* What stands after an option: joined to it, or the next argument. A number may be missing: NULL then. */
static const char *text_of(const struct option *option, const char *argument, const char *joined, char ***next,
                           char **end)
{
    if (option->takes == ALONE && joined != NULL)
        bad_option("this option takes nothing after a =", argument);
    if (joined != NULL || option->takes == ALONE)
        return joined;
    if (option->takes == WITH_NUMBER)
        return *next < end && all_digits(**next) ? *(*next)++ : NULL;
    if (*next == end)
        bad_option("it wants something after it", argument);
    return *(*next)++;
}

static size_t all_cores(void)
{
    long cores = sysconf(_SC_NPROCESSORS_ONLN);

    return cores > 0 ? (size_t)cores : 1;
}

static enum form form_named(const char *text)
{
    if (strcmp(text, "csv") == 0)
        return CSV;
    if (strcmp(text, "tsv") == 0)
        return TSV;
    if (strcmp(text, "json") != 0)
        bad_option("--input is csv, tsv or json", text);
    return JSON;
}

static void set_option(struct options *options, unsigned bit, const char *text)
{
    switch (bit) {
    case OPTION_JSON: options->form = JSON; break;
    case OPTION_TSV: options->form = TSV; break;
    case OPTION_CSV: options->form = CSV; break;
    case OPTION_OUTPUT: options->output = text; break;
    case OPTION_NAMES: options->names = text; break;
    case OPTION_LAYOUT: options->layout_file = text; break;
    case OPTION_FIELDS: options->fields = text; break;
    case OPTION_LEGS: options->legs = text; break;
    case OPTION_FILES_FROM: options->files_from = text; break;
    case OPTION_INPUT: options->input = form_named(text); break;
    case OPTION_FROM: options->from = number_between("--from", text, 0, 1000000000000); break;
    case OPTION_COUNT: options->count_of = number_between("--count", text, 1, 1000000000000); break;
    case OPTION_RECORDS:
        options->records = text == NULL ? 0 : number_between("--records", text, 1, CURLEW_MAX_RECORD);
        break;
    case OPTION_JOBS: options->jobs = text == NULL ? all_cores() : number_between("-j", text, 1, 256); break;
    default: break;
    }
}

static void take_option(struct options *options, const char *argument, char ***next, char **end)
{
    const char *joined;
    const struct option *option = find_option(argument, &joined);
    const char *text;

    if (option == NULL)
        unknown_option(argument);
    text = text_of(option, argument, joined, next, end);
    if ((option->bit & TABLE_FORMS) && (options->given & TABLE_FORMS & ~option->bit))
        bad_option("there is a second form for the same output", argument);
    options->given |= option->bit;
    set_option(options, option->bit, text);
}

/* -3, -.5, -inf and -nan are values, - alone is a file. */
static int is_operand(const char *argument)
{
    return argument[0] != '-' || argument[1] == '\0' || strchr("0123456789.", argument[1]) != NULL ||
           strncmp(argument, "-inf", 4) == 0 || strncmp(argument, "-nan", 4) == 0;
}

/* The operands stay in argv, moved to its front. */
void options_read(struct options *options, int argc, char **argv)
{
    char **next = argv;
    char **end = argv + argc;
    int closed = 0;

    memset(options, 0, sizeof *options);
    options->operands = argv;
    options->jobs = 1;
    options->closed = (size_t)argc;
    while (next < end) {
        char *argument = *next++;

        if (closed || is_operand(argument)) {
            argv[options->count++] = argument;
        } else if (strcmp(argument, "--") == 0) {
            closed = 1;
            options->closed = options->count;
        } else {
            take_option(options, argument, &next, end);
        }
    }
}
