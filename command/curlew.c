/*
 * curlew: what a record says, for people who write no C.
 *
 * The subcommands, what each takes and says of itself; the rest is in the files beside this one.
 */
#include <stdio.h>
#include <stdlib.h>
#include <string.h>

#include "tool.h"

#define FORMS TABLE_FORMS
#define NAMED (OPTION_NAMES | OPTION_LAYOUT)
#define TABLES (NAMED | OPTION_NO_HEAD | OPTION_FOR_SPREADSHEET)
#define SOME (OPTION_FROM | OPTION_COUNT)

struct command {
    const char *name, *second;
    const char *takes; /* a line for each way to call it */
    const char *gives;
    unsigned options;
    int (*run)(struct options *options);
};

static const struct command commands[] = {
    {"layout", NULL, "LAYOUT\n--extends OLD NEW",
     "the fields of a layout and what it promises, or whether NEW is OLD with fields added",
     FORMS | NAMED | OPTION_EXTENDS | OPTION_NO_HEAD, command_layout},
    {"pack", NULL, "LAYOUT VALUE... [-o FILE]\n--csv LAYOUT [TABLE] [-o FILE]",
     "values become a record, or the rows of a table a file of records",
     FORMS | TABLES | OPTION_OUTPUT | OPTION_HEX | OPTION_TEXT | OPTION_STRICT | OPTION_KEEP_GOING, command_pack},
    {"read", NULL, "LAYOUT [FILE]\n--csv LAYOUT [FILE] [--records N] [-j [N]]\n--records [N] LAYOUT [FILE] [-j [N]]",
     "what a record says, or a file of records, as a table or one by one",
     FORMS | TABLES | SOME | OPTION_LONG | OPTION_RECORDS | OPTION_JOBS | OPTION_FIELDS | OPTION_STRICT, command_read},
    {"show", NULL, "LAYOUT FILE [FILE] [--html]", "the bytes of a record, or of two copies, each with its field",
     NAMED | OPTION_HTML | OPTION_OUTPUT, command_show},
    {"sheet", "write", "LAYOUT VALUE... [-o FILE]\n--record LAYOUT [FILE] [-o FILE]\n--csv LAYOUT [TABLE] [-o FILE]",
     "values, those of a record, or the rows of a table become sheets",
     FORMS | TABLES | OPTION_OUTPUT | OPTION_HEX | OPTION_RECORD | OPTION_TEXT | OPTION_STRICT | OPTION_KEEP_GOING,
     command_sheet_write},
    {"sheet", "read", "[SHEETS]\n--csv [SHEETS] [--names LIST]\n--record LAYOUT [SHEET] [-o FILE]",
     "what sheets say, as a table or one by one, or a record of one",
     FORMS | TABLES | OPTION_LONG | OPTION_OUTPUT | OPTION_HEX | OPTION_RECORD | OPTION_FIELDS | OPTION_STRICT,
     command_sheet_read},
    {"sheet", "rescue", "LEGS [SHEET] [-o FILE]", "what is whole of a sheet that was cut",
     FORMS | OPTION_NO_HEAD | OPTION_OUTPUT, command_sheet_rescue},
    {"compare", NULL, "LAYOUT FILE FILE\n--records [N] LAYOUT FILE FILE\n--sheets FILE FILE",
     "what differs between two copies of a record, of a file of records, or of sheets",
     FORMS | NAMED | SOME | OPTION_FIELDS | OPTION_NO_HEAD | OPTION_RECORDS | OPTION_SHEETS | OPTION_DIFFERENT |
         OPTION_STRICT,
     command_compare},
    {"mean", NULL,
     "[SHEETS...] [--legs LIST]\n--records [N] LAYOUT [FILE...] [--legs LIST]\n"
     "--input csv LAYOUT [TABLE...] [--legs LIST]",
     "the mean of the marked legs of each sheet, record or row",
     FORMS | NAMED | SOME | OPTION_FIELDS | OPTION_NO_HEAD | OPTION_LEGS | OPTION_FILES_FROM | OPTION_RECORDS |
         OPTION_INPUT,
     command_mean},
    {"perl", NULL, "TEMPLATE", "the layout of a Perl pack template", FORMS, command_perl},
};

#define COMMANDS (sizeof commands / sizeof commands[0])

static void text_command(struct text *to, const struct command *command)
{
    text_string(to, command->name);
    if (command->second != NULL)
        text_format(to, " %s", command->second);
}

/* The ways to call it, each after the lead. */
static void text_ways(struct text *to, const struct command *command, const char *lead, const char *next)
{
    const char *way = command->takes;

    while (*way != '\0') {
        size_t length = strcspn(way, "\n");

        text_string(to, way == command->takes ? lead : next);
        text_command(to, command);
        text_format(to, " %.*s\n", (int)length, way);
        way += length + (way[length] == '\n');
    }
}

static void usage_of(const struct command *command, struct text *to)
{
    text_ways(to, command, "usage: curlew ", "       curlew ");
    text_format(to, "       %s\n", command->gives);
}

struct line {
    unsigned options;
    const char *text;
};

static const struct line option_lines[] = {
    {OPTION_CSV, "--csv             a table with commas, a row a record; pack and sheet write take one"},
    {OPTION_TSV, "--tsv             the same with tabs"},
    {OPTION_JSON, "--json            the same as an object a line, null where there is no mark"},
    {OPTION_LONG, "--long            a row a field, and not a row a record"},
    {OPTION_NAMES, "--names LIST      what the values are called, as number,name,written"},
    {OPTION_LAYOUT, "--layout FILE     in place of LAYOUT: a line a field, its name and the field"},
    {OPTION_FIELDS, "--fields LIST     only these, by name or number, as oral,steno or 3-"},
    {OPTION_NO_HEAD, "--no-head         a table without a line of names"},
    {OPTION_FOR_SPREADSHEET,
     "--for-spreadsheet ' before texts that a spreadsheet would compute, and lines end in CRLF"},
    {OPTION_OUTPUT, "-o FILE           writes the record or sheet there, whole or not at all"},
    {OPTION_HEX, "--hex             the bytes as hex digits"},
    {OPTION_STRICT, "--strict          what would be noted is refused"},
    {OPTION_KEEP_GOING, "--keep-going      leaves bad rows of a table out and lists them; the status is 1"},
    {OPTION_TEXT, "--text            no value is @FILE or @: each is the text itself"},
    {OPTION_RECORD, "--record          sheet write: from a record; sheet read: into a record"},
    {OPTION_RECORDS, "--records [N]     a file of records of N bytes, or of the layout's own length"},
    {OPTION_FROM, "--from K          from record K on"},
    {OPTION_COUNT, "--count N         no more than N records"},
    {OPTION_JOBS, "-j [N]            N threads, or as many as there are cores"},
    {OPTION_SHEETS, "--sheets          compare: files of sheets, without a layout"},
    {OPTION_DIFFERENT, "--different       compare: only what differs"},
    {OPTION_LEGS, "--legs LIST       the entries that are legs, as 2-4,6 or 2- or written,oral"},
    {OPTION_INPUT, "--input FORM      mean: of a table, csv, tsv or json"},
    {OPTION_FILES_FROM, "--files-from FILE the names of files, a line each"},
    {OPTION_HTML, "--html            show: as a page for a browser"},
    {OPTION_EXTENDS, "--extends         layout: whether a second layout is the first one with fields added"},
};

static void text_options(struct text *to, unsigned options)
{
    size_t i;

    for (i = 0; i < sizeof option_lines / sizeof option_lines[0]; i++)
        if (option_lines[i].options & options)
            text_format(to, "  %s\n", option_lines[i].text);
}

static void usage(struct text *to)
{
    size_t i;

    text_string(to, "usage: curlew COMMAND ...\n\n");
    for (i = 0; i < COMMANDS; i++) {
        text_ways(to, &commands[i], "  ", "  ");
        text_format(to, "      %s\n", commands[i].gives);
    }
    text_string(
        to,
        "  help [COMMAND]\n      how a command is used\n\n"
        "A VALUE is text as it is, or numbers as 1,2,-3; @FILE takes it from a file, @ alone is not marked. Behind --\n"
        "all are taken as they are. Without a FILE, TABLE or SHEET, or with -, standard input is read.\n\n");
    text_options(to, ~0u);
    text_string(to,
                "  --help, --version\n\n"
                "Exit status: 0 done, 1 differences or a refusal, 2 bad use or a file that cannot be read or written.\n"
                "curlew(1) says more.\n");
}

static int show_usage(const struct command *command)
{
    struct text out = {0};

    if (command != NULL) {
        usage_of(command, &out);
        text_char(&out, '\n');
        text_options(&out, command->options);
    } else {
        usage(&out);
    }
    output_text(&out);
    text_free(&out);
    return DONE;
}

static int show_version(void)
{
    struct text out = {0};

    text_string(&out, "curlew " CURLEW_VERSION "\n");
    output_text(&out);
    text_free(&out);
    return DONE;
}

int bad_use(const struct options *options, const char *what, const char *which)
{
    struct text shown = {0};

    text_command(&shown, options->command);
    complain("%.*s: %s%s", (int)shown.length, shown.bytes, what, which);
    shown.length = 0;
    usage_of(options->command, &shown);
    fwrite(shown.bytes, 1, shown.length, stderr);
    text_free(&shown);
    return TROUBLE;
}

int operands_suit(const struct options *options, size_t least, size_t most)
{
    if (options->count < least)
        return bad_use(options, "too little was given", "");
    if (options->count > most)
        return bad_use(options, "too much was given, from here on: ", options->operands[most]);
    return DONE;
}

int needs(const struct options *options, unsigned option, unsigned others, const char *words)
{
    struct text what = {0};

    if (!has(options, option) || has(options, others))
        return DONE;
    text_format(&what, "%s has no meaning without %s%c", option_name(options->given & option), words, '\0');
    bad_use(options, what.bytes, "");
    text_free(&what);
    return TROUBLE;
}

static void advise_near(const char *word)
{
    size_t best = 3, i;
    const char *near = NULL;

    for (i = 0; i < COMMANDS; i++)
        if (distance(word, commands[i].name) < best) {
            best = distance(word, commands[i].name);
            near = commands[i].name;
        }
    if (near != NULL)
        advise("Did you mean %s?", near);
}

static int no_command(const struct options *options)
{
    if (options->count == 0) {
        complain("no command was given");
    } else if (strcmp(options->operands[0], "sheet") == 0) {
        complain("sheet: it is write, read or rescue");
    } else {
        complain("%s: unknown command", options->operands[0]);
        advise_near(options->operands[0]);
    }
    advise("curlew --help lists the commands.");
    return TROUBLE;
}

/* The command that the first operands name; they are taken off. */
static const struct command *find(struct options *options)
{
    size_t i;

    for (i = 0; i < COMMANDS; i++) {
        size_t words = commands[i].second != NULL ? 2 : 1;

        if (options->count >= words && strcmp(options->operands[0], commands[i].name) == 0 &&
            (words == 1 || strcmp(options->operands[1], commands[i].second) == 0)) {
            options->operands += words;
            options->count -= words;
            options->closed -= options->closed < words ? options->closed : words;
            return &commands[i];
        }
    }
    return NULL;
}

static int run(const struct command *command, struct options *options)
{
    options->command = command;
    if (has(options, OPTION_HELP))
        return show_usage(command);
    if (options->given & ~command->options)
        return bad_use(options, "it does not take ", option_name(options->given & ~command->options));
    return command->run(options);
}

/* help COMMAND; help sheet shows all three. */
static int help(struct options *options)
{
    size_t i;
    int shown = 0;

    options->operands++;
    options->count--;
    if (options->count == 0)
        return show_usage(NULL);
    if (options->count == 1)
        for (i = 0; i < COMMANDS; i++)
            if (strcmp(options->operands[0], commands[i].name) == 0) {
                show_usage(&commands[i]);
                shown = 1;
            }
    if (!shown) {
        const struct command *command = find(options);

        return command == NULL ? no_command(options) : show_usage(command);
    }
    return DONE;
}

int main(int argc, char **argv)
{
    struct options options;
    const struct command *command;
    int status;

    streams_start();
    options_read(&options, argc - 1, argv + 1);
    command = find(&options);
    if (command != NULL)
        status = run(command, &options);
    else if (options.count > 0 && strcmp(options.operands[0], "help") == 0)
        status = help(&options);
    else if (has(&options, OPTION_VERSION))
        status = show_version();
    else if (has(&options, OPTION_HELP))
        status = show_usage(NULL);
    else
        status = no_command(&options);
    output_end();
    return status;
}
