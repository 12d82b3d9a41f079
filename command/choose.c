/* Fields and legs chosen by a list: 2-4,6 or 2- or written,oral. */
#include <stdlib.h>
#include <string.h>

#include "tool.h"

void choose_all(struct choice *choice, size_t limit)
{
    for (choice->count = 0; choice->count < limit; choice->count++)
        choice->index[choice->count] = choice->count;
    choice->open = choice->count;
}

static void no_choice(const char *option, const char *list, const struct names *names)
{
    struct text known = {0};
    size_t i;

    complain("%s %s: this is no list of numbers from 0 to 63%s", option, list, names->count > 0 ? " and names" : "");
    for (i = 0; i < names->count; i++) {
        text_string(&known, i > 0 ? ", " : "");
        text_name(&known, names, i);
    }
    if (names->count > 0)
        advise("Write it as 2-4,6 or 2- or with the names: %.*s.", (int)known.length, known.bytes);
    else
        advise("Write it as 2-4,6 or 2-; names are given by --names or --layout.");
    text_free(&known);
    exit(TROUBLE);
}

/* Two digits at most: there are 64. Returns 0 where none stands there. */
static size_t digits(const char *text, size_t *number)
{
    size_t length = strspn(text, "0123456789");

    *number = length == 1 || length == 2 ? strtoul(text, NULL, 10) : CURLEW_MAX_SLOTS;
    return length;
}

/* One number, A-B or A-; returns 0 where it is none of them. */
static int take_range(const char *item, size_t length, size_t limit, size_t *first, size_t *last, int *open)
{
    size_t used = digits(item, first);

    *open = 0;
    *last = *first;
    if (used == 0 || *first >= CURLEW_MAX_SLOTS)
        return 0;
    if (used < length && item[used] == '-') {
        size_t more = digits(item + ++used, last);

        *open = more == 0;
        if (*open)
            *last = limit - 1;
        used += more;
    }
    return used == length && *last < CURLEW_MAX_SLOTS && (*open || *first <= *last);
}

static int is_chosen(const struct choice *choice, size_t index)
{
    size_t i = 0;

    while (i < choice->count && choice->index[i] != index)
        i++;
    return i < choice->count;
}

/* What is named twice counts once. What comes from A- stands last, so that a shorter sheet ends it. */
static void add_range(struct choice *choice, size_t first, size_t last)
{
    for (; first <= last; first++)
        if (!is_chosen(choice, first))
            choice->index[choice->count++] = first;
}

void choose(struct choice *choice, const char *option, const char *list, const struct names *names, size_t limit)
{
    const char *item = list;
    size_t open_from = CURLEW_MAX_SLOTS;
    int more = 1;

    choice->count = 0;
    while (more) {
        size_t length = strcspn(item, ",");
        size_t first = name_index(names, item, length), last = first;
        int open = 0;

        if (first == names->count && !take_range(item, length, limit, &first, &last, &open))
            no_choice(option, list, names);
        if (open)
            open_from = first < open_from ? first : open_from;
        else
            add_range(choice, first, last);
        more = item[length] == ',';
        item += length + 1;
    }
    choice->open = choice->count;
    if (open_from < limit)
        add_range(choice, open_from, limit - 1);
}

void choose_fields(struct choice *choice, const struct options *options, const struct names *names, size_t limit)
{
    size_t i;

    choose_all(choice, limit);
    if (!has(options, OPTION_FIELDS))
        return;
    choose(choice, "--fields", options->fields, names, limit);
    if (choice->count == 0)
        no_choice("--fields", options->fields, names);
    for (i = 0; i < choice->count; i++)
        if (choice->index[i] >= limit) {
            complain("--fields %s: there is no field %lu; they are 0 to %lu", options->fields,
                     (unsigned long)choice->index[i], (unsigned long)limit - 1);
            exit(TROUBLE);
        }
}
