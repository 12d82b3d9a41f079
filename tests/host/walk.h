/*
 * Where the fields of a reading begin and how many it comes to, by the layout and the record's length alone: what the tests of
 * reading expect in the fourth number of each slot and of the reply. The layout is one that reading accepts.
 */
#ifndef WALK_H
#define WALK_H

#include "harness.h"

/* The bits that one item of a type takes in a record; 0 for x X @. */
static size_t item_bits(uint8_t letter)
{
    static const char letters[] = "bBhHaAcsSiIrRwWqQ";
    static const size_t bits[] = {1, 1, 4, 4, 8, 8, 8, 16, 16, 32, 32, 32, 32, 64, 64, 64, 64};
    const char *found = strchr(letters, letter);

    return found == NULL ? 0 : bits[found - letters];
}

/* One field: its type, whether its count is a star, and its number (1 where there is none). */
struct field {
    uint8_t letter;
    int all;
    size_t count;
};

/* The field at *at, which is moved past it. */
static struct field next_field(const uint8_t *layout, size_t len, size_t *at)
{
    struct field field = {0, 0, 1};
    size_t i = *at;

    field.letter = layout[i++];
    i += i < len && layout[i] == 'u';
    field.all = i < len && layout[i] == '*';
    i += field.all;
    if (i < len && layout[i] >= '0' && layout[i] <= '9')
        field.count = 0;
    for (; i < len && layout[i] >= '0' && layout[i] <= '9'; i++)
        field.count = field.count * 10 + (size_t)(layout[i] - '0');
    *at = i;
    return field;
}

/* Where a field of x X @ leads to. */
static size_t moved(struct field field, size_t at, size_t end)
{
    switch (field.letter) {
    case 'x': return field.all || field.count > end - at ? end : at + field.count;
    case 'X': return field.all || field.count > at ? 0 : at - field.count;
    default: return field.all || field.count > end ? end : field.count;
    }
}

struct walk {
    size_t set;   /* fields that set a slot */
    size_t steps; /* fields that the reading comes to */
    size_t positions[CURLEW_MAX_LAYOUT];
};

static MAYBE struct walk walk(const uint8_t *layout, size_t len, size_t end)
{
    struct walk w;
    size_t i = 0, at = 0;

    memset(&w, 0, sizeof w);
    while (i < len) {
        struct field field;
        size_t bits, bytes;

        if (layout[i] == ' ') {
            i++;
            continue;
        }
        field = next_field(layout, len, &i);
        w.steps++;
        bits = item_bits(field.letter);
        if (bits == 0) {
            at = moved(field, at, end);
            continue;
        }
        bytes = ((field.all ? 8 * (end - at) / bits : field.count) * bits + 7) / 8;
        if (bytes > end - at)
            break;
        w.positions[w.set++] = at;
        at += bytes;
    }
    return w;
}

/* Gives the values that a reading should set the positions that it should give them. */
static MAYBE void put_positions(struct values *v, const void *layout, size_t len, size_t end, const char *name)
{
    struct walk w = walk((const uint8_t *)layout, len, end);
    size_t i;

    check(w.set == v->count, name, "fields that set a slot");
    for (i = 0; i < v->count; i++)
        curlew_put_number(v->slots + (i + 1) * CURLEW_SLOT_SIZE - 4, (uint32_t)w.positions[i]);
}

#endif
