/*
 * Runs between closed pages. A run lies either at the low or at the high end of a stretch of open pages, with closed pages
 * on each side, so that any touch past that end stops the program. The rest of the stretch, a page at least, is filled with
 * a pattern that must not change. Runs that a call may only read are write-protected while it runs.
 */
#ifndef GUARD_H
#define GUARD_H

#include "curlew.h"

#include <stdint.h>
#include <stdio.h>
#include <stdlib.h>
#include <string.h>
#include <sys/mman.h>
#include <unistd.h>

enum place { LOW, HIGH, NULL_IF_EMPTY, PLACES };

struct guard {
    uint8_t *low;
    uint8_t *expect;
    uint8_t *at;
    size_t from, open;
    size_t offset;
    size_t len;
};

/* The bytes of a page, and those that may be lent: the largest run is a sheet. */
static size_t guard_page, guard_space;

static void guard_stop(const char *what)
{
    perror(what);
    exit(2);
}

static void guard_open(struct guard *g)
{
    void *all;

    guard_page = (size_t)sysconf(_SC_PAGESIZE);
    guard_space = (CURLEW_MAX_SHEET / guard_page + 3) * guard_page;
    all = mmap(NULL, guard_space + 2 * guard_page, PROT_NONE, MAP_PRIVATE | MAP_ANONYMOUS, -1, 0);
    if (all == MAP_FAILED)
        guard_stop("mmap");
    g->low = (uint8_t *)all + guard_page;
    g->expect = (uint8_t *)malloc(guard_space);
    if (g->expect == NULL)
        guard_stop("malloc");
}

/* Gives the open pages this mode. */
static void guard_protect(struct guard *g, int mode)
{
    if (mprotect(g->low + g->from, g->open, mode) != 0)
        guard_stop("mprotect");
}

/* Lends len bytes; without bytes, the pattern. */
static void guard_lend(struct guard *g, const uint8_t *bytes, size_t len, enum place place)
{
    size_t i;

    if (g->open > 0)
        guard_protect(g, PROT_NONE);
    g->open = (len / guard_page + 2) * guard_page;
    g->from = place == LOW ? 0 : guard_space - g->open;
    for (i = g->from; i < g->from + g->open; i++)
        g->expect[i] = (uint8_t)(i * 7 + 0x5a);
    g->len = len;
    g->offset = place == LOW ? 0 : guard_space - len;
    if (bytes != NULL && len > 0)
        memcpy(g->expect + g->offset, bytes, len);
    guard_protect(g, PROT_READ | PROT_WRITE);
    memcpy(g->low + g->from, g->expect + g->from, g->open);
    g->at = place == NULL_IF_EMPTY && len == 0 ? NULL : g->low + g->offset;
}

/* What the run is to hold after the call: write the expected changes here. */
static uint8_t *guard_expected(struct guard *g)
{
    return g->expect + g->offset;
}

static int guard_holds(const struct guard *g)
{
    return memcmp(g->low + g->from, g->expect + g->from, g->open) == 0;
}

#endif
