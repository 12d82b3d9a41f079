/*
 * A million candidates: each one's values are put into a table, packed, and kept; then each record is read and two of
 * its marks are summed. The records are shared out among the threads.
 */
#include "peers.h"

#include <pthread.h>

#define THREADS 256

void crowd_number(uint8_t *to, size_t candidate)
{
    int i;

    for (i = 7; i >= 0; i--) {
        to[i] = (uint8_t)('0' + candidate % 10);
        candidate /= 10;
    }
}

unsigned crowd_mark(size_t candidate)
{
    return (unsigned)(candidate % 1001);
}

/* ---- our library, or the twin ---- */

struct library_state {
    const struct library *lib;
    uint8_t slots[CROWD_FIELDS * CURLEW_SLOT_SIZE];
    uint8_t area[256];
    size_t used;
    uint8_t *mark, *running; /* where these values lie in the area; the number is at its front */
};

static void fill_table(struct library_state *s)
{
    static const int64_t legs[6] = {61, 0, 88, 7, 100, 3};
    struct curlew_table table = curlew_table_over(s->slots, sizeof s->slots, s->area, sizeof s->area);

    curlew_table_add_text(&table, "C0000000", 8);
    curlew_table_add_text(&table, CROWD_NAME, strlen(CROWD_NAME));
    curlew_table_add_uint(&table, 0);
    curlew_table_add_uint(&table, 0);
    curlew_table_add_ints(&table, legs, 6);
    curlew_table_add_text(&table, CROWD_STRIP, 12);
    curlew_table_add_text(&table, CROWD_HEX, 8);
    if (table.full)
        stop("no room for the table of a candidate");
    s->used = table.area_used;
    s->mark = s->area + curlew_table_slot(&table, 2).start;
    s->running = s->area + curlew_table_slot(&table, 3).start;
}

static void *library_open(const void *with)
{
    struct library_state *s = (struct library_state *)calloc(1, sizeof *s);

    if (s == NULL || with == NULL)
        stop("no such library");
    s->lib = (const struct library *)with;
    return s;
}

static void library_pack(void *state, size_t from, size_t to, uint8_t *records)
{
    struct library_state *s = (struct library_state *)state;
    uint8_t reply[CURLEW_PACK_REPLY];
    size_t i;

    fill_table(s);
    for (i = from; i < to; i++) {
        crowd_number(s->area, i);
        curlew_put_uint(s->mark, crowd_mark(i));
        curlew_put_uint(s->running, i);
        if (s->lib->pack(CROWD_LAYOUT, sizeof CROWD_LAYOUT - 1, s->slots, sizeof s->slots,
                         s->area, s->used, records + i * CROWD_RECORD, CROWD_RECORD, reply, sizeof reply) != CURLEW_OK)
            stop("a candidate was refused");
    }
}

static uint64_t library_read(void *state, size_t from, size_t to, const uint8_t *records)
{
    struct library_state *s = (struct library_state *)state;
    uint8_t reply[CURLEW_READ_REPLY];
    uint64_t sum = 0;
    size_t i;

    for (i = from; i < to; i++) {
        memset(s->slots, 0, sizeof s->slots);
        if (s->lib->read(CROWD_LAYOUT, sizeof CROWD_LAYOUT - 1, records + i * CROWD_RECORD,
                         CROWD_RECORD, s->slots, sizeof s->slots, s->area, sizeof s->area, 0,
                         reply, sizeof reply) != CURLEW_OK)
            stop("a record was refused");
        sum += curlew_get_uint(s->area + curlew_get_slot(s->slots, 2).start)
            + curlew_get_uint(s->area + curlew_get_slot(s->slots, 3).start);
    }
    return sum;
}

const struct crowd library_crowd = {library_open, library_pack, library_read, free, NULL};

/* ---- threads ---- */

struct part {
    const struct crowd *crowd;
    pthread_t thread;
    size_t from, to;
    uint8_t *records;
    int packing;
    uint64_t sum;
};

static pthread_barrier_t ready;

static void *work(void *self)
{
    struct part *p = (struct part *)self;
    void *state = p->crowd->open(p->crowd->with);

    pthread_barrier_wait(&ready);
    if (p->packing)
        p->crowd->pack(state, p->from, p->to, p->records);
    else
        p->sum = p->crowd->read(state, p->from, p->to, p->records);
    pthread_barrier_wait(&ready);
    p->crowd->close(state);
    return NULL;
}

/* Nanoseconds from the moment when all threads are ready to the moment when all are done. */
static uint64_t run_parts(struct part *parts, unsigned threads, int packing)
{
    uint64_t start, end;
    unsigned i;

    pthread_barrier_init(&ready, NULL, threads + 1);
    for (i = 0; i < threads; i++) {
        parts[i].packing = packing;
        if (pthread_create(&parts[i].thread, NULL, work, &parts[i]) != 0)
            stop("no thread");
    }
    pthread_barrier_wait(&ready);
    start = wall_time();
    pthread_barrier_wait(&ready);
    end = wall_time();
    for (i = 0; i < threads; i++)
        pthread_join(parts[i].thread, NULL);
    pthread_barrier_destroy(&ready);
    return end - start;
}

void crowd_run(const struct crowd *crowd, unsigned threads, size_t records)
{
    static struct part parts[THREADS];
    uint8_t *all = (uint8_t *)malloc(records * CROWD_RECORD);
    uint64_t packing, reading, sum = 0;
    unsigned i;

    if (all == NULL || threads == 0 || threads > THREADS)
        stop("no room for the crowd");
    memset(all, 1, records * CROWD_RECORD);
    for (i = 0; i < threads; i++) {
        parts[i].crowd = crowd;
        parts[i].from = records * i / threads;
        parts[i].to = records * (i + 1) / threads;
        parts[i].records = all;
    }
    packing = run_parts(parts, threads, 1);
    reading = run_parts(parts, threads, 0);
    for (i = 0; i < threads; i++)
        sum += parts[i].sum;
    free(all);
    printf("%llu %llu %llu\n", (unsigned long long)packing, (unsigned long long)reading, (unsigned long long)sum);
}
