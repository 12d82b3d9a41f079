/*
 * Both calls from several threads at once. The threads share the layout, which nobody writes; all other runs are
 * their own. Each thread packs records of its own, reads them back, and meets a refusal in every round.
 */
#include "curlew.h"

#include <pthread.h>
#include <stdio.h>
#include <string.h>

#define THREADS 4
#define ROUNDS 5000
#define SLOTS 4

static const uint8_t layout[] = "A8 Iu W2 b20";

struct worker {
    pthread_t thread;
    uint32_t number;
    unsigned long failures;
    uint8_t slots[SLOTS * CURLEW_SLOT_SIZE];
    uint8_t area[128];
    uint8_t record[64];
};

static const char digits[] = "11110000101010101100";

static void fill(struct worker *w, uint32_t round)
{
    struct curlew_table table = curlew_table_over(w->slots, sizeof w->slots, w->area, sizeof w->area);
    int64_t list[2];
    char name[8];

    memset(name, 'A' + (int)w->number, sizeof name);
    list[0] = -(int64_t)round;
    list[1] = w->number;
    curlew_table_add_text(&table, name, sizeof name);
    curlew_table_add_uint(&table, round);
    curlew_table_add_ints(&table, list, 2);
    curlew_table_add_text(&table, digits, 20);
}

static int pack(struct worker *w)
{
    uint8_t reply[CURLEW_PACK_REPLY];

    return curlew_pack(layout, sizeof layout - 1, w->slots, sizeof w->slots, w->area, sizeof w->area,
                       w->record, sizeof w->record, reply, sizeof reply) == CURLEW_OK
        && curlew_get_answer(reply).first == 31;
}

static int read_back(struct worker *w)
{
    uint8_t reply[CURLEW_READ_REPLY];

    memset(w->slots, 0, sizeof w->slots);
    memset(w->area, 0, sizeof w->area);
    return curlew_read(layout, sizeof layout - 1, w->record, 31, w->slots, sizeof w->slots,
                       w->area, sizeof w->area, 0, reply, sizeof reply) == CURLEW_OK
        && curlew_get_answer(reply).first == SLOTS
        && curlew_get_answer(reply).second == 52;
}

static int shows(const struct worker *w, uint32_t round)
{
    size_t i;

    for (i = 0; i < 8; i++)
        if (w->area[i] != 'A' + (int)w->number)
            return 0;
    return curlew_get_uint(w->area + 8) == round
        && curlew_get_int(w->area + 16) == -(int64_t)round
        && curlew_get_int(w->area + 24) == (int64_t)w->number
        && memcmp(w->area + 32, digits, 20) == 0
        && curlew_get_slot(w->slots, 3).start == 32;
}

/* Fails at a place that is the worker's own: the slot of that number is not set. */
static int refused(struct worker *w)
{
    uint8_t reply[CURLEW_PACK_REPLY];

    curlew_put_slot(w->slots, w->number % SLOTS, CURLEW_UNSET, 0, 0);
    return curlew_pack(layout, sizeof layout - 1, w->slots, sizeof w->slots, w->area, sizeof w->area,
                       w->record, sizeof w->record, reply, sizeof reply) == CURLEW_NOT_SET
        && curlew_get_answer(reply).first == w->number % SLOTS;
}

static void *work(void *self)
{
    struct worker *w = (struct worker *)self;
    uint32_t round;

    for (round = 0; round < ROUNDS; round++) {
        fill(w, round);
        if (!pack(w) || !read_back(w) || !shows(w, round) || !refused(w))
            w->failures++;
    }
    return NULL;
}

int main(void)
{
    static struct worker workers[THREADS];
    unsigned long failures = 0;
    uint32_t i;

    for (i = 0; i < THREADS; i++) {
        workers[i].number = i;
        if (pthread_create(&workers[i].thread, NULL, work, &workers[i]) != 0)
            return 2;
    }
    for (i = 0; i < THREADS; i++) {
        pthread_join(workers[i].thread, NULL);
        failures += workers[i].failures;
    }
    printf("%d threads, %d rounds each, %lu failed\n", THREADS, ROUNDS, failures);
    return failures == 0 ? 0 : 1;
}
