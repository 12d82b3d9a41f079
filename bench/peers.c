/*
 * The C side of the benchmark: our library, the Rust twin, Tcl's commands, memcpy and memcmp. Takes orders line by
 * line on its input and answers each `time`, `show`, `crowd` and `peers` by one line:
 *
 *   work NAME, pack LAYOUT, read LAYOUT, text STRING, list NUMBERS, reals NUMBERS, unset, record HEX, second HEX,
 *   room BYTES                    describe a workload
 *   end                           it is one for Tcl too
 *   peers                         which peers this program has
 *   time PEER NAME CALL N         nanoseconds of processor time of N calls
 *   show PEER NAME CALL           what one call gives
 *   crowd PEER THREADS RECORDS    nanoseconds of packing and of reading, and a sum over what was read
 *
 * The calls are those of the table library_calls.
 */
#include "peers.h"

#define WORKS 64

static struct work *works[WORKS];
static size_t work_count;
/* Room for the hex digits of the largest sheet. */
static char line[2 * CURLEW_MAX_SHEET + 64];

void stop(const char *why)
{
    fprintf(stderr, "peers: %s\n", why);
    exit(1);
}

static uint64_t clock_of(clockid_t which)
{
    struct timespec t;

    clock_gettime(which, &t);
    return (uint64_t)t.tv_sec * 1000000000u + (uint64_t)t.tv_nsec;
}

uint64_t used_time(void)
{
    return clock_of(CLOCK_THREAD_CPUTIME_ID);
}

uint64_t wall_time(void)
{
    return clock_of(CLOCK_MONOTONIC);
}

/* ---- workloads ---- */

static struct work *last_work(void)
{
    if (work_count == 0)
        stop("no workload yet");
    return works[work_count - 1];
}

static struct work *find_work(const char *name)
{
    size_t i;

    for (i = 0; i < work_count; i++)
        if (strcmp(works[i]->name, name) == 0)
            return works[i];
    stop("unknown workload");
    return NULL;
}

static void new_work(const char *name)
{
    void *room;
    struct work *w;

    if (work_count == WORKS || posix_memalign(&room, PAGE, sizeof *w) != 0)
        stop("no room for a workload");
    w = (struct work *)room;
    memset(w, 0, sizeof *w);
    snprintf(w->name, sizeof w->name, "%s", name);
    w->room = CURLEW_MAX_AREA;
    works[work_count++] = w;
}

static void set_layout(struct layout *layout, const char *text, int packing)
{
    uint8_t reply[CURLEW_PREPARE_REPLY];

    snprintf(layout->text, sizeof layout->text, "%s", text);
    layout->length = strlen(layout->text);
    if (curlew_prepare(layout->text, layout->length, layout->plan, CURLEW_MAX_PLAN, reply, sizeof reply) != CURLEW_OK)
        stop("a layout is refused");
    layout->as[TEXT].at = layout->text;
    layout->as[TEXT].length = layout->length;
    layout->as[PLAN].at = layout->plan;
    layout->as[PLAN].length = curlew_get_answer(reply).first;
    layout->as[KEPT].at = plain_keep(layout->text, layout->length, packing);
}

/* The values that a workload has so far, as a table to add to. */
static struct curlew_table table_of(struct work *w)
{
    struct curlew_table table;

    table.slots = w->slots;
    table.slots_room = sizeof w->slots;
    table.slots_used = w->count * CURLEW_SLOT_SIZE;
    table.area = w->area;
    table.area_room = sizeof w->area;
    table.area_used = w->used;
    table.full = 0;
    return table;
}

static void take_table(struct work *w, const struct curlew_table *table)
{
    if (table->full)
        stop("no room for the values of a workload");
    w->count = curlew_table_count(table);
    w->used = table->area_used;
}

static void add_text(struct work *w, const char *text)
{
    struct curlew_table table = table_of(w);

    curlew_table_add_text(&table, text, strlen(text));
    take_table(w, &table);
}

/* The most numbers that an area holds. */
#define NUMBERS (CURLEW_MAX_AREA / CURLEW_ITEM_SIZE)

static void add_list(struct work *w, char *numbers)
{
    static int64_t list[NUMBERS];
    struct curlew_table table = table_of(w);
    size_t count = 0;
    char *number;

    for (number = strtok(numbers, " "); number != NULL && count < NUMBERS; number = strtok(NULL, " "))
        list[count++] = strtoll(number, NULL, 10);
    if (number != NULL)
        stop("no room for the numbers of a workload");
    curlew_table_add_ints(&table, list, count);
    take_table(w, &table);
}

static void add_reals(struct work *w, char *numbers)
{
    static double list[NUMBERS];
    struct curlew_table table = table_of(w);
    size_t count = 0;
    char *number;

    for (number = strtok(numbers, " "); number != NULL && count < NUMBERS; number = strtok(NULL, " "))
        list[count++] = strtod(number, NULL);
    if (number != NULL)
        stop("no room for the numbers of a workload");
    curlew_table_add_reals(&table, list, count);
    take_table(w, &table);
}

static void add_unset(struct work *w)
{
    struct curlew_table table = table_of(w);

    curlew_table_add_unset(&table);
    take_table(w, &table);
}

static unsigned hex_digit(char digit)
{
    return (unsigned)(digit <= '9' ? digit - '0' : digit - 'a' + 10);
}

/* The bytes that the digits stand for; how many. */
static size_t put_hex(uint8_t *to, const char *hex)
{
    size_t length = strlen(hex) / 2;
    size_t i;

    for (i = 0; i < length; i++)
        to[i] = (uint8_t)(hex_digit(hex[2 * i]) << 4 | hex_digit(hex[2 * i + 1]));
    return length;
}

static void end_work(void)
{
#ifndef NO_TCL
    tcl_prepare(last_work());
#endif
}

/* ---- orders ---- */

static uint64_t time_peer(const char *peer, struct work *w, const struct library_call *call, unsigned long n)
{
    const struct library *lib = find_library(peer);

    if (lib != NULL)
        return time_calls(call->once, lib, w, n);
    if (strcmp(peer, "memcpy") == 0)
        return time_calls(copy_once, NULL, w, n);
    if (strcmp(peer, "memcmp") == 0)
        return time_calls(memcmp_once, &libraries[0], w, n);
#ifndef NO_TCL
    if (strcmp(peer, "tcl") == 0)
        return call->packs ? tcl_time_pack(w, n) : tcl_time_read(w, n);
#endif
    stop("unknown peer");
    return 0;
}

static void order_time(const char *rest)
{
    char peer[16], name[32], call[16];
    unsigned long n;

    if (sscanf(rest, "%15s %31s %15s %lu", peer, name, call, &n) != 4)
        stop("time?");
    printf("%llu\n", (unsigned long long)time_peer(peer, find_work(name), find_call(call), n));
}

static void show_peer(const char *peer, struct work *w, const struct library_call *call)
{
    const struct library *lib = find_library(peer);

    if (lib != NULL)
        call->show(lib, w);
    else if (strcmp(peer, "memcmp") == 0)
        show_memcmp(w);
#ifndef NO_TCL
    else if (call->packs)
        tcl_show_pack(w);
    else
        tcl_show_read(w);
#endif
    printf("\n");
}

static void order_show(const char *rest)
{
    char peer[16], name[32], call[16];

    if (sscanf(rest, "%15s %31s %15s", peer, name, call) != 3)
        stop("show?");
    show_peer(peer, find_work(name), find_call(call));
}

static void order_crowd(const char *rest)
{
    struct crowd crowd = library_crowd;
    unsigned threads;
    unsigned long records;
    char peer[16];

    if (sscanf(rest, "%15s %u %lu", peer, &threads, &records) != 3)
        stop("crowd?");
    crowd.with = find_library(peer);
#ifndef NO_TCL
    if (crowd.with == NULL)
        crowd = tcl_crowd;
#endif
    crowd_run(&crowd, threads, records);
}

static void order_peers(void)
{
    size_t i;

    for (i = 0; libraries[i].name != NULL; i++)
        printf("%s ", libraries[i].name);
#ifndef NO_TCL
    printf("tcl ");
#endif
    printf("memcpy memcmp\n");
}

static void obey(const char *order, char *rest)
{
    if (strcmp(order, "work") == 0)
        new_work(rest);
    else if (strcmp(order, "pack") == 0)
        set_layout(&last_work()->pack_layout, rest, 1);
    else if (strcmp(order, "read") == 0)
        set_layout(&last_work()->read_layout, rest, 0);
    else if (strcmp(order, "text") == 0)
        add_text(last_work(), rest);
    else if (strcmp(order, "list") == 0)
        add_list(last_work(), rest);
    else if (strcmp(order, "reals") == 0)
        add_reals(last_work(), rest);
    else if (strcmp(order, "room") == 0)
        last_work()->room = strtoul(rest, NULL, 10);
    else if (strcmp(order, "unset") == 0)
        add_unset(last_work());
    else if (strcmp(order, "record") == 0)
        last_work()->record_len = put_hex(last_work()->record, rest);
    else if (strcmp(order, "second") == 0)
        last_work()->second_len = put_hex(last_work()->second, rest);
    else if (strcmp(order, "end") == 0)
        end_work();
    else if (strcmp(order, "time") == 0)
        order_time(rest);
    else if (strcmp(order, "show") == 0)
        order_show(rest);
    else if (strcmp(order, "crowd") == 0)
        order_crowd(rest);
    else if (strcmp(order, "peers") == 0)
        order_peers();
}

int main(void)
{
#ifndef NO_TCL
    tcl_start();
#endif
    while (fgets(line, sizeof line, stdin) != NULL) {
        char *rest;

        line[strcspn(line, "\n")] = '\0';
        rest = strchr(line, ' ');
        if (rest != NULL)
            *rest++ = '\0';
        obey(line, rest == NULL ? line + strlen(line) : rest);
        fflush(stdout);
    }
    return 0;
}
