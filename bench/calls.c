/*
 * The calls of our library, by layouts and by plans, of the twin, of plain C, also with its fields kept, and of the
 * layout written out by hand, made once, timed and shown; and memcpy and memcmp beside them.
 */
#include "peers.h"

pack_call plain_pack, kept_pack, hand_pack;
read_call plain_read, kept_read, hand_read;
#ifndef NO_TWIN
pack_call twin_pack;
read_call twin_read;
sheet_write_call twin_sheet_write;
sheet_read_call twin_sheet_read;
compare_call twin_compare;
#endif

static uint32_t plan_pack(const void *plan, size_t plan_len, const uint8_t *slots, size_t slots_len,
                          const uint8_t *area, size_t area_len, uint8_t *out, size_t out_len,
                          uint8_t *reply, size_t reply_len)
{
    return curlew_pack_plan((const uint32_t *)plan, plan_len, slots, slots_len, area, area_len, out, out_len,
                            reply, reply_len);
}

static uint32_t plan_read(const void *plan, size_t plan_len, const uint8_t *record, size_t record_len,
                          uint8_t *slots, size_t slots_len, uint8_t *area, size_t area_len, size_t mark,
                          uint8_t *reply, size_t reply_len)
{
    return curlew_read_plan((const uint32_t *)plan, plan_len, record, record_len, slots, slots_len, area, area_len,
                            mark, reply, reply_len);
}

const struct library libraries[] = {
    {"ours", TEXT, curlew_pack, curlew_read, curlew_sheet_write, curlew_sheet_read, curlew_compare},
    {"plan", PLAN, plan_pack, plan_read, NULL, NULL, NULL},
#ifndef NO_TWIN
    {"twin", TEXT, twin_pack, twin_read, twin_sheet_write, twin_sheet_read, twin_compare},
#endif
    {"plain", TEXT, plain_pack, plain_read, NULL, NULL, NULL},
    {"kept", KEPT, kept_pack, kept_read, NULL, NULL, NULL},
    {"hand", TEXT, hand_pack, hand_read, NULL, NULL, NULL},
    {NULL, TEXT, NULL, NULL, NULL, NULL, NULL},
};

const struct library *find_library(const char *name)
{
    size_t i;

    for (i = 0; libraries[i].name != NULL; i++)
        if (strcmp(libraries[i].name, name) == 0)
            return &libraries[i];
    return NULL;
}

uint64_t time_calls(once_call *once, const struct library *lib, const struct work *w, unsigned long n)
{
    uint32_t numbers = 0;
    uint64_t start = used_time();
    unsigned long i;

    for (i = 0; i < n; i++)
        numbers |= once(lib, w);
    start = used_time() - start;
    if (numbers != CURLEW_OK)
        stop("a call was refused");
    return start;
}

static void make(once_call *once, const struct library *lib, const struct work *w)
{
    if (once(lib, w) != CURLEW_OK)
        stop("a call was refused");
}

/* What the calls write. */
struct table {
    uint8_t slots[CURLEW_MAX_SLOTS * CURLEW_SLOT_SIZE];
    uint8_t before_area[PAGE / 2] AT_PAGE;
    uint8_t area[CURLEW_MAX_AREA];
};

static struct table table, second_table;
static struct {
    uint8_t before_bytes[PAGE / 2] AT_PAGE;
    uint8_t bytes[CURLEW_MAX_SHEET];
} out;
static uint8_t packed[CURLEW_PACK_REPLY], reply[CURLEW_READ_REPLY], sheet_reply[CURLEW_SHEET_REPLY];
static uint8_t report[CURLEW_MAX_SLOTS * CURLEW_FINDING_SIZE], compare_reply[CURLEW_COMPARE_REPLY];

static void show_bytes(const uint8_t *bytes, size_t length)
{
    size_t i;

    for (i = 0; i < length; i++)
        printf("%02x", (unsigned)bytes[i]);
}

static void show_value(struct curlew_slot slot)
{
    size_t i;

    if (slot.kind == CURLEW_UNSET)
        printf("not set,");
    else if (slot.kind == CURLEW_STRING)
        printf("%.*s,", (int)slot.length, (const char *)table.area + slot.start);
    else if (slot.kind == CURLEW_REAL)
        for (i = 0; i < slot.length; i++)
            printf("%.17g,", curlew_get_double(table.area + slot.start + i * CURLEW_ITEM_SIZE));
    else
        for (i = 0; i < slot.length; i++)
            printf("%lld,", (long long)curlew_get_int(table.area + slot.start + i * CURLEW_ITEM_SIZE));
}

static void show_table(size_t count)
{
    size_t i;

    for (i = 0; i < count; i++)
        show_value(curlew_get_slot(table.slots, i));
}

/* ---- records ---- */

static uint32_t pack_once(const struct library *lib, const struct work *w)
{
    return lib->pack(w->pack_layout.as[lib->form].at, w->pack_layout.as[lib->form].length, w->slots,
                     w->count * CURLEW_SLOT_SIZE, w->area, w->used, out.bytes, CURLEW_MAX_RECORD,
                     packed, sizeof packed);
}

static uint32_t read_into(struct table *t, const struct library *lib, const struct work *w,
                          const uint8_t *record, size_t record_len)
{
    return lib->read(w->read_layout.as[lib->form].at, w->read_layout.as[lib->form].length, record, record_len,
                     t->slots, w->count * CURLEW_SLOT_SIZE, t->area, w->room, 0, reply, sizeof reply);
}

static uint32_t read_once(const struct library *lib, const struct work *w)
{
    return read_into(&table, lib, w, w->record, w->record_len);
}

static void show_pack(const struct library *lib, const struct work *w)
{
    make(pack_once, lib, w);
    show_bytes(out.bytes, curlew_get_answer(packed).first);
}

static void show_read(const struct library *lib, const struct work *w)
{
    memset(table.slots, 0, sizeof table.slots);
    make(read_once, lib, w);
    show_table(w->count);
}

/* ---- sheets ---- */

static uint32_t sheet_write_once(const struct library *lib, const struct work *w)
{
    return lib->sheet_write(w->slots, w->count * CURLEW_SLOT_SIZE, w->area, w->used,
                            out.bytes, sizeof out.bytes, sheet_reply, sizeof sheet_reply);
}

static uint32_t sheet_read_once(const struct library *lib, const struct work *w)
{
    return lib->sheet_read(w->record, w->record_len, table.slots, w->count * CURLEW_SLOT_SIZE,
                           table.area, sizeof table.area, 0, sheet_reply, sizeof sheet_reply);
}

static void show_sheet_write(const struct library *lib, const struct work *w)
{
    make(sheet_write_once, lib, w);
    show_bytes(out.bytes, curlew_get_answer(sheet_reply).first);
}

/* The slots begin with bytes that mean nothing, so an entry that is not set has to clear its slot. */
static void show_sheet_read(const struct library *lib, const struct work *w)
{
    memset(table.slots, 255, sizeof table.slots);
    make(sheet_read_once, lib, w);
    show_table(w->count);
}

/* ---- two copies of a record ---- */

static uint32_t compare_once(const struct library *lib, const struct work *w)
{
    return lib->compare(w->read_layout.text, w->read_layout.length,
                        w->record, w->record_len, w->second, w->second_len,
                        table.slots, w->count * CURLEW_SLOT_SIZE, table.area, sizeof table.area,
                        second_table.slots, w->count * CURLEW_SLOT_SIZE, second_table.area, sizeof second_table.area,
                        report, w->count * CURLEW_FINDING_SIZE, compare_reply, sizeof compare_reply);
}

static void show_finding(struct curlew_finding finding)
{
    printf("%u %u %u,", (unsigned)finding.verdict, (unsigned)finding.place, (unsigned)finding.bits);
}

static void show_compare(const struct library *lib, const struct work *w)
{
    size_t i;

    memset(report, 255, sizeof report);
    make(compare_once, lib, w);
    for (i = 0; i < w->count; i++)
        show_finding(curlew_get_finding(report, i));
}

/* Two readings, and memcmp of the values: enough to know that two copies are equal, but not what differs. */
uint32_t memcmp_once(const struct library *lib, const struct work *w)
{
    static int (*volatile differ)(const void *, const void *, size_t) = memcmp;
    uint32_t refused = read_into(&table, lib, w, w->record, w->record_len)
        | read_into(&second_table, lib, w, w->second, w->second_len);

    return refused | (differ(table.area, second_table.area, curlew_get_answer(reply).second) != 0);
}

void show_memcmp(const struct work *w)
{
    static const struct curlew_finding same = {CURLEW_SAME, 0, 0};
    size_t i;

    make(memcmp_once, &libraries[0], w);
    for (i = 0; i < w->count; i++)
        show_finding(same);
}

/* ---- memcpy, of as many bytes as the record or the sheet has ---- */

uint32_t copy_once(const struct library *lib, const struct work *w)
{
    static void *(*volatile copy)(void *, const void *, size_t) = memcpy;

    (void)lib;
    copy(out.bytes, w->record, w->record_len);
    return CURLEW_OK;
}

static const struct library_call library_calls[] = {
    {"pack", pack_once, show_pack, 1},
    {"read", read_once, show_read, 0},
    {"sheet-write", sheet_write_once, show_sheet_write, 1},
    {"sheet-read", sheet_read_once, show_sheet_read, 0},
    {"compare", compare_once, show_compare, 0},
};

const struct library_call *find_call(const char *name)
{
    size_t i;

    for (i = 0; i < sizeof library_calls / sizeof library_calls[0]; i++)
        if (strcmp(library_calls[i].name, name) == 0)
            return &library_calls[i];
    stop("unknown call");
    return NULL;
}
