/*
 * Tcl's `binary format` and `binary scan` as C procedures: the commands are looked up once, every object is made once
 * and reused, and nothing is parsed but the layout itself, which Tcl's commands parse at each call.
 */
#include "peers.h"

#include <tcl.h>

struct tcl_work {
    Tcl_Obj *pack[CURLEW_MAX_SLOTS + 2];
    int pack_count;
    Tcl_Obj *read[CURLEW_MAX_SLOTS + 3];
    int read_count;
};

struct tcl_commands {
    Tcl_Interp *interp;
    Tcl_CmdInfo format;
    Tcl_CmdInfo scan;
};

static struct tcl_commands commands;

static void open_commands(struct tcl_commands *c)
{
    c->interp = Tcl_CreateInterp();
    if (c->interp == NULL
        || !Tcl_GetCommandInfo(c->interp, "::tcl::binary::format", &c->format)
        || !Tcl_GetCommandInfo(c->interp, "::tcl::binary::scan", &c->scan))
        stop("Tcl has no binary command");
}

void tcl_start(void)
{
    Tcl_FindExecutable(NULL);
    open_commands(&commands);
}

static void call(struct tcl_commands *c, const Tcl_CmdInfo *command, int count, Tcl_Obj *const *objects)
{
    if (command->objProc(command->objClientData, c->interp, count, objects) != TCL_OK)
        stop(Tcl_GetStringResult(c->interp));
}

static Tcl_Obj *keep(Tcl_Obj *object)
{
    Tcl_IncrRefCount(object);
    return object;
}

static Tcl_Obj *name_of(size_t i)
{
    char name[16];

    snprintf(name, sizeof name, "v%u", (unsigned)i);
    return Tcl_NewStringObj(name, -1);
}

static Tcl_Obj *number_of(const uint8_t *item, uint32_t kind)
{
    return kind == CURLEW_REAL ? Tcl_NewDoubleObj(curlew_get_double(item)) : Tcl_NewWideIntObj(curlew_get_int(item));
}

/* A single number stays a number; several become a list. */
static Tcl_Obj *list_of(const uint8_t *items, uint32_t kind, size_t count)
{
    Tcl_Obj *list;
    size_t i;

    if (count == 1)
        return number_of(items, kind);
    list = Tcl_NewListObj(0, NULL);
    for (i = 0; i < count; i++)
        Tcl_ListObjAppendElement(NULL, list, number_of(items + i * CURLEW_ITEM_SIZE, kind));
    return list;
}

/* Digits are wanted as text and strings as bytes: each argument is made in the form that its field takes. */
static Tcl_Obj *argument(const struct work *w, size_t i, int digits)
{
    struct curlew_slot slot = curlew_get_slot(w->slots, i);
    const uint8_t *at = w->area + slot.start;

    if (slot.kind != CURLEW_STRING)
        return list_of(at, slot.kind, slot.length);
    if (digits)
        return Tcl_NewStringObj((const char *)at, (int)slot.length);
    return Tcl_NewByteArrayObj(at, (int)slot.length);
}

/* Whether the field of each argument takes digits. */
static void find_digits(const char *layout, int *digits)
{
    size_t field = 0;

    for (; *layout != '\0'; layout++) {
        if (strchr("aAbBhHcsSiIwWqQrR", *layout) != NULL)
            digits[field++] = strchr("bBhH", *layout) != NULL;
    }
}

void tcl_prepare(struct work *w)
{
    struct tcl_work *t = (struct tcl_work *)calloc(1, sizeof *t);
    int digits[CURLEW_MAX_SLOTS] = {0};
    size_t i;

    if (t == NULL)
        stop("no room for Tcl's objects");
    find_digits(w->pack_layout.text, digits);
    t->pack[t->pack_count++] = keep(Tcl_NewStringObj("::tcl::binary::format", -1));
    t->pack[t->pack_count++] = keep(Tcl_NewStringObj(w->pack_layout.text, -1));
    t->read[t->read_count++] = keep(Tcl_NewStringObj("::tcl::binary::scan", -1));
    t->read[t->read_count++] = keep(Tcl_NewByteArrayObj(w->record, (int)w->record_len));
    t->read[t->read_count++] = keep(Tcl_NewStringObj(w->read_layout.text, -1));
    for (i = 0; i < w->count; i++) {
        t->pack[t->pack_count++] = keep(argument(w, i, digits[i]));
        t->read[t->read_count++] = keep(name_of(i));
    }
    w->tcl = t;
}

uint64_t tcl_time_pack(struct work *w, unsigned long n)
{
    struct tcl_work *t = (struct tcl_work *)w->tcl;
    uint64_t start = used_time();
    unsigned long i;

    for (i = 0; i < n; i++)
        call(&commands, &commands.format, t->pack_count, t->pack);
    return used_time() - start;
}

uint64_t tcl_time_read(struct work *w, unsigned long n)
{
    struct tcl_work *t = (struct tcl_work *)w->tcl;
    uint64_t start = used_time();
    unsigned long i;

    for (i = 0; i < n; i++)
        call(&commands, &commands.scan, t->read_count, t->read);
    return used_time() - start;
}

void tcl_show_pack(struct work *w)
{
    struct tcl_work *t = (struct tcl_work *)w->tcl;
    const unsigned char *bytes;
    int length, i;

    call(&commands, &commands.format, t->pack_count, t->pack);
    bytes = Tcl_GetByteArrayFromObj(Tcl_GetObjResult(commands.interp), &length);
    for (i = 0; i < length; i++)
        printf("%02x", (unsigned)bytes[i]);
}

static void show_variable(Tcl_Obj *name, int is_list)
{
    Tcl_Obj *value = Tcl_ObjGetVar2(commands.interp, name, NULL, 0);
    const char *text = value == NULL ? "not set" : Tcl_GetString(value);

    for (; *text != '\0'; text++)
        putchar(is_list && *text == ' ' ? ',' : *text);
    putchar(',');
}

void tcl_show_read(struct work *w)
{
    struct tcl_work *t = (struct tcl_work *)w->tcl;
    size_t i;

    call(&commands, &commands.scan, t->read_count, t->read);
    for (i = 0; i < w->count; i++)
        show_variable(t->read[i + 3], curlew_get_slot(w->slots, i).kind != CURLEW_STRING);
}

/* ---- the crowd: an interpreter for each thread ---- */

struct tcl_state {
    struct tcl_commands commands;
    Tcl_Obj *pack[CROWD_FIELDS + 2];
    Tcl_Obj *read[CROWD_FIELDS + 3];
};

static void fill_state(struct tcl_state *s)
{
    static const uint8_t legs[6] = {61, 0, 88, 7, 100, 3};
    Tcl_Obj *list = Tcl_NewListObj(0, NULL);
    size_t i;

    for (i = 0; i < 6; i++)
        Tcl_ListObjAppendElement(NULL, list, Tcl_NewWideIntObj(legs[i]));
    s->pack[0] = keep(Tcl_NewStringObj("::tcl::binary::format", -1));
    s->pack[1] = keep(Tcl_NewStringObj(CROWD_LAYOUT, -1));
    s->pack[2] = keep(Tcl_NewObj());
    s->pack[3] = keep(Tcl_NewByteArrayObj((const uint8_t *)CROWD_NAME, (int)strlen(CROWD_NAME)));
    s->pack[4] = keep(Tcl_NewObj());
    s->pack[5] = keep(Tcl_NewObj());
    s->pack[6] = keep(list);
    s->pack[7] = keep(Tcl_NewStringObj(CROWD_STRIP, -1));
    s->pack[8] = keep(Tcl_NewStringObj(CROWD_HEX, -1));
    s->read[0] = keep(Tcl_NewStringObj("::tcl::binary::scan", -1));
    s->read[1] = keep(Tcl_NewObj());
    s->read[2] = keep(Tcl_NewStringObj(CROWD_LAYOUT, -1));
    for (i = 0; i < CROWD_FIELDS; i++)
        s->read[i + 3] = keep(name_of(i));
}

static void *tcl_open(const void *with)
{
    struct tcl_state *s = (struct tcl_state *)calloc(1, sizeof *s);

    (void)with;
    if (s == NULL)
        stop("no room for Tcl's objects");
    open_commands(&s->commands);
    fill_state(s);
    return s;
}

static void tcl_pack(void *state, size_t from, size_t to, uint8_t *records)
{
    struct tcl_state *s = (struct tcl_state *)state;
    uint8_t number[8];
    size_t i;
    int length;

    for (i = from; i < to; i++) {
        crowd_number(number, i);
        Tcl_SetByteArrayObj(s->pack[2], number, 8);
        Tcl_SetWideIntObj(s->pack[4], (Tcl_WideInt)crowd_mark(i));
        Tcl_SetWideIntObj(s->pack[5], (Tcl_WideInt)i);
        call(&s->commands, &s->commands.format, CROWD_FIELDS + 2, s->pack);
        memcpy(records + i * CROWD_RECORD,
               Tcl_GetByteArrayFromObj(Tcl_GetObjResult(s->commands.interp), &length), CROWD_RECORD);
    }
}

static uint64_t tcl_number(struct tcl_state *s, size_t field)
{
    Tcl_WideInt value = 0;
    Tcl_Obj *object = Tcl_ObjGetVar2(s->commands.interp, s->read[field + 3], NULL, 0);

    if (object == NULL || Tcl_GetWideIntFromObj(NULL, object, &value) != TCL_OK)
        stop("Tcl set no number");
    return (uint64_t)value;
}

static uint64_t tcl_read(void *state, size_t from, size_t to, const uint8_t *records)
{
    struct tcl_state *s = (struct tcl_state *)state;
    uint64_t sum = 0;
    size_t i;

    for (i = from; i < to; i++) {
        Tcl_SetByteArrayObj(s->read[1], records + i * CROWD_RECORD, CROWD_RECORD);
        call(&s->commands, &s->commands.scan, CROWD_FIELDS + 3, s->read);
        sum += tcl_number(s, 2) + tcl_number(s, 3);
    }
    return sum;
}

static void tcl_close(void *state)
{
    struct tcl_state *s = (struct tcl_state *)state;
    size_t i;

    for (i = 0; i < CROWD_FIELDS + 2; i++)
        Tcl_DecrRefCount(s->pack[i]);
    for (i = 0; i < CROWD_FIELDS + 3; i++)
        Tcl_DecrRefCount(s->read[i]);
    Tcl_DeleteInterp(s->commands.interp);
    Tcl_FinalizeThread();
    free(s);
}

const struct crowd tcl_crowd = {tcl_open, tcl_pack, tcl_read, tcl_close, NULL};
