#include "core.h"

/* A layout that was looked at once. */
struct layout {
    PyObject_HEAD
    struct python python;
    struct coding coding;
    PyObject *text;         /* bytes */
    PyObject *row;          /* a class made of tuple; null for tuples themselves */
    PyObject *rows_type;
    struct source source;   /* the same text */
    allocfunc allocate_row;
    size_t slots;
    size_t counted;         /* bytes of the area that the values without stars fill at most */
    size_t starred;         /* fields with a star */
    struct field fields[CURLEW_MAX_LAYOUT];
};

/* The records of a run of bytes. */
struct rows {
    PyObject_HEAD
    PyObject *layout;
    PyObject *block; /* bytes */
    size_t at;
    size_t length;
};

/* ---- the library, by a layout ---- */

static uint32_t pack_record(const struct layout *layout, const struct curlew_table *table, uint8_t *out, size_t out_len,
                            uint8_t *reply)
{
    return curlew_pack(layout->source.bytes, layout->source.length, table->slots, table->slots_used,
                       table->area, table->area_used, out, out_len, reply, CURLEW_PACK_REPLY);
}

static uint32_t read_record(const struct layout *layout, const uint8_t *record, size_t length,
                            const struct curlew_table *table, size_t mark, uint8_t *reply)
{
    return curlew_read(layout->source.bytes, layout->source.length, record, length, table->slots, table->slots_room,
                       table->area, table->area_room, mark, reply, CURLEW_READ_REPLY);
}

/* Raises Refused for a reply: the caret stands at the place in the layout, or at the field whose slot is named. */
static PyObject *refuse_reply(const struct layout *layout, const uint8_t *reply)
{
    struct curlew_answer answer = curlew_get_answer(reply);
    struct source none = {NULL, 0};
    int in_layout = answer.number >= CURLEW_BAD_TYPE && answer.number <= CURLEW_BAD_MOVE;
    int in_slots = answer.number >= CURLEW_NOT_SET && answer.number != CURLEW_NO_ROOM && answer.first < layout->slots;

    if (in_layout || in_slots)
        return refuse(&layout->python, answer.number, answer.first, layout->source,
                      in_layout ? answer.first : layout->fields[answer.first].place);
    return refuse(&layout->python, answer.number, answer.first, none, 0);
}

/* ---- the fields ---- */

static struct field field_of(struct curlew_field row)
{
    struct field field = {INTEGERS, 1, row.flag, row.count, row.place};

    switch (row.type) {
    case 'a': case 'A': field.form = TEXT; break;
    case 'b': case 'B': case 'h': case 'H': field.form = DIGITS; break;
    case 's': case 'S': field.width = 2; break;
    case 'i': case 'I': field.width = 4; break;
    case 'w': case 'W': field.width = 8; break;
    case 'r': case 'R': field.form = REALS; field.width = 4; break;
    case 'q': case 'Q': field.form = REALS; field.width = 8; break;
    default: break;
    }
    return field;
}

static void add_field(struct layout *layout, struct field field)
{
    size_t count = field.count == CURLEW_NO_COUNT ? 1 : field.count;

    layout->fields[layout->slots++] = field;
    if (field.count == CURLEW_STAR)
        layout->starred++;
    else
        layout->counted += field.form == TEXT || field.form == DIGITS ? count : count * CURLEW_ITEM_SIZE;
}

/* A row of curlew_fields as a tuple, None for what there is not, and "*" for a star. */
static PyObject *field_shown(struct curlew_field row)
{
    PyObject *count = row.count == CURLEW_STAR ? PyUnicode_FromString("*")
                      : row.count == CURLEW_NO_COUNT ? Py_BuildValue("") : PyLong_FromUnsignedLong(row.count);
    PyObject *slot = row.slot == CURLEW_NO_SLOT ? Py_BuildValue("") : PyLong_FromUnsignedLong(row.slot);
    PyObject *position = row.position == CURLEW_OPEN ? Py_BuildValue("") : PyLong_FromUnsignedLong(row.position);
    PyObject *bytes = row.bytes == CURLEW_OPEN ? Py_BuildValue("") : PyLong_FromUnsignedLong(row.bytes);

    return Py_BuildValue("kkCNNNNN", (unsigned long)row.place, (unsigned long)row.length, (int)row.type,
                         PyBool_FromLong((long)row.flag), count, slot, position, bytes);
}

static PyObject *look_at_fields(struct layout *layout)
{
    uint8_t rows[CURLEW_MAX_LAYOUT * CURLEW_FIELD_SIZE], reply[CURLEW_FIELDS_REPLY] = {0};
    PyObject *shown;
    size_t count, i;

    if (curlew_fields(layout->source.bytes, layout->source.length, rows, sizeof rows, reply, sizeof reply) != CURLEW_OK)
        return refuse_reply(layout, reply);
    count = curlew_get_answer(reply).first;
    shown = PyTuple_New((Py_ssize_t)count);
    for (i = 0; shown != NULL && i < count; i++) {
        struct curlew_field row = curlew_get_field(rows, i);
        PyObject *field = field_shown(row);

        if (row.slot != CURLEW_NO_SLOT)
            add_field(layout, field_of(row));
        if (field == NULL || PyTuple_SetItem(shown, (Py_ssize_t)i, field) != 0)
            Py_CLEAR(shown);
    }
    return shown;
}

static int set_row(struct layout *layout, PyObject *row)
{
    if (row == Py_None)
        return 1;
    if (!PyType_Check(row) || !PyType_IsSubtype((PyTypeObject *)row, &PyTuple_Type)) {
        PyErr_Format(PyExc_TypeError, "row: a class made of tuple, not %R", row);
        return 0;
    }
    layout->allocate_row = __extension__ (allocfunc)PyType_GetSlot((PyTypeObject *)row, Py_tp_alloc);
    if (layout->allocate_row == NULL)
        return 0;
    Py_INCREF(row);
    layout->row = row;
    return 1;
}

/* (text, row, encoding, errors): the layout, and a tuple for each of its fields. */
PyObject *layout_new(const struct types *types, const struct python *python, PyObject *arguments)
{
    PyObject *text, *row, *encoding, *errors, *fields = NULL;
    struct layout *layout;

    if (!PyArg_ParseTuple(arguments, "UOOO:layout", &text, &row, &encoding, &errors))
        return NULL;
    layout = (struct layout *)PyType_GenericAlloc((PyTypeObject *)types->layout, 0);
    if (layout == NULL)
        return NULL;
    layout->python = *python;
    Py_INCREF(python->refused);
    Py_INCREF(python->as_bytes);
    Py_INCREF(types->rows);
    layout->rows_type = types->rows;
    layout->text = PyUnicode_AsUTF8String(text);
    if (layout->text != NULL && coding_set(&layout->coding, encoding, errors) && set_row(layout, row)) {
        layout->source.bytes = (const uint8_t *)PyBytes_AsString(layout->text);
        layout->source.length = (size_t)PyBytes_Size(layout->text);
        fields = look_at_fields(layout);
    }
    if (fields == NULL) {
        Py_DECREF(layout);
        return NULL;
    }
    return Py_BuildValue("NN", layout, fields);
}

/* ---- reading ---- */

/* Bytes of the area that the values of a record of this length fill at most, each of them at most eight for a byte. */
static size_t area_for(const struct layout *layout, size_t length)
{
    size_t each = CURLEW_ITEM_SIZE * (length < CURLEW_MAX_RECORD ? length : CURLEW_MAX_RECORD);
    size_t counted = layout->slots * each < layout->counted ? layout->slots * each : layout->counted;
    size_t all = counted + layout->starred * each;

    return all < CURLEW_MAX_AREA ? all : CURLEW_MAX_AREA;
}

static size_t slots_lent(const struct layout *layout)
{
    return layout->slots < CURLEW_MAX_SLOTS ? layout->slots : CURLEW_MAX_SLOTS;
}

/* A table for a reading by the layout, over a run of CURLEW_MAX_SLOTS slots and an area. */
static struct curlew_table table_for(const struct layout *layout, uint8_t *slots, const struct scratch *area)
{
    return curlew_table_over(slots, slots_lent(layout) * CURLEW_SLOT_SIZE, area->bytes, area->length);
}

/* The values of a table, a tuple or what was asked for in its place. */
static PyObject *show_row(const struct layout *layout, const struct curlew_table *table)
{
    Py_ssize_t count = (Py_ssize_t)layout->slots;
    PyObject *row = layout->row == NULL ? PyTuple_New(count) : layout->allocate_row((PyTypeObject *)layout->row, count);
    size_t i;

    for (i = 0; row != NULL && i < layout->slots; i++) {
        PyObject *value = show(&layout->fields[i], &layout->coding, table, i);

        if (value == NULL || PyTuple_SetItem(row, (Py_ssize_t)i, value) != 0)
            Py_CLEAR(row);
    }
    return row;
}

static PyObject *read_row(const struct layout *layout, const uint8_t *record, size_t length)
{
    uint8_t slots[CURLEW_MAX_SLOTS * CURLEW_SLOT_SIZE], reply[CURLEW_READ_REPLY] = {0};
    struct curlew_table table;
    struct scratch area;
    PyObject *row = NULL;

    if (!scratch_take(&area, area_for(layout, length)))
        return NULL;
    table = table_for(layout, slots, &area);
    if (read_record(layout, record, length, &table, 0, reply) == CURLEW_OK) {
        curlew_table_use(&table, curlew_get_answer(reply).first, layout->slots);
        row = show_row(layout, &table);
    } else {
        refuse_reply(layout, reply);
    }
    scratch_free(&area);
    return row;
}

static PyObject *layout_read(PyObject *self, PyObject *record)
{
    const struct layout *layout = (const struct layout *)self;
    struct run run;
    PyObject *row;

    if (!run_lend(&layout->python, &run, record, "record"))
        return NULL;
    row = read_row(layout, run.bytes, run.length);
    run_free(&run);
    return row;
}

/* A bytearray as it lies in memory. */
static uint8_t *array_bytes(PyObject *array)
{
    return (uint8_t *)PyByteArray_AsString(array);
}

/* (record, slots, area, mark): writes two bytearrays. Gives slots set, the place after the last value, steps. */
static PyObject *layout_read_into(PyObject *self, PyObject *arguments)
{
    const struct layout *layout = (const struct layout *)self;
    uint8_t reply[CURLEW_READ_REPLY] = {0};
    PyObject *record, *slots, *area;
    struct curlew_table table = {0};
    Py_ssize_t mark;

    if (!PyArg_ParseTuple(arguments, "SO!O!n:read_into", &record, &PyByteArray_Type, &slots, &PyByteArray_Type, &area,
                          &mark))
        return NULL;
    if (slots == area) {
        PyErr_SetString(PyExc_ValueError, "slots and area lie in one object: give each its own");
        return NULL;
    }
    table.slots = array_bytes(slots);
    table.slots_room = (size_t)PyByteArray_Size(slots);
    table.area = array_bytes(area);
    table.area_room = (size_t)PyByteArray_Size(area);
    if (read_record(layout, (const uint8_t *)PyBytes_AsString(record), (size_t)PyBytes_Size(record), &table,
                    (size_t)mark, reply) != CURLEW_OK)
        return refuse_reply(layout, reply);
    return Py_BuildValue("kkk", (unsigned long)curlew_get_answer(reply).first,
                         (unsigned long)curlew_get_answer(reply).second, (unsigned long)curlew_get_steps(reply));
}

/* Whether a table has the slots of the layout, each of them not set or inside the area; else Refused. */
static int table_fits(const struct layout *layout, const struct curlew_table *table)
{
    struct source none = {NULL, 0};
    uint32_t number = CURLEW_OK;
    size_t i;

    if (table->slots_room % CURLEW_SLOT_SIZE != 0 || table->slots_room > CURLEW_MAX_SLOTS * CURLEW_SLOT_SIZE ||
        table->area_room > CURLEW_MAX_AREA)
        number = CURLEW_BAD_SIZE;
    else if (table->slots_room / CURLEW_SLOT_SIZE < layout->slots)
        number = CURLEW_BAD_SLOTS;
    if (number != CURLEW_OK) {
        refuse(&layout->python, number, 0, none, 0);
        return 0;
    }
    for (i = 0; i < layout->slots; i++)
        if (curlew_get_slot(table->slots, i).kind != CURLEW_UNSET && curlew_table_slot(table, i).kind == CURLEW_UNSET) {
            refuse(&layout->python, CURLEW_BAD_SLOT, (uint32_t)i, layout->source, layout->fields[i].place);
            return 0;
        }
    return 1;
}

/* (slots, area): the values of a table, in two bytearrays that nobody else has. */
static PyObject *layout_values(PyObject *self, PyObject *arguments)
{
    const struct layout *layout = (const struct layout *)self;
    PyObject *slots, *area;
    struct curlew_table table = {0};

    if (!PyArg_ParseTuple(arguments, "O!O!:values", &PyByteArray_Type, &slots, &PyByteArray_Type, &area))
        return NULL;
    table.slots = array_bytes(slots);
    table.slots_room = table.slots_used = (size_t)PyByteArray_Size(slots);
    table.area = array_bytes(area);
    table.area_room = (size_t)PyByteArray_Size(area);
    return table_fits(layout, &table) ? show_row(layout, &table) : NULL;
}

/* ---- packing ---- */

/* Another number of values than the layout takes: what the library says of count slots that are not set. */
static PyObject *refuse_count(const struct layout *layout, size_t count)
{
    uint8_t slots[(CURLEW_MAX_SLOTS + 1) * CURLEW_SLOT_SIZE] = {0}, out[1], reply[CURLEW_PACK_REPLY] = {0};

    if (count > CURLEW_MAX_SLOTS)
        count = CURLEW_MAX_SLOTS + 1;
    curlew_pack(layout->source.bytes, layout->source.length, slots, count * CURLEW_SLOT_SIZE, NULL, 0, out, 0,
                reply, sizeof reply);
    return refuse_reply(layout, reply);
}

static int put_values(struct table *table, const struct layout *layout, PyObject *values)
{
    size_t i;
    int done = 1;

    for (i = 0; done && i < layout->slots; i++) {
        PyObject *value = list_item(values, (Py_ssize_t)i);

        done = value != NULL && table_put(table, value, &layout->fields[i]);
        Py_XDECREF(value);
    }
    return done;
}

static PyObject *pack_table(const struct layout *layout, const struct curlew_table *table)
{
    uint8_t reply[CURLEW_PACK_REPLY] = {0};
    struct scratch out;
    PyObject *record = NULL;
    int packed;

    if (!scratch_take(&out, 0))
        return NULL;
    packed = pack_record(layout, table, out.bytes, out.length, reply) == CURLEW_OK;
    if (!packed && curlew_get_answer(reply).number == CURLEW_NO_ROOM) {
        if (!scratch_take(&out, CURLEW_MAX_RECORD))
            return NULL;
        packed = pack_record(layout, table, out.bytes, out.length, reply) == CURLEW_OK;
    }
    if (packed)
        record = PyBytes_FromStringAndSize((const char *)out.bytes, (Py_ssize_t)curlew_get_answer(reply).first);
    else
        refuse_reply(layout, reply);
    scratch_free(&out);
    return record;
}

/* (values, wrap, cut) */
static PyObject *layout_pack(PyObject *self, PyObject *arguments)
{
    const struct layout *layout = (const struct layout *)self;
    PyObject *values, *wrap, *cut, *record = NULL;
    struct table table;

    if (!PyArg_ParseTuple(arguments, "OO!O!:pack", &values, &PyBool_Type, &wrap, &PyBool_Type, &cut) ||
        !is_list(values, "values"))
        return NULL;
    if ((size_t)list_length(values) != layout->slots || layout->slots > CURLEW_MAX_SLOTS)
        return refuse_count(layout, (size_t)list_length(values));
    table_start(&table, &layout->python, &layout->coding);
    table.source = layout->source;
    table.wrap = wrap == Py_True;
    table.cut = cut == Py_True;
    if (put_values(&table, layout, values))
        record = pack_table(layout, &table.built);
    table_free(&table);
    return record;
}

/* ---- comparing ---- */

static PyObject *findings(const uint8_t *report, size_t count)
{
    PyObject *list = PyList_New((Py_ssize_t)count);
    size_t i;

    for (i = 0; list != NULL && i < count; i++) {
        struct curlew_finding finding = curlew_get_finding(report, i);
        PyObject *shown = Py_BuildValue("kkk", (unsigned long)finding.verdict, (unsigned long)finding.place,
                                        (unsigned long)finding.bits);

        if (shown == NULL || PyList_SetItem(list, (Py_ssize_t)i, shown) != 0)
            Py_CLEAR(list);
    }
    return list;
}

static PyObject *compare_runs(const struct layout *layout, const struct run *first, const struct run *second,
                              const struct scratch *first_area, const struct scratch *second_area)
{
    uint8_t first_slots[CURLEW_MAX_SLOTS * CURLEW_SLOT_SIZE], second_slots[CURLEW_MAX_SLOTS * CURLEW_SLOT_SIZE];
    uint8_t report[CURLEW_MAX_SLOTS * CURLEW_FINDING_SIZE], reply[CURLEW_COMPARE_REPLY] = {0};
    struct curlew_table one = table_for(layout, first_slots, first_area);
    struct curlew_table other = table_for(layout, second_slots, second_area);

    if (curlew_compare(layout->source.bytes, layout->source.length, first->bytes, first->length,
                       second->bytes, second->length, one.slots, one.slots_room, one.area, one.area_room,
                       other.slots, other.slots_room, other.area, other.area_room,
                       report, sizeof report, reply, sizeof reply) != CURLEW_OK)
        return refuse_reply(layout, reply);
    curlew_table_use(&one, layout->slots, layout->slots);
    curlew_table_use(&other, layout->slots, layout->slots);
    return Py_BuildValue("NNN", findings(report, layout->slots), show_row(layout, &one), show_row(layout, &other));
}

/* (first, second): the findings, and the values of both. */
static PyObject *layout_compare(PyObject *self, PyObject *arguments)
{
    const struct layout *layout = (const struct layout *)self;
    PyObject *first, *second, *answer = NULL;
    struct run first_run, second_run;
    struct scratch first_area, second_area;

    if (!PyArg_ParseTuple(arguments, "OO:compare", &first, &second) ||
        !run_keep(&layout->python, &first_run, first, "first"))
        return NULL;
    if (run_keep(&layout->python, &second_run, second, "second")) {
        if (scratch_take(&first_area, area_for(layout, first_run.length))) {
            if (scratch_take(&second_area, area_for(layout, second_run.length))) {
                answer = compare_runs(layout, &first_run, &second_run, &first_area, &second_area);
                scratch_free(&second_area);
            }
            scratch_free(&first_area);
        }
        run_free(&second_run);
    }
    run_free(&first_run);
    return answer;
}

/* ---- what a layout is ---- */

/* The slots and the length of the shortest record; refused as packing would refuse the layout. */
static PyObject *layout_describe(PyObject *self, PyObject *nothing)
{
    const struct layout *layout = (const struct layout *)self;
    uint8_t reply[CURLEW_LAYOUT_REPLY] = {0};

    (void)nothing;
    if (curlew_layout(layout->source.bytes, layout->source.length, reply, sizeof reply) != CURLEW_OK)
        return refuse_reply(layout, reply);
    return Py_BuildValue("kk", (unsigned long)curlew_get_answer(reply).first,
                         (unsigned long)curlew_get_answer(reply).second);
}

static PyObject *place_shown(uint32_t place)
{
    return place == CURLEW_NOWHERE ? Py_BuildValue("") : PyLong_FromUnsignedLong(place);
}

/* Where the layout may not grow, loses something, may not be joined. */
static PyObject *layout_promises(PyObject *self, PyObject *nothing)
{
    const struct layout *layout = (const struct layout *)self;
    uint8_t reply[CURLEW_PROMISES_REPLY] = {0};
    struct curlew_answer answer;

    (void)nothing;
    if (curlew_promises(layout->source.bytes, layout->source.length, reply, sizeof reply) != CURLEW_OK)
        return refuse_reply(layout, reply);
    answer = curlew_get_answer(reply);
    return Py_BuildValue("NNN", place_shown(answer.first), place_shown(answer.second),
                         place_shown(curlew_get_joins(reply)));
}

/* (old): number, the two numbers of the answer, and which layout a place is in. */
static PyObject *layout_extends(PyObject *self, PyObject *old)
{
    const struct layout *layout = (const struct layout *)self;
    const struct layout *other;
    uint8_t reply[CURLEW_EXTENDS_REPLY] = {0};
    struct curlew_answer answer;
    char caret[2 * CURLEW_MAX_LAYOUT + 4] = "";

    if (Py_TYPE(old) != Py_TYPE(self)) {
        PyErr_Format(PyExc_TypeError, "old: a layout, not %R", Py_TYPE(old));
        return NULL;
    }
    other = (const struct layout *)old;
    curlew_extends(other->source.bytes, other->source.length, layout->source.bytes, layout->source.length,
                   reply, sizeof reply);
    answer = curlew_get_answer(reply);
    if (answer.number >= CURLEW_BAD_TYPE && answer.number <= CURLEW_BAD_MOVE)
        return refuse_reply(curlew_get_which(reply) == 0 ? other : layout, reply);
    if (answer.number != CURLEW_OK)
        curlew_point(layout->source.bytes, layout->source.length, answer.first, caret, sizeof caret);
    return Py_BuildValue("kkkss", (unsigned long)answer.number, (unsigned long)answer.first,
                         (unsigned long)answer.second, curlew_refusal(answer.number), caret);
}

/* ---- iterating ---- */

/* (block, length): an iterator over the records of a run of bytes, length bytes each, the last one perhaps fewer. */
static PyObject *layout_rows(PyObject *self, PyObject *arguments)
{
    const struct layout *layout = (const struct layout *)self;
    PyObject *block;
    Py_ssize_t length;
    struct rows *rows;

    if (!PyArg_ParseTuple(arguments, "Sn:rows", &block, &length))
        return NULL;
    if (length <= 0) {
        PyErr_SetString(PyExc_ValueError, "length: a record has one byte at least");
        return NULL;
    }
    rows = (struct rows *)PyType_GenericAlloc((PyTypeObject *)layout->rows_type, 0);
    if (rows == NULL)
        return NULL;
    Py_INCREF(self);
    Py_INCREF(block);
    rows->layout = self;
    rows->block = block;
    rows->length = (size_t)length;
    return (PyObject *)rows;
}

static PyObject *rows_next(PyObject *self)
{
    struct rows *rows = (struct rows *)self;
    const uint8_t *record = (const uint8_t *)PyBytes_AsString(rows->block) + rows->at;
    size_t length = (size_t)PyBytes_Size(rows->block) - rows->at;

    if (length == 0)
        return NULL;
    if (length > rows->length)
        length = rows->length;
    rows->at += length;
    return read_row((const struct layout *)rows->layout, record, length);
}

static int rows_traverse(PyObject *self, visitproc visit, void *arg)
{
    struct rows *rows = (struct rows *)self;

    Py_VISIT(Py_TYPE(self));
    Py_VISIT(rows->layout);
    Py_VISIT(rows->block);
    return 0;
}

static void rows_free(PyObject *self)
{
    struct rows *rows = (struct rows *)self;
    PyTypeObject *type = Py_TYPE(self);

    PyObject_GC_UnTrack(self);
    Py_CLEAR(rows->layout);
    Py_CLEAR(rows->block);
    PyObject_GC_Del(self);
    Py_DECREF(type);
}

/* ---- the types ---- */

static int layout_traverse(PyObject *self, visitproc visit, void *arg)
{
    struct layout *layout = (struct layout *)self;

    Py_VISIT(Py_TYPE(self));
    Py_VISIT(layout->python.refused);
    Py_VISIT(layout->python.as_bytes);
    Py_VISIT(layout->rows_type);
    Py_VISIT(layout->row);
    return 0;
}

static void layout_free(PyObject *self)
{
    struct layout *layout = (struct layout *)self;
    PyTypeObject *type = Py_TYPE(self);

    PyObject_GC_UnTrack(self);
    Py_CLEAR(layout->python.refused);
    Py_CLEAR(layout->python.as_bytes);
    Py_CLEAR(layout->rows_type);
    Py_CLEAR(layout->row);
    Py_CLEAR(layout->text);
    coding_clear(&layout->coding);
    PyObject_GC_Del(self);
    Py_DECREF(type);
}

static PyObject *no_new(PyTypeObject *type, PyObject *arguments, PyObject *keywords)
{
    (void)arguments;
    (void)keywords;
    return PyErr_Format(PyExc_TypeError, "%R is made by curlew.Layout alone", type);
}

static PyMethodDef layout_methods[] = {
    {"read", layout_read, METH_O, NULL},
    {"read_into", layout_read_into, METH_VARARGS, NULL},
    {"values", layout_values, METH_VARARGS, NULL},
    {"pack", layout_pack, METH_VARARGS, NULL},
    {"compare", layout_compare, METH_VARARGS, NULL},
    {"describe", layout_describe, METH_NOARGS, NULL},
    {"promises", layout_promises, METH_NOARGS, NULL},
    {"extends", layout_extends, METH_O, NULL},
    {"rows", layout_rows, METH_VARARGS, NULL},
    {NULL, NULL, 0, NULL},
};

static PyType_Slot layout_slots[] = {
    {Py_tp_new, FUNCTION(no_new)},
    {Py_tp_dealloc, FUNCTION(layout_free)},
    {Py_tp_traverse, FUNCTION(layout_traverse)},
    {Py_tp_methods, layout_methods},
    {0, NULL},
};

static PyType_Slot rows_slots[] = {
    {Py_tp_new, FUNCTION(no_new)},
    {Py_tp_dealloc, FUNCTION(rows_free)},
    {Py_tp_traverse, FUNCTION(rows_traverse)},
    {Py_tp_iter, FUNCTION(PyObject_SelfIter)},
    {Py_tp_iternext, FUNCTION(rows_next)},
    {0, NULL},
};

int types_make(struct types *types)
{
    static const unsigned flags = Py_TPFLAGS_DEFAULT | Py_TPFLAGS_HAVE_GC;
    PyType_Spec layout = {"curlew._core.Layout", sizeof(struct layout), 0, flags, layout_slots};
    PyType_Spec rows = {"curlew._core.Rows", sizeof(struct rows), 0, flags, rows_slots};

    types->layout = PyType_FromSpec(&layout);
    types->rows = PyType_FromSpec(&rows);
    return types->layout != NULL && types->rows != NULL;
}
