#include <stdio.h>

#include "core.h"

/* From here on the nearest single would be an infinity: the largest single and half of the step below it. */
#define SINGLE_END 0x1.ffffffp127

void table_start(struct table *table, const struct python *python, const struct coding *coding)
{
    table->built = curlew_table_over(table->slots, sizeof table->slots, table->small, sizeof table->small);
    table->python = python;
    table->coding = coding;
    table->source.bytes = NULL;
    table->source.length = 0;
    table->wrap = 0;
    table->cut = 0;
}

void table_free(struct table *table)
{
    if (table->built.area != table->small)
        PyMem_Free(table->built.area);
}

int is_list(PyObject *values, const char *what)
{
    if (PyList_Check(values) || PyTuple_Check(values))
        return 1;
    PyErr_Format(PyExc_TypeError, "%s: a list or a tuple, not %R", what, Py_TYPE(values));
    return 0;
}

Py_ssize_t list_length(PyObject *list)
{
    return PyList_Check(list) ? PyList_Size(list) : PyTuple_Size(list);
}

PyObject *list_item(PyObject *list, Py_ssize_t index)
{
    PyObject *item = PyList_Check(list) ? PyList_GetItem(list, index) : PyTuple_GetItem(list, index);

    Py_XINCREF(item);
    return item;
}

static int wrong_type(const struct table *table, const char *wanted, PyObject *value)
{
    PyErr_Format(PyExc_TypeError, "value %zu: %s, not %R", curlew_table_count(&table->built), wanted, Py_TYPE(value));
    return 0;
}

/* Says that the field has no room for all of a value, and what to do. */
static int would_lose(const struct table *table, const struct field *field, const char *advice, PyObject *value)
{
    PyObject *message = PyUnicode_FromFormat("the field has no room for %.60R: %s", value, advice);

    refuse_saying(table->python, WOULD_LOSE, (uint32_t)curlew_table_count(&table->built), message, table->source,
                  field->place);
    return 0;
}

static int too_large(const struct table *table)
{
    struct source none = {NULL, 0};

    refuse(table->python, CURLEW_BAD_SIZE, 0, none, 0);
    return 0;
}

/* Room for `length` items of `size` bytes more. */
static int table_grow(struct table *table, size_t length, size_t size)
{
    struct curlew_table *built = &table->built;
    size_t room = 2 * built->area_room;
    uint8_t *area;

    if (length > (CURLEW_MAX_AREA - built->area_used) / size)
        return too_large(table);
    if (length * size <= built->area_room - built->area_used)
        return 1;
    if (room < built->area_used + length * size)
        room = built->area_used + length * size;
    if (room > CURLEW_MAX_AREA)
        room = CURLEW_MAX_AREA;
    area = PyMem_Realloc(built->area == table->small ? NULL : built->area, room);
    if (area == NULL) {
        PyErr_NoMemory();
        return 0;
    }
    if (built->area == table->small)
        memcpy(area, table->small, built->area_used);
    built->area = area;
    built->area_room = room;
    return 1;
}

static int put_unset(struct table *table)
{
    return curlew_table_add_unset(&table->built) || too_large(table);
}

/* ---- text ---- */

static int put_bytes(struct table *table, const struct run *run)
{
    return table_grow(table, run->length, 1) &&
           (curlew_table_add_text(&table->built, run->bytes, run->length) || too_large(table));
}

/* The bytes of a str: digits in UTF-8, where those that are none stay none; text by its encoding. */
static PyObject *encoded(const struct table *table, PyObject *value, const struct field *field)
{
    const struct coding *coding = table->coding;

    if (field != NULL && field->form == DIGITS)
        return PyUnicode_AsUTF8String(value);
    if (coding->encoding == NULL) {
        wrong_type(table, "bytes, or None (str where an encoding is given)", value);
        return NULL;
    }
    return PyUnicode_AsEncodedString(value, PyBytes_AsString(coding->encoding),
                                     coding->errors == NULL ? NULL : PyBytes_AsString(coding->errors));
}

static int put_text(struct table *table, PyObject *value, const struct field *field)
{
    PyObject *bytes = NULL;
    struct run run;
    char what[32] = "value";
    int done;

    if (PyUnicode_Check(value)) {
        bytes = encoded(table, value, field);
        if (bytes == NULL)
            return 0;
    } else if (!PyBytes_Check(value)) {
        snprintf(what, sizeof what, "value %zu", curlew_table_count(&table->built));
    }
    done = run_lend(table->python, &run, bytes == NULL ? value : bytes, what);
    if (done) {
        uint32_t count = field == NULL ? CURLEW_STAR : field->count == CURLEW_NO_COUNT ? 1 : field->count;

        if (count < CURLEW_STAR && run.length > count && !table->cut)
            done = would_lose(table, field, "cut=True leaves its end out", value);
        else
            done = put_bytes(table, &run);
        run_free(&run);
    }
    Py_XDECREF(bytes);
    return done;
}

/* ---- numbers ---- */

struct integer {
    uint64_t bits; /* in two's complement */
    int negative;
};

static int outside(const struct table *table, PyObject *value)
{
    PyErr_Format(PyExc_OverflowError, "value %zu: %R is outside 64 bits", curlew_table_count(&table->built), value);
    return 0;
}

static int integer_of(const struct table *table, PyObject *number, struct integer *integer)
{
    int overflow;
    long long value = PyLong_AsLongLongAndOverflow(number, &overflow);

    if (overflow == 0) {
        integer->bits = (uint64_t)value;
        integer->negative = value < 0;
        return value != -1 || !PyErr_Occurred();
    }
    if (overflow < 0)
        return outside(table, number);
    integer->bits = PyLong_AsUnsignedLongLong(number);
    integer->negative = 0;
    if (!PyErr_Occurred())
        return 1;
    PyErr_Clear();
    return outside(table, number);
}

static int get_integer(const struct table *table, PyObject *value, struct integer *integer)
{
    PyObject *number;
    int done;

    if (PyLong_CheckExact(value))
        return integer_of(table, value, integer);
    if (PyBool_Check(value) || !PyIndex_Check(value))
        return wrong_type(table, "an int, or a list of int", value);
    number = PyNumber_Index(value);
    if (number == NULL)
        return 0;
    done = integer_of(table, number, integer);
    Py_DECREF(number);
    return done;
}

/* Whether reading by the field gives the integer back. */
static int integer_fits(const struct field *field, struct integer integer)
{
    unsigned bits = 8 * field->width;
    uint64_t highest = UINT64_MAX >> (64 - bits);

    if (field->flag != 0)
        return !integer.negative && integer.bits <= highest;
    return (integer.negative ? ~integer.bits : integer.bits) <= highest >> 1;
}

/* What the items of one slot have in common. */
struct items {
    const struct field *field; /* null where the values say what they are */
    uint32_t kind;
    size_t stored; /* how many of them are stored; more are not looked at in packing */
    int negative;
    int large;
};

static int put_integer(struct table *table, PyObject *value, struct items *items, size_t index)
{
    const struct field *field = items->field;
    struct integer integer;

    if (!get_integer(table, value, &integer))
        return 0;
    if (field != NULL && index < items->stored && !table->wrap && !integer_fits(field, integer))
        return would_lose(table, field, "wrap=True stores its low-order bits", value);
    items->negative |= integer.negative;
    items->large |= !integer.negative && integer.bits > INT64_MAX;
    if (field == NULL && items->negative && items->large)
        return outside(table, value);
    curlew_put_uint(table->built.area + table->built.area_used + index * CURLEW_ITEM_SIZE, integer.bits);
    return 1;
}

static int put_real(struct table *table, PyObject *value, const struct items *items, size_t index)
{
    const struct field *field = items->field;
    double real;

    if (PyBool_Check(value) || PyUnicode_Check(value))
        return wrong_type(table, "a float, or a list of float", value);
    real = PyFloat_AsDouble(value);
    if (PyErr_Occurred()) {
        if (PyErr_ExceptionMatches(PyExc_TypeError)) {
            PyErr_Clear();
            wrong_type(table, "a float, or a list of float", value);
        }
        return 0;
    }
    if (field != NULL && field->width == 4 && index < items->stored && !table->wrap &&
        (real >= SINGLE_END || real <= -SINGLE_END))
        return would_lose(table, field, "wrap=True stores the largest single", value);
    curlew_put_double(table->built.area + table->built.area_used + index * CURLEW_ITEM_SIZE, real);
    return 1;
}

static int put_item(struct table *table, PyObject *value, struct items *items, size_t index)
{
    if (items->kind == CURLEW_REAL)
        return put_real(table, value, items, index);
    return put_integer(table, value, items, index);
}

static int put_list(struct table *table, PyObject *list, struct items *items, size_t length)
{
    size_t i;
    int done = 1;

    for (i = 0; done && i < length; i++) {
        PyObject *item = list_item(list, (Py_ssize_t)i);

        done = item != NULL && put_item(table, item, items, i);
        Py_XDECREF(item);
    }
    return done;
}

/* One number, or a list of them; the items lie in the area before their slot is added. */
static int put_numbers(struct table *table, PyObject *value, struct items *items)
{
    int listed = PyList_Check(value) || PyTuple_Check(value);
    size_t length = listed ? (size_t)list_length(value) : 1;

    if (items->field != NULL && items->field->count < CURLEW_STAR) {
        items->stored = items->field->count;
        if (length > items->stored && !table->cut)
            return would_lose(table, items->field, "cut=True leaves its end out", value);
    }
    if (!table_grow(table, length, CURLEW_ITEM_SIZE))
        return 0;
    if (!(listed ? put_list(table, value, items, length) : put_item(table, value, items, 0)))
        return 0;
    if (items->kind == CURLEW_SIGNED && items->large)
        items->kind = CURLEW_UNSIGNED;
    return curlew_table_add(&table->built, items->kind, length, CURLEW_ITEM_SIZE) || too_large(table);
}

static struct items items_of(const struct field *field, uint32_t kind)
{
    struct items items = {field, kind, SIZE_MAX, 0, 0};

    return items;
}

int table_put(struct table *table, PyObject *value, const struct field *field)
{
    struct items items = items_of(field, field->form == REALS ? CURLEW_REAL : CURLEW_SIGNED);

    if (value == Py_None)
        return put_unset(table);
    if (field->form == TEXT || field->form == DIGITS)
        return put_text(table, value, field);
    return put_numbers(table, value, &items);
}

/* Whether a value is a float, or a list that has one. */
static int is_real(PyObject *value)
{
    Py_ssize_t i, length;

    if (!PyList_Check(value) && !PyTuple_Check(value))
        return PyFloat_Check(value);
    length = list_length(value);
    for (i = 0; i < length; i++)
        if (PyFloat_Check(PyList_Check(value) ? PyList_GetItem(value, i) : PyTuple_GetItem(value, i)))
            return 1;
    return 0;
}

int table_put_any(struct table *table, PyObject *value)
{
    struct items items = items_of(NULL, is_real(value) ? CURLEW_REAL : CURLEW_SIGNED);

    if (value == Py_None)
        return put_unset(table);
    if (PyList_Check(value) || PyTuple_Check(value) || PyIndex_Check(value) || items.kind == CURLEW_REAL)
        return put_numbers(table, value, &items);
    return put_text(table, value, NULL);
}

int table_put_leg(struct table *table, PyObject *value)
{
    struct items items = items_of(NULL, CURLEW_SIGNED);

    return value == Py_None ? put_unset(table) : put_numbers(table, value, &items);
}
