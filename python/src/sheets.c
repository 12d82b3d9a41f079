#include "core.h"

static const struct source no_source = {NULL, 0};

static PyObject *refuse_reply(const struct python *python, const uint8_t *reply)
{
    struct curlew_answer answer = curlew_get_answer(reply);

    return refuse(python, answer.number, answer.first, no_source, 0);
}

/* Puts a list of values into a table by `put`, which is given each of them. */
static int put_all(struct table *table, PyObject *values, const char *what, int (*put)(struct table *, PyObject *))
{
    Py_ssize_t count, i;
    int done = 1;

    if (!is_list(values, what))
        return 0;
    count = list_length(values);
    if (count > CURLEW_MAX_SLOTS) {
        refuse(table->python, CURLEW_BAD_SIZE, 0, no_source, 0);
        return 0;
    }
    for (i = 0; done && i < count; i++) {
        PyObject *value = list_item(values, i);

        done = value != NULL && put(table, value);
        Py_XDECREF(value);
    }
    return done;
}

static PyObject *write_sheet(const struct table *table)
{
    const struct curlew_table *built = &table->built;
    uint8_t reply[CURLEW_SHEET_REPLY] = {0};
    struct scratch sheet;
    PyObject *written = NULL;

    if (!scratch_take(&sheet, built->area_used + 5 + 5 * curlew_table_count(built))) /* version 2 at its longest */
        return NULL;
    if (curlew_sheet_write(built->slots, built->slots_used, built->area, built->area_used, sheet.bytes, sheet.length,
                           reply, sizeof reply) == CURLEW_OK)
        written = PyBytes_FromStringAndSize((const char *)sheet.bytes, (Py_ssize_t)curlew_get_answer(reply).first);
    else
        refuse_reply(table->python, reply);
    scratch_free(&sheet);
    return written;
}

/* (values, encoding, errors) */
PyObject *sheet_dump(const struct python *python, PyObject *arguments)
{
    PyObject *values, *encoding, *errors, *sheet = NULL;
    struct coding coding;
    struct table table;

    if (!PyArg_ParseTuple(arguments, "OOO:sheet_dump", &values, &encoding, &errors) ||
        !coding_set(&coding, encoding, errors))
        return NULL;
    table_start(&table, python, &coding);
    if (put_all(&table, values, "values", table_put_any))
        sheet = write_sheet(&table);
    table_free(&table);
    coding_clear(&coding);
    return sheet;
}

/* The length of an area that holds all values of a sheet, as far as an area goes. */
static size_t area_for(size_t sheet_len)
{
    return sheet_len < CURLEW_MAX_AREA ? sheet_len : CURLEW_MAX_AREA;
}

static PyObject *read_sheet(const struct python *python, const struct coding *coding, const struct run *sheet)
{
    uint8_t slots[CURLEW_MAX_SLOTS * CURLEW_SLOT_SIZE], reply[CURLEW_SHEET_REPLY] = {0};
    struct curlew_table table;
    struct scratch area;
    PyObject *values = NULL;

    if (!scratch_take(&area, area_for(sheet->length)))
        return NULL;
    table = curlew_table_over(slots, sizeof slots, area.bytes, area.length);
    if (curlew_sheet_read(sheet->bytes, sheet->length, table.slots, table.slots_room, table.area, table.area_room, 0,
                          reply, sizeof reply) == CURLEW_OK) {
        curlew_table_use(&table, curlew_get_answer(reply).first, curlew_get_answer(reply).first);
        values = show_all(coding, &table);
    } else {
        refuse_reply(python, reply);
    }
    scratch_free(&area);
    return values;
}

/* (sheet, encoding, errors) */
PyObject *sheet_load(const struct python *python, PyObject *arguments)
{
    PyObject *sheet, *encoding, *errors, *values = NULL;
    struct coding coding;
    struct run run;

    if (!PyArg_ParseTuple(arguments, "OOO:sheet_load", &sheet, &encoding, &errors) ||
        !coding_set(&coding, encoding, errors))
        return NULL;
    if (run_lend(python, &run, sheet, "sheet")) {
        values = read_sheet(python, &coding, &run);
        run_free(&run);
    }
    coding_clear(&coding);
    return values;
}

static PyObject *rescue(const struct python *python, const struct coding *coding, const struct run *sheet, size_t legs)
{
    uint8_t slots[CURLEW_MAX_SLOTS * CURLEW_SLOT_SIZE], reply[CURLEW_RESCUE_REPLY] = {0};
    struct curlew_table table;
    struct scratch area;
    PyObject *rescued = NULL;

    if (!scratch_take(&area, area_for(sheet->length)))
        return NULL;
    table = curlew_table_over(slots, sizeof slots, area.bytes, area.length);
    if (curlew_sheet_rescue(sheet->bytes, sheet->length, legs, table.slots, table.slots_room,
                            table.area, table.area_room, 0, reply, sizeof reply) == CURLEW_OK) {
        curlew_table_use(&table, curlew_get_answer(reply).first, legs);
        rescued = Py_BuildValue("Nkkk", show_all(coding, &table), (unsigned long)curlew_get_answer(reply).first,
                                (unsigned long)curlew_get_answer(reply).second,
                                (unsigned long)curlew_get_dropped(reply));
    } else {
        refuse_reply(python, reply);
    }
    scratch_free(&area);
    return rescued;
}

/* (sheet, legs, encoding, errors): the values, entries kept, slots cleared, bytes dropped. */
PyObject *sheet_rescue(const struct python *python, PyObject *arguments)
{
    PyObject *sheet, *encoding, *errors, *rescued = NULL;
    struct coding coding;
    struct run run;
    Py_ssize_t legs;

    if (!PyArg_ParseTuple(arguments, "OnOO:sheet_rescue", &sheet, &legs, &encoding, &errors) ||
        !coding_set(&coding, encoding, errors))
        return NULL;
    if (run_lend(python, &run, sheet, "sheet")) {
        rescued = rescue(python, &coding, &run, (size_t)legs);
        run_free(&run);
    }
    coding_clear(&coding);
    return rescued;
}

/* The mean, None where no leg is marked, and how many are not. */
PyObject *mean(const struct python *python, PyObject *legs)
{
    static const struct coding none = {NULL, NULL};
    uint8_t reply[CURLEW_MEAN_REPLY] = {0};
    struct table table;
    PyObject *answer = NULL;
    double value = 0;

    table_start(&table, python, &none);
    if (put_all(&table, legs, "legs", table_put_leg)) {
        if (curlew_mean(table.built.slots, table.built.slots_used, table.built.area, table.built.area_used,
                        reply, sizeof reply) != CURLEW_OK)
            refuse_reply(python, reply);
        else
            answer = Py_BuildValue("Nk", curlew_get_mean(reply, &value) ? PyFloat_FromDouble(value) : Py_BuildValue(""),
                                   (unsigned long)curlew_get_answer(reply).first);
    }
    table_free(&table);
    return answer;
}

/* The layout that a template of Perl stands for. */
PyObject *from_perl(const struct python *python, PyObject *text)
{
    uint8_t layout[CURLEW_MAX_LAYOUT], reply[CURLEW_PERL_REPLY] = {0};
    PyObject *bytes, *written = NULL;
    struct source source;
    struct curlew_answer answer;

    if (!PyUnicode_Check(text))
        return PyErr_Format(PyExc_TypeError, "template: a str, not %R", Py_TYPE(text));
    bytes = PyUnicode_AsUTF8String(text);
    if (bytes == NULL)
        return NULL;
    source.bytes = (const uint8_t *)PyBytes_AsString(bytes);
    source.length = (size_t)PyBytes_Size(bytes);
    curlew_from_perl(source.bytes, source.length, layout, sizeof layout, reply, sizeof reply);
    answer = curlew_get_answer(reply);
    if (answer.number == CURLEW_OK)
        written = PyUnicode_FromStringAndSize((const char *)layout, (Py_ssize_t)answer.first);
    else
        refuse(python, answer.number, answer.first, answer.number == CURLEW_BAD_TEMPLATE ? source : no_source,
               answer.first);
    Py_DECREF(bytes);
    return written;
}
