#include "core.h"

static PyObject *show_item(uint32_t kind, const uint8_t *from)
{
    if (kind == CURLEW_SIGNED)
        return PyLong_FromLongLong(curlew_get_int(from));
    if (kind == CURLEW_UNSIGNED)
        return PyLong_FromUnsignedLongLong(curlew_get_uint(from));
    return PyFloat_FromDouble(curlew_get_double(from));
}

static PyObject *show_list(struct curlew_slot slot, const uint8_t *area)
{
    PyObject *list = PyList_New((Py_ssize_t)slot.length);
    size_t i;

    for (i = 0; list != NULL && i < slot.length; i++) {
        PyObject *item = show_item(slot.kind, area + slot.start + i * CURLEW_ITEM_SIZE);

        if (item == NULL || PyList_SetItem(list, (Py_ssize_t)i, item) != 0)
            Py_CLEAR(list);
    }
    return list;
}

PyObject *show(const struct field *field, const struct coding *coding, const struct curlew_table *table, size_t index)
{
    struct curlew_slot slot = curlew_table_slot(table, index);

    if (slot.kind == CURLEW_UNSET) {
        Py_INCREF(Py_None);
        return Py_None;
    }
    if (slot.kind == CURLEW_STRING) {
        if (field != NULL && field->form == DIGITS)
            return PyUnicode_FromStringAndSize((const char *)table->area + slot.start, (Py_ssize_t)slot.length);
        return coding_decode(coding, table->area + slot.start, slot.length);
    }
    if (field != NULL && field->count == CURLEW_NO_COUNT && slot.length == 1)
        return show_item(slot.kind, table->area + slot.start);
    return show_list(slot, table->area);
}

PyObject *show_all(const struct coding *coding, const struct curlew_table *table)
{
    size_t count = curlew_table_count(table), i;
    PyObject *list = PyList_New((Py_ssize_t)count);

    for (i = 0; list != NULL && i < count; i++) {
        PyObject *value = show(NULL, coding, table, i);

        if (value == NULL || PyList_SetItem(list, (Py_ssize_t)i, value) != 0)
            Py_CLEAR(list);
    }
    return list;
}
