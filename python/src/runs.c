#include "core.h"

int run_keep(const struct python *python, struct run *run, PyObject *object, const char *what)
{
    if (PyByteArray_Check(object)) {
        run->owner = PyBytes_FromStringAndSize(PyByteArray_AsString(object), PyByteArray_Size(object));
    } else if (PyBytes_Check(object)) {
        Py_INCREF(object);
        run->owner = object;
    } else {
        run->owner = PyObject_CallFunction(python->as_bytes, "Os", object, what);
    }
    if (run->owner == NULL)
        return 0;
    run->bytes = (const uint8_t *)PyBytes_AsString(run->owner);
    run->length = run->bytes == NULL ? 0 : (size_t)PyBytes_Size(run->owner);
    if (run->bytes == NULL)
        run_free(run);
    return run->bytes != NULL;
}

int run_lend(const struct python *python, struct run *run, PyObject *object, const char *what)
{
    if (!PyByteArray_Check(object))
        return run_keep(python, run, object, what);
    run->bytes = (const uint8_t *)PyByteArray_AsString(object);
    run->length = (size_t)PyByteArray_Size(object);
    run->owner = NULL;
    return 1;
}

void run_free(struct run *run)
{
    Py_CLEAR(run->owner);
}

int scratch_take(struct scratch *scratch, size_t length)
{
    scratch->bytes = scratch->small;
    scratch->length = sizeof scratch->small;
    if (length <= sizeof scratch->small)
        return 1;
    scratch->bytes = PyMem_Malloc(length);
    scratch->length = length;
    if (scratch->bytes == NULL)
        PyErr_NoMemory();
    return scratch->bytes != NULL;
}

void scratch_free(struct scratch *scratch)
{
    if (scratch->bytes != scratch->small)
        PyMem_Free(scratch->bytes);
}

PyObject *refuse_saying(const struct python *python, uint32_t number, uint32_t place, PyObject *message,
                        struct source source, size_t at)
{
    char caret[2 * CURLEW_MAX_LAYOUT + 4] = "";
    PyObject *exception;

    if (message == NULL)
        return NULL;
    if (source.bytes != NULL && source.length <= CURLEW_MAX_LAYOUT)
        curlew_point(source.bytes, source.length, at, caret, sizeof caret);
    exception = PyObject_CallFunction(python->refused, "kkOs", (unsigned long)number, (unsigned long)place, message,
                                      caret);
    Py_DECREF(message);
    if (exception != NULL) {
        PyErr_SetObject(python->refused, exception);
        Py_DECREF(exception);
    }
    return NULL;
}

PyObject *refuse(const struct python *python, uint32_t number, uint32_t place, struct source source, size_t at)
{
    return refuse_saying(python, number, place, PyUnicode_FromString(curlew_refusal(number)), source, at);
}

/* The bytes of a str in UTF-8, null for None. */
static int name_set(PyObject **name, PyObject *value)
{
    *name = value == Py_None ? NULL : PyUnicode_AsUTF8String(value);
    return value == Py_None || *name != NULL;
}

int coding_set(struct coding *coding, PyObject *encoding, PyObject *errors)
{
    coding->errors = NULL;
    if (name_set(&coding->encoding, encoding) && name_set(&coding->errors, errors))
        return 1;
    coding_clear(coding);
    return 0;
}

void coding_clear(struct coding *coding)
{
    Py_CLEAR(coding->encoding);
    Py_CLEAR(coding->errors);
}

PyObject *coding_decode(const struct coding *coding, const uint8_t *bytes, size_t length)
{
    if (coding->encoding == NULL)
        return PyBytes_FromStringAndSize((const char *)bytes, (Py_ssize_t)length);
    return PyUnicode_Decode((const char *)bytes, (Py_ssize_t)length, PyBytes_AsString(coding->encoding),
                            coding->errors == NULL ? NULL : PyBytes_AsString(coding->errors));
}
