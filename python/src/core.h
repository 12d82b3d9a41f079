/*
 * What the files of the extension module curlew._core share. Each section is one file; layout.c and sheets.c call the
 * library.
 *
 * Python's limited API of 3.9 is all that is used, so that one build serves every later Python. It has no buffer
 * protocol: bytes and bytearrays are taken where they lie, a Python function makes bytes of what else there is.
 *
 * The interpreter's lock is held from the look at an argument to the end of the call, so that nobody else writes its
 * bytes meanwhile. Nothing is written but what the call itself owns, and objects keep no state that a call changes, the
 * place of an iterator excepted.
 */
#ifndef CORE_H
#define CORE_H

#define Py_LIMITED_API 0x03090000
#include <Python.h>

#include "curlew.h"

/* A function in a table of Python's slots, which are pointers to objects. */
#define FUNCTION(name) (__extension__ (void *)(name))

/* Bytes of a call that need no memory of their own. */
#define SMALL 4096

/* The number of a refusal by this module: the field has no room for all of a value. The library's are smaller. */
#define WOULD_LOSE 100

/* ---- runs.c: what Python lends and gets back ---- */

/* The Python side: the exception of a refusal, and what makes bytes of a memoryview or an mmap. */
struct python {
    PyObject *refused;
    PyObject *as_bytes;
};

/* How text is written: both are null where only bytes are text. */
struct coding {
    PyObject *encoding;
    PyObject *errors;
};

struct run {
    const uint8_t *bytes;
    size_t length;
    PyObject *owner;
};

/*
 * Both are 0 after an error. What is lent of a bytearray may move as soon as Python code runs or an object is made;
 * what is kept stays.
 */
int run_lend(const struct python *python, struct run *run, PyObject *object, const char *what);
int run_keep(const struct python *python, struct run *run, PyObject *object, const char *what);
void run_free(struct run *run);

/* Bytes in the room that is lent with them, or in memory of their own where that is too small. */
struct scratch {
    uint8_t *bytes;
    size_t length;
    uint8_t small[SMALL];
};

int scratch_take(struct scratch *scratch, size_t length); /* 0 after an error; there may be more than was asked for */
void scratch_free(struct scratch *scratch);

/* A text that a caret may point into; `bytes` is null where there is none. */
struct source {
    const uint8_t *bytes;
    size_t length;
};

/* Raises Refused, with a caret under byte `at` of the source. Returns null. */
PyObject *refuse(const struct python *python, uint32_t number, uint32_t place, struct source source, size_t at);
/* The same with a message of its own, which it takes. */
PyObject *refuse_saying(const struct python *python, uint32_t number, uint32_t place, PyObject *message,
                        struct source source, size_t at);

int coding_set(struct coding *coding, PyObject *encoding, PyObject *errors); /* 0 after an error */
void coding_clear(struct coding *coding);
PyObject *coding_decode(const struct coding *coding, const uint8_t *bytes, size_t length);

/* ---- put.c: a table built of Python's values ---- */

enum form { TEXT, DIGITS, INTEGERS, REALS };

/* A field that takes a slot. */
struct field {
    enum form form;
    unsigned width; /* bytes of an item in the record */
    uint32_t flag;
    uint32_t count;
    uint32_t place;
};

/* A table whose area grows. */
struct table {
    struct curlew_table built;
    const struct python *python;
    const struct coding *coding;
    struct source source; /* the layout */
    int wrap;             /* numbers may lose what their field has no room for */
    int cut;              /* text, digits and lists may lose their end */
    uint8_t slots[CURLEW_MAX_SLOTS * CURLEW_SLOT_SIZE];
    uint8_t small[SMALL];
};

void table_start(struct table *table, const struct python *python, const struct coding *coding);
void table_free(struct table *table);

/* Put a value into the next slot, by a field, by the value's own type, or as a leg of a mean. 0 after an error. */
int table_put(struct table *table, PyObject *value, const struct field *field);
int table_put_any(struct table *table, PyObject *value);
int table_put_leg(struct table *table, PyObject *value);

/* Whether it is a list or a tuple; else an error. */
int is_list(PyObject *values, const char *what);
Py_ssize_t list_length(PyObject *list);
PyObject *list_item(PyObject *list, Py_ssize_t index); /* a new reference; null after an error */

/* ---- show.c: Python's values of a table ---- */

/* The value of a slot. Without a field, or with a count, numbers are a list. */
PyObject *show(const struct field *field, const struct coding *coding, const struct curlew_table *table, size_t index);
/* A list of all values of a table. */
PyObject *show_all(const struct coding *coding, const struct curlew_table *table);

/* ---- layout.c: records by a layout ---- */

/* The two types of this file. */
struct types {
    PyObject *layout;
    PyObject *rows;
};

int types_make(struct types *types); /* 0 after an error */
PyObject *layout_new(const struct types *types, const struct python *python, PyObject *arguments);

/* ---- sheets.c: what needs no layout ---- */

PyObject *sheet_dump(const struct python *python, PyObject *arguments);
PyObject *sheet_load(const struct python *python, PyObject *arguments);
PyObject *sheet_rescue(const struct python *python, PyObject *arguments);
PyObject *mean(const struct python *python, PyObject *legs);
PyObject *from_perl(const struct python *python, PyObject *text);

#endif
