#include "core.h"

struct state {
    struct python python;
    struct types types;
};

static struct state *state_of(PyObject *module)
{
    return PyModule_GetState(module);
}

static PyObject *module_layout(PyObject *module, PyObject *arguments)
{
    return layout_new(&state_of(module)->types, &state_of(module)->python, arguments);
}

static PyObject *module_sheet_dump(PyObject *module, PyObject *arguments)
{
    return sheet_dump(&state_of(module)->python, arguments);
}

static PyObject *module_sheet_load(PyObject *module, PyObject *arguments)
{
    return sheet_load(&state_of(module)->python, arguments);
}

static PyObject *module_sheet_rescue(PyObject *module, PyObject *arguments)
{
    return sheet_rescue(&state_of(module)->python, arguments);
}

static PyObject *module_mean(PyObject *module, PyObject *legs)
{
    return mean(&state_of(module)->python, legs);
}

static PyObject *module_from_perl(PyObject *module, PyObject *text)
{
    return from_perl(&state_of(module)->python, text);
}

/* An attribute of a module of this package. */
static PyObject *from_package(const char *module_name, const char *name)
{
    PyObject *module = PyImport_ImportModule(module_name), *attribute;

    if (module == NULL)
        return NULL;
    attribute = PyObject_GetAttrString(module, name);
    Py_DECREF(module);
    return attribute;
}

/* The sizes and limits of the header. */
static int add_limits(PyObject *module)
{
    static const struct {
        const char *name;
        long value;
    } limits[] = {
        {"SLOT_SIZE", CURLEW_SLOT_SIZE},   {"MAX_LAYOUT", CURLEW_MAX_LAYOUT}, {"MAX_SLOTS", CURLEW_MAX_SLOTS},
        {"MAX_RECORD", CURLEW_MAX_RECORD}, {"MAX_AREA", CURLEW_MAX_AREA},     {"MAX_SHEET", CURLEW_MAX_SHEET},
        {"MAX_COUNT", CURLEW_MAX_COUNT},   {"MAX_MARK", CURLEW_MAX_MARK},     {"MAX_TEMPLATE", CURLEW_MAX_TEMPLATE},
    };
    size_t i;

    for (i = 0; i < sizeof limits / sizeof limits[0]; i++)
        if (PyModule_AddIntConstant(module, limits[i].name, limits[i].value) != 0)
            return -1;
    return 0;
}

static int module_start(PyObject *module)
{
    struct state *state = state_of(module);

    state->python.refused = from_package("curlew._refused", "Refused");
    state->python.as_bytes = from_package("curlew._runs", "as_bytes");
    if (state->python.refused == NULL || state->python.as_bytes == NULL || !types_make(&state->types))
        return -1;
    return PyModule_AddStringConstant(module, "VERSION", CURLEW_VERSION) != 0 || add_limits(module) != 0 ? -1 : 0;
}

static int module_traverse(PyObject *module, visitproc visit, void *arg)
{
    struct state *state = state_of(module);

    Py_VISIT(state->python.refused);
    Py_VISIT(state->python.as_bytes);
    Py_VISIT(state->types.layout);
    Py_VISIT(state->types.rows);
    return 0;
}

static int module_clear(PyObject *module)
{
    struct state *state = state_of(module);

    Py_CLEAR(state->python.refused);
    Py_CLEAR(state->python.as_bytes);
    Py_CLEAR(state->types.layout);
    Py_CLEAR(state->types.rows);
    return 0;
}

static void module_free(void *module)
{
    module_clear(module);
}

static PyMethodDef methods[] = {
    {"layout", module_layout, METH_VARARGS, NULL},
    {"sheet_dump", module_sheet_dump, METH_VARARGS, NULL},
    {"sheet_load", module_sheet_load, METH_VARARGS, NULL},
    {"sheet_rescue", module_sheet_rescue, METH_VARARGS, NULL},
    {"mean", module_mean, METH_O, NULL},
    {"from_perl", module_from_perl, METH_O, NULL},
    {NULL, NULL, 0, NULL},
};

static PyModuleDef_Slot slots[] = {
    {Py_mod_exec, FUNCTION(module_start)},
    {0, NULL},
};

static struct PyModuleDef definition = {
    PyModuleDef_HEAD_INIT, "curlew._core",
    "The calls of the library. The package curlew has them with types and texts.",
    sizeof(struct state), methods, slots, module_traverse, module_clear, module_free,
};

PyMODINIT_FUNC PyInit__core(void);

PyMODINIT_FUNC PyInit__core(void)
{
    return PyModuleDef_Init(&definition);
}
