/*
 * A page of look-ups in numpy's arrays, without ctypes: for Column.look_up_many.
 *
 * The work is done by the library's signalfern_look_up_page_to, at the address that the package hands in: this module is the same for every library.
 * It lends an array of ids where that call takes it as it is, or after a copy of the same numbers, and hands nothing back where not, or where an id is
 * refused: the package then asks by ctypes, which answers the same and says what is wrong.
 */
#define PY_SSIZE_T_CLEAN
#include <Python.h>
#include <stdint.h>
#include <string.h>

#include "signalfern.h"

typedef __typeof__(signalfern_look_up_page_to) page_call;

/* What a page needs beside the column and the ids: the call's address; numpy's type of arrays, its function that makes one, and its types for the
 * elements of the three lists; and the type of the result, a tuple of these lists. */
enum { CALL, ARRAY, EMPTY, TYPES, PAGE = TYPES + 3, NEEDS };
enum { VALUES, ORDINALS, FOUND, LISTS };
enum { WHAT, BYTES, LEN, IDS, WORDS };

/* A loop in a function of its own: within a greater one, gcc 12 may take its elements one by one. */
#define APART static __attribute__((noinline))

_Static_assert(sizeof(int) == 4 && sizeof(long) == 8, "the letters i and l stand for numbers of 32 and of 64 bits");

/* Whether a list has one dimension, has elements of a type that one of these letters stands for in Python's struct, and is aligned to their size. */
static int fits(const Py_buffer *list, const char *letters, size_t size)
{
    return list->ndim == 1 && strlen(list->format) == 1 && strchr(letters, list->format[0]) && (uintptr_t)list->buf % size == 0;
}

/* Copies ids of 64 bits, and tells whether each is the same in 32. (The bits of a negative one are those of a great one.) */
APART int narrowed(const uint64_t *ids, uint32_t *narrow, size_t count)
{
    uint64_t all = 0;
    for (size_t i = 0; i < count; i++) {
        all |= ids[i];
        narrow[i] = (uint32_t)ids[i];
    }
    return all >> 32 == 0;
}

/* Makes truth values of a page's kinds, and tells whether each was found or absent. */
APART int marked(uint8_t *kinds, size_t count)
{
    uint8_t any = SIGNALFERN_FOUND;
    for (size_t i = 0; i < count; i++) {
        any |= kinds[i];
        kinds[i] ^= SIGNALFERN_ABSENT;
    }
    return any <= SIGNALFERN_ABSENT;
}

/* Asks for the page, and tells whether every place was answered. (A negative id of 32 bits is read as one above the limit, which the library refuses.) */
static int answered(page_call *call, const void *bytes, size_t len, const Py_buffer *ids, uint32_t *narrow, const Py_buffer *lists)
{
    size_t count = (size_t)ids->shape[0];
    signalfern_page reply;
    if (narrow && !narrowed(ids->buf, narrow, count))
        return 0;
    call(bytes, len, narrow ? narrow : ids->buf, count, lists[ORDINALS].buf, (size_t)lists[ORDINALS].shape[0], lists[VALUES].buf,
         (size_t)lists[VALUES].shape[0], lists[FOUND].buf, (size_t)lists[FOUND].shape[0], &reply);
    return reply.refusal == 0 && marked(lists[FOUND].buf, count);
}

/* The same while other threads may run, with a copy of ids that are 64 bits wide. */
static int asked(page_call *call, const void *bytes, size_t len, const Py_buffer *ids, const Py_buffer *lists)
{
    uint32_t *narrow = NULL;
    int done;
    if (ids->itemsize == 8 && !(narrow = PyMem_RawMalloc((size_t)ids->shape[0] * sizeof *narrow + 1)))
        return 0;
    Py_BEGIN_ALLOW_THREADS
    done = answered(call, bytes, len, ids, narrow, lists);
    Py_END_ALLOW_THREADS
    PyMem_RawFree(narrow);
    return done;
}

/* The same for the arrays of a page, which are lent meanwhile. */
static int filled(page_call *call, const void *bytes, size_t len, const Py_buffer *ids, PyObject *page)
{
    Py_buffer lists[LISTS];
    int lent = 0, done = 0;
    while (lent < LISTS && PyObject_GetBuffer(PyTuple_GET_ITEM(page, lent), &lists[lent], PyBUF_WRITABLE | PyBUF_ND | PyBUF_FORMAT) == 0)
        lent++;
    if (lent == LISTS && fits(&lists[VALUES], "lq", 8) && fits(&lists[ORDINALS], "LQ", 8) && fits(&lists[FOUND], "?", 1))
        done = asked(call, bytes, len, ids, lists);
    while (lent > 0)
        PyBuffer_Release(&lists[--lent]);
    return done;
}

/* A page with new arrays of so many places. */
static PyObject *new_page(PyObject *needs, Py_ssize_t count)
{
    PyTypeObject *type = (PyTypeObject *)PyTuple_GET_ITEM(needs, PAGE);
    PyObject *page = type->tp_alloc(type, LISTS), *given[2] = {PyLong_FromSsize_t(count), NULL};
    for (int i = 0; page && given[0] && i < LISTS; i++) {
        given[1] = PyTuple_GET_ITEM(needs, TYPES + i);
        PyTuple_SET_ITEM(page, i, PyObject_Vectorcall(PyTuple_GET_ITEM(needs, EMPTY), given, 2, NULL));
        if (!PyTuple_GET_ITEM(page, i))
            Py_CLEAR(page);
    }
    if (!given[0])
        Py_CLEAR(page);
    Py_XDECREF(given[0]);
    return page;
}

/* The page of an array of ids, with its reference; None where it is to be asked for by ctypes. */
static PyObject *page_of(PyObject *needs, const void *bytes, size_t len, PyObject *array)
{
    page_call *call = (page_call *)PyLong_AsVoidPtr(PyTuple_GET_ITEM(needs, CALL));
    PyObject *page = NULL;
    Py_buffer ids;
    int done = 0;
    if (PyObject_GetBuffer(array, &ids, PyBUF_ND | PyBUF_FORMAT) < 0) {
        if (PyErr_ExceptionMatches(PyExc_ValueError)) /* numpy's: it is not contiguous, or of a type that no buffer has */
            PyErr_Clear();
    } else {
        if (fits(&ids, "iI", 4) || fits(&ids, "lLqQ", 8)) {
            page = new_page(needs, ids.shape[0]);
            done = page && filled(call, bytes, len, &ids, page);
        }
        PyBuffer_Release(&ids);
    }
    if (done)
        return page;
    Py_XDECREF(page);
    return PyErr_Occurred() ? NULL : (Py_INCREF(Py_None), Py_None);
}

PyDoc_STRVAR(look_up_page_doc, "look_up_page(needs, bytes, len, ids)\n--\n\n"
                               "The page of an array of ids, or None where it is to be asked for by ctypes.");

static PyObject *look_up_page(PyObject *module, PyObject *const *words, Py_ssize_t given)
{
    (void)module;
    if (given != WORDS || !PyTuple_Check(words[WHAT]) || PyTuple_GET_SIZE(words[WHAT]) != NEEDS)
        return PyErr_Format(PyExc_TypeError, "look_up_page takes a tuple of %d and three arguments", NEEDS);
    const void *bytes = PyLong_AsVoidPtr(words[BYTES]);
    size_t len = PyLong_AsSize_t(words[LEN]);
    if (PyErr_Occurred())
        return NULL;
    /* (a subclass may mean something else by its numbers, as a masked array does) */
    if ((PyObject *)Py_TYPE(words[IDS]) != PyTuple_GET_ITEM(words[WHAT], ARRAY))
        Py_RETURN_NONE;
    return page_of(words[WHAT], bytes, len, words[IDS]);
}

static PyMethodDef functions[] = {{"look_up_page", (PyCFunction)(void (*)(void))look_up_page, METH_FASTCALL, look_up_page_doc}, {NULL, NULL, 0, NULL}};
static PyModuleDef_Slot slots[] = {{0, NULL}};
static PyModuleDef definition = {PyModuleDef_HEAD_INIT, .m_name = "signalfern._page", .m_methods = functions, .m_slots = slots};

PyMODINIT_FUNC PyInit__page(void)
{
    return PyModuleDef_Init(&definition);
}
