/* The extension `rudzkvano._native` for CPython, by its stable ABI: the calls of the C library that each request makes, and rows as the texts that
   the library takes. The package works without it: `handles.py` and `rows.py` do the same by `ctypes`.

   The calls are those of the shared object that `ctypes` has opened. Calls that are short don't let other threads run: so those of a server are
   never at the same time. Whoever makes one of a client has acquired it. */
#define Py_LIMITED_API 0x030A0000
#define PY_SSIZE_T_CLEAN
#include <Python.h>
#include <stdbool.h>
#include <stdint.h>
#include <string.h>
#include <structmember.h>

#include "../c/rudzkvano.h"

typedef PyObject *const *Arguments;

/* What a module keeps: its types. */
typedef struct {
    PyTypeObject *rows, *handle;
} Types;

#define CALLS(CALL) \
    CALL(client) CALL(queries) CALL(begin) CALL(begin_request) CALL(next) CALL(cancel) CALL(sizes) CALL(orders) CALL(take_rows) \
    CALL(take_keyed_rows) CALL(answer) CALL(close) CALL(code_name) CALL(code_text)

/* ---- Memory. */

/* Room of so many bytes: that of the caller, which has `fixed_size`, if it suffices. */
static void *room_of(size_t size, void *fixed, size_t fixed_size) {
    if (size <= fixed_size) return fixed;
    void *room = PyMem_Malloc(size);
    if (room == NULL) PyErr_NoMemory();
    return room;
}

static void let_room_go(void *room, void *fixed) {
    if (room != fixed) PyMem_Free(room);
}

/* Bytes that grow. */
typedef struct {
    uint8_t *bytes;
    size_t length, room;
} Buffer;

static bool has_room(Buffer *buffer, size_t more) {
    if (more <= buffer->room - buffer->length) return true;
    size_t wanted = buffer->length + more > 2 * buffer->room ? buffer->length + more : 2 * buffer->room;
    if (wanted < 128) wanted = 128;
    uint8_t *bytes = wanted > PY_SSIZE_T_MAX ? NULL : PyMem_Realloc(buffer->bytes, wanted);
    if (bytes == NULL) {
        PyErr_NoMemory();
        return false;
    }
    buffer->bytes = bytes, buffer->room = wanted;
    return true;
}

static bool append(Buffer *buffer, const void *bytes, size_t length) {
    if (!has_room(buffer, length)) return false;
    if (length > 0) memcpy(buffer->bytes + buffer->length, bytes, length);
    buffer->length += length;
    return true;
}

static bool append_word(Buffer *buffer, size_t number) {
    uint32_t word = (uint32_t)number;
    return append(buffer, &word, sizeof word);
}

/* ---- Arguments. */

static bool are_many(Py_ssize_t count, Py_ssize_t wanted) {
    if (count == wanted) return true;
    PyErr_Format(PyExc_TypeError, "%zd arguments, and not %zd", count, wanted);
    return false;
}

static bool read_number(PyObject *object, size_t *number) {
    *number = PyLong_AsSize_t(object);
    return *number != (size_t)-1 || PyErr_Occurred() == NULL;
}

/* The bytes of a text, of bytes or of None. `owner`, if there is one, keeps them. */
typedef struct {
    const uint8_t *bytes;
    size_t length;
    PyObject *owner;
} Text;

static bool read_bytes(PyObject *object, Text *text) {
    char *bytes;
    Py_ssize_t length;
    if (PyBytes_AsStringAndSize(object, &bytes, &length) < 0) return false;
    text->bytes = (const uint8_t *)bytes, text->length = (size_t)length;
    return true;
}

/* Lone surrogates are written as if they were characters, which the library then refuses. */
static bool read_text(PyObject *object, Text *text) {
    *text = (Text){0};
    if (object == Py_None) return true;
    if (!PyUnicode_Check(object)) return read_bytes(object, text);
    Py_ssize_t length;
    const char *bytes = PyUnicode_AsUTF8AndSize(object, &length);
    if (bytes != NULL) {
        text->bytes = (const uint8_t *)bytes, text->length = (size_t)length;
        return true;
    }
    if (!PyErr_ExceptionMatches(PyExc_UnicodeEncodeError)) return false;
    PyErr_Clear();
    text->owner = PyUnicode_AsEncodedString(object, "utf-8", "surrogatepass");
    return text->owner != NULL && read_bytes(text->owner, text);
}

/* ---- The library. */

#define MEMBER(name) __typeof__(rz_##name) *name;
typedef struct {
    PyObject_HEAD
    PyObject *refused; /* the class of errors */
    PyTypeObject *order, *handle, *rows;
    newfunc make_tuple;
    CALLS(MEMBER)
} Library;

static void free_object(PyObject *self) {
    PyTypeObject *type = Py_TYPE(self);
    freefunc release = (freefunc)PyType_GetSlot(type, Py_tp_free);
    release(self);
    Py_DECREF(type);
}

static void library_dealloc(Library *self) {
    Py_CLEAR(self->refused);
    Py_CLEAR(self->order);
    Py_CLEAR(self->handle);
    Py_CLEAR(self->rows);
    free_object((PyObject *)self);
}

/* The address that `find` tells of a call. */
static void *found(PyObject *find, const char *name) {
    PyObject *number = PyObject_CallFunction(find, "s", name);
    void *address = number == NULL ? NULL : PyLong_AsVoidPtr(number);
    Py_XDECREF(number);
    if (address == NULL && PyErr_Occurred() == NULL) PyErr_Format(PyExc_ImportError, "the library has no %s", name);
    return address;
}

#define FIND(name) (*(void **)&self->name = found(find, "rz_" #name)) != NULL &&

/* Library(find, refused, order): what tells the address of a call by its name, and the classes of errors and of orders. */
static int library_init(Library *self, PyObject *arguments, PyObject *named) {
    PyObject *find, *refused, *order;
    Types *types = PyType_GetModuleState(Py_TYPE(self));
    if (types == NULL || named != NULL || self->refused != NULL || !PyArg_ParseTuple(arguments, "OOO!", &find, &refused, &PyType_Type, &order)) return -1;
    self->refused = Py_NewRef(refused);
    self->order = (PyTypeObject *)Py_NewRef(order);
    self->handle = (PyTypeObject *)Py_NewRef(types->handle);
    self->rows = (PyTypeObject *)Py_NewRef(types->rows);
    self->make_tuple = (newfunc)PyType_GetSlot(&PyTuple_Type, Py_tp_new);
    return CALLS(FIND) true ? 0 : -1;
}

/* Raises the error of a code. */
static PyObject *refuse(const Library *library, int32_t code) {
    char name[64], text[256];
    size_t name_length = library->code_name(code, (uint8_t *)name, sizeof name);
    size_t text_length = library->code_text(code, (uint8_t *)text, sizeof text);
    if (name_length > sizeof name) name_length = sizeof name;
    if (text_length > sizeof text) text_length = sizeof text;
    PyObject *error = PyObject_CallFunction(library->refused, "is#s#", code, name, (Py_ssize_t)name_length, text, (Py_ssize_t)text_length);
    if (error != NULL) PyErr_SetObject(library->refused, error);
    Py_XDECREF(error);
    return NULL;
}

static PyObject *none_or_refuse(const Library *library, int32_t code) {
    if (code < 0) return refuse(library, code);
    Py_RETURN_NONE;
}

/* ---- Rows. */

/* What a batch function returned, as the library takes it: rows in any order, or for each key how many rows it has; and all texts. */
typedef struct {
    PyObject_HEAD
    PyObject *columns; /* a tuple of texts */
    Py_ssize_t width, rows;
    Buffer counts, ends, data;
    bool are_rows;  /* no item is None or a list */
    bool have_keys; /* they have the columns of the keys */
    bool fit;       /* the items that are rows stand at their keys */
    bool keyed;     /* the library is to align them */
} Rows;

static void rows_dealloc(Rows *self) {
    Py_CLEAR(self->columns);
    PyMem_Free(self->counts.bytes);
    PyMem_Free(self->ends.bytes);
    PyMem_Free(self->data.bytes);
    free_object((PyObject *)self);
}

static PyObject *bytes_object(const Buffer *buffer) { return PyBytes_FromStringAndSize((const char *)buffer->bytes, (Py_ssize_t)buffer->length); }
static PyObject *rows_ends(Rows *self, void *none) {
    (void)none;
    return bytes_object(&self->ends);
}
static PyObject *rows_data(Rows *self, void *none) {
    (void)none;
    return bytes_object(&self->data);
}

/* How rows are read, or JSON is written. OTHERWISE: not here, and nothing is raised. */
typedef enum { READ, OTHERWISE, RAISED } Outcome;

typedef struct {
    Rows *rows;
    PyObject *keys, *wanted, *text_of; /* the keys, and the columns that they are in */
    bool folds;
    Py_ssize_t place; /* the place of the column of the keys, if it is one whose texts are compared as they are; else -1 */
} Reading;

/* What was raised because of a value is raised once more by what reads the rows otherwise. */
static Outcome outcome_of_error(void) {
    if (PyErr_ExceptionMatches(PyExc_MemoryError) || !PyErr_ExceptionMatches(PyExc_Exception)) return RAISED;
    PyErr_Clear();
    return OTHERWISE;
}

static Outcome append_text(Buffer *data, PyObject *text) {
    Py_ssize_t length;
    const char *bytes = PyUnicode_AsUTF8AndSize(text, &length);
    if (bytes == NULL) return outcome_of_error();
    return append(data, bytes, (size_t)length) ? READ : RAISED;
}

static bool append_number(Buffer *data, long long number) {
    char digits[20], *first = digits + sizeof digits;
    unsigned long long rest = number < 0 ? 0 - (unsigned long long)number : (unsigned long long)number;
    do *--first = (char)('0' + rest % 10);
    while ((rest /= 10) > 0);
    if (number < 0) *--first = '-';
    return append(data, first, (size_t)(digits + sizeof digits - first));
}

/* The text of a value that is none of the frequent ones. */
static Outcome append_other(const Reading *reading, PyObject *value) {
    Py_INCREF(value);
    PyObject *text = PyObject_CallFunctionObjArgs(reading->text_of, value, NULL);
    Py_DECREF(value);
    if (text == NULL) return outcome_of_error();
    Outcome outcome = PyUnicode_Check(text) ? append_text(&reading->rows->data, text) : OTHERWISE;
    Py_DECREF(text);
    return outcome;
}

static Outcome append_value(const Reading *reading, PyObject *value) {
    Buffer *data = &reading->rows->data;
    if (value == Py_None) return READ;
    if (PyUnicode_CheckExact(value)) return append_text(data, value);
    if (!PyLong_CheckExact(value)) return append_other(reading, value);
    int overflow;
    long long number = PyLong_AsLongLongAndOverflow(value, &overflow);
    if (overflow != 0) return append_other(reading, value);
    return append_number(data, number) ? READ : RAISED;
}

static Outcome end_text(Rows *rows) {
    if (rows->data.length > UINT32_MAX) return OTHERWISE;
    return append_word(&rows->ends, rows->data.length) ? READ : RAISED;
}

static bool is_same_name(PyObject *one, PyObject *other) {
    return one == other || (PyUnicode_CheckExact(one) && PyUnicode_CheckExact(other) && PyUnicode_Compare(one, other) == 0);
}

/* Finds the columns of the keys among those of the rows. */
static void find_keys(Reading *reading) {
    Rows *rows = reading->rows;
    Py_ssize_t count = PyTuple_Size(reading->wanted), found = 0, place = 0;
    for (Py_ssize_t at = 0; at < count; at++) {
        PyObject *wanted = PyTuple_GetItem(reading->wanted, at);
        for (place = 0; place < rows->width && !is_same_name(PyTuple_GetItem(rows->columns, place), wanted);) place++;
        found += place < rows->width;
    }
    rows->have_keys = found == count;
    if (count == 1 && found == 1 && !reading->folds) reading->place = place;
}

/* The columns of all rows, which are those of the first one, and their names as the first texts. */
static Outcome read_columns(Reading *reading, PyObject *row) {
    Rows *rows = reading->rows;
    rows->width = PyDict_Size(row);
    rows->columns = PyTuple_New(rows->width);
    if (rows->columns == NULL) return RAISED;
    PyObject *name, *value;
    Outcome outcome = rows->width == 0 ? OTHERWISE : READ;
    for (Py_ssize_t step = 0, at = 0; outcome == READ && PyDict_Next(row, &step, &name, &value); at++) {
        PyTuple_SetItem(rows->columns, at, Py_NewRef(name));
        outcome = PyUnicode_CheckExact(name) ? append_text(&rows->data, name) : OTHERWISE;
        if (outcome == READ) outcome = end_text(rows);
    }
    if (outcome == READ) find_keys(reading);
    return outcome;
}

/* Whether these bytes are the key of this place. */
static bool is_key(const Reading *reading, Py_ssize_t place, const uint8_t *bytes, size_t length) {
    PyObject *key = place < PyList_Size(reading->keys) ? PyList_GetItem(reading->keys, place) : NULL;
    if (key == NULL || !PyUnicode_Check(key)) return false;
    Py_ssize_t key_length;
    const char *key_bytes = PyUnicode_AsUTF8AndSize(key, &key_length);
    if (key_bytes == NULL) PyErr_Clear();
    return key_bytes != NULL && (size_t)key_length == length && memcmp(key_bytes, bytes, length) == 0;
}

/* The fields of a row. It stands at the key of this place, or, where that is -1, at none. */
static Outcome read_row(Reading *reading, PyObject *row, Py_ssize_t place) {
    Rows *rows = reading->rows;
    if (!PyDict_CheckExact(row)) return OTHERWISE;
    Outcome outcome = rows->columns == NULL ? read_columns(reading, row) : READ;
    PyObject *name, *value;
    Py_ssize_t step = 0, at = 0;
    for (; outcome == READ && PyDict_Next(row, &step, &name, &value); at++) {
        PyObject *column = at < rows->width ? PyTuple_GetItem(rows->columns, at) : NULL;
        if (column == NULL || !is_same_name(name, column)) return OTHERWISE;
        size_t start = rows->data.length;
        outcome = append_value(reading, value);
        if (outcome == READ) outcome = end_text(rows);
        if (outcome == READ && place >= 0 && rows->fit && at == reading->place)
            rows->fit = is_key(reading, place, rows->data.bytes + start, rows->data.length - start);
    }
    if (place >= 0 && reading->place < 0) rows->fit = false;
    rows->rows++;
    return outcome == READ && at != rows->width ? OTHERWISE : outcome;
}

/* The rows of a key, and how many there are. */
static Outcome read_item(Reading *reading, PyObject *item, Py_ssize_t place) {
    Rows *rows = reading->rows;
    Outcome outcome = READ;
    size_t count = 0;
    if (PyList_CheckExact(item)) {
        rows->are_rows = false;
        for (; outcome == READ && count < (size_t)PyList_Size(item); count++) {
            PyObject *row = PyList_GetItem(item, (Py_ssize_t)count);
            Py_INCREF(row);
            outcome = read_row(reading, row, -1);
            Py_DECREF(row);
        }
    } else if (item == Py_None) {
        rows->are_rows = false;
    } else {
        count = 1;
        outcome = read_row(reading, item, place);
    }
    if (outcome != READ || count >= RZ_BATCH_FAULT) return outcome == READ ? OTHERWISE : outcome;
    return append_word(&rows->counts, count) ? READ : RAISED;
}

static Outcome read_items(Reading *reading, PyObject *items) {
    Outcome outcome = READ;
    for (Py_ssize_t place = 0; outcome == READ && place < PyList_Size(items); place++) {
        PyObject *item = PyList_GetItem(items, place);
        Py_INCREF(item);
        outcome = read_item(reading, item, place);
        Py_DECREF(item);
    }
    return outcome == READ && reading->rows->columns == NULL ? OTHERWISE : outcome;
}

/* How a list is to be read, if somebody says it. */
typedef enum { BARE, ALIGNED, IN_ANY_ORDER } Form;

static Form form_of(PyObject *form) {
    if (form == Py_None) return BARE;
    return PyUnicode_CompareWithASCIIString(form, "aligned") == 0 ? ALIGNED : IN_ANY_ORDER;
}

/* Decides what the rows of a list are: those of all keys, which the library aligns unless they stand at their keys; or an item for each key. What is
   more to be said of the list is said by what reads it otherwise. */
static Outcome decide(Rows *rows, Form form, bool are_many) {
    if (form == ALIGNED) return are_many ? READ : OTHERWISE;
    if (rows->are_rows && rows->have_keys) {
        rows->keyed = !(rows->fit && are_many);
        return READ;
    }
    return form == BARE && are_many && (rows->fit || !rows->have_keys) ? READ : OTHERWISE;
}

static Outcome read_list(Reading *reading, PyObject *items, Form form) {
    Py_ssize_t keys = PyList_Size(reading->keys);
    if (PyTuple_Size(reading->wanted) > 0) {
        Outcome outcome = read_items(reading, items);
        return outcome == READ ? decide(reading->rows, form, PyList_Size(items) == keys) : outcome;
    }
    /* a loader of all rows has no keys */
    Outcome outcome = form == ALIGNED ? OTHERWISE : read_item(reading, items, -1);
    return outcome == READ && reading->rows->columns == NULL ? OTHERWISE : outcome;
}

/* What a list says of these keys of a loader; or None, where it is to be read otherwise: it isn't dicts of the same columns, lists of these and None,
   a value has no text, or they aren't rows of these keys. */
static PyObject *rows_of(PyTypeObject *type, PyObject *items, PyObject *keys, PyObject *loader, PyObject *form, PyObject *text_of) {
    if (!PyList_CheckExact(items) || !PyList_CheckExact(keys)) Py_RETURN_NONE;
    PyObject *columns = PyTuple_GetItem(loader, 3), *folds = columns == NULL ? NULL : PyTuple_GetItem(loader, 4);
    if (folds == NULL) return NULL;
    Rows *rows = (Rows *)PyType_GenericAlloc(type, 0);
    if (rows == NULL) return NULL;
    rows->are_rows = rows->fit = true;
    Reading reading = {rows, keys, columns, text_of, folds == Py_True, -1};
    Outcome outcome = read_list(&reading, items, form_of(form));
    if (outcome == READ) return (PyObject *)rows;
    Py_DECREF(rows);
    if (outcome == RAISED) return NULL;
    Py_RETURN_NONE;
}

/* read_rows(items, keys, loader, form, text_of) */
static PyObject *read_rows(PyObject *module, Arguments arguments, Py_ssize_t count) {
    Types *types = PyModule_GetState(module);
    if (!are_many(count, 5)) return NULL;
    return rows_of(types->rows, arguments[0], arguments[1], arguments[2], arguments[3], arguments[4]);
}

static PyMemberDef rows_members[] = {
    {"columns", T_OBJECT, offsetof(Rows, columns), READONLY, NULL},
    {"rows", T_PYSSIZET, offsetof(Rows, rows), READONLY, NULL},
    {NULL, 0, 0, 0, NULL},
};
static PyGetSetDef rows_properties[] = {
    {"ends", (getter)rows_ends, NULL, NULL, NULL},
    {"data", (getter)rows_data, NULL, NULL, NULL},
    {NULL, NULL, NULL, NULL, NULL},
};
static PyType_Slot rows_slots[] = {{Py_tp_dealloc, rows_dealloc}, {Py_tp_members, rows_members}, {Py_tp_getset, rows_properties}, {0, NULL}};
static PyType_Spec rows_spec = {"rudzkvano._native.Rows", sizeof(Rows), 0, Py_TPFLAGS_DEFAULT | Py_TPFLAGS_DISALLOW_INSTANTIATION, rows_slots};

/* ---- JSON of variables. */

static Outcome put(Buffer *out, const char *text, size_t length) { return append(out, text, length) ? READ : RAISED; }

static Outcome put_string(Buffer *out, PyObject *text) {
    Py_ssize_t length;
    const char *bytes = PyUnicode_AsUTF8AndSize(text, &length);
    if (bytes == NULL) return outcome_of_error();
    Outcome outcome = put(out, "\"", 1);
    for (const char *end = bytes + length; outcome == READ && bytes < end;) {
        const char *start = bytes;
        while (bytes < end && (unsigned char)*bytes >= 0x20 && *bytes != '"' && *bytes != '\\') bytes++;
        outcome = put(out, start, (size_t)(bytes - start));
        if (bytes == end || outcome != READ) continue;
        unsigned char escaped = (unsigned char)*bytes++;
        char escape[] = {'\\', 'u', '0', '0', "0123456789abcdef"[escaped >> 4], "0123456789abcdef"[escaped & 15]};
        outcome = put(out, escape, sizeof escape);
    }
    return outcome == READ ? put(out, "\"", 1) : outcome;
}

static Outcome put_value(Buffer *out, PyObject *value);

static Outcome put_members(Buffer *out, PyObject *members) {
    Outcome outcome = put(out, "{", 1);
    PyObject *name, *value;
    Py_ssize_t step = 0;
    for (bool is_first = true; outcome == READ && PyDict_Next(members, &step, &name, &value); is_first = false) {
        if (!is_first) outcome = put(out, ",", 1);
        if (outcome == READ) outcome = PyUnicode_CheckExact(name) ? put_string(out, name) : OTHERWISE;
        if (outcome == READ) outcome = put(out, ":", 1);
        if (outcome == READ) outcome = put_value(out, value);
    }
    return outcome == READ ? put(out, "}", 1) : outcome;
}

static Outcome put_elements(Buffer *out, PyObject *elements) {
    Outcome outcome = put(out, "[", 1);
    for (Py_ssize_t at = 0; outcome == READ && at < PyList_Size(elements); at++) {
        if (at > 0) outcome = put(out, ",", 1);
        if (outcome == READ) outcome = put_value(out, PyList_GetItem(elements, at));
    }
    return outcome == READ ? put(out, "]", 1) : outcome;
}

static Outcome put_number(Buffer *out, PyObject *value) {
    int overflow;
    long long number = PyLong_AsLongLongAndOverflow(value, &overflow);
    if (overflow != 0) return OTHERWISE;
    return append_number(out, number) ? READ : RAISED;
}

/* No code of Python runs meanwhile, so nothing changes. */
static Outcome put_value(Buffer *out, PyObject *value) {
    if (PyUnicode_CheckExact(value)) return put_string(out, value);
    if (PyLong_CheckExact(value)) return put_number(out, value);
    if (value == Py_None) return put(out, "null", 4);
    if (value == Py_True) return put(out, "true", 4);
    if (value == Py_False) return put(out, "false", 5);
    if (!PyDict_CheckExact(value) && !PyList_CheckExact(value)) return OTHERWISE;
    if (Py_EnterRecursiveCall(" in variables")) return outcome_of_error();
    Outcome outcome = PyDict_CheckExact(value) ? put_members(out, value) : put_elements(out, value);
    Py_LeaveRecursiveCall();
    return outcome;
}

/* json_of(value): JSON text of dicts, lists, texts, whole numbers, booleans and None; or None, where there is something else. */
static PyObject *json_of(PyObject *module, PyObject *value) {
    (void)module;
    Buffer out = {0};
    Outcome outcome = put_value(&out, value);
    PyObject *text = outcome == READ ? bytes_object(&out) : NULL;
    PyMem_Free(out.bytes);
    if (outcome == OTHERWISE) Py_RETURN_NONE;
    return text;
}

/* ---- Handles. */

typedef struct {
    PyObject_HEAD
    Library *library;
    rz_handle held;
    char closed, acquired;
} Handle;

static Handle *new_handle(Library *library) {
    Handle *handle = (Handle *)PyType_GenericAlloc(library->handle, 0);
    if (handle == NULL) return NULL;
    Py_INCREF(library);
    handle->library = library;
    return handle;
}

static PyObject *library_empty(Library *self, PyObject *none) {
    (void)none;
    return (PyObject *)new_handle(self);
}

static PyObject *handle_close(Handle *self, PyObject *none) {
    (void)none;
    self->library->close(&self->held);
    self->closed = true;
    Py_RETURN_NONE;
}

static void handle_dealloc(Handle *self) {
    if (self->library != NULL) self->library->close(&self->held);
    Py_CLEAR(self->library);
    free_object((PyObject *)self);
}

static PyObject *handle_address(Handle *self, void *none) {
    (void)none;
    return PyLong_FromVoidPtr(&self->held);
}

static bool is_handle(const Handle *self, PyObject *object) {
    if (PyObject_TypeCheck(object, self->library->handle)) return true;
    PyErr_SetString(PyExc_TypeError, "no handle");
    return false;
}

/* ---- Of a server. */

static PyObject *handle_client(Handle *self, PyObject *limits) {
    Text words = {0};
    Handle *made = read_bytes(limits, &words) ? new_handle(self->library) : NULL;
    if (made == NULL) return NULL;
    int32_t code = self->library->client(&self->held, &made->held, (const uint32_t *)words.bytes, words.length / 4);
    if (code >= 0) return (PyObject *)made;
    Py_DECREF(made);
    return refuse(self->library, code);
}

static PyObject *handle_queries(Handle *self, PyObject *none) {
    (void)none;
    Handle *made = new_handle(self->library);
    if (made == NULL) return NULL;
    int32_t code = self->library->queries(&self->held, &made->held);
    if (code >= 0) return (PyObject *)made;
    Py_DECREF(made);
    return refuse(self->library, code);
}

/* ---- Of a client. */

static PyObject *handle_acquire(Handle *self, PyObject *none) {
    (void)none;
    bool was_free = !self->acquired;
    self->acquired = true;
    return PyBool_FromLong(was_free);
}

static PyObject *handle_release(Handle *self, PyObject *none) {
    (void)none;
    self->acquired = false;
    Py_RETURN_NONE;
}

/* begin(queries, line) */
static PyObject *handle_begin(Handle *self, Arguments arguments, Py_ssize_t count) {
    Text line;
    if (!are_many(count, 2) || !is_handle(self, arguments[0]) || !read_text(arguments[1], &line)) return NULL;
    int32_t code;
    Py_BEGIN_ALLOW_THREADS
    code = self->library->begin(&self->held, &((Handle *)arguments[0])->held, line.bytes, line.length);
    Py_END_ALLOW_THREADS
    Py_XDECREF(line.owner);
    return none_or_refuse(self->library, code);
}

/* begin_request(queries, query, operation, variables) */
static PyObject *handle_begin_request(Handle *self, Arguments arguments, Py_ssize_t count) {
    Text texts[3] = {{0}, {0}, {0}};
    bool are_read = are_many(count, 4) && is_handle(self, arguments[0]);
    for (int at = 0; are_read && at < 3; at++) are_read = read_text(arguments[at + 1], &texts[at]);
    int32_t code = 0;
    if (are_read) {
        rz_handle *queries = &((Handle *)arguments[0])->held;
        Py_BEGIN_ALLOW_THREADS
        code = self->library->begin_request(&self->held, queries, texts[0].bytes, texts[0].length, texts[1].bytes, texts[1].length, texts[2].bytes,
                                            texts[2].length);
        Py_END_ALLOW_THREADS
    }
    for (int at = 0; at < 3; at++) Py_XDECREF(texts[at].owner);
    return are_read ? none_or_refuse(self->library, code) : NULL;
}

static PyObject *handle_advance(Handle *self, PyObject *none) {
    (void)none;
    int32_t code;
    Py_BEGIN_ALLOW_THREADS
    code = self->library->next(&self->held);
    Py_END_ALLOW_THREADS
    return code < 0 ? refuse(self->library, code) : PyLong_FromLong(code);
}

static PyObject *handle_cancel(Handle *self, PyObject *none) {
    (void)none;
    return none_or_refuse(self->library, self->library->cancel(&self->held));
}

static bool read_sizes(Handle *self, rz_sizes_t *sizes) {
    int32_t code = self->library->sizes(&self->held, sizes);
    if (code < 0) refuse(self->library, code);
    return code >= 0;
}

static PyObject *handle_sizes(Handle *self, PyObject *none) {
    (void)none;
    rz_sizes_t sizes;
    if (!read_sizes(self, &sizes)) return NULL;
    return Py_BuildValue("[KKKKKK]", (unsigned long long)sizes.orders, (unsigned long long)sizes.keys, (unsigned long long)sizes.texts,
                         (unsigned long long)sizes.bytes, (unsigned long long)sizes.answer, (unsigned long long)sizes.rounds);
}

/* What rz_orders copies, and how far it is read. */
typedef struct {
    uint32_t *loaders, *keys, *texts, *ends;
    char *bytes;
    uint32_t start;
} Round;

static PyObject *next_text(Round *round) {
    uint32_t start = round->start, end = *round->ends++;
    round->start = end;
    return PyUnicode_DecodeUTF8(round->bytes + start, end - start, NULL);
}

static PyObject *next_pair(Round *round) {
    PyObject *first = next_text(round), *second = first == NULL ? NULL : next_text(round);
    PyObject *pair = second == NULL ? NULL : PyTuple_Pack(2, first, second);
    Py_XDECREF(first);
    Py_XDECREF(second);
    return pair;
}

/* The keys of the next order: texts, pairs of texts, or none, where all rows are asked for. */
static PyObject *next_keys(Round *round) {
    uint32_t count = *round->keys++;
    if (count == 1 && *round->texts == 0) return round->texts++, PyList_New(0);
    PyObject *keys = PyList_New(count);
    for (uint32_t at = 0; keys != NULL && at < count; at++) {
        PyObject *key = *round->texts++ == 2 ? next_pair(round) : next_text(round);
        if (key == NULL) Py_CLEAR(keys);
        else PyList_SetItem(keys, at, key);
    }
    return keys;
}

/* Order(number, loader, keys): its class is that of a named tuple, and it is made as a tuple is. */
static PyObject *next_order(Library *library, Round *round, Py_ssize_t number, PyObject *loaders) {
    PyObject *place = PyLong_FromSsize_t(number), *loader = PySequence_GetItem(loaders, *round->loaders++), *keys = next_keys(round);
    PyObject *parts = place != NULL && loader != NULL && keys != NULL ? PyTuple_Pack(3, place, loader, keys) : NULL;
    PyObject *arguments = parts == NULL ? NULL : PyTuple_Pack(1, parts), *order = NULL;
    if (arguments != NULL) order = library->make_tuple(library->order, arguments, NULL);
    Py_XDECREF(arguments);
    Py_XDECREF(parts);
    Py_XDECREF(place);
    Py_XDECREF(loader);
    Py_XDECREF(keys);
    return order;
}

static PyObject *list_of_orders(Library *library, Round round, size_t count, PyObject *loaders) {
    PyObject *orders = PyList_New((Py_ssize_t)count);
    for (size_t at = 0; orders != NULL && at < count; at++) {
        PyObject *order = next_order(library, &round, (Py_ssize_t)at, loaders);
        if (order == NULL) Py_CLEAR(orders);
        else PyList_SetItem(orders, (Py_ssize_t)at, order);
    }
    return orders;
}

/* orders(loaders) */
static PyObject *handle_orders(Handle *self, PyObject *loaders) {
    rz_sizes_t sizes;
    if (!read_sizes(self, &sizes)) return NULL;
    uint32_t fixed[512];
    size_t words = 2 * sizes.orders + sizes.keys + sizes.texts;
    uint32_t *room = room_of(4 * words + sizes.bytes, fixed, sizeof fixed);
    if (room == NULL) return NULL;
    Round round = {room, room + sizes.orders, room + 2 * sizes.orders, room + 2 * sizes.orders + sizes.keys, (char *)(room + words), 0};
    int32_t code = self->library->orders(&self->held, round.loaders, sizes.orders, round.keys, sizes.orders, round.texts, sizes.keys, round.ends,
                                         sizes.texts, (uint8_t *)round.bytes, sizes.bytes);
    PyObject *orders = code < 0 ? refuse(self->library, code) : list_of_orders(self->library, round, sizes.orders, loaders);
    let_room_go(room, fixed);
    return orders;
}

/* take_rows(order, columns, rows, ends, data): the three last are bytes. */
static PyObject *handle_take_rows(Handle *self, Arguments arguments, Py_ssize_t count) {
    size_t order, columns;
    Text rows, ends, data;
    if (!are_many(count, 5) || !read_number(arguments[0], &order) || !read_number(arguments[1], &columns) || !read_bytes(arguments[2], &rows) ||
        !read_bytes(arguments[3], &ends) || !read_bytes(arguments[4], &data))
        return NULL;
    int32_t code;
    Py_BEGIN_ALLOW_THREADS
    code = self->library->take_rows(&self->held, order, columns, (const uint32_t *)rows.bytes, rows.length / 4, (const uint32_t *)ends.bytes,
                                    ends.length / 4, data.bytes, data.length);
    Py_END_ALLOW_THREADS
    return none_or_refuse(self->library, code);
}

static int32_t take_unlocked(Handle *self, size_t order, const Rows *rows) {
    const uint32_t *ends = (const uint32_t *)rows->ends.bytes;
    size_t columns = (size_t)rows->width, texts = rows->ends.length / 4;
    uint32_t row;
    if (rows->keyed)
        return self->library->take_keyed_rows(&self->held, order, columns, (uint32_t)rows->rows, NULL, 0, ends, texts, rows->data.bytes,
                                              rows->data.length, &row);
    return self->library->take_rows(&self->held, order, columns, (const uint32_t *)rows->counts.bytes, rows->counts.length / 4, ends, texts,
                                    rows->data.bytes, rows->data.length);
}

/* Lets other threads run only where it takes long. */
static int32_t take(Handle *self, size_t order, const Rows *rows) {
    if (rows->data.length < 16384) return take_unlocked(self, order, rows);
    int32_t code;
    Py_BEGIN_ALLOW_THREADS
    code = take_unlocked(self, order, rows);
    Py_END_ALLOW_THREADS
    return code;
}

/* take(order, rows) */
static PyObject *handle_take(Handle *self, Arguments arguments, Py_ssize_t count) {
    size_t order;
    if (!are_many(count, 2) || !read_number(arguments[0], &order)) return NULL;
    if (!PyObject_TypeCheck(arguments[1], self->library->rows)) return PyErr_SetString(PyExc_TypeError, "no rows"), NULL;
    return none_or_refuse(self->library, take(self, order, (const Rows *)arguments[1]));
}

/* Whether a refusal may be one of rows in any order, of which more is to be said. */
static bool is_misfit(int32_t code) { return code == RZ_NO_COLUMN || code == RZ_NO_KEY_COLUMN || code == RZ_NOT_ASKED; }

/* take_returned(order, returned, form, text_of): takes what a batch function returned for an order. False, and nothing is taken, where it is to be read
   otherwise. */
static PyObject *handle_take_returned(Handle *self, Arguments arguments, Py_ssize_t count) {
    size_t number;
    if (!are_many(count, 4)) return NULL;
    PyObject *place = PyTuple_GetItem(arguments[0], 0), *loader = place == NULL ? NULL : PyTuple_GetItem(arguments[0], 1);
    PyObject *keys = loader == NULL ? NULL : PyTuple_GetItem(arguments[0], 2);
    if (keys == NULL || !read_number(place, &number)) return NULL;
    PyObject *rows = rows_of(self->library->rows, arguments[1], keys, loader, arguments[2], arguments[3]);
    if (rows == NULL) return NULL;
    int32_t code = rows == Py_None ? RZ_NO_COLUMN : take(self, number, (const Rows *)rows);
    Py_DECREF(rows);
    return code >= 0 || is_misfit(code) ? PyBool_FromLong(code >= 0) : refuse(self->library, code);
}

static PyObject *handle_text(Handle *self, PyObject *none) {
    (void)none;
    rz_sizes_t sizes;
    if (!read_sizes(self, &sizes)) return NULL;
    char fixed[4096];
    char *room = room_of(sizes.answer, fixed, sizeof fixed);
    if (room == NULL) return NULL;
    int32_t code = self->library->answer(&self->held, (uint8_t *)room, sizes.answer);
    PyObject *text = code < 0 ? refuse(self->library, code) : PyUnicode_DecodeUTF8(room, (Py_ssize_t)sizes.answer, NULL);
    let_room_go(room, fixed);
    return text;
}

static PyMemberDef handle_members[] = {
    {"closed", T_BOOL, offsetof(Handle, closed), READONLY, NULL},
    {NULL, 0, 0, 0, NULL},
};
static PyGetSetDef handle_properties[] = {
    {"address", (getter)handle_address, NULL, NULL, NULL},
    {NULL, NULL, NULL, NULL, NULL},
};
#define METHOD(call, flags) {#call, (PyCFunction)(void (*)(void))handle_##call, flags, NULL}
static PyMethodDef handle_methods[] = {
    METHOD(close, METH_NOARGS),
    METHOD(client, METH_O),
    METHOD(queries, METH_NOARGS),
    METHOD(acquire, METH_NOARGS),
    METHOD(release, METH_NOARGS),
    METHOD(begin, METH_FASTCALL),
    METHOD(begin_request, METH_FASTCALL),
    METHOD(advance, METH_NOARGS),
    METHOD(cancel, METH_NOARGS),
    METHOD(sizes, METH_NOARGS),
    METHOD(orders, METH_O),
    METHOD(take_rows, METH_FASTCALL),
    METHOD(take, METH_FASTCALL),
    METHOD(take_returned, METH_FASTCALL),
    METHOD(text, METH_NOARGS),
    {NULL, NULL, 0, NULL},
};
static PyType_Slot handle_slots[] = {
    {Py_tp_dealloc, handle_dealloc}, {Py_tp_members, handle_members}, {Py_tp_getset, handle_properties}, {Py_tp_methods, handle_methods}, {0, NULL},
};
static PyType_Spec handle_spec = {"rudzkvano._native.Handle", sizeof(Handle), 0, Py_TPFLAGS_DEFAULT | Py_TPFLAGS_DISALLOW_INSTANTIATION, handle_slots};

/* ---- The module. */

static PyMethodDef library_methods[] = {
    {"handle", (PyCFunction)(void (*)(void))library_empty, METH_NOARGS, NULL},
    {NULL, NULL, 0, NULL},
};
static PyType_Slot library_slots[] = {
    {Py_tp_dealloc, library_dealloc}, {Py_tp_init, library_init}, {Py_tp_methods, library_methods}, {0, NULL},
};
static PyType_Spec library_spec = {"rudzkvano._native.Library", sizeof(Library), 0, Py_TPFLAGS_DEFAULT, library_slots};

static PyTypeObject *added_type(PyObject *module, PyType_Spec *spec) {
    PyTypeObject *type = (PyTypeObject *)PyType_FromModuleAndSpec(module, spec, NULL);
    if (type != NULL && PyModule_AddType(module, type) < 0) Py_CLEAR(type);
    return type;
}

static int add_types(PyObject *module) {
    Types *types = PyModule_GetState(module);
    types->rows = added_type(module, &rows_spec);
    types->handle = types->rows == NULL ? NULL : added_type(module, &handle_spec);
    PyTypeObject *library = types->handle == NULL ? NULL : added_type(module, &library_spec);
    Py_XDECREF(library);
    return library == NULL ? -1 : 0;
}

static int clear_module(PyObject *module) {
    Types *types = PyModule_GetState(module);
    Py_CLEAR(types->rows);
    Py_CLEAR(types->handle);
    return 0;
}

static int traverse_module(PyObject *module, visitproc visit, void *arg) {
    Types *types = PyModule_GetState(module);
    Py_VISIT(types->rows);
    Py_VISIT(types->handle);
    return 0;
}

static PyMethodDef module_methods[] = {
    {"read_rows", (PyCFunction)(void (*)(void))read_rows, METH_FASTCALL, NULL},
    {"json_of", json_of, METH_O, NULL},
    {NULL, NULL, 0, NULL},
};
static PyModuleDef_Slot module_slots[] = {{Py_mod_exec, add_types}, {0, NULL}};
static PyModuleDef module = {
    PyModuleDef_HEAD_INIT, "rudzkvano._native", NULL, sizeof(Types), module_methods, module_slots, traverse_module, clear_module, NULL,
};

PyMODINIT_FUNC PyInit__native(void) { return PyModuleDef_Init(&module); }
