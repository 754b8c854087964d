/*
 * _iim: what the package `iim` does for each envelope, dataset and row, in C.
 *
 * The package works without this module, more slowly, by ctypes. It uses the stable ABI of CPython
 * 3.8, and it is not linked with libiim: bind() takes the functions of the library that ctypes has
 * loaded, so that both always call the same one.
 *
 * An Unpacker is used by one thread at a time. Above a few KB it releases the interpreter's lock
 * while the library reads; a call by another thread raises RuntimeError meanwhile.
 */
#define PY_SSIZE_T_CLEAN
#define Py_LIMITED_API 0x03080000
#include <Python.h>

#include <stdbool.h>
#include <stdint.h>
#include <stdlib.h>
#include <string.h>

#include "iim.h"

/* Chunks of fewer bytes are read without releasing the interpreter's lock. */
#define UNLOCKED_FROM 4096

/* The number of datasets for which no memory is allocated. */
#define FEW_DATASETS 64

/* The number of recent datasets whose objects are used again, and the most bytes of their values. */
#define RECENT 1024
#define RECENT_BYTES 40

/* ---- The library */

static struct {
    uint8_t (*open)(iim_limits, iim_unpacker *);
    uint8_t (*reset)(iim_unpacker *);
    void (*feed)(iim_unpacker *, const uint8_t *, size_t, uint8_t *, size_t, iim_answer *);
    void (*save)(iim_unpacker *, uint8_t *, size_t, iim_answer *);
    void (*restore)(iim_limits, iim_unpacker *, const uint8_t *, size_t, uint64_t, iim_answer *);
    void (*close)(iim_unpacker *);
    void (*fields)(const uint8_t *, size_t, size_t, iim_dataset *, size_t, iim_answer *);
} library;

static const struct {
    const char *name;
    void **function;
} functions[] = {
    {"iim_unpacker_open", (void **)&library.open},
    {"iim_unpacker_reset", (void **)&library.reset},
    {"iim_unpacker_feed", (void **)&library.feed},
    {"iim_unpacker_save", (void **)&library.save},
    {"iim_unpacker_restore", (void **)&library.restore},
    {"iim_unpacker_close", (void **)&library.close},
    {"iim_fields", (void **)&library.fields},
};

#define FUNCTIONS (sizeof functions / sizeof *functions)

PyDoc_STRVAR(bind_doc, "bind(addresses)\n--\n\n"
                       "Use the functions of a loaded library, by their names, as in\n"
                       "{\"iim_fields\": address, ..}.");

static PyObject *bind(PyObject *module, PyObject *addresses)
{
    void *found[FUNCTIONS];

    (void)module;
    for (size_t i = 0; i < FUNCTIONS; i++) {
        PyObject *address = PyMapping_GetItemString(addresses, functions[i].name);

        if (address == NULL)
            return NULL;
        found[i] = PyLong_AsVoidPtr(address);
        Py_DECREF(address);
        if (found[i] == NULL) {
            if (!PyErr_Occurred())
                PyErr_SetString(PyExc_ValueError, "a function has no address");
            return NULL;
        }
    }
    for (size_t i = 0; i < FUNCTIONS; i++)
        *functions[i].function = found[i];
    Py_RETURN_NONE;
}

/* ---- Buffers that grow */

typedef struct {
    uint8_t *bytes;
    size_t length, capacity;
} buffer;

/* Makes room for `more` bytes after those that a buffer has. Returns false without memory. */
static bool reserve(buffer *it, size_t more)
{
    size_t wanted = it->length + more;
    uint8_t *grown;

    if (wanted <= it->capacity)
        return true;
    if (wanted < 2 * it->capacity)
        wanted = 2 * it->capacity;
    grown = realloc(it->bytes, wanted);
    if (grown == NULL)
        return false;
    it->bytes = grown;
    it->capacity = wanted;
    return true;
}

/* ---- Unpackers */

/* An envelope that ended in a chunk: its length, and where its ticket and its text are. */
typedef struct {
    uint64_t length;
    size_t ticket, ticket_len, text, text_len;
} ended;

typedef struct {
    PyObject_HEAD
    iim_limits limits;
    iim_unpacker unpacker;
    bool is_busy;      /* a call is reading without the interpreter's lock */
    uint64_t octets;   /* bytes of the present envelope before the chunk */
    iim_answer answer; /* of the last call of the library for the chunk */
    buffer text;       /* the text of the chunk */
    buffer tickets;    /* the tickets of the envelopes that ended in the chunk */
    buffer before;     /* the ticket of the state before the chunk */
    buffer made;       /* an array of `ended` */
    size_t first;      /* where in the chunk the envelope begins that a byte was rejected in */
} unpacker_object;

/* Appends the ticket of an unpacker to a buffer, and returns its length; 0 without memory. */
static size_t append_ticket(iim_unpacker *unpacker, buffer *to)
{
    iim_answer answer;

    library.save(unpacker, to->bytes + to->length, to->capacity - to->length, &answer);
    if (answer.status == IIM_SHORT) {
        if (!reserve(to, answer.ticket))
            return 0;
        library.save(unpacker, to->bytes + to->length, to->capacity - to->length, &answer);
    }
    if (answer.status != IIM_DONE)
        return 0;
    to->length += answer.ticket;
    return answer.ticket;
}

/* Notes the envelope that has just ended, and begins the next. Returns false without memory. */
static bool note_ended(unpacker_object *self, size_t text)
{
    ended it = {self->answer.octet, self->tickets.length, 0, text, self->text.length - text};

    it.ticket_len = append_ticket(&self->unpacker, &self->tickets);
    if (it.ticket_len == 0 || !reserve(&self->made, sizeof it))
        return false;
    memcpy(self->made.bytes + self->made.length, &it, sizeof it);
    self->made.length += sizeof it;
    library.reset(&self->unpacker);
    return true;
}

/*
 * Appends the ticket of the state before the rejected byte: reads the bytes of its envelope once
 * more, from the state before the chunk or from the beginning of the envelope.
 */
static bool note_rejected(unpacker_object *self, const uint8_t *piece)
{
    iim_unpacker again = IIM_UNPACKER_INIT;
    uint64_t at = self->first == 0 ? self->octets : 0;
    size_t count = (size_t)(self->answer.octet - at);
    iim_answer answer = {0};
    uint8_t *text = malloc(count + 1);
    bool is_open = text != NULL, is_noted = false;

    if (is_open && at > 0) {
        library.restore(self->limits, &again, self->before.bytes, self->before.length, at, &answer);
        is_open = answer.status == IIM_DONE;
    } else if (is_open) {
        is_open = library.open(self->limits, &again) == IIM_DONE;
    }
    if (is_open) {
        library.feed(&again, piece + self->first, count, text, count, &answer);
        is_noted = append_ticket(&again, &self->tickets) > 0;
        library.close(&again);
    }
    free(text);
    return is_noted;
}

/*
 * Returns to the state before the chunk, after memory was refused. If there is no memory for that
 * either, the unpacker is closed.
 */
static void roll_back(unpacker_object *self)
{
    iim_answer answer;

    if (self->octets == 0) {
        library.reset(&self->unpacker);
        return;
    }
    library.close(&self->unpacker);
    library.restore(self->limits, &self->unpacker, self->before.bytes, self->before.length,
                    self->octets, &answer);
}

/* Prepares for a chunk: what is needed whatever is in it. Returns false without memory. */
static bool prepare(unpacker_object *self, size_t count)
{
    self->text.length = self->tickets.length = self->made.length = self->before.length = 0;
    self->first = 0;
    return reserve(&self->text, count + 1) &&
           (self->octets == 0 || append_ticket(&self->unpacker, &self->before) > 0);
}

/*
 * Reads a chunk: all of it, or with `one` up to the end of an envelope. Returns the number of bytes
 * consumed, or -1 without memory. No object of Python is used.
 */
static Py_ssize_t read_chunk(unpacker_object *self, const uint8_t *piece, size_t count, bool one)
{
    size_t at = 0, text = 0;
    bool has_memory = true;

    if (!prepare(self, count))
        return -1;
    do {
        library.feed(&self->unpacker, piece + at, count - at, self->text.bytes + self->text.length,
                     self->text.capacity - self->text.length, &self->answer);
        at += self->answer.used;
        self->text.length += self->answer.written;
        if (self->answer.status == IIM_REFUSED)
            has_memory = note_rejected(self, piece);
        if (self->answer.status != IIM_DONE)
            break;
        has_memory = note_ended(self, text);
        text = self->text.length;
        self->first = at;
    } while (has_memory && at < count && !one);
    if (!has_memory)
        roll_back(self);
    return has_memory ? (Py_ssize_t)at : -1;
}

/* Raises RuntimeError if another call uses the unpacker, or if there is no library. */
static bool may_begin(unpacker_object *self)
{
    if (self->is_busy)
        PyErr_SetString(PyExc_RuntimeError, "the Unpacker is in use by another thread");
    else if (!self->unpacker.is_open)
        PyErr_SetString(PyExc_RuntimeError, "the Unpacker is closed");
    return !self->is_busy && self->unpacker.is_open;
}

static PyObject *bytes_of(const buffer *from, size_t at, size_t count)
{
    return PyBytes_FromStringAndSize((const char *)from->bytes + at, (Py_ssize_t)count);
}

/* Returns a list of (ticket, length, text) for the envelopes that ended in the chunk. */
static PyObject *list_ended(const unpacker_object *self)
{
    size_t count = self->made.length / sizeof(ended);
    PyObject *list = PyList_New((Py_ssize_t)count);

    for (size_t i = 0; list != NULL && i < count; i++) {
        ended it;
        PyObject *one;

        memcpy(&it, self->made.bytes + i * sizeof it, sizeof it);
        one = Py_BuildValue("NKN", bytes_of(&self->tickets, it.ticket, it.ticket_len),
                            (unsigned long long)it.length,
                            bytes_of(&self->text, it.text, it.text_len));
        if (one == NULL)
            Py_CLEAR(list);
        else
            PyList_SetItem(list, (Py_ssize_t)i, one);
    }
    return list;
}

/* Returns (ended, used, octets, status, text, ticket) for what was read. */
static PyObject *result_of(const unpacker_object *self, Py_ssize_t used)
{
    size_t text = 0, tickets = 0;
    PyObject *made = list_ended(self);

    if (made == NULL)
        return NULL;
    if (self->made.length > 0) {
        ended last;

        memcpy(&last, self->made.bytes + self->made.length - sizeof last, sizeof last);
        text = last.text + last.text_len;
        tickets = last.ticket + last.ticket_len;
    }
    return Py_BuildValue("NnKiNN", made, used, (unsigned long long)self->octets,
                         (int)self->answer.status,
                         bytes_of(&self->text, text, self->text.length - text),
                         bytes_of(&self->tickets, tickets, self->tickets.length - tickets));
}

PyDoc_STRVAR(read_doc,
             "read(piece, start, one)\n--\n\n"
             "Read a chunk from an offset on, or up to the end of an envelope if `one` is true.\n\n"
             "Return a list of (ticket, length, text) for the envelopes that end in the chunk; the\n"
             "number of bytes consumed, and those of them that are of the next envelope; the\n"
             "library's status; the text after the last of these envelopes; and, if a byte was\n"
             "rejected, the ticket of the state before it.");

static PyObject *unpacker_read(unpacker_object *self, PyObject *arguments)
{
    const char *piece;
    Py_ssize_t length, start, used;
    size_t count;
    int one;

    if (!PyArg_ParseTuple(arguments, "y#np", &piece, &length, &start, &one) || !may_begin(self))
        return NULL;
    if (start < 0 || start > length)
        return PyErr_Format(PyExc_ValueError, "the chunk has no byte %zd", start);
    count = (size_t)(length - start);
    self->is_busy = true;
    if (count >= UNLOCKED_FROM) {
        PyThreadState *unlocked = PyEval_SaveThread();

        used = read_chunk(self, (const uint8_t *)piece + start, count, one);
        PyEval_RestoreThread(unlocked);
    } else {
        used = read_chunk(self, (const uint8_t *)piece + start, count, one);
    }
    self->is_busy = false;
    if (used < 0)
        return PyErr_NoMemory();
    self->octets = self->answer.status == IIM_MORE ? self->answer.octet : 0;
    return result_of(self, used);
}

PyDoc_STRVAR(answer_doc, "answer()\n--\n\n"
                         "Return the layer, record, number, offset and cause of the last refusal.");

static PyObject *unpacker_answer(unpacker_object *self, PyObject *none)
{
    const iim_answer *answer = &self->answer;

    (void)none;
    return Py_BuildValue("iiiKi", answer->layer, answer->rec, answer->set,
                         (unsigned long long)answer->octet, answer->cause);
}

PyDoc_STRVAR(save_doc, "save()\n--\n\nReturn the ticket of the present state.");

static PyObject *unpacker_save(unpacker_object *self, PyObject *none)
{
    (void)none;
    if (!may_begin(self))
        return NULL;
    self->before.length = 0;
    if (append_ticket(&self->unpacker, &self->before) == 0)
        return PyErr_NoMemory();
    return bytes_of(&self->before, 0, self->before.length);
}

PyDoc_STRVAR(restore_doc, "restore(ticket, octets)\n--\n\n"
                          "Continue from the state of a ticket, after so many bytes.\n\n"
                          "Return the library's status and cause.");

static PyObject *unpacker_restore(unpacker_object *self, PyObject *arguments)
{
    const char *ticket;
    Py_ssize_t length;
    unsigned long long octets;
    iim_unpacker restored = IIM_UNPACKER_INIT;
    iim_answer answer = {0};

    if (!PyArg_ParseTuple(arguments, "y#K", &ticket, &length, &octets) || !may_begin(self))
        return NULL;
    library.restore(self->limits, &restored, (const uint8_t *)ticket, (size_t)length, octets,
                    &answer);
    if (answer.status == IIM_DONE) {
        library.close(&self->unpacker);
        self->unpacker = restored;
        self->octets = octets;
    }
    return Py_BuildValue("ii", answer.status, answer.cause);
}

static PyObject *unpacker_new(PyTypeObject *type, PyObject *arguments, PyObject *names)
{
    iim_limits limits;
    allocfunc allocate;
    unpacker_object *self;

    (void)names;
    if (!PyArg_ParseTuple(arguments, "II", &limits.octets, &limits.fields))
        return NULL;
    if (library.open == NULL) {
        PyErr_SetString(PyExc_RuntimeError, "bind() has not been called");
        return NULL;
    }
    allocate = (allocfunc)PyType_GetSlot(type, Py_tp_alloc);
    self = (unpacker_object *)allocate(type, 0);
    if (self != NULL) {
        self->limits = limits;
        if (library.open(limits, &self->unpacker) != IIM_DONE) {
            Py_DECREF(self);
            return PyErr_NoMemory();
        }
    }
    return (PyObject *)self;
}

static void unpacker_dealloc(unpacker_object *self)
{
    PyTypeObject *type = Py_TYPE(self);
    freefunc release = (freefunc)PyType_GetSlot(type, Py_tp_free);

    if (self->unpacker.is_open)
        library.close(&self->unpacker);
    free(self->text.bytes);
    free(self->tickets.bytes);
    free(self->before.bytes);
    free(self->made.bytes);
    release(self);
    Py_DECREF(type);
}

static PyMethodDef unpacker_methods[] = {
    {"read", (PyCFunction)unpacker_read, METH_VARARGS, read_doc},
    {"answer", (PyCFunction)unpacker_answer, METH_NOARGS, answer_doc},
    {"save", (PyCFunction)unpacker_save, METH_NOARGS, save_doc},
    {"restore", (PyCFunction)unpacker_restore, METH_VARARGS, restore_doc},
    {NULL, NULL, 0, NULL},
};

static PyType_Slot unpacker_slots[] = {
    {Py_tp_doc, "Unpacker(octets, fields)\n--\n\nRead envelopes within limits, chunk by chunk."},
    {Py_tp_new, unpacker_new},
    {Py_tp_dealloc, unpacker_dealloc},
    {Py_tp_methods, unpacker_methods},
    {0, NULL},
};

static PyType_Spec unpacker_spec = {
    "iim._iim.Unpacker", sizeof(unpacker_object), 0, Py_TPFLAGS_DEFAULT, unpacker_slots,
};

/* ---- Values */

/*
 * Returns a new tuple of a subclass, such as a named tuple, of these items. It takes over their
 * references, and fails if one of them is NULL.
 */
static PyObject *tuple_of(PyTypeObject *type, PyObject *const items[], Py_ssize_t count)
{
    allocfunc allocate = (allocfunc)PyType_GetSlot(type, Py_tp_alloc);
    PyObject *made = NULL;
    bool are_there = true;

    for (Py_ssize_t i = 0; i < count; i++)
        are_there = are_there && items[i] != NULL;
    if (are_there)
        made = allocate(type, count);
    for (Py_ssize_t i = 0; i < count; i++) {
        if (made == NULL)
            Py_XDECREF(items[i]);
        else
            PyTuple_SetItem(made, i, items[i]);
    }
    return made;
}

/* Returns bytes as a value of a subclass of bytes. */
static PyObject *octets_of(PyObject *type, const void *bytes, size_t count)
{
    PyObject *plain = PyBytes_FromStringAndSize(bytes, (Py_ssize_t)count), *made = NULL;

    if (plain != NULL)
        made = PyObject_CallFunctionObjArgs(type, plain, NULL);
    Py_XDECREF(plain);
    return made;
}

/* ---- Datasets */

/*
 * Most datasets of an envelope are equal to one of an envelope before it: versions, the service, the
 * date, a category. Their objects are immutable, so that equal datasets can share one. An object of
 * a recent dataset is in a slot that its numbers and its value select.
 */
typedef struct {
    PyObject *object; /* NULL in an empty slot */
    uint8_t rec, set, count, value[RECENT_BYTES];
} recent;

typedef struct {
    PyObject *type, *octets; /* the types of all objects in the slots */
    recent slots[RECENT];
} module_state;

/* Empties all slots. */
static int clear_recent(PyObject *module)
{
    module_state *state = PyModule_GetState(module);

    if (state == NULL)
        return 0;
    Py_CLEAR(state->type);
    Py_CLEAR(state->octets);
    for (size_t i = 0; i < RECENT; i++)
        Py_CLEAR(state->slots[i].object);
    return 0;
}

static int traverse_recent(PyObject *module, visitproc visit, void *arg)
{
    module_state *state = PyModule_GetState(module);

    if (state == NULL)
        return 0;
    Py_VISIT(state->type);
    Py_VISIT(state->octets);
    for (size_t i = 0; i < RECENT; i++)
        Py_VISIT(state->slots[i].object);
    return 0;
}

static void free_recent(void *module)
{
    clear_recent(module);
}

/* Makes the slots be for objects of these types. */
static void set_types(PyObject *module, PyObject *type, PyObject *octets)
{
    module_state *state = PyModule_GetState(module);

    if (state->type == type && state->octets == octets)
        return;
    while (state->type != NULL)
        clear_recent(module);
    Py_INCREF(type);
    Py_INCREF(octets);
    state->type = type;
    state->octets = octets;
}

/* Returns the slot of a dataset with a short value (FNV-1a). */
static recent *slot_of(module_state *state, const iim_dataset *it, const uint8_t *value)
{
    uint32_t hash = 2166136261u;

    hash = (hash ^ it->rec) * 16777619u;
    hash = (hash ^ it->set) * 16777619u;
    for (size_t i = 0; i < it->data.count; i++)
        hash = (hash ^ value[i]) * 16777619u;
    return &state->slots[(hash ^ hash >> 16) % RECENT];
}

static bool is_of(const recent *slot, const iim_dataset *it, const uint8_t *value)
{
    return slot->object != NULL && slot->rec == it->rec && slot->set == it->set &&
           slot->count == it->data.count && memcmp(slot->value, value, it->data.count) == 0;
}

static void fill(recent *slot, const iim_dataset *it, const uint8_t *value, PyObject *object)
{
    PyObject *before = slot->object;

    slot->rec = it->rec;
    slot->set = it->set;
    slot->count = (uint8_t)it->data.count;
    memcpy(slot->value, value, it->data.count);
    Py_INCREF(object);
    slot->object = object;
    Py_XDECREF(before);
}

/* Returns a new named tuple (record, number, octets) for a dataset. */
static PyObject *new_dataset(const iim_dataset *it, const uint8_t *value, PyObject *type,
                             PyObject *octets)
{
    PyObject *items[] = {
        PyLong_FromLong(it->rec),
        PyLong_FromLong(it->set),
        octets_of(octets, value, it->data.count),
    };

    return tuple_of((PyTypeObject *)type, items, 3);
}

/* Returns the named tuple of a dataset: that of an equal recent one, or a new one. */
static PyObject *dataset_of(module_state *state, const iim_dataset *it, const uint8_t *value,
                            PyObject *type, PyObject *octets)
{
    recent *slot;
    PyObject *made;

    if (it->data.count > RECENT_BYTES)
        return new_dataset(it, value, type, octets);
    slot = slot_of(state, it, value);
    if (is_of(slot, it, value)) {
        Py_INCREF(slot->object);
        return slot->object;
    }
    made = new_dataset(it, value, type, octets);
    /* (a call for other types may have been made meanwhile, by a type that Python code implements) */
    if (made != NULL && state->type == type && state->octets == octets)
        fill(slot, it, value, made);
    return made;
}

/* Returns a list of the named tuples of these datasets. */
static PyObject *list_datasets(PyObject *module, const char *ticket, const iim_dataset *found,
                               size_t count, PyObject *type, PyObject *octets)
{
    module_state *state = PyModule_GetState(module);
    PyObject *list = PyList_New((Py_ssize_t)count);

    for (size_t i = 0; list != NULL && i < count; i++) {
        const uint8_t *value = (const uint8_t *)ticket + found[i].data.offset;
        PyObject *one;

        set_types(module, type, octets);
        one = dataset_of(state, &found[i], value, type, octets);
        if (one == NULL)
            Py_CLEAR(list);
        else
            PyList_SetItem(list, (Py_ssize_t)i, one);
    }
    return list;
}

PyDoc_STRVAR(datasets_doc, "datasets(ticket, field, octets)\n--\n\n"
                           "Return the datasets of a ticket, in the order sent.\n\n"
                           "Each is a `field`, a subclass of tuple, of the record, the number and\n"
                           "the value as `octets`, a subclass of bytes. Equal datasets may be one\n"
                           "object, so both types must be immutable. None if it is no ticket.");

static PyObject *datasets(PyObject *module, PyObject *arguments)
{
    const char *ticket;
    Py_ssize_t length;
    PyObject *type, *octets, *list = NULL;
    iim_dataset few[FEW_DATASETS], *found = few;
    iim_answer answer;

    if (!PyArg_ParseTuple(arguments, "y#OO", &ticket, &length, &type, &octets))
        return NULL;
    if (!PyType_Check(type) || !PyType_IsSubtype((PyTypeObject *)type, &PyTuple_Type)) {
        PyErr_SetString(PyExc_TypeError, "the field is no subclass of tuple");
        return NULL;
    }
    library.fields((const uint8_t *)ticket, (size_t)length, 0, few, FEW_DATASETS, &answer);
    if (answer.status == IIM_SHORT) {
        size_t count = answer.written;

        found = malloc(count * sizeof *found);
        if (found == NULL)
            return PyErr_NoMemory();
        library.fields((const uint8_t *)ticket, (size_t)length, 0, found, count, &answer);
    }
    if (answer.status == IIM_DONE)
        list = list_datasets(module, ticket, found, answer.written, type, octets);
    if (found != few)
        free(found);
    if (list == NULL && !PyErr_Occurred())
        Py_RETURN_NONE;
    return list;
}

/* ---- Rows */

static PyObject *none_or(bool is_there, int64_t number)
{
    if (is_there)
        return PyLong_FromLongLong(number);
    Py_RETURN_NONE;
}

/* Returns the named tuple of a row of an audit. */
static PyObject *row_of(const iim_audit_row *row, PyTypeObject *type, PyObject *octets,
                        PyObject *copies)
{
    PyObject *priority = Py_None, *copy = PySequence_GetItem(copies, row->copy);

    if (row->priority != 0)
        priority = octets_of(octets, &row->priority, 1);
    else
        Py_INCREF(priority);
    PyObject *items[] = {
        PyLong_FromUnsignedLongLong(row->at),
        PyLong_FromUnsignedLongLong(row->octets),
        octets_of(octets, row->service, row->service_octets),
        octets_of(octets, row->number, sizeof row->number),
        octets_of(octets, row->date_sent, sizeof row->date_sent),
        priority,
        PyLong_FromUnsignedLongLong(row->size),
        PyLong_FromUnsignedLongLong(row->subfiles),
        PyLong_FromUnsignedLongLong(row->announced),
        PyLong_FromUnsignedLongLong(row->counted),
        none_or(row->has_age, row->age),
        copy,
        none_or(row->has_release, row->release.second),
        none_or(row->has_expires, row->expires.second),
    };
    return tuple_of(type, items, sizeof items / sizeof *items);
}

PyDoc_STRVAR(rows_doc, "rows(array, row, octets, copies)\n--\n\n"
                       "Return the rows of an audit, given the array that the library wrote.\n\n"
                       "Each is a `row`, a subclass of tuple, with values of `octets`, a subclass\n"
                       "of bytes, and the name of its copy in `copies`.");

static PyObject *rows(PyObject *module, PyObject *arguments)
{
    const char *array;
    Py_ssize_t length;
    PyObject *type, *octets, *copies, *list;

    (void)module;
    if (!PyArg_ParseTuple(arguments, "y#OOO", &array, &length, &type, &octets, &copies))
        return NULL;
    if (!PyType_Check(type) || !PyType_IsSubtype((PyTypeObject *)type, &PyTuple_Type)) {
        PyErr_SetString(PyExc_TypeError, "the row is no subclass of tuple");
        return NULL;
    }
    list = PyList_New(length / (Py_ssize_t)sizeof(iim_audit_row));
    for (Py_ssize_t i = 0; list != NULL && i < PyList_Size(list); i++) {
        iim_audit_row row;
        PyObject *one;

        memcpy(&row, array + (size_t)i * sizeof row, sizeof row);
        one = row_of(&row, (PyTypeObject *)type, octets, copies);
        if (one == NULL)
            Py_CLEAR(list);
        else
            PyList_SetItem(list, i, one);
    }
    return list;
}

/* ---- The module */

static PyMethodDef module_functions[] = {
    {"bind", bind, METH_O, bind_doc},
    {"datasets", datasets, METH_VARARGS, datasets_doc},
    {"rows", rows, METH_VARARGS, rows_doc},
    {NULL, NULL, 0, NULL},
};

/* Adds a new reference to the module. */
static int add(PyObject *module, const char *name, PyObject *value)
{
    if (value != NULL && PyModule_AddObject(module, name, value) == 0)
        return 0;
    Py_XDECREF(value);
    return -1;
}

/* Returns the names of the functions that bind() needs, as a tuple. */
static PyObject *names_of_functions(void)
{
    PyObject *names = PyTuple_New((Py_ssize_t)FUNCTIONS);

    for (size_t i = 0; names != NULL && i < FUNCTIONS; i++) {
        PyObject *name = PyUnicode_FromString(functions[i].name);

        if (name == NULL)
            Py_CLEAR(names);
        else
            PyTuple_SetItem(names, (Py_ssize_t)i, name);
    }
    return names;
}

static int add_all(PyObject *module)
{
    if (add(module, "NAMES", names_of_functions()) < 0)
        return -1;
    return add(module, "Unpacker", PyType_FromSpec(&unpacker_spec));
}

static PyModuleDef_Slot module_slots[] = {{Py_mod_exec, add_all}, {0, NULL}};

static PyModuleDef definition = {
    PyModuleDef_HEAD_INIT,
    "iim._iim",
    "What the package iim does for each envelope, dataset and row, in C.",
    sizeof(module_state),
    module_functions,
    module_slots,
    traverse_recent,
    clear_recent,
    free_recent,
};

PyMODINIT_FUNC PyInit__iim(void)
{
    return PyModuleDef_Init(&definition);
}
