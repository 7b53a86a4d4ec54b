/* The calls of icu_normalizer.h for Python. What is rare they leave to `__init__.py`. */
#define PY_SSIZE_T_CLEAN
#include <Python.h>
#include "icu_normalizer.h"

/* Up to this many units a result, and a text, is on the stack; from so many on, other Python threads run meanwhile. */
enum { SHORT = 128, MEDIUM = 1024, LONG = 65536 };
#define INLINE static inline __attribute__((always_inline)) /* compiled into each call, which takes less time then */

typedef uint32_t Form, Status;

typedef struct {
    PyObject_HEAD icu_normalizer handle;
    PyObject *words[4]; /* by form: the last str that named it, so that the same one is known at once */
    bool changes[4];    /* by form: whether the last text changed, as the next one is likely to */
} Normalizer;

/* A text: bytes and ASCII in UTF-8, a str beyond U+FFFF in UTF-32 until it is put into UTF-16, any other in UTF-16. */
typedef struct {
    PyObject *object, *encoded;      /* what was passed, and bytes that are made of it, or null */
    const void *units, *characters;  /* the latter are those of a str, if they may be surrogates, or null */
    size_t length, width, kind;      /* how many units there are, and the bytes of each, and of each character */
    uint16_t *made, own[2 * MEDIUM]; /* the units of a str, if it hasn't them itself */
    Py_UCS4 wide[MEDIUM];            /* the characters of a str, if its memory isn't read */
} Text;

typedef enum { NORMALIZE, MAP, VALIDATE, ASK } Way; /* what a call writes; or it only answers a question */

/* The library's function of this name for a text of this width. */
#define BY_WIDTH(width, name, ...) \
    ((width) == 1 ? icu_normalizer_##name##_utf8(__VA_ARGS__) : icu_normalizer_##name##_utf16(__VA_ARGS__))
#define BY_ANY_WIDTH(width, name, ...) \
    ((width) == 4 ? icu_normalizer_##name##_utf32(__VA_ARGS__) : BY_WIDTH(width, name, __VA_ARGS__))

static PyObject *failed(Status status) {
    if (status == ICU_NORMALIZER_OUT_OF_MEMORY) return PyErr_NoMemory();
    if (status == ICU_NORMALIZER_NO_MAPPER) return PyErr_Format(PyExc_LookupError, "the data have no mapper (UTS #46)");
    return PyErr_Format(PyExc_ValueError, "%s", icu_normalizer_status_text(status));
}

INLINE bool is_form(Normalizer *self, PyObject *word, Form *form) {
    static const char *const forms[] = {"NFD", "NFC", "NFKD", "NFKC"};
    for (*form = 0; *form < 4; ++*form)
        if (word == self->words[*form]) return true;
    for (*form = PyUnicode_Check(word) ? 0 : 4; *form < 4; ++*form)
        if (!PyUnicode_CompareWithASCIIString(word, forms[*form])) break;
    if (*form == 4) return false;
    PyObject *before = self->words[*form];
    self->words[*form] = Py_NewRef(word);
    Py_XDECREF(before);
    return true;
}

/* Puts Latin-1 or UTF-32 into UTF-16, unless there is no memory. Surrogates stay as they are. */
static bool is_utf16(Text *text) {
    size_t length = text->length, width = text->width;
    uint16_t *units = length <= MEDIUM ? text->own : (text->made = malloc(4 * length)), *to = units;
    if (!units) return false;
    for (size_t place = 0; width == 1 && place < length; place++) *to++ = ((const Py_UCS1 *)text->units)[place];
    for (size_t place = 0; width == 4 && place < length; place++) {
        Py_UCS4 it = ((const Py_UCS4 *)text->units)[place];
        bool is_pair = it > 0xFFFF;
        it = is_pair ? ((it >> 10) + 0xD7C0) | ((it & 0x3FF) | 0xDC00) << 16 : it;
        memcpy(to, &it, sizeof it); /* both units are stored at once, as they may be read */
        to += 1 + is_pair;
    }
    text->units = units;
    text->length = (size_t)(to - units);
    text->width = sizeof *units;
    return true;
}

#ifdef Py_LIMITED_API /* compiled for each Python from 3.10 on: the characters of a str are copied */
static bool is_str(Text *text, size_t length) {
    Py_UCS4 bits = 0;
    if (length > MEDIUM) {
        PyObject *is_ascii = PyObject_CallMethod((PyObject *)&PyUnicode_Type, "isascii", "O", text->object);
        Py_XDECREF(is_ascii);
        if (is_ascii == Py_True) text->units = PyUnicode_AsUTF8AndSize(text->object, NULL);
        if (is_ascii != Py_False) return text->units;
        text->encoded = PyUnicode_AsUTF16String(text->object);
        if (!text->encoded && PyErr_ExceptionMatches(PyExc_UnicodeEncodeError)) PyErr_Clear(); /* it has surrogates */
        if (!text->encoded) return false;
        text->units = (uint16_t *)PyBytes_AsString(text->encoded) + 1; /* after a byte order mark */
        text->width = sizeof *text->own;
        text->length = (size_t)PyBytes_Size(text->encoded) / text->width - 1;
        return true;
    }
    if (!PyUnicode_AsUCS4(text->object, text->wide, MEDIUM, 0)) return false;
    for (size_t place = 0; place < length; place++) bits |= text->wide[place];
    for (size_t at = 0; bits < 0x80 && at < length; at++) ((char *)text->own)[at] = (char)text->wide[at];
    if (bits < 0x80) return (text->units = text->own) != NULL;
    text->characters = text->units = text->wide;
    text->kind = text->width = sizeof bits;
    return bits > 0xFFFF || is_utf16(text);
}
#else /* compiled for one Python: the memory of a str is read */
INLINE bool is_str(Text *text, size_t Py_UNUSED(length)) {
    if (PyUnicode_READY(text->object)) return false;
    text->units = PyUnicode_DATA(text->object);
    text->kind = text->width = PyUnicode_KIND(text->object);
    if (text->kind == 1) return PyUnicode_IS_ASCII(text->object) || is_utf16(text) || PyErr_NoMemory();
    return (text->characters = text->units) != NULL;
}
#endif

/* The str of well-formed UTF-16 or UTF-32. */
static PyObject *str_of(size_t width, const void *units, size_t length) {
    int order = -1; /* the least byte comes first */
    Py_ssize_t size = (Py_ssize_t)(length * width);
#ifndef Py_LIMITED_API
    const uint16_t *narrow = units;
    uint16_t pairs = 0;
    for (size_t place = 0; width == 2 && place < length; place++) pairs |= narrow[place] >> 10 == 0xDC00 >> 10;
    if (!pairs) return PyUnicode_FromKindAndData((int)width, units, (Py_ssize_t)length);
#endif
    return (width == 2 ? PyUnicode_DecodeUTF16 : PyUnicode_DecodeUTF32)(units, size, NULL, &order);
}

INLINE bool is_text(PyObject *object, Text *text) {
    bool is = PyUnicode_Check(object);
    Py_ssize_t length = is ? PyUnicode_GetLength(object) : PyBytes_Check(object) ? PyBytes_Size(object) : -1;
    text->object = object;
    text->units = text->characters = text->encoded = NULL;
    text->made = NULL;
    text->length = (size_t)length;
    text->width = text->kind = 1;
    if (!is && length >= 0) text->units = PyBytes_AsString(object);
    return is ? is_str(text, text->length) : length >= 0;
}

/* Whether what the library reads is the text: a str without surrogates, or bytes, of which those that are written are
   well-formed, or there is an exception. */
static bool is_read(Way way, const Text *text) {
    size_t length = text->characters ? (size_t)PyUnicode_GetLength(text->object) : 0, kind = text->kind;
    const uint16_t *narrow = text->characters;
    const Py_UCS4 *wide = text->characters;
    uint16_t in_narrow = 0;
    Py_UCS4 in_wide = 0;
    for (size_t place = 0; kind == 2 && place < length; place++) in_narrow |= narrow[place] >> 11 == 0xD800 >> 11;
    for (size_t place = 0; kind == 4 && place < length; place++) in_wide |= wide[place] >> 11 == 0xD800 >> 11;
    if (way == ASK || !PyBytes_Check(text->object)) return !in_narrow && !in_wide;
    PyObject *made = PyUnicode_DecodeUTF8(text->units, (Py_ssize_t)text->length, NULL);
    Py_XDECREF(made);
    return made;
}

static PyObject *made_of(Way way, const Text *text, const void *units, size_t length) {
    bool is_same = length == text->length && !memcmp(units, text->units, length * text->width);
    if (!(is_same && way == NORMALIZE) && !is_read(way, text)) return NULL;
    if (is_same) return Py_NewRef(text->object);
    if (PyBytes_Check(text->object)) return PyBytes_FromStringAndSize(units, (Py_ssize_t)length);
    if (text->width == 1) return PyUnicode_DecodeUTF8(units, (Py_ssize_t)length, NULL);
    return str_of(text->width, units, length);
}

/* Writes to memory of its own, unless the text is already normalized. */
static Status write_long(icu_normalizer *handle, Way way, Form form, Text *text, char **units, size_t *length) {
    size_t cut = 0, needed;
    bool is = false;
    if (way == NORMALIZE) {
        Status status = text->width == 4
            ? icu_normalizer_is_normalized_utf32(handle, form, text->units, text->length, &is)
            : BY_WIDTH(text->width, split, handle, form, text->units, text->length, &cut);
        if (status || is || cut == text->length) return status;
    }
    if (text->width == 4 && !is_utf16(text)) return ICU_NORMALIZER_OUT_OF_MEMORY;
    size_t width = text->width;
    /* The form is what comes before the cut, followed by the form of the rest. */
    const void *rest = (const char *)text->units + cut * width;
    size_t rest_length = text->length - cut;
    for (size_t room = 4 * rest_length + 64;; room = needed) {
        char *larger = realloc(*units, (cut + room) * width);
        if (!larger) return ICU_NORMALIZER_OUT_OF_MEMORY;
        void *to = (*units = larger) + cut * width;
        Status status = way == MAP ? BY_WIDTH(width, map, handle, rest, rest_length, to, room, &needed)
            : way == VALIDATE ? BY_WIDTH(width, validate, handle, rest, rest_length, to, room, &needed)
            : BY_WIDTH(width, normalize, handle, form, rest, rest_length, to, room, &needed);
        *length = cut + needed;
        if (!status) memcpy(larger, text->units, cut * width);
        if (status != ICU_NORMALIZER_BUFFER_TOO_SMALL) return status;
    }
}

static PyObject *written(Normalizer *self, Way way, Form form, Text *text) {
    Status status;
    size_t length;
    /* A short text is decomposed in UTF-32 in less time than UTF-16 takes. */
    bool stays = form == ICU_NORMALIZER_NFD || form == ICU_NORMALIZER_NFKD, is_short = text->length <= SHORT;
    if (text->width == 4 && is_short && !stays) is_utf16(text);
    if (way == NORMALIZE && text->length <= SHORT) {
        Py_UCS4 own[18 * SHORT];
        status = BY_ANY_WIDTH(text->width, normalize, &self->handle, form, text->units, text->length, (void *)own,
            18 * SHORT, &length);
        if (status != ICU_NORMALIZER_BUFFER_TOO_SMALL) return status ? failed(status) : made_of(way, text, own, length);
    }
    char *units = NULL;
    icu_normalizer own = ICU_NORMALIZER_CLOSED;
    bool is_shared = text->length >= LONG && icu_normalizer_share(&self->handle, &own) == ICU_NORMALIZER_OK;
    PyThreadState *state = is_shared ? PyEval_SaveThread() : NULL;
    status = write_long(is_shared ? &own : &self->handle, way, form, text, &units, &length);
    icu_normalizer_close(&own);
    if (is_shared) PyEval_RestoreThread(state);
    PyObject *made = status ? failed(status) : units ? made_of(way, text, units, length) : Py_NewRef(text->object);
    free(units);
    return made;
}

static PyObject *normalized(Normalizer *self, Way way, Form form, Text *text) {
    /* To see that a short text is in the form takes less time than to write the form. */
    bool is = false;
    if (!self->changes[form] && text->length <= SHORT)
        BY_ANY_WIDTH(text->width, is_normalized, &self->handle, form, text->units, text->length, &is);
    PyObject *made = is ? Py_NewRef(text->object) : written(self, way, form, text);
    self->changes[form] = made != text->object;
    return made;
}

static PyObject *checked(Normalizer *self, Way way, Form form, Text *text) {
    bool is = false;
    Status status = BY_ANY_WIDTH(text->width, is_normalized, &self->handle, form, text->units, text->length, &is);
    return status ? failed(status) : is || is_read(way, text) ? PyBool_FromLong(is) : NULL;
}

/* Where in a str or bytes so many units of its text end, or its end. */
static Py_ssize_t place_of(const Text *text, size_t units) {
    const uint16_t *from = text->units;
    size_t pairs = 0;
    for (size_t at = 0; text->width == 2 && at < units; at++) pairs += from[at] >> 10 == 0xDC00 >> 10;
    return units == text->length ? PyObject_Length(text->object) : (Py_ssize_t)(units - pairs);
}

static PyObject *mismatched(Normalizer *self, Way way, Form form, Text *text) {
    icu_normalizer_mismatch it = {0, 0, 0, false};
    if (text->width == 4 && !is_utf16(text)) return PyErr_NoMemory();
    Status status = BY_WIDTH(text->width, first_mismatch, &self->handle, form, text->units, text->length, &it);
    if (status) return failed(status);
    if (!it.exists) Py_RETURN_NONE;
    if (!is_read(way, text)) return NULL;
    return PyObject_CallMethod((PyObject *)self, "_mismatch", "nCC", place_of(text, it.offset), it.found, it.expected);
}

static PyObject *divided(Normalizer *self, Way way, Form form, Text *text) {
    size_t cut = 0;
    if (text->width == 4 && !is_utf16(text)) return PyErr_NoMemory();
    Status status = BY_WIDTH(text->width, split, &self->handle, form, text->units, text->length, &cut);
    if (status) return failed(status);
    if (cut < text->length && !is_read(way, text)) return NULL;
    Py_ssize_t place = place_of(text, cut);
    PyObject *prefix = PySequence_GetSlice(text->object, 0, place);
    return Py_BuildValue("NN", prefix, PySequence_GetSlice(text->object, place, PY_SSIZE_T_MAX));
}

/* The answer of a call. If it is null without an exception, as of a str with surrogates, for which the library reads
   U+FFFD, or if other things are passed, the method of this name after an underscore in `__init__.py` answers. */
INLINE PyObject *called(Way way, PyObject *(*answer)(Normalizer *, Way, Form, Text *), const char *otherwise,
    PyObject *it, PyObject *const *passed, Py_ssize_t count, PyObject *names) {
    Normalizer *self = (Normalizer *)it;
    bool has_form = way != MAP && way != VALIDATE;
    Form form = 0;
    Text text;
    if (count != 1 + has_form)
        return PyErr_Format(PyExc_TypeError, "%s() takes exactly %s (%zd given)", otherwise + 1,
            has_form ? "2 positional arguments" : "1 positional argument", count);
    if (!names && (!has_form || is_form(self, passed[0], &form)) && is_text(passed[count - 1], &text)) {
        PyObject *made = answer(self, way, form, &text);
        free(text.made);
        Py_XDECREF(text.encoded);
        if (made) return made;
    }
    Py_ssize_t total = count + (names ? PyTuple_Size(names) : 0);
    PyObject *words = PyErr_Occurred() ? NULL : PyTuple_New(total);
    if (!words) return NULL;
    for (Py_ssize_t place = 0; place < total; place++) PyTuple_SetItem(words, place, Py_NewRef(passed[place]));
    return PyObject_CallMethod(it, "_called", "sNO", otherwise, words, names ? names : Py_None);
}

#define CALLS(CALL) \
    CALL(NORMALIZE, normalize, normalized, "form, text, /, *, errors='strict'", "Returns the form of a text.") \
    CALL(ASK, is_normalized, checked, "form, text, /", "Returns whether a text is already in the form.") \
    CALL(ASK, first_mismatch, mismatched, "form, text, /", "Returns the first mismatch with the form, or None.") \
    CALL(ASK, split, divided, "form, text, /", "Returns the beginning that stays in the form, and the rest.") \
    CALL(MAP, map, written, "text, /, *, errors='strict'", "Returns a text mapped by UTS #46 and in NFC.") \
    CALL(VALIDATE, validate, written, "text, /, *, errors='strict'", "As map(), but ignored characters become U+FFFD.")

#define FUNCTION(way, name, answer, signature, text) \
    static PyObject *name(PyObject *it, PyObject *const *passed, Py_ssize_t count, PyObject *names) { \
        return called(way, answer, "_" #name, it, passed, count, names); \
    }
CALLS(FUNCTION)
#define METHOD(way, name, answer, signature, text) {#name, (PyCFunction)(void (*)(void))name, \
    METH_FASTCALL | METH_KEYWORDS, #name "($self, " signature ")\n--\n\n" text},

/* The class of a character, the two numbers of its mapping, and the version of the data. */
static PyObject *look_up(PyObject *it, PyObject *code) {
    icu_normalizer *handle = &((Normalizer *)it)->handle;
    uint32_t character = (uint32_t)PyLong_AsUnsignedLong(code), first = 0, second = 0, version = 0;
    uint8_t combining_class = 0;
    Status status = icu_normalizer_combining_class(handle, character, &combining_class);
    if (!status) status = icu_normalizer_decompose(handle, character, &first, &second);
    if (!status) status = icu_normalizer_unicode_version(handle, &version);
    return status ? failed(status) : Py_BuildValue("BIII", combining_class, first, second, version);
}

static PyMethodDef methods[] = {CALLS(METHOD) {"_look_up", look_up, METH_O, NULL}, {NULL, NULL, 0, NULL}};

/* A normalizer by the bytes of prepared data, or of three files and a limit of disallowed ranges, or what is wrong. */
static PyObject *create(PyTypeObject *type, PyObject *passed, PyObject *Py_UNUSED(names)) {
    const uint8_t *data, *exclusions = NULL, *table;
    Py_ssize_t data_length, exclusions_length, table_length;
    unsigned int limit;
    bool is = PyArg_ParseTuple(passed, "y#|y#y#I", &data, &data_length, &exclusions, &exclusions_length, &table,
        &table_length, &limit);
    Normalizer *self = is ? (Normalizer *)((allocfunc)PyType_GetSlot(type, Py_tp_alloc))(type, 0) : NULL;
    if (!self) return NULL;
    self->handle = (icu_normalizer)ICU_NORMALIZER_CLOSED;
    icu_normalizer_defect defect = {.source = ICU_NORMALIZER_ALL_RECORDS};
    Status status = !exclusions
        ? icu_normalizer_open_prepared(&self->handle, data, (size_t)data_length, &defect)
        : icu_normalizer_open_files(&self->handle, data, (size_t)data_length, exclusions, (size_t)exclusions_length,
            table, (size_t)table_length, limit, &defect);
    if (!status) return (PyObject *)self;
    Py_DECREF(self);
    return status == ICU_NORMALIZER_OUT_OF_MEMORY ? failed(status) : Py_BuildValue("InIs", defect.source,
        (Py_ssize_t)defect.place, defect.condition, icu_normalizer_reason_text(defect.reason));
}

static void release(PyObject *it) {
    PyTypeObject *type = Py_TYPE(it);
    icu_normalizer_close(&((Normalizer *)it)->handle);
    for (size_t form = 0; form < 4; form++) Py_XDECREF(((Normalizer *)it)->words[form]);
    ((freefunc)PyType_GetSlot(type, Py_tp_free))(it);
    Py_DECREF(type);
}

static PyType_Spec spec = {"icu_normalizer._native.Normalizer", sizeof(Normalizer), 0,
    Py_TPFLAGS_DEFAULT | Py_TPFLAGS_BASETYPE, (PyType_Slot[]){
        {Py_tp_methods, methods}, {Py_tp_new, create}, {Py_tp_dealloc, release}, {0, NULL}}};

static int add_content(PyObject *module) {
    int status = PyModule_AddObject(module, "Normalizer", PyType_FromSpec(&spec));
    return status ? status : PyModule_AddIntConstant(module, "version", (long)icu_normalizer_version());
}

static PyModuleDef module = {.m_base = PyModuleDef_HEAD_INIT, .m_name = "icu_normalizer._native",
    .m_slots = (PyModuleDef_Slot[]){{Py_mod_exec, add_content}, {0, NULL}}};

PyMODINIT_FUNC PyInit__native(void) {
    return PyModuleDef_Init(&module);
}
