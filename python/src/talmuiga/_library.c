/* The library for C as a module of Python: formatters are capsules, a status is a whole number, a text is a str. */
#define PY_SSIZE_T_CLEAN
#define Py_LIMITED_API 0x030A0000
#include <Python.h>

#include "talmuiga.h"

#include <stdio.h>

static const char NAME[] = "talmuiga formatter";

enum { ROOM = 512, SPANS = 64 };

static void close_capsule(PyObject *capsule) {
    talmuiga_formatter_close((talmuiga_formatter *)PyCapsule_GetPointer(capsule, NAME));
}

/* A capsule of an open formatter, or the status. */
static PyObject *opened(uint32_t status, talmuiga_formatter *formatter) {
    if (status) return PyLong_FromUnsignedLong(status);
    PyObject *capsule = PyCapsule_New(formatter, NAME, close_capsule);
    if (!capsule) talmuiga_formatter_close(formatter);
    return capsule;
}

static PyObject *open_by_tables(PyObject *Py_UNUSED(module), PyObject *words) {
    const char *tables, *locale, *system, *style, *grouping;
    Py_ssize_t len;
    talmuiga_formatter *formatter;
    uint32_t status;
    if (!PyArg_ParseTuple(words, "y#ssss", &tables, &len, &locale, &system, &style, &grouping)) return NULL;
    /* bytes and texts don't change, and the tuple keeps them */
    Py_BEGIN_ALLOW_THREADS
    status = talmuiga_formatter_open(tables, (size_t)len, locale, system, style, grouping, &formatter);
    Py_END_ALLOW_THREADS
    return opened(status, formatter);
}

/* A fault as its byte, the number of its kind and its words. */
static PyObject *triple_of(const talmuiga_fault *found) {
    return Py_BuildValue("(nIs)", (Py_ssize_t)found->byte, (unsigned)found->kind, talmuiga_fault_text(found));
}

/* A capsule of a formatter that was opened by a skeleton, or the status, or the fault. */
static PyObject *opened_by_skeleton(uint32_t status, const talmuiga_fault *found, talmuiga_formatter *formatter) {
    return status == TALMUIGA_SKELETON_REFUSED ? triple_of(found) : opened(status, formatter);
}

/* A call that opens a formatter by tables, a locale and a skeleton, and one that does so in English. */
typedef uint32_t opening(const char *, size_t, const char *, const char *, size_t, talmuiga_fault *, talmuiga_formatter **);
typedef uint32_t english_opening(const char *, size_t, talmuiga_fault *, talmuiga_formatter **);

static PyObject *open_by(PyObject *words, opening *open) {
    const char *tables, *locale, *skeleton;
    Py_ssize_t len, skeleton_len;
    talmuiga_fault found;
    talmuiga_formatter *formatter;
    uint32_t status;
    if (!PyArg_ParseTuple(words, "y#sy#", &tables, &len, &locale, &skeleton, &skeleton_len)) return NULL;
    Py_BEGIN_ALLOW_THREADS
    status = open(tables, (size_t)len, locale, skeleton, (size_t)skeleton_len, &found, &formatter);
    Py_END_ALLOW_THREADS
    return opened_by_skeleton(status, &found, formatter);
}

static PyObject *open_english_by(PyObject *words, english_opening *open) {
    const char *skeleton;
    Py_ssize_t skeleton_len;
    talmuiga_fault found;
    talmuiga_formatter *formatter;
    if (!PyArg_ParseTuple(words, "y#", &skeleton, &skeleton_len)) return NULL;
    uint32_t status = open(skeleton, (size_t)skeleton_len, &found, &formatter);
    return opened_by_skeleton(status, &found, formatter);
}

static PyObject *open_by_skeleton(PyObject *Py_UNUSED(module), PyObject *words) {
    return open_by(words, talmuiga_formatter_open_skeleton);
}

static PyObject *open_ranges(PyObject *Py_UNUSED(module), PyObject *words) {
    return open_by(words, talmuiga_formatter_open_ranges);
}

static PyObject *open_english_by_skeleton(PyObject *Py_UNUSED(module), PyObject *words) {
    return open_english_by(words, talmuiga_formatter_open_english_skeleton);
}

static PyObject *open_english_ranges(PyObject *Py_UNUSED(module), PyObject *words) {
    return open_english_by(words, talmuiga_formatter_open_english_ranges);
}

static PyObject *open_english(PyObject *Py_UNUSED(module), PyObject *Py_UNUSED(none)) {
    talmuiga_formatter *formatter;
    uint32_t status = talmuiga_formatter_open_english(&formatter);
    return opened(status, formatter);
}

/* ---- Texts that calls write. */

/* Where a call writes a text: a small room, or one for a text that is longer. */
struct output {
    char few[ROOM], *at;
    size_t room, length;
};

static void begin(struct output *output) {
    output->at = output->few;
    output->room = ROOM;
    output->length = 0;
}

/* Makes room for a text that didn't fit; whether the call has to write it again. Without memory there is an exception and no room. */
static int grows_to_fit(struct output *output) {
    if (output->length <= output->room) return 0;
    output->room = output->length;
    output->at = (char *)PyMem_Malloc(output->room);
    if (!output->at) PyErr_NoMemory();
    return output->at != NULL;
}

static PyObject *text_in(const struct output *output) {
    return PyUnicode_DecodeUTF8(output->at, (Py_ssize_t)output->length, NULL);
}

/* The answer, behind which the room is let go. */
static PyObject *ended(const struct output *output, PyObject *answer) {
    if (output->at != output->few) PyMem_Free(output->at);
    return answer;
}

/* The text, or the status where there is none. */
static PyObject *text_or_status(const struct output *output, uint32_t status) {
    return ended(output, status ? PyLong_FromUnsignedLong(status) : text_in(output));
}

/* ---- The texts of numbers. */

enum { SHORT = 32 };

/* Bytes that grow. */
struct bytes {
    char *at;
    size_t len, room;
};

/* Room for so many bytes more; whether there is. */
static int grows(struct bytes *bytes, size_t more) {
    size_t room = bytes->room;
    if (room - bytes->len >= more) return 1;
    while (room - bytes->len < more) room = 2 * room + SHORT;
    char *at = (char *)realloc(bytes->at, room);
    if (!at) return 0;
    bytes->at = at;
    bytes->room = room;
    return 1;
}

/* Appends a text; whether there was memory. */
static int append(struct bytes *bytes, const char *text, size_t len) {
    if (!grows(bytes, len)) {
        PyErr_NoMemory();
        return 0;
    }
    memcpy(bytes->at + bytes->len, text, len);
    bytes->len += len;
    return 1;
}

static int append_whole(struct bytes *bytes, long long value) {
    char text[SHORT];
    return append(bytes, text, (size_t)snprintf(text, sizeof text, "%lld", value));
}

static int append_unsigned(struct bytes *bytes, unsigned long long value) {
    char text[SHORT];
    return append(bytes, text, (size_t)snprintf(text, sizeof text, "%llu", value));
}

/* Appends the digits of a text as "1.5e-07" without the exponent: "0.00000015". */
static int append_without_exponent(struct bytes *bytes, const char *text, const char *mark) {
    char digits[SHORT], plain[400];
    size_t count = 0, at = 0;
    long before, power = strtol(mark + 1, NULL, 10);
    const char *point = NULL, *c = text;
    if (*c == '-') plain[at++] = *c++;
    for (; c < mark && count < sizeof digits; c++) {
        if (*c == '.') point = c;
        else digits[count++] = *c;
    }
    /* how many digits stand before the separator; an exponent of a double has three digits, so that there is room */
    before = (long)(point ? point - text - (long)at : (long)count) + power;
    if (before <= 0) {
        plain[at++] = '0';
        plain[at++] = '.';
        for (long i = before; i < 0; i++) plain[at++] = '0';
    }
    for (size_t i = 0; i < count; i++) {
        if (i > 0 && (long)i == before) plain[at++] = '.';
        plain[at++] = digits[i];
    }
    for (long i = (long)count; i < before; i++) plain[at++] = '0';
    return append(bytes, plain, at);
}

/* Appends the shortest text that is read as a float. */
static int append_float(struct bytes *bytes, double value) {
    char *text = PyOS_double_to_string(value, 'r', 0, Py_DTSF_ADD_DOT_0, NULL);
    if (!text) return 0;
    const char *mark = strchr(text, 'e');
    int appended = mark ? append_without_exponent(bytes, text, mark) : append(bytes, text, strlen(text));
    PyMem_Free(text);
    return appended;
}

/* Appends the text of a float or of a whole number of 64 bits: 1, or 0 with an exception, or -1 for anything else. */
static int append_number(struct bytes *bytes, PyObject *number) {
    if (PyFloat_Check(number)) return append_float(bytes, PyFloat_AsDouble(number));
    if (!PyLong_Check(number)) return -1;
    int overflow;
    long long value = PyLong_AsLongLongAndOverflow(number, &overflow);
    if (overflow) return -1;
    return (value != -1 || !PyErr_Occurred()) && append_whole(bytes, value);
}

/* The answer to a number that isn't UTF-8: a text with half of a pair is no decimal. */
static PyObject *no_text(void) {
    if (!PyErr_ExceptionMatches(PyExc_UnicodeEncodeError)) return NULL;
    PyErr_Clear();
    return PyLong_FromLong(TALMUIGA_NOT_DECIMAL);
}

/* The text that a decimal's text is formatted to, or the status where it isn't. */
static PyObject *shown_bytes(const talmuiga_formatter *formatter, const char *text, size_t len) {
    struct output output;
    uint32_t status;
    begin(&output);
    do status = talmuiga_formatter_one(formatter, text, len, output.at, output.room, &output.length);
    while (grows_to_fit(&output));
    return output.at ? text_or_status(&output, status) : NULL;
}

/* The same of a str. */
static PyObject *shown(const talmuiga_formatter *formatter, PyObject *number) {
    Py_ssize_t len;
    const char *text = PyUnicode_AsUTF8AndSize(number, &len);
    return text ? shown_bytes(formatter, text, (size_t)len) : no_text();
}

/* The same of a number that isn't a str; of what is no float and no whole number of 64 bits `text_of` answers the text. */
static PyObject *shown_number(const talmuiga_formatter *formatter, PyObject *number, PyObject *text_of) {
    struct bytes own = {NULL, 0, 0};
    PyObject *answer = NULL;
    int appended = append_number(&own, number);
    if (appended > 0) {
        answer = shown_bytes(formatter, own.at, own.len);
    } else if (appended < 0) {
        PyObject *text = PyObject_CallFunctionObjArgs(text_of, number, NULL);
        if (text) answer = shown(formatter, text);
        Py_XDECREF(text);
    }
    free(own.at);
    return answer;
}

static PyObject *one(PyObject *Py_UNUSED(module), PyObject *const *words, Py_ssize_t count) {
    if (count != 3) {
        PyErr_SetString(PyExc_TypeError, "a formatter, a number and a function");
        return NULL;
    }
    const talmuiga_formatter *formatter = (const talmuiga_formatter *)PyCapsule_GetPointer(words[0], NAME);
    if (!formatter) return NULL;
    return PyUnicode_Check(words[1]) ? shown(formatter, words[1]) : shown_number(formatter, words[1], words[2]);
}

/* A list of spans as triples; places in bytes become places in characters. */
static PyObject *triples(const char *text, size_t length, const talmuiga_span *spans, size_t count) {
    PyObject *list = NULL;
    Py_ssize_t *characters = (Py_ssize_t *)PyMem_Malloc((length + 1) * sizeof *characters);
    if (!characters) return PyErr_NoMemory();
    characters[0] = 0;
    for (size_t i = 0; i < length; i++) {
        /* each byte begins a character that doesn't continue one */
        characters[i + 1] = characters[i] + (((unsigned char)text[i] & 0xC0) != 0x80);
    }
    list = PyList_New((Py_ssize_t)count);
    for (size_t i = 0; list && i < count; i++) {
        PyObject *triple =
            Py_BuildValue("(nnI)", characters[spans[i].start], characters[spans[i].end], (unsigned)spans[i].part);
        if (!triple || PyList_SetItem(list, (Py_ssize_t)i, triple)) Py_CLEAR(list);
    }
    PyMem_Free(characters);
    return list;
}

/* The text that a number is formatted to and its parts, or the status where it isn't. */
static PyObject *shown_in_parts(const talmuiga_formatter *formatter, PyObject *number) {
    char room[ROOM], *output = room;
    talmuiga_span few[SPANS], *spans = few;
    Py_ssize_t len;
    size_t length, count;
    PyObject *answer = NULL;
    const char *text = PyUnicode_AsUTF8AndSize(number, &len);
    if (!text) return no_text();
    uint32_t status = talmuiga_formatter_parts(formatter, text, (size_t)len, output, ROOM, &length, spans, SPANS, &count);
    if (status == TALMUIGA_OUTPUT_TOO_SMALL) {
        output = (char *)PyMem_Malloc(length);
        spans = (talmuiga_span *)PyMem_Malloc(count * sizeof *spans);
        if (output && spans) {
            status = talmuiga_formatter_parts(formatter, text, (size_t)len, output, length, &length, spans, count, &count);
        }
    }
    if (!output || !spans) {
        PyErr_NoMemory();
    } else if (status) {
        answer = PyLong_FromUnsignedLong(status);
    } else {
        PyObject *list = triples(output, length, spans, count);
        if (list) answer = Py_BuildValue("(s#N)", output, (Py_ssize_t)length, list);
    }
    if (output != room) PyMem_Free(output);
    if (spans != few) PyMem_Free(spans);
    return answer;
}

static PyObject *parts(PyObject *Py_UNUSED(module), PyObject *words) {
    PyObject *capsule, *number;
    if (!PyArg_ParseTuple(words, "OU", &capsule, &number)) return NULL;
    const talmuiga_formatter *formatter = (const talmuiga_formatter *)PyCapsule_GetPointer(capsule, NAME);
    return formatter ? shown_in_parts(formatter, number) : NULL;
}

/* The UTF-8 of a str; with half of a pair no byte, which is no decimal either. */
static const char *end_of(PyObject *number, Py_ssize_t *len) {
    const char *text = PyUnicode_AsUTF8AndSize(number, len);
    if (text || !PyErr_ExceptionMatches(PyExc_UnicodeEncodeError)) return text;
    PyErr_Clear();
    *len = 0;
    return "";
}

/* The text of the range of two str, or the status where it has none. */
static PyObject *range(PyObject *Py_UNUSED(module), PyObject *words) {
    struct output output;
    PyObject *capsule, *first, *last;
    Py_ssize_t start_len, end_len;
    uint32_t status;
    if (!PyArg_ParseTuple(words, "OUU", &capsule, &first, &last)) return NULL;
    const talmuiga_formatter *formatter = (const talmuiga_formatter *)PyCapsule_GetPointer(capsule, NAME);
    const char *start = formatter ? end_of(first, &start_len) : NULL, *end = start ? end_of(last, &end_len) : NULL;
    if (!end) return NULL;
    begin(&output);
    do {
        status = talmuiga_formatter_range(formatter, start, (size_t)start_len, end, (size_t)end_len, output.at, output.room,
                                          &output.length);
    } while (grows_to_fit(&output));
    return output.at ? text_or_status(&output, status) : NULL;
}

/* The decimal that a text in UTF-8 shows; or the status, and the byte of the fault. */
static PyObject *read_back(PyObject *Py_UNUSED(module), PyObject *words) {
    struct output output;
    PyObject *capsule;
    const char *text;
    Py_ssize_t len;
    size_t byte;
    uint32_t status;
    if (!PyArg_ParseTuple(words, "Oy#", &capsule, &text, &len)) return NULL;
    const talmuiga_formatter *formatter = (const talmuiga_formatter *)PyCapsule_GetPointer(capsule, NAME);
    if (!formatter) return NULL;
    begin(&output);
    do status = talmuiga_formatter_read(formatter, text, (size_t)len, output.at, output.room, &output.length, &byte);
    while (grows_to_fit(&output));
    if (!output.at) return NULL;
    return ended(&output, status ? Py_BuildValue("(In)", (unsigned)status, (Py_ssize_t)byte) : text_in(&output));
}

/* ---- Many numbers: read with the interpreter's lock, formatted without it, made into texts with it again, a thousand at
 * a time. */

enum { AT_ONCE = 1024 };

/* A number's text, which a str keeps or which stands in `own` from `start` on, and its answer, which stands in `output`. */
struct number {
    const char *text;
    size_t start, len;
    uint32_t status;
    size_t answer_len;
};

/* Some numbers on their way, and whether one before them had no text. */
struct batch {
    size_t count;
    int has_refused;
    struct number numbers[AT_ONCE];
    struct bytes own, output;
};

static struct batch *new_batch(void) {
    struct batch *batch = (struct batch *)calloc(1, sizeof *batch);
    if (!batch) PyErr_NoMemory();
    return batch;
}

static void free_batch(struct batch *batch) {
    free(batch->own.at);
    free(batch->output.at);
    free(batch);
}

/* Adds a text that somebody keeps. */
static void add_kept(struct batch *batch, const char *text, size_t len) {
    batch->numbers[batch->count++] = (struct number){text, 0, len, TALMUIGA_DONE, 0};
}

/* Adds the text that the last bytes of `own` are, from one on; what `append` answered is handed on. */
static int add_own(struct batch *batch, size_t start, int appended) {
    if (appended) batch->numbers[batch->count++] = (struct number){NULL, start, batch->own.len - start, TALMUIGA_DONE, 0};
    return appended;
}

/* Formats the numbers; the interpreter's lock isn't needed. Whether there was memory for their texts. */
static int format_batch(const talmuiga_formatter *formatter, struct batch *batch) {
    struct bytes *output = &batch->output;
    output->len = 0;
    for (size_t i = 0; i < batch->count; i++) {
        struct number *number = &batch->numbers[i];
        const char *text = number->text ? number->text : batch->own.at + number->start;
        if (!grows(output, number->len + SHORT)) return 0;
        number->status = talmuiga_formatter_one(formatter, text, number->len, output->at + output->len,
                                                output->room - output->len, &number->answer_len);
        if (number->status == TALMUIGA_OUTPUT_TOO_SMALL) {
            if (!grows(output, number->answer_len)) return 0;
            number->status = talmuiga_formatter_one(formatter, text, number->len, output->at + output->len,
                                                    output->room - output->len, &number->answer_len);
        }
        output->len += number->answer_len;
    }
    return 1;
}

/* Formats what is in the batch, puts the texts or statuses into a list from `first` on, and empties the batch. */
static int put_batch(const talmuiga_formatter *formatter, struct batch *batch, PyObject *answers, Py_ssize_t first) {
    int formatted;
    size_t start = 0;
    Py_BEGIN_ALLOW_THREADS
    formatted = format_batch(formatter, batch);
    Py_END_ALLOW_THREADS
    if (!formatted) {
        PyErr_NoMemory();
        return 0;
    }
    for (size_t i = 0; i < batch->count; i++) {
        const struct number *number = &batch->numbers[i];
        batch->has_refused |= number->status != TALMUIGA_DONE;
        PyObject *answer = number->status
                               ? PyLong_FromUnsignedLong(number->status)
                               : PyUnicode_DecodeUTF8(batch->output.at + start, (Py_ssize_t)number->answer_len, NULL);
        start += number->answer_len;
        /* the list takes the answer, whether it finds the place or not */
        if (!answer || PyList_SetItem(answers, first + (Py_ssize_t)i, answer)) return 0;
    }
    batch->count = batch->own.len = 0;
    return 1;
}

/* The text of a number that is neither a str, a float nor a whole number of 64 bits: as `text_of` answers, in place of it in the
 * list, which so keeps it. */
static int add_text(struct batch *batch, PyObject *numbers, Py_ssize_t index, PyObject *text_of) {
    PyObject *number = PyList_GetItem(numbers, index);
    if (!PyUnicode_Check(number)) {
        number = PyObject_CallFunctionObjArgs(text_of, number, NULL);
        if (!number || PyList_SetItem(numbers, index, number)) return 0;
    }
    Py_ssize_t len;
    const char *text = PyUnicode_AsUTF8AndSize(number, &len);
    if (text) {
        add_kept(batch, text, (size_t)len);
        return 1;
    }
    if (!PyErr_ExceptionMatches(PyExc_UnicodeEncodeError)) return 0;
    PyErr_Clear();
    /* half of a pair: a text that is no decimal either */
    add_kept(batch, "", 0);
    return 1;
}

/* Adds a number of a list. */
static int add_number(struct batch *batch, PyObject *numbers, Py_ssize_t index, PyObject *text_of) {
    PyObject *number = PyList_GetItem(numbers, index);
    if (!number) return 0;
    size_t start = batch->own.len;
    int appended = append_number(&batch->own, number);
    return appended < 0 ? add_text(batch, numbers, index, text_of) : add_own(batch, start, appended);
}

/* What the numbers of a batch came to: the list, and whether a status is in it. */
static PyObject *with_refused(const struct batch *batch, PyObject *answers) {
    return answers ? Py_BuildValue("(NO)", answers, batch->has_refused ? Py_True : Py_False) : NULL;
}

/* A list of what `one` answers to each number of a list, which nobody else has, and whether a status is in it; what spells no
 * number itself is replaced by its text, by a function. */
static PyObject *many(PyObject *Py_UNUSED(module), PyObject *words) {
    PyObject *capsule, *numbers, *text_of;
    if (!PyArg_ParseTuple(words, "OO!O", &capsule, &PyList_Type, &numbers, &text_of)) return NULL;
    const talmuiga_formatter *formatter = (const talmuiga_formatter *)PyCapsule_GetPointer(capsule, NAME);
    struct batch *batch = formatter ? new_batch() : NULL;
    if (!batch) return NULL;
    Py_ssize_t count = PyList_Size(numbers), first = 0;
    PyObject *answers = PyList_New(count);
    for (Py_ssize_t i = 0; answers && i < count; i++) {
        int is_last = i + 1 == count || batch->count + 1 == AT_ONCE;
        if (!add_number(batch, numbers, i, text_of) || (is_last && !put_batch(formatter, batch, answers, first))) {
            Py_CLEAR(answers);
        } else if (is_last) {
            first = i + 1;
        }
    }
    PyObject *both = with_refused(batch, answers);
    free_batch(batch);
    return both;
}

/* Appends the text of the number at some bytes, by its letter of Python's module `struct`. */
static int append_raw(struct bytes *own, const char *at, int letter) {
#define WHOLE(letter_of, type, kind, wide) \
    case letter_of: { \
        type value; \
        memcpy(&value, at, sizeof value); \
        return append_##kind(own, (wide)value); \
    }
    switch (letter) {
        WHOLE('b', signed char, whole, long long)
        WHOLE('B', unsigned char, whole, long long)
        WHOLE('h', short, whole, long long)
        WHOLE('H', unsigned short, whole, long long)
        WHOLE('i', int, whole, long long)
        WHOLE('I', unsigned, whole, long long)
        WHOLE('l', long, whole, long long)
        WHOLE('q', long long, whole, long long)
        WHOLE('L', unsigned long, unsigned, unsigned long long)
        WHOLE('Q', unsigned long long, unsigned, unsigned long long)
        WHOLE('f', float, float, double)
        WHOLE('d', double, float, double)
        default: PyErr_SetString(PyExc_ValueError, "no such letter"); return 0;
    }
#undef WHOLE
}

/* Adds the number at some bytes. */
static int add_raw(struct batch *batch, const char *at, int letter) {
    size_t start = batch->own.len;
    return add_own(batch, start, append_raw(&batch->own, at, letter));
}

/* The same of each number of bytes, which are numbers of one letter of `struct`, in this machine's form. */
static PyObject *raw(PyObject *Py_UNUSED(module), PyObject *words) {
    PyObject *capsule;
    const char *bytes;
    Py_ssize_t len, size;
    int letter;
    if (!PyArg_ParseTuple(words, "Oy#Cn", &capsule, &bytes, &len, &letter, &size)) return NULL;
    const talmuiga_formatter *formatter = (const talmuiga_formatter *)PyCapsule_GetPointer(capsule, NAME);
    struct batch *batch = formatter ? new_batch() : NULL;
    if (!batch) return NULL;
    Py_ssize_t count = size > 0 ? len / size : 0, first = 0;
    PyObject *answers = PyList_New(count);
    for (Py_ssize_t i = 0; answers && i < count; i++) {
        int is_last = i + 1 == count || batch->count + 1 == AT_ONCE;
        if (!add_raw(batch, bytes + i * size, letter) || (is_last && !put_batch(formatter, batch, answers, first))) {
            Py_CLEAR(answers);
        } else if (is_last) {
            first = i + 1;
        }
    }
    PyObject *both = with_refused(batch, answers);
    free_batch(batch);
    return both;
}

/* Why tables are refused, in words; nothing where they are accepted. */
static PyObject *fault(PyObject *Py_UNUSED(module), PyObject *words) {
    struct output output;
    const char *tables;
    Py_ssize_t len;
    uint32_t status;
    if (!PyArg_ParseTuple(words, "y#", &tables, &len)) return NULL;
    begin(&output);
    do status = talmuiga_tables_fault(tables, (size_t)len, output.at, output.room, &output.length);
    while (grows_to_fit(&output));
    if (!output.at) return NULL;
    return ended(&output, status == TALMUIGA_OUT_OF_MEMORY ? PyErr_NoMemory() : text_in(&output));
}

/* What tables hold of a kind, a name in each line, or the status. */
static PyObject *list(PyObject *Py_UNUSED(module), PyObject *words) {
    struct output output;
    const char *tables;
    Py_ssize_t len;
    unsigned kind;
    uint32_t status;
    if (!PyArg_ParseTuple(words, "y#I", &tables, &len, &kind)) return NULL;
    begin(&output);
    do status = talmuiga_tables_list(tables, (size_t)len, kind, output.at, output.room, &output.length);
    while (grows_to_fit(&output));
    return output.at ? text_or_status(&output, status) : NULL;
}

/* The canonical text of a skeleton, or its fault. */
static PyObject *canonical(PyObject *Py_UNUSED(module), PyObject *words) {
    struct output output;
    const char *skeleton;
    Py_ssize_t len;
    talmuiga_fault found;
    uint32_t status;
    if (!PyArg_ParseTuple(words, "y#", &skeleton, &len)) return NULL;
    begin(&output);
    do status = talmuiga_skeleton_canonical(skeleton, (size_t)len, output.at, output.room, &output.length, &found);
    while (grows_to_fit(&output));
    if (!output.at) return NULL;
    return ended(&output, status == TALMUIGA_OUT_OF_MEMORY      ? PyErr_NoMemory()
                          : status == TALMUIGA_SKELETON_REFUSED ? triple_of(&found)
                                                                : text_in(&output));
}

/* ---- Messages: capsules of their own. */

static const char MESSAGE[] = "talmuiga message";

static void close_message(PyObject *capsule) {
    talmuiga_message_close((talmuiga_message *)PyCapsule_GetPointer(capsule, MESSAGE));
}

/* A capsule of an open message, or the status, or the fault as its byte, the number of its kind and its words. */
static PyObject *message_opened(uint32_t status, const talmuiga_fault *found, talmuiga_message *message) {
    if (status == TALMUIGA_MESSAGE_REFUSED) {
        return Py_BuildValue("(nIs)", (Py_ssize_t)found->byte, (unsigned)found->kind, talmuiga_message_fault_text(found));
    }
    if (status) return PyLong_FromUnsignedLong(status);
    PyObject *capsule = PyCapsule_New(message, MESSAGE, close_message);
    if (!capsule) talmuiga_message_close(message);
    return capsule;
}

static PyObject *open_message(PyObject *Py_UNUSED(module), PyObject *words) {
    const char *tables, *locale, *text;
    Py_ssize_t len, text_len;
    talmuiga_fault found;
    talmuiga_message *message;
    uint32_t status;
    if (!PyArg_ParseTuple(words, "y#sy#", &tables, &len, &locale, &text, &text_len)) return NULL;
    Py_BEGIN_ALLOW_THREADS
    status = talmuiga_message_open(tables, (size_t)len, locale, text, (size_t)text_len, &found, &message);
    Py_END_ALLOW_THREADS
    return message_opened(status, &found, message);
}

static PyObject *open_english_message(PyObject *Py_UNUSED(module), PyObject *words) {
    const char *text;
    Py_ssize_t text_len;
    talmuiga_fault found;
    talmuiga_message *message;
    if (!PyArg_ParseTuple(words, "y#", &text, &text_len)) return NULL;
    uint32_t status = talmuiga_message_open_english(text, (size_t)text_len, &found, &message);
    return message_opened(status, &found, message);
}

/* Adds an item to a list that takes it; null, and the list is let go, where there is no memory. */
static PyObject *with_item(PyObject *list, PyObject *item) {
    if (!item || PyList_Append(list, item)) Py_CLEAR(list);
    Py_XDECREF(item);
    return list;
}

/* The names of a message: of each where it begins and ends in the text, in bytes, and the number of its kind. */
static PyObject *message_names(PyObject *Py_UNUSED(module), PyObject *capsule) {
    const talmuiga_message *message = (const talmuiga_message *)PyCapsule_GetPointer(capsule, MESSAGE);
    talmuiga_named named;
    PyObject *names = message ? PyList_New(0) : NULL;
    uint32_t status = TALMUIGA_DONE;
    for (size_t at = 0; names && (status = talmuiga_message_name(message, at, &named)) == TALMUIGA_DONE; at++) {
        names = with_item(names, Py_BuildValue("(nnI)", (Py_ssize_t)named.name.start, (Py_ssize_t)named.name.end, (unsigned)named.kind));
    }
    if (names && status == TALMUIGA_OUT_OF_MEMORY) {
        Py_DECREF(names);
        return PyErr_NoMemory();
    }
    return names;
}

/* The places of a message with a form of their own: where name and skeleton begin and end in the text, in bytes. */
static PyObject *message_places(PyObject *Py_UNUSED(module), PyObject *capsule) {
    const talmuiga_message *message = (const talmuiga_message *)PyCapsule_GetPointer(capsule, MESSAGE);
    talmuiga_place place;
    PyObject *places = message ? PyList_New(0) : NULL;
    for (size_t at = 0; places && talmuiga_message_place(message, at, &place) == TALMUIGA_DONE; at++) {
        places = with_item(places, Py_BuildValue("(nnnn)", (Py_ssize_t)place.name.start, (Py_ssize_t)place.name.end,
                                                 (Py_ssize_t)place.skeleton.start, (Py_ssize_t)place.skeleton.end));
    }
    return places;
}

/* The status of adding a value: a name, its text, the formatter of a number or None, and the skeleton of its place or None. With an
 * exception it is that of memory. */
static uint32_t add_value(talmuiga_arguments *arguments, PyObject *value) {
    const char *name, *text, *skeleton;
    Py_ssize_t text_len, skeleton_len;
    PyObject *capsule;
    if (!PyArg_ParseTuple(value, "sy#Oz#", &name, &text, &text_len, &capsule, &skeleton, &skeleton_len)) return TALMUIGA_OUT_OF_MEMORY;
    if (capsule == Py_None) return talmuiga_arguments_text(arguments, name, text, (size_t)text_len);
    const talmuiga_formatter *formatter = (const talmuiga_formatter *)PyCapsule_GetPointer(capsule, NAME);
    if (!formatter) return TALMUIGA_OUT_OF_MEMORY;
    return skeleton ? talmuiga_arguments_form(arguments, formatter, name, skeleton, (size_t)skeleton_len, text, (size_t)text_len)
                    : talmuiga_arguments_number(arguments, formatter, name, text, (size_t)text_len);
}

/* The text of a message with arguments; or the status, and where the name of the argument stands in the message's text. */
static PyObject *written(const talmuiga_message *message, const talmuiga_arguments *arguments) {
    struct output output;
    talmuiga_word name;
    uint32_t status;
    begin(&output);
    do status = talmuiga_message_write(message, arguments, output.at, output.room, &output.length, &name);
    while (grows_to_fit(&output));
    if (!output.at) return NULL;
    return ended(&output, status ? Py_BuildValue("(Inn)", (unsigned)status, (Py_ssize_t)name.start, (Py_ssize_t)name.end)
                                 : text_in(&output));
}

/* The text of a message with the values of a list; or why it isn't written, as above; or the status, the index of a value that isn't
 * added, and -1. */
static PyObject *write_message(PyObject *Py_UNUSED(module), PyObject *words) {
    PyObject *capsule, *values, *answer = NULL;
    if (!PyArg_ParseTuple(words, "OO!", &capsule, &PyList_Type, &values)) return NULL;
    const talmuiga_message *message = (const talmuiga_message *)PyCapsule_GetPointer(capsule, MESSAGE);
    if (!message) return NULL;
    talmuiga_arguments *arguments = talmuiga_arguments_open();
    if (!arguments) return PyErr_NoMemory();
    uint32_t status = TALMUIGA_DONE;
    Py_ssize_t at = 0, count = PyList_Size(values);
    while (at < count && (status = add_value(arguments, PyList_GetItem(values, at))) == TALMUIGA_DONE) at++;
    if (status == TALMUIGA_DONE) {
        answer = written(message, arguments);
    } else if (!PyErr_Occurred()) {
        answer = Py_BuildValue("(Inn)", (unsigned)status, at, (Py_ssize_t)-1);
    }
    talmuiga_arguments_close(arguments);
    return answer;
}

static PyMethodDef methods[] = {
    {"open", open_by_tables, METH_VARARGS, "A formatter by tables and words, or a status."},
    {"open_skeleton", open_by_skeleton, METH_VARARGS, "A formatter by tables, a locale and a skeleton, or a status or a fault."},
    {"canonical", canonical, METH_VARARGS, "The canonical text of a skeleton, or a fault."},
    {"open_english", open_english, METH_NOARGS, "A formatter in plain English, or a status."},
    {"open_english_skeleton", open_english_by_skeleton, METH_VARARGS,
     "A formatter in English by a skeleton, or a status or a fault."},
    {"open_ranges", open_ranges, METH_VARARGS,
     "A formatter that writes ranges, by tables, a locale and a skeleton, or a status or a fault."},
    {"open_english_ranges", open_english_ranges, METH_VARARGS,
     "A formatter in English that writes ranges, by a skeleton, or a status or a fault."},
    {"range", range, METH_VARARGS, "What the range of two texts is formatted to, or a status."},
    {"read", read_back, METH_VARARGS, "The decimal that a text in UTF-8 shows, or a status and the byte of the fault."},
    {"fault", fault, METH_VARARGS, "Why tables are refused; an empty text where they aren't."},
    {"list", list, METH_VARARGS, "What tables hold of a kind, a name in each line, or a status."},
    {"one", (PyCFunction)(void (*)(void))one, METH_FASTCALL, "What a number is formatted to, or a status."},
    {"parts", parts, METH_VARARGS, "What a text is formatted to and its parts, in characters, or a status."},
    {"many", many, METH_VARARGS, "A list of what the numbers of a list are formatted to, or of statuses, and whether one is in it."},
    {"raw", raw, METH_VARARGS, "The same of the numbers of some bytes."},
    {"open_message", open_message, METH_VARARGS, "A message by tables, a locale and a text, or a status or a fault."},
    {"open_english_message", open_english_message, METH_VARARGS, "A message in English by a text, or a status or a fault."},
    {"names", message_names, METH_O, "The names of a message, where they stand, and their kinds."},
    {"places", message_places, METH_O, "The places of a message with a form of their own, where names and skeletons stand."},
    {"write", write_message, METH_VARARGS, "What a message writes with values, or a status and which name or which value."},
    {NULL, NULL, 0, NULL},
};

static struct PyModuleDef module = {
    PyModuleDef_HEAD_INIT, "talmuiga._library", "The library for C.", 0, methods, NULL, NULL, NULL, NULL};

PyMODINIT_FUNC PyInit__library(void) {
    return PyModule_Create(&module);
}
