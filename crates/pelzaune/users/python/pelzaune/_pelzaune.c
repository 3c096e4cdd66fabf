/* The extension module: texts to Python's dates, times and numbers, and back. */
#include "columns.h"
#include "describing.h"
#include "formatting.h"
#include "many.h"

/* Python has the years 1 to 9999, and raises an error for any other. */
static inline int has_year(int32_t year)
{
    if (year >= 1 && year <= 9999) return 1;
    raise(parse_error, "year is out of the range 1 to 9999 of datetime", PyUnicode_FromString("year"));
    return 0;
}

/* Python's zone of an offset of less than a day. A table caches the last zone of each slot. */
static PyObject *zone_of(int32_t offset)
{
    static struct { PyObject *zone; int32_t offset; } kept[128];
    if (offset == 0) return Py_NewRef(PyDateTime_TimeZone_UTC);
    if (offset <= -86400 || offset >= 86400)
        return raise(parse_error, "offset hour is out of the range of datetime", PyUnicode_FromString("offset hour"));
    size_t place = (size_t)(uint32_t)((offset + 86400) / 900) % 128;
    if (kept[place].zone && kept[place].offset == offset) return Py_NewRef(kept[place].zone);
    PyObject *delta = PyDelta_FromDSU(0, offset, 0);
    PyObject *zone = delta ? PyTimeZone_FromOffset(delta) : NULL;
    Py_XDECREF(delta);
    if (zone) {
        kept[place].offset = offset;
        Py_XSETREF(kept[place].zone, Py_NewRef(zone));
    }
    return zone;
}

static PyObject *datetime_of(const pelzaune_moment *m, PyObject *zone)
{
    if (!zone || !has_year(m->year)) {
        Py_XDECREF(zone);
        return NULL;
    }
    PyObject *value = PyDateTimeAPI->DateTime_FromDateAndTime(m->year, m->month, m->day, m->hour, m->minute, m->second,
        (int)(m->nanosecond / 1000), zone, PyDateTimeAPI->DateTimeType);
    Py_DECREF(zone);
    return value;
}

/* A date and time without an offset becomes a datetime without a zone. */
static PyObject *naive_of(const pelzaune_local *l)
{
    pelzaune_moment shown = { l->year, l->nanosecond, 0, l->month, l->day, l->hour, l->minute, l->second };
    return datetime_of(&shown, Py_NewRef(Py_None));
}

/* Whether a text of ISO 8601 has a T, and after it no byte that starts an offset. */
static inline int has_no_offset(const question *asked)
{
    if (asked->held || asked->number != PELZAUNE_ISO8601) return 0;
    for (size_t k = asked->length; k-- > 0;) {
        uint8_t byte = asked->bytes[k];
        if (byte >= '0' && byte <= ':') continue; /* a digit or a colon */
        if (byte == 'T') return 1;
        if (byte == 'Z' || byte == '+' || byte == '-') return 0;
    }
    return 0;
}

static PyObject *parse(GIVEN)
{
    question asked;
    pelzaune_moment m;
    pelzaune_local l;
    (void)self;
    if (!ask("parse", given, count, named, &asked)) return NULL;
    if (has_no_offset(&asked) && ASK(local, asked, &l) == PELZAUNE_OK) return naive_of(&l);
    pelzaune_status status = ASK(moment, asked, &m);
    if (status == PELZAUNE_OK) return datetime_of(&m, zone_of(m.offset));
    return status == PELZAUNE_INSUFFICIENT && ASK(local, asked, &l) == PELZAUNE_OK ? naive_of(&l)
        : refuse(status, NEEDS_MOMENT, &asked);
}

static PyObject *date_of(const pelzaune_date *d)
{
    return has_year(d->year) ? PyDate_FromDate(d->year, d->month, d->day) : NULL;
}

static PyObject *time_of(const pelzaune_time *t)
{
    return PyTime_FromTime(t->hour, t->minute, t->second, (int)(t->nanosecond / 1000));
}

static PyObject *parse_date(GIVEN)
{
    question asked;
    pelzaune_date d;
    (void)self;
    if (!ask("parse_date", given, count, named, &asked)) return NULL;
    pelzaune_status status = ASK(date, asked, &d);
    return status == PELZAUNE_OK ? date_of(&d) : refuse(status, PELZAUNE_NEEDS_DATE, &asked);
}

static PyObject *parse_time(GIVEN)
{
    question asked;
    pelzaune_time t;
    (void)self;
    if (!ask("parse_time", given, count, named, &asked)) return NULL;
    pelzaune_status status = ASK(time, asked, &t);
    return status == PELZAUNE_OK ? time_of(&t) : refuse(status, PELZAUNE_NEEDS_TIME, &asked);
}

static PyObject *parse_parts(GIVEN)
{
    question asked;
    pelzaune_parts p;
    (void)self;
    if (!ask("parse_parts", given, count, named, &asked)) return NULL;
    pelzaune_status status = ASK(parts, asked, &p);
    if (status != PELZAUNE_OK) return refuse(status, 0, &asked);
    pelzaune_status each[] = { p.date_status, p.time_status, p.offset_status };
    for (int k = 0; k < 3; k++)
        if (each[k] != PELZAUNE_OK && each[k] != PELZAUNE_INSUFFICIENT) return refuse(each[k], 0, &asked);
    if (each[0] && each[1] && each[2]) return raise(parse_error, "the text has no complete date, time or offset", Py_NewRef(Py_None));
    PyObject *date = p.date_status ? Py_NewRef(Py_None) : date_of(&p.date);
    /* After a raised error no more Python code is called. */
    PyObject *time = !date ? NULL : p.time_status ? Py_NewRef(Py_None) : time_of(&p.time);
    PyObject *zone = !time ? NULL : p.offset_status ? Py_NewRef(Py_None) : zone_of(p.offset);
    PyObject *parts = zone ? PyTuple_Pack(3, date, time, zone) : NULL;
    Py_XDECREF(date);
    Py_XDECREF(time);
    Py_XDECREF(zone);
    return parts;
}

static PyObject *unix_ns(GIVEN)
{
    question asked;
    pelzaune_instant i;
    int64_t nanoseconds;
    (void)self;
    if (!ask("unix_ns", given, count, named, &asked)) return NULL;
    pelzaune_status status = ASK(nanoseconds, asked, &nanoseconds);
    if (status == PELZAUNE_OK) return PyLong_FromLongLong(nanoseconds);
    if (status != PELZAUNE_TOO_WIDE || ASK(instant, asked, &i) != PELZAUNE_OK) return refuse(status, NEEDS_MOMENT, &asked);
    PyObject *seconds = PyLong_FromLongLong(i.seconds), *billion = PyLong_FromLong(1000000000);
    PyObject *whole = seconds && billion ? PyNumber_Multiply(seconds, billion) : NULL;
    PyObject *rest = PyLong_FromUnsignedLong(i.nanoseconds);
    PyObject *sum = whole && rest ? PyNumber_Add(whole, rest) : NULL;
    Py_XDECREF(seconds);
    Py_XDECREF(billion);
    Py_XDECREF(whole);
    Py_XDECREF(rest);
    return sum;
}

#define CALL(name, signature, doc) { #name, (PyCFunction)(void (*)(void))name, METH_FASTCALL | METH_KEYWORDS, #name signature "\n--\n\n" doc }
#define OF_TEXT "(text, format=RFC3339)"

static PyMethodDef methods[] = {
    CALL(parse, OF_TEXT, "The datetime of a whole text.\n\n"
        "A text of ISO 8601 without an offset has a datetime without a zone. Digits after the microsecond are dropped, and\n"
        "a leap second is the last microsecond before it. Raises ParseError, also outside the years 1 to 9999."),
    CALL(parse_date, OF_TEXT, "The date of a whole text. Raises ParseError, also outside the years 1 to 9999."),
    CALL(parse_time, OF_TEXT, "The time of a whole text, without a zone. Digits after the microsecond are dropped. Raises ParseError."),
    CALL(parse_parts, OF_TEXT, "The date, the time and the zone of a whole text, each None if the text has too little of it.\n\n"
        "Raises ParseError, also if the text has too little of each."),
    CALL(unix_ns, OF_TEXT, "The nanoseconds from 1970-01-01T00:00:00Z to the instant of a whole text, which needs an offset.\n\n"
        "They are exact, and of any size. Raises ParseError."),
    CALL(column, "(text, format=RFC3339, offset=None)", "The nanoseconds of each line of a text, as array('q'). A rejected line has NO_COUNT.\n\n"
        "The text is a str, or any contiguous buffer. A line ends with LF or CR LF, which are optional after the last one. A\n"
        "line without an offset has that of the argument: a tzinfo, an offset such as '+05:30', or the name of a time zone.\n"
        "Other threads run meanwhile, and signals are handled. Raises ValueError for a bad format."),
    CALL(column_into, "(text, out, format=RFC3339, offset=None)", "Stores the nanoseconds of each line of a text in a buffer.\n\n"
        "The buffer is writable, has signed numbers of 64 bits, and doesn't overlap the text. As many lines are parsed as it\n"
        "has numbers. Returns how many lines the text has, and how many of the parsed ones are rejected and have NO_COUNT.\n"
        "Raises ValueError for a bad format, and for a buffer that overlaps the text."),
    CALL(parse_many, "(texts, format=RFC3339, errors='raise', offset=None)", "The nanoseconds of each text of an iterable, as array('q').\n\n"
        "The texts are str or bytes, in a list or any other iterable, an array of numpy (of U, S or object) or a Series of\n"
        "pandas. Other threads run while they are parsed. A text without an offset has that of the argument, as in column.\n"
        "A rejected text, and one whose nanoseconds don't fit 64 bits, raises ParseError with its index as `text_index`. With\n"
        "errors='none' or 'coerce' it has NO_COUNT, and the result is a pair: the array, and another with the indices of\n"
        "such texts. An object that isn't a text raises TypeError."),
    CALL(_parse_present, "(texts, format, errors, offset, missing)", "As parse_many, if some objects stand for a missing text: for pelzaune.pandas."),
    CALL(format_datetime, "(value, format=RFC3339, zone=None)", "The text of a datetime that has a zone.\n\n"
        "The text is in another zone, if there is an argument: a tzinfo, an offset such as '+05:30', or the name of a time\n"
        "zone. A Timestamp of pandas keeps its nanoseconds. By a description the text has all optional items and the first\n"
        "item of each choice. Raises FormatError if the datetime has no text in that format, or if the text by a description\n"
        "has more than 1024 bytes or isn't UTF-8."),
    CALL(format_many, "(values, format=RFC3339, zone=None)", "The texts of the datetimes of an iterable, as a list, each as by format_datetime.\n\n"
        "The first datetime without a text raises FormatError with its index as `text_index`. Anything else than a datetime\n"
        "raises TypeError. Other threads run meanwhile, and signals are handled."),
    { NULL, NULL, 0, NULL },
};

static struct PyModuleDef module = { PyModuleDef_HEAD_INIT, "pelzaune._pelzaune", NULL, -1, methods, NULL, NULL, NULL, NULL };

/* Adds an exception with these attributes, or, if they are NULL, with those of its base. */
static PyObject *add_error(PyObject *made, const char *name, PyObject *base, const char *doc, PyObject *attributes)
{
    char whole[64];
    snprintf(whole, sizeof whole, "pelzaune.%s", name);
    PyObject *error = PyErr_Occurred() ? NULL : PyErr_NewExceptionWithDoc(whole, doc, base, attributes);
    Py_XDECREF(attributes);
    if (error && PyModule_AddObjectRef(made, name, error)) Py_CLEAR(error);
    return error;
}

static int add_names(PyObject *made)
{
    parse_error = add_error(made, "ParseError", PyExc_ValueError,
        "The error of a rejected text. `component` is the name of the component that it is about, and `index` that of the byte\n"
        "at which the text fails; or None. A date that the calendar hasn't has no index. `text_index` is the index of a text\n"
        "of many.",
        Py_BuildValue("{s:O,s:O,s:O}", "component", Py_None, "index", Py_None, "text_index", Py_None));
    description_error = !parse_error ? NULL : add_error(made, "DescriptionError", parse_error,
        "The error of a malformed description. `index` is that of its first fault, or None if it is too long.",
        NULL);
    format_error = add_error(made, "FormatError", PyExc_ValueError,
        "The error of a datetime that a format can't write. `component` is the name of the component that it can't, or None,\n"
        "and `text_index` the index of a text of many.",
        Py_BuildValue("{s:O,s:O}", "component", Py_None, "text_index", Py_None));
    if (!parse_error || !description_error || !format_error || add_description(made)) return -1;
    PyObject *arrays = PyImport_ImportModule("array");
    array_of_q = arrays ? PyObject_CallMethod(arrays, "array", "s", "q") : NULL;
    PyObject *least = PyLong_FromLongLong(PELZAUNE_NO_COUNT);
    frombytes = PyUnicode_InternFromString("frombytes");
    int failed = !array_of_q || !frombytes || !least || PyModule_AddObjectRef(made, "NO_COUNT", least);
    Py_XDECREF(arrays);
    Py_XDECREF(least);
    return failed || make_names() || add_formats(made);
}

/* Whether the processor has the instructions of the library, which are those of x86-64-v2. */
static int has_instructions(void)
{
#ifdef __x86_64__
    __builtin_cpu_init();
    return __builtin_cpu_supports("ssse3") && __builtin_cpu_supports("sse4.2") && __builtin_cpu_supports("popcnt");
#else
    return 1;
#endif
}

PyMODINIT_FUNC PyInit__pelzaune(void)
{
    if (!has_instructions()) {
        PyErr_SetString(PyExc_ImportError, "pelzaune requires an x86-64-v2 processor");
        return NULL;
    }
    PyDateTime_IMPORT;
    if (!PyDateTimeAPI) return NULL;
    if (pelzaune_version() >> 8 != PELZAUNE_VERSION >> 8) {
        PyErr_SetString(PyExc_ImportError, "libpelzaune.a has another interface");
        return NULL;
    }
    PyObject *made = PyModule_Create(&module);
    if (made && add_names(made)) {
        Py_DECREF(made);
        return NULL;
    }
    return made;
}
