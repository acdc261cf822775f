/* The calls of the package cose that are made most, by Python's stable ABI. Each takes what Python has checked, and
 * returns the bytes of the library's structs, which cose/_numbers.py reads, or objects that hold them, as those of
 * cose/_fields.py do. The lock of a block that is written to is held by Python, and errors are raised there. A table
 * has none: it is only read, by each call with a handle of its own. */
#define Py_LIMITED_API 0x03090000
#define PY_SSIZE_T_CLEAN
#include <Python.h>

#include "cose.h"

/* Bytes from which on Python's other threads run during a call: to let them costs as much as to read some hundred
 * bytes. */
enum { LONG = 4096 };

/* Bytes of Python's, which don't change and are held by who calls. */
struct slice {
    const char *at;
    Py_ssize_t length;
};

/* How a slice is passed to the library, and how it is parsed. */
#define PASSED(slice) (const uint8_t *)(slice).at, (size_t)(slice).length
#define PARSED(slice) &(slice).at, &(slice).length

/* What the library answers to a message: the input has a meaning where it is signed. */
struct answer {
    struct cose_message_verdict verdict;
    struct cose_signature_input input;
};

_Static_assert(offsetof(struct answer, input) == sizeof(struct cose_message_verdict), "the input follows the verdict");

/* Lets other threads of Python run during a call over so many bytes, where these are many. */
static PyThreadState *let_others_run(Py_ssize_t length)
{
    return length < LONG ? NULL : PyEval_SaveThread();
}

static void go_on(PyThreadState *thread)
{
    if (thread != NULL)
        PyEval_RestoreThread(thread);
}

/* A converter of PyArg_ParseTuple: the address of a block. */
static int to_address(PyObject *number, void *address)
{
    *(void **)address = PyLong_AsVoidPtr(number);
    return PyErr_Occurred() == NULL;
}

static PyObject *bytes_of(const void *structs, size_t length)
{
    return PyBytes_FromStringAndSize(structs, (Py_ssize_t)length);
}

static PyObject *bytes_of_answer(const struct answer *found)
{
    return bytes_of(found, found->verdict.status == COSE_SIGNED ? sizeof *found : sizeof found->verdict);
}

static struct cose_policy policy_of(long long now, unsigned leeway, struct slice audience)
{
    return (struct cose_policy){
        .now = now,
        .leeway = leeway,
        .has_audience = audience.at != NULL,
        .audience = (const uint8_t *)audience.at,
        .audience_length = (uint64_t)audience.length,
    };
}

static PyObject *verify(PyObject *module, PyObject *arguments)
{
    struct slice keys, aad, message;
    struct answer found;
    int large, kind;
    (void)module;
    if (!PyArg_ParseTuple(arguments, "y#py#iy#:verify", PARSED(keys), &large, PARSED(aad), &kind, PARSED(message)))
        return NULL;
    memset(&found, 0, sizeof found);
    PyThreadState *thread = let_others_run(message.length);
    (large ? cose_large_verify : cose_verify)(PASSED(keys), PASSED(aad), (enum cose_kind_number)kind, PASSED(message),
                                              &found.verdict, &found.input);
    go_on(thread);
    return bytes_of_answer(&found);
}

static PyObject *table_verify(PyObject *module, PyObject *arguments)
{
    struct cose_table table;
    struct slice aad, message;
    struct answer found;
    void *block;
    int kind;
    (void)module;
    if (!PyArg_ParseTuple(arguments, "O&y#iy#:table_verify", to_address, &block, PARSED(aad), &kind, PARSED(message)))
        return NULL;
    table.at = block;
    memset(&found, 0, sizeof found);
    PyThreadState *thread = let_others_run(message.length);
    cose_table_verify(&table, PASSED(aad), (enum cose_kind_number)kind, PASSED(message), &found.verdict, &found.input);
    go_on(thread);
    return bytes_of_answer(&found);
}

static PyObject *table_authenticate(PyObject *module, PyObject *arguments)
{
    struct cose_table table;
    struct slice message;
    struct answer found;
    void *block;
    (void)module;
    if (!PyArg_ParseTuple(arguments, "O&y#:table_authenticate", to_address, &block, PARSED(message)))
        return NULL;
    table.at = block;
    memset(&found, 0, sizeof found);
    PyThreadState *thread = let_others_run(message.length);
    cose_table_authenticate(&table, PASSED(message), &found.verdict, &found.input);
    go_on(thread);
    return bytes_of_answer(&found);
}

static PyObject *verify_cwt(PyObject *module, PyObject *arguments)
{
    struct slice keys, aad, audience, token;
    struct cose_claims_set claims;
    long long now;
    unsigned leeway;
    int large;
    (void)module;
    if (!PyArg_ParseTuple(arguments, "y#py#LIz#y#:verify_cwt", PARSED(keys), &large, PARSED(aad), &now, &leeway,
                          PARSED(audience), PARSED(token)))
        return NULL;
    struct cose_policy policy = policy_of(now, leeway, audience);
    memset(&claims, 0, sizeof claims);
    PyThreadState *thread = let_others_run(token.length);
    (large ? cose_large_verify_cwt : cose_verify_cwt)(PASSED(keys), PASSED(aad), &policy, PASSED(token), &claims);
    go_on(thread);
    return bytes_of(&claims, sizeof claims);
}

static PyObject *table_verify_cwt(PyObject *module, PyObject *arguments)
{
    struct cose_table table;
    struct slice aad, audience, token;
    struct cose_claims_set claims;
    long long now;
    unsigned leeway;
    void *block;
    (void)module;
    if (!PyArg_ParseTuple(arguments, "O&y#LIz#y#:table_verify_cwt", to_address, &block, PARSED(aad), &now, &leeway,
                          PARSED(audience), PARSED(token)))
        return NULL;
    table.at = block;
    struct cose_policy policy = policy_of(now, leeway, audience);
    memset(&claims, 0, sizeof claims);
    PyThreadState *thread = let_others_run(token.length);
    cose_table_verify_cwt(&table, PASSED(aad), &policy, PASSED(token), &claims);
    go_on(thread);
    return bytes_of(&claims, sizeof claims);
}

static PyObject *table_admit(PyObject *module, PyObject *arguments)
{
    struct cose_table table;
    struct cose_requirements requirements;
    struct slice stated, token;
    struct cose_claims_set claims;
    void *block;
    (void)module;
    if (!PyArg_ParseTuple(arguments, "O&y#y#:table_admit", to_address, &block, PARSED(stated), PARSED(token)))
        return NULL;
    if (stated.length != sizeof requirements) {
        PyErr_SetString(PyExc_ValueError, "requirements of another size");
        return NULL;
    }
    table.at = block;
    memcpy(&requirements, stated.at, sizeof requirements);
    memset(&claims, 0, sizeof claims);
    PyThreadState *thread = let_others_run(token.length);
    cose_table_admit(&table, &requirements, PASSED(token), &claims);
    go_on(thread);
    return bytes_of(&claims, sizeof claims);
}

/* Where a part of the payload lies in it. Where it isn't there, each bit of its length is set. */
struct span {
    uint64_t at, length;
};

/* What an answer says of claims without a confirmed key, in half as many bytes: where many tokens are verified, most of
 * the time under Python's lock is that of memory. */
struct brief {
    struct span payload, iss, sub, aud, cti;
    uint64_t aud_count;
    struct cose_date exp, nbf, iat;
};

/* The forms of a field of claims. */
enum form { PAYLOAD, TEXT, BYTES, DATE };

/* A field of claims with one value: its form, and its place. */
struct place {
    const char *name;
    enum form form;
    size_t at;
};

static const struct place places[] = {
    {"payload", PAYLOAD, offsetof(struct brief, payload)},
    {"iss", TEXT, offsetof(struct brief, iss)},
    {"sub", TEXT, offsetof(struct brief, sub)},
    {"exp", DATE, offsetof(struct brief, exp)},
    {"nbf", DATE, offsetof(struct brief, nbf)},
    {"iat", DATE, offsetof(struct brief, iat)},
    {"cti", BYTES, offsetof(struct brief, cti)},
};

enum { FIELDS = sizeof places / sizeof *places };

/* An object of the class Found, or of one derived from it: the bytes of a token or of a payload, the library's answer
 * where it has more than the brief one, and the fields that were read. */
struct found {
    PyObject ob_base;
    PyObject *token, *whole;
    PyObject *read[FIELDS];
    struct brief brief;
};

/* An object of the class Field: what reads a field of the objects of a class. */
struct field {
    PyObject ob_base;
    PyTypeObject *owner;
    size_t number;
};

/* The classes of this module. */
struct classes {
    PyTypeObject *found, *field;
};

/* Frees an object that refers to nothing any more. */
static void free_object(PyObject *self)
{
    PyTypeObject *kind = Py_TYPE(self);
    freefunc release = (freefunc)PyType_GetSlot(kind, Py_tp_free);
    release(self);
    Py_DECREF(kind);
}

static void forget(struct found *found)
{
    for (size_t i = 0; i < FIELDS; i++)
        Py_CLEAR(found->read[i]);
}

static void found_dealloc(PyObject *self)
{
    struct found *found = (struct found *)self;
    forget(found);
    Py_CLEAR(found->token);
    Py_CLEAR(found->whole);
    free_object(self);
}

static struct span span_of(const struct cose_range *range)
{
    return (struct span){range->at, range->present ? range->length : UINT64_MAX};
}

static struct cose_range range_of(const struct span *span)
{
    const int present = span->length != UINT64_MAX;
    return (struct cose_range){.at = span->at, .length = present ? span->length : 0, .present = (uint8_t)present};
}

static int has_more(const struct cose_claims_set *claims)
{
    return claims->status != COSE_AUTHENTIC || claims->cnf_crv != 0 || claims->cnf_kid.present;
}

static struct brief brief_of(const struct cose_claims_set *claims)
{
    return (struct brief){
        .payload = {claims->payload_at, claims->payload_length},
        .iss = span_of(&claims->iss),
        .sub = span_of(&claims->sub),
        .aud = span_of(&claims->aud),
        .cti = span_of(&claims->cti),
        .aud_count = claims->aud_count,
        .exp = claims->exp,
        .nbf = claims->nbf,
        .iat = claims->iat,
    };
}

static struct cose_claims_set claims_of(const struct brief *brief)
{
    return (struct cose_claims_set){
        .status = COSE_AUTHENTIC,
        .payload_at = brief->payload.at,
        .payload_length = brief->payload.length,
        .iss = range_of(&brief->iss),
        .sub = range_of(&brief->sub),
        .aud = range_of(&brief->aud),
        .cti = range_of(&brief->cti),
        .aud_count = brief->aud_count,
        .exp = brief->exp,
        .nbf = brief->nbf,
        .iat = brief->iat,
    };
}

static PyObject *get_token(PyObject *self, void *closure)
{
    PyObject *token = ((struct found *)self)->token;
    (void)closure;
    if (token == NULL)
        return bytes_of("", 0);
    Py_INCREF(token);
    return token;
}

static PyObject *get_answer(PyObject *self, void *closure)
{
    const struct found *found = (const struct found *)self;
    (void)closure;
    if (found->token == NULL)
        return bytes_of("", 0);
    if (found->whole == NULL) {
        const struct cose_claims_set claims = claims_of(&found->brief);
        return bytes_of(&claims, sizeof claims);
    }
    Py_INCREF(found->whole);
    return found->whole;
}

static int is_bytes(PyObject *value)
{
    if (value != NULL && PyBytes_Check(value))
        return 1;
    PyErr_SetString(PyExc_TypeError, "it should be bytes");
    return 0;
}

/* Puts an object into the place of another one. */
static void replace(PyObject **place, PyObject *object)
{
    PyObject *former = *place;
    Py_XINCREF(object);
    *place = object;
    Py_XDECREF(former);
}

static int set_token(PyObject *self, PyObject *value, void *closure)
{
    struct found *found = (struct found *)self;
    (void)closure;
    if (!is_bytes(value))
        return -1;
    forget(found);
    replace(&found->token, PyBytes_Size(value) != 0 ? value : NULL);
    return 0;
}

/* The struct in the bytes of an answer. No bytes are none. */
static int to_claims(PyObject *bytes, struct cose_claims_set *claims)
{
    const Py_ssize_t length = PyBytes_Size(bytes);
    if (length != 0 && length != sizeof *claims) {
        PyErr_SetString(PyExc_ValueError, "an answer of another size");
        return 0;
    }
    memset(claims, 0, sizeof *claims);
    memcpy(claims, PyBytes_AsString(bytes), (size_t)length);
    return 1;
}

static int set_answer(PyObject *self, PyObject *value, void *closure)
{
    struct found *found = (struct found *)self;
    struct cose_claims_set claims;
    (void)closure;
    if (!is_bytes(value) || !to_claims(value, &claims))
        return -1;
    forget(found);
    found->brief = brief_of(&claims);
    replace(&found->whole, has_more(&claims) ? value : NULL);
    return 0;
}

static PyGetSetDef found_attributes[] = {
    {"_token", get_token, set_token, NULL, NULL},
    {"_found", get_answer, set_answer, NULL, NULL},
    {NULL, NULL, NULL, NULL, NULL},
};

static PyType_Slot found_slots[] = {
    {Py_tp_doc, "The bytes of a token or of a payload, and those of the library's answer about it."},
    {Py_tp_dealloc, found_dealloc},
    {Py_tp_getset, found_attributes},
    {0, NULL},
};

static PyType_Spec found_spec = {
    .name = "cose._extension.Found",
    .basicsize = sizeof(struct found),
    .flags = Py_TPFLAGS_DEFAULT | Py_TPFLAGS_BASETYPE,
    .slots = found_slots,
};

/* A part of the payload, or all of it. Where it is all of the bytes, nothing is copied. */
static PyObject *part_of(const struct found *found, const struct span *span, enum form form)
{
    const uint64_t size = (uint64_t)PyBytes_Size(found->token);
    const uint64_t payload = form != PAYLOAD ? found->brief.payload.at : 0;
    if (payload > size || span->at > size - payload || span->length > size - payload - span->at) {
        PyErr_SetString(PyExc_ValueError, "an answer about other bytes");
        return NULL;
    }
    const char *first = PyBytes_AsString(found->token) + payload + span->at;
    if (form == TEXT)
        return PyUnicode_DecodeUTF8(first, (Py_ssize_t)span->length, NULL);
    if (span->length < size || !PyBytes_CheckExact(found->token))
        return PyBytes_FromStringAndSize(first, (Py_ssize_t)span->length);
    Py_INCREF(found->token);
    return found->token;
}

static PyObject *number_of(const struct cose_date *date)
{
    PyObject *number = PyLong_FromUnsignedLongLong(date->number);
    if (number == NULL || !date->negative)
        return number;
    PyObject *negative = PyNumber_Invert(number);
    Py_DECREF(number);
    return negative;
}

/* What a field has, which is None where the claim isn't there. */
static PyObject *value_of(const struct found *found, const struct place *place)
{
    const void *at = (const char *)&found->brief + place->at;
    const struct span *span = at;
    const struct cose_date *date = at;
    if (place->form == DATE ? !date->present : span->length == UINT64_MAX)
        Py_RETURN_NONE;
    return place->form == DATE ? number_of(date) : part_of(found, span, place->form);
}

/* A field of an object, which is read where it is asked for first; of a class, what it is by default, if anything. */
static PyObject *field_get(PyObject *self, PyObject *claims, PyObject *kind)
{
    const struct field *field = (const struct field *)self;
    const struct place *place = &places[field->number];
    struct found *found = (struct found *)claims;
    (void)kind;
    if (field->owner == NULL || (claims != NULL && !PyObject_TypeCheck(claims, field->owner))) {
        PyErr_SetString(PyExc_TypeError, "a field of other objects");
        return NULL;
    }
    if (claims == NULL && place->form != PAYLOAD)
        Py_RETURN_NONE;
    if (claims == NULL || found->token == NULL) {
        PyErr_SetString(PyExc_AttributeError, place->name);
        return NULL;
    }
    PyObject **read = &found->read[field->number];
    if (*read == NULL)
        *read = value_of(found, place);
    Py_XINCREF(*read);
    return *read;
}

static void field_dealloc(PyObject *self)
{
    Py_CLEAR(((struct field *)self)->owner);
    free_object(self);
}

static PyType_Slot field_slots[] = {
    {Py_tp_dealloc, field_dealloc},
    {Py_tp_descr_get, field_get},
    {0, NULL},
};

static PyType_Spec field_spec = {
    .name = "cose._extension.Field",
    .basicsize = sizeof(struct field),
    .flags = Py_TPFLAGS_DEFAULT,
    .slots = field_slots,
};

static PyObject *field(PyObject *module, PyObject *arguments)
{
    const struct classes *classes = PyModule_GetState(module);
    const char *name;
    size_t number = 0;
    if (!PyArg_ParseTuple(arguments, "s:field", &name))
        return NULL;
    while (number < FIELDS && strcmp(places[number].name, name) != 0)
        number++;
    if (number == FIELDS)
        return PyErr_Format(PyExc_KeyError, "%s", name);
    struct field *made = (struct field *)PyType_GenericAlloc(classes->field, 0);
    if (made != NULL) {
        Py_INCREF(classes->found);
        made->owner = classes->found;
        made->number = number;
    }
    return (PyObject *)made;
}

/* Whether it is a class of Found's, whose objects are known to the collector of cycles. */
static int is_class_of_found(const struct classes *classes, PyTypeObject *kind)
{
    if (PyType_IsSubtype(kind, classes->found) && PyType_HasFeature(kind, Py_TPFLAGS_HAVE_GC))
        return 1;
    PyErr_SetString(PyExc_TypeError, "it should be a class derived from Found");
    return 0;
}

/* An object of a class of Found's. It refers to bytes and texts alone, and claims are frozen: it is in no cycle, and
 * the collector need not visit each of many again and again. */
static PyObject *made_of(PyTypeObject *kind, PyObject *token, const struct cose_claims_set *claims)
{
    PyObject *made = PyType_GenericAlloc(kind, 0);
    struct found *found = (struct found *)made;
    if (made == NULL)
        return NULL;
    replace(&found->token, token);
    found->brief = brief_of(claims);
    PyObject_GC_UnTrack(made);
    if (has_more(claims) && (found->whole = bytes_of(claims, sizeof *claims)) == NULL)
        Py_CLEAR(made);
    return made;
}

static PyObject *made(PyObject *module, PyObject *arguments)
{
    struct cose_claims_set claims;
    PyTypeObject *kind;
    PyObject *token, *answer;
    if (!PyArg_ParseTuple(arguments, "O!SS:made", &PyType_Type, &kind, &token, &answer) ||
        !is_class_of_found(PyModule_GetState(module), kind) || !to_claims(answer, &claims))
        return NULL;
    return made_of(kind, token, &claims);
}

/* A token, and its claims. */
struct job {
    struct slice token;
    struct cose_claims_set claims;
};

/* The tokens of a tuple. It returns whether it is no error of Python's. */
static int to_jobs(PyObject *tokens, struct job *jobs)
{
    const Py_ssize_t count = PyTuple_Size(tokens);
    for (Py_ssize_t i = 0; i < count; i++) {
        PyObject *token = PyTuple_GetItem(tokens, i);
        jobs[i].token.at = PyBytes_AsString(token);
        if (jobs[i].token.at == NULL)
            return 0;
        jobs[i].token.length = PyBytes_Size(token);
    }
    return 1;
}

static int append_number(PyObject *list, Py_ssize_t number)
{
    PyObject *object = PyLong_FromSsize_t(number);
    const int is_there = object != NULL && PyList_Append(list, object) == 0;
    Py_XDECREF(object);
    return is_there;
}

/* What each token of a tuple gives, and the places of those that aren't admitted. */
static PyObject *answers_of(PyObject *tokens, const struct job *jobs, PyTypeObject *kind)
{
    const Py_ssize_t count = PyTuple_Size(tokens);
    PyObject *answers = PyList_New(count), *others = PyList_New(0);
    int is_well = answers != NULL && others != NULL;
    for (Py_ssize_t i = 0; is_well && i < count; i++) {
        const struct cose_claims_set *claims = &jobs[i].claims;
        const int is_admitted = claims->status == COSE_AUTHENTIC;
        PyObject *answer =
            is_admitted ? made_of(kind, PyTuple_GetItem(tokens, i), claims) : bytes_of(claims, sizeof *claims);
        is_well = answer != NULL && PyList_SetItem(answers, i, answer) == 0;
        is_well = is_well && (is_admitted || append_number(others, i));
    }
    PyObject *both = is_well ? PyTuple_Pack(2, answers, others) : NULL;
    Py_XDECREF(answers);
    Py_XDECREF(others);
    return both;
}

/* Whether the tags that a token begins with are those of one that is signed (RFC 8392 section 6): it is verified as a
 * message, by itself, so that it is read once. */
static int says_signed(struct slice token)
{
    static const char tags[] = {'\xd8', '\x3d', '\xd2'};
    return (token.length >= 1 && token.at[0] == tags[2]) ||
           (token.length >= 3 && memcmp(token.at, tags, sizeof tags) == 0);
}

static PyObject *table_verify_cwts(PyObject *module, PyObject *arguments)
{
    struct cose_table table;
    struct slice aad, audience;
    PyTypeObject *kind;
    PyObject *tokens, *answers = NULL;
    long long now;
    unsigned leeway;
    void *block;
    if (!PyArg_ParseTuple(arguments, "O&y#LIz#O!O!:table_verify_cwts", to_address, &block, PARSED(aad), &now, &leeway,
                          PARSED(audience), &PyTuple_Type, &tokens, &PyType_Type, &kind) ||
        !is_class_of_found(PyModule_GetState(module), kind))
        return NULL;
    table.at = block;
    struct cose_policy policy = policy_of(now, leeway, audience);
    const Py_ssize_t count = PyTuple_Size(tokens);
    struct job *jobs = PyMem_New(struct job, (size_t)count);
    if (jobs == NULL)
        return PyErr_NoMemory();
    if (to_jobs(tokens, jobs)) {
        PyThreadState *thread = PyEval_SaveThread();
        for (Py_ssize_t i = 0; i < count; i++) {
            memset(&jobs[i].claims, 0, sizeof jobs[i].claims);
            if (says_signed(jobs[i].token))
                jobs[i].claims.status = COSE_SIGNED;
            else
                cose_table_verify_cwt(&table, PASSED(aad), &policy, PASSED(jobs[i].token), &jobs[i].claims);
        }
        PyEval_RestoreThread(thread);
        answers = answers_of(tokens, jobs, kind);
    }
    PyMem_Free(jobs);
    return answers;
}

static PyObject *feed(PyObject *module, PyObject *arguments)
{
    struct slice piece;
    struct cose_fed fed;
    void *block;
    int large;
    (void)module;
    if (!PyArg_ParseTuple(arguments, "O&py#:feed", to_address, &block, &large, PARSED(piece)))
        return NULL;
    struct cose_verifier verifier = {.at = block};
    struct cose_large_verifier large_verifier = {.at = block};
    memset(&fed, 0, sizeof fed);
    PyThreadState *thread = let_others_run(piece.length);
    if (large)
        cose_large_feed(&large_verifier, PASSED(piece), &fed);
    else
        cose_feed(&verifier, PASSED(piece), &fed);
    go_on(thread);
    return bytes_of(&fed, sizeof fed);
}

/* The number in so many bytes, the first of which is the most significant. */
static uint64_t number_in(const uint8_t *bytes, size_t width)
{
    uint64_t number = 0;
    for (size_t i = 0; i < width; i++)
        number = number << 8 | bytes[i];
    return number;
}

/* The place after the item at a place (RFC 8949 section 3); or 0 where there is no whole one of definite length. */
static size_t end_of_item(const uint8_t *data, size_t length, size_t at)
{
    uint64_t left = 1;
    while (left > 0 && at < length) {
        const unsigned major = data[at] >> 5, low = data[at] & 31;
        const size_t width = low < 24 ? 0 : (size_t)1 << (low - 24);
        at++;
        if (low > 27 || width > length - at)
            return 0;
        const uint64_t argument = low < 24 ? low : number_in(data + at, width);
        at += width;
        left--;
        if (major >= 2 && major <= 5 && argument > length - at)
            return 0;
        if (major == 2 || major == 3)
            at += (size_t)argument;
        else if (major == 4 || major == 5)
            left += argument * (major - 3);
        else if (major == 6)
            left++;
        /* each item has a byte at least */
        if (left > length - at)
            return 0;
    }
    return left == 0 ? at : 0;
}

static PyObject *items(PyObject *module, PyObject *arguments)
{
    struct slice data;
    Py_ssize_t at, most;
    (void)module;
    if (!PyArg_ParseTuple(arguments, "y#nn:items", PARSED(data), &at, &most))
        return NULL;
    PyObject *found = PyList_New(0);
    while (found != NULL && at >= 0 && at < data.length && PyList_Size(found) < most) {
        const Py_ssize_t end = (Py_ssize_t)end_of_item(PASSED(data), (size_t)at);
        const Py_ssize_t length = (end != 0 ? end : data.length) - at;
        PyObject *item = PyBytes_FromStringAndSize(data.at + at, length);
        if (item == NULL || PyList_Append(found, item) != 0)
            Py_CLEAR(found);
        Py_XDECREF(item);
        at += length;
    }
    PyObject *tuple = found != NULL ? PyList_AsTuple(found) : NULL;
    Py_XDECREF(found);
    return tuple;
}

static PyMethodDef calls[] = {
    {"verify", verify, METH_VARARGS, "cose_verify, or cose_large_verify."},
    {"table_verify", table_verify, METH_VARARGS, "cose_table_verify."},
    {"table_authenticate", table_authenticate, METH_VARARGS, "cose_table_authenticate."},
    {"table_admit", table_admit, METH_VARARGS, "cose_table_admit, under the bytes of struct cose_requirements."},
    {"verify_cwt", verify_cwt, METH_VARARGS, "cose_verify_cwt, or cose_large_verify_cwt."},
    {"table_verify_cwt", table_verify_cwt, METH_VARARGS, "cose_table_verify_cwt."},
    {"table_verify_cwts", table_verify_cwts, METH_VARARGS,
     "cose_table_verify_cwt of each token of a tuple: what each gives, and which aren't admitted."},
    {"field", field, METH_VARARGS, "What reads a field with one value."},
    {"made", made, METH_VARARGS, "An object of a class, of a token or a payload and the library's answer about it."},
    {"feed", feed, METH_VARARGS, "cose_feed, or cose_large_feed."},
    {"items", items, METH_VARARGS, "Items of a sequence from a place on, so many at most."},
    {NULL, NULL, 0, NULL},
};

/* A class of this module. */
static PyTypeObject *added(PyObject *module, PyType_Spec *spec)
{
    PyObject *made = PyType_FromSpec(spec);
    if (made != NULL && PyModule_AddType(module, (PyTypeObject *)made) != 0)
        Py_CLEAR(made);
    return (PyTypeObject *)made;
}

static int add_classes(PyObject *module)
{
    struct classes *classes = PyModule_GetState(module);
    classes->found = added(module, &found_spec);
    classes->field = added(module, &field_spec);
    return classes->found != NULL && classes->field != NULL ? 0 : -1;
}

static int visit_classes(PyObject *module, visitproc visit, void *arg)
{
    struct classes *classes = PyModule_GetState(module);
    Py_VISIT(classes->found);
    Py_VISIT(classes->field);
    return 0;
}

static int clear_classes(PyObject *module)
{
    struct classes *classes = PyModule_GetState(module);
    Py_CLEAR(classes->found);
    Py_CLEAR(classes->field);
    return 0;
}

static PyModuleDef_Slot module_slots[] = {
    {Py_mod_exec, add_classes},
    {0, NULL},
};

static struct PyModuleDef definition = {
    .m_base = PyModuleDef_HEAD_INIT,
    .m_name = "cose._extension",
    .m_size = sizeof(struct classes),
    .m_methods = calls,
    .m_slots = module_slots,
    .m_traverse = visit_classes,
    .m_clear = clear_classes,
};

PyMODINIT_FUNC PyInit__extension(void)
{
    return PyModuleDef_Init(&definition);
}
