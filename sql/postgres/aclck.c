/* Functions of PostgreSQL over libaclck (docs/reference/database.md).
 *
 * Each function reads its arguments, makes one call of the library, and shows the answer. The memory is PostgreSQL's:
 * libaclck holds none between calls, so that an error, which leaves a function by a jump, loses nothing. Names are text
 * in a database whose encoding is UTF8, and otherwise bytea; both have the same bytes, and the functions here take
 * either.
 */
#include "postgres.h"

#include "access/htup_details.h"
#include "catalog/pg_type.h"
#include "fmgr.h"
#include "funcapi.h"
#include "miscadmin.h"
#include "utils/array.h"
#include "utils/builtins.h"
#include "utils/tuplestore.h"

#include "../common/answers.h"

PG_MODULE_MAGIC;

/* ---- errors */

/* Raises the error for the status of a call that failed. */
static void pg_attribute_noreturn() failed(enum aclck_status status, const aclck_fault *fault, enum source source)
{
    int code = source == A_TEXT ? ERRCODE_INVALID_TEXT_REPRESENTATION : ERRCODE_INVALID_BINARY_REPRESENTATION;
    if (status == ACLCK_REFUSED)
        ereport(ERROR, (errcode(code),
                        errmsg("%s refused: %s", refused_what(source, fault), reason_of(fault, source).text)));
    if (status == ACLCK_BAD_ARGUMENT)
        ereport(ERROR, (errcode(ERRCODE_INVALID_PARAMETER_VALUE),
                        errmsg("a name is empty, or a number means nothing")));
    ereport(ERROR, (errcode(ERRCODE_OUT_OF_MEMORY), errmsg("out of memory")));
}

/* ---- arguments */

static aclck_bytes bytes_of(struct varlena *value)
{
    return aclck_bytes_of(VARDATA_ANY(value), VARSIZE_ANY_EXHDR(value));
}

static aclck_bytes bytes_at(FunctionCallInfo fcinfo, int place)
{
    return bytes_of(PG_DETOAST_DATUM_PACKED(PG_GETARG_DATUM(place)));
}

/* Returns a number of 32 bits without a sign. A negative number has the high bits, which the library refuses. */
static uint32_t number_at(FunctionCallInfo fcinfo, int place)
{
    return (uint32_t) PG_GETARG_INT32(place);
}

static uint32_t id_of(int64 number)
{
    if (number < 0 || number > UINT32_MAX)
        ereport(ERROR, (errcode(ERRCODE_NUMERIC_VALUE_OUT_OF_RANGE), errmsg("an id is from 0 to 4294967294")));
    return (uint32_t) number;
}

/* Returns the values of an array, none of which may be NULL. */
static Datum *values_at(FunctionCallInfo fcinfo, int place, size_t *count)
{
    ArrayType *array = PG_GETARG_ARRAYTYPE_P(place);
    Oid type = ARR_ELEMTYPE(array);
    Datum *values;
    int number;
    if (array_contains_nulls(array))
        ereport(ERROR, (errcode(ERRCODE_NULL_VALUE_NOT_ALLOWED), errmsg("an array of names or ids has no NULL")));
    if (type == INT8OID)
        deconstruct_array(array, type, 8, FLOAT8PASSBYVAL, TYPALIGN_DOUBLE, &values, NULL, &number);
    else
        deconstruct_array(array, type, -1, false, TYPALIGN_INT, &values, NULL, &number);
    *count = (size_t) number;
    return values;
}

static aclck_requester requester_at(FunctionCallInfo fcinfo, int user, int groups)
{
    size_t count;
    Datum *values = values_at(fcinfo, groups, &count);
    aclck_bytes *each = palloc((count + 1) * sizeof *each);
    for (size_t i = 0; i < count; i++)
        each[i] = bytes_of(PG_DETOAST_DATUM_PACKED(values[i]));
    return aclck_requester_of(bytes_at(fcinfo, user), each, count);
}

static aclck_object object_at(FunctionCallInfo fcinfo, int place)
{
    aclck_object object;
    object.owner = bytes_at(fcinfo, place);
    object.group = bytes_at(fcinfo, place + 1);
    return object;
}

static aclck_question question_at(FunctionCallInfo fcinfo, int place)
{
    aclck_question question;
    question.mask = (enum aclck_right) number_at(fcinfo, place);
    question.options = ACLCK_FULL;
    return question;
}

/* The question is that of acl_posix_grants: owner, owning group, user, groups, and what is asked. */
static aclck_posix_question posix_question_at(FunctionCallInfo fcinfo)
{
    aclck_posix_question question;
    Datum *values = values_at(fcinfo, 4, &question.ngroups);
    uint32_t *groups = palloc((question.ngroups + 1) * sizeof *groups);
    for (size_t i = 0; i < question.ngroups; i++)
        groups[i] = id_of(DatumGetInt64(values[i]));
    question.owner = id_of(PG_GETARG_INT64(1));
    question.group = id_of(PG_GETARG_INT64(2));
    question.user = id_of(PG_GETARG_INT64(3));
    question.want = number_at(fcinfo, 5);
    question.groups = groups;
    return question;
}

/* Reads an attribute of a POSIX ACL, with room for its entries and for those of a new ACL. */
static struct given attribute_at(FunctionCallInfo fcinfo, int place)
{
    struct given given = {0};
    given.bytes = bytes_at(fcinfo, place);
    given.entries = most_entries(given.bytes.len);
    given.room = palloc(2 * given.entries * sizeof *given.room);
    return given;
}

/* Returns the entries of an attribute, which is that at `place` of the arguments, or raises the error. */
static aclck_entries entries_of(const struct given *given, int place)
{
    aclck_entries entries;
    aclck_fault fault = {0};
    enum aclck_status status = read_attribute(given, &entries, &fault);
    fault.list = (uint32_t) place;
    if (status)
        failed(status, &fault, AN_ATTRIBUTE);
    return entries;
}

/* Reads the text of POSIX ACLs, and at `names` the array of names that it may use. */
static struct given text_at(FunctionCallInfo fcinfo, int names)
{
    struct given given = {0};
    Datum *values = values_at(fcinfo, names, &given.nnames);
    aclck_name *each = palloc((given.nnames + 1) * sizeof *each);
    given.bytes = bytes_at(fcinfo, 0);
    for (size_t i = 0; i < given.nnames; i++)
    {
        if (!read_name(bytes_of(PG_DETOAST_DATUM_PACKED(values[i])), &each[i]))
            ereport(ERROR, (errcode(ERRCODE_INVALID_PARAMETER_VALUE), errmsg("a name is u:NAME=ID or g:NAME=ID")));
    }
    given.names = each;
    return given;
}

/* ---- functions that make bytes */

/* Calls `make` with as much room as it needs, and returns a new text or bytea, or NULL if there is no list. */
static struct varlena *made(maker *make, const struct given *given, enum source source)
{
    size_t cap = 2 * given->bytes.len + 256;
    for (;;)
    {
        struct varlena *out = palloc(VARHDRSZ + cap);
        aclck_fault fault = {0};
        size_t needed = 0;
        enum aclck_status status = make(given, aclck_buffer_of(VARDATA(out), cap), &needed, &fault);
        if (status == ACLCK_DONE)
        {
            SET_VARSIZE(out, VARHDRSZ + needed);
            return out;
        }
        pfree(out);
        if (has_no_list(given, status, &fault))
            return NULL;
        if (status != ACLCK_SHORT || needed <= cap)
            failed(status, &fault, source);
        cap = needed;
    }
}

static Datum made_of_list(FunctionCallInfo fcinfo, maker *make, enum source source)
{
    struct given given = {0};
    given.bytes = bytes_at(fcinfo, 0);
    return PointerGetDatum(made(make, &given, source));
}

PG_FUNCTION_INFO_V1(sql_normal);
Datum sql_normal(PG_FUNCTION_ARGS)
{
    return made_of_list(fcinfo, make_normal, A_LIST);
}

PG_FUNCTION_INFO_V1(sql_normal_inherit);
Datum sql_normal_inherit(PG_FUNCTION_ARGS)
{
    return made_of_list(fcinfo, make_normal_inherit, A_LIST);
}

PG_FUNCTION_INFO_V1(sql_show);
Datum sql_show(PG_FUNCTION_ARGS)
{
    return made_of_list(fcinfo, make_show, A_LIST);
}

PG_FUNCTION_INFO_V1(sql_encode);
Datum sql_encode(PG_FUNCTION_ARGS)
{
    return made_of_list(fcinfo, make_encode, A_TEXT);
}

PG_FUNCTION_INFO_V1(sql_child);
Datum sql_child(PG_FUNCTION_ARGS)
{
    struct given given = {0};
    given.bytes = bytes_at(fcinfo, 0);
    given.options = PG_GETARG_BOOL(1) ? ACLCK_DIRECTORY : ACLCK_FILE;
    return PointerGetDatum(made(make_child, &given, A_LIST));
}

/* The result is NULL if the list needs a name that no ACE can have. */
PG_FUNCTION_INFO_V1(sql_resolved);
Datum sql_resolved(PG_FUNCTION_ARGS)
{
    const aclck_object object = object_at(fcinfo, 1);
    struct given given = {0};
    struct varlena *list;
    given.bytes = bytes_at(fcinfo, 0);
    given.object = &object;
    list = made(make_resolved, &given, A_LIST);
    if (!list)
        PG_RETURN_NULL();
    return PointerGetDatum(list);
}

PG_FUNCTION_INFO_V1(sql_posix_chmod);
Datum sql_posix_chmod(PG_FUNCTION_ARGS)
{
    struct given given = attribute_at(fcinfo, 0);
    given.number = number_at(fcinfo, 1);
    return PointerGetDatum(made(make_attribute_chmod, &given, AN_ATTRIBUTE));
}

PG_FUNCTION_INFO_V1(sql_posix_calc_mask);
Datum sql_posix_calc_mask(PG_FUNCTION_ARGS)
{
    struct given given = attribute_at(fcinfo, 0);
    return PointerGetDatum(made(make_attribute_calc_mask, &given, AN_ATTRIBUTE));
}

/* Reads how a new object is created. */
static void read_creation(FunctionCallInfo fcinfo, struct given *given)
{
    given->number = number_at(fcinfo, 1);
    given->umask = number_at(fcinfo, 2);
    given->options = PG_GETARG_BOOL(3) ? ACLCK_DIRECTORY : ACLCK_FILE;
}

PG_FUNCTION_INFO_V1(sql_posix_create);
Datum sql_posix_create(PG_FUNCTION_ARGS)
{
    struct given given = attribute_at(fcinfo, 0);
    read_creation(fcinfo, &given);
    return PointerGetDatum(made(make_attribute_create, &given, AN_ATTRIBUTE));
}

PG_FUNCTION_INFO_V1(sql_posix_bridge);
Datum sql_posix_bridge(PG_FUNCTION_ARGS)
{
    struct given given = attribute_at(fcinfo, 0);
    return PointerGetDatum(made(make_attribute_bridge, &given, AN_ATTRIBUTE));
}

PG_FUNCTION_INFO_V1(sql_posix_of_mode);
Datum sql_posix_of_mode(PG_FUNCTION_ARGS)
{
    struct given given = {0};
    given.number = number_at(fcinfo, 0);
    return PointerGetDatum(made(make_of_mode, &given, AN_ATTRIBUTE));
}

PG_FUNCTION_INFO_V1(sql_posix_text_show);
Datum sql_posix_text_show(PG_FUNCTION_ARGS)
{
    static const enum aclck_option options[] = {ACLCK_CANONICAL, ACLCK_FORM_SHOWN, ACLCK_FORM_SHORT};
    static const char *const forms[] = {"canonical", "shown", "short"};
    struct given given = text_at(fcinfo, 2);
    aclck_bytes form = bytes_at(fcinfo, 1);
    for (int i = 0; i < 3; i++)
    {
        if (strlen(forms[i]) == form.len && memcmp(forms[i], form.at, form.len) == 0)
        {
            given.options = options[i];
            return PointerGetDatum(made(make_posix_show, &given, A_TEXT));
        }
    }
    ereport(ERROR, (errcode(ERRCODE_INVALID_PARAMETER_VALUE), errmsg("a form is canonical, shown or short")));
}

PG_FUNCTION_INFO_V1(sql_posix_text_chmod);
Datum sql_posix_text_chmod(PG_FUNCTION_ARGS)
{
    struct given given = text_at(fcinfo, 2);
    given.number = number_at(fcinfo, 1);
    return PointerGetDatum(made(make_posix_chmod, &given, A_TEXT));
}

PG_FUNCTION_INFO_V1(sql_posix_text_calc_mask);
Datum sql_posix_text_calc_mask(PG_FUNCTION_ARGS)
{
    struct given given = text_at(fcinfo, 1);
    return PointerGetDatum(made(make_posix_calc_mask, &given, A_TEXT));
}

PG_FUNCTION_INFO_V1(sql_posix_text_create);
Datum sql_posix_text_create(PG_FUNCTION_ARGS)
{
    struct given given = text_at(fcinfo, 4);
    read_creation(fcinfo, &given);
    return PointerGetDatum(made(make_posix_create, &given, A_TEXT));
}

/* The text is judged, and its names become ids, when it is shown. */
PG_FUNCTION_INFO_V1(sql_attribute);
Datum sql_attribute(PG_FUNCTION_ARGS)
{
    const struct given text = text_at(fcinfo, 1);
    struct given given = {0};
    given.bytes = bytes_of(made(make_posix_show, &text, A_TEXT));
    given.entries = most_entries(given.bytes.len);
    given.room = palloc(given.entries * sizeof *given.room);
    return PointerGetDatum(made(make_attribute, &given, A_TEXT));
}

PG_FUNCTION_INFO_V1(sql_posix_text_bridge);
Datum sql_posix_text_bridge(PG_FUNCTION_ARGS)
{
    struct given given = text_at(fcinfo, 1);
    return PointerGetDatum(made(make_posix_bridge, &given, A_TEXT));
}

/* ---- functions that answer with a number or a text */

PG_FUNCTION_INFO_V1(sql_rights);
Datum sql_rights(PG_FUNCTION_ARGS)
{
    uint32_t mask;
    if (aclck_read_mask(bytes_at(fcinfo, 0), &mask))
        ereport(ERROR, (errcode(ERRCODE_INVALID_PARAMETER_VALUE), errmsg("no right has this name")));
    PG_RETURN_INT32((int32) mask);
}

PG_FUNCTION_INFO_V1(sql_rights_text);
Datum sql_rights_text(PG_FUNCTION_ARGS)
{
    char out[256];
    size_t len;
    if (aclck_mask_text((enum aclck_right) number_at(fcinfo, 0), aclck_buffer_of(out, sizeof out), &len))
        ereport(ERROR, (errcode(ERRCODE_INVALID_PARAMETER_VALUE), errmsg("a bit of the number is no right")));
    PG_RETURN_TEXT_P(cstring_to_text_with_len(out, (int) len));
}

PG_FUNCTION_INFO_V1(sql_granted);
Datum sql_granted(PG_FUNCTION_ARGS)
{
    const aclck_object object = object_at(fcinfo, 1);
    const aclck_requester requester = requester_at(fcinfo, 3, 4);
    const aclck_question question = question_at(fcinfo, 5);
    aclck_fault fault;
    uint32_t rights;
    enum aclck_status status = aclck_granted(bytes_at(fcinfo, 0), &object, &requester, &question, &rights, &fault);
    if (status)
        failed(status, &fault, A_LIST);
    PG_RETURN_INT32((int32) rights);
}

PG_FUNCTION_INFO_V1(sql_grants);
Datum sql_grants(PG_FUNCTION_ARGS)
{
    const aclck_object object = object_at(fcinfo, 1);
    const aclck_requester requester = requester_at(fcinfo, 3, 4);
    const aclck_question question = question_at(fcinfo, 5);
    aclck_fault fault;
    uint32_t granted;
    enum aclck_status status = aclck_check(bytes_at(fcinfo, 0), &object, &requester, &question, &granted, &fault);
    if (status)
        failed(status, &fault, A_LIST);
    PG_RETURN_BOOL(granted == 1);
}

PG_FUNCTION_INFO_V1(sql_same);
Datum sql_same(PG_FUNCTION_ARGS)
{
    aclck_fault fault;
    uint32_t same;
    enum aclck_status status = aclck_same(bytes_at(fcinfo, 0), bytes_at(fcinfo, 1), ACLCK_FULL, &same, &fault);
    if (status)
        failed(status, &fault, A_LIST);
    PG_RETURN_BOOL(same == 1);
}

PG_FUNCTION_INFO_V1(sql_mode);
Datum sql_mode(PG_FUNCTION_ARGS)
{
    aclck_fault fault;
    uint32_t mode;
    enum aclck_status status = aclck_mode(bytes_at(fcinfo, 0), ACLCK_FULL, &mode, &fault);
    if (status)
        failed(status, &fault, A_LIST);
    PG_RETURN_INT32((int32) mode);
}

/* Returns why something is refused, or NULL if it is accepted. */
static Datum fault_text(FunctionCallInfo fcinfo, enum aclck_status status, const aclck_fault *fault, enum source source)
{
    if (status == ACLCK_DONE)
        PG_RETURN_NULL();
    if (status != ACLCK_REFUSED)
        failed(status, fault, source);
    PG_RETURN_TEXT_P(cstring_to_text(reason_of(fault, source).text));
}

PG_FUNCTION_INFO_V1(sql_fault);
Datum sql_fault(PG_FUNCTION_ARGS)
{
    aclck_fault fault;
    aclck_ace ace;
    size_t offset = 0;
    enum aclck_status status = aclck_next(bytes_at(fcinfo, 0), ACLCK_FULL, &offset, &ace, &fault);
    return fault_text(fcinfo, status, &fault, A_LIST);
}

PG_FUNCTION_INFO_V1(sql_posix_fault);
Datum sql_posix_fault(PG_FUNCTION_ARGS)
{
    struct given given = attribute_at(fcinfo, 0);
    aclck_entries entries;
    aclck_fault fault;
    enum aclck_status status = read_attribute(&given, &entries, &fault);
    return fault_text(fcinfo, status, &fault, AN_ATTRIBUTE);
}

/* A text is judged when it is shown, here in no room. */
PG_FUNCTION_INFO_V1(sql_posix_text_fault);
Datum sql_posix_text_fault(PG_FUNCTION_ARGS)
{
    struct given given = text_at(fcinfo, 1);
    aclck_fault fault;
    size_t needed;
    enum aclck_status status = make_posix_show(&given, aclck_buffer_of(NULL, 0), &needed, &fault);
    return fault_text(fcinfo, status == ACLCK_SHORT ? ACLCK_DONE : status, &fault, A_TEXT);
}

PG_FUNCTION_INFO_V1(sql_posix_grants);
Datum sql_posix_grants(PG_FUNCTION_ARGS)
{
    struct given given = attribute_at(fcinfo, 0);
    const aclck_posix_question question = posix_question_at(fcinfo);
    aclck_fault fault;
    uint32_t granted;
    enum aclck_status status = aclck_entries_check(entries_of(&given, 0), &question, &granted, &fault);
    if (status)
        failed(status, &fault, AN_ATTRIBUTE);
    PG_RETURN_BOOL(granted == 1);
}

PG_FUNCTION_INFO_V1(sql_posix_text_grants);
Datum sql_posix_text_grants(PG_FUNCTION_ARGS)
{
    struct given given = text_at(fcinfo, 6);
    const aclck_posix_text text = text_of(&given);
    const aclck_posix_question question = posix_question_at(fcinfo);
    aclck_fault fault;
    uint32_t granted;
    enum aclck_status status = aclck_posix_check(&text, &question, &granted, &fault);
    if (status)
        failed(status, &fault, A_TEXT);
    PG_RETURN_BOOL(granted == 1);
}

PG_FUNCTION_INFO_V1(sql_posix_mode);
Datum sql_posix_mode(PG_FUNCTION_ARGS)
{
    struct given given = attribute_at(fcinfo, 0);
    aclck_fault fault;
    uint32_t mode;
    enum aclck_status status = aclck_entries_mode(entries_of(&given, 0), &mode, &fault);
    if (status)
        failed(status, &fault, AN_ATTRIBUTE);
    PG_RETURN_INT32((int32) mode);
}

/* ---- functions that answer with a row */

static Datum text_datum(aclck_bytes bytes)
{
    return PointerGetDatum(cstring_to_text_with_len(bytes.at, (int) bytes.len));
}

static Datum word_datum(const char *word)
{
    return CStringGetTextDatum(word);
}

/* Returns the values as a row of the type that the function returns. */
static Datum row_of(FunctionCallInfo fcinfo, Datum *values, bool *nulls)
{
    TupleDesc shape;
    if (get_call_result_type(fcinfo, NULL, &shape) != TYPEFUNC_COMPOSITE)
        elog(ERROR, "the function returns no row");
    return HeapTupleGetDatum(heap_form_tuple(BlessTupleDesc(shape), values, nulls));
}

PG_FUNCTION_INFO_V1(sql_deciding);
Datum sql_deciding(PG_FUNCTION_ARGS)
{
    const aclck_object object = object_at(fcinfo, 1);
    const aclck_requester requester = requester_at(fcinfo, 3, 4);
    const aclck_question question = question_at(fcinfo, 5);
    aclck_fault fault;
    aclck_decision decision;
    Datum values[2];
    bool nulls[2] = {false, false};
    enum aclck_status status = aclck_deciding(bytes_at(fcinfo, 0), &object, &requester, &question, &decision, &fault);
    if (status)
        failed(status, &fault, A_LIST);
    if (decision.kind == ACLCK_UNDECIDED)
        PG_RETURN_NULL();
    values[0] = Int32GetDatum((int32) decision.place);
    values[1] = word_datum(kind_name(decision.kind));
    return row_of(fcinfo, values, nulls);
}

/* The names are the owner, the owning group, the user, and the groups of the user, each before a zero byte. The groups
   have the type of the owner: text or bytea. */
static Datum difference_row(FunctionCallInfo fcinfo, aclck_bytes names, const aclck_difference *difference)
{
    Datum values[6], *groups = palloc((names.len + 1) * sizeof *groups);
    bool nulls[6] = {false};
    Oid type = TEXTOID;
    int count = 0;
    TupleDesc shape;
    if (get_call_result_type(fcinfo, NULL, &shape) == TYPEFUNC_COMPOSITE)
        type = TupleDescAttr(shape, 0)->atttypid;
    for (int i = 0; i < 3; i++)
        values[i] = text_datum(cut(&names, 0));
    while (names.len > 0)
        groups[count++] = text_datum(cut(&names, 0));
    values[3] = PointerGetDatum(construct_array(groups, count, type, -1, false, TYPALIGN_INT));
    values[4] = Int32GetDatum((int32) difference->right);
    values[5] = BoolGetDatum(difference->first_grants == 1);
    return row_of(fcinfo, values, nulls);
}

static Datum difference_of(FunctionCallInfo fcinfo, maker *make)
{
    aclck_difference difference = {0};
    struct given given = {0};
    struct varlena *names;
    given.bytes = bytes_at(fcinfo, 0);
    given.second = bytes_at(fcinfo, 1);
    given.difference = &difference;
    names = made(make, &given, A_LIST);
    if (difference.same)
        PG_RETURN_NULL();
    return difference_row(fcinfo, bytes_of(names), &difference);
}

PG_FUNCTION_INFO_V1(sql_compare);
Datum sql_compare(PG_FUNCTION_ARGS)
{
    return difference_of(fcinfo, make_compare);
}

PG_FUNCTION_INFO_V1(sql_excess);
Datum sql_excess(PG_FUNCTION_ARGS)
{
    return difference_of(fcinfo, make_excess);
}

PG_FUNCTION_INFO_V1(sql_posix_deciding);
Datum sql_posix_deciding(PG_FUNCTION_ARGS)
{
    struct given given = attribute_at(fcinfo, 0);
    const aclck_posix_question question = posix_question_at(fcinfo);
    aclck_fault fault;
    aclck_posix_decision decision;
    Datum values[4];
    bool nulls[4] = {false};
    enum aclck_status status = aclck_entries_deciding(entries_of(&given, 0), &question, &decision, &fault);
    if (status)
        failed(status, &fault, AN_ATTRIBUTE);
    nulls[0] = nulls[1] = decision.tag == 0;
    values[0] = Int32GetDatum((int32) decision.place);
    values[1] = word_datum(tag_name(decision.tag));
    values[2] = BoolGetDatum(decision.granted == 1);
    values[3] = BoolGetDatum(decision.masked == 1);
    return row_of(fcinfo, values, nulls);
}

PG_FUNCTION_INFO_V1(sql_posix_excess);
Datum sql_posix_excess(PG_FUNCTION_ARGS)
{
    struct given first = attribute_at(fcinfo, 0), second = attribute_at(fcinfo, 1);
    aclck_entries entries = entries_of(&first, 0);
    aclck_posix_difference found;
    aclck_fault fault;
    Datum values[5], groups[2];
    bool nulls[5] = {false};
    enum aclck_status status = aclck_entries_excess(entries, entries_of(&second, 1), &found, &fault);
    if (status)
        failed(status, &fault, AN_ATTRIBUTE);
    if (found.same)
        PG_RETURN_NULL();
    groups[0] = Int64GetDatum((int64) found.first_group);
    groups[1] = Int64GetDatum((int64) found.second_group);
    values[0] = Int64GetDatum((int64) found.owner);
    values[1] = Int64GetDatum((int64) found.group);
    values[2] = Int64GetDatum((int64) found.user);
    values[3] = PointerGetDatum(construct_array(groups, (int) found.ngroups, INT8OID, 8, FLOAT8PASSBYVAL,
                                                TYPALIGN_DOUBLE));
    values[4] = Int32GetDatum((int32) found.want);
    return row_of(fcinfo, values, nulls);
}

/* ---- functions that answer with rows. Between two rows a query can be cancelled. */

static void put_row(FunctionCallInfo fcinfo, Datum *values, bool *nulls)
{
    ReturnSetInfo *rows = (ReturnSetInfo *) fcinfo->resultinfo;
    CHECK_FOR_INTERRUPTS();
    tuplestore_putvalues(rows->setResult, rows->setDesc, values, nulls);
}

PG_FUNCTION_INFO_V1(sql_entries);
Datum sql_entries(PG_FUNCTION_ARGS)
{
    aclck_bytes acl = bytes_at(fcinfo, 0);
    size_t offset = 0;
    InitMaterializedSRF(fcinfo, 0);
    for (int32 place = 0;; place++)
    {
        aclck_fault fault;
        aclck_ace ace;
        Datum values[5];
        bool nulls[5] = {false};
        enum aclck_status status = aclck_next(acl, ACLCK_FULL, &offset, &ace, &fault);
        if (status)
            failed(status, &fault, A_LIST);
        if (ace.kind == ACLCK_UNDECIDED)
            return (Datum) 0;
        values[0] = Int32GetDatum(place);
        values[1] = word_datum(kind_name(ace.kind));
        values[2] = Int32GetDatum((int32) ace.flags);
        values[3] = Int32GetDatum((int32) ace.mask);
        values[4] = text_datum(ace.who);
        put_row(fcinfo, values, nulls);
    }
}

PG_FUNCTION_INFO_V1(sql_table);
Datum sql_table(PG_FUNCTION_ARGS)
{
    struct given given = {0};
    aclck_bytes lines;
    struct row row;
    given.bytes = bytes_at(fcinfo, 0);
    given.number = number_at(fcinfo, 1);
    lines = bytes_of(made(make_table, &given, A_LIST));
    InitMaterializedSRF(fcinfo, 0);
    while (next_row(&lines, &row))
    {
        Datum values[4];
        bool nulls[4] = {false};
        values[0] = Int32GetDatum((int32) row.place);
        values[1] = word_datum(row.is_deny ? "DENY" : "ALLOW");
        values[2] = BoolGetDatum(row.is_group);
        values[3] = text_datum(row.who);
        put_row(fcinfo, values, nulls);
    }
    return (Datum) 0;
}

PG_FUNCTION_INFO_V1(sql_posix_entries);
Datum sql_posix_entries(PG_FUNCTION_ARGS)
{
    struct given given = attribute_at(fcinfo, 0);
    aclck_entries entries = entries_of(&given, 0);
    InitMaterializedSRF(fcinfo, 0);
    for (size_t i = 0; i < entries.len; i++)
    {
        const aclck_entry *entry = &entries.at[i];
        Datum values[4];
        bool nulls[4] = {false};
        nulls[2] = entry->tag != ACLCK_TAG_USER && entry->tag != ACLCK_TAG_GROUP;
        values[0] = Int32GetDatum((int32) i);
        values[1] = word_datum(tag_name(entry->tag));
        values[2] = Int64GetDatum((int64) entry->id);
        values[3] = Int32GetDatum((int32) entry->perm);
        put_row(fcinfo, values, nulls);
    }
    return (Datum) 0;
}
