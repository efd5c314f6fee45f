/* One record, field by field (docs/RULES.md 4).
 *
 * Which kind it is the library tells, by the walk (RULES 9.10), for refused files too. The caller may name another one.
 */
#include "record.h"

#include "names.h"
#include "text.h"
#include "texts.h"

/* ---- the bytes */

void field_columns(const Field *field, char columns[8])
{
    unsigned first = field->start;
    unsigned last = first + field->width - 1;
    snprintf(columns, 8, first == last ? "%u" : "%u-%u", first, last);
}

/* The caret at the column, and ~ under what else the file has of the field, as wide as its bytes are printed. */
static void print_mark(FILE *out, const uint8_t *bytes, size_t length, const Field *field, uint32_t column)
{
    size_t at = column - 1 < length ? column - 1 : length;
    size_t end = (size_t)field->start + field->width - 1;
    size_t before = print_bytes(NULL, bytes, at);
    size_t under = end < length ? end : length;
    size_t wide = under > at ? print_bytes(NULL, bytes + at, under - at) : 1;
    for (size_t i = 0; i < before; i++) {
        fputc(' ', out);
    }
    fputc('^', out);
    for (size_t i = 1; i < wide; i++) {
        fputc('~', out);
    }
}

void print_caret(FILE *out, const Input *file, uint32_t number, const Field *field, uint32_t column)
{
    size_t length;
    const uint8_t *bytes = record_bytes(file, number, &length);
    fputs("    ", out);
    print_bytes(out, bytes, length);
    fputs("\n    ", out);
    print_mark(out, bytes, length, field, column);
    fputc('\n', out);
}

/* JSON has no caret: the column tells. */
void put_caret(Writer *w, const Input *file, uint32_t number, const Field *field, uint32_t column)
{
    size_t length;
    const uint8_t *bytes = record_bytes(file, number, &length);
    char columns[8];
    field_columns(field, columns);
    put_word(w, "field", field->key);
    put_word(w, "columns", columns);
    if (length < RECORD) {
        put_number(w, "length", (long long)length);
    }
    put_bytes(w, "bytes", bytes, length);
    if (w->format == AS_TEXT) {
        fputs("caret=", w->out);
        print_mark(w->out, bytes, length, field, column);
        fputc('\n', w->out);
    }
}

/* ---- the fields */

static void put_name(Writer *w, const uint8_t *name, size_t length)
{
    char text[NAME_ROOM];
    const char *why = name_text(name, length, text);
    put_hex(w, "name", name, length);
    if (why == NULL) {
        put_text(w, "name_text", text);
    } else {
        put_unknown(w, "name_text");
        put_text(w, "name_text_missing", why);
    }
}

/* The mark is shown where it stands: land spelled " 0000". */
static void put_mark(Writer *w, const char *key, uint32_t mark)
{
    char marked[24];
    if (mark != 0) {
        snprintf(marked, sizeof marked, "%s_mark", key);
        put_number(w, marked, mark);
    }
}

/* The letters of an H are part of its value; those of other kinds say no more than the kind does. */
static void put_letters(Writer *w, const char *key, uint32_t letters)
{
    if (letters != 0) {
        put_number(w, key, letters);
    }
}

static void put_fields(Writer *w, uint32_t kind, const stragumella_record *value)
{
    const int32_t *number = value->numbers;
    const uint32_t *mark = value->marks;
    const Field *field;
    object_begin(w, "fields");
    for (size_t i = 0; (field = field_of(kind, i)) != NULL; i++) {
        if (gives_number(field)) {
            put_number(w, field->key, *number++);
        }
        if (field->what == CODE) {
            put_mark(w, field->key, *mark++);
        } else if (field->what == NAME) {
            put_name(w, value->name, field->width);
        } else if (field->what == LETTERS) {
            put_letters(w, field->key, value->letters);
        }
    }
    object_end(w);
}

/* ---- a record */

static void put_kind(Writer *w, uint32_t number, uint32_t kind, uint32_t due, int named)
{
    put_number(w, "record", number);
    put_word(w, "record_kind", kind_name(kind));
    put_word(w, "told_by", named ? "caller" : "walk");
    if (due != 0) {
        put_word(w, "due", kind_name(due));
    } else {
        put_unknown(w, "due");
    }
}

static int put_refused(Writer *w, const Input *file, uint32_t number, uint32_t kind, uint32_t refusal, uint32_t column)
{
    put_status(w, "refused");
    put_number(w, "number", refusal);
    put_number(w, "column", column);
    put_message(w, refusal_text(refusal)->message);
    put_caret(w, file, number, refusal == 1 || refusal == 4 ? &whole_record : field_at(kind, column), column);
    put_refusal_line(w, refusal, number, column);
    return REFUSED;
}

/* Where the file ends and a record is due, nothing is there to be read: 4, as the judge says, or 1 of an empty file. */
static int put_read(Writer *w, const Input *file, uint32_t number, uint32_t kind, int behind)
{
    if (behind) {
        return put_refused(w, file, number, kind, file->length == 0 ? 1 : 4, 1);
    }
    stragumella_reading reading = sheet_read(file, kind, number);
    if (reading.number != 0) {
        return put_refused(w, file, number, kind, reading.number, reading.column);
    }
    put_status(w, "ok");
    put_fields(w, kind, &reading.value);
    return ACCEPTED;
}

static int no_record(Writer *w, uint32_t number, size_t records)
{
    char message[80];
    snprintf(message, sizeof message, "no record %u, the last one is %zu", (unsigned)number, records);
    return put_complaint(w, message);
}

int put_record(Writer *w, const Input *file, uint32_t number, uint32_t kind)
{
    size_t records = file->length / RECORD + (file->length % RECORD != 0);
    int behind = number > records;
    uint32_t due = stragumella_due(file->bytes, file->length, number);
    int ends = records > 0 && due == MESH;
    if (behind && (due == 0 || ends)) {
        return no_record(w, number, records);
    }
    if (due == 0 && kind == 0) {
        return put_complaint(w, "more records than a sheet has: nothing is due so far on, name the KIND");
    }
    int named = kind != 0;
    kind = named ? kind : due;
    put_kind(w, number, kind, due, named);
    return put_read(w, file, number, kind, behind);
}
