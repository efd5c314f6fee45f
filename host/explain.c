/* A refused file explained to people. What is refused, and where, the library says; which bytes stand there is read off the file; what
 * the rule means and what to mend stands in texts.c. A first look at the bytes (look.c) is a guess and is said as one.
 *
 * Refusals 10 to 18 are about two things that disagree. The library names one place; `other` and `expected` are kept free for the record
 * that disagrees with it and for what it asks for, and are null as long as the library doesn't tell them.
 */
#include "explain.h"

#include "figures.h"
#include "look.h"
#include "record.h"
#include "text.h"
#include "texts.h"
#include "whereabouts.h"

enum { GUESSES = 4 };

/* What there is to say of a refusal. */
typedef struct {
    const Input *file;
    uint32_t number;
    uint32_t record;
    uint32_t column;
    const Refusal *text;
    const char *hint;   /* about this very field; NULL: there is none */
    uint32_t due;       /* the kind that is due at the record */
    const Field *field; /* NULL where the refusal is of the file's length or its end: there is no record, or no whole one */
    int stated;         /* the field's number was read */
    int32_t found;
    Whereabouts where; /* where stage 1 is kept */
} Explanation;

/* ---- what there is to say */

static int is_bytes(const Explanation *e)
{
    return e->number <= 2;
}

/* A number is told where the library reads the record; else the bytes are. */
static void read_found(Explanation *e)
{
    stragumella_reading reading = sheet_read(e->file, e->due, e->record);
    if (gives_number(e->field) && reading.number == 0) {
        e->stated = 1;
        e->found = reading.value.numbers[numbers_before(e->due, e->field)];
    }
}

static Explanation explanation(const Sheet *sheet)
{
    const stragumella_outcome *o = &sheet->outcome;
    const Input *file = sheet->file;
    Explanation e = {.file = file, .number = o->number, .record = o->record, .column = o->column};
    e.text = refusal_text(e.number);
    e.due = stragumella_due(file->bytes, file->length, e.record);
    if (!is_bytes(&e)) {
        e.where = whereabouts(file, e.record, e.due);
        e.hint = refusal_hint(e.number, e.due, e.column, e.where.letters);
    }
    if (e.number != 1 && e.number != 4) {
        e.field = field_at(e.due, e.column);
        read_found(&e);
    }
    return e;
}

/* ---- words for people */

static const char *kind_title(uint32_t kind)
{
    static const char *const titles[] = {
        [MESH] = "an M (a mesh)",   [LAYER] = "an H (a layer)",
        [NODE] = "an N (a node)",   [LINE] = "an L (a line)",
        [AREA] = "an A (an area)",  [COORDINATES] = "a coordinate record",
        [LOOP] = "a loop record",
    };
    return titles[kind];
}

static const char *item_name(uint32_t kind)
{
    return kind == NODE ? "node" : kind == LINE || kind == COORDINATES ? "line" : "area";
}

/* A field's name as docs/RULES.md 4 writes it: "left area", "entry 3", "X 1". */
static void field_title(const Field *field, char title[24])
{
    const char *key = field->key;
    int entry = strncmp(key, "line", 4) == 0 && key[4] >= '1' && key[4] <= '9';
    int point = (key[0] == 'x' || key[0] == 'y') && (key[1] == '\0' || (key[1] >= '1' && key[1] <= '9'));
    if (strncmp(key, "columns", 7) == 0) {
        snprintf(title, 24, "unused");
    } else if (entry) {
        snprintf(title, 24, "entry %s", key + 4);
    } else if (point) {
        snprintf(title, 24, key[1] == '\0' ? "%c%s" : "%c %s", key[0] == 'x' ? 'X' : 'Y', key + 1);
    } else {
        size_t i = 0;
        for (; i < 23 && key[i] != '\0'; i++) {
            title[i] = key[i] == '_' ? ' ' : key[i];
        }
        title[i] = '\0';
    }
}

/* ---- the page */

/* The records that say what has to follow: a count in one of them may be the fault. */
static void print_steering(FILE *out, const Whereabouts *where)
{
    const int32_t *m = where->mesh.value.numbers;
    const int32_t *h = where->layer.value.numbers;
    const int32_t *i = where->item.value.numbers;
    char text[200];
    if (where->mesh.record != 0) {
        snprintf(text, sizeof text, "the M is record %u: layers %d", (unsigned)where->mesh.record, (int)m[1]);
        print_wrapped(out, "Counts:", text);
    }
    if (where->layer.record != 0) {
        snprintf(text, sizeof text, "the H is record %u: %snodes %d, lines %d, areas %d", (unsigned)where->layer.record,
                 where->letters == UNSTRUCTURED ? "unstructured (H1), " : "", (int)h[1], (int)h[2], (int)h[3]);
        print_wrapped(out, "       ", text);
    }
    if (where->item.record != 0 && where->item.kind == LINE) {
        snprintf(text, sizeof text, "the L is record %u: points %d, so coordinates up to record %u", (unsigned)where->item.record, (int)i[12],
                 (unsigned)where->item.record + ((unsigned)i[12] + 6) / 7);
        print_wrapped(out, "       ", text);
    }
    if (where->item.record != 0 && where->item.kind == AREA) {
        snprintf(text, sizeof text, "the A is record %u: loops %d, lines %d", (unsigned)where->item.record, (int)i[5], (int)i[6]);
        print_wrapped(out, "       ", text);
    }
}

static void print_place(FILE *out, const Explanation *e)
{
    const Whereabouts *where = &e->where;
    size_t records = e->file->length / RECORD;
    char text[200];
    if (e->number == 4) {
        snprintf(text, sizeof text, "the file ends behind record %zu; %s is due as record %u", records, kind_title(e->due), (unsigned)e->record);
    } else {
        snprintf(text, sizeof text, "record %u, due as %s", (unsigned)e->record, kind_title(e->due));
    }
    print_wrapped(out, "Place:", text);
    if (where->serial != 0) {
        snprintf(text, sizeof text, "mesh %d, layer %d, %s %d", (int)where->mesh.value.numbers[0], (int)where->layer.value.numbers[0],
                 item_name(e->due), (int)where->serial);
        print_wrapped(out, "In:", text);
    } else if (where->layer.record != 0) {
        snprintf(text, sizeof text, "mesh %d, layer %d", (int)where->mesh.value.numbers[0], (int)where->layer.value.numbers[0]);
        print_wrapped(out, "In:", text);
    } else if (where->mesh.record != 0) {
        snprintf(text, sizeof text, "mesh %d", (int)where->mesh.value.numbers[0]);
        print_wrapped(out, "In:", text);
    }
    print_steering(out, where);
}

static void print_length(FILE *out, const Explanation *e)
{
    char text[120];
    snprintf(text, sizeof text, "the file has %zu bytes: %zu whole records and %zu bytes more", e->file->length, e->file->length / RECORD,
             e->file->length % RECORD);
    print_wrapped(out, "Place:", text);
}

static void print_found(FILE *out, const Explanation *e)
{
    char title[24];
    char columns[8];
    size_t length;
    const uint8_t *bytes = record_bytes(e->file, e->record, &length);
    field_title(e->field, title);
    field_columns(e->field, columns);
    fprintf(out, "Field: %s, columns %s\n", title, columns);
    if (e->stated) {
        fprintf(out, "Found: %d\n", (int)e->found);
    } else {
        fputs("Found: \"", out);
        print_bytes(out, bytes + e->field->start - 1, e->field->width);
        fputs("\"\n", out);
    }
}

static void print_guesses(FILE *out, const Explanation *e)
{
    Guess guesses[GUESSES];
    size_t count = look(e->file->bytes, e->file->length, e->number, e->record, guesses, GUESSES);
    if (count > 0) {
        fputs("\nA first look at the bytes, as a guess:\n", out);
    }
    for (size_t i = 0; i < count; i++) {
        char text[256];
        snprintf(text, sizeof text, "%s (%s)", cause_title(guesses[i].cause), guesses[i].seen);
        print_wrapped(out, "  -", text);
    }
}

/* What is marked: the field, or all there is of a record that the file's end cuts; NULL where nothing is there. */
static const Field *marked(const Explanation *e)
{
    size_t length;
    record_bytes(e->file, e->record, &length);
    return e->field != NULL ? e->field : length > 0 ? &whole_record : NULL;
}

static void print_record(FILE *out, const Explanation *e)
{
    if (marked(e) != NULL) {
        fputc('\n', out);
        print_caret(out, e->file, e->record, marked(e), e->column);
    }
}

static void print_page(FILE *out, const char *name, const Explanation *e)
{
    char label[16];
    print_escaped(out, name);
    fprintf(out, ": refused, %u at record %u, column %u\n\n", (unsigned)e->number, (unsigned)e->record, (unsigned)e->column);
    snprintf(label, sizeof label, "Rule %u:", (unsigned)e->number);
    print_wrapped(out, label, e->text->rule);
    fprintf(out, "    (docs/RULES.md %s)\n", e->text->section);
    if (e->hint != NULL) {
        print_wrapped(out, "Here:", e->hint);
    }
    if (e->number == 1) {
        print_length(out, e);
    } else if (is_bytes(e)) {
        fprintf(out, "Place: record %u\n", (unsigned)e->record);
    } else {
        print_place(out, e);
    }
    if (e->field != NULL) {
        print_found(out, e);
    }
    print_record(out, e);
    if (is_bytes(e)) {
        print_guesses(out, e);
    }
    fputc('\n', out);
    print_wrapped(out, "Mend:", e->text->mend);
}

/* ---- the same as items */

static void put_bearer(Writer *w, const char *value_key, const char *record_key, const Bearer *bearer)
{
    if (bearer->record != 0) {
        put_number(w, value_key, bearer->value.numbers[0]);
        put_number(w, record_key, bearer->record);
    }
}

static void put_where(Writer *w, const Explanation *e)
{
    const Whereabouts *where = &e->where;
    put_word(w, "due", kind_name(e->due));
    put_bearer(w, "mesh", "mesh_record", &where->mesh);
    put_bearer(w, "layer", "layer_record", &where->layer);
    if (where->serial != 0) {
        put_number(w, item_name(e->due), where->serial);
    }
    if (where->item.record != 0) {
        put_number(w, where->item.kind == LINE ? "line_record" : "area_record", where->item.record);
    }
}

static void put_field(Writer *w, const Explanation *e)
{
    put_caret(w, e->file, e->record, marked(e), e->column);
    if (e->stated) {
        put_number(w, "found", e->found);
    } else {
        put_unknown(w, "found");
    }
    put_unknown(w, "other");
    put_unknown(w, "expected");
}

static void put_guesses(Writer *w, const Explanation *e)
{
    Guess guesses[GUESSES];
    size_t count = look(e->file->bytes, e->file->length, e->number, e->record, guesses, GUESSES);
    list_begin(w, "guesses");
    for (size_t i = 0; i < count; i++) {
        row_begin(w, e->record);
        put_word(w, "cause", guesses[i].cause);
        put_text(w, "likely", cause_title(guesses[i].cause));
        put_text(w, "seen", guesses[i].seen);
        row_end(w);
    }
    list_end(w);
}

static void put_meaning_of(Writer *w, const Refusal *text)
{
    put_text(w, "rule", text->rule);
    put_text(w, "section", text->section);
    put_text(w, "mend", text->mend);
}

static void put_items(Writer *w, const Explanation *e)
{
    put_meaning_of(w, e->text);
    if (e->hint != NULL) {
        put_text(w, "hint", e->hint);
    }
    if (!is_bytes(e)) {
        put_where(w, e);
    }
    if (marked(e) != NULL) {
        put_field(w, e);
    }
    if (is_bytes(e)) {
        put_guesses(w, e);
    }
}

/* ---- the calls */

void put_explanation(Writer *w, const Sheet *sheet)
{
    Explanation e = explanation(sheet);
    if (w->format == AS_TEXT) {
        print_page(w->out, w->file, &e);
    } else {
        put_refusal(w, e.number, e.record, e.column);
    }
    if (w->format == AS_JSON) {
        put_items(w, &e);
    }
}

void put_acceptance(Writer *w, const Sheet *sheet)
{
    const stragumella_outcome *o = &sheet->outcome;
    if (w->format != AS_TEXT) {
        put_counts(w, sheet);
        return;
    }
    print_escaped(w->out, w->file);
    fprintf(w->out, ": accepted\n\nIt keeps every rule. Meshes %u, layers %u, nodes %u, lines %u, areas %u, records %u.\n", (unsigned)o->meshes,
            (unsigned)o->layers, (unsigned)o->nodes, (unsigned)o->lines, (unsigned)o->areas, (unsigned)o->records);
}

void put_meaning(Writer *w, uint32_t number)
{
    const Refusal *text = refusal_text(number);
    if (w->format == AS_TEXT) {
        fprintf(w->out, "%u: %s\n\n", (unsigned)number, text->message);
        print_wrapped(w->out, "Rule:", text->rule);
        fprintf(w->out, "    (docs/RULES.md %s)\n", text->section);
        print_wrapped(w->out, "Mend:", text->mend);
        return;
    }
    put_refusal_line(w, number, 0, 0);
    put_number(w, "number", number);
    put_text(w, "message", text->message);
    put_meaning_of(w, text);
}
