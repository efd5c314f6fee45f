#include "layout.h"

/* One row of fields.inc: a field of a kind. The rows of a kind stand together. */
typedef struct {
    uint32_t kind;
    Field field;
} Row;

#define KIND(kind, name)
#define FIELD(kind, key, start, width, what) {kind, {key, start, width, what}},
static const Row rows[] = {
#include "fields.inc"
    {0, {NULL, 0, 0, WHOLE}},
};
#undef KIND
#undef FIELD

#define KIND(kind, name) [kind] = name,
#define FIELD(kind, key, start, width, what)
static const char *const kind_names[] = {
#include "fields.inc"
};
#undef KIND
#undef FIELD

const Field whole_record = {"record", 1, 74, WHOLE};

const char *kind_name(uint32_t kind)
{
    return kind_names[kind];
}

uint32_t kind_named(const char *name)
{
    for (uint32_t kind = MESH; kind <= LOOP; kind++) {
        if (strcmp(name, kind_names[kind]) == 0) {
            return kind;
        }
    }
    return 0;
}

static const Row *first_row(uint32_t kind)
{
    const Row *row = rows;
    while (row->kind != kind) {
        row++;
    }
    return row;
}

const Field *field_of(uint32_t kind, size_t i)
{
    const Row *row = first_row(kind) + i;
    return row->kind == kind ? &row->field : NULL;
}

const Field *field_at(uint32_t kind, uint32_t column)
{
    const Row *row = first_row(kind);
    while (column >= (uint32_t)row->field.start + row->field.width && row->field.what != LINE_END) {
        row++;
    }
    return &row->field;
}

int gives_number(const Field *field)
{
    return field->what == NUMBER || field->what == CODE;
}

size_t numbers_before(uint32_t kind, const Field *field)
{
    size_t numbers = 0;
    for (const Row *row = first_row(kind); &row->field != field; row++) {
        numbers += (size_t)gives_number(&row->field);
    }
    return numbers;
}
