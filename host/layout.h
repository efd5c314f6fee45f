/* Where each field of a record stands (docs/RULES.md 4). The library has its own layouts, which are proved; these are for
 * showing fields by name.
 */
#ifndef LAYOUT_H
#define LAYOUT_H

#include "system.h"

/* The kinds of record, by the library's numbers. */
enum { MESH = 1, LAYER, NODE, LINE, COORDINATES, AREA, LOOP };

/* The letters of an H, H1 and H2, by the library's numbers. An unstructured layer has lines and no areas. */
enum { UNSTRUCTURED = 1, STRUCTURED };

typedef enum { LETTERS, NUMBER, CODE, NAME, BLANK, LINE_END, WHOLE } What;

typedef struct {
    const char *key; /* "left_area" */
    uint8_t start;   /* columns count from 1 */
    uint8_t width;
    What what;
} Field;

/* "M", "H", "N", "L", "coordinates", "A" or "loop". */
const char *kind_name(uint32_t kind);

/* The kind of that name, or 0. */
uint32_t kind_named(const char *name);

/* The fields of a kind in column order, the line end behind them; NULL behind the last. i counts from 0. */
const Field *field_of(uint32_t kind, size_t i);

/* The field of a kind that a column is in; columns behind 72 are the line end. */
const Field *field_at(uint32_t kind, uint32_t column);

/* All 74 columns, where a refusal is of the record as a whole: the file ends in it, or before it (1 and 4). */
extern const Field whole_record;

/* Whether it gives a number to the record's value: a number or a code. */
int gives_number(const Field *field);

/* How many of the kind's numbers stand before the field: its place among a record's numbers. */
size_t numbers_before(uint32_t kind, const Field *field);

#endif
