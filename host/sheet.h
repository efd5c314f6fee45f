/* A file with the library's answer, and its table read by rows.
 *
 * The table (docs/RULES.md 8.1): a row for each layer, in file order: H record, nodes, lines, areas, letters; behind all
 * rows each line's L record; then each area's A record.
 */
#ifndef SHEET_H
#define SHEET_H

#include "input.h"
#include "stragumella.h"

/* One layer's row of the table. */
typedef struct {
    uint32_t header;
    uint32_t nodes;
    uint32_t lines;
    uint32_t areas;
    uint32_t letters; /* of its H: UNSTRUCTURED or STRUCTURED (layout.h) */
} Row;

typedef struct {
    const Input *file;
    uint32_t *table;  /* lent to the library */
    size_t words;     /* what the file needs; 0 if it is refused in stage 1 or 2, and then the table is empty */
    int64_t *figures; /* lent to the library: an area's measure each, or two sums a layer, in file order */
    stragumella_outcome outcome;
} Sheet;

/* What the library is asked for beside its answer. */
typedef enum { MEASURES, SUMS } Figures;

/* Lends the buffers and has the file judged. Answers NULL, or that there is no memory. */
const char *sheet_judge(Sheet *sheet, const Input *file, Figures figures);

void sheet_free(Sheet *sheet);

Row sheet_row(const Sheet *sheet, size_t layer);

/* How many rows the table has. */
size_t sheet_rows(const Sheet *sheet);

/* The L records, and behind them the A records. */
const uint32_t *sheet_lines(const Sheet *sheet);

/* Record `number`, counted from 1: where it begins, and how many of its 74 bytes the file has. */
const uint8_t *record_bytes(const Input *file, size_t number, size_t *length);

/* Record `number` read as one of the kind. */
stragumella_reading sheet_read(const Input *file, uint32_t kind, size_t number);

/* A mesh of the table: its M record, its code, and its layers not yet passed. */
typedef struct {
    uint32_t record;
    int32_t code;
    int32_t left;
} Mesh;

/* Goes on to the layer: to the next mesh where the last one's layers are passed. Start with {0}. */
void mesh_next(Mesh *mesh, const Sheet *sheet, size_t layer);

#endif
