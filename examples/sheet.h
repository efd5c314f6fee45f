/* A sheet that the library accepted, layer by layer: what a program that links the library begins with. Copy it.
 *
 * The library lends nothing and keeps nothing. Here a file is read into memory, the buffers are made as long as the library
 * says, and the table that it fills is read by rows. Nothing has to be checked any more: an accepted sheet keeps every rule.
 */
#ifndef SHEET_H
#define SHEET_H

#include <stragumella.h>

/* The kinds of record, by the library's numbers. */
enum { MESH = 1, LAYER, NODE, LINE, COORDINATES, AREA, LOOP };

/* The letters of a layer's H, H1 and H2, by the library's numbers. An unstructured layer has lines and no areas, and 0 in each L's codes
 * and area numbers, which say nothing there. */
enum { UNSTRUCTURED = 1, STRUCTURED };

typedef struct {
    uint8_t *file;
    size_t length;
    size_t words;      /* the table's, and so many places for figures */
    uint32_t *table;
    int64_t *measures; /* an area's measure each, in file order */
    stragumella_outcome outcome;
} Sheet;

/* A layer: its row of the table, and where its lines, areas and measures stand. Number n of each is at [n - 1]. */
typedef struct {
    size_t number;          /* from 1 through the whole file */
    int32_t mesh;           /* the mesh code, and the layers of the mesh that are to come */
    int32_t to_come;
    int32_t code;           /* the layer code, 1 or 5 */
    uint32_t header;        /* the H record; its nodes' records follow it */
    uint32_t nodes, lines, areas;
    uint32_t letters;       /* UNSTRUCTURED or STRUCTURED */
    const uint32_t *line_records;
    const uint32_t *area_records;
    const int64_t *measures;
} Layer;

typedef struct {
    int32_t x, y;
} Point;

/* Points in a row, which grows. Begin with {0}; free points. */
typedef struct {
    Point *points;
    size_t count;
} Row;

/* Reads and judges a file. Answers 0, 1 for a refused file and 2 for one that cannot be read, with a message for both. */
int sheet_open(Sheet *sheet, const char *name);

void sheet_close(Sheet *sheet);

/* Goes on to the next layer; begin with {0}. Answers 0 behind the last one. */
int next_layer(const Sheet *sheet, Layer *layer);

/* The layer of that mesh code and layer code. Answers 0 where the sheet has none. */
int find_layer(const Sheet *sheet, int32_t mesh, int32_t code, Layer *layer);

/* The numbers of a record, by its number, as stragumella.h lists them for its kind. */
stragumella_record record_at(const Sheet *sheet, uint32_t kind, uint32_t number);

/* Puts the points of line n behind those of the row, from its start or, backwards, from its end; without the first `skip` of them.
 * Answers 0 where there is no memory. */
int add_line(const Sheet *sheet, const Layer *layer, uint32_t n, int backwards, size_t skip, Row *row);

/* A whole number from a word of the command line, or -1: no mesh code, layer code or serial is below 0. */
int32_t number_of(const char *word);

#endif
