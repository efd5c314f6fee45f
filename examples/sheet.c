#include "sheet.h"

#include <errno.h>
#include <stdio.h>
#include <stdlib.h>
#include <string.h>

enum { RECORD = 74, MOST_RECORDS = 6399936, POINTS_A_RECORD = 7 };

/* ---- a file */

/* A file with more records than a sheet has is refused whatever stands in them, so one record more is read and no further. */
static const char *read_file(Sheet *sheet, FILE *stream)
{
    const size_t most = ((size_t)MOST_RECORDS + 1) * RECORD;
    size_t room = 0;
    do {
        room = room == 0 ? 1 << 16 : room * 2 < most ? room * 2 : most;
        uint8_t *more = (uint8_t *)realloc(sheet->file, room);
        if (more == NULL) {
            return "no memory";
        }
        sheet->file = more;
        sheet->length += fread(sheet->file + sheet->length, 1, room - sheet->length, stream);
    } while (sheet->length == room && room < most);
    return ferror(stream) ? strerror(errno) : NULL;
}

/* A file has never more areas than its table has words, so as many places for measures are enough. One place more than is needed,
 * so that NULL always means that there is no memory. */
static const char *judge(Sheet *sheet)
{
    sheet->words = (size_t)stragumella_need(sheet->file, sheet->length);
    sheet->table = (uint32_t *)calloc(sheet->words + 1, sizeof *sheet->table);
    sheet->measures = (int64_t *)calloc(sheet->words + 1, sizeof *sheet->measures);
    if (sheet->table == NULL || sheet->measures == NULL) {
        return "no memory";
    }
    sheet->outcome =
        stragumella_judge(sheet->file, sheet->length, sheet->table, sheet->words, sheet->measures, sheet->words);
    return NULL;
}

static const char *open_file(Sheet *sheet, const char *name)
{
    FILE *stream = fopen(name, "rb");
    if (stream == NULL) {
        return strerror(errno);
    }
    const char *why = read_file(sheet, stream);
    fclose(stream);
    return why != NULL ? why : judge(sheet);
}

int sheet_open(Sheet *sheet, const char *name)
{
    memset(sheet, 0, sizeof *sheet);
    const char *why = open_file(sheet, name);
    const stragumella_outcome *o = &sheet->outcome;
    if (why != NULL) {
        fprintf(stderr, "%s: %s\n", name, why);
    } else if (o->number != 0) {
        fprintf(stderr, "%s: refused: %u at %u,%u\n", name, (unsigned)o->number, (unsigned)o->record, (unsigned)o->column);
    } else {
        return 0;
    }
    sheet_close(sheet);
    return why != NULL ? 2 : 1;
}

void sheet_close(Sheet *sheet)
{
    free(sheet->file);
    free(sheet->table);
    free(sheet->measures);
}

/* ---- layers */

/* The row of a layer in the table (stragumella.h): which word is what, and how many there are. */
enum { HEADER_WORD, NODES_WORD, LINES_WORD, AREAS_WORD, LETTERS_WORD, ROW_WORDS };

/* The words behind all rows: the lines' records, then the areas'. */
static const uint32_t *behind_rows(const Sheet *sheet)
{
    return sheet->table + (size_t)ROW_WORDS * sheet->outcome.layers;
}

/* An M stands right before its first layer's H, and says how many layers follow. */
static void enter_mesh(const Sheet *sheet, Layer *layer)
{
    stragumella_record m = record_at(sheet, MESH, layer->header - 1);
    layer->mesh = m.numbers[0];
    layer->to_come = m.numbers[1];
}

int next_layer(const Sheet *sheet, Layer *layer)
{
    if (layer->number == sheet->outcome.layers) {
        return 0;
    }
    const uint32_t *row = sheet->table + ROW_WORDS * layer->number;
    int first = layer->number == 0;
    layer->line_records = first ? behind_rows(sheet) : layer->line_records + layer->lines;
    layer->area_records = first ? behind_rows(sheet) + sheet->outcome.lines : layer->area_records + layer->areas;
    layer->measures = first ? sheet->measures : layer->measures + layer->areas;
    layer->number++;
    layer->header = row[HEADER_WORD];
    layer->nodes = row[NODES_WORD];
    layer->lines = row[LINES_WORD];
    layer->areas = row[AREAS_WORD];
    layer->letters = row[LETTERS_WORD];
    layer->code = record_at(sheet, LAYER, layer->header).numbers[0];
    if (layer->to_come == 0) {
        enter_mesh(sheet, layer);
    }
    layer->to_come--;
    return 1;
}

int find_layer(const Sheet *sheet, int32_t mesh, int32_t code, Layer *layer)
{
    memset(layer, 0, sizeof *layer);
    while (next_layer(sheet, layer)) {
        if (layer->mesh == mesh && layer->code == code) {
            return 1;
        }
    }
    return 0;
}

/* ---- records and points */

stragumella_record record_at(const Sheet *sheet, uint32_t kind, uint32_t number)
{
    return stragumella_read_record(kind, sheet->file + (size_t)RECORD * (number - 1), RECORD).value;
}

/* The L record says how many points the line has; they stand behind it, seven in a record. */
int add_line(const Sheet *sheet, const Layer *layer, uint32_t n, int backwards, size_t skip, Row *row)
{
    uint32_t record = layer->line_records[n - 1];
    size_t points = (size_t)record_at(sheet, LINE, record).numbers[12];
    Point *more = (Point *)realloc(row->points, (row->count + points) * sizeof *more);
    if (more == NULL) {
        return 0;
    }
    row->points = more;
    stragumella_record seven = {0};
    for (size_t i = 0; i < points; i++) {
        size_t slot = i % POINTS_A_RECORD;
        size_t place = backwards ? points - 1 - i : i;
        if (slot == 0) {
            seven = record_at(sheet, COORDINATES, ++record);
        }
        if (place >= skip) {
            Point *point = &row->points[row->count + place - skip];
            point->x = seven.numbers[2 * slot];
            point->y = seven.numbers[2 * slot + 1];
        }
    }
    row->count += points - skip;
    return 1;
}

int32_t number_of(const char *word)
{
    char *end;
    long value = strtol(word, &end, 10);
    return *word == '\0' || *end != '\0' || value < 0 || value > 999999 ? -1 : (int32_t)value;
}
