#include "find.h"

#include "record.h"

/* A layer of the table: its row, and where its lines and areas begin among all. */
typedef struct {
    Row row;
    size_t lines;
    size_t areas;
} Place;

/* How many of the kind the layer has. */
static uint32_t count_of(const Place *place, uint32_t kind)
{
    return kind == NODE ? place->row.nodes : kind == LINE ? place->row.lines : place->row.areas;
}

/* Nodes stand one after another behind their H; the table has the records of lines and areas. `all` is the number of lines. */
static uint32_t record_in(const Sheet *sheet, const Place *place, uint32_t kind, uint32_t number, size_t all)
{
    const uint32_t *lines = sheet_lines(sheet);
    if (kind == NODE) {
        return place->row.header + number;
    }
    return kind == LINE ? lines[place->lines + number - 1] : lines[all + place->areas + number - 1];
}

/* Looks for the layer among all rows. Answers whether it is there, and adds up the lines on the way. */
static int find_layer(const Sheet *sheet, Sought sought, Place *found, size_t *all)
{
    size_t rows = sheet_rows(sheet);
    Mesh mesh = {0};
    Place place = {0};
    int there = 0;
    for (size_t i = 0; i < rows; i++) {
        place.row = sheet_row(sheet, i);
        mesh_next(&mesh, sheet, i);
        stragumella_reading h = sheet_read(sheet->file, LAYER, place.row.header);
        if (mesh.code == sought.mesh && h.value.numbers[0] == sought.layer) {
            *found = place;
            there = 1;
        }
        place.lines += place.row.lines;
        place.areas += place.row.areas;
    }
    *all = place.lines;
    return there;
}

static int no_layer(Writer *w, Sought sought)
{
    char message[80];
    snprintf(message, sizeof message, "no layer %d of a mesh %d", (int)sought.layer, (int)sought.mesh);
    return put_complaint(w, message);
}

/* An unstructured layer has no areas at all: that is said in place of the last one's number. */
static int no_item(Writer *w, Sought sought, const Place *place)
{
    const char *kind = sought.kind == NODE ? "node" : sought.kind == LINE ? "line" : "area";
    char last[48];
    char message[120];
    if (sought.kind == AREA && place->row.letters == UNSTRUCTURED) {
        snprintf(last, sizeof last, "the layer is unstructured (H1)");
    } else {
        snprintf(last, sizeof last, "the last one is %u", (unsigned)count_of(place, sought.kind));
    }
    snprintf(message, sizeof message, "no %s %d in layer %d of mesh %d, %s", kind, (int)sought.number, (int)sought.layer,
             (int)sought.mesh, last);
    return put_complaint(w, message);
}

static int put_in_table(Writer *w, const Sheet *sheet, Sought sought)
{
    Place place = {0};
    size_t all;
    if (!find_layer(sheet, sought, &place, &all)) {
        return no_layer(w, sought);
    }
    if (sought.number < 1 || (uint32_t)sought.number > count_of(&place, sought.kind)) {
        return no_item(w, sought, &place);
    }
    uint32_t record = record_in(sheet, &place, sought.kind, (uint32_t)sought.number, all);
    return put_record(w, sheet->file, record, 0);
}

int put_found(Writer *w, const Input *file, Sought sought)
{
    Sheet sheet;
    int status = REFUSED;
    const char *why = sheet_judge(&sheet, file, MEASURES);
    if (why != NULL) {
        return put_complaint(w, why);
    }
    if (sheet.words == 0) {
        put_refusal(w, sheet.outcome.number, sheet.outcome.record, sheet.outcome.column);
    } else {
        status = put_in_table(w, &sheet, sought);
    }
    sheet_free(&sheet);
    return status;
}
