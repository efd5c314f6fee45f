#include "figures.h"

#include "layout.h"

void put_counts(Writer *w, const Sheet *sheet)
{
    const stragumella_outcome *o = &sheet->outcome;
    put_word(w, "status", "ok");
    put_number(w, "meshes", o->meshes);
    put_number(w, "layers", o->layers);
    put_number(w, "nodes", o->nodes);
    put_number(w, "lines", o->lines);
    put_number(w, "areas", o->areas);
    put_number(w, "records", o->records);
}

/* One area: its A record's numbers are layer, code and serial. */
static void put_area(Writer *w, const Sheet *sheet, const Mesh *mesh, uint32_t record, int64_t measure)
{
    stragumella_reading a = sheet_read(sheet->file, AREA, record);
    row_begin(w, record);
    put_number(w, "mesh", mesh->code);
    put_number(w, "layer", a.value.numbers[0]);
    put_number(w, "area", a.value.numbers[2]);
    put_number(w, "code", a.value.numbers[1]);
    put_number(w, "measure", measure);
    row_end(w);
}

void put_measures(Writer *w, const Sheet *sheet)
{
    const uint32_t *areas = sheet_lines(sheet) + sheet->outcome.lines;
    const int64_t *measure = sheet->figures;
    Mesh mesh = {0};
    put_status(w, "ok");
    list_begin(w, "areas");
    for (size_t layer = 0; layer < sheet->outcome.layers; layer++) {
        mesh_next(&mesh, sheet, layer);
        for (uint32_t left = sheet_row(sheet, layer).areas; left > 0; left--) {
            put_area(w, sheet, &mesh, *areas++, *measure++);
        }
    }
    list_end(w);
}

/* One layer: its H record's first number is the layer code. */
static void put_layer(Writer *w, const Sheet *sheet, const Mesh *mesh, size_t layer)
{
    uint32_t header = sheet_row(sheet, layer).header;
    stragumella_reading h = sheet_read(sheet->file, LAYER, header);
    row_begin(w, header);
    put_number(w, "mesh", mesh->code);
    put_number(w, "layer", h.value.numbers[0]);
    put_number(w, "areas", sheet->figures[2 * layer]);
    put_number(w, "outside", sheet->figures[2 * layer + 1]);
    row_end(w);
}

void put_sums(Writer *w, const Sheet *sheet)
{
    Mesh mesh = {0};
    put_status(w, "ok");
    list_begin(w, "layers");
    for (size_t layer = 0; layer < sheet->outcome.layers; layer++) {
        mesh_next(&mesh, sheet, layer);
        put_layer(w, sheet, &mesh, layer);
    }
    list_end(w);
}
