/* A layer's figures: layer_figures FILE prints a line a layer with its counts and both its sums, and below it a line an area.
 *
 * Measures are doubled areas, in sheet coordinates. The areas' sum and the sum along the lines between an area and the outside are
 * equal in every layer of an accepted sheet; that is proved, and printed here for whoever wants to see it. An unstructured layer has no areas,
 * and both of its sums are 0.
 */
#include "sheet.h"

#include <stdio.h>
#include <stdlib.h>

static void print_areas(const Sheet *sheet, const Layer *layer)
{
    for (uint32_t i = 0; i < layer->areas; i++) {
        stragumella_record area = record_at(sheet, AREA, layer->area_records[i]);
        printf("  area=%d code=%d measure=%lld\n", area.numbers[2], area.numbers[1], (long long)layer->measures[i]);
    }
}

static void print_layers(const Sheet *sheet, const int64_t *sums)
{
    Layer layer = {0};
    while (next_layer(sheet, &layer)) {
        const int64_t *pair = sums + 2 * (layer.number - 1);
        printf("mesh=%d layer=%d nodes=%u lines=%u areas=%u sum=%lld outside=%lld\n", layer.mesh, layer.code, (unsigned)layer.nodes,
               (unsigned)layer.lines, (unsigned)layer.areas, (long long)pair[0], (long long)pair[1]);
        print_areas(sheet, &layer);
    }
}

/* All sums in one call. The file was accepted before, so it is again, and two places a layer are enough. */
static int print_figures(const Sheet *sheet)
{
    size_t room = 2 * (size_t)sheet->outcome.layers;
    int64_t *sums = (int64_t *)calloc(room + 1, sizeof *sums);
    if (sums == NULL) {
        fputs("no memory\n", stderr);
        return 2;
    }
    stragumella_all_sums(sheet->file, sheet->length, sheet->table, sheet->words, sums, room);
    print_layers(sheet, sums);
    free(sums);
    return 0;
}

int main(int argc, char **argv)
{
    Sheet sheet;
    if (argc != 2) {
        fputs("usage: layer_figures FILE\n", stderr);
        return 2;
    }
    int status = sheet_open(&sheet, argv[1]);
    if (status != 0) {
        return status;
    }
    status = print_figures(&sheet);
    sheet_close(&sheet);
    return status;
}
