/* The rings of an area: area_rings FILE MESH LAYER N prints of each loop a line "ring SERIAL" and a line "X Y" a point.
 *
 * Serial 1 is the ring around the area; a serial below 0 is a hole. A loop is a row of entries: n is line n from its start to
 * its end, -n the same line backwards. Each begins where the one before it ends, and the last one ends where the first one
 * begins; so the node between two lines is printed once, and the ring is closed.
 */
#include "sheet.h"

#include <stdio.h>
#include <stdlib.h>

enum { ENTRIES_A_RECORD = 12 };

/* A loop's entries stand twelve in a record; each of its records has its serial and how many entries the loop has. Answers the record
 * behind the loop, or 0 where there is no memory. */
static uint32_t add_loop(const Sheet *sheet, const Layer *layer, uint32_t record, Row *ring)
{
    stragumella_record loop = record_at(sheet, LOOP, record);
    int32_t entries = loop.numbers[1];
    for (int32_t i = 0; i < entries; i++) {
        int32_t slot = i % ENTRIES_A_RECORD;
        if (slot == 0) {
            loop = record_at(sheet, LOOP, record++);
        }
        int32_t entry = loop.numbers[2 + slot];
        uint32_t line = (uint32_t)(entry < 0 ? -entry : entry);
        if (!add_line(sheet, layer, line, entry < 0, i == 0 ? 0 : 1, ring)) {
            return 0;
        }
    }
    return record;
}

static int print_rings(const Sheet *sheet, const Layer *layer, uint32_t n)
{
    uint32_t record = layer->area_records[n - 1];
    int32_t loops = record_at(sheet, AREA, record++).numbers[5];
    for (; loops > 0 && record != 0; loops--) {
        Row ring = {0};
        printf("ring %d\n", record_at(sheet, LOOP, record).numbers[0]);
        record = add_loop(sheet, layer, record, &ring);
        for (size_t i = 0; i < ring.count; i++) {
            printf("%d %d\n", ring.points[i].x, ring.points[i].y);
        }
        free(ring.points);
    }
    if (record == 0) {
        fputs("no memory\n", stderr);
        return 2;
    }
    return 0;
}

int main(int argc, char **argv)
{
    Sheet sheet;
    Layer layer;
    if (argc != 5) {
        fputs("usage: area_rings FILE MESH LAYER N\n", stderr);
        return 2;
    }
    int status = sheet_open(&sheet, argv[1]);
    if (status != 0) {
        return status;
    }
    int32_t n = number_of(argv[4]);
    if (find_layer(&sheet, number_of(argv[2]), number_of(argv[3]), &layer) && n > 0 && (uint32_t)n <= layer.areas) {
        status = print_rings(&sheet, &layer, (uint32_t)n);
    } else {
        fputs("no such area\n", stderr);
        status = 2;
    }
    sheet_close(&sheet);
    return status;
}
