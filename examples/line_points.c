/* The points of a line: line_points FILE MESH LAYER N prints a line "X Y" a point, in sheet coordinates, from the line's start to its end. */
#include "sheet.h"

#include <stdio.h>
#include <stdlib.h>

static int print_points(const Sheet *sheet, const Layer *layer, uint32_t n)
{
    Row row = {0};
    if (!add_line(sheet, layer, n, 0, 0, &row)) {
        fputs("no memory\n", stderr);
        return 2;
    }
    for (size_t i = 0; i < row.count; i++) {
        printf("%d %d\n", row.points[i].x, row.points[i].y);
    }
    free(row.points);
    return 0;
}

int main(int argc, char **argv)
{
    Sheet sheet;
    Layer layer;
    if (argc != 5) {
        fputs("usage: line_points FILE MESH LAYER N\n", stderr);
        return 2;
    }
    int status = sheet_open(&sheet, argv[1]);
    if (status != 0) {
        return status;
    }
    int32_t n = number_of(argv[4]);
    if (find_layer(&sheet, number_of(argv[2]), number_of(argv[3]), &layer) && n > 0 && (uint32_t)n <= layer.lines) {
        status = print_points(&sheet, &layer, (uint32_t)n);
    } else {
        fputs("no such line\n", stderr);
        status = 2;
    }
    sheet_close(&sheet);
    return status;
}
