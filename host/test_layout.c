/* Tries layout.c alone: the fields of each kind follow one another from column 1 to the line end, the letters first where a kind has them. */
#include "layout.h"

static int failed;

static void wrong(uint32_t kind, unsigned column, const char *what)
{
    failed++;
    printf("%s, column %u: %s\n", kind_name(kind), column, what);
}

/* The numbers that a kind has, by include/stragumella.h. */
static const size_t numbers_of[] = {[MESH] = 7, [LAYER] = 8, [NODE] = 16, [LINE] = 15, [COORDINATES] = 14, [AREA] = 7, [LOOP] = 14};

int main(void)
{
    unsigned fields = 0;
    for (uint32_t kind = MESH; kind <= LOOP; kind++) {
        const Field *field;
        unsigned column = 1;
        for (size_t i = 0; (field = field_of(kind, i)) != NULL; i++) {
            if (field->start != column) {
                wrong(kind, column, "no field begins here");
            }
            for (unsigned c = field->start; c < (unsigned)field->start + field->width; c++) {
                if (field_at(kind, c) != field) {
                    wrong(kind, c, "another field is told");
                }
            }
            if ((field->what == LETTERS) != (i == 0 && kind != COORDINATES && kind != LOOP)) {
                wrong(kind, column, "letters where none are, or none where they are");
            }
            if (field->what == LINE_END && numbers_before(kind, field) != numbers_of[kind]) {
                wrong(kind, column, "the numbers are not counted");
            }
            column += field->width;
            fields++;
        }
        if (column != 75) {
            wrong(kind, column, "the fields end here");
        }
        if (kind_named(kind_name(kind)) != kind) {
            wrong(kind, 0, "another kind has the name");
        }
    }
    printf("%u fields\n", fields);
    return failed != 0;
}
