/* A file with the library's answer. Nothing is judged here: the library tells how many words the file needs, and
 * then judges it and fills the buffers.
 */
#include "sheet.h"

#include "layout.h"

/* Room for one entry more than is lent, so that NULL always means that there is no memory. */
static void *room(size_t count, size_t size)
{
    return calloc(count + 1, size);
}

/* Figures: a word of the table stands for each area (its A record), and each layer has a row of more than two words, so as many
 * places as the words are enough. */
const char *sheet_judge(Sheet *sheet, const Input *file, Figures figures)
{
    sheet->file = file;
    sheet->words = (size_t)stragumella_need(file->bytes, file->length);
    sheet->table = room(sheet->words, sizeof *sheet->table);
    sheet->figures = room(sheet->words, sizeof *sheet->figures);
    if (sheet->table == NULL || sheet->figures == NULL) {
        sheet_free(sheet);
        return "no memory for the table";
    }
    sheet->outcome = (figures == SUMS ? stragumella_all_sums : stragumella_judge)(
        file->bytes, file->length, sheet->table, sheet->words, sheet->figures, sheet->words);
    return NULL;
}

void sheet_free(Sheet *sheet)
{
    free(sheet->table);
    free(sheet->figures);
}

/* A row of the table (stragumella.h): how many words it has, and which word is what. */
enum { HEADER_WORD, NODES_WORD, LINES_WORD, AREAS_WORD, LETTERS_WORD, ROW_WORDS };

Row sheet_row(const Sheet *sheet, size_t layer)
{
    const uint32_t *w = sheet->table + ROW_WORDS * layer;
    return (Row){.header = w[HEADER_WORD],
                 .nodes = w[NODES_WORD],
                 .lines = w[LINES_WORD],
                 .areas = w[AREAS_WORD],
                 .letters = w[LETTERS_WORD]};
}

/* The words of a table are a row, the lines and the areas of each layer, so the rows end where these add up. */
size_t sheet_rows(const Sheet *sheet)
{
    size_t rows = 0;
    size_t words = 0;
    while (words < sheet->words) {
        Row row = sheet_row(sheet, rows);
        words += (size_t)ROW_WORDS + row.lines + row.areas;
        rows++;
    }
    return rows;
}

const uint32_t *sheet_lines(const Sheet *sheet)
{
    return sheet->table + ROW_WORDS * sheet_rows(sheet);
}

const uint8_t *record_bytes(const Input *file, size_t number, size_t *length)
{
    size_t start = (number - 1) * RECORD;
    size_t left = start < file->length ? file->length - start : 0;
    *length = left < RECORD ? left : RECORD;
    return left == 0 ? file->bytes : file->bytes + start;
}

/* A record that the file's end cuts is handed over as it is; the library refuses it. */
stragumella_reading sheet_read(const Input *file, uint32_t kind, size_t number)
{
    size_t length;
    const uint8_t *bytes = record_bytes(file, number, &length);
    return stragumella_read_record(kind, bytes, length);
}

/* An M stands right before its first layer's H, and says how many layers follow. */
void mesh_next(Mesh *mesh, const Sheet *sheet, size_t layer)
{
    if (mesh->left == 0) {
        mesh->record = sheet_row(sheet, layer).header - 1;
        stragumella_reading m = sheet_read(sheet->file, MESH, mesh->record);
        mesh->code = m.value.numbers[0];
        mesh->left = m.value.numbers[1];
    }
    mesh->left--;
}
