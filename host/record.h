/* One record, field by field. */
#ifndef RECORD_H
#define RECORD_H

#include "layout.h"
#include "sheet.h"
#include "writer.h"

/* Says a record, counted from 1, read as the kind; 0: as what is due there. Answers the exit status; on UNREADABLE there is no
 * such record. */
int put_record(Writer *w, const Input *file, uint32_t number, uint32_t kind);

/* The bytes of a record as the file has them, and beneath them a caret at the column and a mark under the rest of its field. */
void put_caret(Writer *w, const Input *file, uint32_t number, const Field *field, uint32_t column);

/* The same as two lines for people. */
void print_caret(FILE *out, const Input *file, uint32_t number, const Field *field, uint32_t column);

/* "35-39", or "30" for a field of one column. */
void field_columns(const Field *field, char columns[8]);

#endif
