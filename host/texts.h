/* What is said of each refusal, in the words of docs/RULES.md and docs/REFUSALS.md. */
#ifndef TEXTS_H
#define TEXTS_H

#include <stdint.h>

/* No text has a line break. */
typedef struct {
    const char *message; /* a few words, for one line */
    const char *rule;    /* when it is given exactly */
    const char *section; /* where RULES.md says it: "6.8"; of 13, which has two homes, "6.7, 6.8" */
    const char *mend;    /* what the supplier should mend, or the caller where no file is at fault */
} Refusal;

/* The text of a number of RULES 6.2, and of 0, acceptance. NULL for any other number. */
const Refusal *refusal_text(uint32_t number);

/* What is asked of this very field: the refusal's number, the kind of the record that is due there (1 M, 2 H, 3 N, 4 L,
 * 5 coordinates, 6 A, 7 loop), the column where the field starts and the letters of the layer's H (1 for H1, 2 for H2, 0
 * where there is no layer). There is a sentence or two for each place in a file where 3, 4, 6, 8 or 10 to 18 can stand, and
 * for 5 at codes, at names, at blanks and where another record is taken for coordinates or a loop. NULL elsewhere. */
const char *refusal_hint(uint32_t number, uint32_t kind, uint32_t column, uint32_t letters);

#endif
