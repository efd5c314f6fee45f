/* A refused file explained to people: the rule, where it is broken, the bytes, and what to mend. */
#ifndef EXPLAIN_H
#define EXPLAIN_H

#include "sheet.h"
#include "writer.h"

/* Of a refused file. As text a page; JSON has the same as items. */
void put_explanation(Writer *w, const Sheet *sheet);

/* Of an accepted file. */
void put_acceptance(Writer *w, const Sheet *sheet);

/* What a number means; refusal_text has one for it. */
void put_meaning(Writer *w, uint32_t number);

#endif
