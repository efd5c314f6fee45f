/* What is said of a judged file: its counts, its areas' measures, its layers' sums. */
#ifndef FIGURES_H
#define FIGURES_H

#include "sheet.h"
#include "writer.h"

/* Of an accepted file. */
void put_counts(Writer *w, const Sheet *sheet);
void put_measures(Writer *w, const Sheet *sheet);
void put_sums(Writer *w, const Sheet *sheet);

#endif
