/* The record of a node, a line or an area, by mesh, layer and number. */
#ifndef FIND_H
#define FIND_H

#include "sheet.h"
#include "writer.h"

typedef struct {
    int32_t mesh;
    int32_t layer;
    uint32_t kind; /* NODE, LINE or AREA */
    int32_t number;
} Sought;

/* Says the record and its fields, or the file's refusal where it has no table (stages 1 and 2). Answers the exit status. */
int put_found(Writer *w, const Input *file, Sought sought);

#endif
