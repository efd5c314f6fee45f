/* In which mesh, layer, and node, line or area a record stands. */
#ifndef WHEREABOUTS_H
#define WHEREABOUTS_H

#include "layout.h"
#include "sheet.h"

/* A record that what stands at another record is part of; record 0: there is none. */
typedef struct {
    uint32_t kind;
    uint32_t record;
    stragumella_record value;
} Bearer;

typedef struct {
    Bearer mesh;  /* the M, or the record itself where it is one and can be read */
    Bearer layer; /* the H, likewise */
    uint32_t letters; /* of the H, also where what stands behind them cannot be read; 0: there is none, or they are wrong */
    Bearer item;  /* the N, L or A, where the record is behind it or is it itself */
    int32_t serial; /* of the node, line or area; where its record is refused itself, the number that is due; 0: of none */
} Whereabouts;

/* Of a record that is due as the kind. All records before it keep stage 2 (the file is not refused before it), so that the first
 * letter tells every M, H, N, L and A among them, and no coordinates and no loop begin with one (docs/RULES.md 4). */
Whereabouts whereabouts(const Input *file, uint32_t record, uint32_t due);

#endif
