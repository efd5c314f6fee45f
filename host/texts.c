/* What is said of each refusal. docs/RULES.md is the law: a text here says what stands there, and a change begins
 * there. */
#include "texts.h"

#include "layout.h"

/* ---- the numbers (RULES 6.2) */

#define REFUSAL(number, message, rule, section, mend) {number, {message, rule, section, mend}},
static const struct {
    uint32_t number;
    Refusal text;
} refusals[] = {
#include "refusals.inc"
};
#undef REFUSAL

const Refusal *refusal_text(uint32_t number)
{
    for (size_t i = 0; i < sizeof refusals / sizeof *refusals; i++) {
        if (refusals[i].number == number) {
            return &refusals[i].text;
        }
    }
    return NULL;
}

/* ---- the fields (RULES 4, 5, 6) */

/* What a number means at the columns first, first + step, .. last of a kind. */
typedef struct {
    uint32_t number;
    uint32_t kind;
    uint32_t first;
    uint32_t last;
    uint32_t step;
    const char *text;
} Hint;

/* The columns of a field alone, and of the slots of each kind. */
#define ONE(column) column, column, 1
#define NODE_SLOTS 26, 66, 5
#define LOOP_SLOTS 10, 65, 5
#define EACH_X 1, 61, 10
#define EACH_Y 6, 66, 10
#define BOTH_CODES 30, 40, 10
#define BOTH_AREAS 35, 45, 10

/* Texts that several fields share. */
#define DUE_H "An H is due here: M's layers (column 29) say how many."
#define DUE_N "An N is due here: H's nodes (column 5) say how many."
#define DUE_L "An L is due here: H's lines (column 10) say how many."
#define DUE_A "An A is due here: H's areas (column 15) say how many."
#define DUE_COORDINATES "Coordinates are due here: L's points (column 50) say how many, seven a record."
#define DUE_LOOP                                                                                                       \
    "A loop's record is due here: A's loops (column 25) say how many loops, and a loop's line count (column 6) how "   \
    "many entries, twelve a record."
#define SPACES_ALONE "This field is blank: spaces alone."
#define LAYER_CODE "A layer code is 1 (boundary and coastline) or 5 (river and lake)."
#define LAYER_OF_H "The layer code is that of the layer's H (column 3 of it)."
#define TOTAL "This total is 0 or more."
#define NO_POINTS "The points total is 0."
#define DATE                                                                                                           \
    "A date is the year times 100 plus the month: the year is 0 to 99 and the month 1 to 12. A missing date is 0."
#define X_RANGE "X is 0 to 10000."
#define Y_RANGE "Y is 0 to 10000."
#define LINK "A link is 0, 1 or 2."
#define CODE "A code is 1 to 99999 in layer 1; in layer 5 it is 0 to 99999, and 0 is land."
#define CODE_FORM                                                                                                      \
    "A code is a number. In layer 5 land, code 0, may also be spelled as a space and four zeros; in layer 1 not, and "  \
    "no other zeros stand in front."
#define UNUSED "This field is unused and holds 0."
#define NAMES_A_LINE "An entry +n or -n names line n: n is at most H's lines (column 10)."

static const Hint hints[] = {
    {3, MESH, ONE(1), "An M is due here: a mesh begins. Its letters are \"M \", a capital M and a space."},
    {3, LAYER, ONE(1), DUE_H " Its letters are \"H1\" or \"H2\", with a capital H."},
    {3, NODE, ONE(1), DUE_N " Its letters are \"N \", a capital N and a space."},
    {3, LINE, ONE(1), DUE_L " Its letters are \"L \", a capital L and a space."},
    {3, AREA, ONE(1), DUE_A " Its letters are \"A \", a capital A and a space."},

    {4, LAYER, ONE(1), DUE_H},
    {4, NODE, ONE(1), DUE_N},
    {4, LINE, ONE(1), DUE_L},
    {4, COORDINATES, ONE(1), DUE_COORDINATES},
    {4, AREA, ONE(1), DUE_A},
    {4, LOOP, ONE(1), DUE_LOOP},

    {5, MESH, ONE(9), "This name is ten two-byte characters of Shift JIS, 20 bytes; the full-width space is 81 40."},
    {5, AREA, ONE(33),
     "This name is twenty two-byte characters of Shift JIS, 40 bytes; the full-width space is 81 40."},
    {5, LINE, ONE(30), CODE_FORM},
    {5, LINE, ONE(40), CODE_FORM},
    {5, AREA, ONE(5), CODE_FORM},
    {5, MESH, ONE(57), SPACES_ALONE},
    {5, LAYER, ONE(30), SPACES_ALONE},
    {5, LAYER, ONE(35), SPACES_ALONE},
    {5, LAYER, ONE(40), SPACES_ALONE},
    {5, NODE, ONE(71), SPACES_ALONE},
    {5, LINE, ONE(61), SPACES_ALONE},
    {5, COORDINATES, ONE(71), SPACES_ALONE},
    {5, LOOP, ONE(70), SPACES_ALONE},
    {5, COORDINATES, ONE(1), DUE_COORDINATES " If another record stands here, that count is wrong."},
    {5, LOOP, ONE(1), DUE_LOOP " If another record stands here, one of these counts is wrong."},

    {6, MESH, ONE(3), "A mesh code is 100000 to 999999, and its last two digits are 0 to 7 each."},
    {6, MESH, ONE(29), "A mesh has 1 or 2 layers."},
    {6, MESH, ONE(32), TOTAL},
    {6, MESH, ONE(37), TOTAL},
    {6, MESH, ONE(42), TOTAL},
    {6, MESH, ONE(47), NO_POINTS},
    {6, MESH, ONE(52), TOTAL},
    {6, LAYER, ONE(3), LAYER_CODE},
    {6, LAYER, ONE(5), TOTAL},
    {6, LAYER, ONE(10), "A layer has 0 to 9999 lines."},
    {6, LAYER, ONE(15), TOTAL},
    {6, LAYER, ONE(20), NO_POINTS},
    {6, LAYER, ONE(25), TOTAL},
    {6, LAYER, ONE(31), DATE},
    {6, LAYER, ONE(36), DATE},
    {6, NODE, ONE(3), LAYER_CODE},
    {6, NODE, ONE(5), "A node's item is 1 to 4 in layer 1, and 1, 6 or 8 in layer 5."},
    {6, NODE, ONE(12), X_RANGE},
    {6, NODE, ONE(17), Y_RANGE},
    {6, NODE, ONE(22), "The frame is 1 exactly on the sheet's edge (X or Y is 0 or 10000), else 0."},
    {6, NODE, ONE(24), "The count is 1 to 9. A line that starts and ends here counts twice."},
    {6, NODE, NODE_SLOTS, "A slot within the count (column 24) is not 0; a slot past it is 0."},
    {6, LINE, ONE(3), LAYER_CODE},
    {6, LINE, ONE(5), "A line's item is 1 to 5 or 9 in layer 1, and 2 or 9 in layer 5."},
    {6, LINE, ONE(12),
     "A line's kind is 0, 1, 2 or 9 in layer 1, and 1, 2 or 9 in layer 5. It is 9 exactly if the item (column 5) is "
     "9."},
    {6, LINE, ONE(23), LINK},
    {6, LINE, ONE(29), LINK},
    {6, LINE, ONE(30), CODE},
    {6, LINE, ONE(35), "The left area is 0 or more, and 0 exactly if the left code (column 30) is 88888."},
    {6, LINE, ONE(40), CODE},
    {6, LINE, ONE(45), "The right area is 0 or more, and 0 exactly if the right code (column 40) is 88888."},
    {6, LINE, ONE(50), "A line has 2 points or more."},
    {6, LINE, ONE(56), UNUSED},
    {6, LINE, ONE(58), UNUSED},
    {6, COORDINATES, EACH_X, "X is 0 to 10000 within the line's points (column 50 of its L), and 0 past them."},
    {6, COORDINATES, EACH_Y, "Y is 0 to 10000 within the line's points (column 50 of its L), and 0 past them."},
    {6, AREA, ONE(3), LAYER_CODE},
    {6, AREA, ONE(5), CODE " An area's code is never 88888."},
    {6, AREA, ONE(15), X_RANGE},
    {6, AREA, ONE(20), Y_RANGE},
    {6, AREA, ONE(25), "An area has 1 loop or more."},
    {6, AREA, ONE(29), "An area has 1 line or more."},
    {6, LOOP, ONE(6), "A loop has 1 line or more."},
    {6, LOOP, LOOP_SLOTS,
     "A slot within the line count (column 6) is not 0; a slot past it is 0. The count goes on through the loop's "
     "later records."},

    {8, MESH, ONE(3), "A mesh code is above that of the mesh before it and has the same first four digits."},
    {8, LAYER, ONE(3), "A layer code is above that of the layer before it in the same mesh: 1, then 5."},
    {8, NODE, ONE(3), LAYER_OF_H},
    {8, NODE, ONE(7), "Nodes are numbered 1, 2, 3 and on in each layer, without gaps."},
    {8, LINE, ONE(3), LAYER_OF_H},
    {8, LINE, ONE(7), "Lines are numbered 1, 2, 3 and on in each layer, without gaps."},
    {8, AREA, ONE(3), LAYER_OF_H},
    {8, AREA, ONE(10), "Areas are numbered 1, 2, 3 and on in each layer, without gaps."},
    {8, LOOP, ONE(1),
     "An area's loops are numbered 1, -2, -3 and on. A loop's later record repeats the loop's serial."},
    {8, LOOP, ONE(6), "A loop's later record repeats the line count of the loop's first record."},

    {10, MESH, ONE(32), "M's nodes are the sum of its layers' nodes (column 5 of each H)."},
    {10, MESH, ONE(37), "M's lines are the sum of its layers' lines (column 10 of each H)."},
    {10, MESH, ONE(42), "M's areas are the sum of its layers' areas (column 15 of each H)."},
    {10, MESH, ONE(52), "M's records are all records of its mesh but the M itself. Its H records count."},
    {10, LAYER, ONE(25), "H's records are all records of its layer but the H itself. An H alone has 0."},
    {10, AREA, ONE(29), "A's lines are the sum of its loops' line counts (column 6 of each loop's first record)."},

    {11, NODE, NODE_SLOTS, NAMES_A_LINE},
    {11, LINE, ONE(18), "The start node is 1 to H's nodes (column 5). Node 0 names nothing."},
    {11, LINE, ONE(24), "The end node is 1 to H's nodes (column 5). Node 0 names nothing."},
    {11, LINE, ONE(35), "The left area, if not 0, is 1 to H's areas (column 15)."},
    {11, LINE, ONE(45), "The right area, if not 0, is 1 to H's areas (column 15)."},
    {11, LOOP, LOOP_SLOTS, NAMES_A_LINE},

    {12, NODE, NODE_SLOTS,
     "+n stands at the node where line n starts (column 18 of its L), -n at the node where it ends (column 24)."},
    {12, LINE, ONE(23),
     "The start link is 1 or 2 if the start node is on the frame (column 22 of its N is 1), and 0 if not."},
    {12, LINE, ONE(29),
     "The end link is 1 or 2 if the end node is on the frame (column 22 of its N is 1), and 0 if not."},
    {12, LINE, ONE(30), "The left code is that of the left area: column 5 of the A that column 35 names."},
    {12, LINE, ONE(40), "The right code is that of the right area: column 5 of the A that column 45 names."},
    {12, COORDINATES, ONE(1),
     "This is the line's first or last point. The first is where its start node is (column 18 of the L), the last "
     "where its end node is (column 24)."},
    {12, COORDINATES, EACH_X, "This is the line's last point. It is where its end node is (column 24 of the L)."},

    {13, NODE, NODE_SLOTS,
     "An earlier slot of this node holds the same entry, sign and all. +n and -n of one line are not the same."},
    {13, LOOP, LOOP_SLOTS,
     "An earlier slot of this area, in this loop or one before it, holds the same entry, sign and all."},

    {14, LINE, ONE(18), "The start node lists this line as +n, where n is the line's serial (column 7)."},
    {14, LINE, ONE(24), "The end node lists this line as -n, where n is the line's serial (column 7)."},

    {15, LOOP, LOOP_SLOTS,
     "+n goes from the start node of line n to its end node (columns 18 and 24 of its L), -n the other way. The entry "
     "before the loop's first is the loop's last."},

    {16, LOOP, ONE(1),
     "An area's first loop (serial 1) runs clockwise, its others (-2, -3 and on) counterclockwise, with X to the east "
     "and Y to the north. A loop of measure 0 runs neither way."},

    {17, LOOP, LOOP_SLOTS,
     "+n stands in the area on the right of line n (column 45 of its L), -n in the area on its left (column 35)."},

    {18, LINE, ONE(35), "A loop of the left area holds the entry -n, where n is the line's serial (column 7)."},
    {18, LINE, ONE(45), "A loop of the right area holds the entry +n, where n is the line's serial (column 7)."},
};

/* Under an H1 (RULES 5.10) these go before the others. */
#define WITHOUT_AREAS "The layer is unstructured: its H has the letters H1, and whatever tells of areas is 0 there."

static const Hint unstructured_hints[] = {
    {6, LAYER, ONE(15), WITHOUT_AREAS " H's areas are 0, and no A follows. A layer that has areas has the letters H2."},
    {6, LINE, BOTH_CODES, WITHOUT_AREAS " Both codes of an L (columns 30 and 40) are 0; not even 88888 stands there."},
    {6, LINE, BOTH_AREAS, WITHOUT_AREAS " Both area numbers of an L (columns 35 and 45) are 0."},
};

static int starts_at(const Hint *hint, uint32_t column)
{
    return column >= hint->first && column <= hint->last && (column - hint->first) % hint->step == 0;
}

/* The first of `count` that is for the place, or NULL. */
static const char *sought(const Hint *list, size_t count, uint32_t number, uint32_t kind, uint32_t column)
{
    for (size_t i = 0; i < count; i++) {
        if (list[i].number == number && list[i].kind == kind && starts_at(&list[i], column)) {
            return list[i].text;
        }
    }
    return NULL;
}

const char *refusal_hint(uint32_t number, uint32_t kind, uint32_t column, uint32_t letters)
{
    const char *first = NULL;
    if (letters == UNSTRUCTURED) {
        first = sought(unstructured_hints, sizeof unstructured_hints / sizeof *unstructured_hints, number, kind, column);
    }
    return first != NULL ? first : sought(hints, sizeof hints / sizeof *hints, number, kind, column);
}
