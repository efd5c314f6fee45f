/* Tries the first look (look.h) on sheet S (docs/RULES.md 11) after this and that has happened to it, and on random
 * bytes. Needs neither the library nor files. Prints how many files were looked at; or what differs, and ends with 1.
 *
 * Each file stands in a block of just its length, so that the compiler's checks see a step outside.
 */
#include <stdio.h>
#include <stdlib.h>
#include <string.h>

#include "look.h"

enum { RECORDS = 7, BYTES = 74, SHEET = RECORDS * BYTES, ROOM = 8192, CAUSES = 16 };

#define SEEN sizeof(((Guess *)NULL)->seen)

static unsigned looked;
static unsigned wrong;

/* ---- sheet S, in many spellings */

/* The columns of each record; '#' stands for a character of a name. */
static const char *const sheet[RECORDS] = {
    "M 533945##########  1    1    1    1    0    6                ",
    "H2 1    1    1    1    0    5    0    0                                 ",
    "N  1 3    1    0    0 1 2    1   -1    0    0    0    0    0    0    0  ",
    "L  1 9    1     9    12    1288888    013101    1     5 0  0            ",
    "    0    0    010000100001000010000    0    0    0    0    0    0    0  ",
    "A  113101    1 5000 5000   1   1####################",
    "    1   1    1    0    0    0    0    0    0    0    0    0    0    0   ",
};

typedef struct {
    const char *bytes;
    size_t length;
} Text;

#define TEXT(literal) {literal, sizeof(literal) - 1}
#define UTF_8 "\xE3\x80\x80"
#define LOST "\xEF\xBF\xBD@"
#define ORDER_MARK "\xEF\xBB\xBF"

/* What is made of S, and what should be told of it. */
typedef struct {
    const char *name;
    const char *causes;    /* all of them, the likeliest first */
    const char *seen;      /* the first one's sentence; NULL is any */
    const char *end;       /* each line's end; NULL is CR LF */
    const char *character; /* each character of a name; NULL is 81 40 */
    int strip;             /* no spaces at the ends of lines */
    int tabs;              /* a tab for four spaces */
    int small;             /* a small m for the first letter */
    size_t place;          /* there `out` bytes are taken out and `in` is put in */
    int from_end;          /* the place counts back from the end */
    size_t out;
    Text in;
    size_t times; /* how often it is put in; 0 is once */
} Case;

static const Case cases[] = {
    /* another form */
    {.name = "gzip",
     .causes = "packed",
     .seen = "the file begins with 1F 8B, as files packed by gzip do",
     .in = TEXT("\x1F\x8B\x08")},
    {.name = "xz", .causes = "packed", .in = TEXT("\xFD\x37\x7AXZ\0")},
    {.name = "zip", .causes = "packed", .in = TEXT("PK\3\4")},
    {.name = "bzip2", .causes = "packed", .in = TEXT("BZh9")},
    {.name = "zstd", .causes = "packed", .in = TEXT("\x28\xB5\x2F\xFD")},
    {.name = "compress", .causes = "packed", .in = TEXT("\x1F\x9D")},
    {.name = "7z", .causes = "packed", .in = TEXT("7z\xBC\xAF\x27\x1C")},
    {.name = "lzh",
     .causes = "packed",
     .seen = "the file begins with 1E 45 2D 6C 68, as files packed by lzh do",
     .in = TEXT("\x1E\x45-lh5-")},
    {.name = "UTF-16, low byte first",
     .causes = "utf-16",
     .seen = "the file begins with FF FE, a byte order mark of UTF-16",
     .in = TEXT("\xFF\xFEM\0")},
    {.name = "UTF-16, high byte first", .causes = "utf-16", .in = TEXT("\xFE\xFF\0M")},
    {.name = "UTF-16 without a mark", .causes = "utf-16", .out = 2, .in = TEXT("M\0 \0")},
    {.name = "UTF-16 without a mark, high byte first", .causes = "utf-16", .out = 2, .in = TEXT("\0M\0 ")},
    {.name = "EBCDIC",
     .causes = "ebcdic",
     .seen = "the file begins with D4 40, \"M \" in EBCDIC",
     .end = "@@",
     .out = 2,
     .in = TEXT("\xD4@")},
    {.name = "a page",
     .causes = "no-sheet line-too-short",
     .seen = "the first bytes are 3C 21 44 4F; a sheet begins with M and a space, 4D 20",
     .in = TEXT("<!DOCTYPE html>\r\n")},
    {.name = "a page with LF", .causes = "no-sheet lf-alone line-too-short", .in = TEXT("<!DOCTYPE html>\n")},
    {.name = "zeros alone", .causes = "no-sheet zeros-at-end", .out = SHEET, .in = TEXT("\0"), .times = SHEET},

    /* a byte order mark */
    {.name = "mark",
     .causes = "byte-order-mark",
     .seen = "the file begins with EF BB BF, the byte order mark of UTF-8",
     .in = TEXT(ORDER_MARK)},
    {.name = "mark alone", .causes = "byte-order-mark", .out = SHEET, .in = TEXT(ORDER_MARK)},
    {.name = "mark, UTF-8", .causes = "byte-order-mark utf-8", .character = UTF_8, .in = TEXT(ORDER_MARK)},
    {.name = "mark, LF", .causes = "byte-order-mark lf-alone", .end = "\n", .in = TEXT(ORDER_MARK)},
    {.name = "mark, LF, UTF-8, stripped",
     .causes = "byte-order-mark lf-alone utf-8 stripped-blanks",
     .end = "\n",
     .character = UTF_8,
     .strip = 1,
     .in = TEXT(ORDER_MARK)},
    {.name = "mark before no sheet",
     .causes = "byte-order-mark no-sheet line-too-short",
     .in = TEXT(ORDER_MARK "?\r\n")},

    /* line ends */
    {.name = "LF",
     .causes = "lf-alone",
     .seen = "record 1 ends with LF (0A) in byte 73 and no CR (0D) before it; so do 6 of the next 6 lines",
     .end = "\n"},
    {.name = "CR",
     .causes = "cr-alone",
     .seen = "record 1 ends with CR (0D) in byte 73 and no LF (0A) behind it; so do 6 of the next 6 lines",
     .end = "\r"},
    {.name = "CR CR LF",
     .causes = "cr-doubled",
     .seen = "record 1 ends with CR CR LF (0D 0D 0A) in byte 73 and on; so do 6 of the next 6 lines",
     .end = "\r\r\n"},
    {.name = "LF CR",
     .causes = "lf-cr",
     .seen = "record 1 ends with LF CR (0A 0D) in byte 73 and on; so do 6 of the next 6 lines",
     .end = "\n\r"},
    {.name = "no line ends",
     .causes = "no-line-ends",
     .seen = "no CR (0D) and no LF (0A) in the 504 bytes from record 1 on; its bytes 73 and 74 are 48 32",
     .end = ""},
    {.name = "spaces for line ends", .causes = "no-line-ends", .end = "  "},
    {.name = "LF in one record",
     .causes = "lf-alone",
     .seen = "record 3 ends with LF (0A) in byte 73 and no CR (0D) before it; so do 0 of the next 4 lines",
     .place = 2 * BYTES + 72,
     .out = 1},
    {.name = "LF in the last record",
     .causes = "lf-alone",
     .seen = "record 7 ends with LF (0A) in byte 73 and no CR (0D) before it",
     .from_end = 1,
     .place = 2,
     .out = 1},
    {.name = "LF, a small m", .causes = "lf-alone no-sheet", .end = "\n", .small = 1},
    {.name = "LF, the last one missing",
     .causes = "lf-alone last-line-end",
     .end = "\n",
     .from_end = 1,
     .place = 1,
     .out = 1},
    {.name = "LF, cut", .causes = "lf-alone cut", .end = "\n", .from_end = 1, .place = 30, .out = 30},
    {.name = "LF, cut by one column", .causes = "lf-alone cut", .end = "\n", .from_end = 1, .place = 2, .out = 2},
    {.name = "LF, 1A", .causes = "lf-alone end-mark", .end = "\n", .from_end = 1, .in = TEXT("\x1A")},
    {.name = "byte 74",
     .causes = "line-end-changed",
     .seen = "bytes 73 and 74 of record 3 are 0D 20 in place of 0D 0A; the next record ends as it should",
     .place = 2 * BYTES + 73,
     .out = 1,
     .in = TEXT(" ")},
    {.name = "byte 73", .causes = "line-end-changed", .place = 2 * BYTES + 72, .out = 1, .in = TEXT(" ")},
    {.name = "bytes 73 and 74 of the first", .causes = "line-end-changed", .place = 72, .out = 2, .in = TEXT("\n\n")},
    {.name = "byte 74 of the last",
     .causes = "line-end-changed",
     .seen = "bytes 73 and 74 of record 7 are 0D 0D in place of 0D 0A; the file ends behind them",
     .from_end = 1,
     .place = 1,
     .out = 1,
     .in = TEXT("\r")},

    /* names */
    {.name = "UTF-8",
     .causes = "utf-8",
     .seen = "record 1 has 82 bytes before its line end; as UTF-8, its 10 characters of three bytes counted "
             "as two, it has 72 columns",
     .character = UTF_8},
    {.name = "UTF-8, LF", .causes = "lf-alone utf-8", .character = UTF_8, .end = "\n"},
    {.name = "UTF-8, stripped", .causes = "utf-8 stripped-blanks", .character = UTF_8, .strip = 1},
    {.name = "UTF-8, a column lost", .causes = "utf-8 line-too-short", .character = UTF_8, .place = 50, .out = 1},
    {.name = "UTF-8 without line ends", .causes = "utf-8 no-line-ends", .character = UTF_8, .end = ""},
    {.name = "Shift JIS that begins as UTF-8 does", .causes = "lf-alone", .character = "\xE3@", .end = "\n"},
    {.name = "one byte of a name lost", .causes = "line-too-short", .place = 9, .out = 1},
    {.name = "names lost",
     .causes = "names-lost",
     .seen = "record 1 has EF BF BD in byte 9 and on, what is written for a character that could not be read",
     .character = LOST},
    {.name = "names lost, LF", .causes = "lf-alone names-lost", .character = LOST, .end = "\n"},

    /* columns */
    {.name = "stripped",
     .causes = "stripped-blanks",
     .seen = "record 1 has 56 columns; an M without spaces at the end has 56; 5 of the next 6 lines are short "
             "too",
     .strip = 1},
    {.name = "stripped, LF", .causes = "lf-alone stripped-blanks", .strip = 1, .end = "\n"},
    {.name = "stripped, LF, the last one missing",
     .causes = "lf-alone stripped-blanks last-line-end",
     .strip = 1,
     .end = "\n",
     .from_end = 1,
     .place = 1,
     .out = 1},
    {.name = "an H stripped", .causes = "stripped-blanks", .place = BYTES + 39, .out = 33},
    {.name = "an N stripped", .causes = "stripped-blanks", .place = 2 * BYTES + 70, .out = 2},
    {.name = "an L stripped", .causes = "stripped-blanks", .place = 3 * BYTES + 60, .out = 12},
    {.name = "coordinates stripped", .causes = "stripped-blanks", .place = 4 * BYTES + 70, .out = 2},
    {.name = "coordinates stripped that begin with a digit",
     .causes = "stripped-blanks",
     .place = 4 * BYTES,
     .out = 72,
     .in = TEXT("10000    0    0    0    0    0    0    0    0    0    0    0    0    0")},
    {.name = "a loop stripped",
     .causes = "stripped-blanks",
     .seen = "record 7 has 69 columns; a loop without spaces at the end has 69",
     .place = 6 * BYTES + 69,
     .out = 3},
    {.name = "no A is stripped", .causes = "line-too-short", .place = 5 * BYTES + 70, .out = 2},
    {.name = "a column lost",
     .causes = "line-too-short",
     .seen = "record 3 has 71 columns before its line end, and 72 are due",
     .place = 2 * BYTES + 10,
     .out = 1},
    {.name = "a column more",
     .causes = "line-too-long",
     .seen = "record 3 has 73 columns before its line end, and 72 are due",
     .place = 2 * BYTES + 10,
     .in = TEXT(" ")},
    {.name = "a column more in the last record, no line end",
     .causes = "line-too-long",
     .seen = "the last record, 7, has 73 columns and no line end",
     .from_end = 1,
     .place = 2,
     .out = 2,
     .in = TEXT(" ")},
    {.name = "a line end lost", .causes = "line-too-long", .place = 2 * BYTES + 72, .out = 2},
    {.name = "80 columns", .causes = "line-too-long", .end = "        \r\n"},
    {.name = "tabs",
     .causes = "tabs",
     .seen = "record 1 has 45 columns, and a tab (09) in byte 32",
     .tabs = 1},
    {.name = "one tab for two spaces", .causes = "tabs", .place = BYTES + 50, .out = 2, .in = TEXT("\t")},
    {.name = "tabs, stripped", .causes = "tabs stripped-blanks", .tabs = 1, .strip = 1},
    {.name = "tabs, LF", .causes = "lf-alone tabs", .tabs = 1, .end = "\n"},
    {.name = "an empty line first", .causes = "empty-line no-sheet", .in = TEXT("\r\n")},
    {.name = "an empty line between",
     .causes = "empty-line",
     .seen = "an empty line (0D 0A) stands where record 4 begins",
     .place = 3 * BYTES,
     .in = TEXT("\r\n")},

    /* the end */
    {.name = "an empty line last", .causes = "empty-line", .from_end = 1, .in = TEXT("\r\n")},
    {.name = "LF alone behind the last record", .causes = "empty-line", .from_end = 1, .in = TEXT("\n")},
    {.name = "1A",
     .causes = "end-mark",
     .seen = "the last byte of the file is 1A; the length without is a multiple of 74",
     .from_end = 1,
     .in = TEXT("\x1A")},
    {.name = "1A up to a multiple of 128",
     .causes = "end-mark",
     .seen = "the last 122 bytes of the file are 1A; the length without is a multiple of 74",
     .from_end = 1,
     .in = TEXT("\x1A"),
     .times = 122},
    {.name = "1A by thousands",
     .causes = "end-mark",
     .seen = "the last 4096 bytes of the file are 1A, and perhaps more",
     .from_end = 1,
     .in = TEXT("\x1A"),
     .times = 5000},
    {.name = "zeros up to a multiple of 512", .causes = "zeros-at-end", .from_end = 1, .in = TEXT("\0"), .times = 506},
    {.name = "1A for the last line end",
     .causes = "last-line-end end-mark",
     .from_end = 1,
     .place = 2,
     .out = 2,
     .in = TEXT("\x1A")},
    {.name = "the last line end missing",
     .causes = "last-line-end",
     .seen = "the last record, 7, has 72 columns and no line end",
     .from_end = 1,
     .place = 2,
     .out = 2},
    {.name = "the last LF missing",
     .causes = "last-line-end",
     .seen = "record 7 ends with CR (0D) in byte 73 and no LF (0A) behind it",
     .from_end = 1,
     .place = 1,
     .out = 1},
    {.name = "cut",
     .causes = "cut",
     .seen = "the last record, 7, has 44 of its 74 bytes and no line end; those before it end with CR LF",
     .from_end = 1,
     .place = 30,
     .out = 30},
    {.name = "cut by one column", .causes = "cut", .from_end = 1, .place = 3, .out = 3},
    {.name = "cut in the first record",
     .causes = "cut",
     .seen = "the last record, 1, has 30 of its 74 bytes and no line end",
     .place = 30,
     .out = SHEET - 30},
    {.name = "a byte more", .causes = "cut", .from_end = 1, .in = TEXT(" ")},
    {.name = "one byte", .causes = "no-sheet cut", .out = SHEET, .in = TEXT("?")},
    {.name = "a small m, cut", .causes = "cut no-sheet", .small = 1, .from_end = 1, .place = 30, .out = 30},
    {.name = "empty",
     .causes = "empty",
     .seen = "the file has no bytes",
     .out = SHEET},
};

static size_t put(uint8_t *to, const char *bytes, size_t length)
{
    memcpy(to, bytes, length);
    return length;
}

/* One line of the sheet, without its end. */
static size_t spell_line(uint8_t *to, const char *line, const Case *c)
{
    const char *character = c->character != NULL ? c->character : "\x81@";
    size_t length = 0;
    for (size_t i = 0; line[i] != '\0';) {
        if (line[i] == '#') {
            length += put(to + length, character, strlen(character));
            i++;
        } else if (c->tabs && strncmp(line + i, "    ", 4) == 0) {
            to[length++] = '\t';
            i += 4;
        } else {
            to[length++] = (uint8_t)line[i++];
        }
    }
    while (c->strip && length > 0 && (to[length - 1] == ' ' || to[length - 1] == '\t')) {
        length--;
    }
    return length;
}

/* The whole case. Answers its length. */
static size_t spell(uint8_t *to, const Case *c)
{
    const char *end = c->end != NULL ? c->end : "\r\n";
    size_t times = c->times > 0 ? c->times : 1;
    uint8_t all[ROOM];
    size_t length = 0;
    for (int i = 0; i < RECORDS; i++) {
        length += spell_line(all + length, sheet[i], c);
        length += put(all + length, end, strlen(end));
    }
    if (c->small) {
        all[0] = 'm';
    }
    size_t place = c->from_end ? length - c->place : c->place;
    size_t made = put(to, (const char *)all, place);
    for (size_t i = 0; i < times && c->in.length > 0; i++) {
        made += put(to + made, c->in.bytes, c->in.length);
    }
    return made + put(to + made, (const char *)all + place + c->out, length - place - c->out);
}

/* ---- the look */

/* Stage 1 (RULES 6.3) of a file that is not too long. Answers the number, 0 if it is kept, and tells the record. */
static uint32_t refused(const uint8_t *bytes, size_t length, uint32_t *record)
{
    for (size_t k = 0; k < length / BYTES; k++) {
        *record = (uint32_t)k + 1;
        if (bytes[BYTES * k + 72] != '\r' || bytes[BYTES * k + 73] != '\n') {
            return 2;
        }
    }
    *record = (uint32_t)(length / BYTES) + 1;
    return length == 0 || length % BYTES != 0;
}

static void differs(const char *name, const char *what, const char *told)
{
    wrong++;
    printf("%s: not '%s' but '%s'\n", name, what, told);
}

/* A sentence stands in its room, in one line of ASCII. */
static void hold_sentence(const char *name, const Guess *guess)
{
    size_t length = 0;
    while (length < SEEN && guess->seen[length] >= ' ' && guess->seen[length] <= '~') {
        length++;
    }
    if (length == 0 || length + 1 >= SEEN || guess->seen[length] != '\0') {
        differs(name, "the sentence is empty, cut or odd", guess->cause);
    }
}

/* Fewer guesses are the first ones of all. */
static void hold_fewer(const char *name, const uint8_t *bytes, size_t length, uint32_t number, uint32_t record,
                       const Guess *all, size_t count)
{
    for (size_t most = 0; most < count; most++) {
        Guess some[CAUSES] = {{.cause = NULL}};
        size_t given = look(bytes, length, number, record, some, most);
        if (given != most || some[most].cause != NULL ||
            (most > 0 && strcmp(some[most - 1].seen, all[most - 1].seen) != 0)) {
            differs(name, "fewer guesses are not the first ones", all[most].cause);
        }
    }
}

/* What was told: all causes with spaces between them, and the first sentence. */
typedef struct {
    char causes[CAUSES * 32];
    char seen[SEEN];
} Told;

static Told look_at(const char *name, const uint8_t *bytes, size_t length, uint32_t number, uint32_t record)
{
    Told told = {"", ""};
    Guess all[CAUSES];
    size_t count = look(bytes, length, number, record, all, CAUSES);
    size_t at = 0;
    looked++;
    for (size_t i = 0; i < count; i++) {
        hold_sentence(name, &all[i]);
        at += (size_t)sprintf(told.causes + at, "%s%s", i > 0 ? " " : "", all[i].cause);
    }
    if (count > 0) {
        memcpy(told.seen, all[0].seen, SEEN);
    }
    hold_fewer(name, bytes, length, number, record, all, count);
    return told;
}

static void hold_causes(const char *name, const char *causes, const Told *told)
{
    if (strcmp(causes, told->causes) != 0) {
        differs(name, causes, told->causes);
    }
}

/* The bytes in a block of just their length. */
static uint8_t *block(const uint8_t *bytes, size_t length)
{
    uint8_t *own = malloc(length > 0 ? length : 1);
    if (own == NULL) {
        printf("no memory\n");
        exit(1);
    }
    memcpy(own, bytes, length);
    return own;
}

static void one_case(const Case *c)
{
    uint8_t made[ROOM];
    uint32_t record;
    size_t length = spell(made, c);
    uint8_t *bytes = block(made, length);
    uint32_t number = refused(bytes, length, &record);
    Told told = look_at(c->name, bytes, length, number, record);
    hold_causes(c->name, c->causes, &told);
    if (c->seen != NULL && strcmp(c->seen, told.seen) != 0) {
        differs(c->name, c->seen, told.seen);
    }
    free(bytes);
}

/* S itself keeps stage 1. No look is taken with other numbers, and at records that are not there. */
static void no_cases(void)
{
    static const Case plain = {.name = "S"};
    static const Case lf = {.name = "LF", .end = "\n"};
    static const uint32_t none[][2] = {{0, 0}, {0, 1}, {3, 1}, {48, 1}, {1, 0}, {2, 0}, {1, 9}, {2, UINT32_MAX}};
    uint8_t made[ROOM];
    uint32_t record;
    size_t length = spell(made, &plain);
    if (length != SHEET || refused(made, length, &record) != 0) {
        differs("S", "kept", "refused");
    }
    length = spell(made, &lf);
    for (size_t i = 0; i < sizeof none / sizeof *none; i++) {
        Told told = look_at("no look", made, length, none[i][0], none[i][1]);
        hold_causes("no look", "", &told);
    }
}

/* A file of more bytes than a sheet may have, all zeros. Its pages are not touched but for the first and the last. */
static void too_long(void)
{
    const size_t length = (size_t)BYTES * 6399937;
    uint8_t *bytes = calloc(length, 1);
    if (bytes == NULL) {
        printf("no memory for a file that is too long: left out\n");
        return;
    }
    Told told = look_at("too long", bytes, length, 1, 6399937);
    hold_causes("too long", "too-many-records", &told);
    told = look_at("too long, other faults", bytes, length, 2, 1);
    hold_causes("too long, other faults", "no-sheet zeros-at-end too-many-records", &told);
    told = look_at("as long as can be, and a part", bytes, length - 1, 1, 6399937);
    hold_causes("as long as can be, and a part", "zeros-at-end no-sheet", &told);
    free(bytes);
}

/* ---- random bytes */

static uint32_t dice(uint32_t *seed, uint32_t sides)
{
    *seed = *seed * 1664525 + 1013904223;
    return (*seed >> 8) % sides;
}

/* Bytes that mean something to the look, and among them any others. */
static uint8_t any_byte(uint32_t *seed)
{
    static const uint8_t known[] = "\r\n\r\n\r\n\t MHNLA01-\x1A\x1A\x81@\xE3\x80\x80\xEF\xBF\xBD\xEF\xBB\xBF\0";
    return dice(seed, 4) > 0 ? known[dice(seed, sizeof known)] : (uint8_t)dice(seed, 256);
}

/* A case, or random bytes alone; some of it overwritten by runs of random bytes, and cut. */
static size_t any_file(uint8_t *to, uint32_t *seed)
{
    size_t length = dice(seed, 3) == 0 ? dice(seed, 400) : 0;
    for (size_t i = 0; i < length; i++) {
        to[i] = any_byte(seed);
    }
    if (length == 0) {
        length = spell(to, &cases[dice(seed, sizeof cases / sizeof *cases)]);
        for (uint32_t runs = dice(seed, 4); runs > 0 && length > 0; runs--) {
            size_t place = dice(seed, (uint32_t)length);
            for (uint32_t left = dice(seed, 9); left > 0 && place < length; left--) {
                to[place++] = any_byte(seed);
            }
        }
        length -= dice(seed, 2) * dice(seed, (uint32_t)length + 1);
    }
    return length;
}

/* The number and the record that the library would give, and any others. */
static void random_files(void)
{
    uint32_t seed = 74;
    uint8_t made[ROOM];
    for (int i = 0; i < 20000; i++) {
        uint32_t record;
        size_t length = any_file(made, &seed);
        uint8_t *bytes = block(made, length);
        uint32_t number = refused(bytes, length, &record);
        Told told = look_at("random", bytes, length, number, record);
        if (number != 0 && told.causes[0] == '\0') {
            differs("random", "a guess", "none");
        }
        look_at("random place", bytes, length, 1 + dice(&seed, 2), dice(&seed, 12));
        free(bytes);
    }
}

int main(void)
{
    for (size_t i = 0; i < sizeof cases / sizeof *cases; i++) {
        one_case(&cases[i]);
    }
    no_cases();
    too_long();
    random_files();
    if (wrong > 0) {
        printf("%u of %u differ\n", wrong, looked);
        return 1;
    }
    printf("%u looked at\n", looked);
    return 0;
}
