/*
 * Tries include/stragumella.h on every call: sheet S and its neighbours (RULES 11), with buffers of length 0, short
 * by one, exact and longer, and every lent buffer held to what the header says of it, untouched parts too. Each lent
 * buffer is a block of its own of just its length, so that a memory checker sees a step past it. Prints one line; the
 * exit status is 0 or 1.
 *
 *     make target/host/test_api && target/host/test_api
 */
#include "stragumella.h"

#include "system.h"

/* the structs are laid out as the archive has them; `place` nests its degrees there, at the same offsets */
_Static_assert(sizeof(stragumella_outcome) == 48 && offsetof(stragumella_outcome, need) == 40, "outcome");
_Static_assert(offsetof(stragumella_outcome, records) == 32, "outcome");
_Static_assert(sizeof(stragumella_sums) == 32 && offsetof(stragumella_sums, areas) == 16, "sums");
_Static_assert(offsetof(stragumella_sums, outside) == 24, "sums");
_Static_assert(sizeof(stragumella_place) == 24 && offsetof(stragumella_place, latitude) == 8, "place");
_Static_assert(offsetof(stragumella_place, longitude) == 16, "place");
_Static_assert(sizeof(stragumella_record) == 120 && offsetof(stragumella_record, numbers) == 4, "record");
_Static_assert(offsetof(stragumella_record, name) == 68 && offsetof(stragumella_record, marks) == 108, "record");
_Static_assert(offsetof(stragumella_record, letters) == 116, "record");
_Static_assert(sizeof(stragumella_reading) == 132 && offsetof(stragumella_reading, value) == 12, "reading");

enum { RECORD = 74, SHEET = 7 * RECORD, TWO = 2 * SHEET };

static unsigned tried, failed, first;

static void hold(int ok, unsigned line)
{
    tried++;
    if (!ok && failed++ == 0)
        first = line;
}

#define HOLD(ok) hold((ok) != 0, __LINE__)

/* ---- sheet S */

/* the number v in the w columns from column c on of a record: right aligned, spaces in front */
static void put(uint8_t *record, int c, int w, int v)
{
    char text[16];
    snprintf(text, sizeof text, "%*d", w, v);
    memcpy(record + c - 1, text, (size_t)w);
}

/* numbers of width w in a row, n of them, from column c on */
static void row(uint8_t *record, int c, int w, int n, const int *vs)
{
    for (int i = 0; i < n; i++)
        put(record, c + w * i, w, vs[i]);
}

/* 81 40, in the w columns from column c on */
static void name(uint8_t *record, int c, int w)
{
    for (int i = 0; i < w; i++)
        record[c - 1 + i] = i % 2 ? 0x40 : 0x81;
}

static const int S_POINTS[14] = { 0, 0, 0, 10000, 10000, 10000, 10000, 0, 0, 0, 0, 0, 0, 0 };

/* S with the code `mesh` */
static void sheet(uint8_t *s, int mesh)
{
    uint8_t *m = s, *h = s + RECORD, *n = s + 2 * RECORD, *l = s + 3 * RECORD, *c = s + 4 * RECORD,
            *a = s + 5 * RECORD, *o = s + 6 * RECORD;
    memset(s, ' ', SHEET);
    for (int i = 0; i < 7; i++)
        memcpy(s + i * RECORD + 72, "\r\n", 2);
    memcpy(m, "M ", 2);
    put(m, 3, 6, mesh);
    name(m, 9, 20);
    put(m, 29, 3, 1);
    row(m, 32, 5, 5, (const int[]){ 1, 1, 1, 0, 6 });
    memcpy(h, "H2", 2);
    put(h, 3, 2, 1);
    row(h, 5, 5, 5, (const int[]){ 1, 1, 1, 0, 5 });
    put(h, 31, 4, 0);
    put(h, 36, 4, 0);
    memcpy(n, "N ", 2);
    put(n, 3, 2, 1);
    put(n, 5, 2, 3);
    row(n, 7, 5, 3, (const int[]){ 1, 0, 0 });
    put(n, 22, 2, 1);
    put(n, 24, 2, 2);
    row(n, 26, 5, 9, (const int[]){ 1, -1, 0, 0, 0, 0, 0, 0, 0 });
    memcpy(l, "L ", 2);
    put(l, 3, 2, 1);
    put(l, 5, 2, 9);
    put(l, 7, 5, 1);
    put(l, 12, 6, 9);
    put(l, 18, 5, 1);
    put(l, 23, 1, 2);
    put(l, 24, 5, 1);
    put(l, 29, 1, 2);
    row(l, 30, 5, 4, (const int[]){ 88888, 0, 13101, 1 });
    put(l, 50, 6, 5);
    put(l, 56, 2, 0);
    put(l, 58, 3, 0);
    row(c, 1, 5, 14, S_POINTS);
    memcpy(a, "A ", 2);
    put(a, 3, 2, 1);
    row(a, 5, 5, 4, (const int[]){ 13101, 1, 5000, 5000 });
    put(a, 25, 4, 1);
    put(a, 29, 4, 1);
    name(a, 33, 40);
    put(o, 1, 5, 1);
    put(o, 6, 4, 1);
    row(o, 10, 5, 12, (const int[]){ 1, 0, 0, 0, 0, 0, 0, 0, 0, 0, 0, 0 });
}

/* ---- lent buffers: NULL for length 0 */

static void *lent(const void *from, size_t bytes)
{
    if (bytes == 0)
        return NULL;
    void *p = malloc(bytes);
    if (!p)
        exit(1);
    memcpy(p, from, bytes);
    return p;
}

/* what a buffer holds before the call */
static uint32_t word(size_t i) { return 0xA5000000u + (uint32_t)i; }
static int64_t place(size_t i) { return INT64_MIN + (int64_t)i; }
static uint8_t byte(size_t i) { return (uint8_t)(0xC1 + 7 * i); }

static uint32_t *lent_words(size_t n)
{
    uint32_t *p = n ? malloc(n * sizeof *p) : NULL;
    for (size_t i = 0; i < n; i++)
        p[i] = word(i);
    return p;
}

static int64_t *lent_places(size_t n)
{
    int64_t *p = n ? malloc(n * sizeof *p) : NULL;
    for (size_t i = 0; i < n; i++)
        p[i] = place(i);
    return p;
}

static uint8_t *lent_bytes(size_t n)
{
    uint8_t *p = n ? malloc(n) : NULL;
    for (size_t i = 0; i < n; i++)
        p[i] = byte(i);
    return p;
}

static int same_bytes(const uint8_t *a, const uint8_t *b, size_t n) { return n == 0 || memcmp(a, b, n) == 0; }

/* ---- the judge and the sums */

/* what is told of a file: what it counts, its table, an area's measure each and two sums a layer */
typedef struct {
    uint32_t meshes, layers, nodes, lines, areas, records;
    const uint32_t *table;
    size_t need;
    const int64_t *measures;
    const int64_t *sums;
} facts;

/* a file's answer; the table stands where the refusal is past 9 */
typedef struct {
    uint32_t number, record, column;
    const facts *of;
} expected;

#define WHOLE ((int64_t)200000000) /* what a whole sheet measures */

static const int64_t WHOLES[4] = { WHOLE, WHOLE, WHOLE, WHOLE };
static const uint32_t S_TABLE[7] = { 2, 1, 1, 1, 2, 4, 6 };
static const facts S_FACTS = { 1, 1, 1, 1, 1, 7, S_TABLE, 7, WHOLES, WHOLES };
static const uint32_t TWO_TABLE[14] = { 2, 1, 1, 1, 2, 9, 1, 1, 1, 2, 4, 11, 6, 13 };
static const facts TWO_FACTS = { 2, 2, 2, 2, 2, 14, TWO_TABLE, 14, WHOLES, WHOLES };

static int table_is(const uint32_t *table, size_t words, uint32_t number, const facts *of)
{
    int stands = number == 0 || number > 9;
    for (size_t i = 0; i < words; i++)
        if (table[i] != (stands && i < of->need ? of->table[i] : word(i)))
            return 0;
    return 1;
}

/* a call that judges and fills places: an area's measure each, or two sums a layer; with fewer it gives the number `few` */
typedef struct {
    stragumella_outcome (*call)(const uint8_t *, size_t, uint32_t *, size_t, int64_t *, size_t);
    int of_layers;
    uint32_t few;
} filling;

static const filling MEASURES = { stragumella_judge, 0, 19 }, ALL_SUMS = { stragumella_all_sums, 1, 48 };

/* such a call on a file, with `words` words and `places` places */
static void fills(filling f, const uint8_t *bytes, size_t length, size_t words, size_t places, expected e)
{
    static const facts nothing;
    const int64_t *wanted = f.of_layers ? e.of->sums : e.of->measures;
    size_t filled = f.of_layers ? 2 * (size_t)e.of->layers : e.of->areas;
    uint8_t *file = lent(bytes, length);
    uint32_t *table = lent_words(words);
    int64_t *figures = lent_places(places);
    uint64_t need = 0;
    if (e.number == 0 || e.number > 9) {
        if (words < e.of->need) {
            e.number = 9, e.record = 0, e.column = 0;
            need = e.of->need;
        } else if (e.number == 0 && places < filled)
            e.number = f.few;
    }
    const facts *told = e.number == 0 ? e.of : &nothing;
    stragumella_outcome o = f.call(file, length, table, words, figures, places);
    HOLD(o.number == e.number && o.record == e.record && o.column == e.column);
    HOLD(o.meshes == told->meshes && o.layers == told->layers && o.nodes == told->nodes && o.lines == told->lines);
    HOLD(o.areas == told->areas && o.records == told->records);
    HOLD(o.need == need);
    HOLD(table_is(table, words, e.number, e.of));
    int ok = 1;
    for (size_t i = 0; i < places; i++)
        ok &= figures[i] == (e.number == 0 && i < filled ? wanted[i] : place(i));
    HOLD(ok);
    HOLD(same_bytes(file, bytes, length));
    free(file), free(table), free(figures);
}

/* the sums of layer number `layer` of a file */
static void sums(const uint8_t *bytes, size_t length, size_t words, uint32_t layer, expected e)
{
    uint8_t *file = lent(bytes, length);
    uint32_t *table = lent_words(words);
    if (e.number == 0 || e.number > 9) {
        if (words < e.of->need)
            e.number = 9, e.record = 0, e.column = 0;
        else if (e.number == 0 && (layer < 1 || layer > e.of->layers))
            e.number = 22;
    }
    int64_t sum = e.number == 0 ? e.of->sums[2 * (layer - 1)] : 0;
    stragumella_sums s = stragumella_layer_sums(file, length, table, words, layer);
    HOLD(s.number == e.number && s.record == e.record && s.column == e.column);
    HOLD(s.areas == sum && s.outside == sum);
    HOLD(table_is(table, words, e.number, e.of));
    HOLD(same_bytes(file, bytes, length));
    free(file), free(table);
}

static void need(const uint8_t *bytes, size_t length, uint64_t words)
{
    uint8_t *file = lent(bytes, length);
    HOLD(stragumella_need(file, length) == words);
    HOLD(same_bytes(file, bytes, length));
    free(file);
}

/* all file calls on a file, with tables and measures of every length up to two more than are wanted */
static void all(const uint8_t *bytes, size_t length, expected e)
{
    int early = e.number != 0 && e.number <= 8;
    need(bytes, length, early ? 0 : e.of->need);
    for (size_t words = 0; words <= e.of->need + 2; words++) {
        for (size_t places = 0; places <= 2 * e.of->layers + 2u; places++) {
            fills(MEASURES, bytes, length, words, places, e);
            fills(ALL_SUMS, bytes, length, words, places, e);
        }
        for (uint32_t layer = 0; layer <= e.of->layers + 1; layer++)
            sums(bytes, length, words, layer, e);
        sums(bytes, length, words, UINT32_MAX, e);
    }
}

static expected at(uint32_t number, uint32_t record, uint32_t column)
{
    return (expected){ number, record, column, &S_FACTS };
}

static void files(void)
{
    uint8_t s[SHEET + 1], t[TWO + 1];
    memset(s, ' ', sizeof s);
    memset(t, ' ', sizeof t);

    /* lengths 0, short by one, exact, longer by one, a record short */
    sheet(s, 533945);
    all(s, 0, at(1, 1, 1));
    all(s, 1, at(1, 1, 1));
    all(s, SHEET - 1, at(1, 7, 1));
    all(s, SHEET, at(0, 0, 0));
    all(s, SHEET + 1, at(1, 8, 1));
    all(s, SHEET - RECORD, at(4, 7, 1));

    /* two meshes: a buffer that is short by one is not an empty one */
    sheet(t, 533945);
    sheet(t + SHEET, 533946);
    all(t, TWO, (expected){ 0, 0, 0, &TWO_FACTS });
    all(t, TWO - 1, (expected){ 1, 14, 1, &TWO_FACTS });
    all(t, TWO + 1, (expected){ 1, 15, 1, &TWO_FACTS });
    put(t + SHEET, 3, 6, 533945);
    all(t, TWO, (expected){ 8, 8, 3, &TWO_FACTS });
    put(t + SHEET, 3, 6, 533946);
    put(t + SHEET, 52, 5, 7);
    all(t, TWO, (expected){ 10, 8, 52, &TWO_FACTS });

    /* S's neighbours */
    uint8_t *m = s, *h = s + RECORD, *n = s + 2 * RECORD, *l = s + 3 * RECORD, *c = s + 4 * RECORD,
            *a = s + 5 * RECORD, *o = s + 6 * RECORD;
#define NEIGHBOUR(change, ...)          \
    do {                                \
        sheet(s, 533945);               \
        change;                         \
        all(s, SHEET, at(__VA_ARGS__)); \
    } while (0)
    NEIGHBOUR(put(m, 52, 5, 7), 10, 1, 52);
    NEIGHBOUR(put(m, 52, 5, 5), 10, 1, 52);
    NEIGHBOUR(put(h, 25, 5, 6), 10, 2, 25);
    NEIGHBOUR(put(h, 25, 5, 4), 10, 2, 25);
    NEIGHBOUR((put(m, 52, 5, 7), put(h, 25, 5, 6)), 10, 1, 52);
    NEIGHBOUR(put(n, 22, 2, 0), 6, 3, 22);
    NEIGHBOUR((put(n, 24, 2, 1), put(n, 31, 5, 0)), 14, 4, 24);
    NEIGHBOUR(put(c, 46, 5, 1), 12, 5, 41);
    NEIGHBOUR(put(c, 51, 5, 7), 6, 5, 51);
    NEIGHBOUR(put(o, 10, 5, -1), 16, 7, 1);
    NEIGHBOUR(row(l, 30, 5, 4, ((const int[]){ 13101, 1, 88888, 0 })), 17, 7, 10);
    NEIGHBOUR(h[1] = '1', 6, 2, 15);
    NEIGHBOUR(h[1] = '3', 3, 2, 1);
    NEIGHBOUR(h[1] = ' ', 3, 2, 1);
    NEIGHBOUR(put(m, 3, 6, 533985), 6, 1, 3);
    NEIGHBOUR(memcpy(m + 31, "00001", 5), 5, 1, 32);
    NEIGHBOUR(memcpy(m + 31, "   -0", 5), 5, 1, 32);
    NEIGHBOUR(memcpy(m + 31, "     ", 5), 5, 1, 32);
    NEIGHBOUR(put(l, 18, 5, 2), 11, 4, 18);
    NEIGHBOUR(put(a, 10, 5, 2), 8, 6, 10);
    NEIGHBOUR(o[72] = ' ', 2, 7, 73);
    NEIGHBOUR(a[73] = ' ', 2, 6, 74);
}

/* ---- what is due */

/* the kinds that are due at the records from 1 on, as digits; nothing at record 0 and behind them */
static void due(const uint8_t *bytes, size_t length, const char *kinds)
{
    uint8_t *file = lent(bytes, length);
    uint32_t n = (uint32_t)strlen(kinds);
    int ok = 1;
    for (uint32_t k = 1; k <= n; k++)
        ok &= stragumella_due(file, length, k) == (uint32_t)(kinds[k - 1] - '0');
    HOLD(ok);
    HOLD(stragumella_due(file, length, 0) == 0 && stragumella_due(file, length, n + 1) == 0);
    HOLD(stragumella_due(file, length, n + 2) == 0 && stragumella_due(file, length, UINT32_MAX) == 0);
    HOLD(same_bytes(file, bytes, length));
    free(file);
}

static void dues(void)
{
    uint8_t s[TWO];
    memset(s, ' ', sizeof s);
    due(s, 0, "1");
    due(s, RECORD - 1, "1");
    due(s, 3 * RECORD, "1111");
    sheet(s, 533945);
    sheet(s + SHEET, 533946);
    due(s, SHEET, "12345671");
    due(s, SHEET + 1, "12345671");
    due(s, SHEET - 1, "1234567");
    due(s, SHEET - RECORD, "1234567");
    due(s, TWO, "123456712345671");

    /* counts steer, whatever the record is good for otherwise; an ill-formed one counts as 0, one below 0 by its size */
    put(s + 3 * RECORD, 50, 6, -8);
    due(s, SHEET, "12345561");
    memcpy(s + 3 * RECORD + 49, "000008", 6);
    due(s, SHEET, "12346111");
    sheet(s, 533945);
    memcpy(s, "XX", 2);
    due(s, SHEET, "12345671");

    /* S without its coordinates: they are due all the same */
    sheet(s, 533945);
    for (size_t i = 0; i < 2 * RECORD; i++)
        s[4 * RECORD + i] = s[5 * RECORD + i];
    due(s, SHEET - RECORD, "1234561");
}

/* ---- positions */

static void position(int32_t mesh, int32_t x, int32_t y, uint32_t number, double latitude, double longitude)
{
    stragumella_place p = stragumella_position(mesh, x, y);
    HOLD(p.number == number && p.latitude == latitude && p.longitude == longitude);
}

static void positions(void)
{
    position(533945, 10000, 10000, 0, 35.75, 139.75);
    position(533945, 0, 0, 0, (53 * 240000 + 4 * 30000) / 360000.0, 139.625);
    position(100000, 1, 2, 0, (10 * 240000 + 6) / 360000.0, (100 * 720000 + 9) / 720000.0);
    position(999977, 10000, 9999, 0, (99 * 240000 + 7 * 30000 + 29997) / 360000.0,
             (199 * 720000 + 7 * 90000 + 90000) / 720000.0);
    const int32_t refused[][3] = {
        { 533985, 0, 0 },     { 533948, 0, 0 },  { 99977, 0, 0 },  { 1000000, 0, 0 },  { 0, 0, 0 },
        { -533945, 0, 0 },    { INT32_MIN, 0, 0 }, { INT32_MAX, 0, 0 }, { 533945, 10001, 0 }, { 533945, -1, 0 },
        { 533945, 0, 10001 }, { 533945, 0, -1 }, { 533945, INT32_MIN, 0 }, { 533945, 0, INT32_MAX },
    };
    for (size_t i = 0; i < sizeof refused / sizeof *refused; i++)
        position(refused[i][0], refused[i][1], refused[i][2], 6, 0, 0);
}

/* ---- single records */

static const int32_t S_NUMBERS[7][16] = {
    { 533945, 1, 1, 1, 1, 0, 6 },
    { 1, 1, 1, 1, 0, 5, 0, 0 },
    { 1, 3, 1, 0, 0, 1, 2, 1, -1 },
    { 1, 9, 1, 9, 1, 2, 1, 2, 88888, 0, 13101, 1, 5, 0, 0 },
    { 0, 0, 0, 10000, 10000, 10000, 10000, 0, 0, 0 },
    { 1, 13101, 1, 5000, 5000, 1, 1 },
    { 1, 1, 1 },
};

/* without a mark */
static int value_is(stragumella_record v, uint32_t kind, const int32_t *numbers, const uint8_t *name40, uint32_t letters)
{
    return v.kind == kind && memcmp(v.numbers, numbers, sizeof v.numbers) == 0 && memcmp(v.name, name40, 40) == 0 &&
           v.marks[0] == 0 && v.marks[1] == 0 && v.letters == letters;
}

/* reads `length` bytes as a record of the kind and holds the answer to a refusal with an empty value of kind `told` */
static void refuses(uint32_t kind, const uint8_t *from, size_t length, uint32_t number, uint32_t column, uint32_t told)
{
    static const int32_t zeros[16];
    static const uint8_t none[40];
    uint8_t *bytes = lent(from, length);
    stragumella_reading r = stragumella_read_record(kind, bytes, length);
    HOLD(r.number == number && r.record == 1 && r.column == column);
    HOLD(value_is(r.value, told, zeros, none, 0));
    HOLD(same_bytes(bytes, from, length));
    free(bytes);
}

/* writes v into a buffer of `length` bytes: `line` stands in its first 74 exactly if the answer is 0 */
static void writes(stragumella_record v, size_t length, uint32_t number, const uint8_t *line)
{
    uint8_t *buffer = lent_bytes(length);
    HOLD(stragumella_write_record(v, buffer, length) == number);
    int ok = 1;
    for (size_t i = 0; i < length; i++)
        ok &= buffer[i] == (number == 0 && i < RECORD ? line[i] : byte(i));
    HOLD(ok);
    free(buffer);
}

static const size_t LENGTHS[] = { 0, 1, 73, 74, 75, 148 };
enum { N_LENGTHS = sizeof LENGTHS / sizeof *LENGTHS };
static const uint32_t NO_KINDS[] = { 0, 8, 9, 77, 256, 257, UINT32_MAX };
enum { N_NO_KINDS = sizeof NO_KINDS / sizeof *NO_KINDS };

static void records(void)
{
    uint8_t s[SHEET], line[2 * RECORD];
    sheet(s, 533945);
    for (uint32_t kind = 1; kind <= 7; kind++) {
        uint8_t name40[40] = { 0 };
        const uint8_t *own = s + (kind - 1) * RECORD;
        for (size_t i = 0; i < (kind == 1 ? 20 : kind == 6 ? 40 : 0); i++)
            name40[i] = i % 2 ? 0x40 : 0x81;
        memset(line, ' ', sizeof line);
        memcpy(line, own, RECORD);

        uint8_t *bytes = lent(own, RECORD);
        stragumella_reading r = stragumella_read_record(kind, bytes, RECORD);
        HOLD(r.number == 0 && r.record == 0 && r.column == 0);
        HOLD(value_is(r.value, kind, S_NUMBERS[kind - 1], name40, kind == 2 ? 2 : 0));
        HOLD(same_bytes(bytes, own, RECORD));
        free(bytes);

        for (size_t i = 0; i < N_LENGTHS; i++) {
            if (LENGTHS[i] != RECORD)
                refuses(kind, line, LENGTHS[i], 1, 1, kind);
            writes(r.value, LENGTHS[i], LENGTHS[i] < RECORD ? 21 : 0, own);
        }
        /* a record of another kind: wrong letters, or an ill-formed field where there are none */
        int lettered = kind != 5 && kind != 7;
        refuses(kind, s + kind % 7 * RECORD, RECORD, lettered ? 3 : 5, 1, kind);
        line[73] = '\r';
        refuses(kind, line, RECORD, 2, 74, kind);
        line[72] = '\n';
        refuses(kind, line, RECORD, 2, 73, kind);

        /* an ill-formed field, and a value that its field doesn't hold: the first number */
        memcpy(line, own, RECORD);
        int column = lettered ? 3 : 1;
        line[column - 1] = 'x';
        refuses(kind, line, RECORD, 5, (uint32_t)column, kind);
        stragumella_record v = r.value;
        v.numbers[0] = INT32_MAX;
        stragumella_record w = r.value;
        w.name[39] ^= 1; /* a trail byte of an A's name, and an entry that the others lack */
        if (kind == 6)
            w.name[39] = 0x7F;
        stragumella_record u = r.value;
        u.numbers[15] = 100000; /* too large for an N, and an entry that the others lack */
        for (size_t i = 0; i < N_LENGTHS; i++) {
            uint32_t number = LENGTHS[i] < RECORD ? 21 : 20;
            writes(v, LENGTHS[i], number, own);
            writes(w, LENGTHS[i], number, own);
            writes(u, LENGTHS[i], number, own);
        }
        /* no kind: refused whatever the bytes and the value */
        for (size_t k = 0; k < N_NO_KINDS; k++) {
            stragumella_record x = r.value;
            x.kind = NO_KINDS[k];
            for (size_t i = 0; i < N_LENGTHS; i++) {
                refuses(NO_KINDS[k], line, LENGTHS[i], 3, 1, 0);
                writes(x, LENGTHS[i], LENGTHS[i] < RECORD ? 21 : 20, own);
            }
            refuses(NO_KINDS[k], own, RECORD, 3, 1, 0);
        }
    }
}

/* the record of that kind in S, with that layer code and with the text from that column on */
static void land_line(uint8_t *line, uint32_t kind, char layer, size_t column, const char *text)
{
    uint8_t s[SHEET];
    sheet(s, 533945);
    memcpy(line, s + (kind - 1) * RECORD, RECORD);
    line[3] = (uint8_t)layer;
    memcpy(line + column - 1, text, 5);
}

/* " 0000" is land in layer 5, in the three codes alone, and its mark is read and written back */
static void land(void)
{
    static const struct {
        uint32_t kind;
        size_t column;
        size_t mark;
        size_t number;
    } codes[] = {{4, 30, 0, 8}, {4, 40, 1, 10}, {6, 5, 0, 1}};
    static const char *const no_land[] = {"00000", "  000", "   00", "0000 ", " 000 ", " 0001", " 00 0"};
    uint8_t line[RECORD];
    for (size_t i = 0; i < sizeof codes / sizeof *codes; i++) {
        uint32_t kind = codes[i].kind;
        size_t column = codes[i].column;
        land_line(line, kind, '5', column, " 0000");
        stragumella_reading r = stragumella_read_record(kind, line, RECORD);
        HOLD(r.number == 0 && r.value.numbers[codes[i].number] == 0);
        HOLD(r.value.marks[codes[i].mark] == 1 && r.value.marks[1 - codes[i].mark] == 0);
        writes(r.value, RECORD, 0, line);
        for (uint32_t mark = 0; mark < 5; mark++) {
            stragumella_record v = r.value;
            v.marks[codes[i].mark] = mark < 4 ? mark : UINT32_MAX;
            land_line(line, kind, '5', column, mark == 0 ? "    0" : " 0000");
            writes(v, RECORD, mark < 2 ? 0 : 20, line);
            writes(v, RECORD - 1, 21, line);
        }
        stragumella_record v = r.value;
        v.numbers[codes[i].number] = 1; /* a mark beside another code than 0 */
        writes(v, RECORD, 20, line);
        v = r.value;
        v.numbers[0] = 1; /* and in another layer */
        writes(v, RECORD, 20, line);
        land_line(line, kind, '1', column, " 0000");
        refuses(kind, line, RECORD, 5, (uint32_t)column, kind);
        for (size_t k = 0; k < sizeof no_land / sizeof *no_land; k++) {
            land_line(line, kind, '5', column, no_land[k]);
            refuses(kind, line, RECORD, 5, (uint32_t)column, kind);
        }
    }
    land_line(line, 4, '5', 35, " 0000"); /* an area number is no code */
    refuses(4, line, RECORD, 5, 35, 4);
    for (uint32_t kind = 1; kind <= 7; kind++) {
        stragumella_record v = {.kind = kind, .letters = kind == 2 ? 2 : 0};
        memcpy(v.numbers, S_NUMBERS[kind - 1], sizeof v.numbers);
        for (size_t i = 0; i < 40; i++)
            v.name[i] = (uint8_t)(kind == 6 || (kind == 1 && i < 20) ? (i % 2 ? 0x40 : 0x81) : 0);
        v.marks[1] = 1; /* on a kind without codes, the second of an A, beside 13101 of an L */
        writes(v, RECORD, 20, line);
    }
}

/* ---- unstructured layers */

/* the letters of an H are read and written back; no other letters are an H's, and no other kind has any */
static void letters(void)
{
    static const char *const others[] = {"H3", "H0", "H ", "h1", "h2", "1H", "HH", " 1", "M "};
    static const uint32_t values[] = {0, 1, 2, 3, 4, 255, 256, 257, 258, 0x80000001, UINT32_MAX};
    static const uint8_t none[40];
    uint8_t s[SHEET], line[RECORD];
    sheet(s, 533945);
    for (uint8_t letter = '1'; letter <= '2'; letter++) {
        memcpy(line, s + RECORD, RECORD);
        line[1] = letter;
        stragumella_reading r = stragumella_read_record(2, line, RECORD);
        HOLD(r.number == 0 && r.record == 0 && r.column == 0);
        HOLD(value_is(r.value, 2, S_NUMBERS[1], none, letter - '0'));
        writes(r.value, RECORD, 0, line);
        refuses(1, line, RECORD, 3, 1, 1);
        line[4] = 'x'; /* refused behind the letters, which are not told then */
        refuses(2, line, RECORD, 5, 5, 2);
    }
    for (size_t i = 0; i < sizeof others / sizeof *others; i++) {
        memcpy(line, s + RECORD, RECORD);
        memcpy(line, others[i], 2);
        refuses(2, line, RECORD, 3, 1, 2);
    }
    for (uint32_t kind = 1; kind <= 7; kind++) {
        stragumella_record v = stragumella_read_record(kind, s + (kind - 1) * RECORD, RECORD).value;
        for (size_t i = 0; i < sizeof values / sizeof *values; i++) {
            int fits = kind == 2 ? values[i] == 1 || values[i] == 2 : values[i] == 0;
            v.letters = values[i];
            memcpy(line, s + (kind - 1) * RECORD, RECORD);
            if (kind == 2)
                line[1] = (uint8_t)('0' + values[i]);
            writes(v, RECORD, fits ? 0 : 20, line);
            writes(v, RECORD - 1, 21, line);
        }
    }
}

/* the layer of S with that layer code, structured or, with the letter 1, not; answers its bytes */
static size_t layer_of(uint8_t *to, char letter, int code)
{
    uint8_t s[SHEET];
    size_t count = letter == '1' ? 4 : 6;
    sheet(s, 533945);
    memcpy(to, s + RECORD, count * RECORD);
    to[1] = (uint8_t)letter;
    put(to, 25, 5, (int)count - 1);
    for (size_t i = 0; i < count; i++)
        if (to[i * RECORD] != ' ')
            put(to + i * RECORD, 3, 2, code);
    if (code == 5)
        put(to + RECORD, 5, 2, 1);
    if (letter == '1') {
        put(to, 15, 5, 0);
        row(to + 2 * RECORD, 30, 5, 4, (const int[]){ 0, 0, 0, 0 });
    }
    return count * RECORD;
}

/* a mesh of layers with these letters, layer 1 and perhaps layer 5; answers its bytes */
static size_t mesh_of(uint8_t *to, int mesh, const char *letters)
{
    int layers = (int)strlen(letters);
    int areas = 0;
    uint8_t s[SHEET];
    size_t length = RECORD;
    for (int i = 0; i < layers; i++) {
        length += layer_of(to + length, letters[i], i == 0 ? 1 : 5);
        areas += letters[i] == '2';
    }
    sheet(s, mesh);
    memcpy(to, s, RECORD);
    put(to, 29, 3, layers);
    row(to, 32, 5, 5, (const int[]){ layers, layers, areas, 0, (int)(length / RECORD) - 1 });
    return length;
}

/* every record of a file, read as what is due and written back */
static void read_and_written(const uint8_t *bytes, size_t length)
{
    for (uint32_t k = 1; k <= length / RECORD; k++) {
        const uint8_t *own = bytes + (k - 1) * RECORD;
        uint32_t kind = stragumella_due(bytes, length, k);
        stragumella_reading r = stragumella_read_record(kind, own, RECORD);
        HOLD(r.number == 0 && r.value.letters == (kind == 2 ? (uint32_t)(own[1] - '0') : 0));
        writes(r.value, RECORD, 0, own);
    }
}

static const int64_t NO_SUMS[4] = { 0, 0, 0, 0 };
static const uint32_t U_TABLE[6] = { 2, 1, 1, 0, 1, 4 };
static const facts U_FACTS = { 1, 1, 1, 1, 0, 5, U_TABLE, 6, NULL, NO_SUMS };

/* files of unstructured layers, alone, before and behind structured ones */
static const struct {
    const char *letters[2]; /* of the layers of each mesh */
    const char *due;
    facts of;
} MIXED[] = {
    { { "1", NULL }, "123451", { 1, 1, 1, 1, 0, 5, U_TABLE, 6, NULL, NO_SUMS } },
    { { "11", NULL },
      "1234523451",
      { 1, 2, 2, 2, 0, 9, (const uint32_t[]){ 2, 1, 1, 0, 1, 6, 1, 1, 0, 1, 4, 8 }, 12, NULL, NO_SUMS } },
    { { "12", NULL },
      "123452345671",
      { 1, 2, 2, 2, 1, 11, (const uint32_t[]){ 2, 1, 1, 0, 1, 6, 1, 1, 1, 2, 4, 8, 10 }, 13, WHOLES,
        (const int64_t[]){ 0, 0, WHOLE, WHOLE } } },
    { { "21", NULL },
      "123456723451",
      { 1, 2, 2, 2, 1, 11, (const uint32_t[]){ 2, 1, 1, 1, 2, 8, 1, 1, 0, 1, 4, 10, 6 }, 13, WHOLES,
        (const int64_t[]){ WHOLE, WHOLE, 0, 0 } } },
    { { "1", "21" },
      "12345123456723451",
      { 2, 3, 3, 3, 1, 16, (const uint32_t[]){ 2, 1, 1, 0, 1, 7, 1, 1, 1, 2, 13, 1, 1, 0, 1, 4, 9, 15, 11 }, 19, WHOLES,
        (const int64_t[]){ 0, 0, WHOLE, WHOLE, 0, 0 } } },
    { { "12", "12" },
      "12345234567123452345671",
      { 2, 4, 4, 4, 2, 22,
        (const uint32_t[]){ 2, 1, 1, 0, 1, 6, 1, 1, 1, 2, 13, 1, 1, 0, 1, 17, 1, 1, 1, 2, 4, 8, 15, 19, 10, 21 }, 26, WHOLES,
        (const int64_t[]){ 0, 0, WHOLE, WHOLE, 0, 0, WHOLE, WHOLE } } },
};

/* every call on each of them */
static void mixed(void)
{
    uint8_t t[4 * TWO];
    for (size_t i = 0; i < sizeof MIXED / sizeof *MIXED; i++) {
        size_t length = 0;
        for (int k = 0; k < 2 && MIXED[i].letters[k] != NULL; k++)
            length += mesh_of(t + length, 533945 + k, MIXED[i].letters[k]);
        HOLD(length == MIXED[i].of.records * (size_t)RECORD);
        all(t, length, (expected){ 0, 0, 0, &MIXED[i].of });
        due(t, length, MIXED[i].due);
        read_and_written(t, length);
    }
}

/* S as an unstructured layer, and its neighbours (RULES 11.4) */
static void unstructured(void)
{
    uint8_t u[SHEET];
    size_t length;
    uint8_t *m = u, *h = u + RECORD, *n = u + 2 * RECORD, *l = u + 3 * RECORD, *c = u + 4 * RECORD;
#define UNSTRUCTURED(layer, change, ...)                     \
    do {                                                     \
        mesh_of(u, 533945, "1");                             \
        length = RECORD + layer_of(h, '1', layer);           \
        change;                                              \
        all(u, length, (expected){ __VA_ARGS__, &U_FACTS }); \
    } while (0)
    UNSTRUCTURED(1, (void)0, 0, 0, 0);
    UNSTRUCTURED(5, (void)0, 0, 0, 0);
    UNSTRUCTURED(5, memcpy(l + 29, " 0000", 5), 0, 0, 0);
    UNSTRUCTURED(5, memcpy(l + 39, " 0000", 5), 0, 0, 0);
    UNSTRUCTURED(1, memcpy(l + 29, " 0000", 5), 5, 4, 30);
    UNSTRUCTURED(5, memcpy(l + 34, " 0000", 5), 5, 4, 35);
    UNSTRUCTURED(1, h[1] = '2', 6, 4, 30);
    UNSTRUCTURED(5, h[1] = '2', 6, 4, 35);
    UNSTRUCTURED(1, h[1] = '3', 3, 2, 1);
    UNSTRUCTURED(1, h[0] = 'h', 3, 2, 1);
    for (int value = -1; value <= 1; value += 2) {
        UNSTRUCTURED(1, put(h, 15, 5, value), 6, 2, 15);
        for (int column = 30; column <= 45; column += 5) {
            UNSTRUCTURED(1, put(l, column, 5, value), 6, 4, (uint32_t)column);
            UNSTRUCTURED(5, put(l, column, 5, value), 6, 4, (uint32_t)column);
        }
    }
    for (int column = 30; column <= 45; column += 5) {
        UNSTRUCTURED(1, put(l, column, 5, 88888), 6, 4, (uint32_t)column);
        UNSTRUCTURED(5, put(l, column, 5, 13101), 6, 4, (uint32_t)column);
        UNSTRUCTURED(1, memcpy(l + column - 1, "     ", 5), 5, 4, (uint32_t)column);
    }
    UNSTRUCTURED(1, row(l, 30, 5, 4, ((const int[]){ 88888, 0, 13101, 1 })), 6, 4, 30);
    UNSTRUCTURED(1, (put(n, 24, 2, 1), put(n, 31, 5, 0)), 14, 4, 24);
    UNSTRUCTURED(1, put(n, 31, 5, 1), 13, 3, 31);
    UNSTRUCTURED(1, put(l, 18, 5, 2), 11, 4, 18);
    UNSTRUCTURED(1, put(l, 23, 1, 0), 12, 4, 23);
    UNSTRUCTURED(1, put(c, 46, 5, 1), 12, 5, 41);
    UNSTRUCTURED(1, put(m, 42, 5, 1), 10, 1, 42);
    UNSTRUCTURED(1, put(m, 52, 5, 5), 10, 1, 52);
    UNSTRUCTURED(1, put(h, 25, 5, 4), 10, 2, 25);
    /* its areas left where they were: an A stands where a mesh is due */
    mesh_of(u, 533945, "1");
    uint8_t s[SHEET];
    sheet(s, 533945);
    memcpy(u + 5 * RECORD, s + 5 * RECORD, 2 * RECORD);
    all(u, SHEET, (expected){ 3, 6, 1, &U_FACTS });
    due(u, SHEET, "12345111");
    /* counts steer whatever the letters are */
    s[RECORD + 1] = '1';
    due(s, SHEET, "12345671");
}

/* ---- records totals */

/* layers of an H alone, with these letters: a records total leaves its own record out, so each H has 0 and M has one for each H */
static void alone(const char *letters, facts of)
{
    uint8_t s[SHEET], t[3 * RECORD];
    int layers = (int)strlen(letters);
    size_t length = (size_t)(layers + 1) * RECORD;
    sheet(s, 533945);
    for (int k = 1; k <= layers; k++) {
        uint8_t *h = t + k * RECORD;
        memcpy(h, s + RECORD, RECORD);
        h[1] = (uint8_t)letters[k - 1];
        put(h, 3, 2, k == 1 ? 1 : 5);
        row(h, 5, 5, 5, (const int[]){ 0, 0, 0, 0, 0 });
    }
    memcpy(t, s, RECORD);
    put(t, 29, 3, layers);
    row(t, 32, 5, 5, (const int[]){ 0, 0, 0, 0, layers });
    all(t, length, (expected){ 0, 0, 0, &of });
    read_and_written(t, length);
    for (int k = 1; k <= layers; k++) {
        put(t + k * RECORD, 25, 5, 1);
        all(t, length, (expected){ 10, (uint32_t)k + 1, 25, &of });
        put(t + k * RECORD, 25, 5, 0);
    }
    for (int other = layers - 1; other <= layers + 1; other += 2) {
        put(t, 52, 5, other);
        all(t, length, (expected){ 10, 1, 52, &of });
    }
}

static void totals(void)
{
    alone("2", (facts){ 1, 1, 0, 0, 0, 2, (const uint32_t[]){ 2, 0, 0, 0, 2 }, 5, NULL, NO_SUMS });
    alone("1", (facts){ 1, 1, 0, 0, 0, 2, (const uint32_t[]){ 2, 0, 0, 0, 1 }, 5, NULL, NO_SUMS });
    alone("21", (facts){ 1, 2, 0, 0, 0, 3, (const uint32_t[]){ 2, 0, 0, 0, 2, 3, 0, 0, 0, 1 }, 10, NULL, NO_SUMS });
}

int main(void)
{
    files();
    dues();
    positions();
    records();
    land();
    letters();
    mixed();
    unstructured();
    totals();
    if (failed)
        printf("test_api: %u of %u failed, the first at line %u\n", failed, tried, first);
    else
        printf("test_api: all %u hold\n", tried);
    return failed != 0;
}
