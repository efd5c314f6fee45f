/* A first look at the bytes of a file that was refused with 1 or 2.
 *
 * All records before the refused one have their line ends in place, so the refused record begins a line, and this line
 * is looked at: how it ends, how wide it is, whether its names are UTF-8. The first bytes tell what kind of file it is,
 * the last ones how it ends. Nothing is judged here.
 */
#include "look.h"

#include "input.h"
#include "system.h"

#define COLUMNS ((size_t)72)
#define MOST_RECORDS ((size_t)6399936)

/* A longer line is taken for no line. */
#define LONGEST ((size_t)1024)
/* How many lines behind the refused one are compared with it. */
#define NEXT_LINES ((size_t)6)
/* How far back from the end the same byte is followed. */
#define LAST_BYTES ((size_t)4096)
/* More guesses than one look can have. */
#define ROOM 16

enum { ZERO = 0x00, TAB = 0x09, LF = 0x0A, CR = 0x0D, MARK = 0x1A, SPACE = 0x20 };

/* What is looked at, and what was told of it so far. */
typedef struct {
    const uint8_t *bytes;
    size_t length;
    size_t end; /* the length without the bytes 1A, or 00, at the end */
    uint32_t number;
    uint32_t record;
    size_t start; /* where the refused record begins */
    Guess told[ROOM];
    size_t count;
} Sight;

#define SEEN sizeof(((Guess *)NULL)->seen)

/* One more guess. Answers where its sentence goes. */
static char *guess(Sight *sight, const char *cause)
{
    Guess *one = &sight->told[sight->count++];
    one->cause = cause;
    return one->seen;
}

/* Whether the byte stands at the place, before the end. */
static int stands(const Sight *sight, size_t place, uint8_t byte)
{
    return place < sight->end && sight->bytes[place] == byte;
}

static size_t lesser(size_t a, size_t b)
{
    return a < b ? a : b;
}

/* Up to 8 bytes in hexadecimal. */
typedef struct {
    char text[8 * 3 + 1];
} Hex;

static Hex hex(const uint8_t *bytes, size_t count)
{
    static const char digits[] = "0123456789ABCDEF";
    Hex all = {{0}};
    for (size_t i = 0; i < count && i < 8; i++) {
        char *to = all.text + 3 * i;
        if (i > 0) {
            to[-1] = ' ';
        }
        to[0] = digits[bytes[i] / 16];
        to[1] = digits[bytes[i] % 16];
    }
    return all;
}

/* ---- lines */

typedef enum { CR_LF, LF_ALONE, CR_ALONE, CR_CR_LF, LF_CR, NO_END } End;

typedef struct {
    size_t start;
    size_t bytes;   /* before the line end */
    size_t columns; /* the same; of UTF-8, each character that is not ASCII counted as two */
    size_t three;   /* how many characters of three bytes; 0 if the line is not UTF-8 */
    size_t lost;    /* where EF BF BD stands first, counted from 1; 0 if nowhere */
    size_t tab;     /* where the first tab stands, counted from 1; 0 if nowhere */
    size_t next;    /* behind the line end */
    End end;
} Line;

/* How many bytes the character of UTF-8 has that begins with this one; 0 if none does. */
static size_t character(uint8_t first)
{
    if (first < 0x80) {
        return 1;
    }
    if (first < 0xC2 || first > 0xF4) {
        return 0;
    }
    return first < 0xE0 ? 2 : first < 0xF0 ? 3 : 4;
}

static int goes_on(const uint8_t *bytes, size_t size)
{
    for (size_t i = 1; i < size; i++) {
        if (bytes[i] < 0x80 || bytes[i] > 0xBF) {
            return 0;
        }
    }
    return 1;
}

static int is_lost(const uint8_t *bytes, size_t size)
{
    return size == 3 && bytes[0] == 0xEF && bytes[1] == 0xBF && bytes[2] == 0xBD;
}

/* Reads the line as UTF-8. Leaves it alone if it is not that, or has no character of three bytes. */
static void read_as_utf8(const Sight *sight, Line *line)
{
    size_t columns = 0;
    size_t three = 0;
    size_t lost = 0;
    size_t size;
    for (size_t i = 0; i < line->bytes; i += size) {
        const uint8_t *at = sight->bytes + line->start + i;
        size = character(*at);
        if (size == 0 || size > line->bytes - i || !goes_on(at, size)) {
            return;
        }
        columns += size == 1 ? 1 : 2;
        three += size == 3;
        if (lost == 0 && is_lost(at, size)) {
            lost = i + 1;
        }
    }
    if (three > 0) {
        line->columns = columns;
        line->three = three;
        line->lost = lost;
    }
}

/* How a line ends whose first CR or LF stands at the place. */
static End end_at(const Sight *sight, size_t place)
{
    if (stands(sight, place, LF)) {
        return stands(sight, place + 1, CR) && !stands(sight, place + 2, LF) ? LF_CR : LF_ALONE;
    }
    if (stands(sight, place + 1, LF)) {
        return CR_LF;
    }
    return stands(sight, place + 1, CR) && stands(sight, place + 2, LF) ? CR_CR_LF : CR_ALONE;
}

static size_t end_bytes(End end)
{
    switch (end) {
    case LF_ALONE:
    case CR_ALONE:
        return 1;
    case CR_LF:
    case LF_CR:
        return 2;
    case CR_CR_LF:
        return 3;
    default:
        return 0;
    }
}

/* The line that starts there, at the end at most. */
static Line line_at(const Sight *sight, size_t start)
{
    Line line = {.start = start, .end = NO_END};
    size_t limit = start + lesser(sight->end - start, LONGEST);
    size_t place = start;
    while (place < limit && sight->bytes[place] != CR && sight->bytes[place] != LF) {
        if (sight->bytes[place] == TAB && line.tab == 0) {
            line.tab = place - start + 1;
        }
        place++;
    }
    if (place < limit) {
        line.end = end_at(sight, place);
    }
    line.bytes = place - start;
    line.columns = line.bytes;
    line.next = place + end_bytes(line.end);
    read_as_utf8(sight, &line);
    return line;
}

/* The lines behind one: how many, how many end as it does, how many have under 72 columns. */
typedef struct {
    size_t lines;
    size_t alike;
    size_t shorter;
} Behind;

static Behind behind(const Sight *sight, const Line *first)
{
    Behind all = {0, 0, 0};
    Line line = *first;
    while (all.lines < NEXT_LINES && line.end != NO_END && line.next < sight->end) {
        line = line_at(sight, line.next);
        if (line.end != NO_END) {
            all.lines++;
            all.alike += line.end == first->end;
            all.shorter += line.columns < COLUMNS;
        }
    }
    return all;
}

/* Which byte of the refused record it is that stands so far behind the line's start. */
static size_t byte_of_record(const Sight *sight, const Line *line, size_t further)
{
    return line->start - sight->start + further + 1;
}

/* ---- what the first bytes tell */

typedef struct {
    const char *name;
    size_t skip; /* how many bytes stand before those that tell */
    size_t count;
    uint8_t bytes[6];
} Magic;

static const Magic packings[] = {
    {"gzip", 0, 2, {0x1F, 0x8B}},
    {"xz", 0, 6, {0xFD, 0x37, 0x7A, 0x58, 0x5A, 0x00}},
    {"zip", 0, 4, {0x50, 0x4B, 0x03, 0x04}},
    {"bzip2", 0, 3, {0x42, 0x5A, 0x68}},
    {"zstd", 0, 4, {0x28, 0xB5, 0x2F, 0xFD}},
    {"compress", 0, 2, {0x1F, 0x9D}},
    {"7z", 0, 6, {0x37, 0x7A, 0xBC, 0xAF, 0x27, 0x1C}},
    {"lzh", 2, 3, {0x2D, 0x6C, 0x68}},
};

static const Magic wide_forms[] = {
    {"a byte order mark of UTF-16", 0, 2, {0xFF, 0xFE}},
    {"a byte order mark of UTF-16", 0, 2, {0xFE, 0xFF}},
    {"\"M \" in UTF-16", 0, 4, {0x4D, 0x00, 0x20, 0x00}},
    {"\"M \" in UTF-16", 0, 4, {0x00, 0x4D, 0x00, 0x20}},
};

static const Magic ebcdic_form = {"\"M \" in EBCDIC", 0, 2, {0xD4, 0x40}};
static const Magic utf8_mark = {"the byte order mark of UTF-8", 0, 3, {0xEF, 0xBB, 0xBF}};

/* The first of `count` that the file begins with, or NULL. */
static const Magic *begins_with(const Sight *sight, const Magic *magics, size_t count)
{
    for (const Magic *magic = magics; magic < magics + count; magic++) {
        size_t same = 0;
        while (same < magic->count && stands(sight, magic->skip + same, magic->bytes[same])) {
            same++;
        }
        if (same == magic->count) {
            return magic;
        }
    }
    return NULL;
}

static void tell_magic(Sight *sight, const char *cause, const Magic *magic)
{
    snprintf(guess(sight, cause), SEEN, "the file begins with %s, %s", hex(sight->bytes, magic->count).text,
             magic->name);
}

/* A file in another form, of which no more can be seen. Answers whether it is one. */
static int another_form(Sight *sight)
{
    const Magic *packing = begins_with(sight, packings, sizeof packings / sizeof *packings);
    if (packing != NULL) {
        snprintf(guess(sight, "packed"), SEEN, "the file begins with %s, as files packed by %s do",
                 hex(sight->bytes, packing->skip + packing->count).text, packing->name);
        return 1;
    }
    const Magic *wide = begins_with(sight, wide_forms, sizeof wide_forms / sizeof *wide_forms);
    if (wide != NULL) {
        tell_magic(sight, "utf-16", wide);
        return 1;
    }
    if (begins_with(sight, &ebcdic_form, 1) != NULL) {
        tell_magic(sight, "ebcdic", &ebcdic_form);
        return 1;
    }
    return 0;
}

/* Answers how many bytes stand before the first record. */
static size_t order_mark(Sight *sight)
{
    if (begins_with(sight, &utf8_mark, 1) == NULL) {
        return 0;
    }
    tell_magic(sight, "byte-order-mark", &utf8_mark);
    return utf8_mark.count;
}

static int begins_a_sheet(const Sight *sight, size_t first)
{
    return stands(sight, first, 'M') && stands(sight, first + 1, ' ');
}

static void tell_no_sheet(Sight *sight, size_t first)
{
    if (first < sight->length) {
        snprintf(guess(sight, "no-sheet"), SEEN, "the first bytes%s are %s; a sheet begins with M and a space, 4D 20",
                 first > 0 ? " behind the mark" : "",
                 hex(sight->bytes + first, lesser(sight->length - first, 4)).text);
    }
}

/* ---- what the refused record's line tells */

/* The columns of each kind without the spaces at its end (RULES 4). An A has none there: it ends with its name. */
typedef struct {
    char letter; /* a space for the kinds that have none */
    size_t columns;
    const char *name;
} Stripped;

static const Stripped stripped_kinds[] = {
    {'M', 56, "an M"}, {'H', 39, "an H"},        {'N', 70, "an N"},
    {'L', 60, "an L"}, {' ', 70, "coordinates"}, {' ', 69, "a loop"},
};

/* The letter that a line has, a space if it begins with a number, 0 if with something else. */
static char letter_of(const Sight *sight, const Line *line)
{
    uint8_t first = line->bytes > 0 ? sight->bytes[line->start] : ZERO;
    if (first == '-' || (first >= '0' && first <= '9')) {
        return ' ';
    }
    return first < 0x80 ? (char)first : '\0';
}

static int ends_blank(const Sight *sight, const Line *line)
{
    uint8_t last = line->bytes > 0 ? sight->bytes[line->start + line->bytes - 1] : SPACE;
    return last == SPACE || last == TAB;
}

/* A tab hides how wide a line was: then a letter is asked for. */
static int fits(const Stripped *kind, const Line *line, char letter)
{
    if (kind->letter != letter) {
        return 0;
    }
    return line->tab == 0 ? line->columns == kind->columns : letter != ' ' && line->columns < kind->columns;
}

/* The kind that the line is without the spaces at its end, or NULL. */
static const Stripped *stripped(const Sight *sight, const Line *line)
{
    const Stripped *behind_all = stripped_kinds + sizeof stripped_kinds / sizeof *stripped_kinds;
    char letter = letter_of(sight, line);
    if (ends_blank(sight, line)) {
        return NULL;
    }
    for (const Stripped *kind = stripped_kinds; kind < behind_all; kind++) {
        if (fits(kind, line, letter)) {
            return kind;
        }
    }
    return NULL;
}

/* Wrong bytes where CR LF should be, but nothing is shifted: the next record, or the file, ends as it should. */
static int changed_in_place(const Sight *sight, const Line *line)
{
    size_t next = sight->start + RECORD;
    if (sight->number != 2 || line->start != sight->start || line->bytes < COLUMNS || next > sight->end) {
        return 0;
    }
    return next == sight->end || (stands(sight, next + COLUMNS, CR) && stands(sight, next + COLUMNS + 1, LF));
}

static void tell_change(Sight *sight)
{
    snprintf(guess(sight, "line-end-changed"), SEEN, "bytes 73 and 74 of record %u are %s in place of 0D 0A; %s",
             (unsigned)sight->record, hex(sight->bytes + sight->start + COLUMNS, 2).text,
             sight->start + RECORD == sight->end ? "the file ends behind them" : "the next record ends as it should");
}

/* Half of a line end at the very end of the file. */
static int half_ended(const Sight *sight, const Line *line)
{
    return line->end == CR_ALONE && line->columns == COLUMNS && line->next == sight->end;
}

static void tell_end(Sight *sight, const Line *line, Behind next)
{
    static const struct {
        const char *cause;
        const char *with;
        const char *further;
    } ends[] = {
        [LF_ALONE] = {"lf-alone", "LF (0A)", " and no CR (0D) before it"},
        [CR_ALONE] = {"cr-alone", "CR (0D)", " and no LF (0A) behind it"},
        [CR_CR_LF] = {"cr-doubled", "CR CR LF (0D 0D 0A)", " and on"},
        [LF_CR] = {"lf-cr", "LF CR (0A 0D)", " and on"},
    };
    char more[64] = "";
    if (line->end == CR_LF || line->end == NO_END || (line->bytes == 0 && next.lines == 0)) {
        return;
    }
    if (next.lines > 0) {
        snprintf(more, sizeof more, "; so do %zu of the next %zu lines", next.alike, next.lines);
    }
    snprintf(guess(sight, half_ended(sight, line) ? "last-line-end" : ends[line->end].cause), SEEN,
             "record %u ends with %s in byte %zu%s%s", (unsigned)sight->record, ends[line->end].with,
             byte_of_record(sight, line, line->bytes), ends[line->end].further, more);
}

static void tell_lost(Sight *sight, const Line *line)
{
    snprintf(guess(sight, "names-lost"), SEEN,
             "record %u has EF BF BD in byte %zu and on, what is written for a character that could not be read",
             (unsigned)sight->record, byte_of_record(sight, line, line->lost - 1));
}

static void tell_utf8(Sight *sight, const Line *line)
{
    snprintf(guess(sight, "utf-8"), SEEN,
             "record %u has %zu bytes before its line end; as UTF-8, its %zu characters of three bytes counted as two, "
             "it has %zu columns",
             (unsigned)sight->record, line->bytes, line->three, line->columns);
}

/* A line without an end: it goes on for longer than a record, or the file ends in it. */
static void tell_open(Sight *sight, const Line *line)
{
    if (line->next < sight->end || line->bytes >= RECORD) {
        snprintf(guess(sight, "no-line-ends"), SEEN,
                 "no CR (0D) and no LF (0A) in the %zu bytes from record %u on; its bytes 73 and 74 are %s",
                 line->bytes, (unsigned)sight->record, hex(sight->bytes + sight->start + COLUMNS, 2).text);
    } else if (line->columns < COLUMNS) {
        snprintf(guess(sight, "cut"), SEEN, "the last record, %u, has %zu of its 74 bytes and no line end%s",
                 (unsigned)sight->record, line->bytes,
                 sight->record > 1 ? "; those before it end with CR LF" : "");
    } else {
        snprintf(guess(sight, line->columns == COLUMNS ? "last-line-end" : "line-too-long"), SEEN,
                 "the last record, %u, has %zu columns and no line end", (unsigned)sight->record, line->columns);
    }
}

static void tell_stripped(Sight *sight, const Line *line, const Stripped *kind, Behind next)
{
    char more[64] = "";
    if (next.lines > 0) {
        snprintf(more, sizeof more, "; %zu of the next %zu lines are short too", next.shorter, next.lines);
    }
    snprintf(guess(sight, "stripped-blanks"), SEEN, "record %u has %zu columns; %s without spaces at the end has %zu%s",
             (unsigned)sight->record, line->columns, kind->name, kind->columns, more);
}

/* A line with an end, but not of 72 columns. */
static void tell_width(Sight *sight, const Line *line, Behind next)
{
    const Stripped *kind = line->columns < COLUMNS ? stripped(sight, line) : NULL;
    int tabs = line->tab > 0 && line->columns < COLUMNS;
    if (tabs) {
        snprintf(guess(sight, "tabs"), SEEN, "record %u has %zu columns, and a tab (09) in byte %zu",
                 (unsigned)sight->record, line->columns, byte_of_record(sight, line, line->tab - 1));
    }
    if (line->bytes == 0) {
        snprintf(guess(sight, "empty-line"), SEEN, "an empty line (%s) stands where record %u begins",
                 hex(sight->bytes + line->start, line->next - line->start).text, (unsigned)sight->record);
    } else if (kind != NULL) {
        tell_stripped(sight, line, kind, next);
    } else if (!tabs && line->columns != COLUMNS) {
        snprintf(guess(sight, line->columns < COLUMNS ? "line-too-short" : "line-too-long"), SEEN,
                 "record %u has %zu columns before its line end, and 72 are due", (unsigned)sight->record,
                 line->columns);
    }
}

static void tell_line(Sight *sight, const Line *line)
{
    Behind next = behind(sight, line);
    if (changed_in_place(sight, line)) {
        tell_change(sight);
        return;
    }
    tell_end(sight, line, next);
    if (line->lost > 0) {
        tell_lost(sight, line);
        return;
    }
    if (line->three > 0) {
        tell_utf8(sight, line);
    }
    if (line->end == NO_END) {
        tell_open(sight, line);
    } else {
        tell_width(sight, line, next);
    }
}

/* ---- what the last bytes tell */

static int ends_line(uint8_t byte)
{
    return byte == CR || byte == LF;
}

/* The last line, where it is another one than the refused record's and has no end. */
static void tell_last_line(Sight *sight, const Line *refused)
{
    size_t start = sight->end;
    size_t least = sight->end - lesser(sight->end, LONGEST);
    if (refused->end == NO_END || refused->next >= sight->end || ends_line(sight->bytes[sight->end - 1])) {
        return;
    }
    while (start > least && !ends_line(sight->bytes[start - 1])) {
        start--;
    }
    if (start > least) {
        Line last = line_at(sight, start);
        int whole = last.columns >= COLUMNS || stripped(sight, &last) != NULL;
        snprintf(guess(sight, whole ? "last-line-end" : "cut"), SEEN,
                 "the last line of the file has %zu columns and no line end", last.columns);
    }
}

/* Takes the bytes 1A, or 00, from the end. */
static void trim(Sight *sight)
{
    uint8_t last = sight->bytes[sight->length - 1];
    if (last == MARK || last == ZERO) {
        while (sight->end > 0 && sight->bytes[sight->end - 1] == last && sight->length - sight->end < LAST_BYTES) {
            sight->end--;
        }
    }
}

static void tell_trimmed(Sight *sight)
{
    size_t count = sight->length - sight->end;
    uint8_t last = sight->bytes[sight->length - 1];
    const char *cause = last == MARK ? "end-mark" : "zeros-at-end";
    const char *rest = sight->end % RECORD == 0 ? "; the length without is a multiple of 74" : "";
    if (count == 1) {
        snprintf(guess(sight, cause), SEEN, "the last byte of the file is %s%s", hex(&last, 1).text, rest);
    } else if (count > 1) {
        snprintf(guess(sight, cause), SEEN, "the last %zu bytes of the file are %s%s", count, hex(&last, 1).text,
                 count < LAST_BYTES ? rest : ", and perhaps more");
    }
}

/* ---- the look */

static int too_many(const Sight *sight)
{
    return sight->length / RECORD > MOST_RECORDS;
}

static void tell_too_many(Sight *sight)
{
    snprintf(guess(sight, "too-many-records"), SEEN,
             "the file has %zu bytes or more; the most that a file may have is 6399936 records, 473595264 bytes",
             sight->length);
}

/* Whether more than trimmed bytes stands there. */
static int has_line(const Sight *sight, size_t start)
{
    return start < sight->end &&
           (sight->end == sight->length || sight->bytes[start] != sight->bytes[sight->length - 1]);
}

/* Whether the records are those of a sheet but for a fault, whatever the first letters are: some stand before the
 * refused one, or its line is as wide as it should be, or empty. */
static int has_records(const Sight *sight, const Line *line)
{
    return sight->record > 1 || changed_in_place(sight, line) ||
           (line->end != NO_END && (line->columns == COLUMNS || line->bytes == 0));
}

/* The refused record's line, and then the end. */
static void look_closer(Sight *sight)
{
    size_t first = order_mark(sight);
    size_t start = sight->record == 1 ? first : sight->start;
    int sheet = begins_a_sheet(sight, first);
    trim(sight);
    Line line = line_at(sight, lesser(start, sight->end));
    int records = has_records(sight, &line);
    if (!sheet && !records) {
        tell_no_sheet(sight, first);
    }
    if (has_line(sight, start)) {
        tell_line(sight, &line);
        if (sheet || records) {
            tell_last_line(sight, &line);
        }
    }
    tell_trimmed(sight);
    if (too_many(sight)) {
        tell_too_many(sight);
    }
    if (!sheet && records) {
        tell_no_sheet(sight, first);
    }
}

static void look_at_all(Sight *sight)
{
    if (sight->length == 0) {
        snprintf(guess(sight, "empty"), SEEN, "the file has no bytes");
    } else if (sight->number == 1 && too_many(sight)) {
        tell_too_many(sight);
    } else if (!another_form(sight)) {
        look_closer(sight);
    }
}

size_t look(const uint8_t *bytes, size_t length, uint32_t number, uint32_t record, Guess *guesses, size_t most)
{
    if ((number != 1 && number != 2) || record == 0 || record - 1 > length / RECORD) {
        return 0;
    }
    Sight sight = {.bytes = bytes,
                   .length = length,
                   .end = length,
                   .number = number,
                   .record = record,
                   .start = (record - 1) * RECORD};
    look_at_all(&sight);
    size_t count = lesser(sight.count, most);
    for (size_t i = 0; i < count; i++) {
        guesses[i] = sight.told[i];
    }
    return count;
}

/* ---- words for people */

const char *cause_title(const char *cause)
{
    static const struct {
        const char *cause;
        const char *title;
    } titles[] = {
        {"empty", "the file is empty"},
        {"packed", "a packed file: unpack it first"},
        {"utf-16", "the text was saved as UTF-16"},
        {"ebcdic", "the text is EBCDIC"},
        {"byte-order-mark", "a byte order mark stands before the first record"},
        {"no-sheet", "no map sheet"},
        {"lf-alone", "LF alone in place of CR LF"},
        {"cr-alone", "CR alone in place of CR LF"},
        {"cr-doubled", "CR CR LF in place of CR LF: converted twice"},
        {"lf-cr", "LF CR in place of CR LF"},
        {"no-line-ends", "no line ends"},
        {"line-end-changed", "one line end was overwritten"},
        {"names-lost", "a conversion lost the names"},
        {"utf-8", "the names were converted to UTF-8"},
        {"tabs", "spaces became tabs"},
        {"stripped-blanks", "blanks at the ends of lines were stripped"},
        {"empty-line", "an empty line"},
        {"line-too-short", "bytes of a record were lost"},
        {"line-too-long", "bytes were added to a record"},
        {"last-line-end", "the last line end is missing"},
        {"cut", "the file was cut: a transfer that broke off"},
        {"end-mark", "an end mark 1A stands behind the last record"},
        {"zeros-at-end", "zeros fill up the file's end"},
        {"too-many-records", "more records than a sheet can have"},
    };
    for (size_t i = 0; i < sizeof titles / sizeof *titles; i++) {
        if (strcmp(cause, titles[i].cause) == 0) {
            return titles[i].title;
        }
    }
    return cause;
}
