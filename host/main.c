/* stragumella: what the proved library says of map sheets.
 *
 * The tool maps files, lends buffers and prints. Nothing is judged here.
 */
#include "explain.h"
#include "figures.h"
#include "find.h"
#include "layout.h"
#include "many.h"
#include "options.h"
#include "record.h"
#include "texts.h"

static const char help[] =
    "usage: stragumella check FILE..            is the file accepted, and what is in it\n"
    "       stragumella explain FILE..          a page for people: what is wrong, and what to mend\n"
    "       stragumella explain NUMBER..        what a refusal's number means\n"
    "       stragumella measure FILE..          a line an area: its doubled measure\n"
    "       stragumella sums FILE..             a line a layer: the areas' sum and the outside sum\n"
    "       stragumella record N FILE [KIND]    record N, a line a field\n"
    "       stragumella find FILE MESH LAYER node|line|area N\n"
    "                                           that node, line or area: its record, a line a field\n"
    "       stragumella where MESH X Y          latitude and longitude in degrees\n"
    "       stragumella --help | --version\n"
    "\n"
    "FILE - is standard input. With several files a line file=NAME stands before each.\n"
    "A refused file gives status=refused, number=, record= and column=.\n"
    "\n"
    "Options, before or behind the command:\n"
    "  --json          one JSON object a file, on a line of its own\n"
    "  --format=line   a refusal as FILE:RECORD:COLUMN: NUMBER message, for editors and CI;\n"
    "                  figures with FILE:RECORD:1: before each line; nothing else\n"
    "  -q, --quiet     nothing on standard output: the exit status tells\n"
    "  -j N            check, explain, measure, sums: N files at a time, the output in order\n"
    "  -h, --help; -V, --version\n"
    "  --              what follows is no option\n"
    "\n"
    "record: due= is the kind of record that is due there by the walk through the file,\n"
    "for refused files too, and the record is read as one. KIND, if it is given, is M, H,\n"
    "N, L, coordinates, A or loop, and the record is read as one of that kind. Names are in\n"
    "hexadecimal; name_text= is the same as UTF-8.\n"
    "\n"
    "Exit status: 0 accepted, 1 refused (any file), 2 misuse or a file that cannot be read.\n"
    "Don't change a file while it is looked at; if somebody may, hand it over as '- <FILE'.\n";

static int misuse(const char *what)
{
    fprintf(stderr, "stragumella: %s; --help tells the use\n", what);
    return UNREADABLE;
}

/* ---- commands on many files */

typedef struct {
    const char *name;
    Figures figures;
    void (*accepted)(Writer *w, const Sheet *sheet);
    void (*refused)(Writer *w, const Sheet *sheet);
} Judging;

static void put_outcome(Writer *w, const Sheet *sheet)
{
    put_refusal(w, sheet->outcome.number, sheet->outcome.record, sheet->outcome.column);
}

static const Judging judgings[] = {
    {"check", MEASURES, put_counts, put_outcome},
    {"explain", MEASURES, put_acceptance, put_explanation},
    {"measure", MEASURES, put_measures, put_outcome},
    {"sums", SUMS, put_sums, put_outcome},
};

/* What all jobs of a command share. */
typedef struct {
    const Judging *judging;
    const Options *options;
    char **names;
    size_t count;
    int explains; /* explain takes numbers too */
    int page;     /* and makes a page of each, with its name on top */
} Command;

static int judge(Writer *w, const Input *file, const Judging *judging)
{
    Sheet sheet;
    const char *why = sheet_judge(&sheet, file, judging->figures);
    if (why != NULL) {
        return put_complaint(w, why);
    }
    int accepted = sheet.outcome.number == 0;
    (accepted ? judging->accepted : judging->refused)(w, &sheet);
    sheet_free(&sheet);
    return accepted ? ACCEPTED : REFUSED;
}

/* A file that cannot be read gets a message and, but in JSON, no lines. */
static int judge_file(const Command *c, const char *name, Writer *w)
{
    Input file;
    const char *why = input_open(&file, name);
    writer_begin(w, c->options->format, name, c->count > 1 && why == NULL && !c->page);
    int status = why != NULL ? put_complaint(w, why) : judge(w, &file, c->judging);
    writer_end(w);
    if (why == NULL) {
        input_close(&file);
    }
    return status;
}

/* A number of `explain` stands before -- and is digits alone. */
static int is_number(const Command *c, size_t i, int32_t *number)
{
    int plain = (size_t)(c->names + i - c->options->words) >= c->options->plain;
    return c->explains && !plain && c->names[i][0] != '-' && whole(c->names[i], number) == 0;
}

static int explain_number(const Command *c, int32_t number, Writer *w)
{
    writer_begin(w, c->options->format, NULL, 0);
    put_meaning(w, (uint32_t)number);
    writer_end(w);
    return ACCEPTED;
}

static int do_file(const void *given, size_t i, FILE *out, FILE *err)
{
    const Command *c = given;
    Writer w = {.out = out, .err = err};
    int32_t number;
    if (c->page && i > 0) {
        fputc('\n', out);
    }
    return is_number(c, i, &number) ? explain_number(c, number, &w) : judge_file(c, c->names[i], &w);
}

static int each_file(const Judging *judging, const Options *o)
{
    Command c = {.judging = judging, .options = o, .names = o->words + 1, .count = o->count - 1};
    c.explains = judging->accepted == put_acceptance;
    c.page = c.explains && o->format == AS_TEXT;
    size_t inputs = 0;
    int32_t number;
    for (size_t i = 0; i < c.count; i++) {
        inputs += strcmp(c.names[i], "-") == 0;
        if (is_number(&c, i, &number) && refusal_text((uint32_t)number) == NULL) {
            return misuse("no refusal has that number (a file of that name is written ./NUMBER)");
        }
    }
    if (c.count == 0) {
        return misuse("no file");
    }
    if (inputs > 1) {
        return misuse("standard input can be read once, so one - at most");
    }
    return do_many(c.count, o->at_once == 0 ? 1 : o->at_once, do_file, &c);
}

/* ---- commands on one record */

typedef struct {
    const Options *options;
    const char *name;
    uint32_t number; /* record: its number and the kind that is named, or 0; else `sought` */
    uint32_t kind;
    Sought sought;
} Asked;

static int do_record(const void *given, size_t i, FILE *out, FILE *err)
{
    const Asked *asked = given;
    Writer w = {.out = out, .err = err};
    Input file;
    const char *why = input_open(&file, asked->name);
    (void)i;
    writer_begin(&w, asked->options->format, asked->name, 0);
    int status = why != NULL          ? put_complaint(&w, why)
                 : asked->number != 0 ? put_record(&w, &file, asked->number, asked->kind)
                                      : put_found(&w, &file, asked->sought);
    writer_end(&w);
    if (why == NULL) {
        input_close(&file);
    }
    return status;
}

static int record(const Options *o)
{
    int32_t number;
    Asked asked = {.options = o};
    if (o->count < 3 || o->count > 4) {
        return misuse("record takes N, FILE and perhaps KIND");
    }
    if (whole(o->words[1], &number) != 0 || number < 1) {
        return misuse("N is a whole number from 1");
    }
    asked.name = o->words[2];
    asked.number = (uint32_t)number;
    if (o->count == 4 && (asked.kind = kind_named(o->words[3])) == 0) {
        return misuse("KIND is M, H, N, L, coordinates, A or loop");
    }
    return do_many(1, 1, do_record, &asked);
}

static uint32_t item_named(const char *word)
{
    return strcmp(word, "node") == 0 ? NODE : strcmp(word, "line") == 0 ? LINE : strcmp(word, "area") == 0 ? AREA : 0;
}

static int find(const Options *o)
{
    Asked asked = {.options = o};
    Sought *sought = &asked.sought;
    if (o->count != 6) {
        return misuse("find takes FILE, MESH, LAYER, node, line or area, and its number");
    }
    asked.name = o->words[1];
    sought->kind = item_named(o->words[4]);
    if (whole(o->words[2], &sought->mesh) != 0 || whole(o->words[3], &sought->layer) != 0 || sought->kind == 0 ||
        whole(o->words[5], &sought->number) != 0) {
        return misuse("find takes FILE, MESH, LAYER, node, line or area, and its number");
    }
    return do_many(1, 1, do_record, &asked);
}

/* ---- a point */

/* The fewest digits that give the number back; 17 always do. */
static void shortest(double value, char digits[32])
{
    int count = 1;
    do {
        snprintf(digits, 32, "%.*g", count, value);
    } while (strtod(digits, NULL) != value && ++count <= 17);
}

static int where(const Options *o)
{
    int32_t mesh;
    int32_t x;
    int32_t y;
    char digits[32];
    Writer w = {.out = stdout, .err = stderr};
    if (o->format == AS_LINES) {
        return misuse("where is about no file, so --format=line has nothing to say");
    }
    if (o->count != 4 || whole(o->words[1], &mesh) != 0 || whole(o->words[2], &x) != 0 || whole(o->words[3], &y) != 0) {
        return misuse("where takes MESH, X and Y, whole numbers of 32 bits");
    }
    stragumella_place place = stragumella_position(mesh, x, y);
    writer_begin(&w, o->format, NULL, 0);
    put_status(&w, place.number != 0 ? "refused" : "ok");
    if (place.number != 0) {
        put_number(&w, "number", place.number);
    } else {
        shortest(place.latitude, digits);
        put_digits(&w, "latitude", digits);
        shortest(place.longitude, digits);
        put_digits(&w, "longitude", digits);
    }
    writer_end(&w);
    return place.number != 0 ? REFUSED : ACCEPTED;
}

/* ---- the command line */

static int print_text(const char *text)
{
    fputs(text, stdout);
    return ACCEPTED;
}

static int command(const Options *o)
{
    for (size_t i = 0; i < sizeof judgings / sizeof *judgings; i++) {
        if (strcmp(o->words[0], judgings[i].name) == 0) {
            return each_file(&judgings[i], o);
        }
    }
    int (*single)(const Options *) = strcmp(o->words[0], "record") == 0  ? record
                                     : strcmp(o->words[0], "find") == 0  ? find
                                     : strcmp(o->words[0], "where") == 0 ? where
                                                                         : NULL;
    if (single == NULL) {
        return misuse("no such command");
    }
    return o->at_once != 0 ? misuse("-j is for check, explain, measure and sums") : single(o);
}

static int run(const Options *o)
{
    if (o->misuse != NULL) {
        return misuse(o->misuse);
    }
    if (o->help || o->version) {
        return print_text(o->help ? help : "stragumella " STRAGUMELLA_VERSION "\n");
    }
    return o->count == 0 ? misuse("no command") : command(o);
}

int main(int argc, char **argv)
{
    Options options = options_of(argc, argv);
    int status = run(&options);
    if (fflush(stdout) != 0 || ferror(stdout) != 0) {
        fprintf(stderr, "stragumella: standard output: %s\n", strerror(errno));
        return UNREADABLE;
    }
    return status;
}
