#include "options.h"

int whole(const char *word, int32_t *value)
{
    int64_t sign = word[0] == '-' ? -1 : 1;
    int64_t size = 0;
    const char *digit = word[0] == '-' ? word + 1 : word;
    if (*digit == '\0') {
        return -1;
    }
    for (; *digit != '\0'; digit++) {
        if (*digit < '0' || *digit > '9') {
            return -1;
        }
        size = size * 10 + (*digit - '0');
        if (sign * size < INT32_MIN || sign * size > INT32_MAX) {
            return -1;
        }
    }
    *value = (int32_t)(sign * size);
    return 0;
}

/* One form alone can be asked for. */
static void take_format(Options *o, Format format)
{
    if (o->formed && o->format != format) {
        o->misuse = "one of --json, --quiet and --format=line, not two";
    }
    o->format = format;
    o->formed = 1;
}

static void take_at_once(Options *o, const char *word)
{
    int32_t value;
    if (word == NULL || whole(word, &value) != 0 || value < 1) {
        o->misuse = "-j takes a whole number from 1";
    } else {
        o->at_once = (size_t)value;
    }
}

/* `next` is the word behind the option, or NULL. Answers how many words were taken. */
static int take_option(Options *o, const char *word, const char *next)
{
    if (strcmp(word, "--help") == 0 || strcmp(word, "-h") == 0) {
        o->help = 1;
    } else if (strcmp(word, "--version") == 0 || strcmp(word, "-V") == 0) {
        o->version = 1;
    } else if (strcmp(word, "--json") == 0 || strcmp(word, "--format=json") == 0) {
        take_format(o, AS_JSON);
    } else if (strcmp(word, "--quiet") == 0 || strcmp(word, "-q") == 0) {
        take_format(o, AS_NOTHING);
    } else if (strcmp(word, "--format=text") == 0) {
        take_format(o, AS_TEXT);
    } else if (strcmp(word, "--format=line") == 0) {
        take_format(o, AS_LINES);
    } else if (strcmp(word, "-j") == 0) {
        take_at_once(o, next);
        return 2;
    } else if (strncmp(word, "-j", 2) == 0) {
        take_at_once(o, word + 2);
    } else {
        o->misuse = "no such option (a file's name that begins with - stands behind --, or is written ./-)";
    }
    return 1;
}

/* "-" is standard input, and a number of `where` may be below 0. */
static int is_option(const Options *o, const char *word)
{
    int number = o->count > 0 && strcmp(o->words[0], "where") == 0 && word[1] >= '0' && word[1] <= '9';
    return word[0] == '-' && word[1] != '\0' && !number;
}

Options options_of(int argc, char **argv)
{
    Options o = {.words = argv + 1};
    int i = 1;
    while (i < argc && o.misuse == NULL && !o.help && !o.version && strcmp(argv[i], "--") != 0) {
        if (is_option(&o, argv[i])) {
            i += take_option(&o, argv[i], i + 1 < argc ? argv[i + 1] : NULL);
        } else {
            o.words[o.count++] = argv[i++];
        }
    }
    o.plain = o.count;
    for (i++; i < argc; i++) {
        o.words[o.count++] = argv[i];
    }
    return o;
}
