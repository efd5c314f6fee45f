/* The command line: options, and words that are none. */
#ifndef OPTIONS_H
#define OPTIONS_H

#include "writer.h"

typedef struct {
    Format format;
    int formed;          /* the form was said */
    size_t at_once;      /* -j; 0: not said */
    int help;            /* --help was said, or --version; nothing behind it counts */
    int version;
    char **words;        /* the command, and what it is about */
    size_t count;
    size_t plain;        /* words from here on stand behind -- and are names, whatever they look like */
    const char *misuse;  /* what is wrong, or NULL */
} Options;

/* Takes the options out of argv, whose words move up to the front. */
Options options_of(int argc, char **argv);

/* A whole number of 32 bits: digits, "-" before them or not. Answers 0, or -1. */
int whole(const char *word, int32_t *value);

#endif
