/* A file's bytes: mapped, or read into memory where the file cannot be mapped. */
#ifndef INPUT_H
#define INPUT_H

#include "system.h"

/* The bytes of a record. */
#define RECORD ((size_t)74)

typedef struct {
    uint8_t *bytes; /* never NULL while open */
    size_t length;
    int mapped;
} Input;

/* Opens the named file, or standard input for "-". Answers NULL, or why it could not be read. */
const char *input_open(Input *input, const char *name);

void input_close(Input *input);

#endif
