/* Text that comes from outside (file names, names of places, bytes of records), printed so that it cannot be taken for
 * something else: no control character gets out.
 */
#ifndef TEXT_H
#define TEXT_H

#include "system.h"

/* The bytes of the UTF-8 character at the start of `bytes`; 0 where none is well formed there. */
size_t utf8_length(const uint8_t *bytes, size_t left);

/* A name for a line of text. A control character is written \n, \r, \t or \xNN, byte by byte, and \ as \\. */
void print_escaped(FILE *out, const char *name);

/* Bytes of a record: printable ASCII as it is, any other byte, and \, as \xNN. Answers how many characters were printed;
 * out may be NULL, to count alone. */
size_t print_bytes(FILE *out, const uint8_t *bytes, size_t length);

/* A string of JSON, quotes and all (RFC 8259). A byte that is not of well-formed UTF-8 becomes U+FFFD. */
void print_json_string(FILE *out, const char *text);

/* Whether the text is UTF-8 throughout. */
int is_utf8(const char *text);

/* The bytes of a text as hexadecimal digits. */
void print_hex(FILE *out, const uint8_t *bytes, size_t length);

/* A label and a text of one-byte characters behind it, wrapped at 78 columns; further lines are indented. */
void print_wrapped(FILE *out, const char *label, const char *text);

#endif
