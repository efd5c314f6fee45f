/* Names of places as text: CP932, the Shift JIS of the sheets, to UTF-8 by the C library's conversion. */
#ifndef NAMES_H
#define NAMES_H

#include "system.h"

/* Room for a name of 40 bytes: no character of CP932 takes more than three bytes of UTF-8 for each of its own. */
enum { NAME_ROOM = 40 * 3 + 1 };

/* Converts a name. Answers NULL, with the text and an end mark in `text`; or why it could not be converted, and then `text` is
 * empty: nothing is guessed. */
const char *name_text(const uint8_t *name, size_t length, char text[NAME_ROOM]);

#endif
