/* What is said of a file, in one of four forms:
 *
 *   AS_TEXT     key=value lines; a row of figures is one line of them
 *   AS_JSON     one object a file on a line of its own (RFC 8259)
 *   AS_LINES    refusals alone, as FILE:RECORD:COLUMN: NUMBER message, for editors; and rows, each behind FILE:RECORD:1:
 *   AS_NOTHING  nothing: the exit status tells
 *
 * The commands say what there is to say; the writer gives it the form.
 */
#ifndef WRITER_H
#define WRITER_H

#include "system.h"

typedef enum { AS_TEXT, AS_JSON, AS_LINES, AS_NOTHING } Format;

/* Exit statuses. With several files the greatest one counts. */
enum { ACCEPTED = 0, REFUSED = 1, UNREADABLE = 2 };

typedef struct {
    FILE *out;
    FILE *err;
    Format format;
    const char *file; /* the file's name; NULL where a command has none */
    int in_row;       /* text and lines: the next item goes on the same line */
    int begun;        /* the object, list or row has an item already */
} Writer;

/* A file's part begins, where `out` and `err` are set: text says file= where there are several files. */
void writer_begin(Writer *w, Format format, const char *file, int several);
void writer_end(Writer *w);

void put_number(Writer *w, const char *key, long long value);
void put_word(Writer *w, const char *key, const char *value);
/* A number by its digits. */
void put_digits(Writer *w, const char *key, const char *digits);
/* A text from outside, escaped. */
void put_text(Writer *w, const char *key, const char *value);
void put_hex(Writer *w, const char *key, const uint8_t *bytes, size_t length);
/* Bytes of a record, escaped. */
void put_bytes(Writer *w, const char *key, const uint8_t *bytes, size_t length);
/* JSON alone: whether all is well, where text says it by what it prints. */
void put_status(Writer *w, const char *status);
void put_message(Writer *w, const char *message);
/* JSON alone: there is such a thing, and it is not known. */
void put_unknown(Writer *w, const char *key);

/* JSON: an object, or a list, that is a member; text: nothing, its items are lines like the others. */
void object_begin(Writer *w, const char *key);
void object_end(Writer *w);
void list_begin(Writer *w, const char *key);
void list_end(Writer *w);

/* A row of a list; `record` is what it is about. */
void row_begin(Writer *w, uint32_t record);
void row_end(Writer *w);

/* status=refused and the place; JSON says the message too. */
void put_refusal(Writer *w, uint32_t number, uint32_t record, uint32_t column);
/* Something cannot be read or is not there: a line on `err`, and in JSON status=unreadable and the message. Answers UNREADABLE. */
int put_complaint(Writer *w, const char *message);
/* As lines: the refusal's line. The other forms say it by items. */
void put_refusal_line(Writer *w, uint32_t number, uint32_t record, uint32_t column);

#endif
