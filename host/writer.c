#include "writer.h"

#include "text.h"
#include "texts.h"

/* ---- the form of an item */

/* The key, and what stands between it and the item before. Answers whether the form has items here at all. */
static int put_key(Writer *w, const char *key)
{
    int row = w->format == AS_TEXT || (w->format == AS_LINES && w->in_row);
    if (w->format == AS_JSON) {
        fprintf(w->out, w->begun ? ",\"%s\":" : "\"%s\":", key);
    } else if (row) {
        fprintf(w->out, w->in_row && w->begun ? " %s=" : "%s=", key);
    }
    w->begun = 1;
    return w->format == AS_JSON || row;
}

static void end_item(Writer *w)
{
    if (w->format == AS_TEXT && !w->in_row) {
        fputc('\n', w->out);
    }
}

void put_digits(Writer *w, const char *key, const char *digits)
{
    if (put_key(w, key)) {
        fputs(digits, w->out);
        end_item(w);
    }
}

void put_number(Writer *w, const char *key, long long value)
{
    char digits[32];
    snprintf(digits, sizeof digits, "%lld", value);
    put_digits(w, key, digits);
}

void put_word(Writer *w, const char *key, const char *value)
{
    if (put_key(w, key)) {
        fprintf(w->out, w->format == AS_JSON ? "\"%s\"" : "%s", value);
        end_item(w);
    }
}

void put_text(Writer *w, const char *key, const char *value)
{
    if (put_key(w, key)) {
        if (w->format == AS_JSON) {
            print_json_string(w->out, value);
        } else {
            print_escaped(w->out, value);
        }
        end_item(w);
    }
}

void put_hex(Writer *w, const char *key, const uint8_t *bytes, size_t length)
{
    const char *quote = w->format == AS_JSON ? "\"" : "";
    if (put_key(w, key)) {
        fputs(quote, w->out);
        print_hex(w->out, bytes, length);
        fputs(quote, w->out);
        end_item(w);
    }
}

/* In JSON \ and " are escaped once more. */
void put_bytes(Writer *w, const char *key, const uint8_t *bytes, size_t length)
{
    if (!put_key(w, key)) {
        return;
    }
    if (w->format == AS_TEXT) {
        print_bytes(w->out, bytes, length);
    } else {
        fputc('"', w->out);
        for (size_t i = 0; i < length; i++) {
            int plain = bytes[i] >= 0x20 && bytes[i] < 0x7F && bytes[i] != '\\' && bytes[i] != '"';
            fprintf(w->out, plain ? "%c" : bytes[i] == '"' ? "\\%c" : "\\\\x%02X", (unsigned)bytes[i]);
        }
        fputc('"', w->out);
    }
    end_item(w);
}

void put_status(Writer *w, const char *status)
{
    if (w->format == AS_JSON) {
        put_word(w, "status", status);
    }
}

void put_message(Writer *w, const char *message)
{
    if (w->format == AS_JSON) {
        put_text(w, "message", message);
    }
}

void put_unknown(Writer *w, const char *key)
{
    if (w->format == AS_JSON) {
        put_digits(w, key, "null");
    }
}

/* ---- objects, lists, rows */

static void open_with(Writer *w, const char *key, const char *bracket)
{
    if (w->format == AS_JSON) {
        put_key(w, key);
        fputs(bracket, w->out);
        w->begun = 0;
    }
}

static void close_with(Writer *w, const char *bracket)
{
    if (w->format == AS_JSON) {
        fputs(bracket, w->out);
        w->begun = 1;
    }
}

void object_begin(Writer *w, const char *key)
{
    open_with(w, key, "{");
}

void object_end(Writer *w)
{
    close_with(w, "}");
}

void list_begin(Writer *w, const char *key)
{
    open_with(w, key, "[");
}

void list_end(Writer *w)
{
    close_with(w, "]");
}

/* FILE:RECORD:COLUMN: as editors take it */
static void put_place(Writer *w, uint32_t record, uint32_t column)
{
    if (w->file != NULL) {
        print_escaped(w->out, w->file);
        fprintf(w->out, ":%u:%u: ", (unsigned)record, (unsigned)column);
    }
}

void row_begin(Writer *w, uint32_t record)
{
    w->in_row = 1;
    if (w->format == AS_JSON) {
        fputs(w->begun ? ",{" : "{", w->out);
    } else if (w->format == AS_LINES) {
        put_place(w, record, 1);
    }
    w->begun = 0;
}

void row_end(Writer *w)
{
    w->in_row = 0;
    w->begun = 1;
    if (w->format == AS_JSON) {
        fputc('}', w->out);
    } else if (w->format != AS_NOTHING) {
        fputc('\n', w->out);
    }
}

/* ---- a file */

static void put_file_name(Writer *w)
{
    put_text(w, "file", w->file);
    if (!is_utf8(w->file)) {
        put_hex(w, "file_hex", (const uint8_t *)w->file, strlen(w->file));
    }
}

void writer_begin(Writer *w, Format format, const char *file, int several)
{
    *w = (Writer){.out = w->out, .err = w->err, .format = format, .file = file};
    if (format == AS_JSON) {
        fputc('{', w->out);
        if (file != NULL) {
            put_file_name(w);
        }
    } else if (format == AS_TEXT && several) {
        put_text(w, "file", file);
    }
}

void writer_end(Writer *w)
{
    if (w->format == AS_JSON) {
        fputs("}\n", w->out);
    }
}

/* ---- refusals */

void put_refusal_line(Writer *w, uint32_t number, uint32_t record, uint32_t column)
{
    if (w->format == AS_LINES) {
        put_place(w, record, column);
        fprintf(w->out, "%u %s\n", (unsigned)number, refusal_text(number)->message);
    }
}

int put_complaint(Writer *w, const char *message)
{
    fputs("stragumella: ", w->err);
    print_escaped(w->err, strcmp(w->file, "-") == 0 ? "standard input" : w->file);
    fprintf(w->err, ": %s\n", message);
    put_status(w, "unreadable");
    put_message(w, message);
    return UNREADABLE;
}

void put_refusal(Writer *w, uint32_t number, uint32_t record, uint32_t column)
{
    put_word(w, "status", "refused");
    put_number(w, "number", number);
    put_number(w, "record", record);
    put_number(w, "column", column);
    put_message(w, refusal_text(number)->message);
    put_refusal_line(w, number, record, column);
}
