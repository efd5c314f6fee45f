#include "text.h"

/* ---- UTF-8 (RFC 3629) */

/* How many bytes a character with this first byte has; 0 where it is no first byte. */
static size_t announced(uint8_t first)
{
    if (first < 0x80) {
        return 1;
    }
    if (first >= 0xC2 && first <= 0xDF) {
        return 2;
    }
    if (first >= 0xE0 && first <= 0xEF) {
        return 3;
    }
    return first >= 0xF0 && first <= 0xF4 ? 4 : 0;
}

/* Neither a longer spelling than needed, nor half of a pair (D800 to DFFF), nor beyond 10FFFF. */
static int second_fits(uint8_t first, uint8_t second)
{
    uint8_t least = first == 0xE0 ? 0xA0 : first == 0xF0 ? 0x90 : 0x80;
    uint8_t most = first == 0xED ? 0x9F : first == 0xF4 ? 0x8F : 0xBF;
    return second >= least && second <= most;
}

size_t utf8_length(const uint8_t *bytes, size_t left)
{
    size_t length = left == 0 ? 0 : announced(bytes[0]);
    if (length == 0 || length > left) {
        return 0;
    }
    if (length > 1 && !second_fits(bytes[0], bytes[1])) {
        return 0;
    }
    for (size_t i = 2; i < length; i++) {
        if (bytes[i] < 0x80 || bytes[i] > 0xBF) {
            return 0;
        }
    }
    return length;
}

int is_utf8(const char *text)
{
    size_t left = strlen(text);
    const uint8_t *bytes = (const uint8_t *)text;
    while (left > 0) {
        size_t length = utf8_length(bytes, left);
        if (length == 0) {
            return 0;
        }
        bytes += length;
        left -= length;
    }
    return 1;
}

/* A control character: 00 to 1F, 7F, and 80 to 9F, as UTF-8 (C2 and the byte) or as a byte of its own. */
static int is_control(const uint8_t *bytes, size_t length)
{
    if (length == 0) {
        return bytes[0] <= 0x9F;
    }
    if (length == 1) {
        return bytes[0] < 0x20 || bytes[0] == 0x7F;
    }
    return length == 2 && bytes[0] == 0xC2 && bytes[1] <= 0x9F;
}

/* ---- lines of text */

static void escape_byte(FILE *out, uint8_t byte)
{
    switch (byte) {
    case '\n':
        fputs("\\n", out);
        return;
    case '\r':
        fputs("\\r", out);
        return;
    case '\t':
        fputs("\\t", out);
        return;
    case '\\':
        fputs("\\\\", out);
        return;
    default:
        fprintf(out, "\\x%02X", (unsigned)byte);
    }
}

void print_escaped(FILE *out, const char *name)
{
    size_t left = strlen(name);
    const uint8_t *bytes = (const uint8_t *)name;
    while (left > 0) {
        size_t length = utf8_length(bytes, left);
        int escape = is_control(bytes, length) || bytes[0] == '\\';
        size_t step = length == 0 ? 1 : length;
        for (size_t i = 0; i < step; i++) {
            if (escape) {
                escape_byte(out, bytes[i]);
            } else {
                fputc(bytes[i], out);
            }
        }
        bytes += step;
        left -= step;
    }
}

size_t print_bytes(FILE *out, const uint8_t *bytes, size_t length)
{
    size_t printed = 0;
    for (size_t i = 0; i < length; i++) {
        int plain = bytes[i] >= 0x20 && bytes[i] < 0x7F && bytes[i] != '\\';
        if (out != NULL && plain) {
            fputc(bytes[i], out);
        } else if (out != NULL) {
            fprintf(out, "\\x%02X", (unsigned)bytes[i]);
        }
        printed += plain ? 1 : 4;
    }
    return printed;
}

void print_hex(FILE *out, const uint8_t *bytes, size_t length)
{
    for (size_t i = 0; i < length; i++) {
        fprintf(out, "%02X", (unsigned)bytes[i]);
    }
}

/* How long the word at the start of the text is. */
static size_t word_length(const char *text)
{
    size_t length = 0;
    while (text[length] != '\0' && text[length] != ' ') {
        length++;
    }
    return length;
}

void print_wrapped(FILE *out, const char *label, const char *text)
{
    const size_t width = 78;
    const char *indent = "    ";
    size_t column = strlen(label);
    fputs(label, out);
    while (*text != '\0') {
        size_t length = word_length(text);
        if (column + 1 + length > width) {
            fprintf(out, "\n%s", indent);
            column = strlen(indent);
        } else if (column > 0) {
            fputc(' ', out);
            column++;
        }
        fwrite(text, 1, length, out);
        column += length;
        text += length;
        while (*text == ' ') {
            text++;
        }
    }
    fputc('\n', out);
}

/* ---- JSON */

void print_json_string(FILE *out, const char *text)
{
    size_t left = strlen(text);
    const uint8_t *bytes = (const uint8_t *)text;
    fputc('"', out);
    while (left > 0) {
        size_t length = utf8_length(bytes, left);
        size_t step = length == 0 ? 1 : length;
        if (length == 0) {
            fputs("\\ufffd", out);
        } else if (bytes[0] == '"' || bytes[0] == '\\') {
            fprintf(out, "\\%c", bytes[0]);
        } else if (is_control(bytes, length)) {
            fprintf(out, "\\u%04x", (unsigned)bytes[length - 1]);
        } else {
            fwrite(bytes, 1, length, out);
        }
        bytes += step;
        left -= step;
    }
    fputc('"', out);
}
