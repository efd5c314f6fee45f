/* Tries names.c alone: on every machine, with the C library that the machine has. */
#include "names.h"

static int failed;
static int tried;

/* The name's bytes give that text; NULL: they cannot be converted. */
static void gives(const char *name, size_t length, const char *want)
{
    char text[NAME_ROOM];
    const char *why = name_text((const uint8_t *)name, length, text);
    tried++;
    if (want == NULL ? why == NULL || text[0] != '\0' : why != NULL || strcmp(text, want) != 0) {
        failed++;
        printf("name %d: %s, not %s\n", tried, why != NULL ? why : text, want != NULL ? want : "refused");
    }
}

int main(void)
{
    char most[40];
    char wide[NAME_ROOM] = "";
    gives("\x81\x40\x81\x40", 4, "\xE3\x80\x80\xE3\x80\x80");             /* two spaces */
    gives("\x93\x8C\x8B\x9E", 4, "\xE6\x9D\xB1\xE4\xBA\xAC");             /* Tokyo */
    gives("\x87\x40", 2, "\xE2\x91\xA0");                                 /* a figure in a circle: CP932, not plain Shift JIS */
    gives("\xFA\xB1", 2, "\xEF\xA8\x91");                                 /* an IBM character */
    gives("\x81\x5C", 2, "\xE2\x80\x95");                                 /* its second byte is a backslash's */
    gives("", 0, "");
    gives("\x81", 1, NULL);                                               /* half a character */
    gives("\x85\x9F", 2, NULL);                                           /* no character stands there */
    gives("\x93\x8C\x85\x9F", 4, NULL);                                   /* nor does one of two count */
    for (size_t i = 0; i < 20; i++) {
        memcpy(most + 2 * i, "\x93\x8C", 2);
        memcpy(wide + 3 * i, "\xE6\x9D\xB1", 4);
    }
    gives(most, 40, wide);
    printf("%d tried\n", tried);
    return failed != 0;
}
