#include "names.h"

const char *name_text(const uint8_t *name, size_t length, char text[NAME_ROOM])
{
    char bytes[40];
    char *in = bytes;
    char *out = text;
    size_t in_left = length < sizeof bytes ? length : sizeof bytes;
    size_t out_left = NAME_ROOM - 1;
    iconv_t way = iconv_open("UTF-8", "CP932");
    text[0] = '\0';
    if (way == (iconv_t)-1) {
        return "the C library here has no conversion of CP932";
    }
    memcpy(bytes, name, in_left);
    size_t odd = iconv(way, &in, &in_left, &out, &out_left);
    iconv_close(way);
    if (odd != 0 || in_left != 0) {
        text[0] = '\0';
        return "the bytes are no characters of CP932";
    }
    *out = '\0';
    return NULL;
}
