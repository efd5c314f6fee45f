/* A file's bytes. A regular file is mapped. Standard input, and what cannot be mapped or has no size (a pipe,
 * a device, an empty file), is read.
 *
 * Reading stops at MOST bytes, one record more than the format allows. The library refuses every file of that
 * length or more, and looks at no record behind the last one allowed, so nothing further on can change the answer.
 */
#include "input.h"

#define MOST (RECORD * (6399936 + 1))
#define FIRST_ROOM ((size_t)1 << 20)

/* Maps the whole of an open file. Answers 0, or -1 with the file at its start. */
static int map_all(Input *input, int file)
{
    long size = (long)lseek(file, 0, SEEK_END);
    if (size > 0) {
        void *place = mmap(NULL, (size_t)size, PROT_READ, MAP_PRIVATE, file, 0);
        if (place != MAP_FAILED) {
            *input = (Input){.bytes = place, .length = (size_t)size, .mapped = 1};
            return 0;
        }
    }
    lseek(file, 0, SEEK_SET);
    return -1;
}

/* Makes room for more bytes: twice as many, MOST at most. */
static int grow(Input *input, size_t *room)
{
    size_t more = *room == 0 ? FIRST_ROOM : *room * 2;
    if (more > MOST) {
        more = MOST;
    }
    uint8_t *bytes = realloc(input->bytes, more);
    if (bytes == NULL) {
        return -1;
    }
    input->bytes = bytes;
    *room = more;
    return 0;
}

/* Reads an open file to its end, or up to MOST bytes. */
static int read_all(Input *input, int file)
{
    size_t room = 0;
    *input = (Input){.bytes = NULL, .length = 0, .mapped = 0};
    while (input->length < MOST) {
        if (input->length == room && grow(input, &room) != 0) {
            return -1;
        }
        long got = (long)read(file, input->bytes + input->length, room - input->length);
        if (got == 0) {
            return 0;
        }
        if (got > 0) {
            input->length += (size_t)got;
        } else if (errno != EINTR) {
            return -1;
        }
    }
    return 0;
}

static const char *open_stream(Input *input, int file)
{
    if (read_all(input, file) != 0) {
        const char *why = strerror(errno);
        free(input->bytes);
        return why;
    }
    return NULL;
}

const char *input_open(Input *input, const char *name)
{
    if (strcmp(name, "-") == 0) {
        return open_stream(input, STDIN_FILENO);
    }
    int file = open(name, O_RDONLY);
    if (file < 0) {
        return strerror(errno);
    }
    const char *why = map_all(input, file) == 0 ? NULL : open_stream(input, file);
    close(file);
    return why;
}

void input_close(Input *input)
{
    if (input->mapped) {
        munmap(input->bytes, input->length);
    } else {
        free(input->bytes);
    }
}
