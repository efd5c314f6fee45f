/* Answers in the library's place, over standard input and standard output: for machines where the second program cannot
 * be linked with the library, because they are not x86-64. second/src/piped.rs asks.
 *
 * First it writes the greeting, "answers\n". Then each request is a letter and what the call takes, and each answer is
 * what the call tells, field by field. Numbers have the width of the header's fields, lengths 64 bits, least byte first.
 *
 *   letter  behind it                    answer
 *   F       length, bytes                none; the file that N, J, S, A and D are about from now on
 *   N       -                            the need
 *   J       table, measures              the outcome, the table, the measures
 *   S       layer, table                 the sums, the table
 *   A       table, sums                  the outcome, the table, the sums of all layers
 *   D       record                       the kind that is due there
 *   P       mesh, x, y                   the place
 *   R       kind, length, bytes          the reading
 *   W       record, buffer               the number, the buffer
 *
 * A lent buffer (table, measures, sums, buffer) is sent as: how many elements are lent, how many there are, the elements. There
 * are more than are lent. All of them come back, so a write past what was lent is seen.
 *
 * Requests may be sent without waiting for answers. Answers are held back until there is nothing to read, or until the
 * next file: so if a call does not return, all answers about earlier files are there.
 */
#include "../host/system.h"
#include "stragumella.h"

#define ROOM 65536

static uint8_t input[ROOM], output[ROOM];
static size_t input_at, input_end, output_end;

/* Bytes that were sent, in a block that grows. */
typedef struct {
    void *place;
    size_t room, lent, all;
} Lent;

static void stop(const char *why)
{
    fprintf(stderr, "answer: %s\n", why);
    exit(2);
}

static void write_out(void)
{
    size_t done = 0;
    while (done < output_end) {
        long wrote = (long)write(STDOUT_FILENO, output + done, output_end - done);
        if (wrote > 0) {
            done += (size_t)wrote;
        } else if (errno != EINTR) {
            stop("an answer cannot be written");
        }
    }
    output_end = 0;
}

static void put(const void *from, size_t length)
{
    const uint8_t *bytes = from;
    while (length > 0) {
        size_t part = ROOM - output_end < length ? ROOM - output_end : length;
        memcpy(output + output_end, bytes, part);
        output_end += part;
        bytes += part;
        length -= part;
        if (output_end == ROOM) {
            write_out();
        }
    }
}

/* Reads on when all input is taken. Answers 0 at its end. */
static int read_on(void)
{
    long got;
    if (input_at < input_end) {
        return 1;
    }
    write_out();
    do {
        got = (long)read(STDIN_FILENO, input, ROOM);
    } while (got < 0 && errno == EINTR);
    if (got < 0) {
        stop("the requests cannot be read");
    }
    input_at = 0;
    input_end = (size_t)got;
    return got > 0;
}

static void take(void *to, size_t length)
{
    uint8_t *bytes = to;
    while (length > 0) {
        if (!read_on()) {
            stop("a request is cut");
        }
        size_t part = input_end - input_at < length ? input_end - input_at : length;
        memcpy(bytes, input + input_at, part);
        input_at += part;
        bytes += part;
        length -= part;
    }
}

static uint32_t take_word(void)
{
    uint32_t word;
    take(&word, sizeof word);
    return word;
}

static uint64_t take_length(void)
{
    uint64_t length;
    take(&length, sizeof length);
    return length;
}

static void put_word(uint32_t word)
{
    put(&word, sizeof word);
}

/* The elements of a buffer; its two counts are known. */
static void take_elements(Lent *buffer, size_t size)
{
    if (buffer->all > SIZE_MAX / size || buffer->lent > buffer->all) {
        stop("a length is wrong");
    }
    if (buffer->all * size > buffer->room) {
        buffer->room = buffer->all * size;
        buffer->place = realloc(buffer->place, buffer->room);
        if (buffer->place == NULL) {
            stop("no memory");
        }
    }
    take(buffer->place, buffer->all * size);
}

static void take_lent(Lent *buffer, size_t size)
{
    buffer->lent = (size_t)take_length();
    buffer->all = (size_t)take_length();
    take_elements(buffer, size);
}

static void take_bytes(Lent *buffer)
{
    buffer->lent = (size_t)take_length();
    buffer->all = buffer->lent;
    take_elements(buffer, 1);
}

static void put_lent(const Lent *buffer, size_t size)
{
    put(buffer->place, buffer->all * size);
}

/* A refusal, as most answers begin. */
static void put_refusal(uint32_t number, uint32_t record, uint32_t column)
{
    put_word(number);
    put_word(record);
    put_word(column);
}

static void put_outcome(const stragumella_outcome *told)
{
    put_refusal(told->number, told->record, told->column);
    put_word(told->meshes);
    put_word(told->layers);
    put_word(told->nodes);
    put_word(told->lines);
    put_word(told->areas);
    put_word(told->records);
    put(&told->need, sizeof told->need);
}

static Lent file, table, measures, sums, bytes;

static void need(void)
{
    uint64_t told = stragumella_need(file.place, file.lent);
    put(&told, sizeof told);
}

static void judge(void)
{
    take_lent(&table, sizeof(uint32_t));
    take_lent(&measures, sizeof(int64_t));
    stragumella_outcome told =
        stragumella_judge(file.place, file.lent, table.place, table.lent, measures.place, measures.lent);
    put_outcome(&told);
    put_lent(&table, sizeof(uint32_t));
    put_lent(&measures, sizeof(int64_t));
}

static void layer_sums(void)
{
    uint32_t layer = take_word();
    take_lent(&table, sizeof(uint32_t));
    stragumella_sums told = stragumella_layer_sums(file.place, file.lent, table.place, table.lent, layer);
    put_refusal(told.number, told.record, told.column);
    put(&told.areas, sizeof told.areas);
    put(&told.outside, sizeof told.outside);
    put_lent(&table, sizeof(uint32_t));
}

static void all_sums(void)
{
    take_lent(&table, sizeof(uint32_t));
    take_lent(&sums, sizeof(int64_t));
    stragumella_outcome told =
        stragumella_all_sums(file.place, file.lent, table.place, table.lent, sums.place, sums.lent);
    put_outcome(&told);
    put_lent(&table, sizeof(uint32_t));
    put_lent(&sums, sizeof(int64_t));
}

static void due(void)
{
    put_word(stragumella_due(file.place, file.lent, take_word()));
}

static void position(void)
{
    int32_t mesh = (int32_t)take_word();
    int32_t x = (int32_t)take_word();
    int32_t y = (int32_t)take_word();
    stragumella_place told = stragumella_position(mesh, x, y);
    put_word(told.number);
    put(&told.latitude, sizeof told.latitude);
    put(&told.longitude, sizeof told.longitude);
}

static void put_record(const stragumella_record *value)
{
    put_word(value->kind);
    put(value->numbers, sizeof value->numbers);
    put(value->name, sizeof value->name);
    put(value->marks, sizeof value->marks);
    put_word(value->letters);
}

static void read_record(void)
{
    uint32_t kind = take_word();
    take_bytes(&bytes);
    stragumella_reading told = stragumella_read_record(kind, bytes.place, bytes.lent);
    put_refusal(told.number, told.record, told.column);
    put_record(&told.value);
}

static void write_record(void)
{
    stragumella_record value;
    value.kind = take_word();
    take(value.numbers, sizeof value.numbers);
    take(value.name, sizeof value.name);
    take(value.marks, sizeof value.marks);
    value.letters = take_word();
    take_lent(&bytes, 1);
    put_word(stragumella_write_record(value, bytes.place, bytes.lent));
    put_lent(&bytes, 1);
}

static void answer(uint8_t letter)
{
    switch (letter) {
    case 'F':
        write_out();
        take_bytes(&file);
        break;
    case 'N':
        need();
        break;
    case 'J':
        judge();
        break;
    case 'S':
        layer_sums();
        break;
    case 'A':
        all_sums();
        break;
    case 'D':
        due();
        break;
    case 'P':
        position();
        break;
    case 'R':
        read_record();
        break;
    case 'W':
        write_record();
        break;
    default:
        stop("no such request");
    }
}

int main(void)
{
    put("answers\n", 8);
    while (read_on()) {
        answer(input[input_at++]);
    }
    return 0;
}
