/*
 * stragumella.h: the C library for map sheets of 74-byte records (boundary and coastline, river and lake).
 *
 * This header is the authority for C callers. What each call answers, and what each lent buffer holds afterwards, is
 * proved of the library's code, for every input; docs/PROMISES.md leads from each of its three promises (Total, Exact,
 * No ground lost) to the theorems. What is not proved: the compiler's back end, and the code that calls.
 *
 * The archive is for x86-64 with the System V calling convention (Linux), whatever machine built it.
 *
 * Every call
 *   - takes every input and ends. No caller checks first. There is no undefined input beyond C's own rules: a pointer
 *     has to point to as many elements as its length says, aligned for their type.
 *   - allocates nothing, keeps no state, reads and writes no file and no errno. Threads may call at the same time,
 *     as long as no lent buffer that is written is shared. Judging takes stack: allow it 512 KiB.
 *   - takes NULL with length 0 as an empty buffer.
 *   - changes no byte of `file` or `bytes`, and of the other buffers only what is named below.
 * Buffers that are lent to one call must not overlap. Nothing checks that.
 *
 * Lengths count elements: bytes of a file, 32-bit words of a table, 64-bit places of measures and of sums.
 * Records count from 1, and so do columns. Record k of a file is its 74 bytes from file + 74 * (k - 1) on.
 *
 * Refusals (docs/RULES.md 6)
 *   An answer has a number, and most have a place: a record and a column. Number 0 at 0, 0 is acceptance. Of several
 *   broken rules one is named: the stages run over the whole file, one after another; within a stage the first record
 *   counts, then the least column, then the least number. "-" is a refusal that names no place; it stands at 0, 0.
 *
 *   No. Stage  Given exactly when                                                          Column
 *    1  1      there are more than 6,399,936 records (place: record 6,399,937); else the   1
 *              length is 0 or no multiple of 74 (place: whole records + 1)
 *    2  1      byte 73 or 74 of a record is not CR, LF                                     the first wrong
 *    3  2      the type letters are wrong                                                  1
 *    4  2      the file ends where a record is due (place: last record + 1)                1
 *    5  2      a field is ill formed                                                       its start
 *    6  2      a value is not permitted                                                    its start
 *    7  -      never: up to version 0.4 for H1 where an H is due, which is taken now       -
 *    8  2      a record is out of step: mesh or layer order, a layer code unlike its H,    its start
 *              a serial that is not the next from 1, a loop's serial or repeat wrong
 *    9  then   the table is too short                                                      -
 *   10  3      a total of M, H (records) or A (lines) is not what was counted; a records   its start
 *              total leaves out the M or H that bears it
 *   11  4      a line, node or area number (area 0 aside) names nothing                    its start
 *   12  4      a number or point disagrees with what it names                              slot, X, link or code
 *   13  4, 5   an entry repeats an earlier one of the same node (4) or the same area (5)   slot
 *   14  4      a line's end is not listed at its node                                      18 or 24
 *   15  5      an entry doesn't start at the node where the entry before it ends           slot
 *   16  5      a loop's measure is 0, or its sign is unlike the serial's                   1
 *   17  5      +n stands in an area that is not n's right, or -n in one that is not its left   slot
 *   18  6      a line's left area has no entry -n, or its right area no entry +n           35 or 45
 *   19  last   there are fewer places for measures than areas                              -
 *   20  -      writer: a value, a mark, the letters or an unused entry doesn't fit         -
 *   21  -      writer: the buffer is under 74 bytes; judged before 20                      -
 *   22  -      layer sums: there is no such layer; judged after acceptance                 -
 *   48  -      all sums: fewer than two places a layer; judged after acceptance            -
 *
 * How to call
 *   words = stragumella_need(file, length). Lend a table of so many words, and as many places for measures: a file has
 *   never more areas than its table has words. Then the judge answers neither 9 nor 19. If words is 0, the file is
 *   refused in stage 1 or 2: the judge names the refusal, and no table has to be lent. As many places for sums are
 *   enough too: half of them would do.
 *
 * What a version promises
 *   A version has three numbers, MAJOR.MINOR.PATCH. They stand below and nowhere else: the tool, the shared library, the
 *   pkg-config files, the manual pages and the Python package take them from here. CHANGELOG.md says what each version
 *   changed.
 *   - Numbers. A refusal's number keeps its meaning in every version. A number that is no longer given is never given
 *     another meaning. A version may add numbers, so take every number but 0 for a refusal.
 *   - PATCH: every call gives the same answers, and leaves the same in every lent buffer, for every input. Structs, calls and
 *     table are as they were.
 *   - MINOR, as long as MAJOR is 0: calls are added, and rules, structs and the table's words may change, where the
 *     change log says so. A program is compiled anew for it. Nothing goes wrong in silence: the names in the shared library
 *     bear the version STRAGUMELLA_MAJOR.MINOR, and the system's loader starts no program with another one's library.
 *   - MINOR, from 1.0 on: calls and numbers are added. Structs, calls and the table stay as they are, and a program made for
 *     an older MINOR runs with the newer library.
 *   - MAJOR: anything may change. The shared library's name, libstragumella.so.MAJOR, changes with it.
 *   The archive and the shared library hold the same code.
 */
#ifndef STRAGUMELLA_H
#define STRAGUMELLA_H

#define STRAGUMELLA_VERSION_MAJOR 0
#define STRAGUMELLA_VERSION_MINOR 6
#define STRAGUMELLA_VERSION_PATCH 1

/* The version as text, "MAJOR.MINOR.PATCH", and as a number that grows with it, for #if. */
#define STRAGUMELLA_SPELLED(major, minor, patch) #major "." #minor "." #patch
#define STRAGUMELLA_SPELL(major, minor, patch) STRAGUMELLA_SPELLED(major, minor, patch)
#define STRAGUMELLA_VERSION \
    STRAGUMELLA_SPELL(STRAGUMELLA_VERSION_MAJOR, STRAGUMELLA_VERSION_MINOR, STRAGUMELLA_VERSION_PATCH)
#define STRAGUMELLA_VERSION_NUMBER \
    (STRAGUMELLA_VERSION_MAJOR * 1000000 + STRAGUMELLA_VERSION_MINOR * 1000 + STRAGUMELLA_VERSION_PATCH)

#include <stddef.h>
#include <stdint.h>

#ifdef __cplusplus
extern "C" {
#endif

/*
 * What the judge answers. Counts are over the whole file; those of a refused file are 0. need is the words that the
 * table has to have where number is 9, and 0 in every other answer.
 */
typedef struct {
    uint32_t number, record, column, meshes, layers, nodes, lines, areas, records;
    uint64_t need;
} stragumella_outcome;

/*
 * The two sums of a layer, as doubled areas with a sign. Those of a refused call are 0.
 * areas: the sum of the layer's areas' measures. outside: the measures of the lines with no area on the left and one on
 * the right, less those with no area on the right and one on the left.
 */
typedef struct {
    uint32_t number, record, column;
    int64_t areas, outside;
} stragumella_sums;

/* A point in degrees; number is 0, or 6 with both degrees 0. */
typedef struct {
    uint32_t number;
    double latitude, longitude;
} stragumella_place;

/*
 * A record's value: its kind, its numbers in column order, its name bytes, the marks of its codes and the letters of an
 * H. Entries that the kind lacks are 0.
 *
 *   kind             numbers, in order                                                            name
 *   1  M             mesh code, layers, nodes, lines, areas, points, records                      20 bytes
 *   2  H             layer, nodes, lines, areas, points, records, first made, last changed        -
 *   3  N             layer, item, serial, X, Y, frame, count, nine line numbers                   -
 *   4  L             layer, item, serial, kind, start node, its link, end node, its link,         -
 *                    left code, left area, right code, right area, points, columns 56-57, 58-60
 *   5  coordinates   seven X, Y pairs                                                             -
 *   6  A             layer, code, serial, X, Y, loops, lines                                      40 bytes
 *   7  loop          serial, line count, twelve line numbers                                      -
 *
 * No other number is a kind.
 *
 * A mark is 1 where a code is spelled " 0000", which is land, 0, in layer 5; else it is 0. An L has two marks, of its left
 * and of its right code; an A has one, the first.
 *
 * The letters of an H are 1 for H1, an unstructured layer, which has lines and no areas, and 2 for H2, a structured one.
 */
typedef struct {
    uint32_t kind;
    int32_t numbers[16];
    uint8_t name[40];
    uint32_t marks[2];
    uint32_t letters;
} stragumella_record;

/* What reading a record answers. */
typedef struct {
    uint32_t number, record, column;
    stragumella_record value;
} stragumella_reading;

/*
 * The words of the table that a file needs: the sum of 5 + lines + areas over its layers. 0 for a file that is
 * refused in stage 1 or 2. A file with later faults has a need.
 *
 * file     length bytes, read.
 * Promises: Total. Exact: the table has as many words as the need says.
 */
uint64_t stragumella_need(const uint8_t *file, size_t length);

/*
 * The kind of record that is due at a record of a file, by its number: 1 to 7, as stragumella_record lists them. The file
 * need not be accepted: each record before it is taken for what was due at its place, and a number that says which
 * records follow counts by its size, 0 where it is ill formed. It is the kind that stage 2 judges the record by.
 * Told of each record of the file, of no more than 6,399,936, and of the first one behind them, where a further record
 * would stand: 1 there says that the file may end. 0, nothing, for record 0 and for records further on.
 * The records before it are walked in each call, runs of N and of coordinates in one step.
 *
 * file     length bytes, read.
 * Promises: Total. Exact: in a file that keeps stages 1 and 2 stragumella_read_record reads each record by the kind that
 * is told of it, and refuses none.
 */
uint32_t stragumella_due(const uint8_t *file, size_t length, uint32_t record);

/*
 * Judges a file by all rules, 1 to 19: number 0 exactly if it keeps every one, with its counts; otherwise the first
 * broken rule and its place.
 *
 * file     length bytes, read.
 * table    words words; what they hold before doesn't matter. Refused with 1 to 9: untouched. Refused later, or
 *          accepted: the table stands in its first words, as many as the need says, and the rest is untouched. The
 *          table has a row of five for each layer in file order (H record, nodes, lines, areas, letters: 1 for H1, 2
 *          for H2), then every line's L record, then every area's A record.
 * measures areas places; what they hold before doesn't matter. Accepted: the first places, as many as the outcome's
 *          areas, hold the areas' measures in file order, and the rest is untouched. Refused: untouched.
 * Promises: Total. Exact: the answer is the least broken rule, and no second answer fits. No ground lost: the measures
 * are those that the layer sums are made of.
 */
stragumella_outcome stragumella_judge(const uint8_t *file, size_t length, uint32_t *table, size_t words,
                                      int64_t *measures, size_t areas);

/*
 * Judges a file and gives the two sums of one of its layers. layer 1 is the file's first, and layers count on through
 * all meshes. Refused with 1 to 18 as by the judge, then with 22 if there is no such layer. 19 is no answer of this
 * call, and with 9 the need is not told: stragumella_need tells it. The whole file is judged in each call; whoever
 * wants the sums of all layers calls stragumella_all_sums.
 *
 * file     length bytes, read.
 * table    words words. Refused with 1 to 9: untouched. Refused later, 22 included, or accepted: the table stands in
 *          its first words and the rest is untouched, as behind the judge.
 * Promises: Total. Exact, as the judge. No ground lost: the two sums are equal, whatever the file, the table and the
 * layer.
 */
stragumella_sums stragumella_layer_sums(const uint8_t *file, size_t length, uint32_t *table, size_t words,
                                        uint32_t layer);

/*
 * Judges a file once and gives the two sums of each of its layers. Refused with 1 to 18 as by the judge, then with 48 if
 * room is less than two for each layer; 19 is no answer of this call. Counts and need are told as by the judge.
 *
 * file     length bytes, read.
 * table    words words. Refused with 1 to 9: untouched. Refused later, 48 included, or accepted: the table stands in
 *          its first words and the rest is untouched, as behind the judge.
 * sums     room places; what they hold before doesn't matter. Accepted: the first places, two for each of the outcome's
 *          layers in file order, hold the layer's areas' sum and then its outside sum, and the rest is untouched.
 *          Refused: untouched.
 * Promises: Total. Exact, as the judge. No ground lost: the two sums of a layer are those that stragumella_layer_sums
 * gives, and they are equal.
 */
stragumella_outcome stragumella_all_sums(const uint8_t *file, size_t length, uint32_t *table, size_t words,
                                         int64_t *sums, size_t room);

/*
 * The latitude and longitude of the point (x, y) on the sheet with the code mesh, in degrees. Latitude is the whole
 * hundredths of a second divided once by 360000, longitude the whole 200ths divided once by 720000. 6 if mesh is no
 * permitted code or x or y is not 0 to 10000; a negative number is not permitted. No buffer is lent.
 * Promises: Total. Exact: the whole numbers are converted exactly.
 */
stragumella_place stragumella_position(int32_t mesh, int32_t x, int32_t y);

/*
 * Reads a single record of the kind that the caller names. Accepted: 0 at 0, 0, and the value. Refused, at record 1,
 * the first of: 1 at column 1 for a length that is not 74; 2 at 73 or 74; 3 at column 1; 5 at the start of the first
 * ill-formed field. The value is then the named kind with all else 0. Codes, ranges and slots aren't judged here.
 * A kind that is not 1 to 7 is 3 at record 1, column 1, whatever the bytes, and the value is all 0, its kind too.
 *
 * bytes    length bytes, read.
 * Promises: Total. Exact: what the writer wrote is read as the same value.
 */
stragumella_reading stragumella_read_record(uint32_t kind, const uint8_t *bytes, size_t length);

/*
 * Writes a record, and answers 0. Otherwise 21 for a buffer under 74 bytes, and then 20: a number that its field
 * doesn't hold, a name that is no row of two-byte characters, a mark that is neither 0 nor 1, or is 1 beside a code
 * other than 0 or in another layer than 5, letters of an H that are neither 1 nor 2, an entry that the kind lacks and
 * that is not 0, or a kind that is not 1 to 7. Codes, ranges and slots aren't judged here.
 *
 * buffer   length bytes; what they hold before doesn't matter. With 0 the record stands in the first 74 bytes and the
 *          rest is untouched. With 20 or 21 all of it is untouched.
 * Promises: Total. Exact: what the reader read is written as the same 74 bytes.
 */
uint32_t stragumella_write_record(stragumella_record value, uint8_t *buffer, size_t length);

#ifdef __cplusplus
}
#endif

#endif
