/* A first look at the bytes of a file that was refused with 1 or 2 (docs/RULES.md 6.3): what may have happened to it.
 *
 * Every cause is a guess, with what was seen. The library alone judges, and mending one fault may bring the next to
 * light.
 *
 *   cause                what was seen
 *   empty                no bytes
 *   packed               the first bytes of a packed file: gzip, xz, zip and others
 *   utf-16               a byte order mark of UTF-16, or its zeros around "M "
 *   ebcdic               "M " in EBCDIC
 *   byte-order-mark      EF BB BF before the first record
 *   no-sheet             first bytes that are not "M "
 *   lf-alone             a line that ends with LF and no CR before it
 *   cr-alone             a line that ends with CR and no LF behind it
 *   cr-doubled           a line that ends with CR CR LF
 *   lf-cr                a line that ends with LF CR
 *   no-line-ends         neither CR nor LF where lines should end
 *   line-end-changed     two wrong bytes in place of CR LF, and the next record ends as it should
 *   names-lost           EF BF BD, what a conversion leaves of a character that it could not read
 *   utf-8                names in UTF-8
 *   tabs                 a tab in a line that is too short
 *   stripped-blanks      a line without the spaces at its end
 *   empty-line           a line of no columns
 *   line-too-short       a line of under 72 columns, otherwise
 *   line-too-long        a line of over 72 columns, otherwise
 *   last-line-end        a last line of all its columns that has no line end, or half of it
 *   cut                  a last line of fewer columns that has no line end
 *   end-mark             bytes 1A at the end
 *   zeros-at-end         bytes 00 at the end
 *   too-many-records     more than 6,399,936 records
 */
#ifndef LOOK_H
#define LOOK_H

#include <stddef.h>
#include <stdint.h>

typedef struct {
    const char *cause; /* one of the words above */
    char seen[160];    /* what was seen, in a sentence without capital and full stop */
} Guess;

/* Looks at a file that was refused with the number, 1 or 2, at the record. Gives up to `most` guesses, the likeliest
 * first, and answers how many. 0 for any other number, for record 0 and for a record that begins behind the bytes. Only
 * the first bytes, those from the refused record on and the last ones are looked at, a few thousand each. */
size_t look(const uint8_t *bytes, size_t length, uint32_t number, uint32_t record, Guess *guesses, size_t most);

/* A cause in a few words for people. */
const char *cause_title(const char *cause);

#endif
