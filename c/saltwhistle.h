/* Saltwhistle: HGVS variant lines, read, rewritten and measured.
 *
 * Link with libsaltwhistle.a (c/build.sh makes it). No function allocates, keeps state, calls back or
 * writes anywhere but in the output it was lent; each ends on any bytes, and may be called from any thread.
 *
 * The caller's part: a pointer and a length name readable (output: writable) memory of that length, and text
 * and output do not overlap. A length of 0 is fine; the pointer is then not read but must not be NULL.
 *
 * number  0  accepted
 *         1  the text has more than 4,096 bytes
 *         2  the text is not in the grammar
 *         3  a number in the text does not fit; place is the index of its first digit
 *         6  the output is shorter than the text to be written; 4,096 bytes are always enough
 *         7  the location has no width
 * place   0 unless the number is 3
 * value   the length of the text that was written, or the width; 0 where the number is not 0
 */
#ifndef SALTWHISTLE_H
#define SALTWHISTLE_H

#include <stddef.h>
#include <stdint.h>

#ifdef __cplusplus
extern "C" {
#endif

struct saltwhistle_answer {
    uint64_t number;
    uint64_t place;
    uint64_t value;
};

/* Whether the text is a variant line: number and place; the value is 0. */
struct saltwhistle_answer saltwhistle_check(const uint8_t *text, size_t text_length);

/* Writes the shortest text that reads as the same variant to the front of output, without a byte 0 behind it.
 * Bytes behind it are not changed; where the number is not 0, no byte of output is. */
struct saltwhistle_answer saltwhistle_shortest(const uint8_t *text, size_t text_length,
                                               uint8_t *output, size_t output_length);

/* The same without the letters and counts of the reference: c.76delA as c.76del. */
struct saltwhistle_answer saltwhistle_noref(const uint8_t *text, size_t text_length,
                                            uint8_t *output, size_t output_length);

/* How many bases or residues the location spans, at most 4,294,967,295: 5 for c.76_80del. For c, n and r there is
 * no base 0: 2 for c.-1_1del, and 7 for c.0del. */
struct saltwhistle_answer saltwhistle_width(const uint8_t *text, size_t text_length);

#ifdef __cplusplus
}
#endif

#endif
