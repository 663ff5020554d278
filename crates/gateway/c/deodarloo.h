/* The finder for C and C++ programs: link target/staticlib/libgateway.a (tests/build.sh writes it).
 *
 * Each buffer is a pointer and a length in bytes; a NULL pointer goes with length 0. Buffers do not overlap.
 * A refusal has its number in the upper 16 bits of the result and its place in the lower 16; every buffer is then as it was.
 *
 * Stack: the deepest call of find that was measured used 769,000 bytes. The compiled frames come to 787,000 where every recursion goes
 * as deep as it can (bench/stack.py prints both); sizes and find_at are what find calls: give a thread that calls one of the three 2 MB.
 * A call of judge used 23,000 bytes. */
#ifndef DEODARLOO_H
#define DEODARLOO_H

#include <stddef.h>
#include <stdint.h>

#ifdef __cplusplus
extern "C" {
#endif

/* Finds the first answer to a sheet. Refused (1 to 9, 16, 10, 11) or else the sum of the sizes; then one code per expression stands in
 * codes and the tables stand in tables, and bytes behind them are as they were. codes has at least one byte per expression, and
 * tables is as long as the tables would be with every size at its ceiling (128 and 16,392 bytes always suffice). A sheet of zero
 * bytes has no field: the sum is 0, nothing is written, and no buffer is asked for. */
uint32_t find(const uint8_t *sheet, size_t sheet_length, uint8_t *codes, size_t codes_length, uint8_t *tables, size_t tables_length);

/* The sizes of find's answer alone. Refused (1 to 9, 16, 10, 11, the last exactly where find has no answer) or else their sum; then one
 * size per field stands in out, and bytes behind them are as they were. out has at least one byte per field (8 bytes always suffice). */
uint32_t sizes(const uint8_t *sheet, size_t sheet_length, uint8_t *out, size_t out_length);

/* Finds the first answer that has exactly the sizes given, one per field; result and buffers are as find's, and so is 10. Refused (1 to
 * 9, 16, 10, 17, 11): 17 where there are not as many sizes as fields, a size is outside floor and ceiling, or they sum to more than the
 * total; 11 where no answer has these sizes. At the sizes that the function sizes wrote it does what find does. */
uint32_t find_at(const uint8_t *sheet, size_t sheet_length, const uint8_t *sizes, size_t sizes_length, uint8_t *codes,
                 size_t codes_length, uint8_t *tables, size_t tables_length);

/* Judges offered tables, which have exactly the length that their sizes say. Refused (1 to 9, 16, 12) or else 0 where they fit the
 * sheet, 1 where a size or the sum is out of bounds, and 2 + k where statement k is the first that is not satisfied. */
uint32_t judge(const uint8_t *sheet, size_t sheet_length, const uint8_t *tables, size_t tables_length);

#ifdef __cplusplus
}
#endif

#endif
