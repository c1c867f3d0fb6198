/*
 * Reduce and Receive at q = 2, and there alone, as an expert writes them: a row is a 16-bit word, its leftmost entry
 * the highest bit, and a row operation is one exclusive or. Bytes come in and go out as in the library's calls, and the
 * tests are the same.
 */
#ifndef PACKED_H
#define PACKED_H

#include "plain.h"

plain_answer packed_reduce(uint64_t q, uint64_t n, uint64_t row_count, const uint8_t *rows, size_t rows_length,
                           uint8_t *out, size_t out_length);
uint32_t packed_receive(uint64_t q, uint64_t n, uint64_t k, uint64_t numbering, uint64_t row_count,
                        const uint8_t *rows, size_t rows_length, uint8_t *answer, size_t answer_length);

#endif
