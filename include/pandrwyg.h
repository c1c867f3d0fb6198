/*
 * Pandrwyg: spaces of rows over a small field as numbers, and back. Link with libpandrwyg.a.
 *
 * A setting is q (the field size: 2, 3, 4, 5, 7 or 8), n (the row length: 1 to 16) and k (the dimension: 0 to n); N is the
 * number of k-dimensional spaces, and a setting is accepted when N is at most 2^64 - 1. A matrix is k*n bytes, row by row
 * from the top, one entry a byte, each below q. Numbering 1 is the extended one, numbering 2 is Ferrers.
 *
 * With q = 2, 3, 5 and 7 the entries are the numbers modulo q. With q = 4 and 8 an entry's bits are the coefficients of a
 * polynomial in t, the lowest bit the constant: sums are taken bit by bit, and products are reduced by t^2 + t + 1 for 4
 * and by t^3 + t + 1 for 8.
 *
 * Every call meets every input with a result or the number of a refusal, and always returns. Of the refusals listed at a
 * call the first that applies, in that order, is returned; 0 means done. A refusal that is passed over leaves something
 * that looks like a lawful record, so compilers warn where a call's result is not used.
 *
 * What the header asks: C99 or C++11; that buffers which are lent to one call do not overlap; that `indexes` is aligned as
 * a uint64_t is. No call keeps a pointer, keeps anything between calls, allocates, or changes anything but the memory it is
 * lent, so threads and interrupts may call at the same time, each with buffers of its own.
 *
 * A null pointer is met too: with length 0 it counts as an empty buffer, and with another length, as does a length of more
 * than PTRDIFF_MAX bytes, as a buffer of a wrong length, which the library refuses in its place.
 */
#ifndef PANDRWYG_H
#define PANDRWYG_H

#include <stddef.h>
#include <stdint.h>

#ifdef __cplusplus
extern "C" {
#endif

/* The two numberings. */
#define PANDRWYG_EXTENDED 1
#define PANDRWYG_FERRERS 2

/* What a call returns: 0, or a refusal. Those that no call below gives are of the library's other calls and programs. */
#define PANDRWYG_DONE 0
#define PANDRWYG_FIELD_SIZE 1  /* q is none of 2, 3, 4, 5, 7, 8 */
#define PANDRWYG_SHAPE 2       /* n is outside 1 to 16, or k exceeds n */
#define PANDRWYG_COUNT 3       /* N exceeds 2^64 - 1 */
#define PANDRWYG_LENGTH 4      /* a buffer does not have exactly the bytes that it must have */
#define PANDRWYG_INDEX 5       /* the index is N or more */
#define PANDRWYG_ENTRY 6       /* an entry is q or more */
#define PANDRWYG_NOT_REDUCED 7 /* the matrix is not reduced */
#define PANDRWYG_TOO_FEW 8     /* the rows span fewer than k dimensions */
#define PANDRWYG_TOO_MANY 9    /* the rows span more than k dimensions */
#define PANDRWYG_NUMBERING 10  /* the numbering is neither 1 nor 2 */
#define PANDRWYG_LINE 11       /* the input is not one line q,n,k */
#define PANDRWYG_LISTING 12    /* N exceeds 65,536 */
#define PANDRWYG_ROW_COUNT 13  /* more than 64 rows */
#define PANDRWYG_RECEIVER 14   /* the receiver is none that Start and Take can leave */
#define PANDRWYG_MISMATCH 16   /* the receivers differ in q, n, k or pack */
#define PANDRWYG_PACK 17       /* the row is offered for another pack */

/* The bytes of Receive's answer: the index in eight, the dimension in one, the identifying vector in two, least byte first. */
#define PANDRWYG_ANSWER_SIZE 11

#if defined(__GNUC__)
#define PANDRWYG_USE_RESULT __attribute__((warn_unused_result))
#else
#define PANDRWYG_USE_RESULT
#endif

/*
 * The library's symbols, one for each call below, with its arguments; a length has 64 bits on every machine. They take no
 * null pointer and no length of more than PTRDIFF_MAX bytes, which the calls below keep out: a program calls those.
 */
PANDRWYG_USE_RESULT
uint32_t pandrwyg_draw_raw(uint64_t q, uint64_t n, uint64_t k, uint64_t numbering, uint64_t index,
                           uint8_t *matrix, uint64_t length);
PANDRWYG_USE_RESULT
uint32_t pandrwyg_draw_batch_raw(uint64_t q, uint64_t n, uint64_t k, uint64_t numbering,
                                 const uint64_t *indexes, uint64_t index_count,
                                 uint8_t *matrices, uint64_t matrices_length, uint8_t *answers, uint64_t answers_length);
PANDRWYG_USE_RESULT
uint32_t pandrwyg_receive_raw(uint64_t q, uint64_t n, uint64_t k, uint64_t numbering, uint64_t row_count,
                              const uint8_t *rows, uint64_t rows_length, uint8_t *answer, uint64_t answer_length);

/*
 * Whether no buffer is there: null with a length other than 0, or more bytes than any object has. A call never answers by
 * itself then. It hands on a byte of its own with a length that is wrong, so that the library refuses, in its own order.
 */
static inline int pandrwyg_is_unusable(const void *buffer, size_t length)
{
    return length > PTRDIFF_MAX || (!buffer && length != 0);
}

/*
 * Draw: writes the reduced matrix with the given index.
 *   in:      the settings, the numbering, an index below N, and a buffer of exactly k*n bytes, whatever it holds
 *   refuses: 1, 2, 3, 10, 4 (the buffer is not exactly k*n bytes), 5
 *   leaves:  done, every byte of the buffer holds its entry of the matrix; refused, the buffer is unchanged
 */
PANDRWYG_USE_RESULT
static inline uint32_t pandrwyg_draw(uint64_t q, uint64_t n, uint64_t k, uint64_t numbering, uint64_t index,
                                     uint8_t *matrix, size_t length)
{
    uint8_t no_matrix = 0;
    if (pandrwyg_is_unusable(matrix, length))
        return pandrwyg_draw_raw(q, n, k, numbering, index, &no_matrix, k == 0 ? 1 : 0);
    return pandrwyg_draw_raw(q, n, k, numbering, index, matrix ? matrix : &no_matrix, length);
}

/*
 * Draw a batch: writes the reduced matrix of each index of a list, what Draw alone writes for it.
 *   in:      the settings, the numbering, a list of index_count indexes, which may be any numbers, exactly k*n bytes of
 *            matrices for each index, in the list's order, and exactly one answer byte for each, whatever they hold
 *   refuses: 1, 2, 3, 10, 4 (the matrices are not exactly index_count*k*n bytes, or the answers not exactly index_count)
 *   leaves:  done, for each index below N an answer of 0, and its entry of the matrix in each of its k*n bytes; for each
 *            other an answer of 5, and its k*n bytes unchanged; refused, both buffers are unchanged. The indexes are never
 *            changed
 */
PANDRWYG_USE_RESULT
static inline uint32_t pandrwyg_draw_batch(uint64_t q, uint64_t n, uint64_t k, uint64_t numbering,
                                           const uint64_t *indexes, size_t index_count,
                                           uint8_t *matrices, size_t matrices_length,
                                           uint8_t *answers, size_t answers_length)
{
    uint64_t no_index = 0;
    uint8_t no_matrix = 0, no_answer = 0;
    /* A list of no indexes needs no answers, so one answer is wrong. */
    if (index_count > PTRDIFF_MAX / 8 || pandrwyg_is_unusable(indexes, index_count) ||
        pandrwyg_is_unusable(matrices, matrices_length) || pandrwyg_is_unusable(answers, answers_length))
        return pandrwyg_draw_batch_raw(q, n, k, numbering, &no_index, 0, &no_matrix, 0, &no_answer, 1);
    return pandrwyg_draw_batch_raw(q, n, k, numbering, indexes ? indexes : &no_index, index_count,
                                   matrices ? matrices : &no_matrix, matrices_length,
                                   answers ? answers : &no_answer, answers_length);
}

/*
 * Receive: writes the index of the space that the rows span.
 *   in:      the settings, the numbering, row_count rows (at most 64) in exactly row_count*n bytes, and an answer of
 *            exactly PANDRWYG_ANSWER_SIZE bytes, whatever it holds
 *   refuses: 1, 2, 3, 10, 13, 4 (the rows are not exactly row_count*n bytes, or the answer is not its size), 6, 8, 9
 *   leaves:  done, the answer holds the index, the dimension, which is k, and the identifying vector of the span; refused
 *            8 or 9, index 0, and the dimension and the vector of the span; refused otherwise, the answer is unchanged.
 *            The rows are never changed
 */
PANDRWYG_USE_RESULT
static inline uint32_t pandrwyg_receive(uint64_t q, uint64_t n, uint64_t k, uint64_t numbering, uint64_t row_count,
                                        const uint8_t *rows, size_t rows_length, uint8_t *answer, size_t answer_length)
{
    uint8_t no_row = 0, no_answer = 0;
    if (pandrwyg_is_unusable(rows, rows_length)) {
        rows = &no_row;
        rows_length = row_count == 0 ? 1 : 0;
    }
    if (pandrwyg_is_unusable(answer, answer_length)) {
        answer = &no_answer;
        answer_length = 0;
    }
    return pandrwyg_receive_raw(q, n, k, numbering, row_count, rows ? rows : &no_row, rows_length,
                                answer ? answer : &no_answer, answer_length);
}

/* What an answer holds after Receive was done, or was refused 8 or 9; any other refusal leaves it as it was. */

/* The index; 0 with 8 and 9. */
static inline uint64_t pandrwyg_answer_index(const uint8_t *answer)
{
    uint64_t index = 0;
    for (unsigned place = 8; place-- > 0;)
        index = index << 8 | answer[place];
    return index;
}

/* The dimension of the rows' span. */
static inline uint8_t pandrwyg_answer_dimension(const uint8_t *answer)
{
    return answer[8];
}

/*
 * The identifying vector of the rows' span: column j from the right has the value 2^(j-1), and is a one where the span's
 * reduced matrix has a pivot. It has as many ones as the span has dimensions.
 */
static inline uint16_t pandrwyg_answer_vector(const uint8_t *answer)
{
    return (answer[9] + 256u * answer[10]) & 0xFFFFu;
}

#ifdef __cplusplus
}
#endif

#endif
