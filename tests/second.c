/*
 * Number, Draw, Draw a batch and Convert of the second implementation: the tests that they begin with. What is then
 * left is to count and to search.
 */
#include "second_parts.h"

/* ---- Tests of a matrix ---- */

bool second_entries_below(uint64_t q, const uint8_t *entries, size_t length)
{
    unsigned oversized = 0;
    for (size_t place = 0; place < length; place++)
        oversized |= entries[place] >= q;
    return !oversized;
}

/* Whether the pivot in this column of this row is the only nonzero entry of its column. */
static bool pivot_alone(uint64_t n, uint64_t k, const uint8_t *matrix, uint64_t row, uint64_t column)
{
    for (uint64_t other = 0; other < k; other++)
        if (other != row && matrix[other * n + column] != 0)
            return false;
    return true;
}

uint64_t second_pivot(uint64_t n, const uint8_t *row)
{
    uint64_t column = 0;
    while (column < n && row[column] == 0)
        column++;
    return column;
}

/* Whether the matrix is reduced, row by row in document 01's words. */
static bool is_reduced(uint64_t n, uint64_t k, const uint8_t *matrix)
{
    for (uint64_t row = 0; row < k; row++) {
        uint64_t pivot = second_pivot(n, matrix + row * n);
        if (pivot == n || matrix[row * n + pivot] != 1)
            return false;
        if (row > 0 && pivot <= second_pivot(n, matrix + (row - 1) * n))
            return false;
        if (!pivot_alone(n, k, matrix, row, pivot))
            return false;
    }
    return true;
}

/* ---- Calls ---- */

/* The refusals that Number and Draw begin with: those of the setting, then that of the matrix's length. */
static uint32_t setting_and_length(uint64_t q, uint64_t n, uint64_t k, uint64_t numbering,
                                   size_t length, uint64_t *count)
{
    uint32_t refusal = second_setting(q, n, k, numbering, count);
    if (refusal == ACCEPTED && length != k * n)
        return REFUSED_LENGTH;
    return refusal;
}

uint32_t second_number(uint64_t q, uint64_t n, uint64_t k, uint64_t numbering,
                       const uint8_t *matrix, size_t length, uint64_t *index)
{
    uint64_t count;
    *index = 0;
    uint32_t refusal = setting_and_length(q, n, k, numbering, length, &count);
    if (refusal != ACCEPTED)
        return refusal;
    if (!second_entries_below(q, matrix, length))
        return REFUSED_ENTRY;
    if (!is_reduced(n, k, matrix))
        return REFUSED_UNREDUCED;
    *index = second_index_of(q, n, k, numbering, matrix);
    return ACCEPTED;
}

uint32_t second_draw(uint64_t q, uint64_t n, uint64_t k, uint64_t numbering,
                     uint64_t index, uint8_t *matrix, size_t length)
{
    uint64_t count;
    uint32_t refusal = setting_and_length(q, n, k, numbering, length, &count);
    if (refusal != ACCEPTED)
        return refusal;
    if (index >= count)
        return REFUSED_INDEX;
    second_search(q, n, k, numbering, index, matrix);
    return ACCEPTED;
}

/* A list needs fewer than 2^72 bytes of matrices, which are counted in 128 bits: nothing is cut off. */
uint32_t second_draw_batch(uint64_t q, uint64_t n, uint64_t k, uint64_t numbering,
                           const uint64_t *indexes, size_t index_count, uint8_t *matrices, size_t matrices_length,
                           uint8_t *answers, size_t answers_length)
{
    uint64_t count;
    uint32_t refusal = second_setting(q, n, k, numbering, &count);
    if (refusal != ACCEPTED)
        return refusal;
    size_t width = (size_t)(k * n);
    if ((wide)index_count * width != matrices_length || index_count != answers_length)
        return REFUSED_LENGTH;
    for (size_t place = 0; place < index_count; place++) {
        refusal = second_draw(q, n, k, numbering, indexes[place], matrices + place * width, width);
        answers[place] = (uint8_t)refusal;
    }
    return ACCEPTED;
}

uint32_t second_convert(uint64_t q, uint64_t n, uint64_t k, uint64_t from, uint64_t to,
                        uint64_t index, uint64_t *converted)
{
    uint8_t matrix[MAX_LENGTH * MAX_LENGTH];
    uint64_t count;
    *converted = 0;
    uint32_t refusal = second_setting(q, n, k, from, &count);
    if (refusal == ACCEPTED)
        refusal = second_setting(q, n, k, to, &count);
    if (refusal == ACCEPTED)
        refusal = second_draw(q, n, k, from, index, matrix, (size_t)(k * n));
    if (refusal != ACCEPTED)
        return refusal;
    return second_number(q, n, k, to, matrix, (size_t)(k * n), converted);
}
