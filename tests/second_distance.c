/*
 * The subspace distance of the second implementation: the dimensions of both spans, less twice the dimension of their
 * common space. The joint span is never looked for.
 */
#include "second_parts.h"

/* The setting q,n,0 has one space, so that q and n alone are refused. */
static uint32_t distance_refusal(uint64_t q, uint64_t n, uint64_t count, const uint8_t *rows, size_t length,
                                 uint64_t other_count, const uint8_t *other_rows, size_t other_length)
{
    uint64_t spaces;
    uint32_t refusal = second_count(q, n, 0, &spaces);
    if (refusal == ACCEPTED)
        refusal = second_rows_refusal(q, n, count, rows, length);
    if (refusal == ACCEPTED)
        refusal = second_rows_refusal(q, n, other_count, other_rows, other_length);
    return refusal;
}

uint32_t second_distance(uint64_t q, uint64_t n, uint64_t count, const uint8_t *rows, size_t length,
                         uint64_t other_count, const uint8_t *other_rows, size_t other_length, uint64_t *distance)
{
    uint32_t refusal = distance_refusal(q, n, count, rows, length, other_count, other_rows, other_length);
    *distance = 0;
    if (refusal != ACCEPTED)
        return refusal;
    second_space one = second_span(q, n, count, rows), other = second_span(q, n, other_count, other_rows);
    *distance = one.dimension + other.dimension - 2 * second_common(&one, &other).dimension;
    return ACCEPTED;
}
