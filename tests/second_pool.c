/*
 * Pool of the second implementation. The joint space is the span of both receivers' rows as one list. The common space
 * is found by trying every row where there are few of them, else as the complement of what the two complements span;
 * the self-test holds the two means to each other.
 */
#include "second_parts.h"

#include <string.h>

/* All rows are tried where there are no more than these. */
enum { TRIED_LIMIT = 729 };

/* ---- Joint spaces ---- */

second_space second_span(uint64_t q, uint64_t n, uint64_t r, const uint8_t *rows)
{
    second_space space = {q, n, 0, {0}};
    second_told told;
    second_reduce(q, n, r, rows, (size_t)(r * n), space.rows, (size_t)(n * n), &told);
    space.dimension = told.dimension;
    return space;
}

second_space second_joint(const second_space *first, const second_space *second)
{
    uint8_t rows[2 * MAX_LENGTH * MAX_LENGTH];
    uint64_t n = first->n;
    memcpy(rows, first->rows, (size_t)(first->dimension * n));
    memcpy(rows + first->dimension * n, second->rows, (size_t)(second->dimension * n));
    return second_span(first->q, n, first->dimension + second->dimension, rows);
}

/* ---- Common spaces, by trying all rows ---- */

/* Whether the space has the row: nothing is left once each reduced row is taken away as often as its pivot tells. */
static bool has_row(const second_space *space, const uint8_t *row)
{
    uint64_t n = space->n;
    uint8_t left[MAX_LENGTH];
    memcpy(left, row, (size_t)n);
    for (uint64_t place = 0; place < space->dimension; place++) {
        const uint8_t *reduced = space->rows + place * n;
        second_subtract_row(&second_fields[space->q], left, reduced, (unsigned)n, left[second_pivot(n, reduced)]);
    }
    return second_pivot(n, left) == n;
}

/* Steps to the row that is next as a number in base q; false after the last. */
static bool next_row(uint64_t q, uint64_t n, uint8_t *row)
{
    uint64_t column = n;
    while (column > 0 && row[column - 1] == q - 1)
        row[--column] = 0;
    if (column > 0)
        row[column - 1]++;
    return column > 0;
}

/*
 * Rows are tried from the least number up. The first of the space's rows to have its pivot in a column has a 1 there
 * and zeros in the columns of the pivots to its right, or a lesser one would have come first; so it is a reduced row.
 * The lowest row comes first.
 */
second_space second_common_tried(const second_space *first, const second_space *second)
{
    uint64_t n = first->n, last_pivot = n;
    second_space common = {first->q, n, 0, {0}};
    uint8_t row[MAX_LENGTH] = {0};
    while (next_row(first->q, n, row)) {
        uint64_t pivot = second_pivot(n, row);
        if (pivot == last_pivot || !has_row(first, row) || !has_row(second, row))
            continue;
        memmove(common.rows + n, common.rows, (size_t)(common.dimension * n));
        memcpy(common.rows, row, (size_t)n);
        common.dimension++;
        last_pivot = pivot;
    }
    return common;
}

/* ---- Common spaces, by complements ---- */

/* The rows whose product with each of the space's is 0: one for each column without pivot spans them. */
static second_space complement_of(const second_space *space)
{
    const second_field *field = &second_fields[space->q];
    uint64_t n = space->n, count = 0;
    uint8_t rows[MAX_LENGTH * MAX_LENGTH] = {0};
    uint32_t pivots = second_identifying_vector(n, space->dimension, space->rows);
    for (uint64_t column = 0; column < n; column++) {
        if (pivots >> (n - 1 - column) & 1)
            continue;
        uint8_t *row = rows + count++ * n;
        row[column] = 1;
        for (uint64_t place = 0; place < space->dimension; place++) {
            const uint8_t *reduced = space->rows + place * n;
            row[second_pivot(n, reduced)] = field->difference[0][reduced[column]];
        }
    }
    return second_span(space->q, n, count, rows);
}

second_space second_common_solved(const second_space *first, const second_space *second)
{
    second_space one = complement_of(first), other = complement_of(second), both = second_joint(&one, &other);
    return complement_of(&both);
}

/* ---- Common spaces, by either means ---- */

second_space second_common(const second_space *first, const second_space *second)
{
    bool few = second_powers[first->q][first->n] <= TRIED_LIMIT;
    return few ? second_common_tried(first, second) : second_common_solved(first, second);
}

/* ---- Pool ---- */

static uint32_t pool_refusal(const second_receiver *first, const second_receiver *second, size_t joint_length,
                             size_t common_length)
{
    if (first->q == 0 || second->q == 0)
        return REFUSED_RECEIVER;
    if (first->q != second->q || first->n != second->n || first->k != second->k || first->pack != second->pack)
        return REFUSED_MISMATCH;
    if (joint_length != first->n * first->n || common_length != first->n * first->n)
        return REFUSED_LENGTH;
    return ACCEPTED;
}

uint32_t second_pool(const second_receiver *first, const second_receiver *second, uint8_t *joint, size_t joint_length,
                     uint8_t *common, size_t common_length, second_pooled *pooled)
{
    uint64_t q = first->q, n = first->n;
    uint32_t refusal = pool_refusal(first, second, joint_length, common_length);
    memset(pooled, 0, sizeof *pooled);
    if (refusal != ACCEPTED)
        return refusal;
    second_space one = second_span(q, n, first->r, first->rows), other = second_span(q, n, second->r, second->rows);
    second_space smallest = second_joint(&one, &other), shared = second_common(&one, &other);
    memcpy(joint, smallest.rows, joint_length);
    memcpy(common, shared.rows, common_length);
    second_start(q, n, first->k, first->pack, &pooled->receiver);
    memcpy(pooled->receiver.rows, smallest.rows, sizeof smallest.rows);
    pooled->receiver.r = smallest.dimension;
    pooled->joint_dimension = smallest.dimension;
    pooled->common_dimension = shared.dimension;
    return ACCEPTED;
}
