/*
 * Reduce and Receive of the second implementation: Gauss-Jordan elimination over the whole list of rows, column by
 * column from the left, with row swaps.
 */
#include "second_parts.h"

#include <string.h>

static void swap_rows(uint8_t *first, uint8_t *second, unsigned n)
{
    uint8_t kept[MAX_LENGTH];
    memcpy(kept, first, n);
    memcpy(first, second, n);
    memcpy(second, kept, n);
}

/* Multiplies a row by a nonzero entry. */
static void scale_row(const second_field *field, uint8_t *row, unsigned n, unsigned factor)
{
    for (unsigned column = 0; column < n; column++)
        row[column] = field->product[factor][row[column]];
}

void second_subtract_row(const second_field *field, uint8_t *row, const uint8_t *other, unsigned n, unsigned factor)
{
    for (unsigned column = 0; column < n; column++)
        row[column] = field->difference[row[column]][field->product[factor][other[column]]];
}

/* Clears a column outside of the pivot's row. */
static void clear_column(const second_field *field, uint8_t *rows, unsigned n, unsigned r,
                         unsigned pivot, unsigned column)
{
    for (unsigned row = 0; row < r; row++)
        if (row != pivot)
            second_subtract_row(field, rows + row * n, rows + pivot * n, n, rows[row * n + column]);
}

/* The first row at or below the start with a nonzero entry in the column, or r. */
static unsigned find_row(const uint8_t *rows, unsigned n, unsigned r, unsigned start, unsigned column)
{
    unsigned row = start;
    while (row < r && rows[row * n + column] == 0)
        row++;
    return row;
}

/* Reduces the rows in place; the reduced rows stand first. A column that a row is found for has a pivot. */
static second_told reduce_rows(uint64_t q, unsigned n, unsigned r, uint8_t *rows)
{
    const second_field *field = &second_fields[q];
    unsigned rank = 0;
    uint64_t vector = 0;
    for (unsigned column = 0; column < n && rank < r; column++) {
        unsigned found = find_row(rows, n, r, rank, column);
        if (found == r)
            continue;
        uint8_t *pivot_row = rows + rank * n;
        if (found != rank)
            swap_rows(pivot_row, rows + found * n, n);
        scale_row(field, pivot_row, n, field->inverse[pivot_row[column]]);
        clear_column(field, rows, n, r, rank, column);
        vector += UINT64_C(1) << (n - column - 1);
        rank++;
    }
    return (second_told){rank, vector};
}

uint32_t second_rows_refusal(uint64_t q, uint64_t n, uint64_t r, const uint8_t *rows, size_t rows_length)
{
    if (r > MAX_ROWS)
        return REFUSED_ROW_COUNT;
    if (rows_length != r * n)
        return REFUSED_LENGTH;
    return second_entries_below(q, rows, rows_length) ? ACCEPTED : REFUSED_ENTRY;
}

/* The refusals of a list of rows; if none, the rows are copied for work. */
static uint32_t take_rows(uint64_t q, uint64_t n, uint64_t r, const uint8_t *rows, size_t rows_length, uint8_t *work)
{
    uint32_t refusal = second_rows_refusal(q, n, r, rows, rows_length);
    if (refusal == ACCEPTED && rows_length > 0)
        memcpy(work, rows, rows_length);
    return refusal;
}

uint32_t second_reduce(uint64_t q, uint64_t n, uint64_t r, const uint8_t *rows, size_t rows_length,
                       uint8_t *out, size_t out_length, second_told *told)
{
    uint8_t work[MAX_ROWS * MAX_LENGTH];
    *told = (second_told){0, 0};
    if (!second_is_field(q))
        return REFUSED_FIELD;
    if (n < 1 || n > MAX_LENGTH)
        return REFUSED_SHAPE;
    if (r <= MAX_ROWS && out_length != n * n)
        return REFUSED_LENGTH;
    uint32_t refusal = take_rows(q, n, r, rows, rows_length, work);
    if (refusal != ACCEPTED)
        return refusal;
    *told = reduce_rows(q, (unsigned)n, (unsigned)r, work);
    memset(out, 0, out_length);
    memcpy(out, work, (size_t)(told->dimension * n));
    return ACCEPTED;
}

uint32_t second_receive(uint64_t q, uint64_t n, uint64_t k, uint64_t numbering, uint64_t r,
                        const uint8_t *rows, size_t rows_length, uint64_t *index, second_told *told)
{
    uint8_t work[MAX_ROWS * MAX_LENGTH];
    uint64_t count;
    *index = 0;
    *told = (second_told){0, 0};
    uint32_t refusal = second_setting(q, n, k, numbering, &count);
    if (refusal == ACCEPTED)
        refusal = take_rows(q, n, r, rows, rows_length, work);
    if (refusal != ACCEPTED)
        return refusal;
    *told = reduce_rows(q, (unsigned)n, (unsigned)r, work);
    if (told->dimension < k)
        return REFUSED_TOO_FEW;
    if (told->dimension > k)
        return REFUSED_TOO_MANY;
    *index = second_index_of(q, n, k, numbering, work);
    return ACCEPTED;
}
