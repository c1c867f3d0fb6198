/*
 * The two orders as comparisons of two matrices, and the listing of all reduced matrices. No index formula, count or
 * table stands here: an index is a place in a sorted list.
 */
#include "second_parts.h"

#include <stdlib.h>
#include <string.h>

enum { MATRIX_LIMIT = MAX_LENGTH * MAX_LENGTH };

/* ---- What the orders look at ---- */

static unsigned pivot_column(const uint8_t *row, unsigned n)
{
    unsigned column = 0;
    while (column < n && row[column] == 0)
        column++;
    return column;
}

uint32_t second_identifying_vector(uint64_t n, uint64_t k, const uint8_t *matrix)
{
    uint32_t vector = 0;
    for (uint64_t row = 0; row < k; row++) {
        unsigned column = pivot_column(matrix + row * n, (unsigned)n);
        if (column < n)
            vector |= UINT32_C(1) << (n - 1 - column);
    }
    return vector;
}

unsigned second_diagram(uint64_t n, uint64_t k, uint32_t vector, uint8_t *heights)
{
    unsigned m = 0, pivots = 0;
    uint64_t i = n - k;
    for (uint64_t j = n; j > 0; j--) {
        if (vector >> (j - 1) & 1) {
            pivots++;
        } else {
            heights[--i] = (uint8_t)pivots;
            m += pivots;
        }
    }
    return m;
}

unsigned second_tableau(uint64_t n, uint64_t k, const uint8_t *matrix, uint8_t *heights, uint8_t *entries)
{
    uint32_t vector = second_identifying_vector(n, k, matrix);
    unsigned i = 0, m = second_diagram(n, k, vector, heights);
    for (unsigned j = 1; j <= n; j++) {
        if (vector >> (j - 1) & 1)
            continue;
        for (unsigned row = 0; row < heights[i]; row++)
            *entries++ = matrix[row * n + (n - j)];
        i++;
    }
    return m;
}

/* ---- The orders ---- */

/* Columns j of two matrices as numbers, the top row most significant. */
static int compare_columns(unsigned n, unsigned k, unsigned j, const uint8_t *first, const uint8_t *second)
{
    for (unsigned row = 0; row < k; row++) {
        unsigned place = row * n + (n - j);
        if (first[place] != second[place])
            return first[place] < second[place] ? -1 : 1;
    }
    return 0;
}

/* A matrix beside its identifying vector, and the place where it stood before it was sorted. */
typedef struct {
    const uint8_t *matrix;
    uint32_t vector;
    size_t place;
} item;

static item make_item(unsigned n, unsigned k, const uint8_t *matrix, size_t place)
{
    item made = {matrix, second_identifying_vector(n, k, matrix), place};
    return made;
}

static int compare_extended(unsigned n, unsigned k, const item *first, const item *second)
{
    int order = 0;
    for (unsigned j = 1; j <= n && order == 0; j++) {
        order = (int)(first->vector >> (j - 1) & 1) - (int)(second->vector >> (j - 1) & 1);
        if (order == 0)
            order = compare_columns(n, k, j, first->matrix, second->matrix);
    }
    return order;
}

int second_diagram_compare(uint64_t n, uint64_t k, uint32_t first, uint32_t second)
{
    uint8_t first_heights[MAX_LENGTH], second_heights[MAX_LENGTH];
    unsigned first_size = second_diagram(n, k, first, first_heights);
    unsigned second_size = second_diagram(n, k, second, second_heights);
    if (first_size != second_size)
        return first_size > second_size ? -1 : 1;
    for (unsigned i = 0; i < n - k; i++)
        if (first_heights[i] != second_heights[i])
            return first_heights[i] > second_heights[i] ? -1 : 1;
    return 0;
}

/* At equal diagrams both have the same entries off the dots, so that whole columns compare as the tableaux do. */
static int compare_ferrers(unsigned n, unsigned k, const item *first, const item *second)
{
    int order = 0;
    if (first->vector != second->vector)
        return second_diagram_compare(n, k, first->vector, second->vector);
    for (unsigned j = 1; j <= n && order == 0; j++)
        order = compare_columns(n, k, j, first->matrix, second->matrix);
    return order;
}

static int compare_items(unsigned n, unsigned k, uint64_t numbering, const item *first, const item *second)
{
    return numbering == EXTENDED ? compare_extended(n, k, first, second) : compare_ferrers(n, k, first, second);
}

int second_compare(uint64_t q, uint64_t n, uint64_t k, uint64_t numbering,
                   const uint8_t *first, const uint8_t *second)
{
    (void)q;
    item one = make_item((unsigned)n, (unsigned)k, first, 0), two = make_item((unsigned)n, (unsigned)k, second, 0);
    return compare_items((unsigned)n, (unsigned)k, numbering, &one, &two);
}

/* ---- The listing ---- */

uint32_t second_first_vector(uint64_t k)
{
    return (UINT32_C(1) << k) - 1;
}

/* The lowest block of ones loses its highest to the place above it; the others go to the right end. */
uint32_t second_next_vector(uint64_t n, uint32_t vector)
{
    if (vector == 0)
        return UINT32_C(1) << n;
    uint32_t lowest = vector & (~vector + 1), risen = vector + lowest;
    return risen | (vector ^ risen) / lowest >> 2;
}

bool second_is_vector(uint64_t n, uint32_t vector)
{
    return vector < UINT32_C(1) << n;
}

/* The places of the entries that a set of pivot columns leaves free; the pivots themselves are written. */
static unsigned place_pivots(unsigned n, uint32_t columns, uint8_t *matrix, unsigned *places)
{
    unsigned count = 0, row = 0;
    for (unsigned pivot = 0; pivot < n; pivot++) {
        if (!(columns >> pivot & 1))
            continue;
        matrix[row * n + pivot] = 1;
        for (unsigned column = pivot + 1; column < n; column++)
            if (!(columns >> column & 1))
                places[count++] = row * n + column;
        row++;
    }
    return count;
}

/* Steps the free entries like an odometer; false when all have been seen. */
static bool next_filling(uint64_t q, uint8_t *matrix, const unsigned *places, unsigned count)
{
    for (unsigned place = 0; place < count; place++) {
        matrix[places[place]]++;
        if (matrix[places[place]] < q)
            return true;
        matrix[places[place]] = 0;
    }
    return false;
}

/* Writes all reduced matrices with these pivot columns and answers how many there are. */
static size_t fill_all(uint64_t q, unsigned n, unsigned k, uint32_t columns, uint8_t *out)
{
    uint8_t matrix[MATRIX_LIMIT] = {0};
    unsigned places[MATRIX_LIMIT];
    unsigned free_count = place_pivots(n, columns, matrix, places);
    size_t written = 0;
    do {
        memcpy(out + written * k * n, matrix, (size_t)k * n);
        written++;
    } while (next_filling(q, matrix, places, free_count));
    return written;
}

size_t second_enumerate(uint64_t q, uint64_t n, uint64_t k, uint8_t *out)
{
    size_t written = 0;
    for (uint32_t pivots = second_first_vector(k); second_is_vector(n, pivots); pivots = second_next_vector(n, pivots))
        written += fill_all(q, (unsigned)n, (unsigned)k, pivots, out + written * k * n);
    return written;
}

/* The setting of the sort under way; qsort hands its comparison no more than the two matrices. */
static struct {
    unsigned n, k;
    uint64_t numbering;
} sorting;

static int compare_for_sort(const void *first, const void *second)
{
    return compare_items(sorting.n, sorting.k, sorting.numbering, first, second);
}

/* The matrices in the numbering's order; the caller frees them. */
static item *sorted_items(uint64_t n, uint64_t k, uint64_t numbering, const uint8_t *matrices, size_t count)
{
    item *items = malloc(count * sizeof *items);
    if (items == NULL)
        abort();
    for (size_t place = 0; place < count; place++)
        items[place] = make_item((unsigned)n, (unsigned)k, matrices + place * (size_t)(k * n), place);
    sorting.n = (unsigned)n;
    sorting.k = (unsigned)k;
    sorting.numbering = numbering;
    qsort(items, count, sizeof *items, compare_for_sort);
    return items;
}

void second_sort(uint64_t q, uint64_t n, uint64_t k, uint64_t numbering, uint8_t *matrices, size_t count)
{
    size_t length = (size_t)(k * n);
    uint8_t *unsorted = malloc(count * length + 1);
    if (unsorted == NULL)
        abort();
    (void)q;
    memcpy(unsorted, matrices, count * length);
    item *items = sorted_items(n, k, numbering, unsorted, count);
    for (size_t index = 0; index < count; index++)
        memcpy(matrices + index * length, items[index].matrix, length);
    free(items);
    free(unsorted);
}

void second_indexes(uint64_t q, uint64_t n, uint64_t k, uint64_t numbering,
                    const uint8_t *matrices, size_t count, size_t *indexes)
{
    item *items = sorted_items(n, k, numbering, matrices, count);
    (void)q;
    for (size_t index = 0; index < count; index++)
        indexes[items[index].place] = index;
    free(items);
}
