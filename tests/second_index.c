/*
 * Indexes from their definition: the index of a reduced matrix is the number of reduced matrices that come before it in
 * the order. They are counted for one set of pivot columns at a time, all sets being tried, or in the Ferrers order
 * all up to the matrix's own; with the pivots given, the matrices are the fillings of the dots. Draw searches for the
 * matrix whose index is the given one. No Gaussian coefficient, no partition count and none of the formulas (5), (12)
 * and (14) takes part.
 */
#include "second_parts.h"

#include <assert.h>
#include <stdlib.h>
#include <string.h>

/* A matrix taken apart; start[j] is the number that its dots right of column j are, read from the right and the top. */
typedef struct {
    uint32_t vector;
    wide start[MAX_LENGTH + 2];
} parts;

static bool has_pivot(uint32_t vector, unsigned j)
{
    return vector >> (j - 1) & 1;
}

static parts take_apart(unsigned q, unsigned n, unsigned k, const uint8_t *matrix)
{
    parts taken = {second_identifying_vector(n, k, matrix), {0}};
    uint8_t heights[MAX_LENGTH], entries[MAX_LENGTH * MAX_LENGTH];
    const uint8_t *height = heights, *entry = entries;
    second_tableau(n, k, matrix, heights, entries);
    for (unsigned j = 1; j <= n; j++) {
        taken.start[j + 1] = taken.start[j];
        unsigned digits = has_pivot(taken.vector, j) ? 0 : *height++;
        while (digits-- > 0)
            taken.start[j + 1] = taken.start[j + 1] * q + *entry++;
    }
    return taken;
}

/* ---- Sets of pivot columns ---- */

/* A set, and how many dots it has in column j and to its left, one for each pivot left of a column without one. */
typedef struct {
    uint32_t vector;
    uint8_t dots[MAX_LENGTH + 2];
} pivot_set;

/* The sets of k columns among n, made when they are first asked for; the sets of all n and k stand in one array. */
typedef struct {
    pivot_set *first;
    size_t count;
} pivot_sets;

static pivot_set made[1 << (MAX_LENGTH + 1)];
static size_t made_count;

static pivot_set make_set(unsigned n, uint32_t vector)
{
    pivot_set set = {vector, {0}};
    unsigned dots = 0, pivots = 0;
    for (unsigned j = n; j >= 1; j--) {
        if (has_pivot(vector, j))
            pivots++;
        else
            dots += pivots;
        set.dots[j] = (uint8_t)dots;
    }
    return set;
}

/* The shape of the sort under way; qsort hands its comparison no more than the two sets. */
static unsigned sorted_n, sorted_k;

static int compare_sets(const void *first, const void *second)
{
    return second_diagram_compare(sorted_n, sorted_k, ((const pivot_set *)first)->vector,
                                  ((const pivot_set *)second)->vector);
}

/* All sets, as the Ferrers order has their diagrams. */
static const pivot_sets *sets_of(unsigned n, unsigned k)
{
    static pivot_sets sets[MAX_LENGTH + 1][MAX_LENGTH + 1];
    pivot_sets *these = &sets[n][k];
    if (these->count > 0)
        return these;
    these->first = made + made_count;
    for (uint32_t vector = second_first_vector(k); second_is_vector(n, vector); vector = second_next_vector(n, vector))
        made[made_count++] = make_set(n, vector);
    these->count = (size_t)(made + made_count - these->first);
    sorted_n = n;
    sorted_k = k;
    qsort(these->first, these->count, sizeof *these->first, compare_sets);
    return these;
}

/* The fillings of the dots in column j and to its left. */
static wide fillings_from(unsigned q, const pivot_set *set, unsigned j)
{
    return second_powers[q][set->dots[j]];
}

/* ---- Extended numbering ---- */

/*
 * How many matrices with these pivots come before the given one. Right of the least column j where the pivots differ
 * both have the same dots. What stands there may be smaller than in the given matrix; where only that one has a pivot
 * in column j, it may also be equal. In column j and to its left anything may stand.
 */
static wide before_extended(unsigned q, unsigned n, const parts *given, const pivot_set *set)
{
    unsigned j = 1;
    while (j <= n && has_pivot(set->vector, j) == has_pivot(given->vector, j))
        j++;
    wide starts = given->start[j];
    if (j <= n && has_pivot(given->vector, j))
        starts++;
    return starts * fillings_from(q, set, j);
}

static wide all_before_extended(unsigned q, unsigned n, const parts *given, const pivot_sets *sets)
{
    wide before = 0;
    for (size_t place = 0; place < sets->count; place++)
        before += before_extended(q, n, given, sets->first + place);
    return before;
}

/* The number in base q, as long as there are rows, from the top of a column. */
static void write_column(unsigned q, unsigned n, unsigned rows, uint64_t number, uint8_t *column)
{
    for (unsigned row = rows; row-- > 0; number /= q)
        column[row * n] = (uint8_t)(number % q);
}

/*
 * Writes column j and all to its left, the columns to its right being given. A choice below q^rows is the number that
 * column j holds in the rows that have no pivot yet; the choice after these is a pivot. The rest is what comes first in
 * the order: the last columns of all have the pivots, and the others are zero.
 */
static void write_choice(unsigned q, unsigned n, unsigned k, unsigned j, unsigned rows, uint64_t choice,
                         uint8_t *matrix)
{
    for (unsigned row = 0; row < k; row++)
        memset(matrix + row * n, 0, n - j + 1);
    if (choice < second_powers[q][rows])
        write_column(q, n, rows, choice, matrix + (n - j));
    else
        matrix[--rows * n + (n - j)] = 1;
    for (unsigned row = 0; row < rows; row++)
        matrix[row * n + row] = 1;
}

/* Column by column from the right: the last choice whose first matrix has no index above the given one. */
static void search_extended(unsigned q, unsigned n, unsigned k, uint64_t index, uint8_t *matrix)
{
    unsigned rows = k;
    for (unsigned j = 1; j <= n; j++) {
        uint64_t pivot = second_powers[q][rows];
        uint64_t first = rows > n - j ? pivot : 0, last = rows > 0 ? pivot : 0;
        while (first < last) {
            uint64_t middle = last - (last - first) / 2;
            write_choice(q, n, k, j, rows, middle, matrix);
            if (second_index_of(q, n, k, EXTENDED, matrix) <= index)
                first = middle;
            else
                last = middle - 1;
        }
        write_choice(q, n, k, j, rows, first, matrix);
        rows -= first == pivot;
    }
}

/* ---- Ferrers numbering ---- */

/* All matrices of the diagrams before the given one's, and those of its own with a smaller tableau. */
static wide all_before_ferrers(unsigned q, unsigned n, const parts *given, const pivot_sets *sets)
{
    wide before = given->start[n + 1];
    for (const pivot_set *set = sets->first; set->vector != given->vector; set++)
        before += fillings_from(q, set, 1);
    return before;
}

/* The matrix with these pivots whose tableau is the number: its last digit is the lowest dot of the leftmost column. */
static void write_tableau(unsigned q, unsigned n, unsigned k, uint32_t vector, uint64_t number, uint8_t *matrix)
{
    unsigned row = 0;
    memset(matrix, 0, (size_t)k * n);
    for (unsigned column = 0; column < n; column++) {
        if (has_pivot(vector, n - column)) {
            matrix[row++ * n + column] = 1;
        } else {
            write_column(q, n, row, number, matrix + column);
            number /= second_powers[q][row];
        }
    }
}

/* Goes through the sorted diagrams until the index is one of theirs. */
static void search_ferrers(unsigned q, unsigned n, unsigned k, uint64_t index, uint8_t *matrix)
{
    const pivot_set *set = sets_of(n, k)->first;
    while (index >= fillings_from(q, set, 1))
        index -= (uint64_t)fillings_from(q, set++, 1);
    write_tableau(q, n, k, set->vector, index, matrix);
}

/* ---- Both ---- */

uint64_t second_index_of(uint64_t q, uint64_t n, uint64_t k, uint64_t numbering, const uint8_t *matrix)
{
    parts given = take_apart((unsigned)q, (unsigned)n, (unsigned)k, matrix);
    const pivot_sets *sets = sets_of((unsigned)n, (unsigned)k);
    wide index = numbering == EXTENDED ? all_before_extended((unsigned)q, (unsigned)n, &given, sets)
                                       : all_before_ferrers((unsigned)q, (unsigned)n, &given, sets);
    assert(index < second_gaussian[q][n][k]);
    return (uint64_t)index;
}

void second_search(uint64_t q, uint64_t n, uint64_t k, uint64_t numbering, uint64_t index, uint8_t *matrix)
{
    if (numbering == EXTENDED)
        search_extended((unsigned)q, (unsigned)n, (unsigned)k, index, matrix);
    else
        search_ferrers((unsigned)q, (unsigned)n, (unsigned)k, index, matrix);
}
