/*
 * What the tests of row lists share: random linear combinations, lists and their spans as the second implementation
 * tells them, all spaces of a small setting, and pairs whose joint and common spaces are known beforehand.
 */
#ifndef ROWS_H
#define ROWS_H

#include "cases.h"

/* Row counts, the accepted ones among them, and numbers that would be cut to these. */
static const uint64_t row_counts[] = {
    0, 1, 2, 63, 64, 65, 66, 255, 256, 257, 65536, UINT64_C(1) << 32, (UINT64_C(1) << 32) + 1, UINT64_C(1) << 60,
    UINT64_C(1) << 63, (UINT64_C(1) << 63) + 1, UINT64_MAX,
};
enum { ROW_COUNTS = COUNT_OF(row_counts) };

/* ---- Rows ---- */

static inline void shuffle_rows(uint64_t n, uint64_t count, uint8_t *rows)
{
    uint8_t kept[MAX_LENGTH];
    for (uint64_t row = count; row > 1; row--) {
        uint8_t *last = rows + (row - 1) * n, *other = rows + random_below(row) * n;
        memcpy(kept, last, (size_t)n);
        memmove(last, other, (size_t)n);
        memcpy(other, kept, (size_t)n);
    }
}

static inline void random_mixture(uint64_t q, uint64_t n, uint64_t count, const uint8_t *rows, uint8_t *mixture)
{
    uint8_t factors[MAX_ROWS];
    random_entries(q, factors, (size_t)count);
    mix_rows(q, n, count, rows, factors, mixture);
}

/* A number that is no entry of the field: the first, the last or any. */
static inline uint8_t oversized(uint64_t q)
{
    switch (random_below(3)) {
    case 0: return (uint8_t)q;
    case 1: return 255;
    default: return (uint8_t)(q + random_below(256 - q));
    }
}

/* ---- Lists of rows ---- */

/* Rows of a setting's length, one after another; there is room for one row more than is accepted. */
typedef struct {
    const setting *s;
    uint64_t count;
    uint8_t rows[ROWS_LIMIT + MAX_LENGTH];
} row_list;

enum { LIST_ROWS = 20 };

static inline void append(row_list *list, const uint8_t *row)
{
    memcpy(list->rows + list->count++ * list->s->n, row, (size_t)list->s->n);
}

static inline void append_rows(row_list *list, uint64_t count, const uint8_t *rows)
{
    for (uint64_t place = 0; place < count; place++)
        append(list, rows + place * list->s->n);
}

/* So many linear combinations of the rows of another list. */
static inline void random_mixtures(const row_list *base, uint64_t count, row_list *list)
{
    const setting *s = base->s;
    list->s = s;
    list->count = count;
    for (uint64_t place = 0; place < count; place++)
        random_mixture(s->q, s->n, base->count, base->rows, list->rows + place * s->n);
}

static inline void random_rows(const setting *s, uint64_t count, row_list *list)
{
    list->s = s;
    list->count = count;
    random_entries(s->q, list->rows, (size_t)(count * s->n));
}

/* Up to 20 rows: any, or linear combinations of n rows or fewer, so that every dimension comes. */
static inline void random_list(const setting *s, row_list *list)
{
    row_list base;
    uint64_t count = random_below(LIST_ROWS + 1);
    random_rows(s, random_below(s->n + 1), &base);
    if (random_below(4) == 0)
        random_rows(s, count, list);
    else
        random_mixtures(&base, count, list);
}

static inline void join(const row_list *first, const row_list *second, row_list *both)
{
    *both = *first;
    append_rows(both, second->count, second->rows);
}

/* ---- Spans, as the second implementation tells them ---- */

static inline uint64_t dimension_of(const row_list *list)
{
    return factor_rank(list->s->q, list->s->n, list->count, list->rows);
}

/* The reduced rows of a list that is accepted. */
static inline void reduce_list(const row_list *list, row_list *reduced)
{
    const setting *s = list->s;
    second_told told;
    memset(reduced, 0, sizeof *reduced);
    second_reduce(s->q, s->n, list->count, list->rows, (size_t)(list->count * s->n), reduced->rows,
                  (size_t)(s->n * s->n), &told);
    reduced->s = s;
    reduced->count = told.dimension;
}

/* Whether the second implementation reduces both lists to the same rows. */
static inline bool same_reduced(const row_list *first, const row_list *second)
{
    row_list reduced[2];
    reduce_list(first, &reduced[0]);
    reduce_list(second, &reduced[1]);
    return memcmp(reduced[0].rows, reduced[1].rows, sizeof reduced[0].rows) == 0;
}

static inline bool is_outside(const row_list *list, const uint8_t *row)
{
    row_list more = *list;
    append(&more, row);
    return dimension_of(&more) > dimension_of(list);
}

/* A row outside of a span that is not all rows: any, or one that differs in one entry from a row of the span. */
static inline void outside_row(const row_list *list, uint8_t *row)
{
    const setting *s = list->s;
    do {
        random_entries(s->q, row, (size_t)s->n);
        if (random_below(2) == 0) {
            random_mixture(s->q, s->n, list->count, list->rows, row);
            row[random_below(s->n)] = (uint8_t)random_below(s->q);
        }
    } while (!is_outside(list, row));
}

/* ---- All spaces of a setting ---- */

/* The most spaces that the settings have whose spaces are all listed. */
enum { SPACES = 67 };

/* Lists the spaces of rows of a setting's length, each by its reduced rows, and answers how many there are. */
static inline size_t every_space(const setting *s, row_list *spaces)
{
    uint8_t matrices[SPACES * MAX_LENGTH];
    size_t count = 0;
    for (uint64_t dimension = 0; dimension <= s->n; dimension++) {
        size_t width = (size_t)(dimension * s->n), found = second_enumerate(s->q, s->n, dimension, matrices);
        for (size_t place = 0; place < found; place++) {
            spaces[count].s = s;
            spaces[count].count = dimension;
            memcpy(spaces[count++].rows, matrices + place * width, width);
        }
    }
    return count;
}

/* ---- Pairs whose spaces are known beforehand ---- */

/* Of n independent rows the first ones go to both sides, the next to the first alone, then to the second alone. */
enum { SHARED, FIRST, SECOND, PARTS };

typedef struct {
    const setting *s;
    uint64_t parts[PARTS];
    uint8_t basis[MAX_LENGTH * MAX_LENGTH];
} plan;

/* Any n independent rows: the unit rows, changed by adding multiples of one to another. */
static inline void independent_rows(const setting *s, uint8_t *rows)
{
    uint64_t n = s->n;
    memset(rows, 0, (size_t)(n * n));
    for (uint64_t row = 0; row < n; row++)
        rows[row * n + row] = 1;
    for (uint64_t step = 0; step < 3 * n; step++) {
        uint64_t row = random_below(n), other = random_below(n);
        if (row != other)
            add_multiple(s->q, n, rows + row * n, rows + other * n, (uint8_t)random_below(s->q));
    }
}

/*
 * The lowest three bits of a kind tell which parts are empty, and the next that all rows are given out: so spaces are
 * equal, one within the other, disjoint, empty or full.
 */
enum { WHOLE = 1 << PARTS, KINDS = 2 * WHOLE };

static inline void random_plan(const setting *s, unsigned kind, plan *one)
{
    uint64_t rest = s->n;
    *one = (plan){s, {0}, {0}};
    for (unsigned part = 0; part < PARTS; part++)
        if (!(kind >> part & 1)) {
            one->parts[part] = random_below(rest + 1);
            rest -= one->parts[part];
        }
    for (unsigned part = 0; part < PARTS && kind & WHOLE; part++)
        if (!(kind >> part & 1)) {
            one->parts[part] += rest;
            rest = 0;
        }
    independent_rows(s, one->basis);
}

#endif
