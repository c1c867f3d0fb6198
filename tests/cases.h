/*
 * What the test programs share: a fixed-seed xorshift generator, the accepted settings, numbers that are no field
 * sizes, sorted listings, matrices written as text, the papers' figures, and lent buffers with a known filling.
 */
#ifndef CASES_H
#define CASES_H

#include "check.h"
#include "second.h"

#include <inttypes.h>
#include <stdbool.h>
#include <stdlib.h>
#include <string.h>

#define COUNT_OF(array) (sizeof(array) / sizeof *(array))

/* A byte that no entry, count or dimension of an accepted call has. */
enum { FILLING = 0xA5, MARGIN = 32, ROWS_LIMIT = MAX_ROWS * MAX_LENGTH };

/* ---- Random numbers ---- */

static uint64_t random_state = UINT64_C(0x9E3779B97F4A7C15);

static inline uint64_t random_next(void)
{
    random_state ^= random_state >> 12;
    random_state ^= random_state << 25;
    random_state ^= random_state >> 27;
    return random_state * UINT64_C(0x2545F4914F6CDD1D);
}

/* A number below a bound above 0. */
static inline uint64_t random_below(uint64_t bound)
{
    return (random_next() >> 1) % bound;
}

/* An index below the count: anywhere, or near the first or the last at every scale. */
static inline uint64_t random_index(uint64_t count)
{
    uint64_t index = random_next() % count;
    uint64_t near = index >> random_below(64);
    switch (random_below(3)) {
    case 0: return index;
    case 1: return near;
    default: return count - 1 - near;
    }
}

static inline void random_entries(uint64_t q, uint8_t *entries, size_t length)
{
    for (size_t place = 0; place < length; place++)
        entries[place] = (uint8_t)random_below(q);
}

/* ---- Settings ---- */

/* How many settings the accepted ones are taken from, and how many they are. */
enum { SETTING_LIMIT = FIELD_COUNT * MAX_LENGTH * (MAX_LENGTH + 1), ACCEPTED_SETTINGS = 669 };

typedef struct {
    uint64_t q, n, k, count;
} setting;

/* Lists the accepted settings whose count is at most the limit, and answers how many there are. */
static inline size_t accepted_settings(setting *list, uint64_t limit)
{
    size_t found = 0;
    for (unsigned place = 0; place < TABLE_LENGTH; place++) {
        setting one = {second_field_sizes[place / 289], place / 17 % 17, place % 17, 0};
        if (second_count(one.q, one.n, one.k, &one.count) == ACCEPTED && one.count <= limit)
            list[found++] = one;
    }
    return found;
}

static const uint64_t numberings[] = {EXTENDED, FERRERS};

/* Numbers that are no field size: small ones, those that a narrower number would cut to a field size, and the last. */
static const uint64_t wrong_sizes[] = {
    0, 1, 6, 9, 10, 16, 255, 256, 256 + 2, 256 + 4, 256 + 7, 65536 + 3, (UINT64_C(1) << 32) + 5,
    (UINT64_C(1) << 32) + 8, (UINT64_C(1) << 63) + 2, UINT64_MAX,
};

/* All accepted settings. */
static setting settings[SETTING_LIMIT];
static size_t setting_count;

/* How many times less than the whole is run. */
static size_t thinning = 1;

/* Fills the tables and lists the settings. A test's argument N asks for about the N-th part, for slow checkers. */
static inline void cases_begin(int argument_count, char **arguments)
{
    if (argument_count > 1 && atoi(arguments[1]) > 0)
        thinning = (size_t)atoi(arguments[1]);
    second_init();
    setting_count = accepted_settings(settings, UINT64_MAX);
}

/* What is compared for a setting, so many times. */
typedef struct {
    const char *name;
    unsigned rounds;
    void (*compare)(const setting *s);
} comparison;

/* A group for each comparison, over the accepted settings of a field size. */
static inline void comparison_groups(uint64_t q, const comparison *each, size_t count)
{
    for (size_t place = 0; place < count; place++) {
        check_group_begin("%s, q = %" PRIu64, each[place].name, q);
        for (size_t number = 0; number < setting_count; number += thinning)
            for (unsigned round = 0; round < each[place].rounds && settings[number].q == q; round++)
                each[place].compare(&settings[number]);
        check_group_end();
    }
}

/* The bytes of a matrix. */
static inline size_t width_of(const setting *s)
{
    return (size_t)(s->k * s->n);
}

/* Calls with every n and k up to 18, accepted and refused. */
static inline void every_shape(uint64_t q, void (*call)(uint64_t q, uint64_t n, uint64_t k))
{
    for (uint64_t n = 0; n <= 18; n++)
        for (uint64_t k = 0; k <= 18; k++)
            call(q, n, k);
}

/* How many answers a test has tallied by refusal. */
static inline uint64_t answered(const uint64_t refusals[REFUSAL_LIMIT])
{
    uint64_t all = 0;
    for (unsigned refusal = 0; refusal < REFUSAL_LIMIT; refusal++)
        all += refusals[refusal];
    return all;
}

/* Calls with every shape of every field size, which is never refused 1, and of every wrong size, which always is. */
static inline void every_size(void (*call)(uint64_t q, uint64_t n, uint64_t k), const uint64_t refusals[REFUSAL_LIMIT])
{
    for (unsigned place = 0; place < FIELD_COUNT; place++)
        every_shape(second_field_sizes[place], call);
    check(refusals[REFUSED_FIELD] == 0, "a field size is refused 1");
    uint64_t of_fields = answered(refusals);
    for (size_t place = 0; place < COUNT_OF(wrong_sizes); place++)
        every_shape(wrong_sizes[place], call);
    check(refusals[REFUSED_FIELD] == answered(refusals) - of_fields, "a wrong size isn't refused 1");
}

#define SETTING_FORMAT "%" PRIu64 ",%" PRIu64 ",%" PRIu64
#define SETTING_VALUES(s) (s)->q, (s)->n, (s)->k

/* ---- Matrices ---- */

/* Reads rows of digits with "/" between them and answers the number of entries. */
static inline size_t read_rows(const char *text, uint8_t *entries)
{
    size_t length = 0;
    for (; *text != '\0'; text++)
        if (*text != '/')
            entries[length++] = (uint8_t)(*text - '0');
    return length;
}

/* Any reduced matrix: k columns out of n for the pivots, and anything at the dots. */
static inline void random_reduced(const setting *s, uint8_t *matrix)
{
    uint64_t row = 0;
    memset(matrix, 0, width_of(s));
    for (uint64_t column = 0; column < s->n; column++) {
        if (random_below(s->n - column) < s->k - row)
            matrix[row++ * s->n + column] = 1;
        else
            for (uint64_t above = 0; above < row; above++)
                matrix[above * s->n + column] = (uint8_t)random_below(s->q);
    }
}

/* All reduced matrices of a setting in the numbering's order, one after another; the caller frees them. */
static inline uint8_t *sorted_listing(const setting *s, uint64_t numbering)
{
    uint8_t *matrices = malloc((size_t)s->count * width_of(s) + 1);
    size_t count = second_enumerate(s->q, s->n, s->k, matrices);
    check(count == s->count, SETTING_FORMAT ": %zu matrices are listed", SETTING_VALUES(s), count);
    second_sort(s->q, s->n, s->k, numbering, matrices, count);
    return matrices;
}

/* Compares a matrix with its extended and its Ferrers index. */
typedef void figure_comparison(uint64_t q, uint64_t n, uint64_t k, const char *rows, uint64_t extended,
                               uint64_t ferrers);

/* The matrices of document 01's examples of Draw, Number and Convert, of document 001's Example 1, and our own. */
static inline void compare_figures(figure_comparison *compare)
{
    static const struct {
        uint64_t q, n, k;
        const char *rows;
        uint64_t extended, ferrers;
    } figures[] = {
        {2, 6, 3, "011001/000100/000011", 928, 1323}, {2, 6, 3, "000100/000010/000001", 1394, 1394},
        {2, 3, 1, "100", 0, 0}, {2, 3, 1, "110", 1, 1}, {2, 3, 1, "010", 2, 4}, {2, 3, 1, "101", 3, 2},
        {2, 3, 1, "111", 4, 3}, {2, 3, 1, "011", 5, 5}, {2, 3, 1, "001", 6, 6}, {2, 3, 0, "", 0, 0},
        {3, 2, 1, "12", 2, 2}, {2, 3, 2, "101/011", 3, 3}, {2, 7, 3, "1000110/0010101/0001011", 5062, 6620},
        /* 3 * 5 + 2 and 3 * 4 + 2; 7 * 9 + 5 and 7 * 8 + 5; the last. */
        {4, 3, 1, "123", 17, 14}, {8, 3, 1, "157", 68, 61}, {8, 3, 1, "001", 72, 72},
    };
    for (size_t place = 0; place < COUNT_OF(figures); place++)
        compare(figures[place].q, figures[place].n, figures[place].k, figures[place].rows, figures[place].extended,
                figures[place].ferrers);
}

/* Compares two matrices of which the first comes first in the numbering. */
typedef void order_comparison(uint64_t q, uint64_t n, uint64_t k, uint64_t numbering, const char *first,
                              const char *second);

/* Example 3 of document 001, Y < X < Z; and matrices of our own in the Ferrers order. */
static inline void compare_orders(order_comparison *compare)
{
    static const char *const x = "100010/010000/001100", *const y = "100000/011000/000100",
                      *const z = "100000/010000/000010";
    static const struct {
        uint64_t q, n, k;
        const char *first, *second;
    } ferrers[] = {
        /* Larger size first, whatever the entries are. */
        {2, 4, 2, "1011/0111", "1000/0010"}, {3, 4, 2, "1202/0012", "0100/0010"}, {2, 3, 1, "011", "001"},
        /* At equal size more dots first: 2,0 before 1,1; 3,2,0 before 3,1,1 before 2,2,1. */
        {2, 4, 2, "0101/0011", "1000/0001"}, {2, 6, 3, "010101/001101/000011", "100000/000100/000010"},
        {2, 6, 3, "100000/000100/000010", "100000/001000/000001"},
        {5, 6, 3, "010404/001404/000014", "100000/000100/000010"},
        /* 3,1,1,1 before 2,2,2,0. */
        {2, 7, 3, "1000000/0000100/0000010", "0100010/0010000/0000001"},
        /* At equal diagrams the smaller tableau first: right column first, top entry first. */
        {3, 4, 2, "1020/0120", "1000/0101"}, {3, 4, 2, "1002/0120", "1022/0100"}, {3, 4, 2, "1000/0110", "1010/0100"},
        {4, 4, 2, "1002/0130", "1023/0100"}, {8, 4, 2, "1006/0177", "1077/0100"},
    };
    compare(2, 6, 3, EXTENDED, y, x);
    compare(2, 6, 3, EXTENDED, x, z);
    compare(2, 6, 3, EXTENDED, y, z);
    for (size_t place = 0; place < COUNT_OF(ferrers); place++)
        compare(ferrers[place].q, ferrers[place].n, ferrers[place].k, FERRERS, ferrers[place].first,
                ferrers[place].second);
}

/* Steps entries like an odometer, each up to the most; false when all have been seen, and they are zeros again. */
static inline bool next_entries(uint64_t most, uint8_t *entries, size_t length)
{
    size_t place = 0;
    while (place < length && entries[place] == most)
        entries[place++] = 0;
    if (place < length)
        entries[place]++;
    return place < length;
}

/* Whether all entries are below q; the field's calls take no others. */
static inline bool entries_below(uint64_t q, const uint8_t *entries, size_t length)
{
    for (size_t place = 0; place < length; place++)
        if (entries[place] >= q)
            return false;
    return true;
}

/* Adds a multiple of a row to another. */
static inline void add_multiple(uint64_t q, uint64_t n, uint8_t *sum, const uint8_t *row, uint8_t factor)
{
    for (uint64_t column = 0; column < n; column++)
        sum[column] = second_field_add(q, sum[column], second_field_multiply(q, factor, row[column]));
}

/* One linear combination of the rows, with the given factors; document 01's "mixture". */
static inline void mix_rows(uint64_t q, uint64_t n, uint64_t count, const uint8_t *rows, const uint8_t *factors,
                            uint8_t *mixture)
{
    memset(mixture, 0, (size_t)n);
    for (uint64_t row = 0; row < count; row++)
        add_multiple(q, n, mixture, rows + row * n, factors[row]);
}

/* The dimension of the factors, r rows of k; the linear combinations have it too, as drawn rows are independent. */
static inline uint64_t factor_rank(uint64_t q, uint64_t k, uint64_t r, const uint8_t *factors)
{
    uint8_t reduced[MAX_LENGTH * MAX_LENGTH];
    second_told told = {0, 0};
    if (k > 0)
        second_reduce(q, k, r, factors, (size_t)(r * k), reduced, (size_t)(k * k), &told);
    return told.dimension;
}

/* ---- Lent buffers ---- */

static inline bool is_filled(const uint8_t *bytes, size_t length)
{
    for (size_t place = 0; place < length; place++)
        if (bytes[place] != FILLING)
            return false;
    return true;
}

/* A buffer of up to 256 bytes with margins on both sides. */
typedef struct {
    uint8_t before[MARGIN], bytes[MAX_LENGTH * MAX_LENGTH], after[MARGIN];
} lent;

/* Whether nothing outside of the first bytes was written since the buffer was filled. */
static inline bool outside_filled(const lent *buffer, size_t length)
{
    return is_filled(buffer->before, MARGIN) && is_filled(buffer->after, MARGIN) &&
           is_filled(buffer->bytes + length, sizeof buffer->bytes - length);
}

#endif
