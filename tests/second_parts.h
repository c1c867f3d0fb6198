/*
 * What the parts of the second implementation share: its tables and inner calls. Of the tests only the self-test reads
 * it, for the tables, the sets of pivot columns and the common spaces.
 */
#ifndef SECOND_PARTS_H
#define SECOND_PARTS_H

#include "second.h"

#include <stdbool.h>

/* Field sizes are at most 8, diagrams have at most 8 x 8 dots. */
enum { FIELD_LIMIT = 8, SIZE_LIMIT = 64 };

/* More than any count, index or power of q needs. */
__extension__ typedef unsigned __int128 wide;

/* The arithmetic of one field; difference[a][b] is a - b. */
typedef struct {
    uint8_t sum[FIELD_LIMIT][FIELD_LIMIT];
    uint8_t difference[FIELD_LIMIT][FIELD_LIMIT];
    uint8_t product[FIELD_LIMIT][FIELD_LIMIT];
    uint8_t inverse[FIELD_LIMIT];
} second_field;

/* Tables by field size q. A power or count that doesn't fit in 64 bits is 0; accepted settings read none. */
extern second_field second_fields[FIELD_LIMIT + 1];
extern uint64_t second_powers[FIELD_LIMIT + 1][SIZE_LIMIT + 1];
extern uint64_t second_gaussian[FIELD_LIMIT + 1][MAX_LENGTH + 1][MAX_LENGTH + 1];

/* Refusals 1, 2, 3 and 10; the count is 0 if refused. */
uint32_t second_setting(uint64_t q, uint64_t n, uint64_t k, uint64_t numbering, uint64_t *count);

/* Whether q is one of the field sizes. */
bool second_is_field(uint64_t q);

/* Whether all entries are below q. */
bool second_entries_below(uint64_t q, const uint8_t *entries, size_t length);

/* Refusals 13, 4 and 6 of a list of rows. */
uint32_t second_rows_refusal(uint64_t q, uint64_t n, uint64_t r, const uint8_t *rows, size_t rows_length);

/* Steps through the numbers below 2^n with k ones: the least of them, the next, and whether one is such a number. */
uint32_t second_first_vector(uint64_t k);
uint32_t second_next_vector(uint64_t n, uint32_t vector);
bool second_is_vector(uint64_t n, uint32_t vector);

/* The index of a reduced matrix, and the matrix of an index below the count. */
uint64_t second_index_of(uint64_t q, uint64_t n, uint64_t k, uint64_t numbering, const uint8_t *matrix);
void second_search(uint64_t q, uint64_t n, uint64_t k, uint64_t numbering, uint64_t index, uint8_t *matrix);

/* The column of a row's first nonzero entry; n where there is none. */
uint64_t second_pivot(uint64_t n, const uint8_t *row);

/* Subtracts a multiple of another row. */
void second_subtract_row(const second_field *field, uint8_t *row, const uint8_t *other, unsigned n, unsigned factor);

/* A space by its reduced rows; zeros stand after them. */
typedef struct {
    uint64_t q, n, dimension;
    uint8_t rows[MAX_LENGTH * MAX_LENGTH];
} second_space;

/* The span of at most 64 rows. */
second_space second_span(uint64_t q, uint64_t n, uint64_t r, const uint8_t *rows);

/* The smallest space that contains both. */
second_space second_joint(const second_space *first, const second_space *second);

/* The common space, by trying all q^n rows, by complements, and by the former where there are few rows. */
second_space second_common_tried(const second_space *first, const second_space *second);
second_space second_common_solved(const second_space *first, const second_space *second);
second_space second_common(const second_space *first, const second_space *second);

#endif
