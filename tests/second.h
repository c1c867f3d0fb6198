/*
 * The second implementation: numbers the k-dimensional spaces of rows of length n over a small field.
 *
 * It is of other make than the library that it tests, slow and plain, and follows the definitions. Counts come from
 * formula (1) on big numbers. The index of a matrix is the number of matrices that come before it in the order, counted
 * set of pivot columns by set of pivot columns; Draw searches for the matrix with the index. Reduction is Gauss-Jordan
 * elimination column by column; the common space of two receivers or lists of rows comes from trying all rows, or from
 * the complements. A whole listing comes from sorting all reduced matrices by comparing two of them at a time. Formula
 * numbers are those of document 001; calls, refusals and orders are those of document 01.
 *
 * Every call answers a refusal number, 0 for done. A refused call leaves lent buffers as they were and sets the
 * index, count, distance, dimension and vector to 0, except that too few and too many dimensions also give these two.
 */
#ifndef SECOND_H
#define SECOND_H

#include "refusals.h"

#include <stddef.h>
#include <stdint.h>
#include <stdio.h>

/* Document 01's two numberings. */
enum { EXTENDED = 1, FERRERS = 2 };

/* The limits of the settings, the length of the table of counts, and the six field sizes in the table's sequence. */
enum { MAX_LENGTH = 16, MAX_ROWS = 64, TABLE_LENGTH = 1734, FIELD_COUNT = 6 };
extern const uint64_t second_field_sizes[FIELD_COUNT];

/* Fills the tables that all other calls read; to be called once before them. */
void second_init(void);

/* The sum and the product of two entries in the field of q. */
uint8_t second_field_add(uint64_t q, uint8_t left, uint8_t right);
uint8_t second_field_multiply(uint64_t q, uint8_t left, uint8_t right);

/* One of the 1,734 counts, by place; 0 at a count above 2^64 - 1, at k > n, and at a place outside the table. */
uint64_t second_table_entry(unsigned place);

/* Count: the number of spaces. Refuses 1, 2, 3. */
uint32_t second_count(uint64_t q, uint64_t n, uint64_t k, uint64_t *count);

/* Number: matrix to index. Refuses 1, 2, 3, 10, 4, 6, 7. */
uint32_t second_number(uint64_t q, uint64_t n, uint64_t k, uint64_t numbering,
                       const uint8_t *matrix, size_t length, uint64_t *index);

/* Draw: index to matrix. Refuses 1, 2, 3, 10, 4, 5. */
uint32_t second_draw(uint64_t q, uint64_t n, uint64_t k, uint64_t numbering,
                     uint64_t index, uint8_t *matrix, size_t length);

/* Draw a batch: each index to its matrix and an answer, what Draw answers for it. Refuses 1, 2, 3, 10, 4. */
uint32_t second_draw_batch(uint64_t q, uint64_t n, uint64_t k, uint64_t numbering,
                           const uint64_t *indexes, size_t index_count, uint8_t *matrices, size_t matrices_length,
                           uint8_t *answers, size_t answers_length);

/* Convert: an index from one numbering to the other. Refuses 1, 2, 3, 10 for either numbering, 5. */
uint32_t second_convert(uint64_t q, uint64_t n, uint64_t k, uint64_t from, uint64_t to,
                        uint64_t index, uint64_t *converted);

/* What is told of a span: its dimension, and its identifying vector, column j from the right at the value 2^(j-1). */
typedef struct {
    uint64_t dimension, vector;
} second_told;

/* Reduce: r rows to the n x n bytes of the reduced rows, then zeros. Refuses 1, 2 for n only, 13, 4, 6. */
uint32_t second_reduce(uint64_t q, uint64_t n, uint64_t r, const uint8_t *rows, size_t rows_length,
                       uint8_t *out, size_t out_length, second_told *told);

/*
 * Distance: the subspace distance of the spans of two lists of rows. Refuses 1, 2 for n only; 13, 4 and 6 of the first
 * list, then of the other.
 */
uint32_t second_distance(uint64_t q, uint64_t n, uint64_t count, const uint8_t *rows, size_t length,
                         uint64_t other_count, const uint8_t *other_rows, size_t other_length, uint64_t *distance);

/* Receive: r rows to the index of their span. Refuses 1, 2, 3, 10, 13, 4, 6, 8, 9. */
uint32_t second_receive(uint64_t q, uint64_t n, uint64_t k, uint64_t numbering, uint64_t r,
                        const uint8_t *rows, size_t rows_length, uint64_t *index, second_told *told);

/*
 * The second implementation's receiver: its pack, below 65,536, and the rows that it accepted, r of them. All zeros
 * after a refused start, and in the place of a receiver that no list of rows leads to.
 */
typedef struct {
    uint64_t q, n, k, pack, r;
    uint8_t rows[MAX_ROWS * MAX_LENGTH];
} second_receiver;

/* Start: a receiver of no rows. Refuses 1, 2, 3. */
uint32_t second_start(uint64_t q, uint64_t n, uint64_t k, uint64_t pack, second_receiver *receiver);

/* Writes the reduced rows of the list, then zeros, 256 bytes in all, and answers the dimension. */
uint64_t second_entries(const second_receiver *receiver, uint8_t *entries);

/* What Take tells of a row: 1 where the dimension grows, and 1 where the row is idle; both 0 where it is refused. */
typedef struct {
    uint32_t raised, idle;
} second_taken;

/* Take, of at most 64 accepted rows; the row is offered for the pack. Refuses 17, 4, 6. */
uint32_t second_take(second_receiver *receiver, uint64_t pack, const uint8_t *row, size_t length, second_taken *taken);

/* Close: the index of the list's span. Refuses 10, 8, 9. */
uint32_t second_close(const second_receiver *receiver, uint64_t numbering, uint64_t *index, second_told *told);

/* Makes a receiver of the pack out of a dimension and 256 entries. Refuses 14 where no list of rows leads to them. */
uint32_t second_revive(uint64_t q, uint64_t n, uint64_t k, uint64_t pack, uint64_t dimension, const uint8_t *entries,
                       second_receiver *receiver);

/* What Pool leaves beside the matrices: a receiver of the joint space, and both dimensions; all zeros if refused. */
typedef struct {
    second_receiver receiver;
    uint64_t joint_dimension, common_dimension;
} second_pooled;

/*
 * Pool: writes the n x n bytes of the reduced rows, then zeros, of the smallest space that contains both receivers'
 * spaces, and those of their common space. Refuses 14 for the first receiver, 14 for the second, 16, 4.
 */
uint32_t second_pool(const second_receiver *first, const second_receiver *second, uint8_t *joint, size_t joint_length,
                     uint8_t *common, size_t common_length, second_pooled *pooled);

/* The identifying vector of a reduced matrix: column j from the right has the value 2^(j-1). */
uint32_t second_identifying_vector(uint64_t n, uint64_t k, const uint8_t *matrix);

/* The diagram of an identifying vector with k ones: F_1, F_2, ... go to heights (n - k of them). Answers the size m. */
unsigned second_diagram(uint64_t n, uint64_t k, uint32_t vector, uint8_t *heights);

/*
 * The Ferrers tableaux form of a reduced matrix: F_1, F_2, ... go to heights (n - k of them), the entries at the dots
 * to entries, column by column from the right and each from top to bottom. Answers the size m.
 */
unsigned second_tableau(uint64_t n, uint64_t k, const uint8_t *matrix, uint8_t *heights, uint8_t *entries);

/* Below 0, 0 or above 0 as the first reduced matrix comes before, is, or comes after the second in the order. */
int second_compare(uint64_t q, uint64_t n, uint64_t k, uint64_t numbering,
                   const uint8_t *first, const uint8_t *second);

/* The same of two diagrams, which identifying vectors give: the Ferrers order without the tableaux. */
int second_diagram_compare(uint64_t n, uint64_t k, uint32_t first, uint32_t second);

/* Writes all reduced k x n matrices one after another (N*k*n bytes) and answers how many there are. */
size_t second_enumerate(uint64_t q, uint64_t n, uint64_t k, uint8_t *out);

/* Sorts matrices that stand one after another by the numbering's order; the place is then the index. */
void second_sort(uint64_t q, uint64_t n, uint64_t k, uint64_t numbering, uint8_t *matrices, size_t count);

/* The index of each of the matrices, all of a setting's in any order: its place among them when they are sorted. */
void second_indexes(uint64_t q, uint64_t n, uint64_t k, uint64_t numbering,
                    const uint8_t *matrices, size_t count, size_t *indexes);

/* List: writes what the list program is to write for an input. Refuses 11, 1, 2, 3, 12. */
uint32_t second_list(const uint8_t *input, size_t length, FILE *out);

#endif
