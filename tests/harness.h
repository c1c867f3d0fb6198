/*
 * The library's calls without a C form of their own, as the tests reach them. The value is the count, the index or the
 * distance; it and the dimension are 0 where document 01 says so. The vector is the identifying vector that Reduce,
 * Receive and Close tell, with 8 and 9 too; 0 with other refusals and for the other calls.
 */
#ifndef HARNESS_H
#define HARNESS_H

#include "pandrwyg.h"

typedef struct {
    uint32_t refusal;
    uint64_t value;
    uint64_t dimension;
    uint64_t vector;
} harness_answer;

/* A receiver, field by field. The shims take the low 16 bits of a pack, here and in the calls; no test has a larger. */
typedef struct {
    uint8_t entries[256];
    uint64_t q, n, k, dimension, pack;
} harness_receiver;

/*
 * What Start and Take leave: the receiver handed back, the refusal or 0, 1 where the dimension grew, and 1 where the
 * row is idle: accepted, and all zeros. An accepted row that is neither raised nor idle is held.
 */
typedef struct {
    harness_receiver receiver;
    uint32_t refusal, raised, idle;
} harness_step;

/* An entry of the table of counts; 0 for a place of 1734 or more. */
uint64_t harness_table_entry(uint64_t place);

harness_answer harness_count(uint64_t q, uint64_t n, uint64_t k);

harness_answer harness_number(uint64_t q, uint64_t n, uint64_t k, uint64_t numbering,
                              const uint8_t *matrix, size_t length);

harness_answer harness_convert(uint64_t q, uint64_t n, uint64_t k, uint64_t from, uint64_t to, uint64_t index);

harness_answer harness_reduce(uint64_t q, uint64_t n, uint64_t row_count, const uint8_t *rows, size_t rows_length,
                              uint8_t *out, size_t out_length);

/* The subspace distance of two lists of rows, as the value. */
harness_answer harness_distance(uint64_t q, uint64_t n, uint64_t first_count, const uint8_t *first, size_t first_length,
                                uint64_t second_count, const uint8_t *second, size_t second_length);

/* Receive by value. Done, the value is the index and the dimension 0; with 8 and 9 the dimension is the span's. */
harness_answer harness_receive(uint64_t q, uint64_t n, uint64_t k, uint64_t numbering, uint64_t row_count,
                               const uint8_t *rows, size_t rows_length);

harness_step harness_start(uint64_t q, uint64_t n, uint64_t k, uint64_t pack);

/* Take by value, and Take on a lent receiver, which is then handed back; the row is offered for the pack. */
harness_step harness_take(harness_receiver receiver, uint64_t pack, const uint8_t *row, size_t length);
harness_step harness_take_lent(harness_receiver receiver, uint64_t pack, const uint8_t *row, size_t length);

harness_answer harness_close(harness_receiver receiver, uint64_t numbering);

/* What Pool leaves: the receiver handed back, the refusal or 0, and the dimensions of the two spaces. */
typedef struct {
    harness_receiver receiver;
    uint32_t refusal;
    uint64_t joint_dimension, common_dimension;
} harness_pooled;

/* Pool: the smallest space that contains both goes to joint, the common space to common. */
harness_pooled harness_pool(harness_receiver a, harness_receiver b, uint8_t *joint, size_t joint_length,
                            uint8_t *common, size_t common_length);

#endif
