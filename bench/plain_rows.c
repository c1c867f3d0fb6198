/*
 * Reduce, Receive and the receiver in plain C. Rows are taken one by one into reduced rows that stand in the order of
 * their pivots.
 */
#include "plain.h"

#include <string.h>

/* ---- One row ---- */

/* Subtracts a multiple of a reduced row; left of the start that row is zero. */
static inline void subtract_row(const uint8_t (*restrict less)[PLAIN_FIELD], uint8_t *restrict row,
                                const uint8_t *restrict reduced, unsigned start, unsigned n)
{
    for (unsigned column = start; column < n; column++)
        row[column] = less[reduced[column]][row[column]];
}

/* Puts a row with a pivot of 1 in column `lead` among d reduced rows, clears the column above it; answers d + 1. */
static unsigned place_row(const plain_field *field, unsigned n, unsigned d, const uint8_t *row, unsigned lead,
                          uint8_t *matrix, uint8_t *pivots)
{
    unsigned at = 0;
    for (; at < d && pivots[at] < lead; at++) {
        unsigned factor = matrix[at * n + lead];
        if (factor != 0)
            subtract_row(field->less_product[factor], matrix + at * n, row, lead, n);
    }
    memmove(matrix + (at + 1) * n, matrix + at * n, (d - at) * n);
    memmove(pivots + at + 1, pivots + at, d - at);
    memcpy(matrix + at * n, row, n);
    pivots[at] = (uint8_t)lead;
    return d + 1;
}

/* Takes a row into d reduced rows and answers how many there are then. */
static unsigned insert(const plain_field *field, unsigned n, unsigned d, const uint8_t *row, uint8_t *matrix,
                       uint8_t *pivots)
{
    uint8_t rest[PLAIN_LENGTH];
    unsigned lead = 0;
    memcpy(rest, row, n);
    for (unsigned at = 0; at < d; at++) {
        unsigned factor = rest[pivots[at]];
        if (factor != 0)
            subtract_row(field->less_product[factor], rest, matrix + at * n, pivots[at], n);
    }
    while (lead < n && rest[lead] == 0)
        lead++;
    if (lead == n)
        return d;
    const uint8_t *product = field->product[field->inverse[rest[lead]]];
    if (rest[lead] != 1)
        for (unsigned column = lead; column < n; column++)
            rest[column] = product[rest[column]];
    return place_row(field, n, d, rest, lead, matrix, pivots);
}

/* Takes the rows into d reduced rows, or as many as it needs for n dimensions; answers how many there are then. */
static unsigned insert_all(uint64_t q, unsigned n, unsigned d, unsigned row_count, const uint8_t *rows, uint8_t *matrix,
                           uint8_t *pivots)
{
    for (unsigned row = 0; row < row_count && d < n; row++)
        d = insert(&plain_fields[q], n, d, rows + row * n, matrix, pivots);
    return d;
}

/* The identifying vector of d rows with these pivots: column j from the right has the value 2^(j-1). */
static unsigned vector_of(unsigned n, unsigned d, const uint8_t *pivots)
{
    unsigned vector = 0;
    for (unsigned row = 0; row < d; row++)
        vector |= 1u << (n - 1 - pivots[row]);
    return vector;
}

/* ---- Reduce and Receive ---- */

/* Refusals 13, 4 and 6 of a list of rows, and of what is lent for the answer. */
static uint32_t rows_refusal(uint64_t q, uint64_t n, uint64_t row_count, const uint8_t *rows, size_t rows_length,
                             bool lent_right)
{
    if (row_count > PLAIN_ROWS)
        return PLAIN_NO_ROW_COUNT;
    if (rows_length != row_count * n || !lent_right)
        return PLAIN_NO_LENGTH;
    return plain_below(q, rows, rows_length) ? PLAIN_DONE : PLAIN_NO_ENTRY;
}

/* Refusals 1, and 2 for n alone. */
static uint32_t row_setting(uint64_t q, uint64_t n)
{
    if (!plain_is_field(q))
        return PLAIN_NO_FIELD;
    return n < 1 || n > PLAIN_LENGTH ? PLAIN_NO_SHAPE : PLAIN_DONE;
}

uint32_t plain_reduce_refusal(uint64_t q, uint64_t n, uint64_t row_count, const uint8_t *rows, size_t rows_length,
                              size_t out_length)
{
    uint32_t refusal = row_setting(q, n);
    if (refusal != PLAIN_DONE)
        return refusal;
    return rows_refusal(q, n, row_count, rows, rows_length, out_length == n * n);
}

uint32_t plain_receive_refusal(uint64_t q, uint64_t n, uint64_t k, uint64_t numbering, uint64_t row_count,
                               const uint8_t *rows, size_t rows_length, size_t answer_length)
{
    uint32_t refusal = plain_choice(q, n, k, numbering);
    if (refusal != PLAIN_DONE)
        return refusal;
    return rows_refusal(q, n, row_count, rows, rows_length, answer_length == PLAIN_ANSWER);
}

plain_answer plain_reduce(uint64_t q, uint64_t n, uint64_t row_count, const uint8_t *rows, size_t rows_length,
                          uint8_t *out, size_t out_length)
{
    uint8_t pivots[PLAIN_LENGTH];
    uint32_t refusal = plain_reduce_refusal(q, n, row_count, rows, rows_length, out_length);
    if (refusal != PLAIN_DONE)
        return (plain_answer){refusal, 0, 0, 0};
    memset(out, 0, out_length);
    unsigned d = insert_all(q, (unsigned)n, 0, (unsigned)row_count, rows, out, pivots);
    return (plain_answer){PLAIN_DONE, 0, d, vector_of((unsigned)n, d, pivots)};
}

static uint32_t distance_refusal(uint64_t q, uint64_t n, uint64_t first_count, const uint8_t *first, size_t first_length,
                                 uint64_t second_count, const uint8_t *second, size_t second_length)
{
    uint32_t refusal = row_setting(q, n);
    if (refusal == PLAIN_DONE)
        refusal = rows_refusal(q, n, first_count, first, first_length, true);
    return refusal == PLAIN_DONE ? rows_refusal(q, n, second_count, second, second_length, true) : refusal;
}

/* The second list's reduced rows are taken into the first's. */
plain_answer plain_distance(uint64_t q, uint64_t n, uint64_t first_count, const uint8_t *first, size_t first_length,
                            uint64_t second_count, const uint8_t *second, size_t second_length)
{
    uint8_t matrix[PLAIN_ENTRIES], other[PLAIN_ENTRIES], pivots[PLAIN_LENGTH], other_pivots[PLAIN_LENGTH];
    uint32_t refusal = distance_refusal(q, n, first_count, first, first_length, second_count, second, second_length);
    if (refusal != PLAIN_DONE)
        return (plain_answer){refusal, 0, 0, 0};
    unsigned d = insert_all(q, (unsigned)n, 0, (unsigned)first_count, first, matrix, pivots);
    unsigned e = insert_all(q, (unsigned)n, 0, (unsigned)second_count, second, other, other_pivots);
    unsigned joint = insert_all(q, (unsigned)n, d, e, other, matrix, pivots);
    return (plain_answer){PLAIN_DONE, 2 * joint - d - e, 0, 0};
}

uint32_t plain_leave(uint64_t k, uint64_t d, uint64_t index, unsigned vector, uint8_t *answer)
{
    for (unsigned place = 0; place < 8; place++)
        answer[place] = (uint8_t)(index >> 8 * place);
    answer[8] = (uint8_t)d;
    answer[9] = (uint8_t)vector;
    answer[10] = (uint8_t)(vector >> 8);
    return d < k ? PLAIN_TOO_FEW : d > k ? PLAIN_TOO_MANY : PLAIN_DONE;
}

uint32_t plain_receive(uint64_t q, uint64_t n, uint64_t k, uint64_t numbering, uint64_t row_count,
                       const uint8_t *rows, size_t rows_length, uint8_t *answer, size_t answer_length)
{
    uint8_t matrix[PLAIN_ENTRIES], pivots[PLAIN_LENGTH];
    uint64_t index = 0;
    uint32_t refusal = plain_receive_refusal(q, n, k, numbering, row_count, rows, rows_length, answer_length);
    if (refusal != PLAIN_DONE)
        return refusal;
    unsigned d = insert_all(q, (unsigned)n, 0, (unsigned)row_count, rows, matrix, pivots);
    if (d == k)
        index = plain_index(q, (unsigned)n, (unsigned)k, numbering, matrix, pivots);
    return plain_leave(k, d, index, vector_of((unsigned)n, d, pivots), answer);
}

/* ---- The receiver ---- */

/* Whether the entries from `size` on are 0. */
static bool rest_zero(const uint8_t *entries, size_t size)
{
    uint8_t any = 0;
    for (size_t place = size; place < PLAIN_ENTRIES; place++)
        any |= entries[place];
    return any == 0;
}

/* Whether Start and Take can leave the receiver after an accepted Start; if so, the columns of its pivots. */
static bool reachable(const plain_receiver *receiver, uint8_t *pivots)
{
    size_t size = (size_t)(receiver->dimension * receiver->n);
    return plain_setting(receiver->q, receiver->n, receiver->k) == PLAIN_DONE && receiver->dimension <= receiver->n &&
           rest_zero(receiver->entries, size) && plain_below(receiver->q, receiver->entries, size) &&
           plain_pivots((unsigned)receiver->n, (unsigned)receiver->dimension, receiver->entries, pivots);
}

plain_step plain_start(uint64_t q, uint64_t n, uint64_t k, uint64_t pack)
{
    plain_step step = {{{0}, 0, 0, 0, 0, 0}, plain_setting(q, n, k), 0, 0};
    if (step.refusal == PLAIN_DONE) {
        step.receiver.q = q;
        step.receiver.n = n;
        step.receiver.k = k;
        step.receiver.pack = pack;
    }
    return step;
}

/* Takes a row in place; a row of zeros is idle, and nothing more is done with it. */
static uint32_t take(plain_receiver *receiver, uint64_t pack, const uint8_t *row, size_t length, uint32_t *raised,
                     uint32_t *idle)
{
    uint8_t pivots[PLAIN_LENGTH];
    unsigned n = (unsigned)receiver->n, before = (unsigned)receiver->dimension, after = before;
    if (!reachable(receiver, pivots))
        return PLAIN_NO_RECEIVER;
    if (pack != receiver->pack)
        return PLAIN_NO_PACK;
    if (length != n)
        return PLAIN_NO_LENGTH;
    uint8_t most = plain_greatest(row, length);
    if (most >= receiver->q)
        return PLAIN_NO_ENTRY;
    *idle = most == 0;
    if (most == 0)
        return PLAIN_DONE;
    if (before < n)
        after = insert(&plain_fields[receiver->q], n, before, row, receiver->entries, pivots);
    receiver->dimension = after;
    *raised = after - before;
    return PLAIN_DONE;
}

plain_step plain_take(plain_receiver receiver, uint64_t pack, const uint8_t *row, size_t length)
{
    plain_step step = {receiver, 0, 0, 0};
    step.refusal = take(&step.receiver, pack, row, length, &step.raised, &step.idle);
    return step;
}

plain_answer plain_close(plain_receiver receiver, uint64_t numbering)
{
    uint8_t pivots[PLAIN_LENGTH];
    if (!reachable(&receiver, pivots))
        return (plain_answer){PLAIN_NO_RECEIVER, 0, 0, 0};
    if (numbering != PLAIN_EXTENDED && numbering != PLAIN_FERRERS)
        return (plain_answer){PLAIN_NO_NUMBERING, 0, 0, 0};
    unsigned vector = vector_of((unsigned)receiver.n, (unsigned)receiver.dimension, pivots);
    if (receiver.dimension != receiver.k)
        return (plain_answer){receiver.dimension < receiver.k ? PLAIN_TOO_FEW : PLAIN_TOO_MANY, 0, receiver.dimension,
                              vector};
    return (plain_answer){PLAIN_DONE, plain_index(receiver.q, (unsigned)receiver.n, (unsigned)receiver.k, numbering,
                                                  receiver.entries, pivots), 0, vector};
}
