#include "packed.h"

#include <string.h>

/* ---- Bytes and bits ---- */

/* The lowest bits of eight bytes, the first byte's highest. */
static inline unsigned pack_eight(const uint8_t *bytes)
{
    uint64_t word;
    memcpy(&word, bytes, 8);
    return (unsigned)(word * UINT64_C(0x8040201008040201) >> 56);
}

/* Packs a row; it may read past its end, up to the 16th byte. */
static inline unsigned pack_row(const uint8_t *row, unsigned n)
{
    return (pack_eight(row) << 8 | pack_eight(row + 8)) >> (PLAIN_LENGTH - n);
}

static inline unsigned pack_last_row(const uint8_t *row, unsigned n)
{
    uint8_t bytes[PLAIN_LENGTH] = {0};
    memcpy(bytes, row, n);
    return pack_row(bytes, n);
}

static inline void unpack_row(unsigned word, unsigned n, uint8_t *row)
{
    for (unsigned column = 0; column < n; column++)
        row[column] = word >> (n - 1 - column) & 1;
}

/* ---- Reduction ---- */

/* Reduced rows, from the top, and their pivots as bits. */
typedef struct {
    uint16_t rows[PLAIN_LENGTH];
    unsigned count, pivots;
} packed_space;

static inline unsigned highest_bit(unsigned word)
{
    return 31 - (unsigned)__builtin_clz(word);
}

/* Rows by the place of their highest bit, cleared from the highest down until the row is zero or new. */
static void insert_rows(const uint8_t *rows, unsigned n, unsigned row_count, uint16_t *by_bit, packed_space *space)
{
    for (unsigned at = 0; at < row_count && space->count < n; at++) {
        const uint8_t *row = rows + at * n;
        unsigned word = at * n + PLAIN_LENGTH <= row_count * n ? pack_row(row, n) : pack_last_row(row, n);
        while (word != 0) {
            unsigned bit = highest_bit(word);
            if (by_bit[bit] == 0) {
                by_bit[bit] = (uint16_t)word;
                space->pivots |= 1u << bit;
                space->count++;
                break;
            }
            word ^= by_bit[bit];
        }
    }
}

/* Clears each row at the pivots below its own, lowest row first, and puts the rows in order. */
static packed_space reduce_rows(const uint8_t *rows, unsigned n, unsigned row_count)
{
    uint16_t by_bit[PLAIN_LENGTH] = {0};
    packed_space space = {{0}, 0, 0};
    insert_rows(rows, n, row_count, by_bit, &space);
    unsigned at = space.count;
    for (unsigned left = space.pivots; left != 0; left &= left - 1) {
        unsigned bit = (unsigned)__builtin_ctz(left), word = by_bit[bit];
        for (unsigned others = word & space.pivots & ~(1u << bit); others != 0; others &= others - 1)
            word ^= by_bit[__builtin_ctz(others)];
        by_bit[bit] = (uint16_t)word;
        space.rows[--at] = (uint16_t)word;
    }
    return space;
}

/* ---- Indexes ---- */

/* The columns of the rows, from the right; the top row is the highest of k bits. */
static void transpose(const packed_space *space, unsigned n, uint16_t *columns)
{
    memset(columns, 0, n * sizeof *columns);
    for (unsigned row = 0; row < space->count; row++)
        for (unsigned j = 0; j < n; j++)
            columns[j] = (uint16_t)(columns[j] << 1 | (space->rows[row] >> j & 1));
}

static uint64_t extended_index(const packed_space *space, unsigned n, const uint16_t *columns)
{
    uint64_t index = 0;
    unsigned k = space->count, w = 0;
    for (unsigned j = 0; j < n; j++) {
        uint64_t gaussian = plain_gaussian[2][n - 1 - j][k - w];
        if (space->pivots >> j & 1)
            index += gaussian << (k - w++);
        else
            index += (columns[j] >> w) * gaussian;
    }
    return index;
}

static uint64_t ferrers_index(const packed_space *space, unsigned n, const uint16_t *columns)
{
    unsigned heights[PLAIN_LENGTH + 1] = {space->count};
    unsigned k = space->count, w = 0, i = 0, m = 0;
    uint64_t tableau = 0;
    for (unsigned j = 0; j < n; j++) {
        if (space->pivots >> j & 1) {
            w++;
        } else {
            heights[++i] = k - w;
            m += k - w;
            tableau = tableau << (k - w) | columns[j] >> w;
        }
    }
    return plain_tails[2][k][n - k][m] + (plain_place(n - k, m, heights) << m) + tableau;
}

/* ---- Calls ---- */

plain_answer packed_reduce(uint64_t q, uint64_t n, uint64_t row_count, const uint8_t *rows, size_t rows_length,
                           uint8_t *out, size_t out_length)
{
    uint32_t refusal = plain_reduce_refusal(q, n, row_count, rows, rows_length, out_length);
    if (refusal != PLAIN_DONE || q != 2)
        return (plain_answer){refusal, 0, 0, 0};
    packed_space space = reduce_rows(rows, (unsigned)n, (unsigned)row_count);
    memset(out, 0, out_length);
    for (unsigned row = 0; row < space.count; row++)
        unpack_row(space.rows[row], (unsigned)n, out + row * n);
    return (plain_answer){PLAIN_DONE, 0, space.count, space.pivots};
}

uint32_t packed_receive(uint64_t q, uint64_t n, uint64_t k, uint64_t numbering, uint64_t row_count,
                        const uint8_t *rows, size_t rows_length, uint8_t *answer, size_t answer_length)
{
    uint16_t columns[PLAIN_LENGTH];
    uint64_t index = 0;
    uint32_t refusal = plain_receive_refusal(q, n, k, numbering, row_count, rows, rows_length, answer_length);
    if (refusal != PLAIN_DONE || q != 2)
        return refusal;
    packed_space space = reduce_rows(rows, (unsigned)n, (unsigned)row_count);
    if (space.count == k) {
        transpose(&space, (unsigned)n, columns);
        index = numbering == PLAIN_EXTENDED ? extended_index(&space, (unsigned)n, columns)
                                            : ferrers_index(&space, (unsigned)n, columns);
    }
    return plain_leave(k, space.count, index, space.pivots, answer);
}
