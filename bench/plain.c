/*
 * Count, Draw, Draw a batch, Number and Convert in plain C, by the paper's formulas and algorithms on tables that are
 * filled once.
 */
#include "plain.h"

#include <string.h>

/* p(k, eta, m) for any m. */
static uint64_t partitions(unsigned k, unsigned eta, int m)
{
    return m < 0 || m > (int)(k * eta) ? 0 : plain_partitions[k][eta][m];
}

/* A division by a constant is much quicker than one by q; by 2, 4 and 8 nothing is divided. */
static inline uint64_t divide(uint64_t q, uint64_t value)
{
    switch (q) {
    case 3: return value / 3;
    case 5: return value / 5;
    default: return value / 7;
    }
}

/* Appends the top digits of a column to a number in base q. */
static inline uint64_t read_digits(uint64_t q, uint64_t value, const uint8_t *column, unsigned n, unsigned digits)
{
    for (unsigned row = 0; row < digits; row++)
        value = value * q + column[row * n];
    return value;
}

/* Digits in base 2, 4 or 8, which are so many bits each. */
static inline uint64_t write_bits(unsigned bits, uint64_t value, uint8_t *column, unsigned n, unsigned digits)
{
    while (digits-- > 0) {
        column[digits * n] = (uint8_t)(value & ((1u << bits) - 1));
        value >>= bits;
    }
    return value;
}

/* Writes the last digits of a number in base q from the top of a column, and answers the digits before them. */
static inline uint64_t write_digits(uint64_t q, uint64_t value, uint8_t *column, unsigned n, unsigned digits)
{
    if ((q & (q - 1)) == 0)
        return write_bits((unsigned)__builtin_ctzll(q), value, column, n, digits);
    while (digits-- > 0) {
        uint64_t quotient = divide(q, value);
        column[digits * n] = (uint8_t)(value - quotient * q);
        value = quotient;
    }
    return value;
}

/* ---- Extended numbering ---- */

/* Formula (5). The last w entries of a column are zero, so that its first k - w digits are {X_j} / q^w. */
static uint64_t extended_index(uint64_t q, unsigned n, unsigned k, const uint8_t *matrix, const uint8_t *pivots)
{
    uint64_t index = 0;
    unsigned w = 0;
    for (unsigned j = 1; j <= n; j++) {
        unsigned column = n - j;
        uint64_t gaussian = plain_gaussian[q][n - j][k - w];
        if (w < k && pivots[k - 1 - w] == column) {
            index += plain_powers[q][k - w] * gaussian;
            w++;
        } else {
            index += read_digits(q, 0, matrix + column, n, k - w) * gaussian;
        }
    }
    return index;
}

/* Algorithm A. */
static void draw_extended(uint64_t q, unsigned n, unsigned k, uint64_t index, uint8_t *matrix)
{
    unsigned w = 0;
    memset(matrix, 0, (size_t)k * n);
    for (unsigned j = 1; j <= n && w < k; j++) {
        uint8_t *column = matrix + (n - j);
        uint64_t gaussian = plain_gaussian[q][n - j][k - w];
        uint64_t without_pivot = plain_powers[q][k - w] * gaussian;
        if (index >= without_pivot) {
            column[(k - 1 - w) * n] = 1;
            index -= without_pivot;
            w++;
        } else {
            write_digits(q, index / gaussian, column, n, k - w);
            index %= gaussian;
        }
    }
}

/* ---- Ferrers numbering ---- */

uint64_t plain_place(unsigned eta, unsigned m, const unsigned *heights)
{
    uint64_t place = 0;
    int left = (int)m;
    for (unsigned j = 1; j <= eta; j++) {
        for (unsigned a = heights[j] + 1; a <= heights[j - 1]; a++)
            place += partitions(a, eta - j, left - (int)a);
        left -= (int)heights[j];
    }
    return place;
}

/* Formula (14). */
static uint64_t ferrers_index(uint64_t q, unsigned n, unsigned k, const uint8_t *matrix, const uint8_t *pivots)
{
    unsigned heights[PLAIN_LENGTH + 1] = {k};
    unsigned row = k, columns = 0, m = 0;
    uint64_t tableau = 0;
    for (unsigned column = n; column-- > 0;) {
        if (row > 0 && pivots[row - 1] == column) {
            row--;
        } else {
            heights[++columns] = row;
            m += row;
            tableau = read_digits(q, tableau, matrix + column, n, row);
        }
    }
    return plain_tails[q][k][n - k][m] + plain_powers[q][m] * plain_place(n - k, m, heights) + tableau;
}

/* Algorithm B. */
static void find_diagram(unsigned k, unsigned eta, unsigned m, uint64_t place, unsigned *heights)
{
    unsigned height = k;
    int left = (int)m;
    for (unsigned j = 1; j <= eta; j++) {
        uint64_t taller = partitions(height, eta - j, left - (int)height);
        while (place >= taller) {
            place -= taller;
            height--;
            taller = partitions(height, eta - j, left - (int)height);
        }
        heights[j] = height;
        left -= (int)height;
    }
}

/* Builds the matrix from the left, so that the tableau's last entries come first. */
static void fill_tableau(uint64_t q, unsigned n, unsigned k, const unsigned *heights, uint64_t tableau, uint8_t *matrix)
{
    unsigned row = 0, left_to_come = n - k;
    memset(matrix, 0, (size_t)k * n);
    for (unsigned column = 0; column < n; column++) {
        if (row < (left_to_come > 0 ? heights[left_to_come] : k)) {
            matrix[row * n + column] = 1;
            row++;
        } else {
            tableau = write_digits(q, tableau, matrix + column, n, row);
            left_to_come--;
        }
    }
}

/* Algorithm C. */
static void draw_ferrers(uint64_t q, unsigned n, unsigned k, uint64_t index, uint8_t *matrix)
{
    unsigned heights[PLAIN_LENGTH + 1] = {k};
    const uint64_t *tails = plain_tails[q][k][n - k];
    unsigned m = k * (n - k);
    while (m > 0 && index >= tails[m - 1])
        m--;
    uint64_t rest = index - tails[m];
    find_diagram(k, n - k, m, rest / plain_powers[q][m], heights);
    fill_tableau(q, n, k, heights, rest % plain_powers[q][m], matrix);
}

/* ---- Tests of a matrix ---- */

/* Whether each pivot is the only nonzero entry of its column; those below it are zero by the pivots' sequence. */
static bool pivots_alone(unsigned n, unsigned k, const uint8_t *matrix, const uint8_t *pivots)
{
    for (unsigned row = 1; row < k; row++)
        for (unsigned above = 0; above < row; above++)
            if (matrix[above * n + pivots[row]] != 0)
                return false;
    return true;
}

bool plain_pivots(unsigned n, unsigned k, const uint8_t *matrix, uint8_t *pivots)
{
    unsigned least = 0;
    for (unsigned row = 0; row < k; row++) {
        const uint8_t *entries = matrix + row * n;
        unsigned column = 0;
        while (column < n && entries[column] == 0)
            column++;
        if (column < least || column == n || entries[column] != 1)
            return false;
        pivots[row] = (uint8_t)column;
        least = column + 1;
    }
    return pivots_alone(n, k, matrix, pivots);
}

/* The pivots of a matrix that is known to be reduced. */
static void find_pivots(unsigned n, unsigned k, const uint8_t *matrix, uint8_t *pivots)
{
    unsigned column = 0;
    for (unsigned row = 0; row < k; row++) {
        while (matrix[row * n + column] == 0)
            column++;
        pivots[row] = (uint8_t)column++;
    }
}

/* ---- Calls ---- */

uint32_t plain_setting(uint64_t q, uint64_t n, uint64_t k)
{
    if (!plain_is_field(q))
        return PLAIN_NO_FIELD;
    if (n < 1 || n > PLAIN_LENGTH || k > n)
        return PLAIN_NO_SHAPE;
    return plain_gaussian[q][n][k] == 0 ? PLAIN_NO_COUNT : PLAIN_DONE;
}

uint32_t plain_choice(uint64_t q, uint64_t n, uint64_t k, uint64_t numbering)
{
    uint32_t refusal = plain_setting(q, n, k);
    if (refusal != PLAIN_DONE)
        return refusal;
    return numbering == PLAIN_EXTENDED || numbering == PLAIN_FERRERS ? PLAIN_DONE : PLAIN_NO_NUMBERING;
}

uint64_t plain_index(uint64_t q, unsigned n, unsigned k, uint64_t numbering, const uint8_t *matrix,
                     const uint8_t *pivots)
{
    if (numbering == PLAIN_EXTENDED)
        return extended_index(q, n, k, matrix, pivots);
    return ferrers_index(q, n, k, matrix, pivots);
}

/* Inlined into each call; a shared copy is slower. */
static inline void draw(uint64_t q, unsigned n, unsigned k, uint64_t numbering, uint64_t index, uint8_t *matrix)
{
    if (numbering == PLAIN_EXTENDED)
        draw_extended(q, n, k, index, matrix);
    else
        draw_ferrers(q, n, k, index, matrix);
}

plain_answer plain_count(uint64_t q, uint64_t n, uint64_t k)
{
    uint32_t refusal = plain_setting(q, n, k);
    return (plain_answer){refusal, refusal == PLAIN_DONE ? plain_gaussian[q][n][k] : 0, 0, 0};
}

uint32_t plain_draw(uint64_t q, uint64_t n, uint64_t k, uint64_t numbering, uint64_t index,
                    uint8_t *matrix, size_t length)
{
    uint32_t refusal = plain_choice(q, n, k, numbering);
    if (refusal != PLAIN_DONE)
        return refusal;
    if (length != k * n)
        return PLAIN_NO_LENGTH;
    if (index >= plain_gaussian[q][n][k])
        return PLAIN_NO_INDEX;
    draw(q, (unsigned)n, (unsigned)k, numbering, index, matrix);
    return PLAIN_DONE;
}

uint32_t plain_draw_batch(uint64_t q, uint64_t n, uint64_t k, uint64_t numbering, const uint64_t *indexes,
                          size_t index_count, uint8_t *matrices, size_t matrices_length, uint8_t *answers,
                          size_t answers_length)
{
    size_t width = (size_t)(k * n), due;
    uint32_t refusal = plain_choice(q, n, k, numbering);
    if (refusal != PLAIN_DONE)
        return refusal;
    if (__builtin_mul_overflow(index_count, width, &due) || matrices_length != due || answers_length != index_count)
        return PLAIN_NO_LENGTH;
    for (size_t place = 0; place < index_count; place++) {
        bool below = indexes[place] < plain_gaussian[q][n][k];
        answers[place] = below ? PLAIN_DONE : PLAIN_NO_INDEX;
        if (below)
            draw(q, (unsigned)n, (unsigned)k, numbering, indexes[place], matrices + place * width);
    }
    return PLAIN_DONE;
}

plain_answer plain_number(uint64_t q, uint64_t n, uint64_t k, uint64_t numbering, const uint8_t *matrix, size_t length)
{
    uint8_t pivots[PLAIN_LENGTH];
    uint32_t refusal = plain_choice(q, n, k, numbering);
    if (refusal != PLAIN_DONE)
        return (plain_answer){refusal, 0, 0, 0};
    if (length != k * n)
        return (plain_answer){PLAIN_NO_LENGTH, 0, 0, 0};
    if (!plain_below(q, matrix, length))
        return (plain_answer){PLAIN_NO_ENTRY, 0, 0, 0};
    if (!plain_pivots((unsigned)n, (unsigned)k, matrix, pivots))
        return (plain_answer){PLAIN_UNREDUCED, 0, 0, 0};
    return (plain_answer){PLAIN_DONE, plain_index(q, (unsigned)n, (unsigned)k, numbering, matrix, pivots), 0, 0};
}

plain_answer plain_convert(uint64_t q, uint64_t n, uint64_t k, uint64_t from, uint64_t to, uint64_t index)
{
    uint8_t matrix[PLAIN_ENTRIES], pivots[PLAIN_LENGTH];
    uint32_t refusal = plain_choice(q, n, k, from);
    if (refusal == PLAIN_DONE)
        refusal = plain_choice(q, n, k, to);
    if (refusal != PLAIN_DONE)
        return (plain_answer){refusal, 0, 0, 0};
    if (index >= plain_gaussian[q][n][k])
        return (plain_answer){PLAIN_NO_INDEX, 0, 0, 0};
    draw(q, (unsigned)n, (unsigned)k, from, index, matrix);
    find_pivots((unsigned)n, (unsigned)k, matrix, pivots);
    return (plain_answer){PLAIN_DONE, plain_index(q, (unsigned)n, (unsigned)k, to, matrix, pivots), 0, 0};
}
