/*
 * Plain C that does what the library's calls do: the same tests, refusals and answers, through the same interfaces, as
 * a C programmer tunes it by hand. It is what the library's speed is measured against. It shares nothing with the
 * tests; the bench compares its answers with the library's before it times the two, and the gate makes these comparisons.
 */
#ifndef PLAIN_H
#define PLAIN_H

#include <stdbool.h>
#include <stddef.h>
#include <stdint.h>

enum { PLAIN_LENGTH = 16, PLAIN_ROWS = 64, PLAIN_ENTRIES = 256, PLAIN_FIELD = 8, PLAIN_DOTS = 64, PLAIN_ANSWER = 11 };

/* The field sizes, of which PLAIN_FIELD is the greatest. */
enum { PLAIN_SIZES = 6 };
extern const unsigned plain_sizes[PLAIN_SIZES];

enum { PLAIN_EXTENDED = 1, PLAIN_FERRERS = 2 };

/* Document 01's refusals, as far as plain C gives them. */
enum {
    PLAIN_DONE = 0, PLAIN_NO_FIELD = 1, PLAIN_NO_SHAPE = 2, PLAIN_NO_COUNT = 3, PLAIN_NO_LENGTH = 4, PLAIN_NO_INDEX = 5,
    PLAIN_NO_ENTRY = 6, PLAIN_UNREDUCED = 7, PLAIN_TOO_FEW = 8, PLAIN_TOO_MANY = 9, PLAIN_NO_NUMBERING = 10,
    PLAIN_NO_LINE = 11, PLAIN_NO_LISTING = 12, PLAIN_NO_ROW_COUNT = 13, PLAIN_NO_RECEIVER = 14, PLAIN_NO_PACK = 17
};

/* ---- Calls ---- */

typedef struct {
    uint32_t refusal;
    uint64_t value, dimension, vector;
} plain_answer;

typedef struct {
    uint8_t entries[PLAIN_ENTRIES];
    uint64_t q, n, k, dimension, pack;
} plain_receiver;

typedef struct {
    plain_receiver receiver;
    uint32_t refusal, raised, idle;
} plain_step;

/* Fills the tables; to be called once before all others. */
void plain_init(void);

plain_answer plain_count(uint64_t q, uint64_t n, uint64_t k);
uint32_t plain_draw(uint64_t q, uint64_t n, uint64_t k, uint64_t numbering, uint64_t index,
                    uint8_t *matrix, size_t length);
uint32_t plain_draw_batch(uint64_t q, uint64_t n, uint64_t k, uint64_t numbering, const uint64_t *indexes,
                          size_t index_count, uint8_t *matrices, size_t matrices_length, uint8_t *answers,
                          size_t answers_length);
plain_answer plain_number(uint64_t q, uint64_t n, uint64_t k, uint64_t numbering, const uint8_t *matrix, size_t length);
plain_answer plain_convert(uint64_t q, uint64_t n, uint64_t k, uint64_t from, uint64_t to, uint64_t index);
plain_answer plain_reduce(uint64_t q, uint64_t n, uint64_t row_count, const uint8_t *rows, size_t rows_length,
                          uint8_t *out, size_t out_length);
plain_answer plain_distance(uint64_t q, uint64_t n, uint64_t first_count, const uint8_t *first, size_t first_length,
                            uint64_t second_count, const uint8_t *second, size_t second_length);
uint32_t plain_receive(uint64_t q, uint64_t n, uint64_t k, uint64_t numbering, uint64_t row_count,
                       const uint8_t *rows, size_t rows_length, uint8_t *answer, size_t answer_length);

/* Start, Take and Close. Take changes its copy in place and hands it back; lent or not, that is all C can do. */
plain_step plain_start(uint64_t q, uint64_t n, uint64_t k, uint64_t pack);
plain_step plain_take(plain_receiver receiver, uint64_t pack, const uint8_t *row, size_t length);
plain_answer plain_close(plain_receiver receiver, uint64_t numbering);

/* ---- Parts that the calls share ---- */

/* Tables by field size. less_product[a][b][c] is c - a * b. What doesn't fit in 64 bits is 0. */
typedef struct {
    uint8_t product[PLAIN_FIELD][PLAIN_FIELD];
    uint8_t less_product[PLAIN_FIELD][PLAIN_FIELD][PLAIN_FIELD];
    uint8_t inverse[PLAIN_FIELD];
} plain_field;

/*
 * p(k, eta, m), and by q, k, eta and m how many spaces have more than m dots. For a controller, where PLAIN_CONST is
 * defined, all tables are constants (const_tables.c), and these two have no gaps: what is indexed by m is a pointer.
 */
#ifdef PLAIN_CONST
extern const plain_field plain_fields[PLAIN_FIELD + 1];
extern const uint64_t plain_powers[PLAIN_FIELD + 1][PLAIN_DOTS + 1];
extern const uint64_t plain_gaussian[PLAIN_FIELD + 1][PLAIN_LENGTH + 1][PLAIN_LENGTH + 1];
extern const uint32_t *const plain_partitions[PLAIN_LENGTH + 1][PLAIN_LENGTH + 1];
extern const uint64_t *const plain_tails[PLAIN_FIELD + 1][PLAIN_LENGTH + 1][PLAIN_LENGTH + 1];
#else
extern plain_field plain_fields[PLAIN_FIELD + 1];
extern uint64_t plain_powers[PLAIN_FIELD + 1][PLAIN_DOTS + 1];
extern uint64_t plain_gaussian[PLAIN_FIELD + 1][PLAIN_LENGTH + 1][PLAIN_LENGTH + 1];
extern uint32_t plain_partitions[PLAIN_LENGTH + 1][PLAIN_LENGTH + 1][PLAIN_DOTS + 1];
extern uint64_t plain_tails[PLAIN_FIELD + 1][PLAIN_LENGTH + 1][PLAIN_LENGTH + 1][PLAIN_DOTS + 1];
#endif

/* Refusals 1, 2 and 3; then 10. */
uint32_t plain_setting(uint64_t q, uint64_t n, uint64_t k);
uint32_t plain_choice(uint64_t q, uint64_t n, uint64_t k, uint64_t numbering);

static inline bool plain_is_field(uint64_t q)
{
    return q == 2 || q == 3 || q == 4 || q == 5 || q == 7 || q == 8;
}

/* The greatest entry; 0 where there is none. There is no way out of the loop, so that many are compared in one step. */
static inline uint8_t plain_greatest(const uint8_t *entries, size_t length)
{
    uint8_t most = 0;
    for (size_t place = 0; place < length; place++)
        most = entries[place] > most ? entries[place] : most;
    return most;
}

/* Whether all entries are below q. */
static inline bool plain_below(uint64_t q, const uint8_t *entries, size_t length)
{
    return plain_greatest(entries, length) < q;
}

/* Refusals of Reduce; and of Receive, but for 8 and 9. */
uint32_t plain_reduce_refusal(uint64_t q, uint64_t n, uint64_t row_count, const uint8_t *rows, size_t rows_length,
                              size_t out_length);
uint32_t plain_receive_refusal(uint64_t q, uint64_t n, uint64_t k, uint64_t numbering, uint64_t row_count,
                               const uint8_t *rows, size_t rows_length, size_t answer_length);

/* Whether the matrix is reduced; if so, the columns of its pivots from the top row. */
bool plain_pivots(unsigned n, unsigned k, const uint8_t *matrix, uint8_t *pivots);

/* Formula (12): the place of a diagram among those of size m; heights[0] is k, heights[j] is F_j. */
uint64_t plain_place(unsigned eta, unsigned m, const unsigned *heights);

/* Formulas (5) and (14), for a reduced matrix with these pivots. */
uint64_t plain_index(uint64_t q, unsigned n, unsigned k, uint64_t numbering, const uint8_t *matrix,
                     const uint8_t *pivots);

/*
 * Writes the eleven bytes of Receive's answer for d dimensions with this identifying vector, the index being that of k,
 * and answers the refusal.
 */
uint32_t plain_leave(uint64_t k, uint64_t d, uint64_t index, unsigned vector, uint8_t *answer);

#endif
