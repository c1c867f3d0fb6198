/*
 * Tests Reduce and Receive, by value and in its C form, against Gauss-Jordan elimination over the whole list: random
 * lists of every length of row, every small list, the round trip from Draw through random linear combinations, document
 * 01's figures, and damage.
 */
#include "cases.h"
#include "check.h"
#include "harness.h"

enum { SQUARE = MAX_LENGTH * MAX_LENGTH, LIST_ROUNDS = 60, TRIP_ROUNDS = 12, DRAWN_TRIPS = 3, ANSWER = 11 };

/* A list of rows over a field; it holds one row more than is accepted. */
typedef struct {
    uint64_t q, n, r;
    uint8_t rows[ROWS_LIMIT + MAX_LENGTH];
} list;

static size_t length_of(const list *one)
{
    return (size_t)(one->r * one->n);
}

/* ---- Lists ---- */

/* Random linear combinations of a few random rows. */
static void fill_low_rank(list *one, uint64_t base_count)
{
    uint8_t base[ROWS_LIMIT], factors[MAX_ROWS];
    random_entries(one->q, base, (size_t)(base_count * one->n));
    for (uint64_t row = 0; row < one->r; row++) {
        random_entries(one->q, factors, (size_t)base_count);
        mix_rows(one->q, one->n, base_count, base, factors, one->rows + row * one->n);
    }
}

/* Overwrites some rows by zero rows or by other rows of the list. */
static void disturb_rows(list *one)
{
    for (uint64_t row = 0; row < one->r; row++) {
        uint64_t other = random_below(one->r);
        uint8_t *entries = one->rows + row * one->n;
        if (random_below(4) == 0)
            memset(entries, 0, (size_t)one->n);
        else if (random_below(4) == 0)
            memmove(entries, one->rows + other * one->n, (size_t)one->n);
    }
}

/* A list of one of several kinds: any entries, mostly zeros, low rank, with zero rows and repeats. */
static void random_list(list *one, uint64_t q, uint64_t n, unsigned kind)
{
    one->q = q;
    one->n = n;
    one->r = random_below(4) == 0 ? random_below(65) : random_below(n + 3);
    random_entries(q, one->rows, length_of(one));
    if (kind % 4 == 1)
        for (size_t place = 0; place < length_of(one); place++)
            if (random_below(4) != 0)
                one->rows[place] = 0;
    if (kind % 4 == 2)
        fill_low_rank(one, random_below(n + 1));
    if (kind % 4 == 3)
        disturb_rows(one);
}

static void shuffle_rows(list *one)
{
    uint8_t kept[MAX_LENGTH];
    for (uint64_t row = one->r; row > 1; row--) {
        uint8_t *last = one->rows + (row - 1) * one->n, *other = one->rows + random_below(row) * one->n;
        memcpy(kept, last, (size_t)one->n);
        memmove(last, other, (size_t)one->n);
        memcpy(other, kept, (size_t)one->n);
    }
}

/* ---- Reduce ---- */

/* Reduces by the library: the refusal in the answer, the matrix in the buffer; nothing else may be written. */
static harness_answer reduce(const list *one, lent *out)
{
    list kept = *one;
    size_t out_length = (size_t)(one->n * one->n);
    memset(out, FILLING, sizeof *out);
    harness_answer answer = harness_reduce(one->q, one->n, one->r, one->rows, length_of(one), out->bytes, out_length);
    check(memcmp(one->rows, kept.rows, length_of(one)) == 0, "the rows were changed");
    check(outside_filled(out, out_length), "bytes outside of the buffer were written");
    return answer;
}

static void compare_reduce(const list *one)
{
    lent out;
    uint8_t expected[SQUARE];
    second_told told;
    size_t out_length = (size_t)(one->n * one->n);
    uint32_t refusal = second_reduce(one->q, one->n, one->r, one->rows, length_of(one), expected, out_length, &told);
    harness_answer answer = reduce(one, &out);
    check(refusal == ACCEPTED && answer.refusal == ACCEPTED, "refused %u", answer.refusal);
    check(answer.dimension == told.dimension && answer.vector == told.vector,
          "q = %" PRIu64 ", n = %" PRIu64 ", %" PRIu64 " rows: dimension %" PRIu64 ", vector %" PRIu64
          " instead of %" PRIu64 ", %" PRIu64, one->q, one->n, one->r, answer.dimension, answer.vector,
          told.dimension, told.vector);
    check(memcmp(out.bytes, expected, out_length) == 0,
          "q = %" PRIu64 ", n = %" PRIu64 ", %" PRIu64 " rows: other matrix", one->q, one->n, one->r);
}

static void reduce_group(uint64_t q)
{
    list one;
    check_group_begin("reduce, random lists, q = %" PRIu64, q);
    for (uint64_t n = 1; n <= MAX_LENGTH; n++)
        for (unsigned round = 0; round < LIST_ROUNDS; round++) {
            random_list(&one, q, n, round);
            compare_reduce(&one);
        }
    check_group_end();
}

/* The reduced rows meet document 01's definition, and each row of the list is a linear combination of them. */
static void compare_meaning(const list *one)
{
    lent out;
    uint64_t n = one->n;
    harness_answer answer = reduce(one, &out);
    uint64_t dimension = answer.dimension <= n ? answer.dimension : 0, index;
    uint32_t refusal = second_number(one->q, n, dimension, EXTENDED, out.bytes, (size_t)(dimension * n), &index);
    bool reduced = answer.dimension <= n && (refusal == ACCEPTED || refusal == REFUSED_COUNT) &&
                   entries_below(one->q, out.bytes, (size_t)(dimension * n));
    check(reduced, "the result isn't reduced");
    for (uint64_t row = 0; row < one->r && reduced; row++) {
        uint8_t factors[MAX_LENGTH] = {0}, mixture[MAX_LENGTH];
        uint32_t vector = second_identifying_vector(n, dimension, out.bytes);
        for (uint64_t column = 0, pivot = 0; column < n; column++)
            if (vector >> (n - 1 - column) & 1)
                factors[pivot++] = one->rows[row * n + column];
        mix_rows(one->q, n, dimension, out.bytes, factors, mixture);
        check(memcmp(mixture, one->rows + row * n, (size_t)n) == 0, "row %" PRIu64 " isn't in the span", row);
    }
}

/* Sequence, repeats, zero rows and further linear combinations leave the result as it is. */
static void compare_variants(list *one)
{
    lent first, second;
    harness_answer before = reduce(one, &first);
    if (one->r < MAX_ROWS) {
        uint8_t factors[MAX_ROWS];
        random_entries(one->q, factors, (size_t)one->r);
        mix_rows(one->q, one->n, one->r, one->rows, factors, one->rows + length_of(one));
        one->r++;
    }
    shuffle_rows(one);
    harness_answer after = reduce(one, &second);
    check(before.refusal == ACCEPTED && after.refusal == ACCEPTED && before.dimension == after.dimension &&
          before.vector == after.vector && memcmp(&first, &second, sizeof first) == 0,
          "other result after the rows were mixed");
}

static void meaning_group(uint64_t q)
{
    list one;
    check_group_begin("reduce, meaning and variants, q = %" PRIu64, q);
    for (uint64_t n = 1; n <= MAX_LENGTH; n++)
        for (unsigned round = 0; round < LIST_ROUNDS / 2; round++) {
            random_list(&one, q, n, round);
            compare_meaning(&one);
            compare_variants(&one);
        }
    check_group_end();
}

/* ---- Receive ---- */

/* Whether an answer tells of a span: it is done, or refused 8 or 9. */
static bool tells_span(uint32_t refusal)
{
    return refusal == ACCEPTED || refusal == REFUSED_TOO_FEW || refusal == REFUSED_TOO_MANY;
}

/* The eleven bytes as document 01 and order 2 have them, in a buffer that was filled before. */
static void expected_answer(uint32_t refusal, uint64_t index, second_told told, uint8_t *answer)
{
    memset(answer, FILLING, ANSWER);
    if (!tells_span(refusal))
        return;
    for (unsigned place = 0; place < 8; place++)
        answer[place] = refusal == ACCEPTED ? (uint8_t)(index >> 8 * place) : 0;
    answer[8] = (uint8_t)told.dimension;
    answer[9] = (uint8_t)told.vector;
    answer[10] = (uint8_t)(told.vector >> 8);
}

/* Whether the header's readers find in an answer what it must hold. */
static bool reads(const uint8_t *answer, uint32_t refusal, uint64_t index, second_told told)
{
    return !tells_span(refusal) || (pandrwyg_answer_index(answer) == (refusal == ACCEPTED ? index : 0) &&
                                    pandrwyg_answer_dimension(answer) == told.dimension &&
                                    pandrwyg_answer_vector(answer) == told.vector);
}

/* Whether Receive by value gives this refusal, index, dimension and vector; done, it tells no dimension. */
static bool receives_by_value(const setting *s, uint64_t numbering, uint64_t r, const uint8_t *rows, size_t length,
                              uint32_t refusal, uint64_t index, second_told told)
{
    harness_answer answer = harness_receive(s->q, s->n, s->k, numbering, r, rows, length);
    return answer.refusal == refusal && answer.value == (refusal == ACCEPTED ? index : 0) &&
           answer.dimension == (tells_span(refusal) && refusal != ACCEPTED ? told.dimension : 0) &&
           answer.vector == (tells_span(refusal) ? told.vector : 0);
}

/* Whether both forms of Receive give this refusal and these answers, and leave the rows and all other bytes alone. */
static bool receives(const setting *s, uint64_t numbering, const list *one,
                     uint32_t refusal, uint64_t index, second_told told)
{
    lent buffer;
    list kept = *one;
    uint8_t expected[ANSWER];
    memset(&buffer, FILLING, sizeof buffer);
    uint32_t given = pandrwyg_receive(s->q, s->n, s->k, numbering, one->r, one->rows, length_of(one),
                                      buffer.bytes, ANSWER);
    expected_answer(refusal, index, told, expected);
    return given == refusal && memcmp(buffer.bytes, expected, ANSWER) == 0 && outside_filled(&buffer, ANSWER) &&
           reads(buffer.bytes, refusal, index, told) &&
           receives_by_value(s, numbering, one->r, one->rows, length_of(one), refusal, index, told) &&
           memcmp(kept.rows, one->rows, length_of(one)) == 0;
}

static void compare_receive(const setting *s, uint64_t numbering, const list *one)
{
    uint64_t index;
    second_told told;
    uint32_t refusal = second_receive(s->q, s->n, s->k, numbering, one->r, one->rows, length_of(one), &index, &told);
    check(receives(s, numbering, one, refusal, index, told),
          SETTING_FORMAT " in %" PRIu64 ": %" PRIu64 " rows, not refusal %u, index %" PRIu64 ", dimension %" PRIu64
          ", vector %" PRIu64, SETTING_VALUES(s), numbering, one->r, refusal, index, told.dimension, told.vector);
}

static void receive_group(uint64_t q)
{
    list one;
    check_group_begin("receive, random lists, q = %" PRIu64, q);
    for (size_t number = 0; number < setting_count; number += thinning)
        for (unsigned round = 0; round < LIST_ROUNDS && settings[number].q == q; round++) {
            random_list(&one, q, settings[number].n, round);
            compare_receive(&settings[number], numberings[round / 4 % 2], &one);
        }
    check_group_end();
}

/* ---- Every small list ---- */

/* Reduce, and Receive for every k in both numberings. */
static void compare_list(const list *one)
{
    compare_reduce(one);
    for (uint64_t k = 0; k <= one->n; k++) {
        setting s = {one->q, one->n, k, 0};
        compare_receive(&s, EXTENDED, one);
        compare_receive(&s, FERRERS, one);
    }
}

static void compare_every_list(uint64_t q, uint64_t n, uint64_t r)
{
    list one = {q, n, r, {0}};
    do
        compare_list(&one);
    while (next_entries(q - 1, one.rows, length_of(&one)));
}

static void every_list_group(uint64_t q, uint64_t n, uint64_t most)
{
    check_group_begin("every list of up to %" PRIu64 " rows, q = %" PRIu64 ", n = %" PRIu64, most, q, n);
    for (uint64_t r = 0; r <= most; r++)
        compare_every_list(q, n, r);
    check_group_end();
}

static void every_list_groups(void)
{
    static const struct {
        uint64_t q, n, most;
    } lists[] = {{2, 3, 4}, {2, 4, 3}, {3, 3, 2}, {3, 2, 4}, {4, 3, 2}, {4, 2, 3}, {5, 2, 3}, {7, 2, 2}, {8, 2, 2}};
    for (size_t place = 0; place < COUNT_OF(lists); place++)
        every_list_group(lists[place].q, lists[place].n, lists[place].most);
}

/* ---- Round trip ---- */

/* Draws, mixes at random and receives: the index again with the drawn vector, or too few with the true dimension. */
static void round_trip(const setting *s, uint64_t numbering, uint64_t index, const uint8_t *matrix, uint64_t r)
{
    uint8_t drawn[SQUARE] = {0}, factors[ROWS_LIMIT];
    list one = {s->q, s->n, r, {0}};
    uint32_t refusal = pandrwyg_draw(s->q, s->n, s->k, numbering, index, drawn, width_of(s));
    check(refusal == ACCEPTED && memcmp(drawn, matrix, width_of(s)) == 0, SETTING_FORMAT ": draw", SETTING_VALUES(s));
    random_entries(s->q, factors, (size_t)(r * s->k));
    for (uint64_t row = 0; row < r; row++)
        mix_rows(s->q, s->n, s->k, matrix, factors + row * s->k, one.rows + row * s->n);
    uint64_t rank = factor_rank(s->q, s->k, r, factors);
    second_told told = {rank, second_identifying_vector(s->n, s->k, matrix)};
    if (rank < s->k)
        second_reduce(s->q, s->n, r, one.rows, length_of(&one), drawn, (size_t)(s->n * s->n), &told);
    uint32_t due = rank == s->k ? ACCEPTED : REFUSED_TOO_FEW;
    bool right = told.dimension == rank && receives(s, numbering, &one, due, index, told);
    check(right, SETTING_FORMAT " in %" PRIu64 ": index %" PRIu64 ", %" PRIu64 " rows of rank %" PRIu64,
          SETTING_VALUES(s), numbering, index, r, rank);
}

/* A few matrices are searched for by a random index, most are random and their index is counted. */
static void round_trips(const setting *s, uint64_t numbering, unsigned round)
{
    uint8_t matrix[SQUARE];
    uint64_t index = random_index(s->count);
    if (round < DRAWN_TRIPS) {
        second_draw(s->q, s->n, s->k, numbering, index, matrix, width_of(s));
    } else {
        random_reduced(s, matrix);
        second_number(s->q, s->n, s->k, numbering, matrix, width_of(s), &index);
    }
    round_trip(s, numbering, index, matrix, random_below(65));
    round_trip(s, numbering, index, matrix, s->k + random_below(4));
    if (round == 0)
        round_trip(s, numbering, index, matrix, MAX_ROWS);
}

static void round_trip_group(uint64_t q, uint64_t numbering)
{
    check_group_begin("round trip, q = %" PRIu64 ", numbering %" PRIu64, q, numbering);
    for (size_t number = 0; number < setting_count; number += thinning) {
        const setting *s = &settings[number];
        for (unsigned round = 0; round < TRIP_ROUNDS && s->q == q; round++)
            round_trips(s, numbering, round);
    }
    check_group_end();
}

/* ---- Figures ---- */

static void compare_figure(setting s, const char *rows, uint32_t refusal, uint64_t index, second_told told)
{
    list one = {s.q, s.n, 0, {0}};
    one.r = read_rows(rows, one.rows) / s.n;
    check(receives(&s, EXTENDED, &one, refusal, index, told), "%s in the extended numbering", rows);
    check(receives(&s, FERRERS, &one, refusal, index, told), "%s in the Ferrers numbering", rows);
}

static void compare_reduced(uint64_t q, uint64_t n, const char *rows, const char *reduced, second_told told)
{
    lent out;
    list one = {q, n, 0, {0}};
    uint8_t expected[SQUARE] = {0};
    one.r = read_rows(rows, one.rows) / n;
    read_rows(reduced, expected);
    harness_answer answer = reduce(&one, &out);
    check(answer.refusal == ACCEPTED && answer.dimension == told.dimension && answer.vector == told.vector &&
          memcmp(out.bytes, expected, (size_t)(n * n)) == 0, "%s isn't reduced to %s", rows, reduced);
}

static void figures_group(void)
{
    check_group_begin("figures of document 01");
    compare_reduced(3, 2, "21", "12", (second_told){1, 2});
    compare_figure((setting){3, 2, 1, 0}, "21", ACCEPTED, 2, (second_told){1, 2});
    compare_reduced(2, 3, "110/011/101", "101/011", (second_told){2, 6});
    compare_figure((setting){2, 3, 2, 0}, "110/011/101", ACCEPTED, 3, (second_told){2, 6});
    compare_figure((setting){2, 3, 2, 0}, "110", REFUSED_TOO_FEW, 0, (second_told){1, 4});
    compare_figure((setting){2, 3, 2, 0}, "100/010/001", REFUSED_TOO_MANY, 0, (second_told){3, 7});
    compare_figure((setting){2, 3, 0, 0}, "", ACCEPTED, 0, (second_told){0, 0});
    compare_figure((setting){2, 3, 0, 0}, "000/000", ACCEPTED, 0, (second_told){0, 0});
    compare_figure((setting){2, 3, 0, 0}, "010", REFUSED_TOO_MANY, 0, (second_told){1, 2});
    compare_figure((setting){2, 3, 1, 0}, "", REFUSED_TOO_FEW, 0, (second_told){0, 0});
    compare_figure((setting){2, 3, 1, 0}, "001/000/001", ACCEPTED, 6, (second_told){1, 1});
    check_group_end();
}

/*
 * The inverse of 2 is 3 in four and 5 in eight; 3 * 3 = 2 and 5 * 5 = 7. Twice 12 is 23, and twice 14 is 23. In eight
 * 123 and 130 differ by 013, and 2 * 3 = 6.
 */
static void polynomials_group(void)
{
    check_group_begin("rows of order 7's fields");
    compare_reduced(4, 2, "23", "12", (second_told){1, 2});
    compare_figure((setting){4, 2, 1, 0}, "23", ACCEPTED, 2, (second_told){1, 2});
    compare_figure((setting){4, 2, 1, 0}, "12/23", ACCEPTED, 2, (second_told){1, 2});
    compare_figure((setting){4, 2, 1, 0}, "12/20", REFUSED_TOO_MANY, 0, (second_told){2, 3});
    compare_reduced(8, 2, "25", "17", (second_told){1, 2});
    compare_figure((setting){8, 2, 1, 0}, "25", ACCEPTED, 7, (second_told){1, 2});
    compare_figure((setting){8, 2, 1, 0}, "14/23", ACCEPTED, 4, (second_told){1, 2});
    compare_figure((setting){8, 2, 1, 0}, "14/20", REFUSED_TOO_MANY, 0, (second_told){2, 3});
    compare_reduced(8, 3, "123/130", "105/013", (second_told){2, 6});
    check_group_end();
}

/* Order 2, over every accepted setting: no rows have the vector 0; a multiple of each unit row, all ones, 2^n - 1. */
static void ends_group(void)
{
    check_group_begin("vectors of no rows and of multiples of all unit rows");
    for (size_t number = 0; number < setting_count; number++) {
        const setting *s = &settings[number];
        list none = {s->q, s->n, 0, {0}}, all = {s->q, s->n, s->n, {0}};
        for (uint64_t row = 0; row < s->n; row++)
            all.rows[row * s->n + row] = (uint8_t)(s->q - 1);
        second_told told = {s->n, (UINT64_C(1) << s->n) - 1};
        check(receives(s, EXTENDED, &none, s->k == 0 ? ACCEPTED : REFUSED_TOO_FEW, 0, (second_told){0, 0}),
              SETTING_FORMAT ": no rows", SETTING_VALUES(s));
        check(receives(s, FERRERS, &all, s->k == s->n ? ACCEPTED : REFUSED_TOO_MANY, 0, told),
              SETTING_FORMAT ": multiples of all unit rows", SETTING_VALUES(s));
    }
    check_group_end();
}

/* A pivot is divided out by its inverse: every nonzero multiple of a row is reduced to the same row. */
static void inverses_group(void)
{
    check_group_begin("multiples of a row");
    for (unsigned place = 0; place < FIELD_COUNT; place++) {
        uint64_t q = second_field_sizes[place];
        for (uint8_t factor = 1; factor < q; factor++) {
            lent out;
            list one = {q, 3, 1, {0}};
            const uint8_t row[9] = {0, 1, (uint8_t)(q - 1)};
            add_multiple(q, 3, one.rows, row, factor);
            harness_answer answer = reduce(&one, &out);
            check(answer.dimension == 1 && memcmp(out.bytes, row, 9) == 0, "q = %" PRIu64 ", factor %u", q, factor);
        }
    }
    check_group_end();
}

/* ---- Damage to Reduce ---- */

/* Row counts, the accepted ones among them, and numbers that would be cut to these. */
static const uint64_t row_counts[] = {
    0, 1, 2, 63, 64, 65, 66, 255, 256, 257, 65536, UINT64_C(1) << 32, (UINT64_C(1) << 32) + 1, UINT64_C(1) << 60,
    UINT64_C(1) << 63, (UINT64_C(1) << 63) + 1, UINT64_MAX,
};
enum { ROW_COUNTS = COUNT_OF(row_counts) };

/* Reduce with any numbers: the same refusal as the second; refused, no byte of the output is written. */
static void compare_reduce_call(uint64_t q, uint64_t n, uint64_t r,
                                const uint8_t *rows, size_t length, size_t out_length)
{
    lent out;
    uint8_t expected[SQUARE];
    second_told told;
    memset(&out, FILLING, sizeof out);
    memset(expected, FILLING, sizeof expected);
    uint32_t refusal = second_reduce(q, n, r, rows, length, expected, out_length, &told);
    harness_answer answer = harness_reduce(q, n, r, rows, length, out.bytes, out_length);
    check(answer.refusal == refusal && answer.dimension == told.dimension && answer.vector == told.vector,
          "q = %" PRIu64 ", n = %" PRIu64 ", %" PRIu64 " rows, %zu and %zu bytes: refusal %u instead of %u",
          q, n, r, length, out_length, answer.refusal, refusal);
    check(memcmp(out.bytes, expected, sizeof expected) == 0 && is_filled(out.before, MARGIN) &&
          is_filled(out.after, MARGIN), "q = %" PRIu64 ", n = %" PRIu64 ", refusal %u: other bytes", q, n, refusal);
}

static void reduce_counts_group(void)
{
    static uint8_t rows[ROWS_LIMIT + 4 * MAX_LENGTH];
    check_group_begin("reduce, row counts");
    for (unsigned place = 0; place < ROW_COUNTS; place++)
        for (uint64_t n = 1; n <= MAX_LENGTH; n++) {
            uint64_t r = row_counts[place];
            size_t right = (size_t)(r <= 66 ? r * n : r % 64);
            compare_reduce_call(2, n, r, rows, right, (size_t)(n * n));
            compare_reduce_call(2, n, r, rows, (size_t)(r * n) % sizeof rows, (size_t)(n * n));
            compare_reduce_call(7, n, r, rows, right + 1, (size_t)(n * n));
            compare_reduce_call(7, n, r, rows, right > 0 ? right - 1 : 2, (size_t)(n * n));
            compare_reduce_call(5, n, r, rows, 0, (size_t)(n * n));
        }
    check_group_end();
}

static void reduce_lengths_group(void)
{
    list one;
    check_group_begin("reduce, output lengths");
    for (uint64_t n = 1; n <= MAX_LENGTH; n++) {
        random_list(&one, 3, n, 0);
        size_t right = (size_t)(n * n);
        compare_reduce_call(3, n, one.r, one.rows, length_of(&one), right);
        compare_reduce_call(3, n, one.r, one.rows, length_of(&one), right - 1);
        compare_reduce_call(3, n, one.r, one.rows, length_of(&one), right < SQUARE ? right + 1 : right - 2);
        compare_reduce_call(3, n, one.r, one.rows, length_of(&one), 0);
        compare_reduce_call(3, n, one.r, one.rows, length_of(&one), n == 16 ? 15 : (size_t)n * (n + 1));
        compare_reduce_call(3, n, one.r, one.rows, length_of(&one), n == 16 ? 16 : SQUARE);
    }
    check_group_end();
}

/* An oversized entry anywhere in an accepted list. */
static void reduce_entries_group(void)
{
    list one;
    check_group_begin("reduce, oversized entries");
    for (unsigned round = 0; round < 4000 / thinning; round++) {
        uint64_t q = second_field_sizes[round % FIELD_COUNT];
        random_list(&one, q, 1 + random_below(MAX_LENGTH), round / FIELD_COUNT);
        if (one.r == 0)
            continue;
        uint64_t oversized = round % 3 == 0 ? q : round % 3 == 1 ? 255 : q + random_below(256 - q);
        one.rows[random_below(length_of(&one))] = (uint8_t)oversized;
        compare_reduce_call(q, one.n, one.r, one.rows, length_of(&one), (size_t)(one.n * one.n));
        check(harness_reduce(q, one.n, one.r, one.rows, length_of(&one), (uint8_t[SQUARE]){0},
                             (size_t)(one.n * one.n)).refusal == REFUSED_ENTRY, "not refused 6");
    }
    check_group_end();
}

/* Several faults at once: the first in document 01's order is told. */
static void reduce_faults_group(void)
{
    static const uint64_t q[] = {2, 4, 6, 7, 8, 258}, n[] = {0, 1, 6, 16, 17, 257, UINT64_MAX};
    static const uint64_t r[] = {0, 3, 64, 65, UINT64_MAX};
    uint8_t rows[ROWS_LIMIT + 2 * MAX_LENGTH];
    check_group_begin("reduce, several faults at once");
    for (unsigned code = 0; code < 6 * 7 * 5 * 2 * 2 * 2; code++) {
        uint64_t length = n[code / 6 % 7], count = r[code / 42 % 5];
        size_t rows_length = (size_t)(length > 16 || count > 65 ? 18 : length * count) + code / 210 % 2;
        size_t out_length = (size_t)(length > 16 ? 36 : length * length);
        out_length = code / 420 % 2 == 0 ? out_length : out_length == SQUARE ? 255 : out_length + 1;
        memset(rows, code / 840 % 2 ? 255 : 1, sizeof rows);
        compare_reduce_call(q[code % 6], length, count, rows, rows_length, out_length);
    }
    check_group_end();
}

/* No byte is written, whatever else is right or wrong. */
static void reduce_wrong_size(uint64_t q, uint64_t n, uint64_t r)
{
    static const uint8_t rows[18 * 18] = {1};
    lent out;
    size_t square = n <= MAX_LENGTH ? (size_t)(n * n) : SQUARE;
    memset(&out, FILLING, sizeof out);
    harness_answer answer = harness_reduce(q, n, r, rows, (size_t)(r * n), out.bytes, square);
    check(answer.refusal == REFUSED_FIELD && answer.dimension == 0 && answer.vector == 0 && outside_filled(&out, 0),
          "q = %" PRIu64 ", n = %" PRIu64 ", %" PRIu64 " rows: refusal %u", q, n, r, answer.refusal);
}

/* ---- Damage to Receive ---- */

/* The second's refusal, with the answer's length tested after the input's and before the entries. */
static uint32_t expected_refusal(uint32_t refusal, size_t answer_length)
{
    bool later = refusal == ACCEPTED || refusal == REFUSED_ENTRY || refusal == REFUSED_TOO_FEW ||
                 refusal == REFUSED_TOO_MANY;
    return later && answer_length != ANSWER ? REFUSED_LENGTH : refusal;
}

/* Receive with any numbers, each byte of the answer included. */
static void compare_receive_call(const setting *s, uint64_t numbering, uint64_t r,
                                 const uint8_t *rows, size_t length, size_t answer_length)
{
    lent buffer;
    uint8_t expected[ANSWER];
    uint64_t index;
    second_told told;
    uint32_t refusal = second_receive(s->q, s->n, s->k, numbering, r, rows, length, &index, &told);
    check(receives_by_value(s, numbering, r, rows, length, refusal, index, told),
          SETTING_FORMAT " in %" PRIu64 ", %" PRIu64 " rows, %zu bytes: by value, not refusal %u",
          SETTING_VALUES(s), numbering, r, length, refusal);
    refusal = expected_refusal(refusal, answer_length);
    expected_answer(refusal, index, told, expected);
    memset(&buffer, FILLING, sizeof buffer);
    uint32_t given = pandrwyg_receive(s->q, s->n, s->k, numbering, r, rows, length, buffer.bytes, answer_length);
    check(given == refusal,
          SETTING_FORMAT " in %" PRIu64 ", %" PRIu64 " rows, %zu and %zu bytes: refusal %u instead of %u",
          SETTING_VALUES(s), numbering, r, length, answer_length, given, refusal);
    check(memcmp(buffer.bytes, expected, ANSWER) == 0 && outside_filled(&buffer, ANSWER),
          SETTING_FORMAT ", refusal %u: other answer", SETTING_VALUES(s), given);
}

static void receive_counts_group(void)
{
    static uint8_t rows[ROWS_LIMIT + 4 * MAX_LENGTH];
    check_group_begin("receive, row counts");
    for (unsigned place = 0; place < ROW_COUNTS; place++)
        for (size_t number = 0; number < setting_count; number += 3) {
            const setting *s = &settings[number];
            uint64_t r = row_counts[place], numbering = numberings[number % 2];
            size_t right = (size_t)(r <= 66 ? r * s->n : r % 64);
            compare_receive_call(s, numbering, r, rows, right, ANSWER);
            compare_receive_call(s, numbering, r, rows, (size_t)(r * s->n) % sizeof rows, ANSWER);
            compare_receive_call(s, numbering, r, rows, right + 1, ANSWER);
            compare_receive_call(s, numbering, r, rows, right > 0 ? right - 1 : 2, ANSWER);
        }
    check_group_end();
}

/* Document 01: 64 rows pass, 65 give 13. */
static void sixty_four_group(void)
{
    static const uint8_t rows[65 * 3] = {[63 * 3 + 1] = 1};
    setting s = {2, 3, 1, 0};
    uint8_t answer[ANSWER], out[9];
    check_group_begin("64 and 65 rows");
    check(pandrwyg_receive(2, 3, 1, EXTENDED, 64, rows, 64 * 3, answer, ANSWER) == ACCEPTED, "64 rows refused");
    check(answer[0] == 2 && answer[8] == 1 && answer[9] == 2, "the last of 64 rows isn't read");
    check(pandrwyg_receive(2, 3, 1, EXTENDED, 65, rows, 65 * 3, answer, ANSWER) == REFUSED_ROW_COUNT, "65 rows");
    check(harness_reduce(2, 3, 64, rows, 64 * 3, out, 9).refusal == ACCEPTED && out[1] == 1, "64 rows to reduce");
    check(harness_reduce(2, 3, 65, rows, 65 * 3, out, 9).refusal == REFUSED_ROW_COUNT, "65 rows to reduce");
    compare_receive_call(&s, EXTENDED, 64, rows, 64 * 3, ANSWER);
    compare_receive_call(&s, EXTENDED, 65, rows, 65 * 3, ANSWER);
    check_group_end();
}

/* Lists that would be accepted, or refused 6, 8 or 9, with answers of several lengths. */
static void receive_answers_group(void)
{
    static const size_t lengths[] = {0, 1, 8, 9, 10, 11, 12, 16, 18, 22, 255, 256};
    list one;
    check_group_begin("receive, answer lengths");
    for (unsigned round = 0; round < 4000 / thinning; round++) {
        const setting *s = &settings[random_below(setting_count)];
        random_list(&one, s->q, s->n, round);
        if (round % 4 == 0 && one.r > 0)
            one.rows[random_below(length_of(&one))] = (uint8_t)(round % 8 ? 255 : s->q);
        for (unsigned place = 0; place < COUNT_OF(lengths); place++)
            compare_receive_call(s, numberings[round / 2 % 2], one.r, one.rows, length_of(&one), lengths[place]);
    }
    check_group_end();
}

/* Oversized entries, also where the list has too few or too many rows. */
static void receive_entries_group(void)
{
    list one;
    check_group_begin("receive, oversized entries");
    for (unsigned round = 0; round < 8000 / thinning; round++) {
        const setting *s = &settings[random_below(setting_count)];
        random_list(&one, s->q, s->n, round);
        if (one.r == 0)
            continue;
        uint64_t oversized = round % 3 == 0 ? s->q : round % 3 == 1 ? 255 : s->q + random_below(256 - s->q);
        one.rows[random_below(length_of(&one))] = (uint8_t)oversized;
        check(receives(s, numberings[round % 2], &one, REFUSED_ENTRY, 0, (second_told){0, 0}),
              SETTING_FORMAT ": oversized entry %" PRIu64, SETTING_VALUES(s), oversized);
    }
    check_group_end();
}

static void receive_faults_group(void)
{
    static const uint64_t q[] = {2, 6, 8}, n[] = {0, 6, 16, 17}, k[] = {0, 3, 6, 8, 17};
    static const uint64_t numbering[] = {0, 1, 2, 3, 258}, r[] = {0, 4, 64, 65, UINT64_MAX};
    uint8_t rows[ROWS_LIMIT + 2 * MAX_LENGTH];
    check_group_begin("receive, several faults at once");
    for (unsigned code = 0; code < 3 * 4 * 5 * 5 * 5 * 2 * 2 * 2; code++) {
        setting s = {q[code % 3], n[code / 3 % 4], k[code / 12 % 5], 0};
        uint64_t count = r[code / 300 % 5];
        size_t length = (size_t)(s.n > 16 || count > 65 ? 18 : s.n * count) + code / 1500 % 2;
        memset(rows, code / 3000 % 2 ? 255 : 1, sizeof rows);
        compare_receive_call(&s, numbering[code / 60 % 5], count, rows, length, ANSWER + code / 6000 % 2);
    }
    check_group_end();
}

/* In both forms no byte is written, whatever else is right or wrong. */
static void receive_wrong_size(uint64_t q, uint64_t n, uint64_t k)
{
    setting s = {q, n, k, 0};
    list one = {q, n <= MAX_LENGTH ? n : MAX_LENGTH, k, {1}};
    for (uint64_t numbering = 0; numbering <= 3; numbering++)
        check(receives(&s, numbering, &one, REFUSED_FIELD, 0, (second_told){0, 0}),
              SETTING_FORMAT " in %" PRIu64 " isn't refused 1", q, n, k, numbering);
}

static void wrong_sizes_group(void)
{
    check_group_begin("wrong field sizes");
    for (size_t place = 0; place < COUNT_OF(wrong_sizes); place++) {
        every_shape(wrong_sizes[place], reduce_wrong_size);
        every_shape(wrong_sizes[place], receive_wrong_size);
    }
    check_group_end();
}

static void reduce_damage_groups(void)
{
    reduce_counts_group();
    reduce_lengths_group();
    reduce_entries_group();
    reduce_faults_group();
}

static void receive_damage_groups(void)
{
    receive_counts_group();
    sixty_four_group();
    receive_answers_group();
    receive_entries_group();
    receive_faults_group();
}

int main(int argument_count, char **arguments)
{
    cases_begin(argument_count, arguments);
    for (unsigned place = 0; place < FIELD_COUNT; place++) {
        uint64_t q = second_field_sizes[place];
        reduce_group(q);
        meaning_group(q);
        receive_group(q);
        round_trip_group(q, EXTENDED);
        round_trip_group(q, FERRERS);
    }
    every_list_groups();
    figures_group();
    polynomials_group();
    ends_group();
    inverses_group();
    reduce_damage_groups();
    receive_damage_groups();
    wrong_sizes_group();
    return check_summary("reduction");
}
