/*
 * Tests Draw, Number and Convert: every small setting whole, against the list of all reduced matrices sorted by
 * comparing two at a time; all accepted settings at random indexes and random matrices, against counting and searching;
 * the figures of documents 001 and 01; damaged matrices, lengths, numberings and indexes.
 *
 * Two examples of document 001 are left out: the tableaux of Example 6 are damaged in our text (all four are
 * printed as full boxes of ones or nearly so), and Example 8 is of the combined numbering, which we don't have.
 * Matrices of our own stand in for Example 6.
 */
#include "cases.h"
#include "check.h"
#include "harness.h"

enum { WHOLE_LIMIT = 5000, DRAWN_ROUNDS = 8, NUMBERED_ROUNDS = 40, DAMAGE_ROUNDS = 8000, ORDER_ROUNDS = 20000 };

/* Whether Draw gives exactly this matrix and writes nowhere else. */
static bool draws(const setting *s, uint64_t numbering, uint64_t index, const uint8_t *matrix)
{
    lent buffer;
    size_t width = width_of(s);
    memset(&buffer, FILLING, sizeof buffer);
    uint32_t refusal = pandrwyg_draw(s->q, s->n, s->k, numbering, index, buffer.bytes, width);
    return refusal == ACCEPTED && memcmp(buffer.bytes, matrix, width) == 0 && outside_filled(&buffer, width);
}

static bool numbers(const setting *s, uint64_t numbering, const uint8_t *matrix, uint64_t index)
{
    harness_answer answer = harness_number(s->q, s->n, s->k, numbering, matrix, width_of(s));
    return answer.refusal == ACCEPTED && answer.value == index;
}

static bool converts(const setting *s, uint64_t from, uint64_t to, uint64_t index, uint64_t converted)
{
    harness_answer answer = harness_convert(s->q, s->n, s->k, from, to, index);
    return answer.refusal == ACCEPTED && answer.value == converted;
}

/* ---- Whole settings ---- */

static void compare_listing(const setting *s, uint64_t numbering)
{
    uint8_t *matrices = sorted_listing(s, numbering);
    for (uint64_t index = 0; index < s->count; index++) {
        const uint8_t *matrix = matrices + index * width_of(s);
        check(draws(s, numbering, index, matrix),
              SETTING_FORMAT ": draw of %" PRIu64, SETTING_VALUES(s), index);
        check(numbers(s, numbering, matrix, index),
              SETTING_FORMAT ": number of matrix %" PRIu64, SETTING_VALUES(s), index);
    }
    free(matrices);
}

static void compare_conversions(const setting *s)
{
    uint8_t *extended = sorted_listing(s, EXTENDED);
    size_t *ferrers = malloc((size_t)s->count * sizeof *ferrers);
    second_indexes(s->q, s->n, s->k, FERRERS, extended, (size_t)s->count, ferrers);
    for (uint64_t index = 0; index < s->count; index++) {
        uint64_t other = ferrers[index];
        bool right = converts(s, EXTENDED, FERRERS, index, other) && converts(s, FERRERS, EXTENDED, other, index) &&
                     converts(s, EXTENDED, EXTENDED, index, index) && converts(s, FERRERS, FERRERS, index, index);
        check(right, SETTING_FORMAT ": conversion of %" PRIu64 " and %" PRIu64, SETTING_VALUES(s), index, other);
    }
    free(extended);
    free(ferrers);
}

static void whole_groups(uint64_t q)
{
    for (unsigned place = 0; place < 2; place++) {
        check_group_begin("whole settings, q = %" PRIu64 ", numbering %" PRIu64, q, numberings[place]);
        for (size_t number = 0; number < setting_count; number += thinning)
            if (settings[number].q == q && settings[number].count <= WHOLE_LIMIT)
                compare_listing(&settings[number], numberings[place]);
        check_group_end();
    }
    check_group_begin("whole settings, q = %" PRIu64 ", conversions", q);
    for (size_t number = 0; number < setting_count; number += thinning)
        if (settings[number].q == q && settings[number].count <= WHOLE_LIMIT)
            compare_conversions(&settings[number]);
    check_group_end();
}

/* ---- All settings at random ---- */

/* One matrix with its index, there and back, in both numberings. */
static void compare_pair(const setting *s, uint64_t numbering, uint64_t index, const uint8_t *matrix)
{
    uint64_t other = EXTENDED + FERRERS - numbering, converted;
    second_number(s->q, s->n, s->k, other, matrix, width_of(s), &converted);
    check(draws(s, numbering, index, matrix), SETTING_FORMAT ": draw of %" PRIu64, SETTING_VALUES(s), index);
    check(numbers(s, numbering, matrix, index), SETTING_FORMAT ": number of %" PRIu64, SETTING_VALUES(s), index);
    check(numbers(s, other, matrix, converted), SETTING_FORMAT ": other of %" PRIu64, SETTING_VALUES(s), index);
    check(converts(s, numbering, other, index, converted) && converts(s, other, numbering, converted, index),
          SETTING_FORMAT ": conversion of %" PRIu64, SETTING_VALUES(s), index);
}

/* One index: the matrix that the search finds, and the neighbour that comes after it in the order. */
static void compare_index(const setting *s, uint64_t numbering, uint64_t index)
{
    uint8_t matrix[MAX_LENGTH * MAX_LENGTH], next[MAX_LENGTH * MAX_LENGTH] = {0};
    second_draw(s->q, s->n, s->k, numbering, index, matrix, width_of(s));
    compare_pair(s, numbering, index, matrix);
    if (index + 1 == s->count)
        return;
    uint32_t refusal = pandrwyg_draw(s->q, s->n, s->k, numbering, index + 1, next, width_of(s));
    check(refusal == ACCEPTED && second_compare(s->q, s->n, s->k, numbering, matrix, next) < 0,
          SETTING_FORMAT ": order after %" PRIu64, SETTING_VALUES(s), index);
}

/* A random matrix, and the number of matrices before it. */
static void compare_matrix(const setting *s, uint64_t numbering)
{
    uint8_t matrix[MAX_LENGTH * MAX_LENGTH];
    uint64_t index;
    random_reduced(s, matrix);
    second_number(s->q, s->n, s->k, numbering, matrix, width_of(s), &index);
    compare_pair(s, numbering, index, matrix);
}

static void random_group(uint64_t q, uint64_t numbering)
{
    check_group_begin("all settings, q = %" PRIu64 ", numbering %" PRIu64, q, numbering);
    for (size_t number = 0; number < setting_count; number += thinning) {
        const setting *s = &settings[number];
        if (s->q != q)
            continue;
        compare_index(s, numbering, 0);
        compare_index(s, numbering, s->count - 1);
        for (unsigned round = 0; round < DRAWN_ROUNDS; round++)
            compare_index(s, numbering, random_index(s->count));
        for (unsigned round = 0; round < NUMBERED_ROUNDS; round++)
            compare_matrix(s, numbering);
    }
    check_group_end();
}

/* Two indexes far apart: the smaller gives the matrix that comes first. Nothing is counted here. */
static void order_group(uint64_t numbering)
{
    uint8_t first[MAX_LENGTH * MAX_LENGTH] = {0}, last[MAX_LENGTH * MAX_LENGTH] = {0};
    check_group_begin("order of distant indexes, numbering %" PRIu64, numbering);
    for (unsigned round = 0; round < ORDER_ROUNDS / thinning; round++) {
        const setting *s = &settings[random_below(setting_count)];
        uint64_t one = random_index(s->count), two = random_index(s->count);
        uint32_t refusals = pandrwyg_draw(s->q, s->n, s->k, numbering, one, first, width_of(s)) |
                            pandrwyg_draw(s->q, s->n, s->k, numbering, two, last, width_of(s));
        int order = second_compare(s->q, s->n, s->k, numbering, first, last);
        check(refusals == ACCEPTED && (order < 0) == (one < two) && (order > 0) == (one > two),
              SETTING_FORMAT ": %" PRIu64 " and %" PRIu64, SETTING_VALUES(s), one, two);
    }
    check_group_end();
}

/* ---- Figures ---- */

/* One matrix with both of its indexes, through all three calls. */
static void compare_figure(uint64_t q, uint64_t n, uint64_t k, const char *rows, uint64_t extended, uint64_t ferrers)
{
    setting s = {q, n, k, 0};
    uint8_t matrix[MAX_LENGTH * MAX_LENGTH];
    size_t length = read_rows(rows, matrix);
    check(length == width_of(&s), "%s has a wrong length", rows);
    check(draws(&s, EXTENDED, extended, matrix), "%s isn't drawn from extended %" PRIu64, rows, extended);
    check(draws(&s, FERRERS, ferrers, matrix), "%s isn't drawn from Ferrers %" PRIu64, rows, ferrers);
    check(numbers(&s, EXTENDED, matrix, extended), "%s isn't extended %" PRIu64, rows, extended);
    check(numbers(&s, FERRERS, matrix, ferrers), "%s isn't Ferrers %" PRIu64, rows, ferrers);
    check(converts(&s, EXTENDED, FERRERS, extended, ferrers) && converts(&s, FERRERS, EXTENDED, ferrers, extended),
          "%s isn't converted", rows);
}

/*
 * Example 1: the tableau 0110/101/011 has the columns 3, 3, 3 and 1. Read from the right it is 0111011100, 476. The
 * diagrams with 11 and 12 dots, one each, come before: 2048 + 4096 + 476. A changed entry moves the index by the
 * value of its place.
 */
static void example_1_group(void)
{
    static const uint8_t heights[] = {3, 3, 3, 1}, tableau[] = {0, 1, 1, 1, 0, 1, 1, 1, 0, 0};
    static const char *const rows = "1000110/0010101/0001011";
    static const uint8_t places[] = {6, 13, 20, 5, 12, 19, 4, 11, 18, 1};
    uint8_t matrix[21], found_heights[MAX_LENGTH], found_tableau[MAX_LENGTH * MAX_LENGTH];
    setting s = {2, 7, 3, 0};
    check_group_begin("document 001, Example 1");
    read_rows(rows, matrix);
    check(second_tableau(7, 3, matrix, found_heights, found_tableau) == sizeof tableau, "size");
    check(memcmp(found_heights, heights, sizeof heights) == 0, "diagram");
    check(memcmp(found_tableau, tableau, sizeof tableau) == 0, "tableau");
    for (unsigned place = 0; place < sizeof places; place++) {
        matrix[places[place]] ^= 1;
        check(numbers(&s, FERRERS, matrix, 6144 + (476 ^ (512u >> place))), "entry %u of the tableau", place + 1);
        matrix[places[place]] ^= 1;
    }
    check_group_end();
}

/*
 * Example 2: the identifying vector 1011000. By formula (5) the columns from the right add 3 * 1395, 5 * 155, 6 * 15,
 * 8 * 1, 4 * 1, 0 and 0.
 */
static void example_2_group(void)
{
    uint8_t matrix[21] = {0};
    check_group_begin("document 001, Example 2");
    check(pandrwyg_draw(2, 7, 3, EXTENDED, 5062, matrix, sizeof matrix) == ACCEPTED, "refused");
    check(second_identifying_vector(7, 3, matrix) == 0x58, "identifying vector");
    check(3 * 1395 + 5 * 155 + 6 * 15 + 8 + 4 == 5062, "sum");
    check_group_end();
}

/* The first matrix has a smaller index than the second. */
static void compare_order(uint64_t q, uint64_t n, uint64_t k, uint64_t numbering, const char *first, const char *second)
{
    uint8_t first_matrix[MAX_LENGTH * MAX_LENGTH], second_matrix[MAX_LENGTH * MAX_LENGTH];
    size_t first_length = read_rows(first, first_matrix), second_length = read_rows(second, second_matrix);
    harness_answer one = harness_number(q, n, k, numbering, first_matrix, first_length);
    harness_answer two = harness_number(q, n, k, numbering, second_matrix, second_length);
    check(one.refusal == ACCEPTED && two.refusal == ACCEPTED && one.value < two.value, "%s isn't before %s", first,
          second);
}

static void orders_group(void)
{
    check_group_begin("figures of the orders");
    compare_orders(compare_order);
    check_group_end();
}

/* Examples 4 and 7: 5 * 155 + 8 * 15 + 4 * 7 + 1 * 3 + 2 * 1 = 928; 1312 + 0 + 11 = 1323. */
static void examples_4_7_group(void)
{
    check_group_begin("document 001, sums of Examples 4 and 7");
    check(5 * 155 + 8 * 15 + 4 * 7 + 1 * 3 + 2 * 1 == 928, "sum of Example 4");
    check(3 * 32 + 3 * 64 + 2 * 128 + 256 + 512 == 1312, "sum of Example 7");
    check_group_end();
}

/* The tableau is read right column first, top entry first. In a full box {x} is the index. */
static void ferrers_tableau_group(void)
{
    static const struct {
        const char *rows;
        uint64_t index;
    } boxes[] = {
        {"1000/0100", 0}, {"1000/0110", 1}, {"1010/0100", 3}, {"1020/0120", 8}, {"1000/0101", 9},
        {"1000/0102", 18}, {"1001/0100", 27}, {"1002/0100", 54}, {"1022/0122", 80},
    };
    uint8_t matrix[8];
    setting s = {3, 4, 2, 0};
    check_group_begin("Ferrers order, tableaux");
    for (size_t place = 0; place < COUNT_OF(boxes); place++) {
        read_rows(boxes[place].rows, matrix);
        check(numbers(&s, FERRERS, matrix, boxes[place].index), "number of %s", boxes[place].rows);
        check(draws(&s, FERRERS, boxes[place].index, matrix), "draw of %s", boxes[place].rows);
    }
    check_group_end();
}

/* The examples of Draw, Number and Convert; those of Receive stand with the reduction. */
static void figures_group(void)
{
    check_group_begin("matrices with their indexes");
    compare_figures(compare_figure);
    check_group_end();
}

/* ---- Damage ---- */

static uint32_t number_refusal(uint64_t q, uint64_t n, uint64_t k, const uint8_t *matrix, size_t length)
{
    harness_answer extended = harness_number(q, n, k, EXTENDED, matrix, length);
    harness_answer ferrers = harness_number(q, n, k, FERRERS, matrix, length);
    check(extended.refusal == ferrers.refusal, "the numberings refuse differently");
    check(extended.refusal == ACCEPTED || (extended.value == 0 && ferrers.value == 0), "a refusal with an index");
    return extended.refusal;
}

static const struct {
    uint64_t q, n, k;
    const char *rows;
    uint32_t refusal;
} damages[] = {
    {2, 6, 3, "000100/011001/000011", REFUSED_UNREDUCED}, /* rows swapped */
    {2, 6, 3, "011001/000011/000100", REFUSED_UNREDUCED},
    {2, 6, 3, "000000/000100/000011", REFUSED_UNREDUCED}, /* zero rows */
    {2, 6, 3, "011001/000000/000011", REFUSED_UNREDUCED},
    {2, 6, 3, "011001/000100/000000", REFUSED_UNREDUCED},
    {2, 6, 3, "000000/000000/000000", REFUSED_UNREDUCED},
    {2, 6, 3, "011001/000100/000100", REFUSED_UNREDUCED}, /* a row twice */
    {2, 6, 3, "011101/000100/000011", REFUSED_UNREDUCED}, /* nonzero above a pivot */
    {2, 6, 3, "011011/000100/000011", REFUSED_UNREDUCED},
    {2, 6, 3, "011001/000110/000011", REFUSED_UNREDUCED},
    {2, 6, 3, "011001/010100/000011", REFUSED_UNREDUCED}, /* nonzero below a pivot */
    {2, 6, 3, "011001/000100/010011", REFUSED_UNREDUCED},
    {2, 6, 3, "011001/000100/000111", REFUSED_UNREDUCED},
    {3, 4, 2, "2001/0101", REFUSED_UNREDUCED}, /* a pivot that isn't 1 */
    {3, 4, 2, "1001/0201", REFUSED_UNREDUCED},
    {7, 2, 1, "06", REFUSED_UNREDUCED},
    {4, 3, 2, "230/001", REFUSED_UNREDUCED},
    {8, 3, 2, "107/055", REFUSED_UNREDUCED},
    {2, 6, 3, "211001/000100/000011", REFUSED_ENTRY}, /* oversized entries in good and bad places */
    {2, 6, 3, "011001/000100/000012", REFUSED_ENTRY},
    {2, 6, 3, "011002/000100/000011", REFUSED_ENTRY},
    {7, 2, 1, "17", REFUSED_ENTRY},
    {4, 3, 2, "140/001", REFUSED_ENTRY},
    {8, 3, 2, "108/015", REFUSED_ENTRY},
    {2, 2, 2, "11/01", REFUSED_UNREDUCED}, /* document 01 */
    {2, 2, 2, "11/02", REFUSED_ENTRY},
    {2, 6, 3, "000000/000000/000002", REFUSED_ENTRY}, /* oversized after the form is broken */
    {2, 6, 3, "000100/011001/000021", REFUSED_ENTRY},
    {3, 4, 2, "2001/0103", REFUSED_ENTRY},
    {5, 3, 3, "444/444/445", REFUSED_ENTRY},
    {8, 3, 3, "777/777/778", REFUSED_ENTRY},
    {4, 3, 2, "130/001", ACCEPTED}, /* undamaged, for comparison */
    {8, 3, 2, "107/015", ACCEPTED},
};

static void damage_figures_group(void)
{
    check_group_begin("damaged matrices");
    for (size_t place = 0; place < COUNT_OF(damages); place++) {
        uint8_t matrix[MAX_LENGTH * MAX_LENGTH];
        size_t length = read_rows(damages[place].rows, matrix);
        uint32_t refusal = number_refusal(damages[place].q, damages[place].n, damages[place].k, matrix, length);
        check(refusal == damages[place].refusal, "%s is refused %u", damages[place].rows, refusal);
    }
    check_group_end();
}

/* Every matrix of a small shape with entries up to q. */
static void compare_all_matrices(uint64_t q, uint64_t n, uint64_t k)
{
    uint8_t matrix[9] = {0};
    size_t length = (size_t)(k * n);
    do {
        for (unsigned number = 0; number < 2; number++) {
            uint64_t index;
            uint32_t refusal = second_number(q, n, k, numberings[number], matrix, length, &index);
            harness_answer answer = harness_number(q, n, k, numberings[number], matrix, length);
            check(answer.refusal == refusal && answer.value == index,
                  "%" PRIu64 ",%" PRIu64 ",%" PRIu64 ": refusal %u, index %" PRIu64 " instead of %u, %" PRIu64,
                  q, n, k, answer.refusal, answer.value, refusal, index);
        }
    } while (next_entries(q, matrix, length));
}

static void all_matrices_group(void)
{
    static const setting shapes[] = {
        {2, 1, 1, 0}, {2, 4, 1, 0}, {2, 3, 2, 0}, {2, 4, 2, 0}, {2, 3, 3, 0}, {3, 3, 2, 0}, {3, 2, 2, 0}, {4, 2, 2, 0},
        {4, 4, 1, 0}, {4, 3, 2, 0}, {5, 2, 2, 0}, {5, 4, 1, 0}, {7, 2, 2, 0}, {7, 3, 1, 0}, {8, 2, 2, 0}, {8, 3, 1, 0},
    };
    check_group_begin("every matrix of small shapes, entries up to q");
    for (size_t place = 0; place < COUNT_OF(shapes); place++)
        compare_all_matrices(shapes[place].q, shapes[place].n, shapes[place].k);
    check_group_end();
}

/* One kind of damage to a matrix; answers the refusal that it must bring, or ACCEPTED if that depends. */
static uint32_t damage(const setting *s, unsigned kind, uint8_t *matrix)
{
    uint64_t row = random_below(s->k), other = random_below(s->k), place = random_below(s->k * s->n);
    switch (kind) {
    case 0:
        matrix[place] = (uint8_t)random_below(s->q);
        return ACCEPTED;
    case 1:
        matrix[place] = (uint8_t)(s->q + random_below(256 - s->q));
        return REFUSED_ENTRY;
    case 2:
        memset(matrix + row * s->n, 0, (size_t)s->n);
        return REFUSED_UNREDUCED;
    case 3:
        memset(matrix + row * s->n, 0, (size_t)s->n);
        matrix[place] = 255;
        return REFUSED_ENTRY;
    default:
        for (uint64_t column = 0; column < s->n; column++) {
            uint8_t kept = matrix[row * s->n + column];
            matrix[row * s->n + column] = matrix[other * s->n + column];
            matrix[other * s->n + column] = kept;
        }
        return row == other ? ACCEPTED : REFUSED_UNREDUCED;
    }
}

static void random_damage_group(unsigned kind)
{
    check_group_begin("random damage, kind %u", kind);
    for (unsigned round = 0; round < DAMAGE_ROUNDS / thinning; round++) {
        const setting *s = &settings[random_below(setting_count)];
        uint8_t matrix[MAX_LENGTH * MAX_LENGTH];
        uint64_t numbering = numberings[round % 2], index;
        if (s->k == 0)
            continue;
        random_reduced(s, matrix);
        uint32_t must = damage(s, kind, matrix);
        uint32_t refusal = second_number(s->q, s->n, s->k, numbering, matrix, width_of(s), &index);
        harness_answer answer = harness_number(s->q, s->n, s->k, numbering, matrix, width_of(s));
        check(answer.refusal == refusal && answer.value == index && (must == ACCEPTED || answer.refusal == must),
              SETTING_FORMAT ": refusal %u, index %" PRIu64 " instead of %u, %" PRIu64,
              SETTING_VALUES(s), answer.refusal, answer.value, refusal, index);
    }
    check_group_end();
}

/* A refused draw leaves every byte as it was. */
static uint32_t refused_draw(uint64_t q, uint64_t n, uint64_t k, uint64_t numbering, uint64_t index, size_t length)
{
    lent buffer;
    memset(&buffer, FILLING, sizeof buffer);
    uint32_t refusal = pandrwyg_draw(q, n, k, numbering, index, buffer.bytes, length);
    check(refusal == ACCEPTED || outside_filled(&buffer, 0), "a refused draw writes");
    return refusal;
}

static void compare_length(const setting *s, size_t length)
{
    uint8_t matrix[MAX_LENGTH * MAX_LENGTH + 2] = {0};
    random_reduced(s, matrix);
    uint32_t expected = length == width_of(s) ? ACCEPTED : REFUSED_LENGTH;
    check(refused_draw(s->q, s->n, s->k, EXTENDED, s->count - 1, length) == expected,
          SETTING_FORMAT ": draw into %zu bytes", SETTING_VALUES(s), length);
    check(refused_draw(s->q, s->n, s->k, FERRERS, s->count - 1, length) == expected,
          SETTING_FORMAT ": draw into %zu bytes", SETTING_VALUES(s), length);
    check(number_refusal(s->q, s->n, s->k, matrix, length) == expected,
          SETTING_FORMAT ": number of %zu bytes", SETTING_VALUES(s), length);
}

static void lengths_group(void)
{
    check_group_begin("lengths");
    for (size_t number = 0; number < setting_count; number += thinning) {
        const setting *s = &settings[number];
        const size_t width = width_of(s), limit = MAX_LENGTH * MAX_LENGTH;
        compare_length(s, width);
        compare_length(s, width > 0 ? width - 1 : 1);
        compare_length(s, width < limit ? width + 1 : 0);
        compare_length(s, 0);
        compare_length(s, (size_t)s->k);
        compare_length(s, (size_t)s->n);
        compare_length(s, (size_t)(s->n * s->n));
        compare_length(s, limit);
    }
    check_group_end();
}

/* Numberings, the accepted ones among them, and numbers that would be cut to these. */
static const uint64_t numbering_values[] = {
    0, 1, 2, 3, 255, 256, 257, 258, 65537, (UINT64_C(1) << 32) + 1, (UINT64_C(1) << 32) + 2, UINT64_MAX,
};
enum { NUMBERING_COUNT = COUNT_OF(numbering_values) };

static uint32_t numbering_refusal(uint64_t numbering)
{
    return numbering == EXTENDED || numbering == FERRERS ? ACCEPTED : REFUSED_NUMBERING;
}

static void compare_numberings(uint64_t first, uint64_t second)
{
    uint8_t matrix[18];
    read_rows("011001/000100/000011", matrix);
    uint32_t refusal = numbering_refusal(first);
    check(refused_draw(2, 6, 3, first, 928, 18) == refusal, "draw in %" PRIu64, first);
    check(harness_number(2, 6, 3, first, matrix, 18).refusal == refusal, "number in %" PRIu64, first);
    if (refusal == ACCEPTED)
        refusal = numbering_refusal(second);
    harness_answer answer = harness_convert(2, 6, 3, first, second, 928);
    check(answer.refusal == refusal && (refusal == ACCEPTED || answer.value == 0),
          "convert from %" PRIu64 " to %" PRIu64, first, second);
}

static void numberings_group(void)
{
    check_group_begin("numberings");
    for (size_t first = 0; first < NUMBERING_COUNT; first++)
        for (size_t second = 0; second < NUMBERING_COUNT; second++)
            compare_numberings(numbering_values[first], numbering_values[second]);
    check_group_end();
}

static void compare_edge(const setting *s, uint64_t index)
{
    uint32_t expected = index < s->count ? ACCEPTED : REFUSED_INDEX;
    for (unsigned place = 0; place < 2; place++) {
        uint64_t numbering = numberings[place], other = EXTENDED + FERRERS - numbering;
        check(refused_draw(s->q, s->n, s->k, numbering, index, width_of(s)) == expected,
              SETTING_FORMAT ": draw of %" PRIu64, SETTING_VALUES(s), index);
        harness_answer answer = harness_convert(s->q, s->n, s->k, numbering, other, index);
        check(answer.refusal == expected && (expected == ACCEPTED || answer.value == 0),
              SETTING_FORMAT ": conversion of %" PRIu64, SETTING_VALUES(s), index);
        answer = harness_convert(s->q, s->n, s->k, numbering, numbering, index);
        check(answer.refusal == expected && answer.value == (expected == ACCEPTED ? index : 0),
              SETTING_FORMAT ": conversion of %" PRIu64 " to the same", SETTING_VALUES(s), index);
    }
}

static void edges_group(void)
{
    check_group_begin("first and last indexes, and those from N on");
    for (size_t number = 0; number < setting_count; number += thinning) {
        const setting *s = &settings[number];
        compare_edge(s, 0);
        compare_edge(s, s->count - 1);
        compare_edge(s, s->count);
        compare_edge(s, s->count + 1);
        compare_edge(s, UINT64_C(1) << 32);
        compare_edge(s, (UINT64_C(1) << 32) + s->count - 1);
        compare_edge(s, UINT64_C(1) << 63);
        compare_edge(s, UINT64_MAX);
    }
    check_group_end();
}

/* Several faults at once: the first in document 01's order is told. */
static void compare_faults(uint64_t q, uint64_t n, uint64_t k, uint64_t numbering,
                           unsigned length_fault, uint64_t index)
{
    uint8_t matrix[MAX_LENGTH * MAX_LENGTH], drawn[MAX_LENGTH * MAX_LENGTH];
    uint64_t other, count, number;
    size_t width = k <= MAX_LENGTH && n <= MAX_LENGTH ? (size_t)(k * n) : 18;
    size_t length = length_fault == 0 ? width : width + (width < MAX_LENGTH * MAX_LENGTH ? 1 : -1);
    second_count(q, n, k, &count);
    index = index == 1 ? count : index;
    check(refused_draw(q, n, k, numbering, index, length) == second_draw(q, n, k, numbering, index, drawn, length),
          "draw %" PRIu64 ",%" PRIu64 ",%" PRIu64 " in %" PRIu64 " of %" PRIu64, q, n, k, numbering, index);
    other = second_convert(q, n, k, numbering, EXTENDED, index, &number);
    check(harness_convert(q, n, k, numbering, EXTENDED, index).refusal == other, "convert from %" PRIu64, numbering);
    other = second_convert(q, n, k, EXTENDED, numbering, index, &number);
    check(harness_convert(q, n, k, EXTENDED, numbering, index).refusal == other, "convert to %" PRIu64, numbering);
    memset(matrix, index == 0 ? 1 : 255, sizeof matrix);
    other = second_number(q, n, k, numbering, matrix, length, &number);
    check(harness_number(q, n, k, numbering, matrix, length).refusal == other,
          "number %" PRIu64 ",%" PRIu64 ",%" PRIu64 " in %" PRIu64, q, n, k, numbering);
}

static void faults_group(void)
{
    static const uint64_t q[] = {0, 2, 6, 8, 258}, n[] = {0, 6, 16, 17, 262}, k[] = {0, 3, 8, 16, 17, 259};
    static const uint64_t numbering[] = {0, 1, 2, 3, 257}, index[] = {0, 1, UINT64_MAX};
    check_group_begin("several faults at once");
    for (unsigned code = 0; code < 5 * 5 * 6 * 5 * 2 * 3; code++)
        compare_faults(q[code % 5], n[code / 5 % 5], k[code / 25 % 6], numbering[code / 150 % 5],
                       code / 750 % 2, index[code / 1500]);
    check_group_end();
}

/* Draw and Number, whatever else is right or wrong; tests/convert.c has Convert. */
static void compare_wrong_size(uint64_t q, uint64_t n, uint64_t k)
{
    static const uint8_t matrix[MAX_LENGTH * MAX_LENGTH] = {1};
    size_t length = k * n < sizeof matrix ? (size_t)(k * n) : sizeof matrix;
    for (uint64_t numbering = 0; numbering <= 3; numbering++) {
        harness_answer answer = harness_number(q, n, k, numbering, matrix, length);
        check(answer.refusal == REFUSED_FIELD && answer.value == 0,
              "number " SETTING_FORMAT " in %" PRIu64 ": refusal %u", q, n, k, numbering, answer.refusal);
        check(refused_draw(q, n, k, numbering, 0, length) == REFUSED_FIELD,
              "draw " SETTING_FORMAT " in %" PRIu64, q, n, k, numbering);
    }
}

static void wrong_sizes_group(void)
{
    check_group_begin("wrong field sizes");
    for (size_t place = 0; place < COUNT_OF(wrong_sizes); place++)
        every_shape(wrong_sizes[place], compare_wrong_size);
    check_group_end();
}

/* Draw's result doesn't depend on what was in the buffer. */
static void fillings_group(void)
{
    static const uint8_t fillings[] = {0, 1, 2, 6, 127, 128, 255};
    check_group_begin("draws into buffers of any filling");
    for (unsigned round = 0; round < DAMAGE_ROUNDS / thinning; round++) {
        const setting *s = &settings[random_below(setting_count)];
        uint8_t expected[MAX_LENGTH * MAX_LENGTH], drawn[MAX_LENGTH * MAX_LENGTH];
        uint64_t numbering = numberings[round % 2], index;
        random_reduced(s, expected);
        second_number(s->q, s->n, s->k, numbering, expected, width_of(s), &index);
        memset(drawn, fillings[round % 7], sizeof drawn);
        if (round % 3 == 0)
            random_entries(256, drawn, sizeof drawn);
        uint32_t refusal = pandrwyg_draw(s->q, s->n, s->k, numbering, index, drawn, width_of(s));
        check(refusal == ACCEPTED && memcmp(drawn, expected, width_of(s)) == 0,
              SETTING_FORMAT ": draw of %" PRIu64, SETTING_VALUES(s), index);
    }
    check_group_end();
}

static void figure_groups(void)
{
    example_1_group();
    example_2_group();
    examples_4_7_group();
    orders_group();
    ferrers_tableau_group();
    figures_group();
}

static void damage_groups(void)
{
    damage_figures_group();
    all_matrices_group();
    for (unsigned kind = 0; kind < 5; kind++)
        random_damage_group(kind);
    lengths_group();
    numberings_group();
    edges_group();
    faults_group();
    wrong_sizes_group();
    fillings_group();
}

int main(int argument_count, char **arguments)
{
    cases_begin(argument_count, arguments);
    for (unsigned place = 0; place < FIELD_COUNT; place++)
        whole_groups(second_field_sizes[place]);
    for (unsigned place = 0; place < FIELD_COUNT; place++) {
        random_group(second_field_sizes[place], EXTENDED);
        random_group(second_field_sizes[place], FERRERS);
    }
    order_group(EXTENDED);
    order_group(FERRERS);
    figure_groups();
    damage_groups();
    return check_summary("numbering");
}
