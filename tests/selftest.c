/*
 * Tests the second implementation against itself: counting and searching against the sorted lists of all reduced
 * matrices, formula (1) against the diagrams, the elimination, the common spaces and the distances against spans
 * written out in full, the receiver against the counts, the fields against their laws, and all against the figures of
 * document 001 and the words of orders 7, 8 and 10.
 */
#include "cases.h"
#include "check.h"
#include "second_parts.h"

enum { WHOLE_LIMIT = 1000, SPAN_LIMIT = 2500, RANDOM_ROUNDS = 3 };

/* ---- Tables ---- */

/* The field laws, on all entries. */
static void field_group(uint64_t q)
{
    check_group_begin("field of %" PRIu64, q);
    for (unsigned code = 0; code < q * q * q; code++) {
        uint8_t a = (uint8_t)(code % q), b = (uint8_t)(code / q % q), c = (uint8_t)(code / q / q);
        const second_field *field = &second_fields[q];
        check(field->sum[a][b] == field->sum[b][a] && field->product[a][b] == field->product[b][a], "commutative");
        check(field->sum[field->sum[a][b]][c] == field->sum[a][field->sum[b][c]], "sums");
        check(field->product[field->product[a][b]][c] == field->product[a][field->product[b][c]], "products");
        check(field->product[a][field->sum[b][c]] == field->sum[field->product[a][b]][field->product[a][c]], "both");
        check(field->sum[a][0] == a && field->product[a][1] == a, "zero and one");
        check(field->sum[field->difference[a][b]][b] == a, "differences");
        check(a == 0 || field->product[a][field->inverse[a]] == 1, "inverses");
    }
    check_group_end();
}

/* Order 7: the sums of four and eight are bit by bit. The others' are modulo q. */
static void sums_group(uint64_t q)
{
    bool bits = q == 4 || q == 8;
    check_group_begin("sums of %" PRIu64, q);
    for (unsigned code = 0; code < q * q; code++) {
        unsigned a = (unsigned)(code % q), b = (unsigned)(code / q);
        check(second_field_add(q, (uint8_t)a, (uint8_t)b) == (bits ? a ^ b : (a + b) % q), "%u + %u", a, b);
    }
    check_group_end();
}

/*
 * Products by hand. With t * t = t + 1 in four, t * t = t^2 and t * t^2 = t + 1 in eight, the field laws settle all
 * products there; modulo q, or divided by t^3 + t^2 + 1, these are others.
 */
static void products_group(void)
{
    static const struct {
        uint64_t q;
        uint8_t left, right, product;
    } figures[] = {
        {2, 1, 1, 1}, {3, 2, 2, 1}, {5, 3, 4, 2}, {7, 3, 5, 1}, {7, 6, 4, 3},
        {4, 2, 2, 3}, {4, 2, 3, 1}, {4, 3, 3, 2}, /* t * (t + 1) = t^2 + t = 1; (t + 1)^2 = t^2 + 1 = t */
        {8, 2, 2, 4}, {8, 2, 4, 3}, {8, 4, 4, 6}, /* t^2 * t^2 = t * (t + 1) */
        {8, 2, 5, 1}, {8, 5, 7, 6},               /* t * (t^2 + 1) = t^3 + t = 1; t^4 + t^3 + t + 1 = t^2 + t */
    };
    check_group_begin("products by hand");
    for (size_t place = 0; place < COUNT_OF(figures); place++)
        check(second_field_multiply(figures[place].q, figures[place].left, figures[place].right) ==
              figures[place].product, "figure %zu", place);
    check_group_end();
}

/* How many spaces there are by Theorem 2: for each set of k pivot columns, the fillings of its diagram's dots. */
static wide count_fillings(uint64_t q, unsigned n, unsigned k)
{
    const wide limit = (wide)1 << 100;
    wide count = 0;
    for (uint32_t v = second_first_vector(k); second_is_vector(n, v); v = second_next_vector(n, v)) {
        uint8_t heights[MAX_LENGTH];
        wide fillings = 1;
        for (unsigned dots = second_diagram(n, k, v, heights); dots > 0 && fillings < limit; dots--)
            fillings *= q;
        count += fillings;
    }
    return count;
}

/* Formula (1) against Theorem 2. */
static void counts_group(unsigned field)
{
    check_group_begin("counts, q = %" PRIu64, second_field_sizes[field]);
    for (unsigned place = field * 289; place < (field + 1) * 289; place++) {
        unsigned n = place / 17 % 17, k = place % 17;
        wide count = k <= n ? count_fillings(second_field_sizes[field], n, k) : 0;
        uint64_t entry = count > UINT64_MAX ? 0 : (uint64_t)count;
        check(second_table_entry(place) == entry, "n = %u, k = %u", n, k);
    }
    check_group_end();
}

/* The steps through the sets of pivot columns against all numbers below 2^n. */
static void vectors_group(void)
{
    check_group_begin("sets of pivot columns");
    for (unsigned n = 1; n <= MAX_LENGTH; n++)
        for (unsigned k = 0; k <= n; k++) {
            uint32_t due = second_first_vector(k);
            for (uint32_t vector = 0; vector < UINT32_C(1) << n; vector++) {
                unsigned ones = 0;
                for (unsigned j = 0; j < n; j++)
                    ones += vector >> j & 1;
                if (ones != k)
                    continue;
                check(vector == due, "n = %u, k = %u: %" PRIu32 " instead of %" PRIu32, n, k, due, vector);
                due = second_next_vector(n, due);
            }
            check(!second_is_vector(n, due), "n = %u, k = %u: no end", n, k);
        }
    check_group_end();
}

static void count_figures_group(void)
{
    static const uint64_t sequence[FIELD_COUNT] = {2, 3, 4, 5, 7, 8};
    uint64_t count;
    check_group_begin("count figures");
    for (unsigned place = 0; place < FIELD_COUNT; place++)
        check(second_table_entry(place * 289 + 2 * 17 + 1) == sequence[place] + 1, "n = 2, k = 1 of %" PRIu64,
              sequence[place]);
    check(setting_count == ACCEPTED_SETTINGS, "%zu settings are accepted", setting_count);
    check(second_count(2, 6, 3, &count) == ACCEPTED && count == 1395, "2,6,3");
    check(second_count(3, 4, 2, &count) == ACCEPTED && count == 130, "3,4,2");
    check(second_count(2, 16, 6, &count) == ACCEPTED, "2,16,6");
    check(second_count(2, 16, 7, &count) == REFUSED_COUNT && count == 0, "2,16,7");
    check(second_count(4, 3, 1, &count) == ACCEPTED && count == 21, "4,3,1");
    check(second_count(8, 2, 1, &count) == ACCEPTED && count == 9, "8,2,1");
    check(second_count(6, 0, 1, &count) == REFUSED_FIELD && count == 0, "6,0,1");
    check(second_count(2, 17, 1, &count) == REFUSED_SHAPE && count == 0, "2,17,1");
    check(second_table_entry(1734) == 0, "place 1734");
    for (size_t place = 0; place < COUNT_OF(wrong_sizes); place++)
        check(second_count(wrong_sizes[place], 3, 1, &count) == REFUSED_FIELD && count == 0, "q = %" PRIu64,
              wrong_sizes[place]);
    check_group_end();
}

/* ---- Counting and searching against sorted lists ---- */

static void compare_listing(const setting *s, uint64_t numbering)
{
    size_t width = width_of(s);
    uint8_t *matrices = sorted_listing(s, numbering), drawn[MAX_LENGTH * MAX_LENGTH];
    for (uint64_t index = 0; index < s->count; index++) {
        const uint8_t *matrix = matrices + index * width;
        uint64_t number, converted, back, other = EXTENDED + FERRERS - numbering;
        memset(drawn, FILLING, sizeof drawn);
        uint32_t refusals = second_number(s->q, s->n, s->k, numbering, matrix, width, &number) |
                            second_draw(s->q, s->n, s->k, numbering, index, drawn, width) |
                            second_convert(s->q, s->n, s->k, numbering, other, index, &converted) |
                            second_convert(s->q, s->n, s->k, other, numbering, converted, &back);
        check(refusals == ACCEPTED && number == index && back == index && memcmp(drawn, matrix, width) == 0,
              SETTING_FORMAT ": index %" PRIu64, SETTING_VALUES(s), index);
        check(index == 0 || second_compare(s->q, s->n, s->k, numbering, matrix - width, matrix) < 0,
              SETTING_FORMAT ": order at %" PRIu64, SETTING_VALUES(s), index);
    }
    free(matrices);
}

static void whole_group(uint64_t q, uint64_t numbering)
{
    check_group_begin("whole settings, q = %" PRIu64 ", numbering %" PRIu64, q, numbering);
    for (size_t number = 0; number < setting_count; number += thinning)
        if (settings[number].q == q && settings[number].count <= WHOLE_LIMIT)
            compare_listing(&settings[number], numbering);
    check_group_end();
}

/* One index of any setting: back again, and before its neighbour in the order. */
static void compare_index(const setting *s, uint64_t numbering, uint64_t index)
{
    uint8_t matrix[MAX_LENGTH * MAX_LENGTH], next[MAX_LENGTH * MAX_LENGTH];
    size_t width = width_of(s);
    uint64_t number;
    uint32_t refusals = second_draw(s->q, s->n, s->k, numbering, index, matrix, width) |
                        second_number(s->q, s->n, s->k, numbering, matrix, width, &number);
    check(refusals == ACCEPTED && number == index, SETTING_FORMAT ": %" PRIu64, SETTING_VALUES(s), index);
    if (index + 1 == s->count)
        return;
    second_draw(s->q, s->n, s->k, numbering, index + 1, next, width);
    check(second_compare(s->q, s->n, s->k, numbering, matrix, next) < 0,
          SETTING_FORMAT ": order at %" PRIu64, SETTING_VALUES(s), index);
}

static void random_group(uint64_t numbering)
{
    check_group_begin("all settings, numbering %" PRIu64, numbering);
    for (size_t number = 0; number < setting_count; number += thinning)
        for (unsigned round = 0; round < RANDOM_ROUNDS; round++)
            compare_index(&settings[number], numbering, random_index(settings[number].count));
    check_group_end();
}

/* ---- Elimination against spans ---- */

/* Rows, each marked at its number in base q. */
typedef struct {
    size_t count;
    uint8_t known[SPAN_LIMIT][MAX_LENGTH], *marks;
} row_set;

static void mark_row(uint64_t q, uint64_t n, const uint8_t *row, row_set *set)
{
    size_t code = 0;
    for (uint64_t column = 0; column < n; column++)
        code = code * q + row[column];
    if (!set->marks[code])
        memcpy(set->known[set->count++], row, MAX_LENGTH);
    set->marks[code] = 1;
}

/* The rows of the span: each multiple of each row is added to all that are known before it. */
static void mark_span(uint64_t q, uint64_t n, uint64_t r, const uint8_t *rows, uint8_t *marks)
{
    static row_set set;
    uint8_t sum[MAX_LENGTH] = {0};
    set.count = 0;
    set.marks = marks;
    memset(marks, 0, SPAN_LIMIT);
    mark_row(q, n, sum, &set);
    for (uint64_t row = 0; row < r; row++)
        for (size_t place = 0, before = set.count; place < before; place++)
            for (unsigned factor = 1; factor < q; factor++) {
                memcpy(sum, set.known[place], MAX_LENGTH);
                add_multiple(q, n, sum, rows + row * n, (uint8_t)factor);
                mark_row(q, n, sum, &set);
            }
}

static void span_group(uint64_t q, uint64_t n)
{
    static uint8_t before[SPAN_LIMIT], after[SPAN_LIMIT];
    uint8_t rows[8 * MAX_LENGTH], reduced[MAX_LENGTH * MAX_LENGTH];
    check_group_begin("spans, q = %" PRIu64 ", n = %" PRIu64, q, n);
    for (unsigned round = 0; round < 300; round++) {
        uint64_t r = random_below(8), index;
        second_told told;
        random_entries(round % 2 ? q : 2, rows, (size_t)(r * n));
        uint32_t refusals = second_reduce(q, n, r, rows, (size_t)(r * n), reduced, (size_t)(n * n), &told);
        refusals |= second_number(q, n, told.dimension, EXTENDED, reduced, (size_t)(told.dimension * n), &index);
        mark_span(q, n, r, rows, before);
        mark_span(q, n, told.dimension, reduced, after);
        check(refusals == ACCEPTED && memcmp(before, after, sizeof before) == 0, "%" PRIu64 " rows", r);
    }
    check_group_end();
}

/* ---- Identifying vectors ---- */

/* The dimension of the first columns of the rows. */
static uint64_t leading_dimension(uint64_t q, uint64_t n, uint64_t r, const uint8_t *rows, uint64_t columns)
{
    uint8_t part[8 * MAX_LENGTH], reduced[MAX_LENGTH * MAX_LENGTH];
    second_told told = {0, 0};
    for (uint64_t row = 0; row < r; row++)
        memcpy(part + row * columns, rows + row * n, (size_t)columns);
    if (columns > 0)
        second_reduce(q, columns, r, part, (size_t)(r * columns), reduced, (size_t)(columns * columns), &told);
    return told.dimension;
}

/* A column has a pivot exactly where it adds a dimension to the columns on its left. */
static void told_vectors_group(uint64_t q)
{
    uint8_t rows[8 * MAX_LENGTH], reduced[MAX_LENGTH * MAX_LENGTH];
    check_group_begin("identifying vectors, q = %" PRIu64, q);
    for (unsigned round = 0; round < 400; round++) {
        uint64_t n = 1 + round % MAX_LENGTH, r = random_below(8), vector = 0;
        second_told told;
        random_entries(round % 3 ? q : 2, rows, (size_t)(r * n));
        second_reduce(q, n, r, rows, (size_t)(r * n), reduced, (size_t)(n * n), &told);
        for (uint64_t column = 0; column < n; column++)
            vector = 2 * vector + leading_dimension(q, n, r, rows, column + 1) -
                     leading_dimension(q, n, r, rows, column);
        check(told.vector == vector && vector == second_identifying_vector(n, told.dimension, reduced),
              "n = %" PRIu64 ", %" PRIu64 " rows: %" PRIu64 " instead of %" PRIu64, n, r, told.vector, vector);
    }
    check_group_end();
}

/* ---- Common spaces against spans ---- */

/* Two spans with some rows in common or none: what both means find has the rows that both spans have. */
static void compare_common(uint64_t q, uint64_t n)
{
    static uint8_t first[SPAN_LIMIT], second[SPAN_LIMIT], common[SPAN_LIMIT], joint[SPAN_LIMIT];
    uint8_t rows[3 * MAX_LENGTH * MAX_LENGTH];
    uint64_t shared = random_below(n), r = shared + random_below(n), other_r = shared + random_below(n);
    random_entries(q, rows, sizeof rows);
    second_space one = second_span(q, n, r, rows);
    memmove(rows + n * (r - shared), rows, (size_t)(shared * n));
    second_space other = second_span(q, n, other_r, rows + n * (r - shared));
    second_space tried = second_common_tried(&one, &other), solved = second_common_solved(&one, &other);
    second_space smallest = second_joint(&one, &other);
    check(tried.dimension == solved.dimension && memcmp(tried.rows, solved.rows, sizeof tried.rows) == 0, "two means");
    check(smallest.dimension + tried.dimension == one.dimension + other.dimension, "dimensions");
    mark_span(q, n, one.dimension, one.rows, first);
    mark_span(q, n, other.dimension, other.rows, second);
    mark_span(q, n, tried.dimension, tried.rows, common);
    mark_span(q, n, smallest.dimension, smallest.rows, joint);
    for (size_t code = 0; code < SPAN_LIMIT; code++) {
        check(common[code] == (first[code] && second[code]), "row %zu in common", code);
        check(joint[code] || (!first[code] && !second[code]), "row %zu in the joint space", code);
    }
}

static void common_group(uint64_t q, uint64_t n)
{
    check_group_begin("common spaces, q = %" PRIu64 ", n = %" PRIu64, q, n);
    for (unsigned round = 0; round < 200; round += (unsigned)thinning)
        compare_common(q, n);
    check_group_end();
}

/* ---- Distances against spans ---- */

/* The dimension of a space of so many rows. */
static uint64_t dimension_of_count(uint64_t q, size_t rows)
{
    uint64_t dimension = 0;
    while (second_powers[q][dimension] < rows)
        dimension++;
    return dimension;
}

/* Two lists: the distance is what the numbers of rows in either span and in both tell, and what both means give. */
static void compare_distance(uint64_t q, uint64_t n)
{
    static uint8_t first[SPAN_LIMIT], second[SPAN_LIMIT];
    uint8_t rows[3 * MAX_LENGTH * MAX_LENGTH];
    uint64_t shared = random_below(n), r = shared + random_below(n), other_r = shared + random_below(n), distance;
    const uint8_t *others = rows + n * (r - shared);
    random_entries(random_below(2) == 0 ? q : 2, rows, sizeof rows);
    mark_span(q, n, r, rows, first);
    mark_span(q, n, other_r, others, second);
    size_t in_first = 0, in_second = 0, in_both = 0;
    for (size_t code = 0; code < SPAN_LIMIT; code++) {
        in_first += first[code];
        in_second += second[code];
        in_both += first[code] && second[code];
    }
    uint64_t due = dimension_of_count(q, in_first) + dimension_of_count(q, in_second) -
                   2 * dimension_of_count(q, in_both);
    second_space one = second_span(q, n, r, rows), other = second_span(q, n, other_r, others);
    uint64_t both = one.dimension + other.dimension;
    uint32_t refusal = second_distance(q, n, r, rows, (size_t)(r * n), other_r, others, (size_t)(other_r * n),
                                       &distance);
    check(refusal == ACCEPTED && distance == due, "refusal %u, distance %" PRIu64 " instead of %" PRIu64, refusal,
          distance, due);
    check(both - 2 * second_common_tried(&one, &other).dimension == due &&
          both - 2 * second_common_solved(&one, &other).dimension == due, "two means, not %" PRIu64, due);
    check(2 * second_joint(&one, &other).dimension - both == due, "by the joint space, not %" PRIu64, due);
}

static void distance_group(uint64_t q, uint64_t n)
{
    check_group_begin("distances, q = %" PRIu64 ", n = %" PRIu64, q, n);
    for (unsigned round = 0; round < 200; round += (unsigned)thinning)
        compare_distance(q, n);
    check_group_end();
}

/* ---- Figures ---- */

static void compare_figure(uint64_t q, uint64_t n, uint64_t k, const char *rows, uint64_t extended, uint64_t ferrers)
{
    uint8_t matrix[MAX_LENGTH * MAX_LENGTH], drawn[MAX_LENGTH * MAX_LENGTH];
    size_t length = read_rows(rows, matrix);
    uint64_t number;
    check(second_number(q, n, k, EXTENDED, matrix, length, &number) == ACCEPTED && number == extended, "%s", rows);
    check(second_number(q, n, k, FERRERS, matrix, length, &number) == ACCEPTED && number == ferrers, "%s", rows);
    check(second_draw(q, n, k, EXTENDED, extended, drawn, length) == ACCEPTED, "%s", rows);
    check(memcmp(drawn, matrix, length) == 0, "%s", rows);
    check(second_draw(q, n, k, FERRERS, ferrers, drawn, length) == ACCEPTED, "%s", rows);
    check(memcmp(drawn, matrix, length) == 0, "%s", rows);
}

/* Examples 1, 2, 4, 5 and 7, and document 01's table; Example 1's indexes are worked out with the numbering tests. */
static void figures_group(void)
{
    uint8_t matrix[21], heights[MAX_LENGTH], entries[MAX_LENGTH * MAX_LENGTH];
    check_group_begin("figures of documents 001 and 01");
    read_rows("1000110/0010101/0001011", matrix);
    check(second_identifying_vector(7, 3, matrix) == 0x58, "Example 2");
    check(second_tableau(7, 3, matrix, heights, entries) == 10, "Example 1, size");
    check(memcmp(heights, "\3\3\3\1", 4) == 0, "Example 1, diagram");
    check(memcmp(entries, "\0\1\1\1\0\1\1\1\0\0", 10) == 0, "Example 1, tableau");
    compare_figures(compare_figure);
    check_group_end();
}

static void compare_order(uint64_t q, uint64_t n, uint64_t k, uint64_t numbering, const char *first, const char *second)
{
    uint8_t one[MAX_LENGTH * MAX_LENGTH], two[MAX_LENGTH * MAX_LENGTH];
    read_rows(first, one);
    read_rows(second, two);
    check(second_compare(q, n, k, numbering, one, two) < 0, "%s isn't before %s", first, second);
    check(second_compare(q, n, k, numbering, two, one) > 0, "%s isn't after %s", second, first);
    check(second_compare(q, n, k, numbering, one, one) == 0, "%s isn't itself", first);
}

static void order_figures_group(void)
{
    check_group_begin("figures of the orders");
    compare_orders(compare_order);
    check_group_end();
}

/* A few refusals, written out; the grids of the test programs have the rest. */
static void refusals_group(void)
{
    uint8_t rows[4 * 65] = {1, 1, 0, 2}, out[4];
    uint64_t index;
    second_told told;
    check_group_begin("refusals");
    check(second_number(2, 2, 2, EXTENDED, rows, 4, &index) == REFUSED_ENTRY, "11/02");
    check(second_number(3, 2, 2, EXTENDED, rows, 4, &index) == REFUSED_UNREDUCED, "11/02, q = 3");
    check(second_number(2, 2, 2, 3, rows, 5, &index) == REFUSED_NUMBERING, "numbering 3");
    check(second_draw(2, 2, 2, EXTENDED, 1, rows, 4) == REFUSED_INDEX && rows[3] == 2, "index N");
    check(second_draw(2, 2, 2, EXTENDED, 1, rows, 3) == REFUSED_LENGTH, "length before index");
    check(second_convert(2, 2, 1, 1, 0, 9, &index) == REFUSED_NUMBERING, "numbering before index");
    check(second_reduce(2, 2, UINT64_MAX, rows, 0, out, 4, &told) == REFUSED_ROW_COUNT, "2^64 - 1 rows");
    check(second_reduce(2, 2, 65, rows, 130, out, 3, &told) == REFUSED_ROW_COUNT, "13 before 4");
    check(second_reduce(2, 2, 2, rows, 4, out, 3, &told) == REFUSED_LENGTH, "4 before 6");
    check(second_receive(3, 2, 1, FERRERS, 2, rows, 4, &index, &told) == REFUSED_TOO_MANY, "too many");
    check(index == 0 && told.dimension == 2 && told.vector == 3, "dimension and vector of too many");
    check(second_receive(3, 2, 2, FERRERS, 1, rows, 2, &index, &told) == REFUSED_TOO_FEW, "too few");
    check(index == 0 && told.dimension == 1 && told.vector == 2, "dimension and vector of too few");
    check_group_end();
}

/* The order of the refusals, and a product that exceeds 64 bits; then 2,3,1 with an index of N, in both numberings. */
static void batch_group(void)
{
    static const uint64_t extended[] = {5, 7, 2}, ferrers[] = {5, 7, 4};
    uint8_t bytes[9], answers[3];
    memset(bytes, FILLING, sizeof bytes);
    memset(answers, FILLING, sizeof answers);
    check_group_begin("batch");
    check(second_draw_batch(6, 3, 1, 0, extended, 3, bytes, 8, answers, 2) == REFUSED_FIELD, "1 before all");
    check(second_draw_batch(2, 3, 4, 0, extended, 3, bytes, 8, answers, 2) == REFUSED_SHAPE, "2 before 10");
    check(second_draw_batch(2, 16, 8, 0, extended, 3, bytes, 8, answers, 2) == REFUSED_COUNT, "3 before 10");
    check(second_draw_batch(2, 3, 1, 0, extended, 3, bytes, 8, answers, 2) == REFUSED_NUMBERING, "10 before 4");
    check(second_draw_batch(2, 3, 1, 1, extended, 3, bytes, 8, answers, 3) == REFUSED_LENGTH, "a byte too few");
    check(second_draw_batch(2, 3, 1, 1, extended, 3, bytes, 9, answers, 2) == REFUSED_LENGTH, "an answer too few");
    check(second_draw_batch(2, 16, 16, 1, extended, SIZE_MAX / 256 + 1, bytes, 0, answers, SIZE_MAX / 256 + 1) ==
              REFUSED_LENGTH, "2^56 indexes and no bytes");
    check(is_filled(bytes, sizeof bytes) && is_filled(answers, sizeof answers), "what is refused leaves the buffers");
    check(second_draw_batch(2, 3, 1, 1, extended, 3, bytes, 9, answers, 3) == ACCEPTED, "extended");
    check(memcmp(bytes, "\0\1\1\xA5\xA5\xA5\0\1\0", 9) == 0 && memcmp(answers, "\0\5\0", 3) == 0, "011, 5, 010");
    check(second_draw_batch(2, 3, 1, 2, ferrers, 3, bytes, 9, answers, 3) == ACCEPTED, "Ferrers");
    check(memcmp(bytes, "\0\1\1\xA5\xA5\xA5\0\1\0", 9) == 0 && memcmp(answers, "\0\5\0", 3) == 0, "the same");
    check(second_draw_batch(2, 3, 1, 1, extended, 0, bytes, 0, answers, 0) == ACCEPTED, "the empty list");
    check_group_end();
}

/* Of all fillings of d x n entries below q, those that a receiver can hold are as many as there are spaces. */
static void revived_group(uint64_t q, uint64_t n)
{
    uint8_t entries[MAX_LENGTH * MAX_LENGTH] = {0};
    second_receiver receiver;
    check_group_begin("receivers, q = %" PRIu64 ", n = %" PRIu64, q, n);
    for (uint64_t dimension = 0; dimension <= n; dimension++) {
        uint64_t revived = 0, count;
        do
            revived += second_revive(q, n, 0, 256, dimension, entries, &receiver) == ACCEPTED && receiver.pack == 256;
        while (next_entries(q - 1, entries, (size_t)(dimension * n)));
        second_count(q, n, dimension, &count);
        check(revived == count, "%" PRIu64 " of dimension %" PRIu64, revived, dimension);
    }
    check_group_end();
}

static void receiver_figures_group(void)
{
    uint8_t rows[9], entries[MAX_LENGTH * MAX_LENGTH], expected[MAX_LENGTH * MAX_LENGTH] = {1, 0, 1, 0, 1, 1};
    second_receiver receiver;
    uint64_t index;
    second_told told;
    second_taken taken;
    check_group_begin("receiver figures");
    read_rows("110/011/101", rows);
    check(second_start(2, 16, 7, 5, &receiver) == REFUSED_COUNT && receiver.q == 0 && receiver.pack == 0,
          "refused start");
    check(second_start(2, 3, 2, 5, &receiver) == ACCEPTED && receiver.pack == 5, "start");
    check(second_take(&receiver, 5, rows, 3, &taken) == ACCEPTED && taken.raised == 1, "110 is raised");
    check(second_take(&receiver, 5, rows, 2, &taken) == REFUSED_LENGTH && taken.raised == 0, "two bytes");
    check(second_close(&receiver, EXTENDED, &index, &told) == REFUSED_TOO_FEW && told.dimension == 1 && told.vector == 4,
          "110 alone");
    check(second_take(&receiver, 5, rows + 3, 3, &taken) == ACCEPTED && taken.raised == 1, "011 is raised");
    check(second_take(&receiver, 5, rows + 6, 3, &taken) == ACCEPTED && taken.raised == 0, "101 is held");
    check(second_close(&receiver, FERRERS, &index, &told) == ACCEPTED && index == 3 && told.vector == 6,
          "the span's index");
    check(second_entries(&receiver, entries) == 2 && memcmp(entries, expected, sizeof expected) == 0, "the entries");
    check(second_revive(2, 3, 2, 5, 2, entries, &receiver) == ACCEPTED && receiver.r == 2, "the same receiver");
    check(second_revive(2, 3, 2, 5, 1, entries, &receiver) == REFUSED_RECEIVER, "a row too many");
    check(second_revive(2, 3, 2, 5, 3, entries, &receiver) == REFUSED_RECEIVER, "a zero row");
    check(second_revive(2, 3, 2, 5, UINT64_MAX, entries, &receiver) == REFUSED_RECEIVER, "dimension 2^64 - 1");
    entries[255] = 1;
    check(second_revive(2, 3, 2, 5, 2, entries, &receiver) == REFUSED_RECEIVER && receiver.pack == 0,
          "a nonzero last entry");
    check_group_end();
}

/* Offers rows of so many digits each, with one refusal or none; raised is told by 1, idle by 2, all else by 0. */
static void compare_offered(second_receiver *receiver, uint64_t pack, const char *rows, size_t length, uint32_t refusal,
                            const char *answers)
{
    uint8_t entries[ROWS_LIMIT];
    second_taken taken;
    size_t count = read_rows(rows, entries) / length;
    for (size_t row = 0; row < count; row++)
        check(second_take(receiver, pack, entries + row * length, length, &taken) == refusal &&
              taken.raised == (answers[row] == '1') && taken.idle == (answers[row] == '2'),
              "%s: row %zu, raised %u, idle %u", rows, row, taken.raised, taken.idle);
}

/* The same for the receiver's own pack. */
static void compare_taken(second_receiver *receiver, const char *rows, size_t length, uint32_t refusal,
                          const char *answers)
{
    compare_offered(receiver, receiver->pack, rows, length, refusal, answers);
}

/* Zero rows are idle before all others, after them, and once the receiver is full; those of a wrong length are not. */
static void idle_figures_group(void)
{
    uint8_t entries[2][MAX_LENGTH * MAX_LENGTH];
    second_receiver receiver;
    check_group_begin("idle rows");
    second_start(2, 3, 2, 0, &receiver);
    compare_taken(&receiver, "000/000/110/000/110/011/101", 3, ACCEPTED, "2212010");
    second_entries(&receiver, entries[0]);
    compare_taken(&receiver, "000/000/101", 3, ACCEPTED, "220");
    compare_taken(&receiver, "00/11", 2, REFUSED_LENGTH, "00");
    compare_taken(&receiver, "0000/0001", 4, REFUSED_LENGTH, "00");
    compare_taken(&receiver, "002/200", 3, REFUSED_ENTRY, "00");
    check(second_entries(&receiver, entries[1]) == 2 && memcmp(entries[0], entries[1], sizeof entries[0]) == 0,
          "only raised rows change the entries");
    compare_taken(&receiver, "001/000/111/100", 3, ACCEPTED, "1200");
    second_start(7, 2, 1, 65535, &receiver);
    compare_taken(&receiver, "00/06/01/00/60/00/66", 2, ACCEPTED, "2102120");
    second_start(4, 2, 1, 255, &receiver);
    compare_taken(&receiver, "00/12/23/31/00/13", 2, ACCEPTED, "210021"); /* 2 and 3 times 12 are held */
    second_start(8, 2, 1, 256, &receiver);
    compare_taken(&receiver, "14/23/00/52/11", 2, ACCEPTED, "10201"); /* 2 and 5 times 14 */
    check_group_end();
}

/* Order 8: whatever is offered for another pack is refused 17 before all else, and leaves the receiver. */
static void pack_figures_group(void)
{
    second_receiver receiver, kept;
    uint64_t index;
    second_told told;
    check_group_begin("rows of another pack");
    second_start(2, 3, 2, 0x0102, &receiver);
    compare_offered(&receiver, 0x0102, "110/000", 3, ACCEPTED, "12");
    kept = receiver;
    compare_offered(&receiver, 0x0103, "011/110/000/002", 3, REFUSED_PACK, "0000");
    compare_offered(&receiver, 0x0202, "01/00/20", 2, REFUSED_PACK, "000");
    compare_offered(&receiver, 0, "0000/0003", 4, REFUSED_PACK, "00");
    compare_offered(&receiver, 65535, "001/111", 3, REFUSED_PACK, "00");
    check(memcmp(&receiver, &kept, sizeof kept) == 0, "only accepted rows change the receiver");
    compare_offered(&receiver, 0x0102, "00/20", 2, REFUSED_LENGTH, "00");
    compare_offered(&receiver, 0x0102, "002", 3, REFUSED_ENTRY, "0");
    compare_offered(&receiver, 0x0102, "011/101", 3, ACCEPTED, "10");
    check(second_close(&receiver, EXTENDED, &index, &told) == ACCEPTED && index == 3, "the span's index");
    check_group_end();
}

/* Pools the spans of two lists of rows and compares with both reduced matrices. */
static void compare_pool_figure(uint64_t q, uint64_t n, const char *first, const char *second, const char *joint,
                                const char *common)
{
    uint8_t rows[MAX_LENGTH * MAX_LENGTH], matrices[2][MAX_LENGTH * MAX_LENGTH], expected[2][MAX_LENGTH * MAX_LENGTH];
    second_receiver receivers[2];
    second_pooled pooled;
    second_taken taken;
    const char *const texts[] = {first, second};
    for (unsigned place = 0; place < 2; place++) {
        second_start(q, n, 1, 65535, &receivers[place]);
        for (size_t row = 0, count = read_rows(texts[place], rows) / n; row < count; row++)
            second_take(&receivers[place], 65535, rows + row * n, (size_t)n, &taken);
    }
    memset(expected, 0, sizeof expected);
    size_t length = (size_t)(n * n), joint_length = read_rows(joint, expected[0]);
    size_t common_length = read_rows(common, expected[1]);
    uint32_t refusal = second_pool(&receivers[0], &receivers[1], matrices[0], length, matrices[1], length, &pooled);
    check(refusal == ACCEPTED && pooled.joint_dimension == joint_length / n &&
          pooled.common_dimension == common_length / n, "%s and %s: dimensions", first, second);
    check(memcmp(matrices[0], expected[0], length) == 0, "%s and %s: the joint space", first, second);
    check(memcmp(matrices[1], expected[1], length) == 0, "%s and %s: the common space", first, second);
    check(pooled.receiver.r == joint_length / n && memcmp(pooled.receiver.rows, expected[0], length) == 0 &&
          pooled.receiver.pack == 65535, "%s and %s: the receiver", first, second);
}

static void pool_figures_group(void)
{
    check_group_begin("pool figures");
    compare_pool_figure(2, 3, "100/010", "010/001", "100/010/001", "010");
    compare_pool_figure(2, 3, "", "", "", "");
    compare_pool_figure(2, 3, "110/011", "101", "101/011", "101");
    compare_pool_figure(2, 3, "111", "", "111", "");
    compare_pool_figure(2, 4, "1100/0011", "1010/0101", "1001/0101/0011", "1111");
    compare_pool_figure(3, 2, "12", "21", "12", "12");
    compare_pool_figure(3, 2, "11", "12", "10/01", "");
    compare_pool_figure(5, 3, "104/014", "100/010", "100/010/001", "140");
    compare_pool_figure(7, 4, "1000/0100", "1010/0101", "1000/0100/0010/0001", "");
    compare_pool_figure(4, 2, "12", "23", "12", "12");
    /* 130 and 150 are in the first spaces, as 2 + 3 * 3 = 0 in four and 2 + 5 * 4 = 0 in eight. */
    compare_pool_figure(4, 3, "102/013", "100/010", "100/010/001", "130");
    compare_pool_figure(8, 3, "102/014", "100/010", "100/010/001", "150");
    /* The same two spans with zeros between and around, too long for trying all rows. */
    compare_pool_figure(2, 16, "1000000000000001/0100000000000000", "0100000000000000/0010000000000000",
                        "1000000000000001/0100000000000000/0010000000000000", "0100000000000000");
    compare_pool_figure(5, 6, "100004/010004", "100000/010000", "100000/010000/000001", "140000");
    check_group_end();
}

/* The order of the refusals, and what a refusal leaves. */
static void pool_refusals_group(void)
{
    static const second_receiver none;
    static const second_pooled nothing;
    uint8_t bytes[2][9];
    second_receiver good, other_k, other_n, other_pack;
    second_pooled pooled;
    memset(bytes, FILLING, sizeof bytes);
    second_start(2, 3, 2, 256, &good);
    second_start(2, 3, 1, 256, &other_k);
    second_start(2, 2, 2, 256, &other_n);
    second_start(2, 3, 2, 257, &other_pack);
    check_group_begin("pool refusals");
    check(second_pool(&none, &none, bytes[0], 1, bytes[1], 1, &pooled) == REFUSED_RECEIVER, "two forged");
    check(second_pool(&none, &good, bytes[0], 9, bytes[1], 9, &pooled) == REFUSED_RECEIVER, "the first forged");
    check(second_pool(&good, &none, bytes[0], 9, bytes[1], 8, &pooled) == REFUSED_RECEIVER, "14 before 16 and 4");
    check(second_pool(&good, &other_k, bytes[0], 8, bytes[1], 9, &pooled) == REFUSED_MISMATCH, "16 before 4");
    check(second_pool(&other_n, &good, bytes[0], 4, bytes[1], 4, &pooled) == REFUSED_MISMATCH, "another n");
    check(second_pool(&good, &other_pack, bytes[0], 9, bytes[1], 9, &pooled) == REFUSED_MISMATCH, "another pack");
    check(second_pool(&other_pack, &good, bytes[0], 8, bytes[1], 8, &pooled) == REFUSED_MISMATCH, "also before 4");
    check(second_pool(&none, &other_pack, bytes[0], 9, bytes[1], 9, &pooled) == REFUSED_RECEIVER, "14 before both");
    check(second_pool(&good, &good, bytes[0], 8, bytes[1], 9, &pooled) == REFUSED_LENGTH, "the first buffer");
    check(second_pool(&good, &good, bytes[0], 9, bytes[1], 4, &pooled) == REFUSED_LENGTH, "the second buffer");
    check(memcmp(&pooled, &nothing, sizeof pooled) == 0, "what is refused is all zeros");
    check(is_filled(bytes[0], 9) && is_filled(bytes[1], 9), "what is refused leaves the buffers");
    check_group_end();
}

static void compare_distance_figure(uint64_t q, uint64_t n, const char *first, const char *second, uint64_t due)
{
    uint8_t rows[2][MAX_LENGTH * MAX_LENGTH];
    size_t length = read_rows(first, rows[0]), other_length = read_rows(second, rows[1]);
    uint64_t distance;
    uint32_t refusal = second_distance(q, n, length / n, rows[0], length, other_length / n, rows[1], other_length,
                                       &distance);
    check(refusal == ACCEPTED && distance == due, "%s and %s: refusal %u, %" PRIu64 " instead of %" PRIu64, first,
          second, refusal, distance, due);
}

static void distance_figures_group(void)
{
    check_group_begin("distance figures");
    compare_distance_figure(2, 3, "110", "011", 2);
    compare_distance_figure(2, 3, "110", "110/011", 1);
    compare_distance_figure(2, 3, "100/010", "010/001", 2);
    compare_distance_figure(2, 3, "", "100/010/001", 3);
    compare_distance_figure(2, 3, "", "000", 0);
    compare_distance_figure(3, 2, "21", "12", 0);
    compare_distance_figure(4, 2, "12", "23", 0);
    compare_distance_figure(8, 3, "102/014", "150", 1);
    /* Too long for trying all rows. */
    compare_distance_figure(2, 16, "1000000000000001/0100000000000000", "0100000000000000/0010000000000000", 2);
    compare_distance_figure(5, 6, "100004/010004", "140000", 1);
    check_group_end();
}

/* Order 10: 1 and 2, then 13, 4 and 6 of the first list, then of the other; a refusal gives distance 0. */
static void distance_refusals_group(void)
{
    static const uint8_t rows[2 * 65] = {0, 2};
    uint64_t distance = 7;
    check_group_begin("distance refusals");
    check(second_distance(6, 17, 65, rows, 1, 65, rows, 1, &distance) == REFUSED_FIELD, "1 before 2");
    check(second_distance(2, 0, 65, rows, 1, 65, rows, 1, &distance) == REFUSED_SHAPE, "2 before 13");
    check(second_distance(2, 17, 1, rows, 17, 0, rows, 0, &distance) == REFUSED_SHAPE, "17");
    check(second_distance(2, 2, 65, rows, 1, 0, rows, 0, &distance) == REFUSED_ROW_COUNT, "13 before 4");
    check(second_distance(2, 2, 2, rows, 3, 65, rows, 130, &distance) == REFUSED_LENGTH, "4 before the other's 13");
    check(second_distance(2, 2, 1, rows, 2, 65, rows, 1, &distance) == REFUSED_ENTRY, "6 before the other's 13");
    check(second_distance(2, 2, 1, rows, 2, 1, rows, 1, &distance) == REFUSED_ENTRY, "6 before the other's 4");
    check(second_distance(3, 2, 1, rows, 2, UINT64_MAX, rows, 1, &distance) == REFUSED_ROW_COUNT, "the other's 13");
    check(second_distance(3, 2, 1, rows, 2, 1, rows, 3, &distance) == REFUSED_LENGTH, "the other's 4");
    check(second_distance(2, 2, 0, rows, 0, 1, rows, 2, &distance) == REFUSED_ENTRY && distance == 0, "the other's 6");
    check(second_distance(3, 2, 1, rows, 2, 64, rows, 128, &distance) == ACCEPTED && distance == 0, "64 rows");
    check_group_end();
}

static void table_groups(void)
{
    for (unsigned place = 0; place < FIELD_COUNT; place++) {
        field_group(second_field_sizes[place]);
        sums_group(second_field_sizes[place]);
        counts_group(place);
    }
    products_group();
    vectors_group();
    count_figures_group();
}

static void space_groups(void)
{
    span_group(2, 8);
    span_group(3, 6);
    span_group(4, 5);
    span_group(5, 4);
    span_group(7, 4);
    span_group(8, 3);
    for (unsigned place = 0; place < FIELD_COUNT; place++)
        told_vectors_group(second_field_sizes[place]);
    common_group(2, 5);
    common_group(2, 11);
    common_group(3, 7);
    common_group(4, 5);
    common_group(5, 4);
    common_group(7, 4);
    common_group(8, 3);
    distance_group(2, 5);
    distance_group(2, 11);
    distance_group(3, 6);
    distance_group(3, 7);
    distance_group(4, 5);
    distance_group(5, 4);
    distance_group(7, 4);
    distance_group(8, 3);
}

static void receiver_groups(void)
{
    revived_group(2, 3);
    revived_group(3, 2);
    revived_group(4, 2);
    revived_group(5, 2);
    revived_group(7, 2);
    revived_group(8, 2);
    receiver_figures_group();
    idle_figures_group();
    pack_figures_group();
    pool_figures_group();
    pool_refusals_group();
}

int main(int argument_count, char **arguments)
{
    cases_begin(argument_count, arguments);
    table_groups();
    for (unsigned place = 0; place < FIELD_COUNT; place++) {
        whole_group(second_field_sizes[place], EXTENDED);
        whole_group(second_field_sizes[place], FERRERS);
    }
    random_group(EXTENDED);
    random_group(FERRERS);
    space_groups();
    figures_group();
    order_figures_group();
    refusals_group();
    batch_group();
    receiver_groups();
    distance_figures_group();
    distance_refusals_group();
    return check_summary("selftest");
}
