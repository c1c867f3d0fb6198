/*
 * Tests how Number tells 6 and 7: on every matrix of small shapes with entries up to q, up to 3 x 3 for q = 2 and 3 and
 * 2 x 3 for the others; and on reduced matrices of all accepted settings, each damaged in one named way. What must be
 * told follows from document 01's sentences, each of them tried by itself and on all places of the matrix. The second
 * implementation is held to the same, and gives the index of what isn't refused.
 */
#include "cases.h"
#include "check.h"
#include "harness.h"

enum { SMALL_LENGTH = 3, ALL_LIMIT = 600000, DAMAGE_ROUNDS = 140 };

/* Document 01's sentences of a reduced matrix, by what breaks them; a set of them is a sum. */
enum { ZERO_ROW = 1, PIVOT_NOT_ONE = 2, PIVOT_NOT_RIGHT = 4, PIVOT_NOT_ALONE = 8 };

/* ---- Document 01's sentences ---- */

static uint8_t *entry_at(const setting *s, uint8_t *matrix, uint64_t row, uint64_t column)
{
    return matrix + row * s->n + column;
}

static bool is_zero(const setting *s, const uint8_t *matrix, uint64_t row, uint64_t column)
{
    return matrix[row * s->n + column] == 0;
}

/* Whether the row is zero in all columns before this one. */
static bool zero_before(const setting *s, const uint8_t *matrix, uint64_t row, uint64_t column)
{
    for (uint64_t before = 0; before < column; before++)
        if (!is_zero(s, matrix, row, before))
            return false;
    return true;
}

/* Whether this is the row's first nonzero entry. */
static bool is_pivot(const setting *s, const uint8_t *matrix, uint64_t row, uint64_t column)
{
    return !is_zero(s, matrix, row, column) && zero_before(s, matrix, row, column);
}

/* Whether the row above has its pivot to the left of this column, or has none, or there is no row above. */
static bool right_of_above(const setting *s, const uint8_t *matrix, uint64_t row, uint64_t column)
{
    for (uint64_t other = column; row > 0 && other < s->n; other++)
        if (is_pivot(s, matrix, row - 1, other))
            return false;
    return true;
}

/* Whether the column has one nonzero entry, from the top to the bottom. */
static bool one_in_column(const setting *s, const uint8_t *matrix, uint64_t column)
{
    uint64_t found = 0;
    for (uint64_t row = 0; row < s->k; row++)
        found += !is_zero(s, matrix, row, column);
    return found == 1;
}

/* The sentences that this entry breaks, being a pivot. */
static unsigned broken_by_pivot(const setting *s, const uint8_t *matrix, uint64_t row, uint64_t column)
{
    return (matrix[row * s->n + column] == 1 ? 0 : PIVOT_NOT_ONE) |
           (right_of_above(s, matrix, row, column) ? 0 : PIVOT_NOT_RIGHT) |
           (one_in_column(s, matrix, column) ? 0 : PIVOT_NOT_ALONE);
}

/* The sentences that the matrix breaks; it is reduced where there are none. */
static unsigned broken_sentences(const setting *s, const uint8_t *matrix)
{
    unsigned broken = 0;
    for (uint64_t row = 0; row < s->k; row++) {
        if (zero_before(s, matrix, row, s->n))
            broken |= ZERO_ROW;
        for (uint64_t column = 0; column < s->n; column++)
            if (is_pivot(s, matrix, row, column))
                broken |= broken_by_pivot(s, matrix, row, column);
    }
    return broken;
}

/* What Number must tell of a matrix of the right length. */
static uint32_t refusal_due(const setting *s, const uint8_t *matrix)
{
    if (!entries_below(s->q, matrix, width_of(s)))
        return REFUSED_ENTRY;
    return broken_sentences(s, matrix) == 0 ? ACCEPTED : REFUSED_UNREDUCED;
}

/* ---- Comparisons ---- */

/* The rows as digits with "/" between them; "*" stands for an entry that has no digit. */
static const char *text_of(const setting *s, const uint8_t *matrix)
{
    static char text[MAX_LENGTH * (MAX_LENGTH + 1) + 1];
    char *end = text;
    for (size_t place = 0; place < width_of(s); place++) {
        if (place > 0 && place % s->n == 0)
            *end++ = '/';
        *end++ = matrix[place] < 10 ? (char)('0' + matrix[place]) : '*';
    }
    *end = '\0';
    return text;
}

/* Number in both numberings; the index is 0 with a refusal. */
static void compare_number(const setting *s, const uint8_t *matrix, uint32_t due)
{
    for (unsigned place = 0; place < COUNT_OF(numberings); place++) {
        uint64_t numbering = numberings[place], index;
        uint32_t refusal = second_number(s->q, s->n, s->k, numbering, matrix, width_of(s), &index);
        harness_answer answer = harness_number(s->q, s->n, s->k, numbering, matrix, width_of(s));
        check(refusal == due, SETTING_FORMAT ": %s: the second implementation tells %u instead of %u",
              SETTING_VALUES(s), text_of(s, matrix), refusal, due);
        check(answer.refusal == due && answer.value == index,
              SETTING_FORMAT ": %s in %" PRIu64 ": refusal %u, index %" PRIu64 " instead of %u, %" PRIu64,
              SETTING_VALUES(s), text_of(s, matrix), numbering, answer.refusal, answer.value, due, index);
    }
}

/* A drawn matrix that is unrefused before the damage; its index is tested elsewhere. */
static void draw_undamaged(const setting *s, uint8_t *matrix)
{
    random_reduced(s, matrix);
    check(refusal_due(s, matrix) == ACCEPTED, SETTING_FORMAT ": %s isn't reduced", SETTING_VALUES(s),
          text_of(s, matrix));
    for (unsigned place = 0; place < COUNT_OF(numberings); place++) {
        uint32_t refusal = harness_number(s->q, s->n, s->k, numberings[place], matrix, width_of(s)).refusal;
        check(refusal == ACCEPTED, SETTING_FORMAT ": %s in %" PRIu64 " is refused %u before the damage",
              SETTING_VALUES(s), text_of(s, matrix), numberings[place], refusal);
    }
}

/* ---- Every small matrix ---- */

static uint64_t power(uint64_t base, uint64_t exponent)
{
    uint64_t product = 1;
    while (exponent-- > 0)
        product *= base;
    return product;
}

/*
 * Of the (q + 1)^(k n) matrices q^(k n) have all entries below q, and N of these are reduced. So the sentences are read
 * neither too strictly nor too loosely, whatever Number says.
 */
static void compare_tallies(const setting *s, const uint64_t *seen)
{
    uint64_t all = power(s->q + 1, s->k * s->n), below = power(s->q, s->k * s->n), count;
    harness_answer answer = harness_count(s->q, s->n, s->k);
    check(second_count(s->q, s->n, s->k, &count) == ACCEPTED && answer.refusal == ACCEPTED && answer.value == count,
          SETTING_FORMAT ": the counts differ", SETTING_VALUES(s));
    check(seen[ACCEPTED] == count, SETTING_FORMAT ": %" PRIu64 " are reduced", SETTING_VALUES(s), seen[ACCEPTED]);
    check(seen[REFUSED_ENTRY] == all - below, SETTING_FORMAT ": %" PRIu64 " have an oversized entry",
          SETTING_VALUES(s), seen[REFUSED_ENTRY]);
    check(seen[REFUSED_UNREDUCED] == below - count, SETTING_FORMAT ": %" PRIu64 " are not reduced",
          SETTING_VALUES(s), seen[REFUSED_UNREDUCED]);
}

/* All matrices are tallied, and all are numbered unless less than the whole is run. */
static void compare_all_matrices(const setting *s)
{
    uint8_t matrix[SMALL_LENGTH * SMALL_LENGTH] = {0};
    uint64_t seen[REFUSAL_LIMIT] = {0}, visited = 0;
    do {
        uint32_t due = refusal_due(s, matrix);
        seen[due]++;
        if (visited++ % thinning == 0)
            compare_number(s, matrix, due);
    } while (next_entries(s->q, matrix, width_of(s)));
    compare_tallies(s, seen);
}

/* Every shape that has few enough matrices. */
static void all_matrices_group(uint64_t q)
{
    check_group_begin("every matrix of small shapes, q = %" PRIu64 ", entries up to q", q);
    for (uint64_t n = 1; n <= SMALL_LENGTH; n++)
        for (uint64_t k = 0; k <= n && power(q + 1, k * n) <= ALL_LIMIT; k++) {
            setting s = {q, n, k, 0};
            compare_all_matrices(&s);
        }
    check_group_end();
}

/* ---- Damage that leaves the entries below q ---- */

static uint64_t pivot_column(const setting *s, const uint8_t *matrix, uint64_t row)
{
    uint64_t column = 0;
    while (!is_pivot(s, matrix, row, column))
        column++;
    return column;
}

/* Two rows of a matrix with two or more, the first above the second. */
typedef struct {
    uint64_t upper, lower;
} row_pair;

static row_pair random_rows(const setting *s)
{
    uint64_t lower = 1 + random_below(s->k - 1);
    row_pair rows = {random_below(lower), lower};
    return rows;
}

static void zero_row(const setting *s, uint8_t *matrix)
{
    memset(entry_at(s, matrix, random_below(s->k), 0), 0, (size_t)s->n);
}

/* Moves a row's pivot under the one above. */
static void equal_pivots(const setting *s, uint8_t *matrix)
{
    uint64_t row = 1 + random_below(s->k - 1);
    *entry_at(s, matrix, row, pivot_column(s, matrix, row)) = 0;
    *entry_at(s, matrix, row, pivot_column(s, matrix, row - 1)) = 1;
}

static void pivot_from_two(const setting *s, uint8_t *matrix)
{
    uint64_t row = random_below(s->k);
    *entry_at(s, matrix, row, pivot_column(s, matrix, row)) = (uint8_t)(2 + random_below(s->q - 2));
}

static void entry_above_pivot(const setting *s, uint8_t *matrix)
{
    row_pair rows = random_rows(s);
    *entry_at(s, matrix, rows.upper, pivot_column(s, matrix, rows.lower)) = (uint8_t)(1 + random_below(s->q - 1));
}

/* An entry below a pivot stands left of its own row's pivot and so takes its place. */
static void one_below_pivot(const setting *s, uint8_t *matrix)
{
    row_pair rows = random_rows(s);
    *entry_at(s, matrix, rows.lower, pivot_column(s, matrix, rows.upper)) = 1;
}

static void more_below_pivot(const setting *s, uint8_t *matrix)
{
    row_pair rows = random_rows(s);
    *entry_at(s, matrix, rows.lower, pivot_column(s, matrix, rows.upper)) = (uint8_t)(2 + random_below(s->q - 2));
}

static void rows_swapped(const setting *s, uint8_t *matrix)
{
    uint8_t kept[MAX_LENGTH];
    row_pair rows = random_rows(s);
    uint8_t *upper = entry_at(s, matrix, rows.upper, 0), *lower = entry_at(s, matrix, rows.lower, 0);
    memcpy(kept, upper, (size_t)s->n);
    memcpy(upper, lower, (size_t)s->n);
    memcpy(lower, kept, (size_t)s->n);
}

/* Each damage with exactly the sentences that it breaks, and the least q and k that have room for it. */
typedef struct {
    const char *name;
    void (*call)(const setting *s, uint8_t *matrix);
    unsigned broken;
    uint64_t least_q, least_k;
} damage;

static const damage damages[] = {
    {"a zero row", zero_row, ZERO_ROW, 2, 1},
    {"two equal pivots", equal_pivots, PIVOT_NOT_RIGHT | PIVOT_NOT_ALONE, 2, 2},
    {"a pivot of 2 or more", pivot_from_two, PIVOT_NOT_ONE, 3, 1},
    {"a nonzero entry above a pivot", entry_above_pivot, PIVOT_NOT_ALONE, 2, 2},
    {"a 1 below a pivot", one_below_pivot, PIVOT_NOT_RIGHT | PIVOT_NOT_ALONE, 2, 2},
    {"2 or more below a pivot", more_below_pivot, PIVOT_NOT_ONE | PIVOT_NOT_RIGHT | PIVOT_NOT_ALONE, 3, 2},
    {"rows swapped", rows_swapped, PIVOT_NOT_RIGHT, 2, 2},
};

static void compare_damage(const setting *s, const damage *done)
{
    uint8_t matrix[MAX_LENGTH * MAX_LENGTH];
    draw_undamaged(s, matrix);
    done->call(s, matrix);
    unsigned broken = broken_sentences(s, matrix);
    check(broken == done->broken && refusal_due(s, matrix) == REFUSED_UNREDUCED,
          SETTING_FORMAT ": %s breaks the sentences %u", SETTING_VALUES(s), text_of(s, matrix), broken);
    compare_number(s, matrix, REFUSED_UNREDUCED);
}

/* Whether the setting has room for the damage, with this many rows to spare. */
static bool has_room(const setting *s, const damage *done, uint64_t spare)
{
    return s->q >= done->least_q && s->k >= done->least_k + spare;
}

static void damage_group(const damage *done)
{
    check_group_begin("%s", done->name);
    for (size_t number = 0; number < setting_count; number += thinning) {
        const setting *s = &settings[number];
        if (!has_room(s, done, 0))
            continue;
        for (unsigned round = 0; round < DAMAGE_ROUNDS; round++)
            compare_damage(s, done);
    }
    check_group_end();
}

/* ---- Oversized entries ---- */

/* The least and the greatest oversized entry. */
static uint8_t least_oversized(const setting *s)
{
    return (uint8_t)s->q;
}

static uint8_t most_oversized(const setting *s)
{
    (void)s;
    return UINT8_MAX;
}

static const struct {
    const char *name;
    uint8_t (*of)(const setting *s);
} oversized[] = {{"q", least_oversized}, {"255", most_oversized}};

static size_t first_place(const setting *s)
{
    (void)s;
    return 0;
}

static size_t last_place(const setting *s)
{
    return width_of(s) - 1;
}

static size_t any_place(const setting *s)
{
    return (size_t)random_below(width_of(s));
}

static const struct {
    const char *name;
    size_t (*of)(const setting *s);
} places[] = {{"the first place", first_place}, {"the last place", last_place}, {"any place", any_place}};

static void compare_oversized(const setting *s, size_t place, uint8_t entry)
{
    uint8_t matrix[MAX_LENGTH * MAX_LENGTH];
    draw_undamaged(s, matrix);
    matrix[place] = entry;
    check(refusal_due(s, matrix) == REFUSED_ENTRY, SETTING_FORMAT ": %s has no oversized entry", SETTING_VALUES(s),
          text_of(s, matrix));
    compare_number(s, matrix, REFUSED_ENTRY);
}

static void oversized_group(size_t value, size_t where)
{
    check_group_begin("%s in %s", oversized[value].name, places[where].name);
    for (size_t number = 0; number < setting_count; number += thinning) {
        const setting *s = &settings[number];
        if (s->k == 0)
            continue;
        for (unsigned round = 0; round < DAMAGE_ROUNDS; round++)
            compare_oversized(s, places[where].of(s), oversized[value].of(s));
    }
    check_group_end();
}

/* ---- Oversized entries in matrices that aren't reduced either ---- */

/* Where the oversized entry stands: in a row after the damaged ones, in a row before them, or anywhere. */
typedef enum { AFTER, BEFORE, ANYWHERE, SIDE_COUNT } side;

static const char *const side_names[SIDE_COUNT] = {
    "after damaged rows", "before damaged rows", "anywhere in a damaged matrix",
};

/* How many rows the damage is done to: all of them, or at least what it needs and at most all but one. */
static uint64_t random_row_count(const setting *s, const damage *done, side where)
{
    return where == ANYWHERE ? s->k : done->least_k + random_below(s->k - done->least_k);
}

/* Rows of a reduced matrix that stand together are reduced by themselves; damaged, they spoil the whole matrix. */
static void compare_both(const setting *s, const damage *done, side where, uint8_t entry)
{
    uint8_t matrix[MAX_LENGTH * MAX_LENGTH];
    uint64_t count = random_row_count(s, done, where), rest_count = where == ANYWHERE ? s->k : s->k - count;
    setting part = {s->q, s->n, count, 0};
    uint8_t *rows = entry_at(s, matrix, where == BEFORE ? rest_count : 0, 0);
    uint8_t *rest = entry_at(s, matrix, where == AFTER ? count : 0, 0);
    draw_undamaged(s, matrix);
    done->call(&part, rows);
    check(broken_sentences(&part, rows) == done->broken && refusal_due(s, matrix) == REFUSED_UNREDUCED,
          SETTING_FORMAT ": %s isn't damaged", SETTING_VALUES(s), text_of(s, matrix));
    compare_number(s, matrix, REFUSED_UNREDUCED);
    rest[random_below(rest_count * s->n)] = entry;
    check(refusal_due(s, matrix) == REFUSED_ENTRY, SETTING_FORMAT ": %s has no oversized entry", SETTING_VALUES(s),
          text_of(s, matrix));
    check(where == ANYWHERE || refusal_due(&part, rows) == REFUSED_UNREDUCED,
          SETTING_FORMAT ": %s has it in the damaged rows", SETTING_VALUES(s), text_of(s, matrix));
    compare_number(s, matrix, REFUSED_ENTRY);
}

static void both_group(size_t value, side where)
{
    check_group_begin("%s %s", oversized[value].name, side_names[where]);
    for (size_t number = 0; number < setting_count; number += thinning)
        for (unsigned round = 0; round < DAMAGE_ROUNDS; round++) {
            const setting *s = &settings[number];
            const damage *done = &damages[round % COUNT_OF(damages)];
            if (has_room(s, done, where != ANYWHERE))
                compare_both(s, done, where, oversized[value].of(s));
        }
    check_group_end();
}

static void oversized_groups(size_t value)
{
    for (size_t where = 0; where < COUNT_OF(places); where++)
        oversized_group(value, where);
    for (side where = AFTER; where < SIDE_COUNT; where++)
        both_group(value, where);
}

int main(int argument_count, char **arguments)
{
    cases_begin(argument_count, arguments);
    for (unsigned place = 0; place < FIELD_COUNT; place++)
        all_matrices_group(second_field_sizes[place]);
    for (size_t place = 0; place < COUNT_OF(damages); place++)
        damage_group(&damages[place]);
    for (size_t value = 0; value < COUNT_OF(oversized); value++)
        oversized_groups(value);
    return check_summary("walk");
}
