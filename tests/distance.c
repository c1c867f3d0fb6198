/*
 * Tests the subspace distance of two lists of rows against the second implementation, which finds it by the common
 * space: every two spaces of small settings, random lists, pairs whose distance is known beforehand, three lists, one
 * row dropped, added or replaced, figures, lists in memory of exactly their length and lists that overlap, and all that
 * is refused. An argument N runs about the N-th part, for slow checkers.
 */
#include "cases.h"
#include "check.h"
#include "harness.h"
#include "rows.h"

/* Room for 66 rows of 18 bytes, the most short lists of a setting, and the lists that every row is put in. */
enum { LIST_ROOM = 66 * 18, SHORT_LISTS = 91, CHANGED_LISTS = 10 };

/* How often each distance and each refusal was met; tests that meet only some of them test little. */
static uint64_t distances[MAX_LENGTH + 1], refusals[REFUSAL_LIMIT];

/* Changes of one row by the distance that they make, and triangles in which one side is the sum of the others. */
static uint64_t dropped[2], added[2], replaced[3], flat_triangles;

/* ---- One call ---- */

/* A list as a call is given it: the row count, and the bytes; either may be wrong. */
typedef struct {
    uint64_t count;
    const uint8_t *rows;
    size_t length;
} given;

static given given_of(const row_list *list)
{
    return (given){list->count, list->rows, (size_t)(list->count * list->s->n)};
}

/* Any call on these very bytes, compared with the second implementation; answers what the library does. */
static harness_answer compare_in_place(uint64_t q, uint64_t n, given first, given second)
{
    uint64_t distance;
    uint32_t refusal = second_distance(q, n, first.count, first.rows, first.length, second.count, second.rows,
                                       second.length, &distance);
    harness_answer answer = harness_distance(q, n, first.count, first.rows, first.length, second.count, second.rows,
                                             second.length);
    check(answer.refusal == refusal && answer.value == distance && answer.dimension == 0 && answer.vector == 0,
          "q = %" PRIu64 ", n = %" PRIu64 ", %" PRIu64 " rows of %zu bytes, %" PRIu64 " of %zu: refusal %u, distance %"
          PRIu64 " instead of %u, %" PRIu64, q, n, first.count, first.length, second.count, second.length,
          answer.refusal, answer.value, refusal, distance);
    refusals[refusal]++;
    distances[distance] += refusal == ACCEPTED;
    return answer;
}

/* Both lists with margins around them, whose bytes are no entries. */
typedef struct {
    uint8_t before[MARGIN], first[LIST_ROOM], between[MARGIN], second[LIST_ROOM], after[MARGIN];
} lent_lists;

/* Any call on copies of the lists, which must be left as they are, and so must the bytes around them. */
static harness_answer compare_call(uint64_t q, uint64_t n, given first, given second)
{
    static lent_lists lists, kept;
    memset(&lists, FILLING, sizeof lists);
    memcpy(lists.first, first.rows, first.length);
    memcpy(lists.second, second.rows, second.length);
    memcpy(&kept, &lists, sizeof lists);
    first.rows = lists.first;
    second.rows = lists.second;
    harness_answer answer = compare_in_place(q, n, first, second);
    check(memcmp(&lists, &kept, sizeof lists) == 0, "a list, or a byte beside it, was changed");
    return answer;
}

/* The distance of two lists that must be accepted. */
static uint64_t distance_of(const row_list *first, const row_list *second)
{
    const setting *s = first->s;
    harness_answer answer = compare_call(s->q, s->n, given_of(first), given_of(second));
    check(answer.refusal == ACCEPTED, SETTING_FORMAT ": %" PRIu64 " and %" PRIu64 " rows are refused %u",
          SETTING_VALUES(s), first->count, second->count, answer.refusal);
    return answer.value;
}

/* The same, either way round. */
static uint64_t distance_either_way(const row_list *first, const row_list *second)
{
    return random_below(2) == 0 ? distance_of(first, second) : distance_of(second, first);
}

/* ---- What holds of any two lists ---- */

/* Whether one span lies within the other, as the reduced rows of both together tell. */
static bool is_nested(const row_list *first, const row_list *second)
{
    row_list reduced[2], both;
    reduce_list(first, &reduced[0]);
    reduce_list(second, &reduced[1]);
    join(&reduced[0], &reduced[1], &both);
    uint64_t joint = dimension_of(&both);
    return joint == reduced[0].count || joint == reduced[1].count;
}

/* The same both ways round, at most n, 0 for equal spans only, and the dimensions' difference for nested ones only. */
static uint64_t compare_lists(const row_list *first, const row_list *second)
{
    const setting *s = first->s;
    uint64_t distance = distance_of(first, second), other_way = distance_of(second, first);
    uint64_t one = dimension_of(first), other = dimension_of(second);
    uint64_t difference = one > other ? one - other : other - one;
    check(distance == other_way, SETTING_FORMAT ": %" PRIu64 ", but %" PRIu64 " the other way round",
          SETTING_VALUES(s), distance, other_way);
    check(distance <= s->n, SETTING_FORMAT ": distance %" PRIu64 " exceeds n", SETTING_VALUES(s), distance);
    check((distance == 0) == same_reduced(first, second), SETTING_FORMAT ": distance %" PRIu64 ", but the spans are %s",
          SETTING_VALUES(s), distance, distance == 0 ? "unequal" : "equal");
    check((distance == difference) == is_nested(first, second), SETTING_FORMAT ": distance %" PRIu64
          " of dimensions %" PRIu64 " and %" PRIu64, SETTING_VALUES(s), distance, one, other);
    return distance;
}

/* ---- Every two spaces, and every two short lists ---- */

/* No distance exceeds the sum of the two by way of a third space. */
static void compare_triangles(size_t count, uint64_t table[SPACES][SPACES])
{
    for (size_t from = 0; from < count; from++)
        for (size_t by = 0; by < count; by += thinning)
            for (size_t to = 0; to < count; to += thinning)
                check(table[from][to] <= table[from][by] + table[by][to], "spaces %zu, %zu, %zu: %" PRIu64 " exceeds %"
                      PRIu64 " + %" PRIu64, from, by, to, table[from][to], table[from][by], table[by][to]);
}

static void every_pair_group(uint64_t q, uint64_t n, size_t due)
{
    static row_list spaces[SPACES];
    static uint64_t table[SPACES][SPACES];
    setting s = {q, n, 0, 0};
    check_group_begin("every two spaces, %" PRIu64 ",%" PRIu64, q, n);
    size_t count = every_space(&s, spaces);
    check(count == due, "%zu spaces", count);
    for (size_t first = 0; first < count; first++)
        for (size_t second = 0; second < count; second += thinning) {
            table[first][second] = compare_lists(&spaces[first], &spaces[second]);
            check((table[first][second] == 0) == (first == second), "spaces %zu and %zu: %" PRIu64, first, second,
                  table[first][second]);
        }
    compare_triangles(count, table);
    check_group_end();
}

/* Lists every list of at most two rows, and answers how many there are. */
static size_t every_list(const setting *s, row_list *lists)
{
    size_t found = 0;
    for (uint64_t count = 0; count <= 2; count++) {
        row_list one = {s, count, {0}};
        do
            lists[found++] = one;
        while (next_entries(s->q - 1, one.rows, given_of(&one).length));
    }
    return found;
}

static void every_list_group(uint64_t q, uint64_t n, size_t due)
{
    static row_list lists[SHORT_LISTS];
    setting s = {q, n, 0, 0};
    check_group_begin("every two lists of up to two rows, %" PRIu64 ",%" PRIu64, q, n);
    size_t count = every_list(&s, lists);
    check(count == due, "%zu lists", count);
    for (size_t first = 0; first < count; first++)
        for (size_t second = 0; second < count; second += thinning)
            compare_lists(&lists[first], &lists[second]);
    check_group_end();
}

static void every_pair_groups(void)
{
    every_list_group(2, 2, 21);
    every_list_group(2, 3, 73);
    every_list_group(3, 2, 91);
    every_list_group(8, 1, 73);
    every_pair_group(2, 1, 2);
    every_pair_group(2, 2, 5);
    every_pair_group(2, 3, 16);
    every_pair_group(2, 4, 67);
    every_pair_group(3, 2, 6);
    every_pair_group(3, 3, 28);
    every_pair_group(4, 2, 7);
    every_pair_group(4, 3, 44);
    every_pair_group(5, 2, 8);
    every_pair_group(7, 2, 10);
    every_pair_group(8, 2, 11);
}

/* ---- Random lists ---- */

/* The second list's rows are any, linear combinations of the first's, or both. */
static void compare_two(const setting *s)
{
    row_list first, second;
    uint64_t kind = random_below(3);
    random_list(s, &first);
    random_list(s, &second);
    for (uint64_t row = 0; row < second.count; row++)
        if (kind == 1 || (kind == 2 && random_below(2) == 0))
            random_mixture(s->q, s->n, first.count, first.rows, second.rows + row * s->n);
    compare_lists(&first, &second);
    check(distance_of(&first, &first) == 0, SETTING_FORMAT ": a list and itself", SETTING_VALUES(s));
}

/* Three lists out of the span of n rows or fewer: no distance exceeds the sum of the other two. */
static void compare_three(const setting *s)
{
    row_list base, lists[3];
    uint64_t sides[3], sum = 0;
    random_rows(s, random_below(s->n + 1), &base);
    for (unsigned which = 0; which < 3; which++)
        random_mixtures(&base, random_below(s->n / 2 + 3), &lists[which]);
    for (unsigned which = 0; which < 3; which++) {
        sides[which] = compare_lists(&lists[which], &lists[(which + 1) % 3]);
        sum += sides[which];
    }
    for (unsigned which = 0; which < 3; which++) {
        check(2 * sides[which] <= sum, SETTING_FORMAT ": %" PRIu64 " exceeds the two by way of a third list, %" PRIu64
              " with it", SETTING_VALUES(s), sides[which], sum);
        flat_triangles += sum > 0 && 2 * sides[which] == sum;
    }
}

/* Lists of none, one, n or 64 rows out of the span of n rows or fewer; the last of a list is any row. */
static void compare_row_counts(const setting *s)
{
    const uint64_t counts[] = {0, 1, s->n, MAX_ROWS};
    row_list base, lists[2];
    random_rows(s, random_below(s->n + 1), &base);
    for (size_t place = 0; place < COUNT_OF(counts); place++) {
        for (unsigned which = 0; which < 2; which++) {
            uint64_t count = counts[which == 0 ? place : random_below(COUNT_OF(counts))];
            random_mixtures(&base, count, &lists[which]);
            if (count > 0)
                random_entries(s->q, lists[which].rows + (count - 1) * s->n, (size_t)s->n);
        }
        compare_lists(&lists[0], &lists[1]);
    }
}

/* ---- Pairs whose distance is known beforehand ---- */

/* Another list of the same span: other rows, more of them, with zero rows and repeats among them, in any order. */
static void disguise(const row_list *list, row_list *other)
{
    uint64_t q = list->s->q, n = list->s->n;
    uint8_t mixture[MAX_LENGTH];
    *other = *list;
    for (uint64_t row = 1; row < list->count; row++)
        add_multiple(q, n, other->rows + row * n, list->rows + (row - 1) * n, (uint8_t)random_below(q));
    for (uint64_t more = random_below(MAX_ROWS + 1 - list->count); more > 0; more--) {
        uint64_t start = random_below(list->count + 1), some = random_below(list->count - start + 1);
        random_mixture(q, n, some, list->rows + start * n, mixture);
        append(other, mixture);
    }
    shuffle_rows(n, other->count, other->rows);
}

/* The distance is the number of rows that only one of the lists has, also of other lists of the same spans. */
static void compare_plan(const setting *s)
{
    plan one;
    row_list first = {s, 0, {0}}, second = first, disguised[2];
    random_plan(s, (unsigned)random_below(KINDS), &one);
    uint64_t shared = one.parts[SHARED], due = one.parts[FIRST] + one.parts[SECOND];
    append_rows(&first, shared + one.parts[FIRST], one.basis);
    append_rows(&second, one.parts[SECOND], one.basis + first.count * s->n);
    append_rows(&second, shared, one.basis);
    disguise(&first, &disguised[0]);
    disguise(&second, &disguised[1]);
    check(compare_lists(&first, &second) == due, SETTING_FORMAT ": not %" PRIu64, SETTING_VALUES(s), due);
    check(compare_lists(&disguised[0], &disguised[1]) == due, SETTING_FORMAT ": other rows, not %" PRIu64,
          SETTING_VALUES(s), due);
    check(distance_either_way(&first, &disguised[0]) == 0 && distance_either_way(&second, &disguised[1]) == 0,
          SETTING_FORMAT ": other rows of the same span", SETTING_VALUES(s));
}

/* ---- One row dropped, added or replaced ---- */

static void drop_row(const row_list *list, uint64_t place, row_list *others)
{
    uint64_t n = list->s->n;
    *others = (row_list){list->s, 0, {0}};
    append_rows(others, place, list->rows);
    append_rows(others, list->count - place - 1, list->rows + (place + 1) * n);
}

static void insert_row(const row_list *list, uint64_t place, const uint8_t *row, row_list *more)
{
    *more = (row_list){list->s, 0, {0}};
    append_rows(more, place, list->rows);
    append(more, row);
    append_rows(more, list->count - place, list->rows + place * list->s->n);
}

/* Any row, or one of the list's span. */
static void random_row(const row_list *list, uint8_t *row)
{
    const setting *s = list->s;
    if (random_below(2) == 0)
        random_entries(s->q, row, (size_t)s->n);
    else
        random_mixture(s->q, s->n, list->count, list->rows, row);
}

/* Without a row: 1 where the others don't span it, else 0. */
static void compare_dropped(const row_list *list, uint64_t place)
{
    row_list others;
    drop_row(list, place, &others);
    bool due = is_outside(&others, list->rows + place * list->s->n);
    uint64_t distance = distance_either_way(list, &others);
    check(distance == due, SETTING_FORMAT ": %" PRIu64 " without row %" PRIu64, SETTING_VALUES(list->s), distance,
          place);
    dropped[due]++;
}

/* With one row more: 1 where the list doesn't span it, else 0. */
static void compare_added(const row_list *list, uint64_t place, const uint8_t *row)
{
    row_list more;
    insert_row(list, place, row, &more);
    bool due = is_outside(list, row);
    uint64_t distance = distance_either_way(list, &more);
    check(distance == due, SETTING_FORMAT ": %" PRIu64 " with a row more at %" PRIu64, SETTING_VALUES(list->s),
          distance, place);
    added[due]++;
}

/* With another row in the place of one: 1 for either of the two rows that the other list doesn't span. */
static void compare_replaced(const row_list *list, uint64_t place, const uint8_t *row)
{
    row_list others, changed;
    drop_row(list, place, &others);
    insert_row(&others, place, row, &changed);
    unsigned due = is_outside(list, row) + is_outside(&changed, list->rows + place * list->s->n);
    uint64_t distance = distance_either_way(list, &changed);
    check(distance <= 2 && distance == due, SETTING_FORMAT ": %" PRIu64 " with another row at %" PRIu64,
          SETTING_VALUES(list->s), distance, place);
    replaced[due]++;
}

/* At every place of a list. */
static void compare_changes(const setting *s)
{
    row_list list;
    uint8_t row[MAX_LENGTH];
    random_list(s, &list);
    for (uint64_t place = 0; place < list.count; place++) {
        compare_dropped(&list, place);
        random_row(&list, row);
        compare_replaced(&list, place, row);
        compare_added(&list, place, row);
    }
    random_row(&list, row);
    compare_added(&list, list.count, row);
}

/* Every row, at one place of a list. */
static void every_row_group(uint64_t q, uint64_t n)
{
    setting s = {q, n, 0, 0};
    check_group_begin("every row added, or in the place of another, %" PRIu64 ",%" PRIu64, q, n);
    for (unsigned round = 0; round < CHANGED_LISTS; round += (unsigned)thinning) {
        row_list list;
        uint8_t row[MAX_LENGTH] = {0};
        do
            random_list(&s, &list);
        while (list.count == 0);
        uint64_t place = random_below(list.count);
        do {
            compare_replaced(&list, place, row);
            compare_added(&list, place, row);
        } while (next_entries(q - 1, row, (size_t)n));
    }
    check_group_end();
}

static void every_row_groups(void)
{
    every_row_group(2, 5);
    every_row_group(3, 4);
    every_row_group(4, 3);
    every_row_group(5, 3);
    every_row_group(7, 2);
    every_row_group(8, 2);
}

/* ---- Lists of 64 rows ---- */

/* One row from outside among 64 is seen at every place, on either side. */
static void compare_places(const setting *s)
{
    row_list base, list, changed;
    uint8_t outside[MAX_LENGTH];
    random_rows(s, random_below(s->n), &base);
    random_mixtures(&base, MAX_ROWS, &list);
    outside_row(&base, outside);
    for (uint64_t place = 0; place < MAX_ROWS; place += thinning) {
        changed = list;
        memcpy(changed.rows + place * s->n, outside, (size_t)s->n);
        check(distance_of(&list, &changed) > 0 && distance_of(&changed, &list) > 0,
              SETTING_FORMAT ": row %" PRIu64 " isn't seen", SETTING_VALUES(s), place);
    }
}

/* 64 rows pass and 65 give 13, on either side and on both; one row of 64 may be dropped or replaced. */
static void compare_limit(const setting *s)
{
    row_list base, list, others, changed, longer;
    uint8_t row[MAX_LENGTH];
    uint64_t place = random_below(MAX_ROWS);
    random_rows(s, random_below(s->n + 1), &base);
    random_mixtures(&base, MAX_ROWS, &list);
    random_row(&list, row);
    insert_row(&list, place, row, &longer);
    drop_row(&list, place, &others);
    insert_row(&others, place, row, &changed);
    const given right = given_of(&list), wrong = given_of(&longer);
    check(compare_lists(&list, &changed) <= 2 && compare_lists(&list, &others) <= 1, "one of 64 rows");
    check(compare_call(s->q, s->n, wrong, right).refusal == REFUSED_ROW_COUNT, "65 and 64 rows");
    check(compare_call(s->q, s->n, right, wrong).refusal == REFUSED_ROW_COUNT, "64 and 65 rows");
    check(compare_call(s->q, s->n, wrong, wrong).refusal == REFUSED_ROW_COUNT, "65 rows");
}

/* A group over every q and n. */
static void shapes_group(const char *name, void (*compare)(const setting *s))
{
    check_group_begin("%s", name);
    for (size_t number = 0; number < setting_count; number++)
        if (settings[number].k == 0)
            compare(&settings[number]);
    check_group_end();
}

/* ---- Figures ---- */

static void compare_figure(uint64_t q, uint64_t n, const char *first, const char *second, uint64_t due)
{
    setting s = {q, n, 0, 0};
    row_list one = {&s, 0, {0}}, other = one;
    one.count = read_rows(first, one.rows) / n;
    other.count = read_rows(second, other.rows) / n;
    uint64_t distance = compare_lists(&one, &other);
    check(distance == due, "%s and %s: %" PRIu64 " instead of %" PRIu64, first, second, distance, due);
}

static void figures_group(void)
{
    check_group_begin("figures");
    compare_figure(2, 3, "110", "011", 2);
    compare_figure(2, 3, "110", "110/011", 1);
    compare_figure(2, 3, "100/010", "010/001", 2);
    compare_figure(3, 2, "21", "12", 0);
    compare_figure(2, 3, "", "100/010/001", 3);
    compare_figure(2, 3, "000/110/110", "110", 0);
    compare_figure(2, 3, "110/011/101", "101", 1);
    compare_figure(2, 1, "0", "1", 1);
    compare_figure(8, 1, "7", "3", 0);
    compare_figure(2, 4, "1100/0011", "1010/0101", 2);
    compare_figure(3, 2, "11", "12", 2);
    compare_figure(5, 3, "104/014", "100/010", 2);
    compare_figure(7, 4, "1000/0100", "1010/0101", 4);
    /* Twice 12 is 23 in four, and twice 14 is 23 in eight. */
    compare_figure(4, 2, "12", "23", 0);
    compare_figure(4, 2, "12", "20", 2);
    compare_figure(8, 2, "14", "23", 0);
    compare_figure(8, 2, "12", "24/12", 0);
    /* 130 and 150 are in the first spans, as 2 + 3 * 3 = 0 in four and 2 + 5 * 4 = 0 in eight. */
    compare_figure(4, 3, "102/013", "100/010/130", 2);
    compare_figure(8, 3, "102/014", "150", 1);
    check_group_end();
}

/* No rows, multiples of all unit rows, and two parts of these, of which each has what the other lacks. */
static void compare_ends(const setting *s)
{
    uint64_t n = s->n;
    row_list none = {s, 0, {0}}, all = none, left = none, right = none;
    uint8_t row[MAX_LENGTH];
    for (uint64_t column = 0; column < n; column++) {
        memset(row, 0, sizeof row);
        row[column] = (uint8_t)(s->q - 1);
        append(&all, row);
        append(random_below(2) == 0 ? &left : &right, row);
    }
    check(compare_lists(&none, &none) == 0 && compare_lists(&all, &all) == 0, "equal, " SETTING_FORMAT,
          SETTING_VALUES(s));
    check(compare_lists(&none, &all) == n, "none and all, " SETTING_FORMAT, SETTING_VALUES(s));
    check(compare_lists(&left, &right) == n, "two parts, " SETTING_FORMAT, SETTING_VALUES(s));
    check(compare_lists(&left, &all) == right.count && compare_lists(&none, &right) == right.count,
          "a part, " SETTING_FORMAT, SETTING_VALUES(s));
}

/* ---- Several faults at once ---- */

/* What can be wrong of a list, a bit each. */
enum { COUNT_FAULT = 1, LENGTH_FAULT = 2, ENTRY_FAULT = 4 };

/* All that can be wrong, in the order of the refusals: q, n, and where the three bits of each list begin. */
enum { FIELD_FAULT = 1, SHAPE_FAULT = 2 };
enum { FIRST_FAULTS = 2, SECOND_FAULTS = 5, FAULTS = 8 };

/* The refusal of each bit. */
static const uint32_t fault_refusals[FAULTS] = {
    REFUSED_FIELD, REFUSED_SHAPE, REFUSED_ROW_COUNT, REFUSED_LENGTH, REFUSED_ENTRY, REFUSED_ROW_COUNT, REFUSED_LENGTH,
    REFUSED_ENTRY,
};

/* Numbers that are no n: those beside the right ones, those that a narrower number would cut to one, and the last. */
static const uint64_t wrong_lengths[] = {
    0, 17, 18, 32, 255, 256, 256 + 1, 256 + 8, 256 + 16, 65536 + 3, UINT64_C(1) << 32, (UINT64_C(1) << 32) + 2,
    (UINT64_C(1) << 32) + 16, (UINT64_C(1) << 63) + 1, UINT64_MAX,
};

/* A list of two rows or more with these faults, in bytes that have room for it. */
static given faulty_list(const setting *s, unsigned faults, uint8_t *bytes)
{
    given one = {2 + random_below(MAX_ROWS - 1), bytes, 0};
    if (faults & COUNT_FAULT)
        one.count = MAX_ROWS + 1 + random_below(2);
    one.length = (size_t)(one.count * s->n);
    if (faults & LENGTH_FAULT)
        one.length += random_below(2) == 0 ? 1 : (size_t)-1;
    random_entries(s->q, bytes, one.length);
    if (faults & ENTRY_FAULT)
        bytes[random_below(one.length)] = oversized(s->q);
    return one;
}

/* The refusal of the first fault. */
static uint32_t first_refusal(unsigned faults)
{
    unsigned place = 0;
    while (place < FAULTS && !(faults >> place & 1))
        place++;
    return place < FAULTS ? fault_refusals[place] : ACCEPTED;
}

/* Every set of faults: each alone, with its neighbours, and with all others. */
static void compare_faults(const setting *s)
{
    uint8_t first[LIST_ROOM], second[LIST_ROOM];
    for (unsigned faults = 0; faults < 1 << FAULTS; faults++) {
        uint64_t q = faults & FIELD_FAULT ? wrong_sizes[random_below(COUNT_OF(wrong_sizes))] : s->q;
        uint64_t n = faults & SHAPE_FAULT ? wrong_lengths[random_below(COUNT_OF(wrong_lengths))] : s->n;
        given one = faulty_list(s, faults >> FIRST_FAULTS, first);
        given other = faulty_list(s, faults >> SECOND_FAULTS, second);
        harness_answer answer = compare_call(q, n, one, other);
        check(answer.refusal == first_refusal(faults), SETTING_FORMAT ", faults %u: refusal %u instead of %u",
              SETTING_VALUES(s), faults, answer.refusal, first_refusal(faults));
    }
}

/* ---- Each fault ---- */

/* A list beside one that is accepted, on either side, and beside itself: always this refusal. */
static void compare_beside(const setting *s, given one, uint32_t due)
{
    row_list good;
    random_list(s, &good);
    uint32_t first = compare_call(s->q, s->n, one, given_of(&good)).refusal;
    uint32_t second = compare_call(s->q, s->n, given_of(&good), one).refusal;
    uint32_t both = compare_call(s->q, s->n, one, one).refusal;
    check(first == due && second == due && both == due,
          SETTING_FORMAT ", %" PRIu64 " rows of %zu bytes: refusals %u, %u, %u instead of %u", SETTING_VALUES(s),
          one.count, one.length, first, second, both, due);
}

/* Row counts small and huge, with lengths that are right, nearly, or right for a product that was cut. */
static void compare_counts(const setting *s)
{
    static const uint8_t rows[LIST_ROOM];
    for (unsigned place = 0; place < ROW_COUNTS; place++) {
        uint64_t count = row_counts[place], product = count * s->n;
        size_t right = (size_t)(count <= 66 ? product : count % 64);
        const size_t lengths[] = {right, right + 1, right > 0 ? right - 1 : 2, 0, (size_t)s->n, product % LIST_ROOM,
                                  (uint32_t)product % LIST_ROOM, (uint16_t)product % LIST_ROOM, (uint8_t)product};
        for (size_t which = 0; which < COUNT_OF(lengths); which++) {
            uint32_t due = lengths[which] == product ? ACCEPTED : REFUSED_LENGTH;
            compare_beside(s, (given){count, rows, lengths[which]}, count > MAX_ROWS ? REFUSED_ROW_COUNT : due);
        }
    }
}

/* An entry that is q, 255 or any such number, at either end of the first and the last row, and anywhere. */
static void compare_entries(const setting *s)
{
    row_list list;
    random_rows(s, random_below(2) == 0 ? MAX_ROWS : 1 + random_below(s->n), &list);
    size_t last = given_of(&list).length - 1;
    const size_t places[] = {0, (size_t)s->n - 1, last + 1 - (size_t)s->n, last, random_below(last + 1)};
    const uint8_t entries[] = {(uint8_t)s->q, 255, oversized(s->q)};
    for (size_t place = 0; place < COUNT_OF(places); place++)
        for (size_t which = 0; which < COUNT_OF(entries); which++) {
            row_list damaged = list;
            damaged.rows[places[place]] = entries[which];
            compare_beside(s, given_of(&damaged), REFUSED_ENTRY);
        }
}

/* Every wrong n, with lists of none, one and two rows whose lengths are right where they can be. */
static void wrong_lengths_group(void)
{
    static const uint8_t rows[LIST_ROOM];
    check_group_begin("wrong lengths of rows");
    for (unsigned field = 0; field < FIELD_COUNT; field++)
        for (size_t place = 0; place < COUNT_OF(wrong_lengths); place++)
            for (uint64_t count = 0; count <= 2; count++) {
                setting s = {second_field_sizes[field], wrong_lengths[place], 0, 0};
                given right = {count, rows, (size_t)(count * s.n) % LIST_ROOM}, none = {0, rows, 0};
                check(compare_call(s.q, s.n, right, right).refusal == REFUSED_SHAPE &&
                      compare_call(s.q, s.n, right, none).refusal == REFUSED_SHAPE &&
                      compare_call(s.q, s.n, none, right).refusal == REFUSED_SHAPE, SETTING_FORMAT ": not refused 2",
                      SETTING_VALUES(&s));
            }
    check_group_end();
}

/* What was answered to field sizes, right and wrong. */
static uint64_t size_refusals[REFUSAL_LIMIT];

/* So many rows of this length, right or wrong, and one. */
static void compare_shape(uint64_t q, uint64_t n, uint64_t count)
{
    static const uint8_t rows[LIST_ROOM] = {1};
    harness_answer answer = compare_call(q, n, (given){count, rows, (size_t)(count * n)}, (given){1, rows, (size_t)n});
    if (answer.refusal < REFUSAL_LIMIT)
        size_refusals[answer.refusal]++;
}

static void sizes_group(void)
{
    check_group_begin("field sizes, right and wrong");
    every_size(compare_shape, size_refusals);
    check_group_end();
}

/* ---- Where the lists lie ---- */

/* Both lists in memory of exactly their length, so that a checker of memory sees what is read beyond. */
static void compare_allocated(const setting *s, given first, given second)
{
    uint8_t *copies[] = {malloc(first.length), malloc(second.length)};
    memcpy(copies[0], first.rows, first.length);
    memcpy(copies[1], second.rows, second.length);
    first.rows = copies[0];
    second.rows = copies[1];
    compare_in_place(s->q, s->n, first, second);
    free(copies[0]);
    free(copies[1]);
}

static void compare_exact(const setting *s)
{
    row_list first, second;
    uint8_t bytes[2][LIST_ROOM];
    random_list(s, &first);
    random_list(s, &second);
    compare_allocated(s, given_of(&first), given_of(&second));
    for (unsigned faults = 0; faults < 8; faults++) {
        given right = faulty_list(s, 0, bytes[0]), wrong = faulty_list(s, faults, bytes[1]);
        compare_allocated(s, right, wrong);
        compare_allocated(s, wrong, right);
    }
}

/* Any rows of the bytes, which may begin between two rows. */
static given random_part(const row_list *list)
{
    uint64_t n = list->s->n, count = random_below(list->count), start = random_below((list->count - count) * n + 1);
    return (given){count, list->rows + start, (size_t)(count * n)};
}

/* The same bytes as both lists have distance 0, and bytes of which some are in both lists have any. */
static void compare_overlapping(const setting *s)
{
    row_list base, list, kept;
    random_rows(s, 1 + random_below(3), &base);
    random_mixtures(&base, 1 + random_below(MAX_ROWS), &list);
    kept = list;
    given whole = given_of(&list), part = random_part(&list);
    harness_answer answer = compare_in_place(s->q, s->n, whole, whole);
    check(answer.refusal == ACCEPTED && answer.value == 0, SETTING_FORMAT ": a list and itself", SETTING_VALUES(s));
    compare_in_place(s->q, s->n, whole, part);
    compare_in_place(s->q, s->n, part, whole);
    compare_in_place(s->q, s->n, part, random_part(&list));
    check(memcmp(list.rows, kept.rows, whole.length) == 0, SETTING_FORMAT ": a list was changed", SETTING_VALUES(s));
}

/* ---- What was met ---- */

/* Whether the whole run meets something about a hundred times or more. */
static bool is_often(uint64_t times)
{
    return times * thinning >= 100;
}

/* Every distance, every refusal and every change of one row was met, and no refusals but these. */
static void met_group(void)
{
    static const uint32_t due[] = {ACCEPTED, REFUSED_FIELD, REFUSED_SHAPE, REFUSED_LENGTH, REFUSED_ENTRY,
                                   REFUSED_ROW_COUNT};
    uint64_t of_due = 0;
    check_group_begin("answers that were met");
    for (unsigned distance = 0; distance <= MAX_LENGTH; distance++)
        check(is_often(distances[distance]), "distance %u: %" PRIu64, distance, distances[distance]);
    for (size_t place = 0; place < COUNT_OF(due); place++) {
        check(is_often(refusals[due[place]]), "refusal %u: %" PRIu64, due[place], refusals[due[place]]);
        of_due += refusals[due[place]];
    }
    check(of_due == answered(refusals), "other refusals");
    for (unsigned distance = 0; distance < 2; distance++)
        check(is_often(dropped[distance]) && is_often(added[distance]), "one row less or more, distance %u", distance);
    for (unsigned distance = 0; distance <= 2; distance++)
        check(is_often(replaced[distance]), "another row, distance %u: %" PRIu64, distance, replaced[distance]);
    check(is_often(flat_triangles), "distances that are the sum by way of a third list: %" PRIu64, flat_triangles);
    check_group_end();
}

int main(int argument_count, char **arguments)
{
    static const comparison each[] = {
        {"random lists", 10, compare_two}, {"three lists", 5, compare_three},
        {"none, one, n or 64 rows", 2, compare_row_counts}, {"known distances", 5, compare_plan},
        {"one row dropped, added or replaced", 2, compare_changes}, {"several faults at once", 1, compare_faults},
        {"memory of exactly the length", 1, compare_exact}, {"lists that overlap", 2, compare_overlapping},
    };
    cases_begin(argument_count, arguments);
    every_pair_groups();
    for (unsigned place = 0; place < FIELD_COUNT; place++)
        comparison_groups(second_field_sizes[place], each, COUNT_OF(each));
    every_row_groups();
    figures_group();
    shapes_group("none and all unit rows", compare_ends);
    shapes_group("one row from outside among 64", compare_places);
    shapes_group("64 and 65 rows", compare_limit);
    shapes_group("row counts and lengths", compare_counts);
    shapes_group("oversized entries", compare_entries);
    wrong_lengths_group();
    sizes_group();
    met_group();
    return check_summary("distance");
}
