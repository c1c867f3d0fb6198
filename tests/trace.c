/*
 * Tests that the bytes of a receiver tell its settings, its pack and the span of the rows that it accepted, and keep no
 * trace of how these came. Receivers are equal after any two sequences of the same rows, with repeats, idle and refused
 * rows and Closes put in anywhere, after any other rows of the same span, and after pools in any order. They differ
 * where the spans differ, if only by one row or in one byte; with another pack or another k they differ in that alone.
 * Which spans are equal comes from ranks that the second implementation tells, and for every list of few rows of small
 * settings from the set of all spanned rows. An argument N runs about the N-th part, for slow checkers.
 */
#include "cases.h"
#include "check.h"
#include "receivers.h"

/* Receivers are compared as memory, so no byte may lie between the fields. */
_Static_assert(sizeof(harness_receiver) == 256 + 5 * sizeof(uint64_t), "a receiver without padding");

enum { SQUARE = MAX_LENGTH * MAX_LENGTH, LIST_ROWS = 20, MOST_TIMES = 3, SPACES = 67, VECTORS = 64 };

/* What was met: lists by their dimension, differences, pairs of lists by their spans, and pools. */
static uint64_t lists_of_nothing, lists_of_all, lists_between, wider_spans, replaced_rows;
static uint64_t pairs, equal_spans, unequal_spans, unequal_of_equal_dimension, crossing_pools;

/* ---- Lists of rows ---- */

/* Rows of a setting's length, one after another. */
typedef struct {
    const setting *s;
    uint64_t count;
    uint8_t rows[ROWS_LIMIT];
} row_list;

static void append(row_list *list, const uint8_t *row)
{
    memcpy(list->rows + list->count++ * list->s->n, row, (size_t)list->s->n);
}

/* So many linear combinations of the rows of another list. */
static void random_mixtures(const row_list *base, uint64_t count, row_list *list)
{
    const setting *s = base->s;
    list->s = s;
    list->count = count;
    for (uint64_t place = 0; place < count; place++)
        random_mixture(s->q, s->n, base->count, base->rows, list->rows + place * s->n);
}

static void random_rows(const setting *s, uint64_t count, row_list *list)
{
    list->s = s;
    list->count = count;
    random_entries(s->q, list->rows, (size_t)(count * s->n));
}

/* Up to 20 rows: any, or linear combinations of n rows or fewer, so that every dimension comes. */
static void random_list(const setting *s, row_list *list)
{
    row_list base;
    uint64_t count = random_below(LIST_ROWS + 1);
    random_rows(s, random_below(s->n + 1), &base);
    if (random_below(4) == 0)
        random_rows(s, count, list);
    else
        random_mixtures(&base, count, list);
}

static void join(const row_list *first, const row_list *second, row_list *both)
{
    *both = *first;
    for (uint64_t place = 0; place < second->count; place++)
        append(both, second->rows + place * second->s->n);
}

/* ---- Spans, as ranks tell them ---- */

static uint64_t dimension_of(const row_list *list)
{
    return factor_rank(list->s->q, list->s->n, list->count, list->rows);
}

/* Whether the spans are equal: neither list adds a dimension to the other. */
static bool same_span(const row_list *first, const row_list *second)
{
    row_list both;
    join(first, second, &both);
    return dimension_of(first) == dimension_of(&both) && dimension_of(second) == dimension_of(&both);
}

/* Whether the second implementation reduces both lists to the same rows. */
static bool same_reduced(const row_list *first, const row_list *second)
{
    const setting *s = first->s;
    size_t square = (size_t)(s->n * s->n);
    uint8_t reduced[2][SQUARE];
    second_told told;
    second_reduce(s->q, s->n, first->count, first->rows, (size_t)(first->count * s->n), reduced[0], square, &told);
    second_reduce(s->q, s->n, second->count, second->rows, (size_t)(second->count * s->n), reduced[1], square, &told);
    return memcmp(reduced[0], reduced[1], square) == 0;
}

static bool is_outside(const row_list *list, const uint8_t *row)
{
    row_list more = *list;
    append(&more, row);
    return dimension_of(&more) > dimension_of(list);
}

/* A row outside of a span that is not all rows: any, or one that differs in one entry from a row of the span. */
static void outside_row(const row_list *list, uint8_t *row)
{
    const setting *s = list->s;
    do {
        random_entries(s->q, row, (size_t)s->n);
        if (random_below(2) == 0) {
            random_mixture(s->q, s->n, list->count, list->rows, row);
            row[random_below(s->n)] = (uint8_t)random_below(s->q);
        }
    } while (!is_outside(list, row));
}

/* A basis of the list's span, drawn anew out of linear combinations of its rows. */
static void random_basis(const row_list *list, row_list *basis)
{
    uint64_t dimension = dimension_of(list);
    row_list one;
    basis->s = list->s;
    basis->count = 0;
    while (basis->count < dimension) {
        random_mixtures(list, 1, &one);
        if (is_outside(basis, one.rows))
            append(basis, one.rows);
    }
}

/* ---- Sequences ---- */

/* A row that must be accepted: raised where the dimension grows, else it leaves every byte, and idle where zero. */
static void take_row(const setting *s, const uint8_t *row, harness_receiver *receiver)
{
    take_form form = random_form();
    harness_step step = take(form, receiver, row, (size_t)s->n);
    bool grown = step.receiver.dimension == receiver->dimension + 1;
    check(answers(&step, (take_answer){ACCEPTED, grown, is_zero(row, s->n)}),
          RECEIVER_FORMAT ": a row %s gives %u, raised %u, idle %u", RECEIVER_VALUES(receiver), form_names[form],
          step.refusal, step.raised, step.idle);
    check(grown || same_receiver(&step.receiver, receiver), RECEIVER_FORMAT ": a row %s, not raised, leaves a trace",
          RECEIVER_VALUES(receiver), form_names[form]);
    count_answer(&step);
    *receiver = step.receiver;
}

/* Offers zeros or a damaged row, or these or a good row for another pack, which must leave every byte. */
static void put_in_row(const setting *s, harness_receiver *receiver)
{
    uint8_t row[ROW_ROOM];
    size_t length = (size_t)s->n;
    uint64_t pack = receiver->pack, kind = random_below(3);
    take_answer due = idle;
    random_entries(s->q, row, ROW_ROOM);
    if (kind == 0)
        memset(row, 0, length);
    if (kind == 1) {
        length = refused_row(s->q, s->n, row);
        due = refused(length == s->n ? REFUSED_ENTRY : REFUSED_LENGTH);
    }
    if (kind == 2 || random_below(4) == 0) {
        pack = other_pack(pack);
        due = refused(REFUSED_PACK);
    }
    harness_step step = take_for(random_form(), receiver, pack, row, length);
    check(answers(&step, due), RECEIVER_FORMAT ": %zu bytes for %" PRIu64 " give %u, raised %u, idle %u",
          RECEIVER_VALUES(receiver), length, pack, step.refusal, step.raised, step.idle);
    check(same_receiver(&step.receiver, receiver), RECEIVER_FORMAT ": %zu bytes for %" PRIu64 " leave a trace",
          RECEIVER_VALUES(receiver), length, pack);
    count_answer(&step);
    *receiver = step.receiver;
}

/* Closes in a numbering right or wrong; the dimension tells which answer is due. */
static void put_in_close(const setting *s, const harness_receiver *receiver)
{
    uint64_t numbering = random_below(4), dimension = receiver->dimension;
    uint32_t due = dimension < s->k ? REFUSED_TOO_FEW : dimension > s->k ? REFUSED_TOO_MANY : ACCEPTED;
    if (numbering != EXTENDED && numbering != FERRERS)
        due = REFUSED_NUMBERING;
    harness_answer answer = harness_close(*receiver, numbering);
    check(answer.refusal == due, RECEIVER_FORMAT " in %" PRIu64 ": closed with %u", RECEIVER_VALUES(receiver),
          numbering, answer.refusal);
    close_refusals[due]++;
}

/* None, one or a few calls that must leave no trace. */
static void put_in(const setting *s, harness_receiver *receiver)
{
    while (random_below(2) == 0)
        if (random_below(4) == 0)
            put_in_close(s, receiver);
        else
            put_in_row(s, receiver);
}

static harness_receiver take_in_order(const row_list *list, uint64_t pack)
{
    const setting *s = list->s;
    harness_receiver receiver = harness_start(s->q, s->n, s->k, pack).receiver;
    for (uint64_t place = 0; place < list->count; place++)
        take_row(s, list->rows + place * s->n, &receiver);
    return receiver;
}

/* The places of the rows of a list, each up to three times, in any order; answers how many they are. */
static uint64_t random_places(uint64_t count, uint8_t places[MOST_TIMES * MAX_ROWS])
{
    uint64_t length = 0;
    for (uint64_t place = 0; place < count; place++)
        for (uint64_t times = 1 + random_below(2) * random_below(MOST_TIMES); times > 0; times--) {
            uint64_t other = random_below(length + 1);
            places[length++] = places[other];
            places[other] = (uint8_t)place;
        }
    return length;
}

/* The rows in any order, some of them again, and anything that must leave no trace before and after each. */
static harness_receiver take_anyhow(const row_list *list, uint64_t pack)
{
    const setting *s = list->s;
    uint8_t places[MOST_TIMES * MAX_ROWS] = {0};
    uint64_t length = random_places(list->count, places);
    harness_receiver receiver = harness_start(s->q, s->n, s->k, pack).receiver;
    for (uint64_t turn = 0; turn < length; turn++) {
        put_in(s, &receiver);
        take_row(s, list->rows + places[turn] * s->n, &receiver);
    }
    put_in(s, &receiver);
    return receiver;
}

static void compare_same(const harness_receiver *first, const harness_receiver *second, const char *after)
{
    check(same_receiver(first, second), RECEIVER_FORMAT ", and " RECEIVER_FORMAT ": not equal after %s",
          RECEIVER_VALUES(first), RECEIVER_VALUES(second), after);
}

static void compare_differing(const harness_receiver *first, const harness_receiver *second, const char *after)
{
    check(!same_receiver(first, second), RECEIVER_FORMAT ": equal after %s", RECEIVER_VALUES(first), after);
}

/* ---- Equal spans ---- */

static void count_dimension(const setting *s, uint64_t dimension)
{
    lists_of_nothing += dimension == 0;
    lists_of_all += dimension == s->n;
    lists_between += dimension > 0 && dimension < s->n;
}

/* The same rows as they stand and anyhow: equal in every field, and what is closed is the same. */
static void compare_sequences(const setting *s)
{
    row_list list;
    uint64_t pack = random_pack();
    random_list(s, &list);
    uint64_t dimension = dimension_of(&list);
    harness_receiver plain = take_in_order(&list, pack), anyhow = take_anyhow(&list, pack);
    check(plain.dimension == dimension, RECEIVER_FORMAT " instead of %" PRIu64, RECEIVER_VALUES(&plain), dimension);
    compare_same(&plain, &anyhow, "another sequence");
    for (uint64_t numbering = 0; numbering < 4; numbering++) {
        harness_answer first = harness_close(plain, numbering), second = harness_close(anyhow, numbering);
        check(same_answer(&first, &second), RECEIVER_FORMAT " in %" PRIu64 ": closed with %u instead of %u",
              RECEIVER_VALUES(&anyhow), numbering, second.refusal, first.refusal);
    }
    count_dimension(s, dimension);
}

/* Another basis of the same span, more rows of the span than a basis, and the rows that the receiver holds. */
static void compare_bases(const setting *s)
{
    row_list list, basis, more, joined, own;
    uint64_t pack = random_pack();
    random_list(s, &list);
    random_basis(&list, &basis);
    random_mixtures(&list, random_below(4), &more);
    join(&basis, &more, &joined);
    harness_receiver plain = take_in_order(&list, pack), of_basis = take_in_order(&basis, pack);
    harness_receiver of_joined = take_anyhow(&joined, pack);
    own.s = s;
    own.count = plain.dimension <= s->n ? plain.dimension : s->n;
    memcpy(own.rows, plain.entries, sizeof plain.entries);
    harness_receiver of_own = take_anyhow(&own, pack);
    compare_same(&plain, &of_basis, "another basis");
    compare_same(&plain, &of_joined, "other rows of the same span");
    compare_same(&plain, &of_own, "its own rows");
}

/* ---- Spans, packs and settings that differ ---- */

/* One more row makes another receiver, until both have taken it. */
static void compare_wider(const row_list *list, const uint8_t *outside)
{
    uint64_t pack = random_pack();
    row_list more = *list;
    append(&more, outside);
    harness_receiver narrow = take_anyhow(list, pack), wide = take_anyhow(&more, pack);
    compare_differing(&narrow, &wide, "one more row");
    take_row(list->s, outside, &narrow);
    compare_same(&narrow, &wide, "the same row in both");
    wider_spans++;
}

/* A basis with one row replaced by one from outside: the dimension is the same, and the rows alone differ. */
static void compare_replaced(const row_list *list, const uint8_t *outside)
{
    const setting *s = list->s;
    uint64_t pack = random_pack();
    row_list basis, replaced;
    random_basis(list, &basis);
    if (basis.count == 0)
        return;
    replaced = basis;
    memcpy(replaced.rows + random_below(basis.count) * s->n, outside, (size_t)s->n);
    harness_receiver first = take_anyhow(&basis, pack), second = take_anyhow(&replaced, pack);
    compare_differing(&first, &second, "another row in the place of one");
    check(first.dimension == basis.count && second.dimension == basis.count, RECEIVER_FORMAT ", and " RECEIVER_FORMAT
          " instead of %" PRIu64, RECEIVER_VALUES(&first), RECEIVER_VALUES(&second), basis.count);
    memcpy(second.entries, first.entries, sizeof first.entries);
    compare_same(&first, &second, "all but the rows is made the same");
    replaced_rows++;
}

static const setting *with_other_k(const setting *s)
{
    const setting *other = s;
    while (other->q != s->q || other->n != s->n || other->k == s->k)
        other = &settings[random_below(setting_count)];
    return other;
}

/* The same rows for another pack, and with another k: the receivers differ, and in nothing else. */
static void compare_numbers(const row_list *list)
{
    uint64_t pack = random_pack();
    row_list of_other_k = *list;
    of_other_k.s = with_other_k(list->s);
    harness_receiver first = take_anyhow(list, pack), for_other = take_anyhow(list, other_pack(pack));
    harness_receiver with_other = take_anyhow(&of_other_k, pack);
    compare_differing(&first, &for_other, "another pack");
    compare_differing(&first, &with_other, "another k");
    for_other.pack = first.pack;
    with_other.k = first.k;
    compare_same(&first, &for_other, "the pack is made the same");
    compare_same(&first, &with_other, "k is made the same");
}

static void compare_differences(const setting *s)
{
    row_list list;
    uint8_t outside[MAX_LENGTH];
    random_list(s, &list);
    compare_numbers(&list);
    if (dimension_of(&list) == s->n)
        return;
    outside_row(&list, outside);
    compare_wider(&list, outside);
    compare_replaced(&list, outside);
}

/* Any reduced rows with a free entry at the place: right of the row's pivot, and in a column without one. */
static void reduced_around(const setting *s, uint64_t row, uint64_t column, row_list *list)
{
    memset(list, 0, sizeof *list);
    list->s = s;
    for (uint64_t at = 0; at < s->n; at++) {
        bool needed = at < column && list->count + (column - at) == row + 1;
        if (needed || (at != column && random_below(2) == 0))
            list->rows[list->count++ * s->n + at] = 1;
        else
            for (uint64_t above = 0; above < list->count; above++)
                list->rows[above * s->n + at] = (uint8_t)random_below(s->q);
    }
}

/* Unit rows, and then one that begins with two ones, the first at the place: reduced with and without that. */
static void reduced_from(const setting *s, uint64_t row, uint64_t column, row_list *list)
{
    memset(list, 0, sizeof *list);
    list->s = s;
    list->count = row + 1;
    for (uint64_t above = 0; above < row; above++)
        list->rows[above * s->n + above] = 1;
    memset(list->rows + row * s->n + column, 1, 2);
}

/* Reduced rows, and with one entry changed others of another span: the receivers differ in that byte alone. */
static void compare_entry(const row_list *list, uint64_t place, uint64_t entry)
{
    row_list changed = *list, both;
    uint64_t pack = random_pack();
    changed.rows[place] = (uint8_t)entry;
    join(list, &changed, &both);
    harness_receiver first = take_anyhow(list, pack), second = take_anyhow(&changed, pack);
    check(dimension_of(&both) == list->count + 1, SETTING_FORMAT ": place %" PRIu64 " makes no other span",
          SETTING_VALUES(list->s), place);
    compare_differing(&first, &second, "another entry");
    second.entries[place] = first.entries[place];
    compare_same(&first, &second, "the entry is made the same");
}

/* Every place that can be the only difference, as a free entry and as a row's first. */
static void compare_entries(const setting *s)
{
    row_list list;
    for (uint64_t column = 0; column < s->n; column++)
        for (uint64_t row = 0; row <= column; row++) {
            uint64_t place = row * s->n + column;
            if (row < column) {
                reduced_around(s, row, column, &list);
                compare_entry(&list, place, (list.rows[place] + 1 + random_below(s->q - 1)) % s->q);
            }
            if (column + 1 < s->n) {
                reduced_from(s, row, column, &list);
                compare_entry(&list, place, 0);
            }
        }
}

/* Two short lists out of the span of up to three rows: the receivers are equal exactly where the spans are. */
static void compare_two(const setting *s)
{
    row_list base, first, second;
    uint64_t pack = random_pack(), count = random_below(5);
    random_rows(s, 1 + random_below(3), &base);
    random_mixtures(&base, count, &first);
    random_mixtures(&base, random_below(2) == 0 ? count : random_below(5), &second);
    harness_receiver of_first = take_anyhow(&first, pack), of_second = take_anyhow(&second, pack);
    bool equal = same_receiver(&of_first, &of_second), due = same_span(&first, &second);
    check(equal == due, RECEIVER_FORMAT ", and " RECEIVER_FORMAT ": equal %d instead of %d", RECEIVER_VALUES(&of_first),
          RECEIVER_VALUES(&of_second), equal, due);
    check(equal == same_reduced(&first, &second), RECEIVER_FORMAT ": equal %d, but not the second's rows",
          RECEIVER_VALUES(&of_first), equal);
    pairs++;
    equal_spans += due;
    unequal_spans += !due;
    unequal_of_equal_dimension += !due && dimension_of(&first) == dimension_of(&second);
}

/* ---- Pools ---- */

/* What Pool leaves: its answer and both buffers. */
typedef struct {
    harness_pooled pooled;
    uint8_t joint[SQUARE], common[SQUARE];
} outcome;

static outcome pool(const setting *s, const harness_receiver *a, const harness_receiver *b)
{
    size_t square = (size_t)(s->n * s->n);
    outcome left;
    memset(left.joint, FILLING, sizeof left.joint);
    memset(left.common, FILLING, sizeof left.common);
    left.pooled = harness_pool(*a, *b, left.joint, square, left.common, square);
    check(left.pooled.refusal == ACCEPTED, RECEIVER_FORMAT ", and " RECEIVER_FORMAT ": pool refused %u",
          RECEIVER_VALUES(a), RECEIVER_VALUES(b), left.pooled.refusal);
    return left;
}

static void compare_outcomes(const outcome *first, const outcome *second, const char *after)
{
    const harness_pooled *one = &first->pooled, *other = &second->pooled;
    compare_same(&one->receiver, &other->receiver, after);
    check(one->refusal == other->refusal && one->joint_dimension == other->joint_dimension &&
          one->common_dimension == other->common_dimension, RECEIVER_FORMAT ": another answer after %s",
          RECEIVER_VALUES(&one->receiver), after);
    check(memcmp(first->joint, second->joint, SQUARE) == 0 && memcmp(first->common, second->common, SQUARE) == 0,
          RECEIVER_FORMAT ": other rows after %s", RECEIVER_VALUES(&one->receiver), after);
}

/* Two lists, each taken twice: all pools leave the same, and the receiver that takes both lists anyhow. */
static void compare_pair(const row_list lists[2], const harness_receiver plain[2], const harness_receiver anyhow[2])
{
    const setting *s = lists[0].s;
    row_list both;
    join(&lists[0], &lists[1], &both);
    outcome left = pool(s, &plain[0], &plain[1]), other_way = pool(s, &plain[1], &plain[0]);
    outcome other_first = pool(s, &anyhow[0], &plain[1]), other_second = pool(s, &plain[1], &anyhow[0]);
    outcome of_equals = pool(s, &plain[0], &anyhow[0]);
    harness_receiver of_both = take_anyhow(&both, plain[0].pack);
    compare_outcomes(&left, &other_way, "a pool the other way round");
    compare_outcomes(&left, &other_first, "a pool of an equal receiver");
    compare_outcomes(&other_way, &other_second, "a pool with an equal receiver");
    compare_same(&of_equals.pooled.receiver, &plain[0], "a pool of equal receivers");
    compare_same(&left.pooled.receiver, &of_both, "the rows of both");
    crossing_pools += left.pooled.common_dimension > 0 && of_both.dimension > plain[0].dimension &&
                      of_both.dimension > plain[1].dimension;
}

/* Pools of three, in any order, leave the receiver that takes all three lists anyhow. */
static void compare_trees(const setting *s, const harness_receiver three[3], const harness_receiver *of_all)
{
    for (unsigned first = 0; first < 3; first++) {
        const harness_receiver *a = &three[first], *b = &three[(first + 1) % 3], *c = &three[(first + 2) % 3];
        harness_receiver pair = pool(s, a, b).pooled.receiver;
        harness_receiver left = pool(s, &pair, c).pooled.receiver, right = pool(s, c, &pair).pooled.receiver;
        compare_same(&left, of_all, "a pool and a third");
        compare_same(&right, of_all, "a third and a pool");
    }
}

/* Three lists out of the span of n rows or fewer, so that they often have a common space. */
static void compare_pools(const setting *s)
{
    row_list base, lists[3], two, all;
    harness_receiver plain[3], anyhow[3];
    uint64_t pack = random_pack();
    random_rows(s, random_below(s->n + 1), &base);
    for (unsigned which = 0; which < 3; which++) {
        random_mixtures(&base, random_below(s->n / 2 + 3), &lists[which]);
        plain[which] = take_in_order(&lists[which], pack);
        anyhow[which] = take_anyhow(&lists[which], pack);
    }
    compare_pair(lists, plain, anyhow);
    compare_pair(lists + 1, plain + 1, anyhow + 1);
    join(&lists[0], &lists[1], &two);
    join(&two, &lists[2], &all);
    harness_receiver of_all = take_anyhow(&all, pack);
    compare_trees(s, plain, &of_all);
    compare_trees(s, anyhow, &of_all);
}

/* ---- Every list of few rows ---- */

/* The spans met so far, each as the set of its rows, a bit for each, and the receiver that its first list led to. */
static struct {
    uint64_t rows;
    harness_receiver receiver;
} spans[SPACES];

static size_t span_count;

/* A row's bit in a set of rows: the number whose digits are the entries. */
static uint64_t number_of(const setting *s, const uint8_t *row)
{
    uint64_t number = 0;
    for (uint64_t column = 0; column < s->n; column++)
        number = number * s->q + row[column];
    return number;
}

static void entries_of(const setting *s, uint64_t number, uint8_t *row)
{
    for (uint64_t column = s->n; column > 0; column--) {
        row[column - 1] = (uint8_t)(number % s->q);
        number /= s->q;
    }
}

/* The span of a spanned set and one more row: every sum of a row of the set and a multiple of the new one. */
static uint64_t widened(const setting *s, uint64_t rows, const uint8_t *row)
{
    uint64_t wider = 0;
    uint8_t sum[MAX_LENGTH];
    for (uint64_t number = 0; number < VECTORS; number++)
        for (unsigned factor = 0; factor < s->q && rows >> number & 1; factor++) {
            entries_of(s, number, sum);
            add_multiple(s->q, s->n, sum, row, (uint8_t)factor);
            wider |= UINT64_C(1) << number_of(s, sum);
        }
    return wider;
}

/* The same receiver as with any list of the same span, and another one than with all others. */
static void compare_spans(const harness_receiver *receiver, uint64_t rows)
{
    bool known = false;
    for (size_t place = 0; place < span_count; place++) {
        bool equal = same_receiver(&spans[place].receiver, receiver), due = spans[place].rows == rows;
        check(equal == due, RECEIVER_FORMAT ": rows %" PRIx64 " and %" PRIx64 ": equal %d", RECEIVER_VALUES(receiver),
              rows, spans[place].rows, equal);
        known = known || due;
    }
    if (!known && span_count < SPACES) {
        spans[span_count].rows = rows;
        spans[span_count++].receiver = *receiver;
    }
}

/* A list that led to the receiver and spans these rows, and every list that begins with it, of so many rows more. */
static void every_list(const setting *s, const harness_receiver *receiver, uint64_t rows, unsigned more)
{
    uint8_t row[MAX_LENGTH] = {0};
    compare_spans(receiver, rows);
    for (bool going = more > 0; going; going = next_entries(s->q - 1, row, (size_t)s->n)) {
        harness_receiver next = *receiver;
        take_row(s, row, &next);
        every_list(s, &next, widened(s, rows, row), more - 1);
    }
}

/* Every list of at most so many rows, with every k; they have so many spans. */
static void every_list_group(uint64_t q, uint64_t n, unsigned most, size_t due)
{
    check_group_begin("every list of up to %u rows, %" PRIu64 ",%" PRIu64, most, q, n);
    for (size_t number = 0; number < setting_count; number++) {
        const setting *s = &settings[number];
        if (s->q != q || s->n != n || s->k % thinning != 0)
            continue;
        harness_receiver receiver = harness_start(q, n, s->k, random_pack()).receiver;
        span_count = 0;
        every_list(s, &receiver, 1, most);
        check(span_count == due, SETTING_FORMAT ": %zu spans", SETTING_VALUES(s), span_count);
    }
    check_group_end();
}

static void every_list_groups(void)
{
    every_list_group(2, 1, 3, 2);
    every_list_group(2, 2, 3, 5);
    every_list_group(2, 3, 3, 16);
    every_list_group(2, 4, 4, 67);
    every_list_group(3, 2, 3, 6);
    every_list_group(3, 3, 3, 28);
    every_list_group(4, 2, 3, 7);
    every_list_group(5, 2, 2, 8);
    every_list_group(7, 2, 2, 10);
    every_list_group(8, 2, 2, 11);
}

/* ---- What was met ---- */

/* Every kind of list, difference and pool was met, and of pairs of lists those with equal spans and others often. */
static void spans_group(void)
{
    check_group_begin("spans that were met");
    check(lists_of_nothing > 0 && lists_of_all > 0 && lists_between > 0, "dimensions none, n or between");
    check(wider_spans > 0 && replaced_rows > 0, "one more row, or another one");
    check(crossing_pools > 0, "pools of two that have a common space, neither within the other");
    check(4 * equal_spans > pairs && 4 * unequal_spans > pairs && 20 * unequal_of_equal_dimension > pairs,
          "of %" PRIu64 " pairs %" PRIu64 " have equal spans, %" PRIu64 " unequal ones, %" PRIu64 " of one dimension",
          pairs, equal_spans, unequal_spans, unequal_of_equal_dimension);
    check_group_end();
}

int main(int argument_count, char **arguments)
{
    static const comparison each[] = {
        {"sequences of the same rows", 40, compare_sequences}, {"rows of the same span", 20, compare_bases},
        {"one difference", 20, compare_differences}, {"one other entry", 1, compare_entries},
        {"two short lists", 100, compare_two}, {"pools", 8, compare_pools},
    };
    cases_begin(argument_count, arguments);
    for (unsigned place = 0; place < FIELD_COUNT; place++)
        comparison_groups(second_field_sizes[place], each, COUNT_OF(each));
    every_list_groups();
    script_answers_group();
    spans_group();
    return check_summary("trace");
}
