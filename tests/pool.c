/*
 * Tests Pool against the second implementation, which finds common spaces by other means: every two spaces of small
 * settings, random pairs over every accepted setting, pairs whose joint and common spaces are known beforehand, pooled
 * receivers that take rows, close and are pooled again, the round trip from Draw over two receivers, and all that is
 * refused, receivers of two packs among it. An argument N runs about the N-th part, for slow checkers.
 */
#include "cases.h"
#include "check.h"
#include "receivers.h"

enum { SQUARE = MAX_LENGTH * MAX_LENGTH, PAIRS = 6, TRIPS = 2, CHAINS = 3, DAMAGES = 6, SPACES = 67 };

/* How often each refusal was met; tests that meet only some of them test little. */
static uint64_t refusals[REFUSAL_LIMIT];

static const harness_receiver zeros;

/* ---- One call ---- */

/* What a call leaves: its answer and both buffers, margins included. */
typedef struct {
    harness_pooled pooled;
    lent joint, common;
} outcome;

/* The lent part of a buffer; a few bytes more than 256 may be lent too, which are then the margin's. */
static uint8_t *bytes_of(lent *buffer)
{
    return (uint8_t *)buffer + sizeof buffer->before;
}

/* A refusal leaves nothing but zeros, and both buffers as they were. */
static void check_refused(const outcome *left)
{
    const harness_pooled *pooled = &left->pooled;
    check(same_receiver(&pooled->receiver, &zeros), "a refusal %u with a receiver", pooled->refusal);
    check(pooled->joint_dimension == 0 && pooled->common_dimension == 0, "a refusal %u with dimensions",
          pooled->refusal);
    check(is_filled((const uint8_t *)&left->joint, sizeof left->joint), "refusal %u writes the joint buffer",
          pooled->refusal);
    check(is_filled((const uint8_t *)&left->common, sizeof left->common), "refusal %u writes the common buffer",
          pooled->refusal);
}

/* What is done has both dimensions, the receivers' settings and pack, and wrote the lent bytes alone. */
static void check_done(const harness_receiver *a, const harness_receiver *b, const outcome *left)
{
    const harness_pooled *pooled = &left->pooled;
    size_t square = (size_t)(a->n * a->n);
    check(pooled->joint_dimension + pooled->common_dimension == a->dimension + b->dimension,
          SETTING_FORMAT ": dimensions %" PRIu64 " and %" PRIu64 " of %" PRIu64 " and %" PRIu64, SETTING_VALUES(a),
          pooled->joint_dimension, pooled->common_dimension, a->dimension, b->dimension);
    check(pooled->receiver.q == a->q && pooled->receiver.n == a->n && pooled->receiver.k == a->k &&
          pooled->receiver.dimension == pooled->joint_dimension, SETTING_FORMAT ": other settings", SETTING_VALUES(a));
    check(pooled->receiver.pack == a->pack && a->pack == b->pack, SETTING_FORMAT ": pack %" PRIu64 " of %" PRIu64
          " and %" PRIu64, SETTING_VALUES(a), pooled->receiver.pack, a->pack, b->pack);
    check(square <= SQUARE && memcmp(pooled->receiver.entries, left->joint.bytes, square) == 0,
          SETTING_FORMAT ": the receiver holds another space", SETTING_VALUES(a));
    check(square <= SQUARE && outside_filled(&left->joint, square) && outside_filled(&left->common, square),
          SETTING_FORMAT ": bytes outside of the buffers were written", SETTING_VALUES(a));
}

/* Pools into buffers of any lengths. */
static outcome pool_into(const harness_receiver *a, const harness_receiver *b, size_t joint_length,
                         size_t common_length)
{
    outcome left;
    memset(&left.joint, FILLING, sizeof left.joint);
    memset(&left.common, FILLING, sizeof left.common);
    left.pooled = harness_pool(*a, *b, bytes_of(&left.joint), joint_length, bytes_of(&left.common), common_length);
    if (left.pooled.refusal == ACCEPTED)
        check_done(a, b, &left);
    else
        check_refused(&left);
    return left;
}

/* The outcome that the library must leave. */
static outcome expect_into(const harness_receiver *a, const harness_receiver *b, size_t joint_length,
                           size_t common_length)
{
    second_receiver first, second;
    second_pooled pooled;
    outcome due;
    revive(a, &first);
    revive(b, &second);
    memset(&due.joint, FILLING, sizeof due.joint);
    memset(&due.common, FILLING, sizeof due.common);
    due.pooled.refusal = second_pool(&first, &second, bytes_of(&due.joint), joint_length, bytes_of(&due.common),
                                     common_length, &pooled);
    due.pooled.receiver = image_of(&pooled.receiver);
    due.pooled.joint_dimension = pooled.joint_dimension;
    due.pooled.common_dimension = pooled.common_dimension;
    return due;
}

/* Any two receivers and buffers of any lengths, pooled by both; answers what the library leaves. */
static outcome compare_into(const harness_receiver *a, const harness_receiver *b, size_t joint_length,
                            size_t common_length)
{
    outcome due = expect_into(a, b, joint_length, common_length), left = pool_into(a, b, joint_length, common_length);
    check(left.pooled.refusal == due.pooled.refusal,
          SETTING_FORMAT " and " SETTING_FORMAT " into %zu and %zu bytes: refusal %u instead of %u", SETTING_VALUES(a),
          SETTING_VALUES(b), joint_length, common_length, left.pooled.refusal, due.pooled.refusal);
    check(left.pooled.joint_dimension == due.pooled.joint_dimension &&
          left.pooled.common_dimension == due.pooled.common_dimension,
          SETTING_FORMAT ": dimensions %" PRIu64 ", %" PRIu64 " instead of %" PRIu64 ", %" PRIu64, SETTING_VALUES(a),
          left.pooled.joint_dimension, left.pooled.common_dimension, due.pooled.joint_dimension,
          due.pooled.common_dimension);
    check(same_receiver(&left.pooled.receiver, &due.pooled.receiver), SETTING_FORMAT ": other receiver",
          SETTING_VALUES(a));
    check(memcmp(&left.joint, &due.joint, sizeof left.joint) == 0, SETTING_FORMAT ": other joint space",
          SETTING_VALUES(a));
    check(memcmp(&left.common, &due.common, sizeof left.common) == 0, SETTING_FORMAT ": other common space",
          SETTING_VALUES(a));
    refusals[due.pooled.refusal]++;
    return left;
}

/* Into buffers of the first receiver's n. */
static outcome compare_pool(const harness_receiver *a, const harness_receiver *b)
{
    size_t square = a->n <= MAX_LENGTH ? (size_t)(a->n * a->n) : SQUARE;
    return compare_into(a, b, square, square);
}

static bool same_outcome(const outcome *first, const outcome *second)
{
    return first->pooled.refusal == second->pooled.refusal &&
           first->pooled.joint_dimension == second->pooled.joint_dimension &&
           first->pooled.common_dimension == second->pooled.common_dimension &&
           same_receiver(&first->pooled.receiver, &second->pooled.receiver) &&
           memcmp(&first->joint, &second->joint, sizeof first->joint) == 0 &&
           memcmp(&first->common, &second->common, sizeof first->common) == 0;
}

/* In both orders, which must make no difference. */
static outcome compare_both_ways(const harness_receiver *a, const harness_receiver *b)
{
    outcome left = compare_pool(a, b), other_way = compare_pool(b, a);
    check(same_outcome(&left, &other_way), SETTING_FORMAT ": another outcome the other way", SETTING_VALUES(a));
    return left;
}

/* A receiver and further rows, taken by value or lent. */
static harness_receiver take_rows(harness_receiver receiver, uint64_t count, const uint8_t *rows)
{
    for (uint64_t row = 0; row < count; row++) {
        const uint8_t *entries = rows + row * receiver.n;
        harness_step step = take(random_form(), &receiver, entries, (size_t)receiver.n);
        check(step.refusal == ACCEPTED, "row refused %u", step.refusal);
        receiver = step.receiver;
    }
    return receiver;
}

static harness_receiver receiver_with(const setting *s, uint64_t pack, uint64_t count, const uint8_t *rows)
{
    return take_rows(harness_start(s->q, s->n, s->k, pack).receiver, count, rows);
}

/* ---- Every two spaces ---- */

/* Lists a receiver for each space of rows of length n, all of one pack, and answers how many there are. */
static size_t every_receiver(uint64_t q, uint64_t n, uint64_t k, harness_receiver *receivers)
{
    uint8_t matrices[SPACES * MAX_LENGTH];
    uint64_t pack = random_pack();
    size_t count = 0;
    for (uint64_t dimension = 0; dimension <= n; dimension++) {
        size_t width = (size_t)(dimension * n), found = second_enumerate(q, n, dimension, matrices);
        for (size_t place = 0; place < found; place++) {
            receivers[count] = harness_start(q, n, k, pack).receiver;
            receivers[count].dimension = dimension;
            memcpy(receivers[count++].entries, matrices + place * width, width);
        }
    }
    return count;
}

static void every_pair_group(uint64_t q, uint64_t n, uint64_t k, size_t spaces)
{
    harness_receiver receivers[SPACES];
    check_group_begin("every two spaces, %" PRIu64 ",%" PRIu64 ",%" PRIu64, q, n, k);
    size_t count = every_receiver(q, n, k, receivers);
    check(count == spaces, "%zu spaces", count);
    for (size_t first = 0; first < count; first++)
        for (size_t second = 0; second < count; second += thinning)
            check(compare_pool(&receivers[first], &receivers[second]).pooled.refusal == ACCEPTED, "refused");
    check_group_end();
}

/* ---- Random pairs ---- */

/* The second receiver's rows are random, or mixtures of the first's, or both. */
static void random_pair(const setting *s, unsigned kind)
{
    uint8_t rows[2][ROWS_LIMIT];
    uint64_t first = random_below(s->n + 3), second = random_below(s->n + 3), pack = random_pack();
    random_entries(s->q, rows[0], (size_t)(first * s->n));
    random_entries(s->q, rows[1], (size_t)(second * s->n));
    for (uint64_t row = 0; row < second; row++)
        if (kind % 3 == 1 || (kind % 3 == 2 && random_below(2) == 0))
            random_mixture(s->q, s->n, first, rows[0], rows[1] + row * s->n);
    harness_receiver a = receiver_with(s, pack, first, rows[0]), b = receiver_with(s, pack, second, rows[1]);
    compare_both_ways(&a, &b);
}

static void random_pairs_group(uint64_t q)
{
    check_group_begin("random pairs, q = %" PRIu64, q);
    for (size_t number = 0; number < setting_count; number += thinning)
        for (unsigned round = 0; round < PAIRS && settings[number].q == q; round++)
            random_pair(&settings[number], round);
    check_group_end();
}

/* ---- Pairs whose spaces are known beforehand ---- */

/* Of n independent rows the first ones go to both receivers, the next to the first alone, then to the second alone. */
enum { SHARED, FIRST, SECOND, PARTS };

typedef struct {
    const setting *s;
    uint64_t parts[PARTS];
    uint8_t basis[SQUARE];
} plan;

/* Any n independent rows: the unit rows, changed by adding multiples of one to another. */
static void random_basis(const setting *s, uint8_t *basis)
{
    uint64_t n = s->n;
    memset(basis, 0, SQUARE);
    for (uint64_t row = 0; row < n; row++)
        basis[row * n + row] = 1;
    for (uint64_t step = 0; step < 3 * n; step++) {
        uint64_t row = random_below(n), other = random_below(n);
        if (row != other)
            add_multiple(s->q, n, basis + row * n, basis + other * n, (uint8_t)random_below(s->q));
    }
}

/*
 * The lowest three bits of a kind tell which parts are empty, and the next that all rows are given out: so spaces are
 * equal, one within the other, disjoint, empty or full.
 */
enum { WHOLE = 1 << PARTS, KINDS = 2 * WHOLE };

static void random_plan(const setting *s, unsigned kind, plan *one)
{
    uint64_t rest = s->n;
    *one = (plan){s, {0}, {0}};
    for (unsigned part = 0; part < PARTS; part++)
        if (!(kind >> part & 1)) {
            one->parts[part] = random_below(rest + 1);
            rest -= one->parts[part];
        }
    for (unsigned part = 0; part < PARTS && kind & WHOLE; part++)
        if (!(kind >> part & 1)) {
            one->parts[part] += rest;
            rest = 0;
        }
    random_basis(s, one->basis);
}

/* Whether a buffer holds the reduced form of the rows. */
static bool holds_span(const setting *s, uint64_t count, const uint8_t *rows, const lent *buffer)
{
    uint8_t reduced[SQUARE];
    second_told told;
    size_t square = (size_t)(s->n * s->n);
    second_reduce(s->q, s->n, count, rows, (size_t)(count * s->n), reduced, square, &told);
    return memcmp(buffer->bytes, reduced, square) == 0;
}

static void compare_plan(const plan *one)
{
    const setting *s = one->s;
    uint64_t shared = one->parts[SHARED], first = shared + one->parts[FIRST], joint = first + one->parts[SECOND];
    uint64_t pack = random_pack();
    harness_receiver a = receiver_with(s, pack, first, one->basis);
    harness_receiver b = receiver_with(s, pack, one->parts[SECOND], one->basis + first * s->n);
    b = take_rows(b, shared, one->basis);
    outcome left = compare_both_ways(&a, &b);
    check(left.pooled.refusal == ACCEPTED && left.pooled.joint_dimension == joint &&
          left.pooled.common_dimension == shared,
          SETTING_FORMAT ": dimensions %" PRIu64 ", %" PRIu64 " instead of %" PRIu64 ", %" PRIu64, SETTING_VALUES(s),
          left.pooled.joint_dimension, left.pooled.common_dimension, joint, shared);
    check(holds_span(s, joint, one->basis, &left.joint), SETTING_FORMAT ": joint rows", SETTING_VALUES(s));
    check(holds_span(s, shared, one->basis, &left.common), SETTING_FORMAT ": shared rows", SETTING_VALUES(s));
}

static void plans_group(uint64_t q)
{
    plan one;
    check_group_begin("pairs with known spaces, q = %" PRIu64, q);
    for (size_t number = 0; number < setting_count; number += thinning)
        for (unsigned kind = 0; kind < KINDS && settings[number].q == q; kind++) {
            random_plan(&settings[number], kind, &one);
            compare_plan(&one);
        }
    check_group_end();
}

/* ---- Figures ---- */

static void compare_figure(setting s, const char *first, const char *second, const char *joint, const char *common)
{
    uint8_t rows[SQUARE], expected[2][SQUARE] = {{0}};
    uint64_t pack = random_pack();
    harness_receiver a = receiver_with(&s, pack, read_rows(first, rows) / s.n, rows);
    harness_receiver b = receiver_with(&s, pack, read_rows(second, rows) / s.n, rows);
    size_t square = (size_t)(s.n * s.n), joint_length = read_rows(joint, expected[0]);
    size_t common_length = read_rows(common, expected[1]);
    outcome left = compare_both_ways(&a, &b);
    check(left.pooled.refusal == ACCEPTED && left.pooled.joint_dimension == joint_length / s.n &&
          left.pooled.common_dimension == common_length / s.n, "%s and %s: dimensions", first, second);
    check(memcmp(left.joint.bytes, expected[0], square) == 0, "%s and %s: joint space", first, second);
    check(memcmp(left.common.bytes, expected[1], square) == 0, "%s and %s: common space", first, second);
}

static void figures_group(void)
{
    check_group_begin("figures");
    compare_figure((setting){2, 3, 2, 0}, "100/010", "010/001", "100/010/001", "010");
    compare_figure((setting){2, 3, 2, 0}, "110/011/101", "101", "101/011", "101");
    compare_figure((setting){2, 3, 0, 0}, "000", "", "", "");
    compare_figure((setting){2, 3, 1, 0}, "111", "", "111", "");
    compare_figure((setting){2, 4, 2, 0}, "1100/0011", "1010/0101", "1001/0101/0011", "1111");
    compare_figure((setting){3, 2, 1, 0}, "12", "21", "12", "12");
    compare_figure((setting){3, 2, 1, 0}, "11", "12", "10/01", "");
    compare_figure((setting){5, 3, 2, 0}, "104/014", "100/010", "100/010/001", "140");
    compare_figure((setting){7, 4, 2, 0}, "1000/0100", "1010/0101", "1000/0100/0010/0001", "");
    compare_figure((setting){4, 2, 1, 0}, "12", "23", "12", "12");
    compare_figure((setting){8, 2, 1, 0}, "14", "23", "14", "14");
    /* 130 and 150 are in the first spaces, as 2 + 3 * 3 = 0 in four and 2 + 5 * 4 = 0 in eight. */
    compare_figure((setting){4, 3, 2, 0}, "102/013", "100/010", "100/010/001", "130");
    compare_figure((setting){8, 3, 2, 0}, "102/014", "100/010", "100/010/001", "150");
    check_group_end();
}

/* ---- Pooled receivers ---- */

/* Closes in numberings right and wrong, as the second does with all rows in one list. */
static void compare_close(const harness_receiver *receiver, const second_receiver *list)
{
    for (uint64_t numbering = 0; numbering < 4; numbering++) {
        uint64_t index;
        second_told told;
        uint32_t refusal = second_close(list, numbering, &index, &told);
        harness_answer answer = harness_close(*receiver, numbering);
        check(answer.refusal == refusal && answer.value == index &&
              answer.dimension == (refusal == ACCEPTED ? 0 : told.dimension) && answer.vector == told.vector,
              SETTING_FORMAT " in %" PRIu64 ": closed with %u, %" PRIu64 " instead of %u, %" PRIu64,
              SETTING_VALUES(list), numbering, answer.refusal, answer.value, refusal, index);
    }
}

/* The space of a receiver within its pool: the pool of both is the pool, and the common space is the receiver's. */
static void compare_absorbed(const harness_receiver *pooled, const harness_receiver *part)
{
    outcome left = compare_pool(pooled, part);
    check(same_receiver(&left.pooled.receiver, pooled) && left.pooled.common_dimension == part->dimension &&
          memcmp(left.common.bytes, part->entries, (size_t)(part->n * part->n)) == 0,
          SETTING_FORMAT ": a part of the pool", SETTING_VALUES(pooled));
}

/* Three lists of rows in one, with where each begins. */
typedef struct {
    second_receiver list;
    uint64_t begin[4];
} lists;

/* Mixtures of a few rows, of k at most or of n, in three lists. */
static void random_lists(const setting *s, lists *three)
{
    uint8_t base[SQUARE];
    uint64_t base_count = random_below(4) == 0 ? s->n : s->k;
    random_entries(s->q, base, (size_t)(base_count * s->n));
    second_start(s->q, s->n, s->k, random_pack(), &three->list);
    three->begin[0] = 0;
    for (unsigned place = 0; place < 3; place++)
        three->begin[place + 1] = three->begin[place] + random_below(s->n / 2 + 3);
    three->list.r = three->begin[3];
    for (uint64_t row = 0; row < three->list.r; row++)
        random_mixture(s->q, s->n, base_count, base, three->list.rows + row * s->n);
}

static harness_receiver list_taken(const setting *s, const lists *three, unsigned place)
{
    return receiver_with(s, three->list.pack, three->begin[place + 1] - three->begin[place],
                         three->list.rows + three->begin[place] * s->n);
}

/* The pool of receivers is the receiver that took all their rows: by whatever pools, and with more rows taken later. */
static void compare_chain(const setting *s)
{
    lists three;
    random_lists(s, &three);
    const uint8_t *third = three.list.rows + three.begin[2] * s->n;
    uint64_t third_count = three.begin[3] - three.begin[2];
    harness_receiver a = list_taken(s, &three, 0), b = list_taken(s, &three, 1), c = list_taken(s, &three, 2);
    harness_receiver pair = compare_pool(&a, &b).pooled.receiver, other_pair = compare_pool(&b, &c).pooled.receiver;
    harness_receiver two = receiver_with(s, three.list.pack, three.begin[2], three.list.rows);
    harness_receiver all = take_rows(two, third_count, third);
    harness_receiver later = take_rows(pair, third_count, third);
    outcome left = compare_pool(&pair, &c), right = compare_pool(&a, &other_pair);
    check(same_receiver(&pair, &two), SETTING_FORMAT ": two lists", SETTING_VALUES(s));
    check(same_receiver(&later, &all), SETTING_FORMAT ": rows after the pool", SETTING_VALUES(s));
    check(same_receiver(&left.pooled.receiver, &all), SETTING_FORMAT ": pooled again", SETTING_VALUES(s));
    check(same_receiver(&right.pooled.receiver, &all), SETTING_FORMAT ": pooled with a pool", SETTING_VALUES(s));
    compare_close(&left.pooled.receiver, &three.list);
    three.list.r = three.begin[2];
    compare_close(&pair, &three.list);
    compare_absorbed(&pair, &a);
    compare_absorbed(&pair, &b);
    compare_absorbed(&pair, &pair);
}

static void chains_group(uint64_t q)
{
    check_group_begin("pooled receivers, q = %" PRIu64, q);
    for (size_t number = 0; number < setting_count; number += thinning)
        for (unsigned round = 0; round < CHAINS && settings[number].q == q; round++)
            compare_chain(&settings[number]);
    check_group_end();
}

/* ---- Round trip ---- */

/* How many pools of drawn rows closed with the index, and how many had too few dimensions. */
static uint64_t whole_trips, short_trips;

/* Pools two receivers of linear combinations of one drawn matrix: the index exactly when the rank of all is k. */
static void close_pool(const setting *s, uint64_t numbering, uint64_t index, uint64_t rank, const harness_receiver *a,
                       const harness_receiver *b)
{
    outcome left = compare_pool(a, b);
    harness_answer answer = harness_close(left.pooled.receiver, numbering);
    bool right = rank == s->k ? answer.refusal == ACCEPTED && answer.value == index
                              : answer.refusal == REFUSED_TOO_FEW && answer.dimension == rank && answer.value == 0;
    check(left.pooled.refusal == ACCEPTED && left.pooled.joint_dimension == rank,
          SETTING_FORMAT ": %" PRIu64 " dimensions instead of %" PRIu64, SETTING_VALUES(s),
          left.pooled.joint_dimension, rank);
    check(right, SETTING_FORMAT " in %" PRIu64 ": index %" PRIu64 ", rank %" PRIu64 ", closed with %u, %" PRIu64,
          SETTING_VALUES(s), numbering, index, rank, answer.refusal, answer.value);
    whole_trips += rank == s->k;
    short_trips += rank < s->k;
}

/* Draws, hands each linear combination to one of two receivers, and pools them after each row. */
static void round_trip(const setting *s, uint64_t numbering)
{
    uint8_t matrix[SQUARE], factors[ROWS_LIMIT], row[MAX_LENGTH];
    uint64_t index = random_index(s->count), share = 1 + random_below(3);
    harness_receiver start = harness_start(s->q, s->n, s->k, random_pack()).receiver, receivers[2] = {start, start};
    uint32_t refusal = pandrwyg_draw(s->q, s->n, s->k, numbering, index, matrix, width_of(s));
    check(refusal == ACCEPTED, SETTING_FORMAT ": draw refused %u", SETTING_VALUES(s), refusal);
    for (uint64_t r = 0; r < s->k + 3; r++) {
        close_pool(s, numbering, index, factor_rank(s->q, s->k, r, factors), &receivers[0], &receivers[1]);
        random_entries(s->q, factors + r * s->k, (size_t)s->k);
        mix_rows(s->q, s->n, s->k, matrix, factors + r * s->k, row);
        harness_receiver *one = &receivers[random_below(4) < share];
        *one = take_rows(*one, 1, row);
    }
}

static void round_trip_group(uint64_t numbering)
{
    check_group_begin("round trip over two receivers, numbering %" PRIu64, numbering);
    whole_trips = 0;
    short_trips = 0;
    for (size_t number = 0; number < setting_count; number += thinning)
        for (unsigned round = 0; round < TRIPS; round++)
            round_trip(&settings[number], numbering);
    check(whole_trips > 0 && short_trips > 0, "%" PRIu64 " whole, %" PRIu64 " short", whole_trips, short_trips);
    check_group_end();
}

/* ---- Receivers that any caller may hand in ---- */

/* Any receiver in the first place, in the second, and in both, with buffers right and wrong. */
static void compare_any(const harness_receiver *any, const harness_receiver *good)
{
    second_receiver model;
    size_t square = (size_t)(good->n * good->n);
    bool reached = revive(any, &model) == ACCEPTED;
    reachable += reached;
    unreachable += !reached;
    outcome first = compare_into(any, good, square, square), second = compare_into(good, any, square, square);
    outcome both = compare_into(any, any, square, square);
    compare_into(any, good, random_below(SQUARE + 2), random_below(2) == 0 ? square : random_below(SQUARE + 2));
    compare_into(good, any, square, random_below(SQUARE + 2));
    check(reached || (first.pooled.refusal == REFUSED_RECEIVER && second.pooled.refusal == REFUSED_RECEIVER &&
                      both.pooled.refusal == REFUSED_RECEIVER),
          SETTING_FORMAT " of dimension %" PRIu64 ": refusals %u, %u, %u", SETTING_VALUES(any), any->dimension,
          first.pooled.refusal, second.pooled.refusal, both.pooled.refusal);
}

/* Every byte of a receiver, those of its numbers too, at several other values; another pack is as good. */
static void single_byte_group(uint64_t q, uint64_t n, uint64_t k, uint64_t dimension)
{
    static const uint8_t changes[] = {1, 2, 3, 4, 5, 6, 7, 8, 16, 32, 64, 128, 255};
    check_group_begin("damaged bytes, %" PRIu64 ",%" PRIu64 ",%" PRIu64 " of dimension %" PRIu64, q, n, k, dimension);
    harness_receiver receiver = receiver_of(q, n, k, random_pack(), dimension);
    harness_receiver good = receiver_of(q, n, k, receiver.pack, random_below(n + 1));
    begin_any_group();
    compare_any(&receiver, &good);
    for (size_t place = 0; place < RECEIVER_BYTES; place++)
        for (size_t change = 0; change < COUNT_OF(changes); change += thinning) {
            harness_receiver damaged = receiver;
            ((uint8_t *)&damaged)[place] ^= changes[change];
            compare_any(&damaged, &good);
        }
    end_any_group();
}

static void damaged_rows_group(void)
{
    check_group_begin("damaged rows");
    begin_any_group();
    for (size_t number = 0; number < setting_count; number += thinning)
        for (unsigned round = 0; round < DAMAGES; round++) {
            const setting *s = &settings[number];
            harness_receiver receiver = receiver_of(s->q, s->n, s->k, random_pack(), 1 + random_below(s->n));
            harness_receiver good = receiver;
            if (round % 2 == 1)
                good = receiver_of(s->q, s->n, s->k, receiver.pack, random_below(s->n + 1));
            if (receiver.dimension > 0)
                damage_rows(&receiver);
            compare_any(&receiver, &good);
        }
    end_any_group();
}

/* One of q, n, k and the dimension forged, in one of the receivers or in both. */
static void forged_numbers_group(void)
{
    check_group_begin("forged settings and dimensions");
    begin_any_group();
    for (size_t number = 0; number < setting_count; number += thinning) {
        const setting *s = &settings[number];
        uint64_t dimension = number % 3 == 0 ? 0 : random_below(s->n + 1);
        harness_receiver good = receiver_of(s->q, s->n, s->k, random_pack(), dimension);
        for (size_t place = number % 4; place < COUNT_OF(forged); place += 4) {
            harness_receiver changed[4] = {good, good, good, good};
            changed[0].q = forged[place];
            changed[1].n = forged[place];
            changed[2].k = forged[place];
            changed[3].dimension = forged[place];
            for (size_t which = 0; which < COUNT_OF(changed); which++)
                compare_any(&changed[which], &good);
        }
    }
    compare_any(&zeros, &(harness_receiver){{1}, 2, 1, 1, 1, 0});
    end_any_group();
}

/* A q that is no field size, in one of the receivers or in both: 14, of whatever rows. */
static void forged_sizes_group(void)
{
    check_group_begin("wrong field sizes");
    begin_any_group();
    for (size_t number = 0; number < setting_count; number += thinning)
        for (size_t place = 0; place < COUNT_OF(wrong_sizes); place++) {
            const setting *s = &settings[number];
            harness_receiver good = receiver_of(s->q, s->n, s->k, random_pack(), random_below(s->n + 1)), wrong = good;
            wrong.q = wrong_sizes[place];
            compare_any(&wrong, &good);
        }
    check(reachable == 0, "%" PRIu64 " are taken for reachable", reachable);
    check_group_end();
}

/* ---- Receivers that differ ---- */

/* Two good receivers of other settings or packs: 16, with buffers of the one, of the other, and wrong ones. */
static void compare_differing(const harness_receiver *a, const harness_receiver *b)
{
    size_t lengths[] = {(size_t)(a->n * a->n), (size_t)(b->n * b->n), random_below(SQUARE + 2)};
    for (size_t place = 0; place < COUNT_OF(lengths); place++) {
        outcome left = compare_into(a, b, lengths[place], lengths[random_below(COUNT_OF(lengths))]);
        check(left.pooled.refusal == REFUSED_MISMATCH, SETTING_FORMAT " of pack %" PRIu64 " and " SETTING_FORMAT
              " of pack %" PRIu64 ": refusal %u", SETTING_VALUES(a), a->pack, SETTING_VALUES(b), b->pack,
              left.pooled.refusal);
    }
}

/* Of settings or packs that differ: receivers of any dimension, and two that are the same but for these. */
static void compare_settings(const setting *s, uint64_t pack, const setting *other, uint64_t beside)
{
    harness_receiver a = receiver_of(s->q, s->n, s->k, pack, random_below(s->n + 1));
    harness_receiver b = receiver_of(other->q, other->n, other->k, beside, random_below(other->n + 1));
    compare_differing(&a, &b);
    a = harness_start(s->q, s->n, s->k, pack).receiver;
    b = harness_start(other->q, other->n, other->k, beside).receiver;
    if (s->n == other->n && random_below(2) == 0) {
        uint64_t dimension = 1 + random_below(s->n);
        a.dimension = dimension;
        b.dimension = dimension;
        for (uint64_t row = 0; row < dimension; row++) {
            a.entries[row * s->n + row] = 1;
            b.entries[row * s->n + row] = 1;
        }
    }
    compare_differing(&a, &b);
}

enum { IN_Q = 1, IN_N = 2, IN_K = 4, IN_SETTINGS = 7, IN_PACK = 8 };

static unsigned difference_of(const setting *s, const setting *other)
{
    return (s->q != other->q ? IN_Q : 0) | (s->n != other->n ? IN_N : 0) | (s->k != other->k ? IN_K : 0);
}

/* One in so many pairs of settings is tried: fewer where more of their numbers differ. */
static uint64_t rarity_of(unsigned differing)
{
    switch (differing & IN_SETTINGS) {
    case 0: return 1;
    case IN_Q: case IN_N: case IN_K: return 2;
    default: return 32;
    }
}

/* Settings that differ in these numbers, with one pack or two. */
static void differing_group(unsigned differing, const char *name)
{
    check_group_begin("receivers that differ in %s", name);
    for (size_t number = 0; number < setting_count; number += thinning)
        for (size_t other = 0; other < setting_count; other++) {
            const setting *s = &settings[number], *beside = &settings[other];
            uint64_t pack = random_pack();
            if (difference_of(s, beside) == (differing & IN_SETTINGS) && random_below(rarity_of(differing)) == 0)
                compare_settings(s, pack, beside, differing & IN_PACK ? other_pack(pack) : pack);
        }
    check_group_end();
}

/* Receivers of the two packs: 16 either way. Two of one of the packs give a receiver of that pack. */
static void compare_packs(const setting *s, const uint64_t packs[2])
{
    compare_settings(s, packs[0], s, packs[1]);
    compare_settings(s, packs[1], s, packs[0]);
    for (unsigned place = 0; place < 2; place++) {
        harness_receiver a = receiver_of(s->q, s->n, s->k, packs[place], random_below(s->n + 1));
        harness_receiver b = receiver_of(s->q, s->n, s->k, packs[place], random_below(s->n + 1));
        outcome left = compare_both_ways(&a, &b);
        check(left.pooled.refusal == ACCEPTED && left.pooled.receiver.pack == packs[place],
              SETTING_FORMAT " of pack %" PRIu64 ": refusal %u, pack %" PRIu64, SETTING_VALUES(s), packs[place],
              left.pooled.refusal, left.pooled.receiver.pack);
    }
}

static void packs_group(void)
{
    check_group_begin("packs at the ends, or that differ in one byte");
    for (size_t number = 0; number < setting_count; number += thinning)
        for (size_t place = 0; place < COUNT_OF(pack_pairs); place++)
            compare_packs(&settings[number], pack_pairs[place]);
    check_group_end();
}

/* ---- Buffers ---- */

/* Lengths that are right, one short, one long, empty, and right for other settings. */
static void compare_lengths(const setting *s)
{
    size_t n = (size_t)s->n, square = n * n;
    const size_t lengths[] = {square, square - 1, square + 1, 0, 1, n, 2 * n, width_of(s), (n - 1) * (n - 1),
                              SQUARE - 1, SQUARE, SQUARE + 1, SQUARE + MARGIN};
    harness_receiver a = receiver_of(s->q, s->n, s->k, random_pack(), random_below(s->n + 1));
    harness_receiver b = receiver_of(s->q, s->n, s->k, a.pack, random_below(s->n + 1));
    for (size_t place = 0; place < COUNT_OF(lengths); place++) {
        uint32_t due = lengths[place] == square ? ACCEPTED : REFUSED_LENGTH;
        size_t other = lengths[1 + random_below(COUNT_OF(lengths) - 1)];
        check(compare_into(&a, &b, lengths[place], square).pooled.refusal == due &&
              compare_into(&a, &b, square, lengths[place]).pooled.refusal == due,
              SETTING_FORMAT ": length %zu", SETTING_VALUES(s), lengths[place]);
        compare_into(&a, &b, lengths[place], other);
    }
}

static void lengths_group(void)
{
    check_group_begin("lengths of the buffers");
    for (size_t number = 0; number < setting_count; number += thinning)
        compare_lengths(&settings[number]);
    check_group_end();
}

/* ---- The order of the refusals ---- */

enum {
    FIRST_FORGED = 1, SECOND_FORGED = 2, OTHER_SETTINGS = 4, OTHER_PACK = 8, JOINT_WRONG = 16, COMMON_WRONG = 32,
    FAULTS = 64
};

static uint32_t first_refusal(unsigned faults)
{
    if (faults & (FIRST_FORGED | SECOND_FORGED))
        return REFUSED_RECEIVER;
    if (faults & (OTHER_SETTINGS | OTHER_PACK))
        return REFUSED_MISMATCH;
    return faults & (JOINT_WRONG | COMMON_WRONG) ? REFUSED_LENGTH : ACCEPTED;
}

static const setting *differing_from(const setting *s)
{
    const setting *other = s;
    while (difference_of(s, other) == 0)
        other = &settings[random_below(setting_count)];
    return other;
}

static void compare_faults(const setting *s, unsigned faults)
{
    size_t square = (size_t)(s->n * s->n);
    uint64_t pack = random_pack(), beside = faults & OTHER_PACK ? other_pack(pack) : pack;
    const setting *other = faults & OTHER_SETTINGS ? differing_from(s) : s;
    harness_receiver a = receiver_of(s->q, s->n, s->k, pack, random_below(s->n + 1));
    harness_receiver b = receiver_of(other->q, other->n, other->k, beside, random_below(other->n + 1));
    if (faults & FIRST_FORGED)
        forge(&a);
    if (faults & SECOND_FORGED)
        forge(&b);
    outcome left = compare_into(&a, &b, faults & JOINT_WRONG ? square - 1 + 2 * random_below(2) : square,
                                faults & COMMON_WRONG ? square - 1 + 2 * random_below(2) : square);
    check(left.pooled.refusal == first_refusal(faults), SETTING_FORMAT ", faults %u: refusal %u instead of %u",
          SETTING_VALUES(s), faults, left.pooled.refusal, first_refusal(faults));
}

static void faults_group(void)
{
    check_group_begin("several faults at once");
    for (size_t number = 0; number < setting_count; number += thinning)
        for (unsigned faults = 0; faults < FAULTS; faults++)
            compare_faults(&settings[number], faults);
    check_group_end();
}

/* All that Pool can answer was met. */
static void answers_group(void)
{
    check_group_begin("answers that were met");
    check(refusals[ACCEPTED] > 0 && refusals[REFUSED_RECEIVER] > 0 && refusals[REFUSED_MISMATCH] > 0 &&
          refusals[REFUSED_LENGTH] > 0, "done, or refused 14, 16 or 4");
    check_group_end();
}

static void every_pair_groups(void)
{
    every_pair_group(2, 1, 0, 2);
    every_pair_group(2, 2, 1, 5);
    every_pair_group(2, 3, 2, 16);
    every_pair_group(2, 4, 2, 67);
    every_pair_group(3, 2, 1, 6);
    every_pair_group(3, 3, 2, 28);
    every_pair_group(4, 2, 1, 7);
    every_pair_group(4, 3, 2, 44);
    every_pair_group(5, 2, 1, 8);
    every_pair_group(7, 2, 2, 10);
    every_pair_group(8, 2, 1, 11);
}

static void damage_groups(void)
{
    single_byte_group(2, 1, 1, 1);
    single_byte_group(3, 4, 2, 1);
    single_byte_group(4, 4, 2, 2);
    single_byte_group(5, 6, 3, 4);
    single_byte_group(7, 16, 1, 2);
    single_byte_group(8, 3, 1, 2);
    single_byte_group(2, 16, 6, 0);
    single_byte_group(2, 16, 16, 16);
    damaged_rows_group();
    forged_numbers_group();
    forged_sizes_group();
}

static void differing_groups(void)
{
    differing_group(IN_Q, "q");
    differing_group(IN_N, "n");
    differing_group(IN_K, "k");
    differing_group(IN_Q | IN_N, "q and n");
    differing_group(IN_Q | IN_K, "q and k");
    differing_group(IN_N | IN_K, "n and k");
    differing_group(IN_Q | IN_N | IN_K, "q, n and k");
    differing_group(IN_PACK, "the pack");
    differing_group(IN_Q | IN_PACK, "q and the pack");
    differing_group(IN_N | IN_PACK, "n and the pack");
    differing_group(IN_K | IN_PACK, "k and the pack");
    differing_group(IN_Q | IN_N | IN_K | IN_PACK, "q, n, k and the pack");
    packs_group();
}

int main(int argument_count, char **arguments)
{
    cases_begin(argument_count, arguments);
    every_pair_groups();
    for (unsigned place = 0; place < FIELD_COUNT; place++) {
        random_pairs_group(second_field_sizes[place]);
        plans_group(second_field_sizes[place]);
        chains_group(second_field_sizes[place]);
    }
    figures_group();
    round_trip_group(EXTENDED);
    round_trip_group(FERRERS);
    damage_groups();
    differing_groups();
    lengths_group();
    faults_group();
    answers_group();
    return check_summary("pool");
}
