/*
 * Tests what Take answers for rows of zeros, by value and lent, by what the library answers alone. Such a row is idle
 * and leaves every byte of the receiver, wherever it stands among other rows, on receivers of every dimension, and
 * where it comes out of a linear combination. No other row is idle: not one of another pack, or of a wrong length, or
 * with an entry of q or more, or on a receiver that no Start and Take leave; and a nonzero row of the span is held and
 * leaves every byte too. tests/receiver.c has the answers themselves, from the second implementation. An argument N
 * runs about the N-th part, for slow checkers.
 */
#include "cases.h"
#include "check.h"
#include "receivers.h"

enum { SCRIPTS = 100, SCRIPT_ROWS = 24, TRIPS = 10, MIXED = 8, COMBINATIONS = 1024, EVERY_ROW = 2500 };

/* ---- Rows ---- */

/* So many zeros, and then the filling, which no call may read. */
static void fill_zeros(uint8_t *row, size_t length)
{
    memset(row, FILLING, ROW_ROOM);
    memset(row, 0, length);
}

static uint64_t power(uint64_t q, uint64_t exponent)
{
    return exponent == 0 ? 1 : q * power(q, exponent - 1);
}

/* Rows to be mixed: those of a drawn matrix, or any. Answers how many. */
static uint64_t random_base(const setting *s, uint8_t *base)
{
    uint64_t count = random_below(s->n + 1), numbering = numberings[random_below(2)];
    random_entries(s->q, base, (size_t)(count * s->n));
    if (random_below(2) == 0)
        return count;
    uint32_t refusal = pandrwyg_draw(s->q, s->n, s->k, numbering, random_index(s->count), base, width_of(s));
    check(refusal == ACCEPTED, SETTING_FORMAT ": draw refused %u", SETTING_VALUES(s), refusal);
    return s->k;
}

/* ---- One row ---- */

/* A row of the receiver's own pack with this answer, which must leave every byte of the receiver. */
static void compare_untouched(const harness_receiver *receiver, const uint8_t *row, size_t length,
                              take_answer expected)
{
    compare_untouched_for(receiver, receiver->pack, row, length, expected);
}

/* A row of zeros taken in either form. Answers the receiver that Take hands back, which must be the one given. */
static harness_receiver take_zeros(const setting *s, const harness_receiver *receiver)
{
    uint8_t row[ROW_ROOM];
    take_form form = random_form();
    fill_zeros(row, (size_t)s->n);
    harness_step step = take(form, receiver, row, (size_t)s->n);
    check(answers(&step, idle), RECEIVER_FORMAT ": zeros %s give %u, raised %u, idle %u", RECEIVER_VALUES(receiver),
          form_names[form], step.refusal, step.raised, step.idle);
    check(same_receiver(&step.receiver, receiver), RECEIVER_FORMAT ": zeros %s change the receiver",
          RECEIVER_VALUES(receiver), form_names[form]);
    return step.receiver;
}

/* A nonzero row: raised, and the dimension grows by 1, or held. Answers whether it is raised. */
static bool compare_nonzero(const harness_receiver *receiver, const uint8_t *row)
{
    harness_step step = take_both(receiver, receiver->pack, row, (size_t)receiver->n);
    bool grown = step.receiver.dimension == receiver->dimension + 1;
    check(answers(&step, (take_answer){ACCEPTED, grown, 0}),
          RECEIVER_FORMAT ": a nonzero row gives %u, raised %u, idle %u", RECEIVER_VALUES(receiver), step.refusal,
          step.raised, step.idle);
    check(grown || same_receiver(&step.receiver, receiver), RECEIVER_FORMAT ": a held row changes the receiver",
          RECEIVER_VALUES(receiver));
    return grown;
}

/* ---- Zeros among the rows of a script ---- */

/* Rows for Take with their packs and lengths, and the receiver's pack; some of them are refused. */
typedef struct {
    uint64_t pack, packs[SCRIPT_ROWS];
    size_t count, lengths[SCRIPT_ROWS];
    uint8_t rows[SCRIPT_ROWS][ROW_ROOM];
} script;

/* The next row of a script: a mixture of the base, any row, a repeat or a row that is refused. */
static void random_row(const setting *s, uint64_t base_count, const uint8_t *base, script *one)
{
    size_t place = one->count++, earlier = (size_t)random_below(place + 1);
    uint8_t *row = one->rows[place];
    one->packs[place] = offered_pack(one->pack);
    one->lengths[place] = (size_t)s->n;
    random_entries(s->q, row, ROW_ROOM);
    switch (random_below(8)) {
    case 0:
        break;
    case 1:
        memmove(row, one->rows[earlier], ROW_ROOM);
        one->packs[place] = one->packs[earlier];
        one->lengths[place] = one->lengths[earlier];
        break;
    case 2:
        one->lengths[place] = refused_row(s->q, s->n, row);
        break;
    default:
        random_mixture(s->q, s->n, base_count, base, row);
    }
}

/* Closes both receivers in both numberings and in unknown ones. */
static void compare_closes(const harness_receiver *without, const harness_receiver *with)
{
    for (uint64_t numbering = 0; numbering < 4; numbering++) {
        harness_answer first = harness_close(*without, numbering), second = harness_close(*with, numbering);
        check(same_answer(&first, &second), RECEIVER_FORMAT " in %" PRIu64 ": closed with %u instead of %u",
              RECEIVER_VALUES(without), numbering, second.refusal, first.refusal);
        if (first.refusal < REFUSAL_LIMIT)
            close_refusals[first.refusal]++;
    }
}

/* Runs a script without and with zeros put in, surely before its first row and after its last. */
static void run_script(const setting *s, const script *one)
{
    harness_receiver without = harness_start(s->q, s->n, s->k, one->pack).receiver, with = take_zeros(s, &without);
    for (size_t place = 0; place < one->count; place++) {
        for (uint64_t zeros = random_below(4); zeros > 0; zeros--)
            with = take_zeros(s, &with);
        uint64_t pack = one->packs[place];
        harness_step first = take_for(random_form(), &without, pack, one->rows[place], one->lengths[place]);
        harness_step second = take_for(random_form(), &with, pack, one->rows[place], one->lengths[place]);
        check(same_step(&first, &second), SETTING_FORMAT ": row %zu gives %u, raised %u, idle %u instead of %u, %u, %u",
              SETTING_VALUES(s), place, second.refusal, second.raised, second.idle, first.refusal, first.raised,
              first.idle);
        count_answer(&first); /* the script's own; zeros put in between do not count */
        without = first.receiver;
        with = second.receiver;
    }
    with = take_zeros(s, &with);
    check(same_receiver(&without, &with), SETTING_FORMAT ": zeros make another receiver", SETTING_VALUES(s));
    compare_closes(&without, &with);
}

static void zeros_among_scripts(const setting *s)
{
    uint8_t base[MAX_LENGTH * MAX_LENGTH];
    script one;
    for (unsigned round = 0; round < SCRIPTS; round++) {
        uint64_t base_count = random_base(s, base);
        one.pack = random_pack();
        one.count = 0;
        for (uint64_t rows = random_below(SCRIPT_ROWS + 1); rows > 0; rows--)
            random_row(s, base_count, base, &one);
        run_script(s, &one);
    }
}

/* ---- Zeros of every length, on receivers of every dimension ---- */

/* n zeros are idle, on the empty receiver, on the full one and between; fewer, more or another pack's are refused. */
static void zeros_at_every_dimension(const setting *s)
{
    uint8_t row[ROW_ROOM];
    for (uint64_t dimension = 0; dimension <= s->n; dimension++) {
        harness_receiver receiver = receiver_of(s->q, s->n, s->k, random_pack(), dimension);
        for (size_t length = 0; length <= s->n + 2; length++) {
            fill_zeros(row, length);
            compare_untouched(&receiver, row, length, length == s->n ? idle : refused(REFUSED_LENGTH));
            compare_untouched_for(&receiver, other_pack(receiver.pack), row, length, refused(REFUSED_PACK));
        }
    }
}

/* ---- Rows that are zero but for one entry ---- */

static void compare_single_entry(const harness_receiver *receiver, uint64_t place, unsigned value)
{
    uint8_t row[ROW_ROOM];
    size_t length = (size_t)receiver->n;
    fill_zeros(row, length);
    row[place] = (uint8_t)value;
    if (value >= receiver->q)
        compare_untouched(receiver, row, length, refused(REFUSED_ENTRY));
    else
        check(compare_nonzero(receiver, row) || receiver->dimension > 0, SETTING_FORMAT ": a first row is held",
              SETTING_VALUES(receiver));
}

/* Each place at each value but zero, on the empty receiver, on the full one and on one between: never idle. */
static void single_entries(const setting *s)
{
    const uint64_t dimensions[] = {0, random_below(s->n + 1), s->n};
    for (size_t number = 0; number < COUNT_OF(dimensions); number++) {
        harness_receiver receiver = receiver_of(s->q, s->n, s->k, random_pack(), dimensions[number]);
        for (uint64_t place = 0; place < s->n; place++)
            for (unsigned value = 1; value < 256; value++)
                compare_single_entry(&receiver, place, value);
    }
}

/* ---- Zeros on receivers that no Start and Take leave ---- */

/* Zeros of every length, for whatever pack, are refused 14. */
static void compare_unreachable(const harness_receiver *receiver)
{
    uint8_t row[ROW_ROOM];
    for (size_t length = 0; length <= ROW_ROOM; length++) {
        fill_zeros(row, length);
        compare_untouched_for(receiver, offered_pack(receiver->pack), row, length, refused(REFUSED_RECEIVER));
    }
}

/* One of q, n, k and the dimension at values that it never has. */
static void forge_numbers(const harness_receiver *receiver)
{
    const uint64_t above[] = {receiver->n + 1, MAX_LENGTH + 1, 256 + receiver->n, UINT64_MAX};
    for (size_t place = 0; place < COUNT_OF(wrong_sizes); place++) {
        harness_receiver q = *receiver;
        q.q = wrong_sizes[place];
        compare_unreachable(&q);
    }
    for (size_t place = 0; place < COUNT_OF(above); place++) {
        harness_receiver n = *receiver, k = *receiver, dimension = *receiver;
        n.n = place == 0 ? 0 : above[place];
        k.k = above[place];
        dimension.dimension = above[place];
        compare_unreachable(&n);
        compare_unreachable(&k);
        compare_unreachable(&dimension);
    }
}

/* A row too many or too few, a zero row, an entry of q or more, and an entry after the rows. */
static void forge_rows(const harness_receiver *receiver)
{
    harness_receiver many = *receiver, few = *receiver, zero = *receiver, large = *receiver, last = *receiver;
    many.dimension++;
    few.dimension--;
    memset(zero.entries, 0, (size_t)receiver->n);
    large.entries[0] = (uint8_t)receiver->q;
    last.entries[sizeof last.entries - 1] ^= 1;
    compare_unreachable(&many);
    compare_unreachable(&few);
    if (receiver->dimension > 0)
        compare_unreachable(&zero);
    compare_unreachable(&large);
    compare_unreachable(&last);
}

static void unreachable_receivers(const setting *s)
{
    static const harness_receiver zeros;
    const uint64_t dimensions[] = {0, random_below(s->n + 1), s->n};
    compare_unreachable(&zeros);
    for (size_t number = 0; number < COUNT_OF(dimensions); number++) {
        harness_receiver receiver = receiver_of(s->q, s->n, s->k, random_pack(), dimensions[number]);
        forge_numbers(&receiver);
        forge_rows(&receiver);
    }
}

/* ---- Linear combinations that come out zero ---- */

/* Takes rows that are mixtures of a base, so that they mostly depend on one another. */
static harness_receiver take_dependent(const setting *s, uint64_t count, uint8_t *rows)
{
    uint8_t base[MAX_LENGTH * MAX_LENGTH];
    uint64_t base_count = random_base(s, base);
    harness_receiver receiver = harness_start(s->q, s->n, s->k, random_pack()).receiver;
    for (uint64_t row = 0; row < count; row++) {
        random_mixture(s->q, s->n, base_count, base, rows + row * s->n);
        receiver = take(random_form(), &receiver, rows + row * s->n, (size_t)s->n).receiver;
    }
    return receiver;
}

/*
 * All combinations of rows that the receiver has taken: idle where they come out zero, else held. Of the q^count
 * combinations q^dimension are different rows, and each of these comes equally often.
 */
static void all_combinations(const setting *s)
{
    uint8_t rows[ROWS_LIMIT], factors[MAX_ROWS] = {0}, mixture[ROW_ROOM];
    uint64_t count = 0, zeros = 0;
    while (power(s->q, count + 1) <= COMBINATIONS)
        count++;
    harness_receiver receiver = take_dependent(s, count, rows);
    memset(mixture, FILLING, sizeof mixture);
    do {
        mix_rows(s->q, s->n, count, rows, factors, mixture);
        bool zero = is_zero(mixture, s->n);
        compare_untouched(&receiver, mixture, (size_t)s->n, zero ? idle : held);
        zeros += zero;
    } while (next_entries(s->q - 1, factors, (size_t)count));
    check(zeros * power(s->q, receiver.dimension) == power(s->q, count),
          RECEIVER_FORMAT ": %" PRIu64 " combinations of %" PRIu64 " rows are zero", RECEIVER_VALUES(&receiver), zeros,
          count);
}

/* The entry that gives zero when it is added. */
static uint8_t opposite(uint64_t q, uint8_t entry)
{
    uint8_t other = 0;
    while (second_field_add(q, entry, other) != 0)
        other++;
    return other;
}

/* A combination that comes out zero, of the rows, if any, and one more that depends on them; all factors may be 0. */
static void zero_mixture(uint64_t q, uint64_t n, uint64_t count, const uint8_t *rows, uint8_t *mixture)
{
    uint8_t list[ROWS_LIMIT], factors[MAX_ROWS] = {0}, scale = (uint8_t)random_below(q);
    memcpy(list, rows, (size_t)(count * n));
    if (random_below(2) == 0)
        random_entries(q, factors, (size_t)count);
    else if (count > 0)
        factors[random_below(count)] = 1;
    mix_rows(q, n, count, rows, factors, list + count * n);
    for (uint64_t row = 0; row < count; row++)
        factors[row] = second_field_multiply(q, scale, factors[row]);
    factors[count] = opposite(q, scale);
    mix_rows(q, n, count + 1, list, factors, mixture);
    check(is_zero(mixture, n), "a combination comes out nonzero");
}

static void take_zero_mixture(const setting *s, uint64_t count, const uint8_t *rows, harness_receiver *receiver)
{
    uint8_t mixture[ROW_ROOM];
    memset(mixture, FILLING, sizeof mixture);
    zero_mixture(s->q, s->n, count, rows, mixture);
    compare_untouched(receiver, mixture, (size_t)s->n, idle);
    *receiver = take(random_form(), receiver, mixture, (size_t)s->n).receiver;
}

/* Closes in both numberings: the drawn matrix's index in each where k dimensions were raised, else too few. */
static void compare_drawn(const setting *s, uint64_t numbering, uint64_t index, const harness_receiver *receiver,
                          uint64_t dimension)
{
    for (unsigned place = 0; place < COUNT_OF(numberings); place++) {
        uint64_t expected = harness_convert(s->q, s->n, s->k, numbering, numberings[place], index).value;
        harness_answer answer = harness_close(*receiver, numberings[place]);
        bool right = dimension == s->k ? answer.refusal == ACCEPTED && answer.value == expected
                                       : answer.refusal == REFUSED_TOO_FEW && answer.dimension == dimension;
        check(right, SETTING_FORMAT " in %" PRIu64 ": index %" PRIu64 ", dimension %" PRIu64 " gives %u, %" PRIu64,
              SETTING_VALUES(s), numberings[place], expected, dimension, answer.refusal, answer.value);
    }
}

/* Takes mixtures of drawn rows, then these rows, with mixtures that come out zero before and after each. */
static void drawn_trip(const setting *s, uint64_t numbering)
{
    uint8_t matrix[MAX_LENGTH * MAX_LENGTH], sent[ROWS_LIMIT];
    uint64_t index = random_index(s->count), mixed = random_below(MIXED + 1), dimension = 0;
    harness_receiver receiver = harness_start(s->q, s->n, s->k, random_pack()).receiver;
    uint32_t refusal = pandrwyg_draw(s->q, s->n, s->k, numbering, index, matrix, width_of(s));
    check(refusal == ACCEPTED, SETTING_FORMAT ": draw refused %u", SETTING_VALUES(s), refusal);
    take_zero_mixture(s, s->k, matrix, &receiver);
    for (uint64_t count = 0; count < mixed + s->k; count++) {
        uint8_t *row = sent + count * s->n;
        random_mixture(s->q, s->n, s->k, matrix, row);
        if (count >= mixed)
            memcpy(row, matrix + (count - mixed) * s->n, (size_t)s->n);
        harness_step step = take(random_form(), &receiver, row, (size_t)s->n);
        check(step.refusal == ACCEPTED && step.idle == is_zero(row, s->n), SETTING_FORMAT ": refusal %u, idle %u",
              SETTING_VALUES(s), step.refusal, step.idle);
        receiver = step.receiver;
        dimension += step.raised;
        take_zero_mixture(s, count + 1, sent, &receiver);
        compare_drawn(s, numbering, index, &receiver, dimension);
    }
    compare_drawn(s, numbering, index, &receiver, s->k);
}

static void drawn_rows(const setting *s)
{
    for (unsigned round = 0; round < TRIPS; round++) {
        drawn_trip(s, EXTENDED);
        drawn_trip(s, FERRERS);
    }
}

/* A combination with a nonzero factor at one row at least. */
static void compare_held(const harness_receiver *receiver, uint64_t at, uint8_t factor)
{
    uint8_t factors[MAX_LENGTH] = {0}, row[ROW_ROOM];
    memset(row, FILLING, sizeof row);
    for (unsigned kind = 0; kind < 2; kind++) {
        factors[at] = factor;
        mix_rows(receiver->q, receiver->n, receiver->dimension, receiver->entries, factors, row);
        compare_untouched(receiver, row, (size_t)receiver->n, held);
        random_entries(receiver->q, factors, (size_t)receiver->dimension);
    }
}

/* A receiver's rows are independent: a combination with a nonzero factor is held, and one that cancels out is idle. */
static void own_combinations(const setting *s)
{
    for (uint64_t dimension = 0; dimension <= s->n; dimension++) {
        harness_receiver receiver = receiver_of(s->q, s->n, s->k, random_pack(), dimension);
        take_zero_mixture(s, dimension, receiver.entries, &receiver);
        for (uint64_t at = 0; at < dimension; at++)
            for (uint8_t factor = 1; factor < s->q; factor++)
                compare_held(&receiver, at, factor);
    }
}

/* ---- Every row ---- */

/* All rows of a small length: one is idle, q^dimension - 1 are held, and the others raised. */
static void every_row(const setting *s)
{
    for (uint64_t dimension = 0; dimension <= s->n && power(s->q, s->n) <= EVERY_ROW; dimension++) {
        harness_receiver receiver = receiver_of(s->q, s->n, s->k, random_pack(), dimension);
        uint8_t row[ROW_ROOM];
        uint64_t raised = 0;
        fill_zeros(row, (size_t)s->n);
        compare_untouched(&receiver, row, (size_t)s->n, idle);
        while (next_entries(s->q - 1, row, (size_t)s->n))
            raised += compare_nonzero(&receiver, row);
        check(raised == power(s->q, s->n) - power(s->q, dimension), RECEIVER_FORMAT ": %" PRIu64 " rows are raised",
              RECEIVER_VALUES(&receiver), raised);
    }
}

int main(int argument_count, char **arguments)
{
    static const comparison each[] = {
        {"zeros among scripts", 1, zeros_among_scripts}, {"zeros at every dimension", 1, zeros_at_every_dimension},
        {"single entries", 1, single_entries}, {"unreachable receivers", 1, unreachable_receivers},
        {"all combinations", 1, all_combinations}, {"drawn rows", 1, drawn_rows},
        {"own combinations", 1, own_combinations}, {"every row", 1, every_row},
    };
    cases_begin(argument_count, arguments);
    for (unsigned place = 0; place < FIELD_COUNT; place++)
        comparison_groups(second_field_sizes[place], each, COUNT_OF(each));
    script_answers_group();
    return check_summary("idle");
}
