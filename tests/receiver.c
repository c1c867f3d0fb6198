/*
 * Tests Start, Take by value and lent, and Close against the second implementation's receiver, which keeps the list of
 * accepted rows: random scripts of calls over every accepted setting, with rows of other packs among them, the round
 * trip from Draw, document 01's figures, refused starts, and receivers that no calls lead to. An argument N runs about
 * the N-th part, for slow checkers.
 */
#include "cases.h"
#include "check.h"
#include "receivers.h"

enum { SCRIPTS = 40, CALLS = 60, TRIPS = 20, FORGERIES = 6, DAMAGES = 100, ROW_LIMIT = MAX_LENGTH + 1 };

/* ---- Both receivers ---- */

/* A start in both; answers the library's receiver. */
static harness_receiver compare_start(uint64_t q, uint64_t n, uint64_t k, uint64_t pack, second_receiver *model)
{
    uint32_t refusal = second_start(q, n, k, pack, model);
    harness_step step = harness_start(q, n, k, pack);
    harness_receiver expected = image_of(model);
    check(step.refusal == refusal && step.raised == 0 && step.idle == 0,
          "start of %" PRIu64 ",%" PRIu64 ",%" PRIu64 ": refusal %u instead of %u", q, n, k, step.refusal, refusal);
    check(same_receiver(&step.receiver, &expected), "start of %" PRIu64 ",%" PRIu64 ",%" PRIu64 ": other receiver",
          q, n, k);
    return step.receiver;
}

/* A row offered to both for a pack. The answers must agree, and every byte of the receivers; the row is only read. */
static void compare_take(take_form form, harness_receiver *receiver, second_receiver *model, uint64_t pack,
                         const uint8_t *row, size_t length)
{
    uint8_t kept[ROW_LIMIT];
    second_taken taken;
    memcpy(kept, row, length);
    uint32_t refusal = second_take(model, pack, row, length, &taken);
    harness_step step = take_for(form, receiver, pack, row, length);
    harness_receiver expected = image_of(model);
    check(step.refusal == refusal && step.raised == taken.raised && step.idle == taken.idle,
          SETTING_FORMAT " of pack %" PRIu64 ", row of %zu bytes for %" PRIu64 " %s: refusal %u, raised %u, idle %u "
          "instead of %u, %u, %u", SETTING_VALUES(model), model->pack, length, pack, form_names[form], step.refusal,
          step.raised, step.idle, refusal, taken.raised, taken.idle);
    check(same_receiver(&step.receiver, &expected), SETTING_FORMAT ", %" PRIu64 " rows, the last %s: other receiver",
          SETTING_VALUES(model), model->r, form_names[form]);
    check(taken.raised == 1 || same_receiver(&step.receiver, receiver),
          SETTING_FORMAT ": a row not raised, refusal %u, changes the receiver", SETTING_VALUES(model), refusal);
    check(memcmp(kept, row, length) == 0, "the row was changed");
    take_refusals[refusal]++;
    raised_rows += taken.raised;
    idle_rows += taken.idle;
    held_rows += refusal == ACCEPTED && !taken.raised && !taken.idle;
    *receiver = step.receiver;
}

static void compare_close(const harness_receiver *receiver, const second_receiver *model, uint64_t numbering)
{
    uint64_t index;
    second_told told;
    uint32_t refusal = second_close(model, numbering, &index, &told);
    harness_answer answer = harness_close(*receiver, numbering);
    if (refusal == ACCEPTED)
        told.dimension = 0;
    check(answer.refusal == refusal && answer.value == index && answer.dimension == told.dimension &&
          answer.vector == told.vector,
          SETTING_FORMAT " in %" PRIu64 ": closed with %u, %" PRIu64 ", %" PRIu64 ", %" PRIu64 " instead of %u, %" PRIu64
          ", %" PRIu64 ", %" PRIu64, SETTING_VALUES(model), numbering, answer.refusal, answer.value, answer.dimension,
          answer.vector, refusal, index, told.dimension, told.vector);
    close_refusals[refusal]++;
}

/* ---- Scripts ---- */

/* Both receivers, and a few rows whose linear combinations many rows of the script are. */
typedef struct {
    harness_receiver receiver;
    second_receiver model;
    uint64_t base_count;
    uint8_t base[MAX_LENGTH * MAX_LENGTH];
} script;

static void begin_script(const setting *s, script *one)
{
    one->receiver = compare_start(s->q, s->n, s->k, random_pack(), &one->model);
    one->base_count = random_below(2) == 0 ? s->k : random_below(s->n + 1);
    random_entries(s->q, one->base, (size_t)(one->base_count * s->n));
}

/* A row that is accepted: new or not, and of any span. */
static void accepted_row(const script *one, uint8_t *row)
{
    const second_receiver *model = &one->model;
    uint64_t q = model->q, n = model->n;
    switch (random_below(10)) {
    case 0:
        memset(row, 0, (size_t)n);
        break;
    case 1:
        if (model->r > 0)
            memcpy(row, model->rows + random_below(model->r) * n, (size_t)n);
        break;
    case 2:
        random_mixture(q, n, model->r, model->rows, row);
        break;
    case 3:
        memset(row, 0, (size_t)n);
        row[random_below(n)] = (uint8_t)(1 + random_below(q - 1));
        break;
    case 4:
        break;
    default:
        random_mixture(q, n, one->base_count, one->base, row);
    }
}

static void random_call(script *one)
{
    uint64_t q = one->model.q, n = one->model.n;
    uint8_t row[ROW_LIMIT];
    unsigned kind = (unsigned)random_below(8);
    if (kind == 0) {
        compare_close(&one->receiver, &one->model, random_below(4));
        return;
    }
    random_entries(q, row, ROW_LIMIT);
    accepted_row(one, row);
    size_t length = kind == 1 ? refused_row(q, n, row) : (size_t)n;
    compare_take(random_form(), &one->receiver, &one->model, offered_pack(one->model.pack), row, length);
}

static void scripts_group(uint64_t q)
{
    script one;
    check_group_begin("scripts of calls, q = %" PRIu64, q);
    for (size_t number = 0; number < setting_count; number += thinning)
        for (unsigned round = 0; round < SCRIPTS && settings[number].q == q; round++) {
            begin_script(&settings[number], &one);
            for (uint64_t calls = random_below(CALLS); calls > 0; calls--)
                random_call(&one);
            for (uint64_t numbering = 0; numbering < 4; numbering++)
                compare_close(&one.receiver, &one.model, numbering);
        }
    check_group_end();
}

/* ---- Round trip ---- */

/* Draws, and takes linear combinations: the index again once they span the drawn rows, else their dimension. */
static void round_trip(const setting *s, uint64_t numbering)
{
    uint8_t matrix[MAX_LENGTH * MAX_LENGTH], factors[ROWS_LIMIT], row[MAX_LENGTH];
    uint64_t index = random_index(s->count), rank = 0;
    harness_receiver receiver = harness_start(s->q, s->n, s->k, random_pack()).receiver;
    uint32_t refusal = pandrwyg_draw(s->q, s->n, s->k, numbering, index, matrix, (size_t)(s->k * s->n));
    check(refusal == ACCEPTED, SETTING_FORMAT ": draw refused %u", SETTING_VALUES(s), refusal);
    for (uint64_t r = 0; r < s->k + 4; r++) {
        uint8_t *newest = factors + r * s->k;
        random_entries(s->q, newest, (size_t)s->k);
        mix_rows(s->q, s->n, s->k, matrix, newest, row);
        harness_step step = take(random_form(), &receiver, row, (size_t)s->n);
        uint64_t before = rank;
        rank = factor_rank(s->q, s->k, r + 1, factors);
        check(step.refusal == ACCEPTED && step.raised == rank - before &&
              step.idle == (factor_rank(s->q, s->k, 1, newest) == 0), SETTING_FORMAT ": refusal %u, raised %u, idle %u",
              SETTING_VALUES(s), step.refusal, step.raised, step.idle);
        receiver = step.receiver;
        harness_answer answer = harness_close(receiver, numbering);
        uint64_t drawn = second_identifying_vector(s->n, s->k, matrix);
        bool right = rank == s->k ? answer.refusal == ACCEPTED && answer.value == index && answer.vector == drawn
                                  : answer.refusal == REFUSED_TOO_FEW && answer.dimension == rank;
        check(right, SETTING_FORMAT " in %" PRIu64 ": index %" PRIu64 ", %" PRIu64 " rows of rank %" PRIu64,
              SETTING_VALUES(s), numbering, index, r + 1, rank);
    }
}

static void round_trip_group(uint64_t numbering)
{
    check_group_begin("round trip, numbering %" PRIu64, numbering);
    for (size_t number = 0; number < setting_count; number += thinning)
        for (unsigned round = 0; round < TRIPS; round++)
            round_trip(&settings[number], numbering);
    check_group_end();
}

/* ---- Figures ---- */

/* Takes rows of digits; what is held is told by 0, raised by 1, idle by 2. Then closes in both numberings. */
static void compare_figure(setting s, const char *rows, const char *answers, uint32_t refusal, uint64_t index,
                           second_told told)
{
    uint8_t entries[ROWS_LIMIT];
    size_t count = read_rows(rows, entries) / s.n;
    for (take_form form = BY_VALUE; form <= LENT; form++) {
        harness_receiver receiver = harness_start(s.q, s.n, s.k, random_pack()).receiver;
        for (size_t row = 0; row < count; row++) {
            harness_step step = take(form, &receiver, entries + row * s.n, (size_t)s.n);
            check(step.refusal == ACCEPTED && step.raised == (answers[row] == '1') &&
                  step.idle == (answers[row] == '2'), "%s %s: row %zu", rows, form_names[form], row);
            receiver = step.receiver;
        }
        for (uint64_t numbering = EXTENDED; numbering <= FERRERS; numbering++) {
            harness_answer answer = harness_close(receiver, numbering);
            check(answer.refusal == refusal && answer.value == index && answer.dimension == told.dimension &&
                  answer.vector == told.vector, "%s in %" PRIu64, rows, numbering);
        }
    }
}

static void figures_group(void)
{
    check_group_begin("figures of document 01, row by row");
    compare_figure((setting){3, 2, 1, 0}, "21", "1", ACCEPTED, 2, (second_told){0, 2});
    compare_figure((setting){2, 3, 2, 0}, "110/011/101", "110", ACCEPTED, 3, (second_told){0, 6});
    compare_figure((setting){2, 3, 2, 0}, "110", "1", REFUSED_TOO_FEW, 0, (second_told){1, 4});
    compare_figure((setting){2, 3, 2, 0}, "100/010/001", "111", REFUSED_TOO_MANY, 0, (second_told){3, 7});
    compare_figure((setting){2, 3, 0, 0}, "", "", ACCEPTED, 0, (second_told){0, 0});
    compare_figure((setting){2, 3, 0, 0}, "000/000", "22", ACCEPTED, 0, (second_told){0, 0});
    compare_figure((setting){2, 3, 1, 0}, "001/000/001", "120", ACCEPTED, 6, (second_told){0, 1});
    check_group_end();
}

/* Twice 12 is 23 in four, and twice 14 is 23 in eight; 20 is a multiple of neither. */
static void polynomials_group(void)
{
    check_group_begin("rows of order 7's fields, row by row");
    compare_figure((setting){4, 2, 1, 0}, "12/23/00/31", "1020", ACCEPTED, 2, (second_told){0, 2});
    compare_figure((setting){4, 2, 1, 0}, "12/20", "11", REFUSED_TOO_MANY, 0, (second_told){2, 3});
    compare_figure((setting){8, 2, 1, 0}, "25/00/17", "120", ACCEPTED, 7, (second_told){0, 2});
    compare_figure((setting){8, 2, 1, 0}, "14/23", "10", ACCEPTED, 4, (second_told){0, 2});
    compare_figure((setting){8, 2, 1, 0}, "14/20", "11", REFUSED_TOO_MANY, 0, (second_told){2, 3});
    check_group_end();
}

/* ---- Receivers that any caller may hand in ---- */

static void compare_unreachable(const harness_receiver *receiver, const uint8_t *row, size_t length)
{
    for (take_form form = BY_VALUE; form <= LENT; form++) {
        harness_step step = take_for(form, receiver, offered_pack(receiver->pack), row, length);
        check(step.refusal == REFUSED_RECEIVER && step.raised == 0 && step.idle == 0 &&
              same_receiver(&step.receiver, receiver), SETTING_FORMAT " of dimension %" PRIu64 ", Take %s: refusal %u",
              SETTING_VALUES(receiver), receiver->dimension, form_names[form], step.refusal);
    }
    harness_answer answer = harness_close(*receiver, random_below(4));
    check(answer.refusal == REFUSED_RECEIVER && answer.value == 0 && answer.dimension == 0 && answer.vector == 0,
          SETTING_FORMAT " of dimension %" PRIu64 ", Close: refusal %u", SETTING_VALUES(receiver),
          receiver->dimension, answer.refusal);
}

static void compare_reachable(const harness_receiver *receiver, const second_receiver *model)
{
    uint8_t row[ROW_LIMIT];
    random_entries(random_below(4) == 0 ? 1 : model->q, row, ROW_LIMIT);
    size_t length = random_below(4) == 0 ? refused_row(model->q, model->n, row) : (size_t)model->n;
    uint64_t pack = offered_pack(model->pack);
    for (take_form form = BY_VALUE; form <= LENT; form++) {
        harness_receiver left = *receiver;
        second_receiver list = *model;
        compare_take(form, &left, &list, pack, row, length);
    }
    for (uint64_t numbering = 0; numbering < 4; numbering++)
        compare_close(receiver, model, numbering);
}

/* Any receiver: refused 14 where no list of rows leads to it, whatever is offered; else as after such a list. */
static void compare_any(const harness_receiver *receiver)
{
    static const uint64_t bounds[] = {1, 2, 2, 256};
    second_receiver model;
    uint8_t row[ROW_LIMIT];
    if (revive(receiver, &model) == ACCEPTED) {
        reachable++;
        compare_reachable(receiver, &model);
        return;
    }
    unreachable++;
    random_entries(bounds[random_below(COUNT_OF(bounds))], row, ROW_LIMIT);
    compare_unreachable(receiver, row, random_below(2) == 0 && receiver->n < ROW_LIMIT ? (size_t)receiver->n
                                                                                      : random_below(ROW_LIMIT + 1));
}

/* Every byte of a receiver, those of its numbers too, at each of the 255 other values; the pack may have any. */
static void single_byte_group(uint64_t q, uint64_t n, uint64_t k, uint64_t dimension)
{
    check_group_begin("every damaged byte, %" PRIu64 ",%" PRIu64 ",%" PRIu64 " of dimension %" PRIu64,
                      q, n, k, dimension);
    harness_receiver receiver = receiver_of(q, n, k, random_pack(), dimension);
    begin_any_group();
    compare_any(&receiver);
    for (size_t place = 0; place < RECEIVER_BYTES; place++)
        for (unsigned other = 1; other < 256; other += (unsigned)thinning) {
            harness_receiver damaged = receiver;
            ((uint8_t *)&damaged)[place] ^= (uint8_t)other;
            compare_any(&damaged);
        }
    end_any_group();
}

static void damaged_rows_group(void)
{
    check_group_begin("damaged rows");
    begin_any_group();
    for (size_t number = 0; number < setting_count; number += thinning)
        for (unsigned round = 0; round < DAMAGES; round++) {
            const setting *s = &settings[number];
            harness_receiver receiver = receiver_of(s->q, s->n, s->k, random_pack(), 1 + random_below(s->n));
            if (receiver.dimension > 0)
                damage_rows(&receiver);
            compare_any(&receiver);
        }
    end_any_group();
}

/* Every filling of the first entries with numbers up to q, at every dimension up to n + 1: one for each space. */
static void every_filling_group(uint64_t q, uint64_t n, uint64_t k, size_t filled)
{
    harness_receiver receiver = harness_start(q, n, k, random_pack()).receiver;
    uint64_t spaces = 0, count;
    check_group_begin("every filling of %zu entries, %" PRIu64 ",%" PRIu64 ",%" PRIu64, filled, q, n, k);
    begin_any_group();
    do
        for (receiver.dimension = 0; receiver.dimension <= n + 1; receiver.dimension++)
            compare_any(&receiver);
    while (next_entries(q, receiver.entries, filled));
    for (uint64_t dimension = 0; dimension <= n; dimension++, spaces += count)
        second_count(q, n, dimension, &count);
    check(reachable == spaces, "%" PRIu64 " receivers for %" PRIu64 " spaces", reachable, spaces);
    end_any_group();
}

/* One of q, n, k and the dimension, or two of them, forged. */
static void compare_forged(const harness_receiver *receiver, uint64_t value)
{
    harness_receiver q = *receiver, n = *receiver, k = *receiver, dimension = *receiver, both = *receiver;
    q.q = value;
    n.n = value;
    k.k = value;
    dimension.dimension = value;
    both.n = forged[random_below(COUNT_OF(forged))];
    both.dimension = value;
    compare_any(&q);
    compare_any(&n);
    compare_any(&k);
    compare_any(&dimension);
    compare_any(&both);
}

static void forged_numbers_group(void)
{
    check_group_begin("forged settings and dimensions");
    begin_any_group();
    for (size_t number = 0; number < setting_count; number += thinning)
        for (unsigned round = 0; round < FORGERIES; round++) {
            const setting *s = &settings[number];
            uint64_t dimension = round == 0 ? 0 : random_below(s->n + 1);
            harness_receiver receiver = receiver_of(s->q, s->n, s->k, random_pack(), dimension);
            for (size_t place = 0; place < COUNT_OF(forged); place++)
                compare_forged(&receiver, forged[place]);
        }
    end_any_group();
}

/* A q that is no field size is refused 14, also where the receiver holds nothing but zeros and ones. */
static void forged_sizes_group(void)
{
    uint8_t row[MAX_LENGTH] = {1};
    check_group_begin("wrong field sizes in a receiver");
    for (size_t number = 0; number < setting_count; number += thinning)
        for (size_t place = 0; place < COUNT_OF(wrong_sizes); place++) {
            const setting *s = &settings[number];
            harness_receiver empty = harness_start(s->q, s->n, s->k, random_pack()).receiver, unit = empty;
            harness_receiver any = receiver_of(s->q, s->n, s->k, random_pack(), random_below(s->n + 1));
            unit.entries[0] = 1;
            unit.dimension = 1;
            empty.q = unit.q = any.q = wrong_sizes[place];
            compare_unreachable(&empty, row, (size_t)s->n);
            compare_unreachable(&unit, row, (size_t)s->n);
            compare_unreachable(&any, row, (size_t)s->n);
        }
    check_group_end();
}

/* A dimension above n is refused 14, whatever the entries are. */
static void forged_dimensions_group(void)
{
    check_group_begin("dimensions above n");
    for (size_t number = 0; number < setting_count; number += thinning) {
        const setting *s = &settings[number];
        const uint64_t dimensions[] = {s->n + 1, 17, 255, 256, 256 + s->n, UINT64_C(1) << 32, UINT64_C(1) << 60,
                                       UINT64_C(1) << 63, UINT64_MAX};
        uint8_t row[MAX_LENGTH] = {1};
        harness_receiver receiver = receiver_of(s->q, s->n, s->k, random_pack(), number % (s->n + 1));
        for (size_t place = 0; place < COUNT_OF(dimensions); place++) {
            receiver.dimension = dimensions[place];
            compare_unreachable(&receiver, row, (size_t)s->n);
        }
    }
    check_group_end();
}

/* ---- Starts ---- */

static void starts_group(void)
{
    second_receiver model;
    check_group_begin("starts, accepted and refused");
    for (size_t q = 0; q < COUNT_OF(forged); q++)
        for (size_t n = 0; n < COUNT_OF(forged); n++)
            for (size_t k = 0; k < COUNT_OF(forged); k++)
                compare_start(forged[q], forged[n], forged[k], random_pack(), &model);
    check_group_end();
}

static void start_wrong_size(uint64_t q, uint64_t n, uint64_t k)
{
    static const harness_receiver zeros;
    harness_step step = harness_start(q, n, k, random_pack());
    check(step.refusal == REFUSED_FIELD && same_receiver(&step.receiver, &zeros), SETTING_FORMAT ": refusal %u", q, n,
          k, step.refusal);
}

static void wrong_sizes_group(void)
{
    check_group_begin("starts with wrong field sizes");
    for (size_t place = 0; place < COUNT_OF(wrong_sizes); place++)
        every_shape(wrong_sizes[place], start_wrong_size);
    check_group_end();
}

static const struct {
    uint64_t q, n, k;
    uint32_t refusal;
} refused_starts[] = {
    {6, 3, 1, REFUSED_FIELD}, {258, 3, 1, REFUSED_FIELD}, {UINT64_MAX, 17, 18, REFUSED_FIELD},
    {2, 0, 0, REFUSED_SHAPE}, {2, 17, 1, REFUSED_SHAPE}, {7, 259, 1, REFUSED_SHAPE}, {2, 3, 4, REFUSED_SHAPE},
    {2, 16, UINT64_MAX, REFUSED_SHAPE}, {2, 16, 7, REFUSED_COUNT}, {7, 16, 8, REFUSED_COUNT},
};

/* Take and Close on what a refused start gives for any pack, all zeros: 14, before any other refusal. */
static void refused_starts_group(void)
{
    static const uint64_t numbers[] = {0, 1, 2, 3, 258, UINT64_MAX};
    static const harness_receiver zeros;
    uint8_t row[ROW_LIMIT] = {0};
    check_group_begin("refused starts");
    for (size_t place = 0; place < COUNT_OF(refused_starts); place++) {
        harness_step step = harness_start(refused_starts[place].q, refused_starts[place].n, refused_starts[place].k,
                                          other_pack(0));
        check(step.refusal == refused_starts[place].refusal && step.raised == 0 && step.idle == 0 &&
              same_receiver(&step.receiver, &zeros), SETTING_FORMAT ": refusal %u",
              SETTING_VALUES(&refused_starts[place]), step.refusal);
        for (size_t length = 0; length <= ROW_LIMIT; length++) {
            row[0] = length % 2 == 0 ? 255 : 0;
            compare_unreachable(&step.receiver, row, length);
        }
        for (size_t number = 0; number < COUNT_OF(numbers); number++)
            check(harness_close(step.receiver, numbers[number]).refusal == REFUSED_RECEIVER,
                  "closed in %" PRIu64, numbers[number]);
    }
    check_group_end();
}

static void settings_group(void)
{
    check_group_begin("number of accepted settings");
    check(setting_count == ACCEPTED_SETTINGS, "%zu settings instead of %d", setting_count, ACCEPTED_SETTINGS);
    check_group_end();
}

static void damage_groups(void)
{
    single_byte_group(2, 1, 1, 0);
    single_byte_group(2, 1, 1, 1);
    single_byte_group(2, 4, 2, 2);
    single_byte_group(3, 4, 2, 1);
    single_byte_group(4, 4, 2, 2);
    single_byte_group(5, 3, 1, 3);
    single_byte_group(5, 6, 3, 4);
    single_byte_group(8, 3, 1, 2);
    single_byte_group(7, 2, 1, 1);
    single_byte_group(7, 16, 1, 2);
    single_byte_group(3, 16, 3, 8);
    single_byte_group(2, 16, 6, 0);
    single_byte_group(2, 16, 6, 6);
    single_byte_group(2, 16, 16, 16);
    every_filling_group(2, 1, 0, 4);
    every_filling_group(2, 2, 1, 6);
    every_filling_group(3, 2, 1, 5);
    every_filling_group(4, 2, 1, 5);
    every_filling_group(7, 2, 2, 4);
    every_filling_group(8, 2, 1, 4);
    every_filling_group(2, 3, 2, 9);
    damaged_rows_group();
    forged_numbers_group();
    forged_sizes_group();
    forged_dimensions_group();
}

int main(int argument_count, char **arguments)
{
    cases_begin(argument_count, arguments);
    settings_group();
    for (unsigned place = 0; place < FIELD_COUNT; place++)
        scripts_group(second_field_sizes[place]);
    script_answers_group();
    round_trip_group(EXTENDED);
    round_trip_group(FERRERS);
    figures_group();
    polynomials_group();
    starts_group();
    wrong_sizes_group();
    refused_starts_group();
    damage_groups();
    return check_summary("receiver");
}
