/*
 * Tests that a receiver belongs to a pack. In a rack the rows of two packs arrive by turns: each receiver takes its own
 * pack's rows, by value and lent, refuses all others with 17, and closes to its own drawn index; under one number such
 * rows often give a lawful record of neither pack, or too many dimensions. Further: pack numbers at the ends and one
 * byte apart, all 65,536 of them, the order of Take's refusals, packs that were changed from outside, and starts.
 * tests/receiver.c has random scripts with packs beside the second implementation, tests/pool.c has Pool. An argument N
 * runs about the N-th part, for slow checkers.
 */
#include "cases.h"
#include "check.h"
#include "receivers.h"

enum { RACKS = 24, JOINED = 24, FAULT_ROUNDS = 4, CHANGES = 40, OFFERS = MAX_ROWS };

/* ---- The rack ---- */

/* One of the rack's packs: what was drawn for it, its receiver, and the factors of the rows that it must have taken. */
typedef struct {
    const setting *s;
    uint64_t pack, numbering, index, taken, rank;
    uint8_t matrix[MAX_LENGTH * MAX_LENGTH], factors[OFFERS * MAX_LENGTH];
    harness_receiver receiver;
} member;

/* A row offered for a pack, the factors of its mixture, and what a receiver of that pack must refuse it with, or 0. */
typedef struct {
    uint64_t pack;
    uint32_t refusal;
    size_t length;
    uint8_t factors[MAX_LENGTH], row[ROW_ROOM];
} offer;

static member member_of(const setting *s, uint64_t pack, uint64_t numbering)
{
    member one = {.s = s, .pack = pack, .numbering = numbering, .index = random_index(s->count)};
    uint32_t refusal = pandrwyg_draw(s->q, s->n, s->k, numbering, one.index, one.matrix, width_of(s));
    harness_step step = harness_start(s->q, s->n, s->k, pack);
    check(refusal == ACCEPTED && step.refusal == ACCEPTED, SETTING_FORMAT ": draw refused %u, start %u",
          SETTING_VALUES(s), refusal, step.refusal);
    one.receiver = step.receiver;
    return one;
}

/* A linear combination of the sender's rows, at times damaged. */
static offer offer_of(const member *sender, uint64_t pack)
{
    const setting *s = sender->s;
    offer one = {.pack = pack, .refusal = ACCEPTED, .length = (size_t)s->n};
    random_entries(s->q, one.factors, (size_t)s->k);
    mix_rows(s->q, s->n, s->k, sender->matrix, one.factors, one.row);
    if (random_below(6) == 0) {
        one.length = refused_row(s->q, s->n, one.row);
        one.refusal = one.length == s->n ? REFUSED_ENTRY : REFUSED_LENGTH;
    }
    return one;
}

/* What a member must answer: for its own pack's rows by their factors, and 17 for all others. */
static take_answer answer_due(member *one, const offer *given)
{
    const setting *s = one->s;
    uint64_t before = one->rank;
    if (given->pack != one->pack)
        return refused(REFUSED_PACK);
    if (given->refusal != ACCEPTED)
        return refused(given->refusal);
    memcpy(one->factors + one->taken++ * s->k, given->factors, (size_t)s->k);
    one->rank = factor_rank(s->q, s->k, one->taken, one->factors);
    return (take_answer){ACCEPTED, one->rank > before, factor_rank(s->q, s->k, 1, given->factors) == 0};
}

static void compare_offer(member *one, const offer *given)
{
    take_answer due = answer_due(one, given);
    harness_step step = take_both(&one->receiver, given->pack, given->row, given->length);
    check(answers(&step, due),
          RECEIVER_FORMAT ": a row for %" PRIu64 " gives %u, raised %u, idle %u instead of %u, %u, %u",
          RECEIVER_VALUES(&one->receiver), given->pack, step.refusal, step.raised, step.idle, due.refusal, due.raised,
          due.idle);
    check(due.raised == 1 || same_receiver(&step.receiver, &one->receiver),
          RECEIVER_FORMAT ": a row for %" PRIu64 ", not raised, changes the receiver", RECEIVER_VALUES(&one->receiver),
          given->pack);
    check(step.receiver.pack == one->pack && step.receiver.dimension == one->rank,
          RECEIVER_FORMAT ": instead of pack %" PRIu64 " and dimension %" PRIu64, RECEIVER_VALUES(&step.receiver),
          one->pack, one->rank);
    take_refusals[due.refusal]++;
    raised_rows += due.raised;
    idle_rows += due.idle;
    held_rows += answers(&step, held);
    one->receiver = step.receiver;
}

/* Closes to the member's own index exactly when its own rows span k dimensions; else 8 with their dimension. */
static void compare_close(const member *one)
{
    const setting *s = one->s;
    harness_answer answer = harness_close(one->receiver, one->numbering);
    uint64_t drawn = second_identifying_vector(s->n, s->k, one->matrix);
    bool right = one->rank == s->k ? answer.refusal == ACCEPTED && answer.value == one->index && answer.vector == drawn
                                   : answer.refusal == REFUSED_TOO_FEW && answer.value == 0 &&
                                     answer.dimension == one->rank;
    check(right, RECEIVER_FORMAT ", rank %" PRIu64 ", index %" PRIu64 ": closed with %u, %" PRIu64,
          RECEIVER_VALUES(&one->receiver), one->rank, one->index, answer.refusal, answer.value);
    close_refusals[one->rank == s->k ? ACCEPTED : REFUSED_TOO_FEW]++;
}

/* The member's receiver is the one that was offered its own pack's rows alone. */
static void compare_alone(const member *one, const offer *offers, size_t count)
{
    harness_receiver alone = harness_start(one->s->q, one->s->n, one->s->k, one->pack).receiver;
    for (size_t place = 0; place < count; place++)
        if (offers[place].pack == one->pack)
            alone = take_for(random_form(), &alone, one->pack, offers[place].row, offers[place].length).receiver;
    check(same_receiver(&alone, &one->receiver), RECEIVER_FORMAT ": another receiver without the other pack's rows",
          RECEIVER_VALUES(&one->receiver));
}

/* A pack that is neither of the two. */
static uint64_t third_pack(const member members[2])
{
    uint64_t pack = members[0].pack;
    while (pack == members[0].pack || pack == members[1].pack)
        pack = other_pack(members[random_below(2)].pack);
    return pack;
}

/* Rows of two packs by turns, strictly or at random, and some that were offered for a third: each goes to both. */
static void compare_rack(member members[2], bool strictly)
{
    offer offers[OFFERS];
    uint64_t rows = members[0].s->k + members[1].s->k;
    size_t count = (size_t)(6 + rows + random_below(rows + 6));
    if (count > OFFERS)
        count = OFFERS;
    for (size_t place = 0; place < count; place++) {
        const member *sender = &members[strictly ? place % 2 : random_below(2)];
        offers[place] = offer_of(sender, random_below(12) == 0 ? third_pack(members) : sender->pack);
        for (unsigned which = 0; which < 2; which++) {
            compare_offer(&members[which], &offers[place]);
            compare_close(&members[which]);
        }
    }
    for (unsigned which = 0; which < 2; which++)
        compare_alone(&members[which], offers, count);
}

/* Two packs of the same settings, or each with settings of its own. */
static void turns_group(uint64_t q)
{
    check_group_begin("two packs by turns, q = %" PRIu64, q);
    for (size_t number = 0; number < setting_count; number += thinning)
        for (unsigned round = 0; round < RACKS && settings[number].q == q; round++) {
            const setting *s = &settings[number];
            const setting *beside = round % 2 == 0 ? s : &settings[random_below(setting_count)];
            member members[2];
            members[0] = member_of(s, random_pack(), numberings[random_below(2)]);
            members[1] = member_of(beside, other_pack(members[0].pack), numberings[random_below(2)]);
            compare_rack(members, round % 4 < 2);
        }
    check_group_end();
}

/* ---- Two packs under one number ---- */

/* Lists of rows so offered: how many there were, and during how many Close told a record of neither, or answered 9. */
static uint64_t joined_lists, lists_of_neither, lists_of_too_many;

/* As many rows of each pack as its matrix has, by turns and for one number: Close tells what Receive tells of them. */
static void compare_joined(const member members[2])
{
    const setting *s = members[0].s;
    uint64_t pack = members[0].pack, numbering = members[0].numbering, neither = 0, too_many = 0;
    harness_receiver receiver = members[0].receiver;
    uint8_t rows[ROWS_LIMIT];
    for (uint64_t count = 1; count <= 2 * s->k; count++) {
        uint8_t *row = rows + (count - 1) * s->n;
        random_mixture(s->q, s->n, s->k, members[count % 2].matrix, row);
        receiver = take_for(random_form(), &receiver, pack, row, (size_t)s->n).receiver;
        harness_answer answer = harness_close(receiver, numbering);
        harness_answer of_list = harness_receive(s->q, s->n, s->k, numbering, count, rows, (size_t)(count * s->n));
        check(same_answer(&answer, &of_list), RECEIVER_FORMAT ": closed with %u, %" PRIu64 " instead of %u, %" PRIu64,
              RECEIVER_VALUES(&receiver), answer.refusal, answer.value, of_list.refusal, of_list.value);
        neither += answer.refusal == ACCEPTED && answer.value != members[0].index && answer.value != members[1].index;
        too_many += answer.refusal == REFUSED_TOO_MANY;
    }
    joined_lists++;
    lists_of_neither += neither > 0;
    lists_of_too_many += too_many > 0;
}

static void joined_group(uint64_t q)
{
    check_group_begin("two packs under one number, q = %" PRIu64, q);
    for (size_t number = 0; number < setting_count; number += thinning)
        for (unsigned round = 0; round < JOINED && settings[number].q == q; round++) {
            const setting *s = &settings[number];
            member members[2];
            members[0] = member_of(s, random_pack(), numberings[random_below(2)]);
            members[1] = member_of(s, members[0].pack, members[0].numbering);
            compare_joined(members);
        }
    check_group_end();
}

/* ---- Pack numbers ---- */

/* Whether two steps agree in all but the receivers' packs. */
static bool same_but_pack(const harness_step *first, harness_step second)
{
    second.receiver.pack = first->receiver.pack;
    return same_step(first, &second);
}

/* Receivers of two packs that take the same rows, each for its own: neither takes the other's, all else is alike. */
static void compare_pair(const setting *s, const uint64_t packs[2])
{
    harness_receiver receivers[2];
    uint8_t row[ROW_ROOM];
    for (unsigned which = 0; which < 2; which++)
        receivers[which] = harness_start(s->q, s->n, s->k, packs[which]).receiver;
    for (unsigned rows = 0; rows < 4; rows++) {
        harness_step steps[2];
        random_entries(s->q, row, ROW_ROOM);
        for (unsigned which = 0; which < 2; which++) {
            compare_untouched_for(&receivers[which], packs[1 - which], row, (size_t)s->n, refused(REFUSED_PACK));
            steps[which] = take_both(&receivers[which], packs[which], row, (size_t)s->n);
            receivers[which] = steps[which].receiver;
            check(steps[which].refusal == ACCEPTED && receivers[which].pack == packs[which],
                  RECEIVER_FORMAT ": refusal %u of pack %" PRIu64, RECEIVER_VALUES(&receivers[which]),
                  steps[which].refusal, packs[which]);
        }
        check(same_but_pack(&steps[0], steps[1]), SETTING_FORMAT ": packs %" PRIu64 " and %" PRIu64 " differ in more",
              SETTING_VALUES(s), packs[0], packs[1]);
    }
}

static void pairs_group(uint64_t q)
{
    check_group_begin("packs at the ends, or that differ in one byte, q = %" PRIu64, q);
    for (size_t number = 0; number < setting_count; number += thinning)
        for (size_t place = 0; place < COUNT_OF(pack_pairs) && settings[number].q == q; place++)
            compare_pair(&settings[number], pack_pairs[place]);
    check_group_end();
}

/* Of all numbers a receiver takes the rows of one, its own, and refuses the others'. */
static void every_number_group(uint64_t pack)
{
    const setting *s = &settings[random_below(setting_count)];
    harness_receiver receiver = receiver_of(s->q, s->n, s->k, pack, random_below(s->n + 1));
    uint8_t row[ROW_ROOM];
    check_group_begin("all numbers beside %" PRIu64, pack);
    random_entries(s->q, row, ROW_ROOM);
    check(take_both(&receiver, pack, row, (size_t)s->n).refusal == ACCEPTED, "its own number");
    for (uint64_t difference = 1; difference < PACK_LIMIT; difference += thinning)
        compare_untouched_for(&receiver, pack ^ difference, row, (size_t)s->n, refused(REFUSED_PACK));
    check_group_end();
}

/* ---- The order of the refusals ---- */

enum { FORGED = 1, OTHER_PACK = 2, WRONG_LENGTH = 4, OVERSIZED = 8, ZEROS = 16, FAULTS = 32 };

static take_answer first_answer(unsigned faults)
{
    if (faults & FORGED)
        return refused(REFUSED_RECEIVER);
    if (faults & OTHER_PACK)
        return refused(REFUSED_PACK);
    if (faults & WRONG_LENGTH)
        return refused(REFUSED_LENGTH);
    return faults & OVERSIZED ? refused(REFUSED_ENTRY) : faults & ZEROS ? idle : held;
}

/* A row of the receiver's span with these faults; without any it is held, or idle where it comes out zero. */
static void compare_faults(const setting *s, unsigned faults)
{
    const size_t n = (size_t)s->n, wrong[] = {n - 1, n + 1, 0};
    harness_receiver receiver = receiver_of(s->q, s->n, s->k, random_pack(), random_below(s->n + 1));
    uint64_t pack = faults & OTHER_PACK ? other_pack(receiver.pack) : receiver.pack;
    uint8_t row[ROW_ROOM] = {0};
    if (!(faults & ZEROS))
        random_mixture(s->q, s->n, receiver.dimension, receiver.entries, row);
    if (is_zero(row, s->n))
        faults |= ZEROS;
    if (faults & OVERSIZED)
        row[random_below(s->n)] = oversized(s->q);
    if (faults & FORGED)
        forge(&receiver);
    size_t length = faults & WRONG_LENGTH ? wrong[random_below(COUNT_OF(wrong))] : n;
    compare_untouched_for(&receiver, pack, row, length, first_answer(faults));
}

/* Each two neighbours of 14, 17, 4, 6 and idle, all others of their combinations, and each alone. */
static void neighbours_group(uint64_t q)
{
    check_group_begin("refusals together, q = %" PRIu64, q);
    for (size_t number = 0; number < setting_count; number += thinning)
        for (unsigned code = 0; code < FAULT_ROUNDS * FAULTS && settings[number].q == q; code++)
            compare_faults(&settings[number], code % FAULTS);
    check_group_end();
}

/* ---- Packs changed from outside ---- */

/* Closes alike, whatever the pack is. */
static void compare_closes(const harness_receiver *receiver, const harness_receiver *changed)
{
    for (uint64_t numbering = 0; numbering < 4; numbering++) {
        harness_answer before = harness_close(*receiver, numbering), after = harness_close(*changed, numbering);
        check(same_answer(&before, &after), RECEIVER_FORMAT " in %" PRIu64 ": closed with %u instead of %u",
              RECEIVER_VALUES(changed), numbering, after.refusal, before.refusal);
    }
}

/* A receiver, and the same with another pack: 14 where it was 14 before; else it takes the new pack's rows alone. */
static void compare_changed(const setting *s, const harness_receiver *receiver)
{
    harness_receiver changed = *receiver;
    second_receiver model;
    uint8_t row[ROW_ROOM];
    size_t length = (size_t)s->n;
    bool formed = revive(receiver, &model) == ACCEPTED;
    take_answer others = refused(formed ? REFUSED_PACK : REFUSED_RECEIVER);
    changed.pack = other_pack(receiver->pack);
    random_entries(s->q, row, ROW_ROOM);
    harness_step before = take_both(receiver, receiver->pack, row, length);
    harness_step after = take_both(&changed, changed.pack, row, length);
    check(before.refusal == (formed ? ACCEPTED : REFUSED_RECEIVER), RECEIVER_FORMAT ": refusal %u",
          RECEIVER_VALUES(receiver), before.refusal);
    check(after.receiver.pack == changed.pack && same_but_pack(&before, after),
          RECEIVER_FORMAT ": another outcome than with pack %" PRIu64, RECEIVER_VALUES(&changed), receiver->pack);
    compare_untouched_for(&changed, receiver->pack, row, length, others);
    compare_untouched_for(receiver, changed.pack, row, length, others);
    compare_closes(receiver, &changed);
    reachable += formed;
    unreachable += !formed;
}

static void changed_pack_group(uint64_t q)
{
    check_group_begin("packs changed from outside, q = %" PRIu64, q);
    begin_any_group();
    for (size_t number = 0; number < setting_count; number += thinning)
        for (unsigned round = 0; round < CHANGES && settings[number].q == q; round++) {
            const setting *s = &settings[number];
            harness_receiver receiver = receiver_of(s->q, s->n, s->k, random_pack(), random_below(s->n + 1));
            if (round % 2 == 1 && receiver.dimension > 0)
                damage_rows(&receiver);
            compare_changed(s, &receiver);
        }
    end_any_group();
}

/* ---- Starts ---- */

static uint64_t start_refusals[REFUSAL_LIMIT];

/* A start for a pack but 0: it has the pack and no rows; refused, it is all zeros, and takes no rows of any pack. */
static void compare_start(uint64_t q, uint64_t n, uint64_t k)
{
    static const harness_receiver zeros;
    static const uint8_t row[ROW_ROOM];
    uint64_t count, pack = other_pack(0);
    harness_receiver due = {{0}, q, n, k, 0, pack};
    uint32_t refusal = second_count(q, n, k, &count);
    harness_step step = harness_start(q, n, k, pack);
    if (refusal != ACCEPTED)
        due = zeros;
    check(step.refusal == refusal && same_receiver(&step.receiver, &due),
          SETTING_FORMAT ": refusal %u instead of %u, pack %" PRIu64 " instead of %" PRIu64, q, n, k, step.refusal,
          refusal, step.receiver.pack, due.pack);
    if (refusal != ACCEPTED) {
        compare_untouched_for(&step.receiver, 0, row, 0, refused(REFUSED_RECEIVER));
        compare_untouched_for(&step.receiver, pack, row, n < ROW_ROOM ? (size_t)n : 0, refused(REFUSED_RECEIVER));
    }
    start_refusals[refusal]++;
}

static void starts_group(void)
{
    check_group_begin("starts, accepted and refused");
    every_size(compare_start, start_refusals);
    check(start_refusals[ACCEPTED] > 0 && start_refusals[REFUSED_SHAPE] > 0 && start_refusals[REFUSED_COUNT] > 0,
          "accepted, or refused 2 or 3");
    check_group_end();
}

/* Every number is a pack's. */
static void every_start_group(void)
{
    check_group_begin("starts for all numbers");
    for (uint64_t pack = 0; pack < PACK_LIMIT; pack += thinning) {
        const setting *s = &settings[pack % setting_count];
        harness_receiver due = {{0}, s->q, s->n, s->k, 0, pack};
        harness_step step = harness_start(s->q, s->n, s->k, pack);
        check(step.refusal == ACCEPTED && same_receiver(&step.receiver, &due), SETTING_FORMAT " of pack %" PRIu64
              ": refusal %u, pack %" PRIu64, SETTING_VALUES(s), pack, step.refusal, step.receiver.pack);
    }
    check_group_end();
}

/* ---- What was met ---- */

/* The racks met every answer that they can, and under one number over a third of the lists went wrong either way. */
static void answers_group(void)
{
    check_group_begin("answers that the racks met");
    check(raised_rows > 0 && held_rows > 0 && idle_rows > 0, "rows raised, held or idle");
    check(take_refusals[REFUSED_PACK] > 0 && take_refusals[REFUSED_LENGTH] > 0 && take_refusals[REFUSED_ENTRY] > 0,
          "rows refused 17, 4 or 6");
    check(close_refusals[ACCEPTED] > 0 && close_refusals[REFUSED_TOO_FEW] > 0, "done or refused 8");
    check(3 * lists_of_neither > joined_lists && 3 * lists_of_too_many > joined_lists,
          "of %" PRIu64 " lists under one number %" PRIu64 " gave neither record, %" PRIu64 " too many dimensions",
          joined_lists, lists_of_neither, lists_of_too_many);
    check_group_end();
}

int main(int argument_count, char **arguments)
{
    static const uint64_t packs[] = {0, 255, 256, 0x0102, 32768, 65535};
    cases_begin(argument_count, arguments);
    for (unsigned place = 0; place < FIELD_COUNT; place++) {
        turns_group(second_field_sizes[place]);
        joined_group(second_field_sizes[place]);
        pairs_group(second_field_sizes[place]);
        neighbours_group(second_field_sizes[place]);
        changed_pack_group(second_field_sizes[place]);
    }
    answers_group();
    for (size_t place = 0; place < COUNT_OF(packs); place++)
        every_number_group(packs[place]);
    starts_group();
    every_start_group();
    return check_summary("packs");
}
