/*
 * What the tests of the receiver's calls share: receivers as the library and as the second implementation have them,
 * pack numbers, Take in either form and its answers, rows, receivers of a given dimension, and damage.
 */
#ifndef RECEIVERS_H
#define RECEIVERS_H

#include "cases.h"
#include "check.h"
#include "harness.h"

static inline bool same_receiver(const harness_receiver *first, const harness_receiver *second)
{
    return memcmp(first, second, sizeof *first) == 0;
}

/* The receiver that the library must have where the second has this one. */
static inline harness_receiver image_of(const second_receiver *model)
{
    harness_receiver image = {{0}, model->q, model->n, model->k, 0, model->pack};
    if (model->n > 0)
        image.dimension = second_entries(model, image.entries);
    return image;
}

/* The second's receiver in the place of the library's; refused 14 where no list of rows leads to it. */
static inline uint32_t revive(const harness_receiver *receiver, second_receiver *model)
{
    return second_revive(receiver->q, receiver->n, receiver->k, receiver->pack, receiver->dimension, receiver->entries,
                         model);
}

/* ---- Pack numbers ---- */

enum { PACK_LIMIT = 65536 };

/* Any pack number, or one at which a narrower or a signed number would end. */
static inline uint64_t random_pack(void)
{
    static const uint64_t ends[] = {0, 1, 127, 128, 255, 256, 257, 32767, 32768, 65280, 65534, 65535};
    return random_below(2) == 0 ? ends[random_below(COUNT_OF(ends))] : random_below(PACK_LIMIT);
}

/* Another pack number: it differs in one bit, in one byte alone, or anyhow. */
static inline uint64_t other_pack(uint64_t pack)
{
    switch (random_below(4)) {
    case 0: return pack ^ UINT64_C(1) << random_below(16);
    case 1: return pack ^ (1 + random_below(255));
    case 2: return pack ^ (1 + random_below(255)) << 8;
    default: return pack ^ (1 + random_below(PACK_LIMIT - 1));
    }
}

/* Two packs: the ends and their neighbours, and numbers that differ in one byte alone, or in the order of the bytes. */
static const uint64_t pack_pairs[][2] = {
    {0, 1}, {0, 255}, {0, 256}, {0, 65535}, {255, 256}, {255, 65535}, {256, 65535}, {65534, 65535}, {32767, 65535},
    {0x0102, 0x0202}, {0x0102, 0x0103}, {0x0102, 0x0201}, {0x00FF, 0xFF00},
};

/* The pack that a row is offered for: mostly the receiver's. */
static inline uint64_t offered_pack(uint64_t pack)
{
    return random_below(8) == 0 ? other_pack(pack) : pack;
}

/* ---- Take in either form ---- */

typedef enum { BY_VALUE, LENT } take_form;

static const char *const form_names[] = {"by value", "lent"};

static inline take_form random_form(void)
{
    return random_below(2) == 0 ? BY_VALUE : LENT;
}

/* A row offered for a pack. */
static inline harness_step take_for(take_form form, const harness_receiver *receiver, uint64_t pack, const uint8_t *row,
                                    size_t length)
{
    return form == LENT ? harness_take_lent(*receiver, pack, row, length) : harness_take(*receiver, pack, row, length);
}

/* A row offered for the receiver's own pack. */
static inline harness_step take(take_form form, const harness_receiver *receiver, const uint8_t *row, size_t length)
{
    return take_for(form, receiver, receiver->pack, row, length);
}

/* ---- Answers ---- */

/* What Take answers, but for the receiver. */
typedef struct {
    uint32_t refusal, raised, idle;
} take_answer;

static const take_answer held = {ACCEPTED, 0, 0}, idle = {ACCEPTED, 0, 1};

static inline take_answer refused(uint32_t refusal)
{
    return (take_answer){refusal, 0, 0};
}

static inline bool answers(const harness_step *step, take_answer expected)
{
    return step->refusal == expected.refusal && step->raised == expected.raised && step->idle == expected.idle;
}

static inline bool same_step(const harness_step *first, const harness_step *second)
{
    return answers(first, (take_answer){second->refusal, second->raised, second->idle}) &&
           same_receiver(&first->receiver, &second->receiver);
}

static inline bool same_answer(const harness_answer *first, const harness_answer *second)
{
    return first->refusal == second->refusal && first->value == second->value &&
           first->dimension == second->dimension && first->vector == second->vector;
}

#define RECEIVER_FORMAT SETTING_FORMAT " of dimension %" PRIu64 " and pack %" PRIu64
#define RECEIVER_VALUES(r) SETTING_VALUES(r), (r)->dimension, (r)->pack

/* Room for a row of more than 16 bytes. */
enum { ROW_ROOM = MAX_LENGTH + 2 };

/* Offers a row for a pack in both forms, which must agree in every field; the row is only read. */
static inline harness_step take_both(const harness_receiver *receiver, uint64_t pack, const uint8_t *row,
                                     size_t length)
{
    uint8_t kept[ROW_ROOM];
    memcpy(kept, row, length);
    harness_step by_value = take_for(BY_VALUE, receiver, pack, row, length);
    harness_step on_lent = take_for(LENT, receiver, pack, row, length);
    check(same_step(&by_value, &on_lent), RECEIVER_FORMAT ": %zu bytes for %" PRIu64 ", other answer when lent",
          RECEIVER_VALUES(receiver), length, pack);
    check(memcmp(kept, row, length) == 0, "the row was changed");
    return by_value;
}

/* A row of a pack with this answer, which must leave every byte of the receiver. */
static inline void compare_untouched_for(const harness_receiver *receiver, uint64_t pack, const uint8_t *row,
                                         size_t length, take_answer expected)
{
    harness_step step = take_both(receiver, pack, row, length);
    check(answers(&step, expected),
          RECEIVER_FORMAT ": %zu bytes for %" PRIu64 " give %u, raised %u, idle %u instead of %u, %u, %u",
          RECEIVER_VALUES(receiver), length, pack, step.refusal, step.raised, step.idle, expected.refusal,
          expected.raised, expected.idle);
    check(same_receiver(&step.receiver, receiver), RECEIVER_FORMAT ": %zu bytes for %" PRIu64 " change the receiver",
          RECEIVER_VALUES(receiver), length, pack);
}

/* ---- Rows ---- */

static inline bool is_zero(const uint8_t *row, uint64_t n)
{
    uint8_t any = 0;
    for (uint64_t column = 0; column < n; column++)
        any |= row[column];
    return any == 0;
}

static inline void random_mixture(uint64_t q, uint64_t n, uint64_t count, const uint8_t *rows, uint8_t *mixture)
{
    uint8_t factors[MAX_ROWS];
    random_entries(q, factors, (size_t)count);
    mix_rows(q, n, count, rows, factors, mixture);
}

/* A number that is no entry of the field: the first, the last or any. */
static inline uint8_t oversized(uint64_t q)
{
    switch (random_below(3)) {
    case 0: return (uint8_t)q;
    case 1: return 255;
    default: return (uint8_t)(q + random_below(256 - q));
    }
}

/* Damages a row so that it is refused, and answers its length, which is at most n + 1. */
static inline size_t refused_row(uint64_t q, uint64_t n, uint8_t *row)
{
    unsigned kind = (unsigned)random_below(5);
    if (kind >= 3)
        row[random_below(n)] = oversized(q);
    switch (kind) {
    case 0: return (size_t)n - 1;
    case 1: return (size_t)n + 1;
    case 2: return 0;
    case 3: return (size_t)n;
    default: return random_below(2) == 0 ? (size_t)n - 1 : (size_t)n + 1;
    }
}

/* A receiver of the given dimension, after random rows; as many as surely are enough, unless Take is at fault. */
static inline harness_receiver receiver_of(uint64_t q, uint64_t n, uint64_t k, uint64_t pack, uint64_t dimension)
{
    harness_receiver receiver = harness_start(q, n, k, pack).receiver;
    uint8_t row[MAX_LENGTH];
    for (unsigned rows = 0; rows < 500 && receiver.dimension < dimension; rows++) {
        random_entries(q, row, (size_t)n);
        receiver = harness_take(receiver, pack, row, (size_t)n).receiver;
    }
    check(receiver.dimension == dimension, "dimension %" PRIu64 " not reached", dimension);
    return receiver;
}

/* ---- Answers that scripts met ---- */

/* How often each refusal was met, and each row's answer; a script that meets only some of them tests little. */
static uint64_t take_refusals[REFUSAL_LIMIT], close_refusals[REFUSAL_LIMIT], raised_rows, held_rows, idle_rows;

static inline void count_answer(const harness_step *step)
{
    if (step->refusal < REFUSAL_LIMIT)
        take_refusals[step->refusal]++;
    raised_rows += step->raised;
    idle_rows += step->idle;
    held_rows += answers(step, held);
}

/* The scripts met every answer of Take and Close that they can. */
static inline void script_answers_group(void)
{
    check_group_begin("answers that the scripts met");
    check(raised_rows > 0 && held_rows > 0 && idle_rows > 0, "rows raised, held or idle");
    check(take_refusals[REFUSED_PACK] > 0 && take_refusals[REFUSED_LENGTH] > 0 && take_refusals[REFUSED_ENTRY] > 0,
          "rows refused 17, 4 or 6");
    check(close_refusals[ACCEPTED] > 0 && close_refusals[REFUSED_NUMBERING] > 0, "done or refused 10");
    check(close_refusals[REFUSED_TOO_FEW] > 0 && close_refusals[REFUSED_TOO_MANY] > 0, "refused 8 or 9");
    check_group_end();
}

/* ---- Groups of receivers of which some are reachable ---- */

/* How many receivers were taken for reachable, and how many were refused, since the group began. */
static uint64_t reachable, unreachable;

static inline void begin_any_group(void)
{
    reachable = 0;
    unreachable = 0;
}

static inline void end_any_group(void)
{
    check(reachable > 0 && unreachable > 0, "%" PRIu64 " receivers reachable, %" PRIu64 " not", reachable, unreachable);
    check_group_end();
}

/* ---- Damage ---- */

/* The bytes of a receiver that may be damaged; of a pack these are the two lowest. */
enum { RECEIVER_BYTES = offsetof(harness_receiver, pack) + 2 };

/* Damages a receiver so that no calls lead to it. */
static inline void forge(harness_receiver *receiver)
{
    switch (random_below(3)) {
    case 0: receiver->dimension = receiver->n + 1; break;
    case 1: receiver->entries[sizeof receiver->entries - 1] = 2; break;
    default: receiver->entries[0] = (uint8_t)receiver->q;
    }
}

/* Changes the rows of a receiver that has some: mostly the same span, told by other rows. */
static inline void damage_rows(harness_receiver *receiver)
{
    uint64_t q = receiver->q, n = receiver->n;
    uint8_t kept[MAX_LENGTH], *row = receiver->entries + random_below(receiver->dimension) * n;
    uint8_t *other = receiver->entries + random_below(receiver->dimension) * n;
    memcpy(kept, row, (size_t)n);
    switch (random_below(5)) {
    case 0:
        memmove(row, other, (size_t)n);
        memcpy(other, kept, (size_t)n);
        break;
    case 1:
        add_multiple(q, n, row, other, (uint8_t)random_below(q));
        break;
    case 2:
        memset(row, 0, (size_t)n);
        break;
    case 3:
        random_mixture(q, n, receiver->dimension, receiver->entries, row);
        break;
    default:
        receiver->dimension += random_below(3) - 1;
    }
}

/* Numbers in and out of range, those that would be cut to a number in range, and those whose products wrap to 0. */
static const uint64_t forged[] = {
    0, 1, 2, 3, 4, 5, 6, 7, 8, 9, 10, 11, 12, 13, 14, 15, 16, 17, 18, 32, 127, 128, 255, 256, 257, 258, 259, 260, 261,
    263, 264, 272, 65536, 65538, UINT64_C(1) << 32, (UINT64_C(1) << 32) + 1, (UINT64_C(1) << 32) + 2,
    (UINT64_C(1) << 32) + 3, UINT64_C(1) << 60, (UINT64_C(1) << 60) + 1, UINT64_C(1) << 61, UINT64_C(1) << 62,
    UINT64_C(1) << 63, (UINT64_C(1) << 63) + 2, UINT64_MAX - 15, UINT64_MAX - 1, UINT64_MAX,
};

#endif
