/*
 * Tests Convert by what it answers alone, from each numbering to each. Every small setting whole: no index below N is
 * refused, and each of 0 to N-1 is answered once. All settings at random: the answer draws the same matrix, and there
 * and back gives the index again. What it refuses with. tests/numbering.c has the answers themselves, from the second
 * implementation.
 */
#include "cases.h"
#include "check.h"
#include "harness.h"

enum { WHOLE_LIMIT = 65536, RANDOM_ROUNDS = 500 };

/* ---- Whole settings ---- */

/* How often each index is answered when 0 to N-1 are converted. */
static uint8_t hits[WHOLE_LIMIT];

static void hit_all(const setting *s, uint64_t from, uint64_t to)
{
    memset(hits, 0, sizeof hits);
    for (uint64_t index = 0; index < s->count; index++) {
        harness_answer answer = harness_convert(s->q, s->n, s->k, from, to, index);
        bool inside = answer.refusal == ACCEPTED && answer.value < s->count;
        check(inside, SETTING_FORMAT ": %" PRIu64 " gives %" PRIu32 " and %" PRIu64, SETTING_VALUES(s), index,
              answer.refusal, answer.value);
        if (inside && hits[answer.value] < UINT8_MAX)
            hits[answer.value]++;
    }
}

static void compare_hits(const setting *s, uint64_t from, uint64_t to)
{
    hit_all(s, from, to);
    for (uint64_t index = 0; index < s->count; index++)
        check(hits[index] == 1, SETTING_FORMAT ": %" PRIu64 " is answered %u times", SETTING_VALUES(s), index,
              (unsigned)hits[index]);
}

static void whole_group(uint64_t q, uint64_t from, uint64_t to)
{
    check_group_begin("each index once, q = %" PRIu64 ", %" PRIu64 " to %" PRIu64, q, from, to);
    for (size_t number = 0; number < setting_count; number += thinning)
        if (settings[number].q == q && settings[number].count <= WHOLE_LIMIT)
            compare_hits(&settings[number], from, to);
    check_group_end();
}

/* ---- All settings at random ---- */

/* Whether two indexes, each in its numbering, draw the same matrix. */
static bool draw_alike(const setting *s, uint64_t from, uint64_t index, uint64_t to, uint64_t other)
{
    uint8_t here[MAX_LENGTH * MAX_LENGTH], there[MAX_LENGTH * MAX_LENGTH];
    memset(here, FILLING, sizeof here);
    memset(there, FILLING, sizeof there);
    uint32_t refusals = pandrwyg_draw(s->q, s->n, s->k, from, index, here, width_of(s)) |
                        pandrwyg_draw(s->q, s->n, s->k, to, other, there, width_of(s));
    return refusals == ACCEPTED && memcmp(here, there, sizeof here) == 0;
}

static void compare_way(const setting *s, uint64_t from, uint64_t to, uint64_t index)
{
    harness_answer there = harness_convert(s->q, s->n, s->k, from, to, index);
    harness_answer back = harness_convert(s->q, s->n, s->k, to, from, there.value);
    check(there.refusal == ACCEPTED && there.value < s->count && (from != to || there.value == index),
          SETTING_FORMAT ": %" PRIu64 " gives %" PRIu32 " and %" PRIu64, SETTING_VALUES(s), index, there.refusal,
          there.value);
    check(draw_alike(s, from, index, to, there.value), SETTING_FORMAT ": %" PRIu64 " and %" PRIu64 " draw differently",
          SETTING_VALUES(s), index, there.value);
    check(back.refusal == ACCEPTED && back.value == index,
          SETTING_FORMAT ": %" PRIu64 " comes back as %" PRIu32 " and %" PRIu64, SETTING_VALUES(s), index, back.refusal,
          back.value);
}

static void random_group(uint64_t q, uint64_t from, uint64_t to)
{
    check_group_begin("there and back, q = %" PRIu64 ", %" PRIu64 " to %" PRIu64, q, from, to);
    for (size_t number = 0; number < setting_count; number += thinning) {
        const setting *s = &settings[number];
        if (s->q != q)
            continue;
        compare_way(s, from, to, 0);
        compare_way(s, from, to, s->count - 1);
        for (unsigned round = 0; round < RANDOM_ROUNDS; round++)
            compare_way(s, from, to, random_index(s->count));
    }
    check_group_end();
}

/* ---- Refusals ---- */

static uint64_t refusals[REFUSAL_LIMIT];

/* Convert answers an index, or refuses with 1, 2, 3, 5 or 10 and index 0. */
static void compare_refusal(uint64_t q, uint64_t n, uint64_t k, uint64_t from, uint64_t to, uint64_t index)
{
    harness_answer answer = harness_convert(q, n, k, from, to, index);
    bool known = answer.refusal == ACCEPTED || answer.refusal == REFUSED_FIELD || answer.refusal == REFUSED_SHAPE ||
                 answer.refusal == REFUSED_COUNT || answer.refusal == REFUSED_INDEX ||
                 answer.refusal == REFUSED_NUMBERING;
    check(known && (answer.refusal == ACCEPTED || answer.value == 0),
          "%" PRIu64 ",%" PRIu64 ",%" PRIu64 " from %" PRIu64 " to %" PRIu64 ": %" PRIu64 " gives %" PRIu32, q, n, k,
          from, to, index, answer.refusal);
    if (known)
        refusals[answer.refusal]++;
}

static void compare_shape(uint64_t q, uint64_t n, uint64_t k)
{
    static const uint64_t indexes[] = {0, 1, 6, 7, 1394, 1395, UINT64_C(1) << 63, UINT64_MAX};
    for (uint64_t from = 0; from <= 3; from++)
        for (uint64_t to = 0; to <= 3; to++)
            for (size_t place = 0; place < COUNT_OF(indexes); place++)
                compare_refusal(q, n, k, from, to, indexes[place]);
}

static void refusals_group(void)
{
    static const unsigned given[] = {ACCEPTED, REFUSED_FIELD, REFUSED_SHAPE, REFUSED_COUNT, REFUSED_INDEX,
                                     REFUSED_NUMBERING};
    check_group_begin("refusals");
    every_size(compare_shape, refusals);
    for (size_t place = 0; place < COUNT_OF(given); place++)
        check(refusals[given[place]] != 0, "%u never comes", given[place]);
    check_group_end();
}

int main(int argument_count, char **arguments)
{
    cases_begin(argument_count, arguments);
    for (unsigned place = 0; place < FIELD_COUNT; place++)
        for (unsigned way = 0; way < 4; way++) {
            whole_group(second_field_sizes[place], numberings[way / 2], numberings[way % 2]);
            random_group(second_field_sizes[place], numberings[way / 2], numberings[way % 2]);
        }
    refusals_group();
    return check_summary("convert");
}
