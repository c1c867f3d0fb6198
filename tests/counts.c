/*
 * Tests the table of counts and Count against formula (1), over small settings and over settings that a narrower
 * number would cut to accepted ones.
 */
#include "cases.h"
#include "check.h"
#include "harness.h"

static void compare_count(uint64_t q, uint64_t n, uint64_t k)
{
    uint64_t count;
    uint32_t refusal = second_count(q, n, k, &count);
    harness_answer answer = harness_count(q, n, k);
    check(answer.refusal == refusal && answer.value == count,
          "%" PRIu64 ",%" PRIu64 ",%" PRIu64 ": refusal %u, count %" PRIu64 " instead of %u, %" PRIu64,
          q, n, k, answer.refusal, answer.value, refusal, count);
}

/* The entries of one field size. */
static void table_group(unsigned field)
{
    check_group_begin("table, q = %" PRIu64, second_field_sizes[field]);
    for (unsigned place = field * 289; place < (field + 1) * 289; place++) {
        uint64_t entry = harness_table_entry(place), expected = second_table_entry(place);
        check(entry == expected, "place %u: %" PRIu64 " instead of %" PRIu64, place, entry, expected);
    }
    check_group_end();
}

static void table_edges_group(void)
{
    static const uint64_t outside[] = {1734, 1735, 2023, 65536, UINT64_C(1) << 32, UINT64_MAX - 1, UINT64_MAX};
    check_group_begin("table, places outside");
    for (size_t place = 0; place < COUNT_OF(outside); place++)
        check(harness_table_entry(outside[place]) == 0, "place %" PRIu64 " isn't 0", outside[place]);
    check_group_end();
}

/* Document 01: 1 at k = 0, 0 at k > n; and the symmetry of the Gaussian coefficient. */
static void table_shape_group(unsigned field)
{
    const unsigned start = field * 289;
    check_group_begin("table shape, q = %" PRIu64, second_field_sizes[field]);
    for (unsigned place = 0; place < 289; place++) {
        unsigned n = place / 17, k = place % 17;
        uint64_t entry = harness_table_entry(start + place);
        check(k > 0 || entry == 1, "n = %u, k = 0: %" PRIu64, n, entry);
        check(k <= n || entry == 0, "n = %u, k = %u: %" PRIu64, n, k, entry);
        check(k > n || entry == harness_table_entry(start + n * 17 + (n - k)), "n = %u, k = %u: no symmetry", n, k);
    }
    check_group_end();
}

static void small_group(uint64_t q)
{
    check_group_begin("count, q = %" PRIu64, q);
    every_shape(q, compare_count);
    check_group_end();
}

/* Lengths and dimensions that are unusual or that a narrower number would cut to 0, 1, 2 or 3. */
static const uint64_t unusual[] = {
    0, 1, 2, 3, 17, 255, 256, 257, 258, 259, 65536, 65538, UINT64_C(1) << 32, (UINT64_C(1) << 32) + 2,
    (UINT64_C(1) << 63) + 2, UINT64_MAX - 1, UINT64_MAX,
};

static void unusual_shapes(uint64_t q, void (*call)(uint64_t q, uint64_t n, uint64_t k))
{
    for (size_t n = 0; n < COUNT_OF(unusual); n++)
        for (size_t k = 0; k < COUNT_OF(unusual); k++)
            call(q, unusual[n], unusual[k]);
}

static void unusual_group(uint64_t q)
{
    check_group_begin("count, unusual settings, q = %" PRIu64, q);
    unusual_shapes(q, compare_count);
    check_group_end();
}

static void compare_refused(uint64_t q, uint64_t n, uint64_t k)
{
    harness_answer answer = harness_count(q, n, k);
    check(answer.refusal == REFUSED_FIELD && answer.value == 0, "%" PRIu64 ",%" PRIu64 ",%" PRIu64 ": refusal %u", q, n,
          k, answer.refusal);
}

static void wrong_sizes_group(void)
{
    check_group_begin("wrong field sizes");
    for (size_t place = 0; place < COUNT_OF(wrong_sizes); place++) {
        every_shape(wrong_sizes[place], compare_refused);
        unusual_shapes(wrong_sizes[place], compare_refused);
    }
    check_group_end();
}

/* The figures that document 01 names, written out, and two of the sizes that order 7 adds. */
static void figures_group(void)
{
    static const struct {
        uint64_t q, n, k, count;
        uint32_t refusal;
    } figures[] = {
        {2, 6, 3, 1395, ACCEPTED},
        {3, 4, 2, 130, ACCEPTED},
        {2, 3, 1, 7, ACCEPTED},
        {2, 3, 0, 1, ACCEPTED},
        {2, 16, 7, 0, REFUSED_COUNT},
        {6, 6, 3, 0, REFUSED_FIELD},
        {2, 17, 3, 0, REFUSED_SHAPE},
        {6, 17, 18, 0, REFUSED_FIELD},
        {2, 16, 17, 0, REFUSED_SHAPE},
        {2, 0, 0, 0, REFUSED_SHAPE},
        {4, 3, 1, 21, ACCEPTED},
        {8, 2, 1, 9, ACCEPTED},
        {8, 17, 3, 0, REFUSED_SHAPE},
    };
    check_group_begin("figures of document 01 and order 7");
    for (size_t place = 0; place < COUNT_OF(figures); place++) {
        harness_answer answer = harness_count(figures[place].q, figures[place].n, figures[place].k);
        check(answer.refusal == figures[place].refusal && answer.value == figures[place].count, "figure %zu", place);
    }
    harness_answer large = harness_count(2, 16, 6);
    check(large.refusal == ACCEPTED && large.value >= UINT64_C(1) << 60, "2,16,6 isn't accepted");
    check_group_end();
}

/* How many settings are accepted, and the two whose counts are nearest to 2^64: below it, and above. */
static void accepted_group(void)
{
    setting list[SETTING_LIMIT];
    check_group_begin("accepted settings");
    check(accepted_settings(list, UINT64_MAX) == ACCEPTED_SETTINGS, "the second accepts another number of settings");
    size_t accepted = 0;
    for (unsigned place = 0; place < TABLE_LENGTH; place++)
        accepted += harness_count(second_field_sizes[place / 289], place / 17 % 17, place % 17).refusal == ACCEPTED;
    check(accepted == ACCEPTED_SETTINGS, "%zu settings are accepted", accepted);
    harness_answer most = harness_count(8, 10, 3), above = harness_count(3, 14, 4);
    check(most.refusal == ACCEPTED && most.value == UINT64_C(10729268895402608265), "8,10,3");
    check(accepted_settings(list, most.value - 1) == ACCEPTED_SETTINGS - 2, "8,10,3 and 8,10,7 have the most spaces");
    check(above.refusal == REFUSED_COUNT && above.value == 0, "3,14,4, of 21,571,273,555,248,777,493");
    check_group_end();
}

int main(void)
{
    second_init();
    for (unsigned field = 0; field < FIELD_COUNT; field++) {
        table_group(field);
        table_shape_group(field);
    }
    table_edges_group();
    for (uint64_t q = 0; q <= 10; q++)
        small_group(q);
    for (unsigned field = 0; field < FIELD_COUNT; field++)
        unusual_group(second_field_sizes[field]);
    wrong_sizes_group();
    figures_group();
    accepted_group();
    return check_summary("counts");
}
