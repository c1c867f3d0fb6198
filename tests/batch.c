/*
 * Tests Draw a batch. Lists of indexes below N and from N on, of all accepted settings in both numberings, against the
 * second implementation and against Draw alone; every small setting in one list, against the sorted listing; long
 * lists, the empty list and k = 0; lengths that are wrong, and those that are right only where a product or a length
 * loses its upper bits; what refuses the whole, and in which order; the figures of documents 001 and 01.
 *
 * Everything is asked twice: by the name that a C program has, where the header's guard stands before the call, and by
 * the library's own symbol. Lent buffers hold any bytes and have margins, so that a byte is seen that is written
 * without need or comes from a neighbour's part. An argument N runs about the N-th part, for slow checkers.
 */
#include "cases.h"
#include "check.h"
#include "pandrwyg.h"

enum { WHOLE_LIMIT = 5000, RANDOM_WORDS = 24, WORD_LIMIT = 40 };
enum { LONG_LIST = 10000, LONGER_LIST = 70000, LONGEST_LIST = 1000000 };

/* ---- Calls, and models of them ---- */

typedef uint32_t batch_call(uint64_t q, uint64_t n, uint64_t k, uint64_t numbering, const uint64_t *indexes,
                            size_t index_count, uint8_t *matrices, size_t matrices_length, uint8_t *answers,
                            size_t answers_length);

static batch_call *const calls[] = {pandrwyg_draw_batch, pandrwyg_draw_batch_raw};

/* The model of a list whose lengths are right: Draw alone at each place. */
static uint32_t draw_alone(uint64_t q, uint64_t n, uint64_t k, uint64_t numbering, const uint64_t *indexes,
                           size_t index_count, uint8_t *matrices, size_t matrices_length, uint8_t *answers,
                           size_t answers_length)
{
    size_t width = (size_t)(k * n);
    check(matrices_length == index_count * width && answers_length == index_count, "no list for Draw alone");
    for (size_t place = 0; place < index_count; place++)
        answers[place] = (uint8_t)pandrwyg_draw(q, n, k, numbering, indexes[place], matrices + place * width, width);
    return ACCEPTED;
}

/* The sorted listing of the setting under way, and how many matrices it has. */
static const uint8_t *listing;
static uint64_t listing_count;

/* The model of a whole setting: an index is a place of the sorted listing. */
static uint32_t look_up(uint64_t q, uint64_t n, uint64_t k, uint64_t numbering, const uint64_t *indexes,
                        size_t index_count, uint8_t *matrices, size_t matrices_length, uint8_t *answers,
                        size_t answers_length)
{
    size_t width = (size_t)(k * n);
    check(matrices_length == index_count * width && answers_length == index_count,
          "no list of %" PRIu64 " and numbering %" PRIu64 " to look up", q, numbering);
    for (size_t place = 0; place < index_count; place++) {
        bool listed = indexes[place] < listing_count;
        answers[place] = listed ? ACCEPTED : REFUSED_INDEX;
        if (listed)
            memcpy(matrices + place * width, listing + indexes[place] * width, width);
    }
    return ACCEPTED;
}

/* ---- Lent buffers ---- */

/* Bytes with margins on both sides, and a copy of all that for the model. */
typedef struct {
    uint8_t *whole, *copy;
    size_t start, size;
} room;

static void random_bytes(uint8_t *bytes, size_t length)
{
    for (size_t place = 0; place < length; place += sizeof(uint64_t)) {
        uint64_t any = random_next();
        memcpy(bytes + place, &any, length - place < sizeof any ? length - place : sizeof any);
    }
}

/* A room for so many bytes, which begin at any address. */
static room lend(size_t length)
{
    size_t start = MARGIN + (size_t)random_below(8), size = start + length + MARGIN;
    room lent = {malloc(size), malloc(size), start, size};
    random_bytes(lent.whole, size);
    memcpy(lent.copy, lent.whole, size);
    return lent;
}

/* Whether the call left the same as its model, in the margins too. */
static bool same_left(const room *lent)
{
    return memcmp(lent->whole, lent->copy, lent->size) == 0;
}

static void give_back(room *lent)
{
    free(lent->whole);
    free(lent->copy);
}

/* ---- Requests ---- */

/* What is asked: a list of so many indexes, and what is told of its length and of those of the buffers. */
typedef struct {
    uint64_t q, n, k, numbering;
    const uint64_t *indexes;
    size_t listed, count, matrices_length, answers_length;
} request;

#define REQUEST_FORMAT SETTING_FORMAT " in %" PRIu64 ", %zu indexes, %zu and %zu bytes"
#define REQUEST_VALUES(r) SETTING_VALUES(r), (r)->numbering, (r)->count, (r)->matrices_length, (r)->answers_length

/* A request whose lengths are right. */
static request right_request(const setting *s, uint64_t numbering, const uint64_t *indexes, size_t count)
{
    return (request){s->q, s->n, s->k, numbering, indexes, count, count, count * width_of(s), count};
}

/* The bytes lent where a length is told: so many, or as many as the list can need with some to spare. */
static size_t lent_length(const request *r, size_t told)
{
    size_t most = (r->listed + 4) * MAX_LENGTH * MAX_LENGTH;
    return told < most ? told : most;
}

/* Asks the call, and its model on copies; both must answer alike and leave the same. Answers what the call did. */
static uint32_t compare(batch_call *call, batch_call *model, const request *r)
{
    size_t list_size = r->listed * sizeof *r->indexes;
    uint64_t *indexes = malloc(list_size);
    room matrices = lend(lent_length(r, r->matrices_length)), answers = lend(lent_length(r, r->answers_length));
    memcpy(indexes, r->indexes, list_size);
    uint32_t refusal = call(r->q, r->n, r->k, r->numbering, indexes, r->count, matrices.whole + matrices.start,
                            r->matrices_length, answers.whole + answers.start, r->answers_length);
    uint32_t expected = model(r->q, r->n, r->k, r->numbering, r->indexes, r->count, matrices.copy + matrices.start,
                              r->matrices_length, answers.copy + answers.start, r->answers_length);
    check(refusal == expected, REQUEST_FORMAT ": %u instead of %u", REQUEST_VALUES(r), refusal, expected);
    check(same_left(&matrices), REQUEST_FORMAT ": other matrices", REQUEST_VALUES(r));
    check(same_left(&answers), REQUEST_FORMAT ": other answers", REQUEST_VALUES(r));
    check(memcmp(indexes, r->indexes, list_size) == 0, REQUEST_FORMAT ": the list was changed", REQUEST_VALUES(r));
    free(indexes);
    give_back(&matrices);
    give_back(&answers);
    return refusal;
}

/* By both names; and what is answered must be this refusal, whatever the model says. */
static void compare_both(batch_call *model, const request *r, uint32_t refusal)
{
    for (size_t form = 0; form < COUNT_OF(calls); form++) {
        uint32_t given = compare(calls[form], model, r);
        check(given == refusal, REQUEST_FORMAT ": %u, not %u", REQUEST_VALUES(r), given, refusal);
    }
}

/* ---- Lists spelled by letters ---- */

static const char letters[] = "0lnmxwra";

/*
 * The index that a letter stands for: the first, the last, N, N + 1, the greatest number, one that is below N where its
 * upper half is cut off, any below N, or the same again.
 */
static uint64_t spelled(const setting *s, char letter, uint64_t again)
{
    switch (letter) {
    case '0': return 0;
    case 'l': return s->count - 1;
    case 'n': return s->count;
    case 'm': return s->count + 1;
    case 'x': return UINT64_MAX;
    case 'w': return random_index(s->count) + (UINT64_C(1) << 32);
    case 'a': return again;
    default: return random_index(s->count);
    }
}

/* The list that a word spells. */
static void compare_word(batch_call *model, const setting *s, uint64_t numbering, const char *word)
{
    uint64_t indexes[WORD_LIMIT + 1] = {0};
    size_t count = strlen(word);
    for (size_t place = 0; place < count; place++)
        indexes[place] = spelled(s, word[place], indexes[place > 0 ? place - 1 : 0]);
    request r = right_request(s, numbering, indexes, count);
    compare_both(model, &r, ACCEPTED);
}

/* Words that the second implementation draws too, which takes its time. */
static void compare_second(const setting *s, uint64_t numbering)
{
    static const char *const words[] = {"", "l", "xr", "rnr", "wr0anlmrx"};
    for (size_t place = 0; place < COUNT_OF(words); place++)
        compare_word(second_draw_batch, s, numbering, words[place]);
}

/* Every word of up to two letters, the end of the letters making it shorter, and some longer ones. */
static void compare_alone(const setting *s, uint64_t numbering)
{
    for (size_t code = 0; code < sizeof letters * sizeof letters; code++) {
        const char word[] = {letters[code % sizeof letters], letters[code / sizeof letters], '\0'};
        compare_word(draw_alone, s, numbering, word);
    }
    for (unsigned round = 0; round < RANDOM_WORDS; round++) {
        char word[WORD_LIMIT + 1] = {0};
        for (uint64_t left = 3 + random_below(WORD_LIMIT - 2); left > 0; left--)
            word[left - 1] = letters[random_below(sizeof letters - 1)];
        compare_word(draw_alone, s, numbering, word);
    }
}

/* ---- Whole settings ---- */

/* 0 to N-1 in one list, and then N + 2 down to 0. */
static void compare_whole(const setting *s, uint64_t numbering)
{
    if (s->count > WHOLE_LIMIT)
        return;
    uint64_t *indexes = malloc((size_t)(s->count + 3) * sizeof *indexes);
    uint8_t *matrices = sorted_listing(s, numbering);
    listing = matrices;
    listing_count = s->count;
    for (uint64_t index = 0; index < s->count; index++)
        indexes[index] = index;
    request upwards = right_request(s, numbering, indexes, (size_t)s->count);
    compare_both(look_up, &upwards, ACCEPTED);
    for (uint64_t place = 0; place < s->count + 3; place++)
        indexes[place] = s->count + 2 - place;
    request downwards = right_request(s, numbering, indexes, (size_t)s->count + 3);
    compare_both(look_up, &downwards, ACCEPTED);
    free(matrices);
    free(indexes);
}

/* ---- Long lists ---- */

/* Any indexes, of which one in sixteen is N or more. */
static void compare_long(uint64_t q, uint64_t n, uint64_t k, uint64_t numbering, size_t count)
{
    setting s = {q, n, k, 0};
    uint64_t *indexes = malloc(count * sizeof *indexes);
    second_count(q, n, k, &s.count);
    for (size_t place = 0; place < count; place++)
        indexes[place] = random_below(16) > 0 ? random_index(s.count) : UINT64_MAX - random_below(1000);
    request r = right_request(&s, numbering, indexes, count);
    compare_both(draw_alone, &r, ACCEPTED);
    free(indexes);
}

static void long_group(uint64_t numbering)
{
    static const setting chosen[] = {
        {2, 6, 3, 0}, {2, 16, 6, 0}, {2, 16, 10, 0}, {3, 12, 5, 0}, {4, 10, 4, 0}, {5, 10, 4, 0}, {7, 9, 4, 0},
        {8, 8, 3, 0},
    };
    check_group_begin("long lists, numbering %" PRIu64, numbering);
    for (size_t place = 0; place < COUNT_OF(chosen); place++)
        compare_long(chosen[place].q, chosen[place].n, chosen[place].k, numbering, LONG_LIST / thinning);
    compare_long(2, 3, 0, numbering, LONGER_LIST);
    compare_long(2, 16, 16, numbering, LONGER_LIST);
    compare_long(2, 3, 1, numbering, LONGEST_LIST / thinning);
    check_group_end();
}

/* ---- Lengths ---- */

/* Every pair of lengths from those near the right ones, and both exchanged; all but the right pair are refused. */
static void compare_near(const setting *s, uint64_t numbering, const uint64_t *indexes, size_t count)
{
    size_t width = width_of(s), right = count * width;
    const size_t matrices[] = {right, right - 1, right + 1, right - width, right + width, 0, count, width, s->n, s->k};
    const size_t answers[] = {count, count - 1, count + 1, 0, right};
    request r = right_request(s, numbering, indexes, count);
    for (size_t code = 0; code < COUNT_OF(matrices) * COUNT_OF(answers); code++) {
        r.matrices_length = matrices[code % COUNT_OF(matrices)];
        r.answers_length = answers[code / COUNT_OF(matrices)];
        if (r.matrices_length != right || r.answers_length != count)
            compare_both(second_draw_batch, &r, REFUSED_LENGTH);
    }
}

/* Lengths that are right in their last bits alone. */
static void compare_far(const setting *s, uint64_t numbering, const uint64_t *indexes, size_t count)
{
    static const unsigned bits[] = {8, 16, 31, 32, 63};
    for (size_t place = 0; place < COUNT_OF(bits); place++) {
        request matrices = right_request(s, numbering, indexes, count), answers = matrices, all = matrices;
        matrices.matrices_length += (size_t)1 << bits[place];
        answers.answers_length += (size_t)1 << bits[place];
        all.matrices_length += (size_t)1 << bits[place];
        all.answers_length += (size_t)1 << bits[place];
        compare_both(second_draw_batch, &matrices, REFUSED_LENGTH);
        compare_both(second_draw_batch, &answers, REFUSED_LENGTH);
        compare_both(second_draw_batch, &all, REFUSED_LENGTH);
    }
}

/* Short lists; whether their indexes are below N does not matter. */
static void compare_lengths(const setting *s, uint64_t numbering)
{
    static const size_t counts[] = {0, 1, 2, 3, 9};
    const uint64_t indexes[9] = {random_index(s->count), s->count, 0, s->count - 1};
    for (size_t place = 0; place < COUNT_OF(counts); place++) {
        compare_near(s, numbering, indexes, counts[place]);
        compare_far(s, numbering, indexes, counts[place]);
    }
}

/* ---- Lists that are longer than any memory ---- */

static const uint64_t few_indexes[] = {0, UINT64_MAX, 0};

/* A list that is told to be longer than it is, with each length of answers; 4, and nothing is read. */
static void compare_lie(const setting *s, uint64_t numbering, uint64_t count, uint64_t matrices_length)
{
    const uint64_t answers[] = {count, 0, COUNT_OF(few_indexes), count & 0xFFFF, count & 0xFFFFFFFF};
    uint64_t width = s->k * s->n;
    bool right = width == 0 ? matrices_length == 0 : matrices_length % width == 0 && matrices_length / width == count;
    for (size_t place = 0; place < COUNT_OF(answers); place++) {
        request r = {s->q, s->n, s->k, numbering, few_indexes, COUNT_OF(few_indexes), count, matrices_length,
                     answers[place]};
        if (!right || answers[place] != count)
            compare_both(second_draw_batch, &r, REFUSED_LENGTH);
    }
}

/* The inverse of an odd number modulo 2^64. It is its own modulo 8, and each step doubles the bits that are right. */
static uint64_t odd_inverse(uint64_t odd)
{
    uint64_t inverse = odd;
    for (unsigned step = 0; step < 5; step++)
        inverse *= 2 - odd * inverse;
    return inverse;
}

/* Counts whose product with a matrix's bytes is the length in its last bits, where there are such counts. */
static void compare_cut(const setting *s, uint64_t numbering, uint64_t length, unsigned bits)
{
    const uint64_t above[] = {0, 1, 2, UINT64_MAX, random_next()};
    uint64_t width = s->k * s->n;
    unsigned twos = (unsigned)__builtin_ctzll(width);
    uint64_t step = bits - twos < 64 ? UINT64_C(1) << (bits - twos) : 0;
    uint64_t least = (length >> twos) * odd_inverse(width >> twos) & (step - 1);
    if (length >> twos << twos != length)
        return;
    for (size_t place = 0; place < COUNT_OF(above); place++) {
        uint64_t count = least + above[place] * step;
        check((count * width - length) << (64 - bits) == 0, "%" PRIu64 " is no such count", count);
        compare_lie(s, numbering, count, length);
    }
}

static void compare_cuts(const setting *s, uint64_t numbering)
{
    static const unsigned bits[] = {64, 32, 16, 8};
    uint64_t width = s->k * s->n;
    const uint64_t lengths[] = {0, 1, width - 1, width, width + 1, 2 * width, 3 * width, random_below(1000)};
    for (size_t code = 0; width > 0 && code < COUNT_OF(bits) * COUNT_OF(lengths); code++)
        compare_cut(s, numbering, lengths[code / COUNT_OF(bits)], bits[code % COUNT_OF(bits)]);
}

/* Counts near the powers of 2 and at the ends of what is counted, with the lengths that their products are cut to. */
static void compare_liars(const setting *s, uint64_t numbering)
{
    uint64_t width = s->k * s->n, most = width > 0 ? SIZE_MAX / width : SIZE_MAX;
    uint64_t counts[64], found = 0;
    for (unsigned bit = 54; bit < 64; bit++)
        for (uint64_t more = 0; more < 4; more++)
            counts[found++] = (UINT64_C(1) << bit) + more;
    const uint64_t ends[] = {SIZE_MAX, SIZE_MAX - 1, SIZE_MAX / 2, most, most + 1, most - 1, PTRDIFF_MAX / 8,
                             UINT64_C(1) << 32, (UINT64_C(1) << 32) + 3};
    memcpy(counts + found, ends, sizeof ends);
    found += COUNT_OF(ends);
    for (uint64_t place = 0; place < found; place++) {
        const uint64_t product = counts[place] * width;
        const uint64_t lengths[] = {product, product - 1, product + 1, product & 0xFFFFFFFF, 0, 3 * width,
                                    3 * width + 1, SIZE_MAX};
        for (size_t length = 0; length < COUNT_OF(lengths); length++)
            compare_lie(s, numbering, counts[place], lengths[length]);
    }
    compare_cuts(s, numbering);
}

/* ---- The empty list, and k = 0 ---- */

static void compare_empty(const setting *s, uint64_t numbering)
{
    request r = right_request(s, numbering, few_indexes, 0);
    compare_both(second_draw_batch, &r, ACCEPTED);
    uint32_t refusal = pandrwyg_draw_batch(s->q, s->n, s->k, numbering, NULL, 0, NULL, 0, NULL, 0);
    check(refusal == ACCEPTED, REQUEST_FORMAT ": null refused %u", REQUEST_VALUES(&r), refusal);
    r.matrices_length = 1;
    compare_both(second_draw_batch, &r, REFUSED_LENGTH);
    r.answers_length = 1;
    compare_both(second_draw_batch, &r, REFUSED_LENGTH);
    r.matrices_length = 0;
    compare_both(second_draw_batch, &r, REFUSED_LENGTH);
}

/* There is one matrix of no rows, and it has no bytes. */
static void compare_no_rows(const setting *s, uint64_t numbering)
{
    static const uint64_t indexes[] = {0, 1, UINT64_MAX, 0};
    static const uint8_t expected[] = {ACCEPTED, REFUSED_INDEX, REFUSED_INDEX, ACCEPTED};
    uint8_t no_matrix = FILLING, answers[COUNT_OF(indexes)];
    for (size_t form = 0; form < COUNT_OF(calls); form++) {
        memset(answers, FILLING, sizeof answers);
        uint32_t refusal = calls[form](s->q, s->n, 0, numbering, indexes, 4, &no_matrix, 0, answers, sizeof answers);
        check(refusal == ACCEPTED && memcmp(answers, expected, sizeof answers) == 0 && no_matrix == FILLING,
              SETTING_FORMAT ": refusal %u", SETTING_VALUES(s), refusal);
    }
    request r = right_request(s, numbering, indexes, COUNT_OF(indexes));
    r.matrices_length = 1;
    compare_both(second_draw_batch, &r, REFUSED_LENGTH);
    r.matrices_length = (size_t)s->n;
    compare_both(second_draw_batch, &r, REFUSED_LENGTH);
}

static void no_rows_group(uint64_t numbering)
{
    check_group_begin("no rows, numbering %" PRIu64, numbering);
    for (size_t number = 0; number < setting_count; number++)
        if (settings[number].k == 0)
            compare_no_rows(&settings[number], numbering);
    check_group_end();
}

/* ---- Refusals ---- */

static uint64_t refusals[REFUSAL_LIMIT];

/* Two indexes and none, of settings and a numbering that may be refused, with right lengths and with wrong ones. */
static void compare_request(uint64_t q, uint64_t n, uint64_t k, uint64_t numbering, const uint64_t indexes[2])
{
    for (size_t code = 0; code < 8; code++) {
        size_t count = code / 4 * 2;
        request r = {q, n, k, numbering, indexes, count, count, count * k * n + code % 2, count + code / 2 % 2};
        for (size_t form = 0; form < COUNT_OF(calls); form++) {
            uint32_t refusal = compare(calls[form], second_draw_batch, &r);
            if (refusal < REFUSAL_LIMIT)
                refusals[refusal]++;
        }
    }
}

static const uint64_t numbering_values[] = {0, 1, 2, 3, 257, (UINT64_C(1) << 32) + 1, UINT64_MAX};

/* No index is below N, so that the second has nothing to search for. */
static void compare_shape(uint64_t q, uint64_t n, uint64_t k)
{
    static const uint64_t indexes[] = {UINT64_MAX, UINT64_MAX - 1};
    for (size_t place = 0; place < COUNT_OF(numbering_values); place++)
        if (random_below(thinning) == 0)
            compare_request(q, n, k, numbering_values[place], indexes);
}

static void shapes_group(void)
{
    static const unsigned given[] = {ACCEPTED, REFUSED_FIELD, REFUSED_SHAPE, REFUSED_COUNT, REFUSED_NUMBERING,
                                     REFUSED_LENGTH};
    uint64_t met = 0;
    check_group_begin("every shape, accepted and refused");
    every_size(compare_shape, refusals);
    for (size_t place = 0; place < COUNT_OF(given); place++) {
        check(refusals[given[place]] != 0, "%u never comes", given[place]);
        met += refusals[given[place]];
    }
    check(met == answered(refusals), "other refusals come");
    check_group_end();
}

/* Numbers far out of range, those that would be cut to numbers in range, and those whose product wraps to 0. */
static void faults_group(void)
{
    static const uint64_t q[] = {2, 6, 8, 258}, n[] = {0, 6, 16, 17, 262, (UINT64_C(1) << 32) + 6, UINT64_C(1) << 61};
    static const uint64_t k[] = {0, 3, 8, 17, 259, (UINT64_C(1) << 32) + 3, UINT64_C(1) << 61, UINT64_MAX};
    check_group_begin("several faults at once");
    for (unsigned code = 0; code < COUNT_OF(q) * COUNT_OF(n) * COUNT_OF(k) * COUNT_OF(numbering_values); code++) {
        setting s = {q[code % 4], n[code / 4 % 7], k[code / 28 % 8], 0};
        second_count(s.q, s.n, s.k, &s.count);
        const uint64_t below[] = {0, s.count}, above[] = {s.count + 1, 0};
        compare_request(s.q, s.n, s.k, numbering_values[code / 224], below);
        compare_request(s.q, s.n, s.k, numbering_values[code / 224], above);
    }
    check_group_end();
}

/*
 * With both lengths wrong, with that of the answers alone, with neither, and with the empty list: each refusal before
 * those that would come after it. No index is below N, which refuses no list.
 */
static void order_group(void)
{
    static const uint64_t indexes[] = {UINT64_MAX, UINT64_MAX - 1};
    static const struct {
        uint64_t q, n, k, numbering;
        uint32_t refusal;
    } wrong[] = {
        {6, 17, 18, 3, REFUSED_FIELD}, {0, 0, 1, 0, REFUSED_FIELD}, {6, 6, 3, 1, REFUSED_FIELD},
        {2, 17, 8, 3, REFUSED_SHAPE}, {2, 6, 7, 0, REFUSED_SHAPE}, {7, 0, 0, 1, REFUSED_SHAPE},
        {2, 16, 8, 3, REFUSED_COUNT}, {8, 10, 5, 0, REFUSED_COUNT}, {2, 16, 7, 2, REFUSED_COUNT},
        {2, 6, 3, 3, REFUSED_NUMBERING}, {2, 6, 0, 0, REFUSED_NUMBERING}, {2, 6, 3, 1, REFUSED_LENGTH},
        {2, 6, 3, 2, REFUSED_LENGTH}, {2, 6, 0, 2, REFUSED_LENGTH},
    };
    check_group_begin("each refusal in its order");
    for (size_t place = 0; place < COUNT_OF(wrong); place++) {
        request r = {wrong[place].q, wrong[place].n, wrong[place].k, wrong[place].numbering, indexes, 2, 2, 37, 3};
        compare_both(second_draw_batch, &r, wrong[place].refusal);
        r.matrices_length = (size_t)(2 * r.k * r.n);
        compare_both(second_draw_batch, &r, wrong[place].refusal);
        uint32_t refusal = wrong[place].refusal == REFUSED_LENGTH ? ACCEPTED : wrong[place].refusal;
        r.answers_length = 2;
        compare_both(second_draw_batch, &r, refusal);
        r.listed = r.count = r.matrices_length = r.answers_length = 0;
        compare_both(second_draw_batch, &r, refusal);
    }
    check_group_end();
}

/* ---- Figures ---- */

/* A list of three indexes, and the rows that each draws, or NULL for refusal 5. */
static void compare_drawn(const setting *s, uint64_t numbering, const uint64_t indexes[3], const char *const rows[3])
{
    uint8_t matrices[3 * MAX_LENGTH * MAX_LENGTH], answers[3], expected[MAX_LENGTH * MAX_LENGTH];
    size_t width = width_of(s);
    for (size_t form = 0; form < COUNT_OF(calls); form++) {
        memset(matrices, FILLING, sizeof matrices);
        memset(answers, FILLING, sizeof answers);
        uint32_t refusal = calls[form](s->q, s->n, s->k, numbering, indexes, 3, matrices, 3 * width, answers, 3);
        check(refusal == ACCEPTED, SETTING_FORMAT ": refused %u", SETTING_VALUES(s), refusal);
        for (size_t place = 0; place < 3; place++) {
            memset(expected, FILLING, sizeof expected);
            check(rows[place] == NULL || read_rows(rows[place], expected) == width, "%s", rows[place]);
            check(answers[place] == (rows[place] == NULL ? REFUSED_INDEX : ACCEPTED) &&
                      memcmp(matrices + place * width, expected, width) == 0,
                  SETTING_FORMAT ": answer %u to %" PRIu64, SETTING_VALUES(s), answers[place], indexes[place]);
        }
    }
}

/* A matrix with both of its indexes, on both sides of an index that is none. */
static void compare_figure(uint64_t q, uint64_t n, uint64_t k, const char *rows, uint64_t extended, uint64_t ferrers)
{
    setting s = {q, n, k, 0};
    const char *const drawn[] = {rows, NULL, rows};
    second_count(q, n, k, &s.count);
    compare_drawn(&s, EXTENDED, (const uint64_t[]){extended, s.count, extended}, drawn);
    compare_drawn(&s, FERRERS, (const uint64_t[]){ferrers, s.count, ferrers}, drawn);
}

static void figures_group(void)
{
    static const setting three = {2, 3, 1, 7}, six = {2, 6, 3, 1395};
    static const char *const example_4 = "011001/000100/000011", *const last = "000100/000010/000001";
    check_group_begin("figures");
    compare_drawn(&three, EXTENDED, (const uint64_t[]){5, 7, 2}, (const char *const[]){"011", NULL, "010"});
    compare_drawn(&three, FERRERS, (const uint64_t[]){5, 7, 4}, (const char *const[]){"011", NULL, "010"});
    compare_drawn(&six, EXTENDED, (const uint64_t[]){928, 1395, 1394}, (const char *const[]){example_4, NULL, last});
    compare_drawn(&six, FERRERS, (const uint64_t[]){1323, 1395, 1394}, (const char *const[]){example_4, NULL, last});
    compare_figures(compare_figure);
    check_group_end();
}

/* ---- Groups of all settings ---- */

static void groups(uint64_t q, uint64_t numbering)
{
    static const struct {
        const char *name;
        void (*compare)(const setting *s, uint64_t numbering);
    } each[] = {
        {"lists, against the second", compare_second}, {"lists, against Draw alone", compare_alone},
        {"whole settings", compare_whole}, {"the empty list", compare_empty}, {"lengths", compare_lengths},
        {"lists too long", compare_liars},
    };
    for (size_t place = 0; place < COUNT_OF(each); place++) {
        check_group_begin("%s, q = %" PRIu64 ", numbering %" PRIu64, each[place].name, q, numbering);
        for (size_t number = 0; number < setting_count; number += thinning)
            if (settings[number].q == q)
                each[place].compare(&settings[number], numbering);
        check_group_end();
    }
}

int main(int argument_count, char **arguments)
{
    setvbuf(stdout, NULL, _IOLBF, BUFSIZ); /* so that failures are told even where wrong writes end the program */
    cases_begin(argument_count, arguments);
    figures_group();
    order_group();
    no_rows_group(EXTENDED);
    no_rows_group(FERRERS);
    for (unsigned place = 0; place < FIELD_COUNT; place++) {
        groups(second_field_sizes[place], EXTENDED);
        groups(second_field_sizes[place], FERRERS);
    }
    long_group(EXTENDED);
    long_group(FERRERS);
    shapes_group();
    faults_group();
    return check_summary("batch");
}
