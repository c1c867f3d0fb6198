/*
 * Tests the header's numbers, and what its calls make of null pointers and of lengths that no buffer has: the library
 * refuses in its own order, no other memory is touched, and an empty buffer may be null.
 */
#include "check.h"
#include "pandrwyg.h"
#include "refusals.h"

#include <inttypes.h>
#include <stdbool.h>
#include <string.h>

enum { PAINT = 0xA5, MATRIX = 18, ROWS = 18 };

/* Settings, numbering and index or row count, in the order of the refusals that they bring. */
typedef struct {
    uint64_t q, n, k, numbering, last;
    uint32_t refusal;
} request;

static const size_t no_lengths[] = {1, MATRIX, 257, 1025, PTRDIFF_MAX, (size_t)PTRDIFF_MAX + 1, SIZE_MAX - 1, SIZE_MAX};
static const size_t too_long[] = {(size_t)PTRDIFF_MAX + 1, SIZE_MAX - 7, SIZE_MAX};
static const size_t too_many[] = {PTRDIFF_MAX / 8 + 1, PTRDIFF_MAX, (size_t)PTRDIFF_MAX + 1, SIZE_MAX};

static const request draws[] = {
    {6, 6, 3, 1, 0, REFUSED_FIELD}, {2, 0, 0, 1, 0, REFUSED_SHAPE}, {8, 16, 8, 1, 0, REFUSED_COUNT},
    {4, 6, 3, 3, 0, REFUSED_NUMBERING}, {8, 6, 3, 1, 0, REFUSED_LENGTH}, {2, 6, 3, 2, 1395, REFUSED_LENGTH},
    {2, 6, 0, 1, 0, REFUSED_LENGTH}, {7, 6, 0, 2, 1, REFUSED_LENGTH},
};

static const request receptions[] = {
    {6, 6, 3, 1, 3, REFUSED_FIELD}, {2, 0, 0, 1, 3, REFUSED_SHAPE}, {8, 16, 8, 1, 3, REFUSED_COUNT},
    {4, 6, 3, 0, 3, REFUSED_NUMBERING}, {8, 6, 3, 1, 65, REFUSED_ROW_COUNT}, {2, 6, 3, 2, 3, REFUSED_LENGTH},
    {2, 6, 0, 1, 0, REFUSED_LENGTH},
};

static void draw_null_group(void)
{
    check_group_begin("Draw to null");
    for (size_t place = 0; place < sizeof draws / sizeof *draws; place++)
        for (size_t size = 0; size < sizeof no_lengths / sizeof *no_lengths; size++) {
            const request *r = &draws[place];
            uint32_t refusal = pandrwyg_draw(r->q, r->n, r->k, r->numbering, r->last, NULL, no_lengths[size]);
            check(refusal == r->refusal, "request %zu, length %zu: %" PRIu32, place, no_lengths[size], refusal);
        }
    check(pandrwyg_draw(2, 6, 0, 1, 0, NULL, 0) == 0, "the empty matrix");
    check(pandrwyg_draw(2, 6, 0, 1, 1, NULL, 0) == REFUSED_INDEX, "no second empty matrix");
    check(pandrwyg_draw(2, 6, 3, 1, 0, NULL, 0) == REFUSED_LENGTH, "no room for a matrix");
    check_group_end();
}

static void draw_length_group(void)
{
    uint8_t matrix[MATRIX];
    check_group_begin("Draw with a length that no buffer has");
    for (size_t place = 0; place < sizeof draws / sizeof *draws; place++) {
        const request *r = &draws[place];
        memset(matrix, PAINT, sizeof matrix);
        uint32_t refusal = pandrwyg_draw(r->q, r->n, r->k, r->numbering, r->last, matrix, SIZE_MAX);
        check(refusal == r->refusal, "request %zu: %" PRIu32, place, refusal);
        for (size_t byte = 0; byte < sizeof matrix; byte++)
            check(matrix[byte] == PAINT, "byte %zu is touched", byte);
    }
    check_group_end();
}

/* What a batch is lent. */
typedef struct {
    const uint64_t *indexes;
    size_t index_count;
    uint8_t *matrices;
    size_t matrices_length;
    uint8_t *answers;
    size_t answers_length;
} batch;

static uint8_t batch_matrices[MATRIX], batch_answers[1];

/* A batch of the request's index, which has the lengths that n = 6 and k = 3 need. */
static batch batch_of(const request *r)
{
    return (batch){&r->last, 1, batch_matrices, sizeof batch_matrices, batch_answers, sizeof batch_answers};
}

/* A batch that the request's refusal meets, or 4; it may leave no mark. */
static void compare_batch(const request *r, const batch *lent)
{
    memset(batch_matrices, PAINT, sizeof batch_matrices);
    memset(batch_answers, PAINT, sizeof batch_answers);
    uint32_t refusal = pandrwyg_draw_batch(r->q, r->n, r->k, r->numbering, lent->indexes, lent->index_count,
                                           lent->matrices, lent->matrices_length, lent->answers, lent->answers_length);
    check(refusal == r->refusal, "%zu%s indexes, %zu%s and %zu%s bytes: %" PRIu32 " instead of %" PRIu32,
          lent->index_count, lent->indexes == NULL ? " null" : "", lent->matrices_length,
          lent->matrices == NULL ? " null" : "", lent->answers_length, lent->answers == NULL ? " null" : "", refusal,
          r->refusal);
    for (size_t byte = 0; byte < sizeof batch_matrices; byte++)
        check(batch_matrices[byte] == PAINT, "byte %zu is touched", byte);
    check(batch_answers[0] == PAINT, "the answer is touched");
}

static void batch_null_group(void)
{
    check_group_begin("Draw a batch from null and to null");
    for (size_t place = 0; place < sizeof draws / sizeof *draws; place++)
        for (size_t size = 0; size < sizeof no_lengths / sizeof *no_lengths; size++) {
            const request *r = &draws[place];
            batch indexes = batch_of(r), matrices = indexes, answers = indexes;
            indexes.indexes = NULL;
            indexes.index_count = no_lengths[size];
            compare_batch(r, &indexes);
            matrices.matrices = NULL;
            matrices.matrices_length = no_lengths[size];
            compare_batch(r, &matrices);
            answers.answers = NULL;
            answers.answers_length = no_lengths[size];
            compare_batch(r, &answers);
        }
    check_group_end();
}

static void batch_length_group(void)
{
    check_group_begin("Draw a batch with a length that no buffer has");
    for (size_t place = 0; place < sizeof draws / sizeof *draws; place++) {
        const request *r = &draws[place];
        for (size_t size = 0; size < sizeof too_long / sizeof *too_long; size++) {
            batch matrices = batch_of(r), answers = matrices;
            matrices.matrices_length = too_long[size];
            compare_batch(r, &matrices);
            answers.answers_length = too_long[size];
            compare_batch(r, &answers);
        }
        for (size_t size = 0; size < sizeof too_many / sizeof *too_many; size++) {
            batch indexes = batch_of(r);
            indexes.index_count = indexes.answers_length = too_many[size];
            compare_batch(r, &indexes);
        }
    }
    check_group_end();
}

/* Lengths that fit together, so that the library would go on: no memory holds the list, or the matrices. */
static void batch_memory_group(void)
{
    static const request empty_matrix = {2, 6, 0, 1, 0, REFUSED_LENGTH}, large = {2, 16, 16, 2, 0, REFUSED_LENGTH};
    const size_t many = ((size_t)PTRDIFF_MAX + 1) / 256; /* matrices of 256 bytes have one byte too many */
    check_group_begin("Draw a batch that no memory holds");
    for (size_t place = 0; place < sizeof too_many / sizeof *too_many; place++) {
        const batch list = {&empty_matrix.last, too_many[place], batch_matrices, 0, batch_answers, too_many[place]};
        compare_batch(&empty_matrix, &list);
    }
    compare_batch(&large, &(const batch){&large.last, many, batch_matrices, many * 256, batch_answers, many});
    check_group_end();
}

/*
 * A list that cannot be used beside two empty buffers, which would be right for no indexes and, with k = 0, right for any
 * number of matrices: it must not become a list of no indexes, which is never refused 4.
 */
static void batch_list_group(void)
{
    static const request requests[] = {
        {6, 6, 0, 1, 0, REFUSED_FIELD}, {6, 6, 3, 1, 0, REFUSED_FIELD}, {2, 17, 0, 1, 0, REFUSED_SHAPE},
        {2, 17, 3, 1, 0, REFUSED_SHAPE}, {8, 16, 3, 1, 0, REFUSED_COUNT}, {2, 6, 0, 3, 0, REFUSED_NUMBERING},
        {2, 6, 3, 0, 0, REFUSED_NUMBERING}, {2, 6, 0, 1, 0, REFUSED_LENGTH}, {2, 6, 3, 2, 0, REFUSED_LENGTH},
    };
    check_group_begin("Draw a batch of a list that is not there, to empty buffers");
    for (size_t place = 0; place < sizeof requests / sizeof *requests; place++) {
        const request *r = &requests[place];
        for (size_t count = 1; count <= 3; count++) {
            compare_batch(r, &(const batch){NULL, count, batch_matrices, 0, batch_answers, 0});
            compare_batch(r, &(const batch){NULL, count, NULL, 0, NULL, 0});
        }
        for (size_t count = 0; count < sizeof too_many / sizeof *too_many; count++) {
            compare_batch(r, &(const batch){&r->last, too_many[count], batch_matrices, 0, batch_answers, 0});
            compare_batch(r, &(const batch){NULL, too_many[count], NULL, 0, NULL, 0});
        }
    }
    check_group_end();
}

static void batch_empty_group(void)
{
    static const request right = {2, 6, 3, 1, 0, REFUSED_LENGTH};
    static const uint64_t indexes[] = {0, 1};
    uint8_t answers[] = {PAINT, PAINT};
    check_group_begin("Draw a batch with empty buffers");
    check(pandrwyg_draw_batch(2, 6, 3, 1, NULL, 0, NULL, 0, NULL, 0) == 0, "nothing is asked, all null");
    check(pandrwyg_draw_batch(2, 6, 3, 2, indexes, 0, batch_matrices, 0, answers, 0) == 0, "nothing is asked");
    check(pandrwyg_draw_batch(6, 6, 3, 1, NULL, 0, NULL, 0, NULL, 0) == REFUSED_FIELD, "nothing is asked of no field");
    check(pandrwyg_draw_batch(2, 6, 0, 1, indexes, 2, NULL, 0, answers, 2) == 0, "the empty matrix to null");
    check(answers[0] == 0 && answers[1] == REFUSED_INDEX, "no second empty matrix");
    batch no_indexes = batch_of(&right), no_matrices = no_indexes, no_answers = no_indexes;
    no_indexes.indexes = NULL;
    no_indexes.index_count = 0;
    compare_batch(&right, &no_indexes);
    no_matrices.matrices = NULL;
    no_matrices.matrices_length = 0;
    compare_batch(&right, &no_matrices);
    no_answers.answers = NULL;
    no_answers.answers_length = 0;
    compare_batch(&right, &no_answers);
    check_group_end();
}

static const uint8_t right_rows[ROWS] = {0, 1, 1, 0, 0, 1, 0, 0, 0, 1, 0, 0, 0, 0, 0, 0, 1, 1};

/* A reception that the request's refusal meets; it may leave no mark on the answer that is lent, or that could have been. */
static void compare_receive(const request *r, const uint8_t *rows, size_t rows_length, bool with_answer, size_t answer_length)
{
    uint8_t answer[PANDRWYG_ANSWER_SIZE];
    memset(answer, PAINT, sizeof answer);
    uint32_t refusal = pandrwyg_receive(r->q, r->n, r->k, r->numbering, r->last, rows, rows_length,
                                        with_answer ? answer : NULL, answer_length);
    check(refusal == r->refusal, "%zu%s and %zu%s bytes: %" PRIu32 " instead of %" PRIu32, rows_length,
          rows == NULL ? " null" : "", answer_length, with_answer ? "" : " null", refusal, r->refusal);
    for (size_t byte = 0; byte < sizeof answer; byte++)
        check(answer[byte] == PAINT, "answer byte %zu is touched", byte);
}

static void receive_null_group(void)
{
    uint8_t answer[PANDRWYG_ANSWER_SIZE];
    check_group_begin("Receive from null and to null");
    for (size_t place = 0; place < sizeof receptions / sizeof *receptions; place++)
        for (size_t size = 0; size < sizeof no_lengths / sizeof *no_lengths; size++) {
            compare_receive(&receptions[place], NULL, no_lengths[size], true, sizeof answer);
            compare_receive(&receptions[place], right_rows, sizeof right_rows, false, no_lengths[size]);
            compare_receive(&receptions[place], NULL, no_lengths[size], false, no_lengths[size]);
        }
    check(pandrwyg_receive(2, 6, 3, 1, 3, right_rows, sizeof right_rows, NULL, 0) == REFUSED_LENGTH, "no room for an answer");
    check(pandrwyg_receive(2, 6, 0, 1, 0, NULL, 0, answer, sizeof answer) == 0, "no rows span the empty matrix");
    for (size_t byte = 0; byte < sizeof answer; byte++)
        check(answer[byte] == 0, "its index, dimension and vector are 0, not byte %zu", byte);
    check_group_end();
}

static void receive_length_group(void)
{
    check_group_begin("Receive with a length that no buffer has");
    for (size_t place = 0; place < sizeof receptions / sizeof *receptions; place++)
        for (size_t size = 0; size < sizeof too_long / sizeof *too_long; size++) {
            compare_receive(&receptions[place], right_rows, too_long[size], true, PANDRWYG_ANSWER_SIZE);
            compare_receive(&receptions[place], right_rows, sizeof right_rows, true, too_long[size]);
        }
    check_group_end();
}

static void readers_group(void)
{
    static const uint8_t answer[] = {1, 2, 3, 4, 5, 6, 7, 248, 9, 10, 251};
    check_group_begin("the header's readers of an answer");
    check(sizeof answer == PANDRWYG_ANSWER_SIZE && PANDRWYG_ANSWER_SIZE == 11, "eleven bytes");
    check(pandrwyg_answer_index(answer) == UINT64_C(0xF807060504030201), "the index, least byte first");
    check(pandrwyg_answer_dimension(answer) == 9, "the dimension");
    check(pandrwyg_answer_vector(answer) == 0xFB0A, "the vector, least byte first");
    check_group_end();
}

static void numbers_group(void)
{
    static const uint32_t numbers[][2] = {
        {PANDRWYG_DONE, ACCEPTED}, {PANDRWYG_FIELD_SIZE, REFUSED_FIELD}, {PANDRWYG_SHAPE, REFUSED_SHAPE},
        {PANDRWYG_COUNT, REFUSED_COUNT}, {PANDRWYG_LENGTH, REFUSED_LENGTH}, {PANDRWYG_INDEX, REFUSED_INDEX},
        {PANDRWYG_ENTRY, REFUSED_ENTRY}, {PANDRWYG_NOT_REDUCED, REFUSED_UNREDUCED},
        {PANDRWYG_TOO_FEW, REFUSED_TOO_FEW}, {PANDRWYG_TOO_MANY, REFUSED_TOO_MANY},
        {PANDRWYG_NUMBERING, REFUSED_NUMBERING}, {PANDRWYG_LINE, REFUSED_LINE}, {PANDRWYG_LISTING, REFUSED_LISTING},
        {PANDRWYG_ROW_COUNT, REFUSED_ROW_COUNT}, {PANDRWYG_RECEIVER, REFUSED_RECEIVER},
        {PANDRWYG_MISMATCH, REFUSED_MISMATCH}, {PANDRWYG_PACK, REFUSED_PACK},
    };
    check_group_begin("the header's refusal numbers");
    for (size_t place = 0; place < sizeof numbers / sizeof *numbers; place++)
        check(numbers[place][0] == numbers[place][1], "%" PRIu32 " instead of %" PRIu32, numbers[place][0],
              numbers[place][1]);
    check_group_end();
}

int main(void)
{
    numbers_group();
    readers_group();
    draw_null_group();
    draw_length_group();
    batch_null_group();
    batch_length_group();
    batch_memory_group();
    batch_list_group();
    batch_empty_group();
    receive_null_group();
    receive_length_group();
    return check_summary("border");
}
