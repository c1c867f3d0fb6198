#include "calls.h"
#include "pandrwyg.h"
#include "portable.h"
#include "refusals.h"

#include <stdbool.h>

enum { PAINT = 0xA5, FENCE = 8, WIDTH = 16, MATRIX = WIDTH * WIDTH, MOST_ROWS = 65, BATCH = 5, ROUNDS = 32 };

#define COUNT_OF(array) (sizeof(array) / sizeof *(array))

/* ---- Saying ---- */

static void say_number(uint64_t number)
{
    decimal_text text;
    say(decimal(&text, number));
}

static void say_digest(uint64_t number)
{
    char digits[17];
    for (unsigned place = 0; place < 16; place++)
        digits[place] = "0123456789abcdef"[number >> (60 - 4 * place) & 15];
    digits[16] = '\0';
    say(digits);
}

/* ---- Comparisons ---- */

static uint32_t passed, failed, failed_before;

static void check(bool condition, const char *words)
{
    if (condition) {
        passed++;
        return;
    }
    if (failed++ < 20) {
        say("  failed: ");
        say(words);
        say("\n");
    }
}

static void end_group(const char *name)
{
    say(name);
    say(": ");
    say_number(passed);
    say(" right, ");
    say_number(failed - failed_before);
    say(" wrong\n");
    passed = 0;
    failed_before = failed;
}

/* ---- Buffers with fences ---- */

static uint8_t matrices_room[FENCE + BATCH * MATRIX + FENCE], answers_room[FENCE + BATCH + 1 + FENCE];
static uint8_t rows_room[MOST_ROWS * WIDTH + 1], answer_room[FENCE + PANDRWYG_ANSWER_SIZE + 1 + FENCE];
static uint8_t *const matrices = matrices_room + FENCE, *const answers = answers_room + FENCE;
static uint8_t *const rows = rows_room, *const answer = answer_room + FENCE;

static void fill(uint8_t *bytes, size_t length, uint8_t filling)
{
    for (size_t place = 0; place < length; place++)
        bytes[place] = filling;
}

static void paint(void)
{
    fill(matrices_room, sizeof matrices_room, PAINT);
    fill(answers_room, sizeof answers_room, PAINT);
    fill(answer_room, sizeof answer_room, PAINT);
}

static bool is_painted(const uint8_t *bytes, size_t length)
{
    for (size_t place = 0; place < length; place++)
        if (bytes[place] != PAINT)
            return false;
    return true;
}

/* Whether a room is painted but for the first bytes after its fence. */
static bool is_fenced(const uint8_t *room, size_t size, size_t length)
{
    return is_painted(room, FENCE) && is_painted(room + FENCE + length, size - FENCE - length);
}

static bool all_painted(void)
{
    return is_painted(matrices_room, sizeof matrices_room) && is_painted(answers_room, sizeof answers_room) &&
           is_painted(answer_room, sizeof answer_room);
}

/* Reads rows of digits with "/" between them and answers the number of entries. */
static size_t read_rows(const char *text, uint8_t *entries)
{
    size_t length = 0;
    for (; *text != '\0'; text++)
        if (*text != '/')
            entries[length++] = (uint8_t)(*text - '0');
    return length;
}

static bool is_text(const char *text, const uint8_t *entries)
{
    for (; *text != '\0'; text++)
        if (*text != '/' && *entries++ != *text - '0')
            return false;
    return true;
}

/* ---- Document 01's examples ---- */

typedef struct {
    uint8_t q, n, k;
    const char *rows;
    uint16_t extended, ferrers;
} figure;

/* A matrix under both of its indexes, drawn and received. */
static void compare_figure(const figure *f)
{
    const uint16_t indexes[] = {f->extended, f->ferrers};
    for (uint64_t numbering = 1; numbering <= 2; numbering++) {
        size_t length = read_rows(f->rows, rows);
        uint64_t index = indexes[numbering - 1];
        paint();
        check(pandrwyg_draw(f->q, f->n, f->k, numbering, index, matrices, length) == 0, "a figure is refused");
        check(is_text(f->rows, matrices) && is_fenced(matrices_room, sizeof matrices_room, length), f->rows);
        check(pandrwyg_receive(f->q, f->n, f->k, numbering, f->k, rows, length, answer, PANDRWYG_ANSWER_SIZE) == 0,
              "a figure's rows are refused");
        check(pandrwyg_answer_index(answer) == index && pandrwyg_answer_dimension(answer) == f->k, f->rows);
    }
}

/* Rows that are no reduced matrix: what is received for them. */
static void compare_received(uint64_t q, uint64_t n, uint64_t k, const char *text, uint32_t refusal, uint64_t index,
                             uint8_t dimension, uint16_t vector)
{
    size_t length = read_rows(text, rows);
    paint();
    check(pandrwyg_receive(q, n, k, 1, length / n, rows, length, answer, PANDRWYG_ANSWER_SIZE) == refusal, text);
    check(pandrwyg_answer_index(answer) == index && pandrwyg_answer_dimension(answer) == dimension &&
              pandrwyg_answer_vector(answer) == vector, text);
    check(is_fenced(answer_room, sizeof answer_room, PANDRWYG_ANSWER_SIZE), "the fence of an answer");
}

static void make_examples(void)
{
    static const figure figures[] = {
        {2, 6, 3, "011001/000100/000011", 928, 1323}, {2, 6, 3, "000100/000010/000001", 1394, 1394},
        {2, 3, 1, "100", 0, 0}, {2, 3, 1, "110", 1, 1}, {2, 3, 1, "010", 2, 4}, {2, 3, 1, "101", 3, 2},
        {2, 3, 1, "111", 4, 3}, {2, 3, 1, "011", 5, 5}, {2, 3, 1, "001", 6, 6}, {2, 3, 0, "", 0, 0},
        {3, 2, 1, "12", 2, 2}, {2, 3, 2, "101/011", 3, 3}, {4, 3, 1, "123", 17, 14}, {8, 3, 1, "157", 68, 61},
    };
    for (size_t place = 0; place < COUNT_OF(figures); place++)
        compare_figure(&figures[place]);
    compare_received(3, 2, 1, "21", 0, 2, 1, 2);
    compare_received(2, 3, 2, "110/011/101", 0, 3, 2, 6);
    compare_received(2, 3, 2, "110", REFUSED_TOO_FEW, 0, 1, 4);
    compare_received(2, 3, 2, "100/010/001", REFUSED_TOO_MANY, 0, 3, 7);
    compare_received(4, 2, 1, "23", 0, 2, 1, 2);
    compare_received(8, 2, 1, "25", 0, 7, 1, 2);
    end_group("examples");
}

/* ---- Every refusal ---- */

static void compare_draw(uint32_t refusal, uint64_t q, uint64_t n, uint64_t k, uint64_t numbering, uint64_t index,
                         uint8_t *matrix, size_t length)
{
    paint();
    check(pandrwyg_draw(q, n, k, numbering, index, matrix, length) == refusal, "Draw's refusal");
    check(all_painted(), "Draw refused leaves what was lent");
}

static void compare_batch(uint32_t refusal, uint64_t q, uint64_t n, uint64_t k, uint64_t numbering,
                          const uint64_t *indexes, size_t index_count, uint8_t *matrix, size_t matrices_length,
                          uint8_t *told, size_t answers_length)
{
    paint();
    check(pandrwyg_draw_batch(q, n, k, numbering, indexes, index_count, matrix, matrices_length, told, answers_length) ==
              refusal, "a batch's refusal");
    check(all_painted(), "a batch refused leaves what was lent");
}

static void compare_receive(uint32_t refusal, uint64_t q, uint64_t n, uint64_t k, uint64_t numbering, uint64_t row_count,
                            const uint8_t *received, size_t rows_length, uint8_t *told, size_t answer_length)
{
    paint();
    check(pandrwyg_receive(q, n, k, numbering, row_count, received, rows_length, told, answer_length) == refusal,
          "Receive's refusal");
    check(all_painted(), "Receive refused leaves what was lent");
}

/* Settings that are refused 1, 2, 3 or 10, each before what a call refuses later. */
static const struct {
    uint64_t q, n, k, numbering;
    uint32_t refusal;
} refused[] = {
    {6, 0, 1, 0, REFUSED_FIELD}, {0, 6, 3, 1, REFUSED_FIELD}, {UINT64_C(0x100000002), 6, 3, 1, REFUSED_FIELD},
    {258, 6, 3, 1, REFUSED_FIELD}, {UINT64_MAX, 6, 3, 1, REFUSED_FIELD}, {2, 17, 3, 0, REFUSED_SHAPE},
    {2, 0, 0, 1, REFUSED_SHAPE}, {2, 6, 7, 1, REFUSED_SHAPE}, {2, UINT64_C(0x100000006), 3, 1, REFUSED_SHAPE},
    {2, 6, UINT64_C(0x100000003), 1, REFUSED_SHAPE}, {2, 16, 7, 0, REFUSED_COUNT}, {8, 16, 8, 1, REFUSED_COUNT},
    {2, 6, 3, 0, REFUSED_NUMBERING}, {2, 6, 3, 3, REFUSED_NUMBERING}, {2, 6, 3, UINT64_C(0x100000001), REFUSED_NUMBERING},
};

static void refuse_settings(void)
{
    static const uint64_t index = UINT64_MAX;
    for (size_t place = 0; place < COUNT_OF(refused); place++) {
        uint64_t q = refused[place].q, n = refused[place].n, k = refused[place].k, t = refused[place].numbering;
        uint32_t refusal = refused[place].refusal;
        compare_draw(refusal, q, n, k, t, index, matrices, 1);
        compare_draw(refusal, q, n, k, t, index, NULL, 1);
        compare_batch(refusal, q, n, k, t, &index, 1, matrices, 1, answers, 2);
        compare_batch(refusal, q, n, k, t, NULL, 1, NULL, 0, NULL, 0);
        compare_receive(refusal, q, n, k, t, 65, rows, 1, answer, 1);
        compare_receive(refusal, q, n, k, t, 65, NULL, 1, NULL, 1);
    }
}

/* Lengths that are wrong, null pointers, and lengths that no buffer of this machine has. */
static void refuse_lengths(void)
{
    static const uint64_t indexes[2] = {0, 1};
    static const size_t wrong[] = {0, 17, 19, 257, 1025};
    static const size_t too_long[] = {(size_t)PTRDIFF_MAX + 1, SIZE_MAX};
    for (size_t place = 0; place < COUNT_OF(wrong); place++) {
        compare_draw(REFUSED_LENGTH, 2, 6, 3, 1, 1395, matrices, wrong[place]);
        compare_draw(REFUSED_LENGTH, 2, 6, 3, 1, 0, NULL, wrong[place]);
        compare_batch(REFUSED_LENGTH, 2, 6, 3, 1, indexes, 1, matrices, wrong[place], answers, 1);
        compare_batch(REFUSED_LENGTH, 2, 6, 3, 1, indexes, 1, NULL, wrong[place], answers, 1);
        compare_receive(REFUSED_LENGTH, 2, 6, 3, 1, 3, rows, wrong[place], answer, PANDRWYG_ANSWER_SIZE);
        compare_receive(REFUSED_LENGTH, 2, 6, 3, 1, 3, NULL, wrong[place], answer, PANDRWYG_ANSWER_SIZE);
    }
    for (size_t place = 0; place < COUNT_OF(too_long); place++) {
        compare_draw(REFUSED_LENGTH, 2, 6, 3, 1, 0, matrices, too_long[place]);
        compare_draw(REFUSED_LENGTH, 2, 6, 0, 1, 0, matrices, too_long[place]);
        compare_draw(REFUSED_LENGTH, 2, 6, 0, 1, 0, NULL, too_long[place]);
        compare_batch(REFUSED_LENGTH, 2, 6, 0, 1, indexes, too_long[place], matrices, 0, answers, 0);
        compare_batch(REFUSED_LENGTH, 2, 6, 0, 1, indexes, PTRDIFF_MAX / 8 + 1, matrices, 0, answers, PTRDIFF_MAX / 8 + 1);
        compare_batch(REFUSED_LENGTH, 2, 6, 3, 1, indexes, 2, matrices, 36, answers, too_long[place]);
        compare_receive(REFUSED_LENGTH, 2, 6, 3, 1, 3, rows, too_long[place], answer, PANDRWYG_ANSWER_SIZE);
        compare_receive(REFUSED_LENGTH, 2, 6, 3, 1, 3, rows, 18, answer, too_long[place]);
    }
    for (uint64_t k = 0; k <= 3; k += 3) {
        compare_batch(REFUSED_LENGTH, 2, 6, k, 1, NULL, 2, matrices, 0, answers, 0);
        compare_batch(REFUSED_LENGTH, 2, 6, k, 1, NULL, 2, NULL, 0, NULL, 0);
        compare_batch(REFUSED_LENGTH, 2, 6, k, 1, indexes, 2, matrices, 35, answers, 2);
        compare_batch(REFUSED_LENGTH, 2, 6, k, 1, indexes, 2, matrices, k * 12, answers, 1);
        compare_batch(REFUSED_LENGTH, 2, 6, k, 1, indexes, 2, matrices, k * 12, answers, 3);
    }
    compare_draw(REFUSED_LENGTH, 2, 6, 0, 1, 0, NULL, 1);
    compare_receive(REFUSED_LENGTH, 2, 6, 3, 1, 0, NULL, 1, answer, PANDRWYG_ANSWER_SIZE);
    compare_receive(REFUSED_LENGTH, 2, 6, 3, 1, 3, rows, 18, answer, PANDRWYG_ANSWER_SIZE - 1);
    compare_receive(REFUSED_LENGTH, 2, 6, 3, 1, 3, rows, 18, answer, PANDRWYG_ANSWER_SIZE + 1);
    compare_receive(REFUSED_LENGTH, 2, 6, 3, 1, 3, rows, 18, answer, 9);
    compare_receive(REFUSED_LENGTH, 2, 6, 3, 1, 3, rows, 18, NULL, 0);
    compare_receive(REFUSED_LENGTH, 2, 6, 3, 1, 3, rows, 18, NULL, PANDRWYG_ANSWER_SIZE);
}

static void make_refusals(void)
{
    static const uint64_t indexes[3] = {5, 7, UINT64_C(0x100000002)};
    fill(rows_room, sizeof rows_room, 0);
    refuse_settings();
    refuse_lengths();
    compare_draw(REFUSED_INDEX, 2, 6, 3, 1, 1395, matrices, 18);
    compare_draw(REFUSED_INDEX, 2, 6, 3, 2, 1395, matrices, 18);
    compare_draw(REFUSED_INDEX, 2, 6, 3, 1, UINT64_C(0x100000000), matrices, 18);
    compare_draw(REFUSED_INDEX, 2, 6, 0, 1, 1, NULL, 0);
    compare_receive(REFUSED_ROW_COUNT, 2, 3, 1, 1, 65, rows, 195, answer, 1);
    compare_receive(REFUSED_ROW_COUNT, 2, 3, 1, 1, UINT64_C(0x100000001), rows, 3, answer, PANDRWYG_ANSWER_SIZE);
    rows[4] = 2;
    compare_receive(REFUSED_ENTRY, 2, 3, 1, 1, 2, rows, 6, answer, PANDRWYG_ANSWER_SIZE);
    rows[4] = 255;
    compare_receive(REFUSED_ENTRY, 8, 3, 1, 2, 2, rows, 6, answer, PANDRWYG_ANSWER_SIZE);
    /* In a batch an index of N or more refuses nobody else. */
    paint();
    check(pandrwyg_draw_batch(2, 3, 1, 1, indexes, 3, matrices, 9, answers, 3) == 0, "a batch is refused");
    check(is_text("011", matrices) && is_painted(matrices + 3, 6), "the parts of a batch");
    check(answers[0] == 0 && answers[1] == REFUSED_INDEX && answers[2] == REFUSED_INDEX, "the answers of a batch");
    check(is_fenced(matrices_room, sizeof matrices_room, 9) && is_fenced(answers_room, sizeof answers_room, 3),
          "the fences of a batch");
    /* Nothing is asked. */
    check(pandrwyg_draw(2, 6, 0, 1, 0, NULL, 0) == 0, "the empty matrix");
    check(pandrwyg_draw_batch(2, 6, 3, 1, NULL, 0, NULL, 0, NULL, 0) == 0, "the empty list");
    check(pandrwyg_receive(2, 6, 0, 1, 0, NULL, 0, answer, PANDRWYG_ANSWER_SIZE) == 0, "no rows");
    end_group("refusals");
}

/* ---- Pseudo-random calls ---- */

/* A number below a bound, which is above 0 and at most 65,536. */
static uint32_t random_below(uint32_t bound)
{
    return (random_next() >> 8) % bound;
}

/* An index, mostly below the count: near the first or the last at every scale, or anywhere. */
static uint64_t random_index(uint64_t count)
{
    uint64_t anywhere = random_wide();
    uint32_t shift = random_below(64);
    switch (random_below(8)) {
    case 0: return anywhere;
    case 1:
    case 2: return (anywhere >> shift) % count;
    case 3:
    case 4: return count - 1 - (anywhere >> shift) % count;
    default: return anywhere % count;
    }
}

/* What the calls answered and left: the number of calls by refusal, and the digest FNV-1a of all bytes with 64 bits. */
static uint32_t answered[REFUSAL_LIMIT];
static uint64_t digest;

static void absorb(const uint8_t *bytes, size_t length)
{
    for (size_t place = 0; place < length; place++)
        digest = (digest ^ bytes[place]) * UINT64_C(0x100000001B3);
}

static void absorb_refusal(uint32_t refusal)
{
    const uint8_t byte = (uint8_t)refusal;
    check(refusal < REFUSAL_LIMIT, "a refusal is no number of document 01");
    answered[refusal < REFUSAL_LIMIT ? refusal : 0]++;
    absorb(&byte, 1);
}

static void begin_digest(void)
{
    digest = UINT64_C(0xCBF29CE484222325);
    for (unsigned refusal = 0; refusal < REFUSAL_LIMIT; refusal++)
        answered[refusal] = 0;
}

static void end_digest(const char *name, uint64_t number)
{
    say(name);
    say(" ");
    say_number(number);
    say(": ");
    say_digest(digest);
    say(";");
    for (unsigned refusal = 0; refusal < REFUSAL_LIMIT; refusal++)
        if (answered[refusal] > 0) {
            say(" ");
            say_number(refusal);
            say(" x ");
            say_number(answered[refusal]);
        }
    say("\n");
}

/* Each leaves what was painted outside the buffer lent; what is inside goes into the digest. */

static uint32_t draw(uint64_t q, uint64_t n, uint64_t k, uint64_t numbering, uint64_t index, size_t length)
{
    fill(matrices_room, FENCE + length + FENCE, PAINT);
    uint32_t refusal = pandrwyg_draw(q, n, k, numbering, index, matrices, length);
    absorb_refusal(refusal);
    absorb(matrices_room, FENCE + length + FENCE);
    return refusal;
}

static void receive(uint64_t q, uint64_t n, uint64_t k, uint64_t numbering, uint64_t row_count, size_t rows_length,
                    size_t answer_length)
{
    fill(answer_room, sizeof answer_room, PAINT);
    absorb_refusal(pandrwyg_receive(q, n, k, numbering, row_count, rows, rows_length, answer, answer_length));
    absorb(answer_room, sizeof answer_room);
}

static void draw_batch(const setting *s, uint64_t numbering)
{
    const size_t width = (size_t)s->k * s->n;
    uint64_t indexes[BATCH] = {0, s->count - 1, s->count, 0, 0};
    indexes[3] = random_index(s->count);
    indexes[4] = random_index(s->count);
    fill(matrices_room, sizeof matrices_room, PAINT);
    fill(answers_room, sizeof answers_room, PAINT);
    absorb_refusal(pandrwyg_draw_batch(s->q, s->n, s->k, numbering, indexes, BATCH, matrices, BATCH * width, answers,
                                       BATCH));
    absorb(matrices_room, FENCE + BATCH * width + FENCE);
    absorb(answers_room, sizeof answers_room);
}

static void random_rows(const setting *s, uint64_t row_count)
{
    for (size_t place = 0; place < row_count * s->n; place++)
        rows[place] = (uint8_t)random_below(s->q);
}

/* Row after row one of the k rows at `matrices`, all of them if there is room; some rows are zero. */
static void drawn_rows(const setting *s, uint64_t row_count)
{
    uint32_t first = random_below(17);
    for (uint32_t row = 0; row < row_count; row++) {
        uint32_t from = row < s->k ? (first + row) % s->k : random_below(s->k + 1u);
        for (uint32_t column = 0; column < s->n; column++)
            rows[row * s->n + column] = from < s->k ? matrices[from * s->n + column] : 0;
    }
}

/* Rows of the kind that the round has, for the matrix that was drawn; answers how many. */
static uint64_t make_rows(const setting *s, unsigned round, bool drawn)
{
    uint64_t row_count = s->k;
    switch (round % 6) {
    case 0:
    case 1:
        row_count += random_below(4);
        if (drawn)
            drawn_rows(s, row_count);
        else
            random_rows(s, row_count);
        return row_count;
    case 2: row_count = random_below(s->k + 1u); break;
    case 3: row_count = random_below(64 + 1); break;
    default: break;
    }
    random_rows(s, row_count);
    if (round % 12 == 4 && row_count > 0)
        rows[random_below((uint32_t)row_count * s->n)] = (uint8_t)(s->q + random_below(3));
    return row_count;
}

static void call_setting(const setting *s, uint64_t numbering)
{
    for (unsigned round = 0; round < ROUNDS; round++) {
        uint64_t index = round == 0 ? 0 : round == 1 ? s->count - 1 : round == 2 ? s->count : random_index(s->count);
        bool drawn = draw(s->q, s->n, s->k, numbering, index, (size_t)s->k * s->n) == 0;
        uint64_t row_count = make_rows(s, round, drawn);
        receive(s->q, s->n, s->k, numbering, row_count, (size_t)row_count * s->n, PANDRWYG_ANSWER_SIZE);
    }
    draw_batch(s, numbering);
}

/* Every n and k up to 18 with the size q, numberings 0 to 3, and now and then a wrong length. */
static void call_shapes(uint64_t q)
{
    fill(rows_room, sizeof rows_room, 1);
    for (uint64_t n = 0; n <= 18; n++)
        for (uint64_t k = 0; k <= 18; k++) {
            size_t length = (size_t)(k * n <= MATRIX ? k * n : MATRIX);
            uint64_t numbering = random_below(4);
            uint64_t index = random_wide() >> random_below(64);
            uint64_t row_count = random_below(67);
            size_t rows_length = (size_t)(row_count * n <= sizeof rows_room ? row_count * n : sizeof rows_room);
            draw(q, n, k, numbering, index, length + (random_below(4) == 0));
            numbering = random_below(4);
            rows_length -= rows_length > 0 && random_below(4) == 0;
            receive(q, n, k, numbering, row_count, rows_length, PANDRWYG_ANSWER_SIZE - (random_below(8) == 0));
        }
}

static void make_random(void)
{
    static const uint64_t wrong_sizes[] = {0, 1, 6, 9, 258, UINT64_C(0x100000002), UINT64_MAX};
    for (size_t number = 0; number < SETTINGS; number++) {
        const setting *s = &settings[number];
        if (number == 0 || s[-1].q != s->q)
            begin_digest();
        for (uint64_t numbering = 1; numbering <= 2; numbering++)
            call_setting(s, numbering);
        if (number + 1 == SETTINGS || s[1].q != s->q) {
            call_shapes(s->q);
            end_digest("calls with q =", s->q);
        }
    }
    begin_digest();
    for (size_t place = 0; place < COUNT_OF(wrong_sizes); place++)
        call_shapes(wrong_sizes[place]);
    end_digest("calls with wrong sizes,", COUNT_OF(wrong_sizes));
    end_group("numbers");
}

uint32_t make_calls(void)
{
    make_examples();
    make_refusals();
    make_random();
    return failed;
}
