/*
 * Times the library's calls beside plain C that makes the same tests (plain.h), by turns in one run, and measures the
 * stack that the three C calls use. A time is the least of many samples, each over prepared random inputs, in
 * nanoseconds a call, and for Draw a batch an index: whatever else the machine does only adds to it. A ratio is the
 * library's time divided by the other's: above 1, the library takes longer.
 *
 *   plain    plain C through the same interface: a receiver goes in by value and comes back by value, as with the
 *            library. It has one Take, which stands beside both of the library's
 *   packed   Reduce and Receive at q = 2 beside an expert's C with rows as 16-bit words (packed.h)
 *   FLINT    Reduce at the primes beside nmod_mat_rref, where WITH_FLINT is defined
 *   a row    Take beside the library's own Receive of 64 rows, whose time is divided by 64: what a row costs there
 *   reduce   the distance of two lists of 64 rows beside the library's own Reduce of one
 *   alone    Draw a batch beside the library's own Draw, called for each index of the same list to write the same bytes
 *
 * Before two are timed, their answers to the prepared inputs are compared; a difference ends the bench. The list
 * programs are run as processes: their listings are compared whole, then they write to /dev/null, and their time is
 * that of a line.
 *
 *   bench answers
 *
 * makes all these comparisons and goes on after a difference. It takes no time and measures no stack. A line of the
 * table whose answers are compared is a pass or a failure, and the last line of output is 'bench: N passed, M failed'.
 * The lines beside a row of Receive and beside Reduce of one list compare nothing and are left out.
 */
#define _XOPEN_SOURCE 700

#include "check.h"
#include "harness.h"
#include "packed.h"
#include "program.h"

#include <inttypes.h>
#include <string.h>
#include <time.h>
#include <ucontext.h>

#ifdef WITH_FLINT
#include <flint/nmod_mat.h>
#endif

enum { INPUTS = 64, SAMPLES = 60, BATCH_SAMPLES = 240, SAMPLE_NANOSECONDS = 300000 };
enum { ROWS_ROOM = PLAIN_ROWS * PLAIN_LENGTH, BATCH = 10000, BATCH_ROOM = BATCH * PLAIN_ENTRIES, PAINT = 0xC3 };
enum { STOPPED = 2, PACKS = 65536 };

typedef struct {
    uint64_t q, n, k;
} setting;

#define SETTING_FORMAT "%" PRIu64 ",%" PRIu64 ",%" PRIu64
#define SETTING_VALUES(s) (s).q, (s).n, (s).k
#define COUNT_OF(array) (sizeof(array) / sizeof *(array))

/* False in the mode that compares answers alone. */
static bool timed = true;

/* Ends the bench over what no error number tells. */
static void stop(const char *what, const char *why)
{
    fprintf(stderr, "%s: %s\n", what, why);
    exit(STOPPED);
}

/* ---- Prepared inputs ---- */

static setting now;
static uint64_t numbering, row_count;
static uint64_t indexes[INPUTS];
static uint8_t matrices[INPUTS][PLAIN_ENTRIES], rows[INPUTS][ROWS_ROOM], out[PLAIN_ENTRIES], answer[PLAIN_ANSWER];
static setting counted[INPUTS];

/* The same receiver for both sides, and the row that it takes, which is offered for its pack. */
static harness_receiver receivers[INPUTS];
static plain_receiver plain_receivers[INPUTS];
static uint8_t taken[INPUTS][PLAIN_LENGTH];

/* A list of indexes, and what it is drawn to. */
static uint64_t batch_indexes[BATCH];
static uint8_t batch_matrices[BATCH_ROOM], batch_answers[BATCH];

/* What the calls answer goes here, so that none is left out by the compiler. */
static volatile uint64_t sink;
static harness_step step;
static plain_step other_step;

static uint64_t random_state = UINT64_C(0x9E3779B97F4A7C15);

static uint64_t random_next(void)
{
    random_state ^= random_state >> 12;
    random_state ^= random_state << 25;
    random_state ^= random_state >> 27;
    return random_state * UINT64_C(0x2545F4914F6CDD1D);
}

static uint64_t random_below(uint64_t bound)
{
    return (random_next() >> 1) % bound;
}

static size_t width(void)
{
    return (size_t)(now.k * now.n);
}

static size_t rows_length(void)
{
    return (size_t)(row_count * now.n);
}

static size_t square(void)
{
    return (size_t)(now.n * now.n);
}

/* A random linear combination of the matrix's rows: each is taken away a random number of times. */
static void mix(const uint8_t *matrix, uint8_t *row)
{
    memset(row, 0, (size_t)now.n);
    for (uint64_t at = 0; at < now.k; at++) {
        uint64_t factor = random_below(now.q);
        for (uint64_t column = 0; column < now.n; column++)
            row[column] = plain_fields[now.q].less_product[factor][matrix[at * now.n + column]][row[column]];
    }
}

/* Random linear combinations of the matrix that have its span. */
static void mix_matrix(const uint8_t *matrix, uint8_t *mixed)
{
    do
        for (uint64_t row = 0; row < row_count; row++)
            mix(matrix, mixed + row * now.n);
    while (plain_reduce(now.q, now.n, row_count, mixed, rows_length(), out, square()).dimension != now.k);
}

static void prepare(setting s, uint64_t chosen, uint64_t mixed_rows)
{
    uint64_t count = plain_count(s.q, s.n, s.k).value;
    now = s;
    numbering = chosen;
    row_count = mixed_rows;
    for (unsigned input = 0; input < INPUTS; input++) {
        indexes[input] = random_next() % count;
        plain_draw(now.q, now.n, now.k, numbering, indexes[input], matrices[input], width());
        if (row_count > 0)
            mix_matrix(matrices[input], rows[input]);
    }
}

static void prepare_batch(void)
{
    uint64_t count = plain_count(now.q, now.n, now.k).value;
    for (unsigned place = 0; place < BATCH; place++)
        batch_indexes[place] = random_next() % count;
}

static void prepare_reduce(uint64_t q, uint64_t n)
{
    now = (setting){q, n, n};
    row_count = PLAIN_ROWS;
    for (unsigned input = 0; input < INPUTS; input++)
        for (size_t place = 0; place < rows_length(); place++)
            rows[input][place] = (uint8_t)random_below(q);
}

/* Receivers that have taken rows of the matrix until they have as many dimensions. */
static void prepare_receiver(unsigned input, uint64_t dimension)
{
    uint8_t row[PLAIN_LENGTH];
    plain_receiver receiver = plain_start(now.q, now.n, now.k, random_below(PACKS)).receiver;
    while (receiver.dimension < dimension) {
        mix(matrices[input], row);
        receiver = plain_take(receiver, receiver.pack, row, (size_t)now.n).receiver;
    }
    plain_receivers[input] = receiver;
    memcpy(&receivers[input], &receiver, sizeof receiver);
}

/* Receivers of 0 to k dimensions by turns, and a further row for each: what a session of so many rows meets. */
static void prepare_takes(setting s)
{
    prepare(s, PLAIN_EXTENDED, PLAIN_ROWS);
    for (unsigned input = 0; input < INPUTS; input++) {
        prepare_receiver(input, input % (s.k + 1));
        mix(matrices[input], taken[input]);
    }
}

/* The same receivers, and a row of zeros for each. */
static void prepare_idles(setting s)
{
    prepare_takes(s);
    memset(taken, 0, sizeof taken);
}

static void prepare_closes(setting s, uint64_t chosen)
{
    prepare(s, chosen, 0);
    for (unsigned input = 0; input < INPUTS; input++)
        prepare_receiver(input, s.k);
}

static void prepare_counts(void)
{
    for (unsigned input = 0; input < INPUTS; input++) {
        uint64_t n = 1 + random_below(PLAIN_LENGTH);
        counted[input] = (setting){plain_sizes[random_below(PLAIN_SIZES)], n, random_below(n + 1)};
    }
}

/* ---- Calls: each takes an input, and answers a number to compare ---- */

static uint64_t draw_library(unsigned input)
{
    return pandrwyg_draw(now.q, now.n, now.k, numbering, indexes[input], out, width()) + out[0];
}

static uint64_t draw_plain(unsigned input)
{
    return plain_draw(now.q, now.n, now.k, numbering, indexes[input], out, width()) + out[0];
}

/* The first so many indexes of the list in one call. */
static uint64_t batch_library_of(size_t count)
{
    return pandrwyg_draw_batch(now.q, now.n, now.k, numbering, batch_indexes, count, batch_matrices, count * width(),
                               batch_answers, count);
}

static uint64_t batch_library(unsigned input)
{
    (void)input;
    return batch_library_of(BATCH);
}

static uint64_t batch_plain(unsigned input)
{
    (void)input;
    return plain_draw_batch(now.q, now.n, now.k, numbering, batch_indexes, BATCH, batch_matrices, BATCH * width(),
                            batch_answers, BATCH);
}

static uint64_t batch_alone(unsigned input)
{
    const size_t length = width();
    (void)input;
    for (size_t place = 0; place < BATCH; place++)
        batch_answers[place] = (uint8_t)pandrwyg_draw(now.q, now.n, now.k, numbering, batch_indexes[place],
                                                      batch_matrices + place * length, length);
    return 0;
}

static uint64_t number_library(unsigned input)
{
    return harness_number(now.q, now.n, now.k, numbering, matrices[input], width()).value;
}

static uint64_t number_plain(unsigned input)
{
    return plain_number(now.q, now.n, now.k, numbering, matrices[input], width()).value;
}

static uint64_t convert_library(unsigned input)
{
    return harness_convert(now.q, now.n, now.k, numbering, PLAIN_EXTENDED + PLAIN_FERRERS - numbering,
                           indexes[input]).value;
}

static uint64_t convert_plain(unsigned input)
{
    return plain_convert(now.q, now.n, now.k, numbering, PLAIN_EXTENDED + PLAIN_FERRERS - numbering,
                         indexes[input]).value;
}

static uint64_t count_library(unsigned input)
{
    return harness_count(counted[input].q, counted[input].n, counted[input].k).value;
}

static uint64_t count_plain(unsigned input)
{
    return plain_count(counted[input].q, counted[input].n, counted[input].k).value;
}

static uint64_t reduce_library(unsigned input)
{
    harness_answer told = harness_reduce(now.q, now.n, row_count, rows[input], rows_length(), out, square());
    return told.dimension << 16 | told.vector;
}

static uint64_t reduce_plain(unsigned input)
{
    plain_answer told = plain_reduce(now.q, now.n, row_count, rows[input], rows_length(), out, square());
    return told.dimension << 16 | told.vector;
}

static uint64_t reduce_packed(unsigned input)
{
    plain_answer told = packed_reduce(now.q, now.n, row_count, rows[input], rows_length(), out, square());
    return told.dimension << 16 | told.vector;
}

/* An input's rows and those of the next. */
static uint64_t distance_library(unsigned input)
{
    const uint8_t *others = rows[(input + 1) % INPUTS];
    return harness_distance(now.q, now.n, row_count, rows[input], rows_length(), row_count, others, rows_length()).value;
}

static uint64_t distance_plain(unsigned input)
{
    const uint8_t *others = rows[(input + 1) % INPUTS];
    return plain_distance(now.q, now.n, row_count, rows[input], rows_length(), row_count, others, rows_length()).value;
}

static uint64_t received(uint32_t refusal)
{
    uint64_t index;
    memcpy(&index, answer, sizeof index);
    return index + refusal + answer[8] + ((uint64_t)answer[9] << 8) + ((uint64_t)answer[10] << 16);
}

static uint64_t receive_library(unsigned input)
{
    return received(pandrwyg_receive(now.q, now.n, now.k, numbering, row_count, rows[input], rows_length(), answer,
                                     sizeof answer));
}

static uint64_t receive_plain(unsigned input)
{
    return received(plain_receive(now.q, now.n, now.k, numbering, row_count, rows[input], rows_length(), answer,
                                  sizeof answer));
}

static uint64_t receive_packed(unsigned input)
{
    return received(packed_receive(now.q, now.n, now.k, numbering, row_count, rows[input], rows_length(), answer,
                                   sizeof answer));
}

static uint64_t take_library(unsigned input)
{
    step = harness_take(receivers[input], receivers[input].pack, taken[input], (size_t)now.n);
    return step.idle << 9 | step.raised << 8 | step.receiver.dimension;
}

static uint64_t lent_library(unsigned input)
{
    step = harness_take_lent(receivers[input], receivers[input].pack, taken[input], (size_t)now.n);
    return step.idle << 9 | step.raised << 8 | step.receiver.dimension;
}

static uint64_t take_plain(unsigned input)
{
    other_step = plain_take(plain_receivers[input], plain_receivers[input].pack, taken[input], (size_t)now.n);
    return other_step.idle << 9 | other_step.raised << 8 | other_step.receiver.dimension;
}

static uint64_t close_library(unsigned input)
{
    harness_answer told = harness_close(receivers[input], numbering);
    return told.value + told.vector;
}

static uint64_t close_plain(unsigned input)
{
    plain_answer told = plain_close(plain_receivers[input], numbering);
    return told.value + told.vector;
}

#ifdef WITH_FLINT
static nmod_mat_t flint_matrices[INPUTS], flint_work;

static void prepare_flint(void)
{
    for (unsigned input = 0; input < INPUTS; input++) {
        nmod_mat_init(flint_matrices[input], (slong)row_count, (slong)now.n, now.q);
        for (uint64_t place = 0; place < row_count * now.n; place++)
            nmod_mat_entry(flint_matrices[input], place / now.n, place % now.n) = rows[input][place];
    }
    nmod_mat_init(flint_work, (slong)row_count, (slong)now.n, now.q);
}

static void clear_flint(void)
{
    for (unsigned input = 0; input < INPUTS; input++)
        nmod_mat_clear(flint_matrices[input]);
    nmod_mat_clear(flint_work);
}

/* FLINT reduces in place, so that each matrix is copied first. */
static uint64_t reduce_flint(unsigned input)
{
    nmod_mat_set(flint_work, flint_matrices[input]);
    return (uint64_t)nmod_mat_rref(flint_work);
}

/* An entry of the first n rows of FLINT's reduced matrix; rows that it lacks are zeros in the library's. */
static uint64_t flint_entry(size_t place)
{
    return place < rows_length() ? nmod_mat_entry(flint_work, place / now.n, place % now.n) : 0;
}

/* Whether the library tells FLINT's rank and leaves its reduced matrix. */
static bool flint_agrees(unsigned input)
{
    memset(out, PAINT, sizeof out);
    harness_answer told = harness_reduce(now.q, now.n, row_count, rows[input], rows_length(), out, square());
    if (told.refusal != PLAIN_DONE || told.dimension != reduce_flint(input))
        return false;
    for (size_t place = 0; place < square(); place++)
        if (out[place] != flint_entry(place))
            return false;
    return true;
}
#endif

/* ---- The list programs ---- */

static const char library_list[] = "target/bin/list", other_list[] = "target/bench/list";

/* The file that holds the settings line, and the end that takes the listings of timed runs. */
static int line_end, null_end;

/* Runs a program over the settings line; whether it exits with status 0. */
static bool list(const char *program, int listing_end)
{
    lseek(line_end, 0, SEEK_SET);
    return program_wait(program_start(program, line_end, listing_end)) == 0;
}

static void prepare_list(setting s)
{
    off_t start = lseek(line_end, 0, SEEK_SET);
    int length = dprintf(line_end, SETTING_FORMAT "\n", SETTING_VALUES(s));
    if (start != 0 || ftruncate(line_end, length) != 0)
        program_trouble("the settings line");
}

/* Whether two files have the same bytes, and so many lines. */
static bool same_lines(FILE *one, FILE *two, uint64_t count)
{
    uint64_t lines = 0;
    int byte;
    rewind(one);
    rewind(two);
    while ((byte = getc(one)) == getc(two) && byte != EOF)
        lines += byte == '\n';
    return feof(one) && feof(two) && lines == count;
}

/* Whether both programs list, and the same: a first line, and one for each space. */
static bool lists_agree(uint64_t count)
{
    FILE *one = tmpfile(), *two = tmpfile();
    if (one == NULL || two == NULL)
        program_trouble("the files for the listings");
    bool same = list(library_list, fileno(one)) && list(other_list, fileno(two)) && same_lines(one, two, count + 1);
    fclose(one);
    fclose(two);
    return same;
}

static uint64_t list_timed(const char *program)
{
    if (!list(program, null_end))
        stop(program, "the program fails");
    return 0;
}

static uint64_t list_library(unsigned input)
{
    (void)input;
    return list_timed(library_list);
}

static uint64_t list_plain(unsigned input)
{
    (void)input;
    return list_timed(other_list);
}

/* ---- Answers ---- */

typedef uint64_t timed_call(unsigned input);

/* Counts a line of the table, by whether its answers agree. Where times are taken, a difference ends the bench. */
static void judge(const char *name, bool agree)
{
    const char *line = name + strspn(name, " ");
    if (timed && !agree)
        stop(line, "the answers differ");
    check_group_begin("%s", line);
    check(agree, "the answers differ");
    check_group_end();
}

/* All that a call but a batch leaves, and the number that it answers. */
typedef struct {
    uint64_t number;
    uint8_t out[PLAIN_ENTRIES], answer[PLAIN_ANSWER];
} outcome;

static outcome outcome_of(timed_call *call, unsigned input)
{
    outcome left = {0};
    memset(out, PAINT, sizeof out);
    memset(answer, PAINT, sizeof answer);
    left.number = call(input);
    memcpy(left.out, out, sizeof out);
    memcpy(left.answer, answer, sizeof answer);
    return left;
}

/* Whether both answer and leave the same; after Take the receivers too, which are as long on both sides. */
static bool outcomes_agree(timed_call *library, timed_call *other)
{
    for (unsigned input = 0; input < INPUTS; input++) {
        outcome one = outcome_of(library, input), two = outcome_of(other, input);
        if (one.number != two.number || memcmp(one.out, two.out, sizeof one.out) != 0 ||
            memcmp(one.answer, two.answer, sizeof one.answer) != 0 ||
            memcmp(&step.receiver, &other_step.receiver, sizeof other_step.receiver) != 0)
            return false;
    }
    return true;
}

static void paint_batch(void)
{
    memset(batch_matrices, PAINT, sizeof batch_matrices);
    memset(batch_answers, PAINT, sizeof batch_answers);
}

/* Draws the batch in one call and otherwise; whether both leave the same in all of the painted memory. */
static bool batches_agree(timed_call *other)
{
    static uint8_t matrices_left[BATCH_ROOM], answers_left[BATCH];
    paint_batch();
    uint64_t refusal = batch_library(0);
    memcpy(matrices_left, batch_matrices, sizeof matrices_left);
    memcpy(answers_left, batch_answers, sizeof answers_left);
    paint_batch();
    return refusal == other(0) && memcmp(matrices_left, batch_matrices, sizeof matrices_left) == 0 &&
           memcmp(answers_left, batch_answers, sizeof answers_left) == 0;
}

/* ---- Time ---- */

static double nanoseconds(void)
{
    struct timespec time;
    clock_gettime(CLOCK_MONOTONIC, &time);
    return (double)time.tv_sec * 1e9 + (double)time.tv_nsec;
}

/* The time of so many rounds over the inputs. */
static double sample(timed_call *call, unsigned inputs, uint64_t rounds)
{
    double start = nanoseconds();
    for (uint64_t round = 0; round < rounds; round++)
        for (unsigned input = 0; input < inputs; input++)
            sink += call(input);
    return nanoseconds() - start;
}

static double lesser(double one, double two)
{
    return one < two ? one : two;
}

/* Warms up, and answers how many rounds make a sample long enough. */
static uint64_t calibrate(timed_call *call, unsigned inputs)
{
    uint64_t rounds = 1;
    while (sample(call, inputs, rounds) < SAMPLE_NANOSECONDS)
        rounds *= 2;
    return rounds;
}

/* The worst ratio of each call, and at which line. */
static struct {
    const char *call;
    char line[64];
    double ratio;
} worst[24];

static void note_worst(const char *call, const char *line, double ratio)
{
    unsigned place = 0;
    while (place + 1 < COUNT_OF(worst) && worst[place].call != NULL && strcmp(worst[place].call, call) != 0)
        place++;
    if (ratio <= worst[place].ratio)
        return;
    worst[place].call = call;
    worst[place].ratio = ratio;
    snprintf(worst[place].line, sizeof worst[place].line, "%s", line);
}

static void report(const char *kind, const char *name, double library_time, double other_time)
{
    printf("%-44s %12.1f %12.1f %9.2f\n", name, library_time, other_time, library_time / other_time);
    note_worst(kind, name, library_time / other_time);
}

/* Times two calls by turns, from so many samples of each. */
static void measure(timed_call *first, timed_call *second, unsigned inputs, unsigned samples, double times[2])
{
    uint64_t first_rounds = calibrate(first, inputs), second_rounds = calibrate(second, inputs);
    times[0] = times[1] = 1e18;
    for (unsigned turn = 0; turn < samples; turn++) {
        times[0] = lesser(times[0], sample(first, inputs, first_rounds) / (double)(first_rounds * inputs));
        times[1] = lesser(times[1], sample(second, inputs, second_rounds) / (double)(second_rounds * inputs));
    }
}

/* Tells the times of calls of so many units each. */
static void time_units(const char *kind, const char *name, unsigned inputs, unsigned samples, uint64_t units,
                       timed_call *library, timed_call *other)
{
    double times[2];
    if (!timed)
        return;
    measure(library, other, inputs, samples, times);
    report(kind, name, times[0] / (double)units, times[1] / (double)units);
}

/* ---- Answers, then times ---- */

static void compare_inputs(const char *kind, const char *name, timed_call *library, timed_call *other)
{
    judge(name, outcomes_agree(library, other));
    time_units(kind, name, INPUTS, SAMPLES, 1, library, other);
}

/* A line's name: the call, at the settings and numbering of now. */
static const char *line_name(const char *call)
{
    static char name[64];
    snprintf(name, sizeof name, "%s " SETTING_FORMAT " %s", call, SETTING_VALUES(now),
             numbering == PLAIN_EXTENDED ? "extended" : "Ferrers");
    return name;
}

/* The calls of one kind. */
static void compare(const char *kind, const char *call, timed_call *library, timed_call *other)
{
    compare_inputs(kind, line_name(call), library, other);
}

static void compare_batch(const char *kind, const char *call, timed_call *other)
{
    const char *name = line_name(call);
    judge(name, batches_agree(other));
    time_units(kind, name, 1, BATCH_SAMPLES, BATCH, batch_library, other);
}

static void compare_receive(setting s, uint64_t chosen, uint64_t mixed_rows)
{
    char call[32];
    bool few = mixed_rows == s.k;
    prepare(s, chosen, mixed_rows);
    snprintf(call, sizeof call, "receive %" PRIu64 " rows", mixed_rows);
    compare(few ? "receive k rows" : "receive 64 rows", call, receive_library, receive_plain);
    if (s.q == 2)
        compare(few ? "receive k, packed" : "receive 64, packed", few ? "  packed, k rows" : "  packed, 64 rows",
                receive_library, receive_packed);
}

/* The calls that take a numbering. */
static void compare_numbering(setting s, uint64_t chosen)
{
    prepare(s, chosen, 0);
    compare("draw", "draw", draw_library, draw_plain);
    prepare_batch();
    compare_batch("draw batch", "draw batch", batch_plain);
    compare_batch("draw batch, draw alone", "  draw alone", batch_alone);
    compare("number", "number", number_library, number_plain);
    compare("convert", "convert from", convert_library, convert_plain);
    compare_receive(s, chosen, s.k);
    compare_receive(s, chosen, PLAIN_ROWS);
    prepare_closes(s, chosen);
    compare("close", "close", close_library, close_plain);
}

static void compare_take(setting s, const char *form, timed_call *library)
{
    char name[64];
    double times[2];
    prepare_takes(s);
    snprintf(name, sizeof name, "%s " SETTING_FORMAT, form, SETTING_VALUES(s));
    compare_inputs(form, name, library, take_plain);
    if (!timed)
        return;
    measure(library, receive_library, INPUTS, SAMPLES, times);
    snprintf(name, sizeof name, "  a row of receive " SETTING_FORMAT, SETTING_VALUES(s));
    report("take, a row of receive", name, times[0], times[1] / PLAIN_ROWS);
}

static void compare_idle(setting s)
{
    char name[64];
    prepare_idles(s);
    snprintf(name, sizeof name, "take by value, idle row " SETTING_FORMAT, SETTING_VALUES(s));
    compare_inputs("take by value, idle row", name, take_library, take_plain);
}

/* The distance of two lists of now's rows, which span d dimensions each. */
static void compare_distance(uint64_t d)
{
    char name[64];
    snprintf(name, sizeof name, "distance 64 rows q=%" PRIu64 " n=%" PRIu64 " d=%" PRIu64, now.q, now.n, d);
    compare_inputs("distance", name, distance_library, distance_plain);
    snprintf(name, sizeof name, "  reduce q=%" PRIu64 " n=%" PRIu64 " d=%" PRIu64, now.q, now.n, d);
    time_units("distance, reduce", name, INPUTS, SAMPLES, 1, distance_library, reduce_library);
}

static void compare_setting(setting s)
{
    compare_numbering(s, PLAIN_EXTENDED);
    compare_numbering(s, PLAIN_FERRERS);
    compare_take(s, "take by value", take_library);
    compare_take(s, "take lent", lent_library);
    compare_distance(s.k);
    compare_idle(s);
}

#ifdef WITH_FLINT
static bool reduced_agree(void)
{
    for (unsigned input = 0; input < INPUTS; input++)
        if (!flint_agrees(input))
            return false;
    return true;
}

/* The rows of now, over a prime. */
static void compare_flint(void)
{
    char name[64];
    snprintf(name, sizeof name, "  FLINT q=%" PRIu64 " n=%" PRIu64, now.q, now.n);
    prepare_flint();
    judge(name, reduced_agree());
    time_units("reduce, FLINT", name, INPUTS, SAMPLES, 1, reduce_library, reduce_flint);
    clear_flint();
}
#endif

static void compare_reduce(uint64_t q, uint64_t n)
{
    char name[64];
    prepare_reduce(q, n);
    snprintf(name, sizeof name, "reduce 64 rows q=%" PRIu64 " n=%" PRIu64, q, n);
    compare_inputs("reduce", name, reduce_library, reduce_plain);
    snprintf(name, sizeof name, "  packed q=%" PRIu64 " n=%" PRIu64, q, n);
    if (q == 2)
        compare_inputs("reduce, packed", name, reduce_library, reduce_packed);
#ifdef WITH_FLINT
    if (q != 4 && q != 8)
        compare_flint();
#endif
}

static void compare_reduces(void)
{
    for (unsigned place = 0; place < PLAIN_SIZES; place++) {
        for (uint64_t n = 1; n <= PLAIN_LENGTH; n++)
            compare_reduce(plain_sizes[place], n);
        compare_distance(now.n);
    }
}

static void compare_list(setting s)
{
    char name[64];
    uint64_t count = plain_count(s.q, s.n, s.k).value;
    prepare_list(s);
    snprintf(name, sizeof name, "list " SETTING_FORMAT ", a line of %" PRIu64, SETTING_VALUES(s), count);
    judge(name, lists_agree(count));
    time_units("list", name, 1, SAMPLES, count, list_library, list_plain);
}

static void compare_lists(void)
{
    FILE *line = tmpfile();
    null_end = open("/dev/null", O_WRONLY);
    if (line == NULL || null_end == NO_END)
        program_trouble("the ends of the list programs");
    if (access(library_list, X_OK) != 0)
        program_trouble(library_list);
    line_end = fileno(line);
    compare_list((setting){2, 16, 15});
    compare_list((setting){2, 16, 1});
    close(null_end);
    fclose(line);
}

static void compare_all(void)
{
    static const setting chosen[] = {{2, 6, 3}, {2, 16, 6}, {2, 16, 10}, {3, 12, 5}, {4, 10, 4}, {4, 16, 2}, {5, 10, 4},
                                     {7, 9, 4}, {8, 8, 3}};
    prepare_counts();
    compare_inputs("count", "count, 64 settings", count_library, count_plain);
    for (unsigned place = 0; place < COUNT_OF(chosen); place++)
        compare_setting(chosen[place]);
    compare_reduces();
    compare_lists();
}

/* ---- Stack ---- */

enum { STACK_LENGTH = 1 << 20 };

static uint8_t *stack;
static ucontext_t outer, inner;

static void call_nothing(void)
{
}

static void call_draw(void)
{
    sink += draw_library(0);
}

/* Three indexes, of which one is N or more. */
static void call_batch(void)
{
    batch_indexes[0] = indexes[0];
    batch_indexes[1] = UINT64_MAX;
    batch_indexes[2] = indexes[1];
    sink += batch_library_of(3);
}

static void call_receive(void)
{
    sink += receive_library(0);
}

/* Runs a call on a painted stack and answers how many bytes, from the top to the deepest written, it reached. */
static size_t stack_reach(void (*call)(void))
{
    memset(stack, PAINT, STACK_LENGTH);
    getcontext(&inner);
    inner.uc_stack.ss_sp = stack;
    inner.uc_stack.ss_size = STACK_LENGTH;
    inner.uc_link = &outer;
    makecontext(&inner, call, 0);
    swapcontext(&outer, &inner);
    size_t untouched = 0;
    while (untouched < STACK_LENGTH && stack[untouched] == PAINT)
        untouched++;
    return STACK_LENGTH - untouched;
}

/* The most that a call uses over all accepted settings, without what an empty call uses. */
static size_t stack_use(void (*call)(void))
{
    size_t most = 0, empty = stack_reach(call_nothing);
    for (unsigned code = 0; code < 9 * 17 * 17 * 2; code++) {
        setting s = {code % 9, code / 9 % 17, code / 9 / 17 % 17};
        if (plain_count(s.q, s.n, s.k).refusal != PLAIN_DONE)
            continue;
        prepare(s, 1 + code / 9 / 17 / 17, PLAIN_ROWS);
        call();
        size_t reach = stack_reach(call);
        most = reach > most ? reach : most;
    }
    return most - empty;
}

/* ---- The two modes ---- */

static int tell_times(void)
{
    printf("%-44s %12s %12s %9s\n", "call", "library ns", "other ns", "ratio");
    compare_all();
    printf("\nthe highest ratio of each call:\n");
    for (unsigned place = 0; place < COUNT_OF(worst) && worst[place].call != NULL; place++)
        printf("  %-24s %6.2f  %s\n", worst[place].call, worst[place].ratio, worst[place].line);
    stack = malloc(STACK_LENGTH);
    if (stack == NULL)
        return 1;
    printf("stack of draw, all settings: %zu bytes\n", stack_use(call_draw));
    printf("stack of draw batch, all settings: %zu bytes\n", stack_use(call_batch));
    printf("stack of receive of 64 rows, all settings: %zu bytes\n", stack_use(call_receive));
    free(stack);
    return 0;
}

static int tell_answers(void)
{
    compare_all();
#ifndef WITH_FLINT
    puts("FLINT is not installed: no comparison with it");
#endif
    return check_summary("bench");
}

int main(int argument_count, char **arguments)
{
    timed = argument_count < 2;
    if (argument_count > 2 || (!timed && strcmp(arguments[1], "answers") != 0)) {
        fputs("usage: bench [answers]\n", stderr);
        return STOPPED;
    }
    plain_init();
    return timed ? tell_times() : tell_answers();
}
