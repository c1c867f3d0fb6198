/*
 * Measures the library's Draw and Receive beside plain C on the emulated controller, in instructions a call, the same in
 * every run. Both are asked for the same inputs, and must answer and leave the same.
 */
#include "firmware.h"
#include "pandrwyg.h"
#include "plain.h"

#include <string.h>

enum { INPUTS = 16 };

/* In the place of a C library's, for plain C alone. */
void *memmove(void *to, const void *from, size_t length)
{
    if ((uintptr_t)to <= (uintptr_t)from)
        return memcpy(to, from, length);
    while (length-- > 0)
        ((uint8_t *)to)[length] = ((const uint8_t *)from)[length];
    return to;
}

/* ---- Inputs ---- */

typedef struct {
    uint8_t q, n, k;
} setting;

static setting now;
static uint64_t numbering, row_count, indexes[INPUTS];
static uint8_t rows[PLAIN_ROWS * PLAIN_LENGTH], left[2][PLAIN_ENTRIES];

static size_t width(void)
{
    return (size_t)now.k * now.n;
}

/* Random linear combinations of the rows of the matrix in left[0]. */
static void mix_rows(void)
{
    memset(rows, 0, sizeof rows);
    for (unsigned row = 0; row < row_count; row++)
        for (unsigned at = 0; at < now.k; at++) {
            unsigned factor = (random_next() >> 8) % now.q;
            for (unsigned column = 0; column < now.n; column++) {
                uint8_t *entry = &rows[row * now.n + column];
                *entry = plain_fields[now.q].less_product[factor][left[0][at * now.n + column]][*entry];
            }
        }
}

/* ---- Calls ---- */

static uint32_t draw_library(unsigned input, uint8_t *to)
{
    return pandrwyg_draw(now.q, now.n, now.k, numbering, indexes[input], to, width());
}

static uint32_t draw_plain(unsigned input, uint8_t *to)
{
    return plain_draw(now.q, now.n, now.k, numbering, indexes[input], to, width());
}

static uint32_t receive_library(unsigned input, uint8_t *to)
{
    (void)input;
    return pandrwyg_receive(now.q, now.n, now.k, numbering, row_count, rows, (size_t)row_count * now.n, to, PLAIN_ANSWER);
}

static uint32_t receive_plain(unsigned input, uint8_t *to)
{
    (void)input;
    return plain_receive(now.q, now.n, now.k, numbering, row_count, rows, (size_t)row_count * now.n, to, PLAIN_ANSWER);
}

typedef uint32_t call(unsigned input, uint8_t *to);

/* ---- Measures ---- */

static uint32_t failures;

static uint32_t __attribute__((noinline)) time_of(call *measured, unsigned input, uint8_t *to, uint32_t *refusal)
{
    uint32_t begin = firmware_ticks();
    *refusal = measured(input, to);
    return firmware_ticks() - begin;
}

/* Adds the ticks of both calls on the same input, and compares what they answer and leave. */
static void add_times(call *library, call *plain, unsigned input, uint32_t times[2])
{
    uint32_t refusals[2];
    memset(left[1], 0, sizeof left[1]);
    times[1] += time_of(plain, input, left[1], &refusals[1]);
    memset(left[0], 0, sizeof left[0]);
    times[0] += time_of(library, input, left[0], &refusals[0]);
    if (refusals[0] != refusals[1])
        failures++;
    for (unsigned place = 0; place < PLAIN_ENTRIES; place++)
        if (left[0][place] != left[1][place])
            failures++;
}

/* Says CALL q,n,k,numbering LIBRARY PLAIN, the last two the instructions of a call. */
static void say_times(const char *name, const uint32_t times[2])
{
    firmware_say(name);
    firmware_say(" ");
    firmware_say_setting(now.q, now.n, now.k, numbering);
    for (unsigned side = 0; side < 2; side++) {
        firmware_say(" ");
        firmware_say_number(firmware_instructions(times[side]) / INPUTS);
    }
    firmware_say("\n");
}

static void compare_draw(void)
{
    uint32_t times[2] = {0, 0};
    for (unsigned input = 0; input < INPUTS; input++) {
        indexes[input] = random_wide() % plain_gaussian[now.q][now.n][now.k];
        add_times(draw_library, draw_plain, input, times);
    }
    say_times("draw", times);
}

static void compare_receive(const char *name, uint64_t count)
{
    uint32_t times[2] = {0, 0};
    row_count = count;
    for (unsigned input = 0; input < INPUTS; input++) {
        memset(left[0], 0, sizeof left[0]);
        if (draw_library(input, left[0]) != 0)
            failures++;
        mix_rows();
        add_times(receive_library, receive_plain, input, times);
    }
    say_times(name, times);
}

int main(void)
{
    static const setting chosen[] = {{2, 6, 3}, {2, 16, 6}, {2, 16, 10}, {3, 12, 5}, {3, 16, 3}, {4, 10, 4}, {4, 16, 2},
                                     {5, 10, 4}, {7, 9, 4}, {8, 8, 3}, {8, 16, 15}};
    firmware_start_timer();
    for (unsigned place = 0; place < 2 * sizeof chosen / sizeof *chosen; place++) {
        now = chosen[place / 2];
        numbering = 1 + place % 2;
        compare_draw();
        compare_receive("receive_k", now.k);
        compare_receive("receive_64", PLAIN_ROWS);
    }
    return failures == 0 ? 0 : 1;
}
