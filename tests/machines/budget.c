/*
 * Measures the calls on the emulated controller: the most instructions and the deepest stack over all accepted settings
 * and both numberings, the same in every run. What is measured is a firmware's call through the header, arguments
 * included.
 */
#include "calls.h"
#include "firmware.h"
#include "pandrwyg.h"

#include <stdbool.h>

enum { WIDTH = 16, ROWS = 64, INDEXES = 16, KINDS = 3, STACK = 2048, PAINT = 0xC3C3C3C3 };

/* ---- The calls ---- */

static const setting *now;
static uint64_t numbering, indexes[3];
static uint8_t matrices[3 * WIDTH * WIDTH], rows[ROWS * WIDTH], answers[3], answer[PANDRWYG_ANSWER_SIZE];
static uint32_t refusal;

typedef void call(void);

static void nothing(void)
{
}

static void draw(void)
{
    refusal = pandrwyg_draw(now->q, now->n, now->k, numbering, indexes[0], matrices, (size_t)now->k * now->n);
}

static void draw_batch(void)
{
    refusal = pandrwyg_draw_batch(now->q, now->n, now->k, numbering, indexes, 3, matrices, (size_t)3 * now->k * now->n,
                                  answers, 3);
}

static void receive(void)
{
    refusal = pandrwyg_receive(now->q, now->n, now->k, numbering, ROWS, rows, (size_t)ROWS * now->n, answer, sizeof answer);
}

/* ---- Measures ---- */

/* The ticks of a call. */
static uint32_t __attribute__((noinline)) time_of(call *measured)
{
    uint32_t begin = firmware_ticks();
    measured();
    return firmware_ticks() - begin;
}

/* The bytes of stack that a call reaches below the caller's; at least STACK where it reaches that deep. */
static uint32_t __attribute__((noinline)) stack_of(call *measured)
{
    volatile uint32_t *top;
    __asm__ volatile("mov %0, sp" : "=r"(top));
    for (unsigned word = 1; word <= STACK / 4; word++)
        top[-(int)word] = PAINT;
    measured();
    unsigned deepest = STACK / 4;
    while (deepest > 0 && top[-(int)deepest] == PAINT)
        deepest--;
    return 4 * deepest;
}

typedef struct {
    const char *name;
    call *measured;
    uint32_t ticks, stack;
    setting at;
    uint64_t numbering;
} budget;

static void measure(budget *b)
{
    uint32_t took = time_of(b->measured) - time_of(nothing);
    if (took > b->ticks) {
        b->ticks = took;
        b->at = *now;
        b->numbering = numbering;
    }
    uint32_t reached = stack_of(b->measured) - stack_of(nothing);
    if (reached > b->stack)
        b->stack = reached;
}

/* ---- Inputs ---- */

/*
 * Any rows; rows that are all 0 in the first column, or in the last. Rows of n dimensions end the reduction early, so the
 * last two take longest: they have one dimension less, and each of the 64 is reduced.
 */
static void make_rows(unsigned kind)
{
    for (unsigned place = 0; place < ROWS * (unsigned)now->n; place++) {
        unsigned column = place % now->n;
        bool cleared = (kind == 1 && column == 0) || (kind == 2 && column + 1u == now->n);
        rows[place] = cleared ? 0 : (uint8_t)((random_next() >> 8) % now->q);
    }
}

/* Says NAME INSTRUCTIONS STACK q,n,k,numbering, the last where the instructions are most. */
static void say_budget(const budget *b)
{
    firmware_say(b->name);
    firmware_say(" ");
    firmware_say_number(firmware_instructions(b->ticks));
    firmware_say(" ");
    firmware_say_number(b->stack);
    firmware_say(" ");
    firmware_say_setting(b->at.q, b->at.n, b->at.k, b->numbering);
    firmware_say("\n");
}

int main(void)
{
    static budget of_draw = {.name = "draw", .measured = draw}, of_batch = {.name = "draw_batch", .measured = draw_batch},
                  of_receive = {.name = "receive", .measured = receive},
                  of_longest = {.name = "receive_longest", .measured = receive};
    firmware_start_timer();
    for (unsigned number = 0; number < 2 * SETTINGS; number++) {
        now = &settings[number / 2];
        numbering = 1 + number % 2;
        for (unsigned place = 0; place < INDEXES; place++) {
            indexes[0] = place == 0 ? 0 : place == 1 ? now->count - 1 : random_wide() % now->count;
            measure(&of_draw);
        }
        indexes[1] = now->count;
        indexes[2] = now->count - 1;
        measure(&of_batch);
        for (unsigned kind = 0; kind < KINDS; kind++) {
            make_rows(kind);
            measure(kind == 0 ? &of_receive : &of_longest);
        }
    }
    say_budget(&of_draw);
    say_budget(&of_batch);
    say_budget(&of_receive);
    say_budget(&of_longest);
    return 0;
}
