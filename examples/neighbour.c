/*
 * A neighbour: hears a message and passes on random linear combinations of its rows (document 01's "mixtures"), of
 * which some are lost on the way. The same seed gives the same mixtures and losses.
 *   neighbour MIXTURES LOST SEED
 * Each mixture is told on standard error: the factor of each row heard, the sum, and whether it is lost.
 */
#include "message.h"

#include <stdbool.h>

const char program_name[] = "neighbour";

static uint64_t random_state;

/* A number below a bound above 0, by the generator splitmix64. */
static uint64_t random_below(uint64_t bound)
{
    uint64_t mixed = random_state += UINT64_C(0x9E3779B97F4A7C15);
    mixed = (mixed ^ mixed >> 30) * UINT64_C(0xBF58476D1CE4E5B9);
    mixed = (mixed ^ mixed >> 27) * UINT64_C(0x94D049BB133111EB);
    return (mixed ^ mixed >> 31) % bound;
}

/* ---- The field ---- */

/* At 4 and 8 an entry is a polynomial in t: its bits are the coefficients, the lowest bit the constant. */
static bool has_polynomials(unsigned q)
{
    return q == 4 || q == 8;
}

/* The sum of two entries: bit by bit at 4 and 8, and modulo the other sizes, which are primes. */
static unsigned sum(unsigned q, unsigned a, unsigned b)
{
    return has_polynomials(q) ? a ^ b : (a + b) % q;
}

/* The product of two entries, at 4 reduced by t^2 + t + 1, and at 8 by t^3 + t + 1. */
static unsigned product(unsigned q, unsigned a, unsigned b)
{
    const unsigned divisor = q == 4 ? 7 : 11; /* 111 and 1011 in bits */
    unsigned result = 0;
    if (!has_polynomials(q))
        return a * b % q;
    for (; b > 0; b >>= 1) {
        if (b & 1)
            result ^= a;
        a <<= 1; /* times t */
        if (a >= q)
            a ^= divisor;
    }
    return result;
}

/* ---- Mixtures ---- */

/* There is no arithmetic with an entry of q or more, so it is refused here as it is by Receive. */
static void accept_rows(const message *heard)
{
    if (heard->row_count > MAX_ROWS)
        refuse(PANDRWYG_ROW_COUNT);
    for (uint64_t place = 0; place < heard->row_count * heard->n; place++)
        if (heard->rows[place] >= heard->q)
            refuse(PANDRWYG_ENTRY);
}

static void mix(const message *heard, const uint8_t *factors, uint8_t *mixture)
{
    const unsigned q = (unsigned)heard->q;
    for (uint64_t column = 0; column < heard->n; column++) {
        unsigned mixed = 0;
        for (uint64_t row = 0; row < heard->row_count; row++)
            mixed = sum(q, mixed, product(q, factors[row], heard->rows[row * heard->n + column]));
        mixture[column] = (uint8_t)mixed;
    }
}

static void pass_on(const message *heard, bool lost)
{
    uint8_t factors[MAX_ROWS], mixture[MAX_LENGTH];
    for (uint64_t row = 0; row < heard->row_count; row++)
        factors[row] = (uint8_t)random_below(heard->q);
    mix(heard, factors, mixture);

    fprintf(stderr, "  factors ");
    write_row(stderr, heard->row_count, factors);
    fprintf(stderr, " give ");
    write_row(stderr, heard->n, mixture);
    fprintf(stderr, lost ? ", lost\n" : "\n");
    if (lost)
        return;
    write_row(stdout, heard->n, mixture);
    printf("\n");
}

int main(int count, char **words)
{
    message heard;
    if (count != 4)
        fail("usage: neighbour MIXTURES LOST SEED");
    uint64_t mixtures = number_argument(words[1]), to_lose = number_argument(words[2]);
    random_state = number_argument(words[3]);
    if (to_lose > mixtures)
        fail("more are lost than passed on");
    message_read(&heard);
    accept_rows(&heard);

    write_settings(&heard);
    for (uint64_t left = mixtures; left > 0; left--) {
        /* Each of those left is as likely to be lost as the others, and in the end exactly LOST are. */
        bool lost = random_below(left) < to_lose;
        to_lose -= lost;
        pass_on(&heard, lost);
    }
    end_output();
    return 0;
}
