/* What the programs for every machine share, without a C library: numbers as text, and pseudo-random numbers. */
#ifndef PORTABLE_H
#define PORTABLE_H

#include <stdint.h>

/* Room for the digits of a number, and their end. */
typedef struct {
    char room[21];
} decimal_text;

/* The number in decimal digits; they stand in the text, from the place that is answered. */
static inline const char *decimal(decimal_text *text, uint64_t number)
{
    unsigned place = sizeof text->room - 1;
    text->room[place] = '\0';
    do {
        text->room[--place] = (char)('0' + number % 10);
        number /= 10;
    } while (number > 0);
    return text->room + place;
}

/* Marsaglia's xorshift with 32 bits, the same on every machine. */
static uint32_t random_state = 0x9E3779B9;

static inline uint32_t random_next(void)
{
    random_state ^= random_state << 13;
    random_state ^= random_state >> 17;
    random_state ^= random_state << 5;
    return random_state;
}

static inline uint64_t random_wide(void)
{
    uint64_t high = random_next();
    uint64_t low = random_next();
    return high << 32 | low;
}

#endif
