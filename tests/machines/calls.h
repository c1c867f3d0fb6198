/*
 * The list of calls that every machine makes, through include/pandrwyg.h, and what the machine brings for it. It needs no
 * C library. What it says is the same on every machine, digest by digest, if the calls answer and leave the same.
 */
#ifndef CALLS_H
#define CALLS_H

#include <stddef.h>
#include <stdint.h>

/* The accepted settings, with the numbers of their spaces. */
enum { SETTINGS = 669 };
typedef struct {
    uint8_t q, n, k;
    uint64_t count;
} setting;
extern const setting settings[SETTINGS];

/* Says a text; the machine's own. */
void say(const char *text);

/* Makes all calls, says what came of them, and answers how many comparisons failed. */
uint32_t make_calls(void);

#endif
