/*
 * What the firmwares of the tests share: saying by semihosting, a debugger's channel to the host, and the timer of the
 * emulated board (an nRF51's) as a count of instructions. The emulator takes a nanosecond of the board's time for one
 * (-icount shift=0), and the timer has 16 MHz, so a tick is 62.5 instructions.
 */
#ifndef FIRMWARE_H
#define FIRMWARE_H

#include "portable.h"

static inline void firmware_say(const char *text)
{
    register uint32_t r0 __asm__("r0") = 4; /* SYS_WRITE0 */
    register const char *r1 __asm__("r1") = text;
    __asm__ volatile("bkpt 0xab" : "+r"(r0) : "r"(r1) : "memory");
}

static inline void firmware_say_number(uint64_t number)
{
    decimal_text text;
    firmware_say(decimal(&text, number));
}

/* Settings and numbering with commas between them. */
static inline void firmware_say_setting(uint64_t q, uint64_t n, uint64_t k, uint64_t numbering)
{
    const uint64_t numbers[] = {q, n, k, numbering};
    for (unsigned place = 0; place < 4; place++) {
        if (place > 0)
            firmware_say(",");
        firmware_say_number(numbers[place]);
    }
}

static volatile uint32_t *const firmware_timer = (volatile uint32_t *)0x40008000;
enum { TIMER_START = 0x000 / 4, TIMER_CAPTURE = 0x040 / 4, TIMER_BITS = 0x508 / 4, TIMER_PRESCALER = 0x510 / 4 };
enum { TIMER_CAPTURED = 0x540 / 4 };

static inline void firmware_start_timer(void)
{
    firmware_timer[TIMER_BITS] = 3; /* 32 of them */
    firmware_timer[TIMER_PRESCALER] = 0;
    firmware_timer[TIMER_START] = 1;
}

static inline uint32_t firmware_ticks(void)
{
    firmware_timer[TIMER_CAPTURE] = 1;
    return firmware_timer[TIMER_CAPTURED];
}

static inline uint64_t firmware_instructions(uint64_t ticks)
{
    return ticks * 125 / 2;
}

#endif
