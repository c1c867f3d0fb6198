/*
 * What comes before and after main on a controller without a C library: the vectors, the start, what the compiler and
 * the library ask of a C library, and the end, which an emulator or a debugger is told by semihosting. A firmware that
 * has its maker's start-up files and a C library needs nothing of this.
 */
#include <stddef.h>
#include <stdint.h>

int main(void);

/* ---- What is asked of a C library, also by the names of ARM's run-time ABI ---- */

void *memcpy(void *restrict to, const void *restrict from, size_t length)
{
    for (size_t place = 0; place < length; place++)
        ((uint8_t *)to)[place] = ((const uint8_t *)from)[place];
    return to;
}

void *memset(void *to, int filling, size_t length)
{
    for (size_t place = 0; place < length; place++)
        ((uint8_t *)to)[place] = (uint8_t)filling;
    return to;
}

void __aeabi_memcpy(void *restrict to, const void *restrict from, size_t length)
{
    memcpy(to, from, length);
}

void __aeabi_memclr(void *to, size_t length)
{
    memset(to, 0, length);
}

/* What is aligned as a word is. */
void __aeabi_memclr4(void *to, size_t length)
{
    for (size_t place = 0; place < length / 4; place++)
        ((uint32_t *)to)[place] = 0;
    memset((uint8_t *)to + length / 4 * 4, 0, length % 4);
}

/* ---- The end and the start ---- */

enum { SYS_EXIT = 0x18, EXIT_DONE = 0x20026, EXIT_FAILED = 0x20023 };

static void end(uint32_t reason)
{
    register uint32_t r0 __asm__("r0") = SYS_EXIT;
    register uint32_t r1 __asm__("r1") = reason;
    for (;;)
        __asm__ volatile("bkpt 0xab" : "+r"(r0) : "r"(r1) : "memory");
}

static void fault(void)
{
    end(EXIT_FAILED);
}

/* Of the linker's script. */
extern uint32_t data_begin[], data_end[], bss_begin[], bss_end[], stack_top[];
extern const uint32_t data_from[];

void reset(void)
{
    const uint32_t *from = data_from;
    for (uint32_t *to = data_begin; to < data_end; to++)
        *to = *from++;
    for (uint32_t *to = bss_begin; to < bss_end; to++)
        *to = 0;
    end(main() == 0 ? EXIT_DONE : EXIT_FAILED);
}

__attribute__((section(".vectors"), used)) static const struct {
    uint32_t *stack;
    void (*handlers[3])(void);
} vectors = {stack_top, {reset, fault, fault}};
