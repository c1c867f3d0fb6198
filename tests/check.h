/*
 * A tiny test kit. Comparisons stand in named groups; a group passes when it made at least one comparison and none
 * failed. The first 20 failed comparisons are printed. One source file makes one program.
 */
#ifndef CHECK_H
#define CHECK_H

#include <stdarg.h>
#include <stdint.h>
#include <stdio.h>

enum { CHECK_PRINTED_LIMIT = 20 };

static struct {
    char group[120];
    uint64_t comparisons, failures;
    unsigned passed, failed, printed;
} check_state;

/* Prints a failed comparison of the group. */
__attribute__((format(printf, 1, 2))) static inline void check_fail(const char *format, ...)
{
    check_state.failures++;
    if (check_state.printed++ >= CHECK_PRINTED_LIMIT)
        return;
    va_list arguments;
    va_start(arguments, format);
    printf("  failed: %s: ", check_state.group);
    vprintf(format, arguments);
    printf("\n");
    va_end(arguments);
}

/* Compares; the format and what follows tell a failure. */
#define check(condition, ...) \
    do { \
        check_state.comparisons++; \
        if (!(condition)) \
            check_fail(__VA_ARGS__); \
    } while (0)

__attribute__((format(printf, 1, 2))) static inline void check_group_begin(const char *format, ...)
{
    va_list arguments;
    va_start(arguments, format);
    vsnprintf(check_state.group, sizeof check_state.group, format, arguments);
    va_end(arguments);
    check_state.comparisons = 0;
    check_state.failures = 0;
}

static inline void check_group_end(void)
{
    if (check_state.comparisons == 0)
        check_fail("nothing was compared");
    if (check_state.failures == 0)
        check_state.passed++;
    else
        check_state.failed++;
}

/* Prints the summary line and answers the exit status. */
static inline int check_summary(const char *name)
{
    printf("%s: %u passed, %u failed\n", name, check_state.passed, check_state.failed);
    return check_state.failed == 0 && check_state.passed > 0 ? 0 : 1;
}

#endif
