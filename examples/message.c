#include "message.h"

#include <stdarg.h>
#include <stdbool.h>
#include <stdlib.h>
#include <string.h>

/* ---- Refusals ---- */

/* Document 01's words for the refusals of Draw and Receive. */
static const char *const refusal_words[] = {
    [PANDRWYG_FIELD_SIZE] = "q is none of 2, 3, 4, 5, 7 and 8",
    [PANDRWYG_SHAPE] = "n is outside 1 to 16 or k exceeds n",
    [PANDRWYG_COUNT] = "the number of spaces exceeds 2^64 - 1",
    [PANDRWYG_LENGTH] = "a lent buffer has a wrong length",
    [PANDRWYG_INDEX] = "the index is not below the number of spaces",
    [PANDRWYG_ENTRY] = "an entry is q or more",
    [PANDRWYG_TOO_FEW] = "the span has fewer than k dimensions",
    [PANDRWYG_TOO_MANY] = "the span has more than k dimensions",
    [PANDRWYG_NUMBERING] = "the numbering is neither 1 nor 2",
    [PANDRWYG_ROW_COUNT] = "there are more than 64 rows",
};

_Noreturn void refuse(uint32_t refusal)
{
    bool known = refusal < sizeof refusal_words / sizeof *refusal_words && refusal_words[refusal] != NULL;
    fprintf(stderr, "%s: refused %" PRIu32 ": %s\n", program_name, refusal,
            known ? refusal_words[refusal] : "neither Draw nor Receive gives this number");
    exit((int)refusal);
}

_Noreturn void fail(const char *format, ...)
{
    va_list arguments;
    va_start(arguments, format);
    fprintf(stderr, "%s: ", program_name);
    vfprintf(stderr, format, arguments);
    fprintf(stderr, "\n");
    va_end(arguments);
    exit(FAILED);
}

/* ---- Numbers ---- */

/* Reads a decimal number below 2^64 without leading zeros, up to the end mark, and moves the text behind it. */
static bool read_number(const char **text, char end, uint64_t *number)
{
    const char *place = *text;
    *number = 0;
    for (; *place >= '0' && *place <= '9'; place++) {
        uint64_t digit = (uint64_t)(*place - '0');
        if (*number > (UINT64_MAX - digit) / 10)
            return false;
        *number = *number * 10 + digit;
    }
    bool leading_zero = **text == '0' && place != *text + 1;
    bool read = place != *text && *place == end && !leading_zero;
    *text = place + 1;
    return read;
}

uint64_t number_argument(const char *argument)
{
    uint64_t number;
    const char *text = argument;
    if (!read_number(&text, '\0', &number))
        fail("'%s' is no decimal number below 2^64 without leading zeros", argument);
    return number;
}

/* ---- Reading ---- */

void accept_settings(const message *one)
{
    /* Receive tests the settings first; accepted, no rows at all are merely too few. */
    uint8_t answer[PANDRWYG_ANSWER_SIZE];
    uint32_t refusal = pandrwyg_receive(one->q, one->n, one->k, PANDRWYG_EXTENDED, 0, NULL, 0, answer, sizeof answer);
    if (refusal != 0 && refusal != PANDRWYG_TOO_FEW)
        refuse(refusal);
}

/* Reads a line without its line feed; false at the end of the input. */
static bool read_line(char *line, int size)
{
    if (fgets(line, size, stdin) == NULL)
        return false;
    size_t length = strlen(line);
    if (length == 0 || line[length - 1] != '\n')
        fail("a line is too long or has no end: %s", line);
    line[length - 1] = '\0';
    return true;
}

static void read_settings(message *one)
{
    char line[80];
    if (!read_line(line, sizeof line))
        fail("nothing was heard");
    const char *text = line;
    if (!read_number(&text, ',', &one->q) || !read_number(&text, ',', &one->n) || !read_number(&text, '\0', &one->k))
        fail("the first line isn't q,n,k: %s", line);
}

static void read_row(uint64_t length, const char *line, uint8_t *row)
{
    if (strlen(line) != length || strspn(line, "0123456789") != length)
        fail("a row isn't %" PRIu64 " digits: %s", length, line);
    for (uint64_t place = 0; place < length; place++)
        row[place] = (uint8_t)(line[place] - '0');
}

void message_read(message *one)
{
    char line[80];
    read_settings(one);
    accept_settings(one);
    for (one->row_count = 0; one->row_count < HELD_ROWS && read_line(line, sizeof line); one->row_count++)
        read_row(one->n, line, one->rows + one->row_count * one->n);
    if (ferror(stdin))
        fail("the input broke off");
}

/* ---- Writing ---- */

void write_settings(const message *one)
{
    printf("%" PRIu64 ",%" PRIu64 ",%" PRIu64 "\n", one->q, one->n, one->k);
}

void write_row(FILE *file, uint64_t length, const uint8_t *row)
{
    for (uint64_t place = 0; place < length; place++)
        fprintf(file, "%u", row[place]);
}

void end_output(void)
{
    if (fflush(stdout) != 0 || ferror(stdout))
        fail("the output could not be written");
}
