/*
 * The list program of the second implementation: for any input the whole text that document 01 asks for. A listing
 * comes from the orders alone: all reduced matrices, sorted by either of them.
 */
#include "second.h"

#include <inttypes.h>
#include <stdbool.h>
#include <stdlib.h>
#include <string.h>

/* The most lines of a listing, and the first number that has four digits. */
enum { LISTING_LIMIT = 65536, NUMBER_LIMIT = 1000 };

/* ---- The input ---- */

/* The numbers between the first commas, whatever else stands there; 1000 stands for all that are larger. */
static void read_numbers(const uint8_t *input, size_t length, uint64_t numbers[3])
{
    unsigned number = 0;
    memset(numbers, 0, 3 * sizeof *numbers);
    for (size_t place = 0; place < length; place++) {
        if (input[place] == ',' && number < 2)
            number++;
        if (input[place] >= '0' && input[place] <= '9')
            numbers[number] = numbers[number] * 10 + (uint64_t)(input[place] - '0');
        if (numbers[number] > NUMBER_LIMIT)
            numbers[number] = NUMBER_LIMIT;
    }
}

/* Whether the input is a line of three numbers: it is what one writes for them. */
static bool is_line(const uint8_t *input, size_t length, const uint64_t numbers[3])
{
    char line[64];
    size_t written = (size_t)snprintf(line, sizeof line, "%" PRIu64 ",%" PRIu64 ",%" PRIu64 "\n", numbers[0],
                                      numbers[1], numbers[2]);
    return numbers[0] < NUMBER_LIMIT && numbers[1] < NUMBER_LIMIT && numbers[2] < NUMBER_LIMIT && length == written &&
           memcmp(input, line, length) == 0;
}

/* Refusals 11, 1, 2, 3 and 12. */
static uint32_t read_settings(const uint8_t *input, size_t length, uint64_t numbers[3], uint64_t *count)
{
    *count = 0;
    read_numbers(input, length, numbers);
    if (!is_line(input, length, numbers))
        return REFUSED_LINE;
    uint32_t refusal = second_count(numbers[0], numbers[1], numbers[2], count);
    return refusal == ACCEPTED && *count > LISTING_LIMIT ? REFUSED_LISTING : refusal;
}

/* ---- The output ---- */

static void write_line(FILE *out, uint64_t n, uint64_t k, size_t extended, size_t ferrers, const uint8_t *matrix)
{
    char rows[MAX_LENGTH * (MAX_LENGTH + 1) + 1], *end = rows;
    for (uint64_t place = 0; place < k * n; place++) {
        if (place > 0 && place % n == 0)
            *end++ = '/';
        *end++ = (char)('0' + matrix[place]);
    }
    *end = '\0';
    fprintf(out, "%zu,%zu,%s\n", extended, ferrers, rows);
}

static void list_all(FILE *out, uint64_t q, uint64_t n, uint64_t k, uint64_t count)
{
    size_t length = (size_t)(k * n), listed = 0;
    uint8_t *matrices = malloc(count * length + 1);
    size_t *ferrers = malloc(count * sizeof *ferrers);
    if (matrices != NULL && ferrers != NULL) {
        listed = second_enumerate(q, n, k, matrices);
        second_sort(q, n, k, EXTENDED, matrices, listed);
        second_indexes(q, n, k, FERRERS, matrices, listed, ferrers);
    }
    for (size_t index = 0; index < listed; index++)
        write_line(out, n, k, index, ferrers[index], matrices + index * length);
    free(matrices);
    free(ferrers);
}

uint32_t second_list(const uint8_t *input, size_t length, FILE *out)
{
    uint64_t numbers[3], count;
    uint32_t refusal = read_settings(input, length, numbers, &count);
    if (refusal != ACCEPTED) {
        fprintf(out, "refused,%u\n", refusal);
        return refusal;
    }
    fputs("extended,ferrers,rows\n", out);
    list_all(out, numbers[0], numbers[1], numbers[2], count);
    return ACCEPTED;
}
