/* The list program in plain C: reads the line and writes the listing, or the refusal, as the library's program does. */
#include "plain.h"

#include <stdio.h>

enum { LISTING_LIMIT = 65536, DIGIT_LIMIT = 3, INPUT_ROOM = 16, LINE_ROOM = 320, OUTPUT_ROOM = 1 << 16 };

/* ---- The input ---- */

/* Reads a number and the byte after it; answers where the input goes on, or NULL where it has another form. */
static const uint8_t *read_number(const uint8_t *input, const uint8_t *end, uint8_t after, uint64_t *number)
{
    const uint8_t *first = input;
    *number = 0;
    while (input < end && input - first < DIGIT_LIMIT && *input >= '0' && *input <= '9')
        *number = *number * 10 + (uint64_t)(*input++ - '0');
    if (input == first || (*first == '0' && input - first > 1))
        return NULL;
    return input < end && *input == after ? input + 1 : NULL;
}

/* Whether the input is one line of three numbers. */
static bool read_line(const uint8_t *input, size_t length, uint64_t numbers[3])
{
    const uint8_t *end = input + length;
    for (unsigned place = 0; place < 3 && input != NULL; place++)
        input = read_number(input, end, place < 2 ? ',' : '\n', &numbers[place]);
    return input != NULL && input == end;
}

/* ---- The output ---- */

static char *put_number(char *text, uint64_t number)
{
    char digits[20];
    unsigned count = 0;
    do {
        digits[count++] = (char)('0' + number % 10);
        number /= 10;
    } while (number > 0);
    while (count > 0)
        *text++ = digits[--count];
    return text;
}

static void write_line(uint64_t n, uint64_t k, uint64_t extended, uint64_t ferrers, const uint8_t *matrix)
{
    char line[LINE_ROOM], *text = put_number(line, extended);
    *text++ = ',';
    text = put_number(text, ferrers);
    *text++ = ',';
    for (uint64_t row = 0; row < k; row++) {
        if (row > 0)
            *text++ = '/';
        for (uint64_t column = 0; column < n; column++)
            *text++ = (char)('0' + *matrix++);
    }
    *text++ = '\n';
    fwrite(line, 1, (size_t)(text - line), stdout);
}

static uint32_t list(uint64_t q, uint64_t n, uint64_t k)
{
    uint8_t matrix[PLAIN_ENTRIES];
    size_t length = (size_t)(k * n);
    plain_answer count = plain_count(q, n, k);
    if (count.refusal != PLAIN_DONE)
        return count.refusal;
    if (count.value > LISTING_LIMIT)
        return PLAIN_NO_LISTING;
    fputs("extended,ferrers,rows\n", stdout);
    for (uint64_t index = 0; index < count.value; index++) {
        plain_draw(q, n, k, PLAIN_EXTENDED, index, matrix, length);
        write_line(n, k, index, plain_number(q, n, k, PLAIN_FERRERS, matrix, length).value, matrix);
    }
    return PLAIN_DONE;
}

int main(void)
{
    static char buffer[OUTPUT_ROOM];
    uint8_t input[INPUT_ROOM];
    uint64_t numbers[3];
    plain_init();
    setvbuf(stdout, buffer, _IOFBF, sizeof buffer);
    bool line = read_line(input, fread(input, 1, sizeof input, stdin), numbers);
    uint32_t refusal = line ? list(numbers[0], numbers[1], numbers[2]) : PLAIN_NO_LINE;
    if (refusal != PLAIN_DONE)
        printf("refused,%u\n", refusal);
    return fflush(stdout) == 0 ? 0 : 1;
}
