/*
 * What the example programs share: the message that travels between them, and their words for a refusal.
 *
 * A message is text. Its first line has the settings as q,n,k; each line after it is a row, one digit an entry. All
 * indexes are of the extended numbering.
 *
 * Each program's exit status is 0 for done, the number of the library's refusal, or 64 where the arguments or the
 * message can't be read or the output can't be written.
 */
#ifndef MESSAGE_H
#define MESSAGE_H

#include "pandrwyg.h"

#include <inttypes.h>
#include <stdio.h>

/* The longest row, the most rows that the library takes, and one row more, so that a 65th can be heard and refused. */
enum { MAX_LENGTH = 16, MAX_ROWS = 64, HELD_ROWS = MAX_ROWS + 1, FAILED = 64 };

typedef struct {
    uint64_t q, n, k, row_count;
    uint8_t rows[HELD_ROWS * MAX_LENGTH];
} message;

/* Each program has its name here; what it says on standard error begins with it. */
extern const char program_name[];

/* Ends the program with the library's refusal, its number and its words. */
_Noreturn void refuse(uint32_t refusal);

/* Ends the program with exit status 64. */
_Noreturn void fail(const char *format, ...) __attribute__((format(printf, 1, 2)));

/* The number that an argument of the program is. */
uint64_t number_argument(const char *argument);

/* Ends the program where the library refuses the settings. Afterwards n is at most 16 and k is at most n. */
void accept_settings(const message *one);

/* Reads a message with accepted settings from standard input, of its rows at most 65. */
void message_read(message *one);

void write_settings(const message *one);
void write_row(FILE *file, uint64_t length, const uint8_t *row);

/* Fails unless all of standard output is written. */
void end_output(void);

#endif
