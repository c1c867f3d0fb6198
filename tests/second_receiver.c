/*
 * The receiver of the second implementation: beside its settings and its pack it keeps the list of all accepted rows,
 * idle ones too, and nothing else is carried from one call to the next. Whatever is asked of it comes from Gauss-Jordan
 * elimination over that whole list, and a row is idle where the elimination over that row alone leaves no dimension.
 */
#include "second.h"

#include <string.h>

uint32_t second_start(uint64_t q, uint64_t n, uint64_t k, uint64_t pack, second_receiver *receiver)
{
    uint64_t count;
    uint32_t refusal = second_count(q, n, k, &count);
    memset(receiver, 0, sizeof *receiver);
    if (refusal != ACCEPTED)
        return refusal;
    receiver->q = q;
    receiver->n = n;
    receiver->k = k;
    receiver->pack = pack;
    return ACCEPTED;
}

uint64_t second_entries(const second_receiver *receiver, uint8_t *entries)
{
    uint64_t n = receiver->n;
    second_told told;
    memset(entries, 0, MAX_LENGTH * MAX_LENGTH);
    second_reduce(receiver->q, n, receiver->r, receiver->rows, (size_t)(receiver->r * n), entries, (size_t)(n * n),
                  &told);
    return told.dimension;
}

uint32_t second_take(second_receiver *receiver, uint64_t pack, const uint8_t *row, size_t length, second_taken *taken)
{
    uint8_t entries[MAX_LENGTH * MAX_LENGTH];
    uint64_t n = receiver->n;
    second_told alone;
    *taken = (second_taken){0, 0};
    if (pack != receiver->pack)
        return REFUSED_PACK;
    uint32_t refusal = second_reduce(receiver->q, n, 1, row, length, entries, (size_t)(n * n), &alone);
    if (refusal != ACCEPTED)
        return refusal;
    uint64_t before = second_entries(receiver, entries);
    memcpy(receiver->rows + receiver->r * n, row, length);
    receiver->r++;
    taken->raised = second_entries(receiver, entries) != before;
    taken->idle = alone.dimension == 0;
    return ACCEPTED;
}

uint32_t second_close(const second_receiver *receiver, uint64_t numbering, uint64_t *index, second_told *told)
{
    return second_receive(receiver->q, receiver->n, receiver->k, numbering, receiver->r, receiver->rows,
                          (size_t)(receiver->r * receiver->n), index, told);
}

/* A refusal, with all zeros in the receiver's place. */
static uint32_t no_receiver(second_receiver *receiver)
{
    memset(receiver, 0, sizeof *receiver);
    return REFUSED_RECEIVER;
}

uint32_t second_revive(uint64_t q, uint64_t n, uint64_t k, uint64_t pack, uint64_t dimension, const uint8_t *entries,
                       second_receiver *receiver)
{
    uint8_t reduced[MAX_LENGTH * MAX_LENGTH] = {0};
    second_told told;
    if (second_start(q, n, k, pack, receiver) != ACCEPTED || dimension > n)
        return no_receiver(receiver);
    size_t length = (size_t)(dimension * n);
    if (second_reduce(q, n, dimension, entries, length, reduced, (size_t)(n * n), &told) != ACCEPTED)
        return no_receiver(receiver);
    if (told.dimension != dimension || memcmp(reduced, entries, sizeof reduced) != 0)
        return no_receiver(receiver);
    memcpy(receiver->rows, entries, length);
    receiver->r = dimension;
    return ACCEPTED;
}
