/* The second implementation under the names of the library's symbols, so that the list of calls can be made through it. */
#include "pandrwyg.h"
#include "second.h"

#include <stdbool.h>

__attribute__((constructor)) static void begin(void)
{
    second_init();
}

uint32_t pandrwyg_draw_raw(uint64_t q, uint64_t n, uint64_t k, uint64_t numbering, uint64_t index,
                           uint8_t *matrix, uint64_t length)
{
    return second_draw(q, n, k, numbering, index, matrix, length);
}

uint32_t pandrwyg_draw_batch_raw(uint64_t q, uint64_t n, uint64_t k, uint64_t numbering,
                                 const uint64_t *indexes, uint64_t index_count,
                                 uint8_t *matrices, uint64_t matrices_length, uint8_t *answers, uint64_t answers_length)
{
    return second_draw_batch(q, n, k, numbering, indexes, index_count, matrices, matrices_length, answers, answers_length);
}

/* Document 01 tests the answer's length after that of the rows, and before the entries. */
uint32_t pandrwyg_receive_raw(uint64_t q, uint64_t n, uint64_t k, uint64_t numbering, uint64_t row_count,
                              const uint8_t *rows, uint64_t rows_length, uint8_t *answer, uint64_t answer_length)
{
    uint64_t index;
    second_told told;
    uint32_t refusal = second_receive(q, n, k, numbering, row_count, rows, rows_length, &index, &told);
    bool reduced = refusal == ACCEPTED || refusal == REFUSED_TOO_FEW || refusal == REFUSED_TOO_MANY;
    if ((reduced || refusal == REFUSED_ENTRY) && answer_length != 11)
        return REFUSED_LENGTH;
    if (reduced) {
        for (unsigned byte = 0; byte < 8; byte++)
            answer[byte] = (uint8_t)(index >> 8 * byte);
        answer[8] = (uint8_t)told.dimension;
        answer[9] = (uint8_t)told.vector;
        answer[10] = (uint8_t)(told.vector >> 8);
    }
    return refusal;
}
