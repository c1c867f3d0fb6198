/*
 * A file in both languages that uses all of the header, for tests/header.sh. With IGNORE it passes over the result of the
 * call of that name, which the compiler must warn about.
 */
#include "pandrwyg.h"

#if defined(pandrwyg_draw) || defined(pandrwyg_draw_batch) || defined(pandrwyg_receive)
#error "a macro renames a call"
#endif

uint32_t use_calls(const uint64_t *indexes, uint8_t *matrix, uint8_t *answer, size_t length);
uint32_t use_readers(const uint8_t *answer);
void ignore(uint8_t *buffer);

uint32_t use_calls(const uint64_t *indexes, uint8_t *matrix, uint8_t *answer, size_t length)
{
    if (pandrwyg_draw(2, 6, 3, PANDRWYG_EXTENDED, indexes[0], matrix, length) != PANDRWYG_DONE)
        return PANDRWYG_LENGTH;
    if (pandrwyg_draw_batch(2, 6, 3, PANDRWYG_FERRERS, indexes, 1, matrix, length, answer, 1) != PANDRWYG_DONE)
        return PANDRWYG_LENGTH;
    return pandrwyg_receive(2, 6, 3, PANDRWYG_EXTENDED, 3, matrix, length, answer, PANDRWYG_ANSWER_SIZE);
}

uint32_t use_readers(const uint8_t *answer)
{
    return pandrwyg_answer_index(answer) == 0 ? pandrwyg_answer_dimension(answer) : pandrwyg_answer_vector(answer);
}

void ignore(uint8_t *buffer)
{
    (void)buffer;
#if defined(IGNORE_draw)
    pandrwyg_draw(2, 6, 3, PANDRWYG_EXTENDED, 928, buffer, 18);
#elif defined(IGNORE_draw_batch)
    uint64_t index = 928;
    pandrwyg_draw_batch(2, 6, 3, PANDRWYG_EXTENDED, &index, 1, buffer, 18, buffer + 18, 1);
#elif defined(IGNORE_receive)
    pandrwyg_receive(2, 6, 3, PANDRWYG_EXTENDED, 3, buffer, 18, buffer + 18, PANDRWYG_ANSWER_SIZE);
#endif
}
