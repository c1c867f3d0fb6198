#include "pandrwyg.h"
#include <stdio.h>

int main(void)
{
    const uint64_t indexes[3] = {5, 7, 2};
    uint8_t matrices[3 * 1 * 3], answers[3]; /* for each index, k rows of n bytes and an answer */
    uint32_t refusal = pandrwyg_draw_batch(2, 3, 1, PANDRWYG_EXTENDED, indexes, 3, matrices, sizeof matrices, answers,
                                           sizeof answers);
    for (unsigned place = 0; refusal == 0 && place < 3; place++)
        if (answers[place] == 0)
            printf("%u%u%u\n", matrices[3 * place], matrices[3 * place + 1], matrices[3 * place + 2]);
        else
            printf("refused %u\n", answers[place]);
    return (int)refusal;
}
