#include "pandrwyg.h"
#include <stdio.h>

int main(void)
{
    const uint8_t rows[3 * 6] = {0, 1, 1, 1, 0, 1,  0, 0, 0, 1, 1, 1,  0, 0, 0, 1, 0, 0};
    uint8_t answer[PANDRWYG_ANSWER_SIZE];
    uint32_t refusal = pandrwyg_receive(2, 6, 3, PANDRWYG_EXTENDED, 3, rows, sizeof rows, answer, sizeof answer);
    if (refusal == PANDRWYG_DONE)
        printf("index %llu, dimension %u, identifying vector %u\n", (unsigned long long)pandrwyg_answer_index(answer),
               pandrwyg_answer_dimension(answer), pandrwyg_answer_vector(answer));
    return (int)refusal;
}
