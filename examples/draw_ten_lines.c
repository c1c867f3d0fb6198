#include "pandrwyg.h"
#include <stdio.h>

int main(void)
{
    uint8_t matrix[3 * 6]; /* k rows of n bytes */
    uint32_t refusal = pandrwyg_draw(2, 6, 3, PANDRWYG_EXTENDED, 928, matrix, sizeof matrix);
    for (unsigned place = 0; refusal == 0 && place < sizeof matrix; place++)
        printf(place % 6 == 5 ? "%u\n" : "%u", matrix[place]);
    return (int)refusal;
}
