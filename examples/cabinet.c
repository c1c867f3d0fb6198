/*
 * A swap cabinet: hears a message and prints the record of the pack that it comes from, or how many dimensions of the
 * pack's space are still missing.
 *   cabinet
 */
#include "message.h"

const char program_name[] = "cabinet";

int main(void)
{
    message heard;
    uint8_t answer[PANDRWYG_ANSWER_SIZE];
    message_read(&heard);

    uint32_t refusal = pandrwyg_receive(heard.q, heard.n, heard.k, PANDRWYG_EXTENDED, heard.row_count,
                                        heard.rows, (size_t)(heard.row_count * heard.n), answer, sizeof answer);
    if (refusal != 0 && refusal != PANDRWYG_TOO_FEW && refusal != PANDRWYG_TOO_MANY)
        refuse(refusal);

    uint64_t dimension = pandrwyg_answer_dimension(answer);
    printf("rows: %" PRIu64 "; dimensions: %" PRIu64 " of %" PRIu64 "; ", heard.row_count, dimension, heard.k);
    if (refusal == 0)
        printf("record: %" PRIu64 "\n", pandrwyg_answer_index(answer));
    else if (refusal == PANDRWYG_TOO_FEW)
        printf("missing: %" PRIu64 "\n", heard.k - dimension);
    else
        printf("too many: %" PRIu64 ", so some rows are not this pack's\n", dimension - heard.k);
    end_output();
    return (int)refusal;
}
