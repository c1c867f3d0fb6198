/*
 * A battery pack: draws the space whose number is its life record and sends the rows.
 *   pack [RECORD [Q N K]]
 */
#include "message.h"

const char program_name[] = "pack";

static const uint64_t default_record = UINT64_C(1234567890123456789);

int main(int count, char **words)
{
    message sent = {.q = 2, .n = 16, .k = 6};
    if (count > 2 && count != 5)
        fail("usage: pack [RECORD [Q N K]]");
    uint64_t record = count > 1 ? number_argument(words[1]) : default_record;
    if (count == 5) {
        sent.q = number_argument(words[2]);
        sent.n = number_argument(words[3]);
        sent.k = number_argument(words[4]);
    }
    accept_settings(&sent);

    uint32_t refusal = pandrwyg_draw(sent.q, sent.n, sent.k, PANDRWYG_EXTENDED, record,
                                     sent.rows, (size_t)(sent.k * sent.n));
    if (refusal != 0)
        refuse(refusal);

    write_settings(&sent);
    for (uint64_t row = 0; row < sent.k; row++) {
        write_row(stdout, sent.n, sent.rows + row * sent.n);
        printf("\n");
    }
    end_output();
    return 0;
}
