/*
 * A pack's firmware: it has a life record, draws the space whose number the record is, and sends the space's rows, as the
 * text that the example programs speak: a line with the settings q,n,k, then a row a line.
 *
 * The serial line of the emulated board, an nRF51's, stands for the pack's radio. The whole has no heap and no memory but
 * the stack: the rows, and what the library's Draw uses.
 */
#include "pandrwyg.h"

/* The settings, which pack and cabinet share, and the record, by the extended numbering. */
enum { Q = 2, N = 16, K = 6 };
#ifndef RECORD
#define RECORD UINT64_C(1234567890123456789)
#endif

/* The registers of the serial line. */
static volatile uint32_t *const serial = (volatile uint32_t *)0x40002000;
enum { START_SENDING = 0x008 / 4, SENT = 0x11C / 4, ENABLE = 0x500 / 4, SEND = 0x51C / 4 };

static void send(char letter)
{
    serial[SENT] = 0;
    serial[SEND] = (uint8_t)letter;
    while (serial[SENT] == 0)
        ;
}

static void send_number(unsigned number)
{
    if (number >= 10)
        send_number(number / 10);
    send((char)('0' + number % 10));
}

static void send_settings(void)
{
    send_number(Q);
    send(',');
    send_number(N);
    send(',');
    send_number(K);
    send('\n');
}

int main(void)
{
    uint8_t rows[K * N];
    uint32_t refusal = pandrwyg_draw(Q, N, K, PANDRWYG_EXTENDED, RECORD, rows, sizeof rows);
    if (refusal != PANDRWYG_DONE)
        return (int)refusal; /* refused, the rows hold nothing of the record: nothing is sent */

    serial[ENABLE] = 4;
    serial[START_SENDING] = 1;
    send_settings();
    for (unsigned place = 0; place < sizeof rows; place++) {
        send((char)('0' + rows[place]));
        if (place % N == N - 1)
            send('\n');
    }
    return 0;
}
