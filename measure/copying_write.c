/* The copying writer: each symbol's word is copied whole from a table, the quickest plain way to
 * write a frame in C. */
#include <string.h>

#include "baselines.h"

static const uint8_t bpsk_words[2][15] = {
    {1, 1, 1, 1, 0, 1, 0, 1, 1, 0, 0, 1, 0, 0, 0},
    {0, 0, 0, 0, 1, 0, 1, 0, 0, 1, 1, 0, 1, 1, 1},
};

static const uint8_t oqpsk32_words[16][32] = {
    {1, 1, 0, 1, 1, 0, 0, 1, 1, 1, 0, 0, 0, 0, 1, 1, 0, 1, 0, 1, 0, 0, 1, 0, 0, 0, 1, 0, 1, 1, 1, 0},
    {1, 1, 1, 0, 1, 1, 0, 1, 1, 0, 0, 1, 1, 1, 0, 0, 0, 0, 1, 1, 0, 1, 0, 1, 0, 0, 1, 0, 0, 0, 1, 0},
    {0, 0, 1, 0, 1, 1, 1, 0, 1, 1, 0, 1, 1, 0, 0, 1, 1, 1, 0, 0, 0, 0, 1, 1, 0, 1, 0, 1, 0, 0, 1, 0},
    {0, 0, 1, 0, 0, 0, 1, 0, 1, 1, 1, 0, 1, 1, 0, 1, 1, 0, 0, 1, 1, 1, 0, 0, 0, 0, 1, 1, 0, 1, 0, 1},
    {0, 1, 0, 1, 0, 0, 1, 0, 0, 0, 1, 0, 1, 1, 1, 0, 1, 1, 0, 1, 1, 0, 0, 1, 1, 1, 0, 0, 0, 0, 1, 1},
    {0, 0, 1, 1, 0, 1, 0, 1, 0, 0, 1, 0, 0, 0, 1, 0, 1, 1, 1, 0, 1, 1, 0, 1, 1, 0, 0, 1, 1, 1, 0, 0},
    {1, 1, 0, 0, 0, 0, 1, 1, 0, 1, 0, 1, 0, 0, 1, 0, 0, 0, 1, 0, 1, 1, 1, 0, 1, 1, 0, 1, 1, 0, 0, 1},
    {1, 0, 0, 1, 1, 1, 0, 0, 0, 0, 1, 1, 0, 1, 0, 1, 0, 0, 1, 0, 0, 0, 1, 0, 1, 1, 1, 0, 1, 1, 0, 1},
    {1, 0, 0, 0, 1, 1, 0, 0, 1, 0, 0, 1, 0, 1, 1, 0, 0, 0, 0, 0, 0, 1, 1, 1, 0, 1, 1, 1, 1, 0, 1, 1},
    {1, 0, 1, 1, 1, 0, 0, 0, 1, 1, 0, 0, 1, 0, 0, 1, 0, 1, 1, 0, 0, 0, 0, 0, 0, 1, 1, 1, 0, 1, 1, 1},
    {0, 1, 1, 1, 1, 0, 1, 1, 1, 0, 0, 0, 1, 1, 0, 0, 1, 0, 0, 1, 0, 1, 1, 0, 0, 0, 0, 0, 0, 1, 1, 1},
    {0, 1, 1, 1, 0, 1, 1, 1, 1, 0, 1, 1, 1, 0, 0, 0, 1, 1, 0, 0, 1, 0, 0, 1, 0, 1, 1, 0, 0, 0, 0, 0},
    {0, 0, 0, 0, 0, 1, 1, 1, 0, 1, 1, 1, 1, 0, 1, 1, 1, 0, 0, 0, 1, 1, 0, 0, 1, 0, 0, 1, 0, 1, 1, 0},
    {0, 1, 1, 0, 0, 0, 0, 0, 0, 1, 1, 1, 0, 1, 1, 1, 1, 0, 1, 1, 1, 0, 0, 0, 1, 1, 0, 0, 1, 0, 0, 1},
    {1, 0, 0, 1, 0, 1, 1, 0, 0, 0, 0, 0, 0, 1, 1, 1, 0, 1, 1, 1, 1, 0, 1, 1, 1, 0, 0, 0, 1, 1, 0, 0},
    {1, 1, 0, 0, 1, 0, 0, 1, 0, 1, 1, 0, 0, 0, 0, 0, 0, 1, 1, 1, 0, 1, 1, 1, 1, 0, 1, 1, 1, 0, 0, 0},
};

static const uint8_t oqpsk16_words[16][16] = {
    {0, 0, 1, 1, 1, 1, 1, 0, 0, 0, 1, 0, 0, 1, 0, 1},
    {0, 1, 0, 0, 1, 1, 1, 1, 1, 0, 0, 0, 1, 0, 0, 1},
    {0, 1, 0, 1, 0, 0, 1, 1, 1, 1, 1, 0, 0, 0, 1, 0},
    {1, 0, 0, 1, 0, 1, 0, 0, 1, 1, 1, 1, 1, 0, 0, 0},
    {0, 0, 1, 0, 0, 1, 0, 1, 0, 0, 1, 1, 1, 1, 1, 0},
    {1, 0, 0, 0, 1, 0, 0, 1, 0, 1, 0, 0, 1, 1, 1, 1},
    {1, 1, 1, 0, 0, 0, 1, 0, 0, 1, 0, 1, 0, 0, 1, 1},
    {1, 1, 1, 1, 1, 0, 0, 0, 1, 0, 0, 1, 0, 1, 0, 0},
    {0, 1, 1, 0, 1, 0, 1, 1, 0, 1, 1, 1, 0, 0, 0, 0},
    {0, 0, 0, 1, 1, 0, 1, 0, 1, 1, 0, 1, 1, 1, 0, 0},
    {0, 0, 0, 0, 0, 1, 1, 0, 1, 0, 1, 1, 0, 1, 1, 1},
    {1, 1, 0, 0, 0, 0, 0, 1, 1, 0, 1, 0, 1, 1, 0, 1},
    {0, 1, 1, 1, 0, 0, 0, 0, 0, 1, 1, 0, 1, 0, 1, 1},
    {1, 1, 0, 1, 1, 1, 0, 0, 0, 0, 0, 1, 1, 0, 1, 0},
    {1, 0, 1, 1, 0, 1, 1, 1, 0, 0, 0, 0, 0, 1, 1, 0},
    {1, 0, 1, 0, 1, 1, 0, 1, 1, 1, 0, 0, 0, 0, 0, 1},
};

/* Each returns the place after the octet's chips, since the next octet begins there. */
static uint8_t *bpsk_octet(uint8_t *chips, uint8_t octet, unsigned *last)
{
    unsigned i;
    for (i = 0; i < 8; i++) {
        *last ^= octet >> i & 1u;
        memcpy(chips, bpsk_words[*last], 15);
        chips += 15;
    }
    return chips;
}

/* Modes 1 and 2. A word's length is a constant where a frame is written, and this is put in there
 * whole: a word is then copied in a move or two. */
static inline uint8_t *oqpsk_octet(uint8_t *chips, uint8_t octet, const void *words, size_t length)
{
    const uint8_t *from = words;
    memcpy(chips, from + length * (octet & 15), length);
    memcpy(chips + length, from + length * (octet >> 4), length);
    return chips + 2 * length;
}

static void bpsk_frame(const uint8_t *header, const uint8_t *report, size_t n, uint8_t *chips)
{
    unsigned last = 0;
    size_t i;
    for (i = 0; i < 6; i++)
        chips = bpsk_octet(chips, header[i], &last);
    for (i = 0; i < n; i++)
        chips = bpsk_octet(chips, report[i], &last);
}

static inline void oqpsk_frame(const uint8_t *header, const uint8_t *report, size_t n, uint8_t *chips, const void *words,
                               size_t length)
{
    size_t i;
    for (i = 0; i < 6; i++)
        chips = oqpsk_octet(chips, header[i], words, length);
    for (i = 0; i < n; i++)
        chips = oqpsk_octet(chips, report[i], words, length);
}

static lernazhup_written written(uint32_t number, size_t chips)
{
    lernazhup_written answer = {number, (uint32_t)chips};
    return answer;
}

lernazhup_written copying_write(uint32_t mode, const uint8_t *report, size_t report_len, uint8_t *chips, size_t chips_len)
{
    uint8_t header[6] = {0, 0, 0, 0, 0xA7, 0};
    size_t needed;
    if (mode > 2)
        return written(LERNAZHUP_BADMODE, 0);
    if (report_len > LERNAZHUP_REPORT_MAX)
        return written(LERNAZHUP_TOOLONG, 0);
    needed = LERNAZHUP_FRAME_CHIPS(mode, report_len);
    if (chips_len < needed)
        return written(LERNAZHUP_NOROOM, 0);
    header[5] = (uint8_t)report_len;
    if (mode == 0)
        bpsk_frame(header, report, report_len, chips);
    else if (mode == 1)
        oqpsk_frame(header, report, report_len, chips, oqpsk32_words, 32);
    else
        oqpsk_frame(header, report, report_len, chips, oqpsk16_words, 16);
    return written(LERNAZHUP_DONE, needed);
}
