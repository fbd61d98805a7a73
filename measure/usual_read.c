/* The usual reader: what most engineers would write in C for this job, as the measure of what the
 * library must beat.
 *
 * A symbol's chips are shifted into a word, first chip highest; the word is compared with every
 * code word by XOR and popcount, and the best and the second best are kept; the best is taken if it
 * is near enough. It is compiled as everything else here, for any x86-64, so the popcount is the
 * compiler's own and not the processor's instruction. */
#include <string.h>

#include "baselines.h"

/* Ones in a word. As the compiler gives it this is a function of its library; built with
 * OWN_POPCOUNT, and then under the name usual_own_read, the usual shifts and adds stand here
 * instead. */
#ifdef OWN_POPCOUNT
#define usual_read usual_own_read
static uint32_t ones(uint32_t word)
{
    word -= word >> 1 & 0x55555555;
    word = (word & 0x33333333) + (word >> 2 & 0x33333333);
    return ((word + (word >> 4)) & 0x0F0F0F0F) * 0x01010101 >> 24;
}
#else
static uint32_t ones(uint32_t word)
{
    return (uint32_t)__builtin_popcount(word);
}
#endif

struct radio {
    uint32_t length; /* chips a symbol */
    uint32_t bits;   /* bits a symbol */
    uint32_t limit;  /* the accepted distance */
    uint32_t count;  /* code words */
    const uint32_t *words;
    int chained; /* each bit was added to the encoded bit before it, the first to the polarity */
};

static const uint32_t bpsk_words[2] = {0x7AC8, 0x0537};

static const uint32_t oqpsk32_words[16] = {
    0xD9C3522E, 0xED9C3522, 0x2ED9C352, 0x22ED9C35, 0x522ED9C3, 0x3522ED9C, 0xC3522ED9, 0x9C3522ED,
    0x8C96077B, 0xB8C96077, 0x7B8C9607, 0x77B8C960, 0x077B8C96, 0x6077B8C9, 0x96077B8C, 0xC96077B8,
};

static const uint32_t oqpsk16_words[16] = {
    0x3E25, 0x4F89, 0x53E2, 0x94F8, 0x253E, 0x894F, 0xE253, 0xF894,
    0x6B70, 0x1ADC, 0x06B7, 0xC1AD, 0x706B, 0xDC1A, 0xB706, 0xADC1,
};

static const struct radio radios[3] = {
    {15, 1, 6, 2, bpsk_words, 1},
    {32, 4, 5, 16, oqpsk32_words, 0},
    {16, 4, 2, 16, oqpsk16_words, 0},
};

/* The octets of a frame: four of preamble, the start octet, the length octet, the report. */
enum { START = 4, LENGTH = 5, HEADER = 6 };

static lernazhup_reading refused(uint32_t number, uint32_t place)
{
    lernazhup_reading reading = {number, place, 0, 0, 0, 0};
    return reading;
}

/* One symbol's chips as a word; 0 where a byte isn't a chip. */
static int gather(const uint8_t *chips, uint32_t length, uint32_t *word)
{
    uint32_t bits = 0, i;
    for (i = 0; i < length; i++) {
        if (chips[i] > 1)
            return 0;
        bits = bits << 1 | chips[i];
    }
    *word = bits;
    return 1;
}

/* The nearest code word's value, its distance, and that of the next-nearest. */
static uint32_t nearest(const struct radio *radio, uint32_t word, uint32_t *distance,
                        uint32_t *next)
{
    uint32_t best = 0, least = 33, second = 33, value;
    for (value = 0; value < radio->count; value++) {
        uint32_t differing = ones(word ^ radio->words[value]);
        if (differing < least) {
            second = least;
            least = differing;
            best = value;
        } else if (differing < second) {
            second = differing;
        }
    }
    *distance = least;
    *next = second;
    return best;
}

/* What a whole octet of the header is refused with, or 0. */
static uint32_t header_fault(uint32_t at, uint8_t octet, size_t report_len)
{
    if (at == START && octet != 0xA7)
        return LERNAZHUP_BADSTART;
    if (at == LENGTH && (octet & 127) > report_len)
        return LERNAZHUP_NOROOM;
    return 0;
}

static lernazhup_reading done(uint32_t place, uint32_t count, uint32_t gap, uint32_t polarity,
                              const uint8_t *octets, uint8_t *report)
{
    lernazhup_reading reading = {LERNAZHUP_DONE, place, octets[LENGTH] & 127, count, gap, polarity};
    if (reading.n > 0)
        memcpy(report, octets + HEADER, reading.n);
    return reading;
}

/* The frame is read into an array of this function's own: a refusal must leave the lent one as it
 * was. */
static lernazhup_reading read_frame(const struct radio *radio, const uint8_t *chips, size_t chips_len, uint8_t *report,
                                    size_t report_len)
{
    uint8_t octets[HEADER + LERNAZHUP_REPORT_MAX];
    uint32_t per_octet = 8 / radio->bits, total = HEADER, count = 0, gap = UINT32_MAX, last = 0;
    uint32_t polarity = 0, place = 0, at, i;
    for (at = 0; at < total; at++) {
        uint8_t octet = 0;
        for (i = 0; i < per_octet; i++, place++) {
            uint32_t word, value, distance, next, raw, fault;
            if (chips_len < radio->length)
                return refused(LERNAZHUP_RUNOUT, place);
            if (!gather(chips, radio->length, &word))
                return refused(LERNAZHUP_NOCHIP, place);
            value = nearest(radio, word, &distance, &next);
            if (distance > radio->limit)
                return refused(LERNAZHUP_LOST, place);
            if (place == 0 && radio->chained)
                polarity = last = value;
            raw = radio->chained ? value ^ last : value;
            if (at < START && raw != 0)
                return refused(LERNAZHUP_PREAMBLE, place);
            octet = (uint8_t)(octet | raw << (i * radio->bits));
            fault = i + 1 == per_octet ? header_fault(at, octet, report_len) : 0;
            if (fault != 0)
                return refused(fault, place);
            count += distance;
            gap = next - distance < gap ? next - distance : gap;
            last = value;
            chips += radio->length;
            chips_len -= radio->length;
        }
        octets[at] = octet;
        if (at == LENGTH)
            total += octet & 127;
    }
    return done(place, count, gap, polarity, octets, report);
}

lernazhup_reading usual_read(uint32_t mode, const uint8_t *chips, size_t chips_len, uint8_t *report, size_t report_len)
{
    if (mode > 2)
        return refused(LERNAZHUP_BADMODE, 0);
    return read_frame(&radios[mode], chips, chips_len, report, report_len);
}
