/*
 * The reference: document 01 in plain C, with document 02's third radio, frame check, reserved bit,
 * gap and polarity.
 * It is meant for being checked by eye with 01 in the other hand, so it follows 01's words and
 * order and does nothing for speed: each symbol is compared with every word, chip by chip.
 *
 * The reader keeps what the symbols read as, which in mode 0 begins with the polarity, and the raw
 * symbols, and reads octets off these; likewise it keeps the gaps and takes the least in the end.
 * Push works on the record, as the header describes it. The two share only what one symbol is
 * (match, gap_of, raw_of), so that their agreement says something.
 */
#include "reference.h"

#include <string.h>

/* ---- The three radios ---- */

enum { START_OCTET = 0xA7, PREAMBLE_OCTETS = 4, HEAD_OCTETS = 6, SYMBOLS_MAX = (6 + 127) * 8 };

struct radio {
    uint32_t chips;      /* chips per symbol */
    uint32_t bits;       /* bits per symbol */
    uint32_t limit;      /* accepted distance: at most this */
    uint32_t words;      /* one for each value of a symbol */
    uint32_t per_octet;  /* symbols per octet */
    uint8_t word[16][32];
};

static struct radio radios[MODES] = {
    { 15, 1, 6, 2, 8, { { 0 } } },
    { 32, 4, 5, 16, 2, { { 0 } } },
    { 16, 4, 2, 16, 2, { { 0 } } }
};

/* A word as it is printed: c0 at the left and first. */
static void set_word(uint8_t *word, const char *printed)
{
    uint32_t c;

    for (c = 0; printed[c] != 0; c++)
        word[c] = (uint8_t)(printed[c] - '0');
}

/* The sixteen words of mode 1 or 2, from word 0 and the number of chips of a turn. */
static void turn_words(struct radio *radio, uint32_t turn, const char *word_0)
{
    uint8_t (*word)[32] = radio->word;
    uint32_t chips = radio->chips, w, c;

    set_word(word[0], word_0);
    /* Words 1 to 7 are each the one before, turned right. */
    for (w = 1; w <= 7; w++)
        for (c = 0; c < chips; c++)
            word[w][(c + turn) % chips] = word[w - 1][c];
    /* Words 8 to 15 are words 0 to 7 with each chip of odd index inverted. */
    for (w = 8; w <= 15; w++)
        for (c = 0; c < chips; c++)
            word[w][c] = c % 2 == 1 ? 1 - word[w - 8][c] : word[w - 8][c];
}

static void make_words(void)
{
    set_word(radios[0].word[0], "111101011001000");
    set_word(radios[0].word[1], "000010100110111");
    turn_words(&radios[1], 4, "11011001110000110101001000101110");
    turn_words(&radios[2], 2, "0011111000100101");
}

/* The radio of a mode; NULL where the mode is above 2. */
static const struct radio *radio_of(uint32_t mode)
{
    static int made;

    if (!made)
        make_words();
    made = 1;
    if (mode > 2)
        return NULL;
    return &radios[mode];
}

/* ---- One symbol ---- */

/* The number of places where two chip words of one length differ. */
static uint32_t distance(const uint8_t *a, const uint8_t *b, uint32_t length)
{
    uint32_t c, places = 0;

    for (c = 0; c < length; c++)
        places += a[c] != b[c];
    return places;
}

static int has_bad_byte(const uint8_t *symbol, uint32_t length)
{
    uint32_t c;

    for (c = 0; c < length; c++)
        if (symbol[c] > 1)
            return 1;
    return 0;
}

/*
 * The nearest word, how far it is, and how far the nearest of all other words is. One within the
 * accepted distance is the only one, since two words are more than twice as far apart; with none
 * there the symbol is lost, and the three are told all the same.
 */
static lernazhup_matched match(const struct radio *radio, const uint8_t *symbol)
{
    lernazhup_matched answer = { LERNAZHUP_DONE, 0, UINT32_MAX, UINT32_MAX };
    uint32_t away[16], w;

    for (w = 0; w < radio->words; w++) {
        away[w] = distance(radio->word[w], symbol, radio->chips);
        /* On a tie the lowest number stays. */
        if (away[w] < answer.nearest) {
            answer.word = w;
            answer.nearest = away[w];
        }
    }
    for (w = 0; w < radio->words; w++)
        if (w != answer.word && away[w] < answer.next)
            answer.next = away[w];
    if (answer.nearest > radio->limit)
        answer.number = LERNAZHUP_LOST;
    return answer;
}

static uint32_t gap_of(lernazhup_matched symbol)
{
    return symbol.next - symbol.nearest;
}

lernazhup_matched reference_match(uint32_t mode, const uint8_t *part, size_t part_len)
{
    const struct radio *radio = radio_of(mode);
    lernazhup_matched refusal = { 0, 0, 0, 0 };

    if (radio == NULL)
        refusal.number = LERNAZHUP_BADMODE;
    else if (part_len != radio->chips)
        refusal.number = LERNAZHUP_BADPART;
    else if (has_bad_byte(part, radio->chips))
        refusal.number = LERNAZHUP_NOCHIP;
    else
        return match(radio, part);
    return refusal;
}

/* Mode 0: the sum modulo 2 of each encoded bit and the one before it. Modes 1 and 2: the symbol
 * itself. */
static uint32_t raw_of(const struct radio *radio, uint32_t before, uint32_t value)
{
    return radio->bits == 1 ? (before % 2 + value) % 2 : value;
}

/* ---- The frame ---- */

static uint32_t symbols_in_frame(const struct radio *radio, uint32_t n)
{
    return (HEAD_OCTETS + n) * radio->per_octet;
}

size_t reference_spread(uint32_t mode, const uint8_t *octets, size_t octets_len, uint8_t *chips)
{
    const struct radio *radio = radio_of(mode);
    uint32_t encoded = 0, s;
    size_t k, at = 0;

    for (k = 0; k < octets_len; k++) {
        for (s = 0; s < radio->per_octet; s++) {
            /* Lowest bit first; low four bits first. */
            uint32_t raw = octets[k] >> (s * radio->bits) & (radio->words - 1);

            encoded = radio->bits == 1 ? (raw + encoded) % 2 : raw;
            memcpy(chips + at, radio->word[encoded], radio->chips);
            at += radio->chips;
        }
    }
    return at;
}

lernazhup_written reference_write(uint32_t mode, const uint8_t *report, size_t report_len, uint8_t *chips, size_t chips_len)
{
    const struct radio *radio = radio_of(mode);
    lernazhup_written answer = { 0, 0 };
    uint8_t octets[HEAD_OCTETS + 127] = { 0, 0, 0, 0, START_OCTET };
    size_t k, needed;

    if (radio == NULL) {
        answer.number = LERNAZHUP_BADMODE;
        return answer;
    }
    if (report_len > 127) {
        answer.number = LERNAZHUP_TOOLONG;
        return answer;
    }
    needed = symbols_in_frame(radio, (uint32_t)report_len) * radio->chips;
    if (chips_len < needed) {
        answer.number = LERNAZHUP_NOROOM;
        return answer;
    }
    octets[5] = (uint8_t)report_len;
    for (k = 0; k < report_len; k++)
        octets[HEAD_OCTETS + k] = report[k];
    reference_spread(mode, octets, HEAD_OCTETS + report_len, chips);
    answer.chips = (uint32_t)needed;
    return answer;
}

/* ---- The reader ---- */

static lernazhup_reading done(uint32_t place, uint32_t n, uint32_t count, uint32_t gap,
    uint32_t polarity)
{
    lernazhup_reading answer = { LERNAZHUP_DONE, 0, 0, 0, 0, 0 };

    answer.place = place;
    answer.n = n;
    answer.count = count;
    answer.gap = gap;
    answer.polarity = polarity;
    return answer;
}

/* A refusal: n, count, gap and polarity are 0. */
static lernazhup_reading refused(uint32_t number, uint32_t place)
{
    lernazhup_reading answer = done(place, 0, 0, 0, 0);

    answer.number = number;
    return answer;
}

/* Octet k of the frame, from the raw symbols. */
static uint32_t octet_of(const struct radio *radio, const uint32_t *raw, uint32_t k)
{
    uint32_t s, octet = 0;

    for (s = 0; s < radio->per_octet; s++)
        octet += raw[k * radio->per_octet + s] << (s * radio->bits);
    return octet;
}

/* The least of the gaps of so many symbols. */
static uint32_t least(const uint32_t *gaps, uint32_t symbols)
{
    uint32_t s, gap = UINT32_MAX;

    for (s = 0; s < symbols; s++)
        if (gaps[s] < gap)
            gap = gaps[s];
    return gap;
}

lernazhup_reading reference_read(uint32_t mode, const uint8_t *chips, size_t chips_len, uint8_t *report, size_t report_len)
{
    const struct radio *radio = radio_of(mode);
    uint32_t values[SYMBOLS_MAX], raw[SYMBOLS_MAX], gaps[SYMBOLS_MAX], count = 0, n = 0, s, k;

    if (radio == NULL)
        return refused(LERNAZHUP_BADMODE, 0);
    for (s = 0; s < symbols_in_frame(radio, n); s++) {
        size_t at = (size_t)s * radio->chips;
        lernazhup_matched symbol;

        if (chips_len - at < radio->chips)
            return refused(LERNAZHUP_RUNOUT, s);
        if (has_bad_byte(chips + at, radio->chips))
            return refused(LERNAZHUP_NOCHIP, s);
        symbol = match(radio, chips + at);
        if (symbol.number == LERNAZHUP_LOST)
            return refused(LERNAZHUP_LOST, s);
        count += symbol.nearest;
        gaps[s] = gap_of(symbol);
        values[s] = symbol.word;
        /* The chain starts from what symbol 0 reads as. */
        raw[s] = raw_of(radio, values[s > 0 ? s - 1 : 0], values[s]);
        if (s < PREAMBLE_OCTETS * radio->per_octet && raw[s] != 0)
            return refused(LERNAZHUP_PREAMBLE, s);
        if (s + 1 == 5 * radio->per_octet && octet_of(radio, raw, 4) != START_OCTET)
            return refused(LERNAZHUP_BADSTART, s);
        if (s + 1 == 6 * radio->per_octet) {
            /* The top bit is reserved, and not looked at. */
            n = octet_of(radio, raw, 5) % 128;
            if (report_len < n)
                return refused(LERNAZHUP_NOROOM, s);
        }
    }
    for (k = 0; k < n; k++)
        report[k] = (uint8_t)octet_of(radio, raw, HEAD_OCTETS + k);
    return done(s, n, count, least(gaps, s), radio->bits == 1 ? values[0] : 0);
}

/* ---- The stepping receiver ---- */

/*
 * Document 01 doesn't say what a record keeps of the octet in hand, which shows where push is given
 * a forged record. Here and in the library `last` is the value of the last symbol taken and `octet`
 * holds the last eight raw bits, the newest at the top. `gap` is the least so far, whatever was
 * held before. In mode 0 symbol 0 sets `polarity`, and the chain starts from it, whatever was held
 * in `polarity` and `last`; no other symbol touches it. No test of 34 looks at gap or polarity.
 */

static lernazhup_step step(uint32_t number, lernazhup_receiver r)
{
    lernazhup_step answer;

    memset(&answer, 0, sizeof answer);
    answer.number = number;
    answer.receiver = r;
    return answer;
}

/* A refusal ends the record; nothing else in it changes. */
static lernazhup_step ended_by(uint32_t number, lernazhup_receiver r)
{
    r.ended = number;
    return step(number, r);
}

/* A record that these calls don't make. Only one that is open or ended well is tested. */
static int forged(const lernazhup_receiver *r)
{
    const struct radio *radio = radio_of(r->mode);

    if (r->ended != LERNAZHUP_MORE && r->ended != LERNAZHUP_DONE)
        return 0;
    if (radio == NULL || r->length > 127)
        return 1;
    if (r->count > (uint64_t)radio->limit * r->taken)
        return 1;
    if (r->ended == LERNAZHUP_MORE)
        return r->taken >= symbols_in_frame(radio, r->length);
    return r->taken != symbols_in_frame(radio, r->length);
}

lernazhup_step reference_start(uint32_t mode)
{
    lernazhup_receiver r;

    memset(&r, 0, sizeof r);
    r.mode = mode;
    r.ended = radio_of(mode) != NULL ? LERNAZHUP_MORE : LERNAZHUP_BADMODE;
    r.gap = UINT32_MAX;
    return step(r.ended, r);
}

/* One symbol of the right length, taken into an open record by the reading order. */
static lernazhup_step take_symbol(const struct radio *radio, lernazhup_receiver r,
    const uint8_t *part)
{
    uint32_t next = r.taken + 1, per_octet = radio->per_octet, raw, octet;
    int settles = radio->bits == 1 && r.taken == 0;
    lernazhup_matched symbol;

    if (has_bad_byte(part, radio->chips))
        return ended_by(LERNAZHUP_NOCHIP, r);
    symbol = match(radio, part);
    if (symbol.number == LERNAZHUP_LOST)
        return ended_by(LERNAZHUP_LOST, r);
    raw = raw_of(radio, settles ? symbol.word : r.last, symbol.word);
    /* Symbols come lowest first: each goes in at the top and pushes the ones before it down. */
    octet = (r.octet % 256 >> radio->bits) + (raw << (8 - radio->bits));
    if (r.taken < PREAMBLE_OCTETS * per_octet && raw != 0)
        return ended_by(LERNAZHUP_PREAMBLE, r);
    if (next == 5 * per_octet && octet != START_OCTET)
        return ended_by(LERNAZHUP_BADSTART, r);
    r.taken = next;
    r.count += symbol.nearest;
    if (gap_of(symbol) < r.gap)
        r.gap = gap_of(symbol);
    if (settles)
        r.polarity = symbol.word;
    r.last = symbol.word;
    r.octet = octet;
    if (next == 6 * per_octet)
        r.length = octet % 128;
    if (next >= 7 * per_octet && next % per_octet == 0)
        r.octets[next / per_octet - 7] = (uint8_t)octet;
    r.ended = next == symbols_in_frame(radio, r.length) ? LERNAZHUP_DONE : LERNAZHUP_MORE;
    return step(r.ended, r);
}

lernazhup_step reference_push(lernazhup_receiver r, const uint8_t *part, size_t part_len)
{
    if (forged(&r))
        return step(LERNAZHUP_FORGED, r);
    if (r.ended != LERNAZHUP_MORE)
        return step(LERNAZHUP_ENDED, r);
    if (part_len != radio_of(r.mode)->chips)
        return step(LERNAZHUP_BADPART, r);
    return take_symbol(radio_of(r.mode), r, part);
}

lernazhup_step reference_finish(lernazhup_receiver r)
{
    if (forged(&r))
        return step(LERNAZHUP_FORGED, r);
    if (r.ended != LERNAZHUP_MORE)
        return step(LERNAZHUP_ENDED, r);
    return ended_by(LERNAZHUP_RUNOUT, r);
}

lernazhup_reading reference_take(lernazhup_receiver r, uint8_t *report, size_t report_len)
{
    uint32_t k;

    if (forged(&r))
        return refused(LERNAZHUP_FORGED, 0);
    if (r.ended == LERNAZHUP_MORE)
        return refused(LERNAZHUP_NOTENDED, 0);
    if (r.ended != LERNAZHUP_DONE)
        return refused(r.ended, r.taken);
    if (report_len < r.length)
        return refused(LERNAZHUP_NOROOM, r.taken);
    for (k = 0; k < r.length; k++)
        report[k] = r.octets[k];
    return done(r.taken, r.length, r.count, r.gap, r.mode == 0 ? r.polarity % 2 : 0);
}

/* ---- The frame check ---- */

/* The ITU-T polynomial, x^16 + x^12 + x^5 + 1. */
enum { GENERATOR = 0x11021 };

/*
 * As the standard says it: the octets' bits in the order of sending are the coefficients of a
 * polynomial, the first at the highest power. That one times x^16 is divided by the generator, and
 * the remainder's coefficients, again from the highest power down, are the bits of the FCS in the
 * order of sending.
 */
uint32_t reference_fcs(const uint8_t *octets, size_t octets_len)
{
    uint32_t remainder = 0, fcs = 0, b;
    size_t k;

    for (k = 0; k < octets_len; k++) {
        for (b = 0; b < 8; b++) {
            /* Lowest bit first. */
            uint32_t bit = octets[k] >> b & 1;

            remainder = remainder << 1 ^ bit << 16;
            if (remainder >= 1 << 16)
                remainder ^= GENERATOR;
        }
    }
    for (b = 0; b < 16; b++)
        fcs += (remainder >> (15 - b) & 1) << b;
    return fcs;
}

/* The two octets of the FCS, low octet first. */
static void fcs_octets(const uint8_t *octets, size_t octets_len, uint8_t *two)
{
    uint32_t fcs = reference_fcs(octets, octets_len);

    two[0] = (uint8_t)(fcs % 256);
    two[1] = (uint8_t)(fcs / 256);
}

static int all_zero(const uint8_t *octets, size_t octets_len)
{
    size_t k;

    for (k = 0; k < octets_len; k++)
        if (octets[k] != 0)
            return 0;
    return 1;
}

uint32_t reference_check(const uint8_t *octets, size_t octets_len)
{
    uint8_t two[2];

    if (octets_len < 3)
        return LERNAZHUP_TOOFEW;
    fcs_octets(octets, octets_len - 2, two);
    if (memcmp(two, octets + octets_len - 2, 2) != 0)
        return LERNAZHUP_BADCHECK;
    if (all_zero(octets, octets_len))
        return LERNAZHUP_ALLZERO;
    return LERNAZHUP_DONE;
}

lernazhup_written reference_write_checked(uint32_t mode, const uint8_t *report, size_t report_len,
    uint8_t *chips, size_t chips_len)
{
    lernazhup_written answer = { LERNAZHUP_DONE, 0 };
    uint8_t octets[127];

    if (radio_of(mode) == NULL)
        answer.number = LERNAZHUP_BADMODE;
    else if (report_len == 0)
        answer.number = LERNAZHUP_TOOFEW;
    else if (report_len > 125)
        answer.number = LERNAZHUP_TOOLONG;
    else if (all_zero(report, report_len))
        answer.number = LERNAZHUP_ALLZERO;
    if (answer.number != LERNAZHUP_DONE)
        return answer;
    memcpy(octets, report, report_len);
    fcs_octets(report, report_len, octets + report_len);
    return reference_write(mode, octets, report_len + 2, chips, chips_len);
}

lernazhup_reading reference_read_checked(uint32_t mode, const uint8_t *chips, size_t chips_len,
    uint8_t *report, size_t report_len)
{
    uint8_t octets[127];
    size_t room = report_len < 127 ? report_len : 127;
    lernazhup_reading plain = reference_read(mode, chips, chips_len, octets, room);
    uint32_t number;

    if (plain.number != LERNAZHUP_DONE)
        return plain;
    number = reference_check(octets, plain.n);
    if (number != LERNAZHUP_DONE)
        return refused(number, plain.place);
    memcpy(report, octets, plain.n);
    return plain;
}

/* ---- For the makers of cases ---- */

uint32_t reference_chips(uint32_t mode) { return radio_of(mode)->chips; }
uint32_t reference_per_octet(uint32_t mode) { return radio_of(mode)->per_octet; }
uint32_t reference_limit(uint32_t mode) { return radio_of(mode)->limit; }
uint32_t reference_words(uint32_t mode) { return radio_of(mode)->words; }
const uint8_t *reference_word(uint32_t mode, uint32_t value) { return radio_of(mode)->word[value]; }
