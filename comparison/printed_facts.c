/*
 * The reference held to the documents' own numbers: the rows of the code tables as printed, the
 * facts that the work stands on, the bench sheet A to L, what 01 gives for running and comparing,
 * and what 02 gives for the third radio, the frame check, with the published vectors of the FCS,
 * the reserved bit, the gap and the polarity; and what the header says of gaps and of a front end
 * that turns over.
 */
#include "printed_facts.h"

#include <stdio.h>
#include <string.h>

#include "reference.h"

static int all_hold;

static void fact(const char *name, int holds)
{
    if (!holds)
        printf("the reference breaks a printed fact: %s\n", name);
    all_hold = all_hold && holds;
}

static uint32_t apart(const uint8_t *a, const uint8_t *b, uint32_t length)
{
    uint32_t c, places = 0;

    for (c = 0; c < length; c++)
        places += a[c] != b[c];
    return places;
}

static uint32_t words_apart(uint32_t mode, uint32_t a, uint32_t b)
{
    return apart(reference_word(mode, a), reference_word(mode, b), reference_chips(mode));
}

/* Source document 002, Table 4-3, without rows 0, 1, 2 and 6, which are printed wrong. */
static const char *const rows_of_002[16] = {
    NULL, NULL, NULL, "00100010111011011001110000110101",
    "01010010001011101101100111000011", "00110101001000101110110110011100",
    NULL, "10011100001101010010001011101101",
    "10001100100101100000011101111011", "10111000110010010110000001110111",
    "01111011100011001001011000000111", "01110111101110001100100101100000",
    "00000111011110111000110010010110", "01100000011101111011100011001001",
    "10010110000001110111101110001100", "11001001011000000111011110111000"
};

/* Source document 000, Table 32, without rows 0 to 3 and 9 to 11, which have a chip too many. */
static const char *const rows_of_000[16] = {
    NULL, NULL, NULL, NULL, "0010010100111110", "1000100101001111", "1110001001010011", "1111100010010100",
    "0110101101110000", NULL, NULL, NULL, "0111000001101011", "1101110000011010", "1011011100000110", "1010110111000001"
};

static void printed_rows(uint32_t mode, const char *const *rows)
{
    uint32_t w, c;

    for (w = 0; w < 16; w++)
        for (c = 0; rows[w] != NULL && c < reference_chips(mode); c++)
            fact("rows as printed", reference_word(mode, w)[c] == rows[w][c] - '0');
}

static const uint8_t flat[2][32] = {
    { 0 }, { 1, 1, 1, 1, 1, 1, 1, 1, 1, 1, 1, 1, 1, 1, 1, 1, 1, 1, 1, 1, 1, 1, 1, 1, 1, 1, 1, 1, 1, 1, 1, 1 }
};

/* A radio of sixteen words: any two are an even number of chips apart, from the least to the most;
 * flat chips are half a word from each, which so has ones in half of its chips. */
static void sixteen_words(uint32_t mode, uint32_t least, uint32_t most, const char *pairs, const char *halves)
{
    uint32_t chips = reference_chips(mode), a, b;

    for (a = 0; a < 16; a++) {
        const uint8_t *word = reference_word(mode, a);

        for (b = 0; b < a; b++) {
            uint32_t places = words_apart(mode, a, b);

            fact(pairs, places >= least && places <= most && places % 2 == 0);
        }
        fact(halves, apart(word, flat[0], chips) == chips / 2 && apart(word, flat[1], chips) == chips / 2);
    }
}

static void words(void)
{
    uint32_t a, b;

    sixteen_words(1, 12, 20, "12, 14, 16, 18 or 20 apart", "D");
    fact("A", words_apart(1, 0, 9) == 12);
    fact("B", words_apart(1, 0, 3) == 20);
    fact("C", words_apart(1, 0, 8) == 16);
    sixteen_words(2, 6, 10, "6, 8 or 10 apart", "flat chips 8 from each word of mode 2");
    fact("6, 8 and 10 apart", words_apart(2, 0, 10) == 6 && words_apart(2, 0, 8) == 8 && words_apart(2, 0, 2) == 10);
    fact("15 apart", words_apart(0, 0, 1) == 15);
    fact("E", apart(reference_word(0, 1), flat[0], 15) == 7 && apart(reference_word(0, 0), flat[0], 15) == 8);
    fact("F", apart(reference_word(0, 0), flat[1], 15) == 7);
    for (a = 0; a < MODES; a++)
        for (b = 0; b < 2; b++)
            fact("flat chips are lost",
                reference_push(reference_start(a).receiver, flat[b], reference_chips(a)).number == LERNAZHUP_LOST);
}

/* Push of the word for 0 with its first chips inverted, at symbol 0. */
static lernazhup_step pushed(uint32_t mode, uint32_t inverted)
{
    uint8_t part[32];
    uint32_t c;

    memcpy(part, reference_word(mode, 0), reference_chips(mode));
    for (c = 0; c < inverted; c++)
        part[c] ^= 1;
    return reference_push(reference_start(mode).receiver, part, reference_chips(mode));
}

static int goes_on(lernazhup_step step, uint32_t count, uint32_t polarity)
{
    return step.number == LERNAZHUP_MORE && step.receiver.count == count
        && step.receiver.polarity == polarity;
}

/* Lost, with no polarity settled. */
static int is_lost(lernazhup_step step)
{
    return step.number == LERNAZHUP_LOST && step.receiver.polarity == 0;
}

static void single_symbols(void)
{
    fact("G", goes_on(pushed(1, 5), 5, 0));
    fact("H", is_lost(pushed(1, 6)));
    fact("I", goes_on(pushed(0, 6), 6, 0));
    fact("J", is_lost(pushed(0, 7)) && is_lost(pushed(0, 8)));
    fact("J: nine inverted read as 1", goes_on(pushed(0, 9), 6, 1));
    fact("two inverted, mode 2", goes_on(pushed(2, 2), 2, 0));
    fact("three inverted, mode 2", is_lost(pushed(2, 3)));
}

static int is_matched(lernazhup_matched got, uint32_t number, uint32_t word, uint32_t nearest,
    uint32_t next)
{
    return got.number == number && got.word == word && got.nearest == nearest && got.next == next;
}

static int is_no_match(lernazhup_matched got, uint32_t number)
{
    return is_matched(got, number, 0, 0, 0);
}

/* The match of a word with so many chips, from the front, turned to those of another. */
static lernazhup_matched matched_between(uint32_t mode, uint32_t from, uint32_t to, uint32_t turned)
{
    uint32_t size = reference_chips(mode), c;
    uint8_t part[32];

    memcpy(part, reference_word(mode, from), size);
    for (c = 0; c < size && turned > 0; c++)
        if (part[c] != reference_word(mode, to)[c]) {
            part[c] ^= 1;
            turned--;
        }
    return reference_match(mode, part, size);
}

/* The least distance of two words. */
static uint32_t least_apart(uint32_t mode) { return LERNAZHUP_BY_MODE(mode, 15, 12, 6); }

static void matched_words(void)
{
    uint32_t mode, w, b;

    for (mode = 0; mode < MODES; mode++)
        for (w = 0; w < reference_words(mode); w++) {
            uint32_t size = reference_chips(mode);

            fact("gap of a word", is_matched(reference_match(mode, reference_word(mode, w), size),
                LERNAZHUP_DONE, w, 0, least_apart(mode)));
        }
    for (b = 0; b < 2; b++) {
        fact("D", is_matched(reference_match(1, flat[b], 32), LERNAZHUP_LOST, 0, 16, 16));
        fact("flat, mode 2", is_matched(reference_match(2, flat[b], 16), LERNAZHUP_LOST, 0, 8, 8));
    }
    fact("E", is_matched(reference_match(0, flat[0], 15), LERNAZHUP_LOST, 1, 7, 8));
    fact("F", is_matched(reference_match(0, flat[1], 15), LERNAZHUP_LOST, 0, 7, 8));
    fact("I", is_matched(matched_between(0, 0, 1, 6), LERNAZHUP_DONE, 0, 6, 9));
    fact("J", is_matched(matched_between(0, 0, 1, 7), LERNAZHUP_LOST, 0, 7, 8));
    fact("J", is_matched(matched_between(0, 0, 1, 8), LERNAZHUP_LOST, 1, 7, 8));
    fact("J", is_matched(matched_between(0, 0, 1, 9), LERNAZHUP_DONE, 1, 6, 9));
    fact("0 and 9", is_matched(matched_between(1, 0, 9, 5), LERNAZHUP_DONE, 0, 5, 7));
    fact("9 and 0", is_matched(matched_between(1, 9, 0, 5), LERNAZHUP_DONE, 9, 5, 7));
    fact("0 and 10", is_matched(matched_between(2, 0, 10, 2), LERNAZHUP_DONE, 0, 2, 4));
    fact("10 and 0", is_matched(matched_between(2, 10, 0, 2), LERNAZHUP_DONE, 10, 2, 4));
    fact("the lowest on a tie", is_matched(matched_between(1, 9, 0, 6), LERNAZHUP_LOST, 0, 6, 6));
    fact("the lowest on a tie", is_matched(matched_between(2, 10, 0, 3), LERNAZHUP_LOST, 0, 3, 3));
}

/* A refusal: 0 but for number and place. */
static int is_refused(lernazhup_reading got, uint32_t number, uint32_t place)
{
    return got.number == number && got.place == place && got.n == 0 && got.count == 0
        && got.gap == 0 && got.polarity == 0;
}

/* A frame as written, or that inverted: nothing repaired, and a gap of the least distance. */
static int is_whole(lernazhup_reading got, uint32_t mode, uint32_t place, uint32_t n,
    uint32_t polarity)
{
    return got.number == LERNAZHUP_DONE && got.place == place && got.n == n && got.count == 0
        && got.gap == least_apart(mode) && got.polarity == polarity;
}

static int is_clean(lernazhup_reading got, uint32_t mode, uint32_t place, uint32_t n)
{
    return is_whole(got, mode, place, n, 0);
}

static uint8_t chips[LERNAZHUP_CHIPS_MAX];

static void start_octet(void)
{
    static const uint8_t encoded[] = { 1, 0, 1, 1, 1, 0, 0, 1 };
    uint32_t mode, i;

    for (mode = 1; mode < MODES; mode++) {
        uint32_t size = reference_chips(mode);

        reference_write(mode, NULL, 0, chips, sizeof chips);
        fact("K, modes 1 and 2", apart(chips + 8 * size, reference_word(mode, 7), size) == 0);
        fact("K, modes 1 and 2", apart(chips + 9 * size, reference_word(mode, 10), size) == 0);
    }
    reference_write(0, NULL, 0, chips, sizeof chips);
    for (i = 0; i < 8; i++)
        fact("K, mode 0", apart(chips + (32 + i) * 15, reference_word(0, encoded[i]), 15) == 0);
}

static const uint8_t report[128] = { 1, 2, 3, 4, 5 };

/* The chips of a frame: so many without a report, and so many more for each octet. The longest is
 * written into a room exactly long enough, and one short. */
static void lengths(uint32_t mode, uint32_t empty, uint32_t octet, uint32_t longest)
{
    uint32_t n;

    for (n = 0; n < 128; n++)
        fact("chips of a frame", reference_write(mode, report, n, chips, sizeof chips).chips == empty + octet * n);
    fact("127 octets", reference_write(mode, report, 127, chips, longest).chips == longest);
    fact("one chip short", reference_write(mode, report, 127, chips, longest - 1).number == LERNAZHUP_NOROOM);
    fact("128 octets", reference_write(mode, report, 128, chips, sizeof chips).number == LERNAZHUP_TOOLONG);
}

static void readings(void)
{
    uint8_t room[127];
    uint32_t mode;

    for (mode = 0; mode < MODES; mode++) {
        lernazhup_reading reading = reference_read(mode, chips, 0, room, 127);

        fact("no input", is_refused(reading, LERNAZHUP_RUNOUT, 0));
        reference_write(mode, report, 5, chips, sizeof chips);
        reading = reference_read(mode, chips, sizeof chips, room, 127);
        fact("reads back", is_clean(reading, mode, 11 * reference_per_octet(mode), 5));
        fact("reads back", memcmp(room, report, 5) == 0);
    }
    for (mode = 1; mode < MODES; mode++) {
        uint32_t length = reference_write(mode, report, 127, chips, sizeof chips).chips;
        lernazhup_reading reading = reference_read(mode, chips, length - 1, room, 127);

        fact("cut, modes 1 and 2", is_refused(reading, LERNAZHUP_RUNOUT, 265));
    }
    reference_write(1, report, 0, chips, sizeof chips);
    fact("bench, mode 0", is_refused(reference_read(0, chips, 384, room, 127), LERNAZHUP_LOST, 1));
    fact("bench, mode 1", is_clean(reference_read(1, chips, 384, room, 127), 1, 12, 0));
    fact("1 0 12 0 0 12", reference_read(1, chips, 384, room, 127).gap == 12);
    reference_write(2, report, 0, chips, sizeof chips);
    fact("empty report, mode 2", is_clean(reference_read(2, chips, 192, room, 127), 2, 12, 0));
}

/* The first five octets' frame with as many wrong chips in each symbol as accepted, which then are
 * put right one by one: the gap is the least that a frame can have or more, and never falls. */
static void put_right(uint32_t mode, uint32_t lowest)
{
    static uint8_t sent[LERNAZHUP_CHIPS_MAX];
    uint32_t size = reference_chips(mode), gap = lowest, s, c;
    uint32_t length = reference_write(mode, report, 5, sent, sizeof sent).chips;
    lernazhup_reading reading;
    uint8_t room[5];

    memcpy(chips, sent, length);
    for (s = 0; s * size < length; s++)
        for (c = 0; c < reference_limit(mode); c++)
            chips[s * size + (s + 2 * c) % size] ^= 1;
    for (c = 0; c < length; c++)
        if (chips[c] != sent[c]) {
            reading = reference_read(mode, chips, length, room, 5);
            fact("put right", reading.number == LERNAZHUP_DONE && reading.gap >= gap);
            gap = reading.gap;
            chips[c] = sent[c];
        }
    reading = reference_read(mode, chips, length, room, 5);
    fact("put right", is_clean(reading, mode, length / size, 5));
}

/* Mode 0: 15 less twice the wrong chips of the worst symbol. Modes 1 and 2: even. */
static void worst_symbols(void)
{
    uint8_t room[127];
    uint32_t mode, wrong;

    for (mode = 0; mode < MODES; mode++) {
        uint32_t size = reference_chips(mode);

        reference_write(mode, report, 5, chips, sizeof chips);
        for (wrong = 0; wrong < reference_limit(mode); wrong++) {
            uint32_t gap;

            chips[12 * size + wrong] ^= 1;
            chips[15 * size] ^= 1;
            gap = reference_read(mode, chips, sizeof chips, room, 127).gap;
            fact("worst symbol", mode == 0 ? gap == 15 - 2 * (wrong + 1) : gap % 2 == 0);
        }
    }
}

/* The frame of the first five octets, with the reserved bit or 0: its octets and its chips. */
struct five { uint8_t octets[6 + 5]; };

static struct five five_with(uint32_t reserved)
{
    struct five five = { { 0, 0, 0, 0, 0xA7, 5 } };

    five.octets[5] |= (uint8_t)reserved;
    memcpy(five.octets + 6, report, 5);
    return five;
}

static size_t spread_five(uint32_t mode, struct five five)
{
    return reference_spread(mode, five.octets, sizeof five.octets, chips);
}

/* A frame with the reserved bit set reads as the one without. In mode 0 it differs from it in every
 * chip from symbol 47 on, in modes 1 and 2 in symbol 11 alone. */
static void reserved_bit(void)
{
    static uint8_t plain[LERNAZHUP_CHIPS_MAX];
    uint8_t room[127];
    uint32_t mode;

    for (mode = 0; mode < MODES; mode++) {
        uint32_t size = reference_chips(mode), per_octet = reference_per_octet(mode);
        uint32_t symbols = 11 * per_octet, last = 6 * per_octet - 1, s;
        lernazhup_reading reading;

        reference_write(mode, report, 5, plain, sizeof plain);
        reading = reference_read(mode, chips, spread_five(mode, five_with(128)), room, 5);
        fact("reserved bit", is_clean(reading, mode, symbols, 5));
        fact("reserved bit", memcmp(room, report, 5) == 0);
        reading = reference_read(mode, chips, sizeof chips, room, 4);
        fact("reserved bit, 3", is_refused(reading, LERNAZHUP_NOROOM, last));
        for (s = 0; s < symbols; s++) {
            uint32_t places = apart(chips + s * size, plain + s * size, size);

            fact("reserved bit, chips", (places > 0) == (mode == 0 ? s >= last : s == last));
            fact("reserved bit, mode 0", mode != 0 || places == 0 || places == size);
        }
    }
}

/* Inverts the chips from one place to before another. */
static void invert(size_t from, size_t to)
{
    for (; from < to; from++)
        chips[from] ^= 1;
}

/* Whether the chips are those of a mode 0 frame with the chain started from a bit. */
static int is_chain(struct five five, uint32_t encoded)
{
    uint32_t s;

    for (s = 0; s < 88; s++) {
        encoded ^= five.octets[s / 8] >> s % 8 & 1;
        if (apart(chips + 15 * s, reference_word(0, encoded), 15) != 0)
            return 0;
    }
    return 1;
}

/* Inverted in every chip a mode 0 frame, with the reserved bit and without, is that of the chain
 * started from 1, and reads as before with polarity 1; in modes 1 and 2 symbol 0 is lost. */
static void inverted(uint32_t reserved)
{
    struct five five = five_with(reserved);
    uint8_t room[127];
    uint32_t mode;

    spread_five(0, five);
    fact("chain from 0", is_chain(five, 0));
    invert(0, 1320);
    fact("chain from 1", is_chain(five, 1));
    fact("inverted", is_whole(reference_read(0, chips, 1320, room, 127), 0, 88, 5, 1));
    fact("inverted", memcmp(room, report, 5) == 0);
    for (mode = 1; mode < MODES; mode++) {
        size_t length = spread_five(mode, five);

        invert(0, length);
        fact("inverted, modes 1 and 2",
            is_refused(reference_read(mode, chips, length, room, 127), LERNAZHUP_LOST, 0));
    }
}

/* What is read of it in mode 0 where the chips from symbol s on are inverted: one raw bit is the
 * other. In the preamble that is 7, in the start octet 8, at the reserved bit nothing, in the
 * report another one; in the length octet a shorter report, or one that there is no room for. */
static int is_turned(lernazhup_reading got, const uint8_t *room, uint32_t s)
{
    struct five five = five_with(0);

    if (s < 32)
        return is_refused(got, LERNAZHUP_PREAMBLE, s);
    if (s < 40)
        return is_refused(got, LERNAZHUP_BADSTART, 39);
    five.octets[s / 8] ^= (uint8_t)(1 << s % 8);
    five.octets[5] %= 128;
    if (five.octets[5] > 5)
        return is_refused(got, LERNAZHUP_NOROOM, 47);
    return is_clean(got, 0, 8 * (6u + five.octets[5]), five.octets[5])
        && memcmp(room, five.octets + 6, five.octets[5]) == 0;
}

static void turned_over(void)
{
    uint8_t room[5];
    uint32_t s;

    spread_five(0, five_with(0));
    for (s = 1; s < 88; s++) {
        invert(15 * s, 1320);
        fact("turned over", is_turned(reference_read(0, chips, 1320, room, 5), room, s));
        invert(15 * s, 1320);
    }
}

/* Only symbol 0 settles the polarity, whatever the others say: turned over alone it makes the next
 * one 7. Flat it is lost. */
static void first_symbol(void)
{
    uint8_t room[5];
    uint32_t b;

    spread_five(0, five_with(0));
    invert(0, 15);
    fact("symbol 0 alone turned over",
        is_refused(reference_read(0, chips, 1320, room, 5), LERNAZHUP_PREAMBLE, 1));
    for (b = 0; b < 2; b++) {
        memcpy(chips, flat[b], 15);
        fact("symbol 0 lost",
            is_refused(reference_read(0, chips, 1320, room, 5), LERNAZHUP_LOST, 0));
    }
}

/* A mode above 2 is refused whole; cut to 8 or 16 bits most of these would be a radio's. */
static void no_radio(void)
{
    static const uint32_t modes[] = { 3, 256, 258, 65536, 65538, 0x80000002, 0xFFFFFFFF };
    uint32_t i;

    for (i = 0; i < sizeof modes / sizeof modes[0]; i++) {
        lernazhup_written written = reference_write(modes[i], report, 0, chips, sizeof chips);
        lernazhup_reading reading = reference_read(modes[i], chips, 192, NULL, 0);
        lernazhup_step started = reference_start(modes[i]);

        fact("1, write", written.number == LERNAZHUP_BADMODE);
        fact("1, read", is_refused(reading, LERNAZHUP_BADMODE, 0));
        fact("1, start", started.number == LERNAZHUP_BADMODE && started.receiver.gap == UINT32_MAX
            && started.receiver.polarity == 0);
    }
}

/* What match refuses, in its order: a mode above 2, a part that isn't one symbol long, a byte that
 * isn't a chip. */
static void bad_parts(void)
{
    static const uint8_t part[33] = { 2 };
    uint32_t mode;

    fact("1 before 11", is_no_match(reference_match(3, NULL, 0), LERNAZHUP_BADMODE));
    fact("1 before 5", is_no_match(reference_match(3, part, 16), LERNAZHUP_BADMODE));
    for (mode = 0; mode < MODES; mode++) {
        uint32_t size = reference_chips(mode);

        fact("11", is_no_match(reference_match(mode, NULL, 0), LERNAZHUP_BADPART));
        fact("11 before 5", is_no_match(reference_match(mode, part, size - 1), LERNAZHUP_BADPART));
        fact("11 before 5", is_no_match(reference_match(mode, part, size + 1), LERNAZHUP_BADPART));
        fact("5", is_no_match(reference_match(mode, part, size), LERNAZHUP_NOCHIP));
    }
}

static const uint8_t zeros[126];

/* The standard's example, an acknowledgement with its FCS; the check value of catalogues; and a
 * report that isn't all zero but has the FCS 0. */
static const uint8_t acknowledgement[] = { 0x02, 0x00, 0x6A, 0xE4, 0x79 };
static const uint8_t digits[] = { '1', '2', '3', '4', '5', '6', '7', '8', '9' };
static const uint8_t fcs_zero[] = { 0x01, 0x89, 0x11, 0x00, 0x00 };

static void checks(void)
{
    uint32_t n;

    fact("published FCS", reference_fcs(acknowledgement, 3) == 0x79E4);
    fact("published FCS", reference_fcs(digits, 9) == 0x2189);
    fact("low octet first", reference_check(acknowledgement, 5) == LERNAZHUP_DONE);
    fact("FCS 0", reference_check(fcs_zero, 5) == LERNAZHUP_DONE);
    for (n = 0; n <= 126; n++)
        fact("zeros", reference_check(zeros, n) == (n < 3 ? LERNAZHUP_TOOFEW : LERNAZHUP_ALLZERO));
}

/* The checked writer's answer to a report for which no room is lent. */
static uint32_t roomless(uint32_t mode, const uint8_t *octets, size_t n)
{
    return reference_write_checked(mode, octets, n, NULL, 0).number;
}

static void checked_frames(void)
{
    uint8_t room[127];
    uint32_t mode;

    fact("1 before 14", roomless(3, NULL, 0) == LERNAZHUP_BADMODE);
    for (mode = 0; mode < MODES; mode++) {
        uint32_t symbols = 11 * reference_per_octet(mode), size = symbols * reference_chips(mode);
        lernazhup_written written = reference_write_checked(mode, acknowledgement, 3, chips, size);
        lernazhup_reading reading = reference_read_checked(mode, chips, size, room, 127);

        fact("14", roomless(mode, NULL, 0) == LERNAZHUP_TOOFEW);
        fact("2 before 16", roomless(mode, zeros, 126) == LERNAZHUP_TOOLONG);
        fact("16 before 3", roomless(mode, zeros, 125) == LERNAZHUP_ALLZERO);
        fact("125 octets", roomless(mode, report, 125) == LERNAZHUP_NOROOM);
        fact("two octets more", written.chips == size);
        fact("both counted", is_clean(reading, mode, symbols, 5));
        fact("both stored", memcmp(room, acknowledgement, 5) == 0);
        reference_write(mode, report, 5, chips, size);
        reading = reference_read_checked(mode, chips, size, room, 127);
        fact("15", is_refused(reading, LERNAZHUP_BADCHECK, symbols));
        fact("unchanged", memcmp(room, acknowledgement, 5) == 0);
    }
}

int facts_hold(void)
{
    all_hold = 1;
    printed_rows(1, rows_of_002);
    printed_rows(2, rows_of_000);
    words();
    single_symbols();
    matched_words();
    bad_parts();
    start_octet();
    fact("L", reference_write(1, report, 5, chips, sizeof chips).chips == 704);
    fact("L", reference_write(0, report, 5, chips, sizeof chips).chips == 1320);
    lengths(0, 720, 120, 15960);
    lengths(1, 384, 64, 8512);
    lengths(2, 192, 32, 4256);
    readings();
    put_right(0, 3);
    put_right(1, 2);
    put_right(2, 2);
    worst_symbols();
    reserved_bit();
    inverted(0);
    inverted(128);
    turned_over();
    first_symbol();
    no_radio();
    checks();
    checked_frames();
    return all_hold;
}
