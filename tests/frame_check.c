/* The frame check held to what others say of it: the published check values; frames that scapy
 * made, from standard input, a line each (name, colon, octets in hex); what the header says that an
 * FCS finds for certain, tried out on them; and captures of mode 1.
 *   frame_check FRAMES [CAPTURE NUMBER].. <frames      how many frames there are, one of them the
 *                                                      longest; what the checked reader answers */
#include <stdio.h>
#include <stdlib.h>
#include <string.h>

#include "lernazhup.h"

static unsigned long passed, failed;
static char name[80];
static uint8_t chips[LERNAZHUP_CHIPS_MAX];

static void check(const char *what, unsigned long got, unsigned long want)
{
    if (got == want) {
        passed++;
    } else {
        failed++;
        printf("frame check, %s, %s: %lu and not %lu\n", name, what, got, want);
    }
}

/* By the table and bit by bit. */
static void check_fcs(const uint8_t *octets, size_t n, uint32_t fcs)
{
    check("FCS by the table", lernazhup_fcs(octets, n), fcs);
    check("FCS bit by bit", lernazhup_fcs_bitwise(octets, n), fcs);
}

/* The acknowledgement that the standard works out, and the check value by which catalogues tell one
 * such check from another. */
static void published(void)
{
    static const uint8_t acknowledgement[] = {0x02, 0x00, 0x6A};
    strcpy(name, "published");
    check_fcs(acknowledgement, sizeof acknowledgement, 0x79E4);
    check_fcs((const uint8_t *)"123456789", 9, 0x2189);
}

static void check_reading(uint32_t mode, const uint8_t *octets, size_t n, uint32_t polarity)
{
    uint8_t report[LERNAZHUP_REPORT_MAX];
    size_t length = LERNAZHUP_FRAME_CHIPS(mode, n);
    lernazhup_reading reading = lernazhup_read_checked(mode, chips, length, report, sizeof report);
    check("number", reading.number, LERNAZHUP_DONE);
    check("place", reading.place, length / LERNAZHUP_SYMBOL_CHIPS(mode));
    check("n", reading.n, n);
    check("count", reading.count, 0);
    check("gap", reading.gap, LERNAZHUP_BY_MODE(mode, 15u, 12u, 6u));
    check("polarity", reading.polarity, polarity);
    check("octets read", memcmp(report, octets, n) == 0, 1);
}

/* The chips of mode 0, as a front end gives them that locked the wrong way round. */
static void invert(size_t n)
{
    size_t at;
    for (at = 0; at < LERNAZHUP_FRAME_CHIPS(0, n); at++)
        chips[at] ^= 1;
}

/* The chips of a value: the first symbol of a report of that octet alone, behind a header which
 * leaves the chain of mode 0 at 0. */
static void make_word(uint32_t mode, uint8_t value, uint8_t *word)
{
    uint8_t frame[LERNAZHUP_FRAME_CHIPS(0, 1)];
    lernazhup_write(mode, &value, 1, frame, sizeof frame);
    memcpy(word, frame + LERNAZHUP_FRAME_CHIPS(mode, 0), LERNAZHUP_SYMBOL_CHIPS(mode));
}

/* Another word in the place of one symbol of the report, each symbol and each word in turn. */
static void misread(uint32_t mode, size_t n)
{
    uint8_t word[LERNAZHUP_SYMBOL_MAX], kept[LERNAZHUP_SYMBOL_MAX], report[LERNAZHUP_REPORT_MAX];
    size_t size = LERNAZHUP_SYMBOL_CHIPS(mode), length = LERNAZHUP_FRAME_CHIPS(mode, n), at;
    unsigned value, values = mode == 0 ? 2 : 16;
    for (value = 0; value < values; value++) {
        make_word(mode, (uint8_t)value, word);
        for (at = LERNAZHUP_FRAME_CHIPS(mode, 0); at < length; at += size) {
            memcpy(kept, chips + at, size);
            if (memcmp(kept, word, size) == 0)
                continue;
            memcpy(chips + at, word, size);
            check("one symbol misread",
                  lernazhup_read_checked(mode, chips, length, report, sizeof report).number,
                  LERNAZHUP_BADCHECK);
            memcpy(chips + at, kept, size);
        }
    }
}

static void flip(uint8_t *octets, size_t bit)
{
    octets[bit / 8] ^= (uint8_t)(1u << bit % 8);
}

/* Those bits from one on that are set in a number. */
static void flip_all(uint8_t *octets, size_t from, unsigned long bits)
{
    for (; bits != 0; bits >>= 1, from++)
        if (bits & 1)
            flip(octets, from);
}

/* Every change whose bits all lie within 16 in a row. */
static void runs(uint8_t *octets, size_t n)
{
    unsigned long bits;
    size_t from;
    for (from = 0; from < 8 * n; from++)
        for (bits = 1; bits < 65536 && bits >> (8 * n - from) == 0; bits += 2) {
            flip_all(octets, from, bits);
            check("16 bits in a row", lernazhup_check(octets, n), LERNAZHUP_BADCHECK);
            flip_all(octets, from, bits);
        }
}

/* Every choice of up to so many wrong bits, from one bit on. */
static void few(uint8_t *octets, size_t n, size_t from, unsigned many)
{
    size_t bit;
    for (bit = from; bit < 8 * n; bit++) {
        flip(octets, bit);
        check("a few wrong bits", lernazhup_check(octets, n), LERNAZHUP_BADCHECK);
        if (many > 1)
            few(octets, n, bit + 1, many - 1);
        flip(octets, bit);
    }
}

/* Each bit wrong or not, as a coin falls; and one more where they are even in number. */
static void odd(const uint8_t *octets, size_t n)
{
    enum { TRIES = 20000 };
    static uint32_t state = 1;
    uint8_t wrong[LERNAZHUP_REPORT_MAX];
    unsigned tries, count;
    size_t bit;
    for (tries = 0; tries < TRIES; tries++) {
        memcpy(wrong, octets, n);
        for (count = 0, bit = 1; bit < 8 * n; bit++) {
            state = state * 1664525u + 1013904223u;
            if (state >> 31) {
                flip(wrong, bit);
                count++;
            }
        }
        if (count % 2 == 0)
            flip(wrong, 0);
        check("an odd number of wrong bits", lernazhup_check(wrong, n), LERNAZHUP_BADCHECK);
    }
}

/* The next line's name and octets; no octets where it has none or there is no more of them. */
static size_t next_frame(uint8_t *octets)
{
    char line[512], *rest;
    unsigned octet;
    int width, from = 0;
    size_t n = 0;
    if (fgets(line, sizeof line, stdin) == NULL)
        return 0;
    sscanf(line, "%79[^:]:%n", name, &from);
    for (rest = line + from; from > 0 && sscanf(rest, "%2x%n", &octet, &width) == 1; rest += width)
        if (n < LERNAZHUP_REPORT_MAX)
            octets[n++] = (uint8_t)octet;
    return n;
}

static void capture(const char *file, const char *number)
{
    uint8_t report[LERNAZHUP_REPORT_MAX];
    FILE *raw = fopen(file, "rb");
    size_t length = raw == NULL ? 0 : fread(chips, 1, sizeof chips, raw);
    if (raw != NULL)
        fclose(raw);
    snprintf(name, sizeof name, "%s", file);
    check("number", lernazhup_read_checked(1, chips, length, report, sizeof report).number,
          strtoul(number, NULL, 10));
}

/* A frame of scapy's, by every call and in every mode, in mode 0 either way round. */
static void whole_frame(const uint8_t *octets, size_t n)
{
    uint32_t mode;
    check_fcs(octets, n - 2, octets[n - 2] + 256u * octets[n - 1]);
    check("the whole frame", lernazhup_check(octets, n), LERNAZHUP_DONE);
    for (mode = 0; LERNAZHUP_SYMBOL_CHIPS(mode) > 0; mode++) {
        check("chips", lernazhup_write_checked(mode, octets, n - 2, chips, sizeof chips).chips,
              LERNAZHUP_FRAME_CHIPS(mode, n));
        check_reading(mode, octets, n, 0);
        misread(mode, n);
        if (mode == 0) {
            invert(n);
            check_reading(mode, octets, n, 1);
            misread(mode, n);
        }
    }
}

int main(int count, char **arguments)
{
    int k;
    uint8_t octets[LERNAZHUP_REPORT_MAX];
    unsigned long frames = 0, longest = 0;
    size_t n;
    published();
    for (; (n = next_frame(octets)) > 2; frames++) {
        whole_frame(octets, n);
        odd(octets, n);
        few(octets, n, 0, n < 16 ? 3 : 2); /* of three in a long one there would be millions */
        if (frames == 0)
            runs(octets, n);
        longest += n == LERNAZHUP_REPORT_MAX;
    }
    strcpy(name, "all");
    check("frames", frames, count > 1 ? strtoul(arguments[1], NULL, 10) : 0);
    check("of the longest", longest > 0, 1);
    for (k = 2; k + 1 < count; k += 2)
        capture(arguments[k], arguments[k + 1]);
    printf("frame check: %lu frames, %lu values, %lu wrong\n", frames, passed + failed, failed);
    return failed != 0 || !feof(stdin);
}
