/* An example gateway, in the checked profile: a report goes out as chips with its FCS behind it,
 * and is read back, whole and symbol by symbol: as sent, inverted by a front end that locked the
 * wrong way round (mode 0 reads that, too), and with chips damaged on their way. Where a symbol is
 * misread, the aerial is pulled or the front end off in the middle of the frame, or a rope is
 * unplugged, the same calls refuse: a rope that cannot be heard is not a dry one. Last comes a
 * stream of chips with two frames somewhere in it, which are found by trying.
 *   gateway [MODE]          0, 1 or 2; 1 where none is named */
#include <stdio.h>
#include <stdlib.h>
#include <string.h>

#include "lernazhup.h"

/* Wrong chips up to the accepted distance in each symbol, and never the same ones twice running. */
static unsigned damage(uint8_t *chips, size_t length, size_t size, unsigned limit)
{
    unsigned wrong = 0;
    size_t at;
    for (at = 0; at + size <= length; at += size) {
        size_t symbol = at / size;
        unsigned many = (unsigned)(symbol % (limit + 1)), k;
        for (k = 0; k < many; k++)
            chips[at + (symbol + 2 * k) % size] ^= 1;
        wrong += many;
    }
    return wrong;
}

/* What a gap says to whoever places the aerial. None is larger than that of a frame as sent. A
 * wrong chip may take two off it; where as many as are accepted all did, one more in that symbol is
 * a lost frame. */
static const char *closeness(uint32_t mode, uint32_t gap)
{
    uint32_t best = LERNAZHUP_BY_MODE(mode, 15u, 12u, 6u);
    if (gap == best)
        return "the best there is";
    return gap == best - 2 * LERNAZHUP_ACCEPTED(mode) ? "at the edge" : "in between";
}

/* The answer in words, the report without the two octets of its FCS. Before the call the report
 * buffer was full of blanks: a refusal leaves it so. */
static void tell(const char *how, uint32_t mode, lernazhup_reading answer, const uint8_t *report)
{
    size_t kept = 0;
    printf("  %s: %u, %s", how, (unsigned)answer.number, lernazhup_meaning(answer.number));
    if (answer.number == LERNAZHUP_DONE) {
        printf(": '%.*s', %u symbols, %u chips repaired, ", (int)answer.n - 2, (const char *)report,
               (unsigned)answer.place, (unsigned)answer.count);
        printf("gap %u, %s%s\n", (unsigned)answer.gap, closeness(mode, answer.gap),
               answer.polarity ? ", inverted" : "");
        return;
    }
    while (kept < LERNAZHUP_REPORT_MAX && report[kept] == ' ')
        kept++;
    printf(", at symbol %u, %s\n", (unsigned)answer.place,
           kept == LERNAZHUP_REPORT_MAX ? "nothing stored" : "REPORT CHANGED");
}

static void read_whole(uint32_t mode, const uint8_t *chips, size_t length)
{
    uint8_t report[LERNAZHUP_REPORT_MAX];
    memset(report, ' ', sizeof report);
    tell("whole", mode, lernazhup_read_checked(mode, chips, length, report, sizeof report), report);
}

/* What lernazhup_read_checked gives, of a receiver; the report has room for LERNAZHUP_REPORT_MAX
 * octets. The receiver is plain: take stores whatever was read, so it is given octets aside, and
 * only those that pass become the report. */
static lernazhup_reading take_checked(lernazhup_receiver receiver, uint8_t *report)
{
    uint8_t octets[LERNAZHUP_REPORT_MAX];
    lernazhup_reading answer = lernazhup_take(receiver, octets, sizeof octets);
    if (answer.number == LERNAZHUP_DONE)
        answer.number = lernazhup_check(octets, answer.n);
    if (answer.number == LERNAZHUP_DONE)
        memcpy(report, octets, answer.n);
    else
        answer.n = answer.count = answer.gap = answer.polarity = 0;
    return answer;
}

/* As a front end would hand them over: a symbol at a call, until the record ends or nothing more
 * comes. */
static void read_by_symbol(uint32_t mode, const uint8_t *chips, size_t length)
{
    uint8_t report[LERNAZHUP_REPORT_MAX];
    lernazhup_receiver receiver;
    uint32_t number = lernazhup_start_into(&receiver, mode);
    size_t size = LERNAZHUP_SYMBOL_CHIPS(mode), at;
    memset(report, ' ', sizeof report);
    for (at = 0; number == LERNAZHUP_MORE && length - at >= size; at += size)
        number = lernazhup_push_into(&receiver, chips + at, size);
    if (number == LERNAZHUP_MORE)
        lernazhup_finish_into(&receiver);
    tell("by symbol", mode, take_checked(receiver, report), report);
}

static void read_both_ways(const char *when, uint32_t mode, const uint8_t *chips, size_t length)
{
    printf("%s\n", when);
    read_whole(mode, chips, length);
    read_by_symbol(mode, chips, length);
}

/* The frames of a stream, found by trying one chip after the other as a beginning. This stream has
 * ended: while one goes on, LERNAZHUP_RUNOUT means to wait at this chip for more. */
static void find_frames(uint32_t mode, const uint8_t *stream, size_t length)
{
    uint8_t report[LERNAZHUP_REPORT_MAX];
    char where[32];
    size_t at = 0;
    while (at < length) {
        lernazhup_reading answer =
            lernazhup_read_checked(mode, stream + at, length - at, report, sizeof report);
        if (answer.number == LERNAZHUP_DONE) {
            snprintf(where, sizeof where, "at chip %u", (unsigned)at);
            tell(where, mode, answer, report);
            at += (size_t)answer.place * LERNAZHUP_SYMBOL_CHIPS(mode);
        } else {
            at++;
        }
    }
}

/* Chips of noise, the same ones on every machine. */
static void noise(uint8_t *chips, size_t length)
{
    static uint32_t state = 1;
    size_t at;
    for (at = 0; at < length; at++) {
        state = state * 1664525u + 1013904223u;
        chips[at] = (uint8_t)(state >> 31);
    }
}

/* A mode number in digits; all else, and what 32 bits don't hold, is a mode without a radio. */
static uint32_t mode_of(const char *text)
{
    unsigned long number = strtoul(text, NULL, 10);
    int digits = text[0] != 0 && text[strspn(text, "0123456789")] == 0;
    return digits && number <= UINT32_MAX ? (uint32_t)number : UINT32_MAX;
}

/* The next symbol that isn't the preamble's becomes that one: every symbol reads, and only the FCS
 * can tell. */
static void misread(uint32_t mode, uint8_t *chips, size_t length, size_t at)
{
    uint8_t kept[LERNAZHUP_SYMBOL_MAX];
    size_t size = LERNAZHUP_SYMBOL_CHIPS(mode);
    while (at + size < length && memcmp(chips + at, chips, size) == 0)
        at += size;
    memcpy(kept, chips + at, size);
    memcpy(chips + at, chips, size);
    printf("symbol %u another code word, ", (unsigned)(at / size));
    read_both_ways("which only the FCS can tell", mode, chips, length);
    memcpy(chips + at, kept, size);
}

/* What a front end does that locked the wrong way round. The report is the same either way: the
 * polarity is for whoever looks after the front end. */
static void invert(uint8_t *chips, size_t length)
{
    size_t at;
    for (at = 0; at < length; at++)
        chips[at] ^= 1;
}

/* One report, as sent, inverted, misread, damaged, and with the aerial pulled or the front end off
 * in its midst. */
static void one_frame(uint32_t mode, uint8_t *chips, size_t length)
{
    size_t size = LERNAZHUP_SYMBOL_CHIPS(mode), pulled = length / size * 3 / 4;
    read_both_ways("as sent", mode, chips, length);
    invert(chips, length);
    read_both_ways("every chip inverted, which only mode 0 reads", mode, chips, length);
    invert(chips, length);
    misread(mode, chips, length, pulled * size);
    printf("%u chips wrong, ", damage(chips, length, size, LERNAZHUP_ACCEPTED(mode)));
    read_both_ways("none past the accepted distance of its symbol", mode, chips, length);
    memset(chips + pulled * size, 0, length - pulled * size);
    printf("aerial pulled at symbol %u, ", (unsigned)pulled);
    read_both_ways("flat chips from there", mode, chips, length);
    read_both_ways("front end off at that symbol, and no chips at all from there", mode, chips,
                   pulled * size);
}

/* What a module sends in the plain profile when its rope is unplugged. Its FCS is right. */
static void zeros(uint32_t mode, uint8_t *chips, size_t room)
{
    static const uint8_t unplugged[8] = {0};
    lernazhup_written out = lernazhup_write(mode, unplugged, sizeof unplugged, chips, room);
    read_both_ways("a rope unplugged, every octet 0", mode, chips, out.chips);
}

/* Noise, a frame, noise, another frame, noise. */
static void two_frames(uint32_t mode)
{
    static const char *const texts[] = {"rope 12 wet", "rope 7 dry"};
    static uint8_t stream[2 * LERNAZHUP_CHIPS_MAX];
    size_t length = 1000, k;
    noise(stream, sizeof stream);
    for (k = 0; k < 2; k++) {
        uint8_t *frame = stream + length;
        lernazhup_written out = lernazhup_write_checked(
            mode, (const uint8_t *)texts[k], strlen(texts[k]), frame, sizeof stream - length);
        damage(frame, out.chips, LERNAZHUP_SYMBOL_CHIPS(mode), LERNAZHUP_ACCEPTED(mode));
        length += out.chips + 500;
    }
    printf("a stream of %u chips, two frames in noise\n", (unsigned)length);
    find_frames(mode, stream, length);
}

int main(int count, char **arguments)
{
    static const char text[] = "rope 12 wet";
    static uint8_t chips[LERNAZHUP_CHIPS_MAX];
    uint32_t mode = count > 1 ? mode_of(arguments[1]) : 1;
    lernazhup_written out =
        lernazhup_write_checked(mode, (const uint8_t *)text, strlen(text), chips, sizeof chips);
    if (out.number != LERNAZHUP_DONE) {
        fprintf(stderr, "%u, %s\n", (unsigned)out.number, lernazhup_meaning(out.number));
        return 1;
    }
    printf("'%s' in mode %u: %u chips\n", text, (unsigned)mode, (unsigned)out.chips);
    one_frame(mode, chips, out.chips);
    zeros(mode, chips, sizeof chips);
    two_frames(mode);
    return 0;
}
