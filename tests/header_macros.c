/* What the header works out by itself, held against the library: sizes by mode number, the calls
 * that keep the record, the version; and what its comment says of the gap and the polarity. */
#include <stdio.h>
#include <string.h>

#include "lernazhup.h"

static int passed, failed;

static void check(const char *what, unsigned long got, unsigned long want)
{
    if (got == want) {
        passed++;
    } else {
        failed++;
        printf("header, %s: %lu and not %lu\n", what, got, want);
    }
}

/* How many modes have a radio: the first number that none has. */
enum { MODES = 3 };

/* Of constants they are constants. */
static uint8_t chips[LERNAZHUP_FRAME_CHIPS(0, LERNAZHUP_REPORT_MAX)];
static uint8_t report[LERNAZHUP_REPORT_MAX];
#if LERNAZHUP_FRAME_CHIPS(1, 0) != 384 || LERNAZHUP_SYMBOL_CHIPS(2) > LERNAZHUP_SYMBOL_MAX
#error "sizes can't be asked for before compiling"
#endif

/* The writer wants so many chips, for every report, and not one less. */
static void frames(uint32_t mode)
{
    size_t n;
    for (n = 0; n <= LERNAZHUP_REPORT_MAX; n++) {
        size_t room = LERNAZHUP_FRAME_CHIPS(mode, n);
        check("chips of a frame", lernazhup_write(mode, report, n, chips, room).chips, room);
        check("with one less", lernazhup_write(mode, report, n, chips, room - 1).number,
              LERNAZHUP_NOROOM);
    }
}

/* The longest report that the FCS can be appended to fills a frame, and one more has no place. */
static void checked(uint32_t mode)
{
    size_t longest = LERNAZHUP_CHECKED_MAX;
    memset(report, 1, sizeof report);
    check("chips of the longest checked frame",
          lernazhup_write_checked(mode, report, longest, chips, sizeof chips).chips,
          LERNAZHUP_FRAME_CHIPS(mode, LERNAZHUP_REPORT_MAX));
    check("one octet more",
          lernazhup_write_checked(mode, report, longest + 1, chips, sizeof chips).number,
          LERNAZHUP_TOOLONG);
}

/* The first symbol with so many chips wrong. */
static lernazhup_reading damaged(uint32_t mode, unsigned many)
{
    unsigned k;
    lernazhup_write(mode, report, 0, chips, sizeof chips);
    for (k = 0; k < many; k++)
        chips[k] ^= 1;
    return lernazhup_read(mode, chips, LERNAZHUP_FRAME_CHIPS(mode, 0), report, 0);
}

/* As written, with as many chips wrong as may be, and refused. */
static void gaps(uint32_t mode)
{
    static const uint32_t written[MODES] = {15, 12, 6}, least[MODES] = {3, 2, 2};
    unsigned accepted = LERNAZHUP_ACCEPTED(mode);
    check("the gap of a frame as written", damaged(mode, 0).gap, written[mode]);
    check("at least the smallest", damaged(mode, accepted).gap >= least[mode], 1);
    check("the gap of a refusal", damaged(mode, accepted + 1).gap, 0);
}

/* The frame of five octets and their FCS, inverted from a chip on. */
static lernazhup_reading turned_at(uint32_t mode, size_t from, size_t length)
{
    uint8_t back[LERNAZHUP_REPORT_MAX];
    lernazhup_write_checked(mode, report, 5, chips, sizeof chips);
    for (; from < length; from++)
        chips[from] ^= 1;
    return lernazhup_read_checked(mode, chips, length, back, sizeof back);
}

/* What comes of that in mode 0, where the first symbol to be read as inverted isn't one of n's in
 * the length octet. */
static uint32_t number_turned(size_t symbol, size_t symbols)
{
    if (symbol == 0 || symbol == 47 || symbol == symbols)
        return LERNAZHUP_DONE;
    if (symbol < 40)
        return symbol < 32 ? LERNAZHUP_PREAMBLE : LERNAZHUP_BADSTART;
    return LERNAZHUP_BADCHECK;
}

/* From each chip on. A symbol with up to six chips as sent is read as inverted, one with nine or
 * more as sent, and any other is lost. */
static void turned_over(void)
{
    size_t length = LERNAZHUP_FRAME_CHIPS(0, 7), from;
    for (from = 0; from < length; from++) {
        size_t sent = from % 15, symbol = from / 15 + (sent > 8);
        lernazhup_reading reading = turned_at(0, from, length);
        if (sent == 7 || sent == 8)
            check("inverted in the midst of a symbol", reading.number, LERNAZHUP_LOST);
        else if (symbol >= 40 && symbol < 47)
            check("another length is refused", reading.number != LERNAZHUP_DONE, 1);
        else
            check("inverted from a chip on", reading.number, number_turned(symbol, length / 15));
        check("its polarity", reading.polarity, from < 7);
    }
}

/* In the length octet: one octet too short, a report whose FCS has a high octet of 0 passes. */
static void one_too_short(void)
{
    static const uint8_t sent[9] = {0x41, 0x88, 1, 2, 3, 4, 5, 6, 0x3E};
    uint8_t back[LERNAZHUP_REPORT_MAX];
    size_t length = LERNAZHUP_FRAME_CHIPS(0, 11), from;
    lernazhup_reading reading;
    lernazhup_write_checked(0, sent, 9, chips, sizeof chips);
    for (from = 40 * 15; from < length; from++)
        chips[from] ^= 1;
    reading = lernazhup_read_checked(0, chips, length, back, sizeof back);
    check("a high octet of 0", lernazhup_fcs(sent, 9) < 256, 1);
    check("one octet too short", reading.number, LERNAZHUP_DONE);
    check("its n", reading.n, 10);
}

static void one_polarity(uint32_t mode)
{
    size_t size = LERNAZHUP_SYMBOL_CHIPS(mode), length = LERNAZHUP_FRAME_CHIPS(mode, 7), from;
    for (from = 0; from < length; from += size) {
        lernazhup_reading reading = turned_at(mode, from, length);
        check("inverted in a mode with one polarity", reading.number, LERNAZHUP_LOST);
        check("its polarity", reading.polarity, 0);
    }
}

static void symbols(uint32_t mode)
{
    size_t size = LERNAZHUP_SYMBOL_CHIPS(mode), k;
    lernazhup_receiver receiver = lernazhup_start(mode).receiver;
    lernazhup_write(mode, report, 0, chips, sizeof chips);
    check("no longer than the longest", size <= LERNAZHUP_SYMBOL_MAX, 1);
    for (k = 0; k <= LERNAZHUP_SYMBOL_MAX + 1; k++) {
        check("chips of a symbol", lernazhup_push(receiver, chips, k).number,
              k == size ? LERNAZHUP_MORE : LERNAZHUP_BADPART);
        check("chips to match", lernazhup_match(mode, chips, k).number,
              k == size ? LERNAZHUP_DONE : LERNAZHUP_BADPART);
    }
    check("wrong chips accepted", damaged(mode, LERNAZHUP_ACCEPTED(mode)).number, LERNAZHUP_DONE);
    check("one more", damaged(mode, LERNAZHUP_ACCEPTED(mode) + 1).number, LERNAZHUP_LOST);
}

/* A call that keeps the record against one that gives it back: the same number, the same record up
 * to its last octet, behind which the struct has a byte of padding. */
static void same(lernazhup_step step, uint32_t number, const lernazhup_receiver *kept)
{
    size_t fields = offsetof(lernazhup_receiver, octets) + sizeof kept->octets;
    check("number of a call that keeps the record", number, step.number);
    check("record of a call that keeps it", memcmp(kept, &step.receiver, fields) == 0, 1);
}

static void kept(uint32_t mode, size_t length)
{
    size_t size = LERNAZHUP_SYMBOL_CHIPS(mode), at;
    lernazhup_receiver receiver;
    lernazhup_step step = lernazhup_start(mode);
    same(step, lernazhup_start_into(&receiver, mode), &receiver);
    for (at = 0; at + size <= length && size > 0; at += size) {
        step = lernazhup_push(step.receiver, chips + at, size);
        same(step, lernazhup_push_into(&receiver, chips + at, size), &receiver);
    }
    step = lernazhup_finish(step.receiver);
    same(step, lernazhup_finish_into(&receiver), &receiver);
}

int main(void)
{
    uint32_t mode;
    char text[32] = "";
    for (mode = 0; mode < MODES; mode++) {
        frames(mode);
        checked(mode);
        symbols(mode);
        gaps(mode);
        if (mode == 0) {
            turned_over();
            one_too_short();
        } else {
            one_polarity(mode);
        }
        lernazhup_write(mode, report, 5, chips, sizeof chips);
        kept(mode, LERNAZHUP_FRAME_CHIPS(mode, 5));
        kept(mode, LERNAZHUP_FRAME_CHIPS(mode, 5) - 1);
    }
    for (; mode < MODES + 2; mode++) {
        check("a symbol of a mode that no radio has", LERNAZHUP_SYMBOL_CHIPS(mode), 0);
        check("wrong chips accepted there", LERNAZHUP_ACCEPTED(mode), 0);
        check("a frame there", LERNAZHUP_FRAME_CHIPS(mode, 1), 0);
        kept(mode, 0);
    }
    check("the longest symbol", LERNAZHUP_SYMBOL_MAX, 32);
    check("the mode an expression", LERNAZHUP_SYMBOL_CHIPS(text[0] ? 1 : 0), 15);
    check("n an expression", LERNAZHUP_FRAME_CHIPS(1, text[0] ? 1 : 2), 512);
    check("the longest frame of mode 0", LERNAZHUP_CHIPS_MAX_MODE0, LERNAZHUP_FRAME_CHIPS(0, 127));
    check("of mode 1", LERNAZHUP_CHIPS_MAX_MODE1, LERNAZHUP_FRAME_CHIPS(1, 127));
    check("of mode 2", LERNAZHUP_CHIPS_MAX_MODE2, LERNAZHUP_FRAME_CHIPS(2, 127));
    snprintf(text, sizeof text, "%d.%d.%d", LERNAZHUP_VERSION_MAJOR, LERNAZHUP_VERSION_MINOR,
             LERNAZHUP_VERSION_PATCH);
    check("the version as numbers", strcmp(text, LERNAZHUP_VERSION) == 0, 1);
    check("the library's version", strcmp(lernazhup_version(), LERNAZHUP_VERSION) == 0, 1);
    printf("header against library: %d values, %d wrong\n", passed + failed, failed);
    return failed != 0;
}
