/* Writings, readings, matchings, checks and records, run over the archive and printed, a line each,
 * to be compared with tests/vectors.said. Those lines were worked out from the rules of the scope
 * by a model that is not kept here, and not by this code (what a receiver holds between symbols,
 * which the document doesn't say, from the definition).
 *
 * Places and lengths are tested before they are used. A case that didn't fit would print no line,
 * and the comparison would show that. */
#include <inttypes.h>
#include <stdio.h>
#include <string.h>

#include "lernazhup.h"

enum { LONGEST = 15960, REPORT = 127, LENT = 200 };

/* How many modes have a radio: the first number that none has. */
enum { MODES = 3 };

/* What a lent buffer holds before each call. No octet that is sent has this value, so a stored one
 * is a changed one. */
enum { BEFORE = 0xEE };

/* The highest number that a field can hold. */
#define MOST UINT32_MAX

/* Chips or octets that are lent and stay as they are. */
struct slice {
    const uint8_t *first;
    size_t count;
};

static struct slice slice(const uint8_t *first, size_t count)
{
    return (struct slice){first, count};
}

/* ---- The radios ---- */

/* Chips in a symbol, the accepted distance, and symbols of an octet; mode 1's where none has it. */
struct radio {
    uint32_t size, limit, per_octet;
};

static struct radio radio_of(uint32_t mode)
{
    uint32_t known = mode < MODES ? mode : 1, size = LERNAZHUP_SYMBOL_CHIPS(known);
    return (struct radio){size, LERNAZHUP_ACCEPTED(known), LERNAZHUP_FRAME_CHIPS(known, 0) / 6 / size};
}

static uint32_t symbols_in(uint32_t mode, uint32_t octets)
{
    return octets * radio_of(mode).per_octet;
}

/* The place of an octet's first chip in the frame, which is also where the octet before it ends. */
static size_t octet_at(uint32_t mode, uint32_t octet)
{
    return (size_t)symbols_in(mode, octet) * radio_of(mode).size;
}

/* ---- Frames ---- */

/* Which frame is written, what is done to its chips, and how much of them and of the report buffer
 * the reader is lent. It is written in one mode and read in another where the case is a mode
 * without a radio. Changed are `count` chips from `at` on, and again after each `step` chips: a 0
 * becomes `zero`, and all else `one`. */
struct frame {
    uint32_t written, read;
    size_t octets, chips, room, at, count, step;
    uint8_t zero, one;
};

/* The whole frame of so many octets, as it was written, with room for any report. The step is as
 * long as the buffer, so a change is made once. */
static struct frame frame_of(uint32_t mode, uint32_t octets)
{
    return (struct frame){.written = mode, .read = mode, .octets = octets, .chips = octet_at(mode, 6 + octets),
                          .room = REPORT, .step = LONGEST, .one = 1};
}

static struct frame with_room(struct frame frame, size_t room)
{
    frame.room = room;
    return frame;
}

static struct frame with_chips(struct frame frame, size_t chips)
{
    frame.chips = chips;
    return frame;
}

static struct frame read_as(struct frame frame, uint32_t mode)
{
    frame.read = mode;
    return frame;
}

/* One byte in the place of each of so many chips. */
static struct frame put(struct frame frame, size_t at, size_t count, uint8_t byte)
{
    frame.at = at;
    frame.count = count;
    frame.zero = frame.one = byte;
    return frame;
}

/* So many chips inverted. */
static struct frame flip(struct frame frame, size_t at, size_t count)
{
    frame.at = at;
    frame.count = count;
    frame.zero = 1;
    frame.one = 0;
    return frame;
}

/* The same in every symbol from there on. */
static struct frame every(struct frame frame, size_t size)
{
    frame.step = size;
    return frame;
}

/* So many first chips of every symbol wrong. */
static struct frame worn(struct frame frame, size_t wrong)
{
    return every(flip(frame, 0, wrong), radio_of(frame.read).size);
}

/* Every chip inverted but so many first ones of every symbol, which are wrong in the inverse. */
static struct frame inverse(struct frame frame, size_t wrong)
{
    size_t size = radio_of(frame.read).size;
    return every(flip(frame, wrong, size - wrong), size);
}

static void change(struct frame frame, uint8_t chips[LONGEST])
{
    size_t i;
    if (frame.step == 0)
        return;
    for (i = frame.at; i < LONGEST; i++)
        if ((i - frame.at) % frame.step < frame.count)
            chips[i] = chips[i] == 0 ? frame.zero : frame.one;
}

/* Octets that differ from one to the next. */
static uint8_t sample[REPORT];

static void make_sample(void)
{
    size_t i;
    for (i = 0; i < REPORT; i++)
        sample[i] = (uint8_t)((i * 37 + 11) % 233);
}

/* The chips of a frame, its change made. Bytes behind the frame are 255, which is no chip. */
static void make(struct frame frame, uint8_t chips[LONGEST])
{
    memset(chips, 255, LONGEST);
    if (frame.octets > REPORT)
        return;
    lernazhup_write(frame.written, sample, frame.octets, chips, LONGEST);
    change(frame, chips);
}

/* ---- What is printed of an answer ---- */

static size_t changed(const uint8_t *lent, size_t length)
{
    size_t i, count = 0;
    for (i = 0; i < length; i++)
        count += lent[i] != BEFORE;
    return count;
}

static void print_octets(size_t n, const uint8_t lent[LENT])
{
    size_t i;
    printf("[");
    for (i = 0; i < n; i++)
        printf("%02x", lent[i]);
    printf("]");
}

/* Whether the report is the one sent, and its octets. */
static void tell(size_t n, struct slice sent, const uint8_t lent[LENT])
{
    if (n > LENT)
        return;
    printf(", %sas sent ", n == sent.count && memcmp(lent, sent.first, n) == 0 ? "" : "not ");
    print_octets(n, lent);
}

/* The six numbers and what became of the lent buffer. The line goes on. */
static void answered(lernazhup_reading reading, struct slice sent, const uint8_t lent[LENT])
{
    printf("%" PRIu32 " %" PRIu32 " %" PRIu32, reading.number, reading.place, reading.n);
    printf(" %" PRIu32 " %" PRIu32 " %" PRIu32 ", %zu changed", reading.count, reading.gap,
           reading.polarity, changed(lent, LENT));
    if (reading.number == LERNAZHUP_DONE)
        tell(reading.n, sent, lent);
}

/* ---- Writings ---- */

/* So many octets written into so much of a lent buffer. What is printed of the chips is how many
 * bytes they changed: that they are the right ones shows where they are read. */
static void writing(const char *what, uint32_t mode, size_t octets, size_t room)
{
    uint8_t report[REPORT + 1], chips[LONGEST];
    lernazhup_written written;
    if (octets > sizeof report || room > LONGEST)
        return;
    memset(report, 'Z', sizeof report);
    memset(chips, BEFORE, LONGEST);
    written = lernazhup_write(mode, report, octets, chips, room);
    printf("%s: write %" PRIu32 " octets %zu room %zu gives ", what, mode, octets, room);
    printf("%" PRIu32 " %" PRIu32 ", %zu changed\n", written.number, written.chips, changed(chips, LONGEST));
}

/* Just enough room and a byte less, for no octets, for five and for the most; one octet more than
 * that; and a number that would be this mode, were it cut to 8 or 16 bits. */
static void writings_of(uint32_t mode)
{
    static const uint32_t octets[] = {0, 5, REPORT};
    size_t k;
    for (k = 0; k < sizeof octets / sizeof *octets; k++) {
        writing("room exact", mode, octets[k], octet_at(mode, 6 + octets[k]));
        writing("room one short", mode, octets[k], octet_at(mode, 6 + octets[k]) - 1);
    }
    writing("room left over", mode, REPORT, LONGEST);
    writing("too long", mode, REPORT + 1, LONGEST);
    writing("too long, no room", mode, REPORT + 1, 0);
    writing("no such mode", 256 + mode, 5, LONGEST);
    writing("no such mode", 65536 + mode, 5, LONGEST);
}

static void writings_of_none(void)
{
    writing("no such mode", MODES, 5, LONGEST);
    writing("no such mode", MOST, 5, LONGEST);
    writing("no such mode, too long, no room", MODES, REPORT + 1, 0);
}

/* ---- Readings ---- */

static lernazhup_reading receive(uint32_t mode, struct slice chips, uint8_t *report, size_t room)
{
    size_t size = radio_of(mode).size, at;
    lernazhup_receiver record = lernazhup_start(mode).receiver;
    for (at = 0; record.ended == LERNAZHUP_MORE && chips.count - at >= size; at += size)
        record = lernazhup_push(record, chips.first + at, size).receiver;
    if (record.ended == LERNAZHUP_MORE)
        record = lernazhup_finish(record).receiver;
    return lernazhup_take(record, report, room);
}

/* Whether the same chips pushed symbol by symbol give the same numbers and leave the same bytes. */
static int agrees(uint32_t mode, struct slice chips, lernazhup_reading reading, const uint8_t lent[LENT])
{
    uint8_t other[LENT];
    lernazhup_reading pushed;
    memset(other, BEFORE, LENT);
    pushed = receive(mode, chips, other, REPORT);
    return memcmp(other, lent, LENT) == 0 && memcmp(&pushed, &reading, sizeof reading) == 0;
}

/* Reads the chips into so many bytes of the lent buffer. A receiver asks for room at the end and a
 * reader at the length octet, so the two are compared where there is room for any report. */
static void read_line(const char *what, uint32_t mode, struct slice chips, struct slice sent, size_t room)
{
    uint8_t lent[LENT];
    lernazhup_reading reading;
    if (room > LENT)
        return;
    memset(lent, BEFORE, LENT);
    reading = lernazhup_read(mode, chips.first, chips.count, lent, room);
    printf("%s: read %" PRIu32 " chips %zu room %zu gives ", what, mode, chips.count, room);
    answered(reading, sent, lent);
    if (room == REPORT)
        printf(", pushed %s", agrees(mode, chips, reading, lent) ? "the same" : "otherwise");
    printf("\n");
}

/* Reads a frame after its change and then that of another. */
static void twice(const char *what, struct frame frame, struct frame then)
{
    uint8_t chips[LONGEST];
    if (frame.octets > REPORT || frame.chips > LONGEST)
        return;
    make(frame, chips);
    change(then, chips);
    read_line(what, frame.read, slice(chips, frame.chips), slice(sample, frame.octets), frame.room);
}

static void line(const char *what, struct frame frame)
{
    twice(what, frame, flip(frame, 0, 0));
}

/* Less room than the report needs, just enough, and more. */
static void rooms(uint32_t mode)
{
    struct frame none = frame_of(mode, 0), five = frame_of(mode, 5), longest = frame_of(mode, 127);
    line("room exact", with_room(none, 0));
    line("room for any report", none);
    line("room left over", with_room(none, 200));
    line("room one short", with_room(five, 4));
    line("room exact", with_room(five, 5));
    line("room for any report", five);
    line("room one short", with_room(longest, 126));
    line("room exact", longest);
    line("room left over", with_room(longest, 200));
}

/* What stands behind the frame is lent to the reader as well, and must not be looked at. */
static void behind(uint32_t mode)
{
    line("bytes 255 behind the frame", with_chips(frame_of(mode, 0), LONGEST));
    line("bytes 255 behind the frame", with_chips(frame_of(mode, 5), LONGEST));
}

/* Frames that end too early. On the last symbol of the length octet too little room is refused,
 * though no chip comes after it. */
static void cuts(uint32_t mode)
{
    struct frame none = frame_of(mode, 0), five = frame_of(mode, 5);
    struct frame header_only = with_chips(five, none.chips), cut = with_chips(five, five.chips - 1);
    size_t size = radio_of(mode).size;
    line("no chips", with_chips(five, 0));
    line("first symbol cut", with_chips(five, size - 1));
    line("cut after the length octet", header_only);
    line("cut after the length octet, room one short", with_room(header_only, 4));
    line("cut in a symbol of the report", with_chips(five, octet_at(mode, 9) - 1));
    line("last symbol cut", with_chips(none, none.chips - 1));
    line("last symbol cut", cut);
    line("last symbol cut, byte 255 in it", put(cut, five.chips - size, 1, 255));
}

/* The lowest and the highest byte that is no chip. */
static void bytes(uint32_t mode)
{
    struct frame five = frame_of(mode, 5);
    size_t inside = octet_at(mode, 8) + 7, last = five.chips - 1;
    line("byte 2, first chip", put(five, 0, 1, 2));
    line("byte 255, first chip", put(five, 0, 1, 255));
    line("byte 2 in the report", put(five, inside, 1, 2));
    line("byte 255 in the report", put(five, inside, 1, 255));
    line("byte 2, last chip", put(five, last, 1, 2));
    line("byte 255, last chip", put(five, last, 1, 255));
}

/* Symbols of one byte over and over. Flat 2 and flat 255 lie past the limit from every word as
 * well, whether the places that differ are counted, or those of the lowest bits, or the differences
 * are added up, even where that sum wraps in a byte: a reader that looked for a word before it
 * looked at the bytes would answer 6 there. */
static void flats(uint32_t mode)
{
    struct frame five = frame_of(mode, 5);
    size_t size = radio_of(mode).size, start = octet_at(mode, 4), length = octet_at(mode, 6) - size;
    size_t inside = octet_at(mode, 8);
    line("flat 0 first", put(five, 0, size, 0));
    line("flat 1 first", put(five, 0, size, 1));
    line("flat 0 in the start octet", put(five, start, size, 0));
    line("flat 1 in the start octet", put(five, start, size, 1));
    line("flat 0 in the length octet", put(five, length, size, 0));
    line("flat 1 in the length octet", put(five, length, size, 1));
    line("flat 0 in the report", put(five, inside, size, 0));
    line("flat 1 in the report", put(five, inside, size, 1));
    line("flat 2 in the report", put(five, inside, size, 2));
    line("flat 255 in the report", put(five, inside, size, 255));
}

/* As many errors as a symbol may have, and one more. Nine make a mode 0 word read as the other. */
static void limits(uint32_t mode)
{
    struct frame five = frame_of(mode, 5);
    size_t size = radio_of(mode).size, most = radio_of(mode).limit, more = most + 1;
    size_t inside = octet_at(mode, 8), end = inside + size;
    line("first chips wrong at the start, at the limit", flip(five, 0, most));
    line("first chips wrong at the start, past the limit", flip(five, 0, more));
    line("first chips wrong in the report, at the limit", flip(five, inside, most));
    line("first chips wrong in the report, past the limit", flip(five, inside, more));
    line("last chips wrong in the report, at the limit", flip(five, end - most, most));
    line("last chips wrong in the report, past the limit", flip(five, end - more, more));
    line("nine errors in the first symbol", flip(five, 0, 9));
    line("nine errors in the last symbol", flip(five, five.chips - size, 9));
}

/* The last symbol, of 0x9F, turned chip by chip into a word that is as near to it as any, which is
 * what another octet in its place sends: read as the one, then lost, then read as the other. */
static void between(uint32_t mode)
{
    static const uint8_t other_last[MODES] = {0x1F, 0x0F, 0x3F};
    struct frame five = frame_of(mode, 5);
    uint8_t octets[5], chips[LONGEST], other[LONGEST];
    size_t at;
    memcpy(octets, sample, sizeof octets);
    octets[4] = other_last[mode];
    lernazhup_write(mode, octets, sizeof octets, other, LONGEST);
    make(five, chips);
    for (at = five.chips - radio_of(mode).size; at < five.chips; at++) {
        if (chips[at] == other[at])
            continue;
        chips[at] = other[at];
        read_line("one chip more of the nearest other word", mode, slice(chips, five.chips), slice(sample, 5), REPORT);
    }
}

/* Errors in every symbol. */
static void everywhere(uint32_t mode, uint32_t octets)
{
    struct frame frame = frame_of(mode, octets);
    size_t size = radio_of(mode).size, most = radio_of(mode).limit;
    struct frame firsts = worn(frame, most), lasts = every(flip(frame, size - most, most), size);
    line("first chips of every symbol wrong, at the limit", firsts);
    line("last chips of every symbol wrong, at the limit", lasts);
    twice("first chips of every symbol wrong, past the limit in the last", firsts, flip(frame, frame.chips - 1, 1));
}

/* Refusals in the last symbol of 127 octets, when all the others are read. */
static void at_the_end(uint32_t mode)
{
    struct frame longest = frame_of(mode, 127);
    size_t size = radio_of(mode).size, symbol = longest.chips - size, chip = longest.chips - 1;
    line("flat 0 last", put(longest, symbol, size, 0));
    line("flat 1 last", put(longest, symbol, size, 1));
    line("byte 2, last chip", put(longest, chip, 1, 2));
    line("last symbol cut", with_chips(longest, chip));
}

/* Any last preamble octet, start octet and length octet before a report of one octet. All seven are
 * sent as a report and read from there on: a length of 7 brings the chain of mode 0 back to 0,
 * where a frame starts. */
static void header(const char *what, uint32_t mode, size_t room, uint8_t preamble, uint8_t start, uint8_t length)
{
    const uint8_t octets[7] = {0, 0, 0, preamble, start, length, 0x41};
    uint8_t chips[LONGEST];
    size_t from = octet_at(mode, 6), to = octet_at(mode, 13);
    memset(chips, 255, LONGEST);
    lernazhup_write(mode, octets, sizeof octets, chips, LONGEST);
    read_line(what, mode, slice(chips + from, to - from), slice(octets + 6, length % 128), room);
}

static void headers(uint32_t mode)
{
    header("octets of a frame", mode, 127, 0, 0xA7, 1);
    header("last symbol of the preamble not 0", mode, 127, 0x80, 0xA7, 1);
    header("start octet 0xE5", mode, 127, 0, 0xE5, 1);
    header("length octet 1, no room", mode, 0, 0, 0xA7, 1);
    header("length octet 0x81", mode, 127, 0, 0xA7, 0x81);
    header("length octet 0x81, no room", mode, 0, 0, 0xA7, 0x81);
    header("length octet 0x80, no room", mode, 0, 0, 0xA7, 0x80);
}

/* A frame with the reserved bit set, after its change. The bit's symbol is the length octet's last:
 * in mode 0 the chain turns over at it, and with it every chip from there on; in modes 1 and 2 its
 * chips of odd index turn. */
static void reserved_line(const char *what, struct frame frame)
{
    uint8_t chips[LONGEST];
    uint32_t mode = frame.read;
    size_t end = octet_at(mode, 6), last = end - radio_of(mode).size, i;
    make(frame, chips);
    for (i = last; i < (mode == 0 ? frame.chips : end); i++)
        chips[i] ^= mode == 0 || (i - last) % 2 == 1;
    read_line(what, mode, slice(chips, frame.chips), slice(sample, frame.octets), frame.room);
}

static void reserved(uint32_t mode)
{
    static const uint32_t octets[] = {0, 5, REPORT};
    size_t k;
    for (k = 0; k < sizeof octets / sizeof *octets; k++) {
        struct frame frame = frame_of(mode, octets[k]);
        reserved_line("reserved bit", frame);
        reserved_line("reserved bit, at the limit", worn(frame, radio_of(mode).limit));
        reserved_line("reserved bit, room exact", with_room(worn(frame, 1), octets[k]));
        if (octets[k] > 0)
            reserved_line("reserved bit, room one short", with_room(frame, octets[k] - 1));
    }
}

/* Frames from a front end that locked the wrong way round. In mode 0 the first symbol settles that,
 * and all else is as it is of the frame itself; in the other modes no word is near the inverse of
 * one. */
static void inverted(uint32_t mode)
{
    static const uint32_t octets[] = {0, 1, 5, 64, REPORT};
    size_t limit = radio_of(mode).limit, k;
    for (k = 0; k < sizeof octets / sizeof *octets; k++) {
        struct frame frame = frame_of(mode, octets[k]), over = inverse(frame, 0);
        line("inverted", over);
        line("inverted, at the limit", inverse(frame, limit));
        line("inverted, room exact", with_room(inverse(frame, 1), octets[k]));
        reserved_line("inverted, reserved bit", over);
        reserved_line("inverted, reserved bit, at the limit", inverse(frame, limit));
        if (octets[k] > 0)
            line("inverted, room one short", with_room(over, octets[k] - 1));
    }
}

/* In mode 0 a fault is refused in the inverse as it is in the frame, and at the same symbol. */
static void inverted_refusals(uint32_t mode)
{
    struct frame five = frame_of(mode, 5), over = inverse(five, 0);
    size_t size = radio_of(mode).size, more = radio_of(mode).limit + 1, inside = octet_at(mode, 8);
    line("inverted, first symbol cut", with_chips(over, size - 1));
    line("inverted, last symbol cut", with_chips(over, five.chips - 1));
    twice("inverted, byte 2, first chip", over, put(five, 0, 1, 2));
    twice("inverted, byte 2 in the report", over, put(five, inside + 7, 1, 2));
    twice("inverted, flat 0 first", over, put(five, 0, size, 0));
    twice("inverted, flat 1 first", over, put(five, 0, size, 1));
    twice("inverted, first symbol past the limit", over, flip(five, 0, more));
    twice("inverted, flat 0 in the report", over, put(five, inside, size, 0));
    twice("inverted, report past the limit", over, flip(five, inside, more));
}

/* Turned over within the frame, at each symbol in turn. In mode 0 that is one raw bit read as the
 * other: the preamble isn't zero, the start octet is wrong, the length is another, which the frame
 * may be too short for, or an octet of the report is; only the reserved bit may be either. */
static void turned_over(uint32_t mode)
{
    struct frame five = frame_of(mode, 5);
    size_t size = radio_of(mode).size, at;
    char what[48];
    for (at = size; at < five.chips; at += size) {
        snprintf(what, sizeof what, "inverted from symbol %zu on", at / size);
        line(what, flip(five, at, five.chips - at));
        snprintf(what, sizeof what, "inverted up to symbol %zu", at / size - 1);
        line(what, flip(five, 0, at));
    }
}

/* Each mode's frame in modes that have no radio. Two of them, cut to 8 or 16 bits, would be the
 * mode whose frame it is. */
static void no_radio(void)
{
    uint32_t mode;
    for (mode = 0; mode < MODES; mode++) {
        struct frame longest = frame_of(mode, 127);
        line("no such mode", read_as(longest, MODES));
        line("no such mode", read_as(longest, 256 + mode));
        line("no such mode", read_as(longest, 65536 + mode));
        line("no such mode", read_as(longest, MOST));
    }
    line("no such mode, no chips, no room", with_room(with_chips(read_as(frame_of(0, 0), MODES), 0), 0));
}

/* A report of five octets is octets 6 to 10 of its frame; one of 127 ends before octet 133. */
static void readings_of(uint32_t mode)
{
    rooms(mode);
    behind(mode);
    cuts(mode);
    bytes(mode);
    flats(mode);
    limits(mode);
    between(mode);
    everywhere(mode, 5);
    everywhere(mode, 127);
    at_the_end(mode);
    headers(mode);
    reserved(mode);
    inverted(mode);
    inverted_refusals(mode);
    turned_over(mode);
}

/* ---- One symbol matched ---- */

static void match_line(const char *what, uint32_t mode, struct slice part)
{
    lernazhup_matched matched = lernazhup_match(mode, part.first, part.count);
    printf("%s: match %" PRIu32 " chips %zu gives ", what, mode, part.count);
    printf("%" PRIu32 " %" PRIu32, matched.number, matched.word);
    printf(" %" PRIu32 " %" PRIu32 "\n", matched.nearest, matched.next);
}

/* A word's chips: the first symbol of a report of that octet alone, behind a header which leaves
 * the chain of mode 0 at 0. */
static void make_word(uint32_t mode, uint8_t value, uint8_t word[LERNAZHUP_SYMBOL_MAX])
{
    uint8_t chips[LONGEST];
    lernazhup_write(mode, &value, 1, chips, LONGEST);
    memcpy(word, chips + octet_at(mode, 6), radio_of(mode).size);
}

/* A word with some of its chips another byte. */
static void match_with(const char *what, uint32_t mode, size_t at, size_t count, uint8_t byte)
{
    uint8_t part[LERNAZHUP_SYMBOL_MAX];
    make_word(mode, 1, part);
    memset(part + at, byte, count);
    match_line(what, mode, slice(part, radio_of(mode).size));
}

/* A part that isn't a symbol long, where a byte that is no chip isn't looked at, and modes without
 * a radio, where the part isn't. */
static void match_refusals(uint32_t mode)
{
    size_t size = radio_of(mode).size;
    uint8_t part[LERNAZHUP_SYMBOL_MAX + 1];
    make_word(mode, 1, part);
    part[size] = 0;
    match_line("no chips", mode, slice(NULL, 0));
    match_line("a chip less", mode, slice(part, size - 1));
    match_line("a chip more", mode, slice(part, size + 1));
    match_line("no such mode", MODES, slice(part, size));
    match_line("no such mode", 256 + mode, slice(part, size));
    match_line("no such mode", 65536 + mode, slice(part, size));
    match_line("no such mode", MOST, slice(part, size));
    part[0] = 2;
    match_line("byte 2, a chip less", mode, slice(part, size - 1));
    match_line("byte 2, no such mode", MODES, slice(part, size));
    match_line("no such mode, no chips", MODES, slice(NULL, 0));
    match_with("byte 2, first chip", mode, 0, 1, 2);
    match_with("byte 255, last chip", mode, size - 1, 1, 255);
    match_with("flat 0", mode, 0, size, 0);
    match_with("flat 1", mode, 0, size, 1);
    match_with("flat 2", mode, 0, size, 2);
}

/* A word turned chip by chip into word 0, which is as near to it as any other. Where the two are as
 * near as one another, word 0 is answered, and the other is the next. */
static void match_between(uint32_t mode)
{
    static const uint8_t higher[MODES] = {1, 9, 10};
    uint8_t part[LERNAZHUP_SYMBOL_MAX], lower[LERNAZHUP_SYMBOL_MAX];
    size_t size = radio_of(mode).size, at;
    make_word(mode, higher[mode], part);
    make_word(mode, 0, lower);
    for (at = 0; at < size; at++) {
        if (part[at] == lower[at])
            continue;
        part[at] = lower[at];
        match_line("one chip more of word 0", mode, slice(part, size));
    }
}

/* Where the gap is one number: in how many ways chips of a word are wrong, and how many of them at
 * least and at most. */
struct span {
    uint32_t ways, least, most;
};

enum { GAPS = 16 };

static void widen(struct span *span, uint32_t wrong)
{
    if (span->ways == 0 || wrong < span->least)
        span->least = wrong;
    if (wrong > span->most)
        span->most = wrong;
    span->ways++;
}

/* So many chips of a word are wrong; and then every choice of more of them, from a place on and up
 * to the accepted distance. */
static void spoil(uint32_t mode, uint8_t *word, uint32_t wrong, size_t from, struct span *spans)
{
    struct radio radio = radio_of(mode);
    lernazhup_matched matched = lernazhup_match(mode, word, radio.size);
    uint32_t gap = matched.next - matched.nearest;
    if (gap < GAPS && matched.nearest == wrong)
        widen(&spans[gap], wrong);
    for (; wrong < radio.limit && from < radio.size; from++) {
        word[from] ^= 1;
        spoil(mode, word, wrong + 1, from + 1, spans);
        word[from] ^= 1;
    }
}

/* The README has this table, and tests/vectors-test compares the two. Word 0 stands for every word:
 * to turn the chips of all words, or to invert those of odd index (in mode 0 all of them), carries
 * word 0 to any other, and the words to the words. */
static void wrong_chips(uint32_t mode)
{
    struct span spans[GAPS] = {{0, 0, 0}};
    uint8_t word[LERNAZHUP_SYMBOL_MAX];
    uint32_t gap;
    make_word(mode, 0, word);
    spoil(mode, word, 0, 0, spans);
    for (gap = GAPS; gap-- > 0;) {
        struct span span = spans[gap];
        if (span.ways == 0)
            continue;
        printf("wrong chips: mode %" PRIu32 " gap %" PRIu32 " has ", mode, gap);
        printf("%" PRIu32 " to %" PRIu32 ", %" PRIu32 " ways\n", span.least, span.most, span.ways);
    }
}

/* The chips of a number that has a bit for each. */
enum { FEW_CHIPS = 16 };

static void chips_of(uint32_t bits, uint32_t size, uint8_t part[FEW_CHIPS])
{
    uint32_t k;
    for (k = 0; k < size; k++)
        part[k] = bits >> k & 1;
}

/* Every symbol that there is, in the modes whose symbols are few enough to be tried: how many are
 * near a word, how many as near to two, and their numbers added up. */
static void match_every(uint32_t mode)
{
    uint32_t size = radio_of(mode).size, bits, near = 0, tied = 0, word = 0, nearest = 0, next = 0;
    uint8_t part[FEW_CHIPS];
    if (size > FEW_CHIPS)
        return;
    for (bits = 0; bits >> size == 0; bits++) {
        lernazhup_matched matched;
        chips_of(bits, size, part);
        matched = lernazhup_match(mode, part, size);
        near += matched.number == LERNAZHUP_DONE;
        tied += matched.nearest == matched.next;
        word += matched.word;
        nearest += matched.nearest;
        next += matched.next;
    }
    printf("every symbol: match %" PRIu32 " gives %" PRIu32 " near, ", mode, near);
    printf("%" PRIu32 " tied, words %" PRIu32 ", ", tied, word);
    printf("nearest %" PRIu32 ", next %" PRIu32 "\n", nearest, next);
}

/* Each word as it is sent, with as many of its first chips wrong as may be, and with one more. */
static void matchings_of(uint32_t mode)
{
    uint8_t word[LERNAZHUP_SYMBOL_MAX], value, values = mode == 0 ? 2 : 16;
    struct radio radio = radio_of(mode);
    size_t k;
    for (value = 0; value < values; value++) {
        make_word(mode, value, word);
        match_line("as sent", mode, slice(word, radio.size));
        for (k = 0; k < radio.limit; k++)
            word[k] ^= 1;
        match_line("first chips wrong, at the limit", mode, slice(word, radio.size));
        word[k] ^= 1;
        match_line("first chips wrong, past the limit", mode, slice(word, radio.size));
    }
    match_refusals(mode);
    match_between(mode);
    wrong_chips(mode);
    match_every(mode);
}

/* ---- The checked profile ---- */

static const uint8_t zeros[REPORT] = {0};

/* An octet, its FCS, and the FCS of all three, which is 0. */
static const uint8_t fcs_zero[5] = {0x01, 0x89, 0x11, 0x00, 0x00};

/* Zeros but one octet. */
static const uint8_t first_one[5] = {1}, last_one[5] = {0, 0, 0, 0, 1};

/* Octets of the sample with their FCS behind them. */
static struct slice sealed(uint8_t octets[REPORT], size_t n)
{
    uint32_t fcs = lernazhup_fcs(sample, n);
    memcpy(octets, sample, n);
    octets[n] = (uint8_t)fcs;
    octets[n + 1] = (uint8_t)(fcs >> 8);
    return slice(octets, n + 2);
}

/* The three calls on octets alone. */
static void fcs_line(const char *what, struct slice octets)
{
    printf("%s: fcs of %zu gives %" PRIu32, what, octets.count,
           lernazhup_fcs(octets.first, octets.count));
    printf(", bitwise %" PRIu32 ", check %" PRIu32 "\n",
           lernazhup_fcs_bitwise(octets.first, octets.count),
           lernazhup_check(octets.first, octets.count));
}

/* More octets than a report has may be asked for. */
static void sums(void)
{
    static uint8_t many[LONGEST];
    size_t n;
    memset(many, 255, LONGEST);
    fcs_line("none", slice(NULL, 0));
    for (n = 1; n <= 5; n++)
        fcs_line("FCS 0", slice(fcs_zero, n));
    for (n = 1; n <= 4; n++)
        fcs_line("zeros", slice(zeros, n));
    fcs_line("sample", slice(sample, 126));
    fcs_line("sample", slice(sample, 127));
    fcs_line("bytes 255", slice(many, LONGEST));
}

/* What the checked writer makes of a report, and the octets that a plain reader finds in it. */
static void writing_checked(const char *what, uint32_t mode, struct slice report, size_t room)
{
    uint8_t chips[LONGEST], lent[LENT];
    lernazhup_written written;
    if (room > LONGEST)
        return;
    memset(chips, BEFORE, LONGEST);
    written = lernazhup_write_checked(mode, report.first, report.count, chips, room);
    printf("%s: write_checked %" PRIu32 " octets %zu room %zu gives ", what, mode, report.count,
           room);
    printf("%" PRIu32 " %" PRIu32 ", %zu changed", written.number, written.chips,
           changed(chips, LONGEST));
    if (written.number == LERNAZHUP_DONE) {
        printf(", carries ");
        print_octets(lernazhup_read(mode, chips, LONGEST, lent, LENT).n, lent);
    }
    printf("\n");
}

static void checked_writings_of(uint32_t mode)
{
    static const uint32_t octets[] = {1, 5, 125};
    size_t k;
    writing_checked("empty", mode, slice(NULL, 0), LONGEST);
    writing_checked("empty, no room", mode, slice(NULL, 0), 0);
    for (k = 0; k < sizeof octets / sizeof *octets; k++) {
        size_t room = octet_at(mode, 8 + octets[k]);
        writing_checked("room exact", mode, slice(sample, octets[k]), room);
        writing_checked("room one short", mode, slice(sample, octets[k]), room - 1);
        writing_checked("zeros", mode, slice(zeros, octets[k]), room);
        writing_checked("zeros, no room", mode, slice(zeros, octets[k]), 0);
    }
    writing_checked("room left over", mode, slice(sample, 125), LONGEST);
    writing_checked("too long", mode, slice(sample, 126), LONGEST);
    writing_checked("too long, no room", mode, slice(sample, 126), 0);
    writing_checked("too long, zeros", mode, slice(zeros, 126), LONGEST);
    writing_checked("too long", mode, slice(sample, 127), LONGEST);
    writing_checked("FCS 0", mode, slice(fcs_zero, 3), LONGEST);
    writing_checked("zeros but the first", mode, slice(first_one, 5), LONGEST);
    writing_checked("zeros but the last", mode, slice(last_one, 5), LONGEST);
    writing_checked("no such mode", 256 + mode, slice(sample, 5), LONGEST);
    writing_checked("no such mode", 65536 + mode, slice(sample, 5), LONGEST);
}

static void checked_writings_of_none(void)
{
    writing_checked("no such mode", MODES, slice(sample, 5), LONGEST);
    writing_checked("no such mode", MOST, slice(sample, 5), LONGEST);
    writing_checked("no such mode, empty, no room", MODES, slice(NULL, 0), 0);
}

/* Whether a receiver's take, and check after it, come to the same number at the same place, and
 * where the report passes to the same gap and polarity. */
static int checks(uint32_t mode, struct slice chips, lernazhup_reading reading)
{
    uint8_t octets[REPORT];
    lernazhup_reading taken = receive(mode, chips, octets, REPORT);
    if (taken.number == LERNAZHUP_DONE)
        taken.number = lernazhup_check(octets, taken.n);
    if (taken.number != LERNAZHUP_DONE)
        taken.gap = taken.polarity = 0;
    return taken.number == reading.number && taken.place == reading.place &&
           taken.gap == reading.gap && taken.polarity == reading.polarity;
}

/* Reads a report's frame after its change. The plain writer sends the report as it is here. */
static void checked_line(const char *what, struct frame frame, struct slice report)
{
    uint8_t chips[LONGEST], lent[LENT];
    lernazhup_reading reading;
    if (frame.chips > LONGEST || frame.room > LENT)
        return;
    memset(chips, 255, LONGEST);
    memset(lent, BEFORE, LENT);
    lernazhup_write(frame.written, report.first, report.count, chips, LONGEST);
    change(frame, chips);
    reading = lernazhup_read_checked(frame.read, chips, frame.chips, lent, frame.room);
    printf("%s: read_checked %" PRIu32 " chips %zu room %zu gives ", what, frame.read, frame.chips,
           frame.room);
    answered(reading, report, lent);
    if (frame.room == REPORT)
        printf(", taken and checked %s",
               checks(frame.read, slice(chips, frame.chips), reading) ? "the same" : "otherwise");
    printf("\n");
}

/* No octets, one and two, and too little room for them, which is found before. */
static void few(uint32_t mode)
{
    uint32_t n;
    checked_line("empty", frame_of(mode, 0), slice(NULL, 0));
    checked_line("empty, no room", with_room(frame_of(mode, 0), 0), slice(NULL, 0));
    for (n = 1; n <= 2; n++) {
        checked_line("few", frame_of(mode, n), slice(sample, n));
        checked_line("few zeros", frame_of(mode, n), slice(zeros, n));
        checked_line("few, room exact", with_room(frame_of(mode, n), n), slice(sample, n));
        checked_line("few, room one short", with_room(frame_of(mode, n), n - 1), slice(sample, n));
    }
}

/* Reports that pass. The first chips of each symbol are wrong, as many as may be. */
static void passing(uint32_t mode)
{
    uint8_t octets[REPORT];
    struct frame seven = frame_of(mode, 7), longest = frame_of(mode, 127);
    size_t limit = radio_of(mode).limit;
    checked_line("three octets", frame_of(mode, 3), slice(fcs_zero, 3));
    checked_line("FCS 0", frame_of(mode, 5), slice(fcs_zero, 5));
    checked_line("room exact", with_room(seven, 7), sealed(octets, 5));
    checked_line("room one short", with_room(seven, 6), sealed(octets, 5));
    checked_line("bytes 255 behind the frame", with_chips(seven, LONGEST), sealed(octets, 5));
    checked_line("room exact", longest, sealed(octets, 125));
    checked_line("room one short", with_room(longest, 126), sealed(octets, 125));
    checked_line("room left over", with_room(longest, 200), sealed(octets, 125));
    checked_line("at the limit", worn(longest, limit), sealed(octets, 125));
}

/* The report of that many octets with an FCS that has one bit wrong. */
static struct slice spoilt(uint8_t octets[REPORT], size_t n, size_t bit)
{
    struct slice report = sealed(octets, n);
    octets[n + bit / 8] ^= (uint8_t)(1 << bit % 8);
    return report;
}

static void wrong_checks(uint32_t mode)
{
    static const uint8_t high_first[3] = {0x01, 0x11, 0x89}, of_zeros[3] = {0, 0, 1};
    uint8_t octets[REPORT];
    struct frame seven = frame_of(mode, 7), longest = frame_of(mode, 127);
    size_t limit = radio_of(mode).limit;
    checked_line("high octet first", frame_of(mode, 3), slice(high_first, 3));
    checked_line("FCS 256 of zeros", frame_of(mode, 3), slice(of_zeros, 3));
    checked_line("without FCS", frame_of(mode, 5), slice(sample, 5));
    checked_line("lowest bit wrong", seven, spoilt(octets, 5, 0));
    checked_line("highest bit wrong", seven, spoilt(octets, 5, 15));
    checked_line("wrong, room exact", with_room(seven, 7), spoilt(octets, 5, 8));
    checked_line("wrong, room one short", with_room(seven, 6), spoilt(octets, 5, 8));
    checked_line("wrong, room left over", with_room(longest, 200), spoilt(octets, 125, 7));
    checked_line("wrong, at the limit", worn(longest, limit), spoilt(octets, 125, 7));
}

static void all_zeros(uint32_t mode)
{
    static const uint32_t octets[] = {3, 5, REPORT};
    size_t limit = radio_of(mode).limit, k;
    for (k = 0; k < sizeof octets / sizeof *octets; k++) {
        struct frame frame = frame_of(mode, octets[k]);
        struct slice report = slice(zeros, octets[k]);
        checked_line("zeros, room left over", with_room(frame, 200), report);
        checked_line("zeros, room exact", with_room(frame, octets[k]), report);
        checked_line("zeros, room one short", with_room(frame, octets[k] - 1), report);
        checked_line("zeros, at the limit", worn(frame, limit), report);
    }
}

/* What the plain reader refuses stays as it is. Nine errors make a mode 0 word read as the other,
 * and that is for the FCS to find. */
static void plain_refusals(uint32_t mode)
{
    uint8_t octets[REPORT];
    struct frame seven = frame_of(mode, 7);
    size_t size = radio_of(mode).size, last = seven.chips - size;
    struct slice report = sealed(octets, 5);
    checked_line("no chips", with_chips(seven, 0), report);
    checked_line("last symbol cut", with_chips(seven, seven.chips - 1), report);
    checked_line("byte 2, last chip", put(seven, seven.chips - 1, 1, 2), report);
    checked_line("flat 0 last", put(seven, last, size, 0), report);
    checked_line("flat 1 last", put(seven, last, size, 1), report);
    checked_line("nine errors in the last symbol", flip(seven, last, 9), report);
    checked_line("no such mode", read_as(seven, MODES), report);
    checked_line("no such mode", read_as(seven, 256 + mode), report);
    checked_line("no such mode", read_as(seven, 65536 + mode), report);
}

/* Inverted, a report that passes does so in mode 0, and one that doesn't is refused as ever.
 * Turned over where the report begins, only the FCS can tell. */
static void checked_inverted(uint32_t mode)
{
    uint8_t octets[REPORT];
    struct frame seven = frame_of(mode, 7), over = inverse(seven, 0);
    size_t report = octet_at(mode, 6), bit = report - radio_of(mode).size;
    struct frame longest = inverse(frame_of(mode, 127), radio_of(mode).limit);
    checked_line("inverted", over, sealed(octets, 5));
    checked_line("inverted, room exact", with_room(over, 7), sealed(octets, 5));
    checked_line("inverted, room one short", with_room(over, 6), sealed(octets, 5));
    checked_line("inverted, at the limit", longest, sealed(octets, 125));
    checked_line("inverted, few", inverse(frame_of(mode, 2), 0), slice(sample, 2));
    checked_line("inverted, highest bit wrong", over, spoilt(octets, 5, 15));
    checked_line("inverted, zeros", inverse(frame_of(mode, 3), 0), slice(zeros, 3));
    checked_line("inverted from the reserved bit on", flip(seven, bit, LONGEST), sealed(octets, 5));
    checked_line("inverted from the report on", flip(seven, report, LONGEST), sealed(octets, 5));
}

static void checked_readings_of(uint32_t mode)
{
    few(mode);
    passing(mode);
    wrong_checks(mode);
    all_zeros(mode);
    plain_refusals(mode);
    checked_inverted(mode);
}

/* ---- A record, and what the calls make of it ---- */

/* The fields lie side by side, as the header fixes; only behind the octets is a byte of padding. */
static int same_record(lernazhup_receiver a, lernazhup_receiver b)
{
    return memcmp(&a, &b, offsetof(lernazhup_receiver, octets) + sizeof a.octets) == 0;
}

/* A call's number, and whether the record that it gave back is the same, the same but for being
 * ended with that number, or another. */
static void answer(const char *call, lernazhup_receiver before, lernazhup_step step)
{
    lernazhup_receiver ended = before;
    ended.ended = step.number;
    printf("%s %" PRIu32 " ", call, step.number);
    printf("%s", same_record(before, step.receiver) ? "same" : same_record(ended, step.receiver) ? "ended" : "other");
}

/* What take gives with so much room, compared with as many of the octets that are sent. */
static void took(lernazhup_receiver record, size_t room)
{
    uint8_t lent[LENT];
    lernazhup_reading reading;
    if (room > LENT)
        return;
    memset(lent, BEFORE, LENT);
    reading = lernazhup_take(record, lent, room);
    if (reading.n > REPORT)
        return;
    printf(", take %zu gives ", room);
    answered(reading, slice(sample, reading.n), lent);
}

/* The record's numbers, what each call makes of it, and what take gives with so much room. */
static void probe(const char *what, lernazhup_receiver record, struct slice part, size_t room)
{
    printf("%s: record %" PRIu32 " %" PRIu32 " %" PRIu32 " %" PRIu32, what, record.mode, record.ended, record.taken,
           record.length);
    printf(" %" PRIu32 " %" PRIu32 " %" PRIu32 " %" PRIu32 " %" PRIu32, record.count, record.last,
           record.octet, record.gap, record.polarity);
    answer(", push", record, lernazhup_push(record, part.first, part.count));
    answer(", push of none", record, lernazhup_push(record, NULL, 0));
    answer(", finish", record, lernazhup_finish(record));
    took(record, room);
    printf("\n");
}

/* A record, and what becomes of it by one symbol more and by none: each taken into other room. */
static void fates(const char *what, lernazhup_receiver record, struct slice part)
{
    probe(what, record, part, 126);
    probe("pushed", lernazhup_push(record, part.first, part.count).receiver, part, 127);
    probe("finished", lernazhup_finish(record).receiver, part, 200);
}

/* ---- Frames pushed symbol by symbol, with stray calls between ---- */

/* How many answers of each number came, and how many stray calls changed a record or lent bytes. */
struct tally {
    unsigned times[14], changed;
};

static void count_answer(struct tally *tally, uint32_t number, int kept)
{
    if (number < 14)
        tally->times[number]++;
    tally->changed += !kept;
}

static void count_stray(struct tally *tally, lernazhup_receiver before, lernazhup_step step)
{
    count_answer(tally, step.number, same_record(before, step.receiver));
}

/* Calls that leave an open record as it is: take, and push of one chip less than a symbol, one more
 * and none. */
static void stray(struct tally *tally, lernazhup_receiver record, const uint8_t chips[LONGEST], size_t size)
{
    uint8_t lent[LENT];
    lernazhup_reading reading;
    memset(lent, BEFORE, LENT);
    reading = lernazhup_take(record, lent, REPORT);
    count_answer(tally, reading.number, changed(lent, LENT) == 0);
    count_stray(tally, record, lernazhup_push(record, chips, size - 1));
    count_stray(tally, record, lernazhup_push(record, chips, size + 1));
    count_stray(tally, record, lernazhup_push(record, NULL, 0));
}

/* Starts and pushes the symbols before a place, with stray calls before each of them, and with two
 * more where the record has ended. The line goes on. */
static lernazhup_receiver pushed(const char *what, uint32_t mode, const uint8_t chips[LONGEST], size_t end)
{
    size_t size = radio_of(mode).size, at;
    struct tally tally = {{0}, 0};
    lernazhup_receiver record = lernazhup_start(mode).receiver;
    for (at = 0; end - at >= size; at += size) {
        lernazhup_step step;
        stray(&tally, record, chips, size);
        step = lernazhup_push(record, chips + at, size);
        count_answer(&tally, step.number, 1);
        record = step.receiver;
    }
    if (record.ended != LERNAZHUP_MORE) {
        count_stray(&tally, record, lernazhup_push(record, chips, size));
        count_stray(&tally, record, lernazhup_finish(record));
    }
    printf("%s: %u times 13, %u times 0, %u times 10, %u times 11, %u times 12, %u changed", what, tally.times[13],
           tally.times[0], tally.times[10], tally.times[11], tally.times[12], tally.changed);
    return record;
}

/* The symbols before one place pushed, and then the symbol at another. */
static void story(const char *what, struct frame frame, size_t end, size_t from)
{
    uint8_t chips[LONGEST];
    size_t size = radio_of(frame.read).size;
    if (end > LONGEST || from > LONGEST - size)
        return;
    make(frame, chips);
    fates(", then", pushed(what, frame.read, chips, end), slice(chips + from, size));
}

/* Frames pushed whole, cut, and with a symbol refused, of each kind. The last three have another
 * symbol of the frame in the place of one: the first of the start octet as the last of the
 * preamble, and the first of all as the last of the start octet, which are refused; and the first
 * of the report as the last of the length octet, where it sets the reserved bit, which isn't. */
static void stories(uint32_t mode)
{
    struct frame five = frame_of(mode, 5), longest = frame_of(mode, 127);
    size_t size = radio_of(mode).size, limit = radio_of(mode).limit;
    size_t start = octet_at(mode, 4), length = octet_at(mode, 5), report = octet_at(mode, 6);
    size_t inside = octet_at(mode, 8), next = inside + size;
    story("whole frame", five, five.chips, 0);
    story("longest frame at the limit", worn(longest, limit), longest.chips, 0);
    story("cut in an octet of the report", five, next, next);
    story("byte 2 in the report", put(five, inside + 7, 1, 2), inside, inside);
    story("flat symbol in the report", put(five, inside, size, 0), inside, inside);
    story("preamble not zero", five, start - size, start);
    story("wrong start octet", five, length - size, 0);
    story("reserved bit set", five, report - size, report);
}

/* Frames inverted from the first symbol on, or turned over behind it, whole and with a symbol
 * refused: a record keeps its polarity, and take tells none of a refusal. */
static void inverted_stories(uint32_t mode)
{
    struct frame five = frame_of(mode, 5), over = inverse(five, 0), longest = frame_of(mode, 127);
    size_t size = radio_of(mode).size, limit = radio_of(mode).limit;
    size_t start = octet_at(mode, 4), next = octet_at(mode, 8) + size;
    story("inverted, before the first symbol", over, 0, 0);
    story("inverted", over, five.chips, 0);
    story("longest frame inverted, at the limit", inverse(longest, limit), longest.chips, 0);
    story("inverted, cut in an octet of the report", over, next, next);
    story("inverted, preamble not zero", over, start - size, start);
    story("first symbol alone inverted", flip(five, 0, size), size, size);
    story("inverted from symbol 1 on", flip(five, size, LONGEST), size, size);
}

/* ---- Made-up records ---- */

/* A new record, compared with one that is 0 but for the mode, the number and the gap. What is
 * pushed is no symbol of a radio. */
static void started(uint32_t mode)
{
    static const uint8_t byte[1] = {'0'};
    lernazhup_step step = lernazhup_start(mode);
    lernazhup_receiver blank = {.mode = mode, .ended = step.number, .gap = MOST};
    answer("start", blank, step);
    probe(", then", step.receiver, slice(byte, 1), 127);
}

/* A made-up record holds the octets that are sent, and the gap of one that has taken nothing. */
static lernazhup_receiver made_up(uint32_t mode, uint32_t ended, uint32_t taken, uint32_t length, uint32_t count)
{
    lernazhup_receiver record = {.mode = mode, .ended = ended, .taken = taken, .length = length,
                                 .count = count, .gap = MOST};
    memcpy(record.octets, sample, sizeof record.octets);
    return record;
}

/* An open record, and one that has ended well by a symbol more, as far from its word as it may be;
 * a mode without a radio has no such distance. */
static void both(const char *what, uint32_t mode, uint32_t taken, uint32_t length, uint32_t count, struct slice part)
{
    uint32_t limit = mode < MODES ? radio_of(mode).limit : 0;
    probe(what, made_up(mode, LERNAZHUP_MORE, taken, length, count), part, 127);
    probe(what, made_up(mode, LERNAZHUP_DONE, taken + 1, length, count + limit), part, 127);
}

/* Symbols taken and chips repaired at the ends of what is allowed for a length, and past them. */
static void edges(uint32_t mode, uint32_t length, struct slice part)
{
    uint32_t total = symbols_in(mode, 6 + length), last = total - 1, most = last * radio_of(mode).limit;
    both("one symbol less", mode, last - 1, length, 0, part);
    both("as many symbols", mode, last, length, 0, part);
    both("one symbol more", mode, total, length, 0, part);
    both("count at the limit", mode, last, length, most, part);
    both("count past it", mode, last, length, most + 1, part);
}

/* Records with a number that no frame has, and records ended by a refusal, which may hold anything.
 * Cut to 8 bits, 256 to 258 would be modes 0 to 2, and a length of 256 would be 0; with length
 * 4294967295 the total, cut to 32 bits, would be the symbols of five octets; and a record 65536
 * symbols past its end would be complete. A record of no mode with nothing taken fails no test but
 * that of the mode. */
static void strange(uint32_t mode, struct slice part)
{
    uint32_t open = LERNAZHUP_MORE, well = LERNAZHUP_DONE;
    uint32_t five = symbols_in(mode, 11) - 1, far = five + 65537, cut;
    both("no such mode", MODES, five, 5, 0, part);
    for (cut = 0; cut < MODES; cut++)
        both("no such mode", 256 + cut, five, 5, 0, part);
    both("no such mode", MOST, five, 5, 0, part);
    both("length 128", mode, symbols_in(mode, 134) - 1, 128, 0, part);
    both("length wraps", mode, symbols_in(mode, 5) - 1, MOST, 0, part);
    probe("no such mode", made_up(MODES, well, 0, 0, 0), part, 127);
    probe("length 256", made_up(mode, open, 0, 256, 0), part, 127);
    probe("far", made_up(mode, well, far, 5, 0), part, 127);
    probe("most", made_up(mode, open, MOST, 127, MOST), part, 127);
    probe("most", made_up(mode, well, MOST, 127, MOST), part, 127);
    probe("refused", made_up(9, 77, MOST, MOST, MOST), part, 127);
    probe("withdrawn", made_up(mode, 9, 3, 5, 1), part, 127);
    probe("refused", made_up(9, 10, MOST, MOST, MOST), part, 127);
    probe("refused", made_up(9, 34, MOST, MOST, MOST), part, 127);
}

/* A record that no test refuses, at the last symbol of an octet, with a symbol before it, odd or
 * even, and an octet in hand that no symbol brings: of such numbers the lowest bits count. */
static void hand(uint32_t mode, uint32_t octet, uint32_t length, struct slice part)
{
    lernazhup_receiver record = made_up(mode, LERNAZHUP_MORE, symbols_in(mode, 1 + octet) - 1, length, 0);
    record.last = MOST - octet;
    record.octet = MOST;
    fates("strange in hand", record, part);
}

/* A record of five octets that lacks its last symbol, and one of these that has it. */
static lernazhup_receiver before_the_last(uint32_t mode)
{
    return made_up(mode, LERNAZHUP_MORE, symbols_in(mode, 11) - 1, 5, 0);
}

static lernazhup_receiver ended_well(lernazhup_receiver record)
{
    record.taken++;
    record.ended = LERNAZHUP_DONE;
    return record;
}

/* Gaps that no frame has: no test looks at them, take gives one as it is held, and push keeps it
 * where the symbol's isn't smaller. Cut to 8 or 16 bits, two of them would be 0. */
static void gaps(uint32_t mode, struct slice part)
{
    static const uint32_t held[] = {0, 5, 256, 65536};
    size_t k;
    for (k = 0; k < sizeof held / sizeof *held; k++) {
        lernazhup_receiver record = before_the_last(mode);
        record.gap = held[k];
        fates("strange gap", record, part);
        probe("strange gap", ended_well(record), part, 127);
    }
}

/* Polarities that no frame has: no test looks at them, take tells the lowest bit in mode 0 of a
 * record that has ended well, and push keeps them. But the first symbol of mode 0 settles the
 * polarity, and no symbol stands before it, whatever the record holds. */
static void polarities(uint32_t mode, struct slice part)
{
    static const uint32_t held[] = {0, 1, 2, 3, MOST};
    size_t k;
    for (k = 0; k < sizeof held / sizeof *held; k++) {
        lernazhup_receiver record = before_the_last(mode);
        record.polarity = held[k];
        fates("strange polarity", record, part);
        probe("strange polarity", ended_well(record), part, 127);
        probe("strange polarity, no room", ended_well(record), part, 4);
        record = made_up(mode, LERNAZHUP_MORE, 0, 0, 0);
        record.polarity = record.last = held[k];
        fates("strange before the first symbol", record, part);
        record.taken = 1;
        fates("strange before the second", record, part);
    }
}

/* Whether a symbol was pushed as it was matched, to a record with no chips repaired and no gap yet:
 * refused with the same number, or its word, its distance and its gap taken over. */
static int pushed_as(lernazhup_matched matched, lernazhup_step step)
{
    if (matched.number != LERNAZHUP_DONE)
        return step.number == matched.number;
    return step.receiver.last == matched.word && step.receiver.count == matched.nearest &&
           step.receiver.gap == matched.next - matched.nearest;
}

/* Every symbol that there is, pushed to one record, in the modes whose symbols are few enough to be
 * tried: how many are near a word, as the header says of random ones, how far they are from it, all
 * added up, and how many bring the other polarity. */
static void every_symbol(const char *what, lernazhup_receiver record)
{
    uint32_t size = radio_of(record.mode).size, bits, read = 0, lost = 0;
    uint32_t repaired = 0, inverses = 0, otherwise = 0;
    uint8_t part[FEW_CHIPS];
    if (size > FEW_CHIPS)
        return;
    for (bits = 0; bits >> size == 0; bits++) {
        lernazhup_step step;
        chips_of(bits, size, part);
        step = lernazhup_push(record, part, size);
        read += step.number == LERNAZHUP_MORE;
        lost += step.number == LERNAZHUP_LOST;
        repaired += step.receiver.count;
        inverses += step.receiver.polarity;
        otherwise += !pushed_as(lernazhup_match(record.mode, part, size), step);
    }
    printf("%s: push %" PRIu32 " gives %" PRIu32 " read, ", what, record.mode, read);
    printf("%" PRIu32 " lost, %" PRIu32 " repaired, ", lost, repaired);
    printf("%" PRIu32 " inverted, %" PRIu32 " matched otherwise\n", inverses, otherwise);
}

/* As the first of a report; and as the first of a frame, where mode 0 takes either word, and mode 2
 * none but word 0. */
static void every_symbol_of(uint32_t mode)
{
    every_symbol("every symbol", made_up(mode, LERNAZHUP_MORE, symbols_in(mode, 6), 5, 0));
    every_symbol("every first symbol", lernazhup_start(mode).receiver);
}

/* The first symbol of a frame is what is pushed to made-up records. */
static void records_of(uint32_t mode)
{
    uint8_t chips[LONGEST];
    struct slice part = slice(chips, radio_of(mode).size);
    make(frame_of(mode, 0), chips);
    started(mode);
    stories(mode);
    inverted_stories(mode);
    edges(mode, 0, part);
    edges(mode, 127, part);
    strange(mode, part);
    hand(mode, 0, 0, part);
    hand(mode, 4, 0, part);
    hand(mode, 5, 0, part);
    hand(mode, 10, 5, part);
    gaps(mode, part);
    polarities(mode, part);
    every_symbol_of(mode);
}

int main(void)
{
    uint32_t mode;
    make_sample();
    for (mode = 0; mode < MODES; mode++)
        writings_of(mode);
    writings_of_none();
    for (mode = 0; mode < MODES; mode++)
        readings_of(mode);
    no_radio();
    for (mode = 0; mode < MODES; mode++)
        matchings_of(mode);
    sums();
    for (mode = 0; mode < MODES; mode++)
        checked_writings_of(mode);
    checked_writings_of_none();
    for (mode = 0; mode < MODES; mode++)
        checked_readings_of(mode);
    for (mode = 0; mode < MODES; mode++)
        records_of(mode);
    started(MODES);
    for (mode = 0; mode < MODES; mode++) {
        started(256 + mode);
        started(65536 + mode);
    }
    started(MOST);
    return 0;
}
