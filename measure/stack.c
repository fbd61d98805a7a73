/* The stack measurement: how many bytes of stack each exported call uses at most.
 *
 * A call runs on a stack of its own that was painted before; what is no longer paint afterwards was
 * used. The same is done with an empty function of the same shape and taken off, so that arguments,
 * the record's copies on the caller's side and the switch of stacks don't count. Each call gets
 * full frames with as many wrong chips as are accepted, and inputs that are refused; the readers
 * get the frame inverted, too. A number in the table is what a call takes beyond that empty one.
 * The program fails if a call exceeds the limit, or if an answer isn't the one that was due. */
#define _XOPEN_SOURCE 700
#include <stdio.h>
#include <stdlib.h>
#include <string.h>
#include <ucontext.h>

#include "lernazhup.h"

enum { MODES = 3, LIMIT = 4096, STACK = 65536, OCTETS = LERNAZHUP_REPORT_MAX };
enum {
    WRITE, READ, START, PUSH, FINISH, TAKE,
    WRITE_CHECKED, READ_CHECKED, CHECK, FCS, FCS_BITWISE, MATCH, CALLS
};
static const char *const names[CALLS] = {
    "write", "read", "start", "push", "finish", "take",
    "write_checked", "read_checked", "check", "fcs", "fcs_bitwise", "match",
};

/* Chips of the longest frame. */
static size_t frame_chips(uint32_t mode)
{
    return LERNAZHUP_FRAME_CHIPS(mode, OCTETS);
}

/* The calls are reached through pointers, the library's and the empty ones alike. */
struct calls {
    __typeof__(lernazhup_write) *write;
    __typeof__(lernazhup_read) *read;
    __typeof__(lernazhup_start) *start;
    __typeof__(lernazhup_push) *push;
    __typeof__(lernazhup_finish) *finish;
    __typeof__(lernazhup_take) *take;
    __typeof__(lernazhup_write_checked) *write_checked;
    __typeof__(lernazhup_read_checked) *read_checked;
    __typeof__(lernazhup_check) *check;
    __typeof__(lernazhup_fcs) *fcs;
    __typeof__(lernazhup_fcs_bitwise) *fcs_bitwise;
    __typeof__(lernazhup_match) *match;
};

static uint8_t report[OCTETS + 1], chips[LERNAZHUP_CHIPS_MAX];
static const uint8_t *part = chips;
static struct {
    uint32_t mode;
    size_t report_len, chips_len, part_len;
    lernazhup_receiver receiver;
} given;
static lernazhup_written written;
static lernazhup_reading reading;
static lernazhup_step step;
static lernazhup_matched matched;
static uint32_t answer;

static lernazhup_written empty_write(uint32_t mode, const uint8_t *from, size_t from_len, uint8_t *to, size_t to_len)
{
    (void)mode, (void)from, (void)from_len, (void)to, (void)to_len;
    return written;
}

static lernazhup_reading empty_read(uint32_t mode, const uint8_t *from, size_t from_len, uint8_t *to, size_t to_len)
{
    (void)mode, (void)from, (void)from_len, (void)to, (void)to_len;
    return reading;
}

static lernazhup_step empty_start(uint32_t mode)
{
    (void)mode;
    return step;
}

static lernazhup_step empty_push(lernazhup_receiver receiver, const uint8_t *from, size_t from_len)
{
    (void)receiver, (void)from, (void)from_len;
    return step;
}

static lernazhup_step empty_finish(lernazhup_receiver receiver)
{
    (void)receiver;
    return step;
}

static lernazhup_reading empty_take(lernazhup_receiver receiver, uint8_t *to, size_t to_len)
{
    (void)receiver, (void)to, (void)to_len;
    return reading;
}

static uint32_t empty_check(const uint8_t *octets, size_t octets_len)
{
    (void)octets, (void)octets_len;
    return answer;
}

static lernazhup_matched empty_match(uint32_t mode, const uint8_t *from, size_t from_len)
{
    (void)mode, (void)from, (void)from_len;
    return matched;
}

static const struct calls library = {
    lernazhup_write, lernazhup_read, lernazhup_start, lernazhup_push, lernazhup_finish,
    lernazhup_take, lernazhup_write_checked, lernazhup_read_checked, lernazhup_check,
    lernazhup_fcs, lernazhup_fcs_bitwise, lernazhup_match,
};
static const struct calls empty = {
    empty_write, empty_read, empty_start, empty_push, empty_finish, empty_take,
    empty_write, empty_read, empty_check, empty_check, empty_check, empty_match,
};
static const struct calls *volatile calls;
static int current;

static void call_on_octets(void)
{
    switch (current) {
    case CHECK:
        answer = calls->check(report, given.report_len);
        break;
    case FCS:
        answer = calls->fcs(report, given.report_len);
        break;
    case FCS_BITWISE:
        answer = calls->fcs_bitwise(report, given.report_len);
        break;
    }
}

/* Runs on the painted stack. */
static void call(void)
{
    switch (current) {
    case WRITE:
        written = calls->write(given.mode, report, given.report_len, chips, given.chips_len);
        break;
    case READ:
        reading = calls->read(given.mode, chips, given.chips_len, report, given.report_len);
        break;
    case START:
        step = calls->start(given.mode);
        break;
    case PUSH:
        step = calls->push(given.receiver, part, given.part_len);
        break;
    case FINISH:
        step = calls->finish(given.receiver);
        break;
    case TAKE:
        reading = calls->take(given.receiver, report, given.report_len);
        break;
    case WRITE_CHECKED:
        written =
            calls->write_checked(given.mode, report, given.report_len, chips, given.chips_len);
        break;
    case READ_CHECKED:
        reading = calls->read_checked(given.mode, chips, given.chips_len, report, given.report_len);
        break;
    case MATCH:
        matched = calls->match(given.mode, part, given.part_len);
        break;
    default:
        call_on_octets();
    }
}

static size_t depth_with(unsigned char paint)
{
    static unsigned char stack[STACK];
    static ucontext_t here, there;
    size_t untouched = 0;
    memset(stack, paint, sizeof stack);
    if (getcontext(&there) != 0)
        exit(1);
    there.uc_stack.ss_sp = stack;
    there.uc_stack.ss_size = sizeof stack;
    there.uc_link = &here;
    makecontext(&there, call, 0);
    if (swapcontext(&here, &there) != 0)
        exit(1);
    while (untouched < sizeof stack && stack[untouched] == paint)
        untouched++;
    return sizeof stack - untouched;
}

/* Two paints, since a call may happen to store the first one. Once before, on the usual stack: the
 * first use of a function of the C library is looked up then, and that takes stack too. */
static size_t depth(const struct calls *which)
{
    size_t first, second;
    calls = which;
    call();
    first = depth_with(0xA5);
    second = depth_with(0x5A);
    return first > second ? first : second;
}

/* Notes what a call with the given inputs uses, in the column of a mode; the column behind them is
 * for a mode that no radio has. The empty call goes first so that the answer left behind is the
 * library's. */
static size_t most[CALLS][MODES + 1];

static void note(int which, uint32_t column)
{
    size_t without, with;
    current = which;
    without = depth(&empty);
    with = depth(&library);
    if (with > without && with - without > most[which][column])
        most[which][column] = with - without;
}

static void expect(uint32_t number, uint32_t expected, int which)
{
    if (number == expected)
        return;
    fprintf(stderr, "stack: %s answered %u where %u was due\n", names[which], (unsigned)number, (unsigned)expected);
    exit(1);
}

/* By either writer, the longest report that it takes. */
static void measure_write(int which, size_t longest, uint32_t mode)
{
    given.mode = mode;
    given.report_len = longest + 1;
    given.chips_len = frame_chips(mode);
    note(which, mode);
    expect(written.number, LERNAZHUP_TOOLONG, which);
    given.report_len = longest;
    given.chips_len--;
    note(which, mode);
    expect(written.number, LERNAZHUP_NOROOM, which);
    given.chips_len++;
    note(which, mode);
    expect(written.number, LERNAZHUP_DONE, which);
}

/* Inverts the first chips of every symbol of the frame, as many as are accepted. */
static void spoil(uint32_t mode)
{
    size_t symbol, i;
    for (symbol = 0; symbol < frame_chips(mode); symbol += LERNAZHUP_SYMBOL_CHIPS(mode))
        for (i = 0; i < LERNAZHUP_ACCEPTED(mode); i++)
            chips[symbol + i] ^= 1;
}

/* Inverts every chip of the frame. */
static void invert(uint32_t mode)
{
    size_t at;
    for (at = 0; at < frame_chips(mode); at++)
        chips[at] ^= 1;
}

/* What a reader says when the last symbol of an octet has another value, its top bit turned. That
 * of the length octet is reserved; but in mode 0 the report's first bit turns with it. */
static uint32_t number_for_other(int which, uint32_t mode, size_t octet)
{
    if (octet < 5)
        return octet < 4 ? LERNAZHUP_PREAMBLE : LERNAZHUP_BADSTART;
    return which == READ || (octet == 5 && mode != 0) ? LERNAZHUP_DONE : LERNAZHUP_BADCHECK;
}

/* Reads with the last symbol of an octet made flat, then with a byte in it that isn't a chip, then
 * with another value, then with the chips ending in it. */
static void measure_broken_reads(int which, uint32_t mode, size_t octet)
{
    size_t length = LERNAZHUP_SYMBOL_CHIPS(mode), at = (octet + 1) * frame_chips(mode) / (6 + OCTETS) - length, i;
    uint8_t kept[32];
    memcpy(kept, chips + at, length);
    memset(chips + at, 0, length);
    note(which, mode);
    expect(reading.number, LERNAZHUP_LOST, which);
    chips[at + length - 1] = 2;
    note(which, mode);
    expect(reading.number, LERNAZHUP_NOCHIP, which);
    for (i = 0; i < length; i++) /* modes 1 and 2: chips of odd index turn the value's top bit */
        chips[at + i] = (uint8_t)(kept[i] ^ (mode == 0 || i % 2 == 1));
    note(which, mode);
    expect(reading.number, number_for_other(which, mode, octet), which);
    memcpy(chips + at, kept, length);
    given.chips_len = at + length - 1;
    note(which, mode);
    expect(reading.number, LERNAZHUP_RUNOUT, which);
    given.chips_len = frame_chips(mode);
}

static void measure_read(int which, uint32_t mode)
{
    size_t octet;
    given.mode = mode;
    given.chips_len = frame_chips(mode);
    given.report_len = OCTETS;
    note(which, mode);
    expect(reading.number, LERNAZHUP_DONE, which);
    invert(mode);
    note(which, mode);
    expect(reading.number, mode == 0 ? LERNAZHUP_DONE : LERNAZHUP_LOST, which);
    invert(mode);
    for (octet = 0; octet < 7; octet++)
        measure_broken_reads(which, mode, octet);
    measure_broken_reads(which, mode, 6 + OCTETS - 1);
    given.report_len = OCTETS - 1;
    note(which, mode);
    expect(reading.number, LERNAZHUP_NOROOM, which);
    given.report_len = OCTETS;
}

/* The calls on octets alone: a report that passes, then one that doesn't. */
static void measure_check(uint32_t mode)
{
    given.report_len = OCTETS - 2;
    note(FCS, mode);
    expect(answer, report[OCTETS - 2] + 256u * report[OCTETS - 1], FCS);
    note(FCS_BITWISE, mode);
    expect(answer, report[OCTETS - 2] + 256u * report[OCTETS - 1], FCS_BITWISE);
    given.report_len = OCTETS;
    note(CHECK, mode);
    expect(answer, LERNAZHUP_DONE, CHECK);
    report[0] ^= 1;
    note(CHECK, mode);
    expect(answer, LERNAZHUP_BADCHECK, CHECK);
    memset(report, 0, sizeof report);
    note(CHECK, mode);
    expect(answer, LERNAZHUP_ALLZERO, CHECK);
    given.report_len = 2;
    note(CHECK, mode);
    expect(answer, LERNAZHUP_TOOFEW, CHECK);
}

/* What the checked writer and reader refuse for themselves, of zeros and of nothing. */
static void measure_zeros(uint32_t mode)
{
    memset(report, 0, sizeof report);
    given.report_len = LERNAZHUP_CHECKED_MAX;
    note(WRITE_CHECKED, mode);
    expect(written.number, LERNAZHUP_ALLZERO, WRITE_CHECKED);
    given.report_len = 0;
    note(WRITE_CHECKED, mode);
    expect(written.number, LERNAZHUP_TOOFEW, WRITE_CHECKED);
    lernazhup_write(mode, report, 0, chips, sizeof chips);
    note(READ_CHECKED, mode);
    expect(reading.number, LERNAZHUP_TOOFEW, READ_CHECKED);
    lernazhup_write(mode, report, OCTETS, chips, sizeof chips);
    given.report_len = OCTETS;
    note(READ_CHECKED, mode);
    expect(reading.number, LERNAZHUP_ALLZERO, READ_CHECKED);
}

/* A symbol with as many wrong chips as are accepted, and parts that are refused. */
static void measure_match(uint32_t mode)
{
    uint8_t symbol[LERNAZHUP_SYMBOL_MAX];
    given.mode = mode;
    given.part_len = LERNAZHUP_SYMBOL_CHIPS(mode);
    memcpy(symbol, chips, given.part_len);
    part = symbol;
    note(MATCH, mode);
    expect(matched.number, LERNAZHUP_DONE, MATCH);
    memset(symbol, 0, given.part_len);
    note(MATCH, mode);
    expect(matched.number, LERNAZHUP_LOST, MATCH);
    symbol[given.part_len - 1] = 2;
    note(MATCH, mode);
    expect(matched.number, LERNAZHUP_NOCHIP, MATCH);
    given.part_len--;
    note(MATCH, mode);
    expect(matched.number, LERNAZHUP_BADPART, MATCH);
    part = chips;
}

/* Pushes, finishes and takes of the record in hand that are refused. */
static void measure_refusals(uint32_t mode)
{
    static const uint8_t flat[32] = {0};
    static uint8_t bad[32] = {2};
    const uint8_t *good = part;
    int open = given.receiver.ended == LERNAZHUP_MORE;
    note(FINISH, mode);
    expect(step.number, open ? LERNAZHUP_RUNOUT : LERNAZHUP_ENDED, FINISH);
    note(TAKE, mode);
    expect(reading.number, open ? LERNAZHUP_NOTENDED : LERNAZHUP_DONE, TAKE);
    given.part_len = LERNAZHUP_SYMBOL_CHIPS(mode) - 1;
    note(PUSH, mode);
    expect(step.number, open ? LERNAZHUP_BADPART : LERNAZHUP_ENDED, PUSH);
    given.part_len = LERNAZHUP_SYMBOL_CHIPS(mode);
    part = flat;
    note(PUSH, mode);
    expect(step.number, open ? LERNAZHUP_LOST : LERNAZHUP_ENDED, PUSH);
    part = bad;
    note(PUSH, mode);
    expect(step.number, open ? LERNAZHUP_NOCHIP : LERNAZHUP_ENDED, PUSH);
    part = good;
    given.receiver.length += 128;
    note(PUSH, mode);
    expect(step.number, LERNAZHUP_FORGED, PUSH);
    note(FINISH, mode);
    expect(step.number, LERNAZHUP_FORGED, FINISH);
    note(TAKE, mode);
    expect(reading.number, LERNAZHUP_FORGED, TAKE);
    given.receiver.length -= 128;
}

/* The whole frame through the receiver, with the refusals tried at some of its symbols. */
static void measure_receiver(uint32_t mode)
{
    size_t at, length = LERNAZHUP_SYMBOL_CHIPS(mode);
    given.mode = mode;
    note(START, mode);
    expect(step.number, LERNAZHUP_MORE, START);
    for (at = 0; at < frame_chips(mode); at += length) {
        given.receiver = step.receiver;
        part = chips + at;
        if (at / length % 50 == 0)
            measure_refusals(mode);
        given.part_len = length;
        note(PUSH, mode);
        expect(step.number, at + length < frame_chips(mode) ? LERNAZHUP_MORE : LERNAZHUP_DONE, PUSH);
    }
    given.receiver = step.receiver;
    measure_refusals(mode);
    given.report_len = OCTETS - 1;
    note(TAKE, mode);
    expect(reading.number, LERNAZHUP_NOROOM, TAKE);
    given.report_len = OCTETS;
    note(TAKE, mode);
    expect(reading.number, LERNAZHUP_DONE, TAKE);
}

static void measure_no_radio(void)
{
    given.mode = MODES;
    note(WRITE, MODES);
    note(READ, MODES);
    note(WRITE_CHECKED, MODES);
    note(READ_CHECKED, MODES);
    note(CHECK, MODES);
    note(FCS, MODES);
    note(FCS_BITWISE, MODES);
    note(MATCH, MODES);
    expect(matched.number, LERNAZHUP_BADMODE, MATCH);
    note(START, MODES);
    expect(step.number, LERNAZHUP_BADMODE, START);
    given.receiver = step.receiver;
    note(PUSH, MODES);
    note(FINISH, MODES);
    note(TAKE, MODES);
}

/* Gives whether a call exceeds the limit. */
static int print_table(void)
{
    int which, column, exceeded = 0;
    printf("| call | bytes of stack beyond an empty call, mode 0 | mode 1 | mode 2 | no radio |\n");
    printf("|---|---|---|---|---|\n");
    for (which = 0; which < CALLS; which++) {
        printf("| %s |", names[which]);
        for (column = 0; column <= MODES; column++) {
            printf(" %lu |", (unsigned long)most[which][column]);
            exceeded |= most[which][column] > LIMIT;
        }
        printf("\n");
    }
    printf("\nLimit %d: %s\n", LIMIT, exceeded ? "exceeded" : "kept");
    return exceeded;
}

int main(void)
{
    uint32_t mode;
    for (mode = 0; mode < MODES; mode++) {
        memset(report, 0x53, sizeof report);
        measure_write(WRITE, OCTETS, mode);
        spoil(mode);
        measure_read(READ, mode);
        measure_match(mode);
        measure_receiver(mode);
        memset(report, 0x53, sizeof report);
        measure_write(WRITE_CHECKED, LERNAZHUP_CHECKED_MAX, mode);
        spoil(mode);
        measure_read(READ_CHECKED, mode);
        measure_check(mode);
        measure_zeros(mode);
    }
    measure_no_radio();
    return print_table();
}
