/*
 * The differential test: the library against the reference, on cases drawn at random from a seed.
 *
 *   compare [SEED [CASES]]       (else a seed from the clock, and 2,000,000 cases)
 *
 * A case is one call of the library. The same seed gives the same cases. Exits with 1 on the first
 * mismatch, and where one of the numbers that a function can give never came up.
 */
#define _DEFAULT_SOURCE
#include <inttypes.h>
#include <stdio.h>
#include <stdlib.h>
#include <string.h>
#include <time.h>
#include <unistd.h>

#include "cases.h"
#include "compared_calls.h"
#include "printed_facts.h"
#include "reference.h"

/* ---- Kinds of cases ---- */

static struct made made;
static uint8_t wanted[LENT_MAX];   /* what a lent buffer must hold after the call */

/* The symbols of a frame that was read, matched one by one: all are near enough to a word, the
 * chips repaired are the sum of their distances, the gap is the least of theirs, and in mode 0 the
 * first one's word is the polarity. By the library alone. */
static void check_symbols(uint32_t mode, lernazhup_reading reading)
{
    uint32_t size = reference_chips(mode), s;
    lernazhup_reading want = reading;

    begin("lernazhup_read, then lernazhup_match", mode, made.chips, made.length, 0);
    want.count = 0;
    want.gap = UINT32_MAX;
    want.polarity = mode == 0 ? lernazhup_match(mode, made.chips, size).word : 0;
    for (s = 0; s < reading.place; s++) {
        lernazhup_matched symbol = lernazhup_match(mode, made.chips + s * size, size);

        if (symbol.number != LERNAZHUP_DONE)
            mismatch("a symbol of a frame that was read isn't matched");
        want.count += symbol.nearest;
        if (symbol.next - symbol.nearest < want.gap)
            want.gap = symbol.next - symbol.nearest;
    }
    check_reading(reading, want);
    if (reading.gap < LERNAZHUP_BY_MODE(mode, 3, 2, 2))
        mismatch("the gap of a frame that was read is less than it can be");
}

/* In mode 0 the inverse of any chips is read as they are, done with the other polarity, and leaves
 * the same report buffer. By the library alone. */
static void check_inverse(enum profile profile, size_t room)
{
    const struct calls *library = &compared[profile];
    const uint8_t *before = pick_junk();
    lernazhup_reading want;
    uint8_t *out;

    memcpy(wanted, before, room);
    want = library->read(0, made.chips, made.length, wanted, room);
    if (want.number == LERNAZHUP_DONE)
        want.polarity = 1 - want.polarity;
    turn_over(&made, 0, made.length);
    begin(library->read_name, 0, made.chips, made.length, room);
    out = lend_somewhere(LENT_OUT, before, room);
    check_reading(library->read(0, made.chips, made.length, out, room), want);
    check_lent(LENT_OUT, "report", wanted);
}

static void try_reading(enum profile profile)
{
    lernazhup_reading reading;
    uint32_t mode;
    size_t room;

    make_chips(&made, 127);
    mode = make_mode(made.mode);
    room = make_room(made.n);
    reading = check_read(profile, mode, made.chips, made.length, room);
    if (reading.number == LERNAZHUP_DONE && chance(10))
        check_symbols(mode, reading);
    if (mode == 0 && chance(10))
        check_inverse(profile, room);
}

/* A part in the mode it was made for or in another. */
static void try_matching(void)
{
    uint32_t mode = pick(MODES);
    uint8_t part[PART_MAX];
    size_t length;

    notes_clear();
    length = make_part(mode, part);
    if (chance(12))
        mode = chance(50) ? pick(2 * MODES) : make_bad_mode();
    check_match(mode, part, length);
}

/* What is written reads back, in mode 0 inverted too, the checked report with its FCS, whatever
 * stands behind it, and with the gap of a frame as written: by the library alone, without the
 * reference. */
static void try_reading_back(enum profile profile, uint32_t mode, const uint8_t *report,
    size_t length, size_t room)
{
    const struct calls *library = &compared[profile];
    lernazhup_written written;
    lernazhup_reading want = { LERNAZHUP_DONE, 0, 0, 0, 0, 0 };
    uint8_t octets[127 + 2], *in, *out;
    uint32_t fcs = lernazhup_fcs(report, length);
    size_t shown, i;

    memcpy(octets, report, length);
    octets[length] = (uint8_t)fcs;
    octets[length + 1] = (uint8_t)(fcs >> 8);
    memcpy(wanted, pick_junk(), room);
    begin(profile == PLAIN ? "lernazhup_write, then lernazhup_read"
        : "lernazhup_write_checked, then lernazhup_read_checked", mode, report, length, room);
    written = library->write(mode, report, length, wanted, room);
    want.place = written.chips / reference_chips(mode);
    want.n = (uint32_t)length + (profile == CHECKED ? 2 : 0);
    want.gap = LERNAZHUP_BY_MODE(mode, 15, 12, 6);
    want.polarity = mode == 0 ? pick(2) : 0;
    for (i = 0; i < written.chips; i++)
        wanted[i] ^= (uint8_t)want.polarity;
    shown = chance(50) ? written.chips : room;
    in = lend_somewhere(LENT_IN, wanted, shown);
    out = lend_somewhere(LENT_OUT, pick_junk(), want.n);
    check_reading(library->read(mode, in, shown, out, want.n), want);
    check_lent(LENT_OUT, "report", octets);
}

/* The chips of the frame that a writer makes of a report. */
static size_t frame_of(enum profile profile, uint32_t mode, size_t length)
{
    size_t n = length + (profile == CHECKED ? 2 : 0);

    return reference_chips(mode) * reference_per_octet(mode) * (6 + n);
}

static void try_writing(enum profile profile)
{
    static uint8_t report[LENT_MAX];
    uint32_t mode = pick(MODES), kind = pick(100);
    size_t length = kind < 55 ? pick(20) : kind < 97 ? pick(131) : kind < 99 ? pick(600) : 256 + pick(128), room, needed;

    notes_clear();
    if (pick(2000) == 0)
        length = 65536 + pick(128);
    if (chance(50))
        make_report(report, length);
    else
        memcpy(report, pick_junk(), length);
    needed = frame_of(profile, mode, length < 128 ? length : 128);
    room = chance(40) ? needed + pick(3) : make_room(needed);
    mode = make_mode(mode);
    if (check_write(profile, mode, report, length, room).number == LERNAZHUP_DONE && chance(25))
        try_reading_back(profile, mode, report, length, room);
}

static void try_slice(void)
{
    static uint8_t octets[LENT_MAX];
    size_t length = make_slice_length();

    notes_clear();
    make_report(octets, length);
    check_fcs(octets, length);
    check_check(octets, length);
}

/* Calls that must change nothing: answered 10, 11 or 12. Gives the record that the last of them
 * gave back. */
static lernazhup_receiver idle_calls(lernazhup_receiver record)
{
    static uint8_t part[PART_MAX];
    const uint8_t *bytes = pick_junk();

    if (chance(50))
        check_take(record, make_room(record.length % 128));
    if (record.mode >= MODES)
        return check_push(record, bytes, reference_chips(pick(MODES))).receiver;
    if (record.ended == LERNAZHUP_MORE)
        return check_push(record, bytes, make_part_length(record.mode)).receiver;
    if (chance(50))
        return check_finish(record).receiver;
    return check_push(record, part, make_part(record.mode, part)).receiver;
}

/* For a buffer cut into whole symbols, take into 127 bytes gives what the reader gives, and the
 * check of its report the number that the checked reader gives: by the library alone. */
static void check_take_is_read(lernazhup_receiver record)
{
    uint8_t report[127];
    lernazhup_reading want, checked;

    memset(wanted, 0x5A, sizeof report);
    memset(report, 0x5A, sizeof report);
    begin_on_record("lernazhup_read, then lernazhup_take", &record, made.chips, made.length, sizeof report);
    want = lernazhup_read(record.mode, made.chips, made.length, report, sizeof report);
    check_reading(lernazhup_take(record, wanted, sizeof report), want);
    if (memcmp(wanted, report, sizeof report) != 0)
        mismatch("take's report isn't the reader's");
    checked = lernazhup_read_checked(record.mode, made.chips, made.length, report, sizeof report);
    if (want.number == LERNAZHUP_DONE && lernazhup_check(wanted, want.n) != checked.number)
        mismatch("the check of take's report isn't the checked reader's");
}

/* The record of a step that start, push and finish alone have led to. */
static lernazhup_receiver honest(lernazhup_step step)
{
    if (step.number == LERNAZHUP_FORGED)
        mismatch("a record made by these calls is answered 34");
    return step.receiver;
}

/* A record from start to its end, symbol by symbol. */
static void try_sequence(void)
{
    lernazhup_receiver record;
    size_t size, at;

    make_chips(&made, chance(90) ? 20 : 127);
    size = reference_chips(made.mode);
    record = check_start(make_mode(made.mode));
    if (record.mode < MODES)
        size = reference_chips(record.mode);
    for (at = 0; record.ended == LERNAZHUP_MORE && made.length - at >= size; at += size) {
        record = honest(check_push(record, made.chips + at, size));
        if (chance(10))
            record = idle_calls(record);
        if (chance(10))
            keep_record(&record);
    }
    if (record.ended == LERNAZHUP_MORE)
        record = honest(check_finish(record));
    keep_record(&record);
    record = idle_calls(record);
    check_take(record, make_room(made.n));
    if (check_take(record, 127).number == LERNAZHUP_FORGED)
        mismatch("a record made by these calls is answered 34");
    check_take_is_read(record);
}

/* Each call on a record that may be forged, and on what push makes of it. */
static void try_record(void)
{
    lernazhup_receiver record = make_record();
    uint8_t part[PART_MAX];
    int pushes;

    check_take(record, make_room(record.length % 256));
    check_finish(record);
    for (pushes = 1 + (int)pick(3); pushes > 0; pushes--)
        record = check_push(record, part, make_part(record.mode < MODES ? record.mode : pick(MODES), part)).receiver;
    if (chance(30))
        check_take(record, 127);
}

static void try_start(void)
{
    lernazhup_receiver record;

    notes_clear();
    record = check_start(chance(50) ? pick(MODES) : make_bad_mode());
    keep_record(&record);
    if (chance(30))
        idle_calls(record);
}

static void try_something(void)
{
    uint32_t kind = pick(140);

    if (kind < 56)
        try_reading(PLAIN);
    else if (kind < 76)
        try_writing(PLAIN);
    else if (kind < 79)
        try_sequence();
    else if (kind < 98)
        try_record();
    else if (kind < 100)
        try_start();
    else if (kind < 116)
        try_reading(CHECKED);
    else if (kind < 124)
        try_writing(CHECKED);
    else if (kind < 130)
        try_slice();
    else
        try_matching();
}

/* Take of a record ended well, of each length, with rooms around it. */
static void try_taking(uint32_t mode, uint32_t n)
{
    lernazhup_receiver record = reference_start(mode).receiver;

    record.ended = LERNAZHUP_DONE;
    record.length = n;
    record.taken = (6 + n) * reference_per_octet(mode);
    record.gap = pick_any();
    record.polarity = pick_any();
    memcpy(record.octets, pick_junk(), n);
    if (n > 0)
        check_take(record, n - 1);
    check_take(record, n);
    check_take(record, n + 1);
}

/* The frame in hand, symbol by symbol, taken into rooms at the edge. */
static void try_pushing(void)
{
    size_t size = reference_chips(made.mode), at;
    lernazhup_receiver record = check_start(made.mode);

    for (at = 0; record.ended == LERNAZHUP_MORE && at < made.length; at += size)
        record = honest(check_push(record, made.chips + at, size));
    if (record.ended == LERNAZHUP_MORE)
        record = honest(check_finish(record));
    if (made.n > 0)
        check_take(record, made.n - 1);
    check_take(record, made.n);
    check_take_is_read(record);
}

/* A form of a report's frame: at the accepted distance, one chip farther in the last symbol, and
 * with rooms at the edge. */
static void try_frame(uint32_t mode, uint32_t form, const uint8_t *report, uint32_t n)
{
    make_edge_frame(&made, mode, form, report, n, 0);
    check_read(PLAIN, mode, made.chips, made.length, n);
    check_read(PLAIN, mode, made.chips, made.length, n + 1);
    if (n > 0)
        check_read(PLAIN, mode, made.chips, made.length, n - 1);
    check_read(PLAIN, mode, made.chips, made.length - 1, n);
    if (n < 4 || n > 125)
        try_pushing();
    make_edge_frame(&made, mode, form, report, n, 1);
    check_read(PLAIN, mode, made.chips, made.length, 127);
}

/* Every length, in every mode. */
static void try_every_length(void)
{
    uint32_t mode, n, each, form;

    for (each = 0; each < MODES * 128; each++) {
        mode = each % MODES;
        n = each / MODES;
        for (form = 0; form < FORMS; form++)
            try_frame(mode, form, pick_junk(), n);
        notes_clear();
        check_write(PLAIN, mode, pick_junk(), n, made.frame);
        check_write(PLAIN, mode, pick_junk(), n, made.frame - 1);
        check_write(PLAIN, mode, pick_junk(), n, made.frame + 1);
        try_taking(mode, n);
    }
}

/* A report's check, and its frame in each form, with as many errors as accepted and, as the plain
 * writer makes it, with one more: the checked reader with a room that is too short, with one that
 * isn't, and where a later symbol is lost. */
static void try_checked_reading(uint32_t mode, const uint8_t *report, uint32_t n)
{
    uint32_t form;

    check_check(report, n);
    for (form = 0; form < FORMS; form++) {
        make_edge_frame(&made, mode, form, report, n, 0);
        check_read(CHECKED, mode, made.chips, made.length, n + form % 2);
    }
    make_edge_frame(&made, mode, 0, report, n, 1);
    check_read(CHECKED, mode, made.chips, made.length, 127);
    if (n > 0)
        check_read(CHECKED, mode, made.chips, made.length, n - 1);
}

/* Reports of every length: all zero; ended by their FCS; and with a wrong bit. */
static void try_every_checked_reading(void)
{
    uint32_t mode, n, each, bit;
    uint8_t report[127];

    for (each = 0; each < MODES * 128; each++) {
        mode = each % MODES;
        n = each / MODES;
        memset(report, 0, n);
        try_checked_reading(mode, report, n);
        if (n < 2)
            continue;
        pick_bytes(report, n);
        put_fcs(report, n);
        try_checked_reading(mode, report, n);
        bit = pick(8 * n);
        report[bit / 8] ^= (uint8_t)(1 << bit % 8);
        try_checked_reading(mode, report, n);
    }
}

/* The FCS of every number of octets that a report has and more, and of some that a length cut to 16
 * bits would make a few. */
static void try_every_slice(void)
{
    static uint8_t octets[LENT_MAX];
    size_t n;

    notes_clear();
    for (n = 2; n < 65540; n = n == 300 ? 65534 : n + 1) {
        memcpy(octets, pick_junk(), n);
        put_fcs(octets, n);
        check_fcs(octets, n);
        check_check(octets, n);
    }
}

/* Every wrong bit of a report. */
static void try_every_wrong_bit(void)
{
    enum { N = 127 };
    uint8_t report[N];
    uint32_t bit;

    notes_clear();
    pick_bytes(report, N);
    put_fcs(report, N);
    for (bit = 0; bit < 8 * N; bit++) {
        report[bit / 8] ^= (uint8_t)(1 << bit % 8);
        check_fcs(report, N);
        check_check(report, N);
        report[bit / 8] ^= (uint8_t)(1 << bit % 8);
    }
}

/* Reports of every length and some above: any, all zero, and all zero but for each octet in turn.
 * For the last no room is lent, since 3 comes after 16. */
static void try_every_checked_writing(void)
{
    uint8_t report[130] = { 0 };
    uint32_t mode, n, each, k;

    notes_clear();
    for (each = 0; each < MODES * 131; each++) {
        mode = each % MODES;
        n = each / MODES;
        check_write(CHECKED, mode, pick_junk(), n, frame_of(CHECKED, mode, n) - 1);
        check_write(CHECKED, mode, pick_junk(), n, frame_of(CHECKED, mode, n));
        check_write(CHECKED, mode, pick_junk(), n, frame_of(CHECKED, mode, n) + 1);
        check_write(CHECKED, make_bad_mode(), report, n, 0);
        check_write(CHECKED, mode, report, n, 0);
        check_write(CHECKED, mode, report, n, frame_of(CHECKED, mode, n));
        for (k = 0; k < n; k++) {
            report[k] = (uint8_t)(1 << pick(8));
            check_write(CHECKED, mode, report, n, 0);
            report[k] = 0;
        }
    }
}

enum { NOISY = 3 };   /* octets of the frames with noise */

/* So many, with their FCS. */
static const uint8_t *pick_noisy(void)
{
    static uint8_t report[NOISY];

    pick_bytes(report, NOISY);
    put_fcs(report, NOISY);
    return report;
}

/* The frame in hand, by each way to read it. */
static void try_each_way(void)
{
    check_read(PLAIN, made.mode, made.chips, made.length, made.n);
    check_read(CHECKED, made.mode, made.chips, made.length, made.n);
    try_pushing();
}

/* A frame with so many wrong chips in each symbol from one to before another, and its inverse. */
static void try_noise(uint32_t mode, uint32_t from, uint32_t to, uint32_t wrong)
{
    make_noisy_frame(&made, mode, pick_noisy(), NOISY, from, to, wrong);
    try_each_way();
    turn_over(&made, 0, made.length);
    try_each_way();
}

/* Each number of wrong chips up to one more than accepted: in all symbols of a frame, and in each
 * of them alone, which then has the least gap. */
static void try_every_noise(void)
{
    uint32_t mode, wrong, s;

    for (mode = 0; mode < MODES; mode++)
        for (wrong = 0; wrong <= reference_limit(mode) + 1; wrong++) {
            uint32_t symbols = (6 + NOISY) * reference_per_octet(mode);

            try_noise(mode, 0, symbols, wrong);
            for (s = 0; s < symbols; s++)
                try_noise(mode, s, s + 1, wrong);
        }
}

/* A frame in a form that can be read, turned over from one symbol to before another. */
static void try_turning(uint32_t mode, uint32_t from, uint32_t to)
{
    size_t size = reference_chips(mode);
    uint32_t form = pick(mode == 0 ? FORMS : INVERTED);

    make_edge_frame(&made, mode, form, pick_noisy(), NOISY, 0);
    turn_over(&made, from * size, to * size);
    try_each_way();
}

/* From each symbol of a frame on, and each symbol alone. */
static void try_every_turning(void)
{
    uint32_t mode, s;

    for (mode = 0; mode < MODES; mode++) {
        uint32_t symbols = (6 + NOISY) * reference_per_octet(mode);

        for (s = 0; s < symbols; s++) {
            try_turning(mode, s, symbols);
            try_turning(mode, s, s + 1);
        }
    }
}

/* ---- Every part ---- */

/* Each word with up to two wrong chips more than accepted; flat chips; and each word on its way to
 * each other, chip by chip: half way they are as near, where an even number of chips is between. */
static void try_every_word(uint32_t mode)
{
    enum { TIMES = 8 };
    uint32_t size = reference_chips(mode), words = reference_words(mode), w, each, c;
    uint8_t part[LERNAZHUP_SYMBOL_MAX];

    for (w = 0; w < words; w++) {
        for (each = 0; each < TIMES * (reference_limit(mode) + 3); each++) {
            memcpy(part, reference_word(mode, w), size);
            invert_some(mode, part, each / TIMES);
            check_match(mode, part, size);
        }
        for (each = 0; each < words; each++) {
            memcpy(part, reference_word(mode, w), size);
            for (c = 0; c < size; c++)
                if (part[c] != reference_word(mode, each)[c]) {
                    part[c] ^= 1;
                    check_match(mode, part, size);
                }
        }
    }
    for (c = 0; c < 2; c++) {
        memset(part, (int)c, size);
        check_match(mode, part, size);
    }
}

/* Each symbol that chips can make, in a mode that has few enough of them. */
static void try_every_symbol(uint32_t mode)
{
    uint32_t size = reference_chips(mode), symbol, c;
    uint8_t part[LERNAZHUP_SYMBOL_MAX];

    for (symbol = 0; symbol < 1u << size; symbol++) {
        for (c = 0; c < size; c++)
            part[c] = symbol >> c & 1;
        check_match(mode, part, size);
    }
}

/* A word with a byte in each place that isn't a chip; and chips and other bytes of each length up
 * to more than two symbols, in the modes that no radio has too. */
static void try_every_bad_part(uint32_t mode)
{
    enum { LENGTHS = 70 };
    uint32_t size = reference_chips(mode), other, length, c;
    uint8_t part[LENGTHS];

    for (c = 0; c < size; c++) {
        memcpy(part, reference_word(mode, pick(reference_words(mode))), size);
        part[c] = (uint8_t)(2 + pick(254));
        check_match(mode, part, size);
    }
    for (length = 0; length < LENGTHS; length++) {
        const uint8_t *bytes = pick_junk();

        for (c = 0; c < length; c++)
            part[c] = bytes[c] % 2;
        check_match(mode, part, length);
        check_match(mode, bytes, length);
        for (other = MODES; other < 2 * MODES; other++)
            check_match(other, part, length);
        check_match(make_bad_mode(), bytes, length);
    }
}

static void try_every_part(void)
{
    uint32_t mode;

    notes_clear();
    for (mode = 0; mode < MODES; mode++) {
        try_every_word(mode);
        try_every_bad_part(mode);
        if (reference_chips(mode) <= 16)
            try_every_symbol(mode);
    }
}

/* ---- What a record may hold of the polarity ---- */

/* An open record, finished, taken, and pushed symbols: each of two words with as many wrong chips
 * as accepted and one more, flat chips, and one with a byte that isn't a chip. */
static void try_open_record(lernazhup_receiver record)
{
    uint32_t size = reference_chips(record.mode), each;
    uint8_t part[LERNAZHUP_SYMBOL_MAX];

    check_finish(record);
    check_take(record, 127);
    for (each = 0; each < 2; each++) {
        memcpy(part, reference_word(record.mode, each), size);
        invert_some(record.mode, part, reference_limit(record.mode));
        check_push(record, part, size);
        memcpy(part, reference_word(record.mode, each), size);
        invert_some(record.mode, part, reference_limit(record.mode) + 1);
        check_push(record, part, size);
        memset(part, (int)each, size);
        check_push(record, part, size);
        part[pick(size)] = 2;
        check_push(record, part, size);
    }
}

/* A record of two octets, ended well and by each other number up to 35. */
static void try_ended_record(lernazhup_receiver record)
{
    record.length = 2;
    record.taken = 8 * reference_per_octet(record.mode);
    for (record.ended = 0; record.ended < 36; record.ended++) {
        check_take(record, 2);
        check_take(record, 1);
        check_finish(record);
    }
}

/* In each mode: polarity and last symbol such as push leaves them and others, with none and a few
 * symbols taken. */
static void try_every_held_polarity(void)
{
    static const uint32_t held[] = { 0, 1, 2, 3, 0x80000000, UINT32_MAX };
    enum { HELD = sizeof held / sizeof held[0] };
    uint32_t mode, each;

    notes_clear();
    for (mode = 0; mode < MODES; mode++)
        for (each = 0; each < HELD * HELD; each++) {
            lernazhup_receiver record = reference_start(mode).receiver;

            record.polarity = held[each / HELD];
            record.last = held[each % HELD];
            try_ended_record(record);
            for (record.taken = 0; record.taken < 3; record.taken++)
                try_open_record(record);
        }
}

/* ---- Lengths that don't fit in 32 bits ---- */

static uint8_t *huge_in, *huge_out;
static const size_t huge = (size_t)UINT32_MAX + 1;

/* Only the front of such a buffer is compared: nothing has a reason to touch more of it. */
static void check_huge_front(void)
{
    long at;

    for (at = 0; at < LENT_MAX; at++)
        if (huge_out[at] != wanted[at])
            mismatch("a lent buffer of more than 4 GiB was changed where it shouldn't be, or not where it should be");
    memset(huge_out, 0, LENT_MAX);
}

static void try_huge_frames(enum profile profile, uint32_t mode)
{
    static const uint8_t report[3] = { 1, 2, 3 };
    lernazhup_written want;
    lernazhup_reading want_read;
    int twice;

    for (twice = 0; twice < 2; twice++) {
        /* First a chip buffer that long, then a report that long. */
        const uint8_t *in = twice == 0 ? report : huge_in;
        size_t length = twice == 0 ? 3 : huge + 3;

        memset(wanted, 0, LENT_MAX);
        want = reference[profile].write(mode, in, length, wanted, LENT_MAX);
        count_case(profile == PLAIN ? WRITE : WRITE_CHECKED, mode, want.number);
        begin(compared[profile].write_name, mode, NULL, length, huge + 1);
        check_written(compared[profile].write(mode, in, length, huge_out, huge + 1), want);
        check_huge_front();
    }
    reference[profile].write(mode, report, 3, huge_in, LENT_MAX);
    memset(wanted, 0, LENT_MAX);
    want_read = reference[profile].read(mode, huge_in, LENT_MAX, wanted, 127);
    count_case(profile == PLAIN ? READ : READ_CHECKED, mode, want_read.number);
    begin(compared[profile].read_name, mode, NULL, huge + 1, huge + 1);
    check_reading(compared[profile].read(mode, huge_in, huge + 1, huge_out, huge + 1), want_read);
    check_huge_front();
    memset(huge_in, 0, LENT_MAX);
}

/* A part of one symbol and 4 GiB. */
static void try_huge_parts(uint32_t mode)
{
    lernazhup_receiver record = reference_start(mode).receiver;
    size_t length = huge + reference_chips(mode);

    begin_on_record("lernazhup_push", &record, NULL, length, 0);
    count_case(PUSH, mode, LERNAZHUP_BADPART);
    check_step(lernazhup_push(record, huge_in, length), reference_push(record, huge_in, length));
    begin("lernazhup_match", mode, NULL, length, 0);
    count_case(MATCH, mode, LERNAZHUP_BADPART);
    check_matched(lernazhup_match(mode, huge_in, length), reference_match(mode, huge_in, length));
}

/* A report of a record of two octets taken into 4 GiB. */
static void try_huge_take(uint32_t mode)
{
    lernazhup_receiver record = reference_start(mode).receiver;
    lernazhup_reading want;

    record.ended = LERNAZHUP_DONE;
    record.length = 2;
    record.taken = 8 * reference_per_octet(mode);
    record.octets[0] = record.octets[1] = 0xEE;
    memset(wanted, 0, LENT_MAX);
    want = reference_take(record, wanted, 127);
    count_case(TAKE, mode, want.number);
    begin_on_record("lernazhup_take", &record, NULL, 0, huge + 1);
    check_reading(lernazhup_take(record, huge_out, huge + 1), want);
    check_huge_front();
}

static void try_huge_lengths(void)
{
    uint32_t mode;

    notes_clear();
    huge_in = lent_huge(huge + LENT_MAX);
    huge_out = lent_huge(huge + LENT_MAX);
    if (huge_in == NULL || huge_out == NULL) {
        printf("lengths above 32 bits are left out: no address space for them\n");
        return;
    }
    for (mode = 0; mode < MODES; mode++) {
        try_huge_frames(PLAIN, mode);
        try_huge_frames(CHECKED, mode);
        try_huge_parts(mode);
        try_huge_take(mode);
    }
}

/* ---- The run ---- */

#ifdef __SANITIZE_ADDRESS__
#define SANITIZED "with"
#else
#define SANITIZED "without"
#endif

/* A number in digits and nothing else: a comma in it would silently make a short run of a long
 * one. */
static uint64_t number(const char *text)
{
    if (*text == 0 || text[strspn(text, "0123456789")] != 0) {
        fprintf(stderr, "compare: '%s' is not a number\n", text);
        exit(2);
    }
    return strtoull(text, NULL, 10);
}

int main(int argc, char **argv)
{
    enum { MANY = 100000 };
    uint64_t seed = argc > 1 ? number(argv[1]) : (uint64_t)time(NULL) * 1000003 + (uint64_t)getpid();
    uint64_t wanted_cases = argc > 2 ? number(argv[2]) : 2000000;
    static char again[200];

    snprintf(again, sizeof again, "%.100s %" PRIu64 " %" PRIu64, argv[0], seed, wanted_cases);
    printf("seed %" PRIu64 "; again: %s\nthe C side is built %s the address sanitizer\n", seed, again, SANITIZED);
    fflush(stdout);
    if (!facts_hold())
        return 1;
    pick_seed(seed);
    check_open(again);
    try_start();
    while (cases_so_far() < wanted_cases)
        try_something();
    try_every_length();
    try_every_checked_reading();
    try_every_slice();
    try_every_wrong_bit();
    try_every_checked_writing();
    try_every_noise();
    try_every_turning();
    try_every_part();
    try_every_held_polarity();
    try_huge_lengths();
    print_counts();
    /* A test that never met a number says nothing on it. Few cases can't be asked for all. */
    return wanted_cases < MANY || all_met() ? 0 : 1;
}
