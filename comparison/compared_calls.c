/* The compared calls of the differential test; see compared_calls.h. */
#define _DEFAULT_SOURCE
#include "compared_calls.h"

#include <inttypes.h>
#include <signal.h>
#include <stdio.h>
#include <stdlib.h>
#include <string.h>
#include <unistd.h>

#include "cases.h"
#include "reference.h"
#ifndef LIBRARY_ONLY
#include "baselines.h"
#endif

/* ---- What is compared ---- */

const struct calls reference[PROFILES] = {
    { PLAIN, NULL, NULL, reference_read, reference_write },
    { CHECKED, NULL, NULL, reference_read_checked, reference_write_checked }
};

const struct calls compared[] = {
    { PLAIN, "lernazhup_read", "lernazhup_write", lernazhup_read, lernazhup_write },
    { CHECKED, "lernazhup_read_checked", "lernazhup_write_checked",
        lernazhup_read_checked, lernazhup_write_checked },
#ifndef LIBRARY_ONLY
    { PLAIN, "usual_read", NULL, usual_read, NULL },
    { PLAIN, "best_read", NULL, best_read, NULL },
    { PLAIN, NULL, "copying_write", NULL, copying_write },
#endif
};

enum { COMPARED = sizeof compared / sizeof compared[0] };

static const struct { const char *name; uint32_t (*fcs)(const uint8_t *, size_t); } fcs_calls[] = {
    { "lernazhup_fcs", lernazhup_fcs }, { "lernazhup_fcs_bitwise", lernazhup_fcs_bitwise },
#ifndef LIBRARY_ONLY
    { "usual_fcs", usual_fcs },
#endif
};

/* the library's are the first */
enum { LIBRARY_FCS = 2, FCS_CALLS = sizeof fcs_calls / sizeof fcs_calls[0] };

/* ---- The case in hand, and what was met so far ---- */

static const char *const function_names[FUNCTIONS] = {
    "write", "read", "match", "start", "push", "finish", "take", "write_checked", "read_checked",
    "check"
};

/* Numbers by column: 0 to 16, 34, and the others, which take repeats from forged records. */
enum { FORGED = 17, OTHER = 18, COLUMNS = 19 };

/* Modes by row: those of the radios, the modes that no radio has, and the calls without a mode. */
enum { NO_RADIO = MODES, NO_MODE, ROWS };

static const char *repeat;
static uint64_t cases, baseline_cases, fcs_cases;
static uint64_t met[FUNCTIONS][ROWS][COLUMNS];
static uint64_t done_lengths[FUNCTIONS][MODES][128];
static uint64_t done_polarities[FUNCTIONS][2];   /* of mode 0 */

static struct {
    const char *name;
    uint32_t mode;
    const uint8_t *in;           /* the buffer that is read, if any */
    size_t in_length, room;
    int on_record, on_octets;    /* a call that takes a record; one of octets, without a mode */
    lernazhup_receiver record;
    const lernazhup_receiver *got, *want;   /* the records that came back, where these differ */
} now;

static void print_record(const char *title, const lernazhup_receiver *r)
{
    int i, shown = 127;

    while (shown > 0 && r->octets[shown - 1] == 0)
        shown--;
    printf("  %s: mode %" PRIu32 ", ended %" PRIu32 ", taken %" PRIu32 ", length %" PRIu32
        ", count %" PRIu32 ", last %" PRIu32 ", octet %" PRIu32 ", gap %" PRIu32
        ", polarity %" PRIu32 ", octets", title, r->mode, r->ended, r->taken, r->length, r->count,
        r->last, r->octet, r->gap, r->polarity);
    for (i = 0; i < shown; i++)
        printf(" %02x", r->octets[i]);
    printf(shown < 127 ? " and zeros\n" : "\n");
}

/* Octets in hex; chips symbol by symbol, a byte that isn't a chip in brackets. */
static void print_bytes(void)
{
    enum { SHOWN = 2000 };
    size_t i, group = now.mode < MODES ? reference_chips(now.mode) : LERNAZHUP_SYMBOL_MAX;

    printf("  bytes in:");
    for (i = 0; i < now.in_length && i < SHOWN; i++) {
        if (now.on_octets || i % group == 0)
            printf(" ");
        printf(now.on_octets ? "%02x" : now.in[i] > 1 ? "[%d]" : "%d", now.in[i]);
    }
    printf("%s\n", i < now.in_length ? " .." : "");
}

/* What is needed for finding the case again, with or without the seed. */
static void print_case(void)
{
    printf("  call: %s, ", now.name);
    if (now.on_octets)
        printf("%zu octets in\n", now.in_length);
    else
        printf("mode %" PRIu32 ", %zu bytes in, a room of %zu bytes\n", now.mode, now.in_length, now.room);
    notes_print(stdout);
    if (now.on_record)
        print_record("record in", &now.record);
    if (now.got != NULL) {
        print_record("record out", now.got);
        print_record("should be", now.want);
    }
    if (now.in != NULL && now.in_length > 0)
        print_bytes();
    printf("  again: %s\n", repeat);
    fflush(stdout);
}

void mismatch(const char *what)
{
    printf("mismatch in case %" PRIu64 ": %s\n", cases, what);
    print_case();
    exit(1);
}

/* A function under test touched what it wasn't lent, trapped, or doesn't end. It holds no lock of
 * ours, so printing is safe. */
static void on_signal(int number)
{
    printf("mismatch in case %" PRIu64 ": signal %d%s\n", cases, number,
        number == SIGSEGV || number == SIGBUS ? ", memory touched that wasn't lent" : number == SIGALRM ? ", no answer" : "");
    print_case();
    _exit(1);
}

void begin(const char *name, uint32_t mode, const uint8_t *in, size_t in_length, size_t room)
{
    now.name = name;
    now.mode = mode;
    now.in = in;
    now.in_length = in_length;
    now.room = room;
    now.on_record = 0;
    now.on_octets = 0;
}

static void begin_on_octets(const char *name, const uint8_t *octets, size_t length)
{
    begin(name, 0, octets, length, 0);
    now.on_octets = 1;
}

void begin_on_record(const char *name, const lernazhup_receiver *record, const uint8_t *in, size_t in_length, size_t room)
{
    begin(name, record->mode, in, in_length, room);
    now.on_record = 1;
    now.record = *record;
}

static void next_case(void)
{
    enum { SECONDS = 120, OFTEN = 1024 };

    if (cases++ % OFTEN == 0)
        alarm(SECONDS);
}

void count_case(enum function function, uint32_t mode, uint32_t number)
{
    uint32_t row = function == CHECK ? NO_MODE : mode < MODES ? mode : NO_RADIO;

    next_case();
    met[function][row][number <= 16 ? number : number == 34 ? FORGED : OTHER]++;
}

/* A reading that was done: its polarity in mode 0. */
static void count_polarity(enum function function, uint32_t mode, lernazhup_reading reading)
{
    if (mode == 0 && reading.number == LERNAZHUP_DONE)
        done_polarities[function][reading.polarity]++;
}

uint64_t cases_so_far(void)
{
    return cases;
}

/* ---- Lent memory ---- */

static uint8_t wanted[LENT_MAX];        /* what a lent buffer must hold after the call */
static uint8_t junk[2 * LENT_MAX];      /* random bytes that stand in lent buffers before it */

const uint8_t *pick_junk(void)
{
    return junk + pick(LENT_MAX);
}

static uint64_t lent_at[LENT_SIDES];

uint8_t *lend_somewhere(enum lent_slot slot, const uint8_t *bytes, size_t length)
{
    uint32_t kind = pick(100);
    enum lent_side side = kind < 60 ? LENT_AT_END : kind < 75 ? LENT_AT_START : LENT_BETWEEN;

    if (length == 0 && kind < 40)
        side = LENT_NULL;
    lent_at[side]++;
    return lend(slot, bytes, length, side, pick(16));
}

void check_lent(enum lent_slot slot, const char *what, const uint8_t *bytes)
{
    char words[160];
    long at = lent_differs(slot, bytes);

    if (at >= 0) {
        snprintf(words, sizeof words, "byte %ld of the lent %s buffer is %d and should be %d", at, what,
            lent_bytes(slot)[at], bytes[at]);
        mismatch(words);
    }
    if (!lent_guards_kept(slot)) {
        snprintf(words, sizeof words, "a byte beside the lent %s buffer was changed", what);
        mismatch(words);
    }
}

/* ---- Whole frames ---- */

void check_reading(lernazhup_reading got, lernazhup_reading want)
{
    char words[220];

    if (got.number == want.number && got.place == want.place && got.n == want.n
        && got.count == want.count && got.gap == want.gap && got.polarity == want.polarity)
        return;
    snprintf(words, sizeof words, "number, place, n, count, gap, polarity are %" PRIu32 " %" PRIu32
        " %" PRIu32 " %" PRIu32 " %" PRIu32 " %" PRIu32 " and should be %" PRIu32 " %" PRIu32
        " %" PRIu32 " %" PRIu32 " %" PRIu32 " %" PRIu32, got.number, got.place, got.n, got.count,
        got.gap, got.polarity, want.number, want.place, want.n, want.count, want.gap,
        want.polarity);
    mismatch(words);
}

lernazhup_reading check_read(enum profile profile, uint32_t mode, const uint8_t *chips,
    size_t length, size_t room)
{
    const uint8_t *before = pick_junk();
    enum function function = profile == PLAIN ? READ : READ_CHECKED;
    lernazhup_reading want;
    int i;

    memcpy(wanted, before, room);
    want = reference[profile].read(mode, chips, length, wanted, room);
    count_case(function, mode, want.number);
    count_polarity(function, mode, want);
    if (want.number == LERNAZHUP_DONE)
        done_lengths[function][mode][want.n]++;
    for (i = 0; i < COMPARED; i++) {
        uint8_t *in, *out;

        if (compared[i].profile != profile || compared[i].read == NULL)
            continue;
        baseline_cases += i >= PROFILES;
        begin(compared[i].read_name, mode, chips, length, room);
        in = lend_somewhere(LENT_IN, chips, length);
        out = lend_somewhere(LENT_OUT, before, room);
        check_reading(compared[i].read(mode, in, length, out, room), want);
        check_lent(LENT_IN, "chip", chips);
        check_lent(LENT_OUT, "report", wanted);
    }
    return want;
}

void check_written(lernazhup_written got, lernazhup_written want)
{
    char words[120];

    if (got.number == want.number && got.chips == want.chips)
        return;
    snprintf(words, sizeof words, "number, chips are %" PRIu32 " %" PRIu32 " and should be %" PRIu32
        " %" PRIu32, got.number, got.chips, want.number, want.chips);
    mismatch(words);
}

lernazhup_written check_write(enum profile profile, uint32_t mode, const uint8_t *report,
    size_t length, size_t room)
{
    const uint8_t *before = pick_junk();
    enum function function = profile == PLAIN ? WRITE : WRITE_CHECKED;
    lernazhup_written want;
    int i;

    memcpy(wanted, before, room);
    want = reference[profile].write(mode, report, length, wanted, room);
    count_case(function, mode, want.number);
    if (want.number == LERNAZHUP_DONE)
        done_lengths[function][mode][length]++;
    for (i = 0; i < COMPARED; i++) {
        uint8_t *in, *out;

        if (compared[i].profile != profile || compared[i].write == NULL)
            continue;
        baseline_cases += i >= PROFILES;
        begin(compared[i].write_name, mode, report, length, room);
        in = lend_somewhere(LENT_IN, report, length);
        out = lend_somewhere(LENT_OUT, before, room);
        check_written(compared[i].write(mode, in, length, out, room), want);
        check_lent(LENT_IN, "report", report);
        check_lent(LENT_OUT, "chip", wanted);
    }
    return want;
}

/* ---- One symbol ---- */

void check_matched(lernazhup_matched got, lernazhup_matched want)
{
    char words[160];

    if (got.number == want.number && got.word == want.word && got.nearest == want.nearest
        && got.next == want.next)
        return;
    snprintf(words, sizeof words, "number, word, nearest, next are %" PRIu32 " %" PRIu32 " %" PRIu32
        " %" PRIu32 " and should be %" PRIu32 " %" PRIu32 " %" PRIu32 " %" PRIu32,
        got.number, got.word, got.nearest, got.next,
        want.number, want.word, want.nearest, want.next);
    mismatch(words);
}

lernazhup_matched check_match(uint32_t mode, const uint8_t *part, size_t length)
{
    lernazhup_matched want = reference_match(mode, part, length);
    uint8_t *in;

    count_case(MATCH, mode, want.number);
    begin("lernazhup_match", mode, part, length, 0);
    in = lend_somewhere(LENT_IN, part, length);
    check_matched(lernazhup_match(mode, in, length), want);
    check_lent(LENT_IN, "part", part);
    return want;
}

/* ---- The receiver's calls ---- */

/* The name of a field that differs; NULL where none does. */
static const char *other_field(const lernazhup_receiver *a, const lernazhup_receiver *b)
{
    return a->mode != b->mode ? "mode" : a->ended != b->ended ? "ended"
        : a->taken != b->taken ? "taken" : a->length != b->length ? "length"
        : a->count != b->count ? "count" : a->last != b->last ? "last"
        : a->octet != b->octet ? "octet" : a->gap != b->gap ? "gap"
        : a->polarity != b->polarity ? "polarity"
        : memcmp(a->octets, b->octets, sizeof a->octets) != 0 ? "octets" : NULL;
}

void check_step(lernazhup_step got, lernazhup_step want)
{
    const char *field = other_field(&got.receiver, &want.receiver);
    char words[100];

    if (got.number == want.number && field == NULL)
        return;
    if (got.number != want.number)
        snprintf(words, sizeof words, "the number is %" PRIu32 " and should be %" PRIu32, got.number, want.number);
    else
        snprintf(words, sizeof words, "the number is %" PRIu32 " as it should be, but %s differs", got.number, field);
    now.got = &got.receiver;
    now.want = &want.receiver;
    mismatch(words);
}

lernazhup_receiver check_start(uint32_t mode)
{
    lernazhup_step want = reference_start(mode);

    count_case(START, mode, want.number);
    begin("lernazhup_start", mode, NULL, 0, 0);
    check_step(lernazhup_start(mode), want);
    return want.receiver;
}

lernazhup_step check_push(lernazhup_receiver record, const uint8_t *part, size_t length)
{
    lernazhup_step want = reference_push(record, part, length);
    uint8_t *in;

    count_case(PUSH, record.mode, want.number);
    begin_on_record("lernazhup_push", &record, part, length, 0);
    in = lend_somewhere(LENT_IN, part, length);
    check_step(lernazhup_push(record, in, length), want);
    check_lent(LENT_IN, "part", part);
    return want;
}

lernazhup_step check_finish(lernazhup_receiver record)
{
    lernazhup_step want = reference_finish(record);

    count_case(FINISH, record.mode, want.number);
    begin_on_record("lernazhup_finish", &record, NULL, 0, 0);
    check_step(lernazhup_finish(record), want);
    return want;
}

lernazhup_reading check_take(lernazhup_receiver record, size_t room)
{
    const uint8_t *before = pick_junk();
    lernazhup_reading want;
    uint8_t *out;

    memcpy(wanted, before, room);
    want = reference_take(record, wanted, room);
    count_case(TAKE, record.mode, want.number);
    count_polarity(TAKE, record.mode, want);
    begin_on_record("lernazhup_take", &record, NULL, 0, room);
    out = lend_somewhere(LENT_OUT, before, room);
    check_reading(lernazhup_take(record, out, room), want);
    check_lent(LENT_OUT, "report", wanted);
    return want;
}

/* ---- The frame check's calls without chips ---- */

static void check_number(uint32_t got, uint32_t want)
{
    char words[100];

    if (got == want)
        return;
    snprintf(words, sizeof words, "the answer is %" PRIu32 " and should be %" PRIu32, got, want);
    mismatch(words);
}

void check_check(const uint8_t *octets, size_t length)
{
    uint32_t want = reference_check(octets, length);
    uint8_t *in;

    count_case(CHECK, 0, want);
    begin_on_octets("lernazhup_check", octets, length);
    in = lend_somewhere(LENT_IN, octets, length);
    check_number(lernazhup_check(in, length), want);
    check_lent(LENT_IN, "report", octets);
}

void check_fcs(const uint8_t *octets, size_t length)
{
    uint32_t want = reference_fcs(octets, length);
    int i;

    for (i = 0; i < FCS_CALLS; i++) {
        uint8_t *in;

        if (i < LIBRARY_FCS) {
            next_case();
            fcs_cases++;
        } else
            baseline_cases++;
        begin_on_octets(fcs_calls[i].name, octets, length);
        in = lend_somewhere(LENT_IN, octets, length);
        check_number(fcs_calls[i].fcs(in, length), want);
        check_lent(LENT_IN, "octet", octets);
    }
}

/* ---- Was each number met? ---- */

/* Document 01's table "Numbers given back" and document 02's refusals, by function. */
static const int8_t columns_of[FUNCTIONS][12] = {
    { 0, 1, 2, 3, -1 },
    { 0, 1, 3, 4, 5, 6, 7, 8, -1 },
    { 0, 1, 5, 6, 11, -1 },
    { 1, 13, -1 },
    { 0, 5, 6, 7, 8, 10, 11, 13, FORGED, -1 },
    { 4, 10, FORGED, -1 },
    { 0, 1, 3, 4, 5, 6, 7, 8, 12, FORGED, -1 },
    { 0, 1, 2, 3, 14, 16, -1 },
    { 0, 1, 3, 4, 5, 6, 7, 8, 14, 15, 16, -1 },
    { 0, 14, 15, 16, -1 }
};

/* The lengths of the reports that are written and read. */
static const struct { enum function function; int least, most; } lengths_of[] = {
    { WRITE, 0, 127 }, { READ, 0, 127 }, { WRITE_CHECKED, 1, 125 }, { READ_CHECKED, 3, 127 }
};

/* Whether a function has to give a number in the modes of a row: 1 is for those that no radio has,
 * the others are for each that one has. */
static int to_be_met(int f, int column, int row)
{
    if (f == CHECK)
        return row == NO_MODE;
    return column == 1 ? row == NO_RADIO : row < MODES;
}

static int numbers_met(void)
{
    int f, i, row, all = 1;

    for (f = 0; f < FUNCTIONS; f++)
        for (i = 0; columns_of[f][i] >= 0; i++)
            for (row = 0; row < ROWS; row++) {
                int column = columns_of[f][i];

                if (to_be_met(f, column, row) && met[f][row][column] == 0) {
                    printf("mode %d: %s never answered %d\n", row, function_names[f],
                        column == FORGED ? 34 : column);
                    all = 0;
                }
            }
    return all;
}

static int lengths_met(void)
{
    size_t i;
    int f, mode, n, all = 1;

    for (i = 0; i < sizeof lengths_of / sizeof lengths_of[0]; i++)
        for (mode = 0; mode < MODES; mode++)
            for (n = lengths_of[i].least; n <= lengths_of[i].most; n++) {
                f = lengths_of[i].function;
                if (done_lengths[f][mode][n] == 0) {
                    printf("mode %d: %s never did %d octets\n", mode, function_names[f], n);
                    all = 0;
                }
            }
    return all;
}

static int polarities_met(void)
{
    static const enum function functions[] = { READ, TAKE, READ_CHECKED };
    int polarity, all = 1;
    size_t i;

    for (i = 0; i < sizeof functions / sizeof functions[0]; i++)
        for (polarity = 0; polarity < 2; polarity++)
            if (done_polarities[functions[i]][polarity] == 0) {
                printf("%s never told polarity %d\n", function_names[functions[i]], polarity);
                all = 0;
            }
    return all;
}

int all_met(void)
{
    int numbers = numbers_met(), lengths = lengths_met(), polarities = polarities_met();

    return numbers && lengths && polarities;
}

/* The cases of a function that were answered with the number of a column. */
static uint64_t answered(int f, int column)
{
    uint64_t sum = 0;
    int row;

    for (row = 0; row < ROWS; row++)
        sum += met[f][row][column];
    return sum;
}

static uint64_t in_row(int row)
{
    uint64_t sum = 0;
    int f, n;

    for (f = 0; f < FUNCTIONS; f++)
        for (n = 0; n < COLUMNS; n++)
            sum += met[f][row][n];
    return sum;
}

void print_counts(void)
{
    int f, n, mode;

    for (f = 0; f < FUNCTIONS; f++) {
        uint64_t all = 0;

        for (n = 0; n < COLUMNS; n++)
            all += answered(f, n);
        printf("%-13s %8" PRIu64 " cases, by number:", function_names[f], all);
        for (n = 0; n < OTHER; n++)
            if (answered(f, n) > 0)
                printf(" %d: %" PRIu64 ",", n == FORGED ? 34 : n, answered(f, n));
        printf(" others: %" PRIu64 "\n", answered(f, OTHER));
    }
    printf("fcs           %8" PRIu64 " cases, half of them by table\n", fcs_cases);
    printf("all           %8" PRIu64 " cases, by mode:", cases);
    for (mode = 0; mode < MODES; mode++)
        printf(" %d: %" PRIu64 ",", mode, in_row(mode));
    printf(" others: %" PRIu64 ", none: %" PRIu64 "\n", in_row(NO_RADIO),
        in_row(NO_MODE) + fcs_cases);
    printf("inverted      %8" PRIu64 " frames read, %" PRIu64 " by take, %" PRIu64 " checked\n",
        done_polarities[READ][1], done_polarities[TAKE][1], done_polarities[READ_CHECKED][1]);
    printf("lent          %8" PRIu64 " buffers that end at an unmapped page, %" PRIu64
        " that begin at one, %" PRIu64 " between guard bytes, %" PRIu64 " null\n",
        lent_at[LENT_AT_END], lent_at[LENT_AT_START], lent_at[LENT_BETWEEN], lent_at[LENT_NULL]);
    printf("%" PRIu64 " cases, no mismatch; %" PRIu64 " more of the baselines\n", cases, baseline_cases);
}

static void catch_signals(void)
{
    static const int numbers[] = { SIGSEGV, SIGBUS, SIGILL, SIGFPE, SIGTRAP, SIGABRT, SIGALRM };
    struct sigaction action;
    size_t i;

    memset(&action, 0, sizeof action);
    action.sa_handler = on_signal;
    sigemptyset(&action.sa_mask);
    for (i = 0; i < sizeof numbers / sizeof numbers[0]; i++)
        sigaction(numbers[i], &action, NULL);
}

void check_open(const char *again)
{
    repeat = again;
    if (!lent_open()) {
        printf("no memory to lend\n");
        exit(1);
    }
    catch_signals();
    pick_bytes(junk, sizeof junk);
}
