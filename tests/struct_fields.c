/* Carries distinct values through every field of every struct, into the library and back: where a
 * field stood at another place on either side, some value would come back in another field. The
 * layout itself is fixed in the header.
 *
 * A record that ended with a refusal may hold anything: finish and push give it back as it was,
 * take repeats its number and place. The written, read, matched and stepped numbers are worked out
 * by hand from the frame. */
#include <stdio.h>
#include <string.h>

#include "lernazhup.h"

static int passed, failed;
static const char *call = "";

static void check(const char *what, unsigned long got, unsigned long want)
{
    if (got == want) {
        passed++;
    } else {
        failed++;
        printf("fields, %s, %s: %lu and not %lu\n", call, what, got, want);
    }
}

/* A record ended by a made-up refusal: every field and octet another value, each byte of a number
 * too. */
static lernazhup_receiver filled(void)
{
    lernazhup_receiver r;
    unsigned k;
    memset(&r, 0, sizeof r);
    r.mode = 0x11121314;
    r.ended = 0x21222324;
    r.taken = 0x31323334;
    r.length = 0x41424344;
    r.count = 0x51525354;
    r.last = 0x61626364;
    r.octet = 0x71727374;
    r.gap = 0x01020304;
    r.polarity = 0x05060708;
    for (k = 0; k < sizeof r.octets; k++)
        r.octets[k] = (uint8_t)(0x80 + k);
    return r;
}

static void same_record(lernazhup_receiver got, lernazhup_receiver want)
{
    check("mode", got.mode, want.mode);
    check("ended", got.ended, want.ended);
    check("taken", got.taken, want.taken);
    check("length", got.length, want.length);
    check("count", got.count, want.count);
    check("last", got.last, want.last);
    check("octet", got.octet, want.octet);
    check("gap", got.gap, want.gap);
    check("polarity", got.polarity, want.polarity);
    check("octets", (unsigned long)memcmp(got.octets, want.octets, sizeof got.octets), 0);
}

static void check_reading(lernazhup_reading got, lernazhup_reading want)
{
    check("number", got.number, want.number);
    check("place", got.place, want.place);
    check("n", got.n, want.n);
    check("count", got.count, want.count);
    check("gap", got.gap, want.gap);
    check("polarity", got.polarity, want.polarity);
}

/* Every field of a record that the library itself made: a mode with two symbols an octet, five
 * octets, three chips wrong. */
static lernazhup_receiver stepped(uint32_t mode, const uint8_t *chips, size_t symbols)
{
    lernazhup_step step = lernazhup_start(mode);
    size_t size = LERNAZHUP_SYMBOL_CHIPS(mode), k;
    for (k = 0; k < symbols; k++)
        step = lernazhup_push(step.receiver, chips + k * size, size);
    return step.receiver;
}

static void made_by_the_library(uint32_t mode, size_t length, uint32_t gap)
{
    static const uint8_t report[5] = {0x12, 0x34, 0x56, 0x78, 0x9A};
    const lernazhup_reading read = {LERNAZHUP_DONE, 22, 5, 3, gap, 0};
    uint8_t chips[704], back[LERNAZHUP_REPORT_MAX];
    size_t second = LERNAZHUP_SYMBOL_CHIPS(mode);
    lernazhup_receiver want;
    lernazhup_written written = lernazhup_write(mode, report, sizeof report, chips, length);
    call = "write";
    check("number", written.number, LERNAZHUP_DONE);
    check("chips", written.chips, length);
    written = lernazhup_write(mode, report, sizeof report, chips, length - 1);
    check("number of a refusal", written.number, LERNAZHUP_NOROOM);
    check("chips of a refusal", written.chips, 0);
    chips[0] ^= 1;
    chips[second + 1] ^= 1;
    chips[second + 2] ^= 1;
    call = "read";
    check_reading(lernazhup_read(mode, chips, length, back, sizeof back), read);
    memset(&want, 0, sizeof want);
    want.mode = mode;
    want.ended = LERNAZHUP_MORE;
    want.taken = 15;
    want.length = 5;
    want.count = 3;
    /* the low half of 0x34, which has entered the octet in hand above the high half of 0x12 */
    want.last = 4;
    want.octet = 0x41;
    want.gap = gap;
    want.octets[0] = 0x12;
    call = "push";
    same_record(stepped(mode, chips, 15), want);
    call = "take";
    check_reading(lernazhup_take(stepped(mode, chips, 22), back, sizeof back), read);
    check("report", (unsigned long)memcmp(back, report, sizeof report), 0);
}

/* The structs of the checked calls: the same, with the FCS of five octets behind them. */
static void checked_by_the_library(uint32_t mode, size_t length, uint32_t gap)
{
    static const uint8_t report[7] = {0x12, 0x34, 0x56, 0x78, 0x9A, 0x3B, 0xCC};
    const lernazhup_reading read = {LERNAZHUP_DONE, 26, 7, 1, gap, 0};
    uint8_t chips[832], back[LERNAZHUP_REPORT_MAX];
    lernazhup_written written = lernazhup_write_checked(mode, report, 5, chips, length);
    call = "write_checked";
    check("number", written.number, LERNAZHUP_DONE);
    check("chips", written.chips, length);
    written = lernazhup_write_checked(mode, report, 5, chips, length - 1);
    check("number of a refusal", written.number, LERNAZHUP_NOROOM);
    check("chips of a refusal", written.chips, 0);
    chips[0] ^= 1;
    call = "read_checked";
    check_reading(lernazhup_read_checked(mode, chips, length, back, sizeof back), read);
    check("report", (unsigned long)memcmp(back, report, sizeof report), 0);
}

/* The polarity, which only mode 0 tells: a frame inverted but for three chips, which are wrong. */
static void inverted_by_the_library(void)
{
    static const uint8_t report[5] = {0x12, 0x34, 0x56, 0x78, 0x9A};
    const lernazhup_reading read = {LERNAZHUP_DONE, 88, 5, 3, 11, 1};
    uint8_t chips[LERNAZHUP_FRAME_CHIPS(0, 5)], back[LERNAZHUP_REPORT_MAX];
    lernazhup_receiver want;
    size_t k;
    lernazhup_write(0, report, sizeof report, chips, sizeof chips);
    for (k = 0; k < sizeof chips; k++)
        chips[k] ^= k != 0 && k != LERNAZHUP_SYMBOL_MODE0 && k != LERNAZHUP_SYMBOL_MODE0 + 1;
    call = "read, inverted";
    check_reading(lernazhup_read(0, chips, sizeof chips, back, sizeof back), read);
    memset(&want, 0, sizeof want);
    want.ended = LERNAZHUP_MORE;
    want.taken = 59;
    want.length = 5;
    want.count = 3;
    /* of the bits sent so far ten are 1, so that the chain is where it began */
    want.last = 1;
    /* the low three bits of 0x34 above the high five of 0x12 */
    want.octet = 0x82;
    want.gap = 11;
    want.polarity = 1;
    want.octets[0] = 0x12;
    call = "push, inverted";
    same_record(stepped(0, chips, 59), want);
    call = "take, inverted";
    check_reading(lernazhup_take(stepped(0, chips, 88), back, sizeof back), read);
}

/* The symbol of 13 with its first chips wrong, more than are accepted: it is lost, and the nearest
 * other word is two chips farther off. */
static void matched_by_the_library(uint32_t mode, uint32_t wrong)
{
    static const uint8_t report[1] = {13};
    uint8_t chips[LERNAZHUP_FRAME_CHIPS(1, 1)], *part = chips + LERNAZHUP_FRAME_CHIPS(mode, 0);
    lernazhup_matched got;
    uint32_t k;
    lernazhup_write(mode, report, sizeof report, chips, sizeof chips);
    for (k = 0; k < wrong; k++)
        part[k] ^= 1;
    got = lernazhup_match(mode, part, LERNAZHUP_SYMBOL_CHIPS(mode));
    call = "match";
    check("number", got.number, LERNAZHUP_LOST);
    check("word", got.word, 13);
    check("nearest", got.nearest, wrong);
    check("next", got.next, wrong + 2);
}

static void given_back(void)
{
    uint8_t part[LERNAZHUP_SYMBOL_MAX] = {0};
    lernazhup_receiver record = filled();
    lernazhup_reading refused = {record.ended, record.taken, 0, 0, 0, 0};
    lernazhup_step step = lernazhup_finish(record);
    call = "finish on an ended record";
    check("number", step.number, LERNAZHUP_ENDED);
    same_record(step.receiver, record);
    step = lernazhup_push(record, part, sizeof part);
    call = "push on an ended record";
    check("number", step.number, LERNAZHUP_ENDED);
    same_record(step.receiver, record);
    call = "take of a refusal";
    check_reading(lernazhup_take(record, part, sizeof part), refused);
    step = lernazhup_start(0x0A0B0C0D);
    call = "start";
    check("number", step.number, LERNAZHUP_BADMODE);
    check("mode", step.receiver.mode, 0x0A0B0C0D);
    check("ended", step.receiver.ended, LERNAZHUP_BADMODE);
    check("gap", step.receiver.gap, UINT32_MAX);
    check("polarity", step.receiver.polarity, 0);
}

int main(void)
{
    given_back();
    made_by_the_library(1, 704, 8);
    made_by_the_library(2, 352, 4);
    checked_by_the_library(1, 832, 12);
    checked_by_the_library(2, 416, 4);
    inverted_by_the_library();
    matched_by_the_library(1, 7);
    matched_by_the_library(2, 3);
    printf("fields: %d values carried, %d wrong\n", passed + failed, failed);
    return failed != 0;
}
