/* Lernazhup: IEEE 802.15.4 frames of reports, and reports of frames.
 *
 * A report is the PSDU, 0 to 127 octets. Chips are hard chips, a byte each, 0 or 1.
 *
 *   mode  radio           chips     accepted distance  chips of the frame of  at most
 *                         a symbol  of a symbol        a report of n octets
 *   0     868/915 BPSK    15        6                  720 + 120 n            15,960
 *   1     2450 O-QPSK     32        5                  384 + 64 n              8,512
 *   2     868/915 O-QPSK  16        2                  192 + 32 n              4,256
 *
 * Every call takes every mode number, every buffer and every record, ends, and answers one of the
 * numbers below (take repeats the number that ended a record as it stands; the FCS has two calls
 * that answer it). A refusal leaves every lent byte as it was.
 *
 * Two profiles. In the plain one (lernazhup_write, lernazhup_read and the stepping receiver) a
 * report is any octets. In the checked one (lernazhup_write_checked, lernazhup_read_checked) it
 * ends with two octets of check, the FCS of IEEE 802.15.4: the writer appends them, and the reader
 * refuses a report that has nothing before them, whose FCS is wrong, or whose octets are all 0. A
 * gateway should use the checked one. The stepping receiver is plain: who receives by symbol asks
 * lernazhup_check after take, and throws the report away where that answers anything but
 * LERNAZHUP_DONE.
 *
 * What either profile refuses for certain: a symbol that is farther from every code word than the
 * accepted distance. A flat symbol, all 0 or all 1, is always that far from each, so that no frame
 * holds one.
 * What the plain one can't find: noise that happens to be near a code word is read as that word. Of
 * 100 random symbols 60.7 are near one in mode 0, which accepts six wrong chips of fifteen, 3.3 in
 * mode 2 and 0.09 in mode 1. Where noise takes the place of one symbol of a report, another report
 * is read three times in ten in mode 0, three times in a hundred in mode 2 and less than once in a
 * thousand in mode 1. The count of chips repaired and the gap are no more than hints.
 * What the checked one finds for certain besides: of two different reports of one length that both
 * end in their right FCS, four bits or more differ, an even number of them, and never all within 16
 * in a row (an octet's lowest bit goes first). So up to three wrong bits are always found, and one
 * misread symbol of a report: its bits lie side by side, and in mode 0 it turns its own bit and the
 * next.
 * What the checked one can't find: of other errors in a report, one in 65,536 or fewer ends in a
 * right FCS; in mode 0, where a misread symbol turns two bits, one in 33,000, and of a report of
 * fewer than 13 octets one in 6,300. (Reckoned for two misread symbols or more, each by itself and
 * as likely as the next.) A misread length may be right by chance, too; one that is one too short
 * passes where the FCS's high octet is 0, which is one report in 256, and one that is up to four
 * too long where the next frame comes at once (in mode 0 not always): its preamble is zeros, and
 * zeros behind a right FCS leave it right. A frame of somebody else's making, or an old one
 * sent again, has a right FCS. And octets that are all 0 have the FCS 0, which would pass: hence
 * LERNAZHUP_ALLZERO, since zeros are what an unplugged rope gives. That is for zeros throughout:
 * behind any octet that isn't 0, as behind the header of a MAC frame, zeros pass, and to look at
 * what a report carries is the gateway's part.
 *
 * How close it was: the gap. Of a symbol it is by how many chips the next-nearest code word is
 * farther off than the nearest; of a reading it is the smallest over the symbols of the frame,
 * preamble, start and length octet among them. A frame as written has 15, 12 and 6 in modes 0, 1
 * and 2; one that is read has at least 3, 2 and 2; a refusal has 0. A wrong chip put right never
 * makes it smaller, and what comes behind the frame has no say in it. In mode 0 it is 15 less twice
 * the wrong chips of the worst symbol. In modes 1 and 2 it is even, and some wrong chips leave it
 * as it was: README.md says how many may.
 *
 * Which way round: the polarity. Some front ends lock the wrong way round, and in mode 0 a whole
 * frame then comes with every chip inverted. It is read all the same: symbol 0 settles the
 * polarity, and a reading tells it, 1 where the frame came inverted and 0 where it didn't. A front
 * end that turns over between two symbols of a frame is another matter: from there on every chip is
 * inverted, and that is one raw bit read as the other. In the preamble it is LERNAZHUP_PREAMBLE, at
 * symbol 1 or later; in the start octet LERNAZHUP_BADSTART; at the reserved bit of the length octet
 * it makes no difference; in the report it is another report, which the FCS finds, and elsewhere
 * another length, with what is said of that above. Within a symbol it counts as before it where up
 * to six of its chips are as sent, as behind it where nine or more are, and else the symbol is
 * lost. Modes 1 and 2 have one polarity, and tell 0; so does a refusal.
 *
 * Who finds the frame: the caller. The first chip of a buffer is taken for the first chip of the
 * preamble, and no other beginning is looked for. In a stream, try one chip after the other as the
 * beginning, by the checked reader and with room for any report:
 *   LERNAZHUP_DONE     a frame. Go on behind it, place times LERNAZHUP_SYMBOL_CHIPS(mode) chips
 *                      further on.
 *   LERNAZHUP_RUNOUT   what is there may be a frame's first part. Try here again when more chips
 *                      have come (never the answer with LERNAZHUP_CHIPS_MAX chips from here on);
 *                      when none will come, go on at the next chip.
 *   any other refusal  no frame that can be read begins here, or its report doesn't pass. Go on at
 *                      the next chip, and not where the reading ended: the next frame may begin
 *                      before that, and one that was cut off may have swallowed part of it.
 * So the chips of a frame that is refused are tried, too, and a report whose octets spell a frame,
 * FCS and all, can be taken for one. In the plain profile any octets of a frame's form do, and a
 * frame that swallowed part of the next is LERNAZHUP_DONE like any other. The stepping receiver
 * keeps no chips: whoever searches with it keeps them, to try another beginning.
 *
 * Buffers. A pointer and a length are a buffer: so many bytes, all readable, and writable where the
 * pointer isn't const. A null pointer with length 0 is an empty buffer. No other null pointer may
 * be given, and no two buffers of one call may overlap. A length is at most PTRDIFF_MAX, as of
 * every object in C. Nothing is kept of a buffer after the call, nothing is allocated, and there is
 * no state outside the arguments: calls may run at the same time, each on its own buffers.
 *
 * What stands below at lernazhup_write, _read, _match, _write_checked, _read_checked, _check, _fcs,
 * _fcs_bitwise, _start, _push, _finish and _take about answers, records and lent bytes is proved,
 * and so is what either profile refuses or finds for certain, what the gap is at least and as
 * written, and what the polarity is. What comes of a front end that turns over within a frame, null
 * pointers, the layout of the structs, the stack (under 4 KiB a call), the lack of allocation and
 * what is written in C are tested. How to search a stream is advice: the example gateway runs it,
 * and no theorem is about it. The library is for x86-64-v2, that is x86-64 with SSE4.2. The rules
 * on buffers are checked by nothing: they are yours to keep. */
#ifndef LERNAZHUP_H
#define LERNAZHUP_H

#include <stddef.h>
#include <stdint.h>

#ifdef __cplusplus
extern "C" {
#endif

/* The version of this header. The major number rises where a struct grows or a number, a name or a
 * rule goes or changes its meaning, so that callers have to do something (CHANGELOG.md says what);
 * the minor number where something is added; the last where nothing changes that a caller sees. */
#define LERNAZHUP_VERSION_MAJOR 4
#define LERNAZHUP_VERSION_MINOR 2
#define LERNAZHUP_VERSION_PATCH 0
#define LERNAZHUP_VERSION "4.2.0"

/* The numbers given back. */
#define LERNAZHUP_DONE 0u      /* done                                   write, read, push, take */
#define LERNAZHUP_BADMODE 1u   /* mode above 2                           write, read, start; take */
#define LERNAZHUP_TOOLONG 2u   /* report longer than 127 (checked: 125)  write */
#define LERNAZHUP_NOROOM 3u    /* lent buffer too short                  write, read, take */
#define LERNAZHUP_RUNOUT 4u    /* chips run out                          read, finish; take */
#define LERNAZHUP_NOCHIP 5u    /* byte that isn't a chip                 read, match, push; take */
#define LERNAZHUP_LOST 6u      /* symbol lost                            read, match, push; take */
#define LERNAZHUP_PREAMBLE 7u  /* preamble not zero                      read, push; take */
#define LERNAZHUP_BADSTART 8u  /* wrong start octet                      read, push; take */
#define LERNAZHUP_ENDED 10u    /* receiver already ended                 push, finish */
#define LERNAZHUP_BADPART 11u  /* part isn't exactly one symbol long     match, push */
#define LERNAZHUP_NOTENDED 12u /* receiver not ended yet                 take */
#define LERNAZHUP_MORE 13u     /* more wanted (no refusal)               start, push */
#define LERNAZHUP_TOOFEW 14u   /* too few octets                         write, read, check */
#define LERNAZHUP_BADCHECK 15u /* wrong FCS                              read, check */
#define LERNAZHUP_ALLZERO 16u  /* every octet 0                          write, read, check */
#define LERNAZHUP_FORGED 34u   /* record that these calls don't make     push, finish, take */
/* "write" and "read" stand for write_checked and read_checked as well, and from LERNAZHUP_TOOFEW to
 * LERNAZHUP_ALLZERO for these alone. Check and match give LERNAZHUP_DONE, too, and match
 * LERNAZHUP_BADMODE. "; take": take repeats the number of a record that ended with it. A lost
 * symbol is one that no code word is near enough to. 9 is withdrawn, and not used again: it was a
 * length octet with its reserved bit set. */

/* Sizes: the octets of the longest report, and of the longest that the FCS can be appended to; in
 * each mode the chips of a symbol, how many of them may be wrong, and the chips of the longest
 * frame; the largest of these over all modes. */
#define LERNAZHUP_REPORT_MAX 127
#define LERNAZHUP_CHECKED_MAX 125
#define LERNAZHUP_SYMBOL_MODE0 15
#define LERNAZHUP_SYMBOL_MODE1 32
#define LERNAZHUP_SYMBOL_MODE2 16
#define LERNAZHUP_SYMBOL_MAX LERNAZHUP_SYMBOL_MODE1
#define LERNAZHUP_ACCEPTED_MODE0 6
#define LERNAZHUP_ACCEPTED_MODE1 5
#define LERNAZHUP_ACCEPTED_MODE2 2
#define LERNAZHUP_CHIPS_MAX_MODE0 15960
#define LERNAZHUP_CHIPS_MAX_MODE1 8512
#define LERNAZHUP_CHIPS_MAX_MODE2 4256
#define LERNAZHUP_CHIPS_MAX LERNAZHUP_CHIPS_MAX_MODE0

/* By mode number: the chips of a symbol, how many of them may be wrong, and the chips of the frame
 * of a report of n octets; 0 for a mode that no radio has. Unsigned. Of constants each is a
 * constant, fit for the size of an array. The mode is looked at more than once. */
#define LERNAZHUP_BY_MODE(mode, of0, of1, of2) \
    ((mode) == 0 ? (of0) : (mode) == 1 ? (of1) : (mode) == 2 ? (of2) : 0u)
#define LERNAZHUP_SYMBOL_CHIPS(mode)                                        \
    LERNAZHUP_BY_MODE(mode, LERNAZHUP_SYMBOL_MODE0, LERNAZHUP_SYMBOL_MODE1, \
                      LERNAZHUP_SYMBOL_MODE2)
#define LERNAZHUP_ACCEPTED(mode)                                                \
    LERNAZHUP_BY_MODE(mode, LERNAZHUP_ACCEPTED_MODE0, LERNAZHUP_ACCEPTED_MODE1, \
                      LERNAZHUP_ACCEPTED_MODE2)
#define LERNAZHUP_FRAME_CHIPS(mode, n) (LERNAZHUP_BY_MODE(mode, 120, 64, 32) * (6u + (n)))

/* What the writers give back. */
typedef struct {
    uint32_t number; /* LERNAZHUP_DONE or the refusal */
    uint32_t chips;  /* chips written; 0 on a refusal */
} lernazhup_written;

/* What matching one symbol gives back. The symbol's gap is next less nearest. With a refusal other
 * than LERNAZHUP_LOST all three are 0. */
typedef struct {
    uint32_t number;  /* LERNAZHUP_DONE or the refusal */
    uint32_t word;    /* the nearest code word's number, the lowest where several are as near; in
                         mode 0 the encoded bit */
    uint32_t nearest; /* chips in which the symbol differs from that word */
    uint32_t next;    /* chips in which it differs from the nearest of the other words: as many as
                         nearest where several are as near */
} lernazhup_matched;

/* What the readers and take give back. */
typedef struct {
    uint32_t number;   /* LERNAZHUP_DONE or the refusal */
    uint32_t place;    /* done: symbols in the frame; refused: the number of the symbol where the
                          first thing was found wrong, or as the function says */
    uint32_t n;        /* octets of the report; 0 on a refusal */
    uint32_t count;    /* chips repaired, over the whole frame; 0 on a refusal */
    uint32_t gap;      /* the smallest gap of a symbol of the frame; 0 on a refusal */
    uint32_t polarity; /* 1 where a mode 0 frame came inverted, else 0; 0 on a refusal */
} lernazhup_reading;

/* The stepping receiver's record. It goes into each call and comes back from it; nothing else is
 * kept. Its fields may be looked at.
 * LERNAZHUP_FORGED is for a record that these calls don't make. Only a record that is open or has
 * ended well is tested; it is forged where one of these holds:
 *   - no radio has its mode;
 *   - its length is above 127;
 *   - its count is above the accepted distance times the symbols taken;
 *   - it is open, and no fewer symbols are taken than its frame has;
 *   - it has ended well, and not just as many symbols are taken as its frame has.
 * Its frame is that of a report of the length held. Gap and polarity are in no test: of a record
 * that has ended well take gives the gap as it is held, and the polarity modulo 2 in mode 0, else
 * 0. */
typedef struct {
    uint32_t mode;     /* as given to start */
    uint32_t ended;    /* LERNAZHUP_MORE while open, LERNAZHUP_DONE ended well, else the refusal */
    uint32_t taken;    /* symbols taken: the number of the next symbol; where it ended, the place */
    uint32_t length;   /* n once the length octet is read, 0 before */
    uint32_t count;    /* chips repaired so far */
    uint32_t last;     /* the last symbol's value: in mode 0 the encoded bit before the next one */
    uint32_t octet;    /* the octet in hand */
    uint32_t gap;      /* the smallest gap of a symbol so far; UINT32_MAX before the first */
    uint32_t polarity; /* in mode 0 the encoded bit that symbol 0 read as; 0 before it, and in the
                          other modes */
    uint8_t octets[LERNAZHUP_REPORT_MAX]; /* the report's octets so far */
} lernazhup_receiver;

/* What start, push and finish give back. */
typedef struct {
    uint32_t number;
    lernazhup_receiver receiver; /* the record for the next call */
} lernazhup_step;

/* Writes the frame of a report over the first chips of a buffer.
 * Done: the chip count; later bytes keep their values.
 * Refused: LERNAZHUP_BADMODE, LERNAZHUP_TOOLONG and LERNAZHUP_NOROOM, tested in that order; the
 * buffer stays as it was. */
lernazhup_written lernazhup_write(uint32_t mode, const uint8_t *report, size_t report_len,
                                  uint8_t *chips, size_t chips_len);

/* Reads the frame that the chips begin with and stores its report.
 * Done: the first n bytes of the report buffer are the report; later ones keep their values. Chips
 * after the frame are not looked at, and neither is the length octet's top bit, which is reserved:
 * the writer writes it as 0, others may not. In mode 0 the frame may be inverted in every chip: the
 * encoded bit that symbol 0 reads as is the polarity, and the chain starts from it, so that
 * LERNAZHUP_PREAMBLE never comes at symbol 0. With a buffer of LERNAZHUP_REPORT_MAX bytes there is
 * room for every report.
 * Refused: LERNAZHUP_BADMODE with place 0; then at each symbol in turn LERNAZHUP_RUNOUT,
 * LERNAZHUP_NOCHIP, LERNAZHUP_LOST, LERNAZHUP_PREAMBLE, LERNAZHUP_BADSTART and LERNAZHUP_NOROOM, in
 * that order; the first thing found wrong ends the reading, and the report buffer stays as it
 * was. */
lernazhup_reading lernazhup_read(uint32_t mode, const uint8_t *chips, size_t chips_len,
                                 uint8_t *report, size_t report_len);

/* Matches one symbol's chips, LERNAZHUP_SYMBOL_CHIPS(mode) bytes, with the mode's code words.
 * Done: the nearest word is within the accepted distance, and is what readers and receiver take.
 * Refused: LERNAZHUP_BADMODE, LERNAZHUP_BADPART and LERNAZHUP_NOCHIP, tested in that order, with
 * zeros; then LERNAZHUP_LOST where no word is within the accepted distance, with the nearest word
 * and both distances all the same. */
lernazhup_matched lernazhup_match(uint32_t mode, const uint8_t *part, size_t part_len);

/* Writes the frame of a report with its FCS appended, which is that of report_len + 2 octets.
 * Done: as lernazhup_write.
 * Refused: LERNAZHUP_BADMODE, LERNAZHUP_TOOFEW for an empty report, LERNAZHUP_TOOLONG for one above
 * LERNAZHUP_CHECKED_MAX octets, LERNAZHUP_ALLZERO and LERNAZHUP_NOROOM, tested in that order; the
 * buffer stays as it was. */
lernazhup_written lernazhup_write_checked(uint32_t mode, const uint8_t *report, size_t report_len,
                                          uint8_t *chips, size_t chips_len);

/* Reads as lernazhup_read does, and stores the report where it passes lernazhup_check.
 * Done: as lernazhup_read. The two octets of the FCS are the report's last, counted in n and
 * stored: what was given to the writer is the first n - 2.
 * Refused: as lernazhup_read, LERNAZHUP_NOROOM at its place there; only when that has read the
 * frame, what lernazhup_check answers, with the frame's number of symbols as place. The report
 * buffer stays as it was. */
lernazhup_reading lernazhup_read_checked(uint32_t mode, const uint8_t *chips, size_t chips_len,
                                         uint8_t *report, size_t report_len);

/* Whether a report that was read passes: LERNAZHUP_TOOFEW where it has fewer than 3 octets,
 * LERNAZHUP_BADCHECK where the last two aren't the FCS of those before them, LERNAZHUP_ALLZERO
 * where they are and every octet is 0, tested in that order; else LERNAZHUP_DONE. One that doesn't
 * pass is to be thrown away, whatever it says. */
uint32_t lernazhup_check(const uint8_t *octets, size_t octets_len);

/* The FCS of octets, however many: a number below 65,536, and 0 for none. The polynomial is the
 * ITU-T's, x^16 + x^12 + x^5 + 1, the start value 0, and each octet's lowest bit goes first; in a
 * report the FCS's low octet goes first. Two ways to one number: by a table of 256 entries, and bit
 * by bit as the standard has it, which is slower. */
uint32_t lernazhup_fcs(const uint8_t *octets, size_t octets_len);
uint32_t lernazhup_fcs_bitwise(const uint8_t *octets, size_t octets_len);

/* A record for a mode, and LERNAZHUP_MORE. A mode that no radio has: a record that has ended with
 * LERNAZHUP_BADMODE, and that number. In either the gap is UINT32_MAX; what isn't named is 0. */
lernazhup_step lernazhup_start(uint32_t mode);

/* Takes one symbol's chips, LERNAZHUP_SYMBOL_CHIPS(mode) bytes.
 * LERNAZHUP_MORE: go on. LERNAZHUP_DONE: the frame is complete, and the record has ended well.
 * LERNAZHUP_NOCHIP to LERNAZHUP_BADSTART: the symbol is refused as the reader refuses it, the
 * record has ended with that number, and its other fields are as they were before the symbol.
 * LERNAZHUP_FORGED, LERNAZHUP_ENDED and LERNAZHUP_BADPART, tested first and in that order, give the
 * record back as it was. */
lernazhup_step lernazhup_push(lernazhup_receiver receiver, const uint8_t *part, size_t part_len);

/* No more symbols: an open record ends with LERNAZHUP_RUNOUT, which is also the answer.
 * LERNAZHUP_FORGED and LERNAZHUP_ENDED give the record back as it was. */
lernazhup_step lernazhup_finish(lernazhup_receiver receiver);

/* What a record has come to. It can be asked again.
 * Done: what lernazhup_read gives back, with the report at the front of the buffer; later bytes
 * keep their values. Whether the report passes is for lernazhup_check to say.
 * LERNAZHUP_FORGED and LERNAZHUP_NOTENDED come with place 0; the number of the refusal that ended
 * the record comes with its place; LERNAZHUP_NOROOM comes with the frame's number of symbols as
 * place. The buffer then stays as it was. */
lernazhup_reading lernazhup_take(lernazhup_receiver receiver, uint8_t *report, size_t report_len);

/* Start, push and finish for a record that stays where it is: each puts the new record in the old
 * one's place and gives the number back. (`number = lernazhup_push(record, ..).number` in a loop
 * compiles, and forgets the record that came back: every symbol is then pushed as the first.) C89
 * has no inline functions, and so not these. */
#if defined(__cplusplus) || (defined(__STDC_VERSION__) && __STDC_VERSION__ >= 199901L)
static inline uint32_t lernazhup_kept(lernazhup_receiver *receiver, lernazhup_step step)
{
    *receiver = step.receiver;
    return step.number;
}

static inline uint32_t lernazhup_start_into(lernazhup_receiver *receiver, uint32_t mode)
{
    return lernazhup_kept(receiver, lernazhup_start(mode));
}

static inline uint32_t lernazhup_push_into(lernazhup_receiver *receiver, const uint8_t *part,
                                           size_t part_len)
{
    return lernazhup_kept(receiver, lernazhup_push(*receiver, part, part_len));
}

static inline uint32_t lernazhup_finish_into(lernazhup_receiver *receiver)
{
    return lernazhup_kept(receiver, lernazhup_finish(*receiver));
}
#endif

/* What a number given back means, in the words of the list above; of 9, that it is withdrawn; of
 * any other number, that it is none of them. Never a null pointer. */
const char *lernazhup_meaning(uint32_t number);

/* The version of the library itself, as LERNAZHUP_VERSION is that of the header: whoever links the
 * shared library may meet another one at run time. */
const char *lernazhup_version(void);

/* The layout that the library was built with: a compiler that lays the structs out otherwise stops
 * here. */
#define LERNAZHUP_FIXED(name, fact) typedef char lernazhup_fixed_##name[(fact) ? 1 : -1]
#define LERNAZHUP_AT(type, field, place) \
    LERNAZHUP_FIXED(type##_##field, offsetof(lernazhup_##type, field) == (place))
LERNAZHUP_FIXED(written, sizeof(lernazhup_written) == 8);
LERNAZHUP_AT(written, number, 0);
LERNAZHUP_AT(written, chips, 4);
LERNAZHUP_FIXED(matched, sizeof(lernazhup_matched) == 16);
LERNAZHUP_AT(matched, number, 0);
LERNAZHUP_AT(matched, word, 4);
LERNAZHUP_AT(matched, nearest, 8);
LERNAZHUP_AT(matched, next, 12);
LERNAZHUP_FIXED(reading, sizeof(lernazhup_reading) == 24);
LERNAZHUP_AT(reading, number, 0);
LERNAZHUP_AT(reading, place, 4);
LERNAZHUP_AT(reading, n, 8);
LERNAZHUP_AT(reading, count, 12);
LERNAZHUP_AT(reading, gap, 16);
LERNAZHUP_AT(reading, polarity, 20);
LERNAZHUP_FIXED(receiver, sizeof(lernazhup_receiver) == 164);
LERNAZHUP_AT(receiver, mode, 0);
LERNAZHUP_AT(receiver, ended, 4);
LERNAZHUP_AT(receiver, taken, 8);
LERNAZHUP_AT(receiver, length, 12);
LERNAZHUP_AT(receiver, count, 16);
LERNAZHUP_AT(receiver, last, 20);
LERNAZHUP_AT(receiver, octet, 24);
LERNAZHUP_AT(receiver, gap, 28);
LERNAZHUP_AT(receiver, polarity, 32);
LERNAZHUP_AT(receiver, octets, 36);
LERNAZHUP_FIXED(step, sizeof(lernazhup_step) == 168);
LERNAZHUP_AT(step, number, 0);
LERNAZHUP_AT(step, receiver, 4);
#undef LERNAZHUP_AT
#undef LERNAZHUP_FIXED

#ifdef __cplusplus
}
#endif

#endif
