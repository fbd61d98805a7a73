/*
 * The calls of the differential test: each makes one call of the library and of the reference with
 * the same arguments and compares all that comes back, each field of the answer and each byte of
 * each lent buffer, whether it should have changed or not. A mismatch is printed with the case in
 * words, and ends the program with 1.
 */
#ifndef COMPARED_CALLS_H
#define COMPARED_CALLS_H

#include "lent_memory.h"
#include "lernazhup.h"

/* ---- What is compared ---- */

/* Readers and writers: document 01's, and those of document 02 for reports that end with their
 * FCS. */
enum profile { PLAIN, CHECKED, PROFILES };

typedef lernazhup_reading read_function(uint32_t, const uint8_t *, size_t, uint8_t *, size_t);
typedef lernazhup_written write_function(uint32_t, const uint8_t *, size_t, uint8_t *, size_t);

struct calls {
    enum profile profile;
    const char *read_name, *write_name;
    read_function *read;
    write_function *write;
};

extern const struct calls reference[PROFILES];
extern const struct calls compared[];   /* first the library's, by profile */

/* ---- Compared calls; each gives the reference's answer ---- */

/* The baseline readers and the baseline writer go through the same readings and writings of the
 * plain profile, unless built with LIBRARY_ONLY. */
lernazhup_reading check_read(enum profile profile, uint32_t mode, const uint8_t *chips,
    size_t length, size_t room);
lernazhup_written check_write(enum profile profile, uint32_t mode, const uint8_t *report,
    size_t length, size_t room);
lernazhup_matched check_match(uint32_t mode, const uint8_t *part, size_t length);
lernazhup_receiver check_start(uint32_t mode);
lernazhup_step check_push(lernazhup_receiver record, const uint8_t *part, size_t length);
lernazhup_step check_finish(lernazhup_receiver record);
lernazhup_reading check_take(lernazhup_receiver record, size_t room);
void check_check(const uint8_t *octets, size_t length);
void check_fcs(const uint8_t *octets, size_t length);   /* by table and bit by bit */

/* ---- Parts of them, for checks of another shape ---- */

/* Says what is called now, for printing it in words: a name, a mode, the bytes that go in (may be
 * NULL) and the room lent. */
void begin(const char *name, uint32_t mode, const uint8_t *in, size_t in_length, size_t room);
void begin_on_record(const char *name, const lernazhup_receiver *record, const uint8_t *in, size_t in_length, size_t room);

void check_reading(lernazhup_reading got, lernazhup_reading want);
void check_written(lernazhup_written got, lernazhup_written want);
void check_matched(lernazhup_matched got, lernazhup_matched want);
void check_step(lernazhup_step got, lernazhup_step want);
void check_lent(enum lent_slot slot, const char *what, const uint8_t *bytes);
void mismatch(const char *what);

/* Lends at one of the sides of the mapped memory, or between guard bytes; at times the null pointer
 * where the length is 0. */
uint8_t *lend_somewhere(enum lent_slot slot, const uint8_t *bytes, size_t length);

/* Random bytes: at least LENT_MAX of them from there on. */
const uint8_t *pick_junk(void);

/* ---- What was met ---- */

/* All but the FCS, which has no number to give. */
enum function {
    WRITE, READ, MATCH, START, PUSH, FINISH, TAKE, WRITE_CHECKED, READ_CHECKED, CHECK, FUNCTIONS
};

void count_case(enum function function, uint32_t mode, uint32_t number);
uint64_t cases_so_far(void);

/* Makes all ready; to be called first, after the picks got their seed. `again` is what to run for
 * the same cases. */
void check_open(const char *again);

/* Prints how many cases of each function there were, by the number given back, how many of each
 * mode, and how many readings of inverted frames. */
void print_counts(void);

/* Whether in each mode each number was met that a function can give, and each length written and
 * read, and in mode 0 each polarity; prints what wasn't. */
int all_met(void);

#endif
