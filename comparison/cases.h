/*
 * The makers of cases for the differential test: reports, chip buffers, lengths, mode numbers,
 * parts and records, drawn at random but with a leaning towards the edges that document 01 draws.
 * Each maker notes in words what it did.
 */
#ifndef CASES_H
#define CASES_H

#include <stdio.h>

#include "lernazhup.h"

/* ---- Picks, all from one seed ---- */

void pick_seed(uint64_t seed);
uint32_t pick_any(void);              /* any 32 bits */
uint32_t pick(uint32_t below);        /* 0 to below - 1 */
int chance(uint32_t percent);
void pick_bytes(uint8_t *bytes, size_t length);

/* ---- Words on how the case in hand was made ---- */

void notes_clear(void);
void note(const char *words, long number);   /* words with one %ld at most */
void notes_print(FILE *out);

/* ---- Octets ---- */

/* A report of n octets, often ended by its FCS or by a wrong one. */
void make_report(uint8_t *octets, size_t n);

/* Makes the last two of n octets the FCS of those before. */
void put_fcs(uint8_t *octets, size_t n);

/* How many octets to take the FCS of: now and then more than a report has. */
size_t make_slice_length(void);

/* ---- Chips ---- */

enum { MADE_MAX = 68000 };

struct made {
    uint32_t mode;      /* of the radio that the chips were made for */
    uint32_t n;         /* octets of the frame's report */
    uint32_t marked;    /* the symbol disturbed last */
    size_t frame;       /* chips of the whole frame */
    size_t length;      /* chips in the buffer */
    uint8_t chips[MADE_MAX];
};

/* A buffer that begins like a frame, or not at all like one. `longest` bounds the report. */
void make_chips(struct made *made, uint32_t longest);

/* The four forms of a report's frame: as written or with the reserved bit of the length octet set,
 * and each of the two as it is or inverted in every chip. */
enum { RESERVED = 1, INVERTED = 2, FORMS = 4 };

/* A form of the frame of a report, each symbol as far from its word as is accepted, the last one
 * `more` chips farther. */
void make_edge_frame(struct made *made, uint32_t mode, uint32_t form, const uint8_t *report,
    uint32_t n, uint32_t more);

/* The frame of a report with just so many wrong chips in each symbol from one to before another. */
void make_noisy_frame(struct made *made, uint32_t mode, const uint8_t *report, uint32_t n,
    uint32_t from, uint32_t to, uint32_t wrong);

/* Inverts every chip from one to before another: the front end turns over at the one, and again at
 * the other. */
void turn_over(struct made *made, size_t from, size_t to);

/* Inverts that many different chips of a symbol. */
void invert_some(uint32_t mode, uint8_t *symbol, uint32_t wrong);

/* One symbol's chips somewhere on the way from one word to another: between the two, or just within
 * reach of one. */
void make_between(uint32_t mode, uint8_t *symbol);

/* A mode number, mostly the one given. */
uint32_t make_mode(uint32_t mode);

/* A mode number that no radio has. */
uint32_t make_bad_mode(void);

/* The length of a buffer in which `needed` bytes are to go, and which may be too short or too long
 * for them. */
size_t make_room(size_t needed);

/* ---- Parts and records ---- */

enum { PART_MAX = 600 };

/* A part for push or match: mostly one symbol of that mode. Gives its length. */
size_t make_part(uint32_t mode, uint8_t *part);

/* A length that a symbol of that mode does not have. */
size_t make_part_length(uint32_t mode);

/* Keeps a record that the calls made, for make_record to start from. */
void keep_record(const lernazhup_receiver *record);

/* A record that may be one that the calls don't make. */
lernazhup_receiver make_record(void);

#endif
