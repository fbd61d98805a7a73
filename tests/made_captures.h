/* Captures and words drawn at random, for the tests that know how each was made. */
#ifndef MADE_CAPTURES_H
#define MADE_CAPTURES_H

#include <stddef.h>
#include <stdint.h>

#include "input.h"
#include "lernazhup.h"

/* The same seed draws the same. */
void draw_from(uint64_t seed);
uint32_t draw(uint32_t below);

/* A word of a command line, one that is known there or any bytes, in a room of WORD_MAX + 1. */
enum { WORD_MAX = 12 };

char *draw_word(char *room);

/* How a capture was made. */
enum making { RANDOM, CHIPS, FRAME, CUT, LATE, AS_DIGITS, AS_BITS, FLAT_ALL, FLAT_END, BAD_BYTE, MAKINGS };

struct made {
    enum making how;
    int checked;
    uint32_t mode;
    size_t before; /* chips before the frame */
    size_t chips;  /* of the frame */
    uint8_t report[LERNAZHUP_REPORT_MAX];
    size_t octets; /* of the report */
};

/* In a mode, or in any for NO_MODE, and in the profile. */
void make_capture(struct input *capture, struct made *made, enum making how, uint32_t mode, int checked);

#endif
