/* Why a capture may not have been read, where that can be told honestly: each hint is a fact about
 * the bytes, or a reading of the library's that is not the one asked for. */
#ifndef HINTS_H
#define HINTS_H

#include <stddef.h>
#include <stdint.h>
#include <stdio.h>

#include "input.h"
#include "outcomes.h"

enum hint_kind {
    CHECK,       /* a frame reads, and the check refuses its report */
    LATER,       /* a frame reads when started some chips later */
    OTHER_MODE,  /* a frame reads in a mode that was not asked for */
    EMPTY,       /* nothing came */
    DIGITS,      /* the digits 0 and 1 as text, which may read as chips */
    PACKED_LOW,  /* reads with each byte as eight chips, the lowest bit first */
    PACKED_HIGH, /* the same with the highest first */
    BYTES,       /* bytes that are no chips */
    FLAT,        /* every chip has the one value */
    FLAT_FROM,   /* the same from a byte on, in or before the symbol that was refused */
    SHORT        /* fewer chips than the frame has */
};

struct hint {
    enum hint_kind kind;
    uint32_t mode; /* in which a frame reads, or is too long; NO_MODE where there is none */
    size_t later;  /* how many chips later that frame begins */
    size_t looked; /* how many bytes were looked at */
    size_t from;   /* the first of the bytes that the hint is about */
    size_t count;  /* how many these are */
    unsigned chip; /* the value of flat ones */
    size_t wanted; /* of a frame that is too long, its chips */
    int sized;     /* of such a frame, whether its length octet was read */
};

#define HINTS_MAX 4

struct hints {
    size_t count;
    struct hint list[HINTS_MAX];
};

/* Of a capture that gave no report. Reads on as far as a hint may look. */
void find_hints(struct hints *hints, struct input *capture, const struct outcomes *refused);

/* A hint's name, and the hint in words. */
const char *hint_name(const struct hint *hint);
void put_hint(FILE *out, const struct hint *hint);

/* Whether a hint is that a frame reads, in its mode and so many chips later as it says. */
int hint_reads(const struct hint *hint);

#endif
