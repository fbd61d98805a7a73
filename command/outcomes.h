/* What each mode makes of a capture. Every reading is one of the library's. */
#ifndef OUTCOMES_H
#define OUTCOMES_H

#include <stddef.h>
#include <stdint.h>

#include "input.h"
#include "lernazhup.h"
#include "modes.h"

struct outcome {
    uint32_t mode;
    lernazhup_reading reading;
    int sized;      /* whether the frame's length octet was read */
    size_t chips;   /* of the frame; where that was not read, of the shortest in this mode */
    uint32_t check; /* of a report, what lernazhup_check says of it */
    int zeros;      /* of a report, whether it has octets, and all are 0 */
    long long left; /* of a report, bytes behind the frame; -1 where that can't be told */
    uint8_t report[LERNAZHUP_REPORT_MAX];
};

struct outcomes {
    uint32_t mode; /* the one that was asked for; NO_MODE where every one is tried */
    int checked;   /* whether in the checked profile */
    size_t tried;  /* how many modes */
    size_t read;   /* how many of them gave a report */
    struct outcome of[MODES];
};

/* The capture in one mode, or in each where it is NO_MODE. Reads on as far as a mode wants more
 * chips. */
void try_modes(struct outcomes *outcomes, struct input *capture, uint32_t mode, int checked);

/* The one that gave a report, the first where several did; else the one that got farthest, in
 * chips, the first where several got as far. */
const struct outcome *foremost(const struct outcomes *outcomes);

/* Has the capture read as far as the mode wants it for a frame that begins at a chip, and gives
 * what the mode's receiver then is. */
lernazhup_receiver receive(struct input *capture, size_t at, uint32_t mode);

/* The frame that begins at a chip, in the profile. Reads on as far as the mode wants more chips.
 * The report has room for LERNAZHUP_REPORT_MAX octets. */
lernazhup_reading read_frame(int checked, uint32_t mode, struct input *capture, size_t at, uint8_t *report);

/* The parts of a frame, and what is behind it. */
enum part { PREAMBLE, START, LENGTH, REPORT, END };

/* Which part of a frame an octet of it is in, and which octet of that part it is. */
enum part part_of(size_t octet, size_t *octet_of_part);

/* Where a refusal stands. */
struct place {
    enum part part;
    size_t octet;         /* of the frame */
    size_t octet_of_part; /* of that part */
    size_t byte;          /* of the capture: the symbol's first, or the one that is no chip */
};

struct place place_of(const struct outcome *refused, const struct input *capture);

/* The first byte that is no chip, of those from one on, among which there is such a one. */
size_t no_chip(const struct input *capture, size_t from);

/* The first chip of the symbol that a refusal stands at. */
size_t refused_at(const struct outcome *refused);

/* How a gap is to be taken. */
enum closeness { BEST, BETWEEN, EDGE };

enum closeness closeness_of(const struct outcome *done);

#endif
