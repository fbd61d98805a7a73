/* What is seen of a capture in one mode: its symbols, each as the library matches it, as far as a
 * frame goes, or what is left of one that was refused. */
#ifndef VIEW_H
#define VIEW_H

#include <stddef.h>
#include <stdint.h>

#include "input.h"
#include "lernazhup.h"
#include "outcomes.h"

/* The most that a frame has, which is one of mode 0. */
#define SYMBOLS_MAX (LERNAZHUP_CHIPS_MAX_MODE0 / LERNAZHUP_SYMBOL_MODE0)

struct symbols {
    size_t read;   /* how many the reading took: all of a frame, or those before the refused one */
    size_t count;  /* how many there are, the refused one and those behind it among them */
    size_t frame;  /* how many the frame has; 0 where its length was not read */
    size_t worst;  /* of those read, the first with the smallest gap; 0 where none was read */
    size_t as_bad; /* how many of those read have that gap */
    lernazhup_matched of[SYMBOLS_MAX];
};

struct view {
    const char *name; /* of the capture, as told */
    const struct input *capture;
    struct outcomes outcomes;      /* in the plain profile */
    const struct outcome *outcome; /* the one that is seen */
    lernazhup_receiver receiver;   /* that mode's: length and octets as far as they were read */
    struct symbols symbols;
};

/* Whether it gave no report. */
int refused(const struct view *view);

/* By how many chips the next-nearest word is farther off than the nearest. */
uint32_t gap_of(const lernazhup_matched *symbol);

/* How many symbols stand in a row: four octets of mode 0, eight of the others. */
size_t row_of(uint32_t mode);

/* A capture in a mode; for NO_MODE in the one that reads, else in the one that got farthest. Of a
 * report's frame every symbol is seen. Of a refused one, as far as the frame goes where its length
 * was read, else as many as a row has, from the refused one on; only those that are there, and
 * whole ones. Reads on as far as these go. */
void see(struct view *view, struct input *capture, const char *name, uint32_t mode);

#endif
