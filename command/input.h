/* What is read, a capture or a report: a file or a stream, of which no more is read than can
 * matter. */
#ifndef INPUT_H
#define INPUT_H

#include <stddef.h>
#include <stdint.h>

#include "lernazhup.h"

/* A frame is looked for that begins with one of the first LERNAZHUP_CHIPS_MAX chips, and from the
 * last of these on it may have as many: what comes later is never looked at. */
#define LOOKED_AT_MAX (2 * LERNAZHUP_CHIPS_MAX - 1)

struct input {
    int descriptor;  /* where more comes from, until it has ended */
    int own;         /* whether it was opened here, and is to be closed */
    int ahead;       /* whether more may be read than is asked for: of a file that nobody shares */
    int ended;       /* whether nothing comes behind the bytes that it has */
    int failed;      /* what errno said of a read, or 0 */
    long long began; /* where in its file a regular one began, and -1 for all else */
    size_t came;     /* how many bytes were read */
    size_t have;     /* how many of them were asked for: no others are looked at, so that a file
                        that is read ahead is told of as a stream is */
    uint8_t bytes[LOOKED_AT_MAX];
};

/* Opens a file by its name, - for standard input. 0, or what errno said. */
int open_input(struct input *input, const char *name);
void close_input(struct input *input);

/* An input without a byte, to which nothing comes, and a byte put behind the others of such a one:
 * for what is made here. */
void made_input(struct input *input);
void put_byte(struct input *input, uint8_t byte);

/* Whether it has so many bytes, at most LOOKED_AT_MAX: reads on until these are there or no more
 * come. */
int input_has(struct input *input, size_t count);

/* How many bytes stand behind the first `used`, which came; -1 where only reading on would tell. */
long long left_over(const struct input *input, size_t used);

#endif
