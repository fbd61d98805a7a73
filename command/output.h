/* Where something that was made is put: a file, or standard output. It is named as by -o: a null
 * pointer or - is standard output. */
#ifndef OUTPUT_H
#define OUTPUT_H

#include <stddef.h>
#include <stdio.h>

#include "standard.h"

int is_a_file(const char *output);

/* Whether it is a file that is there and is read, too, by that name or another; - is standard
 * input. */
int is_the_input(const char *output, const char *input);

/* Puts bytes there. A file that is there is replaced, whole or not at all. */
enum status put_output(const char *output, const void *bytes, size_t length);

/* The same for what is first written to a stream, in memory that is there from the beginning: so
 * many bytes at most. */
struct draft {
    FILE *out;
    char *bytes;
};

enum status begin_draft(struct draft *draft, size_t most);
enum status put_draft(const char *output, struct draft *draft);
void drop_draft(struct draft *draft);

#endif
