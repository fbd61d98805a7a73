/* What came of a capture, told. */
#ifndef TELL_H
#define TELL_H

#include <stdio.h>

#include "input.h"
#include "hints.h"
#include "outcomes.h"

struct account {
    const char *name; /* of the capture, as given */
    const struct input *capture;
    struct outcomes outcomes;
    struct hints hints; /* none where a mode gave a report */
};

/* In words: each report, or where there is none each mode's refusal; then the hints, which may have
 * to wait for more chips. */
void tell_outcomes(FILE *out, const struct account *account);
void tell_hints(FILE *out, const struct account *account);

/* The same fields as one object of JSON on one line; and that of a file which can't be read. */
void tell_in_json(FILE *out, const struct account *account);
void tell_failure_in_json(FILE *out, const char *name, const char *why);

#endif
