/* What came of a capture in one mode, in words, none with a line end. */
#ifndef OUTCOME_WORDS_H
#define OUTCOME_WORDS_H

#include <stdio.h>

#include "input.h"
#include "outcomes.h"

/* Of a report: how long, and in which mode; its gap; which way round; its FCS. */
void put_report(FILE *out, const struct outcome *done);
void put_gap(FILE *out, const struct outcome *done);
void put_polarity(FILE *out, const struct outcome *done);
void put_fcs(FILE *out, const struct outcome *done);

/* Of a refusal: the mode, the number and what it means, and where that stands. */
void put_refusal(FILE *out, const struct outcome *refused, const struct input *capture);

/* Of either: a report, and whether it is zeros throughout, or that there is none, and why. */
void put_outcome(FILE *out, const struct outcome *outcome, const struct input *capture);

/* What a part of a frame is called. */
const char *part_name(enum part part);

#endif
