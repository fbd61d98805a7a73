/* What the command does. Each gives the status that it ends with. */
#ifndef VERBS_H
#define VERBS_H

#include "arguments.h"
#include "standard.h"

/* Tells what is in captures. REFUSED where one gave no report, and USELESS, whatever came of the
 * others, where one can't be read. */
enum status read_captures(const struct arguments *asked);

/* Writes a report's frame as a capture. REFUSED where the library refuses the report. */
enum status write_capture(const struct arguments *asked);

/* Draws a capture. REFUSED where it gave no report: it is drawn all the same. */
enum status look_at_capture(const struct arguments *asked);

/* Writes the reports of captures as packets. REFUSED where one gave none, and USELESS, whatever
 * came of the others, where one can't be read: they are left out. */
enum status write_packets(const struct arguments *asked);

#endif
