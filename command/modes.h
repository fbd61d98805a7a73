/* The modes, which are 0 to MODES - 1, and what is known of each. */
#ifndef MODES_H
#define MODES_H

#include <stdint.h>

#define MODES 3

/* In place of a mode where there is none. */
#define NO_MODE UINT32_MAX

/* The name of a mode's radio. */
const char *radio_of(uint32_t mode);

/* How many symbols an octet of a frame has. */
uint32_t symbols_of_an_octet(uint32_t mode);

/* The gap of a frame as sent, which is the largest of its mode. */
uint32_t best_gap(uint32_t mode);

#endif
