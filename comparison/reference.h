/*
 * The reference: document 01 in plain C, with the third radio, the frame check, the reserved bit,
 * the gap and the polarity of document 02 and the signatures of the library. The differential test
 * compares the library with it. It was written from the documents and the header, without sight of
 * the library's source but for what docs/FAULTS.md names.
 */
#ifndef REFERENCE_H
#define REFERENCE_H

#include "lernazhup.h"

/* Radios, whose modes are the numbers below this one. */
enum { MODES = 3 };

lernazhup_written reference_write(uint32_t mode, const uint8_t *report, size_t report_len, uint8_t *chips, size_t chips_len);
lernazhup_reading reference_read(uint32_t mode, const uint8_t *chips, size_t chips_len, uint8_t *report, size_t report_len);
lernazhup_matched reference_match(uint32_t mode, const uint8_t *part, size_t part_len);
lernazhup_step reference_start(uint32_t mode);
lernazhup_step reference_push(lernazhup_receiver receiver, const uint8_t *part, size_t part_len);
lernazhup_step reference_finish(lernazhup_receiver receiver);
lernazhup_reading reference_take(lernazhup_receiver receiver, uint8_t *report, size_t report_len);

/* The frame check. The library has the FCS twice, by table and bit by bit; this is held to both. */
uint32_t reference_fcs(const uint8_t *octets, size_t octets_len);
uint32_t reference_check(const uint8_t *octets, size_t octets_len);
lernazhup_written reference_write_checked(uint32_t mode, const uint8_t *report, size_t report_len,
    uint8_t *chips, size_t chips_len);
lernazhup_reading reference_read_checked(uint32_t mode, const uint8_t *chips, size_t chips_len,
    uint8_t *report, size_t report_len);

/*
 * For the makers of cases. The chips of any octets, as the writer spreads them in a mode that a
 * radio has; gives their number. A frame with a wrong start octet is made with it.
 */
size_t reference_spread(uint32_t mode, const uint8_t *octets, size_t octets_len, uint8_t *chips);

/* Of such a mode: chips per symbol, symbols per octet, accepted distance, number of words, and the
 * word for a value. */
uint32_t reference_chips(uint32_t mode);
uint32_t reference_per_octet(uint32_t mode);
uint32_t reference_limit(uint32_t mode);
uint32_t reference_words(uint32_t mode);
const uint8_t *reference_word(uint32_t mode, uint32_t value);

#endif
