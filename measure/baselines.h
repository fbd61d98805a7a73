/* The C that the library is measured against: two readers, a writer and an FCS that give the
 * documents' answers, and a push that does nothing.
 *
 * Each but the push has the signature and the answers of the library's call of the same work,
 * so that a measurement compares like with like and the differential test can hold them to the same
 * numbers. */
#ifndef BASELINES_H
#define BASELINES_H

#include "lernazhup.h"

/* The reader that most engineers would write: a shift register, XOR with each word, a popcount, the
 * best word and the second best. */
lernazhup_reading usual_read(uint32_t mode, const uint8_t *chips, size_t chips_len, uint8_t *report, size_t report_len);

/* The same with a popcount of its own, by shifts and adds (usual_read.c, built with
 * OWN_POPCOUNT). */
lernazhup_reading usual_own_read(uint32_t mode, const uint8_t *chips, size_t chips_len, uint8_t *report, size_t report_len);

/* The fastest reader that plain x86-64 C allows: SSE2, and nothing that a compiler flag has to ask
 * for. */
lernazhup_reading best_read(uint32_t mode, const uint8_t *chips, size_t chips_len, uint8_t *report, size_t report_len);

/* The writer that copies each symbol's word from a table. */
lernazhup_written copying_write(uint32_t mode, const uint8_t *report, size_t report_len, uint8_t *chips, size_t chips_len);

/* The FCS by a table. */
uint32_t usual_fcs(const uint8_t *octets, size_t octets_len);

/* The receiver's push without its work: the record by value, there and back. */
lernazhup_step handing_push(lernazhup_receiver receiver, const uint8_t *part, size_t part_len);

#endif
