/*
 * Memory to lend to a function under test: each buffer lies between two unmapped pages, and can be
 * put so that it ends at the one or begins at the other. What is left on the other sides of it are
 * guard bytes, which must stay as they were. A function that touches a byte that it wasn't lent
 * then either faults or leaves a trace, with no help from a sanitizer.
 */
#ifndef LENT_MEMORY_H
#define LENT_MEMORY_H

#include <stddef.h>
#include <stdint.h>

enum { LENT_MAX = 70000 };
enum lent_slot { LENT_IN, LENT_OUT, LENT_SLOTS };
enum lent_side { LENT_AT_END, LENT_AT_START, LENT_BETWEEN, LENT_NULL, LENT_SIDES };

/* Maps the memory; to be called once, before the others. Gives 0 where the system has none. */
int lent_open(void);

/*
 * Lends a copy of the bytes. `shift` (0 to 15) moves a buffer that lies between guard bytes, for
 * its alignment. LENT_NULL is for a length of 0: the null pointer. What was lent in the same slot
 * before is gone.
 */
uint8_t *lend(enum lent_slot slot, const uint8_t *bytes, size_t length, enum lent_side side, unsigned shift);

/* What the slot's buffer holds now. */
const uint8_t *lent_bytes(enum lent_slot slot);

/* The first place of the slot's buffer that doesn't hold what is wanted there; -1 where all do. */
long lent_differs(enum lent_slot slot, const uint8_t *wanted);

/* Whether all guard bytes around the slot's buffer are as they were. */
int lent_guards_kept(enum lent_slot slot);

/*
 * A buffer of zeros of 4 GiB and more, for lengths that don't fit in 32 bits: no memory is used but
 * for the pages touched. Gives NULL where there is no room for it in the address space.
 */
uint8_t *lent_huge(size_t length);

#endif
