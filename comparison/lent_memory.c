/* Memory to lend to a function under test; see lent_memory.h. */
#define _DEFAULT_SOURCE
#include "lent_memory.h"

#include <string.h>
#include <sys/mman.h>
#include <unistd.h>

enum { GUARD = 64 };

static struct {
    uint8_t *first, *end;   /* the mapped bytes, an unmapped page on either side */
    uint8_t *at;            /* the buffer lent, and its length */
    size_t length;
    size_t before, behind;  /* guard bytes on either side of it */
} slots[LENT_SLOTS];

static uint8_t guards[GUARD];

int lent_open(void)
{
    size_t page = (size_t)sysconf(_SC_PAGESIZE), size = (LENT_MAX + 2 * GUARD + page - 1) / page * page;
    int i;

    for (i = 0; i < GUARD; i++)
        guards[i] = (uint8_t)(0xA5 ^ i);
    for (i = 0; i < LENT_SLOTS; i++) {
        uint8_t *all = mmap(NULL, size + 2 * page, PROT_NONE, MAP_PRIVATE | MAP_ANONYMOUS, -1, 0);

        if (all == MAP_FAILED || mprotect(all + page, size, PROT_READ | PROT_WRITE) != 0)
            return 0;
        slots[i].first = all + page;
        slots[i].end = all + page + size;
    }
    return 1;
}

uint8_t *lend(enum lent_slot slot, const uint8_t *bytes, size_t length, enum lent_side side, unsigned shift)
{
    uint8_t *at = slots[slot].first;

    if (side == LENT_AT_END)
        at = slots[slot].end - length;
    if (side == LENT_BETWEEN)
        at += GUARD + shift % 16;
    slots[slot].at = at;
    slots[slot].length = length;
    slots[slot].before = side == LENT_AT_START || side == LENT_NULL ? 0 : GUARD;
    slots[slot].behind = side == LENT_AT_END ? 0 : GUARD;
    memcpy(at - slots[slot].before, guards, slots[slot].before);
    memcpy(at + length, guards, slots[slot].behind);
    if (side == LENT_NULL)
        return NULL;
    memcpy(at, bytes, length);
    return at;
}

const uint8_t *lent_bytes(enum lent_slot slot)
{
    return slots[slot].at;
}

long lent_differs(enum lent_slot slot, const uint8_t *wanted)
{
    size_t i;

    if (memcmp(slots[slot].at, wanted, slots[slot].length) == 0)
        return -1;
    for (i = 0; slots[slot].at[i] == wanted[i]; i++)
        ;
    return (long)i;
}

int lent_guards_kept(enum lent_slot slot)
{
    const uint8_t *at = slots[slot].at;

    return memcmp(at - slots[slot].before, guards, slots[slot].before) == 0
        && memcmp(at + slots[slot].length, guards, slots[slot].behind) == 0;
}

uint8_t *lent_huge(size_t length)
{
    uint8_t *all = mmap(NULL, length, PROT_READ | PROT_WRITE, MAP_PRIVATE | MAP_ANONYMOUS | MAP_NORESERVE, -1, 0);

    return all == MAP_FAILED ? NULL : all;
}
