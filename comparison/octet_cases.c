/* The makers of octets for the frame check; see cases.h. */
#include <string.h>

#include "cases.h"
#include "reference.h"

size_t make_slice_length(void)
{
    uint32_t kind = pick(100);

    return kind < 50 ? pick(8) : kind < 90 ? pick(140) : kind < 99 ? pick(600) : pick(5000);
}

/* All 0, all 0 but one, all 0xFF, or any. */
static void fill(uint8_t *octets, size_t n)
{
    uint32_t kind = pick(6), k = pick((uint32_t)n);

    if (kind > 2) {
        pick_bytes(octets, n);
        return;
    }
    memset(octets, kind == 2 ? 0xFF : 0, n);
    if (kind == 1 && n > 0)
        octets[k] = (uint8_t)(1 + pick(255));
}

void put_fcs(uint8_t *octets, size_t n)
{
    uint32_t fcs = reference_fcs(octets, n - 2);

    octets[n - 2] = (uint8_t)fcs;
    octets[n - 1] = (uint8_t)(fcs >> 8);
}

/* Inverts bits from one to another in the order of sending, those two for certain. */
static void wrong_burst(uint8_t *octets, uint32_t from, uint32_t to)
{
    uint32_t bit;

    for (bit = from; bit <= to; bit++)
        if (bit == from || bit == to || chance(50))
            octets[bit / 8] ^= (uint8_t)(1 << bit % 8);
    note("wrong from bit %ld", from);
    note("to bit %ld", to);
}

/* Makes the FCS wrong, in itself or by what it stands for. */
static void make_wrong(uint8_t *octets, size_t n)
{
    uint32_t bits = 8 * (uint32_t)n, kind = pick(100), from = pick(bits), to = from;
    uint8_t low = octets[n - 2];

    if (kind < 15) {
        octets[n - 2] = octets[n - 1];
        octets[n - 1] = low;
        note("its octets exchanged", 0);
        return;
    }
    if (kind < 45)
        to += pick(2);
    else if (kind < 75)
        to += pick(16);
    else if (kind < 90)
        to += pick(bits);
    wrong_burst(octets, from, to < bits ? to : bits - 1);
    /* Two bits apart. */
    if (kind >= 90) {
        from = pick(bits);
        wrong_burst(octets, from, from);
    }
}

void make_report(uint8_t *octets, size_t n)
{
    fill(octets, n);
    if (n < 2 || chance(40))
        return;
    /* What ends with its FCS has the FCS 0. */
    if (n >= 4 && chance(20))
        put_fcs(octets, n - 2);
    put_fcs(octets, n);
    note("ended by the FCS %ld", octets[n - 2] + 256L * octets[n - 1]);
    if (chance(35))
        make_wrong(octets, n);
}
