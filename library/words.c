/* The two functions of the library that are no part of the radio and give back text, which Rattle
 * has none of: what a number given back means, and the version that the library was built as. */
#include "lernazhup.h"

const char *lernazhup_meaning(uint32_t number)
{
    switch (number) {
    case LERNAZHUP_DONE: return "done";
    case LERNAZHUP_BADMODE: return "mode above 2";
    case LERNAZHUP_TOOLONG: return "report longer than 127 (checked: 125)";
    case LERNAZHUP_NOROOM: return "lent buffer too short";
    case LERNAZHUP_RUNOUT: return "chips run out";
    case LERNAZHUP_NOCHIP: return "byte that isn't a chip";
    case LERNAZHUP_LOST: return "symbol lost";
    case LERNAZHUP_PREAMBLE: return "preamble not zero";
    case LERNAZHUP_BADSTART: return "wrong start octet";
    case 9: return "withdrawn"; /* it was the reserved bit's, and is not used again */
    case LERNAZHUP_ENDED: return "receiver already ended";
    case LERNAZHUP_BADPART: return "part isn't exactly one symbol long";
    case LERNAZHUP_NOTENDED: return "receiver not ended yet";
    case LERNAZHUP_MORE: return "more wanted (no refusal)";
    case LERNAZHUP_TOOFEW: return "too few octets";
    case LERNAZHUP_BADCHECK: return "wrong FCS";
    case LERNAZHUP_ALLZERO: return "every octet 0";
    case LERNAZHUP_FORGED: return "record that these calls don't make";
    default: return "not a number that these calls give";
    }
}

const char *lernazhup_version(void)
{
    return LERNAZHUP_VERSION;
}
