/* A mode more in the library is one more here: what has another number of them doesn't compile. */
#include "modes.h"

#include "lernazhup.h"

static const char *const radios[] = {"868/915 BPSK", "2450 O-QPSK", "868/915 O-QPSK"};

typedef char as_many_modes[LERNAZHUP_SYMBOL_CHIPS(MODES) == 0 && LERNAZHUP_SYMBOL_CHIPS(MODES - 1) > 0 ? 1 : -1];
typedef char as_many_radios[sizeof radios / sizeof *radios == MODES ? 1 : -1];

const char *radio_of(uint32_t mode)
{
    return radios[mode];
}

uint32_t symbols_of_an_octet(uint32_t mode)
{
    return (LERNAZHUP_FRAME_CHIPS(mode, 1) - LERNAZHUP_FRAME_CHIPS(mode, 0)) / LERNAZHUP_SYMBOL_CHIPS(mode);
}

uint32_t best_gap(uint32_t mode)
{
    return LERNAZHUP_BY_MODE(mode, 15u, 12u, 6u);
}
