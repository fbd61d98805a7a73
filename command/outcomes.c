/* The stepping receiver says how many chips a mode wants, one symbol after the other, and the
 * reader what is in them: it is proved that the two read alike. */
#include "outcomes.h"

/* Octets of a frame before its report: the preamble's, the start octet and the length octet. */
enum { START_AT = 4, LENGTH_AT = 5, REPORT_AT = 6 };

lernazhup_receiver receive(struct input *capture, size_t at, uint32_t mode)
{
    size_t size = LERNAZHUP_SYMBOL_CHIPS(mode);
    lernazhup_receiver receiver;
    uint32_t number = lernazhup_start_into(&receiver, mode);
    for (; number == LERNAZHUP_MORE && input_has(capture, at + size); at += size)
        number = lernazhup_push_into(&receiver, capture->bytes + at, size);
    return receiver;
}

static lernazhup_reading read_what_came(int checked, uint32_t mode, const struct input *capture, size_t at, uint8_t *report)
{
    const uint8_t *chips = capture->bytes + at;
    size_t length = capture->have - at;
    return checked ? lernazhup_read_checked(mode, chips, length, report, LERNAZHUP_REPORT_MAX)
                   : lernazhup_read(mode, chips, length, report, LERNAZHUP_REPORT_MAX);
}

lernazhup_reading read_frame(int checked, uint32_t mode, struct input *capture, size_t at, uint8_t *report)
{
    lernazhup_reading reading = read_what_came(checked, mode, capture, at, report);
    if (reading.number != LERNAZHUP_RUNOUT || capture->ended)
        return reading;
    receive(capture, at, mode);
    return read_what_came(checked, mode, capture, at, report);
}

static int all_zero(const uint8_t *octets, size_t count)
{
    size_t k = 0;
    while (k < count && octets[k] == 0)
        k++;
    return count > 0 && k == count;
}

static void try_mode(struct outcome *outcome, struct input *capture, uint32_t mode, int checked)
{
    lernazhup_receiver receiver = receive(capture, 0, mode);
    outcome->mode = mode;
    outcome->sized = receiver.taken >= REPORT_AT * symbols_of_an_octet(mode);
    outcome->chips = LERNAZHUP_FRAME_CHIPS(mode, receiver.length); /* 0 before it is read */
    outcome->reading = read_what_came(checked, mode, capture, 0, outcome->report);
    outcome->check = outcome->zeros = 0;
    outcome->left = -1;
    if (outcome->reading.number == LERNAZHUP_DONE) {
        outcome->check = lernazhup_check(outcome->report, outcome->reading.n);
        outcome->zeros = all_zero(outcome->report, outcome->reading.n);
        outcome->left = left_over(capture, outcome->chips);
    }
}

void try_modes(struct outcomes *outcomes, struct input *capture, uint32_t mode, int checked)
{
    uint32_t first = mode == NO_MODE ? 0 : mode, last = mode == NO_MODE ? MODES - 1 : mode;
    outcomes->mode = mode;
    outcomes->checked = checked;
    outcomes->tried = outcomes->read = 0;
    for (mode = first; mode <= last; mode++) {
        struct outcome *outcome = &outcomes->of[outcomes->tried++];
        try_mode(outcome, capture, mode, checked);
        outcomes->read += outcome->reading.number == LERNAZHUP_DONE;
    }
}

const struct outcome *foremost(const struct outcomes *outcomes)
{
    const struct outcome *first = &outcomes->of[0];
    size_t k;
    for (k = 0; k < outcomes->tried; k++)
        if (outcomes->of[k].reading.number == LERNAZHUP_DONE)
            return &outcomes->of[k];
    for (k = 1; k < outcomes->tried; k++)
        if (refused_at(&outcomes->of[k]) > refused_at(first))
            first = &outcomes->of[k];
    return first;
}

/* What the check refuses stands behind the frame's last symbol, in none of its parts. */
static int behind_the_frame(uint32_t number)
{
    return number == LERNAZHUP_TOOFEW || number == LERNAZHUP_BADCHECK || number == LERNAZHUP_ALLZERO;
}

size_t refused_at(const struct outcome *refused)
{
    return (size_t)refused->reading.place * LERNAZHUP_SYMBOL_CHIPS(refused->mode);
}

enum part part_of(size_t octet, size_t *octet_of_part)
{
    static const size_t first[] = {0, START_AT, LENGTH_AT, REPORT_AT};
    enum part part = REPORT;
    while (octet < first[part])
        part--;
    *octet_of_part = octet - first[part];
    return part;
}

size_t no_chip(const struct input *capture, size_t from)
{
    while (capture->bytes[from] <= 1)
        from++;
    return from;
}

struct place place_of(const struct outcome *refused, const struct input *capture)
{
    struct place place = {END, refused->reading.place / symbols_of_an_octet(refused->mode), 0, refused_at(refused)};
    if (behind_the_frame(refused->reading.number))
        return place;
    place.part = part_of(place.octet, &place.octet_of_part);
    if (refused->reading.number == LERNAZHUP_NOCHIP)
        place.byte = no_chip(capture, place.byte);
    return place;
}

/* A wrong chip may take two off the best gap; where as many as are accepted all did, it is the
 * edge. */
enum closeness closeness_of(const struct outcome *done)
{
    uint32_t best = best_gap(done->mode);
    if (done->reading.gap == best)
        return BEST;
    return done->reading.gap == best - 2 * LERNAZHUP_ACCEPTED(done->mode) ? EDGE : BETWEEN;
}
