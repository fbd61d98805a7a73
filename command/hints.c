/* First the frames that read, though not as was asked, each found by reading there; then what the
 * bytes are. */
#include "hints.h"

#include <string.h>

#include "lernazhup.h"

static struct hint *add(struct hints *hints, enum hint_kind kind, const struct input *capture)
{
    struct hint *hint = &hints->list[hints->count++];
    memset(hint, 0, sizeof *hint);
    hint->kind = kind;
    hint->mode = NO_MODE;
    hint->looked = capture->have;
    return hint;
}

/* Adds a hint that a frame reads, if one does: the first that begins at a chip from `from` on, and
 * below LERNAZHUP_CHIPS_MAX, in the mode or, for NO_MODE, in any. CHECK is of the plain profile: a
 * frame whose report the check doesn't refuse is none for it. */
static int find_frame(struct hints *hints, enum hint_kind kind, struct input *chips, size_t from, uint32_t mode, int checked)
{
    uint32_t first = mode == NO_MODE ? 0 : mode, last = mode == NO_MODE ? MODES - 1 : mode;
    uint8_t report[LERNAZHUP_REPORT_MAX];
    struct hint *hint;
    size_t at;
    for (at = from; at < LERNAZHUP_CHIPS_MAX && input_has(chips, at + 1); at++)
        for (mode = first; mode <= last; mode++) {
            lernazhup_reading reading;
            if (chips->ended && chips->have - at < LERNAZHUP_FRAME_CHIPS(mode, 0))
                continue; /* too few for any frame */
            reading = read_frame(checked, mode, chips, at, report);
            if (reading.number != LERNAZHUP_DONE)
                continue;
            if (kind == CHECK && lernazhup_check(report, reading.n) == LERNAZHUP_DONE)
                return 0;
            hint = add(hints, kind, chips);
            hint->mode = mode;
            hint->later = at;
            return 1;
        }
    return 0;
}

/* From the first chip on, in a mode that was not tried. */
static int other_mode(struct hints *hints, struct input *capture, const struct outcomes *tried)
{
    uint8_t report[LERNAZHUP_REPORT_MAX];
    uint32_t mode;
    for (mode = 0; mode < MODES; mode++)
        if (mode != tried->mode && read_frame(tried->checked, mode, capture, 0, report).number == LERNAZHUP_DONE) {
            add(hints, OTHER_MODE, capture)->mode = mode;
            return 1;
        }
    return 0;
}

/* The first byte that is no chip; as many as there are where all are. */
static size_t first_above_one(const struct input *capture)
{
    size_t at = 0;
    while (at < capture->have && capture->bytes[at] <= 1)
        at++;
    return at;
}

/* The digits among the bytes as chips; none where there is anything but digits, blanks, commas and
 * line ends. */
static void digits_to_chips(const struct input *capture, struct input *chips)
{
    size_t at;
    made_input(chips);
    for (at = 0; at < capture->have; at++)
        switch (capture->bytes[at]) {
        case '0':
        case '1': put_byte(chips, (uint8_t)(capture->bytes[at] - '0')); break;
        case ' ':
        case ',':
        case '\t':
        case '\r':
        case '\n': break;
        default: made_input(chips); return;
        }
}

/* More of the bytes are looked at than of chips, since not each of them is a digit. */
static int digits(struct hints *hints, struct input *capture)
{
    struct input chips;
    digits_to_chips(capture, &chips);
    if (chips.have == 0)
        return 0;
    input_has(capture, LOOKED_AT_MAX);
    digits_to_chips(capture, &chips);
    if (chips.have > 0 && !find_frame(hints, DIGITS, &chips, 0, NO_MODE, 0))
        add(hints, DIGITS, capture);
    return chips.have > 0;
}

/* Each byte as eight chips, as far as a frame is looked for. */
static void unpack(const struct input *capture, int lowest_first, struct input *chips)
{
    size_t at;
    made_input(chips);
    for (at = 0; at < LOOKED_AT_MAX && at / 8 < capture->have; at++) {
        unsigned bit = (unsigned)(at % 8);
        put_byte(chips, capture->bytes[at / 8] >> (lowest_first ? bit : 7 - bit) & 1);
    }
}

/* Bytes that are all chips are not looked at as eight of them each. */
static int packed(struct hints *hints, const struct input *capture)
{
    struct input chips;
    if (first_above_one(capture) == capture->have)
        return 0;
    unpack(capture, 1, &chips);
    if (find_frame(hints, PACKED_LOW, &chips, 0, NO_MODE, 0))
        return 1;
    unpack(capture, 0, &chips);
    return find_frame(hints, PACKED_HIGH, &chips, 0, NO_MODE, 0);
}

/* The first of the modes that ended with a number, at a symbol from `least` on; a null pointer
 * where none did. */
static const struct outcome *ended_with(const struct outcomes *refused, uint32_t number, uint32_t least)
{
    size_t k;
    for (k = 0; k < refused->tried; k++)
        if (refused->of[k].reading.number == number && refused->of[k].reading.place >= least)
            return &refused->of[k];
    return NULL;
}

/* How many bytes are no chips; where a frame reads, only if another reading ended at one of them or
 * among the last bytes. */
static void no_chips(struct hints *hints, const struct input *capture, const struct outcomes *refused)
{
    int ended = ended_with(refused, LERNAZHUP_NOCHIP, 0) != NULL || ended_with(refused, LERNAZHUP_RUNOUT, 0) != NULL;
    size_t at = first_above_one(capture);
    struct hint *hint;
    if (at == capture->have || (hints->count > 0 && !ended))
        return;
    hint = add(hints, BYTES, capture);
    hint->from = at;
    for (; at < capture->have; at++)
        hint->count += capture->bytes[at] > 1;
}

/* Whether chips that are flat from one on may be why a mode was refused: they begin in the symbol
 * that it was refused at or before it, and are at least as many as a symbol has, which no frame as
 * sent has in a row. In mode 0 half of a symbol may read as another bit. */
static int flat_there(const struct outcome *refused, const struct input *capture, size_t from)
{
    size_t size = LERNAZHUP_SYMBOL_CHIPS(refused->mode);
    uint32_t number = refused->reading.number;
    return (number == LERNAZHUP_LOST || number == LERNAZHUP_PREAMBLE || number == LERNAZHUP_BADSTART) &&
           from < refused_at(refused) + size && capture->have - from >= size;
}

/* Chips that are flat to the end. */
static void flat(struct hints *hints, const struct input *capture, const struct outcomes *refused)
{
    size_t from = capture->have - 1, k = 0;
    struct hint *hint;
    while (from > 0 && capture->bytes[from - 1] == capture->bytes[from])
        from--;
    while (k < refused->tried && !flat_there(&refused->of[k], capture, from))
        k++;
    if (k == refused->tried || capture->bytes[from] > 1)
        return;
    hint = add(hints, from == 0 ? FLAT : FLAT_FROM, capture);
    hint->from = from;
    hint->count = capture->have - from;
    hint->chip = capture->bytes[from];
}

/* The frame that a capture may be too short for: one of which a symbol was read before chips ran
 * out, or one whose length was read; else the shortest of the modes tried. */
static const struct outcome *wanted(const struct outcomes *refused)
{
    const struct outcome *cut = ended_with(refused, LERNAZHUP_RUNOUT, 1), *shortest = &refused->of[0];
    size_t k;
    if (cut != NULL)
        return cut;
    for (k = 0; k < refused->tried; k++) {
        if (refused->of[k].sized)
            return &refused->of[k];
        if (refused->of[k].chips < shortest->chips)
            shortest = &refused->of[k];
    }
    return shortest;
}

static void too_short(struct hints *hints, const struct input *capture, const struct outcomes *refused)
{
    const struct outcome *frame = wanted(refused);
    if (capture->have < frame->chips) {
        struct hint *hint = add(hints, SHORT, capture);
        hint->mode = frame->mode;
        hint->wanted = frame->chips;
        hint->sized = frame->sized;
    }
}

/* What the bytes are. Where a frame reads they are chips, and enough of them; but one that is none
 * may have ended the reading before it. */
static void find_facts(struct hints *hints, struct input *capture, const struct outcomes *refused)
{
    int reads = hints->count > 0;
    if (capture->have == 0)
        add(hints, EMPTY, capture);
    if (capture->have == 0 || digits(hints, capture) || packed(hints, capture))
        return;
    no_chips(hints, capture, refused);
    flat(hints, capture, refused);
    if (!reads)
        too_short(hints, capture, refused);
}

void find_hints(struct hints *hints, struct input *capture, const struct outcomes *refused)
{
    hints->count = 0;
    if (refused->mode != NO_MODE && other_mode(hints, capture, refused))
        return; /* on a stream another frame may be long in coming */
    if (refused->checked)
        find_frame(hints, CHECK, capture, 0, NO_MODE, 0);
    if (!find_frame(hints, LATER, capture, 1, refused->mode, refused->checked) && refused->mode != NO_MODE)
        find_frame(hints, OTHER_MODE, capture, 1, NO_MODE, refused->checked);
    find_facts(hints, capture, refused);
}
