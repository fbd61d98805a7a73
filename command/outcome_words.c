/* Each says nothing but what the library answered, and where in the frame that stands. */
#include "outcome_words.h"

#include "lernazhup.h"
#include "modes.h"

void put_report(FILE *out, const struct outcome *done)
{
    fprintf(out, "a report of %u octet%s in mode %u, %s", (unsigned)done->reading.n, done->reading.n == 1 ? "" : "s", (unsigned)done->mode,
            radio_of(done->mode));
}

void put_gap(FILE *out, const struct outcome *done)
{
    static const char *const words[] = {"the best there is", "in between",
                                        "at the edge: one more wrong chip in the worst symbol loses the frame"};
    fprintf(out, "%u of %u, %s", (unsigned)done->reading.gap, (unsigned)best_gap(done->mode), words[closeness_of(done)]);
}

void put_polarity(FILE *out, const struct outcome *done)
{
    fprintf(out, "%u, %s", (unsigned)done->reading.polarity, done->reading.polarity == 0 ? "as sent" : "inverted");
}

void put_fcs(FILE *out, const struct outcome *done)
{
    uint32_t n = done->reading.n;
    if (done->check == LERNAZHUP_TOOFEW) {
        fputs("too short to have one", out);
    } else if (done->check == LERNAZHUP_BADCHECK) {
        uint32_t right = lernazhup_fcs(done->report, n - 2);
        fprintf(out, "wrong, or none was sent: it ends in %02x %02x, and an FCS would be %02x %02x", done->report[n - 2],
                done->report[n - 1], (unsigned)(right & 0xff), (unsigned)(right >> 8));
    } else {
        fputs("right, the last two octets", out);
    }
}

/* Which octet of the frame, and what that is there. */
static void put_place(FILE *out, struct place place)
{
    switch (place.part) {
    case PREAMBLE: fprintf(out, "octet %zu (of the preamble)", place.octet); break;
    case START: fprintf(out, "octet %zu (the start octet)", place.octet); break;
    case LENGTH: fprintf(out, "octet %zu (the length octet)", place.octet); break;
    case REPORT: fprintf(out, "octet %zu (octet %zu of the report)", place.octet, place.octet_of_part); break;
    case END: fprintf(out, "behind the frame's %zu octets", place.octet); break;
    }
}

void put_refusal(FILE *out, const struct outcome *refused, const struct input *capture)
{
    struct place place = place_of(refused, capture);
    fprintf(out, "mode %u, %s: %u, %s, at symbol %u, byte %zu, ", (unsigned)refused->mode, radio_of(refused->mode),
            (unsigned)refused->reading.number, lernazhup_meaning(refused->reading.number), (unsigned)refused->reading.place, place.byte);
    put_place(out, place);
}

void put_outcome(FILE *out, const struct outcome *outcome, const struct input *capture)
{
    if (outcome->reading.number == LERNAZHUP_DONE) {
        put_report(out, outcome);
        fputs(outcome->zeros ? ", every octet of it 0: is the rope plugged in?" : "", out);
    } else {
        fputs("no report in ", out);
        put_refusal(out, outcome, capture);
    }
}

const char *part_name(enum part part)
{
    static const char *const names[] = {"preamble", "start", "length", "report", "end"};
    return names[part];
}
