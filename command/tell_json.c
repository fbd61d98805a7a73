/* What came of a capture, for programs: one object on one line, whatever its name has in it. */
#include "lernazhup.h"
#include "modes.h"
#include "outcome_words.h"
#include "shown.h"
#include "tell.h"

static void tell_mode(FILE *out, const struct outcome *outcome)
{
    fprintf(out, "{\"mode\":%u,\"radio\":\"%s\",\"number\":%u,\"meaning\":\"%s\",", (unsigned)outcome->mode, radio_of(outcome->mode),
            (unsigned)outcome->reading.number, lernazhup_meaning(outcome->reading.number));
}

/* The octets in hex, and as the text beside a dump has them. */
static void tell_octets(FILE *out, const uint8_t *octets, size_t count)
{
    size_t k;
    fputs("\"octets\":\"", out);
    for (k = 0; k < count; k++)
        fprintf(out, "%02x", octets[k]);
    fputs("\",\"text\":\"", out);
    for (k = 0; k < count; k++) {
        int shown = shown_octet(octets[k]);
        if (shown == '"' || shown == '\\')
            putc('\\', out);
        putc(shown, out);
    }
    fputs("\",", out);
}

/* Zeros throughout have the FCS 0, which is right, although the checked profile refuses them. */
static const char *fcs_of(const struct outcome *done)
{
    if (done->check == LERNAZHUP_TOOFEW)
        return "too short";
    return done->check == LERNAZHUP_BADCHECK ? "wrong" : "right";
}

static void tell_report(FILE *out, const struct outcome *done)
{
    static const char *const closeness[] = {"best", "between", "edge"};
    tell_mode(out, done);
    fprintf(out, "\"n\":%u,", (unsigned)done->reading.n);
    tell_octets(out, done->report, done->reading.n);
    fprintf(out, "\"repaired\":%u,\"chips\":%zu,\"gap\":%u,\"best_gap\":%u,\"closeness\":\"%s\",\"polarity\":%u,",
            (unsigned)done->reading.count, done->chips, (unsigned)done->reading.gap, (unsigned)best_gap(done->mode),
            closeness[closeness_of(done)], (unsigned)done->reading.polarity);
    fprintf(out, "\"fcs\":\"%s\",", fcs_of(done));
    if (done->check != LERNAZHUP_TOOFEW) {
        uint32_t right = lernazhup_fcs(done->report, done->reading.n - 2);
        fprintf(out, "\"right_fcs\":\"%02x%02x\",", (unsigned)(right & 0xff), (unsigned)(right >> 8));
    }
    fprintf(out, "\"all_zero\":%s,\"left_over\":", done->zeros ? "true" : "false");
    if (done->left < 0)
        fputs("null}", out);
    else
        fprintf(out, "%lld}", done->left);
}

static void tell_refusal(FILE *out, const struct account *account, const struct outcome *refused)
{
    struct place place = place_of(refused, account->capture);
    tell_mode(out, refused);
    fprintf(out, "\"symbol\":%u,\"part\":\"%s\",\"octet\":%zu,\"octet_of_part\":%zu,\"byte\":%zu}", (unsigned)refused->reading.place,
            part_name(place.part), place.octet, place.octet_of_part, place.byte);
}

/* The numbers of a hint, which its words have, too. */
static void tell_numbers(FILE *out, const struct hint *hint)
{
    switch (hint->kind) {
    case EMPTY: break;
    case SHORT:
        fprintf(out, "\"mode\":%u,\"wanted\":%zu,\"length_read\":%s,\"came\":%zu,", (unsigned)hint->mode, hint->wanted,
                hint->sized ? "true" : "false", hint->looked);
        break;
    case BYTES: fprintf(out, "\"from\":%zu,\"count\":%zu,\"looked_at\":%zu,", hint->from, hint->count, hint->looked); break;
    case FLAT:
    case FLAT_FROM: fprintf(out, "\"from\":%zu,\"count\":%zu,\"chip\":%u,", hint->from, hint->count, hint->chip); break;
    default:
        if (hint_reads(hint))
            fprintf(out, "\"mode\":%u,\"later\":%zu,", (unsigned)hint->mode, hint->later);
    }
}

static void tell_hint(FILE *out, const struct hint *hint)
{
    fprintf(out, "{\"hint\":\"%s\",", hint_name(hint));
    tell_numbers(out, hint);
    fputs("\"words\":\"", out);
    put_hint(out, hint);
    fputs("\"}", out);
}

/* The outcomes of one kind: reports, or refusals where there is no report. */
static void tell_list(FILE *out, const struct account *account, int reports)
{
    const struct outcomes *outcomes = &account->outcomes;
    const char *between = "";
    size_t k;
    if (!reports && outcomes->read > 0)
        return;
    for (k = 0; k < outcomes->tried; k++) {
        const struct outcome *outcome = &outcomes->of[k];
        if ((outcome->reading.number == LERNAZHUP_DONE) != reports)
            continue;
        fputs(between, out);
        between = ",";
        if (reports)
            tell_report(out, outcome);
        else
            tell_refusal(out, account, outcome);
    }
}

void tell_in_json(FILE *out, const struct account *account)
{
    size_t k;
    fputs("{\"file\":", out);
    show_json(out, account->name);
    fprintf(out, ",\"profile\":\"%s\",\"reports\":[", account->outcomes.checked ? "checked" : "plain");
    tell_list(out, account, 1);
    fputs("],\"refusals\":[", out);
    tell_list(out, account, 0);
    fputs("],\"hints\":[", out);
    for (k = 0; k < account->hints.count; k++) {
        fputs(k > 0 ? "," : "", out);
        tell_hint(out, &account->hints.list[k]);
    }
    fputs("]}\n", out);
}

void tell_failure_in_json(FILE *out, const char *name, const char *why)
{
    fputs("{\"file\":", out);
    show_json(out, name);
    fputs(",\"error\":", out);
    show_json(out, why);
    fputs("}\n", out);
}
