/* What came of a capture, in words for those who stand at the bench. */
#include "lernazhup.h"
#include "outcome_words.h"
#include "shown.h"
#include "tell.h"

/* Sixteen octets a line, in hex and as text, as `hexdump -Cv` shows them. */
static void dump(FILE *out, const uint8_t *octets, size_t count)
{
    size_t line, k;
    for (line = 0; line < count; line += 16) {
        fprintf(out, "  %08zx ", line);
        for (k = line; k < line + 16; k++) {
            fputs(k % 16 == 8 ? "  " : " ", out);
            if (k < count)
                fprintf(out, "%02x", octets[k]);
            else
                fputs("  ", out);
        }
        fputs("  |", out);
        for (k = line; k < count && k < line + 16; k++)
            putc(shown_octet(octets[k]), out);
        fputs("|\n", out);
    }
    if (count > 0)
        fprintf(out, "  %08zx\n", count);
}

static void tell_report(FILE *out, const struct account *account, const struct outcome *done)
{
    show_name(out, account->name);
    fputs(": ", out);
    put_report(out, done);
    putc('\n', out);
    dump(out, done->report, done->reading.n);
    fprintf(out, "  repaired   %u of %zu chips\n  gap        ", (unsigned)done->reading.count, done->chips);
    put_gap(out, done);
    fputs("\n  polarity   ", out);
    put_polarity(out, done);
    fputs("\n  FCS        ", out);
    put_fcs(out, done);
    putc('\n', out);
    if (done->zeros)
        fputs("  zeros      every octet is 0: is the rope plugged in?\n", out);
    if (done->left >= 0)
        fprintf(out, "  left over  %lld byte%s\n", done->left, done->left == 1 ? "" : "s");
}

void tell_outcomes(FILE *out, const struct account *account)
{
    const struct outcomes *outcomes = &account->outcomes;
    size_t k;
    if (outcomes->read == 0) {
        show_name(out, account->name);
        fputs(": no report\n", out);
    }
    for (k = 0; k < outcomes->tried; k++)
        if (outcomes->of[k].reading.number == LERNAZHUP_DONE) {
            tell_report(out, account, &outcomes->of[k]);
        } else if (outcomes->read == 0) {
            fputs("  ", out);
            put_refusal(out, &outcomes->of[k], account->capture);
            putc('\n', out);
        }
}

void tell_hints(FILE *out, const struct account *account)
{
    size_t k;
    for (k = 0; k < account->hints.count; k++) {
        fputs("  hint: ", out);
        put_hint(out, &account->hints.list[k]);
        putc('\n', out);
    }
}
