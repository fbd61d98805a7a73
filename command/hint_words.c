/* Hints in words, for those who stand at the bench. */
#include "hints.h"

const char *hint_name(const struct hint *hint)
{
    switch (hint->kind) {
    case EMPTY: return "empty";
    case DIGITS: return "digits";
    case LATER: return "later";
    case OTHER_MODE: return "other-mode";
    case CHECK: return "check";
    case PACKED_LOW:
    case PACKED_HIGH: return "packed";
    case BYTES: return "bytes";
    case FLAT: return "flat";
    case FLAT_FROM: return "flat-from";
    case SHORT: return "short";
    }
    return "";
}

int hint_reads(const struct hint *hint)
{
    return hint->mode != NO_MODE && hint->kind != SHORT;
}

/* In which mode it reads, and from where on. */
static void put_reading(FILE *out, const struct hint *hint)
{
    fprintf(out, "in mode %u", (unsigned)hint->mode);
    if (hint->later > 0)
        fprintf(out, " when started %zu chip%s later", hint->later, hint->later == 1 ? "" : "s");
}

static void put_digits(FILE *out, const struct hint *hint)
{
    fputs("these are the digits 0 and 1 as text, and not the bytes 0 and 1", out);
    if (hint_reads(hint)) {
        fputs(": with those it reads ", out);
        put_reading(out, hint);
    }
}

static void put_packed(FILE *out, const struct hint *hint)
{
    fprintf(out, "packed bits: with each byte as eight chips, the %s bit first, it reads ",
            hint->kind == PACKED_LOW ? "lowest" : "highest");
    put_reading(out, hint);
}

static void put_short(FILE *out, const struct hint *hint)
{
    if (hint->sized)
        fprintf(out, "too short: by its length octet this mode %u frame has", (unsigned)hint->mode);
    else
        fprintf(out, "too short: a mode %u frame has at least", (unsigned)hint->mode);
    fprintf(out, " %zu chips, and %zu byte%s came", hint->wanted, hint->looked, hint->looked == 1 ? "" : "s");
}

void put_hint(FILE *out, const struct hint *hint)
{
    switch (hint->kind) {
    case EMPTY: fputs("it is empty", out); break;
    case DIGITS: put_digits(out, hint); break;
    case LATER:
        fputs("a frame reads ", out);
        put_reading(out, hint);
        fprintf(out, ": tail -c +%zu leaves those out", hint->later + 1);
        break;
    case OTHER_MODE:
        fputs("it reads ", out);
        put_reading(out, hint);
        break;
    case CHECK:
        fputs("every symbol of a frame reads ", out);
        put_reading(out, hint);
        fputs(": it is the check of -c that refuses its report", out);
        break;
    case PACKED_LOW:
    case PACKED_HIGH: put_packed(out, hint); break;
    case BYTES:
        fprintf(out, "bytes that are neither 0 nor 1: %zu of the %zu looked at, the first of them byte %zu", hint->count, hint->looked,
                hint->from);
        break;
    case FLAT: fprintf(out, "all %zu chips looked at are %u: is the aerial plugged in?", hint->count, hint->chip); break;
    case FLAT_FROM:
        fprintf(out, "from byte %zu on all %zu chips looked at are %u: was the aerial pulled?", hint->from, hint->count, hint->chip);
        break;
    case SHORT: put_short(out, hint); break;
    }
}
