/* The makers of chip buffers, lengths and mode numbers; see cases.h. */
#include "cases.h"

#include <string.h>

#include "reference.h"

/* ---- Picks ---- */

static uint64_t state;

void pick_seed(uint64_t seed)
{
    state = seed;
}

/* splitmix64: every seed is as good as another, and the same on every machine. */
static uint64_t next(void)
{
    uint64_t x = state += UINT64_C(0x9E3779B97F4A7C15);

    x = (x ^ x >> 30) * UINT64_C(0xBF58476D1CE4E5B9);
    x = (x ^ x >> 27) * UINT64_C(0x94D049BB133111EB);
    return x ^ x >> 31;
}

/* No expression holds two picks of which either could come first: the same seed is to give the same
 * cases everywhere. */
uint32_t pick_any(void) { return (uint32_t)(next() >> 32); }
uint32_t pick(uint32_t below) { return (uint32_t)((next() >> 32) * below >> 32); }
int chance(uint32_t percent) { return pick(100) < percent; }

void pick_bytes(uint8_t *bytes, size_t length)
{
    size_t i;

    for (i = 0; i < length; i++)
        bytes[i] = (uint8_t)pick(256);
}

/* ---- Words on how the case in hand was made ---- */

/* Only pointers and numbers are kept, since nearly all notes are never printed. */
enum { NOTES_MAX = 12 };
static struct { const char *words; long number; } notes[NOTES_MAX];
static int notes_length;

void notes_clear(void) { notes_length = 0; }

void note(const char *words, long number)
{
    if (notes_length == NOTES_MAX)
        return;
    notes[notes_length].words = words;
    notes[notes_length++].number = number;
}

void notes_print(FILE *out)
{
    int i;

    for (i = 0; i < notes_length; i++) {
        fputs(i == 0 ? "  made: " : "; ", out);
        if (strchr(notes[i].words, '%') != NULL)
            fprintf(out, notes[i].words, notes[i].number);
        else
            fputs(notes[i].words, out);
    }
    if (notes_length > 0)
        fputs("\n", out);
}

/* ---- Frames, right and wrong ---- */

/* Mostly short, since a short frame has all parts of a long one and many more can be tried; each
 * length comes up all the same. */
static uint32_t pick_report_length(uint32_t longest)
{
    uint32_t kind = pick(100), n = kind < 60 ? pick(6) : kind < 88 ? pick(24) : kind < 98 ? pick(128) : 127;

    return n < longest ? n : longest;
}

/* The top bit of the length octet. */
enum { RESERVED_BIT = 128 };

/* The frame before it was disturbed. */
static uint8_t clean[LERNAZHUP_CHIPS_MAX];

static void make_frame(struct made *made, uint32_t longest)
{
    static const uint8_t starts[] = { 0xE5, 0x7A, 0xA6, 0xE6, 0xA5, 0x27, 0x5E };
    uint8_t octets[6 + 127] = { 0, 0, 0, 0, 0xA7 };
    uint32_t n = pick_report_length(longest);

    made->mode = pick(MODES);
    made->n = n;
    note("frame of %ld octets", n);
    octets[5] = (uint8_t)n;
    make_report(octets + 6, n);
    if (chance(3)) {
        uint32_t bit = pick(32);

        octets[bit / 8] = (uint8_t)(1 << bit % 8);
        note("bit %ld of the preamble is 1", bit);
    }
    if (chance(6)) {
        octets[4] = chance(70) ? starts[pick(sizeof starts)] : (uint8_t)pick(256);
        note("start octet %ld", octets[4]);
    }
    if (chance(20)) {
        octets[5] |= RESERVED_BIT;
        note("reserved bit set", 0);
    }
    if (chance(1)) {
        octets[5] = (uint8_t)pick(256);
        note("length octet %ld", octets[5]);
    }
    made->frame = made->length = reference_spread(made->mode, octets, 6 + n, made->chips);
    memcpy(clean, made->chips, made->frame);
}

/* ---- Disturbances ---- */

static uint32_t symbols_of(const struct made *made)
{
    return (6 + made->n) * reference_per_octet(made->mode);
}

/* A symbol of the frame, leaning to the ones where something is decided. */
static uint32_t pick_symbol(const struct made *made)
{
    uint32_t per_octet = reference_per_octet(made->mode), total = symbols_of(made);

    switch (pick(8)) {
    case 0:
        return total - 1;
    case 1:
        return pick(6 * per_octet);
    case 2:
        return pick(6 + made->n) * per_octet + per_octet - 1;
    case 3:
        return 6 * per_octet - 1;
    case 4:
        return made->marked;
    case 5:
        return pick(2);
    default:
        return pick(total);
    }
}

void invert_some(uint32_t mode, uint8_t *symbol, uint32_t wrong)
{
    uint32_t size = reference_chips(mode), i;
    uint8_t order[32];

    for (i = 0; i < size; i++)
        order[i] = (uint8_t)i;
    for (i = 0; i < wrong; i++) {
        uint32_t j = i + pick(size - i);
        uint8_t chosen = order[j];

        order[j] = order[i];
        order[i] = chosen;
        symbol[chosen] ^= 1;
    }
}

/* Inverts `wrong` different chips of symbol s. */
static void disturb_symbol(struct made *made, uint32_t s, uint32_t wrong)
{
    invert_some(made->mode, made->chips + s * reference_chips(made->mode), wrong);
    made->marked = s;
}

/* Errors in every symbol, at most as many as are accepted; or in each exactly that many. */
static void disturb_all(struct made *made, int exactly)
{
    uint32_t limit = reference_limit(made->mode), total = symbols_of(made), s;

    for (s = 0; s < total; s++)
        disturb_symbol(made, s, exactly ? limit : pick(limit + 1));
    note(exactly ? "as many errors as accepted in each symbol" : "errors within the accepted distance in each symbol", 0);
}

static void disturb_one(struct made *made, uint32_t wrong)
{
    uint32_t s = pick_symbol(made);

    disturb_symbol(made, s, wrong);
    note("symbol %ld disturbed", s);
    note("in %ld chips", wrong);
}

/* One symbol exactly as far from its word as is accepted, or one or two chips farther; the others
 * stay as they are. */
static void disturb_edge(struct made *made)
{
    uint32_t size = reference_chips(made->mode), s = pick_symbol(made), wrong = reference_limit(made->mode) + pick(3);

    memcpy(made->chips + s * size, clean + s * size, size);
    disturb_symbol(made, s, wrong);
    note("symbol %ld", s);
    note("wrong in exactly %ld chips", wrong);
}

void make_between(uint32_t mode, uint8_t *symbol)
{
    uint32_t size = reference_chips(mode), words = reference_words(mode), from = pick(words), to = pick(words), c, left = 0;
    const uint8_t *near = reference_word(mode, from), *far = reference_word(mode, to);

    for (c = 0; c < size; c++)
        left += near[c] != far[c];
    /* Half way, a chip or two past it, or about as far from the first word as is accepted. */
    left = chance(60) ? left / 2 + pick(3) : reference_limit(mode) + pick(3);
    memcpy(symbol, near, size);
    for (c = 0; c < size && left > 0; c++)
        if (near[c] != far[c]) {
            symbol[c] = far[c];
            left--;
        }
}

static void between_words(struct made *made)
{
    uint32_t s = pick_symbol(made);

    make_between(made->mode, made->chips + s * reference_chips(made->mode));
    made->marked = s;
    note("symbol %ld lies between two words", s);
}

/* One symbol becomes another: still a word, so only what it stands for is wrong. */
static void replace_symbol(struct made *made)
{
    uint32_t size = reference_chips(made->mode), s = pick_symbol(made);

    memcpy(made->chips + s * size, reference_word(made->mode, pick(reference_words(made->mode))), size);
    made->marked = s;
    note("symbol %ld replaced by a word", s);
}

/* The aerial is pulled: flat chips from some chip on, to the end or for one symbol. */
static void flatten(struct made *made)
{
    uint32_t size = reference_chips(made->mode), s = pick_symbol(made), flat = pick(2);
    size_t from = (size_t)s * size + (chance(30) ? pick(size) : 0), end = chance(50) ? made->length : from + size;

    memset(made->chips + from, (int)flat, (end < made->length ? end : made->length) - from);
    made->marked = s;
    note("flat chips %ld", flat);
    note("from chip %ld on", (long)from);
}

/* No frame at all. */
static void make_noise(struct made *made)
{
    size_t i;

    made->mode = pick(MODES);
    made->n = pick(4);
    made->frame = made->length = symbols_of(made) * reference_chips(made->mode);
    switch (pick(4)) {
    case 0:
        note("random bytes", 0);
        pick_bytes(made->chips, made->length);
        break;
    case 1:
        note("all chips 0", 0);
        memset(made->chips, 0, made->length);
        break;
    case 2:
        note("all chips 1", 0);
        memset(made->chips, 1, made->length);
        break;
    default:
        note("random chips", 0);
        for (i = 0; i < made->length; i++)
            made->chips[i] = (uint8_t)pick(2);
    }
}

void turn_over(struct made *made, size_t from, size_t to)
{
    size_t i;

    for (i = from; i < to; i++)
        made->chips[i] ^= 1;
    note("every chip inverted from chip %ld on", (long)from);
    note("and before %ld", (long)to);
}

/* The whole frame, one symbol, or all from a symbol or a chip on. */
static void turn_some(struct made *made)
{
    uint32_t size = reference_chips(made->mode), s = pick_symbol(made), kind = pick(100);
    size_t from = (size_t)s * size;

    made->marked = s;
    if (kind < 60)
        turn_over(made, 0, made->length);
    else if (kind < 75)
        turn_over(made, from, from + size);
    else
        turn_over(made, kind < 90 ? from : from + pick(size), made->length);
}

static void disturb(struct made *made)
{
    uint32_t size = reference_chips(made->mode), kind = pick(100);

    if (kind < 20)
        return;
    if (kind < 62)
        disturb_all(made, kind < 32);
    else if (kind < 72)
        disturb_one(made, pick(size + 1));
    else if (kind < 78)
        replace_symbol(made);
    else if (kind < 82)
        between_words(made);
    else if (kind < 92)
        flatten(made);
    if (chance(25))
        disturb_edge(made);
}

/* ---- Cuts, more chips behind, and bytes that aren't chips ---- */

static size_t pick_cut(const struct made *made)
{
    size_t size = reference_chips(made->mode), octet = size * reference_per_octet(made->mode);

    switch (pick(10)) {
    case 0:
        return 0;
    case 1:
        return made->frame - 1;
    case 2:
        return pick(symbols_of(made)) * size;
    case 3:
        return pick(6 + made->n) * octet;
    case 4:
        return 6 * octet;
    case 5:
        return 6 * octet - 1 + pick(3);
    case 6:
        return pick_symbol(made) * size + 1;
    case 7:
        return pick_symbol(made) * size + size - 1;
    case 8:
        return made->frame - 1 - pick((uint32_t)size);
    default:
        return pick((uint32_t)made->frame);
    }
}

static void cut(struct made *made)
{
    size_t to = pick_cut(made);

    if (to < made->length)
        made->length = to;
    note("cut to %ld chips", (long)made->length);
}

/* Chips behind the frame. Once in a while so many that a length cut to 16 bits would be too short
 * for the frame. */
static void trail(struct made *made)
{
    size_t more = chance(30) ? 1 + pick(3) : 1 + pick(200), i;
    int garbage = chance(50);

    if (pick(400) == 0)
        more = 65536 - made->length + pick(700);
    for (i = 0; i < more; i++)
        made->chips[made->length + i] = (uint8_t)pick(garbage ? 256 : 2);
    made->length += more;
    note(garbage ? "%ld bytes of garbage behind it" : "%ld chips behind it", (long)more);
}

static void spoil(struct made *made)
{
    static const uint8_t values[] = { 2, 255, 128, 3, 254, 129, 64, 16 };
    size_t size = reference_chips(made->mode), at;

    if (made->length == 0)
        return;
    switch (pick(5)) {
    case 0:
        at = made->length - 1 - pick((uint32_t)size);
        break;
    case 1:
        at = made->frame - pick((uint32_t)size + 1);
        break;
    case 2:
        at = pick((uint32_t)made->length);
        break;
    default:
        at = pick_symbol(made) * size;
        at += pick((uint32_t)size);
    }
    if (at >= made->length)
        at = made->length - 1;
    made->chips[at] = chance(70) ? values[pick(sizeof values)] : (uint8_t)(2 + pick(254));
    note("chip %ld", (long)at);
    note("is the byte %ld", made->chips[at]);
}

void make_chips(struct made *made, uint32_t longest)
{
    notes_clear();
    made->marked = 0;
    if (chance(6)) {
        make_noise(made);
    } else {
        make_frame(made, longest);
        disturb(made);
        /* Only mode 0 has two polarities. */
        if (chance(made->mode == 0 ? 30 : 4))
            turn_some(made);
    }
    if (chance(25))
        trail(made);
    else if (chance(30))
        cut(made);
    if (chance(12))
        spoil(made);
}

/* A form of the frame of a report. */
static void make_clean_frame(struct made *made, uint32_t mode, uint32_t form,
    const uint8_t *report, uint32_t n)
{
    uint8_t octets[6 + 127] = { 0, 0, 0, 0, 0xA7 };

    notes_clear();
    note("frame of %ld octets", n);
    note(form & RESERVED ? "reserved bit set" : "reserved bit 0", 0);
    octets[5] = (uint8_t)(n | (form & RESERVED ? RESERVED_BIT : 0));
    memcpy(octets + 6, report, n);
    made->mode = mode;
    made->n = n;
    made->frame = made->length = reference_spread(mode, octets, 6 + n, made->chips);
    if (form & INVERTED)
        turn_over(made, 0, made->length);
}

void make_edge_frame(struct made *made, uint32_t mode, uint32_t form, const uint8_t *report,
    uint32_t n, uint32_t more)
{
    uint32_t last, s;

    make_clean_frame(made, mode, form, report, n);
    note("as many errors as accepted in each symbol", 0);
    note("%ld more in the last", more);
    last = symbols_of(made) - 1;
    for (s = 0; s <= last; s++)
        disturb_symbol(made, s, reference_limit(mode) + (s == last ? more : 0));
}

void make_noisy_frame(struct made *made, uint32_t mode, const uint8_t *report, uint32_t n,
    uint32_t from, uint32_t to, uint32_t wrong)
{
    uint32_t s;

    make_clean_frame(made, mode, 0, report, n);
    note("%ld wrong chips", wrong);
    note("in each symbol from %ld on", from);
    note("and before %ld", to);
    for (s = from; s < to; s++)
        disturb_symbol(made, s, wrong);
}

/* ---- Mode numbers and rooms ---- */

uint32_t make_bad_mode(void)
{
    /* Some would be a radio's, cut to a narrower type. */
    static const uint32_t modes[] = {
        4, 34, 255, 256, 257, 258, 65535, 65536, 65537, 65538, 0x80000000, 0x80000001, 0x80000002, 0xFFFFFFFF
    };
    uint32_t kind = pick(100);

    return kind < 20 ? MODES : kind < 85 ? modes[pick(sizeof modes / sizeof modes[0])] : pick_any() | 4;
}

uint32_t make_mode(uint32_t mode)
{
    return chance(3) ? make_bad_mode() : chance(2) ? (mode + 1 + pick(MODES - 1)) % MODES : mode;
}

size_t make_room(size_t needed)
{
    switch (pick(11)) {
    case 0:
        return 0;
    case 1:
        return needed > 0 ? needed - 1 : 0;
    case 2:
    case 3:
        return needed;
    case 4:
        return needed + 1;
    case 5:
        return pick((uint32_t)needed + 1);
    case 6:
        return needed + pick(300);
    case 7:
        return 128 + pick(2) * 128;
    case 8:
        /* A room cut to 16 bits would be too short. */
        return pick(100) == 0 ? 65536 : 127;
    default:
        return 127;
    }
}
