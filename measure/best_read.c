/* The best reader: what plain x86-64 C can do at most, as the measure of how far the library is
 * from that.
 *
 * SSE2 is part of every x86-64, so no compiler flag is asked for. Only a good frame is in a hurry:
 * the quick part reads an octet at a time, notes faults without leaving, and where there was any
 * (or too few chips, or too little room) the usual reader is asked for the whole answer, since
 * which fault came first is then what matters. */
#include <emmintrin.h>
#include <string.h>

#include "baselines.h"

enum { HEADER = 6, BPSK_OCTET = 120 };

/* What is carried from octet to octet. */
struct progress {
    __m128i seen;    /* every byte read, OR-ed: above 1 where one isn't a chip */
    __m128i counts;  /* chips repaired, in parts still to be summed */
    __m128i far;     /* mode 0: the largest distances */
    __m128i gaps;    /* modes 1, 2: the least gaps, less the limit and 2, in places 0 and 4 of 8 */
    unsigned last;   /* mode 0: the encoded bit before the next one */
    unsigned values; /* modes 1, 2: every symbol's value, OR-ed; 16 where no word is near enough */
    uint32_t polarity; /* mode 0: the first encoded bit; else 0 */
};

/* Modes 1 and 2: how far the 8 chips at each part of a symbol are from that part of each of the 16
 * words, in rows of 16 bytes. The first four tables are for mode 1's quarters, the other two for
 * mode 2's halves. A symbol's 16 distances are then the sum of four rows or of two, with one
 * addition for all 16 at a time. The first part's rows have 1 more than the limit taken off: a byte
 * of the sum is negative where the distance is within the limit. */
enum { FIRST32 = 0, FIRST16 = 4, TABLES = 6 };
static uint8_t distances[TABLES][256 * 16] __attribute__((aligned(64)));

/* First chip in the lowest bit, as _mm_movemask_epi8 gives it. A turn is an eighth of a word, in
 * either mode. Bits above the word's are of no use. */
static uint64_t oqpsk_word(uint64_t first, unsigned length, unsigned value)
{
    unsigned turn = length / 8 * (value % 8);
    uint64_t turned = first << turn | first >> (length - turn);
    return value < 8 ? turned : turned ^ 0xAAAAAAAA;
}

/* The tables of a radio: one for each 8 chips of a symbol. */
static void make_tables(unsigned table, uint64_t first, unsigned length, int limit)
{
    unsigned at, chips, value;
    for (at = 0; at < length; at += 8, table++)
        for (chips = 0; chips < 256; chips++)
            for (value = 0; value < 16; value++) {
                unsigned word = oqpsk_word(first, length, value) >> at & 255;
                int distance = __builtin_popcount(word ^ chips) - (at == 0 ? limit + 1 : 0);
                distances[table][16 * chips + value] = (uint8_t)distance;
            }
}

/* Made before main, since 24 KiB of numbers would say nothing to a reader. */
__attribute__((constructor)) static void make_distances(void)
{
    make_tables(FIRST32, 0x744AC39B, 32, LERNAZHUP_ACCEPTED_MODE1);
    make_tables(FIRST16, 0xA47C, 16, LERNAZHUP_ACCEPTED_MODE2);
}

static __m128i load(const uint8_t *from)
{
    return _mm_loadu_si128((const __m128i *)from);
}

/* The two rows for 16 chips, added. */
static inline __m128i rows(unsigned table, const uint8_t *chips, struct progress *progress)
{
    __m128i bytes = load(chips);
    unsigned bits = (unsigned)_mm_movemask_epi8(_mm_slli_epi16(bytes, 7));
    const uint8_t *low = distances[table] + (bits << 4 & 0xFF0);
    const uint8_t *high = distances[table + 1] + (bits >> 4 & 0xFF0);
    progress->seen = _mm_or_si128(progress->seen, bytes);
    return _mm_add_epi8(_mm_load_si128((const __m128i *)low), _mm_load_si128((const __m128i *)high));
}

/* One symbol's 16 sums. The length is a constant where octets are read, and this is put in there
 * whole. */
static inline __m128i oqpsk_sums(const uint8_t *chips, size_t length, struct progress *progress)
{
    if (length == 16)
        return rows(FIRST16, chips, progress);
    return _mm_add_epi8(rows(FIRST32, chips, progress), rows(FIRST32 + 2, chips + 16, progress));
}

/* A symbol's value, or 16 where no word is near enough. */
static inline unsigned oqpsk_value(__m128i sums)
{
    return (unsigned)__builtin_ctz((unsigned)_mm_movemask_epi8(sums) | 0x10000);
}

/* Of two symbols' sums, a symbol in each half: the distances are added to the counts, and the gaps
 * are kept where they are less. At most one sum of a symbol is negative, which as a byte without
 * sign is 250 to 255 in mode 1 and 253 to 255 in mode 2. So it is the largest, and taking 249 or
 * 252 off, but nothing below 0, leaves its distance and 1, and 0 of all the others; the least is
 * the next-nearest word's, less the limit and 1. */
static inline void oqpsk_distances(__m128i first, __m128i second, size_t length,
                                   struct progress *progress)
{
    __m128i front = _mm_unpacklo_epi64(first, second), back = _mm_unpackhi_epi64(first, second);
    __m128i off = _mm_set1_epi8((char)(length == 32 ? 249 : 252));
    __m128i near = _mm_sad_epu8(_mm_subs_epu8(_mm_max_epu8(front, back), off), _mm_setzero_si128());
    __m128i next = _mm_min_epu8(front, back);
    next = _mm_min_epu8(next, _mm_srli_epi64(next, 32));
    next = _mm_min_epu8(next, _mm_srli_epi64(next, 16));
    next = _mm_min_epu8(next, _mm_srli_epi64(next, 8));
    next = _mm_and_si128(next, _mm_set1_epi64x(255));
    progress->counts = _mm_add_epi64(progress->counts, near);
    progress->gaps = _mm_min_epi16(progress->gaps, _mm_sub_epi16(next, near));
}

static inline void oqpsk_octets(size_t length, const uint8_t *chips, size_t octets_len,
                                uint8_t *octets, struct progress *kept)
{
    struct progress progress = *kept;
    size_t i;
    for (i = 0; i < octets_len; i++, chips += 2 * length) {
        __m128i first = oqpsk_sums(chips, length, &progress);
        __m128i second = oqpsk_sums(chips + length, length, &progress);
        unsigned low = oqpsk_value(first), high = oqpsk_value(second);
        oqpsk_distances(first, second, length, &progress);
        progress.values |= low | high;
        octets[i] = (uint8_t)(low | high << 4);
    }
    *kept = progress;
}

/* Mode 0: the distances of four symbols from the word for 0, in 16-bit places of both halves,
 * halves still to be added. The words differ in all chips, so the distance from the word for 1 is
 * the rest to 15. A load takes the byte before the symbol with it, blanked, and never one after:
 * the symbol may be the buffer's last. */
static inline __m128i bpsk_four(const uint8_t *chips, __m128i *seen)
{
    const __m128i blank = _mm_setr_epi8(0, 1, 1, 1, 1, 1, 1, 1, 1, 1, 1, 1, 1, 1, 1, 1);
    const __m128i word = _mm_setr_epi8(0, 1, 1, 1, 1, 0, 1, 0, 1, 1, 0, 0, 1, 0, 0, 0);
    __m128i a = load(chips - 1), b = load(chips + 14), c = load(chips + 29), d = load(chips + 44);
    *seen = _mm_or_si128(*seen, _mm_or_si128(_mm_or_si128(a, b), _mm_or_si128(c, d)));
    a = _mm_sad_epu8(_mm_and_si128(a, blank), word);
    b = _mm_sad_epu8(_mm_and_si128(b, blank), word);
    c = _mm_sad_epu8(_mm_and_si128(c, blank), word);
    d = _mm_sad_epu8(_mm_and_si128(d, blank), word);
    return _mm_or_si128(_mm_or_si128(a, _mm_slli_epi64(b, 16)), _mm_or_si128(_mm_slli_epi64(c, 32), _mm_slli_epi64(d, 48)));
}

/* Eight symbols are an octet, and their encoded bits come out of one comparison. */
static inline uint8_t bpsk_octet(const uint8_t *chips, struct progress *progress)
{
    __m128i front = bpsk_four(chips, &progress->seen), back = bpsk_four(chips + 60, &progress->seen);
    __m128i zero = _mm_add_epi16(_mm_unpacklo_epi64(front, back), _mm_unpackhi_epi64(front, back));
    __m128i one = _mm_sub_epi16(_mm_set1_epi16(15), zero);
    __m128i distances = _mm_min_epi16(zero, one), ones = _mm_cmpgt_epi16(zero, one);
    unsigned encoded = (unsigned)_mm_movemask_epi8(_mm_packs_epi16(ones, _mm_setzero_si128()));
    unsigned raw = encoded ^ (encoded << 1 | progress->last);
    progress->far = _mm_max_epi16(progress->far, distances);
    /* at most 133 times 7 in each place */
    progress->counts = _mm_add_epi16(progress->counts, distances);
    progress->last = encoded >> 7;
    return (uint8_t)raw;
}

static void bpsk_octets(const uint8_t *chips, size_t octets_len, uint8_t *octets, struct progress *kept)
{
    struct progress progress = *kept;
    size_t i;
    for (i = 0; i < octets_len; i++, chips += BPSK_OCTET)
        octets[i] = bpsk_octet(chips, &progress);
    *kept = progress;
}

/* The first octet has no byte before it, so it is read from a copy that has. After a 0 its lowest
 * bit is the first encoded one, which is the polarity; after the polarity that bit is 0, and all
 * else is the same. */
static void bpsk_header(const uint8_t *chips, uint8_t *octets, struct progress *progress)
{
    uint8_t first[1 + BPSK_OCTET] = {0};
    memcpy(first + 1, chips, BPSK_OCTET);
    bpsk_octets(first + 1, 1, octets, progress);
    progress->polarity = octets[0] & 1;
    octets[0] &= 0xFE;
    bpsk_octets(chips + BPSK_OCTET, HEADER - 1, octets + 1, progress);
}

static void read_octets(uint32_t mode, const uint8_t *chips, size_t octets_len, uint8_t *octets, struct progress *progress)
{
    if (mode == 0)
        bpsk_octets(chips, octets_len, octets, progress);
    else if (mode == 1)
        oqpsk_octets(32, chips, octets_len, octets, progress);
    else
        oqpsk_octets(16, chips, octets_len, octets, progress);
}

/* Whether all symbols so far were chips near a word. */
static int sound(const struct progress *progress)
{
    __m128i good = _mm_cmpeq_epi8(_mm_andnot_si128(_mm_set1_epi8(1), progress->seen), _mm_setzero_si128());
    int far = _mm_movemask_epi8(_mm_cmpgt_epi16(progress->far, _mm_set1_epi16(6)));
    return _mm_movemask_epi8(good) == 0xFFFF && far == 0 && progress->values < 16;
}

/* Mode 0 counts in eight places of 16 bits; modes 1 and 2 in two of 64, with 1 too many for each
 * symbol. All stay small enough for the lowest 16 bits of a place to be the whole of it. */
static uint32_t repaired(uint32_t mode, uint32_t symbols, const struct progress *progress)
{
    uint16_t parts[8];
    uint32_t sum = 0;
    unsigned i;
    memcpy(parts, &progress->counts, sizeof parts);
    for (i = 0; i < 8; i++)
        sum += parts[i];
    return mode == 0 ? sum : sum - symbols;
}

/* Mode 0: a symbol's distances from the two words add up to 15, so that the farthest has the least
 * gap. Modes 1 and 2: the lesser of the two kept, with what it lacks. */
static uint32_t least_gap(uint32_t mode, const struct progress *progress)
{
    int16_t far[8], gaps[8];
    int farthest = 0, i;
    memcpy(far, &progress->far, sizeof far);
    memcpy(gaps, &progress->gaps, sizeof gaps);
    if (mode > 0)
        return LERNAZHUP_ACCEPTED(mode) + 2 + (uint32_t)(gaps[0] < gaps[4] ? gaps[0] : gaps[4]);
    for (i = 0; i < 8; i++)
        farthest = far[i] > farthest ? far[i] : farthest;
    return 15 - 2 * (uint32_t)farthest;
}

/* Whether the header is that of a frame which the buffers have room for. */
static int fits(const uint8_t *header, size_t chips_len, size_t octet_chips, size_t report_len)
{
    static const uint8_t expected[5] = {0, 0, 0, 0, 0xA7};
    size_t n = header[5] & 127;
    return memcmp(header, expected, 5) == 0 && n <= report_len && (HEADER + n) * octet_chips <= chips_len;
}

lernazhup_reading best_read(uint32_t mode, const uint8_t *chips, size_t chips_len, uint8_t *report, size_t report_len)
{
    struct progress progress;
    uint8_t header[HEADER], octets[LERNAZHUP_REPORT_MAX];
    lernazhup_reading reading = {LERNAZHUP_DONE, 0, 0, 0, 0, 0};
    size_t octet_chips = LERNAZHUP_BY_MODE(mode, BPSK_OCTET, 64, 32);
    if (mode > 2 || chips_len < HEADER * octet_chips)
        return usual_read(mode, chips, chips_len, report, report_len);
    memset(&progress, 0, sizeof progress);
    progress.gaps = _mm_set1_epi16(INT16_MAX);
    if (mode == 0)
        bpsk_header(chips, header, &progress);
    else
        read_octets(mode, chips, HEADER, header, &progress);
    if (!fits(header, chips_len, octet_chips, report_len))
        return usual_read(mode, chips, chips_len, report, report_len);
    reading.n = header[5] & 127;
    read_octets(mode, chips + HEADER * octet_chips, reading.n, octets, &progress);
    if (!sound(&progress))
        return usual_read(mode, chips, chips_len, report, report_len);
    reading.place = (HEADER + reading.n) * (mode == 0 ? 8 : 2);
    reading.count = repaired(mode, reading.place, &progress);
    reading.gap = least_gap(mode, &progress);
    reading.polarity = progress.polarity;
    if (reading.n > 0)
        memcpy(report, octets, reading.n);
    return reading;
}
