/* The makers of parts and records; see cases.h. */
#include <string.h>

#include "cases.h"
#include "reference.h"

/* ---- Parts ---- */

size_t make_part_length(uint32_t mode)
{
    size_t size = reference_chips(mode);
    /* The symbols of all radios and what is a chip longer; 256 and 512 more than a symbol are for a
     * length cut to 8 bits. */
    const size_t lengths[] = { 0, 1, 15, 16, 17, 32, 33, size - 1, size + 1, 2 * size, 256 + size, 512 + size };
    size_t length = lengths[pick(sizeof lengths / sizeof lengths[0])];

    return length != size ? length : size - 1;
}

/* Inverts that many chips, side by side with a turn: different ones, and cheap. */
static void wrong_chips(uint8_t *part, uint32_t size, uint32_t wrong)
{
    uint32_t from = pick(size), i;

    for (i = 0; i < wrong; i++)
        part[(from + i) % size] ^= 1;
}

size_t make_part(uint32_t mode, uint8_t *part)
{
    uint32_t size = reference_chips(mode), limit = reference_limit(mode), kind = pick(100);
    uint32_t value = chance(40) ? 0 : pick(reference_words(mode)), i;

    memcpy(part, reference_word(mode, value), size);
    note("part like word %ld", value);
    if (kind < 60)
        wrong_chips(part, size, pick(limit + 1));
    else if (kind < 80)
        wrong_chips(part, size, limit + pick(2));
    else if (kind < 85)
        memset(part, (int)pick(2), size);
    else if (kind < 90)
        make_between(mode, part);
    else if (kind < 94)
        for (i = 0; i < size; i++)
            part[i] = (uint8_t)pick(2);
    if (chance(8)) {
        i = pick(size);
        part[i] = (uint8_t)(2 + pick(254));
    }
    if (chance(8)) {
        for (i = size; i < PART_MAX; i++)
            part[i] = (uint8_t)pick(2);
        return make_part_length(mode);
    }
    return size;
}

/* ---- Records ---- */

/* Records that the calls made, some of each age. */
enum { KEPT = 256 };
static lernazhup_receiver kept[KEPT];
static uint32_t kept_length;

void keep_record(const lernazhup_receiver *record)
{
    if (kept_length < KEPT)
        kept[kept_length++] = *record;
    else
        kept[pick(KEPT)] = *record;
}

/* Numbers at which a width or a sum may break. */
static uint32_t wild_number(void)
{
    static const uint32_t numbers[] = {
        0, 1, 2, 3, 13, 34, 127, 128, 255, 256, 258, 65535, 65536, 65538, 0x2AAAAAAA, 0x2AAAAAAB, 0x33333333, 0x33333334,
        0x7FFFFFFF, 0x80000000, 0xFFFFFFFE, 0xFFFFFFFF
    };
    uint32_t any = pick_any();

    return chance(60) ? numbers[pick(sizeof numbers / sizeof numbers[0])] : any >> pick(32);
}

enum { FIELDS = 9 };

static uint32_t *field_of(lernazhup_receiver *record, uint32_t which)
{
    uint32_t *fields[FIELDS];

    fields[0] = &record->mode;
    fields[1] = &record->ended;
    fields[2] = &record->taken;
    fields[3] = &record->length;
    fields[4] = &record->count;
    fields[5] = &record->last;
    fields[6] = &record->octet;
    fields[7] = &record->gap;
    fields[8] = &record->polarity;
    return fields[which];
}

/* A gap to hold: none yet, one above or below that of the next symbol, or what no symbol has. */
static uint32_t held_gap(void)
{
    return chance(30) ? UINT32_MAX : chance(70) ? pick(17) : wild_number();
}

/* One that the calls made, with one field changed, by a little or wildly. */
static lernazhup_receiver change_one(void)
{
    lernazhup_receiver record = kept[pick(kept_length)];
    uint32_t which = pick(FIELDS), *field = field_of(&record, which);

    *field = chance(50) ? *field + pick(7) - 3 : wild_number();
    note("a made record with field %ld changed", which);
    return record;
}

static lernazhup_receiver all_random(void)
{
    lernazhup_receiver record;
    uint32_t which;

    memset(&record, 0, sizeof record);
    for (which = 0; which < FIELDS; which++)
        *field_of(&record, which) = wild_number();
    pick_bytes(record.octets, sizeof record.octets);
    note("a record of random fields", 0);
    return record;
}

/* The number of symbols taken: around a place where something is decided, and at times so large
 * that their product with the accepted distance wraps. */
static uint32_t edge_taken(uint32_t per_octet, uint32_t limit, uint32_t length)
{
    uint32_t total = (6 + length) * per_octet, octet = pick(7);

    switch (pick(10)) {
    case 0:
        return total;
    case 1:
        return total + 1;
    case 2:
        return pick(total + 1);
    case 3:
        return octet * per_octet + pick(3) - 1;
    case 4:
        return (4 + octet % 3) * per_octet - 1;
    case 5:
        return 0xFFFFFFFF / limit + pick(total);
    case 6:
        return pick((length + 1) * per_octet) + 5 * per_octet;
    case 7:
        return 0;
    default:
        return total - 1;
    }
}

/* A record that passes the tests of 34 but for one or two at their edges. */
static lernazhup_receiver at_edges(void)
{
    lernazhup_receiver record;
    uint32_t per_octet, limit;

    memset(&record, 0, sizeof record);
    record.mode = pick(MODES);
    per_octet = reference_per_octet(record.mode);
    limit = reference_limit(record.mode);
    record.length = chance(30) ? 124 + pick(6) : pick(chance(50) ? 4 : 128);
    record.taken = edge_taken(per_octet, limit, record.length);
    record.ended = chance(65) ? LERNAZHUP_MORE : LERNAZHUP_DONE;
    if (record.ended == LERNAZHUP_DONE && chance(70))
        record.taken = (6 + record.length) * per_octet;
    record.count = chance(60) ? limit * record.taken + pick(3) - 1 : pick(limit * (record.taken % 1100) + 1);
    record.last = chance(70) ? pick(16) : wild_number();
    /* Octets that the right symbol makes 0xA7, or the top bit of which will be 0. */
    record.octet = chance(40) ? (record.mode == 0 ? 0x4E : 0x70) + pick(2) : chance(50) ? pick(256) : wild_number();
    record.gap = held_gap();
    record.polarity = chance(60) ? pick(2) : wild_number();
    pick_bytes(record.octets, sizeof record.octets);
    if (chance(10))
        record.mode = make_bad_mode();
    note("a record at the edges", 0);
    return record;
}

lernazhup_receiver make_record(void)
{
    lernazhup_receiver record;
    uint32_t kind = pick(100);

    notes_clear();
    record = kind < 40 ? at_edges() : kind < 75 ? change_one() : kind < 85 ? all_random() : kept[pick(kept_length)];
    if (kind >= 85)
        note("a made record", 0);
    if (chance(8)) {
        record.ended = chance(60) ? pick(36) : wild_number();
        note("ended with %ld", (long)record.ended);
    }
    return record;
}
