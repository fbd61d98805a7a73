/* A frame that is there reads: it has no more wrong chips than its radio accepts. */
#include "made_captures.h"

#include <string.h>

#include "modes.h"

static uint64_t state;

void draw_from(uint64_t seed)
{
    state = seed * 0x9e3779b97f4a7c15u + 1;
}

uint32_t draw(uint32_t below)
{
    state ^= state << 13;
    state ^= state >> 7;
    state ^= state << 17;
    return (uint32_t)(state >> 32) % below;
}

static const char *const known[] = {
    "read", "write", "look", "pcap", "-m", "-c", "-o", "--json", "--help", "--version", "--", "-", "0", "1", "2", "3", "99999999999", "00001",
    "-cm1", "-m2", "-cx", "-oa", "-co-", "-mc", "-x", "--jso", "--c", "", "file", "a\nb", "\xc3\xa9",
};

char *draw_word(char *room)
{
    size_t length = draw(WORD_MAX), k;
    if (draw(4) > 0)
        return strcpy(room, known[draw(sizeof known / sizeof *known)]);
    for (k = 0; k < length; k++)
        room[k] = (char)(1 + draw(255));
    room[length] = 0;
    return room;
}

static void draw_bytes(uint8_t *bytes, size_t count, uint32_t below)
{
    size_t k;
    for (k = 0; k < count; k++)
        bytes[k] = (uint8_t)draw(below);
}

/* Wrong chips in some symbols of a frame, none with more than are accepted: any, or such as lead
 * towards another symbol, which make the gap small. */
static void damage(uint8_t *frame, size_t chips, uint32_t mode)
{
    uint32_t size = LERNAZHUP_SYMBOL_CHIPS(mode), accepted = LERNAZHUP_ACCEPTED(mode), k, wrong;
    size_t at = size * draw((uint32_t)chips / size), other = size * draw((uint32_t)chips / size);
    for (k = wrong = 0; k < size && wrong < accepted; k++)
        if (frame[at + k] != frame[other + k]) {
            frame[at + k] ^= 1;
            wrong++;
        }
    for (other = 0; other < chips; other += size)
        for (k = draw(4) > 0 || other == at ? 0 : draw(accepted + 1); k > 0; k--)
            frame[other + draw(size)] ^= 1; /* the same one twice is one less */
}

/* A frame, in mode 0 in either polarity, behind some flat chips and before some others. Flat chips
 * are near no word, so that no frame begins among them. */
static void make_frame(struct input *capture, struct made *made)
{
    lernazhup_written written;
    uint8_t *frame = capture->bytes + made->before;
    size_t at;
    made->octets = (made->checked ? 1 : 0) + draw(draw(64) > 0 ? 3 : 124);
    draw_bytes(made->report, made->octets, 256);
    made->report[0] |= 1;
    memset(capture->bytes, (int)draw(2), made->before);
    written = (made->checked ? lernazhup_write_checked : lernazhup_write)(made->mode, made->report, made->octets, frame,
                                                                          sizeof capture->bytes - made->before);
    made->chips = written.chips;
    damage(frame, made->chips, made->mode);
    if (made->mode == 0 && draw(2) > 0)
        for (at = 0; at < made->chips; at++)
            frame[at] ^= 1;
    capture->have = made->before + made->chips + draw(20);
    draw_bytes(frame + made->chips, capture->have - made->before - made->chips, 2);
}

static void to_digits(struct input *capture)
{
    size_t k;
    for (k = 0; k < capture->have; k++)
        capture->bytes[k] = (uint8_t)('0' + capture->bytes[k]);
    capture->bytes[capture->have++] = '\n';
}

static void to_bits(struct input *capture, int lowest_first)
{
    size_t k, bytes = (capture->have + 7) / 8;
    for (k = 0; k < bytes; k++) {
        unsigned bit, byte = 0;
        for (bit = 0; bit < 8 && 8 * k + bit < capture->have; bit++)
            byte |= (unsigned)capture->bytes[8 * k + bit] << (lowest_first ? bit : 7 - bit);
        capture->bytes[k] = (uint8_t)byte;
    }
    capture->have = bytes;
}

void make_capture(struct input *capture, struct made *made, enum making how, uint32_t mode, int checked)
{
    made->how = how;
    made->checked = checked;
    made->mode = mode == NO_MODE ? draw(MODES) : mode;
    made->before = how == LATE ? 1 + draw(40) : 0;
    made_input(capture);
    capture->have = draw(draw(64) > 0 ? 40 : 400);
    if (how >= FRAME)
        make_frame(capture, made);
    switch (how) {
    case RANDOM: draw_bytes(capture->bytes, capture->have, draw(2) > 0 ? 256 : 3); break;
    case CHIPS: draw_bytes(capture->bytes, capture->have, 2); break;
    case CUT: capture->have = draw((uint32_t)made->chips - 1) + 1; break;
    case AS_DIGITS: to_digits(capture); break;
    case AS_BITS: to_bits(capture, (int)draw(2)); break;
    case FLAT_ALL: memset(capture->bytes, (int)draw(2), capture->have); break;
    case FLAT_END: memset(capture->bytes + made->chips / 2, 0, capture->have - made->chips / 2); break;
    case BAD_BYTE: capture->bytes[draw((uint32_t)made->chips)] = (uint8_t)(2 + draw(254)); break;
    default: break;
    }
    capture->came = capture->have;
}
