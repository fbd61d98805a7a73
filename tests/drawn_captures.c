/* Captures, what the library's own calls say of each, and its picture, for pictures.py to compare:
 * one line of JSON a capture, and behind it the picture's bytes.
 *   drawn_captures SEED COUNT                 so many captures drawn at random, and drawn here
 *   drawn_captures files CAPTURE PICTURE..    captures in files, and pictures of them
 * Exits with 2 where a file can't be read. */
#define _POSIX_C_SOURCE 200809L
#include <stdio.h>
#include <stdlib.h>
#include <string.h>

#include "input.h"
#include "lernazhup.h"
#include "made_captures.h"
#include "modes.h"
#include "picture.h"

static void put_hex(const char *name, const uint8_t *octets, size_t count)
{
    size_t k;
    printf("\"%s\":\"", name);
    for (k = 0; k < count; k++)
        printf("%02x", octets[k]);
    printf("\",");
}

/* Every whole symbol, up to as many as a frame may have. */
static void put_symbols(uint32_t mode, const struct input *capture)
{
    size_t size = LERNAZHUP_SYMBOL_CHIPS(mode), at;
    printf("\"symbols\":[");
    for (at = 0; at + size <= capture->have && at < LERNAZHUP_CHIPS_MAX; at += size) {
        lernazhup_matched matched = lernazhup_match(mode, capture->bytes + at, size);
        printf("%s[%u,%u,%u,%u]", at > 0 ? "," : "", (unsigned)matched.number, (unsigned)matched.word, (unsigned)matched.nearest,
               (unsigned)matched.next);
    }
    printf("]}");
}

/* The reader's answer, and how far the stepping receiver came. */
static void put_mode(uint32_t mode, const struct input *capture)
{
    size_t size = LERNAZHUP_SYMBOL_CHIPS(mode), at;
    uint8_t report[LERNAZHUP_REPORT_MAX];
    lernazhup_reading reading = lernazhup_read(mode, capture->bytes, capture->have, report, sizeof report);
    lernazhup_receiver receiver;
    uint32_t number = lernazhup_start_into(&receiver, mode);
    for (at = 0; number == LERNAZHUP_MORE && at + size <= capture->have; at += size)
        number = lernazhup_push_into(&receiver, capture->bytes + at, size);
    printf("{\"number\":%u,\"meaning\":\"%s\",\"place\":%u,\"n\":%u,\"count\":%u,\"gap\":%u,\"polarity\":%u,", (unsigned)reading.number,
           lernazhup_meaning(reading.number), (unsigned)reading.place, (unsigned)reading.n, (unsigned)reading.count, (unsigned)reading.gap,
           (unsigned)reading.polarity);
    printf("\"taken\":%u,\"length\":%u,", (unsigned)receiver.taken, (unsigned)receiver.length);
    put_hex("octets", receiver.octets, sizeof receiver.octets);
    put_symbols(mode, capture);
}

static void put_record(const char *name, uint32_t asked, const struct input *capture, const char *picture, size_t length)
{
    uint32_t mode;
    printf("{");
    put_hex("name", (const uint8_t *)name, strlen(name));
    put_hex("first", capture->bytes, capture->have);
    printf("\"asked\":%d,\"modes\":[", asked == NO_MODE ? -1 : (int)asked);
    for (mode = 0; mode < MODES; mode++) {
        fputs(mode > 0 ? "," : "", stdout);
        put_mode(mode, capture);
    }
    printf("],\"picture\":%zu}\n", length);
    fwrite(picture, 1, length, stdout);
}

/* What may become of a frame on a bad link: more wrong chips in a symbol than are accepted, another
 * symbol in its place, a front end that turns over. */
static void spoil(uint8_t *frame, size_t chips, size_t size)
{
    size_t at = draw((uint32_t)chips), other = size * draw((uint32_t)(chips / size)), k;
    switch (draw(4)) {
    case 0: break;
    case 1:
        for (k = 0; k < 8; k++)
            frame[(at + draw(16)) % chips] ^= 1;
        break;
    case 2: memmove(frame + at / size * size, frame + other, size); break;
    case 3:
        for (k = at; k < chips; k++)
            frame[k] ^= 1;
        break;
    }
}

static void draw_capture(struct input *capture, uint32_t mode)
{
    struct made made;
    make_capture(capture, &made, draw(2) > 0 ? FRAME : (enum making)draw(MAKINGS), mode, 0);
    if (made.how == FRAME)
        spoil(capture->bytes, made.chips, LERNAZHUP_SYMBOL_CHIPS(made.mode));
}

/* Words one behind the other: any bytes, and sometimes many. */
static char *draw_name(char *name)
{
    uint32_t words = 1 + draw(draw(4) > 0 ? 2 : 12);
    *name = 0;
    for (; words > 0; words--)
        draw_word(name + strlen(name));
    return name;
}

static void put_drawn(void)
{
    static struct input capture;
    static struct view view;
    char name[12 * WORD_MAX + 1], *picture = NULL;
    uint32_t mode = draw(2) > 0 ? NO_MODE : draw(MODES);
    size_t length = 0;
    FILE *out = open_memstream(&picture, &length);
    draw_capture(&capture, mode);
    see(&view, &capture, draw_name(name), mode);
    draw_picture(out, &view);
    fclose(out);
    put_record(name, mode, &capture, picture, length);
    free(picture);
}

static int put_files(const char *capture_name, const char *picture_name)
{
    static struct input capture;
    static char picture[PICTURE_MAX];
    FILE *file = fopen(picture_name, "rb");
    if (open_input(&capture, capture_name) != 0 || file == NULL)
        return 0;
    input_has(&capture, LERNAZHUP_CHIPS_MAX);
    put_record(capture_name, NO_MODE, &capture, picture, fread(picture, 1, sizeof picture, file));
    close_input(&capture);
    return fclose(file) == 0;
}

int main(int count, char **arguments)
{
    int k;
    if (count > 1 && strcmp(arguments[1], "files") == 0) {
        for (k = 2; k + 1 < count; k += 2)
            if (!put_files(arguments[k], arguments[k + 1]))
                return 2;
        return 0;
    }
    if (count != 3)
        return 2;
    draw_from(strtoull(arguments[1], NULL, 10));
    for (k = atoi(arguments[2]); k > 0; k--)
        put_drawn();
    return 0;
}
