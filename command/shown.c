/* What UTF-8 is stands here once: well-formed sequences, the shortest for their character, no
 * surrogates, nothing above U+10FFFF. */
#include "shown.h"

#include <string.h>

/* The character that the text begins with, and its bytes in *length; where it begins with none,
 * one byte and -1. The text ends with a 0, which continues nothing. */
static long character(const unsigned char *text, size_t *length)
{
    static const struct {
        unsigned char mask, lead;
        long least;
    } kinds[] = {{0x80, 0x00, 0}, {0xe0, 0xc0, 0x80}, {0xf0, 0xe0, 0x800}, {0xf8, 0xf0, 0x10000}};
    size_t more, k;
    long code;
    *length = 1;
    for (more = 0; more < 4; more++)
        if ((text[0] & kinds[more].mask) == kinds[more].lead)
            break;
    if (more == 4)
        return -1;
    code = text[0] & ~kinds[more].mask & 0xff;
    for (k = 1; k <= more; k++) {
        if ((text[k] & 0xc0) != 0x80)
            return -1;
        code = code << 6 | (text[k] & 0x3f);
    }
    if (code < kinds[more].least || code > 0x10ffff || (code >= 0xd800 && code < 0xe000))
        return -1;
    *length = more + 1;
    return code;
}

/* The controls of ASCII and those above it. */
static int control(long code)
{
    return code < 0x20 || (code >= 0x7f && code < 0xa0);
}

/* What begins a line or turns the direction of writing, and so shows another name. */
static int turning(long code)
{
    return code == 0x200e || code == 0x200f || (code >= 0x2028 && code <= 0x202e) || (code >= 0x2066 && code <= 0x2069);
}

/* Whether it is shown as it is. */
static int plain(long code)
{
    return code >= 0 && !control(code) && !turning(code);
}

void show_name(FILE *out, const char *name)
{
    size_t length;
    for (; *name != 0; name += length) {
        if (plain(character((const unsigned char *)name, &length)))
            fwrite(name, 1, length, out);
        else
            putc('.', out);
    }
}

void show_json(FILE *out, const char *name)
{
    size_t length;
    putc('"', out);
    for (; *name != 0; name += length) {
        long code = character((const unsigned char *)name, &length);
        if (code < 0)
            fputs("\\ufffd", out);
        else if (control(code))
            fprintf(out, "\\u%04lx", (unsigned long)code);
        else if (code == '"' || code == '\\')
            fprintf(out, "\\%c", (int)code);
        else
            fwrite(name, 1, length, out);
    }
    putc('"', out);
}

static size_t characters(const char *name)
{
    size_t count, length;
    for (count = 0; *name != 0; count++) {
        character((const unsigned char *)name, &length);
        name += length;
    }
    return count;
}

/* XML has no U+FFFE and no U+FFFF. */
void show_xml(FILE *out, const char *name, size_t most)
{
    size_t count = characters(name), length;
    fputs(count > most ? "..." : "", out);
    for (; *name != 0; name += length, count--) {
        long code = character((const unsigned char *)name, &length);
        if (count > most)
            continue;
        if (!plain(code) || code == 0xfffe || code == 0xffff)
            putc('.', out);
        else if (code == '<' || code == '>' || code == '&')
            fputs(code == '<' ? "&lt;" : code == '>' ? "&gt;" : "&amp;", out);
        else
            fwrite(name, 1, length, out);
    }
}

int shown_octet(uint8_t octet)
{
    return octet >= 0x20 && octet < 0x7f ? octet : '.';
}
