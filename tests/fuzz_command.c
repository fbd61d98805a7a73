/* A fuzzer for the command: arguments and captures drawn at random, taken apart, read, searched for
 * hints, told and now and then drawn, all in one process. Each answer is held against how the input
 * was made, and what is told against what a terminal and a reader of JSON can take.
 *   fuzz_command SEED INPUTS
 * The same seed gives the same inputs. Exits with 1 at the first that goes wrong. */
#define _POSIX_C_SOURCE 200809L
#include <ctype.h>
#include <stdio.h>
#include <stdlib.h>
#include <string.h>

#include "arguments.h"
#include "hints.h"
#include "lernazhup.h"
#include "made_captures.h"
#include "modes.h"
#include "picture.h"
#include "tell.h"

static unsigned long long seed, input_number;

static void demand(int holds, const char *what)
{
    if (holds)
        return;
    printf("fuzz, seed %llu, input %llu: %s\n", seed, input_number, what);
    exit(1);
}

/* Every name is one of the words behind the verb, in their order, and no option but behind a --. */
static void check_names(const struct arguments *asked, char **words, int count)
{
    int at = 2, names_only = 0;
    size_t k;
    for (k = 0; k < asked->count; k++) {
        for (; at < count && words[at] != asked->names[k]; at++)
            names_only |= strcmp(words[at], "--") == 0;
        demand(at++ < count, "a name that was not given, or out of turn");
        demand(names_only || asked->names[k][0] != '-' || asked->names[k][1] == 0, "an option taken for a name");
    }
}

enum { WORDS_MAX = 8 };

static struct arguments try_arguments(void)
{
    static char rooms[WORDS_MAX][WORD_MAX + 1];
    static char *given[WORDS_MAX], *words[WORDS_MAX];
    static const char *const verbs[] = {"read", "read", "read", "write", "look", "pcap"};
    int count = (int)draw(WORDS_MAX + 1), k;
    struct arguments asked;
    for (k = 0; k < count; k++)
        given[k] = words[k] = draw_word(rooms[k]); /* no two at one place */
    if (count > 1 && draw(8) > 0)
        strcpy(words[1], verbs[draw(sizeof verbs / sizeof *verbs)]);
    asked = parse_arguments(count, words);
    demand(asked.mode == NO_MODE || LERNAZHUP_SYMBOL_CHIPS(asked.mode) > 0, "a mode that no radio has");
    demand(asked.word == NULL || asked.wrong != NULL, "a wrong word, and nothing wrong");
    if (asked.wrong != NULL)
        return asked;
    check_names(&asked, given, count);
    demand(asked.verb != WRITE || (asked.mode != NO_MODE && asked.count < 2), "write with too little or too much");
    demand(asked.verb != LOOK || asked.count < 2, "a picture of more than one capture");
    demand(asked.verb != PCAP || (asked.output != NULL && asked.count > 0), "packets of nothing, or to nowhere");
    demand(asked.verb != READ || asked.output == NULL, "a file to write that nobody asked for");
    demand(asked.verb <= READ || !asked.json, "JSON that nobody asked for");
    demand(asked.verb != LOOK || !asked.checked, "a check that nobody asked for");
    return asked;
}

static struct input capture;

static const struct hint *hint_of(const struct account *account, enum hint_kind kind)
{
    size_t k;
    for (k = 0; k < account->hints.count; k++)
        if (account->hints.list[k].kind == kind)
            return &account->hints.list[k];
    return NULL;
}

static int hints_frame(const struct made *made, const struct hint *hint)
{
    return hint != NULL && hint->mode == made->mode && hint->later == made->before;
}

/* A frame that is there is found, and a frame that isn't gives the hint that it was made for. */
static void check_made(const struct made *made, const struct account *account)
{
    const struct outcomes *outcomes = &account->outcomes;
    const struct outcome *outcome = &outcomes->of[outcomes->tried == MODES ? made->mode : 0];
    const struct hint *low = hint_of(account, PACKED_LOW), *high = hint_of(account, PACKED_HIGH);
    demand(outcome->mode == made->mode, "another mode was tried");
    if (made->how == FRAME) {
        demand(outcome->reading.number == LERNAZHUP_DONE, "a frame that doesn't read");
        demand(outcome->reading.n == made->octets + (made->checked ? 2 : 0), "a report of another length");
        demand(memcmp(outcome->report, made->report, made->octets) == 0, "another report");
        demand(outcome->chips == made->chips, "a frame of other chips");
        demand((closeness_of(outcome) == EDGE) == (outcome->reading.gap == (made->mode == 0 ? 3 : 2)), "another edge");
        demand((closeness_of(outcome) == BEST) == (outcome->reading.gap == (made->mode == 0 ? 15 : made->mode == 1 ? 12 : 6)), "another best");
    } else if (made->how >= CUT) {
        demand(outcome->reading.number != LERNAZHUP_DONE, "a report of what is no frame");
    }
    if (outcomes->read > 0)
        return;
    demand(made->how != LATE || hints_frame(made, hint_of(account, LATER)), "a frame that begins later is not hinted at");
    demand(made->how != LATE || hint_of(account, CHECK) == NULL, "a frame that begins later, and is good, is called refused");
    demand(made->how != AS_DIGITS || hints_frame(made, hint_of(account, DIGITS)), "digits are not hinted at");
    demand(made->how != AS_BITS || hints_frame(made, low) || hints_frame(made, high), "packed bits are not hinted at");
    demand(made->how != FLAT_ALL || hint_of(account, FLAT) != NULL, "flat chips are not hinted at");
    demand(made->how != FLAT_END || outcome->reading.number != LERNAZHUP_LOST || hint_of(account, FLAT_FROM) != NULL || hint_of(account, FLAT) != NULL,
           "chips flat to the end are not hinted at");
    demand(made->how != CUT || hint_of(account, SHORT) != NULL, "a frame cut short is not hinted at");
    demand(made->how != BAD_BYTE || outcome->reading.number != LERNAZHUP_NOCHIP || hint_of(account, BYTES) != NULL || low != NULL || high != NULL,
           "a byte that ended the reading is not hinted at");
}

/* What a hint says of the bytes, looked at once more. */
static void check_hint(const struct account *account, const struct hint *hint)
{
    uint8_t report[LERNAZHUP_REPORT_MAX];
    size_t k, above = 0, other = 0, text = 0;
    for (k = 0; k < capture.have; k++) {
        above += capture.bytes[k] > 1;
        other += k >= hint->from && capture.bytes[k] != hint->chip;
        text += memchr("01, \t\r\n", capture.bytes[k], 7) != NULL;
    }
    switch (hint->kind) {
    case EMPTY: demand(capture.have == 0, "empty, and isn't"); break;
    case DIGITS: demand(text == capture.have, "digits, and something else"); break;
    case LATER:
        demand(hint->later > 0 && hint->later < LERNAZHUP_CHIPS_MAX, "later than is looked for");
        demand(read_frame(account->outcomes.checked, hint->mode, &capture, hint->later, report).number == LERNAZHUP_DONE,
               "later, and doesn't read there");
        break;
    case CHECK:
        demand(read_frame(0, hint->mode, &capture, hint->later, report).number == LERNAZHUP_DONE, "the check, of what doesn't read");
        demand(read_frame(1, hint->mode, &capture, hint->later, report).number != LERNAZHUP_DONE, "the check, which doesn't refuse");
        break;
    case OTHER_MODE:
        demand(hint->mode != account->outcomes.mode, "another mode that is the same");
        demand(read_frame(account->outcomes.checked, hint->mode, &capture, hint->later, report).number == LERNAZHUP_DONE,
               "another mode, which doesn't read");
        break;
    case BYTES: demand(above == hint->count && capture.bytes[hint->from] > 1, "bytes counted wrongly"); break;
    case FLAT: demand(other == 0 && hint->from == 0 && hint->count == capture.have, "flat, and isn't"); break;
    case FLAT_FROM: demand(other == 0 && hint->from > 0 && hint->from + hint->count == capture.have, "flat from there, and isn't"); break;
    case SHORT: demand(hint->wanted > capture.have, "too short, and isn't"); break;
    default: demand(hint_reads(hint), "a reading in no mode"); break;
    }
}

static void check_places(const struct account *account)
{
    size_t k;
    for (k = 0; k < account->outcomes.tried; k++) {
        const struct outcome *outcome = &account->outcomes.of[k];
        size_t size = LERNAZHUP_SYMBOL_CHIPS(outcome->mode), octet = LERNAZHUP_FRAME_CHIPS(outcome->mode, 1) - LERNAZHUP_FRAME_CHIPS(outcome->mode, 0);
        struct place place;
        if (outcome->reading.number == LERNAZHUP_DONE)
            continue;
        place = place_of(outcome, &capture);
        demand(place.byte / size == outcome->reading.place && place.byte <= capture.have, "a byte of another symbol");
        demand(place.byte / octet == place.octet, "a byte of another octet");
        demand(outcome->reading.number != LERNAZHUP_NOCHIP || capture.bytes[place.byte] > 1, "a chip that is called none");
        demand((place.part == PREAMBLE) == (place.octet < 4) || place.part == END, "a place in another part");
    }
}

/* JSON, as far as it is told: the text behind a value, or a null pointer where there is none. */
static const char *behind_value(const char *text);

static const char *behind_string(const char *text)
{
    if (*text++ != '"')
        return NULL;
    for (; *text != '"'; text++) {
        if ((unsigned char)*text < 0x20)
            return NULL;
        if (*text == '\\') {
            text++;
            if (*text == 'u' ? strspn(text + 1, "0123456789abcdef") < 4 : *text != '"' && *text != '\\')
                return NULL;
        }
    }
    return text + 1;
}

static const char *behind_list(const char *text, char last, int named)
{
    for (text++; *text != last; text += *text == ',') {
        if (named) {
            text = behind_string(text);
            if (text == NULL || *text++ != ':')
                return NULL;
        }
        text = behind_value(text);
        if (text == NULL || (*text != last && (*text != ',' || text[1] == last)))
            return NULL;
    }
    return text + 1;
}

static const char *behind_value(const char *text)
{
    static const char *const words[] = {"true", "false", "null"};
    size_t k;
    if (*text == '{' || *text == '[')
        return behind_list(text, *text == '{' ? '}' : ']', *text == '{');
    if (*text == '"')
        return behind_string(text);
    for (k = 0; k < 3; k++)
        if (strncmp(text, words[k], strlen(words[k])) == 0)
            return text + strlen(words[k]);
    return isdigit((unsigned char)*text) ? text + strspn(text, "0123456789") : NULL;
}

/* How often a text stands in another. */
static size_t times(const char *text, const char *part)
{
    size_t count = 0;
    for (text = strstr(text, part); text != NULL; text = strstr(text + 1, part))
        count++;
    return count;
}

/* What is told goes to memory: in words, lines without a control character; in JSON, one object on
 * one line. */
static void check_told(const struct account *account, int json)
{
    static char *told;
    static size_t size;
    static FILE *out;
    size_t k;
    if (out == NULL)
        out = open_memstream(&told, &size);
    rewind(out);
    if (json) {
        tell_in_json(out, account);
    } else {
        tell_outcomes(out, account);
        tell_hints(out, account);
    }
    putc(0, out);
    fflush(out);
    for (k = 0; k + 1 < size; k++)
        demand((unsigned char)told[k] >= 0x20 ? told[k] != 0x7f : told[k] == '\n', "a control character is told");
    demand(size > 2 && told[size - 2] == '\n', "no whole line is told");
    demand(times(told, json ? "\"repaired\":" : "\n  repaired ") == account->outcomes.read, "another number of reports is told");
    if (json) {
        const char *behind = behind_value(told);
        demand(told[0] == '{' && behind != NULL && strcmp(behind, "\n") == 0, "what is told is no JSON");
    }
}

/* Every symbol has its cell, and every tag its end, without a control character. */
static void check_picture(const char *name, uint32_t mode)
{
    static char *drawn;
    static size_t size;
    static struct view view;
    static FILE *out;
    size_t k, opened = 0, closed = 0;
    if (out == NULL)
        out = open_memstream(&drawn, &size);
    rewind(out);
    see(&view, &capture, name, mode);
    draw_picture(out, &view);
    putc(0, out);
    fflush(out);
    demand(size < PICTURE_MAX, "a picture that is too large");
    for (k = 0; k + 1 < size; k++) {
        demand((unsigned char)drawn[k] >= 0x20 ? drawn[k] != 0x7f : drawn[k] == '\n', "a control character is drawn");
        opened += drawn[k] == '<' && isalpha((unsigned char)drawn[k + 1]);
        closed += (drawn[k] == '<' && drawn[k + 1] == '/') || (drawn[k] == '/' && drawn[k + 1] == '>');
    }
    demand(opened == closed, "tags without an end");
    demand(times(drawn, "class=\"cell ") == view.symbols.count, "another number of cells");
    demand(times(drawn, "<g class=\"symbol faint\">") == (view.symbols.count > view.symbols.read ? view.symbols.count - view.symbols.read - 1 : 0),
           "another number of faint symbols");
}

/* No capture reads in two modes that we know of; if one did, both would be told. */
static void read_twice(struct outcomes *outcomes)
{
    size_t k, done = 0;
    while (done < outcomes->tried && outcomes->of[done].reading.number != LERNAZHUP_DONE)
        done++;
    if (outcomes->read != 1 || outcomes->tried != MODES || draw(2) > 0)
        return;
    k = (done + 1 + draw(2)) % MODES;
    outcomes->of[k] = outcomes->of[done];
    outcomes->read = 2;
}

/* The first that reads; else none got farther, and none as far before it. */
static void check_foremost(const struct outcomes *outcomes)
{
    const struct outcome *first = foremost(outcomes), *other;
    for (other = outcomes->of; other < outcomes->of + outcomes->tried; other++) {
        demand(other >= first || other->reading.number != LERNAZHUP_DONE, "another mode reads before");
        demand(outcomes->read > 0 || refused_at(other) <= refused_at(first), "another mode got farther");
        demand(outcomes->read > 0 || other >= first || refused_at(other) < refused_at(first), "another mode got as far before");
    }
    demand(outcomes->read == 0 || first->reading.number == LERNAZHUP_DONE, "another mode reads");
}

static void try_input(void)
{
    struct arguments asked = try_arguments();
    struct account account;
    struct made made;
    char name[WORD_MAX + 1];
    uint32_t kind = draw(100);
    size_t k;
    make_capture(&capture, &made, kind < 50 ? RANDOM : kind < 88 ? CHIPS : (enum making)(FRAME + draw(MAKINGS - FRAME)), asked.mode, asked.checked);
    account.name = draw_word(name);
    account.capture = &capture;
    account.hints.count = 0;
    try_modes(&account.outcomes, &capture, asked.mode, asked.checked);
    if (account.outcomes.read == 0)
        find_hints(&account.hints, &capture, &account.outcomes);
    demand(account.hints.count <= HINTS_MAX, "more hints than there is room for");
    check_made(&made, &account);
    check_places(&account);
    for (k = 0; k < account.hints.count; k++) {
        check_hint(&account, &account.hints.list[k]);
        demand(!hint_reads(&account.hints.list[k]) || hint_of(&account, SHORT) == NULL, "too short, and reads");
    }
    read_twice(&account.outcomes);
    check_foremost(&account.outcomes);
    check_told(&account, (int)draw(2));
    if (draw(32) == 0)
        check_picture(account.name, asked.mode);
}

int main(int count, char **arguments)
{
    unsigned long long inputs = count == 3 ? strtoull(arguments[2], NULL, 10) : 0;
    seed = count == 3 ? strtoull(arguments[1], NULL, 10) : 0;
    if (inputs == 0) {
        fprintf(stderr, "usage: fuzz_command SEED INPUTS\n");
        return 2;
    }
    draw_from(seed);
    for (input_number = 0; input_number < inputs; input_number++)
        try_input();
    printf("fuzz: %llu inputs of seed %llu, nothing wrong\n", inputs, seed);
    return 0;
}
