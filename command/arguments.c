/* Options may stand before, between and behind the names, until a `--`; one letter options may
 * stand together, and what they want may follow at once or as the next word: -m1, -m 1, -cm 1.
 * getopt is not used, since it prints, and keeps what it knows outside of its arguments. */
#include "arguments.h"

#include <string.h>

#include "lernazhup.h"
#include "modes.h"

struct words {
    char **rest; /* those that are not looked at yet */
    size_t count;
};

static void mistake(struct arguments *asked, const char *wrong, const char *word)
{
    if (asked->wrong == NULL) {
        asked->wrong = wrong;
        asked->word = word;
    }
}

/* Digits and nothing else, zeros in front too, as `send` takes them. However long the number, it
 * never becomes another one. */
static uint32_t mode_of(const char *text)
{
    uint32_t mode = 0;
    if (*text == 0)
        return NO_MODE;
    for (; *text >= '0' && *text <= '9'; text++)
        mode = mode < 1000 ? 10 * mode + (uint32_t)(*text - '0') : mode;
    return *text == 0 && LERNAZHUP_SYMBOL_CHIPS(mode) > 0 ? mode : NO_MODE;
}

static void take_mode(struct arguments *asked, const char *value)
{
    asked->mode = mode_of(value);
    if (asked->mode == NO_MODE)
        mistake(asked, "is no mode: there are 0, 1 and 2", value);
}

/* What an option wants: the rest of its word, or else the next one. */
static const char *value_of(struct arguments *asked, const char *rest, const char *option, struct words *words)
{
    if (*rest != 0)
        return rest;
    if (words->count == 0) {
        mistake(asked, "wants a word behind it", option);
        return NULL;
    }
    words->count--;
    return *words->rest++;
}

/* A word of one letter options. One that wants a value is the last of its word. */
static void take_letters(struct arguments *asked, const char *word, struct words *words)
{
    const char *letters = asked->verb == READ ? "cm" : asked->verb == LOOK ? "mo" : "cmo";
    const char *letter = word + 1, *value;
    for (; *letter == 'c' && *letters == 'c'; letter++)
        asked->checked = 1;
    if (*letter == 0)
        return;
    if (strchr(letters, *letter) == NULL) {
        mistake(asked, "is no option here", word);
        return;
    }
    value = value_of(asked, letter + 1, word, words);
    if (*letter == 'o')
        asked->output = value;
    else if (value != NULL)
        take_mode(asked, value);
}

static void take_option(struct arguments *asked, const char *word, struct words *words)
{
    if (strcmp(word, "--help") == 0)
        asked->verb = HELP;
    else if (strcmp(word, "--json") == 0 && asked->verb == READ)
        asked->json = 1;
    else if (word[1] == '-')
        mistake(asked, "is no option here", word);
    else
        take_letters(asked, word, words);
}

static void take_words(struct arguments *asked, struct words words)
{
    int names_only = 0;
    asked->names = words.rest;
    while (words.count > 0 && asked->verb != HELP) {
        char *word = *words.rest++;
        words.count--;
        if (names_only || word[0] != '-' || word[1] == 0)
            asked->names[asked->count++] = word;
        else if (strcmp(word, "--") == 0)
            names_only = 1;
        else
            take_option(asked, word, &words);
    }
}

/* The first word; whether others may follow it. */
static int take_verb(struct arguments *asked, const char *word)
{
    static const char *const verbs[] = {"--help", "--version", "read", "write", "look", "pcap"};
    enum verb verb = HELP;
    while (verb <= PCAP && strcmp(word, verbs[verb]) != 0)
        verb++;
    if (verb > PCAP)
        mistake(asked, "is none of read, write, look and pcap", word);
    else
        asked->verb = verb;
    return asked->verb > VERSION;
}

/* What a verb can't do without, and what it has no use for. */
static void check_use(struct arguments *asked)
{
    if (asked->verb == WRITE && asked->mode == NO_MODE)
        mistake(asked, "write wants a mode: -m 0, -m 1 or -m 2", NULL);
    if (asked->verb == WRITE && asked->count > 1)
        mistake(asked, "is one report too many: a capture has one", asked->names[1]);
    if (asked->verb == LOOK && asked->count > 1)
        mistake(asked, "is one capture too many: a picture has one", asked->names[1]);
    if (asked->verb == PCAP && asked->output == NULL)
        mistake(asked, "pcap wants a file to write: -o OUT.pcap", NULL);
    if (asked->verb == PCAP && asked->count == 0)
        mistake(asked, "pcap wants a capture, or more: - is standard input", NULL);
}

struct arguments parse_arguments(int count, char **words)
{
    struct arguments asked = {HELP, NO_MODE, 0, 0, NULL, NULL, 0, NULL, NULL};
    if (count < 2) {
        mistake(&asked, "read, write, look or pcap?", NULL);
        return asked;
    }
    if (take_verb(&asked, words[1])) {
        struct words rest = {words + 2, (size_t)count - 2};
        take_words(&asked, rest);
    }
    check_use(&asked);
    return asked;
}
