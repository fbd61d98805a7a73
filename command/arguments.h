/* What the command is asked for. */
#ifndef ARGUMENTS_H
#define ARGUMENTS_H

#include <stddef.h>
#include <stdint.h>

enum verb { HELP, VERSION, READ, WRITE, LOOK, PCAP };

struct arguments {
    enum verb verb;
    uint32_t mode;      /* that of -m; NO_MODE where none is named */
    int checked;        /* -c */
    int json;           /* --json */
    const char *output; /* that of -o; a null pointer where there is none */
    char **names;       /* files, in the order given; - is standard input */
    size_t count;       /* how many */
    const char *wrong;  /* what is wrong with the use; a null pointer where nothing is */
    const char *word;   /* the word that it is wrong with; a null pointer where it is none */
};

/* Takes the words of a command line apart, words[0] the program's name. Names are put together at
 * the front of the words behind the verb. Nothing is printed, and every list of words is taken, the
 * empty one too. */
struct arguments parse_arguments(int count, char **words);

#endif
