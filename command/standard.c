/* What goes wrong is said in one form, whoever finds it. */
#include "standard.h"

#include <errno.h>
#include <stdio.h>
#include <string.h>

#include "shown.h"

const char *told_name(const char *name)
{
    return strcmp(name, "-") == 0 ? "standard input" : name;
}

void begin_complaint(const char *name)
{
    fputs("lernazhup: ", stderr);
    if (name != NULL) {
        show_name(stderr, *name == 0 ? "''" : name);
        fputs(": ", stderr);
    }
}

void complain(const char *name, const char *why)
{
    begin_complaint(name);
    fprintf(stderr, "%s\n", why);
}

enum status useless(const char *name, const char *why)
{
    complain(name, why);
    return USELESS;
}

int written_out(void)
{
    if (fflush(stdout) == 0 && !ferror(stdout))
        return 1;
    complain("standard output", strerror(errno));
    return 0;
}
