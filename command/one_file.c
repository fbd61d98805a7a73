/* A file that is read is not replaced, by whatever name. */
#define _POSIX_C_SOURCE 200809L
#include "one_file.h"

#include <string.h>
#include <unistd.h>

#include "output.h"

static const char *only_name(const struct arguments *asked)
{
    return asked->count > 0 ? asked->names[0] : "-";
}

enum status open_only(struct input *input, const struct arguments *asked, const char *terminal, const char **told)
{
    int failed;
    *told = told_name(only_name(asked));
    if (asked->output == NULL && isatty(STDOUT_FILENO))
        return useless(NULL, terminal);
    failed = open_input(input, only_name(asked));
    return failed == 0 ? GOOD : useless(*told, strerror(failed));
}

int would_replace_it(const struct arguments *asked)
{
    return is_the_input(asked->output, only_name(asked));
}
