/* What the verbs share that make one thing of one file. */
#ifndef ONE_FILE_H
#define ONE_FILE_H

#include "arguments.h"
#include "input.h"
#include "standard.h"

/* Opens the file that a verb is asked for, standard input where there is none, and gives its name
 * as told. USELESS where it can't be opened, or where what is made would go to a terminal that
 * nobody named: then with these words. */
enum status open_only(struct input *input, const struct arguments *asked, const char *terminal, const char **told);

/* Whether what is made of it is to go in the place of that file. */
int would_replace_it(const struct arguments *asked);

#endif
