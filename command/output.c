/* What is made is made whole before any of it is put anywhere. */
#define _POSIX_C_SOURCE 200809L
#include "output.h"

#include <errno.h>
#include <stdlib.h>
#include <string.h>
#include <sys/stat.h>
#include <unistd.h>

#include "replace.h"

int is_a_file(const char *output)
{
    return output != NULL && strcmp(output, "-") != 0;
}

/* A link is not replaced, whatever it leads to; one that is read is what it leads to. */
int is_the_input(const char *output, const char *input)
{
    struct stat old, read;
    if (!is_a_file(output) || lstat(output, &old) != 0 || !S_ISREG(old.st_mode))
        return 0;
    if ((strcmp(input, "-") == 0 ? fstat(STDIN_FILENO, &read) : stat(input, &read)) != 0)
        return 0;
    return old.st_dev == read.st_dev && old.st_ino == read.st_ino;
}

enum status put_output(const char *output, const void *bytes, size_t length)
{
    const char *why;
    if (is_a_file(output)) {
        why = replace_file(output, bytes, length);
        return why == NULL ? GOOD : useless(output, why);
    }
    fwrite(bytes, 1, length, stdout);
    return written_out() ? GOOD : USELESS;
}

/* Memory that a stream takes as it goes may be wanting without a word, and what was written is then
 * cut short. A byte more, since a stream over memory ends with a 0, in the last byte's place where
 * there is no other. */
enum status begin_draft(struct draft *draft, size_t most)
{
    draft->bytes = malloc(most + 1);
    draft->out = draft->bytes == NULL ? NULL : fmemopen(draft->bytes, most + 1, "wb");
    if (draft->out != NULL)
        return GOOD;
    free(draft->bytes);
    return useless(NULL, strerror(ENOMEM));
}

enum status put_draft(const char *output, struct draft *draft)
{
    int whole = fflush(draft->out) == 0 && !ferror(draft->out);
    long length = ftell(draft->out);
    enum status status = whole && length >= 0 ? put_output(output, draft->bytes, (size_t)length) : useless(NULL, strerror(ENOMEM));
    drop_draft(draft);
    return status;
}

void drop_draft(struct draft *draft)
{
    fclose(draft->out);
    free(draft->bytes);
}
