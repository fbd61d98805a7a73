/* `lernazhup read`: one capture after the other, each told as soon as it is read. */
#define _POSIX_C_SOURCE 200809L
#include <stdio.h>
#include <string.h>
#include <unistd.h>

#include "input.h"
#include "standard.h"
#include "tell.h"
#include "verbs.h"

static enum status tell_failure(const struct arguments *asked, const char *name, const char *why)
{
    complain(told_name(name), why);
    if (asked->json)
        tell_failure_in_json(stdout, name, why);
    return USELESS;
}

/* Refusals are told before hints are looked for: on a stream these may wait for more chips. */
static enum status tell(const struct arguments *asked, struct account *account, struct input *capture)
{
    if (!asked->json)
        tell_outcomes(stdout, account);
    account->hints.count = 0;
    if (account->outcomes.read == 0) {
        fflush(stdout);
        find_hints(&account->hints, capture, &account->outcomes);
    }
    if (capture->failed != 0) /* in the chips that hints wanted */
        return tell_failure(asked, account->name, strerror(capture->failed));
    if (asked->json)
        tell_in_json(stdout, account);
    else
        tell_hints(stdout, account);
    return account->outcomes.read > 0 ? GOOD : REFUSED;
}

/* How far it is, for as long as a capture is read: on a terminal, and taken away before anything
 * else is written there. */
static void progress(size_t at, size_t count, int shown)
{
    static int width;
    if (count < 2 || !isatty(STDERR_FILENO))
        return;
    if (shown)
        width = fprintf(stderr, "\r%zu of %zu", at + 1, count) - 1;
    else
        fprintf(stderr, "\r%*s\r", width, "");
    fflush(stderr);
}

static enum status read_capture(const struct arguments *asked, const char *name, size_t at, size_t count)
{
    static struct input capture;
    struct account account;
    enum status status;
    int failed;
    account.name = asked->json ? name : told_name(name);
    account.capture = &capture;
    progress(at, count, 1);
    failed = open_input(&capture, name);
    if (failed == 0)
        try_modes(&account.outcomes, &capture, asked->mode, asked->checked);
    progress(at, count, 0);
    if (failed != 0)
        return tell_failure(asked, name, strerror(failed));
    status = capture.failed != 0 ? tell_failure(asked, name, strerror(capture.failed)) : tell(asked, &account, &capture);
    close_input(&capture);
    return status;
}

enum status read_captures(const struct arguments *asked)
{
    enum status status = asked->count > 0 ? GOOD : read_capture(asked, "-", 0, 1);
    size_t k;
    for (k = 0; k < asked->count; k++) {
        enum status one = read_capture(asked, asked->names[k], k, asked->count);
        status = one > status ? one : status;
        if (!written_out())
            return USELESS;
    }
    return written_out() ? status : USELESS;
}
