/* `lernazhup look`: a capture as a picture. */
#include <stdio.h>
#include <string.h>

#include "input.h"
#include "one_file.h"
#include "outcome_words.h"
#include "output.h"
#include "picture.h"
#include "shown.h"
#include "verbs.h"

/* What was drawn where. */
static enum status tell(const struct arguments *asked, const struct view *view)
{
    show_name(stdout, asked->output);
    printf(": %zu symbol%s, ", view->symbols.count, view->symbols.count == 1 ? "" : "s");
    put_outcome(stdout, view->outcome, view->capture);
    putc('\n', stdout);
    return written_out() ? GOOD : USELESS;
}

static enum status put_picture(const struct arguments *asked, const struct view *view)
{
    struct draft draft;
    enum status status;
    if (would_replace_it(asked))
        return useless(asked->output, "is the capture itself");
    status = begin_draft(&draft, PICTURE_MAX);
    if (status != GOOD)
        return status;
    draw_picture(draft.out, view);
    status = put_draft(asked->output, &draft);
    if (status == GOOD && is_a_file(asked->output))
        status = tell(asked, view);
    return status == GOOD && refused(view) ? REFUSED : status;
}

enum status look_at_capture(const struct arguments *asked)
{
    static struct input capture;
    static struct view view;
    const char *name;
    enum status status = open_only(&capture, asked, "a picture is not for a terminal: -o PICTURE.svg puts it into a file", &name);
    if (status != GOOD)
        return status;
    see(&view, &capture, name, asked->mode);
    status = capture.failed != 0 ? useless(name, strerror(capture.failed)) : put_picture(asked, &view);
    close_input(&capture);
    return status;
}
