/* `lernazhup write`: a report's frame as a raw capture. */
#include <stdio.h>
#include <string.h>

#include "input.h"
#include "lernazhup.h"
#include "one_file.h"
#include "output.h"
#include "shown.h"
#include "verbs.h"

struct frame {
    size_t count;
    uint8_t chips[LERNAZHUP_CHIPS_MAX];
};

static enum status make_frame(struct frame *frame, const struct input *report, const struct arguments *asked, const char *name)
{
    lernazhup_written written =
        asked->checked ? lernazhup_write_checked(asked->mode, report->bytes, report->have, frame->chips, sizeof frame->chips)
                       : lernazhup_write(asked->mode, report->bytes, report->have, frame->chips, sizeof frame->chips);
    char why[128];
    frame->count = written.chips;
    if (written.number == LERNAZHUP_DONE)
        return GOOD;
    snprintf(why, sizeof why, "refused with %u, %s", (unsigned)written.number, lernazhup_meaning(written.number));
    complain(name, why);
    return REFUSED;
}

/* What was put where. */
static enum status tell(const struct arguments *asked, const struct frame *frame, size_t octets)
{
    show_name(stdout, asked->output);
    printf(": %zu chips, the mode %u frame of %zu octet%s%s\n", frame->count, (unsigned)asked->mode, octets, octets == 1 ? "" : "s",
           asked->checked ? " and the FCS" : "");
    return written_out() ? GOOD : USELESS;
}

static enum status put_frame(const struct arguments *asked, const struct frame *frame, const struct input *report)
{
    enum status status;
    if (would_replace_it(asked))
        return useless(asked->output, "is the report itself");
    status = put_output(asked->output, frame->chips, frame->count);
    return status == GOOD && is_a_file(asked->output) ? tell(asked, frame, report->have) : status;
}

enum status write_capture(const struct arguments *asked)
{
    static struct input report;
    static struct frame frame;
    const char *name;
    enum status status = open_only(&report, asked, "chips are not for a terminal: -o CAPTURE puts them into a file", &name);
    if (status != GOOD)
        return status;
    /* an octet more than a report may have, for the library to refuse it */
    input_has(&report, LERNAZHUP_REPORT_MAX + 1);
    status = report.failed != 0 ? useless(name, strerror(report.failed)) : make_frame(&frame, &report, asked, name);
    if (status == GOOD)
        status = put_frame(asked, &frame, &report);
    close_input(&report);
    return status;
}
