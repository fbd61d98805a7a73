/* `lernazhup pcap`: reports as a capture file for Wireshark, in the classic format of libpcap, each
 * number with its low octet first, whatever machine this is. */
#include <stdio.h>
#include <string.h>

#include "input.h"
#include "outcome_words.h"
#include "outcomes.h"
#include "output.h"
#include "shown.h"
#include "verbs.h"

/* IEEE 802.15.4, each packet with its FCS, or without one. */
enum { WITH_FCS = 195, WITHOUT_FCS = 230 };

/* Octets of the file's header, and at most of a packet with its own. */
enum { HEADER = 24, PACKET_MAX = 16 + LERNAZHUP_REPORT_MAX };

static void put_number(FILE *out, uint32_t number, int octets)
{
    for (; octets > 0; octets--, number >>= 8)
        putc((int)(number & 0xff), out);
}

/* The magic number, version 2.4, the zone and the accuracy of times, the longest packet, and what
 * kind of packets these are. */
static void put_header(FILE *out, int checked)
{
    put_number(out, 0xa1b2c3d4, 4);
    put_number(out, 2, 2);
    put_number(out, 4, 2);
    put_number(out, 0, 4);
    put_number(out, 0, 4);
    put_number(out, LERNAZHUP_REPORT_MAX, 4);
    put_number(out, checked ? WITH_FCS : WITHOUT_FCS, 4);
}

/* A raw capture tells no time, and so its packet has none: seconds and microseconds are 0. Then
 * come the octets that are there, those that were sent, and they themselves. */
static void put_packet(FILE *out, const struct outcome *done)
{
    put_number(out, 0, 4);
    put_number(out, 0, 4);
    put_number(out, done->reading.n, 4);
    put_number(out, done->reading.n, 4);
    fwrite(done->report, 1, done->reading.n, out);
}

/* A capture that gave no report is named, with what the mode that got farthest says of it. */
static enum status skip(const char *name, const struct outcome *refused, const struct input *capture)
{
    begin_complaint(name);
    fputs("no report, and so no packet: ", stderr);
    put_refusal(stderr, refused, capture);
    putc('\n', stderr);
    return REFUSED;
}

/* The packet of one capture, if it gives a report. */
static enum status add_packet(FILE *out, const struct arguments *asked, const char *name)
{
    static struct input capture;
    static struct outcomes outcomes;
    const struct outcome *outcome;
    enum status status = GOOD;
    int failed = open_input(&capture, name);
    name = told_name(name);
    if (failed != 0)
        return useless(name, strerror(failed));
    try_modes(&outcomes, &capture, asked->mode, asked->checked);
    outcome = foremost(&outcomes);
    if (capture.failed != 0)
        status = useless(name, strerror(capture.failed));
    else if (outcome->reading.number != LERNAZHUP_DONE)
        status = skip(name, outcome, &capture);
    else
        put_packet(out, outcome);
    if (status == GOOD && outcome->zeros)
        complain(name, "every octet of its report is 0: is the rope plugged in?");
    close_input(&capture);
    return status;
}

/* What was put where. */
static enum status tell(const struct arguments *asked, size_t packets)
{
    show_name(stdout, asked->output);
    printf(": %zu packet%s, IEEE 802.15.4 %s FCS\n", packets, packets == 1 ? "" : "s", asked->checked ? "with" : "without");
    return written_out() ? GOOD : USELESS;
}

/* A packet for each capture that gives one, and how many there are; gives how many captures could
 * be read at all. */
static size_t add_packets(FILE *out, const struct arguments *asked, size_t *packets, enum status *status)
{
    size_t could_be_read = 0, k;
    *packets = 0;
    for (k = 0; k < asked->count; k++) {
        enum status one = add_packet(out, asked, asked->names[k]);
        *status = one > *status ? one : *status;
        *packets += one == GOOD;
        could_be_read += one != USELESS;
    }
    return could_be_read;
}

/* Where no capture can be read, as where names are mistyped, an old file stays. */
static enum status put_packets(const struct arguments *asked)
{
    struct draft draft;
    enum status status = begin_draft(&draft, HEADER + asked->count * PACKET_MAX), put;
    size_t packets;
    if (status != GOOD)
        return status;
    put_header(draft.out, asked->checked);
    if (add_packets(draft.out, asked, &packets, &status) == 0) {
        drop_draft(&draft);
        return status;
    }
    put = put_draft(asked->output, &draft);
    if (put == GOOD && is_a_file(asked->output))
        put = tell(asked, packets);
    return put > status ? put : status;
}

enum status write_packets(const struct arguments *asked)
{
    size_t k;
    for (k = 0; k < asked->count; k++)
        if (is_the_input(asked->output, asked->names[k]))
            return useless(asked->output, "is one of the captures");
    return put_packets(asked);
}
