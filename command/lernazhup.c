/* The command `lernazhup`: what came in, in words, pictures and packets, and captures of reports.
 * It has no radio of its own: each reading that it shows, and each chip that it writes, is the
 * library's. */
#define _POSIX_C_SOURCE 200809L
#include <signal.h>
#include <stdio.h>

#include "arguments.h"
#include "lernazhup.h"
#include "standard.h"
#include "verbs.h"

static const char help[] =
    "usage: lernazhup read [-m MODE] [-c] [--json] [FILE..]\n"
    "       lernazhup write -m MODE [-c] [-o CAPTURE] [REPORT]\n"
    "       lernazhup look [-m MODE] [-o PICTURE.svg] [FILE]\n"
    "       lernazhup pcap [-m MODE] [-c] -o OUT.pcap FILE..\n"
    "       lernazhup --help, lernazhup --version\n"
    "\n"
    "read   tells what raw captures, a byte a chip, 0 or 1, hold: the report and how\n"
    "       good the link was, or why nothing was read\n"
    "write  makes a raw capture of a report, which is the octets of a file\n"
    "look   draws a raw capture, symbol by symbol, as a picture for a browser\n"
    "pcap   writes the reports of raw captures as packets for Wireshark\n"
    "\n"
    "  -m MODE     0: 868/915 BPSK, 1: 2450 O-QPSK, 2: 868/915 O-QPSK;\n"
    "              where none is named, each is tried (write wants one)\n"
    "  -c          the checked profile: a report ends with its FCS, which write\n"
    "              appends and without which read and pcap refuse it\n"
    "  --json      one object of JSON a line for each file\n"
    "  -o FILE     the file that is made or replaced; - is standard output\n"
    "  --          no options behind it\n"
    "\n"
    "Without a FILE or REPORT, or with -, standard input is read; pcap wants a FILE.\n"
    "Status: 0 every file read, 1 some refused, 2 wrong use or a file that can't be\n"
    "read or written.\n";

int main(int count, char **words)
{
    struct arguments asked = parse_arguments(count, words);
    /* a file that may not grow is one that can't be written, and no reason to leave half of it */
    signal(SIGXFSZ, SIG_IGN);
    if (asked.wrong != NULL) {
        complain(asked.word, asked.wrong);
        fputs("lernazhup --help tells more\n", stderr);
        return USELESS;
    }
    switch (asked.verb) {
    case READ: return read_captures(&asked);
    case WRITE: return write_capture(&asked);
    case LOOK: return look_at_capture(&asked);
    case PCAP: return write_packets(&asked);
    case VERSION: printf("lernazhup %s\n", lernazhup_version()); break;
    case HELP: fputs(help, stdout); break;
    }
    return written_out() ? GOOD : USELESS;
}
