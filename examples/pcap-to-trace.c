/* pcap-to-trace: a capture, as tcpdump and Wireshark write it (classic pcap), into a trace of one port.

       pcap-to-trace PORT <CAPTURE >TRACE

   It answers as dz_import does of the whole file, but in a memory of fixed size, and it does not believe the lengths that a file claims: of a frame that is too
   long to be recorded no more is kept than shows that it is. A refusal is told on standard error, and the trace as far as it was written is not to be used. */
#include "stream.h"

#include <stdio.h>
#include <stdlib.h>
#include <string.h>

const char program[] = "pcap-to-trace";

/* Of a frame this many octets are enough: what can be recorded, and one more. */
enum { ENOUGH = DZ_FRAME_HEAD_OCTETS + DZ_TRACE_LONGEST + 1 };

/* A file on its way into a trace. */
struct import {
    uint64_t form[DZ_FORM_WORDS];
    uint64_t port;
    uint64_t recording[DZ_RECORDING_WORDS];
    uint8_t open[DZ_BLOCK_OCTETS];
    dz_answer refused; /* DZ_OK, or the first refusal that is given only where the whole file is a capture */
};

/* The file's head: its form, and whether the port is one. A file that ends behind its head is a capture too, so that dz_import can be asked. */
static dz_answer take_head(struct import *x)
{
    const uint8_t *head;
    uint64_t written;
    if (take_octets(&head, DZ_CAPTURE_HEAD_OCTETS) < DZ_CAPTURE_HEAD_OCTETS) return DZ_REFUSED_PCAP;
    x->refused = dz_import(x->open, 0, x->port, head, DZ_CAPTURE_HEAD_OCTETS, &written);
    return dz_capture_head(head, x->form);
}

/* Records a frame, unless an earlier one was refused. */
static void record(struct import *x, uint64_t time, const uint8_t *frame, size_t length)
{
    uint64_t closed = 0;
    if (x->refused == DZ_OK) x->refused = dz_capture_record(x->recording, x->open, x->port, time, frame, length, place_for(DZ_BLOCK_OCTETS), &closed);
    if (closed) keep_octets(DZ_BLOCK_OCTETS);
}

/* The packet of a head: its frame is recorded, and the file goes on behind it. */
static dz_answer take_packet(struct import *x, const uint8_t head[DZ_PACKET_HEAD_OCTETS])
{
    uint64_t packet[DZ_PACKET_WORDS];
    const uint8_t *frame;
    if (dz_capture_packet(x->form, head, packet) != DZ_OK) return DZ_REFUSED_PCAP;
    uint64_t stored = packet[DZ_K_STORED];
    size_t lent = stored < ENOUGH ? (size_t)stored : ENOUGH;
    if (take_octets(&frame, lent) < lent) return DZ_REFUSED_PCAP;
    record(x, packet[DZ_K_TIME], frame, lent);
    return skip_octets(stored - lent) ? DZ_OK : DZ_REFUSED_PCAP;
}

/* All packets, to the end of the file. */
static dz_answer take_packets(struct import *x)
{
    const uint8_t *head;
    size_t length;
    while ((length = take_octets(&head, DZ_PACKET_HEAD_OCTETS)) > 0)
        if (length < DZ_PACKET_HEAD_OCTETS || take_packet(x, head) != DZ_OK) return DZ_REFUSED_PCAP;
    return DZ_OK;
}

/* The whole file; its last block comes out at the end. */
static dz_answer import(struct import *x)
{
    uint64_t closed = 0;
    if (take_head(x) != DZ_OK || take_packets(x) != DZ_OK) return DZ_REFUSED_PCAP;
    if (x->refused == DZ_OK) dz_trace_finish(x->recording, x->open, place_for(DZ_BLOCK_OCTETS), &closed);
    if (closed) keep_octets(DZ_BLOCK_OCTETS);
    return x->refused;
}

int main(int count, char **arguments)
{
    static struct import x;
    if (count != 2 || *arguments[1] == '\0' || arguments[1][strspn(arguments[1], "0123456789")] != '\0') {
        fputs("usage: pcap-to-trace PORT <CAPTURE >TRACE, with a PORT from 1 to 18. Where it ends with `refused N`, the TRACE is not to be used.\n", stderr);
        return STATUS_USAGE;
    }
    x.port = strtoull(arguments[1], NULL, 10);
    return end_with(import(&x));
}
