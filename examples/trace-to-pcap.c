/* trace-to-pcap: a trace of one port into a capture that tcpdump and Wireshark read (classic pcap, nanoseconds, big-endian).

       trace-to-pcap <TRACE >CAPTURE

   It answers as dz_export does of the whole trace, but in a memory of fixed size. A refusal is told on standard error, and the capture as far as it was written
   is not to be used. */
#include "stream.h"

#include <stdio.h>

const char program[] = "trace-to-pcap";

/* A trace on its way into a capture. */
struct export {
    uint64_t exporter[DZ_EXPORTER_WORDS];
    dz_answer refused; /* DZ_OK, or 22, which is given only where all of the trace is sound */
    uint64_t reader[DZ_READER_WORDS], ports[DZ_PORTS_WORDS]; /* what judges the rest of it then, on a clock that nobody asks */
};

static void write_head(void)
{
    dz_capture_begin(place_for(DZ_CAPTURE_HEAD_OCTETS));
    keep_octets(DZ_CAPTURE_HEAD_OCTETS);
}

/* Writes the packets of a block. */
static dz_answer write_block(struct export *x, const uint8_t *block, size_t length)
{
    uint64_t written;
    dz_answer answer = dz_capture_block(x->exporter, block, length, place_for(DZ_PACKETS_OCTETS), &written);
    if (answer == DZ_OK) keep_octets((size_t)written);
    return answer;
}

/* A block of the trace, in its turn; false where it is none. From one on that no capture can hold they are only judged, as a replay judges them: that one is sound
   behind those before it, so that a fresh reader can begin with it. */
static bool take_block(struct export *x, const uint8_t *block, size_t length)
{
    if (x->refused == DZ_OK) {
        dz_answer answer = write_block(x, block, length);
        if (answer != DZ_REFUSED_EXPORT) return answer == DZ_OK;
        x->refused = answer;
    }
    return dz_replay_block(x->ports, x->reader, block, length, 0, 0, DZ_EXAMPLE_MAGIC) == DZ_OK;
}

/* The whole trace; a block that is cut off is one of fewer octets. */
static dz_answer export(struct export *x)
{
    const uint8_t *block;
    size_t length;
    write_head();
    while ((length = take_octets(&block, DZ_BLOCK_OCTETS)) > 0)
        if (!take_block(x, block, length)) return DZ_REFUSED_BLOCK;
    return x->refused;
}

int main(int count, char **arguments)
{
    static struct export x;
    (void)arguments;
    if (count != 1) {
        fputs("usage: trace-to-pcap <TRACE >CAPTURE. Where it ends with `refused N`, the CAPTURE is not to be used.\n", stderr);
        return STATUS_USAGE;
    }
    return end_with(export(&x));
}
