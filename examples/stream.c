/* Standard input and standard output in pieces: see stream.h. */
#define _POSIX_C_SOURCE 200809L
#include "stream.h"

#include <errno.h>
#include <inttypes.h>
#include <stdio.h>
#include <stdlib.h>
#include <string.h>
#include <unistd.h>

/* What was read and not yet taken, from `first` up to `last`; and what was kept and not yet written. */
static uint8_t in[MOST_AT_ONCE], out[MOST_AT_ONCE];
static size_t first, last, kept;

static void fail(const char *what)
{
    fprintf(stderr, "%s: %s: %s\n", program, what, strerror(errno));
    exit(STATUS_BROKEN);
}

/* Reads what there is, behind what waits; false at the end of the input. */
static bool read_more(void)
{
    ssize_t count;
    memmove(in, in + first, last - first);
    last -= first;
    first = 0;
    do count = read(STDIN_FILENO, in + last, sizeof in - last);
    while (count < 0 && errno == EINTR);
    if (count < 0) fail("standard input");
    last += (size_t)count;
    return count > 0;
}

size_t take_octets(const uint8_t **octets, size_t most)
{
    while (last - first < most && read_more()) {}
    size_t count = last - first < most ? last - first : most;
    *octets = in + first;
    first += count;
    return count;
}

bool skip_octets(uint64_t count)
{
    while (count > last - first) {
        count -= last - first;
        first = last;
        if (!read_more()) return false;
    }
    first += (size_t)count;
    return true;
}

static void write_kept(void)
{
    for (size_t done = 0; done < kept;) {
        ssize_t count = write(STDOUT_FILENO, out + done, kept - done);
        if (count < 0 && errno != EINTR) fail("standard output");
        if (count > 0) done += (size_t)count;
    }
    kept = 0;
}

uint8_t *place_for(size_t most)
{
    if (sizeof out - kept < most) write_kept();
    return out + kept;
}

void keep_octets(size_t count)
{
    kept += count;
}

int end_with(dz_answer answer)
{
    if (answer != DZ_OK) {
        fprintf(stderr, "refused %" PRIu64 " %s\n", dz_number(answer), dz_refusal_text(answer));
        return STATUS_REFUSED;
    }
    write_kept();
    return EXIT_SUCCESS;
}
