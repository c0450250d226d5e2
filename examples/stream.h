/* What pcap-to-trace and trace-to-pcap share: standard input and standard output in pieces, in a memory that stays as it is however long they are and whatever
   lengths they claim, and how the programs end. */
#ifndef STREAM_H
#define STREAM_H

#include "dzervolat.h"

#include <stdbool.h>

/* How a program ends that does not end well: with a refusal, called in another way than its usage says, with an error of reading or writing. */
enum { STATUS_REFUSED = 1, STATUS_USAGE = 2, STATUS_BROKEN = 3 };

/* The program's own name, for its messages. */
extern const char program[];

/* How many octets may be asked for at once, of either side: what its buffer holds. */
enum { MOST_AT_ONCE = 1 << 16 };

/* Takes the next octets of standard input: how many there are, fewer than `most` where it ends before. They stand until more are taken. */
size_t take_octets(const uint8_t **octets, size_t most);

/* Passes over so many octets of standard input; false where it ends before. */
bool skip_octets(uint64_t count);

/* A place for octets of standard output; those that are kept of it are written in their turn. */
uint8_t *place_for(size_t most);
void keep_octets(size_t count);

/* The program's end, with its status: what was kept is written, or the refusal is told on standard error. */
int end_with(dz_answer answer);

#endif
