/* A block of a trace as it lies in octets, and whether one may be read, by hand in C. */
#ifndef BLOCK_H
#define BLOCK_H

#include "hand.h"
#include "octets.h"

/* Where the fields of a block stand, its check first; and those of a record, its time first. */
enum { NUMBER = 2, FIRST_TIME = 6, COUNT = 14, RECORDS = 16 };
enum { ON_PORT = 8, LENGTH = 9, HEAD = 11 };

/* The sum of a block's 16-bit words from an octet on. */
static inline uint32_t sum(const uint8_t *b, size_t from)
{
    uint32_t v = 0;
    for (size_t i = from; i < DZ_BLOCK_OCTETS; i += 2) v += be16(b + i);
    return v;
}

/* The check of a block whose other words are all in place. */
static inline uint16_t check_of(const uint8_t *b) { return (uint16_t)(65535 - sum(b, 2) % 65535); }

static inline void put_record(uint8_t *at, uint64_t port, uint64_t t, const uint8_t *s, size_t n)
{
    put64(at, t);
    at[ON_PORT] = (uint8_t)port;
    put16(at + LENGTH, (uint16_t)n);
    __builtin_memcpy(at + HEAD, s, n);
}

/* Whether so many whole records follow the head of a block, of ports that there are and at times that do not fall, and zeros follow them; the last time. */
static inline int are_records(const uint8_t *b, unsigned count, uint64_t *last)
{
    size_t at = RECORDS;
    uint8_t rest = 0;
    for (unsigned i = 0; i < count; i++) {
        uint64_t t;
        if (at > DZ_BLOCK_OCTETS - HEAD || !is_port(b[at + ON_PORT])) return 0;
        t = be64(b + at);
        if (t < *last) return 0;
        *last = t;
        at += HEAD + (size_t)be16(b + at + LENGTH);
        if (at > DZ_BLOCK_OCTETS) return 0;
    }
    while (at < DZ_BLOCK_OCTETS) rest |= b[at++];
    return rest == 0;
}

/* Whether octets are a block that may be read behind those that a reader has read; what the reader keeps then. */
static inline int is_sound(const uint8_t *b, size_t n, const uint64_t *reader, uint64_t *after)
{
    uint32_t number;
    unsigned count;
    if (n != DZ_BLOCK_OCTETS || be16(b) == 0 || sum(b, 0) % 65535 != 0) return 0;
    number = be32(b + NUMBER);
    count = be16(b + COUNT);
    if (count == 0 || be64(b + FIRST_TIME) != be64(b + RECORDS) || number < reader[DZ_READER_NEXT]) return 0;
    after[DZ_READER_LAST] = reader[DZ_READER_LAST];
    if (!are_records(b, count, after + DZ_READER_LAST)) return 0;
    after[DZ_READER_NEXT] = (uint64_t)number + 1;
    return 1;
}

/* How many of the octets that are left are a block. */
static inline size_t block_octets(size_t left) { return left < DZ_BLOCK_OCTETS ? left : DZ_BLOCK_OCTETS; }

#endif
