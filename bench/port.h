/* A port as it lies in the words that are lent, and its best, by hand in C. */
#ifndef PORT_H
#define PORT_H

#include "hand.h"

/* A slot's six words; its quality from the highest key down, then stepsRemoved. A slot without receipts never held a record. */
struct __attribute__((may_alias)) record {
    uint64_t clock;
    uint16_t port, sequence, flags, receipts;
    uint64_t newest, older, grandmaster, quality;
};

struct __attribute__((may_alias)) port {
    uint64_t last, interval;
    struct record slots[DZ_SLOTS];
};

_Static_assert(sizeof(struct port) * DZ_PORTS == DZ_PORTS_WORDS * sizeof(uint64_t), "eighteen ports fill the words");

/* Four intervals; the interval's exponent is kept modulo 8. */
static inline uint64_t window(const struct port *p) { return (uint64_t)500000000 << (p->interval + 3) % 8; }

/* How long ago something was; 0 for what is yet to come. */
static inline uint64_t age(uint64_t t, uint64_t then) { return t > then ? t - then : 0; }

/* Heard twice within the window, and not distant by what was said last. */
static inline int is_qualified(const struct record *r, uint64_t w, uint64_t t)
{
    return r->receipts > 1 && age(t, r->older) <= w && (r->quality & 65535) < DZ_STEPS_DISTANT;
}

static inline int is_before(const struct record *a, const struct record *b)
{
    if (a->quality >> 16 != b->quality >> 16) return a->quality < b->quality;
    if (a->grandmaster != b->grandmaster) return a->grandmaster < b->grandmaster;
    if (a->quality != b->quality) return a->quality < b->quality;
    if (a->clock != b->clock) return a->clock < b->clock;
    if (a->port != b->port) return a->port < b->port;
    return a->flags < b->flags;
}

/* The best of a port's candidates, NULL where there is none. */
static inline const struct record *best_of(const struct port *p, uint64_t t)
{
    const struct record *best = NULL;
    uint64_t w = window(p);
    for (const struct record *r = p->slots; r < p->slots + DZ_SLOTS; r++)
        if (is_qualified(r, w, t) && (!best || is_before(r, best))) best = r;
    return best;
}

static inline void put_candidate(uint64_t *c, const struct record *r, uint64_t port)
{
    uint64_t q = r->quality;
    c[DZ_C_PRIORITY1] = q >> 56;
    c[DZ_C_CLASS] = q >> 48 & 255;
    c[DZ_C_ACCURACY] = q >> 40 & 255;
    c[DZ_C_VARIANCE] = q >> 24 & 65535;
    c[DZ_C_PRIORITY2] = q >> 16 & 255;
    c[DZ_C_GRANDMASTER] = r->grandmaster;
    c[DZ_C_STEPS] = q & 65535;
    c[DZ_C_SENDER_CLOCK] = r->clock;
    c[DZ_C_SENDER_PORT] = r->port;
    c[DZ_C_PORT] = port;
    c[DZ_C_WRFLAGS] = r->flags;
}

#endif
