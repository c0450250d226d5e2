/* An Announce taken, and the best of a port, by hand in C. */
#include "message.h"
#include "port.h"

static struct record *record_of(struct port *p, uint64_t clock, uint16_t number)
{
    for (struct record *r = p->slots; r < p->slots + DZ_SLOTS; r++)
        if (r->clock == clock && r->port == number && r->receipts) return r;
    return NULL;
}

static struct record *free_slot(struct port *p, uint64_t w, uint64_t t)
{
    for (struct record *r = p->slots; r < p->slots + DZ_SLOTS; r++)
        if (!r->receipts || age(t, r->newest) > w) return r;
    return NULL;
}

static inline dz_answer take(uint64_t *ports, uint64_t port, uint64_t t, const uint8_t *s, size_t n, uint8_t domain, uint64_t clock, uint16_t magic)
{
    size_t at, size;
    uint64_t flags, sender, w;
    uint16_t number, sequence;
    struct port *p;
    struct record *r;
    dz_answer fault;
    if (!is_port(port)) return DZ_REFUSED_PORT;
    fault = message_fault(s, n, magic, &at, &size, &flags);
    if (fault) return fault;
    if (s[0] % 16 != DZ_ANNOUNCE) return DZ_REFUSED_TYPE;
    if (s[4] != domain) return DZ_REFUSED_DOMAIN;
    sender = be64(s + 20);
    if (sender == clock) return DZ_REFUSED_OWN;
    p = (struct port *)ports + port - 1;
    if (t < p->last) return DZ_REFUSED_BACKWARD;
    w = window(p);
    number = be16(s + 28);
    sequence = be16(s + 30);
    r = record_of(p, sender, number);
    if (r && age(t, r->newest) <= w) {
        if ((uint16_t)(sequence - r->sequence - 1) >= 32767) return DZ_REFUSED_STALE;
        r->older = r->newest;
        r->receipts = 2;
    } else {
        if (!r) r = free_slot(p, w, t);
        if (!r) return DZ_REFUSED_FULL;
        r->clock = sender;
        r->port = number;
        r->older = 0;
        r->receipts = 1;
    }
    r->sequence = sequence;
    r->flags = (uint16_t)flags;
    r->grandmaster = be64(s + 53);
    r->quality = be64(s + 47) >> 16 << 16 | be16(s + 61);
    r->newest = p->last = t;
    return DZ_OK;
}

dz_answer c_take(uint64_t *ports, uint64_t port, uint64_t t, const uint8_t *s, size_t n, uint8_t domain, uint64_t clock, uint16_t magic)
{
    return take(ports, port, t, s, n, domain, clock, magic);
}

dz_answer c_take_burst(uint64_t *ports, const uint8_t *s, size_t n, uint64_t (*burst)[DZ_BURST_WORDS], size_t messages, uint8_t domain, uint64_t clock, uint16_t magic)
{
    if (messages > DZ_BURST_MOST) return DZ_REFUSED_MANY;
    for (uint64_t(*m)[DZ_BURST_WORDS] = burst; m < burst + messages; m++) {
        size_t at = (*m)[DZ_BURST_AT] < n ? (*m)[DZ_BURST_AT] : n;
        size_t length = (*m)[DZ_BURST_LENGTH] < n - at ? (*m)[DZ_BURST_LENGTH] : n - at;
        (*m)[DZ_BURST_ANSWER] = take(ports, (*m)[DZ_BURST_PORT], (*m)[DZ_BURST_TIME], s + at, length, domain, clock, magic);
    }
    return DZ_OK;
}

/* A candidate that was looked for, or that there is none. */
static inline dz_answer put_found(uint64_t *found, const struct record *r, uint64_t port)
{
    if (r) {
        found[DZ_FOUND] = 1;
        put_candidate(found + DZ_FOUND_CANDIDATE, r, port);
    } else {
        for (int i = 0; i < DZ_FOUND_WORDS; i++) found[i] = 0;
    }
    return DZ_OK;
}

dz_answer c_candidate(const uint64_t *ports, uint64_t port, size_t slot, uint64_t t, uint64_t *found)
{
    const struct port *p;
    if (!is_port(port)) return DZ_REFUSED_PORT;
    p = (const struct port *)ports + port - 1;
    if (t < p->last) return DZ_REFUSED_BACKWARD;
    return put_found(found, slot < DZ_SLOTS && is_qualified(p->slots + slot, window(p), t) ? p->slots + slot : NULL, port);
}

dz_answer c_best(const uint64_t *ports, uint64_t port, uint64_t t, uint64_t *found)
{
    const struct port *p;
    if (!is_port(port)) return DZ_REFUSED_PORT;
    p = (const struct port *)ports + port - 1;
    if (t < p->last) return DZ_REFUSED_BACKWARD;
    return put_found(found, best_of(p, t), port);
}
