/* Every port's decision by hand in C. */
#include "port.h"
#include "rank.h"

/* Each port's best in words, and the four best of them. */
struct heard {
    uint64_t best[DZ_PORTS][DZ_CANDIDATE_WORDS];
    uint8_t is_there[DZ_PORTS];
    size_t n;
    const uint64_t *places[DZ_LIST_CANDIDATES];
};

/* The best of a port joins the list at its place. */
static void insert(struct heard *h, const uint64_t *c)
{
    size_t at;
    if (h->n == DZ_LIST_CANDIDATES && !earlier(c, h->places[DZ_LIST_CANDIDATES - 1])) return;
    if (h->n < DZ_LIST_CANDIDATES) h->n++;
    for (at = h->n - 1; at > 0 && earlier(c, h->places[at - 1]); at--) h->places[at] = h->places[at - 1];
    h->places[at] = c;
}

static void listen(struct heard *h, const struct port *ports, uint64_t now)
{
    h->n = 0;
    for (uint64_t p = 1; p <= DZ_PORTS; p++) {
        const struct record *r = best_of(ports + p - 1, now);
        h->is_there[p - 1] = r != NULL;
        if (!r) continue;
        put_candidate(h->best[p - 1], r, p);
        insert(h, h->best[p - 1]);
    }
}

/* Our own set: steps 0, our clock with port 0 as sender and receiver. */
struct own_set {
    uint64_t words[DZ_C_SENDER_PORT + 1];
    struct identity receiver;
};

static int own_beats(const struct own_set *own, const uint64_t *c, uint64_t port)
{
    uint64_t x = compared(own->words, own->receiver, c, (struct identity){own->receiver.clock, port});
    return x == DZ_A_BETTER || x == DZ_A_BETTER_BY_TOPOLOGY;
}

static int is_listed(const struct heard *h, uint64_t port)
{
    for (size_t i = 0; i < h->n; i++)
        if (h->places[i][DZ_C_PORT] == port) return 1;
    return 0;
}

/* Where Ebest is not beaten by our own set. */
static uint8_t by_ebest(const struct heard *h, uint64_t clock, uint64_t port)
{
    const uint64_t *e = h->places[0];
    if (e[DZ_C_PORT] == port) return DZ_S1;
    if (!h->is_there[port - 1]) return DZ_M3;
    if (compared(e, (struct identity){clock, e[DZ_C_PORT]}, h->best[port - 1], (struct identity){clock, port}) != DZ_A_BETTER_BY_TOPOLOGY) return DZ_M3;
    return is_listed(h, port) ? DZ_S2 : DZ_P2;
}

dz_answer c_decide_all(const uint64_t *ports, uint64_t now, const uint64_t *own, uint8_t *decisions, uint64_t *list)
{
    const struct port *p = (const struct port *)ports;
    uint64_t clock = own[DZ_C_GRANDMASTER];
    struct heard h;
    struct own_set set = {{own[DZ_C_PRIORITY1], own[DZ_C_CLASS], own[DZ_C_ACCURACY], own[DZ_C_VARIANCE], own[DZ_C_PRIORITY2], clock, 0, clock, 0}, {clock, 0}};
    int is_grandmaster = own[DZ_C_CLASS] >= 1 && own[DZ_C_CLASS] <= 127, leads;
    for (int i = 0; i < DZ_PORTS; i++)
        if (now < p[i].last) return DZ_REFUSED_BACKWARD;
    if (!grandmaster_fits(own)) return DZ_REFUSED_FIELD;
    listen(&h, p, now);
    leads = h.n == 0 || own_beats(&set, h.places[0], h.places[0][DZ_C_PORT]);
    for (uint64_t port = 1; port <= DZ_PORTS; port++) {
        if (is_grandmaster) decisions[port - 1] = !h.is_there[port - 1] || own_beats(&set, h.best[port - 1], port) ? DZ_M1 : DZ_P1;
        else decisions[port - 1] = leads ? DZ_M2 : by_ebest(&h, clock, port);
    }
    put_list(list, h.places, h.n);
    return DZ_OK;
}
