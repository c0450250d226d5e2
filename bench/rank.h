/* Candidates, ranked lists and data sets in words, by hand in C. The words of a candidate stand in rank order, so that one comes before another in
   rank order as its words do. */
#ifndef RANK_H
#define RANK_H

#include "hand.h"

static inline int grandmaster_fits(const uint64_t *g)
{
    return (g[DZ_C_PRIORITY1] | g[DZ_C_CLASS] | g[DZ_C_ACCURACY] | g[DZ_C_PRIORITY2]) < 256 && g[DZ_C_VARIANCE] < 65536;
}

/* All words of a candidate but its port's. */
static inline int candidate_fits(const uint64_t *c)
{
    return grandmaster_fits(c) && (c[DZ_C_STEPS] | c[DZ_C_SENDER_PORT] | c[DZ_C_WRFLAGS]) < 65536;
}

static inline int earlier(const uint64_t *a, const uint64_t *b)
{
    for (int i = 0; i < DZ_CANDIDATE_WORDS; i++)
        if (a[i] != b[i]) return a[i] < b[i];
    return 0;
}

/* The list of up to four candidates that lie elsewhere. */
static inline void put_list(uint64_t *list, const uint64_t *const *places, size_t n)
{
    list[DZ_LIST_COUNT] = n;
    for (size_t i = 0; i < n; i++) __builtin_memcpy(list + DZ_LIST_AT(i), places[i], DZ_CANDIDATE_WORDS * sizeof *list);
    __builtin_memset(list + DZ_LIST_AT(n), 0, (DZ_LIST_CANDIDATES - n) * DZ_CANDIDATE_WORDS * sizeof *list);
}

struct identity { uint64_t clock, port; };

/* Below 0, 0 or above 0. */
static inline int order(uint64_t a, uint64_t b) { return a < b ? -1 : a > b; }
static inline int identities(struct identity a, struct identity b) { return a.clock != b.clock ? order(a.clock, b.clock) : order(a.port, b.port); }

/* Where one set has one step more than the other, or more: the answer if A is the nearer. */
static inline uint64_t nearer(uint64_t steps_between, struct identity receiver, struct identity sender)
{
    int o;
    if (steps_between >= 2) return DZ_A_BETTER;
    o = identities(receiver, sender);
    return o < 0 ? DZ_A_BETTER : o > 0 ? DZ_A_BETTER_BY_TOPOLOGY : DZ_ERROR_1;
}

/* Two sets compared: each the first nine words of a candidate, and its receiver. */
static inline uint64_t compared(const uint64_t *a, struct identity at, const uint64_t *b, struct identity bt)
{
    struct identity from_a = {a[DZ_C_SENDER_CLOCK], a[DZ_C_SENDER_PORT]}, from_b = {b[DZ_C_SENDER_CLOCK], b[DZ_C_SENDER_PORT]};
    uint64_t x;
    int o;
    if (a[DZ_C_GRANDMASTER] != b[DZ_C_GRANDMASTER]) {
        for (int i = 0; i < DZ_C_GRANDMASTER; i++)
            if (a[i] != b[i]) return a[i] < b[i] ? DZ_A_BETTER : DZ_B_BETTER;
        return a[DZ_C_GRANDMASTER] < b[DZ_C_GRANDMASTER] ? DZ_A_BETTER : DZ_B_BETTER;
    }
    if (a[DZ_C_STEPS] < b[DZ_C_STEPS]) return nearer(b[DZ_C_STEPS] - a[DZ_C_STEPS], bt, from_b);
    if (a[DZ_C_STEPS] > b[DZ_C_STEPS]) {
        x = nearer(a[DZ_C_STEPS] - b[DZ_C_STEPS], at, from_a);
        return x == DZ_A_BETTER ? DZ_B_BETTER : x == DZ_A_BETTER_BY_TOPOLOGY ? DZ_B_BETTER_BY_TOPOLOGY : x;
    }
    o = identities(from_a, from_b);
    if (o == 0) o = order(at.port, bt.port);
    return o < 0 ? DZ_A_BETTER_BY_TOPOLOGY : o > 0 ? DZ_B_BETTER_BY_TOPOLOGY : DZ_ERROR_2;
}

#endif
