/* Comparing, ranking and merging by hand in C. */
#include "rank.h"

static int set_fits(const uint64_t *s)
{
    return grandmaster_fits(s) && (s[DZ_C_STEPS] | s[DZ_C_SENDER_PORT] | s[DZ_S_RECEIVER_PORT]) < 65536;
}

dz_answer c_compare(const uint64_t *a, const uint64_t *b, uint64_t *answer)
{
    if (!set_fits(a) || !set_fits(b)) return DZ_REFUSED_FIELD;
    *answer = compared(a, (struct identity){a[DZ_S_RECEIVER_CLOCK], a[DZ_S_RECEIVER_PORT]}, b, (struct identity){b[DZ_S_RECEIVER_CLOCK], b[DZ_S_RECEIVER_PORT]});
    return DZ_OK;
}

/* The best of each port so far, in rank order, four at most: where they lie. */
struct ranked {
    size_t n;
    const uint64_t *places[DZ_LIST_CANDIDATES];
};

/* The candidate at its place, the port's other one or the last gone. */
static void insert(struct ranked *l, const uint64_t *c)
{
    size_t at = 0, gone;
    if (l->n == DZ_LIST_CANDIDATES && !earlier(c, l->places[DZ_LIST_CANDIDATES - 1])) return;
    while (at < l->n && !earlier(c, l->places[at])) {
        if (l->places[at][DZ_C_PORT] == c[DZ_C_PORT]) return;
        at++;
    }
    for (gone = at; gone < l->n && l->places[gone][DZ_C_PORT] != c[DZ_C_PORT];) gone++;
    if (gone == DZ_LIST_CANDIDATES) gone--;
    else if (gone == l->n) l->n++;
    for (; gone > at; gone--) l->places[gone] = l->places[gone - 1];
    l->places[at] = c;
}

dz_answer c_rank(const uint64_t *run, size_t n, uint64_t *list)
{
    struct ranked l = {0};
    int fits = 1;
    if (n > DZ_PORTS * DZ_SLOTS) return DZ_REFUSED_MANY;
    for (size_t i = 0; i < n; i++) {
        const uint64_t *c = run + i * DZ_CANDIDATE_WORDS;
        if (!is_port(c[DZ_C_PORT])) return DZ_REFUSED_PORT;
        fits &= candidate_fits(c);
        insert(&l, c);
    }
    if (!fits) return DZ_REFUSED_FIELD;
    put_list(list, l.places, l.n);
    return DZ_OK;
}

static int is_ranked(const uint64_t *l)
{
    uint32_t ports = 0;
    for (size_t i = 0; i < l[DZ_LIST_COUNT]; i++) {
        const uint64_t *c = l + DZ_LIST_AT(i);
        if (!is_port(c[DZ_C_PORT]) || ports >> c[DZ_C_PORT] & 1) return 0;
        ports |= 1u << c[DZ_C_PORT];
        if (i > 0 && !earlier(c - DZ_CANDIDATE_WORDS, c)) return 0;
    }
    return 1;
}

static int list_fits(const uint64_t *l)
{
    for (size_t i = 0; i < l[DZ_LIST_COUNT]; i++)
        if (!candidate_fits(l + DZ_LIST_AT(i))) return 0;
    return 1;
}

/* A list with words that do not fit is ranked or not by what their fields would hold of them. */
static dz_answer unfit(const uint64_t *l)
{
    uint64_t cut[DZ_LIST_WORDS];
    __builtin_memcpy(cut, l, sizeof cut);
    for (size_t i = 0; i < l[DZ_LIST_COUNT]; i++) {
        uint64_t *c = cut + DZ_LIST_AT(i);
        c[DZ_C_PRIORITY1] &= 255, c[DZ_C_CLASS] &= 255, c[DZ_C_ACCURACY] &= 255, c[DZ_C_VARIANCE] &= 65535, c[DZ_C_PRIORITY2] &= 255;
        c[DZ_C_STEPS] &= 65535, c[DZ_C_SENDER_PORT] &= 65535, c[DZ_C_WRFLAGS] &= 65535;
    }
    return is_ranked(cut) ? DZ_REFUSED_FIELD : DZ_REFUSED_UNRANKED;
}

/* UNRANKED, FIELD or OK. */
static dz_answer list_fault(const uint64_t *l)
{
    if (l[DZ_LIST_COUNT] > DZ_LIST_CANDIDATES) return DZ_REFUSED_UNRANKED;
    if (!list_fits(l)) return unfit(l);
    return is_ranked(l) ? DZ_OK : DZ_REFUSED_UNRANKED;
}

/* Two ranked lists are gone through side by side; of each port the first that comes is the best. */
dz_answer c_merge(const uint64_t *a, const uint64_t *b, uint64_t *list)
{
    const uint64_t *places[DZ_LIST_CANDIDATES];
    size_t i = 0, j = 0, n = 0;
    uint32_t ports = 0;
    dz_answer x, y;
    x = list_fault(a);
    y = list_fault(b);
    if (x == DZ_REFUSED_UNRANKED || y == DZ_REFUSED_UNRANKED) return DZ_REFUSED_UNRANKED;
    if (x || y) return DZ_REFUSED_FIELD;
    while (n < DZ_LIST_CANDIDATES && (i < a[DZ_LIST_COUNT] || j < b[DZ_LIST_COUNT])) {
        const uint64_t *c;
        if (j == b[DZ_LIST_COUNT] || (i < a[DZ_LIST_COUNT] && earlier(a + DZ_LIST_AT(i), b + DZ_LIST_AT(j)))) c = a + DZ_LIST_AT(i++);
        else c = b + DZ_LIST_AT(j++);
        if (ports >> c[DZ_C_PORT] & 1) continue;
        ports |= 1u << c[DZ_C_PORT];
        places[n++] = c;
    }
    put_list(list, places, n);
    return DZ_OK;
}
