/* Delay and offset by hand in C, twice: with 128-bit integers, and without a multiplication or a division. The same limits, the same floors. */
#include "hand.h"

typedef __int128 wide;

static wide floor_div(wide a, wide b)
{
    wide q = a / b;
    return a % b < 0 ? q - 1 : q;
}

static int outside(int64_t x, int bits) { return x <= -((int64_t)1 << bits) || x >= (int64_t)1 << bits; }
static int too_far(wide x) { return x <= -((wide)1 << 47) || x >= (wide)1 << 47; }
static int is_stamp(const uint64_t *w) { return w[0] < 1ull << 48 && w[1] < 1000000000; }
static wide stamp(const uint64_t *w, uint64_t fraction) { return ((wide)w[0] * 1000000000 + w[1]) * 65536 + fraction; }

static int in_range(const uint64_t *x)
{
    return is_stamp(x + DZ_E_T1_SECONDS) && is_stamp(x + DZ_E_T2_SECONDS) && is_stamp(x + DZ_E_T3_SECONDS) && is_stamp(x + DZ_E_T4_SECONDS)
        && (x[DZ_E_T2_FRACTION] | x[DZ_E_T3_FRACTION]) < 65536 && !outside((int64_t)x[DZ_E_SYNC], 47) && !outside((int64_t)x[DZ_E_FOLLOW], 47)
        && !outside((int64_t)x[DZ_E_RESP], 47) && !outside((int64_t)x[DZ_E_ASYMMETRY], 39)
        && (x[DZ_E_MASTER_TX] | x[DZ_E_MASTER_RX] | x[DZ_E_SLAVE_TX] | x[DZ_E_SLAVE_RX]) < 1ull << 50;
}

dz_answer c_measure(const uint64_t *x, uint64_t *measured)
{
    wide t1, t2, t3, t4, latencies, delay, offset, seconds, second = (wide)1000000000 << 16, a = (int64_t)x[DZ_E_ASYMMETRY];
    if (!in_range(x)) return DZ_REFUSED_RANGE;
    t1 = stamp(x + DZ_E_T1_SECONDS, 0) + (int64_t)x[DZ_E_SYNC] + (int64_t)x[DZ_E_FOLLOW];
    t2 = stamp(x + DZ_E_T2_SECONDS, x[DZ_E_T2_FRACTION]);
    t3 = stamp(x + DZ_E_T3_SECONDS, x[DZ_E_T3_FRACTION]);
    t4 = stamp(x + DZ_E_T4_SECONDS, 0) - (int64_t)x[DZ_E_RESP];
    if (too_far(t4 - t1) || too_far(t3 - t2)) return DZ_REFUSED_RANGE;
    latencies = (x[DZ_E_MASTER_TX] + x[DZ_E_MASTER_RX] + x[DZ_E_SLAVE_TX] + x[DZ_E_SLAVE_RX]) / 1000;
    delay = floor_div((((wide)1 << 40) + a) * (t4 - t1 - (t3 - t2) - latencies), ((wide)1 << 41) + a) + (x[DZ_E_MASTER_TX] + x[DZ_E_SLAVE_RX]) / 1000;
    offset = t2 - t1 - delay;
    seconds = floor_div(offset, second);
    measured[DZ_D_DELAY] = (uint64_t)delay;
    measured[DZ_D_SECONDS] = (uint64_t)seconds;
    measured[DZ_D_REST] = (uint64_t)(offset - seconds * second);
    return DZ_OK;
}

/* The same for a processor that neither multiplies nor divides: products and quotients by shifting, comparing, adding and subtracting. */

typedef unsigned __int128 long_word;

/* k times n, a binary digit of k at a time. */
static long_word times(uint64_t k, uint64_t n)
{
    long_word sum = 0, unit = n;
    for (; k; k >>= 1, unit += unit)
        if (k & 1) sum += unit;
    return sum;
}

/* n divided by d: d is moved up to the first digit of n, and taken off on its way down. Once for a word, and once for two. */
#define DIVISION(name, word) \
    static uint64_t name(word n, uint64_t d, uint64_t *rest) \
    { \
        word unit = d; \
        uint64_t whole = 0; \
        int digits = 0; \
        for (; unit <= n >> 1; unit += unit) digits++; \
        for (; digits >= 0; digits--, unit >>= 1) { \
            whole += whole; \
            if (n >= unit) n -= unit, whole++; \
        } \
        *rest = (uint64_t)n; \
        return whole; \
    }
DIVISION(divided, uint64_t)
DIVISION(long_divided, long_word)

enum { FARTHEST = 16 };
static const int64_t scaled_second = (int64_t)1000000000 << 16;

/* How far stamp a is from stamp b, with more to add; 0 where that is outside its limit. No more than so many seconds can be made up for. */
static int is_near(const uint64_t *a, const uint64_t *b, int64_t more, int64_t *span)
{
    int64_t seconds = (int64_t)(a[0] - b[0]), whole;
    if (seconds > FARTHEST || seconds < -FARTHEST) return 0;
    whole = seconds < 0 ? -(int64_t)times((uint64_t)-seconds, (uint64_t)scaled_second) : (int64_t)times((uint64_t)seconds, (uint64_t)scaled_second);
    *span = whole + (int64_t)((a[1] - b[1]) << 16) + more;
    return !outside(*span, 47);
}

/* floor((2^40 + a) z / (2^41 + a)). */
static int64_t shared(int64_t a, int64_t z)
{
    uint64_t p = ((uint64_t)1 << 40) + (uint64_t)a, rest, whole = long_divided(times(z < 0 ? -(uint64_t)z : (uint64_t)z, p), p + ((uint64_t)1 << 40), &rest);
    return z < 0 ? -(int64_t)(whole + (rest != 0)) : (int64_t)whole;
}

dz_answer c_measure_shifting(const uint64_t *x, uint64_t *measured)
{
    int64_t outer, inner, delay, seconds, parts, before = (int64_t)x[DZ_E_SYNC] + (int64_t)x[DZ_E_FOLLOW];
    uint64_t one = x[DZ_E_MASTER_TX] + x[DZ_E_SLAVE_RX], rest;
    if (!in_range(x)) return DZ_REFUSED_RANGE;
    if (!is_near(x + DZ_E_T4_SECONDS, x + DZ_E_T1_SECONDS, -(int64_t)x[DZ_E_RESP] - before, &outer)
        || !is_near(x + DZ_E_T3_SECONDS, x + DZ_E_T2_SECONDS, (int64_t)(x[DZ_E_T3_FRACTION] - x[DZ_E_T2_FRACTION]), &inner)) return DZ_REFUSED_RANGE;
    delay = shared((int64_t)x[DZ_E_ASYMMETRY], outer - inner - (int64_t)divided(one + x[DZ_E_MASTER_RX] + x[DZ_E_SLAVE_TX], 1000, &rest)) + (int64_t)divided(one, 1000, &rest);
    seconds = (int64_t)(x[DZ_E_T2_SECONDS] - x[DZ_E_T1_SECONDS]);
    parts = (int64_t)((x[DZ_E_T2_NANOS] - x[DZ_E_T1_NANOS]) << 16) + (int64_t)x[DZ_E_T2_FRACTION] - before - delay;
    for (; parts < 0; parts += scaled_second) seconds--;
    for (; parts >= scaled_second; parts -= scaled_second) seconds++;
    measured[DZ_D_DELAY] = (uint64_t)delay;
    measured[DZ_D_SECONDS] = (uint64_t)seconds;
    measured[DZ_D_REST] = (uint64_t)parts;
    return DZ_OK;
}
