/* The copying and clearing that compilers ask the C library for, done as that does it, so that it is counted for both sides alike: sixteen
   octets at a time, the last ones over again where they are fewer; what is short in two moves that overlap. */
#include <stddef.h>
#include <stdint.h>

typedef long long sixteen __attribute__((vector_size(16), aligned(1), may_alias));
typedef uint64_t eight __attribute__((aligned(1), may_alias));
typedef uint32_t four __attribute__((aligned(1), may_alias));

/* The first and the last octets of what is short, which overlap. */
static inline void copy_eights(char *d, const char *s, size_t n)
{
    eight first = *(const eight *)s, last = *(const eight *)(s + n - 8);
    *(eight *)d = first;
    *(eight *)(d + n - 8) = last;
}

static inline void copy_fours(char *d, const char *s, size_t n)
{
    four first = *(const four *)s, last = *(const four *)(s + n - 4);
    *(four *)d = first;
    *(four *)(d + n - 4) = last;
}

void *memcpy(void *to, const void *from, size_t n)
{
    char *d = to;
    const char *s = from;
    if (n >= 16) {
        sixteen last = *(const sixteen *)(s + n - 16);
        for (size_t i = 0; i + 16 < n; i += 16) *(sixteen *)(d + i) = *(const sixteen *)(s + i);
        *(sixteen *)(d + n - 16) = last;
    } else if (n >= 8) {
        copy_eights(d, s, n);
    } else if (n >= 4) {
        copy_fours(d, s, n);
    } else {
        for (size_t i = 0; i < n; i++) d[i] = s[i];
    }
    return to;
}

void *memset(void *to, int value, size_t n)
{
    char *d = to;
    if (n >= 16) {
        eight octets = (uint8_t)value * 0x0101010101010101u;
        sixteen v = {(long long)octets, (long long)octets};
        for (size_t i = 0; i + 16 < n; i += 16) *(sixteen *)(d + i) = v;
        *(sixteen *)(d + n - 16) = v;
    } else {
        for (size_t i = 0; i < n; i++) d[i] = (char)value;
    }
    return to;
}
