/* A message written by hand in C: the same checks in the same order, every store inside the buffer lent. */
#include "message.h"

static inline int is_signed(uint64_t w, int bits) { return w + (1ull << (bits - 1)) < 1ull << bits; }

static int header_fits(const uint64_t *m)
{
    return m[DZ_M_TRANSPORT] < 16 && m[DZ_M_DOMAIN] < 256 && m[DZ_M_FLAGS] < 65536 && m[DZ_M_PORT] < 65536 && m[DZ_M_SEQUENCE] < 65536
        && is_signed(m[DZ_M_INTERVAL], 8);
}

static int announce_fits(const uint64_t *m)
{
    return is_signed(m[DZ_M_UTC], 16) && (m[DZ_M_PRIORITY1] | m[DZ_M_CLASS] | m[DZ_M_ACCURACY] | m[DZ_M_PRIORITY2] | m[DZ_M_SOURCE]) < 256
        && (m[DZ_M_VARIANCE] | m[DZ_M_STEPS]) < 65536;
}

static int body_fits(const uint64_t *m)
{
    if (m[DZ_M_TYPE] == DZ_SIGNALING) return m[DZ_M_TARGET_PORT] < 65536;
    if (m[DZ_M_SECONDS] >> 48 || m[DZ_M_NANOS] >= 1000000000) return 0;
    if (m[DZ_M_TYPE] == DZ_DELAY_RESP) return m[DZ_M_REQUESTER_PORT] < 65536;
    return m[DZ_M_TYPE] != DZ_ANNOUNCE || announce_fits(m);
}

static uint8_t control_of(uint64_t type)
{
    switch (type) {
    case DZ_SYNC: return 0;
    case DZ_DELAY_REQ: return 1;
    case DZ_FOLLOW_UP: return 2;
    case DZ_DELAY_RESP: return 3;
    default: return 5;
    }
}

static void put_header(uint8_t *out, const uint64_t *m, size_t length)
{
    out[0] = (uint8_t)(m[DZ_M_TRANSPORT] << 4 | m[DZ_M_TYPE]);
    out[1] = 2;
    put16(out + 2, (uint16_t)length);
    out[4] = (uint8_t)m[DZ_M_DOMAIN];
    out[5] = 0;
    put16(out + 6, (uint16_t)m[DZ_M_FLAGS]);
    put64(out + 8, m[DZ_M_CORRECTION]);
    put32(out + 16, 0);
    put64(out + 20, m[DZ_M_CLOCK]);
    put16(out + 28, (uint16_t)m[DZ_M_PORT]);
    put16(out + 30, (uint16_t)m[DZ_M_SEQUENCE]);
    out[32] = control_of(m[DZ_M_TYPE]);
    out[33] = (uint8_t)m[DZ_M_INTERVAL];
}

static void put_announce(uint8_t *out, const uint64_t *m)
{
    put16(out + 44, (uint16_t)m[DZ_M_UTC]);
    out[46] = 0;
    out[47] = (uint8_t)m[DZ_M_PRIORITY1];
    out[48] = (uint8_t)m[DZ_M_CLASS];
    out[49] = (uint8_t)m[DZ_M_ACCURACY];
    put16(out + 50, (uint16_t)m[DZ_M_VARIANCE]);
    out[52] = (uint8_t)m[DZ_M_PRIORITY2];
    put64(out + 53, m[DZ_M_GRANDMASTER]);
    put16(out + 61, (uint16_t)m[DZ_M_STEPS]);
    out[63] = (uint8_t)m[DZ_M_SOURCE];
}

static void put_body(uint8_t *out, const uint64_t *m)
{
    if (m[DZ_M_TYPE] == DZ_SIGNALING) {
        put64(out + 34, m[DZ_M_TARGET_CLOCK]);
        put16(out + 42, (uint16_t)m[DZ_M_TARGET_PORT]);
        return;
    }
    put48(out + 34, m[DZ_M_SECONDS]);
    put32(out + 40, (uint32_t)m[DZ_M_NANOS]);
    if (m[DZ_M_TYPE] == DZ_DELAY_RESP) {
        put64(out + 44, m[DZ_M_REQUESTER_CLOCK]);
        put16(out + 52, (uint16_t)m[DZ_M_REQUESTER_PORT]);
    }
    if (m[DZ_M_TYPE] == DZ_ANNOUNCE) put_announce(out, m);
}

dz_answer c_write(uint8_t *out, size_t room, const uint64_t *m, const uint8_t *tail, size_t n, uint16_t magic, uint64_t *written)
{
    size_t size = fixed_size(m[DZ_M_TYPE]);
    uint64_t flags;
    if (size == 0 || !header_fits(m) || !body_fits(m)) return DZ_REFUSED_FIELD;
    if (n > 65535 - size || tail_fault(tail, n, size, magic, &flags)) return DZ_REFUSED_FIELD;
    if (room < size + n) return DZ_REFUSED_ROOM;
    put_header(out, m, size + n);
    put_body(out, m);
    __builtin_memcpy(out + size, tail, n);
    *written = size + n;
    return DZ_OK;
}
