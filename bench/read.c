/* A message read, a TLV looked up, and one TLV after another gone through, by hand in C. */
#include "message.h"

static void put_announce(uint64_t *m, const uint8_t *s)
{
    m[DZ_M_UTC] = (uint64_t)(int16_t)be16(s + 44);
    m[DZ_M_PRIORITY1] = s[47];
    m[DZ_M_CLASS] = s[48];
    m[DZ_M_ACCURACY] = s[49];
    m[DZ_M_VARIANCE] = be16(s + 50);
    m[DZ_M_PRIORITY2] = s[52];
    m[DZ_M_GRANDMASTER] = be64(s + 53);
    m[DZ_M_STEPS] = be16(s + 61);
    m[DZ_M_SOURCE] = s[63];
}

/* The words from the first of the body on; those that the type has no field for are 0. */
static void put_body(uint64_t *m, const uint8_t *s)
{
    if (m[DZ_M_TYPE] == DZ_SIGNALING) {
        m[DZ_M_TARGET_CLOCK] = be64(s + 34);
        m[DZ_M_TARGET_PORT] = be16(s + 42);
    } else {
        m[DZ_M_SECONDS] = be48(s + 34);
        m[DZ_M_NANOS] = be32(s + 40);
    }
    if (m[DZ_M_TYPE] == DZ_ANNOUNCE) {
        put_announce(m, s);
        return;
    }
    for (int i = DZ_M_REQUESTER_CLOCK; i < DZ_MESSAGE_WORDS; i++) m[i] = 0;
    if (m[DZ_M_TYPE] == DZ_DELAY_RESP) {
        m[DZ_M_REQUESTER_CLOCK] = be64(s + 44);
        m[DZ_M_REQUESTER_PORT] = be16(s + 52);
    }
}

dz_answer c_read(const uint8_t *s, size_t n, uint16_t magic, uint64_t *m, uint64_t *tail)
{
    size_t at, size;
    uint64_t flags;
    dz_answer fault = message_fault(s, n, magic, &at, &size, &flags);
    if (fault) return fault;
    m[DZ_M_TYPE] = s[0] % 16;
    m[DZ_M_TRANSPORT] = s[0] / 16;
    m[DZ_M_DOMAIN] = s[4];
    m[DZ_M_FLAGS] = be16(s + 6);
    m[DZ_M_CORRECTION] = be64(s + 8);
    m[DZ_M_CLOCK] = be64(s + 20);
    m[DZ_M_PORT] = be16(s + 28);
    m[DZ_M_SEQUENCE] = be16(s + 30);
    m[DZ_M_INTERVAL] = (uint64_t)(int8_t)s[33];
    put_body(m, s);
    tail[DZ_TAIL_AT] = at;
    tail[DZ_TAIL_LENGTH] = size;
    return DZ_OK;
}

dz_answer c_lookup(const uint8_t *s, size_t n, uint16_t type, uint16_t magic, uint64_t *found)
{
    size_t at, size, end;
    uint64_t flags;
    dz_answer fault = message_fault(s, n, magic, &at, &size, &flags);
    if (fault) return fault;
    for (end = at + size; at < end && be16(s + at) != type;) at += 4 + (size_t)be16(s + at + 2);
    found[DZ_FOUND] = at < end;
    found[DZ_FOUND_DATA_AT] = at < end ? at + 4 : 0;
    found[DZ_FOUND_DATA_LENGTH] = at < end ? be16(s + at + 2) : 0;
    return DZ_OK;
}

/* The words of the TLV at an octet of the message. */
static void put_tlv(uint64_t *found, const uint8_t *s, size_t at)
{
    size_t length = be16(s + at + 2);
    found[DZ_FOUND] = 1;
    found[DZ_TLV_AT] = at;
    found[DZ_TLV_TYPE] = be16(s + at);
    found[DZ_TLV_LENGTH] = length;
    found[DZ_TLV_DATA_AT] = at + 4;
    found[DZ_TLV_END] = at + 4 + length;
}

dz_answer c_walk(const uint8_t *s, size_t n, size_t from, uint16_t magic, uint64_t *found)
{
    size_t at, size, end;
    uint64_t flags;
    dz_answer fault = from ? head_fault(s, n, &at, &size) : message_fault(s, n, magic, &at, &size, &flags);
    if (fault) return fault;
    end = at + size;
    if (from > at) at = from;
    if (at >= end) {
        for (int i = 0; i < DZ_FOUND_TLV_WORDS; i++) found[i] = 0;
        return DZ_OK;
    }
    if (from && (fault = tlv_fault(s + at, end - at, magic))) return fault | at << 8;
    put_tlv(found, s, at);
    return DZ_OK;
}
