/* What reading, taking and writing share: the sizes of messages, and the checks of a message and of its tail, in the order of 01, every access
   inside the octets lent. */
#ifndef MESSAGE_H
#define MESSAGE_H

#include "hand.h"
#include "octets.h"

enum { ANN_SUFIX = 0x2000, SUFFIX_FLAGS = 15 };

/* The fixed size of a type, 0 where it is none. */
static inline unsigned fixed_size(uint64_t type)
{
    switch (type) {
    case DZ_SYNC: case DZ_DELAY_REQ: case DZ_FOLLOW_UP: case DZ_SIGNALING: return 44;
    case DZ_DELAY_RESP: return 54;
    case DZ_ANNOUNCE: return 64;
    default: return 0;
    }
}

/* How many data octets a White Rabbit message has, -1 where it is not known. */
static inline int data_size(unsigned number)
{
    switch (number) {
    case DZ_LINK_SLAVE_PRESENT: case DZ_LINK_LOCK: case DZ_LINK_LOCKED: case DZ_LINK_WR_MODE_ON: return 0;
    case DZ_LINK_CALIBRATE: return 6;
    case DZ_LINK_CALIBRATED: return 16;
    case ANN_SUFIX: return 2;
    default: return -1;
    }
}

/* TLV where no whole TLV of even length begins the octets, WRBAD where its size is wrong, or OK. */
static inline dz_answer tlv_fault(const uint8_t *t, size_t n, uint16_t magic)
{
    uint64_t form = (0x080030ull << 16 | magic) << 8 | 1;
    size_t length;
    int size;
    if (n < 4) return DZ_REFUSED_TLV;
    length = be16(t + 2);
    if (length % 2 || length > n - 4) return DZ_REFUSED_TLV;
    if (be16(t) != 3 || length < 8 || be64(t + 4) >> 16 != form) return DZ_OK;
    size = data_size(be16(t + 10));
    return size >= 0 && length != (size_t)size + 8 ? DZ_REFUSED_WRBAD : DZ_OK;
}

/* TLV or WRBAD with its place in the message, in which the tail begins at `from`, or OK; wrFlags of the first suffix. */
static inline dz_answer tail_fault(const uint8_t *t, size_t n, size_t from, uint16_t magic, uint64_t *flags)
{
    uint64_t form = (0x080030ull << 16 | magic) << 8 | 1;
    int found = 0;
    size_t misfit = n, at = 0;
    *flags = 0;
    while (at < n) {
        size_t length;
        if (n - at < 4) return DZ_REFUSED_TLV | (from + at) << 8;
        length = be16(t + at + 2);
        if (length % 2 || length > n - at - 4) return DZ_REFUSED_TLV | (from + at) << 8;
        if (be16(t + at) == 3 && length >= 8) {
            uint64_t head = be64(t + at + 4);
            if (head >> 16 == form) {
                int size = data_size(head & 0xffff);
                if (size >= 0 && length != (size_t)size + 8) misfit = misfit < n ? misfit : at;
                else if ((head & 0xffff) == ANN_SUFIX && !found) found = 1, *flags = be16(t + at + 12) & SUFFIX_FLAGS;
            }
        }
        at += 4 + length;
    }
    return misfit < n ? DZ_REFUSED_WRBAD | (from + misfit) << 8 : DZ_OK;
}

/* What refuses a message before its tail is looked at; where the tail begins, and how many octets it has. */
static inline dz_answer head_fault(const uint8_t *s, size_t n, size_t *at, size_t *tail)
{
    size_t size, length;
    if (n < 34) return DZ_REFUSED_SHORT;
    if (s[1] % 16 != 2) return DZ_REFUSED_VERSION;
    size = fixed_size(s[0] % 16);
    if (size == 0) return DZ_REFUSED_TYPE;
    length = be16(s + 2);
    if (length < size) return DZ_REFUSED_LENGTH;
    if (n < length) return DZ_REFUSED_SHORT;
    if (s[0] % 16 != DZ_SIGNALING && be32(s + 40) >= 1000000000) return DZ_REFUSED_STAMP;
    *at = size;
    *tail = length - size;
    return DZ_OK;
}

/* What refuses a message; the same, and wrFlags of its suffix. */
static inline dz_answer message_fault(const uint8_t *s, size_t n, uint16_t magic, size_t *at, size_t *tail, uint64_t *flags)
{
    dz_answer fault = head_fault(s, n, at, tail);
    return fault ? fault : tail_fault(s + *at, *tail, *at, magic, flags);
}

#endif
