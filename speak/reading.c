/* Messages read. */
#include "speak.h"

/* read OCTETS */
bool call_read(struct clock *clock, struct line *line)
{
    static struct octets octets;
    uint64_t message[DZ_MESSAGE_WORDS], tail[DZ_TAIL_WORDS];
    take_octets(line, &octets);
    if (!line_is_whole(line)) return false;
    if (accepted(dz_read(octets.octet, octets.length, clock->magic, message, tail))) {
        say("ok");
        show_number(message[DZ_M_TYPE]);
        show_fields(header_fields, message);
        show_fields(body_fields(message[DZ_M_TYPE]), message);
        show_octets(octets.octet + tail[DZ_TAIL_AT], tail[DZ_TAIL_LENGTH]);
    }
    return true;
}

/* lookup TLVTYPE OCTETS */
bool call_lookup(struct clock *clock, struct line *line)
{
    static struct octets octets;
    uint64_t found[DZ_FOUND_DATA_WORDS];
    uint16_t type = (uint16_t)take_number(line, U16);
    take_octets(line, &octets);
    if (!line_is_whole(line)) return false;
    if (found_one(dz_lookup(octets.octet, octets.length, type, clock->magic, found), found, "absent")) {
        show_number(found[DZ_FOUND_DATA_AT]);
        show_octets(octets.octet + found[DZ_FOUND_DATA_AT], found[DZ_FOUND_DATA_LENGTH]);
    }
    return true;
}

/* Goes through the TLVs of a message: how many there are, or a refusal. Where `shown`, it shows each. */
static dz_answer walk_tlvs(const struct clock *clock, const struct octets *octets, bool shown, uint64_t *count)
{
    uint64_t tlv[DZ_FOUND_TLV_WORDS] = {0};
    dz_answer answer = DZ_OK;
    *count = 0;
    for (uint64_t at = 0; (answer = dz_walk(octets->octet, octets->length, at, clock->magic, tlv)) == DZ_OK && tlv[DZ_FOUND]; at = tlv[DZ_TLV_END]) {
        *count += 1;
        if (!shown) continue;
        show_number(tlv[DZ_TLV_AT]);
        show_number(tlv[DZ_TLV_TYPE]);
        show_number(tlv[DZ_TLV_LENGTH]);
    }
    return answer;
}

/* walk OCTETS */
bool call_walk(struct clock *clock, struct line *line)
{
    static struct octets octets;
    uint64_t count;
    take_octets(line, &octets);
    if (!line_is_whole(line)) return false;
    if (accepted(walk_tlvs(clock, &octets, false, &count))) {
        say("ok");
        show_number(count);
        walk_tlvs(clock, &octets, true, &count);
    }
    return true;
}

/* suffix OCTETS */
bool call_suffix(struct clock *clock, struct line *line)
{
    static struct octets octets;
    uint64_t found[DZ_FOUND_WRFLAGS_WORDS];
    take_octets(line, &octets);
    if (!line_is_whole(line)) return false;
    if (found_one(dz_suffix(octets.octet, octets.length, clock->magic, found), found, "absent")) show_number(found[DZ_FOUND_WRFLAGS]);
    return true;
}

/* linkmessage OCTETS */
bool call_linkmessage(struct clock *clock, struct line *line)
{
    static struct octets octets;
    uint64_t found[DZ_FOUND_LINK_WORDS];
    take_octets(line, &octets);
    if (!line_is_whole(line)) return false;
    if (found_one(dz_link_message(octets.octet, octets.length, clock->magic, found), found, "absent")) show_link_message(found + DZ_FOUND_LINK_MESSAGE);
    return true;
}

/* A timestamp as messages have it: 48 bits of seconds, then 32 of nanoseconds. */
enum { SECONDS_OCTETS = 6, NANOS_OCTETS = 4 };

static void show_timestamp(const uint64_t stamp[DZ_STAMP_WORDS])
{
    uint8_t octets[SECONDS_OCTETS + NANOS_OCTETS];
    to_octets(stamp[DZ_STAMP_SECONDS], octets, SECONDS_OCTETS);
    to_octets(stamp[DZ_STAMP_NANOS], octets + SECONDS_OCTETS, NANOS_OCTETS);
    show_octets(octets, sizeof octets);
}

/* origin SYNC FOLLOW */
bool call_origin(struct clock *clock, struct line *line)
{
    static struct octets sync, follow;
    uint64_t stamp[DZ_STAMP_WORDS];
    take_octets(line, &sync);
    take_octets(line, &follow);
    if (!line_is_whole(line)) return false;
    if (accepted(dz_origin(sync.octet, sync.length, follow.octet, follow.length, clock->magic, stamp))) {
        say("ok");
        show_timestamp(stamp);
    }
    return true;
}
