/* Announces taken, and what the ports keep of their senders. */
#include "speak.h"

#include <string.h>

/* LAST K */
static const struct field status_fields[] = {
    {U64, DZ_STATUS_LAST},
    {I64, DZ_STATUS_INTERVAL},
    {.kind = END},
};

/* CLOCK PORT SEQUENCE RECEIPTS NEWEST OLDER */
static const struct field record_fields[] = {
    {CLOCK, DZ_R_SENDER_CLOCK},
    {U16, DZ_R_SENDER_PORT},
    {U16, DZ_R_SEQUENCE},
    {U8, DZ_R_RECEIPTS},
    {U64, DZ_R_NEWEST},
    {U64, DZ_R_OLDER},
    {.kind = END},
};

/* PORT TIME of a message in a burst, before its octets */
static const struct field arrival_fields[] = {
    {U8, DZ_BURST_PORT},
    {U64, DZ_BURST_TIME},
    {.kind = END},
};

/* take PORT TIME OCTETS */
bool call_take(struct clock *clock, struct line *line)
{
    static struct octets octets;
    uint64_t port = take_number(line, U8);
    uint64_t time = take_number(line, U64);
    take_octets(line, &octets);
    if (!line_is_whole(line)) return false;
    say_ok_or_refused(dz_take(clock->ports, port, time, octets.octet, octets.length, clock->domain, clock->own[DZ_C_GRANDMASTER], clock->magic));
    return true;
}

/* burst N, then N times PORT TIME OCTETS: the messages lie one behind the other in what is lent, as they come */
bool call_burst(struct clock *clock, struct line *line)
{
    static struct octets octets;
    static uint64_t burst[MOST_COUNTED][DZ_BURST_WORDS];
    uint64_t count = take_number(line, COUNT);
    octets.length = 0;
    for (uint64_t i = 0; i < count; i++) {
        take_fields(line, arrival_fields, burst[i]);
        burst[i][DZ_BURST_AT] = octets.length;
        take_more_octets(line, &octets);
        burst[i][DZ_BURST_LENGTH] = octets.length - burst[i][DZ_BURST_AT];
        burst[i][DZ_BURST_ANSWER] = UINT64_MAX; /* which no message has, so that an answer that is not written shows */
    }
    if (!line_is_whole(line)) return false;
    if (accepted(dz_take_burst(clock->ports, octets.octet, octets.length, burst, count, clock->domain, clock->own[DZ_C_GRANDMASTER], clock->magic))) {
        say("ok");
        show_number(count);
        for (uint64_t i = 0; i < count; i++) show_ok_or_refused(burst[i][DZ_BURST_ANSWER]);
    }
    return true;
}

/* candidates PORT TIME: those of all slots, in slot order */
bool call_candidates(struct clock *clock, struct line *line)
{
    uint64_t found[DZ_FOUND_WORDS], candidates[DZ_SLOTS * DZ_CANDIDATE_WORDS], count = 0;
    uint64_t port = take_number(line, U8);
    uint64_t time = take_number(line, U64);
    if (!line_is_whole(line)) return false;
    for (size_t slot = 0; slot < DZ_SLOTS; slot++) {
        if (!accepted(dz_candidate(clock->ports, port, slot, time, found))) return true;
        if (found[DZ_FOUND]) memcpy(candidates + DZ_CANDIDATE_WORDS * count++, found + DZ_FOUND_CANDIDATE, DZ_CANDIDATE_WORDS * sizeof *found);
    }
    say("ok");
    show_candidates(count, candidates);
    return true;
}

/* best PORT TIME */
bool call_best(struct clock *clock, struct line *line)
{
    uint64_t found[DZ_FOUND_WORDS];
    uint64_t port = take_number(line, U8);
    uint64_t time = take_number(line, U64);
    if (!line_is_whole(line)) return false;
    if (found_one(dz_best(clock->ports, port, time, found), found, "absent")) show_fields(candidate_fields, found + DZ_FOUND_CANDIDATE);
    return true;
}

/* records PORT: the port, then every slot that ever held a record */
bool call_records(struct clock *clock, struct line *line)
{
    uint64_t status[DZ_STATUS_WORDS], records[DZ_SLOTS][DZ_RECORD_WORDS], count = 0;
    uint64_t port = take_number(line, U8);
    if (!line_is_whole(line)) return false;
    if (!accepted(dz_status(clock->ports, port, status))) return true;
    for (size_t slot = 0; slot < DZ_SLOTS; slot++) {
        if (!accepted(dz_record(clock->ports, port, slot, records[slot]))) return true;
        count += records[slot][DZ_R_HELD];
    }
    say("ok");
    show_fields(status_fields, status);
    show_number(count);
    for (size_t slot = 0; slot < DZ_SLOTS; slot++) {
        if (!records[slot][DZ_R_HELD]) continue;
        show_number(slot);
        show_fields(record_fields, records[slot]);
    }
    return true;
}
