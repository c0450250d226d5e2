/* Messages recorded in blocks, and traces replayed. */
#include "speak.h"

/* The block that a call brought out, `-` where it brought none. */
static void show_block(uint64_t closed, const uint8_t *block)
{
    say("ok");
    show_octets(block, closed ? DZ_BLOCK_OCTETS : 0);
}

/* record PORT TIME OCTETS */
bool call_record(struct clock *clock, struct line *line)
{
    static struct octets octets;
    uint8_t block[DZ_BLOCK_OCTETS];
    uint64_t closed;
    uint64_t port = take_number(line, U8);
    uint64_t time = take_number(line, U64);
    take_octets(line, &octets);
    if (!line_is_whole(line)) return false;
    if (accepted(dz_trace_record(clock->recording, clock->open, port, time, octets.octet, octets.length, block, &closed))) show_block(closed, block);
    return true;
}

/* trace: the open block as it would be closed now */
bool call_trace(struct clock *clock, struct line *line)
{
    uint8_t block[DZ_BLOCK_OCTETS];
    uint64_t closed;
    if (!line_is_whole(line)) return false;
    if (accepted(dz_trace_finish(clock->recording, clock->open, block, &closed))) show_block(closed, block);
    return true;
}

/* recording BLOCKNUMBER */
bool call_recording(struct clock *clock, struct line *line)
{
    uint64_t next = take_number(line, U32);
    if (!line_is_whole(line)) return false;
    clock->recording[DZ_RECORDING_NEXT] = next;
    clock->recording[DZ_RECORDING_LAST] = 0;
    clock->recording[DZ_RECORDING_END] = 0;
    say("ok");
    return true;
}

/* replay OCTETS: the last record's time, and what every port is to do then */
bool call_replay(struct clock *clock, struct line *line)
{
    static struct octets octets;
    uint64_t last, list[DZ_LIST_WORDS];
    uint8_t decisions[DZ_PORTS];
    take_octets(line, &octets);
    if (!line_is_whole(line)) return false;
    if (!accepted(dz_replay(clock->ports, octets.octet, octets.length, clock->domain, clock->own[DZ_C_GRANDMASTER], clock->magic, &last))) return true;
    if (!accepted(dz_decide_all(clock->ports, last, clock->own, decisions, list))) return true;
    say("ok");
    show_number(last);
    for (size_t i = 0; i < DZ_PORTS; i++) show_word(dz_decision_text(decisions[i]));
    return true;
}
