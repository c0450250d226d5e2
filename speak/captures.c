/* Captures read into traces, and traces written as captures. */
#include "speak.h"

/* import ROOM PORT OCTETS */
bool call_import(struct clock *clock, struct line *line)
{
    static struct octets octets;
    uint64_t written = 0;
    (void)clock; /* the recording of the clock has no part in it */
    uint64_t room = take_number(line, ROOM);
    uint64_t port = take_number(line, U8);
    take_octets(line, &octets);
    if (!line_is_whole(line)) return false;
    uint8_t *out = unwritten(room);
    dz_answer answer = dz_import(out, room, port, octets.octet, octets.length, &written);
    say_written(answer, written, out, room);
    return true;
}

/* export ROOM OCTETS */
bool call_export(struct clock *clock, struct line *line)
{
    static struct octets octets;
    uint64_t written = 0;
    (void)clock;
    uint64_t room = take_number(line, ROOM);
    take_octets(line, &octets);
    if (!line_is_whole(line)) return false;
    uint8_t *out = unwritten(room);
    dz_answer answer = dz_export(out, room, octets.octet, octets.length, &written);
    say_written(answer, written, out, room);
    return true;
}
