/* The buffer that messages, traces and captures are written into. */
#include "speak.h"

#include <string.h>

/* What a buffer holds before anything is written, so that an answer tells what was not. */
enum { UNWRITTEN = 0xA5 };

/* A buffer of some room, in which nothing is written. */
uint8_t *unwritten(uint64_t room)
{
    static uint8_t out[MOST_ROOM];
    return memset(out, UNWRITTEN, room);
}

/* ok LENGTH OCTETS, or refused N OCTETS: the whole buffer in either case. */
void say_written(dz_answer answer, uint64_t written, const uint8_t *out, uint64_t room)
{
    if (accepted(answer)) {
        say("ok");
        show_number(written);
    }
    show_octets(out, room);
}
