/* What is set: the clock itself, the intervals of its ports, its links. */
#include "speak.h"

#include <string.h>

const struct clock fresh_clock = {.own = DZ_OWN_DEFAULT(0), .magic = DZ_EXAMPLE_MAGIC};

/* P1 CLASS ACC VAR P2 */
static const struct field own_fields[] = {
    {U8, DZ_C_PRIORITY1},
    {U8, DZ_C_CLASS},
    {U8, DZ_C_ACCURACY},
    {U16, DZ_C_VARIANCE},
    {U8, DZ_C_PRIORITY2},
    {.kind = END},
};

/* fresh */
bool call_fresh(struct clock *clock, struct line *line)
{
    if (!line_is_whole(line)) return false;
    *clock = fresh_clock;
    say("ok");
    return true;
}

/* clock C */
bool call_clock(struct clock *clock, struct line *line)
{
    uint64_t identity = take_number(line, CLOCK);
    if (!line_is_whole(line)) return false;
    clock->own[DZ_C_GRANDMASTER] = identity;
    say("ok");
    return true;
}

/* domain D */
bool call_domain(struct clock *clock, struct line *line)
{
    uint8_t domain = (uint8_t)take_number(line, U8);
    if (!line_is_whole(line)) return false;
    clock->domain = domain;
    say("ok");
    return true;
}

/* magic M */
bool call_magic(struct clock *clock, struct line *line)
{
    uint16_t magic = (uint16_t)take_number(line, U16);
    if (!line_is_whole(line)) return false;
    clock->magic = magic;
    say("ok");
    return true;
}

/* own P1 CLASS ACC VAR P2 */
bool call_own(struct clock *clock, struct line *line)
{
    uint64_t own[DZ_OWN_WORDS] = DZ_OWN_DEFAULT(clock->own[DZ_C_GRANDMASTER]);
    take_fields(line, own_fields, own);
    if (!line_is_whole(line)) return false;
    memcpy(clock->own, own, sizeof own);
    say("ok");
    return true;
}

/* interval PORT K */
bool call_interval(struct clock *clock, struct line *line)
{
    uint64_t port = take_number(line, U8);
    int8_t k = (int8_t)take_number(line, I8);
    if (!line_is_whole(line)) return false;
    say_ok_or_refused(dz_set_interval(clock->ports, port, k));
    return true;
}

/* linksettings PORT CONFIG CALIBRATE RETRY PERIOD TX RX */
bool call_linksettings(struct clock *clock, struct line *line)
{
    uint64_t port = take_number(line, U8);
    uint8_t config = (uint8_t)take_number(line, U8);
    uint8_t calibrate = (uint8_t)take_number(line, SWITCH);
    uint8_t retry = (uint8_t)take_number(line, U8);
    uint32_t period = (uint32_t)take_number(line, U32);
    uint64_t tx = take_number(line, U64);
    uint64_t rx = take_number(line, U64);
    if (!line_is_whole(line)) return false;
    say_ok_or_refused(dz_link_set(clock->links, port, config, calibrate, retry, period, tx, rx));
    return true;
}
