/* Events of White Rabbit links. */
#include "speak.h"

/* MODE RETRIES REPORT N */
static const struct field step_fields[] = {
    {U8, DZ_T_MODE},
    {U64, DZ_T_RETRIES},
    {U8, DZ_T_REPORT},
    {U8, DZ_T_SENDS},
    {.kind = END},
};

/* A state's word in the line protocol. */
static const char *state_word(uint64_t state)
{
    switch (state) {
    case DZ_STATE_IDLE: return "idle";
    case DZ_STATE_PRESENT: return "present";
    case DZ_STATE_M_LOCK: return "m-lock";
    case DZ_STATE_S_LOCK: return "s-lock";
    case DZ_STATE_LOCKED: return "locked";
    case DZ_STATE_CALIBRATION: return "calibration";
    case DZ_STATE_CALIBRATED: return "calibrated";
    case DZ_STATE_RESP_CALIB_REQ: return "resp-calib-req";
    default: return "?";
    }
}

/* ok STATE MODE RETRIES REPORT N and the N messages to send, or a refusal */
static void say_step(dz_answer answer, const uint64_t step[DZ_STEP_WORDS])
{
    if (!accepted(answer)) return;
    say("ok");
    show_word(state_word(step[DZ_T_STATE]));
    show_fields(step_fields, step);
    if (step[DZ_T_SENDS] >= 1) show_link_message(step + DZ_T_FIRST);
    if (step[DZ_T_SENDS] >= 2) show_link_message(step + DZ_T_SECOND);
}

/* link PORT start PARENTCONFIG PARENTMODE */
static bool start(uint64_t *links, uint64_t port, struct line *line)
{
    uint64_t step[DZ_STEP_WORDS];
    uint8_t config = (uint8_t)take_number(line, U8);
    uint8_t mode = (uint8_t)take_number(line, SWITCH);
    if (!line_is_whole(line)) return false;
    say_step(dz_link_start(links, port, config, mode, step), step);
    return true;
}

/* link PORT message NUMBER */
static bool message(uint64_t *links, uint64_t port, struct line *line)
{
    uint64_t step[DZ_STEP_WORDS];
    uint16_t number = (uint16_t)take_number(line, U16);
    if (!line_is_whole(line)) return false;
    say_step(dz_link_take(links, port, number, step), step);
    return true;
}

/* An event that carries nothing. */
typedef dz_answer plain_event(uint64_t links[DZ_LINKS_WORDS], uint64_t port, uint64_t step[DZ_STEP_WORDS]);

/* link PORT done, link PORT timeout, link PORT stop */
static bool plain(plain_event *event, uint64_t *links, uint64_t port, struct line *line)
{
    uint64_t step[DZ_STEP_WORDS];
    if (!line_is_whole(line)) return false;
    say_step(event(links, port, step), step);
    return true;
}

/* link PORT EVENT */
bool call_link(struct clock *clock, struct line *line)
{
    uint64_t port = take_number(line, U8);
    struct token event = take_token(line);
    if (token_is(event, "start")) return start(clock->links, port, line);
    if (token_is(event, "message")) return message(clock->links, port, line);
    if (token_is(event, "done")) return plain(dz_link_done, clock->links, port, line);
    if (token_is(event, "timeout")) return plain(dz_link_timeout, clock->links, port, line);
    if (token_is(event, "stop")) return plain(dz_link_stop, clock->links, port, line);
    return false;
}
