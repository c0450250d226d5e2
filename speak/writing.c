/* Messages written. */
#include "speak.h"

/* write ROOM TYPE TRANSPORT DOMAIN FLAGS CORRECTION CLOCK PORT SEQUENCE INTERVAL BODY TAIL */
bool call_write(struct clock *clock, struct line *line)
{
    static struct octets tail;
    uint64_t message[DZ_MESSAGE_WORDS] = {0}, written = 0;
    uint64_t room = take_number(line, ROOM);
    message[DZ_M_TYPE] = take_number(line, U8);
    take_fields(line, header_fields, message);
    take_fields(line, body_fields(message[DZ_M_TYPE]), message);
    take_octets(line, &tail);
    if (!line_is_whole(line)) return false;
    uint8_t *out = unwritten(room);
    dz_answer answer = dz_write(out, room, message, tail.octet, tail.length, clock->magic, &written);
    say_written(answer, written, out, room);
    return true;
}

/* signal ROOM TRANSPORT DOMAIN FLAGS CORRECTION CLOCK PORT SEQUENCE INTERVAL TARGETCLOCK TARGETPORT NUMBER VALUES */
bool call_signal(struct clock *clock, struct line *line)
{
    uint64_t message[DZ_MESSAGE_WORDS] = {[DZ_M_TYPE] = DZ_SIGNALING}, link[DZ_LINK_MESSAGE_WORDS] = {0}, written = 0;
    uint64_t room = take_number(line, ROOM);
    take_fields(line, header_fields, message);
    take_fields(line, body_fields(DZ_SIGNALING), message);
    link[DZ_L_NUMBER] = take_number(line, U16);
    take_fields(line, link_message_fields(link[DZ_L_NUMBER]), link);
    if (!line_is_whole(line)) return false;
    uint8_t *out = unwritten(room);
    dz_answer answer = dz_write_link(out, room, message, link, clock->magic, &written);
    say_written(answer, written, out, room);
    return true;
}

/* suffixtlv WRFLAGS */
bool call_suffixtlv(struct clock *clock, struct line *line)
{
    uint8_t tail[DZ_SUFFIX_OCTETS];
    uint16_t flags = (uint16_t)take_number(line, U16);
    if (!line_is_whole(line)) return false;
    if (accepted(dz_write_suffix(flags, clock->magic, tail))) {
        say("ok");
        show_octets(tail, sizeof tail);
    }
    return true;
}
