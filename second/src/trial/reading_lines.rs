//! Lines of the calls that read a message.

use super::call_line::CallLine;
use super::messages::{message, noise, Draft};
use super::random::Random;
use super::values;
use crate::engine::message::MessageType;

/// A line of `read`.
pub fn read_line(random: &mut Random, magic: u16) -> Vec<u8> {
    let octets = lent(random, magic, None);
    CallLine::named("read").octets(random, &octets).text()
}

/// A line of `suffix`.
pub fn suffix_line(random: &mut Random, magic: u16) -> Vec<u8> {
    let octets = lent(random, magic, Some(MessageType::Announce));
    CallLine::named("suffix").octets(random, &octets).text()
}

/// A line of `linkmessage`.
pub fn link_message_line(random: &mut Random, magic: u16) -> Vec<u8> {
    let octets = lent(random, magic, Some(MessageType::Signaling));
    CallLine::named("linkmessage")
        .octets(random, &octets)
        .text()
}

/// A line of `walk`.
pub fn walk_line(random: &mut Random, magic: u16) -> Vec<u8> {
    let octets = lent(random, magic, None);
    CallLine::named("walk").octets(random, &octets).text()
}

/// A line of `lookup`, mostly of a type that the message has.
pub fn lookup_line(random: &mut Random, magic: u16) -> Vec<u8> {
    let draft = message(random, magic, None);
    let tlv_type = wanted_type(random, &draft);
    CallLine::named("lookup")
        .number(random, tlv_type)
        .octets(random, &draft.octets)
        .text()
}

/// The type to look up.
fn wanted_type(random: &mut Random, draft: &Draft) -> u16 {
    match draft.some_tlv_type(random) {
        Some(tlv_type) if random.chance(2, 3) => tlv_type,
        _ => match random.below(3) {
            0 => 0x0003,
            1 => 0x0008,
            _ => values::u16(random),
        },
    }
}

/// The octets lent to a call that wants a type of message.
fn lent(random: &mut Random, magic: u16, wanted: Option<MessageType>) -> Vec<u8> {
    if random.chance(1, 30) {
        noise(random)
    } else {
        message(random, magic, wanted).octets
    }
}
