//! Writing a message into lent octets, as IEEE 1588-2008, clause 13, lays it
//! out: reserved fields zero, controlField by type, messageLength from the tail.

use super::message::{
    Announce, Body, Header, Message, MessageType, PortIdentity, Timestamp, SECOND,
};
use super::octets::push_number;
use super::refusal::{refuse_if, Refusal};
use super::tlv::walk_tail;
use super::white_rabbit::{check_sizes, link_message_tlv, LinkMessage};

/// The greatest messageLength.
const LONGEST: usize = 65_535;
/// The first count of seconds that 48 bits cannot hold.
const SECONDS_END: u64 = 1 << 48;

/// Writes a message at the front of `room` and answers its length; the octets
/// behind it stay, and all of them where it is refused: 18, then 16.
pub fn write(message: &Message, magic: u16, room: &mut [u8]) -> Result<usize, Refusal> {
    refuse_if(!can_be_written(message, magic), Refusal::Field)?;
    let octets = lay_out(message);
    refuse_if(room.len() < octets.len(), Refusal::Room)?;
    room[..octets.len()].copy_from_slice(&octets);
    Ok(octets.len())
}

/// Writes, as `write` does, a Signaling to a target whose tail is the one TLV
/// of a link message: 18, then 16.
pub fn write_signaling(
    header: Header,
    target: PortIdentity,
    message: LinkMessage,
    magic: u16,
    room: &mut [u8],
) -> Result<usize, Refusal> {
    let signaling = Message {
        header,
        body: Body::Signaling(target),
        tail: &link_message_tlv(message, magic),
    };
    write(&signaling, magic, room)
}

/// Whether all values fit their fields, the length fits its own, and reading
/// would refuse nothing.
fn can_be_written(message: &Message, magic: u16) -> bool {
    message.header.transport_specific < 16
        && timestamp_of(&message.body).iter().all(timestamp_fits)
        && message.body.message_type().fixed_size() + message.tail.len() <= LONGEST
        && tail_would_be_read(message.tail, magic)
}

/// The timestamp of a body that has one.
fn timestamp_of(body: &Body) -> Option<Timestamp> {
    match *body {
        Body::Sync(stamp) | Body::DelayReq(stamp) | Body::FollowUp(stamp) => Some(stamp),
        Body::DelayResp(stamp, _) | Body::Announce(stamp, _) => Some(stamp),
        Body::Signaling(_) => None,
    }
}

/// Whether a timestamp fits its octets and reading would take it.
fn timestamp_fits(stamp: &Timestamp) -> bool {
    stamp.seconds < SECONDS_END && stamp.nanoseconds < SECOND
}

/// Whether reading would find whole even TLVs and no White Rabbit message of a
/// wrong size.
fn tail_would_be_read(tail: &[u8], magic: u16) -> bool {
    walk_tail(tail, 0).is_ok_and(|tlvs| check_sizes(&tlvs, magic).is_ok())
}

/// The octets of a message whose values all fit their fields.
pub fn lay_out(message: &Message) -> Vec<u8> {
    let message_type = message.body.message_type();
    let length = message_type.fixed_size() + message.tail.len();
    let mut octets = Vec::with_capacity(length);
    push_header(&mut octets, message, length);
    push_body(&mut octets, &message.body);
    octets.extend_from_slice(message.tail);
    octets
}

/// What controlField says of a type.
fn control_field(message_type: MessageType) -> u8 {
    match message_type {
        MessageType::Sync => 0,
        MessageType::DelayReq => 1,
        MessageType::FollowUp => 2,
        MessageType::DelayResp => 3,
        MessageType::Announce | MessageType::Signaling => 5,
    }
}

/// The header's 34 octets.
fn push_header(octets: &mut Vec<u8>, message: &Message, length: usize) {
    let header = &message.header;
    let message_type = message.body.message_type();
    octets.push(header.transport_specific << 4 | message_type.number());
    octets.push(2);
    push_number(octets, length as u64, 2);
    octets.push(header.domain);
    octets.push(0);
    push_number(octets, u64::from(header.flags), 2);
    push_number(octets, header.correction as u64, 8);
    push_number(octets, 0, 4);
    push_identity(octets, header.source);
    push_number(octets, u64::from(header.sequence), 2);
    octets.push(control_field(message_type));
    octets.push(header.log_interval as u8);
}

/// The octets between header and tail.
fn push_body(octets: &mut Vec<u8>, body: &Body) {
    match *body {
        Body::Sync(stamp) | Body::DelayReq(stamp) | Body::FollowUp(stamp) => {
            push_timestamp(octets, stamp);
        }
        Body::DelayResp(stamp, requesting) => {
            push_timestamp(octets, stamp);
            push_identity(octets, requesting);
        }
        Body::Announce(stamp, ref fields) => {
            push_timestamp(octets, stamp);
            push_announce(octets, fields);
        }
        Body::Signaling(target) => push_identity(octets, target),
    }
}

/// The twenty octets of an Announce behind its timestamp.
fn push_announce(octets: &mut Vec<u8>, fields: &Announce) {
    push_number(octets, fields.utc_offset as u64, 2);
    octets.push(0);
    octets.push(fields.priority1);
    octets.push(fields.class);
    octets.push(fields.accuracy);
    push_number(octets, u64::from(fields.variance), 2);
    octets.push(fields.priority2);
    push_number(octets, fields.grandmaster, 8);
    push_number(octets, u64::from(fields.steps_removed), 2);
    octets.push(fields.time_source);
}

/// An identity's ten octets.
fn push_identity(octets: &mut Vec<u8>, identity: PortIdentity) {
    push_number(octets, identity.clock, 8);
    push_number(octets, u64::from(identity.port), 2);
}

/// A timestamp's ten octets.
fn push_timestamp(octets: &mut Vec<u8>, stamp: Timestamp) {
    push_number(octets, stamp.seconds, 6);
    push_number(octets, u64::from(stamp.nanoseconds), 4);
}

#[cfg(test)]
mod tests {
    use super::*;
    use crate::engine::message::LISTED_TYPES;
    use crate::engine::reading::read;
    use crate::trial::messages;
    use crate::trial::random::Random;

    #[test]
    fn reading_gives_back_what_was_written() {
        let mut random = Random::new(1);
        let tail = [0, 3, 0, 10, 8, 0, 48, 0xab, 0xcd, 1, 32, 0, 0, 7];
        for turn in 0..600 {
            let message = Message {
                header: messages::header(&mut random),
                body: messages::body(&mut random, LISTED_TYPES[turn % 6]),
                tail: &tail,
            };
            let mut room = [0xa5; 100];
            let length = write(&message, 0xabcd, &mut room).unwrap();
            assert_eq!(read(&room, 0xabcd), Ok(message));
            assert!(room[length..].iter().all(|&octet| octet == 0xa5));
        }
    }
}
