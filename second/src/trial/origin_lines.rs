//! Lines of `origin`: a Sync and a Follow_Up that belong together, differ in
//! one thing, or are spoiled.

use super::call_line::CallLine;
use super::messages::{self, Draft};
use super::random::Random;
use super::values;
use crate::engine::message::{Header, MessageType, LISTED_TYPES};

/// The two-step bit in the flags.
const TWO_STEP: u16 = 0x0200;

/// A line of `origin`.
pub fn origin_line(random: &mut Random, magic: u16) -> Vec<u8> {
    let sync_header = sync_header(random);
    let follow_header = follow_header(random, &sync_header);
    let mut sync = draft(random, magic, sync_header, MessageType::Sync);
    let mut follow_up = draft(random, magic, follow_header, MessageType::FollowUp);
    match random.below(12) {
        0 | 1 => sync.weather(random, magic),
        2 | 3 => follow_up.weather(random, magic),
        4 => {
            sync.weather(random, magic);
            follow_up.weather(random, magic);
        }
        5 => sync.give_bad_tail(random, magic),
        6 | 7 => follow_up.give_bad_tail(random, magic),
        8 => {
            sync.give_bad_tail(random, magic);
            follow_up.give_bad_tail(random, magic);
        }
        9 if random.chance(1, 3) => follow_up.octets = messages::noise(random),
        _ => {}
    }
    CallLine::named("origin")
        .octets(random, &sync.octets)
        .octets(random, &follow_up.octets)
        .text()
}

/// A sound message of these header fields, mostly of the type wanted.
fn draft(random: &mut Random, magic: u16, header: Header, wanted: MessageType) -> Draft {
    let message_type = if random.chance(1, 16) {
        random.pick(&LISTED_TYPES)
    } else {
        wanted
    };
    let body = messages::body(random, message_type);
    Draft::sound(random, magic, header, body)
}

/// A Sync's header, mostly with the two-step bit.
fn sync_header(random: &mut Random) -> Header {
    let mut header = messages::header(random);
    if random.chance(3, 4) {
        header.flags |= TWO_STEP;
    } else {
        header.flags &= !TWO_STEP;
    }
    header
}

/// A Follow_Up's header: the Sync's sender, domain and sequenceId, or these but
/// for one of them, and anything else.
fn follow_header(random: &mut Random, sync: &Header) -> Header {
    let mut header = Header {
        domain: sync.domain,
        source: sync.source,
        sequence: sync.sequence,
        ..messages::header(random)
    };
    match random.below(16) {
        0 => header.domain ^= 1 << random.below(8),
        1 => header.source.clock ^= 1 << random.below(64),
        2 => header.source.port ^= 1 << random.below(16),
        3 => header.sequence ^= 1 << random.below(16),
        4 => header.sequence = sync.sequence.wrapping_add(1),
        5 => header.source = values::identity(random),
        _ => {}
    }
    header
}
