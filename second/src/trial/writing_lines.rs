//! Lines of `write`, `signal` and `suffixtlv`: messages that fit, messages with
//! one value that does not, and buffers about as large as the message.

use super::bad_tails::bad_tail;
use super::call_line::CallLine;
use super::messages;
use super::random::Random;
use super::tails;
use super::values;
use crate::engine::message::{
    Announce, Body, Header, MessageType, Timestamp, LISTED_TYPES, SECOND,
};
use crate::engine::white_rabbit::{data_size, CALIBRATE, CALIBRATED, PREFIX};

/// The greatest buffer of the protocol.
pub const GREATEST_ROOM: usize = 70_000;
/// Values of transportSpecific that its four bits do not hold.
const WIDE_TRANSPORTS: [u8; 6] = [16, 17, 32, 128, 240, 255];

/// A line of `write`.
pub fn write_line(random: &mut Random, magic: u16) -> Vec<u8> {
    let message_type = random.pick(&LISTED_TYPES);
    let mut header = messages::header(random);
    let mut body = messages::body(random, message_type);
    let tail = tail(random, magic, message_type);
    let room = room(random, message_type.fixed_size() + tail.len());
    let line = CallLine::named("write").number(random, room as u64);
    if random.chance(1, 24) {
        let unlisted = unlisted_type(random);
        let line = line.number(random, unlisted);
        return push_header(random, line, &header)
            .octets(random, &tail)
            .text();
    }
    match random.below(16) {
        0 => header.transport_specific = random.pick(&WIDE_TRANSPORTS),
        1 | 2 => spoil_timestamp(random, &mut body),
        _ => {}
    }
    let line = line.number(random, message_type.number());
    let line = push_header(random, line, &header);
    push_body(random, line, &body).octets(random, &tail).text()
}

/// A line of `signal`: mostly one of the six link messages, now and then with
/// another message's values, which makes a bad line.
pub fn signal_line(random: &mut Random) -> Vec<u8> {
    let number = signal_number(random);
    let length = signal_length(number);
    let room = room(random, length);
    let mut header = messages::header(random);
    if random.chance(1, 12) {
        header.transport_specific = random.pick(&WIDE_TRANSPORTS);
    }
    let target = values::identity(random);
    let line = CallLine::named("signal").number(random, room as u64);
    let line = push_header(random, line, &header)
        .identity(random, target)
        .number(random, number);
    let valued = if random.chance(1, 40) {
        signal_number(random)
    } else {
        number
    };
    push_values(random, line, valued).text()
}

/// The number of a message to signal: one of the six, now and then another.
fn signal_number(random: &mut Random) -> u16 {
    match random.below(12) {
        0 => tails::other_number(random),
        1..=3 => CALIBRATE,
        4..=6 => CALIBRATED,
        _ => random.pick(tails::link_numbers()),
    }
}

/// The octets of a Signaling with the one TLV of a message.
fn signal_length(number: u16) -> usize {
    let data = data_size(number).unwrap_or(0);
    MessageType::Signaling.fixed_size() + 4 + PREFIX + data
}

/// The line with the values of a link message.
fn push_values(random: &mut Random, line: CallLine, number: u16) -> CallLine {
    let widths: &[u32] = match number {
        CALIBRATE => &[8, 8, 32],
        CALIBRATED => &[64, 64],
        _ => &[],
    };
    widths.iter().fold(line, |line, &bits| {
        let value = values::number(random, bits);
        line.number(random, value)
    })
}

/// A line of `suffixtlv`, of any sixteen bits.
pub fn suffix_tlv_line(random: &mut Random) -> Vec<u8> {
    let wr_flags = match random.below(4) {
        0 => random.below(16) as u16,
        1 => !(random.below(16) as u16),
        2 => values::u16(random),
        _ => random.word() as u16,
    };
    CallLine::named("suffixtlv").number(random, wr_flags).text()
}

/// A type number that is not listed.
fn unlisted_type(random: &mut Random) -> u8 {
    let any = random.octet();
    let number = random.pick(&[
        2, 3, 4, 5, 6, 7, 10, 13, 14, 15, 16, 17, 27, 43, 0xb0, 255, any,
    ]);
    if MessageType::from_number(number).is_some() {
        13
    } else {
        number
    }
}

/// Puts a body's seconds or nanoseconds at or past their limits.
fn spoil_timestamp(random: &mut Random, body: &mut Body) {
    let (Body::Sync(stamp)
    | Body::DelayReq(stamp)
    | Body::FollowUp(stamp)
    | Body::DelayResp(stamp, _)
    | Body::Announce(stamp, _)) = body
    else {
        return;
    };
    if random.chance(1, 2) {
        stamp.nanoseconds = random.pick(&[SECOND, SECOND + 1, SECOND - 1, 1 << 31, u32::MAX]);
    } else {
        let end = 1 << 48;
        stamp.seconds = random.pick(&[end, end + 1, end - 1, 1 << 40, 1 << 63, u64::MAX]);
    }
}

/// A tail, sound two times out of three, now and then as long as a message can
/// be.
fn tail(random: &mut Random, magic: u16, message_type: MessageType) -> Vec<u8> {
    if random.chance(1, 500) {
        return longest_tail(random, message_type);
    }
    if random.chance(1, 10) {
        return bad_tail(random, magic).concat();
    }
    let usual = messages::usual_numbers(message_type);
    let count = messages::tlv_count(random);
    let mut tlvs: Vec<Vec<u8>> = (0..count)
        .map(|_| tails::sound_tlv(random, magic, usual))
        .collect();
    if random.chance(1, 10) {
        let place = random.place(count + 1);
        tlvs.insert(place, tails::wrong_size_wr(random, magic));
    }
    let mut tail = tlvs.concat();
    if random.chance(1, 6) {
        spoil_tail(random, &mut tail);
    }
    tail
}

/// One TLV that brings the message to the greatest length or just past it.
fn longest_tail(random: &mut Random, message_type: MessageType) -> Vec<u8> {
    let longest = 65_534 - message_type.fixed_size() - 4;
    let size = random.pick(&[longest, longest - 2, longest + 1, longest + 2, longest + 4]);
    let data = random.octets(size);
    tails::tlv(0x0008, &data)
}

/// Cuts a tail, leaves octets over or changes one.
fn spoil_tail(random: &mut Random, tail: &mut Vec<u8>) {
    match random.below(3) {
        0 => {
            let left_over = 1 + random.place(3);
            tail.extend(random.octets(left_over));
        }
        1 => {
            let place = random.place(tail.len() + 1);
            tail.truncate(place);
        }
        _ if tail.len() >= 4 => {
            let place = random.pick(&[2, 3, 3, 3]);
            tail[place] ^= 1 << random.below(8);
        }
        _ => tail.push(0),
    }
}

/// The octets of the buffer: what the message takes, or a few more or fewer.
fn room(random: &mut Random, length: usize) -> usize {
    match random.below(200) {
        0..=69 => length,
        70..=99 => length.saturating_sub(1 + random.place(4)),
        100..=109 => random.place(length),
        110..=114 => 0,
        115 => random.pick(&[GREATEST_ROOM, GREATEST_ROOM + 1, GREATEST_ROOM - 1, 65_535]),
        116 => GREATEST_ROOM + 1 + random.place(1000),
        _ => length + 1 + random.place(24),
    }
}

/// The line with a header's numbers.
fn push_header(random: &mut Random, line: CallLine, header: &Header) -> CallLine {
    line.number(random, header.transport_specific)
        .number(random, header.domain)
        .number(random, header.flags)
        .number(random, header.correction)
        .identity(random, header.source)
        .number(random, header.sequence)
        .number(random, header.log_interval)
}

/// The line with a body's numbers.
fn push_body(random: &mut Random, line: CallLine, body: &Body) -> CallLine {
    match *body {
        Body::Sync(stamp) | Body::DelayReq(stamp) | Body::FollowUp(stamp) => {
            push_timestamp(random, line, stamp)
        }
        Body::DelayResp(stamp, requesting) => {
            push_timestamp(random, line, stamp).identity(random, requesting)
        }
        Body::Announce(stamp, ref fields) => {
            let line = push_timestamp(random, line, stamp);
            push_announce(random, line, fields)
        }
        Body::Signaling(target) => line.identity(random, target),
    }
}

/// The line with the numbers of an Announce behind its timestamp.
fn push_announce(random: &mut Random, line: CallLine, fields: &Announce) -> CallLine {
    line.number(random, fields.utc_offset)
        .number(random, fields.priority1)
        .number(random, fields.class)
        .number(random, fields.accuracy)
        .number(random, fields.variance)
        .number(random, fields.priority2)
        .number(random, fields.grandmaster)
        .number(random, fields.steps_removed)
        .number(random, fields.time_source)
}

/// The line with seconds and nanoseconds.
fn push_timestamp(random: &mut Random, line: CallLine, stamp: Timestamp) -> CallLine {
    line.number(random, stamp.seconds)
        .number(random, stamp.nanoseconds)
}
