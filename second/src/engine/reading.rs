//! Reading a message from octets, and the calls that look at the TLVs in it.
//! Every call here makes all reading checks, in document 01's order.

use super::message::{
    Announce, Body, Header, Message, MessageType, PortIdentity, Timestamp, HEADER_SIZE, SECOND,
};
use super::octets::{number_at, u16_at, u32_at, u64_at};
use super::refusal::{refuse_if, Refusal};
use super::tlv::{walk_tail, Tlv};
use super::white_rabbit::{check_sizes, first_link_message, first_suffix, LinkMessage};

/// PTP version 2, the only one read.
const PTP_VERSION: u8 = 2;
/// Where the timestamp or the target begins.
const BODY_AT: usize = 34;
/// Where a timestamp's nanoseconds stand.
const NANOSECONDS_AT: usize = 40;

/// The octets of a message that passed all checks.
struct Checked<'a> {
    message_type: MessageType,
    octets: &'a [u8],
    tail_at: usize,
    tlvs: Vec<Tlv<'a>>,
}

/// The reading checks: under 34 octets (1), 2, 3, 4, messageLength (1), 5, 6, 7.
fn check(lent: &[u8], magic: u16) -> Result<Checked<'_>, Refusal> {
    refuse_if(lent.len() < HEADER_SIZE, Refusal::Short)?;
    refuse_if(lent[1] & 0x0f != PTP_VERSION, Refusal::Version)?;
    let message_type = MessageType::from_number(lent[0] & 0x0f).ok_or(Refusal::Type)?;
    let length = usize::from(u16_at(lent, 2));
    refuse_if(length < message_type.fixed_size(), Refusal::Length)?;
    refuse_if(length > lent.len(), Refusal::Short)?;
    let octets = &lent[..length];
    let stamp_bad = message_type.has_timestamp() && u32_at(octets, NANOSECONDS_AT) >= SECOND;
    refuse_if(stamp_bad, Refusal::Stamp)?;
    let tail_at = message_type.fixed_size();
    let tlvs = walk_tail(octets, tail_at)?;
    check_sizes(&tlvs, magic)?;
    Ok(Checked {
        message_type,
        octets,
        tail_at,
        tlvs,
    })
}

/// The message that the octets lent begin with.
pub fn read(lent: &[u8], magic: u16) -> Result<Message<'_>, Refusal> {
    let checked = check(lent, magic)?;
    Ok(Message {
        header: header_of(checked.octets),
        body: body_of(checked.message_type, checked.octets),
        tail: &checked.octets[checked.tail_at..],
    })
}

/// All TLVs of the message's tail, in their order, each with its place in the
/// message.
pub fn walk(lent: &[u8], magic: u16) -> Result<Vec<Tlv<'_>>, Refusal> {
    Ok(check(lent, magic)?.tlvs)
}

/// The data of the first TLV of a type, with the place in the message where
/// they begin; nothing where the message has no such TLV.
pub fn look_up(lent: &[u8], tlv_type: u16, magic: u16) -> Result<Option<(usize, &[u8])>, Refusal> {
    let checked = check(lent, magic)?;
    let first = checked.tlvs.iter().find(|tlv| tlv.tlv_type == tlv_type);
    Ok(first.map(|tlv| (tlv.data_at(), tlv.data)))
}

/// wrFlags of an Announce's first suffix; nothing where it has none.
pub fn read_suffix(lent: &[u8], magic: u16) -> Result<Option<u16>, Refusal> {
    let checked = check(lent, magic)?;
    refuse_if(checked.message_type != MessageType::Announce, Refusal::Type)?;
    Ok(first_suffix(&checked.tlvs, magic))
}

/// The first link message of a Signaling; nothing where it has none.
pub fn read_link_message(lent: &[u8], magic: u16) -> Result<Option<LinkMessage>, Refusal> {
    let checked = check(lent, magic)?;
    let other = checked.message_type != MessageType::Signaling;
    refuse_if(other, Refusal::Type)?;
    Ok(first_link_message(&checked.tlvs, magic))
}

/// The header's fields.
fn header_of(octets: &[u8]) -> Header {
    Header {
        transport_specific: octets[0] >> 4,
        domain: octets[4],
        flags: u16_at(octets, 6),
        correction: u64_at(octets, 8) as i64,
        source: identity_at(octets, 20),
        sequence: u16_at(octets, 30),
        log_interval: octets[33] as i8,
    }
}

/// The fields between header and tail.
fn body_of(message_type: MessageType, octets: &[u8]) -> Body {
    let stamp = timestamp_at(octets, BODY_AT);
    match message_type {
        MessageType::Sync => Body::Sync(stamp),
        MessageType::DelayReq => Body::DelayReq(stamp),
        MessageType::FollowUp => Body::FollowUp(stamp),
        MessageType::DelayResp => Body::DelayResp(stamp, identity_at(octets, 44)),
        MessageType::Announce => Body::Announce(stamp, announce_of(octets)),
        MessageType::Signaling => Body::Signaling(identity_at(octets, BODY_AT)),
    }
}

/// What an Announce holds behind its timestamp; octet 46 is reserved.
fn announce_of(octets: &[u8]) -> Announce {
    Announce {
        utc_offset: u16_at(octets, 44) as i16,
        priority1: octets[47],
        class: octets[48],
        accuracy: octets[49],
        variance: u16_at(octets, 50),
        priority2: octets[52],
        grandmaster: u64_at(octets, 53),
        steps_removed: u16_at(octets, 61),
        time_source: octets[63],
    }
}

/// The identity in the ten octets from `at` on.
fn identity_at(octets: &[u8], at: usize) -> PortIdentity {
    PortIdentity {
        clock: u64_at(octets, at),
        port: u16_at(octets, at + 8),
    }
}

/// The timestamp in the ten octets from `at` on.
fn timestamp_at(octets: &[u8], at: usize) -> Timestamp {
    Timestamp {
        seconds: number_at(octets, at, 6),
        nanoseconds: u32_at(octets, at + 6),
    }
}
