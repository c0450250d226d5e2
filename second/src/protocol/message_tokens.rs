//! Messages taken from a line's tokens: the fields of one to be written, and
//! those that ports received.

use super::tokens::Tokens;
use crate::engine::message::{Announce, Body, Header, MessageType, Timestamp};
use crate::engine::received::Received;

/// TRANSPORT DOMAIN FLAGS CORRECTION CLOCK PORT SEQUENCE INTERVAL
pub fn header(tokens: &mut Tokens) -> Option<Header> {
    Some(Header {
        transport_specific: tokens.number()?,
        domain: tokens.number()?,
        flags: tokens.number()?,
        correction: tokens.number()?,
        source: tokens.identity()?,
        sequence: tokens.number()?,
        log_interval: tokens.number()?,
    })
}

/// The BODY of a type.
pub fn body(tokens: &mut Tokens, message_type: MessageType) -> Option<Body> {
    Some(match message_type {
        MessageType::Sync => Body::Sync(timestamp(tokens)?),
        MessageType::DelayReq => Body::DelayReq(timestamp(tokens)?),
        MessageType::FollowUp => Body::FollowUp(timestamp(tokens)?),
        MessageType::DelayResp => Body::DelayResp(timestamp(tokens)?, tokens.identity()?),
        MessageType::Announce => Body::Announce(timestamp(tokens)?, announce(tokens)?),
        MessageType::Signaling => Body::Signaling(tokens.identity()?),
    })
}

/// SECONDS NANOS
fn timestamp(tokens: &mut Tokens) -> Option<Timestamp> {
    Some(Timestamp {
        seconds: tokens.number()?,
        nanoseconds: tokens.number()?,
    })
}

/// UTC P1 CLASS ACC VAR P2 GM STEPS SOURCE
fn announce(tokens: &mut Tokens) -> Option<Announce> {
    Some(Announce {
        utc_offset: tokens.number()?,
        priority1: tokens.number()?,
        class: tokens.number()?,
        accuracy: tokens.number()?,
        variance: tokens.number()?,
        priority2: tokens.number()?,
        grandmaster: tokens.number()?,
        steps_removed: tokens.number()?,
        time_source: tokens.number()?,
    })
}

/// PORT TIME OCTETS
pub fn received(tokens: &mut Tokens) -> Option<Received> {
    Some(Received {
        port: tokens.number()?,
        time: tokens.number()?,
        octets: tokens.octets()?,
    })
}

/// A count, then that many times PORT TIME OCTETS.
pub fn burst(tokens: &mut Tokens) -> Option<Vec<Received>> {
    let count = tokens.count()?;
    (0..count).map(|_| received(tokens)).collect()
}
