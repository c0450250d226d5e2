//! The origin time of a Sync: ten timestamp octets of the Sync itself or, where
//! its two-step bit is set, of its Follow_Up.

use super::message::{Header, MessageType};
use super::reading::read;
use super::refusal::{refuse_if, Refusal};

/// The two-step bit: 0x02 of octet 6, the higher one of the flags.
const TWO_STEP: u16 = 0x0200;
/// Where the ten octets stand in either message.
const TIMESTAMP: std::ops::Range<usize> = 34..44;

/// The part of the message that holds the origin time.  The Sync is checked
/// first; without its two-step bit the Follow_Up is not looked at; a mismatch
/// of the two comes last.
pub fn origin<'a>(sync: &'a [u8], follow_up: &'a [u8], magic: u16) -> Result<&'a [u8], Refusal> {
    let sync_header = header_of_type(sync, MessageType::Sync, magic)?;
    if sync_header.flags & TWO_STEP == 0 {
        return Ok(&sync[TIMESTAMP]);
    }
    let follow_header = header_of_type(follow_up, MessageType::FollowUp, magic)?;
    refuse_if(
        !belong_together(&sync_header, &follow_header),
        Refusal::Type,
    )?;
    Ok(&follow_up[TIMESTAMP])
}

/// The header of a message that must be of a type: the reading checks, then 3.
fn header_of_type(lent: &[u8], wanted: MessageType, magic: u16) -> Result<Header, Refusal> {
    let message = read(lent, magic)?;
    refuse_if(message.body.message_type() != wanted, Refusal::Type)?;
    Ok(message.header)
}

/// Whether sender, domain and sequenceId are the same.
fn belong_together(sync: &Header, follow_up: &Header) -> bool {
    sync.source == follow_up.source
        && sync.domain == follow_up.domain
        && sync.sequence == follow_up.sequence
}
