//! Candidates, lists of them and data sets, taken from a line's tokens.

use super::tokens::Tokens;
use crate::engine::candidate::{Candidate, Quality};
use crate::engine::comparison::DataSet;

/// priority1 class accuracy variance priority2
pub fn quality(tokens: &mut Tokens) -> Option<Quality> {
    Some(Quality {
        priority1: tokens.number()?,
        class: tokens.number()?,
        accuracy: tokens.number()?,
        variance: tokens.number()?,
        priority2: tokens.number()?,
    })
}

/// quality grandmaster steps senderClock senderPort port wrFlags
pub fn candidate(tokens: &mut Tokens) -> Option<Candidate> {
    Some(Candidate {
        quality: quality(tokens)?,
        grandmaster: tokens.number()?,
        steps_removed: tokens.number()?,
        sender: tokens.identity()?,
        port: tokens.number()?,
        wr_flags: tokens.number()?,
    })
}

/// quality grandmaster steps senderClock senderPort receiverClock receiverPort
pub fn data_set(tokens: &mut Tokens) -> Option<DataSet> {
    Some(DataSet {
        quality: quality(tokens)?,
        grandmaster: tokens.number()?,
        steps_removed: tokens.number()?,
        sender: tokens.identity()?,
        receiver: tokens.identity()?,
    })
}

/// A count, then that many candidates.
pub fn list(tokens: &mut Tokens) -> Option<Vec<Candidate>> {
    let count = tokens.count()?;
    (0..count).map(|_| candidate(tokens)).collect()
}
