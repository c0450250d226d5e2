//! The numbers that refuse, by the names of document 01's table and of document
//! 02's requests, and the place in the message that (i) adds to two of them.

/// Why a call is refused.
#[derive(Clone, Copy, Debug, PartialEq, Eq)]
pub enum Refusal {
    Short,
    Version,
    Type,
    Length,
    Stamp,
    /// `at` is where the first TLV begins that is not whole or not of even
    /// length, or the octets that are too few for one.
    Tlv {
        at: usize,
    },
    /// `at` is where the first TLV begins whose White Rabbit message has a
    /// wrong size.
    WrBad {
        at: usize,
    },
    Port,
    Domain,
    Own,
    Backward,
    Stale,
    Full,
    Range,
    Unranked,
    Room,
    Many,
    Field,
    /// A message too long to be recorded.
    Long,
    /// A block of a trace that fails one of its tests.
    Block,
    /// A capture that is none of the four forms, or that has a frame at fault.
    Pcap,
    /// A trace that no capture can hold.
    Export,
}

impl Refusal {
    /// The number of the table or of the request.
    pub fn number(self) -> u8 {
        match self {
            Refusal::Short => 1,
            Refusal::Version => 2,
            Refusal::Type => 3,
            Refusal::Length => 4,
            Refusal::Stamp => 5,
            Refusal::Tlv { .. } => 6,
            Refusal::WrBad { .. } => 7,
            Refusal::Port => 8,
            Refusal::Domain => 9,
            Refusal::Own => 10,
            Refusal::Backward => 11,
            Refusal::Stale => 12,
            Refusal::Full => 13,
            Refusal::Range => 14,
            Refusal::Unranked => 15,
            Refusal::Room => 16,
            Refusal::Many => 17,
            Refusal::Field => 18,
            Refusal::Long => 19,
            Refusal::Block => 20,
            Refusal::Pcap => 21,
            Refusal::Export => 22,
        }
    }

    /// Where the fault sits, for the two refusals that tell it.
    pub fn at(self) -> Option<usize> {
        match self {
            Refusal::Tlv { at } | Refusal::WrBad { at } => Some(at),
            _ => None,
        }
    }
}

/// Gives `refusal` where `found` holds, and goes on where it does not: a list
/// of these reads like the document's order of checks.
pub fn refuse_if(found: bool, refusal: Refusal) -> Result<(), Refusal> {
    if found {
        Err(refusal)
    } else {
        Ok(())
    }
}
