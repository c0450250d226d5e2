//! Candidates: what a port has heard of one sender, as far as ranking and
//! deciding look at it.

use super::message::PortIdentity;
use super::refusal::{refuse_if, Refusal};

/// How many ports the clock has.
pub const PORT_COUNT: usize = 18;
/// The lowest and the greatest port of the clock.
pub const PORTS: std::ops::RangeInclusive<u8> = 1..=18;

/// The fields that tell how good a grandmaster is, in the order in which they
/// are compared.
#[derive(Clone, Copy, Debug, PartialEq, Eq, PartialOrd, Ord)]
pub struct Quality {
    pub priority1: u8,
    pub class: u8,
    pub accuracy: u8,
    pub variance: u16,
    pub priority2: u8,
}

/// The ten keys in their order, so that the derived order is rank order.
#[derive(Clone, Copy, Debug, PartialEq, Eq, PartialOrd, Ord)]
pub struct Candidate {
    pub quality: Quality,
    pub grandmaster: u64,
    pub steps_removed: u16,
    pub sender: PortIdentity,
    pub port: u8,
    pub wr_flags: u16,
}

/// Whether the clock has that port.
pub fn is_port(port: u8) -> bool {
    PORTS.contains(&port)
}

/// Refuses a port outside 1 to 18.
pub fn check_port(port: u8) -> Result<(), Refusal> {
    refuse_if(!is_port(port), Refusal::Port)
}
