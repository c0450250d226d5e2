//! The comparison of two data sets of IEEE 1588-2008, figures 27 and 28.

use super::candidate::{Candidate, Quality};
use super::message::PortIdentity;
use std::cmp::Ordering;

/// What is compared.
#[derive(Clone, Copy, Debug, PartialEq, Eq)]
pub struct DataSet {
    pub quality: Quality,
    pub grandmaster: u64,
    pub steps_removed: u16,
    pub sender: PortIdentity,
    pub receiver: PortIdentity,
}

/// One of the two sets.
#[derive(Clone, Copy, Debug, PartialEq, Eq)]
pub enum Side {
    A,
    B,
}

/// The six answers.
#[derive(Clone, Copy, Debug, PartialEq, Eq)]
pub enum Verdict {
    Better(Side),
    BetterByTopology(Side),
    Error1,
    Error2,
}

impl Verdict {
    /// Whether A is better, by topology or not.
    pub fn a_wins(self) -> bool {
        matches!(
            self,
            Verdict::Better(Side::A) | Verdict::BetterByTopology(Side::A)
        )
    }
}

impl DataSet {
    /// Our own set: our clock is grandmaster and, with port 0, sender and receiver.
    pub fn own(quality: Quality, clock: u64) -> DataSet {
        let ourselves = PortIdentity { clock, port: 0 };
        DataSet {
            quality,
            grandmaster: clock,
            steps_removed: 0,
            sender: ourselves,
            receiver: ourselves,
        }
    }

    /// The set of a candidate that a port of our clock received.
    pub fn of_candidate(candidate: &Candidate, clock: u64, port: u8) -> DataSet {
        DataSet {
            quality: candidate.quality,
            grandmaster: candidate.grandmaster,
            steps_removed: candidate.steps_removed,
            sender: candidate.sender,
            receiver: PortIdentity {
                clock,
                port: u16::from(port),
            },
        }
    }
}

/// Compares A with B.
pub fn compare(a: &DataSet, b: &DataSet) -> Verdict {
    if a.grandmaster == b.grandmaster {
        compare_topology(a, b)
    } else {
        compare_grandmasters(a, b)
    }
}

/// Different grandmasters: the first quality field that differs decides, or
/// else the identity; lower wins.
fn compare_grandmasters(a: &DataSet, b: &DataSet) -> Verdict {
    if (a.quality, a.grandmaster) < (b.quality, b.grandmaster) {
        Verdict::Better(Side::A)
    } else {
        Verdict::Better(Side::B)
    }
}

/// The same grandmaster: by steps, and where these are less than two apart by
/// senders and receivers.
fn compare_topology(a: &DataSet, b: &DataSet) -> Verdict {
    let (nearer, farther) = if a.steps_removed <= b.steps_removed {
        (Side::A, b)
    } else {
        (Side::B, a)
    };
    match a.steps_removed.abs_diff(b.steps_removed) {
        0 => compare_paths(a, b),
        1 => match farther.receiver.cmp(&farther.sender) {
            Ordering::Less => Verdict::Better(nearer),
            Ordering::Greater => Verdict::BetterByTopology(nearer),
            Ordering::Equal => Verdict::Error1,
        },
        _ => Verdict::Better(nearer),
    }
}

/// Equal steps: lower sender, then lower receiver port number.
fn compare_paths(a: &DataSet, b: &DataSet) -> Verdict {
    match (a.sender, a.receiver.port).cmp(&(b.sender, b.receiver.port)) {
        Ordering::Less => Verdict::BetterByTopology(Side::A),
        Ordering::Greater => Verdict::BetterByTopology(Side::B),
        Ordering::Equal => Verdict::Error2,
    }
}
