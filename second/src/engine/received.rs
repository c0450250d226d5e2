//! Messages as ports receive them: what is taken, and what a trace keeps.

/// A message with the port that received it and the time, in nanoseconds.
#[derive(Clone, Debug, PartialEq, Eq)]
pub struct Received {
    pub port: u8,
    pub time: u64,
    pub octets: Vec<u8>,
}
