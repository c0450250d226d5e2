//! A call's line in the making.  Numbers and octets are spelled in all the ways
//! the protocol allows, mostly the plain one.

use super::random::Random;
use crate::engine::candidate::Quality;
use crate::engine::message::PortIdentity;
use crate::engine::received::Received;

/// The tokens so far.
pub struct CallLine {
    text: Vec<u8>,
}

impl CallLine {
    /// The line of a call that has its name alone.
    pub fn named(name: &str) -> CallLine {
        CallLine {
            text: name.as_bytes().to_vec(),
        }
    }

    /// The line with one more token.
    pub fn word(mut self, word: &str) -> CallLine {
        self.text.push(b' ');
        self.text.extend_from_slice(word.as_bytes());
        self
    }

    /// The line with a number behind it.
    pub fn number(self, random: &mut Random, value: impl Into<i128>) -> CallLine {
        let spelled = spell_number(random, value.into());
        self.word(&spelled)
    }

    /// The line with a clock and its port.
    pub fn identity(self, random: &mut Random, identity: PortIdentity) -> CallLine {
        self.number(random, identity.clock)
            .number(random, identity.port)
    }

    /// The line with a quality's five numbers.
    pub fn quality(self, random: &mut Random, quality: &Quality) -> CallLine {
        self.number(random, quality.priority1)
            .number(random, quality.class)
            .number(random, quality.accuracy)
            .number(random, quality.variance)
            .number(random, quality.priority2)
    }

    /// The line with octets behind it.
    pub fn octets(self, random: &mut Random, octets: &[u8]) -> CallLine {
        let spelled = spell_octets(random, octets);
        self.word(&spelled)
    }

    /// The line with a message, before it the port that received it and the time.
    pub fn received(self, random: &mut Random, received: &Received) -> CallLine {
        self.number(random, received.port)
            .number(random, received.time)
            .octets(random, &received.octets)
    }

    /// The line's characters.
    pub fn text(self) -> Vec<u8> {
        self.text
    }
}

/// A number in one of its spellings.
fn spell_number(random: &mut Random, value: i128) -> String {
    match random.below(24) {
        0 | 1 if value >= 0 => format!("0x{value:x}"),
        2 if value >= 0 => format!("0x{value:X}"),
        3 if value >= 0 => format!("0x{}{value:x}", zeros(random)),
        4 if value >= 0 => format!("{}{value}", zeros(random)),
        4 => format!("-{}{}", zeros(random), -value),
        5 if value == 0 => format!("-{}0", zeros(random)),
        _ => value.to_string(),
    }
}

/// None, a few or many zeros.
fn zeros(random: &mut Random) -> String {
    "0".repeat(random.place(24))
}

/// Octets with digits of lower, upper or either case.
fn spell_octets(random: &mut Random, octets: &[u8]) -> String {
    let lower = crate::protocol::show::octets(octets);
    match random.below(24) {
        0 => lower.to_uppercase(),
        1 => lower
            .chars()
            .map(|c| {
                if random.chance(1, 2) {
                    c.to_ascii_uppercase()
                } else {
                    c
                }
            })
            .collect(),
        _ => lower,
    }
}
