//! Values for fields, weighted to the edges of their types and to few clocks,
//! so that equal ones meet.

use super::random::Random;
use crate::engine::message::{PortIdentity, Timestamp, SECOND};

/// Clocks that come again and again.
const CLOCKS: [u64; 10] = [
    0,
    1,
    2,
    0x0100_0000_0000_0000,
    0x001b_19ff_fe00_0001,
    0x001b_19ff_fe00_0002,
    0x011b_19ff_fe00_0001,
    0x7fff_ffff_ffff_ffff,
    0x8000_0000_0000_0000,
    u64::MAX,
];

/// A number of `bits` bits: an end of the range, the middle, few ones, or any.
pub fn number(random: &mut Random, bits: u32) -> u64 {
    let greatest = u64::MAX >> (64 - bits);
    match random.below(10) {
        0 => 0,
        1 => greatest,
        2 => random.below(4),
        3 => greatest - random.below(4),
        4 => (greatest >> 1) + random.below(2),
        5 => 1 << random.below(u64::from(bits)),
        _ => random.word() & greatest,
    }
}

/// An octet.
pub fn octet(random: &mut Random) -> u8 {
    number(random, 8) as u8
}

/// A 16-bit number.
pub fn u16(random: &mut Random) -> u16 {
    number(random, 16) as u16
}

/// A clockIdentity.
pub fn clock(random: &mut Random) -> u64 {
    if random.chance(3, 4) {
        random.pick(&CLOCKS)
    } else {
        number(random, 64)
    }
}

/// A clock and a port.
pub fn identity(random: &mut Random) -> PortIdentity {
    PortIdentity {
        clock: clock(random),
        port: port_number(random),
    }
}

/// The port of an identity, mostly low.
fn port_number(random: &mut Random) -> u16 {
    if random.chance(2, 3) {
        random.below(20) as u16
    } else {
        u16(random)
    }
}

/// A timestamp that reading accepts.
pub fn timestamp(random: &mut Random) -> Timestamp {
    Timestamp {
        seconds: number(random, 48),
        nanoseconds: match random.below(4) {
            0 => 0,
            1 => SECOND - 1,
            _ => random.below(u64::from(SECOND)) as u32,
        },
    }
}
