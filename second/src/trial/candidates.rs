//! Candidates that meet: families in which most keys are equal, ports come many
//! times or once each, and some are built around our own set.

use super::random::Random;
use super::values;
use crate::engine::candidate::{Candidate, Quality};
use crate::engine::comparison::DataSet;
use crate::engine::message::PortIdentity;

/// Steps at the edges.
const STEPS: [u16; 11] = [0, 0, 1, 1, 2, 3, 254, 255, 256, 65_534, 65_535];
/// wrFlags with and without reserved bits.
const WR_FLAGS: [u16; 8] = [0, 0, 1, 2, 7, 15, 16, 65_535];
/// Ports that the clock does not have.
pub const FOREIGN_PORTS: [u8; 5] = [0, 19, 20, 128, 255];

/// A port of the clock.
pub fn port(random: &mut Random) -> u8 {
    1 + random.below(18) as u8
}

/// Every port of the clock once, in any order.
pub fn all_ports(random: &mut Random) -> Vec<u8> {
    let mut ports: Vec<u8> = (1..=18).collect();
    for at in 1..ports.len() {
        ports.swap(at, random.place(at + 1));
    }
    ports
}

/// A quality of few values.
pub fn quality(random: &mut Random) -> Quality {
    Quality {
        priority1: random.pick(&[127, 128, 128, 255]),
        class: random.pick(&[6, 127, 128, 248, 248]),
        accuracy: random.pick(&[0x20, 0x21, 0xfe]),
        variance: random.pick(&[0x4e5d, 0x00ff, 0x0100, 0xffff]),
        priority2: random.pick(&[0, 128, 128, 129]),
    }
}

/// A candidate of few values.
pub fn candidate(random: &mut Random) -> Candidate {
    Candidate {
        quality: quality(random),
        grandmaster: values::clock(random),
        steps_removed: random.pick(&STEPS),
        sender: values::identity(random),
        port: port(random),
        wr_flags: random.pick(&WR_FLAGS),
    }
}

/// A candidate near our own set: our grandmaster or one beside it, our quality,
/// and now and then our own port as its sender.
fn near_own(random: &mut Random, own: &DataSet) -> Candidate {
    let port = port(random);
    let ourselves = PortIdentity {
        clock: own.grandmaster,
        port: random.pick(&[0, u16::from(port), u16::from(port), 1]),
    };
    let other = values::identity(random);
    let beside = [
        own.grandmaster,
        own.grandmaster,
        own.grandmaster,
        own.grandmaster.wrapping_add(1),
        own.grandmaster.wrapping_sub(1),
    ];
    Candidate {
        quality: own.quality,
        grandmaster: random.pick(&beside),
        steps_removed: random.pick(&STEPS),
        sender: random.pick(&[ourselves, other]),
        port,
        wr_flags: random.pick(&WR_FLAGS),
    }
}

/// Moves a number by one, to an end, or anywhere.
fn moved(random: &mut Random, value: u64, bits: u32) -> u64 {
    let mask = u64::MAX >> (64 - bits);
    match random.below(6) {
        0 | 1 => value.wrapping_add(1) & mask,
        2 | 3 => value.wrapping_sub(1) & mask,
        4 => value ^ 1 << random.below(u64::from(bits)),
        _ => values::number(random, bits),
    }
}

/// Changes one field of a quality.
pub fn change_quality(random: &mut Random, quality: &mut Quality) {
    match random.below(5) {
        0 => quality.priority1 = moved(random, quality.priority1.into(), 8) as u8,
        1 => quality.class = moved(random, quality.class.into(), 8) as u8,
        2 => quality.accuracy = moved(random, quality.accuracy.into(), 8) as u8,
        3 => quality.variance = moved(random, quality.variance.into(), 16) as u16,
        _ => quality.priority2 = moved(random, quality.priority2.into(), 8) as u8,
    }
}

/// Changes steps by one, two or to an edge.
pub fn change_steps(random: &mut Random, steps: u16) -> u16 {
    let edge = random.pick(&STEPS);
    random.pick(&[
        steps.wrapping_add(1),
        steps.wrapping_sub(1),
        steps.wrapping_add(2),
        steps.wrapping_sub(2),
        edge,
    ])
}

/// Changes an identity in its clock or in its port.
pub fn change_identity(random: &mut Random, identity: &mut PortIdentity) {
    if random.chance(1, 2) {
        identity.clock = moved(random, identity.clock, 64);
    } else {
        identity.port = moved(random, identity.port.into(), 16) as u16;
    }
}

/// Changes one key.
pub fn change_key(random: &mut Random, candidate: &mut Candidate) {
    match random.below(10) {
        0..=2 => change_quality(random, &mut candidate.quality),
        3 => candidate.grandmaster = moved(random, candidate.grandmaster, 64),
        4 | 5 => candidate.steps_removed = change_steps(random, candidate.steps_removed),
        6 | 7 => change_identity(random, &mut candidate.sender),
        8 => candidate.wr_flags = moved(random, candidate.wr_flags.into(), 16) as u16,
        _ => candidate.port = port(random),
    }
}

/// So many candidates of a kind: all of few values, one with single keys
/// changed, few repeated, or about our own set; ports as they come or each
/// once.
pub fn family(random: &mut Random, own: &DataSet, count: usize) -> Vec<Candidate> {
    let base = if random.chance(1, 3) {
        near_own(random, own)
    } else {
        candidate(random)
    };
    let kind = random.below(5);
    let mut family: Vec<Candidate> = (0..count)
        .map(|_| relative(random, own, &base, kind))
        .collect();
    if random.chance(1, 3) {
        for (one, port) in family.iter_mut().zip(all_ports(random)) {
            one.port = port;
        }
    }
    family
}

/// One candidate of a family of a kind.
fn relative(random: &mut Random, own: &DataSet, base: &Candidate, kind: u64) -> Candidate {
    match kind {
        0 => candidate(random),
        1 => near_own(random, own),
        _ => {
            let mut one = *base;
            let changes = random.pick(&[0, 1, 1, 2]);
            for _ in 0..changes {
                change_key(random, &mut one);
            }
            if kind < 4 {
                one.port = port(random);
            }
            one
        }
    }
}

/// The three of document 01 of which each beats the one before in a circle:
/// A, B and C.
pub fn cycle(random: &mut Random) -> [Candidate; 3] {
    let a = Candidate {
        quality: Quality {
            priority1: 1,
            ..quality(random)
        },
        grandmaster: 7,
        steps_removed: 5,
        ..candidate(random)
    };
    let mut b = a;
    b.quality.priority1 = 9;
    b.steps_removed = 1;
    let mut c = a;
    c.quality.priority1 = 5;
    c.grandmaster = random.pick(&[6, 8]);
    let ports = all_ports(random);
    let mut circle = [a, b, c];
    for (one, port) in circle.iter_mut().zip(ports) {
        one.port = port;
    }
    circle
}
