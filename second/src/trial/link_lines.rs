//! Lines of `link` and `linksettings`: walks of single ports, and pairs of
//! ports, a master and a slave, that talk to each other over a wire that
//! loses, doubles and delays.

use super::call_line::CallLine;
use super::candidates::{port, FOREIGN_PORTS};
use super::random::Random;
use super::values;
use crate::engine::clock::Clock;
use crate::engine::link::{LinkEvent, LinkState};
use crate::engine::white_rabbit::{
    ANN_SUFIX, CALIBRATE, CALIBRATED, LOCK, LOCKED, SLAVE_PRESENT, WR_MODE_ON,
};
use std::collections::VecDeque;

/// Message numbers, the links' own and others.
const NUMBERS: [u16; 11] = [
    SLAVE_PRESENT,
    LOCK,
    LOCKED,
    CALIBRATE,
    CALIBRATED,
    WR_MODE_ON,
    ANN_SUFIX,
    0x0fff,
    0x1006,
    0,
    0xffff,
];

/// The wires between ports 1 and 2, 3 and 4 and so on: to which port, and what.
#[derive(Default)]
pub struct Wires {
    under_way: [VecDeque<(u8, u16)>; 9],
}

/// A line of `linksettings`: odd ports mostly master, even ones mostly slave.
pub fn link_settings_line(random: &mut Random) -> Vec<u8> {
    let port = if random.chance(1, 20) {
        random.pick(&FOREIGN_PORTS)
    } else {
        busy_port(random)
    };
    let config = match random.below(16) {
        0 => random.pick(&[4, 5, 7, 128, 255]),
        1 => random.pick(&[0, 1, 2, 3]),
        _ if port % 2 == 1 => random.pick(&[1, 3]),
        _ => random.pick(&[2, 3]),
    };
    let calibrate = random.below(2);
    let retry = values::octet(random);
    let period = values::number(random, 32);
    let delta_tx = values::number(random, 64);
    let delta_rx = values::number(random, 64);
    CallLine::named("linksettings")
        .number(random, port)
        .number(random, config)
        .number(random, calibrate)
        .number(random, retry)
        .number(random, period)
        .number(random, delta_tx)
        .number(random, delta_rx)
        .text()
}

/// Lines of `link`, mostly one, now and then a run of timeouts.
pub fn link_lines(random: &mut Random, clock: &Clock, wires: &mut Wires) -> Vec<Vec<u8>> {
    if random.chance(1, 40) {
        let port = random.pick(&FOREIGN_PORTS);
        let event = any_event(random);
        return vec![event_line(random, port, event)];
    }
    if random.chance(1, 40) {
        let port = busy_port(random);
        let count = 3 + random.place(3);
        return (0..count)
            .map(|_| event_line(random, port, LinkEvent::Timeout))
            .collect();
    }
    let (port, event) = if random.chance(1, 4) {
        walk(random, clock)
    } else {
        talk(random, clock, wires)
    };
    send(random, clock, wires, port, event);
    vec![event_line(random, port, event)]
}

/// A port, mostly one of the first four.
fn busy_port(random: &mut Random) -> u8 {
    if random.chance(2, 3) {
        1 + random.below(4) as u8
    } else {
        port(random)
    }
}

/// Any event at all.
fn any_event(random: &mut Random) -> LinkEvent {
    match random.below(12) {
        0..=2 => start(random),
        3..=7 => LinkEvent::Message(random.pick(&NUMBERS)),
        8 | 9 => LinkEvent::Done,
        10 => LinkEvent::Timeout,
        _ => random.pick(&[LinkEvent::Stop, LinkEvent::Timeout]),
    }
}

/// A start under any parent.
fn start(random: &mut Random) -> LinkEvent {
    LinkEvent::Start {
        parent_config: random.pick(&[0, 1, 1, 2, 3, 3, 4, 5, 7, 255]),
        parent_mode_on: random.chance(1, 2),
    }
}

/// The next event of a single port: what its state waits for, or any.
fn walk(random: &mut Random, clock: &Clock) -> (u8, LinkEvent) {
    let port = busy_port(random);
    let event = if random.chance(1, 2) {
        any_event(random)
    } else {
        awaited(random, clock.link(port).state)
    };
    (port, event)
}

/// The event that a state waits for, or one of them.
fn awaited(random: &mut Random, state: LinkState) -> LinkEvent {
    use LinkState::*;
    match state {
        Idle if random.chance(1, 2) => start(random),
        Idle => LinkEvent::Message(SLAVE_PRESENT),
        Present => LinkEvent::Message(LOCK),
        MLock => LinkEvent::Message(LOCKED),
        SLock | Calibration(_) => LinkEvent::Done,
        Locked => LinkEvent::Message(CALIBRATE),
        RespCalibReq(_) => LinkEvent::Message(CALIBRATED),
        Calibrated(_) => LinkEvent::Message(random.pick(&[CALIBRATE, WR_MODE_ON])),
    }
}

/// The next event between a master and a slave: a message that arrives,
/// hardware that is done, a start where both are idle, a timeout where nothing
/// else can happen; now and then a timeout, a stop or anything out of turn.
fn talk(random: &mut Random, clock: &Clock, wires: &mut Wires) -> (u8, LinkEvent) {
    let master = (busy_port(random) - 1) | 1;
    let pair = [master, master + 1];
    let either = random.pick(&pair);
    match random.below(60) {
        0 => return (either, LinkEvent::Stop),
        1..=3 => return (either, LinkEvent::Timeout),
        4 => return (either, any_event(random)),
        _ => {}
    }
    let wire = &mut wires.under_way[wire_of(master)];
    let busy: Vec<u8> = pair
        .into_iter()
        .filter(|&port| hardware_works(clock.link(port).state))
        .collect();
    if busy.is_empty() || random.chance(1, 2) {
        if let Some((to, number)) = arrival(random, wire) {
            return (to, LinkEvent::Message(number));
        }
    }
    if !busy.is_empty() {
        return (random.pick(&busy), LinkEvent::Done);
    }
    let idle = |port: u8| clock.link(port).state == LinkState::Idle;
    match pair.into_iter().find(|&port| !idle(port)) {
        None if pair.iter().all(|&port| clock.link(port).mode_on) && random.chance(1, 2) => {
            (either, LinkEvent::Stop)
        }
        None => (master + 1, start_under(clock, master)),
        Some(port) if idle(either) => (port, LinkEvent::Timeout),
        Some(_) => (either, LinkEvent::Timeout),
    }
}

/// The wire that a port is at.
fn wire_of(port: u8) -> usize {
    usize::from((port - 1) / 2)
}

/// Whether a state waits for hardware.
fn hardware_works(state: LinkState) -> bool {
    matches!(state, LinkState::SLock | LinkState::Calibration(_))
}

/// A start under the parent that the other port is.
fn start_under(clock: &Clock, parent: u8) -> LinkEvent {
    LinkEvent::Start {
        parent_config: clock.link_settings(parent).config,
        parent_mode_on: clock.link(parent).mode_on,
    }
}

/// What arrives next, if anything: mostly the first under way, now and then one
/// of the later ones, and now and then it arrives once more.
fn arrival(random: &mut Random, wire: &mut VecDeque<(u8, u16)>) -> Option<(u8, u16)> {
    if wire.is_empty() {
        return None;
    }
    let at = if random.chance(1, 16) {
        random.place(wire.len())
    } else {
        0
    };
    if random.chance(1, 16) {
        wire.get(at).copied()
    } else {
        wire.remove(at)
    }
}

/// Puts what an event makes a port send on its wire; some of it is lost.
fn send(random: &mut Random, clock: &Clock, wires: &mut Wires, port: u8, event: LinkEvent) {
    let step = clock.link(port).step(clock.link_settings(port), event);
    let other = if port % 2 == 1 { port + 1 } else { port - 1 };
    let wire = &mut wires.under_way[wire_of(port)];
    for message in step.sent {
        if wire.len() < 8 && random.chance(15, 16) {
            wire.push_back((other, message.number()));
        }
    }
}

/// The line of an event.
fn event_line(random: &mut Random, port: u8, event: LinkEvent) -> Vec<u8> {
    let line = CallLine::named("link").number(random, port);
    match event {
        LinkEvent::Start {
            parent_config,
            parent_mode_on,
        } => line
            .word("start")
            .number(random, parent_config)
            .number(random, u8::from(parent_mode_on)),
        LinkEvent::Message(number) => line.word("message").number(random, number),
        LinkEvent::Done => line.word("done"),
        LinkEvent::Timeout => line.word("timeout"),
        LinkEvent::Stop => line.word("stop"),
    }
    .text()
}
