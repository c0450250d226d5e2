//! Lines of `best` and `all`: at the last accepted times, at the ends of the
//! records' windows and one later, and below the last time of one port.

use super::call_line::CallLine;
use super::candidates::{port, FOREIGN_PORTS};
use super::history_lines::{before, edge_of_any, far_time, senders_of, time_to_ask};
use super::random::Random;
use crate::engine::candidate::PORTS;
use crate::engine::clock::Clock;

/// A line of `best`.
pub fn best_line(random: &mut Random, clock: &Clock) -> Vec<u8> {
    let port = if random.chance(1, 30) {
        random.pick(&FOREIGN_PORTS)
    } else {
        busy_port(random, clock)
    };
    line_of_best(random, clock, port)
}

/// A line of `best` for a port.
pub fn line_of_best(random: &mut Random, clock: &Clock, port: u8) -> Vec<u8> {
    let time = time_to_ask(random, senders_of(clock, port));
    CallLine::named("best")
        .number(random, port)
        .number(random, time)
        .text()
}

/// A line of `all`.
pub fn all_line(random: &mut Random, clock: &Clock) -> Vec<u8> {
    let time = time_for_all(random, clock);
    CallLine::named("all").number(random, time).text()
}

/// The time of a question to all ports.
fn time_for_all(random: &mut Random, clock: &Clock) -> u64 {
    let latest = latest_time(clock);
    let port = busy_port(random, clock);
    let senders = senders_of(clock, port);
    match random.below(20) {
        0..=6 => latest,
        7..=9 => latest.saturating_add(random.below(senders.window())),
        10..=14 => edge_of_any(random, senders).max(latest),
        15 => edge_of_any(random, senders),
        16 => senders.last_time,
        17 => far_time(random),
        _ => before(random, latest),
    }
}

/// A port, mostly one that has records.
fn busy_port(random: &mut Random, clock: &Clock) -> u8 {
    let heard = heard_ports(clock);
    if heard.is_empty() || random.chance(1, 8) {
        port(random)
    } else {
        random.pick(&heard)
    }
}

/// The ports that have records.
pub fn heard_ports(clock: &Clock) -> Vec<u8> {
    PORTS
        .filter(|&port| senders_of(clock, port).held().next().is_some())
        .collect()
}

/// The latest of all ports' last accepted times.
pub fn latest_time(clock: &Clock) -> u64 {
    PORTS
        .map(|port| senders_of(clock, port).last_time)
        .max()
        .unwrap_or(0)
}
