//! Lines of `take`, `candidates`, `records` and `interval` that make up whole
//! histories: senders that come back, come too often or come new, at times that
//! stand still, run, go back or hit the ends of windows exactly.  What makes up
//! the messages of a `burst` is here too.

use super::call_line::CallLine;
use super::candidates::{port, quality, FOREIGN_PORTS};
use super::messages::{self, Draft};
use super::random::Random;
use super::steps::any_steps;
use super::values;
use crate::engine::clock::Clock;
use crate::engine::message::{Announce, Body, Header, PortIdentity, LISTED_TYPES};
use crate::engine::received::Received;
use crate::engine::senders::{Record, Senders};

/// Lines of `take`: mostly one, now and then a flood of new names.
pub fn take_lines(random: &mut Random, clock: &Clock) -> Vec<Vec<u8>> {
    let run = if random.chance(1, 500) {
        flood(random, clock)
    } else {
        vec![received(random, clock)]
    };
    run.iter().map(|one| line_of_take(random, one)).collect()
}

/// Announces on one port, each from a sender that was never heard before, at
/// times that stand still or hardly run: more than the port has slots.
fn flood(random: &mut Random, clock: &Clock) -> Vec<Received> {
    let port = asked_port(random);
    let mut time = senders_of(clock, port).last_time;
    let count = random.pick(&[17, 18, 33, 100]);
    let mut run = Vec::new();
    for _ in 0..count {
        time = time.saturating_add(random.below(2));
        let header = Header {
            domain: clock.domain,
            source: new_name(random),
            ..messages::header(random)
        };
        let body = announce_body(random);
        let octets = Draft::sound(random, clock.magic, header, body).octets;
        run.push(Received { port, time, octets });
    }
    run
}

/// What a port is to take: mostly an Announce, now and then with a fault.
pub fn received(random: &mut Random, clock: &Clock) -> Received {
    let port = asked_port(random);
    let senders = senders_of(clock, port);
    let time = time_to_take(random, senders);
    let mut draft = announcement(random, clock, senders);
    match random.below(20) {
        0..=3 => draft.weather(random, clock.magic),
        4 | 5 => draft.give_bad_tail(random, clock.magic),
        _ => {}
    }
    let octets = draft.octets;
    Received { port, time, octets }
}

/// A message that the clock has taken or refused, so that the next can be aimed
/// at what it made of the clock.
pub fn heard(clock: &mut Clock, received: Received) -> Received {
    let _ = clock.take(&received);
    received
}

/// The line of `take` for a message.
pub fn line_of_take(random: &mut Random, received: &Received) -> Vec<u8> {
    CallLine::named("take").received(random, received).text()
}

/// The line of `burst` for some messages.
pub fn line_of_burst(random: &mut Random, burst: &[Received]) -> Vec<u8> {
    line_of_counted(random, burst.len() as u64, burst)
}

/// The line of `burst` for some messages that tells a count, theirs or another.
pub fn line_of_counted(random: &mut Random, count: u64, burst: &[Received]) -> Vec<u8> {
    let line = CallLine::named("burst").number(random, count);
    let add = |line: CallLine, one| line.received(random, one);
    burst.iter().fold(line, add).text()
}

/// A line of `candidates` for any port.
pub fn candidates_line(random: &mut Random, clock: &Clock) -> Vec<u8> {
    let port = asked_port(random);
    line_of_candidates(random, clock, port)
}

/// A line of `candidates` for a port.
pub fn line_of_candidates(random: &mut Random, clock: &Clock, port: u8) -> Vec<u8> {
    let time = time_to_ask(random, senders_of(clock, port));
    CallLine::named("candidates")
        .number(random, port)
        .number(random, time)
        .text()
}

/// A line of `records` for any port.
pub fn any_records_line(random: &mut Random) -> Vec<u8> {
    let port = asked_port(random);
    records_line(random, port)
}

/// The line of `records` for a port.
pub fn records_line(random: &mut Random, port: u8) -> Vec<u8> {
    CallLine::named("records").number(random, port).text()
}

/// A line of `interval` for any port.
pub fn any_interval_line(random: &mut Random) -> Vec<u8> {
    let port = asked_port(random);
    interval_line(random, port)
}

/// A line of `interval` for a port.
pub fn interval_line(random: &mut Random, port: u8) -> Vec<u8> {
    let log_interval = match random.below(8) {
        0 => random.pick(&[-4, 5, -128, 127, 6, -5]),
        1 => values::octet(random) as i8,
        2..=4 => random.pick(&[0, -1, 1]),
        _ => random.pick(&[-3, -2, 2, 3, 4]),
    };
    CallLine::named("interval")
        .number(random, port)
        .number(random, log_interval)
        .text()
}

/// A port: mostly one of three, so that their histories grow; now and then none
/// of the clock's.
pub fn asked_port(random: &mut Random) -> u8 {
    match random.below(40) {
        0 => random.pick(&FOREIGN_PORTS),
        1..=9 => port(random),
        _ => random.pick(&[1, 2, 18]),
    }
}

/// The records to aim at: the port's, or those of port 1 where it has none.
pub fn senders_of(clock: &Clock, port: u8) -> &Senders {
    clock.senders(port).unwrap_or_else(|_| clock.first_port())
}

/// The time of an Announce: mostly a small step on.
pub fn time_to_take(random: &mut Random, senders: &Senders) -> u64 {
    let last = senders.last_time;
    let window = senders.window();
    match random.below(1000) {
        0..=149 => last,
        150..=649 => last.saturating_add(random.below(window / 64)),
        650..=749 => last.saturating_add(random.below(window / 8)),
        750..=849 => edge_of_oldest(random, senders).max(last),
        850..=889 => edge_of_any(random, senders).max(last),
        890..=899 => edge_of_any(random, senders),
        900..=929 => before(random, last),
        930..=939 => last.saturating_add(window + random.below(2 * window)),
        940 if random.chance(1, 8) => far_time(random).max(last),
        _ => last.saturating_add(1),
    }
}

/// The time of a question: at the last time, at the end of a window, later, or
/// too early.
pub fn time_to_ask(random: &mut Random, senders: &Senders) -> u64 {
    let last = senders.last_time;
    match random.below(20) {
        0..=5 => last,
        6..=8 => last.saturating_add(random.below(senders.window())),
        9..=15 => edge_of_any(random, senders).max(last),
        16 => edge_of_any(random, senders),
        17 => far_time(random),
        _ => before(random, last),
    }
}

/// A time below the last, where there is one.
pub fn before(random: &mut Random, last: u64) -> u64 {
    match random.below(4) {
        0 => 0,
        1 => random.below(last.max(1)),
        _ => last.saturating_sub(1),
    }
}

/// A time that only 64 bits hold.
pub fn far_time(random: &mut Random) -> u64 {
    let times = [u64::MAX, u64::MAX - 1, 1 << 63, i64::MAX as u64, 1 << 62];
    random.pick(&times)
}

/// The last time at which the record that is longest unheard is live, or one
/// later.
fn edge_of_oldest(random: &mut Random, senders: &Senders) -> u64 {
    let oldest = senders.held().map(|(_, record)| record.newest).min();
    let edge = oldest.unwrap_or(0).saturating_add(senders.window());
    edge.saturating_add(random.below(2))
}

/// The end of the window after one of a record's receipts, or one later.
pub fn edge_of_any(random: &mut Random, senders: &Senders) -> u64 {
    let Some(record) = some_record(random, senders) else {
        return senders.last_time;
    };
    let older = record.older.unwrap_or(record.newest);
    let receipt = random.pick(&[record.newest, older, older]);
    receipt
        .saturating_add(senders.window())
        .saturating_add(random.below(2))
}

/// One of a port's records, if it has any.
fn some_record(random: &mut Random, senders: &Senders) -> Option<Record> {
    let records: Vec<Record> = senders.held().map(|(_, record)| record).collect();
    (!records.is_empty()).then(|| random.pick(&records))
}

/// An Announce, mostly one that the port takes, now and then another message.
pub fn announcement(random: &mut Random, clock: &Clock, senders: &Senders) -> Draft {
    let held = some_record(random, senders);
    let source = source(random, clock, held);
    let known = senders
        .held()
        .find(|(_, record)| record.announced.sender == source);
    let header = Header {
        domain: if random.chance(1, 30) {
            clock.domain ^ 1 << random.below(8)
        } else {
            clock.domain
        },
        source,
        sequence: match known {
            Some((_, record)) => next_sequence(random, record.announced.sequence),
            None => values::u16(random),
        },
        ..messages::header(random)
    };
    let body = if random.chance(1, 40) {
        let message_type = random.pick(&LISTED_TYPES);
        messages::body(random, message_type)
    } else {
        announce_body(random)
    };
    Draft::sound(random, clock.magic, header, body)
}

/// An Announce's body, mostly of few values so that candidates meet.
fn announce_body(random: &mut Random) -> Body {
    let mut fields = Announce {
        steps_removed: any_steps(random),
        ..messages::announce(random)
    };
    if random.chance(3, 4) {
        let quality = quality(random);
        fields = Announce {
            priority1: quality.priority1,
            class: quality.class,
            accuracy: quality.accuracy,
            variance: quality.variance,
            priority2: quality.priority2,
            ..fields
        };
    }
    Body::Announce(values::timestamp(random), fields)
}

/// The sender: mostly one that has a record, else one of a few, a new one, or
/// our own clock.
fn source(random: &mut Random, clock: &Clock, held: Option<Record>) -> PortIdentity {
    match (random.below(32), held) {
        (0..=15, Some(record)) => record.announced.sender,
        (16, Some(record)) => PortIdentity {
            port: record.announced.sender.port ^ 1,
            ..record.announced.sender
        },
        (17, _) => PortIdentity {
            clock: clock.identity,
            port: random.below(20) as u16,
        },
        (18..=21, _) => new_name(random),
        (22, _) => values::identity(random),
        _ => PortIdentity {
            clock: 0x001b_19ff_fe00_0000 + random.below(18),
            port: 1,
        },
    }
}

/// A sender that was hardly heard before.
pub fn new_name(random: &mut Random) -> PortIdentity {
    PortIdentity {
        clock: random.word(),
        port: 1,
    }
}

/// The sequenceId after an old one: mostly the next, else at the edges of what
/// is newer.
fn next_sequence(random: &mut Random, old: u16) -> u16 {
    let any = random.word() as u16;
    let few = 1 + random.below(300) as u16;
    let far = random.pick(&[0, 32_767, 32_768, 32_766, 32_769, 65_535, few, any]);
    let step = if random.chance(3, 4) { 1 } else { far };
    old.wrapping_add(step)
}
