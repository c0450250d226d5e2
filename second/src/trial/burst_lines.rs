//! Lines of `burst`: no message, one, a few or dozens in one call, as many as
//! it may hold, one more and far more.  Some fill a port or the whole clock, in
//! some the times fall or messages come again, and messages with every fault
//! stand among sound ones.  Questions follow that show what became of them.

use super::candidates::{all_ports, candidate, FOREIGN_PORTS};
use super::history_lines::{
    announcement, asked_port, before, heard, line_of_burst, line_of_candidates, line_of_counted,
    new_name, received, records_line, senders_of, time_to_take,
};
use super::messages::noise;
use super::question_lines::{all_line, latest_time, line_of_best};
use super::random::Random;
use super::ranking_lines::shuffled;
use super::scene_lines::announced;
use super::settings_lines::fresh_line;
use super::steps::{any_steps, near_steps, stray_steps};
use super::story::Story;
use crate::engine::candidate::Candidate;
use crate::engine::clock::Clock;
use crate::engine::message::{MessageType, PortIdentity, HEADER_SIZE};
use crate::engine::octets::u16_at;
use crate::engine::received::Received;

/// Longer than the window of any interval, so that all records are expired.
const PAST_EVERY_WINDOW: u64 = 65_000_000_000;
/// Where a message's sequenceId stands.
const SEQUENCE_AT: usize = 30;
/// Where an Announce's stepsRemoved stands.
const STEPS_AT: usize = 61;

/// The lines of a burst, or of two by the same senders, and of questions behind
/// it.
pub fn burst_lines(random: &mut Random, clock: &Clock) -> Vec<Vec<u8>> {
    let mut story = Story::beginning(clock);
    if random.chance(1, 16) {
        story.say(fresh_line());
    }
    let mut messages = burst(random, &mut story.clock.clone());
    take(random, &mut story, &messages);
    if random.chance(1, 6) {
        messages = next_round(random, &messages);
        take(random, &mut story, &messages);
    }
    ask(random, &mut story, &messages);
    story.lines
}

/// Adds the line of a burst.
fn take(random: &mut Random, story: &mut Story, burst: &[Received]) {
    story.lines.push(burst_line(random, burst));
    let _ = story.clock.take_burst(burst);
}

/// Asks for the records of a port that a burst was for and, half of the time,
/// what follows from the records of another.
fn ask(random: &mut Random, story: &mut Story, burst: &[Received]) {
    if burst.is_empty() {
        return;
    }
    let port = some(random, burst).port;
    story.say(records_line(random, port));
    let port = some(random, burst).port;
    match random.below(8) {
        0 | 1 => story.say(line_of_candidates(random, &story.clock, port)),
        2 => story.say(line_of_best(random, &story.clock, port)),
        3 => story.say(all_line(random, &story.clock)),
        _ => {}
    }
}

/// The line of a burst; now and then it tells another count than it has.
fn burst_line(random: &mut Random, burst: &[Received]) -> Vec<u8> {
    if random.chance(49, 50) {
        return line_of_burst(random, burst);
    }
    let count = burst.len() as u64;
    let fewer = count.saturating_sub(1);
    let other = random.pick(&[count + 1, fewer, 0, 288, 289, 400, 401, u64::MAX]);
    line_of_counted(random, other, burst)
}

/// One of a burst's messages.
fn some<'a>(random: &mut Random, burst: &'a [Received]) -> &'a Received {
    &burst[random.place(burst.len())]
}

/// The messages of a burst, which the clock takes as they are made.
fn burst(random: &mut Random, clock: &mut Clock) -> Vec<Received> {
    let few = 2 + random.place(8);
    let dozens = 10 + random.place(40);
    match random.below(100) {
        0..=3 => Vec::new(),
        4..=13 => any(random, clock, 1),
        14..=62 => any(random, clock, few),
        63..=69 => any(random, clock, dozens),
        70..=77 => {
            let count = random.pick(&[16, 17, 17, 18, 32, 33, 34, 36]);
            crowd(random, clock, count)
        }
        78..=83 => falling(random, clock, 2 * few),
        84..=91 => repeated(random, clock, 2 * few),
        92..=95 => short(random, clock, dozens),
        _ => long(random, clock),
    }
}

/// Mostly about as many messages as a burst may hold, else fewer or far more.
fn long(random: &mut Random, clock: &mut Clock) -> Vec<Received> {
    let count = match random.below(20) {
        0..=4 => 287,
        5..=10 => 288,
        11..=16 => 289,
        17 => 60 + random.place(227),
        18 => 290 + random.place(110),
        _ => random.pick(&[400, 401]),
    };
    match random.below(8) {
        0 => any(random, clock, count),
        1 => crowd(random, clock, count),
        2 => house(random, clock, count),
        _ => short(random, clock, count),
    }
}

/// Messages of every kind, each aimed at what the ones before it made of the
/// clock.
fn any(random: &mut Random, clock: &mut Clock, count: usize) -> Vec<Received> {
    let next = |_| {
        let received = received(random, clock);
        heard(clock, received)
    };
    (0..count).map(next).collect()
}

/// Messages most of which are far too short, with others here and there.
fn short(random: &mut Random, clock: &mut Clock, count: usize) -> Vec<Received> {
    let next = |_| {
        let received = match random.below(16) {
            0 => received(random, clock),
            _ => scrap(random),
        };
        heard(clock, received)
    };
    (0..count).map(next).collect()
}

/// Octets of no message, mostly two at most, for any port and often for none of
/// the clock's.
fn scrap(random: &mut Random) -> Received {
    let foreign = random.pick(&FOREIGN_PORTS);
    let port = asked_port(random);
    let count = random.place(3);
    Received {
        port: random.pick(&[port, port, port, foreign]),
        time: random.below(10),
        octets: match random.below(16) {
            0 => noise(random),
            _ => random.octets(count),
        },
    }
}

/// Announces for two ports at times that stand still, run by one or fall.
fn falling(random: &mut Random, clock: &mut Clock, count: usize) -> Vec<Received> {
    let ports = [asked_port(random), asked_port(random)];
    let next = |_| {
        let port = random.pick(&ports);
        let senders = senders_of(clock, port);
        let last = senders.last_time;
        let earlier = before(random, last);
        let time = random.pick(&[last, last.saturating_add(1), earlier]);
        let octets = announcement(random, clock, senders).octets;
        heard(clock, Received { port, time, octets })
    };
    (0..count).map(next).collect()
}

/// Messages about half of which came before in the burst, with the same
/// sequenceId.
fn repeated(random: &mut Random, clock: &mut Clock, count: usize) -> Vec<Received> {
    let mut burst: Vec<Received> = Vec::new();
    for _ in 0..count {
        let received = if burst.is_empty() || random.chance(1, 2) {
            received(random, clock)
        } else {
            let one = some(random, &burst);
            again(random, clock, one)
        };
        burst.push(heard(clock, received));
    }
    burst
}

/// A message once more: as it was, at another time or for another port.
fn again(random: &mut Random, clock: &Clock, one: &Received) -> Received {
    let mut again = one.clone();
    let senders = senders_of(clock, one.port);
    match random.below(6) {
        0 => again.port = asked_port(random),
        1 => again.time = time_to_take(random, senders),
        2..=4 => again.time = senders.last_time,
        _ => {}
    }
    again
}

/// Different senders on one port at one time: as many as it has slots, or more.
fn crowd(random: &mut Random, clock: &mut Clock, count: usize) -> Vec<Received> {
    let port = asked_port(random);
    let senders = senders_of(clock, port);
    let last = senders.last_time;
    let later = last.saturating_add(senders.window() + 1);
    let time = random.pick(&[last, last.saturating_add(1), later, later]);
    let speakers = strangers(random, &[port], count);
    spoken(random, clock, &speakers, time)
}

/// Different senders on all ports at one time: sixteen on each are as many as
/// the clock has slots.
fn house(random: &mut Random, clock: &mut Clock, count: usize) -> Vec<Received> {
    let last = latest_time(clock);
    let time = last.saturating_add(random.pick(&[0, PAST_EVERY_WINDOW, PAST_EVERY_WINDOW]));
    let ports = all_ports(random);
    let mut speakers = strangers(random, &ports, count);
    match random.below(3) {
        0 => speakers.sort_by_key(|speaker| speaker.port),
        1 => speakers = shuffled(random, speakers),
        _ => {}
    }
    spoken(random, clock, &speakers, time)
}

/// So many senders of new names on ports in turn.  Now and then half of them
/// come twice; now and then they are ports of one clock; half of the time none
/// is distant.
fn strangers(random: &mut Random, ports: &[u8], count: usize) -> Vec<Candidate> {
    let one_clock = random.chance(1, 3);
    let all_near = random.chance(1, 2);
    let first = new_name(random);
    let different = random.pick(&[count, count, count.div_ceil(2)]);
    let stranger = |number: usize| Candidate {
        sender: if one_clock {
            PortIdentity {
                port: number as u16,
                ..first
            }
        } else {
            new_name(random)
        },
        port: ports[number % ports.len()],
        steps_removed: if all_near {
            near_steps(random)
        } else {
            any_steps(random)
        },
        ..candidate(random)
    };
    let strangers: Vec<Candidate> = (0..different).map(stranger).collect();
    strangers.into_iter().cycle().take(count).collect()
}

/// An Announce of each of some senders.
fn spoken(
    random: &mut Random,
    clock: &mut Clock,
    speakers: &[Candidate],
    time: u64,
) -> Vec<Received> {
    let next = |speaker| {
        let received = announced(random, clock, speaker, time);
        heard(clock, received)
    };
    speakers.iter().map(next).collect()
}

/// The messages of a burst once more, all a little later, each with the next
/// sequenceId; half of the time some of the Announces stray.
fn next_round(random: &mut Random, burst: &[Received]) -> Vec<Received> {
    let step = random.pick(&[0, 1, 1_000, 50_000_000]);
    let they_stray = random.chance(1, 2);
    let mut round = burst.to_vec();
    for one in &mut round {
        one.time = one.time.saturating_add(step);
        if one.octets.len() >= HEADER_SIZE {
            let sequence = u16_at(&one.octets, SEQUENCE_AT).wrapping_add(1);
            put_u16(&mut one.octets, SEQUENCE_AT, sequence);
        }
        if they_stray && is_announce(&one.octets) && random.chance(1, 4) {
            put_u16(&mut one.octets, STEPS_AT, stray_steps(random));
        }
    }
    round
}

/// Whether octets hold an Announce's fields.
fn is_announce(octets: &[u8]) -> bool {
    let announce = MessageType::Announce;
    octets.len() >= announce.fixed_size() && octets[0] & 0x0f == announce.number()
}

/// Puts a 16-bit number at a place.
fn put_u16(octets: &mut [u8], at: usize, number: u16) {
    octets[at..at + 2].copy_from_slice(&number.to_be_bytes());
}
