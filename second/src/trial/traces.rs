//! Traces: what senders said on several ports, in blocks as a recording makes
//! them or split in any other way.

use super::candidates::port;
use super::history_lines::{edge_of_any, heard, received, senders_of};
use super::messages::noise;
use super::question_lines::heard_ports;
use super::random::Random;
use super::scene_lines::{announced, later, speakers, start_time};
use super::steps::stray_steps;
use super::values;
use crate::engine::block::{block_of, fits, octets_left, LONGEST_MESSAGE, RECORD_HEAD};
use crate::engine::candidate::{is_port, Candidate};
use crate::engine::clock::Clock;
use crate::engine::octets::u16_at;
use crate::engine::received::Received;
use crate::engine::recording::Recording;

/// A reserved field of a message of four octets, which no reader looks at.
const RESERVED_AT: usize = 16;

/// The longest message that fits where a block has so many octets left; 0 where
/// none does.
pub fn longest_that_fits(octets_left: usize) -> usize {
    octets_left.saturating_sub(RECORD_HEAD)
}

/// Messages that ports of a clock receive at times that never fall, which the
/// clock takes as they are made: mostly Announces of a few senders, with others
/// of any kind and fault among them.  All of them can be recorded.
pub fn history(random: &mut Random, clock: &mut Clock, base: &Candidate) -> Vec<Received> {
    let mut time = start_time(random, clock);
    let speakers = few_speakers(random, clock, base);
    let they_stray = random.chance(1, 3);
    let pace = pace(random);
    let mut history = Vec::new();
    for _ in 0..random.pick(&[1, 2, 2, 2, 2, 3, 3, 3, 4]) {
        for speaker in &speakers {
            time = later(random, time, pace);
            if random.chance(1, 12) {
                let stray = any_message(random, clock, time);
                history.push(heard(clock, stray));
            }
            if random.chance(1, 12) {
                continue;
            }
            let mut speaker = *speaker;
            if they_stray && random.chance(1, 4) {
                speaker.steps_removed = stray_steps(random);
            }
            let announce = cut(announced(random, clock, &speaker, time));
            history.push(heard(clock, announce));
        }
    }
    if random.chance(1, 3) {
        let last = last_message(random, clock, time);
        history.push(heard(clock, last));
    }
    history
}

/// A history of so many messages or a few more.
pub fn long_history(
    random: &mut Random,
    clock: &mut Clock,
    base: &Candidate,
    count: usize,
) -> Vec<Received> {
    let mut messages = history(random, clock, base);
    while messages.len() < count {
        let last = messages.last().map_or(0, |last| last.time);
        let more = history(random, clock, base);
        messages.extend(more.into_iter().map(|one| not_before(last, one)));
    }
    messages
}

/// A message at a time, if it would come before it.
fn not_before(time: u64, mut received: Received) -> Received {
    received.time = received.time.max(time);
    received
}

/// How much time lies between two messages at most: so little that all records
/// stay live, or about as much as the windows of the intervals.
fn pace(random: &mut Random) -> u64 {
    let short = random.pick(&[0, 1, 1_000, 10_000_000]);
    let long = random.pick(&[50_000_000, 100_000_000, 300_000_000, 1_000_000_000]);
    random.pick(&[short, short, long])
}

/// Some of a scene's senders, most of the time so few that their Announces fill
/// one to six blocks.
fn few_speakers(random: &mut Random, clock: &Clock, base: &Candidate) -> Vec<Candidate> {
    let mut speakers = speakers(random, clock, base);
    let most = random.pick(&[1, 2, 3, 4, 5, 6, 8, 10]);
    speakers.truncate(if random.chance(1, 30) { 40 } else { most });
    speakers
}

/// A message without its end where it is too long to be recorded.
fn cut(mut received: Received) -> Received {
    received.octets.truncate(LONGEST_MESSAGE);
    received
}

/// A message of any kind for a port of the clock, at a time.
fn any_message(random: &mut Random, clock: &Clock, time: u64) -> Received {
    let one = cut(received(random, clock));
    Received {
        port: if is_port(one.port) {
            one.port
        } else {
            port(random)
        },
        time,
        octets: match random.below(4) {
            0 => cut_noise(random),
            _ => one.octets,
        },
    }
}

/// Octets of no message, of any length that can be recorded.
fn cut_noise(random: &mut Random) -> Vec<u8> {
    let any = random.place(LONGEST_MESSAGE + 1);
    let count = random.pick(&[0, 0, LONGEST_MESSAGE, any]);
    let octets = random.octets(count);
    if random.chance(1, 2) {
        octets
    } else {
        noise(random)
    }
}

/// A message, mostly none that is taken, at the end of a record's window, one
/// later, or far later.
fn last_message(random: &mut Random, clock: &Clock, time: u64) -> Received {
    let ports = heard_ports(clock);
    let later = if ports.is_empty() || random.chance(1, 4) {
        later(random, time, 8_000_000_000)
    } else {
        let port = random.pick(&ports);
        edge_of_any(random, senders_of(clock, port)).max(time)
    };
    let last = any_message(random, clock, later);
    if random.chance(1, 3) {
        last
    } else {
        Received {
            octets: Vec::new(),
            ..last
        }
    }
}

/// The number of a trace's first block: mostly few, else where more octets of
/// the number change, or at its end.
pub fn first_number(random: &mut Random) -> u32 {
    let few = random.below(4) as u32;
    let middle = random.pick(&[0xff, 0xffff, 0x00ff_ffff, 0x7fff_ffff]);
    match random.below(6) {
        0 => values::number(random, 32) as u32,
        1 => middle - few,
        2 => u32::MAX - 300 + few,
        _ => few,
    }
}

/// The blocks of a history: as a recording makes them, which is how most are
/// made, each record in a block of its own, or split anywhere, with numbers that
/// rise by one or jump.
pub fn blocks(random: &mut Random, history: &[Received]) -> Vec<Vec<u8>> {
    let first = first_number(random).min(u32::MAX - history.len() as u32);
    match random.below(10) {
        0..=4 => recorded_from(0, history),
        5 => recorded_from(first, history),
        6 if history.len() <= 12 => {
            let singly: Vec<&[Received]> = history.chunks(1).collect();
            numbered(random, first, &singly)
        }
        _ => {
            let groups = grouped(random, history);
            numbered(random, first, &groups)
        }
    }
}

/// The blocks that a recording makes of a history, numbered from a number on.
fn recorded_from(number: u32, history: &[Received]) -> Vec<Vec<u8>> {
    let mut recording = Recording::beginning_at(number);
    let closed = history.iter().map(|one| recording.record(one));
    let mut blocks: Vec<Vec<u8>> = closed.flatten().flatten().collect();
    blocks.extend(recording.open_block());
    blocks
}

/// A history in groups that fit into a block each, many of which would hold more.
fn grouped<'a>(random: &mut Random, history: &'a [Received]) -> Vec<&'a [Received]> {
    let share = random.pick(&[2, 4, 8]);
    let mut groups = Vec::new();
    let mut begin = 0;
    for at in 1..=history.len() {
        let is_last = at == history.len();
        if is_last || !fits(&history[at], &history[begin..at]) || random.chance(1, share) {
            groups.push(&history[begin..at]);
            begin = at;
        }
    }
    groups
}

/// The blocks of some groups of records, with numbers that rise from a first one
/// on, which leaves enough of them.
fn numbered(random: &mut Random, first: u32, groups: &[&[Received]]) -> Vec<Vec<u8>> {
    let mut number = first;
    let they_jump = random.chance(1, 2);
    let mut blocks = Vec::new();
    for (group, to_come) in groups.iter().zip((0..groups.len() as u32).rev()) {
        blocks.push(block_of(number, &with_edge_check(random, number, group)));
        let most = u32::MAX - number - to_come;
        let jump = random.pick(&[0, 1, 254, 255, 256, 65_535, 1 << 24, u32::MAX]);
        let jump = if they_jump { jump.min(most) } else { 0 };
        number = number.saturating_add(jump).saturating_add(1);
    }
    blocks
}

/// A block's records; now and then with something else in a reserved field, so
/// that the check word is at an end of its range.
fn with_edge_check(random: &mut Random, number: u32, group: &[Received]) -> Vec<Received> {
    let mut group = group.to_vec();
    if random.chance(1, 4) {
        let block = block_of(number, &group);
        let taken_up = block.len() - octets_left(&group);
        if let Some(last) = group.last_mut() {
            let begin = taken_up - last.octets.len();
            let check = random.pick(&[65_535, 65_535, 1]);
            aim_check(&block, begin, check, &mut last.octets);
        }
    }
    group
}

/// Changes a word of a message so that the block it stands in, from a place on,
/// has this check word: in a reserved field where the message has one, else at
/// its begin, and none where it is too short.
pub fn aim_check(block: &[u8], begin: usize, check: u16, message: &mut [u8]) {
    let field = if message.len() >= RESERVED_AT + 4 {
        RESERVED_AT
    } else {
        0
    };
    let at = field + (begin + field) % 2;
    if at + 2 <= message.len() {
        let word = word_for_check(block, begin + at, check);
        message[at..at + 2].copy_from_slice(&word.to_be_bytes());
    }
}

/// What a sealed block's word at an even place has to be for another check word.
pub fn word_for_check(block: &[u8], at: usize, check: u16) -> u16 {
    let sum = u32::from(u16_at(block, at)) + u32::from(u16_at(block, 0));
    ((sum + 65_535 - u32::from(check)) % 65_535) as u16
}
