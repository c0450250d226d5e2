//! Lines of `record`, `trace` and `recording`: messages of every length up to
//! what fits into the open block exactly, one octet more, and the longest that
//! is recorded; ports and times on both sides of what is refused; and numbers
//! that are soon at their end.

use super::call_line::CallLine;
use super::candidates::{port, FOREIGN_PORTS};
use super::history_lines::{before, far_time, received};
use super::random::Random;
use super::settings_lines::fresh_line;
use super::story::Story;
use super::traces::{aim_check, first_number, longest_that_fits};
use crate::engine::block::LONGEST_MESSAGE;
use crate::engine::clock::Clock;
use crate::engine::received::Received;
use crate::engine::recording::Recording;

/// A time from which a recording mostly begins anew.
const LATE: u64 = 1 << 62;

/// Lines of `record`: mostly one, now and then behind a new recording.
pub fn record_lines(random: &mut Random, clock: &Clock) -> Vec<Vec<u8>> {
    let is_late = clock.recording.last_time() > LATE;
    if random.chance(1, 60) || is_late && random.chance(1, 3) {
        return recording_lines(random, clock);
    }
    let mut story = Story::beginning(clock);
    record(random, &mut story);
    if random.chance(1, 8) {
        story.say(trace_line());
    }
    story.lines
}

/// Lines of a new recording, mostly with some records in it: where its number is
/// one of the last, as many as it may hold and more.
pub fn recording_lines(random: &mut Random, clock: &Clock) -> Vec<Vec<u8>> {
    let mut story = Story::beginning(clock);
    if random.chance(1, 6) {
        story.say(fresh_line());
    } else {
        story.say(recording_line(random));
    }
    if random.chance(1, 6) {
        story.say(trace_line());
    }
    for _ in 0..random.pick(&[0, 1, 2, 4, 8, 12]) {
        record(random, &mut story);
        if random.chance(1, 6) {
            story.say(trace_line());
        }
    }
    story.lines
}

/// A line of `recording`.
fn recording_line(random: &mut Random) -> Vec<u8> {
    let few = random.below(4) as u32;
    let last = u32::MAX - few;
    let any = first_number(random);
    let number = random.pick(&[last, last, u32::MAX, any, any, few]);
    line_of_recording(random, number)
}

/// The line of `recording` for a number.
pub fn line_of_recording(random: &mut Random, number: u32) -> Vec<u8> {
    CallLine::named("recording").number(random, number).text()
}

/// `trace`
pub fn trace_line() -> Vec<u8> {
    CallLine::named("trace").text()
}

/// The line of `record` for a message.
pub fn line_of_record(random: &mut Random, received: &Received) -> Vec<u8> {
    CallLine::named("record").received(random, received).text()
}

/// Adds a line of `record`.
fn record(random: &mut Random, story: &mut Story) {
    let received = to_record(random, &story.clock);
    story.say(line_of_record(random, &received));
}

/// What is to be recorded, mostly without a fault.
fn to_record(random: &mut Random, clock: &Clock) -> Received {
    let recording = &clock.recording;
    let mut one = Received {
        port: if random.chance(1, 12) {
            random.pick(&FOREIGN_PORTS)
        } else {
            port(random)
        },
        time: time_to_record(random, recording.last_time()),
        octets: message(random, clock),
    };
    if random.chance(1, 6) {
        give_edge_check(random, recording, &mut one);
    }
    one
}

/// The time of a record: mostly the last one or a little later.
fn time_to_record(random: &mut Random, last: u64) -> u64 {
    match random.below(200) {
        0..=69 => last,
        70..=109 => last.saturating_add(1),
        110..=159 => last.saturating_add(random.below(1 << 30)),
        160..=175 => last.saturating_add(random.below(1 << 40)),
        176 => far_time(random).max(last),
        _ => before(random, last),
    }
}

/// A message: an Announce or another with any fault, or octets of some length.
fn message(random: &mut Random, clock: &Clock) -> Vec<u8> {
    if random.chance(1, 3) {
        return received(random, clock).octets;
    }
    let count = length(random, clock.recording.octets_left());
    match random.below(8) {
        0 => vec![0; count],
        1 => vec![0xff; count],
        _ => random.octets(count),
    }
}

/// A message's length, often at an edge of what the open block has left or of
/// what is recorded at all.
fn length(random: &mut Random, octets_left: usize) -> usize {
    let fitting = longest_that_fits(octets_left);
    match random.below(100) {
        0..=9 => 0,
        10..=15 => 1 + random.place(43),
        16..=45 => 44 + random.place(47),
        46..=55 => fitting,
        56..=63 => fitting + 1,
        64..=67 => fitting.saturating_sub(1),
        68..=70 => LONGEST_MESSAGE - 1,
        71..=75 => LONGEST_MESSAGE,
        76..=82 => LONGEST_MESSAGE + 1,
        83..=84 => random.pick(&[487, 496, 511, 512, 741, 996, 1500]),
        85 if random.chance(1, 8) => random.pick(&[65_535, 65_536, 65_600, 66_021]),
        _ => random.place(LONGEST_MESSAGE + 1),
    }
}

/// Changes a message so that the open block with it has a check word at an end
/// of its range, if it fits.
fn give_edge_check(random: &mut Random, recording: &Recording, one: &mut Received) {
    let mut with_it = recording.clone();
    if let (Ok(None), Some(block)) = (with_it.record(one), with_it.open_block()) {
        let begin = block.len() - with_it.octets_left() - one.octets.len();
        let check = random.pick(&[65_535, 65_535, 65_534, 1, 2]);
        aim_check(&block, begin, check, &mut one.octets);
    }
}
