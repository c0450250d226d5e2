//! Lines of `import`: captures of all four forms with no, one or several faults,
//! and buffers about as large as the trace; behind them the same capture in the
//! other forms, and what shows that the trace can be used.

use super::call_line::CallLine;
use super::candidates::{port, FOREIGN_PORTS};
use super::capture_faults::spoil;
use super::captures::{long_capture, sound_capture, CaptureDraft, FORMS};
use super::export_lines::export_line;
use super::history_lines::records_line;
use super::random::Random;
use super::record_lines::{line_of_record, trace_line};
use super::replay_lines::line_of_replay;
use super::scene_lines::base;
use super::story::Story;
use super::writing_lines::GREATEST_ROOM;
use crate::engine::clock::Clock;
use crate::engine::received::Received;
use crate::engine::refusal::Refusal;
use crate::engine::transfer::{export, import};
use crate::protocol::lines::LONGEST_LINE;

/// The lines of a capture, and of what follows it.
pub fn import_lines(random: &mut Random, clock: &Clock) -> Vec<Vec<u8>> {
    let mut story = Story::beginning(clock);
    let capture = any_capture(random, clock);
    let port = named_port(random);
    let file = capture.octets();
    let records = random.chance(1, 40);
    if records {
        record_before(random, &mut story);
    }
    story.say(import_line(random, port, &file));
    if records {
        story.say(trace_line());
    }
    if random.chance(1, 12) && file.len() < 4000 {
        say_in_all_forms(random, &mut story, port, &capture);
    }
    if let Ok(trace) = import(&file, port) {
        if random.chance(1, 4) && file.len() < 4000 {
            use_trace(random, &mut story, port, &trace);
        }
    }
    story.lines
}

/// A capture, half of the time with a fault or several.
fn any_capture(random: &mut Random, clock: &Clock) -> CaptureDraft {
    let base = base(random);
    let mut capture = if random.chance(1, 2000) {
        long_capture(random)
    } else {
        sound_capture(random, clock, &base)
    };
    let faults = random.pick(&[0, 0, 0, 0, 0, 1, 1, 1, 2, 3]);
    for _ in 0..faults {
        spoil(random, &mut capture);
    }
    capture
}

/// The port that a line names for its file.
fn named_port(random: &mut Random) -> u8 {
    if random.chance(1, 10) {
        return random.pick(&FOREIGN_PORTS);
    }
    let any = port(random);
    random.pick(&[1, 18, any, any])
}

/// A line of `import` with a buffer that fits more or less.
pub fn import_line(random: &mut Random, port: u8, file: &[u8]) -> Vec<u8> {
    let room = room_for(random, &import(file, port));
    line_of_import(random, room, port, file)
}

/// The line of `import` for a buffer, a port and a file, which is cut where a
/// line would be too long for it.
fn line_of_import(random: &mut Random, room: usize, port: u8, file: &[u8]) -> Vec<u8> {
    let file = &file[..file.len().min(most_octets())];
    CallLine::named("import")
        .number(random, room as u64)
        .number(random, port)
        .octets(random, file)
        .text()
}

/// How many octets a line of `import` or `export` has room for, if its numbers
/// are spelled at their longest.
pub fn most_octets() -> usize {
    LONGEST_LINE / 2 - 50
}

/// The octets of a buffer for what a call gives: exactly enough, one too few,
/// far too few, or some too many; a few where it is refused.
pub fn room_for(random: &mut Random, given: &Result<Vec<u8>, Refusal>) -> usize {
    let Ok(needed) = given.as_ref().map(Vec::len) else {
        return random.pick(&[0, 0, 1, 23, 24, 40, 511, 512, 513]);
    };
    let room = match random.below(100) {
        0..=44 => needed,
        45..=56 => needed.saturating_sub(1),
        57..=59 => needed.saturating_sub(512),
        60..=61 => needed / 2,
        62..=64 => 0,
        65 => random.place(needed + 1),
        66..=80 => needed + 1,
        81..=84 => needed + 512,
        _ => needed + 1 + random.place(40),
    };
    if random.chance(1, 600) {
        return GREATEST_ROOM - 1 + random.place(3);
    }
    room.min(GREATEST_ROOM)
}

/// Records something, which an import leaves as it is.
fn record_before(random: &mut Random, story: &mut Story) {
    let count = random.place(40);
    let received = Received {
        port: port(random),
        time: story.clock.recording.last_time(),
        octets: random.octets(count),
    };
    story.say(line_of_record(random, &received));
}

/// Adds the lines of the same capture in every form.
fn say_in_all_forms(random: &mut Random, story: &mut Story, port: u8, capture: &CaptureDraft) {
    for form in FORMS {
        let file = capture.in_form(form).octets();
        story.say(import_line(random, port, &file));
    }
}

/// Adds lines that run an imported trace again, or write it and read it back.
fn use_trace(random: &mut Random, story: &mut Story, port: u8, trace: &[u8]) {
    if random.chance(1, 2) {
        story.say(line_of_replay(random, trace));
        story.say(records_line(random, port));
    }
    if random.chance(1, 2) {
        story.say(export_line(random, trace));
        if let Ok(file) = export(trace) {
            story.say(import_line(random, port, &file));
        }
    }
}
