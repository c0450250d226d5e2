//! Lines of `export`: traces of one port and of several, with times at the end
//! of what 32 bits of seconds hold, in blocks split in all ways, some of them
//! damaged, and buffers about as large as the capture; behind them what was
//! written is read back.

use super::call_line::CallLine;
use super::candidates::port;
use super::captures::END_OF_SECONDS;
use super::damage::damaged;
use super::history_lines::records_line;
use super::import_lines::{import_line, most_octets, room_for};
use super::random::Random;
use super::replay_lines::line_of_replay;
use super::scene_lines::base;
use super::story::Story;
use super::traces::{blocks, history, long_history};
use crate::engine::block::LONGEST_MESSAGE;
use crate::engine::clock::Clock;
use crate::engine::received::Received;
use crate::engine::transfer::{export, import};

/// The lines of a trace, and of what follows it.
pub fn export_lines(random: &mut Random, clock: &Clock) -> Vec<Vec<u8>> {
    let mut story = Story::beginning(clock);
    let records = records(random, clock);
    let trace = trace_of(random, &records);
    story.say(export_line(random, &trace));
    let is_short = trace.len() < 4000;
    if let (Ok(file), true) = (export(&trace), is_short && random.chance(1, 4)) {
        let port = match records.first() {
            Some(first) if random.chance(7, 8) => first.port,
            _ => port(random),
        };
        read_back(random, &mut story, port, &trace, &file);
    }
    story.lines
}

/// A line of `export` with a buffer that fits more or less.
pub fn export_line(random: &mut Random, trace: &[u8]) -> Vec<u8> {
    let trace = &trace[..trace.len().min(most_octets())];
    let room = room_for(random, &export(trace));
    CallLine::named("export")
        .number(random, room as u64)
        .octets(random, trace)
        .text()
}

/// Records of one port; at times with others among them, or with times at the
/// end of what a capture can tell, or both.
fn records(random: &mut Random, clock: &Clock) -> Vec<Received> {
    let mut records = any_records(random, clock);
    let one = port(random);
    for record in &mut records {
        record.port = one;
    }
    if random.chance(1, 5) {
        mix_ports(random, &mut records);
    }
    if random.chance(1, 4) {
        end_late(random, &mut records);
    }
    records
}

/// Records of any ports: what would be heard under a clock's settings, or
/// messages of any length.
fn any_records(random: &mut Random, clock: &Clock) -> Vec<Received> {
    let base = base(random);
    let mut clock = clock.clone();
    clock.forget_senders();
    match random.below(4000) {
        0 | 1 => long_history(random, &mut clock, &base, 700),
        2..=99 => Vec::new(),
        100..=1999 => history(random, &mut clock, &base),
        _ => odd_records(random),
    }
}

/// A few records of messages of any length, at early times.
fn odd_records(random: &mut Random) -> Vec<Received> {
    let mut time = random.pick(&[0, 999_999_999, 1_000_000_000, 1_700_000_000_999_999_999]);
    let count = random.pick(&[1, 1, 1, 2, 2, 3, 4, 6, 10]);
    (0..count)
        .map(|_| {
            time += random.pick(&[0, 0, 1, 999, 1000, 999_999_999, 1_000_000_000]);
            let any = random.place(LONGEST_MESSAGE + 1);
            let length = random.pick(&[0, 0, 1, 2, 30, 44, 46, 64, LONGEST_MESSAGE, any]);
            let octets = random.octets(length);
            let port = port(random);
            Received { port, time, octets }
        })
        .collect()
}

/// Gives some records another port: the last, the first, or any run to the end.
fn mix_ports(random: &mut Random, records: &mut [Received]) {
    let Some(last) = records.len().checked_sub(1) else {
        return;
    };
    let other = port(random);
    let from = random.place(records.len());
    match random.below(4) {
        0 => records[last].port = other,
        1 => records[0].port = other,
        2 => records[from].port = other,
        _ => records[from..].iter_mut().for_each(|one| one.port = other),
    }
}

/// Lets the last records have the last time that a capture can tell, or one that
/// it cannot.
fn end_late(random: &mut Random, records: &mut [Received]) {
    let from = random.place(records.len() + 1);
    let last = END_OF_SECONDS - 1;
    let times = [
        last,
        last,
        last - 999_999_999,
        END_OF_SECONDS,
        END_OF_SECONDS,
        END_OF_SECONDS + 999_999_999,
        END_OF_SECONDS << 1,
        u64::MAX,
    ];
    let time = random.pick(&times);
    for (at, record) in records.iter_mut().enumerate() {
        record.time = if at < from {
            record.time.min(last - 999_999_999)
        } else {
            time
        };
    }
}

/// The octets of a trace of records, now and then with a fault.
fn trace_of(random: &mut Random, records: &[Received]) -> Vec<u8> {
    let blocks = blocks(random, records);
    if random.chance(1, 5) {
        damaged(random, blocks)
    } else {
        blocks.concat()
    }
}

/// Adds lines that read back what was written of a trace, and compare the two:
/// both are run again and written again.
fn read_back(random: &mut Random, story: &mut Story, port: u8, trace: &[u8], file: &[u8]) {
    story.say(import_line(random, port, file));
    let Ok(again) = import(file, port) else {
        return;
    };
    if random.chance(1, 2) {
        story.say(export_line(random, &again));
    }
    if random.chance(1, 2) {
        for trace in [trace, &again] {
            story.say(line_of_replay(random, trace));
            story.say(records_line(random, port));
        }
    }
}
