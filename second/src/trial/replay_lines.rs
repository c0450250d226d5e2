//! Lines of `replay`: traces of what senders said under the settings of the
//! moment, in blocks split in all ways, half of them damaged; before them
//! settings, and behind them questions that show what became of the clock.

use super::call_line::CallLine;
use super::candidates::port;
use super::damage::damaged;
use super::history_lines::{interval_line, line_of_candidates, records_line};
use super::question_lines::{all_line, line_of_best};
use super::random::Random;
use super::record_lines::{line_of_record, trace_line};
use super::scene_lines::{base, own_quality, set_scene};
use super::settings_lines::line_of_own;
use super::story::Story;
use super::traces::{blocks, history, long_history};
use crate::engine::candidate::Candidate;
use crate::engine::clock::Clock;
use crate::engine::received::Received;
use crate::protocol::lines::LONGEST_LINE;

/// As many blocks as a line has room for.
const MOST_BLOCKS: usize = 292;

/// The lines of a trace, of the settings before it and of the questions behind
/// it.
pub fn replay_lines(random: &mut Random, clock: &Clock) -> Vec<Vec<u8>> {
    let mut story = Story::beginning(clock);
    let base = settle(random, &mut story);
    let history = history_under(random, &story.clock, &base);
    if random.chance(1, 12) {
        record_some(random, &mut story, &history);
    }
    let link_port = random.chance(1, 16).then(|| start_link(random, &mut story));
    let trace = trace_of(random, &history);
    story.say(line_of_replay(random, &trace));
    ask(random, &mut story, &history);
    if let Some(port) = link_port {
        let timeout = format!("link {port} timeout");
        story.say(timeout.into_bytes());
    }
    story.lines
}

/// The line of `replay` for a trace, without its last octets where a line would
/// be too long for them.
pub fn line_of_replay(random: &mut Random, trace: &[u8]) -> Vec<u8> {
    let room = (LONGEST_LINE - "replay ".len()) / 2;
    let trace = &trace[..trace.len().min(room)];
    CallLine::named("replay").octets(random, trace).text()
}

/// Some settings, or those there are, and what most senders are to announce.
fn settle(random: &mut Random, story: &mut Story) -> Candidate {
    if random.chance(1, 4) {
        return set_scene(random, story);
    }
    let base = base(random);
    if random.chance(1, 3) {
        let port = port(random);
        story.say(interval_line(random, port));
    }
    if random.chance(1, 2) {
        let own = own_quality(random, &base.quality);
        story.say(line_of_own(random, &own));
    }
    base
}

/// What ports would hear under a clock's settings if they had heard nothing
/// before; now and then nothing, and now and then very much.
fn history_under(random: &mut Random, clock: &Clock, base: &Candidate) -> Vec<Received> {
    if random.chance(1, 40) {
        return Vec::new();
    }
    let mut clock = clock.clone();
    clock.forget_senders();
    if random.chance(1, 400) {
        let many = 400 + random.place(1800);
        long_history(random, &mut clock, base, many)
    } else {
        history(random, &mut clock, base)
    }
}

/// The octets of a trace of a history, half of the time with a fault.
fn trace_of(random: &mut Random, history: &[Received]) -> Vec<u8> {
    let mut blocks = blocks(random, history);
    blocks.truncate(MOST_BLOCKS);
    if random.chance(1, 2) {
        blocks.concat()
    } else {
        damaged(random, blocks)
    }
}

/// Adds lines that record the begin of a history.
fn record_some(random: &mut Random, story: &mut Story, history: &[Received]) {
    let count = random.place(history.len().min(8) + 1);
    for one in &history[..count] {
        story.say(line_of_record(random, one));
    }
}

/// Adds lines that start a port's link, which a replay leaves as it is.
fn start_link(random: &mut Random, story: &mut Story) -> u8 {
    let port = port(random);
    let config = random.pick(&[2, 3]);
    let settings = format!("linksettings {port} {config} 1 0 0 0 0");
    story.say(settings.into_bytes());
    let start = format!("link {port} start 1 0");
    story.say(start.into_bytes());
    port
}

/// Asks what became of the clock: the records of one of the trace's ports, or
/// what follows from them, at the trace's last time or at any other.
fn ask(random: &mut Random, story: &mut Story, history: &[Received]) {
    let Some(last) = history.last() else {
        return;
    };
    let port = history[random.place(history.len())].port;
    match random.below(12) {
        0..=3 => story.say(records_line(random, port)),
        4 => story.say(line_of_candidates(random, &story.clock, port)),
        5 => story.say(line_of_best(random, &story.clock, port)),
        6 => story.say(all_line(random, &story.clock)),
        7 => story.say(asked_at("candidates", random, port, last.time)),
        8 => story.say(asked_at("best", random, port, last.time)),
        9 => {
            let line = CallLine::named("all").number(random, last.time);
            story.say(line.text());
        }
        10 => story.say(trace_line()),
        _ => {}
    }
}

/// The line of a question to a port at a time.
fn asked_at(call: &str, random: &mut Random, port: u8, time: u64) -> Vec<u8> {
    CallLine::named(call)
        .number(random, port)
        .number(random, time)
        .text()
}
