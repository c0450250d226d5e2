//! Histories recorded live and replayed by a program: what it prints for their
//! traces is compared with the decisions that the live calls led to.

use super::damage::damaged;
use super::random::Random;
use super::scene_lines::base;
use super::traces::{blocks, history, long_history};
use crate::engine::clock::Clock;
use crate::engine::received::Received;
use crate::engine::refusal::Refusal;
use crate::engine::replay::records_of_trace;
use crate::programs::replay::{port_lines, refused};
use crate::protocol::show;
use std::io::{self, Write};
use std::process::{Child, Command, Stdio};
use std::thread;

/// How many differing histories are shown.
const SHOWN: u64 = 5;

/// A trace and what a program is to print for it.
struct Case {
    trace: Vec<u8>,
    expected: String,
}

/// Runs a program once for each of `count` histories of a seed, shows the first
/// that differ, and says how many do.
pub fn histories(program: &[String], count: u64, seed: u64) -> io::Result<u64> {
    let mut random = Random::new(seed);
    let mut differing = 0;
    for number in 1..=count {
        let case = case(&mut random);
        let printed = printed_for(program, &case.trace)?;
        if printed != case.expected {
            differing += 1;
            if differing <= SHOWN {
                show_difference(number, &case, &printed);
            }
        }
    }
    Ok(differing)
}

/// A history's trace, one in six damaged.
fn case(random: &mut Random) -> Case {
    let (live, recorded) = live_and_recorded(random);
    let blocks = blocks(random, &recorded);
    if random.chance(1, 6) {
        let trace = damaged(random, blocks.clone());
        if records_of_trace(&trace).is_err() {
            let expected = refused(Refusal::Block);
            return Case { trace, expected };
        }
    }
    let last_time = recorded.last().map_or(0, |last| last.time);
    let expected = match live.decide_all(last_time) {
        Ok(decided) => port_lines(&decided.ports),
        Err(refusal) => refused(refusal),
    };
    let trace = blocks.concat();
    Case { trace, expected }
}

/// A clock with the settings it began with, after it was given a history, and
/// what of it was recorded: all, or all that was accepted and some of the rest.
fn live_and_recorded(random: &mut Random) -> (Clock, Vec<Received>) {
    let mut live = Clock::fresh();
    let given = given(random);
    let share_of_refused = random.pick(&[4, 4, 2, 1, 0]);
    let mut recorded = Vec::new();
    for received in given {
        let is_accepted = live.take(&received).is_ok();
        if is_accepted || random.chance(share_of_refused, 4) {
            recorded.push(received);
        }
    }
    (live, recorded)
}

/// The messages of a history: mostly a few, now and then hundreds.
fn given(random: &mut Random) -> Vec<Received> {
    let base = base(random);
    let mut clock = Clock::fresh();
    if random.chance(1, 100) {
        let many = 100 + random.place(900);
        long_history(random, &mut clock, &base, many)
    } else {
        history(random, &mut clock, &base)
    }
}

/// What a program prints for a trace on its standard input; where it is ended
/// by a signal, that.
fn printed_for(program: &[String], trace: &[u8]) -> io::Result<String> {
    let mut child = Command::new(&program[0])
        .args(&program[1..])
        .stdin(Stdio::piped())
        .stdout(Stdio::piped())
        .spawn()?;
    let output = thread::scope(|scope| {
        feed(scope, &mut child, trace);
        child.wait_with_output()
    })?;
    let printed = String::from_utf8_lossy(&output.stdout).into_owned();
    Ok(match output.status.code() {
        Some(_) => printed,
        None => format!("{printed}{}\n", output.status),
    })
}

/// Writes a trace to a program while others read what it prints.  One that does
/// not read it all shows that by what it prints.
fn feed<'scope, 'trace: 'scope>(
    scope: &'scope thread::Scope<'scope, '_>,
    child: &mut Child,
    trace: &'trace [u8],
) {
    if let Some(mut input) = child.stdin.take() {
        scope.spawn(move || {
            let _ = input.write_all(trace);
        });
    }
}

/// Prints a difference, with the trace as a line of `replay` has it.
fn show_difference(number: u64, case: &Case, printed: &str) {
    println!("history {number}: replay {}", show::octets(&case.trace));
    println!("  ours:   {}", on_one_line(&case.expected));
    println!("  theirs: {}", on_one_line(printed));
}

/// Some lines as one.
fn on_one_line(lines: &str) -> String {
    lines
        .trim_end()
        .replace('\n', ", ")
        .escape_debug()
        .to_string()
}

#[cfg(test)]
mod tests {
    use super::*;
    use crate::programs::replay::replayed;

    #[test]
    fn a_replay_gives_what_the_live_calls_gave() {
        let mut random = Random::new(7);
        let mut refusals = 0;
        let mut followed = 0;
        for _ in 0..2000 {
            let case = case(&mut random);
            let printed = replayed(&Clock::fresh(), &case.trace[..]).unwrap();
            assert_eq!(printed, case.expected);
            refusals += u32::from(printed == "refused 20\n");
            followed += u32::from(printed.contains("S1"));
        }
        assert!(refusals > 200, "{refusals}");
        assert!(followed > 300, "{followed}");
    }
}
