//! The independent second implementation of the engine of document 01.
//!
//! `answer` speaks the line protocol on standard input and output; `calls`
//! prints the names of the calls; `generate` prints lines by seed; `compare`
//! gives such lines to another program and compares its answers with ours;
//! `kinds` counts the kinds of answers that such lines reach; `replay` runs a
//! trace again; `why` also tells what changed along it and by what; `import`
//! makes a trace of a capture and `export` a capture of a trace; `histories` lets
//! another program replay and compares what it prints with what was decided
//! live.

mod engine;
mod programs;
mod protocol;
mod trial;

use engine::candidate::PORTS;
use engine::clock::Clock;
use engine::refusal::Refusal;
use engine::transfer::{export, import};
use programs::replay::{refused, replayed};
use programs::why::explained;
use protocol::answer::answer;
use protocol::lines::next_line;
use protocol::tokens::Tokens;
use std::io::{self, BufReader, BufWriter, Read, Write};
use std::process::ExitCode;
use trial::calls::{calls_named, CALLS};
use trial::compare::compare;
use trial::generator::Generator;
use trial::histories::histories;
use trial::kinds::Kinds;

const USAGE: &str = "usage:
  second answer
  second calls
  second generate CALLS COUNT SEED
  second compare CALLS COUNT SEED -- PROGRAM [ARGUMENTS]
  second kinds CALLS COUNT SEED
  second replay
  second why [CLOCK [INTERVAL]]
  second import PORT
  second export
  second histories COUNT SEED -- PROGRAM [ARGUMENTS]

CALLS is `all` for every call, or names of calls separated by commas, among which
`all` is the call of that name.";

/// Runs the command that the arguments name.
fn main() -> ExitCode {
    let arguments: Vec<String> = std::env::args().skip(1).collect();
    match run(&arguments) {
        Ok(code) => code,
        // Whoever read our output has enough of it.
        Err(error) if error.kind() == io::ErrorKind::BrokenPipe => ExitCode::SUCCESS,
        Err(error) => {
            eprintln!("second: {error}");
            ExitCode::FAILURE
        }
    }
}

/// Runs a command; bad arguments print the usage.
fn run(arguments: &[String]) -> io::Result<ExitCode> {
    let words: Vec<&str> = arguments.iter().map(String::as_str).collect();
    match words[..] {
        ["answer"] => run_answer(),
        ["calls"] => run_calls(),
        ["replay"] => run_replay(),
        ["why", ref settings @ ..] => match clock_with(settings) {
            Some(clock) => run_why(&clock),
            None => Ok(usage()),
        },
        ["import", port] => match number(port) {
            Some(port) => run_import(port),
            None => Ok(usage()),
        },
        ["export"] => run_export(),
        ["generate", calls, count, seed] => match lines_asked_for(calls, count, seed) {
            Some((generator, count)) => run_generate(generator, count),
            None => Ok(usage()),
        },
        ["kinds", calls, count, seed] => match lines_asked_for(calls, count, seed) {
            Some((generator, count)) => run_kinds(generator, count),
            None => Ok(usage()),
        },
        ["compare", calls, count, seed, "--", _, ..] => match lines_asked_for(calls, count, seed) {
            Some((generator, count)) => run_compare(&arguments[5..], generator, count),
            None => Ok(usage()),
        },
        ["histories", count, seed, "--", _, ..] => match (count.parse(), seed.parse()) {
            (Ok(count), Ok(seed)) => run_histories(&arguments[4..], count, seed),
            _ => Ok(usage()),
        },
        _ => Ok(usage()),
    }
}

/// Prints how the program is called.
fn usage() -> ExitCode {
    eprintln!("{USAGE}");
    ExitCode::from(2)
}

/// The generator and the count of lines that three arguments ask for.
fn lines_asked_for(calls: &str, count: &str, seed: &str) -> Option<(Generator, u64)> {
    let calls = calls_named(calls)?;
    Some((
        Generator::new(calls, seed.parse().ok()?),
        count.parse().ok()?,
    ))
}

/// Answers the lines of standard input on standard output.
fn run_answer() -> io::Result<ExitCode> {
    let mut input = BufReader::with_capacity(1 << 16, io::stdin().lock());
    let mut output = BufWriter::with_capacity(1 << 16, io::stdout().lock());
    let mut clock = Clock::fresh();
    let mut line = Vec::new();
    while next_line(&mut input, &mut line)? {
        if let Some(answer) = answer(&mut clock, &line) {
            writeln!(output, "{answer}")?;
        }
        if input.buffer().is_empty() {
            output.flush()?;
        }
    }
    output.flush()?;
    Ok(ExitCode::SUCCESS)
}

/// Prints the names of the calls that lines can be made of.
fn run_calls() -> io::Result<ExitCode> {
    let mut output = io::stdout().lock();
    for (name, _) in CALLS {
        writeln!(output, "{name}")?;
    }
    Ok(ExitCode::SUCCESS)
}

/// Replays the trace on standard input with the settings of a fresh clock.
fn run_replay() -> io::Result<ExitCode> {
    let trace = BufReader::with_capacity(1 << 16, io::stdin().lock());
    let text = replayed(&Clock::fresh(), trace)?;
    io::stdout().write_all(text.as_bytes())?;
    Ok(ExitCode::SUCCESS)
}

/// A clock whose identity and whose ports' interval are given, each 0 if it is
/// not; none if they are no such settings.
fn clock_with(settings: &[&str]) -> Option<Clock> {
    let (identity, log_interval) = match *settings {
        [] => (0, 0),
        [identity] => (number(identity)?, 0),
        [identity, log_interval] => (number(identity)?, number(log_interval)?),
        _ => return None,
    };
    let mut clock = Clock::fresh();
    clock.identity = identity;
    for port in PORTS {
        clock.set_interval(port, log_interval).ok()?;
    }
    Some(clock)
}

/// The number that a word spells, as lines of the protocol do.
fn number<N: TryFrom<i128>>(word: &str) -> Option<N> {
    let mut tokens = Tokens::of(word.as_bytes());
    let number = tokens.number()?;
    tokens.end().map(|()| number)
}

/// Tells why decisions changed along the trace on standard input.
fn run_why(clock: &Clock) -> io::Result<ExitCode> {
    let text = explained(clock, &whole_input()?)?;
    io::stdout().write_all(text.as_bytes())?;
    Ok(ExitCode::SUCCESS)
}

/// All of standard input.
fn whole_input() -> io::Result<Vec<u8>> {
    let mut octets = Vec::new();
    io::stdin().lock().read_to_end(&mut octets)?;
    Ok(octets)
}

/// Makes a trace of the capture on standard input, whose frames a port received.
fn run_import(port: u8) -> io::Result<ExitCode> {
    hand_out(import(&whole_input()?, port))
}

/// Makes a capture of the trace on standard input.
fn run_export() -> io::Result<ExitCode> {
    hand_out(export(&whole_input()?))
}

/// Puts a file on standard output, or its refusal on standard error.
fn hand_out(file: Result<Vec<u8>, Refusal>) -> io::Result<ExitCode> {
    match file {
        Ok(octets) => {
            let mut output = io::stdout().lock();
            output.write_all(&octets)?;
            output.flush()?;
            Ok(ExitCode::SUCCESS)
        }
        Err(refusal) => {
            eprint!("{}", refused(refusal));
            Ok(ExitCode::FAILURE)
        }
    }
}

/// Prints lines.
fn run_generate(mut generator: Generator, count: u64) -> io::Result<ExitCode> {
    let mut output = BufWriter::with_capacity(1 << 16, io::stdout().lock());
    for _ in 0..count {
        output.write_all(&generator.next_vector().line)?;
        output.write_all(b"\n")?;
    }
    output.flush()?;
    Ok(ExitCode::SUCCESS)
}

/// Prints the table of the answers' kinds.
fn run_kinds(mut generator: Generator, count: u64) -> io::Result<ExitCode> {
    let mut kinds = Kinds::default();
    for _ in 0..count {
        kinds.count(&generator.next_vector());
    }
    print!("{}", kinds.table());
    Ok(ExitCode::SUCCESS)
}

/// Compares a program's answers with ours and says how many differ.
fn run_compare(program: &[String], generator: Generator, count: u64) -> io::Result<ExitCode> {
    let found = compare(program, generator, count)?;
    println!("{} lines, {} differ", found.lines, found.differing);
    Ok(if found.differing > 0 || found.failed {
        ExitCode::FAILURE
    } else {
        ExitCode::SUCCESS
    })
}

/// Lets a program replay histories and says how many differ.
fn run_histories(program: &[String], count: u64, seed: u64) -> io::Result<ExitCode> {
    let differing = histories(program, count, seed)?;
    println!("{count} histories, {differing} differ");
    Ok(if differing > 0 {
        ExitCode::FAILURE
    } else {
        ExitCode::SUCCESS
    })
}
