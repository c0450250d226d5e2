//! The commands that take a trace or a capture, and the trial of a program that
//! replays.

use std::io::Write;
use std::process::{Command, Output, Stdio};

/// The program under test.
const SECOND: &str = env!("CARGO_BIN_EXE_second");

/// What `second` with these arguments does with octets on its standard input.
fn second(arguments: &[&str], input: &[u8]) -> Output {
    let mut child = Command::new(SECOND)
        .args(arguments)
        .stdin(Stdio::piped())
        .stdout(Stdio::piped())
        .stderr(Stdio::piped())
        .spawn()
        .unwrap();
    // A program that does not want the octets may have ended by now.
    let _ = child.stdin.take().unwrap().write_all(input);
    child.wait_with_output().unwrap()
}

/// What it prints.
fn printed(arguments: &[&str], input: &[u8]) -> String {
    String::from_utf8(second(arguments, input).stdout).unwrap()
}

/// An Announce of zeros but for sender, which is its own grandmaster, and
/// sequenceId.
fn announce(clock: u64, sequence: u16) -> String {
    let header = format!("0b020040{:032x}{clock:016x}0001{sequence:04x}0500", 0);
    format!("{header}{:038x}{clock:016x}{:06x}", 0, 0)
}

/// The octets of a trace that the lines of `record` make.
fn recorded(lines: &[String]) -> Vec<u8> {
    let lines = lines.join("\n") + "\ntrace\n";
    let answers = printed(&["answer"], lines.as_bytes());
    let digits: String = answers
        .lines()
        .map(|answer| answer.strip_prefix("ok ").unwrap())
        .filter(|block| *block != "-")
        .collect();
    (0..digits.len() / 2)
        .map(|at| u8::from_str_radix(&digits[2 * at..2 * at + 2], 16).unwrap())
        .collect()
}

/// A trace of twelve Announces of sender 1 on port 2, two seconds apart.
fn trace() -> Vec<u8> {
    let line = |number: u16| {
        let time = u64::from(number) * 2_000_000_000;
        format!("record 2 {time} {}", announce(1, number))
    };
    recorded(&(1..=12).map(line).collect::<Vec<_>>())
}

/// Eighteen lines of one decision, but for port 2.
fn ports(second: &str, others: &str) -> String {
    (1..=18)
        .map(|port| format!("{port} {}\n", if port == 2 { second } else { others }))
        .collect()
}

#[test]
fn replay_reads_a_trace_and_prints_eighteen_lines() {
    let trace = trace();
    assert_eq!(trace.len(), 2 * 512);
    assert_eq!(printed(&["replay"], &trace), ports("S1", "M3"));
    assert_eq!(printed(&["replay"], &trace[..512]), ports("S1", "M3"));
    assert_eq!(printed(&["replay"], b""), ports("M2", "M2"));
    for refused in [&trace[..1], &trace[..511], &trace[..1023], &trace[1..]] {
        assert_eq!(printed(&["replay"], refused), "refused 20\n");
    }
}

#[test]
fn why_takes_a_clock_and_an_interval() {
    let trace = trace();
    // Two seconds apart, two receipts lie in a window of four.
    let begin = "00:00:04.000000000 parent: our own clock -> 0000000000000001-1 on port 2, \
                 by Announce 2 of 0000000000000001-1 on port 2\n";
    let long = printed(&["why"], &trace);
    assert!(long.starts_with(begin), "{long}");
    assert!(long.ends_with(&ports("S1", "M3")));
    assert_eq!(long.lines().count(), 19 + 18);
    assert_eq!(printed(&["why", "0x99"], &trace), long);
    assert_eq!(printed(&["why", "153", "4"], &trace), long);
    // In a window of two seconds the older receipt stops counting a nanosecond
    // after each Announce.
    let short = printed(&["why", "0", "-1"], &trace);
    let silent = "00:00:04.000000001 parent: 0000000000000001-1 on port 2 -> our own clock, \
                  0000000000000001-1 on port 2 fell silent\n";
    assert!(short.contains(begin) && short.contains(silent), "{short}");
    assert_eq!(short.lines().count(), 11 * 19 + 10 * 19 + 18);
    // One second holds a single receipt; and of our own clock none is taken.
    assert_eq!(printed(&["why", "0", "-2"], &trace), ports("M2", "M2"));
    assert_eq!(printed(&["why", "1"], &trace), ports("M2", "M2"));
    assert_eq!(printed(&["why"], &trace[..100]), "refused 20\n");
    for bad in [
        &["why", "one"][..],
        &["why", "-1"],
        &["why", "0", "5"],
        &["why", "0", "-4"],
        &["why", "0", "0", "0"],
        &["replay", "0"],
    ] {
        assert!(!second(bad, &trace).status.success(), "{bad:?}");
    }
}

/// Asserts that a command refuses what it is given: nothing on standard output,
/// the number on standard error, and an end that is not well.
fn assert_refused(arguments: &[&str], input: &[u8], number: u8) {
    let output = second(arguments, input);
    assert_eq!(output.stdout, b"", "{arguments:?}");
    let told = String::from_utf8(output.stderr).unwrap();
    assert_eq!(told, format!("refused {number}\n"), "{arguments:?}");
    assert_eq!(output.status.code(), Some(1));
}

#[test]
fn a_trace_goes_out_as_a_capture_and_comes_back() {
    let trace = trace();
    let exported = second(&["export"], &trace);
    assert!(exported.status.success());
    // Twelve Announces of 64 octets, each behind 16 and 14.
    assert_eq!(exported.stdout.len(), 24 + 12 * 94);
    let imported = second(&["import", "2"], &exported.stdout);
    assert!(imported.status.success());
    assert_eq!(imported.stdout, trace);
    // Under another port it is another trace, which is written as the same.
    let other = second(&["import", "0x12"], &exported.stdout).stdout;
    assert_ne!(other, trace);
    assert_eq!(second(&["export"], &other).stdout, exported.stdout);
    // Nothing is a trace, and a capture without a frame gives it.
    let empty = second(&["export"], b"").stdout;
    assert_eq!(empty.len(), 24);
    let nothing = second(&["import", "18"], &empty);
    assert!(nothing.status.success());
    assert_eq!(nothing.stdout, b"");
}

#[test]
fn captures_and_traces_that_are_refused() {
    let trace = trace();
    let file = second(&["export"], &trace).stdout;
    assert_refused(&["import", "2"], &file[..file.len() - 1], 21);
    assert_refused(&["import", "0"], &file[..23], 21);
    assert_refused(&["import", "0"], &file, 8);
    assert_refused(&["import", "19"], &file, 8);
    assert_refused(&["export"], &trace[..1023], 20);
    let two_ports = recorded(&["record 1 0 -".to_string(), "record 2 0 -".to_string()]);
    assert_refused(&["export"], &two_ports, 22);
    let falls = [&file[..], &file[24..]].concat();
    assert_refused(&["import", "2"], &falls, 11);
    for bad in [
        &["import"][..],
        &["import", "256"],
        &["import", "-1"],
        &["import", "two"],
        &["import", "2", "2"],
        &["export", "2"],
    ] {
        assert_eq!(second(bad, &file).status.code(), Some(2), "{bad:?}");
    }
}

/// Whether a trial of histories with a shell's command ends well, and what it
/// prints; in the command `ours` stands for `second`.
fn tried(count: &str, command: &str) -> (bool, String) {
    let command = command.replace("ours", &format!("'{SECOND}'"));
    let output = second(&["histories", count, "7", "--", "sh", "-c", &command], b"");
    let printed = String::from_utf8_lossy(&output.stdout).into_owned();
    (output.status.success(), printed)
}

#[test]
fn histories_replayed_as_we_do() {
    let (well, printed) = tried("300", "ours replay");
    assert_eq!(printed, "300 histories, 0 differ\n");
    assert!(well);
}

#[test]
fn histories_replayed_wrongly() {
    for command in [
        "true",
        "ours replay | sed '$d'",
        "ours replay; echo",
        "ours replay | sed 's/refused 20/refused 11/'",
        "ours replay </dev/null",
        "cat >/dev/null; echo 'refused 20'",
        "cat >/dev/null; kill -9 $$",
    ] {
        let (well, printed) = tried("100", command);
        let last = printed.lines().last().unwrap();
        assert!(last.starts_with("100 histories, ") && !last.contains(" 0 differ"));
        assert!(printed.starts_with("history "), "{command}");
        assert!(!well);
    }
    assert!(!second(&["histories", "1", "1", "--"], b"").status.success());
    assert!(!second(&["histories", "1", "--", "true"], b"")
        .status
        .success());
}
