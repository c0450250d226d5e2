//! `compare` with programs that answer rightly, end early, or answer too
//! little or too much.

use std::process::{Command, Output};

/// The program under test.
const SECOND: &str = env!("CARGO_BIN_EXE_second");

/// What `second` with these arguments does.
fn second(arguments: &[&str]) -> Output {
    Command::new(SECOND).args(arguments).output().unwrap()
}

/// Whether a comparison with the program that a shell's command is ends well,
/// and what it prints; in the command `ours` stands for `second answer`.
fn compared(calls: &str, count: &str, command: &str) -> (bool, String) {
    let command = command.replace("ours", &format!("'{SECOND}' answer"));
    let arguments = ["compare", calls, count, "7", "--", "sh", "-c", &command];
    let output = second(&arguments);
    let printed = String::from_utf8_lossy(&output.stdout).into_owned();
    (output.status.success(), printed)
}

/// The number of the first line after so many that answers something.
fn answered_after(calls: &str, count: &str, passed: usize) -> usize {
    let output = second(&["generate", calls, count, "7"]);
    let mut lines = output.stdout.split(|&octet| octet == b'\n').skip(passed);
    let silent = lines.position(|line| !line.is_empty() && line[0] != b'#');
    passed + 1 + silent.unwrap()
}

#[test]
fn a_program_that_answers_as_we_do() {
    for command in ["exec ours", "ours", "cat | ours | cat"] {
        let (well, printed) = compared("all", "20000", command);
        assert_eq!(printed, "20000 lines, 0 differ\n");
        assert!(well);
    }
}

#[test]
fn a_program_that_answers_only_when_it_has_read_all() {
    let command = "all=$(mktemp) && cat > \"$all\" && ours < \"$all\"; rm \"$all\"";
    let (well, printed) = compared("take,best,all", "3000", command);
    assert_eq!(printed, "3000 lines, 0 differ\n");
    assert!(well);
}

#[test]
fn a_program_that_ends_early() {
    let first = format!("line {}: ", answered_after("signal", "9000", 0));
    let later = format!("line {}: ", answered_after("signal", "9000", 100));
    for (command, begin) in [
        ("true", &first),
        ("exit 3", &first),
        ("head -n 100 | ours", &later),
    ] {
        let (well, printed) = compared("signal", "9000", command);
        assert!(printed.starts_with(begin), "{printed}");
        assert!(printed.contains("theirs: (no answer)"), "{printed}");
        assert!(!well);
    }
}

#[test]
fn a_program_that_answers_one_line_too_few_or_too_many() {
    let (well, printed) = compared("suffixtlv", "500", "ours | sed '$d'");
    assert!(printed.contains("theirs: (no answer)"), "{printed}");
    assert!(!well);
    let (well, printed) = compared("suffixtlv", "500", "ours; echo ok");
    assert!(printed.starts_with("an answer too many: ok"), "{printed}");
    assert!(!well);
}

#[test]
fn a_program_that_answers_wrongly() {
    let (well, printed) = compared("parent", "500", "ours | sed 's/none/absent/'");
    assert!(printed.contains("  ours:   none\n  theirs: absent\n"));
    assert!(!well);
}

#[test]
fn a_program_that_ends_with_a_fault() {
    let (well, printed) = compared("best", "500", "ours; exit 3");
    assert!(printed.contains("exit status: 3"), "{printed}");
    assert!(!well);
}

#[test]
fn every_call_can_be_asked_for_by_its_name() {
    let names = second(&["calls"]).stdout;
    let names = String::from_utf8(names).unwrap();
    assert_eq!(names.lines().count(), 35);
    for name in names.lines() {
        let lines = second(&["generate", &format!("{name},{name}"), "200", "7"]);
        let begin = format!("\n{name}");
        assert!(String::from_utf8_lossy(&lines.stdout).contains(&begin));
    }
    assert!(!second(&["generate", "unknown", "1", "1"]).status.success());
}
