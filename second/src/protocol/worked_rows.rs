//! The rows of document 01's "Worked at the edges", as lines and answers.

use super::answer::answer;
use crate::engine::clock::Clock;

/// The answers of a fresh clock to some lines.
pub fn answers(lines: &[&str]) -> Vec<String> {
    let mut clock = Clock::fresh();
    lines
        .iter()
        .filter_map(|line| answer(&mut clock, line.as_bytes()))
        .collect()
}

/// The answer of a fresh clock to one line.
pub fn only(line: &str) -> String {
    answers(&[line]).remove(0)
}

/// An Announce of zeros but for sender, sequenceId and tail, as octets.
fn announce(clock: u64, sequence: u16, tail: &str) -> String {
    let length = 64 + tail.len() / 2;
    format!(
        "0b02{length:04x}{:032x}{clock:016x}0001{sequence:04x}0500{:060x}{tail}",
        0, 0
    )
}

/// The example of row 1.
const SUFFIX: &str = "0003000a080030abcd0120000007";

#[test]
fn row_1_the_suffix_gives_its_flags() {
    assert_eq!(
        only(&format!("suffix {}", announce(1, 0, SUFFIX))),
        "found 7"
    );
}

#[test]
fn row_2_an_odd_length_is_refused() {
    let odd = SUFFIX.replace("000a", "0009");
    assert_eq!(
        only(&format!("suffix {}", announce(1, 0, &odd))),
        "refused 6 64"
    );
}

/// The answers to a history on port 1 and a question at its end.
fn history(receipts: &[(u64, u16)], question: &str) -> Vec<String> {
    let mut lines = vec!["clock 9".to_string()];
    for (time, sequence) in receipts {
        lines.push(format!("take 1 {time} {}", announce(1, *sequence, "")));
    }
    lines.push(question.to_string());
    let lines: Vec<&str> = lines.iter().map(String::as_str).collect();
    answers(&lines)
}

/// The candidates' count after receipts at 0 and one second.
fn qualified_at(time: u64) -> String {
    let receipts = [(0, 1), (1_000_000_000, 2)];
    let answers = history(&receipts, &format!("candidates 1 {time}"));
    answers[3][..4].to_string()
}

#[test]
fn rows_3_and_4_qualified_to_the_end_of_the_window() {
    assert_eq!(qualified_at(4_000_000_000), "ok 1");
    assert_eq!(qualified_at(4_000_000_001), "ok 0");
}

/// The answer to an Announce of an old sequenceId, refused while its record is
/// live.
fn repeated_at(time: u64) -> String {
    let receipts = [(0, 1), (1_000_000_000, 2), (time, 2)];
    history(&receipts, "records 1").remove(3)
}

#[test]
fn rows_5_and_6_live_to_the_end_of_the_window() {
    assert_eq!(repeated_at(5_000_000_000), "refused 12");
    assert_eq!(repeated_at(5_000_000_001), "ok");
}

#[test]
fn rows_7_and_8_sequences_run_around() {
    assert_eq!(history(&[(0, 65_535), (0, 0)], "records 1")[2], "ok");
    let stale = history(&[(0, 0), (0, 32_768)], "records 1");
    assert_eq!(stale[2], "refused 12");
    assert_eq!(stale[3], "ok 0 0 1 0 0x0000000000000001 1 0 1 0 0");
}

#[test]
fn a_seventeenth_sender_waits_for_an_expired_slot() {
    let mut lines = vec!["clock 99".to_string()];
    for sender in 0..17 {
        lines.push(format!("take 1 {sender} {}", announce(sender, 7, "")));
    }
    lines.push(format!("take 1 4000000001 {}", announce(16, 7, SUFFIX)));
    lines.push("records 1".to_string());
    let lines: Vec<&str> = lines.iter().map(String::as_str).collect();
    let answers = answers(&lines);
    assert_eq!(answers[17], "refused 13");
    assert_eq!(answers[18], "ok");
    let beginning = "ok 4000000001 0 16 0 0x0000000000000010 1 7 1 4000000001 0 1 ";
    assert!(answers[19].starts_with(beginning));
}

#[test]
fn row_9_many_steps_lose_to_none() {
    let many = "1 1 1 1 1 7 65535 1 1 2 2";
    let none = "9 9 9 9 9 7 0 3 3 2 2";
    assert_eq!(only(&format!("compare {many} {none}")), "b");
}

/// The answer to an exchange of which all is 0 but M - D and the asymmetry.
fn delay_of(in_medium: i64, asymmetry: i64) -> String {
    only(&format!(
        "delay 0 0 0 0 0 0 0 0 0 0 0 0 {} 0 0 0 0 {asymmetry}",
        -in_medium
    ))
}

#[test]
fn rows_10_and_11_the_asymmetrys_quotient_is_rounded_down() {
    assert_eq!(delay_of(10, 1 << 38), "ok 5 -1 65535999999995");
    assert_eq!(delay_of(-1, 1 << 38), "ok -1 0 1");
}

#[test]
fn latencies_are_added_before_they_are_divided() {
    let line = "delay 0 0 0 0 0 0 0 0 0 0 0 0 -3 999 999 999 999 0";
    assert_eq!(only(line), "ok 1 -1 65535999999999");
}

#[test]
fn row_12_nothing_ranked_is_nothing() {
    assert_eq!(only("rank 0"), "ok 0");
}

#[test]
fn the_comparison_goes_round_and_rank_order_does_not() {
    let a = "1 0 0 0 0 7 5 1 1";
    let b = "9 0 0 0 0 7 1 1 1";
    let c = "5 0 0 0 0 8 0 1 1";
    let compared = |x: &str, y: &str| only(&format!("compare {x} 2 2 {y} 2 2"));
    assert_eq!(compared(b, a), "a");
    assert_eq!(compared(c, b), "a");
    assert_eq!(compared(a, c), "a");
    assert_eq!(
        only(&format!("rank 3 {b} 1 0 {c} 2 0 {a} 3 0")),
        "ok 3 1 0 0 0 0 0x0000000000000007 5 0x0000000000000001 1 3 0 \
         5 0 0 0 0 0x0000000000000008 0 0x0000000000000001 1 2 0 \
         9 0 0 0 0 0x0000000000000007 1 0x0000000000000001 1 1 0"
    );
}

#[test]
fn decisions_at_their_edges() {
    let set_up = ["clock 5", "own 128 6 254 65535 128"];
    let decided = |own: &str, line: &str| answers(&[set_up[0], own, line]).remove(2);
    // Error-1 between our set and the port's best: nothing is beaten.
    let ourselves_at_2 = "128 248 0 0 0 5 1 5 2 200 0";
    let line = format!("decide 2 0 best {ourselves_at_2}");
    assert_eq!(decided(set_up[1], &line), "P1");
    assert_eq!(decided(set_up[1], "decide 2 0 none"), "M1");
    assert_eq!(decided("own 128 0 254 65535 128", "decide 2 0 none"), "M2");
    assert_eq!(decided("own 128 128 254 65535 128", &line), "M2");
    // Refusals come first, whether the list is used or not.
    let foreign = "1 1 1 1 1 1 1 1 1 0 0";
    let line = format!("decide 2 1 {foreign} none");
    assert_eq!(decided(set_up[1], &line), "refused 15");
    let line = format!("decide 19 1 {foreign} none");
    assert_eq!(decided(set_up[1], &line), "refused 8");
    // Ebest on port 1; on ports without a best nothing is beaten by topology.
    let ebest = "1 6 0 0 0 9 1 3 1 1 0";
    let second = "1 6 0 0 0 9 1 3 2 2 0";
    let list = format!("2 {ebest} {second}");
    let plain = "own 128 248 254 65535 128";
    assert_eq!(decided(plain, &format!("decide 1 {list} none")), "S1");
    assert_eq!(decided(plain, &format!("decide 3 {list} none")), "M3");
    assert_eq!(
        decided(plain, &format!("decide 3 {list} best {second}")),
        "P2"
    );
    assert_eq!(
        decided(plain, &format!("decide 2 {list} best {second}")),
        "S2"
    );
}

#[test]
fn the_protocols_own_examples() {
    assert_eq!(only("merge 0 0"), "ok 0");
    assert_eq!(only("best 18 0"), "absent");
    assert_eq!(only("parent 0"), "none");
    assert_eq!(only("read 0b02"), "refused 1");
    assert_eq!(only("read 0b02 "), "bad line");
    let walk = |length: &str| only(&format!("walk 0c020030{:080}0008{length}", 0));
    assert_eq!(walk("0000"), "ok 1 44 8 0");
    assert_eq!(walk("0001"), "refused 6 44");
    assert_eq!(only("burst 2 0 0 - 1 0 0b02"), "ok 2 refused 8 refused 1");
    assert_eq!(only("record 1 0 -"), "ok -");
    assert_eq!(
        answers(&["", "# fresh", "fresh", " fresh"]),
        ["ok", "bad line"]
    );
}
