//! Changes along a trace and the reasons for them, worked out by hand.

use super::why::explained;
use crate::engine::clock::Clock;
use crate::engine::received::Received;
use crate::engine::recording::Recording;
use crate::trial::random::Random;
use crate::trial::scene_lines::base;
use crate::trial::traces::{blocks, history};
use std::collections::BTreeMap;

/// An Announce of zeros but for sender, sequenceId, priority1 and stepsRemoved.
fn announce(clock: u64, sequence: u16, priority1: u8, steps: u16) -> Vec<u8> {
    let mut octets = vec![0; 64];
    octets[..4].copy_from_slice(&[0x0b, 0x02, 0x00, 0x40]);
    octets[20..28].copy_from_slice(&clock.to_be_bytes());
    octets[29] = 1;
    octets[30..32].copy_from_slice(&sequence.to_be_bytes());
    octets[47] = priority1;
    octets[61..63].copy_from_slice(&steps.to_be_bytes());
    octets
}

/// The text for messages, each at a time on a port, recorded as ours are, under
/// a clock of identity 0x99.
fn text(messages: &[(u64, u8, Vec<u8>)]) -> String {
    let mut recording = Recording::beginning_at(0);
    let mut trace = Vec::new();
    for (time, port, octets) in messages {
        let received = Received {
            port: *port,
            time: *time,
            octets: octets.clone(),
        };
        trace.extend(recording.record(&received).unwrap().unwrap_or_default());
    }
    trace.extend(recording.open_block().unwrap_or_default());
    let mut clock = Clock::fresh();
    clock.identity = 0x99;
    explained(&clock, &trace).unwrap()
}

/// The lines of a change of many ports alike, for all but some.
fn ports(time: &str, change: &str, reason: &str, but: &[(u8, &str)]) -> String {
    (1..=18)
        .map(|port| {
            let other = but.iter().find(|(other, _)| *other == port);
            let change = other.map_or(change, |(_, change)| change);
            format!("{time} port {port}: {change}, {reason}\n")
        })
        .collect()
}

/// The last eighteen lines where all ports but some are decided alike.
fn end(decision: &str, but: &[(u8, &str)]) -> String {
    (1..=18)
        .map(|port| {
            let other = but.iter().find(|(other, _)| *other == port);
            format!("{port} {}\n", other.map_or(decision, |(_, other)| other))
        })
        .collect()
}

/// Sender 1 on port 4 and sender 2 on port 9, of the same grandmaster at the
/// same steps, heard twice each.
fn two_senders() -> Vec<(u64, u8, Vec<u8>)> {
    vec![
        (10, 4, announce(1, 1, 1, 0)),
        (20, 9, announce(2, 7, 2, 0)),
        (30, 4, announce(1, 2, 1, 0)),
        (40, 9, announce(2, 8, 2, 0)),
    ]
}

const ONE: &str = "0000000000000001-1 on port 4";
const TWO: &str = "0000000000000002-1 on port 9";

/// What changes by the two senders: a second Announce of each makes it count.
fn two_heard() -> String {
    let first = format!("by Announce 2 of {ONE}");
    let second = format!("by Announce 8 of {TWO}");
    format!("00:00:00.000000030 parent: our own clock -> {ONE}, {first}\n")
        + &ports("00:00:00.000000030", "M2 -> M3", &first, &[(4, "M2 -> S1")])
        + &format!("00:00:00.000000040 port 9: M3 -> S2, {second}\n")
}

#[test]
fn an_empty_trace_changes_nothing() {
    assert_eq!(text(&[]), end("M2", &[]));
}

#[test]
fn announces_that_change_something() {
    let expected = two_heard() + &end("M3", &[(4, "S1"), (9, "S2")]);
    assert_eq!(text(&two_senders()), expected);
}

#[test]
fn senders_that_fall_silent() {
    let mut messages = two_senders();
    messages.push((100_000_000_000, 1, Vec::new()));
    let silent = |name: &str| format!("{name} fell silent");
    let expected = two_heard()
        + &format!(
            "00:00:04.000000011 parent: {ONE} -> {TWO}, {}\n",
            silent(ONE)
        )
        + &format!("00:00:04.000000011 port 4: S1 -> M3, {}\n", silent(ONE))
        + &format!("00:00:04.000000011 port 9: S2 -> S1, {}\n", silent(ONE))
        + &format!(
            "00:00:04.000000021 parent: {TWO} -> our own clock, {}\n",
            silent(TWO)
        )
        + &ports(
            "00:00:04.000000021",
            "M3 -> M2",
            &silent(TWO),
            &[(9, "S1 -> M2")],
        )
        + &end("M2", &[]);
    assert_eq!(text(&messages), expected);
}

#[test]
fn a_silence_at_a_records_own_time() {
    // Sender 1 stops counting at 4,000,000,011.  A record of that time, refused
    // or taken, is not the reason.
    let at = 4_000_000_011;
    let when = "00:00:04.000000011";
    let changes = |reason: &str| {
        two_heard()
            + &format!("{when} parent: {ONE} -> {TWO}, {reason}\n")
            + &format!("{when} port 4: S1 -> M3, {reason}\n")
            + &format!("{when} port 9: S2 -> S1, {reason}\n")
            + &end("M3", &[(9, "S1")])
    };
    let mut messages = two_senders();
    messages.push((at, 1, Vec::new()));
    assert_eq!(text(&messages), changes(&format!("{ONE} fell silent")));
    let mut messages = two_senders();
    messages.push((at, 1, announce(3, 5, 9, 0)));
    assert_eq!(text(&messages), changes(&format!("{ONE} fell silent")));
    // One nanosecond before, it still counts.
    let mut messages = two_senders();
    messages.push((at - 1, 1, announce(3, 5, 9, 0)));
    let expected = two_heard() + &end("M3", &[(4, "S1"), (9, "S2")]);
    assert_eq!(text(&messages), expected);
}

#[test]
fn senders_that_fall_silent_together() {
    // All stop counting at one moment: the first by port and slot is named,
    // which need not be the parent.
    let mut messages = Vec::new();
    for (port, sender) in [(9, 2), (4, 6), (4, 5)] {
        messages.push((10, port, announce(sender, 1, 1, 0)));
    }
    for (port, sender) in [(9, 2), (4, 6), (4, 5)] {
        messages.push((30, port, announce(sender, 2, 1, 0)));
    }
    messages.push((u64::MAX, 18, vec![0]));
    let when = "00:00:04.000000011";
    let silent = "0000000000000006-1 on port 4 fell silent";
    let expected = format!("{when} parent: {TWO} -> our own clock, {silent}\n")
        + &ports(
            when,
            "M3 -> M2",
            silent,
            &[(4, "S2 -> M2"), (9, "S1 -> M2")],
        )
        + &end("M2", &[]);
    assert!(text(&messages).ends_with(&expected), "{}", text(&messages));
}

#[test]
fn a_distant_sender_is_no_candidate_that_could_fall_silent() {
    // Sender 3 on port 1 is heard at the same times as sender 1, from too many
    // steps away.
    let mut messages = two_senders();
    messages.insert(0, (10, 1, announce(3, 1, 0, 255)));
    messages.insert(3, (30, 1, announce(3, 2, 0, 255)));
    messages.push((4_000_000_012, 18, Vec::new()));
    let printed = text(&messages);
    assert!(printed.contains(&format!("{ONE} -> {TWO}, {ONE} fell silent\n")));
    assert!(!printed.contains("0000000000000003-1"));
}

#[test]
fn a_parent_that_is_heard_on_another_port() {
    // One sender on ports 3 and 5: the lower port wins by topology.
    let on = |port: u8| format!("0000000000000001-1 on port {port}");
    let mut messages = vec![
        (10, 3, announce(1, 1, 1, 0)),
        (20, 5, announce(1, 1, 1, 0)),
        (30, 3, announce(1, 2, 1, 0)),
        (40, 5, announce(1, 2, 1, 0)),
    ];
    messages.push((4_000_000_012, 18, Vec::new()));
    let by = format!("by Announce 2 of {}", on(3));
    let silent = format!("{} fell silent", on(3));
    let (first, last) = ("00:00:00.000000030", "00:00:04.000000011");
    let expected = format!("{first} parent: our own clock -> {}, {by}\n", on(3))
        + &ports(first, "M2 -> M3", &by, &[(3, "M2 -> S1")])
        + &format!(
            "00:00:00.000000040 port 5: M3 -> S2, by Announce 2 of {}\n",
            on(5)
        )
        + &format!("{last} parent: {} -> {}, {silent}\n", on(3), on(5))
        + &format!("{last} port 3: S1 -> M3, {silent}\n")
        + &format!("{last} port 5: S2 -> S1, {silent}\n")
        + &end("M3", &[(5, "S1")]);
    assert_eq!(text(&messages), expected);
}

#[test]
fn an_announce_that_takes_its_sender_away() {
    // The third Announce of sender 1 comes from 255 steps away, the fourth from
    // none: it counts again at once.
    let mut messages = two_senders();
    messages.push((50, 4, announce(1, 3, 1, 255)));
    messages.push((50, 4, announce(1, 4, 1, 0)));
    let (away, back) = (
        format!("by Announce 3 of {ONE}"),
        format!("by Announce 4 of {ONE}"),
    );
    let when = "00:00:00.000000050";
    let expected = two_heard()
        + &format!("{when} parent: {ONE} -> {TWO}, {away}\n")
        + &format!("{when} port 4: S1 -> M3, {away}\n")
        + &format!("{when} port 9: S2 -> S1, {away}\n")
        + &format!("{when} parent: {TWO} -> {ONE}, {back}\n")
        + &format!("{when} port 4: M3 -> S1, {back}\n")
        + &format!("{when} port 9: S1 -> S2, {back}\n")
        + &end("M3", &[(4, "S1"), (9, "S2")]);
    assert_eq!(text(&messages), expected);
}

#[test]
fn hours_have_two_digits_or_more() {
    let at = |time: u64| {
        let printed = text(&[
            (time, 1, announce(1, 1, 1, 0)),
            (time, 1, announce(1, 2, 1, 0)),
        ]);
        printed.split(' ').next().unwrap_or_default().to_string()
    };
    assert_eq!(at(0), "00:00:00.000000000");
    assert_eq!(at(11_405_000_000_007), "03:10:05.000000007");
    assert_eq!(at(359_999_999_999_999), "99:59:59.999999999");
    assert_eq!(at(360_000_000_000_000), "100:00:00.000000000");
    assert_eq!(at(u64::MAX), "5124095:34:33.709551615");
}

#[test]
fn a_trace_that_replay_refuses() {
    let clock = Clock::fresh();
    for trace in [vec![0; 512], vec![0; 1]] {
        assert_eq!(explained(&clock, &trace).unwrap(), "refused 20\n");
    }
}

/// What changed, from what and to what, of a line that tells a change.
fn parts(line: &str) -> Option<(&str, &str, &str)> {
    let (_, rest) = line.split_once(' ')?;
    let (what, rest) = rest.split_once(": ")?;
    let (before, rest) = rest.split_once(" -> ")?;
    let (after, _) = rest.split_once(", ")?;
    Some((what, before, after))
}

#[test]
fn changes_lead_from_nobody_to_what_replay_prints() {
    let mut random = Random::new(7);
    let (mut changes, mut silences) = (0, 0);
    for _ in 0..1000 {
        let base = base(&mut random);
        let history = history(&mut random, &mut Clock::fresh(), &base);
        let trace = blocks(&mut random, &history).concat();
        let printed = explained(&Clock::fresh(), &trace).unwrap();
        let lines: Vec<&str> = printed.lines().collect();
        let (told, ports) = lines.split_at(lines.len() - 18);
        let mut state: BTreeMap<String, String> = (1..=18)
            .map(|port| (format!("port {port}"), "M2".to_string()))
            .chain([("parent".to_string(), "our own clock".to_string())])
            .collect();
        for line in told {
            let (what, before, after) = parts(line).unwrap();
            let seen = state.insert(what.to_string(), after.to_string());
            assert_eq!(seen.as_deref(), Some(before), "{line}");
            assert_ne!(before, after);
            changes += 1;
            silences += u32::from(line.ends_with(" fell silent"));
        }
        for line in ports {
            let (port, decision) = line.split_once(' ').unwrap();
            assert_eq!(state[&format!("port {port}")], decision);
        }
    }
    assert!(changes > 3000 && silences > 1000, "{changes} {silences}");
}
