//! Bursts, and what the clock holds behind them, with answers worked out by
//! hand from the documents.

use super::worked_rows::{answers, only};

/// ANN_SUFIX with wrFlags 7.
const SUFFIX: &str = "0003000a080030abcd0120000007";
/// LOCK with 2 octets of data, which it has not: 14 octets.
const LOCK_OF_2: &str = "0003000a080030abcd0110010000";

/// An Announce of zeros but for sender, sequenceId and tail, as octets.
fn announce(clock: u64, sequence: u16, tail: &str) -> String {
    let length = 64 + tail.len() / 2;
    format!(
        "0b02{length:04x}{:032x}{clock:016x}0001{sequence:04x}0500{:060x}{tail}",
        0, 0
    )
}

/// The line of a burst of these messages, each PORT TIME OCTETS.
fn burst(messages: &[String]) -> String {
    let mut line = format!("burst {}", messages.len());
    for message in messages {
        line += " ";
        line += message;
    }
    line
}

/// The answers to some lines behind the setting of a clock that sends nothing
/// here.
fn answered(lines: &[String]) -> Vec<String> {
    let mut all = vec!["clock 0x99"];
    all.extend(lines.iter().map(String::as_str));
    answers(&all).split_off(1)
}

/// The answers to some messages in one burst, and then the records of ports.
fn taken(messages: &[String], ports: &[u8]) -> Vec<String> {
    let mut lines = vec![burst(messages)];
    lines.extend(ports.iter().map(|port| format!("records {port}")));
    answered(&lines)
}

#[test]
fn a_burst_of_none_or_one() {
    assert_eq!(only("burst 0"), "ok 0");
    assert_eq!(only("burst 1 1 0 -"), "ok 1 refused 1");
    let one = format!("18 7 {}", announce(1, 5, ""));
    assert_eq!(
        taken(&[one], &[18, 17]),
        [
            "ok 1 ok",
            "ok 7 0 1 0 0x0000000000000001 1 5 1 7 0",
            "ok 0 0 0"
        ]
    );
}

#[test]
fn each_message_is_taken_by_what_the_ones_before_it_left() {
    let messages = [
        format!("1 100 {}", announce(1, 5, "")),
        // Another port knows nothing of it: neither its time nor its sequenceId.
        format!("2 50 {}", announce(1, 5, "")),
        // A second receipt, the same once more, and a time that falls.
        format!("1 200 {}", announce(1, 6, SUFFIX)),
        format!("1 200 {}", announce(1, 6, "")),
        format!("1 199 {}", announce(1, 7, "")),
        // What was refused did not move the last time.
        format!("1 999 {}", announce(1, 6, "")),
        format!("1 201 {}", announce(2, 0, "")),
        format!("2 49 {}", announce(3, 0, "")),
    ];
    assert_eq!(
        taken(&messages, &[1, 2]),
        [
            "ok 8 ok ok ok refused 12 refused 11 refused 12 ok refused 11",
            "ok 201 0 2 0 0x0000000000000001 1 6 2 200 100 1 0x0000000000000002 1 0 1 201 0",
            "ok 50 0 1 0 0x0000000000000001 1 5 1 50 0"
        ]
    );
    let lines = [burst(&messages), "best 1 201".to_string()];
    assert_eq!(
        answered(&lines)[1],
        "found 0 0 0 0 0 0x0000000000000000 0 0x0000000000000001 1 1 7"
    );
}

#[test]
fn refusals_from_1_to_12_among_accepted_messages() {
    let sound = announce(1, 1, "");
    let messages = [
        // 8 comes before all that is wrong with a message.
        ("0 0", "-".to_string(), "refused 8"),
        ("1 9", sound.clone(), "ok"),
        ("19 9", sound.clone(), "refused 8"),
        ("255 9", sound.clone(), "refused 8"),
        ("1 9", sound[..66].to_string(), "refused 1"),
        ("1 9", sound[..126].to_string(), "refused 1"),
        ("1 9", sound.replacen("0b02", "0b01", 1), "refused 2"),
        ("1 9", sound.replacen("0b02", "0a02", 1), "refused 3"),
        ("1 9", sound.replacen("0b02", "0c02", 1), "refused 3"),
        ("1 9", sound.replacen("0040", "003f", 1), "refused 4"),
        ("2 9", sound.clone(), "ok"),
        (
            "1 9",
            sound[..80].to_string() + "3b9aca00" + &sound[88..],
            "refused 5",
        ),
        ("1 9", announce(1, 2, "000300"), "refused 6 64"),
        (
            "1 9",
            announce(1, 2, &(SUFFIX.to_owned() + "00")),
            "refused 6 78",
        ),
        ("1 9", announce(1, 2, LOCK_OF_2), "refused 7 64"),
        (
            "1 9",
            announce(1, 2, &(SUFFIX.to_owned() + LOCK_OF_2)),
            "refused 7 78",
        ),
        (
            "1 9",
            sound[..8].to_string() + "01" + &sound[10..],
            "refused 9",
        ),
        ("1 9", announce(0x99, 2, ""), "refused 10"),
        ("1 8", announce(1, 2, ""), "refused 11"),
        ("1 10", sound.clone(), "refused 12"),
        ("1 11", announce(1, 2, SUFFIX), "ok"),
    ];
    let texts = messages
        .clone()
        .map(|(received, octets, _)| format!("{received} {octets}"));
    let expected = messages.map(|(_, _, answer)| answer).join(" ");
    assert_eq!(
        taken(&texts, &[1, 2]),
        [
            &format!("ok 21 {expected}"),
            "ok 11 0 1 0 0x0000000000000001 1 2 2 11 9",
            "ok 9 0 1 0 0x0000000000000001 1 1 1 9 0"
        ]
    );
}

#[test]
fn a_port_that_is_filled_in_one_burst() {
    let mut messages: Vec<String> = (1..=17)
        .map(|sender| format!("3 5 {}", announce(sender, 1, "")))
        .collect();
    // A seventeenth waits; those that have a slot may speak again; and another
    // port has slots of its own.
    messages.push(format!("3 5 {}", announce(16, 2, "")));
    messages.push(format!("4 5 {}", announce(17, 1, "")));
    messages.push(format!("3 4000000005 {}", announce(17, 1, "")));
    messages.push(format!("3 4000000006 {}", announce(17, 1, "")));
    let answers = taken(&messages, &[3, 4]);
    assert_eq!(
        answers[0],
        format!("ok 21{} refused 13 ok ok refused 13 ok", " ok".repeat(16))
    );
    // All were expired by then, and the lowest slot is the first.
    assert!(
        answers[1].starts_with("ok 4000000006 0 16 0 0x0000000000000011 1 1 1 4000000006 0 1 0x")
    );
    assert!(answers[1].ends_with(" 15 0x0000000000000010 1 2 2 5 5"));
    assert_eq!(answers[2], "ok 5 0 1 0 0x0000000000000011 1 1 1 5 0");
}

/// So many messages, each accepted, in turn on eighteen ports.
fn on_all_ports(count: u64) -> Vec<String> {
    (0..count)
        .map(|number| format!("{} 1 {}", 1 + number % 18, announce(number, 1, "")))
        .collect()
}

#[test]
fn as_many_as_there_are_slots_and_one_more() {
    let mut all = on_all_ports(288);
    all[0x99] = format!("10 1 {}", announce(0x1000, 1, ""));
    let full = taken(&all, &[1, 10, 18]);
    assert_eq!(full[0], format!("ok 288{}", " ok".repeat(288)));
    for records in &full[1..] {
        assert!(records.starts_with("ok 1 0 16 0 "), "{records}");
    }
    all.push(format!("1 1 {}", announce(0x1001, 1, "")));
    assert_eq!(
        taken(&all, &[1, 10, 18]),
        ["refused 17", "ok 0 0 0", "ok 0 0 0", "ok 0 0 0"]
    );
}

#[test]
fn refused_messages_count_too() {
    for (count, answer) in [
        (287, format!("ok 287{}", " refused 8".repeat(287))),
        (288, format!("ok 288{}", " refused 8".repeat(288))),
        (289, "refused 17".to_string()),
        (400, "refused 17".to_string()),
        (401, "bad line".to_string()),
    ] {
        assert_eq!(only(&burst(&vec!["0 0 -".to_string(); count])), answer);
    }
}

#[test]
fn a_burst_in_parts_leads_to_the_same() {
    let mut messages: Vec<String> = on_all_ports(40);
    messages.extend(on_all_ports(25).iter().map(|one| one.replace(" 1 ", " 0 ")));
    messages.extend((0..20).map(|number| format!("5 2 {}", announce(number, 2, SUFFIX))));
    let ports: Vec<u8> = (1..=18).collect();
    let whole = taken(&messages, &ports);
    let singly = messages.iter().map(|one| format!("take {one}"));
    let singly: Vec<String> = singly.collect();
    for at in [0, 1, 40, 41, 66, 84, 85] {
        let mut lines = vec![burst(&messages[..at])];
        lines.extend_from_slice(&singly[at..]);
        lines.extend(ports.iter().map(|port| format!("records {port}")));
        let parted = answered(&lines);
        let records = parted.len() - 18;
        assert_eq!(whole[1..], parted[records..], "{at}");
        let mut answers = vec![format!("ok {}", messages.len())];
        if at > 0 {
            let first = format!("ok {at} ");
            answers.push(parted[0].strip_prefix(&first).unwrap().to_string());
        }
        answers.extend_from_slice(&parted[1..records]);
        assert_eq!(whole[0], answers.join(" "), "{at}");
    }
}

#[test]
fn the_settings_of_the_moment_count() {
    let message = |port: u8, tail: &str| format!("{port} 0 {}", announce(1, 1, tail));
    let lines = [
        "magic 0x1234".to_string(),
        burst(&[message(1, LOCK_OF_2)]),
        "clock 1".to_string(),
        burst(&[message(1, ""), message(2, "")]),
        "domain 1".to_string(),
        burst(&[message(1, ""), message(2, "")]),
    ];
    let answers = answered(&lines);
    assert_eq!(answers[1], "ok 1 ok");
    assert_eq!(answers[3], "ok 2 refused 10 refused 10");
    assert_eq!(answers[5], "ok 2 refused 9 refused 9");
}

#[test]
fn lines_that_are_no_burst_take_nothing() {
    let good = format!("1 3 {}", announce(1, 1, ""));
    let long = burst(&vec![good.clone(); 289]);
    for line in [
        "burst".to_string(),
        "burst ".to_string(),
        "burst -".to_string(),
        "burst -1".to_string(),
        "burst 401".to_string(),
        "burst 18446744073709551616".to_string(),
        "burst 0 ".to_string(),
        format!("burst 0 {good}"),
        format!("burst 1 {good} "),
        format!("burst 1  {good}"),
        format!("burst 1 {good} 0"),
        format!("burst 1 {good} {good}"),
        format!("burst 2 {good}"),
        format!("burst 2 {good} 1 0"),
        format!("burst 2 {good} 256 0 -"),
        format!("burst 2 {good} -1 0 -"),
        format!("burst 2 {good} 1 -1 -"),
        format!("burst 2 {good} 1 18446744073709551616 -"),
        format!("burst 2 {good} 1 0 0"),
        format!("burst 2 {good} 1 0 0x00"),
        format!("Burst 1 {good}"),
        // These come before 17.
        format!("{long} -"),
        long.replacen("289", "290", 1),
        long.replacen("289", "288", 1),
        long[..long.len() - 1].to_string(),
    ] {
        let answers = answered(&[line.clone(), "records 1".to_string()]);
        assert_eq!(answers, ["bad line", "ok 0 0 0"], "{line}");
    }
    for line in [
        format!("burst 0x01 0x1 003 {}", announce(1, 1, "")),
        format!("burst 001 {}", good.to_uppercase()),
    ] {
        assert_eq!(answered(&[line])[0], "ok 1 ok");
    }
    assert_eq!(only("burst -0"), "ok 0");
}
