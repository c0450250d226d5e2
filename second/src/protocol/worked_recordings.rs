//! Recordings (document 02, (iv)): blocks, and what is refused, worked out by
//! hand from the documents.

use super::worked_rows::{answers, only};

/// A block of 512 octets as digits: check word, number, first record's time,
/// count, records, and zeros behind them.
pub fn block(check: u16, number: u32, time: u64, count: u16, records: &str) -> String {
    let head = format!("{check:04x}{number:08x}{time:016x}{count:04x}");
    format!("{:0<1024}", head + records)
}

/// A record as digits: time, port, length, message.
pub fn record(time: u64, port: u8, message: &str) -> String {
    let length = message.len() / 2;
    format!("{time:016x}{port:02x}{length:04x}{message}")
}

/// So many octets of zeros, as a line gives them.
fn zeros(count: usize) -> String {
    if count == 0 {
        "-".to_string()
    } else {
        "00".repeat(count)
    }
}

/// Asserts that a fresh clock gives each line the answer beside it.
pub fn assert_answers(lines: &[(&str, &str)]) {
    let asked: Vec<&str> = lines.iter().map(|(line, _)| *line).collect();
    let given = answers(&asked);
    for ((line, expected), given) in lines.iter().zip(&given) {
        assert_eq!(given, expected, "{line}");
    }
    assert_eq!(given.len(), lines.len());
}

/// A line that records so many zeros on port 1 at time 0.
fn recorded(count: usize) -> String {
    format!("record 1 0 {}", zeros(count))
}

#[test]
fn a_block_with_its_check_word() {
    // The words are 1 for the count and 0x0100 for the port: 257, and 65,278 is
    // what is missing to 65,535.
    let empty = block(0xfefe, 0, 0, 1, &record(0, 1, ""));
    assert_answers(&[
        ("trace", "ok -"),
        ("record 1 0 -", "ok -"),
        ("trace", &format!("ok {empty}")),
        // Nothing has changed by asking.
        ("trace", &format!("ok {empty}")),
    ]);
    // Number 0x00010002 gives 1 and 2, time 0x0102030405060708 gives 0x0102,
    // 0x0304, 0x0506 and 0x0708 twice, the count 2; the first record's port,
    // length and message 0x1200, 0x01ee; the second begins at an even place with
    // the same time, then 0x0300, 0x02be and 0xef00.  3 + 2 * 0x1014 + 2 +
    // 0x1200 + 0x01ee = 0x341b, and 0x1014 + 0x0300 + 0x02be + 0xef00 = 0x104d2:
    // 0x138ed in all, 0x38ee without 65,535, and 0xc711 is missing.
    let time = 0x0102_0304_0506_0708;
    let records = record(time, 18, "ee") + &record(time, 3, "beef");
    assert_answers(&[
        ("recording 0x10002", "ok"),
        ("record 18 0x0102030405060708 ee", "ok -"),
        ("record 3 0x0102030405060708 beef", "ok -"),
        (
            "trace",
            &format!("ok {}", block(0xc711, 0x10002, time, 2, &records)),
        ),
    ]);
}

#[test]
fn a_check_word_of_65_535_and_its_neighbours() {
    // 1 + 0x0100 + 0x0300 are 1,025, and 0xfbfe more are 65,535: the check word
    // is 65,535 then and not 0.  One less is 1, one more 65,534.
    for (message, check) in [("00fbfd", 1), ("00fbfe", 0xffff), ("00fbff", 0xfffe)] {
        let block = block(check, 0, 0, 1, &record(0, 1, message));
        assert_answers(&[
            (&format!("record 1 0 {message}"), "ok -"),
            ("trace", &format!("ok {block}")),
        ]);
    }
    // The same with number 0xffffffff, whose words are 65,535 each.
    let last = block(0xffff, u32::MAX, 0, 1, &record(0, 1, "00fbfe"));
    assert_answers(&[
        ("recording 4294967295", "ok"),
        ("record 1 0 00fbfe", "ok -"),
        ("trace", &format!("ok {last}")),
    ]);
}

#[test]
fn the_last_word_counts_too() {
    // 485 octets of which the last word is 0xabcd: 1 + 0x0101 + 0xe500 + 0xabcd
    // = 0x191cf, 0x91d0 without 65,535, and 0x6e2f is missing.
    let message = zeros(483) + "abcd";
    let block = block(0x6e2f, 0, 0, 1, &record(0, 1, &message));
    assert_answers(&[
        (&format!("record 1 0 {message}"), "ok -"),
        ("trace", &format!("ok {block}")),
    ]);
}

#[test]
fn messages_up_to_485_octets() {
    for count in [0, 1, 44, 64, 484, 485] {
        assert_eq!(only(&recorded(count)), "ok -", "{count}");
    }
    for count in [486, 487, 512, 741, 1500, 65_536 + 485] {
        let lines = [&recorded(count), "trace"];
        assert_eq!(answers(&lines), ["refused 19", "ok -"], "{count}");
    }
}

#[test]
fn a_block_is_filled_while_the_next_record_fits() {
    // Behind one record of no message 485 octets are left: 11 and 474.
    let first = record(0, 1, "");
    let filled = block(
        // 2 + 0x0100, then at an odd place port and length: 0x0001 and 0x01da.
        0xffff - 2 - 0x0100 - 0x0001 - 0x01da,
        0,
        0,
        2,
        &(first.clone() + &record(0, 1, &zeros(474))),
    );
    assert_answers(&[
        ("record 1 0 -", "ok -"),
        (&recorded(474), "ok -"),
        ("trace", &format!("ok {filled}")),
        // Not even a record without a message fits now.
        ("record 1 0 -", &format!("ok {filled}")),
    ]);
    // One octet too many closes the block without it.
    let alone = block(0xfefe, 0, 0, 1, &first);
    let next = block(
        0xffff - 1 - 1 - 0x0101 - 0xdb00,
        1,
        0,
        1,
        &record(0, 1, &zeros(475)),
    );
    assert_answers(&[
        ("record 1 0 -", "ok -"),
        (&recorded(475), &format!("ok {alone}")),
        ("trace", &format!("ok {next}")),
    ]);
    // The longest message fills a block of its own.
    let longest = block(
        0xffff - 1 - 0x0101 - 0xe500,
        0,
        0,
        1,
        &record(0, 1, &zeros(485)),
    );
    assert_answers(&[
        (&recorded(485), "ok -"),
        ("record 1 0 -", &format!("ok {longest}")),
    ]);
}

#[test]
fn forty_five_records_leave_one_octet() {
    // 16 + 45 * 11 = 511.  The ports of records at even places, 23 of them, are
    // 0x0100 each, those of the other 22 are 1: 45 + 5,888 + 22 = 5,955.
    let full = block(65_535 - 5_955, 0, 0, 45, &record(0, 1, "").repeat(45));
    let mut lines = vec!["record 1 0 -"; 46];
    let mut given = answers(&lines);
    assert_eq!(given.pop(), Some(format!("ok {full}")));
    assert!(given.iter().all(|answer| answer == "ok -"));
    lines.truncate(45);
    lines.push("trace");
    assert_eq!(answers(&lines)[45], format!("ok {full}"));
}

#[test]
fn numbers_rise_by_one() {
    let number_of = |answer: &String| u32::from_str_radix(&answer[7..15], 16).unwrap();
    let long = recorded(485);
    for first in [
        0_u32,
        1,
        255,
        256,
        65_535,
        65_536,
        0x00ff_ffff,
        u32::MAX - 2,
    ] {
        let recording = format!("recording {first}");
        let lines = [&recording, &long, &long, &long, "trace"];
        let given = answers(&lines);
        assert_eq!(given[..2], ["ok", "ok -"]);
        let numbers: Vec<u32> = given[2..].iter().map(number_of).collect();
        assert_eq!(numbers, [first, first + 1, first + 2]);
    }
}

#[test]
fn no_block_comes_after_the_last_number() {
    let long = recorded(485);
    // The last block is open and full.
    let full = format!(
        "ok {}",
        block(
            0xffff - 1 - 0x0101 - 0xe500,
            u32::MAX,
            0,
            1,
            &record(0, 1, &zeros(485))
        )
    );
    assert_answers(&[
        ("recording 4294967295", "ok"),
        ("trace", "ok -"),
        (&long, "ok -"),
        ("record 1 0 -", "refused 17"),
        (&long, "refused 17"),
        ("trace", &full),
    ]);
    // What still fits is taken, also behind a refusal; what was refused did not
    // move the last time.
    assert_answers(&[
        ("recording 4294967295", "ok"),
        ("record 1 0 -", "ok -"),
        (&format!("record 1 9 {}", zeros(475)), "refused 17"),
        (&format!("record 1 7 {}", zeros(463)), "ok -"),
        ("record 1 9 00", "refused 17"),
        ("record 1 7 -", "ok -"),
        ("record 1 7 -", "refused 17"),
    ]);
    // The block before it is closed by the one that opens it.
    let before = answers(&["recording 4294967294", &long, &long, &long]);
    assert_eq!(before[..2], ["ok", "ok -"]);
    assert!(before[2].starts_with("ok ") && before[2][7..15] == *"fffffffe");
    assert_eq!(before[3], "refused 17");
    // A new recording may have all numbers again.
    assert_answers(&[
        ("recording 4294967295", "ok"),
        (&long, "ok -"),
        ("record 1 0 -", "refused 17"),
        ("recording 4294967295", "ok"),
        ("record 1 0 -", "ok -"),
        ("fresh", "ok"),
        (&long, "ok -"),
        (&long, &full.replace("ffffffff00", "0000000000")),
    ]);
}

#[test]
fn times_stay_or_rise_on_all_ports_together() {
    assert_answers(&[
        ("record 1 9 -", "ok -"),
        ("record 1 9 -", "ok -"),
        ("record 2 9 -", "ok -"),
        ("record 1 8 -", "refused 11"),
        ("record 2 5 -", "refused 11"),
        ("record 18 0 -", "refused 11"),
        ("record 18 10 -", "ok -"),
        ("record 1 9 -", "refused 11"),
        ("record 1 10 -", "ok -"),
        ("record 3 18446744073709551615 -", "ok -"),
        ("record 3 18446744073709551614 -", "refused 11"),
        ("record 3 9223372036854775807 -", "refused 11"),
        ("record 4 18446744073709551615 -", "ok -"),
        // A new recording begins at 0 again.
        ("recording 0", "ok"),
        ("record 1 0 -", "ok -"),
        ("record 1 9 -", "ok -"),
        ("fresh", "ok"),
        ("record 1 0 -", "ok -"),
    ]);
    // The last time stays over a block's end.
    assert_answers(&[
        (&format!("record 1 5 {}", zeros(485)), "ok -"),
        ("record 2 4 -", "refused 11"),
        (
            "trace",
            &format!(
                "ok {}",
                block(
                    0xffff - 5 - 1 - 5 - 0x0101 - 0xe500,
                    0,
                    5,
                    1,
                    &record(5, 1, &zeros(485))
                )
            ),
        ),
    ]);
}

#[test]
fn refusals_come_in_their_order() {
    let long = zeros(486);
    let filling = zeros(485);
    let lines = [
        ("recording 4294967295", "ok"),
        (&format!("record 1 9 {filling}"), "ok -"),
        // All four, then one fewer each time.
        (&format!("record 0 8 {long}"), "refused 8"),
        (&format!("record 19 8 {long}"), "refused 8"),
        (&format!("record 255 8 {long}"), "refused 8"),
        (&format!("record 18 8 {long}"), "refused 19"),
        (&format!("record 18 8 {filling}"), "refused 11"),
        (&format!("record 18 9 {filling}"), "refused 17"),
        // Pairs that leave one out.
        (&format!("record 0 9 {long}"), "refused 8"),
        ("record 0 8 -", "refused 8"),
        ("record 19 9 -", "refused 8"),
        (&format!("record 1 9 {long}"), "refused 19"),
        ("record 2 8 -", "refused 11"),
        ("record 1 9 -", "refused 17"),
    ];
    assert_answers(&lines);
}

#[test]
fn a_message_is_recorded_whatever_it_is() {
    // Neither the port's senders nor the reading checks are asked, and nothing
    // is taken.
    let announce = format!("0b020040{:0120}", 7);
    assert_answers(&[
        ("clock 0x99", "ok"),
        (&format!("take 1 100 {announce}"), "ok"),
        (&format!("record 1 50 {announce}"), "ok -"),
        ("record 1 60 0b02", "ok -"),
        (&format!("record 2 60 {announce}"), "ok -"),
        ("records 2", "ok 0 0 0"),
        ("records 1", "ok 100 0 1 0 0x0000000000000000 0 0 1 100 0"),
        // Nor is anything recorded by being taken.
        (&format!("take 1 200 {announce}"), "refused 12"),
        ("record 1 60 -", "ok -"),
    ]);
}

#[test]
fn lines_that_are_none_of_recording() {
    let first = format!("ok {}", block(0xfefe, 0, 0, 1, &record(0, 1, "")));
    let full = "00".repeat(485);
    for line in [
        "record",
        "record 1",
        "record 1 0",
        "record 1 0 - -",
        "record 1 0 0",
        "record 1 0 0x00",
        "record  1 0 -",
        "record 1 0 - ",
        "record 256 0 -",
        "record -1 0 -",
        "record 1 -1 -",
        "record 1 18446744073709551616 -",
        "Record 1 0 -",
        "trace 0",
        "trace ",
        "trace -",
        "traces",
        "recording",
        "recording ",
        "recording -1",
        "recording 4294967296",
        "recording 0x100000000",
        "recording 0 0",
        "recording 0 -",
        "recordings 0",
        // These come before 8 and 19.
        &format!("record 0 0 {full}0"),
        &format!("record 0 0 {full}00 -"),
    ] {
        let lines = ["record 1 0 -", line, "trace"];
        assert_eq!(answers(&lines), ["ok -", "bad line", &first], "{line}");
    }
    for line in [
        "recording -0",
        "recording 0xFFFFFFFF",
        "recording 0004294967295",
    ] {
        assert_eq!(answers(&[line, "trace"]), ["ok", "ok -"]);
    }
    assert_eq!(only("record 0x12 0x0 0A"), "ok -");
}
