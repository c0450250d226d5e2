//! Tails and the places in them that `walk` and the refusals 6 and 7 tell, with
//! answers worked out by hand from the documents.

use super::worked_rows::{answers, only};

/// The six types with their fixed sizes: a tail's first octet has that place.
const TYPES: [(&str, usize); 6] = [
    ("0", 44),
    ("1", 44),
    ("8", 44),
    ("9", 54),
    ("b", 64),
    ("c", 44),
];

/// Type 8, no data: 4 octets.
const EMPTY: &str = "00080000";
/// Type 1, 2 octets of data: 6 octets.
const PAIR: &str = "00010002beef";
/// An organization's extension without room for White Rabbit's fields: 6 octets.
const SHORT: &str = "000300020800";
/// LOCK: 12 octets.
const LOCK: &str = "00030008080030abcd011001";
/// CALIBRATE with pattern 1, retry 2, period 0x03040506: 18 octets.
const CALIBRATE: &str = "0003000e080030abcd011003010203040506";
/// ANN_SUFIX with wrFlags 7: 14 octets.
const SUFFIX: &str = "0003000a080030abcd0120000007";

/// LOCK with 2 octets of data, which it has not: 14 octets.
const LOCK_OF_2: &str = "0003000a080030abcd0110010000";
/// CALIBRATE with the 12 octets of data that 001 gives it: 24 octets.
const CALIBRATE_OF_12: &str = "00030014080030abcd011003000102030405060708090a0b";
/// ANN_SUFIX without its data: 12 octets.
const SUFFIX_OF_0: &str = "00030008080030abcd012000";
/// SLAVE_PRESENT with 2 octets of data under version 2, which is passed over.
const OTHER_VERSION: &str = "0003000a080030abcd0210000000";

/// A message of zeros but for its type, version, messageLength and tail.
fn message(digit: &str, fixed_size: usize, tail: &str) -> String {
    let length = fixed_size + tail.len() / 2;
    let zeros = "00".repeat(fixed_size - 4);
    format!("0{digit}02{length:04x}{zeros}{tail}")
}

/// An Announce with this tail, which begins at 64.
fn announce(tail: &str) -> String {
    message("b", 64, tail)
}

/// A Signaling with this tail, which begins at 44.
fn signaling(tail: &str) -> String {
    message("c", 44, tail)
}

/// A Sync with the two-step bit and this tail, which begins at 44.
fn two_step_sync(tail: &str) -> String {
    let mut octets = message("0", 44, tail);
    octets.replace_range(12..14, "02");
    octets
}

/// A Follow_Up with this tail, which begins at 44.
fn follow_up(tail: &str) -> String {
    message("8", 44, tail)
}

/// The answer to the walk over an Announce with this tail.
fn walked(tail: &str) -> String {
    only(&format!("walk {}", announce(tail)))
}

/// Asserts that reading an Announce with each of some tails, their pieces put
/// together, is answered so.
fn assert_refused(cases: &[(&[&str], &str)]) {
    for (pieces, answer) in cases {
        let octets = announce(&pieces.concat());
        assert_eq!(only(&format!("read {octets}")), *answer, "{pieces:?}");
        assert_eq!(only(&format!("walk {octets}")), *answer, "{pieces:?}");
    }
}

#[test]
fn a_walk_gives_each_tlvs_place_type_and_length() {
    for (digit, size) in TYPES {
        let walked = |tail: &str| only(&format!("walk {}", message(digit, size, tail)));
        assert_eq!(walked(""), "ok 0");
        assert_eq!(walked(EMPTY), format!("ok 1 {size} 8 0"));
        assert_eq!(
            walked(&[EMPTY, PAIR].concat()),
            format!("ok 2 {size} 8 0 {} 1 2", size + 4)
        );
    }
    assert_eq!(
        walked(&[SUFFIX, EMPTY, PAIR, SHORT, CALIBRATE, LOCK, SUFFIX].concat()),
        "ok 7 64 3 10 78 8 0 82 1 2 88 3 2 94 3 14 112 3 8 124 3 10"
    );
    // The greatest type; and data that look like TLVs are walked over.
    assert_eq!(
        walked("ffff00080008000000030001ffff0000"),
        "ok 2 64 65535 8 76 65535 0"
    );
}

#[test]
fn a_walk_over_as_many_tlvs_as_there_can_be() {
    // 64 and 16,367 times 4 are 65,532; 65,536 would be too long.
    let tail = EMPTY.repeat(16_367);
    let answer = walked(&tail);
    assert!(answer.starts_with("ok 16367 64 8 0 68 8 0 "));
    assert!(answer.ends_with(" 65524 8 0 65528 8 0"));
    // Three octets more bring the message to 65,535.
    assert_eq!(walked(&(tail + "000000")), "refused 6 65532");
}

#[test]
fn a_walk_ends_at_message_length() {
    // What is padding is neither walked over nor refused.
    let octets = announce(PAIR);
    for padding in ["", "00", EMPTY, "00030007", LOCK_OF_2] {
        assert_eq!(only(&format!("walk {octets}{padding}")), "ok 1 64 1 2");
    }
    // What would be whole with the padding is not.
    let cut = announce(&[EMPTY, PAIR].concat()).replace("0b02004a", "0b020048");
    assert_eq!(only(&format!("walk {cut}")), "refused 6 68");
    assert_eq!(only(&format!("read {cut}")), "refused 6 68");
    let cut = cut.replace("0b020048", "0b020046");
    assert_eq!(only(&format!("walk {cut}")), "refused 6 68");
    let cut = cut.replace("0b020046", "0b020044");
    assert_eq!(only(&format!("walk {cut}")), "ok 1 64 8 0");
}

#[test]
fn a_walk_takes_any_message_and_nothing_else() {
    // A message number that is known under the set magic only.
    let octets = announce(LOCK_OF_2);
    let lines = ["magic 0xabce", &format!("walk {octets}")];
    assert_eq!(answers(&lines)[1], "ok 1 64 3 10");
    for line in [
        "walk",
        "walk 0",
        "walk 0x0b",
        &format!("walk {octets} 0"),
        &format!("walk 8 {octets}"),
        &format!("walk {octets} "),
        &format!("Walk {octets}"),
    ] {
        assert_eq!(only(line), "bad line", "{line}");
    }
    assert_eq!(only("walk -"), "refused 1");
}

#[test]
fn one_to_three_octets_left_over() {
    for (digit, size) in TYPES {
        for (left_over, pieces) in [("00", 0), ("0003", 1), ("000800", 2)] {
            let tail = EMPTY.repeat(pieces) + left_over;
            let octets = message(digit, size, &tail);
            let answer = format!("refused 6 {}", size + 4 * pieces);
            assert_eq!(only(&format!("read {octets}")), answer, "{octets}");
            assert_eq!(only(&format!("walk {octets}")), answer, "{octets}");
        }
    }
    assert_refused(&[
        (&[SUFFIX, "00"], "refused 6 78"),
        (&[SUFFIX, PAIR, "0003"], "refused 6 84"),
        (&[PAIR, EMPTY, SUFFIX, SHORT, "000300"], "refused 6 94"),
    ]);
}

#[test]
fn an_odd_length() {
    assert_refused(&[
        // With as many data as it says, with one fewer, with none.
        (&["00080001aa"], "refused 6 64"),
        (&["00080003aabb"], "refused 6 64"),
        (&["00080001"], "refused 6 64"),
        (&[PAIR, CALIBRATE, "0008ffffaabb"], "refused 6 88"),
        // The rest would be whole, one octet on.
        (&[EMPTY, "00080001aa", EMPTY, PAIR], "refused 6 68"),
        // An extension too short for White Rabbit is no exception.
        (&[LOCK, "00030007080030abcd0110"], "refused 6 76"),
    ]);
}

#[test]
fn a_length_past_the_end() {
    assert_refused(&[
        (&["00080002"], "refused 6 64"),
        (&["00080002aa"], "refused 6 64"),
        (&[EMPTY, EMPTY, "0008fffeaabb"], "refused 6 72"),
        // Over sound TLVs, by two octets.
        (&[SUFFIX, "0008000c", PAIR, EMPTY], "refused 6 78"),
        // And to the end exactly.
        (&[SUFFIX, "0008000a", PAIR, EMPTY, "0001"], "refused 6 92"),
    ]);
    assert_eq!(
        walked(&[SUFFIX, "0008000a", PAIR, EMPTY].concat()),
        "ok 2 64 3 10 78 8 10"
    );
}

#[test]
fn a_message_of_a_wrong_size_among_sound_tlvs() {
    assert_refused(&[
        (&[LOCK_OF_2], "refused 7 64"),
        (&[LOCK_OF_2, SUFFIX, PAIR], "refused 7 64"),
        (&[SUFFIX, PAIR, LOCK_OF_2], "refused 7 84"),
        (&[SUFFIX, CALIBRATE_OF_12, PAIR], "refused 7 78"),
        (&[EMPTY, EMPTY, SHORT, SUFFIX_OF_0, LOCK], "refused 7 78"),
        // Passed over, and not the first with the fault.
        (&[OTHER_VERSION, SUFFIX_OF_0], "refused 7 78"),
    ]);
    assert_eq!(walked(OTHER_VERSION), "ok 1 64 3 10");
    // Each type, at the tail's beginning and behind a TLV.
    for (digit, size) in TYPES {
        for (tail, at) in [
            (SUFFIX_OF_0, size),
            (&(PAIR.to_owned() + LOCK_OF_2), size + 6),
        ] {
            let octets = message(digit, size, tail);
            let answer = format!("refused 7 {at}");
            assert_eq!(only(&format!("read {octets}")), answer);
            assert_eq!(only(&format!("walk {octets}")), answer);
        }
    }
}

#[test]
fn the_first_of_several_wrong_sizes() {
    assert_refused(&[
        (&[LOCK_OF_2, LOCK_OF_2, LOCK_OF_2], "refused 7 64"),
        (&[LOCK, LOCK_OF_2, SUFFIX_OF_0], "refused 7 76"),
        (&[PAIR, CALIBRATE_OF_12, EMPTY, LOCK_OF_2], "refused 7 70"),
        (&[SUFFIX, SUFFIX_OF_0, SUFFIX, LOCK_OF_2], "refused 7 78"),
    ]);
}

#[test]
fn a_wrong_size_and_then_a_broken_tlv() {
    assert_refused(&[
        (&[LOCK_OF_2, "00"], "refused 6 78"),
        (&[LOCK_OF_2, EMPTY, "000300"], "refused 6 82"),
        (&[PAIR, SUFFIX_OF_0, "0003"], "refused 6 82"),
        (&[CALIBRATE_OF_12, LOCK_OF_2, "00080001aa"], "refused 6 102"),
        (&[SUFFIX, LOCK_OF_2, "00080004aabb"], "refused 6 92"),
        // The other way round the wrong size is never come to.
        (&["00080001aa", LOCK_OF_2], "refused 6 64"),
        (&[EMPTY, "00080010", LOCK_OF_2], "refused 6 68"),
        // A wrong size that is odd or runs past is not whole first of all.
        (&[SUFFIX, "00030009080030abcd01100100"], "refused 6 78"),
        (&[SUFFIX, "0003000a080030abcd01100100"], "refused 6 78"),
    ]);
}

#[test]
fn every_call_tells_the_place() {
    let broken = [SUFFIX, LOCK, "0003"].concat();
    let misfit = [SUFFIX, LOCK, LOCK_OF_2].concat();
    for call in ["read", "walk", "lookup 3", "lookup 8", "suffix", "take 1 0"] {
        let line = |tail: &str| format!("{call} {}", announce(tail));
        assert_eq!(only(&line(&broken)), "refused 6 90");
        assert_eq!(only(&line(&misfit)), "refused 7 90");
    }
    for call in ["read", "walk", "lookup 3", "lookup 8", "linkmessage"] {
        let line = |tail: &str| format!("{call} {}", signaling(tail));
        assert_eq!(only(&line(&broken)), "refused 6 70");
        assert_eq!(only(&line(&misfit)), "refused 7 70");
    }
    // The same message without its last TLV.
    let sound = [SUFFIX, LOCK].concat();
    let line = |call: &str, octets: String| only(&format!("{call} {octets}"));
    assert_eq!(line("suffix", announce(&sound)), "found 7");
    assert_eq!(line("linkmessage", signaling(&sound)), "found 4097");
    assert_eq!(line("lookup 8", announce(&sound)), "absent");
    assert_eq!(
        line("lookup 3", signaling(&sound)),
        "found 48 080030abcd0120000007"
    );
}

#[test]
fn a_message_of_another_type_than_the_call_takes() {
    // The tail is checked first, and its place is that of its own type.
    for call in ["suffix", "take 18 5"] {
        let line = |tail: &str| format!("{call} {}", message("9", 54, tail));
        assert_eq!(only(&line("")), "refused 3");
        assert_eq!(only(&line("0003")), "refused 6 54");
        assert_eq!(only(&line(&[EMPTY, LOCK_OF_2].concat())), "refused 7 58");
    }
    let line = |tail: &str| format!("linkmessage {}", announce(tail));
    assert_eq!(only(&line(SUFFIX)), "refused 3");
    assert_eq!(only(&line(SUFFIX_OF_0)), "refused 7 64");
    assert_eq!(only(&line("000000")), "refused 6 64");
}

#[test]
fn the_place_in_the_sync_or_in_the_follow_up() {
    let origin = |sync: String, follow_up: String| only(&format!("origin {sync} {follow_up}"));
    let sound = [PAIR, LOCK].concat();
    let broken = [PAIR, EMPTY, "00"].concat();
    let misfit = [PAIR, SUFFIX_OF_0].concat();
    let stamp = "ok 00000000000000000000";
    assert_eq!(origin(two_step_sync(&sound), follow_up(&sound)), stamp);
    assert_eq!(
        origin(two_step_sync(&broken), follow_up(&sound)),
        "refused 6 54"
    );
    assert_eq!(
        origin(two_step_sync(&sound), follow_up(&broken)),
        "refused 6 54"
    );
    assert_eq!(
        origin(two_step_sync(&misfit), follow_up(&sound)),
        "refused 7 50"
    );
    assert_eq!(
        origin(two_step_sync(&sound), follow_up(&misfit)),
        "refused 7 50"
    );
    // The Sync is checked first: its 7 comes before the Follow_Up's 6.
    assert_eq!(
        origin(two_step_sync(&misfit), follow_up("0000")),
        "refused 7 50"
    );
    assert_eq!(
        origin(two_step_sync("0000"), follow_up(&misfit)),
        "refused 6 44"
    );
    // Without the two-step bit the Follow_Up is not looked at.
    assert_eq!(origin(message("0", 44, &sound), follow_up("0000")), stamp);
    assert_eq!(
        origin(message("0", 44, LOCK_OF_2), follow_up("0000")),
        "refused 7 44"
    );
    // A tail comes before a wrong type, and both before a mismatch.
    assert_eq!(origin(announce(&misfit), follow_up(&sound)), "refused 7 70");
    assert_eq!(
        origin(two_step_sync(&sound), message("9", 54, &broken)),
        "refused 6 64"
    );
    let other_domain = |tail: &str| {
        let mut octets = follow_up(tail);
        octets.replace_range(8..10, "01");
        octets
    };
    assert_eq!(
        origin(two_step_sync(&sound), other_domain(&sound)),
        "refused 3"
    );
    assert_eq!(
        origin(two_step_sync(&sound), other_domain(&misfit)),
        "refused 7 50"
    );
}

#[test]
fn every_other_refusal_is_its_number_alone() {
    let bad = [LOCK_OF_2, "000000"].concat();
    let octets = announce(&bad);
    // What comes before 6: each is one change of the same message.
    for (old, new, answer) in [
        ("0b02", "0b02", "refused 6 78"),
        ("0b020051", "0b020052", "refused 1"),
        ("0b02", "0b01", "refused 2"),
        ("0b02", "0a02", "refused 3"),
        ("0b020051", "0b02003f", "refused 4"),
    ] {
        let octets = octets.replacen(old, new, 1);
        for call in ["read", "walk", "lookup 3", "suffix", "take 1 0"] {
            assert_eq!(only(&format!("{call} {octets}")), answer, "{call} {new}");
        }
    }
    let mut late = octets.clone();
    late.replace_range(80..88, "3b9aca00");
    assert_eq!(only(&format!("walk {late}")), "refused 5");
    for port in ["0", "19"] {
        assert_eq!(only(&format!("take {port} 0 {octets}")), "refused 8");
    }
    // What comes behind 7: the message is of domain 0, and from clock 0 as ours
    // is unless set.
    for (tail, answer) in [("", "refused 9"), (LOCK_OF_2, "refused 7 64")] {
        let line = format!("take 1 0 {}", announce(tail));
        assert_eq!(answers(&["domain 1", &line])[1], answer);
    }
    assert_eq!(only(&format!("take 1 0 {}", announce(""))), "refused 10");
}

#[test]
fn a_refused_announce_changes_nothing() {
    let taken = format!("take 1 7 {}", announce(SUFFIX));
    let broken = format!("take 1 9 {}", announce(&[SUFFIX, EMPTY, "0000"].concat()));
    let misfit = format!("take 1 9 {}", announce(&[SUFFIX, LOCK_OF_2].concat()));
    let records = "ok 7 0 1 0 0x0000000000000000 0 0 1 7 0";
    assert_eq!(
        answers(&[
            "clock 9",
            &taken,
            &broken,
            "records 1",
            &misfit,
            "records 1"
        ]),
        ["ok", "ok", "refused 6 82", records, "refused 7 78", records]
    );
}

#[test]
fn a_tail_to_be_written_is_refused_without_a_place() {
    let written = |tail: &str| only(&format!("write 3 12 0 0 0 0 0 0 0 0 0 0 {tail}"));
    for pieces in [
        &["00"][..],
        &[EMPTY, "000300"],
        &["00080001aa"],
        &[PAIR, "00080002"],
        &[LOCK_OF_2],
        &[LOCK, SUFFIX_OF_0, EMPTY],
        &[LOCK_OF_2, "0003"],
    ] {
        assert_eq!(written(&pieces.concat()), "refused 18 a5a5a5", "{pieces:?}");
    }
    assert_eq!(written(LOCK), "refused 16 a5a5a5");
}
