//! Captures and traces (document 02, (vi)): what `import` and `export` write,
//! and what they refuse, worked out by hand from the documents.

use super::worked_recordings::{assert_answers, block, record};
use super::worked_replays::Parts;
use super::worked_rows::{answers, only};

/// The heads of the four forms: magic, version 2.4, zone, precision, snapshot
/// length 65,535, link type 1.
const BIG_MICRO: &str = "a1b2c3d40002000400000000000000000000ffff00000001";
const BIG_NANO: &str = "a1b23c4d0002000400000000000000000000ffff00000001";
const LITTLE_MICRO: &str = "d4c3b2a1020004000000000000000000ffff000001000000";
const LITTLE_NANO: &str = "4d3cb2a1020004000000000000000000ffff000001000000";

/// The multicast address of PTP, and a sender's.
const ADDRESSES: &str = "011b19000000020000000001";

/// A frame of PTP's with a message, as digits.
fn ptp(message: &str) -> String {
    format!("{ADDRESSES}88f7{message}")
}

/// A frame with its big-endian head: seconds, fraction, and twice the length.
fn frame(seconds: u32, fraction: u32, octets: &str) -> String {
    let length = octets.len() as u32 / 2;
    framed(seconds, fraction, length, length, octets)
}

/// A frame with a big-endian head that tells some lengths.
fn framed(seconds: u32, fraction: u32, stored: u32, original: u32, octets: &str) -> String {
    format!("{seconds:08x}{fraction:08x}{stored:08x}{original:08x}{octets}")
}

/// The answer to a file that is imported on port 1 into 512 octets, without
/// the octets.
fn imported(file: &str) -> String {
    let answer = only(&format!("import 512 1 {file}"));
    let (answer, buffer) = answer.rsplit_once(' ').unwrap();
    if !answer.starts_with("ok 512") {
        assert_eq!(buffer, "a5".repeat(512), "{file}");
    }
    answer.to_string()
}

/// Asserts that a file is 21, and that no port and no room change that.
fn assert_pcap(file: &str) {
    assert_eq!(imported(file), "refused 21", "{file}");
    assert_eq!(only(&format!("import 0 19 {file}")), "refused 21 -");
}

/// The block of the one record that a port has, with its check word.
fn one(time: u64, port: u8, message: &str) -> String {
    Parts::of(0, &[(time, port, message.to_string())]).sealed()
}

#[test]
fn captures_without_a_frame() {
    for head in [BIG_MICRO, BIG_NANO, LITTLE_MICRO, LITTLE_NANO] {
        assert_eq!(head.len(), 48);
        assert_eq!(only(&format!("import 0 1 {head}")), "ok 0 -");
        assert_eq!(only(&format!("import 3 18 {head}")), "ok 0 a5a5a5");
        assert_eq!(only(&format!("import 3 0 {head}")), "refused 8 a5a5a5");
        assert_eq!(only(&format!("import 0 19 {head}")), "refused 8 -");
    }
}

#[test]
fn one_frame_in_all_four_forms() {
    // One second and two microseconds are 1,000,002,000 nanoseconds, 0x3b9ad1d0.
    // 0x3b9a and 0xd1d0 come twice, 0x21ad4; with the count 1, port, length and
    // message 0x0500, 0x02ab and 0xcd00 it is 0x2ef80, 0xef82 without twice
    // 65,535, and 0x107d is missing.
    let time = 1_000_002_000;
    let block = block(0x107d, 0, time, 1, &record(time, 5, "abcd"));
    let files = [
        format!("{BIG_MICRO}00000001000000020000001000000010"),
        format!("{BIG_NANO}00000001000007d00000001000000010"),
        format!("{LITTLE_MICRO}01000000020000001000000010000000"),
        format!("{LITTLE_NANO}01000000d00700001000000010000000"),
    ];
    for head in files {
        let file = head + "011b1900000002000000000188f7abcd";
        let answer = only(&format!("import 512 5 {file}"));
        assert_eq!(answer, format!("ok 512 {block}"));
        let answer = only(&format!("import 514 5 {file}"));
        assert_eq!(answer, format!("ok 512 {block}a5a5"));
        let answer = only(&format!("import 511 5 {file}"));
        assert_eq!(answer, format!("refused 16 {}", "a5".repeat(511)));
        assert_eq!(only(&format!("import 0 5 {file}")), "refused 16 -");
    }
}

#[test]
fn heads_that_are_wrong() {
    assert_pcap("-");
    assert_pcap("a1b2c3d4");
    assert_pcap(&BIG_NANO[..46]);
    // Octets exchanged in pairs, pairs exchanged, neighbours, other kinds.
    for magic in [
        "b2a1d4c3", "b2a14d3c", "c3d4a1b2", "3c4da1b2", "a1b2c3d5", "a1b23c4c", "a1b2cd34",
        "0a0d0d0a", "00000000",
    ] {
        assert_pcap(&format!("{magic}{}", &BIG_NANO[8..]));
        assert_pcap(&format!("{magic}{}", &LITTLE_NANO[8..]));
    }
    // A magic of the other order than the rest.
    assert_pcap(&format!("4d3cb2a1{}", &BIG_NANO[8..]));
    assert_pcap(&format!("a1b2c3d4{}", &LITTLE_NANO[8..]));
    for version in [
        "00020003", "00020005", "00040002", "02000400", "01020004", "00020104", "00000000",
    ] {
        assert_pcap(&format!("a1b23c4d{version}{}", &BIG_NANO[16..]));
    }
    for version in ["02000300", "02000500", "04000200", "00020004"] {
        assert_pcap(&format!("d4c3b2a1{version}{}", &LITTLE_NANO[16..]));
    }
}

#[test]
fn the_link_type_is_all_32_bits() {
    for link_type in [
        "10000001", "00010001", "80000001", "00000101", "01000000", "00000000", "00000002",
        "00000071",
    ] {
        assert_pcap(&format!("{}{link_type}", &BIG_NANO[..40]));
    }
    for link_type in ["01000010", "01000100", "00000001"] {
        assert_pcap(&format!("{}{link_type}", &LITTLE_MICRO[..40]));
    }
}

#[test]
fn zone_precision_and_snapshot_length_are_not_looked_at() {
    let frame = frame(0, 0, &ptp("ee"));
    let others = ["ffffffff00000001ffffffff", "000000000000000000000000"];
    for fields in others.into_iter().chain(["000000000000000900000001"]) {
        let head = format!("{}{fields}00000001", &BIG_NANO[..16]);
        let answer = only(&format!("import 512 1 {head}{frame}"));
        assert_eq!(answer, format!("ok 512 {}", one(0, 1, "ee")));
    }
}

#[test]
fn fractions_below_a_second() {
    let message = ptp("");
    for (head, fraction, time) in [
        (BIG_MICRO, 0, 7_000_000_000),
        (BIG_MICRO, 999_999, 7_999_999_000),
        (BIG_NANO, 999_999, 7_000_999_999),
        (BIG_NANO, 1_000_000, 7_001_000_000),
        (BIG_NANO, 999_999_999, 7_999_999_999),
    ] {
        let file = format!("{head}{}", frame(7, fraction, &message));
        let answer = only(&format!("import 512 1 {file}"));
        assert_eq!(answer, format!("ok 512 {}", one(time, 1, "")));
    }
    for (head, fraction) in [
        (BIG_MICRO, 1_000_000),
        (BIG_MICRO, 999_999_999),
        (BIG_MICRO, u32::MAX),
        (BIG_NANO, 1_000_000_000),
        (BIG_NANO, 1 << 31),
        (BIG_NANO, u32::MAX),
    ] {
        assert_pcap(&format!("{head}{}", frame(7, fraction, &message)));
        // In a frame that is passed over too, and in one of no octets.
        assert_pcap(&format!("{head}{}", frame(7, fraction, &ADDRESSES[2..])));
        assert_pcap(&format!("{head}{}", frame(7, fraction, "")));
    }
    // The last of all.
    let file = format!("{BIG_NANO}{}", frame(u32::MAX, 999_999_999, &message));
    let answer = only(&format!("import 512 1 {file}"));
    let block = one(4_294_967_295_999_999_999, 1, "");
    assert_eq!(answer, format!("ok 512 {block}"));
}

#[test]
fn frames_that_are_stored_short_or_run_past_the_file() {
    let message = ptp("0102");
    let other = format!("{ADDRESSES}0800450000");
    let in_file = |frame: &str| format!("{BIG_MICRO}{frame}");
    for octets in [&message, &other] {
        let length = octets.len() as u32 / 2;
        let with = |stored, original| in_file(&framed(1, 0, stored, original, octets));
        assert!(imported(&with(length, length)).starts_with("ok"));
        // One octet of the original is missing, or very many are.
        assert_pcap(&with(length, length + 1));
        assert_pcap(&with(length, u32::MAX));
        // More is stored than there was: taken as it is stored.
        for original in [0, 1, 13, 14, length - 1] {
            assert_eq!(
                imported(&with(length, original)),
                imported(&with(length, length))
            );
        }
        // One octet past the end, and as many as 32 bits hold.
        for stored in [length + 1, 65_536, 1 << 31, u32::MAX - 15, u32::MAX] {
            assert_pcap(&with(stored, length));
            assert_pcap(&with(stored, stored));
        }
    }
    let stored_more = in_file(&framed(1, 0, 16, 13, &message));
    let answer = only(&format!("import 512 1 {stored_more}"));
    assert_eq!(answer, format!("ok 512 {}", one(1_000_000_000, 1, "0102")));
    assert_pcap(&in_file(&framed(1, 0, 0, 1, "")));
}

#[test]
fn loose_octets_run_past_the_file() {
    for frames in [String::new(), frame(1, 0, &ptp("")), frame(1, 0, "00")] {
        for count in 1..=15 {
            assert_pcap(&format!("{BIG_NANO}{frames}{}", "00".repeat(count)));
        }
        // Sixteen zeros are a frame of no octets.
        let whole = format!("{BIG_NANO}{frames}{}", "00".repeat(16));
        assert!(imported(&whole).starts_with("ok"));
        assert_pcap(&(whole + "00"));
    }
}

#[test]
fn frames_that_are_taken_and_frames_that_are_passed_over() {
    for taken in ["", "00", "88f7", "0102030405"] {
        let file = format!("{BIG_NANO}{}", frame(0, 3, &ptp(taken)));
        let answer = only(&format!("import 512 18 {file}"));
        assert_eq!(answer, format!("ok 512 {}", one(3, 18, taken)));
    }
    let little = format!("{LITTLE_NANO}00000000030000000f0000000f000000{}", ptp("44"));
    let answer = only(&format!("import 512 18 {little}"));
    assert_eq!(answer, format!("ok 512 {}", one(3, 18, "44")));
    for passed_over in [
        String::new(),
        "88".to_string(),
        "88f7".to_string(),
        ADDRESSES.to_string(),
        // Thirteen octets, the last of them the first of PTP's type.
        format!("{ADDRESSES}88"),
        format!("{ADDRESSES}f788aa"),
        format!("{ADDRESSES}8100000788f7aa"),
        format!("{ADDRESSES}080088f7aa"),
        format!("{ADDRESSES}88f6aa"),
        format!("{ADDRESSES}88f8aa"),
        format!("{ADDRESSES}08f7aa"),
        "88f7".repeat(6) + "0000",
    ] {
        let file = format!("{BIG_NANO}{}", frame(0, 3, &passed_over));
        assert_eq!(only(&format!("import 0 1 {file}")), "ok 0 -");
        // Its time is nothing to the frames behind it, nor theirs to it.
        let (later, early) = (frame(9, 0, &passed_over), frame(0, 0, &passed_over));
        let taken = frame(2, 0, &ptp("aa"));
        let file = format!("{BIG_NANO}{later}{taken}{early}{later}");
        let answer = only(&format!("import 512 1 {file}"));
        assert_eq!(answer, format!("ok 512 {}", one(2_000_000_000, 1, "aa")));
    }
}

#[test]
fn padding_is_kept() {
    // A Sync of 44 octets in a frame of 60.
    let sync = format!("0002002c{}0000", "00".repeat(40));
    assert_eq!(sync.len(), 2 * 46);
    let file = format!("{BIG_MICRO}{}", frame(0, 0, &ptp(&sync)));
    let answer = only(&format!("import 512 1 {file}"));
    assert_eq!(answer, format!("ok 512 {}", one(0, 1, &sync)));
}

#[test]
fn blocks_are_filled_as_in_a_recording() {
    // 485 octets fill a block; a record of none is the next block's.
    let longest = "5a".repeat(485);
    let file = format!(
        "{BIG_NANO}{}{}{}",
        frame(0, 1, &ptp(&longest)),
        frame(0, 1, &ptp("")),
        frame(0, 2, &ptp("07"))
    );
    let first = Parts::of(0, &[(1, 4, longest)]).sealed();
    let second = Parts::of(1, &[(1, 4, String::new()), (2, 4, "07".to_string())]).sealed();
    let answer = only(&format!("import 1024 4 {file}"));
    assert_eq!(answer, format!("ok 1024 {first}{second}"));
    let answer = only(&format!("import 1023 4 {file}"));
    assert_eq!(answer, format!("refused 16 {}", "a5".repeat(1023)));
}

#[test]
fn what_recording_refuses() {
    let long = frame(5, 0, &ptp(&"00".repeat(486)));
    let sound = frame(5, 0, &ptp("01"));
    let early = frame(4, 999_999_999, &ptp("02"));
    let imported = |frames: &[&String]| {
        let frames: String = frames.iter().map(|frame| frame.as_str()).collect();
        imported(&format!("{BIG_NANO}{frames}"))
    };
    assert_eq!(imported(&[&long]), "refused 19");
    assert_eq!(imported(&[&sound, &sound]), "ok 512");
    assert_eq!(imported(&[&sound, &early]), "refused 11");
    // The first frame that is refused counts.
    assert_eq!(imported(&[&long, &sound, &early]), "refused 19");
    assert_eq!(imported(&[&sound, &early, &long]), "refused 11");
    // In one frame 19 comes before 11.
    let both = frame(4, 0, &ptp(&"00".repeat(486)));
    assert_eq!(imported(&[&sound, &both]), "refused 19");
    // A long frame of another type is passed over.
    let other = frame(4, 0, &format!("{ADDRESSES}0800{}", "00".repeat(1500)));
    assert_eq!(imported(&[&sound, &other, &sound]), "ok 512");
}

#[test]
fn the_order_of_an_imports_refusals() {
    let long = frame(5, 0, &ptp(&"00".repeat(486)));
    let cut = frame(6, 0, &ptp("00"));
    let cut = &cut[..cut.len() - 2];
    // 21 far behind 19, with a port that is none and without room.
    assert_pcap(&format!("{BIG_NANO}{long}{cut}"));
    // 8 before 19, 19 before 16.
    let file = format!("{BIG_NANO}{long}");
    for port in [0, 19, 20, 255] {
        assert_eq!(only(&format!("import 0 {port} {file}")), "refused 8 -");
    }
    assert_eq!(only(&format!("import 0 1 {file}")), "refused 19 -");
    // 11 before 16, and 8 before 16.
    let falls = format!(
        "{BIG_NANO}{}{}",
        frame(1, 1, &ptp("")),
        frame(1, 0, &ptp(""))
    );
    assert_eq!(only(&format!("import 1 18 {falls}")), "refused 11 a5");
    let sound = format!("{BIG_NANO}{}", frame(1, 1, &ptp("")));
    assert_eq!(only(&format!("import 1 0 {sound}")), "refused 8 a5");
    assert_eq!(only(&format!("import 1 18 {sound}")), "refused 16 a5");
}

#[test]
fn an_import_leaves_the_recording() {
    let file = format!("{BIG_NANO}{}", frame(0, 1, &ptp("ee")));
    let kept = one(9, 1, "01");
    let imported = one(1, 2, "ee");
    assert_answers(&[
        ("record 1 9 01", "ok -"),
        // Its time is below that of the recording, which is nothing to it.
        (
            &format!("import 512 2 {file}"),
            &format!("ok 512 {imported}"),
        ),
        ("trace", &format!("ok {kept}")),
        (&format!("export 0 {kept}"), "refused 16 -"),
        ("trace", &format!("ok {kept}")),
        ("records 2", "ok 0 0 0"),
    ]);
}

#[test]
fn a_trace_as_a_capture() {
    assert_eq!(only("export 24 -"), format!("ok 24 {BIG_NANO}"));
    assert_eq!(only("export 26 -"), format!("ok 24 {BIG_NANO}a5a5"));
    assert_eq!(
        only("export 23 -"),
        format!("refused 16 {}", "a5".repeat(23))
    );
    assert_eq!(only("export 0 -"), "refused 16 -");
    // 1,000,002,003 nanoseconds; 14 and 2 octets.
    let trace = one(1_000_002_003, 5, "abcd");
    let file = format!(
        "{BIG_NANO}00000001000007d30000001000000010\
         00000000000000000000000088f7abcd"
    );
    assert_eq!(only(&format!("export 56 {trace}")), format!("ok 56 {file}"));
    assert_eq!(
        only(&format!("export 57 {trace}")),
        format!("ok 56 {file}a5")
    );
    let refused = format!("refused 16 {}", "a5".repeat(55));
    assert_eq!(only(&format!("export 55 {trace}")), refused);
}

#[test]
fn blocks_and_their_numbers_leave_no_mark_in_a_capture() {
    let records = [
        (8, 3, "01".to_string()),
        (9, 3, String::new()),
        (9, 3, "0203".to_string()),
    ];
    let head = |nanoseconds: u32, octets: &str| {
        frame(0, nanoseconds, &format!("{}88f7{octets}", "00".repeat(12)))
    };
    let file = format!(
        "{BIG_NANO}{}{}{}",
        head(8, "01"),
        head(9, ""),
        head(9, "0203")
    );
    let together = Parts::of(0, &records).sealed();
    let apart: String = [(7, 0), (8, 1), (u32::MAX, 2)]
        .into_iter()
        .map(|(number, at)| Parts::of(number, &records[at..=at]).sealed())
        .collect();
    for trace in [&together, &apart] {
        let answer = only(&format!("export 117 {trace}"));
        assert_eq!(answer, format!("ok 117 {file}"));
    }
    // What is read back is filled and numbered as ours are.
    let answer = only(&format!("import 512 3 {file}"));
    assert_eq!(answer, format!("ok 512 {together}"));
}

#[test]
fn a_trace_that_no_capture_can_hold() {
    let refused = |records: &[(u64, u8, String)]| {
        let block = Parts::of(0, records).sealed();
        let answer = only(&format!("export 2 {block}"));
        assert!(answer == "refused 22 a5a5" || answer == "refused 16 a5a5");
        answer == "refused 22 a5a5"
    };
    let at = |time: u64, port: u8| (time, port, String::new());
    // The last nanosecond whose seconds are 4,294,967,295, and the next.
    let last = 4_294_967_295_999_999_999;
    assert!(!refused(&[at(last, 1)]));
    assert!(refused(&[at(last + 1, 1)]));
    assert!(refused(&[at(4_294_967_296_999_999_999, 1)]));
    assert!(refused(&[at(0, 1), at(u64::MAX, 1)]));
    // Ports that differ, at either end and in the middle.
    assert!(!refused(&[at(0, 18), at(0, 18), at(1, 18)]));
    assert!(refused(&[at(0, 18), at(0, 18), at(1, 17)]));
    assert!(refused(&[at(0, 17), at(0, 18), at(1, 18)]));
    assert!(refused(&[at(0, 18), at(0, 17), at(1, 18)]));
    // In one block each, in two they mix.
    let first = Parts::of(0, &[at(0, 1), at(0, 1)]).sealed();
    let second = Parts::of(1, &[at(0, 2), at(0, 2)]).sealed();
    assert_eq!(only(&format!("export 0 {first}{second}")), "refused 22 -");
    let file = format!(
        "{BIG_NANO}ffffffff3b9ac9ff0000000e0000000e{}88f7",
        "00".repeat(12)
    );
    let answer = only(&format!("export 54 {}", one(last, 1, "")));
    assert_eq!(answer, format!("ok 54 {file}"));
}

#[test]
fn the_order_of_an_exports_refusals() {
    let mixed = [(5, 1, String::new()), (6, 2, String::new())];
    let parts = Parts::of(0, &mixed);
    let sealed = parts.sealed();
    assert_eq!(only(&format!("export 1 {sealed}")), "refused 22 a5");
    // A port that mixes, and behind it each fault that replay refuses.
    let short = &sealed[..1022];
    let wrong_check = format!("{}ff", &sealed[..1022]);
    let head_time = Parts {
        time: 4,
        ..parts.clone()
    }
    .sealed();
    let later = Parts::of(0, &[(7, 1, String::new())]).sealed();
    let falls = Parts::of(1, &[(5, 1, String::new())]).sealed();
    for trace in [
        short.to_string(),
        format!("{sealed}00"),
        wrong_check,
        head_time,
        format!("{sealed}{later}"),
        format!("{sealed}{falls}"),
        format!("{sealed}{}", "00".repeat(512)),
    ] {
        assert_eq!(
            only(&format!("export 1 {trace}")),
            "refused 20 a5",
            "{trace}"
        );
    }
    // A time that is too late, in a block that is sound, before one that is not.
    let late = one(u64::MAX, 1, "");
    assert_eq!(only(&format!("export 0 {late}")), "refused 22 -");
    assert_eq!(only(&format!("export 0 {late}{late}")), "refused 20 -");
}

#[test]
fn lines_that_are_no_import_and_no_export() {
    for line in [
        "import",
        "import 0",
        "import 0 1",
        "import 0 1 - -",
        "import 70001 1 -",
        "import -1 1 -",
        "import 0 256 -",
        "import 0 -1 -",
        "import 0 1 a",
        "import 0 1 0x00",
        "import  0 1 -",
        "imports 0 1 -",
        "export",
        "export 0",
        "export - 0",
        "export 24 - -",
        "export 70001 -",
        "export 24 1 -",
        "export 24 0",
        "export 24 -\r",
    ] {
        assert_eq!(only(line), "bad line", "{line}");
    }
    let all_room = only("export 70000 -");
    assert_eq!(all_room, format!("ok 24 {BIG_NANO}{}", "a5".repeat(69_976)));
    let lines = ["import 0x0 0x1 -", "import 00 001 -", "import 0 0 -"];
    assert_eq!(answers(&lines), ["refused 21 -"; 3]);
}
