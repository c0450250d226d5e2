//! Lines of `best`, `all`, `parent`, `signal` and `suffixtlv` with answers
//! worked out by hand from the documents.

use super::worked_rows::{answers, only};

/// A second in nanoseconds; the window of an interval not set is four.
const SECOND: u64 = 1_000_000_000;

/// Two lines of `take` one second apart, so that a sender is qualified from the
/// second on.  `data` is priority1 class accuracy variance priority2
/// grandmaster steps, as hexadecimal digits; `sender` its ten octets.
fn heard(port: u8, from: u64, sender: &str, data: [&str; 7], tail: &str) -> [String; 2] {
    [(from, 1), (from + SECOND, 2)].map(|(time, sequence)| {
        let [priority1, class, accuracy, variance, priority2, grandmaster, steps] = data;
        let length = 64 + tail.len() / 2;
        format!(
            "take {port} {time} 0b02{length:04x}{:032x}{sender}{sequence:04x}0500{:026x}\
             {priority1}{class}{accuracy}{variance}{priority2}{grandmaster}{steps}00{tail}",
            0, 0
        )
    })
}

/// The data of a grandmaster 0x11 at some steps.
fn one_grandmaster(steps: &'static str) -> [&'static str; 7] {
    ["80", "06", "21", "4e5d", "7f", "0000000000000011", steps]
}

/// The answers to the questions at the end of a history, which must all be
/// taken.
fn asked(settings: &[&str], history: &[[String; 2]], questions: &[&str]) -> Vec<String> {
    let mut lines: Vec<&str> = settings.to_vec();
    lines.extend(history.iter().flatten().map(String::as_str));
    let before = lines.len();
    lines.extend(questions);
    let mut answers = answers(&lines);
    assert!(answers[..before].iter().all(|answer| answer == "ok"));
    answers.split_off(before)
}

#[test]
fn the_suffixs_tlv() {
    assert_eq!(only("suffixtlv 7"), "ok 0003000a080030abcd0120000007");
    assert_eq!(only("suffixtlv 0"), "ok 0003000a080030abcd0120000000");
    // The twelve reserved bits are not written.
    assert_eq!(only("suffixtlv 0xfff8"), "ok 0003000a080030abcd0120000008");
    assert_eq!(
        answers(&["magic 0x1234", "suffixtlv 65535"])[1],
        "ok 0003000a08003012340120".to_owned() + "00000f"
    );
    for line in [
        "suffixtlv",
        "suffixtlv 65536",
        "suffixtlv -1",
        "suffixtlv 7 7",
    ] {
        assert_eq!(only(line), "bad line", "{line}");
    }
}

/// The head of the Signalings below: transportSpecific 1, domain 2, flags 0x304,
/// correction 5, then sender, sequenceId, interval -2 and target.
const FIELDS: &str = "1 2 0x304 5 0x060708090a0b0c0d 0x0e0f 0x1011 -2 0x1213141516171819 0x1a1b";

/// Its octets for a messageLength.
fn head(length: &str) -> String {
    format!(
        "1c02{length}02000304000000000000000500000000060708090a0b0c0d0e0f101105fe\
         12131415161718191a1b"
    )
}

#[test]
fn signalings_octet_by_octet() {
    let plain = |number: &str| format!("{}00030008080030abcd01{number}", head("0038"));
    for number in ["1000", "1001", "1002", "1005"] {
        assert_eq!(
            only(&format!("signal 56 {FIELDS} 0x{number}")),
            format!("ok 56 {}", plain(number))
        );
    }
    assert_eq!(
        only(&format!("signal 62 {FIELDS} 0x1003 0x1c 0x1d 0x1e1f2021")),
        format!("ok 62 {}0003000e080030abcd0110031c1d1e1f2021", head("003e"))
    );
    let values = "0x22232425262728 0x292a2b2c2d2e2f30";
    assert_eq!(
        only(&format!("signal 74 {FIELDS} 0x1004 {values}")),
        format!(
            "ok 72 {}00030018080030abcd0110040022232425262728292a2b2c2d2e2f30a5a5",
            head("0048")
        )
    );
    let set = answers(&["magic 0x3132", &format!("signal 56 {FIELDS} 0x1001")]);
    assert_eq!(
        set[1],
        format!("ok 56 {}", plain("1001").replace("abcd", "3132"))
    );
}

#[test]
fn signalings_that_are_refused() {
    let untouched = |count| "a5".repeat(count);
    assert_eq!(
        only(&format!("signal 55 {FIELDS} 0x1000")),
        format!("refused 16 {}", untouched(55))
    );
    assert_eq!(only(&format!("signal 0 {FIELDS} 0x1000")), "refused 16 -");
    let wide = FIELDS.replacen('1', "16", 1);
    assert_eq!(
        only(&format!("signal 56 {wide} 0x1000")),
        format!("refused 18 {}", untouched(56))
    );
    // 18 comes before 16.  ANN_SUFIX is no link message either.
    assert_eq!(only(&format!("signal 0 {wide} 0x1000")), "refused 18 -");
    for number in ["0x2000", "0x0fff", "0x1006", "0", "65535"] {
        assert_eq!(
            only(&format!("signal 3 {FIELDS} {number}")),
            "refused 18 a5a5a5"
        );
    }
    // The longest buffer, and one more.
    assert!(only(&format!("signal 70000 {FIELDS} 0x1000")).starts_with("ok 56 "));
    for end in [
        "0x2000 7",
        "0x1000 0",
        "0x1003 256 0 0",
        "0x1003 0 0",
        "0x1004 0",
        "65536",
        "",
    ] {
        assert_eq!(
            only(&format!("signal 70000 {FIELDS} {end}")),
            "bad line",
            "{end}"
        );
    }
    assert_eq!(only(&format!("signal 70001 {FIELDS} 0x1000")), "bad line");
}

#[test]
fn the_best_of_a_port_is_first_in_rank_order() {
    // A has one grandmaster with B, and B beats it by its steps, but priority1
    // stands first among the keys; C is in the lowest slot.
    let c = ["05", "00", "00", "0000", "00", "0000000000000008", "0000"];
    let a = ["01", "00", "00", "0000", "00", "0000000000000007", "0005"];
    let b = ["09", "00", "00", "0000", "00", "0000000000000007", "0001"];
    let history = [
        heard(3, 0, "00000000000000210003", c, ""),
        heard(
            3,
            SECOND,
            "00000000000000220004",
            a,
            "0003000a080030abcd012000fff6",
        ),
        heard(3, 2 * SECOND, "00000000000000230005", b, ""),
    ];
    let shown_a = "found 1 0 0 0 0 0x0000000000000007 5 0x0000000000000022 4 3 6";
    let shown_b = "found 9 0 0 0 0 0x0000000000000007 1 0x0000000000000023 5 3 0";
    let shown_c = "found 5 0 0 0 0 0x0000000000000008 0 0x0000000000000021 3 3 0";
    let questions = [
        // The last accepted time is three seconds.
        ("best 3 2999999999", "refused 11"),
        ("best 3 3000000000", shown_a),
        // C's older receipt is out of the window first, then A's, then B's.
        ("best 3 5000000000", shown_a),
        ("best 3 5000000001", shown_b),
        ("best 3 6000000000", shown_b),
        ("best 3 6000000001", "absent"),
        ("best 4 0", "absent"),
        ("best 0 0", "refused 8"),
        ("best 19 0", "refused 8"),
        ("best 256 0", "bad line"),
        ("best 3", "bad line"),
        ("best 3 3000000000 0", "bad line"),
    ];
    let lines = questions.map(|(line, _)| line);
    assert_eq!(
        asked(&["clock 9"], &history, &lines),
        questions.map(|(_, answer)| answer)
    );
    // A is the best while C is there; without A and B it is C.
    let alone = asked(&["clock 9"], &history[..1], &["best 3 1000000000"]);
    assert_eq!(alone, [shown_c]);
}

#[test]
fn a_best_that_is_asked_for_changes_nothing() {
    let history = [heard(
        1,
        0,
        "00000000000000210001",
        one_grandmaster("0000"),
        "",
    )];
    let questions = [
        "best 1 9000000000",
        "all 9000000000",
        "best 1 1000000000",
        "records 1",
    ];
    let answers = asked(&["clock 9"], &history, &questions);
    assert_eq!(answers[0], "absent");
    assert!(answers[2].starts_with("found"));
    assert_eq!(
        answers[3],
        "ok 1000000000 0 1 0 0x0000000000000021 1 2 2 1000000000 0"
    );
}

/// A candidate of that grandmaster as it is shown.
fn shown(steps: u16, sender: &str, port: u8) -> String {
    format!("128 6 33 20061 127 0x0000000000000011 {steps} {sender} {port} 0")
}

/// Senders of one grandmaster on six ports.  Our clock is 0x50: to a sender
/// below it a step less is better by topology, to one above it better outright.
fn six_ports() -> Vec<[String; 2]> {
    vec![
        heard(9, 0, "00000000000000410001", one_grandmaster("0002"), ""),
        heard(8, 0, "00000000000000400001", one_grandmaster("0002"), ""),
        heard(7, 0, "00000000000000420001", one_grandmaster("0002"), ""),
        heard(6, 0, "00000000000000430001", one_grandmaster("0003"), ""),
        heard(5, 0, "00000000000000440001", one_grandmaster("0003"), ""),
        heard(4, 0, "00000000000000600001", one_grandmaster("0003"), ""),
    ]
}

/// The ranked list of the six ports.
fn four_of_six() -> String {
    [
        "4".to_string(),
        shown(2, "0x0000000000000040 1", 8),
        shown(2, "0x0000000000000041 1", 9),
        shown(2, "0x0000000000000042 1", 7),
        shown(3, "0x0000000000000043 1", 6),
    ]
    .join(" ")
}

#[test]
fn decisions_of_a_clock_that_follows() {
    let settings = ["clock 0x50", "own 129 248 254 65535 128"];
    let decided = asked(
        &settings,
        &six_ports(),
        &["all 1000000000", "all 999999999"],
    );
    // Port 8 has Ebest; 9, 7 and 6 are in the list and lose by topology; 5 does
    // too and is not in it; 4 hears from above us, and the others hear nothing.
    let ports = "M3 M3 M3 M3 P2 S2 S2 S1 S2 M3 M3 M3 M3 M3 M3 M3 M3 M3";
    assert_eq!(decided[0], format!("ok {ports} {}", four_of_six()));
    assert_eq!(decided[1], "refused 11");
    // At the end of the window, and one later.
    let decided = asked(
        &settings,
        &six_ports(),
        &["all 4000000000", "all 4000000001"],
    );
    assert_eq!(decided[0], format!("ok {ports} {}", four_of_six()));
    assert_eq!(decided[1], format!("ok {}0", "M2 ".repeat(18)));
}

#[test]
fn decisions_of_a_clock_that_leads() {
    // Better than all there is, and of no class from 1 to 127.
    let settings = ["clock 0x50", "own 127 128 254 65535 128"];
    let decided = asked(&settings, &six_ports(), &["all 1000000000"]);
    let masters = "M2 ".repeat(18);
    assert_eq!(decided[0], format!("ok {masters}{}", four_of_six()));
    // Class 0 is none of them either.
    let settings = ["clock 0x50", "own 128 0 254 65535 128"];
    let decided = asked(&settings, &six_ports(), &["all 1000000000"]);
    assert_eq!(decided[0], format!("ok {masters}{}", four_of_six()));
}

#[test]
fn decisions_of_a_clock_of_class_1_to_127() {
    let worse = ["80", "07", "21", "4e5d", "7f", "0000000000000012", "0000"];
    let mut history = six_ports();
    history.push(heard(18, 0, "00000000000000700001", worse, ""));
    // Worse than 0x11's class 6 and better than 0x12's class 7.
    let settings = ["clock 0x50", "own 128 6 34 0 0"];
    let decided = asked(&settings, &history, &["all 1000000000"]);
    let ports = "M1 M1 M1 P1 P1 P1 P1 P1 P1 M1 M1 M1 M1 M1 M1 M1 M1 M1";
    assert_eq!(decided[0], format!("ok {ports} {}", four_of_six()));
    let first = asked(&["own 1 1 1 1 1"], &[], &["all 0"]);
    assert_eq!(first[0], format!("ok {}0", "M1 ".repeat(18)));
}

#[test]
fn any_ports_last_time_refuses_all() {
    let history = [heard(
        17,
        3 * SECOND,
        "00000000000000410001",
        one_grandmaster("0002"),
        "",
    )];
    let questions = [
        "all 3999999999",
        "best 17 3999999999",
        "best 1 3999999999",
        "all 4000000000",
    ];
    let answers = asked(&["clock 0x50"], &history, &questions);
    assert_eq!(answers[..3], ["refused 11", "refused 11", "absent"]);
    assert_eq!(
        answers[3],
        format!(
            "ok {}S1 M3 1 {}",
            "M3 ".repeat(16),
            shown(2, "0x0000000000000041 1", 17)
        )
    );
    for line in ["all", "all -1", "all 0 0", "all 18446744073709551616"] {
        assert_eq!(only(line), "bad line", "{line}");
    }
}

#[test]
fn an_error_beats_nothing() {
    // The sender on port 2 becomes our own clock at port 2: a set of one step
    // whose sender is its receiver gives error-1 against our own.
    let ours = ["80", "f8", "fe", "ffff", "80", "0000000000000041", "0001"];
    let history = [heard(2, 0, "00000000000000410002", ours, "")];
    let questions = [
        "clock 0x41",
        "all 1000000000",
        "own 1 6 1 1 1",
        "all 1000000000",
    ];
    let answers = asked(&["clock 0x50"], &history, &questions);
    let entry = "1 128 248 254 65535 128 0x0000000000000041 1 0x0000000000000041 2 2 0";
    assert_eq!(answers[1], format!("ok M3 S1 {}{entry}", "M3 ".repeat(16)));
    assert_eq!(answers[3], format!("ok M1 P1 {}{entry}", "M1 ".repeat(16)));
}

#[test]
fn the_parent_is_the_first_of_a_list_we_do_not_lead() {
    let first = "128 187 33 20061 127 0x0000000000000011 2 0x0000000000000041 1 9 5";
    let second = "128 187 33 20061 127 0x0000000000000011 2 0x0000000000000041 1 10 0";
    let list = format!("parent 2 {first} {second}");
    let found = format!("found {first}");
    let asked = |own: &str, line: &str| answers(&["clock 0x50", own, line]).remove(2);
    let follows = "own 129 248 254 65535 128";
    assert_eq!(asked(follows, &list), found);
    assert_eq!(asked(follows, "parent 0"), "none");
    // Better by one key, equal in all five and above 0x11, worse by one key.
    assert_eq!(asked("own 128 187 33 20061 126", &list), "none");
    assert_eq!(asked("own 128 187 33 20061 127", &list), found);
    assert_eq!(asked("own 128 188 0 0 0", &list), found);
    assert_eq!(asked("own 127 255 255 65535 255", &list), "none");
    // Class 1 to 127 has no parent, however good Ebest is.
    for (class, answer) in [
        ("0", &*found),
        ("1", "none"),
        ("127", "none"),
        ("128", &*found),
    ] {
        assert_eq!(asked(&format!("own 255 {class} 0 0 0"), &list), answer);
    }
    // A list that is no ranked list, whether it is used or not.
    for own in [follows, "own 1 1 1 1 1"] {
        for list in [
            format!("parent 2 {second} {first}"),
            format!("parent 2 {first} {first}"),
            format!("parent 1 {}", first.replace(" 9 5", " 19 5")),
            format!("parent 1 {}", first.replace(" 9 5", " 0 5")),
            format!("parent 2 {first} {}", first.replace(" 9 5", " 9 6")),
            "parent 5".to_string()
                + &[1, 2, 3, 4, 5]
                    .map(|p| format!(" 1 1 1 1 1 1 1 1 1 {p} 0"))
                    .concat(),
        ] {
            assert_eq!(asked(own, &list), "refused 15", "{list}");
        }
    }
    let long = |count: usize| format!("parent {count}{}", " 1 1 1 1 1 1 1 1 1 1 1".repeat(count));
    assert_eq!(asked(follows, &long(400)), "refused 15");
    for line in [&long(401), "parent", "parent 1", "parent 0 0", "parent -1"] {
        assert_eq!(asked(follows, line), "bad line");
    }
}

#[test]
fn a_parent_of_our_own_grandmaster() {
    let asked = |entry: &str| {
        let line = format!("parent 1 {entry}");
        answers(&["clock 0x50", line.as_str()]).remove(1)
    };
    let found = |entry: &str| format!("found {entry}");
    // Equal steps: the lower sender wins; our set's is our clock with port 0.
    let below = "200 200 200 200 200 0x0000000000000050 0 0x000000000000004f 65535 3 0";
    let above = "0 0 0 0 0 0x0000000000000050 0 0x0000000000000050 1 3 0";
    let equal = "0 0 0 0 0 0x0000000000000050 0 0x0000000000000050 0 3 0";
    assert_eq!(asked(below), found(below));
    assert_eq!(asked(above), "none");
    // The same sender: our set's receiver port is 0, which is lower.
    assert_eq!(asked(equal), "none");
    // One step more: error-1 where its sender is its receiver, and then only.
    let itself = "0 0 0 0 0 0x0000000000000050 1 0x0000000000000050 3 3 0";
    assert_eq!(asked(itself), found(itself));
    let beside = "0 0 0 0 0 0x0000000000000050 1 0x0000000000000050 4 3 0";
    assert_eq!(asked(beside), "none");
    let two = "0 0 0 0 0 0x0000000000000050 2 0x0000000000000050 3 3 0";
    assert_eq!(asked(two), "none");
}
