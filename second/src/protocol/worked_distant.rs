//! Records of distant clocks (document 02, (iii)): they are kept and make no
//! candidates.  Answers worked out by hand from the documents.

use super::worked_rows::{answers, only};

/// An Announce of zeros but for sender, sequenceId, priority1 and stepsRemoved,
/// as octets.
fn announce(clock: u64, sequence: u16, priority1: u8, steps: u16) -> String {
    format!(
        "0b020040{:032x}{clock:016x}0001{sequence:04x}0500{:026x}{priority1:02x}{:026x}{steps:04x}00",
        0, 0, 0
    )
}

/// The line that lets port 1 take an Announce of sender 1.
fn take(time: u64, sequence: u16, steps: u16) -> String {
    format!("take 1 {time} {}", announce(1, sequence, 0, steps))
}

/// The one candidate of port 1 that sender 1 makes at some steps.
fn candidate(steps: u16) -> String {
    format!("0 0 0 0 0 0x0000000000000000 {steps} 0x0000000000000001 1 1 0")
}

/// Asserts that a clock, which is none of the senders, gives each line the
/// answer beside it.
fn assert_answers(lines: &[(&str, &str)]) {
    let mut all = vec!["clock 0x99"];
    all.extend(lines.iter().map(|(line, _)| line));
    let given = answers(&all).split_off(1);
    for ((line, expected), given) in lines.iter().zip(&given) {
        assert_eq!(given, expected, "{line}");
    }
    assert_eq!(given.len(), lines.len());
}

/// Asserts what port 1 answers to its candidates, at once, when sender 1 has
/// announced these steps one after another.
fn assert_candidates(steps: &[u16], expected: &str) {
    let taken: Vec<String> = (1..)
        .zip(steps)
        .map(|(sequence, &steps)| take(sequence.into(), sequence, steps))
        .collect();
    let mut lines: Vec<(&str, &str)> = taken.iter().map(|line| (&**line, "ok")).collect();
    let asked = format!("candidates 1 {}", steps.len());
    lines.push((&asked, expected));
    assert_answers(&lines);
}

#[test]
fn the_last_steps_of_a_candidate_are_254() {
    for steps in [0, 1, 253, 254] {
        assert_candidates(&[steps, steps], &format!("ok 1 {}", candidate(steps)));
    }
    // Neither equality nor eight bits nor a sign decides.
    for steps in [
        255, 256, 257, 509, 510, 511, 512, 32_767, 32_768, 65_534, 65_535,
    ] {
        assert_candidates(&[steps, steps], "ok 0");
    }
}

#[test]
fn the_latest_data_alone_decide() {
    for distant in [255, 256, 65_535] {
        for near in [0, 254] {
            let made = format!("ok 1 {}", candidate(near));
            assert_candidates(&[distant, near], &made);
            assert_candidates(&[near, distant], "ok 0");
            assert_candidates(&[near, distant, near], &made);
            assert_candidates(&[distant, distant, near], &made);
            assert_candidates(&[near, near, distant], "ok 0");
            assert_candidates(&[distant, near, distant], "ok 0");
        }
    }
}

#[test]
fn one_receipt_is_too_few_at_any_steps() {
    assert_candidates(&[254], "ok 0");
    assert_candidates(&[255], "ok 0");
}

#[test]
fn a_distant_receipt_counts_to_the_end_of_its_window() {
    let made = format!("ok 1 {}", candidate(254));
    assert_answers(&[
        (&take(7, 1, 255), "ok"),
        (&take(1_000_000_007, 2, 254), "ok"),
        ("candidates 1 4000000007", &made),
        ("candidates 1 4000000008", "ok 0"),
    ]);
    // The record is live as long as any other, and then restarts.
    assert_answers(&[
        (&take(7, 1, 255), "ok"),
        (&take(4_000_000_007, 2, 254), "ok"),
        ("candidates 1 4000000007", &made),
    ]);
    assert_answers(&[
        (&take(7, 1, 255), "ok"),
        (&take(4_000_000_008, 2, 254), "ok"),
        ("candidates 1 4000000008", "ok 0"),
        (
            "records 1",
            "ok 4000000008 0 1 0 0x0000000000000001 1 2 1 4000000008 0",
        ),
    ]);
}

#[test]
fn records_tell_distant_clocks_like_any_other() {
    assert_answers(&[
        (&take(100, 1, 255), "ok"),
        ("records 1", "ok 100 0 1 0 0x0000000000000001 1 1 1 100 0"),
        (&take(200, 2, 65_535), "ok"),
        ("records 1", "ok 200 0 1 0 0x0000000000000001 1 2 2 200 100"),
        (&take(300, 3, 254), "ok"),
        ("records 1", "ok 300 0 1 0 0x0000000000000001 1 3 2 300 200"),
        (&take(400, 4, 256), "ok"),
        ("records 1", "ok 400 0 1 0 0x0000000000000001 1 4 2 400 300"),
    ]);
}

#[test]
fn a_distant_announce_moves_the_last_accepted_time() {
    assert_answers(&[
        (&take(200, 1, 255), "ok"),
        (&take(199, 2, 254), "refused 11"),
        ("candidates 1 199", "refused 11"),
        ("best 1 199", "refused 11"),
        ("all 199", "refused 11"),
        ("candidates 1 200", "ok 0"),
    ]);
}

#[test]
fn a_distant_record_refuses_what_is_not_newer() {
    assert_answers(&[
        (&take(100, 7, 255), "ok"),
        (&take(200, 7, 255), "refused 12"),
        (&take(200, 7, 254), "refused 12"),
        (&take(200, 6, 0), "refused 12"),
        (&take(200, 32_775, 0), "refused 12"),
        ("records 1", "ok 100 0 1 0 0x0000000000000001 1 7 1 100 0"),
        // A refused Announce replaces no data: 254 stays, and so does 255.
        (&take(300, 8, 254), "ok"),
        (&take(400, 8, 255), "refused 12"),
        ("candidates 1 400", &format!("ok 1 {}", candidate(254))),
        (&take(500, 9, 255), "ok"),
        (&take(600, 9, 254), "refused 12"),
        ("candidates 1 600", "ok 0"),
    ]);
}

#[test]
fn distant_records_fill_a_port() {
    let of_sender = |sender: u64, time: u64, sequence: u16, steps: u16| {
        let octets = announce(sender, sequence, 0, steps);
        format!("take 1 {time} {octets}")
    };
    // Senders 1 to 16 hold the slots 0 to 15, all of them from time 5 on.
    let filling: Vec<String> = (1..=16)
        .map(|sender| of_sender(sender, 5, 1, 255))
        .collect();
    let mut lines: Vec<(&str, &str)> = filling.iter().map(|line| (&**line, "ok")).collect();
    let near = of_sender(17, 5, 1, 0);
    let distant = of_sender(17, 5, 1, 255);
    let at_the_end = of_sender(17, 4_000_000_005, 1, 0);
    let past_it = of_sender(17, 4_000_000_006, 1, 0);
    let again = of_sender(17, 4_000_000_006, 2, 254);
    let made = "ok 1 0 0 0 0 0 0x0000000000000000 254 0x0000000000000011 1 1 0";
    lines.extend([
        (&*near, "refused 13"),
        (&*distant, "refused 13"),
        ("candidates 1 5", "ok 0"),
        (&*at_the_end, "refused 13"),
        // All are expired, and the lowest slot is the first.
        (&*past_it, "ok"),
        (&*again, "ok"),
        ("candidates 1 4000000006", made),
    ]);
    assert_answers(&lines);
    lines.truncate(16);
    // One of the sixteen may still speak, and is then the one candidate.
    let nearer = of_sender(16, 6, 2, 254);
    let made = "ok 1 0 0 0 0 0 0x0000000000000000 254 0x0000000000000010 1 1 0";
    lines.extend([(&*nearer, "ok"), ("candidates 1 6", made)]);
    assert_answers(&lines);
}

/// Lines that let a port take two Announces of a sender with these steps.
fn heard(port: u8, sender: u64, priority1: u8, steps: [u16; 2]) -> [String; 2] {
    [(1, steps[0]), (2, steps[1])].map(|(sequence, steps)| {
        let octets = announce(sender, sequence, priority1, steps);
        format!("take {port} 10 {octets}")
    })
}

/// Asserts the answers to questions behind some senders' Announces, all of which
/// are taken.
fn assert_asked(heard: &[[String; 2]], questions: &[(&str, &str)]) {
    let taken = heard.iter().flatten().map(|line| (&**line, "ok"));
    let lines: Vec<(&str, &str)> = taken.chain(questions.iter().copied()).collect();
    assert_answers(&lines);
}

#[test]
fn a_distant_record_is_no_ports_best() {
    let better = "1 0 0 0 0 0x0000000000000000 254 0x0000000000000001 1 3 0";
    let worse = "2 0 0 0 0 0x0000000000000000 254 0x0000000000000002 1 3 0";
    assert_asked(
        &[heard(3, 1, 1, [254, 255]), heard(3, 2, 2, [255, 254])],
        &[
            ("best 3 10", &format!("found {worse}")),
            ("candidates 3 10", &format!("ok 1 {worse}")),
        ],
    );
    assert_asked(
        &[heard(3, 1, 1, [255, 254]), heard(3, 2, 2, [255, 254])],
        &[
            ("best 3 10", &format!("found {better}")),
            ("candidates 3 10", &format!("ok 2 {better} {worse}")),
        ],
    );
    assert_asked(
        &[heard(3, 1, 1, [0, 255]), heard(3, 2, 2, [0, 65_535])],
        &[("best 3 10", "absent"), ("candidates 3 10", "ok 0")],
    );
}

#[test]
fn decisions_leave_distant_records_out() {
    // The only sender is distant, or all there are: nobody is heard.
    let distant = [heard(3, 1, 1, [255, 255]), heard(4, 2, 2, [254, 255])];
    let nobody = |decision: &str| format!("ok {}0", decision.repeat(18));
    for senders in [&distant[..1], &distant[1..], &distant] {
        assert_asked(
            senders,
            &[
                ("all 10", &nobody("M2 ")),
                ("own 128 6 254 65535 128", "ok"),
                ("all 10", &nobody("M1 ")),
            ],
        );
    }
    // The better of the two is distant: the other port has Ebest, and the first
    // is like one that hears nothing.
    let entry = "1 2 0 0 0 0 0x0000000000000000 254 0x0000000000000002 1 4 0";
    let one = format!("ok M3 M3 M3 S1 {}{entry}", "M3 ".repeat(14));
    let first_class = format!("ok M1 M1 M1 P1 {}{entry}", "M1 ".repeat(14));
    assert_asked(
        &[heard(3, 1, 1, [254, 255]), heard(4, 2, 2, [255, 254])],
        &[
            ("all 10", &one),
            ("own 128 6 254 65535 128", "ok"),
            ("all 10", &first_class),
        ],
    );
}

#[test]
fn a_burst_keeps_distant_records_too() {
    let messages = [
        announce(1, 1, 0, 255),
        announce(1, 2, 0, 254),
        announce(2, 1, 0, 254),
        announce(2, 2, 0, 255),
        announce(2, 2, 0, 254),
    ];
    let messages: String = messages.map(|octets| format!(" 1 10 {octets}")).concat();
    assert_answers(&[
        (&format!("burst 5{messages}"), "ok 5 ok ok ok ok refused 12"),
        ("candidates 1 10", &format!("ok 1 {}", candidate(254))),
        ("best 1 10", &format!("found {}", candidate(254))),
        (
            "records 1",
            "ok 10 0 2 0 0x0000000000000001 1 2 2 10 10 1 0x0000000000000002 1 2 2 10 10",
        ),
    ]);
}

#[test]
fn lent_candidates_may_have_any_steps() {
    let distant = candidate(255);
    let farther = "0 0 0 0 0 0x0000000000000000 65535 0x0000000000000001 1 2 0";
    let both = format!("2 {distant} {farther}");
    assert_eq!(
        only(&format!("rank 2 {farther} {distant}")),
        format!("ok {both}")
    );
    assert_eq!(
        only(&format!("merge 1 {distant} 1 {farther}")),
        format!("ok {both}")
    );
    assert_answers(&[
        (&format!("decide 1 {both} none"), "S1"),
        (&format!("decide 2 {both} best {farther}"), "M3"),
        (&format!("parent {both}"), &format!("found {distant}")),
    ]);
    let set = |steps: u16| format!("0 0 0 0 0 7 {steps} 1 1 2 2");
    assert_eq!(only(&format!("compare {} {}", set(255), set(257))), "a");
}
