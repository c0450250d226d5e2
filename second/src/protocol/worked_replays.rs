//! Traces that are run again (document 02, (iv)), with answers worked out by
//! hand from the documents.

use super::worked_rows::{answers, only};

/// A block's parts, each of which a test may spoil before it is sealed.
#[derive(Clone)]
pub struct Parts {
    pub number: u32,
    pub time: u64,
    pub count: u16,
    /// Digits of the records and of what stands behind them.
    pub records: String,
}

impl Parts {
    /// The parts of a block that holds these records, each a time, a port and a
    /// message's digits.
    pub fn of(number: u32, records: &[(u64, u8, String)]) -> Parts {
        let digits = |(time, port, message): &(u64, u8, String)| {
            let length = message.len() / 2;
            format!("{time:016x}{port:02x}{length:04x}{message}")
        };
        Parts {
            number,
            time: records[0].0,
            count: records.len() as u16,
            records: records.iter().map(digits).collect(),
        }
    }

    /// All but the check word, as digits.
    fn unsealed(&self) -> String {
        let head = format!("{:08x}{:016x}{:04x}", self.number, self.time, self.count);
        format!("{:0<1020}", head + &self.records)
    }

    /// The block with the check word of 1 to 65,535 that makes the sum of its
    /// words a multiple of 65,535.
    pub fn sealed(&self) -> String {
        let rest = self.unsealed();
        let sum = sum(&rest);
        let fits = |check: &u32| (check + sum).is_multiple_of(65_535);
        let check = (1..=65_535).find(fits).unwrap();
        format!("{check:04x}{rest}")
    }
}

/// The sum of the words that digits spell.
fn sum(digits: &str) -> u32 {
    (0..digits.len() / 4)
        .map(|at| u32::from_str_radix(&digits[4 * at..4 * at + 4], 16).unwrap())
        .sum()
}

/// An Announce of zeros but for sender, sequenceId and priority1.
fn announce(clock: u64, sequence: u16, priority1: u8) -> String {
    format!(
        "0b020040{:032x}{clock:016x}0001{sequence:04x}0500{:026x}{priority1:02x}{:032x}",
        0, 0, 0
    )
}

/// The records of port 4 and port 9 hearing two Announces each: one sender of
/// priority1 1, one of 2.  The last comes at 40.
fn heard() -> Vec<(u64, u8, String)> {
    vec![
        (10, 4, announce(1, 1, 1)),
        (20, 9, announce(2, 7, 2)),
        (30, 4, announce(1, 2, 1)),
        (40, 9, announce(2, 8, 2)),
    ]
}

/// The decisions at their end: Ebest on port 4.  Port 9 hears of the same
/// grandmaster at the same steps from a greater sender, so Ebest is better by
/// topology there.
fn decided() -> String {
    let behind_9 = " M3".repeat(9);
    format!("ok 40 M3 M3 M3 S1 M3 M3 M3 M3 S2{behind_9}")
}

/// The decisions where sender 2 on port 9 is the only one.
fn decided_by_9(time: u64) -> String {
    let before_9 = " M3".repeat(8);
    let behind_9 = " M3".repeat(9);
    format!("ok {time}{before_9} S1{behind_9}")
}

/// What nobody heard of gives.
fn nobody(time: u64) -> String {
    format!("ok {time}{}", " M2".repeat(18))
}

/// The trace of records in blocks that are numbered from 0 and split before
/// these places.
fn split(records: &[(u64, u8, String)], places: &[usize]) -> String {
    let begins = std::iter::once(0).chain(places.iter().copied());
    let ends = places.iter().copied().chain([records.len()]);
    begins
        .zip(ends)
        .zip(0..)
        .map(|((begin, end), number)| Parts::of(number, &records[begin..end]).sealed())
        .collect()
}

/// The answer of a clock that sends nothing here to a trace.
fn replayed(trace: &str) -> String {
    answers(&["clock 0x99", &format!("replay {trace}")]).remove(1)
}

/// Asserts that a clock that sends nothing here gives each line the answer
/// beside it.
fn assert_answers(lines: &[(&str, &str)]) {
    let mut asked = vec!["clock 0x99"];
    asked.extend(lines.iter().map(|(line, _)| *line));
    let given = answers(&asked).split_off(1);
    for ((line, expected), given) in lines.iter().zip(&given) {
        assert_eq!(given, expected, "{line}");
    }
    assert_eq!(given.len(), lines.len());
}

#[test]
fn an_empty_trace_hears_nobody() {
    assert_eq!(only("replay -"), nobody(0));
    assert_answers(&[
        ("own 128 6 254 65535 128", "ok"),
        ("replay -", &nobody(0).replace("M2", "M1")),
    ]);
}

#[test]
fn however_blocks_were_split_the_same_comes_of_them() {
    let records = heard();
    for places in [
        &[][..],
        &[1],
        &[2],
        &[3],
        &[1, 2],
        &[1, 3],
        &[2, 3],
        &[1, 2, 3],
    ] {
        let trace = split(&records, places);
        let replay = format!("replay {trace}");
        assert_answers(&[
            (&replay, &decided()),
            ("records 4", "ok 30 0 1 0 0x0000000000000001 1 2 2 30 10"),
            ("records 9", "ok 40 0 1 0 0x0000000000000002 1 8 2 40 20"),
            ("records 1", "ok 0 0 0"),
            (
                "candidates 4 40",
                "ok 1 1 0 0 0 0 0x0000000000000000 0 0x0000000000000001 1 4 0",
            ),
            (
                "best 9 40",
                "found 2 0 0 0 0 0x0000000000000000 0 0x0000000000000002 1 9 0",
            ),
            ("all 39", "refused 11"),
        ]);
    }
}

#[test]
fn what_was_taken_live_comes_out_of_its_recording() {
    let mut lines = vec!["clock 0x99".to_string()];
    for (time, port, message) in heard() {
        lines.push(format!("take {port} {time} {message}"));
        lines.push(format!("record {port} {time} {message}"));
    }
    lines.extend(["all 40".to_string(), "trace".to_string()]);
    let asked: Vec<&str> = lines.iter().map(String::as_str).collect();
    let mut given = answers(&asked);
    let trace = given.pop().unwrap();
    let live = given.pop().unwrap();
    assert!(given[1..]
        .iter()
        .all(|answer| answer == "ok" || answer == "ok -"));
    assert_eq!(trace, format!("ok {}", split(&heard(), &[])));
    let replay = replayed(&trace[3..]);
    assert_eq!(replay, decided());
    assert!(live.starts_with(&replay.replace("ok 40", "ok")));
}

#[test]
fn refused_messages_are_passed_over() {
    let mut records = heard();
    // A Sync, an Announce of our own, one of another domain, no message at all,
    // one cut short, and one that came before.
    let own = announce(0x99, 1, 0);
    let other_domain = announce(3, 1, 0).replacen("0b02004000", "0b02004001", 1);
    let sync = format!("0002002c{:080}", 0);
    for (at, message) in [
        (4, own),
        (3, other_domain),
        (2, sync),
        (1, String::new()),
        (1, announce(1, 2, 1)[..126].to_string()),
        (0, "0b".to_string()),
    ] {
        let time = if at == 0 { 10 } else { records[at - 1].0 };
        records.insert(at, (time, 4, message));
    }
    records.push((40, 9, announce(2, 8, 2)));
    let singly: Vec<usize> = (1..records.len()).collect();
    assert_eq!(replayed(&split(&records, &singly)), decided());
    let trace = split(&records, &[5]);
    assert_answers(&[
        (&format!("replay {trace}"), &decided()),
        ("records 9", "ok 40 0 1 0 0x0000000000000002 1 8 2 40 20"),
    ]);
}

#[test]
fn the_last_records_time_counts_though_it_is_refused() {
    let last = |time: u64| {
        let mut records = heard();
        records.push((time, 18, String::new()));
        split(&records, &[4])
    };
    // The older receipts lie at 10 and 20, and the window is four seconds.
    let still = decided().replace("ok 40", "ok 4000000010");
    assert_eq!(replayed(&last(4_000_000_010)), still);
    let time = 4_000_000_011;
    assert_eq!(replayed(&last(time)), decided_by_9(time));
    assert_eq!(replayed(&last(4_000_000_021)), nobody(4_000_000_021));
    assert_eq!(replayed(&last(u64::MAX)), nobody(u64::MAX));
}

#[test]
fn it_begins_from_fresh_records_under_the_settings_of_the_moment() {
    let trace = split(&heard(), &[2]);
    let replay = format!("replay {trace}");
    let take = format!("take 1 99 {}", announce(5, 1, 0));
    let again = format!("take 4 99 {}", announce(1, 2, 0));
    assert_answers(&[
        // What ports heard before is gone, here and in a second replay.
        (&take, "ok"),
        (&again, "ok"),
        (&replay, &decided()),
        ("records 1", "ok 0 0 0"),
        (&replay, &decided()),
        ("replay -", &nobody(0)),
        ("records 4", "ok 0 0 0"),
        // The intervals are settings: they stay, and the records are kept by them.
        ("interval 4 -3", "ok"),
        ("interval 1 4", "ok"),
        (&replay, &decided()),
        ("records 4", "ok 30 -3 1 0 0x0000000000000001 1 2 2 30 10"),
        ("records 1", "ok 0 4 0"),
        // Sender 1 is now ourselves, and then the domain is another.
        ("clock 1", "ok"),
        (&replay, &decided_by_9(40)),
        ("domain 1", "ok"),
        (&replay, &nobody(40)),
        ("records 9", "ok 0 0 0"),
    ]);
    // Half a second holds the older receipt at 10 to 500,000,010.
    let late = |time: u64| {
        let mut records = heard();
        records.push((time, 1, String::new()));
        format!("replay {}", split(&records, &[]))
    };
    assert_answers(&[
        ("interval 4 -3", "ok"),
        (&late(500_000_010), &decided().replace("40", "500000010")),
        (&late(500_000_011), &decided_by_9(500_000_011)),
        ("interval 9 -3", "ok"),
        (&late(500_000_020), &decided_by_9(500_000_020)),
        (&late(500_000_021), &nobody(500_000_021)),
    ]);
}

#[test]
fn links_and_the_recording_stay() {
    let trace = split(&heard(), &[1]);
    let opened = answers(&["record 7 6 beef", "trace"]).remove(1);
    assert_answers(&[
        ("linksettings 2 2 1 3 4 5 6", "ok"),
        ("link 2 start 1 0", "ok present 0 0 0 1 4096"),
        ("recording 0", "ok"),
        ("record 7 6 beef", "ok -"),
        (&format!("replay {trace}"), &decided()),
        ("trace", &opened),
        ("record 7 5 beef", "refused 11"),
        ("link 2 timeout", "ok present 0 1 0 1 4096"),
        ("link 2 message 0x1001", "ok s-lock 0 0 0 0"),
    ]);
}

#[test]
fn first_numbers_and_jumps() {
    let records = heard();
    let numbered = |numbers: [u32; 4]| -> String {
        let blocks = numbers.iter().zip(&records);
        blocks
            .map(|(&number, record)| Parts::of(number, std::slice::from_ref(record)).sealed())
            .collect()
    };
    for numbers in [
        [0, 1, 2, 3],
        [7, 8, 9, 10],
        [0, 2, 300, 301],
        [1, 255, 256, 257],
        [255, 256, 65_535, 65_536],
        [0x00ff_ffff, 0x0100_0000, 0x7fff_ffff, 0x8000_0000],
        [0, 0x7fff_ffff, 0x8000_0000, u32::MAX],
        [u32::MAX - 3, u32::MAX - 2, u32::MAX - 1, u32::MAX],
    ] {
        assert_eq!(replayed(&numbered(numbers)), decided(), "{numbers:?}");
    }
    for numbers in [
        [0, 0, 1, 2],
        [0, 1, 1, 2],
        [0, 1, 2, 2],
        [5, 5, 5, 5],
        [1, 0, 2, 3],
        [0, 1, 3, 2],
        [255, 256, 255, 257],
        [256, 255, 511, 512],
        [0x8000_0000, 0x7fff_ffff, u32::MAX - 1, u32::MAX],
        [u32::MAX, 0, 1, 2],
        [u32::MAX - 1, u32::MAX, u32::MAX, u32::MAX],
    ] {
        assert_eq!(replayed(&numbered(numbers)), "refused 20", "{numbers:?}");
    }
}

#[test]
fn times_never_fall() {
    let message = || announce(1, 1, 1);
    let timed = |times: &[u64], places: &[usize]| {
        let records: Vec<_> = times.iter().map(|&time| (time, 1, message())).collect();
        replayed(&split(&records, places))
    };
    // Equal ones are fine, inside a block and from one to the next.
    for places in [&[][..], &[1], &[2], &[1, 2]] {
        for times in [[5, 5, 5], [0, 0, 1], [0, u64::MAX, u64::MAX]] {
            assert_eq!(timed(&times, places), nobody(times[2]), "{times:?}");
        }
        for times in [
            [5, 4, 5],
            [5, 6, 5],
            [1, 0, 0],
            [1 << 63, i64::MAX as u64, u64::MAX],
            [256, 255, 256],
        ] {
            assert_eq!(timed(&times, places), "refused 20", "{times:?} {places:?}");
        }
    }
    // It is the last time of the block before that counts, not its first.
    assert_eq!(timed(&[1, 9, 5], &[2]), "refused 20");
    // Other ports do not matter.
    let records = [(9, 1, String::new()), (8, 2, String::new())];
    assert_eq!(replayed(&split(&records, &[])), "refused 20");
    assert_eq!(replayed(&split(&records, &[1])), "refused 20");
}

/// Asserts that a trace is refused wherever a block stands in it: alone, behind
/// a sound one, before one, and that nothing has changed then.
fn assert_refused(block: &str, why: &str) {
    let before = Parts::of(0, &[(1, 2, announce(8, 1, 0))]).sealed();
    let behind = Parts::of(u32::MAX, &[(1 << 60, 2, announce(8, 2, 0))]).sealed();
    let take = format!("take 2 3 {}", announce(6, 5, 0));
    for trace in [
        block.to_string(),
        before.clone() + block,
        block.to_string() + &behind,
        before + block + &behind,
    ] {
        let lines = [
            (&*take, "ok"),
            (&*format!("replay {trace}"), "refused 20"),
            ("records 2", "ok 3 0 1 0 0x0000000000000006 1 5 1 3 0"),
            ("records 4", "ok 0 0 0"),
        ];
        let asked: Vec<&str> = std::iter::once("clock 0x99")
            .chain(lines.iter().map(|(line, _)| *line))
            .collect();
        let given = answers(&asked);
        for ((_, expected), given) in lines.iter().zip(&given[1..]) {
            assert_eq!(given, expected, "{why}");
        }
    }
}

/// A block of number 5 with the four records.
fn sound() -> Parts {
    Parts::of(5, &heard())
}

#[test]
fn a_wrong_check() {
    let block = sound().sealed();
    assert_eq!(replayed(&block), decided());
    // Every octet is under the check, those of the rest too.
    for at in 0..512 {
        for spoiled in [0x01, 0x80] {
            let octet = u8::from_str_radix(&block[2 * at..2 * at + 2], 16).unwrap();
            let mut block = block.clone();
            block.replace_range(2 * at..2 * at + 2, &format!("{:02x}", octet ^ spoiled));
            assert_eq!(replayed(&block), "refused 20", "{at}");
        }
    }
    for check in ["0000", "ffff"] {
        assert_refused(&format!("{check}{}", sound().unsealed()), check);
    }
}

#[test]
fn a_check_of_0_though_the_sum_fits() {
    // 1 + 0x0100 + 0x0300 + 0xfbfe = 65,535: with 0 and with 65,535 as its check
    // the sum is a multiple, and 0 is none of 1 to 65,535.
    let parts = Parts::of(0, &[(0, 1, "00fbfe".to_string())]);
    assert_eq!(sum(&parts.unsealed()), 65_535);
    assert_eq!(parts.sealed()[..4], *"ffff");
    assert_eq!(replayed(&parts.sealed()), nobody(0));
    assert_eq!(replayed(&format!("0000{}", parts.unsealed())), "refused 20");
    // A block of zeros has a fitting sum and neither a check nor a record.
    assert_eq!(replayed(&"00".repeat(512)), "refused 20");
    assert_eq!(replayed(&"ff".repeat(512)), "refused 20");
}

#[test]
fn a_wrong_count() {
    for count in [0, 1, 3, 5, 4 + 256, 0x0400, u16::MAX] {
        let parts = Parts { count, ..sound() };
        assert_refused(&parts.sealed(), &count.to_string());
    }
    // Zeros behind the last record are no record: their port is 0.
    let empty = Parts::of(5, &[(40, 1, String::new())]);
    for count in [0, 2, 45, 46] {
        let parts = Parts {
            count,
            ..empty.clone()
        };
        assert_refused(&parts.sealed(), &count.to_string());
    }
    // Forty-five fill a block but for an octet; a forty-sixth has no room.
    let many = Parts::of(5, &vec![(40, 1, String::new()); 45]);
    assert_eq!(replayed(&many.sealed()), nobody(40));
    for count in [44, 46] {
        let parts = Parts {
            count,
            ..many.clone()
        };
        assert_refused(&parts.sealed(), &count.to_string());
    }
    // No record at all, whatever the head's time.
    for time in [0, 40] {
        let none = Parts {
            number: 5,
            time,
            count: 0,
            records: String::new(),
        };
        assert_refused(&none.sealed(), "no record");
    }
}

#[test]
fn another_time_in_the_head() {
    for time in [0, 9, 11, 20, 40, 10 << 8, 10 << 56, u64::MAX] {
        let parts = Parts { time, ..sound() };
        assert_refused(&parts.sealed(), &time.to_string());
    }
}

#[test]
fn ports_that_the_clock_does_not_have() {
    for port in [0, 19, 20, 128, 255] {
        for at in 0..4 {
            let mut records = heard();
            records[at].1 = port;
            let block = Parts::of(5, &records).sealed();
            assert_refused(&block, &port.to_string());
        }
    }
    for port in [1, 18] {
        let block = Parts::of(5, &[(40, port, String::new())]).sealed();
        assert_eq!(replayed(&block), nobody(40));
    }
}

#[test]
fn a_record_that_runs_past_the_block() {
    // The longest message fills the block; one octet more in its length, and
    // any more, runs past.
    let longest = Parts::of(5, &[(40, 1, "00".repeat(485))]);
    assert_eq!(replayed(&longest.sealed()), nobody(40));
    let with_length = |records: &str, at: usize, length: u16| {
        let mut records = records.to_string();
        records.replace_range(2 * at..2 * at + 4, &format!("{length:04x}"));
        Parts { records, ..sound() }
    };
    for length in [486, 487, 512, 741, 0x7fff, u16::MAX] {
        let parts = with_length(&longest.records, 9, length);
        let parts = Parts {
            count: 1,
            time: 40,
            ..parts
        };
        assert_refused(&parts.sealed(), &length.to_string());
    }
    // The last of the four records begins at 16 + 3 * 75: 512 - 241 - 11 = 260
    // octets may follow its head, with zeros behind the Announce.
    let records = sound().records;
    let last = with_length(&records, 3 * 75 + 9, 260).sealed();
    assert_eq!(replayed(&last), decided());
    for length in [261, 262, 485, 486, u16::MAX] {
        let parts = with_length(&records, 3 * 75 + 9, length);
        assert_refused(&parts.sealed(), &length.to_string());
    }
    // A first record that takes the others in leaves three that are not there.
    let first = with_length(&records, 9, 64 + 3 * 75).sealed();
    assert_refused(&first, "the first record");
    let alone = Parts {
        count: 1,
        ..with_length(&records, 9, 64 + 3 * 75)
    };
    assert_eq!(replayed(&alone.sealed()), nobody(10));
    // A head that the block's end cuts.
    for left in 1..11 {
        let message = "00".repeat(485 - left);
        let cut = Parts {
            count: 2,
            ..Parts::of(5, &[(0, 1, message)])
        };
        assert_refused(&cut.sealed(), &left.to_string());
    }
}

#[test]
fn something_in_the_rest() {
    // The four records take up the octets to 316.
    for at in [316, 317, 318, 400, 510, 511] {
        for octet in ["01", "80", "ff"] {
            let mut records = format!("{:0<992}", sound().records);
            let place = 2 * (at - 16);
            records.replace_range(place..place + 2, octet);
            let parts = Parts { records, ..sound() };
            assert_refused(&parts.sealed(), &at.to_string());
        }
    }
    // One octet of rest behind forty-five records.
    let mut many = Parts::of(5, &vec![(40, 1, String::new()); 45]);
    many.records += "01";
    assert_refused(&many.sealed(), "511");
}

#[test]
fn unfinished_blocks() {
    let block = sound().sealed();
    let trace = split(&heard(), &[2]);
    assert_eq!(replayed(&trace), decided());
    for octets in [1, 2, 15, 16, 256, 316, 317, 510, 511] {
        assert_eq!(replayed(&block[..2 * octets]), "refused 20", "{octets}");
        assert_eq!(
            replayed(&trace[..1024 + 2 * octets]),
            "refused 20",
            "{octets}"
        );
        // So many too many, zeros or not.
        for more in ["00", "01", "ff"] {
            let longer = trace.clone() + &more.repeat(octets);
            assert_eq!(replayed(&longer), "refused 20", "{octets}");
        }
    }
    // An octet before the first block, and one lacking between two.
    assert_eq!(replayed(&format!("00{trace}")), "refused 20");
    let lacking = format!("{}{}", &trace[..1022], &trace[1024..]);
    assert_eq!(replayed(&lacking), "refused 20");
}

#[test]
fn blocks_out_of_their_order() {
    let trace = split(&heard(), &[1, 2, 3]);
    let blocks: Vec<&str> = (0..4)
        .map(|at| &trace[1024 * at..1024 * at + 1024])
        .collect();
    let ordered = |places: &[usize]| {
        let chosen: Vec<&str> = places.iter().map(|&place| blocks[place]).collect();
        replayed(&chosen.concat())
    };
    assert_eq!(ordered(&[0, 1, 2, 3]), decided());
    for places in [
        [1, 0, 2, 3],
        [0, 2, 1, 3],
        [0, 1, 3, 2],
        [3, 2, 1, 0],
        [0, 0, 1, 2],
    ] {
        assert_eq!(ordered(&places), "refused 20", "{places:?}");
    }
    // A block that lacks is not missed: numbers may jump.
    let by_4 = decided().replace("40", "30").replace("S2", "M3");
    assert_eq!(ordered(&[0, 2]), by_4);
    assert_eq!(ordered(&[1, 3]), decided_by_9(40));
}

#[test]
fn lines_that_are_no_replay() {
    let trace = split(&heard(), &[]);
    let take = format!("take 1 3 {}", announce(6, 5, 0));
    for line in [
        "replay".to_string(),
        "replay ".to_string(),
        "replay 0".to_string(),
        "replay 0x00".to_string(),
        "replay - -".to_string(),
        "replay  -".to_string(),
        "Replay -".to_string(),
        format!("replay {trace} "),
        format!("replay {trace} 0"),
        format!("replay {trace}0"),
        format!("replay {} {}", &trace[..512], &trace[512..]),
        format!("replay {}g", &trace[..1023]),
    ] {
        assert_answers(&[
            (&take, "ok"),
            (&line, "bad line"),
            ("records 1", "ok 3 0 1 0 0x0000000000000006 1 5 1 3 0"),
        ]);
    }
    assert_eq!(replayed(&trace.to_uppercase()), decided());
}

#[test]
fn the_longest_line_holds_292_blocks() {
    let mut records = vec![(10, 4, announce(1, 1, 1)); 291];
    records.push((40, 4, announce(1, 2, 1)));
    let singly: Vec<usize> = (1..292).collect();
    let trace = split(&records, &singly);
    assert_eq!(replayed(&trace), decided().replace("S2", "M3"));
    let line = format!("replay {trace}");
    assert!(line.len() <= 300_000 && line.len() + 1024 > 300_000);
    assert_eq!(replayed(&(trace.clone() + &trace[..1024])), "bad line");
}
