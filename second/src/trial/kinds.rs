//! How often each kind of answer came, to show what the lines reach.

use super::calls::CALLS;
use super::generator::Vector;
use crate::engine::block::BLOCK_SIZE;
use crate::engine::candidate::PORT_COUNT;
use std::collections::{BTreeMap, BTreeSet};

/// The counts so far, by call and kind.
#[derive(Default)]
pub struct Kinds {
    counts: BTreeMap<(String, String), u64>,
}

impl Kinds {
    /// Counts one line, and each message of a burst.
    pub fn count(&mut self, vector: &Vector) {
        let call = call_of(&vector.line);
        if let ("burst", Some(answer)) = (call.as_str(), &vector.answer) {
            for one in answers_in_burst(answer) {
                self.add(&call, format!("message {}", taken_kind(&one)));
            }
        }
        self.add(&call, kind_of(vector));
    }

    /// Counts one kind.
    fn add(&mut self, call: &str, kind: String) {
        let kind = (call.to_string(), kind);
        *self.counts.entry(kind).or_default() += 1;
    }

    /// The table, one kind a line.
    pub fn table(&self) -> String {
        self.counts
            .iter()
            .map(|((call, kind), count)| format!("{count:>9}  {call} {kind}\n"))
            .collect()
    }
}

/// The call a line names, or `other`.
fn call_of(line: &[u8]) -> String {
    let name = line.split(|&c| c == b' ').next().unwrap_or_default();
    CALLS
        .iter()
        .find(|(known, _)| known.as_bytes() == name)
        .map_or("other", |(known, _)| known)
        .to_string()
}

/// The kind of an answer: the whole of it where it is short, its beginning and
/// a telling field where it holds values.
fn kind_of(vector: &Vector) -> String {
    let Some(answer) = &vector.answer else {
        return "nothing".to_string();
    };
    let words: Vec<&str> = answer.split(' ').collect();
    match (call_of(&vector.line).as_str(), words[0]) {
        ("write" | "signal" | "import" | "export", "refused") => format!("refused {}", words[1]),
        (_, "refused") => taken_kind(answer),
        ("burst", "ok") => format!("ok {} messages", burst_kind(words[1])),
        ("read", "ok") => format!("ok type {}", words[1]),
        ("walk", "ok") => format!("ok {} TLVs", walked_kind(words[1])),
        ("lookup", "found") if words[2] == "-" => "found empty".to_string(),
        ("lookup", "found") => "found".to_string(),
        ("linkmessage", "found") => format!("found {}", words[1]),
        ("write", "ok") => format!("ok type {}", written_type(words[2])),
        ("signal", "ok") => format!("ok {} octets", words[1]),
        ("suffixtlv", "ok") => "ok".to_string(),
        ("best" | "parent", "found") => "found".to_string(),
        ("all", "ok") => decided_kind(&words[1..]),
        ("origin", "ok") => "ok".to_string(),
        ("link", "ok") => format!(
            "ok {} retries {} report {} sent {}",
            words[1], words[3], words[4], words[5]
        ),
        ("candidates", "ok") => format!("ok {} entries", words[1]),
        ("records", "ok") => format!("ok {} slots", words[3]),
        ("record", "ok") if words[1] != "-" => "ok closes a block".to_string(),
        ("trace", "ok") if words[1] != "-" => format!("ok {}", check_kind(words[1])),
        ("replay", "ok") => format!("ok {}", different(&words[2..])),
        ("import", "ok") => imported_kind(words[1], words[2]),
        ("export", "ok") => exported_kind(words[1], words[2]),
        ("rank" | "merge", "ok") => format!("ok {} entries", words[1]),
        ("delay", "ok") => format!(
            "ok delay {} offset {} rest {}",
            sign_of(words[1]),
            sign_of(words[2]),
            rest_kind(words[3])
        ),
        _ => answer.clone(),
    }
}

/// The answers to the messages of a burst, each as `take` would give it; none
/// where the burst was not taken.
pub fn answers_in_burst(answer: &str) -> Vec<String> {
    let parted = answer
        .replace(" ok", "\nok")
        .replace(" refused", "\nrefused");
    parted.lines().skip(1).map(str::to_string).collect()
}

/// The kind of `ok` or a refusal: of one that tells a place, whether it is one
/// of the three where tails begin.
fn taken_kind(answer: &str) -> String {
    let words: Vec<&str> = answer.split(' ').collect();
    match words[..] {
        ["refused", number, "44" | "54" | "64"] => format!("refused {number} at {}", words[2]),
        ["refused", number, _] => format!("refused {number} elsewhere"),
        _ => answer.to_string(),
    }
}

/// How many messages a burst has, exactly at the edges.
fn burst_kind(count: &str) -> &str {
    match count.len() {
        1 if count > "1" => "2 to 9",
        2 => "10 to 99",
        3 if count < "287" => "100 to 286",
        _ => count,
    }
}

/// How many TLVs were walked over, as far as one digit tells it.
fn walked_kind(count: &str) -> &str {
    if count.len() == 1 {
        count
    } else {
        "many"
    }
}

/// Which decisions there are among eighteen, and how many entries the list
/// behind them has.
fn decided_kind(words: &[&str]) -> String {
    let (decisions, list) = words.split_at(PORT_COUNT);
    format!("ok {}, {} entries", different(decisions), list[0])
}

/// The words that are different, each once.
fn different(words: &[&str]) -> String {
    let different: BTreeSet<&str> = words.iter().copied().collect();
    let different: Vec<&str> = different.into_iter().collect();
    different.join(" ")
}

/// Whether the check word that a block begins with is at an end of its range.
fn check_kind(block: &str) -> &'static str {
    match &block[..4] {
        "0001" => "least check",
        "ffff" => "greatest check",
        _ => "check between",
    }
}

/// How many blocks an imported trace has, and whether the buffer has octets
/// behind it.
fn imported_kind(length: &str, buffer: &str) -> String {
    let blocks = length.parse().unwrap_or(0) / BLOCK_SIZE;
    let told = match blocks {
        0..=3 => blocks.to_string(),
        4..=9 => "4 to 9".to_string(),
        _ => "many".to_string(),
    };
    format!("ok {told} blocks{}", room_kind(length, buffer))
}

/// Whether an exported capture has frames, and whether the buffer has octets
/// behind it.
fn exported_kind(length: &str, buffer: &str) -> String {
    let told = match length {
        "24" => "no frame",
        _ if length.len() < 5 => "frames",
        _ => "many frames",
    };
    format!("ok {told}{}", room_kind(length, buffer))
}

/// Whether a buffer has octets behind what was written.
fn room_kind(length: &str, buffer: &str) -> &'static str {
    let octets = if buffer == "-" { 0 } else { buffer.len() / 2 };
    if length == octets.to_string() {
        ""
    } else {
        " with room left"
    }
}

/// The type of the message that written octets begin with.
fn written_type(octets: &str) -> u32 {
    let digit = octets.chars().nth(1).unwrap_or_default();
    digit.to_digit(16).unwrap_or_default()
}

/// Whether a number is negative, zero or positive.
fn sign_of(number: &str) -> &'static str {
    match number {
        "0" => "0",
        _ if number.starts_with('-') => "-",
        _ => "+",
    }
}

/// Whether an offset's rest is at one of its ends.
fn rest_kind(rest: &str) -> &'static str {
    match rest {
        "0" => "least",
        "65535999999999" => "greatest",
        _ => "between",
    }
}
