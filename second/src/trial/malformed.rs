//! Lines that are one step from a call: most are no call any more, some still
//! are one.

use super::random::Random;
use crate::protocol::lines::LONGEST_LINE;

/// Tokens that are no number, or none of some type.
const TOKENS: [&str; 34] = [
    "",
    "-",
    "0x",
    "-0x1",
    "-0x0",
    "0X1",
    "+1",
    "--1",
    "1.0",
    "1e3",
    "0b1",
    "x1",
    "0xg",
    "1_000",
    "a",
    "-1",
    "-0",
    "-00",
    "00",
    "0x00",
    "256",
    "-129",
    "128",
    "32768",
    "-32769",
    "65536",
    "4294967296",
    "9223372036854775808",
    "-9223372036854775809",
    "18446744073709551616",
    "0x10000000000000000",
    "340282366920938463463374607431768211456",
    "99999999999999999999999999999999999999999999",
    "0x00000000000000000000000000000000000000000001",
];
/// Names beside those of calls.
const NAMES: [&str; 27] = [
    "reads",
    "rea",
    "Read",
    "READ",
    "fresh1",
    "help",
    "vectors",
    "0",
    "al",
    "All",
    "bests",
    "parents",
    "signals",
    "suffixtl",
    "walks",
    "wal",
    "bursts",
    "burs",
    "recor",
    "recordings",
    "traces",
    "replays",
    "repla",
    "imports",
    "impor",
    "exports",
    "Export",
];

/// A capture that has as many frames of no octets as zeros follow that fill the
/// longest line.
const ZERO_FRAMES: &str = "import 01 00018 a1b2c3d40002000400000000000000000000000000000001";

/// The line one step away.
pub fn malformed(random: &mut Random, line: Vec<u8>) -> Vec<u8> {
    match random.below(16) {
        0 => insert_at_blank(random, line, b' '),
        1 => [line, vec![random.pick(b" \t\r\0-")]].concat(),
        2 => [vec![random.pick(b" \t\r\0-")], line].concat(),
        3 => replace_blank(random, line),
        4 => insert_anywhere(random, line),
        5 => drop_token(random, line),
        6 => add_token(random, line),
        7 => rename(random, line),
        8 | 9 => drop_character(random, line),
        _ => replace_token(random, line),
    }
}

/// The tokens of a line.
fn tokens(line: &[u8]) -> Vec<Vec<u8>> {
    line.split(|&c| c == b' ').map(<[u8]>::to_vec).collect()
}

/// Some place with a blank, if there is one.
fn some_blank(random: &mut Random, line: &[u8]) -> Option<usize> {
    let blanks: Vec<usize> = (0..line.len()).filter(|&at| line[at] == b' ').collect();
    (!blanks.is_empty()).then(|| random.pick(&blanks))
}

/// One character more at a blank.
fn insert_at_blank(random: &mut Random, mut line: Vec<u8>, character: u8) -> Vec<u8> {
    let at = some_blank(random, &line).unwrap_or(line.len());
    line.insert(at, character);
    line
}

/// Another character in a blank's place.
fn replace_blank(random: &mut Random, mut line: Vec<u8>) -> Vec<u8> {
    if let Some(at) = some_blank(random, &line) {
        line[at] = random.pick(b"\t\r\0,_\xa0");
    }
    line
}

/// One character more anywhere, of any kind but a newline.
fn insert_anywhere(random: &mut Random, mut line: Vec<u8>) -> Vec<u8> {
    let any = random.octet();
    let character = random.pick(&[b' ', b'\t', b'\r', 0, b'0', b'f', b'F', b'g', 0xc3, any]);
    let at = random.place(line.len() + 1);
    line.insert(at, if character == b'\n' { b'x' } else { character });
    line
}

/// One token fewer.
fn drop_token(random: &mut Random, line: Vec<u8>) -> Vec<u8> {
    let mut tokens = tokens(&line);
    tokens.remove(random.place(tokens.len()));
    tokens.join(&b' ')
}

/// One token more.
fn add_token(random: &mut Random, line: Vec<u8>) -> Vec<u8> {
    let mut tokens = tokens(&line);
    let token = random.pick(&["0", "-", "00", "1", "none"]);
    let at = 1 + random.place(tokens.len());
    tokens.insert(at, token.as_bytes().to_vec());
    tokens.join(&b' ')
}

/// Another name.
fn rename(random: &mut Random, line: Vec<u8>) -> Vec<u8> {
    let mut tokens = tokens(&line);
    tokens[0] = random.pick(&NAMES).as_bytes().to_vec();
    tokens.join(&b' ')
}

/// One character fewer, mostly the last: octets of an odd count of digits.
fn drop_character(random: &mut Random, mut line: Vec<u8>) -> Vec<u8> {
    let last = line.len() - 1;
    let at = if random.chance(1, 2) {
        last
    } else {
        random.place(line.len())
    };
    line.remove(at);
    line
}

/// An odd token in a token's place.
fn replace_token(random: &mut Random, line: Vec<u8>) -> Vec<u8> {
    let mut tokens = tokens(&line);
    let at = (1 + random.place(tokens.len())).min(tokens.len() - 1);
    tokens[at] = random.pick(&TOKENS).as_bytes().to_vec();
    tokens.join(&b' ')
}

/// A line that answers nothing.
pub fn silent(random: &mut Random) -> Vec<u8> {
    match random.below(4) {
        0 | 1 => Vec::new(),
        2 => b"#".to_vec(),
        _ => b"# read 0b02 \xff\0\t\r".to_vec(),
    }
}

/// A line at the greatest length or one past it, or a comment far beyond.
pub fn longest(random: &mut Random) -> Vec<u8> {
    let length = LONGEST_LINE + random.place(2);
    match random.below(7) {
        0 => filled("magic ", b'0', length, "43981"),
        1 => filled("domain 0x", b'0', length, "0"),
        2 => filled("linkmessage 0c02002c", b'0', length, ""),
        3 => filled("burst 2 1 0 0b020040", b'0', length, " 2 0 -"),
        4 => filled("record 18 0 ", b'0', length, ""),
        5 => filled(ZERO_FRAMES, b'0', length, ""),
        _ => filled("#", b' ', length + random.place(100_000), ""),
    }
}

/// A line of a length: its beginning, one character as often as it takes, and
/// its end.
fn filled(begin: &str, character: u8, length: usize, end: &str) -> Vec<u8> {
    let mut line = begin.as_bytes().to_vec();
    line.resize(length - end.len(), character);
    line.extend_from_slice(end.as_bytes());
    line
}
