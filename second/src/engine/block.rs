//! Blocks, of which a trace is made (document 02, (iv)): 512 octets with a check
//! word, a number, the first record's time, the count of records, the records
//! and zeros.  Numbers are big-endian.  A record is a message with its port and
//! time.
//!
//! Whether a block may stand in a trace is asked by four tests: check, layout,
//! number and time.  The first two look at the block alone, the others at what
//! came before it too.

use super::candidate::is_port;
use super::octets::{number_at, push_number, u16_at, u32_at, u64_at};
use super::received::Received;

/// The octets of a block.
pub const BLOCK_SIZE: usize = 512;
/// The longest message that a block holds.
pub const LONGEST_MESSAGE: usize = BLOCK_SIZE - RECORDS_AT - RECORD_HEAD;

/// Where the block's number stands, behind the check word.
pub const NUMBER_AT: usize = 2;
/// Where the first record's time stands.
pub const TIME_AT: usize = 6;
/// Where the count of records stands.
pub const COUNT_AT: usize = 14;
/// Where the first record begins.
pub const RECORDS_AT: usize = 16;

/// What stands before a record's message: time 8, port 1, length 2.
pub const RECORD_HEAD: usize = 11;
/// Where a record's port stands in it.
pub const RECORD_PORT_AT: usize = 8;
/// Where the length of a record's message stands in it.
pub const RECORD_LENGTH_AT: usize = 9;

/// What the sum of a block's 16-bit words is a multiple of.
const CHECK_MODULUS: u64 = 65_535;

/// Whether a record fits into a block behind those already in it.
pub fn fits(record: &Received, records: &[Received]) -> bool {
    record_size(record) <= octets_left(records)
}

/// The octets that a block has left behind its records.
pub fn octets_left(records: &[Received]) -> usize {
    let taken_up: usize = records.iter().map(record_size).sum();
    BLOCK_SIZE - RECORDS_AT - taken_up
}

/// The octets that a record takes up.
fn record_size(record: &Received) -> usize {
    RECORD_HEAD + record.octets.len()
}

/// The block of a number that holds records, at least one and as many as fit.
pub fn block_of(number: u32, records: &[Received]) -> Vec<u8> {
    let mut block = vec![0, 0];
    push_number(&mut block, u64::from(number), 4);
    push_number(&mut block, records[0].time, 8);
    push_number(&mut block, records.len() as u64, 2);
    for record in records {
        push_record(&mut block, record);
    }
    block.resize(BLOCK_SIZE, 0);
    seal(&mut block);
    block
}

/// Puts a record behind those already there.
fn push_record(block: &mut Vec<u8>, record: &Received) {
    push_number(block, record.time, 8);
    block.push(record.port);
    push_number(block, record.octets.len() as u64, 2);
    block.extend_from_slice(&record.octets);
}

/// Puts the check word in that all else in the block calls for: what is missing
/// to the next multiple, so 65,535, and never 0, where the rest is one already.
pub fn seal(block: &mut [u8]) {
    block[..NUMBER_AT].fill(0);
    let missing = CHECK_MODULUS - sum_of_words(block) % CHECK_MODULUS;
    block[..NUMBER_AT].copy_from_slice(&(missing as u16).to_be_bytes());
}

/// The sum of a block's 256 words.
fn sum_of_words(block: &[u8]) -> u64 {
    block.chunks(2).map(|word| number_at(word, 0, 2)).sum()
}

/// The number of a whole block.
pub fn number_of(block: &[u8]) -> u32 {
    u32_at(block, NUMBER_AT)
}

/// The test "check": the check word is 1 to 65,535 and makes the sum of all
/// words a multiple of 65,535.  An unfinished block is not asked for it, as its
/// fault is one of layout.
pub fn check_holds(block: &[u8]) -> bool {
    if block.len() != BLOCK_SIZE {
        return true;
    }
    u16_at(block, 0) != 0 && sum_of_words(block).is_multiple_of(CHECK_MODULUS)
}

/// The test "layout", with the block's records where it holds: 512 octets, at
/// least one record, whole records of ports from 1 to 18, the first one's time
/// in the head, and zeros behind the last.
pub fn records_laid_out(block: &[u8]) -> Option<Vec<Received>> {
    if block.len() != BLOCK_SIZE {
        return None;
    }
    let mut rest = &block[RECORDS_AT..];
    let mut records = Vec::new();
    for _ in 0..u16_at(block, COUNT_AT) {
        let (record, behind) = first_record(rest)?;
        records.push(record);
        rest = behind;
    }
    let first = records.first()?;
    let has_first_time = first.time == u64_at(block, TIME_AT);
    let ends_in_zeros = rest.iter().all(|&octet| octet == 0);
    (has_first_time && ends_in_zeros).then_some(records)
}

/// The record that octets begin with, and the octets behind it; none where they
/// end before it does or its port is none of the clock's.  A length over 485
/// always runs past the block's end.
fn first_record(octets: &[u8]) -> Option<(Received, &[u8])> {
    let head = octets.get(..RECORD_HEAD)?;
    let length = usize::from(u16_at(head, RECORD_LENGTH_AT));
    let message = octets[RECORD_HEAD..].get(..length)?;
    let record = Received {
        port: head[RECORD_PORT_AT],
        time: u64_at(head, 0),
        octets: message.to_vec(),
    };
    is_port(record.port).then_some((record, &octets[RECORD_HEAD + length..]))
}

/// The test "number": a block's number is above that of the block before it;
/// the first may have any.
pub fn number_holds(number: u32, before: Option<u32>) -> bool {
    before.is_none_or(|before| number > before)
}

/// The test "time": times never fall, neither inside a block nor from the last
/// time before it.
pub fn times_hold(records: &[Received], before: u64) -> bool {
    let times = records.iter().map(|record| record.time);
    std::iter::once(before)
        .chain(times.clone())
        .zip(times)
        .all(|(earlier, later)| earlier <= later)
}
