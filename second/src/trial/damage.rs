//! Damage to a trace's blocks: every fault that a disk or a writer can put in,
//! most of them under a check word that fits, and some that are none.

use super::candidates::FOREIGN_PORTS;
use super::random::Random;
use super::traces::word_for_check;
use crate::engine::block::{
    seal, BLOCK_SIZE, COUNT_AT, NUMBER_AT, RECORDS_AT, RECORD_HEAD, RECORD_LENGTH_AT,
    RECORD_PORT_AT, TIME_AT,
};
use crate::engine::octets::{u16_at, u32_at, u64_at};

/// A trace's octets with one fault, which now and then is none.
pub fn damaged(random: &mut Random, mut blocks: Vec<Vec<u8>>) -> Vec<u8> {
    if blocks.is_empty() {
        let octet = random.octet();
        return vec![random.pick(&[0, 0xff, octet]); odd_length(random)];
    }
    match random.below(24) {
        0 => change_octet(random, &mut blocks),
        1 => change_octet_sealed(random, &mut blocks),
        2 => change_check(random, &mut blocks),
        3 => clear_fitting_check(random, &mut blocks),
        4 | 5 => change_count(random, &mut blocks),
        6 => change_head_time(random, &mut blocks),
        7 => change_port(random, &mut blocks),
        8 | 9 => change_length(random, &mut blocks),
        10 | 11 => litter(random, &mut blocks),
        12 | 13 => lower_number(random, &mut blocks),
        14 | 15 => lower_time_inside(random, &mut blocks),
        16 | 17 => lower_first_time(random, &mut blocks),
        18 => exchange_words(random, &mut blocks),
        19 => fill_empty_word(random, &mut blocks),
        20 => move_block(random, &mut blocks),
        21 => repeat_or_drop(random, &mut blocks),
        22 => return cut_end(random, blocks.concat()),
        _ => return lengthen(random, blocks.concat()),
    }
    blocks.concat()
}

/// A length that is no whole number of blocks, or one block.
fn odd_length(random: &mut Random) -> usize {
    random.pick(&[1, 2, 16, 27, 256, 511, 512, 513])
}

/// One of the blocks, the last more often than others.
fn some_block<'a>(random: &mut Random, blocks: &'a mut [Vec<u8>]) -> &'a mut Vec<u8> {
    let last = blocks.len() - 1;
    let any = random.place(blocks.len());
    &mut blocks[random.pick(&[any, any, last])]
}

/// Where the records of a sound block begin, and where the last of them ends.
fn record_places(block: &[u8]) -> (Vec<usize>, usize) {
    let mut at = RECORDS_AT;
    let mut places = Vec::new();
    for _ in 0..u16_at(block, COUNT_AT) {
        places.push(at);
        at += RECORD_HEAD + usize::from(u16_at(block, at + RECORD_LENGTH_AT));
    }
    (places, at)
}

/// Where one of a sound block's records begins, the last more often than others.
fn some_record(random: &mut Random, block: &[u8]) -> usize {
    let (places, _) = record_places(block);
    let any = random.pick(&places);
    let last = places[places.len() - 1];
    random.pick(&[any, any, last])
}

/// The time of a sound block's last record.
fn last_time(block: &[u8]) -> u64 {
    let (places, _) = record_places(block);
    places.last().map_or(0, |&at| u64_at(block, at))
}

/// Puts a number's octets at a place and seals the block.
fn put<const WIDTH: usize>(block: &mut [u8], at: usize, octets: [u8; WIDTH]) {
    block[at..at + WIDTH].copy_from_slice(&octets);
    seal(block);
}

/// Changes a bit anywhere.
fn change_octet(random: &mut Random, blocks: &mut [Vec<u8>]) {
    let block = some_block(random, blocks);
    let at = random.place(BLOCK_SIZE);
    block[at] ^= 1 << random.below(8);
}

/// Changes a bit anywhere behind the check word, mostly before the records' end,
/// and seals the block.
fn change_octet_sealed(random: &mut Random, blocks: &mut [Vec<u8>]) {
    let block = some_block(random, blocks);
    let (_, end) = record_places(block);
    let end = random.pick(&[end, end, end, BLOCK_SIZE]);
    let at = NUMBER_AT + random.place(end - NUMBER_AT);
    block[at] ^= 1 << random.below(8);
    seal(block);
}

/// Puts another check word in.
fn change_check(random: &mut Random, blocks: &mut [Vec<u8>]) {
    let block = some_block(random, blocks);
    let check = u16_at(block, 0);
    let others = [0, 0, 1, 0xffff, check ^ 0xffff, check.swap_bytes()];
    let other = random.pick(&others);
    block[..2].copy_from_slice(&other.to_be_bytes());
}

/// Puts 0 in for a check word of 65,535, so that the sum still fits.  The last
/// word of the records is changed before, so that 65,535 is the check word.
fn clear_fitting_check(random: &mut Random, blocks: &mut [Vec<u8>]) {
    let block = some_block(random, blocks);
    let (_, end) = record_places(block);
    let at = (end & !1) - 2;
    let word = word_for_check(block, at, 0xffff);
    put(block, at, word.to_be_bytes());
    block[..2].fill(0);
}

/// Puts another count of records in.
fn change_count(random: &mut Random, blocks: &mut [Vec<u8>]) {
    let block = some_block(random, blocks);
    let count = u16_at(block, COUNT_AT);
    let others = [0, 0, count - 1, count - 1, count + 1, count + 1];
    let far = random.pick(&[46, 256 + count, count << 8, 0xffff]);
    let other = random.pick(&others);
    let other = random.pick(&[other, other, other, far]);
    put(block, COUNT_AT, other.to_be_bytes());
}

/// Puts another time in the head.
fn change_head_time(random: &mut Random, blocks: &mut [Vec<u8>]) {
    let block = some_block(random, blocks);
    let time = u64_at(block, TIME_AT);
    let last = last_time(block);
    let bit = 1 << random.below(64);
    let others = [
        time.wrapping_add(1),
        time.wrapping_sub(1),
        last,
        0,
        time ^ bit,
    ];
    let other = random.pick(&others);
    put(block, TIME_AT, other.to_be_bytes());
}

/// Puts a port in that the clock does not have.
fn change_port(random: &mut Random, blocks: &mut [Vec<u8>]) {
    let block = some_block(random, blocks);
    let at = some_record(random, block);
    block[at + RECORD_PORT_AT] = random.pick(&FOREIGN_PORTS);
    seal(block);
}

/// Puts another length in: one that ends with the block, which is no fault in a
/// last record, one octet more, or any other.
fn change_length(random: &mut Random, blocks: &mut [Vec<u8>]) {
    let block = some_block(random, blocks);
    let at = some_record(random, block);
    let length = u16_at(block, at + RECORD_LENGTH_AT);
    let to_end = (BLOCK_SIZE - at).saturating_sub(RECORD_HEAD) as u16;
    let near = random.pick(&[length.wrapping_sub(1), length + 1]);
    let far = random.pick(&[485, 486, 0x0100 | length, 0x8000, 0xffff]);
    let other = random.pick(&[to_end, to_end + 1, to_end + 1, to_end + 2, near, far]);
    put(block, at + RECORD_LENGTH_AT, other.to_be_bytes());
}

/// Puts something into the zeros behind the records, where there are any.
fn litter(random: &mut Random, blocks: &mut [Vec<u8>]) {
    let block = some_block(random, blocks);
    let (_, end) = record_places(block);
    if end < BLOCK_SIZE {
        let any = end + random.place(BLOCK_SIZE - end);
        let at = random.pick(&[end, any, BLOCK_SIZE - 1]);
        block[at] = 1 << random.below(8);
        seal(block);
    }
}

/// Two blocks next to each other, where there are two: the place of the latter.
fn some_pair(random: &mut Random, blocks: &[Vec<u8>]) -> Option<usize> {
    (blocks.len() > 1).then(|| 1 + random.place(blocks.len() - 1))
}

/// Gives a block the number of the one before it, or a lower one.
fn lower_number(random: &mut Random, blocks: &mut [Vec<u8>]) {
    let Some(at) = some_pair(random, blocks) else {
        return change_count(random, blocks);
    };
    let before = u32_at(&blocks[at - 1], NUMBER_AT);
    let lower = [before, before, before, before.saturating_sub(1), 0];
    let lower = random.pick(&lower);
    put(&mut blocks[at], NUMBER_AT, lower.to_be_bytes());
}

/// Gives a record a time below that of the one before it in its block, mostly
/// one below.
fn lower_time_inside(random: &mut Random, blocks: &mut [Vec<u8>]) {
    let block = some_block(random, blocks);
    let (places, _) = record_places(block);
    if places.len() < 2 {
        return lower_first_time(random, blocks);
    }
    let place = 1 + random.place(places.len() - 1);
    let before = u64_at(block, places[place - 1]);
    let lower = random.pick(&[before.saturating_sub(1), before.saturating_sub(1), 0]);
    put(block, places[place], lower.to_be_bytes());
}

/// Gives a block's first record, and its head, a time below the last one of the
/// block before it, mostly one below.
fn lower_first_time(random: &mut Random, blocks: &mut [Vec<u8>]) {
    let Some(at) = some_pair(random, blocks) else {
        return change_head_time(random, blocks);
    };
    let before = last_time(&blocks[at - 1]);
    let first = u64_at(&blocks[at - 1], TIME_AT);
    let lower = random.pick(&[before.saturating_sub(1), before.saturating_sub(1), first, 0]);
    put(&mut blocks[at], TIME_AT, lower.to_be_bytes());
    put(&mut blocks[at], RECORDS_AT, lower.to_be_bytes());
}

/// Exchanges two words of a block, which no check can see.
fn exchange_words(random: &mut Random, blocks: &mut [Vec<u8>]) {
    let block = some_block(random, blocks);
    let (_, end) = record_places(block);
    let words = end / 2;
    let (one, other) = (2 * random.place(words), 2 * random.place(words));
    block.swap(one, other);
    block.swap(one + 1, other + 1);
}

/// Puts 65,535 in the place of a word that is 0, which no check can see.
fn fill_empty_word(random: &mut Random, blocks: &mut [Vec<u8>]) {
    let block = some_block(random, blocks);
    let empty = |at: &usize| u16_at(block, *at) == 0;
    let empty: Vec<usize> = (0..BLOCK_SIZE).step_by(2).filter(empty).collect();
    if !empty.is_empty() {
        let at = random.pick(&empty);
        block[at..at + 2].fill(0xff);
    }
}

/// Exchanges two blocks, or turns them all round.
fn move_block(random: &mut Random, blocks: &mut [Vec<u8>]) {
    match some_pair(random, blocks) {
        Some(at) if random.chance(2, 3) => blocks.swap(at, at - 1),
        _ => blocks.reverse(),
    }
}

/// Lets a block come twice, drops one, which is no fault, or puts in one that
/// holds nothing.
fn repeat_or_drop(random: &mut Random, blocks: &mut Vec<Vec<u8>>) {
    let at = random.place(blocks.len());
    match random.below(4) {
        0 => blocks.insert(at, blocks[at].clone()),
        1 => {
            blocks.remove(at);
        }
        2 => {
            let octet = random.pick(&[0, 0, 0xff]);
            blocks.insert(at, vec![octet; BLOCK_SIZE]);
        }
        _ => {
            let mut without_record = vec![0; BLOCK_SIZE];
            let number = u32_at(&blocks[at], NUMBER_AT).saturating_add(1);
            put(&mut without_record, NUMBER_AT, number.to_be_bytes());
            blocks.insert(at + 1, without_record);
        }
    }
}

/// Cuts octets off a trace's end, seldom a whole block.
fn cut_end(random: &mut Random, mut trace: Vec<u8>) -> Vec<u8> {
    let count = odd_length(random).min(trace.len());
    trace.truncate(trace.len() - count);
    trace
}

/// Puts octets behind a trace's end, or one before its begin.
fn lengthen(random: &mut Random, mut trace: Vec<u8>) -> Vec<u8> {
    let octet = random.pick(&[0, 0, 1, 0xff]);
    if random.chance(1, 6) {
        trace.insert(0, octet);
    } else {
        trace.extend(vec![octet; odd_length(random)]);
    }
    trace
}

#[cfg(test)]
mod tests {
    use super::*;
    use crate::engine::clock::Clock;
    use crate::engine::replay::records_of_trace;
    use crate::trial::scene_lines::base;
    use crate::trial::traces::{blocks, history};

    #[test]
    fn most_damage_is_a_fault() {
        let mut random = Random::new(7);
        let mut refused = 0;
        for _ in 0..3000 {
            let base = base(&mut random);
            let history = history(&mut random, &mut Clock::fresh(), &base);
            let blocks = blocks(&mut random, &history);
            assert_eq!(
                records_of_trace(&blocks.concat()).unwrap().len(),
                history.len()
            );
            refused += u32::from(records_of_trace(&damaged(&mut random, blocks)).is_err());
        }
        assert!((2300..2900).contains(&refused), "{refused}");
    }
}
