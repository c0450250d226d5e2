//! Tails that try where reading says the fault sits: TLVs that are not whole or
//! not even (6) and White Rabbit messages of a wrong size (7), before, behind
//! and between sound TLVs of all kinds.

use super::random::Random;
use super::tails::{self, every_number, misfit, sound_tlv};
use crate::engine::tlv::HEAD;

/// The pieces of a tail that hardly ever is sound: TLVs, and at its end maybe
/// fewer octets than a TLV's head.
pub fn bad_tail(random: &mut Random, magic: u16) -> Vec<Vec<u8>> {
    let mut pieces = sound_run(random, magic);
    let has_misfits = random.chance(3, 5);
    if has_misfits {
        insert_misfits(random, magic, &mut pieces);
    }
    if !has_misfits || random.chance(1, 3) {
        push_broken(random, magic, &mut pieces);
    }
    pieces
}

/// Some sound TLVs: mostly none or a few, now and then many or one that nearly
/// fills the message.
fn sound_run(random: &mut Random, magic: u16) -> Vec<Vec<u8>> {
    match random.below(2000) {
        0 => empty_run(random, 4000),
        1 => vec![long_tlv(random)],
        2..=10 => empty_run(random, 300),
        11..=30 => {
            let count = 7 + random.place(60);
            sound_tlvs(random, magic, count)
        }
        _ => {
            let count = random.pick(&[0, 0, 0, 1, 1, 1, 2, 2, 3, 4, 6]);
            sound_tlvs(random, magic, count)
        }
    }
}

/// So many sound TLVs.
fn sound_tlvs(random: &mut Random, magic: u16, count: usize) -> Vec<Vec<u8>> {
    (0..count)
        .map(|_| sound_tlv(random, magic, every_number()))
        .collect()
}

/// TLVs without data, fewer than `most`.
fn empty_run(random: &mut Random, most: usize) -> Vec<Vec<u8>> {
    let count = random.place(most);
    (0..count).map(|_| tails::empty_tlv(random)).collect()
}

/// A TLV that brings any type of message close to the greatest length, or to it.
fn long_tlv(random: &mut Random) -> Vec<u8> {
    let size = 65_400 + 2 * random.place(45);
    tails::tlv(0x0008, &random.octets(size))
}

/// Puts one to three messages of a wrong size before, behind or between what is
/// there.
fn insert_misfits(random: &mut Random, magic: u16, pieces: &mut Vec<Vec<u8>>) {
    for _ in 0..random.pick(&[1, 1, 1, 2, 2, 3]) {
        let any = random.place(pieces.len() + 1);
        let index = random.pick(&[0, pieces.len(), any]);
        pieces.insert(index, misfit(random, magic));
    }
}

/// Puts something at the end that a walk hardly comes through.
fn push_broken(random: &mut Random, magic: u16, pieces: &mut Vec<Vec<u8>>) {
    match random.below(10) {
        0..=2 => pieces.push(left_over(random, magic)),
        3 => pieces.push(cut_short(random, magic)),
        4..=6 => push_odd(random, magic, pieces),
        7 | 8 => push_running_past(random, magic, pieces),
        _ => push_out_of_step(random, magic, pieces),
    }
}

/// A sound TLV or a message of a wrong size.
fn any_tlv(random: &mut Random, magic: u16) -> Vec<u8> {
    if random.chance(1, 4) {
        misfit(random, magic)
    } else {
        sound_tlv(random, magic, every_number())
    }
}

/// One to three octets: zeros, the first of a TLV, or any.
fn left_over(random: &mut Random, magic: u16) -> Vec<u8> {
    let count = 1 + random.place(3);
    match random.below(3) {
        0 => vec![0; count],
        1 => any_tlv(random, magic)[..count].to_vec(),
        _ => random.octets(count),
    }
}

/// A TLV without its last octets; at least the first of its head is left.
fn cut_short(random: &mut Random, magic: u16) -> Vec<u8> {
    let mut tlv = any_tlv(random, magic);
    let left = 1 + random.place(tlv.len() - 1);
    tlv.truncate(left);
    tlv
}

/// A TLV of odd length, its data there or one octet short, and some of what a
/// reader must not come to behind it.
fn push_odd(random: &mut Random, magic: u16, pieces: &mut Vec<Vec<u8>>) {
    let mut tlv = any_tlv(random, magic);
    if random.chance(1, 2) {
        tlv.push(random.octet());
    }
    let length = tlv.len() - HEAD;
    let odd = random.pick(&[length, length, length.max(1) - 1, 0, 7, 9, 0xffff]) | 1;
    set_length(&mut tlv, odd);
    pieces.push(tlv);
    push_behind(random, magic, pieces);
}

/// A TLV whose length is even and passes the end, by two octets or by many,
/// with what it runs over.
fn push_running_past(random: &mut Random, magic: u16, pieces: &mut Vec<Vec<u8>>) {
    let index = pieces.len();
    pieces.push(any_tlv(random, magic));
    push_behind(random, magic, pieces);
    let there: usize = pieces[index..].iter().map(Vec::len).sum();
    let left = (there - HEAD).next_multiple_of(2);
    let length = random.pick(&[left + 2, left + 2, left + 4, left + 100, 0xfffe]);
    set_length(&mut pieces[index], length.min(0xfffe));
}

/// A TLV whose length is even and ends elsewhere than its data, so that the
/// next is looked for inside its data or behind the next one's beginning.
fn push_out_of_step(random: &mut Random, magic: u16, pieces: &mut Vec<Vec<u8>>) {
    let mut tlv = any_tlv(random, magic);
    let length = tlv.len() - HEAD;
    let other = random.pick(&[length + 2, length + 4, length.max(2) - 2, length.max(4) - 4]);
    set_length(&mut tlv, other);
    pieces.push(tlv);
    push_behind(random, magic, pieces);
}

/// What stands behind a broken TLV: nothing, sound ones, a message of a wrong
/// size, octets left over.
fn push_behind(random: &mut Random, magic: u16, pieces: &mut Vec<Vec<u8>>) {
    match random.below(5) {
        0 | 1 => {}
        2 => pieces.extend(sound_tlvs(random, magic, 2)),
        3 => pieces.push(misfit(random, magic)),
        _ => pieces.push(left_over(random, magic)),
    }
}

/// Sets the length in a TLV's head.
fn set_length(tlv: &mut [u8], length: usize) {
    tlv[2..4].copy_from_slice(&(length as u16).to_be_bytes());
}
