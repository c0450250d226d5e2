//! TLVs for tails: White Rabbit messages as they should be, one field or one
//! size away from that, and TLVs of other kinds.

use super::random::Random;
use super::values;
use crate::engine::octets::push_number;
use crate::engine::white_rabbit::{
    data_size, ANN_SUFIX, CALIBRATE, CALIBRATED, LOCK, LOCKED, ORGANIZATION_EXTENSION, OUI,
    SLAVE_PRESENT, VERSION, WR_MODE_ON,
};

/// The numbers of the seven messages.
const LISTED: [u16; 7] = [
    SLAVE_PRESENT,
    LOCK,
    LOCKED,
    CALIBRATE,
    CALIBRATED,
    WR_MODE_ON,
    ANN_SUFIX,
];
/// Numbers beside the listed ones, and 001's other number of the suffix.
const UNLISTED: [u16; 10] = [
    0x0000, 0x0010, 0x0fff, 0x1006, 0x1010, 0x1fff, 0x2001, 0x0020, 0x3000, 0xffff,
];
/// Types that are no organization's extension.
const OTHER_TYPES: [u16; 10] = [
    0x0000, 0x0001, 0x0002, 0x0004, 0x0008, 0x0103, 0x0300, 0x2004, 0x8003, 0xffff,
];

/// The fields of a TLV in White Rabbit form.
struct WrFields {
    tlv_type: u16,
    oui: [u8; 3],
    magic: u16,
    version: u8,
    number: u16,
    data: Vec<u8>,
}

impl WrFields {
    /// The whole TLV.
    fn tlv(&self) -> Vec<u8> {
        let mut data = self.oui.to_vec();
        push_number(&mut data, u64::from(self.magic), 2);
        data.push(self.version);
        push_number(&mut data, u64::from(self.number), 2);
        data.extend_from_slice(&self.data);
        tlv(self.tlv_type, &data)
    }
}

/// A TLV of a type and data.
pub fn tlv(tlv_type: u16, data: &[u8]) -> Vec<u8> {
    let mut octets = Vec::with_capacity(4 + data.len());
    push_number(&mut octets, u64::from(tlv_type), 2);
    push_number(&mut octets, data.len() as u64, 2);
    octets.extend_from_slice(data);
    octets
}

/// The fields of a White Rabbit message with so many octets of data.
fn wr_fields(random: &mut Random, magic: u16, number: u16, size: usize) -> WrFields {
    WrFields {
        tlv_type: ORGANIZATION_EXTENSION,
        oui: OUI,
        magic,
        version: VERSION,
        number,
        data: wr_data(random, size),
    }
}

/// Data of a White Rabbit message: any octets, all ones, or low numbers.
fn wr_data(random: &mut Random, size: usize) -> Vec<u8> {
    match random.below(4) {
        0 => vec![0xff; size],
        1 => {
            let mut data = vec![0; size];
            if let Some(last) = data.last_mut() {
                *last = random.below(16) as u8;
            }
            data
        }
        _ => random.octets(size),
    }
}

/// One of the seven messages, with data of its size.
fn sound_wr(random: &mut Random, magic: u16, number: u16) -> Vec<u8> {
    let size = data_size(number).unwrap_or(0);
    wr_fields(random, magic, number, size).tlv()
}

/// One of the seven messages whose data are one octet off, so that its length
/// is odd, or misfit.
pub fn wrong_size_wr(random: &mut Random, magic: u16) -> Vec<u8> {
    if random.chance(4, 5) {
        return misfit(random, magic);
    }
    let number = random.pick(&LISTED);
    let right = data_size(number).unwrap_or(0);
    let size = random.pick(&[right + 1, right.max(2) - 1]);
    wr_fields(random, magic, number, size).tlv()
}

/// One of the seven messages with data of an even and wrong size: two octets
/// off, absent, or of another message's size.
pub fn misfit(random: &mut Random, magic: u16) -> Vec<u8> {
    let number = random.pick(&LISTED);
    let right = data_size(number).unwrap_or(0);
    let sizes = [right + 2, right.max(2) - 2, 0, 2, 6, 16, 12, 32];
    let size = match random.pick(&sizes) {
        size if size == right => right + 2,
        size => size,
    };
    wr_fields(random, magic, number, size).tlv()
}

/// A TLV that is White Rabbit but for one field, of a right or wrong size.
fn nearly_wr(random: &mut Random, magic: u16) -> Vec<u8> {
    let number = random.pick(&LISTED);
    let right = data_size(number).unwrap_or(0);
    let size = right + 2 * random.place(2);
    let mut fields = wr_fields(random, magic, number, size);
    match random.below(5) {
        0 => fields.oui[random.place(3)] ^= 1 << random.below(8),
        1 => fields.magic = other_magic(random, magic),
        2 => fields.version = random.pick(&[0, 2, 3, 0x11, 0x81, 255]),
        3 => fields.number = unlisted_number(random),
        _ => fields.tlv_type = random.pick(&OTHER_TYPES),
    }
    fields.tlv()
}

/// A magic that is not the set one.
fn other_magic(random: &mut Random, magic: u16) -> u16 {
    let others = [
        0xabcd,
        magic.swap_bytes(),
        magic ^ 1 << random.below(16),
        magic.wrapping_add(1),
        values::u16(random),
    ];
    let other = random.pick(&others);
    if other == magic {
        !magic
    } else {
        other
    }
}

/// A message number that is not listed.
fn unlisted_number(random: &mut Random) -> u16 {
    let number = values::u16(random);
    if random.chance(1, 4) && data_size(number).is_none() {
        number
    } else {
        random.pick(&UNLISTED)
    }
}

/// An organization's extension too short for the White Rabbit form.
fn short_extension(random: &mut Random, magic: u16) -> Vec<u8> {
    let whole = wr_fields(random, magic, SLAVE_PRESENT, 0).tlv();
    let size = 2 * random.place(4);
    tlv(ORGANIZATION_EXTENSION, &whole[4..4 + size])
}

/// A TLV of another type, or an extension of no form at all.
fn other_tlv(random: &mut Random) -> Vec<u8> {
    let tlv_type = match random.below(8) {
        0 => ORGANIZATION_EXTENSION,
        1 => values::u16(random),
        _ => random.pick(&OTHER_TYPES),
    };
    let size = match random.below(40) {
        0..=9 => 0,
        39 => 2 * random.place(400),
        _ => 2 * random.place(12),
    };
    tlv(tlv_type, &random.octets(size))
}

/// A TLV without data, of any type.
pub fn empty_tlv(random: &mut Random) -> Vec<u8> {
    let others = random.pick(&OTHER_TYPES);
    tlv(random.pick(&[ORGANIZATION_EXTENSION, others, others]), &[])
}

/// A TLV that no reading check refuses; `usual` numbers are the ones that this
/// type of message carries.
pub fn sound_tlv(random: &mut Random, magic: u16, usual: &[u16]) -> Vec<u8> {
    match random.below(16) {
        0..=5 => {
            let number = random.pick(usual);
            sound_wr(random, magic, number)
        }
        6 | 7 => {
            let number = random.pick(&LISTED);
            sound_wr(random, magic, number)
        }
        8..=11 => nearly_wr(random, magic),
        12 => short_extension(random, magic),
        _ => other_tlv(random),
    }
}

/// The numbers of all seven messages.
pub fn every_number() -> &'static [u16] {
    &LISTED
}

/// The numbers that a Signaling carries.
pub fn link_numbers() -> &'static [u16] {
    &LISTED[..6]
}

/// A number that a Signaling does not carry, the suffix's among them.
pub fn other_number(random: &mut Random) -> u16 {
    if random.chance(1, 4) {
        ANN_SUFIX
    } else {
        unlisted_number(random)
    }
}
