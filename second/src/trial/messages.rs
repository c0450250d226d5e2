//! Messages as octets: sound ones with every odd value that reading allows,
//! and the same spoiled in one place.

use super::bad_tails::bad_tail;
use super::random::Random;
use super::tails;
use super::values;
use crate::engine::message::{Announce, Body, Header, Message, MessageType, LISTED_TYPES, SECOND};
use crate::engine::octets::{number_at, u16_at};
use crate::engine::tlv::HEAD;
use crate::engine::white_rabbit::ANN_SUFIX;
use crate::engine::writing::lay_out;

/// The longest messageLength that even TLVs can reach.
const LONGEST_MESSAGE: usize = 65_534;

/// The octets of a message that are to be lent, and where its TLVs begin.
pub struct Draft {
    pub octets: Vec<u8>,
    fixed_size: usize,
    tlvs: Vec<usize>,
}

impl Draft {
    /// A sound message of these fields, with a tail of some TLVs.
    pub fn sound(random: &mut Random, magic: u16, header: Header, body: Body) -> Draft {
        let message_type = body.message_type();
        let message = Message {
            header,
            body,
            tail: &[],
        };
        let mut draft = Draft {
            octets: lay_out(&message),
            fixed_size: message_type.fixed_size(),
            tlvs: Vec::new(),
        };
        draft.smudge(random);
        for _ in 0..tlv_count(random) {
            draft.append(&tails::sound_tlv(
                random,
                magic,
                usual_numbers(message_type),
            ));
        }
        draft
    }

    /// Puts anything where a reader is to ignore it.
    fn smudge(&mut self, random: &mut Random) {
        if random.chance(1, 3) {
            self.octets[1] |= random.octet() & 0xf0;
            self.octets[5] = random.octet();
            self.octets[16..20].copy_from_slice(&random.octets(4));
            self.octets[32] = random.octet();
            if self.fixed_size == MessageType::Announce.fixed_size() {
                self.octets[46] = random.octet();
            }
        }
    }

    /// Sets messageLength, as far as its field goes.
    fn set_length(&mut self, length: usize) {
        let length = length.min(65_535) as u16;
        self.octets[2..4].copy_from_slice(&length.to_be_bytes());
    }

    /// The message with a TLV more at its end.
    fn append(&mut self, tlv: &[u8]) {
        self.insert(self.tlvs.len(), tlv);
    }

    /// The message with octets more at its end that are too few for a TLV.
    fn extend(&mut self, octets: &[u8]) {
        self.octets.extend_from_slice(octets);
        self.set_length(self.octets.len());
    }

    /// The message with a TLV more before the one of that index.
    fn insert(&mut self, index: usize, tlv: &[u8]) {
        let at = self.tlvs.get(index).copied().unwrap_or(self.octets.len());
        self.octets.splice(at..at, tlv.iter().copied());
        for start in &mut self.tlvs[index..] {
            *start += tlv.len();
        }
        self.tlvs.insert(index, at);
        self.set_length(self.octets.len());
    }

    /// Where one of the TLVs begins; one is added if there is none.
    fn some_tlv(&mut self, random: &mut Random, magic: u16) -> usize {
        if self.tlvs.is_empty() {
            self.append(&tails::sound_tlv(random, magic, &[ANN_SUFIX]));
        }
        random.pick(&self.tlvs)
    }

    /// The type of one of the TLVs, if there is any.
    pub fn some_tlv_type(&self, random: &mut Random) -> Option<u16> {
        if self.tlvs.is_empty() {
            return None;
        }
        let at = random.pick(&self.tlvs);
        (at + 2 <= self.octets.len()).then(|| u16_at(&self.octets, at))
    }

    /// Fills the message up to the longest there is, or near it, with one TLV
    /// or with as many as there is room for.
    fn fill(&mut self, random: &mut Random) {
        let size = LONGEST_MESSAGE - self.octets.len() - 4 - 2 * random.pick(&[0, 0, 1, 9]);
        if random.chance(1, 3) {
            for _ in 0..size / 4 {
                self.append(&tails::empty_tlv(random));
            }
        } else {
            let data = random.octets(size);
            self.append(&tails::tlv(0x0008, &data));
        }
    }

    /// Puts octets behind messageLength.
    fn pad(&mut self, random: &mut Random, count: usize) {
        let padding = match random.below(3) {
            0 => vec![0; count],
            1 => tails::tlv(0x0003, &random.octets(count)),
            _ => random.octets(count),
        };
        self.octets.extend_from_slice(&padding);
    }

    /// Puts a few octets behind messageLength.
    fn pad_a_little(&mut self, random: &mut Random) {
        let count = 1 + random.place(20);
        self.pad(random, count);
    }

    /// Spoils the message in one place.
    fn spoil(&mut self, random: &mut Random, magic: u16) {
        match random.below(15) {
            0 => self.lend_fewer(random),
            1 => self.octets[1] = self.octets[1] & 0xf0 | random.pick(&[0, 1, 3, 6, 10, 15]),
            2 => self.octets[0] = self.octets[0] & 0xf0 | random.below(16) as u8,
            3 => self.shorten_length(random),
            4 => self.lengthen_length(random),
            5 => self.end_inside_tail(random, magic),
            6 | 7 => self.spoil_stamp(random),
            8 => self.make_tlv_odd(random, magic),
            9 => self.make_tlv_run_past(random, magic),
            10 => self.leave_octets_over(random),
            11 | 12 => self.insert_wrong_size(random, magic),
            13 => self.change_octet(random),
            _ => self.cut(random),
        }
    }

    /// Lends no more than an edge.
    fn lend_fewer(&mut self, random: &mut Random) {
        let edges = [0, 1, 33, 34, 35, self.fixed_size - 1, self.fixed_size];
        self.octets.truncate(random.pick(&edges));
    }

    /// Sets messageLength below the fixed size.
    fn shorten_length(&mut self, random: &mut Random) {
        let edges = [0, 33, 34, 43, self.fixed_size - 1, self.fixed_size - 1];
        let any = random.place(self.fixed_size);
        let edge = random.pick(&edges);
        self.set_length(random.pick(&[any, edge, edge]));
        if random.chance(1, 3) {
            self.octets
                .truncate(random.pick(&[34, 44, self.fixed_size]));
        }
    }

    /// Sets messageLength beyond what is lent.
    fn lengthen_length(&mut self, random: &mut Random) {
        let lent = self.octets.len();
        let any = lent + random.place(300);
        self.set_length(random.pick(&[lent + 1, lent + 2, 65_535, 65_534, any]));
    }

    /// Sets messageLength to any place of the tail.
    fn end_inside_tail(&mut self, random: &mut Random, magic: u16) {
        self.some_tlv(random, magic);
        let tail = self.octets.len() - self.fixed_size;
        self.set_length(self.fixed_size + random.place(tail + 1));
    }

    /// Sets the nanoseconds, or in a Signaling what stands in their place.
    fn spoil_stamp(&mut self, random: &mut Random) {
        let edges = [
            SECOND,
            SECOND,
            SECOND + 1,
            SECOND - 1,
            u32::MAX,
            1 << 31,
            1 << 30,
        ];
        let nanoseconds = random.pick(&edges);
        self.octets[40..44].copy_from_slice(&nanoseconds.to_be_bytes());
    }

    /// Moves a TLV's length by one.
    fn make_tlv_odd(&mut self, random: &mut Random, magic: u16) {
        let at = self.some_tlv(random, magic) + 2;
        let length = u16_at(&self.octets, at);
        let odd = match random.below(3) {
            0 => length.wrapping_sub(1),
            1 => random.below(8) as u16 | 1,
            _ => length.wrapping_add(1),
        };
        self.octets[at..at + 2].copy_from_slice(&odd.to_be_bytes());
    }

    /// Makes a TLV's length even but wrong, mostly past the end.
    fn make_tlv_run_past(&mut self, random: &mut Random, magic: u16) {
        let at = self.some_tlv(random, magic) + 2;
        let left = (self.octets.len() - at - 2) as u16;
        let past = [
            left.wrapping_add(2),
            left.wrapping_add(4),
            0xfffe,
            0xfffc,
            left,
        ];
        let length = random.pick(&past);
        self.octets[at..at + 2].copy_from_slice(&length.to_be_bytes());
    }

    /// Puts one to three octets behind the last TLV, within messageLength.
    fn leave_octets_over(&mut self, random: &mut Random) {
        let count = 1 + random.place(3);
        if random.chance(1, 2) {
            self.extend(&vec![0; count]);
        } else {
            self.extend(&random.octets(count));
        }
    }

    /// Puts a White Rabbit message of a wrong size among the TLVs.
    fn insert_wrong_size(&mut self, random: &mut Random, magic: u16) {
        let index = random.place(self.tlvs.len() + 1);
        self.insert(index, &tails::wrong_size_wr(random, magic));
    }

    /// Changes any octet.
    fn change_octet(&mut self, random: &mut Random) {
        if !self.octets.is_empty() {
            let at = random.place(self.octets.len());
            self.octets[at] ^= 1 << random.below(8);
        }
    }

    /// Lends the message up to any place.
    fn cut(&mut self, random: &mut Random) {
        let place = random.place(self.octets.len() + 1);
        self.octets.truncate(place);
    }

    /// Whether the octets still hold the header and body they were made with,
    /// so that another fault can be put in.
    fn is_whole(&self) -> bool {
        let lent = self.octets.len();
        lent >= self.fixed_size && number_at(&self.octets, 2, 2) as usize == lent
    }

    /// Makes the draft what a caller may lend: mostly sound or spoiled once,
    /// now and then twice, padded or very long.
    pub fn weather(&mut self, random: &mut Random, magic: u16) {
        if random.chance(1, 2000) {
            self.fill(random);
        }
        let faults = random.pick(&[0, 0, 0, 0, 0, 1, 1, 1, 1, 2]);
        for _ in 0..faults {
            if self.is_whole() {
                self.spoil(random, magic);
            }
        }
        if random.chance(1, 2000) {
            self.pad(random, 65_000);
        } else if random.chance(1, 4) {
            self.pad_a_little(random);
        }
    }

    /// Puts in the tail's place one that reading is to refuse with 6 or 7, now
    /// and then with another fault beside it, and some padding.
    pub fn give_bad_tail(&mut self, random: &mut Random, magic: u16) {
        self.octets.truncate(self.fixed_size);
        self.tlvs.clear();
        for piece in bad_tail(random, magic) {
            if piece.len() < HEAD {
                self.extend(&piece);
            } else {
                self.append(&piece);
            }
        }
        if random.chance(1, 16) && self.is_whole() {
            self.spoil(random, magic);
        }
        if random.chance(1, 3) {
            self.pad_a_little(random);
        }
    }
}

/// How many TLVs a tail has: mostly none or a few, now and then many.
pub fn tlv_count(random: &mut Random) -> usize {
    if random.chance(1, 200) {
        return 7 + random.place(60);
    }
    random.pick(&[0, 0, 0, 1, 1, 1, 1, 2, 2, 3, 4, 6])
}

/// The White Rabbit messages that a type carries.
pub fn usual_numbers(message_type: MessageType) -> &'static [u16] {
    match message_type {
        MessageType::Announce => &[ANN_SUFIX],
        _ => tails::link_numbers(),
    }
}

/// A header of any values.
pub fn header(random: &mut Random) -> Header {
    Header {
        transport_specific: random.pick(&[0, 0, 0, 1, 3, 15]),
        domain: values::octet(random),
        flags: values::u16(random),
        correction: values::number(random, 64) as i64,
        source: values::identity(random),
        sequence: values::u16(random),
        log_interval: values::octet(random) as i8,
    }
}

/// A body of any values that reading accepts.
pub fn body(random: &mut Random, message_type: MessageType) -> Body {
    let stamp = values::timestamp(random);
    match message_type {
        MessageType::Sync => Body::Sync(stamp),
        MessageType::DelayReq => Body::DelayReq(stamp),
        MessageType::FollowUp => Body::FollowUp(stamp),
        MessageType::DelayResp => Body::DelayResp(stamp, values::identity(random)),
        MessageType::Announce => Body::Announce(stamp, announce(random)),
        MessageType::Signaling => Body::Signaling(values::identity(random)),
    }
}

/// An Announce's fields.
pub fn announce(random: &mut Random) -> Announce {
    Announce {
        utc_offset: values::u16(random) as i16,
        priority1: values::octet(random),
        class: values::octet(random),
        accuracy: values::octet(random),
        variance: values::u16(random),
        priority2: values::octet(random),
        grandmaster: values::clock(random),
        steps_removed: values::u16(random),
        time_source: values::octet(random),
    }
}

/// A message, mostly of the type wanted, as a caller may lend it.
pub fn message(random: &mut Random, magic: u16, wanted: Option<MessageType>) -> Draft {
    let message_type = match wanted {
        Some(wanted) if random.chance(9, 10) => wanted,
        _ => random.pick(&LISTED_TYPES),
    };
    let header = header(random);
    let body = body(random, message_type);
    let mut draft = Draft::sound(random, magic, header, body);
    if random.chance(1, 4) {
        draft.give_bad_tail(random, magic);
    } else {
        draft.weather(random, magic);
    }
    draft
}

/// Octets of no message, some of them beginning like one.
pub fn noise(random: &mut Random) -> Vec<u8> {
    let count = random.pick(&[0, 1, 2, 33, 34, 43, 44, 45, 64, 78, 100]);
    let mut octets = random.octets(count);
    if count >= 4 && random.chance(2, 3) {
        octets[0] = random.pick(&LISTED_TYPES).number();
        octets[1] = 2;
        octets[2..4].copy_from_slice(&(count as u16).to_be_bytes());
    }
    octets
}
